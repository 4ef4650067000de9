"""Reads the bytes of an import, for the generators of examples: by Python's csv over the rules of docs/CLERK_API.md."""
import csv
import io
import re

csv.field_size_limit(2**20)
HEADERS = {"subscribers": "subscriber,active,cpes,name", "modems": "mac,subscriber,class,serial"}
MOST_ROWS = 2_000
MARK = b"\xef\xbb\xbf"
MAC_FORMS = ("[0-9a-fA-F]{12}", "([0-9a-fA-F]{2}:){5}[0-9a-fA-F]{2}", "([0-9a-fA-F]{2}-){5}[0-9a-fA-F]{2}", r"([0-9a-fA-F]{4}\.){2}[0-9a-fA-F]{4}")


class ImportFault(Exception):
    """The first fault of an import: its word, and where it is, or None."""

    def __init__(self, word, place=None):
        super().__init__(word, place)
        self.word = word
        self.place = place


def number(least, most):
    return lambda text: bool(re.fullmatch("[0-9]{1,20}", text)) and least <= int(text) <= most


def mac(text):
    return any(re.fullmatch(form, text) for form in MAC_FORMS)


def short(text):
    data = text.encode("latin-1")
    try:
        data.decode()
    except UnicodeDecodeError:
        return False
    return len(data) <= 64


COLUMNS = {
    "subscribers": (number(0, 2**32 - 1), lambda text: text in ("yes", "no"), number(1, 254), short),
    "modems": (mac, number(0, 2**32 - 1), number(0, 2**32 - 1), short),
}


def records_of(data):
    """The records of a text, a line without anything being none. Its bytes are read one to a character."""
    text = data[len(MARK):] if data.startswith(MARK) else data
    return [record for record in csv.reader(io.StringIO(text.decode("latin-1"), newline="")) if record]


def rows_of(kind, data):
    """The rows of an import, each its four fields as they are written; or its first fault."""
    records = records_of(data)
    if not records or records[0] != HEADERS[kind].split(","):
        raise ImportFault("header")
    for row, fields in enumerate(records[1:], 1):
        if row > MOST_ROWS:
            raise ImportFault("too-many")
        if len(fields) != 4:
            raise ImportFault("width", str(row))
        for column, (read, field) in enumerate(zip(COLUMNS[kind], fields), 1):
            if not read(field):
                raise ImportFault("import-field", f"{row},{column}")
    return records[1:]
