"""What the generators of examples share: a script with the text that is expected of it, and the standards' own ways to write bytes.

Only Python's standard library is used, and nothing of the programs that read the scripts.
"""
import hashlib
import hmac
import ipaddress
import json
import os
import sys

ROOT = os.path.dirname(os.path.dirname(os.path.dirname(os.path.abspath(__file__))))
T = 1_700_000_000
# RFC 868: the seconds from 1900 to 1970.
TO_1970 = 2_208_988_800
PHRASES = {200: "OK", 400: "Bad Request", 404: "Not Found", 405: "Method Not Allowed", 409: "Conflict",
           413: "Payload Too Large", 422: "Unprocessable Entity", 500: "Internal Server Error", 503: "Service Unavailable"}
# CM-SP-MULPIv3.1, annex C: the top-level settings that have parts.
GROUPS = (22, 23, 24, 25, 43)
# The settings that the CMTS MIC covers, in order: this project's profile.
COVERED = (1, 2, 3, 4, 17, 43, 6, 18, 19, 20, 22, 23, 24, 25, 28, 29, 26, 35, 36, 37, 40)
KINDS = ("site", "subscriber", "add-on", "modem", "class", "pool", "lease", "held", "batch", "hub", "pool-hub", "device-pool", "device")


def ip(number):
    """An IPv4 address in dotted decimal."""
    return str(ipaddress.IPv4Address(number))


def escaped(data):
    """Bytes as the programs print them: those past 2,000 by their number and their MD5 digest."""
    if len(data) > 2000:
        return digest(data)
    names = {10: "\\n", 13: "\\r", 92: "\\\\"}
    return "".join(names.get(byte, chr(byte) if 32 <= byte <= 126 else f"\\x{byte:02x}") for byte in data)


def hexed(data):
    """Bytes in hexadecimal, those past 2,000 by their number and their MD5 digest."""
    return digest(data) if len(data) > 2000 else data.hex()


def digest(data):
    return f"{len(data)} bytes, md5 {hashlib.md5(data).hexdigest()}"


def quoted(data):
    """Bytes between apostrophes, as a script writes them."""
    return "'" + escaped(data).replace("'", "\\'") + "'"


def compact(value):
    """JSON text (RFC 8259) without spaces, its names in order."""
    return json.dumps(value, sort_keys=True, separators=(",", ":"), ensure_ascii=False)


def reply(status, body):
    """An HTTP reply (RFC 9112) with a JSON text."""
    body = body if isinstance(body, bytes) else body.encode()
    head = f"HTTP/1.1 {status} {PHRASES[status]}\r\nContent-Type: application/json\r\nContent-Length: {len(body)}\r\nConnection: close\r\n\r\n"
    return head.encode() + body


def request(method, path, body=b""):
    """An HTTP request with a body."""
    body = body if isinstance(body, bytes) else body.encode()
    return f"{method} {path} HTTP/1.1\r\nContent-Length: {len(body)}\r\n\r\n".encode() + body


def fixed(status):
    """The reply of a request that couldn't be acted on."""
    return f"HTTP/1.1 {status} {PHRASES[status]}\r\nContent-Length: 0\r\nConnection: close\r\n\r\n".encode()


def time_reply(moment):
    """RFC 868: the seconds since 1900 as 32 bits."""
    return (min(moment + TO_1970, 2**64 - 1) % 2**32).to_bytes(4, "big")


class Fault(Exception):
    """A file's first fault, as its words."""


def settings_of(data, start, end, level, outer):
    """The settings from one place on, as (code, value), and where they end."""
    found, at = [], start
    while at < end:
        code = data[at]
        if level == 0 and code in (0, 255):
            break
        if at + 1 >= end or at + 2 + data[at + 1] > end:
            raise Fault(f"cut {at}")
        stop = at + 2 + data[at + 1]
        if level == 0 and code in GROUPS or level == 1 and outer in (22, 23) and code == 9:
            settings_of(data, at + 2, stop, level + 1, code)
        found.append((code, data[at + 2:stop]))
        at = stop
    return found, at


def read_file(data):
    """The settings of a configuration file (CM-SP-MULPIv3.1, annex D.1) and where they end, or its first fault."""
    found, at = settings_of(data, 0, len(data), 0, None)
    if at == len(data):
        raise Fault("no-end")
    if data[at] == 0:
        raise Fault(f"early-pad {at}")
    for place in range(at + 1, len(data)):
        if data[place]:
            raise Fault(f"after-end {place}")
    return found, at


def spelled(settings):
    return b"".join(bytes([code, len(value)]) + value for code, value in settings)


def covered(settings):
    return b"".join(spelled([each]) for code in COVERED for each in settings if each[0] == code)


def sealed(data, secret):
    """The file with both MICs (annexes C.1.1.6 and C.1.1.7), padded to a multiple of four bytes."""
    kept = [each for each in read_file(data)[0] if each[0] not in (6, 7)]
    kept.append((6, hashlib.md5(spelled(kept)).digest()))
    kept.append((7, hmac.new(secret, covered(kept), hashlib.md5).digest()))
    made = spelled(kept) + b"\xff"
    return made + bytes(-len(made) % 4)


def verdict(data, secret):
    """Whether each MIC of a file is right."""
    found = read_file(data)[0]
    for code in (6, 7):
        values = [value for known, value in found if known == code]
        if not values:
            raise Fault(f"no-mic {code}")
        if len(values) > 1:
            raise Fault(f"twice-mic {code}")
        if len(values[0]) != 16:
            raise Fault(f"mic-length {code}")
    held = dict(each for each in found if each[0] in (6, 7))
    kept = [each for each in found if each[0] not in (6, 7)]
    return (held[6] == hashlib.md5(spelled(kept)).digest(),
            held[7] == hmac.new(secret, covered(found), hashlib.md5).digest())


def order_of(row):
    """Where a row stands in the tables: by its kind, and then by its numbers."""
    kind, *words = row.split(" ")
    key = words[:2] if kind == "add-on" else words[:0 if kind == "site" else 1]
    return KINDS.index(kind), [int(word, 16) if kind in ("modem", "held") else int(ipaddress.IPv4Address(word)) if kind in ("lease", "device") else int(word)
                                for word in key]


def shown(row):
    """A row as it is printed: its moment in full."""
    words = row.split(" ")
    if words[0] in ("lease", "device") and words[-1].startswith("t"):
        words[-1] = str(T + int(words[-1][1:] or "0"))
    return " ".join(words)


def outcome(status=0, wrote=(), raw=None, cut=None, sent=(), tables=None, calls=None):
    """The text of what comes of a run."""
    lines = [f"status {status}"]
    if raw is not None:
        lines.append(f"bytes {hexed(raw)}")
    lines += [f"| {line}" for line in wrote]
    if cut is not None:
        lines.append(f"| {cut} (no line end)")
    lines += sent
    if calls is not None:
        lines.append(f"calls of the keeper {calls}")
    if tables is not None:
        lines += [f"row {shown(row)}" for row in sorted(tables, key=order_of)]
    return lines


def datagram(service, to, data):
    return f"datagram {service} to {to} {hexed(data)}"


def answer(conn, data):
    return f"answer {conn} {escaped(data)}"


def answered(conn, status, value):
    """An answer, and the end of its connection."""
    return [answer(conn, reply(status, value if isinstance(value, str) else compact(value))), f"close {conn}"]


class Script:
    """A script, and what is expected of it."""

    def __init__(self, generator, source):
        self.source = source
        self.script = [f"# Written by tests/examples/{generator}, which says where each expected text comes from."]
        self.expected = []

    def line(self, text):
        self.script.append(text)

    def section(self, name, *sources):
        self.script += ["", f"section {name}"] + [f"# {source or self.source}" for source in sources]
        self.expected += ["", f"section {name}"]

    def run(self, remark, lines, *outcomes, again=False):
        """One run: the lines that it is made of, and what comes of it; with `fails each` of the whole run, and then of each call that fails."""
        heading = ("again" if again else "run") + (f" {remark}" if remark else "")
        self.script += [*lines, heading]
        self.expected.append(heading)
        for place, each in enumerate(outcomes):
            self.expected += (["where a call fails"] if place else []) + each

    def pair(self, given, expected):
        """A line that is answered by lines."""
        self.script.append(given)
        self.expected += [given] + ([expected] if isinstance(expected, str) else expected)

    def files(self, crate):
        folder = os.path.join(ROOT, "crates", crate)
        return {os.path.join(folder, "stdin"): "\n".join(self.script) + "\n", os.path.join(folder, "stdout"): "\n".join(self.expected) + "\n"}

    def write(self, crate):
        """Writes both files; with the word `check` it compares them instead, and ends with 1 where one differs."""
        differs = 0
        for path, text in self.files(crate).items():
            if sys.argv[1:] == ["check"]:
                with open(path, encoding="utf-8") as held:
                    if held.read() != text:
                        differs = 1
                        print("FAILED", path, "isn't what its generator writes")
            else:
                with open(path, "w", encoding="utf-8") as held:
                    held.write(text)
        return differs
