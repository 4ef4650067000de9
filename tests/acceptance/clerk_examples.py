#!/usr/bin/env python3
"""The examples of docs/CLERK_API.md work when pasted one behind the other, and so does a clerk.

Each line is run by a shell as it stands, but for its port, and its status and answer are compared
with what the page says. Then bin/office-clerk puts, shows, removes and imports, and explains the
faults: its list of them is the page's, both ways. It ends what it started, and takes some seconds.
"""
# needs: curl
import json
import os
import re
import subprocess
import sys
import tempfile

from harness import ROOT, check, free_ports, loaded, script, serving, text_of
from harness.clerks import GOLD as FLOWS, wait_until_answering
from harness.told import SECRET
from clerk_api import table

CLERK = os.path.join(ROOT, "bin", "office-clerk")
POOL = {"first": "10.0.0.10", "last": "10.0.0.20", "prefix": 24, "router": "10.0.0.1",
        "relay": "10.0.0.1"}
ANN, GOLD = {"active": True, "cpes": 2, "name": "Ann"}, {"name": "gold", "settings": FLOWS}
SITE = {"server": "10.0.0.2", "secret": SECRET.hex(), "offset": 0, "lease": 3600, "log": "0.0.0.0"}
MODEM = {"subscriber": 7, "class": 1, "serial": ""}
NAMES = {"subscribers": "subscriber,active,cpes,name", "modems": "mac,subscriber,class,serial"}


def pasted(port):
    """Each example of the page, from the top downward, and the status and answer that it has."""
    page, answer = text_of("docs", "CLERK_API.md"), None
    count = 0
    for line in page.splitlines():
        told = re.search(r"answers `([^`]*)`", line)
        if told and answer is not None and "no-row" not in answer:
            check(answer == told.group(1), f"{answer} is what the page says")
        if not re.match(r"    (printf|curl) ", line):
            continue
        done = subprocess.run(["sh", "-c", line.replace(":8080", f":{port}")],
                              stdout=subprocess.PIPE, stderr=subprocess.DEVNULL, timeout=20)
        head, _, answer = done.stdout.decode().replace("\r", "").partition("\n\n")
        wanted = "404" if "/leases/" in line else "200"
        check(head.split(" ")[1:2] == [wanted], f"{wanted} of {line.strip()}: {head[:30]} {answer}")
        count += 1
    return count


def clerk(port, *words, given=None):
    """A clerk's status, what it prints, and what it says of a fault."""
    known = {**os.environ, "OFFICE_URL": f"http://127.0.0.1:{port}"}
    done = subprocess.run([sys.executable, CLERK, *words], env=known, input=given, timeout=30,
                          stdout=subprocess.PIPE, stderr=subprocess.PIPE)
    return done.returncode, done.stdout.decode(), done.stderr.decode()


def furnished(port, folder):
    """Rows are put in each way, shown and imported."""
    page = os.path.join(folder, "class.json")
    with open(page, "w", encoding="utf-8") as held:
        json.dump(GOLD, held)
    modems = os.path.join(folder, "modems.csv")
    with open(modems, "w", encoding="utf-8") as held:
        held.write(f"{NAMES['modems']}\n020000000001,7,1,SN01\n020000000002,7,1,\n")
    for words, given in ((("put", "site", json.dumps(SITE)), None),
                         (("put", "/classes/1", "@" + page), None),
                         (("put", "subscribers/7", "-"), json.dumps(ANN).encode()),
                         (("put", "pools/1", json.dumps(POOL)), None),
                         (("put", "hubs/7", json.dumps(SITE)), None),
                         (("delete", "hubs/7"), None)):
        found = clerk(port, *words, given=given)
        check(found[0] == 0 and json.loads(found[1]) == {"ok": True}, f"{words}: {found}")
    for _ in range(2):
        found = clerk(port, "import", modems)
        check(found[0] == 0 and json.loads(found[1]) == {"rows": 2}, f"an import: {found}")
    check(clerk(port, "import", "--batch", "9", modems)[0] == 0, "an import of a number")
    check(json.loads(clerk(port, "get", "modems/020000000001")[1])["serial"] == "SN01", "a row")


def rows(kind, *lines):
    return "\n".join([NAMES[kind], *lines, ""]).encode()


OTHER_POOL = {**POOL, "first": "10.0.1.0", "last": "10.0.1.9", "relay": "10.0.1.1"}
BAD_TREE = {"name": "", "settings": FLOWS[:1]}
# What is refused: the words, standard input, the fault, and what the explanation names.
REFUSED = [
    (("get", "subscribers/8"), b"", "no-row", "no such row"),
    (("get", "subscriber/8"), b"", "no-path", "no such path"),
    (("delete", "site"), b"", "no-method", "can't be done"),
    (("put", "site", "{"), b"", "not-json", "JSON"),
    (("put", "subscribers/7", "{}"), b"", "field", "`active`"),
    (("put", "subscribers/7", '{"active":true,"cpes":0}'), b"", "value", "`cpes`"),
    (("put", "subscribers/8/addons/0", '{"settings":[]}'), b"", "no-subscriber", "first"),
    (("put", "modems/020000000001", json.dumps({**MODEM, "class": 2})), b"", "no-class", "first"),
    (("put", "site", json.dumps({**SITE, "lease": 59})), b"", "site", "`lease` isn't 60"),
    (("put", "classes/1", json.dumps(BAD_TREE)), b"", "tree", "a class needs 24 and 25"),
    (("put", "pools/2", json.dumps({**POOL, "first": "10.0.0.30"})), b"", "pool-size", "above"),
    (("put", "pools/2", json.dumps({**POOL, "relay": "10.0.0.3"})), b"", "pool-overlap", "pool 1"),
    (("put", "pools/2", json.dumps({**OTHER_POOL, "relay": "10.0.0.1"})), b"", "relay-taken",
     "pool 1 has this relay"),
    (("put", "pools/2", json.dumps({**OTHER_POOL, "hub": 9})), b"", "no-hub", "put the hub first"),
    (("put", "pools/2", json.dumps({**OTHER_POOL, "hub": "1"})), b"", "value", "`hub`"),
    (("put", "hubs/1", json.dumps({**SITE, "secret": ""})), b"", "site", "`secret` has no bytes"),
    (("delete", "hubs/0"), b"", "hub-in-use", "pool 1 has the hub"),
    (("delete", "hubs/1"), b"", "no-row", "no such row"),
    (("delete", "subscribers/7"), b"", "has-modems", "remove the modem first"),
    (("delete", "classes/1"), b"", "class-in-use", "another class first"),
    (("import", "-"), b"mac,subscriber,class\n", "header", "mac,subscriber,class,serial"),
    (("import", "-"), rows("modems", "1,2"), "width", "line 2: `1,2`: "),
    (("import", "-"), rows("subscribers", "1,maybe,2,"), "import-field",
     "line 2, column active: `maybe`: "),
    (("import", "-"), rows("modems", "020000000003,8,1,"), "no-subscriber",
     "line 2, column subscriber: `8`: "),
    (("import", "--batch", "9", "-"), rows("modems"), "batch-differs", "import 9"),
]


def explains(port):
    for words, given, word, part in REFUSED:
        status, _, said = clerk(port, *words, given=given)
        check(status == 1 and f" {word}: " in said and part in said, f"{words}: {status} {said}")
    page = {row[0].strip("`") for row in table(text_of("docs", "CLERK_API.md"), "Fault", "Status")}
    check(page == set(loaded("office-clerk").FAULTS), "the clerk knows the page's faults")
    status, _, said = clerk(port, "import", "-", given=b"x,y\n")
    check(status == 2 and "columns" in said, f"a table of another kind: {said}")
    check(clerk(port, "put", "site", "@/nowhere")[0] == 2, "a file that isn't there")
    check(clerk(port, "move", "site")[0] == 2, "another word")
    status, _, said = clerk(free_ports()[3], "get", "site")
    check(status == 3 and "no answer" in said, "no office")
    status, _, said = clerk(port, "get", "subscribers/7 8")
    check(status == 2 and said.count("\n") == 1, f"no path has a space: {status} {said}")
    unanswered = loaded("office-clerk").unanswered
    for status, begins in ((404, "nothing was done, 404"), (500, "nothing was done, 500"),
                           (503, "nothing was done, 503"), (502, "whether it was done isn't known"),
                           (504, "whether it was done isn't known")):
        check(unanswered(status).startswith(begins), f"an answer of a proxy's: {status}")


def people(*changed):
    """4,500 subscribers, some names over two lines; of the rows `changed` no device."""
    lines = (f'{number},yes,{0 if number in changed else 2},"Ann, ""{number}""\r\nLee"'
             for number in range(1, 4501))
    return rows("subscribers", *lines)


def by_parts(port):
    """A file of more rows than an import takes, which acts once, or is refused by parts."""
    summary = "4,500 rows in 3 parts: {} are put, {} refused with their part, {} not tried\n"
    words = ("import", "-")
    status, said, wrong = clerk(port, *words, given=people(4100))
    check((status, said) == (1, summary.format("4,000", "500", "0")), f"parts: {status} {said}")
    check("rows 4001 to 4500: " in wrong and "line 8,200, column cpes: `0`: " in wrong,
          f"which: {wrong}")
    check(clerk(port, "get", "subscribers/4001")[0] == 1, "a refused part puts nothing")
    for what in ("mended", "once more"):
        status, said, wrong = clerk(port, *words, given=people())
        check((status, said, wrong) == (0, summary.format("4,500", "0", "0"), ""),
              f"{what}: {status} {said} {wrong}")
    shown = json.loads(clerk(port, "get", "subscribers/4500")[1])
    check(shown["name"] == 'Ann, "4500"\r\nLee', f"the last row: {shown}")
    changed = '{"active":false,"cpes":9,"name":""}'
    for more, expected in (((), False), (("--batch", "5"), True), (("--batch", "5"), False)):
        check(clerk(port, "put", "subscribers/2001", changed)[0] == 0, "a row is changed")
        check(clerk(port, "import", *more, "-", given=people())[0] == 0, f"handed in {more}")
        shown = json.loads(clerk(port, "get", "subscribers/2001")[1])
        check(shown["active"] is expected, f"{more}: an import acts once: {shown}")
    status, said, wrong = clerk(free_ports()[3], *words, given=people())
    check((status, said) == (3, summary.format("0", "0", "4,500")), f"no office: {status} {said}")
    check("no answer" in wrong and "go on where this ended" in wrong, f"no office: {wrong}")


def split():
    """Parts have as many rows and bytes as may be, no row is cut, and none is lost."""
    clerk_ = loaded("office-clerk")
    names, mark = b"subscriber,active,cpes,name", b"\xef\xbb\xbf"
    for end in (b"\n", b"\r\n", b"\r"):
        lines = [b'%d,yes,2,"%s' % (count, b'""' * 300) + end + b'"' for count in range(1999)]
        parts = clerk_.parts_of(mark + end.join([names, b"", *lines]))
        found = [row for part in parts for row in clerk_.rows_in(part.data)[1:]]
        check([row.removesuffix(end) for row in found] == lines, f"no row is lost: {end}")
        check(all(len(part.data) <= 1_048_576 for part in parts) and len(parts) == 2,
              f"parts have few bytes: {[len(part.data) for part in parts]}")
        check(all(part.data.startswith(names + end) for part in parts), "each has the names")
    for count, expected in ((0, [0]), (2000, [2000]), (2001, [2000, 1])):
        parts = clerk_.parts_of(b"\n".join([names, *[b"1,yes,2,"] * count]))
        check([part.rows for part in parts] == expected, f"{count} rows: {len(parts)} parts")


def with_an_office(act):
    """Calls something with the port of an office of empty tables."""
    ports = free_ports()
    with tempfile.TemporaryFile() as log, serving(ports, log):
        wait_until_answering(ports[3])
        return act(ports[3])


def clerks(port):
    with tempfile.TemporaryDirectory() as folder:
        furnished(port, folder)
    explains(port)


def main():
    print(f"{with_an_office(pasted)} examples pasted")
    with_an_office(clerks)
    split()
    with_an_office(by_parts)


if __name__ == "__main__":
    sys.exit(script(main))
