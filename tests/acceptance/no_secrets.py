#!/usr/bin/env python3
"""A hub's secret is told nowhere: a clerk puts it, the store's file keeps it, and no answer, line or error shows it, that of `GET /hubs/1` neither.

The search is that of harness/told.py, by which each script of this folder ends. Here it's tested that it finds what was told, in each form and by each way;
an office over a file is asked for its hubs in every way and refused in every way; and what the examples of crates/, docs/, examples/ and packaging/ say is
searched: there the secret stands where it is given to the office, and where a program that runs examples prints a hub's row itself, and nowhere else.
"""
import contextlib
import json
import os
import re
import socket
import sqlite3
import stat
import subprocess
import sys
import tempfile

from harness import ROOT, check, free_ports, is_built, script, serve, serving, text_of, written
from harness.clerks import DONE, Clerk, ask, reply, request, wait_until_answering
from harness.told import EXAMPLE, SECRET, all_forms, forms, found_in

SITE = {"server": "10.0.0.2", "secret": SECRET.hex(), "offset": 3600, "lease": 86400, "log": "0.0.0.0"}
SHOWN = b'{"lease":86400,"log":"0.0.0.0","offset":3600,"server":"10.0.0.2"}'
FAULTS = {word: b'{"at":"secret","fault":"%s"}' % word.encode() for word in ("field", "value")}
# A line of the documents and examples that gives the secret to the office, to a modem, or to `seal` and `check`.
GIVES = re.compile(r'PUT http\S+/(site|hubs/\d+) |--secret |^ *HEX=|`HEX=|"secret": "|\b(seal|check) 736563726574')
# Where the examples' own program prints a hub's row, which clerks put, and that of the site of earlier days: after a run, as a command that was read or its
# answer, and as the bytes of the row.
PRINTED = r"((row |put |shown )?hub \d+|(row )?site) "


# ---- the search itself

def tell(way, data):
    """Lets this script be told some bytes."""
    if way == "printed":
        subprocess.run(["printf", "%s", data], stdout=subprocess.PIPE)
    elif way == "on standard error":
        subprocess.run(["sh", "-c", 'printf %s "$1" >&2', "sh", data], stderr=subprocess.DEVNULL)
    elif way == "in a log":
        with tempfile.TemporaryFile() as log:
            subprocess.run(["printf", "%s", data], stdout=log)
    else:
        kind = socket.SOCK_DGRAM if way == "as a datagram" else socket.SOCK_STREAM
        left, right = socket.socketpair(socket.AF_UNIX, kind)
        # Of a stream it comes in two pieces.
        for part in [data] if kind == socket.SOCK_DGRAM else [data[:5], data[5:]]:
            left.sendall(part)
            right.recv(64) if way != "in a reply" else right.makefile("rb").read(len(part))


def search_finds():
    """What was told, in each form, by each way; and nothing where nothing was."""
    ways = ("printed", "on standard error", "in a log", "as a datagram", "in a stream", "in a reply")
    told = [(ways[place % len(ways)], form) for place, form in enumerate(forms(SECRET))]
    told += [(way, SECRET) for way in ways] + [("printed", EXAMPLE.hex().encode())]
    for way, data in told:
        check(child(way, data) == 1, f"{data} is found where it was told {way}")
    for way in ways:
        check(child(way, SECRET[1:]) == 0, f"what is no secret isn't found {way}")


def child(way, data):
    """The status of a script that was told this. What it says of that isn't kept, since it's the secret."""
    words = [sys.executable, "-B", os.path.abspath(__file__), "told", way, data.hex()]
    return os.waitstatus_to_exitcode(os.system(" ".join(f"'{word}'" for word in words) + " >/dev/null"))


# ---- the office

def refusals():
    """Requests with the secret in them that are refused, and the answers."""
    site = json.dumps(SITE)
    for path in ("/site", "/hubs/0", "/hubs/1"):
        yield "PUT", path, site.replace(SITE["secret"], SITE["secret"] + "7"), 400, FAULTS["value"]
        yield "PUT", path, site.replace(SITE["secret"], SITE["secret"] * 4), 400, FAULTS["value"]
        yield "PUT", path, site.replace(f'"{SITE["secret"]}"', json.dumps([SITE["secret"]])), 400, FAULTS["value"]
        yield "PUT", path, site.replace('"secret"', '"Secret"'), 400, FAULTS["field"]
        yield "PUT", path, site.replace(SITE["secret"], SECRET.decode()), 400, FAULTS["value"]
        yield "PUT", path, site[:-1], 400, b'{"fault":"not-json"}'
        yield "PUT", path, json.dumps({**SITE, "lease": SITE["secret"]}), 400, b'{"at":"lease","fault":"value"}'
        yield "PUT", f"{path}/{SITE['secret']}", site, 404, b'{"fault":"no-path"}'
        yield SECRET.decode(), path, site, 405, b'{"fault":"no-method"}'
    yield "PUT", "/imports/subscribers/1", f"{SECRET.decode()}\n", 422, b'{"fault":"header"}'


def asked(port):
    """A clerk puts hubs, and is refused with them; what is shown of them is all but the secret."""
    for path in ("/site", "/hubs/1"):
        check(ask(port, request("PUT", path, json.dumps(SITE).encode())) == DONE, f"{path} is put, and that's all that is said")
    for method, path, body, status, wanted in refusals():
        found = Clerk(port).ask(method, path, body.encode())
        check(found == (status, wanted), f"{method} {path} {body}: {found}")
    for path in ("/site", "/hubs/0", "/hubs/1"):
        check(ask(port, request("GET", path)) == reply(200, SHOWN), f"GET {path} shows all but the secret")


def at_the_office(folder):
    """The store's file has the secret, for its owner alone, and the log hasn't."""
    store, ports = os.path.join(folder, "office.db"), free_ports()
    with tempfile.TemporaryFile() as log:
        with serving(ports, log, store=store):
            # A busy machine takes its time with the first start over a file.
            wait_until_answering(ports[3], seconds=180)
            asked(ports[3])
        lines = written(log)
    check(lines.count(b" http ") >= 12 and found_in(lines, all_forms()) is None, f"the log has no secret: {lines}")
    files = [os.path.join(folder, name) for name in os.listdir(folder)]
    having = {os.path.basename(path) for path in files if SECRET in open(path, "rb").read()}
    check(having and having <= {"office.db", "office.db-wal"}, f"the store's files have it, and no others: {having}")
    check(all(stat.S_IMODE(os.stat(path).st_mode) == 0o600 for path in files), "and are their owner's alone")
    return store


def refused_at_the_start(store):
    """A hub or a site that isn't good, or can't be read, is named and not shown; and the site of earlier days that becomes the hub 0 isn't shown either."""
    server, secret = bytes([10, 0, 0, 2]), bytes([len(SECRET)]) + SECRET
    good = server + secret + (3600).to_bytes(4, "big") + (86400).to_bytes(4, "big") + bytes(4)
    hub, site = b"\x0a\0\0\0\0", b"\1"
    for rows, line in (({hub: bytes(4) + secret + bytes(12)}, b"tables refused hub 0\n"), ({hub: bytes(4) + b"\x40" + SECRET}, b"keeper refused\n"),
                       ({hub: good, site: good}, b"tables refused site\n"), ({site: good}, b"")):
        with contextlib.closing(sqlite3.connect(store)) as held, held:
            held.execute("DELETE FROM office WHERE substr(ident, 1, 1) IN (x'01', x'0a')")
            held.executemany("INSERT INTO office VALUES (?, ?)", rows.items())
        done = subprocess.run(serve(store), stdout=subprocess.PIPE, stderr=subprocess.PIPE, timeout=300)
        check((done.stdout, done.stderr) == (line, b""), f"{line}: {done}")
    with contextlib.closing(sqlite3.connect(store)) as held:
        check(dict(held.execute("SELECT ident, val FROM office")).get(hub) == good, "the site is the hub 0 now")


# ---- what is written down

def expected():
    """What the program that runs examples prints, without the lines of its script that it repeats."""
    given = set(text_of("crates", "office_script", "stdin").splitlines())
    return [line for line in text_of("crates", "office_script", "stdout").splitlines() if line not in given and not line.startswith(("section ", "run ", "again "))]


def in_examples():
    lines = expected()
    having = [line for line in lines if found_in(line.encode(), all_forms())]
    check(having and all(re.match(PRINTED, line) for line in having), f"office_script prints it with a hub's row alone: {having[:3]}")
    for line in lines:
        name = line.encode().replace(FAULTS["field"], b"").replace(FAULTS["value"], b"")
        check(EXAMPLE not in name, f"its text stands as the name of the field alone: {line}")


def pages():
    yield ["README.md"]
    for folder in ("docs", "examples", "packaging"):
        for at, _, names in os.walk(os.path.join(ROOT, folder)):
            # a screenshot has no text
            texts = sorted(name for name in names if not name.endswith(".png"))
            yield from ([os.path.relpath(at, ROOT), name] for name in texts)


def in_pages():
    count = 0
    for page in pages():
        for line in text_of(*page).splitlines():
            if found_in(line.encode(), all_forms()):
                count += 1
                check(bool(GIVES.search(line)), f"{'/'.join(page)} gives it to the office: {line}")
    check(count > 0, "the documents' examples give it")


def main():
    if sys.argv[1:2] == ["told"]:
        tell(sys.argv[2], bytes.fromhex(sys.argv[3]))
        return 0
    search_finds()
    in_examples()
    in_pages()
    if not is_built():
        return 1
    with tempfile.TemporaryDirectory() as folder:
        refused_at_the_start(at_the_office(folder))
    return None


if __name__ == "__main__":
    sys.exit(script(main, needs_program=False))
