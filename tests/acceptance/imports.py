#!/usr/bin/env python3
"""Imports by the built program: by a clerk's PUT over a socket, and by the command `import` from standard input.

What is expected is said here by hand, from the rules in docs/CLERK_API.md and docs/OPERATING.md; an import's rows are made by Python's csv.
"""
import csv
import io
import os
import subprocess
import sys
import tempfile

sys.path.insert(0, os.path.dirname(os.path.abspath(__file__)))
from harness import PROGRAM, check, free_ports, script, serving
from harness.clerks import GOLD, Clerk, wait_until_answering

MOST = 1_048_576


def table(kind, rows, end="\n"):
    names = {"subscribers": ["subscriber", "active", "cpes", "name"], "modems": ["mac", "subscriber", "class", "serial"]}[kind]
    text = io.StringIO()
    csv.writer(text, lineterminator=end).writerows([names, *rows])
    return text.getvalue().encode()


def command(kind, batch, data, store="memory"):
    words = [PROGRAM, "import", "--store", store, kind, str(batch)]
    done = subprocess.run(words, input=data, stdout=subprocess.PIPE, stderr=subprocess.DEVNULL, timeout=60)
    return done.returncode, done.stdout.decode()


def from_standard_input():
    ann = ["7", "yes", "2", 'Ann "A" Lee, jr.']
    many = [[str(number), "no", "1", ""] for number in range(2001)]
    for what, given, expected in (
            ("no rows", ("subscribers", 9, table("subscribers", [])), (0, "rows 0\n")),
            ("a row", ("subscribers", 9, table("subscribers", [ann])), (0, "rows 1\n")),
            ("lines that end with CR and LF", ("subscribers", 9, table("subscribers", [ann], "\r\n")), (0, "rows 1\n")),
            ("a byte order mark", ("subscribers", 9, b"\xef\xbb\xbf" + table("subscribers", [ann])), (0, "rows 1\n")),
            ("two thousand rows", ("subscribers", 9, table("subscribers", many[:2000])), (0, "rows 2000\n")),
            ("a row more", ("subscribers", 9, table("subscribers", many)), (9, "refused too-many\n")),
            ("another header", ("modems", 9, table("subscribers", [ann])), (9, "refused header\n")),
            ("nothing", ("modems", 9, b""), (9, "refused header\n")),
            ("three fields", ("subscribers", 9, table("subscribers", [ann, ann[:3]])), (9, "refused width 2\n")),
            ("a field that can't be read", ("subscribers", 9, table("subscribers", [["8", "no", "0", ""]])), (9, "refused field 1 3\n")),
            ("a rule is broken", ("modems", 9, table("modems", [["02:aa:bb:cc:dd:f0", "7", "1", ""]])), (9, "refused no-subscriber row 1\n")),
            ("a byte too many", ("subscribers", 9, table("subscribers", []).ljust(MOST + 1, b"\n")), (9, "refused too-long\n")),
            ("as many bytes as may be", ("subscribers", 9, table("subscribers", []).ljust(MOST, b"\n")), (0, "rows 0\n"))):
        found = command(*given)
        check(found == expected, f"{what}: {found}, not {expected}")
    for words in (["subscribers"], ["subscribers", "9", "9"], ["pools", "9"], ["subscribers", "-9"], ["subscribers", "18446744073709551616"]):
        done = subprocess.run([PROGRAM, "import", "--store", "memory", *words], input=b"", stdout=subprocess.PIPE, timeout=30)
        check((done.returncode, done.stdout) == (1, b"words refused\n"), f"the words {words}")


def by_clerks():
    ports = free_ports()
    clerk = Clerk(ports[3], patience=10)
    with tempfile.TemporaryFile() as log, serving(ports, log):
        check(wait_until_answering(ports[3]), "the office answers")
        clerk.puts("/classes/1", {"name": "gold", "settings": GOLD})
        people = table("subscribers", [[str(number), "yes", "2", f"N {number}"] for number in range(1, 1001)])
        modems = table("modems", [[f"02:00:00:00:{number >> 8:02x}:{number & 255:02x}", str(number), "1", ""] for number in range(1, 1001)])
        wrong = table("modems", [["02:00:00:00:ff:01", "1", "1", ""], ["02:00:00:00:ff:02", "1", "2", ""]])
        for what, given, expected in (
                ("subscribers", ("/imports/subscribers/1", people), (200, {"rows": 1000})),
                ("modems", ("/imports/modems/2", modems), (200, {"rows": 1000})),
                ("again", ("/imports/modems/2", modems), (200, {"rows": 1000})),
                ("another one of the number", ("/imports/modems/2", wrong), (409, {"fault": "batch-differs", "at": "2"})),
                ("a row that breaks a rule", ("/imports/modems/3", wrong), (422, {"fault": "no-class", "at": "2"})),
                ("a row that can't be read", ("/imports/modems/3", modems + b"x,1,1,\n"), (422, {"fault": "import-field", "at": "1001,1"})),
                ("a short row", ("/imports/modems/3", modems + b"x,1,1\n"), (422, {"fault": "width", "at": "1001"}))):
            found = clerk.ask("PUT", *given)
            check((found.status, found.row()) == expected, f"{what}: {found}, not {expected}")
        check((clerk.row("/modems/020000000005") or {}).get("subscriber") == 5, "a row that was put is shown")
        check(clerk.ask("GET", "/modems/02000000ff01").status == 404, "a good row before a bad one isn't put")
        check(clerk.ask("GET", "/imports/modems/2").status == 405, "an import isn't shown")


def main():
    from_standard_input()
    by_clerks()


if __name__ == "__main__":
    sys.exit(script(main))
