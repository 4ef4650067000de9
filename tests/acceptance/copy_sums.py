#!/usr/bin/env python3
"""Sums beside copies: `office-copy`, `office-sql FILE compact` and `office-sql FILE check COPY`.

Each copy fits its sum by `sha256sum -c`, a byte that is changed in it is found, and no sum of an
older copy stays beside a new one. A store that differs from its copy has each row told, by table
and key and without its values; one that doesn't has none. It needs no office, and takes a second.
"""
# needs: sha256sum
import contextlib
import os
import sqlite3
import subprocess
import sys
import tempfile

from harness import ROOT, check, script

TABLE = "CREATE TABLE office (ident BLOB PRIMARY KEY NOT NULL, val BLOB NOT NULL) STRICT"
ROWS = {b"\2\0\0\0\7": b"\1\2\3Ann", b"\2\0\0\0\x08": b"\1\2\3Bob",
        b"\x0a\0\0\0\0": b"\x0a\0\0\2\6secret" + bytes(12)}


def run(name, *words):
    done = subprocess.run([sys.executable, os.path.join(ROOT, "bin", name), *words], timeout=60,
                          stdout=subprocess.PIPE, stderr=subprocess.PIPE)
    return done.returncode, done.stdout.decode(), done.stderr.decode()


def fits(copy):
    words = ["sha256sum", "--status", "-c", os.path.basename(copy) + ".sum"]
    return subprocess.run(words, cwd=os.path.dirname(copy), timeout=60).returncode == 0


def write(store, *statements):
    with contextlib.closing(sqlite3.connect(store)) as held, held:
        for text, words in statements:
            held.execute(text, words)


def flip(path, place):
    with open(path, "r+b") as held:
        held.seek(place)
        byte = held.read(1)[0]
        held.seek(place)
        held.write(bytes([byte ^ 4]))


def differs(store, copy):
    """The rows that `check` lists, and its status."""
    status, said, why = run("office-sql", "--csv", store, "check", copy)
    return status, said.splitlines()[1:], why


def compares(store, copy):
    changes = [("UPDATE office SET val = ? WHERE ident = ?", (b"\1\2\3Eve", b"\2\0\0\0\7")),
               ("DELETE FROM office WHERE ident = ?", (b"\2\0\0\0\x08",)),
               ("INSERT INTO office VALUES (?, ?)", (b"\2\0\0\0\x09", b"\1\2\3Cyd"))]
    check(differs(store, copy)[:2] == (0, []), f"nothing differs: {differs(store, copy)}")
    write(store, *changes)
    found = differs(store, copy)
    check(found[:2] == (1, ["subscribers,00000007,changed", "subscribers,00000008,removed",
                            "subscribers,00000009,new"]), f"each row is told: {found}")
    write(store, ("DELETE FROM office", ()))
    write(store, *[("INSERT INTO office VALUES (?, ?)", row) for row in ROWS.items()])
    flip(copy, os.path.getsize(copy) // 2)
    check(not fits(copy), "a byte that was changed is found by sha256sum")
    status, _, why = differs(store, copy)
    check(status == 2 and "isn't what it was" in why, f"and by check: {status} {why}")
    os.unlink(copy + ".sum")
    check(differs(store, copy)[0] == 2, "a copy without a sum isn't compared")


def main():
    with tempfile.TemporaryDirectory() as folder:
        store, copy, journal = (os.path.join(folder, name) for name in ("s", "copy", "journal"))
        write(store, (TABLE, ()), *[("INSERT INTO office VALUES (?, ?)", row)
                                    for row in ROWS.items()])
        for turn in range(2):
            check(run("office-copy", store, copy)[0] == 0 and fits(copy), f"copy {turn} fits")
        check(os.stat(copy + ".sum").st_mode & 0o077 == 0, "the sum is its owner's alone")
        check(run("office-sql", store, "compact", journal)[0] == 0 and fits(journal), "a journal")
        compares(store, copy)
        compares(store, journal)
        check(run("office-copy", store, copy)[0] == 0 and fits(copy), "a new copy has its own sum")


if __name__ == "__main__":
    sys.exit(script(main, needs_program=False))
