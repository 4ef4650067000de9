#!/usr/bin/env python3
"""Seconds of a start over a file: the file opened, all its rows walked, tested and counted.

    python3 tests/bench/starts.py [MODEMS ..]

Python's sqlite3 makes a file of so many modems with their subscribers, all of them with a lease in pools of 4,096 addresses: four rows each, put in a mixed
order, as they come over the years. Then officed is
started on it, and ends behind no turns, with status 0 where the tables are good. The time, the processor's and the most memory are printed, of the first start
and of the least of three, and judged nowhere. It wants bin/officed built (or OFFICE_PROGRAM); the files go to the folder of OFFICE_STORES, or to the system's
for such files. Without arguments it takes 1,000, 20,000 and 200,000 modems.
"""
import contextlib
import os
import random
import sqlite3
import struct
import subprocess
import sys
import tempfile
import time

HERE = os.path.dirname(os.path.abspath(__file__))
sys.path.insert(0, os.path.join(HERE, "..", "acceptance"))
from harness import script, serve  # noqa: E402

sys.dont_write_bytecode = True
TABLE = "CREATE TABLE office (ident BLOB PRIMARY KEY NOT NULL, val BLOB NOT NULL) STRICT"
FIRST, POOL = 0x0A400000, 4_096
FLOWS = bytes.fromhex("180701020001060107190701020002060107")


def rows(modems):
    """The rows, spelled as docs/OPERATING.md says."""
    def word(number):
        return struct.pack(">I", number)

    def mac(number):
        return b"\2" + struct.pack(">IB", number * 2_654_435_761 % 2**32, 0)
    yield b"\1", word(0x0A000002) + b"\6secret" + word(3600) + word(86_400) + word(0)
    yield from ((b"\2" + word(number), b"\1\2\3Ann") for number in range(modems))
    yield from ((b"\4" + mac(number), word(number) + word(1) + b"\4SN01") for number in range(modems))
    yield b"\5" + word(1), b"\4gold" + struct.pack(">H", len(FLOWS)) + FLOWS
    for pool in range(-(-modems // POOL)):
        low = FIRST + pool * POOL
        yield b"\6" + word(pool), word(low) + word(low + POOL - 1) + b"\x14" + word(0x0A000001) + word(pool + 1)
    yield from ((b"\7" + word(FIRST + number), b"\2" + mac(number) + struct.pack(">Q", 2_000_000_000)) for number in range(modems))
    yield from ((b"\x08" + mac(number), word(FIRST + number)) for number in range(modems))


def make(store, modems):
    with contextlib.closing(sqlite3.connect(store)) as conn, conn:
        conn.execute(TABLE)
        mixed = list(rows(modems))
        random.Random(1).shuffle(mixed)
        conn.executemany("INSERT INTO office VALUES (?, ?)", mixed)
        return conn.execute("SELECT count(*) FROM office").fetchone()[0]


def one_start(store):
    """Seconds, seconds of processor, and the most memory, of an office that ends behind no turns."""
    words, began = serve(store), time.perf_counter()
    program = subprocess.Popen(words, stdout=subprocess.PIPE)
    said = program.stdout.read()
    _, status, used = os.wait4(program.pid, 0)
    program.returncode = os.waitstatus_to_exitcode(status)
    if program.returncode != 0:
        raise SystemExit(f"status {program.returncode}: {said.decode()}")
    return time.perf_counter() - began, used.ru_utime + used.ru_stime, used.ru_maxrss / 1024


def main():
    for modems in map(int, sys.argv[1:] or (1_000, 20_000, 200_000)):
        with tempfile.TemporaryDirectory(dir=os.environ.get("OFFICE_STORES")) as folder:
            store = os.path.join(folder, "office.db")
            count = make(store, modems)
            starts = [one_start(store) for _ in range(3)]
            print(f"{modems} modems, {count} rows, {os.path.getsize(store) / 1e6:.1f} MB: the first start {starts[0][0]:.2f} s, the least {min(starts)[0]:.2f} s, "
                  f"{min(each[1] for each in starts):.2f} s of processor, {max(each[2] for each in starts):.0f} MB", flush=True)
    return 0


if __name__ == "__main__":
    sys.exit(script(main))
