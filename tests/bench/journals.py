#!/usr/bin/env python3
"""A journal beside a file of SQLite's format: openings, and commits a second beside bare syncs.

    python3 tests/bench/journals.py [openings [MODEMS [RECORDS]] | commits [SECONDS]]

Openings: a journal of so many modems' rows (four each, as tests/bench/starts.py makes them), each put once by a record of its own; the same written anew, some
64 KiB of rows a record; the first with renewals behind it, RECORDS in all; and a file of SQLite's format with the rows. officed is started over each, by turns,
and ends behind no turns, with status 0 where the tables are good: seconds, of the processor too, and the most memory, of the first start and the least of three.

Commits: clerks put subscribers one behind another, over a journal, over a file and in memory: sixteen of clerks_clients.c (by `cc`), which have a change ready
whenever the office can take one, and four in Python, whose own time is in their figure. Before, between and behind them one sync and two syncs a change by a bare
loop, which writes what a journal writes, to a file that grows and, for two, within one that has room. Commits a second, the share of each bare loop's, and the
processor's time of a change: what the office takes for a connection and a request is in it. A commit by itself is measured by journal.main (tests/bench/run).

It prints figures and judges nothing. It wants bin/officed built (or OFFICE_PROGRAM); files go to the folder of OFFICE_STORES, or to the system's for such files.
How loaded the machine is, is printed with each part.
"""
import multiprocessing
import os
import random
import shutil
import struct
import subprocess
import sys
import tempfile
import time

import starts

HERE = os.path.dirname(os.path.abspath(__file__))
sys.path.insert(0, os.path.join(HERE, "..", "acceptance"))
from harness import free_ports, script, serving  # noqa: E402
from harness.clerks import Clerk, is_heard  # noqa: E402
from harness.machine import load, processor_seconds  # noqa: E402

sys.dont_write_bytecode = True
CLERKS, MANY_CLERKS, AT_ONCE = 4, 16, 65_536
# syncs a change of the bare loops, and the room that their file has
LOOPS = {"one": (1, 0), "two": (2, 0), "two with room": (2, 1 << 20)}


def put(key, row):
    return b"\1" + bytes([len(key)]) + key + struct.pack(">I", len(row)) + row


def record(payload):
    return b"\1" + struct.pack(">I", len(payload)) + payload


def put_once(rows, file):
    for key, row in rows:
        file.write(record(put(key, row)))


def anew(rows, file):
    payload = bytearray()
    for key, row in sorted(rows):
        payload += put(key, row)
        if len(payload) > AT_ONCE:
            file.write(record(payload))
            payload.clear()
    file.write(record(payload))


def renewed(rows, records, file):
    put_once(rows, file)
    leases, chance = [each for each in rows if each[0][0] == 7], random.Random(2)
    for turn in range(records - len(rows)):
        key, row = chance.choice(leases)
        file.write(record(put(key, row[:-8] + struct.pack(">Q", 2_000_000_000 + turn))))


def made(path, writes, *what):
    with open(path, "wb") as file:
        writes(*what, file)
        file.write(b"\0")
        file.flush()
        os.fsync(file.fileno())
    return "journal:" + path


def openings(modems=200_000, records=5_000_000):
    rows = list(starts.rows(modems))
    random.Random(1).shuffle(rows)
    with tempfile.TemporaryDirectory(dir=os.environ.get("OFFICE_STORES")) as folder:
        def path(name):
            return os.path.join(folder, name)
        starts.make(path("office.db"), modems)
        kept = {"a file of SQLite's format": path("office.db"), "put once": made(path("once"), put_once, rows),
                "written anew": made(path("anew"), anew, rows), f"{records} records": made(path("renewed"), renewed, rows, records)}
        print(f"openings of {len(rows)} rows; {load()}", flush=True)
        found = {name: [] for name in kept}
        for _ in range(3):
            for name, store in kept.items():
                found[name].append(starts.one_start(store))
        for name, store in kept.items():
            first, least = found[name][0], min(found[name])
            size = os.path.getsize(store.removeprefix("journal:")) / 1e6
            print(f"  {name}, {size:.1f} MB: the first {first[0]:.2f} s, the least {least[0]:.2f} s, {min(each[1] for each in found[name]):.2f} s of processor, "
                  f"{max(each[2] for each in found[name]):.0f} MB", flush=True)
        print(f"  {load()}", flush=True)


def syncs(folder, each, room, seconds):
    """Changes a second of a bare loop with one sync a change, or two, of a file that grows or, with room, within one."""
    done, place = 0, 0
    with open(os.path.join(folder, "bare"), "wb", buffering=0) as file:
        os.pwrite(file.fileno(), bytes(room), 0)
        os.fsync(file.fileno())
        until = time.perf_counter() + seconds
        while time.perf_counter() < until:
            os.pwrite(file.fileno(), b"\1" * 32, place + 1)
            os.fdatasync(file.fileno())
            if each == 2:
                os.pwrite(file.fileno(), b"\1", place)
                os.fdatasync(file.fileno())
            done, place = done + 1, place + 32
            if place + 33 > room > 0:
                place = 0
    return done / seconds


def clerk(port, first, seconds, told):
    done, until, one = 0, time.perf_counter() + seconds, Clerk(port, patience=60)
    while time.perf_counter() < until:
        one.must("PUT", f"/subscribers/{first + done % 100_000}", {"active": True, "cpes": 2, "name": f"Ann {done}"})
        done += 1
    told.put(done)


def by_python(port, seconds):
    """How many changes four clerks in Python make."""
    told = multiprocessing.Queue()
    clerks = [multiprocessing.Process(target=clerk, args=(port, 1_000_000 * (place + 1), seconds, told)) for place in range(CLERKS)]
    for each in clerks:
        each.start()
    done = sum(told.get(timeout=60 + seconds) for _ in clerks)
    for each in clerks:
        each.join()
    return done


def by_c(program):
    """The same of sixteen clerks of a program that takes little time itself."""
    def put(port, seconds):
        words = [program, str(port), str(MANY_CLERKS), str(int(seconds * 1000)), "1000000"]
        return int(subprocess.run(words, stdout=subprocess.PIPE, check=True, timeout=60 + seconds).stdout.split()[0])
    return put


def commits(store, put, seconds):
    """Changes a second, and microseconds of processor of each."""
    ports = free_ports()
    with tempfile.TemporaryFile() as log, serving(ports, log, store=store) as program:
        is_heard(ports[3], seconds=60)
        before, began = processor_seconds(program.pid), time.perf_counter()
        done = put(ports[3], seconds)
        return done / (time.perf_counter() - began), (processor_seconds(program.pid) - before) / done * 1e6


def all_commits(seconds=5):
    with tempfile.TemporaryDirectory(dir=os.environ.get("OFFICE_STORES")) as folder:
        print(f"changes by clerks; {load()}", flush=True)
        bare = {loop: [] for loop in LOOPS}

        def all_bare():
            for loop, (each, room) in LOOPS.items():
                bare[loop].append(syncs(folder, each, room, 0.5))
        clerks = {f"{CLERKS} in Python": by_python}
        if shutil.which("cc"):
            program = os.path.join(folder, "clerks_clients")
            subprocess.run(["cc", "-O2", "-o", program, os.path.join(HERE, "clerks_clients.c")], check=True)
            clerks = {f"{MANY_CLERKS} in C": by_c(program), **clerks}
        stores = {"journal": ("journal:" + os.path.join(folder, "office.journal"), ("two", "two with room")),
                  "sqlite": (os.path.join(folder, "office.db"), ("one",)), "memory": ("memory", ())}
        all_bare()
        for name, (store, loops) in stores.items():
            for who, put in clerks.items():
                rate, cost = commits(store, put, seconds)
                all_bare()
                beside = "".join(f", {rate / (sum(bare[loop][-2:]) / 2):.2f} of the bare loop '{loop}' before and behind it" for loop in loops)
                print(f"  {name}, {who}: {rate:.0f} a second, {cost:.0f} µs of processor each{beside}", flush=True)
        for loop, rates in bare.items():
            print(f"  bare, {loop}: {', '.join(f'{rate:.0f}' for rate in rates)} a second")
        print(f"  {load()}")


def main():
    word, numbers = (sys.argv[1:2] or ["all"])[0], list(map(int, sys.argv[2:]))
    if word in ("all", "openings"):
        openings(*numbers if word == "openings" else ())
    if word in ("all", "commits"):
        all_commits(*numbers if word == "commits" else ())
    return 0


if __name__ == "__main__":
    sys.exit(script(main))
