#!/usr/bin/env python3
"""kill -9 while 200 modems boot and a clerk changes rows, over a journal and over a file of SQLite's format; nothing that was acknowledged is lost.

    python3 tests/acceptance/kill_storms.py [ROUNDS [STORE]]

In each round the office starts, 200 modems boot, 20 at once, and a clerk puts subscribers one behind another, until the office is killed at some moment; then it
starts again. Each acknowledged change is there, and at most one more; each address that was acknowledged to a modem is that modem's, till what was acknowledged
or later. What is there is asked of the office for the last round, and read in the file for all, behind each 50 rounds and at the end, when a new file is begun.
By itself it takes 10 rounds over each kind of store; with arguments so many, over `journal:` or `sqlite:`, or over both. It is skipped where a network of
its own isn't allowed. It ends what it started.
"""
import os
import random
import struct
import sys
import tempfile
import threading
import time

# Before the modems, whose models have a module of a name that it takes.
import store
from store import Stream
from harness import check, failures, kill, may_be_alone, run_alone, script, start
from harness import modems
from harness.clerks import Clerk
from harness.modems import AT_ONCE, MODEMS, PORTS, RELAY, SERVER, ip, leases, modem
from journal_kills import rows_of as journal_rows
from messages import ACK, OFFER, reply_in

sys.dont_write_bytecode = True
ROUNDS, A_FILE = 10, 50
clerk = Clerk(PORTS[3], store.PATIENCE)
KINDS = {"journal:": ("journal:", journal_rows), "sqlite:": ("", store.rows_of)}


class Booting(threading.Thread):
    """Modems boot, so many at once, from the first again when all have an address, until the link is shut; `held` is what was acknowledged to whom."""

    def __init__(self, relay, first):
        super().__init__()
        self.relay, self.first, self.held, self.over = relay, first, {}, threading.Event()

    def sends(self, data):
        try:
            self.relay.sendto(data, (SERVER, PORTS[0]))
        except OSError:
            self.over.set()

    def run(self):
        while not self.over.is_set():
            numbers = [(self.first + place) % MODEMS for place in range(AT_ONCE)]
            for number in numbers:
                self.sends(leases.discover(**modem(number)))
            self.hear(set(numbers))
            self.first += AT_ONCE

    def hear(self, waiting):
        while waiting and not self.over.is_set():
            try:
                data = self.relay.recv(4096)
            except OSError:
                return
            number, reply = struct.unpack_from(">I", data, 4)[0] - 0xABCD0000, reply_in(data)
            given = int.from_bytes(reply["address"], "big")
            if reply["kind"] == OFFER:
                self.sends(leases.selects(ip(given), server=SERVER, **modem(number)))
            elif reply["kind"] == ACK:
                lasts = int.from_bytes(dict(reply["options"])[51], "big")
                self.held[number] = (given, int(time.time()) + lasts - 25)
                waiting.discard(number)


class Storm:
    """Rounds over one file, and what was acknowledged in them."""

    def __init__(self, kind, relay):
        self.kind, self.rows_of = KINDS[kind]
        self.relay, self.done, self.more, self.held, self.acks, self.slowest = relay, 0, 0, {}, 0, 0.0

    def starts(self, path):
        began, log = time.perf_counter(), tempfile.TemporaryFile()
        with log:
            program = start(PORTS, 10**9, log, {"OFFICED_UDP": SERVER}, store=self.kind + path)
        check(modems.is_ready(), "it starts")
        self.slowest = max(self.slowest, time.perf_counter() - began)
        return program

    def round(self, path, turn):
        program = self.starts(path)
        if turn == 0:
            modems.furnish()
        found = [number for number in (self.done, self.done + 1) if clerk.row(f"/subscribers/{number + 1000}") is not None]
        check(found in ([], [self.done]), f"one change more than was acknowledged, or none: {found}")
        self.done, self.more = self.done + len(found), self.more + len(found)
        changes, booting = Stream(clerk, self.done + 1000), Booting(self.relay, random.randrange(MODEMS))
        changes.start()
        booting.start()
        time.sleep(random.uniform(0.02, 0.6))
        kill(program)
        booting.over.set()
        for each in (changes, booting):
            each.join(timeout=store.PATIENCE)
        drain(self.relay, booting)
        self.done += len(changes.done)
        self.acks += len(booting.held)
        self.held.update(booting.held)
        return len(changes.done), booting.held

    def is_there(self, path, last, changed):
        """Asks the office, which starts again, for what the last round changed."""
        program = self.starts(path)
        for number in range(max(0, self.done - last), self.done):
            clerk.shows(f"/subscribers/{number + 1000}", store.subscriber(number + 1000), "behind a kill")
        for number, (given, _) in changed.items():
            check(clerk.row(f"/leases/{ip(given)}") is not None, f"modem {number} has its address behind a kill")
        kill(program)

    def all_there(self, path):
        rows = self.rows_of(path)
        for number in range(1000, 1000 + self.done):
            name = store.subscriber(number)["name"].encode()
            check(rows.get(b"\2" + struct.pack(">I", number)) == b"\1\2" + bytes([len(name)]) + name, f"change {number} is in the file")
        for number, (given, ends) in self.held.items():
            row = rows.get(b"\7" + struct.pack(">I", given), b"")
            check(row[:7] == b"\2" + leases.mac(number), f"modem {number} has {ip(given)} in the file: {row.hex()}")
            check(int.from_bytes(row[7:], "big") >= ends, f"and till what was acknowledged: {row.hex()}, {ends}")


def drain(relay, booting):
    """What came before the kill, and wasn't read yet: it was acknowledged too. What the office said last is heard here, and nothing is asked."""
    relay.settimeout(0.02)
    booting.over.clear()
    booting.sends = lambda data: None
    booting.hear(set(range(MODEMS)))
    relay.settimeout(0.3)


def storms(kind, rounds):
    began, done, more, acks, slowest = time.perf_counter(), 0, 0, 0, 0.0
    with modems.port_of(RELAY, 67) as relay:
        relay.settimeout(0.3)
        for first in range(0, rounds, A_FILE):
            with tempfile.TemporaryDirectory() as name:
                path, storm = os.path.join(name, "office.store"), Storm(kind, relay)
                for turn in range(min(A_FILE, rounds - first)):
                    last, changed = storm.round(path, turn)
                    if turn % 5 == 4:
                        storm.is_there(path, last, changed)
                storm.is_there(path, 20, storm.held)
                storm.all_there(path)
            done, more, acks, slowest = done + storm.done, more + storm.more, acks + storm.acks, max(slowest, storm.slowest)
            print(f"{kind} {first + turn + 1} kills: {done} changes are there, {more} of which weren't acknowledged yet, and {acks} addresses; the slowest start "
                  f"took {slowest:.2f} s; {len(failures)} failed, {time.perf_counter() - began:.0f} s", flush=True)


def in_its_own(rounds, *kinds):
    modems.addresses_of_lo()
    for kind in kinds:
        if kind == "sqlite:" and store.sqlite3 is None:
            print("skipped sqlite:, since this Python's sqlite3 is missing")
        else:
            storms(kind, int(rounds))


def main():
    rounds, kinds = sys.argv[1:2] or [str(ROUNDS)], sys.argv[2:] or list(KINDS)
    if not may_be_alone():
        print("skipped kill_storms, since `unshare -rn` isn't allowed here")
        return 0
    ended = run_alone(in_its_own.__name__, *rounds, *kinds)
    print(f"acceptance: {'all held' if ended == 0 else 'it failed'}")
    return ended


if __name__ == "__main__":
    sys.exit(script(main, in_its_own))
