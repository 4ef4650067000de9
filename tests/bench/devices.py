#!/usr/bin/env python3
"""What devices behind modems cost: their DISCOVERs and REQUESTs over loopback, by how many of them have leases, and starts over tables that have many.

    python3 tests/bench/devices.py [rows [MODEMS [DEVICES ..]] [pairs=N] | starts [MODEMS DEVICES]]

rows: two offices, each a process of its own in a network of its own. In both so many modems boot, behind 64 relays whose pools for devices have 4,096 addresses
each; then devices, two behind a modem, in the one as many as the first number says, in the other as the last. Numbers between are halts on the way, in memory alone.
At each halt, where that leaves room, three new devices boot in each pool, one at a time, whose addresses stand behind those that are taken, and give them back.
Then DISCOVERs and REQUESTs a second of devices that have leases, each kind alone and both ("DORA"), and DORA of the modems themselves, 1, 16 and 64 at once, by
turns of 80 ms: the one office and the other are a pair of turns, the other way about in the next pair, and kinds and numbers at once come by turns too. So a
machine that is fast at one moment and slow at another is so for both. Of each pair the ratio is kept. Printed are the middle of the ratios and their quartiles, by the
clock and by the processor's time of the office, and how much of all processors the host took away meanwhile; the rates are those in the middle of an office's turns.

The offices have no memory in common, but they, and the clients, run on the same cores: what a turn finds in the caches the turn before has left there, and so
nothing of its own tables, or little. Therefore the first 15 ms of a turn (40 with one at once) aren't counted, in which its pipeline fills and a thousand devices
come once, or most of them. From then on an office has the caches as one has that is alone with its clients, and what it touches again and again stays there, as
far as there's room. That's how a busy office stands; one that gets a message now and then finds its caches cold whatever it has in its tables, and isn't measured here.

Devices and modems come in a mixed order, by equal steps (tests/bench/dora_clients.c): neither by chance nor as they got their leases.

starts: Python's sqlite3 makes a file, and this script a journal, of so many modems with their leases and so many devices with theirs; officed is started over
each, three times, and ends behind no turns, with status 0 where the tables are good: seconds, of the processor too, and the most memory.

Without numbers they are 131,072 modems with 1,000, 250,000 and 262,144 devices, and for starts 200,000 and 262,144. `pairs=N` has so many pairs of turns in place of
40. With a folder in OFFICE_STORES the tables are in files there, and in journals where `journal:` stands before the folder; each is made whole, so that no time
goes into filling it.

It prints figures beside goals, with the machine's load, and judges nothing. It wants bin/officed built (or OFFICE_PROGRAM), and for `rows` `cc` and `unshare -rn`.
"""
import contextlib
import itertools
import os
import random
import socket
import statistics
import struct
import subprocess
import sys
import tempfile

import dora
import journals
import starts
from dora import AT_ONCE, JOURNAL, STORES, exchanges, office
from first_boots import ManyRows
from harness import is_skipped, script
from harness.machine import load, processor_seconds, resident, syncs, taken_away

RELAYS, IN_POOL, EACH, DEVICES_AT = 64, 4096, 2, 0x0A500000
MODEMS, DEVICES = 131_072, (1_000, 250_000, 262_144)
# How many pairs of turns; a turn's milliseconds, and those before them that aren't counted.
PAIRS, TURN, BEFORE = 40, 80, {1: 40, 16: 15, 64: 15}
START = (200_000, 262_144)
# How much dearer a message may be with the most leases than with the fewest.
GOAL = 1.3
FAR, BOUND = 2_000_000_000, 2
KINDS = {"device-discover": "DISCOVERs", "device-request": "REQUESTs", "device-renew": "DORA", "renew": "DORA of modems"}
# Before what an office answers to its turn; its other lines are for who reads.
TURNED = "turned:"


def device_pool(relay, count=IN_POOL):
    """The pool for devices of a relay, by its number: the path and the body."""
    first, own = DEVICES_AT + IN_POOL * relay, office.ip(dora.RELAYS_AT + dora.RELAYS_APART * relay)
    return f"/device-pools/{relay}", {"first": office.ip(first), "last": office.ip(first + count - 1), "prefix": 20, "router": own, "relay": own}


def address_of(device, relays=RELAYS):
    """A device's own address, as tests/bench/dora_clients.c has it."""
    return DEVICES_AT + IN_POOL * (device % relays) + device // relays


# ---- rows, spelled as docs/OPERATING.md says

def word(number):
    return struct.pack(">I", number)


def packed(address):
    return socket.inet_aton(address)


def pool_row(body):
    return b"".join(map(packed, (body["first"], body["last"]))) + bytes([body["prefix"]]) + packed(body["router"]) + packed(body["relay"])


def modem_mac(number):
    return b"\2\0" + word(number)


def device_mac(number):
    return b"\6\0" + word(number)


def modem_rows(rows):
    """The rows of the modems of `dora.Rows`, each with its lease: modem N stands behind relay N mod RELAYS, and has the address of its turn there."""
    yield b"\x0a" + word(0), packed(office.SERVER) + bytes([len(office.SECRET)]) + office.SECRET + struct.pack(">i", -18_000) + word(86_400) + packed("10.0.0.3")
    yield b"\5" + word(1), b"\4gold" + struct.pack(">H", len(starts.FLOWS)) + starts.FLOWS
    pools = [rows.pool(relay)[1] for relay in range(rows.relays)]
    yield from ((b"\6" + word(relay + 1), pool_row(body)) for relay, body in enumerate(pools))
    lows = [int.from_bytes(packed(body["first"]), "big") for body in pools]
    for number in range(rows.modems):
        held, mac = word(lows[number % rows.relays] + number // rows.relays), modem_mac(number)
        yield b"\2" + word(number), b"\1\2\3Ann"
        yield b"\4" + mac, word(number) + word(1) + b"\x08" + b"SN%06d" % number
        yield b"\7" + held, bytes([BOUND]) + mac + struct.pack(">Q", FAR)
        yield b"\x08" + mac, held


def device_rows(devices):
    yield from ((b"\x0c" + word(relay), pool_row(device_pool(relay)[1])) for relay in range(RELAYS))
    for number in range(devices):
        yield b"\x0d" + word(address_of(number)), bytes([BOUND]) + modem_mac(number // EACH) + device_mac(number) + struct.pack(">Q", FAR)


def made(folder, rows, is_journal):
    """A file with these rows in a mixed order, as they come over the years; its name as a store."""
    mixed = list(rows)
    random.Random(1).shuffle(mixed)
    path = os.path.join(folder, "office.store")
    if is_journal:
        return journals.made(path, journals.put_once, mixed)
    with contextlib.closing(starts.sqlite3.connect(path)) as conn, conn:
        conn.execute(starts.TABLE)
        conn.executemany("INSERT INTO office VALUES (?, ?)", mixed)
    return path


# ---- messages

class Measured(dora.Measured):
    """An office with its modems, and how many devices have leases in it."""

    def __init__(self, program, officed, rows, devices):
        super().__init__(program, officed, rows)
        self.devices = devices

    def fills(self, first):
        """Devices from a number on ask for their own addresses, each once."""
        told = exchanges(self.program, "device-asks", first, self.devices - first, RELAYS, 64)
        print(f"  {told.done:.0f} devices booted, each for an address that it asked for: {told.done / told.seconds:.0f} DORA/s", flush=True)

    def turn(self, mode, at_once):
        """Exchanges of the devices that have leases, or of their modems, in how many seconds, and the processor's seconds of the office in these."""
        count = self.devices if mode.startswith("device-") else self.rows.modems
        told = exchanges(self.program, mode, 0, count, RELAYS, at_once, TURN, BEFORE[at_once], self.officed.pid)
        return told.done, told.seconds, told.used

    def new_ones(self):
        """Devices that have no lease boot one at a time, where so many addresses of their pools are taken before those that they get, and give them back."""
        taken, count = self.devices // RELAYS, 3 * RELAYS
        if taken + 3 > IN_POOL or self.devices + count > EACH * self.rows.modems:
            return
        told = exchanges(self.program, "device-boot", self.devices, count, RELAYS, 1)
        exchanges(self.program, "device-release", self.devices, count, RELAYS, 1)
        print(f"  new devices, {taken} addresses of their pool taken before: {told.done / told.seconds:.0f} DORA/s, "
              f"{told.seconds / max(told.done, 1) * 1e3:.2f} ms each", flush=True)


@contextlib.contextmanager
def office_over(store):
    with open(os.devnull, "wb") as log, dora.office_over(store, log) as officed:
        # Who connects is accepted once the tables are open.
        office.clerk.ask("GET", "/site")
        yield officed
        print(f"  memory {resident(officed.pid) / 1e6:.1f} MB, {processor_seconds(officed.pid):.1f} s of processor; {load()}", flush=True)


@contextlib.contextmanager
def in_memory(program, modems, numbers):
    """An office: its modems boot, and then devices, up to each number."""
    with office_over("memory") as officed:
        rows = ManyRows(modems, RELAYS)
        rows.put()
        measured = Measured(program, officed, rows, 0)
        told = measured.all_once("boot", 64)
        print(f"  {told.done:.0f} modems booted: {told.done / told.seconds:.0f} DORA/s", flush=True)
        for relay in range(RELAYS):
            dora.put_row(*device_pool(relay))
        for devices in numbers:
            before, measured.devices = measured.devices, devices
            measured.fills(before)
            measured.new_ones()
        yield measured


@contextlib.contextmanager
def on_disk(program, modems, numbers):
    """An office over a file with as many devices as the last number."""
    with tempfile.TemporaryDirectory(dir=STORES.removeprefix(JOURNAL)) as folder:
        rows, devices = ManyRows(modems, RELAYS), numbers[-1]
        store = made(folder, [*modem_rows(rows), *device_rows(devices)], STORES.startswith(JOURNAL))
        print(f"  a file of its own takes {syncs(folder):.0f} syncs of 16 kB a second", flush=True)
        with office_over(store) as officed:
            measured = Measured(program, officed, rows, devices)
            measured.new_ones()
            yield measured


def table(modems, *numbers):
    """An office in a network of its own, which is told each of its turns by a line and answers by one, until there are no more."""
    with dora.among_relays() as program, (on_disk if STORES else in_memory)(program, int(modems), [int(each) for each in numbers]) as measured:
        print(TURNED, flush=True)
        for line in sys.stdin:
            mode, at_once = line.split()
            print(TURNED, *measured.turn(mode, int(at_once)), flush=True)
    return 0


class Table:
    """The process that has an office with so many devices."""

    def __init__(self, modems, numbers):
        self.devices = numbers[-1]
        words = ["unshare", "-rn", sys.executable, "-B", os.path.abspath(sys.argv[0]), table.__name__, *map(str, (modems, *numbers))]
        self.process = subprocess.Popen(words, stdin=subprocess.PIPE, stdout=subprocess.PIPE, text=True)

    def hears(self):
        """The figures that it answers; its other lines are printed."""
        for line in self.process.stdout:
            word, *figures = line.split() or [""]
            if word == TURNED:
                return [float(each) for each in figures]
            print(f"  {self.devices} devices: {line.strip()}", flush=True)
        raise SystemExit(f"the office with {self.devices} devices ended before its turns did")

    def turn(self, *cell):
        print(*cell, file=self.process.stdin, flush=True)
        return self.hears()

    def ends(self):
        self.process.stdin.close()
        for line in self.process.stdout:
            print(f"  {self.devices} devices: {line.strip()}", flush=True)
        return self.process.wait(timeout=60)


def by_turns(tables, pairs):
    """Of each kind and number at once: the turns of both offices, pair by pair, and the ticks that the host took away meanwhile with all there were."""
    turns, ticks = {cell: [] for cell in itertools.product(KINDS, AT_ONCE)}, {}
    for number in range(pairs):
        for cell, each in turns.items():
            before, pair = taken_away(), [None, None]
            for place in ((0, 1), (1, 0))[number % 2]:
                pair[place] = tables[place].turn(*cell)
            each.append(pair)
            ticks[cell] = [sum(all_of) for all_of in zip(ticks.get(cell, (0, 0)), (after - first for after, first in zip(taken_away(), before)))]
    return turns, ticks


def middle(ratios):
    """The middle of ratios, and their quartiles as text."""
    low, half, high = statistics.quantiles(ratios, n=4, method="inclusive")
    return half, f"{half:.2f} ({low:.2f} to {high:.2f})"


def compared(tables, cell, pairs, ticks):
    """Prints the figures of a kind and a number at once; how many times the time an exchange takes among more devices, and the processor's."""
    mode, at_once = cell
    for place, each in enumerate(tables):
        rates = [pair[place][0] / pair[place][1] for pair in pairs]
        used = sum(pair[place][2] for pair in pairs) / max(sum(pair[place][0] for pair in pairs), 1)
        print(f"  {each.devices} leases of devices: {KINDS[mode]}, {at_once} at once: {statistics.median(rates):.0f} a second, {used * 1e6:.1f} us of processor each")
    # A machine that is too busy, or a disk, may exchange none in a turn.
    whole = [pair for pair in pairs if all(done and used for done, _, used in pair)]
    if len(whole) < 2:
        print(f"  {KINDS[mode]}, {at_once} at once: too few turns in which anything was exchanged")
        return [float("nan")] * 2
    found = [middle([(many[place] / many[0]) / (few[place] / few[0]) for few, many in whole]) for place in (1, 2)]
    print(f"  {KINDS[mode]}, {at_once} at once, pair by pair: {found[0][1]} times by the clock, {found[1][1]} by the processor; {len(whole)} pairs, "
          f"of whose time the host took {ticks[0] / max(ticks[1], 1):.1%}", flush=True)
    return [half for half, _ in found]


def over_tables(modems, numbers, pairs):
    most = min(EACH * modems, IN_POOL * RELAYS)
    if max(numbers) > most:
        raise SystemExit(f"{modems} modems have at most {most} devices in these pools")
    if is_skipped():
        return 0
    kind = "memory" if not STORES else "a journal" if STORES.startswith(JOURNAL) else "a file"
    print(f"{modems} modems behind {RELAYS} relays, in {kind}; {load()}", flush=True)
    tables = Table(modems, numbers[:1]), Table(modems, numbers[1:] or numbers)
    try:
        for each in tables:
            each.hears()
        print(f"  both offices have their tables, by turns from now on; {load()}", flush=True)
        turns, ticks = by_turns(tables, pairs)
        print(f"  all turns are over; {load()}", flush=True)
    finally:
        ended = [each.ends() for each in tables]
    found = {cell: compared(tables, cell, each, ticks[cell]) for cell, each in turns.items()}
    for mode, name in KINDS.items():
        times, used = ([found[mode, at_once][place] for at_once in AT_ONCE] for place in (0, 1))
        print(f"{name}, {numbers[-1]} leases beside {numbers[0]}: {', '.join(f'{each:.2f}' for each in times)} times the time with {AT_ONCE} at once; "
              f"{', '.join(f'{each:.2f}' for each in used)} times the processor's (goal: under {GOAL})")
    return max(ended)


# ---- starts

def starts_of(modems, devices):
    relays = max(3, -(-modems // IN_POOL))
    rows = [*modem_rows(ManyRows(modems, relays)), *device_rows(devices)]
    print(f"starts with {modems} modems and {devices} devices; {load()}", flush=True)
    for kind in ("a file", "a journal"):
        with tempfile.TemporaryDirectory(dir=STORES.removeprefix(JOURNAL) or None) as folder:
            store = made(folder, rows, kind == "a journal")
            size = os.path.getsize(store.removeprefix(JOURNAL)) / 1e6
            each = [starts.one_start(store) for _ in range(3)]
            print(f"  {modems} modems and {devices} devices in {kind}, {len(rows)} rows, {size:.1f} MB: the first start {each[0][0]:.2f} s, "
                  f"the least {min(each)[0]:.2f} s, {min(one[1] for one in each):.2f} s of processor, {max(one[2] for one in each):.0f} MB", flush=True)
    print(f"  {load()}", flush=True)
    return 0


def main():
    word, *words = sys.argv[1:] or ["rows"]
    numbers = [int(each) for each in words if each.isdecimal()]
    if word == "starts":
        return starts_of(*(numbers or START))
    if word != "rows":
        print(__doc__.strip())
        return 2
    pairs = next((int(each.removeprefix("pairs=")) for each in words if each.startswith("pairs=")), PAIRS)
    modems, *devices = numbers or [MODEMS]
    return over_tables(modems, devices or DEVICES, pairs)


if __name__ == "__main__":
    sys.exit(script(main, table))
