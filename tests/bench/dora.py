#!/usr/bin/env python3
"""Leases a second over loopback, in a network of its own: DISCOVER, OFFER, REQUEST and ACK ("DORA") of modems behind relays, and relays' queries.

    python3 tests/bench/dora.py [MODEMS[:RELAYS] ..]

A clerk fills the tables; then modems boot for the first time, and go on booting while they hold their leases, with 1, 16 and 64 modems waiting for an
answer at a time; then their relays ask which addresses they have (RFC 4388). Beside both, by turns, the same datagrams go to a bare echo, whose answers are as long as the office's. The best of some rounds is
printed, since others may disturb this machine, and the processor's time of each exchange, which they disturb less. Then, while datagrams come at a
steady rate, how long questions for the time and clerks' PUTs take.

It prints figures beside goals and judges nothing. The office's log goes to a file, and its words are counted at the end. It wants bin/officed built
(or OFFICE_PROGRAM), `cc` and `unshare -rn`. Without arguments it takes 100 modems behind 3 relays and behind 30, and 100,000 behind 30: some minutes.

With a folder in OFFICE_STORES the tables are in a file there, a new one for each number of modems, and in a journal where `journal:` stands before the
folder. The bare syncs a second of a file of its own there are printed before and behind each, and how long a start over the filled file takes.
"""
import collections
import contextlib
import os
import re
import subprocess
import sys
import tempfile
import time

HERE = os.path.dirname(os.path.abspath(__file__))
sys.path.insert(0, os.path.join(HERE, "..", "acceptance"))
from harness import alone_with, modems as office, script, start, stop  # noqa: E402
from harness.machine import compiled, processor_seconds, resident, syncs  # noqa: E402

CLIENTS = os.path.join(HERE, "dora_clients.c")
RELAYS_AT, RELAYS_APART, MOST_IN_POOL = 0x0A400001, 8192, 4096
ROUNDS, MILLISECONDS = 15, 150
AT_ONCE = (1, 16, 64)
FLOOD, FLOOD_SECONDS = 20_000, 3
GOAL, MANY_GOAL, TIME_GOAL, PUT_GOAL = 20_000, 1.5, 50, 1
STORES, JOURNAL = os.environ.get("OFFICE_STORES", ""), "journal:"
# The last is there where the clients are told of the server.
Told = collections.namedtuple("Told", "done seconds again wrong length used", defaults=(0.0,))


def clients(program, *words):
    done = subprocess.run([program, *map(str, words)], stdout=subprocess.PIPE, timeout=900)
    if done.returncode != 0:
        raise SystemExit(f"{words}: status {done.returncode}")
    return done.stdout.split()


def exchanges(program, *words):
    told = Told(*map(float, clients(program, *words)))
    if told.again or told.wrong:
        print(f"  {words}: {told.again:.0f} datagrams were sent again, {told.wrong:.0f} answers were wrong")
    return told


def size_of(word):
    """How many modems and relays a word of the command asks for; without a number three relays, or as many as pools of 4,096 addresses want."""
    modems, _, relays = word.partition(":")
    return int(modems), int(relays or (3 if int(modems) <= 3 * MOST_IN_POOL else 30))


class Rows:
    """The rows of so many modems: a pool for each relay, with just as many addresses as it has modems, and a modem more for each relay."""

    def __init__(self, modems, relays):
        self.modems, self.relays, self.filled = modems, relays, 0

    def pool(self, relay):
        network = RELAYS_AT - 1 + RELAYS_APART * relay
        first = network + RELAYS_APART // 2
        count = self.modems // self.relays + (relay < self.modems % self.relays)
        own = office.ip(network + 1)
        return f"/pools/{relay + 1}", {"first": office.ip(first), "last": office.ip(first + count - 1), "prefix": 19, "router": own, "relay": own}

    def modem(self, number):
        return f"/modems/02{number:010x}", {"subscriber": number, "class": 1, "serial": f"SN{number:06}"}

    def put(self):
        began = time.perf_counter()
        rows = [("/site", {**office.SITE, "lease": 86_400}), ("/classes/1", {"name": "gold", "settings": office.GOLD})]
        rows += [self.pool(relay) for relay in range(self.relays)]
        for path, body in rows:
            put_row(path, body)
        for number in range(self.modems + self.relays):
            put_row(f"/subscribers/{number}", {"active": True, "cpes": 2, "name": "Ann"})
            put_row(*self.modem(number))
        print(f"  tables filled in {time.perf_counter() - began:.1f} s")


@contextlib.contextmanager
def store():
    """The word for the tables, with the bare syncs of its disk before and behind."""
    if not STORES:
        yield "memory"
        return
    kind = JOURNAL if STORES.startswith(JOURNAL) else ""
    with tempfile.TemporaryDirectory(dir=STORES.removeprefix(JOURNAL)) as folder:
        print(f"  a file of its own takes {syncs(folder):.0f} syncs of 16 kB a second")
        yield kind + os.path.join(folder, "office.store")
        print(f"  a file of its own takes {syncs(folder):.0f} syncs of 16 kB a second")


def start_again(path):
    """How long a start over a filled file takes, and its memory."""
    with open(os.devnull, "wb") as log:
        began = time.perf_counter()
        officed = start(office.PORTS, 10**12, log, {"OFFICED_UDP": office.SERVER}, store=path)
        while not office.is_ready() and officed.poll() is None:
            pass
        # Who connects is accepted once the tables are open.
        office.clerk.ask("GET", "/site")
        print(f"  a start over the file: {time.perf_counter() - began:.2f} s, {resident(officed.pid) / 1e6:.1f} MB, "
              f"{os.path.getsize(path.removeprefix(JOURNAL)) / 1e6:.1f} MB of file, {processor_seconds(officed.pid):.1f} s of processor")
        stop(officed, seconds=30)


def put_row(path, body):
    """How long the PUT took."""
    began = time.perf_counter()
    office.clerk.must("PUT", path, body)
    return time.perf_counter() - began


@contextlib.contextmanager
def office_over(path, log, variables=None):
    """An office over these tables, once clerks are heard; with these variables of its environment besides."""
    officed = start(office.PORTS, 10**12, log, {"OFFICED_UDP": office.SERVER, **(variables or {})}, store=path)
    try:
        # A start over a million rows takes a quarter of a minute.
        ready = any(office.is_ready() for _ in range(6) if officed.poll() is None)
        if not ready:
            raise SystemExit("officed doesn't answer")
        yield officed
    finally:
        stop(officed, seconds=60)


@contextlib.contextmanager
def among_relays():
    """The program of the clients, in a network of its own where all relays' addresses are this machine's."""
    office.addresses_of_lo(relays="255.192.0.0")
    with tempfile.TemporaryDirectory() as folder:
        yield compiled(CLIENTS, folder)


def rests(program):
    """Waits until the program has worked off what it was sent, for half a minute at most."""
    for _ in range(150):
        before = processor_seconds(program.pid)
        time.sleep(0.2)
        if processor_seconds(program.pid) - before < 0.02:
            return


class Measured:
    """An office with its rows, and the echo beside it."""

    def __init__(self, program, officed, rows):
        self.program, self.officed, self.rows = program, officed, rows

    def all_once(self, mode, at_once, first=0, count=None):
        return exchanges(self.program, mode, first, self.rows.modems if count is None else count, self.rows.relays, at_once)

    def first_boots(self):
        """Of few modems the best of some rounds, between which they release their leases; of many the first and the last tenth too."""
        modems = self.rows.modems
        if modems <= 1000:
            for at_once in AT_ONCE:
                rates = []
                for _ in range(10):
                    told = self.all_once("boot", at_once)
                    rates.append(told.done / told.seconds)
                    self.all_once("release", at_once)
                print(f"  first boots, {at_once} at once: {max(rates):.0f} DORA/s at best, {sorted(rates)[5]:.0f} in the middle")
            self.all_once("boot", 16)
            return
        tenth = modems // 10 // self.rows.relays * self.rows.relays
        parts = [self.all_once("boot", 16, at * tenth, tenth if at < 9 else modems - 9 * tenth) for at in range(10)]
        rates = [part.done / part.seconds for part in parts]
        done, seconds = sum(part.done for part in parts), sum(part.seconds for part in parts)
        print(f"  first boots, 16 at once: {done / seconds:.0f} DORA/s; the first tenth {rates[0]:.0f}, the last {rates[-1]:.0f}")

    def one_round(self, mode, at_once, server):
        """What was exchanged, and the processor's seconds of the server."""
        before = processor_seconds(server.pid)
        told = exchanges(self.program, mode, 0, self.rows.modems, self.rows.relays, at_once, MILLISECONDS)
        return told, processor_seconds(server.pid) - before

    def by_turns(self, at_once, echo, ours, echoed):
        """Of the office, and of the echo: the most exchanges a second, and the microseconds of processor of each."""
        rounds = [(self.one_round(ours, at_once, self.officed), self.one_round(echoed, at_once, echo)) for _ in range(ROUNDS)]
        for column in zip(*rounds):
            done = sum(told.done for told, _ in column)
            yield max(told.done / told.seconds for told, _ in column), sum(used for _, used in column) / max(done, 1) * 1e6

    def leased(self):
        """Modems that hold leases, beside the echo; the time and the processor's time of a DORA for each number of modems at once."""
        return self.beside_the_echo("leased", "DORA", "renew", "echoed", GOAL)

    def queried(self):
        """Relays that ask about modems that hold leases, beside the echo."""
        return self.beside_the_echo("asked about", "queries", "query", "query-echoed", None)

    def beside_the_echo(self, what, unit, mode, echoed, wanted):
        taken = {}
        length = int(self.one_round(mode, 16, self.officed)[0].length)
        echo = subprocess.Popen([self.program, "echo", str(length)])
        time.sleep(0.2)
        try:
            for at_once in AT_ONCE:
                (ours, used), (others, other_used) = self.by_turns(at_once, echo, mode, echoed)
                goal = f", goal {wanted}: {'met' if ours >= wanted else 'missed'}" if wanted and at_once > 1 and self.rows.modems == 100 else ""
                print(f"  {what}, {at_once} at once: {ours:.0f} {unit}/s ({used:.1f} us of processor each), echo of {length} bytes {others:.0f} "
                      f"({other_used:.1f} us): {ours / others if others else 0:.2f}{goal}")
                # A machine that is too busy may exchange none in a round.
                taken[at_once] = (1 / ours if ours else float("inf"), used)
        finally:
            echo.kill()
            echo.wait()
        return taken

    def under_a_flood(self, mode, first, count, rate):
        words = [self.program, mode, first, count, self.rows.relays, rate, FLOOD_SECONDS * 1000]
        flood = subprocess.Popen([*map(str, words)], stdout=subprocess.PIPE)
        flood.stdout.readline()
        time.sleep(0.5)
        times = subprocess.Popen([self.program, "times", str(FLOOD_SECONDS * 1000 - 1000)], stdout=subprocess.PIPE)
        puts, end, turn = collections.defaultdict(list), time.perf_counter() + FLOOD_SECONDS - 1, 0
        while time.perf_counter() < end:
            for path, body in (("/subscribers/0", {"active": True, "cpes": 2, "name": "Ann"}), self.rows.modem(0), self.rows.pool(turn % self.rows.relays)):
                puts[path.split("/")[1]].append(put_row(path, body))
            turn += 1
            time.sleep(0.01)
        sent, seconds, answers = map(float, flood.communicate(timeout=60)[0].split())
        answered, lost, median, most, greatest = times.communicate(timeout=60)[0].decode().split()
        rests(self.officed)
        print(f"  {mode}, {sent / seconds:.0f} datagrams/s (of {rate}), {answers / sent:.0%} answered: time p50 {median} ms, p99 {most} ms, "
              f"greatest {greatest} ms of {answered}, {lost} lost (goal: p99 under {TIME_GOAL} ms); PUTs at most "
              + ", ".join(f"{kind} {max(each) * 1e3:.1f} ms" for kind, each in puts.items()) + f" of {turn} each (goal: under {PUT_GOAL} s)")


def measure(program, modems, relays):
    """One office, from empty tables on."""
    print(f"{modems} modems behind {relays} relays")
    rows = Rows(modems, relays)
    with tempfile.TemporaryFile() as log, store() as path:
        with office_over(path, log) as officed:
            rows.put()
            measured = Measured(program, officed, rows)
            measured.first_boots()
            rates = measured.leased()
            measured.queried()
            measured.under_a_flood("flood", 0, modems, FLOOD)
            measured.under_a_flood("padded", 0, modems, FLOOD)
            measured.under_a_flood("full", modems, relays, FLOOD)
            print(f"  memory {resident(officed.pid) / 1e6:.1f} MB, {processor_seconds(officed.pid):.1f} s of processor")
        if path != "memory":
            start_again(path)
        log.seek(0)
        words = collections.Counter(match.group(1) for match in re.finditer(rb"^[0-9]+ ([a-z]+(?: [a-z0-9-]+)?)", log.read(), re.M))
        print("  the log: " + ", ".join(f"{word.decode()} {count}" for word, count in words.most_common()))
    return rates


def within(*words):
    with among_relays() as program:
        rates = [(size, measure(program, *size)) for size in map(size_of, words)]
    for size, each in rates[1:]:
        (time_0, used_0), (time_1, used_1) = [list(zip(*(taken[at_once] for at_once in AT_ONCE))) for taken in (rates[0][1], each)]
        times = [", ".join(f"{after / before:.2f}" for before, after in zip(*columns)) for columns in ((time_0, time_1), (used_0, used_1))]
        print(f"{size[0]} modems behind {size[1]} relays beside the first: {times[0]} times the time with {AT_ONCE} at once (goal for 100,000: under "
              f"{MANY_GOAL}), {times[1]} times the processor's")
    return 0


def main():
    return alone_with(within, *(sys.argv[1:] or ["100", "100:30", "100000"]))


if __name__ == "__main__":
    sys.exit(script(main, within))
