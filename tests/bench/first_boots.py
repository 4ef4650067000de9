#!/usr/bin/env python3
"""First boots of modems over loopback, in a network of its own: DISCOVER, OFFER, REQUEST and ACK ("DORA") of modems that have no lease yet.

    python3 tests/bench/first_boots.py [pools [MODEMS[:RELAYS] ..] | all [MODEMS[:RELAYS]] | kea | removals [SUBSCRIBERS ..]]

pools: DORA a second with 1, 16 and 64 modems at once, in pools that are empty, and in pools that are full but for those who boot. As many modems boot
whatever the number in the tables, again and again, so that only the tables differ: half of the least number, 1,530 at most. Then how long questions for the
time take under 20,000 DISCOVERs a second of modems for which no address is free.
all: each of so many modems boots once, 16 at once.
kea: three times 3,800 modems in three pools of 4,096 addresses, a tenth at a time, beside Debian's kea-dhcp4 with one thread and its leases in memory and
a plain file (`memfile`), and a bare echo of the same datagrams, by turns. DORA a second of all, and in brackets of the first tenth and the last.
removals: how long DELETEs of subscribers take whom no modem names, and those that are refused, one behind another.

With a folder in OFFICE_STORES the tables are in a file there, a new one for each number of modems, and in a journal where `journal:` stands before the
folder. The bare syncs a second of a file of its own there are printed before and behind each. Tables are filled by imports of 2,000 rows.

It prints figures, of the best and the middle of some rounds, with the machine's load, and judges nothing. It wants bin/officed built (or OFFICE_PROGRAM),
`cc` and `unshare -rn`.
"""
import json
import os
import shutil
import socket
import subprocess
import sys
import tempfile
import time

import dora
from dora import AT_ONCE, FLOOD, Measured, Rows, among_relays, office, office_over, put_row, size_of, store
from harness import alone_with, script
from harness.clerks import Clerk
from harness.machine import load, processor_seconds, resident

KEA, POOL_OF_KEA, RELAYS_OF_KEA, MODEMS_OF_KEA = shutil.which("kea-dhcp4"), 4096, 3, 3 * 3800
MOST_ROWS, CHUNK, ROUNDS, LEAST_OF_A_ROUND = 2000, 1530, 3, 3000
DELETES = 300


def imported(kind, columns, rows, batch):
    """Puts rows, each a line of CSV, by as many imports as they want, which are numbered from `batch` on."""
    clerk = Clerk(office.PORTS[3], patience=60)
    for number, first in enumerate(range(0, len(rows), MOST_ROWS)):
        table = "\n".join([columns, *rows[first:first + MOST_ROWS]]) + "\n"
        clerk.must("PUT", f"/imports/{kind}/{batch + number}", table.encode())


def mac(number):
    return ":".join(f"02{number:010x}"[at:at + 2] for at in range(0, 12, 2))


class ManyRows(Rows):
    """Those rows put by imports; with `room` each pool has so many addresses."""

    def __init__(self, modems, relays, room=None):
        super().__init__(modems, relays)
        self.room = room

    def pool(self, relay):
        path, row = super().pool(relay)
        if self.room:
            first = int.from_bytes(socket.inet_aton(row["first"]), "big")
            row["last"] = office.ip(first + self.room - 1)
        return path, row

    def put(self):
        began = time.perf_counter()
        put_row("/site", {**office.SITE, "lease": 86_400})
        put_row("/classes/1", {"name": "gold", "settings": office.GOLD})
        for relay in range(self.relays):
            put_row(*self.pool(relay))
        numbers = range(self.modems + self.relays)
        imported("subscribers", "subscriber,active,cpes,name", [f"{number},yes,2,Ann" for number in numbers], 1)
        imported("modems", "mac,subscriber,class,serial", [f"{mac(number)},{number},1,SN{number:06}" for number in numbers], 10_000)
        print(f"  tables filled in {time.perf_counter() - began:.1f} s", flush=True)


class Boots(Measured):
    """An office with its rows, and modems that boot for the first time."""

    def booted(self, at_once, first, count):
        """How many booted in how many seconds, and the processor's: so often as makes a round long enough, each time behind releases that aren't counted."""
        done, seconds, used = 0, 0.0, 0.0
        while done < LEAST_OF_A_ROUND:
            before = processor_seconds(self.officed.pid)
            told = self.all_once("boot", at_once, first, count)
            used += processor_seconds(self.officed.pid) - before
            done, seconds = done + told.done, seconds + told.seconds
            self.all_once("release", at_once, first, count)
        return done, seconds, used

    def rounds(self, what, first, count):
        """The same modems boot, and give their addresses back, with each number at once."""
        best = []
        for at_once in AT_ONCE:
            parts = [self.booted(at_once, first, count) for _ in range(ROUNDS)]
            rates = sorted(done / seconds for done, seconds, _ in parts)
            each = sum(used for _, _, used in parts) / sum(done for done, _, _ in parts) * 1e6
            print(f"  {what}, {at_once} at once: {rates[-1]:.0f} DORA/s at best, {rates[ROUNDS // 2]:.0f} in the middle, {each:.1f} us of processor each", flush=True)
            best.append(rates[-1])
        return best

    def pools(self, booting):
        relays, modems = self.rows.relays, self.rows.modems
        # The clients want to begin with a modem of the first relay.
        chunk = modems - (modems - booting) // relays * relays
        empty = self.rounds("empty pools", 0, chunk)
        told = self.all_once("boot", 16, 0, modems - chunk)
        print(f"  {modems - chunk} modems booted, 16 at once: {told.done / told.seconds:.0f} DORA/s", flush=True)
        full = self.rounds(f"pools full but for {chunk} addresses", modems - chunk, chunk)
        self.all_once("boot", 16, modems - chunk, chunk)
        self.under_a_flood("full", modems, relays, FLOOD)
        return empty, full

    def everyone(self):
        tenth = self.rows.modems // 10 // self.rows.relays * self.rows.relays
        parts = [self.all_once("boot", 16, at * tenth, tenth if at < 9 else self.rows.modems - 9 * tenth) for at in range(10)]
        rates = [part.done / part.seconds for part in parts]
        seconds = sum(part.seconds for part in parts)
        print(f"  all {self.rows.modems} boot, 16 at once: {seconds:.1f} s, {sum(part.done for part in parts) / seconds:.0f} DORA/s; the first tenth {rates[0]:.0f}, the last {rates[-1]:.0f}", flush=True)


def over(program, rows, what):
    """Measures over an office with these rows, from empty tables on."""
    with tempfile.TemporaryFile() as log, store() as path, office_over(path, log) as officed:
        rows.put()
        found = what(Boots(program, officed, rows))
        print(f"  memory {resident(officed.pid) / 1e6:.1f} MB; {load()}", flush=True)
        return found


def pools(program, sizes):
    found, booting = {}, min(CHUNK, min(modems for modems, _ in sizes) // 2)
    for modems, relays in sizes:
        print(f"{modems} modems behind {relays} relays; {load()}", flush=True)
        found[modems] = over(program, ManyRows(modems, relays), lambda boots: boots.pools(booting))
    for place, at_once in enumerate(AT_ONCE):
        rates = [rate for both in found.values() for rate in (both[0][place], both[1][place])]
        print(f"{at_once} at once: the most over the least of {', '.join(f'{rate:.0f}' for rate in rates)}: {max(rates) / min(rates):.2f} (goal: under 1.3)")


# ---- beside Kea

def kea_subnet(relay):
    base = dora.RELAYS_AT - 1 + dora.RELAYS_APART * relay
    first, own = base + dora.RELAYS_APART // 2, office.ip(base + 1)
    return {"id": relay + 1, "subnet": f"{office.ip(base)}/19", "pools": [{"pool": f"{office.ip(first)} - {office.ip(first + POOL_OF_KEA - 1)}"}],
            "relay": {"ip-addresses": [own]}, "option-data": [{"name": "routers", "data": own}]}


def kea_config(folder):
    config = {"Dhcp4": {
        "interfaces-config": {"interfaces": [f"lo/{office.SERVER}"], "dhcp-socket-type": "udp"}, "multi-threading": {"enable-multi-threading": False},
        "lease-database": {"type": "memfile", "persist": True, "name": os.path.join(folder, "leases.csv"), "lfc-interval": 0}, "valid-lifetime": 86_400,
        "subnet4": [kea_subnet(relay) for relay in range(RELAYS_OF_KEA)], "loggers": [{"name": "kea-dhcp4", "severity": "ERROR", "output_options": [{"output": os.path.join(folder, "kea.log")}]}]}}
    path = os.path.join(folder, "kea.json")
    with open(path, "w", encoding="ascii") as file:
        json.dump(config, file)
    return path


def start_kea(folder):
    os.makedirs(folder, exist_ok=True)
    kea = subprocess.Popen([KEA, "-c", kea_config(folder)], stdout=subprocess.DEVNULL, stderr=subprocess.STDOUT,
                           env={**os.environ, "KEA_PIDFILE_DIR": folder, "KEA_LOCKFILE_DIR": folder, "KEA_LOGGER_DESTINATION": "stderr"})
    time.sleep(2)
    if kea.poll() is not None:
        with open(os.path.join(folder, "kea.log"), encoding="utf-8") as log:
            print("kea-dhcp4 ends:", kea.returncode, log.read()[-400:])
        return None
    return kea


def by_tenths(program, at_once):
    """DORA a second of all modems, which boot once, of the first tenth of them and of the last."""
    tenth = MODEMS_OF_KEA // 10
    told = [dora.exchanges(program, "boot", at * tenth, tenth, RELAYS_OF_KEA, at_once) for at in range(10)]
    whole = sum(each.done for each in told) / sum(each.seconds for each in told)
    return [whole, *(each.done / each.seconds for each in (told[0], told[-1]))]


def spelled(rates, form):
    """Rates as text: that of all modems, and in brackets those of the first tenth and of the last."""
    return "{} ({}, {})".format(*(format(rate, form) for rate in rates))


def kea_round(program, folder, at_once):
    kea = start_kea(folder)
    if kea is None:
        return []
    try:
        return by_tenths(program, at_once)
    finally:
        kea.terminate()
        kea.wait()


def beside_kea(program):
    rows = ManyRows(MODEMS_OF_KEA, RELAYS_OF_KEA, POOL_OF_KEA)
    with tempfile.TemporaryDirectory() as folder:
        for at_once in AT_ONCE:
            for turn in range(2):
                ours = over(program, rows, lambda boots: by_tenths(program, at_once))
                others = kea_round(program, os.path.join(folder, f"{at_once}-{turn}"), at_once) if KEA else []
                echo = subprocess.Popen([program, "echo", "300"])
                time.sleep(0.2)
                told = dora.exchanges(program, "echoed", 0, MODEMS_OF_KEA, RELAYS_OF_KEA, at_once, 500)
                echo.kill()
                echo.wait()
                words = [f"the office {spelled(ours, '.0f')}"]
                words += [f"Kea {spelled(others, '.0f')}: {spelled([own / other for own, other in zip(ours, others)], '.2f')} times it"] if others else []
                print(f"{at_once} at once: {'; '.join(words)}; the echo {told.done / told.seconds:.0f} DORA/s; {load()}", flush=True)


# ---- removals

def timed(paths, wanted):
    each = []
    for path in paths:
        began = time.perf_counter()
        office.clerk.must("DELETE", path, status=wanted)
        each.append(time.perf_counter() - began)
    each.sort()
    return f"{each[len(each) // 2] * 1e3:.2f} ms in the middle, {each[-len(each) // 20] * 1e3:.2f} at the 95th percentile"


def removals(boots):
    spare = boots.rows.modems + boots.rows.relays
    imported("subscribers", "subscriber,active,cpes,name", [f"{spare + number},yes,2,Ann" for number in range(DELETES)], 99_999)
    before = processor_seconds(boots.officed.pid)
    print("  DELETE of a subscriber whom no modem names:", timed([f"/subscribers/{spare + number}" for number in range(DELETES)], 200))
    between = processor_seconds(boots.officed.pid)
    print("  DELETE of one with a modem, refused:", timed([f"/subscribers/{number}" for number in range(DELETES)], 409))
    after = processor_seconds(boots.officed.pid)
    print(f"  {(between - before) / DELETES * 1e6:.0f} and {(after - between) / DELETES * 1e6:.0f} us of processor each", flush=True)


def within(word, *words):
    with among_relays() as program:
        if word == "pools":
            pools(program, [size_of(each) for each in words or ("100", "10000:3", "199900:51")])
        elif word == "all":
            for modems, relays in [size_of(each) for each in words or ("100000",)]:
                print(f"{modems} modems behind {relays} relays; {load()}", flush=True)
                over(program, ManyRows(modems, relays), Boots.everyone)
        elif word == "kea":
            beside_kea(program)
        else:
            for subscribers in map(int, words or (1_000, 190_000)):
                print(f"{subscribers} subscribers with a modem each; {load()}", flush=True)
                over(program, ManyRows(subscribers, max(3, -(-subscribers // dora.MOST_IN_POOL))), removals)
    return 0


def main():
    words = sys.argv[1:] or ["pools"]
    if words[0] not in ("pools", "all", "kea", "removals"):
        print(__doc__.strip())
        return 2
    return alone_with(within, *words)


if __name__ == "__main__":
    sys.exit(script(main, within))
