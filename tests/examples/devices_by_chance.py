#!/usr/bin/env python3
"""Messages of devices and modems, relays' queries and clerks' commands by chance, over objects in memory: the program of scripts against the model of
tests/examples/devices.py.

Few devices, modems, addresses and subscribers meet in each run, so that leases, pools and limits collide; some modems share a place in what the office
keeps of devices' leases, a modem is a device behind another, pools lie at both ends of all addresses, and moments fall now and then. Each run goes on
over the tables that it left, as an office that starts anew. Each line, each byte that is sent and all rows behind each run are compared.

    devices_by_chance.py [SEED [EVENTS]]

takes a seed (1) and how many events there are (20,000). The program is crates/office_script/out/office_script, or what the variable
OFFICE_SCRIPT names. `office.py` writes a section of a few such runs.
"""
import os
import random
import subprocess
import sys

import devices
import leases
from devices import Played
from examples import ROOT, Script
from leases import Clerk, address, put_hub, put_pool, remove, show, text_of
from messages import DECLINE, DISCOVER, RELEASE, REQUEST, message, option, query, split

PROGRAM = os.environ.get("OFFICE_SCRIPT", os.path.join(ROOT, "crates", "office_script", "out", "office_script"))
GOLD = "24{ 1=0001 6=07 8=00989680 } 25{ 1=0002 6=07 8=05f5e100 }"
# The last two bytes of the first three are the same modulo 4,096; the fourth is of no row at first, the fifth of none ever.
MODEMS = [bytes.fromhex(each) for each in ("02aabbccddee", "02aabbcc0dee", "0211bbcc2dee", "02aabbccdd01", "02aabbccdd77")]
DEVICES = [bytes.fromhex(each) for each in ("0200000000a1", "0200000000a2", "0200000000a3", "0200000000a4")] + MODEMS[1:2]
ADDRESSES = 24
RELAYS = ["10.65.1.1", "10.65.2.1", "10.65.3.1", "10.65.4.1"]
SERVERS = ["10.0.0.2", "10.0.0.3"]
STEPS = (0, 0, 0, 0, 0, 0, 1, 1, 7, 30, 60, 119, 120)
TURNS = 120


class Chance:
    """Events by chance, which look at the model's office as it is."""

    def __init__(self, seed):
        self.chance, self.now = random.Random(seed), 0
        self.low = self.chance.choice((0x0A800000, 0x0A800000, 0xFFFFFFFF - ADDRESSES + 1, 0))
        self.played = None

    @property
    def office(self):
        return self.played.office

    def is_now(self, share):
        return self.chance.random() < share

    def place(self, number=None):
        return text_of((self.low + (self.chance.randrange(ADDRESSES) if number is None else number)).to_bytes(4, "big"))

    def rows(self):
        """An office in which two modems are online, and a third isn't; two pools for devices, of which one has few addresses."""
        hubs = [f"hub {number} {server} 736563726574 3600 {self.chance.choice((60, 300, 86400, 604800))} 0.0.0.0" for number, server in enumerate(SERVERS)]
        people = [f'subscriber {number} {"active" if self.is_now(0.9) else "suspended"} {self.chance.choice((1, 2, 2, 3))} ""' for number in (7, 8)]
        modems = [f'modem {each.hex()} {self.chance.choice((7, 8))} 1 ""' for each in MODEMS[:3]]
        shared = self.is_now(0.3)
        pools = [f"pool 1 {self.place(0)} {self.place(5)} 24 {RELAYS[0]} {RELAYS[0]}", f"pool 2 {self.place(6)} {self.place(7)} 24 {RELAYS[1]} {RELAYS[1]}", "pool-hub 2 1"]
        apart = [f"device-pool 1 {self.place(8)} {self.place(8 + self.chance.choice((0, 2, 5)))} 24 {RELAYS[2]} {RELAYS[0 if shared else 2]}",
                 f"device-pool 2 {self.place(16)} {self.place(self.chance.choice((16, 17, 23)))} 24 {RELAYS[3]} {RELAYS[3]}"]
        lasts = [self.chance.choice((400, 4000, 100000)) for _ in range(2)]
        bound = [f"lease {self.place(each)} bound {MODEMS[each].hex()} t+{lasts[each]}" for each in (0, 1)] + [f"held {MODEMS[each].hex()} {self.place(each)}" for each in (0, 1)]
        return [*hubs, f'class 1 "gold" {GOLD}', *people, *modems, *pools, *apart, *bound]

    # ---- messages

    def relay(self):
        """A relay: mostly that of a pool for devices."""
        if self.is_now(0.15):
            return self.chance.choice((*RELAYS, "0.0.0.0", "10.9.9.9"))
        return self.chance.choice([text_of(pool.relay) for pool in self.office.device_pools.values()] or RELAYS)

    def own_or_another(self, own):
        return text_of(own) if own is not None and self.is_now(0.8) else self.place()

    def way(self, modem, sender):
        """What a relay says, or nothing."""
        kind = self.chance.random()
        if kind < 0.8:
            return option(1, b"\x80\0\0\1") + option(2, modem) if kind < 0.5 else option(2, modem)
        return self.chance.choice((None, None, b"", option(2, modem[:5]), option(2, MODEMS[4]), option(2, sender), option(2, modem) + b"\2", option(2, modem) + option(2, MODEMS[0]),
                                   option(2, b"") + option(2, modem), option(1, b""), option(0, b"\2") + option(2, modem), option(255, b"") + option(2, modem)))

    def device_says(self):
        """A message that a device may send; some of its parts are another's."""
        sender, modem, kind = self.chance.choice(DEVICES), self.chance.choice(MODEMS[:4]), self.chance.choice((DISCOVER, DISCOVER, REQUEST, REQUEST, REQUEST, RELEASE, DECLINE))
        owned = [owner for _, owner, _ in self.office.devices.values() if owner]
        if owned and self.is_now(0.5):
            modem, sender = self.chance.choice(owned)
        elif self.is_now(0.7):
            modem = self.chance.choice([each for each in MODEMS[:4] if self.office.is_online(each)] or MODEMS)
        own = self.office.own(modem, sender)
        server = self.chance.choice((None, *SERVERS, *SERVERS[:1]))
        asked = client = None
        if kind == DISCOVER:
            asked = self.place() if self.is_now(0.4) else None
        elif kind == REQUEST:
            form = self.chance.randrange(3)
            asked, client = (None, self.own_or_another(own)) if form == 0 else (self.own_or_another(own), None)
            server = server or SERVERS[0] if form == 1 else None
        elif kind == DECLINE:
            asked = self.own_or_another(own)
        else:
            client = self.own_or_another(own)
        if self.is_now(0.05):
            client = self.own_or_another(own)
        return self.sent(kind, sender, modem, self.relay() if not client or self.is_now(0.4) else "0.0.0.0", client, asked, server)

    def sent(self, kind, sender, modem, relay, client, asked, server):
        if self.is_now(0.03):
            asked, server, client = self.chance.choice((asked, b"\x0a\0", None)), self.chance.choice((server, b"\0", None)), self.chance.choice((client, self.place()))
        if self.is_now(0.02):
            kind = self.chance.choice((0, 2, 5, 6, 8, 9, 11, 13, 255))
        named = [(50, asked), (54, server)]
        options = b"".join(option(code, address(value) if isinstance(value, str) else value) for code, value in named if value is not None)
        if self.is_now(0.1):
            options += self.chance.choice((option(43, b"\x04\x09S"), option(43, b"\x04\x01S"), option(60, b"docsis3.1:"), option(60, b"MSFT 5.0"), option(61, b"\1" + sender)))
        way = self.way(modem, sender) if self.is_now(0.92 if relay != "0.0.0.0" else 0.5) else None
        data = message(kind, sender, options + (split(82, way) if way is not None else b""), address(relay), address(client or "0.0.0.0"), xid=self.chance.randrange(2**32),
                       flags=self.chance.choice((0, 0x8000)))
        return data[:self.chance.randrange(236, len(data))] if self.is_now(0.01) else data

    def modem_says(self):
        """A message that a modem sends, so that it goes online or offline, or to another hub."""
        sender = self.chance.choice([each for each in MODEMS[:4] if not self.office.is_online(each)] or MODEMS) if self.is_now(0.6) else self.chance.choice(MODEMS[:4])
        held = self.office.held.get(sender)
        relay = self.chance.choice([text_of(pool.relay) for pool in self.office.pools.values()] or RELAYS) if self.is_now(0.9) else self.chance.choice(RELAYS)
        mine = self.own_or_another(held)
        pool = held and self.office.pool_around(held)
        server = SERVERS[self.office.hub_of(pool) % 2] if pool else self.chance.choice(SERVERS)
        if pool and self.is_now(0.8):
            relay = text_of(pool.relay)
        kind = self.chance.choice((DISCOVER, *[REQUEST] * 8, RELEASE, DECLINE)) if held else DISCOVER if self.is_now(0.8) else REQUEST
        form = self.chance.randrange(3)
        client = mine if kind == RELEASE or kind == REQUEST and form == 0 else None
        asked = mine if kind == DECLINE or kind == REQUEST and form else self.place() if kind == DISCOVER and self.is_now(0.2) else None
        more = option(60, b"docsis3.1:") if kind in (DISCOVER, REQUEST) and self.is_now(0.97) else b""
        named = [(50, asked), (54, server if kind == REQUEST and form == 1 or kind in (RELEASE, DECLINE) and self.is_now(0.5) else None)]
        options = b"".join(option(code, address(value)) for code, value in named if value) + more
        remote = sender if self.is_now(0.9) else self.chance.choice(MODEMS)
        relay = relay if not client or self.is_now(0.3) else "0.0.0.0"
        return message(kind, sender, options + (option(82, option(2, remote)) if self.is_now(0.9) and relay != "0.0.0.0" else b""), address(relay), address(client or "0.0.0.0"))

    def asks(self):
        """A relay's query, by address or by hardware address."""
        relay = address(self.chance.choice(RELAYS))
        more = option(82, option(2, self.chance.choice(MODEMS))) if self.is_now(0.3) else b""
        if self.is_now(0.5):
            return query(client=address(self.place()), relay=relay, options=more)
        return query(hardware=self.chance.choice(MODEMS + DEVICES), relay=relay, options=more)

    # ---- clerks

    def range_of(self):
        first = self.chance.randrange(ADDRESSES)
        return self.place(first), self.place(max(first - 1, 0) if self.is_now(0.03) else min(ADDRESSES - 1, first + self.chance.choice((0, 1, 3, 7))))

    def commands(self):
        kind, number = self.chance.random(), self.chance.choice((1, 2, 3))
        if kind < 0.22:
            return self.puts_subscriber()
        if kind < 0.38:
            return self.puts_modem()
        if kind < 0.62:
            return devices.put_device_pool(number, *self.changed(self.office.device_pools.get(number)), self.chance.choice((RELAYS[2], RELAYS[3], *RELAYS)))
        if kind < 0.72:
            return put_pool(number, *self.changed(self.office.pools.get(number)), self.chance.choice(RELAYS), self.chance.choice((None, 0, 1, 1, 9)))
        if kind < 0.78:
            return remove(f"/device-pools/{number}")
        if kind < 0.79:
            return remove(f"/pools/{number}")
        if kind < 0.81:
            return remove(f"/modems/{self.chance.choice(MODEMS[:4]).hex()}")
        if kind < 0.825:
            return remove(f"/subscribers/{self.chance.choice((7, 8, 9))}")
        if kind < 0.84:
            return remove(f"/hubs/{self.chance.choice((0, 1))}")
        if kind < 0.97:
            hub = self.chance.choice((0, 1))
            return put_hub(hub, SERVERS[hub if self.is_now(0.9) else 1 - hub], lease=self.chance.choice((60, 300, 86400, 604800)), log=self.chance.choice(("0.0.0.0", "10.0.0.8")), offset=self.chance.choice((0, -3600)))
        return show(self.place())

    def changed(self, pool):
        """The range of a pool that is there, longer or shorter; or another range."""
        if pool is None or self.is_now(0.3):
            return self.range_of()
        first, last = (int.from_bytes(each, "big") - self.low for each in (pool.first, pool.last))
        inside = lambda number: max(0, min(ADDRESSES - 1, number))
        return self.place(inside(first + self.chance.choice((-1, 0, 0, 1)))), self.place(inside(last + self.chance.choice((-1, 0, 0, 1))))

    def puts_subscriber(self):
        return devices.put_subscriber(self.is_now(0.8), self.chance.choice((1, 1, 2, 2, 3, 254)), self.chance.choice((7, 8, 9)))

    def puts_modem(self):
        modem, subscriber, its_class = self.chance.choice(MODEMS[:4]).hex(), self.chance.choice((7, 7, 8, 8, 9)), self.chance.choice((1,) * 9 + (2,))
        return Clerk("PUT", f"/modems/{modem}", leases.compact({"subscriber": subscriber, "class": its_class, "serial": ""}), f'modem {modem} {subscriber} {its_class} ""')

    # ---- runs

    def event(self):
        self.now += self.chance.choice(STEPS)
        kind = self.chance.random()
        what = self.device_says() if kind < 0.65 else self.modem_says() if kind < 0.83 else self.commands() if kind < 0.97 else self.asks()
        return f"t+{self.now if self.is_now(0.95) else self.now // 2}", None, what

    def plays(self, script, rows, again, words):
        """A run, and what the model says of it. `words` counts how often it says which word."""
        self.played, events = Played(rows), []
        for _ in range(TURNS):
            events.append(self.event())
            self.played.take(*events[-1])
        for line in self.played.wrote:
            word = line.split(" ", 1)[1]
            words[word] = words.get(word, 0) + 1
        given = [leases.line_of(turn, moment, what) for turn, (moment, _, what) in enumerate(events, 1)]
        script.run("", [*([] if again else rows), "show tables", *given], self.played.outcome(), again=again)


def sections(script):
    """Writes a section of some runs, and of what goes on over the tables that they left."""
    script.section("whatever comes, devices and modems have what the model says", f"{devices.MODEL} Messages and commands by chance; behind each step the model looks that what is promised of devices holds.")
    for seed in range(5):
        chance = Chance(f"examples {seed}")
        rows = chance.rows()
        for number in range(2):
            chance.plays(script, rows, number > 0, {})
            rows = chance.played.office.rows()


def scripts(seed, count, words):
    """Scripts with their expected texts, each of some runs; `count` events in all."""
    runs = -(-count // TURNS)
    for first in range(0, runs, 20):
        script = Script("devices_by_chance.py", "")
        for place in range(first, min(first + 20, runs), 4):
            chance = Chance(f"{seed} {place}")
            script.section(f"{seed} {place}", "")
            rows = chance.rows()
            for number in range(min(4, runs - place)):
                chance.plays(script, rows, number > 0, words)
                rows = chance.played.office.rows()
        yield script


def first_difference(said, wanted):
    """The place of the first line that differs, and both lines."""
    for place, (one, other) in enumerate(zip([*said, "the end"], [*wanted, "the end"]), 1):
        if one != other:
            return f"line {place} of the printed text: {one[:400]}\n  where the model says {other[:400]}"
    return ""


def main():
    seed, count = [*sys.argv[1:], *("1", "20000")[len(sys.argv) - 1:]][:2]
    if not os.path.exists(PROGRAM):
        print(f"{PROGRAM} isn't there: build office_script, or name its program by OFFICE_SCRIPT")
        return 1
    words, ended, differ = {}, 0, 0
    for script in scripts(seed, int(count), words):
        text = ("\n".join(script.script) + "\n").encode()
        printed = subprocess.run([PROGRAM], input=text, capture_output=True, check=False)
        said, wanted = printed.stdout.decode().split("\n"), ("\n".join(script.expected) + "\n").split("\n")
        if printed.returncode != 0 or said != wanted:
            differ += 1
            print(f"FAILED: of {script.expected[1]} and what comes behind it the program and the model say not the same\n  {first_difference(said, wanted)}")
        ended += 1
    for word, times in sorted(words.items()):
        print(f"{times:8} {word}")
    missing = [word for word in EXPECTED if int(count) >= 20_000 and not any(word in each.split(" ") for each in words)]
    if missing:
        print(f"FAILED: no event has {missing}")
    print(f"{sum(words.values())} events in {ended} scripts, of which {differ} differ")
    return 1 if differ or missing else 0


EXPECTED = ["not-served", "cpe-form", "cpe-no-pool", "cpe-suspended", "cpe-offline", "cpe-other-server", "cpe-limit", "cpe-pool-full", "cpe-no-record", "cpe-not-yours", "cpe-offer", "cpe-ack",
            "cpe-declined", "cpe-released", "relay-mismatch", "part-cut", "device-overlap", "pool-overlap", "relay-taken", "pool-has-leases", "query-active"]

if __name__ == "__main__":
    sys.exit(main())
