#!/usr/bin/env python3
"""officed for a while under all that goes wrong around it, in a network and with mounts of its own; nothing that was acknowledged is lost.

    python3 tests/bench/soak.py [SECONDS [STORE [SEED]]]     600 seconds over `sqlite:` or `journal:`

2,000 modems boot and renew by a relay, two clerks put rows, and by chance, every second or two: peers reset their connections or go away in the midst of a
request, messages name relays that can't be reached, the interface is taken down and up, the file system of the store is full for a while, the program is stopped
and goes on, its clock is set forward or back by up to an hour, and some hundred changed datagrams come. Every 20 seconds it is killed and started again.

At the end, with all as it should be, each change and each lease that was acknowledged is there, no address was acknowledged to two modems, and each line of the
log is one of docs/MESSAGES.md. The clock is that of a small library which is loaded before the C library's, so this wants the proved program, and `cc`; where the
program isn't linked so that it can be, the clock is left out and a line says so. It ends what it started.
"""
import collections
import os
import random
import re
import signal
import socket
import struct
import subprocess
import sys
import tempfile
import threading
import time

HERE = os.path.dirname(os.path.abspath(__file__))
sys.path.insert(0, os.path.join(HERE, "..", "acceptance"))
import every_word  # noqa: E402
from harness import PROGRAM, alone_with, check, failures, kill, modems as office, script, serve  # noqa: E402
from harness.clerks import Clerk, connect, request  # noqa: E402
from harness.machine import Preloaded  # noqa: E402
from harness.network import port_of  # noqa: E402
from harness.mutating import mutated  # noqa: E402

import leases  # noqa: E402
import messages  # noqa: E402
from examples import ip  # noqa: E402

MODEMS, AT_ONCE, EACH = 2000, 50, 20
FIRST, LEASE = int.from_bytes(leases.address("10.64.32.0"), "big"), 86_400
POOL = {"first": ip(FIRST), "last": ip(FIRST + MODEMS - 1), "prefix": 16, "router": office.RELAY, "relay": office.RELAY}
STORES = {"sqlite:": "", "journal:": "journal:"}
CLOCK = r"""
#define _GNU_SOURCE
#include <fcntl.h>
#include <stdlib.h>
#include <sys/mman.h>
#include <sys/syscall.h>
#include <time.h>
#include <unistd.h>
/* By how many seconds the clock of the day is off. */
static volatile long *off;
__attribute__((constructor)) static void open_it(void) {
    int file = open(getenv("CLOCK_OFF"), O_RDWR);
    off = mmap(NULL, sizeof(long), PROT_READ | PROT_WRITE, MAP_SHARED, file, 0);
    close(file);
}
int clock_gettime(clockid_t which, struct timespec *now) {
    int status = syscall(SYS_clock_gettime, which, now);
    if (status == 0 && which == CLOCK_REALTIME && off) now->tv_sec += *off;
    return status;
}
"""


def mac(number):
    return b"\x02\xaa" + number.to_bytes(4, "big")


def says(kind, number, client=bytes(4), relay=office.RELAY, **named):
    options = b"".join(messages.option({"asked": 50, "server": 54}[name], leases.address(value)) for name, value in named.items())
    options += messages.option(60, leases.DOCSIS) + messages.option(82, leases.agent(mac(number)))
    return messages.message(kind, mac(number), options, leases.address(relay), client, xid=0xABCD0000 + number)


class Program:
    """The office, killed and started again; its log is one file of all starts."""

    def __init__(self, folder, disk, store, clock):
        self.log, self.disk, self.clock, self.lock = os.path.join(folder, "log"), disk, clock, threading.Lock()
        self.store = STORES[store] + os.path.join(disk, "office.store")
        self.process, self.starts, self.slowest, self.endings = None, 0, 0.0, []

    def start(self):
        words = serve(self.store, 10**12, office.PORTS)
        environment = {**os.environ, "OFFICED_UDP": office.SERVER, **(self.clock.environment() if self.clock else {})}
        began = time.perf_counter()
        with open(self.log, "ab") as log:
            self.process = subprocess.Popen(words, stdout=log, stderr=subprocess.DEVNULL, env=environment)
        self.starts += 1
        check(any(office.is_ready() for _ in range(6)), "the office starts")
        self.slowest = max(self.slowest, time.perf_counter() - began)

    def again(self):
        with self.lock:
            status = self.process.poll()
            if status is not None:
                self.endings.append(status)
            self.process.send_signal(signal.SIGCONT)
            kill(self.process)
            self.start()


class Modems(threading.Thread):
    """Modems boot, or renew where they hold an address, so many at once; `held` is what was acknowledged last, `owners` to whom each address ever was."""

    def __init__(self, seed):
        super().__init__(daemon=True)
        self.chance, self.over, self.relay = random.Random(seed), threading.Event(), port_of(office.RELAY, 67)
        self.relay.settimeout(0.5)
        self.held, self.owners, self.acknowledged = {}, collections.defaultdict(set), 0

    def send(self, data):
        try:
            self.relay.sendto(data, (office.SERVER, office.PORTS[0]))
        except OSError:
            time.sleep(0.05)

    def run(self):
        while not self.over.is_set():
            numbers = self.chance.sample(range(MODEMS), AT_ONCE)
            for number in numbers:
                if number in self.held and self.chance.random() < 0.7:
                    self.send(says(messages.REQUEST, number, client=self.held[number].to_bytes(4, "big")))
                else:
                    self.send(says(messages.DISCOVER, number))
            self.hear(set(numbers))

    def hear(self, waiting):
        while waiting:
            try:
                data = self.relay.recv(4096)
            except OSError:
                return
            number, reply = struct.unpack_from(">I", data, 4)[0] - 0xABCD0000, messages.reply_in(data)
            given = int.from_bytes(reply["address"], "big")
            if reply["kind"] == messages.OFFER:
                self.send(says(messages.REQUEST, number, asked=ip(given), server=office.SERVER))
                continue
            waiting.discard(number)
            if reply["kind"] == messages.ACK:
                self.held[number] = given
                self.owners[given].add(number)
                self.acknowledged += 1
            elif reply["kind"] == messages.NAK:
                check(number not in self.held, f"modem {number}, which holds {ip(self.held.get(number, 0))}, is told no")


class Putting(threading.Thread):
    """A clerk that puts one subscriber after another; `done` are those that were acknowledged."""

    def __init__(self, first):
        super().__init__(daemon=True)
        self.clerk, self.first = Clerk(office.PORTS[3], patience=10), first
        self.done, self.over, self.refused = {}, threading.Event(), collections.Counter()

    def run(self):
        number = self.first
        while not self.over.is_set():
            name = f"S{number}"
            status = self.clerk.ask("PUT", f"/subscribers/{number}", {"active": True, "cpes": 2, "name": name}).status
            if status == 200:
                self.done[number] = name
                number += 1
            else:
                self.refused[status] += 1
                time.sleep(0.05)


# ---- what goes wrong

class Trouble:
    def __init__(self, chance, program, disk, clock):
        self.chance, self.program, self.disk, self.clock, self.counted = chance, program, disk, clock, collections.Counter()
        self.stranger = socket.socket(socket.AF_INET, socket.SOCK_DGRAM)
        self.stranger.bind(("10.64.200.9", 1024))

    def peers_reset(self):
        for _ in range(30):
            try:
                with connect(office.PORTS[3]) as peer:
                    peer.sendall(request("PUT", "/subscribers/1", b"x" * 500)[:self.chance.randrange(600)])
                    peer.setsockopt(socket.SOL_SOCKET, socket.SO_LINGER, struct.pack("ii", 1, 0))
            except OSError:
                pass

    def unreachable_relays(self):
        for number in range(30):
            self.sends(says(messages.DISCOVER, number, relay="203.0.113.9"), 0)
            # A modem that renews from an address at which nobody is.
            self.sends(says(messages.REQUEST, number, client=leases.address("198.51.100.7"), relay="0.0.0.0"), 0)

    def sends(self, data, port):
        try:
            self.stranger.sendto(data, (office.SERVER, office.PORTS[port]))
        except OSError:
            pass

    def interface_down(self):
        subprocess.run(["ip", "link", "set", "lo", "down"], check=False)
        time.sleep(self.chance.uniform(0.1, 0.6))
        subprocess.run(["ip", "link", "set", "lo", "up"], check=False)

    def full_disk(self):
        path = os.path.join(self.disk, "filler")
        try:
            with open(path, "wb", buffering=0) as file:
                while True:
                    file.write(bytes(1 << 16))
        except OSError:
            pass
        time.sleep(self.chance.uniform(0.2, 1.0))
        os.remove(path)

    def stopped(self):
        with self.program.lock:
            self.program.process.send_signal(signal.SIGSTOP)
            time.sleep(self.chance.uniform(0.1, 1.5))
            self.program.process.send_signal(signal.SIGCONT)

    def clock_set(self):
        self.clock.number = self.chance.choice((-3600, -60, 0, 60, 3600))

    def changed_datagrams(self):
        for _ in range(300):
            self.sends(mutated(self.chance, [says(messages.DISCOVER, 5000), messages.RELAYED_DISCOVER]), 0)
            self.sends(mutated(self.chance, [b"\0\1x\0octet\0", b"\0\4\0\1"]), 2)

    def happens(self):
        each = [self.peers_reset, self.unreachable_relays, self.interface_down, self.full_disk, self.stopped, self.changed_datagrams]
        one = self.chance.choice([*each, self.clock_set] if self.clock else each)
        self.counted[one.__name__] += 1
        one()


def furnish():
    rows = [("/site", {**office.SITE, "lease": LEASE, "log": "0.0.0.0"}), ("/classes/1", {"name": "gold", "settings": office.GOLD}), ("/pools/1", POOL),
            ("/subscribers/7", {"active": True, "cpes": 2, "name": "Ann"})]
    rows += [(f"/modems/{mac(number).hex()}", {"subscriber": 7, "class": 1, "serial": ""}) for number in range(MODEMS)]
    office.clerk.furnishes(rows)


def all_there(modems, clerks):
    """Each change and each lease that was acknowledged is there."""
    for clerk in clerks:
        for number, name in clerk.done.items():
            shown = office.clerk.row(f"/subscribers/{number}") or {}
            check(shown.get("name") == name, f"subscriber {number} is there: {shown}")
    for number, given in modems.held.items():
        shown = office.clerk.row(f"/leases/{ip(given)}") or {}
        check((shown.get("owner"), shown.get("state")) == (mac(number).hex(), "bound"), f"modem {number} has {ip(given)}: {shown}")
    for given, owners in modems.owners.items():
        check(len(owners) == 1, f"{ip(given)} was acknowledged to {sorted(owners)}")


def lines_are_words(path):
    words = {"dhcp": {*every_word.DHCP, *every_word.QUERIES}, "time": {"sent"}, "tftp": set(every_word.TFTP)}
    every, counted = {"memory", "keeper", "link"}, collections.Counter()
    with open(path) as log:
        for line in log:
            # A kill may cut off the last line of a start, and the next start goes on behind it.
            place = re.search(r"\d+ (dhcp|time|tftp|tick|http) ([^\n]*)$", line)
            service, said = (place[1], place[2]) if place else ("", line.rstrip())
            word = said.split(" ")[0]
            counted[f"{service} {word}"] += 1
            known = word in words.get(service, set()) | every
            known = known or service == "tick" and bool(re.fullmatch(r"again \d+ closed \d+", said))
            known = known or service == "http" and (word in ("wait", "200", "busy", "closed") or said.split(" ")[-1] in every_word.FAULTS)
            check(known, f"a line of no word: {line.rstrip()}")
    return counted


def soaking(seconds, store, seed):
    seconds, seed = float(seconds), int(seed)
    office.addresses_of_lo()
    with tempfile.TemporaryDirectory() as folder:
        disk = os.path.join(folder, "disk")
        os.mkdir(disk)
        subprocess.run(["mount", "-t", "tmpfs", "-o", "size=64m", "none", disk], check=True)
        clock = Preloaded(folder, "clock", CLOCK, "CLOCK_OFF") if may_be_early(PROGRAM) else None
        program = Program(folder, disk, store, clock)
        program.start()
        furnish()
        modems, clerks = Modems(seed), [Putting(100_000 * (place + 1)) for place in range(2)]
        trouble = Trouble(random.Random(seed), program, disk, clock)
        for each in (modems, *clerks):
            each.start()
        began, killed = time.perf_counter(), time.perf_counter()
        while time.perf_counter() - began < seconds and len(failures) < 20:
            trouble.happens()
            time.sleep(trouble.chance.uniform(0.5, 1.5))
            if time.perf_counter() - killed > EACH:
                program.again()
                killed = time.perf_counter()
        for each in (modems, *clerks):
            each.over.set()
        for each in (modems, *clerks):
            each.join(timeout=30)
        if clock:
            clock.number = 0
        program.again()
        all_there(modems, clerks)
        kill(program.process)
        counted = lines_are_words(program.log)
        print(f"{seconds:.0f} s over {store} {program.starts} starts, the slowest {program.slowest:.2f} s, and ended by itself {program.endings}; {modems.acknowledged} "
              f"acknowledgements to {len(modems.held)} modems, {sum(len(each.done) for each in clerks)} changes; refused {dict(sum((each.refused for each in clerks), collections.Counter()))}")
        print("  " + ", ".join(f"{name} {count}" for name, count in sorted(trouble.counted.items())) + ("" if clock else "; without the clock, which can't be set here"))
        print("  " + ", ".join(f"{word} {count}" for word, count in sorted(counted.items())))
        subprocess.run(["umount", disk], check=False)
    print(f"{len(failures)} failed")


def may_be_early(program):
    """Whether a library before the C library's is heard: the sanitizer of an unproved program has to be the first."""
    with open(program, "rb") as file:
        return b"AddressSanitizer" not in file.read()


def main():
    given = sys.argv[1:4]
    return alone_with(soaking, *given, *["600", "sqlite:", "4"][len(given):], flags="-rnm")


if __name__ == "__main__":
    sys.exit(script(main, soaking))
