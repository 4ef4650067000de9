#!/usr/bin/env python3
"""First boots whose leases are on a disk before they are acknowledged, beside ISC's dhcpd: DISCOVER, OFFER, REQUEST and ACK ("DORA") of modems behind relays.

    python3 tests/bench/durable.py [FOLDER [MODEMS [ROUNDS]]]
    python3 tests/bench/durable.py waits [FOLDER [MODEMS [ROUNDS]]]

Each round is, by turns, an office over a file of SQLite's format, one over a journal, and dhcpd, each over new files in FOLDER (or where temporary files are), with
1, 16 and 64 modems at once. All boot once, of three pools with room for all; dhcpd is configured with the same pools and doesn't ping an address before it offers
it. Servers and relays are in two networks of their own, since dhcpd listens at no loopback. The bare syncs a second of a file in FOLDER are measured before each.

The office commits an offer and an acknowledgement, each with its syncs; dhcpd writes and syncs what it acknowledges alone.

waits: the office alone, with a library before the C library's own (tests/bench/waits.c) that times its calls of the system: of the time of a boot by the clock how
much it's in each kind, how often, how much of the syncs' is the processor's, and the bytes; what is left is its own. Beside it, of a loop by itself, a sync behind
16 kB that extend their file, and behind 32 bytes within one.

It prints figures and judges nothing. It wants bin/officed built (or OFFICE_PROGRAM), `cc`, `ip`, `nsenter` and `unshare -rn`; without dhcpd the office is alone.
"""
import contextlib
import os
import shutil
import stat
import struct
import subprocess
import sys
import tempfile
import time

import dora
import journals
from dora import AT_ONCE, office, office_over
from first_boots import ManyRows
from harness import alone_with, script
from harness.machine import compiled, load, processor_seconds, syncs

DHCPD, RELAYS, MODEMS, ROUNDS, LEASE = shutil.which("dhcpd"), 3, 6000, 2, 86_400
STORES = {"SQLite's format": "", "a journal": "journal:"}
WAITS = os.path.join(dora.HERE, "waits.c")
# The kinds of calls, in the order of the library.
CALLS = ("syncs", "writes", "reads", "lines of the log", "datagrams taken", "datagrams sent", "waits for sockets")
NETWORK = """
ip link set lo up
ip link add ve0 type veth peer name ve1
ip addr add {server}/24 dev ve0
ip link set ve0 up
ip link set ve1 netns {relays}
nsenter -t {relays} -n ip link set lo up
nsenter -t {relays} -n ip addr add 10.0.0.1/24 dev ve1
nsenter -t {relays} -n ip addr add 10.64.0.1/10 dev lo
nsenter -t {relays} -n ip link set ve1 up
ip route add 10.64.0.0/10 via 10.0.0.1
"""
HEAD = f"authoritative;\nping-check false;\ndefault-lease-time {LEASE};\nmax-lease-time {LEASE};\nsubnet 10.0.0.0 netmask 255.255.255.0 {{ }}\n"


@contextlib.contextmanager
def two_networks():
    """The program of the clients, as a command that runs it in the network of the relays."""
    with tempfile.TemporaryDirectory() as folder, subprocess.Popen(["unshare", "-n", "sleep", "3600"]) as relays:
        time.sleep(0.3)
        subprocess.run(["sh", "-ec", NETWORK.format(server=office.SERVER, relays=relays.pid)], check=True)
        own, command = compiled(dora.CLIENTS, folder), os.path.join(folder, "clients")
        with open(command, "w", encoding="ascii") as file:
            file.write(f'#!/bin/sh\nexec nsenter -t {relays.pid} -n "{own}" "$@"\n')
        os.chmod(command, stat.S_IRWXU)
        try:
            yield command
        finally:
            relays.terminate()


def boots(clients, server, modems, at_once):
    """DORA a second, and the microseconds of processor of each."""
    before = processor_seconds(server.pid)
    told = dora.exchanges(clients, "boot", 0, modems, RELAYS, at_once)
    return told.done / told.seconds, (processor_seconds(server.pid) - before) / told.done * 1e6


@contextlib.contextmanager
def furnished(kind, folder, modems, variables=None):
    """An office over a new file of a kind, with the rows of so many modems."""
    with tempfile.TemporaryFile() as log, office_over(kind + os.path.join(folder, "office.store"), log, variables) as officed:
        with contextlib.redirect_stdout(None):
            ManyRows(modems, RELAYS).put()
        yield officed


def by_office(clients, kind, folder, modems, at_once):
    with furnished(kind, folder, modems) as officed:
        return boots(clients, officed, modems, at_once)


def subnet(relay, modems):
    """The pool of a relay, as dhcpd is told of it."""
    _, pool = dora.Rows(modems, RELAYS).pool(relay)
    network = office.ip(dora.RELAYS_AT - 1 + dora.RELAYS_APART * relay)
    return f"subnet {network} netmask 255.255.224.0 {{ range {pool['first']} {pool['last']}; option routers {pool['router']}; }}\n"


def by_dhcpd(clients, folder, modems, at_once):
    for name, text in (("dhcpd.conf", HEAD + "".join(subnet(relay, modems) for relay in range(RELAYS))), ("dhcpd.leases", "")):
        with open(os.path.join(folder, name), "w", encoding="ascii") as file:
            file.write(text)
    words = [DHCPD, "-4", "-f", "-q", "-cf", "dhcpd.conf", "-lf", "dhcpd.leases", "-pf", "dhcpd.pid", "ve0"]
    with open(os.path.join(folder, "log"), "wb") as log, subprocess.Popen(words, cwd=folder, stdout=log, stderr=log) as dhcpd:
        time.sleep(1.5)
        if dhcpd.poll() is not None:
            raise SystemExit(f"dhcpd ends with status {dhcpd.returncode}")
        try:
            return boots(clients, dhcpd, modems, at_once)
        finally:
            dhcpd.terminate()


def calls_of(path):
    """Of each kind of call: how many there were so far, their seconds by the clock and of the processor, and their bytes."""
    with open(path, "rb") as file:
        numbers = struct.unpack(f"={4 * len(CALLS)}q", file.read())
    return [(calls, clock / 1e9, processor / 1e9, size) for calls, clock, processor, size in zip(*(numbers[at::4] for at in range(4)))]


def spelled(name, calls, clock, processor, size):
    """What a boot has of a kind of call."""
    besides = [f"{processor * 1e6:.1f} of the processor"] if processor else [f"{size:.0f} bytes"] if size else []
    return f"{calls:.2f} {name} {clock * 1e6:.1f} us" + (f" ({besides[0]})" if besides else "")


def waited(clients, kind, folder, modems, at_once, library):
    """A line of where the time of a boot goes."""
    counted = os.path.join(folder, "waits")
    with open(counted, "wb") as file:
        file.write(bytes(32 * len(CALLS)))
    with furnished(kind, folder, modems, {"LD_PRELOAD": library, "WAITS": counted}) as officed:
        before, used = calls_of(counted), processor_seconds(officed.pid)
        told = dora.exchanges(clients, "boot", 0, modems, RELAYS, at_once)
        after, used = calls_of(counted), processor_seconds(officed.pid) - used
    each = [[(last - first) / told.done for last, first in zip(*both)] for both in zip(after, before)]
    whole = told.seconds / told.done
    return (f"{told.done / told.seconds:.0f} DORA a second, {whole * 1e6:.1f} us each, {used / told.done * 1e6:.1f} of the processor: "
            f"{', '.join(spelled(name, *figures) for name, figures in zip(CALLS, each) if figures[0])}, "
            f"its own {(whole - sum(clock for _, clock, *_ in each)) * 1e6:.1f} us")


def waiting(folder, modems, rounds):
    modems = int(modems)
    with two_networks() as clients, tempfile.TemporaryDirectory() as own:
        library = compiled(WAITS, own, "-shared", "-fPIC")
        for _ in range(int(rounds)):
            for at_once in AT_ONCE:
                for name, kind in STORES.items():
                    with tempfile.TemporaryDirectory(dir=folder) as files:
                        bare, within_room = syncs(files), journals.syncs(files, 1, 1 << 20, 0.5)
                        line = waited(clients, kind, files, modems, at_once, library)
                    print(f"{name}, {at_once} at once: {line}; before it a bare sync {1e6 / bare:.1f} us, within a file with room {1e6 / within_room:.1f}; {load()}", flush=True)
    return 0


def within(folder, modems, rounds):
    modems = int(modems)
    servers = {name: lambda clients, *words, kind=kind: by_office(clients, kind, *words) for name, kind in STORES.items()}
    if DHCPD:
        servers["dhcpd"] = by_dhcpd
    with two_networks() as clients:
        for at_once in AT_ONCE:
            for _ in range(int(rounds)):
                words = []
                for name, serve in servers.items():
                    with tempfile.TemporaryDirectory(dir=folder) as files:
                        bare = syncs(files)
                        rate, used = serve(clients, files, modems, at_once)
                        words.append(f"{name} {rate:.0f} ({used:.0f} us of processor each; {bare:.0f} bare syncs a second before it)")
                print(f"{modems} first boots, {at_once} at once, DORA a second: {'; '.join(words)}; {load()}", flush=True)
    return 0


def main():
    words = sys.argv[1:]
    what = waiting if words[:1] == ["waits"] else within
    words = words[what is waiting:]
    folder, modems, rounds = (*words, *(tempfile.gettempdir(), MODEMS, ROUNDS)[len(words):])
    return alone_with(what, os.path.abspath(folder), str(modems), str(rounds))


if __name__ == "__main__":
    sys.exit(script(main, within, waiting))
