#!/usr/bin/env python3
"""What strangers can cost the office: floods of one port, and the inputs that take longest, in a network of its own.

    python3 tests/bench/strangers.py flood [STORE ..]     how long others wait meanwhile; STORE is `memory`, or a folder for a file of its own
    python3 tests/bench/strangers.py worst                the processor's time of each input of tests/worst
    python3 tests/bench/strangers.py climb [SECONDS [KIND ..]]      looks for worse ones from there, and keeps them there

A flood sends one datagram over and over to one port, or first DISCOVERs of ever new modems; beside it questions for the time (or, under a flood of that port,
acknowledgements to the TFTP port) and clerks' PUTs are timed. Of an input the processor's time is that of the office while it takes as many copies as a tenth of a
second holds, by the kernel's own count of nanoseconds, the sending and answering of a datagram with it. The climb changes an input a few times over by chance and
goes on from what takes longest, of DHCP, TFTP, clerks' heads and bodies, imports, settings and files.

It prints figures beside goals and judges nothing. It wants bin/officed built (or OFFICE_PROGRAM), `cc` and `unshare -rn`.
"""
import contextlib
import os
import random
import resource
import socket
import subprocess
import sys
import tempfile
import time
import zlib

HERE = os.path.dirname(os.path.abspath(__file__))
sys.path.insert(0, os.path.join(HERE, "..", "acceptance"))
import mutations as near  # noqa: E402
from dora import office_over  # noqa: E402
from harness import PROGRAM, ROOT, alone_with, modems as office, script  # noqa: E402
from harness.clerks import ANN, Clerk, connect, read_to_end, request, spelled  # noqa: E402
from harness.machine import compiled, syncs  # noqa: E402
from harness.mutating import mutated  # noqa: E402

import leases  # noqa: E402
import tftp  # noqa: E402
from messages import RELAYED_DISCOVER, option  # noqa: E402

WORST = os.path.join(ROOT, "tests", "worst")
FLOOD_SECONDS, RATES = 3, (50_000, 280_000)
TIME_GOAL, PUT_GOAL, SYNCS_GOAL = 10, 1.0, 3
# Microseconds of processor: a datagram, a body of 1 MiB, an import of 1 MiB, a class's settings of 2,048 bytes.
GOALS = {"dhcp": 20, "tftp": 20, "head": None, "body": 50_000, "import": 100_000, "tree": 200, "file": None}
MIB = 1 << 20
FLOWS = near.files_front()


# ---- the office

@contextlib.contextmanager
def furnished(store="memory"):
    """An office with the rows of tests/acceptance/mutations.py, whose reader has its address."""
    with tempfile.TemporaryFile() as log, office_over(store, log) as program:
        fuzz = near.Fuzzing(random.Random(1), log, near.Heard())
        try:
            fuzz.begin()
            yield program, fuzz
        finally:
            fuzz.end()


def spent(pid):
    """Nanoseconds of processor so far."""
    with open(f"/proc/{pid}/schedstat") as file:
        return int(file.read().split()[0])


def rests(pid):
    """Waits until the office has worked off what a flood left at its socket, for two minutes at most."""
    for _ in range(600):
        before = spent(pid)
        time.sleep(0.2)
        if spent(pid) - before < 4_000_000:
            return


# ---- floods

def floods(fuzz):
    own = office.modem(near.MODEM)
    worst = next(iter(kept("dhcp")), RELAYED_DISCOVER)
    return {
        "DISCOVERs of a stranger": ("10.64.200.9", 67, office.PORTS[0], RELAYED_DISCOVER, ()),
        "DISCOVERs of a modem": ("10.64.200.9", 67, office.PORTS[0], leases.discover(**own), ()),
        "the worst message that is kept": ("10.64.200.9", 67, office.PORTS[0], worst, ()),
        "read requests without a lease": ("10.64.200.9", 1024, office.PORTS[2], fuzz.packets[1], ()),
        "read requests of the reader": (near.AT, 7000, office.PORTS[2], fuzz.packets[1], ()),
        "questions for the time": ("10.64.200.9", 1024, office.PORTS[1], b"", ()),
    }


def percentile(times, share):
    return sorted(times)[min(len(times) - 1, int(len(times) * share))] * 1e3 if times else float("nan")


def waits(port, packet, seconds):
    """How long answers of a port take, each asked two milliseconds after the one before; an answer that is lost counts as a second."""
    times, lost, end = [], 0, time.perf_counter() + seconds
    with socket.socket(socket.AF_INET, socket.SOCK_DGRAM) as client:
        client.bind(("10.64.200.10", 0))
        client.settimeout(1)
        while time.perf_counter() < end:
            began = time.perf_counter()
            client.sendto(packet, (office.SERVER, port))
            try:
                client.recv(2048)
            except OSError:
                lost += 1
            times.append(time.perf_counter() - began)
            time.sleep(0.002)
    return times, lost


def puts(seconds):
    """How long a clerk's PUTs take."""
    program = [sys.executable, "-c", "import sys; sys.path[:0] = sys.argv[1:3]; import strangers; strangers.print_puts(float(sys.argv[3]))",
               HERE, os.path.join(HERE, "..", "acceptance"), str(seconds)]
    return subprocess.Popen(program, stdout=subprocess.PIPE)


def print_puts(seconds):
    times, end, clerk = [], time.perf_counter() + seconds, Clerk(office.PORTS[3], patience=30)
    while time.perf_counter() < end:
        began = time.perf_counter()
        clerk.must("PUT", "/subscribers/7", ANN)
        times.append(time.perf_counter() - began)
        time.sleep(0.01)
    print(max(times), len(times))


def under_a_flood(flooder, name, flood, rate, more=""):
    source, from_port, port, data, words = flood
    running = subprocess.Popen([flooder, source, str(from_port), office.SERVER, str(port), str(rate), str(FLOOD_SECONDS * 1000), *words],
                               stdin=subprocess.PIPE, stdout=subprocess.PIPE)
    running.stdin.write(data)
    running.stdin.close()
    time.sleep(0.3)
    clerk = puts(FLOOD_SECONDS - 0.8)
    asked = (office.PORTS[2], tftp.acknowledgement(9)) if port == office.PORTS[1] else (office.PORTS[1], b"")
    times, lost = waits(*asked, FLOOD_SECONDS - 0.8)
    sent = int(running.stdout.read())
    slowest, count = clerk.communicate(timeout=60)[0].split()
    print(f"  {name}, {sent / FLOOD_SECONDS:,.0f} a second of {rate:,}: another port p50 {percentile(times, 0.5):.2f} ms, p99 {percentile(times, 0.99):.2f} ms, "
          f"greatest {percentile(times, 1):.1f} ms of {len(times)}, {lost} lost (goal: p99 under {TIME_GOAL} ms{more}); PUTs at most {float(slowest) * 1e3:.0f} ms "
          f"of {int(count)} (goal: under {PUT_GOAL:.0f} s)", flush=True)


def flooding(stores):
    with tempfile.TemporaryDirectory() as folder:
        flooder = compiled(os.path.join(HERE, "flood_clients.c"), folder)
        for store in stores or ["memory"]:
            if store == "memory":
                with furnished() as (program, fuzz):
                    for name, flood in floods(fuzz).items():
                        for rate in RATES:
                            under_a_flood(flooder, name, flood, rate)
                            rests(program.pid)
                continue
            with tempfile.TemporaryDirectory(dir=store) as own:
                print(f"  over a file in {store}: a sync takes {1e3 / syncs(own):.2f} ms (goal: p99 under {SYNCS_GOAL} of them)")
                with furnished(os.path.join(own, "office.db")) as (_, fuzz):
                    boots = ("10.64.200.9", 67, office.PORTS[0], leases.discover(**office.modem(near.MODEM)), ())
                    under_a_flood(flooder, "DISCOVERs that are written", boots, 20_000, f", or {SYNCS_GOAL} syncs")


# ---- the inputs that take longest

def kept(kind):
    """The inputs of a kind that are kept, the worst first. Long ones are packed by zlib."""
    names = sorted(os.listdir(WORST)) if os.path.isdir(WORST) else []
    for name in names:
        if name.startswith(kind + "-"):
            with open(os.path.join(WORST, name), "rb") as file:
                data = file.read()
            yield zlib.decompress(data) if name.endswith(".z") else data


def keep(kind, place, data):
    packed = len(data) > 2048
    with open(os.path.join(WORST, f"{kind}-{place}" + (".z" if packed else "")), "wb") as file:
        file.write(zlib.compress(data, 9) if packed else data)


def class_body(settings):
    return spelled({"name": "x", "settings": settings})


def padded(code, count):
    """A DISCOVER with as many empty options of a code as there is room for."""
    front = leases.discover(**office.modem(near.MODEM))[:-1]
    return (front + bytes([code, 0]) * count)[:1499] + b"\xff"


def seeds(kind, fuzz):
    """Where the climb begins: good inputs, and those whose form makes one think."""
    if kind == "dhcp":
        front = leases.discover(**{**office.modem(near.MODEM), "cable": None, "way": None})[:-1]
        pieces = b"".join(option(43, option(9, b"")) for _ in range(200)) + b"".join(option(82, option(9, b"")) for _ in range(100))
        bytewise = b"".join(option(code, bytes([byte])) for code in (43, 82) for byte in bytes([9, 1]) * 100)
        late = leases.discover(**{**office.modem(near.MODEM), "docsis": None})[:-1]
        late += option(9, b"") * ((1468 - len(late)) // 2) + b"".join(option(60, bytes([byte])) for byte in leases.DOCSIS)
        return [*fuzz.messages, late + b"\xff", padded(43, 630), padded(82, 630), padded(0, 630), padded(1, 630), (front + pieces)[:1499] + b"\xff", (front + bytewise)[:1499] + b"\xff",
                front + option(82, option(1, bytes(200))) * 5 + b"\xff"]
    if kind == "tftp":
        name = leases.name_of(near.SECRET, leases.mac(near.READER), leases.address(near.AT))
        return [*fuzz.packets, tftp.request(name, *((b"a", b"b") for _ in range(350))), tftp.request(name, (b"blksize", b"9" * 1300)), tftp.request(b"", *((b"", b""),) * 700)]
    if kind == "head":
        return [request("GET", "/" + "a" * 8000), b"GET /site HTTP/1.1\r\n" + b"a: b\r\n" * 64 + b"\r\n", b"GET /site HTTP/1.1\r\n" + b"a:" + b" " * 8000 + b"\r\n\r\n"]
    if kind == "body":
        texts = [b'{"a":' * 60 + b"1" + b"}" * 60, b'{"a":[' + b"1," * (MIB // 2 - 20) + b"1]}", b'{"' + b"\\u0041" * (MIB // 6 - 10) + b'":1}', b'{"a":' + b"9" * (MIB - 20) + b"}",
                 b"{" + b'"a":1,' * (MIB // 6 - 10) + b'"a":1}', b'{"a":[' + b"[]," * (MIB // 3 - 20) + b"[]]}", b'{"active":true,"cpes":2,"name":"Ann"}' + b" " * (MIB - 60),
                 b'{"a":[' + b'{"a":1},' * (MIB // 8 - 20) + b"1]}", b"{" + b",".join(b'"%d":0' % number for number in range(95_000)) + b"}"]
        return [text[:MIB] for text in texts]
    if kind == "import":
        head = b"subscriber,active,cpes,name\n"
        return [head + b"7,yes,2,Ann\n" * 2000, head + b'7,yes,2,"' + b'""' * (MIB // 2 - 40) + b'"\n', head + b"\n" * (MIB - 40), head + b"," * (MIB - 40),
                head + b'"' * (MIB - 40), head + b"7,yes,2," + b"a" * (MIB - 50) + b"\n", head + b"7,yes,2,x\n" * (MIB // 10 - 5), head + b'"7","yes","2","x"\n' * 2000]
    if kind == "tree":
        flow = {"code": 24, "parts": [{"code": 1, "hex": "0001"}, {"code": 6, "hex": "07"}]}
        down = {"code": 25, "parts": [{"code": 1, "hex": "0002"}, {"code": 6, "hex": "07"}]}
        def classifier(number):
            return {"code": 22, "parts": [{"code": 1, "hex": f"{number % 255 + 1:02x}"}, {"code": 3, "hex": "0001"}]}
        flows = [{"code": 24, "parts": [{"code": 1, "hex": f"{number:04x}"}, {"code": 6, "hex": "07"}]} for number in range(1, 225)]
        return [class_body([flow, down, *(classifier(number) for number in range(200))]), class_body([*flows, down]),
                class_body([flow, down, *({"code": 43, "parts": [{"code": 8, "hex": "000000"}]} for _ in range(200))])]
    settings = b"\x18\x02\x01\x00" * 16_383 + b"\xff"
    return [settings, b"\x03\x01\x01" * 21_000 + b"\xff", b"\x09\x00" * 32_767 + b"\xff", bytes([22, 4, 9, 2, 1, 0]) * 10_000 + b"\xff", b"\xff" + bytes(65_000)]


def cost_of_datagrams(program, fuzz, kind, data, port, sender):
    """Microseconds of a datagram, of some that are sent at once; the least of three tries."""
    found, service = [], kind
    for count in (8, 64, 64):
        fuzz.lines.new()
        before = spent(program.pid)
        for _ in range(count):
            sender.sendto(data, (office.SERVER, port))
        fuzz.told(service, count)
        found.append((spent(program.pid) - before) / count / 1e3)
    return min(found[1:])


def cost_of_request(program, fuzz, data):
    found = []
    for _ in range(3):
        before = spent(program.pid)
        with connect(office.PORTS[3], patience=60) as peer:
            with contextlib.suppress(OSError):
                peer.sendall(data)
                peer.shutdown(socket.SHUT_WR)
            read_to_end(peer)
        fuzz.ends_of(1)
        found.append((spent(program.pid) - before) / 1e3)
    return min(found)


def cost_of_file(data):
    """Microseconds of `check` over a file beyond those over an empty one."""
    used = []
    for each in (b"", data):
        best = float("inf")
        for _ in range(3):
            before = resource.getrusage(resource.RUSAGE_CHILDREN)
            subprocess.run([PROGRAM, "check", "00"], input=each, stdout=subprocess.DEVNULL, timeout=60)
            after = resource.getrusage(resource.RUSAGE_CHILDREN)
            best = min(best, after.ru_utime + after.ru_stime - before.ru_utime - before.ru_stime)
        used.append(best)
    return (used[1] - used[0]) * 1e6


def cost(program, fuzz, kind, data):
    if kind == "dhcp":
        return cost_of_datagrams(program, fuzz, kind, data, office.PORTS[0], fuzz.relay)
    if kind == "tftp":
        return cost_of_datagrams(program, fuzz, kind, data, office.PORTS[2], fuzz.asker)
    if kind == "head":
        return cost_of_request(program, fuzz, data)
    if kind == "file":
        return cost_of_file(data)
    path = {"body": "/subscribers/7", "import": "/imports/subscribers/9", "tree": "/classes/2"}[kind]
    return cost_of_request(program, fuzz, request("PUT", path, data))


def told(kind, place, size, micros):
    goal = GOALS[kind]
    print(f"  {kind} {place}: {size} bytes, {micros:,.1f} us" + (f" (goal: {goal:,} us: {'met' if micros <= goal else 'missed'})" if goal else ""), flush=True)


def climbing(seconds, kinds):
    """Goes on from the input that takes longest, of each kind for so many seconds, and keeps the two worst."""
    chance = random.Random(7)
    os.makedirs(WORST, exist_ok=True)
    with furnished() as (program, fuzz):
        for kind in kinds:
            ends, most = time.perf_counter() + seconds, MIB if kind in ("body", "import") else 65_536 if kind in ("tree", "file", "head") else 1500
            ranked = sorted(((cost(program, fuzz, kind, data), data) for data in [*kept(kind), *seeds(kind, fuzz)]), reverse=True)[:4]
            while time.perf_counter() < ends:
                data = mutated(chance, [each for _, each in ranked], most, {"dhcp": 240, "tftp": 2}.get(kind, 0))
                if kind == "tftp" and near.is_time_answer(data):
                    continue
                found = cost(program, fuzz, kind, data)
                # What is measured once by chance is measured again.
                if found > ranked[-1][0]:
                    ranked = sorted([*ranked, (min(found, cost(program, fuzz, kind, data)), data)], reverse=True)[:4]
            for name in os.listdir(WORST):
                if name.startswith(kind + "-"):
                    os.remove(os.path.join(WORST, name))
            for place, (micros, data) in enumerate(ranked[:2], 1):
                keep(kind, place, data)
                told(kind, place, len(data), micros)


def measuring():
    with furnished() as (program, fuzz):
        usual = {"dhcp": fuzz.messages[1], "tftp": fuzz.packets[1], "head": request("GET", "/site"), "file": FLOWS}
        for kind in GOALS:
            # Of kinds of which nothing is kept those from which a climb would begin.
            for place, data in enumerate([*kept(kind)] or seeds(kind, fuzz), 1):
                told(kind, place, len(data), cost(program, fuzz, kind, data))
            if kind in usual:
                told(kind, "as it usually is", len(usual[kind]), cost(program, fuzz, kind, usual[kind]))


def within(word="worst", *words):
    office.addresses_of_lo()
    if word == "flood":
        flooding(words)
    elif word == "climb":
        climbing(float(words[0]) if words else 60, words[1:] or ("dhcp", "tftp", "head", "body", "import", "tree", "file"))
    else:
        measuring()
    return 0


def main():
    return alone_with(within, *sys.argv[1:])


if __name__ == "__main__":
    sys.exit(script(main, within))
