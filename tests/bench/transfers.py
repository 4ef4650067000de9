#!/usr/bin/env python3
"""Files a second over loopback, in a network of its own: modems that read their files over TFTP, each built and signed when it is asked for.

    python3 tests/bench/transfers.py [ROUNDS]

A clerk fills the tables and modems get leases; then 1, 16 and 64 of them at a time read files of 200 and of 6,200 bytes in blocks of 512 and of 1,428, again
and again. By turns the same clients read static files of the same names and lengths from dnsmasq, where it is installed, and from a server that keeps
nothing and answers each packet by what it says alone. The best of some rounds is printed, since others may disturb this machine; the median and the 99th
percentile of a file's time in the middle one of the rounds; and the processor's time of each file, which they disturb less.

It prints figures beside the goal, dnsmasq's files a second, and judges nothing. Both logs go to files, and the words of the office's are counted at the end.
It wants bin/officed built (or OFFICE_PROGRAM), `cc` and `unshare -rn`, and takes some minutes.
"""
import collections
import os
import re
import shutil
import subprocess
import sys
import tempfile
import time

HERE = os.path.dirname(os.path.abspath(__file__))
sys.path.insert(0, os.path.join(HERE, "..", "acceptance"))
from harness import alone_with, modems as office, script, stop  # noqa: E402
from harness.machine import compiled, load, processor_seconds  # noqa: E402
from harness.network import address_of_lo, port_of, took  # noqa: E402
from dora import office_over  # noqa: E402
import leases  # noqa: E402
import tftp  # noqa: E402

CLIENTS = os.path.join(HERE, "transfers_clients.c")
DNSMASQ_AT, BARE_AT = "10.0.0.3", "10.0.0.4"
MILLISECONDS, MODEMS = 150, 192
AT_ONCE, BLOCKS = (1, 16, 64), (512, 1428)
FLOWS, BOOST = "24{ 1=0001 6=07 } 25{ 1=0002 6=07 }", "24{ 1=0005 6=07 } 22{ 1=03 3=0005 }"
FIRST = int.from_bytes(leases.address("10.64.16.0"), "big")
Told = collections.namedtuple("Told", "done seconds again wrong median most")


def extensions(length):
    """Vendor's settings of so many bytes."""
    parts = []
    while length > 0:
        taken = min(length, 256)
        parts.append({"code": 43, "parts": [{"code": 8, "hex": "000000"}, {"code": 1, "hex": "07" * (taken - 9)}]})
        length -= taken
    return parts


def settings(text, length):
    """Settings that begin so, of so many bytes in a file."""
    tree = tftp.tree_in(text)
    return tftp.tree_json(tree) + extensions(length - len(tftp.spelled_tree(tree)))


# The files' lengths, each with how many bytes its class has and each of its add-ons.
KINDS = {200: (145, []), 6200: (2048, [512] * 8)}


def rows():
    """The rows of the office: for each length a class, a subscriber and so many modems."""
    yield "/site", {**office.SITE, "lease": 86_400}
    yield "/pools/1", {"first": office.ip(FIRST), "last": office.ip(FIRST + len(KINDS) * MODEMS - 1), "prefix": 16, "router": office.RELAY, "relay": office.RELAY}
    for place, (class_, add_ons) in enumerate(KINDS.values()):
        yield f"/classes/{place}", {"name": "gold", "settings": settings(FLOWS, class_)}
        yield f"/subscribers/{place}", {"active": True, "cpes": 2, "name": "Ann"}
        for number, length in enumerate(add_ons):
            yield f"/subscribers/{place}/addons/{number}", {"settings": settings(BOOST, length)}
        for number in range(place * MODEMS, (place + 1) * MODEMS):
            yield f"/modems/{mac(number).hex()}", {"subscriber": place, "class": place, "serial": ""}


def mac(number):
    return bytes([2, 0, 0, 0]) + number.to_bytes(2, "big")


def furnish():
    for path, body in rows():
        office.clerk.must("PUT", path, body)


def leased(relay):
    """Has all modems lease an address; gives each with the name of its file."""
    for number in range(len(KINDS) * MODEMS):
        held = asked(relay, leases.DISCOVER, number, leases.option(60, leases.DOCSIS))["address"]
        ack = asked(relay, leases.REQUEST, number, leases.option(50, held) + leases.option(54, leases.address(office.SERVER)))
        yield leases.text_of(held), ack["name"].decode()


def asked(relay, kind, number, more):
    data = leases.message(kind, mac(number), more, leases.address(office.RELAY), xid=number)
    relay.sendto(data, (office.SERVER, office.PORTS[0]))
    came = took(relay)
    if came is None:
        raise SystemExit(f"modem {number} has no answer")
    return office.reply_in(came[0])


class Server:
    """A server, and what was measured of it."""

    def __init__(self, name, address, process):
        self.name, self.address, self.process = name, address, process

    def reads(self, clients, names, first, at_once, size, length):
        """One round: what the clients tell, and the processor's seconds of the server."""
        before = processor_seconds(self.process.pid)
        done = subprocess.run([clients, "read", names, *map(str, (first, MODEMS, at_once, self.address, size, length, MILLISECONDS))],
                              stdout=subprocess.PIPE, timeout=60)
        if done.returncode != 0:
            raise SystemExit(f"{self.name}: status {done.returncode}")
        return Told(*map(float, done.stdout.split())), processor_seconds(self.process.pid) - before


def dnsmasq(folder, names):
    """dnsmasq with a static file for each modem, or None where it isn't installed."""
    program = shutil.which("dnsmasq") or shutil.which("dnsmasq", path="/usr/sbin")
    if program is None:
        return None
    files = os.path.join(folder, "files")
    os.mkdir(files)
    for place, (_, name) in enumerate(names):
        with open(os.path.join(files, name), "wb") as file:
            file.write(b"\3" * list(KINDS)[place // MODEMS])
    os.chmod(folder, 0o755)
    # As what it's started: in a network of its own nobody may become another user. It logs a line for each file.
    words = [program, "--no-daemon", "--port=0", "--enable-tftp", f"--tftp-root={files}", f"--listen-address={DNSMASQ_AT}", "--bind-interfaces",
             "--conf-file=/dev/null", "--tftp-max=1000", f"--log-facility={folder}/dnsmasq.log"]
    return Server("dnsmasq", DNSMASQ_AT, subprocess.Popen(words, stderr=subprocess.DEVNULL))


def measure(clients, names, length, size, at_once, servers, rounds):
    """The servers by turns. Prints a line for each: files a second at best, times of a file, microseconds of processor, and beside dnsmasq."""
    first = list(KINDS).index(length) * MODEMS
    bare = Server("bare", BARE_AT, subprocess.Popen([clients, "bare", BARE_AT, str(size), str(length)]))
    time.sleep(0.1)
    told = collections.defaultdict(list)
    try:
        for _ in range(rounds):
            for server in [*servers, bare]:
                told[server.name].append(server.reads(clients, names, first, at_once, size, length))
    finally:
        bare.process.kill()
        bare.process.wait()
    best = {name: max(each.done / each.seconds for each, _ in column) for name, column in told.items()}
    texts = []
    for name, column in told.items():
        done = sum(each.done for each, _ in column)
        median, most = (sorted(getattr(each, word) for each, _ in column)[rounds // 2] for word in ("median", "most"))
        text = f"{name} {best[name]:.0f}/s (p50 {median:.2f} ms, p99 {most:.2f} ms, {sum(used for _, used in column) / done * 1e6:.1f} us)"
        wrong, again = (sum(getattr(each, word) for each, _ in column) for word in ("wrong", "again"))
        texts.append(text + (f" [{wrong:.0f} wrong, {again:.0f} packets again]" if wrong or again else ""))
    beside = f"; beside dnsmasq {best['officed'] / best['dnsmasq']:.2f}, goal 1: {'met' if best['officed'] >= best['dnsmasq'] else 'missed'}" if "dnsmasq" in best else ""
    print(f"{length} bytes by {size}, {at_once} at once: " + ", ".join(texts) + beside)
    sys.stdout.flush()


def within(rounds):
    office.addresses_of_lo()
    for place, address in enumerate((DNSMASQ_AT, BARE_AT), 3):
        address_of_lo(b"lo:%d" % place, address, "255.255.255.255")
    with tempfile.TemporaryDirectory() as folder, tempfile.TemporaryFile() as log:
        with office_over("memory", log) as officed:
            furnish()
            all_rounds(compiled(CLIENTS, folder), folder, officed, int(rounds))
        log.seek(0)
        words = collections.Counter(match.group(1) for match in re.finditer(rb"^[0-9]+ (tftp [a-z-]+|tick|dhcp [a-z-]+|http [0-9]+)", log.read(), re.M))
        print("the log: " + ", ".join(f"{word.decode()} {count}" for word, count in words.most_common()))
    return 0


def all_rounds(clients, folder, officed, rounds):
    """The office and dnsmasq by turns, for each length, size of blocks and number of modems at once."""
    names, names_at = list(leased(port_of(office.RELAY, 67))), os.path.join(folder, "names")
    with open(names_at, "w") as file:
        file.write("".join(f"{held} {name}\n" for held, name in names))
    other = dnsmasq(folder, names)
    print(f"{load()} before; {'no dnsmasq here' if other is None else 'dnsmasq beside'}; {rounds} rounds of {MILLISECONDS} ms each")
    servers = [Server("officed", office.SERVER, officed), *([other] if other else [])]
    time.sleep(0.3)
    try:
        for length in KINDS:
            for size in BLOCKS:
                for at_once in AT_ONCE:
                    measure(clients, names_at, length, size, at_once, servers, rounds)
    finally:
        if other:
            stop(other.process, seconds=30)
    print(f"{load()} afterwards")


def main():
    return alone_with(within, *(sys.argv[1:2] or ["15"]))


if __name__ == "__main__":
    sys.exit(script(main, within))
