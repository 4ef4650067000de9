#!/usr/bin/env python3
"""bin/office-watch tells which modem each line of an office is about.

In a network of its own two hundred modems boot, renew, decline and release, with bad datagrams
between, and bin/office-modem boots one to the end of its file. What was sent is captured by this script,
and by tcpdump where it's there. The modem of each line is the one that had sent the datagram, while
the lines come and from the captures after it; the meaning is the page's. Then frames of each kind
of link, lines of devices behind modems, a modem's address in a store, and what can't be read. It
ends what it started, and takes some seconds.
"""
import argparse
import io
import os
import re
import shutil
import socket
import struct
import subprocess
import sys
import tempfile
import threading
import time

from harness import ROOT, alone, check, is_built, loaded, may_be_alone, script, stop
from harness import modems
from store_reader import DEVICE_POOL, DEVICES, device, made

WATCH, MODEM = (os.path.join(ROOT, "bin", name) for name in ("office-watch", "office-modem"))
PORTS = ",".join(map(str, modems.PORTS[:3]))
HEAD = struct.pack("<IHHiIII", 0xA1B2C3D4, 2, 4, 0, 0, 65535, 101)
LINE = re.compile(r"(\S+) +(\S+) +(\S+) +(\S+) +(\d+) (\w+) ([^:]*)(?:: (.*))?")


class Telling(modems.Conversation):
    """Keeps whose each datagram is."""

    def __init__(self):
        super().__init__()
        self.senders = []

    def say(self, data):
        self.senders.append(data[28:34].hex() if len(data) >= 34 else "")
        return super().say(data)


class Capture(threading.Thread):
    """Writes what passes loopback to a file of tcpdump's form."""

    def __init__(self, path):
        super().__init__(daemon=True)
        self.held = socket.socket(socket.AF_PACKET, socket.SOCK_DGRAM, socket.htons(3))
        self.held.setsockopt(socket.SOL_SOCKET, socket.SO_RCVBUF, 8 << 20)
        self.held.settimeout(0.2)
        self.path, self.ended = path, False

    def run(self):
        with open(self.path, "wb") as out:
            out.write(HEAD)
            while not self.ended:
                try:
                    packet, (_, protocol, way, *_) = self.held.recvfrom(65535)
                except socket.timeout:
                    continue
                if protocol == 0x0800 and way != 4:
                    now = time.time()
                    size = len(packet)
                    out.write(struct.pack("<IIII", int(now), int(now % 1 * 1e6), size, size))
                    out.write(packet)

    def end(self):
        time.sleep(0.3)
        self.ended = True
        self.join()


def by_tcpdump(folder):
    """A capture by tcpdump of all links, if it's there, and its file."""
    path = os.path.join(folder, "tcpdump.pcap")
    if not shutil.which("tcpdump"):
        print("a capture of tcpdump: skipped, since it isn't here")
        return None, path
    words = ["tcpdump", "-i", "any", "-B", "16384", "-U", "-w", path, "udp"]
    program = subprocess.Popen(words, stderr=subprocess.DEVNULL)
    time.sleep(1)
    if program.poll() is not None:
        print("a capture of tcpdump: skipped, since it can't give up its rights in such a network")
        return None, path
    return program, path


def told(text):
    """Each line that was printed, in its parts."""
    forms = [LINE.fullmatch(line) for line in text.splitlines()]
    check(all(forms), f"the form of {[line for line in text.splitlines() if not LINE.match(line)]}")
    return [form.groups() for form in forms if form]


def judge(lines, senders, what):
    """Each line of DHCP has its sender; those of the modem's boot have its address too."""
    dhcp = [line for line in lines if line[5] == "dhcp"]
    found = ["" if line[1] == "-" else line[1] for line in dhcp[:len(senders)]]
    wrong = [(place, dhcp[place][6], each, sender)
             for place, (each, sender) in enumerate(zip(found, senders)) if each != sender]
    check(not wrong and len(found) == len(senders), f"{what}: {len(found)} lines, {wrong[:5]}")
    last = [line for line in lines if line[1] == modems.leases.mac(3).hex()][-6:]
    words = ["dhcp offer", "dhcp ack", "time sent", "tftp oack", "tftp block 1", "tftp done"]
    check([f"{line[5]} {line[6]}" for line in last] == words, f"{what}: {last}")
    check(len({line[2:4] for line in last}) == 1 and all(line[2] == modems.RELAY for line in last),
          f"{what}: {last}")
    cures = {line[6]: line[7] or "" for line in lines}
    check("isn't in the tables. What to do: PUT /modems/MAC" in cures["unknown-modem"], f"{cures}")
    check("What to do" not in cures["offer"], "where there is nothing to do it isn't told")


def boots(folder):
    """An office and what is sent to it; gives whose its lines are."""
    log, live = (os.path.join(folder, name) for name in ("log", "live"))
    words = f"tee {log} | {WATCH} --live --ports {PORTS} >{live}"
    reader = subprocess.Popen(["sh", "-c", words], stdin=subprocess.PIPE)
    time.sleep(1)
    with modems.running(reader.stdin):
        reader.stdin.close()
        modems.furnish()
        talk = Telling()
        modems.boot(talk)
        modems.live(talk)
        talk.relay.close()
        mac, serial = modems.leases.mac(3).hex(), modems.serial(3)
        booted = subprocess.run([MODEM, "--server", modems.SERVER, "--relay", modems.RELAY, "--mac",
                                 mac, "--serial", serial], stdout=subprocess.DEVNULL, timeout=60)
        check(booted.returncode == 0, "a modem boots")
        time.sleep(0.5)
    reader.wait(timeout=20)
    return talk.senders


def watched():
    modems.addresses_of_lo()
    with tempfile.TemporaryDirectory() as folder:
        own = Capture(os.path.join(folder, "own.pcap"))
        own.start()
        program, path = by_tcpdump(folder)
        try:
            senders = boots(folder)
        finally:
            own.end()
            if program:
                stop(program)
        captures = {"a capture": own.path, **({"tcpdump": path} if program else {})}
        for what, capture in captures.items():
            words = [WATCH, "--capture", capture, os.path.join(folder, "log")]
            done = subprocess.run(words, stdout=subprocess.PIPE, timeout=60)
            check(done.returncode == 0, f"{what}: {done.returncode}")
            judge(told(done.stdout.decode()), senders, what)
        with open(os.path.join(folder, "live"), encoding="utf-8") as held:
            judge(told(held.read()), senders, "live")
        chosen(captures["a capture"], os.path.join(folder, "log"))


def chosen(capture, log):
    """Those of one modem, and those with something to do."""
    mac = ":".join(re.findall("..", modems.leases.mac(3).hex().upper()))
    done = subprocess.run([WATCH, "--capture", capture, "--modem", mac, log],
                          stdout=subprocess.PIPE, timeout=60)
    lines = told(done.stdout.decode())
    check(len(lines) > 6 and {line[1] for line in lines} == {modems.leases.mac(3).hex()}, "its own")
    done = subprocess.run([WATCH, "--capture", capture, "--wrong", log], stdout=subprocess.PIPE,
                          timeout=60)
    words = {line[6] for line in told(done.stdout.decode())}
    check("unknown-modem" in words and "offer" not in words, f"with something to do: {words}")


def frames():
    """The packet of a frame of each kind of link, and moments that journalctl writes."""
    watch = loaded("office-watch")
    packet = b"\x45" + bytes(27)
    for kind, frame in ((1, bytes(12) + b"\x08\0"), (1, bytes(12) + b"\x81\0\0\x07\x08\0"),
                        (101, b""), (113, bytes(14) + b"\x08\0"), (0, b"\2\0\0\0"),
                        (276, b"\x08\0" + bytes(18))):
        check(watch.packet_of(kind, frame + packet) == packet, f"a frame of kind {kind}")
    check(watch.packet_of(1, bytes(12) + b"\x86\xdd" + packet) == b"", "another protocol")
    for text in ("2023-11-14T22:13:20.250000+0000", "2023-11-14T23:13:20.25+01:00"):
        check(watch.moment_of(text) == 1_700_000_000.25, f"the moment {text}")
    form = watch.LINE.fullmatch("2023-11-14T22:13:20.250000+0000 host officed[7]: 17 dhcp offer")
    check(form and form.groups()[1:] == ("17 dhcp offer", "dhcp", "offer"), "a line of journalctl")
    form = watch.LINE.fullmatch("link refused")
    check(form.groups("") == ("", "link refused", "", "link refused"), "the last line")


def cut_short():
    """A packet that ends before its datagram, or whose head is said to be longer than it."""
    watch = loaded("office-watch")
    whole = packet("10.64.0.1", "10.0.0.2", b"x")
    check(watch.udp_of(0, whole).data == b"x", "a whole packet")
    check(watch.udp_of(0, b"\x4f" + whole[1:]) is None, "a head of sixty bytes")
    check(all(watch.udp_of(0, whole[:size]) is None for size in range(28)), "a packet cut short")
    for size in range(24):
        try:
            list(watch.packets_of(io.BytesIO(HEAD[:size])))
            check(False, f"a capture of {size} bytes")
        except watch.Unreadable:
            pass


def with_something_to_do():
    """What --wrong leaves out: that for which the page has nothing to do, whatever comes of it."""
    watch = loaded("office-watch")
    page = watch.read_page(None)
    quiet = (("dhcp", "offer"), ("dhcp", "no-record"), ("dhcp", "cpe-not-yours"), ("time", "sent"),
             ("tftp", "block 7"), ("tftp", "again"), ("tftp", "unknown"), ("http", "200"),
             ("tick", "again 3 closed 1"))
    shown = (("dhcp", "not-a-modem"), ("dhcp", "other-server"), ("dhcp", "pool-full"),
             ("dhcp", "cpe-limit"), ("dhcp", "cpe-suspended"), ("dhcp", "cpe-offline"),
             ("tftp", "no-lease"), ("tftp", "agreement"), ("tftp", "name"), ("tftp", "full"),
             ("http", "409 pool-overlap"), ("dhcp", "keeper"), ("", "keeper refused"),
             ("", "officed.service: Main process exited, code=exited, status=11/n/a"))
    for lines, is_quiet in ((quiet, True), (shown, False)):
        for service, words in lines:
            row = watch.row_of(page, service, words)
            check(watch.is_quiet(service, row) == is_quiet, f"{service} {words}: quiet {is_quiet}")


OFFICE, RELAY, NOBODY = "10.0.0.2", "10.128.0.1", "0.0.0.0"
DISCOVER, OFFER, REQUEST, DECLINE, ACK, NAK, RELEASE = range(1, 8)


def option(code, value):
    return bytes([code, len(value)]) + value


def packet(source, target, data, ports=(67, 67)):
    """An IPv4 packet with a datagram."""
    head = b"\x45\0" + (28 + len(data)).to_bytes(2, "big") + bytes(4) + b"\x40\x11\0\0"
    head += socket.inet_aton(source) + socket.inet_aton(target)
    return head + struct.pack(">HHHH", *ports, 8 + len(data), 0) + data


def message(kind, sender, number, remote="", relay=RELAY, **addresses):
    """A message to the office or an answer of its: who sent it, and whom the relay names."""
    at = {name: socket.inet_aton(each) for name, each in addresses.items()}
    head = bytes([2 if kind in (OFFER, ACK, NAK) else 1, 1, 6, 0]) + number.to_bytes(4, "big")
    head += bytes(4) + at.get("ciaddr", bytes(4)) + at.get("yiaddr", bytes(4)) + bytes(4)
    head += socket.inet_aton(relay) + bytes.fromhex(sender) + bytes(202) + b"\x63\x82\x53\x63"
    agent = option(1, b"up") + option(2, bytes.fromhex(remote)) if remote else b""
    return head + option(53, bytes([kind])) + (option(82, agent) if agent else b"") + b"\xff"


def behind(known):
    """Lines of devices have the modem that the relay names, and the device. Where a device renews
    without a relay, its modem is the one behind which it was acknowledged, or that of a store."""
    modem, stranger, other = "02aabbccddee", "02aabbccdd01", "02aabbccdd02"
    one, two, three = (f"0200000000a{last}" for last in (1, 2, 3))
    watch = loaded("office-watch")
    watching = watch.Watch((67, 37, 69), {}, known)
    said = [
        ("cpe-offer", (DISCOVER, one, modem, {}), (OFFER, {"yiaddr": "10.128.0.10"})),
        ("offer", (DISCOVER, other, other, {}), (OFFER, {"yiaddr": "10.64.0.20"})),
        ("cpe-limit", (DISCOVER, two, modem, {}), None),
        ("relay-mismatch", (DISCOVER, three, stranger, {}), None),
        ("unknown-modem", (DISCOVER, stranger, stranger, {}), None),
        ("cpe-ack", (REQUEST, one, modem, {}), (ACK, {"yiaddr": "10.128.0.10"})),
        ("not-served", (8, one, modem, {}), None),
        ("cpe-ack", (REQUEST, one, "", {"ciaddr": "10.128.0.10", "relay": NOBODY}),
         (ACK, {"yiaddr": "10.128.0.10", "relay": NOBODY})),
        ("cpe-offline", (REQUEST, three, "", {"ciaddr": "10.128.0.12", "relay": NOBODY}), None),
        ("cpe-not-yours", (REQUEST, two, modem, {}), (NAK, {})),
        ("cpe-released", (RELEASE, one, "", {"ciaddr": "10.128.0.10", "relay": NOBODY}), None),
    ]
    for number, (_, (kind, sender, remote, more), answer) in enumerate(said):
        watching.take(number, packet(RELAY, OFFICE, message(kind, sender, number, remote, **more)))
        if answer:
            data = message(answer[0], sender, number, remote, **answer[1])
            watching.take(number, packet(OFFICE, RELAY, data))
    watching.take(20, packet("10.128.0.10", OFFICE, b"", (5000, 37)))
    found = []
    for words in [f"dhcp {word}" for word, *_ in said] + ["time sent"]:
        service, word = words.split(" ", 1)
        of = watching.message_of(service, word, None)
        found.append((word, *(watching.who(of, word) if of else ())))
    expected = [
        ("cpe-offer", modem, RELAY, "10.128.0.10", one), ("offer", other, RELAY, "10.64.0.20", ""),
        ("cpe-limit", modem, RELAY, "", two), ("relay-mismatch", three, RELAY, "", ""),
        ("unknown-modem", stranger, RELAY, "", ""),
        ("cpe-ack", modem, RELAY, "10.128.0.10", one), ("not-served", modem, RELAY, "", one),
        ("cpe-ack", modem, "", "10.128.0.10", one),
        ("cpe-offline", known.get(three, ""), "", "10.128.0.12", three),
        ("cpe-not-yours", modem, RELAY, "", two), ("cpe-released", modem, "", "10.128.0.10", one),
        ("sent", modem, "", "10.128.0.10", "")]
    for line, wanted in zip(found, expected):
        check(line == wanted, f"a line of {wanted[0]}: {line} and not {wanted}")
    check(len(found) == len(expected), "each line has its datagram")
    given = argparse.Namespace(live=False, wrong=False, modem=None)
    again = watch.Watch((67, 37, 69), {}, {})
    again.take(0, packet(RELAY, OFFICE, message(DISCOVER, two, 0, modem)))
    text = watch.told(again, watch.read_page(None), "7 dhcp cpe-limit", given)
    line = f"7 dhcp cpe-limit of device {two}: a DISCOVER or a REQUEST, and other devices behind"
    check(text.startswith(f"00:00:00  {modem}  {RELAY}       -                {line}"), text)
    check("What to do: nothing: an address is free when" in text, text)


def finds():
    """A modem's address, and the modems of addresses, from a store."""
    with tempfile.TemporaryDirectory() as folder:
        store = os.path.join(folder, "office.db")
        made(store).close()
        for mac, status, part in (("02:aa:bb:cc:dd:ee", 0, "10.64.0.10"), ("02aabbccddff", 1, "")):
            done = subprocess.run([WATCH, "--find", mac, store], stdout=subprocess.PIPE,
                                  stderr=subprocess.DEVNULL, timeout=60)
            said = done.stdout.decode()
            check(done.returncode == status and part in said, f"{mac}: {done.returncode} {said}")
        known = loaded("office-watch").modems_of(store)
        check(known["10.64.0.12"] == ("02aabbccddef", ""), f"the modems of addresses: {known}")
        store = os.path.join(folder, "devices.db")
        made(store, [DEVICE_POOL, *DEVICES]).close()
        known = loaded("office-watch").modems_of(store)
        check(known["10.128.0.14"] == ("02aabbccdd77", ""), f"the modems of devices: {known}")
        later = device("10.128.0.14", 2, 0x77, 0xA1, 2**40)
        store = os.path.join(folder, "later.db")
        made(store, [DEVICE_POOL, *DEVICES[:4], later]).close()
        known = loaded("office-watch").devices_of(store)
        check(known["0200000000a1"] == "02aabbccdd77", f"of the lease that lasts: {known}")


def refused():
    with tempfile.TemporaryDirectory() as folder:
        text, none = os.path.join(folder, "text"), os.path.join(folder, "none")
        with open(text, "w", encoding="utf-8") as held:
            held.write("no capture, but a text that is longer than a head\n")
        for words in (("--capture", text), ("--capture", none), (), ("--find", "x", none),
                      ("--find", "02aabbccddee"), ("--capture", text, "--page", none)):
            done = subprocess.run([WATCH, *words], stdin=subprocess.DEVNULL, timeout=60,
                                  stdout=subprocess.PIPE, stderr=subprocess.PIPE)
            check((done.returncode, done.stdout) == (2, b""), f"{words}: {done}")


def main():
    frames()
    cut_short()
    with_something_to_do()
    behind({})
    behind({"0200000000a3": "02aabbccdd77"})
    finds()
    refused()
    if not is_built():
        return 1
    if may_be_alone():
        alone(watched, 200, "each line has its modem")
    else:
        print("an office: skipped, since `unshare -rn` gives no network of its own here")
    return None


if __name__ == "__main__":
    sys.exit(script(main, watched, needs_program=False))
