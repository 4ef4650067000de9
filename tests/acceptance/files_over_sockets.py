#!/usr/bin/env python3
"""officed as two hundred modems see it that boot whole: DHCP through a relay, the time and their files, over real sockets, in a network of its own.

Each modem reads its file by a reader of this script, settings and both MICs. Then they read again where every fifth packet either way is lost, where a
clerk changes a class and moves modems in the midst, and where 256 read at once; bad packets come between, and transfers that nobody goes on with are
sent again five times and closed. The word of each packet is compared with the model of tests/examples/tftp.py, and those of Ticks with what came twice.
Last, forged datagrams between the office's own ports start no loop. Where `unshare -rn` isn't allowed it says so and skips. It ends what it started, and
takes under a minute.
"""
import collections
import hashlib
import hmac
import re
import selectors
import socket
import struct
import sys
import tempfile
import time

from harness import SECONDS_BEFORE_1970, check, have_their_lines, only_alone, said, script
from harness import modems as office
from harness.network import forge
from harness.told import SECRET

sys.dont_write_bytecode = True
import leases  # noqa: E402
import tftp  # noqa: E402
from examples import COVERED, ip, spelled  # noqa: E402

MODEMS, PORT, CLIENT = office.MODEMS, office.PORTS[2], 5000
FLOWS = "24{ 1=0001 6=07 8=%s } 25{ 1=0002 6=07 }"
GOLD, SILVER = FLOWS % "00989680", FLOWS % "01312d00"
BOOST = "24{ 1=0005 6=07 } 22{ 1=03 3=0005 }"
SIZES = (b"1428", b"512", None, b"44", b"65464", b"88", b"8", b"1427")
# What stands at the end of a sealed file, behind settings 6 and 7.
PATIENCE, WAVE = 1.0, 64


LARGEST, LARGE_BOOST = f"{GOLD} {tftp.extensions(2048 - len(tftp.spelled_tree(tftp.tree_in(GOLD))))}", f"{BOOST} {tftp.extensions(512 - 18)}"


def owner_of(number):
    """Every eighth modem has the largest file, every eighth a suspended subscriber."""
    return {0: (9, 2), 1: (8, 1)}.get(number % 8, (7, 1))


def modem_row(number, subscriber=None):
    owner, class_ = owner_of(number)
    return f'modem {leases.mac(number).hex()} {subscriber or owner} {class_} "{office.serial(number)}"'


def class_row(number, settings):
    return f'class {number} "gold" {settings}'


ROWS = [*(row for row in office.ROWS if not row.startswith("modem")), class_row(1, GOLD), class_row(2, LARGEST), 'subscriber 7 active 2 "Ann"',
        'subscriber 8 suspended 2 "Ann"', 'subscriber 9 active 254 "Ann"', *(f"add-on 9 {number} {LARGE_BOOST}" for number in range(8)),
        *(modem_row(number) for number in range(MODEMS))]


def put(row):
    """Has a clerk put a row."""
    kind, *words = row.split(" ")
    if kind == "class":
        return f"/classes/{words[0]}", {"name": "gold", "settings": tftp.tree_json(tftp.tree_in(row.split('"', 2)[2]))}
    if kind == "add-on":
        return f"/subscribers/{words[0]}/addons/{words[1]}", {"settings": tftp.tree_json(tftp.tree_in(row.split(" ", 3)[3]))}
    if kind == "subscriber":
        return f"/subscribers/{words[0]}", {"active": words[1] == "active", "cpes": int(words[2]), "name": "Ann"}
    if kind == "modem":
        return f"/modems/{words[0]}", {"subscriber": int(words[1]), "class": int(words[2]), "serial": row.split('"')[1]}
    return ("/site", office.SITE) if kind == "hub" else ("/pools/1", office.POOL)


# ---- a modem's own reader of files

def settings_of(file):
    """The settings of a sealed file, each a code and a value; what stands behind them is an end and at most three zeros, to a multiple of four."""
    found, at = [], 0
    while file[at] != 255:
        found.append((file[at], file[at + 2:at + 2 + file[at + 1]]))
        at += 2 + file[at + 1]
    behind = file[at + 1:]
    check(not any(behind) and len(behind) < 4 and len(file) % 4 == 0, "a file ends with its end and zeros")
    return found


def is_sealed(found):
    """Both MICs are right (CM-SP-MULPIv3.1, annex C)."""
    check([code for code, _ in found[-4:]] == [19, 20, 6, 7], "settings 19, 20, 6 and 7 stand last")
    check(found[-2][1] == hashlib.md5(spelled(found[:-2])).digest(), "the MIC for modems is right")
    covered = b"".join(spelled([each]) for code in COVERED for each in found[:-1] if each[0] == code)
    check(found[-1][1] == hmac.new(SECRET, covered, hashlib.md5).digest(), "the MIC for the CMTS is right")


# ---- the office, as modems see it

class Talk(office.Conversation):
    """What is sent to the office, and what the models say of it. Each modem has a socket at its own address."""

    def __init__(self):
        super().__init__()
        self.model = leases.Office(ROWS)
        self.transfers, self.said, self.came, self.expected = tftp.Transfers(self.model), [], 0, 0
        self.sockets, self.ready = {}, selectors.DefaultSelector()

    def socket_of(self, held, port=CLIENT):
        if (held, port) not in self.sockets:
            each = socket.socket(socket.AF_INET, socket.SOCK_DGRAM)
            each.setsockopt(socket.SOL_SOCKET, socket.SO_RCVBUF, 1 << 20)
            each.bind((held, port))
            each.setblocking(False)
            self.sockets[held, port] = each
            self.ready.register(each, selectors.EVENT_READ, (held, port))
        return self.sockets[held, port]

    def ask(self, at, packet):
        """Sends a packet from an address and a port, and gives what the model answers."""
        word, reply = self.transfers.take(int(time.time()), f"{at[0]}:{at[1]}", packet)
        self.said.append(word)
        self.expected += reply is not None
        self.socket_of(*at).sendto(packet, (office.SERVER, PORT))
        return reply and reply[1]

    def take(self, seconds):
        """The packets that come within so many seconds, each with where."""
        for key, _ in self.ready.select(seconds):
            while True:
                try:
                    packet, sender = key.fileobj.recvfrom(4096)
                except BlockingIOError:
                    break
                check(sender == (office.SERVER, PORT), "an answer comes from the office's one port")
                self.came += 1
                yield key.data, packet

    def answer(self, at, packet):
        """Sends a packet, and waits for the answer that the model gives, of DATA for its number. A Tick may send an earlier packet again meanwhile."""
        expected, end, came = self.ask(at, packet), time.time() + 10, []
        while expected and time.time() < end:
            for where, each in self.take(0.2):
                came += [each] if where == at else []
            found = [each for each in came if each == expected or each[1] == expected[1] == tftp.DATA and each[:4] == expected[:4]]
            if found:
                return found[0]
        check(expected is None, f"{packet[:60]!r} is answered by {expected!r}, and not {came!r}")
        return None

    def settles(self):
        """Has the office act on all that was sent: a question behind it is answered. So what it said by then has come."""
        self.answer(("10.64.200.9", 1024), tftp.acknowledgement(65535))

    def clerk_puts(self, row):
        office.clerk.puts(*put(row))
        self.model.put(row)


class Reading:
    """A client that reads a file, packet by packet. Every fifth of its packets is lost on either way, where `losing` says from which on. It may rest
    behind its first block."""

    def __init__(self, talk, at, name, size, losing=None):
        self.talk, self.at, self.losing, self.counted = talk, at, losing, {"out": 0, "in": 0}
        self.request = tftp.request(name, *([] if size is None else [(b"blksize", size)]))
        self.asked, self.size = size, 512
        self.blocks, self.last, self.sent_at, self.began, self.error = [], None, 0, 0, None
        self.is_done, self.may_rest, self.rests = False, False, False

    def is_lost(self, way):
        self.counted[way] += 1
        return self.losing is not None and (self.counted[way] + self.losing) % 5 == 0

    def say(self, packet):
        self.last, self.sent_at = packet, time.time()
        self.began = self.began or self.sent_at
        if not self.is_lost("out"):
            self.talk.ask(self.at, packet)

    def begin(self):
        self.say(self.request)

    def hear(self, packet):
        """RFC 1350, section 2: each block is acknowledged, and one that comes again is so again, the last one too (section 6). Who has the whole file
        passes over an error: it answers the last acknowledgement, where that was sent again and the first had arrived."""
        if self.error or self.rests or self.is_lost("in") or self.is_done and packet[1] == tftp.ERROR:
            return
        code, rest = packet[1], packet[2:]
        if code == tftp.OPTIONS:
            name, value, end = rest.split(b"\0")
            check(not self.blocks and self.asked and name == b"blksize" and int(value) == min(int(self.asked), 1428) and end == b"", f"an OACK says {packet!r}")
            self.size = int(value)
            self.say(tftp.acknowledgement(0))
        elif code == tftp.DATA:
            self.takes(int.from_bytes(rest[:2], "big"), rest[2:])
        else:
            self.error, self.is_done = rest, True

    def takes(self, number, block):
        if number == len(self.blocks) + 1:
            self.blocks.append(block)
            check(len(block) <= self.size, "a block isn't longer than its size")
            self.is_done, self.rests = len(block) < self.size, self.may_rest and number == 1
            if not self.rests:
                self.say(tftp.acknowledgement(number))
        elif number == len(self.blocks):
            self.say(tftp.acknowledgement(number))

    def goes_on(self):
        self.rests = False
        self.say(tftp.acknowledgement(len(self.blocks)))

    def waits(self):
        """Says again what wasn't answered, or hasn't come."""
        if not has_read(self) and time.time() > self.sent_at + PATIENCE:
            self.say(self.last)

    def reads(self, number, profile):
        """The file is this modem's, of these settings and of a moment at which it may have been made; the last acknowledgement may have been lost."""
        file = b"".join(self.blocks)
        if self.error or not self.is_done:
            check(False, f"modem {number} has no file: {self.error}")
            return
        found = settings_of(file)
        is_sealed(found)
        moment = int.from_bytes(found[-4][1], "big") - SECONDS_BEFORE_1970
        check(int(self.began) <= moment % 2**32 <= time.time(), f"modem {number}'s file is of the moment of its request")
        check(file == tftp.file_of(profile, moment, leases.address(self.at[0]), SECRET), f"modem {number}'s file is made of its rows")


def has_read(reading):
    """It has its file, and the office knows it."""
    return reading.is_done and f"{reading.at[0]}:{reading.at[1]}" not in reading.talk.transfers.live


def run(talk, readings, until=has_read, seconds=30):
    """Lets clients read, so many at a time, until each is so far. What went to their addresses before they begin has come by then."""
    if all(reading.last is None for reading in readings):
        talk.settles()
    waiting, live, end = list(readings), {}, time.time() + seconds
    while (waiting or live) and time.time() < end:
        while waiting and len(live) < WAVE:
            reading = waiting.pop(0)
            live[reading.at] = reading
            if reading.last is None:
                reading.begin()
        for where, packet in talk.take(0.05):
            if where in live:
                live[where].hear(packet)
        for where in [where for where, reading in live.items() if until(reading)]:
            del live[where]
        for reading in live.values():
            reading.waits()
    check(not waiting and not live, f"{len(waiting) + len(live)} clients weren't done within {seconds} s")


class Modem:
    def __init__(self, number, held):
        self.number, self.held = number, held
        self.name = leases.name_of(SECRET, leases.mac(number), leases.address(held))

    def reading(self, talk, size=b"", losing=None, port=CLIENT):
        return Reading(talk, (self.held, port), self.name, SIZES[self.number // 8 % len(SIZES)] if size == b"" else size, losing)

    def profile(self, gold=GOLD, subscriber=None):
        owner, class_ = owner_of(self.number)
        owner = subscriber or owner
        add_ons = {number: tftp.tree_in(LARGE_BOOST) for number in range(8)} if owner == 9 else {}
        return tftp.profile_of(owner != 8, 254 if owner == 9 else 2, tftp.tree_in(LARGEST if class_ == 2 else gold), add_ons)


# ---- what they do

def furnish():
    for row in ROWS:
        if not row.startswith("modem") or int(row.split(" ")[1][-2:], 16) < MODEMS:
            office.clerk.puts(*put(row))


def leased(talk):
    """All modems have addresses, and ask for the time from them."""
    modems = []
    for number in range(MODEMS):
        offer = talk.asks(leases.discover(**office.modem(number)), f"OFFER {number}")
        given = ip(int.from_bytes(offer["address"], "big")) if offer else "0.0.0.0"
        ack = talk.asks(leases.selects(given, server=office.SERVER, **office.modem(number)), f"ACK {number}")
        modems.append(Modem(number, given))
        check(ack is not None and ack["name"] == modems[-1].name, f"modem {number} is told the name of its file")
        with socket.socket(socket.AF_INET, socket.SOCK_DGRAM) as each:
            each.bind((given, 0))
            each.settimeout(5)
            before = int(time.time())
            each.sendto(b"", (office.SERVER, office.PORTS[1]))
            told = struct.unpack(">I", each.recv(64))[0] - SECONDS_BEFORE_1970
            check(before <= told % 2**32 <= time.time(), f"modem {number} has the time")
    return modems


def all_read(talk, modems, losing=False, seconds=40, **what):
    # Where packets are lost the largest files come in blocks of 512 bytes: each loss takes a second or two.
    readings = [modem.reading(talk, losing=modem.number if losing else None, size=b"512" if losing and owner_of(modem.number)[1] == 2 else b"")
                for modem in modems]
    began = time.perf_counter()
    run(talk, readings, seconds=seconds)
    took = time.perf_counter() - began
    for modem, reading in zip(modems, readings):
        reading.reads(modem.number, modem.profile(**what))
    return readings, took


def changing(talk, modems):
    """A clerk changes class 1 while modems read: their files stay, and the next ones are others. Modems that are moved are told so."""
    some = modems[:WAVE]
    readings = [modem.reading(talk, size=b"16") for modem in some]
    for reading in readings:
        reading.may_rest = True
    run(talk, readings, until=lambda reading: reading.rests)
    talk.clerk_puts(class_row(1, SILVER))
    moved = [modem for modem in some if modem.number % 8 == 2]
    for modem in moved:
        talk.clerk_puts(modem_row(modem.number, 8))
    for reading in readings:
        reading.goes_on()
    run(talk, readings)
    for modem, reading in zip(some, readings):
        if modem in moved:
            check(reading.error == b"\0\2no longer agreed\0", f"modem {modem.number} is told that its file is another's: {reading.error}")
        else:
            reading.reads(modem.number, modem.profile())
    again = [modem.reading(talk) for modem in some]
    run(talk, again)
    for modem, reading in zip(some, again):
        reading.reads(modem.number, modem.profile(SILVER, 8 if modem in moved else None))
    for modem in moved:
        talk.clerk_puts(modem_row(modem.number))
    talk.clerk_puts(class_row(1, GOLD))


def bad_packets(talk, modems):
    """Packets of every fault, from modems and from who has no lease, beside a transfer that they leave as it is."""
    held, other = modems[3], modems[4]
    at, stranger = (held.held, CLIENT), ("10.64.200.9", 1024)
    check(talk.answer(at, tftp.request(held.name, (b"blksize", b"44"))) is not None, "a transfer begins")
    whole = tftp.request(held.name)
    packets = [b"", b"\0", b"\0\1", b"\0\1" + held.name, b"\0\1" + held.name + b"\0octet", tftp.data(1, b"x"), tftp.options(512), b"\0\7", b"\xff\xff", b"\0\4\0",
               whole + bytes(1501 - len(whole)), whole + bytes(2048), tftp.request(held.name, code=tftp.WRITE), tftp.request(held.name, mode=b"netascii"),
               tftp.request(other.name), tftp.request(b"../../etc/passwd"), tftp.request(held.name + b"x"), tftp.acknowledgement(1), tftp.acknowledgement(65535)]
    for packet in packets:
        talk.answer(at, packet)
        talk.answer(stranger, packet)
    talk.answer(stranger, whole)
    for number in range(3):
        talk.answer(at, tftp.acknowledgement(number))
    talk.answer(stranger, tftp.error(0, "x"))
    talk.answer(at, tftp.error(0, "enough"))
    talk.answer(at, tftp.acknowledgement(3))
    check(talk.said[-2:] == ["peer-error", "unknown"], f"the transfer was live to its end: {talk.said[-2:]}")


def crowd(talk, modems):
    """256 transfers begin, a 257th is refused, and nobody goes on: each is sent again five times, and closed."""
    clients = [modem.reading(talk) for modem in modems] + [modem.reading(talk, port=6000) for modem in modems[:56]]
    came = collections.defaultdict(list)
    talk.settles()
    # The loopback keeps some hundred packets of those that wait.
    for first in range(0, len(clients), 32):
        some, end = clients[first:first + 32], time.time() + 5
        for client in some:
            client.begin()
        while not all(came[client.at] for client in some) and time.time() < end:
            for where, packet in talk.take(0.1):
                came[where].append(packet)
    late, refused = (modems[1].held, 7000), b"\0\5\0\0too many transfers\0"
    talk.ask(late, tftp.request(modems[1].name))
    end = time.time() + 25
    while time.time() < end and (len(came) < 257 or min(len(each) for where, each in came.items() if where != late) < 6):
        for where, packet in talk.take(0.2):
            came[where].append(packet)
    time.sleep(4)
    check(not list(talk.take(0.1)), "nothing is sent behind the close")
    check(came.pop(late, None) == [refused], "a 257th transfer is refused")
    check(len(came) == 256 and all(each == [each[0]] * 6 for each in came.values()),
          f"each packet is sent, and again five times: {collections.Counter(map(len, came.values()))}")
    talk.transfers.live.clear()
    for client in clients[::50]:
        check(talk.answer(client.at, tftp.acknowledgement(0)) == b"\0\5\0\5unknown transfer\0", "a closed transfer is gone")
    return len(came)


def no_loops():
    """Forged datagrams from one of the office's own ports to another, and to itself: each is dropped, or answered once at most. Gives their number."""
    questions = [b"", tftp.request(b"name"), tftp.acknowledgement(1), tftp.error(0, "x"), b"time"]
    for source in (office.PORTS[0], office.PORTS[1], office.PORTS[2]):
        for target in (office.PORTS[1], office.PORTS[2]):
            for question in questions:
                forge(office.SERVER, source, office.SERVER, target, question)
    return 6 * len(questions)


def lines_behind(log, before, count):
    """The lines behind so many, once there are as many as are wanted, and no more come for two seconds."""
    end = time.time() + 10
    while len(said(log)) < before + count and time.time() < end:
        time.sleep(0.1)
    time.sleep(2)
    return said(log)[before:]


def judge(talk, lines, closed):
    """Each packet has its line, and what Ticks say is what came twice."""
    words = [line.split(" ", 1)[1] for line in lines if line.startswith("tftp ")]
    have_their_lines(words, talk.said, "tftp: ")
    ticks = [list(map(int, re.fullmatch(r"tick again ([0-9]+) closed ([0-9]+)", line).groups())) for line in lines if line.startswith("tick ")]
    again, ended = (sum(column) for column in zip(*ticks)) if ticks else (0, 0)
    check(again == talk.came - talk.expected, f"Ticks sent {again} packets again, and {talk.came - talk.expected} came that nothing asked for")
    check(ended == closed, f"Ticks closed {ended} transfers, and not {closed}")
    counted = collections.Counter(word.split(" ")[0] for word in words)
    print("  the log: " + ", ".join(f"{word} {count}" for word, count in counted.most_common()) + f", tick again {again} closed {ended}")


def booting():
    """Runs in a network of its own, where nobody has these ports and all addresses may be this machine's."""
    office.addresses_of_lo()
    with tempfile.TemporaryFile() as log:
        with office.running(log):
            furnish()
            talk = Talk()
            modems = leased(talk)
            readings, seconds = all_read(talk, modems)
            print(f"{MODEMS} modems read {sum(len(block) for each in readings for block in each.blocks)} bytes of files in {seconds:.2f} s")
            readings, seconds = all_read(talk, modems, losing=True)
            print(f"  the same with every fifth packet lost either way: {seconds:.2f} s")
            changing(talk, modems)
            bad_packets(talk, modems)
            check(not talk.transfers.live, f"no transfer is left: {list(talk.transfers.live)[:3]}")
            closed = crowd(talk, modems)
            lines = lines_behind(log, 0, 0)
            count = no_loops()
            # What TFTP says to itself is an ERROR, which isn't answered; the time's port and that of DHCP are heard by no other.
            wanted = ["tftp form"] * 2 + ["tftp no-lease"] + ["tftp peer-error"] * 5 + ["tftp unknown"]
            behind = lines_behind(log, len(lines), len(wanted))
            print(f"  forged between the office's own ports: {len(behind)} lines in 2 s of {count} datagrams")
            check(sorted(behind) == wanted, f"no two services answer each other: {dict(collections.Counter(behind))}")
        judge(talk, lines, closed)


def main():
    return only_alone(booting, 240, "modems have their files")


if __name__ == "__main__":
    sys.exit(script(main, booting))
