#!/usr/bin/env python3
"""bin/office-sql says who had an address, and when, by a journal or by the trail of office-watch.

Journals are made here by the form that docs/OPERATING.md gives, with a clock of this script. What
is expected is written by hand: renewals, a gap, an offer that wasn't taken, a release, a decline, a
move to another address, a device, a modem that another subscriber gets, ends that were set, hubs
whose leases differ. Then journals of some thousand random events beside a plain model, read at once
and in pieces, and over a copy; and an office of two hundred modems. A capture of three days for a
trail. It takes some 30 seconds.
"""
import csv
import io
import os
import random
import shutil
import struct
import subprocess
import sys
import tempfile
import time

from harness import PROGRAM, ROOT, alone, check, may_be_alone, script
from journal_kills import journal_of
from harness import modems
from store_reader import big, hub, ip, text

READER, WATCH = (os.path.join(ROOT, "bin", each) for each in ("office-sql", "office-watch"))
NAMES = ["address", "modem", "device", "subscriber", "from (UTC)", "until (UTC)", "ended"]
T0, DAY, HOUR = 1_700_000_000, 86_400, 3600
OFFERED, BOUND, DECLINED = 1, 2, 3
A, B, C, D = "10.64.0.10", "10.64.0.11", "10.65.0.10", "10.64.4.1"
HUBS = [[hub(0, "10.0.0.2", 0, DAY)], [hub(3, "10.0.0.3", 0, HOUR)]]


def mac(last):
    return bytes.fromhex("02aabbcc") + big(last, 2)


def pool(number, first, last, kind=b"\6"):
    return kind + big(number, 4), ip(first) + ip(last) + b"\x18" + ip(first) * 2


def modem(last, subscriber):
    return b"\4" + mac(last), big(subscriber, 4) + big(1, 4) + text(b"SN")


def lease(held, hold, owner, end):
    return b"\7" + ip(held), bytes([hold]) + (b"" if hold == DECLINED else mac(owner)) + big(end, 8)


def device(held, hold, owners, end):
    named = b"" if hold == DECLINED else mac(owners[0]) + mac(owners[1])
    return b"\x0d" + ip(held), bytes([hold]) + named + big(end, 8)


def offer(held, owner, now, before=None):
    """An offer's record; the address that the modem had before is given up."""
    given_up = [(b"\7" + ip(before), None)] if before else []
    return [*given_up, lease(held, OFFERED, owner, now + 120), (b"\x08" + mac(owner), ip(held))]


def ack(held, owner, now, lasts=DAY):
    return [lease(held, BOUND, owner, now + lasts)]


def release(held, owner):
    return [(b"\7" + ip(held), None), (b"\x08" + mac(owner), None)]


FIRST = [*HUBS, [pool(1, "10.64.0.10", "10.64.0.99")], [pool(2, "10.65.0.10", "10.65.0.99")],
         [(b"\x0b" + big(2, 4), big(3, 4))], [pool(1, "10.64.4.1", "10.64.4.99", b"\x0c")],
         [modem(1, 7)], [modem(2, 8)], [modem(3, 9)]]


def moment(seconds):
    return time.strftime("%Y-%m-%d %H:%M:%S", time.gmtime(seconds))


def asked(path, held, *words):
    done = subprocess.run([sys.executable, READER, path, "who", held, "--csv", *words], timeout=60,
                          stdout=subprocess.PIPE, stderr=subprocess.PIPE)
    lines = list(csv.reader(io.StringIO(done.stdout.decode())))
    check(done.returncode != 0 or lines[0] == NAMES, f"the names of the columns: {lines[:1]}")
    return done.returncode, lines[1:], done.stderr.decode()


def line(held, modem, device, subscriber, since, until, ended="expired"):
    return [held, mac(modem).hex(), mac(device).hex() if device else "", str(subscriber),
            moment(since), moment(until), ended]


def write(path, commits):
    with open(path, "wb") as file:
        file.write(journal_of(*commits) + bytes(1000))


def shown(path, held, expected, what, *words):
    status, lines, said = asked(path, held, *words)
    check((status, lines) == ((0, expected) if expected else (1, [])),
          f"{what}: {status} {lines} {said}, and not {expected}")


CASES = [
    ("a grant that is renewed",
     [offer(A, 1, T0), ack(A, 1, T0 + 1), ack(A, 1, T0 + DAY // 2), ack(A, 1, T0 + DAY)],
     A, [line(A, 1, 0, 7, T0 + 1, T0 + 2 * DAY)]),
    ("an offer that wasn't taken", [offer(A, 1, T0), offer(B, 2, T0 + 5)], A, []),
    ("a renewal after the end",
     [offer(A, 1, T0), ack(A, 1, T0), ack(A, 1, T0 + 3 * DAY)],
     A, [line(A, 1, 0, 7, T0, T0 + DAY), line(A, 1, 0, 7, T0 + 3 * DAY, T0 + 4 * DAY)]),
    ("another modem after the end",
     [offer(A, 1, T0), ack(A, 1, T0), offer(A, 2, T0 + 2 * DAY), ack(A, 2, T0 + 2 * DAY + 1)],
     A, [line(A, 1, 0, 7, T0, T0 + DAY), line(A, 2, 0, 8, T0 + 2 * DAY + 1, T0 + 3 * DAY + 1)]),
    ("a release ends at the next moment that is known",
     [offer(A, 1, T0), ack(A, 1, T0), release(A, 1), offer(B, 2, T0 + 50)],
     A, [line(A, 1, 0, 7, T0, T0 + 50, "released")]),
    ("a release, and a renewal next",
     [offer(A, 1, T0), ack(A, 1, T0), offer(B, 2, T0), ack(B, 2, T0 + 1), release(A, 1),
      ack(B, 2, T0 + 900)],
     A, [line(A, 1, 0, 7, T0, T0 + 900, "released")]),
    ("a decline", [offer(A, 1, T0), ack(A, 1, T0),
                   [lease(A, DECLINED, 0, T0 + 9 + 600), (b"\x08" + mac(1), None)]],
     A, [line(A, 1, 0, 7, T0, T0 + 9, "declined")]),
    ("a move to another address",
     [offer(A, 1, T0), ack(A, 1, T0), offer(B, 1, T0 + 77, before=A), ack(B, 1, T0 + 78)],
     A, [line(A, 1, 0, 7, T0, T0 + 77, "moved")]),
    ("the lease of another hub",
     [offer(C, 2, T0), ack(C, 2, T0 + 2, HOUR), ack(C, 2, T0 + HOUR, HOUR),
      ack(C, 2, T0 + 2 * HOUR + 1, HOUR)],
     C, [line(C, 2, 0, 8, T0 + 2, T0 + 2 * HOUR),
         line(C, 2, 0, 8, T0 + 2 * HOUR + 1, T0 + 3 * HOUR + 1)]),
    ("a device, by the hub of its modem",
     [offer(C, 3, T0), ack(C, 3, T0, HOUR), [device(D, OFFERED, (3, 9), T0 + 5 + 120)],
      [device(D, BOUND, (3, 9), T0 + 6 + HOUR)], [device(D, BOUND, (3, 9), T0 + 2000 + HOUR)],
      [(b"\x0d" + ip(D), None)], ack(C, 3, T0 + 2100, HOUR)],
     D, [line(D, 3, 9, 9, T0 + 6, T0 + 2100, "released")]),
    ("a modem that another subscriber gets",
     [offer(A, 1, T0), ack(A, 1, T0), [modem(1, 70)], ack(A, 1, T0 + 100)],
     A, [line(A, 1, 0, 7, T0, T0, "changed subscriber"), line(A, 1, 0, 70, T0, T0 + 100 + DAY)]),
    ("an end that office-sql set",
     [offer(A, 1, T0), ack(A, 1, T0), [lease(A, BOUND, 1, T0 + 500)], offer(B, 2, T0 + 600)],
     A, [line(A, 1, 0, 7, T0, T0 + 500)]),
    ("many renewals in a row",
     [offer(A, 1, T0), ack(A, 1, T0), offer(B, 2, T0), ack(B, 2, T0),
      *(ack(held, owner, T0 + turn * 400) for turn in range(200)
        for held, owner in ((A, 1), (B, 2))),
      *(ack(B, 2, T0 + 80_000 + turn) for turn in range(70))],
     B, [line(B, 2, 0, 8, T0, T0 + 80_069 + DAY)]),
]


def by_hand():
    with tempfile.TemporaryDirectory() as folder:
        for number, (what, commits, held, expected) in enumerate(CASES):
            path = os.path.join(folder, f"{number}.journal")
            write(path, FIRST + commits)
            expected = [each for each in expected if each[4] != each[5]]
            shown("journal:" + path, held, expected, what)
            shown(path, held, expected, f"{what}, by the index alone")
        mode = os.stat(os.path.join(folder, "0.journal.who")).st_mode & 0o777
        check(mode == 0o600, f"an index is its owner's alone: {mode:o}")
        print(f"{len(CASES)} journals by hand")


def windows():
    with tempfile.TemporaryDirectory() as folder:
        path = os.path.join(folder, "office.journal")
        write(path, FIRST + CASES[3][1])
        first, second = CASES[3][3]
        for words, expected in (
                (("--at", moment(T0)), [first]), (("--at", str(T0 - 1)), []),
                (("--at", moment(T0 + DAY - 1).replace(" ", "T") + "Z"), [first]),
                (("--at", moment(T0 + DAY)), []), (("--at", str(T0 + 2 * DAY + 1)), [second]),
                (("--between", str(T0 + DAY), str(T0 + 2 * DAY)), []),
                (("--between", moment(T0 + DAY - 1), str(T0 + 3 * DAY)), [first, second])):
            shown(path, A, expected, f"{words}", *words)
        check(asked(path, "10.64.0")[0] == 2, "what is no address: status 2")
        check(asked(path, A, "--at", "yesterday")[0] == 2, "what is no moment: status 2")
        other = os.path.join(folder, "none", "index")
        check("--index" in asked(path, A, "--index", other)[2], "an index that can't be made")
        live = [*FIRST, offer(A, 1, now := int(time.time())), ack(A, 1, now)]
        write(path + "-2", live)
        shown(path + "-2", A, [line(A, 1, 0, 7, now, now + DAY, "")], "a lease that lasts")


# ---- a plain model of random events

class Model:
    """Modems that get, renew, release and lose addresses, and who had each address."""

    def __init__(self, seed):
        self.random, self.now = random.Random(seed), T0
        self.commits, self.grants, self.gone = list(FIRST), {}, []
        self.holds = {}

    def at(self, commit):
        """The clock went on, and a record is written that tells so."""
        for grant in self.gone:
            if self.now < grant[2]:
                grant[2:] = [self.now, "released"]
        self.gone.clear()
        self.commits.append(commit)

    def event(self):
        self.now += self.random.choice((1, 5, 600, 4000, 20_000))
        owner = self.random.randrange(1, 4)
        held, grant = self.holds.get(owner, (None, None))
        is_live = grant is not None and self.now < grant[2]
        kind = self.random.random()
        if is_live and kind < 0.1:
            self.commits.append(release(held, owner))
            self.gone.append(grant)
            del self.holds[owner]
        elif is_live and kind < 0.8:
            self.at(ack(held, owner, self.now))
            grant[2] = self.now + DAY
        elif kind > 0.9 or not is_live:
            self.boot(owner, held, grant)

    def boot(self, owner, held, grant):
        """A modem gets an address that nobody has."""
        taken = {each for each, (_, end) in ((each, one[1:3]) for each, one in
                 ((a, g) for a, g in self.holds.values())) if self.now < end}
        free = [f"10.64.0.{last}" for last in range(10, 16) if f"10.64.0.{last}" not in taken]
        wanted = self.random.choice(free)
        self.at(offer(wanted, owner, self.now, before=held if held != wanted else None))
        if grant is not None and held != wanted and self.now < grant[2]:
            grant[2:] = [self.now, "moved"]
        for other in [each for each, (at, _) in self.holds.items() if at == wanted]:
            del self.holds[other]
        self.now += 1
        self.at(ack(wanted, owner, self.now))
        grant = [owner, self.now, self.now + DAY, "expired"]
        self.grants.setdefault(wanted, []).append(grant)
        self.holds[owner] = wanted, grant

    def expected(self, held):
        return [line(held, owner, 0, 6 + owner, since, until, ended)
                for owner, since, until, ended in self.grants.get(held, [])]


def at_random(seed):
    model = Model(seed)
    while len(model.commits) < 1500:
        model.event()
    model.now += 1
    model.at([modem(1, 7)])
    model.at(offer("10.64.0.98", 3, model.now))
    return model


def compared(path, model, what, *words):
    """All addresses, by one process each; gaps and overlaps of grants would show."""
    for last in range(10, 16):
        held = f"10.64.0.{last}"
        shown(path, held, model.expected(held), f"{what}: {held}", *words)


def beside_a_model():
    for seed in range(3):
        model = at_random(seed)
        with tempfile.TemporaryDirectory() as folder:
            path, index = os.path.join(folder, "office.journal"), os.path.join(folder, "index")
            write(path, model.commits)
            compared(path, model, f"seed {seed}, at once")
            # The same index over a journal that grows, and at last over a copy of it.
            for count in (40, 41, 700, 701):
                write(path + "-grows", model.commits[:count])
                asked(path + "-grows", A, "--index", index)
            shutil.copy(path, path + "-copy")
            compared(path + "-copy", model, f"seed {seed}, in pieces", "--index", index)
    print("3 journals of 1,500 records beside a model, at once and in pieces")


# ---- the trail of office-watch

def packet(now, kind, owner, held, *options, to_office=False):
    """A message to the office or an answer, as tcpdump has it of a link without a head."""
    op, fields = (1, (held, "0.0.0.0")) if to_office else (2, ("0.0.0.0", held))
    data = bytes([op, 1, 6, 0]) + big(now, 4) + bytes(4) + ip(fields[0]) + ip(fields[1]) + bytes(4)
    data += ip("10.64.0.1") + owner + bytes(10 + 64 + 128) + b"\x63\x82\x53\x63\x35\1"
    data += bytes([kind]) + b"".join(options) + b"\xff"
    udp = struct.pack(">HHHH", 67, 67, 8 + len(data), 0) + data
    whole = struct.pack(">BBHHHBBH", 0x45, 0, 20 + len(udp), 0, 0, 64, 17, 0) + bytes(8) + udp
    return struct.pack("<IIII", now, 0, len(whole), len(whole)) + whole


def trail():
    """Acknowledgements, a release and a device, of three days; the oldest day's file goes."""
    lasts, behind = b"\x33\4" + big(DAY, 4), b"\x52\x08\2\6" + mac(1)
    packets = [packet(T0 - 9 * DAY, 5, mac(1), A, lasts), packet(T0, 5, mac(1), A, lasts),
               packet(T0 + 10, 5, mac(9), D, lasts, behind),
               packet(T0 + DAY // 2, 5, mac(1), A, lasts),
               packet(T0 + DAY, 7, mac(1), A, to_office=True),
               packet(T0 + DAY + 5, 5, mac(2), A, lasts)]
    words = ["ack", "ack", "cpe-ack", "ack", "released", "ack"]
    with tempfile.TemporaryDirectory() as folder:
        capture, lines, store, path = (os.path.join(folder, each) for each in
                                       ("pcap", "lines", "office.journal", "trail"))
        write(store, FIRST)
        with open(capture, "wb") as file:
            file.write(struct.pack("<IHHiIII", 0xA1B2C3D4, 2, 4, 0, 0, 65535, 101))
            file.write(b"".join(packets))
        with open(lines, "w") as file:
            file.writelines(f"{place} dhcp {each}\n" for place, each in enumerate(words, 1))
        given = ["--capture", capture, "--store", store, "--trail", path, "--trail-days", "7"]
        done = subprocess.run([sys.executable, WATCH, *given, lines], stdout=subprocess.PIPE,
                              stderr=subprocess.PIPE, timeout=60)
        check(done.returncode == 0, f"office-watch: {done.stderr.decode()}")
        days = sorted(each for each in os.listdir(folder) if each.startswith("trail"))
        check(days == ["trail", "trail-20231114"], f"a file of each day: {days}")
        shown(path, A, [line(A, 1, 0, 7, T0, T0 + DAY, "released"),
                        line(A, 2, 0, 8, T0 + DAY + 5, T0 + 2 * DAY + 5)], "a trail")
        shown(path, D, [line(D, 1, 9, 7, T0 + 10, T0 + 10 + DAY)], "a trail: a device")
        shown(path, A, [line(A, 2, 0, 8, T0 + DAY + 5, T0 + 2 * DAY + 5)], "at a moment", "--at",
              str(T0 + DAY + 6))
        check(os.stat(path).st_mode & 0o777 == 0o600, "a trail is its owner's alone")
    print("a trail of office-watch")


# ---- the program

def over_sockets():
    """Two hundred modems boot, renew, decline and release; a journal says who had their addresses,
    while the office has it open."""
    modems.addresses_of_lo()
    with tempfile.TemporaryDirectory() as folder, tempfile.TemporaryFile() as log:
        path, began = os.path.join(folder, "office.journal"), moment(time.time())
        with modems.running(log, store="journal:" + path):
            modems.furnish()
            talk = modems.Conversation()
            modems.boot(talk)
            modems.live(talk)
            for number in (0, 1, 5, 10, 15, 42, modems.MODEMS - 1):
                held = modems.ip(modems.FIRST + number)
                status, lines, said = asked(path, held)
                owner, ended = modems.leases.mac(number).hex(), ENDED.get(number % 10, "")
                check(len(lines) == 1 and lines[0][:4] == [held, owner, "", "7"],
                      f"{held} was that of modem {number}: {status} {lines} {said}")
                check(began <= lines[0][4] <= moment(time.time()) and lines[0][6] == ended,
                      f"from when, and how it ended: {lines}, not {ended!r} from {began}")
    print("an office of 200 modems over a journal")


# What becomes of modems by the last digits of their numbers, as harness.modems has it.
ENDED = {0: "declined", 5: "released"}


def main():
    by_hand()
    trail()
    windows()
    beside_a_model()
    if os.path.exists(PROGRAM) and may_be_alone():
        alone(over_sockets, 300, "an office over a journal")
    else:
        print("an office over a journal: skipped, since officed isn't built, or by `unshare -rn`")


if __name__ == "__main__":
    sys.exit(script(main, over_sockets, needs_program=False))
