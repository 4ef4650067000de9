#!/usr/bin/env python3
"""bin/office-sql reads the rows of a store as the office writes them.

The store is made here by Python's sqlite3, its rows by the spelling of crates/off_rows: a whole
file, one whose last commits are in the log beside it, one that a program has open, and files that
are no store. What is expected is said by hand. The store stays as it is, to the byte. Where the
program keeps a store on disk, the one of the first office is read too; while an office has it open
it isn't.
"""
import csv
import io
import ipaddress
import os
import signal
import sqlite3
import subprocess
import sys
import tempfile
import time

from harness import PROGRAM, ROOT, check, free_ports, may_be_alone, script, serve, serving
from harness.clerks import wait_until_answering
from harness.told import SECRET
from first_office import may_relay, run

READER = os.path.join(ROOT, "bin", "office-sql")
TABLE = "CREATE TABLE office(ident BLOB PRIMARY KEY NOT NULL, val BLOB NOT NULL) STRICT"
NOW = 1_700_000_000
OFFERED, BOUND, DECLINED = 1, 2, 3


def text(value):
    return bytes([len(value)]) + value


def big(value, size):
    return value.to_bytes(size, "big")


def ip(value):
    return ipaddress.IPv4Address(value).packed


def mac(last):
    return bytes.fromhex("02aabbccdd") + bytes([last])


def modem(last, subscriber, class_, serial=b""):
    return b"\x04" + mac(last), big(subscriber, 4) + big(class_, 4) + text(serial)


def leased(held, hold, owner, expiry):
    """The rows of a lease: the address's, and the modem's where it has one."""
    named = mac(owner) if hold != DECLINED else b""
    yield b"\x07" + ip(held), bytes([hold]) + named + big(expiry, 8)
    if hold != DECLINED:
        yield b"\x08" + named, ip(held)


def hub(number, server, offset, lease, log="0.0.0.0"):
    values = ip(server) + text(SECRET) + offset.to_bytes(4, "big", signed=True) + big(lease, 4)
    return b"\x0a" + big(number, 4), values + ip(log)


ROWS = [
    hub(0, "10.0.0.2", 3600, 86400),
    (b"\x02" + big(7, 4), b"\x01\x02" + text(b"Ann")),
    (b"\x02" + big(8, 4), b"\x00\x02" + text("Bö".encode())),
    modem(0xEE, 7, 1, b"SN01"), modem(0xEF, 8, 1), modem(0xF0, 7, 2, b"a,b"), modem(0xF1, 7, 1),
    (b"\x05" + big(1, 4), text(b"gold") + b"\x18\x00"),
    (b"\x06" + big(1, 4), ip("10.64.0.10") + ip("10.64.0.14") + b"\x18" + ip("10.64.0.1") * 2),
    *leased("10.64.0.10", BOUND, 0xEE, NOW + 100), *leased("10.64.0.11", BOUND, 0xF0, NOW),
    *leased("10.64.0.12", OFFERED, 0xEF, NOW + 9), *leased("10.64.0.13", DECLINED, 0, NOW - 5),
    *leased("10.65.0.10", BOUND, 0x77, NOW + 100),
    (b"\x09" + big(9, 8), b"\x02" + bytes(range(16)) + big(2, 4)),
    (b"\x09" + big(2**64 - 1, 8), b"\x01" + bytes(16) + big(2000, 4)),
]
MOMENT, BEFORE = "2023-11-14 22:13:20", "2023-11-14 22:13:15"
LATER, SOON = "2023-11-14 22:15:00", "2023-11-14 22:13:29"
MODEMS = ["modem", "class", "serial", "address", "lease", "until (UTC)"]
LEASE = ["modem", "address", "lease", "until (UTC)", "seconds left"]
ANSWERS = [
    (("modems", "7"), [MODEMS, ["02aabbccddee", "1", "SN01", "10.64.0.10", "bound", LATER],
                       ["02aabbccddf0", "2", "a,b", "10.64.0.11", "ended", MOMENT],
                       ["02aabbccddf1", "1", "", "", "none", ""]]),
    (("modems", "8"), [MODEMS, ["02aabbccddef", "1", "", "10.64.0.12", "offered", SOON]]),
    (("lease", "02:AA:bb:cc:dd:ee"),
     [LEASE, ["02aabbccddee", "10.64.0.10", "bound", LATER, "100"]]),
    (("lease", "02aabbccddf0"), [LEASE, ["02aabbccddf0", "10.64.0.11", "ended", MOMENT, "0"]]),
    (("lease", "02aabbccdd77"), [LEASE, ["02aabbccdd77", "10.65.0.10", "bound", LATER, "100"]]),
    (("free", "1"), [["address", "last modem", "ended (UTC)"],
                     ["10.64.0.11", "02aabbccddf0", MOMENT], ["10.64.0.13", "", BEFORE],
                     ["10.64.0.14", "", ""]]),
    (("subscribers",), [["subscriber", "active", "cpes", "modems", "name"],
                        ["7", "yes", "2", "3", "Ann"], ["8", "no", "2", "1", "B\u00f6"]]),
    (("classes",), [["class", "name", "modems"], ["1", "gold", "3"]]),
    (("leases",), [["address", "modem", "lease", "until (UTC)"],
                   ["10.64.0.10", "02aabbccddee", "bound", LATER],
                   ["10.64.0.11", "02aabbccddf0", "ended", MOMENT],
                   ["10.64.0.12", "02aabbccddef", "offered", SOON],
                   ["10.64.0.13", "", "ended", BEFORE],
                   ["10.65.0.10", "02aabbccdd77", "bound", LATER]]),
    (("pools",), [["pool", "hub", "relay", "first", "last", "addresses", "taken", "free", "full"],
                  ["1", "0", "10.64.0.1", "10.64.0.10", "10.64.0.14", "5", "2", "3", "40%"]]),
    (("hubs",), [["hub", "server", "offset", "lease", "log", "pools"],
                 ["0", "10.0.0.2", "3600", "86400", "0.0.0.0", "1"]]),
    (("batches",), [["batch", "kind", "rows", "digest"],
                    ["9", "modems", "2", bytes(range(16)).hex()],
                    [str(2**64 - 1), "subscribers", "2000", "00" * 16]]),
]


def made(path, rows=ROWS):
    """A store, its log beside it while the connection lives."""
    store = sqlite3.connect(path, isolation_level=None)
    store.execute("PRAGMA journal_mode = WAL")
    store.execute(TABLE)
    store.execute("PRAGMA wal_checkpoint(TRUNCATE)")
    store.executemany("INSERT INTO office VALUES (?, ?)", rows)
    return store


def asked(path, *words):
    done = subprocess.run([READER, "--at", str(NOW), path, *words], timeout=30,
                          stdout=subprocess.PIPE, stderr=subprocess.PIPE)
    return done.returncode, done.stdout.decode(), done.stderr.decode()


def bytes_of(path):
    with open(path, "rb") as held:
        return held.read()


def answers(path, what):
    before = {name: bytes_of(name) for name in (path, path + "-wal") if os.path.exists(name)}
    for words, expected in ANSWERS:
        status, came, said = asked(path, "--csv", *words)
        found = list(csv.reader(io.StringIO(came)))
        check((status, found) == (0, expected), f"{what}: {words}: {status} {found} {said}")
    check(all(bytes_of(name) == data for name, data in before.items()), f"{what}: it stays")
    beside = [name for name in os.listdir(os.path.dirname(path)) if name.endswith("-shm")]
    check(not beside, f"{what}: nothing is left beside it")


def stores(folder):
    path, other = os.path.join(folder, "office.db"), os.path.join(folder, "logged", "office.db")
    os.mkdir(os.path.dirname(other))
    store = made(path)
    # Before this process reads the file: closing it would end its locks (POSIX, fcntl).
    check(asked(path, "batches")[0] == 3, "a store that a program has open isn't read")
    # The rows are in the log alone here: a crash leaves such files.
    check(len(bytes_of(path)) < len(bytes_of(path + "-wal")), "the rows are in the log")
    for name in ("", "-wal"):
        with open(other + name, "wb") as held:
            held.write(bytes_of(path + name))
    store.close()
    answers(path, "a whole store")
    answers(other, "a store with a log")
    locked = sqlite3.connect(path, isolation_level=None)
    locked.execute("PRAGMA locking_mode = EXCLUSIVE")
    locked.execute("BEGIN EXCLUSIVE")
    status, came, said = asked(path, "modems", "7")
    check((status, came) == (3, "") and "stop it first" in said, f"a locked store: {status} {said}")
    locked.close()


def refusals(folder):
    path, empty = os.path.join(folder, "office.db"), os.path.join(folder, "empty")
    for words, part in ((("modems", "9"), "no subscriber 9"), (("free", "2"), "no pool 2"),
                        (("lease", "02aabbccddf1"), "has no lease"),
                        (("lease", "02aabbccddff"), "no such modem")):
        status, came, said = asked(path, *words)
        check((status, came) == (1, "") and part in said, f"{words}: {status} {said}")
    with open(empty, "wb") as held:
        held.write(b"no database, but a text that is long enough to be looked at" * 20)
    for words in ((empty, "batches"), (os.path.join(folder, "none"), "batches"),
                  (path, "modems"), (path, "batches", "7"), (path, "modems", "x"),
                  (path, "modems", "-1"), (path, "pools", "1"), (path, "lease", "0x")):
        check(asked(*words)[0] == 2, f"{words} can't be read")
    bad = os.path.join(folder, "bad")
    made(bad, [(b"\x09" + bytes(8), b"\x03" + bytes(20)), (b"\x08" + mac(1), ip("10.0.0.1")),
               (b"\x07" + ip("10.0.0.1"), b"\x02")]).close()
    for words in (("batches",), ("lease", mac(1).hex())):
        check(asked(bad, *words)[0] == 2, f"a row of another form: {words}")


def tables(path, words):
    status, came, said = asked(path, "--csv", words)
    check(status == 0, f"{words}: {status} {said}")
    return list(csv.reader(io.StringIO(came)))[1:]


def several_hubs(folder):
    """Pools with their hubs; leases end by those of their pool's hub; a store of earlier days."""
    path, earlier = os.path.join(folder, "hubs.db"), os.path.join(folder, "earlier.db")
    pool = ip("10.65.0.10") + ip("10.65.0.19") + b"\x18" + ip("10.65.0.1") * 2
    made(path, [*ROWS, hub(7, "10.0.0.3", -1, 60, "10.0.0.9"), (b"\x06" + big(2, 4), pool),
                (b"\x0b" + big(2, 4), big(7, 4))]).close()
    check([line[:3] for line in tables(path, "pools")]
          == [["1", "0", "10.64.0.1"], ["2", "7", "10.65.0.1"]], "the hubs of pools")
    check(tables(path, "hubs") == [["0", "10.0.0.2", "3600", "86400", "0.0.0.0", "1"],
                                   ["7", "10.0.0.3", "-1", "60", "10.0.0.9", "1"]], "the hubs")
    status, came, said = asked(path, "--csv", "end-leases")
    lines = [line.split(",") for line in came.splitlines()[1:]]
    check(status == 0 and [(line[0], line[5]) for line in lines]
          == [("10.65.0.10", moment(NOW + 60))], f"a lease of a hub of short ones: {came} {said}")
    site = (b"\x01", ROWS[0][1])
    made(earlier, [site, *ROWS[1:], *leased("10.65.0.11", BOUND, 0x78, NOW + 86401)]).close()
    check(tables(earlier, "hubs") == [["0", "10.0.0.2", "3600", "86400", "0.0.0.0", "1"]],
          "the site of earlier days is the hub 0")
    check(asked(earlier, "--csv", "end-leases")[1].count("\n") == 2, "which says how long they last")


TOLD = ["address", "modem", "device", "lease", "before (UTC)", "now (UTC)"]
# Each with the leases that it changes: their addresses, and their ends before and after it.
ENDED = [
    ((), [("10.65.0.11", "02aabbccdd78", "bound", NOW + 86401, NOW + 86400)]), ((), []),
    (("10.65.0.11",), [("10.65.0.11", "02aabbccdd78", "bound", NOW + 86400, NOW)]),
    (("--later-than", "now+50"), [("10.64.0.10", "02aabbccddee", "bound", NOW + 100, NOW + 50),
                                  ("10.65.0.10", "02aabbccdd77", "bound", NOW + 100, NOW + 50)]),
    (("10.65.0.10",), [("10.65.0.10", "02aabbccdd77", "bound", NOW + 50, NOW)]),
    (("10.65.0.10",), []),
    (("--later-than", "2023-11-14 22:13:27"), [
        ("10.64.0.10", "02aabbccddee", "bound", NOW + 50, NOW + 7),
        ("10.64.0.12", "02aabbccddef", "offered", NOW + 9, NOW + 7)]),
]


def moment(seconds):
    return time.strftime("%Y-%m-%d %H:%M:%S", time.gmtime(seconds))


def rows_in(path):
    held = sqlite3.connect(f"file:{path}?immutable=1", uri=True)
    rows = dict(held.execute("SELECT ident, val FROM office"))
    held.close()
    return rows


def ends_leases(folder):
    """Leases are ended, all other rows stay, and a copy of the file as it was is kept."""
    path = os.path.join(folder, "ending.db")
    made(path, [*ROWS, *leased("10.65.0.11", BOUND, 0x78, NOW + 86401)]).close()
    for words, changed in ENDED:
        before = rows_in(path)
        status, came, said = asked(path, "--csv", "end-leases", *words)
        found = list(csv.reader(io.StringIO(came)))
        lines = [[*line[:2], "", line[2], moment(line[3]), moment(line[4])] for line in changed]
        check((status, found) == (0, [TOLD, *lines]), f"{words}: {status} {found} {said}")
        for held, _, _, was, is_ in changed:
            val = before[b"\x07" + ip(held)]
            check(val[-8:] == big(was, 8), f"{words}: {held} ended at another moment")
            before[b"\x07" + ip(held)] = val[:-8] + big(is_, 8)
        check(rows_in(path) == before, f"{words}: the other rows stay")
        copies = [os.path.join(folder, name) for name in os.listdir(folder) if ".before-" in name]
        check(len(copies) == bool(changed), f"{words}: {copies}")
        for copy in copies:
            check(said.strip().endswith(copy), f"{words}: {said}")
            os.remove(copy)
    for words, expected in ((("10.64.0.14",), 1), (("10.64.0",), 2), (("--later-than", "x"), 2),
                            (("--later-than", "now", "10.64.0.10"), 2)):
        check(asked(path, "end-leases", *words)[0] == expected, f"{words}: {expected}")
    locked = sqlite3.connect(path, isolation_level=None)
    locked.execute("PRAGMA locking_mode = EXCLUSIVE")
    locked.execute("BEGIN EXCLUSIVE")
    check(asked(path, "end-leases", "--later-than", "now")[0] == 3, "not of a store in use")
    locked.close()
    bare = os.path.join(folder, "bare.db")
    made(bare, ROWS[1:]).close()
    check(asked(bare, "end-leases")[0] == 1, "without a hub a moment is to be given")


def device(held, hold, behind, last, expiry):
    """A lease of a device behind a modem."""
    named = mac(behind) + bytes.fromhex("0200000000") + bytes([last]) if hold != DECLINED else b""
    return b"\x0d" + ip(held), bytes([hold]) + named + big(expiry, 8)


DEVICE_POOL = (b"\x0c" + big(1, 4),
               ip("10.128.0.10") + ip("10.128.0.15") + b"\x18" + ip("10.128.0.1") * 2)
# Behind a modem that is online, behind one whose hub is 1, and behind one without an address.
DEVICES = [device("10.128.0.10", BOUND, 0xEE, 0xA1, NOW + 86401),
           device("10.128.0.11", OFFERED, 0xEE, 0xA2, NOW + 120),
           device("10.128.0.12", BOUND, 0xEE, 0xA3, NOW),
           device("10.128.0.13", DECLINED, 0, 0, NOW + 600),
           device("10.128.0.14", BOUND, 0x77, 0xA1, NOW + 100),
           device("10.129.0.10", BOUND, 0xF1, 0xA1, NOW + 86401)]
FULL_DAY, TEN, DAY = "2023-11-15 22:13:21", "2023-11-14 22:23:20", "2023-11-15 22:13:20"
BEHIND = [
    (("devices", "02:aa:bb:cc:dd:ee"),
     [["device", "address", "lease", "until (UTC)", "seconds left"],
      ["0200000000a1", "10.128.0.10", "bound", FULL_DAY, "86401"],
      ["0200000000a2", "10.128.0.11", "offered", "2023-11-14 22:15:20", "120"],
      ["0200000000a3", "10.128.0.12", "ended", MOMENT, "0"]]),
    (("devices", "02aabbccddef"), [["device", "address", "lease", "until (UTC)", "seconds left"]]),
    (("device-free", "1"), [["address", "last modem", "last device", "ended (UTC)"],
                            ["10.128.0.12", "02aabbccddee", "0200000000a3", MOMENT],
                            ["10.128.0.15", "", "", ""]]),
    (("device-pools",), [["pool", "relay", "first", "last", "addresses", "taken", "free", "full"],
                         ["1", "10.128.0.1", "10.128.0.10", "10.128.0.15", "6", "4", "2", "66%"]]),
    (("device-leases",), [["address", "modem", "device", "lease", "until (UTC)"],
                          ["10.128.0.10", "02aabbccddee", "0200000000a1", "bound", FULL_DAY],
                          ["10.128.0.11", "02aabbccddee", "0200000000a2", "offered",
                           "2023-11-14 22:15:20"],
                          ["10.128.0.12", "02aabbccddee", "0200000000a3", "ended", MOMENT],
                          ["10.128.0.13", "", "", "declined", TEN],
                          ["10.128.0.14", "02aabbccdd77", "0200000000a1", "bound", LATER],
                          ["10.129.0.10", "02aabbccddf1", "0200000000a1", "bound", FULL_DAY]]),
]


def behind_modems(folder):
    """Devices and their pools; a lease of a device ends by those of its modem's hub."""
    path, bare = os.path.join(folder, "devices.db"), os.path.join(folder, "no-hub.db")
    pool = ip("10.65.0.10") + ip("10.65.0.19") + b"\x18" + ip("10.65.0.1") * 2
    made(path, [*ROWS, hub(1, "10.0.0.3", 0, 60), (b"\x06" + big(2, 4), pool),
                (b"\x0b" + big(2, 4), big(1, 4)), DEVICE_POOL, *DEVICES]).close()
    for words, expected in [*ANSWERS[:8], *BEHIND]:
        status, came, said = asked(path, "--csv", *words)
        found = list(csv.reader(io.StringIO(came)))
        check((status, found) == (0, expected), f"devices: {words}: {status} {found} {said}")
    for words, status in ((("devices", "02aabbccddff"), 1), (("devices", "x"), 2),
                          (("devices",), 2), (("device-free", "2"), 1), (("device-pools", "1"), 2)):
        check(asked(path, *words)[0] == status, f"{words}: {status}")
    before = rows_in(path)
    status, came, said = asked(path, "--csv", "end-leases")
    lines = [line.split(",") for line in came.splitlines()[1:]]
    soon = moment(NOW + 60)
    check(status == 0 and [(*line[:3], line[5]) for line in lines] == [
        ("10.65.0.10", "02aabbccdd77", "", soon),
        ("10.128.0.10", "02aabbccddee", "0200000000a1", DAY),
        ("10.128.0.14", "02aabbccdd77", "0200000000a1", soon),
        ("10.129.0.10", "02aabbccddf1", "0200000000a1", DAY)], f"all leases: {came} {said}")
    for held, end in (("10.128.0.10", 86400), ("10.128.0.14", 60), ("10.129.0.10", 86400)):
        val = before[b"\x0d" + ip(held)]
        before[b"\x0d" + ip(held)] = val[:-8] + big(NOW + end, 8)
    val = before[b"\x07" + ip("10.65.0.10")]
    before[b"\x07" + ip("10.65.0.10")] = val[:-8] + big(NOW + 60, 8)
    check(rows_in(path) == before, "the other rows stay")
    one = asked(path, "--csv", "end-leases", "10.128.0.11")[1].splitlines()[1:]
    check(one == [f"10.128.0.11,02aabbccddee,0200000000a2,offered,2023-11-14 22:15:20,{MOMENT}"],
          f"the lease of one address: {one}")
    made(bare, DEVICES).close()
    check(asked(bare, "end-leases")[0] == 1, "without a hub a moment is to be given")


def to_no_reader(path):
    """What is said, and the status, where the reader of the answer has gone, as `head` does."""
    reading, writing = os.pipe()
    os.close(reading)
    done = subprocess.run([READER, "--at", str(NOW), path, "free", "1"], timeout=30,
                          stdout=writing, stderr=subprocess.PIPE)
    os.close(writing)
    return done.returncode, done.stderr


def opened(path):
    """The status of an office over a store, which takes no events."""
    return subprocess.run(serve(path), stdout=subprocess.DEVNULL, timeout=60).returncode


def by_the_program(folder):
    """The store of an office that booted a modem."""
    path = os.path.join(folder, "first.db")
    if not os.path.exists(PROGRAM) or opened(path) == 11:
        print("a store of the program: skipped, since it keeps none on disk")
        return
    if not may_relay() and not may_be_alone():
        print("a store of the program: skipped, since no modem can boot here")
        return
    check(run(store=path)[0] == 0, "a modem boots")
    for words, expected in (
            (("modems", "7"), ["02aabbccddee", "1", "SN01", "127.64.0.10", "bound"]),
            (("lease", "02aabbccddee"), ["02aabbccddee", "127.64.0.10", "bound"])):
        status, came, said = asked(path, "--csv", *words)
        found = list(csv.reader(io.StringIO(came)))[1:]
        check(status == 0 and [line[:len(expected)] for line in found] == [expected],
              f"{words} of the program: {status} {found} {said}")
    ports = free_ports()
    with serving(ports, subprocess.DEVNULL, store=path):
        wait_until_answering(ports[3])
        check(asked(path, "modems", "7")[0] == 3, "while the office has it open it isn't read")
    check(asked(path, "modems", "7")[0] == 0, "and behind it it is")
    # By its own clock: `asked` is of another moment.
    for words in (("--later-than", "now+60"), ("127.64.0.10",)):
        done = subprocess.run([READER, "--csv", path, "end-leases", *words], timeout=30,
                              stdout=subprocess.PIPE, stderr=subprocess.DEVNULL)
        lines = list(csv.reader(io.StringIO(done.stdout.decode())))
        check([line[:2] for line in lines[1:]] == [["127.64.0.10", "02aabbccddee"]], f"{lines}")
        check(opened(path) == 0, f"{words}: the office opens the file")


def main():
    with tempfile.TemporaryDirectory() as folder:
        stores(folder)
        refusals(folder)
        ends_leases(folder)
        several_hubs(folder)
        behind_modems(folder)
        by_the_program(folder)
        status, came, _ = asked(os.path.join(folder, "office.db"), "free", "1")
        lines = ["address     last modem    ended (UTC)", f"10.64.0.11  02aabbccddf0  {MOMENT}",
                 f"10.64.0.13                {BEFORE}", "10.64.0.14"]
        check((status, came.splitlines()) == (0, lines), f"as text: {came}")
        found = to_no_reader(os.path.join(folder, "office.db"))
        check(found == (-signal.SIGPIPE, b""), f"a reader that has gone: {found}")


if __name__ == "__main__":
    sys.exit(script(main, needs_program=False))
