#!/usr/bin/env python3
"""officed with two hubs as their modems see it, and over stores of earlier days, whose one site becomes the hub 0.

Two relays, at 127.0.0.1 and 127.0.0.2, each with a pool of its own hub: a modem boots at the one and then at the other, by that hub's server and secret, and
reads its file, which is checked here; a pool is moved to the other hub in the midst of a transfer. Each reply and each word of the log is compared with the
models of tests/examples. That needs port 67, and is skipped by name where no network of its own can be had. Then stores of earlier days, made by Python's
sqlite3: their site is moved at the first start, by an office and by an import, whatever becomes of the import; 50 starts, or as many as OFFICE_KILLS says, are
killed, and leave the store as it was or moved. Where there is `cc`, starts and imports are refused growths of memory, each of the last before the program ends
among them, and do likewise. It ends what it started, and takes about a minute.
"""
import contextlib
import os
import random
import shutil
import socket
import sqlite3
import subprocess
import sys
import tempfile
import time

# Before the modems, whose models have a module of this name too.
from imports import table
import journal_kills
from store import Serving, ended, folder, made_with, rows_of
from store_reader import BOUND, big, hub, ip, leased, modem, text
from harness import PROGRAM, alone, check, have_their_lines, may_be_alone, said, script, serve, serving
from harness import modems as office
from harness.network import loopback, port_of, took
from harness.told import SECRET
from files_without_memory import Refuser

sys.dont_write_bytecode = True
import leases  # noqa: E402
import tftp  # noqa: E402
from examples import verdict  # noqa: E402
from messages import ACK, OFFER, reply_in  # noqa: E402

KILLS = int(os.environ.get("OFFICE_KILLS", "50"))
LAST_GROWTHS = 60
# Port 67 belongs to the relays here.
PORTS, CLIENT = [6700, 6701, 6702, 8080], 5000
OTHER = SECRET[::-1]
# A hub's server, a relay, the secret, and the addresses of its pool.
HUBS = [("127.0.0.3", "127.0.0.1", SECRET, "127.64.0.10", "127.64.0.99"), ("127.0.0.4", "127.0.0.2", OTHER, "127.65.0.10", "127.65.0.99")]
GOLD = "24{ 1=0001 6=07 } 25{ 1=0002 6=07 }"
ROWS = [*(f"hub {number} {server} {secret.hex()} 0 3600 0.0.0.0" for number, (server, _, secret, _, _) in enumerate(HUBS)), f'class 1 "gold" {GOLD}',
        'subscriber 7 active 2 "Ann"', leases.modem_row(0xEE),
        *(f"pool {number} {first} {last} 24 {relay} {relay}" for number, (_, relay, _, first, last) in enumerate(HUBS)), "pool-hub 1 1"]


def site_of(number):
    server, _, secret, _, _ = HUBS[number]
    return {"server": server, "secret": secret.hex(), "offset": 0, "lease": 3600, "log": "0.0.0.0"}


def pool_of(number, at):
    _, relay, _, first, last = HUBS[number]
    return {"first": first, "last": last, "prefix": 24, "router": relay, "relay": relay, "hub": at}


def furnish():
    """The rows of the model, by a clerk; a pool needs its hub first."""
    clerk = office.clerk
    check(clerk.ask("PUT", "/pools/1", pool_of(1, 1)) == (422, b'{"fault":"no-hub"}'), "a pool without its hub")
    rows = [("/site", site_of(0)), ("/hubs/1", site_of(1)), ("/classes/1", {"name": "gold", "settings": tftp.tree_json(tftp.tree_in(GOLD))}),
            ("/subscribers/7", {"active": True, "cpes": 2, "name": "Ann"}), ("/pools/0", pool_of(0, 0)), ("/pools/1", pool_of(1, 1)),
            ("/modems/02aabbccddee", {"subscriber": 7, "class": 1, "serial": ""})]
    clerk.furnishes(rows)
    check(clerk.ask("GET", "/site") == clerk.ask("GET", "/hubs/0"), "the site is the hub 0")
    check(b'"hub":1' in clerk.ask("GET", "/pools/1").text, "a pool is shown with its hub")
    check(clerk.ask("DELETE", "/hubs/1") == (409, b'{"at":"1","fault":"hub-in-use"}'), "a hub in use")
    check(clerk.ask("DELETE", "/hubs/9") == (404, b'{"fault":"no-row"}'), "no such hub")


# ---- modems at two hubs

class Talk:
    """What modems and relays say to the office, and what the models say of it."""

    def __init__(self):
        self.model = leases.Office(ROWS)
        self.transfers, self.said = tftp.Transfers(self.model), []
        self.relays = {relay: port_of(relay, 67) for _, relay, _, _, _ in HUBS}
        self.sockets = {}

    def relayed(self, number, data):
        """A datagram through a hub's relay; gives what the reply says, which is the model's to the byte."""
        server, relay, _, _, _ = HUBS[number]
        word, reply = self.model.take(int(time.time()), data)
        self.said.append(f"dhcp {word}")
        self.relays[relay].sendto(data, (server, PORTS[0]))
        if reply is None:
            return None
        came = took(self.relays[relay])
        check(came is not None and came[0] == reply[1], f"{word} by {relay}: the reply of {len(reply[1])} bytes")
        return reply_in(reply[1])

    def asks(self, held, number, packet):
        """A TFTP packet from a modem's address to its hub's server; gives the answer, which is the model's but for the file's moment."""
        if held not in self.sockets:
            self.sockets[held] = socket.socket(socket.AF_INET, socket.SOCK_DGRAM)
            self.sockets[held].bind((held, CLIENT))
            self.sockets[held].settimeout(5)
        word, reply = self.transfers.take(int(time.time()), f"{held}:{CLIENT}", packet)
        self.said.append(f"tftp {word}")
        self.sockets[held].sendto(packet, (HUBS[number][0], PORTS[2]))
        if reply is None:
            return None
        came = self.sockets[held].recv(4096)
        check(came[:4] == reply[1][:4] and len(came) == len(reply[1]), f"{word} to {held}: {came[:30]}")
        return came

    def begins(self, number, held):
        """A read request for the modem's own file by its hub's secret, and its first block."""
        name = leases.name_of(HUBS[number][2], leases.mac(0xEE), leases.address(held))
        self.asks(held, number, tftp.request(name, (b"blksize", b"44")))
        return self.asks(held, number, tftp.acknowledgement(0))[4:]

    def reads(self, number, held):
        """A whole file, which is signed by this hub's secret and not by the other's."""
        file, block = self.begins(number, held), 1
        while len(file) == 44 * block:
            file, block = file + self.asks(held, number, tftp.acknowledgement(block))[4:], block + 1
        self.asks(held, number, tftp.acknowledgement(block))
        found = [verdict(file, secret) for secret in (HUBS[number][2], HUBS[1 - number][2])]
        check(found == [(True, True), (True, False)], f"a file at hub {number}: {found}")

    def boots(self, number):
        """A whole boot through a hub's relay: the OFFER and the ACK are of its server. Gives the modem's address."""
        server, relay, _, first, _ = HUBS[number]
        offer = self.relayed(number, leases.discover(relay=relay))
        check(offer["kind"] == OFFER and offer["address"] == leases.address(first), f"hub {number}: its pool's first address is offered")
        held = first
        check(self.relayed(number, leases.selects(held, server=HUBS[1 - number][0], relay=relay)) is None, "the other hub's server is another server")
        ack = self.relayed(number, leases.selects(held, server=server, relay=relay))
        check(ack["kind"] == ACK, f"hub {number}: the address is the modem's")
        self.reads(number, held)
        return held

    def clerk(self, path, body, row):
        """A row that is put, in the office and in the model."""
        office.clerk.puts(path, body)
        status, _, _ = self.model.clerk(int(time.time()), path, row)
        check(status == 200, f"the model's {path}")


def lines_of(log, count):
    """The log's lines on datagrams, when so many are there; the last packet of a file isn't answered."""
    for _ in range(100):
        lines = said(log, "dhcp", "tftp")
        if len(lines) >= count:
            break
        time.sleep(0.05)
    return lines


def booting():
    office.PORTS[:] = PORTS
    loopback()
    with tempfile.TemporaryFile() as log:
        with serving(PORTS, log):
            check(office.is_ready(), "the program answers within some seconds")
            furnish()
            talk = Talk()
            first = talk.boots(0)
            second = talk.boots(1)
            check(office.clerk.ask("GET", f"/leases/{first}").status == 404, "it gave up its address at the first hub")
            talk.begins(1, second)
            # The second pool goes to the first hub, and then back.
            _, relay, _, low, high = HUBS[1]
            row = f"pool 1 {low} {high} 24 {relay} {relay}"
            talk.clerk("/pools/1", pool_of(1, 0), f"{row} 0")
            gone = talk.asks(second, 1, tftp.acknowledgement(1))
            check(gone == tftp.error(2, "no longer agreed"), f"a transfer of a pool that was moved: {gone}")
            check(talk.relayed(1, leases.selects(second, server=HUBS[1][0], relay=relay)) is None, "the hub's server of before is another server")
            renewed = talk.relayed(1, leases.selects(second, server=HUBS[0][0], relay=relay))
            check(renewed["kind"] == ACK, "its lease is there, and is the other hub's to renew")
            talk.clerk("/pools/1", pool_of(1, 1), f"{row} 1")
            talk.reads(1, second)
            check(talk.boots(0) == first, "and back")
            lines = lines_of(log, len(talk.said))
    # What comes to two ports at once is taken in either order.
    for service in ("dhcp ", "tftp "):
        have_their_lines(*([line for line in each if line.startswith(service)] for each in (lines, talk.said)))


# ---- stores of earlier days

HUB_KEY, SITE_KEY = hub(0, "10.0.0.2", 3600, 86400)[0], b"\x01"
VALUES = hub(0, "10.0.0.2", 3600, 86400)[1]
FLOWS = bytes.fromhex("18070102000106010719070102000206" + "0107")
REST = {b"\x02" + big(7, 4): b"\x01\x02" + text(b"Ann"), b"\x05" + big(1, 4): text(b"gold") + big(len(FLOWS), 2) + FLOWS,
        b"\x06" + big(1, 4): ip("10.64.0.10") + ip("10.64.0.99") + b"\x18" + ip("10.64.0.1") * 2, **dict([modem(0xEE, 7, 1, b"SN01")]),
        **dict(leased("10.64.0.10", BOUND, 0xEE, 2**62))}
EARLIER, MOVED = {SITE_KEY: VALUES, **REST}, {HUB_KEY: VALUES, **REST}
SHOWN = {"lease": 86400, "log": "0.0.0.0", "offset": 3600, "server": "10.0.0.2"}


def in_database(path, rows):
    made_with(path, rows.items())


def in_journal(path, rows):
    journal_kills.made(path, journal_kills.journal_of(list(rows.items())))


KINDS = {"": (in_database, rows_of), "journal:": (in_journal, journal_kills.rows_of)}


@contextlib.contextmanager
def store_of(kind, rows):
    """A new store of these rows: its path, its name as a store, and its reader."""
    make, read = KINDS[kind]
    with folder() as (_, path):
        make(path, rows)
        yield path, kind + path, lambda: read(path)


def starts(kind):
    """The first start moves the site, and nothing else; the second finds nothing to do."""
    with store_of(kind, EARLIER) as (_, store, rows):
        for what in ("the first start", "the second one"):
            check(ended(store) == (0, ""), f"{kind} {what}: status 0")
            check(rows() == MOVED, f"{kind} {what}: the site is the hub 0, and all else stays")
        with Serving(store) as served:
            for path in ("/site", "/hubs/0"):
                served.shows(path, SHOWN, "after the start")
            served.shows("/leases/10.64.0.10", {"expiry": 2**62, "owner": "02aabbccddee", "state": "bound"}, "a lease")
            check(served.ask("GET", "/pools/1").text.startswith(b'{"first":"10.64.0.10","hub":0,'), "the pool has the hub 0")
            served.puts("/hubs/1", {**SHOWN, "secret": SECRET.hex(), "server": "10.0.0.3"})
            served.kill()
        check(rows().pop(hub(1, "10.0.0.3", 3600, 86400)[0], None) is not None, "after a kill the new hub is there")
    with store_of(kind, {SITE_KEY: VALUES}) as (_, store, rows):
        check((ended(store), rows()) == ((0, ""), {HUB_KEY: VALUES}), f"{kind} a site alone")
    for more in ({HUB_KEY: VALUES}, dict([hub(3, "10.0.0.3", 0, 60)]), {b"\x0b" + big(1, 4): big(1, 4)}):
        with store_of(kind, {**EARLIER, **more}) as (_, store, rows):
            check(ended(store) == (2, "tables refused site\n"), f"{kind} a site beside {more}")
            check(rows() == {**EARLIER, **more}, f"{kind} and nothing is changed")
    without = {key: row for key, row in EARLIER.items() if key != SITE_KEY}
    with store_of(kind, without) as (_, store, rows):
        check(ended(store) == (2, "tables refused lease 10.64.0.10\n") and rows() == without, f"{kind} a lease without its pool's hub")


def kills(kind):
    """Starts that are killed leave the store as it was or moved; the next start moves it, whichever it was."""
    with store_of(kind, EARLIER) as (_, store, _):
        began = time.perf_counter()
        check(ended(store) == (0, ""), f"{kind} a start")
        whole = time.perf_counter() - began
    moved, unlike = 0, []
    for _ in range(KILLS):
        with store_of(kind, EARLIER) as (_, store, rows):
            with subprocess.Popen(serve(store), stdout=subprocess.DEVNULL, stderr=subprocess.DEVNULL) as program:
                time.sleep(random.uniform(0.2 * whole, whole))
                program.kill()
            found = rows()
            moved += found == MOVED
            if found not in (EARLIER, MOVED):
                unlike.append(sorted(found))
            check(ended(store) == (0, "") and rows() == MOVED, f"{kind} the next start moves the site")
    check(not unlike, f"{kind} a kill leaves the store as it was, or moved: {unlike[:1]}")
    print(f"{KILLS} kills of a first start over {'a journal' if kind else 'a database'}: {moved} after its commit")


PEOPLE, PERSON = table("subscribers", [["8", "no", "1", ""]]), {b"\x02" + big(8, 4): b"\x00\x01" + text(b"")}
# Jobs over a store of earlier days: their words, the input, the rows that are there when all is done, and the statuses with which want of memory may end it.
JOBS = {"start": (serve, b"", MOVED, (6, 10, 11)),
        "import": (lambda store: [PROGRAM, "import", "--store", store, "subscribers", "9"], PEOPLE, {**MOVED, **PERSON}, (6,))}


def without_batches(rows):
    return {key: row for key, row in rows.items() if key[0] != 9}


def without_memory(kind, refuser, job):
    """A start, or an import, whose next growth of memory is refused ends with a status that says so, and leaves the store as it was or moved; the next one does all."""
    words_of, data, whole, statuses = JOBS[job]
    environment = {**os.environ, **refuser.environment()}

    def ends(store, growth):
        refuser.refuses(growth)
        done = subprocess.run(words_of(store), input=data, stdout=subprocess.PIPE, stderr=subprocess.DEVNULL, env=environment, timeout=60)
        refused = refuser.is_done()
        refuser.refuses(0)
        return done.returncode, refused

    def tried(growth):
        what = f"{kind} {job}, growth {growth}"
        with store_of(kind, EARLIER) as (_, store, rows):
            status, refused = ends(store, growth)
            found = without_batches(rows())
            check(status in (0, *statuses) and found in (EARLIER, MOVED, whole), f"{what}: status {status}, {len(found)} rows")
            check(status != 0 or found == whole, f"{what}: one that ends well has done all")
            check(ends(store, 0)[0] == 0 and without_batches(rows()) == whole, f"{what}: the next one does all")
            return refused, status, found

    least, most = 1, 1
    while tried(most)[0]:
        least, most = most, 2 * most
    while least + 1 < most:
        middle = (least + most) // 2
        least, most = (middle, most) if tried(middle)[0] else (least, middle)
    growths = sorted({*range(max(1, most - LAST_GROWTHS), most), *random.sample(range(1, most), min(most - 1, LAST_GROWTHS))})
    came = [tried(growth) for growth in growths]
    print(f"a first {job} over {'a journal' if kind else 'a database'} has {most - 1} growths; {len(growths)} of them refused: "
          f"{sum(status == 6 for _, status, _ in came)} with status 6, {sum(found != EARLIER for _, _, found in came)} of them after its first commit")


def imports(kind):
    """An import's opening moves the site, whatever becomes of the import; where nothing is opened it stays."""
    wrong = table("modems", [["02:00:00:00:00:01", "7", "9", ""]])
    for what, data, words, expected, then in (
            ("is done", PEOPLE, ("subscribers", "9"), (0, "rows 1\n"), {**MOVED, **PERSON}),
            ("has other words", PEOPLE, ("subscribers",), (1, "words refused\n"), EARLIER),
            ("has another header", b"x\n", ("modems", "9"), (9, "refused header\n"), MOVED),
            ("breaks a rule", wrong, ("modems", "9"), (9, "refused no-class row 1\n"), MOVED)):
        with store_of(kind, EARLIER) as (_, store, rows):
            check(ended(store, "import", *words, data=data) == expected, f"{kind} an import that {what}")
            check(without_batches(rows()) == then, f"{kind} an import that {what}: the rows")
    # A record of a journal that isn't changes of rows is no record.
    unread = (11, "") if kind else (3, "keeper refused\n")
    for more, expected in (({HUB_KEY: VALUES}, (2, "tables refused site\n")), ({b"\x08" + bytes(6): b"\x0a"}, unread)):
        with store_of(kind, {**EARLIER, **more}) as (_, store, rows):
            check((ended(store, "import", "subscribers", "9", data=PEOPLE), rows()) == (expected, {**EARLIER, **more}), f"{kind} an import: {expected}")
    for what, given, taken, status, then in (("standard input fails", "/", subprocess.DEVNULL, 7, MOVED), ("standard output is full", None, "/dev/full", 4, {**MOVED, **PERSON})):
        with store_of(kind, EARLIER) as (_, store, rows), contextlib.ExitStack() as files:
            source = os.open(given, os.O_RDONLY) if given else files.enter_context(tempfile.TemporaryFile())
            if given is None:
                source.write(PEOPLE)
                source.seek(0)
            sink = files.enter_context(open(taken, "wb")) if isinstance(taken, str) else taken
            found = subprocess.run([PROGRAM, "import", "--store", store, "subscribers", "9"], stdin=source, stdout=sink, timeout=60).returncode
            check(found == status, f"{kind} {what}: status {found}")
            check(without_batches(rows()) == then, f"{kind} {what}: the rows")
            if given:
                os.close(source)
    with store_of("", EARLIER) as (path, store, rows):
        locked = sqlite3.connect(path, isolation_level=None)
        locked.execute("BEGIN EXCLUSIVE")
        check(ended(store, "import", "subscribers", "9", data=PEOPLE) == (11, ""), "an import into a store that is locked")
        locked.close()
        check(rows() == EARLIER, "and it stays")


def main():
    if may_be_alone():
        alone(booting, 60, "modems boot at two hubs")
    else:
        print("modems at two hubs: skipped, since `unshare -rn` gives no network of its own here")
    for kind in KINDS:
        starts(kind)
        kills(kind)
        imports(kind)
    if shutil.which("cc"):
        with tempfile.TemporaryDirectory() as name:
            refuser = Refuser(name)
            for kind in KINDS:
                for job in JOBS:
                    without_memory(kind, refuser, job)
    else:
        print("starts and imports without memory: skipped, since there is no cc here")


if __name__ == "__main__":
    sys.exit(script(main, booting))
