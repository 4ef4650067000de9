#!/usr/bin/env python3
"""Each growth of memory refused once, over the whole of officed: the opening, the time, DHCP, TFTP, clerks, imports, the drill, `seal` and `check`.

    python3 tests/bench/refuse_memory.py [STEP]

A library that is loaded before the C library's own refuses the growth of a number that is said (that of tests/acceptance/files_without_memory.py). Each event comes
over and over, each time with its next growth refused, until none of its growths is left. A refused one says `memory` or nothing, is answered by nothing, by 503 or
by the end of its connection, and leaves all as it was: at last the event is answered as the models of tests/examples say, which heard of it once, and a row that a
clerk put is the last one that was acknowledged. A start, an import, a drill, `seal` and `check` end as ever, or with status 6, 10 or 11 and no row more.

The numbers of a whole run's growths are shared out among as many workers as there are processors, each with a network and a store of its own. With STEP it's each
STEPth of them that is refused, for where there isn't time for all; of an event's growths each one is refused all the same.

Printed are how many growths each had, and which said `memory`. It judges: its status is 1 where something was not as it was. It wants the proved program, `cc`,
sqlite3 of Python and `unshare -rn`; over an unproved program, whose sanitizer has memory of its own, no growth is refused.
"""
import collections
import concurrent.futures
import contextlib
import json
import os
import sqlite3
import subprocess
import sys
import tempfile
import time

HERE = os.path.dirname(os.path.abspath(__file__))
sys.path.insert(0, os.path.join(HERE, "..", "acceptance"))
import files_over_sockets as files  # noqa: E402
import files_without_memory as without  # noqa: E402
from harness import PROGRAM, check, failures, is_skipped, modems as office, run_alone, script, serve  # noqa: E402
from harness.network import port_of, took  # noqa: E402
from harness.told import SECRET  # noqa: E402

import leases  # noqa: E402
import tftp  # noqa: E402
from examples import ip, sealed  # noqa: E402
from messages import RELAYED_DISCOVER  # noqa: E402

# A first start over SQLite's format has some 20,000 growths.
MOST, MOST_OF_RUNS, PATIENCE = 4000, 60_000, 3
FLOWS = tftp.spelled_tree([(3, b"\1"), *tftp.tree_in(files.GOLD), (18, b"\2")]) + b"\xff"


class Counted:
    """How the tries of each kind of event ended."""

    def __init__(self):
        self.ends = collections.defaultdict(collections.Counter)

    def note(self, kind, how):
        self.ends[kind][how] += 1

    def show(self):
        for kind, ends in self.ends.items():
            growths = sum(count for how, count in ends.items() if how != "done")
            print(f"  {kind}: {growths} growths; " + ", ".join(f"{how} {count}" for how, count in sorted(ends.items())))


class Trial(without.Trial):
    """Datagrams and requests, each with every growth refused in turn."""

    def __init__(self, talk, refuser, log, counted):
        super().__init__(talk, refuser, log)
        self.noted = counted

    def datagram(self, kind, service, send, word, hears):
        """Sends it until no growth is left; `hears` gives what came, None where nothing is to come."""
        for number in range(1, MOST):
            before, began = len(self.words(service)), time.time()
            self.refuser.refuses(number)
            send()
            while time.time() < began + PATIENCE and not self.words(service)[before:] and not (self.refuser.is_done() and time.time() > began + 0.3):
                time.sleep(0.002)
            said, was_refused = self.words(service)[before:], self.refuser.is_done()
            self.refuser.refuses(0)
            if said == [word]:
                came = hears()
                self.noted.note(kind, "done")
                return came
            check(was_refused and said in ([], ["memory"]), f"{kind}, growth {number}: {said}")
            self.noted.note(kind, "memory" if said else "dropped")
            if failures:
                return None
        check(False, f"{kind}: no end of growths")
        return None

    def clerk(self, kind, asked, shown):
        """Puts rows, each another, until no growth is left: `asked` gives the request of a number, and `shown` how it's looked up and what is found where it was
        done. What isn't answered by 200 or not at all isn't there."""
        for number in range(1, MOST):
            path, body = asked(number)
            self.refuser.refuses(number)
            answer = office.clerk.ask("PUT", path, body)
            was_refused = self.refuser.is_done()
            self.refuser.refuses(0)
            where, wanted = shown(number)
            found = office.clerk.ask("GET", where)
            check(answer.status in (200, 503, None), f"{kind}, growth {number}: {answer}")
            is_there = found.status == 200 and wanted in found.text
            check(is_there or answer.status != 200, f"{kind}, growth {number}: what was acknowledged is there: {found}")
            check(not is_there or answer.status != 503, f"{kind}, growth {number}: what was refused isn't there: {found}")
            if not was_refused:
                check(answer.status == 200, f"{kind}: with all growths it is done: {answer}")
                self.noted.note(kind, "done")
                return
            self.noted.note(kind, {200: "done all the same", 503: "503"}.get(answer.status, "closed"))
            if failures:
                return
        check(False, f"{kind}: no end of growths")


def events(refuser, counted, folder):
    path = os.path.join(folder, "log")
    with open(path, "wb") as log, office.running(log, refuser.environment()) as program:
        files.furnish()
        talk = files.Talk()
        trial = Trial(talk, refuser, path, counted)
        question = port_of("10.64.200.9", 1024)
        trial.datagram("a question for the time", "time", lambda: question.sendto(b"", (office.SERVER, office.PORTS[1])), "sent",
                       lambda: check(len((took(question) or (b"",))[0]) == 4, "the time is told"))
        question.close()
        modem, number = office.modem(2), 2
        given = ""
        for kind, message, word in (("a DISCOVER", lambda: leases.discover(**modem), "offer"), ("a REQUEST", lambda: leases.selects(given, server=office.SERVER, **modem), "ack"),
                                    ("a renewal", lambda: leases.reboots(given, **modem), "ack"), ("a NAK", lambda: leases.selects("10.64.200.1", server=office.SERVER, **modem), "not-your-address"),
                                    ("a DISCOVER of a stranger", lambda: RELAYED_DISCOVER, "unknown-modem")):
            data = message()
            said, reply = talk.model.take(int(time.time()), data)
            check(said == word, f"{kind}: the model says {said}")
            came = trial.datagram(kind, "dhcp", lambda data=data: talk.relay.sendto(data, (office.SERVER, office.PORTS[0])), word,
                                  lambda reply=reply, kind=kind: talk.hears(reply, kind) if reply else None)
            given = ip(int.from_bytes(came["address"], "big")) if kind == "a DISCOVER" and came else given
        at, name = (given, files.CLIENT), leases.name_of(SECRET, leases.mac(number), leases.address(given))
        for packet in (tftp.request(name, (b"blksize", b"44")), tftp.acknowledgement(0), tftp.acknowledgement(1), tftp.request(b"x"), tftp.error(0, "enough")):
            trial.goes(at, packet)
        for word, ends in trial.counted.items():
            counted.ends[f"TFTP {word}"].update(ends)
        trial.clerk("PUT of a subscriber", lambda n: (f"/subscribers/{n + 5000}", {"active": True, "cpes": 2, "name": f"S{n}"}),
                    lambda n: (f"/subscribers/{n + 5000}", f'"S{n}"'.encode()))
        classes = [{"name": f"C{n}", "settings": office.GOLD} for n in range(MOST)]
        trial.clerk("PUT of a class", lambda n: (f"/classes/{n % 900 + 10}", classes[n]), lambda n: (f"/classes/{n % 900 + 10}", f'"C{n}"'.encode()))
        trial.clerk("an import of two rows", lambda n: (f"/imports/subscribers/{n}", f"subscriber,active,cpes,name\n{n + 20000},yes,2,S{n}\n{n + 30000},no,3,S{n}\n".encode()),
                    lambda n: (f"/subscribers/{n + 30000}", f'"S{n}"'.encode()))
        check(program.poll() is None, "the office goes on")


def rows_of(store):
    with contextlib.closing(sqlite3.connect(store)) as conn:
        return dict(conn.execute("SELECT ident, val FROM office"))


def runs(refuser, counted, folder, numbers):
    """A start over a file, `import`, `drill`, `seal` and `check`, each growth of these numbers of the whole run refused in turn."""
    store = os.path.join(folder, "office.db")
    sealed_file = sealed(FLOWS, b"secret")
    words = {
        "a start over a file": (serve(store, ports=office.PORTS)[1:], b"", (0, 6, 10, 11)),
        "a drill of two modems": (["drill", "2"], b"", (0, 6)),
        "seal": (["seal", b"secret".hex()], FLOWS, (0, 6)),
        "check": (["check", b"secret".hex()], sealed_file, (0, 6)),
    }
    ran(refuser, counted, "a first start", words["a start over a file"], store, numbers)
    for number in range(20):
        ran_once(refuser, 0, ["import", "--store", store, "subscribers", str(number + 100_000)], f"subscriber,active,cpes,name\n{number},yes,2,Ann\n".encode())
    kept = rows_of(store)
    for kind, run in words.items():
        ran(refuser, counted, kind, run, store, numbers)
        check(rows_of(store) == kept, f"{kind}: the rows are as before")
    for number in numbers:
        before = rows_of(store)
        status, was_refused = ran_once(refuser, number, ["import", "--store", store, "subscribers", str(number)], f"subscriber,active,cpes,name\n{number + 50},yes,2,B{number}\n".encode())
        after = rows_of(store)
        check(status in (0, 6, 11) and (after == before) == (status != 0), f"import, growth {number}: status {status}, {len(after) - len(before)} rows more")
        counted.note("import", "done" if status == 0 else f"status {status}")
        if not was_refused or failures:
            break


def ran_once(refuser, number, words, data):
    refuser.refuses(number)
    done = subprocess.run([PROGRAM, *words], input=data, stdout=subprocess.PIPE, stderr=subprocess.DEVNULL, env={**os.environ, **refuser.environment(), "OFFICED_UDP": office.SERVER}, timeout=300)
    was_refused = number > 0 and refuser.is_done()
    refuser.refuses(0)
    check(done.returncode != 6 or b"memory refused\n" in done.stdout, f"{words[0]}: status 6 has its line: {done.stdout[-100:]}")
    return done.returncode, was_refused


def ran(refuser, counted, kind, run, store, numbers):
    words, data, statuses = run
    for number in numbers:
        if kind == "a first start":
            for name in (store, store + "-wal"):
                with contextlib.suppress(FileNotFoundError):
                    os.remove(name)
        status, was_refused = ran_once(refuser, number, words, data)
        check(status in statuses, f"{kind}, growth {number}: status {status}")
        counted.note(kind, "done" if status == 0 else f"status {status}")
        if not was_refused or failures:
            check(status == 0, f"{kind}: with all growths it ends well")
            return
    check(False, f"{kind}: no end of growths")


def refusing(place, workers, told, step):
    """What one of the workers tries; the first one tries the events besides. `told` is the file that has its counts afterwards."""
    office.addresses_of_lo()
    counted = Counted()
    with tempfile.TemporaryDirectory() as folder:
        refuser = without.Refuser(folder)
        if place == "0":
            events(refuser, counted, folder)
        runs(refuser, counted, folder, range(int(step) * int(place) + 1, MOST_OF_RUNS, int(step) * int(workers)))
    with open(told, "w", encoding="utf-8") as file:
        json.dump(counted.ends, file)


def main():
    if is_skipped():
        return 0
    workers, counted, step = os.cpu_count(), Counted(), (*sys.argv[1:], "1")[0]
    with tempfile.TemporaryDirectory() as folder:
        tellings = [os.path.join(folder, str(place)) for place in range(workers)]
        with concurrent.futures.ThreadPoolExecutor(workers) as pool:
            statuses = list(pool.map(lambda place: run_alone("refusing", str(place), str(workers), tellings[place], step), range(workers)))
        for place, told in enumerate(tellings):
            check(statuses[place] == 0, f"worker {place} ended with status {statuses[place]}")
            if os.path.exists(told):
                with open(told, encoding="utf-8") as file:
                    for kind, ends in json.load(file).items():
                        counted.ends[kind].update(ends)
    counted.show()
    return None


if __name__ == "__main__":
    sys.exit(script(main, refusing))
