#!/usr/bin/env python3
"""officed over a file: starts, kills and starts again, what it refuses, and what Python's sqlite3 finds in the file.

A new file is made; a clerk's changes and modems' leases are there behind a stop and behind a kill; in a stream of changes the office is killed,
20 times or as often as OFFICE_KILLS says, and each change that was acknowledged is there. What it makes is for its owner alone. Files that are refused: one that is open already, a text, a
folder, a locked one, one without the right to write, bad rows. `import` twice. A full disk, in a memory disk of its own. What needs a network or a
mount of its own is skipped by name where `unshare` isn't allowed. Rows are read back by the form that docs/OPERATING.md gives. It ends what it
started, and takes about a minute.
"""
import contextlib
import functools
import os
import random
import resource
import shutil
import struct
import subprocess
import sys
import tempfile
import threading
import time

# Before the modems, whose models have a module of this name too.
from imports import table
from harness import PROGRAM, ROOT, alone, check, free_ports, kill, may_be_alone, script, serve, start, stop
from harness.clerks import GOLD, Clerk, is_heard
from harness import modems
from harness.told import SECRET

try:
    import sqlite3
except ImportError:
    sqlite3 = None

sys.dont_write_bytecode = True
KILLS = int(os.environ.get("OFFICE_KILLS", "20"))
TABLE = "CREATE TABLE office (ident BLOB PRIMARY KEY NOT NULL, val BLOB NOT NULL) STRICT"
PATIENCE = 60
ROWS = 20_000


@contextlib.contextmanager
def folder():
    with tempfile.TemporaryDirectory() as name:
        yield name, os.path.join(name, "office.db")


def ended(store, *words, data=b"", limits=None):
    """The status and the lines of a run that ends by itself: of `import`, or of an office that takes no events."""
    words = [PROGRAM, words[0], "--store", store, *words[1:]] if words else serve(store)
    done = subprocess.run(words, input=data, stdout=subprocess.PIPE, stderr=subprocess.DEVNULL, timeout=PATIENCE, preexec_fn=limits)
    return done.returncode, done.stdout.decode()


class Serving(Clerk):
    """An office over a file, and a clerk of it."""

    def __init__(self, store):
        ports, self.store, self.log = free_ports(), store, tempfile.TemporaryFile()
        super().__init__(ports[3], PATIENCE)
        self.program = start(ports, 10**9, self.log, store=store)
        self.began = time.perf_counter()

    def __enter__(self):
        check(is_heard(self.port, seconds=PATIENCE, program=self.program), f"the office answers: {self.program.poll()}")
        return self

    def __exit__(self, *_):
        stop(self.program)
        self.log.close()

    def kill(self):
        kill(self.program)


def subscriber(number):
    return {"active": True, "cpes": 2, "name": f"Ann {number}"}


def rows_of(store):
    """All rows of a file that nobody has open."""
    with contextlib.closing(sqlite3.connect(store, timeout=0)) as conn:
        return dict(conn.execute("SELECT ident, val FROM office"))


def made_with(store, rows, text=TABLE):
    with contextlib.closing(sqlite3.connect(store)) as conn, conn:
        conn.execute(text)
        conn.executemany("INSERT INTO office VALUES (?, ?)", rows)


def new_file():
    with folder() as (_, store):
        check(ended(store) == (0, ""), "an office without turns makes a file")
        check(os.path.exists(store), "the file is there")
        with contextlib.closing(sqlite3.connect(store)) as conn:
            columns = conn.execute("SELECT name, type, \"notnull\" FROM pragma_table_info('office')").fetchall()
            check(columns == [("ident", "BLOB", 1), ("val", "BLOB", 1)], f"the table's columns: {columns}")
            check(conn.execute("PRAGMA integrity_check").fetchone() == ("ok",), "the file is sound")
        with Serving(store) as office:
            for path, body in CHANGES:
                office.puts(path, body)
            check(ended(store) == (11, ""), "a second office of the same file: status 11")
            check(ended(store, "import", "subscribers", "9", data=table("subscribers", [])) == (11, ""), "an import into it meanwhile: status 11")
            with contextlib.closing(sqlite3.connect(store, timeout=0)) as conn:
                check(raises(conn, "SELECT count(*) FROM office") == "database is locked", "sqlite3 finds the file locked")
        before = rows_of(store)
        check(len(before) == len(CHANGES), f"each change has a row: {len(before)}")
        check(before.get(b"\2" + struct.pack(">I", 7)) == b"\1\2\5Ann 7", "a subscriber's bytes")
        with Serving(store) as office:
            for path, body in CHANGES:
                office.shows(path, body, "behind a stop")
            office.removes("/modems/02aabbccddee")
            office.kill()
        with Serving(store) as office:
            check(office.ask("GET", "/modems/02aabbccddee").status == 404, "behind a kill a row that was removed isn't there")
            office.shows(*CHANGES[0], "behind a kill")
        check(len(rows_of(store)) == len(CHANGES) - 1, "and the file has the others")


CHANGES = [("/site", {"server": "10.0.0.2", "secret": SECRET.hex(), "offset": -18000, "lease": 3600, "log": "0.0.0.0"}),
           ("/classes/1", {"name": "gold", "settings": GOLD}), ("/subscribers/7", subscriber(7)),
           ("/pools/1", {"first": "10.64.0.10", "last": "10.64.0.99", "prefix": 24, "router": "10.64.0.1", "relay": "10.64.0.1", "hub": 0}),
           ("/modems/02aabbccddee", {"subscriber": 7, "class": 1, "serial": "SN01"})]


def private():
    """What the office makes is for its owner alone, whatever the umask: the site's secret stands in it. The mode of a file that is there stays."""
    def modes(path):
        return {name: oct(os.stat(os.path.join(os.path.dirname(path), name)).st_mode & 0o777) for name in os.listdir(os.path.dirname(path))}

    for kind in ("", "journal:"):
        with folder() as (_, store):
            check(ended(kind + store, limits=lambda: os.umask(0))[0] == 0, f"{kind or 'a database'}: a new file")
            check(os.path.exists(store) and set(modes(store).values()) == {"0o600"}, f"{kind or 'a database'}: made for its owner alone, and not {modes(store)}")
            os.chmod(store, 0o640)
            check(ended(kind + store)[0] == 0 and modes(store)[os.path.basename(store)] == "0o640", f"{kind or 'a database'}: an owner's own mode stays")
    with folder() as (_, store), Serving(store) as office:
        office.puts("/subscribers/7", subscriber(7))
        check(len(modes(store)) == 2 and set(modes(store).values()) == {"0o600"}, f"the log beside a database is for its owner alone too: {modes(store)}")


def raises(conn, text):
    try:
        conn.execute(text)
    except sqlite3.Error as error:
        return str(error)
    return None


class Stream(threading.Thread):
    """PUTs one after another, until no answer comes; `done` are those that were acknowledged."""

    def __init__(self, office, first):
        super().__init__()
        self.office, self.number, self.done = office, first, []

    def run(self):
        while True:
            found = self.office.ask("PUT", f"/subscribers/{self.number}", subscriber(self.number))
            if found.status is None:
                return
            check(found.status == 200, f"a change of the stream: {found}")
            self.done.append(self.number)
            self.number += 1


def kills(kind="", rows=rows_of):
    """In a stream of changes the office is killed again and again."""
    done, more, slowest = 0, 0, 0.0
    with folder() as (_, store):
        for turn in range(KILLS):
            with Serving(kind + store) as office:
                slowest = max(slowest, time.perf_counter() - office.began)
                stream = Stream(office, done)
                stream.start()
                time.sleep(random.uniform(0.02, 0.6))
                office.kill()
                stream.join(timeout=PATIENCE)
                done += len(stream.done)
            with Serving(kind + store) as office:
                found = [number for number in (done, done + 1) if office.ask("GET", f"/subscribers/{number}").status == 200]
                check(found in ([], [done]), f"behind kill {turn} one change more than was acknowledged, or none: {found}")
                for number in range(max(0, done - 20), done):
                    office.shows(f"/subscribers/{number}", subscriber(number), f"behind kill {turn}")
                more += len(found)
                done += len(found)
                office.kill()
        check(ended(kind + store) == (0, ""), "behind the kills the tables are good")
        expected = {b"\2" + struct.pack(">I", number): b"\1\2" + bytes([len(f"Ann {number}")]) + f"Ann {number}".encode() for number in range(done)}
        check(rows(store) == expected, f"the file has the {done} changes and no other")
    print(f"{KILLS} kills in a stream of changes: {done} are there, {more} of which weren't acknowledged yet; the slowest start took {slowest:.2f} s")


def lacks_rights(store):
    """Whether a user without rights is told 11; None where there is no such user for us."""
    def give_up():
        os.setgid(65534)
        os.setuid(65534)
    with contextlib.suppress(PermissionError, subprocess.SubprocessError):
        if subprocess.run([PROGRAM], stdout=subprocess.DEVNULL, stderr=subprocess.DEVNULL, preexec_fn=give_up).returncode == 1:
            return ended(store, limits=give_up)
    return None


def refusals():
    held, lease = b"\x08\x02\xaa\xbb\xcc\xdd\xee", b"\x07\x0a\x40\x00\x0a"
    for what, rows, expected in (
            ("no rows", [], (0, "")),
            ("a good row", [(b"\2\0\0\0\7", b"\1\2\3Ann")], (0, "")),
            ("a row that isn't spelled so", [(held, b"\x0a")], (3, "keeper refused\n")),
            ("a row with a byte too many", [(held, b"\x0a\x40\0\x0a\0")], (3, "keeper refused\n")),
            ("a key of no kind", [(b"\x0e\0\0\0\7", b"")], (3, "keeper refused\n")),
            ("a hub of no bytes", [(b"\x0a\0\0\0\7", b"")], (3, "keeper refused\n")),
            ("a key of two bytes", [(b"\2\7", b"\1\2\3Ann")], (3, "keeper refused\n")),
            ("a key of no bytes", [(b"", b"")], (3, "keeper refused\n")),
            ("a key of ten bytes", [(bytes(10), b"")], (3, "keeper refused\n")),
            ("an address without its lease", [(held, b"\x0a\x40\0\x0a")], (2, "tables refused held 02aabbccddee\n")),
            ("a lease without its pool", [(lease, b"\3" + bytes(8))], (2, "tables refused lease 10.64.0.10\n"))):
        with folder() as (_, store):
            made_with(store, rows)
            found = ended(store)
            check(found == expected, f"{what}: {found}, not {expected}")
            check(rows_of(store) == dict(rows), f"{what}: the rows are as they were")
    with folder() as (name, store):
        check(ended(name) == (11, ""), "a folder: status 11")
        check(ended(os.path.join(name, "none", "office.db")) == (11, ""), "a file in no folder: status 11")
        with open(store, "w") as text:
            text.write("subscriber,active\n" * 1000)
        check(ended(store) == (11, ""), "a text: status 11")
        with open(store) as text:
            check(text.read() == "subscriber,active\n" * 1000, "and it is as it was")
        made_with(store + "2", [], "CREATE TABLE office (ident TEXT, val TEXT)")
        check(ended(store + "2") == (11, ""), "a table of another form: status 11")
        for number, added in enumerate(("CREATE INDEX more ON office (val)", "CREATE TABLE other (x)", "CREATE VIEW seen AS SELECT val FROM office", "ANALYZE")):
            other = f"{store}-added-{number}"
            made_with(other, [(b"\2\0\0\0\7", b"\1\2\3Ann")])
            with contextlib.closing(sqlite3.connect(other)) as conn:
                conn.execute(added)
                conn.commit()
            check(ended(other) == (11, ""), f"{added}: status 11")
            check(rows_of(other) == {b"\2\0\0\0\7": b"\1\2\3Ann"}, f"{added}: the row is as it was")
        made_with(store + "3", [])
        with contextlib.closing(sqlite3.connect(store + "3", isolation_level=None)) as conn:
            conn.execute("BEGIN IMMEDIATE")
            check(ended(store + "3") == (11, ""), "a file that is locked: status 11")
        os.chmod(store + "3", 0o444)
        os.chmod(name, 0o555)
        found = lacks_rights(store + "3") if os.getuid() == 0 else ended(store + "3")
        os.chmod(name, 0o755)
        if found is None:
            print("skipped a file without the right to write, since no other user may run the program here")
        check(found in (None, (11, "")), f"a file without the right to write: {found}")


WRITES_AND_DIES = """
import os, signal, sqlite3, sys
conn = sqlite3.connect(sys.argv[1], isolation_level=None)
conn.execute("PRAGMA cache_size=5")
conn.execute("BEGIN")
conn.executemany("INSERT INTO office VALUES (?, ?)", ((bytes([2]) + number.to_bytes(4, "big"), bytes([1, 2, 1, 65])) for number in range(1, 5000)))
os.kill(os.getpid(), signal.SIGKILL)
"""


def journal():
    """A writer by sqlite3 that was killed leaves a journal, which sqlite3 alone plays back."""
    with folder() as (_, store):
        made_with(store, [(b"\2\0\0\0\0", b"\1\2\3Ann")])
        subprocess.run([sys.executable, "-c", WRITES_AND_DIES, store])
        check(os.path.exists(store + "-journal"), "the writer leaves its journal")
        check(ended(store) == (11, ""), "a file with a journal: status 11")
        check(len(rows_of(store)) == 1, "sqlite3 plays it back")
        check(ended(store) == (0, ""), "and then the file is opened")


def imports(kind="", rows=rows_of):
    people = table("subscribers", [[str(number), "yes", "2", f"N {number}"] for number in range(1, 1001)])
    with folder() as (_, store):
        check(ended(kind + store, "import", "subscribers", "9", data=people) == (0, "rows 1000\n"), "an import makes a file and puts its rows")
        before = rows(store)
        check(len(before) == 1001, f"its rows and its batch are there: {len(before)}")
        check(before.get(b"\x09" + bytes(7) + b"\x09", b"")[-4:] == struct.pack(">I", 1000), "the batch keeps the number of rows")
        check(ended(kind + store, "import", "subscribers", "9", data=people) == (0, "rows 1000\n"), "the same again is answered by the number that was kept")
        check(rows(store) == before, "and changes nothing")
        check(ended(kind + store, "import", "subscribers", "9", data=people + b"2000,no,1,\n") == (9, "refused batch-differs 9\n"), "another one of the number")
        check(ended(kind + store, "import", "modems", "10", data=table("modems", [["02:00:00:00:00:01", "1", "1", ""]])) == (9, "refused no-class row 1\n"), "no class")
        check(rows(store) == before, "what is refused changes nothing")
        with Serving(kind + store) as office:
            office.shows("/subscribers/1000", {"active": True, "cpes": 2, "name": "N 1000"}, "an import is served")


def hungry():
    """With so little memory that a file can't be opened: status 6, and never 11."""
    if "OFFICE_UNPROVED" in os.environ:
        print("little memory: skipped, since a build without the proof has an allocator of its own")
        return
    found = {}
    with folder() as (_, store):
        made_with(store, [(b"\2" + struct.pack(">I", number), b"\1\2\3Ann") for number in range(ROWS)])
        for most in (1, 2, 4, 8, 16, 24, 32, 48, 64, 96, 128, 192):
            limits = functools.partial(resource.setrlimit, resource.RLIMIT_DATA, (most << 20, most << 20))
            if ended("memory", limits=limits) == (0, ""):
                found[most] = ended(store, limits=limits)
        check(ended(store) == (0, ""), "with memory it opens")
    check(all(each in ((0, ""), (6, "memory refused\n")) for each in found.values()), f"with so many MB: {found}")
    check((6, "memory refused\n") in found.values(), f"memory is refused where there is little: {found}")


def spoilt():
    """What the file gives back while the office runs is never read: the rows are in memory, and are served as they were."""
    for kind in ("", "journal:"):
        with folder() as (name, store):
            with Serving(kind + store) as office:
                for path, body in CHANGES:
                    office.puts(path, body)
            with Serving(kind + store) as office:
                for each in os.listdir(name):
                    with open(os.path.join(name, each), "r+b") as file:
                        file.write(bytes(os.fstat(file.fileno()).st_size))
                for path, body in CHANGES:
                    office.shows(path, body, f"{kind or 'a database'}, all of whose bytes became 0")
                office.kill()


def guide():
    """The queries of docs/OPERATING.md, in their order, over rows that a clerk put."""
    texts, text = [], None
    with open(os.path.join(ROOT, "docs", "OPERATING.md")) as lines:
        for line in lines:
            if line.startswith(("    SELECT", "    WITH")) and text is None:
                text = ""
            if text is not None:
                text += line
                if line.rstrip().endswith(";"):
                    texts.append(text)
                    text = None
    modem, others, ends = b"\2\xaa\xbb\xcc\xdd\xee", b"\2\xaa\xbb\xcc\xdd\xef", struct.pack(">Q", int(time.time()) + 1000)
    leases = [(b"\7\x0a\x40\0\x0a", b"\2" + modem + ends), (b"\x08" + modem, b"\x0a\x40\0\x0a"), (b"\7\x0a\x40\0\x0b", b"\2" + others + bytes(8)),
              (b"\x08" + others, b"\x0a\x40\0\x0b"), (b"\7\x0a\x40\0\x0c", b"\3" + ends)]
    with folder() as (_, store):
        with Serving(store) as office:
            for path, body in CHANGES:
                office.puts(path, body)
        check(ended(store, "import", "subscribers", "9", data=table("subscribers", [["8", "no", "1", ""]])) == (0, "rows 1\n"), "an import")
        with contextlib.closing(sqlite3.connect(store)) as conn, conn:
            conn.executemany("INSERT INTO office VALUES (?, ?)", leases)
            found = [conn.execute(text).fetchall() for text in texts]
        check(ended(store) == (0, ""), "the rows that the queries are tried on are good")
    free = [(f"10.64.0.{last}",) for last in (11, *range(13, 100))]
    check(len(found) == 4, f"the guide has {len(found)} queries")
    for each, expected in zip(found, ([("02aabbccddee", "SN01")], [("0A40000A", "02", ends.hex().upper())], free)):
        check(each == expected, f"a query of the guide gives {each}, and not {expected}")
    check([(row[0], row[1], row[3]) for row in found[-1]] == [("0000000000000009", "subscribers", "00000001")], f"the imports: {found[-1]}")


def full_disk(kind="", size="2m"):
    """In a small memory disk: a change that finds no room is answered 500 and leaves the tables; once there is room, changes are done again."""
    with folder() as (name, _):
        subprocess.run(["mount", "-t", "tmpfs", "-o", f"size={size}", "tmpfs", name], check=True)
        try:
            taken = fills(name, kind)
            print(f"a disk of {size} took {taken} changes")
        finally:
            subprocess.run(["umount", "-l", name], check=True)


def fills(name, kind):
    done, body = [], {"active": True, "cpes": 2, "name": "x" * 60}
    with Serving(kind + os.path.join(name, "office.db")) as office:
        for number in range(20_000):
            found = office.ask("PUT", f"/subscribers/{number}", body)
            if found.status != 200:
                break
            done.append(number)
        check(found.status == 500, f"a change that finds no room: {found}")
        check(office.program.poll() is None, "the office goes on")
        check(len(done) > 10, f"the disk took {len(done)} changes")
        office.shows("/subscribers/0", body, "on a full disk")
        subprocess.run(["mount", "-o", "remount,size=16m", name], check=True)
        found = office.ask("PUT", f"/subscribers/{len(done)}", body)
        check(found.status == 200, f"a change behind more room: {found}")
        done.append(len(done))
        office.kill()
    with tempfile.TemporaryDirectory() as other:
        for each in os.listdir(name):
            shutil.copy(os.path.join(name, each), other)
        with Serving(kind + os.path.join(other, "office.db")) as office:
            for number in done[:1] + done[len(done) // 2:][:1] + done[-1:]:
                check(office.row(f"/subscribers/{number}") is not None, f"behind a full disk subscriber {number} is there")
    return len(done)


def booting(kind="", rows=rows_of):
    """Modems boot, the office is killed, and then stopped, and starts again each time, and they renew: in a network of its own."""
    modems.addresses_of_lo()
    with folder() as (_, store), tempfile.TemporaryFile() as log:
        with modems.running(log, store=kind + store) as program:
            modems.furnish()
            talk = modems.Conversation()
            modems.boot(talk)
            kill(program)
        with modems.running(log, store=kind + store):
            all_renew(talk)
        with modems.running(log, store=kind + store):
            all_renew(talk)
            modems.live(talk)
            modems.read_back(talk)
        kinds = [ident[0] for ident in rows(store)]
        leased = len(talk.model.leases)
        check((kinds.count(4), kinds.count(7)) == (modems.MODEMS + 1, leased), f"the file has {leased} leases: {kinds.count(7)}")


def all_renew(talk):
    """Each modem has its address still, and renews it."""
    modems.read_back(talk)
    for number in range(modems.MODEMS):
        held = modems.ip(modems.FIRST + number)
        renewed = talk.asks(modems.leases.renews(held, **modems.modem(number)), f"renewal {number}")
        check(renewed is not None, f"modem {number} renews")


def in_its_own(part, flags):
    """Runs a part of a script where `unshare` gives it what it needs."""
    what = part.__name__
    if may_be_alone(flags):
        alone(part, 20 * PATIENCE, what, flags)
    else:
        print(f"skipped {what}, since `unshare {flags}` isn't allowed here")


def main():
    # A table that is STRICT came with SQLite 3.37.
    if sqlite3 is None or sqlite3.sqlite_version_info < (3, 37):
        print("skipped, since this Python's sqlite3 is missing or too old")
        return 0
    for each in (new_file, private, kills, refusals, journal, imports, hungry, spoilt, guide):
        each()
    in_its_own(booting, "-rn")
    in_its_own(full_disk, "-rm")
    return None


if __name__ == "__main__":
    sys.exit(script(main, booting, full_disk))
