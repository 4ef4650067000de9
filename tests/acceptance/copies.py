#!/usr/bin/env python3
"""bin/office-copy copies a store while it is written to, and the office goes on whatever happens.

A writer of this script stands for the office: it keeps the file locked and commits row after row.
Each of forty copies has every row that was told before the copy was asked for. The writer goes on
where the copying program is killed, ended by a signal, or is too slow. A store that another name
leads to is copied with its log; office-sql reads it too. What is refused is refused by its status.
Where the program is built, it is copied in a stream of changes, opens each copy, and an office over
the last one has all that was answered. It ends what it started, and takes some seconds.
"""
import contextlib
import os
import signal
import sqlite3
import subprocess
import sys
import tempfile
import time

from harness import PROGRAM, ROOT, check, script

COPY, READER = (os.path.join(ROOT, "bin", name) for name in ("office-copy", "office-sql"))
COPIES, LIVE_COPIES = 40, 20
# Keeps the file as an office does, the latest rows in the log; tells each row after its commit.
WRITER = """
import sqlite3, sys
held = sqlite3.connect(sys.argv[1], isolation_level=None)
for text in ("PRAGMA locking_mode = EXCLUSIVE", "PRAGMA journal_mode = WAL",
             "CREATE TABLE office (ident BLOB PRIMARY KEY NOT NULL, val BLOB NOT NULL) STRICT"):
    held.execute(text)
for number in range(1_000_000_000):
    row = bytes([2]) + number.to_bytes(4, "big"), b"\\1\\2" + bytes([60]) + b"x" * 60
    held.execute("INSERT INTO office VALUES (?, ?)", row)
    sys.stdout.write(f"{number}\\n")
    sys.stdout.flush()
"""
# Stops a process by the calls of office-copy, and comes to an end of some kind meanwhile.
STOPPER = """
import importlib.machinery, importlib.util, os, signal, sys, time
loader = importlib.machinery.SourceFileLoader("office_copy", sys.argv[1])
copy = importlib.util.module_from_spec(importlib.util.spec_from_loader(loader.name, loader))
loader.exec_module(copy)
signal.signal(signal.SIGTERM, copy.ends)
with copy.stopped(int(sys.argv[2]), float(sys.argv[4])) as stands:
    print(stands(), flush=True)
    if sys.argv[3] == "slow":
        time.sleep(1)
        print(stands(), flush=True)
    else:
        os.kill(os.getpid(), int(sys.argv[3]))
"""


class Writer:
    """A program that writes into a store, and what it told."""

    def __init__(self, store, told):
        self.told = told
        with open(told, "wb") as lines:
            self.program = subprocess.Popen([sys.executable, "-c", WRITER, store], stdout=lines)

    def __enter__(self):
        end = time.monotonic() + 20
        while self.rows() < 100 and time.monotonic() < end:
            time.sleep(0.02)
        check(self.rows() >= 100, "the writer writes")
        return self

    def __exit__(self, *_):
        self.program.kill()
        self.program.wait()

    def rows(self):
        """How many rows were told."""
        with open(self.told, "rb") as held:
            return held.read().count(b"\n")

    def goes_on(self, what):
        """Within a second more rows come."""
        before, end = self.rows(), time.monotonic() + 5
        while self.rows() == before and time.monotonic() < end:
            time.sleep(0.01)
        check(self.rows() > before, f"{what}: the writer goes on")


def run(*words):
    done = subprocess.run(words, timeout=120, stdout=subprocess.PIPE, stderr=subprocess.PIPE)
    return done.returncode, done.stdout.decode(), done.stderr.decode()


def subscribers(path):
    """The numbers of the subscribers of a file that nobody has open."""
    with contextlib.closing(sqlite3.connect(f"file:{path}?immutable=1", uri=True)) as held:
        found = held.execute("SELECT ident FROM office WHERE ident >= x'02' AND ident < x'03'")
        return {int.from_bytes(ident[1:], "big") for ident, in found}


def while_written(folder, writer, store):
    out, stood = os.path.join(folder, "copy.db"), []
    for turn in range(COPIES):
        before = writer.rows()
        status, said, wrong = run(COPY, *(["--pid", str(writer.program.pid)] * (turn % 2)), store,
                                  out)
        check(status == 0, f"copy {turn}: {status} {said} {wrong}")
        found = subscribers(out)
        check(found == set(range(len(found))) and before <= len(found) <= writer.rows() + 1,
              f"copy {turn} has {len(found)} rows, of {before} before it")
        check(not os.path.exists(out + "-wal"), "a copy has no log")
        stood.append(int(said.rsplit(" ms", 1)[0].rsplit(" ", 1)[1]))
    check(os.stat(out).st_mode & 0o077 == 0, "a copy is its owner's alone")
    writer.goes_on("after copies")
    print(f"{COPIES} copies, for which the writer stood {min(stood)} to {max(stood)} ms")


def whatever_happens(writer):
    """The program that stopped the writer is killed, ended, or too slow."""
    for how, most, last in ((str(int(signal.SIGKILL)), "5", ""), ("slow", "0.3", "False\n"),
                            (str(int(signal.SIGTERM)), "5", "")):
        words = [sys.executable, "-c", STOPPER, COPY, str(writer.program.pid), how, most]
        _, said, _ = run(*words)
        check(said == "True\n" + last, f"{how}: it stood, then {said!r}")
        writer.goes_on(f"an end by {how}")


def by_another_name(folder, store):
    """A store in use by a link, and one whose latest rows stand in its log alone."""
    link = os.path.join(folder, "link.db")
    os.symlink(store, link)
    out = os.path.join(folder, "linked.db")
    status, said, wrong = run(COPY, link, out)
    check(status == 0 and len(subscribers(out)) >= 100, f"by a link: {status} {said} {wrong}")
    status, said, wrong = run(READER, link, "batches")
    check((status, said) == (3, "") and "--live" in wrong, f"a store in use: {status} {wrong}")
    status, said, wrong = run(READER, "--live", link, "batches")
    check((status, said) == (0, "batch  kind  rows  digest\n"), f"--live: {status} {wrong}")


def left_by_a_kill(folder, store):
    """The writer was killed: the log has the latest rows, and a link leads to the file alone."""
    check(os.path.getsize(store + "-wal") > 0, "the log has rows")
    link, out = os.path.join(folder, "link.db"), os.path.join(folder, "left.db")
    status, said, wrong = run(COPY, link, out)
    check(status == 0 and "no office had it open" in said, f"left: {status} {said} {wrong}")
    count = len(subscribers(out))
    last = (count - 1).to_bytes(4, "big").hex()
    status, said, wrong = run(READER, link, "modems", str(int(last, 16)))
    check((status, len(said.splitlines())) == (0, 1), f"the latest row by a link: {status} {wrong}")
    status, _, wrong = run(READER, link, "modems", str(count))
    check(status == 1, f"a row that isn't there: {status} {wrong}")


def refusals(folder, store, writer):
    out, other, journal = (os.path.join(folder, name)
                           for name in ("refused.db", "other.db", "a.journal"))
    with open(journal, "wb") as held:
        held.write(b"\1" + bytes(40))
    for words, expected in (
            ((store, store), 2), ((os.path.join(folder, "none"), out), 2), ((store, folder), 2),
            (("journal:" + store, out), 2), ((journal, out), 2),
            ((store, os.path.join(folder, "none", "out.db")), 2),
            (("--pid", str(os.getpid()), store, out), 3), (("--pid", "4194999", store, out), 3),
            (("--program", "/bin/false", store, out), 1), (("--unit", "none", store, out), 3),
            (("--most", "0.0001", store, out), 3)):
        status, said, wrong = run(COPY, *words)
        check((status, said) == (expected, "") and wrong.startswith("office-copy: ")
              and wrong.count("\n") == 1, f"{words}: {status} {said} {wrong}")
    check(not os.path.exists(out), "what is refused leaves nothing")
    for name, text in ((other, b"no database, but a text"), (out + "-wal", b"a log")):
        with open(name, "wb") as held:
            held.write(text)
    check(run(COPY, other, os.path.join(folder, "text.db"))[0] == 1, "a text isn't whole")
    check(run(COPY, store, out)[0] == 2, "a copy that an office had open is left alone")
    check(not [name for name in os.listdir(folder) if name.startswith(".")], "nothing is left over")
    writer.goes_on("after what is refused")


def by_the_program():
    """An office is copied in a stream of changes; one over the last copy has what was answered."""
    from store import Serving, Stream, folder, subscriber
    with folder() as (name, path), contextlib.ExitStack() as ending:
        out, words = os.path.join(name, "copy.db"), ("--program", PROGRAM)
        office = ending.enter_context(Serving(path))
        stream = Stream(office, 0)
        stream.start()
        for turn in range(LIVE_COPIES):
            before = len(stream.done)
            status, said, wrong = run(COPY, *words, path, out)
            check(status == 0, f"copy {turn} of the program: {status} {said} {wrong}")
            found = subscribers(out)
            check(found == set(range(len(found))) and len(found) >= before,
                  f"copy {turn} of the program has {len(found)} rows, of {before} before it")
        office.kill()
        stream.join(timeout=60)
        print(f"{LIVE_COPIES} copies of the program, the last: {said.strip()}")
        with Serving(out) as other:
            for number in {0, before // 2, before - 1}:
                other.shows(f"/subscribers/{number}", subscriber(number), "over a copy")


def main():
    with tempfile.TemporaryDirectory() as folder:
        store = os.path.join(folder, "office.db")
        with Writer(store, os.path.join(folder, "told")) as writer:
            while_written(folder, writer, store)
            whatever_happens(writer)
            by_another_name(folder, store)
            refusals(folder, store, writer)
        left_by_a_kill(folder, store)
    if os.path.exists(PROGRAM):
        by_the_program()
    else:
        print("a store of the program: skipped, since officed isn't built")


if __name__ == "__main__":
    sys.exit(script(main, needs_program=False))
