#!/usr/bin/env python3
"""bin/office-sql compacts a journal in its place while its office runs, and is killed meanwhile.

A writer of this script is the office: it has the journal locked, appends record after record as an
office does, and notes each. Compacted, the journal is smaller, has each row that was noted, and the
writer goes on over it. Then the helper is killed 50 times, or as often as OFFICE_KILLS says, at
random moments, half of them around the stop: each time the journal is whole, with each row that was
noted, and the writer runs again. What is refused leaves the writer as it is. The index of `who` has
what the compacted journal hasn't. If officed is built, it is compacted in a stream of changes, and
is off for less than three seconds. It takes about a minute, or
three on a busy machine.
"""
import contextlib
import fcntl
import glob
import os
import random
import signal
import socket
import subprocess
import sys
import tempfile
import threading
import time

from harness import PROGRAM, ROOT, check, free_ports, listed, script
from harness.clerks import Clerk, is_heard
from journal_kills import journal_of, rows_of
from store import folder, subscriber
import who_had

READER = os.path.join(ROOT, "bin", "office-sql")
KILLS = int(os.environ.get("OFFICE_KILLS", "50"))
ROWS, TIMES, PATIENCE = 2000, 20, 60
# Locks the journal, and appends rows; the gate is opened when the record is there.
WRITER = """
import fcntl, os, struct, sys, time
path, notes = sys.argv[1:]
file = open(path, "r+b", buffering=0)
try:
    fcntl.flock(file, fcntl.LOCK_EX | fcntl.LOCK_NB)
except BlockingIOError:
    sys.exit(11)
with open(notes + ".pid", "w") as pid:
    pid.write(str(os.getpid()))
data, gate, keys = file.read(), 0, set()
while data[gate] == 1:
    end = gate + 5 + int.from_bytes(data[gate + 1:gate + 5], "big")
    at = gate + 5
    while at < end:
        keys.add(data[at + 2:at + 7])
        at += 11 + int.from_bytes(data[at + 7:at + 11], "big")
    gate = end
lines = os.open(notes, os.O_WRONLY | os.O_APPEND | os.O_CREAT)
for number in range(len(keys), 1 << 31):
    payload = b"\\1\\5\\2" + struct.pack(">I", number) + struct.pack(">I", 6) + b"\\1\\2\\3Ann"
    os.pwrite(file.fileno(), struct.pack(">I", len(payload)) + payload + b"\\0", gate + 1)
    os.pwrite(file.fileno(), b"\\1", gate)
    gate += 5 + len(payload)
    os.write(lines, b"!")
    time.sleep(0.005)
"""


class Writer:
    """An office that appends rows, and the commands that stop and start it."""

    def __init__(self, name):
        self.path, self.notes = os.path.join(name, "office.journal"), os.path.join(name, "notes")
        self.rows = [(b"\2" + number.to_bytes(4, "big"), b"\1\2\3Bob") for number in range(ROWS)]
        with open(self.path, "wb") as file:
            file.write(journal_of(*([row] for _ in range(TIMES) for row in self.rows)) + bytes(9))
        os.chmod(self.path, 0o640)
        self.program, self.begun = os.path.join(name, "writer.py"), os.path.join(name, "stopping")
        with open(self.program, "w") as file:
            file.write(WRITER)
        run = f"setsid {sys.executable} {self.program} {self.path} {self.notes}"
        self.start = f"{run} </dev/null >/dev/null 2>&1 &"
        self.stop = f"touch {self.begun}; kill $(cat {self.notes}.pid)"

    def __enter__(self):
        subprocess.run(self.start, shell=True, check=True)
        self.goes_on("the writer begins")
        return self

    def __exit__(self, *_):
        with contextlib.suppress(ProcessLookupError):
            os.kill(self.pid(), signal.SIGKILL)

    def pid(self):
        with open(self.notes + ".pid") as file:
            return int(file.read())

    def blocked(self):
        """The signals that don't reach the writer, as the system has them."""
        with open(f"/proc/{self.pid()}/status") as file:
            return next(line.split()[1] for line in file if line.startswith("SigBlk"))

    def noted(self):
        return os.path.getsize(self.notes) if os.path.exists(self.notes) else 0

    def goes_on(self, what):
        before, end = self.noted(), time.monotonic() + PATIENCE
        while self.noted() < before + 3 and time.monotonic() < end:
            time.sleep(0.01)
        check(self.noted() >= before + 3, f"{what}: the writer writes")

    def is_whole(self, what):
        """Each row that was noted is in the journal, and none between is missing."""
        noted = self.noted()
        rows = rows_of(self.path)
        check(len(rows) >= ROWS + noted, f"{what}: {len(rows)} rows, of {ROWS + noted}")
        numbers = {int.from_bytes(key[1:], "big") for key in rows}
        check(numbers == set(range(len(rows))), f"{what}: no row is missing")

    @contextlib.contextmanager
    def no_compaction(self):
        """No compaction is done meanwhile; one that was killed has left nothing to do."""
        held = os.open(os.path.dirname(self.path), os.O_RDONLY)
        fcntl.flock(held, fcntl.LOCK_EX)
        try:
            yield
        finally:
            os.close(held)

    def words(self, *more):
        return [sys.executable, READER, "journal:" + self.path, "compact", "--live", "--csv",
                "--stop", self.stop, "--start", self.start, *more]

    def old_ones(self):
        return glob.glob(self.path + ".before-*")


def ended(words):
    done = subprocess.run(words, stdout=subprocess.PIPE, stderr=subprocess.PIPE, timeout=PATIENCE)
    return done.returncode, done.stdout.decode(), done.stderr.decode()


def compacted(writer):
    before = os.path.getsize(writer.path)
    status, said, wrong = ended(writer.words())
    check(status == 0, f"it's compacted: {status} {wrong}")
    values = said.splitlines()[-1].split(",")
    writer.goes_on("after a compaction")
    writer.is_whole("after a compaction")
    check(os.path.getsize(writer.path) < before / 2, "it's smaller")
    check(os.stat(writer.path).st_mode & 0o777 == 0o640, "its mode stays")
    check(os.stat(writer.path).st_nlink == 1, "it has one name")
    check(writer.old_ones() == [values[4]] and os.path.getsize(values[4]) >= before,
          f"the old one stays: {values}")
    check(set(rows_of(values[4])) <= set(rows_of(writer.path)), "and the new one has its rows")
    os.unlink(values[4])
    check(not os.path.exists(writer.path + ".compacting"), "nothing else is left")
    print(f"{values[0]} rows, {values[1]} bytes, then {values[2]}; off for {values[3]} s")


def refused(writer):
    """What ends without a compaction leaves the journal, and the writer runs."""
    inode = os.stat(writer.path).st_ino
    words = writer.words()
    for what, given, expected in (
            ("without commands", words[:6], 2), ("with one command", words[:-2], 2),
            ("a stop that fails", [*words, "--stop", "false"], 3),
            ("an office that doesn't end", [*words, "--stop", "true", "--most", "0.3"], 3)):
        status, _, wrong = ended(given)
        check(status == expected and wrong, f"{what}: {status} {wrong}")
        writer.goes_on(what)
    check(os.stat(writer.path).st_ino == inode and not writer.old_ones(), "the journal stays")
    with writer.no_compaction():
        check(ended(words)[0] == 3, "a second compaction at the same time: status 3")
    status, _, wrong = ended([*words, "--start", "false"])
    check(status == 3, f"a start that fails is told: {status} {wrong}")
    subprocess.run(writer.start, shell=True, check=True)
    writer.goes_on("started by hand")
    for each in writer.old_ones():
        os.unlink(each)


def killed(writer, seconds, is_near):
    """One kill: at a random moment, or around the stop."""
    with contextlib.suppress(FileNotFoundError):
        os.unlink(writer.begun)
    program = subprocess.Popen(writer.words(), stdout=subprocess.DEVNULL,
                               stderr=subprocess.DEVNULL)
    end = time.monotonic() + PATIENCE
    while is_near and not os.path.exists(writer.begun) and time.monotonic() < end:
        time.sleep(0.001)
    time.sleep(random.uniform(0, seconds / 4 if is_near else seconds))
    program.kill()
    program.wait(timeout=PATIENCE)
    return os.path.exists(writer.begun)


def kills(writer):
    began = time.monotonic()
    check(ended(writer.words())[0] == 0, "it's compacted once more")
    seconds, stops, swaps = time.monotonic() - began, 0, 0
    for turn in range(KILLS):
        inode = os.stat(writer.path).st_ino
        stops += killed(writer, seconds, turn % 2)
        what = f"kill {turn}"
        writer.is_whole(what)
        with writer.no_compaction():
            writer.goes_on(what)
        writer.is_whole(f"{what}, then")
        check(int(writer.blocked(), 16) == 0, f"{what}: signals reach the writer")
        swaps += os.stat(writer.path).st_ino != inode
        for each in writer.old_ones():
            os.unlink(each)
    status, _, wrong = ended(writer.words())
    check(status == 0, f"after the kills it's compacted: {wrong}")
    writer.is_whole("after the kills")
    print(f"{KILLS} kills: {stops} after the stop began, {swaps} after the new one was in place")


# ---- who had an address before

def trails():
    """The index has all of the old journal, whether it was there or is asked for; and then goes on
    over the compacted one."""
    model = who_had.at_random(9)
    for live in (True, False):
        with tempfile.TemporaryDirectory() as name:
            path, index = os.path.join(name, "office.journal"), os.path.join(name, "index")
            who_had.write(path, model.commits)
            words = ["--live"] if live else [path + "-new"]
            status, _, wrong = ended([sys.executable, READER, path, "compact", *words,
                                      "--keep-trail", index])
            check(status == 0, f"a journal that nobody has open: {status} {wrong}")
            check(rows_of(path if live else path + "-new") == rows_of(
                glob.glob(path + ".before-*")[0] if live else path), "all rows are in it")
            who_had.compared(path if live else path + "-new", model, "compacted", "--index", index)
    print("who had an address is known after a compaction")


# ---- the program

class Asking(threading.Thread):
    """Asks an office for the time, and keeps the longest moment without an answer."""

    def __init__(self, port):
        super().__init__(daemon=True)
        self.port, self.longest, self.is_done = port, 0, False

    def run(self):
        with socket.socket(socket.AF_INET, socket.SOCK_DGRAM) as client:
            client.settimeout(0.02)
            last = time.monotonic()
            while not self.is_done:
                with contextlib.suppress(OSError):
                    client.sendto(b"", ("127.0.0.1", self.port))
                    client.recv(64)
                    last = time.monotonic()
                self.longest = max(self.longest, time.monotonic() - last)
                time.sleep(0.005)


def by_the_program():
    with folder() as (name, _):
        path, ports = os.path.join(name, "office.journal"), free_ports()
        pid, log = os.path.join(name, "pid"), os.path.join(name, "log")
        start = (f"OFFICED_UDP=127.0.0.1 OFFICED_HTTP=127.0.0.1 setsid {PROGRAM} serve --store"
                 f" journal:{path} --ports {listed(ports)} --turns 1000000000 </dev/null >>{log}"
                 f" 2>&1 & echo $! >{pid}")
        subprocess.run(start, shell=True, check=True)
        try:
            streams(path, ports, ["--stop", f"kill $(cat {pid})", "--start", start])
        finally:
            with open(pid) as file:
                os.kill(int(file.read()), signal.SIGTERM)


def streams(path, ports, commands):
    """Rows are put while the journal is compacted; all that were answered are there then."""
    clerk, done = Clerk(ports[3], PATIENCE), 0
    check(is_heard(ports[3], seconds=PATIENCE), "the program answers")
    asking = Asking(ports[1])
    asking.start()
    words = [sys.executable, READER, path, "compact", "--live", "--csv", *commands]
    for turn in range(3):
        program = subprocess.Popen(words, stdout=subprocess.PIPE, stderr=subprocess.PIPE)
        end = time.monotonic() + PATIENCE
        while program.poll() is None and time.monotonic() < end:
            with contextlib.suppress(OSError):
                answer = clerk.ask("PUT", f"/subscribers/{done}", subscriber(done))
                done += answer.status in (200, 201, 204)
        said, wrong = program.communicate(timeout=PATIENCE)
        check(program.returncode == 0, f"compaction {turn} of the program: {wrong.decode()}")
        check(is_heard(ports[3], seconds=PATIENCE), f"it answers after compaction {turn}")
    asking.is_done = True
    asking.join()
    found = set(rows_of(path))
    check(done > 0 and all(b"\2" + each.to_bytes(4, "big") in found for each in range(done)),
          f"all of {done} rows that were answered are there: {len(found)}")
    check(asking.longest < 3, f"it didn't answer for {asking.longest:.2f} s")
    print(f"the program: {done} rows, no answer for {asking.longest:.2f} s at most;",
          said.decode().splitlines()[-1])


def main():
    with tempfile.TemporaryDirectory() as name, Writer(name) as writer:
        for each in (compacted, refused, kills):
            each(writer)
    trails()
    if os.path.exists(PROGRAM):
        by_the_program()
    else:
        print("the program: skipped, since officed isn't built")


if __name__ == "__main__":
    sys.exit(script(main, needs_program=False))
