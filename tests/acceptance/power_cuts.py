#!/usr/bin/env python3
"""The power is cut in streams of changes, over a journal and over a file of SQLite's format; nothing that was acknowledged is lost.

    python3 tests/acceptance/power_cuts.py [CUTS [STORE]]

The file lies on a disk of harness/cut_disk.py: what was written and not synced is dropped or torn when the power is cut. Each time the office is killed in a
stream of changes, the power is cut, and the office starts again: each change that was acknowledged is there, and of the one that was asked for and not
acknowledged all or nothing. First the disk itself is tried: what isn't synced doesn't outlive a cut, and over a disk that answers syncs and doesn't do them the
office loses changes. Then, over a journal, the disk refuses writes while the office runs, and a sync. By itself it cuts 10 times over each store, or as often as the first argument says, over a journal (`journal:`), a file (`sqlite:`) or
both. It is skipped where FUSE can't be mounted. It ends what it started, and takes some seconds for 10 cuts.
"""
import os
import random
import sys
import tempfile
import time

import store
from store import Serving, Stream, ended, subscriber
from harness import check, failures, may_be_alone, run_alone, script, status
from harness.cut_disk import FSYNC, WRITE, CutDisk

sys.dont_write_bytecode = True
CUTS, A_FILE = 10, 25


def disk_itself():
    """What a disk of this kind keeps, and what it doesn't."""
    lost = 0
    with tempfile.TemporaryDirectory() as name, CutDisk(name, 1) as disk:
        path = os.path.join(name, "a")
        for turn in range(200):
            with open(path, "wb", buffering=0) as file:
                file.write(b"synced" * 100)
                os.fsync(file.fileno())
                folder = os.open(name, os.O_RDONLY)
                os.fsync(folder)
                os.close(folder)
                os.pwrite(file.fileno(), b"later!" * 50, 300)
                os.pwrite(file.fileno(), b"longer", 600)
                with open(path, "rb") as read:
                    check(read.read() == b"synced" * 50 + b"later!" * 50 + b"longer", "until a cut a read gives what was written")
            disk.cut()
            with open(path, "rb") as file:
                found = file.read()
            check(found[:300] == b"synced" * 50, f"what was synced is there: {found[:300]}")
            check(600 <= len(found) <= 606, f"it's as long as by some of the writes: {len(found)}")
            lost += found[300:] != b"later!" * 50 + b"longer"
            disk.names.clear()
    check(lost > 100, f"what wasn't synced is lost or torn, mostly: {lost} of 200")


def is_there(office, number):
    return office.row(f"/subscribers/{number}") is not None


def over_a_lie(kind):
    """What the cuts would show of an office that doesn't sync: changes are lost."""
    for seed in range(5):
        with tempfile.TemporaryDirectory() as name, CutDisk(name, seed) as disk:
            path = kind + os.path.join(name, "office.store")
            with Serving(path) as office:
                office.puts("/subscribers/0", subscriber(0))
                disk.lies = True
                for number in range(1, 10):
                    office.puts(f"/subscribers/{number}", subscriber(number))
                office.kill()
            disk.lies = False
            disk.cut()
            if ended(path) != (0, ""):
                return
            with Serving(path) as office:
                if not all(is_there(office, number) for number in range(10)):
                    return
    check(False, f"{kind}: over a disk that doesn't sync something is lost")


def refused():
    """A disk that takes no more writes, and one that doesn't sync, while the office runs over a journal."""
    with tempfile.TemporaryDirectory() as name, CutDisk(name, 2) as disk:
        path, done = "journal:" + os.path.join(name, "office.journal"), []

        def changes(office, expected, what):
            number = len(done)
            found = office.ask("PUT", f"/subscribers/{number}", subscriber(number))
            check(found.status == expected, f"{what}: {found}, not {expected}")
            if expected == 200:
                done.append(number)
            else:
                check(not is_there(office, number), f"{what}: the tables are as before")
            check(all(is_there(office, number) for number in done), f"{what}: what was done is there")

        with Serving(path) as office:
            changes(office, 200, "a change")
            disk.refuses = (WRITE,)
            changes(office, 500, "a change whose write is refused")
            disk.refuses = ()
            changes(office, 200, "a change behind it")
            disk.refuses = (FSYNC,)
            changes(office, 500, "a change whose sync fails")
            disk.refuses = ()
            changes(office, 500, "a change behind a sync that failed")
            office.kill()
        with Serving(path) as office:
            # A change that was refused may be there.
            done += [number for number in (len(done),) if is_there(office, number)]
            changes(office, 200, "a change behind a new start")
            office.kill()
        disk.cut()
        with Serving(path) as office:
            check(all(is_there(office, number) for number in done), "and behind a cut all that was done is there")


class Cuts:
    """Streams of changes over one file, the power cut again and again."""

    def __init__(self, kind, name, disk):
        self.path, self.disk = kind + os.path.join(name, "office.store"), disk
        self.done, self.more, self.slowest = 0, 0, 0.0

    def looks(self, office, what):
        """What was acknowledged is there, and at most one change more."""
        self.slowest = max(self.slowest, time.perf_counter() - office.began)
        found = [number for number in (self.done, self.done + 1) if is_there(office, number)]
        check(found in ([], [self.done]), f"{what} one change more than was acknowledged, or none: {found}")
        self.done, self.more = self.done + len(found), self.more + len(found)
        for number in range(max(0, self.done - 20), self.done):
            office.shows(f"/subscribers/{number}", subscriber(number), what)

    def cut(self, turn):
        with Serving(self.path) as office:
            self.looks(office, f"behind cut {turn}")
            stream = Stream(office, self.done)
            stream.start()
            time.sleep(random.uniform(0.02, 0.4))
            office.kill()
            stream.join(timeout=store.PATIENCE)
        self.done += len(stream.done)
        self.disk.cut()

    def ends(self):
        with Serving(self.path) as office:
            self.looks(office, "behind all cuts")
            lost = [number for number in range(self.done) if not is_there(office, number)]
            check(not lost, f"behind all cuts these changes are lost: {lost}")
        check(ended(self.path) == (0, ""), "behind the cuts the tables are good")


def cuts(kind, count):
    done, more, slowest = 0, 0, 0.0
    for first in range(0, count, A_FILE):
        with tempfile.TemporaryDirectory() as name, CutDisk(name) as disk:
            file = Cuts(kind.removeprefix("sqlite:"), name, disk)
            for turn in range(first, min(count, first + A_FILE)):
                file.cut(turn)
            file.ends()
        done, more, slowest = done + file.done, more + file.more, max(slowest, file.slowest)
        print(f"{kind} {turn + 1} cuts in streams of changes: {done} are there, {more} of which weren't acknowledged yet; the slowest start took {slowest:.2f} s; "
              f"{len(failures)} failed", flush=True)


def in_its_own(count, *kinds):
    try:
        disk_itself()
    except OSError as error:
        print(f"skipped power_cuts, since a file system can't be mounted here: {error}")
        return 0
    refused()
    for kind in kinds:
        over_a_lie(kind.removeprefix("sqlite:"))
        cuts(kind, int(count))
    print(f"acceptance: {len(failures)} failed")
    return status()


def main():
    if not may_be_alone("-rm"):
        print("skipped power_cuts, since `unshare -rm` isn't allowed here")
        return 0
    count, kinds = sys.argv[1:2] or [str(CUTS)], sys.argv[2:] or ["journal:", "sqlite:"]
    return run_alone(in_its_own.__name__, *count, *kinds, flags="-rm")


if __name__ == "__main__":
    sys.exit(script(main, in_its_own))
