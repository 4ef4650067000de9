#!/usr/bin/env python3
"""officed over a journal: starts, kills and starts again, and what it refuses. What a journal holds is read here by its form, as docs/OPERATING.md has it.

A new file is made, for its owner alone; a clerk's changes and modems' leases are there behind a stop and behind a kill; in a stream of changes the
office is killed, 20 times or as often as OFFICE_KILLS says, and each change that was acknowledged is there. A copy that was taken at any moment of the
stream opens, and bin/office-sql reads the journal meanwhile, ends leases in it and writes it anew. Files that are refused: one that is open already, a database, a text, a folder, a bad record, bad rows. A journal that was cut at each
byte. `import` twice. Little memory. 200 modems boot. A full disk, in a memory disk of its own. What needs a network or a mount of its own is skipped by
name where `unshare` isn't allowed. It ends what it started, and takes about a minute.
"""
import functools
import os
import resource
import shutil
import stat
import struct
import subprocess
import sys
import time

# Before the modems, whose models have a module of this name too.
from imports import table
import store
from store import CHANGES, Serving, Stream, ended, folder
from harness import ROOT, check, script

sys.dont_write_bytecode = True
KIND, READER = "journal:", os.path.join(ROOT, "bin", "office-sql")
ROWS = 50_000
ANN = (b"\2\0\0\0\7", b"\1\2\3Ann")


def record_of(writes):
    """A commit of puts, or of drops where a row is None, without the gates around it."""
    payload = b"".join(b"\2" + bytes([len(key)]) + key if row is None else b"\1" + bytes([len(key)]) + key + struct.pack(">I", len(row)) + row
                       for key, row in writes)
    return struct.pack(">I", len(payload)) + payload


def journal_of(*commits):
    return b"".join(b"\1" + record_of(writes) for writes in commits) + b"\0"


def end_of(data):
    """Where a journal's last gate is, which is closed. What is behind it is room for more."""
    at = 0
    while data[at] == 1:
        at += 5 + int.from_bytes(data[at + 1:at + 5], "big")
    return at


def writes_in(payload):
    """The writes of a payload: the key, and the row or None."""
    at = 0
    while at < len(payload):
        kind, size = payload[at], payload[at + 1]
        key, at = payload[at + 2:at + 2 + size], at + 2 + size
        if kind == 2:
            yield key, None
            continue
        size, = struct.unpack_from(">I", payload, at)
        yield key, payload[at + 4:at + 4 + size]
        at += 4 + size


def rows_of(path):
    """All rows of a journal, by its records behind open gates."""
    with open(path, "rb") as file:
        data = file.read()
    rows, gate = {}, 0
    while gate + 5 < len(data) and data[gate] == 1:
        size, = struct.unpack_from(">I", data, gate + 1)
        if gate + 5 + size >= len(data):
            break
        for key, row in writes_in(data[gate + 5:gate + 5 + size]):
            rows.pop(key, None)
            if row is not None:
                rows[key] = row
        gate += 5 + size
    return rows


def made(path, data):
    with open(path, "wb") as file:
        file.write(data)


def read(path):
    with open(path, "rb") as file:
        return file.read()


def new_file():
    with folder() as (name, path):
        check(ended(KIND + path) == (0, ""), "an office without turns makes a journal")
        check(read(path) == b"\0", "which is one closed gate")
        check(stat.S_IMODE(os.stat(path).st_mode) == 0o600, "its owner alone may read it")
        link = os.path.join(name, "link")
        os.symlink(path, link)
        with Serving(KIND + path) as office:
            for change in CHANGES:
                office.puts(*change)
            for what, other in (("the same name", path), ("a link to it", link)):
                check(ended(KIND + other) == (11, ""), f"a second office by {what}: status 11")
            check(ended(path) == (11, ""), "a second office that takes it for a database: status 11")
            check(ended(KIND + path, "import", "subscribers", "9", data=table("subscribers", [])) == (11, ""), "an import into it meanwhile: status 11")
            office.shows(*CHANGES[0], "beside these")
        before = rows_of(path)
        check(len(before) == len(CHANGES), f"each change has a row: {len(before)}")
        check(before.get(ANN[0]) == b"\1\2\5Ann 7", "a subscriber's bytes")
        with Serving(KIND + link) as office:
            for change in CHANGES:
                office.shows(*change, "behind a stop, by a link")
            office.removes("/modems/02aabbccddee")
            office.kill()
        with Serving(KIND + path) as office:
            check(office.ask("GET", "/modems/02aabbccddee").status == 404, "behind a kill a row that was removed isn't there")
            office.shows(*CHANGES[0], "behind a kill")
        check(len(rows_of(path)) == len(CHANGES) - 1, "and the journal has the others")


def copies():
    """A copy at any moment of a running office's journal opens, with all that was answered before it was begun."""
    with folder() as (name, path):
        with Serving(KIND + path) as office:
            stream = Stream(office, 0)
            stream.start()
            for turn in range(20):
                time.sleep(0.05)
                copy, done = os.path.join(name, f"copy-{turn}"), len(stream.done)
                shutil.copy(path, copy)
                check(ended(KIND + copy) == (0, ""), f"copy {turn} opens")
                rows = rows_of(copy)
                check(len(rows) >= done, f"copy {turn} has {done} changes: {len(rows)}")
                check(set(rows) == {b"\2" + struct.pack(">I", number) for number in range(len(rows))}, f"copy {turn} has no gap")
            office.kill()
            stream.join(timeout=store.PATIENCE)


def told(path, *words):
    done = subprocess.run([sys.executable, READER, path, *words], stdout=subprocess.PIPE, stderr=subprocess.PIPE, timeout=store.PATIENCE)
    return done.returncode, done.stdout.decode(), done.stderr.decode()


def reader():
    """bin/office-sql tells of a journal what it tells of a database with the same rows, ends leases, and writes it anew."""
    modem, far = b"\2\xaa\xbb\xcc\xdd\xee", struct.pack(">Q", int(time.time()) + 10**6)
    lease = [(b"\7\x0a\x40\0\x0a", b"\2" + modem + far), (b"\x08" + modem, b"\x0a\x40\0\x0a")]
    lists = (["modems", "7"], ["lease", "02aabbccddee"], ["free", "1"], ["batches"], ["subscribers"], ["classes"], ["leases"], ["pools"])
    with folder() as (name, path):
        with Serving(KIND + path) as office:
            for change in (*CHANGES, *CHANGES):
                office.puts(*change)
            check(told(path, "pools")[0] == 0, "the journal of a running office is read")
            check(told(path, "compact", path + "-2")[0] == 3, "and isn't written anew")
            check(told(path, "end-leases")[0] == 3, "nor changed")
        data = read(path)
        end = end_of(data)
        check(len(data) > end + 1 and not any(data[end:]), "zeros are behind the last gate")
        made(path, data[:end] + b"\1" + record_of(lease) + bytes(1000))
        rows = rows_of(path)
        store.made_with(path + ".db", rows.items())
        for words in lists:
            found, expected = told(path, *words, "--at", "0"), told(path + ".db", *words, "--at", "0")
            check(found[0] == 0 and found == expected, f"{words}: {found}, and of a database {expected}")
        before = os.path.getsize(path)
        check(told(KIND + path, "compact", path + "-2")[0] == 0, "it's written anew")
        check(told(path, "compact", path + "-2")[0] == 2, "but not over a file")
        check(told(path + ".db", "compact", path + "-3")[0] == 0, "a journal is made of a database")
        check(os.path.getsize(path + "-2") < before, "which is shorter")
        for each in (path + "-2", path + "-3"):
            check(rows_of(each) == rows, "all rows are in it")
            check(ended(KIND + each) == (0, ""), "the office opens it")
            check(stat.S_IMODE(os.stat(each).st_mode) == 0o600, "its owner alone may read it")
        check(told(path, "end-leases", "10.64.0.10")[0] == 0, "a lease is ended")
        check([key for key, row in rows_of(path).items() if row != rows[key]] == [lease[0][0]], "that one")
        check(ended(KIND + path) == (0, ""), "and the office opens the journal")
        made(path, journal_of([ANN], [ANN])[:-1] + b"\1\0\0\0\1\3\0")
        check("the record at byte 45 isn't changes" in told(path, "pools")[2], "a bad record's place is told")


def refusals():
    held, lease = b"\x08\x02\xaa\xbb\xcc\xdd\xee", b"\x07\x0a\x40\x00\x0a"
    for what, data, expected, left in (
            ("a journal of no commits", b"\0", (0, ""), b"\0"),
            ("a gate that is open to nothing", b"\1", (0, ""), b"\0"),
            ("a good row", journal_of([ANN]), (0, ""), None),
            ("a commit of no writes", journal_of([]), (0, ""), None),
            ("a row that isn't spelled so", journal_of([(held, b"\x0a")]), (11, ""), None),
            ("a key of no kind", journal_of([ANN], [(b"\x0a\0\0\0\7", b"")]), (11, ""), None),
            ("a payload of no writes", journal_of([ANN])[:-1] + b"\1\0\0\0\1\3\0", (11, ""), None),
            ("an address without its lease", journal_of([(held, b"\x0a\x40\0\x0a")]), (2, "tables refused held 02aabbccddee\n"), None),
            ("a lease without its pool", journal_of([(lease, b"\3" + bytes(8))]), (2, "tables refused lease 10.64.0.10\n"), None),
            ("a text", b"subscriber,active\n" * 1000, (11, ""), None),
            ("a database", b"SQLite format 3\0" + bytes(4080), (11, ""), None)):
        with folder() as (_, path):
            made(path, data)
            found = ended(KIND + path)
            check(found == expected, f"{what}: {found}, not {expected}")
            check(read(path) == (data if left is None else left), f"{what}: what it is then")
    with folder() as (name, path):
        made(path, journal_of([ANN]))
        os.link(path, path + "-2")
        for what, other in (("a folder", name), ("a file in no folder", os.path.join(name, "none", "office.journal")), ("a device", "/dev/null"),
                            ("a file of two names", path), ("no path", "")):
            check(ended(KIND + other) == (11, ""), f"{what}: status 11")
        os.unlink(path + "-2")
        check(ended(KIND + path) == (0, ""), "a file of one name opens")
        check(ended(path) == (11, ""), "a journal that is taken for a database: status 11")
        os.chmod(path, 0o400)
        check(store.lacks_rights(KIND + path) in (None, (11, "")), "without the right to write: status 11")


def cuts():
    """A journal that was cut at any byte opens, with the commits that are whole."""
    commits = [[ANN], [(b"\2\0\0\0\x08", b"\1\2\3Bob")], [ANN, (b"\2\0\0\0\x08", None)], [(b"\2\0\0\0\x09", b"\0\1\0")]]
    data = journal_of(*commits)
    ends = [len(journal_of(*commits[:count])) for count in range(len(commits) + 1)]
    for length in range(len(data) + 1):
        with folder() as (_, path):
            made(path, data[:length])
            check(ended(KIND + path) == (0, ""), f"a journal of {length} bytes opens")
            whole = max([count for count, end in enumerate(ends) if end <= length], default=0)
            rows = rows_of(path)
            made(path, journal_of(*commits[:whole]))
            check(rows == rows_of(path), f"a journal of {length} bytes has {whole} commits")


def hungry():
    """With so little memory that a journal can't be opened: status 6, and never 11."""
    if "OFFICE_UNPROVED" in os.environ:
        print("little memory: skipped, since a build without the proof has an allocator of its own")
        return
    found = {}
    with folder() as (_, path):
        made(path, journal_of(*([(b"\2" + struct.pack(">I", number), b"\1\2\3Ann")] for number in range(ROWS))))
        for most in range(2, 48, 3):
            limits = functools.partial(resource.setrlimit, resource.RLIMIT_DATA, (most << 20, most << 20))
            if ended("memory", limits=limits) == (0, ""):
                found[most] = ended(KIND + path, limits=limits)
        check(ended(KIND + path) == (0, ""), "with memory it opens")
    check(all(each in ((0, ""), (6, "memory refused\n")) for each in found.values()), f"with so many MB: {found}")
    check((6, "memory refused\n") in found.values(), f"memory is refused where there is little: {found}")


def booting():
    store.booting(KIND, rows_of)


def full_disk():
    store.full_disk(KIND, "256k")


def main():
    for each in (new_file, functools.partial(store.kills, KIND, rows_of), copies, reader, refusals, cuts, functools.partial(store.imports, KIND, rows_of), hungry):
        each()
    store.in_its_own(booting, "-rn")
    store.in_its_own(full_disk, "-rm")


if __name__ == "__main__":
    sys.exit(script(main, booting, full_disk))
