#!/usr/bin/env python3
"""How an office ends, as docs/OPERATING.md says: by signals, by its turns, by what it can't read.

With `--turns 0` it tries its words, its ports and its store, and takes no event. It ends what it
started, and takes some seconds.
"""
import os
import signal
import socket
import subprocess
import sys
import tempfile

from harness import PROGRAM, check, free_ports, script, serve, serving, stop
from harness.clerks import wait_until_answering

ENDING = (signal.SIGHUP, signal.SIGINT, signal.SIGQUIT, signal.SIGTERM, signal.SIGUSR1,
          signal.SIGKILL)


def ended(program, seconds):
    """The status with which it ends in time, or None where it goes on."""
    try:
        return program.wait(timeout=seconds)
    except subprocess.TimeoutExpired:
        return None


def as_usual():
    """What a signal does isn't inherited, as by `nohup`."""
    for sent in ENDING:
        if sent != signal.SIGKILL:
            signal.signal(sent, signal.SIG_DFL)


def by_signals():
    for sent in (*ENDING, signal.SIGPIPE):
        ports = free_ports()
        with tempfile.TemporaryFile() as log, serving(ports, log, limits=as_usual) as program:
            wait_until_answering(ports[3])
            program.send_signal(sent)
            status = ended(program, 20 if sent in ENDING else 0.3)
            check(status == (-sent if sent in ENDING else None), f"{sent.name}: {status}")


def tried(ports, store="memory", turns="0", more=()):
    done = subprocess.run([*serve(store, turns, ports), *more], stdout=subprocess.PIPE, timeout=60)
    return done.returncode, done.stdout.decode()


def without_turns(folder):
    ports = free_ports()
    nowhere = os.path.join(folder, "none", "office.db")
    check(tried(ports) == (0, ""), "where an office could run")
    check(tried(ports, more=["now"]) == (1, "words refused\n"), "a word too many")
    check(tried(ports, turns="1000000000000001") == (1, "words refused\n"), "too many turns")
    check(tried(ports, store=nowhere) == (11, ""), "a store in no folder")
    with socket.socket(socket.AF_INET, socket.SOCK_DGRAM) as other:
        other.bind(("0.0.0.0", ports[2]))
        check(tried(ports) == (10, ""), "a port that another has")
    check(tried(ports, turns="1")[0] == 0, "one turn, which is a tick where nothing comes")


def by_what_it_reads(folder):
    """A folder can be opened, and not read."""
    for words in (["seal", "00"], ["check", "00"], ["import", "--store", "memory", "modems", "1"]):
        source = os.open(folder, os.O_RDONLY)
        done = subprocess.run([PROGRAM, *words], stdin=source, stdout=subprocess.PIPE, timeout=30)
        os.close(source)
        found = done.returncode, done.stdout
        check(found == (7, b"source refused\n"), f"{words[0]} of a folder: {found}")


def at(pid, descriptor):
    try:
        return os.readlink(f"/proc/{pid}/fd/{descriptor}")
    except FileNotFoundError:
        return None


def without_standard_streams(folder):
    """A standard descriptor that is closed at the start is the null device then, and none of the office's own files or sockets."""
    for closed in ((0,), (1,), (2,), (0, 1), (1, 2), (0, 1, 2)):
        ports = free_ports()
        words = serve(os.path.join(folder, f"{len(closed)}{closed[0]}.db"), 10**6, ports)
        shut = " ".join(f"{descriptor}>&-" for descriptor in closed)
        with open(os.path.join(folder, "log"), "wb") as log:
            program = subprocess.Popen(["sh", "-c", f'exec "$@" {shut}', "sh", *words], stdin=subprocess.DEVNULL,
                                       stdout=log, stderr=log)
        try:
            wait_until_answering(ports[3])
            found = {descriptor: at(program.pid, descriptor) for descriptor in closed}
            check(set(found.values()) == {"/dev/null"}, f"{closed} closed: {found}")
        finally:
            stop(program)
    done = subprocess.run(["sh", "-c", 'exec "$1" drill 5 <&- >&- 2>&-', "sh", PROGRAM], timeout=60)
    check(done.returncode == 0, f"a drill with all three closed: {done.returncode}")


def main():
    by_signals()
    with tempfile.TemporaryDirectory() as folder:
        without_turns(folder)
        by_what_it_reads(folder)
        without_standard_streams(folder)


if __name__ == "__main__":
    sys.exit(script(main))
