#!/usr/bin/env python3
"""The unit's command under a limit of a file's size (RLIMIT_FSIZE), over a journal and a database.

Past the limit the system ends a program by a signal (SIGXFSZ), unless the signal is ignored: then
the write fails. So a change past the limit is answered 500, its line says `keeper`, the office goes
on, and the changes before it are there. It ends what it started, and takes some seconds.
"""
import os
import re
import resource
import shlex
import signal
import subprocess
import sys
import tempfile

from harness import PROGRAM, check, free_ports, listed, script, stop, text_of
from harness.clerks import Clerk, is_heard

PATIENCE = int(os.environ.get("OFFICE_PATIENCE", "60"))
# More than a new store takes, and less than two thousand changes.
MOST = 300_000
CHANGES = 5_000
ROW = {"active": True, "cpes": 2, "name": "x" * 60}


def unit_words(store, ports):
    """The words of the unit's command, over another store, at other ports."""
    text = re.search(r"(?m)^ExecStart=(.*)$", text_of("packaging", "officed.service"))[1]
    words = shlex.split(text.replace("$$", "$"))
    for name, word in (("--store", store), ("--ports", listed(ports))):
        words[words.index(name) + 1] = word
    return [PROGRAM if word == "/usr/local/bin/officed" else word for word in words]


def limited():
    signal.signal(signal.SIGXFSZ, signal.SIG_DFL)
    resource.setrlimit(resource.RLIMIT_FSIZE, (MOST, MOST))


def fills(store):
    """Puts rows until one is refused, and looks at the first one."""
    ports = free_ports()
    with subprocess.Popen(unit_words(store, ports), stdout=subprocess.PIPE,
                          stderr=subprocess.DEVNULL, preexec_fn=limited) as program:
        try:
            check(is_heard(ports[3], seconds=PATIENCE, program=program), "the office answers")
            clerk, done = Clerk(ports[3], PATIENCE), 0
            while done < CHANGES and clerk.ask("PUT", f"/subscribers/{done}", ROW).status == 200:
                done += 1
            found = clerk.ask("PUT", f"/subscribers/{done}", ROW).status
            check((found, program.poll()) == (500, None),
                  f"{store}: after {done} changes one is refused: {found} {program.poll()}")
            if program.poll() is None:
                clerk.shows("/subscribers/0", ROW, "and the first is there")
        finally:
            if program.poll() is None:
                stop(program)
        lines = program.stdout.read().decode()
    check(re.search(r"(?m)^\d+ http keeper$", lines) is not None, "the line says `keeper`")
    print(f"{done} changes, then `keeper`")


def main():
    with tempfile.TemporaryDirectory() as folder:
        for kind in ("journal:", ""):
            fills(f"{kind}{os.path.join(folder, 'office')}{len(kind)}")


if __name__ == "__main__":
    sys.exit(script(main))
