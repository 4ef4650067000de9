#!/usr/bin/env python3
"""officed where memory is refused while a modem reads its file: each growth of memory that a packet or a Tick asks for is refused once.

A library that is loaded before the C library's own refuses the growth of a number that is said while the program runs. The same packet comes until it's
answered, each time with its next growth refused: a refused one has no reply and the word `memory`, or is dropped without a line where the growth was that of
the datagram itself, and all is as it was, since the answer at last is that of the model of tests/examples/tftp.py, which heard of one packet alone. Each
packet that opens a transfer or goes on with one, each refusal that is told to the client, and a Tick that sends, is refused at least once. It wants `cc` and
`unshare -rn`, ends what it started, and takes under a minute.
"""
# proved: a build without the proof has an allocator of its own, which can't be made to refuse
import collections
import os
import shutil
import socket
import sys
import tempfile
import time

import files_over_sockets as files
from harness import check, failures, only_alone, script
from harness import modems as office
from harness.machine import Preloaded

sys.dont_write_bytecode = True
import leases  # noqa: E402
import tftp  # noqa: E402

REFUSER = r"""
#include <errno.h>
#include <fcntl.h>
#include <stdlib.h>
#include <sys/mman.h>
#include <unistd.h>
extern void *__libc_malloc(size_t), *__libc_calloc(size_t, size_t), *__libc_realloc(void *, size_t), *__libc_memalign(size_t, size_t);
/* How many growths there are up to the one that is refused; 0 where none is to be. */
static volatile long *left;
__attribute__((constructor)) static void open_it(void) {
    int file = open(getenv("REFUSED"), O_RDWR);
    left = mmap(NULL, sizeof(long), PROT_READ | PROT_WRITE, MAP_SHARED, file, 0);
    close(file);
}
static int is_refused(void) {
    if (!left || *left == 0 || --*left > 0) return 0;
    errno = ENOMEM;
    return 1;
}
void *malloc(size_t size) { return is_refused() ? NULL : __libc_malloc(size); }
void *calloc(size_t n, size_t size) { return is_refused() ? NULL : __libc_calloc(n, size); }
void *realloc(void *old, size_t size) { return is_refused() ? NULL : __libc_realloc(old, size); }
void *aligned_alloc(size_t align, size_t size) { return is_refused() ? NULL : __libc_memalign(align, size); }
int posix_memalign(void **to, size_t align, size_t size) { return (*to = aligned_alloc(align, size)) ? 0 : ENOMEM; }
"""
MOST_GROWTHS = 2000


class Refuser(Preloaded):
    """Which growth of the program is refused."""

    def __init__(self, folder):
        super().__init__(folder, "refuser", REFUSER, "REFUSED")

    def refuses(self, growth):
        self.number = growth

    def is_done(self):
        """The growth was refused."""
        return self.number == 0


class Trial:
    """A modem's packets, each with every growth refused in turn."""

    def __init__(self, talk, refuser, log):
        self.talk, self.refuser, self.log, self.counted = talk, refuser, log, collections.defaultdict(collections.Counter)

    def words(self, service):
        """What the log says of a service."""
        with open(self.log) as file:
            lines = [line.split(" ", 2)[1:] for line in file.read().splitlines()]
        return [rest for name, rest in lines if name == service]

    def comes_of(self, at, service, before, wanted):
        """What comes of a packet or a Tick: whether it's answered as it is to be, where it is, and the new words of the log."""
        began, came = time.time(), None
        while time.time() < began + 3:
            came = next((packet for where, packet in self.talk.take(0.02) if where == at and is_like(packet, wanted)), came)
            said = self.words(service)[before:]
            if said and (came or not wanted or said == ["memory"]):
                break
            # What is dropped before it's an event has neither answer nor line.
            if self.refuser.is_done() and not said and time.time() > began + 0.5:
                self.settles()
                return came, self.words(service)[before:]
        return came, said

    def settles(self):
        """Has the office ask each of its ports, and write what lines wait: it answers two questions for the time, one after the other."""
        with socket.socket(socket.AF_INET, socket.SOCK_DGRAM) as client:
            client.settimeout(10)
            for _ in range(2):
                client.sendto(b"", (office.SERVER, office.PORTS[1]))
                client.recv(64)

    def goes(self, at, packet):
        """Sends a packet until none of its growths is left to be refused; then it's done as the model says, and answered so."""
        word, reply = self.talk.transfers.take(int(time.time()), f"{at[0]}:{at[1]}", packet)
        for number in range(1, MOST_GROWTHS):
            before = len(self.words("tftp"))
            self.refuser.refuses(number)
            self.talk.socket_of(*at).sendto(packet, (office.SERVER, files.PORT))
            came, said = self.comes_of(at, "tftp", before, reply and reply[1])
            was_refused = self.refuser.is_done()
            self.refuser.refuses(0)
            if said == [word]:
                check(bool(came) == bool(reply), f"{word}: {came!r}, and not {reply!r}")
                return came
            check(was_refused and came is None and said in ([], ["memory"]), f"{word}, growth {number}: {came!r} and {said}")
            self.counted[word]["memory" if said else "dropped"] += 1
            if failures:
                break
        check(False, f"{word}: no end of growths")
        return None

    def ticks(self, at, wanted):
        """A Tick that has something to send: each of its growths is refused in turn, a Tick each."""
        for number in range(1, 20):
            before = len(self.words("tick"))
            self.refuser.refuses(number)
            came, said = self.comes_of(at, "tick", before, wanted)
            self.refuser.refuses(0)
            if said != ["memory"]:
                check(came is not None and said == ["again 1 closed 0"], f"a Tick: {came!r} and {said}")
                return
            self.counted["tick"]["memory"] += 1


def is_like(packet, wanted):
    """The packet is this one; of blocks, whose bytes hang on the moment, it has the number and the length."""
    return wanted is not None and (packet == wanted if wanted[1] != tftp.DATA else packet[:4] == wanted[:4] and len(packet) == len(wanted))


def trials(talk, trial, modem):
    at, other = (modem.held, files.CLIENT), ("10.64.200.9", 1024)
    blocks = []
    trial.goes(at, tftp.request(modem.name, (b"blksize", b"44")))
    trial.goes(at, tftp.request(modem.name, (b"blksize", b"44")))
    for number in range(2):
        blocks.append(trial.goes(at, tftp.acknowledgement(number))[4:])
    found = files.settings_of(b"".join(blocks))
    files.is_sealed(found)
    time.sleep(1)
    trial.ticks(at, tftp.data(2, blocks[1]))
    trial.goes(at, tftp.acknowledgement(2))
    trial.goes(at, tftp.acknowledgement(2))
    trial.goes(at, tftp.request(b"x"))
    trial.goes(at, b"")
    trial.goes(other, tftp.request(modem.name))
    trial.goes(at, tftp.request(modem.name))
    trial.goes(at, tftp.error(0, "enough"))
    for word in ("oack", "again", "block 1", "block 2", "tick", "unknown", "name", "form", "no-lease"):
        check(trial.counted[word]["memory"] > 0, f"{word} is refused at least once")
        print(f"  {word}: refused {trial.counted[word]['memory']} times with a line, {trial.counted[word]['dropped']} times without")


def refusing():
    office.addresses_of_lo()
    with tempfile.TemporaryDirectory() as folder:
        refuser, path = Refuser(folder), os.path.join(folder, "log")
        with open(path, "wb") as log, office.running(log, refuser.environment()) as program:
            files.furnish()
            talk = files.Talk()
            number = 2
            offer = talk.asks(leases.discover(**office.modem(number)), "OFFER")
            given = office.ip(int.from_bytes(offer["address"], "big"))
            talk.asks(leases.selects(given, server=office.SERVER, **office.modem(number)), "ACK")
            trials(talk, Trial(talk, refuser, path), files.Modem(number, given))
            check(program.poll() is None, "the office goes on")


def main():
    if not shutil.which("cc"):
        print("skipped, since there is no C compiler here")
        return 0
    return only_alone(refusing, 240, "a packet is done, or nothing is")


if __name__ == "__main__":
    sys.exit(script(main, refusing))
