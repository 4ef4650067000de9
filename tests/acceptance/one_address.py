#!/usr/bin/env python3
"""One address that takes transfers, and others that boot meanwhile, for 30 minutes of a clock that this script turns.

A modem's address asks for its file from port after port, with 255 seconds between resends, and
acknowledges nothing, or one block now and then to keep its transfers. It never holds more than half
of the 256 places, so other modems read their files each minute; while it goes on, its own first
ports are answered. A port that is open may ask again as often as it likes. In a network of its own;
it takes a minute.
"""
import collections
import socket
import sys
import tempfile
import time

from harness import check, only_alone, said, script, start, stop
from harness import modems as office
from harness.machine import Preloaded
from harness.modems import PORTS, SERVER, ip, leases, modem

sys.dont_write_bytecode = True
import tftp  # noqa: E402

MINUTES, PLACES, OTHERS = 30, 256, 10
# How many ports it tries in each minute.
TRIED = 40
CLOCK = r"""
#define _GNU_SOURCE
#include <fcntl.h>
#include <stdlib.h>
#include <sys/mman.h>
#include <sys/syscall.h>
#include <time.h>
#include <unistd.h>
/* By how many seconds the clock of the day is off. */
static volatile long *off;
__attribute__((constructor)) static void open_it(void) {
    int file = open(getenv("CLOCK_OFF"), O_RDWR);
    off = mmap(NULL, sizeof(long), PROT_READ | PROT_WRITE, MAP_SHARED, file, 0);
    close(file);
}
int clock_gettime(clockid_t which, struct timespec *now) {
    int status = syscall(SYS_clock_gettime, which, now);
    if (status == 0 && which == CLOCK_REALTIME && off) now->tv_sec += *off;
    return status;
}
"""


def name_of(number, held):
    return leases.name_of(office.SECRET, leases.mac(number), leases.address(held))


def client_at(held, port=0):
    each = socket.socket(socket.AF_INET, socket.SOCK_DGRAM)
    each.bind((held, port))
    each.settimeout(2)
    return each


def answer(client, packet):
    """What an address and port are told; None for nothing."""
    client.sendto(packet, (SERVER, PORTS[2]))
    try:
        return client.recv(2048)
    except OSError:
        return None


class Greedy:
    """One modem's address that begins as many transfers as it can, and keeps each."""

    def __init__(self, number, held, acknowledges):
        self.held, self.acknowledges, self.port = held, acknowledges, 10_000
        self.request = tftp.request(name_of(number, held), (b"blksize", b"8"), (b"timeout", b"255"))
        self.live = {}

    def tries(self):
        """Asks from further ports; gives how many were answered by a transfer."""
        clients = []
        for _ in range(TRIED):
            client = client_at(self.held, self.port)
            client.settimeout(0.02)
            self.port += 1
            client.sendto(self.request, (SERVER, PORTS[2]))
            clients.append(client)
        time.sleep(0.2)
        return sum(self.takes(client) for client in clients)

    def takes(self, client):
        try:
            packet = client.recv(2048)
        except OSError:
            packet = None
        if packet is None or packet[1] != tftp.OPTIONS:
            client.close()
            return False
        self.live[client] = 0
        return True

    def keeps(self):
        """Acknowledges the next block of each, where it acknowledges at all."""
        if not self.acknowledges:
            return
        for client in list(self.live):
            client.settimeout(0.05)
            client.sendto(tftp.acknowledgement(self.live[client]), (SERVER, PORTS[2]))
            self.live[client] += 1
        time.sleep(0.2)


def reads(number, held):
    """A modem boots: it reads the whole of its file; gives what it is told in place of it."""
    with client_at(held) as client:
        packet = answer(client, tftp.request(name_of(number, held), (b"blksize", b"1428")))
        if packet is None or packet[1] != tftp.OPTIONS:
            return packet
        block = answer(client, tftp.acknowledgement(0))
        if block is None or block[1] != tftp.DATA:
            return block
        client.sendto(tftp.acknowledgement(1), (SERVER, PORTS[2]))
        return None


def leased(talk, count):
    held = []
    for number in range(count):
        offer = talk.asks(leases.discover(**modem(number)), f"OFFER {number}")
        held.append(ip(int.from_bytes(offer["address"], "big")))
        talk.asks(leases.selects(held[-1], server=SERVER, **modem(number)), f"ACK {number}")
    return held


def turned(clock, seconds, step):
    """Turns the clock so many seconds on, a step at a time, so that there are Ticks between."""
    for _ in range(seconds // step):
        clock.number += step
        time.sleep(0.01)


def half_an_hour(talk, held, clock, acknowledges, log):
    """One address tries each minute, and others boot; gives how many transfers it began in each minute."""
    greedy, begun = Greedy(0, held[0], acknowledges), []
    for minute in range(MINUTES):
        begun.append(greedy.tries())
        other = 1 + minute % (len(held) - 1)
        told = reads(other, held[other])
        check(told is None, f"minute {minute}: modem {other} reads its file, and isn't told {told}")
        # The places are 256, and each refusal by the office itself would say so.
        check("tftp full" not in said(log), f"minute {minute}: there are places left")
        if acknowledges and minute % 10 == 9:
            greedy.keeps()
        if failures_of(told):
            break
        turned(clock, 60, 5)
    for client in greedy.live:
        client.close()
    return begun


def failures_of(told):
    return told is not None and told[1:2] == bytes([tftp.ERROR])


def retries(talk, held):
    """A modem whose answers are lost asks again and again from its one port, and is answered each time."""
    with client_at(held, 9000) as client:
        request = tftp.request(name_of(1, held))
        answers = [answer(client, request) for _ in range(20)]
        check(all(each and each[1] == tftp.DATA for each in answers), "an open port may ask again")
        client.sendto(tftp.acknowledgement(1), (SERVER, PORTS[2]))


def in_its_own():
    office.addresses_of_lo()
    with tempfile.TemporaryDirectory() as folder:
        clock = Preloaded(folder, "clock", CLOCK, "CLOCK_OFF")
        for acknowledges in (False, True):
            clock.number = 0
            with tempfile.TemporaryFile() as log:
                program = start(PORTS, 10**9, log, {"OFFICED_UDP": SERVER, **clock.environment()})
                try:
                    check(office.is_ready(), "the office answers")
                    office.furnish()
                    talk = office.Conversation()
                    held = leased(talk, 1 + OTHERS)
                    retries(talk, held[1])
                    turned(clock, 60, 5)
                    begun = half_an_hour(talk, held, clock, acknowledges, log)
                    check(max(begun) <= 4 and min(begun) >= 1, f"it begins 4 a minute at most, and some: {begun}")
                    counted = collections.Counter(words.split(" ")[1] for words in said(log, "tftp"))
                    print(f"{'acknowledging now and then' if acknowledges else 'acknowledging nothing'}: it began {sum(begun)} transfers in {len(begun)} minutes; {dict(counted)}")
                    for each in (talk.relay, talk.clients):
                        each.close()
                finally:
                    stop(program)


def main():
    return only_alone(in_its_own, 300, "one address leaves places for others")


if __name__ == "__main__":
    sys.exit(script(main, in_its_own))
