#!/usr/bin/env python3
"""officed as a relay sees it that has restarted: 10,000 queries for leases over real sockets (RFC 4388), in a network of its own.

A relay boots 200 modems, of which some release and some decline. Then it asks 10,000 times who has an address or which address a modem has, 32 queries at
a time: of addresses and modems by chance, through the relay of a second pool too, and between them as an unknown relay, in a form that isn't answered, and
by datagrams that are no queries. Each byte of each answer, and the word of each line of the log, is compared with the model of tests/examples/leases.py; what
is left of a lease, with the clock. Then bin/office-modem asks, and says in words what it was answered. Where `unshare -rn` isn't allowed it says so and skips. It
ends what it started, and takes some seconds.
"""
import os
import random
import re
import subprocess
import sys
import tempfile
import time

from harness import ROOT, check, failures, have_their_lines, only_alone, said, script
from harness.modems import FIRST, MODEMS, RELAY, SERVER, Conversation, addresses_of_lo, boot, clerk, furnish, ip, leases, modem, running
from harness.network import address_of_lo, port_of, took

QUERIES, AT_ONCE = 10_000, 32
FAR = "10.65.0.1"
# The end of a lease is told by the office's clock, which this script reads a moment earlier.
LATE = 3


def second_pool(talk):
    """A pool behind another relay, without a modem."""
    body = {"first": "10.65.0.10", "last": "10.65.0.20", "prefix": 24, "router": FAR, "relay": FAR}
    clerk.puts("/pools/2", body)
    talk.model.put(f"pool 2 10.65.0.10 10.65.0.20 24 {FAR} {FAR}")


def give_back(talk):
    """Some release their address, and some decline it."""
    for number in range(0, MODEMS, 10):
        held = ip(FIRST + number)
        check(talk.say(leases.releases(held, server=SERVER, **modem(number))) is None, "a RELEASE has no reply")
        check(talk.say(leases.declines(ip(FIRST + number + 1), server=SERVER, **modem(number + 1))) is None, "a DECLINE has no reply")


def asked(chance, number):
    """A query by chance, or what isn't answered. Its number is the transaction's."""
    what = {"relay": chance.choice((RELAY, RELAY, RELAY, FAR)), "xid": number, "flags": chance.choice((0, 0x8000)), "hops": chance.randrange(4)}
    kind = chance.randrange(20)
    if kind == 0:
        return leases.who_has(ip(FIRST), **{**what, "relay": "10.64.0.2"})
    if kind == 1:
        return leases.has_which(chance.randrange(MODEMS), **what, options=b"\x3d\x01\0")
    if kind == 2:
        return leases.changed(leases.has_which(1, **what), (236, 0))
    if kind < 11:
        return leases.has_which(chance.randrange(256), **what)
    return leases.who_has(chance.choice((ip(FIRST + chance.randrange(-2, MODEMS + 2)), f"10.65.0.{chance.randrange(8, 23)}")), **what)


def is_answer(came, expected, what):
    """The answer is the model's, but for the seconds that are left: the office was asked a little later than the model, and gave the lease a little later."""
    if came is None or len(came[0]) != len(expected):
        return check(False, f"{what}: an answer of {len(expected)} bytes")
    at = 251 if expected[242] == 13 else len(expected)
    made, left = came[0], [int.from_bytes(data[at:at + 4], "big") for data in (came[0], expected)]
    check(made[:at] == expected[:at] and made[at + 4:] == expected[at + 4:], f"{what}: each byte of the answer")
    return check(abs(left[1] - left[0]) <= LATE or at == len(expected), f"{what}: {left[0]} s are left, and not {left[1]}")


def ask_all(talk, far):
    """All queries, so many at once; answers of one relay come in the order in which it asked."""
    chance, answered = random.Random(4388), 0
    for first in range(0, QUERIES, AT_ONCE):
        waiting = []
        for number in range(first, min(first + AT_ONCE, QUERIES)):
            reply = talk.say(asked(chance, number))
            waiting += [(number, reply)] if reply else []
        for number, (to, expected) in waiting:
            is_answer(took(far if to.startswith(FAR) else talk.relay), expected, f"query {number}")
        answered += len(waiting)
        if failures:
            return answered
    talk.is_silent()
    return answered


def asks_in_words(talk):
    """What bin/office-modem says of each kind of answer."""
    talk.relay.close()
    free, declined, held = ip(FIRST), ip(FIRST + 1), ip(FIRST + 2)
    pairs = leases.mac(2).hex(":")
    told = [(held, 0, f"{pairs} has {held}, for S s more, by {SERVER}"), (pairs, 0, f"{pairs} has {held}, for S s more, by {SERVER}"),
            (leases.mac(2).hex(), 0, f"{pairs} has {held}, for S s more, by {SERVER}"), (free, 1, f"no modem has {free}, which a pool of the office has, by {SERVER}"),
            (declined, 1, f"no modem has {declined}, which a pool of the office has, by {SERVER}"),
            ("10.99.0.1", 1, f"no pool of the office has 10.99.0.1, by {SERVER}"), ("02:aa:bb:cc:dd:00", 1, f"02:aa:bb:cc:dd:00 has no address, by {SERVER}")]
    for what, status, words in told:
        done = subprocess.run([os.path.join(ROOT, "bin", "office-modem"), "--ask-lease", what, "--server", SERVER, "--relay", RELAY], stdout=subprocess.PIPE, timeout=30)
        lines = done.stdout.decode().splitlines()
        check(done.returncode == status and re.sub(r"\d+ s more", "S s more", lines[-1]) == f"answer    {words}", f"{what}: {lines[-1:]} with {done.returncode}")
        talk.words.append(talk.model.take(int(time.time()), leases.who_has(what) if what.count(".") == 3 else leases.query(
            hardware=bytes.fromhex(what.replace(":", "")), relay=leases.address(RELAY)))[0])


def asking():
    """Runs in a network of its own, where nobody has these ports and all addresses may be this machine's."""
    addresses_of_lo()
    address_of_lo(b"lo:3", FAR, "255.255.255.255")
    with tempfile.TemporaryFile() as log:
        with running(log):
            furnish()
            talk = Conversation()
            second_pool(talk)
            boot(talk)
            give_back(talk)
            before = talk.model.rows()
            began = time.perf_counter()
            answered = ask_all(talk, port_of(FAR, 67))
            took_seconds = time.perf_counter() - began
            check(talk.model.rows() == before, "a query changes nothing")
            asks_in_words(talk)
            print(f"{QUERIES} queries in {took_seconds:.2f} s, {answered} of them answered")
        have_their_lines(said(log, "dhcp"), [f"dhcp {word}" for word in talk.words])


def main():
    return only_alone(asking, 120, "relays are answered")


if __name__ == "__main__":
    sys.exit(script(main, asking))
