"""A relay and its modems, each of whose replies is compared with the model of tests/examples."""
import contextlib
import os
import sys
import time

from harness import ROOT, check, serving
from harness.clerks import GOLD, Clerk, is_heard
from harness.network import address_of_lo, loopback, port_of, sends_as_client, took
from harness.told import SECRET

sys.path.insert(0, os.path.join(ROOT, "tests", "examples"))
import leases  # noqa: E402
from examples import ip  # noqa: E402
from messages import ACK, NAK, OFFER, option, reply_in  # noqa: E402

SERVER, RELAY = "10.0.0.2", "10.64.0.1"
PORTS = [67, 37, 69, 8080]
FIRST, MODEMS, AT_ONCE = int.from_bytes(leases.address("10.64.16.0"), "big"), 200, 20
LEASE = 3600
SITE = {"server": SERVER, "secret": SECRET.hex(), "offset": -18000, "lease": LEASE, "log": "10.0.0.3"}
POOL = {"first": ip(FIRST), "last": ip(FIRST + MODEMS - 1), "prefix": 20, "router": RELAY, "relay": RELAY}
clerk = Clerk(PORTS[3])


def serial(number):
    return f"SN{number:03}"


def modem(number):
    """A modem's hardware address, what it says of itself, and the number of its messages."""
    return {"last": number, "cable": leases.vendor(serial(number).encode()), "xid": 0xABCD0000 + number}


ROWS = [f"hub 0 {SERVER} {SECRET.hex()} -18000 {LEASE} 10.0.0.3", f"pool 1 {POOL['first']} {POOL['last']} 20 {RELAY} {RELAY}",
        *(leases.modem_row(number, serial(number)) for number in range(MODEMS + 1))]


def addresses_of_lo(relays="255.255.0.0"):
    """The server's address is this machine's, in a network of its own, and so are all of relays and modems, by their mask."""
    loopback()
    address_of_lo(b"lo:1", SERVER, "255.255.255.255")
    address_of_lo(b"lo:2", RELAY, relays)


class Conversation:
    """What is sent to the office, and what the model says of it."""

    def __init__(self):
        self.model, self.words = leases.Office(ROWS), []
        self.relay, self.clients = port_of(RELAY, 67), port_of("0.0.0.0", 68)

    def say(self, data):
        """Sends a datagram by the relay, and gives what is to be answered."""
        word, reply = self.model.take(int(time.time()), data)
        self.words.append(word)
        self.send(data)
        return reply

    def send(self, data):
        sends_as_client(self.relay, data, (SERVER, PORTS[0]))

    def heard_at(self, _target, port):
        """The socket at which a reply is heard."""
        return self.relay if port == "67" else self.clients

    def hears(self, reply, what):
        """The next reply is this one, to the byte, at the place that it's for."""
        to, expected = reply
        target, port = to.rsplit(":", 1)
        came = took(self.heard_at(target, port))
        check(came is not None and came[0] == expected, f"{what}: the reply of {len(expected)} bytes to {to}")
        check(came is None or came[1] == target, f"{what}: it goes to {target}, and not to {came and came[1]}")
        return reply_in(expected) if came is not None and came[0] == expected else None

    def asks(self, data, what):
        return self.hears(self.say(data), what)

    def sockets(self):
        return self.relay, self.clients

    def is_silent(self):
        """Nothing else was sent."""
        for each in self.sockets():
            each.settimeout(0.05)
            check(took(each) is None, "nothing is sent that isn't to be")
            each.settimeout(5)


def furnish():
    """The rows that modems stand on."""
    class_ = {"name": "gold", "settings": GOLD}
    rows = [("/site", SITE), ("/classes/1", class_), ("/subscribers/7", {"active": True, "cpes": 2, "name": "Ann"}), ("/pools/1", POOL)]
    rows += [(f"/modems/{leases.mac(number).hex()}", {"subscriber": 7, "class": 1, "serial": serial(number)}) for number in range(MODEMS + 1)]
    clerk.furnishes(rows)


def boot(talk):
    """All modems, so many at once: they are offered an address, and ask for it; with a bad datagram behind each."""
    bad = list(bad_datagrams())
    for first in range(0, MODEMS, AT_ONCE):
        numbers = range(first, first + AT_ONCE)
        offered = []
        for number in numbers:
            offered.append(talk.say(leases.discover(**modem(number))))
            check(talk.say(bad[number % len(bad)]) is None, "a bad datagram has no reply")
        asked = []
        for number, reply in zip(numbers, offered):
            offer = talk.hears(reply, f"OFFER {number}")
            check(offer is not None and offer["kind"] == OFFER, f"modem {number} is offered an address")
            given = ip(int.from_bytes(offer["address"], "big")) if offer else "0.0.0.0"
            asked.append(talk.say(leases.selects(given, server=SERVER, **modem(number))))
        for number, reply in zip(numbers, asked):
            ack = talk.hears(reply, f"ACK {number}")
            check(ack is not None and ack["kind"] == ACK, f"modem {number} has its address")


def live(talk):
    """They renew, are refused, decline and release."""
    held = {number: ip(FIRST + number) for number in range(MODEMS)}
    for number in range(MODEMS):
        check(talk.asks(leases.renews(held[number], **modem(number)), f"renewal {number}") is not None, f"modem {number} renews")
    nak = talk.asks(leases.renews(held[1], **modem(0)), "a NAK without a relay")
    check(nak is not None and nak["kind"] == NAK, "a modem that renews another's address is told no")
    talk.asks(leases.selects(held[1], server=SERVER, **modem(0)), "a NAK behind the relay")
    check(talk.say(leases.discover(**modem(MODEMS))) is None, "the pool is full")
    for number in range(0, MODEMS, 10):
        check(talk.say(leases.declines(held[number], server=SERVER, **modem(number))) is None, "a DECLINE has no reply")
    for number in range(5, MODEMS, 10):
        check(talk.say(leases.releases(held[number], server=SERVER, **modem(number))) is None, "a RELEASE has no reply")
    talk.asks(leases.discover(**modem(MODEMS)), "the least free address")
    talk.asks(leases.discover(**modem(0), asked=held[195]), "an address that is asked for")
    talk.asks(leases.discover(**modem(10), way=option(2, leases.mac(10)) + option(1, bytes(251)) + option(9, bytes(41))), "300 bytes of the relay")
    talk.is_silent()


def read_back(talk):
    """Each address over HTTP: whose it is, how, and till about when."""
    for number in range(MODEMS):
        held = ip(FIRST + number)
        found = clerk.ask("GET", f"/leases/{held}")
        expected = talk.model.leases.get(leases.address(held))
        if expected is None:
            check(found == (404, b'{"fault":"no-row"}'), f"{held} has no lease")
            continue
        hold, owner, expiry = expected
        shown = found.row() if found.status == 200 else {}
        check((shown.get("state"), shown.get("owner")) == (hold, owner.hex() if owner else ""), f"{held} is {hold}")
        # On a busy machine the office takes a datagram some seconds later than it was sent.
        check(expiry <= shown.get("expiry", 0) <= expiry + 20, f"{held} ends at {expiry}, and not at {shown.get('expiry')}")


@contextlib.contextmanager
def running(log, addresses=None, store="memory"):
    """The program at the server's address, once clerks are heard; it's stopped at the end."""
    with serving(PORTS, log, addresses={"OFFICED_UDP": SERVER, **(addresses or {})}, store=store) as program:
        check(is_ready(), "the program answers within some seconds")
        yield program


def is_ready():
    """Waits until clerks are heard; the tables of a store may be opened still."""
    return is_heard(PORTS[3])


def bad_datagrams():
    """One datagram for each reason for which there is no reply."""
    whole = leases.discover(**modem(0))
    last = {**modem(0)}
    yield from (b"", whole[:239], whole + bytes(1501 - len(whole)), whole[:-3], leases.reading(53, b""), leases.reading(53, b"\1", 52, b"\1"))
    yield from (leases.changed(whole, (0, 2)), leases.changed(whole, (2, 16)), leases.changed(whole, (236, 0)))
    yield leases.says(leases.INFORM, **last)
    yield leases.selects(b"\x0a\x40\0", **last)
    for change in ({"way": b"\2\6\0"}, {"remote": leases.mac(0xFF)}, {"docsis": b"pktc1.0:00"}, {"relay": "10.64.0.2"}, {"last": 0xFE},
                   {"cable": leases.vendor(b"SN")}):
        yield leases.discover(**{**last, **change})
    yield leases.selects(ip(FIRST), server="10.0.0.9", **last)
    yield leases.reboots(ip(FIRST), **modem(MODEMS))
    yield leases.declines(ip(FIRST), last=MODEMS)
    yield leases.releases(ip(FIRST), last=MODEMS)
