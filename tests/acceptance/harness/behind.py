"""Devices behind modems, each of whose replies is compared with the model of tests/examples: their rows, what they say, and an office that hears them."""
import socket
import struct
import time

from harness import check
from harness import modems
from harness.modems import MODEMS, PORTS, RELAY, SERVER, clerk, leases
from harness.network import IP_PKTINFO, address_of_lo, port_of

# harness.modems has the models' folder found before that of the scripts, one of which has this name too.
import devices as model
from messages import DISCOVER, RELEASE, REQUEST, message, option, split

# The first relay is the modems' too; of the last one's pool there are two addresses.
RELAYS, NARROW = [RELAY, *(f"10.128.{place}.1" for place in range(1, 8))], "10.129.0.1"
FAR, CABLE = RELAYS[1], "10.130.0.1"
# How many devices there may be behind a modem, by the number of its subscriber; the third subscriber is suspended for a while.
MAY_HAVE = {3: 3, 2: 2, 5: 3}
# Pools for devices: the relay, the first address and the last.
POOLS = {1: (RELAY, "10.64.64.0", "10.64.64.99"), **{place: (f"10.128.{place - 1}.1", f"10.128.{place - 1}.10", f"10.128.{place - 1}.109") for place in range(2, 9)},
         9: (NARROW, "10.129.0.10", "10.129.0.11")}


def subscriber_of(number):
    return 5 if number % 10 == 9 else 3 if number % 2 else 2


def may_have(number):
    return MAY_HAVE[subscriber_of(number)]


def pool_row(number):
    relay, first, last = POOLS[number]
    return f"device-pool {number} {first} {last} 22 {relay} {relay}"


def body_of(relay, first, last, prefix=22):
    return {"first": first, "last": last, "prefix": prefix, "router": relay, "relay": relay}


def subscriber_row(number, active=True):
    return f'subscriber {number} {"active" if active else "suspended"} {MAY_HAVE[number]} "Ann"'


ROWS = [*(row for row in modems.ROWS if not row.startswith("modem")), 'class 1 "gold" 24{ 1=0001 6=07 } 25{ 1=0002 6=07 }', *map(subscriber_row, MAY_HAVE),
        *(f'modem {leases.mac(number).hex()} {subscriber_of(number)} 1 "{modems.serial(number)}"' for number in range(MODEMS + 1))]


# ---- what devices say

def mac_of(number, device):
    """The hardware address of a device behind a modem."""
    return b"\x06" + leases.mac(number)[2:] + bytes([device])


def relay_of(number, device):
    return RELAYS[(number + device) % len(RELAYS)]


def says(kind, number, device, relay="", client="0.0.0.0", asked=None, server=None):
    """A device's message, with what clients say of themselves; its relay names the modem. Without a relay it comes from the device itself."""
    relay, mac = relay_of(number, device) if relay == "" else relay or "0.0.0.0", mac_of(number, device)
    options = b"".join(option(code, leases.address(value)) for code, value in ((50, asked), (54, server)) if value is not None)
    options += option(55, bytes((1, 3, 6, 12, 15, 28, 42))) + option(60, b"udhcp 1.36.1") + option(61, b"\x01" + mac) + option(12, b"device-%d" % device)
    options += split(82, leases.agent(leases.mac(number))) if relay != "0.0.0.0" else b""
    return message(kind, mac, options, leases.address(relay), leases.address(client), xid=number << 8 | device)


def discovers(number, device, **what):
    return says(DISCOVER, number, device, **what)


def selects(held, number, device, **what):
    return says(REQUEST, number, device, asked=held, server=SERVER, **what)


def renews(held, number, device):
    return says(REQUEST, number, device, client=held, relay=None)


def releases(held, number, device):
    return says(RELEASE, number, device, client=held, relay=None, server=SERVER)


def with_way(data, way):
    """A message that has no word of a relay, with this one."""
    return data[:-1] + way + b"\xff"


class Talk(modems.Conversation):
    """What is sent to the office, and what the model says of it. A message without a relay goes out from the device's own address."""

    def __init__(self, rows):
        super().__init__()
        self.model = model.Behind(rows)
        self.relays = {RELAY: self.relay, **{relay: port_of(relay, 67) for relay in (*RELAYS[1:], NARROW)}}

    def send(self, data):
        relay, client = data[24:28], data[12:16]
        if relay == bytes(4) and client != bytes(4):
            source = struct.pack("=i4s4s", 0, client, bytes(4))
            self.clients.sendmsg([data], [(socket.IPPROTO_IP, IP_PKTINFO, source)], 0, (SERVER, PORTS[0]))
        else:
            self.relays.get(leases.text_of(relay), self.relay).sendto(data, (SERVER, PORTS[0]))

    def heard_at(self, target, port):
        return self.relays[target] if port == "67" else self.clients

    def sockets(self):
        return *self.relays.values(), self.clients

    def close(self):
        for each in self.sockets():
            each.close()

    def puts(self, path, body, row):
        """A row that is put, in the office and in the model."""
        self.settles()
        clerk.puts(path, body)
        status, _, _ = self.model.clerk(int(time.time()), path, row)
        check(status == 200, f"the model's {path}")

    def settles(self):
        """Waits until all that was sent is done: what comes to two ports is taken in either order."""
        self.asks(leases.who_has("10.99.0.1", relay=RELAY), "a relay's query")

    def last_word(self):
        return self.words[-1]


def furnish():
    """The rows of the model, by a clerk."""
    rows = [("/site", modems.SITE), ("/classes/1", {"name": "gold", "settings": modems.GOLD}), ("/pools/1", modems.POOL)]
    rows += [(f"/subscribers/{number}", {"active": True, "cpes": devices, "name": "Ann"}) for number, devices in MAY_HAVE.items()]
    rows += [(f"/modems/{leases.mac(number).hex()}", {"subscriber": subscriber_of(number), "class": 1, "serial": modems.serial(number)}) for number in range(MODEMS + 1)]
    rows += [(f"/device-pools/{number}", body_of(*pool)) for number, pool in POOLS.items()]
    clerk.furnishes(rows)


def addresses_of_lo():
    """All addresses of modems, of their devices and of relays are this machine's, in a network of its own."""
    modems.addresses_of_lo()
    for name, address in ((b"lo:3", "10.128.0.1"), (b"lo:4", NARROW)):
        address_of_lo(name, address, "255.255.0.0")
