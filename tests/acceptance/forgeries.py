#!/usr/bin/env python3
"""Forged DHCP messages, without packaging/nftables.conf and with it, in a network of its own.

The office alone drops a message without a relay that says another client's address than its
sender's: a stranger can't give back the lease of a modem or of a device, nor renew it, while each
can from its own address. With packaging/nftables.conf a stranger, and a modem, can't speak in a
relay's name either: forged DISCOVERs and DECLINEs leave the pool as it is, and floods of one client
are cut. Modems boot all the while. It takes some seconds.
"""
# needs: nft ip
import re
import socket
import subprocess
import sys
import tempfile
import time

from harness import ROOT, check, only_alone, said, script
from harness import modems as office
from harness.modems import PORTS, RELAY, SERVER, ip, leases, modem
from harness.network import forge, took

PACKAGED = f"{ROOT}/packaging/nftables.conf"
STRANGER, NEIGHBOUR = "10.0.9.9", "10.64.200.9"
POOL_SIZE = 40


def given(number):
    return ip(office.FIRST + number)


def forged(sender, data):
    """A datagram to the DHCP port with this sender's address."""
    forge(sender, 68, SERVER, PORTS[0], data)


def state(number):
    shown = office.clerk.row(f"/leases/{given(number)}") or {}
    return shown.get("state"), shown.get("owner")


def boots(talk, number):
    """A modem boots behind the relay."""
    offer = talk.asks(leases.discover(**modem(number)), f"OFFER {number}")
    address = ip(int.from_bytes(offer["address"], "big")) if offer else "0.0.0.0"
    ack = talk.asks(leases.selects(address, server=SERVER, **modem(number)), f"ACK {number}")
    check(ack is not None, f"modem {number} boots: {address}")


def settled(log, count):
    """The words of DHCP so far, once there are so many and no more come."""
    end = time.monotonic() + 5
    while len(said(log, "dhcp")) < count and time.monotonic() < end:
        time.sleep(0.02)
    time.sleep(0.3)
    return said(log, "dhcp")


def of_the_office(talk, log):
    """What the office drops by itself."""
    for number in range(4):
        boots(talk, number)
    bound = ("bound", leases.mac(0).hex())
    check(state(0) == bound, f"modem 0 is bound: {state(0)}")
    before = len(settled(log, 8))
    for sender in (STRANGER, NEIGHBOUR, RELAY, given(1)):
        forged(sender, leases.releases(given(0), server=SERVER, **modem(0)))
        forged(sender, leases.renews(given(0), **modem(0)))
        forged(sender, leases.says(leases.DECLINE, client=given(0), relay="0.0.0.0", asked=given(0), **modem(0)))
    words = settled(log, before)[before:]
    check(words == [], f"none of 12 forged messages has a line: {words}")
    check(state(0) == bound, f"a forged RELEASE leaves the lease: {state(0)}")
    talk.is_silent()
    talk.asks(leases.renews(given(0), **modem(0)), "the modem itself renews")
    talk.say(leases.releases(given(3), server=SERVER, **modem(3)))
    check(settled(log, before + 2)[before:] == ["dhcp ack", "dhcp released"], f"from its own address it may: {said(log, 'dhcp')[before:]}")
    boots(talk, 3)


def declines(sender):
    """In the relay's name each address of the pool is asked for by a modem of the tables, and declined."""
    for number in range(POOL_SIZE):
        forged(sender, leases.discover(**modem(4), asked=given(number)))
        forged(sender, leases.declines(given(number), server=SERVER, **modem(4)))


def dropped():
    """How many packets each rule of the packaged table dropped, by its comment."""
    listed = subprocess.run(["nft", "list", "table", "inet", "officed"], capture_output=True, text=True, check=True).stdout
    return {comment: int(count) for count, comment in re.findall(r'packets (\d+) bytes \d+ drop comment "([^"]*)"', listed)}


def behind_the_rules(talk, log):
    """The packaged rules: none that isn't a relay speaks in a relay's name."""
    subprocess.run(["nft", "-f", PACKAGED], check=True)
    # Here the relay is on the office's machine, so what the office sends to it is input too.
    subprocess.run(["nft", "insert", "rule", "inet", "officed", "dhcp", "ip", "saddr", SERVER, "accept"], check=True)
    before = len(settled(log, 0))
    for sender in (STRANGER, NEIGHBOUR, given(1)):
        declines(sender)
    words = settled(log, before)[before:]
    check(words == [], f"none of {6 * POOL_SIZE} messages in the relay's name has a line: {words[:3]}")
    for number in range(5, 15):
        boots(talk, number)
    talk.asks(leases.renews(given(1), **modem(1)), "a modem renews")
    before = len(settled(log, 0))
    for _ in range(200):
        forged(given(2), leases.renews(given(2), **modem(2)))
    heard = len(settled(log, before)) - before
    check(5 <= heard <= 15, f"of 200 renewals of one modem at once 10 come through, not {heard}")
    check(len(settled(log, 0)) > 0 and time_is_told(given(1)) and not time_is_told(STRANGER), "the time is told to modems alone")
    found = dropped()
    check(found.get("neither relay nor client") == 2 * POOL_SIZE and found.get("a client in a relay's name") == 4 * POOL_SIZE
          and found.get("too much of a client", 0) >= 0, f"what was dropped: {found}")
    print(f"dropped by the rules: {found}")
    while took(talk.clients) is not None:
        talk.clients.settimeout(0.2)
    talk.clients.settimeout(5)


def time_is_told(address):
    with socket.socket(socket.AF_INET, socket.SOCK_DGRAM) as client:
        client.bind((address, 0))
        client.settimeout(1)
        client.sendto(b"", (SERVER, PORTS[1]))
        try:
            return len(client.recv(64)) == 4
        except OSError:
            return False


def in_its_own():
    office.addresses_of_lo()
    subprocess.run(["ip", "address", "add", f"{STRANGER}/32", "dev", "lo"], check=True)
    office.POOL["last"] = given(POOL_SIZE - 1)
    with tempfile.TemporaryFile() as log:
        with office.running(log):
            office.furnish()
            talk = office.Conversation()
            of_the_office(talk, log)
            behind_the_rules(talk, log)
            for number in range(15, 30):
                boots(talk, number)
            print(f"{len(said(log, 'dhcp'))} lines of DHCP")


def main():
    return only_alone(in_its_own, 120, "forged messages change nothing")


if __name__ == "__main__":
    sys.exit(script(main, in_its_own))
