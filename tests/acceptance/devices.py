#!/usr/bin/env python3
"""officed as the devices behind two hundred modems see it: DHCP over real sockets, through relays and without, in a network of its own.

A relay boots 200 modems, and devices boot behind them, twenty at a time, through that relay and seven others: three each, of which the last is refused where
the subscriber may have two, and a fourth where three. They renew from their own addresses, without a relay; some are told no, some decline and some release; a
subscriber is suspended, modems give their addresses back and boot again, and a clerk is refused what pools for devices may not be, once for each reason. Each
byte of each reply, and the word of each line of the log, is compared with the model of tests/examples/devices.py. That goes over memory, over a file of
SQLite's format and over a journal. Over the last two the office is first killed, three times or as often as OFFICE_KILLS says, while all devices boot at once:
no address was acknowledged to two devices, each that was acknowledged is kept, no modem has more than it may and none has an address of a modems' pool, as this
script reads the file; then the office starts again, and the model goes on from the file's rows. Stores that somebody else wrote are opened, or refused by the
least key that breaks its line. Where `unshare -rn` isn't allowed it says so and skips. It ends what it started, and takes under a minute.
"""
import collections
import contextlib
import os
import random
import select
import signal
import sys
import tempfile
import threading
import time

# Before the modems, whose models have a module of the name of one that it takes.
import store
import journal_kills
from harness import check, have_their_lines, kill, only_alone, said, script, start
from harness import modems
from harness.behind import (CABLE, FAR, MAY_HAVE, NARROW, POOLS, ROWS, Talk, addresses_of_lo, body_of, discovers, furnish, mac_of, may_have,
                            pool_row, relay_of, releases, renews, says, selects, subscriber_of, subscriber_row, with_way)
from harness.modems import AT_ONCE, MODEMS, PORTS, RELAY, SERVER, clerk, ip, leases, running
from harness.network import port_of, took
from harness.told import SECRET

sys.dont_write_bytecode = True
import tftp  # noqa: E402
from messages import ACK, DECLINE, DISCOVER, NAK, OFFER, RELEASE, REQUEST, reply_in, split  # noqa: E402

KILLS = int(os.environ.get("OFFICE_KILLS", "3"))
STORES = {"a file": ("", store.rows_of), "a journal": ("journal:", journal_kills.rows_of)}
# Addresses that no device has been given, for what a clerk may not do.
SPARE = "10.131.0."
OFFERED, BOUND, DECLINED = 1, 2, 3
HOLDS = {OFFERED: "offered", BOUND: "bound", DECLINED: "declined"}
LATE = 20


# ---- what clerks may and may not do with pools for devices

def refusals():
    """What is refused while no device has a lease: the method, the path, the body, the status and what is answered."""
    good = body_of(FAR, SPARE + "10", SPARE + "20")
    pool = {**good, "hub": 0}
    yield "GET", "/device-pools/99", None, 404, {"fault": "no-row"}
    yield "DELETE", "/device-pools/99", None, 404, {"fault": "no-row"}
    yield "POST", "/device-pools/99", good, 405, {"fault": "no-method"}
    yield "PUT", "/device-pools/x", good, 404, {"fault": "no-path"}
    yield "PUT", "/device-pools/99", [], 400, {"fault": "not-json"}
    for field in good:
        yield "PUT", "/device-pools/99", {name: value for name, value in good.items() if name != field}, 400, {"at": field, "fault": "field"}
    for field, value in (("first", "10.131.0"), ("last", 7), ("prefix", 31), ("prefix", 7), ("prefix", True), ("router", None), ("relay", "0.0.0.0")):
        yield "PUT", "/device-pools/99", {**good, field: value}, 400, {"at": field, "fault": "value"}
    yield "PUT", "/device-pools/99", {**good, "first": SPARE + "21"}, 422, {"fault": "pool-size"}
    yield "PUT", "/device-pools/99", body_of(FAR, "10.131.0.0", "10.131.16.0"), 422, {"fault": "pool-size"}
    yield "PUT", "/device-pools/99", body_of(FAR, "10.64.16.7", "10.64.16.7"), 409, {"at": "1", "fault": "pool-overlap"}
    yield "PUT", "/device-pools/1", body_of(FAR, "10.64.16.7", "10.64.16.7"), 409, {"at": "1", "fault": "pool-overlap"}
    # The least pool is told, and the overlap before the relay.
    yield "PUT", "/device-pools/99", body_of(FAR, "10.128.1.109", "10.128.1.110"), 409, {"at": "2", "fault": "device-overlap"}
    yield "PUT", "/device-pools/0", body_of(RELAY, "10.129.0.11", "10.129.0.99"), 409, {"at": "9", "fault": "device-overlap"}
    yield "PUT", "/device-pools/99", good, 409, {"at": "2", "fault": "relay-taken"}
    yield "PUT", "/device-pools/1", {**body_of(*POOLS[1]), "relay": NARROW}, 409, {"at": "9", "fault": "relay-taken"}
    yield "PUT", "/pools/2", {**pool, "first": "10.129.0.0", "last": "10.129.0.10"}, 409, {"at": "9", "fault": "device-overlap"}
    yield "PUT", "/pools/1", {**modems.POOL, "last": "10.64.64.0"}, 422, {"fault": "pool-size"}
    yield "PUT", "/pools/1", {**modems.POOL, "first": "10.64.60.0", "last": "10.64.64.0"}, 409, {"at": "1", "fault": "device-overlap"}


def is_refused(method, path, body, status, answer):
    found = clerk.ask(method, path, body)
    check((found.status, found.row()) == (status, answer), f"{method} {path} {body}: {found}, and not {status} {answer}")


def are_refused():
    """What can't be a pool for devices is refused, each for its reason, and nothing is changed by that."""
    for refusal in refusals():
        is_refused(*refusal)
    for number, pool in POOLS.items():
        clerk.shows(f"/device-pools/{number}", body_of(*pool), "a refused change leaves it")


def as_many_as_may_be():
    """64 pools for devices, and no other; but one of them is put again."""
    free = range(10, 10 + 64 - len(POOLS))
    for number in free:
        clerk.puts(f"/device-pools/{number}", body_of(f"10.131.1.{number}", SPARE + str(number), SPARE + str(number)))
    is_refused("PUT", "/device-pools/99", body_of("10.131.1.9", SPARE + "9", SPARE + "9"), 422, {"at": "64", "fault": "limit"})
    # One of them is put again where there are 64.
    clerk.puts("/device-pools/10", body_of("10.131.1.10", SPARE + "9", SPARE + "10"))
    for number in free:
        clerk.removes(f"/device-pools/{number}")


# ---- devices boot, and live

def boot(talk, places):
    """Devices (of a modem each) are offered an address and ask for it, all at once; gives what each was acknowledged."""
    asked, held = [], {}
    offered = [(place, talk.say(discovers(*place))) for place in places]
    for place, reply in offered:
        offer = talk.hears(reply, f"OFFER {place}") if reply else None
        if offer:
            asked.append((place, talk.say(selects(leases.text_of(offer["address"]), *place))))
    for place, reply in asked:
        ack = talk.hears(reply, f"ACK {place}") if reply else None
        check(ack is not None and ack["kind"] == ACK, f"device {place} has its address")
        if ack:
            held[place] = leases.text_of(ack["address"])
    return held


def boot_all(talk, devices=4):
    """So many devices behind each modem, in turns."""
    held = {}
    for device in range(1, devices + 1):
        for first in range(0, MODEMS, AT_ONCE):
            held.update(boot(talk, [(number, device) for number in range(first, first + AT_ONCE)]))
    return held


def bind_offers(talk):
    """Whoever was offered an address takes it, so that no offer ends meanwhile: the office's clock is read a little later than the model's."""
    offered = [(at, owner) for at, (hold, owner, _) in sorted(talk.model.devices.items()) if hold == "offered"]
    for at, (modem, device) in offered:
        place, held = (modem[5], device[5]), leases.text_of(at)
        talk.hears(talk.say(selects(held, *place)), f"device {place} takes {held}")


def as_many_as_may(held):
    """Each modem's devices have addresses, but no more than its subscriber may have; each address is another, of the relay's pool for devices."""
    count = collections.Counter(number for number, _ in held)
    wrong = [number for number in range(MODEMS) if count[number] != may_have(number)]
    check(not wrong, f"as many devices as may be: {[(number, count[number]) for number in wrong[:3]]}")
    check(len(set(held.values())) == len(held), "no address is acknowledged to two devices")
    ranges = {relay: (leases.address(first), leases.address(last)) for relay, first, last in POOLS.values()}
    for place, address in held.items():
        first, last = ranges[relay_of(*place)]
        check(first <= leases.address(address) <= last, f"device {place} has {address} of its relay's pool")


def renew(talk, held):
    """All renew from their own addresses, without a relay, so many at once."""
    places = list(held)
    for first in range(0, len(places), AT_ONCE):
        asked = [(place, talk.say(renews(held[place], *place))) for place in places[first:first + AT_ONCE]]
        for place, reply in asked:
            ack = talk.hears(reply, f"renewal {place}") if reply else None
            check(ack is not None and ack["kind"] == ACK and leases.text_of(ack["address"]) == held[place], f"device {place} renews {held[place]}")


def is_unanswered(talk, data, word):
    check(talk.say(data) is None and talk.last_word() == word, f"{word}, and not {talk.last_word()}")


def is_told_no(talk, data, what):
    nak = talk.hears(talk.say(data), what)
    check(nak is not None and nak["kind"] == NAK and talk.last_word() == "cpe-not-yours", f"{what}: {talk.last_word()}")


def quarrel(talk, held):
    """Devices ask for what is others', decline and release, and others get what is left."""
    (one, its), (other, others) = (next(each for each in held.items() if each[0][0] == number) for number in (10, 11))
    spare = next((10, device) for device in range(1, 5) if (10, device) not in held)
    is_told_no(talk, selects(others, *one), "another's address is selected")
    is_told_no(talk, says(REQUEST, *one, asked=others), "another's address is asked for at a start")
    is_told_no(talk, selects(its, *one, relay=FAR if relay_of(*one) == RELAY else RELAY), "an address of another pool than the relay's")
    is_told_no(talk, with_way(renews(others, *one), split(82, leases.agent(leases.mac(one[0])))), "another's address is renewed, which is told to all")
    is_unanswered(talk, renews(others, *one), "not-a-modem")
    is_unanswered(talk, says(RELEASE, *one, client=others, server=SERVER), "cpe-no-record")
    is_unanswered(talk, says(REQUEST, *one, asked=its, server="10.0.0.9"), "cpe-other-server")
    is_unanswered(talk, discovers(*one, relay="10.99.0.1"), "cpe-no-pool")
    is_unanswered(talk, discovers(*spare), "cpe-limit")
    is_unanswered(talk, releases(its, *one), "cpe-released")
    left = boot(talk, [spare])
    is_unanswered(talk, discovers(*one), "cpe-limit")
    is_unanswered(talk, says(DECLINE, *other, asked=others, server=SERVER), "cpe-declined")
    again = boot(talk, [other])
    check(set(left) == {spare} and set(again) == {other} and again[other] != others, f"what is left is given, and a declined address rests: {left} {again}")
    del held[one]
    held.update({**left, **again})


def full_pool(talk, held):
    """Two devices get the two addresses of a pool and a third none; then a clerk makes room, and may not take a leased address away."""
    places = [next(place for place in held if place[0] == number) for number in (21, 23, 25)]
    for place in places[:2]:
        offer = talk.hears(talk.say(discovers(*place, relay=NARROW)), f"OFFER {place}")
        held[place] = leases.text_of(offer["address"])
        talk.hears(talk.say(selects(held[place], *place, relay=NARROW)), f"ACK {place}")
    is_unanswered(talk, discovers(*places[2], relay=NARROW), "cpe-pool-full")
    first = {"at": "10.129.0.10", "fault": "pool-has-leases"}
    talk.settles()
    is_refused("DELETE", "/device-pools/9", None, 409, first)
    is_refused("PUT", "/device-pools/9", body_of(NARROW, "10.129.0.12", "10.129.0.20"), 409, first)
    is_refused("PUT", "/device-pools/9", body_of(NARROW, "10.129.0.10", "10.129.0.10"), 409, {"at": "10.129.0.11", "fault": "pool-has-leases"})
    talk.puts("/device-pools/9", body_of(NARROW, "10.129.0.10", "10.129.0.12"), f"device-pool 9 10.129.0.10 10.129.0.12 22 {NARROW} {NARROW}")
    talk.hears(talk.say(discovers(*places[2], relay=NARROW)), "room is made")
    del held[places[2]]


def suspended(talk, held):
    """A suspended subscriber's devices get nothing, may give back, and are served again when the subscriber is."""
    path, body = "/subscribers/5", {"active": True, "cpes": MAY_HAVE[5], "name": "Ann"}
    (one, its), (other, others), *_ = [(place, address) for place, address in held.items() if subscriber_of(place[0]) == 5]
    talk.puts(path, {**body, "active": False}, subscriber_row(5, False))
    for data in (discovers(*one), selects(its, *one), says(REQUEST, *one, asked=its), renews(its, *one), discovers(9, 200)):
        is_unanswered(talk, data, "cpe-suspended")
    is_unanswered(talk, releases(others, *other), "cpe-released")
    talk.puts(path, body, subscriber_row(5))
    renew(talk, {one: its})
    held.update(boot(talk, [other]))


def offline(talk, held):
    """A modem gives its address back, and its devices get nothing until it boots again; then they go on with what they had."""
    number = 32
    its, theirs = ip(modems.FIRST + number), {place: address for place, address in held.items() if place[0] == number}
    check(talk.say(leases.releases(its, server=SERVER, **modems.modem(number))) is None and talk.last_word() == "released", "a modem gives its address back")
    for place, address in theirs.items():
        for data in (discovers(*place), selects(address, *place), renews(address, *place), releases(address, *place),
                     says(DECLINE, *place, asked=address, server=SERVER)):
            is_unanswered(talk, data, "cpe-offline")
    talk.hears(talk.say(leases.discover(**modems.modem(number))), "the modem is offered an address")
    is_unanswered(talk, discovers(number, 1), "cpe-offline")
    talk.hears(talk.say(leases.selects(its, server=SERVER, **modems.modem(number))), "the modem boots again")
    renew(talk, theirs)


def gone(talk, held):
    """A modem is removed, and its devices get nothing, but may give back; when it's there again, they go on."""
    number = 40
    (one, its), (other, others) = [each for each in held.items() if each[0][0] == number]
    path, row = f"/modems/{leases.mac(number).hex()}", next(row for row in ROWS if row.startswith(f"modem {leases.mac(number).hex()}"))
    talk.settles()
    clerk.removes(path)
    check(talk.model.clerk(int(time.time()), path, None)[0] == 200, "the model removes the modem")
    is_unanswered(talk, discovers(*one), "relay-mismatch")
    is_unanswered(talk, renews(its, *one), "cpe-suspended")
    is_unanswered(talk, releases(others, *other), "cpe-released")
    talk.puts(path, {"subscriber": subscriber_of(number), "class": 1, "serial": modems.serial(number)}, row)
    renew(talk, {one: its})
    held.update(boot(talk, [other]))


def other_hub(talk, held):
    """The values of the hub change, and devices are served by the new ones; then they change back."""
    one, its = next(each for each in held.items() if each[0][0] == 42)
    hub = next(row for row in ROWS if row.startswith("hub 0 "))
    talk.puts("/site", {**modems.SITE, "server": "10.0.0.9", "lease": 86_400, "log": "0.0.0.0"}, f"hub 0 10.0.0.9 {SECRET.hex()} -18000 86400 0.0.0.0")
    is_unanswered(talk, selects(its, *one), "cpe-other-server")
    talk.hears(talk.say(says(REQUEST, *one, asked=its, server="10.0.0.9")), "an ACK of the new server")
    renew(talk, {one: its})
    talk.puts("/site", modems.SITE, hub)
    renew(talk, {one: its})


def other_services(talk, held):
    """A relay's query knows no device, and a device reads no file."""
    one, its = next(iter(held.items()))
    talk.asks(leases.who_has(its, relay=RELAY), "a query about a device's address")
    check(talk.last_word() == "query-unknown", f"which is no modem's: {talk.last_word()}")
    talk.asks(leases.query(hardware=mac_of(*one), relay=leases.address(RELAY)), "a query about a device")
    check(talk.last_word() == "query-unknown", f"which is no modem: {talk.last_word()}")
    with port_of(its, 5000) as client:
        for name in (b"x", leases.name_of(SECRET, mac_of(*one), leases.address(its)), leases.name_of(SECRET, leases.mac(one[0]), leases.address(its))):
            client.sendto(tftp.request(name), (SERVER, PORTS[2]))
            check((took(client) or (b"",))[0] == tftp.error(2, "no lease"), "a device's read request is refused")


def wanderers(talk):
    """A device without a relay's word, or with that of a modem that isn't on record or is itself, is none; a modem behind another one is one."""
    way, bare = (lambda mac: split(82, leases.agent(mac))), says(DISCOVER, 40, 1, relay=RELAY).replace(split(82, leases.agent(leases.mac(40))), b"")
    is_unanswered(talk, bare, "not-a-modem")
    is_unanswered(talk, with_way(bare, way(bytes(6))), "relay-mismatch")
    is_unanswered(talk, with_way(bare, way(mac_of(40, 1))), "not-a-modem")
    is_unanswered(talk, with_way(bare, way(leases.mac(40)[:5])), "not-a-modem")
    is_unanswered(talk, with_way(bare, split(82, leases.agent(leases.mac(40))[:-1])), "part-cut")
    is_unanswered(talk, with_way(bare, way(leases.mac(MODEMS))), "cpe-offline")
    is_unanswered(talk, leases.discover(remote=leases.mac(40), **modems.modem(41)), "cpe-limit")


def live(talk):
    """All that devices do while nobody kills the office."""
    held = boot_all(talk)
    as_many_as_may(held)
    renew(talk, held)
    for act in (quarrel, full_pool, suspended, offline, gone, other_hub, other_services):
        act(talk, held)
    wanderers(talk)
    talk.is_silent()
    return held


# ---- what a file has

def row_of(key, row):
    """A lease's row as the model reads it, or None of another kind."""
    kind, at, hold = key[0], leases.text_of(key[1:5]), HOLDS.get(row[0])
    if kind == 8:
        return f"held {key[1:].hex()} {leases.text_of(row)}"
    if kind not in (7, 13):
        return None
    owner = "" if row[0] == DECLINED else f" {row[1:7].hex()}" + (f" {row[7:13].hex()}" if kind == 13 else "")
    return f"{'lease' if kind == 7 else 'device'} {at} {hold}{owner} {int.from_bytes(row[-8:], 'big')}"


def devices_in(rows):
    """The devices' leases of a file: by address the hold, the modem and the device, and the end."""
    found = [(key[1:5], row) for key, row in rows.items() if key[0] == 13]
    return {leases.text_of(at): (row[0], (row[1:7], row[7:13]) if row[0] != DECLINED else None, int.from_bytes(row[-8:], "big")) for at, row in found}


def is_sound(rows, now):
    """What is promised of devices, as the file has it: one address a device, each in one pool for devices and in none of modems, no more live ones than may be."""
    found = devices_in(rows)
    owners = [owner for _, owner, _ in found.values() if owner]
    check(len(set(owners)) == len(owners), "no device has two addresses behind one modem")
    for at in found:
        around = [number for number, (_, first, last) in POOLS.items() if leases.address(first) <= leases.address(at) <= leases.address(last)]
        check(len(around) == 1, f"{at} is in one pool for devices: {around}")
    live = collections.Counter(owner[0] for _, owner, ends in found.values() if owner and ends > now)
    over = [(number, live[leases.mac(number)]) for number in range(MODEMS) if live[leases.mac(number)] > may_have(number)]
    check(not over, f"no modem has more devices than it may: {over[:3]}")
    return found


def is_kept(rows, acknowledged):
    """Each address that was acknowledged is its device's, till what was acknowledged or later."""
    found = is_sound(rows, int(time.time()))
    for place, (address, ends) in acknowledged.items():
        hold, owner, end = found.get(address, (0, None, 0))
        check((hold, owner) == (BOUND, (leases.mac(place[0]), mac_of(*place))), f"device {place} has {address}: {hold} {owner}")
        check(end >= ends, f"and till what was acknowledged: {end}, {ends}")
    check(len({address for address, _ in acknowledged.values()}) == len(acknowledged), "no address was acknowledged to two devices")


def is_as_the_model(rows, talk):
    """The file's leases of devices are the model's; on a busy machine the office takes a datagram some seconds later than it was sent."""
    found, expected = devices_in(rows), talk.model.devices
    check(set(found) == {leases.text_of(at) for at in expected}, "the same addresses have leases in the file and in the model")
    for at, (hold, owner, ends) in expected.items():
        row = found.get(leases.text_of(at), (0, None, 0))
        check((HOLDS.get(row[0]), row[1]) == (hold, owner) and ends <= row[2] <= ends + LATE, f"{leases.text_of(at)}: {row}, and not {hold} {owner} {ends}")


# ---- stores that somebody else wrote

def row_of_pool(relay, first, last):
    return leases.address(first) + leases.address(last) + b"\x16" + 2 * leases.address(relay)


def row_of_device(modem, device, hold=BOUND, ends=2**62):
    return bytes([hold]) + (b"" if hold == DECLINED else leases.mac(modem) + mac_of(modem, device)) + ends.to_bytes(8, "big")


def at(address):
    return b"\x0d" + leases.address(address)


# What a store has beside the pools of this script, for modems and for devices; and the least key that breaks its line, or None where all are good.
STORED = [
    ("leases of two devices behind a modem, and of one behind two",
     [(at(f"10.64.64.{last}"), row_of_device(modem, device)) for last, (modem, device) in enumerate(((1, 1), (1, 2), (2, 1)))], None),
    ("more live leases than a subscriber may have, none of whose modems is there", [(at(f"10.64.64.{last}"), row_of_device(1, last)) for last in range(1, 9)], None),
    ("leases that have ended or were declined", [(at("10.64.64.0"), row_of_device(1, 1, ends=0)), (at("10.64.64.1"), row_of_device(0, 0, DECLINED))], None),
    ("an address of no pool", [(at("10.99.0.1"), row_of_device(1, 1))], "device 10.99.0.1"),
    ("an address of a modems' pool", [(at("10.64.16.3"), row_of_device(1, 1))], "device 10.64.16.3"),
    ("a modem's lease in a pool for devices", [(b"\7" + leases.address("10.64.64.0"), b"\3" + bytes(8))], "lease 10.64.64.0"),
    ("two leases of a device", [(at("10.64.64.7"), row_of_device(1, 1)), (at("10.128.1.10"), row_of_device(1, 1, OFFERED, 0))], "device 10.64.64.7"),
    ("two leases of two devices", [(at(f"10.64.64.{last}"), row_of_device(1, device)) for last, device in ((9, 2), (8, 1), (7, 2), (6, 3), (5, 1))], "device 10.64.64.5"),
    ("a pool for devices that overlaps a pool", [(b"\x0c\0\0\0\x10", row_of_pool(CABLE, "10.64.16.7", "10.64.16.7"))], "pool 1"),
    ("pools for devices that overlap", [(b"\x0c\0\0\0\x10", row_of_pool(CABLE, "10.128.1.109", "10.128.1.200"))], "device-pool 2"),
    ("pools for devices with one relay", [(b"\x0c\0\0\0\x10", row_of_pool(NARROW, "10.130.0.1", "10.130.0.9"))], "device-pool 9"),
    ("a pool for devices without addresses", [(b"\x0c\0\0\0\x10", row_of_pool(CABLE, "10.130.0.9", "10.130.0.1"))], "device-pool 16"),
    ("a pool for devices of 4,097 addresses", [(b"\x0c\0\0\0\x10", row_of_pool(CABLE, "10.130.0.0", "10.130.16.0"))], "device-pool 16"),
]
GOOD = row_of_device(1, 1)
UNSPELLED = [GOOD[:-1], GOOD + b"\0", b"\4" + GOOD[1:], b"\0" + bytes(8), b"\3" + GOOD[1:], row_of_device(1, 1, DECLINED)[1:], b""]


def stored():
    """What a start says of rows that somebody else wrote: the least key that breaks its line; a row of another spelling is none."""
    values = leases.address(SERVER) + bytes([len(SECRET)]) + SECRET + bytes(4) + (3600).to_bytes(4, "big") + bytes(4)
    known = [(b"\x0a\0\0\0\0", values), (b"\6\0\0\0\1", row_of_pool(RELAY, modems.POOL["first"], modems.POOL["last"])),
             *((b"\x0c" + number.to_bytes(4, "big"), row_of_pool(*pool)) for number, pool in POOLS.items())]
    tried = [(what, rows, (0, "") if key is None else (2, f"tables refused {key}\n")) for what, rows, key in STORED]
    tried += [(f"the row {row.hex()}", [(at("10.64.64.0"), row)], (11, "")) for row in UNSPELLED]
    for what, rows, expected in tried:
        with store.folder() as (_, path):
            journal_kills.made(path, journal_kills.journal_of(known + rows))
            found = store.ended(f"journal:{path}")
            check(found == expected, f"{what}: {found}, and not {expected}")


# ---- kills while all boot

class Booting(threading.Thread):
    """Devices boot, so many at once and by chance, until the office is gone; `held` is what was acknowledged to whom, and till when at least."""

    def __init__(self, talk, places, held):
        super().__init__()
        self.talk, self.places, self.held, self.acks, self.over = talk, places, held, 0, threading.Event()

    def run(self):
        for first in range(0, len(self.places), AT_ONCE):
            for place in self.places[first:first + AT_ONCE]:
                self.talk.send(discovers(*place))
            self.hear()

    def hear(self):
        """Takes answers until none comes for a while, which some devices are refused."""
        patience = 2.0
        while not self.over.is_set() and (ready := select.select(list(self.talk.relays.values()), [], [], patience)[0]):
            patience = 0.2
            for each in ready:
                self.take(each.recv(4096))

    def goes_on(self, count):
        """Waits until so many were acknowledged, or all had their turn."""
        while self.acks < count and self.is_alive():
            time.sleep(0.001)

    def take(self, data):
        reply, xid = reply_in(data), int.from_bytes(data[4:8], "big")
        place, given = (xid >> 8, xid & 255), leases.text_of(reply["address"])
        if reply["kind"] == OFFER:
            self.talk.send(selects(given, *place))
        elif reply["kind"] == ACK:
            lasts = int.from_bytes(dict(reply["options"])[51], "big")
            check(self.held.get(place, (given, 0))[0] == given, f"device {place} has one address: {given}")
            self.held[place] = (given, int(time.time()) + lasts - LATE)
            self.acks += 1


def drained(talk):
    """Takes what is left at the sockets."""
    for each in talk.sockets():
        each.setblocking(False)
        while took(each) is not None:
            pass
        each.settimeout(5)


def starts(path):
    with tempfile.TemporaryFile() as log:
        program = start(PORTS, 10**9, log, {"OFFICED_UDP": SERVER}, store=path)
    check(modems.is_ready(), "the office starts")
    # Who connects is answered once the tables are open.
    clerk.ask("GET", "/site")
    return program


def storm(talk, program, path, rows, kind):
    """The office is killed again and again while devices boot; gives the rows of the file at the end."""
    acknowledged, chance = {}, random.Random()
    places = [(number, device) for number in range(MODEMS) for device in range(1, 5)]
    for turn in range(KILLS):
        if turn:
            program = starts(path)
        booting = Booting(talk, chance.sample(places, len(places)), acknowledged)
        booting.start()
        booting.goes_on(chance.randrange(20, 150))
        time.sleep(chance.uniform(0, 0.02))
        kill(program)
        booting.over.set()
        booting.join(timeout=store.PATIENCE)
        drained(talk)
        is_kept(rows(), acknowledged)
    print(f"{KILLS} kills while devices boot over {kind}: {len(acknowledged)} have addresses, and keep them")
    return rows()


# ---- an office over a store

def over(kind, act, rows=ROWS, path="memory", is_new=True):
    """An office over a store, which is furnished where it's new; does what is to be done, and compares the words; gives what was said."""
    talk = Talk(rows)
    with contextlib.closing(talk), tempfile.TemporaryFile() as log:
        with running(log, store=path) as program:
            if is_new:
                furnish()
                for number in POOLS:
                    talk.model.put(pool_row(number))
                modems.boot(talk)
            act(talk, program)
            if program.poll() is None:
                # Whoever asks behind the last datagram finds its line written.
                talk.settles()
                clerk.ask("GET", "/site")
        # What devices said while they were heard by nobody else has its lines behind those of the model.
        lines = said(log, "dhcp")
        have_their_lines(lines if program.returncode == -signal.SIGTERM else lines[:len(talk.words)], [f"dhcp {word}" for word in talk.words], f"{kind}: ")
    return talk


def lived(kind):
    def act(talk, _):
        bind_offers(talk)
        held = live(talk)
        print(f"over {kind}: {len(held)} devices behind {MODEMS} modems, {len(talk.words)} datagrams in all")
    return act


def on_disk(kind):
    """Kills first; then all that is done over memory, from what the file has; and what the file has at the end."""
    prefix, rows_of = STORES[kind]
    with store.folder() as (_, name):
        left = {}
        over(kind, lambda talk, program: left.update(storm(talk, program, prefix + name, lambda: rows_of(name), kind)), path=prefix + name)
        rows = [*ROWS, *map(pool_row, POOLS), *filter(None, (row_of(*each) for each in sorted(left.items())))]
        talk = over(kind, lived(kind), rows, prefix + name, is_new=False)
        is_as_the_model(rows_of(name), talk)


# ---- the whole

def booting():
    """Runs in a network of its own, where nobody has these ports and all addresses may be this machine's."""
    addresses_of_lo()

    def in_memory(talk, program):
        are_refused()
        as_many_as_may_be()
        lived("memory")(talk, program)

    over("memory", in_memory)
    for kind in STORES:
        on_disk(kind)


def main():
    stored()
    return only_alone(booting, 300, "devices have leases")


if __name__ == "__main__":
    sys.exit(script(main, booting))
