"""Examples of devices behind modems: sections of crates/office_script that `office.py` writes with its own, and what is expected of each.

What is expected is computed by a plain model, `Behind` here, over that of the modems' leases in leases.py. It is written from RFC 2131 and RFC 3046,
and from the office's own rules, which its methods say in order. Beside that the word of each message is said here by hand, and the first OFFERs, ACK
and NAK byte for byte; where the model says another, nothing is written. Behind each step the model looks whether what is promised of devices holds.
"""
import leases
import transfers
from examples import compact
from leases import (A, MAC, OFFERED, RESTS, SECOND, Clerk, Disagreement, Pool, address, agent, has_which, is_sent, leased, later, mac, moment_of,
                    put_modem, put_pool, put_site, releases, remove, show, text_of, who_has)
from messages import (ACK, ACTIVE, DECLINE, DISCOVER, INFORM, MODEM, NAK, OFFER, RELEASE, REQUEST, UNASSIGNED, UNKNOWN, Message, fault_of, first_of, is_query, message, option,
                      parts_in, reply_to, split)


class Behind(leases.Office):
    """An office that gives devices addresses as well."""

    def __init__(self, rows):
        self.device_pools, self.devices = {}, {}
        super().__init__(rows)

    def put(self, row):
        kind, *words = row.split(" ")
        if kind == "device":
            owner = (bytes.fromhex(words[2]), bytes.fromhex(words[3])) if words[1] != "declined" else None
            self.devices[address(words[0])] = (words[1], owner, moment_of(words[-1]))
            return
        super().put(row)
        if kind == "device-pool":
            self.device_pools[int(words[0])] = Pool(words[0], words[1:])

    def drop(self, kind, words):
        if kind == "device-pool":
            del self.device_pools[int(words[0])]
        super().drop(kind, words)

    def rows(self):
        held = [f"device {text_of(each)} {hold}{' ' + owner[0].hex() + ' ' + owner[1].hex() if owner else ''} {expiry}"
                for each, (hold, owner, expiry) in self.devices.items()]
        return [*super().rows(), *held]

    # ---- what is read of the rows

    def modem_behind(self, data):
        """The modem that the sender of a datagram is a device of, or None where it's none."""
        if is_query(data) or fault_of(data):
            return None
        m = Message(data)
        parts = parts_in(m.options.get(82, b""), False)
        if parts is None:
            return None
        remote = first_of(parts, 2)
        if remote is not None and len(remote) == 6:
            return remote if remote != m.mac and remote in self.serials else None
        owner = self.devices.get(m.client, ("", None, 0))[1]
        return owner[0] if m.kind in (REQUEST, RELEASE) and owner and owner[1] == m.mac else None

    def device_pool(self, m):
        """The relay's pool; of a renewal without a relay that in which its address lies."""
        if m.relay != bytes(4):
            return next((pool for pool in self.device_pools.values() if pool.relay == m.relay), None)
        if m.kind == REQUEST and (m.asked() or ("",))[0] == "renewing":
            return next((pool for pool in self.device_pools.values() if pool.has(m.client)), None)
        return None

    def subscriber(self, modem):
        """Whether a modem's subscriber is active, and how many devices it may have; (False, 0) where there is no such modem or subscriber."""
        row = self.kept.get(("modem", modem.hex()))
        row = row and self.kept.get(("subscriber", row.split(" ")[2]))
        return (row.split(" ")[2] == "active", int(row.split(" ")[3])) if row else (False, 0)

    def is_online(self, modem):
        hold, _, expiry = self.leases.get(self.held.get(modem), ("", None, 0))
        return hold == "bound" and expiry > self.now

    def site_of_modem(self, modem):
        held = self.held.get(modem)
        pool = None if held is None else self.pool_around(held)
        return None if pool is None else self.site(self.hub_of(pool))

    def own(self, modem, device):
        return next((each for each, (_, owner, _) in self.devices.items() if owner == (modem, device)), None)

    def live(self, modem, but=None):
        """How many live leases there are behind a modem, without those of one device."""
        return sum(owner is not None and owner[0] == modem and owner[1] != but and expiry > self.now for _, owner, expiry in self.devices.values())

    def is_free_for_devices(self, each):
        return each not in self.devices or self.devices[each][2] <= self.now

    def choice(self, m, modem):
        """The address that a DISCOVER is offered: the device's own; the one that it asks for, if that is free; the least that is free."""
        pool, own, wanted = self.device_pool(m), self.own(modem, m.mac), m.address(50)
        if own is not None and pool.has(own):
            return own
        if wanted is not None and pool.has(wanted) and self.is_free_for_devices(wanted):
            return wanted
        return next((each for each in pool.addresses() if self.is_free_for_devices(each)), None)

    # ---- what becomes of a message

    def refused(self, m, modem):
        """The first rule that a device's message breaks, or None."""
        asks = m.kind in (DISCOVER, REQUEST)
        if m.kind not in (DISCOVER, REQUEST, DECLINE, RELEASE):
            return "not-served"
        if m.kind == REQUEST and m.asked() is None:
            return "cpe-form"
        if asks and self.device_pool(m) is None:
            return "cpe-no-pool"
        if asks and not self.subscriber(modem)[0]:
            return "cpe-suspended"
        if not self.is_online(modem):
            return "cpe-offline"
        site = self.site_of_modem(modem)
        if m.kind != DISCOVER and site is not None and m.address(54) not in (None, site["server"]):
            return "cpe-other-server"
        if asks and self.live(modem, but=m.mac) >= self.subscriber(modem)[1]:
            return "cpe-limit"
        return self.mistaken(m, self.own(modem, m.mac), modem)

    def mistaken(self, m, own, modem):
        """The first rule that it breaks by the address that it's about, or None."""
        if m.kind == DISCOVER:
            return "cpe-pool-full" if self.choice(m, modem) is None else None
        if m.kind == DECLINE:
            return "cpe-no-record" if own is None or m.address(50) != own else None
        if m.kind == RELEASE:
            return "cpe-no-record" if own is None or m.client != own else None
        form, asked = m.asked()
        if form != "selecting" and own is None:
            return "cpe-no-record"
        return None if asked == own and self.device_pool(m).has(asked) else "cpe-not-yours"

    def take(self, moment, data):
        self.now = max(self.now, moment)
        modem = self.modem_behind(data)
        if modem is None:
            return super().take(moment, data)
        m = Message(data)
        word = self.refused(m, modem)
        if word == "cpe-not-yours":
            return word, (self.destination(m, "255.255.255.255"), reply_to(data, NAK, self.site_of_modem(modem)["server"]))
        if word:
            return word, None
        given = {DISCOVER: self.offer_device, REQUEST: self.bind_device, DECLINE: self.rest_device, RELEASE: self.free_device}[m.kind](m, data, modem)
        self.keeps_promises(modem, given[0])
        return given

    def keeps_promises(self, modem, word):
        """Behind an OFFER or an ACK a modem has no more live devices than it may, no device has an address of a modems' pool, and none has two of one modem."""
        if word in ("cpe-offer", "cpe-ack") and self.live(modem) > self.subscriber(modem)[1]:
            raise Disagreement(f"{self.live(modem)} live devices behind {modem.hex()}")
        owners = [owner for _, owner, _ in self.devices.values() if owner]
        if len(set(owners)) != len(owners) or any(pool.has(each) for each in self.devices for pool in self.pools.values()):
            raise Disagreement(f"leases of devices: {self.devices}")

    def reply_to_device(self, m, data, kind, given, modem):
        pool, site = self.device_pool(m), self.site_of_modem(modem)
        offer = {"yiaddr": given, "offset": site["offset"], "lease": site["lease"], "log": site["log"], "prefix": pool.prefix, "router": pool.router,
                 "name": bytes(32)}
        return self.destination(m, text_of(m.client)), reply_to(data, kind, site["server"], offer)

    def offer_device(self, m, data, modem):
        given, own = self.choice(m, modem), self.own(modem, m.mac)
        hold, owner, expiry = self.devices.get(given, ("", None, 0))
        if not (hold == "bound" and owner == (modem, m.mac) and expiry > self.now):
            if own is not None and own != given:
                del self.devices[own]
            self.devices[given] = ("offered", (modem, m.mac), later(self.now, OFFERED))
        return "cpe-offer", self.reply_to_device(m, data, OFFER, given, modem)

    def bind_device(self, m, data, modem):
        given = m.asked()[1]
        self.devices[given] = ("bound", (modem, m.mac), later(self.now, self.site_of_modem(modem)["lease"]))
        return "cpe-ack", self.reply_to_device(m, data, ACK, given, modem)

    def rest_device(self, m, _data, _modem):
        self.devices[m.address(50)] = ("declined", None, later(self.now, RESTS))
        return "cpe-declined", None

    def free_device(self, m, _data, _modem):
        del self.devices[m.client]
        return "cpe-released", None

    # ---- what clerks do: each answers with the status, and of a refusal the word and what is at fault

    def clerk(self, moment, path, row):
        kind, number = (path.split("/") + [""])[1:3]
        change = {"subscribers": self.change_subscriber, "modems": self.change_modem, "device-pools": self.change_device_pool}.get(kind)
        if change is None:
            return super().clerk(moment, path, row)
        self.now = max(self.now, moment)
        status, word, at = change(number, row)
        return status, word or "", compact({"ok": True} if status == 200 else {"fault": word} if at is None else {"at": at, "fault": word})

    def change_subscriber(self, number, row):
        """A subscriber is put, or is removed with the add-ons where no modem is of it."""
        if not row and ("subscriber", number) not in self.kept:
            return 404, "no-row", None
        if not row and any(key[0] == "modem" and each.split(" ")[2] == number for key, each in self.kept.items()):
            return 409, "has-modems", None
        if row:
            self.put(row)
        for key in [key for key in self.kept if not row and key[:2] in (("subscriber", number), ("add-on", number))]:
            del self.kept[key]
        return 200, None, None

    def change_modem(self, number, row):
        """A modem is put, whose subscriber and class are there, or is removed; leases stay."""
        if row and ("subscriber", row.split(" ")[2]) not in self.kept:
            return 422, "no-subscriber", None
        if row and ("class", row.split(" ")[3]) not in self.kept:
            return 422, "no-class", None
        if not row and ("modem", number) not in self.kept:
            return 404, "no-row", None
        if row:
            self.put(row)
        else:
            self.drop("modem", [number])
        return 200, None, None

    def overlaps(self, new, others):
        """The least number of other pools that has an address of a pool."""
        return min((each.number for each in others if each.first <= new.last and new.first <= each.last), default=None)

    def is_sized(self, new):
        return 0 <= int.from_bytes(new.last, "big") - int.from_bytes(new.first, "big") < 4096

    def unfit_pool(self, new, pools, devices, peers):
        """Of a pool the first rule that is broken by itself or by other pools; `peers` are those of its kind."""
        if not self.is_sized(new):
            return 422, "pool-size", None
        for word, others in (("pool-overlap", pools), ("device-overlap", devices)):
            other = self.overlaps(new, others)
            if other is not None:
                return 409, word, str(other)
        other = min((each.number for each in peers if each.relay == new.relay), default=None)
        return None if other is None else (409, "relay-taken", str(other))

    def change_pool(self, number, row):
        if row:
            new = Pool(number, row.split(" ")[2:])
            others = [pool for pool in self.pools.values() if pool.number != new.number]
            unfit = self.unfit_pool(new, others, self.device_pools.values(), others)
            if unfit:
                return unfit
        return super().change_pool(number, row)

    def change_device_pool(self, number, row):
        """A pool for devices is put or removed. A lease that lasts holds its address; one that has ended goes with it."""
        old, new = self.device_pools.get(int(number)), Pool(number, row.split(" ")[2:]) if row else None
        if row:
            others = [pool for pool in self.device_pools.values() if pool.number != new.number]
            unfit = self.unfit_pool(new, self.pools.values(), others, others)
            if unfit:
                return unfit
        elif old is None:
            return 404, "no-row", None
        gone = [each for each in sorted(self.devices) if old and old.has(each) and not (new and new.has(each))]
        live = [each for each in gone if self.devices[each][2] > self.now]
        if live:
            return 409, "pool-has-leases", text_of(live[0])
        for each in gone:
            del self.devices[each]
        if row:
            self.put(row)
        else:
            self.drop("device-pool", [number])
        return 200, None, None


# ---- what devices and clerks say

RELAY, FIRST, LAST = "10.128.0.1", "10.128.0.10", "10.128.0.20"
POOL = f"device-pool 1 {FIRST} {LAST} 24 {RELAY} {RELAY}"
ONLINE = leased("bound", A, 0xEE, "t+86400")
PLACE = [POOL, *ONLINE]
SENDER = f"{RELAY}:67"


def device(last):
    return bytes.fromhex("0200000000") + bytes([last])


def at(place):
    return f"10.128.0.{place}"


def says(kind, last=0xA1, relay=RELAY, client="0.0.0.0", asked=None, server=None, behind=MAC, way="", more=b"", **fixed):
    """A device's message. Its relay names the modem that it is behind; without a relay nobody does."""
    named = [(50, asked), (54, server)]
    options = b"".join(option(code, address(value) if isinstance(value, str) else value) for code, value in named if value is not None)
    if way is not None and (way != "" or relay != "0.0.0.0"):
        options += split(82, agent(behind) if way == "" else way)
    return message(kind, device(last), options + more, address(relay), address(client), **fixed)


def discover(last=0xA1, **what):
    return says(DISCOVER, last, **what)


def selects(asked=FIRST, last=0xA1, server="10.0.0.2", **what):
    return says(REQUEST, last, asked=asked, server=server, **what)


def reboots(asked=FIRST, last=0xA1, **what):
    return says(REQUEST, last, asked=asked, **what)


def renews(client=FIRST, last=0xA1, relay="0.0.0.0", **what):
    return says(REQUEST, last, client=client, relay=relay, **what)


def declines(asked=FIRST, last=0xA1, **what):
    return says(DECLINE, last, asked=asked, **what)


def gives_back(client=FIRST, last=0xA1, relay="0.0.0.0", **what):
    return says(RELEASE, last, client=client, relay=relay, **what)


def has(hold, place, last, expiry, modem=0xEE):
    """The lease of a device's address."""
    return f"device {at(place)} {hold} {mac(modem).hex()} {device(last).hex()} {expiry}"


def put_device_pool(number, first, last, relay=RELAY):
    body = {"first": first, "last": last, "prefix": 24, "router": RELAY, "relay": relay}
    return Clerk("PUT", f"/device-pools/{number}", compact(body), f"device-pool {number} {first} {last} 24 {RELAY} {relay}")


def put_subscriber(active=True, devices=2, number=7):
    body = {"active": active, "cpes": devices, "name": "Ann"}
    return Clerk("PUT", f"/subscribers/{number}", compact(body), f'subscriber {number} {"active" if active else "suspended"} {devices} "Ann"')


def move_modem(last, subscriber, of_class=1):
    """A modem's row names another subscriber."""
    body = {"subscriber": subscriber, "class": of_class, "serial": ""}
    return Clerk("PUT", f"/modems/{mac(last).hex()}", compact(body), f'modem {mac(last).hex()} {subscriber} {of_class} ""')


class Played(leases.Played):
    def __init__(self, rows):
        super().__init__([])
        self.office = Behind(rows)


class Player(leases.Player):
    plays = Played

    def section(self, name, *sources):
        self.script.section(name, *([source for source in sources if source] or [MODEL]))

    def play(self, remark, events, rows=(), lines=(), behind=None, sender=SENDER):
        return super().play(remark, events, rows, lines, behind, sender)


MODEL = "By the model of devices in tests/examples/devices.py, from RFC 2131, section 4.3, RFC 3046, and the office's rules."

# ---- the sections

# The OFFER for the first DISCOVER, byte for byte: no name of a file, and the server, time zone and time of leases of the hub of the modem's address.
WAY = "520e" + "010480000001" + "0206" + MODEM
FIRST_OFFER = (bytes.fromhex("020106001122334400000000" + "00000000" + "0a80000a" + "0a000002" + "0a800001" + "0200000000a1") + bytes(10 + 64 + 128)
               + bytes.fromhex("63825363" + "350102" + "36040a000002" + "330400015180" + "3a040000a8c0" + "3b0400012750")
               + bytes.fromhex("0104ffffff00" + "03040a800001" + "020400000e10" + "04040a000002" + WAY + "ff"))
SECOND_OFFER = FIRST_OFFER[:16] + bytes.fromhex("0a80000b") + FIRST_OFFER[20:28] + bytes.fromhex("0200000000a2") + FIRST_OFFER[34:]
THIRD_OFFER = FIRST_OFFER[:28] + bytes.fromhex("0200000000a3") + FIRST_OFFER[34:]
FIRST_ACK = FIRST_OFFER[:242] + b"\x05" + FIRST_OFFER[243:]
FIRST_NAK = (bytes.fromhex("020106001122334400008000") + bytes(12) + bytes.fromhex("0a800001" + "0200000000a1") + bytes(10 + 64 + 128)
             + bytes.fromhex("63825363" + "350106" + "36040a000002" + WAY + "ff"))
FIRST_NAK += bytes(300 - len(FIRST_NAK))


def worked(player):
    player.section("a modem's devices get addresses, as many as its subscriber may have",
                   "The worked example, byte for byte: three devices behind a modem of a subscriber of two. An offer lasts two minutes.")
    played = player.play("", [
        ("t", "cpe-offer", discover(0xA1)), ("t", "cpe-offer", discover(0xA2)), ("t", "cpe-limit", discover(0xA3)), ("t+119", "cpe-limit", discover(0xA3)),
        ("t+120", "cpe-offer", discover(0xA3))], rows=PLACE)
    for place, made in enumerate((FIRST_OFFER, SECOND_OFFER, THIRD_OFFER)):
        is_sent(played, place, SENDER, made)
    player.section("a device needs a subscriber who is active and a modem that is online and on record", "The worked example.")
    player.play("suspended", [("t", "", put_subscriber(active=False)), ("t", "cpe-suspended", discover())], rows=PLACE)
    player.play("offline", [("t", "released", releases()), ("t", "cpe-offline", discover())], rows=PLACE)
    player.play("unknown", [("t", "relay-mismatch", discover(behind=mac(1)))], rows=PLACE)
    player.section("a device is offered an address, selects it, renews it and gives it back", "RFC 2131, figure 3, with a relay; byte for byte.")
    played = player.play("", [
        ("t", "cpe-offer", discover()), ("t", "cpe-other-server", selects(server="10.0.0.9")), ("t", "cpe-ack", selects()), ("t+1", "cpe-offer", discover()),
        ("t+2", "cpe-not-yours", selects(at(15))), ("t+43200", "cpe-ack", renews()), ("t+43201", "cpe-ack", renews(relay=RELAY)), ("t+43202", "cpe-ack", reboots()),
        ("t+43203", "cpe-not-yours", renews(relay="0.0.0.0", client=at(15), way=agent(MAC))), ("t+43204", "cpe-form", renews(asked=FIRST)), ("t+43205", "cpe-released", gives_back()),
        ("t+43206", "cpe-no-record", gives_back(way=agent(MAC)))], rows=PLACE)
    for place, made in ((0, FIRST_OFFER), (1, FIRST_ACK), (2, FIRST_OFFER), (3, FIRST_NAK)):
        is_sent(played, place, SENDER, made)
    if not played.sent[4].startswith(f"datagram dhcp to {FIRST}:68 ") or not played.sent[7].startswith("datagram dhcp to 255.255.255.255:68 "):
        raise Disagreement(played.sent)
    player.play("a device that holds nothing", [
        ("t", "cpe-no-record", reboots()), ("t", "cpe-no-record", renews(relay=RELAY)), ("t", "cpe-not-yours", selects()), ("t", "cpe-no-record", declines()),
        ("t", "cpe-no-record", gives_back(way=agent(MAC)))], rows=PLACE)
    player.play("a declined address rests for ten minutes", [
        ("t", "cpe-declined", declines()), ("t+1", "cpe-no-record", declines()), ("t+1", "cpe-offer", discover()), ("t+2", "cpe-offer", discover(0xA2, asked=FIRST)),
        ("t+600", "cpe-offer", discover(0xA3, asked=FIRST))], rows=[*PLACE, has("bound", 10, 0xA1, "t+1000")])


def knowing(player):
    """Who is a device."""
    player.section("who is a device: the relay names a modem on record that isn't the sender itself", "RFC 3046, section 3.2: the remote identifier, of six bytes.")
    other = option(1, b"\x80\0\0\1")
    player.play("the relay's word", [
        ("t", "cpe-offer", discover()), ("t", "cpe-offer", discover(way=option(2, MAC))), ("t", "cpe-offer", discover(way=option(2, MAC) + option(2, mac(1)))),
        ("t", "not-a-modem", discover(way=option(2, MAC[:5]))), ("t", "not-a-modem", discover(way=option(2, MAC + b"\0"))), ("t", "not-a-modem", discover(way=other)),
        ("t", "not-a-modem", discover(way=None)), ("t", "not-a-modem", discover(behind=device(0xA1))), ("t", "relay-mismatch", discover(behind=device(0xA2))),
        ("t", "cpe-offline", discover(way=option(2, mac(1)) + option(2, MAC))), ("t", "relay-mismatch", discover(way=option(2, mac(3)) + option(2, MAC))), ("t", "part-cut", discover(way=option(2, MAC) + b"\x01")),
        ("t", "cpe-offer", discover(way=option(0, b"\2") + option(2, MAC))), ("t", "cpe-offer", discover(way=option(255, b"") + option(2, MAC))), ("t", "part-cut", discover(way=b"\0" + option(2, MAC))),
        ("t", "dhcp-short", discover()[:239]), ("t", "offer", leases.discover(1))], rows=[*PLACE, SECOND, "pool 2 10.65.0.10 10.65.0.11 24 10.65.0.1 10.65.0.1"])
    player.section("what a modem says of itself isn't asked of a device", "Options 43 and 60 (CANN-DHCP-Reg) aren't read, whole or cut.")
    more = [option(43, b"\x04\x09SN"), option(43, leases.vendor(b"SN02")), option(60, b"docsis3.1:"), option(60, b"MSFT 5.0"), option(61, b"\1" + device(0xA1)), b""]
    player.play("", [("t", word, asks(more=each)) for each in more for asks, word in ((discover, "cpe-offer"), (selects, "cpe-ack"), (renews, "cpe-ack"))], rows=PLACE)
    player.section("without a relay's word a device is known by its lease", "By the ciaddr of a REQUEST or a RELEASE (RFC 2131, sections 4.3.2 and 4.3.4).")
    bound = [*PLACE, has("bound", 10, 0xA1, "t+9")]
    player.play("", [
        ("t", "cpe-ack", renews()), ("t", "no-relay-pool", renews(last=0xA2)), ("t", "no-relay-pool", renews(client=at(11))), ("t", "cpe-ack", renews(relay=RELAY, way=None)),
        ("t", "cpe-ack", renews(way=option(2, MAC[:5]))), ("t", "relay-mismatch", renews(way=agent(mac(1)))), ("t", "no-relay-pool", renews(way=agent(device(0xA1)))), ("t", "no-record", gives_back(way=agent(device(0xA1)))), ("t", "cpe-no-record", renews(last=0xA2, way=agent(MAC))),
        ("t", "not-a-modem", discover(way=None, client=FIRST)), ("t", "no-record", declines(way=None, client=FIRST)), ("t", "not-served", says(INFORM, client=FIRST, relay="0.0.0.0")),
        ("t", "no-record", gives_back(last=0xA2)), ("t", "cpe-released", gives_back()), ("t", "no-record", gives_back()), ("t", "no-relay-pool", renews())], rows=bound)
    player.play("an offer is a lease too", [("t", "cpe-ack", renews())], rows=[*PLACE, has("offered", 10, 0xA1, "t-1")])
    player.play("the modem is deleted", [
        ("t", "", remove(f"/modems/{MODEM}")), ("t", "cpe-suspended", renews()), ("t", "relay-mismatch", renews(relay=RELAY)), ("t", "relay-mismatch", discover()),
        ("t", "", put_modem(0xEE, "")), ("t", "cpe-ack", renews()), ("t", "", remove(f"/modems/{MODEM}")), ("t", "cpe-released", gives_back())], rows=bound)


ENDED = leased("bound", A, 0xEE, "t")
LONE = f"device-pool 1 {FIRST} {FIRST} 24 {RELAY} {RELAY}"
FAR = "device-pool 2 10.129.0.10 10.129.0.20 24 10.129.0.1 10.129.0.1"
# How each rule is broken: by the message, or by the rows. Of a full pool the one address is that of a device behind another modem.
BY_MESSAGE = {"cpe-form": {"server": b"\0"}, "cpe-no-pool": {"relay": "10.9.9.9"}, "cpe-other-server": {"server": "10.0.0.9"}}
BY_ROWS = {"cpe-suspended", "cpe-offline", "cpe-limit", "cpe-pool-full"}
# The kinds of messages: what is said, the address that it's about, and the rules of the kind in their order.
SAID = {
    "DISCOVER": (discover, {}, None, ["cpe-no-pool", "cpe-suspended", "cpe-offline", "cpe-limit", "cpe-pool-full"]),
    "a selecting REQUEST": (selects, {}, "asked", ["cpe-form", "cpe-no-pool", "cpe-suspended", "cpe-offline", "cpe-other-server", "cpe-limit", "cpe-not-yours"]),
    "an init-reboot REQUEST": (reboots, {}, "asked", ["cpe-form", "cpe-no-pool", "cpe-suspended", "cpe-offline", "cpe-limit", "cpe-no-record", "cpe-not-yours"]),
    "a renewing REQUEST": (renews, {"relay": RELAY}, "client", ["cpe-form", "cpe-no-pool", "cpe-suspended", "cpe-offline", "cpe-limit", "cpe-no-record", "cpe-not-yours"]),
    "DECLINE": (declines, {}, "asked", ["cpe-offline", "cpe-other-server", "cpe-no-record"]),
    "RELEASE": (gives_back, {"relay": RELAY}, "client", ["cpe-offline", "cpe-other-server", "cpe-no-record"]),
}


def scene(broken, is_held):
    """The rows of a run in which these rules are broken."""
    active, devices = "suspended" if "cpe-suspended" in broken else "active", 1 if "cpe-limit" in broken else 2
    rows = [LONE if "cpe-pool-full" in broken else POOL, *(ENDED if "cpe-offline" in broken else ONLINE), f'subscriber 7 {active} {devices} "Ann"', FAR]
    rows += [has("bound", 10, 0xA9, "t+1", 1)] if "cpe-pool-full" in broken else [has("bound", 10, 0xA1, "t+9")] if is_held else []
    return rows + (["device 10.129.0.10 offered " + f"{mac(0xEE).hex()} {device(0xA2).hex()} t+1"] if "cpe-limit" in broken else [])


def refusing(player):
    for name, (asks, fixed, about, rules) in SAID.items():
        player.section(f"the first rule that is broken names the refusal of a device's message: {name}", "Each rule is broken alone, and with each later one; the tables stay.")
        pairs = [(first, second) for place, first in enumerate(rules) for second in [None, *rules[place + 1:]]]
        for first, second in pairs:
            broken, what = {first, second}, dict(fixed)
            for word in sorted(broken & BY_MESSAGE.keys()):
                # A server of no form is none that is another's.
                what = {**BY_MESSAGE[word], **what} if word == "cpe-other-server" and "cpe-form" in broken else {**what, **BY_MESSAGE[word]}
            if "cpe-not-yours" in broken or about and "cpe-no-record" in broken and asks in (declines, gives_back):
                what[about] = at(15)
            is_held = about is not None and not ("cpe-no-record" in broken and asks in (reboots, renews))
            player.play(f"{first}{', ' + second if second else ''}", [("t", first, asks(**what))], rows=scene(broken, is_held))
    player.section("a device's message of another kind isn't served", "RFC 2132, section 9.6; a relay's query is one, whatever modem its option 82 names, and what isn't known as a device's is taken as a modem's.")
    player.play("", [("t", "not-served", says(kind)) for kind in (0, OFFER, ACK, NAK, INFORM, 9, UNASSIGNED, UNKNOWN, ACTIVE, 18, 255)]
                + [("t", "query-active", who_has(A, options=option(82, agent(MAC)))), ("t", "query-active", has_which(options=option(82, agent(mac(1))))),
                   ("t", "query-relay", who_has(A, relay=RELAY, options=option(82, agent(MAC))))], rows=[*PLACE, SECOND])
    player.section("some messages break several rules", "")
    for remark, rows, events in (
            ("not served, and more", [POOL], [("not-served", says(INFORM)), ("not-served", says(INFORM, relay="10.9.9.9"))]),
            ("no form, and no pool", PLACE, [("cpe-form", says(REQUEST, relay="10.9.9.9")), ("cpe-form", says(REQUEST)), ("cpe-form", renews(asked=FIRST, relay=RELAY)), ("cpe-form", selects(client=FIRST)),
                                            ("cpe-form", reboots(b"\x0a\x80\0")), ("cpe-form", selects(server=b""))]),
            ("no pool", [*PLACE, FAR], [
                ("cpe-no-pool", discover(relay="10.64.0.1")), ("cpe-no-pool", discover(relay="0.0.0.0", way=agent(MAC))), ("cpe-no-pool", selects(relay="0.0.0.0", way=agent(MAC))),
                ("cpe-no-pool", reboots(relay="0.0.0.0", way=agent(MAC))), ("cpe-no-pool", renews(client=at(21), way=agent(MAC))), ("cpe-no-pool", renews(client=A, way=agent(MAC))),
                ("cpe-no-pool", renews(relay="10.64.0.1"))]),
            ("no service isn't asked of who gives back", [*PLACE, 'subscriber 7 suspended 1 "Ann"', has("bound", 10, 0xA1, "t+9"), has("bound", 11, 0xA2, "t+9")], [
                ("cpe-no-record", declines(at(11))), ("cpe-declined", declines()), ("cpe-released", gives_back(at(11), 0xA2))]),
            ("who has no address", PLACE, [
                ("cpe-no-record", reboots("10.9.9.9")), ("cpe-no-record", renews("10.9.9.9", relay=RELAY)), ("cpe-not-yours", selects("10.9.9.9")), ("cpe-no-record", declines(None)),
                ("cpe-no-record", declines(b"\x0a\x80\0")), ("cpe-no-record", gives_back("0.0.0.0", relay=RELAY))]),
            ("another's address", [*PLACE, has("bound", 10, 0xA2, "t+9")], [
                ("cpe-no-record", reboots()), ("cpe-no-record", renews(relay=RELAY)), ("cpe-not-yours", selects()), ("cpe-no-record", declines()), ("cpe-no-record", gives_back(relay=RELAY))]),
            ("its own, by another relay", [*PLACE, has("bound", 10, 0xA1, "t+9"), FAR], [
                ("cpe-not-yours", reboots(relay="10.129.0.1")), ("cpe-not-yours", selects(relay="10.129.0.1")), ("cpe-not-yours", renews(relay="10.129.0.1")),
                ("cpe-not-yours", renews(relay="10.129.0.1", way=None)), ("cpe-released", gives_back(relay="10.129.0.1"))])):
        player.play(remark, [("t", word, data) for word, data in events], rows=rows)
    player.play("a server that isn't named by four bytes is none", [("t", "cpe-declined", declines(server=b"\1\2\3"))], rows=[*PLACE, has("bound", 10, 0xA1, "t+9")])
    player.play("a DISCOVER names no server", [("t", "cpe-offer", discover(server="10.0.0.9"))], rows=PLACE)


def choosing(player):
    player.section("which address a device is offered: its own, the one that it asks for, the least free", "An address is free without a lease, and where its lease has ended.")
    rows = [*PLACE, 'subscriber 7 active 9 "Ann"', has("bound", 10, 0xA2, "t+1"), has("bound", 12, 0xA3, "t"), f"device {at(13)} declined t+1", f"device {at(14)} declined t"]
    for asked, place in ((None, 11), (at(10), 11), (at(12), 12), (at(13), 11), (at(14), 14), (at(20), 20), (at(21), 11), ("10.64.0.50", 11), (b"\x0a\x80\0", 11)):
        played = player.play("", [("t", "cpe-offer", discover(asked=asked)), ("t", "cpe-ack", selects(at(place)))], rows=rows)
        if address(at(place)) not in played.office.devices:
            raise Disagreement(f"{at(place)} isn't offered, but {played.office.rows()}")
    player.play("its own, though it has ended", [("t", "cpe-offer", discover(asked=at(15)))], rows=[*PLACE, has("bound", 18, 0xA1, "0")])
    player.play("what is bound stays while it lasts", [("t", "cpe-offer", discover()), ("t+1", "cpe-offer", discover())], rows=[*PLACE, has("bound", 18, 0xA1, "t+1")])
    player.play("an ended lease of another is taken", [("t", "cpe-offer", discover(0xA1)), ("t", "cpe-no-record", reboots(at(10), 0xA2))],
                rows=[*PLACE, has("bound", 10, 0xA2, "t")])
    player.play("the old address goes where another relay's pool offers one", [
        ("t", "cpe-offer", discover(relay="10.129.0.1")), ("t", "cpe-no-record", gives_back(way=agent(MAC))), ("t", "cpe-ack", selects("10.129.0.10", relay="10.129.0.1"))],
        rows=[*PLACE, FAR, has("bound", 10, 0xA1, "t+900")])
    player.play("an old address that has ended goes too, and the new one is offered for two minutes", [
        ("t", "cpe-offer", discover(relay="10.129.0.1")), ("t+1", "cpe-offer", discover(asked="10.129.0.20", relay="10.129.0.1")), ("t+121", "cpe-offer", discover())],
        rows=[*PLACE, FAR, has("offered", 10, 0xA1, "t-1")])
    player.play("an address that is bound and has ended just now is offered anew, and one that is offered for longer", [
        ("t", "cpe-offer", discover(asked=at(15))), ("t+60", "cpe-offer", discover(asked=at(15))), ("t+179", "cpe-ack", selects())], rows=[*PLACE, has("bound", 10, 0xA1, "t")])
    player.play("an ended address is its own again, until another device is offered it", [
        ("t", "cpe-ack", reboots()), ("t+86400", "offer", leases.discover()), ("t+86400", "ack", leases.selects()), ("t+86400", "cpe-ack", renews()),
        ("t+86401", "cpe-offer", discover(0xA2)), ("t+86401", "cpe-not-yours", selects(FIRST, 0xA2)), ("t+86401", "cpe-ack", selects(at(11), 0xA2))],
        rows=[*PLACE, has("bound", 10, 0xA1, "t")])
    player.section("a REQUEST binds what is the device's, whether or not it has ended", "For the time of leases of the hub of the modem's address.")
    player.play("", [("t", "cpe-ack", reboots()), ("t+86400", "cpe-offline", renews())], rows=[*PLACE, has("offered", 10, 0xA1, "t-100")])


def freeing(player):
    player.section("a pool of one address, and devices behind two modems", "Its address is free at the moment at which its lease ends.")
    alone, there = [LONE, SECOND, *ONLINE, *leased("bound", "10.64.0.11", 1, "t+86400")], {"behind": mac(1)}
    for rows, last in (([], 120), ([has("bound", 10, 0xA1, "t+120")], 120), ([f"device {FIRST} declined t+600"], 600)):
        first = [] if rows else [("t", "cpe-offer", discover())]
        player.play("", [
            *first, (f"t+{last - 1}", "cpe-pool-full", discover(0xA2)), (f"t+{last - 1}", "cpe-pool-full", discover(0xA1, **there)), (f"t+{last}", "cpe-offer", discover(0xA2, **there)),
            (f"t+{last}", "cpe-pool-full", discover()), (f"t+{last}", "no-relay-pool", renews()), (f"t+{last}", "cpe-no-record", renews(way=agent(MAC)))], rows=[*alone, *rows])
    player.play("two devices ask for it", [
        ("t", "cpe-offer", discover()), ("t", "cpe-pool-full", discover(0xA2)), ("t+1", "cpe-not-yours", selects(FIRST, 0xA2)), ("t+2", "cpe-ack", selects()), ("t+3", "cpe-pool-full", discover(0xA2)),
        ("t+4", "cpe-released", gives_back()), ("t+5", "cpe-offer", discover(0xA2)), ("t+6", "cpe-not-yours", selects()), ("t+7", "cpe-ack", selects(FIRST, 0xA2)), ("t+8", "cpe-pool-full", discover()),
        ("t+9", "cpe-declined", declines(FIRST, 0xA2)), ("t+608", "cpe-pool-full", discover()), ("t+609", "cpe-offer", discover())], rows=alone)
    player.play("behind which modem the device is", [
        ("t", "cpe-offer", discover()), ("t", "cpe-pool-full", discover(**there)), ("t", "cpe-not-yours", selects(**there)), ("t", "cpe-no-record", reboots(**there)), ("t+120", "cpe-offer", discover(**there)),
        ("t+120", "cpe-pool-full", discover()), ("t+120", "cpe-no-record", reboots()), ("t+120", "cpe-ack", reboots(**there))], rows=alone)
    player.section("the office's moment never falls for devices", "A lease that has ended stays free, and a modem offline, whatever moment an event says.")
    player.play("", [("t", "cpe-offer", discover()), ("t-1000", "cpe-limit", discover(0xA2)), ("t+120", "cpe-offer", discover(0xA2)), ("t", "cpe-limit", discover()), ("t+86400", "cpe-offline", discover()),
                     ("t", "cpe-offline", discover(0xA2))], rows=[LONE, *ONLINE, 'subscriber 7 active 1 "Ann"'])
    player.section("pools for devices at either end of all addresses", "0.0.0.0 is offered like any other; no renewal is of it, and a RELEASE is.")
    ends = [*ONLINE, f"device-pool 1 0.0.0.0 0.0.0.1 8 0.0.0.1 {RELAY}", "device-pool 2 255.255.255.254 255.255.255.255 30 255.255.255.254 10.129.0.1", 'subscriber 7 active 9 "Ann"']
    player.play("", [
        ("t", "cpe-offer", discover()), ("t", "cpe-ack", selects("0.0.0.0")), ("t", "cpe-form", renews("0.0.0.0", way=agent(MAC))), ("t", "cpe-ack", reboots("0.0.0.0")),
        ("t", "cpe-offer", discover(0xA2)), ("t", "cpe-ack", selects("0.0.0.1", 0xA2)), ("t", "cpe-ack", renews("0.0.0.1", 0xA2)), ("t", "cpe-pool-full", discover(0xA3)),
        ("t", "cpe-released", gives_back("0.0.0.0")), ("t", "cpe-offer", discover(0xA3)), ("t", "cpe-declined", declines("0.0.0.0", 0xA3))], rows=ends)
    player.play("", [
        ("t", "cpe-offer", discover(relay="10.129.0.1", asked="255.255.255.255")), ("t", "cpe-ack", selects("255.255.255.255", relay="10.129.0.1")), ("t", "cpe-ack", renews("255.255.255.255")),
        ("t", "cpe-offer", discover(0xA2, relay="10.129.0.1")), ("t", "cpe-pool-full", discover(0xA3, relay="10.129.0.1")), ("t", "cpe-released", gives_back("255.255.255.255")),
        ("t", "cpe-offer", discover(0xA3, relay="10.129.0.1"))], rows=ends)
    player.section("the largest pool for devices has 4,096 addresses", "All are taken but one, which is offered to one device; the next is refused, until the others' time is over.",
                   "A device's message makes seven calls of the keeper at most, whatever the tables: its modem's row and its subscriber's, what the modem holds and the lease of that, the hub; "
                   "where no relay names the modem one more, which finds it; for each row that it writes at another address than the device's own the lease before; and the commit.")
    largest = ["device-pool 1 10.128.0.0 10.128.15.255 20 10.128.0.1 10.128.0.1", *ONLINE, 'subscriber 7 active 254 "Ann"']
    for free in ("10.128.15.255", "10.128.9.7"):
        folded = [f"repeat 0 255 device 10.128.{part}.# offered 02aabbcc{part:02x}ee 0201% t+1" for part in range(16)]
        single = [f"device 10.128.{part}.{place} offered 02aabbcc{part:02x}ee 0201{place:08x} t+1" for part in range(16) for place in range(256)]
        played = Played([*player.rows, *largest, *(row for row in single if not row.startswith(f"device {free} "))])
        opening = leases.calls_of_opening(played.office.rows())
        events = [("t", "cpe-offer", discover()), ("t", "cpe-pool-full", discover(0xA2)), ("t", "cpe-ack", selects(free)), ("t+1", "cpe-offer", discover(0xA2, asked="10.128.9.8")),
                  ("t+1", "cpe-offer", discover(0xA3))]
        for event in events:
            played.take(*event)
        player.script.run("", ["office", *largest, *folded, f"drop device {free}", "show calls", *player.written(events)],
                          leases.outcome(wrote=played.wrote, sent=played.sent, calls=opening + 7 + 5 + 6 + 7 + 7))
    player.section("the moments of devices' leases stop at the greatest number", "2^64 - 1 seconds.")
    for before in (0, 1, 119, 120, 121, 599, 600, 86399, 86400, 86401):
        now = 2**64 - 1 - before
        player.play(f"{before} seconds before", [
            (now, None if before == 0 else "cpe-offer", discover()), (now, None, selects()), (now, None, discover(0xA2)), (now, None, declines(at(11), 0xA2)), (now, None, discover(0xA3))],
            rows=[POOL, *leased("bound", A, 0xEE, 2**64 - 1)])


def limiting(player):
    player.section("what counts against a subscriber's number: other devices' leases that last, offered or bound", "")
    for remark, rows, word in (
            ("none", [], "cpe-offer"), ("one", [has("bound", 10, 0xA2, "t+1")], "cpe-offer"), ("two", [has("bound", 10, 0xA2, "t+1"), has("offered", 11, 0xA3, "t+1")], "cpe-limit"),
            ("two that are offered", [has("offered", 10, 0xA2, "t+1"), has("offered", 11, 0xA3, "t+1")], "cpe-limit"),
            ("one of two has ended", [has("bound", 10, 0xA2, "t+1"), has("bound", 11, 0xA3, "t")], "cpe-offer"),
            ("its own", [has("bound", 10, 0xA2, "t+1"), has("bound", 11, 0xA1, "t+1")], "cpe-offer"),
            ("its own beside two", [has("bound", 10, 0xA2, "t+1"), has("bound", 11, 0xA1, "t+1"), has("bound", 12, 0xA3, "t+1")], "cpe-limit"),
            ("of another modem", [has("bound", 10, 0xA2, "t+1", 1), has("bound", 11, 0xA3, "t+1", 1)], "cpe-offer"),
            ("the same device behind another modem", [has("bound", 10, 0xA1, "t+1", 1), has("bound", 11, 0xA2, "t+1")], "cpe-offer"),
            ("declined", [f"device {at(10)} declined t+1", f"device {at(11)} declined t+1"], "cpe-offer")):
        player.play(remark, [("t", word, discover())], rows=[*PLACE, SECOND, *rows])
    one = [POOL, FAR, SECOND, *ONLINE, *leased("bound", "10.64.0.11", 1, "t+86400"), 'subscriber 7 active 1 "Ann"']
    there = {"behind": mac(1)}
    player.section("a subscriber of one device has one behind each modem", "A second is served once the first has given its address back, or its lease has ended.")
    player.play("", [
        ("t", "cpe-offer", discover()), ("t", "cpe-limit", discover(0xA2)), ("t", "cpe-offer", discover(0xA2, **there)), ("t", "cpe-limit", discover(0xA3, **there)), ("t", "cpe-ack", selects()),
        ("t", "cpe-ack", selects(at(11), 0xA2, **there)), ("t", "cpe-limit", selects(at(11), 0xA2)), ("t", "cpe-offer", discover()), ("t", "cpe-ack", renews()),
        ("t+1", "cpe-limit", discover(0xA2)), ("t+1", "cpe-released", gives_back()), ("t+1", "cpe-offer", discover(0xA3)), ("t+1", "cpe-limit", discover()), ("t+121", "cpe-offer", discover()),
        ("t+121", "cpe-limit", selects(FIRST, 0xA3)), ("t+122", "cpe-declined", declines()), ("t+122", "cpe-offer", discover(0xA3))], rows=one)
    player.play("by each relay", [("t", "cpe-offer", discover()), ("t", "cpe-limit", discover(0xA2, relay="10.129.0.1")), ("t", "cpe-offer", discover(relay="10.129.0.1"))], rows=one)
    player.section("a subscriber of 254 has so many, of which each is offered an address again", "The most that a subscriber may have.")
    wide = [POOL, "device-pool 2 10.129.0.0 10.129.0.255 24 10.129.0.1 10.129.0.1", *ONLINE, 'subscriber 7 active 254 "Ann"']
    for last, word in ((252, "cpe-offer"), (253, "cpe-limit")):
        folded = f"repeat 0 {last} device 10.129.0.# offered {MODEM} 0201% t+1"
        single = [f"device 10.129.0.{place} offered {MODEM} 0201{place:08x} t+1" for place in range(last + 1)]
        played = Played([*player.rows, *wide, *single])
        events = [("t", word, discover()), ("t", word, says(DISCOVER, 0xA1, relay="10.129.0.1")), ("t+1", "cpe-offer", discover(0xA2))]
        for event in events:
            played.take(*event)
        player.script.run(f"{last + 1} others", ["office", *wide, folded, *player.written(events)], leases.outcome(wrote=played.wrote, sent=played.sent))
    player.section("a clerk changes how many", "Who has an address keeps it until it ends, and renews it only within the number.")
    player.play("", [
        ("t", "cpe-offer", discover(0xA1)), ("t", "cpe-ack", selects(at(10), 0xA1)), ("t", "cpe-offer", discover(0xA2)), ("t", "cpe-ack", selects(at(11), 0xA2)),
        ("t", "cpe-limit", discover(0xA3)), ("t", "", put_subscriber(devices=3)), ("t", "cpe-offer", discover(0xA3)), ("t", "", put_subscriber(devices=1)),
        ("t", "cpe-limit", renews(at(10), 0xA1)), ("t", "cpe-released", gives_back(at(11), 0xA2)), ("t+119", "cpe-limit", renews(at(10), 0xA1)),
        ("t+120", "cpe-ack", renews(at(10), 0xA1)), ("t+120", "cpe-limit", selects(at(12), 0xA3))], rows=PLACE)
    player.play("each of eleven", [("t", "cpe-limit" if last == 0 else "cpe-offer", discover(last)) for last in (*range(1, 12), 0)],
                rows=[*PLACE, 'subscriber 7 active 11 "Ann"', "device-pool 2 10.129.0.10 10.129.0.20 24 10.129.0.1 10.129.0.1"])


def moving(player):
    player.section("a device that goes behind another modem has another lease there", "The one that it had stays until it ends or its address is given to another; each modem has its own number.")
    two = [*PLACE, SECOND, *leased("bound", "10.64.0.11", 1, "t+86400")]
    there = {"behind": mac(1)}
    player.play("", [
        ("t", "cpe-offer", discover()), ("t", "cpe-ack", selects()), ("t+1", "cpe-offer", discover(**there)), ("t+1", "cpe-not-yours", selects(**there)),
        ("t+1", "cpe-ack", selects(at(11), **there)), ("t+2", "cpe-ack", renews()), ("t+2", "cpe-ack", renews(at(11))), ("t+3", "cpe-no-record", gives_back(way=agent(mac(1)))),
        ("t+3", "cpe-released", gives_back()), ("t+4", "cpe-offer", discover(asked=at(11))), ("t+5", "cpe-released", gives_back(at(11)))], rows=two)
    player.play("and back", [
        ("t", "cpe-offer", discover(**there)), ("t", "cpe-offer", discover()), ("t+120", "cpe-offer", discover(0xA2, asked=at(10), **there)), ("t+120", "cpe-offer", discover(**there))], rows=two)
    player.play("the first modem goes offline", [
        ("t", "cpe-ack", reboots()), ("t", "released", releases()), ("t", "cpe-offline", renews()), ("t", "cpe-offline", gives_back()), ("t", "cpe-offer", discover(**there))],
        rows=[*two, has("bound", 10, 0xA1, "t+9")])
    player.section("a modem is online while it's bound to an address", "")
    for remark, rows, word in (("bound", leased("bound", A, 0xEE, "t+1"), "cpe-offer"), ("ended", leased("bound", A, 0xEE, "t"), "cpe-offline"),
                               ("offered", leased("offered", A, 0xEE, "t+1"), "cpe-offline"), ("nothing", [], "cpe-offline"),
                               ("declined", [f"lease {A} declined t+1"], "cpe-offline")):
        player.play(remark, [("t", word, discover())], rows=[POOL, *rows])
    player.play("it comes back", [
        ("t", "cpe-offline", discover()), ("t", "offer", leases.discover()), ("t", "cpe-offline", discover()), ("t", "ack", leases.selects()), ("t", "cpe-offer", discover()),
        ("t", "declined", leases.declines()), ("t", "cpe-offline", selects())], rows=[POOL])
    player.section("a device is served by the hub of its modem's address", "By its server, time zone, time of leases and where logs are sent; the pool for devices has no hub.")
    hub = ["hub 1 10.0.0.9 6f74686572 -3600 600 10.0.0.8", "pool-hub 1 1"]
    player.play("", [("t", "cpe-offer", discover()), ("t", "cpe-other-server", selects()), ("t", "cpe-ack", selects(server="10.0.0.9")), ("t+300", "cpe-ack", renews())],
                rows=[*PLACE, *hub])
    player.play("the hub's values change", [
        ("t", "cpe-offer", discover()), ("t", "", put_site(server="10.0.0.9", lease=60)), ("t", "cpe-other-server", selects()), ("t", "cpe-ack", selects(server="10.0.0.9")),
        ("t+59", "cpe-ack", renews()), ("t+119", "cpe-ack", renews())], rows=PLACE)


def losing(player):
    """What comes of devices' leases when something becomes of their modem."""
    player.section("a modem goes offline while its devices hold leases", "They stay until they end, and count again once the modem is back.")
    two = [has("bound", 10, 0xA1, "t+9000"), has("offered", 11, 0xA2, "t+9000")]
    held = [*PLACE, *two]
    asks = [discover(), selects(), reboots(), renews(), renews(relay=RELAY), declines(), gives_back(), gives_back(relay=RELAY)]
    for remark, event in (("it releases its address", ("t+1", "released", releases())), ("its address is declined", ("t+1", "declined", leases.declines())),
                          ("it is offered another address", ("t+1", "offer", leases.discover(relay="10.65.0.1"))), ("its lease ends", ("t+500", "dhcp-short", b""))):
        rows = [POOL, *leased("bound", A, 0xEE, "t+500"), *two, "pool 2 10.65.0.10 10.65.0.11 24 10.65.0.1 10.65.0.1"]
        player.play(remark, [("t", "cpe-ack", renews()), event, *(("t+500", "cpe-offline", each) for each in asks), ("t+500", "cpe-offline", discover(0xA3))], rows=rows)
    player.play("it comes back, to another address", [
        ("t", "released", releases()), ("t", "offer", leases.discover(1)), ("t", "offer", leases.discover()), ("t", "cpe-offline", renews()), ("t", "ack", leases.selects("10.64.0.11")),
        ("t", "cpe-ack", renews()), ("t", "cpe-limit", discover(0xA3)), ("t", "cpe-ack", selects(at(11), 0xA2))], rows=[*held, SECOND])
    player.play("it renews, and its devices' leases end later than its own", [
        ("t", "cpe-ack", renews()), ("t+86399", "cpe-ack", renews()), ("t+86400", "cpe-offline", renews()), ("t+86400", "ack", leases.renews()), ("t+86400", "cpe-ack", renews())], rows=held)
    player.section("a modem is deleted while its devices hold leases", "Who says by its lease whose device it is has no service; whom the relay's word alone knows is no device.")
    player.play("", [
        ("t", "", remove(f"/modems/{MODEM}")), ("t", "cpe-suspended", renews()), ("t", "relay-mismatch", renews(relay=RELAY)), ("t", "relay-mismatch", discover(0xA3)), ("t", "relay-mismatch", declines()),
        ("t", "cpe-suspended", renews(relay=RELAY, way=None)), ("t", "cpe-no-pool", renews(relay="10.9.9.9", way=None)), ("t", "cpe-other-server", gives_back(server="10.0.0.9")),
        ("t", "cpe-released", gives_back()), ("t", "no-record", gives_back()), ("t", "released", releases()), ("t", "cpe-offline", gives_back(at(11), 0xA2)),
        ("t", "", put_modem(0xEE, "")), ("t", "cpe-offline", discover(0xA3)), ("t", "offer", leases.discover()), ("t", "ack", leases.selects()), ("t", "cpe-offer", discover(0xA3)),
        ("t", "cpe-limit", discover())], rows=held)
    player.section("a modem goes to another subscriber while its devices hold leases", "Whether its devices are served, and how many, is the new one's from then on.")
    others = ['subscriber 8 active 1 "Bob"', 'subscriber 9 suspended 5 "Cem"']
    player.play("", [
        ("t", "", move_modem(0xEE, 8)), ("t", "cpe-limit", renews()), ("t", "cpe-limit", selects(at(11), 0xA2)), ("t", "cpe-limit", discover(0xA3)), ("t", "cpe-released", gives_back(at(11), 0xA2)),
        ("t", "cpe-ack", renews()), ("t", "cpe-limit", discover(0xA2)), ("t", "", move_modem(0xEE, 9)), ("t", "cpe-suspended", renews()), ("t", "cpe-suspended", discover()),
        ("t", "no-subscriber", move_modem(0xEE, 10)), ("t", "no-class", move_modem(0xEE, 8, 9)), ("t", "cpe-suspended", discover()), ("t", "", put_subscriber(True, 2, 9)),
        ("t", "cpe-offer", discover(0xA3)), ("t", "has-modems", remove("/subscribers/9")), ("t", "cpe-released", gives_back())], rows=[*held, *others])
    player.section("a modem goes to another hub while its devices hold leases", "They are served by the hub of the address that it holds then: its server, its time of leases, its time zone.")
    hub = ["hub 1 10.0.0.9 6f74686572 -3600 600 10.0.0.8"]
    player.play("its pool is another hub's", [
        ("t", "cpe-ack", renews()), ("t", "", put_pool(1, A, "10.64.0.99", hub=1)), ("t", "cpe-ack", renews()), ("t", "cpe-other-server", selects()), ("t", "cpe-ack", selects(server="10.0.0.9")),
        ("t", "cpe-other-server", gives_back(server="10.0.0.2")), ("t", "cpe-other-server", declines(server="10.0.0.2")), ("t", "cpe-not-yours", selects(at(12), server="10.0.0.9")),
        ("t", "cpe-released", gives_back(server="10.0.0.9"))], rows=[*held, *hub])
    player.play("it gets an address of another hub", [
        ("t", "cpe-offer", discover()), ("t", "offer", leases.discover(relay="10.65.0.1")), ("t", "cpe-offline", discover()), ("t", "ack", leases.selects("10.65.0.10", relay="10.65.0.1", server="10.0.0.9")),
        ("t", "cpe-offer", discover()), ("t", "cpe-other-server", selects()), ("t", "cpe-ack", selects(server="10.0.0.9")), ("t+600", "cpe-offline", renews())],
        rows=[*held, *hub, "pool 2 10.65.0.10 10.65.0.11 24 10.65.0.1 10.65.0.1", "pool-hub 2 1"])


def renewing(player):
    player.section("a device renews without a relay, by the pool in which its address lies", "The ACK goes to its address, a NAK to 255.255.255.255, both to port 68 (RFC 2131, section 4.1).")
    rows = [*PLACE, FAR, has("bound", 10, 0xA1, "t+9"), "device 10.129.0.12 offered " + f"{MODEM} {device(0xA2).hex()} t-9", SECOND]
    for way in (None, agent(MAC), option(1, b"x"), option(2, b"")):
        player.play("the relay's word or none" if way is None else "", [
            ("t", "cpe-ack", renews(way=way)), ("t", "cpe-ack", renews("10.129.0.12", 0xA2, way=way)), ("t", "cpe-ack", renews(way=way, flags=0x8000))], rows=rows)
    player.play("another's address, or none's", [
        ("t", "cpe-not-yours", renews("10.129.0.12", way=agent(MAC))), ("t", "cpe-not-yours", renews(at(11), way=agent(MAC), flags=0x8000)), ("t", "cpe-no-pool", renews("10.129.0.9", way=agent(MAC))),
        ("t", "cpe-no-pool", renews("10.129.0.21", way=agent(MAC))), ("t", "no-relay-pool", renews("10.129.0.12")), ("t", "no-relay-pool", renews("10.129.0.9")),
        ("t", "not-your-address", leases.renews("10.64.0.12")), ("t", "cpe-no-record", renews(at(11), 0xA3, way=agent(MAC)))], rows=rows)
    player.play("by a relay", [
        ("t", "cpe-ack", renews(relay=RELAY)), ("t", "cpe-ack", renews(relay=RELAY, way=None)), ("t", "cpe-not-yours", renews(relay="10.129.0.1")), ("t", "cpe-not-yours", renews(relay="10.129.0.1", way=None)),
        ("t", "cpe-no-pool", renews(relay="10.64.0.1", way=None)), ("t", "cpe-ack", renews("10.129.0.12", 0xA2, relay="10.129.0.1", way=None))], rows=rows)
    player.play("the pool is another in the midst", [
        ("t", "cpe-ack", renews()), ("t+1", "", put_device_pool(1, FIRST, at(11), "10.128.0.2")), ("t+1", "cpe-ack", renews()), ("t+1", "cpe-no-pool", renews(relay=RELAY)),
        ("t+1", "cpe-ack", renews(relay="10.128.0.2"))], rows=rows)
    player.section("a device's reply has the request's number, flags and hardware address, and what its relay says", "RFC 2131, table 3; RFC 3046, section 2.2.")
    fixed = {"xid": 0xFFEEDDCC, "hops": 3, "secs": 777, "flags": 0x8001, "rest": bytes(range(1, 11))}
    player.play("", [
        ("t", "cpe-offer", discover(**fixed)), ("t", "cpe-ack", selects(**fixed)), ("t", "cpe-ack", renews(**fixed)), ("t", "cpe-not-yours", selects(at(15), **fixed)),
        ("t", "cpe-not-yours", renews(at(15), way=agent(MAC), **{**fixed, "flags": 1}))], rows=PLACE)
    player.play("an OFFER has no address of the device, and an ACK has the one that it says", [
        ("t", "cpe-offer", discover(client="10.128.0.77")), ("t", "cpe-ack", selects()), ("t", "cpe-ack", renews(relay=RELAY))], rows=PLACE)
    for size in (8, 255, 256, 300):
        way = option(2, MAC) + (option(9, bytes(size - 10)) if 10 <= size < 266 else option(9, bytes(200)) + option(9, bytes(size - 212)) if size > 266 else b"")
        player.play(f"{len(way)} bytes", [("t", "cpe-offer", discover(way=way)), ("t", "cpe-ack", selects(way=way)), ("t", "cpe-not-yours", selects(at(15), way=way))], rows=PLACE)


def beside_modems(player):
    player.section("pools for devices and pools of modems may share a relay", "Whose address it is hangs on who asks, and nobody is offered one of the other's.")
    both = [f"device-pool 1 {FIRST} {LAST} 24 10.64.0.1 10.64.0.1", *ONLINE, SECOND]
    here = {"relay": "10.64.0.1"}
    player.play("", [
        ("t", "cpe-offer", discover(**here)), ("t", "offer", leases.discover(1)), ("t", "cpe-ack", selects(**here)), ("t", "ack", leases.selects("10.64.0.11", 1)),
        ("t", "cpe-offer", discover(0xA2, asked="10.64.0.50", **here)), ("t", "offer", leases.discover(1, asked=at(15))), ("t", "not-your-address", leases.selects(FIRST, 1)),
        ("t", "cpe-not-yours", selects(A, **here)), ("t", "", put_device_pool(2, "10.129.0.10", "10.129.0.10", "10.128.0.1")), ("t", "relay-taken", put_device_pool(2, "10.129.0.10", "10.129.0.10", "10.64.0.1")),
        ("t", "relay-taken", put_pool(2, "10.65.0.10", "10.65.0.10")), ("t", "", put_pool(2, "10.65.0.10", "10.65.0.10", "10.128.0.1"))], rows=both)
    player.section("a pool gets no address that is another's, while leases are held", "")
    player.play("", [
        ("t", "cpe-ack", reboots()), ("t", "pool-overlap", put_device_pool(2, "10.64.0.99", "10.64.0.120", "10.129.0.1")), ("t", "device-overlap", put_device_pool(2, at(20), at(25), "10.129.0.1")),
        ("t", "device-overlap", put_pool(2, at(5), FIRST, "10.65.0.1")), ("t", "pool-size", put_device_pool(2, at(25), at(24), "10.129.0.1")),
        ("t", "", put_device_pool(2, at(21), at(25), "10.129.0.1")), ("t", "device-overlap", put_device_pool(1, FIRST, at(21))), ("t", "cpe-offer", discover(relay="10.129.0.1")),
        ("t", "cpe-offer", discover(0xA2)), ("t", "pool-has-leases", remove("/device-pools/2")), ("t+120", "", put_device_pool(2, at(22), at(25), "10.129.0.1")),
        ("t+120", "", put_device_pool(1, FIRST, at(21))), ("t+120", "cpe-offer", discover(0xA2, asked=at(21))), ("t+240", "", remove("/device-pools/1")), ("t+240", "", remove("/device-pools/2")),
        ("t+240", "", put_pool(2, FIRST, at(25), "10.65.0.1")), ("t+240", "offer", leases.discover(1, relay="10.65.0.1"))], rows=[*PLACE, SECOND, has("bound", 10, 0xA1, "t+9")])
    player.section("a modem may be a device behind another modem", "Where the relay names another modem on record; both leases are its own.")
    player.play("", [
        ("t", "cpe-offer", leases.discover(1, relay=RELAY, remote=MAC)), ("t", "cpe-ack", leases.selects(FIRST, 1, relay=RELAY, remote=MAC)), ("t", "offer", leases.discover(1)),
        ("t", "ack", leases.selects("10.64.0.11", 1)), ("t", "cpe-ack", leases.renews(FIRST, 1)), ("t", "ack", leases.renews("10.64.0.11", 1)), ("t", "cpe-offer", discover(0xA1, behind=mac(1))),
        ("t", "cpe-offer", says(DISCOVER, 0xA2)), ("t", "cpe-limit", says(DISCOVER, 0xA3)), ("t", "released", releases("10.64.0.11", 1)), ("t", "cpe-released", releases(FIRST, 1)),
        ("t", "cpe-no-pool", leases.discover(1, remote=MAC))], rows=[*PLACE, SECOND])
    player.section("nobody is told of devices' leases: neither a clerk nor a relay that asks", "A query is about the addresses and modems of its relay's hub.")
    held = [*PLACE, has("bound", 10, 0xA1, "t+900"), "device-pool 2 10.129.0.10 10.129.0.20 24 10.64.0.1 10.64.0.1"]
    player.play("", [
        ("t", "no-row", show(FIRST)), ("t", "query-unknown", who_has(FIRST)), ("t", "query-unknown", leases.query(hardware=device(0xA1), relay=address("10.64.0.1"))),
        ("t", "query-relay", who_has(FIRST, relay=RELAY)), ("t", "query-active", who_has(A)), ("t", "query-active", has_which())], rows=held)
    player.section("a device reads no file", "Its address has no modem's lease, whatever name it asks for.")
    files = transfers.TransferPlayer(player.script, player.rows)
    files.play("", [("t", "no-lease", transfers.sends(transfers.request(transfers.name()), FIRST)), ("t", "no-lease", transfers.sends(transfers.request(transfers.name(held=FIRST)), FIRST)),
                    ("t", "block 1", transfers.sends(transfers.request(transfers.name())))], rows=held)


def clerking(player):
    player.section("clerks change the pools in the midst", "A lease that lasts holds its pool; one that has ended goes with its address.")
    player.play("", [
        ("t", "no-relay-pool", leases.discover(relay=RELAY)), ("t", "cpe-no-pool", discover()), ("t", "", put_device_pool(1, FIRST, FIRST)), ("t", "cpe-offer", discover()),
        ("t", "cpe-pool-full", discover(0xA2)), ("t", "pool-has-leases", put_device_pool(1, at(11), LAST)), ("t", "", put_device_pool(1, FIRST, LAST)),
        ("t", "cpe-offer", discover(0xA2)), ("t", "cpe-ack", selects()), ("t", "pool-has-leases", remove("/device-pools/1")), ("t+120", "pool-has-leases", put_device_pool(1, at(11), LAST)),
        ("t+120", "", put_device_pool(1, FIRST, FIRST)), ("t+120", "cpe-not-yours", selects(at(11), 0xA2)), ("t+121", "cpe-released", gives_back()),
        ("t+121", "", remove("/device-pools/1")), ("t+121", "no-row", remove("/device-pools/1")), ("t+121", "cpe-no-pool", discover())], rows=ONLINE)
    player.play("another relay", [
        ("t", "cpe-ack", reboots()), ("t", "", put_device_pool(1, FIRST, LAST, "10.128.0.2")), ("t", "cpe-no-pool", reboots()), ("t", "cpe-ack", reboots(relay="10.128.0.2")),
        ("t", "cpe-ack", renews())], rows=[*PLACE, has("bound", 10, 0xA1, "t+9")])
    player.play("moments stop at the greatest", [("18446744073709551600", "cpe-offer", discover()), ("18446744073709551600", "cpe-ack", selects())],
                rows=[POOL, *leased("bound", A, 0xEE, 2**64 - 1)])


def failing(player):
    player.section("a device's message in which the keeper fails changes nothing, and has no reply", "Each call of the keeper fails in turn: of the opening, status 3; of a message, which comes again and is answered then.")
    bound = [*PLACE, has("bound", 10, 0xA1, "t+900")]
    player.fails_each("a DISCOVER, which drops a lease and puts one", ("t", "cpe-offer", discover(relay="10.129.0.1")), rows=[*bound, FAR])
    player.fails_each("a DISCOVER for an ended lease of another", ("t", "cpe-offer", discover(0xA2)), rows=[LONE, *ONLINE, has("bound", 10, 0xA1, "t")])
    player.fails_each("a REQUEST", ("t", "cpe-ack", selects()), rows=[*PLACE, has("offered", 10, 0xA1, "t+120")])
    player.fails_each("a renewal", ("t", "cpe-ack", renews()), rows=bound)
    player.fails_each("a DECLINE", ("t", "cpe-declined", declines()), rows=bound, behind=("cpe-no-record", declines()))
    player.fails_each("a RELEASE", ("t", "cpe-released", gives_back()), rows=bound, behind=("no-record", gives_back()))
    player.fails_each("a REQUEST that is told no", ("t", "cpe-not-yours", selects(at(11))), rows=bound)
    player.fails_each("a DISCOVER of one too many", ("t", "cpe-limit", discover(0xA3)), rows=[*bound, has("offered", 11, 0xA2, "t+1")])
    player.section("a device's reply that is lost is told, and what was done stays done", "The link's calls are `next`, `send`, `next`, `send`.")
    player.loses("an ACK is lost, and comes again", [("t", "cpe-ack", selects()), ("t", "cpe-ack", selects())], 0, rows=[*PLACE, has("offered", 10, 0xA1, "t+120")], lines=["fails link 2"])
    player.loses("the link has room for one OFFER", [("t", "cpe-offer", discover()), ("t", "cpe-ack", selects())], 1, rows=PLACE, lines=["room link 1 308"])
    player.section("devices' leases outlast a run", "A second run starts from the tables that the first left, and from its own moment; what is kept of them is read again.")
    played = player.play("", [("t", "cpe-offer", discover()), ("t", "cpe-ack", selects()), ("t", "cpe-offer", discover(0xA2))], rows=PLACE)
    then = Played(played.office.rows())
    events = [("5", "cpe-ack", renews()), ("5", "cpe-limit", discover(0xA3)), ("6", "cpe-ack", reboots(at(11), 0xA2)), ("6", "cpe-released", gives_back()), ("6", "cpe-offer", discover(0xA3))]
    for event in events:
        then.take(*event)
    player.script.run("", ["show tables", *player.written(events)], then.outcome(), again=True)
    player.section("an office of earlier days serves devices, once it has a pool for them", "Its one site is the hub 0 from the opening on.")
    events = [("t", "cpe-no-pool", discover()), ("t", "", put_device_pool(1, FIRST, LAST)), ("t", "cpe-offer", discover()), ("t", "cpe-ack", selects()), ("t", "cpe-released", gives_back(server="10.0.0.2"))]
    player.migrates("the same from earlier days", events, rows=ONLINE, now=player.play("after the opening", events, rows=ONLINE))
    events = [("t", "cpe-ack", renews()), ("t", "cpe-limit", discover(0xA3)), ("t", "cpe-offer", discover(0xA2)), ("t+119", "cpe-limit", discover(0xA3)), ("t+120", "cpe-offer", discover(0xA3))]
    held = [*PLACE, has("bound", 10, 0xA1, "t+9"), has("offered", 11, 0xA2, "t+1")]
    player.migrates("leases of devices, from earlier days", events, rows=held, now=player.play("leases of devices", events, rows=held))


def sections(script, rows):
    """Writes the sections, over an office of these rows."""
    player = Player(script, rows)
    for write in (worked, knowing, refusing, choosing, freeing, limiting, moving, losing, clerking, renewing, beside_modems, failing):
        write(player)
