"""Examples of leases: sections of crates/office_script that `office.py` writes with its own, and what is expected of each.

What is expected is computed by a plain model of an office's leases, `Office` here, over the reader and writer of messages.py. It is written from
RFC 2131, and from the office's own rules, which its methods say in order. Beside that the word of each message is said here by hand, and the first
OFFER, ACK and NAK byte for byte; where the model says another, nothing is written.
"""
import hashlib
import hmac
import ipaddress
import random

from examples import T, answered, compact, datagram, ip, outcome
from messages import (ACK, ACTIVE, DECLINE, DISCOVER, INFORM, MODEM, NAK, OFFER, RELAYED, RELAYED_DISCOVER, RELEASE, REQUEST, UNASSIGNED, UNKNOWN, Message,
                      answer_to, asked_by, fault_of, first_of, is_query, message, option, parts_in, query, reply_to, split)

MOST = 2**64 - 1
OFFERED, RESTS = 120, 600


def address(text):
    """The four bytes of an address."""
    return ipaddress.IPv4Address(text).packed


def text_of(each):
    return ip(int.from_bytes(each, "big"))


def moment_of(text):
    """A moment as scripts write it."""
    text = str(text)
    return T + int(text[1:] or "0") if text.startswith("t") else int(text)


def later(now, seconds):
    """Sums of moments stop at the greatest number of 64 bits."""
    return min(now + seconds, MOST)


def name_of(secret, mac, held):
    """The name of the file of a modem at an address."""
    return f"{mac.hex()}-{hmac.new(secret, mac + held, hashlib.md5).hexdigest()[:16]}.cm".encode()


def key_of(kind, words):
    """The key of a row: its kind, and the numbers that its line begins with."""
    return (kind, *words[:0 if kind == "site" else 2 if kind == "add-on" else 1])


def is_modem(value):
    """CANN-DHCP-Reg: `docsis`, a digit, a point, a digit and a colon."""
    return value[:6] == b"docsis" and value[6:7].isdigit() and value[7:8] == b"." and value[8:9].isdigit() and value[9:10] == b":"


class Pool:
    def __init__(self, number, words):
        self.number = int(number)
        self.first, self.last, self.router, self.relay = (address(words[place]) for place in (0, 1, 3, 4))
        self.prefix = int(words[2])

    def has(self, each):
        return self.first <= each <= self.last

    def addresses(self):
        return (number.to_bytes(4, "big") for number in range(int.from_bytes(self.first, "big"), int.from_bytes(self.last, "big") + 1))


class Office:
    """The leases of an office. Its rows are lines, as scripts write them; only what leases hang on is read of them."""

    def __init__(self, rows):
        self.now, self.kept, self.serials, self.pools, self.leases, self.held = 0, {}, {}, {}, {}, {}
        for row in rows:
            self.put(row)

    def put(self, row):
        kind, *words = row.split(" ")
        if kind == "drop":
            self.drop(words[0], words[1:])
        elif kind == "lease":
            self.leases[address(words[0])] = (words[1], bytes.fromhex(words[2]) if words[1] != "declined" else None, moment_of(words[-1]))
        elif kind == "held":
            self.held[bytes.fromhex(words[0])] = address(words[1])
        else:
            self.kept[key_of(kind, words)] = row
        if kind == "modem":
            self.serials[bytes.fromhex(words[0])] = row.split('"')[1].encode()
        elif kind == "pool":
            self.pools[int(words[0])] = Pool(*words[:1], words[1:])

    def drop(self, kind, words):
        self.kept.pop(key_of(kind, words))
        if kind == "modem":
            del self.serials[bytes.fromhex(words[0])]
        elif kind == "pool":
            del self.pools[int(words[0])]

    def rows(self):
        leases = [f"lease {text_of(each)} {hold}{' ' + owner.hex() if owner else ''} {expiry}" for each, (hold, owner, expiry) in self.leases.items()]
        held = [f"held {mac.hex()} {text_of(each)}" for mac, each in self.held.items()]
        return [*self.kept.values(), *leases, *held]

    def site(self, hub):
        """The row of a hub, or None where there is none."""
        if ("hub", str(hub)) not in self.kept:
            return None
        words = self.kept["hub", str(hub)].split(" ")
        return {"server": address(words[2]), "secret": bytes.fromhex(words[3]), "offset": int(words[4]), "lease": int(words[5]),
                "log": address(words[6])}

    def hub_of(self, pool):
        """The number of a pool's hub: 0 where no row names one."""
        row = self.kept.get(("pool-hub", str(pool.number)))
        return int(row.split(" ")[2]) if row else 0

    def pool_around(self, each):
        """The pool in which an address lies, or None."""
        return next((pool for pool in self.pools.values() if pool.has(each)), None)

    def site_at(self, each):
        """The row of an address's hub."""
        return self.site(self.hub_of(self.pool_around(each)))

    def is_free(self, each):
        return each not in self.leases or self.leases[each][2] <= self.now

    def pool_of(self, m):
        """The pool of a message: its relay's; or, of a renewal that came without a relay, that of the address."""
        if m.relay != bytes(4):
            return next((pool for pool in self.pools.values() if pool.relay == m.relay), None)
        if m.kind == REQUEST and (m.asked() or ("",))[0] == "renewing":
            return self.pool_around(m.client)
        return None

    def site_for(self, m):
        """The row of a message's hub: that of its pool, or of the address that it gives back, which may lie in no pool."""
        if m.kind in (DISCOVER, REQUEST):
            pool = self.pool_of(m)
        else:
            given = m.address(50) if m.kind == DECLINE else m.client
            pool = None if given is None else self.pool_around(given)
        return None if pool is None else self.site(self.hub_of(pool))

    def address_for(self, m, pool):
        """The address that a DISCOVER is offered: its own; the one that it asks for, if that is free; the least that is free."""
        own, wanted = self.held.get(m.mac), m.address(50)
        if own is not None and pool.has(own):
            return own
        if wanted is not None and pool.has(wanted) and self.is_free(wanted):
            return wanted
        return next((each for each in pool.addresses() if self.is_free(each)), None)

    def said_wrongly(self, m):
        """The first rule that a message breaks by what it says, or None."""
        if m.kind not in (DISCOVER, REQUEST, DECLINE, RELEASE):
            return "not-served"
        if m.kind == REQUEST and m.asked() is None:
            return "request-form"
        agent = parts_in(m.options.get(82, b""), False)
        if agent is None or m.kind in (DISCOVER, REQUEST) and parts_in(m.options.get(43, b""), True) is None:
            return "part-cut"
        remote = first_of(agent, 2)
        if remote is not None and len(remote) == 6 and remote != m.mac:
            return "relay-mismatch"
        if m.kind == DISCOVER and not is_modem(m.options.get(60, b"")) or m.kind == REQUEST and 60 in m.options and not is_modem(m.options[60]):
            return "not-a-modem"
        return None

    def unfit(self, m):
        """The first rule that a message breaks by the rows, or None."""
        asks = m.kind in (DISCOVER, REQUEST)
        if asks and self.pool_of(m) is None:
            return "no-relay-pool"
        if asks and self.site_for(m) is None:
            return "no-site"
        if asks and m.mac not in self.serials:
            return "unknown-modem"
        serial = first_of(parts_in(m.options.get(43, b""), True), 4) if asks else None
        if serial is not None and self.serials[m.mac] and self.serials[m.mac] != serial:
            return "serial-mismatch"
        names = m.kind in (DECLINE, RELEASE) or m.kind == REQUEST and m.asked()[0] == "selecting"
        site = self.site_for(m)
        if names and site is not None and m.address(54) not in (None, site["server"]):
            return "other-server"
        return None

    def wants(self, m):
        """The first rule that a message breaks by the address that it's about, or None."""
        held = self.held.get(m.mac)
        if m.kind == DISCOVER:
            return "pool-full" if self.address_for(m, self.pool_of(m)) is None else None
        if m.kind == DECLINE:
            return "no-record" if held is None or m.address(50) != held else None
        if m.kind == RELEASE:
            return "no-record" if held is None or m.client != held else None
        form, asked = m.asked()
        if form != "selecting" and held is None:
            return "no-record"
        return None if asked == held and self.pool_of(m).has(asked) else "not-your-address"

    def take(self, moment, data):
        """What becomes of a datagram: the word of the log, and what is sent as (where, bytes) or None."""
        self.now = max(self.now, moment)
        if is_query(data):
            return self.tell(data)
        fault = fault_of(data)
        if fault:
            return "dhcp-" + fault.split(" ")[0], None
        m = Message(data)
        word = self.said_wrongly(m) or self.unfit(m) or self.wants(m)
        if word == "not-your-address":
            return word, (self.destination(m, "255.255.255.255"), reply_to(data, NAK, self.site_for(m)["server"]))
        if word:
            return word, None
        return {DISCOVER: self.offer, REQUEST: self.acknowledge, DECLINE: self.decline, RELEASE: self.release}[m.kind](m, data)

    def tell(self, data):
        """What a relay's query is answered (RFC 4388, section 6.4); the words, and in which order they come, are the office's own rules."""
        relay, asked = data[24:28], asked_by(data)
        hubs = [self.hub_of(pool) for pool in self.pools.values() if pool.relay == relay]
        if not hubs or self.site(hubs[0]) is None:
            return "query-relay", None
        if asked is None:
            return "query-form", None
        form, value = asked
        held = value if form == "address" else self.held.get(value)
        is_within = held is not None and any(pool.has(held) and self.hub_of(pool) == hubs[0] for pool in self.pools.values())
        hold, owner, expiry = self.leases.get(held, ("", None, 0))
        to, server = f"{text_of(relay)}:67", self.site(hubs[0])["server"]
        if is_within and hold == "bound" and expiry > self.now and form in ("address", "client" if owner == value else ""):
            return "query-active", (to, answer_to(data, ACTIVE, server, (held, owner, expiry - self.now)))
        if is_within and form == "address":
            return "query-unassigned", (to, answer_to(data, UNASSIGNED, server))
        return "query-unknown", (to, answer_to(data, UNKNOWN, server))

    def destination(self, m, direct):
        return f"{direct}:68" if m.relay == bytes(4) else f"{text_of(m.relay)}:67"

    def reply(self, m, data, kind, given):
        pool, site = self.pool_of(m), self.site_for(m)
        offer = {"yiaddr": given, "offset": site["offset"], "lease": site["lease"], "log": site["log"], "prefix": pool.prefix, "router": pool.router,
                 "name": name_of(site["secret"], m.mac, given)}
        return self.destination(m, text_of(m.client)), reply_to(data, kind, site["server"], offer)

    def offer(self, m, data):
        given = self.address_for(m, self.pool_of(m))
        hold, owner, expiry = self.leases.get(given, ("", None, 0))
        if not (hold == "bound" and owner == m.mac and expiry > self.now):
            if owner is not None and owner != m.mac:
                del self.held[owner]
            if self.held.get(m.mac, given) != given:
                del self.leases[self.held[m.mac]]
            self.leases[given] = ("offered", m.mac, later(self.now, OFFERED))
            self.held[m.mac] = given
        return "offer", self.reply(m, data, OFFER, given)

    def acknowledge(self, m, data):
        given = m.asked()[1]
        self.leases[given] = ("bound", m.mac, later(self.now, self.site_for(m)["lease"]))
        return "ack", self.reply(m, data, ACK, given)

    def decline(self, m, _data):
        self.leases[self.held.pop(m.mac)] = ("declined", None, later(self.now, RESTS))
        return "declined", None

    def release(self, m, _data):
        del self.leases[self.held.pop(m.mac)]
        return "released", None

    def lost(self, pool, kept):
        """The least live lease of a pool that isn't in the other one; where there is none, those leases and their holders are dropped."""
        gone = [each for each in sorted(self.leases) if pool.has(each) and not (kept and kept.has(each))]
        live = [each for each in gone if self.leases[each][2] > self.now]
        for each in gone if not live else ():
            owner = self.leases.pop(each)[1]
            self.held.pop(owner, None)
        return live[0] if live else None

    def clerk(self, moment, path, row):
        """What a clerk is answered: status, word and text. A row is put; without one a lease is shown, and another row is removed."""
        self.now = max(self.now, moment)
        kind, number = (path.split("/") + [""])[1:3]
        if kind == "leases":
            if address(number) not in self.leases:
                return 404, "no-row", compact({"fault": "no-row"})
            hold, owner, expiry = self.leases[address(number)]
            return 200, "", compact({"expiry": expiry, "owner": owner.hex() if owner else "", "state": hold})
        if kind in ("pools", "hubs"):
            status, word, at = (self.change_pool if kind == "pools" else self.change_hub)(number, row)
            if status != 200:
                return status, word, compact({"fault": word} if at is None else {"at": at, "fault": word})
        elif row:
            self.put(row)
        elif path.count("/") == 4:
            self.drop("add-on", path.split("/")[2::2])
        else:
            self.drop(kind[:-1], [number])
        return 200, "", '{"ok":true}'

    def change_pool(self, number, row):
        """A pool is put, its line with its hub as the last word, or is removed: the status, and of a refusal its word and its place."""
        row, hub = row.rsplit(" ", 1) if row else (None, None)
        if row and self.site(hub) is None:
            return 422, "no-hub", None
        old = self.pools.get(int(number))
        if not row and old is None:
            return 404, "no-row", None
        lost = self.lost(old, Pool(number, row.split(" ")[2:]) if row else None) if old else None
        if lost is not None:
            return 409, "pool-has-leases", text_of(lost)
        if row:
            self.put(row)
        else:
            self.drop("pool", [number])
        self.kept.pop(("pool-hub", number), None)
        if row and hub != "0":
            self.put(f"pool-hub {number} {hub}")
        return 200, "", None

    def change_hub(self, number, row):
        """A hub is put, or is removed where no pool names it."""
        if row:
            self.put(row)
            return 200, "", None
        if self.site(number) is None:
            return 404, "no-row", None
        users = [pool.number for pool in self.pools.values() if self.hub_of(pool) == int(number)]
        if users:
            return 409, "hub-in-use", str(min(users))
        self.drop("hub", [number])
        return 200, "", None


# ---- what modems and clerks say

MAC = bytes.fromhex(MODEM)
SERVER, OTHER = address("10.0.0.2"), address("10.0.0.9")
RELAY, A = "10.64.0.1", "10.64.0.10"
DOCSIS = b"docsis3.1:"


def mac(last):
    """A modem's hardware address, of which only the last byte is said."""
    return MAC[:5] + bytes([last])


def vendor(serial):
    """What a modem says of itself: its type and its serial number."""
    return option(2, b"ECM") + option(4, serial)


def agent(remote):
    """What a relay says of the way to a modem."""
    return bytes.fromhex("010480000001") + option(2, remote)


def says(kind, last=0xEE, relay=RELAY, client="0.0.0.0", asked=None, server=None, docsis="", cable="", remote=None, way="", more=b"", **fixed):
    """A modem's message. Addresses are texts, or bytes where they aren't addresses; what is None isn't said."""
    is_asking, named = kind in (DISCOVER, REQUEST), [(50, asked), (54, server)]
    options = b"".join(option(code, address(value) if isinstance(value, str) else value) for code, value in named if value is not None)
    if docsis is not None and is_asking:
        options += option(60, docsis or DOCSIS)
    if cable is not None and (cable or is_asking):
        options += split(43, cable or vendor(b"SN01"))
    if way is not None and (way != "" or relay != "0.0.0.0"):
        options += split(82, agent(remote or mac(last)) if way == "" else way)
    return message(kind, mac(last), options + more, address(relay), address(client), **fixed)


def discover(last=0xEE, **what):
    return says(DISCOVER, last, **what)


def selects(asked=A, last=0xEE, server="10.0.0.2", **what):
    return says(REQUEST, last, asked=asked, server=server, **what)


def reboots(asked=A, last=0xEE, **what):
    return says(REQUEST, last, asked=asked, **what)


def renews(client=A, last=0xEE, relay="0.0.0.0", **what):
    return says(REQUEST, last, client=client, relay=relay, **what)


def declines(asked=A, last=0xEE, **what):
    return says(DECLINE, last, asked=asked, **what)


def releases(client=A, last=0xEE, relay="0.0.0.0", **what):
    return says(RELEASE, last, client=client, relay=relay, **what)


def who_has(held, relay=RELAY, **what):
    """A relay's query by address."""
    return query(client=address(held), relay=address(relay), **what)


def has_which(last=0xEE, relay=RELAY, **what):
    """A relay's query by a modem's hardware address."""
    return query(hardware=mac(last), relay=address(relay), **what)


def packed(data):
    """Bytes as a script writes them, with many zeros by their number."""
    text, at = [], 0
    while at < len(data):
        end = at
        while end < len(data) and data[end] == 0:
            end += 1
        if end - at >= 8:
            text.append(f"{end - at}* 00")
            at = end
            continue
        end = data.find(bytes(8), at)
        end = len(data) if end < 0 else end
        text.append(data[at:end].hex())
        at = end
    return " ".join(text) or "-"


class Clerk:
    """What a clerk asks in the midst: of a lease, to put a row, or to remove one."""

    def __init__(self, method, path, body="", row=None):
        self.method, self.path, self.body, self.row = method, path, body, row


def show(held):
    return Clerk("GET", f"/leases/{held}")


def remove(path):
    return Clerk("DELETE", path)


def put_pool(number, first, last, relay=RELAY, hub=None):
    """A pool is put; its body may leave the hub out, which then is 0."""
    body = {"first": first, "last": last, "prefix": 24, "router": RELAY, "relay": relay, **({} if hub is None else {"hub": hub})}
    return Clerk("PUT", f"/pools/{number}", compact(body), f"pool {number} {first} {last} 24 {RELAY} {relay} {hub or 0}")


def put_hub(number, server="10.0.0.2", secret=b"secret", offset=3600, lease=86400, log="0.0.0.0"):
    body = {"server": server, "secret": secret.hex(), "offset": offset, "lease": lease, "log": log}
    return Clerk("PUT", f"/hubs/{number}", compact(body), f"hub {number} {server} {secret.hex()} {offset} {lease} {log}")


def put_site(**what):
    """The hub 0 by the path of a site."""
    asked = put_hub(0, **what)
    return Clerk("PUT", "/site", asked.body, asked.row)


def put_modem(last, serial):
    body = {"subscriber": 7, "class": 1, "serial": serial}
    return Clerk("PUT", f"/modems/{mac(last).hex()}", compact(body), f'modem {mac(last).hex()} 7 1 "{serial}"')


def prefixes(data):
    """All prefixes of a datagram, the empty one and itself among them."""
    return [data[:length] for length in range(len(data) + 1)]


class Disagreement(Exception):
    """The model says another word than stands here."""


class Played:
    """What comes of events, which are (moment, word, what): the lines, and what is sent."""

    def __init__(self, rows):
        self.office, self.wrote, self.sent, self.turn = Office(rows), [], [], 0

    def line(self, service, word):
        self.wrote.append(f"{self.turn} {service} {word}")

    def take(self, moment, word, what):
        self.turn += 1
        if isinstance(what, Clerk):
            status, given, text = self.office.clerk(moment_of(moment), what.path, what.row)
            self.line("http", f"{status} {given}".strip())
            self.sent += answered(self.turn, status, text)
        else:
            given, reply = self.office.take(moment_of(moment), what)
            self.line("dhcp", given)
            self.sent += [datagram("dhcp", *reply)] if reply else []
        if word is not None and given != word:
            raise Disagreement(f"{given} where {word} is said, of {what if isinstance(what, Clerk) else what.hex()}")

    def outcome(self):
        return outcome(wrote=self.wrote, sent=self.sent, tables=self.office.rows())


SENDER = "10.64.0.1:67"


def line_of(turn, moment, what, sender=SENDER):
    """An event as a script writes it. A clerk's connection has the number of the turn."""
    if isinstance(what, Clerk):
        return f"{moment} ask {turn} {what.method} {what.path}" + (f" {what.body}" if what.body else "")
    return f"{moment} datagram dhcp from {sender} {packed(what)}"


def modem_row(last, serial=""):
    return f'modem {mac(last).hex()} 7 1 "{serial}"'


def leased(hold, held, last, expiry):
    """A lease, and the row of who holds it."""
    return [f"lease {held} {hold} {mac(last).hex()} {expiry}", f"held {mac(last).hex()} {held}"]


def calls_of_opening(rows):
    """How many calls of the keeper an office makes before its first event: one puts the rows, each is read, and that there is none behind the last; the site of
    earlier days is asked for; and the pools are read again, the leases, the hubs of pools, the pools for devices, and the leases of devices twice, each with
    what comes behind them."""
    again = sum({"pool": 1, "lease": 1, "pool-hub": 1, "device-pool": 1, "device": 2}.get(row.split()[0], 0) for row in rows)
    return 1 + len(rows) + 1 + 1 + again + 6


MODEL = "By the model of leases in tests/examples/leases.py, from RFC 2131, section 4.3, and the office's rules."


class Player:
    """Writes sections whose runs are computed, by the model that `plays` them."""
    plays = Played

    def __init__(self, script, rows):
        self.script, self.rows = script, rows

    def section(self, name, *sources):
        self.script.section(name, *([source for source in sources if source] or [MODEL]))

    def count(self, remark, events, rows, model_rows, calls):
        """A run of events over many rows, which the script writes as few: what comes of it, and how many calls of the keeper there are."""
        whole = [*self.rows, *model_rows]
        played = self.plays(whole)
        opening = calls_of_opening(self.plays(whole).office.rows())
        for event in events:
            played.take(*event)
        given = [line_of(turn, moment, what) for turn, (moment, _, what) in enumerate(events, 1)]
        self.script.run(remark, ["office", *rows, "show calls", *given], outcome(wrote=played.wrote, sent=played.sent, calls=opening + calls))

    def play(self, remark, events, rows=(), lines=(), behind=None, sender=SENDER):
        """A run of events over the office's rows and others: what comes of it, and the tables."""
        played = self.plays([*self.rows, *rows])
        given = [line_of(turn, moment, what, sender) for turn, (moment, _, what) in enumerate(events, 1)]
        for event in events:
            played.take(*event)
        self.script.run(remark, ["office", *rows, *lines, "show tables", *given], behind or played.outcome())
        return played

    def migrates(self, remark, events, now, rows=()):
        """The same run over the tables of earlier days: all is the same, from the first event on."""
        earlier = ["drop hub 0", "site " + next(row for row in self.rows if row.startswith("hub 0 ")).removeprefix("hub 0 ")]
        self.script.run(remark, ["office", *earlier, *rows, "show tables", *self.written(events)], now.outcome())

    def written(self, events):
        return [line_of(turn, moment, what) for turn, (moment, _, what) in enumerate(events, 1)]

    def loses(self, remark, events, place, rows=(), lines=()):
        """A run in which one event's reply is lost; each of its events but a RELEASE has one."""
        played = self.plays([*self.rows, *rows])
        for event in events:
            played.take(*event)
        played.wrote[place] = f"{place + 1} dhcp link"
        played.sent.pop(place)
        self.play(remark, events, rows, lines, played.outcome())

    def fails_each(self, remark, event, rows=(), behind=()):
        """An event and the same again, where each call of the keeper fails: of the opening, of the first time, of the second."""
        moment, first, what = event
        events = [event, (moment, *(behind or (first, what)))]
        whole, late, early = (self.plays([*self.rows, *rows]) for _ in range(3))
        for each in events:
            whole.take(*each)
        # The first time all is as if it hadn't come, but for the number of its line.
        early.turn = 1
        early.wrote = ["1 dhcp keeper"]
        early.take(moment, None, events[1][2])
        late.take(*event)
        late.turn = 2
        late.wrote.append("2 dhcp keeper")
        refused = outcome(3, ["keeper refused"], tables=self.plays([*self.rows, *rows]).office.rows())
        self.script.run(remark, ["office", *rows, "show tables", "fails each keeper", *(line_of(0, moment, each[2]) for each in events)],
                        whole.outcome(), refused, early.outcome(), late.outcome())


# ---- the sections

# The OFFER for the worked DISCOVER, byte for byte.
NAME = b"02aabbccddee-" + hmac.new(b"secret", MAC + address(A), hashlib.md5).hexdigest()[:16].encode() + b".cm"
FIRST_OFFER = (bytes.fromhex("020106001122334400000000" + "00000000" + "0a40000a" + "0a000002" + "0a400001" + MODEM) + bytes(10 + 64)
               + NAME + bytes(96) + bytes.fromhex("63825363" + "350102" + "36040a000002" + "330400015180" + "3a040000a8c0" + "3b0400012750")
               + bytes.fromhex("0104ffffff00" + "03040a400001" + "020400000e10" + "04040a000002") + RELAYED + b"\xff")
FIRST_ACK = FIRST_OFFER[:242] + b"\x05" + FIRST_OFFER[243:]
FIRST_NAK = (bytes.fromhex("020106001122334400008000") + bytes(12) + bytes.fromhex("0a400001" + MODEM) + bytes(10 + 64 + 128)
             + bytes.fromhex("63825363" + "350106" + "36040a000002") + RELAYED + b"\xff")
FIRST_NAK += bytes(300 - len(FIRST_NAK))
SECOND = modem_row(1)
HELD = leased("bound", A, 0xEE, "t+1000")


def is_sent(played, place, to, data):
    """What was sent is what stands here by hand."""
    if played.sent[place] != datagram("dhcp", to, data):
        raise Disagreement(f"{played.sent[place]} where {data.hex()} is said")


def worked(player):
    to = f"{RELAY}:67"
    player.section("a modem is offered an address, selects it, renews it and gives it back",
                   "The worked example, byte for byte: RFC 2131, figure 3, with a relay; the OFFER and the ACK have 308 bytes, the NAK 300.")
    played = player.play("", [("t", "offer", RELAYED_DISCOVER), ("t+1", "offer", RELAYED_DISCOVER)])
    is_sent(played, 0, to, FIRST_OFFER)
    is_sent(played, 1, to, FIRST_OFFER)
    chosen = RELAYED_DISCOVER[:-1]
    request = chosen[:242] + b"\x03" + chosen[243:]
    mine = option(54, SERVER) + option(50, address(A)) + b"\xff"
    foreign = option(54, OTHER) + option(50, address(A)) + b"\xff"
    wrong = option(54, SERVER) + option(50, address("10.64.0.50")) + b"\xff"
    played = player.play("", [
        ("t", "offer", RELAYED_DISCOVER), ("t", "other-server", request + foreign), ("t", "ack", request + mine), ("t+43200", "ack", renews()),
        ("t+43201", "not-your-address", request + wrong), ("t+43202", "request-form", renews(asked=A))])
    is_sent(played, 1, to, FIRST_ACK)
    is_sent(played, 3, to, FIRST_NAK)
    if not played.sent[2].startswith(f"datagram dhcp to {A}:68 02010600112233440000000" + "0" + address(A).hex() * 2 + SERVER.hex() + "00000000"):
        raise Disagreement(played.sent[2])
    player.play("a modem that holds nothing", [
        ("t", "no-record", reboots()), ("t", "no-record", renews()), ("t", "not-your-address", selects()), ("t", "no-record", declines()),
        ("t", "no-record", releases())])
    player.play("", [
        ("t", "declined", declines()), ("t+1", "no-record", declines()), ("t+599", "offer", discover()), ("t+600", "not-your-address", renews())
    ], rows=HELD)
    player.play("", [("t", "released", releases()), ("t+1", "no-record", releases()), ("t+2", "offer", discover(1))], rows=[SECOND, *HELD])


ONE = ["drop pool 1", f"pool 1 {A} {A} 24 {RELAY} {RELAY}"]


def crowded(player):
    player.section("a message asks as little in a pool of 4,096 addresses that is full but for the last",
                   "A message by which an address is offered or acknowledged makes five calls of the keeper at most, whatever the tables: its hub, what the modem holds, its own "
                   "row, the lease of what is offered, the commit. A renewal of which no relay says whose it is has no address to be offered, and asks for a device's lease of its own; a RELEASE does too.",
                   "Where the relay names another than the sender, that one's row is asked for.")
    wide = ["drop pool 1", f"pool 1 10.64.16.0 10.64.31.255 16 {RELAY} {RELAY}"]
    pools = [f"pool {number} 10.65.{number}.0 10.65.{number}.255 24 10.65.{number}.1 10.65.{number}.1" for number in range(2, 40)]
    ends = {part: 254 if part == 31 else 255 for part in range(16, 32)}
    folded = [f"repeat 0 {last} lease 10.64.{part}.# declined t+100" for part, last in ends.items()]
    single = [f"lease 10.64.{part}.{number} declined t+100" for part, last in ends.items() for number in range(last + 1)]
    last = "10.64.31.255"
    # An OFFER, the same again, the REQUEST, a renewal, and one of the other modem's, for which there is no address.
    whole = [("t", "offer", discover(), 5), ("t+1", "offer", discover(), 5), ("t+2", "ack", selects(last), 4), ("t+3", "ack", renews(last), 5), ("t+4", "pool-full", discover(1), 3),
             ("t+4", "relay-mismatch", discover(remote=mac(3)), 1), ("t+5", "released", releases(last), 4), ("t+6", "offer", discover(1), 5),
             ("t+100", "offer", discover(), 5)]
    for count in (1, 2, 3, 4, 5, 7, 8, 9):
        player.count(f"{count}", [event[:3] for event in whole[:count]], [SECOND, *wide, *pools, *folded], [SECOND, *wide, *pools, *single], sum(event[3] for event in whole[:count]))


def freeing(player):
    player.section("an address is free at the moment at which its lease ends", "A pool of one address, and two modems.")
    for rows, last in (((), 120), (leased("bound", A, 0xEE, "t+120"), 120), ([f"lease {A} declined t+600"], 600)):
        first = [] if rows else [("t", "offer", discover())]
        player.play("", [
            *first, (f"t+{last - 1}", "pool-full", discover(1)), (f"t+{last}", "offer", discover(1)), (f"t+{last}", "pool-full", discover()),
            (f"t+{last}", "no-record", renews())], rows=[SECOND, *ONE, *rows])
    player.section("two modems ask for one address", "The second is refused until the first has released it, or hasn't come back.")
    player.play("", [
        ("t", "offer", discover()), ("t", "pool-full", discover(1)), ("t+1", "not-your-address", selects(last=1)), ("t+2", "ack", selects()),
        ("t+3", "pool-full", discover(1)), ("t+4", "released", releases()), ("t+5", "offer", discover(1)), ("t+6", "not-your-address", selects()),
        ("t+7", "ack", selects(last=1)), ("t+8", "pool-full", discover())], rows=[SECOND, *ONE])
    player.play("an offer ends before it is selected", [
        ("t", "offer", discover()), ("t+120", "offer", discover(1)), ("t+121", "not-your-address", selects()), ("t+122", "ack", selects(last=1)),
        ("t+86522", "offer", discover()), ("t+86522", "no-record", renews(last=1))], rows=[SECOND, *ONE])
    player.section("the office's moment never falls", "A lease that has ended stays free, whatever moment an event says.")
    player.play("", [
        ("t", "not-served", says(INFORM)), ("t-86400", "offer", discover()), ("50", "ack", selects())
    ], rows=[SECOND, *ONE, *leased("bound", A, 1, "t")])
    player.play("", [
        ("t-1", "pool-full", discover()), ("t", "dhcp-short", b""), ("t-1", "offer", discover())], rows=[SECOND, *ONE, *leased("bound", A, 1, "t")])
    player.section("a modem has the address that is its own", "Also where its lease has ended, until another modem is offered it.")
    player.play("a live bound one stays as it is", [("t", "offer", discover()), ("t+999", "offer", discover(asked="10.64.0.20"))], rows=HELD)
    player.play("a bound one that has ended just now doesn't", [("t+1000", "offer", discover(asked="10.64.0.20"))], rows=HELD)
    player.play("an ended one is offered, and then bound", [
        ("t", "offer", discover()), ("t+1", "ack", reboots())], rows=leased("bound", A, 0xEE, "t-5"))
    player.play("an ended one is renewed", [("t", "ack", renews())], rows=leased("bound", A, 0xEE, "t-5"))
    player.play("an offered one is offered for longer", [
        ("t", "offer", discover(asked="10.64.0.20")), ("t+5", "ack", reboots())], rows=leased("offered", A, 0xEE, "t-5"))
    player.play("an ended one of another is its own no more", [
        ("t", "offer", discover(1, asked=A)), ("t", "no-record", renews()), ("t", "offer", discover())
    ], rows=[SECOND, *leased("bound", A, 0xEE, "t")])
    player.section("a modem behind another relay gives up the address that it had", "")
    far = "pool 2 10.65.0.10 10.65.0.11 16 10.65.0.1 10.65.0.1"
    player.play("", [
        ("t", "not-your-address", selects(relay="10.65.0.1")), ("t", "offer", discover(relay="10.65.0.1")), ("t+1", "not-your-address", selects()),
        ("t+2", "ack", selects("10.65.0.10", relay="10.65.0.1")), ("t+3", "ack", renews("10.65.0.10", relay="10.65.0.1")),
        ("t+4", "not-your-address", renews("10.65.0.10", relay=RELAY)), ("t+5", "not-your-address", renews(A))], rows=[far, *HELD])


def asking(player):
    player.section("a DISCOVER may ask for an address",
                   "Option 50 counts where it has four bytes and its address lies in the pool and is free (RFC 2131, section 4.3.1).")
    rows = [SECOND, *leased("bound", "10.64.0.20", 1, "t+1"), "lease 10.64.0.21 declined t"]
    outside = ("10.64.0.100", "10.64.0.9", "0.0.0.0", "255.255.255.255")
    for asked in ("10.64.0.11", "10.64.0.99", *outside, "10.64.0.20", "10.64.0.21", b"", b"\x0a\x40\0", b"\x0a\x40\0\x14\x14"):
        player.play("", [("t", "offer", discover(asked=asked))], rows=rows)
    player.play("twice four bytes, and twice two", [
        ("t", "offer", discover(more=option(50, address("10.64.0.30")) * 2)),
        ("t", "offer", discover(1, more=option(50, b"\x0a\x40") + option(50, b"\0\x1e")))], rows=[SECOND])
    player.section("options name an address and a server by four bytes, or the REQUEST has no form", "RFC 2131, table 4.")
    short, long = b"\x0a\x40\0", b"\x0a\x40\0\x0a\0"
    formless = [selects(asked=each) for each in (b"", short, long)] + [selects(server=each) for each in (b"", short, long)]
    formless += [reboots(b""), reboots(short), says(REQUEST), says(REQUEST, server="10.0.0.2"), renews(asked=A), renews(server="10.0.0.2"),
                 renews(asked=A, server="10.0.0.2"), renews(asked=b""), renews(server=b""), says(REQUEST, relay="0.0.0.0"),
                 selects(more=option(50, address(A))), selects(more=option(54, SERVER)), selects(client=A), renews(asked=short, server=long)]
    player.play("", [("t", "request-form", data) for data in formless], rows=HELD)
    player.play("each of the three forms, and an option in two pieces", [
        ("t", "ack", selects()), ("t+1", "ack", reboots()), ("t+2", "ack", renews(relay=RELAY)),
        ("t+3", "ack", says(REQUEST, more=option(50, address(A)[:1]) + option(54, SERVER) + option(50, address(A)[1:])))], rows=HELD)
    player.play("a DECLINE and a RELEASE may leave the server out, or say it in another length", [
        ("t", "no-record", declines(asked=None)), ("t", "no-record", declines(b"\x0a")), ("t", "no-record", releases("0.0.0.0")),
        ("t", "declined", declines(server=b"\x0a\0")), ("t", "offer", discover(1)),
        ("t", "released", releases("10.64.0.11", last=1, server=b"\x0a\0\0\x09\0"))], rows=[SECOND, *HELD])
    player.play("another modem's address", [
        ("t", "no-record", declines(last=1)), ("t", "no-record", releases(last=1)), ("t", "not-your-address", selects(last=1)),
        ("t", "no-record", reboots(last=1)), ("t", "no-record", renews(last=1))], rows=[SECOND, *HELD])
    player.play("what is said of the server", [
        ("t", "other-server", declines(server="10.0.0.9")), ("t", "other-server", releases(server="10.0.0.9")),
        ("t", "other-server", selects(server="10.0.0.9")), ("t", "ack", selects()), ("t", "released", releases(server="10.0.0.2"))], rows=HELD)
    player.section("a modem without a relay can renew alone", "The ACK goes to its address, a NAK to 255.255.255.255, both to port 68.")
    player.play("", [
        ("t", "no-relay-pool", discover(relay="0.0.0.0")), ("t", "no-relay-pool", selects(relay="0.0.0.0")),
        ("t", "no-relay-pool", reboots(relay="0.0.0.0")), ("t", "no-relay-pool", renews("10.64.0.100")), ("t", "no-relay-pool", renews("10.64.0.9")),
        ("t", "not-your-address", renews("10.64.0.11")), ("t", "not-your-address", renews("10.64.0.99", flags=0x8000)),
        ("t", "ack", renews(flags=0x8000)), ("t", "declined", declines(relay="0.0.0.0"))], rows=HELD)
    player.section("who selects an address that it wasn't offered is told so, and who renews one of which nothing is known isn't",
                   "RFC 2131, section 4.3.2.")
    player.play("", [
        ("t", "not-your-address", selects("10.64.0.11")), ("t", "not-your-address", reboots("10.64.0.11")),
        ("t", "not-your-address", renews("10.64.0.11", relay=RELAY)), ("t", "not-your-address", selects(A, last=1)),
        ("t", "no-record", reboots(last=1)), ("t", "no-record", renews(last=1, relay=RELAY))], rows=[SECOND, *HELD])


def echoes(player):
    player.section("a reply has the request's number, flags and hardware address, and nothing of its hops and seconds", "RFC 2131, table 3.")
    fixed = {"xid": 0xFFEEDDCC, "hops": 3, "secs": 777, "flags": 0x8001, "rest": bytes(range(1, 11))}
    player.play("", [
        ("t", "offer", discover(**fixed)), ("t", "ack", selects(**fixed)), ("t", "ack", renews(**fixed)),
        ("t", "not-your-address", selects("10.64.0.11", **fixed)), ("t", "not-your-address", renews("10.64.0.11", **{**fixed, "flags": 1}))])
    player.play("an OFFER has no address of the client, and an ACK has the one that it says", [
        ("t", "offer", discover(client="10.64.0.77")), ("t", "ack", selects()), ("t", "ack", renews(relay=RELAY))])
    player.section("a reply goes to the relay that the message names, whoever sent it", "RFC 2131, section 4.1.")
    player.play("", [("t", "offer", discover()), ("t", "ack", selects()), ("t", "ack", renews()), ("t", "not-your-address", renews("10.64.0.11"))],
                sender="10.9.9.9:5000")
    player.section("an OFFER has what the hub and the pool say",
                   "RFC 2132: times of 32 bits, a mask, an offset with a sign, and a log server where there is one.")
    said = [("10.0.0.2", -18000, 60, "10.0.0.3", 8), ("255.255.255.255", 86400, 604800, "255.255.255.255", 30), ("0.0.0.1", -86400, 61, "0.0.0.0", 24),
            ("10.0.0.2", -1, 67, "0.0.0.1", 29), ("10.0.0.2", 0, 79, "0.0.0.0", 9)]
    for server, offset, lease, log, prefix in said:
        rows = [f"hub 0 {server} 00 {offset} {lease} {log}", f"pool 1 10.64.0.10 10.64.0.99 {prefix} 0.0.0.0 {RELAY}"]
        player.play("", [("t", "offer", discover()), ("t+1", "ack", selects(server=server)), (f"t+{lease}", "ack", renews())], rows=rows)
    player.section("what a relay says is sent back whole",
                   "RFC 3046, section 2.2: 0, 255, 256 and 300 bytes, in options of at most 255 (RFC 3396); none where none came.")
    for size in (0, 255, 256, 300):
        way = option(2, MAC) + option(1, bytes(range(200))) + option(9, bytes(size - 212)) if size else b""
        player.play(f"{size} bytes", [
            ("t", "offer", discover(way=way)), ("t", "ack", selects(way=way)), ("t", "not-your-address", selects("10.64.0.50", way=way)),
            ("t", "declined", declines(way=way))])
    player.play("none", [("t", "offer", discover(way=None)), ("t", "not-your-address", selects("10.64.0.50", way=None))])
    player.play("a remote identifier of another length says nothing",
                [("t", "offer", discover(remote=each)) for each in (b"", mac(1)[:5], mac(1) + b"\0")])
    player.play("the first remote identifier counts", [
        ("t", "relay-mismatch", discover(way=option(2, mac(1)) + option(2, MAC))), ("t", "offer", discover(way=option(2, MAC) + option(2, mac(1)))),
        ("t", "offer", discover(way=option(2, b"\0") + option(2, mac(1)))), ("t", "part-cut", discover(way=option(0, b"") + b"\0"))])
    player.section("a modem may say its serial number",
                   "It is compared where both it and its row have one; an option 43 in two pieces is joined (RFC 3396), and the first part 4 counts.")
    rows = [SECOND]
    two = b"".join(option(43, piece) for piece in (vendor(b"SN01")[:7], vendor(b"SN01")[7:]))
    first, second = option(4, b"SN01"), option(4, b"SN02")
    alike = [(vendor(b"SN01"), b""), (None, b""), (None, option(43, b"")), (None, two), (option(2, b"ECM"), b""), (first + second, b""),
             (b"\0\0\xff" + second, b"")]
    unlike = [(vendor(serial), b"") for serial in (b"SN02", b"SN0", b"SN012", b"", b"sn01")]
    unlike += [(second + first, b""), (b"\0" + second + b"\xff\x04", b"")]
    for word, (cable, more) in [("offer", each) for each in alike] + [("serial-mismatch", each) for each in unlike]:
        player.play("", [("t", word, discover(cable=cable, more=more)), ("t", "offer", discover(1, cable=cable, more=more))], rows=rows)
    player.play("a REQUEST", [
        ("t", "serial-mismatch", selects(cable=vendor(b"SN02"))), ("t", "serial-mismatch", renews(cable=vendor(b"SN02"))),
        ("t", "ack", renews(cable=None))], rows=HELD)
    player.play("a DECLINE or a RELEASE isn't asked", [
        ("t", "declined", declines(cable=b"\x04\x09", docsis=None)), ("t", "offer", discover(1)),
        ("t", "released", releases("10.64.0.11", last=1, cable=vendor(b"SN02")))], rows=[modem_row(1, "SN01"), *HELD])
    player.section("who asks is a modem", "CANN-DHCP-Reg: a DISCOVER says it, a REQUEST may leave it out.")
    for docsis in (b"docsis3.1:", b"docsis1.0:0001", b"docsis9.9::"):
        player.play("", [("t", "offer", discover(docsis=docsis)), ("t", "ack", selects(docsis=docsis))])
    for docsis in (b"docsis3.1", b"docsis3:1:", b"docsis31.0:", b"docsis3.x:", b"Docsis3.1:", b" docsis3.1:", b"pktc1.0:00", b"MSFT 5.0"):
        player.play("", [
            ("t", "not-a-modem", discover(docsis=docsis)), ("t", "not-a-modem", selects(docsis=docsis)), ("t", "not-a-modem", renews(docsis=docsis))
        ], rows=HELD)
    player.play("nothing is said", [
        ("t", "not-a-modem", discover(docsis=None)), ("t", "ack", selects(docsis=None)), ("t", "ack", reboots(docsis=None)),
        ("t", "ack", renews(docsis=None)), ("t", "not-a-modem", discover(docsis=None, more=option(60, b""))),
        ("t", "not-a-modem", selects(docsis=None, more=option(60, b""))),
        ("t", "ack", selects(docsis=None, more=option(60, b"docsis") + option(60, b"3.1:")))], rows=HELD)


# The rules by which each kind of message is refused, in their order: the word, and a change of the message that breaks the rule.
FULL = ["pool 2 10.65.0.10 10.65.0.10 24 10.65.0.1 10.65.0.1", "lease 10.65.0.10 declined t+1"]
BY_WAY = [("part-cut", {"way": b"\x02\x06\x02"}), ("relay-mismatch", {"remote": mac(3)})]
BY_CABLE = [("part-cut", {"cable": b"\x02\x03EC"})]
BY_ROWS = [("not-a-modem", {"docsis": b"pktc1.0:00"}), ("no-relay-pool", {"relay": "10.64.0.2"}), ("unknown-modem", {"last": 0x99}),
           ("serial-mismatch", {"cable": vendor(b"SN02")})]
FORMLESS = [("request-form", {"asked": b"\x0a\x40\0"}), ("request-form", {"server": b"\x0a\x40\0\x0a\0"})]
ELSEWHERE = [("other-server", {"server": "10.0.0.9"})]
FAR = ("not-your-address", {"relay": "10.65.0.1"})
STRANGE = ("no-record", {"last": 1})
ASKED, CLIENT = {"asked": "10.64.0.11"}, {"client": "10.64.0.11"}
EARLY = BY_CABLE + BY_WAY + BY_ROWS
ORDERS = {
    "DISCOVER": ({"kind": DISCOVER}, EARLY + [("pool-full", {"relay": "10.65.0.1"})]),
    "a selecting REQUEST": ({"kind": REQUEST, "asked": A, "server": "10.0.0.2"}, FORMLESS + EARLY + ELSEWHERE + [("not-your-address", ASKED), FAR]),
    "an init-reboot REQUEST": ({"kind": REQUEST, "asked": A}, FORMLESS[:1] + EARLY + [STRANGE, ("not-your-address", ASKED), FAR]),
    "a renewing REQUEST": ({"kind": REQUEST, "client": A}, FORMLESS[1:] + EARLY + [STRANGE, ("not-your-address", CLIENT), FAR]),
    "DECLINE": ({"kind": DECLINE, "asked": A}, BY_WAY + ELSEWHERE + [STRANGE, ("no-record", ASKED)]),
    "RELEASE": ({"kind": RELEASE, "client": A}, BY_WAY + ELSEWHERE + [STRANGE, ("no-record", CLIENT)]),
}


def refusing(player):
    for name, (whole, rules) in ORDERS.items():
        player.section(f"the first rule that is broken names the refusal of {name}",
                       "Each rule is broken alone, and with each later one; the tables stay.")
        events = []
        for place, (word, change) in enumerate(rules):
            events.append(("t", word, says(**{**whole, **change})))
            events += [("t", word, says(**{**whole, **other, **change})) for _, other in rules[place + 1:] if not other.keys() & change.keys()]
        player.play("", events, rows=[modem_row(1, "SN01"), *FULL, *HELD])
    player.section("a kind that isn't served has its word", "RFC 2132, section 9.6: DISCOVER, REQUEST, DECLINE and RELEASE are served.")
    player.play("", [("t", "not-served", says(kind, relay="10.64.0.2", last=0x99, way=b"\x02\x06"))
                     for kind in (0, OFFER, ACK, NAK, INFORM, 9, UNASSIGNED, UNKNOWN, ACTIVE, 18, 255)])
    player.section("without its pool's hub nobody gets an address", "A message that is refused by what it says itself has its own word all the same.")
    player.play("", [
        ("t", "no-site", discover()), ("t", "no-site", selects()), ("t", "request-form", says(REQUEST)), ("t", "not-served", says(INFORM)),
        ("t", "no-record", declines()), ("t", "no-record", releases()), ("t", "dhcp-short", b""), ("t", "dhcp-no-type", reading(53, b""))],
                rows=["drop hub 0"])
    player.section("without a pool, and without modems", "")
    player.play("", [
        ("t", "no-relay-pool", discover()), ("t", "no-relay-pool", selects()), ("t", "no-relay-pool", renews()), ("t", "no-record", declines()),
        ("t", "no-record", releases()), ("t", "no-record", declines(server="10.0.0.9")), ("t", "no-record", releases(server="10.0.0.9"))],
                rows=["drop pool 1"])
    player.play("", [
        ("t", "unknown-modem", discover()), ("t", "unknown-modem", selects()), ("t", "unknown-modem", renews()), ("t", "no-record", declines()),
        ("t", "no-record", releases())], rows=[f"drop modem {MODEM}"])


def changed(data, *changes):
    made = bytearray(data)
    for place, byte in changes:
        made[place] = byte
    return bytes(made)


def reading(*options):
    """The worked DISCOVER's fixed part, with other options: a code and its value in turns."""
    return RELAYED_DISCOVER[:240] + b"".join(option(*each) for each in zip(options[::2], options[1::2]))


def reading_faults(player):
    player.section("a datagram that is no message has the word of its first fault",
                   "RFC 2131, section 2, in the order of a datagram's parts. It has no reply.")
    whole = RELAYED_DISCOVER
    full = whole + bytes(1500 - len(whole))
    alone = {
        "dhcp-short": [b"", whole[:239]],
        "dhcp-long": [full + b"\0"],
        "dhcp-not-request": [changed(whole, (0, 2)), changed(whole, (0, 0))],
        "dhcp-hardware": [changed(whole, (1, 6)), changed(whole, (2, 16))],
        "dhcp-cookie": [changed(whole, (236, 0)), changed(whole, (239, 0x64))],
        "dhcp-option-cut": [whole[:-2], reading(53, b"\1") + b"\x35"],
        "dhcp-no-type": [whole[:240], reading(53, b""), reading(53, b"\1\1"), reading(53, b"\1", 53, b"\1")],
        "dhcp-overload": [reading(53, b"\1", 52, b"\1"), reading(52, b"", 53, b"\1", 255, b"")],
    }
    with_the_next = {
        "dhcp-short": [bytes(239)],
        "dhcp-long": [bytes(1501)],
        "dhcp-not-request": [changed(whole, (0, 2), (1, 6))],
        "dhcp-hardware": [changed(whole, (1, 6), (236, 0)), changed(whole, (2, 7), (236, 0))],
        "dhcp-cookie": [changed(whole[:-2], (237, 0))],
        "dhcp-option-cut": [whole[:240] + b"\x3c"],
        "dhcp-no-type": [reading(52, b"\1")],
        "dhcp-overload": [reading(52, b"\3", 53, b"\x08")],
    }
    for remark, faulty in (("each alone", alone), ("each with the next", with_the_next)):
        player.play(remark, [("t", word, data) for word, all_data in faulty.items() for data in all_data])
    player.play("1,500 bytes, and options without an end", [
        ("t", "offer", full), ("t", "offer", whole[:-1]), ("t", "offer", changed(full, (1499, 52)))])
    player.section("each prefix of a DISCOVER has its word",
                   "Most are too short; where an option is whole, and nothing lacks that is asked for, the prefix is a message.")
    played = Played(player.rows)
    for data in prefixes(whole):
        played.take("t", None, data)
    player.script.run("", ["office", "show tables", f"t prefixes dhcp from {SENDER} {packed(whole)}"], played.outcome())


def ends(player):
    player.section("pools at either end of all addresses", "0.0.0.0 is offered like any other; no renewal is of it, and a RELEASE is.")
    low = [SECOND, "drop pool 1", "pool 1 0.0.0.0 0.0.0.1 8 0.0.0.1 10.64.0.1"]
    player.play("", [
        ("t", "offer", discover()), ("t", "ack", selects("0.0.0.0")), ("t", "request-form", renews("0.0.0.0")), ("t", "ack", reboots("0.0.0.0")),
        ("t", "offer", discover(1)), ("t", "ack", selects("0.0.0.1", last=1)), ("t", "pool-full", discover(2)),
        ("t", "ack", renews("0.0.0.1", last=1)), ("t", "released", releases("0.0.0.0")), ("t", "offer", discover(2)),
        ("t", "declined", declines("0.0.0.0", last=2))], rows=[*low, modem_row(2)])
    high = [SECOND, "drop pool 1", "pool 1 255.255.255.254 255.255.255.255 30 255.255.255.254 10.64.0.1"]
    player.play("", [
        ("t", "offer", discover(asked="255.255.255.255")), ("t", "ack", selects("255.255.255.255")), ("t", "ack", renews("255.255.255.255")),
        ("t", "offer", discover(1)), ("t", "pool-full", discover(2)), ("t", "not-your-address", renews("255.255.255.255", last=1)),
        ("t", "released", releases("255.255.255.255")), ("t", "offer", discover(2)), ("t", "declined", declines("255.255.255.255", last=2)),
        ("t", "pool-full", discover(2))], rows=[*high, modem_row(2)])
    both = ["pool 2 0.0.0.0 0.0.0.0 8 0.0.0.0 10.65.0.1", "pool 3 255.255.255.255 255.255.255.255 30 0.0.0.0 10.66.0.1"]
    player.play("", [
        ("t", "offer", discover(relay="10.65.0.1")), ("t", "offer", discover(1, relay="10.66.0.1")), ("t", "offer", discover(relay="10.65.0.1")),
        ("t", "pool-full", discover(relay="10.66.0.1")), ("t", "pool-full", discover(1, relay="10.65.0.1")), ("t", "offer", discover())
    ], rows=[SECOND, *both])
    player.section("the largest pool has 4,096 addresses",
                   "All are taken but one, which is offered to one modem; the next is refused, until the others' time is over.")
    taken = [f"repeat 0 255 lease 10.64.{part}.# declined t+1" for part in range(16, 32)]
    wide = ["drop pool 1", f"pool 1 10.64.16.0 10.64.31.255 20 {RELAY} {RELAY}"]
    every = [f"lease 10.64.{part}.{place} declined t+1" for part in range(16, 32) for place in range(256)]
    for free in ("10.64.31.255", "10.64.16.0", "10.64.25.7"):
        played = Played([*player.rows, SECOND, *wide, *(row for row in every if not row.startswith(f"lease {free} "))])
        events = [("t", "offer", discover()), ("t", "pool-full", discover(1)), ("t", "ack", selects(free)),
                  ("t+1", "offer", discover(1, asked="10.64.25.8"))]
        for event in events:
            played.take(*event)
        lines = [line_of(turn, moment, what) for turn, (moment, _, what) in enumerate(events, 1)]
        player.script.run("", ["office", SECOND, *wide, *taken, f"drop lease {free}", *lines], outcome(wrote=played.wrote, sent=played.sent))
    player.section("moments stop at the greatest number", "2^64 - 1 seconds: a lease ends there at the latest, and has ended then.")
    for before in (1, 60, 119, 120, 121, 599, 600, 86399, 86400, 86401):
        now = MOST - before
        player.play(f"{before} seconds before", [
            (now, "offer", discover()), (now, "ack", selects()), (now, "offer", discover(1)), (now, "declined", declines("10.64.0.11", last=1))
        ], rows=[SECOND])
    player.play("at that moment", [
        (MOST, "offer", discover()), (MOST, "offer", discover(1)), (MOST, "not-your-address", selects()), (MOST, "ack", selects(last=1)),
        (MOST, "declined", declines(last=1)), (MOST, "offer", discover())], rows=[SECOND])
    player.play("the last second", [
        (MOST - 1, "offer", discover()), (MOST - 1, "pool-full", discover(1)), (MOST, "offer", discover(1)), (MOST, "not-your-address", selects())
    ], rows=[SECOND, *ONE])


# Another hub, and a pool of it.
HUB = "hub 1 10.0.0.3 6f74686572 3600 86400 0.0.0.0"
HUBS = [HUB, "pool 2 10.65.0.10 10.65.0.99 24 10.65.0.1 10.65.0.1", "pool-hub 2 1"]
THERE, BEHIND = "10.65.0.10", "10.65.0.1"
# The OFFER for the worked DISCOVER through the other hub's relay, byte for byte.
OTHER_NAME = b"02aabbccddee-" + hmac.new(b"other", MAC + address(THERE), hashlib.md5).hexdigest()[:16].encode() + b".cm"
OTHER_OFFER = (bytes.fromhex("020106001122334400000000" + "00000000" + "0a41000a" + "0a000003" + "0a410001" + MODEM) + bytes(10 + 64)
               + OTHER_NAME + bytes(96) + bytes.fromhex("63825363" + "350102" + "36040a000003" + "330400015180" + "3a040000a8c0" + "3b0400012750")
               + bytes.fromhex("0104ffffff00" + "03040a410001" + "020400000e10" + "04040a000003") + RELAYED + b"\xff")


def several_hubs(player):
    there = {"relay": BEHIND}
    player.section("a modem is served by its pool's hub",
                   "The worked example, byte for byte: a second hub has its own address and its own secret. What the modem held at the first one is gone.")
    through_other = RELAYED_DISCOVER[:24] + address(BEHIND) + RELAYED_DISCOVER[28:]
    played = player.play("", [
        ("t", "offer", RELAYED_DISCOVER), ("t", "offer", through_other), ("t", "no-row", show(A)), ("t", "", show(THERE)),
        ("t", "no-hub", put_pool(2, THERE, "10.65.0.99", BEHIND, 9)), ("t", "hub-in-use", remove("/hubs/1"))], rows=HUBS)
    is_sent(played, 0, f"{RELAY}:67", FIRST_OFFER)
    is_sent(played, 1, f"{BEHIND}:67", OTHER_OFFER)
    if '"owner":"02aabbccddee"' not in "".join(played.sent):
        raise Disagreement("the other hub's address is the modem's")
    player.play("selected, renewed and given back", [
        ("t", "offer", discover(**there)), ("t", "other-server", selects(THERE, **there)), ("t", "ack", selects(THERE, server="10.0.0.3", **there)),
        ("t+1", "ack", renews(THERE)), ("t+2", "ack", renews(THERE, **there)), ("t+3", "not-your-address", renews(A)), ("t+3", "not-your-address", reboots("10.65.0.11", **there)),
        ("t+4", "other-server", releases(THERE, server="10.0.0.2")), ("t+4", "released", releases(THERE, server="10.0.0.3")), ("t+5", "no-record", renews(THERE))], rows=HUBS)
    player.section("each hub has its own time of leases, offset, log and server", "Two modems, each in a pool of its own hub.")
    own = ["hub 1 10.0.0.3 6f74686572 -18000 60 10.0.0.7", *HUBS[1:], SECOND]
    player.play("", [
        ("t", "offer", discover()), ("t", "offer", discover(1, **there)), ("t", "ack", selects()), ("t", "ack", selects(THERE, 1, server="10.0.0.3", **there)),
        ("t", "", show(A)), ("t", "", show(THERE)), ("t+60", "ack", renews()), ("t+60", "ack", renews(THERE, 1)), ("t+61", "not-your-address", selects("10.64.0.50")),
        ("t+61", "not-your-address", selects("10.65.0.50", 1, server="10.0.0.3", **there))], rows=own)
    player.section("a DECLINE and a RELEASE are for the server of their address's hub", "Whatever relay they came through; who names no server is heard by each.")
    held = {"0": (A, "10.0.0.2", "10.0.0.3", leased("bound", A, 0xEE, "t+1000")), "1": (THERE, "10.0.0.3", "10.0.0.2", leased("bound", THERE, 0xEE, "t+1000"))}
    for hub, (mine, server, other, rows) in held.items():
        for relay in ("0.0.0.0", RELAY, BEHIND):
            for asks, word in ((declines, "declined"), (releases, "released")):
                player.play(f"hub {hub}, {word}, by {relay}", [
                    ("t", "other-server", asks(mine, server=other, relay=relay)), ("t", word, asks(mine, server=server, relay=relay)),
                    ("t", "no-record", asks(mine, server=server, relay=relay))], rows=[*HUBS, *rows])
                player.play(f"hub {hub}, {word}, by {relay}, of no server", [("t", word, asks(mine, relay=relay))], rows=[*HUBS, *rows])
    player.play("an address of the other hub, and of none", [
        ("t", "no-record", releases(THERE, server="10.0.0.3")), ("t", "other-server", releases(THERE, server="10.0.0.2")), ("t", "no-record", declines(THERE, server="10.0.0.3")),
        ("t", "other-server", declines(THERE, server="10.0.0.2")), ("t", "no-record", releases("10.66.0.1", server="10.9.9.9")),
        ("t", "no-record", declines("10.66.0.1", server="10.9.9.9")), ("t", "no-record", declines(None, server="10.9.9.9"))], rows=[*HUBS, *HELD])
    player.section("without its pool's hub a modem has no address, and those of other hubs have", "")
    player.play("hub 0 isn't there", [
        ("t", "no-site", discover()), ("t", "no-site", selects()), ("t", "no-site", reboots()), ("t", "no-site", renews(relay=RELAY)), ("t", "no-site", renews()),
        ("t", "offer", discover(**there)), ("t", "no-site", discover(0x99)), ("t", "unknown-modem", discover(0x99, **there)), ("t", "no-relay-pool", discover(relay="10.9.9.9")),
        ("t", "ack", selects(THERE, server="10.0.0.3", **there)), ("t", "no-record", declines(server="10.9.9.9"))], rows=["drop hub 0", *HUBS])
    player.section("a pool that changes its hub is served by the other one from then on", "Its leases stay, and are renewed for the other hub's time.")
    short = ["hub 1 10.0.0.3 6f74686572 3600 60 0.0.0.0"]
    moved = put_pool(1, A, "10.64.0.99", hub=1)
    player.play("", [
        ("t", "offer", discover()), ("t", "ack", selects()), ("t", "", show(A)), ("t+1", "", moved), ("t+1", "", show(A)), ("t+2", "other-server", selects()),
        ("t+2", "ack", selects(server="10.0.0.3")), ("t+2", "", show(A)), ("t+3", "ack", renews()), ("t+4", "other-server", releases(server="10.0.0.2")),
        ("t+5", "hub-in-use", remove("/hubs/1")), ("t+5", "", remove("/hubs/0")), ("t+6", "ack", renews()), ("t+7", "no-hub", put_pool(1, A, "10.64.0.99")),
        ("t+7", "", put_site()), ("t+8", "", put_pool(1, A, "10.64.0.99")), ("t+8", "ack", renews()), ("t+9", "", remove("/hubs/1"))], rows=short)
    player.play("while its address is offered", [
        ("t", "offer", discover()), ("t", "", moved), ("t+1", "other-server", selects()), ("t+1", "offer", discover()), ("t+1", "ack", selects(server="10.0.0.3"))], rows=short)
    player.section("a relay is told of the addresses of its own hub alone", "Two hubs, and a modem in a pool of each; the answer has the server of the relay's hub.")
    two = [*HUBS, SECOND, *HELD, *leased("bound", THERE, 1, "t+1000")]
    player.play("", [
        ("t", "query-active", who_has(A)), ("t", "query-unknown", who_has(THERE)), ("t", "query-active", has_which()), ("t", "query-unknown", has_which(1)),
        ("t", "query-unknown", who_has(A, **there)), ("t", "query-active", who_has(THERE, **there)), ("t", "query-unknown", has_which(**there)),
        ("t", "query-active", has_which(1, **there)), ("t", "query-unassigned", who_has("10.65.0.11", **there)), ("t", "query-unknown", who_has("10.65.0.11")),
        ("t", "", put_pool(2, THERE, "10.65.0.99", BEHIND)), ("t", "query-active", who_has(THERE)), ("t", "query-active", who_has(A, **there)), ("t", "query-active", has_which(1))],
                rows=two)
    player.play("the relay's hub isn't there", [("t", "query-relay", who_has(A)), ("t", "query-relay", has_which()), ("t", "query-active", who_has(THERE, **there))],
                rows=["drop hub 0", *HUBS, SECOND, *leased("bound", THERE, 1, "t+1000")])
    player.section("a message in which the keeper fails changes nothing, by whatever hub", "Each call of the keeper fails in turn.")
    player.fails_each("a DISCOVER through the other hub's relay", ("t", "offer", discover(**there)), rows=[*HUBS, *HELD])
    player.fails_each("a RELEASE of the other hub's address", ("t", "released", releases(THERE, server="10.0.0.3")), rows=[*HUBS, *leased("bound", THERE, 0xEE, "t+9")],
                      behind=("no-record", releases(THERE, server="10.0.0.3")))
    player.section("an office of earlier days serves its leases on", "Its one site is the hub 0 from the opening on: names, servers and times of leases stay.")
    earlier = ["drop hub 0", "site 10.0.0.2 736563726574 3600 86400 0.0.0.0"]
    events = [("t", "ack", renews()), ("t", "ack", selects()), ("t+1", "offer", discover(1)), ("t+2", "query-active", who_has(A)), ("t+3", "released", releases(server="10.0.0.2"))]
    now = player.play("after the opening", events, rows=[SECOND, *HELD])
    player.migrates("the same from earlier days", events, rows=[SECOND, *HELD], now=now)
    player.script.section("the opening makes one commit for the site of earlier days", "Behind it nothing is written.")
    for rows in ([], HELD):
        whole = Office([*player.rows, *rows]).rows()
        player.script.run("", ["office", *earlier, *rows, "show calls"], outcome(calls=calls_of_opening(whole) + 1))
        player.script.run("", ["office", *rows, "show calls"], outcome(calls=calls_of_opening(whole)))


def by_chance(seed, low, rows, count):
    """Events by chance among 24 addresses from one on: pools that come, move, shrink, trade places and hubs and go, hubs that come and go, and what modems make of
    them. Moments fall now and then."""
    chance, played, events, now = random.Random(seed), Played(rows), [], 0
    office = played.office
    place = lambda number: text_of((low + number).to_bytes(4, "big"))
    relay = lambda number: f"10.65.{number}.1"

    def pool():
        number, first = chance.randrange(1, 5), chance.randrange(24)
        last = min(23, first + chance.choice((0, 1, 3, 7, 11)))
        new = Pool(number, [place(first), place(last), "24", RELAY, relay(number)])
        if any(other.first <= new.last and new.first <= other.last for key, other in office.pools.items() if key != number):
            return None
        return put_pool(number, place(first), place(last), relay(number), chance.choice((None, 0, 1, 1, 2, 9)))

    def hub():
        return chance.choice((remove("/hubs/1"), remove("/hubs/2"), put_hub(2, "10.0.0.4", b"third", lease=90)))

    def other():
        kind = chance.random()
        if kind < 0.5 and office.pools:
            return remove(f"/pools/{chance.choice(list(office.pools))}")
        return hub() if kind >= 0.5 else None

    def message():
        last, number = chance.randrange(12), chance.randrange(1, 5)
        mine = office.held.get(mac(last))
        mine = text_of(mine) if mine else place(chance.randrange(24))
        return chance.choice((
            discover(last, relay=relay(number)), discover(last, relay=relay(number)), discover(last, relay=relay(number), asked=place(chance.randrange(24))),
            selects(mine, last, relay=relay(number), server=f"10.0.0.{chance.choice((2, 3, 4))}"), renews(mine, last), renews(mine, last, relay=relay(number)),
            releases(mine, last, server=chance.choice((None, "10.0.0.2", "10.0.0.3"))), declines(mine, last)))

    while len(events) < count:
        what = pool() if chance.random() < 0.15 else other() if chance.random() < 0.1 else message()
        if what is None:
            continue
        now += chance.choice((0, 0, 1, 30, 90, 200))
        event = (f"t+{now if chance.random() < 0.9 else now // 2}", None, what)
        played.take(*event)
        events.append(event)
    return events


def shuffled(player):
    player.section("free addresses follow whatever becomes of pools and leases",
                   "Events by chance, by the model: pools that come, move, shrink, change hubs and go, at both ends of the address space too, while leases are live, have ended, "
                   "and go with them.")
    rows = ["drop pool 1", "hub 0 10.0.0.2 736563726574 3600 300 0.0.0.0", "hub 1 10.0.0.3 6f74686572 0 100 0.0.0.0",
            *(modem_row(last) for last in range(12))]
    for seed, low in ((1, 0x0A410000), (2, 0xFFFFFFE8), (3, 1)):
        player.play(f"{seed}", by_chance(seed, low, [*player.rows, *rows], 150), rows=rows)


def clerking(player):
    player.section("a clerk's commands come between a modem's messages", "")
    player.play("the pool is removed", [
        ("t", "offer", discover()), ("t+119", "pool-has-leases", remove("/pools/1")), ("t+120", "", remove("/pools/1")),
        ("t+120", "no-relay-pool", selects()), ("t+120", "no-relay-pool", renews()), ("t+120", "no-record", releases()), ("t+120", "no-row", show(A))
    ])
    player.play("the pool becomes another", [
        ("t", "offer", discover()), ("t+1", "pool-has-leases", put_pool(1, "10.64.0.11", "10.64.0.12")),
        ("t+120", "", put_pool(1, "10.64.0.11", "10.64.0.12")), ("t+120", "not-your-address", selects()), ("t+121", "offer", discover(asked=A)),
        ("t+121", "ack", selects("10.64.0.11"))])
    player.play("the pool gets another relay", [
        ("t", "offer", discover()), ("t", "", put_pool(1, A, "10.64.0.99", relay="10.64.0.2")), ("t", "no-relay-pool", selects()),
        ("t", "ack", selects(relay="10.64.0.2")), ("t", "ack", renews())])
    player.play("the modem is deleted while it is bound", [
        ("t", "offer", discover()), ("t", "ack", selects()), ("t+1", "", remove(f"/modems/{MODEM}")), ("t+2", "", show(A)),
        ("t+2", "unknown-modem", renews()), ("t+2", "unknown-modem", discover()), ("t+3", "released", releases()), ("t+3", "no-row", show(A)),
        ("t+4", "", put_modem(0xEE, "")), ("t+4", "offer", discover(cable=vendor(b"SN77")))])
    player.play("the modem is deleted and declines", [
        ("t", "", remove(f"/modems/{MODEM}")), ("t", "declined", declines()), ("t", "", show(A)), ("t", "", put_modem(0xEE, "SN77")),
        ("t", "serial-mismatch", discover()), ("t", "offer", discover(cable=vendor(b"SN77"))), ("t", "", show("10.64.0.11"))], rows=HELD)
    player.play("the hub is another", [
        ("t", "offer", discover()), ("t", "", put_site(server="10.0.0.9", secret=b"x" * 64, lease=60, log="10.0.0.7", offset=-5)),
        ("t", "other-server", selects()), ("t", "ack", selects(server="10.0.0.9")), ("t+60", "", put_site()), ("t+60", "ack", renews()),
        ("t+60", "", show(A))])
    player.play("a hub and then a pool come first", [
        ("t", "no-relay-pool", discover()), ("t", "no-hub", put_pool(1, A, A)), ("t", "no-relay-pool", discover()), ("t", "", put_site()),
        ("t", "no-relay-pool", discover()), ("t", "", put_pool(1, A, A)), ("t", "offer", discover()), ("t", "", show(A))], rows=["drop hub 0", "drop pool 1"])
    player.play("leases are shown", [
        ("t", "", show(A)), ("t", "", show("10.64.0.11")), ("t", "", show("10.64.0.12")), ("t", "no-row", show("10.64.0.13"))
    ], rows=[*leased("offered", A, 5, "t-1"), *leased("bound", "10.64.0.11", 6, MOST), "lease 10.64.0.12 declined 0"])


# The answer by which a relay learns who has the address, byte for byte; 86,000 seconds are left.
FIRST_ACTIVE = (bytes.fromhex("020106001122334400000000" + "0a40000a" + "00000000" * 2 + "0a400001" + MODEM) + bytes(10 + 192)
                + bytes.fromhex("63825363" + "35010d" + "36040a000002" + "330400014ff0" + "ff")).ljust(300, b"\0")
FIRST_UNASSIGNED = (bytes.fromhex("020000001122334400000000" + "0a400032" + "00000000" * 2 + "0a400001") + bytes(16 + 192)
                    + bytes.fromhex("63825363" + "35010b" + "36040a000002" + "ff")).ljust(300, b"\0")
FIRST_UNKNOWN = (bytes.fromhex("020106001122334400000000" + "00000000" * 3 + "0a400001" + "02aabbccddef") + bytes(10 + 192)
                 + bytes.fromhex("63825363" + "35010c" + "36040a000002" + "ff")).ljust(300, b"\0")
FAR = ["pool 2 10.65.0.10 10.65.0.11 24 10.65.0.1 10.65.0.1"]


def querying(player):
    to = f"{RELAY}:67"
    player.section("a relay asks who has an address, and which address a modem has",
                   "The worked example, byte for byte: RFC 4388, sections 6.2 and 6.4; each answer has 300 bytes. A query changes nothing.")
    played = player.play("", [
        ("t", "offer", discover()), ("t", "ack", selects()), ("t+400", "query-active", who_has(A)), ("t+400", "query-active", has_which()),
        ("t+400", "query-unassigned", who_has("10.64.0.50")), ("t+400", "query-unknown", has_which(0xEF)),
        ("t+400", "query-relay", who_has(A, relay="0.0.0.0"))])
    for place, made in enumerate((FIRST_ACTIVE, FIRST_ACTIVE, FIRST_UNASSIGNED, FIRST_UNKNOWN), 2):
        is_sent(played, place, to, made)
    player.section("a query has the first word whose condition holds", "")
    identified = option(61, b"\x01" + MAC)
    alone = {
        "query-relay": [who_has(A, relay="10.64.0.2"), has_which(relay="10.64.0.2"), has_which(relay="0.0.0.0"), has_which(relay=A)],
        "query-form": [who_has("10.64.0.50", options=identified), who_has("0.0.0.0"), has_which(0xEF, options=option(61, b""))],
        "query-active": [has_which()],
        "query-unassigned": [who_has("10.64.0.99"), who_has("10.64.0.11")],
        "query-unknown": [who_has("10.64.0.9"), who_has("10.64.0.100"), who_has("255.255.255.255"), has_which(1), has_which(0xEF)],
    }
    with_the_next = {
        "query-relay": [who_has(A, relay="10.64.0.2", options=identified), has_which(relay="10.64.0.2", kind=b"\6\6")],
        "query-form": [who_has(A, options=identified), has_which(options=identified), who_has(A, kind=b"\1\6")],
        "query-active": [who_has(A)],
        "query-unassigned": [who_has("10.64.0.99")],
    }
    for remark, asked in (("each alone", alone), ("each with the next", with_the_next)):
        player.play(remark, [("t", word, data) for word, all_data in asked.items() for data in all_data], rows=[SECOND, *HELD])
    player.play("no hub, and then one", [("t", "query-relay", who_has(A)), ("t", "query-relay", has_which()), ("t", "query-relay", who_has("0.0.0.0")),
                                          ("t", "", put_site(server="10.0.0.9")), ("t", "query-unassigned", who_has(A)), ("t", "query-unknown", has_which())],
                rows=["drop hub 0"])
    player.play("the hub is another", [("t", "query-active", who_has(A)), ("t", "", put_site(server="10.0.0.9", lease=60)), ("t", "query-active", who_has(A)),
                                        ("t", "query-unassigned", who_has("10.64.0.11"))], rows=HELD)
    player.play("no pool", [("t", "query-relay", who_has(A)), ("t", "query-relay", has_which())], rows=["drop pool 1"])
    player.section("a lease is active while it is bound and hasn't ended", "An address that is offered or declined has no client.")
    for rows in (leased("offered", A, 0xEE, "t+120"), leased("bound", A, 0xEE, "t+120")):
        word = ("query-active", "query-active") if rows[0].split()[2] == "bound" else ("query-unassigned", "query-unknown")
        player.play("", [
            ("t", word[0], who_has(A)), ("t", word[1], has_which()), ("t+119", word[0], who_has(A)), ("t+119", word[1], has_which()),
            ("t+120", "query-unassigned", who_has(A)), ("t+120", "query-unknown", has_which()), ("t+121", "query-unassigned", who_has(A)),
            ("t+119", "query-unknown", has_which())], rows=rows)
    player.play("declined", [("t", "query-unassigned", who_has(A)), ("t+600", "query-unassigned", who_has(A)), ("t", "query-unknown", has_which())],
                rows=[f"lease {A} declined t+600"])
    player.play("through a modem's life", [
        ("t", "query-unknown", has_which()), ("t", "offer", discover()), ("t", "query-unknown", has_which()), ("t", "query-unassigned", who_has(A)),
        ("t", "ack", selects()), ("t", "query-active", has_which()), ("t+100", "ack", renews()), ("t+100", "query-active", who_has(A)),
        ("t+200", "released", releases()), ("t+200", "query-unknown", has_which()), ("t+200", "query-unassigned", who_has(A)), ("t+201", "offer", discover(1)),
        ("t+201", "ack", selects(last=1)), ("t+201", "query-active", who_has(A)), ("t+201", "query-unknown", has_which()), ("t+201", "query-active", has_which(1)),
        ("t+202", "declined", declines(last=1)), ("t+202", "query-unassigned", who_has(A)), ("t+202", "query-unknown", has_which(1))], rows=[SECOND])
    player.play("the modem's row is gone", [
        ("t", "", remove(f"/modems/{MODEM}")), ("t", "query-active", who_has(A)), ("t", "query-active", has_which())], rows=HELD)
    player.section("a query speaks of all pools of the relay's hub", "The answer goes to the relay that asked.")
    far = [*FAR, SECOND, *HELD, *leased("bound", "10.65.0.10", 1, "t+50")]
    player.play("", [
        ("t", "query-active", who_has("10.65.0.10")), ("t", "query-active", has_which(1)), ("t", "query-unassigned", who_has("10.65.0.11")),
        ("t", "query-active", who_has(A, relay="10.65.0.1")), ("t", "query-active", has_which(relay="10.65.0.1")), ("t", "query-unknown", who_has("10.65.0.12"))], rows=far)
    player.play("a pool gets another relay, and goes", [
        ("t", "query-active", has_which(1, relay="10.65.0.1")), ("t", "", put_pool(2, "10.65.0.10", "10.65.0.11", relay="10.65.0.2")),
        ("t", "query-relay", has_which(1, relay="10.65.0.1")), ("t", "query-active", has_which(1, relay="10.65.0.2")), ("t+50", "", remove("/pools/2")),
        ("t+50", "query-relay", who_has(A, relay="10.65.0.2")), ("t+50", "query-unknown", who_has("10.65.0.10")), ("t+50", "query-unknown", has_which(1))], rows=far)
    player.section("a query asks by address or by hardware address alone",
                   "RFC 4388, section 6.2: by address ciaddr isn't 0, and htype, hlen and chaddr are; by hardware address ciaddr is 0. What is behind the six bytes isn't read.")
    formless = [who_has(A, kind=b"\0\1"), who_has(A, kind=b"\1\0"), who_has(A, hardware=MAC, kind=bytes(2)), who_has(A, hardware=bytes(15) + b"\1", kind=bytes(2)),
                who_has(A, hardware=MAC), has_which(kind=b"\6\6"), has_which(kind=b"\1\7"), has_which(kind=b"\0\6"), has_which(kind=b"\1\0"), has_which(kind=bytes(2)),
                who_has(A, options=option(61, b"")), has_which(options=option(61, b"\0") * 2)]
    player.play("neither", [("t", "query-form", data) for data in formless], rows=HELD)
    player.play("either", [
        ("t", "query-active", query(hardware=MAC + b"\1" * 10, relay=address(RELAY))), ("t", "query-unknown", query(hardware=mac(1) + b"\1" * 10, relay=address(RELAY))),
        ("t", "query-active", who_has(A, options=option(55, b"\x33\x52") + option(82, agent(MAC)))),
        ("t", "query-active", who_has(A, xid=0xFFFFFFFF, hops=7, secs=65535, flags=0xFFFF)), ("t", "query-unassigned", who_has("10.64.0.50", hops=7, secs=1, flags=0x8000)),
        ("t", "query-unknown", has_which(1, xid=0, hops=255, secs=256, flags=1)), ("t", "query-active", who_has(A, rest=b"\1" * 192))], rows=HELD)
    reading_queries(player)
    player.section("the seconds that are left are told in four bytes", "At most 4,294,967,295, also at the greatest moments.")
    player.play("", [(0, "query-active", who_has(A)), (MOST - 2**32, "query-active", has_which()), (MOST - 2**32 + 1, "query-active", who_has(A)),
                     (MOST - 256, "query-active", who_has(A)), (MOST - 1, "query-active", who_has(A)), (MOST, "query-unassigned", who_has(A))],
                rows=leased("bound", A, 0xEE, MOST))
    player.section("a query in which the keeper fails has no answer", "Each call of the keeper fails in turn; the query comes again and is answered then.")
    player.fails_each("by address", ("t", "query-active", who_has(A)), rows=HELD)
    player.fails_each("by hardware address", ("t", "query-active", has_which()), rows=HELD)
    player.loses("an answer is lost, and comes again", [("t", "query-active", who_has(A)), ("t", "query-active", who_has(A))], 0, rows=HELD, lines=["fails link 2"])
    player.section("a query makes three calls of the keeper at most",
                   "One for the hub and one for the lease; by hardware address one more, for the address that the modem holds.",
                   "A query of an unknown relay makes none, and one of which nothing is looked up that of the hub.")
    asked = [(who_has(A), "query-active", 2), (has_which(), "query-active", 3), (who_has("10.64.0.9"), "query-unknown", 1), (has_which(1), "query-unknown", 2),
             (who_has(A, relay="10.64.0.2"), "query-relay", 0), (who_has("0.0.0.0"), "query-form", 1)]
    for data, word, calls in asked:
        player.count("", [("t", word, data)], HELD, HELD, calls)


def reading_queries(player):
    player.section("a datagram is a query by its fixed part and its options 53 and 52, and else a message or none",
                   "RFC 4388, section 6.2. A query's hardware isn't looked at where it's read.")
    whole = who_has(A)
    full = whole + bytes(1500 - len(whole))
    like = has_which()
    player.play("how long", [
        ("t", "dhcp-short", like[:239]), ("t", "dhcp-no-type", like[:240]), ("t", "dhcp-hardware", whole[:240]), ("t", "query-active", whole[:243]),
        ("t", "query-active", full), ("t", "dhcp-long", full + b"\0"), ("t", "dhcp-long", like + bytes(1501 - len(like)))], rows=HELD)
    player.play("another fixed part", [
        ("t", "dhcp-not-request", changed(like, (0, 2))), ("t", "dhcp-cookie", changed(like, (236, 0))), ("t", "dhcp-cookie", changed(like, (239, 0x64)))], rows=HELD)
    bare = like[:240]
    ten = option(53, b"\x0a")
    player.play("its options", [
        ("t", "dhcp-option-cut", bare + ten + b"\x33\x04\0"), ("t", "dhcp-option-cut", bare + ten + b"\x33"), ("t", "dhcp-overload", bare + option(52, b"\1") + ten + b"\xff"),
        ("t", "dhcp-overload", bare + ten + option(52, b"") + b"\xff"), ("t", "dhcp-no-type", bare + ten * 2), ("t", "dhcp-no-type", bare + option(53, b"\x0a\x0a")),
        ("t", "query-active", bare + option(53, b"") + ten), ("t", "query-active", bare + b"\0" * 9 + ten), ("t", "query-active", bare + ten + b"\xff" + option(52, b"\1")),
        ("t", "dhcp-no-type", bare + b"\xff" + ten)], rows=HELD)
    player.play("its kind", [(
        "t", {10: "query-active", 1: "not-a-modem", 3: "request-form", 4: "no-record", 7: "no-record"}.get(kind, "not-served"), has_which(code=kind))
        for kind in (0, 1, 2, 3, 4, 5, 6, 7, 8, 9, 10, 11, 12, 13, 14, 255)], rows=HELD)
    player.section("each prefix of a query has its word", "")
    played = Played([*player.rows, *HELD])
    for data in prefixes(like):
        played.take("t", None, data)
    player.script.run("", ["office", *HELD, "show tables", f"t prefixes dhcp from {SENDER} {packed(like)}"], played.outcome())


def failing(player):
    player.section("a message in which the keeper fails changes nothing, and has no reply",
                   "Each call of the keeper fails in turn: of the opening, status 3; of a message, which comes again and is answered then;",
                   "of the same behind it.")
    far = [SECOND, "pool 2 10.65.0.10 10.65.0.11 24 10.65.0.1 10.65.0.1", *leased("bound", "10.65.0.10", 1, "t"), *HELD]
    player.fails_each("a DISCOVER, which drops two rows and puts two", ("t", "offer", discover(relay="10.65.0.1")), rows=far)
    player.fails_each("a DISCOVER for an ended lease of another", ("t", "offer", discover(1)), rows=[SECOND, *ONE, *leased("bound", A, 0xEE, "t")])
    player.fails_each("a DISCOVER by the address that it asks for", ("t", "offer", discover(asked="10.64.0.30")))
    player.fails_each("a REQUEST", ("t", "ack", selects()), rows=leased("offered", A, 0xEE, "t+120"))
    player.fails_each("a renewal", ("t", "ack", renews()), rows=HELD)
    player.fails_each("a DECLINE", ("t", "declined", declines()), rows=HELD, behind=("no-record", declines()))
    player.fails_each("a RELEASE", ("t", "released", releases()), rows=HELD, behind=("no-record", releases()))
    player.fails_each("a REQUEST that is told no", ("t", "not-your-address", selects("10.64.0.11")), rows=HELD)
    player.section("a reply that is lost is told, and what was done stays done", "The link's calls are `next`, `send`, `next`, `send`.")
    offered, wrong = leased("offered", A, 0xEE, "t+120"), selects("10.64.0.11")
    player.loses("an ACK is lost, and comes again", [("t", "ack", selects()), ("t", "ack", selects())], 0, rows=offered, lines=["fails link 2"])
    player.loses("the link has room for one OFFER", [("t", "offer", discover()), ("t", "ack", selects())], 1, lines=["room link 1 308"])
    player.loses("a NAK is lost", [("t", "not-your-address", wrong), ("t", "released", releases())], 0, rows=HELD, lines=["fails link 2"])
    player.section("leases outlast a run", "A second run starts from the tables that the first left, and from its own moment.")
    played = player.play("", [("t", "offer", discover()), ("t", "ack", selects())])
    then = Played(played.office.rows())
    for event in (("5", "ack", renews()), ("6", "released", releases())):
        then.take(*event)
    player.script.run("", ["show tables", line_of(1, "5", renews()), line_of(2, "6", releases())], then.outcome(), again=True)
    player.section("rows of leases that are bad end the office before it serves", "")
    lease, held = leased("bound", A, 0xEE, "t+9")
    for bad, key in ((lease, f"lease {A}"), (held, f"held {MODEM}")):
        kept = Office([*player.rows, bad]).rows()
        player.script.run("", ["office", bad, "show tables", line_of(1, "t", discover())], outcome(2, [f"tables refused {key}"], tables=kept))


def sections(script, rows):
    """Writes the sections, over an office of these rows."""
    player = Player(script, rows)
    for write in (worked, several_hubs, freeing, crowded, asking, echoes, refusing, reading_faults, querying, ends, clerking, shuffled, failing):
        write(player)
