"""TFTP packets, modems' files and an office's transfers: a reader, a writer and a plain model.

Packets are read and written from RFC 1350, 2347, 2348 and 2349; files from CM-SP-MULPIv3.1, by Python's hashlib and hmac; what an office does of them from
the order of its own rules. Only Python's standard library is used, and nothing of the programs that are tried with it.
"""
import ipaddress

from examples import sealed, spelled, time_reply
from leases import address, later, moment_of, name_of

READ, WRITE, DATA, ACKNOWLEDGEMENT, ERROR, OPTIONS = range(1, 7)
LONGEST, LARGEST_BLOCK, USUAL_BLOCK = 1500, 1428, 512
MOST_TRANSFERS, PATIENCE, MOST_RESENDS = 256, 2, 5


# ---- packets

def headed(code, rest):
    return code.to_bytes(2, "big") + rest


def request(name, *options, mode=b"octet", code=READ):
    """A request: a name, a mode, and options, each a name and a value."""
    texts = [name, mode, *(text for each in options for text in each)]
    return headed(code, b"".join(text + b"\0" for text in texts))


def acknowledgement(number):
    return headed(ACKNOWLEDGEMENT, number.to_bytes(2, "big"))


def data(number, block):
    return headed(DATA, number.to_bytes(2, "big") + block)


def options(size=None, length=None, seconds=None):
    """The options that were read, each with what it is told: the size of blocks, the file's length, the seconds between resends."""
    told = {b"blksize": size, b"tsize": length, b"timeout": seconds}
    return headed(OPTIONS, b"".join(b"%s\0%d\0" % each for each in told.items() if each[1] is not None))


def error(code, text):
    return headed(ERROR, code.to_bytes(2, "big") + text.encode() + b"\0")


def number_in(value, digits, least, most):
    """A number of so many digits at most within bounds; None for another value."""
    number = int(value) if value.isdigit() and len(value) <= digits else least - 1
    return number if least <= number <= most else None


class Asked:
    """What the options of a request ask for: of each name the first counts, and names are compared without case (RFC 2347)."""

    def __init__(self, texts):
        values = {}
        for name, value in zip(texts[::2], texts[1::2]):
            values.setdefault(name.lower(), value)
        # RFC 2348: 8 to 65464, here in one to five digits.
        self.size = number_in(values.get(b"blksize", b""), 5, 8, 65464)
        # RFC 2349: 0 in a request, here any number of one to twenty digits; and 1 to 255 seconds, in one to three.
        self.length = number_in(values.get(b"tsize", b""), 20, 0, 10**20) is not None
        self.seconds = number_in(values.get(b"timeout", b""), 3, 1, 255)

    def any(self):
        return self.size is not None or self.length or self.seconds is not None


def read_packet(packet):
    """What a client's packet says: `form` or `mode` for a fault, or its kind with what belongs to it."""
    if not 2 <= len(packet) <= LONGEST:
        return "form",
    code = int.from_bytes(packet[:2], "big")
    if code == READ:
        texts = packet[2:].split(b"\0")[:-1]
        if len(texts) < 2:
            return "form",
        return ("mode",) if texts[1].lower() != b"octet" else ("read", texts[0], Asked(texts[2:]))
    if code == ACKNOWLEDGEMENT:
        return ("form",) if len(packet) < 4 else ("acknowledgement", int.from_bytes(packet[2:4], "big"))
    return ("write",) if code == WRITE else ("error",) if code == ERROR else ("form",)


# ---- files

def tree_in(text):
    """Settings as scripts write them, `24{ 1=0001 6=07 }`: a code with bytes, or with further settings."""
    found, around = [], []
    for word in text.split():
        if word == "}":
            parts, (code, found) = found, around.pop()
            found.append((code, parts))
        elif word.endswith("{"):
            around.append((int(word[:-1]), found))
            found = []
        else:
            code, value = word.split("=")
            found.append((int(code), bytes.fromhex(value)))
    return found


def tree_json(tree):
    """Settings as clerks write them."""
    return [{"code": code, "hex": value.hex()} if isinstance(value, bytes) else {"code": code, "parts": tree_json(value)} for code, value in tree]


def spelled_tree(tree):
    return spelled([(code, value if isinstance(value, bytes) else spelled_tree(value)) for code, value in tree])


def extensions(length):
    """Vendor's settings of so many bytes, as text."""
    parts = []
    while length > 0:
        taken = min(length, 256)
        parts.append(f"43{{ 8=000000 1={'07' * (taken - 9)} }}")
        length -= taken
    return " ".join(parts)


def plus(value, number):
    return (int.from_bytes(value, "big") + number).to_bytes(len(value), "big")


def raised(tree, number):
    """An add-on's settings: what it calls flows and classifiers doesn't meet what the class and other add-ons call theirs."""
    flow, classifier = 256 * (number + 1), 128 + 16 * number
    rises = {24: {1: flow}, 25: {1: flow}, 22: {1: classifier, 3: flow}, 23: {1: classifier, 3: flow}}
    return [(code, [(part, plus(value, rises[code][part]) if part in rises[code] else value) for part, value in parts] if code in rises else parts)
            for code, parts in tree]


SUSPENDED = tree_in("24{ 1=0001 6=07 } 25{ 1=0002 6=07 }")


def profile_of(active, devices, class_tree, add_ons):
    """The settings of a modem's file, before what hangs on the moment and the address. `add_ons` has a tree for each number."""
    behind = [(18, bytes([devices]))]
    if not active:
        return [(3, b"\0"), *SUSPENDED, *behind]
    return [(3, b"\1"), *class_tree, *behind, *(each for number in sorted(add_ons) for each in raised(add_ons[number], number))]


def file_of(profile, moment, held, secret):
    """The file: settings 19, the time (RFC 868), and 20, the address; both MICs, the end and zeros."""
    return sealed(spelled_tree([*profile, (19, time_reply(moment)), (20, held)]) + b"\xff", secret)


class Rows:
    """What files and names are made of, of a model of an office."""

    def __init__(self, office):
        self.office = office

    def secret_at(self, held):
        """The secret of an address's hub."""
        return self.office.site_at(held)["secret"]

    def words(self, kind, *key):
        row = self.office.kept.get((kind, *key))
        return row.split(" ") if row else None

    def subscriber_of(self, mac):
        words = self.words("modem", mac.hex())
        return words[2] if words else None

    def settings(self, kind, *key):
        """The settings at the end of a row, behind a class's name."""
        row = self.office.kept[(kind, *key)]
        return tree_in(row.split('"', 2)[2] if kind == "class" else row.split(" ", 3)[3])

    def file(self, mac, held, moment):
        modem = self.words("modem", mac.hex())
        subscriber = self.words("subscriber", modem[2])
        numbers = [key[2] for key in self.office.kept if key[:2] == ("add-on", modem[2])]
        add_ons = {int(number): self.settings("add-on", modem[2], number) for number in numbers}
        profile = profile_of(subscriber[2] == "active", int(subscriber[3]), self.settings("class", modem[3]), add_ons)
        return file_of(profile, moment, held, self.secret_at(held))


# ---- transfers

class Transfer:
    def __init__(self, packet, name, mac, subscriber, file, asked, now):
        self.request, self.name, self.mac, self.subscriber, self.file = packet, name, mac, subscriber, file
        self.asked, self.size = asked, USUAL_BLOCK if asked.size is None else min(asked.size, LARGEST_BLOCK)
        self.seconds = PATIENCE if asked.seconds is None else asked.seconds
        self.sent = 0 if asked.any() else 1
        self.acknowledged, self.last, self.resends = False, now, 0

    def block(self):
        return self.file[(self.sent - 1) * self.size:self.sent * self.size]

    def packet(self):
        """The packet that was sent last."""
        return self.told() if self.sent == 0 else data(self.sent, self.block())

    def told(self):
        """Each option that was read: the size that is taken, the length of the file, the seconds as they were asked for."""
        return options(None if self.asked.size is None else self.size, len(self.file) if self.asked.length else None, self.asked.seconds)

    def is_at_end(self):
        """The last block is the one that isn't full (RFC 1350, section 6)."""
        return self.sent > 0 and len(self.block()) < self.size


def place_of(peer):
    """Where a peer stands in the order of a Tick."""
    held, port = peer.split(":")
    return int(ipaddress.IPv4Address(held)), int(port)


class Transfers:
    """The transfers of an office, by peer. An answer is (where, bytes)."""

    def __init__(self, office):
        self.office, self.rows, self.live = office, Rows(office), {}

    def holder(self, held):
        """The modem to which an address is bound, by a lease that hasn't ended."""
        hold, owner, expiry = self.office.leases.get(held, ("", None, 0))
        return owner if hold == "bound" and expiry > self.office.now else None

    def take(self, moment, peer, packet):
        """What becomes of a packet: the word of the log, and what is sent as (where, bytes) or None."""
        self.office.now = max(self.office.now, moment_of(moment))
        kind, *what = read_packet(packet)
        said = {"form": ("form", 4, "illegal operation"), "write": ("write", 2, "access violation"), "mode": ("mode", 0, "octet only")}
        if kind in said:
            return self.refused(peer, *said[kind])
        if kind == "error":
            self.live.pop(peer, None)
            return "peer-error", None
        if kind == "acknowledgement":
            return self.acknowledged(peer, *what)
        return self.asked(peer, packet, *what)

    def refused(self, peer, word, code, text):
        return word, (peer, error(code, text))

    def sends(self, peer, word):
        return word, (peer, self.live[peer].packet())

    def asked(self, peer, packet, name, options):
        now, held, old = self.office.now, address(peer.split(":")[0]), self.live.get(peer)
        if old and old.request == packet and not old.acknowledged:
            old.last = now
            return self.sends(peer, "again")
        owner = self.holder(held)
        if owner is None:
            return self.refused(peer, "no-lease", 2, "no lease")
        subscriber = self.rows.subscriber_of(owner)
        if subscriber is None:
            return self.refused(peer, "agreement", 2, "no longer agreed")
        if name != name_of(self.rows.secret_at(held), owner, held):
            return self.refused(peer, "name", 1, "file not found")
        if old is None and len(self.live) >= MOST_TRANSFERS:
            return self.refused(peer, "full", 0, "too many transfers")
        self.live[peer] = Transfer(packet, name, owner, subscriber, self.rows.file(owner, held, now), options, now)
        return self.sends(peer, "oack" if options.any() else "block 1")

    def agrees(self, peer, transfer):
        held = address(peer.split(":")[0])
        return (self.holder(held) == transfer.mac and self.rows.subscriber_of(transfer.mac) == transfer.subscriber
                and transfer.name == name_of(self.rows.secret_at(held), transfer.mac, held))

    def acknowledged(self, peer, number):
        transfer = self.live.get(peer)
        if transfer is None:
            return self.refused(peer, "unknown", 5, "unknown transfer")
        if number != transfer.sent:
            return "stale-ack", None
        if transfer.is_at_end():
            del self.live[peer]
            return "done", None
        if not self.agrees(peer, transfer):
            del self.live[peer]
            return self.refused(peer, "agreement", 2, "no longer agreed")
        transfer.sent, transfer.acknowledged, transfer.resends, transfer.last = number + 1, True, 0, self.office.now
        return self.sends(peer, f"block {number + 1}")

    def tick(self, moment):
        """What becomes of a Tick: the words of the log, none where nothing is done, and what is sent."""
        now = self.office.now = max(self.office.now, moment_of(moment))
        due = [peer for peer in sorted(self.live, key=place_of) if now >= later(self.live[peer].last, self.live[peer].seconds)]
        again = [peer for peer in due if self.live[peer].resends < MOST_RESENDS]
        for peer in due:
            if peer not in again:
                del self.live[peer]
        for peer in again:
            self.live[peer].last, self.live[peer].resends = now, self.live[peer].resends + 1
        words = f"again {len(again)} closed {len(due) - len(again)}" if due else ""
        return words, [(peer, self.live[peer].packet()) for peer in again]


