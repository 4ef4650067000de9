"""Examples of transfers: sections of crates/office_script that `office.py` writes with its own, and what is expected of each.

What is expected is computed by the model of tftp.py, beside the model of leases of leases.py. The word of each packet and of each Tick is said here by
hand too, and the packets of the worked example byte for byte; where the model says another, nothing is written.
"""
import hashlib
import hmac
import itertools

from examples import answered, compact, datagram, outcome, quoted, verdict
from examples import request as asked_over_http
from leases import (A, BEHIND, HELD, HUBS, MAC, MOST, SECOND, THERE, Clerk, Disagreement, Office, Player, address, declines, discover, leased, mac, modem_row,
                    name_of, put_hub, put_pool, put_site, releases, remove, renews, selects)
import leases
from tftp import ERROR, OPTIONS, WRITE, Transfers, acknowledgement, data, error, extensions, headed, options, request, tree_in, tree_json

MODEL = "By the model of transfers in tests/examples/tftp.py, from RFC 1350, 2347, 2348 and 2349, and the office's rules."
PORT = 5000
GOLD = "24{ 1=0001 6=07 8=00989680 } 25{ 1=0002 6=07 8=05f5e100 }"
TWICE_GOLD = "24{ 1=0001 6=07 8=01312d00 } 25{ 1=0002 6=07 8=05f5e100 }"
PLAIN = "24{ 1=0001 6=07 } 25{ 1=0002 6=07 }"
BOOST = "24{ 1=0005 6=07 } 22{ 1=03 3=0005 }"
B = "10.64.0.11"
BOTH = [SECOND, *HELD, *leased("bound", B, 1, "t+1000")]


class Packet:
    """What a client sends to the office's TFTP port."""

    def __init__(self, peer, packet):
        self.peer, self.packet = peer, packet


class Tick:
    """A Tick of the link."""


class Import:
    """A clerk's import: its kind, its number, and each row as the import has it and as the tables show it."""

    def __init__(self, kind, batch, *rows):
        self.path, self.rows = f"/imports/{kind}/{batch}", [row for _, row in rows]
        self.body = "".join(f"{line}\n" for line in (IMPORTED[kind], *(text for text, _ in rows))).encode()
        self.batch = f"batch {batch} {kind} {len(rows)} {hashlib.md5(self.body).hexdigest()}"


TICK = Tick()
IMPORTED = {"subscribers": "subscriber,active,cpes,name", "modems": "mac,subscriber,class,serial"}


# ---- what modems and clerks say

def sends(packet, held=A, port=PORT):
    return Packet(f"{held}:{port}", packet)


def name(last=0xEE, held=A, secret=b"secret"):
    return name_of(secret, mac(last), address(held))


def reads(size=None, last=0xEE, held=A, port=PORT, secret=b"secret", more=(), **what):
    """A read request of a modem for its own file, with a block size or without; further options stand before it."""
    asked = [] if size is None else [(b"blksize", b"%d" % size if isinstance(size, int) else size)]
    return sends(request(what.pop("name", None) or name(last, held, secret), *more, *asked, **what), held, port)


def acks(number, held=A, port=PORT):
    return sends(acknowledgement(number), held, port)


def gives_up(held=A, port=PORT):
    return sends(error(0, "gives up"), held, port)


def put_class(tree, number=1):
    return Clerk("PUT", f"/classes/{number}", compact({"name": "gold", "settings": tree_json(tree_in(tree))}), f'class {number} "gold" {tree}')


def put_subscriber(number, active=True, devices=2):
    body = compact({"active": active, "cpes": devices, "name": "Ann"})
    return Clerk("PUT", f"/subscribers/{number}", body, f'subscriber {number} {"active" if active else "suspended"} {devices} "Ann"')


def put_modem(subscriber, number=1, last=0xEE):
    body = compact({"subscriber": subscriber, "class": number, "serial": ""})
    return Clerk("PUT", f"/modems/{mac(last).hex()}", body, f'modem {mac(last).hex()} {subscriber} {number} ""')


def imports_modem(batch, owner, number, last=0xEE):
    given = mac(last).hex()
    return Import("modems", batch, (f"{given},{owner},{number},", f'modem {given} {owner} {number} ""'))


def put_add_on(owner, number, tree):
    body = compact({"settings": tree_json(tree_in(tree))})
    return Clerk("PUT", f"/subscribers/{owner}/addons/{number}", body, f"add-on {owner} {number} {tree}")


def written(packet):
    """A packet as a script writes it: two bytes, and texts where it has texts."""
    rest = packet[2:]
    is_text = packet[:2] in (headed(1, b""), headed(WRITE, b""), headed(ERROR, b""), headed(OPTIONS, b"")) and 4 < len(rest) < 200
    return f"{packet[:2].hex()} {quoted(rest)}" if is_text else leases.packed(packet)


def line_of(turn, moment, what):
    """An event as a script writes it."""
    if isinstance(what, Tick):
        return f"{moment} tick"
    if isinstance(what, Packet):
        return f"{moment} datagram tftp from {what.peer} {written(what.packet)}"
    if isinstance(what, Import):
        return f"{moment} piece {turn} {quoted(asked_over_http('PUT', what.path, what.body))}"
    return leases.line_of(turn, moment, what)


# ---- playing

class Played(leases.Played):
    """What comes of events; `items` are those of the last one. What is lost or fails in an event is said by its number, from 1."""

    def __init__(self, rows, failing=None, losing=None):
        super().__init__(rows)
        self.transfers, self.failing, self.losing, self.items = Transfers(self.office), failing, losing, []

    def take(self, moment, word, what):
        if isinstance(what, Import):
            self.imported(moment, what)
            return
        if not isinstance(what, (Packet, Tick)):
            super().take(moment, word, what)
            return
        self.turn += 1
        service = "tick" if isinstance(what, Tick) else "tftp"
        given, items = self.done(moment, what)
        # What was said by hand is said of a run in which nothing fails.
        if word is not None and (self.failing, self.losing) == (None, None) and given != word:
            raise Disagreement(f"{given} where {word} is said, of {line_of(self.turn, moment, what)}")
        self.items = [datagram("tftp", *each) for each in items]
        if self.losing and self.losing[0] == self.turn:
            given = "link"
            self.items.pop(self.losing[1])
        self.sent += self.items
        if given:
            self.line(service, given)

    def imported(self, moment, what):
        """An import that no rule refuses: its rows are put, and its number is kept."""
        self.turn += 1
        self.office.now = max(self.office.now, leases.moment_of(moment))
        for row in (*what.rows, what.batch):
            self.office.put(row)
        self.line("http", "200")
        self.sent += answered(self.turn, 200, {"rows": len(what.rows)})

    def done(self, moment, what):
        """The words, and what is sent."""
        if self.failing == self.turn:
            self.office.now = max(self.office.now, leases.moment_of(moment))
            return "keeper", []
        if isinstance(what, Tick):
            return self.transfers.tick(moment)
        word, reply = self.transfers.take(moment, what.peer, what.packet)
        return word, [reply] if reply else []


def played(rows, events, **what):
    made = Played(rows, **what)
    for event in events:
        made.take(*event)
    return made


class TransferPlayer(Player):
    """Writes sections whose runs are computed."""

    def section(self, title, *sources):
        self.script.section(title, *([source for source in sources if source] or [MODEL]))

    def written(self, events):
        return [line_of(turn, moment, what) for turn, (moment, _, what) in enumerate(events, 1)]

    def lines(self, rows, lines, events):
        return ["office", *rows, *lines, *self.written(events)]

    def play(self, remark, events, rows=HELD, lines=(), tables=False, model_rows=None, calls=None):
        """A run of events over the office's rows and others. Where the script writes many rows as one, `model_rows` has them singly. `calls` are those of the
        keeper after the opening."""
        whole = [*self.rows, *(model_rows or rows)]
        made = played(whole, events)
        opening = leases.calls_of_opening(Office(whole).rows())
        expected = outcome(wrote=made.wrote, sent=made.sent, tables=made.office.rows() if tables else None, calls=calls and opening + calls)
        shows = [*(["show tables"] if tables else []), *(["show calls"] if calls else [])]
        self.script.run(remark, self.lines(rows, [*lines, *shows], events), expected)
        return made

    def fails_each(self, remark, events, reading, rows=HELD):
        """Events in which each call of the keeper fails: of the opening, and then of those events, by number, that must read rows."""
        whole = [*self.rows, *rows]
        texts = [(made.wrote, made.sent, made.office.rows()) for made in (played(whole, events, failing=place) for place in (None, *reading))]
        refused = outcome(3, ["keeper refused"], tables=Office(whole).rows())
        outcomes = [outcome(wrote=wrote, sent=sent, tables=tables) for wrote, sent, tables in texts]
        self.script.run(remark, self.lines(rows, ["show tables", "fails each keeper"], events), outcomes[0], refused, *outcomes[1:])

    def loses_each(self, remark, events, rows=HELD):
        """Events in which each call of the link fails: a failed `next` is tried again, and a lost item is told by the line."""
        whole = played([*self.rows, *rows], events)
        texts = [outcome(wrote=whole.wrote, sent=whole.sent)]
        counting = Played([*self.rows, *rows])
        for number, event in enumerate(events, 1):
            counting.take(*event)
            texts.append(texts[0])
            for place in range(len(counting.items)):
                lost = played([*self.rows, *rows], events, losing=(number, place))
                texts.append(outcome(wrote=lost.wrote, sent=lost.sent))
        # Behind the events a last `next` gives the end.
        texts.append(texts[0])
        told = [text for place, text in enumerate(texts[1:], 1) if place == 1 or text != texts[place - 1]]
        self.script.run(remark, self.lines(rows, ["fails each link"], events), texts[0], *told)


def is_sent(made, place, to, packet):
    """What was sent is what stands here by hand."""
    if made.sent[place] != datagram("tftp", to, packet):
        raise Disagreement(f"{made.sent[place]} where {packet.hex()} is said")


# ---- the sections

# The worked file: what stands before the MICs, and what the CMTS MIC covers, in the order of its profile.
FRONT = bytes.fromhex("030101" + "180d0102000106010708" "0400989680" + "190d0102000206010708" "0405f5e100" + "120102" + "1304e8fe6f80" + "14040a40000a")
CM = bytes.fromhex("0610") + hashlib.md5(FRONT).digest()
COVERED = FRONT[:3] + CM + FRONT[33:] + FRONT[3:33]
FILE = FRONT + CM + bytes.fromhex("0710") + hmac.new(b"secret", COVERED, hashlib.md5).digest() + bytes.fromhex("ff000000")
WHOLE = [("t", "oack", reads(44)), ("t", "block 1", acks(0)), ("t", "block 2", acks(1)), ("t", "block 3", acks(2)), ("t", "done", acks(3))]


def worked(player):
    to = f"{A}:{PORT}"
    player.section("a modem reads its file in blocks of the size that it asks for",
                   "The worked example, byte for byte: RFC 1350, sections 2 and 6, and RFC 2348; both MICs by hashlib and hmac over what stands there.")
    made = player.play("", WHOLE, tables=True)
    blocks = [FILE[:44], FILE[44:], b""]
    for place, packet in enumerate([bytes.fromhex("0006626c6b73697a650034" "3400"), *(data(number, block) for number, block in enumerate(blocks, 1))]):
        is_sent(made, place, to, packet)
    if len(FILE) != 88:
        raise Disagreement(f"{len(FILE)} bytes")
    made = player.play("a larger size than a datagram carries", [
        ("t", "oack", reads(65464)), ("t", "block 1", acks(0)), ("t", "done", acks(1))])
    is_sent(made, 0, to, bytes.fromhex("0006626c6b73697a65003134323800"))
    is_sent(made, 1, to, data(1, FILE))
    made = player.play("a size that is none", [("t", "block 1", reads(7)), ("t", "done", acks(1))])
    is_sent(made, 0, to, data(1, FILE))
    made = player.play("no size", [("t", "block 1", reads()), ("t", "done", acks(1)), ("t", "unknown", acks(1))])
    is_sent(made, 0, to, data(1, FILE))
    is_sent(made, 1, to, bytes.fromhex("00050005") + b"unknown transfer\0")
    player.section("a file that ends with a whole block has an empty one behind it", "RFC 1350, section 6. The file has 88 bytes; a suspended one's has 76.")
    for size in (8, 11, 22, 44, 43, 45, 87, 88, 89, 512, 1427, 1428):
        count = 88 // size + 1
        player.play(f"{size} bytes", [("t", "oack", reads(size)), *(("t", f"block {number}", acks(number - 1)) for number in range(1, count + 1)),
                                      ("t", "done", acks(count))])
    player.play("suspended, 38 bytes", [
        ("t", "", put_subscriber(7, active=False)), ("t", "oack", reads(38)), ("t", "block 1", acks(0)), ("t", "block 2", acks(1)),
        ("t", "block 3", acks(2)), ("t", "done", acks(3))])
    player.section("a modem boots from nothing to its file", "DHCP by the model of leases, then TFTP.")
    player.play("", [
        ("t", "no-lease", reads()), ("t", "offer", discover()), ("t+1", "no-lease", reads()), ("t+1", "ack", selects()), ("t+2", "oack", reads(44)),
        *((f"t+{number + 3}", f"block {number + 1}" if number < 3 else "done", acks(number)) for number in range(4))], rows=[], tables=True)


def changing(player):
    player.section("a file never changes while it's read", "It is built at the read request; the next request has another.")
    changes = {"the class": [put_class(TWICE_GOLD)], "the subscriber is suspended": [put_subscriber(7, active=False)],
               "the devices": [put_subscriber(7, devices=254)], "an add-on": [put_add_on(7, 3, BOOST)],
               "another class": [put_class(PLAIN, 2), put_modem(7, 2)],
               "an import gives the modem another class": [put_class(TWICE_GOLD, 2), imports_modem(9, 7, 2)],
               "an import suspends the subscriber": [Import("subscribers", 9, ("8,yes,1,Bob", 'subscriber 8 active 1 "Bob"'), ("7,no,2,Ann", 'subscriber 7 suspended 2 "Ann"'))]}
    for remark, commands in changes.items():
        made = player.play(remark, [
            *WHOLE[:2], *(("t", "", command) for command in commands), *WHOLE[2:], ("t", "oack", reads(44)), ("t", "block 1", acks(0)),
            ("t", "block 2", acks(1))])
        packets = [line.split(" ")[-1] for line in made.sent if line.startswith("datagram tftp")]
        if packets[1:4] != [packet.hex() for packet in (data(1, FILE[:44]), data(2, FILE[44:]), data(3, b""))]:
            raise Disagreement(f"{remark}: the file is another")
        if remark in ("the class", "an import gives the modem another class") and "080401312d00" not in packets[5]:
            raise Disagreement(packets[5])
    player.play("the moment", [
        ("t", "oack", reads(44)), ("t+1", "block 1", acks(0)), ("t+2", "block 2", acks(1)), ("t+2", "oack", reads(45)), ("t+3", "block 1", acks(0)),
        ("t+4", "block 2", acks(1))])
    player.section("a transfer goes on only while what it was begun for stands",
                   "The address is the modem's by a live lease, the modem is the subscriber's, and the name is the file's.")
    broken = ("t+1", "agreement", acks(1))
    gone = [broken, ("t+1", "unknown", acks(1))]
    made = player.play("the modem is another subscriber's", [*WHOLE[:2], ("t", "", put_subscriber(8)), ("t", "", put_modem(8)), *gone])
    is_sent(made, -2, f"{A}:{PORT}", bytes.fromhex("00050002") + b"no longer agreed\0")
    is_sent(made, -1, f"{A}:{PORT}", bytes.fromhex("00050005") + b"unknown transfer\0")
    player.play("the modem is another subscriber's, and then its own subscriber's again", [
        *WHOLE[:2], ("t", "", put_subscriber(8)), ("t", "", put_modem(8)), ("t", "", put_modem(7)), *WHOLE[2:]])
    player.play("an import makes the modem another subscriber's", [*WHOLE[:2], ("t", "", put_subscriber(8)), ("t", "", imports_modem(9, 8, 1)), *gone])
    player.play("before the first block", [WHOLE[0], ("t", "", put_subscriber(8)), ("t", "", put_modem(8)), ("t", "agreement", acks(0))])
    player.play("the modem is deleted", [*WHOLE[:2], ("t", "", remove(f"/modems/{MAC.hex()}")), *gone, ("t+1", "agreement", reads(44))])
    player.play("the modem is deleted, and put again", [
        *WHOLE[:2], ("t", "", remove(f"/modems/{MAC.hex()}")), ("t", "", put_modem(7)), *WHOLE[2:]])
    player.play("the secret is another", [
        *WHOLE[:2], ("t", "", put_site(secret=b"Secret")), *gone, ("t+1", "name", reads(44)), ("t+1", "oack", reads(44, secret=b"Secret")),
        ("t+1", "block 1", acks(0)), ("t+1", "block 2", acks(1))])
    player.play("the hub is another, and its secret isn't", [*WHOLE[:2], ("t", "", put_site(server="10.0.0.9", offset=0, lease=60)), *WHOLE[2:]])
    player.play("the lease is released", [*WHOLE[:2], ("t", "released", releases()), *gone, ("t+1", "no-lease", reads(44))])
    player.play("the address is declined", [*WHOLE[:2], ("t", "declined", declines()), *gone])
    short = leased("bound", A, 0xEE, "t+2")
    player.play("the lease ends", [
        *WHOLE[:2], ("t+1", "block 2", acks(1)), ("t+2", "agreement", acks(2)), ("t+2", "unknown", acks(2)), ("t+2", "no-lease", reads())], rows=short)
    player.play("the lease is renewed in time", [*WHOLE[:2], ("t+1", "ack", renews()), ("t+2", "block 2", acks(1))], rows=short)
    player.play("the lease ends, and is renewed before the next packet comes", [
        *WHOLE[:2], ("t+3", "ack", renews()), ("t+3", "block 2", acks(1))], rows=short)
    player.play("the lease ends, and the address is offered to the same modem", [*WHOLE[:2], ("t+3", "offer", discover()), ("t+3", "agreement", acks(1))],
                rows=short)
    one = ["drop pool 1", f"pool 1 {A} {A} 24 {leases.RELAY} {leases.RELAY}", SECOND, *short]
    player.play("the lease ends, and the address is another modem's", [
        *WHOLE[:2], ("t+3", "offer", discover(1)), ("t+3", "ack", selects(last=1)), ("t+3", "agreement", acks(1)), ("t+3", "name", reads()),
        ("t+3", "block 1", reads(last=1))], rows=one)
    player.play("the last block is acknowledged all the same", [
        *WHOLE[:4], ("t", "released", releases()), ("t", "", remove(f"/modems/{MAC.hex()}")), ("t", "done", acks(3))])
    player.play("a number that wasn't sent is silent all the same", [
        *WHOLE[:2], ("t", "released", releases()), ("t", "stale-ack", acks(2)), ("t", "stale-ack", acks(0)), ("t", "agreement", acks(1))])
    player.play("who is told no more gives up its own file alone", [
        ("t", "block 1", reads()), ("t", "block 1", reads(port=PORT + 1)), ("t", "oack", reads(44, last=1, held=B)), ("t", "released", releases()),
        ("t", "done", acks(1)), ("t", "block 1", acks(0, held=B)), ("t", "done", acks(1, port=PORT + 1)), ("t", "block 2", acks(1, held=B))], rows=BOTH)


def file_in(made, peer):
    """The file that a run sent to a peer: what its blocks have, each once."""
    packets = (bytes.fromhex(each.split(" ")[-1]) for each in got(made, peer))
    return b"".join(block for _, block in sorted({packet[2:4]: packet[4:] for packet in packets if packet[:2] == headed(3, b"")}.items()))


def is_signed_by(file, secret, other):
    """Both checks of the file are right under the one secret, and that for the CMTS isn't under the other."""
    if (verdict(file, secret), verdict(file, other)) != ((True, True), (True, False)):
        raise Disagreement(f"{file.hex()} isn't signed by {secret}")


def by_hubs(player):
    """Two hubs: the secret of a file and of its name is that of the hub of its modem's address."""
    other = {"held": THERE, "secret": b"other"}
    held = [*HUBS, *leased("bound", THERE, 0xEE, "t+1000")]
    there = [("t", "oack", reads(44, **other)), *(("t", word, acks(int(word.split(" ")[-1]) - 1 if word != "done" else 3, held=THERE)) for _, word, _ in WHOLE[1:])]
    player.section("a file is signed by the secret of its address's hub, and so is its name", "Its checks by hashlib and hmac: right under that secret, and not under the other hub's.")
    made = player.play("at hub 1", [("t", "name", reads(44, held=THERE)), *there], rows=held, tables=True)
    is_signed_by(file_in(made, f"{THERE}:{PORT}"), b"other", b"secret")
    made = player.play("at hub 0", [("t", "name", reads(44, secret=b"other")), *WHOLE], rows=[*HUBS, *HELD])
    is_signed_by(file_in(made, f"{A}:{PORT}"), b"secret", b"other")
    both = [*HUBS, SECOND, *HELD, *leased("bound", THERE, 1, "t+1000")]
    second = [("t", "oack", reads(44, last=1, **other)), *(("t", word, acks(int(word.split(" ")[-1]) - 1, held=THERE)) for word in ("block 1", "block 2", "block 3"))]
    made = player.play("two modems by turns", [event for pair in zip(WHOLE, second) for event in pair], rows=both)
    is_signed_by(file_in(made, f"{A}:{PORT}"), b"secret", b"other")
    is_signed_by(file_in(made, f"{THERE}:{PORT}"), b"other", b"secret")
    player.section("a transfer ends at its next acknowledgement when its pool goes to a hub of another secret", "The lease stays; the name is another's now. Under one secret it goes on.")
    moved = put_pool(1, A, "10.64.0.99", hub=1)
    gone = [("t+1", "agreement", acks(1)), ("t+1", "unknown", acks(1)), ("t+1", "name", reads(44))]
    made = player.play("the pool is moved", [
        *WHOLE[:2], ("t", "", moved), *gone, ("t+2", "ack", renews()), ("t+2", "oack", reads(44, secret=b"other")), ("t+2", "block 1", acks(0)), ("t+2", "block 2", acks(1)),
        ("t+2", "block 3", acks(2)), ("t+2", "done", acks(3))], rows=[*HUBS, *HELD])
    is_signed_by(file_in(made, f"{A}:{PORT}"), b"other", b"secret")
    player.play("before its first block", [WHOLE[0], ("t", "", moved), ("t", "again", reads(44)), ("t", "agreement", acks(0))], rows=[*HUBS, *HELD])
    player.play("moved, and moved back", [*WHOLE[:2], ("t", "", moved), ("t", "", put_pool(1, A, "10.64.0.99")), *WHOLE[2:]], rows=[*HUBS, *HELD])
    player.play("to a hub of the same secret", [
        *WHOLE[:2], ("t", "", put_hub(1, "10.0.0.3", lease=60)), ("t", "", moved), ("t+1", "block 2", acks(1)), ("t+1", "", remove("/hubs/0")), ("t+1", "block 3", acks(2)),
        ("t+1", "done", acks(3)), ("t+1", "oack", reads(45))], rows=HELD)
    player.play("a move that is refused", [*WHOLE[:2], ("t", "no-hub", put_pool(1, A, "10.64.0.99", hub=9)), *WHOLE[2:]], rows=HELD)
    player.play("the last block is acknowledged all the same", [*WHOLE[:4], ("t", "", moved), ("t", "done", acks(3))], rows=[*HUBS, *HELD])
    player.play("a Tick sends it again all the same", [
        *WHOLE[:2], ("t", "", moved), ("t+2", "again 1 closed 0", TICK), ("t+2", "agreement", acks(1))], rows=[*HUBS, *HELD])
    player.play("another hub's secret", [
        WHOLE[0], ("t", "oack", reads(44, last=1, **other)), ("t", "", put_hub(1, "10.0.0.3", b"Other")), *WHOLE[1:], ("t", "agreement", acks(0, held=THERE)),
        ("t", "name", reads(44, last=1, **other)), ("t", "oack", reads(44, last=1, held=THERE, secret=b"Other"))], rows=both)
    player.play("the hub 0's secret", [
        WHOLE[0], *second[:2], ("t", "", put_site(secret=b"Secret")), ("t", "agreement", acks(0)), *second[2:], ("t", "oack", reads(44, secret=b"Secret"))], rows=both)
    player.section("a body that is kept serves its modem at another hub too", "It has no secret in it; only what stands behind it is signed anew.")
    made = player.play("", [
        *WHOLE, ("t", "offer", discover(relay=BEHIND)), ("t", "ack", selects(THERE, server="10.0.0.3", relay=BEHIND)), *there], rows=[*HUBS, *HELD])
    is_signed_by(file_in(made, f"{THERE}:{PORT}"), b"other", b"secret")
    player.section("files of an office of earlier days are as before", "Its one site is the hub 0.")
    now = player.play("after the opening", [*WHOLE, ("t", "ack", renews())], tables=True)
    player.migrates("the same from earlier days", [*WHOLE, ("t", "ack", renews())], now, rows=HELD)


def several(player):
    player.section("transfers of several peers don't meet", "A peer is an address and a port.")
    pairs = zip(WHOLE, [("t", word, reads(44, last=1, held=B) if word == "oack" else acks(number - 1, held=B)) for number, (_, word, _) in enumerate(WHOLE)])
    player.play("two modems by turns", [event for pair in pairs for event in pair], rows=BOTH)
    player.play("one address and two ports", [
        ("t", "oack", reads(44)), ("t+1", "oack", reads(30, port=PORT + 1)), ("t+1", "block 1", acks(0)), ("t+1", "block 1", acks(0, port=PORT + 1)),
        ("t+1", "stale-ack", acks(2, port=PORT + 1)), ("t+1", "block 2", acks(1)), ("t+1", "block 2", acks(1, port=PORT + 1)), ("t+1", "block 3", acks(2)),
        ("t+1", "done", acks(3)), ("t+1", "block 3", acks(2, port=PORT + 1)), ("t+1", "unknown", acks(3)), ("t+1", "done", acks(3, port=PORT + 1))])
    player.section("an acknowledgement that isn't of the last packet is silent and changes nothing",
                   "RFC 1123, section 4.2.3.1: a repeated one isn't answered, else each packet would go twice from there on.")
    player.play("", [
        *WHOLE[:2], ("t", "stale-ack", acks(0)), ("t", "stale-ack", acks(0)), ("t", "block 2", acks(1)), ("t", "stale-ack", acks(1)),
        ("t", "stale-ack", acks(0)), ("t", "stale-ack", acks(3)), ("t", "stale-ack", acks(65535)), ("t", "block 3", acks(2)), ("t", "stale-ack", acks(2)),
        ("t", "done", acks(3)), ("t", "unknown", acks(3))])
    player.play("ahead of the OACK", [("t", "oack", reads(44)), ("t", "stale-ack", acks(1)), ("t", "stale-ack", acks(2)), ("t", "block 1", acks(0))])
    player.play("without an OACK there is no number 0", [("t", "block 1", reads()), ("t", "stale-ack", acks(0)), ("t", "done", acks(1))])
    player.play("its time isn't begun anew", [("t", "oack", reads(44)), ("t+1", "stale-ack", acks(7)), ("t+2", "again 1 closed 0", TICK)])
    player.section("a client that gives up ends its own transfer", "RFC 1350, section 7: an ERROR isn't answered.")
    player.play("", [
        ("t", "oack", reads(44)), ("t", "oack", reads(44, last=1, held=B)), ("t", "peer-error", gives_up()), ("t", "unknown", acks(0)),
        ("t", "peer-error", gives_up()), ("t", "block 1", acks(0, held=B)), ("t", "peer-error", gives_up(held=B)), ("t+9", "", TICK)], rows=BOTH)
    player.play("in any length, from anybody", [
        *(("t", "peer-error", sends(packet, held, port)) for packet in (headed(ERROR, b""), headed(ERROR, b"\0"), headed(ERROR, bytes(1498)))
          for held, port in ((A, PORT), ("10.9.9.9", 0), ("0.0.0.0", 65535)))])


def asking_again(player):
    player.section("a request that comes again before anything is acknowledged gets the first packet again",
                   "RFC 1350, section 4: the packet may have been lost. Nothing else changes but when it was sent last.")
    player.play("", [
        ("t", "oack", reads(44)), ("t+1", "again", reads(44)), ("t+1", "again", reads(44)), ("t+1", "block 1", acks(0)), ("t+1", "block 2", acks(1))],
                tables=True)
    player.play("without an OACK", [("t", "block 1", reads()), ("t", "again", reads()), ("t", "done", acks(1)), ("t", "block 1", reads())])
    player.play("also where its lease has ended, and its modem is gone", [
        ("t", "oack", reads(44)), ("t", "released", releases()), ("t", "", remove(f"/modems/{MAC.hex()}")), ("t", "", put_site(secret=b"x")),
        ("t", "again", reads(44)), ("t", "agreement", acks(0)), ("t", "no-lease", reads(44))])
    player.play("the file is the first one's", [
        ("t", "oack", reads(44)), ("t", "", put_class(TWICE_GOLD)), ("t+1", "again", reads(44)), ("t+1", "block 1", acks(0)), ("t+1", "block 2", acks(1))])
    player.section("a request behind the first acknowledgement begins anew", "Its file is built anew too.")
    player.play("", [
        *WHOLE[:2], ("t", "", put_class(TWICE_GOLD)), ("t+1", "oack", reads(44)), ("t+1", "again", reads(44)), ("t+1", "stale-ack", acks(1)),
        ("t+1", "block 1", acks(0)), ("t+1", "block 2", acks(1)), ("t+1", "oack", reads(44))])
    player.section("another request of the peer takes the place of its transfer", "Requests are the same where all of their bytes are.")
    for other in (reads(45), reads(), reads(44, mode=b"OCTET"), reads(b"044"), reads(44, more=[(b"tsize", b"0")]), sends(reads(44).packet + b"\0")):
        first = "block 1" if other.packet == reads().packet else "oack"
        player.play("", [("t", "oack", reads(44)), ("t", first, other), ("t", "again", other), ("t", "oack", reads(44)), ("t", "block 1", acks(0))])
    player.section("a request that is refused leaves the peer's transfer as it is", "")
    refused = [("name", reads(44, name=name(held=B))), ("mode", reads(44, mode=b"netascii")), ("write", sends(request(name(), code=WRITE))),
               ("form", sends(b"\0\1x")), ("form", sends(b"")), ("form", sends(data(1, b"x"))), ("form", sends(options(44)))]
    player.play("", [*WHOLE[:2], *(("t", word, packet) for word, packet in refused), *WHOLE[2:]])
    player.play("before the first acknowledgement", [WHOLE[0], *(("t", word, packet) for word, packet in refused), ("t", "again", reads(44)), *WHOLE[1:]])
    player.play("its lease has ended", [
        *WHOLE[:2], ("t", "released", releases()), ("t", "no-lease", reads(44)), ("t", "stale-ack", acks(0)), ("t", "agreement", acks(1))])
    player.play("the modem is deleted, and put again", [
        *WHOLE[:2], ("t", "", remove(f"/modems/{MAC.hex()}")), ("t", "agreement", reads(44)), ("t", "", put_modem(7)), *WHOLE[2:]])


def ticking(player):
    again, closed = "again 1 closed 0", "again 0 closed 1"
    player.section("a packet that isn't answered is sent again five times, and then its transfer is closed",
                   "A Tick two seconds or more behind the last send; it says nothing where it does nothing.")
    player.play("", [
        ("t", "oack", reads(44)), ("t+1", "", TICK), *((f"t+{second}", again, TICK) for second in (2, 4, 6, 8, 10)), ("t+12", closed, TICK), ("t+14", "", TICK),
        ("t+14", "unknown", acks(0))], tables=True)
    player.play("a second is too soon", [
        ("t", "oack", reads(44)), ("t+1", "", TICK), ("t+2", again, TICK), ("t+3", "", TICK), ("t+3", "", TICK), ("t+5", again, TICK), ("t+5", "", TICK),
        ("t+6", "", TICK), ("t+7", again, TICK), ("t+99", again, TICK), ("t+99", "", TICK), ("t+100", "", TICK), ("t+101", again, TICK), ("t+102", "", TICK),
        ("t+103", closed, TICK), ("t+103", "", TICK)])
    player.play("any of its packets", [
        *WHOLE[:2], ("t+2", again, TICK), ("t+2", "block 2", acks(1)), ("t+4", again, TICK), ("t+4", "block 3", acks(2)), ("t+6", again, TICK),
        ("t+6", "done", acks(3)), ("t+8", "", TICK)])
    player.play("each acknowledgement gives it five more", [
        ("t", "oack", reads(44)), *((f"t+{second}", again, TICK) for second in (2, 4, 6, 8, 10)), ("t+11", "block 1", acks(0)), ("t+12", "", TICK),
        *((f"t+{second}", again, TICK) for second in (13, 15, 17, 19, 21)), ("t+21", "stale-ack", acks(0)), ("t+23", closed, TICK)])
    player.play("a request that comes again gives it none", [
        ("t", "oack", reads(44)), ("t+2", again, TICK), ("t+3", "again", reads(44)), ("t+4", "", TICK), ("t+5", again, TICK), ("t+7", again, TICK),
        ("t+8", "again", reads(44)), ("t+9", "", TICK), ("t+10", again, TICK), ("t+12", again, TICK), ("t+13", "again", reads(44)), ("t+14", "", TICK),
        ("t+15", closed, TICK), ("t+15", "oack", reads(44))])
    player.play("no lease is asked for", [
        *WHOLE[:2], ("t", "released", releases()), ("t+2", again, TICK), ("t+2", "agreement", acks(1)), ("t+4", "", TICK)])
    player.section("a Tick sends in the order of addresses, and then of ports", "Each transfer by its own time.")
    low, high = "10.64.0.9", "10.64.0.100"
    rows = ["drop pool 1", f"pool 1 10.64.0.1 10.64.0.200 24 {leases.RELAY} {leases.RELAY}", *HELD,
            *(row for last, held in ((1, low), (2, high), (3, "10.64.0.2")) for row in (modem_row(last), *leased("bound", held, last, "t+1000")))]
    peers = [(2, high, 5), (0xEE, A, 65535), (1, low, 1), (0xEE, A, 0), (0xEE, A, 5000), (3, "10.64.0.2", 256), (0xEE, A, 255), (0xEE, A, 256), (2, high, 0)]
    player.play("", [
        *(("t", "oack", reads(44, last=last, held=held, port=port)) for last, held, port in peers), ("t+1", "", TICK), ("t+2", "again 9 closed 0", TICK),
        ("t+3", "block 1", acks(0, held=A, port=255)), ("t+4", "again 8 closed 0", TICK), ("t+5", "again 1 closed 0", TICK),
        ("t+5", "block 2", acks(1, held=A, port=255))], rows=rows)
    player.play("some again, and some closed", [
        ("t", "oack", reads(44)), *((f"t+{second}", again, TICK) for second in (2, 4, 6)), ("t+7", "oack", reads(44, last=1, held=B)), ("t+8", again, TICK),
        ("t+9", again, TICK), ("t+10", again, TICK), ("t+11", again, TICK), ("t+13", "again 1 closed 1", TICK), ("t+15", again, TICK), ("t+17", again, TICK),
        ("t+19", closed, TICK)], rows=BOTH)
    player.section("the office's moment never falls", "A Tick or a packet that says an earlier moment comes at the greatest so far.")
    player.play("Ticks", [
        ("t", "oack", reads(44)), ("t-1", "", TICK), ("0", "", TICK), ("t+2", again, TICK), ("t", "", TICK), ("t+4", again, TICK), ("t+3", "block 1", acks(0)),
        ("t+5", "", TICK), ("t+6", again, TICK)])
    made = player.play("a file has the greatest moment", [
        ("t", "", TICK), ("t-86400", "oack", reads(88)), ("t-86399", "block 1", acks(0)), ("t-86398", "block 2", acks(1))])
    is_sent(made, 1, f"{A}:{PORT}", data(1, FILE))
    player.play("a lease that has ended stays so", [
        ("t-1", "block 1", reads()), ("t", "", TICK), ("t-1", "no-lease", reads(44)), ("0", "done", acks(1)), ("0", "no-lease", reads())
    ], rows=leased("bound", A, 0xEE, "t"))
    player.section("moments stop at the greatest number", "2^64 - 1 seconds: a lease has ended then, and what was sent a second before is due. RFC 868's time is all ones.")
    last = leased("bound", A, 0xEE, MOST)
    made = player.play("the last second", [
        (MOST - 1, "block 1", reads()), (MOST - 1, "", TICK), (MOST, again, TICK), (MOST, again, TICK), (MOST, "again", reads()), (MOST, again, TICK),
        (MOST, again, TICK), (MOST, again, TICK), (MOST, closed, TICK), (MOST, "no-lease", reads())], rows=last)
    if "1304ffffffff" not in made.sent[0]:
        raise Disagreement(made.sent[0])
    player.play("two seconds before", [
        (MOST - 3, "block 1", reads()), (MOST - 2, "", TICK), (MOST - 1, again, TICK), (MOST - 1, "", TICK), (MOST, again, TICK), (MOST, "done", acks(1))],
                rows=last)
    player.play("the time of RFC 868 begins again", [(2085978495, "block 1", reads()), (2085978496, "block 1", reads(port=1))], rows=leased("bound", A, 0xEE, MOST))


def reading_packets(player):
    player.section("a packet has the word of its first fault", "RFC 1350, section 5. Packets have at most 1,500 bytes: a profile of this office.")
    whole = reads(44).packet
    long = whole + b"\xff" * (1500 - len(whole))
    faults = [b"", b"\0", b"\1", b"\0\0", b"\0\3", data(1, b"x"), options(44), b"\0\7", b"\1\1" + whole[2:], b"\xff\xff", b"\0\4", b"\0\4\0", long + b"\xff",
              acknowledgement(0) + bytes(1497), error(0, "x" * 1500), request(b"x", code=WRITE) + bytes(1500), b"\0\1", b"\0\1x", b"\0\1x\0", b"\0\1x\0octet"]
    player.play("", [("t", "form", sends(packet)) for packet in faults], rows=[])
    player.play("a whole one of 1,500 bytes", [("t", "oack", sends(long)), ("t", "block 1", sends(acknowledgement(0) + bytes(1496)))])
    player.play("a file is offered", [
        ("t", "write", sends(packet)) for packet in (b"\0\2", request(b"x", code=WRITE), request(b"x", mode=b"mail", code=WRITE), b"\0\2" + bytes(1498))],
                rows=[])
    player.section("only octet is served, in any case", "RFC 1350, section 1. What a mode is told stands before what a lease is.")
    for mode in (b"octet", b"OCTET", b"oCtEt"):
        player.play("", [("t", "block 1", reads(mode=mode)), ("t", "no-lease", reads(held=B, mode=mode))])
    player.play("", [("t", "mode", reads(held=B, mode=mode)) for mode in (b"netascii", b"mail", b"", b"octe", b"octets", b" octet", b"octet ", b"\xcfctet")])
    player.section("the first option that is named blksize counts, in any case", "RFC 2347 and 2348: 8 to 65,464, in one to five decimal digits; else there is none.")
    good = {b"8": 8, b"08": 8, b"00008": 8, b"1427": 1427, b"1428": 1428, b"1429": 1428, b"512": 512, b"65464": 1428, b"01000": 1000}
    for value, size in good.items():
        made = player.play("", [("t", "oack", reads(value))])
        is_sent(made, 0, f"{A}:{PORT}", options(size))
    bad = [b"", b"0", b"7", b"007", b"65465", b"65536", b"99999", b"000008", b"100000", b"+512", b"-512", b" 512", b"512 ", b"5 2", b"0x40", b"512.0", b"\xb2\xb2"]
    player.play("what is no size", [("t", "block 1", reads(value)) for value in bad])
    player.play("any case", [("t", "oack", reads(more=[(word, b"44")])) for word in (b"BLKSIZE", b"blkSize", b"Blksize")])
    player.play("another name", [("t", "block 1", reads(more=[(word, b"44")])) for word in (b"", b"blksiz", b"blksizes", b" blksize", b"tsizes", b"windowsize", b"\xe2lksize")])
    twice = [("oack", [(b"blksize", b"44"), (b"BLKSIZE", b"99")]), ("block 1", [(b"blksize", b"7"), (b"blksize", b"44")]),
             ("block 1", [(b"blksize", b""), (b"blksize", b"44")]), ("oack", [(b"tsize", b"blksize"), (b"blksize", b"44")]),
             ("oack", [(b"", b""), (b"blksize", b"44")]), ("block 1", [(b"timeout", b"blksize"), (b"44", b"")])]
    player.play("twice, and behind others", [("t", word, reads(more=more)) for word, more in twice])
    bare = reads().packet
    cut = [(b"blksize\0", "block 1"), (b"blksize\x0044", "block 1"), (b"blksize", "block 1"), (b"\0blksize\x0044\0", "block 1"), (b"x\0y\0blksize\x0044\0z", "oack"),
           (b"blksize\x0044\0blksize", "oack")]
    player.play("cut", [("t", word, sends(bare + more)) for more, word in cut])
    player.section("each prefix of a request has its word", "What stands behind the last whole pair of options says nothing.")
    packet = reads(44, more=[(b"tsize", b"0")]).packet
    made = Played([*player.rows, *HELD])
    for length in range(len(packet) + 1):
        made.take("t", None, sends(packet[:length]))
    if made.wrote[-1].split(" ", 1)[1] != "tftp oack":
        raise Disagreement(made.wrote[-1])
    player.script.run("", ["office", *HELD, f"t prefixes tftp from {A}:{PORT} {written(packet)}"], outcome(wrote=made.wrote, sent=made.sent))
    made = Played([*player.rows, *HELD])
    for length in range(5):
        made.take("t", None, sends(acknowledgement(7)[:length]))
    player.script.run("an acknowledgement", ["office", *HELD, f"t prefixes tftp from {A}:{PORT} {acknowledgement(7).hex()}"], outcome(wrote=made.wrote, sent=made.sent))


def negotiating(player):
    to, again, closed = f"{A}:{PORT}", "again 1 closed 0", "again 0 closed 1"
    size, length, seconds = (b"blksize", b"44"), (b"tsize", b"0"), (b"timeout", b"5")

    def asks(*more, **what):
        return reads(more=more, **what)
    player.section("the file's length and another time between resends are told to who asks for them",
                   "The worked example, byte for byte: RFC 2347 and 2349. The file has 88 bytes, and what isn't answered goes again behind five seconds.")
    told = bytes.fromhex("0006" "626c6b73697a6500" "343400" "7473697a6500" "383800" "74696d656f757400" "3500")
    made = player.play("", [
        ("t", "oack", asks(size, length, seconds)), ("t+4", "", TICK), ("t+5", again, TICK), ("t+5", "block 1", acks(0)), ("t+9", "", TICK), ("t+10", again, TICK),
        ("t+10", "block 2", acks(1)), ("t+14", "block 3", acks(2)), ("t+18", "", TICK), ("t+19", again, TICK), ("t+19", "done", acks(3))], tables=True)
    for place, packet in enumerate([told, told, data(1, FILE[:44]), data(1, FILE[:44]), data(2, FILE[44:]), data(3, b""), data(3, b"")]):
        is_sent(made, place, to, packet)
    made = player.play("the request comes again", [
        ("t", "oack", asks(size, length, seconds)), ("t+4", "again", asks(size, length, seconds)), ("t+8", "", TICK), ("t+9", again, TICK),
        ("t+10", "again", asks(size, length, seconds)), ("t+14", "", TICK), ("t+15", "block 1", acks(0))])
    for place in range(4):
        is_sent(made, place, to, told)
    player.play("five times, and then it is closed", [
        ("t", "oack", asks(size, length, seconds)), *((f"t+{moment}", again, TICK) for moment in (5, 10, 15, 20, 25)), ("t+29", "", TICK), ("t+30", closed, TICK),
        ("t+30", "unknown", acks(0))])
    made = player.play("the length alone", [("t", "oack", asks(length)), ("t+1", "", TICK), ("t+2", again, TICK), ("t+2", "block 1", acks(0)), ("t+2", "done", acks(1))])
    for place, packet in enumerate([bytes.fromhex("0006" "7473697a6500" "383800")] * 2 + [data(1, FILE)]):
        is_sent(made, place, to, packet)
    made = player.play("no seconds at all", [("t", "block 1", asks((b"timeout", b"0"))), ("t+1", "", TICK), ("t+2", again, TICK), ("t+2", "done", acks(1))])
    is_sent(made, 0, to, data(1, FILE))
    player.section("each option is told where it was read, in one order, whatever the order of the request", "RFC 2347: an option that isn't told isn't taken.")
    texts = {size: b"blksize\x0044\0", length: b"tsize\x0088\0", seconds: b"timeout\x005\0"}
    for count in (1, 2, 3):
        for some in itertools.permutations(texts, count):
            made = player.play("", [("t", "oack", asks(*some)), ("t+4", "" if seconds in some else again, TICK), ("t+5", again if seconds in some else "", TICK),
                                    ("t+5", "block 1", acks(0))])
            is_sent(made, 0, to, headed(OPTIONS, b"".join(text for each, text in texts.items() if each in some)))
            is_sent(made, 2, to, data(1, FILE[:44] if size in some else FILE))
    made = player.play("among others", [
        ("t", "oack", asks((b"rollover", b"0"), seconds, (b"windowsize", b"4"), length, (b"multicast", b""), size, (b"x", b"tsize"), (b"0", b"timeout")))])
    is_sent(made, 0, to, told)
    player.section("their names are read in any case, and the first of each name counts", "RFC 2347. Where the first can't be read it hides a later one.")
    for spell in (bytes.upper, bytes.title, bytes.swapcase):
        made = player.play("", [("t", "oack", asks(*((spell(word), value) for word, value in (seconds, size, length))))])
        is_sent(made, 0, to, told)
    twice = [((b"timeout", b"0"), seconds), ((b"TIMEOUT", b"256"), seconds), ((b"timeout", b""), (b"Timeout", b"5")), ((b"tsize", b"-1"), length),
             ((b"TSIZE", b""), length), ((b"Tsize", b"0" * 21), (b"tSize", b"0"))]
    player.play("a bad one in front", [("t", "block 1", asks(*some)) for some in twice])
    made = player.play("a good one in front", [("t", "oack", asks(*some[::-1])) for some in twice])
    for place in range(len(twice)):
        is_sent(made, place, to, headed(OPTIONS, texts[seconds if place < 3 else length]))
    made = player.play("a bad one of each, and then of two", [
        ("t", "block 1", asks((b"blksize", b"7"), (b"tsize", b"x"), (b"timeout", b"0"), size, length, seconds)),
        ("t", "oack", asks((b"blksize", b"7"), size, (b"timeout", b"0"), seconds, length))])
    is_sent(made, 1, to, headed(OPTIONS, texts[length]))
    player.section("a length is asked for by one to twenty digits, whatever number they are", "RFC 2349 has a client send 0. It is told the length of its own file.")
    for value in (b"0", b"00", b"88", b"1428", b"18446744073709551615", b"18446744073709551616", b"9" * 20, b"0" * 20):
        made = player.play("", [("t", "oack", asks((b"tsize", value)))])
        is_sent(made, 0, to, headed(OPTIONS, texts[length]))
    bad = [b"", b"0" * 21, b"1" + b"0" * 20, b"-1", b"+0", b" 0", b"0 ", b"0x0", b"1.0", b"\xb2", b"tsize"]
    player.play("what is no length", [("t", "block 1", asks((b"tsize", value))) for value in bad])
    made = player.play("of another file", [
        ("t", "", put_subscriber(7, active=False)), ("t", "oack", asks(length)), ("t", "", put_subscriber(7)), ("t", "again", asks(length)), ("t+2", again, TICK)])
    for packet in got(made, to):
        if packet != datagram("tftp", to, headed(OPTIONS, b"tsize\x0076\0")):
            raise Disagreement(packet)
    player.play("with an add-on, and in blocks that it fills", [
        ("t", "", put_add_on(7, 3, BOOST)), ("t", "oack", asks(length, (b"blksize", b"8"))), *(("t", f"block {number}", acks(number - 1)) for number in range(1, 5))])
    player.section("a time between resends is asked for by one to three digits from 1 to 255", "RFC 2349. A Tick a second before is too soon; it holds for each packet.")
    for value, number in {b"1": 1, b"01": 1, b"2": 2, b"3": 3, b"007": 7, b"60": 60, b"100": 100, b"254": 254, b"255": 255}.items():
        early = [(f"t+{number - 1}", "", TICK)] if number > 1 else [("t", "", TICK)]
        made = player.play("", [("t", "oack", asks((b"timeout", value))), *early, (f"t+{number}", again, TICK), (f"t+{number}", "block 1", acks(0)),
                                (f"t+{2 * number - 1}", "", TICK), (f"t+{2 * number}", again, TICK), (f"t+{2 * number}", "done", acks(1))])
        is_sent(made, 0, to, headed(OPTIONS, b"timeout\0%d\0" % number))
        is_sent(made, 1, to, headed(OPTIONS, b"timeout\0%d\0" % number))
        is_sent(made, 3, to, data(1, FILE))
    bad = [b"", b"0", b"00", b"000", b"256", b"300", b"999", b"0001", b"0255", b"1000", b"-1", b"+5", b" 5", b"5 ", b"5.0", b"0x5", b"\xb2", b"timeout"]
    player.play("what is no such time", [("t", "block 1", asks((b"timeout", value))) for value in bad])
    player.play("then it is two seconds", [("t", "oack", asks((b"timeout", b"256"), size)), ("t+1", "", TICK), ("t+2", again, TICK)])
    player.play("each transfer by its own", [
        ("t", "oack", asks(size, (b"timeout", b"1"))), ("t", "oack", asks(size, seconds, last=1, held=B)), ("t", "block 1", reads(port=PORT + 1)), ("t", "", TICK),
        ("t+1", again, TICK), ("t+2", "again 2 closed 0", TICK), ("t+3", again, TICK), ("t+4", "again 2 closed 0", TICK), ("t+5", "again 2 closed 0", TICK),
        ("t+6", "again 1 closed 1", TICK), ("t+7", "", TICK), ("t+8", again, TICK), ("t+10", "again 2 closed 0", TICK)], rows=BOTH)
    player.play("another request, other seconds", [
        ("t", "oack", asks(seconds)), ("t+1", "oack", asks((b"timeout", b"3"))), ("t+3", "", TICK), ("t+4", again, TICK), ("t+5", "block 1", reads()), ("t+7", again, TICK)])
    last = leased("bound", A, 0xEE, MOST)
    player.play("behind the last moment there is none", [
        (MOST - 9, "oack", asks((b"timeout", b"255"))), (MOST - 1, "", TICK), (MOST, again, TICK), (MOST, again, TICK)], rows=last)


def refusing(player):
    foreign, old = reads(name=name(held=B)), reads(secret=b"Secret")
    player.section("who may read which file", "The address is bound to the modem by a lease that hasn't ended, and the name is that of the modem's file at the address.")
    player.play("no lease", [("t", "no-lease", reads()), ("t", "no-lease", reads(held="10.64.0.200")), ("t", "no-lease", foreign)], rows=[])
    for remark, rows in {"offered": leased("offered", A, 0xEE, "t+9"), "declined": [f"lease {A} declined t+9"], "it ends now": leased("bound", A, 0xEE, "t"),
                         "it ended": leased("bound", A, 0xEE, 0)}.items():
        player.play(remark, [("t", "no-lease", reads()), ("t", "no-lease", foreign)], rows=rows)
    player.play("it ends a second later", [("t", "block 1", reads())], rows=leased("bound", A, 0xEE, "t+1"))
    player.play("no modem", [("t", "agreement", reads()), ("t", "agreement", foreign)], rows=[f"drop modem {MAC.hex()}", *HELD])
    right = name()
    wrong = [b"", right[:-1], right + b"x", right.upper(), b"/" + right, b"./" + right, right.replace(b"-", b"_"), right[:13] + right[13:29][::-1] + right[29:],
             name(1), name(1, B), name(0xEE, B), b"../etc/passwd", right[:12] + b".cm", b"\xff" * 32]
    player.play("another name", [("t", "name", reads(name=each) if each else sends(b"\0\1\0octet\0")) for each in wrong] + [("t", "name", old), ("t", "block 1", reads())])
    player.play("another modem's, at its own live lease", [
        ("t", "name", reads(last=1, held=A, name=name(1, B))), ("t", "name", reads(held=B, name=name())), ("t", "block 1", reads()),
        ("t", "block 1", reads(last=1, held=B))], rows=BOTH)
    player.section("the largest file", "A class of 2,048 bytes and eight add-ons of 512: 6,199 bytes, and a zero.")
    for size, count in ((1428, 5), (512, 13), (None, 13), (8, 776)):
        begins = [("t", "oack", reads(size)), ("t", "block 1", acks(0))] if size else [("t", "block 1", reads())]
        made = player.play(f"blocks of {size} bytes" if size else "without an option", [
            *begins, *(("t", f"block {number}", acks(number - 1)) for number in range(2, count + 1)), ("t", "done", acks(count))],
                           rows=[*largest(), *HELD])
        sent = [bytes.fromhex(each.split(" ")[-1]) for each in made.sent]
        if len(b"".join(packet[4:] for packet in sent if packet[1] == 3)) != 6200:
            raise Disagreement("the largest file has 6,200 bytes")


def largest():
    """Rows of the largest class and add-ons."""
    return [f'class 1 "gold" {PLAIN} {extensions(2048 - 18)}', *(f"add-on 7 {number} {BOOST} {extensions(512 - 18)}" for number in range(8))]


def crowding(player):
    player.section("256 transfers may be live", "A 257th is refused, until one has ended; a peer that has one may begin it anew. A Tick sends for each in order.")
    many = ['repeat 0 255 modem 0300% 7 1 ""', "repeat 0 255 lease 10.64.1.# bound 0300% t+1000", "repeat 0 255 held 0300% 10.64.1.#"]
    single = [row for number in range(256) for row in (f'modem 0300{number:08x} 7 1 ""', f"lease 10.64.1.{number} bound 0300{number:08x} t+1000",
                                                       f"held 0300{number:08x} 10.64.1.{number}")]
    wide = ["drop pool 1", f"pool 1 10.64.0.1 10.64.1.255 16 {leases.RELAY} {leases.RELAY}", *HELD]

    def asks(number, size=44, port=PORT):
        held = f"10.64.1.{number}"
        return reads(size, held=held, port=port, name=name_of(b"secret", bytes.fromhex(f"0300{number:08x}"), address(held)))
    order = [(number * 77) % 256 for number in range(256)]
    everyone = [("t", "oack", asks(number)) for number in order]
    events = [
        *everyone, ("t", "full", reads(44)), ("t", "full", asks(3, port=PORT + 1)), ("t", "name", reads(name=name(held=B))),
        ("t", "no-lease", reads(held=B)), ("t", "unknown", acks(0)), ("t", "again", asks(7)), ("t", "oack", asks(7, 45)), ("t", "block 1", acks(0, held="10.64.1.7")),
        ("t+1", "", TICK), ("t+2", "again 256 closed 0", TICK), ("t+2", "full", reads(44)), ("t+2", "peer-error", gives_up(held="10.64.1.0")),
        ("t+2", "oack", reads(44)), ("t+2", "full", asks(0)), ("t+2", "block 1", acks(0)), ("t+2", "block 2", acks(1)), ("t+2", "block 3", acks(2)),
        ("t+2", "done", acks(3)), ("t+3", "oack", asks(0))]
    player.play("", events, rows=[*many, *wide], model_rows=[*single, *wide], lines=["room link 2000 200000"])
    ends = [(f"t+{second}", "again 256 closed 0", TICK) for second in (2, 4, 6, 8, 10)] + [("t+12", "again 0 closed 256", TICK), ("t+12", "oack", reads(44))]
    player.play("all are closed", [*everyone, *ends], rows=[*many, *wide], model_rows=[*single, *wide], lines=["room link 2000 200000"])


# A request reads the lease of its address, the modem and the hub; for a body that isn't kept the subscriber, the class and eight add-ons besides. The
# acknowledgement of a block that isn't the last reads the first three, where it isn't remembered that they agree: so none behind its request.
JUDGED, BUILT = 3, 10
# A renewal reads whether a device has the address, what the modem holds, the hub and the modem, and is committed.
RENEWED = 5


def keeping(player):
    def again(port, moment="t+5"):
        return [(moment, word, reads(44, port=port) if word == "oack" else acks(int(word[-1]) - 1, port=port)) for _, word, _ in WHOLE[:-1]]
    player.section("a body is kept for the next request of its modem",
                   "Only its moment is new: the rows of which it is made aren't read again. A command that changes one of them has it built anew.")
    made = player.play("five seconds later", [*WHOLE, *again(PORT + 1)], calls=2 * JUDGED + BUILT)
    first, second = (b"".join(bytes.fromhex(each.split(" ")[-1])[4:] for each in got(made, f"{A}:{port}")[1:]) for port in (PORT, PORT + 1))
    later_front = FRONT.replace(bytes.fromhex("e8fe6f80"), bytes.fromhex("e8fe6f85"))
    if first != FILE or second[:len(FRONT)] != later_front or second == first:
        raise Disagreement("the second file has another moment, and else the same settings")
    made = player.play("the class is another", [*WHOLE, *again(PORT + 1), ("t+5", "", put_class(TWICE_GOLD)), *again(PORT + 2)])
    if "080401312d00" not in got(made, f"{A}:{PORT + 2}")[1]:
        raise Disagreement("the third file has the new rate")
    both = [*BOTH, 'class 2 "lead" ' + PLAIN]
    for remark, command in {
            "its subscriber is another": put_subscriber(7, active=False), "it has an add-on": put_add_on(7, 3, BOOST),
            "the modem is of another class": put_modem(7, 2), "another class": put_class(TWICE_GOLD, 2), "another subscriber": put_subscriber(9)}.items():
        player.play(remark, [*WHOLE, ("t", "oack", reads(76, last=1, held=B)), ("t+5", "", command), ("t+5", "oack", reads(1000, port=PORT + 1)),
                             ("t+5", "block 1", acks(0, port=PORT + 1)), ("t+5", "oack", reads(1000, last=1, held=B)),
                             ("t+5", "block 1", acks(0, held=B))], rows=both)
    player.play("an add-on is gone", [*WHOLE, ("t+5", "", remove("/subscribers/7/addons/3")), *again(PORT + 1)], rows=[f"add-on 7 3 {BOOST}", *HELD])
    player.play("by the secret of the moment", [*WHOLE, ("t+5", "", put_site(secret=b"Secret")), ("t+5", "oack", reads(44, secret=b"Secret")),
                                                ("t+5", "block 1", acks(0)), ("t+5", "block 2", acks(1))])
    player.play("at another address", [*WHOLE, ("t", "released", releases()), ("t", "offer", discover()), ("t", "ack", selects()), *again(PORT + 1, "t")])
    player.play("a request that is refused", [("t", "name", reads(name=name(held=B))), ("t", "name", reads(name=name(held=B))), WHOLE[0]],
                calls=3 * JUDGED + BUILT)
    player.section("that the tables agree is remembered until a row is written on which it rests", "Acknowledgements read nothing meanwhile, and one of them behind that.")
    player.play("a whole file", WHOLE, calls=JUDGED + BUILT)
    player.play("its modem renews", [*WHOLE[:2], ("t", "ack", renews()), *WHOLE[2:]], calls=JUDGED + BUILT + RENEWED + JUDGED)
    player.play("another modem renews", [*WHOLE[:2], ("t", "ack", renews(client=B, last=1)), *WHOLE[2:]], rows=BOTH, calls=JUDGED + BUILT + RENEWED)
    player.section("the bodies of 512 modems are kept", "Those that asked last. Each gives up its file, so that there is room for the transfer of the next one.")
    folded = [row for high, last in ((0, 255), (1, 255), (2, 0)) for row in (
        f'repeat 0 {last} modem 030{high}% 7 1 ""', f"repeat 0 {last} lease 10.64.{high + 1}.# bound 030{high}% t+1000", f"repeat 0 {last} held 030{high}% 10.64.{high + 1}.#")]
    single = [row for number in range(513) for row in (
        f'modem {many(number).hex()} 7 1 ""', f"lease {place_of(number)} bound {many(number).hex()} t+1000", f"held {many(number).hex()} {place_of(number)}")]
    wide = ["drop pool 1", f"pool 1 10.64.0.1 10.64.3.255 16 {leases.RELAY} {leases.RELAY}"]

    def asks(number):
        held = place_of(number)
        return [("t", "oack", reads(44, held=held, name=name_of(b"secret", many(number), address(held)))), ("t", "peer-error", gives_up(held=held))]
    for remark, count, calls in (("the first again, behind 511 others", 512, 0), ("the first again, behind 512 others", 513, BUILT)):
        player.play(remark, [event for number in [*range(count), 0] for event in asks(number)], rows=[*folded, *wide], model_rows=[*single, *wide],
                    lines=["room link 2000 200000"], calls=(count + 1) * JUDGED + count * BUILT + calls)


def many(number):
    """One of many modems' addresses, and where it is reached."""
    return bytes.fromhex(f"030{number // 256}{number % 256:08x}")


def place_of(number):
    return f"10.64.{number // 256 + 1}.{number % 256}"


def got(made, peer):
    """What a run sent to a peer, in order."""
    return [item for item in made.sent if item.startswith(f"datagram tftp to {peer} ")]


def isolated(player):
    def same(one, other):
        """What the peer gets is the same in both, and isn't nothing."""
        if not got(one, f"{A}:{PORT}") or got(one, f"{A}:{PORT}") != got(other, f"{A}:{PORT}"):
            raise Disagreement("the peer gets another thing")
    player.section("what a modem gets is what it gets alone", "Its own packets, by themselves and among 255 other transfers, whose packets come between.")
    alone = player.play("by itself", [*WHOLE[:2], ("t+2", "again 1 closed 0", TICK), *(("t+2", word, packet) for _, word, packet in WHOLE[2:])])
    many = ['repeat 0 254 modem 0300% 7 1 ""', "repeat 0 254 lease 10.64.1.# bound 0300% t+1000", "repeat 0 254 held 0300% 10.64.1.#"]
    single = [row for number in range(255) for row in (f'modem 0300{number:08x} 7 1 ""', f"lease 10.64.1.{number} bound 0300{number:08x} t+1000",
                                                       f"held 0300{number:08x} 10.64.1.{number}")]
    wide = ["drop pool 1", f"pool 1 10.64.0.1 10.64.1.255 16 {leases.RELAY} {leases.RELAY}", *HELD]

    def other(number):
        held = f"10.64.1.{number}"
        return ("t", "oack", reads(44, held=held, name=name_of(b"secret", bytes.fromhex(f"0300{number:08x}"), address(held))))
    among = [
        *(other(number) for number in range(200)), WHOLE[0], *(other(number) for number in range(200, 255)), ("t", "block 1", acks(0, held="10.64.1.9")), WHOLE[1],
        ("t", "full", reads(44, port=PORT + 1)), ("t+2", "again 256 closed 0", TICK), ("t+2", "block 1", acks(0, held="10.64.1.8")),
        ("t+2", "block 2", acks(1)), ("t+2", "peer-error", gives_up(held="10.64.1.7")), ("t+2", "block 2", acks(1, held="10.64.1.9")),
        ("t+2", "block 3", acks(2)), ("t+2", "stale-ack", acks(0, held="10.64.1.9")), ("t+2", "done", acks(3))]
    same(alone, player.play("among the others", among, rows=[*many, *wide], model_rows=[*single, *wide], lines=["room link 2000 200000"]))
    player.section("other rows and what clerks do to them don't count", "Two runs in which the modem's own rows, packets and moments are the same.")
    first = player.play("", [*WHOLE[:2], ("t+2", "again 1 closed 0", TICK), *(("t+2", word, packet) for _, word, packet in WHOLE[2:])])
    others = ['class 2 "lead" ' + PLAIN, 'subscriber 8 suspended 1 "Bob"', modem_row(1), *leased("bound", B, 1, "t+1000"), f"add-on 8 3 {BOOST}", *HELD]
    same(first, player.play("others are there, and change", [
        ("t", "oack", reads(44, last=1, held=B)), WHOLE[0], ("t", "", put_class(TWICE_GOLD, 2)), ("t", "", put_subscriber(8, devices=9)), WHOLE[1],
        ("t", "released", releases(client=B, last=1)), ("t+2", "again 2 closed 0", TICK), ("t+2", "agreement", acks(0, held=B)), ("t+2", "", put_site(log="10.0.0.9")),
        *(("t+2", word, packet) for _, word, packet in WHOLE[2:])], rows=others))


def failing(player):
    player.section("a packet in which the keeper fails changes nothing, and has no reply",
                   "Each call of the keeper fails in turn: of the opening, status 3; of a packet that must read rows, which comes again and is answered then.")
    twice = [event for pair in (((moment, word, what), (moment, None, what)) for moment, word, what in WHOLE) for event in pair]
    # A read request is judged by the rows, and that they agree is remembered for the acknowledgements.
    player.fails_each("", twice, reading=(1,))
    player.fails_each("eight add-ons", [("t", "block 1", reads()), ("t", None, reads()), ("t", "done", acks(1))], reading=(1,),
                      rows=[*(f"add-on 7 {number} {BOOST}" for number in range(8)), *HELD])
    player.fails_each("one that has no transfer yet, or no more", [
        ("t", "no-lease", reads(held=B)), ("t", "name", reads(name=name(held=B))), ("t", "oack", reads(44)), ("t", None, reads(44))],
                      reading=(1, 2, 3))
    player.section("a reply that is lost is told, and the transfer goes on as if it had gone", "Each call of the link fails in turn; a Tick sends what was lost.")
    player.loses_each("", [*WHOLE[:2], ("t+2", "again 1 closed 0", TICK), ("t+2", "block 2", acks(1)), ("t+2", "block 3", acks(2)), ("t+2", "done", acks(3)),
                           ("t+2", "unknown", acks(3)), ("t+2", "form", sends(b""))])
    player.loses_each("two are due", [("t", "oack", reads(44)), ("t", "oack", reads(44, last=1, held=B)), ("t+2", "again 2 closed 0", TICK),
                                      ("t+4", "again 2 closed 0", TICK)], rows=BOTH)
    player.section("a second run begins without transfers", "It starts from the tables that the first left, and from its own moment.")
    made = player.play("", WHOLE[:2], tables=True)
    then = played(made.office.rows(), [("5", "unknown", acks(1)), ("5", "", TICK), ("9", "", TICK), ("5", "oack", reads(44)), ("5", "block 1", acks(0))])
    script = [line_of(0, moment, what) for moment, what in (("5", acks(1)), ("5", TICK), ("9", TICK), ("5", reads(44)), ("5", acks(0)))]
    player.script.run("", ["show tables", *script], then.outcome(), again=True)
    player.section("transfers stand beside leases, clerks and the time", "An event of another service changes none, and each has its line.")
    player.play("", [
        ("t", "oack", reads(44)), ("t", "no-relay-pool", discover(relay="10.64.0.2")), ("t", "block 1", acks(0)), ("t", "", put_subscriber(9)),
        ("t", "ack", renews()), ("t+2", "again 1 closed 0", TICK), ("t+2", "block 2", acks(1)), ("t+3", "", put_site(log="10.0.0.9")), ("t+3", "block 3", acks(2)),
        ("t+3", "done", acks(3))], tables=True)


def sections(script, rows):
    """Writes the sections, over an office of these rows."""
    player = TransferPlayer(script, rows)
    for write in (worked, changing, by_hubs, several, asking_again, ticking, reading_packets, negotiating, refusing, crowding, keeping, isolated, failing):
        write(player)
