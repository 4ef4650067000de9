"""Examples of input from strangers: sections of crates/office_script that `office.py` writes with its own, and what is expected of each.

The word of each input is said here by hand, by its length or its form, from the formats in docs/MESSAGES.md and docs/CLERK_API.md and the RFCs that they
name. The models of leases.py and tftp.py and the reader of examples.py say what is sent; where one says another word, nothing is written.
"""
from examples import Fault, answered, datagram, outcome, quoted, request, sealed, verdict
from leases import MODEL, Disagreement, Player, packed, says
from messages import DISCOVER, RELAYED_DISCOVER, option
import leases
import transfers
from transfers import TransferPlayer, name, sends
import tftp

A, RELAY_PORT = leases.A, f"{leases.RELAY}:67"
BY_HAND = "By hand: what is wrong first of a message of so many bytes."


def lengths(text):
    """`0 to 2, 5`: 0, 1, 2 and 5."""
    for part in text.split(", "):
        first, _, last = part.partition(" to ")
        yield from range(int(first), int(last or first) + 1)


def by_length(words, most):
    """The word of each length up to the last one."""
    found = {length: word for word, text in words.items() for length in lengths(text)}
    if sorted(found) != list(range(most + 1)):
        raise Disagreement(f"lengths without a word, of {most}")
    return [found[length] for length in range(most + 1)]


CUT_DISCOVER = {"dhcp-short": "0 to 239", "dhcp-no-type": "240", "dhcp-option-cut": "241 to 242, 244 to 254, 256 to 261, 264 to 270, 272 to 286", "not-a-modem": "243",
                "offer": "255, 262, 263, 271, 287, 288"}
CUT_READ = {"form": "0 to 40", "block 1": "41 to 51", "oack": "52"}
CUT_FILE = {"cut 0": "1, 2", "cut 3": "4, 5", "cut 6": "7 to 23", "cut 24": "25 to 41", "no-end": "0, 3, 6, 24, 42", "good": "43, 44"}


def cut_messages(script, rows):
    player = Player(script, rows)
    player.section("each prefix of a DISCOVER meets an office of its own", BY_HAND, MODEL)
    whole = RELAYED_DISCOVER
    for length, word in enumerate(by_length(CUT_DISCOVER, len(whole))):
        made = leases.Played(rows)
        made.take("t", word, whole[:length])
        script.run(f"{length}", ["office", f"t datagram dhcp from {RELAY_PORT} {packed(whole[:length])}"], outcome(wrote=made.wrote, sent=made.sent))
    player.section("a message of 1,501 bytes is too long", BY_HAND)
    player.play("", [("t", "dhcp-long", whole + bytes(1501 - len(whole)))])
    player.section("an agent's option of 300 bytes in two pieces comes back in two pieces", "RFC 3396, sections 5 and 8: 255 bytes, and the 45 others.", MODEL)
    parts = option(1, bytes(253)) + option(9, bytes(43))
    made = player.play("", [("t", "offer", says(DISCOVER, way=parts))])
    if not made.sent[0].endswith((option(82, parts[:255]) + option(82, parts[255:]) + b"\xff").hex()):
        raise Disagreement(made.sent[0])


def cut_packets(script, rows):
    player = TransferPlayer(script, rows)
    player.section("each prefix of a read request comes from a port of its own", BY_HAND, transfers.MODEL)
    whole = tftp.request(name(), (b"blksize", b"44"))
    made = player.play("", [("t", word, sends(whole[:length], port=5000 + length)) for length, word in enumerate(by_length(CUT_READ, len(whole)))])
    told = {"form": tftp.error(4, "illegal operation"), "block 1": tftp.data(1, transfers.FILE), "oack": tftp.options(44)}
    for length, word in enumerate(by_length(CUT_READ, len(whole))):
        if made.sent[length] != datagram("tftp", f"{A}:{5000 + length}", told[word]):
            raise Disagreement(made.sent[length])
    player.section("a packet of 1,501 bytes is none", BY_HAND)
    player.play("", [("t", "form", sends(whole + bytes(1501 - len(whole))))])


def cut_files(script):
    script.section("each prefix of a sealed file is checked", "By hand: the place of the first setting that is cut off, or that no end is there.")
    whole = sealed(bytes.fromhex("030101" "120101" "ff"), b"secret")
    for length, word in enumerate(by_length(CUT_FILE, len(whole))):
        lines = ["words check 736563726574", *([f"source {whole[:length].hex()}"] if length else [])]
        try:
            found = "good" if verdict(whole[:length], b"secret") == (True, True) else "bad"
        except Fault as fault:
            found = str(fault)
        if found != word:
            raise Disagreement(f"{found} where {word} is said, of {length} bytes")
        script.run(f"{length}", lines, outcome(wrote=["cm good", "cmts good"]) if word == "good" else outcome(8, [f"refused {word}"]))


def is_refused(script, rows, remark, path, body, status, word, text, written=None):
    """A row that is put by this body is refused. `written` is the request as the script writes it, where it's long."""
    script.run(remark, ["office", "show tables", f"t piece 1 {written or quoted(request('PUT', path, body))}"],
               outcome(wrote=[f"1 http {status} {word}"], sent=answered(1, status, text), tables=rows))


def nested(depth):
    """A class's body with settings so deep, as JSON, and as a script writes it."""
    front, back, inner = '{"name":"x","settings":[{"code":22,', "}]}", '"parts":[{"code":22,'
    body = front + inner * (depth - 1) + '"hex":"01"' + "}]" * (depth - 1) + back
    head = request("PUT", "/classes/2", body)[:-len(body)]
    parts = [quoted(head), quoted(front.encode())]
    if depth > 1:
        parts.append(f"{depth - 1}* {quoted(inner.encode())}")
    parts.append(quoted(b'"hex":"01"'))
    if depth > 1:
        parts.append(f"{depth - 1}* {quoted(b'}]')}")
    return body, " ".join([*parts, quoted(back.encode())])


def wrong_bodies(script, rows):
    script.section("settings of a body that are nested four deep are refused",
                   "docs/CLERK_API.md: settings go three deep, and JSON values 127, of which each setting takes two. A setting 22 has no part 22.")
    value, tree, no_json = (400, "value", "settings"), (422, "tree", "1"), (400, "not-json", None)
    for depth, (status, word, at) in ((1, tree), (2, tree), (3, tree), (4, value), (5, value), (63, value), (64, no_json), (4000, no_json)):
        body, written = nested(depth)
        is_refused(script, rows, f"{depth}", "/classes/2", body, status, word, {"at": at, "fault": word} if at else {"fault": word}, written)
    script.section("an import that lacks a column is refused", "docs/CLERK_API.md, imports: the first line names the columns.")
    for path, body in (("/imports/modems/9", "mac,subscriber,class"), ("/imports/modems/9", "mac,subscriber,class\n"), ("/imports/subscribers/9", "subscriber,active,cpes")):
        is_refused(script, rows, "", path, body, 422, "header", {"fault": "header"})


def sections(script, rows):
    """Writes the sections, over an office of these rows."""
    cut_messages(script, rows)
    cut_packets(script, rows)
    cut_files(script)
    wrong_bodies(script, rows)
