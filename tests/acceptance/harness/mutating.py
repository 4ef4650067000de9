"""Inputs that are near to good ones, by chance from a seed, and which words of the log may come of each.

The words are those of docs/MESSAGES.md and docs/CLERK_API.md. What a datagram says by itself decides its word where it's refused for that, by the readers of
tests/examples (messages.py and tftp.py, from the RFCs); else the word is one of those that the tables may decide for a message of its kind.
"""
import json
import re

import messages
import tftp
from harness import text_of
from leases import is_modem

# Bytes at which lengths, kinds and counts change their meaning.
EDGES = (0, 1, 2, 3, 4, 5, 6, 7, 8, 9, 10, 13, 22, 32, 34, 43, 52, 53, 54, 60, 63, 82, 91, 123, 127, 128, 250, 254, 255)
MOST_BYTES = 1600


# ---- changes

def flip(chance, data):
    at = chance.randrange(len(data))
    data[at] ^= 1 << chance.randrange(8)


def put_edge(chance, data):
    data[chance.randrange(len(data))] = chance.choice(EDGES)


def step(chance, data):
    at = chance.randrange(len(data))
    data[at] = (data[at] + chance.choice((-1, 1))) % 256


def put_number(chance, data):
    """Two or four bytes become a number at an edge."""
    size = chance.choice((2, 4))
    at = chance.randrange(max(1, len(data) - size))
    data[at:at + size] = chance.choice((0, 1, 2**(8 * size) - 1, 2**(8 * size - 1), 1428, 512)).to_bytes(size, "big")


def drop(chance, data):
    at = chance.randrange(len(data))
    del data[at:at + chance.choice((1, 1, 2, 4, 8, 40))]


def cut(chance, data):
    del data[chance.randrange(len(data)):]


def repeat(chance, data):
    """A stretch comes again behind itself, some times or many."""
    at = chance.randrange(len(data))
    part = data[at:at + chance.choice((1, 2, 4, 8, 20))]
    data[at:at] = part * chance.choice((1, 1, 2, 10, 300))


def insert(chance, data):
    at = chance.randrange(len(data) + 1)
    data[at:at] = chance.choice((chance.randbytes(chance.randrange(1, 9)), bytes([chance.choice(EDGES)]) * chance.choice((1, 2, 16, 255))))


def swap(chance, data):
    at, other = sorted(chance.randrange(len(data)) for _ in range(2))
    size = min(chance.choice((1, 2, 4, 8)), other - at)
    data[at:at + size], data[other:other + size] = data[other:other + size], data[at:at + size]


CHANGES = (flip, flip, put_edge, put_edge, step, put_number, drop, cut, repeat, insert, swap)


def mutated(chance, seeds, most=MOST_BYTES, front=0):
    """One of the seeds, changed a few times; now and then the front of one and the end of another. So many bytes in front are often left as they are."""
    whole = chance.choice(seeds)
    kept = front if chance.random() < 0.6 else 0
    data = bytearray(whole[kept:])
    if chance.random() < 0.1:
        other = chance.choice(seeds)[kept:]
        data[chance.randrange(len(data) + 1):] = other[chance.randrange(len(other) + 1):]
    for _ in range(chance.choice((1, 1, 1, 2, 3, 6))):
        if data:
            chance.choice(CHANGES)(chance, data)
    return (whole[:kept] + bytes(data))[:most]


def mutated_request(chance, seeds, most):
    """A request, changed anywhere, or in its body alone, whose length is said rightly then."""
    if chance.random() < 0.4:
        return mutated(chance, seeds, most)
    head, end, body = chance.choice(seeds).partition(b"\r\n\r\n")
    body = mutated(chance, [body], most) if body else body
    return re.sub(rb"Content-Length: \d+", b"Content-Length: %d" % len(body), head) + end + body


# ---- the words that may come

OF_TABLES = {
    messages.DISCOVER: {"offer", "no-relay-pool", "unknown-modem", "serial-mismatch", "pool-full"},
    messages.REQUEST: {"ack", "no-relay-pool", "unknown-modem", "serial-mismatch", "other-server", "no-record", "not-your-address"},
    messages.DECLINE: {"declined", "other-server", "no-record"},
    messages.RELEASE: {"released", "other-server", "no-record"},
}
# What the tables may decide for a message of a device behind a modem.
OF_DEVICES = {
    messages.DISCOVER: {"cpe-offer", "cpe-no-pool", "cpe-suspended", "cpe-offline", "cpe-limit", "cpe-pool-full"},
    messages.REQUEST: {"cpe-ack", "cpe-no-pool", "cpe-suspended", "cpe-offline", "cpe-other-server", "cpe-limit", "cpe-no-record", "cpe-not-yours"},
    messages.DECLINE: {"cpe-declined", "cpe-offline", "cpe-other-server", "cpe-no-record"},
    messages.RELEASE: {"cpe-released", "cpe-offline", "cpe-other-server", "cpe-no-record"},
}
# These are answered, and the answer may find no way, since a message says itself where it is to go.
ANSWERED = {"offer", "ack", "not-your-address", "cpe-offer", "cpe-ack", "cpe-not-yours"}
# A change may make a relay's query of a message, which is answered to the relay that it names.
QUERIED = {"query-relay", "query-form", "query-active", "query-unassigned", "query-unknown", "link"}


def words_of_message(data, modems):
    """What may become of a DHCP datagram, where each pool has its hub and these modems are on record."""
    if messages.is_query(data):
        return QUERIED
    fault = messages.fault_of(data)
    if fault:
        return {"dhcp-" + fault.split(" ")[0]}
    m = messages.Message(data)
    agent = messages.parts_in(m.options.get(82, b""), False)
    remote = None if agent is None else messages.first_of(agent, 2)
    if remote is not None and len(remote) == 6:
        return words_of_device(m) if remote != m.mac and remote in modems else words_of_modem(m, agent)
    # Without a relay's word a device is known by the lease that it renews or gives back.
    if agent is not None and m.kind in (messages.REQUEST, messages.RELEASE):
        return words_of_device(m) | words_of_modem(m, agent)
    return words_of_modem(m, agent)


def words_of_device(m):
    if m.kind not in OF_DEVICES:
        return {"not-served"}
    if m.kind == messages.REQUEST and m.asked() is None:
        return {"cpe-form"}
    return or_no_way(OF_DEVICES[m.kind])


def words_of_modem(m, agent):
    if m.kind not in OF_TABLES:
        return {"not-served"}
    if m.kind == messages.REQUEST and m.asked() is None:
        return {"request-form"}
    asks = m.kind in (messages.DISCOVER, messages.REQUEST)
    if agent is None or asks and messages.parts_in(m.options.get(43, b""), True) is None:
        return {"part-cut"}
    remote = messages.first_of(agent, 2)
    if remote is not None and len(remote) == 6 and remote != m.mac:
        return {"relay-mismatch"}
    says_device = is_modem(m.options.get(60, b""))
    if m.kind == messages.DISCOVER and not says_device or m.kind == messages.REQUEST and 60 in m.options and not says_device:
        return {"not-a-modem"}
    return or_no_way(OF_TABLES[m.kind])


def or_no_way(words):
    return words | {"link"} if words & ANSWERED else words


def words_of_packet(packet):
    """What may become of a TFTP packet; blocks are told without their number."""
    kind, *what = tftp.read_packet(packet)
    if kind in ("form", "mode", "write"):
        return {kind}
    if kind == "error":
        return {"peer-error"}
    if kind == "acknowledgement":
        return {"unknown", "stale-ack", "block", "done", "agreement"}
    return {"again", "no-lease", "agreement", "name", "full", "oack" if what[1].any() else "block"}


def statuses():
    """Each fault of a clerk's request with its status, by docs/CLERK_API.md."""
    page = text_of("docs", "CLERK_API.md").split("\n## Faults\n")[1]
    return dict(re.findall(r"^\| `([a-z-]+)` \| (\d+) \|", page, re.M))


STATUSES = statuses()
PATHS = re.compile(rb"/(site|hubs/\d{1,20}|subscribers/\d{1,20}(/addons/\d{1,20})?|modems/[0-9A-Fa-f:.-]{12,17}|classes/\d{1,20}|(device-)?pools/\d{1,20}|leases/[0-9.]{7,15}"
                   rb"|imports/(subscribers|modems)/\d{1,20})")


def may_be_done(data):
    """Whether a request may be one that is done: a line of a known method and path, which empty lines may stand before, a line feed alone may end
    and a `?` go behind, and of a row that is put a JSON object."""
    head, end, body = data.partition(b"\r\n\r\n")
    line = re.split(rb"\r?\n", head.lstrip(b"\r\n"))[0].split(b" ")
    if not end or len(line) != 3 or line[0] not in (b"GET", b"PUT", b"DELETE") or not PATHS.fullmatch(line[1].partition(b"?")[0]):
        return False
    if line[0] != b"PUT" or line[1].startswith(b"/imports"):
        return True
    length = re.search(rb"(?im)^content-length:[ \t]*(\d+)[ \t]*\r?$", head)
    try:
        return bool(length) and isinstance(json.loads(body[:int(length[1])]), dict)
    except ValueError:
        return False


def fits_request(data, words):
    """Whether the last word of a connection on which this was sent may be this one; the fault and its status belong together."""
    if words in ("closed", "link"):
        return True
    status, _, fault = words.partition(" ")
    if status == "200":
        return not fault and may_be_done(data)
    return STATUSES.get(fault) == status
