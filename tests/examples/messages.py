"""DHCP messages: a reader and a writer, from RFC 2131 with the options of RFC 2132, RFC 3046, RFC 3396 and CANN-DHCP-Reg,
and relays' queries for leases, from RFC 4388.

Only Python's standard library is used, and nothing of the programs that are tried with it.
"""
DISCOVER, OFFER, REQUEST, DECLINE, ACK, NAK, RELEASE, INFORM = range(1, 9)
# RFC 4388, section 6.1.
QUERY, UNASSIGNED, UNKNOWN, ACTIVE = range(10, 14)
COOKIE = b"\x63\x82\x53\x63"


def option(code, data):
    return bytes([code, len(data)]) + data


def split(code, value):
    """An option of any length: as several of at most 255 bytes, where it's longer (RFC 3396, section 5)."""
    return b"".join(option(code, value[at:at + 255]) for at in range(0, len(value), 255)) or option(code, b"")


def message(kind, mac, options=b"", relay=bytes(4), client=bytes(4), xid=0x11223344, hops=0, secs=0, flags=0, rest=bytes(10)):
    """A client's message: its fixed part, the kind, further options and the end."""
    fixed = (b"\x01\x01\x06" + bytes([hops]) + xid.to_bytes(4, "big") + secs.to_bytes(2, "big") + flags.to_bytes(2, "big") + client + bytes(8) + relay
             + mac + rest + bytes(192))
    return fixed + COOKIE + option(53, bytes([kind])) + options + b"\xff"


# A DISCOVER of a cable modem that came through a relay: the worked example, whose option 43 comes in two pieces.
MODEM = "02aabbccddee"
RELAYED = bytes.fromhex("520e" + "010480000001" + "0206" + MODEM)
RELAYED_DISCOVER = (bytes.fromhex("0101060011223344") + bytes(16) + bytes.fromhex("0a400001" + MODEM) + bytes(202) + COOKIE
                    + bytes.fromhex("350101" + "3c0a") + b"docsis3.1:" + bytes.fromhex("2b050203") + b"ECM" + b"\0" + bytes.fromhex("2b060404") + b"SN01" + RELAYED + b"\xff")


def options_in(data, at=0):
    """The options of RFC 2132, section 2: where the first that passes the end stands, or None, and the values of each code."""
    values = {}
    while at < len(data) and data[at] != 255:
        if data[at] == 0:
            at += 1
            continue
        if at + 1 >= len(data) or at + 2 + data[at + 1] > len(data):
            return at, values
        values.setdefault(data[at], []).append(data[at + 2:at + 2 + data[at + 1]])
        at += 2 + data[at + 1]
    return None, values


def parts_in(value, has_pads):
    """The parts of an option's value, or None where one passes the end. Those of option 43 have pads and an end (CANN-DHCP-Reg)."""
    found, at = [], 0
    while at < len(value):
        if has_pads and value[at] == 0:
            at += 1
            continue
        if has_pads and value[at] == 255:
            break
        if at + 1 >= len(value) or at + 2 + value[at + 1] > len(value):
            return None
        found.append((value[at], value[at + 2:at + 2 + value[at + 1]]))
        at += 2 + value[at + 1]
    return found


def first_of(parts, code):
    return next((value for known, value in parts if known == code), None)


def fault_of(data):
    """A datagram's first fault, in the order of the standard's parts."""
    if len(data) < 240:
        return "short"
    if len(data) > 1500:
        return "long"
    if data[0] != 1:
        return "not-request"
    if data[1:3] != b"\x01\x06":
        return "hardware"
    if data[236:240] != COOKIE:
        return "cookie"
    cut, values = options_in(data[240:])
    if cut is not None:
        return f"option-cut {cut + 240}"
    if len(b"".join(values.get(53, []))) != 1:
        return "no-type"
    return "overload" if 52 in values else None


class Message:
    """A message without a fault, as its receiver sees it."""

    def __init__(self, data):
        self.client, self.relay, self.mac = data[12:16], data[24:28], data[28:34]
        self.options = {code: b"".join(values) for code, values in options_in(data[240:])[1].items()}
        self.kind = self.options[53][0]

    def address(self, code):
        """The address of an option of four bytes."""
        value = self.options.get(code, b"")
        return value if len(value) == 4 else None

    def asked(self):
        """For which address a REQUEST asks, and in which form (RFC 2131, table 4); None where it has no form."""
        asked, server = self.options.get(50), self.options.get(54)
        if asked is not None and len(asked) != 4 or server is not None and len(server) != 4:
            return None
        if self.client != bytes(4):
            return ("renewing", self.client) if asked is None and server is None else None
        if asked is None:
            return None
        return ("init-reboot" if server is None else "selecting"), asked


def reply_to(data, kind, server, offer=None):
    """The reply (RFC 2131, table 3) to a message, its options in the office's order."""
    request = options_in(data[240:])[1]
    flags = data[10:12]
    behind = option(53, bytes([kind])) + option(54, server)
    if offer is None:
        if data[24:28] != bytes(4):
            flags = bytes([flags[0] | 0x80, flags[1]])
        fixed = bytes(12) + data[24:28]
        name = bytes(128)
    else:
        lease = offer["lease"]
        behind += option(51, lease.to_bytes(4, "big")) + option(58, (lease // 2).to_bytes(4, "big")) + option(59, (lease * 7 // 8).to_bytes(4, "big"))
        behind += option(1, (2**32 - 2**(32 - offer["prefix"])).to_bytes(4, "big")) + option(3, offer["router"])
        behind += option(2, offer["offset"].to_bytes(4, "big", signed=True)) + option(4, server)
        behind += option(7, offer["log"]) if offer["log"] != bytes(4) else b""
        fixed = (data[12:16] if kind == ACK else bytes(4)) + offer["yiaddr"] + server + data[24:28]
        name = offer["name"] + bytes(96)
    if 82 in request:
        behind += split(82, b"".join(request[82]))
    made = b"\x02\x01\x06\0" + data[4:8] + bytes(2) + flags + fixed + data[28:44] + bytes(64) + name + COOKIE + behind + b"\xff"
    return made + bytes(max(0, 300 - len(made)))


def reply_in(data):
    """A reply as a client reads it: its kind, the address that it's given, the server, and the values of its options in order."""
    options, at = [], 240
    while data[at] != 255:
        options.append((data[at], data[at + 2:at + 2 + data[at + 1]]))
        at += 2 + data[at + 1]
    return {"kind": dict(options)[53][0], "address": data[16:20], "server": data[20:24], "name": data[108:236].rstrip(b"\0"), "options": options}


# ---- queries

def query(client=bytes(4), hardware=b"", kind=None, rest=None, options=b"", relay=bytes(4), xid=0x11223344, hops=0, secs=0, flags=0, code=QUERY):
    """A relay's query: by an address, which stands in ciaddr, or by a hardware address (RFC 4388, section 6.2). `kind` is the type and length of that."""
    kind = kind if kind is not None else b"\x01\x06" if hardware else bytes(2)
    fixed = (b"\x01" + kind + bytes([hops]) + xid.to_bytes(4, "big") + secs.to_bytes(2, "big") + flags.to_bytes(2, "big") + client + bytes(8) + relay
             + hardware.ljust(16, b"\0") + (bytes(192) if rest is None else rest))
    return fixed + COOKIE + option(53, bytes([code])) + options + b"\xff"


def is_query(data):
    """Whether a datagram is a query that the office reads."""
    if not 240 <= len(data) <= 1500 or data[0] != 1 or data[236:240] != COOKIE:
        return False
    cut, values = options_in(data[240:])
    return cut is None and b"".join(values.get(53, [])) == bytes([QUERY]) and 52 not in values


def asked_by(data):
    """What a query asks: about an address, about a client, or None where it asks by neither."""
    client, kind, hardware = data[12:16], data[1:3], data[28:44]
    if 61 in options_in(data[240:])[1]:
        return None
    if client != bytes(4):
        return ("address", client) if kind == bytes(2) and hardware == bytes(16) else None
    return ("client", hardware[:6]) if kind == b"\x01\x06" else None


def answer_to(data, kind, server, active=None):
    """The answer to a query (RFC 4388, section 6.4); of an active lease its address, its owner and the seconds until it ends."""
    hardware, client, behind = data[1:3] + data[28:44], data[12:16], option(53, bytes([kind])) + option(54, server)
    if active is not None:
        client, owner, left = active
        hardware = b"\x01\x06" + owner + bytes(10)
        behind += option(51, min(left, 2**32 - 1).to_bytes(4, "big"))
    made = (b"\x02" + hardware[:2] + b"\0" + data[4:8] + bytes(2) + data[10:12] + client + bytes(8) + data[24:28] + hardware[2:] + bytes(192) + COOKIE
            + behind + b"\xff")
    return made + bytes(max(0, 300 - len(made)))
