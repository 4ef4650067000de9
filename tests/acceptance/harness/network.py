"""A network of one's own: its addresses, ports of datagrams, and datagrams from others' ports."""
import fcntl
import socket
import struct

IP_PKTINFO = 8


def address_of_lo(name, address, mask):
    """Gives the loopback interface an address; all addresses under the mask are this machine's then."""
    with socket.socket(socket.AF_INET, socket.SOCK_DGRAM) as any_socket:
        for command, value in ((0x8916, address), (0x891C, mask)):  # SIOCSIFADDR, SIOCSIFNETMASK
            fcntl.ioctl(any_socket, command, struct.pack("16sHH4s8x", name, socket.AF_INET, 0, socket.inet_aton(value)))
        fcntl.ioctl(any_socket, 0x8914, struct.pack("16sh14x", name, 1))  # SIOCSIFFLAGS, IFF_UP


def loopback():
    """The addresses that every machine has of its own."""
    address_of_lo(b"lo", "127.0.0.1", "255.0.0.0")


def port_of(address, port):
    each = socket.socket(socket.AF_INET, socket.SOCK_DGRAM)
    each.setsockopt(socket.SOL_SOCKET, socket.SO_RCVBUF, 1 << 22)
    each.setsockopt(socket.IPPROTO_IP, IP_PKTINFO, 1)
    each.bind((address, port))
    each.settimeout(5)
    return each


def took(each):
    """The next datagram of a socket, and the address that it was sent to; None where none came."""
    try:
        data, more, _, _ = each.recvmsg(4096, 256)
    except OSError:
        return None
    target = next((value[8:12] for level, kind, value in more if (level, kind) == (socket.IPPROTO_IP, IP_PKTINFO)), b"")
    return data, socket.inet_ntoa(target) if target else ""


def speaks_for_itself(data):
    """The client's own address in a DHCP message without a relay, as text; None for another datagram."""
    own = len(data) >= 240 and data[24:28] == bytes(4) and data[12:16] != bytes(4)
    return socket.inet_ntoa(data[12:16]) if own else None


def sends_as_client(sender, data, to):
    """Sends a DHCP message by a relay's socket; one of a client without a relay from that client's address, as the office takes it from there alone. Gives whether
    this machine could."""
    own = speaks_for_itself(data)
    if own is None or own == sender.getsockname()[0]:
        sender.sendto(data, to)
        return True
    with socket.socket(socket.AF_INET, socket.SOCK_DGRAM) as client:
        try:
            client.bind((own, 0))
            client.sendto(data, to)
        except OSError:
            return False
    return True


def checksum(data):
    total = sum(struct.unpack(f">{len(data) // 2}H", data))
    while total >> 16:
        total = (total & 0xFFFF) + (total >> 16)
    return ~total & 0xFFFF


def forge(sender, source, server, target, payload=b""):
    """Sends a datagram from an address and a port that aren't ours."""
    udp = struct.pack(">HHHH", source, target, 8 + len(payload), 0) + payload
    head = struct.pack(">BBHHHBBH4s4s", 0x45, 0, 20 + len(udp), 0, 0, 64, socket.IPPROTO_UDP, 0, socket.inet_aton(sender), socket.inet_aton(server))
    head = head[:10] + struct.pack(">H", checksum(head)) + head[12:]
    with socket.socket(socket.AF_INET, socket.SOCK_RAW, socket.IPPROTO_RAW) as raw:
        raw.sendto(head + udp, (server, 0))
