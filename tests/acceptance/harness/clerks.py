"""Clerks, the connections that they make, and what they send and are answered."""
import contextlib
import json
import socket
import time
import typing

from harness import check

ANN = b'{"active":true,"cpes":2,"name":"Ann"}'
# A class's settings, of one flow upstream and one downstream.
GOLD = [{"code": code, "parts": [{"code": 1, "hex": reference}, {"code": 6, "hex": "07"}]} for code, reference in ((24, "0001"), (25, "0002"))]
PHRASES = {200: b"OK", 400: b"Bad Request", 404: b"Not Found", 405: b"Method Not Allowed", 413: b"Payload Too Large"}


def request(method, path, body=b""):
    return f"{method} {path} HTTP/1.1\r\nHost: office\r\nContent-Length: {len(body)}\r\n\r\n".encode() + body


def reply(status, body):
    head = b"HTTP/1.1 %d %s\r\nContent-Type: application/json\r\nContent-Length: %d\r\nConnection: close\r\n\r\n"
    return head % (status, PHRASES[status], len(body)) + body


DONE = reply(200, b'{"ok":true}')


# ---- connections

def connect(port, room=None, patience=5):
    """A connection; with `room` one that takes few bytes at a time."""
    peer = socket.socket(socket.AF_INET, socket.SOCK_STREAM)
    if room is not None:
        peer.setsockopt(socket.SOL_SOCKET, socket.SO_RCVBUF, room)
        peer.setsockopt(socket.IPPROTO_TCP, socket.TCP_MAXSEG, 536)
    peer.settimeout(patience)
    peer.connect(("127.0.0.1", port))
    peer.setsockopt(socket.IPPROTO_TCP, socket.TCP_NODELAY, 1)
    return peer


def read_to_end(peer):
    """All bytes up to the end of the connection, or None where it was reset or nothing came for as long as the connection's patience."""
    parts = []
    try:
        while True:
            part = peer.recv(65536)
            if not part:
                return b"".join(parts)
            parts.append(part)
    except OSError:
        return None


def ask(port, text, patience=5):
    with connect(port, patience=patience) as peer:
        peer.sendall(text)
        return read_to_end(peer)


def is_open(peer):
    """Whether the office hasn't ended a connection on which nothing was answered."""
    peer.setblocking(False)
    try:
        peer.recv(1)
        return False
    except BlockingIOError:
        return True
    except OSError:
        return False
    finally:
        peer.settimeout(5)


def is_heard(port, address="127.0.0.1", seconds=10, program=None):
    """Whether who connects there is heard within so many seconds, and while the program runs where one is given."""
    end = time.monotonic() + seconds
    while True:
        try:
            socket.create_connection((address, port), timeout=2).close()
            return True
        except OSError:
            if time.monotonic() >= end or program is not None and program.poll() is not None:
                return False
            time.sleep(0.02)


def wait_until_answering(port, seconds=20):
    """Waits until an office answers, so many seconds at most: whether it answers the first request as it should, to the byte."""
    end, answer = time.monotonic() + seconds, None
    while answer is None and time.monotonic() < end:
        time.sleep(0.02)
        with contextlib.suppress(OSError):
            answer = ask(port, request("GET", "/nowhere"))
    return answer == reply(404, b'{"fault":"no-path"}')


# ---- clerks

class Answer(typing.NamedTuple):
    """What a clerk is answered: the status, and the text behind the head. There is no status where no whole answer came."""

    status: typing.Optional[int] = None
    text: bytes = b""

    def row(self):
        """The text, which is JSON."""
        return json.loads(self.text) if self.text else {}


def answer_in(data):
    """What these bytes of a connection, or None, say."""
    head, end, text = (data or b"").partition(b"\r\n\r\n")
    return Answer(int(head.split(b" ")[1]), text) if end else Answer()


def spelled(row):
    """A row as a request's body; bytes are one, and of None there is none."""
    if row is None or isinstance(row, bytes):
        return row or b""
    return json.dumps(row, separators=(",", ":")).encode()


class Clerk:
    """A clerk at a port. Each request goes over a connection of its own, since the office ends one behind its answer."""

    def __init__(self, port, patience=5):
        self.port, self.patience = port, patience

    def ask(self, method, path, body=None):
        """The answer to a request, whose body is a row, or bytes."""
        try:
            return answer_in(ask(self.port, request(method, path, spelled(body)), self.patience))
        except OSError:
            return Answer()

    def must(self, method, path, body=None, status=200):
        """Ends the script where the answer has another status: for measurements, which are worth nothing then."""
        found = self.ask(method, path, body)
        if found.status != status:
            raise SystemExit(f"{method} {path}: {found}")

    def puts(self, path, body):
        found = self.ask("PUT", path, body)
        check(found.status == 200, f"PUT {path}: {found}")

    def furnishes(self, rows):
        """Puts rows, each a path and a body, in their order."""
        for path, body in rows:
            self.puts(path, body)

    def removes(self, path):
        found = self.ask("DELETE", path)
        check(found.status == 200, f"DELETE {path}: {found}")

    def row(self, path):
        """A row as it is shown; None where none is."""
        found = self.ask("GET", path)
        return found.row() if found.status == 200 else None

    def shows(self, path, row, what):
        """A row is shown as it was put, but for a hub's secret."""
        expected = {name: value for name, value in row.items() if name != "secret"}
        shown = self.row(path)
        check(shown == expected, f"{what}: {path} is {shown}, and not {expected}")
