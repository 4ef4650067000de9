#!/usr/bin/env python3
"""Starts officed on free loopback ports and speaks to it as clerks do, over connections that behave well and badly.

Requests come whole, in odd pieces and byte by byte; peers half-close, reset, read slowly, say nothing, and are nine at a time.
It checks the replies byte for byte and the form of the log's lines. The time of a thousand requests is printed and not judged.
It ends what it started, and takes under a minute.

That the office ends a connection whose peer doesn't end it 10 seconds behind its close takes longer:
    OFFICE_WAITS=1 python3 tests/acceptance/clerk_connections.py
"""
import json
import os
import socket
import statistics
import struct
import sys
import tempfile
import time

from harness import check, free_ports, numbers_of, script, serving, written
from harness.clerks import (ANN, DONE, ask, connect, is_open, read_to_end, reply, request,
                            wait_until_answering)
from harness.told import SECRET

WORDS = r"wait|closed|busy|link|200|400 head|404 no-path|405 no-method|413 too-long"


def reset(peer):
    peer.setsockopt(socket.SOL_SOCKET, socket.SO_LINGER, struct.pack("ii", 1, 0))
    peer.close()


def pieces(port):
    """One request in single bytes, one in two pieces, and what they put is read back."""
    text = request("PUT", "/subscribers/7", ANN)
    with connect(port) as peer:
        for byte in text:
            peer.sendall(bytes([byte]))
            time.sleep(0.001)
        check(read_to_end(peer) == DONE, "a request in single bytes is answered")
    for cut in (1, 30, len(text) - len(ANN) - 1, len(text) - 1):
        with connect(port) as peer:
            peer.sendall(text[:cut])
            time.sleep(0.05)
            peer.sendall(text[cut:])
            check(read_to_end(peer) == DONE, f"a request in two pieces, cut at {cut}, is answered")
    check(ask(port, request("GET", "/subscribers/7")) == reply(200, ANN), "what was put is read back")


def refusals(port):
    check(ask(port, request("GET", "/nowhere")) == reply(404, b'{"fault":"no-path"}'), "an unknown path is 404")
    check(ask(port, request("DELETE", "/site")) == reply(405, b'{"fault":"no-method"}'), "an unknown method is 405")
    check(ask(port, b"no head\r\n\r\n") == reply(400, b'{"fault":"head"}'), "no head is 400")


def early_answer(port):
    """The office answers at the head, while the peer still sends; the answer isn't lost by a reset."""
    head = b"PUT /subscribers/7 HTTP/1.1\r\nContent-Length: 2000000\r\n\r\n"
    with connect(port) as peer:
        peer.sendall(head)
        time.sleep(0.2)
        sent = b"x" * 100_000
        for _ in range(5):
            peer.sendall(sent)
        check(read_to_end(peer) == reply(413, b'{"fault":"too-long"}'), "a body that is too long is answered before it has come")


def half_closed(port):
    with connect(port) as peer:
        peer.sendall(request("PUT", "/subscribers/7", ANN))
        peer.shutdown(socket.SHUT_WR)
        check(read_to_end(peer) == DONE, "a peer that has ended its side is answered")
    with connect(port) as peer:
        peer.sendall(request("PUT", "/subscribers/7", ANN)[:-1])
        peer.shutdown(socket.SHUT_WR)
        check(read_to_end(peer) == b"", "half a request is ended without an answer")


def resets(port):
    for count in (0, 1, 40, None):
        peer = connect(port)
        peer.sendall(request("GET", "/subscribers/7")[:count])
        time.sleep(0.3)
        reset(peer)
    for _ in range(20):
        peer = connect(port)
        peer.sendall(request("GET", "/subscribers/7"))
        reset(peer)
    check(ask(port, request("GET", "/subscribers/7")) == reply(200, ANN), "a request behind resets is answered")


def nine_at_once(port):
    """Eight connections wait for their requests' ends; a ninth that isn't whole either is left unread, and one that is takes the place of the first."""
    text = request("PUT", "/subscribers/7", ANN)
    silent = [connect(port) for _ in range(10)]
    peers = [connect(port) for _ in range(8)]
    for peer in peers:
        peer.sendall(text[:20])
    time.sleep(0.3)
    with connect(port) as ninth:
        ninth.sendall(text[:-1])
        time.sleep(0.5)
        check(is_open(ninth) and all(is_open(peer) for peer in peers), "a ninth connection that isn't whole waits")
        ninth.sendall(text[-1:])
        check(read_to_end(ninth) == DONE, "once it is whole it's answered")
    check(read_to_end(peers[0]) in (b"", None), "the first of the eight has given way")
    for peer in peers[1:]:
        peer.sendall(text[20:])
        check(read_to_end(peer) == DONE, "each of the others is answered")
    check(all(is_open(peer) for peer in silent), "connections that said nothing stay open for some seconds")
    for peer in silent + peers:
        peer.close()


def beyond_the_table(port):
    """More connections than the office's link holds at a time: the one that has been silent longest makes room for the last."""
    silent = [connect(port) for _ in range(512)]
    time.sleep(0.5)
    check(all(is_open(peer) for peer in silent), "512 connections are held")
    began = time.perf_counter()
    check(ask(port, request("GET", "/subscribers/7")) == reply(200, ANN), "one more is answered")
    print(f"behind 512 silent connections: {(time.perf_counter() - began) * 1000:.1f} ms")
    check(not is_open(silent[0]) and all(is_open(peer) for peer in silent[1:]), "the longest silent one has made room")
    for peer in silent:
        peer.close()


FLOWS = ('[{"code":24,"parts":[{"code":1,"hex":"0001"},{"code":6,"hex":"07"},{"code":8,"hex":"00989680"}]},'
         '{"code":25,"parts":[{"code":1,"hex":"0002"},{"code":6,"hex":"07"},{"code":8,"hex":"05f5e100"}]}]')
ADDED = '[{"code":24,"parts":[{"code":1,"hex":"0005"},{"code":6,"hex":"07"}]},{"code":22,"parts":[{"code":1,"hex":"03"},{"code":3,"hex":"0005"}]}]'
# Each row's path, the body that puts it, and what is shown of it: keys ascend, a hub's secret isn't shown, and a pool's hub is where none was named.
OFFICE = [
    ("/site", '{"server":"10.0.0.2","secret":"%s","offset":3600,"lease":86400,"log":"0.0.0.0"}' % SECRET.hex(),
     '{"lease":86400,"log":"0.0.0.0","offset":3600,"server":"10.0.0.2"}'),
    ("/hubs/1", '{"server":"10.0.0.3","secret":"%s","offset":0,"lease":60,"log":"10.0.0.9"}' % SECRET.hex(),
     '{"lease":60,"log":"10.0.0.9","offset":0,"server":"10.0.0.3"}'),
    ("/classes/1", '{"name":"gold","settings":%s}' % FLOWS, '{"name":"gold","settings":%s}' % FLOWS),
    ("/subscribers/7", '{"active":true,"cpes":2,"name":"Ann"}', '{"active":true,"cpes":2,"name":"Ann"}'),
    ("/subscribers/7/addons/0", '{"settings":%s}' % ADDED, '{"settings":%s}' % ADDED),
    ("/modems/02:AA:bb:cc:dd:ee", '{"subscriber":7,"class":1,"serial":"SN01"}', '{"class":1,"serial":"SN01","subscriber":7}'),
    ("/pools/1", '{"first":"10.64.0.10","last":"10.64.0.99","prefix":24,"router":"10.64.0.1","relay":"10.64.0.1"}',
     '{"first":"10.64.0.10","hub":0,"last":"10.64.0.99","prefix":24,"relay":"10.64.0.1","router":"10.64.0.1"}'),
    ("/pools/2", '{"first":"10.65.0.10","last":"10.65.0.99","prefix":24,"router":"10.65.0.1","relay":"10.65.0.1","hub":1}',
     '{"first":"10.65.0.10","hub":1,"last":"10.65.0.99","prefix":24,"relay":"10.65.0.1","router":"10.65.0.1"}'),
]


def whole_office(port):
    """Puts an office, each request in pieces of other lengths, and reads it back."""
    for cut, (path, body, _) in enumerate(OFFICE, start=1):
        whole = request("PUT", path, body.encode())
        with connect(port) as peer:
            for at in range(0, len(whole), 17 * cut):
                peer.sendall(whole[at:at + 17 * cut])
                time.sleep(0.002)
            check(read_to_end(peer) == DONE, f"{path} is put in pieces of {17 * cut} bytes")
    for path, _, shown in OFFICE:
        check(ask(port, request("GET", path)) == reply(200, shown.encode()), f"{path} is read back")


def long_class():
    """A class whose settings are 2,048 bytes in a file, most of them leaves of no bytes."""
    def flow(code, reference):
        return {"code": code, "parts": [{"code": 1, "hex": f"{reference:04x}"}, {"code": 6, "hex": "07"}]}

    def vendor(leaves, last):
        parts = [{"code": 8, "hex": "00100b"}] + [{"code": 255, "hex": ""}] * leaves
        return {"code": 43, "parts": parts + [{"code": 1, "hex": "5a" * last}]}

    # 9 + 9 bytes of flows; a vendor's group has 2 + 5 + 2 n + 2 + last bytes, and 256 at most
    settings = [flow(24, 1), flow(25, 2)] + [vendor(123, 0) for _ in range(7)] + [vendor(118, 0)]
    spelled = 18 + 7 * (9 + 246) + 9 + 236
    assert spelled == 2048, spelled
    return json.dumps({"name": "\x01" * 64, "settings": settings}, separators=(",", ":")).encode()


def slow_reader(port):
    """A peer that takes a long answer bit by bit doesn't hold up the others."""
    body = long_class()
    check(ask(port, request("PUT", "/classes/3", body)) == DONE, "a long class is put")
    with connect(port, room=1024) as slow:
        slow.sendall(request("GET", "/classes/3"))
        delays = []
        for _ in range(20):
            began = time.perf_counter()
            check(ask(port, request("GET", "/subscribers/7")) == reply(200, ANN), "others are answered meanwhile")
            delays.append(time.perf_counter() - began)
            time.sleep(0.05)
        check(max(delays) < 0.9, "others aren't held up")
        got = slow.recv(1000)
        time.sleep(0.5)
        rest = read_to_end(slow)
        check(rest is not None and got + rest == reply(200, body), "the slow peer has its whole answer")
    check(ask(port, request("GET", "/classes/3")) == reply(200, body), "the long class is read back")
    print(f"the longest answer tried has {len(reply(200, body))} bytes")


def idle(port):
    with connect(port) as peer:
        text = request("PUT", "/subscribers/7", ANN)
        peer.sendall(text[:10])
        time.sleep(2)
        check(is_open(peer), "an idle connection is open after 2 seconds")
        peer.sendall(text[10:])
        check(read_to_end(peer) == DONE, "and then has its answer")


def many(port):
    delays = []
    began = time.perf_counter()
    for number in range(1000):
        before = time.perf_counter()
        check(ask(port, request("PUT", f"/subscribers/{number + 100}", ANN)) == DONE, f"request {number} of a thousand is answered")
        delays.append(time.perf_counter() - before)
    passed = time.perf_counter() - began
    print(f"1000 PUTs: {passed:.2f} s; one: median {statistics.median(delays) * 1000:.2f} ms, greatest {max(delays) * 1000:.2f} ms")
    check(ask(port, request("GET", "/subscribers/1099")) == reply(200, ANN), "the last of a thousand is read back")


def long_waits(port):
    """What takes longer. See the head of this file."""
    lingering = connect(port)
    lingering.sendall(request("GET", "/subscribers/7"))
    check(lingering.recv(65536) == reply(200, ANN), "an answer comes")
    time.sleep(5)
    check(is_live(lingering), "5 seconds behind a close a peer may still send")
    time.sleep(8)
    lingering.sendall(b"x")
    time.sleep(0.2)
    check(not is_live(lingering), "13 seconds behind a close it may not")
    lingering.close()


def is_live(peer):
    """Whether the other side still takes what is sent."""
    try:
        peer.sendall(b"x")
        time.sleep(0.2)
        peer.sendall(b"x")
        return True
    except OSError:
        return False


def judge(lines):
    numbers = numbers_of(lines, rf"http (?:{WORDS})")
    words = [line.split(" ", 2)[2] for line in lines if line.count(" ") > 1]
    check(words.count("wait") >= 100, "each piece of a request has a line")
    check(words.count("busy") == 0, "no connection is turned away")
    check(words.count("closed") >= 3, "connections that end in a request have lines")
    check(words.count("200") >= 1000, "each answer has a line")
    check("link" not in words or words.count("link") <= 20, "only answers to reset peers may be lost")
    print(f"{len(lines)} lines, the last number {numbers[-1] if numbers else 0}")


def try_all(port):
    for part in (whole_office, pieces, refusals, early_answer, half_closed, resets, nine_at_once, beyond_the_table, slow_reader, idle, many):
        part(port)
    if os.environ.get("OFFICE_WAITS"):
        long_waits(port)


def main():
    ports = free_ports()
    port = ports[3]
    with tempfile.TemporaryFile() as log:
        with serving(ports, log) as program:
            check(wait_until_answering(port), "the office answers clerks")
            try_all(port)
            check(program.poll() is None, "the program goes on")
        judge(written(log).decode().splitlines())


if __name__ == "__main__":
    sys.exit(script(main))
