#!/usr/bin/env python3
"""Clerks among crowds: more of them than the office takes at a time, and peers that say nothing, or a byte now and then.

Eight peers, 64 and 2,000 that send a head and no body, 4,000 bytes and never the last, or two bytes a second: a clerk is answered within a second. So it is beside
peers that drip, once those before it are accepted. A peer that has sent nothing for 5 seconds is closed, and one whose request isn't whole after 30. `ab` sends PUTs of 9,597 bytes over 64 connections, and none fails. Of 65, 100, 200 and 500 clerks at once,
and of 100 beside 2,000 silent peers, no request is lost. The times are printed. It ends what it started, and takes about two minutes, most of them waiting.
"""
import re
import resource
import select
import shutil
import socket
import subprocess
import sys
import tempfile
import threading
import time

from harness import check, free_ports, script, start, stop
from harness.clerks import (ANN, DONE, connect, is_open, read_to_end, request,
                            wait_until_answering)

SILENT = 2000
DRIPPING = 64


class Crowd(threading.Thread):
    """Keeps so many connections that say nothing, and so many that send a byte of a request now and then; what is closed is opened again."""

    def __init__(self, port, silent, dripping, pause):
        super().__init__(daemon=True)
        self.address = ("127.0.0.1", port)
        self.pause = pause
        self.over = False
        self.opened = 0
        self.silent = [self.open() for _ in range(silent)]
        self.dripping = [self.open(b"P") for _ in range(dripping)]

    def open(self, first=b""):
        peer = socket.socket()
        peer.setblocking(False)
        try:
            peer.connect(self.address)
        except BlockingIOError:
            pass
        ready = select.poll()
        ready.register(peer, select.POLLOUT)
        ready.poll(1000)
        try:
            peer.send(first)
        except OSError:
            pass
        self.opened += 1
        return peer

    def run(self):
        while not self.over:
            for place, peer in enumerate(self.dripping):
                try:
                    peer.send(b"U")
                except OSError:
                    peer.close()
                    self.dripping[place] = self.open(b"P")
            time.sleep(self.pause)

    def end(self):
        self.over = True
        self.join()
        for peer in self.silent + self.dripping:
            peer.close()


class Queue(threading.Thread):
    """Measures how long connections wait to be accepted, on a busy machine some seconds: a clerk's stands behind those that came before it."""

    def __init__(self, port):
        super().__init__(daemon=True)
        self.port, self.began, self.seconds = port, time.perf_counter(), 0.0
        self.start()

    def run(self):
        while self.length() and self.seconds < 60:
            time.sleep(0.02)
            self.seconds = time.perf_counter() - self.began

    def length(self):
        """How many connections the listener's queue has: the fifth field of /proc/net/tcp, behind the colon, where a port listens (0A)."""
        with open("/proc/net/tcp") as file:
            fields = (line.split() for line in file)
            return sum(int(each[4].split(":")[1], 16) for each in fields if each[1].endswith(f":{self.port:04X}") and each[3] == "0A")


def delay(port, patience):
    """How many seconds a clerk waits for its answer. Where the listener's queue is full, its connection is made at a second try or a later one (TCP)."""
    with connect(port, patience=patience) as peer:
        began = time.perf_counter()
        peer.sendall(request("PUT", "/subscribers/7", ANN))
        answered = read_to_end(peer) == DONE
    passed = time.perf_counter() - began
    return passed if answered else None


def patience(port):
    """Who has 5 seconds, and who 30. Tried at once with the crowds of `drips`, at an office of its own."""
    began = time.perf_counter()
    silent, dripping = connect(port), connect(port)
    dripping.sendall(b"P")
    ends = {}
    while len(ends) < 2 and time.perf_counter() - began < 40:
        if "silent" not in ends and not is_open(silent):
            ends["silent"] = time.perf_counter() - began
        if "dripping" not in ends and not is_open(dripping):
            ends["dripping"] = time.perf_counter() - began
        try:
            dripping.sendall(b"U")
        except OSError:
            pass
        time.sleep(0.1)
    print("closed after: " + ", ".join(f"{name} {seconds:.1f} s" for name, seconds in ends.items()))
    check(4.9 < ends.get("silent", 99) < 7, "a peer that sends nothing has 5 seconds")
    check(29.9 < ends.get("dripping", 99) < 32, "a request has 30 seconds to be whole")


def drips(port, name, silent, dripping, pause):
    crowd = Crowd(port, silent, dripping, pause)
    crowd.start()
    time.sleep(0.5)
    queue = Queue(port)
    passed = delay(port, 120)
    queued = queue.seconds
    check(passed is not None and passed - queued < 1, f"{name}: a clerk is answered within a second after {queued} s of a queue, not {passed}")
    print(f"{name}: a clerk was answered after {passed if passed is None else round(passed, 2)} s, {queued:.2f} s of them in a queue")
    crowd.end()


# What a slow peer sends at once, of a request that it never ends, and what it sends every half second.
BODY = b"PUT /subscribers/7 HTTP/1.1\r\nHost: office\r\nContent-Length: "
SLOW = {"a head and no body": (BODY + b"37\r\n\r\n", b""), "4,000 bytes and never the last": (BODY + b"4000\r\n\r\n" + b"x" * 3999, b""),
        "two bytes a second": (b"P", b"U")}


class Slow(Crowd):
    """Peers whose requests never become whole, and that connect again when they are closed."""

    def __init__(self, port, count, first, more):
        self.first, self.more = first, more
        super().__init__(port, 0, 0, 0.5)
        self.dripping = [self.open(first) for _ in range(count)]

    def run(self):
        while not self.over:
            for place, peer in enumerate(self.dripping):
                try:
                    if self.more:
                        peer.send(self.more)
                    elif not peer.recv(1):
                        raise ConnectionError
                except BlockingIOError:
                    pass
                except OSError:
                    peer.close()
                    self.dripping[place] = self.open(self.first)
            time.sleep(self.pause)


def slow_ones(port):
    """A clerk beside each crowd of slow peers, three times: the eight places are taken anew each time."""
    for name, (first, more) in SLOW.items():
        for count in (8, 64, SILENT):
            crowd = Slow(port, count, first, more)
            crowd.start()
            time.sleep(1)
            waits = [delay(port, 70) for _ in range(3)]
            check(None not in waits and max(waits) < 1, f"{count} peers, {name}: a clerk is answered within a second, not after {waits}")
            print(f"{count} peers, {name}: a clerk was answered after " + ", ".join("70 s and more" if each is None else f"{each:.2f} s" for each in waits))
            crowd.end()


def offices(tries):
    """Each try at an office of its own, all at once."""
    programs, threads = [], []
    with tempfile.TemporaryFile() as log:
        try:
            for each in tries:
                ports = free_ports()
                programs.append(start(ports, 10**9, log))
                check(wait_until_answering(ports[3]), "the office answers clerks")
                threads.append(threading.Thread(target=each, args=(ports[3],)))
            for thread in threads:
                thread.start()
            for thread in threads:
                thread.join()
            check(all(program.poll() is None for program in programs), "the offices go on")
        finally:
            for program in programs:
                stop(program)


def silent_ones(port):
    """64 silent peers, then 192, then another clerk."""
    for count in (64, 192):
        crowd = Crowd(port, count, 0, 1)
        crowd.start()
        queue = Queue(port)
        passed = delay(port, 60)
        check(passed is not None and passed - queue.seconds < 2, f"{count} silent peers: a clerk is answered within 2 seconds behind a queue, not {passed}")
        print(f"{count} silent peers: a clerk was answered after {passed if passed is None else round(passed, 3)} s")
        crowd.end()


def at_once(port, count, each):
    """So many clerks at once, each with so many requests: none is lost. How long the slowest waited."""
    waits, lost = [], []

    def clerk():
        for _ in range(each):
            try:
                waits.append(delay(port, 60))
            except OSError as error:
                lost.append(error)

    clerks = [threading.Thread(target=clerk) for _ in range(count)]
    for one in clerks:
        one.start()
    for one in clerks:
        one.join()
    lost += [wait for wait in waits if wait is None]
    check(not lost and len(waits) == count * each, f"{count} clerks at once: none of {count * each} requests is lost, not {len(lost)}: {lost[:3]}")
    return max((wait for wait in waits if wait is not None), default=0.0)


def more_than_are_held(port):
    """More clerks at once than the link holds connections: the others wait in the listener's queue. Then the same beside peers that say nothing."""
    for count in (65, 100, 200, 500):
        print(f"{count} clerks at once: the slowest of {4 * count} requests took {at_once(port, count, 4):.2f} s")
    crowd = Crowd(port, SILENT, 0, 1)
    crowd.start()
    print(f"100 clerks beside {SILENT} silent peers: the slowest took {at_once(port, 100, 2):.2f} s")
    crowd.end()


def longer_bodies(port):
    """`ab` with bodies that come in three pieces, over as many connections as the link holds."""
    if not shutil.which("ab"):
        print("ab: skipped, since this machine has no `ab` (apache2-utils)")
        return
    head, tail = b'{"active":true,"cpes":2,"name":"Ann","note":"', b'"}'
    body = head + b"x" * (9597 - len(head) - len(tail)) + tail
    with tempfile.NamedTemporaryFile() as file:
        file.write(body)
        file.flush()
        words = ["ab", "-q", "-c", "64", "-n", "3000", "-u", file.name, f"http://127.0.0.1:{port}/subscribers/7"]
        done = subprocess.run(words, stdout=subprocess.PIPE, stderr=subprocess.STDOUT, timeout=60)
    text = done.stdout.decode()
    found = {name: re.search(rf"^{name}:\s+([0-9.]+)", text, re.M) for name in ("Complete requests", "Failed requests", "Requests per second", "Non-2xx responses")}
    numbers = {name: float(match.group(1)) for name, match in found.items() if match}
    check(numbers.get("Complete requests") == 3000 and numbers.get("Failed requests") == 0 and "Non-2xx responses" not in numbers, f"ab: {numbers}\n{text[-300:]}")
    print(f"ab -c 64, bodies of 9,597 bytes: {numbers}")
    check(delay(port, 5) is not None, "a clerk behind them is answered")


def main():
    most = resource.getrlimit(resource.RLIMIT_NOFILE)[1]
    resource.setrlimit(resource.RLIMIT_NOFILE, (min(most, 16384), most))
    offices([longer_bodies])
    offices([silent_ones])
    offices([slow_ones])
    offices([more_than_are_held])
    offices([
        patience,
        lambda port: drips(port, "8 dripping", 0, 8, 1),
        lambda port: drips(port, f"{DRIPPING} dripping", 0, DRIPPING, 1),
        lambda port: drips(port, f"{SILENT} silent and {DRIPPING} dripping", SILENT, DRIPPING, 0.5),
        lambda port: drips(port, f"{SILENT} silent and {DRIPPING} dripping slowly", SILENT, DRIPPING, 20),
    ])


if __name__ == "__main__":
    sys.exit(script(main))
