#!/usr/bin/env python3
"""Starts officed on free loopback ports and asks it for the time, as a modem would (RFC 868 over UDP).

It checks the four bytes against the clock, the lines of the log, and the statuses 1, 10 and 11. The
figures for an idle program and for an answer's delay are printed and not judged. It ends what it
started, and takes under a minute.
"""
import os
import socket
import statistics
import struct
import subprocess
import sys
import tempfile
import time

from harness import (BUILT, PROGRAM, ROOT, SECONDS_BEFORE_1970, check, free_ports, numbers_of,
                     script, serve, serving, wait_until_ready, written)
from harness import clerks
from harness.machine import processor_seconds


def ask(client, port, payload=b""):
    """The delay of an answer, or None where none came within the client's patience."""
    before = time.time()
    began = time.perf_counter()
    client.sendto(payload, ("127.0.0.1", port))
    try:
        answer, _ = client.recvfrom(2048)
    except socket.timeout:
        return None
    delay = time.perf_counter() - began
    after = time.time()
    check(len(answer) == 4, "an answer has four bytes")
    told = struct.unpack(">I", answer[:4])[0]
    low = (int(before) + SECONDS_BEFORE_1970) % 2**32
    high = (int(after) + SECONDS_BEFORE_1970) % 2**32
    check(low <= told <= high, f"the time {told} lies between {low} and {high}")
    return delay


def status_of(words):
    done = subprocess.run(words, stdout=subprocess.PIPE, stderr=subprocess.DEVNULL, timeout=60)
    return done.returncode, done.stdout


def serve_and_ask():
    ports = free_ports()
    dhcp, clock, tftp, http = ports
    with tempfile.TemporaryFile() as log:
        with serving(ports, log) as program:
            clients = []
            for _ in range(5):
                client = socket.socket(socket.AF_INET, socket.SOCK_DGRAM)
                client.bind(("127.0.0.1", 0))
                client.settimeout(5.0)
                clients.append(client)
            check(wait_until_ready(clock), "the program answers within some seconds")
            for round_ in range(60):
                for client in clients:
                    payload = b"" if round_ % 2 == 0 else b"\x2a" * 1400
                    check(ask(client, clock, payload) is not None, "each question has an answer")
            # A datagram that is no DHCP message, a read request of who has no lease, and a clerk.
            clients[0].sendto(b"", ("127.0.0.1", dhcp))
            clients[0].sendto(b"\x00\x01name\x00octet\x00", ("127.0.0.1", tftp))
            check(clients[0].recv(2048) == b"\x00\x05\x00\x02no lease\x00", "who has no lease is told so")
            clerks.ask(http, b"GET /site HTTP/1.1\r\n\r\n")
            # A question from a port that answers by itself is dropped (where this machine lets us have one).
            reflected = None
            try:
                reflector = socket.socket(socket.AF_INET, socket.SOCK_DGRAM)
                reflector.bind(("127.0.0.1", 37))
                reflector.settimeout(0.5)
                reflector.sendto(b"", ("127.0.0.1", clock))
                try:
                    reflector.recvfrom(64)
                    reflected = True
                except socket.timeout:
                    reflected = False
                reflector.close()
            except OSError:
                pass
            check(reflected is not True, "a datagram from the time port of another isn't answered")
            # Idle.
            before = processor_seconds(program.pid)
            time.sleep(5)
            idle = processor_seconds(program.pid) - before
            delays = [ask(clients[0], clock) for _ in range(200)]
            check(all(delay is not None for delay in delays), "answers come behind an idle time")
            delays = [delay for delay in delays if delay is not None]
            print(f"idle: {idle:.3f} s of processor in 5 s; delay: median {statistics.median(delays) * 1000:.2f} ms, "
                  f"greatest {max(delays) * 1000:.2f} ms; reflected: {'not tried' if reflected is None else reflected}")
            # A signal may take the lines of the last 32 events with it.
            time.sleep(1)
        return written(log).decode().splitlines()


def judge(lines):
    numbers = numbers_of(lines, "time sent|dhcp dhcp-short|tftp no-lease|http wait|http closed|http 404 no-row")
    words = [line.split(" ", 1)[1] for line in lines if " " in line]
    check(words.count("time sent") >= 500, "each answer has a line")
    check(words.count("dhcp dhcp-short") == 1, "the DHCP datagram has a line")
    check(words.count("tftp no-lease") == 1, "the TFTP datagram has a line")
    check(words.count("http 404 no-row") == 1, "the clerk's request has a line")
    print(f"{len(lines)} lines, the last number {numbers[-1] if numbers else 0}")


def statuses():
    check(status_of([PROGRAM, "serve"]) == (1, b"words refused\n"), "words that fit no form: status 1")
    ports = free_ports()
    check(status_of(serve("/nowhere/office.db", ports=ports)) == (11, b""), "a store in no folder: status 11")
    check(status_of(serve(ports=ports)) == (0, b""), "no turns: status 0")
    taken = socket.socket(socket.AF_INET, socket.SOCK_DGRAM)
    taken.bind(("0.0.0.0", ports[1]))
    check(status_of(serve(ports=ports)) == (10, b""), "a port that is taken: status 10")
    taken.close()
    if PROGRAM != BUILT:
        print("bin/officed: skipped, since it would build a program of its own")
        return
    with tempfile.TemporaryDirectory() as folder:
        link = os.path.join(folder, "officed")
        os.symlink(os.path.join(ROOT, "bin", "officed"), link)
        check(status_of([link, "serve"]) == (1, b"words refused\n"), "a symbolic link to bin/officed runs it")


def main():
    statuses()
    judge(serve_and_ask())


if __name__ == "__main__":
    sys.exit(script(main))
