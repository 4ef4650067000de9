#!/usr/bin/env python3
"""Where officed listens, and whom it doesn't answer.

Clerks are heard on 127.0.0.1 alone, or on the address of OFFICED_HTTP; UDP on all addresses, or on that of OFFICED_UDP, from which
its answers leave; a text that is no address is status 10. Then, in a network of its own, forged datagrams: two offices on time ports
3737 and 3738, and one with itself, answer each other no more than once, and neither answers its own or a well-known port.
It ends what it started, and takes some seconds.
"""
import socket
import subprocess
import sys
import tempfile
import time

from harness import (alone, check, free_ports, may_be_alone, said, script, serve, serving,
                     wait_until_ready, written)
from harness.clerks import is_heard
from harness.network import forge, loopback


def answers_from(server, port, patience=5):
    """The address from which a question to `server` is answered, or None."""
    with socket.socket(socket.AF_INET, socket.SOCK_DGRAM) as client:
        client.bind(("127.0.0.1", 0))
        client.settimeout(patience)
        client.sendto(b"", (server, port))
        try:
            return client.recvfrom(64)[1][0]
        except OSError:
            return None


def listens(addresses, heard, deaf, answered, unanswered):
    """Starts an office with these variables, and tries addresses of clerks that are to be heard or not, and servers that are to answer or not."""
    ports = free_ports()
    with tempfile.TemporaryFile() as log, serving(ports, log, addresses=addresses):
        wait_until_ready(ports[1], answered[0])
        for address in heard:
            check(is_heard(ports[3], address, seconds=0), f"{addresses}: a clerk is heard at {address}")
        for address in deaf:
            check(not is_heard(ports[3], address, seconds=0), f"{addresses}: no clerk is heard at {address}")
        for server in answered:
            check(answers_from(server, ports[1]) is not None, f"{addresses}: {server} answers")
        for server in unanswered:
            check(answers_from(server, ports[1], 0.5) is None, f"{addresses}: {server} doesn't answer")
        if "OFFICED_UDP" in addresses:
            check(answers_from(answered[0], ports[1]) == answered[0], "an answer leaves from the address that was asked")


def addresses():
    listens({}, ["127.0.0.1"], ["127.0.0.2"], ["127.0.0.1", "127.0.0.2"], [])
    listens({"OFFICED_HTTP": "127.0.0.3"}, ["127.0.0.3"], ["127.0.0.1"], ["127.0.0.1"], [])
    listens({"OFFICED_HTTP": "0.0.0.0"}, ["127.0.0.1", "127.0.0.4"], [], ["127.0.0.1"], [])
    listens({"OFFICED_UDP": "127.0.0.5"}, ["127.0.0.1"], [], ["127.0.0.5"], ["127.0.0.1"])
    words = serve()
    for name in ("OFFICED_HTTP", "OFFICED_UDP"):
        for value in (b"localhost", b"", b"127.0.0.1:80", b"127.0.1", b"0127.0.0.1", b"127.0.0.256", b"::1", b"\xff"):
            done = subprocess.run(words, env={name.encode(): value}, stdout=subprocess.PIPE, timeout=30)
            check((done.returncode, done.stdout) == (10, b""), f"{name}={value!r}: status 10")
        done = subprocess.run(words, env={name: "127.0.0.1"}, stdout=subprocess.PIPE, timeout=30)
        check(done.returncode == 0, f"{name}=127.0.0.1: status 0")


def forged(source, target, payload=b""):
    """Sends a datagram from a port that isn't ours."""
    forge("127.0.0.1", source, "127.0.0.1", target, payload)


def lines_of(log, service):
    return len(said(log, service))


def settles(*logs):
    """Waits until a second has passed in which the logs got no line, ten seconds at most."""
    before = None
    for _ in range(10):
        now = [written(log) for log in logs]
        if now == before:
            return
        before = now
        time.sleep(1)


FIRST = [6767, 3737, 6969, 8080]
SECOND = [6768, 3738, 6970, 8081]


def loops():
    """Runs in a network of its own, where nobody has these ports and datagrams may be forged."""
    loopback()
    with tempfile.TemporaryFile() as log, tempfile.TemporaryFile() as other_log:
        with serving(FIRST, log), serving(SECOND, other_log):
            for port in (3737, 3738):
                check(wait_until_ready(port), "the offices answer")
            settles(log, other_log)
            before = lines_of(log, "time"), lines_of(other_log, "time")
            forged(3738, 3737)
            time.sleep(0.5)
            settles(log, other_log)
            after = lines_of(log, "time"), lines_of(other_log, "time")
            print(f"two offices, one forged datagram: {after[0] - before[0]} and {after[1] - before[1]} lines")
            check(after[0] - before[0] + after[1] - before[1] <= 2, "two offices answer each other no more than once")
            forged(3737, 3737)
            for source in (0, 7, 11, 13, 17, 19, 37, 67, 68, 69, 6767, 6969):
                forged(source, 3737)
            time.sleep(0.7)
            check(lines_of(log, "time") == after[0], "an office answers neither itself nor a well-known port")
            print(f"one office with itself, and with ports that answer: {lines_of(log, 'time') - after[0]} lines")
            for source in (0, 7, 11, 13, 17, 19, 37, 3737, 6767):
                forged(source, 6969, b"\x00\x01name\x00octet\x00")
            time.sleep(0.7)
            check(lines_of(log, "tftp") == 0, "TFTP takes nothing from a port that answers")
            forged(50000, 6969, b"\x00\x01name\x00octet\x00")
            time.sleep(0.5)
            settles(log)
            check(lines_of(log, "tftp") == 1, "TFTP takes a client's datagram")
            forged(3738, 6969, b"\x00\x01name\x00octet\x00")
            time.sleep(0.5)
            settles(log, other_log)
            more = lines_of(log, "tftp") - 1, lines_of(other_log, "time") - after[1]
            print(f"one's TFTP port and the other's time port, one forged datagram: {more[0]} and {more[1]} lines")
            check(more[0] <= 2, "the one's TFTP port and the other's time port don't answer each other")
            with socket.socket(socket.AF_INET, socket.SOCK_DGRAM) as client:
                client.settimeout(5)
                for payload in (b"", b"time", b"\x00\x00\x00\x00", b"\xff" * 4):
                    client.sendto(payload, ("127.0.0.1", 3737))
                    check(len(client.recv(64)) == 4, f"a client that sends {payload!r} is answered")


def main():
    addresses()
    if may_be_alone():
        alone(loops, 60, "no loop")
    else:
        print("loops: skipped, since `unshare -rn` gives no network of its own here")


if __name__ == "__main__":
    sys.exit(script(main, loops))
