#!/usr/bin/env python3
"""officed where the system gives it too little: descriptors, memory, a reader of its log, time to read a burst.

With 40 descriptors it goes on under 200 connections, and where growths of memory are refused it drops what they were for and goes on,
also under eight bodies of 1 MiB at once.
A log that nobody reads ends it with status 4 after 30 seconds. Of a burst of 1,000 datagrams that come while it doesn't run it answers
as many as its receive buffer holds. The figures are printed. It ends what it started, and takes about 45 seconds, most of them waiting.
"""
import contextlib
import os
import resource
import signal
import socket
import subprocess
import sys
import tempfile
import threading
import time

from harness import check, free_ports, script, serving, start, stop, wait_until_ready
from harness.clerks import ANN, Clerk, answer_in, connect, read_to_end, request, wait_until_answering
from harness.machine import memory_of


def few_descriptors():
    ports = free_ports()
    with tempfile.TemporaryFile() as log, serving(ports, log, limits=lambda: resource.setrlimit(resource.RLIMIT_NOFILE, (40, 40))) as program:
        check(wait_until_answering(ports[3]), "the office answers clerks")
        crowd = [connect(ports[3]) for _ in range(200)]
        check(wait_until_ready(ports[1]), "with no descriptor left the time is answered")
        began = time.perf_counter()
        check(Clerk(ports[3]).ask("PUT", "/subscribers/7", ANN).status == 200, "with no descriptor left a clerk is answered")
        print(f"40 descriptors and 200 connections: a clerk was answered after {time.perf_counter() - began:.3f} s")
        check(program.poll() is None, "with no descriptor left the office goes on")
        for peer in crowd:
            peer.close()


def limit_memory(pid, most):
    resource.prlimit(pid, resource.RLIMIT_DATA, (most, resource.RLIM_INFINITY))


def size(pid):
    """How many bytes of memory the program may write to, shared ones left out: what RLIMIT_DATA counts."""
    return memory_of(pid, "VmData")


def refused_memory():
    """What the program has is all that it may have: tables that grow, connections and datagrams are refused by turns."""
    ports = free_ports()
    clerk = Clerk(ports[3], patience=1)
    with tempfile.TemporaryFile() as log, serving(ports, log) as program:
        check(wait_until_answering(ports[3]), "the office answers clerks")
        limit_memory(program.pid, size(program.pid) + (1 << 20))
        answers, time_sent = [], 0
        with socket.socket(socket.AF_INET, socket.SOCK_DGRAM) as client:
            client.settimeout(0.2)
            for number in range(100_000):
                answers.append(clerk.ask("PUT", f"/subscribers/{number}", ANN).status)
                client.sendto(b"x" * 1400, ("127.0.0.1", ports[1]))
                try:
                    time_sent += len(client.recv(64)) == 4
                except OSError:
                    pass
                if number >= 5 and answers[-5:].count(200) == 0:
                    break
        refused = [answer for answer in answers if answer != 200]
        check(program.poll() is None, "the office goes on where memory is refused")
        check(len(refused) >= 5, "memory was refused")
        limit_memory(program.pid, resource.RLIM_INFINITY)
        time.sleep(0.2)
        check(Clerk(ports[3]).ask("PUT", "/subscribers/99999", ANN).status == 200, "with memory again a clerk is answered")
        check(wait_until_ready(ports[1]), "with memory again the time is answered")
        words = {str(answer): answers.count(answer) for answer in set(answers)}
        print(f"memory refused: {len(answers)} PUTs, {words}; {time_sent} of as many questions for the time were answered")


def eight_bodies():
    """Eight requests of 1 MiB each at once, where memory is left for two of them: some are refused, and its line says so; with memory again all are done."""
    ports = free_ports()
    body = ANN + b" " * ((1 << 20) - len(ANN))

    def try_all():
        answers, together = [None] * 8, threading.Barrier(8, timeout=60)

        def one(place):
            data = request("PUT", f"/subscribers/{place}", body)
            with contextlib.suppress(OSError), connect(ports[3], patience=200) as peer:
                # The last byte waits until the office has been given the others of all eight.
                try:
                    peer.sendall(data[:-1])
                finally:
                    together.wait()
                peer.sendall(data[-1:])
                answers[place] = answer_in(read_to_end(peer)).status
        threads = [threading.Thread(target=one, args=(place,)) for place in range(8)]
        for each in threads:
            each.start()
        for each in threads:
            each.join()
        return answers

    with tempfile.TemporaryFile() as log, serving(ports, log) as program:
        check(wait_until_answering(ports[3]), "the office answers clerks")
        limit_memory(program.pid, size(program.pid) + (5 << 20))
        little = try_all()
        check(program.poll() is None, "eight large bodies don't end the office")
        check(any(answer != 200 for answer in little), f"memory was refused to some of eight bodies of 1 MiB: {little}")
        limit_memory(program.pid, resource.RLIM_INFINITY)
        check(try_all() == [200] * 8, "with memory again all eight are done")
        lines = [line.split(b" ", 1)[1] for line in os.pread(log.fileno(), 1 << 24, 0).splitlines()]
        check(503 not in little or b"http memory" in lines, "who is told 503 has the line `memory`")
        print(f"eight bodies of 1 MiB where 5 MiB are left: {little}, {lines.count(b'http memory')} lines say memory")


def unread_log():
    """A pipe that nobody reads is full after some thousand lines."""
    ports = free_ports()
    unread, end = os.pipe()
    program = start(ports, 10**9, end)
    os.close(end)
    try:
        check(wait_until_ready(ports[1]), "the office answers")
        count = 0
        with socket.socket(socket.AF_INET, socket.SOCK_DGRAM) as client:
            client.settimeout(1)
            client.connect(("127.0.0.1", ports[1]))
            for count in range(20_000):
                try:
                    client.send(b"")
                    client.recv(64)
                except OSError:
                    break
        began = time.perf_counter()
        try:
            status = program.wait(timeout=40)
        except subprocess.TimeoutExpired:
            status = None
        check(status == 4, f"a log that nobody reads ends the office with status 4, not {status}")
        print(f"an unread pipe: {count} answers, then status {status} after {time.perf_counter() - began + 1:.0f} s")
    finally:
        if program.poll() is None:
            stop(program)
        os.close(unread)


def burst():
    ports = free_ports()
    with tempfile.TemporaryFile() as log, serving(ports, log) as program:
        check(wait_until_ready(ports[1]), "the office answers")
        with socket.socket(socket.AF_INET, socket.SOCK_DGRAM) as client:
            client.setsockopt(socket.SOL_SOCKET, socket.SO_RCVBUF, 1 << 22)
            client.settimeout(1)
            program.send_signal(signal.SIGSTOP)
            for _ in range(1000):
                client.sendto(b"x" * 300, ("127.0.0.1", ports[1]))
            program.send_signal(signal.SIGCONT)
            answered = 0
            try:
                while True:
                    client.recv(64)
                    answered += 1
            except socket.timeout:
                pass
        with open("/proc/sys/net/core/rmem_max") as file:
            most = int(file.read())
        # the kernel doubles what it gives, and counts less than 1,400 bytes for a datagram of 300
        check(answered >= min(1000, 2 * most // 1400), f"a burst is kept as far as rmem_max allows: {answered}")
        print(f"a burst of 1,000 datagrams of 300 bytes: {answered} answered, where net.core.rmem_max is {most}")


def main():
    waiting = threading.Thread(target=unread_log)
    waiting.start()
    few_descriptors()
    refused_memory()
    eight_bodies()
    burst()
    waiting.join()


if __name__ == "__main__":
    sys.exit(script(main))
