#!/usr/bin/env python3
"""When the lines of the log go out: at once where nothing else comes, and together where datagrams wait.

The log is a socket that keeps apart what was written apart. It also checks that no line is lost or
cut, that the last ones go out where the office ends, and how it ends where they can't. It ends what it
started, and takes some seconds.
"""
import re
import signal
import socket
import sys
import time

from harness import check, free_ports, script, serving, start, stop, wait_until_ready

BURST = 200
# So many events are taken at most before the system is asked again, and a tick may come between.
TOGETHER = 33


def took(log, seconds):
    """The next write, or None where there is none in time."""
    log.settimeout(seconds)
    try:
        return log.recv(65_536).decode()
    except socket.timeout:
        return None


def all_taken(log, seconds):
    while (text := took(log, seconds)) is not None and text:
        yield text


def numbers(texts):
    """The events' numbers, of lines that are whole and tell of an answer."""
    for line in "".join(texts).splitlines(keepends=True):
        found = re.fullmatch(r"(\d+) time sent\n", line)
        check(found is not None, f"a whole line: {line!r}")
        yield int(found[1]) if found else 0


def beside_nothing(client, clock, log):
    for _ in range(5):
        client.sendto(b"", ("127.0.0.1", clock))
        check(len(client.recv(64)) == 4, "an answer")
        text = took(log, 5)
        check(text is not None and text.count("\n") == 1, f"a line goes out at once: {text!r}")


def in_a_burst(program, client, clock, log):
    """Datagrams that came while the office didn't run wait, and are taken without a pause."""
    program.send_signal(signal.SIGSTOP)
    for _ in range(BURST):
        client.sendto(b"", ("127.0.0.1", clock))
    program.send_signal(signal.SIGCONT)
    answers = sum(len(client.recv(64)) == 4 for _ in range(BURST))
    writes = list(all_taken(log, 2))
    told = list(numbers(writes))
    check(answers == BURST and len(told) == BURST, f"{answers} answers, {len(told)} lines")
    check(told == sorted(set(told)), "lines in order")
    check(all(text.count("\n") <= TOGETHER and text.endswith("\n") for text in writes), "few lines, all whole")
    check(len(writes) <= BURST // 8, f"{len(writes)} writes of {BURST} lines")
    print(f"a burst: {BURST} lines in {len(writes)} writes")


def while_it_runs():
    ports = free_ports()
    log, end = socket.socketpair(socket.AF_UNIX, socket.SOCK_SEQPACKET)
    with log, serving(ports, end) as program:
        end.close()
        with socket.socket(socket.AF_INET, socket.SOCK_DGRAM) as client:
            client.settimeout(5)
            check(wait_until_ready(ports[1]), "the office answers")
            list(all_taken(log, 1))
            beside_nothing(client, ports[1], log)
            in_a_burst(program, client, ports[1], log)


def asked_to_its_end(output, turns):
    """The status of an office that takes so many events, and how many of them were answers."""
    ports = free_ports()
    program = start(ports, turns, output)
    answers = 0
    with socket.socket(socket.AF_INET, socket.SOCK_DGRAM) as client:
        client.settimeout(0.2)
        until = time.monotonic() + 20
        while program.poll() is None and time.monotonic() < until:
            client.sendto(b"", ("127.0.0.1", ports[1]))
            answers += is_answered(client)
        while is_answered(client):
            answers += 1
    if program.poll() is None:
        stop(program)
    return program.returncode, answers


def is_answered(client):
    """Whether an answer comes, perhaps a late one."""
    try:
        return len(client.recv(64)) == 4
    except OSError:
        return False


def at_its_end():
    log, end = socket.socketpair(socket.AF_UNIX, socket.SOCK_SEQPACKET)
    status, answers = asked_to_its_end(end, 10)
    end.close()
    told = list(numbers(all_taken(log, 0.3)))
    check((status, len(told)) == (0, answers), f"status {status}, {len(told)} lines of {answers} answers")
    log.close()
    with open("/dev/full", "wb") as full:
        status, answers = asked_to_its_end(full, 1000)
        check(status == 4 and answers <= TOGETHER + 1, f"a full disk: status {status} behind {answers} answers")
        # The first event is a tick, and the second too where a second has passed.
        for _ in range(10):
            status, answers = asked_to_its_end(full, 2)
            check(status == (4 if answers else 0), f"a last line that is lost: status {status} behind {answers} answers")
            if answers:
                break
        check(answers == 1, f"an answer before the end: {answers}")


def main():
    while_it_runs()
    at_its_end()


if __name__ == "__main__":
    sys.exit(script(main))
