#!/usr/bin/env python3
"""Times clerks' PUTs over loopback, with 100 and with 100,000 subscribers in the tables, with what of it is the processor's, and the memory that 100,000 modems take.

    python3 tests/bench/clerks.py [MANY]

MANY takes the place of 100,000. It prints figures and judges nothing. bin/officed has to be built (or OFFICE_PROGRAM).
"""
import json
import os
import sys
import tempfile
import time

HERE = os.path.dirname(os.path.abspath(__file__))
sys.path.insert(0, os.path.join(HERE, "..", "acceptance"))
from harness import free_ports, script, serving  # noqa: E402
from harness.clerks import ANN, GOLD, Clerk, wait_until_answering  # noqa: E402
from harness.machine import processor_times, resident  # noqa: E402


def subscribers(clerk, first, count):
    began = time.perf_counter()
    for number in range(first, first + count):
        clerk.must("PUT", f"/subscribers/{number}", ANN)
    return count / (time.perf_counter() - began)


def own_time(clerk, pid, put, rounds=20):
    """What 100 PUTs cost, so often: the microseconds of the processor that each takes of the program, its own and the system's."""
    before = processor_times(pid)
    for _ in range(rounds):
        put(clerk)
    own, system = (1e6 * (after - first) / (100 * rounds) for first, after in zip(before, processor_times(pid)))
    return f"{own:.0f} us of the program's own and {system:.0f} of the system's"


def hundred_subscribers(clerk):
    subscribers(clerk, 0, 100)


def hundred_modems(clerk):
    for number in range(100):
        clerk.must("PUT", f"/modems/02{number:010x}", b'{"subscriber":%d,"class":1,"serial":"SN%06d"}' % (number, number))


def flow(code, number):
    """A service flow of its number alone: nine bytes of a class."""
    return {"code": code, "parts": [{"code": 1, "hex": f"{number:04x}"}, {"code": 6, "hex": "07"}]}


# The most settings that a class of 2,048 bytes has: 15 kB of JSON.
LARGEST = json.dumps({"name": "x", "settings": [*(flow(24, number) for number in range(1, 227)), flow(25, 227)]}, separators=(",", ":")).encode()


def hundred_classes(clerk):
    for _ in range(100):
        clerk.must("PUT", "/classes/2", LARGEST)


def main():
    ports, most = free_ports(), int((sys.argv[1:] or ["100000"])[0])
    clerk = Clerk(ports[3], patience=10)
    with tempfile.TemporaryFile() as log, serving(ports, log) as program:
        wait_until_answering(ports[3])
        subscribers(clerk, 0, 100)
        few = max(subscribers(clerk, 0, 100) for _ in range(20))
        subscribers(clerk, 100, most - 100)
        many = max(subscribers(clerk, 0, 100) for _ in range(20))
        print(f"PUTs per second, one client, one at a time: {few:.0f} with 100 subscribers, {many:.0f} with {most:,}")
        clerk.must("PUT", "/classes/1", {"name": "gold", "settings": GOLD})
        before = resident(program.pid)
        for number in range(most):
            clerk.must("PUT", f"/modems/02{number:010x}", b'{"subscriber":%d,"class":1,"serial":"SN%06d"}' % (number, number))
        print(f"a PUT of a subscriber with {most:,}: {own_time(clerk, program.pid, hundred_subscribers)}; of a modem: {own_time(clerk, program.pid, hundred_modems)}; "
              f"of the largest class, {len(LARGEST) / 1000:.0f} kB: {own_time(clerk, program.pid, hundred_classes)}")
        print(f"memory: {(resident(program.pid) - before) / 1e6:.1f} MB for {most:,} modems, {resident(program.pid) / 1e6:.1f} MB in all")
    return 0


if __name__ == "__main__":
    sys.exit(script(main))
