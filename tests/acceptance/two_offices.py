#!/usr/bin/env python3
"""Past one machine: relays split over two offices, the same changes to both, a standby by copies.

In a network of its own two offices have an address each. What clerks change is handed to both by
bin/office-all, each import acts once in each, and what one refuses is told. A modem boots behind a
relay of either office, and gets nothing at the other. The first office's store is copied while it
runs; it is killed, and another starts over the copy at its address: a modem that booted before the
copy is given its address again, with its file, one that booted after it begins anew. A second
office over one file, or at one address, doesn't start. It ends what it started, and takes some
seconds.
"""
import os
import re
import subprocess
import sys
import tempfile
import time

from harness import ROOT, check, kill, only_alone, script, start, stop
from harness.clerks import is_heard
from harness.network import address_of_lo, loopback
from harness.told import SECRET

ALL, COPY, MODEM, SQL = (os.path.join(ROOT, "bin", name)
                         for name in ("office-all", "office-copy", "office-modem", "office-sql"))
HTTP = 8080
PATIENCE = 240
FIRST, SECOND = "10.0.0.2", "10.0.0.3"
RELAYS = {FIRST: "10.64.0.1", SECOND: "10.65.0.1"}
PORTS = [67, 37, 69, HTTP]
CLASS = '{"name":"gold","settings":[{"code":24,"parts":[{"code":1,"hex":"0001"},' \
        '{"code":6,"hex":"07"}]},{"code":25,"parts":[{"code":1,"hex":"0002"},' \
        '{"code":6,"hex":"07"}]}]}'
PEOPLE = b"subscriber,active,cpes,name\n7,yes,2,Ann\n"
MODEMS = b"mac,subscriber,class,serial\n" + b"".join(
    b"0200000000%02x,7,1,SN%02x\n" % (number, number) for number in range(4))


def url(office):
    return f"http://{office}:{HTTP}"


def pool(relay, last="99"):
    net = relay.rpartition(".")[0]
    return (f'{{"first":"{net}.10","last":"{net}.{last}","prefix":24,"router":"{relay}",'
            f'"relay":"{relay}"}}')


def run(*words, data=b""):
    known = {**os.environ, "OFFICE_URLS": " ".join(map(url, RELAYS))}
    done = subprocess.run(words, input=data, env=known, timeout=120, stdout=subprocess.PIPE,
                          stderr=subprocess.PIPE)
    return done.returncode, done.stdout.decode(), done.stderr.decode()


def begun(office, store, log):
    """An office at this address."""
    return start(PORTS, 10**9, log, {"OFFICED_UDP": office, "OFFICED_HTTP": office}, store=store)


def answers(office, program):
    """Waits until clerks are heard."""
    heard = is_heard(HTTP, office, PATIENCE, program)
    check(heard, f"the office at {office} answers: {program.poll()}")


def boot(number, office, relay):
    """The address that a modem is given, or why it has none."""
    mac, serial = f"0200000000{number:02x}", f"SN{number:02x}"
    status, said, _ = run(MODEM, "--server", office, "--relay", relay, "--mac", mac, "--serial",
                          serial, "--secret", SECRET.hex())
    given = re.search(r"(?m)^ACK +(\S+) for", said)
    return given[1] if status == 0 and given else said.splitlines()[-1]


def same_changes():
    """Each change goes to both; an import acts once in each; what one refuses is told."""
    site = '{"server":"%s","secret":"%s","offset":0,"lease":3600,"log":"0.0.0.0"}'
    for office, relay in RELAYS.items():
        for path, row in (("site", site % (office, SECRET.hex())), ("pools/1", pool(relay))):
            status, said, _ = run(ALL, "--offices", url(office), "put", path, row)
            check(status == 0, f"{path} of {office}: {said}")
    check(run(ALL, "put", "classes/1", CLASS)[0] == 0, "the class of both")
    for what in ("once", "again"):
        for data, rows in ((PEOPLE, 1), (MODEMS, 4)):
            status, said, _ = run(ALL, "import", "-", data=data)
            check((status, said.count(f'done: {{ "rows": {rows} }}')) == (0, 2), f"{what}: {said}")
    status, said, wrong = run(ALL, "put", "pools/2", pool(RELAYS[FIRST]))
    lines = said.splitlines()
    check(status == 1 and ": refused: refused, 409 pool-overlap" in lines[0]
          and lines[1].startswith(f"{url(SECOND)}: done: "), f"one refuses: {said}")
    check(f"not done at 1 of 2: {url(FIRST)}" in wrong, f"which one is told: {wrong}")
    check(run(ALL, "--offices", url(SECOND), "delete", "pools/2")[0] == 0, "it's taken back")
    status, said, _ = run(ALL, "--offices", f"{url(FIRST)} http://10.0.0.2:9", "get", "site")
    check(status == 1 and ":9: no answer: " in said, f"one doesn't answer: {said}")


def split_relays():
    for number, (office, relay) in enumerate(RELAYS.items()):
        net = relay.rpartition(".")[0]
        check(boot(number, office, relay) == f"{net}.10", f"a modem behind {relay}")
    said = boot(2, SECOND, RELAYS[FIRST])
    check(said.startswith("FAILED    no answer to the DISCOVER"), f"the other office: {said}")


def take_over(folder, store, program, log):
    """A copy, a kill, and an office over the copy; gives that office."""
    copy = os.path.join(folder, "standby.db")
    status, said, wrong = run(COPY, store, copy)
    check(status == 0, f"a copy: {said} {wrong}")
    check(boot(2, FIRST, RELAYS[FIRST]) == "10.64.0.11", "a modem that boots after the copy")
    for what, held, expected in (("one file", store, 11), ("one address", "memory", 10)):
        status = begun(FIRST, held, log).wait(timeout=PATIENCE)
        check(status == expected, f"a second office of {what}: {status}")
    began = time.perf_counter()
    kill(program)
    other = begun(FIRST, copy, log)
    answers(FIRST, other)
    print(f"the standby answers {time.perf_counter() - began:.2f} s after the kill")
    check(boot(0, FIRST, RELAYS[FIRST]) == "10.64.0.10", "a modem of before has its address")
    check(boot(3, FIRST, RELAYS[FIRST]) == "10.64.0.11", "a lease after the copy is forgotten")
    check(boot(2, FIRST, RELAYS[FIRST]) == "10.64.0.12", "and its modem begins anew")
    return other


def in_its_own():
    loopback()
    for count, (office, relay) in enumerate(RELAYS.items()):
        address_of_lo(b"lo:%d" % (2 * count + 1), office, "255.255.255.255")
        address_of_lo(b"lo:%d" % (2 * count + 2), relay, "255.255.255.0")
    with tempfile.TemporaryDirectory() as folder, tempfile.TemporaryFile() as log:
        store = os.path.join(folder, "office.db")
        held = {FIRST: begun(FIRST, store, log), SECOND: begun(SECOND, "memory", log)}
        try:
            for office, program in held.items():
                answers(office, program)
            same_changes()
            split_relays()
            held[FIRST] = take_over(folder, store, held[FIRST], log)
        finally:
            for program in held.values():
                stop(program)


def main():
    return only_alone(in_its_own, 3 * PATIENCE, "two offices")


if __name__ == "__main__":
    sys.exit(script(main, in_its_own))
