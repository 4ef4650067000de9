#!/usr/bin/env python3
"""bin/office-unit waits for the unit until an office answers, and explains how it ended.

Over loopback: it waits while no office is there, up to its limit; it ends with 0 when all four
ports answer, each of which it asks once, and with 1 when the office's process has ended. Then offices that can't start: each
ends with 10 or 11 for a cause that the page MESSAGES names, and the one line that follows names that
cause. Each status of that page has a meaning. It takes some seconds.
"""
import contextlib
import os
import re
import signal
import socket
import subprocess
import sys
import tempfile
import time

from harness import PROGRAM, ROOT, check, free_ports, listed, script, text_of

UNIT = os.path.join(ROOT, "bin", "office-unit")
TURNS = "1000000000000000"


def office(ports, store="memory", **known):
    words = [PROGRAM, "serve", "--store", store, "--ports", listed(ports), "--turns", TURNS]
    return subprocess.Popen(words, env={**os.environ, **known}, stdin=subprocess.DEVNULL,
                            stdout=subprocess.DEVNULL)


@contextlib.contextmanager
def served(ports, store="memory", **known):
    program = office(ports, store, **known)
    try:
        yield program
    finally:
        program.terminate()
        program.wait()


def unit(what, *words, **known):
    """The status of office-unit, and what it prints."""
    done = subprocess.run([UNIT, what, *words], env={**os.environ, **known}, timeout=120,
                          stdout=subprocess.PIPE, stderr=subprocess.STDOUT)
    return done.returncode, done.stdout.decode()


def ready():
    ports = free_ports()
    known = {"OFFICED_PORTS": listed(ports), "OFFICED_UDP": "127.0.0.1"}
    began = time.monotonic()
    status, said = unit("ready", "--limit", "1", **known)
    check(status == 1 and f"DHCP doesn't answer at 127.0.0.1 port {ports[0]}" in said, said)
    check(time.monotonic() - began < 20, "it waits no longer than its limit")
    waits = subprocess.Popen([UNIT, "ready", "--limit", "60"], env={**os.environ, **known},
                             stdout=subprocess.PIPE)
    time.sleep(0.5)
    check(waits.poll() is None, "it waits for an office that isn't there yet")
    with served(ports, OFFICED_UDP="127.0.0.1") as program:
        said = waits.communicate(timeout=60)[0].decode()
        check(waits.returncode == 0 and "ready: the four ports answer" in said, said)
        check(unit("ready", MAINPID=str(program.pid), **known)[0] == 0, "it answers at once then")
        # One of the four hears nobody.
        status, said = unit("ready", "--limit", "1", "--ports", listed([*ports[:3], 1]), **known)
        check(status == 1 and "HTTP doesn't answer at 127.0.0.1 port 1 " in said, said)
    status, said = unit("ready", MAINPID=str(program.pid), **known)
    check(status == 1 and "the office ended before it was ready" in said, said)


def asks_once():
    """An office that takes long to answer is asked once by each service."""
    ports = free_ports()
    with tempfile.TemporaryFile() as log:
        words = [PROGRAM, "serve", "--store", "memory", "--ports", listed(ports), "--turns", TURNS]
        program = subprocess.Popen(words, env={**os.environ, "OFFICED_UDP": "127.0.0.1"},
                                   stdin=subprocess.DEVNULL, stdout=log)
        known = {"OFFICED_PORTS": listed(ports), "OFFICED_UDP": "127.0.0.1"}
        check(unit("ready", **known)[0] == 0, "it's there")
        program.send_signal(signal.SIGSTOP)
        waits = subprocess.Popen([UNIT, "ready"], env={**os.environ, **known},
                                 stdout=subprocess.PIPE)
        time.sleep(3)
        program.send_signal(signal.SIGCONT)
        waits.communicate(timeout=60)
        program.terminate()
        program.wait()
        log.seek(0)
        lines = [line.split(maxsplit=1)[1] for line in log.read().decode().splitlines()]
    asked = ["dhcp dhcp-short", "time sent", "tftp no-lease", "http 404 no-row"]
    check([line for line in lines if not line.startswith("tick")] == asked * 2, f"lines: {lines}")


def end_of(ports, store="memory", **known):
    """How an office that can't start ends, and what is said of it."""
    program = office(ports, store, **known)
    status = program.wait(timeout=60)
    code, said = unit("ended", EXIT_CODE="exited", EXIT_STATUS=str(status),
                      OFFICED_PORTS=listed(ports), OFFICED_STORE=store, **known)
    check(code == 0 and said.count("\n") == 1, f"one line: {code} {said}")
    return status, said


def sockets():
    """The causes of status 10."""
    ports = free_ports()
    for place, kind in ((1, socket.SOCK_DGRAM), (3, socket.SOCK_STREAM)):
        with socket.socket(socket.AF_INET, kind) as taken:
            taken.bind(("127.0.0.1", ports[place]))
            if place == 3:
                taken.listen(1)
            status, said = end_of(ports, OFFICED_UDP="127.0.0.1")
        check(status == 10 and f"port {ports[place]} is in use by another program" in said, said)
    # 192.0.2.0/24 is nobody's (RFC 5737).
    for name in ("OFFICED_UDP", "OFFICED_HTTP"):
        status, said = end_of(ports, **{"OFFICED_UDP": "127.0.0.1", name: "192.0.2.1"})
        check(status == 10 and "192.0.2.1 isn't an address of this machine" in said, said)
        status, said = end_of(ports, **{"OFFICED_UDP": "127.0.0.1", name: "localhost"})
        check(status == 10 and f"{name} is no IPv4 address: 'localhost'" in said, said)


def stores():
    """The causes of status 11."""
    ports, known = free_ports(), {"OFFICED_UDP": "127.0.0.1"}
    with tempfile.TemporaryDirectory() as folder:
        path = os.path.join(folder, "office.db")
        lost = os.path.join(folder, "nowhere", "office.db")
        for store in (lost, "journal:" + lost):
            status, said = end_of(ports, store, **known)
            check(status == 11 and f"there is no folder {folder}/nowhere" in said, said)
        status, said = end_of(ports, folder, **known)
        check(status == 11 and f"{folder} is a folder" in said, said)
        with open(path, "wb") as held:
            held.write(b"no database at all" * 100)
        status, said = end_of(ports, path, **known)
        check(status == 11 and f"{path} is no database" in said, said)
        status, said = end_of(ports, "journal:" + path, **known)
        check(status == 11 and f"{path} is no journal" in said, said)
        os.remove(path)
        for store in (path, f"journal:{folder}/office.journal"):
            with served(ports, store, **known) as program:
                check(unit("ready", OFFICED_PORTS=listed(ports), MAINPID=str(program.pid),
                           **known)[0] == 0, f"an office over {store}")
                status, said = end_of(free_ports(), store, **known)
            check(status == 11 and "another program has" in said, f"{store}: {status} {said}")


def meanings():
    """Each status that the page names has a meaning, and so has a stop."""
    page = text_of("docs", "MESSAGES.md").partition("\n## Statuses\n")[2].partition("\n## ")[0]
    statuses = [int(each) for each in re.findall(r"(?m)^\| (\d+) \|", page)]
    check(statuses[:12] == list(range(12)), f"the page's statuses: {statuses}")
    for status in statuses[:10]:
        said = unit("ended", EXIT_CODE="exited", EXIT_STATUS=str(status))[1]
        check(f"ended with status {status}: " in said and "no status" not in said, said)
    for name in ("TERM", "KILL", "SEGV"):
        said = unit("ended", EXIT_CODE="killed", EXIT_STATUS=name)[1]
        check(f"ended with signal {name}: " in said, said)
    check(unit("ended", EXIT_STATUS="")[0] == 2, "it's for a unit of systemd")
    check(unit("ready", "--ports", "1,2,3")[0] == 2, "words that can't be read")
    words = text_of("packaging", "officed.service")
    check(re.search(r"(?m)^ExecStartPost=/usr/local/bin/office-unit ready --limit 900$", words)
          and re.search(r"(?m)^ExecStopPost=-/usr/local/bin/office-unit ended$", words),
          "the unit calls it")


def main():
    ready()
    asks_once()
    sockets()
    stores()
    meanings()


if __name__ == "__main__":
    sys.exit(script(main))
