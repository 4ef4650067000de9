"""What the scripts of this folder share: how a script is run, the program and how it is started and ended, free ports, a network of one's own, and what a
script found wrong."""
import contextlib
import importlib.machinery
import importlib.util
import os
import random
import re
import shutil
import signal
import socket
import subprocess
import sys
import time

from harness import told

HERE = os.path.dirname(os.path.abspath(__file__))
ROOT = os.path.dirname(os.path.dirname(os.path.dirname(HERE)))
BUILT = os.path.join(ROOT, "crates", "officed", "out", "officed")
PROGRAM = os.environ.get("OFFICE_PROGRAM", BUILT)
SECONDS_BEFORE_1970 = 2_208_988_800
failures = []
# Measurements use this package too, and are to be slowed by nothing.
if os.path.dirname(os.path.abspath(sys.argv[0])) == os.path.dirname(HERE):
    told.begin()


def check(holds, what):
    if not holds:
        failures.append(what)
        print("FAILED", what)


# ---- a script

def is_built():
    """Whether the program is there; else a line says so."""
    if os.path.exists(PROGRAM):
        return True
    print("officed isn't built: run bin/officed once")
    return False


def status():
    return 1 if failures else 0


def script(main, *parts, needs_program=True):
    """A script's whole, and its status. Where the first word of the command is the name of one of its parts, as of `alone`, that part alone is run with the
    other words. What isn't None is the status that a main or a part ends with by itself."""
    if needs_program and not is_built():
        return 1
    part = next((each for each in parts if sys.argv[1:2] == [each.__name__]), None)
    if part is not None:
        ended = part(*sys.argv[2:])
        return status() if ended is None else ended
    ended = main()
    if ended is not None:
        return ended
    print(f"acceptance: {len(failures)} failed")
    return status()


def may_be_alone(flags="-rn"):
    """Whether a network of its own can be had here, or what the flags of `unshare` ask for."""
    return bool(shutil.which("unshare")) and subprocess.run(["unshare", flags, "true"], stderr=subprocess.DEVNULL).returncode == 0


def run_alone(*words, flags="-rn", seconds=None):
    """The status of this script with these words, in a network of its own."""
    return subprocess.run(["unshare", flags, sys.executable, os.path.abspath(sys.argv[0]), *words], timeout=seconds).returncode


def is_skipped(flags="-rn"):
    """Whether a script ends here, since it wants such a network; a line says so then."""
    if may_be_alone(flags):
        return False
    print(f"skipped, since `unshare {flags}` gives no network of its own here")
    return True


def alone_with(part, *words, flags="-rn"):
    """The status of a part of this script with these words, in a network of its own; 0 where it's skipped."""
    return 0 if is_skipped(flags) else run_alone(part.__name__, *words, flags=flags)


def alone(part, seconds, what, flags="-rn"):
    """Runs a part of this script in a network of its own, where what it tries holds if it ends with status 0."""
    check(run_alone(part.__name__, flags=flags, seconds=seconds) == 0, what)


def only_alone(part, seconds, what):
    """The whole of a script that needs such a network. Gives 0 where it's skipped."""
    return 0 if is_skipped() else alone(part, seconds, what)


# ---- the program

def free_ports():
    """Three UDP ports and a TCP port of this machine that nobody has, below those that the system gives to clients meanwhile."""
    with open("/proc/sys/net/ipv4/ip_local_port_range") as file:
        below = max(int(file.read().split()[0]), 20_000)
    kinds, ports = [socket.SOCK_DGRAM] * 3 + [socket.SOCK_STREAM], []
    while len(ports) < len(kinds):
        port = random.randrange(10_000, below)
        with socket.socket(socket.AF_INET, kinds[len(ports)]) as each:
            try:
                each.bind(("0.0.0.0", port))
            except OSError:
                continue
        if port not in ports:
            ports.append(port)
    return ports


def listed(ports):
    """Ports as the program's words have them."""
    return ",".join(map(str, ports))


def serve(store="memory", turns=0, ports=None):
    """The words of an office; at ports that nobody has, where none are given."""
    return [PROGRAM, "serve", "--store", store, "--ports", listed(ports or free_ports()), "--turns", str(turns)]


def start(ports, turns, log, addresses=None, limits=None, store="memory"):
    """Starts the program; `addresses` are variables of its environment, and `limits` is called in it before it begins."""
    environment = {name: value for name, value in os.environ.items() if not name.startswith("OFFICED_")}
    environment.update(addresses or {})
    return subprocess.Popen(serve(store, turns, ports), stdout=log, stderr=subprocess.DEVNULL, env=environment, preexec_fn=limits)


def stop(program, seconds=10):
    """Ends a program, if it hasn't ended by itself."""
    program.send_signal(signal.SIGTERM)
    program.wait(timeout=seconds)


def kill(program):
    program.kill()
    program.wait(timeout=60)


@contextlib.contextmanager
def serving(ports, log, **how):
    """The program while it serves, as `start` has it; it's stopped at the end."""
    program = start(ports, 10**9, log, **how)
    try:
        yield program
    finally:
        stop(program)


def written(log):
    """What a log has by now. The program writes on where it was: the file's place is one for both."""
    return os.pread(log.fileno(), os.fstat(log.fileno()).st_size, 0)


def said(log, *services):
    """What the lines of a log say behind their numbers, those of these services alone where some are named."""
    found = re.findall(r"(?m)^[0-9]+ ((\w+) .*)$", written(log).decode())
    return [words for words, service in found if not services or service in services]


def numbers_of(lines, words):
    """The numbers of a log's lines, each of which says one of these words, and which rise."""
    forms = [(line, re.fullmatch(rf"([0-9]+) (?:{words})", line)) for line in lines]
    for line, form in forms:
        check(form is not None, f"a line has its form: {line!r}")
    numbers = [int(form[1]) for _, form in forms if form]
    check(numbers == sorted(set(numbers)), "the numbers of the lines rise")
    return numbers


def have_their_lines(found, wanted, what=""):
    """The log says of each datagram what the model does. Else the first three that differ are told."""
    differ = [pair for pair in zip(found, wanted) if pair[0] != pair[1]][:3]
    check(found == wanted, f"{what}each datagram has its line: {differ}, {len(found)} and {len(wanted)}")


def wait_until_ready(port, address="127.0.0.1"):
    """Waits until the time is told at this port. It asks by a socket of its own: answers of questions that were sent twice don't come to another."""
    with socket.socket(socket.AF_INET, socket.SOCK_DGRAM) as client:
        client.connect((address, port))
        client.settimeout(0.2)
        for _ in range(100):
            try:
                client.send(b"")
                client.recv(2048)
                return True
            except OSError:
                time.sleep(0.05)
    return False


# ---- this repository

def loaded(name):
    """A program of bin/ as a module."""
    path = os.path.join(ROOT, "bin", name)
    loader = importlib.machinery.SourceFileLoader(name.replace("-", "_"), path)
    module = importlib.util.module_from_spec(importlib.util.spec_from_loader(loader.name, loader))
    loader.exec_module(module)
    return module


def text_of(*parts):
    with open(os.path.join(ROOT, *parts), encoding="utf-8") as held:
        return held.read()
