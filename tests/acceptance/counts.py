#!/usr/bin/env python3
"""bin/office-counts counts lines by service and word, in whatever pieces they come.

What is expected is counted here line by line, in another way. It reads files and pipes, rewrites
its Prometheus file while it goes on, and ends at SIGTERM with all that came; each line of the file
has the form of the text format. With a store the file has gauges of each pool, of rows, of bytes
and of the last backup; a folder that isn't there is said once, at once, also by the unit. Its speed
is printed and judged: 200,000 lines a second of the processor's time, of which a busy machine gives
it less.
"""
import collections
import os
import random
import re
import signal
import subprocess
import sys
import tempfile
import time

from harness import ROOT, check, loaded, script
from store_reader import (BOUND, DECLINED, DEVICE_POOL, OFFERED, ROWS, device, leased, made)

COUNTS = os.path.join(ROOT, "bin", "office-counts")
PLAIN = ["dhcp offer", "dhcp ack", "dhcp not-your-address", "time sent", "tftp oack", "tftp done",
         "tftp again", "http 200", "http 409 has-modems", "http wait", "tick memory", "tftp link"]
ODD = ["words refused", "tables refused held 02aabbccddee", "link refused", "", "12", "12 dhcp",
       "what is this", "Nov 27 host officed[1]: 7 dhcp ack", "3 smtp sent",
       "9 tick again x closed 1"]
SERIES = re.compile(r'officed_lines_total\{service="(\w+)",word="([^"\\]*)"\} (\d+)')


def event(number):
    chosen = random.random()
    if chosen < 0.5:
        return f"{number} {random.choice(PLAIN)}"
    if chosen < 0.9:
        return f"{number} tftp block {random.randint(1, 65535)}"
    return f"{number} tick again {random.randint(0, 256)} closed {random.randint(0, 9)}"


def expected(lines):
    """The counts by service and word, and the two sums of ticks."""
    found, again, closed = collections.Counter(), 0, 0
    for line in lines:
        number, *words = line.split(" ")
        if number.isdigit() and words[:1] == ["tick"] and words[1:2] == ["again"]:
            if words[2].isdigit():
                again, closed = again + int(words[2]), closed + int(words[4])
                found["tick", "again closed"] += 1
            else:
                found["tick", " ".join(words[1:])] += 1
        elif number.isdigit() and words[:2] == ["tftp", "block"]:
            found["tftp", "block"] += 1
        elif number.isdigit() and len(words) > 1 and words[0] in "dhcp time tftp http tick".split():
            found[words[0], " ".join(words[1:])] += 1
        elif words[:1] == ["refused"] and not number.isdigit():
            found["office", f"{number} refused"] += 1
        else:
            found["other", ""] += 1
    return found, again, closed


def read_prometheus(path):
    """The counts of a file, each of whose lines is of the text format."""
    with open(path, encoding="utf-8") as held:
        lines = held.read().splitlines()
    found, sums = collections.Counter(), {}
    for line in lines:
        series, plain = SERIES.fullmatch(line), re.fullmatch(r"(\w+_total) (\d+)", line)
        if series:
            found[series[1], series[2]] += int(series[3])
        elif plain:
            sums[plain[1]] = int(plain[2])
        else:
            form = r"# (HELP \w+_total [A-Z].*\.|TYPE \w+_total counter)"
            check(re.fullmatch(form, line), f"the form of {line!r}")
    return found, sums["officed_transfers_sent_again_total"], sums["officed_transfers_closed_total"]


def in_pieces(lines):
    """Any cut of the bytes has the same counts."""
    program, data = loaded("office-counts"), "\n".join(lines).encode()
    for size in (1, 7, 1000, len(data)):
        counts = program.Counts()
        for at in range(0, len(data), size):
            counts.take(data[at:at + size])
        counts.finish()
        found = collections.Counter(dict(counts.words)), counts.again, counts.closed
        check(found == expected(lines), f"in pieces of {size}: {found}")


def from_files(folder, lines):
    """Once, from a file and from a pipe, as text and for Prometheus."""
    path, out = os.path.join(folder, "lines"), os.path.join(folder, "out.prom")
    with open(path, "w", encoding="utf-8") as held:
        held.write("\n".join(lines) + "\n")
    before = os.times()
    text = subprocess.run([COUNTS, path], stdout=subprocess.PIPE, timeout=60).stdout.decode()
    after = os.times()
    spent = sum(after[2:4]) - sum(before[2:4])
    print(f"{len(lines) / spent:,.0f} lines a second of processor")
    check(len(lines) / spent >= 200_000, "it reads 200,000 lines a second")
    found, again, closed = expected(lines)
    shown = {tuple(re.split(r"\s{2,}", line.strip())) for line in text.splitlines()}
    check(("dhcp", "ack", str(found["dhcp", "ack"])) in shown, f"the text: {text}")
    check(("tick", "packets sent again", str(again)) in shown, "the text has the sums")
    with open(path, "rb") as held:
        subprocess.run([COUNTS, "--prometheus", out], stdin=held, timeout=60)
    check(read_prometheus(out) == (found, again, closed), "the file for Prometheus")
    check(os.stat(out).st_mode & 0o777 == 0o644, "others may read it")
    done = subprocess.run([COUNTS, "/nowhere"], stderr=subprocess.DEVNULL, timeout=60)
    check(done.returncode == 2, "no file")


def waits_for(path, acks):
    """Waits until a file has so many, ten seconds at most."""
    end = time.monotonic() + 10
    while time.monotonic() < end:
        if os.path.exists(path) and read_prometheus(path)[0]["dhcp", "ack"] == acks:
            return
        time.sleep(0.02)


def while_it_goes_on(folder):
    """The file is written again and again, and once more at SIGTERM, with the last whole line."""
    out = os.path.join(folder, "on.prom")
    words = [COUNTS, "--prometheus", out, "--every", "0.1"]
    program = subprocess.Popen(words, stdin=subprocess.PIPE)
    program.stdin.write(b"1 dhcp offer\n2 dhcp ack\n3 dh")
    program.stdin.flush()
    waits_for(out, 1)
    found, _, _ = read_prometheus(out)
    told = {key: count for key, count in found.items() if count}
    check(told == {("dhcp", "offer"): 1, ("dhcp", "ack"): 1}, f"while it goes on: {told}")
    # What an alarm waits for stands there from the start.
    check(("dhcp", "pool-full") in found and ("office", "keeper refused") in found,
          "words that no line had")
    program.stdin.write(b"cp ack\n")
    program.stdin.flush()
    waits_for(out, 2)
    program.stdin.write(b"4 dhcp ack\n")
    program.stdin.flush()
    # What it reads in a second is counted, also between two writings of the file.
    time.sleep(1)
    program.send_signal(signal.SIGTERM)
    check(program.wait(timeout=10) == 0, "SIGTERM ends it with 0")
    check(read_prometheus(out)[0]["dhcp", "ack"] == 3, "with all that came")
    left = [name for name in os.listdir(folder) if name.startswith(".office")]
    check(not left, "nothing is left beside it")


def gauges(path):
    """The gauges of a file, each of whose lines is of the text format."""
    with open(path, encoding="utf-8") as held:
        text = held.read()
    found = re.findall(r"(?m)^(officed_(?:pool|rows|store|backup)\w*)(?:\{(.*)\})? (\d+)$", text)
    for name in {name for name, _, _ in found}:
        check(f"# TYPE {name} gauge\n" in text and f"# HELP {name} " in text, f"{name} is a gauge")
    return {(name, *re.findall(r'"([^"]*)"', labels)): int(value) for name, labels, value in found}


def of_a_store(folder):
    """The gauges of a store: of two pools, with addresses of each state, and one that ended."""
    path, out, now = os.path.join(folder, "office.db"), os.path.join(folder, "g.prom"), time.time()
    later = int(now) + 3600
    made(path, [*ROWS[:9], *leased("10.64.0.10", BOUND, 0xEE, later),
                *leased("10.64.0.11", OFFERED, 0xF0, later),
                *leased("10.64.0.12", DECLINED, 0, later),
                *leased("10.64.0.13", BOUND, 0xEF, int(now) - 5), DEVICE_POOL,
                device("10.128.0.10", BOUND, 0xEE, 0xA1, later),
                device("10.128.0.11", BOUND, 0xEE, 0xA2, later)]).close()
    backups = os.path.join(folder, "backups")
    os.mkdir(backups)
    for name, age in (("office-1.db", 90_000), ("office-2.db", 3600)):
        with open(os.path.join(backups, name), "wb"):
            pass
        os.utime(os.path.join(backups, name), (now - age, now - age))
    subprocess.run([COUNTS, "--prometheus", out, "--store", path, "--backup", backups],
                   stdin=subprocess.DEVNULL, timeout=60, check=True)
    found = gauges(out)
    age = found.pop(("officed_backup_age_seconds",), -1)
    check(3600 <= age < 3700, f"the newest backup is an hour old: {age}")
    check(found.pop(("officed_store_bytes",), -1) == os.path.getsize(path), "its bytes")
    expected = {("officed_pool_addresses", "1", "modems"): 5,
                ("officed_pool_addresses", "1", "devices"): 6}
    for kind, counts in (("modems", (2, 1, 1, 1)), ("devices", (4, 0, 2, 0))):
        for state, count in zip(("free", "offered", "bound", "resting"), counts):
            expected["officed_pool_state", "1", kind, state] = count
    for kind, count in (("hub", 1), ("class", 1), ("pool", 1), ("device-pool", 1),
                        ("subscriber", 2), ("add-on", 0), ("modem", 4), ("lease", 4),
                        ("device-lease", 2), ("import", 0)):
        expected["officed_rows", kind] = count
    check(found == expected, f"the gauges: {sorted(found.items() ^ expected.items())}")
    done = subprocess.run([COUNTS, "--prometheus", out, "--store", os.path.join(folder, "none")],
                          stdin=subprocess.DEVNULL, stderr=subprocess.PIPE, timeout=60)
    check(done.returncode == 0 and done.stderr.count(b"\n") == 1 and not gauges(out),
          f"a store that can't be read is said once, and has no gauges: {done.stderr}")


def without_its_folder(folder):
    """A folder that isn't there is said in one line, before a line of the office comes."""
    out = os.path.join(folder, "nowhere", "officed.prom")
    program = subprocess.Popen([COUNTS, "--prometheus", out], stdin=subprocess.PIPE,
                               stderr=subprocess.PIPE)
    said = program.communicate(timeout=60)[1].decode()
    check(program.returncode == 2 and said.count("\n") == 1 and
          f"there is no folder {os.path.dirname(out)}" in said, f"no folder: {said}")
    with open(os.path.join(ROOT, "packaging", "officed-counts.service"), encoding="utf-8") as held:
        unit = held.read()
    check("\nRestartPreventExitStatus=2\n" in unit and "\nReadWritePaths=-/" in unit,
          "the unit runs without its folder, and isn't started again then")
    words = re.search(r"(?m)^ExecStart=/bin/sh -c '(.*)'$", unit)[1]
    words = words.replace("/usr/local/bin/office-counts", COUNTS).replace(
        "/var/lib/prometheus/node-exporter", os.path.dirname(out))
    done = subprocess.run(["/bin/sh", "-c", words], stdin=subprocess.DEVNULL,
                          stderr=subprocess.PIPE, timeout=60)
    check(done.returncode == 2 and done.stderr.decode() == said, f"nor does the unit: {done}")


def main():
    random.seed(7)
    few = [event(number) for number in range(1, 2000)]
    few[100:100] = few[1500:1500] = ODD
    in_pieces(few)
    many = [event(number) for number in range(1, 400_001)] + ODD
    with tempfile.TemporaryDirectory() as folder:
        from_files(folder, many)
        while_it_goes_on(folder)
        of_a_store(folder)
        without_its_folder(folder)


if __name__ == "__main__":
    sys.exit(script(main, needs_program=False))
