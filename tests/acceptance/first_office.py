#!/usr/bin/env python3
"""The first office of examples/first-office boots a modem, and bin/office-modem sees what is wrong.

The example runs on loopback and, in a network of its own, on the standard ports; what it prints is
compared with the README's shortened screen. A modem with another secret or another serial number
fails. Then bin/office-modem alone: it reads a file in small blocks from a server of this script that loses
every third packet and answers `tsize`, tells each setting in words, and refuses a file that differs
in one bit. It ends what it started, and takes some seconds.
"""
# needs: curl
import contextlib
import io
import os
import re
import socket
import subprocess
import sys
import threading

from harness import (PROGRAM, ROOT, check, free_ports, is_built, listed, loaded, may_be_alone,
                     script, text_of)

sys.dont_write_bytecode = True
sys.path.insert(0, os.path.join(ROOT, "tests", "examples"))
from examples import sealed, spelled, time_reply  # noqa: E402

RUN = os.path.join(ROOT, "examples", "first-office", "run")
STANDARD = "67,37,69,8080"


def may_relay():
    with socket.socket(socket.AF_INET, socket.SOCK_DGRAM) as relay:
        try:
            relay.bind(("127.64.0.1", 67))
        except OSError:
            return False
    return True


def run(words=(), ports=None, before=(), store="memory"):
    """The example's status and its lines."""
    known = {**os.environ, "OFFICED": PROGRAM, "STORE": store,
             "PORTS": ports or listed(free_ports())}
    done = subprocess.run([*before, RUN, *words], env=known, stdout=subprocess.PIPE, timeout=60)
    return done.returncode, done.stdout.decode().splitlines()


# What differs from run to run: ports, moments, delays, numbers of events and the two checks.
DIFFERENT = [(r"port \d+", "port P"), (r"\d{4}-\d\d-\d\d \d\d:\d\d:\d\d", "MOMENT"),
             (r"\b\d+ s from", "S s from"), (r"\d+ ms", "M ms"),
             (r"^    \d+ (?=[a-z]+ )", "    N "),
             (r"( [0-9a-f]{2}){16}$", " CHECK")]


def alike(line):
    for form, name in DIFFERENT:
        line = re.sub(form, name, line)
    return line.rstrip()


def screen():
    """The README's screen of the example."""
    after = text_of("README.md").partition("\n    examples/first-office/run\n")[2]
    block = re.match(r"\n((?:    .*\n)+)", after)
    check(block is not None, "the README has the example's screen")
    return [line[4:] for line in block.group(1).splitlines()] if block else []


def is_shortened(shown, lines):
    """Whether the screen is these lines, but for those that a line `...` stands for."""
    pieces = "\n".join(["", *shown, ""]).split("\n...\n")
    text = "\n".join(["", *lines, ""])
    if len(pieces) == 1:
        return text == pieces[0]
    first, *middle, last = pieces
    if not text.startswith(first + "\n") or not text.endswith("\n" + last):
        return False
    at = len(first)
    for piece in middle:
        found = text.find(f"\n{piece}\n", at)
        if found < 0:
            return False
        at = found + len(piece) + 1
    return at <= len(text) - len(last)


def boots():
    shown = [alike(line) for line in screen()]
    ways = [("on loopback", None, ())]
    ways += [("on the standard ports", STANDARD, ("unshare", "-rn"))] if may_be_alone() else []
    for what, ports, before in ways:
        status, lines = run(ports=ports, before=before)
        check(status == 0, f"{what}: a modem boots")
        same = is_shortened(shown, [alike(line) for line in lines])
        check(same, f"{what}: the lines are the README's")
    status, lines = run(["--secret", "00", "--release"])
    check(status == 1 and "file      NOT: passes the CMTS's check" in lines, "another secret")
    check("file      passes the modem's check" in lines, "the modem's check needs no secret")
    status, lines = run(["--serial", "SN02"])
    check(status == 1 and any(line.startswith("FAILED    no answer to the DISCOVER")
                              for line in lines), "another serial number")
    check(sum("dhcp serial-mismatch" in line for line in lines) == 3, "which is asked three times")
    status, lines = run(["--release", "--block", "0"])
    released = any(line.endswith(" dhcp released") for line in lines)
    check(status == 0 and released, "the address is given back")


# ---- bin/office-modem alone

PARTS = {"rate": b"\x08\x04\0\x98\x96\x80", "name": b"\x04\x03up\0", "sets": b"\x06\x01\x05"}
EVERY = [
    (1, bytes.fromhex("23c34600"), "1  downstream frequency 600,000,000 Hz"),
    (2, b"\x03", "2  upstream channel 3"), (3, b"\x01", "3  network access on"),
    (24, b"".join(PARTS.values()), "24  upstream service flow 8  maximum sustained rate 10,000,000"
     " bit/s 4  service class name up 6  parameter sets provisioned, active"),
    (22, bytes.fromhex("010101" "0906" "03040a400001"), "22  upstream classifier 1  reference 1"
     " 9  IPv4 3  source 10.64.0.1"),
    (28, b"\0\x10", "28  classifiers, at most 16"), (29, b"\x01", "29  privacy on"),
    (43, bytes.fromhex("0803ffffff" "0102abcd"), "43  extension 8  vendor ff ff ff"
     " 1  unknown here ab cd"),
    (18, b"\x02", "18  devices behind the modem, at most 2"),
]
HELD, SECRET = bytes([127, 64, 0, 10]), b"secret"


def file_of_every_kind():
    settings = [(code, value) for code, value, _ in EVERY]
    return sealed(spelled([*settings, (19, time_reply(0)), (20, HELD)]) + b"\xff", SECRET)


def printed(call, *given):
    """What a call prints, and whether it fails."""
    out, failed = io.StringIO(), False
    with contextlib.redirect_stdout(out):
        try:
            call(*given)
        except modem.Failed:
            failed = True
    return out.getvalue(), failed


def words_of_settings():
    file = file_of_every_kind()
    settings = modem.settings_of(file)
    told = " ".join(printed(modem.tell_settings, settings, modem.SETTINGS)[0].split())
    for _, _, words in EVERY:
        check(" ".join(words.split()) in told, f"{words} in {told}")
    check("1970-01-01 00:00:00 UTC 20 address of this modem 127.64.0.10" in told, "19 and 20")
    check(not printed(modem.check_file, settings, HELD, SECRET)[1], "a good file passes")
    check(printed(modem.check_file, settings, bytes(4), SECRET)[1], "not for another address")
    for place in range(2, len(file) - 40, 7):
        wrong = bytearray(file)
        wrong[place] ^= 1
        try:
            found = modem.settings_of(bytes(wrong))
        except modem.Failed:
            continue
        check(printed(modem.check_file, found, HELD, SECRET)[1], f"a bit at {place} is seen")
    for wrong in (file[:-5], b"\3\1\1", b"\xff\1", b"\3\2\1\xff", b""):
        check(printed(modem.settings_of, wrong)[1], f"no file: {wrong[:8].hex()}")


def serve(office, file, size):
    """A server of one file that answers `tsize` and loses every third packet either way. No bytes end it."""
    packet, count = b"", 0
    while True:
        came, peer = office.recvfrom(2048)
        if not came:
            return
        count += 1
        if count % 3 == 0:
            continue
        if came[1] == modem.READ:
            packet = b"\0\6blksize\0%d\0tsize\0%d\0" % (size, len(file))
        else:
            block = int.from_bytes(came[2:4], "big")
            packet = b"\0\3" + (block + 1).to_bytes(2, "big") + file[block * size:][:size]
        count += 1
        if count % 3 != 0:
            office.sendto(packet, peer)


def reads_from_afar():
    """Over lost packets, in blocks that the file's length is a multiple of or isn't."""
    file = file_of_every_kind()
    for size in (len(file) // 2, 100):
        with socket.socket(socket.AF_INET, socket.SOCK_DGRAM) as office:
            office.bind(("127.0.0.1", 0))
            server = threading.Thread(target=serve, args=(office, file, size), daemon=True)
            server.start()
            port = office.getsockname()[1]
            got, options, blocks = modem.get_file("127.64.0.10", "127.0.0.1", port, b"x", 1428)
            with socket.socket(socket.AF_INET, socket.SOCK_DGRAM) as last:
                last.sendto(b"", ("127.0.0.1", port))
            server.join(timeout=10)
        check(got == file, f"the file comes in blocks of {size}")
        check(options == {b"blksize": size, b"tsize": len(file)}, "the options are told")
        check(blocks == len(file) // size + 1, f"{blocks} blocks")
        check(not printed(modem.tell_file, got, options, blocks, 1428)[1], "its size is as said")
    check(printed(modem.tell_file, file, {b"tsize": 9}, 1, 0)[1], "another size than said")


modem = loaded("office-modem")


def main():
    modem.PATIENCE = (0.1,) * 30
    words_of_settings()
    reads_from_afar()
    if not is_built():
        return 1
    if may_relay() or may_be_alone():
        boots()
    else:
        print("boots: skipped, since neither port 67 nor a network of its own can be had here")
    return None


if __name__ == "__main__":
    sys.exit(script(main, needs_program=False))
