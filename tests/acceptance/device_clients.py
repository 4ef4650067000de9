#!/usr/bin/env python3
"""Clients of devices that ask officed for addresses: bin/office-modem with devices of its own, and udhcpc, where it's installed, behind a relay of this script.

bin/office-modem boots three devices where two may be, and says who has which address, who is refused and who gives back. udhcpc stands in a network of its own, at the
end of a cable whose relay names the modem: it gets an address, renews it without the relay and gives it back. Where `unshare -rn` isn't allowed it says so and
skips. It ends what it started, and takes some seconds.
"""
import contextlib
import os
import re
import select
import signal
import socket
import subprocess
import sys
import tempfile
import threading
import time

from harness import ROOT, check, only_alone, said, script
from harness import modems
from harness.behind import CABLE, ROWS, Talk, addresses_of_lo, body_of, furnish, mac_of
from harness.modems import PORTS, RELAY, SERVER, clerk, ip, leases, running
from harness.network import port_of
from real_clients import HOOK, found, told

sys.dont_write_bytecode = True
from messages import split  # noqa: E402

PATIENCE = 60


# ---- bin/office-modem

LIMITED = 10
# On a busy machine a client asks twice.
BOOTED, RENEWED = "( offer)+( ack)+(( cpe-offer)+( cpe-ack)+){2}", "( cpe-ack){2,}"


def modem_boots(devices, *more):
    """The status of bin/office-modem with so many devices, and what it says of them."""
    words = [os.path.join(ROOT, "bin", "office-modem"), "--server", SERVER, "--relay", RELAY, "--mac", leases.mac(LIMITED).hex(), "--serial", modems.serial(LIMITED),
             "--devices", str(devices), *more]
    done = subprocess.run(words, stdout=subprocess.PIPE, timeout=PATIENCE)
    return done.returncode, [line for line in done.stdout.decode().splitlines() if line.startswith(("device", "RELEASE", "FAILED"))]


def in_words():
    """bin/office-modem says who has which address, who is refused and who gives back."""
    furnish()
    given = [(place, mac_of(LIMITED, place).hex(":"), f"10.64.64.{place - 1}") for place in (1, 2)]
    has = [f"device {place}  {mac} has {held} for 3600 s, by {SERVER}" for place, mac, held in given]
    renewed = [f"device {place}  renewed: {held} for 3600 s, by {SERVER}" for place, _, held in given]
    gone = [f"RELEASE   {held} of device {place} is given back" for place, _, held in given]
    expected = [*has, f"device 3  {mac_of(LIMITED, 3).hex(':')}: no answer to its DISCOVER", *renewed, *gone, f"RELEASE   {ip(modems.FIRST)} is given back",
                "FAILED    of 3 devices 2 have addresses"]
    for devices, more, wanted in ((3, ["--release"], (1, expected)), (2, [], (0, [*has, *renewed]))):
        found = modem_boots(devices, *more)
        check(found == wanted, f"bin/office-modem --devices {devices}: {found}, and not {wanted}")


def helper():
    with tempfile.TemporaryFile() as log:
        with running(log):
            in_words()
            clerk.ask("GET", "/site")
        are_of_the_form(log, f"{BOOTED}( cpe-limit){{3}}{RENEWED}( cpe-released){{2}} released{BOOTED}{RENEWED}", "bin/office-modem")


def are_of_the_form(log, form, what):
    words = "".join(f" {line.split(' ')[1]}" for line in said(log, "dhcp"))
    check(re.fullmatch(form, words), f"{what}: the office's words are{words}")


# ---- udhcpc, behind a relay of this script

class Cable:
    """A cable between the office's network, which is this process's, and a device's, and the relay at its upper end, which names the modem."""

    def __init__(self, number):
        self.way = split(82, leases.agent(leases.mac(number)))
        self.program = subprocess.Popen(["unshare", "-n", "sleep", "1000"])
        while os.readlink(f"/proc/{self.program.pid}/ns/net") == os.readlink("/proc/self/ns/net"):
            time.sleep(0.02)
        for words in (f"link add down0 type veth peer name cpe0 netns {self.program.pid}", f"addr add {CABLE}/24 dev down0", "link set down0 up"):
            subprocess.run(["ip", *words.split(" ")], check=True)
        # Who binds this address hears what is sent to all.
        self.heard, self.own = port_of("255.255.255.255", 67), port_of(CABLE, 67)
        self.own.setsockopt(socket.SOL_SOCKET, socket.SO_BROADCAST, 1)
        self.over = threading.Event()
        self.thread = threading.Thread(target=self.relay)
        self.thread.start()

    def within(self, *words):
        return ["nsenter", "-t", str(self.program.pid), "-n", *words]

    def relay(self):
        while not self.over.is_set():
            for each in select.select([self.heard, self.own], [], [], 0.1)[0]:
                data = each.recv(4096)
                if each is self.heard:
                    self.own.sendto(self.named(data), (SERVER, PORTS[0]))
                else:
                    self.own.sendto(data.replace(self.way, b""), ("255.255.255.255", 68))

    def named(self, data):
        """A client's message, as the relay hands it on: with its own address, and the modem's behind the client's options."""
        at = 240
        while data[at] != 255:
            at += 1 if data[at] == 0 else 2 + data[at + 1]
        return data[:3] + bytes([data[3] + 1]) + data[4:24] + leases.address(CABLE) + data[28:at] + self.way + b"\xff"

    def end(self):
        self.over.set()
        self.thread.join(timeout=PATIENCE)
        self.heard.close()
        self.own.close()
        self.program.kill()
        self.program.wait(timeout=PATIENCE)


def udhcpc_lives(cable, folder):
    """udhcpc gets an address, renews it and gives it back."""
    hook, answers = (os.path.join(folder, name) for name in ("hook", "answers"))
    for path, text in ((answers, ""), (hook, HOOK % (CABLE, answers))):
        with open(path, "w", encoding="utf-8") as held:
            held.write(text)
    os.chmod(hook, 0o755)
    tool = found("udhcpc") or found("busybox")
    words = [tool, *(["udhcpc"] if tool.endswith("busybox") else []), "-i", "cpe0", "-f", "-s", hook, "-T", "2"]
    client = subprocess.Popen(cable.within(*words), stdout=subprocess.DEVNULL, stderr=subprocess.DEVNULL)
    try:
        first = told(answers, 1)
        client.send_signal(signal.SIGUSR1)
        again = told(answers, 2)
        check((first[:2], again[:2]) == (["bound", "10.130.0.10"], ["renew", "10.130.0.10"]), f"udhcpc: {first} {again}")
        client.send_signal(signal.SIGUSR2)
        time.sleep(1)
    finally:
        client.terminate()
        client.wait(timeout=PATIENCE)


def real_client():
    with tempfile.TemporaryFile() as log, tempfile.TemporaryDirectory() as folder:
        talk = Talk(ROWS)
        with running(log), contextlib.closing(talk):
            furnish()
            clerk.puts("/device-pools/10", body_of(CABLE, "10.130.0.10", "10.130.0.19", 24))
            talk.hears(talk.say(leases.discover(**modems.modem(10))), "the modem is offered an address")
            talk.hears(talk.say(leases.selects(ip(modems.FIRST), server=SERVER, **modems.modem(10))), "the modem boots")
            cable = Cable(10)
            try:
                udhcpc_lives(cable, folder)
            finally:
                cable.end()
            clerk.ask("GET", "/site")
        are_of_the_form(log, " offer ack( cpe-offer)+( cpe-ack){2,} cpe-released", "udhcpc")
        print("udhcpc: an address, renewed and given back")


# ---- the whole

def asking():
    addresses_of_lo()
    helper()
    if found("udhcpc", "busybox") and all(map(found, ("ip", "nsenter"))):
        real_client()
    else:
        print("udhcpc: skipped, since it, or ip and nsenter, isn't here")


def main():
    return only_alone(asking, 120, "clients of devices are served")


if __name__ == "__main__":
    sys.exit(script(main, asking))
