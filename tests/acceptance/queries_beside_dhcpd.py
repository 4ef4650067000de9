#!/usr/bin/env python3
"""What ISC's dhcpd answers to relays' queries for leases (RFC 4388), beside the model of tests/examples/leases.py by which officed's answers are compared.

In two networks of its own, of dhcpd and of a relay, a modem gets an address from dhcpd and gives it back; before, between and behind that the relay asks who
has an address and which address the modem has. The kind of each answer is the model's, and of an active lease the address, its owner and the seconds that
are left; where both differ on purpose, as docs/DECISIONS.md says, that is tested too. It needs no officed, ends what it started, and takes some seconds.
"""
# needs: dhcpd unshare nsenter ip
import os
import shutil
import socket
import subprocess
import sys
import tempfile
import time

from harness import HERE, ROOT, check, only_alone, script
from harness.told import SECRET

sys.path.insert(0, os.path.join(ROOT, "tests", "examples"))
import leases  # noqa: E402
from messages import ACK, ACTIVE, OFFER, UNASSIGNED, UNKNOWN, option, query, reply_in  # noqa: E402

SERVER, RELAY, HELD, FREE, OUTSIDE = "10.0.0.2", "10.64.0.1", "10.64.0.10", "10.64.0.50", "10.99.0.1"
LEASE = 3600
CONFIGURED = f"""
authoritative;
allow leasequery;
default-lease-time {LEASE};
max-lease-time {LEASE};
subnet 10.0.0.0 netmask 255.255.255.0 {{ }}
subnet 10.64.0.0 netmask 255.255.255.0 {{ range {HELD} 10.64.0.99; option routers {RELAY}; }}
"""
NETWORK = """
ip link set lo up
ip link add ve0 type veth peer name ve1
ip addr add 10.0.0.2/24 dev ve0
ip link set ve0 up
ip link set ve1 netns {0}
nsenter -t {0} -n ip link set lo up
nsenter -t {0} -n ip addr add 10.0.0.1/24 dev ve1
nsenter -t {0} -n ip addr add 10.64.0.1/32 dev lo
nsenter -t {0} -n ip link set ve1 up
ip route add 10.64.0.0/24 via 10.0.0.1
"""
# The office's rows as dhcpd is configured.
ROWS = [f"hub 0 {SERVER} {SECRET.hex()} 0 {LEASE} 0.0.0.0", f"pool 1 {HELD} 10.64.0.99 24 {RELAY} {RELAY}", leases.modem_row(0xEE)]


class Both:
    """The relay's socket to dhcpd, and the model."""

    def __init__(self):
        self.model, self.socket = leases.Office(ROWS), socket.socket(socket.AF_INET, socket.SOCK_DGRAM)
        self.socket.bind((RELAY, 67))
        self.socket.settimeout(5)

    def ask(self, data):
        """dhcpd's answer, and the model's."""
        self.socket.sendto(data, (SERVER, 67))
        try:
            came = self.socket.recv(2048)
        except socket.timeout:
            came = None
        reply = self.model.take(int(time.time()), data)[1]
        return came, reply[1] if reply else None

    def agree(self, data, kind, what):
        """Both say the same."""
        came, own = self.ask(data)
        if not check_there(came, own, what):
            return
        theirs, ours = reply_in(came), reply_in(own)
        check(theirs["kind"] == ours["kind"] == kind, f"{what}: {theirs['kind']} and {ours['kind']}")
        check(came[:3] + came[4:8] + came[12:28] + came[28:44] == own[:3] + own[4:8] + own[12:28] + own[28:44], f"{what}: the fixed part\n{came.hex()}\n{own.hex()}")
        held, mine = dict(theirs["options"]), dict(ours["options"])
        check(held[54] == mine[54], f"{what}: the server")
        if kind == ACTIVE:
            left, told = (int.from_bytes(each[51], "big") for each in (held, mine))
            check(abs(left - told) <= 2, f"{what}: {left} and {told} s are left")
        else:
            check(51 not in held and 51 not in mine, f"{what}: no time")

    def differ(self, data, theirs, ours, what):
        """dhcpd's answer is of one kind, and the office's of another, or there is none."""
        came, own = self.ask(data)
        kinds = [None if each is None else reply_in(each)["kind"] for each in (came, own)]
        check(kinds == [theirs, ours], f"{what}: {kinds}, and not {[theirs, ours]}")


def check_there(came, own, what):
    check(came is not None and own is not None, f"{what}: both answer")
    return came is not None and own is not None


def asked_about_none(both):
    both.agree(leases.who_has(FREE), UNASSIGNED, "an address that nobody has")
    both.agree(leases.who_has(OUTSIDE), UNKNOWN, "an address of no pool")
    both.agree(leases.has_which(0xEF), UNKNOWN, "a modem without a lease")


def differences(both):
    """What the standard leaves open, or the office does otherwise on purpose."""
    both.differ(leases.who_has(HELD, kind=b"\1\6"), ACTIVE, None, "by address, with a type of hardware")
    both.differ(leases.who_has(HELD, hardware=leases.MAC), ACTIVE, None, "by address, with a hardware address")
    both.differ(query(relay=leases.address(RELAY), options=option(61, b"\1" + leases.MAC)), UNKNOWN, None, "by client identifier")


def asking():
    both = Both()
    both.agree(leases.who_has(HELD), UNASSIGNED, "the first address")
    asked_about_none(both)
    came, _ = both.ask(leases.discover())
    check(came is not None and reply_in(came)["kind"] == OFFER and came[16:20] == leases.address(HELD), "dhcpd offers the first address")
    both.agree(leases.who_has(HELD), UNASSIGNED, "an address that is offered")
    both.differ(leases.has_which(), UNASSIGNED, UNKNOWN, "a modem that was offered an address")
    came, _ = both.ask(leases.selects(HELD))
    check(came is not None and reply_in(came)["kind"] == ACK, "dhcpd acknowledges it")
    both.agree(leases.who_has(HELD), ACTIVE, "an address that a modem has")
    both.agree(leases.has_which(), ACTIVE, "a modem that has an address")
    both.agree(leases.who_has(HELD, flags=0x8000, secs=9, options=option(55, b"\x33\x52\x5b\x5c")), ACTIVE, "with flags, seconds and wanted options")
    differences(both)
    asked_about_none(both)
    both.socket.sendto(leases.releases(HELD, relay=RELAY), (SERVER, 67))
    both.model.take(int(time.time()), leases.releases(HELD, relay=RELAY))
    time.sleep(0.5)
    both.agree(leases.who_has(HELD), UNASSIGNED, "an address that was given back")
    both.differ(leases.has_which(), UNASSIGNED, UNKNOWN, "a modem that gave its address back")


def beside():
    """dhcpd in this network, and the relay in another one."""
    with tempfile.TemporaryDirectory() as folder, subprocess.Popen(["unshare", "-n", "sleep", "300"]) as other:
        time.sleep(0.3)
        subprocess.run(["sh", "-ec", NETWORK.format(other.pid)], check=True)
        for name, text in (("dhcpd.conf", CONFIGURED), ("dhcpd.leases", "")):
            with open(os.path.join(folder, name), "w", encoding="utf-8") as held:
                held.write(text)
        with open(os.path.join(folder, "log"), "wb") as log:
            words = [shutil.which("dhcpd"), "-4", "-f", "-d", "-cf", "dhcpd.conf", "-lf", "dhcpd.leases", "-pf", "dhcpd.pid", "ve0"]
            with subprocess.Popen(words, cwd=folder, stdout=log, stderr=log) as dhcpd:
                time.sleep(1.5)
                done = subprocess.run(["nsenter", "-t", str(other.pid), "-n", sys.executable, os.path.join(HERE, "..", "queries_beside_dhcpd.py"), "asking"], check=False)
                dhcpd.terminate()
        other.terminate()
    return done.returncode


def main():
    return only_alone(beside, 300, "both answer alike")


if __name__ == "__main__":
    sys.exit(script(main, asking, beside, needs_program=False))
