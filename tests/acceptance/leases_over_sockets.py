#!/usr/bin/env python3
"""officed as a relay and two hundred modems see it: DHCP over real sockets, in a network of its own.

A relay boots 200 modems, twenty at a time, with bad datagrams between; they renew without the relay, some are told no, at 255.255.255.255 too,
some decline and some release. Each byte of each reply, and the word of each line of the log, is compared with the model of tests/examples/leases.py;
then all leases are read back over HTTP. Where `unshare -rn` isn't allowed it says so and skips. It ends what it started, and takes some seconds.
"""
import sys
import tempfile
import time

from harness import have_their_lines, only_alone, said, script
from harness.modems import MODEMS, Conversation, addresses_of_lo, boot, furnish, live, read_back, running


def booting():
    """Runs in a network of its own, where nobody has these ports and all addresses may be this machine's."""
    addresses_of_lo()
    with tempfile.TemporaryFile() as log:
        with running(log):
            furnish()
            talk = Conversation()
            began = time.perf_counter()
            boot(talk)
            booted = time.perf_counter() - began
            live(talk)
            read_back(talk)
            print(f"{MODEMS} modems booted in {booted:.2f} s, with a bad datagram each; {len(talk.words)} datagrams in all")
        have_their_lines(said(log, "dhcp"), [f"dhcp {word}" for word in talk.words])


def main():
    return only_alone(booting, 60, "modems have leases")


if __name__ == "__main__":
    sys.exit(script(main, booting))
