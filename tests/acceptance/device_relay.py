#!/usr/bin/env python3
"""The guide's example of devices can be tried: a modem, and devices through a relay of their own.

In a network of its own an office has the rows of CLERK_API's examples; then the lines of
docs/OPERATING.md are run as they stand: the pool for devices is put, the machine is given the
addresses, and office-modem boots a modem and two devices, whose addresses are of that pool and are
given back. Without --device-relay the devices are given nothing. It takes some ten seconds.
"""
# needs: curl ip
import os
import re
import subprocess
import sys
import tempfile

from harness import ROOT, check, only_alone, said, script, serving, text_of
from harness.clerks import wait_until_answering
from clerk_examples import clerk

PORTS = [67, 37, 69, 8080]
MODEM = os.path.join(ROOT, "bin", "office-modem")


def sh(line):
    """The status and the lines of a line of a page, with the helpers of this clone."""
    line = line.replace("office-modem", MODEM).replace(
        "office-clerk", os.path.join(ROOT, "bin", "office-clerk"))
    done = subprocess.run(["sh", "-c", line], stdout=subprocess.PIPE, stderr=subprocess.STDOUT,
                          timeout=120)
    return done.returncode, done.stdout.decode().splitlines()


def lines_with(page, *parts):
    """The lines of a page's examples that have one of these texts."""
    return [line.strip() for line in text_of("docs", page).splitlines()
            if line.startswith("    ") and any(part in line for part in parts)]


def rows():
    """The rows of CLERK_API's examples that a modem needs."""
    for line in lines_with("CLERK_API.md", *(f"-X PUT http://127.0.0.1:8080/{path}" for path in (
            "hubs/0", "classes/1", "pools/1", "subscribers/7 ", "modems/02aabbccddee"))):
        check(sh(line)[1][-1] == '{"ok":true}', line)
    for line in lines_with("OPERATING.md", "office-clerk put device-pools/1"):
        check(sh(line)[0] == 0, line)


def boots(log):
    """The lines of the guide, and what they print."""
    shown = lines_with("OPERATING.md", "--device-relay")
    check(len(shown) == 1, f"the guide has such a line: {shown}")
    status, told = sh(shown[0])
    held = [re.search(r"^device (\d)  \S+ has (\S+) for", line) for line in told]
    check(status == 0, f"the guide's line: {status} {told}")
    # The pool's first two addresses: the office gives the least free one.
    check([each.groups() for each in held if each]
          == [("1", "10.128.0.10"), ("2", "10.128.0.11")], f"what devices have: {told}")
    check(sum("is given back" in line for line in told) == 3, "all three are given back")
    check([line for line in said(log) if line.startswith("dhcp cpe-released")] == [
        "dhcp cpe-released"] * 2, "which the office's lines say")
    status, told = sh(shown[0].replace(" --device-relay 10.128.0.1", ""))
    check(status == 1 and any("of 2 devices 0 have addresses" in line for line in told),
          f"by the modem's relay they're given nothing: {told}")


def tried():
    for line in ("ip link set lo up", "ip address add 10.0.0.2/32 dev lo",
                 *lines_with("OPERATING.md", "ip route add local")):
        check(sh(line)[0] == 0, line)
    with tempfile.TemporaryFile() as log, serving(PORTS, log,
                                                  addresses={"OFFICED_UDP": "10.0.0.2"}):
        wait_until_answering(PORTS[3])
        check(clerk(PORTS[3], "get", "hubs/0")[0] == 1, "its tables are empty")
        rows()
        boots(log)


def main():
    return only_alone(tried, 300, "a modem and its devices, by the guide's lines")


if __name__ == "__main__":
    sys.exit(script(main, tried))
