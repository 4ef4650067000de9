#!/usr/bin/env python3
"""What docs/COMPARISON.md names of other programs is in their manuals.

Options, DBus methods and objects that the page names are looked for in the manuals of dnsmasq, ISC
dhcpd and Kea, where their Debian packages (dnsmasq-base, isc-dhcp-server, kea-doc) are installed,
or unpacked in the folder that MANUALS names; what isn't there is skipped. It takes a second.
"""
import gzip
import os
import re
import sys

from harness import check, script, text_of

FOLDER = os.environ.get("MANUALS", "/")
HOOKS = "usr/share/doc/kea/html/_sources/arm/hooks.rst.txt"
MANUALS = {
    "dnsmasq": ("usr/share/man/man8/dnsmasq.8.gz", "usr/share/doc/dnsmasq-base/DBus-interface.gz"),
    "ISC dhcpd": ("usr/share/man/man8/dhcpd.8.gz",), "Kea": (HOOKS,)}


def manual(name):
    """The text of a program's manuals; empty if one isn't there."""
    paths = [os.path.join(FOLDER, each) for each in MANUALS[name]]
    if not all(map(os.path.exists, paths)):
        print(f"{name}: skipped, since its manual isn't here")
        return ""
    parts = []
    for path in paths:
        with (gzip.open if path.endswith(".gz") else open)(path, "rb") as held:
            parts.append(held.read().decode("utf-8", "replace").replace("\\-", "-"))
    return "\n".join(parts)


def columns(page):
    """The rows of the page's first table: what it is of, and the cell of each program."""
    rows = [[cell.strip() for cell in line.strip("|").split(" | ")]
            for line in page.splitlines() if line.startswith("| ")]
    names = next(row for row in rows if "dnsmasq" in row)
    return [dict(zip(names, row)) for row in rows if len(row) == len(names)]


def main():
    page = text_of("docs", "COMPARISON.md")
    rows, text = columns(page), manual("dnsmasq")
    cells = " ".join(row["dnsmasq"] for row in rows)
    options = set(re.findall(r"`(--[a-z-]+)", cells))
    methods = set(re.findall(r"`([A-Z]\w+)`", cells))
    check({"--tftp-unique-root", "--dhcp-hostsdir"} <= options, f"options: {options}")
    check({"AddDhcpLease", "GetMetrics"} <= methods, f"methods: {methods}")
    for name in options | methods if text else ():
        check(name in text, f"dnsmasq's manual has {name}")
    changes = next(row for row in rows if "change of configuration while it runs" in row.values())
    check("OMAPI" in changes["ISC dhcpd"], "dhcpd's OMAPI changes what it has")
    text = manual("ISC dhcpd")
    for name in ("HOST", "GROUP", "LEASE") if text else ():
        check(f".SH THE {name} OBJECT" in text, f"OMAPI has {name}")
    starred = sum("a hook *" in row["Kea"] for row in rows)
    check(starred >= 3 and "support customers only" in page, f"hooks for customers: {starred}")
    text = manual("Kea")
    for name in ("Host Commands", "Leasequery", "Limits") if text else ():
        row = re.search(rf":ref:`{name} <[^\n]*\n[^\n]*", text)
        check(row and "ISC support" in row[0] and "customers" in row[0], f"{name} is for customers")
    clock = next(row for row in rows if "time (RFC 868)" in row.values())
    check("chrony and ntpd don't" in clock["Kea"], "chrony speaks NTP")


if __name__ == "__main__":
    sys.exit(script(main, needs_program=False))
