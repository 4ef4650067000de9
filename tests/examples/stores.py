"""Sections on what keeps the tables: which keepers the sections of a script are played over, and cells that are no rows.

Each section is played over tables in memory, in cells, in a table of a database and in a journal, and the same has to come of it; all but the few
with rows that no cell can hold (`stray`), or with so many rows that a list of cells is too slow (`repeat`), which are played in memory alone. Where
calls of the keeper fail, it's memory and cells in memory, of which calls can be made to fail; the section in which each call of the outside fails is
played over a journal too in which the same calls of the disk fail: each image that a crash may leave is opened behind each commit.

Cells that are no rows are listed here by hand from the bytes of keys and rows in crates/off_rows/specs: the office doesn't open over them.
"""
import failures
from examples import outcome

# What each kind of cell lacks. A key's bytes are its kind and its numbers; a row's are its fields.
SITE = "0a000002" "06736563726574" "00000e10" "00015180" "00000000"
BAD = [
    ("a holder's address has four bytes", "0802aabbccddee", "0a"),
    ("a holder's address has no fifth byte", "0802aabbccddee", "0a40000a00"),
    ("a row has bytes", "0200000007", "-"),
    ("a kind of key is at least 1", "00", "0a"),
    ("a kind of key is at most 13", "0e00000007", "0a"),
    ("a key has all bytes of its number", "02000007", "010203416e6e"),
    ("a key has no byte behind its number", "020000000700", "010203416e6e"),
    ("a site's secret is as long as it says", "01", "0a0000024173656372657400000e100001518000000000"),
    ("a site has no byte behind its fields", "01", SITE + "00"),
    ("a hub's secret is as long as it says", "0a00000007", "0a0000024173656372657400000e100001518000000000"),
    ("a hub has all its fields", "0a00000007", SITE[:-2]),
    ("a hub has no byte behind its fields", "0a00000007", SITE + "00"),
    ("a hub's key has its number", "0a", SITE),
    ("the number of a pool's hub has four bytes", "0b00000001", "000001"),
    ("the number of a pool's hub has no fifth byte", "0b00000001", "0000000100"),
    ("a subscriber is active or not", "0200000007", "020203416e6e"),
    ("a name is as long as it says", "0200000007", "010204416e6e"),
    ("a name is UTF-8", "0200000007", "010203416eff"),
    ("a name has at most 64 bytes", "0200000007", "010241" + "41" * 65),
    ("settings are as long as they say", "030000000700", "0002" "01"),
    ("a setting is as long as it says", "030000000700", "0003" "030201"),
    ("settings end within their length", "030000000700", "0003" "030101" "ff"),
    ("a modem's serial number is as long as it says", "0402aabbccddee", "00000007" "00000001" "05534e3031"),
    ("a class has settings without a mark of their end", "0500000001", "04676f6c64" "0001" "ff"),
    ("a class has settings without pads", "0500000001", "04676f6c64" "0001" "00"),
    ("a pool's prefix and addresses have 17 bytes", "0600000001", "0a40000a0a400063180a4000010a4000"),
    ("a lease is offered, bound or declined", "070a40000a", "04" "02aabbccddee" "000000006553f100"),
    ("a bound lease has its owner", "070a40000a", "02" "000000006553f100"),
    ("a declined lease has no owner", "070a40000a", "03" "02aabbccddee" "000000006553f100"),
    ("a pool for devices has 17 bytes", "0c00000001", "0a80000a0a800014180a8000010a8000"),
    ("a pool for devices has no eighteenth byte", "0c00000001", "0a80000a0a800014180a8000010a80000100"),
    ("the key of a pool for devices has four bytes of its number", "0c000001", "0a80000a0a800014180a8000010a800001"),
    ("a device's lease is offered, bound or declined", "0d0a80000a", "04" "02aabbccddee" "0200000000a1" "000000006553f100"),
    ("a bound lease of a device has its modem and its device", "0d0a80000a", "02" "02aabbccddee" "000000006553f100"),
    ("a declined lease of a device has no owner", "0d0a80000a", "03" "02aabbccddee" "0200000000a1" "000000006553f100"),
    ("the key of a device's lease has an address", "0d0a8000", "03" "000000006553f100"),
    ("a batch is of subscribers or of modems", "090000000000000001", "03" + "00" * 16 + "00000002"),
    ("a batch has its digest", "090000000000000001", "01" + "00" * 15 + "00000002"),
]



ROWS = ['subscriber 7 active 2 "Ann"', 'subscriber 9 active 2 "Ann"', 'modem 02aabbccddee 7 1 "SN01"',
        'class 1 "gold" 24{ 1=0001 6=07 8=00989680 } 25{ 1=0002 6=07 8=05f5e100 }', "pool 1 10.64.0.10 10.64.0.99 24 10.64.0.1 10.64.0.1",
        "hub 0 10.0.0.2 736563726574 3600 86400 0.0.0.0"]

# Which keepers a section is played over; what comes of it over the first is printed.
EACH, FAILING, CRASHING, ALONE, CELLS = "memory cells database journal", "memory cells", "memory cells crashes", "memory", "cells database"


def is_of(words, lines):
    return any(line.startswith(words) for line in lines)


def keepers_of(lines):
    """The keepers of a section, by what its lines ask for."""
    if is_of("cell ", lines):
        return CELLS
    if is_of(("repeat ", "stray "), lines):
        return ALONE
    if lines[0] == f"section {failures.OF_ALL}":
        return CRASHING
    return FAILING if is_of(("fails keeper", "fails each keeper"), lines) else EACH


def name_keepers(script):
    """Puts a line that names the keepers before each section for which they aren't those of the section before."""
    begins = [place for place, line in enumerate(script) if line.startswith("section ")]
    lines, last = script[:begins[0] - 1], None
    for begin, end in zip(begins, [*begins[1:], len(script) + 1], strict=True):
        section = script[begin:end - 1]
        keepers = keepers_of(section)
        if keepers != last:
            lines += ["", f"over {keepers}"]
        lines += ["", *section]
        last = keepers
    return lines


def sections(script):
    """Writes the section on cells."""
    script.section("a cell that is no row is refused at the opening, and the tables stay", "By hand, from crates/off_rows/specs.")
    for title, ident, val in BAD:
        script.run(title, [f"cell {ident} {val}", "0 datagram time from 10.64.0.10:5000"], outcome(3, ["keeper refused"]))
    ninth = "cell 0200000009 010203416e6e"

    def shows(title, *lines, more=()):
        script.run(title, ["office", *lines, ninth, "show tables"], outcome(tables=[*ROWS, *more]))

    shows("a cell that is a row is one")
    # The site of earlier days becomes the hub 0; no other cell changes.
    shows("a cell of the site of earlier days is moved", "drop hub 0", f"cell 01 {SITE}")
    script.run("a cell of it beside a hub is refused", ["office", f"cell 01 {SITE}"], outcome(2, ["tables refused site"]))
    shows("cells of a hub and of a pool's hub", f"cell 0a00000001 {SITE}", "cell 0b00000001 00000001",
          more=["hub 1 10.0.0.2 736563726574 3600 86400 0.0.0.0", "pool-hub 1 1"])
    shows("cells of a pool for devices and of a device's lease", "cell 0c00000001 0a80000a0a800014180a8000010a800001",
          "cell 0d0a80000a 0202aabbccddee0200000000a1000000006553f100",
          more=["device-pool 1 10.128.0.10 10.128.0.20 24 10.128.0.1 10.128.0.1", "device 10.128.0.10 bound 02aabbccddee 0200000000a1 1700000000"])
