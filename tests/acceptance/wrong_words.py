#!/usr/bin/env python3
"""What is wrong with a helper's words or files is said in words, and never in Python's.

Each helper of bin/ is given words, files and values that can't be right; none prints a traceback or
a message that Python made, each ends with the status of its page, and what it says names the wrong
value. An import's fault names line, column and value; a pool that can't serve its addresses is put
with a warning. It ends what it started, and takes some twenty seconds.
"""
import json
import os
import re
import subprocess
import sys
import tempfile

from harness import ROOT, check, free_ports, is_built, script, serving
from harness.clerks import Clerk, wait_until_answering
from harness.told import SECRET
from clerk_examples import clerk
from store_reader import ROWS, made

# What Python says of a fault, in its own form.
PYTHON = re.compile(
    r"Traceback|\bFile \"|Errno|invalid literal|non-hexadecimal number|not enough values|too many"
    r" values|out of range|must be in range|must be 0-65535|Expected 4 octets|codec can't|unknown"
    r" url type|nonnumeric port|invalid (int|float) value|does not match format|could not convert"
    r"|unconverted data|%Y|Invalid IPv6|has no attribute|NoneType|\bNone\b|object is not|Error\(")
# The helper, its words, the status to end with, and what it says. NAME.db, journal and text are
# files of this script, and `nowhere` is none.
WORDS = [
    ("office-modem", "--ports 1", 2, "1 isn't three ports"),
    ("office-modem", "--ports a,b,c", 2, "a isn't a number from 1 to 65,535"),
    ("office-modem", "--ports 70000,37,69", 2, "70000 isn't a number from 1 to 65,535"),
    ("office-modem", "--mac zz", 2, "zz isn't a hardware address"),
    ("office-modem", "--mac 02aabbccddzz", 2, "02aabbccddzz isn't a hardware address"),
    ("office-modem", "--mac 02aabb", 2, "02aabb isn't a hardware address"),
    ("office-modem", "--secret xyz", 2, "it isn't bytes in hexadecimal"),
    ("office-modem", "--secret 123", 2, "it isn't bytes in hexadecimal"),
    ("office-modem", "--block x", 2, "x isn't a number from 0 to 65,464"),
    ("office-modem", "--block 99999", 2, "99999 isn't a number from 0 to 65,464"),
    ("office-modem", "--devices x", 2, "x isn't a number from 0 to 254"),
    ("office-modem", "--relay nonsense", 2, "nonsense isn't an IPv4 address"),
    ("office-modem", "--relay 300.1.1.1", 2, "300.1.1.1 isn't an IPv4 address"),
    ("office-modem", "--device-relay x", 2, "x isn't an IPv4 address"),
    ("office-modem", "--server no.such.machine.invalid", 2,
     "no.such.machine.invalid isn't an address"),
    ("office-modem", "--ask-lease nonsense", 2, "nonsense is neither"),
    ("office-modem", "--serial " + 300 * "x", 2, "a serial number has at most"),
    ("office-clerk", "--office nonsense get hubs/0", 2, "nonsense isn't an office's address"),
    ("office-clerk", "--office http://127.0.0.1:x get hubs/0", 2, "isn't an office's address"),
    ("office-clerk", "--office http://127.0.0.1:99999 get hubs/0", 2, "isn't an office's address"),
    ("office-clerk", "--office ftp://x get hubs/0", 2, "ftp://x isn't an office's address"),
    ("office-clerk", "--office http://[::1 get hubs/0", 2, "isn't an office's address"),
    ("office-clerk", "--office http://no.such.machine.invalid get hubs/0", 3, "no answer from"),
    ("office-clerk", "--office http://127.0.0.1:1 get hubs/0", 3, "Connection refused"),
    ("office-clerk", "--office https://127.0.0.1:1 --ca nowhere get hubs/0", 2, "certificates"),
    ("office-clerk", "--office https://127.0.0.1:1 --ca text get hubs/0", 2, "certificates"),
    ("office-clerk", "put hubs/0 @nowhere", 2, "nowhere: No such file"),
    ("office-clerk", "import nowhere", 2, "nowhere: No such file"),
    ("office-clerk", "import text", 2, "the first line isn't the names of the columns"),
    ("office-clerk", "import .", 2, ".: Is a directory"),
    ("office-clerk", "import --batch x text", 2, "x isn't a number from 0 to"),
    ("office-clerk", "import --batch 18446744073709551616 text", 2, "isn't a number from 0 to"),
    ("office-clerk", "get hubs/\xe9", 2, "hubs/\xe9 isn't a path"),
    ("office-all", "--offices nonsense get hubs/0", 2, "nonsense isn't an office's address"),
    ("office-desk", "--port 99999", 2, "99999 isn't a port, 1 to 65535"),
    ("office-desk", "--port x", 2, "x isn't a port"),
    ("office-desk", "--port 0", 2, "0 isn't a port"),
    ("office-desk", "--office nonsense", 2, "nonsense isn't an office's address"),
    ("office-desk", "--page nowhere", 2, "MESSAGES.md isn't there"),
    ("office-counts", "nowhere", 2, "nowhere: No such file"),
    ("office-counts", ".", 2, ".: Is a directory"),
    ("office-counts", "--every x", 2, "x is no number of seconds"),
    ("office-counts", "--every -1", 2, "-1 is no number of seconds"),
    ("office-counts", "--prometheus nowhere/x.prom", 2, "nowhere"),
    ("office-sql", "nowhere pools", 2, "nowhere can't be read: No such file"),
    ("office-sql", ". pools", 2, ". can't be read: Is a directory"),
    ("office-sql", "text pools", 2, "text can't be read: file is not a database"),
    ("office-sql", "bad.db leases", 2, "a lease's row has another form"),
    ("office-sql", "bad.db batches", 2, "bad.db can't be read: a row has another form"),
    ("office-sql", "store.db modems x", 2, "x is no number of a row"),
    ("office-sql", "store.db lease zz", 2, "zz is no hardware address"),
    ("office-sql", "--at x store.db pools", 2, "x is no moment"),
    ("office-sql", "--pid x store.db pools", 2, "x is no whole number"),
    ("office-sql", "store.db end-leases nonsense", 2, "nonsense is no IPv4 address"),
    ("office-sql", "store.db end-leases --later-than tomorrow", 2, "tomorrow is no moment: give"),
    ("office-sql", "store.db end-leases --later-than nowx", 2, "nowx is no moment: give"),
    ("office-sql", "store.db compact nowhere/x", 2, "nowhere/x.part can't be read: No such file"),
    ("office-sql", "store.db compact text", 2, "text is there already"),
    ("office-sql", "--live nowhere pools", 2, "nowhere can't be read: No such file"),
    ("office-copy", "--pid x store.db out", 2, "x is no number of a process"),
    ("office-copy", "--most x store.db out", 2, "x is no number of seconds"),
    ("office-copy", "--most nan store.db out", 2, "nan is no number of seconds"),
    ("office-copy", "nowhere out", 2, "nowhere: No such file"),
    ("office-copy", "store.db nowhere/out", 2, "there is no folder"),
    ("office-copy", "text out", 1, "the copy can't be read: file is not a database"),
    ("office-copy", "--pid 99999999 store.db out", 3, "there is no process 99999999"),
    ("office-copy", "--program nowhere store.db out", 2, "nowhere: No such file"),
    ("office-watch", "--capture nowhere text", 2, "nowhere: No such file"),
    ("office-watch", "--capture text text", 2, "isn't of tcpdump's form"),
    ("office-watch", "--find zz store.db", 2, "zz is no hardware address"),
    ("office-watch", "--find 02aabbccddee nowhere", 2, "nowhere can't be read"),
    ("office-watch", "--capture text --ports x text", 2, "x isn't three ports"),
    ("office-watch", "--capture text --page nowhere text", 2, "MESSAGES.md isn't there"),
    ("office-build", "nonsense", 2, "usage: office-build"),
]


def in_its_own_words(said, what):
    """No line is a message of Python's."""
    found = PYTHON.search(said)
    check(found is None, f"{what}: {found and found[0]!r} in {said!r}")


def wrong_words(folder):
    """Each of the words, in a folder with some files."""
    with open(os.path.join(folder, "text"), "w", encoding="utf-8") as held:
        held.write("hello\n")
    made(os.path.join(folder, "store.db"), ROWS).close()
    made(os.path.join(folder, "bad.db"),
         [(b"\x07" + bytes(4), b"\x02"), (b"\x09" + bytes(8), b"\x03" + bytes(20))]).close()
    for name, words, status, part in WORDS:
        done = subprocess.run([os.path.join(ROOT, "bin", name), *words.split(" ")], cwd=folder,
                              stdin=subprocess.DEVNULL, stdout=subprocess.PIPE,
                              stderr=subprocess.STDOUT, timeout=60)
        said, what = done.stdout.decode("utf-8", "replace"), f"{name} {words[:60]}"
        in_its_own_words(said, what)
        check(done.returncode == status, f"{what}: status {done.returncode}: {said}")
        check(part in said, f"{what}: {said!r} has {part!r}")


def ports_taken():
    """A port that somebody has is named."""
    ports = free_ports()
    with tempfile.TemporaryFile() as log, serving(ports, log):
        wait_until_answering(ports[3])
        done = subprocess.run([os.path.join(ROOT, "bin", "office-desk"), "--port", str(ports[3])],
                              stdout=subprocess.PIPE, stderr=subprocess.STDOUT, timeout=60)
    said = done.stdout.decode()
    in_its_own_words(said, "a port that is taken")
    check(done.returncode == 2 and f"port {ports[3]} of 127.0.0.1: Address already in use" in said,
          f"a port that is taken: {said}")


def in_use(folder):
    """Leases of a store that an office has open aren't ended, and what to do is said."""
    path, ports = os.path.join(folder, "served.db"), free_ports()
    with tempfile.TemporaryFile() as log, serving(ports, log, store=path):
        wait_until_answering(ports[3])
        for words in (["--live", path, "end-leases"], [path, "end-leases"]):
            done = subprocess.run([os.path.join(ROOT, "bin", "office-sql"), *words], timeout=60,
                                  stdout=subprocess.PIPE, stderr=subprocess.STDOUT)
            said = done.stdout.decode()
            check((done.returncode, said) == (
                3, "office-sql: an office has it open: stop it first\n"), f"{words}: {said}")


# ---- imports

SITE = {"server": "10.0.0.2", "secret": SECRET.hex(), "offset": 0, "lease": 3600, "log": "0.0.0.0"}
GOLD = {"name": "gold", "settings": [{"code": code, "parts": [{"code": 1, "hex": reference},
                                                              {"code": 6, "hex": "07"}]}
                                     for code, reference in ((24, "0001"), (25, "0002"))]}
MODEMS, PEOPLE = b"mac,subscriber,class,serial\n", b"subscriber,active,cpes,name\n"


def many(count, *last):
    """So many good modems, and other rows after them."""
    rows = [b"06%010x,7,1,SN" % each for each in range(count)]
    return MODEMS + b"\n".join([*rows, *last]) + b"\n"


# A file, and what is said of it: its line, column and value, and what to write instead.
IMPORTS = [
    (many(2999, b"02:zz:00:00:00:01,7,1,"), "line 3,001, column mac: `02:zz:00:00:00:01`: ",
     "twelve hexadecimal digits"),
    (many(2, b"", b"", b"02:zz:00:00:00:02,7,1,"), "line 6, column mac: `02:zz:00:00:00:02`: ",
     "twelve hexadecimal digits"),
    (MODEMS + b"020000000003,seven,1,\n", "line 2, column subscriber: `seven`: ",
     "a number from 0"),
    (MODEMS + b"020000000003,8,1,\n", "line 2, column subscriber: `8`: there is no such subscriber",
     "put the subscriber first"),
    (many(2000, b"020000000003,7,9,"), "line 2,002, column class: `9`: there is no such class",
     "put the class first"),
    (MODEMS + b'020000000003,7,1,"a\nb"\n\n020000000004,7\n', "line 5: `020000000004,7`: ",
     "hasn't four fields"),
    (PEOPLE + b'7,yes,2,"Ann\r\nLee"\r\n8,maybe,2,Bob\r\n', "line 4, column active: `maybe`: ",
     "write `yes` or `no`"),
    (b"\xef\xbb\xbf" + PEOPLE + b"7,yes,999,Ann\n", "line 2, column cpes: `999`: ", "1 to 254"),
    (PEOPLE + b"7,yes,2," + 70 * b"n" + b"\n", "line 2, column name: `" + 57 * "n" + "...`: ",
     "at most 64 bytes"),
    (PEOPLE + b"7,yes,2,\xff\n", "line 2, column name: `\ufffd`: ", "UTF-8"),
]


def imports(port):
    for kind, row in (("hubs/0", SITE), ("classes/1", GOLD),
                      ("subscribers/7", {"active": True, "cpes": 2, "name": "Ann"})):
        Clerk(port, patience=10).puts("/" + kind, row)
    for data, where, cure in IMPORTS:
        status, _, said = clerk(port, "import", "-", given=data)
        in_its_own_words(said, where)
        check(status == 1 and where in said and cure in said, f"{where}: {status} {said}")


# ---- pools

POOL = {"first": "10.64.0.10", "last": "10.64.0.99", "prefix": 24, "router": "10.64.0.1",
        "relay": "10.64.0.1", "hub": 0}
# What is changed of the pool, and of what the warnings tell.
POOLS = [
    ({}, []),
    ({"first": "10.64.0.0", "router": "10.64.0.254", "relay": "10.64.0.254"},
     ["10.64.0.0 is the network's own address"]),
    ({"last": "10.64.0.255"}, ["10.64.0.255 is the network's broadcast address"]),
    ({"router": "10.64.0.50"}, ["10.64.0.50 is the router"]),
    ({"relay": "10.64.0.50"}, ["10.64.0.50 is the relay"]),
    ({"router": "10.65.0.1"}, ["the router 10.65.0.1 isn't in the pool's network, 10.64.0.0/24"]),
    ({"last": "10.64.1.9", "prefix": 24},
     ["10.64.1.9 isn't in the network of 10.64.0.10, 10.64.0.0/24",
      "10.64.0.255 is the network's broadcast address"]),
    # RFC 1918's 10.0.0.0/8, and a point to point network of four addresses.
    ({"first": "10.0.0.10", "last": "10.0.0.20", "prefix": 8, "router": "10.255.255.254"}, []),
    ({"first": "10.64.0.1", "last": "10.64.0.1", "prefix": 30, "router": "10.64.0.2",
      "relay": "10.64.0.2"}, []),
]


def pools(port):
    for kind in ("pools/1", "device-pools/1"):
        for changed, parts in POOLS:
            status, _, said = clerk(port, "put", kind, json.dumps({**POOL, **changed}))
            check(status == 0, f"{kind} {changed} is put: {said}")
            check(said.count("warning: ") == len(parts) and all(part in said for part in parts),
                  f"{kind} {changed}: {said}")
        check(clerk(port, "delete", kind)[0] == 0, f"{kind} is removed")
    check(clerk(port, "put", "pools/1", "[]")[0] == 1, "what isn't a row is refused as before")


def main():
    with tempfile.TemporaryDirectory() as folder:
        wrong_words(folder)
        print(f"{len(WORDS)} wrong words")
        if not is_built():
            return 1
        in_use(folder)
    ports_taken()
    ports = free_ports()
    with tempfile.TemporaryFile() as log, serving(ports, log):
        wait_until_answering(ports[3])
        imports(ports[3])
        pools(ports[3])
    print(f"{len(IMPORTS)} imports and {2 * len(POOLS)} pools")
    return None


if __name__ == "__main__":
    sys.exit(script(main, needs_program=False))
