#!/usr/bin/env python3
"""`officed drill`: its one line for a few numbers of modems, and what it refuses.

The numbers are those of the rules: an active modem's file has 88 bytes in 3 blocks of 44 (the last
is empty), and that of a suspended one, which each tenth is, 76 bytes in 2.
"""
import subprocess
import sys
import time

from harness import PROGRAM, check, script


def drilled(*words, output=subprocess.PIPE):
    began = time.perf_counter()
    done = subprocess.run([PROGRAM, "drill", *words], stdout=output, stderr=subprocess.PIPE,
                          stdin=subprocess.DEVNULL, timeout=300, check=False)
    return done, time.perf_counter() - began


def summary(count):
    suspended = count // 10
    active = count - suspended
    return (f"drill {count} offers {count} acks {count} files {count}"
            f" blocks {3 * active + 2 * suspended} octets {88 * active + 76 * suspended}\n")


def main():
    for count in (1, 9, 10, 11, 100, 1000, 4000):
        done, seconds = drilled(str(count))
        check(done.returncode == 0, f"drill {count}: status {done.returncode}")
        check(done.stdout.decode() == summary(count), f"drill {count}: {done.stdout}")
        check(not done.stderr, f"drill {count} says nothing else: {done.stderr}")
        print(f"drill {count}: {seconds:.2f} s")
    check(drilled("007")[0].stdout.decode() == summary(7), "zeros in front of a number")
    for words in ([], ["0"], ["4001"], ["-1"], ["x"], [""], ["1", "2"]):
        done, _ = drilled(*words)
        check((done.returncode, done.stdout) == (1, b"words refused\n"), f"words: {words}")
    with open("/dev/full", "wb") as full:
        check(drilled("1", output=full)[0].returncode == 4, "a full disk is status 4")


if __name__ == "__main__":
    sys.exit(script(main))
