#!/usr/bin/env python3
"""Seals and checks configuration files with the built program, and compares with Python's own HMAC and MD5."""
import hashlib
import hmac
import random
import subprocess
import sys

from harness import PROGRAM, check, script
from harness.told import beware_of

# The codes that the termination system's check covers, in order: this project's profile.
ORDER = [1, 2, 3, 4, 17, 43, 6, 18, 19, 20, 22, 23, 24, 25, 28, 29, 26, 35, 36, 37, 40]


def do(words, data):
    done = subprocess.run([PROGRAM, *words], input=data, stdout=subprocess.PIPE, stderr=subprocess.DEVNULL, timeout=30)
    return done.returncode, done.stdout


def spelled(settings):
    return b"".join(bytes([code, len(value)]) + value for code, value in settings)


def signed(settings, secret):
    """The settings with both values behind them."""
    kept = [each for each in settings if each[0] not in (6, 7)]
    kept = kept + [(6, hashlib.md5(spelled(kept)).digest())]
    text = b"".join(spelled([each]) for code in ORDER for each in kept if each[0] == code)
    return kept + [(7, hmac.new(secret, text, hashlib.md5).digest())]


def filled(settings):
    """The file with these settings: the end marker, and zeros to a multiple of four bytes."""
    made = spelled(settings) + b"\xff"
    return made + bytes(-len(made) % 4)


def verdict(settings, secret):
    """What `check` says of a file with these settings, 6 and 7 among them."""
    kept = [each for each in settings if each[0] not in (6, 7)]
    held = {code: value for code, value in settings if code in (6, 7)}
    text = b"".join(spelled([each]) for code in ORDER for each in settings if each[0] == code)
    cm = held[6] == hashlib.md5(spelled(kept)).digest()
    cmts = held[7] == hmac.new(secret, text, hashlib.md5).digest()
    lines = f"cm {'good' if cm else 'bad'}\ncmts {'good' if cmts else 'bad'}\n".encode()
    return (0 if cm and cmts else 8), lines


def mutated(settings):
    """The same settings with one byte of a leaf's value changed."""
    places = [(at, byte) for at, (code, value) in enumerate(settings) if code not in (22, 23, 24, 25, 43) for byte in range(len(value))]
    at, byte = random.choice(places)
    code, value = settings[at]
    changed = value[:byte] + bytes([value[byte] ^ random.randrange(1, 256)]) + value[byte + 1:]
    return settings[:at] + [(code, changed)] + settings[at + 1:]


def main():
    random.seed(868)
    for trial in range(300):
        secret = random.randbytes(random.choice([1, 6, 16, 63, 64]))
        beware_of(secret)
        leaves = [code for code in range(1, 255) if code not in (22, 23, 24, 25, 43)]
        settings = [(random.choice(ORDER[:4] + leaves), random.randbytes(random.randrange(0, 40))) for _ in range(random.randrange(0, 12))]
        settings = [each for each in settings if each[0] not in (22, 23, 24, 25, 43)]
        settings += [(24, bytes([1, 2, 0, 1, 6, 1, 7])), (25, bytes([1, 2, 0, 2, 6, 1, 7]))][: random.randrange(0, 3)]
        file = spelled(settings) + b"\xff" + bytes(random.randrange(0, 5))
        both = signed(settings, secret)
        wanted = filled(both)
        hexed = secret.hex() if trial % 2 else secret.hex().upper()
        check(do(["seal", hexed], file) == (0, wanted), f"trial {trial}: sealed as Python seals")
        check(do(["seal", hexed], wanted) == (0, wanted), f"trial {trial}: sealing again gives the same")
        check(do(["check", hexed], wanted) == (0, b"cm good\ncmts good\n"), f"trial {trial}: both good")
        changed = mutated(both)
        check(do(["check", hexed], filled(changed)) == verdict(changed, secret), f"trial {trial}: one byte changed")
        other = bytes([secret[0] ^ 1]) + secret[1:]
        check(do(["check", other.hex()], wanted) == (8, b"cm good\ncmts bad\n"), f"trial {trial}: another secret")
    check(do(["check", "00"], b"\x03\x01\x01") == (8, b"refused no-end\n"), "a file without its end")
    check(do(["seal", "00"], bytes(65537)) == (9, b"refused too-long\n"), "a file that is too long")
    check(do(["seal", "0"], b"\xff") == (1, b"words refused\n"), "an odd secret")


if __name__ == "__main__":
    sys.exit(script(main))
