#!/usr/bin/env python3
"""The lines of files.main, computed by Python's hashlib and hmac: modems' files at three moments."""
import hashlib
import hmac

ORDER = [1, 2, 3, 4, 17, 43, 6, 18, 19, 20, 22, 23, 24, 25, 28, 29, 26, 35, 36, 37, 40]


def leaf(code, value):
    return (code, bytes(value))


def group(code, parts):
    return (code, b"".join(spelled(part) for part in parts))


def spelled(setting):
    return bytes([setting[0], len(setting[1])]) + setting[1]


def flow(code, reference, *more):
    return group(code, [leaf(1, reference.to_bytes(2, "big")), leaf(6, [7]), *more])


def classifier(code, reference, named):
    return group(code, [leaf(1, [reference]), leaf(3, named.to_bytes(2, "big"))])


def extensions(length):
    fields = []
    while length > 0:
        taken = min(length, 256)
        fields.append(group(43, [leaf(8, [0, 0, 0]), leaf(1, [7] * (taken - 9))]))
        length -= taken
    return fields


def add_on(number):
    named = 5 + 256 * (number + 1)
    return [flow(24, named), classifier(22, 3 + 128 + 16 * number, named)] + extensions(512 - 18)


def active(class_settings, count):
    return [leaf(3, [1])] + class_settings + [leaf(18, [2])] + [s for number in range(count) for s in add_on(number)]


def sealed(profile, now):
    time = (min(now + 2208988800, 2**64 - 1) % 2**32).to_bytes(4, "big")
    settings = profile + [leaf(19, time), leaf(20, [10, 64, 0, 10])]
    settings.append(leaf(6, hashlib.md5(b"".join(map(spelled, settings))).digest()))
    text = b"".join(spelled(s) for code in ORDER for s in settings if s[0] == code)
    settings.append(leaf(7, hmac.new(b"secret", text, hashlib.md5).digest()))
    file = b"".join(map(spelled, settings)) + b"\xff"
    return file + b"\0" * (-len(file) % 4)


def main():
    gold = [flow(24, 1, leaf(8, (10**7).to_bytes(4, "big"))), flow(25, 2, leaf(8, (10**8).to_bytes(4, "big")))]
    plain = [flow(24, 1), flow(25, 2)]
    for name, profile in [
        ("suspended", [leaf(3, [0])] + plain + [leaf(18, [2])]),
        ("gold", active(gold, 0)),
        ("middle", active(plain + extensions(457 - 18), 0)),
        ("large", active(plain + extensions(969 - 18), 0)),
        ("largest", active(plain + extensions(2048 - 18), 8)),
    ]:
        for now in (0, 2085978496, 2**64 - 1):
            file = sealed(profile, now)
            print(f"{name} {now} {len(file)} bytes 1421 sizes {hashlib.md5(file).hexdigest()}")


main()
