"""Questions on formats, and their answers.

The answers are said here by hand, from the standards' tables, or computed by Python's csv, hashlib, hmac, ipaddress and re and the readers of
examples.py, which are written from the standards. office.py writes them into its script.
"""
import hashlib
import hmac
import ipaddress
import re

from examples import GROUPS, Fault, Script, covered, escaped, hexed, ip, quoted, read_file, sealed, spelled, verdict
from imports import HEADERS, MARK, MOST_ROWS, ImportFault, rows_of
from messages import MODEM, RELAYED, RELAYED_DISCOVER as DISCOVER, fault_of, is_query, option, options_in, query, reply_to

script = Script("formats.py", "By hand, from the formats' rules in docs/CONTRACTS.md.")
section = script.section
ask = script.pair
SECRET = b"secret"


def texts():
    section("numbers have 1 to 20 digits and are at most so great", "Leading zeros are taken, signs aren't.")
    for most, text in ((255, "0"), (255, "007"), (255, "255"), (255, "256"), (255, ""), (255, "-1"), (255, "+1"), (255, " 1"), (255, "0x1"), (255, "1.0"),
                       (2**64 - 1, "18446744073709551615"), (2**64 - 1, "18446744073709551616"), (2**64 - 1, "00000000000000000007"),
                       (2**64 - 1, "000000000000000000007"), (0, "0"), (0, "1")):
        read = re.fullmatch("[0-9]{1,20}", text) and int(text) <= most
        ask(f'number {most} "{text}"', str(int(text)) if read else "none")
    section("an address is read in its one form alone", "Python's ipaddress, which takes no leading zeros either.")
    for text in ("0.0.0.0", "10.64.0.10", "255.255.255.255", "1.20.100.9", "", "010.0.0.1", "10.0.0.01", "00.0.0.0", "256.0.0.1", "10.0.0.256", "10.0.1",
                 "10.0.0.0.1", "10.0.0.1.", ".10.0.0.1", "10..0.1", "10.0.0.1 ", "10.0.0.+1", "10.0.0.a", "4294967296"):
        try:
            answer = f"{int(ipaddress.IPv4Address(text))} {text}"
        except ValueError:
            answer = "none"
        ask(f'ip "{text}"', answer)
    section("a hardware address is read in its four forms alone", "Twelve digits; pairs with `:` or `-`; groups of four with `.`.")
    forms = ("[0-9a-fA-F]{12}", "([0-9a-fA-F]{2}:){5}[0-9a-fA-F]{2}", "([0-9a-fA-F]{2}-){5}[0-9a-fA-F]{2}", r"([0-9a-fA-F]{4}\.){2}[0-9a-fA-F]{4}")
    for text in ("02aabbccddee", "02AABBccDDEE", "02:aa:bb:CC:dd:ee", "02-AA-bb-cc-dd-eE", "02aa.BBcc.ddee", "", "02aabbccdde", "02aabbccddeeff",
                 "02-aa:bb-cc-dd-ee", "02:aa:bb:cc:dd-ee", "02:aa:bb:cc:dd:e", "02:aa:bb:cc:dd:ee:", ":02aa:bb:cc:ddee", "02aa:bbcc:ddee", "02.aa.bb.cc.dd.ee",
                 "02aa.bbcc:ddee", "02aabb.ccddee", "02 aa bb cc dd ee", "0gaabbccddee"):
        ask(f'mac "{text}"', re.sub("[^0-9a-f]", "", text.lower()) if any(re.fullmatch(form, text) for form in forms) else "none")
    section("a secret has at most 64 bytes", "")
    for count in (0, 1, 64, 65):
        ask(f"secret {count}* ff", "none" if count > 64 else "ff" * count + " " + "ff" * count)
    section("a short text is UTF-8 of at most 64 bytes", "Python's own decoder.")
    for given, data in (('""', b""), ('"Anné"', "Anné".encode()), ('64* "a"', b"a" * 64), ('65* "a"', b"a" * 65), ("ff", b"\xff"), ('"Ann" c3', b"Ann\xc3"),
                        ('62* "a" c3a9', b"a" * 62 + b"\xc3\xa9"), ('63* "a" c3a9', b"a" * 63 + b"\xc3\xa9"), ('63* "a" c3', b"a" * 63 + b"\xc3")):
        try:
            data.decode()
            good = len(data) <= 64
        except UnicodeDecodeError:
            good = False
        ask(f"short {given}", f"{data.hex()} {data.hex()}" if good else "none")


def extent_of(data):
    try:
        return f"end {read_file(data)[1]}"
    except Fault as fault:
        return str(fault)


def parts_of(data, level, outer):
    """Settings as the program prints them, with a space before each."""
    text, at = "", 0
    while at < len(data):
        code, value = data[at], data[at + 2:at + 2 + data[at + 1]]
        at += 2 + len(value)
        if level == 0 and code in GROUPS or level == 1 and outer in (22, 23) and code == 9:
            text += f" {code}{{{parts_of(value, level + 1, code)} }}"
        else:
            text += f" {code}={hexed(value)}"
    return text


def read_of(data):
    try:
        settings, end = read_file(data)
    except Fault as fault:
        return str(fault)
    return f"settings {len(settings)}{parts_of(data[:end], 0, None)}"


FILES = ["-", "ff", "03", "030101", "030101ff000000", "030101ff01", "030101ff0000ff", "03010100ff", "030101180401050001ff", "400100ff", "2b020803ff",
         "16050903050200ff", "17050903050200ff", "1803090105ff", "2b03090105ff", "19060000ff020102ff", "0900ff",
         "160901010509040202" + "00062b050803000102ff00", "16070101030903010102ff", "18030901052b00ff"]


def files():
    section("a file ends or has a first fault", "The grammar of CM-SP-MULPIv3.1, annex D.1, by a reader in Python.")
    for text in FILES:
        data = bytes.fromhex(text.replace("-", ""))
        ask(f"extent {text}", extent_of(data))
        ask(f"read {text}", read_of(data))
    section("the longest file is read", "255 settings of 255 bytes and the end marker are 65,536 bytes.")
    data = (b"\x09\xff" + b"\xff" * 255) * 255 + b"\xff"
    ask("extent 255* 09" + "ff" * 256 + " ff", extent_of(data))
    ask("read 255* 09" + "ff" * 256 + " ff", f"settings 255{parts_of(data[:-1], 0, None)}")
    section("settings are spelled where a byte can say each length", "A setting's length has one byte.")
    for count in (0, 254, 255, 256):
        value = "07" * count or "-"
        ask(f"spell 9={value}", "none" if count > 255 else f"{count + 2} {hexed(bytes([9, count]) + bytes.fromhex('07' * count))}")
    ask("spell 3=01 22{ 1=05 9{ 4=0200 } } 43{ }", "16 030101" + "1609" + "010105" + "0904" + "04020200" + "2b00")
    ask(f"spell 9{{ 1={'07' * 253} }}", f"257 {hexed(bytes([9, 255, 1, 253]) + bytes([7] * 253))}")
    ask(f"spell 9{{ 1={'07' * 254} }}", "none")
    ask("spell", "0 ")
    section("a walk lends the settings of one level", "Codes 0 and 255 have a length here.")
    ask("walk -", "end")
    ask("walk 00010aff000301010901", "0 0a@0, 255 @3, 3 01@5, cut 8")
    ask("walk 030101", "3 01@0, end")
    ask("walk 03", "cut 0")


def checks():
    section("the keyed digest has the vectors of the standard", "RFC 2202, section 2, and Python's hmac for the others.")
    for key, message in ((b"\x0b" * 16, b"Hi There"), (b"Jefe", b"what do ya want for nothing?"),
                         (b"\xaa" * 80, b"Test Using Larger Than Block-Size Key - Hash Key First"), (b"", b"message"), (b"k", b"message"), (b"A" * 63, b"message"),
                         (b"B" * 64, b"message"), (b"C" * 65, b"message"), (b"k", b"")):
        ask(f'hmac {key.hex() or "-"} "{escaped(message)}"', hmac.new(key, message, hashlib.md5).hexdigest())
    section("the values over settings in two pieces", "CM-SP-MULPIv3.1, annex C.1.1.6: the settings without 6 and 7; then those of this project's profile.")
    for first, rest in (("030101", ""), ("", "030101"), ("030101", "120101"), ("400109" + "0b023000", "11030101" + "0f" + "0610" + "00" * 16)):
        settings = read_file(bytes.fromhex(first + rest) + b"\xff")[0]
        kept = [each for each in settings if each[0] not in (6, 7)]
        ask(f"mics {SECRET.hex()} {first or '-'} {rest or '-'}",
            f"{hashlib.md5(spelled(kept)).hexdigest()} {hmac.new(SECRET, covered(settings), hashlib.md5).hexdigest()}")
    section("a file is sealed and checked", "Python's hashlib and hmac. Settings 17, 26, 43 and 64 stand neither in ascending order nor in that of the digest.")
    given = ["030101ff", "030101120101ff00", "030101130401020304ff", "0701000301010600" + "0b023000" + "110301010fff",
             "400109" + "2b050803000102" + "1a0105" + "110301010f" + "030101" + "1803010107" + "0b0102" + "1803010108" + "0900ff"]
    for text in given:
        data = bytes.fromhex(text)
        whole = sealed(data, SECRET)
        ask(f"seal {SECRET.hex()} {text}", whole.hex())
        ask(f"seal {SECRET.hex()} {whole.hex()}", whole.hex())
        ask(f"verify {SECRET.hex()} {whole.hex()}", "cm good cmts good")
        ask(f"verify {b'other'.hex()} {whole.hex()}", "cm good cmts bad")
    section("a changed byte is found", "Setting 11 isn't covered by the CMTS MIC; settings 3 and 6 are.")
    whole = sealed(bytes.fromhex("0301010b023000110301010fff"), SECRET)
    for place in (2, 6, 20, 40):
        changed = whole[:place] + bytes([whole[place] ^ 1]) + whole[place + 1:]
        cm, cmts = verdict(changed, SECRET)
        ask(f"verify {SECRET.hex()} {changed.hex()}", f"cm {'good' if cm else 'bad'} cmts {'good' if cmts else 'bad'}")
    section("a file without its values is refused", "A fault of the file first, then one of setting 6, then one of setting 7.")
    mic = "0610" + "00" * 16
    for text in ("030101180401050001ff", "070006010000", "400100ff", "070100ff", "060100" + "0700" + "0600ff", "060100ff", mic + "ff", "0700" + mic + "0700ff",
                 "070109" + mic + "ff"):
        try:
            verdict(bytes.fromhex(text), SECRET)
        except Fault as fault:
            ask(f"verify {SECRET.hex()} {text}", str(fault))
    ask(f"seal {SECRET.hex()} 030101180401050001ff", "cut 5")


UP, DOWN = "24{ 1=0001 6=07 }", "25{ 1=0002 6=07 }"
BOTH = f"{UP} {DOWN}"
RULE = "1=01 3=0001"
# Lengths of leaves by the tables of settings: code, shortest, longest.
TOP = {1: (4, 4), 2: (1, 1), 28: (2, 2), 29: (1, 1)}
FLOW = {4: (2, 16), 7: (1, 1), 8: (4, 4), 9: (4, 4), 10: (4, 4), 11: (2, 2), 12: (2, 2), 13: (2, 2), 27: (4, 4)}
UP_PARTS = {**FLOW, 15: (1, 1), 16: (4, 4), 19: (2, 2), 20: (4, 4), 21: (4, 4), 22: (1, 1)}
DOWN_PARTS = {**FLOW, 14: (4, 4)}
RULE_PARTS = {5: (1, 1), 6: (1, 1)}
FIELDS = {1: (3, 3), 2: (2, 2), 3: (4, 4), 4: (4, 4), 5: (4, 4), 6: (4, 4), 7: (2, 2), 8: (2, 2), 9: (2, 2), 10: (2, 2)}


def letters(table, twice, code):
    """A letter for each length from 0 to 17."""
    if code in twice:
        return "t" * 18
    if code not in table:
        return "u" * 18
    return "".join("+" if table[code][0] <= length <= table[code][1] else "l" for length in range(18))


def trees():
    section("parts have the lengths of their tables", "The tables of CM-SP-MULPIv3.1, annex C, as the profile takes them. One letter for each length from 0 to 17.")
    for code in [*range(64), 128, 255]:
        ask(f"fit class {code} {BOTH} ?", letters(TOP, (), code))
        ask(f"fit class {code} 24{{ 1=0001 6=07 ? }} {DOWN}", letters(UP_PARTS, (1, 6), code))
        ask(f"fit class {code} {UP} 25{{ 1=0002 6=07 ? }}", letters(DOWN_PARTS, (1, 6), code))
        ask(f"fit class {code} {BOTH} 22{{ {RULE} ? }}", letters(RULE_PARTS, (1, 3), code))
        ask(f"fit add-on {code} {BOTH} 22{{ {RULE} ? }}", letters(RULE_PARTS, (1, 3), code))
        ask(f"fit class {code} {BOTH} 22{{ {RULE} 9{{ ? }} }}", letters(FIELDS, (), code))
        ask(f"fit add-on {code} 43{{ 8=000102 ? }}", "t" * 18 if code == 8 else "+" * 18)
    section("values have the ranges of their tables", "The same tables: a reference 1 to 255, a set type 1 to 7, a priority 0 to 7, a scheduling type 1 to 7, and so on.")
    for place, code, rest, values in ((24, 1, "6=01", {"0000": 0, "00ff": 1, "0100": 0}), (24, 6, "1=0001", {"00": 0, "01": 1, "07": 1, "08": 0}),
                                      (24, 7, "1=0001 6=07", {"00": 1, "07": 1, "08": 0}), (24, 15, "1=0001 6=07", {"00": 0, "07": 1, "08": 0}),
                                      (24, 4, "1=0001 6=07", {"4100": 1, "4142": 0, "0000": 0}), (22, 1, "3=0001", {"00": 0, "7f": 1, "80": 0}),
                                      (23, 3, "1=01", {"0000": 0, "0100": 0}), (22, 6, RULE, {"01": 1, "02": 0})):
        flows = DOWN if place == 24 else BOTH
        for value, good in values.items():
            ask(f"class {flows} {place}{{ {rest} {code}={value} }}", "good" if good else f"range {place}.{code}")
    for value, good in (("00", 1), ("0f", 1), ("10", 0)):
        ask(f"add-on {UP} 22{{ 3=0001 1={value} }}", "good" if good else "range 22.1")
    for value, good in (("00", 1), ("01", 1), ("02", 0)):
        ask(f"class {BOTH} 29={value}", "good" if good else "range 29")
    section("the first fault is told", "By the walk, then what a class misses, then references of flows and of classifiers, then lengths.")
    identity = "8=000102"
    many = {name: f"43{{ {identity} 1={'01' * count} }}" for name, count in
            (("248", 248), ("254", 254), ("255", 255), ("full", 247), ("last", 229), ("over", 230), ("half", 119), ("more", 120))}
    for text, fault in (("", "missing 24"), (UP, "missing 25"), (DOWN, "missing 24"), ("24=-", "unknown-code 24"), ("1{ }", "unknown-code 1"),
                        ("3=01", "unknown-code 3"), ("24{ 9=- }", "length 24.9"), ("24{ 6=01 }", "missing 24.1"), ("24{ 1=0001 }", "missing 24.6"),
                        ("43{ 0=- 255=- }", "missing 43.8"), ("43{ 8{ } }", "unknown-code 43.8"), ("43{ 5{ } }", "unknown-code 43.5"),
                        (f"{BOTH} 2=01 2=-", "twice 2"), (f"{BOTH} 2=- 2=01", "length 2"), (f"{BOTH} {UP} 3=01", "unknown-code 3"),
                        (f"{BOTH} 25{{ 1=0001 6=07 }}", "flow-reference 1"), (f"22{{ 1=09 3=0002 }} {BOTH}", "flow-reference 2"),
                        (f"23{{ 1=09 3=0002 }} {BOTH} 22{{ 1=09 3=0001 }}", "classifier-reference 9"), (f"{BOTH} {many['255']}", "length 43.1"),
                        (f"{BOTH} {many['254']}", "too-long 261"), (f"{BOTH} {many['248']} 22{{ {RULE} }} 22{{ {RULE} }}", "classifier-reference 1"),
                        (f"{BOTH} 22{{ {RULE} 9{{ 1=010101 1=010101 }} }}", "twice 22.9.1")):
        ask(f"class {text}".strip(), fault)
    ask(f"add-on 22{{ {RULE} }}", "flow-reference 1")
    ask("add-on", "good")
    section("a tree has a longest spelling", "2,048 bytes for a class, 512 for an add-on.")
    ask(f"class {BOTH} {' '.join([many['full']] * 7)} {many['last']}", "good")
    ask(f"class {BOTH} {' '.join([many['full']] * 7)} {many['over']}", "too-long 2049")
    ask(f"add-on {many['full']} {many['half']} {many['half']}", "good")
    ask(f"add-on {many['full']} {many['half']} {many['more']}", "too-long 513")


DEVICE = "0200000000a1"
KEYS = [("site", "01"), ("subscriber 7", "0200000007"), ("add-on 16909060 5", "030102030405"), (f"modem {MODEM}", f"04{MODEM}"),
        ("class 4294967295", "05ffffffff"), ("pool 64", "0600000040"), ("lease 10.64.0.10", "070a40000a"), (f"held {MODEM}", f"08{MODEM}"),
        ("batch 18446744073709551615", "09ffffffffffffffff"), ("hub 64", "0a00000040"), ("pool-hub 64", "0b00000040"),
        ("device-pool 64", "0c00000040"), ("device 10.128.0.10", "0d0a80000a")]
# Rows with their bytes, and where their fields begin.
ROWS = [("site", "site 10.0.0.2 736563726574 -18000 86400 0.0.0.0", "0a000002" + "06736563726574" + "ffffb9b0" + "00015180" + "00000000", (0, 4, 11, 15, 19)),
        ("subscriber 7", 'subscriber 7 active 2 "Ann"', "0102" + "03416e6e", (0, 1, 2)),
        ("subscriber 7", 'subscriber 7 suspended 254 ""', "00fe00", (0, 1, 2)),
        ("add-on 7 0", "add-on 7 0 24{ 1=0005 6=07 }", "0009" + "18070102000506" + "0107", (0,)),
        (f"modem {MODEM}", f'modem {MODEM} 7 1 "SN01"', "0000000700000001" + "04534e3031", (0, 4, 8)),
        ("class 1", 'class 1 "gold" 24{ 1=0001 } 3=01', "04676f6c64" + "0009" + "180401020001030101", (0, 5)),
        ("pool 1", "pool 1 10.64.0.10 10.64.0.99 24 10.64.0.1 10.64.0.1", "0a40000a" + "0a400063" + "18" + "0a400001" + "0a400001", (0, 4, 8, 9, 13)),
        ("lease 10.64.0.10", f"lease 10.64.0.10 offered {MODEM} 1700000120", f"01{MODEM}" + "000000006553f178", (0, 1, 7)),
        ("lease 10.64.0.10", f"lease 10.64.0.10 bound {MODEM} 1700000120", f"02{MODEM}" + "000000006553f178", (0, 1, 7)),
        ("lease 10.64.0.10", "lease 10.64.0.10 declined 1700000120", "03" + "000000006553f178", (0, 1)),
        (f"held {MODEM}", f"held {MODEM} 10.64.0.10", "0a40000a", (0,)),
        ("batch 9", "batch 9 modems 2 900150983cd24fb0d6963f7d28e17f72", "02" + hashlib.md5(b"abc").hexdigest() + "00000002", (0, 1, 17)),
        ("hub 1", "hub 1 10.0.0.3 6f74686572 0 60 10.0.0.9", "0a000003" + "056f74686572" + "00000000" + "0000003c" + "0a000009", (0, 4, 10, 14, 18)),
        ("pool-hub 2", "pool-hub 2 1", "00000001", (0,)),
        ("device-pool 1", "device-pool 1 10.128.0.10 10.128.0.20 24 10.128.0.1 10.128.0.1", "0a80000a" + "0a800014" + "18" + "0a800001" + "0a800001", (0, 4, 8, 9, 13)),
        ("device 10.128.0.10", f"device 10.128.0.10 offered {MODEM} {DEVICE} 1700000120", f"01{MODEM}{DEVICE}" + "000000006553f178", (0, 1, 7, 13)),
        ("device 10.128.0.10", f"device 10.128.0.10 bound {MODEM} {DEVICE} 1700000120", f"02{MODEM}{DEVICE}" + "000000006553f178", (0, 1, 7, 13)),
        ("device 10.128.0.10", "device 10.128.0.10 declined 1700000120", "03" + "000000006553f178", (0, 1))]


def tables():
    section("a key has bytes and a text", "A byte of its kind and then its numbers, the most significant byte first.")
    for text, data in KEYS:
        ask(f"key {text}", f"{data} {text}")
        ask(f"key-of {data}", text)
        ask(f"key-of {data[:-2] or '-'}", "none")
    for data in ("00", "0a", "0b", "0d", "0e", "0100", "020000000700", "0300000007", "0a0000000100", "0e00000001"):
        ask(f"key-of {data}", "none")
    section("a row is read, and each cut of it is refused at the field that lacks bytes", "A byte behind it is refused at its place.")
    for key, text, data, places in ROWS:
        ask(f"row-of {key} {data}", f"{text}; {data}")
        for cut in range(len(data) // 2):
            ask(f"row-of {key} {data[:2 * cut] or '-'}", f"bad {max(place for place in places if place <= cut)}")
        ask(f"row-of {key} {data}00", f"bad {len(data) // 2}")
    section("a value that is out of its range is refused at its field", "")
    for key, data, place in (("subscriber 7", "020200", 0), ("subscriber 7", "010201ff", 2), ("lease 0.0.0.1", "000000000000000001", 0),
                             ("lease 0.0.0.1", "040000000000000001", 0), ("add-on 7 0", "00020000", 0), ("add-on 7 0", "0002ff00", 0),
                             ("add-on 7 0", "0004030101ff", 0), ("add-on 7 0", "0003030201", 0), ("add-on 7 0", "000418020101", 0), ("class 1", "00000103", 1),
                             ("batch 9", "00" * 21, 0), ("batch 9", "03" * 21, 0), ("device 0.0.0.1", "000000000000000001", 0),
                             ("device 0.0.0.1", "04" + "00" * 20, 0), ("device 0.0.0.1", "03" + "00" * 20, 9), ("hub 1", "0a00000241" + "ff" * 77, 4)):
        ask(f"row-of {key} {data}", f"bad {place}")
    for count in (64, 65):
        ask(f'row-of subscriber 7 0102{count:02x} {count}* "a"', f'subscriber 7 active 2 "{"a" * 64}"; 010240{"61" * 64}' if count == 64 else "bad 2")
        ask(f'row-of hub 9 0a000002{count:02x} {count}* "a" 12* 00', f"hub 9 10.0.0.2 {'61' * 64} 0 0 0.0.0.0; 0a00000240{'61' * 64}{'00' * 12}" if count == 64 else "bad 4")
        ask(f'row-of site 0a000002{count:02x} {count}* "a" 12* 00', f"site 10.0.0.2 {'61' * 64} 0 0 0.0.0.0; 0a00000240{'61' * 64}{'00' * 12}" if count == 64 else "bad 4")
    section("a row of settings of 65,535 bytes is read, and not one of more", "The length of settings has two bytes: 255 settings of 255 bytes.")
    settings = (b"\x09\xff" + b"\xff" * 255) * 255
    row = b"\xff\xff" + settings
    ask("row-of add-on 7 0 ffff 255* 09" + "ff" * 256, f"add-on 7 0{parts_of(settings, 0, None)}; {hexed(row)}")
    ask("row-of add-on 7 0 ffff 255* 09" + "ff" * 256 + " 00", "bad 65537")
    section("a sound command has its numbers in range", "Devices 1 to 254, add-ons 0 to 7, prefixes 8 to 30, a relay that isn't 0.")
    for devices in (0, 1, 254, 255):
        ask(f'sound put subscriber 7 active {devices} "Ann"', "yes" if 1 <= devices <= 254 else "no")
    for number in (0, 7, 8):
        ask(f"sound put add-on 7 {number}", "yes" if number < 8 else "no")
        ask(f"sound remove add-on 7 {number}", "yes" if number < 8 else "no")
        ask(f"sound show add-on 7 {number}", "yes" if number < 8 else "no")
    for prefix, relay in ((7, 1), (8, 1), (30, 1), (31, 1), (24, 0)):
        ask(f"sound put pool 1 0.0.0.1 0.0.0.2 {prefix} 0.0.0.0 {ip(relay)} 0", "yes" if 8 <= prefix <= 30 and relay else "no")
        ask(f"sound put device-pool 1 0.0.0.1 0.0.0.2 {prefix} 0.0.0.0 {ip(relay)}", "yes" if 8 <= prefix <= 30 and relay else "no")
    ask("sound put pool 1 0.0.0.1 0.0.0.2 24 0.0.0.0 0.0.0.1 4294967295", "yes")
    ask('sound put modem 02aabbccddee 7 1 ""', "yes")
    ask('sound put class 1 "gold"', "yes")
    for number in (0, 4_294_967_295):
        ask(f"sound put hub {number} 10.0.0.2 73 0 60 0.0.0.0", "yes")
    for text, _ in KEYS:
        kind = text.split()[0]
        ask(f"sound remove {text}", "yes" if kind in ("subscriber", "add-on", "modem", "class", "pool", "hub", "device-pool") else "no")
        ask(f"sound show {text}", "no" if kind in ("site", "held", "batch", "pool-hub", "device") else "yes")
    ask('sound import modems 0', "yes")
    ask('sound import subscribers 2000 subscriber 7 active 2 "Ann"', "yes")
    ask('sound import subscribers 2001 subscriber 7 active 2 "Ann"', "no")
    ask('sound import modems 1 subscriber 7 active 2 "Ann"', "no")
    ask('sound import subscribers 2 subscriber 7 active 0 "Ann"', "no")


def message_of(data):
    fault = fault_of(data)
    if fault:
        return fault
    kind = b"".join(options_in(data[240:])[1][53])[0]
    return (f"kind {kind} xid {data[4:8].hex()} flags {int.from_bytes(data[10:12], 'big')} ciaddr {ip(int.from_bytes(data[12:16], 'big'))} "
            f"giaddr {ip(int.from_bytes(data[24:28], 'big'))} mac {data[28:34].hex()} hardware {data[28:44].hex()}")


def joined_of(code, options):
    values = options_in(options)[1].get(code)
    return "absent" if values is None else f"{len(b''.join(values))} {hexed(b''.join(values))}" if len(b"".join(values)) <= 2000 else ""


def offer_line(kind, offer, server, data):
    made = reply_to(data, {"offer": 2, "ack": 5}[kind], server, offer)
    ask(f"offer {kind} {ip(int.from_bytes(offer['yiaddr'], 'big'))} {ip(int.from_bytes(server, 'big'))} {offer['offset']} {offer['lease']} "
        f"{ip(int.from_bytes(offer['log'], 'big'))} {offer['prefix']} {ip(int.from_bytes(offer['router'], 'big'))} {offer['name'].hex()} {data.hex()}",
        f"{len(made)} {hexed(made)}")


def changed(data, *changes):
    made = bytearray(data)
    for place, byte in changes:
        made[place] = byte
    return bytes(made)


def messages():
    section("the first option past the end is told", "RFC 2132, section 2, by a reader in Python.")
    for text in ("-", "0000", "ff35", "35010135", "00350201", "35003dff"):
        cut, _ = options_in(bytes.fromhex(text.replace("-", "")))
        ask(f"options {text}", "whole" if cut is None else f"cut {cut}")
    section("values of one code are joined", "RFC 3396, section 7.")
    options = bytes.fromhex("003501012b0209" + "08002b002b01073c00ff2b0106")
    for code in (43, 60, 82, 53):
        ask(f"option {code} {options.hex()}", joined_of(code, options))
    section("what a relay says of the way", "RFC 3046, section 2.0; every code has a length.")
    for text, answer in ((RELAYED.hex(), "circuit 2+4 remote 8+6"), ("5208020107020301" + "0203", "circuit none remote 2+1"),
                         ("52070001" + "02ff000200", "circuit none remote 7+0"), ("5200", "circuit none remote none"), ("350101", "circuit none remote none"),
                         ("5203000001", "cut 2"), ("5202ff01", "cut 0")):
        ask(f"relay {text}", answer)
    section("what a modem says of itself", "CANN-DHCP-Reg; code 0 is a pad, 255 ends the parts.")
    for text, answer in (("2b0502034543" + "4d002b06040453" + "4e3031", "type 2+3 serial 7+4 software none"),
                         ("2b0a0004014106" + "00ff040142", "type none serial 3+1 software 6+0"), ("2b0704014104024242", "type none serial 2+1 software none"),
                         ("350101", "type none serial none software none"), ("2b03040241", "cut 0"), ("2b0400060004", "cut 3"), ("2b050401410401", "cut 3")):
        ask(f"device {text}", answer)
    section("a modem names docsis and its version", "CANN-DHCP-Reg: `docsis`, a digit, a point, a digit and a colon.")
    for text in ("docsis3.1:", "docsis3.0:052401", "docsis0.9:", "", "docsis", "docsis3.1", "docsis31:0", "docsis3,1:", "docsis3.x:", "docsisX.1:", "docsis3.1;",
                 "docsis3.10:", "Docsis3.1:", "docsiz3.1:", " docsis3.1:", "pktc1.0:00"):
        ask(f'docsis 3c{len(text):02x} "{text}"', "modem" if re.match(r"docsis[0-9]\.[0-9]:", text) else "other")
    section("a modem's DISCOVER is read, and each cut of it has its fault", "RFC 2131, section 2, by a reader in Python.")
    for code in (43, 50, 53, 60, 82):
        ask(f"dhcp-option {code} {DISCOVER.hex()}", joined_of(code, DISCOVER[240:]))
    for length in [0, 239, *range(240, 289)]:
        ask(f"dhcp {DISCOVER[:length].hex() or '-'}", message_of(DISCOVER[:length]))
    section("the first fault is told", "Earlier parts come first.")
    for places in (((0, 2),), ((1, 6),), ((2, 7),), ((236, 0x64),), ((239, 0x64),), ((241, 0),), ((240, 54),), ((243, 53),), ((243, 52),), ((0, 2), (1, 6), (236, 0)),
                   ((1, 6), (236, 0))):
        data = changed(DISCOVER, *places)
        ask(f"dhcp {data.hex()}", message_of(data))
    ask("dhcp 239* 02", "short")
    ask(f"dhcp {DISCOVER.hex()} {1500 - len(DISCOVER)}* 00", message_of(DISCOVER + bytes(1500 - len(DISCOVER))))
    ask(f"dhcp {DISCOVER.hex()} {1501 - len(DISCOVER)}* 00", "long")
    section("an OFFER has its options in order", "RFC 2131, table 3, and this office's order of options.")
    offer = {"yiaddr": bytes([10, 64, 0, 10]), "offset": 3600, "lease": 86400, "log": bytes(4), "prefix": 24, "router": bytes([10, 64, 0, 1]),
             "name": b"0123456789abcdef" * 2}
    server = bytes([10, 0, 0, 2])
    offer_line("offer", offer, server, DISCOVER)
    section("an ACK repeats the client's address", "A renewal without a relay, with a number of seconds and the broadcast bit.")
    renewal = changed(DISCOVER, (9, 9), (10, 0x80), (12, 10), (13, 64), (15, 10), (24, 0), (25, 0), (27, 0), (242, 3), (271, 255))
    ack = {**offer, "offset": -18000, "lease": 2**32 - 1, "log": bytes([10, 0, 0, 3]), "prefix": 30, "name": b"n" * 32}
    offer_line("ack", ack, server, renewal)
    offer_line("ack", {**ack, "prefix": 8, "lease": 60}, server, renewal)
    section("a NAK behind a relay asks for a broadcast", "RFC 2131, section 4.3.2.")
    for data in (changed(DISCOVER, (242, 3)), renewal):
        made = reply_to(data, 6, server)
        ask(f"nak 10.0.0.2 {data.hex()}", f"{len(made)} {hexed(made)}")
    section("option 82 is sent back whole", "RFC 3046, section 2.2, in options of at most 255 bytes (RFC 3396).")
    for length in (0, 255, 256, 300, 510, 1000, 1244):
        value = bytes(place % 251 for place in range(length))
        data = DISCOVER[:240] + bytes([53, 1, 3, 82, 0]) + b"".join(option(82, value[at:at + 255]) for at in range(0, length, 255)) + b"\xff"
        made = reply_to(data, 6, server)
        ask(f"nak 10.0.0.2 {data.hex()}", f"{len(made)} {hexed(made)}")


def row_text(kind, fields):
    """A row of an import as the tables show it. Its fields have the bytes of the text one to a character."""
    first, second, third, fourth = fields
    name = escaped(fourth.encode("latin-1"))
    if kind == "subscribers":
        return f'subscriber {int(first)} {"active" if second == "yes" else "suspended"} {int(third)} "{name}"'
    return f'modem {re.sub("[^0-9a-f]", "", first.lower())} {int(second)} {int(third)} "{name}"'


def import_of(kind, data):
    try:
        rows = rows_of(kind, data)
    except ImportFault as fault:
        return " ".join(["field", *fault.place.split(",")] if fault.word == "import-field" else [fault.word, fault.place] if fault.place else [fault.word])
    return "; ".join([f"{hashlib.md5(data).hexdigest()} rows {len(rows)}", *(row_text(kind, fields) for fields in rows[-10:])])


def asks_import(kind, *parts, fault=None):
    """Asks what parts mean: bytes, or a number and the bytes that stand so many times. What is said by hand is compared with what is computed."""
    parts = [part if isinstance(part, tuple) else (1, part) for part in parts]
    words = " ".join(f"{count}* {quoted(part)}" if count > 1 else quoted(part) for count, part in parts if part) or "-"
    expected = import_of(kind, b"".join(count * part for count, part in parts))
    if fault not in (None, expected):
        raise AssertionError(f"{expected} where {fault} is said, of {kind} {words}")
    ask(f"import {kind} {words}", expected)


# For each column of an import, fields that can't be read.
UNREAD = {
    "subscribers": ((b"", b"-1", b"+1", b" 1", b"1.0", b"4294967296", b"000000000000000000001", b"x"), (b"", b"Yes", b"true", b"1", b" no", b"yes "),
                    (b"", b"0", b"255", b"-1", b"2 "), (b"a" * 65, b"\xff", b"Ann\xc3", b"a" * 63 + b"\xc3\xa9")),
    "modems": ((b"", b"02aabbccdde", b"02aabbccddeeff", b"02:aa:bb-cc:dd:ee", b"02aa.bbcc:ddee", b" 02aabbccddee", b"0gaabbccddee"), (b"", b"4294967296", b"-7"),
               (b"", b"gold", b"4294967296"), (b"b" * 65, b"\x80", b"\xed\xa0\x80")),
}
GOOD_FIELDS = {"subscribers": (b"7", b"yes", b"2", b"Ann"), "modems": (b"02aabbccddee", b"7", b"1", b"SN01")}


def imports():
    heads = {kind: header.encode() for kind, header in HEADERS.items()}
    subscribers, modems = heads["subscribers"], heads["modems"]
    section("an import has a row for each record behind its header", "RFC 4180, section 2, by Python's csv; an empty line is no record.")
    asks_import("subscribers", subscribers)
    asks_import("subscribers", subscribers + b"\n7,yes,2,Ann\n8,no,254,\n")
    asks_import("subscribers", subscribers + b"\n7,yes,2,Ann\n8,no,254,Bob")
    asks_import("subscribers", subscribers + b"\n4294967295,yes,1," + b"a" * 64 + b"\n0000000007,no,001,Ann\xc3\xa9\n")
    asks_import("subscribers", subscribers + b"\n7,yes,2,Ann\n7,no,3, Ann \n")
    asks_import("modems", modems + b"\n02aabbccddee,7,1,SN01\n02:AA:bb:cc:dd:f0,0,4294967295,\n02-aa-bb-cc-dd-f1,7,1,a\n02aa.bbcc.ddf2,7,1,b\n")
    section("a record ends at CR, LF or both", "")
    text = subscribers + b"\n7,yes,2,Ann\n8,no,254,Bob\n"
    for end in (b"\r\n", b"\r", b"\n\n", b"\r\r", b"\n\r", b"\r\n\r\n"):
        asks_import("subscribers", text.replace(b"\n", end))
        asks_import("subscribers", end + text.replace(b"\n", end).strip())
    section("quotes hold commas, line ends and quotes", "")
    for name in (b'"Lee, Ann"', b'"say ""Ann"""', b'"Ann\nLee"', b'"Ann\r\nLee"', b'""', b'"Ann"Lee', b'An"n', b'"Ann', b'"Ann\n8,no,2,Bob\n', b"'Ann'"):
        asks_import("subscribers", subscribers + b"\n7,yes,2," + name + b"\n8,no,254,Bob\n")
    asks_import("subscribers", b'"subscriber","active","cpes","name"\n"7","yes","2","Ann"\n')
    asks_import("subscribers", subscribers + b'\n""\n', fault="width 1")
    section("one byte order mark at the front is passed over, and is in the digest", "RFC 3629, section 6.")
    for kind, head in heads.items():
        asks_import(kind, MARK + head + b"\n")
        asks_import(kind, MARK + MARK + head + b"\n", fault="header")
        asks_import(kind, MARK, fault="header")
        asks_import(kind, MARK[:2] + head + b"\n", fault="header")
    asks_import("subscribers", MARK + subscribers + b"\n7,yes,2," + MARK + b"\n")
    section("the first record is the names of the columns", "docs/CLERK_API.md, imports.")
    for kind, head in heads.items():
        for wrong in (b"", b"\n", heads["modems" if kind == "subscribers" else "subscribers"], head.upper(), head + b",", head.rsplit(b",", 1)[0], head.replace(b",", b", "),
                      head.replace(b",", b";"), b" " + head, b"," + head, b",".join(GOOD_FIELDS[kind]), b'"' + head + b'"'):
            asks_import(kind, wrong + b"\n", fault="header")
            asks_import(kind, wrong + b"\nx\n", fault="header")
    section("a row has four fields", "Rows count from 1 behind the header.")
    for kind, head in heads.items():
        good = b",".join(GOOD_FIELDS[kind])
        for wrong in (b"x", b",,", b",,,,", good + b",", good.rsplit(b",", 1)[0], b"x,x,x,x,x"):
            asks_import(kind, head + b"\n" + wrong + b"\n", fault="width 1")
            asks_import(kind, head + b"\n\n" + good + b"\n\n" + wrong + b"\nx,x,x,x\n", fault="width 2")
    section("each field is of its column", "Columns count from 1, and the first of a row that can't be read is told.")
    for kind, head in heads.items():
        good = GOOD_FIELDS[kind]
        for column, wrongs in enumerate(UNREAD[kind], 1):
            for wrong in wrongs:
                row = b",".join([*good[:column - 1], wrong, *good[column:]])
                asks_import(kind, head + b"\n" + row + b"\n", fault=f"field 1 {column}")
            row = b",".join([*good[:column - 1], *(each[-1] for each in UNREAD[kind][column - 1:])])
            asks_import(kind, head + b"\n" + b",".join(good) + b"\n" + row + b"\nx\n", fault=f"field 2 {column}")
    section("an import has at most 2,000 rows", "What a row too many holds doesn't count; what is wrong with a row before it does, and is told first.")
    for kind, head in heads.items():
        good = b",".join(GOOD_FIELDS[kind]) + b"\n"
        last = b",".join([*GOOD_FIELDS[kind][:3], b"\xff"]) + b"\n"
        asks_import(kind, head + b"\n", (MOST_ROWS, good), b"\n\n")
        for behind in (good, b"x", b"x,x,x,x", last, b'"'):
            asks_import(kind, head + b"\n", (MOST_ROWS, good), behind, fault="too-many")
        for wrong, fault in ((b"x\n", f"width {MOST_ROWS}"), (last, f"field {MOST_ROWS} 4")):
            asks_import(kind, head + b"\n", (MOST_ROWS - 1, good), wrong, good, fault=fault)
            asks_import(kind, head + b"\n", (MOST_ROWS - 1, good), wrong, (2, wrong), fault=fault)


def is_told(data, is_one):
    """Whether a datagram is a query, as the reader in Python says and as stands here by hand."""
    if is_query(data) != is_one:
        raise AssertionError(f"{data.hex()} is {'no' if is_one else 'a'} query")
    ask(f"query {data.hex() or '-'}", "query" if is_one else "none")


def queries():
    section("a datagram is a relay's query, or it isn't", "RFC 4388, section 6.2: a head of BOOTP, the one byte 10 in option 53, and no option 52.")
    relay = bytes([10, 64, 0, 1])
    whole, other = query(client=bytes([10, 64, 0, 10]), relay=relay), query(hardware=bytes.fromhex(MODEM), relay=relay)
    for data in (whole, other, query(), query(options=option(61, b"\1")), query(kind=b"\x06\x10", hardware=b"\7" * 16), whole[:-1], whole + b"\0" * 60):
        is_told(data, True)
    for length in (0, 1, 239, 240, 241, 242):
        is_told(whole[:length], False)
    is_told(DISCOVER, False)
    for places in (((0, 0),), ((0, 2),), ((236, 0),), ((239, 0x64),), ((240, 52),), ((241, 0),), ((241, 2),), ((242, 9),), ((242, 11),), ((242, 13),), ((243, 53),)):
        is_told(changed(whole, *places), False)
    ten = option(53, b"\x0a")
    for options, is_one in ((b"", False), (ten, True), (b"\0" * 9 + ten, True), (b"\xff" + ten, False), (ten + ten, False), (option(53, b"") + ten, True), (option(53, b"\x0a\x0a"), False),
                            (ten + option(52, b""), False), (option(52, b"\1") + ten, False), (ten + b"\xff" + option(52, b"\1"), True), (ten + b"\x33", False),
                            (ten + b"\x33\x04\0\0\0", False), (ten + b"\xff\x33", True)):
        is_told(whole[:240] + options, is_one)
    for length, answer in ((1500, "query"), (1501, "none")):
        if is_query(whole + bytes(length - len(whole))) != (answer == "query"):
            raise AssertionError(f"{length} bytes")
        ask(f"query {whole.hex()} {length - len(whole)}* 00", answer)


def questions():
    """The questions, and what is expected of each."""
    texts()
    files()
    checks()
    trees()
    tables()
    imports()
    messages()
    queries()
    return script
