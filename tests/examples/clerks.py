"""Questions on what clerks ask, and their answers.

The answers are said here by hand, from the tables of docs/CLERK_API.md, or computed by Python's csv, hashlib, json, ipaddress and re.
office.py writes them into its script.
"""
import hashlib
import ipaddress
import json
import re
from itertools import accumulate

from examples import Script, compact, escaped, quoted, reply
from imports import HEADERS, MARK, MOST_ROWS, ImportFault, rows_of

script = Script("clerks.py", "Python's csv, hashlib, json, ipaddress and re over the rules of docs/CLERK_API.md.")
section = script.section
ask = script.pair
MODEM = "02aabbccddee"
GOLD = "24{ 1=0001 6=07 } 25{ 1=0002 6=07 }"
BOOST = "24{ 1=0005 6=07 } 22{ 1=03 3=0005 }"
DEVICES = "device-pool 1 10.128.0.10 10.128.0.20 24 10.128.0.1 10.128.0.1"
POOL = "pool 1 10.64.0.10 10.64.0.99 24 10.64.0.1 10.64.0.1"
OFFICE = f'hub 0 10.0.0.2 736563726574 3600 86400 0.0.0.0; class 1 "gold" {GOLD}; subscriber 7 active 2 "Ann"; modem {MODEM} 7 1 "SN01"; {POOL}'


class Wrong(Exception):
    """A fault: its status, its word, and where it is."""


class Whole(int):
    """A number that is written without a fraction, an exponent and a sign before 0."""


def fraction_of(text):
    if float(text) in (float("inf"), float("-inf")):
        raise ValueError("a number past all doubles is no number of this reader")
    return float(text)


def whole_of(text):
    return "minus nothing" if text == "-0" or fraction_of(text) is None else Whole(text)


def levels_of(text):
    """How many arrays and objects stand within one another, at most."""
    marks = re.sub(r'"(\\.|[^"\\])*"', "", text)
    return max(accumulate((each in "[{") - (each in "]}") for each in marks), default=0)


def told(status, word, at=None):
    return f"{status} {word} {compact({'fault': word} if at is None else {'at': str(at), 'fault': word})}"


def number(most, least=0):
    def read(value):
        return value if isinstance(value, Whole) and least <= value <= most else None
    return read


def address(least=0):
    def read(value):
        try:
            if not isinstance(value, str):
                return None
            found = ipaddress.IPv4Address(value)
        except ValueError:
            return None
        return value if least <= int(found) else None
    return read


def short(value):
    return value if isinstance(value, str) and len(value.encode()) <= 64 else None


def hexadecimal(most):
    def read(value):
        good = isinstance(value, str) and re.fullmatch("([0-9a-fA-F]{2})*", value) and len(value) <= 2 * most
        return value.lower() if good else None
    return read


def setting(depth, value):
    """One setting, or None. Settings go three deep."""
    if depth == 0 or not isinstance(value, dict):
        return None
    code = number(255)(value.get("code"))
    if code is None or ("hex" in value) == ("parts" in value):
        return None
    if "hex" in value:
        text = hexadecimal(255)(value["hex"])
        return None if text is None else {"code": code, "hex": text}
    parts = settings_in(depth - 1, value["parts"])
    return None if parts is None else {"code": code, "parts": parts}


def settings_in(depth, value):
    found = [setting(depth, each) for each in value] if isinstance(value, list) else [None]
    return None if None in found else found


OF_A_POOL = (("first", address()), ("last", address()), ("prefix", number(30, 8)), ("router", address()), ("relay", address(1)))
FIELDS = {
    "hub": (("server", address()), ("secret", hexadecimal(64)), ("offset", number(2**31 - 1, -2**31)), ("lease", number(2**32 - 1)), ("log", address())),
    "subscriber": (("active", lambda value: value if isinstance(value, bool) else None), ("cpes", number(254, 1)), ("name", short)),
    "add-on": (("settings", lambda value: settings_in(3, value)),),
    "modem": (("subscriber", number(2**32 - 1)), ("class", number(2**32 - 1)), ("serial", short)),
    "class": (("name", short), ("settings", lambda value: settings_in(3, value))),
    "pool": (*OF_A_POOL, ("hub", number(2**32 - 1))),
    "device-pool": OF_A_POOL,
}
# Fields that may be missing, with what they are then.
USUAL = {"hub": 0}


def key_of(path):
    """The key that a path names, as its words."""
    path = path.split("?")[0]
    decimal = "([0-9]{1,20})"
    if path == "/site":
        return ["hub", "0"]
    for form, kind, most in ((f"/hubs/{decimal}", "hub", (2**32 - 1,)), (f"/subscribers/{decimal}", "subscriber", (2**32 - 1,)),
                             (f"/subscribers/{decimal}/addons/{decimal}", "add-on", (2**32 - 1, 7)), (f"/classes/{decimal}", "class", (2**32 - 1,)),
                             (f"/pools/{decimal}", "pool", (2**32 - 1,)), (f"/device-pools/{decimal}", "device-pool", (2**32 - 1,))):
        found = re.fullmatch(form, path)
        if found and all(int(each) <= limit for each, limit in zip(found.groups(), most)):
            return [kind, *(str(int(each)) for each in found.groups())]
    forms = ("[0-9a-fA-F]{12}", "([0-9a-fA-F]{2}:){5}[0-9a-fA-F]{2}", "([0-9a-fA-F]{2}-){5}[0-9a-fA-F]{2}", r"([0-9a-fA-F]{4}\.){2}[0-9a-fA-F]{4}")
    if path.startswith("/modems/") and any(re.fullmatch(form, path[8:]) for form in forms):
        return ["modem", re.sub("[^0-9a-f]", "", path[8:].lower())]
    if path.startswith("/leases/") and address()(path[8:]):
        return ["lease", path[8:]]
    found = re.fullmatch("/imports/(subscribers|modems)/([0-9]{1,20})", path)
    if found and int(found.group(2)) < 2**64:
        return ["import", found.group(1), str(int(found.group(2)))]
    return None


def read_json(body):
    try:
        value = json.loads(body.decode(), parse_int=whole_of, parse_float=fraction_of)
        compact(value).encode()  # a surrogate alone is no text
    except ValueError:
        raise Wrong(told(400, "not-json")) from None
    if not isinstance(value, dict) or levels_of(body.decode()) > 127:
        raise Wrong(told(400, "not-json"))
    return value


def tree_text(settings):
    """Settings as the program prints them."""
    return "".join(f" {each['code']}={each['hex']}" if "hex" in each else f" {each['code']}{{{tree_text(each['parts'])} }}" for each in settings)


def row_text(kind, row):
    if kind == "hub":
        return f" {row['server']} {row['secret']} {row['offset']} {row['lease']} {row['log']}"
    if kind == "subscriber":
        return f' {"active" if row["active"] else "suspended"} {row["cpes"]} "{escaped(row["name"].encode())}"'
    if kind == "modem":
        return f' {row["subscriber"]} {row["class"]} "{escaped(row["serial"].encode())}"'
    if kind == "class":
        return f' "{escaped(row["name"].encode())}"' + tree_text(row["settings"])
    if kind in ("pool", "device-pool"):
        hub = f" {row['hub']}" if kind == "pool" else ""
        return f" {row['first']} {row['last']} {row['prefix']} {row['router']} {row['relay']}{hub}"
    return tree_text(row["settings"])


def imported(kind, batch, body):
    """An import: its number, how many rows it has, and the digest of its body; or its first fault."""
    try:
        count = len(rows_of(kind, body))
    except ImportFault as fault:
        return told(422, fault.word, fault.place)
    return f"import {kind} {batch} rows {count} {hashlib.md5(body).hexdigest()}"


METHODS = {"lease": ("GET",), "import": ("PUT",)}
# The hub 0 has another path, by which it isn't removed.
OF_THE_SITE = ("GET", "PUT")


def command(method, path, body):
    """What is asked, or why it is no command."""
    key = key_of(path)
    if key is None:
        return told(404, "no-path")
    methods = OF_THE_SITE if path.split("?")[0] == "/site" else METHODS.get(key[0], ("GET", "PUT", "DELETE"))
    if method not in methods:
        return told(405, "no-method")
    if key[0] == "import":
        return imported(key[1], key[2], body)
    if method == "GET":
        return "show " + " ".join(key)
    if method == "DELETE":
        return "remove " + " ".join(key)
    try:
        given = read_json(body)
        row = {}
        for name, read in FIELDS[key[0]]:
            if name not in given and name not in USUAL:
                raise Wrong(told(400, "field", name))
            row[name] = read(given[name]) if name in given else USUAL[name]
            if row[name] is None:
                raise Wrong(told(400, "value", name))
    except Wrong as wrong:
        return str(wrong)
    shown = {name: value for name, value in row.items() if name != "secret"}
    return f"put {' '.join(key)}{row_text(key[0], row)}; {compact(shown)}"


def asked(method, path, body=""):
    ask(f"ask {method or '_'} {path or '_'}" + (f" {body}" if body else ""), command(method, path, body.encode()))


def bytes_asked(path, given, body):
    """A PUT whose body is written as bytes."""
    ask(f"ask-bytes PUT {path} {given}", command("PUT", path, body))


def paths():
    section("a path has a key", "docs/CLERK_API.md, paths. The bodies of GET and DELETE aren't read.")
    for path in ("/site", "/site?x=1", "/hubs/0", "/hubs/007", "/hubs/4294967295?x", "/subscribers/7", "/subscribers/007?", "/subscribers/4294967295", "/subscribers/7/addons/0", "/subscribers/0/addons/07",
                 f"/modems/{MODEM}", "/modems/02:AA:bb:cc:dd:ee", "/classes/1", "/pools/64", "/device-pools/64", "/device-pools/007", "/device-pools/4294967295?x", "/leases/10.64.0.10"):
        asked("GET", path, "{")
    section("another path has none", "The path comes before the method.")
    for path in ("", "/", "site", "/site/", "/Site", "/site/0", "/hubs", "/hubs/", "/hub/1", "/hubs/1/", "/hubs/4294967296", "/hubs/-1", "/hubs/x", "http://office/site", "/subscribers/", "/subscribers/4294967296", "/subscribers/000000000000000000007",
                 "/subscribers/-1", "/subscribers/7/", "/subscribers/7/addons/8", "/subscribers/7/addons/", "/subscribers//addons/1", "/subscribers/7/addons/1/",
                 "/modems/02aabbccdde", "/leases/10.64.0.010", "/held/02aabbccddee", "/pools/%31", "/device-pools",
                 "/device-pools/", "/device-pool/1", "/device-pools/1/", "/device-pools/4294967296", "/device-pools/-1", "/Device-Pools/1", "/devices/10.128.0.10",
                 "/leases/10.64.0.10/", "/imports/", "/imports/9", "/imports/subscribers/",
                 "/imports/modems", "/imports/pools/9", "/imports/modems/9/", "/imports/modems/-9", "/imports/Modems/9", "/import/modems/9",
                 "/imports/modems/18446744073709551616", "/imports/modems/000000000000000000009", "/batches/9"):
        asked("POST", path)
    section("a path has its methods", "The method comes before the body. Case counts (RFC 9110, section 9.1).")
    every = ("/site", "/hubs/0", "/hubs/1", "/subscribers/7", "/subscribers/7/addons/1", f"/modems/{MODEM}", "/classes/1", "/pools/1", "/device-pools/1",
             "/leases/10.64.0.10", "/imports/subscribers/9", "/imports/modems/9")
    for path in every:
        for method in ("GET", "PUT", "DELETE", "", "get", "Get", "HEAD", "POST", "PATCH", "OPTIONS", "GETS"):
            asked(method, path, "{")


def bodies():
    section("a body is one JSON object", "RFC 8259, by Python's json.")
    for body in ("", "{", "{}{}", "[]", "7", "null", '"{}"', "{'active':true}", '{"active":true,}', '{"active":True}', '{"active":1e999}'):
        asked("PUT", "/subscribers/7", body)
    bytes_asked("/subscribers/7", "'{\"active\":\"\\t\"}'", b'{"active":"\t"}')
    bytes_asked("/subscribers/7", "'{\"name\":\"' ff '\"}'", b'{"name":"\xff"}')
    bytes_asked("/subscribers/7", "' {\\n} '", b" {\n} ")
    passed_over()
    section("a hub's fields are read in order", "The first that lacks or is wrong is named; by the path of a site the hub 0 is put.")
    site = '{"server":"10.0.0.2","secret":"736563726574","offset":3600'
    for body in ('{"log":1}', '{"log":1,"server":"10.0.0.2"}', '{"server":"10.0.0.2","secret":""}', '{"log":1,"server":"10.0.0.2","secret":"","offset":0}',
                 '{"server":"10.0.0.2","secret":"","offset":0,"lease":0}'):
        asked("PUT", "/site", body)
    for rest in ("1}", "null}", '"10.0.0.02"}', '""}', '["10.0.0.2"],"secret":7}', '"10.0.0.2","secret":7}', '"10.0.0.2","secret":null}', '"10.0.0.2","secret":"7"}',
                 '"10.0.0.2","secret":"7g"}', '"10.0.0.2","secret":"0x73"}'):
        asked("PUT", "/site", '{"server":' + rest)
    for rest in (".0}", "e0}", "000000}", ',"lease":-1}', ',"lease":4294967296}', ',"lease":18446744073709551616}', ',"lease":1.0}', ',"lease":1e2}', ',"lease":-0}',
                 ',"lease":"60"}', ',"lease":60,"log":0}', ',"lease":60,"log":"0.0.0"}', ',"lease":60,"log":null}', ',"lease":86400,"log":"0.0.0.0"}',
                 ',"log":"10.0.0.9","lease":4294967295,"offset":-2147483648,"x":[1.5]}', ',"log":"255.255.255.255","lease":0,"offset":2147483647}',
                 ',"offset":2147483648}', ',"offset":-2147483649}'):
        asked("PUT", "/site", site + rest)
        asked("PUT", "/hubs/1", site + rest)
    section("a secret has at most 64 bytes", "")
    for count in (1, 64, 65):
        front, rest = '{"server":"10.0.0.2","secret":"', '","offset":0,"lease":60,"log":"0.0.0.0"}'
        bytes_asked("/site", f"'{front}' {count}* 'fF' '{rest}'", (front + "fF" * count + rest).encode())
    section("a subscriber's fields are read in order", "")
    for body in ("{}", '{"cpes":0,"name":7}', '{"active":1,"cpes":0}', '{"active":null}', '{"active":"true"}', '{"name":7,"active":true}',
                 '{"name":7,"cpes":0,"active":true}', '{"cpes":255,"active":true}', '{"cpes":2.0,"active":true}', '{"cpes":2,"cpes":0,"active":true}',
                 '{"cpes":2,"active":true}', '{"cpes":2,"active":true,"name":7}', '{"cpes":2,"active":true,"name":null}',
                 '{"active":true,"cpes":2,"name":"Ann"}', '{ "name": "", "cpes": 0, "cpes": 254, "active": false, "more": {} }',
                 '{"active":true,"cpes":1,"name":"\\"\\\\\\/\\u0001\\n\\u00e9\\u007f"}'):
        asked("PUT", "/subscribers/7", body)
    section("a text has at most 64 bytes", "Bytes of UTF-8 count.")
    for text in ("a" * 64, "a" * 62 + "é", "a" * 65, "a" * 63 + "é"):
        asked("PUT", "/subscribers/7", compact({"active": True, "cpes": 2, "name": text}))
    section("a modem's fields are read in order", "")
    for body in ("{}", '{"subscriber":"7"}', '{"subscriber":4294967296}', '{"subscriber":-7}', '{"subscriber":7,"serial":""}', '{"subscriber":7,"class":1e0}',
                 '{"subscriber":7,"class":true}', '{"subscriber":7,"class":1}', '{"subscriber":7,"class":1,"serial":[]}',
                 '{"subscriber":7,"class":1,"serial":"SN01"}', '{"serial":"","class":4294967295,"subscriber":0}'):
        asked("PUT", f"/modems/{MODEM}", body)
    section("a pool's fields are read in order", "")
    pool = '{"first":"10.64.0.10","last":"10.64.0.99","prefix":'
    for body in ("{}", '{"first":"10.64.0.10"}', '{"first":"10.64.0.10","last":"10.64.0.99"}'):
        asked("PUT", "/pools/1", body)
    for rest in ("7}", "31}", "24.0}", '"24"}', "24}", '24,"router":1}', '24,"router":"10.64.0.1"}', '24,"router":"10.64.0.1","relay":"0.0.0.0"}',
                 '24,"router":"10.64.0.1","relay":null}', '24,"last":5}', '24,"last":5,"first":""}', '8,"router":"0.0.0.0","relay":"10.64.0.1"}',
                 '30,"router":"10.64.0.1","relay":"0.0.0.1"}'):
        asked("PUT", "/pools/1", pool + rest)
    section("a pool's hub is read last, and is 0 where it is missing", "A whole number of 32 bits.")
    for rest in ("0}", "1}", "4294967295}", "4294967296}", "-1}", "-0}", "1.0}", "1e0}", '"1"}', "null}", "[1]}", "true}", '9,"hub":1}', '1,"hub":null}', '1,"Hub":2}',
                 '-1,"relay":"0.0.0.0"}', '-1,"relay":"10.64.0.1"}'):
        asked("PUT", "/pools/2", pool + '24,"router":"10.64.0.1","relay":"10.64.0.1","hub":' + rest)
    asked("PUT", "/pools/2", '{"hub":1}')
    asked("PUT", "/pools/2", pool + '24,"router":"10.64.0.1","hub":-1}')
    section("a pool for devices has the fields of a pool but the hub", "A field of that name is passed over, whatever it is.")
    for body in ("{}", '{"first":"10.64.0.10"}', '{"first":"10.64.0.10","last":"10.64.0.99"}', '{"hub":1}'):
        asked("PUT", "/device-pools/1", body)
    for rest in ("7}", "31}", "24.0}", '"24"}', "24}", '24,"router":1}', '24,"router":"10.64.0.1"}', '24,"router":"10.64.0.1","relay":"0.0.0.0"}',
                 '24,"router":"10.64.0.1","relay":null}', '24,"last":5}', '24,"router":"10.64.0.1","relay":"10.64.0.1"}', '8,"router":"0.0.0.0","relay":"0.0.0.1"}',
                 '24,"router":"10.64.0.1","relay":"10.64.0.1","hub":1}', '24,"router":"10.64.0.1","relay":"10.64.0.1","hub":-1}', '24,"router":"10.64.0.1","hub":1}'):
        asked("PUT", "/device-pools/4294967295", pool + rest)


def passed_over():
    front = '{"active":true,"cpes":2,"name":"Ann","more":'
    section("what is passed over is JSON too", "Every number, also one that nobody reads, is at most the largest double, to which it may be rounded.")
    for more in ("1e308", "1e309", "-1e309", "1e-999", '[0,{"more":[1,1e999]}]', "1" + 308 * "0", "1" + 309 * "0", "-1" + 309 * "0", "1797693134862315807" + 290 * "0",
                 "1797693134862315808" + 290 * "0", "1.797693134862315807e308", "1.797693134862315808e308", "01", "1.", '"\\ud800"', "tru", "[1,]"):
        asked("PUT", "/subscribers/7", front + more + "}")
    for cpes in ("1e308", "1e309", "1" + 309 * "0", "1e309,\"cpes\":2", "[1e309]"):
        asked("PUT", "/subscribers/7", f'{{"active":true,"name":"Ann","cpes":{cpes}}}')
    section("arrays and objects stand 127 within one another", "The body's own object is one of them.")
    for count in (126, 127):
        for opens, inner, closes in (("[", "", "]"), ('{"":', "null", "}"), ("[0,", "0", ",0]"), ('{"":0,"":', "1e9", "}"), ('{"":[],"":', "0", "}")):
            asked("PUT", "/subscribers/7", front + count * opens + inner + count * closes + "}")
        asked("PUT", "/subscribers/7", '{"active":true,"cpes":2,"name":' + count * "[" + count * "]" + "}")
        asked("PUT", "/subscribers/7", front + "[" + 2 * ((count - 1) * "[" + (count - 1) * "]" + ",") + "0]}")
    section("the last of several fields with one name counts", "Escaped or not (RFC 8259, section 7).")
    for fields in ('"name":7,"name":"Ann"', '"name":"Ann","name":7', '"name":7,"\\u006eame":"Ann"', '"\\u006eame":7,"name":"Ann"', '"name":"Ann","n\\u0061m\\u0065":null',
                   '"name":"Ann","Name":7', '"name":"Ann","name\\u0000":7', '"name":{"name":"Bob"},"name":"Ann"', '"name":1e999,"name":"Ann"'):
        asked("PUT", "/subscribers/7", '{"active":true,"cpes":2,' + fields + "}")
    section("a body is deep and wide", "Some 80,000 bytes of values that nobody reads.")
    for count, each in ((20000, "[0],"), (20000, "[],"), (40000, "0,"), (1500, 25 * "[" + 25 * "]" + ","), (8000, '{"a":0},'), (13000, '"\\n",')):
        bytes_asked("/subscribers/7", f"{quoted(front.encode())} '[' {count}* {quoted(each.encode())} '0]}}'", (front + "[" + count * each + "0]}").encode())
        bytes_asked("/subscribers/7", f"{quoted(front.encode())} '[' {count}* {quoted(each.encode())} '1e999]}}'", (front + "[" + count * each + "1e999]}").encode())
    for each in ('"":0,', '"name":7,', '"cpes":[],', '"active":{"active":0},'):
        rest = '"active":true,"cpes":2,"name":"Ann"}'
        bytes_asked("/subscribers/7", f"'{{' 8000* {quoted(each.encode())} {quoted(rest.encode())}", ("{" + 8000 * each + rest).encode())
        bytes_asked("/subscribers/7", f"'{{' {quoted(rest[:-1].encode())} ',' 8000* {quoted(each.encode())} '\"more\":0}}'", ("{" + rest[:-1] + "," + 8000 * each + '"more":0}').encode())


def trees():
    path = "/subscribers/7/addons/1"
    section("settings are an array of leaves and groups", "A leaf has a code and `hex`, a group a code and `parts`.")
    for rest in ("null", "{}", '""', "[0]", "[null]", "[{}]", '[{"hex":"00"}]', '[{"code":1}]', '[{"code":1,"hex":"00","parts":[]}]', '[{"code":256,"hex":"00"}]',
                 '[{"code":-1,"hex":"00"}]', '[{"code":1.0,"hex":"00"}]', '[{"code":"1","hex":"00"}]', '[{"code":1,"hex":"0"}]', '[{"code":1,"hex":"0g"}]',
                 '[{"code":1,"hex":null}]', '[{"code":1,"hex":null,"parts":[]}]', '[{"code":1,"parts":null}]', '[{"code":1,"parts":{}}]',
                 '[{"code":1,"hex":"00"},{"code":1}]', "[]", '[{"hex":"","code":0},{"parts":[],"code":255,"x":1}]',
                 '[{"code":24,"parts":[{"code":1,"hex":"0001"},{"code":6,"hex":"aF"}]}]',
                 '[{"code":22,"parts":[{"code":9,"parts":[{"code":3,"hex":"0A"},{"code":4,"parts":[]}]}]}]',
                 '[{"code":256,"hex":"00","code":1}]', '[{"code":1,"hex":"00","cod\\u0065":256}]', '[{"code":1,"hex":0,"h\\u0065x":"01"}]', '[{"code":1,"hex":"01","hex":null}]',
                 '[{"code":1,"parts":0,"parts":[{"code":2,"hex":"","more":[{"code":1,"hex":"zz"}]}]}]', '[{"code":1,"hex":"00","more":1e309}]', '[{"code":1,"hex":"00"},[]]'):
        asked("PUT", path, '{"settings":' + rest + "}")
    asked("PUT", path, "{}")
    section("settings go three deep", "")
    front = '{"settings":[{"code":22,"parts":[{"code":9,"parts":[{"code":3,"parts":['
    for inner in ("", '{"code":1,"hex":"00"}', '{"code":1,"parts":[]}', "0"):
        asked("PUT", path, front + inner + "]}]}]}]}")
    section("a leaf has at most 255 bytes", "")
    for count in (255, 256):
        body = '{"settings":[{"code":1,"hex":"' + "ff" * count + '"}]}'
        bytes_asked(path, f"'{body[:30]}' {count}* 'ff' '\"}}]}}'", body.encode())
    section("a class has a name and settings", "")
    for body in ("{}", '{"settings":0}', '{"settings":0,"name":1}', '{"name":"gold"}', '{"name":"gold","settings":0}',
                 '{"settings":[{"code":1,"hex":"00"},{"code":43,"parts":[]}],"name":"gold"}'):
        asked("PUT", "/classes/2", body)


def import_asked(path, *parts):
    """A PUT of an import whose body is of these parts: bytes, or a number and the bytes that stand so many times."""
    words = " ".join(quoted(part) if isinstance(part, bytes) else f"{part[0]}* {quoted(part[1])}" for part in parts)
    bytes_asked(path, words, b"".join(part if isinstance(part, bytes) else part[0] * part[1] for part in parts))


def imports():
    subscribers, modems = (HEADERS[kind].encode() + b"\n" for kind in ("subscribers", "modems"))
    two = modems + b"02:aa:bb:cc:dd:f0,7,1,\n02:aa:bb:cc:dd:f1,7,1,SN02\n"
    ann = b"7,yes,2,Ann\n"
    section("an import is asked for by its number, its rows and the digest of all its body", "Python's csv and hashlib.")
    import_asked("/imports/modems/9", two)
    import_asked("/imports/modems/11", MARK + two)
    import_asked("/imports/modems/18446744073709551615?late", two.replace(b"\n", b"\r\n"))
    import_asked("/imports/subscribers/0", subscribers + ann + b"\n8,no,254," + b'"Bob, ""B"" and\nsons"')
    import_asked("/imports/subscribers/007", subscribers.strip())
    import_asked("/imports/subscribers/7", subscribers.replace(b"\n", b"\r") + b"\r" + ann.replace(b"\n", b"\r"))
    section("another body has its first fault", "docs/CLERK_API.md, imports. Rows count from 1 behind the header, columns from 1; an empty line is no row.")
    for path, body in (("/imports/modems/9", b""), ("/imports/modems/9", MARK), ("/imports/modems/9", MARK + MARK + two), ("/imports/subscribers/9", two),
                       ("/imports/modems/9", b"{}"), ("/imports/modems/9", two.replace(b"serial", b"Serial")),
                       ("/imports/subscribers/9", subscribers + ann + b"\n8,no,3\n"), ("/imports/subscribers/9", subscribers + b"7,yes,2,Ann,\n8,no,0,Bob\n"),
                       ("/imports/subscribers/9", subscribers + ann + b"8,no,0,Bob\n9,no\n"), ("/imports/subscribers/9", subscribers + b"x,true,0,\xff\n"),
                       ("/imports/subscribers/9", subscribers + b"7,true,0,\xff\n"), ("/imports/subscribers/9", subscribers + b"7,yes,2,\xff\n"),
                       ("/imports/modems/9", two + b"02:aa:bb:cc:dd,x,1,\n"), ("/imports/modems/9", modems + b"02aabbccddf0,7,4294967296,\n"),
                       ("/imports/modems/9", modems + b"02aabbccddf0,7,1," + b"a" * 65)):
        import_asked(path, body)
    section("an import has at most 2,000 rows", "A row behind them is too many, whatever it holds; a fault of a row before it is told first.")
    for count, behind in ((MOST_ROWS - 1, b"7,yes,2\n" + ann), (MOST_ROWS, b""), (MOST_ROWS, b"\n\n"), (MOST_ROWS, ann), (MOST_ROWS, b"x"), (MOST_ROWS + 1, b"")):
        import_asked("/imports/subscribers/9", subscribers, (count, ann), *([behind] if behind else []))


def answers():
    section("a reply is a text", "docs/CLERK_API.md.")
    ask("done", '{"ok":true}')
    for count in (0, 2000):
        ask(f"rows {count}", compact({"rows": count}))
    for hold in (f"offered {MODEM}", f"bound {MODEM}", "declined"):
        words = hold.split()
        ask(f"lease 10.64.0.10 {hold} t+86400", compact({"expiry": 1_700_086_400, "owner": words[1] if len(words) > 1 else "", "state": words[0]}))
    section("a fault has a status, a word and a text", "docs/CLERK_API.md, the table of faults.")
    ask("head", "; ".join(told(status, word) for status, word in ((400, "head"), (400, "body"), (413, "too-long"))))
    plain = {"no-row": 404, "has-modems": 409, "class-in-use": 409, "no-subscriber": 422, "no-class": 422, "no-hub": 422, "pool-size": 422}
    for word, status in plain.items():
        ask(f"rule 0 {word}", told(status, word))
    for word, status, at in (("pool-overlap", 409, 2), ("relay-taken", 409, 64), ("pool-has-leases", 409, "10.64.0.10"), ("batch-differs", 409, 2**64 - 1),
                             ("hub-in-use", 409, 2), ("device-overlap", 409, 64),
                             ("site", 422, 1), ("site", 422, 2), ("site", 422, 3), ("site", 422, 4)):
        ask(f"rule 0 {word} {at}", told(status, word, at))
    for kind, most in (("subscribers", 200_000), ("add-ons", 100_000), ("modems", 200_000), ("classes", 1_000), ("pools", 64), ("batches", 100_000), ("hubs", 64),
                       ("device-pools", 64)):
        ask(f"rule 0 limit {kind} {most}", told(422, "limit", most))
    for place, word in enumerate(("unknown-code", "length", "range", "missing", "twice", "flow-reference", "classifier-reference", "too-long")):
        ask(f"rule 0 tree {word}", told(422, "tree", place + 1))
    section("a rule at a row of an import names the row", "")
    for row, rule, word in ((1, "no-subscriber", "no-subscriber"), (2_000, "no-class", "no-class"), (3, "limit modems 200000", "limit")):
        ask(f"rule {row} {rule}", told(422, word, row))


PUT = b'PUT /subscribers/7 HTTP/1.1\r\nHost: office\r\nContent-Length: 37\r\n\r\n{"active":true,"cpes":2,"name":"Ann"}'
WHOLE = 'whole PUT /subscribers/7 {"active":true,"cpes":2,"name":"Ann"}'


def sessions():
    section("a request is whole in whatever pieces it comes", "RFC 9112; pieces of 1 byte and more.")
    for size in range(1, len(PUT) + 1):
        ask(f"http {size} {quoted(PUT)}", WHOLE)
    section("each shorter part of it waits", "")
    for length in range(len(PUT)):
        ask(f"http 7 {quoted(PUT[:length])}", "wait")
    section("what short requests say", "RFC 9112, sections 2.2, 3, 5 and 6; this office takes no coded bodies.")
    head, body, long = "head", "body", "too-long"
    for data, answer in ((b"", "wait"), (b"GET / HTTP/1.1\r\n\r", "wait"), (b"GET / HTTP/1.1\r\n\r\n", "whole GET / "), (b"GET / HTTP/1.1\r\n\r\nmore", "whole GET / "),
                         (b"POST / HTTP/1.1\r\nContent-Length: 3\r\n\r\nab", "wait"), (b"POST / HTTP/1.1\r\nContent-Length: 3\r\n\r\nabcd", "whole POST / abc"),
                         (b"GET / HTTP/1.1\nHost: a\r\n\r\n", "whole GET / "), (b"\r\nGET / HTTP/1.1\r\n\r\n", "whole GET / "),
                         (b"GET / HTTP/1.1\n\nHost: a\r\n\r\n", head), (b"\r\n\r\nGET / HTTP/1.1\r\n\r\n", head), (b"GET / HTTP/2.0\r\n\r\n", head),
                         (b"GET  / HTTP/1.1\r\nTransfer-Encoding: chunked\r\n\r\n", head),
                         (b"POST / HTTP/1.1\r\nContent-Length: 5\r\ncontent-length: 05\r\n\r\nhello", "whole POST / hello"),
                         (b"POST / HTTP/1.1\r\nContent-Length: 5\r\nContent-Length: 6\r\n\r\nhello", body),
                         (b"POST / HTTP/1.1\r\nContent-Length: 0000000005\r\n\r\nhello", "whole POST / hello"),
                         (b"POST / HTTP/1.1\r\nContent-Length: 00000000005\r\n\r\nhello", body), (b"POST / HTTP/1.1\r\nContent-Length: +5\r\n\r\nhello", body),
                         (b"POST / HTTP/1.1\r\nContent-Length: 5, 5\r\n\r\nhello", body), (b"POST / HTTP/1.1\r\nContent-Length:\r\n\r\n", body),
                         (b"POST / HTTP/1.1\r\ntRANSFER-eNCODING: chunked\r\n\r\n", body), (b"POST / HTTP/1.1\r\nContent-Encoding: gzip\r\n\r\n", body),
                         (b"POST / HTTP/1.1\r\nContent-Length: 9999999999\r\nContent-Encoding: gzip\r\n\r\n", body),
                         (b"POST / HTTP/1.1\r\nContent-Length: 1048577\r\n\r\n", long), (b"POST / HTTP/1.1\r\nContent-Length: 1048576\r\n\r\n", "wait")):
        ask(f"http 5000 {quoted(data)}", answer)
    section("a head has at most 8,192 bytes and 64 fields", "")
    for length in (8_191, 8_192, 8_193):
        front = f"http 5000 'GET / HTTP/1.1\\r\\nA: ' {length - 23}* 'x'"
        ask(f"{front} '\\r\\n\\r\\n'", "whole GET / " if length <= 8_192 else long)
        ask(f"{front} '\\r\\n\\r'", "wait" if length <= 8_192 else long)
    for count in (64, 65):
        ask(f"http 5000 'GET / HTTP/1.1\\r\\n' {count}* 'A: x\\r\\n' '\\r\\n'", "whole GET / " if count == 64 else head)
    section("the longest body, in pieces of 1, of 4,096, and in one", "")
    for size in (1, 4_096, 2_000_000):
        ask(f"http {size} 'PUT / HTTP/1.1\\r\\nContent-Length: 1048576\\r\\n\\r\\n' 1048576* 'x' 'behind'", f"whole PUT / {escaped(b'x' * 1048576)}")
    section("the bytes of replies", "RFC 9112, section 4, and RFC 9110, section 15.")
    for status in (200, 400, 404, 405, 409, 413, 422):
        ask(f"reply {status} '{{}}'", escaped(reply(status, "{}")))
    ask("reply 413", escaped(reply(413, "")))
    ask("reply 200 60001* 'x'", escaped(reply(200, "x" * 60001)))


def counted(counts):
    """How many rows of each kind there are; of the last kinds there are none where no number stands."""
    names = ("subscribers", "add-ons", "modems", "classes", "pools", "batches", "hubs", "device-pools")
    return " ".join(f"{name} {count}" for name, count in zip(names, (*counts, *(0,) * (len(names) - len(counts)))))


def tables():
    section("possible rows are counted by kind", "An impossible row is none.")
    batch = "modems 2 " + "00" * 16
    for more, counts in (("", (1, 0, 1, 1, 1, 0, 1)), ('subscriber 8 active 1 "Ann"; subscriber 9 active 0 "Ann"', (2, 0, 1, 1, 1, 0, 1)),
                         (f"add-on 8 1 {BOOST}; add-on 7 8 {BOOST}", (1, 1, 1, 1, 1, 0, 1)), ('modem 02aabbccdd01 8 8 "SN01"', (1, 0, 2, 1, 1, 0, 1)),
                         (f'class 2 "gold" {GOLD}; class 3 "gold" 99=01', (1, 0, 1, 2, 1, 0, 1)),
                         ("pool 2 0.0.0.1 0.0.0.1 24 0.0.0.9 0.0.0.2; pool 3 0.0.0.1 0.0.0.1 7 0.0.0.9 0.0.0.2", (1, 0, 1, 1, 2, 0, 1)),
                         (f"batch 1 {batch}; batch 2 {batch}; stray batch 3", (1, 0, 1, 1, 1, 2, 1)),
                         ("lease 10.64.0.10 declined t; held 02aabbccdd01 10.64.0.10", (1, 0, 1, 1, 1, 0, 1)),
                         ("hub 1 10.0.0.3 00 0 60 0.0.0.0; hub 4294967295 10.0.0.3 00 0 604800 0.0.0.0", (1, 0, 1, 1, 1, 0, 3)),
                         ("hub 1 10.0.0.3 - 0 60 0.0.0.0; hub 2 10.0.0.3 00 0 59 0.0.0.0; stray hub 3; drop hub 0", (1, 0, 1, 1, 1, 0, 0)),
                         (f"{DEVICES}; device-pool 4294967295 0.0.0.1 0.0.0.1 8 0.0.0.9 0.0.0.2", (1, 0, 1, 1, 1, 0, 1, 2)),
                         ("device-pool 1 0.0.0.2 0.0.0.1 24 0.0.0.9 0.0.0.2; device-pool 2 0.0.0.1 0.0.0.1 7 0.0.0.9 0.0.0.2; stray device-pool 3", (1, 0, 1, 1, 1, 0, 1)),
                         (f"device 10.128.0.10 bound {MODEM} 0200000000a1 t; device 10.128.0.11 declined t", (1, 0, 1, 1, 1, 0, 1)),
                         ("pool-hub 1 1; pool-hub 2 0", (1, 0, 1, 1, 1, 0, 1)), ("site 10.0.0.2 00 0 60 0.0.0.0; drop hub 0", (1, 0, 1, 1, 1, 0, 0))):
        ask(f"count {OFFICE}" + (f"; {more}" if more else ""), counted(counts))
    ask("count", counted(()))
    section("of two writes to a key the later one stands, and a walk rises", "The calls are one commit and one for each entry, with the one that finds no more.")
    held = f"held {MODEM}"
    for first, second, left in ((f"{held} 0.0.0.7", f"drop {held}", []), (f"drop {held}", f"{held} 0.0.0.7", [f"{held} 0.0.0.7"]),
                                (f"{held} 0.0.0.7", f"{held} 0.0.0.8", [f"{held} 0.0.0.8"]), (f"drop {held}", f"drop {held}", [])):
        ask(f"writes {first}; {second}", "; ".join([*left, f"calls {2 + len(left)}"]))
    rows = ['subscriber 3 active 2 ""', "held 02aabbccdd02 0.0.0.2", 'subscriber 1 active 2 ""', "held 02aabbccdd01 0.0.0.1", "lease 0.0.0.1 declined 0"]
    ask(f"writes {'; '.join(rows)}", "; ".join([rows[2], rows[0], rows[4], rows[3], rows[1], "calls 7"]))


def done(asked, writes, counts, more="", reply="done"):
    ask(f"decide t {asked}; {OFFICE}" + (f"; {more}" if more else ""), "; ".join([*writes, reply, counted(counts)]))


def refused(asked, fault, more=""):
    ask(f"decide t {asked}; {OFFICE}" + (f"; {more}" if more else ""), fault)


def decisions():
    section("a row is put", "What each command does, and its rules in order: docs/CLERK_API.md, the table of faults. A count rises where the row is new.")
    for row, counts in (('subscriber 8 active 1 "Bob"', (2, 0, 1, 1, 1, 0, 1)), ('subscriber 7 suspended 2 "Ann"', (1, 0, 1, 1, 1, 0, 1)),
                        (f"add-on 7 0 {BOOST}", (1, 1, 1, 1, 1, 0, 1)), ('modem 02aabbccdd01 7 1 ""', (1, 0, 2, 1, 1, 0, 1)), (f'class 2 "gold" {GOLD}', (1, 0, 1, 2, 1, 0, 1)),
                        ("hub 0 10.0.0.3 00 -3600 60 10.0.0.4", (1, 0, 1, 1, 1, 0, 1)), ("hub 1 10.0.0.3 00 -3600 60 10.0.0.4", (1, 0, 1, 1, 1, 0, 2))):
        done(f"put {row}", [f"put {row}"], counts)
    section("a pool is put with its hub", "A row names it where it isn't the hub 0; else there is none.")
    second, other = "pool 2 10.64.1.10 10.64.1.20 24 10.64.1.1 10.64.1.1", "hub 1 10.0.0.3 00 0 60 0.0.0.0"
    done(f"put {second} 0", [f"put {second}", "drop pool-hub 2"], (1, 0, 1, 1, 2, 0, 1))
    done(f"put {second} 1", [f"put {second}", "put pool-hub 2 1"], (1, 0, 1, 1, 2, 0, 2), other)
    done(f"put {second} 0", [f"put {second}", "drop pool-hub 2"], (1, 0, 1, 1, 2, 0, 2), f"{other}; {second}; pool-hub 2 1")
    done(f"put {POOL} 1", [f"put {POOL}", "put pool-hub 1 1"], (1, 0, 1, 1, 1, 0, 2), other)
    section("a put is refused", "")
    for row, fault in (("hub 0 0.0.0.0 - 86401 59 0.0.0.0", told(422, "site", 1)), ("hub 0 10.0.0.2 - 86401 59 0.0.0.0", told(422, "site", 2)),
                       ("hub 1 10.0.0.2 00 86401 59 0.0.0.0", told(422, "site", 3)), ("hub 1 10.0.0.2 00 86401 60 0.0.0.0", told(422, "site", 4)),
                       ("add-on 9 0 99=01", told(422, "no-subscriber")), ("add-on 7 0 99=01", told(422, "tree", 1)), ('class 2 "gold" 99=01', told(422, "tree", 1)),
                       ('modem 02aabbccdd01 9 9 ""', told(422, "no-subscriber")), ('modem 02aabbccdd01 7 9 ""', told(422, "no-class")),
                       ("pool 2 10.64.0.99 10.64.0.10 24 10.64.0.1 10.64.0.1 9", told(422, "pool-size")),
                       ("pool 2 10.64.0.99 10.64.0.99 24 10.64.0.1 10.64.0.1 9", told(409, "pool-overlap", 1)),
                       ("pool 2 10.64.0.100 10.64.0.100 24 10.64.0.1 10.64.0.1 9", told(409, "relay-taken", 1)), (f"{second} 9", told(422, "no-hub")),
                       (f"{POOL} 1", told(422, "no-hub"))):
        refused(f"put {row}", fault)
    pools = "; ".join(f"pool {n} 10.0.{n}.1 10.0.{n}.2 24 10.0.{n}.1 10.0.{n}.1" for n in range(2, 65))
    last = "10.0.65.1 10.0.65.2 24 10.0.65.1 10.0.65.1"
    refused(f"put pool 65 {last} 0", told(422, "limit", 64), pools)
    refused(f"put pool 65 {last} 9", told(422, "no-hub"), pools)
    done(f"put pool 64 {last} 0", [f"put pool 64 {last}", "drop pool-hub 64"], (1, 0, 1, 1, 64, 0, 1), pools)
    values = "10.0.0.3 00 0 60 0.0.0.0"
    full = "; ".join(f"hub {n} {values}" for n in range(1, 64))
    refused(f"put hub 64 {values}", told(422, "limit", 64), full)
    done(f"put hub 63 {values}", [f"put hub 63 {values}"], (1, 0, 1, 1, 1, 0, 64), full)
    section("leases that a pool gives up go with it", "A lease whose end is later than the moment holds the pool.")
    smaller = "pool 1 10.64.0.11 10.64.0.98 24 10.64.0.1 10.64.0.1"
    held = f"lease 10.64.0.10 bound {MODEM} t; held {MODEM} 10.64.0.10; lease 10.64.0.99 declined t"
    drops = ["drop lease 10.64.0.10", f"drop held {MODEM}", "drop lease 10.64.0.99"]
    done(f"put {smaller} 0", [f"put {smaller}", "drop pool-hub 1", *drops], (1, 0, 1, 1, 1, 0, 1), held)
    done(f"put {smaller} 1", [f"put {smaller}", "put pool-hub 1 1", *drops], (1, 0, 1, 1, 1, 0, 2), f"{other}; {held}")
    done("remove pool 1", ["drop pool 1", "drop pool-hub 1", *drops], (1, 0, 1, 1, 0, 0, 1), held)
    done(f"put {smaller} 0", [f"put {smaller}", "drop pool-hub 1"], (1, 0, 1, 1, 1, 0, 1), "lease 10.64.0.11 declined t+1; lease 10.64.0.98 declined t+1")
    for command in (f"put {smaller} 0", "remove pool 1"):
        refused(command, told(409, "pool-has-leases", "10.64.0.99"), "lease 10.64.0.10 declined t; lease 10.64.0.99 declined t+1")
        refused(command, told(409, "pool-has-leases", "10.64.0.10"), "lease 10.64.0.10 declined t+1; lease 10.64.0.99 declined t+1")
    section("a row is removed", "A subscriber's add-ons, of whatever number, go with it; a modem's lease stays.")
    add_ons = f'subscriber 8 active 1 "Bob"; add-on 8 1 {BOOST}; add-on 8 7 {BOOST}; add-on 7 1 {BOOST}'
    done("remove subscriber 8", ["drop subscriber 8", *(f"drop add-on 8 {k}" for k in range(8))], (1, 1, 1, 1, 1, 0, 1), add_ons)
    done("remove add-on 8 7", ["drop add-on 8 7"], (2, 2, 1, 1, 1, 0, 1), add_ons)
    done(f"remove modem {MODEM}", [f"drop modem {MODEM}"], (1, 0, 0, 1, 1, 0, 1), f"lease 10.64.0.10 bound {MODEM} t+1; held {MODEM} 10.64.0.10")
    done("remove class 2", ["drop class 2"], (1, 0, 1, 1, 1, 0, 1), f'class 2 "gold" {GOLD}')
    done("remove hub 1", ["drop hub 1"], (1, 0, 1, 1, 1, 0, 1), other)
    done("remove hub 0", ["drop hub 0"], (1, 0, 1, 1, 1, 0, 1), f"{other}; pool-hub 1 1")
    refused("remove hub 0", told(409, "hub-in-use", 1))
    refused("remove hub 0", told(409, "hub-in-use", 0), "pool 0 0.0.0.1 0.0.0.1 24 0.0.0.9 0.0.0.2; pool 2 0.0.0.2 0.0.0.2 24 0.0.0.9 0.0.0.3")
    refused("remove hub 1", told(409, "hub-in-use", 2), f"{other}; {second}; pool-hub 2 1; pool 3 0.0.0.2 0.0.0.2 24 0.0.0.9 0.0.0.3; pool-hub 3 1")
    refused("remove subscriber 7", told(409, "has-modems"))
    refused("remove class 1", told(409, "class-in-use"))
    for key in ("subscriber 9", "add-on 7 0", "modem 02aabbccdd01", "class 9", "pool 9", "hub 9"):
        refused(f"remove {key}", told(404, "no-row"))
    section("a row is shown", "Nothing is written.")
    done("show subscriber 7", [], (1, 0, 1, 1, 1, 0, 1), reply='shown subscriber 7 active 2 "Ann"')
    done("show pool 1", [], (1, 0, 1, 1, 1, 0, 1), reply=f"shown {POOL} 0")
    done("show pool 1", [], (1, 0, 1, 1, 1, 0, 2), f"{other}; pool-hub 1 1", f"shown {POOL} 1")
    done("show hub 0", [], (1, 0, 1, 1, 1, 0, 1), reply="shown hub 0 10.0.0.2 736563726574 3600 86400 0.0.0.0")
    refused("show hub 1", told(404, "no-row"))
    refused("show pool 9", told(404, "no-row"), "pool-hub 9 1")
    done("show lease 10.64.0.10", [], (1, 0, 1, 1, 1, 0, 1), "lease 10.64.0.10 declined t+1", "shown lease 10.64.0.10 declined 1700000001")
    refused("show lease 10.64.0.11", told(404, "no-row"), "lease 10.64.0.10 declined t+1")


def device_pool(number, first, last, relay="10.128.0.1"):
    return f"device-pool {number} {first} {last} 24 10.128.0.1 {relay}"


def device_pools():
    one = (1, 0, 1, 1, 1, 0, 1, 1)
    section("a pool for devices is put", "docs/CLERK_API.md, the table of faults. It has no hub, and a number beside a pool's.")
    done(f"put {DEVICES}", [f"put {DEVICES}"], one)
    done(f"put {DEVICES}", [f"put {DEVICES}"], one, DEVICES)
    done("put " + device_pool(1, "10.128.0.30", "10.128.0.40"), ["put " + device_pool(1, "10.128.0.30", "10.128.0.40")], one, DEVICES)
    done("put " + device_pool(2, "10.128.0.21", "10.128.0.30", "10.128.0.2"), ["put " + device_pool(2, "10.128.0.21", "10.128.0.30", "10.128.0.2")],
         (1, 0, 1, 1, 1, 0, 1, 2), DEVICES)
    done("put " + device_pool(9, "10.64.0.0", "10.64.0.9", "10.64.0.1"), ["put " + device_pool(9, "10.64.0.0", "10.64.0.9", "10.64.0.1")], one)
    done("put " + device_pool(1, "10.128.0.0", "10.128.15.255"), ["put " + device_pool(1, "10.128.0.0", "10.128.15.255")], one)
    section("a pool for devices isn't put", "The first rule in order: its size; a pool with one of its addresses; another pool for devices with one; one with its relay; leases; the limit.")
    other = device_pool(7, "10.128.0.21", "10.128.0.30", "10.128.0.7")
    third = device_pool(3, "10.128.0.31", "10.128.0.40", "10.128.0.3")
    full = "; ".join(device_pool(n, f"10.128.{n}.1", f"10.128.{n}.2", f"10.128.{n}.1") for n in range(2, 65))
    live = f"device 10.128.0.10 bound {MODEM} 0200000000a1 t+1"
    for asked_for, fault, rows in (
            (device_pool(2, "10.128.0.20", "10.128.0.19"), told(422, "pool-size"), ""),
            (device_pool(2, "10.128.0.0", "10.128.16.0"), told(422, "pool-size"), ""),
            (device_pool(2, "10.64.0.99", "10.64.0.98"), told(422, "pool-size"), DEVICES),
            (device_pool(2, "10.64.0.99", "10.64.0.99"), told(409, "pool-overlap", 1), DEVICES),
            (device_pool(2, "10.64.0.0", "10.64.0.10"), told(409, "pool-overlap", 1), "pool 2 10.64.0.9 10.64.0.9 8 0.0.0.0 7.7.7.7"),
            (device_pool(2, "10.64.0.0", "10.64.0.10"), told(409, "pool-overlap", 0), "pool 0 10.64.0.9 10.64.0.9 8 0.0.0.0 7.7.7.7"),
            (device_pool(2, "10.128.0.20", "10.128.0.30"), told(409, "device-overlap", 1), f"{DEVICES}; {other}"),
            (device_pool(1, "10.128.0.20", "10.128.0.30"), told(409, "device-overlap", 7), f"{DEVICES}; {other}"),
            (device_pool(2, "10.128.0.30", "10.128.0.31"), told(409, "device-overlap", 3), f"{DEVICES}; {third}; {other}"),
            (device_pool(2, "10.128.0.50", "10.128.0.50"), told(409, "relay-taken", 1), DEVICES),
            (device_pool(1, "10.128.0.50", "10.128.0.50", "10.128.0.7"), told(409, "relay-taken", 7), f"{DEVICES}; {other}; {live}"),
            (device_pool(1, "10.128.0.11", "10.128.0.20"), told(409, "pool-has-leases", "10.128.0.10"), f"{DEVICES}; {live}"),
            (device_pool(65, "10.128.1.1", "10.128.1.1", "10.128.1.2"), told(422, "limit", 64), f"{DEVICES}; {full}"),
            (device_pool(65, "10.128.64.2", "10.128.64.3", "10.128.1.2"), told(409, "device-overlap", 64), f"{DEVICES}; {full}"),
            (device_pool(65, "10.128.1.1", "10.128.1.1", "10.128.64.1"), told(409, "relay-taken", 64), f"{DEVICES}; {full}")):
        refused(f"put {asked_for}", fault, rows)
    last = device_pool(64, "10.128.64.2", "10.128.64.3", "10.128.64.1")
    done(f"put {last}", [f"put {last}"], (1, 0, 1, 1, 1, 0, 1, 64), f"{DEVICES}; {full}")
    section("a pool and a pool for devices may have the same relay and the same number, but no address in common", "")
    shared = device_pool(1, "10.128.0.10", "10.128.0.20", "10.64.0.1")
    done(f"put {shared}", [f"put {shared}"], one)
    done(f"put {POOL} 0", [f"put {POOL}", "drop pool-hub 1"], one, shared)
    pool = "pool 2 {} {} 24 10.64.1.1 10.64.1.1"
    at_20, at_25 = pool.format("10.128.0.20", "10.128.0.30"), pool.format("10.128.0.25", "10.128.0.31")
    refused(f"put {at_20} 0", told(409, "device-overlap", 1), f"{DEVICES}; {other}")
    refused(f"put {at_25} 0", told(409, "device-overlap", 3), f"{DEVICES}; {third}; {other}")
    section("a pool's rule on pools for devices stands between those on pools' addresses and relays", "")
    refused(f"put {pool.format('10.128.0.20', '10.128.0.19')} 9", told(422, "pool-size"), DEVICES)
    refused(f"put {at_20} 9", told(409, "pool-overlap", 3), f"{DEVICES}; pool 3 10.128.0.30 10.128.0.30 24 10.64.3.1 10.64.3.1")
    refused(f"put {at_20.rsplit(' ', 1)[0]} 10.64.0.1 9", told(409, "device-overlap", 1), DEVICES)
    refused(f"put {at_20} 9", told(409, "device-overlap", 1), DEVICES)
    pools = "; ".join(f"pool {n} 10.0.{n}.1 10.0.{n}.2 24 10.0.{n}.1 10.0.{n}.1" for n in range(3, 66))
    refused(f"put {at_20} 0", told(409, "device-overlap", 1), f"{DEVICES}; {pools}")
    held = "lease 10.64.0.10 declined t+1"
    refused("put pool 1 10.128.0.20 10.128.0.21 24 10.64.0.1 10.64.0.1 0", told(409, "device-overlap", 1), f"{DEVICES}; {held}")
    section("devices' leases that a pool gives up go with it", "A lease whose end is later than the moment holds the pool. Leases of modems stay.")
    smaller = device_pool(1, "10.128.0.11", "10.128.0.19")
    ended = f"device 10.128.0.10 bound {MODEM} 0200000000a1 t; device 10.128.0.15 offered {MODEM} 0200000000a2 t; device 10.128.0.20 declined t"
    of_modems = f"lease 10.64.0.10 bound {MODEM} t; held {MODEM} 10.64.0.10"
    drops = ["drop device 10.128.0.10", "drop device 10.128.0.20"]
    done(f"put {smaller}", [f"put {smaller}", *drops], one, f"{DEVICES}; {ended}; {of_modems}")
    done(f"put {DEVICES}", [f"put {DEVICES}"], one, f"{DEVICES}; {ended}")
    done("remove device-pool 1", ["drop device-pool 1", drops[0], "drop device 10.128.0.15", drops[1]], (1, 0, 1, 1, 1, 0, 1), f"{DEVICES}; {ended}; {of_modems}")
    done(f"put {smaller}", [f"put {smaller}"], one, f"{DEVICES}; device 10.128.0.11 declined t+1; device 10.128.0.19 bound {MODEM} 0200000000a1 t+1")
    done("remove device-pool 7", ["drop device-pool 7"], one, f"{DEVICES}; {other}; {live}")
    done("remove pool 1", ["drop pool 1", "drop pool-hub 1"], (1, 0, 1, 1, 0, 0, 1, 1), f"{DEVICES}; {live}")
    for asked_for in (f"put {smaller}", "remove device-pool 1"):
        for first, second, at in (("t", "t+1", 20), ("t+1", "t+1", 10), ("t+1", "t", 10)):
            refused(asked_for, told(409, "pool-has-leases", f"10.128.0.{at}"), f"{DEVICES}; device 10.128.0.10 declined {first}; device 10.128.0.20 declined {second}")
    section("a pool for devices is removed and shown", "It has no row of a hub.")
    done("remove device-pool 1", ["drop device-pool 1"], (1, 0, 1, 1, 1, 0, 1), DEVICES)
    refused("remove device-pool 1", told(404, "no-row"))
    refused("remove device-pool 2", told(404, "no-row"), DEVICES)
    refused("remove pool 2", told(404, "no-row"), DEVICES.replace("pool 1", "pool 2"))
    done("show device-pool 1", [], one, DEVICES, f"shown {DEVICES}")
    refused("show device-pool 1", told(404, "no-row"))
    refused("show device-pool 2", told(404, "no-row"), "pool 2 0.0.0.1 0.0.0.1 24 0.0.0.9 0.0.0.2")
    done("remove hub 0", ["drop hub 0"], (1, 0, 1, 1, 0, 0, 0, 1), f"drop pool 1; {DEVICES}")
    done(f"remove modem {MODEM}", [f"drop modem {MODEM}"], (1, 0, 0, 1, 1, 0, 1, 1), f"{DEVICES}; {live}")


def questions():
    """The questions, and what is expected of each."""
    sessions()
    paths()
    bodies()
    trees()
    imports()
    answers()
    tables()
    decisions()
    device_pools()
    return script
