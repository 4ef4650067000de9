#!/usr/bin/env python3
"""Writes crates/office_script/stdin and stdout: examples of whole runs, and questions, with what is expected of each.

The office of the worked examples is hub 0, class 1, subscriber 7, a modem and a pool. What is expected is said here by hand, from the rules
in docs/, or computed by Python's hashlib, hmac and json and the readers of examples.py, which are written from the standards. The sections on
DHCP are those of leases.py, those on devices behind modems of devices.py and devices_by_chance.py, those on TFTP of transfers.py, those on whole boots
of boots.py, those on imports of import_job.py, those on drills of drills.py, those on calls that fail of failures.py, those on input from strangers of
hostile.py, and those on cells of stores.py, which names what keeps the tables of each. The questions are those of formats.py and
clerks.py. With the word `check` it compares the two files with what it would write.
"""
import sys

import boots
import devices
import devices_by_chance
import drills
import failures
import hostile
import import_job
import leases
import stores
import transfers
from clerks import questions as clerk_questions
from examples import T, Fault, Script, answer, answered, compact, datagram, fixed, ip, outcome, request, sealed, time_reply, verdict
from formats import questions as format_questions

SECRET = "736563726574"
FIRST = 0x0A40000A
LAST = 0x0A400063
RELAY = 0x0A400001
GOLD = "24{ 1=0001 6=07 8=00989680 } 25{ 1=0002 6=07 8=05f5e100 }"
TREES = {"gold": "24{ 1=0001 6=07 } 25{ 1=0002 6=07 }", "boost": "24{ 1=0005 6=07 } 22{ 1=03 3=0005 }", "unknown": "99=01"}
OFFICE = ["hub 0 10.0.0.2 736563726574 3600 86400 0.0.0.0", f'class 1 "gold" {GOLD}', 'subscriber 7 active 2 "Ann"', 'modem 02aabbccddee 7 1 "SN01"',
          "pool 1 10.64.0.10 10.64.0.99 24 10.64.0.1 10.64.0.1"]
PEER = "10.64.0.10:5000"
OK = '{"ok":true}'
script = Script("office.py", "By hand, from the rules of commands in docs/CLERK_API.md.")
run = script.run
section = script.section


def mac(last):
    return f"02aabbccdd{last:02x}"


def device(last):
    """The hardware address of a device behind a modem."""
    return f"0200000000{last:02x}"


def with_rows(*rows, without=()):
    """The office's rows with others, and without those of these keys."""
    kept = [row for row in OFFICE if not any((row + " ").startswith(key + " ") for key in without)]
    return kept + list(rows)


def time(moment, fields=""):
    return f"{moment} datagram time from {PEER}" + (f" {fields}" if fields else "")


def told(moment):
    return datagram("time", PEER, time_reply(moment))


def turns(number):
    return f"words serve --store memory --ports 67,37,69,80 --turns {number}"


# A refusal: its status, its word, and what is at fault.
NO_ROW, HAS_MODEMS, IN_USE = (404, "no-row", None), (409, "has-modems", None), (409, "class-in-use", None)
NO_SUBSCRIBER, NO_CLASS, SIZE = (422, "no-subscriber", None), (422, "no-class", None), (422, "pool-size", None)
NO_HUB = (422, "no-hub", None)
DONE = (200, "", OK)


def refusal(status, word):
    """Such a refusal over what has a number: another pool, a limit, or a hub's field."""
    return lambda number: (status, word, str(number))


overlaps, device_overlaps, taken, in_use = (refusal(409, word) for word in ("pool-overlap", "device-overlap", "relay-taken", "hub-in-use"))
limit, site_field = refusal(422, "limit"), refusal(422, "site")


def lost(address):
    return 409, "pool-has-leases", ip(address)


# The first fault of settings, by its number: 1, a code that may not stand there.
UNKNOWN = (422, "tree", "1")


def line_of(number, given):
    status, word, _ = given
    return f"{number} http {status}" + (f" {word}" if word else "")


def text_of(given):
    """The JSON text of what a command is answered."""
    status, word, at = given
    if status == 200:
        return at
    return compact({"fault": word} if at is None else {"at": at, "fault": word})


def tree_json(tree):
    """Settings as a clerk writes them: `24{ 1=0001 }` has one leaf."""
    found, around = [], []
    for word in tree.split():
        if word == "}":
            parts = found
            code, found = around.pop()
            found.append({"code": code, "parts": parts})
        elif word.endswith("{"):
            around.append((int(word[:-1]), found))
            found = []
        else:
            code, value = word.split("=")
            found.append({"code": int(code), "hex": value})
    return found


def put_site(server, secret, offset, lease, path="/site"):
    """The hub 0, by the path of a site; or another one by its own path."""
    return "PUT", path, compact({"server": ip(server), "secret": b"secret"[:secret].hex(), "offset": offset, "lease": lease, "log": "0.0.0.0"})


def put_hub(number, server=0x0A000003, secret=6, offset=0, lease=60):
    return put_site(server, secret, offset, lease, f"/hubs/{number}")


def put_subscriber(number):
    return "PUT", f"/subscribers/{number}", compact({"active": True, "cpes": 2, "name": "Ann"})


def put_add_on(owner, number, tree):
    return "PUT", f"/subscribers/{owner}/addons/{number}", compact({"settings": tree_json(TREES[tree])})


def put_modem(last, subscriber, number):
    return "PUT", f"/modems/{mac(last)}", compact({"subscriber": subscriber, "class": number, "serial": "SN01"})


def put_class(number, tree):
    return "PUT", f"/classes/{number}", compact({"name": "gold", "settings": tree_json(TREES[tree])})


def put_pool(number, first, last, relay, hub=None):
    """A pool; its body may leave the hub out."""
    named = {} if hub is None else {"hub": hub}
    return "PUT", f"/pools/{number}", compact({"first": ip(first), "last": ip(last), "prefix": 24, "router": ip(RELAY), "relay": ip(relay), **named})


def put_device_pool(number, first, last, relay):
    """A pool for devices, whose body names no hub."""
    return "PUT", f"/device-pools/{number}", put_pool(number, first, last, relay)[2]


def remove(path):
    return "DELETE", path, ""


def show(path):
    return "GET", path, ""


def ask(conn, command, moment="t"):
    return f"{moment} ask {conn} {command[0]} {command[1]}" + (f" {command[2]}" if command[2] else "")


def are_decided(rows, commands, without=()):
    """The office with further rows answers each of the commands so."""
    for command, given in commands:
        run("", ["office", *rows, ask(1, command)], outcome(wrote=[line_of(1, given)], sent=answered(1, given[0], text_of(given))))


def is_done(rows, command, tables):
    """The office with further rows does a command, and these are its tables then."""
    run("", ["office", *rows, "show tables", ask(1, command)], outcome(wrote=["1 http 200"], sent=answered(1, 200, OK), tables=tables))


def telling():
    section("the time is told", "RFC 868: the seconds since 1 January 1900 in 32 bits. Lines count the turns that say something.")
    run("no events", [turns(5)], outcome())
    run("the moment 0", [turns(5), time(0)], outcome(wrote=["1 time sent"], sent=[told(0)]))
    run("the number begins again", [turns(5), time(2085978496)], outcome(wrote=["1 time sent"], sent=[told(2085978496)]))
    run("a moment of 2023", [turns(5), time("t")], outcome(wrote=["1 time sent"], sent=[told(T)]))
    run("the greatest moment", [turns(5), time(2**64 - 1)], outcome(wrote=["1 time sent"], sent=[told(2**64 - 1)]))
    run("bytes of a question say nothing", [turns(5), time(0, "00ff 'x'")], outcome(wrote=["1 time sent"], sent=[told(0)]))
    run("a silent tick, an end", [turns(9), "0 tick", time(0), "0 end", time(0)], outcome(wrote=["2 time sent"], sent=[told(0)]))
    run("no more than the turns", [turns(1), "0 piece 1", time(0)], outcome(wrote=["1 http wait"]))
    run("no turns", [turns(0), time(0)], outcome())
    run("the moment never falls", [turns(5), "t tick", time(5)], outcome(wrote=["2 time sent"], sent=[told(T)]))
    run("each prefix of a question", [turns(5), f"0 prefixes time from {PEER} 000102"],
        outcome(wrote=[f"{number} time sent" for number in range(1, 5)], sent=[told(0)] * 4))
    section("calls of the link and of the sink that fail", "A link is given up after sixteen failures in a row, with status 5; a sink at once, with status 4.")
    in_a_row = " ".join(str(number) for number in range(1, 17))
    run("the link fails sixteen times", [turns(5), f"fails link {in_a_row}"], outcome(5, ["link refused"]))
    run("the link fails fifteen times", [turns(5), time(0), f"fails link {in_a_row[:-3]}"], outcome(wrote=["1 time sent"], sent=[told(0)]))
    run("the sink has five bytes of room", [turns(5), time(0), "room sink 5"], outcome(4, cut="1 tim", sent=[told(0)]))
    run("the sink has no room for the status's line", [turns(5), f"fails link {in_a_row}", "room sink 4"], outcome(4, cut="link"))
    run("the link has no room", [turns(5), time(0), time(0), "room link 1 4"], outcome(wrote=["1 time sent", "2 time link"], sent=[told(0)]))
    run("a send fails in the last turn", [turns(1), time(0), "fails link 2"], outcome(wrote=["1 time link"]))
    run("a send fails and so does its line", [turns(5), time(0), time(0), "fails link 2", "fails sink 1"], outcome(4))
    run("a send fails and its line is cut", [turns(5), time(0), time(0), "fails link 2", "room sink 10"], outcome(4, cut="1 time lin"))
    run("each call of the sink", [turns(5), time(0), time(0), "fails each sink"], outcome(wrote=["1 time sent", "2 time sent"], sent=[told(0)] * 2),
        outcome(4, sent=[told(0)]), outcome(4, ["1 time sent"], sent=[told(0)] * 2))
    # A failure of `next` isn't an event, and is tried again; one of a send is told by the line.
    both, first, second = (outcome(wrote=[f"1 time {one}", f"2 time {two}"], sent=[told(0)] * sent)
                           for one, two, sent in (("sent", "sent", 2), ("link", "sent", 1), ("sent", "link", 1)))
    run("each call of the link", [turns(5), time(0), time(0), "fails each link"], both, both, first, both, second, both)
    section("memory that is wanted for an event ends the run", "It is no failure of the link, and isn't tried again: status 6, and what was done by then stays done.")
    run("at the first event", [turns(5), time(0), "wants link 1"], outcome(6, ["memory refused"]))
    run("at the second", [turns(5), time(0), time(0), "wants link 2"], outcome(6, ["1 time sent", "memory refused"], sent=[told(0)]))
    run("behind the last turn nothing is asked for", [turns(1), time(0), "wants link 2"], outcome(wrote=["1 time sent"], sent=[told(0)]))
    run("behind fifteen failures", [turns(5), time(0), f"fails link {in_a_row[:-3]}", "wants link 16"], outcome(6, ["memory refused"]))
    run("the sink fails too", [turns(5), time(0), "wants link 1", "fails sink 1"], outcome(4))
    run("its line is cut", [turns(5), time(0), "wants link 1", "room sink 6"], outcome(4, cut="memory"))
    run("behind a command that was done", ["show tables", turns(5), ask(1, put_site(0x0A000002, 6, 3600, 86400)), "wants link 2"],
        outcome(6, ["1 http 200", "memory refused"], sent=answered(1, 200, OK), tables=OFFICE[:1]))


def job(command, secret, data, more=(), source=None):
    lines = [f"words {command} {secret}", *more]
    if data:
        lines.append(f"source {source or data.hex()}")
    return lines


def does(remark, command, data, secret=SECRET, source=None, more=()):
    """A job over a file ends as Python says."""
    key = bytes.fromhex(secret)
    refused = 9 if command == "seal" else 8
    try:
        if command == "seal":
            done = outcome(raw=sealed(data, key))
        else:
            cm, cmts = verdict(data, key)
            done = outcome(0 if cm and cmts else 8, [f"cm {'good' if cm else 'bad'}", f"cmts {'good' if cmts else 'bad'}"])
    except Fault as fault:
        done = outcome(refused, [f"refused {fault}"])
    run(remark, job(command, secret, data, more, source), done)


def jobs():
    section("files are sealed and checked", "Python's hashlib and hmac over a reader of the grammar of CM-SP-MULPIv3.1, annex D.1.",
            "The secret is the text `secret`.")
    plain = bytes.fromhex("030101ff")
    timed = bytes.fromhex("030101120101ff")
    for file in (plain, timed, bytes.fromhex("0301011304e8fe6f80ff"), bytes.fromhex("0301011201011304e8fe6f80ff"), bytes.fromhex("0301010b023000110301010fff"),
                 sealed(timed, b"secret")):
        does("", "seal", file)
    whole = sealed(timed, b"secret")
    does("", "check", whole)
    does("one bit of setting 18 is another", "check", whole[:5] + b"\0" + whole[6:])
    does("another secret", "check", whole, secret="736563726575")
    uncovered = sealed(bytes.fromhex("0301010b023000110301010fff"), b"secret")
    does("the last byte of setting 11 is another", "check", uncovered[:6] + b"\x11" + uncovered[7:])
    for file in ("030101180401050001ff", "030101ff01", "030101", "03010100ff"):
        does("", "check", bytes.fromhex(file))
        does("", "seal", bytes.fromhex(file))
    mic = "0610" + "00" * 16
    for file in ("400100ff", "030101ff", mic + "ff", mic + mic + "ff", "06010007100000000000000000000000000000000" + "0ff", mic + "070100ff"):
        does("", "check", bytes.fromhex(file))
    section("a file of 65,536 bytes is sealed whole, and one more is too many", "255 settings of 255 bytes and the end marker are 65,536 bytes.")
    does("", "seal", (b"\x09\xff" + b"\xff" * 255) * 255 + b"\xff", source="255* 09" + "ff" * 256 + " ff")
    does("", "check", sealed((b"\x09\xff" + b"\xff" * 255) * 254 + b"\xff", b"secret"),
         source="254* 09" + "ff" * 256 + " " + sealed((b"\x09\xff" + b"\xff" * 255) * 254 + b"\xff", b"secret")[257 * 254:].hex())
    does("", "seal", bytes(65536), source="65536* 00")
    for command, status in (("check", 8), ("seal", 9)):
        run("", [f"words {command} {SECRET}", "source 65537* 00"], outcome(status, ["refused too-long"]))
    section("streams that fail", "A source's failure has status 7, a sink's 4. Where the line of the first can't be written the status is 4.")
    run("each call of the source", job("check", SECRET, whole, ["fails each source"]), outcome(0, ["cm good", "cmts good"]), outcome(7, ["source refused"]))
    run("each call of the source", job("seal", SECRET, plain, ["fails each source"]), outcome(raw=sealed(plain, b"secret")), outcome(7, ["source refused"]))
    run("the sink has four bytes of room", job("check", SECRET, plain, ["room sink 4"]), outcome(4, cut="refu"))
    run("the sink fails", job("seal", SECRET, plain, ["fails sink 1"]), outcome(4))
    for command in ("check", "seal"):
        run("the source fails, and then the sink", job(command, SECRET, plain, ["fails source 1", "fails sink 1"]), outcome(4))
        run("the source fails, and its line is cut", job(command, SECRET, plain, ["fails source 1", "room sink 6"]), outcome(4, cut="source"))
    section("a secret has 1 to 64 bytes in hexadecimal digits of either case", "The empty file is refused behind a secret that is read.")
    for secret in ("00", "aF", "00" * 64):
        run("", [f"words seal {secret}"], outcome(9, ["refused no-end"]))
    for secret in ("_", "0", "000", "0g", "0x00", "00" * 65):
        run("", [f"words seal {secret}"], outcome(1, ["words refused"]))


REFUSED_WORDS = """serve
Serve --store memory --ports 67,37,69,80 --turns 5
serve --store memory --ports 67,37,69,80 --turns
serve --store memory --ports 67,37,69,80 --turns 5 6
serve --store memory --ports 67,37,69,80 --turns 5 _
_ serve --store memory --ports 67,37,69,80 --turns 5
serve --store --ports 67,37,69,80 --turns 5
serve --ports 67,37,69,80 --store memory --turns 5
serve --store memory --turns 5 --ports 67,37,69,80
serve -store memory --ports 67,37,69,80 --turns 5
serve --stores memory --ports 67,37,69,80 --turns 5
serve --store memory --port 67,37,69,80 --turns 5
serve --store memory --ports 67,37,69,80 --turn 5
serve --store _ --ports 67,37,69,80 --turns 5
serve --store - --ports 67,37,69,80 --turns 5
serve --store -memory --ports 67,37,69,80 --turns 5
serve --store memory --ports 67,37,69 --turns 5
serve --store memory --ports 67,37,69,80,81 --turns 5
serve --store memory --ports 67,37,69, --turns 5
serve --store memory --ports ,37,69,80 --turns 5
serve --store memory --ports 67,,69,80 --turns 5
serve --store memory --ports _ --turns 5
serve --store memory --ports , --turns 5
serve --store memory --ports ,,, --turns 5
serve --store memory --ports 0,37,69,80 --turns 5
serve --store memory --ports 67,37,69,0 --turns 5
serve --store memory --ports 67,37,69,65536 --turns 5
serve --store memory --ports 67,37,69,99999999999999999999 --turns 5
serve --store memory --ports 67,37,69,000000000000000000080 --turns 5
serve --store memory --ports 67;37;69;80 --turns 5
serve --store memory --ports +67,37,69,80 --turns 5
serve --store memory --ports 67,-37,69,80 --turns 5
serve --store memory --ports 67,37,0x45,80 --turns 5
serve --store memory --ports 67,37,69,80 --turns -5
serve --store memory --ports 67,37,69,80 --turns +5
serve --store memory --ports 67,37,69,80 --turns 5.0
serve --store memory --ports 67,37,69,80 --turns _
serve --store memory --ports 67,37,69,80 --turns 1000000000000001
serve --store memory --ports 67,37,69,80 --turns 18446744073709551616
serve --store memory --ports 67,37,69,80 --turns 000000000000000000005
--help
--version"""


def words():
    section("words of serve are read", "STORE is `memory` or a path that doesn't begin with `-`; ports are 1 to 65535; turns are at most 10^15.")
    for text, store, ports in (("serve --store memory --ports 67,37,69,8080 --turns 5", "memory", "67 37 69 8080"),
                               ("serve --store memory --ports 1,1,1,1 --turns 0", "memory", "1 1 1 1"),
                               ("serve --store /var/lib/office.db --ports 65535,65535,65535,65535 --turns 1000000000000000", "/var/lib/office.db",
                                "65535 65535 65535 65535"),
                               ("serve --store a --ports 00067,037,69,08080 --turns 00000000000000000007", "a", "67 37 69 8080"),
                               ("serve --store memory- --ports 67,37,69,80 --turns 1", "memory-", "67 37 69 80")):
        script.line(f"place {text}")
        script.expected.append(f"place {store} {ports}")
    section("other words are refused", "Numbers have 1 to 20 digits and no sign; `_` stands for an empty word here.")
    for text in ["_", "", *REFUSED_WORDS.splitlines()]:
        run("", [f"words {text}" if text else "words", "t tick"], outcome(1, ["words refused"]))


def clerks():
    section("clerks are answered", "The worked requests over the worked office: status, phrase and JSON text.")
    shown_site = {"lease": 86400, "log": "0.0.0.0", "offset": 3600, "server": "10.0.0.2"}
    bad = compact({"active": True, "cpes": 0, "name": ""})
    are_decided([], [
        (show("/site"), (200, "", compact(shown_site))),
        (show("/classes/2"), NO_ROW),
        (("PUT", "/subscribers/8", bad), (400, "value", "cpes")),
        (put_modem(0xEF, 9, 1), NO_SUBSCRIBER),
        (("PUT", "/classes/2", compact({"name": "x", "settings": [{"code": 3, "hex": "01"}]})), UNKNOWN),
        (remove("/classes/1"), IN_USE),
        (remove("/subscribers/7"), HAS_MODEMS),
        (show("/subscribers/7"), (200, "", compact({"active": True, "cpes": 2, "name": "Ann"}))),
        (show("/nothing"), (404, "no-path", None)),
        (remove("/site"), (405, "no-method", None)),
        (show("/hubs/0"), (200, "", compact(shown_site))),
        (show("/hubs/1"), NO_ROW),
        (remove("/hubs/1"), NO_ROW),
        (show("/hubs/4294967296"), (404, "no-path", None)),
        (show("/hubs"), (404, "no-path", None)),
        (("POST", "/hubs/1", ""), (405, "no-method", None)),
    ])
    section("a body has at most 1,048,576 bytes", "Spaces behind a JSON text say nothing (RFC 8259, section 2).")
    head = "PUT /subscribers/7 HTTP/1.1\\r\\nContent-Length: {}\\r\\n\\r\\n"
    text = put_subscriber(7)[2]
    run("one more is declared", ["office", f"t piece 1 '{head.format(1048577)}'"],
        outcome(wrote=["1 http 413 too-long"], sent=answered(1, 413, {"fault": "too-long"})))
    body = f"'{head.format(1048576)}' '{text}' {1048576 - len(text)}* ' '"
    run("in one piece", ["office", f"t piece 1 {body}"], outcome(wrote=["1 http 200"], sent=answered(1, 200, OK)))
    length = len(head.format(1048576).encode().decode("unicode_escape")) + 1048576
    pieces = -(-length // 4096)
    run("in pieces of 4,096", ["office", f"t pieces 1 4096 {body}"],
        outcome(wrote=[f"{number} http wait" for number in range(1, pieces)] + [f"{pieces} http 200"], sent=answered(1, 200, OK)))


def connections():
    whole = request(*put_subscriber(7))
    section("single bytes make a request, with a datagram between each two", "Each piece but the last waits; the datagrams are answered meanwhile.")
    lines, wrote = [], []
    for place, byte in enumerate(whole):
        if place:
            lines.append(time(0))
            wrote.append(f"{2 * place} time sent")
        lines.append(f"0 piece 1 {byte:02x}")
        wrote.append(f"{2 * place + 1} http " + ("200" if place + 1 == len(whole) else "wait"))
    run("", lines, outcome(wrote=wrote, sent=[told(0)] * (len(whole) - 1) + answered(1, 200, OK)))
    section("a ninth connection is closed, and begins again once another has ended", "At most eight connections are heard at once.")
    lines = [f"0 piece {conn} 'G'" for conn in range(1, 10)] + ["0 piece 8 'E'", "0 closed 1", "0 piece 9 'G'"]
    wrote = [f"{turn} http wait" for turn in range(1, 9)] + ["9 http busy", "10 http wait", "11 http closed", "12 http wait"]
    run("", lines, outcome(wrote=wrote, sent=["close 9"]))
    section("eight connections are heard apart", "A piece of each in turn, and a datagram behind each round.")
    asked = request(*show("/subscribers/7"))
    parts = [asked[at:at + 20] for at in range(0, len(asked), 20)]
    lines, wrote, sent, turn = ["office"], [], [], 0
    for place, part in enumerate(parts):
        for conn in range(1, 9):
            turn += 1
            lines.append(f"t piece {conn} {part.hex()}")
            wrote.append(f"{turn} http " + ("200" if place + 1 == len(parts) else "wait"))
            if place + 1 == len(parts):
                sent += answered(conn, 200, {"active": True, "cpes": 2, "name": "Ann"})
        turn += 1
        lines.append(time("t"))
        wrote.append(f"{turn} time sent")
        sent.append(told(T))
    run("", lines, outcome(wrote=wrote, sent=sent))
    section("the number of a connection that left is free again", "An answered connection is forgotten.")
    run("", ["show tables", ask(1, put_subscriber(7)), ask(1, show("/subscribers/7"))],
        outcome(wrote=["1 http 200", "2 http 200"], sent=answered(1, 200, OK) + answered(1, 200, {"active": True, "cpes": 2, "name": "Ann"}), tables=[OFFICE[2]]))


def fails_each(rows, command, behind, whole, then, later):
    """What becomes of a command and of a question behind it where a call of the keeper fails: at the opening, in the command, and in the question."""
    lines = ["office", *rows, "fails each keeper", ask(1, command), ask(2, behind)]
    first = [answer(1, fixed(500)), "close 1"]
    second = [answer(2, fixed(500)), "close 2"]
    run("", lines,
        outcome(wrote=[line_of(1, whole), line_of(2, then)], sent=answered(1, whole[0], text_of(whole)) + answered(2, then[0], text_of(then))),
        outcome(3, ["keeper refused"]),
        outcome(wrote=["1 http keeper", line_of(2, later)], sent=first + answered(2, later[0], text_of(later))),
        outcome(wrote=[line_of(1, whole), "2 http keeper"], sent=answered(1, whole[0], text_of(whole)) + second))


def failing():
    section("a command in which the keeper fails changes nothing, and is answered by the fixed reply",
            "Each call of the keeper fails in turn: of the opening, status 3; of the command, whose second question finds the tables as before; of the question.")
    shown_modem = (200, "", compact({"class": 1, "serial": "SN01", "subscriber": 7}))
    shown_subscriber = (200, "", compact({"active": True, "cpes": 2, "name": "Ann"}))
    shown_pool = {"first": "10.64.0.10", "hub": 0, "last": "10.64.0.99", "prefix": 24, "relay": "10.64.0.1", "router": "10.64.0.1"}
    smaller = (200, "", compact({**shown_pool, "first": "10.64.0.11"}))
    more = ["lease 10.64.0.10 declined t", 'subscriber 8 active 2 "Ann"', f"add-on 8 3 {TREES['boost']}"]
    fails_each([], put_modem(0xEF, 7, 1), show(f"/modems/{mac(0xEF)}"), DONE, shown_modem, NO_ROW)
    fails_each([], show(f"/modems/{mac(0xEE)}"), show("/classes/2"), shown_modem, NO_ROW, NO_ROW)
    fails_each(more, put_pool(1, FIRST + 1, LAST, RELAY), show("/pools/1"), DONE, smaller, (200, "", compact(shown_pool)))
    fails_each(more, remove("/subscribers/8"), show("/subscribers/8"), DONE, NO_ROW, shown_subscriber)
    fails_each(more, remove("/pools/1"), show("/pools/1"), DONE, NO_ROW, (200, "", compact(shown_pool)))
    fails_each(more + OTHER_HUB, put_pool(1, FIRST, LAST, RELAY, 1), show("/pools/1"), DONE, (200, "", compact({**shown_pool, "hub": 1})), (200, "", compact(shown_pool)))
    fails_each([], put_hub(1), show("/hubs/1"), DONE, (200, "", compact(OTHER_SHOWN)), NO_ROW)
    fails_each(OTHER_HUB, remove("/hubs/1"), show("/hubs/1"), DONE, NO_ROW, (200, "", compact(OTHER_SHOWN)))
    fails_each(more, remove(f"/modems/{mac(0xEE)}"), show(f"/modems/{mac(0xEE)}"), DONE, NO_ROW, shown_modem)
    section("the first command over empty tables is not done where its commit fails", "Each call of the keeper fails in turn.")
    site = put_site(0x0A000002, 6, 3600, 86400)
    shown_site = (200, "", compact({"lease": 86400, "log": "0.0.0.0", "offset": 3600, "server": "10.0.0.2"}))
    run("", ["fails each keeper", "show tables", ask(1, site)],
        outcome(wrote=["1 http 200"], sent=answered(1, 200, OK), tables=OFFICE[:1]),
        outcome(3, ["keeper refused"], tables=[]), outcome(wrote=["1 http keeper"], sent=[answer(1, fixed(500)), "close 1"], tables=[]))
    section("an answer or an end that is lost is told, and what was done stays done", "The link's calls are `next`, `answer`, `close`, `next`.")
    for number, sent in ((2, ["close 1"]), (3, answered(1, 200, OK)[:1])):
        run("", [f"fails link {number}", ask(1, site), ask(2, show("/site"))],
            outcome(wrote=["1 http link", "2 http 200"], sent=sent + answered(2, 200, shown_site[2])))


def openings():
    section("bad tables are refused, and every other form of words leaves them", "`serve` alone reads the tables.")
    bad = f"held {mac(0xEE)} 10.64.0.10"
    run("", [bad, "show tables", time(0)], outcome(2, [f"tables refused held {mac(0xEE)}"], tables=[bad]))
    run("", [bad, "show tables", f"words seal {SECRET}", "source 030101ff"], outcome(raw=sealed(b"\x03\x01\x01\xff", b"secret"), tables=[bad]))
    run("", [bad, "show tables", f"words check {SECRET}", "source 030101ff"], outcome(8, ["refused no-mic 6"], tables=[bad]))
    run("", [bad, "show tables", f"words sael {SECRET}", "source 030101ff"], outcome(1, ["words refused"], tables=[bad]))
    section("a keeper that fails at the opening is told", "Each call of the keeper fails in turn; nothing is sent then.")
    more = [f"add-on 7 0 {TREES['boost']}", f"lease 10.64.0.10 bound {mac(5)} t+120", f"held {mac(5)} 10.64.0.10", f"batch 1 modems 2 {'00' * 16}"]
    run("", ["office", *more, "fails each keeper", time(0)], outcome(wrote=["1 time sent"], sent=[told(0)]), outcome(3, ["keeper refused"]))
    section("a second run starts from the tables that the first left", "The moment of the second is its own, and connections begin anew.")
    office = [put_site(0x0A000002, 6, 3600, 86400), ("PUT", "/classes/1", compact({"name": "gold", "settings": tree_json(GOLD)})), put_subscriber(7),
              put_modem(0xEE, 7, 1), put_pool(1, FIRST, LAST, RELAY)]
    run("the office is put", ["show tables", *(ask(place + 1, command) for place, command in enumerate(office))],
        outcome(wrote=[f"{place} http 200" for place in range(1, 6)], sent=[line for place in range(1, 6) for line in answered(place, 200, OK)], tables=OFFICE))
    run("", [ask(1, show(f"/modems/{mac(0xEE)}"), 0)],
        outcome(wrote=["1 http 200"], sent=answered(1, 200, {"class": 1, "serial": "SN01", "subscriber": 7})), again=True)


def change(text):
    """A row in short, as a script writes it: of a secret its length, of an address how far it is from 10.64.0.10, of a hardware address its last byte."""
    words = text.split()
    if words[0] == "no":
        return "drop " + key_of(words[1:])
    if words[0] == "stray":
        return "stray " + key_of(words[1:])
    kind, rest = words[0], words[1:]
    if kind in ("site", "hub"):
        server, secret, offset, lasts = rest[-4:]
        return f"{key_of(words)} {ip(int(server))} {b'secret'[:int(secret)].hex() or '-'} {offset} {lasts} 0.0.0.0"
    if kind == "pool-hub":
        return f"{key_of(words)} {rest[1]}"
    if kind == "subscriber":
        return f'{key_of(words)} active {rest[1]} "Ann"'
    if kind == "add-on":
        return f"{key_of(words)} {TREES[rest[2]]}"
    if kind == "modem":
        return f'{key_of(words)} {rest[1]} {rest[2]} "SN01"'
    if kind == "class":
        return f'{key_of(words)} "gold" {TREES[rest[1]]}'
    if kind in ("pool", "device-pool"):
        relay = {"1": "10.64.0.1"}.get(rest[4], ip(int(rest[4])))
        return f"{key_of(words)} {ip(FIRST + int(rest[1]))} {ip(FIRST + int(rest[2]))} {rest[3]} 0.0.0.9 {relay}"
    if kind == "device":
        hold = rest[1] + (f" {mac(int(rest[2]))} {device(int(rest[3]))}" if len(rest) > 2 else "")
        return f"{key_of(words)} {hold} t+120"
    if kind == "lease":
        hold = rest[1] + (f" {mac(int(rest[2]))}" if len(rest) > 2 else "")
        return f"{key_of(words)} {hold} t+120"
    if kind == "held":
        return f"{key_of(words)} {ip(FIRST + int(rest[1]))}"
    return f"{key_of(words)} modems 2 {'00' * 16}"


def key_of(words):
    kind, rest = words[0], words[1:]
    if kind == "site":
        return kind
    if kind in ("modem", "held"):
        return f"{kind} {mac(int(rest[0]))}"
    if kind in ("lease", "device"):
        return f"{kind} {ip(FIRST + int(rest[0]))}"
    return " ".join(words[:3 if kind == "add-on" else 2])


# What makes the worked office bad, and its least bad key, or none. Pool 1 has the places 0 to 89 and the relay 1.
JUDGED = {
    "the values of a hub have ranges": [
        ("", ""), ("hub 0 0 6 0 60", "hub 0"), ("hub 0 1 0 0 60", "hub 0"), ("hub 0 1 1 0 60", ""), ("hub 0 1 1 86400 604800", ""), ("hub 0 1 1 -86400 60", ""),
        ("hub 0 1 1 86401 60", "hub 0"), ("hub 0 1 1 -86401 60", "hub 0"), ("hub 0 1 1 0 59", "hub 0"), ("hub 0 1 1 0 604801", "hub 0"), ("hub 1 1 1 0 60", ""),
        ("hub 4294967295 1 1 0 60", ""), ("hub 1 0 6 0 60", "hub 1"), ("hub 1 0 6 0 60; hub 0 1 0 0 60", "hub 0"), ("no hub 0", "")],
    "the values of the site of earlier days have the same ranges": [
        ("no hub 0; site 0 6 0 60", "site"), ("no hub 0; site 1 0 0 60", "site"), ("no hub 0; site 1 1 86401 60", "site"), ("no hub 0; site 1 1 -86401 60", "site"),
        ("no hub 0; site 1 1 0 59", "site"), ("no hub 0; site 1 1 0 604801", "site")],
    "the site of earlier days stands where no row is of hubs": [
        ("no hub 0; site 1 1 0 60", ""), ("site 1 1 0 60", "site"), ("no hub 0; hub 1 1 1 0 60; site 1 1 0 60", "site"), ("no hub 0; site 1 1 0 60; pool-hub 1 0", "site"),
        ("no hub 0; site 1 1 0 60; pool-hub 2 1", "site"), ("no hub 0; site 1 1 0 60; stray hub 5", "site"), ("no hub 0; site 1 1 0 60; stray pool-hub 1", "site")],
    "a pool that names a hub is there, and so is the hub": [
        ("hub 1 1 1 0 60; pool-hub 1 1", ""), ("no hub 0; hub 1 1 1 0 60; pool-hub 1 1", ""), ("pool-hub 1 1", "pool-hub 1"), ("hub 1 1 1 0 60; pool-hub 1 2", "pool-hub 1"),
        ("pool-hub 1 0", "pool-hub 1"), ("hub 1 1 1 0 60; pool-hub 2 1", "pool-hub 2"), ("hub 1 1 1 0 60; pool-hub 1 1; pool-hub 2 1", "pool-hub 2"),
        ("hub 1 0 1 0 60; pool-hub 1 1", "hub 1"), ("stray hub 1; pool-hub 1 1", "hub 1"), ("pool-hub 1 7; hub 7 1 1 0 60; pool 2 100 109 24 2; pool-hub 2 7", "")],
    "a lease has its pool's hub": [
        ("lease 0 declined; no hub 0", "lease 10.64.0.10"), ("lease 0 bound 5; held 5 0; no hub 0", "lease 10.64.0.10"),
        ("no hub 0; site 1 1 0 60; lease 0 bound 5; held 5 0", ""), ("no hub 0; hub 1 1 1 0 60; pool-hub 1 1; lease 0 declined", ""),
        ("pool-hub 1 1; lease 0 declined", "lease 10.64.0.10"), ("no hub 0; hub 1 1 1 0 60; lease 0 declined", "lease 10.64.0.10"),
        ("no hub 0; hub 1 1 1 0 60; pool 2 100 109 24 2; pool-hub 2 1; lease 100 declined", ""),
        ("no hub 0; hub 1 1 1 0 60; pool 2 100 109 24 2; pool-hub 2 1; lease 0 declined", "lease 10.64.0.10"), ("hub 0 0 6 0 60; lease 0 declined", "hub 0"),
        ("stray hub 0; lease 0 declined", "hub 0"), ("stray pool-hub 1; lease 0 declined", "pool-hub 1"), ("pool-hub 1 0; lease 0 declined", "pool-hub 1"),
        ("stray pool-hub 1; lease 0 declined; no hub 0", "lease 10.64.0.10")],
    "a subscriber has 1 to 254 devices, and an add-on its subscriber": [
        ("subscriber 7 0", "subscriber 7"), ("subscriber 7 1", ""), ("subscriber 8 254", ""), ("subscriber 8 255", "subscriber 8"), ("add-on 7 0 boost", ""),
        ("add-on 7 7 boost", ""), ("add-on 7 8 boost", "add-on 7 8"), ("add-on 8 0 boost", "add-on 8 0"), ("add-on 7 0 unknown", "add-on 7 0")],
    "a modem has its subscriber and its class": [
        ("modem 1 7 1", ""), ("modem 1 8 1", "modem 02aabbccdd01"), ("modem 1 7 2", "modem 02aabbccdd01"), ("no subscriber 7", "modem 02aabbccddee"),
        ("no class 1", "modem 02aabbccddee"), ("class 2 gold", ""), ("class 2 boost", "class 2"), ("class 2 unknown", "class 2")],
    "an impossible row is named, and not what stands on it": [
        ("class 1 unknown", "class 1"), ("stray class 1", "class 1"), ("subscriber 7 0; add-on 7 0 boost", "subscriber 7")],
    "the values of a pool have ranges": [
        ("pool 2 100 100 8 2", ""), ("pool 2 100 4195 30 2", ""), ("pool 2 101 100 24 2", "pool 2"), ("pool 2 100 4196 24 2", "pool 2"),
        ("pool 2 100 199 7 2", "pool 2"), ("pool 2 100 199 31 2", "pool 2"), ("pool 2 100 199 24 0", "pool 2")],
    "no two pools have an address or a relay in common": [
        ("pool 2 200 299 24 2; pool 3 90 199 24 3", ""), ("pool 2 200 299 24 2; pool 3 89 199 24 3", "pool 1"),
        ("pool 2 200 299 24 2; pool 3 90 200 24 3", "pool 2"), ("pool 2 200 299 24 2; pool 3 10 20 24 3", "pool 1"),
        ("pool 2 200 299 24 2; pool 3 300 399 24 1", "pool 1"), ("pool 2 200 299 24 2; pool 3 300 399 24 2", "pool 2"), ("pool 0 80 99 24 2", "pool 0")],
    "an impossible pool over a lower one makes that one bad": [
        ("pool 2 80 99 7 2", "pool 1"), ("pool 2 80 99 24 0", "pool 1"), ("pool 2 100 99 24 1", "pool 1"), ("pool 2 50 40 24 2", "pool 2")],
    "a lease and the row of who holds it name each other": [
        ("lease 0 bound 238; held 238 0", ""), ("lease 0 offered 5; held 5 0", ""), ("lease 0 declined", ""), ("lease 0 bound 238", "lease 10.64.0.10"),
        ("lease 0 bound 238; held 238 1", "lease 10.64.0.10"), ("lease 0 bound 238; held 239 0", "lease 10.64.0.10"),
        ("lease 0 bound 238; stray held 238", "lease 10.64.0.10")],
    "a lease lies in one pool": [
        ("lease 89 declined", ""), ("lease 90 declined", "lease 10.64.0.100"), ("lease 90 bound 5; held 5 90", "lease 10.64.0.100"),
        ("lease 5 declined; no pool 1", "lease 10.64.0.15"), ("lease 300 declined; pool 2 300 300 24 2", "")],
    "who holds an address has its lease": [
        ("held 5 0", "held 02aabbccdd05"), ("held 5 0; lease 0 declined", "held 02aabbccdd05"), ("held 5 0; held 6 0; lease 0 bound 6", "held 02aabbccdd05"),
        ("held 5 0; held 6 1; lease 0 bound 5", "held 02aabbccdd06"), ("held 5 0; stray lease 0", "lease 10.64.0.10")],
    "the values of a pool for devices have the ranges of a pool's": [
        ("device-pool 1 100 100 8 2", ""), ("device-pool 1 100 4195 30 2", ""), ("device-pool 1 101 100 24 2", "device-pool 1"), ("device-pool 1 100 4196 24 2", "device-pool 1"),
        ("device-pool 1 100 199 7 2", "device-pool 1"), ("device-pool 1 100 199 31 2", "device-pool 1"), ("device-pool 1 100 199 24 0", "device-pool 1")],
    "a pool and a pool for devices have no address in common": [
        ("device-pool 1 90 99 24 2", ""), ("device-pool 1 90 99 24 1", ""), ("device-pool 1 89 99 24 2", "pool 1"), ("device-pool 7 0 0 24 2", "pool 1"),
        ("pool 2 100 109 24 2; device-pool 2 110 119 24 2", ""), ("pool 2 100 109 24 2; device-pool 2 109 119 24 3", "pool 2"),
        ("device-pool 1 80 99 7 2", "pool 1"), ("pool 2 100 109 7 2; device-pool 2 109 119 24 3", "pool 2")],
    "no two pools for devices have an address or a relay in common": [
        ("device-pool 1 100 109 24 2; device-pool 2 110 119 24 3", ""), ("device-pool 1 100 110 24 2; device-pool 2 110 119 24 3", "device-pool 1"),
        ("device-pool 1 100 109 24 2; device-pool 2 110 119 24 2", "device-pool 1"), ("device-pool 1 100 109 24 4; device-pool 2 110 119 24 3; device-pool 3 119 129 24 5", "device-pool 2"),
        ("device-pool 1 100 109 24 4; device-pool 2 110 119 24 3; device-pool 3 120 129 24 3", "device-pool 2"), ("device-pool 1 100 109 24 2; device-pool 2 105 115 7 3", "device-pool 1")],
    "a device's lease lies in one pool for devices": [
        ("device-pool 1 100 109 24 2; device 100 declined", ""), ("device-pool 1 100 109 24 2; device 109 bound 238 161", ""),
        ("device-pool 1 100 109 24 2; device 110 declined", "device 10.64.0.120"), ("device-pool 1 100 109 24 2; device 99 offered 238 161", "device 10.64.0.109"),
        ("device 100 declined", "device 10.64.0.110"), ("device 0 declined", "device 10.64.0.10"), ("pool 2 100 109 24 2; device 100 declined", "device 10.64.0.110"),
        ("device-pool 1 100 109 24 2; lease 100 declined", "lease 10.64.0.110")],
    "a device behind a modem has one lease": [
        ("device-pool 1 100 109 24 2; device 100 bound 238 161; device 101 bound 238 161", "device 10.64.0.110"),
        ("device-pool 1 100 109 24 2; device 100 offered 238 161; device 101 bound 238 161", "device 10.64.0.110"),
        ("device-pool 1 100 104 24 2; device-pool 2 105 109 24 3; device 103 declined; device 104 bound 238 161; device 105 offered 238 161", "device 10.64.0.114"),
        ("device-pool 1 100 109 24 2; device 100 bound 238 161; device 101 bound 238 162; device 102 bound 237 161; device 103 declined; device 104 declined", ""),
        ("device-pool 1 100 109 24 2; device 100 bound 161 238; device 101 bound 238 161", ""), ("device-pool 1 100 109 24 2; lease 0 bound 238; held 238 0; device 100 bound 238 238", "")],
    "a row is of the kind of its key": [
        ("stray device-pool 1", "device-pool 1"), ("stray device 100", "device 10.64.0.110"), ("device-pool 1 100 109 24 2; stray device 100", "device 10.64.0.110"),
        ("stray site", "site"), ("no hub 0; stray site", "site"), ("stray hub 1", "hub 1"), ("stray pool-hub 1", "pool-hub 1"), ("stray subscriber 8", "subscriber 8"), ("stray add-on 7 0", "add-on 7 0"), ("stray modem 1", "modem 02aabbccdd01"),
        ("stray class 2", "class 2"), ("stray pool 2", "pool 2"), ("stray lease 3", "lease 10.64.0.13"), ("stray held 1", "held 02aabbccdd01"),
        ("stray batch 9", "batch 9"), ("batch 9", "")],
    "of two bad keys the lesser is named": [
        ("subscriber 9 0; subscriber 8 0", "subscriber 8"), ("held 1 0; subscriber 9 0", "subscriber 9"), ("stray batch 1; stray pool 4", "pool 4"),
        ("lease 200 declined; lease 100 declined", "lease 10.64.0.110"), ("modem 2 8 1; modem 1 8 1", "modem 02aabbccdd01"),
        ("device 100 declined; stray device-pool 1", "device-pool 1"), ("device 101 declined; device 100 declined", "device 10.64.0.110"),
        ("device-pool 2 0 0 24 2; pool-hub 9 1", "pool 1"), ("device-pool 2 101 100 24 2; pool-hub 9 1", "pool-hub 9"),
        ("pool-hub 9 1; pool-hub 8 1", "pool-hub 8"), ("pool-hub 1 9; stray hub 9", "hub 9"), ("pool-hub 1 9; stray batch 9", "batch 9")],
}


def judging():
    for name, rows in JUDGED.items():
        section(name, "The conditions on good tables; the least bad key is named.")
        for changes, bad in rows:
            lines = ["office", *(change(text.strip()) for text in changes.split(";") if text)]
            run("", lines, outcome(2, [f"tables refused {bad}"]) if bad else outcome())


def customers():
    section("the rules of add-ons and classes", "The rules of each command in their order.")
    are_decided([], [(put_subscriber(7), DONE), (put_subscriber(8), DONE), (put_add_on(7, 7, "boost"), DONE), (put_add_on(8, 0, "boost"), NO_SUBSCRIBER),
                     (put_add_on(8, 0, "unknown"), NO_SUBSCRIBER), (put_add_on(7, 0, "unknown"), UNKNOWN), (put_class(2, "gold"), DONE),
                     (put_class(1, "unknown"), UNKNOWN)])
    section("the rules of modems", "A modem has its subscriber and then its class.")
    are_decided([], [(put_modem(0xEE, 7, 1), DONE), (put_modem(0xEF, 7, 1), DONE), (put_modem(0xEE, 8, 1), NO_SUBSCRIBER), (put_modem(0xEE, 7, 2), NO_CLASS),
                     (put_modem(0xEE, 8, 2), NO_SUBSCRIBER)])
    section("a row that is put stands in the tables, and no other changes", "")
    is_done([], put_subscriber(8), with_rows('subscriber 8 active 2 "Ann"'))
    is_done([], put_add_on(7, 3, "boost"), with_rows(f"add-on 7 3 {TREES['boost']}"))
    is_done([], put_modem(1, 7, 1), with_rows('modem 02aabbccdd01 7 1 "SN01"'))
    is_done([], put_class(2, "gold"), with_rows(f'class 2 "gold" {TREES["gold"]}'))
    is_done([], put_subscriber(7), OFFICE)
    is_done([], put_class(1, "gold"), with_rows(f'class 1 "gold" {TREES["gold"]}', without=["class 1"]))
    is_done([], put_pool(2, 0, 9, 2), with_rows("pool 2 0.0.0.0 0.0.0.9 24 10.64.0.1 0.0.0.2"))
    is_done([], put_site(9, 3, 0, 60), with_rows("hub 0 0.0.0.9 736563 0 60 0.0.0.0", without=["hub 0"]))
    section("rows are shown", "A secret isn't.")
    are_decided([], [(show("/pools/1"), (200, "", compact(SHOWN_POOL))),
                     (show("/classes/1"), (200, "", compact({"name": "gold", "settings": tree_json(GOLD)}))), (show("/pools/2"), NO_ROW)])
    section("the values of a hub have ranges, and the first that is out of its range is named",
            "1, its address is 0.0.0.0; 2, its secret has no bytes; 3, a lease lasts 60 to 604,800 seconds; 4, the offset is -86,400 to 86,400.")
    are_decided([], [(put_site(1, 1, 86_400, 60), DONE), (put_site(1, 6, -86_400, 604_800), DONE), (put_site(0, 1, 0, 60), site_field(1)),
                     (put_site(1, 0, 0, 60), site_field(2)), (put_site(1, 1, 0, 59), site_field(3)), (put_site(1, 1, 0, 604_801), site_field(3)),
                     (put_site(1, 1, 86_401, 60), site_field(4)), (put_site(1, 1, -86_401, 60), site_field(4)), (put_site(0, 0, 86_401, 59), site_field(1)),
                     (put_site(1, 0, 86_401, 59), site_field(2)), (put_site(1, 1, 86_401, 59), site_field(3))])
    are_decided([], [(put_hub(0, 1, 1, 86_400, 60), DONE), (put_hub(1, 1, 1, 86_400, 60), DONE), (put_hub(4_294_967_295, 1, 6, -86_400, 604_800), DONE),
                     (put_hub(1, 0, 1, 0, 60), site_field(1)), (put_hub(1, 1, 0, 0, 60), site_field(2)), (put_hub(1, 1, 1, 0, 59), site_field(3)),
                     (put_hub(1, 1, 1, 86_401, 60), site_field(4)), (put_hub(1, 0, 0, 86_401, 59), site_field(1)), (put_hub(1, 1, 0, 86_401, 59), site_field(2)),
                     (put_hub(1, 1, 1, 86_401, 59), site_field(3))])


# Another hub, as a row and as it is shown; a pool of it behind the first one.
OTHER_HUB = ["hub 1 10.0.0.3 736563726574 0 60 0.0.0.0"]
OTHER_SHOWN = {"lease": 60, "log": "0.0.0.0", "offset": 0, "server": "10.0.0.3"}
OTHER_POOL = ["pool 2 10.65.0.10 10.65.0.99 24 10.64.0.1 10.65.0.1", "pool-hub 2 1"]
FAR, FAR_LAST, FAR_RELAY = 0x0A41000A, 0x0A410063, 0x0A410001
SHOWN_POOL = {"first": "10.64.0.10", "hub": 0, "last": "10.64.0.99", "prefix": 24, "relay": "10.64.0.1", "router": "10.64.0.1"}


def hubs():
    section("a hub is put, shown and removed by its number, and the hub 0 as the site too", "A hub's secret isn't shown.")
    is_done([], put_hub(1), with_rows(*OTHER_HUB))
    is_done(OTHER_HUB, put_hub(1, lease=61), with_rows("hub 1 10.0.0.3 736563726574 0 61 0.0.0.0"))
    is_done([], put_hub(0, 9, 3, 0, 60), with_rows("hub 0 0.0.0.9 736563 0 60 0.0.0.0", without=["hub 0"]))
    is_done(OTHER_HUB, remove("/hubs/1"), OFFICE)
    is_done([*OTHER_HUB, "pool-hub 1 1"], remove("/hubs/0"), with_rows(*OTHER_HUB, "pool-hub 1 1", without=["hub 0"]))
    are_decided(OTHER_HUB, [(show("/hubs/1"), (200, "", compact(OTHER_SHOWN))), (show("/hubs/01?x"), (200, "", compact(OTHER_SHOWN))), (show("/hubs/2"), NO_ROW),
                            (("PUT", "/hubs/1", '{"server":"10.0.0.3"}'), (400, "field", "secret")), (remove("/site"), (405, "no-method", None))])
    are_decided(["drop hub 0"], [(show("/site"), NO_ROW), (show("/hubs/0"), NO_ROW), (remove("/hubs/0"), NO_ROW)])
    section("a hub that a pool names isn't removed, and the least such pool is named", "A pool without a row that names a hub has the hub 0.")
    gone = remove("/hubs/1")
    are_decided([], [(remove("/hubs/0"), in_use(1)), (gone, NO_ROW)])
    are_decided([*OTHER_HUB, *OTHER_POOL], [(gone, in_use(2)), (remove("/hubs/0"), in_use(1)), (remove("/hubs/2"), NO_ROW)])
    are_decided([*OTHER_HUB, *OTHER_POOL, "pool-hub 1 1"], [(gone, in_use(1)), (remove("/hubs/0"), DONE)])
    are_decided([*OTHER_HUB, *OTHER_POOL, "pool 0 0.0.0.1 0.0.0.2 24 10.64.0.1 0.0.0.5"], [(gone, in_use(2)), (remove("/hubs/0"), in_use(0))])
    are_decided([*OTHER_HUB, "hub 2 10.0.0.4 78 0 60 0.0.0.0", *OTHER_POOL], [(remove("/hubs/2"), DONE), (gone, in_use(2))])
    section("a pool names its hub, which must be there", "A body that leaves the hub out names the hub 0.")
    second = lambda hub=None: put_pool(2, FAR, FAR_LAST, FAR_RELAY, hub)
    is_done(OTHER_HUB, second(1), with_rows(*OTHER_HUB, *OTHER_POOL))
    is_done(OTHER_HUB, second(0), with_rows(*OTHER_HUB, OTHER_POOL[0]))
    is_done(OTHER_HUB, second(), with_rows(*OTHER_HUB, OTHER_POOL[0]))
    is_done([*OTHER_HUB, *OTHER_POOL], second(0), with_rows(*OTHER_HUB, OTHER_POOL[0]))
    is_done([*OTHER_HUB, *OTHER_POOL], second(), with_rows(*OTHER_HUB, OTHER_POOL[0]))
    is_done([*OTHER_HUB, *OTHER_POOL, "hub 2 10.0.0.4 78 0 60 0.0.0.0"], second(2),
            with_rows(*OTHER_HUB, OTHER_POOL[0], "hub 2 10.0.0.4 78 0 60 0.0.0.0", "pool-hub 2 2"))
    are_decided([], [(second(), DONE), (second(0), DONE), (second(1), NO_HUB), (second(4_294_967_295), NO_HUB), (put_pool(1, FIRST, LAST, RELAY, 1), NO_HUB)])
    are_decided(["drop hub 0", *OTHER_HUB], [(second(), NO_HUB), (second(0), NO_HUB), (second(1), DONE)])
    section("a pool's hub is a whole number of 32 bits", "It is the last field that is read.")
    hub = lambda text: ("PUT", "/pools/2", second()[2][:-1] + f',"hub":{text}}}')
    are_decided(OTHER_HUB, [(hub("1"), DONE), *((hub(text), (400, "value", "hub")) for text in ("-1", "4294967296", '"1"', "1.0", "null", "[]", "true")),
                            (("PUT", "/pools/2", '{"hub":null,"first":"x"}'), (400, "value", "first")), (("PUT", "/pools/2", '{"hub":1}'), (400, "field", "first"))])
    section("a pool is shown with its hub, and goes with the row that names it", "")
    shown_far = {**SHOWN_POOL, "first": "10.65.0.10", "hub": 1, "last": "10.65.0.99", "relay": "10.65.0.1"}
    are_decided([*OTHER_HUB, *OTHER_POOL], [(show("/pools/2"), (200, "", compact(shown_far))), (show("/pools/1"), (200, "", compact(SHOWN_POOL))), (show("/pools/3"), NO_ROW)])
    is_done([*OTHER_HUB, *OTHER_POOL], remove("/pools/2"), with_rows(*OTHER_HUB))
    is_done([*OTHER_HUB, *OTHER_POOL], remove("/pools/1"), with_rows(*OTHER_HUB, *OTHER_POOL, without=["pool 1"]))
    orders()


def orders():
    """Of two broken rules the first is told: each rule alone, and with the next."""
    most = [f"pool {number} {ip(number)} {ip(number)} 24 10.64.0.1 {ip(number)}" for number in range(2, 65)]
    section("the rules of a pool in their order: its size, addresses, relay, hub, leases, and how many there are", "Each alone, and with the next.")
    are_decided([], [(put_pool(2, 6, 5, 2), SIZE), (put_pool(2, LAST, FIRST, 2), SIZE), (put_pool(2, LAST, LAST, 2), overlaps(1)), (put_pool(2, LAST, LAST, RELAY), overlaps(1)),
                     (put_pool(2, 5, 6, RELAY), taken(1)), (put_pool(2, 5, 6, RELAY, 9), taken(1)), (put_pool(2, 5, 6, 2, 9), NO_HUB)])
    live = ["lease 10.64.0.10 declined t+1"]
    are_decided(live, [(put_pool(1, FIRST + 1, LAST, RELAY, 9), NO_HUB), (put_pool(1, FIRST + 1, LAST, RELAY), lost(FIRST)), (put_pool(1, FIRST, LAST, RELAY, 9), NO_HUB)])
    are_decided(most, [(put_pool(65, 5_000, 5_000, 5_000), limit(64)), (put_pool(65, 5_000, 5_000, 5_000, 9), NO_HUB), (put_pool(64, 64, 64, 64, 9), NO_HUB)])
    section("the rules of a hub in their order: its values, and how many there are", "")
    are_decided(["repeat 1 63 hub # 10.0.0.3 6f74686572 0 60 0.0.0.0"],
                [(put_hub(64), limit(64)), (put_hub(64, lease=59), site_field(3)), (put_hub(64, offset=86_401), site_field(4)), (put_hub(63), DONE), (put_hub(0), DONE)])


# The office as earlier days left it: its one site is a row of its own.
EARLIER = ["drop hub 0", "site 10.0.0.2 736563726574 3600 86400 0.0.0.0"]


def earlier_days():
    section("the site of earlier days becomes the hub 0 when an office opens", "All other rows stay. No turns are taken; a second start finds nothing to do.")
    lease = [f"lease 10.64.0.10 bound {mac(0xEE)} t+120", f"held {mac(0xEE)} 10.64.0.10"]
    for more in ([], lease, [f"add-on 7 0 {TREES['boost']}", f"batch 1 modems 2 {'00' * 16}", "pool 2 10.65.0.10 10.65.0.99 24 10.64.0.1 10.65.0.1"]):
        run("", ["office", *EARLIER, *more, "show tables", turns(0)], outcome(tables=with_rows(*more)))
        run("", ["show tables", turns(0)], outcome(tables=with_rows(*more)), again=True)
    run("a site alone", [EARLIER[1], "show tables", turns(0)], outcome(tables=OFFICE[:1]))
    run("no rows", ["show tables", turns(0)], outcome(tables=[]))
    run("other values", ["site 0.0.0.9 736563 -1 60 0.0.0.7", "show tables", turns(0)], outcome(tables=["hub 0 0.0.0.9 736563 -1 60 0.0.0.7"]))
    section("a site beside hubs isn't opened, and nothing is changed", "")
    for more in (["hub 0 10.0.0.2 736563726574 3600 86400 0.0.0.0"], OTHER_HUB, ["pool-hub 1 1"]):
        run("", ["office", *EARLIER, *more, "show tables", turns(0)], outcome(2, ["tables refused site"], tables=with_rows(EARLIER[1], *more, without=["hub 0"])))
    section("words that open no tables leave the site of earlier days", "")
    run("", ["office", *EARLIER, "show tables", "words serve"], outcome(1, ["words refused"], tables=with_rows(EARLIER[1], without=["hub 0"])))
    run("", ["office", *EARLIER, "show tables", f"words seal {SECRET}", "source 030101ff"],
        outcome(raw=sealed(b"\x03\x01\x01\xff", b"secret"), tables=with_rows(EARLIER[1], without=["hub 0"])))
    section("an opening in which the keeper fails leaves the site of earlier days", "Each call of the keeper fails in turn, the commit of the opening among them.")
    run("", ["office", *EARLIER, "fails each keeper", "show tables", turns(0)], outcome(tables=OFFICE),
        outcome(3, ["keeper refused"], tables=with_rows(EARLIER[1], without=["hub 0"])))
    section("after the opening an office of earlier days serves as another", "Its site is shown as the hub 0 too, and named by its pools.")
    shown_site = {"lease": 86400, "log": "0.0.0.0", "offset": 3600, "server": "10.0.0.2"}
    are_decided(EARLIER, [(show("/site"), (200, "", compact(shown_site))), (show("/hubs/0"), (200, "", compact(shown_site))), (remove("/hubs/0"), in_use(1)),
                          (show("/pools/1"), (200, "", compact(SHOWN_POOL))), (put_pool(1, FIRST, LAST, RELAY, 1), NO_HUB), (put_hub(1), DONE)])
    is_done(EARLIER, put_hub(1), with_rows(*OTHER_HUB))


def pools():
    most = 2**32 - 1
    section("a pool has 1 to 4,096 addresses", "")
    are_decided([], [(put_pool(2, 5, 5, 2), DONE), (put_pool(2, 5, 4_100, 2), DONE), (put_pool(2, 5, 4_101, 2), SIZE), (put_pool(2, 6, 5, 2), SIZE),
                     (put_pool(2, LAST, FIRST, RELAY), SIZE)])
    section("the least other pool with an address is named", "Pool 3 lies behind pool 1, with a gap of ten addresses.")
    third = f"pool 3 {ip(LAST + 11)} {ip(LAST + 20)} 24 10.64.0.1 0.0.0.3"
    are_decided([third], [(put_pool(2, LAST + 1, LAST + 10, 2), DONE), (put_pool(2, LAST, LAST + 10, 2), overlaps(1)),
                          (put_pool(2, LAST + 1, LAST + 11, 2), overlaps(3)), (put_pool(2, LAST, LAST + 11, 2), overlaps(1)),
                          (put_pool(2, FIRST + 5, FIRST + 6, 2), overlaps(1)), (put_pool(2, FIRST - 5, LAST + 100, 2), overlaps(1)),
                          (put_pool(2, FIRST, LAST, RELAY), overlaps(1)), (put_pool(1, FIRST + 1, LAST + 10, RELAY), DONE),
                          (put_pool(1, FIRST, LAST + 11, RELAY), overlaps(3))])
    section("the least other pool with the relay is named", "Addresses come before relays.")
    # Two pools may not have one relay, so pool 5 has its own here.
    are_decided([third, "pool 5 0.0.0.1 0.0.0.2 24 10.64.0.1 0.0.0.5"],
                [(put_pool(4, 5, 6, 3), taken(3)), (put_pool(4, 5, 6, RELAY), taken(1)), (put_pool(3, 5, 6, 5), taken(5)), (put_pool(3, 5, 6, 3), DONE),
                 (put_pool(4, 1, 1, RELAY), overlaps(5)), (put_pool(4, 5, 6, 4), DONE)])
    section("a pool may reach either end of all addresses", "")
    ends = ["pool 2 0.0.0.0 0.0.0.9 24 10.64.0.1 0.0.0.2", f"pool 3 {ip(most - 9)} {ip(most)} 24 10.64.0.1 0.0.0.3"]
    are_decided(ends, [(put_pool(4, 0, 0, 4), overlaps(2)), (put_pool(4, 10, 10, 4), DONE), (put_pool(4, most, most, 4), overlaps(3)),
                       (put_pool(4, most - 10, most - 10, 4), DONE), (put_pool(2, 0, 4_095, 2), DONE), (put_pool(2, 0, 4_096, 2), SIZE),
                       (put_pool(3, most - 4_095, most, 3), DONE), (put_pool(3, 0, most, 3), SIZE)])


# A pool for devices as a row and as it is shown; another behind it.
DEVICES, DEVICES_LAST, DEVICES_RELAY = 0x0A80000A, 0x0A800014, 0x0A800001
FOR_DEVICES = ["device-pool 1 10.128.0.10 10.128.0.20 24 10.64.0.1 10.128.0.1"]
SHOWN_DEVICES = {"first": "10.128.0.10", "last": "10.128.0.20", "prefix": 24, "relay": "10.128.0.1", "router": "10.64.0.1"}
OTHER_DEVICES = ["device-pool 3 10.128.0.31 10.128.0.40 24 10.64.0.1 0.0.0.3"]


def device_pools():
    first = put_device_pool(1, DEVICES, DEVICES_LAST, DEVICES_RELAY)
    section("a pool for devices is put, shown and removed by its number", "It has no hub, and a number beside a pool's.")
    is_done([], first, with_rows(*FOR_DEVICES))
    is_done(FOR_DEVICES, first, with_rows(*FOR_DEVICES))
    is_done(FOR_DEVICES, put_device_pool(1, DEVICES + 1, DEVICES_LAST, 7), with_rows("device-pool 1 10.128.0.11 10.128.0.20 24 10.64.0.1 0.0.0.7"))
    is_done(FOR_DEVICES, remove("/device-pools/1"), OFFICE)
    is_done(FOR_DEVICES, remove("/pools/1"), with_rows(*FOR_DEVICES, without=["pool 1"]))
    is_done([*FOR_DEVICES, *OTHER_DEVICES], remove("/device-pools/1"), with_rows(*OTHER_DEVICES))
    are_decided(FOR_DEVICES, [(show("/device-pools/1"), (200, "", compact(SHOWN_DEVICES))), (show("/device-pools/01?x"), (200, "", compact(SHOWN_DEVICES))),
                              (show("/device-pools/2"), NO_ROW), (remove("/device-pools/2"), NO_ROW), (show("/pools/1"), (200, "", compact(SHOWN_POOL))),
                              (("PUT", "/device-pools/1", '{"first":"10.128.0.10"}'), (400, "field", "last")),
                              (("PUT", "/device-pools/1", first[2].replace("10.128.0.1\"", "0.0.0.0\"")), (400, "value", "relay")),
                              (("PUT", "/device-pools/1", first[2][:-1] + ',"hub":9}'), DONE), (("POST", "/device-pools/1", first[2]), (405, "no-method", None)),
                              (show("/devices/10.128.0.10"), (404, "no-path", None))])
    are_decided([], [(show("/device-pools/1"), NO_ROW), (remove("/device-pools/1"), NO_ROW)])
    section("a pool for devices has 1 to 4,096 addresses", "")
    are_decided([], [(put_device_pool(2, 5, 5, 2), DONE), (put_device_pool(2, 5, 4_100, 2), DONE), (put_device_pool(2, 5, 4_101, 2), SIZE), (put_device_pool(2, 6, 5, 2), SIZE)])
    section("the rules of a pool for devices in their order: its size, pools' addresses, those of other pools for devices, their relays, leases, and how many there are",
            "Each alone, and with the next; the least other pool is named.")
    are_decided([*FOR_DEVICES, *OTHER_DEVICES], [
        (put_device_pool(2, LAST, FIRST, 2), SIZE), (put_device_pool(2, LAST, LAST, 2), overlaps(1)), (put_device_pool(2, FIRST - 5, FIRST, DEVICES_RELAY), overlaps(1)),
        (put_device_pool(2, LAST + 1, LAST + 9, RELAY), DONE), (put_device_pool(4, DEVICES_LAST, DEVICES_LAST + 11, 4), device_overlaps(1)),
        (put_device_pool(4, DEVICES_LAST + 1, DEVICES_LAST + 11, DEVICES_RELAY), device_overlaps(3)), (put_device_pool(1, DEVICES, DEVICES_LAST + 11, DEVICES_RELAY), device_overlaps(3)),
        (put_device_pool(4, DEVICES_LAST + 1, DEVICES_LAST + 10, DEVICES_RELAY), taken(1)), (put_device_pool(4, DEVICES_LAST + 1, DEVICES_LAST + 10, 3), taken(3)),
        (put_device_pool(4, DEVICES_LAST + 1, DEVICES_LAST + 10, 4), DONE), (put_device_pool(3, DEVICES_LAST + 1, DEVICES_LAST + 20, 3), DONE)])
    live = [*FOR_DEVICES, *OTHER_DEVICES, "device 10.128.0.10 declined t+1"]
    are_decided(live, [(put_device_pool(1, DEVICES + 1, DEVICES_LAST, 3), taken(3)), (put_device_pool(1, DEVICES + 1, DEVICES_LAST, DEVICES_RELAY), lost(DEVICES)),
                       (put_device_pool(1, DEVICES, DEVICES, DEVICES_RELAY), DONE)])
    many = [f"device-pool {number} {ip(number)} {ip(number)} 24 10.64.0.1 {ip(number)}" for number in range(1, 65)]
    are_decided(many, [(put_device_pool(65, 5_000, 5_000, 5_000), limit(64)), (put_device_pool(65, 5_000, 5_000, 64), taken(64)), (put_device_pool(64, 64, 64, 64), DONE)])
    is_full(many[1:], [(put_device_pool(9_999, 9_999, 9_999, 9_999), DONE), (put_device_pool(9_998, 9_998, 9_998, 9_998), limit(64)), (put_pool(2, 9_998, 9_998, 2), DONE),
                       (remove("/device-pools/2"), DONE), (put_device_pool(9_997, 9_997, 9_997, 9_997), DONE)])
    section("a pool has no address of a pool for devices, and the least such one is named", "The rule stands behind that on other pools, and before that on relays.")
    second = lambda begins, ends, relay=2, hub=None: put_pool(2, begins, ends, relay, hub)
    are_decided([*FOR_DEVICES, *OTHER_DEVICES], [
        (second(DEVICES_LAST, DEVICES), SIZE), (second(DEVICES, DEVICES), device_overlaps(1)), (second(DEVICES_LAST, DEVICES_LAST + 11), device_overlaps(1)),
        (second(DEVICES_LAST + 1, DEVICES_LAST + 11), device_overlaps(3)), (second(DEVICES, DEVICES, RELAY), device_overlaps(1)),
        (second(DEVICES, DEVICES, 2, 9), device_overlaps(1)), (put_pool(1, DEVICES, DEVICES, RELAY), device_overlaps(1)),
        (second(DEVICES_LAST + 1, DEVICES_LAST + 10, DEVICES_RELAY), DONE)])
    are_decided([*FOR_DEVICES, f"pool 2 {ip(DEVICES_LAST + 1)} {ip(DEVICES_LAST + 1)} 24 10.64.0.1 0.0.0.2"], [(put_pool(3, DEVICES_LAST, DEVICES_LAST + 1, 3), overlaps(2))])
    section("devices' leases that have ended go with their addresses, and others hold these", "")
    rows = [*FOR_DEVICES, f"device 10.128.0.10 bound {mac(0xEE)} {device(0xA1)} t", f"device 10.128.0.15 offered {mac(0xEE)} {device(0xA2)} t-1", "device 10.128.0.20 declined 0"]
    is_done([*rows, *bound(0, "t+1")], remove("/device-pools/1"), with_rows(*bound(0, "t+1")))
    is_done(rows, put_device_pool(1, DEVICES + 1, DEVICES_LAST - 1, DEVICES_RELAY), with_rows("device-pool 1 10.128.0.11 10.128.0.19 24 10.64.0.1 10.128.0.1", rows[2]))
    is_done(rows, first, with_rows(*rows))
    rows = [*FOR_DEVICES, *(f"device 10.128.0.{10 + place} bound {mac(0xEE)} {device(place)} {moment}" for place, moment in ((0, "t"), (3, "t+1"), (5, "t+1")))]
    are_decided(rows, [(remove("/device-pools/1"), lost(DEVICES + 3)), (put_device_pool(1, DEVICES + 4, DEVICES_LAST, DEVICES_RELAY), lost(DEVICES + 3)),
                       (put_device_pool(1, DEVICES, DEVICES + 4, DEVICES_RELAY), lost(DEVICES + 5)), (put_device_pool(1, DEVICES + 3, DEVICES + 5, DEVICES_RELAY), DONE)])
    section("devices' leases stay where their modem, its subscriber or its hub goes", "Which device may have an address is asked anew by each message.")
    held = [*FOR_DEVICES, f"device 10.128.0.10 bound {mac(0xEE)} {device(0xA1)} t+9"]
    is_done(held, remove(f"/modems/{mac(0xEE)}"), with_rows(*held, without=["modem"]))
    is_done([*held, "drop pool 1"], remove("/hubs/0"), with_rows(*held, without=["pool 1", "hub 0"]))


def bound(place, moment):
    """A lease at a place of pool 1, of the modem whose address ends in the place, and that modem's row."""
    return [f"lease {ip(FIRST + place)} bound {mac(place)} {moment}", f"held {mac(place)} {ip(FIRST + place)}"]


def clerks_leases():
    most = 2**32 - 1
    gone = remove("/pools/1")
    section("the least live lease that a pool would lose is named", "A lease that expires now has expired.")
    rows = [row for place, moment in ((3, "t"), (5, "t+1"), (7, "t+1"), (89, "t+1")) for row in bound(place, moment)]
    are_decided(rows, [(gone, lost(FIRST + 5)), (put_pool(1, FIRST + 6, LAST, RELAY), lost(FIRST + 5)), (put_pool(1, FIRST, LAST - 1, RELAY), lost(FIRST + 89)),
                       (put_pool(1, FIRST + 8, LAST, RELAY), lost(FIRST + 5)), (put_pool(1, FIRST, LAST, RELAY), DONE),
                       (put_pool(1, FIRST + 5, LAST, RELAY), DONE), (put_pool(1, FIRST + 3, LAST, RELAY), DONE),
                       (put_pool(1, LAST + 1, LAST + 9, RELAY), lost(FIRST + 5))])
    section("a lease is live whoever holds it", "")
    for hold in (f"offered {mac(1)}", f"bound {mac(1)}", "declined"):
        more = [] if hold == "declined" else [f"held {mac(1)} 10.64.0.10"]
        are_decided([f"lease 10.64.0.10 {hold} t+1", *more], [(gone, lost(FIRST))])
    section("expired leases are dropped with their holders", "")
    rows = [*bound(1, "t"), *bound(2, "0"), f"lease {ip(FIRST + 3)} declined t", f"lease {ip(FIRST + 4)} offered {mac(4)} t-1", f"held {mac(4)} {ip(FIRST + 4)}"]
    is_done(rows, gone, with_rows(without=["pool 1"]))
    section("a pool that shrinks keeps the leases in it", "")
    smaller = f"pool 1 {ip(FIRST + 2)} 10.64.0.99 24 10.64.0.1 10.64.0.1"
    is_done([*bound(1, "t"), *bound(2, "t")], put_pool(1, FIRST + 2, LAST, RELAY), with_rows(smaller, *bound(2, "t"), without=["pool 1"]))
    section("leases at either end of all addresses are found", "")
    rows = ["pool 2 0.0.0.0 0.0.0.9 24 10.64.0.1 0.0.0.2", f"pool 3 {ip(most - 9)} {ip(most)} 24 10.64.0.1 0.0.0.3", f"lease 0.0.0.0 bound {mac(1)} t+1",
            f"held {mac(1)} 0.0.0.0", f"lease {ip(most)} bound {mac(2)} t+1", f"held {mac(2)} {ip(most)}"]
    are_decided(rows, [(remove("/pools/2"), lost(0)), (remove("/pools/3"), lost(most)), (gone, DONE)])


def removals():
    section("what is not there is not removed", "")
    are_decided([], [(remove(path), NO_ROW) for path in ("/subscribers/8", "/subscribers/7/addons/0", f"/modems/{mac(1)}", "/classes/2", "/pools/2")])
    section("what a modem stands on is not removed", "")
    rows = ['subscriber 6 active 2 "Ann"', 'subscriber 8 active 2 "Ann"', f'class 2 "gold" {TREES["gold"]}', f'class 3 "gold" {TREES["gold"]}',
            f'modem {mac(0xFF)} 8 3 "SN01"']
    are_decided(rows, [(remove("/subscribers/7"), HAS_MODEMS), (remove("/subscribers/8"), HAS_MODEMS), (remove("/subscribers/6"), DONE),
                       (remove("/classes/1"), IN_USE), (remove("/classes/3"), IN_USE), (remove("/classes/2"), DONE)])
    section("a subscriber goes with all add-ons", "")
    boost = TREES["boost"]
    is_done(['subscriber 8 active 2 "Ann"', f"add-on 8 0 {boost}", f"add-on 8 7 {boost}", f"add-on 7 1 {boost}"], remove("/subscribers/8"),
            with_rows(f"add-on 7 1 {boost}"))
    section("a modem goes without its lease", "")
    lease = ["lease 10.64.0.10 bound 02aabbccddee t+1", "held 02aabbccddee 10.64.0.10"]
    is_done(lease, remove(f"/modems/{mac(0xEE)}"), with_rows(*lease, without=["modem"]))
    section("a removed row is gone", "")
    more = [f"add-on 7 0 {boost}", f'class 2 "gold" {TREES["gold"]}']
    is_done(more, remove("/subscribers/7/addons/0"), with_rows(more[1]))
    is_done(more, remove("/classes/2"), with_rows(more[0]))
    is_done(more, remove("/pools/1"), with_rows(*more, without=["pool 1"]))


def is_full(rows, commands):
    """The office with further rows answers commands one after another."""
    run("", ["office", *rows, *(ask(place + 1, command) for place, (command, _) in enumerate(commands))],
        outcome(wrote=[line_of(place + 1, given) for place, (_, given) in enumerate(commands)],
                sent=[line for place, (_, given) in enumerate(commands) for line in answered(place + 1, given[0], text_of(given))]))


def moments():
    section("a command comes at the later of its own moment and the office's", "The office's moment never falls.")
    held = [f"lease 10.64.0.10 bound {mac(0xEE)} 100", f"held {mac(0xEE)} 10.64.0.10"]
    shown_site = {"lease": 86400, "log": "0.0.0.0", "offset": 3600, "server": "10.0.0.2"}
    run("", ["office", *held, "show tables", ask(1, remove("/pools/1"), 50), ask(2, show("/site"), 100), ask(3, remove("/pools/1"), 50)],
        outcome(wrote=["1 http 409 pool-has-leases", "2 http 200", "3 http 200"],
                sent=answered(1, 409, text_of(lost(FIRST))) + answered(2, 200, shown_site) + answered(3, 200, OK), tables=with_rows(without=["pool 1"])))
    section("a refused command leaves the tables", "")
    run("", ["office", "show tables", ask(1, put_pool(2, FIRST, LAST, 2))],
        outcome(wrote=["1 http 409 pool-overlap"], sent=answered(1, 409, text_of(overlaps(1))), tables=OFFICE))


def limits():
    section("there may be only so many rows of a kind, and a row that is there may be put again",
            "200,000 subscribers and modems, 100,000 add-ons, 1,000 classes, 64 pools, 64 hubs. The last that may come is put, and the next is refused.")
    is_full(['repeat 1000 200997 subscriber # active 2 "Ann"'],
            [(put_subscriber(8), DONE), (put_subscriber(9), limit(200_000)), (put_subscriber(7), DONE), (remove("/subscribers/8"), DONE), (put_subscriber(9), DONE)])
    is_full(['repeat 0 199997 modem 0300% 7 1 "SN01"'],
            [(put_modem(1, 7, 1), DONE), (put_modem(2, 7, 1), limit(200_000)), (put_modem(0xEE, 7, 1), DONE), (remove(f"/modems/{mac(1)}"), DONE),
             (put_modem(2, 7, 1), DONE)])
    add_ons = [f"repeat 1000 13499 add-on # {number} {TREES['boost']}" for number in range(8)] + ["drop add-on 13499 7"]
    is_full(['repeat 1000 13499 subscriber # active 2 "Ann"', *add_ons], [(put_add_on(7, 0, "boost"), DONE), (put_add_on(7, 1, "boost"), limit(100_000)),
                                                                        (put_add_on(7, 0, "boost"), DONE)])
    is_full([f'repeat 2 999 class # "gold" {TREES["gold"]}'], [(put_class(9_999, "gold"), DONE), (put_class(9_998, "gold"), limit(1_000)), (put_class(2, "gold"), DONE)])
    others = [f"pool {number} {ip(number)} {ip(number)} 24 10.64.0.1 {ip(number)}" for number in range(2, 64)]
    is_full(others, [(put_pool(9_999, 9_999, 9_999, 9_999), DONE), (put_pool(9_998, 9_998, 9_998, 9_998), limit(64)), (put_pool(2, 2, 2, 2), DONE)])
    is_full(["repeat 1 62 hub # 10.0.0.3 6f74686572 0 60 0.0.0.0"],
            [(put_hub(9_999), DONE), (put_hub(9_998), limit(64)), (put_hub(0), DONE), (put_hub(5), DONE), (remove("/hubs/5"), DONE), (put_hub(9_998), DONE),
             (put_hub(9_997), limit(64))])


def main():
    for row in OFFICE:
        script.line(f"common {row}")
    telling()
    jobs()
    words()
    clerks()
    connections()
    failing()
    openings()
    judging()
    customers()
    hubs()
    earlier_days()
    pools()
    device_pools()
    clerks_leases()
    removals()
    moments()
    limits()
    leases.sections(script, OFFICE)
    devices.sections(script, OFFICE)
    devices_by_chance.sections(script)
    transfers.sections(script, OFFICE)
    boots.sections(script, OFFICE)
    import_job.sections(script, OFFICE)
    drills.sections(script, OFFICE)
    failures.sections(script, OFFICE)
    hostile.sections(script, OFFICE)
    stores.sections(script)
    script.script = stores.name_keepers(script.script)
    for name, questions in (("formats", format_questions()), ("clerks", clerk_questions())):
        script.script += ["", f"over {name}", *questions.script]
        script.expected += questions.expected
    return script.write("office_script")


if __name__ == "__main__":
    sys.exit(main())
