"""The sections of office.py on the command `drill`.

What the office sends to the modems of a drill, and the tables that it leaves, is computed by the models of leases and of transfers in leases.py
and tftp.py, to which the drill's messages are given as RFC 2131 and RFC 1350 have them. The numbers are those of the rules: a file of 88 bytes has
3 blocks of 44 bytes, of which the last is empty, and that of a suspended modem, which each tenth is, has 76 bytes in 2.
"""
import ipaddress

import messages
from examples import outcome
from leases import name_of
from messages import DISCOVER, REQUEST, option
from transfers import played, sends

SECRET = b"drill"
GOLD = "24{ 1=0001 6=07 8=00989680 } 25{ 1=0002 6=07 8=05f5e100 }"
FOUNDED = [f"hub 0 10.0.0.2 {SECRET.hex()} 0 86400 0.0.0.0", f'class 1 "gold" {GOLD}', "pool 1 10.64.16.0 10.64.31.255 20 10.64.0.1 10.64.0.1"]
FIRST, RELAY, SERVER = (ipaddress.IPv4Address(each) for each in ("10.64.16.0", "10.64.0.1", "10.0.0.2"))


def mac(i):
    return b"\x02\0\0" + i.to_bytes(3, "big")


def address(i):
    return FIRST + (i - 1)


def message(i, kind, more=b""):
    """A message of modem i through its relay: without option 43, with the remote identifier alone in option 82."""
    options = more + option(60, b"docsis3.1:") + option(82, option(2, mac(i)))
    return messages.message(kind, mac(i), options, relay=RELAY.packed, xid=i)


def rows(count):
    people = [(f'subscriber {i} {"active" if i % 10 else "suspended"} 2 "drill"', f'modem {mac(i).hex()} {i} 1 ""') for i in range(1, count + 1)]
    return FOUNDED + [row for pair in people for row in pair]


def events(count):
    for i in range(1, count + 1):
        moment, held = f"t+{i}", str(address(i))
        yield moment, "offer", message(i, DISCOVER)
        yield moment, "ack", message(i, REQUEST, option(50, address(i).packed) + option(54, SERVER.packed))
        asked = b"\0\1" + name_of(SECRET, mac(i), address(i).packed) + b"\0octet\0blksize\0" + b"44\0"
        yield moment, "oack", sends(asked, held, 5000)
        last = 3 if i % 10 else 2
        for number in range(last + 1):
            word = "done" if number == last else f"block {number + 1}"
            yield moment, word, sends(b"\0\4" + number.to_bytes(2, "big"), held, 5000)


def summary(count):
    suspended = count // 10
    active = count - suspended
    return f"drill {count} offers {count} acks {count} files {count} blocks {3 * active + 2 * suspended} octets {88 * active + 76 * suspended}"


def sections(script, office):
    """Writes the sections; `office` are rows of another office."""
    section, run = script.section, script.run
    section("a drill founds an office, boots its modems, and tells their numbers", "By the models of leases and of transfers.")
    for count in (1, 9, 10, 23, 100):
        made = played(rows(count), events(count))
        run("", ["show tables", f"words drill {count}"], outcome(wrote=[summary(count)], sent=made.sent, tables=made.office.rows()))
    section("what fails in a drill", "Each call of the keeper fails in turn: status 3, and what was sent by then, of which the blocks need no call; a lost item is passed over; each call of the sink.")
    sent = played(rows(1), events(1)).sent
    run("", ["words drill 1", "fails each keeper"], outcome(wrote=[summary(1)], sent=sent),
        *(outcome(3, ["keeper refused"], sent=sent[:count]) for count in range(3)))
    run("", ["words drill 1", "fails each link"], outcome(wrote=[summary(1)], sent=sent),
        *(outcome(wrote=[summary(1)], sent=sent[:lost] + sent[lost + 1:]) for lost in range(len(sent))))
    run("the link has room for three items", ["words drill 1", "room link 3 3000"], outcome(wrote=[summary(1)], sent=sent[:3]))
    run("", ["words drill 1", "fails each sink"], outcome(wrote=[summary(1)], sent=sent), outcome(4, sent=sent))
    section("a drill takes tables without rows alone", "By hand.")
    run("tables with rows", ["office", "show tables", "words drill 1"], outcome(9, ["refused not-empty"], tables=office))
    made = played(rows(1), events(1))
    run("", ["words drill 1"], outcome(wrote=[summary(1)], sent=made.sent))
    run("behind a drill", ["show tables", "words drill 1"], outcome(9, ["refused not-empty"], tables=made.office.rows()), again=True)
    bad = [*office, 'modem 02aabbccdd99 99 1 ""']
    run("a bad row", ["office", bad[-1], "show tables", "words drill 1"], outcome(2, ["tables refused modem 02aabbccdd99"], tables=bad))
    section("a drill over tables of earlier days moves their site, and refuses them", "By hand: the tables are opened as any office opens them.")
    hub, *others = office
    site = "site " + hub.removeprefix("hub 0 ")
    run("", ["office", "drop hub 0", site, "show tables", "words drill 1"], outcome(9, ["refused not-empty"], tables=office))
    run("a site alone", [site, "show tables", "words drill 1"], outcome(9, ["refused not-empty"], tables=[hub]))
    run("a hub beside it", ["office", site, "show tables", "words drill 1"], outcome(2, ["tables refused site"], tables=[site, *office]))
    run("each call of the keeper fails", ["office", "drop hub 0", site, "show tables", "words drill 1", "fails each keeper"],
        outcome(9, ["refused not-empty"], tables=office), outcome(3, ["keeper refused"], tables=[site, *others]), outcome(3, ["keeper refused"], tables=office))
    section("a drill over tables of earlier days whose report can't be written has moved their site", "By hand: what is told is told behind the opening's commit, and a line that can't be "
            "written ends with status 4, whatever it would say. Where the opening refuses the tables, or couldn't move the site, they stay.")
    earlier = ["office", "drop hub 0", site]
    run("tables with rows", [*earlier, "show tables", "words drill 1", "fails sink 1"], outcome(4, tables=office))
    run("a site alone", [site, "show tables", "words drill 1", "fails sink 1"], outcome(4, tables=[hub]))
    run("the line is cut", [*earlier, "show tables", "words drill 1", "room sink 10"], outcome(4, cut="refused no", tables=office))
    run("the tables that it left, once more", ["show tables", "words drill 1"], outcome(9, ["refused not-empty"], tables=office), again=True)
    run("a hub beside the site", ["office", site, "show tables", "words drill 1", "fails sink 1"], outcome(4, tables=[site, *office]))
    run("a bad row besides", [*earlier, bad[-1], "show tables", "words drill 1", "fails sink 1"], outcome(4, tables=[site, *others, bad[-1]]))
    run("the first read fails too", [*earlier, "show tables", "words drill 1", "fails keeper 2", "fails sink 1"], outcome(4, tables=[site, *others]))
    section("the words of a drill", "By hand, from the forms of words.")
    for words in ("drill", "drill 0", "drill 4001", "drill x", "drill 1 2", "drill _"):
        run(words, [f"words {words}"], outcome(1, ["words refused"]))
    script.line("place drill 4000")
    script.expected.append("place memory 0 0 0 0")
