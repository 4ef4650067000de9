"""Examples of whole boots: sections of crates/office_script that `office.py` writes with its own, and what is expected of each.

A modem discovers, requests and reads its file; other events come between each two of its messages, in every place. Then each thing that it needs for that is
taken away alone, and the log has the word that says so. What is expected is computed by the models of leases.py and tftp.py, and the words are said here by hand.
The word `memory` alone isn't here: a script can refuse memory in front of an event and not within one, as tests/acceptance/files_without_memory.py does.
"""
from examples import outcome
from leases import (A, BEHIND, HUBS, ONE, RELAY, SECOND, THERE, declines, discover, has_which, leased, put_hub, put_pool, put_site, reboots, releases, remove,
                    renews, selects, vendor, who_has)
import failures
import leases
from transfers import (B, PLAIN, PORT, TICK, TransferPlayer, acks, file_in, gives_up, is_signed_by, line_of, name, put_class, put_modem, put_subscriber, reads,
                       sends)

MODEL = "By the models of leases and of transfers, from RFC 2131, 1350, 2347 and 2348, and the office's rules."
# The modem's own messages, in order; the file has 88 bytes.
OFFER, ACK, OACK = ("offer", discover()), ("ack", selects()), ("oack", reads(44))
FILE = [("block 1", acks(0)), ("block 2", acks(1)), ("block 3", acks(2)), ("done", acks(3))]
BOOT = [OFFER, ACK, OACK, *FILE]
# Another modem has an address already, so that its packets mean the same in every place.
OTHERS = [SECOND, *leased("bound", B, 1, "t+1000")]
FAR = ["pool 2 10.65.0.10 10.65.0.20 24 10.65.0.1 10.65.0.1"]
SMALL = put_pool(1, "10.64.0.11", "10.64.0.99")

# What may come between two of its messages, whatever the place.
BETWEEN = {
    "another modem asks": [("offer", discover(1)), ("ack", selects(B, 1)), ("unknown-modem", discover(0x99))],
    "another modem reads": [("oack", reads(44, last=1, held=B)), ("block 1", acks(0, held=B)), ("peer-error", gives_up(held=B))],
    "another port of its own address": [("unknown", acks(1, port=PORT + 1)), ("form", sends(b"", port=PORT + 1))],
    "time passes": [("", TICK)] * 5,
    "clerks change other rows": [("", put_subscriber(9)), ("", put_class(PLAIN, 2)), ("", put_modem(9, 2, last=2)), ("", remove("/modems/02aabbccdd02"))],
}

# What it says itself once more, behind its message of this number, and what it's answered. A message that came again leaves all as it is.
AGAIN = {
    0: [OFFER, ("offer", discover(asked=A)), ("not-your-address", selects(B))],
    1: [ACK, ("ack", reboots()), ("offer", discover()), ("name", reads(44, held=B))],
    2: [("again", reads(44)), ("stale-ack", acks(1)), ("again", reads(44)), ("ack", reboots()), ("offer", discover())],
    **{number: [("stale-ack", acks(number - 3)), ("ack", reboots())] for number in (3, 4, 5)},
}


def at(moment, events):
    return [(moment, word, what) for word, what in events]


def with_between(place, events):
    """The boot, with events behind its message of this number."""
    return at("t", [*BOOT[:place + 1], *events, *BOOT[place + 1:]])


def queries(place):
    """What a relay asks behind the modem's message of this number: about it, about the other modem, and as an unknown relay."""
    by_address, by_modem = ("query-unassigned", "query-unknown") if place == 0 else ("query-active", "query-active")
    return [(by_address, who_has(A)), (by_modem, has_which()), ("query-active", who_has(B)), ("query-active", has_which(1)), ("query-relay", who_has(A, relay="10.64.0.2"))]


def booting(player):
    player.section("a modem boots, whatever comes between its messages", MODEL)
    alone = player.play("nothing", at("t", BOOT), rows=OTHERS, tables=True)
    for remark, events in BETWEEN.items():
        for place in range(len(BOOT) - 1):
            made = player.play(f"{remark}, behind message {place + 1}", with_between(place, events), rows=OTHERS)
            if files_in(made) != files_in(alone):
                raise leases.Disagreement(f"{remark}: the modem gets another file")
        player.play(f"{remark}, in every place", at("t", [BOOT[0], *(event for own in BOOT[1:] for event in (*events, own))]), rows=OTHERS)
    asked = [queries(place) for place in range(len(BOOT) - 1)]
    for place, events in enumerate(asked):
        if files_in(player.play(f"a relay asks, behind message {place + 1}", with_between(place, events), rows=OTHERS)) != files_in(alone):
            raise leases.Disagreement("a relay asks: the modem gets another file")
    player.play("a relay asks, in every place", at("t", [*(event for own, events in zip(BOOT, asked) for event in (own, *events)), BOOT[-1]]), rows=OTHERS, tables=True)
    player.play("a clerk is refused what would take its address, in every place",
                at("t", [BOOT[0], *(event for own in BOOT[1:] for event in (("pool-has-leases", SMALL), ("pool-has-leases", remove("/pools/1")), own))]), rows=OTHERS)
    player.section("a modem boots though its own messages come again", MODEL, "RFC 2131, section 4.1, and RFC 1123, section 4.2.3.1.")
    for place, events in AGAIN.items():
        player.play(f"behind message {place + 1}", with_between(place, events), rows=OTHERS)
    player.play("in every place", at("t", [event for place, own in enumerate(BOOT) for event in (own, *AGAIN.get(place, []))]), rows=OTHERS)
    player.section("a modem keeps its address as long as it asks again in time", MODEL)
    renewed = [(f"t+{86399 * number}", "ack", leases.renews()) for number in range(1, 5)]
    player.play("", [*at("t", BOOT[:2]), *renewed, (f"t+{86399 * 4}", "offer", discover()), (f"t+{86399 * 5}", "oack", reads(44)),
                     (f"t+{86399 * 5 + 1}", "agreement", acks(0)), (f"t+{86399 * 5 + 1}", "no-lease", reads(44))], rows=OTHERS, tables=True)


def files_in(made):
    """What goes to the modem from the TFTP port."""
    return [item for item in made.sent if item.startswith(f"datagram tftp to {A}:{PORT} ")]


def boot_at(held, relay, server, secret, last=0xEE):
    """A whole boot in the pool of a relay, whose hub has this server and secret."""
    return [("offer", discover(last, relay=relay)), ("ack", selects(held, last, server, relay=relay)), ("oack", reads(44, last=last, held=held, secret=secret)),
            *((word, acks(number, held=held)) for number, word in enumerate(("block 1", "block 2", "block 3", "done")))]


def from_hub_to_hub(player):
    """Two hubs, each with its own server and secret, and a pool of each."""
    player.section("a modem that goes from hub to hub boots under each one's secret", MODEL, "It gives up its address at the one when it is offered one at the other.")
    at_first, at_other = boot_at(A, RELAY, "10.0.0.2", b"secret"), boot_at(THERE, BEHIND, "10.0.0.3", b"other")
    for remark, events in {"there": [*at_first, *at_other], "and back": [*at_other, *at_first], "there, back and there again": [*at_other, *at_first, *at_other]}.items():
        made = player.play(remark, at("t", events), rows=HUBS, tables=True)
        for held, own, foreign in ((A, b"secret", b"other"), (THERE, b"other", b"secret")):
            is_signed_by(file_in(made, f"{held}:{PORT}"), own, foreign)
    for place in range(2, 6):
        player.play(f"in the midst of its file, behind message {place + 1}",
                    at("t", [*at_first[:place + 1], *at_other, ("agreement" if place < 5 else "done", acks(place - 2)), ("unknown", acks(place - 2))]), rows=HUBS)
    player.section("modems boot at several hubs at once", MODEL, "Their messages by turns; each has the server, the times and the secret of its own hub.")
    second = boot_at(THERE, BEHIND, "10.0.0.3", b"other", 1)
    made = player.play("", at("t", [event for pair in zip(at_first, second) for event in pair]), rows=[*HUBS, SECOND], tables=True)
    is_signed_by(file_in(made, f"{A}:{PORT}"), b"secret", b"other")
    is_signed_by(file_in(made, f"{THERE}:{PORT}"), b"other", b"secret")
    clerks = [("", put_hub(2, "10.0.0.4", b"third")), ("hub-in-use", remove("/hubs/1")), ("", put_pool(3, "10.66.0.10", "10.66.0.11", "10.66.0.1", 2)),
              ("hub-in-use", remove("/hubs/2")), ("", remove("/pools/3")), ("", remove("/hubs/2"))]
    player.play("clerks change other hubs and pools meanwhile",
                at("t", [at_first[0], *(event for own, clerk in zip(at_first[1:], clerks) for event in (clerk, own))]), rows=HUBS)
    player.section("hubs are put one by one, and modems boot at each", MODEL, "From an office with one hub; each pool comes after its hub.")
    player.play("", at("t", [
        ("no-hub", put_pool(2, THERE, "10.65.0.99", BEHIND, 1)), ("no-relay-pool", at_other[0][1]), ("", put_hub(1, "10.0.0.3", b"other")),
        ("no-relay-pool", at_other[0][1]), ("", put_pool(2, THERE, "10.65.0.99", BEHIND, 1)), *at_other, *at_first]), rows=[])
    player.section("a modem of an office of earlier days boots on", MODEL, "What was begun before the new start is as any start leaves it: leases stay, transfers are gone.")
    kept = leased("bound", A, 0xEE, "t+1000")
    events = at("t", [("unknown", acks(1)), ("ack", renews()), OACK, *FILE, *BOOT])
    player.migrates("", events, player.play("after the opening", events, rows=[*OTHERS, *kept], tables=True), rows=[*OTHERS, *kept])


def broken(player):
    """Each thing that a boot needs, taken away alone: the word that says so, and the same message with it."""
    player.section("a DISCOVER that isn't answered has the word that says why", MODEL, "The second message of each run lacks nothing.")
    full = ["drop pool 1", f"pool 1 {A} {A} 24 {RELAY} {RELAY}"]
    cases = {
        "part-cut": [("the relay's option", {"way": b"\x02\x06\x02"}), ("the modem's option", {"cable": b"\x02\x03EC"})],
        "relay-mismatch": [("the relay names another", {"remote": leases.mac(3)})],
        "not-a-modem": [("another class", {"docsis": b"pktc1.0:00"}), ("no class", {"docsis": None})],
        "no-relay-pool": [("another relay", {"relay": "10.64.0.2"}), ("no relay", {"relay": "0.0.0.0"})],
        "unknown-modem": [("another modem", {"last": 0x99})],
        "serial-mismatch": [("another serial number", {"cable": vendor(b"SN02")})],
    }
    for word, given in cases.items():
        for remark, what in given:
            player.play(remark, at("t", [(word, discover(**what)), OFFER]), rows=[])
    player.play("no hub", at("t", [("no-site", discover()), ("", put_site()), OFFER]), rows=["drop hub 0"])
    player.play("no address of the pool is free", [("t", "pool-full", discover()), ("t+1", *OFFER)], rows=[*full, f"lease {A} declined t+1"])
    player.section("a REQUEST that isn't acknowledged has the word that says why", MODEL)
    for word, given in {**cases, "not-a-modem": cases["not-a-modem"][:1], "unknown-modem": [], "no-relay-pool": cases["no-relay-pool"][:1]}.items():
        for remark, what in given:
            player.play(remark, at("t", [OFFER, (word, selects(**what)), ACK]), rows=[])
    player.play("another server", at("t", [OFFER, ("other-server", selects(server="10.0.0.9")), ACK]), rows=[])
    player.play("another address", at("t", [OFFER, ("not-your-address", selects(B)), ACK]), rows=[])
    player.play("no form", at("t", [OFFER, ("request-form", selects(None)), ACK]), rows=[])
    player.play("the modem's row is gone", at("t", [OFFER, ("", remove("/modems/02aabbccddee")), ("unknown-modem", selects())]), rows=[])
    player.play("the offer has ended, and nobody took the address", [("t", *OFFER), ("t+120", *ACK)], rows=[])
    for word, asks in (("not-your-address", selects()), ("no-record", reboots())):
        player.play(f"the offer has ended, and another took the address: {word}", [
            ("t", *OFFER), ("t+119", "pool-full", discover(1)), ("t+120", "offer", discover(1)), ("t+120", word, asks)], rows=[SECOND, *ONE])
    for remark, word, asks in (("it discovered by way of another pool", "offer", discover(relay="10.65.0.1")), ("it declined the address", "declined", declines())):
        player.play(remark, at("t", [OFFER, (word, asks), ("not-your-address", selects())]), rows=FAR)
    player.play("it released the address", at("t", [OFFER, ACK, ("released", releases()), ("no-record", reboots())]), rows=[])
    player.section("a read request that isn't accepted has the word that says why", MODEL)
    player.play("its lease has ended", [*at("t", BOOT[:2]), ("t+86400", "no-lease", reads(44))], rows=[])
    player.play("the address is offered alone", at("t", [OFFER, ("no-lease", reads(44)), ACK, OACK]), rows=[])
    player.play("the name is that of another address", at("t", [OFFER, ACK, ("name", reads(44, name=name(held=B))), OACK]), rows=[])
    player.play("the secret is another", at("t", [OFFER, ACK, ("", put_site(secret=b"Secret")), ("name", reads(44)), ("oack", reads(44, secret=b"Secret"))]), rows=[])
    player.play("the modem's row is gone", at("t", [OFFER, ACK, ("", remove("/modems/02aabbccddee")), ("agreement", reads(44))]), rows=[])
    player.play("the same request, of which nothing is acknowledged", at("t", [OFFER, ACK, OACK, ("again", reads(44)), *FILE]), rows=[])
    player.section("an acknowledgement with which a transfer doesn't go on has the word that says why", MODEL)
    player.play("six Ticks without one", [
        *at("t", BOOT[:4]), *((f"t+{2 * number}", "again 1 closed 0", TICK) for number in range(1, 6)), ("t+12", "again 0 closed 1", TICK), ("t+12", "unknown", acks(1))], rows=[])
    player.play("five Ticks", [
        *at("t", BOOT[:4]), *((f"t+{2 * number}", "again 1 closed 0", TICK) for number in range(1, 6)), *at("t+11", FILE[1:])], rows=[])
    for remark, events in {
            "the secret is another": [("", put_site(secret=b"Secret"))], "the modem's row is gone": [("", remove("/modems/02aabbccddee"))],
            "the modem is another subscriber's": [("", put_subscriber(9)), ("", put_modem(9))], "it released its address": [("released", releases())]}.items():
        player.play(remark, at("t", [*BOOT[:4], *events, ("agreement", acks(1)), ("unknown", acks(1))]), rows=[])
    player.play("its lease has ended", [*at("t", BOOT[:4]), ("t+86400", "agreement", acks(1))], rows=[])



def renewing(player):
    """A modem that has its address asks for it again, as RFC 2131 says in section 4.3.2: by ciaddr alone."""
    player.section("a renewal that isn't acknowledged has the word that says why", MODEL, "The last message of each run lacks nothing.")
    cases = {
        "request-form": [("it names the address in option 50 too", {"asked": A}), ("it names the server too", {"server": "10.0.0.2"}),
                         ("it names both", {"asked": A, "server": "10.0.0.2"}), ("through the relay", {"asked": A, "relay": RELAY}),
                         ("no address", {"client": "0.0.0.0"}), ("half an address", {"asked": b"\x0a\x40"})],
        "part-cut": [("the modem's option", {"cable": b"\x02\x03EC"})],
        "relay-mismatch": [("the relay names another", {"remote": leases.mac(3), "relay": RELAY})],
        "not-a-modem": [("another class", {"docsis": b"pktc1.0:00"})],
        "no-relay-pool": [("another relay", {"relay": "10.64.0.2"}), ("an address of no pool", {"client": "10.99.0.1"})],
        "unknown-modem": [("another modem", {"last": 0x99})],
        "serial-mismatch": [("another serial number", {"cable": vendor(b"SN02")})],
        "not-your-address": [("another's address", {"client": B})],
    }
    renewed = ("ack", leases.renews())
    for word, given in cases.items():
        for remark, what in given:
            player.play(remark, at("t", [OFFER, ACK, (word, leases.renews(**what)), renewed]), rows=OTHERS)
    player.play("no hub", at("t", [("no-site", leases.renews()), ("", put_site()), OFFER, ACK, renewed]), rows=["drop hub 0"])
    player.play("it released the address", at("t", [OFFER, ACK, ("released", releases()), ("no-record", leases.renews())]), rows=OTHERS)


def crowded(player):
    """All transfers are others'."""
    player.section("a read request while all 256 transfers are others' has the word that says so", MODEL,
                   "It's accepted once one has ended, or where one of the 256 is its own.")
    folded = ['repeat 0 255 modem 0300% 7 1 ""', "repeat 0 255 lease 10.64.1.# bound 0300% t+1000", "repeat 0 255 held 0300% 10.64.1.#"]
    single = [row for number in range(256) for row in (f'modem {many(number).hex()} 7 1 ""', f"lease 10.64.1.{number} bound {many(number).hex()} t+1000",
                                                       f"held {many(number).hex()} 10.64.1.{number}")]
    wide = ["drop pool 1", f"pool 1 {A} 10.64.1.255 16 {RELAY} {RELAY}"]

    def others(count):
        return [("oack", reads(44, held=held, name=leases.name_of(b"secret", many(number), leases.address(held))))
                for number, held in ((number, f"10.64.1.{number}") for number in range(count))]

    def play(remark, events):
        return player.play(remark, at("t", events), rows=[*folded, *wide], model_rows=[*single, *wide], lines=["room link 2000 200000"])
    ended = [("peer-error", gives_up(held="10.64.1.9"))]
    play("another gives up", [*others(256), OFFER, ACK, ("full", reads(44)), ("full", reads(44)), *ended, OACK, *FILE])
    play("one is its own", [*others(255), *BOOT[:4], ("full", reads(44, port=PORT + 1)), ("oack", reads(45)), OACK, *FILE])


def many(number):
    """One of many modems' addresses."""
    return bytes.fromhex(f"0300{number:08x}")


# Each message of the boot, and the same again, as a modem sends it that has no answer; what comes too late for anything is silent.
TWICE = [event for own, again in zip(BOOT, (OFFER[0], ACK[0], "again", "stale-ack", "stale-ack", "stale-ack", "unknown"))
         for event in (own, (again, own[1]))]
# Those that look into the tables; a message that comes again behind its answer does so in DHCP alone, and an acknowledgement where nothing is remembered.
LOOKING = (1, 2, 3, 4, 5)
# The modem waits; what it isn't answered comes again with a Tick, of a transfer, or by its own asking.
PATIENT = [*((f"t+{number}", word, what) for number, (word, what) in enumerate(TWICE[:6])),
           *(event for number, own in enumerate(FILE) for event in ((f"t+{7 + 2 * number}", "again 1 closed 0", TICK), (f"t+{7 + 2 * number}", *own)))]


def refused_outside(player):
    """The store, the network and memory."""
    run = player.script.run
    rows = [*player.rows, *OTHERS]

    def scene(events, *lines):
        return ["office", *OTHERS, "show tables", *lines, *(line_of(turn, moment, what) for turn, (moment, _, what) in enumerate(events, 1))]

    def boots_all_the_same(made, whole):
        if blocks_in(made) != blocks_in(whole) or len(blocks_in(made)) != 3:
            raise leases.Disagreement("the modem gets its file all the same")
        return made.outcome()
    player.section("a message in which the store fails has the word `keeper`, and the modem that sends it again boots", MODEL,
                   "Each call of the keeper fails in turn: of the opening, status 3; of a message, which is as if it hadn't come.")
    events = at("t", TWICE)
    whole = failures.played(rows, events)
    run("", scene(events, "fails each keeper"), whole.outcome(), outcome(3, ["keeper refused"], tables=leases.Office(rows).rows()),
        *(boots_all_the_same(failures.played(rows, events, failing=number), whole) for number in LOOKING))
    player.section("a message whose answer can't be sent has the word `link`, and the modem that sends it again boots", MODEL,
                   "Each call of the link fails in turn: a failed `next` is tried again; an answer is lost, and what was done stays done.")
    whole, counting, texts = failures.played(rows, PATIENT), failures.Played(rows), []
    for number, event in enumerate(PATIENT, 1):
        counting.take(*event)
        texts.append(whole.outcome())
        texts += [boots_all_the_same(failures.played(rows, PATIENT, losing=(number, place)), whole) for place in range(len(counting.items))]
    run("", scene(PATIENT, "fails each link"), whole.outcome(), *failures.told_anew([*texts, whole.outcome()]))
    player.section("where memory is refused for a message the office ends with `memory refused`, and the modem boots when it has started anew",
                   "A link that tells want of memory: status 6. Behind the start the transfers are gone, and the leases stay.", MODEL)
    alone = failures.played(rows, at("t", BOOT))
    for place in range(len(BOOT)):
        made = failures.played(rows, at("t", BOOT[:place]))
        run(f"message {place + 1}", scene(at("t", BOOT), f"wants link {place + 1}"), outcome(6, [*made.wrote, "memory refused"], sent=made.sent, tables=made.office.rows()))
        again = at("t", BOOT if place < 4 else [("unknown", BOOT[place][1]), *BOOT])
        run("", ["show tables", *(line_of(turn, moment, what) for turn, (moment, _, what) in enumerate(again, 1))],
            boots_all_the_same(failures.played(made.office.rows(), again), alone), again=True)


def blocks_in(made):
    """The file's blocks that go to the modem, each once, by their numbers."""
    packets = [bytes.fromhex(item.split(" ")[-1]) for item in files_in(made)]
    return sorted({packet[2:] for packet in packets if packet[:2] == b"\0\3"})


def sections(script, rows):
    """Writes the sections, over an office of these rows."""
    player = TransferPlayer(script, rows)
    for write in (booting, from_hub_to_hub, broken, renewing, crowded, refused_outside):
        write(player)
