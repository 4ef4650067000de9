"""Examples of faults: sections of crates/office_script that `office.py` writes with its own, and what is expected of each.

One script goes through all services: a modem boots and reads its file, and a clerk puts a row in two pieces. In it each call of the outside fails in turn.
What is expected is computed by the models of leases.py and tftp.py, in which an event either is done whole or, where the keeper fails in it, is as if it
hadn't come; its line tells which. The word of each event in a run in which nothing fails is said here by hand.
"""
from examples import answer, answered, fixed, outcome, request
from leases import DISCOVER, REQUEST, A, Office, moment_of, option, address, SERVER
from messages import RELAYED_DISCOVER
import leases
import transfers
from transfers import WHOLE, Packet

# The section in which each call of the outside fails.
OF_ALL = "a modem boots and a clerk puts a row while each call of the outside fails in turn"
MODEL = "By the models in tests/examples/leases.py and tftp.py, from RFC 2131, RFC 1350 and the office's rules."


class Half:
    """The first or the second part of a clerk's request: connection, bytes, and the row that is put where the request is whole then."""

    def __init__(self, conn, data, path=None, row=None):
        self.conn, self.data, self.path, self.row = conn, data, path, row


PUT = transfers.put_subscriber(7, devices=5)
ASKED = request(PUT.method, PUT.path, PUT.body)
# The worked DISCOVER as a REQUEST that selects the address that is offered.
SELECTS = RELAYED_DISCOVER[:242] + bytes([REQUEST]) + RELAYED_DISCOVER[243:-1] + option(54, SERVER) + option(50, address(A)) + b"\xff"
assert RELAYED_DISCOVER[242] == DISCOVER
EVENTS = [("t", "offer", RELAYED_DISCOVER), ("t", "ack", SELECTS), *WHOLE,
          ("t", "wait", Half(1, ASKED[:20])), ("t", "200", Half(1, ASKED[20:], PUT.path, PUT.row))]


class Played(transfers.Played):
    """What comes of the events. In the event number `failing` the keeper fails; of the event `losing[0]` the item `losing[1]` isn't sent."""

    def __init__(self, rows, failing=None, losing=None):
        super().__init__(rows)
        self.spoilt, self.lost = failing, losing

    def take(self, moment, word, what):
        at = len(self.sent)
        if self.spoilt == self.turn + 1:
            self.fails(moment, what)
        elif isinstance(what, Half):
            self.hears(moment, word, what)
        else:
            super().take(moment, word if (self.spoilt, self.lost) == (None, None) else None, what)
        self.items = self.sent[at:]
        if self.lost and self.lost[0] == self.turn:
            self.sent.pop(at + self.lost[1])
            service = self.wrote[-1].split(" ")[1]
            self.wrote[-1] = f"{self.turn} {service} link"

    def fails(self, moment, what):
        """The event is as if it hadn't come, but for its line; a clerk is told so."""
        self.turn += 1
        self.office.now = max(self.office.now, moment_of(moment))
        self.line("http" if isinstance(what, Half) else "tftp" if isinstance(what, Packet) else "dhcp", "keeper")
        if isinstance(what, Half):
            self.sent += [answer(what.conn, fixed(500)), f"close {what.conn}"]

    def hears(self, moment, word, what):
        self.turn += 1
        self.line("http", word)
        if what.path:
            status, _, text = self.office.clerk(moment_of(moment), what.path, what.row)
            self.sent += answered(what.conn, status, text)


def played(rows, events=EVENTS, **what):
    made = Played(rows, **what)
    for event in events:
        made.take(*event)
    return made


def line_of(turn, moment, what):
    if isinstance(what, Half):
        return f"{moment} piece {what.conn} {transfers.quoted(what.data)}"
    return transfers.line_of(turn, moment, what)


# After the end nothing is taken.
SCRIPT = [*(line_of(turn, moment, what) for turn, (moment, _, what) in enumerate(EVENTS, 1)), "t end", "t datagram time from 10.0.0.1:37"]
# These events look into the tables; the acknowledgements, for which it's remembered that they agree, and the first part of the request don't.
READING = (1, 2, 3, 9)


def told_anew(texts):
    """What is printed of runs in which one call after another fails: what isn't as of the call before."""
    return [text for place, text in enumerate(texts) if place == 0 or text != texts[place - 1]]


def sections(script, rows):
    """Writes the sections, over an office of these rows."""
    def run(remark, lines, *outcomes):
        script.run(remark, ["office", "show tables", *lines, *SCRIPT], *outcomes)

    whole = played(rows)
    if [line.split(" ", 2)[2] for line in whole.wrote] != [word for _, word, _ in EVENTS]:
        raise leases.Disagreement(whole.wrote)
    script.section(OF_ALL, MODEL,
                   "Of the keeper: at the opening status 3; else one line says `keeper`, and its event is as if it hadn't come.",
                   "Of the link: a failed `next` is tried again; where an item isn't sent its line says `link`, and what was done stays done.")
    run("", [], whole.outcome())
    # The first commit is the opening's then.
    hub = next(row for row in rows if row.startswith("hub 0 "))
    run("an office of earlier days", ["drop hub 0", "site " + hub.removeprefix("hub 0 ")], whole.outcome())
    run("each call of the keeper", ["fails each keeper"], whole.outcome(), outcome(3, ["keeper refused"], tables=Office(rows).rows()),
        *(played(rows, failing=number).outcome() for number in READING))
    texts, counting = [], Played(rows)
    for number, event in enumerate(EVENTS, 1):
        counting.take(*event)
        # The `next` that gives the event fails, and is tried again.
        texts.append(whole.outcome())
        texts += [played(rows, losing=(number, place)).outcome() for place in range(len(counting.items))]
    run("each call of the link", ["fails each link"], whole.outcome(), *told_anew([*texts, whole.outcome()]))
    run("fifteen failures of the link in front", [f"fails link {' '.join(map(str, range(1, 16)))}"], whole.outcome())
    run("sixteen failures of the link in front", [f"fails link {' '.join(map(str, range(1, 17)))}"], outcome(5, ["link refused"], tables=Office(rows).rows()))
    cut = [outcome(4, whole.wrote[:number], sent=sent, tables=tables) for number, (sent, tables) in enumerate(after_each(rows))]
    run("each call of the sink", ["fails each sink"], whole.outcome(), *cut)


def after_each(rows):
    """What is sent and what the tables are after each event: a line that can't be written ends the run, and what its event did stays done."""
    made = Played(rows)
    for event in EVENTS:
        made.take(*event)
        yield list(made.sent), made.office.rows()
