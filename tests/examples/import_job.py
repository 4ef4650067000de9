"""The sections of office.py on the command `import`.

Which rows an import has, and which of them is at fault, is said here by hand, from the rules of commands in docs/CLERK_API.md; the digests are those of
hashlib, and texts are as RFC 4180 has them.
"""
import hashlib

from examples import T, answered, outcome, quoted, request

HEADERS = {"subscribers": b"subscriber,active,cpes,name\n", "modems": b"mac,subscriber,class,serial\n"}
# Rows of each kind as an import has them, and as the tables show them.
ANN = (b"7,yes,3,Ann Lee\n", 'subscriber 7 active 3 "Ann Lee"')
BOB = (b"8,no,254,\n", 'subscriber 8 suspended 254 ""')
NEW = (b"02aabbccdd01,7,1,SN02\n", 'modem 02aabbccdd01 7 1 "SN02"')
OLD = (b"02-AA-BB-CC-DD-EE,7,1,SN03\n", 'modem 02aabbccddee 7 1 "SN03"')
MOST = 1_048_576


class ImportPlayer:
    """Plays imports over an office of these rows."""

    def __init__(self, script, rows):
        self.script = script
        self.rows = rows

    def with_rows(self, *rows):
        """The office's rows with others in the place of those that have their keys."""
        keys = {tuple(row.split(" ")[:2]) for row in rows}
        return [row for row in self.rows if tuple(row.split(" ")[:2]) not in keys] + list(rows)

    def play(self, kind, batch, data, *outcomes, rows=(), more=(), source=None, remark="", again=False, shows=True):
        lines = [] if again else ["office", *rows]
        source = source or (quoted(data) if data else None)
        self.script.run(remark, [*lines, *more, *(["show tables"] if shows else []), f"words import --store memory {kind} {batch}", *([f"source {source}"] if source else [])],
                        *outcomes, again=again)

    def refused(self, kind, data, words, rows=(), source=None, tables=None):
        """An import that is refused leaves the tables."""
        kept = self.rows + list(rows) if tables is None else tables
        self.play(kind, 9, data, outcome(9, [f"refused {words}"], tables=kept), rows=rows, source=source)


def batch_row(kind, batch, count, data):
    return f"batch {batch} {kind} {count} {hashlib.md5(data).hexdigest()}"


def done(player):
    player.script.section("an import puts its rows and its batch, and tells how many rows it has", "By hand, and Python's hashlib.")
    for kind, rows in (("subscribers", (ANN, BOB)), ("modems", (NEW, OLD)), ("subscribers", ()), ("modems", (NEW, NEW))):
        data = HEADERS[kind] + b"".join(text for text, _ in rows)
        shown = dict.fromkeys(row for _, row in rows)
        player.play(kind, 9, data, outcome(wrote=[f"rows {len(rows)}"], tables=player.with_rows(*shown, batch_row(kind, 9, len(rows), data))))
    data = HEADERS["modems"] + NEW[0]
    for batch in (0, 2**64 - 1):
        player.play("modems", batch, data, outcome(wrote=["rows 1"], tables=player.with_rows(NEW[1], batch_row("modems", batch, 1, data))))


def repeated(player):
    player.script.section("a batch acts once", "The same bytes are answered as before; another byte or kind is refused, and the tables stay.")
    data = HEADERS["subscribers"] + ANN[0] + BOB[0]
    tables = player.with_rows(ANN[1], BOB[1], batch_row("subscribers", 9, 2, data))
    player.play("subscribers", 9, data, outcome(wrote=["rows 2"], tables=tables))
    player.play("subscribers", 9, data, outcome(wrote=["rows 2"], tables=tables), again=True)
    player.play("subscribers", 9, data + b"\n", outcome(9, ["refused batch-differs 9"], tables=tables), again=True)
    player.play("modems", 9, HEADERS["modems"], outcome(9, ["refused batch-differs 9"], tables=tables), again=True)
    kept = "batch 9 modems 5 " + hashlib.md5(data).hexdigest()
    player.refused("subscribers", data, "batch-differs 9", rows=[kept])
    player.play("modems", 9, HEADERS["modems"], outcome(wrote=["rows 7"], tables=player.with_rows(batch_row("modems", 9, 7, HEADERS["modems"]))),
                rows=[batch_row("modems", 9, 7, HEADERS["modems"])], remark="the number of rows is the one that is kept")


def by_request(player):
    """The worked imports by clerks' requests, one behind the other in one run."""
    player.script.section("a clerk imports by a request, and a batch acts once", "The worked example; the digest by Python's hashlib.")
    body = HEADERS["modems"] + b"02:aa:bb:cc:dd:f0,7,1,\n" + b"02:aa:bb:cc:dd:f1,7,1,SN02\n"
    other = HEADERS["modems"] + b"02:aa:bb:cc:dd:f0,7,1,\n" + b"02:aa:bb:cc:dd:f2,7,2,SN02\n"
    asked = [(9, body, "http 200", 200, {"rows": 2}), (9, body, "http 200", 200, {"rows": 2}),
             (9, other, "http 409 batch-differs", 409, {"at": "9", "fault": "batch-differs"}),
             (10, other, "http 422 no-class", 422, {"at": "2", "fault": "no-class"}),
             (10, HEADERS["subscribers"], "http 422 header", 422, {"fault": "header"}),
             (10, HEADERS["modems"] + b"x\n", "http 422 width", 422, {"at": "1", "fault": "width"}),
             (10, HEADERS["modems"] + b"x,1,1,\n", "http 422 import-field", 422, {"at": "1,1", "fault": "import-field"})]
    lines = [f"t piece {conn} {quoted(request('PUT', f'/imports/modems/{batch}', data))}" for conn, (batch, data, *_) in enumerate(asked, 1)]
    sent = [item for conn, (_, _, _, status, value) in enumerate(asked, 1) for item in answered(conn, status, value)]
    wrote = [f"{conn} {line}" for conn, (_, _, line, _, _) in enumerate(asked, 1)]
    rows = ['modem 02aabbccddf0 7 1 ""', 'modem 02aabbccddf1 7 1 "SN02"', batch_row("modems", 9, 2, body)]
    player.script.run("", ["office", "show tables", *lines], outcome(wrote=wrote, sent=sent, tables=player.with_rows(*rows)))


def faults(player):
    player.script.section("bytes that are no import are refused by their first fault", "The row, from 1 behind the header, and the column, from 1.")
    header = HEADERS["subscribers"]
    for data, words in ((b"", "header"), (HEADERS["modems"], "header"), (header + b"7,yes,3\n", "width 1"), (header + ANN[0] + b"8,no,1,x,y\n", "width 2"),
                        (header + b"x,yes,3,Ann\n", "field 1 1"), (header + b"7,on,3,Ann\n", "field 1 2"), (header + ANN[0] + b"8,no,255,\n", "field 2 3"),
                        (header + b"7,yes,3," + b"a" * 65 + b"\n", "field 1 4")):
        player.refused("subscribers", data, words)
    many = ANN[0].hex()
    player.refused("subscribers", None, "too-many", source=f"{quoted(header)} 2000* {many} {quoted(b'?')}")
    player.refused("subscribers", None, "width 2000", source=f"{quoted(header)} 1999* {many} {quoted(b'7,yes,3' + bytes([10]))} {many}")
    player.refused("modems", HEADERS["modems"] + b"02aabbccdd,7,1,SN\n", "field 1 1")


def rules(player):
    player.script.section("an import is refused by the first row that breaks a rule, and none of its rows is put", "By hand, from the rules of commands.")
    header = HEADERS["modems"]
    player.refused("modems", header + NEW[0] + b"02aabbccdd02,8,1,SN\n", "no-subscriber row 2")
    player.refused("modems", header + b"02aabbccdd02,7,2,SN\n" + b"02aabbccdd02,8,1,SN\n", "no-class row 1")
    player.refused("modems", None, "no-subscriber row 2000",
                   source=f"{quoted(header)} 1999* {NEW[0].hex()} {quoted(b'02aabbccdd02,8,2,SN' + bytes([10]))}")


MANY = 100_000
EARLIER = "00" * 16


def full(player):
    """Limits, told of an import as a whole or of its row. Tables of so many rows aren't shown: what is in them is asked for by requests."""
    def ask(conn, data, batch, kind="modems"):
        return f"t piece {conn} {quoted(request('PUT', f'/imports/{kind}/{batch}', data))}"

    def run(rows, *asked):
        """Requests one behind the other: each its line, the log's words, the status and the answer."""
        wrote = [f"{conn} http {words}" for conn, (_, words, _, _) in enumerate(asked, 1)]
        sent = [item for conn, (_, _, status, value) in enumerate(asked, 1) for item in answered(conn, status, value)]
        player.script.run("", ["office", *rows, *(line(conn) for conn, (line, _, _, _) in enumerate(asked, 1))], outcome(wrote=wrote, sent=sent))

    def imports(data, batch, words, status, value, kind="modems"):
        return (lambda conn: ask(conn, data, batch, kind)), words, status, value

    def shows(path, words, status, value):
        return (lambda conn: f"t ask {conn} GET {path}"), words, status, value

    header = HEADERS["modems"]
    none = {"fault": "no-row"}
    player.script.section("there may be 100,000 imports, and the next one puts no row", "A number that is there already is answered as before; other puts go on.")
    run([f"repeat 1 {MANY - 1} batch # modems 5 {EARLIER}"],
        imports(header + NEW[0], MANY, "200", 200, {"rows": 1}),
        imports(header + b"02aabbccdd02,7,1,\n", MANY + 1, "422 limit", 422, {"at": str(MANY), "fault": "limit"}),
        shows("/modems/02aabbccdd02", "404 no-row", 404, none),
        imports(header + b"02aabbccdd02,8,1,\n", MANY + 1, "422 no-subscriber", 422, {"at": "1", "fault": "no-subscriber"}),
        imports(header + NEW[0], MANY, "200", 200, {"rows": 1}),
        imports(header + NEW[0] + b"\n", MANY, "409 batch-differs", 409, {"at": str(MANY), "fault": "batch-differs"}),
        shows("/modems/02aabbccdd01", "200", 200, {"class": 1, "serial": "SN02", "subscriber": 7}))
    player.play("subscribers", MANY + 1, HEADERS["subscribers"], outcome(9, ["refused limit"]), rows=[f"repeat 1 {MANY} batch # modems 5 {EARLIER}"], shows=False)
    player.script.section("an import that reaches a limit is refused by the row that is one too many, and none of its rows is put",
                          "There are 199,999 subscribers. A row that is there already, or that a row before it put, isn't one more.")
    header = HEADERS["subscribers"]
    rows = ['repeat 1000 200997 subscriber # active 2 "Ann"']
    run(rows,
        imports(header + ANN[0] + BOB[0] + BOB[0] + b"9,yes,2,Cid\n", 9, "422 limit", 422, {"at": "4", "fault": "limit"}, "subscribers"),
        shows("/subscribers/8", "404 no-row", 404, none),
        shows("/subscribers/7", "200", 200, {"active": True, "cpes": 2, "name": "Ann"}),
        imports(header + ANN[0] + BOB[0] + BOB[0], 9, "200", 200, {"rows": 3}, "subscribers"),
        imports(header + b"9,yes,2,Cid\n", 10, "422 limit", 422, {"at": "1", "fault": "limit"}, "subscribers"),
        imports(header + BOB[0], 10, "200", 200, {"rows": 1}, "subscribers"),
        shows("/subscribers/7", "200", 200, {"active": True, "cpes": 3, "name": "Ann Lee"}))
    player.play("subscribers", 9, header + BOB[0] + b"9,yes,2,Cid\n", outcome(9, ["refused limit row 2"]), rows=rows, shows=False)


def long_ones(player):
    player.script.section("an import has at most 1,048,576 bytes", "Empty lines are no rows. One byte more is too many, whatever the bytes say.")
    header = HEADERS["subscribers"]
    blank = MOST - len(header)
    data = header + b"\n" * blank
    player.play("subscribers", 9, data, outcome(wrote=["rows 0"], tables=player.with_rows(batch_row("subscribers", 9, 0, data))),
                source=f"{quoted(header)} {blank}* 0a")
    player.refused("subscribers", None, "too-long", source=f"{quoted(header)} {blank + 1}* 0a")
    player.refused("subscribers", None, "too-long", source=f"{MOST + 1}* 00")
    player.refused("subscribers", None, "header", source=f"{MOST}* 00")


def failing(player):
    player.script.section("an import in which a call fails changes nothing", "A source's failure has status 7, a keeper's 3; each call fails in turn.")
    data = HEADERS["subscribers"] + ANN[0] + BOB[0]
    tables = player.with_rows(ANN[1], BOB[1], batch_row("subscribers", 9, 2, data))
    whole = outcome(wrote=["rows 2"], tables=tables)
    player.play("subscribers", 9, data, whole, outcome(7, ["source refused"], tables=player.rows), more=["fails each source"])
    player.play("subscribers", 9, data, whole, outcome(3, ["keeper refused"], tables=player.rows), more=["fails each keeper"])
    player.script.section("a sink that fails is told by status 4, and what was done stays done", "It takes a front of the line, also of the one that tells of the source.")
    player.play("subscribers", 9, data, outcome(4, tables=tables), more=["fails sink 1"])
    player.play("subscribers", 9, data, outcome(4, cut="rows", tables=tables), more=["room sink 4"])
    player.play("modems", 9, data, outcome(4, cut="refused", tables=player.rows), more=["room sink 7"])
    player.play("subscribers", 9, data, outcome(4, tables=player.rows), more=["fails source 1", "fails sink 1"])
    player.play("subscribers", 9, data, outcome(4, cut="source", tables=player.rows), more=["fails source 1", "room sink 6"])
    player.script.section("the tables are opened before the source is read", "Bad tables are told although the source fails, and are left.")
    bad = f"lease 10.64.0.10 bound 02aabbccdd05 {T}"
    player.play("subscribers", 9, data, outcome(2, ["tables refused lease 10.64.0.10"], tables=player.rows + [bad]), rows=[bad], more=["fails source 1"])


def earlier_days(player):
    """Imports over the tables of earlier days, whose one site becomes the hub 0 at the opening."""
    player.script.section("an import's opening moves the site of earlier days first",
                          "Whatever becomes of the import then. With status 1 and 2 the tables stay; with status 3 they stay until the opening's own commit is done.")
    data = HEADERS["subscribers"] + ANN[0] + BOB[0]
    now = player.with_rows(ANN[1], BOB[1], batch_row("subscribers", 9, 2, data))
    hub = next(row for row in player.rows if row.startswith("hub 0 "))
    site = "site " + hub.removeprefix("hub 0 ")
    before = [site, *(row for row in player.rows if row != hub)]
    earlier = ["drop hub 0", site]

    def play(remark, *outcomes, given=data, more=()):
        player.play("subscribers", 9, given, *outcomes, rows=earlier, more=more, remark=remark)
    play("it is done", outcome(wrote=["rows 2"], tables=now))
    play("a field is wrong", outcome(9, ["refused field 1 1"], tables=player.rows), given=HEADERS["subscribers"] + b"x,yes,3,Ann\n")
    play("the source fails", outcome(7, ["source refused"], tables=player.rows), more=["fails source 1"])
    play("the sink fails", outcome(4, tables=now), more=["fails sink 1"])
    play("each call of the keeper fails", outcome(wrote=["rows 2"], tables=now), outcome(3, ["keeper refused"], tables=before),
         outcome(3, ["keeper refused"], tables=player.rows), more=["fails each keeper"])
    header = HEADERS["modems"]
    player.play("modems", 9, header + b"02aabbccdd02,7,2,SN\n", outcome(9, ["refused no-class row 1"], tables=player.rows), rows=earlier, remark="a rule is broken")
    player.play("modems", 9, header, outcome(2, ["tables refused site"], tables=[*before, hub]), rows=[*earlier, hub], remark="a hub stands beside it")
    player.script.run("other words", ["office", *earlier, "show tables", "words import --store memory modems", f"source {quoted(header)}"],
                      outcome(1, ["words refused"], tables=before))


def words(player):
    player.script.section("words of import are read", "STORE is as for serve; its ports are 0. BATCH is a number of 64 bits.")
    for text, store in (("memory subscribers 0", "memory"), ("/var/lib/office.db modems 18446744073709551615", "/var/lib/office.db"), ("a modems 007", "a")):
        player.script.line(f"place import --store {text}")
        player.script.expected.append(f"place {store} 0 0 0 0")
    player.script.section("other words of import are refused", "They read nothing, and leave the tables.")
    for text in ("import", "import --store memory modems", "import --store memory modems 1 1", "import --store memory classes 1", "import --store memory Modems 1",
                 "import --store memory modems 18446744073709551616", "import --store memory modems +1", "import --store -a modems 1", "import --store _ modems 1",
                 "import --stores memory modems 1", "imports --store memory modems 1", "import memory --store modems 1"):
        player.script.line(f"place {text}")
        player.script.expected.append("no place")
        player.script.run("", ["office", "show tables", f"words {text}", f"source {quoted(HEADERS['modems'] + NEW[0])}"],
                          outcome(1, ["words refused"], tables=player.rows))


def sections(script, rows):
    """Writes the sections, over an office of these rows."""
    player = ImportPlayer(script, rows)
    for write in (words, done, earlier_days, repeated, by_request, faults, rules, full, long_ones, failing):
        write(player)
