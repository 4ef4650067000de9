#!/usr/bin/env python3
"""bin/office-desk looks rows up and edits them in the browser, and tells each refusal in words.

It is asked as a browser asks, over an office with tables in memory and a copy of this script's:
each kind of row is put, shown and removed by its form, and the office has what the form said; what
the office refuses is told; a file of 4,500 rows is handed in; lists, counts and lines are shown.
Find finds names, serial numbers and addresses, and says when nothing was found; a removal asks
first; long lists have pages; a pool that can't work has a warning; pages ask the office of no row
that isn't there; an office that is off is named so. Who names another host, or has no token of the
desk's, changes nothing. The desk's table of settings is that of the definitions. Where chromium is
there, it fills the forms itself, no page is wider than a narrow window, and with OFFICE_SHOTS
pictures of the pages are left in that folder. It ends what it started, and takes some seconds.
"""
import argparse
import base64
import html
import http.client
import json
import os
import re
import select
import shutil
import subprocess
import sys
import tempfile
import time
import urllib.parse

from harness import ROOT, check, free_ports, is_built, loaded, script, serving, stop, text_of
from harness.clerks import Clerk, is_heard, wait_until_answering
from harness.told import SECRET
from clerk_examples import people
from store_reader import DEVICE_POOL, DEVICES, ROWS, made

DESK = os.path.join(ROOT, "bin", "office-desk")
CHROMIUM = next(filter(None, map(shutil.which, ("chromium", "chromium-browser",
                                                "google-chrome"))), None)
SITE = {"server": "10.0.0.2", "secret": SECRET.hex(), "offset": "3600", "lease": "86400",
        "log": "0.0.0.0"}
POOL = {"first": "10.64.0.10", "last": "10.64.0.99", "prefix": "24", "router": "10.64.0.1",
        "relay": "10.64.0.1", "hub": "0"}
FOR_DEVICES = {"first": "10.128.0.10", "last": "10.128.0.20", "prefix": "24",
               "router": "10.128.0.1", "relay": "10.128.0.1"}
# Add-ons of subscriber 7 as the store has them: each a flow upstream of some bytes.
ADD_ONS = [(b"\x03" + bytes([0, 0, 0, 7, place]), b"\0\x05" + b"\x18\x03\x01\x01\x03")
           for place in (0, 3)]
ANN_SHOWN = {"active": True, "cpes": 2, "name": "Ann"}
ANN = {"active": "on", "cpes": "2", "name": "Ann <O'Neil> & \"Sons\""}
MODEM = {"subscriber": "7", "class": "1", "serial": "SN01"}


class Browser:
    """Asks the desk as a browser does."""

    def __init__(self, port):
        self.port = port
        self.token = re.search(r'name="token" value="(\w+)"', self.get("/hub/0"))[1]

    def ask(self, method, path, body=None, **heads):
        held = http.client.HTTPConnection("127.0.0.1", self.port, timeout=30)
        held.request(method, path, body, {"Host": f"127.0.0.1:{self.port}", **heads})
        answer = held.getresponse()
        text = answer.read().decode()
        held.close()
        return answer.status, text, answer.getheader("Location")

    def get(self, path):
        return self.ask("GET", path)[1]

    def fields(self, text):
        """The fields of a page's form, as a browser would send them."""
        found = {}
        form = text[text.index('<form method="post"'):]
        for tag in re.findall(r"<input [^>]*>", form):
            about = dict(re.findall(r'(\w+)="([^"]*)"', tag))
            if about.get("type") == "checkbox" and " checked" not in tag:
                continue
            if "name" in about:
                found[html.unescape(about["name"])] = html.unescape(about.get("value", "on"))
        return found

    def post(self, path, fields, action="save"):
        """The message after a form was sent, and the page."""
        body = urllib.parse.urlencode({**fields, "token": self.token, "action": action})
        text = self.ask("POST", path, body)[1]
        told = re.search(r'role="status">([^<]*)</div>', text)
        return (html.unescape(told[1]) if told else ""), text


def row(port, path):
    """A row as the office has it; None where it has none."""
    return Clerk(port, patience=10).row(path)


def rows(browser, port):
    """Each kind of row is put by its form, is shown, and is what the office has."""
    for path, fields in (("/hub/0", SITE), ("/hub/1", {**SITE, "server": "10.0.0.3"}),
                         ("/pool/1", POOL), ("/device-pool/1", FOR_DEVICES),
                         ("/subscriber/7", ANN)):
        check(browser.post(path, fields)[0] == "Done.", f"{path} is put")
    shown = {"lease": 86400, "log": "0.0.0.0", "offset": 3600, "server": "10.0.0.2"}
    check(row(port, "/site") == row(port, "/hubs/0") == shown, "the hub 0")
    check(row(port, "/hubs/1") == {**shown, "server": "10.0.0.3"}, "another hub")
    check(row(port, "/pools/1") == {**POOL, "prefix": 24, "hub": 0}, "the pool")
    check(row(port, "/device-pools/1") == {**FOR_DEVICES, "prefix": 24}, "the pool for devices")
    check("hub" not in browser.fields(browser.get("/device-pool/1")), "whose form has no hub")
    check(browser.post("/pool/1", {**POOL, "hub": "1"})[0] == "Done.", "the pool's hub is another")
    check(row(port, "/pools/1")["hub"] == 1, "its hub")
    check(browser.fields(browser.get("/pool/1"))["hub"] == "1", "which its form shows")
    check(browser.post("/pool/1", POOL)[0] == "Done." and row(port, "/pools/1")["hub"] == 0, "back")
    check(row(port, "/subscribers/7") == {"active": True, "cpes": 2, "name": ANN["name"]}, "Ann")
    shown = browser.get("/subscriber/7")
    check("<O'Neil>" not in shown and browser.fields(shown)["name"] == ANN["name"], "the name")
    check(browser.post("/subscriber/7", {"cpes": "2", "name": ""})[0] == "Done.", "not active")
    check(row(port, "/subscribers/7")["active"] is False, "she isn't active")
    classes(browser, port)
    check(browser.post("/modem/02aabbccddee", MODEM)[0] == "Done.", "a modem")
    check(row(port, "/modems/02aabbccddee") == {"subscriber": 7, "class": 1, "serial": "SN01"},
          "the modem")


def classes(browser, port):
    """A class by its form: new, with a rate, another flow, without it; and an add-on."""
    fields = browser.fields(browser.get("/class/1"))
    check(fields.get("value:s.0.0") == "1", f"a new class: {fields}")
    _, text = browser.post("/class/1", {**fields, "name": "gold", "choice": "s.0:8"}, "add")
    fields = {**browser.fields(text), "value:s.0.2": "10,000,000", "value:s.1.0": "2"}
    check(browser.post("/class/1", {**fields, "name": "gold"})[0] == "Done.", "a class is put")
    flows = [{"code": 24, "parts": [{"code": 1, "hex": "0001"}, {"code": 6, "hex": "01"},
                                    {"code": 8, "hex": "00989680"}]},
             {"code": 25, "parts": [{"code": 1, "hex": "0002"}, {"code": 6, "hex": "01"}]}]
    check(row(port, "/classes/1") == {"name": "gold", "settings": flows}, "the class")
    shown = browser.get("/class/1")
    check("18 0d 01 02 00 01 06 01 01 08 04 00 98 96 80" in shown, "its bytes")
    fields = browser.fields(shown)
    told, text = browser.post("/class/1", {**fields, "value:s.0.1": "9"})
    check(told == "parameter sets: 9 isn't 1 to 7", f"out of its range: {told}")
    check(browser.post("/class/1", {**fields, "remove:s.0.2": "on"})[0] == "Done.", "without it")
    check(len(row(port, "/classes/1")["settings"][0]["parts"]) == 2, "the rate is gone")
    _, text = browser.post("/addon/7/0", {**browser.fields(browser.get("/addon/7/0")),
                                          "choice": "s:24"}, "add")
    fields = {**browser.fields(text), "value:s.0.0": "3"}
    check(browser.post("/addon/7/0", fields)[0] == "Done.", "an add-on")
    check(row(port, "/subscribers/7/addons/0")["settings"][0]["code"] == 24, "the add-on")
    check("upstream service flow" in browser.get("/addon/7/0"), "and it's shown")
    _, text = browser.post("/class/1", {**browser.fields(browser.get("/class/1")),
                                        "choice": "s.1:8"}, "add")
    fields = {**browser.fields(text), "value:s.1.2": "1.5 Gbit/s"}
    check(browser.post("/class/1", fields)[0] == "Done.", "a rate with its unit")
    parts = row(port, "/classes/1")["settings"][1]["parts"]
    # 1.5 * 10^9, as 32 bits.
    check(parts[2] == {"code": 8, "hex": "59682f00"}, f"the rate is {parts}")
    shown = browser.get("/class/1")
    check('value="1,500,000,000"' in shown and "1.5 Gbit/s" in shown, "and is shown by both")


def refused(browser):
    """What the office refuses is told by its word and in words."""
    fields = browser.fields(browser.get("/class/1"))
    for path, given, action, word, part in (
            ("/hub/0", {**SITE, "lease": "59"}, "save", "site", "`lease` isn't 60"),
            ("/hub/1", {**SITE, "lease": "x"}, "save", "", "lease: it must be a whole number"),
            ("/hub/0", {**SITE, "secret": "zz"}, "save", "value", "`secret`"),
            ("/hub/0", {}, "delete", "hub-in-use", "give the pool another hub first"),
            ("/hub/9", {}, "delete", "no-row", "no such row"),
            ("/pool/2", {**POOL, "first": "10.65.0.1", "last": "10.65.0.2", "relay": "10.65.0.1",
                         "hub": "9"}, "save", "no-hub", "put the hub first"),
            ("/pool/2", {**POOL, "hub": ""}, "save", "", "hub: it must be a whole number"),
            ("/pool/2", {**POOL, "first": "10.64.0.100"}, "save", "pool-size", "above"),
            ("/pool/2", {**POOL, "relay": "10.64.0.2"}, "save", "pool-overlap", "pool 1"),
            ("/pool/2", {**POOL, "first": "10.65.0.1", "last": "10.65.0.2"}, "save", "relay-taken",
             "pool 1 has"),
            ("/pool/2", {**FOR_DEVICES, "hub": "0"}, "save", "device-overlap",
             "pool 1 for devices"),
            ("/device-pool/2", {**FOR_DEVICES, "relay": "10.128.0.2"}, "save", "device-overlap",
             "pool 1 for devices"),
            ("/device-pool/2", POOL, "save", "pool-overlap", "pool 1"),
            ("/device-pool/9", {}, "delete", "no-row", "no such row"),
            ("/subscriber/7", {"cpes": "0", "name": ""}, "save", "value", "`cpes`"),
            ("/subscriber/9", {}, "delete", "no-row", "no such row"),
            ("/subscriber/x", ANN, "save", "no-path", "no such path"),
            ("/subscriber/7", {}, "delete", "has-modems", "remove the modem first"),
            ("/class/1", {}, "delete", "class-in-use", "another class first"),
            ("/modem/02aabbccddef", {**MODEM, "class": "9"}, "save", "no-class", "first"),
            ("/modem/02aabbccddef", {**MODEM, "subscriber": "9"}, "save", "no-subscriber", "first"),
            ("/class/1", {**fields, "remove:s.0": "on"}, "save", "tree", "a class needs 24")):
        told, text = browser.post(path, given, action)
        if path.startswith("/hub") and action == "save":
            check(f'value="{given["lease"]}"' in text, "what was typed stands there again")
        check(part in told and (not word or f" {word}: " in told), f"{path} {given}: {told}")


def others(browser):
    """Another page, host or token changes nothing."""
    body = urllib.parse.urlencode({**SITE, "token": "0" * 32, "action": "save"})
    check(browser.ask("POST", "/hub/0", body)[0] == 403, "another token")
    for host in ("office.example", "127.0.0.1", f"127.0.0.2:{browser.port}"):
        check(browser.ask("GET", "/", Host=host)[0] == 403, f"the host {host}")
    check(browser.ask("GET", "/none")[0] == 404, "no such page")
    found = browser.ask("GET", "/find?hub=3")
    check(found[::2] == (303, "/hub/3"), f"a new hub is at {found[2]}")
    found = browser.ask("GET", "/find?device-pool=3")
    check(found[::2] == (303, "/device-pool/3"), f"a new pool for devices is at {found[2]}")
    for what, where in (("7", "/subscriber/7"), ("02:AA:bb:cc:dd:ee", "/modem/02aabbccddee"),
                        ("10.64.0.10", "/lease/10.64.0.10"), ("ann", "/subscriber/7"),
                        ("sn01", "/modem/02aabbccddee"), ("Gold", "/class/1"),
                        ("02-00-00-00-00-a2", "/lease/10.128.0.11")):
        found = browser.ask("GET", "/find?" + urllib.parse.urlencode({"what": what}))
        check(found[::2] == (303, where), f"{what} is at {found[2]}")
    for what, part in (("?", "No subscriber has"), ("", "Write what to look for"),
                       ("nobody", "“nobody”"), ("02aabbccdd00", "Put a modem 02aabbccdd00"),
                       ("99", "Put a subscriber 99")):
        found = browser.ask("GET", "/find?" + urllib.parse.urlencode({"what": what}))
        check(found[0] == 200 and "<h1>Nothing found</h1>" in found[1] and part in found[1],
              f"nothing is found of {what!r}: {found[1][-400:]}")
    several = browser.ask("GET", "/find?what=0200000000a1")[1]
    check("/lease/10.128.0.10" in several and "/lease/10.128.0.14" in several, "two of them")


def lists(browser):
    """What the copy and the lines say."""
    for path, parts in (
            ("/pools", ["10.64.0.10 to 10.64.0.14", "/device-pool/1", "10.128.0.10 to 10.128.0.15",
                        "As of the copy of "]),
            ("/hubs", ["/hub/0", "10.0.0.2", "As of the copy of "]), ("/hub/1", ["Hub 1"]),
            ("/subscribers", ["/subscriber/8"]), ("/classes", ["/class/1", "gold"]),
            ("/", ["<h2>Hubs</h2>", "/hub/0", "86,400"]),
            ("/subscriber/7", ["02aabbccddf0", "10.64.0.10"]),
            ("/modem/02aabbccddee", ["Its lease: 10.64.0.10, ", "0200000000a1", "10.128.0.10"]),
            ("/lease/10.64.0.10", ["It has no lease.", 'in <a href="/pool/1">']),
            ("/lease/10.9.9.9", ["No pool of the copy has 10.9.9.9."]),
            ("/subscriber/7", ['class="gone"', "/new-modem/7", "upstream service flow"]),
            ("/subscriber/9999", ["There is no such subscriber yet"]),
            ("/lease/10.128.0.14", ["0200000000a1", "/modem/02aabbccdd77"]),
            ("/", ["http 200", "in the last hour", "</span> 0%"]),
            ("/lines", ["a clerk&#x27;s command was done, and answered"])):
        text = browser.get(path)
        check(all(part in text for part in parts), f"{path} has {parts}")


def imports(browser, port):
    """A file of many rows, handed in as the page's script does."""
    heads = {"X-Token": browser.token}
    check(browser.ask("POST", "/import", b"x,y\n", **heads)[0] == 422, "a table of another kind")
    check(browser.ask("POST", "/import", people())[0] == 403, "without the token")
    check(browser.ask("POST", "/import", people(4100), **heads)[0] == 200, "an import")
    end, state = time.monotonic() + 60, {}
    while not state.get("ended") and time.monotonic() < end:
        state = json.loads(browser.get("/import/state"))
        time.sleep(0.1)
    check((state["rows"], state["put"], state["lost"]) == (4500, 4000, 500), f"{state}")
    check("line 8,200, column cpes: `0`" in state["faults"][0], f"{state['faults']}")
    check(row(port, "/subscribers/4000") is not None, "a row of it")


def settings():
    """The desk's table of settings is the definitions', both ways."""
    desk, text = loaded("office-desk"), text_of("crates", "off_tree", "specs", "Table.antt")

    def known(name, second=None):
        part = text[text.index(f"\n{name} =\n"):]
        part = part[:part.index("\n\n")]
        found = re.findall(r"(?:listed|rule) (\d+) (\(.*?\)|\w+) (\w+) ?(\w*)", part)
        return {int(code): form for code, form, up, down in found
                if second is None or (down if second else up) != "never"}

    def told(table):
        return {code: "a_group" if len(form) == 2 else form for code, form in table.items()}

    for name, table, second in (("top_settings", desk.SETTINGS, None),
                                ("flow_parts", desk.UPSTREAM, False),
                                ("flow_parts", desk.DOWNSTREAM, True),
                                ("classifier_parts", desk.CLASSIFIER, None),
                                ("ip_parts", desk.IPV4, None),
                                ("extension_parts", desk.EXTENSION, None)):
        wanted, found = known(name, second), told(table)
        check(set(wanted) == set(found), f"{name}: {set(wanted) ^ set(found)}")
        for code, form in wanted.items():
            numbers = list(map(int, re.findall(r"\d+", form)))
            mine = found.get(code)
            if form == "a_group" or form == "name_form":
                check(mine == form or mine[1] == "text", f"{name} {code}: {form}")
            elif name != "classifier_parts" or code != 1:
                check(mine[2] == numbers[0], f"{name} {code} has {mine[2]} bytes: {form}")
                check(len(numbers) == 1 or list(mine[3:5]) == numbers[1:], f"{name} {code}: {form}")


def copies_and_counts():
    """A copy that the desk makes itself, and lines with the moments that journalctl writes."""
    desk = loaded("office-desk")
    with tempfile.TemporaryDirectory() as folder:
        store = os.path.join(folder, "office.db")
        made(store).close()
        copy = desk.Copy(argparse.Namespace(store=store, copy=None), folder)
        check([line[0] for line in copy.rows("pools")] == [1], "a list of its own copy")
        check(copy.moment().startswith("As of the copy of "), copy.moment())
        copy.store, copy.path = os.path.join(folder, "none"), os.path.join(folder, "other")
        check(copy.rows("pools") == [] and "office-copy: " in copy.moment(), copy.moment())
    lines = desk.Lines(argparse.Namespace(unit=None, lines=None, page=None))
    for minutes, words in ((0, "dhcp ack"), (0, "tftp block 7"), (2, "tftp block 8"),
                           (2, "tftp block 9"), (70, "dhcp ack"), (200, "dhcp offer")):
        moment = time.strftime("%Y-%m-%dT%H:%M:%S", time.gmtime(time.time() - 60 * minutes))
        lines.take(f"{moment}.250000+0000 host officed[7]: 17 {words}")
    series = dict(lines.series())
    check({word: sum(counts) for word, counts in series.items()}
          == {"tftp block N": 3, "dhcp ack": 1}, f"the last hour: {series}")
    check(series["tftp block N"][-3:] in ([2, 0, 1], [0, 1, 0]), "each in its minute")
    lines.counts, lines.last = {}, []
    lines.take("16 http wait")
    lines.take("17 dhcp offer", lambda: None)
    lines.take("18 dhcp ack")
    check([word for word, _ in lines.series()] == ["dhcp ack"],
          "a line that was there when the desk began isn't of the last hour")
    check([text for _, text, _, _ in lines.last] == ["17 dhcp offer", "18 dhcp ack"], "and is shown")


class Told:
    """An office that answers what it's told to, and keeps what it was asked."""

    def __init__(self, rows):
        self.rows, self.asked, self.clerk = rows, [], loaded("office-clerk")

    def ask(self, method, path, row=None):
        self.asked.append((method, path, row))
        return self.rows.get(path) if method == "GET" else {"ok": True}


def devices():
    """Pools for devices beside pools, a modem's devices of a copy, and what their form asks."""
    module = loaded("office-desk")
    with tempfile.TemporaryDirectory() as folder:
        copy = os.path.join(folder, "office.db")
        made(copy, [*ROWS, DEVICE_POOL, *DEVICES]).close()
        desk = module.Desk(argparse.Namespace(office="", ca=None, store=None, copy=copy, unit=None,
                                              lines=None, page=None), folder)
        modem = {"subscriber": 7, "class": 1, "serial": "SN01"}
        shown = {**FOR_DEVICES, "prefix": 24}
        desk.office = Told({"modems/02aabbccddee": modem, "modems/02aabbccddef": modem,
                            "device-pools/1": shown})
        for path, parts in (
                ("/pools", ["/pool/1", "/device-pool/1", "10.128.0.10 to 10.128.0.15"]),
                ("/", ["<h2>Pools for devices</h2>", "/device-pool/1"]),
                ("/modem/02aabbccddee", ["0200000000a1", "10.128.0.10", "0200000000a3"]),
                ("/modem/02aabbccddef", ["No device has a lease behind it."]),
                ("/lease/10.128.0.14", ["0200000000a1", "/modem/02aabbccdd77"]),
                ("/lease/10.128.0.13", ["nobody"]), ("/lease/10.128.0.15", ["It has no lease."]),
                ("/device-pool/1", ['name="first" value="10.128.0.10"', "hub of its modem"])):
            title, text = desk.shown_at(path, {})
            check(all(part in text for part in parts), f"{path}: {title} has {parts}")
        check("0200000000a1" not in desk.shown_at("/modem/02aabbccddef", {})[1], "another's device")
        desk.office.rows["subscribers/7"], desk.office.asked = ANN_SHOWN, []
        desk.shown_at("/subscriber/7", {})
        check(desk.office.asked == [("GET", "subscribers/7", None)],
              f"a subscriber's page asks for that row alone: {desk.office.asked}")
        told = desk.change("/device-pool/1", {**FOR_DEVICES, "action": "save"})[1]
        check(desk.office.asked[-2] == ("PUT", "device-pools/1", shown), f"{desk.office.asked[-2]}")
        check("Done." in told, "it's put")
        desk.change("/device-pool/1", {"action": "delete"})
        check(desk.office.asked[-2] == ("DELETE", "device-pools/1", None), "and removed")
        check(desk.find({"device-pool": " 3"}) == "/device-pool/3", "a new one")


def has(text, parts, what):
    for part in parts:
        check(part in text, f"{what} has {part!r}: {text[-1500:]}")


def removals(browser, port):
    """A removal asks first and names what goes with the row; what isn't there has no button."""
    for path, parts in (
            ("/subscriber/7", ["Remove subscriber 7?", "Its add-ons 0, 3 go with it.",
                               "It has the modem 02aabbccddee: remove that first.", "Keep it"]),
            ("/pool/1", ["Remove pool 1?", "Its leases that have ended go with it."]),
            ("/hub/0", ["Pool 1 has it: give that another hub first."]),
            ("/class/1", ["Remove class 1?", "modems have it: give them another class first."]),
            ("/modem/02aabbccddee", ["Its lease stays until it ends."]),
            ("/device-pool/1", ["Remove pool 1 for devices?"])):
        has(browser.post(path, {}, "ask")[1], parts, f"the question of {path}")
    check(row(port, "/subscribers/7") is not None, "asking removes nothing")
    for path in ("/subscriber/99", "/pool/9", "/hub/9", "/class/9", "/device-pool/9",
                 "/modem/020000000099", "/addon/7/5"):
        text = browser.get(path)
        check('class="gone"' not in text and "There is no such" in text, f"{path} has no Remove")


def new_modems(browser, port):
    """A modem is made from its subscriber's page, by the name of its class."""
    given = {"mac": "02:00:00:00:00:31", "class": "GOLD", "serial": "SN31"}
    check(browser.post("/new-modem/7", given)[0] == "Done.", "a modem of a subscriber's page")
    check(row(port, "/modems/020000000031") == {"subscriber": 7, "class": 1, "serial": "SN31"},
          "which the office has")
    check('value="gold"' in browser.get("/modem/020000000031"), "its class by its name")
    for changed, part in (({}, "is there already, of subscriber 7"), ({"mac": "x"}, "x is no "),
                          ({"mac": "020000000032", "class": "lead"}, "no class has the name")):
        told = browser.post("/new-modem/7", {**given, **changed})[0]
        check(part in told, f"{changed}: {told}")
    check(row(port, "/modems/020000000032") is None, "and nothing is put")


def warnings(browser):
    """A pool that can't serve all its addresses is put, and its page says why."""
    wrong = {**POOL, "first": "10.66.0.0", "last": "10.66.0.9", "relay": "10.66.0.1",
             "router": "10.67.0.1"}
    told, text = browser.post("/pool/66", wrong)
    check(told == "Done.", f"the pool is put: {told}")
    has(text, ["10.66.0.0 is the network&#x27;s own address",
               "10.66.0.1 is the relay", "router 10.67.0.1 isn&#x27;t in the pool"], "its page")
    check(browser.post("/pool/66", {}, "delete")[0] == "Done.", "and is removed")
    check('class="warn"' not in browser.get("/pool/1"), "a good pool has no warning")


def pages():
    """A list of many rows has pages, and numbers have separators."""
    module = loaded("office-desk")
    many = [ROWS[0], *((b"\x02" + number.to_bytes(4, "big"),
                        b"\x01\x02" + bytes([len(b"Ann %d" % number)]) + b"Ann %d" % number)
                       for number in range(1, 1051))]
    with tempfile.TemporaryDirectory() as folder:
        copy = os.path.join(folder, "office.db")
        made(copy, many).close()
        desk = module.Desk(argparse.Namespace(office="", ca=None, store=None, copy=copy, unit=None,
                                              lines=None, page=None), folder)
        desk.office = Told({})
        for query, first, last, part in (({}, 1, 100, "page 1 of 11"),
                                         ({"page": "3"}, 201, 300, "page 3 of 11"),
                                         ({"page": "99"}, 1001, 1050, "1,001 to 1,050 of 1,050")):
            text = desk.shown_at("/subscribers", query)[1]
            shown = [int(each) for each in re.findall(r'"/subscriber/(\d+)">\d', text)]
            check(shown == list(range(first, last + 1)), f"{query}: {shown[:2]} {shown[-2:]}")
            has(text, [part], f"{query}")
        found = desk.find({"what": "ann 10", "page": "1"})
        # Ann 10, 100 to 109 and 1000 to 1050.
        check(found[1].count("subscriber/") == 1 + 10 + 51, f"results: {found[1][:300]}")


def off():
    """An office that doesn't answer is named so, and lists are shown all the same."""
    module, port = loaded("office-desk"), free_ports()[3]
    with tempfile.TemporaryDirectory() as folder:
        copy = os.path.join(folder, "office.db")
        made(copy, [*ROWS, DEVICE_POOL, *DEVICES]).close()
        desk = module.Desk(argparse.Namespace(office=f"http://127.0.0.1:{port}", ca=None,
                                              store=None, copy=copy, unit=None, lines=None,
                                              page=None), folder)
        for path in ("/", "/subscriber/7", "/import"):
            title, text = desk.shown_at(path, {})
            has(text, ["The office is off", "Connection refused", "systemctl start officed"], path)
            check("Errno" not in text, f"{path} in words")
        has(desk.shown_at("/", {})[1], ["/pool/1"], "the overview")
        told = desk.change("/subscriber/7", {**ANN, "action": "save"})[1]
        has(told, ["The office is off"], "what isn't done")


# Chromium reads descriptor 3 and writes 4; others first, lest one takes another's place.
PIPES = """
import os, sys
low, high = os.dup2(int(sys.argv[1]), 20), os.dup2(int(sys.argv[2]), 21)
os.dup2(low, 3)
os.dup2(high, 4)
os.execv(sys.argv[3], sys.argv[3:])
"""


class Chromium:
    """A browser without a window, over its debugging pipe."""

    def __init__(self, folder):
        (low, self.out), (self.into, high) = os.pipe(), os.pipe()
        words = [sys.executable, "-c", PIPES, str(low), str(high), CHROMIUM, "--headless=new",
                 "--no-sandbox", "--disable-gpu", "--no-first-run",
                 "--disable-dev-shm-usage", "--remote-debugging-pipe", "--window-size=1100,1400",
                 f"--user-data-dir={folder}", "about:blank"]
        self.program = subprocess.Popen(words, pass_fds=(low, high), stdin=subprocess.DEVNULL,
                                        stdout=subprocess.DEVNULL, stderr=subprocess.DEVNULL)
        os.close(low)
        os.close(high)
        self.rest, self.count, self.session = b"", 0, None
        target = self.call("Target.createTarget", url="about:blank")["targetId"]
        self.session = self.call("Target.attachToTarget", targetId=target,
                                 flatten=True)["sessionId"]

    def call(self, method, **given):
        self.count += 1
        message = {"id": self.count, "method": method, "params": given}
        if self.session:
            message["sessionId"] = self.session
        os.write(self.out, json.dumps(message).encode() + b"\0")
        end = time.monotonic() + 60
        while time.monotonic() < end:
            while b"\0" in self.rest:
                each, _, self.rest = self.rest.partition(b"\0")
                found = json.loads(each)
                if found.get("id") == self.count:
                    return found.get("result", found)
            if select.select([self.into], [], [], 1)[0]:
                self.rest += os.read(self.into, 1 << 20)
        raise TimeoutError(method)

    def run(self, text):
        """The value of some JavaScript on the page."""
        found = self.call("Runtime.evaluate", expression=text, returnByValue=True,
                          awaitPromise=True)
        return found.get("result", {}).get("value")

    def until(self, text):
        end = time.monotonic() + 30
        while not self.run(text):
            if time.monotonic() > end:
                check(False, f"in the browser: {text}")
                return
            time.sleep(0.1)

    def go(self, url):
        self.call("Page.navigate", url=url)
        self.until(f"location.href === {json.dumps(url)} && document.readyState === 'complete'")

    def looks(self, scheme, width):
        self.call("Emulation.setEmulatedMedia", features=[
            {"name": "prefers-color-scheme", "value": scheme}])
        self.call("Emulation.setDeviceMetricsOverride", width=width, height=900,
                  deviceScaleFactor=1, mobile=False)

    def picture(self, name):
        folder = os.environ.get("OFFICE_SHOTS")
        if folder:
            data = self.call("Page.captureScreenshot", captureBeyondViewport=False)["data"]
            with open(os.path.join(folder, f"{name}.png"), "wb") as held:
                held.write(base64.b64decode(data))

    def choose_file(self, path):
        root = self.call("DOM.getDocument")["root"]["nodeId"]
        node = self.call("DOM.querySelector", nodeId=root, selector="#file")["nodeId"]
        self.call("DOM.setFileInputFiles", files=[path], nodeId=node)

    def end(self):
        self.program.terminate()
        try:
            self.program.wait(timeout=10)
        except subprocess.TimeoutExpired:
            self.program.kill()
            self.program.wait()


SAID = "document.querySelector('[role=status]')?.textContent ?? ''"


def filled(page, port, folder):
    """A person's way: look around, edit a subscriber and a class, be refused, hand in a file."""
    home = f"http://127.0.0.1:{page}"
    table = os.path.join(folder, "people.csv")
    with open(table, "wb") as held:
        held.write(people())
    browser = Chromium(os.path.join(folder, "chromium"))
    try:
        for scheme, width in (("dark", 600), ("dark", 1200), ("light", 600), ("light", 1200)):
            browser.looks(scheme, width)
            for name in ("", "pools", "classes", "subscribers", "lines", "hubs", "hub/0", "pool/1",
                         "subscriber/7", "class/1", "modem/02aabbccddee", "import",
                         "find?what=0200000000a1"):
                browser.go(f"{home}/{name}")
                wide = browser.run("document.documentElement.scrollWidth")
                check(wide <= width, f"/{name} is {wide} pixels wide at {width}")
                shade = browser.run("getComputedStyle(document.body).backgroundColor")
                check((int(re.search(r"\d+", shade)[0]) < 128) == (scheme == "dark"),
                      f"/{name} is {scheme}: {shade}")
                browser.picture(f"{re.sub('[/?=]', '-', name) or 'overview'}-{scheme}-{width}")
        browser.go(f"{home}/class/1")
        browser.run("document.querySelector('[aria-label=\"parameter sets\"]').value = '7'")
        browser.run("document.querySelector('button[value=save]').click()")
        browser.until(f"({SAID}) === 'Done.'")
        parts = row(port, "/classes/1")["settings"][0]["parts"]
        check({"code": 6, "hex": "07"} in parts, f"a class by the browser: {parts}")
        browser.go(f"{home}/subscriber/7")
        browser.run("document.querySelector('[name=cpes]').value = '300'")
        browser.run("document.querySelector('button[value=save]').click()")
        browser.until(f"({SAID}).includes('`cpes`')")
        browser.picture("refused")
        browser.go(f"{home}/import")
        browser.choose_file(table)
        browser.run("document.querySelector('#go').click()")
        browser.until("document.querySelector('#said').textContent.endsWith('Done.')")
        browser.picture("import")
        check(row(port, "/subscribers/4500") is not None, "an import by the browser")
    finally:
        browser.end()


def tried(desk, port, folder):
    """The desk at one port, over the office at another."""
    wait_until_answering(port)
    is_heard(desk, seconds=20)
    browser = Browser(desk)
    rows(browser, port)
    refused(browser)
    removals(browser, port)
    new_modems(browser, port)
    warnings(browser)
    others(browser)
    imports(browser, port)
    time.sleep(1)
    lists(browser)
    if CHROMIUM:
        filled(desk, port, folder)
    else:
        print("a browser: skipped, since there is no chromium here")


def main():
    settings()
    copies_and_counts()
    devices()
    pages()
    off()
    if not is_built():
        return 1
    ports, desk = free_ports(), free_ports()[3]
    with tempfile.TemporaryDirectory() as folder:
        copy, log = os.path.join(folder, "office.db"), os.path.join(folder, "log")
        made(copy, [*ROWS, DEVICE_POOL, *DEVICES, *ADD_ONS]).close()
        words = [DESK, "--office", f"http://127.0.0.1:{ports[3]}", "--copy", copy, "--lines", log,
                 "--port", str(desk)]
        with open(log, "wb") as lines, serving(ports, lines):
            page = subprocess.Popen(words, stdout=subprocess.DEVNULL)
            try:
                tried(desk, ports[3], folder)
            finally:
                stop(page)
    return None


if __name__ == "__main__":
    sys.exit(script(main, needs_program=False))
