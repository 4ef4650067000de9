#!/usr/bin/env python3
"""officed under ten thousand inputs that are near to good ones, on all its ports, in a network of its own; `mutations.py 1000000` tries as many as that.

Datagrams of modems and of a device for DHCP, for the time and for TFTP, and requests of clerks, are changed by chance, from a seed that is printed (OFFICE_SEED names another). Each has the line
that a model of words allows (harness/mutating.py), and no line says `memory` or `keeper`. A clerk is answered as the line says; what a changed request put is
removed. The program goes on, and of a million inputs its resident memory grows by less than 1 MB after the first 100,000. Last a modem boots and reads its file
as if nothing had been. The site's secret is in no line, answer, or word on standard error, as text or in hexadecimal; `seal`, `check` and `import` over
changed files say it as little. Where `unshare -rn` isn't allowed it says so and skips. It ends what it started, and takes half a minute.
"""
import os
import random
import socket
import subprocess
import sys
import tempfile
import time

import files_over_sockets as files
from harness import PROGRAM, SECONDS_BEFORE_1970, check, failures, only_alone, script, serve, stop, written
from harness import modems as office
from harness.clerks import answer_in, connect, read_to_end, request, spelled
from harness.machine import resident
from harness.mutating import fits_request, mutated, mutated_request, words_of_message, words_of_packet
from harness.network import port_of, sends_as_client, speaks_for_itself, took
from harness.told import SECRET

sys.dont_write_bytecode = True
import devices  # noqa: E402
import leases  # noqa: E402
import tftp  # noqa: E402
from examples import ip, sealed  # noqa: E402
from messages import RELAYED_DISCOVER, option  # noqa: E402

COUNT = int(os.environ.get("OFFICE_MUTATIONS", "10000"))
SEED = int(os.environ.get("OFFICE_SEED", "45"))
AT_ONCE = 50
MOST_GROWTH = 1 << 20
# Of the first modem messages are changed; the second one reads files from its address, and a device behind it has an address too.
MODEM, READER, AT = 3, 5, ip(office.FIRST + 9)
# The addresses that messages without a relay are of.
OWN = (ip(office.FIRST), "10.64.32.9")
DEVICE, DEVICES = "10.64.32.9", {"first": "10.64.32.0", "last": "10.64.32.99", "prefix": 24, "router": office.RELAY, "relay": office.RELAY}


def hidden():
    """The secret as it might be told."""
    text = SECRET.hex()
    return [SECRET, text.encode(), text.upper().encode(), SECRET[::-1], SECRET[:12], text[:24].encode()]


class Heard:
    """All that the office says, of which the end is kept: whether the secret was in it."""

    def __init__(self):
        self.rest, self.told, self.count = b"", False, 0

    def hear(self, data):
        self.count += len(data)
        joined = self.rest + data
        self.told = self.told or any(each in joined for each in hidden())
        self.rest = joined[-64:]


class Lines:
    """The lines of the log that were written since the last look."""

    def __init__(self, log):
        self.log, self.at, self.rest = log, 0, b""

    def new(self):
        data = os.pread(self.log.fileno(), 1 << 24, self.at)
        self.at += len(data)
        *lines, self.rest = (self.rest + data).split(b"\n")
        return [line.decode().split(" ", 2)[1:] for line in lines]


def message_seeds():
    own = office.modem(MODEM)
    held = ip(office.FIRST)
    return [RELAYED_DISCOVER, leases.discover(**own), leases.selects(held, server=office.SERVER, **own), leases.reboots(held, **own), leases.renews(held, **own),
            leases.declines(held, **own), leases.releases(held, **own), leases.discover(**own, way=option(2, leases.mac(MODEM)) + option(1, bytes(251)) + option(9, bytes(41))),
            leases.discover(**own, more=option(55, bytes(range(1, 60)))), leases.says(leases.INFORM, **own), *device_seeds()]


def device_seeds():
    """Messages of a device behind the reader."""
    relayed = {"relay": office.RELAY, "behind": leases.mac(READER), "more": option(60, b"udhcp 1.36.1")}
    return [devices.discover(**relayed), devices.discover(asked=DEVICE, **relayed), devices.selects(DEVICE, server=office.SERVER, **relayed), devices.reboots(DEVICE, **relayed),
            devices.renews(DEVICE), devices.renews(DEVICE, **relayed), devices.declines(DEVICE, **relayed), devices.gives_back(DEVICE), devices.gives_back(DEVICE, **relayed)]


def packet_seeds(name):
    return [tftp.request(name), tftp.request(name, (b"blksize", b"1428")), tftp.request(name, (b"blksize", b"8"), (b"tsize", b"0"), (b"timeout", b"3")),
            tftp.request(b"x"), tftp.request(name, mode=b"netascii"), tftp.request(name, code=tftp.WRITE), tftp.acknowledgement(0), tftp.acknowledgement(1),
            tftp.acknowledgement(65535), tftp.data(1, bytes(512)), tftp.error(0, "enough"), tftp.options(1428, 88, 2)]


def request_seeds():
    modem = f"/modems/{leases.mac(MODEM).hex()}"
    settings = {"settings": tftp.tree_json(tftp.tree_in(files.BOOST))}
    bodies = [("PUT", "/subscribers/7", {"active": True, "cpes": 2, "name": "Ann"}), ("PUT", modem, {"subscriber": 7, "class": 1, "serial": office.serial(MODEM)}),
              ("PUT", "/classes/1", {"name": "gold", "settings": office.GOLD}), ("PUT", "/subscribers/7/addons/3", settings), ("PUT", "/pools/1", office.POOL),
              ("PUT", "/site", {**office.SITE, "secret": SECRET.hex()}), ("PUT", "/hubs/1", {**office.SITE, "secret": SECRET.hex()}),
              ("PUT", "/pools/1", {**office.POOL, "hub": 1}), ("PUT", "/device-pools/1", DEVICES)]
    rows = "subscriber,active,cpes,name\n7,yes,2,Ann\n7,no,254,\"A, \"\"B\"\"\"\n"
    seeds = [request(method, path, spelled(body)) for method, path, body in bodies]
    seeds += [request("PUT", "/imports/subscribers/9", rows.encode())]
    return seeds + [request("GET", path) for path in ("/site", "/hubs/0", "/hubs/1", "/subscribers/7", modem, "/classes/1", "/pools/1", "/device-pools/1", f"/leases/{ip(office.FIRST)}", "/nowhere")]


class Fuzzing:
    def __init__(self, chance, log, heard):
        self.chance, self.lines, self.heard, self.tried = chance, Lines(log), heard, {}
        self.relay, self.asker = port_of(office.RELAY, 67), port_of(AT, files.CLIENT)
        self.clients = port_of("0.0.0.0", 68)
        self.messages = message_seeds()
        self.packets = packet_seeds(leases.name_of(SECRET, leases.mac(READER), leases.address(AT)))
        self.requests = request_seeds()

    def begin(self):
        """The reader has its address, and is heard from now on."""
        furnish()
        self.ends_of(len(rows()))
        own = office.modem(READER)
        _, asks, selects, *_ = device_seeds()
        for message in (leases.discover(**own, asked=AT), leases.selects(AT, server=office.SERVER, **own), asks, selects):
            self.relay.sendto(message, (office.SERVER, office.PORTS[0]))
            check(took(self.relay) is not None, "the reader and its device boot")
        check(self.told("dhcp", 4) == ["offer", "ack", "cpe-offer", "cpe-ack"], "the reader and its device have their addresses")
        for each in (self.relay, self.asker, self.clients):
            each.setblocking(False)

    def end(self):
        for each in (self.relay, self.asker, self.clients):
            each.close()

    def drain(self):
        for each in (self.relay, self.asker, self.clients):
            while True:
                try:
                    self.heard.hear(each.recv(4096))
                except OSError:
                    break

    def told(self, service, count):
        """The next lines of a service, when so many are there; Ticks and lines of other services are judged at once."""
        found, end = [], time.time() + 20
        while len(found) < count and time.time() < end:
            self.drain()
            for name, words in self.lines.new():
                self.heard.hear(f"{name} {words}\n".encode())
                if name == service:
                    found.append(words)
                elif name == "tick":
                    check(words.startswith("again ") or words == "link", f"a Tick says {words}")
                else:
                    check(False, f"{name} says {words} in between")
            if len(found) < count:
                time.sleep(0.002)
        return found

    def datagrams(self, service, port, each, count, allowed, sender, front=0):
        """Sends so many at once, and judges the line of each."""
        sent = [mutated(self.chance, each, front=front) for _ in range(count)]
        sent = [data for data in sent if service == "dhcp" or not is_time_answer(data)]
        # A message without a relay is dropped, and has no line, where it doesn't come from its client's address.
        sent = [data for data in sent if service != "dhcp" or speaks_for_itself(data) in (None, *OWN)]
        for data in sent:
            sends_as_client(sender, data, (office.SERVER, port)) if service == "dhcp" else sender.sendto(data, (office.SERVER, port))
        told = self.told(service, len(sent))
        check(len(told) == len(sent), f"{service}: {len(told)} lines of {len(sent)} datagrams")
        for data, words in zip(sent, told):
            word = "block" if words.startswith("block ") else words
            self.tried[f"{service} {word}"] = self.tried.get(f"{service} {word}", 0) + 1
            if word not in allowed(data):
                check(False, f"{service}: {words}, and not one of {sorted(allowed(data))}, of {data.hex()}")
                return

    def clerk(self):
        """Sends a request, in one piece or two, and judges the last line of its connection and what was answered."""
        data = mutated_request(self.chance, self.requests, 1 << 16)
        with connect(office.PORTS[3]) as peer:
            at = self.chance.choice((0, self.chance.randrange(len(data) + 1)))
            try:
                peer.sendall(data[:at])
                peer.sendall(data[at:])
                peer.shutdown(socket.SHUT_WR)
            except OSError:
                pass
            answer = read_to_end(peer)
        self.heard.hear(answer or b"")
        if not data:
            return
        words = next(iter(self.ends_of(1)), "no line")
        self.tried[f"http {words}"] = self.tried.get(f"http {words}", 0) + 1
        check(fits_request(data, words), f"http: {words}, of {data[:300]!r}")
        if answer is not None and words[:3].isdigit():
            found = answer_in(answer)
            check(str(found.status) == words[:3] and found.row().get("fault", "") == words[4:], f"http: {words} is answered by {answer[:200]!r}")
        if words in ("200", "link") and data.startswith(b"PUT"):
            self.restore(data.split(b" ")[1].partition(b"?")[0].decode())

    def ends_of(self, count):
        """The last lines of so many connections."""
        found = []
        while len(found) < count:
            told = self.told("http", 1)
            if not told:
                break
            found += [words for words in told if words != "wait"]
        return found

    def restore(self, path):
        """What was changed is put again, and what was put besides is removed, so that tables don't grow."""
        asked = [("PUT", known, body) for known, body in rows()]
        if path not in [known for known, _ in rows()] and not path.startswith("/imports"):
            asked.insert(0, ("DELETE", path, None))
        for method, where, body in asked:
            found = office.clerk.ask(method, where, body)
            check(found.status in (200, 409) or method == "DELETE", f"{method} {where}: {found}")
        self.ends_of(len(asked))

    def some(self, count):
        """Inputs of each port in turn."""
        while count > 0:
            kind = self.chance.choices(("dhcp", "tftp", "time", "http"), (40, 35, 5, 20))[0]
            batch = min(count, AT_ONCE)
            if kind == "dhcp":
                self.datagrams("dhcp", office.PORTS[0], self.messages, batch, allowed_of, self.relay, 240)
            elif kind == "tftp":
                self.datagrams("tftp", files.PORT, self.packets, batch, words_of_packet, self.asker, 2)
            elif kind == "time":
                self.datagrams("time", office.PORTS[1], [b"x", bytes(40)], batch, lambda _: {"sent"}, self.asker)
            else:
                for _ in range(batch):
                    self.clerk()
            count -= batch
            if failures:
                return


def allowed_of(data):
    return words_of_message(data, [leases.mac(number) for number in (MODEM, READER)])


def is_time_answer(data):
    """Four bytes that tell about this moment are taken for another office's answer, and dropped."""
    own = (int(time.time()) + SECONDS_BEFORE_1970) % 2**32
    return len(data) == 4 and min((int.from_bytes(data, "big") - own) % 2**32, (own - int.from_bytes(data, "big")) % 2**32) <= 86_400 + 60


def rows():
    """The rows that the seeds speak of."""
    return [("/site", {**office.SITE, "secret": SECRET.hex()}), ("/classes/1", {"name": "gold", "settings": office.GOLD}),
            ("/subscribers/7", {"active": True, "cpes": 2, "name": "Ann"}), ("/pools/1", office.POOL), ("/device-pools/1", DEVICES),
            *((f"/modems/{leases.mac(number).hex()}", {"subscriber": 7, "class": 1, "serial": office.serial(number)}) for number in (MODEM, READER))]


def furnish():
    office.clerk.furnishes(rows())


def streams(chance, heard):
    """`seal` and `check` over changed files under the secret: statuses 0, 8 and 9 alone, and the secret isn't told."""
    seeds = [sealed(bytes.fromhex("030101120101ff"), SECRET), bytes.fromhex("030101180d0102000106010708" "0400989680ff"), sealed(files_front(), SECRET)]
    for _ in range(15):
        for word, allowed in (("check", (0, 8)), ("seal", (0, 9))):
            done = subprocess.run([PROGRAM, word, SECRET.hex()], input=mutated(chance, seeds, 70_000), stdout=subprocess.PIPE, stderr=subprocess.PIPE, timeout=60)
            heard.hear(done.stdout + done.stderr)
            check(done.returncode in allowed, f"{word}: status {done.returncode}")


def files_front():
    return tftp.spelled_tree([(3, b"\1"), *tftp.tree_in(files.GOLD), (18, b"\2")]) + b"\xff"


def fuzzing():
    office.addresses_of_lo()
    chance, heard = random.Random(SEED), Heard()
    with tempfile.TemporaryFile() as log, tempfile.TemporaryFile() as errors:
        program = subprocess.Popen(serve(turns=10**9, ports=office.PORTS), stdout=log, stderr=errors, env={**os.environ, "OFFICED_UDP": office.SERVER})
        try:
            check(office.is_ready(), "the program answers within some seconds")
            fuzz = Fuzzing(chance, log, heard)
            fuzz.begin()
            began = time.perf_counter()
            fuzz.some(COUNT // 10)
            before = resident(program.pid)
            fuzz.some(COUNT - COUNT // 10)
            grown = resident(program.pid) - before
            check(program.poll() is None, f"the office goes on: {program.poll()}")
            # A shorter run has not met all sizes yet.
            check(COUNT < 10**6 or grown < MOST_GROWTH, f"resident memory grew by {grown} bytes")
            print(f"{COUNT} inputs of seed {SEED} in {time.perf_counter() - began:.0f} s, resident memory {before >> 10} KiB and {grown >> 10} KiB more after the first tenth")
            print("  " + ", ".join(f"{word} {count}" for word, count in sorted(fuzz.tried.items())))
            ends_well(fuzz)
        finally:
            stop(program)
        heard.hear(written(log))
        heard.hear(written(errors))
    streams(chance, heard)
    check(not heard.told, f"the secret is told nowhere in {heard.count} bytes")


def ends_well(fuzz):
    """After it all a modem boots and reads its file, whose both values are right."""
    furnish()
    for each in (fuzz.relay, fuzz.asker, fuzz.clients):
        each.close()
    own = office.modem(MODEM)
    talk = office.Conversation()
    sends_as_client(talk.relay, leases.releases(ip(office.FIRST), **own), (office.SERVER, office.PORTS[0]))
    talk.relay.sendto(leases.discover(**own), (office.SERVER, office.PORTS[0]))
    offer = took(talk.relay)
    check(offer is not None, "a modem is offered an address")
    held = ip(int.from_bytes(offer[0][16:20], "big")) if offer else ip(office.FIRST)
    talk.relay.sendto(leases.selects(held, server=office.SERVER, **own), (office.SERVER, office.PORTS[0]))
    check(took(talk.relay) is not None, "its address is acknowledged")
    with port_of(held, 6000) as client:
        name = leases.name_of(SECRET, leases.mac(MODEM), leases.address(held))
        client.sendto(tftp.request(name, (b"blksize", b"1428")), (office.SERVER, files.PORT))
        check((took(client) or (b"",))[0] == tftp.options(1428), "its read request is accepted")
        client.sendto(tftp.acknowledgement(0), (office.SERVER, files.PORT))
        packet = (took(client) or (b"",))[0]
        client.sendto(tftp.acknowledgement(1), (office.SERVER, files.PORT))
    check(packet[:4] == tftp.data(1, b"") and packet[4:] == sealed(packet[4:], SECRET), "its file is signed under the secret")


def main():
    if sys.argv[1:]:
        os.environ["OFFICE_MUTATIONS"] = sys.argv[1]
    return only_alone(fuzzing, 300 + int(os.environ.get("OFFICE_MUTATIONS", COUNT)) // 100, "no input stops the office")


if __name__ == "__main__":
    sys.exit(script(main, fuzzing))
