#!/usr/bin/env python3
"""packaging/nginx.conf, a proxy with TLS and passwords, in front of an office.

nginx runs the file as it stands, but for its paths and ports. Who gives no password, or a wrong
one, is refused; a clerk with one puts, shows and removes, also by bin/office-clerk, by a chunked
body and with a body of the greatest length. A request for another host, for none or for two, as a
page sends whose name was made to lead here, changes nothing. It ends what it started, and takes
some seconds.
"""
# needs: nginx openssl curl
import json
import os
import re
import socket
import ssl
import subprocess
import sys
import tempfile
import time

from harness import ROOT, check, free_ports, script, serving, stop
from harness.clerks import wait_until_answering
from clerk_examples import CLERK

ANN = {"active": True, "cpes": 2, "name": "Ann"}
# The recipe's files, and how often it names each.
NAMES = {"access_log": 2, "auth_basic_user_file": 1, "ssl_certificate": 2, "ssl_certificate_key": 2}
MAIN = """daemon off;
master_process off;
pid %(folder)s/pid;
error_log %(folder)s/errors;
events {}
http {
    client_body_temp_path %(folder)s/body;
    proxy_temp_path %(folder)s/proxied;
    include %(folder)s/officed.conf;
}
"""


def made(folder, port, office):
    """The recipe with a certificate and a password of its own."""
    with open(os.path.join(ROOT, "packaging", "nginx.conf"), encoding="utf-8") as held:
        recipe = held.read()
    recipe = recipe.replace("8443", str(port)).replace("127.0.0.1:8080", f"127.0.0.1:{office}")
    recipe = recipe.replace("office.example", "localhost")
    for name, expected in NAMES.items():
        recipe, count = re.subn(rf"(?m)^( *{name}) /[^ ;]*/", rf"\1 {folder}/", recipe)
        check(count == expected, f"the recipe has {name} {expected} times: {count}")
    run = {"stdout": subprocess.PIPE, "stderr": subprocess.DEVNULL, "check": True, "timeout": 60}
    subprocess.run(["openssl", "req", "-x509", "-newkey", "rsa:2048", "-nodes", "-days", "1",
                    "-subj", "/CN=localhost", "-addext", "subjectAltName=DNS:localhost",
                    "-keyout", f"{folder}/officed.key", "-out", f"{folder}/officed.crt"], **run)
    hashed = subprocess.run(["openssl", "passwd", "-apr1", "quiet"], **run).stdout.decode()
    for name, text in (("officed.conf", recipe), ("officed.passwords", f"ann:{hashed}"),
                       ("main.conf", MAIN % {"folder": folder})):
        with open(os.path.join(folder, name), "w", encoding="utf-8") as held:
            held.write(text)
    os.chmod(folder, 0o755)


class Clerk:
    """A clerk at the proxy."""

    def __init__(self, folder, port):
        self.folder, self.port = folder, port

    def curl(self, *words, login="ann:quiet", given=None):
        """The status and the answer of a request by curl."""
        asked = ["curl", "-sS", "--cacert", f"{self.folder}/officed.crt", "-w", "\n%{http_code}",
                 *(["-u", login] if login else []), *words[1:],
                 f"https://localhost:{self.port}{words[0]}"]
        done = subprocess.run(asked, input=given, stdout=subprocess.PIPE, timeout=60)
        text, _, status = done.stdout.decode().rpartition("\n")
        return status, text

    def office_clerk(self, *words):
        known = {**os.environ, "OFFICE_LOGIN": "ann:quiet",
                 "OFFICE_URL": f"https://localhost:{self.port}"}
        done = subprocess.run([sys.executable, CLERK, "--ca", f"{self.folder}/officed.crt", *words],
                              env=known, stdout=subprocess.PIPE, stderr=subprocess.PIPE, timeout=30)
        return done.returncode, done.stdout.decode(), done.stderr.decode()


def asks(clerk):
    put = ("/subscribers/7", "-X", "PUT", "--data-binary", "@-")
    row = json.dumps(ANN).encode()
    for login in (None, "ann:loud", "bob:quiet"):
        check(clerk.curl(*put, login=login, given=row)[0] == "401", f"{login} is refused")
    check(clerk.curl("/subscribers/7")[0] == "404", "and nothing was put")
    check(clerk.curl(*put, given=row) == ("200", '{"ok":true}'), "a clerk puts a row")
    check(json.loads(clerk.curl("/subscribers/7")[1]) == ANN, "and is shown it")
    chunked = (*put, "-H", "Transfer-Encoding: chunked")
    check(clerk.curl(*chunked, given=row)[0] == "200", "a chunked body is taken")
    longest = row.ljust(1_048_576)
    check(clerk.curl(*put, given=longest)[0] == "200", "a body of the greatest length")
    check(clerk.curl(*put, given=longest + b" ")[0] == "413", "and one byte more")
    refused = ("400", '{"at":"active","fault":"field"}')
    check(clerk.curl(*put, given=b"{}") == refused, "the office's faults come through")
    found = clerk.office_clerk("get", "subscribers/7")
    check(found[0] == 0 and json.loads(found[1]) == ANN, f"office-clerk: {found}")
    check(clerk.office_clerk("delete", "subscribers/7")[0] == 0, "office-clerk removes it")
    status, _, said = clerk.office_clerk("get", "subscribers/7")
    check(status == 1 and "no-row" in said, "and is told so")


def status_of(clerk, version, *hosts):
    """The status of a PUT with a clerk's password, by these fields Host."""
    body = json.dumps({**ANN, "name": "Eve"})
    lines = [f"PUT /subscribers/7 {version}", *(f"Host: {each}" for each in hosts),
             "Authorization: Basic YW5uOnF1aWV0", f"Content-Length: {len(body)}",
             "Connection: close", "", body]
    known = ssl.create_default_context(cafile=f"{clerk.folder}/officed.crt")
    with socket.create_connection(("127.0.0.1", clerk.port), 30) as raw, \
            known.wrap_socket(raw, server_hostname="localhost") as talk:
        talk.sendall("\r\n".join(lines).encode())
        with talk.makefile("rb") as answer:
            return answer.readline().split()[1].decode()


def rebound(clerk):
    """Whoever asks by another name, by none or by two changes nothing, with a password neither."""
    put = ("/subscribers/7", "-X", "PUT", "--data-binary", "@-")
    check(clerk.curl(*put, given=json.dumps(ANN).encode())[0] == "200", "a row is put")
    mine, page = f"localhost:{clerk.port}", f"evil.example:{clerk.port}"
    for hosts, version, expected in (
            ([page], "HTTP/1.1", "421"), ([page], "HTTP/1.0", "421"), ([], "HTTP/1.0", "421"),
            (["127.0.0.1"], "HTTP/1.1", "421"), ([], "HTTP/1.1", "400"),
            ([page, mine], "HTTP/1.1", "400"), ([mine, page], "HTTP/1.1", "400"),
            ([mine, mine], "HTTP/1.1", "400")):
        found = status_of(clerk, version, *hosts)
        check(found == expected, f"{version} with the hosts {hosts}: {found}")
    check(json.loads(clerk.curl("/subscribers/7")[1]) == ANN, "and the row is as it was")
    check(status_of(clerk, "HTTP/1.1", mine) == "200", "the office's own name is served")


def waits(clerk):
    for _ in range(100):
        if subprocess.run(["curl", "-sk", "-o", os.devnull, f"https://localhost:{clerk.port}/"],
                          timeout=30).returncode == 0:
            return
        time.sleep(0.05)
    check(False, "nginx answers within some seconds")


def behind_nginx(folder, office):
    port = free_ports()[3]
    made(folder, port, office)
    words = ["nginx", "-p", folder, "-e", f"{folder}/errors", "-c", f"{folder}/main.conf"]
    proxy, clerk = subprocess.Popen(words), Clerk(folder, port)
    try:
        waits(clerk)
        asks(clerk)
        rebound(clerk)
    finally:
        stop(proxy)
    with open(os.path.join(folder, "officed.log"), encoding="utf-8") as held:
        lines = held.read().splitlines()
    check(any(line.endswith('ann "PUT /subscribers/7 HTTP/1.1" 200') for line in lines),
          "the proxy's log says who put what")


def main():
    ports = free_ports()
    with tempfile.TemporaryDirectory() as folder, open(os.devnull, "wb") as log:
        with serving(ports, log):
            wait_until_answering(ports[3])
            behind_nginx(folder, ports[3])


if __name__ == "__main__":
    sys.exit(script(main))
