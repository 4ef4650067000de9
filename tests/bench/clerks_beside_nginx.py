#!/usr/bin/env python3
"""Times PUTs by `ab` and `wrk`, of a small body and of one of 9,597 bytes, beside an nginx that answers a constant, in one run.

It prints figures and judges nothing. bin/officed has to be built; it wants nginx, and `ab` (apache2-utils) or `wrk`.
"""
import os
import re
import shutil
import subprocess
import sys
import tempfile
import time

HERE = os.path.dirname(os.path.abspath(__file__))
sys.path.insert(0, os.path.join(HERE, "..", "acceptance"))
from harness import free_ports, script, serving, stop  # noqa: E402
from harness.clerks import ANN, wait_until_answering  # noqa: E402

CONFIGURATION = """
daemon off;
worker_processes 1;
pid {folder}/pid;
error_log {folder}/error;
events {{ worker_connections 512; }}
http {{
    access_log {folder}/access;
    client_body_temp_path {folder}/bodies;
    client_body_buffer_size 64k;
    keepalive_timeout 0;
    default_type application/json;
    server {{ listen 127.0.0.1:{port}; location / {{ return 200 '{{"ok":true}}'; }} }}
}}
"""


def by_ab(port, file, clients):
    words = ["ab", "-q", "-c", str(clients), "-n", "4000", "-u", file, f"http://127.0.0.1:{port}/subscribers/7"]
    text = subprocess.run(words, stdout=subprocess.PIPE, stderr=subprocess.STDOUT, timeout=120).stdout.decode()
    rate = re.search(r"Requests per second:\s+([0-9.]+)", text)
    failed = re.search(r"Failed requests:\s+([0-9]+)", text)
    return (float(rate.group(1)) if rate else 0.0), (failed.group(1) if failed else "all")


def by_wrk(port, file, clients):
    table = file + ".lua"
    with open(table, "w") as lua:
        lua.write(f'wrk.method = "PUT"\nlocal f = io.open("{file}")\nwrk.body = f:read("*a")\nf:close()\n')
    words = ["wrk", "-t", "1", "-c", str(clients), "-d", "1s", "-s", table, f"http://127.0.0.1:{port}/subscribers/7"]
    text = subprocess.run(words, stdout=subprocess.PIPE, stderr=subprocess.STDOUT, timeout=120).stdout.decode()
    rate = re.search(r"Requests/sec:\s+([0-9.]+)", text)
    errors = re.search(r"Socket errors: .*|Non-2xx.*", text)
    return (float(rate.group(1)) if rate else 0.0), (errors.group(0) if errors else "0")


def main():
    os.environ["PATH"] += ":/usr/sbin:/sbin"
    for tool in ("nginx",):
        if not shutil.which(tool):
            print(f"skipped, since this machine has no `{tool}`")
            return 0
    with tempfile.TemporaryDirectory() as folder, open(os.path.join(folder, "log"), "wb") as log:
        os.chmod(folder, 0o755)
        ports, other = free_ports(), free_ports()
        with open(os.path.join(folder, "nginx.conf"), "w") as file:
            file.write(CONFIGURATION.format(folder=folder, port=other[3]))
        nginx = subprocess.Popen(["nginx", "-c", os.path.join(folder, "nginx.conf")], stderr=subprocess.DEVNULL)
        try:
            with serving(ports, log):
                wait_until_answering(ports[3])
                time.sleep(0.5)
                by_turns(ports[3], other[3], folder)
        finally:
            stop(nginx)
    return 0


def by_turns(office, other, folder):
    """Each tool that is here, with each body and each number of clients, at the one port and at the other."""
    small, large = os.path.join(folder, "small"), os.path.join(folder, "large")
    with open(small, "wb") as file:
        file.write(ANN)
    head, tail = b'{"active":true,"cpes":2,"name":"Ann","note":"', b'"}'
    with open(large, "wb") as file:
        file.write(head + b"x" * (9597 - len(head) - len(tail)) + tail)
    for tool, by in (("ab", by_ab), ("wrk", by_wrk)):
        if not shutil.which(tool):
            print(f"{tool}: skipped, since this machine has no `{tool}`")
            continue
        for name, file in (("small bodies", small), ("bodies of 9,597 bytes", large)):
            for clients in (1, 8, 64):
                # by turns, since others may disturb this machine
                tries = [(by(office, file, clients), by(other, file, clients)) for _ in range(3)]
                (rate, failed), (constant, other_failed) = (max(column) for column in zip(*tries))
                print(f"{tool}, {clients} clients, {name}: {rate:.0f} PUTs a second (failed: {failed}), nginx {constant:.0f} "
                      f"(failed: {other_failed}): {rate / constant if constant else 0:.2f}")


if __name__ == "__main__":
    sys.exit(script(main))
