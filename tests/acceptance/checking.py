#!/usr/bin/env python3
"""`make check` runs every example and script, counts what passed, and names each that it skips.

It does so in a small repository of this script, whose scripts pass, fail, lack a program, need the
proof, skip themselves or go on too long, over a program that is there already. The merge gate calls
the same command with --proved. packaging/install-needs installs what is missing, by a package
manager of this script, and knows a package for each program that a script names. It takes some
seconds.
"""
# needs: make
import os
import re
import shutil
import subprocess
import sys
import tempfile

from harness import ROOT, check, script, text_of

SCRIPTS = {
    "good.py": "import os\nprint('over', os.environ['OFFICE_PROGRAM'],"
               " os.environ.get('OFFICE_UNPROVED'))\n",
    "bad.py": "print('FAILED a thing')\nraise SystemExit(1)\n",
    "lacks.py": "# needs: sh no-such-program\n",
    "slow_machine.py": "# proved: since it measures\nprint('measured')\n",
    "alone.py": "print('skipped: it is for root')\n",
    "partly.py": "print('a client: skipped, since it is not here')\n",
    "waits.py": "import time\ntime.sleep(600)\n",
}


def repository(folder):
    """Both programs are there, and younger than their only source."""
    for name in ("tests/check", "bin/office-build", "Makefile", "VERSION"):
        os.makedirs(os.path.dirname(os.path.join(folder, name)), exist_ok=True)
        shutil.copy(os.path.join(ROOT, name), os.path.join(folder, name))
    shutil.copytree(os.path.join(ROOT, "tests", "acceptance", "harness"),
                    os.path.join(folder, "tests", "acceptance", "harness"),
                    ignore=shutil.ignore_patterns("__pycache__"))
    files = {f"tests/acceptance/{name}": text for name, text in SCRIPTS.items()}
    files["crates.txt"] = "officed:\n"
    files["examples/first/run"] = "#!/bin/sh\necho \"with $OFFICED\"\n"
    for at in ("out", "out/unproved"):
        files[f"crates/officed/{at}/officed"] = "#!/bin/sh\n"
    for name, text in files.items():
        path = os.path.join(folder, name)
        os.makedirs(os.path.dirname(path), exist_ok=True)
        with open(path, "w", encoding="utf-8") as held:
            held.write(text)
        os.chmod(path, 0o755)
    path = os.path.join(folder, "tests", "check")
    text = text_of("tests", "check").replace("{False: 480, True: 7200}", "{False: 2, True: 2}")
    with open(path, "w", encoding="utf-8") as held:
        held.write(text.replace("\nEVERY = 10\n", "\nEVERY = 0.5\n"))


def run(folder, *words):
    done = subprocess.run(words, cwd=folder, timeout=120, stdin=subprocess.DEVNULL,
                          stdout=subprocess.PIPE, stderr=subprocess.PIPE)
    return done.returncode, done.stdout.decode(), done.stderr.decode()


def unproved(folder):
    status, said, told = run(folder, "make", "-s", "check")
    lines = said.splitlines()
    check((status, lines[-1:]) == (2, ["3 passed, 2 failed, 3 skipped"]), f"{status} {said} {told}")
    for line in ("skipped: tests/acceptance/lacks.py, since this machine has no no-such-program",
                 "skipped: tests/acceptance/slow_machine.py, since it needs the proved program:"
                 " since it measures",
                 "skipped: tests/acceptance/alone.py, it is for root",
                 "a part: tests/acceptance/partly.py: a client: skipped, since it is not here",
                 "FAILED a thing", "failed: tests/acceptance/bad.py", "ended after 2 s",
                 "failed: tests/acceptance/waits.py"):
        check(line in lines, f"a line {line!r} in {said}")
    check("check: 7 of 8 done in " in told and "now waits.py " in told, f"signs of life: {told}")
    check("(the first time here)" in told, f"no time is known: {told}")


def proved(folder):
    status, said, told = run(folder, "tests/check", "--proved", "good.py", "slow_machine.py")
    program = os.path.join(folder, "crates/officed/out/officed")
    check((status, said.splitlines()[-1]) == (0, "2 passed, 0 failed, 0 skipped"), f"{said} {told}")
    check(f"over {program} None\n" in said and "measured\n" in said, f"over the proved one: {said}")
    status, said, _ = run(folder, "tests/check", "run", "good.py")
    check((status, said.splitlines()[-1]) == (0, "2 passed, 0 failed, 0 skipped"), said)
    os.remove(program)
    status, said, told = run(folder, "env", f"PATH={os.path.dirname(sys.executable)}:/usr/bin:/bin",
                             "tests/check", "--proved")
    check(status == 2 and "`rt`" in told and not said, f"no program: {status} {said} {told}")


# Of which Debian package each program is that a script needs; of one that Debian hasn't, nothing.
PACKAGES = {"make": "make", "curl": "curl", "openapi-spec-validator": "", "openssl": "openssl",
            "nginx": "nginx-light", "dhcpd": "isc-dhcp-server", "unshare": "util-linux",
            "nsenter": "util-linux", "ip": "iproute2", "systemd-analyze": "systemd",
            "nft": "nftables", "sha256sum": "coreutils"}
# A package manager that has git and make, and writes down what it's asked.
MANAGER = """#!/bin/sh
case ${0##*/} in
    id) echo 0 ;;
    dpkg-query) case "$*" in *" git" | *" make") echo "install ok installed" ;; *) exit 1 ;; esac ;;
    apt-get) echo "$*$([ -x "$POLICY" ] && ! "$POLICY" && echo ", and nothing may start")" \\
        >>"$ASKED" ;;
esac
"""


def needs(folder):
    """What is missing is installed, once, and each program that a script needs has a package."""
    tool = os.path.join(ROOT, "packaging", "install-needs")
    status, said, _ = run(folder, tool, "--print")
    known = said.split()
    check(status == 0 and known[:4] == ["git", "make", "python3", "curl"], f"packages: {known}")
    scripts = os.path.join(ROOT, "tests", "acceptance")
    for name in sorted(os.listdir(scripts)):
        text = text_of("tests", "acceptance", name) if name.endswith(".py") else ""
        for program in " ".join(re.findall(r"(?m)^# needs: (.*)$", text)).split():
            check(PACKAGES.get(program) in ("", *known), f"{name} needs {program}, of which package?")
    tools, asked = os.path.join(folder, "tools"), os.path.join(folder, "asked")
    os.mkdir(tools)
    for name in ("id", "dpkg-query", "apt-get"):
        with open(os.path.join(tools, name), "w", encoding="utf-8") as held:
            held.write(MANAGER)
        os.chmod(os.path.join(tools, name), 0o755)
    policy = os.path.join(folder, "policy")
    status, said, told = run(folder, "env", f"ASKED={asked}", f"POLICY={policy}",
                             f"PATH={tools}:/usr/bin:/bin", tool)
    check(not os.path.exists(policy), "servers may start again then")
    with open(asked, encoding="utf-8") as held:
        found = held.read().splitlines()
    words = [f"{each}, and nothing may start"
             for each in ("update -q", "install -y -q --no-install-recommends python3 curl")]
    check((status, found) == (0, words), f"what is missing: {status} {found} {told}")
    check("install-needs: apt-get install python3 curl\n" in said, f"it prints that: {said}")
    check(run(folder, tool, "--nothing")[0] == 2, "words that aren't known")


def main():
    check("tests/check --proved" in text_of(".ci", "run"), "the gate runs the same scripts")
    with tempfile.TemporaryDirectory() as folder:
        repository(os.path.realpath(folder))
        unproved(os.path.realpath(folder))
        proved(os.path.realpath(folder))
        needs(os.path.realpath(folder))


if __name__ == "__main__":
    sys.exit(script(main, needs_program=False))
