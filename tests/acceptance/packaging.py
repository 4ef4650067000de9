#!/usr/bin/env python3
"""What `make install` puts in place: the program, its unit, its helpers and pages of each.

It is installed into a folder of this script and removed again. There each helper names the release
of the file VERSION, and so do the unit and the manual pages; each option of a helper is in its page
and is completed by bash; no link of a page leads to a file or a heading that isn't there. The
unit's words are tried with the program, and systemd judges the unit; the manual page has each
status and each variable. Each page is laid out without a warning. NOTICE has the copyrights of the
toolchain's libraries. What a tool is missing for is
said and skipped. The copy's two rights are enough for it, and the unit refuses a clerks' port that
other machines reach unless that is asked for. It takes some seconds.
"""
# needs: make
import os
import re
import shutil
import subprocess
import sys
import tempfile
import time

from harness import (PROGRAM, ROOT, check, free_ports, listed, loaded, script, serve, stop,
                     text_of)
from harness.clerks import is_heard

DOC = "share/doc/officed"
HELPERS = ["office-all", "office-clerk", "office-copy", "office-counts", "office-desk",
           "office-modem", "office-sql", "office-unit", "office-watch"]
UNITS = ("officed.service", "officed-counts.service", "officed-copy.service", "officed-copy.timer")
INSTALLED = {
    **{f"bin/{name}": 0o755 for name in ("officed", *HELPERS)},
    **{f"lib/systemd/system/{name}": 0o644 for name in UNITS},
    **{f"share/man/man8/{name}.8": 0o644 for name in ("officed", *HELPERS)},
    **{f"share/bash-completion/completions/{name}": 0o644 for name in ("officed", *HELPERS)},
    **{f"share/officed/{name}": 0o644 for name in ("VERSION", "MESSAGES.md")},
    **{f"{DOC}/{name}": 0o644 for name in (
        "OPERATING.md", "MESSAGES.md", "CLERK_API.md", "openapi.json", "SIZING.md", "ALARMS.md",
        "UPGRADING.md", "PAST_ONE_MACHINE.md", "COMPARISON.md", "CHANGELOG.md", "LICENSE", "NOTICE",
        "nginx.conf", "prometheus-rules.yml", "grafana-dashboard.json")},
    **{f"{DOC}/first-office/{name}": 0o644 for name in (
        "hub-0.json", "class-1.json", "pool-1.json", "subscriber-7.json",
        "modem-02aabbccddee.json")},
    f"{DOC}/first-office/set-up": 0o755,
}


def make(*words):
    done = subprocess.run(["make", "-s", "-C", ROOT, *words], timeout=60,
                          stdout=subprocess.PIPE, stderr=subprocess.STDOUT)
    return done.returncode, done.stdout.decode()


def files_under(folder):
    found = {}
    for at, _, names in os.walk(folder):
        for name in names:
            path = os.path.join(at, name)
            found[os.path.relpath(path, folder)] = os.stat(path).st_mode & 0o777
    return found


def installs(folder):
    """All files with their rights, under another prefix, and none behind `uninstall`."""
    words = [f"DESTDIR={folder}", "PREFIX=/opt/office", f"OFFICED={PROGRAM}"]
    status, said = make("install", *words)
    root = os.path.join(folder, "opt", "office")
    check((status, files_under(root)) == (0, INSTALLED), f"what is installed: {status} {said}")
    for name, part in zip(UNITS, (" /opt/office/bin/officed serve ",
                                  "/opt/office/bin/office-counts --prometheus ",
                                  "/opt/office/bin/office-copy --unit officed ", "OnCalendar=")):
        with open(os.path.join(root, "lib/systemd/system", name), encoding="utf-8") as held:
            unit = held.read()
        check(part in unit and "/usr/local" not in unit, f"{name} has the prefix")
    releases(root)
    pages_of_helpers(root)
    links(os.path.join(root, DOC))
    status, said = make("uninstall", *words)
    check((status, files_under(folder)) == (0, {}), f"all is removed: {status} {said}")
    status, said = make("install", f"DESTDIR={folder}", "OFFICED=/nowhere")
    check(status != 0 and "make it first" in said, "without a program nothing is installed")
    check(not files_under(folder), "and nothing is there")


def read(*parts):
    with open(os.path.join(*parts), encoding="utf-8") as held:
        return held.read()


def printed(*words):
    done = subprocess.run(words, timeout=30, stdout=subprocess.PIPE, stderr=subprocess.STDOUT)
    return done.stdout.decode().strip()


def releases(root):
    """One release, in all that is installed: that of the file VERSION, a semantic one."""
    release = text_of("VERSION").strip()
    check(re.fullmatch(r"\d+\.\d+\.\d+(-[0-9A-Za-z.-]+)?", release), f"VERSION: {release}")
    for name in HELPERS:
        for folder in (os.path.join(root, "bin"), os.path.join(ROOT, "bin")):
            said = printed(os.path.join(folder, name), "--version")
            check(said == f"{name} {release}", f"{folder}/{name} --version: {said}")
        title = read(root, "share/man/man8", name + ".8").partition("\n")[0]
        check(f'"officed {release}"' in title, f"the page of {name}: {title}")
    for name in ("lib/systemd/system/officed.service", "share/man/man8/officed.8"):
        text = read(root, name)
        check(f"officed {release}" in text and "@VERSION@" not in text, f"{name} has the release")


# What bash offers for a command's first word.
COMPLETED = """
PATH=%(bin)s:$PATH
. %(file)s
COMP_WORDS=(%(name)s "")
COMP_CWORD=1
_officed %(name)s "" %(name)s
printf '%%s\\n' "${COMPREPLY[@]}"
"""


def pages_of_helpers(root):
    """Each option that a helper prints is in its page and is completed."""
    for name in ("officed", *HELPERS):
        page = read(root, "share/man/man8", name + ".8").replace("\\-", "-")
        file = os.path.join(root, "share/bash-completion/completions", name)
        asked = COMPLETED % {"bin": os.path.join(root, "bin"), "file": file, "name": name}
        offered = set(printed("bash", "-c", asked).split())
        options = {"serve", "import", "drill", "seal", "check"}
        if name != "officed":
            helped = printed(os.path.join(root, "bin", name), "--help")
            options = set(re.findall(r"(?m)^  (?:-\w, )?(--[a-z-]+)", helped))
            check(len(options) > 1, f"{name} has options: {options}")
        check(options <= offered, f"{name} is completed: {options - offered} is missing")
        missing = [each for each in options if each not in page]
        check(not missing, f"the page of {name} has all: {missing} is missing")
        laid_out(os.path.join(root, "share/man/man8", name + ".8"))


LINK = re.compile(r"\]\(([^()\s]+)\)")


def slug_of(heading):
    text = re.sub(r"\[([^\]]*)\]\([^)]*\)", r"\1", heading).strip().lower()
    return re.sub(r"[^\w\- ]", "", text).replace(" ", "-")


def links(folder):
    """Each link of an installed page leads to a file and a heading that are there."""
    count = 0
    for name in sorted(os.listdir(folder)):
        for target in LINK.findall(read(folder, name)) if name.endswith(".md") else ():
            file, _, place = target.partition("#")
            if "://" in target:
                continue
            count += 1
            path = os.path.join(folder, file or name)
            check(os.path.exists(path), f"{name} leads to {target}")
            if place and os.path.exists(path):
                headings = [slug_of(each) for each in re.findall(r"(?m)^#+ (.*)$", read(path))]
                check(place in headings or f'"{place}"' in read(path), f"{name}: {target}")
    check(count > 50, f"only {count} links were looked at")
    print(f"{count} links of installed pages lead somewhere")


def shell_of(name, key):
    """The text that a unit hands to the shell, and the words behind it."""
    found = re.search(rf"(?m)^{key}=/bin/sh -c '(.*)'(.*)$", text_of("packaging", name))
    return found[1].replace("$$", "$").replace("%%", "%"), found[2].split()


def unit_words():
    """The unit's command, its words, with another store, other ports and no turns."""
    unit = text_of("packaging", "officed.service")
    known = dict(re.findall(r"(OFFICED_(?:STORE|PORTS))=(\S+)", re.sub(r"(?m)^#.*", "", unit)))
    _, words = shell_of("officed.service", "ExecStart")
    words = [known[word[2:-1]] if word.startswith("${") else word for word in words]
    names = dict(zip(words[2::2], words[3::2]))
    check(words[:2] == ["/usr/local/bin/officed", "serve"], "the unit serves")
    check(names.get("--turns") == "1000000000000000", "as long as can be")
    check(names.get("--ports", "").startswith("67,37,69,"), "at the standard ports")
    check(names.get("--store", "").startswith("%S/officed/"), "from its own folder")
    names.update({"--store": "memory", "--turns": "0", "--ports": listed(free_ports())})
    tried = [PROGRAM, "serve", *(word for pair in names.items() for word in pair)]
    check(subprocess.run(tried, timeout=30).returncode == 0, "the program takes such words")


def systemd(folder):
    if not shutil.which("systemd-analyze"):
        print("the units: skipped, since this machine has no systemd-analyze")
        return
    for name in UNITS:
        with open(os.path.join(folder, name), "w", encoding="utf-8") as held:
            held.write(re.sub(r"(?m)^(Exec\w+=-?)/usr/local/bin/office\w*(-unit)?",
                              rf"\1{shutil.which('true')}", text_of("packaging", name)))
    for name in UNITS:
        done = subprocess.run(
            ["systemd-analyze", "verify", "--man=no", os.path.join(folder, name)], timeout=60,
            stdout=subprocess.PIPE, stderr=subprocess.STDOUT)
        check((done.returncode, done.stdout) == (0, b""),
              f"systemd takes {name}: {done.stdout.decode()}")
    for name, most in (("officed.service", 20), ("officed-counts.service", 30),
                       ("officed-copy.service", 30)):
        done = subprocess.run(
            ["systemd-analyze", "security", "--offline=yes", f"--threshold={most}",
             os.path.join(folder, name)], timeout=60, stdout=subprocess.PIPE,
            stderr=subprocess.DEVNULL)
        print(done.stdout.decode().strip().splitlines()[-1])
        check(done.returncode == 0, f"the exposure of {name} is at most {most / 10}")


def keeps_no_core():
    """No unit leaves a core: it would have the hubs' secrets."""
    for name in UNITS[:3]:
        check("\nLimitCORE=0\n" in text_of("packaging", name), f"{name} writes no core")


def clerks_port():
    """The unit begins only where clerks are heard on this machine alone, or anywhere is asked for."""
    text, _ = shell_of("officed.service", "ExecStartPre")
    for http, anywhere, expected in (
            (None, None, 0), ("127.0.0.1", None, 0), ("127.8.0.1", None, 0), ("", None, 0),
            ("10.0.0.2", None, 1), ("0.0.0.0", None, 1), ("10.127.0.1", None, 1),
            ("10.0.0.2", "0", 1), ("10.0.0.2", "1", 0)):
        known = {"PATH": os.environ["PATH"], **({} if http is None else {"OFFICED_HTTP": http}),
                 **({} if anywhere is None else {"OFFICED_HTTP_ANYWHERE": anywhere})}
        done = subprocess.run(["/bin/sh", "-c", text], env=known, timeout=30,
                              stderr=subprocess.PIPE)
        check(done.returncode == expected, f"{http}, {anywhere}: {done.returncode}")
        check(bool(done.stderr) == (expected == 1), f"and says why: {done.stderr}")


def copy_rights(folder):
    """With the copy unit's two rights root copies the store of another user's office."""
    if os.geteuid() != 0 or not shutil.which("setpriv"):
        print("skipped the copy's rights: it's for root, with setpriv")
        return
    unit = text_of("packaging", "officed-copy.service")
    rights = re.search(r"(?m)^CapabilityBoundingSet=(.+)$", unit)[1].lower().replace("cap_", "+")
    user, home = 65534, os.path.join(folder, "owned")
    os.mkdir(home, 0o700)
    os.chown(home, user, user)
    os.chmod(folder, 0o711)
    store, ports = os.path.join(home, "office.db"), free_ports()
    program = subprocess.Popen(
        ["setpriv", f"--reuid={user}", f"--regid={user}", "--clear-groups", *serve(
            store, 10**9, ports)], stdout=subprocess.DEVNULL, stderr=subprocess.DEVNULL)
    try:
        check(is_heard(ports[3], seconds=60, program=program), "the office of another user answers")
        words = [sys.executable, os.path.join(ROOT, "bin", "office-copy"), "--pid",
                 str(program.pid), store, os.path.join(folder, "copied.db")]
        for given, expected in ((rights, 0), ("+dac_read_search", 3)):
            listed_ = ",".join(["-all", *given.split()])
            done = subprocess.run(["setpriv", f"--bounding-set={listed_}", *words], timeout=60,
                                  stdout=subprocess.PIPE, stderr=subprocess.STDOUT)
            check(done.returncode == expected, f"a copy by {given}: {done.stdout.decode()}")
            if expected == 0:
                print(f"by {given}: {done.stdout.decode().strip()}")
        check(program.poll() is None, "and the office goes on")
    finally:
        stop(program)


def copies(folder):
    """The command that the timer has run makes a copy for this day of the week."""
    store, copies_ = os.path.join(folder, "office.db"), os.path.join(folder, "copies")
    os.mkdir(copies_)
    made = [PROGRAM, "serve", "--store", store, "--ports", listed(free_ports()), "--turns", "0"]
    check(subprocess.run(made, timeout=60).returncode == 0, "a store without rows")
    unit = text_of("packaging", "officed-copy.service")
    words = re.search(r"(?m)^ExecStart=/bin/sh -c '(.*)'$", unit)[1]
    for old, new in (("$$", "$"), ("%%", "%"), ("/usr/local/bin/office-copy",
                     os.path.join(ROOT, "bin", "office-copy")), ("/usr/local/bin/officed", PROGRAM),
                     ("--unit officed ", ""), ("/var/lib/officed/office.db", store),
                     ("/var/backups/officed", copies_)):
        check(old in words, f"the copy's unit has {old}")
        words = words.replace(old, new)
    done = subprocess.run(["sh", "-c", words], timeout=60, stdout=subprocess.PIPE,
                          stderr=subprocess.STDOUT)
    name, made = time.strftime("office-%u.db"), sorted(os.listdir(copies_))
    check((done.returncode, made) == (0, [name, f"{name}.sum"]),
          f"a copy and its sum: {done.stdout.decode()} {made}")


def manual():
    page = text_of("packaging", "officed.8")
    statuses = page[page.index(".SH EXIT STATUS"):page.index(".SH ENVIRONMENT")]
    told = [int(number) for number in re.findall(r"(?m)^\.B (\d+)$", statuses)]
    check(told == list(range(12)), f"the statuses: {told}")
    for name in re.findall(r'"(OFFICED_\w+)"', text_of("crates", "off_host", "src", "addresses.rt")):
        check(f".B {name}\n" in page, f"the manual has {name}")
    names = re.findall(r"(?m)^(?:\.BR? )?(office\\-\w+)", page[page.index(".SH SEE ALSO"):])
    told = sorted(name.replace("\\", "") for name in names)
    check(told == HELPERS, f"the helpers: {told}")


def laid_out(path):
    if shutil.which("groff"):
        done = subprocess.run(["groff", "-ww", "-man", "-Tutf8", path], timeout=60,
                              stdout=subprocess.PIPE, stderr=subprocess.PIPE)
        check((done.returncode, done.stderr) == (0, b""), f"the layout: {done.stderr.decode()}")


def notices(folder):
    """NOTICE names each library in the program that the toolchain has a licence file of, with its
    copyrights."""
    if not shutil.which("rt"):
        print("notices: skipped, since this machine has no toolchain")
        return
    build = loaded("office-build")
    tool = build.Unproved(folder)
    known = build.lines()
    first = {each for name in build.needed(build.crates()) for each in known[name]
             if each not in known}
    notice, count = text_of("NOTICE"), 0
    for name in tool.kit(["std", *sorted(first)]):
        source = tool.tool.path("rattle", name)
        for file in sorted(os.listdir(source)):
            if not file.startswith("LICENSE"):
                continue
            count += 1
            check(re.search(rf"(?m)^\* (\w+, )*{name}(, \w+)*: ", notice), f"NOTICE has {name}")
            for line in re.findall(r"(?m)^Copyright \(c\) .*$", read(source, file)):
                check(line.strip() in notice, f"NOTICE has {line} of {name}")
    check(count > 10, f"only {count} licence files were looked at")
    check("Apache License" in text_of("LICENSE").splitlines()[0], "LICENSE is Apache's")


def main():
    if not shutil.which("groff"):
        print("the layout of manual pages: skipped, since this machine has no groff")
    with tempfile.TemporaryDirectory() as folder:
        installs(folder)
        systemd(folder)
        copies(folder)
        copy_rights(folder)
        notices(folder)
    unit_words()
    keeps_no_core()
    clerks_port()
    manual()


if __name__ == "__main__":
    sys.exit(script(main))
