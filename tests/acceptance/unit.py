#!/usr/bin/env python3
"""packaging/officed.service under a systemd of its own: OFFICE_UNIT=1, as root; else skipped.

In namespaces of its own, over this machine's files and without a trace in them, `make install` puts
the office in place and systemd starts it. It has a user of its own and one right, answers at the
standard ports, and is started again where it's killed; where the program keeps a store on disk, it
is copied while it runs, and a row that was put is there after the kill. The start is done when the
four ports answer. The journal has a line that says so, and one of what each end means: of a kill,
and of a port that another program has. It ends what it started, and takes some seconds.
"""
# needs: systemd-analyze unshare make curl
import os
import platform
import re
import subprocess
import sys
import tempfile
import time

from harness import PROGRAM, ROOT, check, script, serve

SYSTEMD = "/lib/systemd/systemd"
# Makes a root of its own: this machine's files below, and what is written in memory above.
SETUP = r"""
set -eu
mount --make-rprivate /
mount -t tmpfs tmpfs %(folder)s/over
mkdir %(folder)s/over/upper %(folder)s/over/work %(folder)s/over/root
root=%(folder)s/over/root
mount -t overlay overlay -o lowerdir=/,upperdir=$root/../upper,workdir=$root/../work $root
mount -t proc proc $root/proc
mount -t sysfs sysfs $root/sys
mount -t cgroup2 cgroup2 $root/sys/fs/cgroup
mount -t tmpfs tmpfs $root/run
mount --rbind /dev $root/dev
mkdir -p $root/trial
mount --bind %(folder)s/trial $root/trial
make -s -C %(here)s install OFFICED=%(program)s DESTDIR=$root
units=$root/usr/local/lib/systemd/system
%(change)s
printf '[Unit]\nWants=systemd-journald.service officed.service trial.service\n' >$units/trial.target
printf '[Unit]\nAfter=officed.service\nDefaultDependencies=no\n[Service]\nType=oneshot\n' \
    >$units/trial.service
printf 'TimeoutStartSec=90\nExecStart=/bin/sh /trial/trial.sh\n' >>$units/trial.service
container=lxc exec chroot $root %(systemd)s --unit=trial.target --log-target=null
"""
# What is looked at, from within.
TRIAL = r"""
exec >/trial/said 2>&1
answers() {
    tries=0
    until curl -s -m 3 http://127.0.0.1:8080/site >/dev/null || [ $tries -gt 60 ]; do
        tries=$((tries + 1))
        sleep 0.5
    done
}
ip link set lo up
answers
systemctl start officed
echo "active: $(systemctl is-active officed)"
pid=$(systemctl show -p MainPID --value officed)
grep -E '^(Uid|CapEff|CapBnd|NoNewPrivs|Seccomp):' /proc/$pid/status
echo "large pages: $(grep -c '^VmFlags:.* hg' /proc/$pid/smaps)"
ss -lunH | awk '{ print "port", $4 }'
curl -s -m 5 -X PUT http://127.0.0.1:8080/subscribers/7 \
    -d '{"active":true,"cpes":2,"name":"Ann"}'
echo
[ ! -e /var/lib/officed/office.db ] || /usr/local/bin/office-copy --unit officed \
    /var/lib/officed/office.db /trial/copy.db
kill -9 $pid
sleep 1.5
answers
systemctl show -p NRestarts officed
curl -s -m 5 http://127.0.0.1:8080/subscribers/7
echo
echo row shown
systemctl stop officed
python3 -c 'import socket, time
taken = socket.socket(socket.AF_INET, socket.SOCK_DGRAM)
taken.bind(("0.0.0.0", 37))
time.sleep(60)' &
taken=$!
sleep 1
systemctl start officed || echo "refused: $(systemctl show -p ExecMainStatus officed)"
kill $taken
journalctl --sync
journalctl -u officed -o cat | grep '^office-unit: '
echo end
systemctl exit 0 || systemctl poweroff -f
"""


def keeps_a_store(folder):
    words = serve(os.path.join(folder, "tried.db"))
    return subprocess.run(words, stdout=subprocess.DEVNULL, timeout=60).returncode == 0


def children_of(pid):
    try:
        with open(f"/proc/{pid}/task/{pid}/children", encoding="utf-8") as held:
            return [int(child) for child in held.read().split()]
    except OSError:
        return []


def said(path, seconds):
    """What the trial wrote to its end, or in so many seconds."""
    end, text = time.monotonic() + seconds, ""
    while "\nend\n" not in text and time.monotonic() < end:
        time.sleep(0.2)
        if os.path.exists(path):
            with open(path, encoding="utf-8") as held:
                text = held.read()
    return text


def prepare(folder, has_store):
    """Writes what sets the root up, and what is tried in it."""
    os.mkdir(os.path.join(folder, "over"))
    os.mkdir(os.path.join(folder, "trial"))
    unit = "$units/officed.service"
    change = "" if has_store else f"sed -i 's|--store [^ ]*|--store memory|' {unit}"
    names = {"folder": folder, "here": ROOT, "program": PROGRAM, "systemd": SYSTEMD,
             "change": change}
    for name, text in (("setup.sh", SETUP % names), ("trial/trial.sh", TRIAL)):
        with open(os.path.join(folder, name), "w", encoding="utf-8") as held:
            held.write(text)


def end(own):
    """Ends the namespaces, whose systemd isn't ended by a signal of its own kind."""
    time.sleep(1)
    for child in children_of(own.pid):
        os.kill(child, 9)
    own.wait(timeout=20)


def tried(folder, has_store):
    """What is seen of the office under its systemd."""
    prepare(folder, has_store)
    words = ["unshare", "--mount", "--pid", "--fork", "--uts", "--ipc", "--net", "--cgroup", "sh",
             os.path.join(folder, "setup.sh")]
    own = subprocess.Popen(words, stdin=subprocess.DEVNULL, start_new_session=True)
    try:
        return said(os.path.join(folder, "trial", "said"), 100)
    finally:
        end(own)


def judge(text, has_store):
    print(text.strip())
    status = dict(re.findall(r"(\w+):\s+(\w+)", text))
    # CAP_NET_BIND_SERVICE is right 10.
    check(int(status.get("CapEff", "0"), 16) == 1 << 10, "it has one right")
    check(int(status.get("CapBnd", "0"), 16) == 1 << 10, "and can get no other")
    check(status.get("Uid", "0") != "0", "it isn't root")
    check((status.get("NoNewPrivs"), status.get("Seccomp")) == ("1", "2"), "it is confined")
    # Areas of memory for which the C library asked for them: glibc has it since 2.35.
    areas = int(re.search(r"large pages: (\d+)", text)[1])
    check(areas > 0 or platform.libc_ver()[1] < "2.35", "its tables are to be in large pages")
    ports = re.findall(r"port .*:(\d+)", text)
    check({"67", "37", "69"} <= set(ports), f"it listens at the standard ports: {ports}")
    check('{"ok":true}' in text and "NRestarts=1" in text, "it's started again")
    copied = re.search(r"(?m)^1 rows, [\d,]+ bytes, checked; the office stood for", text)
    check(bool(copied) == has_store, "its store is copied while it runs")
    row = '{"active":true,"cpes":2,"name":"Ann"}' if has_store else '{"fault":"no-row"}'
    check(f"\n{row}\nrow shown\n" in text, f"and then there is {row}")
    check("active: active\n" in text, "it's active when its ports answer")
    said = re.findall(r"(?m)^office-unit: (.*)$", text)
    forms = ["ready: the four ports answer, .* s after the start",
             "the office ended with signal KILL: .*", "ready: .*",
             "the office ended with signal TERM: somebody stopped it",
             "the office ended before it was ready",
             "the office ended with status 10: port 37 is in use by another program .*"]
    check(len(said) == len(forms) and all(map(re.fullmatch, forms, said)), f"the journal: {said}")
    check("\nrefused: ExecMainStatus=10\n" in text, "it isn't started again then")


def main():
    if os.environ.get("OFFICE_UNIT") != "1" or os.geteuid() != 0 or not os.path.exists(SYSTEMD):
        print("skipped: it's for OFFICE_UNIT=1, as root, with systemd")
        return 0
    with tempfile.TemporaryDirectory() as folder:
        has_store = keeps_a_store(folder)
        judge(tried(folder, has_store), has_store)
    return None


if __name__ == "__main__":
    sys.exit(script(main, needs_program=False))
