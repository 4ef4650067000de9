"""No secret is told: what comes to a script of this folder is searched for the site's secrets when the script ends.

All that comes from sockets, standard output and standard error of processes, and the files into which they write, is kept for that; a script gets it as
ever. That covers the office and the commands of bin/, and what other clients print. What a client hears and doesn't print isn't seen, nor what a sniffing
socket takes, which hears requests too. A secret in it ends the script with status 1.
"""
import atexit
import base64
import os
import re
import socket
import stat
import subprocess
import sys
import tempfile

# The secret of the offices of these scripts: no word of the office has these bytes.
SECRET = b"Zq7_never_told_9xK"
# The secret of the examples in docs/ and examples/ is also the name of the field that holds it, so its text isn't searched.
EXAMPLE = b"secret"
# The manual page gives it to `seal`, `check` and a modem; who prints the page prints that too.
GIVEN = re.compile(rb"(seal|check|--secret) " + EXAMPLE.hex().encode())
SECRETS = {SECRET}
LEAST, LONGEST = 6, 64
PIECE = 1 << 20
RECORD = tempfile.TemporaryFile(buffering=0)
OWN = os.getpid()
logs = []


def beware_of(secret):
    """A script's further secret. A short one comes by chance in what has nothing to do with it."""
    if len(secret) >= LEAST:
        SECRETS.add(secret)


def in_base64(data):
    """What base64 makes of these bytes alone wherever they stand in a longer text: three ways."""
    for before in range(3):
        text = base64.b64encode(bytes(before) + data)
        cut = -(-8 * before // 6)
        whole = (8 * (before + len(data))) // 6
        yield text[cut:whole]
        yield text[cut:whole].replace(b"+", b"-").replace(b"/", b"_")


def forms(secret):
    """The ways in which a secret may be told; that of the examples without its text."""
    text = secret.hex()
    spelled = [text.encode(), text.upper().encode(), *in_base64(secret)]
    return spelled if secret == EXAMPLE else [secret, *spelled]


def all_forms():
    return [(secret, form) for secret in sorted({*SECRETS, EXAMPLE}) for form in set(forms(secret))]


def found_in(data, wanted):
    """What stands around the first secret in these bytes."""
    data = GIVEN.sub(b"", data)
    for secret, form in wanted:
        at = data.find(form)
        if at >= 0:
            return f"the secret {secret!r} as {form!r}: .. {data[max(0, at - 60):at + len(form) + 20]!r} .."
    return None


# ---- what is kept

class Socket(socket.socket):
    """A socket of which all that it receives is kept; a sniffing one hears requests too, and isn't."""

    rest = b""

    def keep(self, data):
        if self.family in (socket.AF_INET, socket.AF_INET6, socket.AF_UNIX) and data:
            # Of a stream a secret may come in two pieces.
            before = self.rest if self.type == socket.SOCK_STREAM else b""
            keep(before + data)
            self.rest = (before + data)[-4 * LONGEST:]

    def recv(self, *given):
        data = super().recv(*given)
        self.keep(data)
        return data

    def recvfrom(self, *given):
        data, peer = super().recvfrom(*given)
        self.keep(data)
        return data, peer

    def recvmsg(self, *given):
        came = super().recvmsg(*given)
        self.keep(came[0])
        return came

    def recv_into(self, buffer, *given):
        count = super().recv_into(buffer, *given)
        self.keep(bytes(memoryview(buffer)[:count]))
        return count


class Process(subprocess.Popen):
    """A process of which what it prints is kept."""

    def __init__(self, *given, **named):
        gather()
        # Nobody reads it, so the record may have it.
        if named.get("stderr") == subprocess.DEVNULL:
            named["stderr"] = RECORD
        super().__init__(*given, **named)
        for name in ("stdout", "stderr"):
            log = opened_again(named.get(name))
            if log is not None:
                logs.append((self, log))

    def communicate(self, *given, **named):
        both = super().communicate(*given, **named)
        for text in both:
            if text:
                keep(text if isinstance(text, bytes) else text.encode())
        return both


def opened_again(given):
    """The file into which a process writes, to be read; None where it writes elsewhere."""
    if given is None or given is RECORD or isinstance(given, int) and given < 0:
        return None
    number = given if isinstance(given, int) else given.fileno()
    if not stat.S_ISREG(os.fstat(number).st_mode):
        return None
    try:
        return open(f"/proc/self/fd/{number}", "rb")
    except OSError:
        return None


def keep(data):
    RECORD.write(data + b"\n")


def gather(all_of_them=False):
    """Keeps what ended processes wrote into files."""
    for each in list(logs):
        process, log = each
        if all_of_them or process.returncode is not None:
            logs.remove(each)
            with log:
                for part in iter(lambda held=log: held.read(PIECE), b""):
                    RECORD.write(part)


# ---- what is looked for at the end

def first_told():
    """How many bytes were kept, and the first secret in them."""
    gather(all_of_them=True)
    RECORD.seek(0)
    wanted, rest, count = all_forms(), b"", 0
    for part in iter(lambda: RECORD.read(PIECE), b""):
        count += len(part)
        found = found_in(rest + part, wanted)
        if found:
            return count, found
        rest = part[-4 * LONGEST:]
    return count, None


def judge():
    """Where a secret was told the script ends with status 1, whatever else it found."""
    if os.getpid() != OWN:
        return
    count, found = first_told()
    if count:
        print(f"FAILED no secret is told: {found}" if found else f"no secret is told in {count:,} bytes")
    sys.stdout.flush()
    sys.stderr.flush()
    if found:
        os._exit(1)


def begin():
    """From here on everything is kept."""
    socket.socket, subprocess.Popen = Socket, Process
    atexit.register(judge)
