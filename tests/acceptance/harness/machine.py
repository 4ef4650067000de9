"""What programs cost this machine, and how busy it is; C programs and libraries that scripts bring with them."""
import mmap
import os
import re
import struct
import subprocess
import time


def processor_times(pid):
    """Seconds of the processor that a program had so far: its own, and the system's for it."""
    with open(f"/proc/{pid}/stat") as held:
        fields = held.read().rsplit(")", 1)[1].split()
    return tuple(int(field) / os.sysconf("SC_CLK_TCK") for field in fields[11:13])


def processor_seconds(pid):
    """Seconds of the processor that a program had so far."""
    return sum(processor_times(pid))


def memory_of(pid, kind):
    """Bytes of memory of a kind, by the name that it has in /proc."""
    with open(f"/proc/{pid}/status") as held:
        return int(re.search(rf"(?m)^{kind}:\s+([0-9]+)", held.read())[1]) * 1024


def resident(pid):
    """Bytes of memory that a program has in use."""
    return memory_of(pid, "VmRSS")


def load():
    return "load " + " ".join(f"{each:.1f}" for each in os.getloadavg())


def taken_away():
    """Of all processors: the ticks so far that the host took away, and all ticks, whoever had them."""
    with open("/proc/stat", encoding="ascii") as held:
        ticks = [int(each) for each in held.readline().split()[1:9]]
    return ticks[7], sum(ticks)


def syncs(folder):
    """How many writes of 16 kB, each with its sync, a file takes in a second."""
    count, began = 0, time.perf_counter()
    with open(os.path.join(folder, "syncs"), "wb", buffering=0) as each:
        while time.perf_counter() - began < 1:
            each.write(bytes(16_384))
            os.fdatasync(each.fileno())
            count += 1
    return count / (time.perf_counter() - began)


def compiled(source, folder, *flags):
    """The path of a program, or of a library by its flags, which is compiled from C; it has the name of its source there."""
    path = os.path.join(folder, os.path.basename(source).removesuffix(".c"))
    subprocess.run(["cc", "-O2", *flags, "-o", path, source], check=True)
    return path


class Preloaded:
    """A library that a program loads before the C library's own, and a number that it shares with this script, at first 0. The library maps the file that its
    variable names."""

    def __init__(self, folder, name, text, variable):
        self.path, source, self.variable = os.path.join(folder, f"{name}.number"), os.path.join(folder, f"{name}.so.c"), variable
        with open(source, "w") as file:
            file.write(text)
        self.library = compiled(source, folder, "-shared", "-fPIC")
        with open(self.path, "wb") as file:
            file.write(bytes(8))
        with open(self.path, "r+b") as file:
            self.shared = mmap.mmap(file.fileno(), 8)

    def environment(self):
        return {"LD_PRELOAD": self.library, self.variable: self.path}

    @property
    def number(self):
        return struct.unpack("=q", self.shared[:8])[0]

    @number.setter
    def number(self, number):
        self.shared[:8] = struct.pack("=q", number)
