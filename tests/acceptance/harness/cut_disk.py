"""A file system that loses its power: what was written and not synced is kept back, and dropped or torn at a cut.

It's one folder of plain files in memory, which speaks the kernel's protocol of FUSE over /dev/fuse, so that any program writes to it by system calls. A file is
what was synced last, with the writes and changes of its length since; names come and go likewise, and stay behind a sync of the folder. `cut` makes of each file
what a power cut may leave: of each write since the last sync all, nothing, its front, its end, or other bytes in its place. Until then a read gives what was
written. Nothing is kept in the kernel (direct I/O, no names or attributes). `refuses` names what fails from then on; a sync that fails drops what it was to
write, as Linux may, and the next one finds nothing to do. While it `lies` a sync is answered and not done. It wants the right to mount, as behind `unshare -rm`.
"""
import ctypes
import errno
import os
import random
import stat
import struct
import threading
import time

HEADER, ANSWER = struct.Struct("<IIQQIIIHH"), struct.Struct("<IiQ")
LONGEST = 1 << 20
ROOT = 1
# What the kernel asks.
(LOOKUP, FORGET, GETATTR, SETATTR, UNLINK, RENAME, OPEN, READ, WRITE, STATFS, RELEASE, FSYNC, FLUSH, INIT, OPENDIR, READDIR, RELEASEDIR, FSYNCDIR, CREATE,
 INTERRUPT, DESTROY, BATCH_FORGET, RENAME2) = (1, 2, 3, 4, 10, 12, 14, 15, 16, 17, 18, 20, 25, 26, 27, 28, 29, 30, 35, 36, 38, 42, 45)
UNANSWERED = (FORGET, BATCH_FORGET, INTERRUPT)
BIG_WRITES, MAX_PAGES, DIRECT = 1 << 5, 1 << 22, 1
SETS_MODE, SETS_SIZE = 1, 8


def torn(chance, data, old):
    """What a cut may leave of a write over `old`, which is as long."""
    at, kind = chance.randrange(len(data) + 1), chance.randrange(5)
    return (data, old, data[:at] + old[at:], old[:at] + data[at:], chance.randbytes(len(data)))[kind]


class File:
    """The bytes now, those of the last sync, and what was done since: (place, bytes), or a length alone."""

    def __init__(self, mode, number):
        self.mode, self.number, self.now, self.synced, self.since = mode, number, bytearray(), b"", []

    def write(self, at, data):
        put(self.now, at, data)
        self.since.append((at, bytes(data)))

    def cut_to(self, size):
        resize(self.now, size)
        self.since.append((size, None))

    def sync(self):
        self.synced, self.since = bytes(self.now), []

    def lose(self, chance):
        left = bytearray(self.synced)
        for at, data in self.since:
            if data is None:
                if chance.randrange(2):
                    resize(left, at)
                continue
            old = bytes(left[at:at + len(data)]).ljust(len(data), b"\0")
            found = torn(chance, data, old)
            if found != old or chance.randrange(2):
                put(left, at, found)
        self.now = left
        self.sync()


def put(held, at, data):
    if len(held) < at:
        resize(held, at)
    held[at:at + len(data)] = data


def resize(held, size):
    del held[size:]
    held.extend(bytes(size - len(held)))


class CutDisk:
    """A folder that is mounted while the block lasts."""

    def __init__(self, path, seed=None):
        self.path, self.chance, self.lock = path, random.Random(seed), threading.Lock()
        self.files, self.names, self.synced_names, self.since = {}, {}, {}, []
        self.number, self.syncs, self.writes, self.refuses, self.lies = ROOT, 0, 0, (), False

    def __enter__(self):
        self.device = os.open("/dev/fuse", os.O_RDWR | os.O_CLOEXEC)
        words = f"fd={self.device},rootmode=40755,user_id={os.getuid()},group_id={os.getgid()},max_read={LONGEST}"
        self.libc = ctypes.CDLL(None, use_errno=True)
        if self.libc.mount(b"cut_disk", self.path.encode(), b"fuse", 6, words.encode()) != 0:
            code = ctypes.get_errno()
            os.close(self.device)
            raise OSError(code, os.strerror(code))
        self.thread = threading.Thread(target=self.serve, daemon=True)
        self.thread.start()
        return self

    def __exit__(self, *_):
        self.libc.umount2(self.path.encode(), 2)
        # While the thread still reads, the next disk could be given this device's number, and its questions would be answered here.
        self.thread.join(timeout=60)
        if not self.thread.is_alive():
            os.close(self.device)

    # ---- the power

    def cut(self):
        """What a power cut leaves is what is there from now on. No program has a file open meanwhile."""
        with self.lock:
            for change in self.since[:self.chance.randrange(len(self.since) + 1)]:
                change(self.synced_names)
            self.names, self.since = dict(self.synced_names), []
            for file in self.names.values():
                file.lose(self.chance)

    def names_change(self, change):
        change(self.names)
        self.since.append(change)

    # ---- the kernel's questions

    def serve(self):
        while True:
            try:
                asked = os.read(self.device, LONGEST + 4096)
            except OSError as error:
                if error.errno in (errno.EINTR, errno.ENOENT, errno.EAGAIN):
                    continue
                return
            _, kind, unique, node, *_ = HEADER.unpack_from(asked)
            if kind in UNANSWERED:
                continue
            with self.lock:
                try:
                    code, data = 0, self.answers(kind, node, asked[HEADER.size:])
                except OSError as error:
                    code, data = -error.errno, b""
            try:
                os.write(self.device, ANSWER.pack(ANSWER.size + len(data), code, unique) + data)
            except OSError as error:
                if error.errno != errno.ENOENT:
                    return

    def answers(self, kind, node, body):
        does = {INIT: self.init, LOOKUP: self.lookup, GETATTR: self.getattr, SETATTR: self.setattr, UNLINK: self.unlink, RENAME: self.rename,
                RENAME2: self.rename2, OPEN: self.open, CREATE: self.create, READ: self.read, WRITE: self.write, FSYNC: self.fsync,
                FSYNCDIR: self.fsyncdir, OPENDIR: self.open, READDIR: self.readdir, STATFS: self.statfs}
        if kind in (RELEASE, RELEASEDIR, FLUSH, DESTROY):
            return b""
        if kind not in does:
            raise OSError(errno.ENOSYS, "")
        return does[kind](node, body)

    def init(self, _, body):
        minor = struct.unpack_from("<I", body, 4)[0]
        return struct.pack("<IIIIHHIIHHI28x", 7, min(minor, 31), 0, BIG_WRITES | MAX_PAGES, 16, 12, LONGEST, 1, LONGEST // 4096, 0, 0)

    def file(self, node):
        if node not in self.files:
            raise OSError(errno.ENOENT, "")
        return self.files[node]

    def named(self, body):
        name = body.split(b"\0")[0]
        if name not in self.names:
            raise OSError(errno.ENOENT, "")
        return name

    def attributes(self, node):
        now = int(time.time())
        if node == ROOT:
            size, mode, links = 0, stat.S_IFDIR | 0o755, 2
        else:
            file = self.file(node)
            size, mode, links = len(file.now), file.mode, list(self.names.values()).count(file)
        return struct.pack("<QQQQQQIIIIIIIIII", node, size, -(-size // 512), now, now, now, 0, 0, 0, mode, links, os.getuid(), os.getgid(), 0, 4096, 0)

    def entry(self, node):
        return struct.pack("<QQQQII", node, 0, 0, 0, 0, 0) + self.attributes(node)

    def lookup(self, _, body):
        return self.entry(self.names[self.named(body)].number)

    def getattr(self, node, _):
        return struct.pack("<QII", 0, 0, 0) + self.attributes(node)

    def setattr(self, node, body):
        valid, _, _, size = struct.unpack_from("<IIQQ", body)
        if node != ROOT and valid & SETS_SIZE:
            self.file(node).cut_to(size)
        if node != ROOT and valid & SETS_MODE:
            self.file(node).mode = stat.S_IFREG | struct.unpack_from("<I", body, 68)[0] & 0o7777
        return self.getattr(node, b"")

    def open(self, node, _):
        if node != ROOT:
            self.file(node)
        return struct.pack("<QII", 0, DIRECT, 0)

    def create(self, _, body):
        _, mode, *_ = struct.unpack_from("<IIII", body)
        name = body[16:].split(b"\0")[0]
        if name in self.names:
            raise OSError(errno.EEXIST, "")
        self.number += 1
        file = self.files[self.number] = File(stat.S_IFREG | mode & 0o7777, self.number)
        self.names_change(lambda names: names.update({name: file}))
        return self.entry(file.number) + self.open(file.number, b"")

    def unlink(self, _, body):
        name = self.named(body)
        self.names_change(lambda names: names.pop(name, None))
        return b""

    def moved(self, body):
        old, new = body.split(b"\0")[:2]
        file = self.names[self.named(old)]
        self.names_change(lambda names: (names.pop(old, None), names.update({new: file})))
        return b""

    def rename(self, _, body):
        return self.moved(body[8:])

    def rename2(self, _, body):
        return self.moved(body[16:])

    def read(self, node, body):
        _, at, size = struct.unpack_from("<QQI", body)
        return bytes(self.file(node).now[at:at + size])

    def write(self, node, body):
        if WRITE in self.refuses:
            raise OSError(errno.EROFS, "")
        _, at, size = struct.unpack_from("<QQI", body)
        self.file(node).write(at, body[40:40 + size])
        self.writes += 1
        return struct.pack("<II", size, 0)

    def fsync(self, node, _):
        if FSYNC in self.refuses:
            self.file(node).lose(self.chance)
            raise OSError(errno.EIO, "")
        if not self.lies:
            self.file(node).sync()
        self.syncs += 1
        return b""

    def fsyncdir(self, *_):
        self.synced_names, self.since = dict(self.names), []
        return b""

    def readdir(self, _, body):
        _, first, size = struct.unpack_from("<QQI", body)
        found = b""
        for place, (name, file) in enumerate(sorted(self.names.items())):
            item = struct.pack("<QQII", file.number, place + 1, len(name), 8) + name
            item += bytes(-len(item) % 8)
            if place >= first and len(found) + len(item) <= size:
                found += item
        return found

    def statfs(self, *_):
        return struct.pack("<QQQQQIIIIIIIIII", 1 << 20, 1 << 19, 1 << 19, 1 << 20, 1 << 19, 4096, 255, 4096, 0, 0, 0, 0, 0, 0, 0)
