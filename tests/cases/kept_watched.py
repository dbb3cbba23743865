"""A `kbroker start --data` of which each call on its directory is told with all its bytes; what of these a disk has, whatever becomes of
the machine; and small disks.

The calls are those that strace tells (tests/cases/kept_calls.py). A directory is known by its path, or by a handle of it: then the path
of a file in it is /proc/self/fd/N/NAME.
"""
import collections
import contextlib
import os
import re
import shutil
import signal
import subprocess
import tempfile
import time

from cases.kept_runs import Kept, write
from cases.started import CannotBeTried, holds, is_soon, same

KINDS = {"openat": "open", "write": "write", "pwrite64": "write", "sendto": "write", "sendmsg": "write", "writev": "write"}
KINDS |= {"fsync": "sync", "fdatasync": "sync", "ftruncate": "cut", "mkdir": "make", "rename": "rename", "unlink": "remove"}
READS = ["pread64"]
CALL = re.compile(r"(?:\d+ +)?(\w+)\((.*)\) += (-?\d+)(.*)")
OPENED = re.compile(r"(-?\d+)<([^>]*)>")
QUOTED = re.compile(r'"((?:[^"\\]|\\.)*)"')
BY_HANDLE = re.compile(r"/proc/(?:self|\d+)/fd/\d+/(.+)")
HANDLES = range(3, 16)  # what the number of a directory's handle may be
MOST_SHOWN = 4_000_000  # bytes of a call that are told

# a call: its kind, and its name, which is `socket` of a connection, `listening` of the line that it listens, `.` of the directory and
# `..` of its parent, and of a rename both; what it gave; the descriptor, whether that appends; the byte offset, or a cut's size; the bytes
Event = collections.namedtuple("Event", "kind name gave handle appends at data")


def bytes_of(quoted):
    """The bytes that strace shows in quotes."""
    return quoted.encode("latin-1").decode("unicode_escape").encode("latin-1")


def by_path_or_handle(folder, names):
    """The words with which strace looks at calls on these names of a directory alone, and says nothing of it; '' is itself."""
    paths = [os.path.normpath(f"{folder}/{name}") for name in names]
    paths += [f"/proc/self/fd/{number}/{name}" for name in names if name for number in HANDLES]
    return ["--quiet=attach,personality,path-resolution", *(word for it in paths for word in ("-P", it))]


def name_in(folder, path):
    """The name in a directory of a file that a path leads to, which goes by the directory's path or by a handle of it; `..` and the like
    of what isn't in it."""
    by_handle = BY_HANDLE.fullmatch(path)
    return by_handle[1] if by_handle else os.path.relpath(path, folder)


def resume(pid):
    """Has a process go on that was stopped. (A signal that comes just as strace sees it stop may be lost, so it is sent until it runs.)"""

    def runs():
        try:
            os.kill(pid, signal.SIGCONT)
            time.sleep(0.02)
            with open(f"/proc/{pid}/stat", encoding="ascii") as file:
                return file.read().rpartition(")")[2].split()[0] not in "Tt"
        except (FileNotFoundError, ProcessLookupError):  # it has come to its end by now
            return True

    holds("it doesn't go on", is_soon(runs, 20))


class Watched(Kept):
    """A program whose calls on its directory are told. `names` are those of the files whose calls alone are told, all unless it is
    given; `inject` is what strace has fail, stop or wait, as `fdatasync:error=EIO:when=3`, among the calls that are told; `before` are
    words that stand before the program. With `reads` those of files are told too."""

    def __init__(self, program, folder, *arguments, names=None, inject=(), inside=None, before=(), reads=False, **ways):
        super().__init__(shutil.which("strace"), folder, *arguments, **ways)
        self.room, self.inside = tempfile.TemporaryDirectory(), inside or folder
        self.trace = f"{self.room.name}/calls"  # (not beside the directory, which may be on a full disk)
        words = ["-D", "-f", "-y", "-s", str(MOST_SHOWN), "-o", self.trace]
        words += [] if names is None else by_path_or_handle(self.inside, names)
        words += ["-e", "trace=" + ",".join([*KINDS, *READS[: int(reads)], *(it.split(":")[0] for it in inject)])]
        words += [word for it in inject for word in ("-e", f"inject={it}")]
        self.command = ["strace", *words, *before, program, *self.command[1:]]

    def kill(self):
        with contextlib.suppress(ProcessLookupError):
            self.process.send_signal(signal.SIGCONT)
        super().kill()

    def read_trace(self):
        if not os.path.exists(self.trace):
            return ""
        with open(self.trace, encoding="latin-1") as file:
            return file.read()

    def waits_until_stopped(self):
        """It has come to the call at which it is to stop."""
        holds("it doesn't come to the call at which it is to stop", is_soon(lambda: "--- stopped by SIGSTOP ---" in self.read_trace()))

    def goes_on(self):
        resume(self.process.pid)

    def has_injected(self):
        return "(INJECTED)" in self.read_trace()

    def events(self):
        """All calls up to its end, once it is gone; where it isn't, it is killed."""
        if self.process.poll() is None:
            is_soon(lambda: not self.is_in_a_call(), 5)
            same("the status", self.end(), -signal.SIGKILL)
        is_soon(lambda: "+++ killed" in self.read_trace() or "+++ exited" in self.read_trace())
        opened, told = {}, []
        for line in self.read_trace().splitlines():
            if found := CALL.match(line):
                event = self.event_of(*found.groups(), opened)
                told += [event] if event else []
        return told

    def is_in_a_call(self):
        """Whether the last call that is told has no end yet."""
        lines = self.read_trace().splitlines()
        return bool(lines) and not lines[-1].startswith("+++") and "(" in lines[-1] and ") = " not in lines[-1]

    def name_of(self, path):
        if path.startswith(("socket:", "TCP")):
            return "socket"
        return path if path.startswith(("pipe:", "anon_inode:")) else name_in(self.inside, path)

    def event_of(self, call, arguments, gave, _, opened):
        """A call as it is told, of which `opened` says what the descriptors stand for; or none that matters."""
        kind, gave = "read" if call in READS else KINDS.get(call), int(gave)
        if kind in ("make", "rename", "remove", "open"):
            name = " ".join(self.name_of(os.fsdecode(bytes_of(it))) for it in QUOTED.findall(arguments)[: 2 if kind == "rename" else 1])
            if kind == "open" and gave >= 0:
                opened[gave] = "O_APPEND" in arguments
            return Event(kind, name, gave, gave if kind == "open" else None, "O_APPEND" in arguments, 0, arguments.encode("latin-1"))
        there = OPENED.match(arguments)
        if not there:
            return None
        handle, name = int(there[1]), self.name_of(there[2])
        data = bytes_of(QUOTED.search(arguments)[1]) if kind == "write" and QUOTED.search(arguments) else b""
        if kind == "write" and data.startswith(b"listening "):
            name = "listening"
        at = int(arguments.rpartition(", ")[2].split("<")[0]) if call in ("pread64", "pwrite64", "ftruncate") else None
        return Event(kind, name, gave, handle, opened.get(handle, False), at, data)


def until_it_listens(events):
    """The calls up to the line that it listens."""
    at = next((at for at, it in enumerate(events) if it.name == "listening"), None)
    holds(f"it doesn't say that it listens: {brief(events)}", at is not None)
    return events[:at]


def brief(events):
    """Calls in few words."""
    return " ".join(f"{it.kind}:{it.name}" + (f"@{it.at}+{len(it.data)}" if it.kind == "write" and it.at is not None else "") for it in events)


# ---- what a disk has


class File:
    """A file: what the system has of it in memory, and what the disk has. `dirty` are the ranges that the disk lacks."""

    def __init__(self, memory=b"", disk=None):
        """Unless it is said what the disk has, that is all."""
        self.memory, self.disk = bytearray(memory), bytearray(memory if disk is None else disk)
        self.dirty = [] if disk is None else [(0, len(memory))]

    def write(self, at, data):
        self.memory.extend(bytes(max(0, at - len(self.memory))))
        self.memory[at : at + len(data)] = data
        self.dirty.append((at, at + len(data)))

    def cut(self, size):
        self.memory[size:] = bytes(max(0, size - len(self.memory)))

    def sync(self, succeeds):
        """What was dirty is on the disk; or it is lost, and clean all the same: so it is on Linux, where a failed write behind is told
        once. Where the file ends is on the disk in any case."""
        self.disk[len(self.memory) :] = bytes(max(0, len(self.memory) - len(self.disk)))
        for at, end in self.dirty if succeeds else []:
            self.disk[at : min(end, len(self.memory))] = self.memory[at:end]
        self.dirty = []


class Disk:
    """The files of a directory in the system's memory and on its disk. It follows the calls of programs, one after the other."""

    def __init__(self, files, is_synced=True):
        """What is there at first, bytes by names; unless it is synced the disk has the names alone."""
        self.names = {name: File(data, None if is_synced else b"") for name, data in files.items()}
        self.on_disk = dict(self.names)

    def take(self, events):
        for it in events:
            if it.kind == "sync" and it.name == ".":
                self.on_disk = dict(self.names) if it.gave >= 0 else self.on_disk
            elif it.kind == "sync" and it.name in self.names:
                self.names[it.name].sync(it.gave >= 0)
            elif it.gave >= 0:
                self.take_change(it)

    def take_change(self, it):
        if it.kind == "open" and b"O_CREAT" in it.data and it.name not in self.names:
            self.names[it.name] = File()
        elif it.kind == "rename":
            old, new = it.name.split(" ")
            self.names[new] = self.names.pop(old)
        elif it.kind == "remove":
            del self.names[it.name]
        elif it.name in self.names:
            file = self.names[it.name]
            if it.kind == "cut":
                file.cut(it.at)
            if it.kind == "write":
                file.write(len(file.memory) if it.at is None or it.appends else it.at, it.data[: it.gave])

    def in_memory(self):
        return {name: bytes(it.memory) for name, it in self.names.items()}

    def behind_a_power_cut(self):
        """What is there once the system's memory is gone."""
        return {name: bytes(it.disk) for name, it in self.on_disk.items()}


def files_of(folder):
    """The bytes of the regular files in a directory."""
    return {it.name: open(it.path, "rb").read() for it in os.scandir(folder) if it.is_file(follow_symlinks=False)}


def lay_files(folder, files):
    """Makes a directory with these files; what was there before goes."""
    shutil.rmtree(folder, ignore_errors=True)
    os.makedirs(folder)
    for name, data in files.items():
        write(folder, name, data)


# ---- small disks

SMALL = 4_000_000  # bytes of the small disk that a case mounts
BLOCK = 4096  # bytes of a block of the small device
LARGEST = 64_000_000  # bytes that the one that is named may have


@contextlib.contextmanager
def small_disk():
    """A folder on a file system of a few MB, by two paths: its own, and the one that is told of descriptors on it. It is mounted where
    that is allowed, in a mount namespace of a process that does nothing else; or KBROKER_SMALL_DISK names it."""
    if named := os.environ.get("KBROKER_SMALL_DISK"):
        if not is_small(named):
            raise CannotBeTried(f"the disk of {named} is larger than {LARGEST} bytes")
        with tempfile.TemporaryDirectory(dir=named) as there:
            yield there, there
        return
    with tempfile.TemporaryDirectory() as there:
        with mounting(f"mount -t tmpfs -o size={SMALL} none {there}") as root:
            if root is None:
                raise CannotBeTried("no small disk can be mounted here, and KBROKER_SMALL_DISK names none")
            yield root + there, there


MEANS = (["unshare", "-m"], ["unshare", "-r", "-m"])  # what makes a mount namespace: as root, and as one that is root's in it alone


@contextlib.contextmanager
def mounting(words):
    """A process that has mounted something by the words of a shell, in a namespace of its own, and stays: where its root directory is
    seen; or none, where that isn't allowed."""
    ways = {"stdin": subprocess.DEVNULL, "stdout": subprocess.PIPE, "stderr": subprocess.DEVNULL}
    for means in MEANS if shutil.which("unshare") else []:
        with subprocess.Popen([*means, "sh", "-c", f"{words} && echo mounted && exec sleep 1000000"], **ways) as holder:
            try:
                if holder.stdout.readline() == b"mounted\n":
                    yield f"/proc/{holder.pid}/root"
                    return
            finally:
                holder.kill()
    yield None


class Device:
    """A file system on a device whose blocks are those of a sparse file on a small disk: where that is full, blocks that were never
    written can't be."""

    def __init__(self, root, there):
        self.disk, self.path, self.there = f"{root}{there}", f"{root}{there}/mounted", there
        self.writes_block_by_block()

    def writes_block_by_block(self):
        """Has each block written by a write of its own. Of a write whose first blocks alone are written, since there is no room for the
        others, some systems tell that it was done, and then a sync says so too."""
        number = os.stat(self.path).st_dev
        with open(f"/sys/dev/block/{os.major(number)}:{os.minor(number)}/queue/max_sectors_kb", "w", encoding="ascii") as most:
            most.write(f"{BLOCK >> 10}")

    def sync(self):
        subprocess.run(["sync", "-f", self.path], check=True)

    def fills_up(self):
        fill(self.disk, 0)

    def has_room(self):
        os.remove(f"{self.disk}/filler")

    @contextlib.contextmanager
    def behind_a_power_cut(self):
        """Where what the device has is mounted once more."""
        shutil.copy(f"{self.disk}/blocks", f"{self.disk}/copy")
        pid = self.disk.split("/")[2]
        words = ["nsenter", "-m", "-t", pid, "mount", "-o", "loop", f"{self.there}/copy", f"{self.there}/again"]
        subprocess.run(words, check=True, stdout=subprocess.DEVNULL, stderr=subprocess.DEVNULL)
        yield f"{self.disk}/again"


@contextlib.contextmanager
def small_device():
    """Such a device, of root's alone."""
    with tempfile.TemporaryDirectory() as there:
        words = f"mount -t tmpfs -o size={3 * SMALL} none {there} && cd {there} && mkdir mounted again && truncate -s {2 * SMALL} blocks"
        words += f" && mkfs.ext2 -q -b {BLOCK} -F blocks && mount -o loop blocks mounted && cd /"
        with mounting(words) as root:
            if root is None or shutil.which("nsenter") is None:
                raise CannotBeTried("no device can be made of a file here")
            yield Device(root, there)


def is_small(folder):
    """Whether a folder's file system is one of some MB."""
    found = os.statvfs(folder)
    return found.f_blocks * found.f_frsize <= LARGEST


def fill(folder, leave):
    """Writes a file until no more than so many bytes are left of the file system."""
    with open(f"{folder}/filler", "ab", buffering=0) as file:
        while (left := left_of(folder) - leave) > 0:
            try:
                file.write(bytes(min(left, 1 << 16)))
            except OSError:
                break


def left_of(folder):
    """How many bytes are left of a file system."""
    found = os.statvfs(folder)
    return found.f_bavail * found.f_frsize
