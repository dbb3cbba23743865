"""A `kbroker start --data` that runs on a directory of its own: what it says, what it must hold, and what is asked of it.

All texts that it says stand here, once.
"""
import contextlib
import os
import re
import resource
import shutil
import signal
import stat
import struct
import subprocess
import tempfile

from cases.started import SECONDS, Ends, Fault, Started, holds, is_soon, request, same
from encoders import frames
from models import broker, kept_files

JOURNAL, SNAPSHOT, IN_THE_MAKING = "journal.1", "snapshot.1", "snapshot.tmp"
WAYS = ("always", "40", "never")
TOPICS = ("t:2",)
REFUSED, ANOTHER, NO_MEMORY, FAILED = 1, 2, 3, 4  # statuses


# ---- what it says


def recovered(count, cut=0, at=0, snapshot=1, journal=None):
    """The line of a start on files that are there."""
    behind = f"; cut {cut} bytes of journal.{journal or snapshot} at {at}" if cut else ""
    return f"recovered snapshot {snapshot}, {count} frames{behind}"


def found(line):
    """The number of the snapshot, and of the frames behind it, in such a line."""
    snapshot, frames = re.match(r"recovered snapshot (\d+), (\d+) frames", line).groups()
    return int(snapshot), int(frames)


def folded(snapshot):
    """The last line of a start that only takes a snapshot."""
    return f"folded into snapshot {snapshot}"


def new(folder):
    """The line of a start that made its files."""
    return f"recovered 0 frames; {folder} is new"


def damaged(folder, name, at, why):
    return f"kbroker: {folder}/{name}: damaged at byte {at}: {why}"


def later(folder, name, why=None):
    return f"kbroker: {folder}/{name}: of a later version" + (f": {why}" if why else "")


def of_another(folder, name, other):
    return f"kbroker: {folder}/{name}: of another directory than {other}"


def missing(folder, name):
    return f"kbroker: {folder}/{name}: missing"


def irregular(folder, name):
    return f"kbroker: {folder}/{name}: not a regular file"


def another(folder, what):
    return f"kbroker: {folder}: {what}"


def in_use(folder):
    return f"kbroker: {folder}: in use"


OUT_OF_MEMORY = "kbroker: out of memory"

# what may be said at any time, on a slow machine too: how far a start is, a snapshot that was taken or not, a sync that took long, and
# a pass of a broker that cleans itself
MEANWHILE = re.compile(r"recovering .*|snapshot( \d+)?: .*|(journal|snapshot)\.\w+: a sync took .*|a sync took .*|cleaned .*|clean .*")


def plainly(lines):
    """The lines of a start that are none of those that may be said at any time."""
    return [it for it in lines if not MEANWHILE.fullmatch(it)]


# ---- the program


class Ended(Fault):
    """It came to no line `listening`: its status, and what stood on standard error."""

    def __init__(self, status, lines):
        super().__init__(f"it ended with status {status} before it listened; standard error has {lines}")
        self.status, self.lines = status, lines


class Kept(Started):
    """A `kbroker start` with a directory. `sync` is the way, `largest` the most bytes that a file may have, `memory` the address
    space, `user` one as whom it runs."""

    def __init__(self, program, folder, *arguments, sync=None, largest=None, memory=None, user=None, topics=TOPICS, **more):
        way = [] if sync is None else ["--sync", sync]
        super().__init__(program, "--data", folder, *way, *arguments, topics=topics, **more)
        self.folder, self.largest, self.space, self.user = folder, largest, memory, user

    def prepare(self):
        super().prepare()
        if self.largest is not None:
            signal.signal(signal.SIGXFSZ, signal.SIG_IGN)
            resource.setrlimit(resource.RLIMIT_FSIZE, (self.largest, self.largest))
        if self.space is not None:
            resource.setrlimit(resource.RLIMIT_AS, (self.space, self.space))
        if self.user is not None:
            os.setgroups([])
            os.setgid(self.user)
            os.setuid(self.user)

    def first_line(self):
        try:
            return super().first_line()
        except Fault:
            raise Ended(self.process.returncode, plainly(self.lines)) from None

    def said(self):
        """The one line that it says before it listens, but for those that may be said at any time."""
        is_soon(lambda: plainly(self.lines))
        others = plainly(Ends(self.lines).others)
        holds(f"not one line at the start: {others}", len(others) == 1)
        return others[0]

    def ends_by_itself(self):
        """Its status, once it is gone, and the lines on standard error that are none of a connection's end."""
        self.is_over = True
        status = self.process.wait(SECONDS)
        self.reader.join()
        return status, Ends(self.lines).others


def refusal(program, folder, *arguments, **ways):
    """The status and the line of a start that must be refused."""
    try:
        with Kept(program, folder, *arguments, **ways) as broker:
            raise Fault(f"it listens, and says {broker.said()!r}")
    except Ended as ended:
        holds(f"not one line: {ended.lines}", len(ended.lines) == 1)
        return ended.status, ended.lines[0]


def refused(program, folder, status, line, *arguments, **ways):
    """A start must be refused with this status and line, and leave the directory as it was. Where that is for its files, a check says the
    same."""
    before = all_of(folder)
    same(f"the refusal of {arguments}", refusal(program, folder, *arguments, **ways), (status, line))
    same("the directory behind a refusal", all_of(folder), before)
    if status == REFUSED:
        same("the status and the line of a check", checked(program, folder), (status, line))
        same("the directory behind a check", all_of(folder), before)


def checked(program, folder):
    """The status of a check, and its last line: of what a start would do, or why it would refuse the directory."""
    ways = {"stdin": subprocess.DEVNULL, "stdout": subprocess.PIPE, "stderr": subprocess.PIPE, "timeout": SECONDS}
    ran = subprocess.run([program, "check", folder], **ways)
    lines = (ran.stderr if ran.returncode else ran.stdout).decode("ascii", "replace").splitlines()
    return ran.returncode, lines[-1] if lines else None


def would(line):
    """What a check says where a start says this."""
    return 0, f"a start would {line.replace('recovered', 'recover', 1)}"


# ---- directories


@contextlib.contextmanager
def new_folder(there=None):
    """The path of a directory that isn't there yet, of which all goes at the end; it stands in a folder that is there, if one is given."""
    with tempfile.TemporaryDirectory(dir=there) as parent:
        yield f"{parent}/data"


def kind_of(path):
    """What a name stands for: a file's bytes, a link's target, or the kind of anything else; and when it was changed."""
    found = os.lstat(path)
    if stat.S_ISREG(found.st_mode):
        with open(path, "rb") as file:
            return found.st_mtime_ns, found.st_mode, file.read()
    if stat.S_ISLNK(found.st_mode):
        return found.st_mtime_ns, found.st_mode, os.readlink(path)
    return found.st_mtime_ns, found.st_mode, None


def all_of(folder):
    """Of each name in a directory, and of itself, what stands there."""
    if not os.path.isdir(folder):
        return None
    there = os.fsencode(folder)
    return {name: kind_of(os.path.join(there, name)) for name in [b".", *os.listdir(there)]}


def write(folder, name, data):
    with open(f"{folder}/{name}", "wb") as file:
        file.write(data)


def content(folder, name):
    with open(f"{folder}/{name}", "rb") as file:
        return file.read()


def key_in(folder, name=JOURNAL):
    """The key of a journal, whose head must be sound."""
    return kept_files.head_of(content(folder, name)).key


def lay(folder, journal, topics=TOPICS, **snapshot):
    """Makes a directory with a journal and a sound snapshot; what was there before goes."""
    os.makedirs(folder, exist_ok=True)
    for name in os.listdir(os.fsencode(folder)):
        os.remove(os.path.join(os.fsencode(folder), name))
    write(folder, SNAPSHOT, kept_files.snapshot(kept_files.topics_of(topics), **snapshot))
    write(folder, JOURNAL, journal)


NOBODY = 65534


@contextlib.contextmanager
def run_by_another(program, folder):
    """A program that another user may run; the folder's parents let everybody in."""
    parent = os.path.dirname(folder)
    os.chmod(parent, 0o755)
    copy = f"{parent}/kbroker"
    shutil.copy(program, copy)
    os.chmod(copy, 0o755)
    yield copy, NOBODY if os.getuid() == 0 else None
    os.chmod(folder, 0o755)


# ---- what it holds


def exported(image):
    return frames.response(struct.pack(">h", 0) + frames.data(image))


def has_state(broker_, node, what):
    """Each partition's image must be that of the model, byte for byte."""
    with broker_.client() as client:
        for name, copies in node.topics.items():
            for index, copy in enumerate(copies):
                client.send(request(f"export {name.decode()}:{index}"))
                client.gets(exported(copy.image()), f"{what}: the image of {name.decode()}:{index}")


class Story:
    """What is asked of a broker, one request after the other, and the plain model that answers likewise. `frames` are those that
    may have changed it."""

    def __init__(self, topics=TOPICS, leads=True, first=0):
        self.node, self.frames = broker.Broker(leads, kept_files.topics_of(topics), first), []

    def ask(self, client, words):
        frame = request(words)
        wanted = self.node.reply(frame[4:])
        if kept_files.may_change(frame):
            self.frames.append(frame)
        client.send(frame)
        client.gets(wanted, f"the reply to {words[:60]}")

    def tell(self, broker_, lines):
        with broker_.client() as client:
            for words in lines:
                self.ask(client, words)

    def stands(self, broker_, what):
        """The broker must be where the model is; it is asked for one more producer id."""
        has_state(broker_, self.node, what)
        with broker_.client() as client:
            self.ask(client, "producer-id")


# ---- runs that end by themselves

FILLING = [request(f"produce t:{number % 2} batch k{number}={{v*{number * 7 % 90}}}") for number in range(60)]


def acknowledged_of(broker, frames):
    """How many of these requests are answered before it ends."""
    node, count = kept_files.node_after([], kept_files.topics_of(TOPICS)), 0
    with broker.client() as client, contextlib.suppress(ConnectionError):
        for it in frames:
            wanted = node.reply(it[4:])
            client.send(it)
            got = client.receive(len(wanted))
            if got != wanted:
                same("what is left of a reply", got, b"")
                break
            count += 1
    return count


def has_what_was_acknowledged(program, folder, acknowledged, listened=True):
    """A start where nothing fails must recover what was acknowledged, and at most what was on the way beside it; where the run
    before didn't come to listen, it makes the directory."""
    with Kept(program, folder) as broker:
        said = broker.said()
        if not listened:
            same("the line behind a start that failed", said, new(folder))
        count = 0 if said == new(folder) else found(said)[1]
        holds(f"{count} frames of {acknowledged} that were acknowledged", acknowledged <= count <= acknowledged + 1)
        node = kept_files.node_after(FILLING[:count], kept_files.topics_of(TOPICS))
        has_state(broker, node, "the state")
