"""In which order `kbroker start --data` calls the system: what it syncs before a name changes, before it listens, and before a
reply leaves. A kill can't show this, since the system keeps what a process has written. And what comes of each call that fails.

The calls are those that strace tells, and has fail, where it is there and may look; else the cases can't be tried, and that is told.
"""
import contextlib
import functools
import os
import re
import shutil
import signal
import subprocess
import tempfile
import time

from cases.kept_runs import (
    FAILED,
    FILLING,
    IN_THE_MAKING,
    JOURNAL,
    SNAPSHOT,
    TOPICS,
    Ended,
    Kept,
    Story,
    acknowledged_of,
    content,
    folded,
    has_state,
    has_what_was_acknowledged,
    lay,
    new,
    new_folder,
    plainly,
    recovered,
    write,
)
from cases.kept_watched import by_path_or_handle, name_in
from cases.started import CannotBeTried, Fault, holds, is_soon, reply, request, same
from models import kept_files

CALL = re.compile(r"(?:\d+ +)?(\w+)\((.*)\) += (-?\d+)")
OPEN_FILE = re.compile(r"(?:AT_FDCWD|-?\d+)<([^>]*)>")
NAMES = re.compile(r'"([^"]*)"')
KINDS = {"write": "write", "writev": "write", "pwrite64": "write", "pwritev": "write", "sendto": "write", "sendmsg": "write"}
KINDS |= {"fsync": "sync", "fdatasync": "sync", "ftruncate": "cut", "mkdir": "make", "mkdirat": "make"}
KINDS |= {"rename": "rename", "renameat": "rename", "renameat2": "rename", "unlink": "remove", "unlinkat": "remove"}


@functools.cache
def can_trace():
    """Whether strace is there, and may look at a process."""
    if shutil.which("strace") is None:
        return False
    with tempfile.NamedTemporaryFile() as file:
        ran = subprocess.run(["strace", "-D", "-o", file.name, "true"], stderr=subprocess.DEVNULL)
        return ran.returncode == 0 and is_soon(lambda: "exited" in open(file.name, encoding="ascii").read(), 2)


class Traced(Kept):
    """A program whose calls are told."""

    def __init__(self, program, folder, *arguments, **ways):
        super().__init__(shutil.which("strace"), folder, *arguments, **ways)
        self.trace = f"{os.path.dirname(folder)}/calls"
        told = ["-D", "-f", "-y", "-s", "32", "-o", self.trace, "-e", "trace=" + ",".join(KINDS)]
        self.command = ["strace", *told, program, *self.command[1:]]

    def calls(self):
        """What it called, once it is gone: each a kind, a name, which is `socket` of a connection, `listening` of the line that it
        listens, and `.` of the directory, and what the call gave."""
        time.sleep(0.5)  # (a call that a kill cuts off has no end that is told)
        same("the status", self.end(), -signal.SIGKILL)
        is_soon(lambda: "+++ killed" in self.read_trace())
        found = [CALL.match(it) for it in self.read_trace().splitlines()]
        return [it for it in (self.event_of(*each.groups()) for each in found if each) if it]

    def read_trace(self):
        with open(self.trace, encoding="ascii", errors="replace") as file:
            return file.read()

    def event_of(self, call, arguments, result):
        if int(result) < 0:
            return None
        kind, opened = KINDS[call], OPEN_FILE.match(arguments)
        path = opened[1] if opened else ""
        if kind in ("make", "rename", "remove"):
            name = " ".join(name_in(self.folder, it) for it in NAMES.findall(arguments))
        elif kind == "write" and '"listening' in arguments:
            name = "listening"
        elif path.startswith(("socket:", "TCP")):
            name = "socket"
        elif path.startswith("/"):
            name = os.path.relpath(path, self.folder)
        else:
            return None
        return kind, name, int(result)


def plain(calls):
    """Calls without what they gave."""
    return [it[:2] for it in calls]


def until(calls):
    """The calls up to the line that it listens, without what they gave."""
    return plain(calls)[: plain(calls).index(("write", "listening")) + 1]


def since(calls):
    """The calls behind the line that it listens."""
    return calls[plain(calls).index(("write", "listening")) + 1 :]


def unsynced(calls):
    """The files that were written or cut, and not synced since."""
    found = set()
    for kind, name in calls:
        if kind in ("write", "cut"):
            found.add(name)
        if kind == "sync":
            found.discard(name)
    return found - {"listening"}


def comes_before(calls, first, then):
    """The one call must stand before the other."""
    holds(f"{first} isn't called, in {calls}", first in calls)
    holds(f"{then} isn't called, in {calls}", then in calls)
    holds(f"{then} is called before {first}, in {calls}", calls.index(first) < calls.index(then))


RENAME = ("rename", f"{IN_THE_MAKING} {SNAPSHOT}")


def made_in_order(program):
    """A new directory: it and its parent are synced, each file is before the snapshot gets its name, and the names are before it
    listens."""
    with new_folder() as folder:
        with Traced(program, folder) as broker:
            calls = until(broker.calls())
    comes_before(calls, ("make", "."), ("sync", ".."))
    comes_before(calls, ("sync", ".."), RENAME)
    comes_before(calls, ("write", JOURNAL), RENAME)
    comes_before(calls, ("write", IN_THE_MAKING), RENAME)
    same(f"what isn't synced when the snapshot gets its name, in {calls}", unsynced(calls[: calls.index(RENAME)]), set())
    holds(f"the names aren't synced, in {calls}", ("sync", ".") in calls[calls.index(RENAME) :])
    same(f"what isn't synced when it listens, in {calls}", unsynced(calls), set())


def cut_in_order(program):
    """A journal whose end is torn is cut, and then synced, before it listens; one that is sound is synced all the same, since it
    may stand in no more than the system's memory. What was in the making is removed."""
    sound = kept_files.journal([[request("produce t:0 batch a=1")]])
    for behind in (b"", bytes(9)):
        with new_folder() as folder:
            lay(folder, sound + behind)
            write(folder, IN_THE_MAKING, b"of a start before")
            with Traced(program, folder) as broker:
                calls = until(broker.calls())
            same(f"the cuts of {len(behind)} bytes, in {calls}", calls.count(("cut", JOURNAL)), len(behind) // 9)
            comes_before(calls, ("sync", JOURNAL), ("write", "listening"))
            comes_before(calls, ("remove", IN_THE_MAKING), ("write", "listening"))
            same(f"what isn't synced when it listens, in {calls}", unsynced(calls), set())


def rotated_in_order(program):
    """A snapshot that is taken while it runs: the last journal is synced before the next one is made, that and its name are before a
    group goes there and before the snapshot is begun; the snapshot is synced before it gets its name, and the name before a lower file
    is cut or removed."""
    for sync in ("always", "60000", "never"):
        with new_folder() as folder:
            with Traced(program, folder, "--snapshot-after", "5000000", sync=sync) as broker:
                with broker.client() as client:
                    for number in range(6):
                        client.ask("produce t:0 batch a={b*900000}", f"produced t:0 0 {number}")
                    client.ask("produce t:1 batch a=1", "produced t:1 0 0")
                is_soon(lambda: sorted(os.listdir(folder)) == ["journal.2", "snapshot.2"])
                calls = plain(since(broker.calls()))
        made, named = calls.index(("write", "journal.2")), calls.index(("rename", f"{IN_THE_MAKING} snapshot.2"))
        begun = calls.index(("write", IN_THE_MAKING))
        same(f"with {sync} what isn't synced when the next journal is made, in {calls}", unsynced(calls[:made]) - {"socket"}, set())
        holds(f"with {sync} the next journal isn't synced before the snapshot is begun", ("sync", "journal.2") in calls[made:begun])
        synced = made + calls[made:].index(("sync", "journal.2"))
        holds(f"with {sync} its name isn't, in {calls}", ("sync", ".") in calls[synced:begun])
        holds(f"with {sync} the snapshot isn't synced when it gets its name", IN_THE_MAKING not in unsynced(calls[:named]))
        lower = [index for index, it in enumerate(calls) if it[0] in ("cut", "remove") and it[1] in (JOURNAL, SNAPSHOT)]
        holds(f"with {sync} the name isn't synced before a file goes, in {calls}", ("sync", ".") in calls[named : lower[0]])
        same(f"with {sync} the files that go", {calls[it] for it in lower}, {("cut", JOURNAL), ("remove", JOURNAL), ("remove", SNAPSHOT)})


PRODUCED = reply("produced t:0 0 0")


def many_ask(broker):
    """Clients that all produce, each with some requests on the way at once."""
    with contextlib.ExitStack() as stack:
        clients = [stack.enter_context(broker.client()) for _ in range(8)]
        for _ in range(20):
            for index, it in enumerate(clients):
                it.send(request(f"produce t:{index % 2} batch a=1") * 3)
        for it in clients:
            it.stop()
        for it in clients:
            same("the bytes of the replies", len(it.rest()), 60 * len(PRODUCED))


def frames_within(groups, end):
    """How many frames stand in the groups before a byte offset."""
    return sum(len(kept_files.frames_of(it)) for it in groups if it.end <= end)


def replies_follow(sync, calls, groups):
    """No more replies may have left than frames were written, and with `always` synced, at any time."""
    written = synced = kept_files.HEAD_SIZE
    left = 0
    for kind, name, size in calls:
        written += size if (kind, name) == ("write", JOURNAL) else 0
        synced = written if (kind, name) == ("sync", JOURNAL) else synced
        left += size if name == "socket" else 0
        there = frames_within(groups, synced if sync == "always" else written)
        holds(f"with {sync} {left} bytes of replies have left for {there} frames", left <= there * len(PRODUCED))
    same(f"with {sync} the bytes of the replies", left, 480 * len(PRODUCED))
    same(f"with {sync} what is written at last is synced", synced == written, sync != "never")


def synced_before_it_leaves(program):
    """With `always` no reply leaves before its frame is synced, whoever else is served; with the other ways it is written before,
    and with milliseconds it is synced in the end, where nobody sends."""
    for sync in ("always", "50", "never"):
        with new_folder() as folder:
            with Traced(program, folder, sync=sync) as broker:
                many_ask(broker)
                time.sleep(1)
                calls = since(broker.calls())
            replies_follow(sync, calls, kept_files.groups_of(content(folder, JOURNAL)))
            syncs = plain(calls).count(("sync", JOURNAL))
            holds(f"with {sync} {syncs} syncs", (syncs == 0) == (sync == "never"))


def written_before_it_leaves(program):
    """One request after the other: in each way a group is written before its reply leaves."""
    for sync in ("always", "60000", "never"):
        with new_folder() as folder:
            with Traced(program, folder, sync=sync) as broker, broker.client() as client:
                for number in range(10):
                    client.ask("produce t:0 batch a=1", f"produced t:0 0 {number}")
                calls = plain(since(broker.calls()))
        written = False
        for kind, name in calls:
            holds(f"with {sync} a reply leaves before its group is written", written or name != "socket")
            written = name == JOURNAL or written and name != "socket"
        same(f"with {sync} the replies", calls.count(("write", "socket")), 10)


# ---- calls that fail

# calls on the directory's files that a start makes, and an error of each
ERRORS = [("openat", "EMFILE"), ("flock", "ENOLCK"), ("getdents64", "EIO"), ("statx", "EIO"), ("pread64", "EIO")]
ERRORS += [("write", "ENOSPC"), ("pwrite64", "ENOSPC"), ("fsync", "EIO"), ("fdatasync", "EIO"), ("rename", "EIO"), ("ftruncate", "EIO"), ("unlink", "EIO")]


class Failing(Kept):
    """A program of whose calls of a kind, on the directory and its files, one fails: the one of this number, from 1."""

    def __init__(self, program, folder, call, error, number, names=("", JOURNAL, SNAPSHOT, IN_THE_MAKING, ".."), arguments=(), **ways):
        super().__init__(shutil.which("strace"), folder, *arguments, **ways)
        self.trace = f"{os.path.dirname(folder)}/calls"
        told = ["-D", "-f", "-o", self.trace, *by_path_or_handle(folder, names), "-e", f"trace={call}", "-e", f"inject={call}:error={error}:when={number}"]
        self.command = ["strace", *told, program, *self.command[1:]]

    def has_failed(self):
        """Whether it came to that call; once it is gone."""
        is_soon(lambda: "+++" in self.read_trace())
        return "(INJECTED)" in self.read_trace()

    def read_trace(self):
        with open(self.trace, encoding="ascii", errors="replace") as file:
            return file.read()


TORN = [request("produce t:0 batch a=1"), request("commit t:1 5")]


def fails_at(program, call, error, number, is_torn):
    """A start on a new directory, or on one whose journal has a torn end, where one call fails: it must end with status 4 and a
    line of a file, and the next start must find all. Whether there is such a call."""
    with new_folder() as folder:
        journal = kept_files.journal([[it] for it in TORN]) + bytes(9)
        if is_torn:
            lay(folder, journal)
            write(folder, IN_THE_MAKING, b"of a start before")
        what, starting = f"{call} {number} of a start fails", Failing(program, folder, call, error, number)
        try:
            with starting as broker:
                broker.said()
        except Ended as ended:
            same(f"{what}: the status", ended.status, FAILED)
            holds(f"{what}: {ended.lines}", len(ended.lines) == 1 and ended.lines[0].startswith(f"kbroker: {folder}"))
            holds(f"{what}: it ended, and not by that", starting.has_failed())
        else:
            same(f"{what}: it listens, and the call has failed", starting.has_failed(), False)
        with Kept(program, folder) as broker:
            may_say = [recovered(2), recovered(2, 9, len(journal) - 9)] if is_torn else [recovered(0), new(folder)]
            holds(f"{what}, and then: {broker.said()}", broker.said() in may_say)
            has_state(broker, kept_files.node_after(TORN if is_torn else [], kept_files.topics_of(TOPICS)), what)
        return starting.has_failed()


def each_call_fails(program):
    """Each call of a start fails in turn, of a start on a new directory and of one that has to cut a journal."""
    for call, error in ERRORS:
        counts = []
        for is_torn in (False, True):
            number = 1
            while fails_at(program, call, error, number, is_torn):
                number += 1
            counts.append(number - 1)
        holds(f"no {call} is called", any(counts))


def each_write_fails(program):
    """A write or a sync of the journal fails while it runs: it ends with status 4 and the file's line, and the next start has what
    was acknowledged."""
    # of the start are the write of the head and two syncs; then each group has one of both
    for call, error, first in (("write", "EIO", 2), ("fdatasync", "EIO", 3)):
        for number in range(first, 10):
            with new_folder() as folder:
                with Failing(program, folder, call, error, number, [JOURNAL]) as broker:
                    acknowledged = acknowledged_of(broker, FILLING[:20])
                    status, lines = broker.ends_by_itself()
                same(f"the status where {call} {number} fails", status, FAILED)
                holds(f"the last line where {call} {number} fails: {lines}", lines[-1].startswith(f"kbroker: {folder}/{JOURNAL}: "))
                has_what_was_acknowledged(program, folder, acknowledged)


ROTATED = ["", JOURNAL, SNAPSHOT, "journal.2", "snapshot.2", "journal.3", "snapshot.3", IN_THE_MAKING]


def snapshot_fails_at(program, call, error, number):
    """A call fails while snapshots are taken: the broker goes on, or ends with status 4; the next start has what was acknowledged.
    Whether there is such a call, and whether it went on."""
    with new_folder() as folder:
        with Kept(program, folder):
            pass
        starting, is_over = Failing(program, folder, call, error, number, ROTATED, ("--snapshot-after", "2500")), False
        acknowledged = 0
        try:
            with starting as broker:
                acknowledged = acknowledged_of(broker, FILLING)
                is_over = acknowledged < len(FILLING)
                if is_over:
                    same(f"{call} {number}: the status", broker.ends_by_itself()[0], FAILED)
        except Ended as ended:
            same(f"{call} {number}: the status of the start", ended.status, FAILED)
        with Kept(program, folder) as broker:
            found_ = [kept_files.node_after(FILLING[:it], kept_files.topics_of(TOPICS)) for it in (acknowledged, acknowledged + 1)]
            try:
                has_state(broker, found_[0], f"{call} {number}")
            except Fault:
                has_state(broker, found_[1], f"{call} {number}, with one more")
        return starting.has_failed(), not is_over and acknowledged > 0


def each_call_of_snapshots_fails(program):
    """Each call on files fails in turn, from the start on and while snapshots are taken."""
    for call, error in ERRORS:
        if call in ("flock", "ftruncate"):
            continue
        number, went_on = 1, 0
        while True:
            failed, on = snapshot_fails_at(program, call, error, number)
            if not failed or number > 60:
                break
            number, went_on = number + (1 if number < 12 else 5), went_on + on
        holds(f"no {call} is called", number > 1)
        holds(f"the broker never went on behind a {call} that failed", went_on > 0 or call not in ("pwrite64", "rename"))


# calls of a snapshot that fail, by their number or from a number on, on some names; the line that is said, and the names that are there
# then where the broker goes on. Of `fsync` on the directory the first is the start's, the second for the next journal's name, and the
# third for the snapshot's name. One that fails is never asked again: the broker ends.
OF_A_SNAPSHOT = [
    ("fdatasync", 1, ["journal.2"], "snapshot: journal.2: ", [JOURNAL, SNAPSHOT]),
    ("fsync", 2, [""], "kbroker: {}: ", None),
    ("fsync", "2+", [""], "kbroker: {}: ", None),
    ("fdatasync,unlink", "1+", ["journal.2"], "kbroker: {}/journal.2: ", None),
    ("pwrite64", 1, [IN_THE_MAKING], "snapshot: snapshot.tmp: ", [JOURNAL, "journal.2", SNAPSHOT]),
    ("fsync", 3, [""], "kbroker: {}: ", None),
    ("unlink", "1+", [JOURNAL], "snapshot: journal.1: ", [JOURNAL, "journal.2", "snapshot.2"]),
]


def snapshot_left_at(program, call, number, names, line, there):
    """A call of a snapshot fails: it is said, once; where the broker can't go on it ends, and else it rests, and leaves no file that it
    was making."""
    what, small = f"{call} {number} on {names}", ["produce t:1 batch b=1", "commit t:1 1"]
    with new_folder() as folder:
        with Kept(program, folder):
            pass
        story = Story()
        with Failing(program, folder, call, "EIO", number, names, ("--snapshot-after", "1500")) as broker:
            story.tell(broker, ["produce t:0 batch k={a*1600}"])
            if there is None:
                holds(f"{what}: it goes on, and says {broker.lines}", is_soon(lambda: broker.process.poll() is not None, 10))
                status, lines = broker.ends_by_itself()
                same(f"{what}: the status", status, FAILED)
                holds(f"{what}: {lines}", lines[-1].startswith(line.format(folder)))
            else:
                holds(f"{what}: nothing is said", is_soon(lambda: len(broker.lines) > 1))
                story.tell(broker, small)
                broker.rests(what)
                said = [it for it in broker.lines if it.startswith("snapshot: ")]
                holds(f"{what}: {said}", len(said) == 1 and said[0].startswith(line))
                same(f"{what}: the names", sorted(os.listdir(folder)), sorted(there))
        with Kept(program, folder) as broker:
            story.stands(broker, what)


def snapshots_left(program):
    """What is there behind each call of a snapshot that fails."""
    for row in OF_A_SNAPSHOT:
        snapshot_left_at(program, *row)


# calls of a start with --fold, or with a partition more, that fail behind what it recovered, and the line
OF_A_FOLD = [
    ("fdatasync", 2, [JOURNAL], "kbroker: {}/journal.1: "),
    ("fdatasync", 1, ["journal.2"], "kbroker: {}/journal.2: "),
    ("fsync", 2, [""], "kbroker: {}: "),
    ("pwrite64", 1, [IN_THE_MAKING], "kbroker: {}/snapshot.tmp: "),
    ("pwrite64", 3, [IN_THE_MAKING], "kbroker: {}/snapshot.tmp: "),
    ("fdatasync", 2, [IN_THE_MAKING], "kbroker: {}/snapshot.tmp: "),
    ("rename", 1, [IN_THE_MAKING], "kbroker: {}/snapshot.2: "),
    ("fsync", 3, [""], "kbroker: {}: "),
]


def folds_that_fail(program):
    """A start that is to take a snapshot, and of which a call fails then, ends with status 4 and the file's line, and doesn't say that
    there is one; the next start has all."""
    for call, number, names, line in OF_A_FOLD:
        for more, topics in ((["--fold"], TOPICS), ([], ("t:3",))):
            what = f"{call} {number} on {names}, {more}"
            with new_folder() as folder:
                lay(folder, kept_files.journal([[it] for it in TORN]))
                try:
                    with Failing(program, folder, call, "EIO", number, names, more, topics=topics) as broker:
                        raise Fault(f"{what}: it listens, and says {broker.lines}")
                except Ended as ended:
                    same(f"{what}: the status", ended.status, FAILED)
                    holds(f"{what}: {ended.lines}", len(ended.lines) == 1 and ended.lines[0].startswith(line.format(folder)))
                with Kept(program, folder) as broker:
                    has_state(broker, kept_files.node_after(TORN, kept_files.topics_of(TOPICS)), what)


def stays(program, folder, names, said, *arguments):
    """A start of which each removal of a journal fails must do all else: it says this, and these names are there then. The next one
    removes what is of no use."""
    try:
        with Failing(program, folder, "unlink", "EIO", "1+", [JOURNAL, "journal.2"], arguments) as broker:
            is_soon(lambda: sorted(os.listdir(folder)) == names and len(plainly(broker.lines)) >= len(said))
            same("what it says", plainly(broker.lines), said)
            has_state(broker, kept_files.node_after(TORN, kept_files.topics_of(TOPICS)), "the start whose removals fail")
    except Ended as ended:
        same("the status and the lines", (ended.status, plainly(ended.lines)), (0, said))
    same("the names where a removal fails", sorted(os.listdir(folder)), names)
    with Kept(program, folder) as broker:
        has_state(broker, kept_files.node_after(TORN, kept_files.topics_of(TOPICS)), "the next start")
    same("the names behind the next start", sorted(os.listdir(folder)), names[-2:])


def removals_that_fail(program):
    """A journal of no use that can't be removed keeps no start from going on, nor one with --fold from taking its snapshot; the snapshot
    of its number goes all the same."""
    node, names = kept_files.node_after([], kept_files.topics_of(TOPICS)), kept_files.topics_of(TOPICS)
    with new_folder() as folder:
        lay(folder, kept_files.journal([[it] for it in TORN]))
        stays(program, folder, [JOURNAL, "journal.2", "snapshot.2"], [recovered(2), folded(2)], "--fold")
        shutil.rmtree(folder)
        os.mkdir(folder)
        files = kept_files.row_of(node, names, 3, [[it] for it in TORN])
        for name, data in {**files, JOURNAL: b"x", SNAPSHOT: b"y", "journal.2": b"z", "snapshot.2": b""}.items():
            write(folder, name, data)
        stays(program, folder, [JOURNAL, "journal.2", "journal.3", "snapshot.3"], [recovered(2, snapshot=3)])


def answered_behind_a_snapshot(program):
    """One client that sends again at once, whose frame is put off for an image: where that can't be written the frame is handled all the
    same, though nobody else sends. Each first image of a snapshot fails."""
    with new_folder() as folder:
        with Kept(program, folder):
            pass
        with Failing(program, folder, "pwrite64", "EIO", "2+2", [IN_THE_MAKING], ("--snapshot-after", "1500")) as broker:
            story = Story()
            for turn in range(8):  # (what is refused stands in the journal, and not in the snapshot)
                story.tell(broker, ["produce t:5 batch k={a*1600}", f"produce t:{turn % 2} batch b=1"])
            said = [it for it in broker.lines if it.startswith("snapshot: ")]
        holds(f"{len(said)} snapshots weren't taken, of 8", len(said) > 3)


# ---- names that a start left unsynced


class KilledAt(Kept):
    """A program that is killed as it comes to its `fsync` of this number: 1 of a new directory, with the journal's name, 2 of the one it
    stands in, 3 of the snapshot's name."""

    def __init__(self, program, folder, number):
        super().__init__(shutil.which("strace"), folder)
        told = ["-D", "-f", "-o", "/dev/null", "-e", "trace=fsync", "-e", f"inject=fsync:error=EIO:signal=KILL:when={number}"]
        self.command = ["strace", *told, program, *self.command[1:]]


def names_synced_in_the_end(program):
    """What a start that was killed left unsynced the next one syncs before it listens: the directory's own name, and the snapshot's."""
    for number, wanted in ((1, ("sync", "..")), (2, ("sync", "..")), (3, ("sync", "."))):
        with new_folder() as folder:
            try:
                with KilledAt(program, folder, number):
                    raise Fault("it listens")
            except Ended:
                pass
            with Traced(program, folder) as broker:
                calls = until(broker.calls())
            holds(f"killed at {number}, {wanted} among {calls}", wanted in calls)


def where_it_can_be_seen(case):
    """A case that can't be tried where calls can't be told."""

    @functools.wraps(case)
    def tried(program):
        if not can_trace():
            raise CannotBeTried("strace isn't there or may not look")
        case(program)

    return tried


CASES = [
    ("the order in which a directory is made", where_it_can_be_seen(made_in_order)),
    ("the order in which a journal is cut", where_it_can_be_seen(cut_in_order)),
    ("the order in which a snapshot is taken", where_it_can_be_seen(rotated_in_order)),
    ("names that a killed start left", where_it_can_be_seen(names_synced_in_the_end)),
    ("what is synced before a reply leaves", where_it_can_be_seen(synced_before_it_leaves)),
    ("what is written before a reply leaves", where_it_can_be_seen(written_before_it_leaves)),
    ("each call of a start that fails", where_it_can_be_seen(each_call_fails)),
    ("each write and sync of a journal that fails", where_it_can_be_seen(each_write_fails)),
    ("a call that fails of a snapshot at the start", where_it_can_be_seen(folds_that_fail)),
    ("a removal that fails at the start", where_it_can_be_seen(removals_that_fail)),
    ("a frame that was put off, and a snapshot that fails", where_it_can_be_seen(answered_behind_a_snapshot)),
    ("what a snapshot leaves where a call fails", where_it_can_be_seen(snapshots_left)),
    ("each call of snapshots that fails", where_it_can_be_seen(each_call_of_snapshots_fails)),
]
