"""What `kbroker start --data` does in its time: groups that are synced within the milliseconds that were asked for, what failed and is tried
again within a minute, and the lines that tell of it.

What must come is worked by hand; the order of calls is what strace tells.
"""
import concurrent.futures
import contextlib
import os
import re
import subprocess
import time

from cases.kept_calls import where_it_can_be_seen
from cases.kept_disks import LARGE, NOWHERE, SOON, NoRoom, first_files, laid, names_in, snapshot_lines, syncs_at_the_start
from cases.kept_runs import IN_THE_MAKING, JOURNAL, Kept, Story, new_folder, recovered
from cases.kept_watched import Watched, brief, resume
from cases.started import CannotBeTried, Fault, holds, is_soon, reply, request, same, slow

A_MINUTE = "a minute must pass"
PATIENCE = 30  # seconds that a busy machine has for what is to come at once
WITHIN = 110  # seconds that a busy machine has for what is to come within a minute


# ---- milliseconds are kept


def unsynced_before(events, name, kind):
    """How many calls of a kind on a file come while the next journal has what isn't synced."""
    dirty, count = False, 0
    for it in events:
        count += dirty and (it.kind, it.name) == (kind, name)
        dirty = True if (it.kind, it.name) == ("write", "journal.2") else dirty and (it.kind, it.name) != ("sync", "journal.2")
    return count


def synced_before_an_image(program):
    """With a minute to sync: a group that is written while a snapshot is taken is synced before the next image is, however long that
    would take. With `never` it isn't synced at all."""
    for sync in ("60000", "never"):
        with new_folder() as folder:
            laid(folder, first_files())
            story = Story()
            with NoRoom(program, folder, sync=sync) as broker:
                with broker.client() as client:
                    broker.has_a_draft(story, client)
                    client.gets(story.node.reply(request(NOWHERE)[4:]))
                holds(f"the names {names_in(folder)}", is_soon(lambda: names_in(folder) == ["journal.2", "snapshot.2"]))
                events = broker.events()
            images = [it for it in events if (it.kind, it.name) == ("write", IN_THE_MAKING)]
            same(f"with {sync} the writes of the draft, in {brief(events)}", len(images) > 2, True)
            count = unsynced_before(events, IN_THE_MAKING, "write")
            same(f"with {sync} images that are written while a group isn't synced, in {brief(events)}", count == 0, sync != "never")


def synced_before_a_cut(program):
    """With a minute to sync: a group that is written while a large file goes in pieces is synced before the next piece is cut."""
    with new_folder() as folder:
        laid(folder, first_files())
        ways = {"sync": "60000", "names": [JOURNAL, "journal.2"], "inject": ["ftruncate:signal=STOP:when=1"]}
        with Watched(program, folder, "--snapshot-after", "14000000", **ways) as broker:
            with broker.client() as client:
                for number in range(16):
                    client.ask("produce t:0 batch k={b*900000}", f"produced t:0 0 {number}")
                broker.waits_until_stopped()
                client.send(request(NOWHERE))
                broker.goes_on()
                client.gets(Story().node.reply(request(NOWHERE)[4:]))
            holds(f"the names {names_in(folder)}", is_soon(lambda: names_in(folder) == ["journal.2", "snapshot.2"]))
            events = broker.events()
        holds(f"it is cut once, in {brief(events)}", sum((it.kind, it.name) == ("cut", JOURNAL) for it in events) > 1)
        cuts = unsynced_before(events, JOURNAL, "cut") + unsynced_before(events, JOURNAL, "remove")
        same(f"pieces that are cut while a group isn't synced, in {brief(events)}", cuts, 0)


READ = re.compile(r"\S+ +(?:read|recvfrom)\((\d+)<(?:socket|TCP)[^\n]* = [1-9]\d*$", re.M)  # of a socket, in which something came


@contextlib.contextmanager
def slow_to_grow(broker, told):
    """From now on the broker stops behind its first write; and some of the calls by which it gets memory take longer than a second."""
    words = ["strace", "-q", "-f", "-y", "-s", "8", "-o", told, "-p", str(broker.process.pid)]
    words += ["-e", "trace=write,recvfrom,read,fsync,fdatasync,mmap,mremap,brk", "-e", "inject=write:signal=STOP:when=1"]
    words += ["-e", "inject=mmap,mremap,brk:delay_enter=1200000:when=1..6"]
    with subprocess.Popen(words, stdin=subprocess.DEVNULL, stderr=subprocess.DEVNULL) as looking:
        try:
            is_soon(lambda: looking.poll() is not None or is_looked_at(broker), 20)
            if looking.poll() is not None:
                raise CannotBeTried("strace may not look at a process that runs")
            yield
        finally:
            broker.end()


def is_looked_at(broker):
    with open(f"/proc/{broker.process.pid}/status", encoding="ascii") as file:
        return any(it.startswith("TracerPid:") and it.split()[1] != "0" for it in file)


def synced_behind_a_long_request(program):
    """With a second to sync: behind a group two clients ask for what takes longer each, since memory comes slowly. The group is synced
    before the second of them is read."""
    with new_folder() as folder:
        with Kept(program, folder, sync="1000") as broker, broker.client() as client:
            for number in range(3):
                client.ask("produce t:0 batch k={v*900000}", f"produced t:0 0 {number}")
        told = f"{os.path.dirname(folder)}/calls"
        with Kept(program, folder, sync="1000") as broker, contextlib.ExitStack() as stack:
            one, *others = [stack.enter_context(broker.client()) for _ in range(3)]
            for it in (one, *others):
                it.ask("versions", "versions 0")
            with slow_to_grow(broker, told):
                one.send(request("produce t:1 batch b=1"))
                holds("it writes no group", is_soon(lambda: os.path.exists(told) and "--- stopped by SIGSTOP" in open(told).read()))
                for it in others:
                    it.send(request("export t:0"))
                resume(broker.process.pid)
                one.gets(reply("produced t:1 0 0"))
                for it in others:
                    holds("an image doesn't come", len(it.receive(2_700_000)) == 2_700_000)
        with open(told, encoding="latin-1") as file:
            calls = file.read()
        since = calls[calls.index("write(") :]
        reads = {it[1]: it.start() for it in list(READ.finditer(since))[::-1]}  # of each socket the first
        same(f"the clients that are read behind the group, in {since[:2000]}", len(reads), 2)
        holds(f"it isn't synced before the second is read, in {since[:2000]}", re.search("fsync|fdatasync", since[: max(reads.values())]))


# ---- tried again


def removed_later(program):
    """The removal of an old file fails once. Within a minute it is tried again, though nobody sends anything."""
    with new_folder() as folder:
        laid(folder, first_files())
        with Watched(program, folder, *SOON, names=[JOURNAL], inject=["unlink:error=EIO:when=1"]) as broker:
            with broker.client() as client:
                client.ask(LARGE, "produced t:0 0 0")
            holds(f"nothing is said: {broker.lines}", is_soon(lambda: snapshot_lines(broker)))
            holds("the call didn't fail", broker.has_injected())
            gone = is_soon(lambda: names_in(folder) == ["journal.2", "snapshot.2"], WITHIN)
            holds(f"the names behind {WITHIN} s: {names_in(folder)}", gone)
            same(f"what is said, in {broker.lines}", len(snapshot_lines(broker)), 1)


def taken_later(program):
    """A snapshot can't be written. Within a minute it is tried again, though nobody sends anything, and with the journal that is there."""
    with new_folder() as folder, Kept(program, folder, *SOON) as broker:
        os.mkdir(f"{folder}/{IN_THE_MAKING}")
        with broker.client() as client:
            client.ask(LARGE, "produced t:0 0 0")
        holds(f"nothing is said: {broker.lines}", is_soon(lambda: snapshot_lines(broker)))
        os.rmdir(f"{folder}/{IN_THE_MAKING}")
        taken = is_soon(lambda: names_in(folder) == ["journal.2", "snapshot.2"], WITHIN)
        holds(f"the names behind {WITHIN} s: {names_in(folder)}", taken)


def one_that_stays(program):
    """A file that can never be removed keeps neither the next snapshots nor the removal of others from being done: the snapshots come in
    their time, the others go within a minute, the snapshot of its own number too, and the broker rests."""
    with new_folder() as folder:
        laid(folder, first_files())
        with Watched(program, folder, *SOON, names=[JOURNAL], inject=["unlink:error=EPERM"]) as broker:
            with broker.client() as client:
                for turn in range(3):
                    client.ask(LARGE.replace("1600", str(1600 * 3**turn)), f"produced t:0 0 {turn}")
                    there = is_soon(lambda: f"snapshot.{turn + 2}" in names_in(folder), PATIENCE)
                    holds(f"the names behind snapshot {turn + 2}: {names_in(folder)}", there)
            broker.rests("a file can't be removed")
            gone = is_soon(lambda: names_in(folder) == [JOURNAL, "journal.4", "snapshot.4"], WITHIN)
            holds(f"the names behind {WITHIN} s: {names_in(folder)}, and {snapshot_lines(broker)}", gone)
            holds("the call didn't fail", broker.has_injected())
            holds(f"what is said: {snapshot_lines(broker)}", all(it.startswith("snapshot: journal.1: ") for it in snapshot_lines(broker)))
            holds(f"how often it is said: {snapshot_lines(broker)}", 1 <= len(snapshot_lines(broker)) <= 5)


def stays_while_the_next_is_taken(program):
    """The removal of an old file fails once, and the next snapshot is taken within the minute: then the files of both numbers go."""
    with new_folder() as folder:
        laid(folder, first_files())
        with Watched(program, folder, *SOON, names=[JOURNAL], inject=["unlink:error=EIO:when=1"]) as broker:
            with broker.client() as client:
                client.ask(LARGE, "produced t:0 0 0")
                holds(f"nothing is said: {broker.lines}", is_soon(lambda: snapshot_lines(broker)))
                client.ask(LARGE.replace("1600", "4800"), "produced t:0 0 1")
            there = is_soon(lambda: "snapshot.3" in names_in(folder), PATIENCE)
            holds(f"the names behind the next snapshot: {names_in(folder)}", there and JOURNAL in names_in(folder))
            gone = is_soon(lambda: names_in(folder) == ["journal.3", "snapshot.3"], WITHIN)
            holds(f"the names behind {WITHIN} s: {names_in(folder)}, and {snapshot_lines(broker)}", gone)
            same(f"what is said, in {broker.lines}", len(snapshot_lines(broker)), 1)


@slow(A_MINUTE)
def tried_again(program):
    """Each of these waits for a minute: they do so beside each other."""
    cases = (removed_later, stays_while_the_next_is_taken, one_that_stays, taken_later)
    with concurrent.futures.ThreadPoolExecutor(len(cases)) as pool:
        tried = [(case, pool.submit(case, program)) for case in cases]
    for case, it in tried:
        if why := it.exception():
            raise Fault(f"{case.__name__}: {why}")


# ---- lines


def line_of_a_snapshot(program):
    """A snapshot that was taken while it runs is said, with its number, its size and how long it took."""
    form = r"snapshot (\d+): \d+(\.\d+)? (bytes|[kMG]B) in \d+(\.\d+)? s"
    with new_folder() as folder:
        with Kept(program, folder, *SOON) as broker:
            for number, words in ((2, LARGE), (3, LARGE.replace("1600", "4000"))):
                with broker.client() as client:
                    client.ask(words, f"produced t:0 0 {number - 2}")
                is_said = is_soon(lambda: any((it := re.fullmatch(form, line)) and it[1] == str(number) for line in [*broker.lines]), PATIENCE)
                holds(f"snapshot {number} isn't said: {broker.lines}", is_said)


def progress_of_a_start(program):
    """A start that takes over 5 s says how far it is, each 5 s; here some of the reads of the journal take long, in whatever pieces."""
    rounds = [[request(f"produce t:0 batch k{number}={{v*60000}}")] for number in range(12)]
    with new_folder() as folder:
        laid(folder, first_files(*rounds))
        began = time.monotonic()
        with Watched(program, folder, names=[JOURNAL], inject=["pread64:delay_enter=700000:when=1..14"]) as broker:
            took = time.monotonic() - began
            is_soon(lambda: recovered(12) in broker.lines)
            lines = [*broker.lines]
        holds(f"it took {took:.1f} s, and wasn't held up", took > 6)
        at = lines.index(recovered(12))
        holds(f"{at} lines before it has recovered, in {took:.1f} s: {lines}", 1 <= at <= took / 5)
        holds(f"no number in {lines}", all(re.search(r"\d", it) for it in lines[:at]))


def line_of_a_slow_sync(program):
    """A sync that takes over a second is said, with the file and how long it took."""
    with new_folder() as folder:
        laid(folder, first_files())
        number = syncs_at_the_start(program, folder, JOURNAL) + 1
        inject = [f"fsync,fdatasync:delay_enter=1500000:when={number}"]
        with Watched(program, folder, names=[JOURNAL], inject=inject) as broker, broker.client() as client:
            client.ask("produce t:0 batch k=v", "produced t:0 0 0")
            is_said = is_soon(lambda: any("sync" in it and re.search(r"\b[1-9]\d*(\.\d+)? s\b", it) for it in [*broker.lines]), PATIENCE)
            holds(f"nothing is said of a sync of 1.5 s: {broker.lines}", is_said)


def line_of_a_slow_beginning(program):
    """The same of a snapshot's first step, which syncs what wasn't yet: with `never` that may be much."""
    with new_folder() as folder:
        laid(folder, first_files())
        number = syncs_at_the_start(program, folder, JOURNAL) + 1
        inject = [f"fsync,fdatasync:delay_enter=1500000:when={number}"]
        with Watched(program, folder, *SOON, sync="never", names=[JOURNAL], inject=inject) as broker, broker.client() as client:
            client.ask(LARGE, "produced t:0 0 0")
            form = r"journal\.1: a sync took [1-9]\d*(\.\d+)? s"
            is_said = is_soon(lambda: any(re.fullmatch(form, line) for line in [*broker.lines]), PATIENCE)
            holds(f"nothing is said of a step of 1.5 s: {broker.lines}", is_said)


CASES = [
    ("a group that is synced before an image is written", where_it_can_be_seen(synced_before_an_image)),
    ("a group that is synced before a piece is cut", where_it_can_be_seen(synced_before_a_cut)),
    ("a group that is synced behind a long request", where_it_can_be_seen(synced_behind_a_long_request)),
    ("what is tried again within a minute, and what never succeeds", where_it_can_be_seen(tried_again)),
    ("the line of a snapshot", line_of_a_snapshot),
    ("the lines of a long start", where_it_can_be_seen(progress_of_a_start)),
    ("the line of a slow sync", where_it_can_be_seen(line_of_a_slow_sync)),
    ("the line of a slow beginning of a snapshot", where_it_can_be_seen(line_of_a_slow_beginning)),
]
