"""Directories of `kbroker start --data` that are moved, exchanged or removed under a broker, and a sync of their names that fails.

All goes into the directory that was locked: a second broker may have the one that stands at its path then. What must come is worked by
hand and by the plain models.
"""
import contextlib
import os
import shutil
import subprocess
import threading

from cases.kept_calls import where_it_can_be_seen
from cases.kept_disks import FRAMES, LARGE, SOON, NoRoom, first_files, laid, names_in, node_after, syncs_at_the_start
from cases.kept_runs import FAILED, IN_THE_MAKING, JOURNAL, SNAPSHOT, Ended, Kept, Story, all_of, found, has_state, new, new_folder, recovered
from cases.kept_watched import MEANS, Watched
from cases.started import CannotBeTried, Fault, holds, is_soon, request, same

PATIENCE = 30  # seconds that a busy machine has for what is to come at once


# ---- a sync of names that fails


def comes_nothing(client, frame, what):
    """A request is sent, and its connection ends without a byte of a reply."""
    with contextlib.suppress(ConnectionError):
        client.send(frame)
        same(what, client.receive(1), b"")


def names_that_failed(program):
    """The sync of the next journal's name fails once; asked again it would say that all is well. The broker ends, with status 4, and
    nothing leaves from then on. What was acknowledged is there then, and at most what was on the way beside it."""
    frames = [request(LARGE), request("produce t:1 batch b=1")]
    for sync in (None, "60000", "never"):
        with new_folder() as folder:
            laid(folder, first_files())
            number = syncs_at_the_start(program, folder, ".") + 1
            with Watched(program, folder, *SOON, sync=sync, names=[""], inject=[f"fsync,fdatasync:error=EIO:when={number}"]) as broker:
                with broker.client() as client:
                    client.ask(LARGE, "produced t:0 0 0")
                    comes_nothing(client, frames[1], f"with {sync} what comes behind a sync of names that failed")
                    status, lines = broker.ends_by_itself()
                holds(f"with {sync} it ended, and not by that", broker.has_injected())
            same(f"with {sync} the status", status, FAILED)
            holds(f"with {sync} the last line: {lines}", lines[-1].startswith(f"kbroker: {folder}: "))
            with Kept(program, folder) as broker:
                count = found(broker.said())[1]
                holds(f"with {sync} {count} frames are there", count in (1, 2))
                has_state(broker, node_after(frames[:count]), "the next start")


# ---- a directory that is moved


def moved_away(program):
    """A directory gets another name under a broker, and a new one its old name. The broker goes on in its own, and a second one may
    have the new one; behind kills each has what it acknowledged."""
    first, second = Story(), Story()
    with new_folder() as folder:
        old = f"{folder}.old"
        with Kept(program, folder, *SOON) as broker:
            first.tell(broker, ["produce t:1 batch a=1"])
            os.rename(folder, old)
            os.mkdir(folder)
            first.tell(broker, [LARGE, "produce t:1 batch b=1"])
            there = is_soon(lambda: names_in(old) == ["journal.2", "snapshot.2"], PATIENCE)
            holds(f"the names {names_in(old)}, and in the new directory {names_in(folder)}", there and not names_in(folder))
            with Kept(program, folder) as other:
                same("the line of the second broker", other.said(), new(folder))
                second.tell(other, ["produce t:1 batch other=1"])
                first.tell(broker, ["produce t:1 batch c=1"])
        for it, story in ((old, first), (folder, second)):
            with Kept(program, it) as broker:
                story.stands(broker, f"the start on {it}")


def link_turned(program):
    """A link to a directory comes to lead to another one under a broker, where there are files of the same names. These are left
    alone."""
    story = Story()
    with new_folder() as folder:
        mine, theirs = f"{folder}.mine", f"{folder}.theirs"
        os.mkdir(mine)
        os.symlink(mine, folder)
        laid(theirs, first_files([FRAMES[0]]))
        before = all_of(theirs)
        with Kept(program, folder, *SOON) as broker:
            story.tell(broker, ["produce t:1 batch a=1"])
            os.remove(folder)
            os.symlink(theirs, folder)
            story.tell(broker, [LARGE, "produce t:1 batch b=1"])
            there = is_soon(lambda: names_in(mine) == ["journal.2", "snapshot.2"], PATIENCE)
            holds(f"the names {names_in(mine)}, and in the other directory {names_in(theirs)}", there)
        same("the other directory", all_of(theirs), before)
        with Kept(program, mine) as broker:
            story.stands(broker, "the next start")


def moved_beside_a_draft(program):
    """A directory is moved while a snapshot is written, and in the new one of its name somebody has files of all names. The snapshot
    gets its name, and old files go, in the broker's own; the others are left alone."""
    story = Story()
    with new_folder() as folder:
        old = f"{folder}.old"
        laid(folder, first_files())
        with NoRoom(program, folder) as broker:
            with broker.client() as client:
                story.ask(client, LARGE)
                broker.waits_until_stopped()
                os.rename(folder, old)
                laid(folder, {name: b"mine" for name in (JOURNAL, SNAPSHOT, IN_THE_MAKING)})
                before = all_of(folder)
                broker.goes_on()
                story.ask(client, "produce t:1 batch b=1")
            there = is_soon(lambda: names_in(old) == ["journal.2", "snapshot.2"], PATIENCE)
            holds(f"the names {names_in(old)}, and in the other directory {names_in(folder)}", there)
        same("the other directory", all_of(folder), before)
        with Kept(program, old) as broker:
            story.stands(broker, "the next start")


def moved_before_it_is_read(program):
    """A directory is moved once a start has locked it, and has read nothing: it recovers what it has locked, and the new one stays
    empty."""
    with new_folder() as folder:
        old = f"{folder}.old"
        laid(folder, first_files(FRAMES[:3]))
        starting = Watched(program, folder, names=[""], inject=["flock:signal=STOP:when=1"])

        def move():
            starting.waits_until_stopped()
            os.rename(folder, old)
            os.mkdir(folder)
            starting.goes_on()

        moving = threading.Thread(target=move, daemon=True)
        moving.start()
        with starting as broker:
            moving.join()
            same("the line", broker.said(), recovered(3))
            has_state(broker, node_after(FRAMES[:3]), "the start")
            same("the names in the new directory", names_in(folder), [])


def removed_under_it(program):
    """A directory is removed under a broker: what it makes next has no name any more, so it ends there, with status 4 and a line."""
    with new_folder() as folder:
        with Kept(program, folder, *SOON) as broker, broker.client() as client:
            client.ask("produce t:1 batch a=1", "produced t:1 0 0")
            shutil.rmtree(folder)
            with contextlib.suppress(ConnectionError):
                client.send(request(LARGE))
            ended = is_soon(lambda: broker.process.poll() is not None, PATIENCE)
            holds(f"it goes on, and says {broker.lines}", ended)
            status, lines = broker.ends_by_itself()
            same("the status", status, FAILED)
            holds(f"the last line {lines}", lines[-1].startswith(f"kbroker: {folder}"))
        holds("it is made again", not os.path.exists(folder))


# ---- without /proc


def without_proc(program):
    """The words that run a program for which /proc is empty."""
    for it in MEANS if shutil.which("unshare") else []:
        if subprocess.run([*it, "mount", "-t", "tmpfs", "none", "/proc"], stderr=subprocess.DEVNULL).returncode == 0:
            words = [*it, "sh", "-c", 'mount -t tmpfs none /proc && exec "$@"', "sh"]
            if subprocess.run([*words, program, "--version"], stdout=subprocess.DEVNULL, stderr=subprocess.DEVNULL).returncode:
                raise CannotBeTried("the program's checks want /proc")
            return words
    raise CannotBeTried("nothing can be mounted here")


class WithoutProc(Kept):
    """A program for which /proc is empty."""

    def __init__(self, program, folder, *arguments, **ways):
        super().__init__(shutil.which("unshare"), folder, *arguments, **ways)
        self.command = [*without_proc(program), program, *self.command[1:]]


def another_stands_there(folder):
    return f"kbroker: {folder}: another directory stands there now"


def moved_before_it_is_read_without_proc(program):
    """A directory is moved once a start has locked it, and another one has its path then: nothing of that is read, and it ends with
    status 4 and a line."""
    with new_folder() as folder:
        old = f"{folder}.old"
        laid(folder, first_files(FRAMES[:3]))
        stop = ["flock:signal=STOP:when=1"]
        starting = Watched(program, folder, names=[""], inject=stop, before=without_proc(program))

        def move():
            starting.waits_until_stopped()
            os.rename(folder, old)
            laid(folder, first_files(FRAMES[:1]))
            before.append(all_of(folder))
            starting.goes_on()

        before, moving = [], threading.Thread(target=move, daemon=True)
        moving.start()
        try:
            with starting as broker:
                raise Fault(f"it listens, and says {broker.said()!r}")
        except Ended as ended:
            same("the status and the line", (ended.status, ended.lines), (FAILED, [another_stands_there(folder)]))
        moving.join()
        same("the new directory", all_of(folder), before[0])
        with Kept(program, old) as broker:
            has_state(broker, node_after(FRAMES[:3]), "the next start")


def moved_without_proc(program):
    """Where there is no /proc the path is compared with the handle before a name is made: a directory that was moved ends the broker,
    with status 4 and a line, and nothing comes into the new one. One that stays is as ever."""
    for is_moved in (True, False):
        story = Story()
        with new_folder() as folder:
            old = f"{folder}.old" if is_moved else folder
            with WithoutProc(program, folder, *SOON) as broker:
                story.tell(broker, ["produce t:1 batch a=1"])
                if is_moved:
                    os.rename(folder, old)
                    os.mkdir(folder)
                story.tell(broker, [LARGE])
                if is_moved:
                    ended = is_soon(lambda: broker.process.poll() is not None, PATIENCE)
                    holds(f"it goes on; the names {names_in(old)}, and in the new directory {names_in(folder)}", ended)
                    status, lines = broker.ends_by_itself()
                    same("the status and the last line", (status, lines[-1]), (FAILED, another_stands_there(folder)))
                    same("the names in the new directory", names_in(folder), [])
                else:
                    there = is_soon(lambda: names_in(folder) == ["journal.2", "snapshot.2"], PATIENCE)
                    holds(f"the names {names_in(folder)}", there)
            with Kept(program, old) as broker:
                story.stands(broker, "the next start")


CASES = [
    ("a sync of names that fails once", where_it_can_be_seen(names_that_failed)),
    ("a directory that is moved", moved_away),
    ("a link to a directory that is turned", link_turned),
    ("a directory that is moved while a snapshot is taken", where_it_can_be_seen(moved_beside_a_draft)),
    ("a directory that is moved before it is read", where_it_can_be_seen(moved_before_it_is_read)),
    ("a directory that is removed", removed_under_it),
    ("a directory that is moved, without /proc", moved_without_proc),
    ("a directory that is moved before it is read, without /proc", where_it_can_be_seen(moved_before_it_is_read_without_proc)),
]
