"""What makes room for `kbroker start --data`: drafts that give way to a group, and files of no use that go, in which order and when, though
some can't be removed.

What must come is worked by hand; the order of calls is what strace tells, and what a disk has of them is a model's.
"""
import os
import time

from cases.kept_calls import where_it_can_be_seen
from cases.kept_disks import (
    FRAMES,
    LARGE,
    NOWHERE,
    SOON,
    NoRoom,
    first_files,
    laid,
    names_in,
    put_back_files,
    row,
    snapshot_lines,
    story_of_put_back,
)
from cases.kept_runs import IN_THE_MAKING, JOURNAL, SNAPSHOT, TOPICS, Ended, Kept, Story, content, folded, has_state, new_folder, recovered
from cases.kept_watched import Disk, Watched, brief, until_it_listens
from cases.started import Fault, holds, is_soon, request, same
from models import kept_files

PATIENCE = 30  # seconds that a busy machine has for what is to come at once
SMALL = "produce t:1 batch b=2"


# ---- a draft gives way to a group


def room_under_a_quota(program):
    """A group's first write finds the quota used up while a snapshot is written: the draft is given up as where the disk is full."""
    story = Story()
    with new_folder() as folder:
        laid(folder, first_files())
        with NoRoom(program, folder, "write:error=EDQUOT:when=2") as broker:
            with broker.client() as client:
                broker.has_a_draft(story, client)
                client.gets(story.node.reply(request(NOWHERE)[4:]), "the reply behind a write that found the quota used up")
                story.ask(client, SMALL)
            holds(f"the call didn't fail: {broker.lines}", broker.has_injected())
            same("the names", names_in(folder), [JOURNAL, "journal.2", SNAPSHOT])
            same(f"what is said of snapshots, in {broker.lines}", len(snapshot_lines(broker)), 1)
        groups = kept_files.groups_of(content(folder, "journal.2"), 2)
        same("the frames in the next journal", kept_files.all_frames(groups), [request(NOWHERE), request(SMALL)])
        with Kept(program, folder) as broker:
            story.stands(broker, "the next start")


def given_up_twice(program):
    """A snapshot was missed, and the next one gives way to a group: it is missed too, and not begun again before the journals have grown by
    as much again."""
    story, there = Story(), [JOURNAL, "journal.2", "journal.3", SNAPSHOT]
    with new_folder() as folder:
        laid(folder, first_files())
        names, inject = [IN_THE_MAKING, "journal.3"], ["pwrite64:signal=STOP:when=1", "write:error=ENOSPC:when=2"]
        with Watched(program, folder, *SOON, names=names, inject=inject) as broker:
            os.mkdir(f"{folder}/{IN_THE_MAKING}")
            with broker.client() as client:
                story.ask(client, LARGE)
                holds(f"nothing is said of the first one: {broker.lines}", is_soon(lambda: snapshot_lines(broker)))
                os.rmdir(f"{folder}/{IN_THE_MAKING}")
                story.ask(client, LARGE)
                broker.waits_until_stopped()
                client.send(request(NOWHERE))
                broker.goes_on()
                client.gets(story.node.reply(request(NOWHERE)[4:]), "the reply behind a write that found no space")
                for _ in range(4):
                    story.ask(client, SMALL)
                    time.sleep(0.1)
                holds(f"the call didn't fail: {broker.lines}", broker.has_injected())
                same("the names where little came behind the second one", names_in(folder), there)
                same(f"what is said of snapshots, in {broker.lines}", len(snapshot_lines(broker)), 2)
                story.ask(client, LARGE)
            taken = is_soon(lambda: names_in(folder) == ["journal.4", "snapshot.4"], PATIENCE)
            holds(f"the names where much came: {names_in(folder)}", taken)
            has_state(broker, story.node, "the state")


# ---- files that can't be removed

OLD = {JOURNAL: b"x", "journal.2": b"y"}  # of no use
ROUNDS = [FRAMES[2:3], FRAMES[3:4]]


def removals_at_the_start(program, folder, topics):
    """How often a start on this directory tries to remove the old journals before it listens, where each removal fails."""
    with Watched(program, folder, topics=topics, inject=["unlink:error=EIO"]) as broker:
        events = until_it_listens(broker.events())
    return sum(it.kind == "remove" and it.name in OLD for it in events)


def several_stayed(program):
    """A start couldn't remove files of two numbers: both go as soon as they can, though nobody sends anything. So it is where it has
    taken snapshots, since there are more partitions."""
    files = {**row(3, 2, ROUNDS), **OLD}
    for topics, last in ((TOPICS, 3), (("t:3",), 5)):
        with new_folder() as folder:
            laid(folder, files)
            count = removals_at_the_start(program, folder, topics)
            holds(f"{count} removals at a start with {topics}", count >= len(OLD))
            laid(folder, files)
            inject = [f"unlink:error=EIO:when=1..{count}"]
            with Watched(program, folder, topics=topics, names=[*OLD], inject=inject) as broker:
                same("the line", broker.said(), recovered(2, snapshot=3))
                gone = is_soon(lambda: names_in(folder) == [f"journal.{last}", f"snapshot.{last}"], PATIENCE)
                holds(f"the names behind a start with {topics}: {names_in(folder)}", gone)
                holds("no call failed", broker.has_injected())


def one_stays_at_a_fold(program):
    """One old file can't be removed: a start with --fold removes all others that its snapshot takes the place of."""
    with new_folder() as folder:
        laid(folder, {**row(3, 2, ROUNDS), JOURNAL: b"x"})
        try:
            with Watched(program, folder, "--fold", names=[JOURNAL], inject=["unlink:error=EPERM"]) as broker:
                raise Fault(f"it listens, and says {broker.lines}")
        except Ended as ended:
            same("the status and the lines", (ended.status, ended.lines), (0, [recovered(2, snapshot=3), folded(4)]))
        same("the names", names_in(folder), [JOURNAL, "journal.4", "snapshot.4"])


def one_stays_on_a_full_disk(program):
    """There is no room for a group, no draft, and old files that couldn't be removed so far. Those that can be go at once, though one
    still can't, and the group is tried once more: its reply comes."""
    with new_folder() as folder:
        laid(folder, {**row(3, 2, ROUNDS), **OLD})
        # the start tries both, the broker the first one, and rests; where there is no room both are tried again
        names, inject = [*OLD, "journal.3"], ["unlink:error=EIO:when=1..4", "write:error=ENOSPC:when=1"]
        with Watched(program, folder, names=names, inject=inject) as broker:
            holds(f"nothing is said: {broker.lines}", is_soon(lambda: snapshot_lines(broker)))
            same("the names before", names_in(folder), [JOURNAL, "journal.2", "journal.3", "snapshot.3"])
            with broker.client() as client:
                story = Story()
                for it in FRAMES[:4]:
                    story.node.reply(it[4:])
                story.ask(client, SMALL)
            holds("the write didn't fail", "ENOSPC" in broker.read_trace())
            same("the names behind a group that found no room", names_in(folder), [JOURNAL, "journal.3", "snapshot.3"])
            has_state(broker, story.node, "the state")


# ---- what was read is synced before anything goes


def removed_behind_the_syncs(program):
    """A copy was put back with files of two numbers, and isn't on the disk yet: a start removes those of the lower one once it has synced all
    that it has read, and the names. Where the power is cut behind any removal, all is there."""
    files = {**first_files(FRAMES[:3]), **put_back_files()}
    with new_folder() as folder:
        laid(folder, files)
        with Watched(program, folder) as broker:
            same("the line", broker.said(), recovered(4, snapshot=2))
            events = until_it_listens(broker.events())
        gone = [at for at, it in enumerate(events) if it.kind == "remove"]
        same(f"what goes, in {brief(events)}", sorted(events[at].name for at in gone), [JOURNAL, SNAPSHOT])
        for name in [*put_back_files(), "."]:
            holds(f"{name} isn't synced before a file goes, in {brief(events)}", ("sync", name) in [it[:2] for it in events[: gone[0]]])
        for at in gone:
            disk = Disk(files, is_synced=False)
            disk.take(events[: at + 1])
            laid(folder, {name: bytes(it.disk) for name, it in disk.names.items()})
            with Kept(program, folder) as broker:
                same(f"the line where the power is cut behind the removal of {events[at].name}", broker.said(), recovered(4, snapshot=2))
                story_of_put_back().stands(broker, "the start behind a power cut")


CASES = [
    ("a group for which a draft leaves no quota", where_it_can_be_seen(room_under_a_quota)),
    ("a second draft that leaves no space for a group", where_it_can_be_seen(given_up_twice)),
    ("several files that stayed at the start", where_it_can_be_seen(several_stayed)),
    ("a file that stays at a snapshot of the start", where_it_can_be_seen(one_stays_at_a_fold)),
    ("a file that stays on a full disk", where_it_can_be_seen(one_stays_on_a_full_disk)),
    ("files that go behind the syncs of a start", where_it_can_be_seen(removed_behind_the_syncs)),
]
