"""Snapshots of `kbroker start --data`: taken while it runs, by `--fold`, and where topics or partitions are added; what a start makes
of them and of the journals behind them; and what is refused.

What must come is the plain model's (tests/models/broker.py), and the bytes of files are made by tests/models/kept_files.py.
"""
import os
import signal
import threading
import time

from cases.kept_runs import (
    ANOTHER,
    FAILED,
    FILLING,
    IN_THE_MAKING,
    REFUSED,
    TOPICS,
    WAYS,
    Kept,
    Story,
    acknowledged_of,
    all_of,
    another,
    checked,
    content,
    damaged,
    folded,
    found,
    has_state,
    key_in,
    later,
    missing,
    new,
    new_folder,
    plainly,
    recovered,
    refused,
    would,
    write,
)
from cases.started import Fault, ends_by_itself, holds, is_soon, reply, request, same
from models import kept_files

NAMES = kept_files.topics_of(TOPICS)
FRAMES = [request(f"produce t:{number % 2} batch k{number}=v{number}") for number in range(7)]
FRAMES += [request("commit group=g t:0 4 m"), request("producer-id"), request("trim t:1 1"), request("clean t:0 3 3")]


def laid(folder, files):
    """Makes a directory with these files; what was there before goes."""
    os.makedirs(folder, exist_ok=True)
    for name in os.listdir(folder):
        os.remove(f"{folder}/{name}")
    for name, data in files.items():
        write(folder, name, data)


def snapshot_behind(count, number, **head):
    """The snapshot behind so many of the frames."""
    return kept_files.snapshot_of(kept_files.node_after(FRAMES[:count], NAMES), NAMES, number, **head)


def row(first, count, *journals, **ways):
    """A row of files: the snapshot of a number, behind so many frames, and the journals from there on, of these rounds."""
    return kept_files.row_of(kept_files.node_after(FRAMES[:count], NAMES), NAMES, first, *journals, **ways)


def has_taken(folder, number, count):
    """The snapshot of a number must be that behind so many frames, with the key of its journal, whatever version stood there before."""
    wanted = snapshot_behind(count, number, key=key_in(folder, f"journal.{number}"))
    same(f"snapshot {number}", content(folder, f"snapshot.{number}"), wanted)


def names_in(folder):
    return sorted(os.listdir(folder))


def state_behind(program, folder, frames, said, names, *arguments):
    """A start must say this, be in the state behind these frames, and have these files then; and a check says it before."""
    same("the line of a check", checked(program, folder), would(said))
    with Kept(program, folder, *arguments) as broker:
        same("the line", broker.said(), said)
        has_state(broker, kept_files.node_after(frames, NAMES), "the state")
    same("the names", names_in(folder), sorted(names))


# ---- what a start finds


HIGHEST = 9223372036854775806  # the highest number of a file


def sound_rows(version):
    """Rows of files of a version, and what a start says of each."""
    torn = row(3, 4, [FRAMES[4:6]], [FRAMES[6:]], version=version)
    return {
        "a later snapshot": (row(3, 4, [FRAMES[4:]], version=version), recovered(7, snapshot=3)),
        "two journals": (row(3, 4, [FRAMES[4:6], FRAMES[6:8]], [FRAMES[8:]], version=version), recovered(7, snapshot=3)),
        "three journals, the second without a group": (
            row(3, 4, [FRAMES[4:6]], [], [FRAMES[6:]], version=version),
            recovered(7, snapshot=3),
        ),
        "a torn end": ({**torn, "journal.4": torn["journal.4"] + b"torn"}, recovered(7, 4, len(torn["journal.4"]), 3, 4)),
        "the highest name": (row(HIGHEST, 11, [], version=version), recovered(0, snapshot=HIGHEST)),
    }


def rows_of_journals(program):
    """A snapshot and the journals from its number on are one story, in either version; what is below goes, and a journal behind them that
    was being made too."""
    for version in (1, 0):
        for what, (files, said) in sound_rows(version).items():
            with new_folder() as folder:
                laid(folder, files)
                try:
                    state_behind(program, folder, FRAMES, said, files)
                    state_behind(program, folder, FRAMES, said.partition(";")[0], files)
                except Fault as why:
                    raise Fault(f"{what}, of version {version}: {why}") from None
        rows_and_what_goes(program, version)


def rows_and_what_goes(program, version):
    """The same of a row with files that a start removes: lower ones, and a journal that was being made, also by the program before."""
    kept = row(3, 4, [FRAMES[4:8]], [FRAMES[8:]], version=version)
    head = kept_files.journal_head(number=5, before=kept_files.stands_before(kept["journal.4"]))
    old = kept_files.journal_head(number=5, version=0)
    below = {"snapshot.1": b"", "snapshot.2": snapshot_behind(2, 2)[:50], "journal.1": b"x", "journal.2": b"y", IN_THE_MAKING: b"z"}
    for making in (*(head[:size] for size in (0, 5, 27, 28, 29, 44, 52, 55)), bytes(28), bytes(56), old[:27], bytes(27)):
        with new_folder() as folder:
            laid(folder, {**kept, **below, "journal.5": making})
            state_behind(program, folder, FRAMES, recovered(7, snapshot=3), kept)
    with new_folder() as folder:
        torn = kept["journal.4"] + b"torn"
        laid(folder, {**kept, "journal.4": torn, "journal.5": head[:9]})
        state_behind(program, folder, FRAMES, recovered(7, 4, len(torn) - 4, 3, 4), kept)


def faults_of_rows(version):
    """A row of files of a version; and what is changed of it, and what is said then."""
    kept = row(3, 4, [FRAMES[4:6], FRAMES[6:8]], [FRAMES[8:]], [], version=version)
    three, four, five = (kept[f"journal.{number}"] for number in (3, 4, 5))
    last, start, number_at = kept_files.groups_of(three, 3)[-1].at, kept_files.head_of(five).end, 22 if version else 14
    before = kept_files.stands_before(three)
    below = {"snapshot.1": b"", "journal.2": b"x", IN_THE_MAKING: b"y"}
    seven = kept_files.journal([], number=7, version=version)
    only_reads = kept_files.with_groups(five, [[request("export t:0")]], key=kept_files.key_number(5))
    of_two = snapshot_behind(4, 2, version=version, key=kept_files.key_number(3))
    another_number = kept_files.journal([FRAMES[8:]], number=3, version=version)
    another_meaning = kept_files.journal([FRAMES[8:]], key=kept_files.key_number(4), number=4, meaning=2, before=before, version=version)
    return kept, [
        # what is changed of these files, and what is said then
        ({"journal.3": None}, lambda at: missing(at, "journal.3")),
        ({"journal.4": None}, lambda at: missing(at, "journal.4")),
        ({"journal.3": None, "journal.4": None, "journal.5": None}, lambda at: missing(at, "journal.3")),
        ({"journal.7": seven}, lambda at: missing(at, "journal.6")),
        ({"snapshot.3": None}, lambda at: missing(at, "snapshot.3")),
        ({"snapshot.4": b""}, lambda at: damaged(at, "snapshot.4", 0, "Short")),
        ({"snapshot.6": b""}, lambda at: missing(at, "journal.6")),
        ({"journal.3": three[:-1]}, lambda at: damaged(at, "journal.3", last, "LaterJournal")),
        ({"journal.3": three + b"torn"}, lambda at: damaged(at, "journal.3", len(three), "LaterJournal")),
        ({"journal.3": three[: last + 40] + b"?" + three[last + 41 :]}, lambda at: damaged(at, "journal.3", last, "LaterJournal")),
        ({"journal.4": four + b"torn"}, lambda at: damaged(at, "journal.4", len(four), "LaterJournal")),  # (though none has groups behind it)
        ({"journal.5": only_reads, **below}, lambda at: damaged(at, "journal.5", start, "OnlyReads")),
        ({"journal.4": another_number}, lambda at: damaged(at, "journal.4", 12, "BadNumber")),
        ({"journal.4": four[:20]}, lambda at: damaged(at, "journal.4", 20, "Short")),
        ({"journal.4": bytes(28)}, lambda at: damaged(at, "journal.4", 0, "BadCrc")),
        ({"journal.5": bytes(57)}, lambda at: damaged(at, "journal.5", 0, "BadCrc")),
        ({"journal.5": kept_files.journal_head(number=5, version=2)}, lambda at: later(at, "journal.5", "BadVersion")),
        ({"snapshot.3": of_two}, lambda at: damaged(at, "snapshot.3", number_at, "BadNumber")),
        ({"journal.4": another_meaning}, lambda at: later(at, "journal.4", "BadMeaning")),
    ]


def rows_with_a_fault(program):
    """What no crash leaves of a row is refused, and stays as it was: a file that is missing, a journal with a torn end before another
    one, one of another number, a group with other frames' offset. So it is in either version."""
    for version in (1, 0):
        kept, rows = faults_of_rows(version)
        for changed, said in rows:
            with new_folder() as folder:
                laid(folder, {name: data for name, data in {**kept, **changed}.items() if data is not None})
                refused(program, folder, REFUSED, said(folder))


def turned_bits(program):
    """A bit turned in each field of a snapshot of a broker that holds something, and in each image; cut at each place of some, and
    with a byte more."""
    rest = row(2, 9, [FRAMES[9:]])
    whole = rest.pop("snapshot.2")
    node = kept_files.node_after(FRAMES[:9], NAMES)
    images = [copy.image() for name in (*(it for it, _ in NAMES), b"__consumer_offsets") for copy in node.topics[name]]
    begins = [len(whole) - sum(len(it) for it in images[index:]) for index in range(len(images) + 1)]
    with new_folder() as folder:
        laid(folder, {"snapshot.2": whole, **rest})
        before = all_of(folder)
        for begin, image in zip(begins, images):
            for at in {0, 3, 4, 9, 13, len(image) // 2, len(image) - 1}:
                bad = bytearray(whole)
                bad[begin + at] ^= 0x40
                write(folder, "snapshot.2", bytes(bad))
                why = "BadMark" if at < 4 else "BadVersion" if at < 6 else "BadCrc"
                refused(program, folder, REFUSED, damaged(folder, "snapshot.2", begin, why))
        for size in (begins[0], begins[1] - 1, begins[1], begins[2] + 1, len(whole) - 1):
            write(folder, "snapshot.2", whole[:size])
            refused(program, folder, REFUSED, damaged(folder, "snapshot.2", size, "Short"))
        write(folder, "snapshot.2", whole + b"\0")
        refused(program, folder, REFUSED, damaged(folder, "snapshot.2", len(whole), "Behind"))
        write(folder, "snapshot.2", whole)
        same("the names", sorted(all_of(folder)), sorted(before))
        state_behind(program, folder, FRAMES, recovered(2, snapshot=2), ["snapshot.2", "journal.2"])


# ---- a snapshot, and no more


def fold(program, folder, *words, topics=TOPICS):
    """The lines of a start that takes a snapshot and ends."""
    status, out, err = ends_by_itself(program, "--data", folder, "--fold", *words, *topics)
    same("the status and the output", (status, out), (0, ""))
    return plainly(err.splitlines())


def folded_once(program):
    """The frames of all journals become a snapshot, byte for byte that of the model, and a journal without a group; whatever torn end
    there was, and whichever version the files had."""
    for version in (1, 0):
        files = row(3, 4, [FRAMES[4:8]], [FRAMES[8:]], version=version)
        at, before = len(files["journal.4"]), kept_files.stands_before(files["journal.4"])
        with new_folder() as folder:
            laid(folder, {**files, "journal.4": files["journal.4"] + b"torn"})
            same("the lines", fold(program, folder), [recovered(7, 4, at, 3, 4), folded(5)])
            same("the names", names_in(folder), ["journal.5", "snapshot.5"])
            has_taken(folder, 5, 11)
            data = content(folder, "journal.5")
            head = kept_files.head_of(data)
            same("what its journal's head says", (head.version, head.number, head.before, len(data)), (1, 5, before, 56))
            state_behind(program, folder, FRAMES, recovered(0, snapshot=5), ["journal.5", "snapshot.5"])
            same("the lines once more", fold(program, folder), [recovered(0, snapshot=5), folded(6)])
            has_taken(folder, 6, 11)
    with new_folder() as folder:
        same("the lines of a new directory", fold(program, folder), [new(folder), folded(2)])
        has_taken(folder, 2, 0)


def of_a_follower(program):
    """What a follower holds, with gaps and a start."""
    lines = ["deliver t:0 batch base:5 a=1 b=2", "deliver t:0 batch base:0 c=1", "import t:1 image start:2 2-3 batch base:2 a=1 b=2"]
    story = Story(leads=False)
    with new_folder() as folder:
        with Kept(program, folder, "--role", "follower") as broker:
            story.tell(broker, lines)
        fold(program, folder, "--role", "follower")
        wanted = kept_files.snapshot_of(story.node, NAMES, 2, key=key_in(folder, "journal.2"))
        same("the snapshot", content(folder, "snapshot.2"), wanted)
        with Kept(program, folder, "--role", "follower") as broker:
            same("the line", broker.said(), recovered(0, snapshot=2))
            has_state(broker, story.node, "the state")


def another_meaning(program):
    """A snapshot and a journal without a group, as another program left them by `--fold`, are taken, and a journal of this program's
    meaning begins."""
    for meaning, version in ((0, 1), (2, 1), (-1, 1), (0, 0), (2, 0)):
        with new_folder() as folder:
            heads = {"number": 4, "meaning": meaning, "version": version}
            laid(folder, {"snapshot.4": snapshot_behind(11, 4, version=version), "journal.4": kept_files.journal([], **heads)})
            state_behind(program, folder, FRAMES, recovered(0, snapshot=4), ["journal.5", "snapshot.5"])
            same("the meaning", kept_files.head_of(content(folder, "journal.5")).meaning, kept_files.MEANING)
            laid(folder, {"snapshot.4": snapshot_behind(9, 4, version=version), "journal.4": kept_files.journal([FRAMES[9:]], **heads)})
            refused(program, folder, REFUSED, later(folder, "journal.4", "BadMeaning"))
            refused(program, folder, REFUSED, later(folder, "journal.4", "BadMeaning"), "--fold")


# ---- another configuration


def topics_added(program):
    """Topics and partitions come to those that are there, whose state stays; the next starts find all of them."""
    asked = ("v:1", "t:4", "u:2")
    names, story = kept_files.topics_of(asked), Story(asked)
    with new_folder() as folder:
        files = row(1, 0, [FRAMES[:6], FRAMES[6:]])
        laid(folder, {**files, "journal.1": files["journal.1"] + b"torn"})
        for frame in FRAMES:
            story.node.reply(frame[4:])
        at = len(files["journal.1"])
        with Kept(program, folder, topics=asked) as broker:
            same("the line", broker.said(), recovered(11, 4, at, 1, 1))
            story.stands(broker, "the first start with more")
            story.tell(broker, ["produce t:3 batch a=1", "produce v:0 batch b=1", "produce u:1 batch c=1", "produce t:0 batch d=1"])
        same("the names", names_in(folder), ["journal.3", "snapshot.3"])
        with Kept(program, folder, topics=asked[::-1]) as broker:
            same("the line", broker.said(), recovered(5, snapshot=3))
            story.stands(broker, "the second start")
        refused(program, folder, ANOTHER, another(folder, "topic t: 4 partitions"))
        more = ("u:2", "t:4", "w:64", "v:1")
        same("the lines of --fold with more", fold(program, folder, topics=more), [recovered(6, snapshot=3), folded(5)])
        with Kept(program, folder, topics=more) as broker:
            same("the line", broker.said(), recovered(0, snapshot=5))
            story.node.topics[b"w"] = Story(("w:64",)).node.topics[b"w"]
            story.stands(broker, "the start with one topic more")
    same("the topics of the model", [name for name, _ in names], [b"v", b"t", b"u"])


def refused_before_it_was_there(program):
    """A Produce to a partition that wasn't there was refused, and stays so: the partition that is added later is empty."""
    asked = ("t:4", "v:1")
    frames = [request("produce t:3 batch a=1"), request("produce v:0 batch b=1 | t:1 batch c=1")]
    with new_folder() as folder:
        laid(folder, row(1, 0, [frames[:1], frames[1:]]))
        with Kept(program, folder, topics=asked) as broker:
            same("the line", broker.said(), recovered(2))
            story = Story(asked)
            story.node.reply(request("produce t:1 batch c=1")[4:])
            story.stands(broker, "the start with more")


def first_producer_once(program):
    """The first producer id that is said counts for a new directory; a later start goes on, whatever it says, also from a snapshot."""
    with new_folder() as folder:
        for turn, first in enumerate(("41", "7", "1000", "0")):
            with Kept(program, folder, "--first-producer", first) as broker, broker.client() as client:
                story = Story(first=41 + 2 * turn)
                for _ in range(2):
                    story.ask(client, "producer-id")
            fold(program, folder, "--first-producer", first)
        more = ("t:3",)
        lines = fold(program, folder, "--first-producer", "1000", topics=more)
        same("the lines where a partition is added", lines, [recovered(0, snapshot=5), folded(7)])
        node, names = Story(more).node, kept_files.topics_of(more)
        wanted = kept_files.snapshot_of(node, names, 7, first=41, following=49, key=key_in(folder, "journal.7"))
        same("the snapshot then", content(folder, "snapshot.7"), wanted)


# ---- while it runs


def many_snapshots(program):
    """Snapshots that are taken while a client produces: in each way of syncing, its own story goes on, and behind a kill the next
    start has all of it; few files are there at any time."""
    for sync in WAYS:
        story = Story()
        with new_folder() as folder:
            with Kept(program, folder, "--snapshot-after", "5000", sync=sync) as broker:
                for turn in range(6):
                    story.tell(broker, [f"produce t:{number % 2} batch k{number}={{{chr(97 + turn)}*300}}" for number in range(20)])
                    holds(f"the names {names_in(folder)}", len(names_in(folder)) <= 6)
                    has_state(broker, story.node, f"turn {turn}")
                settled = is_soon(lambda: len(names_in(folder)) == 2)
                holds(f"the names in the end: {names_in(folder)}", settled)
                same("the status", broker.end(signal.SIGKILL), -signal.SIGKILL)
            with Kept(program, folder, sync=sync) as broker:
                snapshot, frames = found(broker.said())
                holds(f"snapshot {snapshot}, {frames} frames", snapshot > 3 and frames < 60)
                story.stands(broker, "the next start")


def stands_at(folder, number):
    """Whether a snapshot of this number is taken, and all below it gone."""
    return is_soon(lambda: names_in(folder) == [f"journal.{number}", f"snapshot.{number}"], 10)


def missed_in(broker):
    return [it for it in broker.lines if it.startswith("snapshot: ")]


def rests_behind_a_snapshot(program):
    """In each way of syncing the broker rests behind a snapshot that the last group has begun: nothing is left to sync."""
    for sync in WAYS:
        with new_folder() as folder, Kept(program, folder, "--snapshot-after", "1500", sync=sync) as broker:
            Story().tell(broker, ["produce t:0 batch k={a*1600}"])
            holds(f"with {sync} the names: {names_in(folder)}", stands_at(folder, 2))
            time.sleep(0.2)
            broker.rests(f"a snapshot is taken, with {sync}")


def taken_when_due(program):
    """A snapshot is taken once the journals have the bytes that are said, and those of the last snapshot: of journals in a row all
    count, also those that a start finds, and behind a snapshot none of those before it."""
    large = [request(f"produce t:{number % 2} batch k{number}={{v*1000}}") for number in range(12)]
    story, rest = Story(), ["produce t:0 batch a=1"] * 3
    with new_folder() as folder:
        with Kept(program, folder, "--snapshot-after", "1500") as broker:
            story.tell(broker, ["produce t:0 batch k={a*1600}"])
            holds(f"the names: {names_in(folder)}", stands_at(folder, 2))
            story.tell(broker, rest)
            time.sleep(0.2)
            same("the names, where little came behind it", names_in(folder), ["journal.2", "snapshot.2"])
            story.tell(broker, ["produce t:0 batch k={a*5000}"])
            holds(f"the names, where much came: {names_in(folder)}", stands_at(folder, 3))
            story.tell(broker, ["produce t:0 batch k={a*3000}"])
            time.sleep(0.2)
            same("the names, behind less than that snapshot has", names_in(folder), ["journal.3", "snapshot.3"])
        rounds = [large[9:10]], [large[10:11]], []
        laid(folder, kept_files.row_of(kept_files.node_after(large[:9], NAMES), NAMES, 3, *rounds))
        with Kept(program, folder, "--snapshot-after", "1500") as broker:
            story.tell(broker, [])
            time.sleep(0.2)
            same("the names of a start on less than the snapshot has", names_in(folder), ["journal.3", "journal.4", "journal.5", "snapshot.3"])
        laid(folder, kept_files.row_of(kept_files.node_after([], NAMES), NAMES, 3, *rounds))
        with Kept(program, folder, "--snapshot-after", "2000") as broker:
            story.tell(broker, [])
            there = stands_at(folder, 5)  # (the last journal has no group)
            holds(f"the names of a start on two journals with enough: {names_in(folder)}", there)


def missed_and_tried_again(program):
    """A snapshot that can't be written is said once, whoever goes on to send, and nobody waits for it; it is tried again once the
    journals have grown by as much again, and behind one that was taken the next comes in its time."""
    words = "produce t:5 batch k={a*1600}"  # (it stands in the journal, and not in the snapshot)
    for sync in WAYS:
        story = Story()
        with new_folder() as folder, Kept(program, folder, "--snapshot-after", "1500", sync=sync) as broker:
            os.mkdir(f"{folder}/{IN_THE_MAKING}")
            story.tell(broker, [words])
            holds("nothing is said", is_soon(lambda: missed_in(broker)))
            story.tell(broker, [f"produce t:{number % 2} batch b=1" for number in range(6)] + ["commit t:0 4"])
            time.sleep(0.3)
            story.tell(broker, ["produce t:1 batch c=1"])
            same("what is said", missed_in(broker), [f"snapshot: {IN_THE_MAKING}: entity already exists"])
            same("the names", names_in(folder), ["journal.1", "journal.2", "snapshot.1", IN_THE_MAKING])
            os.rmdir(f"{folder}/{IN_THE_MAKING}")
            story.tell(broker, [words])
            holds(f"the names, once it can be: {names_in(folder)}", stands_at(folder, 3))
            story.tell(broker, [words])
            holds(f"the names behind it: {names_in(folder)}", stands_at(folder, 4))
            same("what is said in the end", len(missed_in(broker)), 1)
            has_state(broker, story.node, "the state")


def somebody_elses_journal(program):
    """A file that has come to stand where the next journal belongs is left alone, and ends the broker."""
    with new_folder() as folder:
        with Kept(program, folder, "--snapshot-after", "1500") as broker:
            write(folder, "journal.2", b"somebody's")
            with broker.client() as client:
                client.send(request("produce t:0 batch k={a*1600}"))
                client.gets(reply("produced t:0 0 0"))
                status, lines = broker.ends_by_itself()
            same("the status and the last line", (status, lines[-1]), (FAILED, f"kbroker: {folder}/journal.2: entity already exists"))
        same("the names", names_in(folder), ["journal.1", "journal.2", "snapshot.1"])
        same("the file", content(folder, "journal.2"), b"somebody's")


LARGE = ["t:0", "t:1", "t:2", "t:3", "t:4", "t:5", "u:0", "u:1"]


def asks_often(broker, one, other, told):
    """One client, which produces to two partitions of its own at once, again and again; its requests come into `told`."""
    with broker.client() as client:
        for turn in range(150):
            words = f"produce {one} batch k{turn}={{b*900}} | {other} batch k{turn}={{c*900}}"
            told.append(request(words))
            client.ask(words, f"produced {one} 0 {turn + 1} | {other} 0 {turn + 1}")


def many_partitions_at_once(program):
    """A snapshot of large partitions is taken, and not given up, while four clients produce to all of them, each to two at once, of one
    topic or of two; then each frame is in the state once, and so it is behind a kill."""
    asked, pairs = ("t:6", "u:2"), [("t:0", "t:5"), ("t:1", "t:4"), ("t:2", "u:0"), ("t:3", "u:1")]
    first, told = [request(f"produce {it} batch k={{a*400000}}") for it in LARGE], [[] for _ in pairs]
    with new_folder() as folder:
        with Kept(program, folder, "--snapshot-after", "3000000", sync="never", topics=asked) as broker:
            with broker.client() as client:
                for it, frame in zip(LARGE, first):
                    client.send(frame)
                    client.gets(reply(f"produced {it} 0 0"))
            threads = [threading.Thread(target=asks_often, args=(broker, *pair, its)) for pair, its in zip(pairs, told)]
            for it in threads:
                it.start()
            for it in threads:
                it.join()
            holds(f"the names: {names_in(folder)}", stands_at(folder, 2))
            same("what is said of snapshots", missed_in(broker), [])
            node = kept_files.node_after(sum(told, first), kept_files.topics_of(asked))
            has_state(broker, node, "the state")
        with Kept(program, folder, topics=asked) as broker:
            has_state(broker, node, "the state behind a kill")


def answered_while_it_is_taken(program):
    """A client that produces to the last of many large partitions is answered while a snapshot is written: that image is written next
    then, and from then on nothing of the partition is put off."""
    asked, answered = ("t:40",), 0
    with new_folder() as folder, Kept(program, folder, "--snapshot-after", "8000000", sync="never", topics=asked) as broker:
        with broker.client() as client:
            for index in range(40):
                client.ask(f"produce t:{index} batch k={{a*200000}}", f"produced t:{index} 0 0")
            for turn in range(60):
                client.ask("produce t:39 batch b=1", f"produced t:39 0 {turn + 1}")
                answered += os.path.exists(f"{folder}/{IN_THE_MAKING}")
        holds(f"the names: {names_in(folder)}", stands_at(folder, 2))
    holds(f"{answered} requests are answered while it is written", answered > 3)


def full_at(program, sync, size):
    """A file may have so many bytes, and a snapshot is larger than that at last: the broker goes on until its journal is full."""
    with new_folder() as folder:
        with Kept(program, folder, "--snapshot-after", "1500", sync=sync, largest=size) as broker:
            acknowledged = acknowledged_of(broker, FILLING)
            status, told = broker.ends_by_itself() if acknowledged < len(FILLING) else (None, [])
        missed = [it for it in broker.lines if it.startswith("snapshot: ")]
        if acknowledged < len(FILLING):
            holds(f"status {status} at {size} bytes, {told}", status == 4 and told[-1].startswith(f"kbroker: {folder}/journal."))
        with Kept(program, folder) as broker:
            node = kept_files.node_after(FILLING[:acknowledged], NAMES)
            more = kept_files.node_after(FILLING[: acknowledged + 1], NAMES)
            try:
                has_state(broker, node, "the state")
            except Fault:
                has_state(broker, more, "the state behind one more")
    return bool(missed), acknowledged


def full_disk(program):
    """For a hundred sizes: where a snapshot doesn't fit, a line says so, and the broker goes on; nothing that was acknowledged is
    lost."""
    came = [full_at(program, WAYS[index % 3], size) for index, size in enumerate(range(300, 6300, 60))]
    missed = sum(it for it, _ in came)
    holds(f"{missed} of {len(came)} missed a snapshot", 10 < missed < len(came))
    holds("none came to the end", any(count == len(FILLING) for _, count in came))


CASES = [
    ("a snapshot, and journals in a row", rows_of_journals),
    ("rows of journals that are none", rows_with_a_fault),
    ("a bit of each field of a snapshot", turned_bits),
    ("journals that become a snapshot", folded_once),
    ("a snapshot of a follower", of_a_follower),
    ("files of a program to which requests meant something else", another_meaning),
    ("topics and partitions that are added", topics_added),
    ("what was refused before its partition was there", refused_before_it_was_there),
    ("a first producer id over snapshots", first_producer_once),
    ("snapshots while it runs", many_snapshots),
    ("a snapshot while all partitions change", many_partitions_at_once),
    ("clients that are answered while a snapshot is taken", answered_while_it_is_taken),
    ("rest behind a snapshot", rests_behind_a_snapshot),
    ("when a snapshot is due", taken_when_due),
    ("a snapshot that is missed, and tried again", missed_and_tried_again),
    ("somebody else's file in the place of the next journal", somebody_elses_journal),
    ("a disk on which a snapshot doesn't fit", full_disk),
]
