"""What `kbroker start --data` keeps: over restarts, on a disk that is full, in directories that it can't have, and over kills.

What must come is worked by hand, or by the plain models of tests/models/broker.py and tests/models/kept_files.py.
"""
import functools
import os
import random
import resource
import shlex
import signal
import socket
import struct
import subprocess
import tempfile
import threading
import time

from cases import kept_calls, kept_checks, kept_damage, kept_disks, kept_kills, kept_moved, kept_rotations, kept_rounds, kept_stored
from cases import kept_heads, kept_room, kept_times
from cases import limits, many_clients, random_clients, waiting
from cases.kept_runs import (
    ANOTHER,
    FAILED,
    FILLING,
    IN_THE_MAKING,
    JOURNAL,
    NO_MEMORY,
    OUT_OF_MEMORY,
    REFUSED,
    SNAPSHOT,
    TOPICS,
    WAYS,
    Ended,
    Kept,
    Story,
    acknowledged_of,
    all_of,
    another,
    content,
    exported,
    has_state,
    has_what_was_acknowledged,
    in_use,
    key_in,
    lay,
    missing,
    new,
    new_folder,
    recovered,
    refusal,
    refused,
    run_by_another,
    write,
)
from cases.many_clients import frame
from cases.started import (
    LIMITED,
    NOTHING_KEPT,
    SECONDS,
    Client,
    Fault,
    Started,
    ends_by_itself,
    free_port,
    holds,
    is_notice,
    is_soon,
    reply,
    request,
    same,
    slow,
)
from models import kept_files

# ---- restarts

TWO_TOPICS = ("t:2", "u:3")
# each kind of request that may change a leader, and some of these that are refused
OF_A_LEADER = [
    "producer-id",
    "produce t:0 batch a=1 b=2",
    "produce t:0 batch producer:0 epoch:0 sequence:0 a=3",
    "produce t:0 batch producer:0 epoch:0 sequence:0 a=3",
    "produce t:0 batch producer:0 epoch:0 sequence:7 a=4",
    "produce t:0 batch producer:0 epoch:0 sequence:1 b=null",
    "produce acks=0 t:1 batch x=1",
    "produce t:1 batch y=1 | u:0 batch z=1 | v:0 batch w=1",
    "produce t:1 batch crc:1 y=2",
    "commit group=g t:0 1 m",
    "commit group=g t:1 7 null | u:0 3",
    "commit group=h t:0 9",
    "commit generation=4 t:0 9",
    "clean t:0 4 4",
    "import u:1 image 0-1,2-3 batch base:0 a=1 b=2",
    "import u:1 image 0-3 batch base:0 a=1 b=2 + batch base:3 c=3",
    "import u:2 image 0-4 batch base:0 a=1 b=2 + batch base:3 last:1 c=3",
    "forget g",
    "forget nobody",
    "trim t:1 1",
    "trim t:1 7",
    "producer-id",
    "producer-id id=x",
]
OF_A_FOLLOWER = [
    "deliver t:0 batch base:5 a=1 b=2",
    "deliver t:0 batch base:0 c=1",
    "deliver t:0 batch base:0 c=1",
    "deliver t:0 batch base:6 d=1",
    "produce t:0 batch a=1",
    "import t:0 image 0-9 batch base:0 c=1 + batch base:9 e=1",
    "import t:0 image 0-9 batch base:0 c=2",
    "import u:2 image start:2 2-3 batch base:2 a=1 b=2",
    "import-delta u:0 delta 0-3 none batch base:0 a=1 b=2 + batch base:2 a=3 b=null",
    "import-delta u:0 delta 0-3 0-3 list 0 1",
    "import-delta u:0 delta 0-9 8-9 list 8",
    "clean u:0 4 4",
    "deliver u:1 batch base:0 a=1",
    "deliver u:1 batch base:1 a=2",
    "trim u:1 1",
    "deliver __consumer_offsets:0 positions base:0 g/t/0=5/m",
    "producer-id",
    "commit t:0 4",
    "forget g",
]


def restarted(program, sync, by, lines, *arguments, leads=True):
    """A third of the lines is asked in each of three runs, each ended by a signal; all that was asked must be there in the next."""
    story, third = Story(TWO_TOPICS, leads), -(-len(lines) // 3)
    with new_folder() as folder:
        for turn in range(4):
            with Kept(program, folder, *arguments, sync=sync, topics=TWO_TOPICS) as broker:
                same(f"the line of start {turn}", broker.said(), recovered(len(story.frames)) if turn else new(folder))
                story.stands(broker, f"start {turn}")
                story.tell(broker, lines[turn * third : (turn + 1) * third])
                has_state(broker, story.node, f"the end of run {turn}")
                same("the status", broker.end(by), -by)
        groups = kept_files.groups_of(content(folder, JOURNAL))
        same("the frames in the journal", kept_files.all_frames(groups), story.frames)
        wanted = kept_files.snapshot(kept_files.topics_of(TWO_TOPICS), role=int(not leads), key=key_in(folder))
        same("the snapshot", content(folder, SNAPSHOT), wanted)
        same("the names", sorted(os.listdir(folder)), [JOURNAL, SNAPSHOT])


def leader_restarted(program):
    """Each kind of changing request, in each way of syncing and for each signal; the journal has their frames in their order, and
    those of refused requests too, and none that only reads."""
    for sync in WAYS:
        for by in (signal.SIGKILL, signal.SIGTERM):
            restarted(program, sync, by, OF_A_LEADER)


def follower_restarted(program):
    """What a follower was delivered and what it imported, images and deltas."""
    for sync in WAYS:
        restarted(program, sync, signal.SIGKILL, OF_A_FOLLOWER, "--role", "follower", leads=False)


def usual_way(program):
    """Where nothing is said, each group is synced before the next one is written, as with `always`; and never with `never`, but
    that a start syncs what it found."""
    for sync in (None, "always", "never"):
        with new_folder() as folder:
            ends = [kept_files.HEAD_SIZE]
            for turn in range(2):
                with Kept(program, folder, sync=sync) as broker, broker.client() as client:
                    for number in range(3):
                        client.ask(f"produce t:0 batch a={turn}", f"produced t:0 0 {turn * 3 + number}")
                ends.append(len(content(folder, JOURNAL)))
            groups = kept_files.groups_of(content(folder, JOURNAL))
            same("the number of groups", len(groups), 6)
            wanted = [ends[index // 3] if sync == "never" else it.at for index, it in enumerate(groups)]
            same(f"how much was synced before each group, with {sync}", [it.synced for it in groups], wanted)


def synced_in_time(program):
    """With milliseconds the sync comes where nobody sends any more: the next group says so. What comes at once behind a group is
    written before it."""
    with new_folder() as folder:
        with Kept(program, folder, sync="30") as broker, broker.client() as client:
            for number in range(3):
                client.ask("produce t:0 batch a=1", f"produced t:0 0 {number}")
                time.sleep(1)
        groups = kept_files.groups_of(content(folder, JOURNAL))
        same("how much was synced a second later", [it.synced for it in groups], [it.at for it in groups])
    with new_folder() as folder:
        with Kept(program, folder, sync="60000") as broker, broker.client() as client:
            for number in range(3):
                client.ask("produce t:0 batch a=1", f"produced t:0 0 {number}")
        groups = kept_files.groups_of(content(folder, JOURNAL))
        same("how much was synced of what a minute is left for", [it.synced for it in groups], [kept_files.HEAD_SIZE] * 3)


def ids_given_once(program):
    """Producer ids over four runs, from the first one that is said, to two clients; each run is killed."""
    story = Story(first=41)
    with new_folder() as folder:
        for turn in range(4):
            with Kept(program, folder, "--first-producer", "41") as broker, broker.client() as client, broker.client() as other:
                for _ in range(3):
                    story.ask(client, "producer-id")
                    story.ask(other, "producer-id")
            same(f"the next id behind run {turn}", story.node.next_producer, 41 + 6 * (turn + 1))


def many_in_a_group(program):
    """What one client sends in one piece, small and large, stands in few groups, none above the most; and all of it is there
    again."""
    story = Story()
    with new_folder() as folder:
        with Kept(program, folder) as broker, broker.client() as client:
            lines = [f"produce t:{number % 2} batch k{number}=v" for number in range(300)]
            lines += [f"produce t:0 batch large={{{chr(97 + number)}*100000}}" for number in range(8)]
            frames = [request(it) for it in lines]
            wanted = b"".join(story.node.reply(it[4:]) for it in frames)
            client.send(b"".join(frames))
            client.gets(wanted, "the replies")
        groups = kept_files.groups_of(content(folder, JOURNAL))
        same("the frames in the journal", kept_files.all_frames(groups), frames)
        holds(f"{len(groups)} groups for 300 small frames in one piece and 8 large ones", len(groups) < 200)
        with Kept(program, folder) as broker:
            same("the line", broker.said(), recovered(len(frames)))
            has_state(broker, story.node, "the next start")


def leave_at_once(broker):
    """Clients that produce and don't wait for the reply, and one that is told of each end."""
    for number in range(30):
        with broker.client() as client:
            client.send(request(f"produce t:0 batch left{number}=v"))
            if number % 3 == 1:
                client.reset()
            if number % 3 == 2:
                client.stop()


def gone_before_the_reply(program):
    """Whatever clients did that left before their reply came, what another one sees of it then is there in the next run."""
    with new_folder() as folder:
        with Kept(program, folder) as broker, broker.client() as other:
            leave_at_once(broker)
            broker.ends(30)
            other.send(request("export t:0") + request("export t:1"))
            seen = other.receive(4)
            seen += other.receive(struct.unpack(">i", seen)[0])
            other.gets(exported(kept_files.EMPTY_IMAGE), "the image of t:1")
            holds("nothing of what clients did that left is seen", len(seen) > len(exported(kept_files.EMPTY_IMAGE)))
        with Kept(program, folder) as broker, broker.client() as client:
            client.send(request("export t:0"))
            client.gets(seen, "the image of t:0 in the next run")


def refused_behind_a_change(program):
    """What stands before a refused frame, and before the end of a client's input, is there once its reply has come."""
    story = Story()
    with new_folder() as folder:
        for number, behind in enumerate((frame(60, 0), b"", request("versions")[:5])):
            with Kept(program, folder) as broker, broker.client() as client:
                same(f"the line of start {number}", broker.said(), recovered(number) if number else new(folder))
                has_state(broker, story.node, f"start {number}")
                asked = request(f"produce t:0 batch a={number}")
                story.frames.append(asked)
                client.send(asked + behind)
                client.stop()
                client.gets_to_the_end(story.node.reply(asked[4:]))
        with Kept(program, folder) as broker:
            same("the last line", broker.said(), recovered(3))
            has_state(broker, story.node, "the last start")


LARGEST_FRAME = 8_388_608


@slow("the largest frames take long")
def largest_frames_at_once(program):
    """Three clients whose largest frames all become whole while the broker stands still, so that it finds them at once: that is
    more than a group may have. Each is answered, and each stands in the journal."""
    head = request("produce t:0 batch a=1")[4:37]  # up to the index of the partition
    size = LARGEST_FRAME - len(head) - 4
    largest = struct.pack(">i", LARGEST_FRAME) + head + struct.pack(">i", size) + bytes(size)
    with new_folder() as folder:
        with Kept(program, folder) as broker:
            clients = broker.clients(3)
            for it in clients:
                it.send(largest[:-1])
            broker.rests("all but a byte has come")
            broker.process.send_signal(signal.SIGSTOP)
            for it in clients:
                it.send(largest[-1:])
            broker.process.send_signal(signal.SIGCONT)
            for number, it in enumerate(clients):
                it.gets(reply("produced t:0 43 -1"), f"the reply to client {number}")
                it.close()
        with Kept(program, folder) as broker:
            same("the line", broker.said(), recovered(3))


READING = ["fetch t:0 0", "listoffsets t:0 -1", "offsets t:0", "versions", "export t:0", "export-delta t:0 none"]
READING += ["get t:0 a", "cover t:0"]


def reads_leave_nothing(program):
    """Requests that only read add nothing to the journal."""
    story = Story()
    with new_folder() as folder, Kept(program, folder) as broker:
        story.tell(broker, ["produce t:0 batch a=1"])
        before = content(folder, JOURNAL)
        story.tell(broker, READING)
        same("the journal behind requests that only read", content(folder, JOURNAL), before)


def nothing_kept(program):
    """Without a directory it says once at the start that nothing is kept; with one it doesn't."""
    with Started(program) as broker, broker.client() as client:
        client.ask("produce t:0 batch a=1", "produced t:0 0 0")
        holds(f"the first lines: {broker.notices}", is_soon(lambda: broker.notices.count(NOTHING_KEPT) == 1))
    with new_folder() as folder, Kept(program, folder) as broker:
        same("the line", broker.said(), new(folder))
        same("lines that nothing is kept", broker.notices.count(NOTHING_KEPT), 0)


FAULTY = [["--sync", "0"], ["--sync", "60001"], ["--sync", "sometimes"], ["--sync", "-1"], ["--sync", ""], ["--sync"]]


def faulty_arguments(program):
    """Ways of syncing that are none are faulty command lines; nothing is made."""
    with new_folder() as folder:
        for words in FAULTY:
            status, out, err = ends_by_itself(program, "--data", folder, "t:1", *words)
            same(f"the status of {words}", (status, out), (ANOTHER, ""))
            holds(f"standard error of {words}: {err!r}", err.startswith("error: "))
        for words in (["--sync", "always"], ["--data", ""], ["--fold"], ["--snapshot-after", "0"], ["--snapshot-after", "x"]):
            status, out, err = ends_by_itself(program, *words, "t:1")
            same(f"what comes of {words} alone", (status, out, err[:7]), (ANOTHER, "", "error: "))
        for words, option in ((["--sync", "40"], "--sync <WHEN>"), (["--fold"], "--fold")):
            said = ends_by_itself(program, *words, "t:1")
            same(f"what is said of {words} alone", said, (ANOTHER, "", f"error: '{option}' needs '--data <DIR>'\n"))
        same("the directory", os.path.exists(folder), False)


# ---- the disk is full

SIZES = [*range(0, 40, 4), *range(40, 160, 10), *range(160, 6000, 75)]


def full_at(program, sync, size):
    """A file may have so many bytes: all that was acknowledged before the end is there behind it, and at most what was on the way
    beside it. Whether it came to listen."""
    acknowledged, listened = 0, False
    with new_folder() as folder:
        try:
            with Kept(program, folder, sync=sync, largest=size) as broker:
                listened = True
                acknowledged = acknowledged_of(broker, FILLING)
                status, told = broker.ends_by_itself()
        except Ended as ended:
            status, told = ended.status, ended.lines
        name = JOURNAL if listened or size < kept_files.HEAD_SIZE else IN_THE_MAKING
        same(f"the status at {size} bytes", status, FAILED)
        holds(f"the last line at {size} bytes: {told}", told[-1].startswith(f"kbroker: {folder}/{name}: "))
        has_what_was_acknowledged(program, folder, acknowledged, listened)
    return listened


def full_disk(program):
    """A file may have so many bytes and no more, for a hundred numbers, of which some are too few for a head, or for the snapshot.
    A write behind them fails, as on a disk that is full."""
    listened = [full_at(program, WAYS[index % 3], size) for index, size in enumerate(SIZES)]
    holds(f"{sum(listened)} of {len(SIZES)} came to listen", 70 < sum(listened) < len(SIZES) - 5)


# ---- directories


def parent_missing(program):
    """Of a path only the last name is made."""
    with new_folder() as folder:
        status, line = refusal(program, f"{folder}/further")
        same("the status", status, FAILED)
        holds(f"the line {line!r}", line.startswith(f"kbroker: {folder}/further: "))
        same("the parent", os.path.exists(folder), False)


def file_in_its_place(program):
    """What should be the directory is a file."""
    with new_folder() as folder:
        with open(folder, "wb") as file:
            file.write(b"mine")
        status, line = refusal(program, folder)
        same("the status", status, FAILED)
        holds(f"the line {line!r}", line.startswith(f"kbroker: {folder}: "))
        with open(folder, "rb") as file:
            same("the file", file.read(), b"mine")


def made_before(program):
    """An empty directory that somebody made is a new one; a path may be relative to where it runs, and end in a slash."""
    story = Story()
    with new_folder() as folder:
        os.mkdir(folder)
        with Kept(program, folder + "/") as broker:
            same("the line", broker.said(), new(folder + "/"))
            story.tell(broker, OF_A_LEADER[:3])
        with Kept(program, os.path.relpath(folder)) as broker:
            same("the line", broker.said(), recovered(3))
            story.stands(broker, "the next start")


def link_to_a_directory(program):
    """A link to a directory is one, as systemd leaves it for a service whose user it draws."""
    story = Story()
    with new_folder() as folder:
        os.mkdir(f"{folder}.there")
        os.symlink(f"{folder}.there", folder)
        for turn in range(2):
            with Kept(program, folder) as broker:
                same("the line", broker.said(), recovered(len(story.frames)) if turn else new(folder))
                story.tell(broker, OF_A_LEADER[:3])
        same("the link", os.readlink(folder), f"{folder}.there")


def second_process(program):
    """A second one on a directory that is in use is refused, and the first goes on. Once that is killed it is free."""
    story = Story()
    with new_folder() as folder:
        with Kept(program, folder) as broker:
            story.tell(broker, OF_A_LEADER[:4])
            for _ in range(3):
                refused(program, folder, FAILED, in_use(folder))
            refused(program, folder, FAILED, in_use(folder), topics=("t:3",))
            story.tell(broker, OF_A_LEADER[4:6])
            story.stands(broker, "the first one beside others")
        with Kept(program, folder) as broker:
            same("the line", broker.said(), recovered(len(story.frames)))
            story.stands(broker, "the next start")


def busy_directory(program):
    """Of eight that begin at once one listens, and the others find the directory in use."""
    with new_folder() as folder:
        os.mkdir(folder)
        for _ in range(3):
            listening, refusals = [], []
            brokers = [Kept(program, folder) for _ in range(8)]
            threads = [threading.Thread(target=begun, args=[it, listening, refusals]) for it in brokers]
            for it in threads:
                it.start()
            for it in threads:
                it.join()
            for it in listening:
                it.__exit__(None)
            same("those that listened", len(listening), 1)
            same("those that didn't", refusals, [(FAILED, [in_use(folder)])] * 7)


def begun(broker, listening, refusals):
    """Starts it, and tells what came of it."""
    try:
        listening.append(broker.__enter__())
    except Ended as ended:
        refusals.append((ended.status, ended.lines))


def of_another_user(program):
    """A directory that may not be entered, one that may not be written, and files that may not. (Tests of root run the program as
    nobody, and others take the rights from themselves.)"""
    both = [f"/{JOURNAL}", f"/{SNAPSHOT}"]
    for mode, files, names in ((0o000, 0o644, [""]), (0o555, None, both[:1]), (0o555, 0o444, both)):
        with new_folder() as folder:
            os.mkdir(folder)
            if files is not None:
                lay(folder, kept_files.journal([[request("produce t:0 batch a=1")]]))
                for name in (JOURNAL, SNAPSHOT):
                    os.chmod(f"{folder}/{name}", files)
            before = all_of(folder)
            with run_by_another(program, folder) as (copy, user):
                os.chmod(folder, mode)
                status, line = refusal(copy, folder, user=user)
            same(f"the status with mode {mode:o}", status, FAILED)
            holds(f"the line with mode {mode:o}: {line!r}", any(line.startswith(f"kbroker: {folder}{it}: ") for it in names))
            same("the directory", {**all_of(folder), b".": None}, {**before, b".": None})


def own_user(program):
    """One that isn't root's, of the user as whom it runs, and whose parent isn't."""
    story = Story()
    with new_folder() as folder:
        os.mkdir(folder)
        with run_by_another(program, folder) as (copy, user):
            if user is not None:
                os.chown(folder, user, user)
            for turn in range(2):
                with Kept(copy, folder, user=user) as broker:
                    same("the line", broker.said(), recovered(len(story.frames)) if turn else new(folder))
                    story.tell(broker, OF_A_LEADER[:4])


# ---- starts that are killed


def killed_at_random(program, folder, drawn, seconds):
    """Starts it, and kills it at a random moment."""
    broker = Kept(program, folder)
    process = subprocess.Popen(
        broker.command,
        executable=program,
        stdin=subprocess.DEVNULL,
        stdout=subprocess.DEVNULL,
        stderr=subprocess.DEVNULL,
        preexec_fn=broker.prepare,
    )
    time.sleep(drawn.random() * seconds)
    process.kill()
    process.wait()


def seconds_to_listen(program, folder):
    """How long a start takes, about."""
    began = time.monotonic()
    with Kept(program, folder):
        return time.monotonic() - began


def new_and_killed(program):
    """Starts on a new directory that are killed at random moments, again and again: at any time there is nothing but its own names;
    and the next one that isn't is right. In the end all steps of making a directory were met."""
    drawn, met = random.Random(2), set()
    for _ in range(12):
        with new_folder() as folder:
            with new_folder() as other:
                seconds = seconds_to_listen(program, other)
            for _ in range(8):
                killed_at_random(program, folder, drawn, seconds)
                names = frozenset(os.listdir(folder)) if os.path.isdir(folder) else None
                met.add(names)
                holds(f"the names {names}", not names or names <= {JOURNAL, SNAPSHOT, IN_THE_MAKING})
            story = Story()
            with Kept(program, folder) as broker:
                holds("the line of a start", broker.said() in (new(folder), recovered(0)))
                story.tell(broker, OF_A_LEADER[:3])
            same("the names", sorted(os.listdir(folder)), [JOURNAL, SNAPSHOT])
            with Kept(program, folder) as broker:
                same("the line", broker.said(), recovered(3))
                story.stands(broker, "the next start")
    holds(f"what was met: {met}", {JOURNAL, SNAPSHOT} in met)


def left_by_a_kill(program):
    """What a kill while a directory is made may leave, each part of it, is begun anew: no file, a journal of no more than its head,
    and with it a part of a snapshot that has not its name yet. So is what the program before left, whose heads are shorter."""
    head, old = kept_files.journal_head(), kept_files.journal_head(version=0)
    snapshot = kept_files.snapshot(kept_files.topics_of(TOPICS))
    parts = [{JOURNAL: head[:size]} for size in (0, 1, 27, 28, 29, 55, 56)]
    parts += [{JOURNAL: head, IN_THE_MAKING: snapshot[:size]} for size in (0, 50, len(snapshot))]
    parts += [{IN_THE_MAKING: snapshot}, {JOURNAL: bytes(28)}, {JOURNAL: bytes(56)}, {JOURNAL: old[:27]}, {JOURNAL: old + bytes(28)}]
    parts += [{JOURNAL: old, IN_THE_MAKING: kept_files.snapshot(kept_files.topics_of(TOPICS), version=0)}]
    for part in parts:
        with new_folder() as folder:
            os.mkdir(folder)
            for name, data in part.items():
                write(folder, name, data)
            story = Story()
            with Kept(program, folder) as broker:
                same(f"the line behind {[*part]}", broker.said(), new(folder))
                story.tell(broker, OF_A_LEADER[:2])
            same("the names", sorted(os.listdir(folder)), [JOURNAL, SNAPSHOT])
            wanted = kept_files.snapshot(kept_files.topics_of(TOPICS), key=key_in(folder))
            same("the snapshot", content(folder, SNAPSHOT), wanted)
            same("the frames", kept_files.all_frames(kept_files.groups_of(content(folder, JOURNAL))), story.frames)


def old_and_killed(program):
    """Starts on a directory whose journal has a torn end, killed at random moments, again and again: nothing that stands before
    that end is lost."""
    frames, drawn = [request(it) for it in OF_A_LEADER[:8]], random.Random(3)
    sound = kept_files.journal([[it] for it in frames])
    node = kept_files.node_after(frames, kept_files.topics_of(TOPICS))
    with new_folder() as folder:
        lay(folder, sound)
        seconds = seconds_to_listen(program, folder)
        for _ in range(60):
            with open(f"{folder}/{JOURNAL}", "ab") as file:
                file.write(sound[40 : 40 + drawn.randrange(200)])
            write(folder, IN_THE_MAKING, b"of a start before")
            killed_at_random(program, folder, drawn, seconds)
            holds("the journal's front", content(folder, JOURNAL).startswith(sound))
        with Kept(program, folder) as broker:
            holds(f"the line {broker.said()}", broker.said().startswith(recovered(len(frames))))
            has_state(broker, node, "the state")
        same("the journal", content(folder, JOURNAL), sound)
        same("the names", sorted(os.listdir(folder)), [JOURNAL, SNAPSHOT])


# ---- another configuration

STANDS = ("t:2", "u:3")
CONFIGURATIONS = [
    # what stands there, the arguments, and what differs
    ({}, [], ("t:1", "u:3"), "topic t: 2 partitions"),
    ({}, [], ("u:4", "t:1"), "topic t: 2 partitions"),
    ({}, [], ("t:2",), "topic u: 3 partitions"),
    ({}, [], ("t:2", "v:9"), "topic u: 3 partitions"),
    ({}, ["--role", "follower"], STANDS, "role: leader"),
    ({"role": 1}, [], STANDS, "role: follower"),
    ({"role": 1}, [], ("t:2",), "role: follower"),
]


def other_configurations(program):
    """Fewer topics or partitions than those of the directory, or another role; the torn end of the journal stays. The order of the
    topics may be another, and so may the first producer id."""
    with new_folder() as folder:
        for stands, arguments, topics, what in CONFIGURATIONS:
            lay(folder, kept_files.journal([[request("produce t:0 batch a=1")]]) + bytes(9), STANDS, **stands)
            refused(program, folder, ANOTHER, another(folder, what), *arguments, topics=topics)
        lay(folder, kept_files.journal([[request("produce t:0 batch a=1")]]), STANDS)
        with Kept(program, folder, topics=STANDS[::-1]) as broker:
            same("the line of topics in another order", broker.said(), recovered(1))
        with Kept(program, folder, "--first-producer", "5", topics=STANDS) as broker, broker.client() as client:
            same("the line of another first producer", broker.said(), recovered(1))
            client.ask("producer-id", "producer 0 0 0")


@slow(LIMITED)
def without_memory(program):
    """A journal whose frames take more memory than there is: status 3, and nothing changed; with enough of it all is there."""
    frames = [request(f"produce t:0 batch k={{{chr(97 + number)}*1000000}}") for number in range(4)]
    with new_folder() as folder:
        with Kept(program, folder) as broker, open(f"/proc/{broker.process.pid}/statm", encoding="ascii") as file:
            own = int(file.read().split()[0]) * resource.getpagesize()
        lay(folder, kept_files.journal([frames[:1], frames[1:]]))
        for more in (500_000, 2_500_000):
            refused(program, folder, NO_MEMORY, OUT_OF_MEMORY, memory=own + more)
        with Kept(program, folder) as broker, broker.client() as client:
            same("the line", broker.said(), recovered(len(frames)))
            client.ask("listoffsets t:0 -1", f"listed t:0 0 -1 {len(frames)}")


# ---- where it listens, and when


def taken_port(program):
    """Where another listens it recovers, and then ends as it does without a directory. That is left free, and nothing is lost."""
    journal = kept_files.journal([[request("produce t:0 batch a=1")]])
    with new_folder() as folder, socket.create_server(("127.0.0.1", 0)) as other:
        lay(folder, journal)
        at = f"127.0.0.1:{other.getsockname()[1]}"
        try:
            with Kept(program, folder, listen=at):
                raise Fault("it listens where another does")
        except Ended as ended:
            same("the status", ended.status, FAILED)
            same("the first lines", ended.lines[:-1], [recovered(1)])
            holds(f"the last line: {ended.lines}", ended.lines[-1].startswith(f"kbroker: {at}: "))
        same("the journal", content(folder, JOURNAL), journal)
        with Kept(program, folder) as broker:
            same("the line", broker.said(), recovered(1))


def refused_before_it_listens(program):
    """A directory that is refused is so whatever stands at the port, and nothing is bound: not even one that another has."""
    with new_folder() as folder, socket.create_server(("127.0.0.1", 0)) as other:
        at = f"127.0.0.1:{other.getsockname()[1]}"
        lay(folder, kept_files.journal([[request("produce t:0 batch a=1")]]) + bytes(9))
        refused(program, folder, ANOTHER, another(folder, "topic t: 2 partitions"), topics=("t:1",), listen=at)
        refused(program, folder, ANOTHER, another(folder, "role: leader"), "--role", "follower", listen=at)
        os.remove(f"{folder}/{JOURNAL}")
        refused(program, folder, REFUSED, missing(folder, JOURNAL), listen=at)


def entered(port):
    """A connection to a port of 127.0.0.1, or none while it is refused."""
    try:
        return socket.create_connection(("127.0.0.1", port))
    except ConnectionRefusedError:
        return None


def let_in_behind_a_recovery(program):
    """While a journal is read nobody is let in at a port that is given. Whoever is let in finds that it has recovered."""
    rounds, port = [[request(f"produce t:0 batch k={number}") for number in range(1_000)]], free_port()
    with new_folder() as folder:
        lay(folder, kept_files.journal(rounds))
        broker = Kept(program, folder, listen=f"127.0.0.1:{port}")
        ways = {"stdin": subprocess.DEVNULL, "stdout": subprocess.DEVNULL, "stderr": subprocess.PIPE}
        with subprocess.Popen(broker.command, executable=program, preexec_fn=broker.prepare, **ways) as process:
            try:
                late = time.monotonic() + SECONDS
                while (first := entered(port)) is None:
                    holds("nobody is let in", process.poll() is None and time.monotonic() < late)
                    time.sleep(0.0005)
                # It stays open while this is read: its end would be a line, too.
                with first:
                    os.set_blocking(process.stderr.fileno(), False)
                    said = (process.stderr.read() or b"").decode("ascii", "replace").splitlines()
                same("what is said when somebody is let in", [it for it in said if not is_notice(it)], [recovered(len(rounds[0]))])
                with Client(("127.0.0.1", port)) as client:
                    client.ask("listoffsets t:0 -1", f"listed t:0 0 -1 {len(rounds[0])}")
            finally:
                process.kill()


# ---- what is so without a directory is so with one


def with_a_directory(case):
    """A case of `kbroker start` of which each start has a new directory."""

    @functools.wraps(case)
    def tried(program):
        with tempfile.TemporaryDirectory() as folder:
            keeping = f"{folder}/kbroker"
            words = f'exec {shlex.quote(program)} "$@" --data "$(mktemp -d {shlex.quote(folder)}/XXXXXX)"'
            with open(keeping, "w", encoding="utf-8") as file:
                file.write(f"#!/bin/sh\n{words}\n")
            os.chmod(keeping, 0o755)
            case(keeping)
            holds("no start had a directory", len(os.listdir(folder)) > 1)

    return tried


AS_WITHOUT = [
    *random_clients.CASES,
    ("a fetch waits for what another produces", waiting.is_woken_by_produce),
    ("fetches' times in their order", waiting.times_in_their_order),
    ("a trim makes a fetch due", waiting.trim_makes_due),
    ("a commit makes a fetch due", waiting.commit_makes_due),
    ("an import makes a fetch due", waiting.import_makes_due),
    ("a cleaning while a fetch waits", waiting.clean_leaves_waiting),
    ("a fetch and a produce without acknowledgement", waiting.without_acknowledgement),
    ("large replies that nobody reads", limits.replies_unread),
    ("a client that stops behind more than a read", many_clients.half_close_behind_many_reads),
    ("clients that stop", many_clients.half_closes),
    ("a refused frame before what isn't read", many_clients.refused_before_unread),
    ("resets", many_clients.resets),
    ("most bytes owed", limits.most_owed),
    ("large replies in pieces", limits.largest_replies),
]

CASES = [
    ("what a leader keeps over restarts", leader_restarted),
    ("what a follower keeps over restarts", follower_restarted),
    ("when groups are synced", usual_way),
    ("a sync in time where nobody sends", synced_in_time),
    ("producer ids over restarts", ids_given_once),
    ("many frames in one piece, kept", many_in_a_group),
    ("clients that are gone before their reply", gone_before_the_reply),
    ("a change, and what ends its connection", refused_behind_a_change),
    ("the largest frames of three clients at once", largest_frames_at_once),
    ("requests that only read leave nothing in the journal", reads_leave_nothing),
    ("what is said where nothing is kept", nothing_kept),
    ("ways of syncing that are none", faulty_arguments),
    ("a disk that is full", full_disk),
    ("a directory without a parent", parent_missing),
    ("a file in the place of a directory", file_in_its_place),
    ("a directory that somebody made", made_before),
    ("a link to a directory", link_to_a_directory),
    ("a second process on a directory", second_process),
    ("eight processes at once on a directory", busy_directory),
    ("a directory of another user", of_another_user),
    ("a directory of a user that isn't root", own_user),
    ("starts on a new directory that are killed", new_and_killed),
    ("what a killed start leaves", left_by_a_kill),
    ("starts on a torn journal that are killed", old_and_killed),
    ("a directory of another configuration", other_configurations),
    ("a journal that takes more memory than there is", without_memory),
    ("a directory, and a port that is taken", taken_port),
    ("a directory that is refused, and a port that is taken", refused_before_it_listens),
    ("a port that is given, while a journal is read", let_in_behind_a_recovery),
    *((f"{name}, with a directory", with_a_directory(case)) for name, case in AS_WITHOUT),
    *kept_damage.CASES,
    *kept_calls.CASES,
    *kept_rounds.CASES,
    *kept_stored.CASES,
    *kept_rotations.CASES,
    *kept_disks.CASES,
    *kept_room.CASES,
    *kept_moved.CASES,
    *kept_times.CASES,
    *kept_checks.CASES,
    *kept_heads.CASES,
    *kept_kills.CASES,
]
