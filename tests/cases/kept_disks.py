"""What a disk does to what `kbroker start --data` keeps: writes behind that were lost, backups that were put back, disks that are full.

What must come is worked by hand, by the plain models, and by a model of what a disk has of the calls that are made
(tests/cases/kept_watched.py).
"""
import os
import tempfile
import threading

from cases.kept_calls import where_it_can_be_seen
from cases.kept_runs import (
    FAILED,
    FILLING,
    IN_THE_MAKING,
    JOURNAL,
    SNAPSHOT,
    TOPICS,
    Ended,
    Kept,
    Story,
    all_of,
    content,
    folded,
    found,
    has_state,
    key_in,
    new,
    new_folder,
    recovered,
    run_by_another,
    write,
)
from cases.kept_watched import Disk, Watched, brief, files_of, fill, lay_files, mounting, small_device, small_disk, until_it_listens
from cases.started import CannotBeTried, Fault, holds, is_soon, reply, request, same
from models import kept_files

NAMES = kept_files.topics_of(TOPICS)
FRAMES = [request(f"produce t:{number % 2} batch k{number}=v{number}") for number in range(9)]
LARGE = "produce t:0 batch k={a*1600}"  # behind it a snapshot is due, with the option below
SOON = ("--snapshot-after", "1500")
NOWHERE = "produce t:9 batch k=v"  # is refused; it stands in the journal, and is never put off


def laid(folder, files):
    lay_files(folder, files)
    return files


def first_files(*rounds, version=1, **journal):
    """A snapshot of an empty broker and a journal."""
    return {SNAPSHOT: kept_files.snapshot(NAMES, version=version), JOURNAL: kept_files.journal(rounds, version=version, **journal)}


def node_after(frames):
    return kept_files.node_after(frames, NAMES)


def row(first, count, *journals, **ways):
    """A row of files: the snapshot of a number, behind so many frames, and the journals from there on, of these rounds."""
    return kept_files.row_of(node_after(FRAMES[:count]), NAMES, first, *journals, **ways)


def behind(files, number, rounds, **head):
    """The same files, and a journal behind the last one."""
    before = kept_files.stands_before(files[f"journal.{number - 1}"])
    return {**files, f"journal.{number}": kept_files.journal(rounds, number=number, before=before, **head)}


def names_in(folder):
    return sorted(os.listdir(folder))


def stands(program, folder, frames, what, *arguments, said=None):
    """A start must have the state behind these frames."""
    with Kept(program, folder, *arguments) as broker:
        if said is not None:
            same(f"the line, {what}", broker.said(), said)
        has_state(broker, node_after(frames), what)


def syncs_at_the_start(program, folder, name):
    """How often a start on this directory syncs the file of a name, or `.`, before it listens; the directory is left as it was."""
    files = files_of(folder)
    with Watched(program, folder) as broker:
        events = until_it_listens(broker.events())
    lay_files(folder, files)
    return sum((it.kind, it.name) == ("sync", name) for it in events)


# ---- a start can't know what is on the disk


ROUNDS = [FRAMES[:1], FRAMES[1:4], FRAMES[4:5], FRAMES[5:7]]
BEGIN = [it.at for it in kept_files.groups_of(kept_files.journal(ROUNDS))]


def writes_again(program, folder, what, journal, since, torn):
    """A start on this journal must write again what stands from a byte on, as it is, before it syncs anything; and sync it then."""
    laid(folder, {**first_files(), JOURNAL: journal + torn})
    with Watched(program, folder) as broker:
        events = until_it_listens(broker.events())
    first = next(at for at, it in enumerate(events) if it.kind == "sync")
    written = [it for it in events[:first] if (it.kind, it.name) == ("write", JOURNAL)]
    covered = sorted((it.at, it.at + it.gave) for it in written if it.at is not None and not it.appends)
    holds(f"{what}: nothing is written again, in {brief(events)}", written)
    same(f"{what}: how many are written at a place", len(covered), len(written))
    same(f"{what}: where it begins and ends", (covered[0][0], covered[-1][1]), (since, len(journal)))
    same(f"{what}: where one ends and the next one begins", [it[1] for it in covered[:-1]], [it[0] for it in covered[1:]])
    for it in written:
        same(f"{what}: the bytes from {it.at} on", it.data, journal[it.at : it.at + len(it.data)])
    holds(f"{what}: it isn't synced then, in {brief(events)}", ("sync", JOURNAL) in [it[:2] for it in events[first:]])
    same(f"{what}: the journal", content(folder, JOURNAL), journal)


def written_again(program):
    """What stands behind the last group's own `synced` is written again, where it stands, and then synced, before anything else is: of
    groups that were each synced it is the last one, of others it is more. A start that is refused writes nothing."""
    with new_folder() as folder:
        for torn in (b"", bytes(9)):
            end = f"{len(torn)} bytes of a torn end"
            writes_again(program, folder, f"each synced, {end}", kept_files.journal(ROUNDS), BEGIN[3], torn)
            writes_again(program, folder, f"none synced, {end}", kept_files.journal(ROUNDS, kept_files.never), BEGIN[0], torn)
            writes_again(program, folder, f"no group, {end}", kept_files.journal([]), 0, torn)
            half = kept_files.journal(ROUNDS, lambda at, _: min(at, BEGIN[1]))
            writes_again(program, folder, f"the first one synced, {end}", half, BEGIN[1], torn)
        large = [[request(f"produce t:{number % 2} batch k={{v*90000}}")] for number in range(4)]
        writes_again(program, folder, "large groups", kept_files.journal(large, kept_files.never), BEGIN[0], b"")
        laid(folder, behind(first_files(*ROUNDS, synced=kept_files.never), 2, [[request("export t:0")]]))
        before = all_of(folder)
        try:
            with Watched(program, folder) as broker:
                raise Fault("a frame that only reads is taken")
        except Ended:
            same("the directory behind a refusal", all_of(folder), before)


def lost_behind_a_sync(program):
    """The sync of a group fails, and the disk hasn't got it, though the system's memory has. The next start shows it; further groups are
    acknowledged behind it; and then the power is cut. Nothing that was acknowledged or shown is gone."""
    story = Story()
    with new_folder() as folder:
        disk = Disk(laid(folder, first_files([FRAMES[0]])))
        story.node.reply(FRAMES[0][4:])
        number = syncs_at_the_start(program, folder, JOURNAL) + 2
        with Watched(program, folder, names=[JOURNAL], inject=[f"fsync,fdatasync:error=EIO:when={number}"]) as broker:
            with broker.client() as client:
                story.ask(client, "produce t:0 batch acknowledged=1")
                client.send(request("produce t:1 batch lost={l*700}"))
                same("what comes behind a sync that failed", client.rest(), b"")
            same("the status", broker.ends_by_itself()[0], FAILED)
            disk.take(broker.events())
        same("the model's memory", disk.in_memory(), files_of(folder))
        story.node.reply(request("produce t:1 batch lost={l*700}")[4:])
        with Watched(program, folder) as broker:
            same("the line of the second start", broker.said(), recovered(3))
            story.stands(broker, "the second start")
            story.tell(broker, ["produce t:1 batch shown=1", "produce t:0 batch later=1"])
            disk.take(broker.events())
        same("the model's memory in the end", disk.in_memory(), files_of(folder))
        laid(folder, disk.behind_a_power_cut())
        with Kept(program, folder) as broker:
            story.stands(broker, "the start behind the power cut")


def lost_on(device, program, folder, story):
    """A group is acknowledged, and the sync of the next one fails, since the device has no room: it ends with status 4. Then there is
    room again."""
    with Kept(program, folder) as broker:
        story.tell(broker, ["produce t:0 batch acknowledged=1"])
    device.sync()
    device.fills_up()
    with Kept(program, folder) as broker, broker.client() as client:
        words = "produce t:1 batch lost={l*20000}"
        client.send(request(words))
        same("what comes behind a sync that fails", client.rest(), b"")
        same("the status", broker.ends_by_itself()[0], FAILED)
    device.has_room()
    return words


def failed_for_certain(program):
    """The same on a device: its blocks are holes of a file on a small disk that is full, so what is written behind fails; and the file is
    what the power cut leaves. Root's alone, and where devices can be made of files."""
    with small_device() as device:
        folder, story = f"{device.path}/data", Story()
        story.node.reply(request(lost_on(device, program, folder, story))[4:])
        with Kept(program, folder) as broker:
            shown = found(broker.said())[1]
            if shown == 1:
                raise CannotBeTried("this system forgets what it couldn't write")
            story.tell(broker, ["produce t:1 batch shown=1", "produce t:0 batch later=1"])
        with device.behind_a_power_cut() as copy:
            with Kept(program, f"{copy}/data") as broker:
                story.stands(broker, "the start behind the power cut")


def reads_to_recover(program, files):
    """How many reads of the journal a start makes until it has recovered it: behind these it reads what it writes again."""
    with new_folder() as folder:
        laid(folder, files)
        with Watched(program, folder, names=[JOURNAL], reads=True) as broker:
            events = [it for it in broker.events() if it.name == JOURNAL]
    reads = [it.at for it in events if it.kind == "read"]
    back = next((at for at, (one, other) in enumerate(zip(reads, reads[1:])) if other < one), None)
    holds(f"nothing is read again: {reads}", back is not None)
    return back + 1


def forgotten_meanwhile(program):
    """On such a device the system forgets what it couldn't write, between the read that a start judges and the one by which it writes
    again: the start ends with status 4 and shows nothing of it, and the next one has what is on the disk."""
    with small_device() as device:
        folder, story = f"{device.path}/data", Story()
        lost_on(device, program, folder, story)
        number, inside = reads_to_recover(program, files_of(folder)), f"{device.there}/mounted/data"
        stop = [f"pread64:signal=STOP:when={number}"]
        starting = Watched(program, folder, names=[JOURNAL], inject=stop, inside=inside)
        forgetting = threading.Thread(target=forget, args=(starting, f"{folder}/{JOURNAL}"), daemon=True)
        forgetting.start()
        try:
            with starting as broker:
                raise Fault(f"it listens, and says {broker.said()!r}")
        except Ended as ended:
            same(f"the status, of {ended.lines}", ended.status, FAILED)
            holds(f"the lines {ended.lines}", ended.lines[-1].startswith(f"kbroker: {folder}/{JOURNAL}: "))
        forgetting.join()
        with Kept(program, folder) as broker:
            story.stands(broker, "the next start")


def forget(starting, path):
    """Once it has stopped, the system drops what it has of a file in memory and on the disk alike, as it believes."""
    starting.waits_until_stopped()
    with open(path, "rb") as file:
        os.posix_fadvise(file.fileno(), 0, 0, os.POSIX_FADV_DONTNEED)
    starting.goes_on()


def room_before_it_is_written_again(program):
    """Writing again may need room, so what was in the making goes before: ahead of each write, cut and sync of the journal."""
    for torn in (b"", bytes(9)):
        with new_folder() as folder:
            files = first_files(FRAMES[:3])
            laid(folder, {**files, JOURNAL: files[JOURNAL] + torn, IN_THE_MAKING: b"of a snapshot before"})
            with Watched(program, folder) as broker:
                events = [it[:2] for it in until_it_listens(broker.events())]
            gone = events.index(("remove", IN_THE_MAKING))
            before = [it for it in events[:gone] if it[0] in ("write", "cut", "sync") and it[1] == JOURNAL]
            same(f"what comes before it goes, of {events}", before, [])


# ---- what was put back


def put_back_files():
    """A backup: a snapshot and two journals."""
    return row(2, 3, [FRAMES[3:4], FRAMES[4:6]], [FRAMES[6:7]])


def story_of_put_back():
    story = Story()
    for it in FRAMES[:7]:
        story.node.reply(it[4:])
    return story


def put_back(program):
    """A backup that was put back isn't on the disk yet. A start syncs each file that it reads, their names, and once that of the
    directory, before it listens."""
    with new_folder() as folder:
        laid(folder, put_back_files())
        with Watched(program, folder) as broker:
            same("the line", broker.said(), recovered(4, snapshot=2))
            synced = [it.name for it in until_it_listens(broker.events()) if it.kind == "sync"]
        for name in [*put_back_files(), "."]:
            holds(f"{name} isn't synced before it listens: {synced}", name in synced)
        same(f"how often the parent is, in {synced}", synced.count(".."), 1)


def put_back_at_a_power_cut(program):
    """The same, where the power is cut right behind the line that it listens, or behind three acknowledged produces: all is there."""
    for asked in (3, 0):
        story = story_of_put_back()
        with new_folder() as folder:
            disk = Disk(laid(folder, put_back_files()), is_synced=False)
            with Watched(program, folder) as broker:
                story.tell(broker, [f"produce t:0 batch acknowledged{number}=1" for number in range(asked)])
                disk.take(broker.events())
            same("the model's memory", disk.in_memory(), files_of(folder))
            laid(folder, disk.behind_a_power_cut())
            with Kept(program, folder) as broker:
                same("the line behind a power cut", broker.said(), recovered(4 + asked, snapshot=2))
                story.stands(broker, "the start behind the power cut")


def parent_synced(program):
    """The parent of a directory that was there is synced once; where it can't be read the start goes on without."""
    with new_folder() as folder:
        laid(folder, first_files([FRAMES[0]]))
        with run_by_another(program, folder) as (copy, user):
            if user is not None:
                for it in (folder, f"{folder}/{JOURNAL}", f"{folder}/{SNAPSHOT}"):
                    os.chown(it, user, user)
            os.chmod(os.path.dirname(folder), 0o311)
            try:
                with Kept(copy, folder, user=user) as broker:
                    same("the line where the parent can't be read", broker.said(), recovered(1))
            finally:
                os.chmod(os.path.dirname(folder), 0o755)
        same("the syncs of the parent", syncs_at_the_start(program, folder, ".."), 1)


NO_SYNC = ("EINVAL", "EOPNOTSUPP", "EROFS")  # what a sync of a directory gives where its file system has none


def parent_without_sync(program):
    """Where the parent's file system has no sync of directories, a directory that was there is started on all the same; one that is made
    isn't, and a sync that fails otherwise ends a start in any case: with status 4 and the directory's line."""
    for error in (*NO_SYNC, "EIO"):
        for is_there in (True, False):
            what = f"{error}, of a directory that {'was there' if is_there else 'is made'}"
            with new_folder() as folder:
                laid(folder, first_files([FRAMES[0]])) if is_there else None
                starting = Watched(program, folder, names=[".."], inject=[f"fsync,fdatasync:error={error}"])
                try:
                    with starting as broker:
                        holds(f"it listens, {what}: {broker.lines}", is_there and error in NO_SYNC)
                        same(f"the line, {what}", broker.said(), recovered(1))
                except Ended as ended:
                    same(f"the status and the lines, {what}", (ended.status, len(ended.lines)), (FAILED, 1))
                    holds(f"the line, {what}: {ended.lines}", ended.lines[0].startswith(f"kbroker: {folder}: "))
                    holds(f"it doesn't listen, {what}", not is_there or error not in NO_SYNC)
                holds(f"the parent isn't synced, {what}", starting.has_injected())
                with Kept(program, folder) as broker:
                    has_state(broker, node_after(FRAMES[:1] if is_there else []), f"the next start, {what}")


def parent_of_a_mount(program):
    """Of a directory on which something is mounted the name isn't the parent's to keep: that isn't synced."""
    with tempfile.TemporaryDirectory() as there, mounting(f"mount -t tmpfs -o size=4m none {there}") as root:
        if root is None:
            raise CannotBeTried("nothing can be mounted here")
        for turn in range(2):
            with Watched(program, f"{root}{there}", inside=there) as broker:
                same(f"the line of start {turn}", broker.said(), recovered(turn) if turn else new(f"{root}{there}"))
                with broker.client() as client:
                    client.ask("produce t:0 batch k=v", f"produced t:0 0 {turn}")
                synced = [it.name for it in broker.events() if it.kind == "sync"]
            holds(f"no name is synced, of {synced}", "." in synced)
            same("the syncs of the parent", synced.count(".."), 0)


# ---- no room for a group while a snapshot is written


def snapshot_lines(broker):
    """What is said of snapshots that weren't taken."""
    return [it for it in broker.lines if it.startswith("snapshot: ")]


class NoRoom(Watched):
    """A program that stops behind the first write of a snapshot's draft, which is its head; and of which then a call fails."""

    def __init__(self, program, folder, *inject, **ways):
        names = [IN_THE_MAKING, "journal.2"]
        super().__init__(program, folder, *SOON, names=names, inject=["pwrite64:signal=STOP:when=1", *inject], **ways)

    def has_a_draft(self, story, client):
        """A snapshot is begun, and its head is in the draft; the broker goes on where a client has sent one request more."""
        story.ask(client, LARGE)
        self.waits_until_stopped()
        client.send(request(NOWHERE))
        self.goes_on()


def room_by_a_draft(program):
    """A group's first write finds no space while a snapshot is written. The draft is given up, which is said, and the group is tried
    once more: its reply comes, and the broker goes on."""
    story = Story()
    with new_folder() as folder:
        laid(folder, first_files())
        with NoRoom(program, folder, "write:error=ENOSPC:when=2") as broker:
            with broker.client() as client:
                broker.has_a_draft(story, client)
                client.gets(story.node.reply(request(NOWHERE)[4:]), "the reply behind a write that found no space")
                story.ask(client, "produce t:1 batch b=2")
            holds(f"the call didn't fail: {broker.lines}", broker.has_injected())
            same("the names", names_in(folder), [JOURNAL, "journal.2", SNAPSHOT])
            same(f"what is said of snapshots, in {broker.lines}", len(snapshot_lines(broker)), 1)
        groups = kept_files.groups_of(content(folder, "journal.2"), 2)
        same("the frames in the next journal", kept_files.all_frames(groups), [request(NOWHERE), request("produce t:1 batch b=2")])
        with Kept(program, folder) as broker:
            story.stands(broker, "the next start")


def no_room_by_a_draft(program):
    """It ends where the second try fails too, where the write fails otherwise, and where the sync of the group does: with status 4, and
    nothing leaves. The draft of the first is gone by then."""
    ways = [("write:error=ENOSPC:when=2..3", True), ("write:error=EIO:when=2", False), ("fdatasync:error=ENOSPC:when=2", False)]
    for inject, is_given_up in ways:
        with new_folder() as folder:
            laid(folder, first_files())
            story = Story()
            with NoRoom(program, folder, inject) as broker, broker.client() as client:
                broker.has_a_draft(story, client)
                same(f"what comes, with {inject}", client.rest(), b"")
                status, lines = broker.ends_by_itself()
            same(f"the status, with {inject}", status, FAILED)
            holds(f"the last line, with {inject}: {lines}", lines[-1].startswith(f"kbroker: {folder}/journal.2: "))
            if is_given_up:
                holds(f"the draft is there, with {inject}", IN_THE_MAKING not in names_in(folder))
            with Kept(program, folder) as broker:
                story.stands(broker, f"the next start, with {inject}")


def small_disk_full(program):
    """On a small disk, with nothing injected: a draft has its first image when somebody else fills the disk, and the next group, of some
    blocks, is written up to where no more is left. The torn end goes, and the draft; then there is room."""
    story = Story()
    frame = request("produce t:9 batch k={v*60000}")
    with small_disk() as (there, inside):
        folder = f"{there}/data"
        laid(folder, first_files([request(f"produce t:0 batch k{number}={{v*90000}}") for number in range(4)]))
        for number in range(4):
            story.node.reply(request(f"produce t:0 batch k{number}={{v*90000}}")[4:])
        after = ("--snapshot-after", str(len(content(folder, JOURNAL)) + 30_000))
        stop = ["pwrite64:signal=STOP:when=2"]
        with Watched(program, folder, *after, names=[IN_THE_MAKING], inject=stop, inside=f"{inside}/data") as broker:
            with broker.client() as client:
                story.ask(client, "produce t:0 batch k={v*40000}")
                broker.waits_until_stopped()
                holds("the draft has no image", os.path.getsize(f"{folder}/{IN_THE_MAKING}") > 60_000)
                fill(there, 0)
                client.send(frame)
                broker.goes_on()
                client.gets(story.node.reply(frame[4:]), "the reply where the disk was full")
                story.ask(client, "produce t:1 batch b=2")
            same(f"what is said of snapshots, in {broker.lines}", len(snapshot_lines(broker)), 1)
            holds(f"the names {names_in(folder)}", IN_THE_MAKING not in names_in(folder))
        os.remove(f"{there}/filler")
        groups = kept_files.groups_of(content(folder, "journal.2"), 2)
        same("the frames in the next journal", kept_files.all_frames(groups), [frame, request("produce t:1 batch b=2")])
        with Kept(program, folder) as broker:
            story.stands(broker, "the next start")


# ---- journals on a full disk


def full_for_drafts(program, folder, *arguments):
    """A program for whose drafts there is no space."""
    return Watched(program, folder, *arguments, names=[IN_THE_MAKING], inject=["write,pwrite64:error=ENOSPC"])


def journals_on_a_full_disk(program):
    """Starts whose snapshot finds no space, one after the other: the first leaves one journal more, and the others go on with it. So do
    those with --fold. Once there is space the snapshot has that journal's number."""
    wanted, files = [JOURNAL, "journal.2", SNAPSHOT], first_files(FILLING[:30])
    with new_folder() as folder:
        laid(folder, files)
        for turn in range(3):
            with full_for_drafts(program, folder, *SOON) as broker, broker.client() as client:
                client.ask("versions", "versions 0")
                holds(f"nothing is said of a snapshot: {broker.lines}", is_soon(lambda: snapshot_lines(broker)))
            same(f"the names behind start {turn}", names_in(folder), wanted)
        stands(program, folder, FILLING[:30], "the next start", "--snapshot-after", "1000000", said=recovered(30))
        with Kept(program, folder, *SOON) as broker, broker.client() as client:
            client.ask("versions", "versions 0")
            holds(f"the names once there is space: {names_in(folder)}", is_soon(lambda: names_in(folder) == ["journal.2", "snapshot.2"]))
            has_state(broker, node_after(FILLING[:30]), "the state")


def folds_on_a_full_disk(program):
    """The same with --fold; a last journal without groups that another program wrote, or whose number a snapshot has, isn't gone on
    with."""
    wanted, files = [JOURNAL, "journal.2", SNAPSHOT], first_files(FILLING[:30])
    with new_folder() as folder:
        laid(folder, files)
        for turn in range(3):
            try:
                with full_for_drafts(program, folder, "--fold"):
                    raise Fault("it listens")
            except Ended as ended:
                same("the status", ended.status, FAILED)
                holds(f"the lines {ended.lines}", ended.lines[-1].startswith(f"kbroker: {folder}/{IN_THE_MAKING}: "))
            same(f"the names behind --fold {turn}", names_in(folder), wanted)
        for number in (2, 3):
            same("the last line of --fold", fold(program, folder)[-1], folded(number))
            same("the names then", names_in(folder), [f"journal.{number}", f"snapshot.{number}"])
        laid(folder, behind(files, 2, [], meaning=2))
        same("behind another meaning", fold(program, folder)[-1], folded(3))


def fold(program, folder, *arguments, **ways):
    """The lines of a start with --fold, whose status must be 0."""
    try:
        with Kept(program, folder, "--fold", *arguments, **ways) as broker:
            raise Fault(f"it listens, and says {broker.said()!r}")
    except Ended as ended:
        same(f"the status, of {ended.lines}", ended.status, 0)
        return ended.lines


# ---- what stands in the way of a snapshot


def somebodys_draft(program):
    """A file that has come to stand where a draft belongs, larger than the draft would be, isn't written over, which is said; the next
    snapshot, and that of a start behind such a file, has nothing of it."""
    story = Story()
    with new_folder() as folder:
        laid(folder, first_files())
        with Kept(program, folder, *SOON) as broker:
            write(folder, IN_THE_MAKING, b"mine" * 25_000)
            story.tell(broker, [LARGE])
            holds(f"nothing is said: {broker.lines}", is_soon(lambda: snapshot_lines(broker)))
            same("what is said", snapshot_lines(broker), [f"snapshot: {IN_THE_MAKING}: entity already exists"])
            story.tell(broker, [LARGE])
            holds(f"the names {names_in(folder)}", is_soon(lambda: names_in(folder) == ["journal.3", "snapshot.3"]))
            wanted = kept_files.snapshot_of(story.node, NAMES, 3, key=key_in(folder, "journal.3"))
            same("the snapshot", content(folder, "snapshot.3"), wanted)
        write(folder, IN_THE_MAKING, b"mine" * 25_000)
        same("the last line of --fold", fold(program, folder)[-1], folded(4))
        wanted = kept_files.snapshot_of(story.node, NAMES, 4, key=key_in(folder, "journal.4"))
        same("the snapshot of --fold", content(folder, "snapshot.4"), wanted)
        same("the names", names_in(folder), ["journal.4", "snapshot.4"])


def former_journal_not_synced(program):
    """Before the next journal is made the last one is synced, some kB of which weren't. Where that fails it ends, with status 4 and that
    journal's line, and has made nothing."""
    for sync in ("60000", "never"):
        with new_folder() as folder:
            laid(folder, first_files())
            number = syncs_at_the_start(program, folder, JOURNAL) + 1
            inject = [f"fsync,fdatasync:error=EIO:when={number}"]
            ways = {"sync": sync, "names": [JOURNAL], "inject": inject}
            with Watched(program, folder, *SOON, **ways) as broker, broker.client() as client:
                client.send(request(LARGE.replace("1600", "9000")))
                holds("a reply of another kind", client.rest() in (b"", reply("produced t:0 0 0")))
                status, lines = broker.ends_by_itself()
                holds(f"with {sync} it ended, and not by that", broker.has_injected())
            same(f"with {sync} the status", status, FAILED)
            holds(f"with {sync} the last line: {lines}", lines[-1].startswith(f"kbroker: {folder}/{JOURNAL}: "))
            same(f"with {sync} the names", names_in(folder), [JOURNAL, SNAPSHOT])
            stands(program, folder, [request(LARGE.replace("1600", "9000"))], f"the next start, with {sync}", said=recovered(1))


CASES = [
    ("what a start writes again", where_it_can_be_seen(written_again)),
    ("a write behind that was lost, and a power cut", where_it_can_be_seen(lost_behind_a_sync)),
    ("a device that fails, and a power cut", failed_for_certain),
    ("a device that fails, and is forgotten by the system", where_it_can_be_seen(forgotten_meanwhile)),
    ("a draft that goes before anything is written again", where_it_can_be_seen(room_before_it_is_written_again)),
    ("what was put back is synced", where_it_can_be_seen(put_back)),
    ("a backup that was put back, and a power cut", where_it_can_be_seen(put_back_at_a_power_cut)),
    ("the parent of a directory that was put back", where_it_can_be_seen(parent_synced)),
    ("a parent whose file system syncs no directories", where_it_can_be_seen(parent_without_sync)),
    ("the parent of a directory on which something is mounted", where_it_can_be_seen(parent_of_a_mount)),
    ("a group for which a draft leaves no space", where_it_can_be_seen(room_by_a_draft)),
    ("a group that fails beside a draft", where_it_can_be_seen(no_room_by_a_draft)),
    ("a small disk that is full while a snapshot is taken", where_it_can_be_seen(small_disk_full)),
    ("starts on a full disk, one after the other", where_it_can_be_seen(journals_on_a_full_disk)),
    ("snapshots at the start on a full disk", where_it_can_be_seen(folds_on_a_full_disk)),
    ("somebody else's file in the place of a draft", somebodys_draft),
    ("a journal whose sync fails before the next one is made", where_it_can_be_seen(former_journal_not_synced)),
]
