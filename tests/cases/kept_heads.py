"""What the heads of files of `kbroker start --data` say of the files before them: files that don't follow one another, be it that one was
cut at a group's border or that it is another directory's; versions 0 and 1 of the heads.

What must come is worked by hand; files are made and read by tests/models/kept_files.py.
"""
import os

from cases.kept_disks import FRAMES, LARGE, SOON, behind, first_files, fold, laid, names_in, row, snapshot_lines, stands
from cases.kept_runs import (
    IN_THE_MAKING,
    JOURNAL,
    REFUSED,
    SNAPSHOT,
    Kept,
    Story,
    content,
    damaged,
    folded,
    later,
    new,
    new_folder,
    of_another,
    recovered,
    refused,
)
from cases.kept_watched import files_of
from cases.started import Fault, holds, is_soon, same
from models import kept_files


def refuses(program, folder, what, files, line, *arguments):
    """A start on these files must be refused with a line, as a check must be, and change nothing; the line is that of a name, of a place
    and why, or that of a name and of another file."""
    laid(folder, files)
    make = of_another if len(line) == 2 else damaged
    try:
        refused(program, folder, REFUSED, make(folder, *line), *arguments)
    except Fault as why:
        raise Fault(f"{what}: {why}") from None


# ---- files of the program's own


def row_of(program, folder):
    """A snapshot and two journals that the program has made, the first of three groups: a draft can't be had meanwhile."""
    story = Story()
    with Kept(program, folder, *SOON) as broker:
        os.mkdir(f"{folder}/{IN_THE_MAKING}")
        story.tell(broker, ["produce t:1 batch a=1", "produce t:0 batch a=2", LARGE])
        holds(f"nothing is said of a snapshot: {broker.lines}", is_soon(lambda: snapshot_lines(broker)))
        story.tell(broker, ["produce t:1 batch b=1", "commit t:0 4"])
        os.rmdir(f"{folder}/{IN_THE_MAKING}")
    same("the names", names_in(folder), [JOURNAL, "journal.2", SNAPSHOT])
    return files_of(folder)


def cut_at_a_border(program):
    """Files of the program's own: the first of two journals is cut at a group's border, each in turn, so that synced groups are gone.
    That is seen by the head of the second, and said with the byte at which the first one ends now. With --fold it is no other."""
    with new_folder() as folder:
        files = row_of(program, folder)
        groups = kept_files.groups_of(files[JOURNAL])
        same("the groups", len(groups), 3)
        for it in groups[::-1]:
            for arguments in ([], ["--fold"]):
                cut = {**files, JOURNAL: files[JOURNAL][: it.at]}
                refuses(program, folder, f"cut at {it.at}", cut, (JOURNAL, it.at, "LaterHead"), *arguments)
        laid(folder, files)
        with Kept(program, folder) as broker:
            same("the line of all", broker.said(), recovered(5))


def of_another_directory(program):
    """Files of the program's own, of two directories: of the other one the snapshot, the last journal, and the one before it."""
    with new_folder() as folder, new_folder() as other:
        ours, theirs = (row_of(program, it) for it in (folder, other))
        rows = [(JOURNAL, SNAPSHOT, JOURNAL), ("journal.2", JOURNAL, "journal.2"), (SNAPSHOT, SNAPSHOT, JOURNAL)]
        for name, other_one, said in rows:
            refuses(program, folder, f"their {name}", {**ours, name: theirs[name]}, (said, other_one))
        for it in (folder, other):
            laid(it, ours if it == folder else theirs)
            same("the last line of --fold", fold(program, it)[-1], folded(3))
        ours, theirs = files_of(folder), files_of(other)
        for name in ("snapshot.3", "journal.3"):
            refuses(program, folder, f"their {name}", {**ours, name: theirs[name]}, ("journal.3", "snapshot.3"))
        laid(folder, ours)
        with Kept(program, folder) as broker:
            same("the line of our own", broker.said(), recovered(0, snapshot=3))


def heads_that_are_written(program):
    """The heads of a new directory, of a second journal, and of a snapshot: version 1, what stood before, and the journal's key. Once what
    was torn is cut, what stood before is without it."""
    with new_folder() as folder:
        files = row_of(program, folder)
        first, second = (kept_files.head_of(files[it]) for it in (JOURNAL, "journal.2"))
        same("the versions", (first.version, second.version), (1, 1))
        same("what stood before the first", first.before, kept_files.NONE_BEFORE)
        same("what stood before the second", second.before, kept_files.stands_before(files[JOURNAL]))
        same("the key in the first snapshot", kept_files.key_in_snapshot(files[SNAPSHOT]), (1, first.key))
        laid(folder, {**files, "journal.2": files["journal.2"] + b"torn"})
        fold(program, folder)
        files_then = files_of(folder)
        third = kept_files.head_of(files_then["journal.3"])
        same("what stood before the third", third.before, kept_files.stands_before(files["journal.2"]))
        same("the key in the third snapshot", kept_files.key_in_snapshot(files_then["snapshot.3"]), (1, third.key))
        holds("keys that are alike", len({first.key, second.key, third.key}) == 3)


# ---- rows that were made by hand

ONE_ROW = (3, 2, [FRAMES[2:3], FRAMES[3:4]], [FRAMES[4:6]], [FRAMES[6:7], FRAMES[7:8]])


def rows_that_follow(program):
    """What follows one another is recovered: also with a torn end, without a group in the middle or at the end, and where what stood
    before the first one is gone."""
    files = row(*ONE_ROW)
    with new_folder() as folder:
        for what, laid_ones, said in (
            ("a row from 3 on", files, recovered(6, snapshot=3)),
            ("a row from 1 on", row(1, 0, [FRAMES[:2], FRAMES[2:5]], [], [FRAMES[5:8]]), recovered(8)),
            ("a last one without a group", behind(files, 6, []), recovered(6, snapshot=3)),
            ("a torn end", {**files, "journal.5": files["journal.5"] + b"torn"}, recovered(6, 4, len(files["journal.5"]), 3, 5)),
        ):
            laid(folder, laid_ones)
            stands(program, folder, FRAMES[:8], what, said=said)


def rows_that_do_not_follow(program):
    """A journal that ends elsewhere than the next one's head says: it is damaged at the less of both ends. One whose head says another key
    of the one before it, or the snapshot of whose number does: it is of another directory. And one whose head can't be its own."""
    files, theirs = row(*ONE_ROW), row(*ONE_ROW, whose=b"t")
    three, four = files["journal.3"], files["journal.4"]
    groups, before = kept_files.groups_of(three, 3), kept_files.stands_before(three)
    longer = kept_files.with_groups(three, [FRAMES[8:]], key=before.key)

    def with_before(number, /, **fields):
        """The same files, of which a journal says something else of the one before it."""
        head = kept_files.head_of(files[f"journal.{number}"])
        rounds = [kept_files.frames_of(it) for it in kept_files.groups_of(files[f"journal.{number}"], number)]
        other = kept_files.journal(rounds, key=head.key, number=number, before=head.before._replace(**fields))
        return {**files, f"journal.{number}": other}

    def last_without_a_group(**fields):
        """The same files, behind which there is a journal without a group that says something else of the one before it."""
        before = kept_files.stands_before(files["journal.5"])._replace(**fields)
        return {**files, "journal.6": kept_files.journal([], key=b"the last", number=6, before=before)}

    size, size_5 = len(three), len(files["journal.5"])
    rows = [
        ("cut at a border", {**files, "journal.3": three[: groups[1].at]}, ("journal.3", groups[1].at, "LaterHead")),
        ("its head alone", {**files, "journal.3": three[: groups[0].at]}, ("journal.3", groups[0].at, "LaterHead")),
        ("a group more", {**files, "journal.3": longer}, ("journal.3", size, "LaterHead")),
        ("a later end", with_before(4, size=size + 1), ("journal.3", size, "LaterHead")),
        ("an end of 0", with_before(4, size=0), ("journal.3", 0, "LaterHead")),
        ("the latest end", with_before(4, size=2**64 - 1), ("journal.3", size, "LaterHead")),
        ("a later end for the last", with_before(5, size=len(four) + 9), ("journal.4", len(four), "LaterHead")),
        ("a later end, of one without a group", last_without_a_group(size=size_5 + 1), ("journal.5", size_5, "LaterHead")),
        ("another key", with_before(4, key=b"another "), ("journal.4", "journal.3")),
        ("another key, and a later end", with_before(4, key=b"another ", size=size + 1), ("journal.4", "journal.3")),
        ("another key for the last", with_before(5, key=before.key), ("journal.5", "journal.4")),
        ("another key, of one without a group", last_without_a_group(key=b"another "), ("journal.6", "journal.5")),
        ("another number", with_before(4, number=2), ("journal.4", 28, "BadBefore")),
        ("what a first one says", with_before(4, **kept_files.NONE_BEFORE._asdict()), ("journal.4", 28, "BadBefore")),
        ("their snapshot", {**files, "snapshot.3": theirs["snapshot.3"]}, ("journal.3", "snapshot.3")),
        ("their first journal", {**files, "journal.3": theirs["journal.3"]}, ("journal.3", "snapshot.3")),
        ("their second journal", {**files, "journal.4": theirs["journal.4"]}, ("journal.4", "journal.3")),
        ("their last journal", {**files, "journal.5": theirs["journal.5"]}, ("journal.5", "journal.4")),
    ]
    with new_folder() as folder:
        for what, laid_ones, line in rows:
            refuses(program, folder, what, laid_ones, line)


def ways_out(program):
    """README's way out of `LaterHead`: the journals behind the one that is named go, and that one isn't cut. Where it was cut before, all up
    to there is recovered; where it has grown behind a journal without a group, whose removal a power cut has undone, nothing is lost."""
    files = row(*ONE_ROW)
    three, five = files["journal.3"], files["journal.5"]
    cut = {"snapshot.3": files["snapshot.3"], "journal.3": three[: kept_files.groups_of(three, 3)[1].at]}
    shorter = five[: kept_files.groups_of(five, 5)[1].at]
    came_back = behind({**files, "journal.5": shorter}, 6, [])["journal.6"]
    with new_folder() as folder:
        refuses(program, folder, "a cut", {**files, **cut}, ("journal.3", len(cut["journal.3"]), "LaterHead"))
        laid(folder, cut)
        stands(program, folder, FRAMES[:3], "a cut, without what is behind it", said=recovered(1, snapshot=3))
        refuses(program, folder, "one that came back", {**files, "journal.6": came_back}, ("journal.5", len(shorter), "LaterHead"))
        laid(folder, files)
        stands(program, folder, FRAMES[:8], "without the one that came back", said=recovered(6, snapshot=3))


def heads_that_are_damaged(program):
    """A bit of each byte of a journal's head in the middle of a row, and of a snapshot's key."""
    files, bad = row(*ONE_ROW), lambda data, at: data[:at] + bytes([data[at] ^ 0x10]) + data[at + 1 :]
    with new_folder() as folder:
        for at in range(kept_files.HEAD_SIZE):
            fault = (0, "BadCrc") if at < kept_files.OLD_HEAD_SIZE else (28, "BadBefore")
            laid_ones = {**files, "journal.4": bad(files["journal.4"], at)}
            refuses(program, folder, f"a bit of byte {at} of a journal", laid_ones, ("journal.4", *fault))
        for at in range(kept_files.KEY_AT, kept_files.KEY_AT + 8):
            laid_ones = {**files, "snapshot.3": bad(files["snapshot.3"], at)}
            refuses(program, folder, f"a bit of byte {at} of a snapshot", laid_ones, ("snapshot.3", 0, "BadCrc"))


def heads_in_the_making(program):
    """Parts of heads, as a kill leaves them: alone they are a new directory, and behind a row they go. So does a whole head of 56 bytes
    that isn't sound, since it has no group; a sound one stays. One of a later version is none of these."""
    files = row(*ONE_ROW)
    head = kept_files.journal_head(number=6, before=kept_files.stands_before(files["journal.5"]))
    with new_folder() as folder:
        for making in (*(head[:size] for size in (0, 27, 28, 29, 44, 52, 55)), bytes(56), head[:28] + bytes(28), head[:55] + b"?"):
            laid(folder, {**files, "journal.6": making})
            stands(program, folder, FRAMES[:8], f"{making} behind a row", said=recovered(6, snapshot=3))
            same(f"the names behind {making}", names_in(folder), sorted(files))
        for size in (0, 27, 28, 29, 44, 52, 55, 56):
            laid(folder, {JOURNAL: kept_files.journal_head()[:size]})
            stands(program, folder, [], f"{size} bytes of a head alone", said=new(folder))
        laid(folder, {**files, "journal.6": head})
        stands(program, folder, FRAMES[:8], "a head", said=recovered(6, snapshot=3))
        same("the names behind a head", names_in(folder), sorted([*files, "journal.6"]))
        laid(folder, {**files, "journal.6": kept_files.journal_head(number=6, version=2)[:28]})
        refused(program, folder, REFUSED, later(folder, "journal.6", "BadVersion"))


# ---- version 0


def version_0(program):
    """Files of version 0 are read as they were, and gone on with. The next journal is of version 1, and says what stood before it, once
    the torn end is cut; so is the next snapshot, which says that journal's key. No snapshot is taken of a journal of version 0, also where
    that has no group."""
    old = first_files(FRAMES[:1], FRAMES[1:3], version=0)
    torn = {**old, JOURNAL: old[JOURNAL] + b"torn"}
    said, before = recovered(3, 4, len(old[JOURNAL])), kept_files.stands_before(old[JOURNAL])
    with new_folder() as folder:
        laid(folder, torn)
        stands(program, folder, FRAMES[:3], "a start on version 0", said=said)
        same("the files then", files_of(folder), old)
        story = Story()
        for it in FRAMES[:3]:
            story.node.reply(it[4:])
        with Kept(program, folder) as broker:
            story.tell(broker, ["produce t:1 batch more=1"])
        groups = kept_files.groups_of(content(folder, JOURNAL))
        same("the groups of version 0, gone on with", (len(groups), groups[0].at), (3, 28))
        with Kept(program, folder) as broker:
            story.stands(broker, "the next start on version 0")
        laid(folder, torn)
        same("the lines of --fold", fold(program, folder), [said, folded(2)])
        head = kept_files.head_of(content(folder, "journal.2"))
        same("the journal's head then", (head.version, head.before), (1, before))
        same("the snapshot's", kept_files.key_in_snapshot(content(folder, "snapshot.2")), (1, head.key))
        stands(program, folder, FRAMES[:3], "the start behind --fold", said=recovered(0, snapshot=2))
        empty = laid(folder, behind(old, 2, [], version=0))["journal.2"]
        same("the last line of --fold behind a journal without a group", fold(program, folder)[-1], folded(3))
        head = kept_files.head_of(content(folder, "journal.3"))
        same("the head of the next one", (head.version, head.before), (1, kept_files.stands_before(empty)))
        same("the snapshot's key", kept_files.key_in_snapshot(content(folder, "snapshot.3")), (1, head.key))
        stands(program, folder, FRAMES[:3], "the start behind it", said=recovered(0, snapshot=3))


def snapshots_over_version_0(program):
    """A broker that was started on version 0 takes a snapshot while it runs: that and its journal are of version 1."""
    story = Story()
    with new_folder() as folder:
        old = laid(folder, first_files(version=0))
        with Kept(program, folder, *SOON) as broker:
            story.tell(broker, [LARGE])
            holds(f"the names {names_in(folder)}", is_soon(lambda: names_in(folder) == ["journal.2", "snapshot.2"]))
            story.tell(broker, ["produce t:1 batch b=1"])
        head = kept_files.head_of(content(folder, "journal.2"))
        same("the key before", (head.version, head.before.number, head.before.key), (1, 1, kept_files.head_of(old[JOURNAL]).key))
        same("the snapshot's", kept_files.key_in_snapshot(content(folder, "snapshot.2")), (1, head.key))
        with Kept(program, folder) as broker:
            same("the line", broker.said(), recovered(1, snapshot=2))
            story.stands(broker, "the next start")


def both_versions(program):
    """Version 1 behind version 0: what it says of that is held to it. Version 0 behind version 1 is of another directory, as no program
    makes it; behind version 0 it says nothing, so that a journal that lacks groups isn't found out."""
    old = row(3, 2, [FRAMES[2:3], FRAMES[3:4]], [FRAMES[4:6]], version=0)
    mixed, files = behind(old, 5, [FRAMES[6:8]]), row(*ONE_ROW)
    four = kept_files.groups_of(old["journal.4"], 4)
    with new_folder() as folder:
        laid(folder, mixed)
        stands(program, folder, FRAMES[:8], "version 1 behind version 0", said=recovered(6, snapshot=3))
        cut = {**mixed, "journal.4": old["journal.4"][: four[0].at]}
        refuses(program, folder, "a version 0 that is cut before version 1", cut, ("journal.4", four[0].at, "LaterHead"))
        theirs = {**mixed, "journal.4": row(3, 2, [], [FRAMES[4:6]], version=0, whose=b"t")["journal.4"]}
        refuses(program, folder, "another version 0 before version 1", theirs, ("journal.5", "journal.4"))
        for rounds in ([FRAMES[4:6]], []):
            other = kept_files.journal(rounds, key=kept_files.key_number(4), number=4, version=0)
            both = {**files, "journal.4": other}
            refuses(program, folder, f"version 0 behind version 1, with {len(rounds)} groups", both, ("journal.4", "journal.3"))
        last = {**files, "journal.6": kept_files.journal([], key=kept_files.key_number(6), number=6, version=0)}
        refuses(program, folder, "version 0 behind version 1, without a group", last, ("journal.6", "journal.5"))
        laid(folder, {**old, "journal.3": old["journal.3"][: kept_files.groups_of(old["journal.3"], 3)[1].at]})
        stands(program, folder, [*FRAMES[:3], *FRAMES[4:6]], "version 0 that is cut before version 0", said=recovered(3, snapshot=3))
        more = kept_files.with_groups(old["journal.4"], [FRAMES[6:7]], key=kept_files.key_number(4))
        bad = more[: four[0].at + 40] + b"?" + more[four[0].at + 41 :]
        refuses(program, folder, "damage in version 0", {**old, "journal.4": bad}, ("journal.4", four[0].at, "LaterSync"))


CASES = [
    ("a journal that is cut at a group's border", cut_at_a_border),
    ("files of another directory", of_another_directory),
    ("heads that say what stood before", heads_that_are_written),
    ("rows of files that follow one another", rows_that_follow),
    ("rows of files that don't follow one another", rows_that_do_not_follow),
    ("ways out of a row that doesn't follow", ways_out),
    ("a bit of each byte of a head in a row", heads_that_are_damaged),
    ("heads in the making", heads_in_the_making),
    ("files of version 0", version_0),
    ("a snapshot over files of version 0", snapshots_over_version_0),
    ("files of both versions", both_versions),
]
