"""A `kbroker start --data` that cleans by itself: what of its passes it keeps over restarts, in which files it believes and in which not,
and how its snapshots and its disk follow.

The file of marks is written and read here by tests/models/marks_files.py, journals and snapshots by tests/models/kept_files.py.
"""
import contextlib
import os
import struct
import time

from cases.cleaning_runs import BRIEF, PATIENCE, SOON, Cleaned, beside_each_other, is_told, whole_reply
from cases.cleaning_words import (
    CLEANINGS,
    DAMAGED,
    DRAFT,
    IRREGULAR,
    LATER,
    OF_ANOTHER,
    UNREADABLE,
    cleaning_at,
    is_of_cleaning,
    is_unwritten,
    of_marks,
)
from cases.kept_calls import where_it_can_be_seen
from cases.kept_checks import SOUND as SOUND_DIRECTORY
from cases.kept_checks import check
from cases.kept_disks import laid, names_in
from cases.kept_runs import (
    FAILED,
    JOURNAL,
    SNAPSHOT,
    Ended,
    Kept,
    content,
    has_state,
    kind_of,
    new_folder,
    recovered,
    run_by_another,
)
from cases.kept_watched import Watched, brief
from cases.random_clients import CLEAN
from cases.started import Fault, holds, is_soon, request, same, slow
from models import kept_files, marks_files, wire
from models.cleaning_policy import Mark, Marks
from models.marks_files import Said

TOPICS = ("t:2",)
NAMES = kept_files.topics_of(TOPICS)
A_MINUTE = "a minute must pass"
# seconds for which a deletion is kept by a broker that must lose it at once, by a mark that is older, or not at all: no case waits so long
LONG, LONGER = 600, 1_000
# a record, its deletion, and a pass that took the record; further records of others
PASSED = [request(it) for it in ("produce t:0 batch a=1", "produce t:0 batch a=null b=2", "clean t:0 3 0", "produce t:1 batch c=3")]
# no pass comes but one for which a deletion is old enough
RIPE = ("--clean-at", "99", "--clean-lag", "0")


def now():
    return int(time.time() * 1000)


def marked(ended, began=None, **more):
    """The marks of a partition that one pass cleaned up to offset 3, and that ended at a time."""
    return Marks(**{"older": None, "newest": Mark(3, ended), "used": 0, "reached": 3, "began": began or ended, "size": 100, **more})


def marked_long_ago():
    """The marks of a pass that ended so long ago that its deletion may go, at a start that keeps deletions for a LONG time."""
    return marked(now() - LONGER * 1000)


def directory(marks=None, place=None, rounds=None, **written):
    """The files of a broker that has made such a pass, with these marks of t:0 where they are given."""
    rounds = [[it] for it in PASSED] if rounds is None else rounds
    files = {SNAPSHOT: kept_files.snapshot(NAMES), JOURNAL: kept_files.journal(rounds)}
    if marks is not None:
        said = Said(place or marks_files.place_of(files[JOURNAL]), {(b"t", 0): marks})
        files[CLEANINGS] = marks_files.written(said, **written)
    return files


def state():
    return kept_files.node_after(PASSED, NAMES)


def without_deletion():
    node = state()
    node.reply(request("clean t:0 3 3")[4:])
    return node


class Marked(Kept):
    """A broker that cleans where deletions are old enough, and keeps them for so many seconds."""

    def __init__(self, program, folder, keep, *arguments, **ways):
        super().__init__(program, folder, *RIPE, "--keep-deletes", str(keep), *arguments, **ways)

    def of_marks(self, least=0):
        """What it said of the file of marks before it listened, which are so many lines at least."""
        is_soon(lambda: any(map(is_of_cleaning, [*self.notices])) and len(of_marks(self.lines)) >= least)
        return of_marks(self.lines)

    def loses_its_deletion(self, what):
        """The deletion must go soon, and nothing else."""
        with self.client() as client:
            holds(f"{what}: the deletion doesn't go; it says {self.lines}", is_soon(lambda: is_emptied(client), PATIENCE))
        has_state(self, without_deletion(), what)

    def has_its_deletion(self, what, seconds=2.5):
        """It must stay for so long."""
        late = time.monotonic() + seconds
        while time.monotonic() < late:
            has_state(self, state(), what)
            time.sleep(BRIEF)


def is_emptied(client, place="t:0"):
    """Whether a partition shows no record of the key that was deleted."""
    client.send(request(f"fetch wait=0 {place} 0"))
    return b"\x02a\x01" not in whole_reply(client)


# ---- marks that are believed


def taken_up(program):
    """A pass that ended long before the start: its deletion goes soon. Without the file, or with none of that partition, it stays."""
    with new_folder() as folder:
        laid(folder, directory(marked_long_ago()))
        with Marked(program, folder, LONG) as broker:
            same("the line", broker.said(), recovered(4))
            is_told(broker, cleaning_at(99, 0, keep=LONG))
            broker.loses_its_deletion("marks that were kept")
            same("lines of the file", of_marks(broker.lines), [])
        for files in (directory(), {**directory(), CLEANINGS: directory(marked(now()))[CLEANINGS]}):
            laid(folder, files)
            with Marked(program, folder, LONG) as broker:
                broker.has_its_deletion("without marks, or with young ones")


TWO = ("t:2", "u:2")  # topics


def of_another_topic(program):
    """Marks are those of their own topic's partition: its deletion goes, and that of another topic's, with the same number, stays."""
    names = kept_files.topics_of(TWO)
    places = [f"{it}:0" for it in "tu"]
    frames = [request(f"produce {it} batch a=1") for it in places] + [request(f"produce {it} batch a=null b=2") for it in places]
    frames += [request(f"clean {it} 3 0") for it in places]
    for topic in (b"t", b"u"):
        files = {SNAPSHOT: kept_files.snapshot(names), JOURNAL: kept_files.journal([[it] for it in frames])}
        files[CLEANINGS] = marks_files.written(Said(marks_files.place_of(files[JOURNAL]), {(topic, 0): marked_long_ago()}))
        wanted, own = kept_files.node_after(frames, names), f"{topic.decode()}:0"
        wanted.reply(request(f"clean {own} 3 3")[4:])
        with new_folder() as folder:
            laid(folder, files)
            with Marked(program, folder, LONG, topics=TWO) as broker:
                with broker.client() as client:
                    holds(f"the deletion in {own} doesn't go", is_soon(lambda: is_emptied(client, own), PATIENCE))
                time.sleep(2)
                has_state(broker, wanted, f"with marks of {own} alone")


def counted_from(program):
    """A pass that ended a while before the start: its deletion goes once it is old enough, and not before; where the clock went back and
    the pass ended in the future, its time counts from the start. With a longer time to be kept it stays again."""
    keep = 4
    for behind in (2_000, -3_600_000):
        with new_folder() as folder:
            began = now()
            laid(folder, directory(marked(began - behind)))
            since = time.monotonic()
            with Marked(program, folder, keep) as broker, broker.client() as client:
                while not is_emptied(client):
                    holds(f"{behind} ms: the deletion doesn't go", time.monotonic() < since + PATIENCE)
                    time.sleep(BRIEF)
                went = time.monotonic() - since
                least = keep - max(0, behind) / 1000
                holds(f"{behind} ms: the deletion went {went:.2f} s behind the start, and not {least}", went >= least - 0.01)
    with new_folder() as folder:
        laid(folder, directory(marked(now() - 100_000)))
        with Marked(program, folder, 200) as broker:
            broker.has_its_deletion("a longer time than that of the run before")


def restarted_often(program):
    """A broker that is started more often than deletions are kept: they go all the same, by the marks that it has written itself; the same
    runs without the file keep them."""
    keep = 8
    for is_kept in (True, False):
        with new_folder() as folder:
            laid(folder, {SNAPSHOT: kept_files.snapshot(NAMES), JOURNAL: kept_files.journal([])})
            with Kept(program, folder, *SOON, "--keep-deletes", str(keep)) as broker, broker.client() as client:
                client.ask("produce t:0 batch a=1 b=2", "produced t:0 0 0")
                client.ask("produce t:0 batch a=null", "produced t:0 0 2")
                shown = last_shown(client)
                has_file = is_soon(lambda: is_marked(folder), 100)
                holds(f"no file has the mark of its pass: {names_in(folder)}", has_file)
            late, gone = time.time() + keep + 20, False
            while time.time() < late and not gone:
                if not is_kept and os.path.exists(f"{folder}/{CLEANINGS}"):
                    os.remove(f"{folder}/{CLEANINGS}")
                with Kept(program, folder, *SOON, "--keep-deletes", str(keep)) as broker, broker.client() as client:
                    gone = is_soon(lambda: is_emptied(client), keep / 2)
                    same("lines of the file", of_marks(broker.lines), [])
            holds(f"{'with' if is_kept else 'without'} the file the deletion went: {gone}", gone == is_kept)
            since = time.time() - shown
            holds(f"it went {since:.3f} s behind the last look at what it deletes", not gone or since >= keep - 0.01)


def last_shown(client):
    """When t:0 was asked last that still showed the record `a=1`; it must come to show it no more."""
    shown, late = time.time(), time.monotonic() + PATIENCE
    while True:
        asked = time.time()
        client.send(request("fetch wait=0 t:0 0"))
        if b"\x02a\x021" not in whole_reply(client):
            return shown
        shown = asked
        holds("nothing is cleaned", time.monotonic() < late)
        time.sleep(BRIEF)


def is_marked(folder):
    """Whether the file is there, and has a mark of t:0."""
    path = f"{folder}/{CLEANINGS}"
    if not os.path.exists(path):
        return False
    own = marks_files.read(content(folder, CLEANINGS)).marks.get((b"t", 0))
    return own is not None and own.newest is not None


def written_down(program):
    """Within a minute or so what is known of passes stands in the file: of each partition its marks with the wall clock's times, and the
    place of the journal behind which they hold. It isn't written anew while nothing changes."""
    began = now()
    with new_folder() as folder:
        with Kept(program, folder, *SOON) as broker, broker.client() as client:
            client.ask("produce t:1 batch a=1 a=2", "produced t:1 0 0")
            is_written = is_soon(lambda: CLEANINGS in names_in(folder) and newest_of(folder, 1) is not None, 130)
            holds(f"no mark of t:1 is written: {names_in(folder)}", is_written)
            said, journal = marks_files.read(content(folder, CLEANINGS)), content(folder, JOURNAL)
            groups = kept_files.groups_of(journal)
            places = [marks_files.place_of(journal, groups=count) for count in range(len(groups) + 1)]
            holds(f"{said.place} is none of {places[-3:]}", said.place in places)
            mark, clean = said.marks[b"t", 1].newest, [at for at, it in enumerate(groups) if b"\x4e\x21" in it.frames[4:6]]
            holds(f"{said.place} stands before the pass, of {len(groups)} groups", clean and said.place.size >= groups[clean[0]].end)
            holds(f"{mark} at {began} to {now()}", mark.upto == 2 and began <= mark.ended <= now())
            same("the names", names_in(folder), sorted([CLEANINGS, JOURNAL, SNAPSHOT]))
            before = kind_of(f"{folder}/{CLEANINGS}")
            time.sleep(65)
            same("the file a minute later", kind_of(f"{folder}/{CLEANINGS}"), before)


def newest_of(folder, index):
    own = marks_files.read(content(folder, CLEANINGS)).marks.get((b"t", index))
    return own and own.newest


def behind_another_journal(program):
    """Groups go to another journal behind a snapshot: within a minute or so the file says what it said behind that one, also where that has
    no group; the next start believes it."""
    with new_folder() as folder:
        laid(folder, directory(marked(now() - 1_000)))
        with Marked(program, folder, 3_600, "--snapshot-after", "20000") as broker:
            with broker.client() as client:
                client.ask("produce t:1 batch d={v*30000}", "produced t:1 0 1")
            is_taken = is_soon(lambda: JOURNAL not in names_in(folder))
            holds(f"no snapshot is taken: {names_in(folder)}", is_taken)
            last = max(int(it.split(".")[1]) for it in names_in(folder) if it.startswith("journal."))
            follows = is_soon(lambda: marks_files.read(content(folder, CLEANINGS)).place.number == last, 130)
            holds(f"it stands behind {marks_files.read(content(folder, CLEANINGS)).place}, and not journal.{last}", follows)
        same("lines of the file", of_marks(broker.lines), [])
        said = marks_files.read(content(folder, CLEANINGS))
        same("the place", said.place, marks_files.place_of(content(folder, f"journal.{last}"), last))
        same("the mark", said.marks[b"t", 0].newest.upto, 3)
        with Marked(program, folder, 3_600) as broker:
            same("what the next start says of it", broker.of_marks(), [])


# ---- files that aren't believed


def flipped(data, at):
    return data[:at] + bytes([data[at] ^ 1]) + data[at + 1 :]


def unbelieved():
    """What stands in the file's place, by what it is, and what is said of it."""
    long_ago = marked_long_ago()
    sound = directory(long_ago)
    journal, data = sound[JOURNAL], sound[CLEANINGS]
    place = marks_files.place_of(journal)
    found = {
        "an empty file": (b"", DAMAGED.format("Short")),
        "a part of it": (data[:-1], DAMAGED.format("BadCrc")),
        "another mark": (directory(long_ago, mark=b"KJNL")[CLEANINGS], DAMAGED.format("BadMark")),
        "a byte more": (data + b"\0", DAMAGED.format("BadCrc")),
        "a byte more, with a right crc": (directory(long_ago, behind=b"\0")[CLEANINGS], DAMAGED.format("BadFields")),
        "a later version": (directory(long_ago, version=1)[CLEANINGS], LATER),
        "of another key": (directory(long_ago, place._replace(key=b"another!"))[CLEANINGS], OF_ANOTHER.format("OfAnotherJournal")),
        "of another number": (directory(long_ago, place._replace(number=2))[CLEANINGS], OF_ANOTHER.format("OfAnotherJournal")),
        "of a longer journal": (directory(long_ago, place._replace(size=place.size + 99))[CLEANINGS], OF_ANOTHER.format("NotReached")),
        "of another group": (directory(long_ago, place._replace(group_crc=7))[CLEANINGS], OF_ANOTHER.format("OfAnotherGroup")),
        "of no border": (directory(long_ago, place._replace(size=place.size - 1))[CLEANINGS], OF_ANOTHER.format("OfAnotherGroup")),
        "larger than any": (data + bytes(8_000_000), None),
    }
    found |= {f"byte {at} is another": (flipped(data, at), None) for at in range(0, len(data), 7)}
    return found


def removed(program):
    """Whatever is wrong with the file is said in one line; it is gone once the broker listens, and what it says of deletions isn't done. A
    check names it, with a fault too, and changes nothing."""
    for what, (data, line) in unbelieved().items():
        with new_folder() as folder:
            laid(folder, {**directory(), CLEANINGS: data})
            check(program, folder, SOUND_DIRECTORY, what).says(CLEANINGS)
            with Marked(program, folder, LONG) as broker:
                names = names_in(folder)
                said = broker.of_marks(1)
                holds(f"{what}: not one line: {broker.lines}", len(said) == 1 and said[0].endswith("; removed"))
                holds(f"{what}: {said[0]!r}, not {line!r}", line in (None, said[0]))
                holds(f"{what}: the file is there when it listens: {names}", CLEANINGS not in names)
                broker.has_its_deletion(what, 1.2 if line else 0)
            same(f"{what}: what is said of it to the end", of_marks(broker.lines), said)


def passed_over(program):
    """Where a folder, a pipe or a link stands in its place, one line says so; that isn't opened, and stays."""
    makes = {
        "a folder": os.mkdir,
        "a pipe": os.mkfifo,
        "a link": lambda path: os.symlink(SNAPSHOT, path),
        "a link to nothing": lambda path: os.symlink("nothing", path),
    }
    for what, make in makes.items():
        with new_folder() as folder:
            laid(folder, directory())
            make(f"{folder}/{CLEANINGS}")
            before = os.lstat(f"{folder}/{CLEANINGS}").st_ino
            with Marked(program, folder, LONG) as broker:
                holds(f"{what}: {broker.lines}", is_soon(lambda: of_marks(broker.lines) == [IRREGULAR]))
                broker.has_its_deletion(what, 1)
                same(f"{what}: what stands there", os.lstat(f"{folder}/{CLEANINGS}").st_ino, before)


def unreadable(program):
    """A file that may not be read is said and removed."""
    with new_folder() as folder:
        laid(folder, directory(marked_long_ago()))
        with run_by_another(program, folder) as (copy, user):
            if user is not None:
                for path in (folder, f"{folder}/{JOURNAL}", f"{folder}/{SNAPSHOT}"):
                    os.chown(path, user, user)
            os.chmod(f"{folder}/{CLEANINGS}", 0o000)
            with Marked(copy, folder, LONG, user=user) as broker:
                same("lines of the file", broker.of_marks(1), [UNREADABLE])
                same("whether it is there", os.path.exists(f"{folder}/{CLEANINGS}"), False)
                broker.has_its_deletion("a file that can't be read")


def where_it_cannot_be_removed(program):
    """A file that isn't believed and can't be removed ends the start with status 4 and the file's line."""
    with new_folder() as folder:
        laid(folder, {**directory(), CLEANINGS: b"x"})
        inject = ["unlink:error=EIO:when=1+", "unlinkat:error=EIO:when=1+"]
        try:
            with Watched(program, folder, *RIPE, names=[CLEANINGS], inject=inject) as broker:
                raise Fault(f"it listens, and says {broker.lines}")
        except Ended as ended:
            same("the status", ended.status, FAILED)
            holds(f"the lines {ended.lines}", any(it.startswith(f"kbroker: {folder}/{CLEANINGS}: ") for it in ended.lines))


def behind_a_power_cut(program):
    """A power cut takes the journal's end with the pass: the marks aren't believed, and the file is gone, though the journal comes to be
    as long as it was. Where it takes less they are."""
    files = directory(marked_long_ago())
    ends = [it.end for it in kept_files.groups_of(files[JOURNAL])]
    sooner = directory(marked_long_ago(), marks_files.place_of(files[JOURNAL], groups=3))[CLEANINGS]
    for count, marks, is_believed in ((2, files[CLEANINGS], False), (2, sooner, False), (3, files[CLEANINGS], False), (3, sooner, True)):
        what = f"{count} of {len(ends)} groups, and marks of {struct.unpack('>Q', marks[26:34])[0]} bytes"
        with new_folder() as folder:
            laid(folder, {**files, JOURNAL: files[JOURNAL][: ends[count - 1] + 5], CLEANINGS: marks})
            wanted = [] if is_believed else [OF_ANOTHER.format("NotReached")]
            with Marked(program, folder, LONG) as broker:
                same(f"{what}: what is said", broker.of_marks(len(wanted)), wanted)
                same(f"{what}: whether the file is there", CLEANINGS in names_in(folder), is_believed)
                with broker.client() as client:
                    for number in range(30):
                        client.ask("produce t:1 batch c=3", f"produced t:1 0 {number}")
            same(f"{what}: what is said to the end", of_marks(broker.lines), wanted)
            with Marked(program, folder, LONG) as broker, broker.client() as client:
                same(f"{what}: what the next start says", broker.of_marks(), [])
                goes = is_soon(lambda: is_emptied(client), PATIENCE if is_believed else 3)
                same(f"{what}: whether the deletion goes", goes, is_believed)


# ---- where it can't be written


def unwritten(program):
    """A folder stands in the place of the file's draft: that is said once a minute at most, and it cleans on."""
    asked = Cleaned(TOPICS)
    with new_folder() as folder, Kept(program, folder, *SOON) as broker, broker.client() as client:
        os.mkdir(f"{folder}/{DRAFT}")
        began = time.monotonic()
        while not any(is_unwritten(it) for it in [*broker.lines]):
            asked.ask(client, "produce t:0 batch a=1 a=2 b=3")
            holds(f"nothing is said: {broker.lines}", time.monotonic() < began + 130)
            time.sleep(0.3)
        asked.clean()
        asked.comes_to_be_so(broker, "where its marks can't be kept")
        lines, seconds = of_marks(broker.lines), time.monotonic() - began
        holds(f"{len(lines)} lines in {seconds:.0f} s: {lines}", len(lines) <= 1 + seconds / 60)
        same("whether the file is there", CLEANINGS in names_in(folder), False)


def written_later(program):
    """Once that is gone the file is written, within a minute or so, though nobody sends anything."""
    with new_folder() as folder, Kept(program, folder, *SOON) as broker, broker.client() as client:
        os.mkdir(f"{folder}/{DRAFT}")
        client.ask("produce t:0 batch a=1 a=2", "produced t:0 0 0")
        holds(f"nothing is said: {broker.lines}", is_soon(lambda: any(is_unwritten(it) for it in [*broker.lines]), 130))
        os.rmdir(f"{folder}/{DRAFT}")
        holds(f"it isn't written: {names_in(folder)}", is_soon(lambda: CLEANINGS in names_in(folder), 130))


def left_in_the_making(program):
    """What a kill left of the file's draft is in nobody's way: no start is refused, and it is gone, or written anew."""
    with new_folder() as folder:
        laid(folder, {**directory(marked_long_ago()), DRAFT: b"half a fi"})
        check(program, folder, SOUND_DIRECTORY, "a draft")
        with Marked(program, folder, LONG) as broker:
            broker.loses_its_deletion("beside a draft")
        for arguments in ((), RIPE):
            with Kept(program, folder, *arguments) as broker:
                has_state(broker, without_deletion(), f"with {arguments}, beside a draft")


def never_beside_a_file(program):
    """A broker that doesn't clean starts beside such a file, sound or not."""
    for data in (directory(marked(now() - 100_000))[CLEANINGS], b"x"):
        with new_folder() as folder:
            laid(folder, {**directory(), CLEANINGS: data})
            with Kept(program, folder) as broker:
                same("the line", broker.said() if data != b"x" else recovered(4), recovered(4))
                has_state(broker, state(), "without cleaning")
            with Kept(program, folder) as broker:
                has_state(broker, state(), "without cleaning, once more")


def unsynced(program):
    """The file is written by another name, and gets its own by a rename; for it nothing is synced."""
    with new_folder() as folder:
        with Watched(program, folder, *SOON) as broker, broker.client() as client:
            client.ask("produce t:0 batch a=1 a=2", "produced t:0 0 0")
            holds(f"it isn't written: {names_in(folder)}", is_soon(lambda: is_marked(folder), 130))
            time.sleep(0.2)
            events = broker.events()
        own = [(it.kind, it.name) for it in events if it.name in (CLEANINGS, DRAFT, f"{DRAFT} {CLEANINGS}")]
        same(f"its calls, in {brief(events)[-300:]}", [it for it in own if it[0] == "sync"], [])
        holds(f"its calls: {own}", ("rename", f"{DRAFT} {CLEANINGS}") in own and ("write", CLEANINGS) not in own)


# ---- the disk follows


def size_of(folder):
    """How many bytes the files in a directory have that are there meanwhile."""
    found = 0
    for it in os.scandir(folder):
        with contextlib.suppress(FileNotFoundError):
            found += it.stat().st_size
    return found


def fill_the_disk(asked, client, folder):
    """A hundred large values come, and are in the snapshot."""
    for number in range(100):
        asked.ask(client, f"produce t:0 batch k{number}={{v*30000}}")
    is_taken = is_soon(lambda: size_of(folder) > 2_000_000 and JOURNAL not in names_in(folder))
    holds(f"no snapshot is taken: {names_in(folder)}", is_taken)


def shrinks(folder, full):
    """A snapshot that has next to nothing must be taken."""
    is_small = is_soon(lambda: size_of(folder) < 250_000, PATIENCE)
    holds(f"{size_of(folder)} bytes stand in the directory, of {full}: {names_in(folder)}", is_small)


def disk_follows_alone(program):
    """All values of a snapshot are deleted by a few bytes that come at once, and nobody asks anything behind them: a snapshot follows the
    last pass."""
    asked = Cleaned(TOPICS)
    with new_folder() as folder, Kept(program, folder, *SOON, "--snapshot-after", "200000") as broker:
        with broker.client() as client:
            fill_the_disk(asked, client, folder)
            full = size_of(folder)
            frames = [request(f"produce t:0 batch k{number}=null") for number in range(100)]
            client.send(b"".join(frames))
            client.gets(b"".join(asked.node.reply(it[4:]) for it in frames), "the replies")
        shrinks(folder, full)
        asked.clean()
        asked.comes_to_be_so(broker, "behind its passes")


def disk_follows(program):
    """A hundred large values are in the snapshot, and then all are deleted, by few bytes. Once they are cleaned away a snapshot is taken,
    though the journals have little, and nobody asks for anything; and what was there is there in the next start."""
    asked = Cleaned(TOPICS)
    with new_folder() as folder:
        with Kept(program, folder, *SOON, "--snapshot-after", "200000") as broker:
            with broker.client() as client:
                fill_the_disk(asked, client, folder)
                full = size_of(folder)
                for number in range(100):
                    asked.ask(client, f"produce t:0 batch k{number}=null")
                asked.clean()
            shrinks(folder, full)
            asked.comes_to_be_so(broker, "behind its passes")
            broker.rests("the disk has followed")
        with Kept(program, folder, *SOON) as broker:
            has_state(broker, asked.node, "the next start")


def kept_all_along(program):
    """Passes, snapshots and restarts: each start has what the model has, and goes on from there; cleanings are replayed as they were."""
    asked = Cleaned(("t:2", "u:1"))
    with new_folder() as folder:
        for turn in range(4):
            sync = ("always", "40", "never", None)[turn]
            ways = {"sync": sync, "topics": ("t:2", "u:1")}
            with Kept(program, folder, *SOON, "--snapshot-after", "30000", **ways) as broker:
                asked.comes_to_be_so(broker, f"start {turn}")
                with broker.client() as client:
                    for number in range(60):
                        asked.ask(client, f"produce t:{number % 2} batch k{number % 5}={turn}-{{v*300}} l={number}")
                        asked.ask(client, f"commit t:0 {number}")
                asked.clean()
                asked.comes_to_be_so(broker, f"run {turn}, behind its passes")
        with Kept(program, folder, topics=("t:2", "u:1")) as broker:
            has_state(broker, asked.node, "without cleaning")


def cleanings_in(folder):
    """How many cleanings stand in the journal."""
    frames = kept_files.all_frames(kept_files.groups_of(content(folder, JOURNAL)))
    return sum(wire.parsed(it[4:])[0] == CLEAN for it in frames)


def one_pass_is_enough(program):
    """What a pass took doesn't count as what came: behind one batch just one cleaning stands in the journal, and no further one follows."""
    with new_folder() as folder, Kept(program, folder, *SOON) as broker:
        with broker.client() as client:
            client.ask("produce t:0 batch a={v*2000} a=2", "produced t:0 0 0")
        holds("no pass comes", is_soon(lambda: cleanings_in(folder) > 0, PATIENCE))
        time.sleep(5)
        same("cleanings in the journal", cleanings_in(folder), 1)


def frames_in_the_journal(program):
    """What it cleans stands in the journal as frames among those of clients: behind these a plain model has the same. Each goes up to an
    offset across which no batch lies, and takes deletions below none, or up to where one before it went, and not before they are a second
    old."""
    asked = Cleaned(TOPICS)
    with new_folder() as folder:
        with Kept(program, folder, *SOON, "--keep-deletes", "1") as broker, broker.client() as client:
            for turn in range(5):
                for number in range(20):
                    asked.ask(client, f"produce t:{number % 2} batch k{number % 3}={turn} l{number % 4}=null m={number}")
                    asked.ask(client, f"commit group=g{number % 2} t:{number % 2} {number}")
                time.sleep(1)
            asked.clean(takes_deletions=True)
            asked.comes_to_be_so(broker, "behind its passes")
            node, went, count = kept_files.node_after([], NAMES), {}, 0
            for it in kept_files.all_frames(kept_files.groups_of(content(folder, JOURNAL))):
                kind, _, values = wire.parsed(it[4:])
                if kind == CLEAN:
                    name, index, upto, tomb_before = values
                    copy, before = node.copy(name, index), went.setdefault((name, index), [0])
                    lies_across = [batch.base for batch in copy.batches() if batch.base < upto <= batch.last_offset()]
                    same(f"batches across {upto} of {name}:{index}", lies_across, [])
                    holds(f"it goes up to {upto} of {name}:{index}, which ends at {copy.end()}", 0 < upto <= copy.end())
                    holds(f"deletions below {tomb_before} of {name}:{index} go, behind {before}", tomb_before in before)
                    before.append(upto)
                    count += 1
                node.reply(it[4:])
            has_state(broker, node, "the frames of the journal")
            holds(f"{count} cleanings for {len(went)} partitions", count > 5 and len(went) == 3)


# ---- a check


def check_names_it(program):
    """A check says of the file how many partitions it has and behind which journal and byte it holds; where it isn't believed, why; and a
    directory isn't unsound for it."""
    sound = directory(marked(now() - 100_000))
    place = marks_files.place_of(sound[JOURNAL])
    with new_folder() as folder:
        laid(folder, sound)
        said = check(program, folder, SOUND_DIRECTORY, "a file of marks")
        said.says(CLEANINGS, len(sound[CLEANINGS]), "1 partition", JOURNAL, place.size)
        laid(folder, {**sound, CLEANINGS: sound[CLEANINGS][:-1]})
        check(program, folder, SOUND_DIRECTORY, "a damaged one").says(CLEANINGS, "BadCrc")
        laid(folder, {**sound, CLEANINGS: directory(marked(now()), version=1)[CLEANINGS]})
        check(program, folder, SOUND_DIRECTORY, "one of a later version").says(CLEANINGS, "version")
        laid(folder, directory())
        os.mkdir(f"{folder}/{CLEANINGS}")
        check(program, folder, SOUND_DIRECTORY, "a folder").says(CLEANINGS)


written_in_time = beside_each_other(restarted_often, written_down, behind_another_journal, unwritten, written_later)
CASES = [
    ("marks of passes that are taken up", taken_up),
    ("marks of another topic's partition", of_another_topic),
    ("marks of passes, and the clock", counted_from),
    ("marks of passes that are written down, and taken up again and again", slow(A_MINUTE)(written_in_time)),
    ("marks of passes that aren't believed", removed),
    ("what stands in the place of marks", passed_over),
    ("marks that can't be read", unreadable),
    ("marks that can't be removed", where_it_can_be_seen(where_it_cannot_be_removed)),
    ("marks of passes behind a power cut", behind_a_power_cut),
    ("marks that a kill left in the making", left_in_the_making),
    ("marks beside a broker that doesn't clean", never_beside_a_file),
    ("the calls of writing marks", where_it_can_be_seen(unsynced)),
    ("a disk that follows cleanings", disk_follows),
    ("a disk that follows cleanings while nobody asks", disk_follows_alone),
    ("passes, snapshots and restarts", kept_all_along),
    ("cleanings in the journal", frames_in_the_journal),
    ("one cleaning for one batch", one_pass_is_enough),
    ("a check of marks", check_names_it),
]
