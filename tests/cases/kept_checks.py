"""`kbroker check DIR`: what it says of directories, sound ones and others, of a broker that runs, and of backups; that it changes nothing.

What a start does with the same directory is what it must say. The words around names, numbers and refusals aren't looked at.
"""
import os
import re
import shutil
import subprocess
import tempfile
import threading
import time

from cases.kept_calls import where_it_can_be_seen
from cases.kept_disks import FRAMES, LARGE, SOON, behind, first_files, laid, names_in, node_after, row
from cases.kept_runs import (
    FAILED,
    IN_THE_MAKING,
    JOURNAL,
    SNAPSHOT,
    Ended,
    Kept,
    all_of,
    has_state,
    new_folder,
    run_by_another,
    write,
)
from cases.kept_watched import KINDS, by_path_or_handle, files_of, resume
from cases.started import SECONDS, Fault, holds, is_soon, reply, request, same
from models import kept_files
from runner.places import ROOT

SOUND, UNSOUND, NONE = 0, 1, 2  # statuses


ONE_ROW = (3, 2, [FRAMES[2:3], FRAMES[3:4]], [FRAMES[4:6]], [FRAMES[6:7], FRAMES[7:8]])


class Checked:
    """What `kbroker check` says of a directory: its status, and the lines of both streams."""

    def __init__(self, program, folder, words=(), user=None, meanwhile=None):
        """`words` stand before the program, as those of strace; `meanwhile` is done while it runs, with its process."""
        ways = {"stdin": subprocess.DEVNULL, "stdout": subprocess.PIPE, "stderr": subprocess.PIPE}
        if user is not None:
            ways |= {"user": user, "group": user, "extra_groups": []}
        with subprocess.Popen([*words, program, "check", folder], **ways) as running:
            try:
                if meanwhile is not None:
                    meanwhile(running)
                out, err = running.communicate(timeout=SECONDS)
            finally:
                running.kill()
        self.status = running.returncode
        self.lines = [*out.decode("ascii", "replace").splitlines(), *err.decode("ascii", "replace").splitlines()]

    def says(self, *words):
        """One of its lines must have all these, numbers as whole ones."""
        forms = [rf"(?<![0-9]){re.escape(str(it))}(?![0-9])" for it in words]
        holds(f"no line has {words}: {self.lines}", any(all(re.search(form, line) for form in forms) for line in self.lines))


def check(program, folder, status, what, **ways):
    """A check must have this status, and change nothing."""
    before = all_of(folder)
    checked = Checked(program, folder, **ways)
    same(f"the status of a check, of {what}; it says {checked.lines}", checked.status, status)
    same(f"the directory behind a check, of {what}", all_of(folder), before)
    return checked


def line_of_a_start(program, folder):
    """What a start says of it, whose directory then is as it was before."""
    files = files_of(folder)
    try:
        with Kept(program, folder, topics=("t:2",)) as broker:
            said = broker.said()
    except Ended as ended:
        said = ended.lines[-1]
    laid(folder, files)
    return said


# ---- sound ones

SOUND_ONES = {
    "a snapshot and a journal": lambda: first_files(FRAMES[:2], FRAMES[2:3]),
    "a second journal": lambda: behind(first_files(FRAMES[:2]), 2, [FRAMES[2:4], FRAMES[4:5]]),
    "a row": lambda: row(*ONE_ROW),
    "version 0": lambda: row(*ONE_ROW, version=0),
    "version 1 behind version 0": lambda: behind(row(*ONE_ROW, version=0), 6, [FRAMES[8:9]]),
    "no group, of version 0": lambda: first_files(version=0),
    "a torn end": lambda: {**first_files(FRAMES[:2]), JOURNAL: first_files(FRAMES[:2])[JOURNAL] + b"torn"},
    "a torn end of a row": lambda: {**row(*ONE_ROW), "journal.5": row(*ONE_ROW)["journal.5"] + bytes(99)},
    "no group": lambda: first_files(),
}


RECOVERED = re.compile(r"recovered snapshot (\d+), (\d+) frames(?:; cut (\d+) bytes of (\S+) at (\d+))?")


def sound_ones(program):
    """Of each file its name, its version, the number of its groups and where the last one ends; and what a start would recover, and
    cut."""
    with new_folder() as folder:
        for what, files in SOUND_ONES.items():
            laid(folder, files())
            checked = check(program, folder, SOUND, what)
            for name, data in files().items():
                if name.startswith("snapshot"):
                    checked.says(name, len(data), f"version {kept_files.key_in_snapshot(data)[0]}")
                else:
                    head, groups = kept_files.head_of(data), kept_files.groups_of(data, int(name.partition(".")[2]))
                    checked.says(name, f"version {head.version}", len(groups), groups[-1].end if groups else head.end)
            numbers = RECOVERED.fullmatch(line_of_a_start(program, folder))
            checked.says(f"snapshot {numbers[1]}", f"{numbers[2]} frame")
            if numbers[3]:
                checked.says(f"{numbers[3]} bytes", numbers[4], numbers[5])


def leftovers(program):
    """Files that a start would remove don't make it unsound: lower numbers, a draft, a head in the making; nor do other names."""
    files = {**row(*ONE_ROW), "journal.2": b"x", "snapshot.1": b"", IN_THE_MAKING: b"y", "journal.6": b"z" * 9, "notes.txt": b"mine"}
    with new_folder() as folder:
        laid(folder, files)
        checked = check(program, folder, SOUND, "files that go")
        for name in ("journal.2", "snapshot.1", IN_THE_MAKING, "journal.6"):
            checked.says(name)
        checked.says("snapshot 3", "6 frame")


# ---- others


def flipped(data, at):
    return data[:at] + bytes([data[at] ^ 1]) + data[at + 1 :]


def faults():
    """Files with a fault, by what it is."""
    whole, three, theirs = first_files(FRAMES[:1], FRAMES[1:2], FRAMES[2:3]), row(*ONE_ROW), row(*ONE_ROW, whose=b"t")
    second = kept_files.groups_of(whole[JOURNAL])[1].at
    return {
        "a group that is damaged": {**whole, JOURNAL: flipped(whole[JOURNAL], second + 40)},
        "a head of a journal": {**whole, JOURNAL: flipped(whole[JOURNAL], 1)},
        "a snapshot": {**whole, SNAPSHOT: flipped(whole[SNAPSHOT], len(whole[SNAPSHOT]) - 30)},
        "a snapshot that is cut": {**whole, SNAPSHOT: whole[SNAPSHOT][:-3]},
        "a frame that only reads": first_files([request("export t:0")]),
        "no journal": {SNAPSHOT: whole[SNAPSHOT]},
        "no snapshot": {JOURNAL: whole[JOURNAL]},
        "a journal that lacks in a row": {name: data for name, data in three.items() if name != "journal.4"},
        "a torn end before another journal": {**three, "journal.4": three["journal.4"] + b"torn"},
        "a journal that is cut at a border": {**three, "journal.3": three["journal.3"][: kept_files.groups_of(three["journal.3"], 3)[1].at]},
        "a snapshot of another directory": {**three, "snapshot.3": theirs["snapshot.3"]},
        "a journal of another directory": {**three, "journal.4": theirs["journal.4"]},
        "what the head says of the one before": {**three, "journal.4": flipped(three["journal.4"], kept_files.OLD_HEAD_SIZE)},
        "a journal of a later version": {**three, "journal.4": kept_files.journal([FRAMES[4:6]], number=4, version=3)},
        "a journal of another meaning": {**whole, JOURNAL: kept_files.journal([FRAMES[:1]], meaning=2)},
    }


def unsound_ones(program):
    """Each has status 1, and is told as a start tells it: with the file, the byte, and why."""
    with new_folder() as folder:
        for what, files in faults().items():
            laid(folder, files)
            checked = check(program, folder, UNSOUND, what)
            refusal = line_of_a_start(program, folder)
            holds(f"a start on {what}: {refusal!r}", refusal.startswith(f"kbroker: {folder}/"))
            words = refusal.removeprefix(f"kbroker: {folder}/")
            holds(f"no line has {words!r}, of {what}: {checked.lines}", any(words in it for it in checked.lines))


def files_of_another_kind(program):
    """A directory and a pipe in the place of a file, which isn't opened."""
    for make in (os.mkdir, os.mkfifo):
        for name in (JOURNAL, SNAPSHOT):
            with new_folder() as folder:
                laid(folder, first_files(FRAMES[:1]))
                os.remove(f"{folder}/{name}")
                make(f"{folder}/{name}")
                check(program, folder, UNSOUND, f"{make.__name__} {name}").says(name, "not a regular file")


def none_there(program):
    """What is no data directory: no name, a file, an empty directory, one with other files. A line says so."""
    with new_folder() as folder:

        def is_none(what):
            checked = check(program, folder, NONE, what)
            holds(f"the line of {what}: {checked.lines}", any(it.startswith(f"kbroker: {folder}: ") for it in checked.lines))

        is_none("nothing")
        os.mkdir(folder)
        is_none("an empty directory")
        write(folder, "notes.txt", b"mine")
        is_none("a directory with another file")
        shutil.rmtree(folder)
        write(os.path.dirname(folder), os.path.basename(folder), b"mine")
        is_none("a file")


# ---- rights, and calls that fail


def reads_alone(program):
    """One who may only read can have it checked, and no call is made that could change anything, or lock it."""
    with new_folder() as folder:
        laid(folder, row(*ONE_ROW))
        with run_by_another(program, folder) as (copy, user):
            for name in names_in(folder):
                os.chmod(f"{folder}/{name}", 0o444)
            os.chmod(folder, 0o555)
            check(copy, folder, SOUND, "what may only be read", user=user)
            os.chmod(folder, 0o755)
            for name in names_in(folder):
                os.chmod(f"{folder}/{name}", 0o000)
            if os.getuid() == 0:
                checked = check(copy, folder, FAILED, "files that may not be read", user=user)
                holds(f"its lines: {checked.lines}", any(it.startswith(f"kbroker: {folder}/") for it in checked.lines))
            os.chmod(folder, 0o000)
            if os.getuid() == 0:
                status = Checked(copy, folder, user=user).status
                same("the status of a directory that may not be read", status, FAILED)
            os.chmod(folder, 0o755)


def calls_alone(program):
    """Of the calls on the directory none opens a file but to read it, or locks it."""
    with new_folder() as folder:
        laid(folder, row(*ONE_ROW))
        told = f"{os.path.dirname(folder)}/calls"
        words = ["strace", "-f", "-o", told, *by_path_or_handle(folder, ["", *names_in(folder)])]
        words += ["-e", "trace=flock,fchmod,utimensat," + ",".join(KINDS)]
        check(program, folder, SOUND, "a row", words=words)
        with open(told, encoding="ascii", errors="replace") as file:
            calls = [it for it in file.read().splitlines() if "(" in it]
        holds("no call is told", any("openat(" in it for it in calls))
        others = [it for it in calls if "openat(" not in it or re.search("O_WRONLY|O_RDWR|O_CREAT|O_TRUNC", it)]
        same("calls that could change something", others, [])


def failing(folder, told, name, inject):
    """The words of strace that have a call on a file fail."""
    return ["strace", "-f", "-o", told, *by_path_or_handle(folder, [name]), "-e", "trace=openat,pread64,read", "-e", f"inject={inject}"]


def calls_that_fail(program):
    """A file that can't be opened or read: status 4, and its line. One that isn't there any more, once or twice: it begins again; and
    where that never ends, it does."""
    with new_folder() as folder:
        laid(folder, row(*ONE_ROW))
        told = f"{os.path.dirname(folder)}/calls"
        for name in ("snapshot.3", "journal.4"):
            for inject in ("openat:error=EIO", "pread64,read:error=EIO"):
                words = failing(folder, told, name, inject)
                checked = check(program, folder, FAILED, f"{inject} of {name}", words=words)
                holds(f"its lines: {checked.lines}", any(it.startswith(f"kbroker: {folder}/{name}: ") for it in checked.lines))
            for turns in ("1", "1..2"):
                words = failing(folder, told, name, f"openat:error=ENOENT:when={turns}")
                check(program, folder, SOUND, f"{name}, which goes at {turns}", words=words).says("snapshot 3", "6 frame")
            words = failing(folder, told, name, "openat:error=ENOENT")
            checked = Checked(program, folder, words=words)
            holds(f"{name}, which always goes: status {checked.status}, {checked.lines}", checked.status in (UNSOUND, FAILED))
            with open(told, encoding="ascii", errors="replace") as file:
                tries = file.read().count("ENOENT")
            holds(f"{tries} tries to open {name}, which always goes", 3 <= tries <= 4)


# ---- a broker that runs


def beside_a_broker(program):
    """The directory of a broker that runs, and takes snapshots; the broker goes on, and a check keeps no start away."""
    with new_folder() as folder:
        with Kept(program, folder, *SOON) as broker, broker.client() as client:
            for number in range(4):
                client.ask(LARGE.replace("1600", str(1600 << number)), f"produced t:0 0 {number}")
                wanted = sorted([f"journal.{number + 2}", f"snapshot.{number + 2}"])
                holds(f"the names {names_in(folder)}", is_soon(lambda: names_in(folder) == wanted, 30))
                check(program, folder, SOUND, f"a broker that runs, at {number}").says(f"snapshot {number + 2}", "0 frame")
                client.ask(f"commit t:0 {number}", "committed t:0 0")
                check(program, folder, SOUND, f"a broker that runs, behind {number}").says(f"snapshot {number + 2}", "1 frame")
                client.ask("listoffsets t:0 -1", f"listed t:0 0 -1 {number + 1}")


def files_that_go(program):
    """The check has opened the snapshot when a broker would take the next one: that and its journal stand there, and all below is gone.
    It begins again, and says what is there."""
    with new_folder() as folder:
        laid(folder, first_files(FRAMES[:2]))
        told = f"{os.path.dirname(folder)}/calls"
        words = ["strace", "-D", "-f", "-o", told, *by_path_or_handle(folder, [SNAPSHOT])]
        words += ["-e", "trace=openat", "-e", "inject=openat:signal=STOP:when=1"]

        def go(running):
            stopped = is_soon(lambda: os.path.exists(told) and "--- stopped by SIGSTOP" in open(told, encoding="ascii").read(), 20)
            if stopped:
                for name, data in row(*ONE_ROW).items():
                    write(folder, name, data)
                for name in (JOURNAL, SNAPSHOT):
                    os.remove(f"{folder}/{name}")
                resume(running.pid)
            elif running.poll() is None:
                raise Fault("it doesn't open the snapshot")

        checked = Checked(program, folder, words=words, meanwhile=go)
        same(f"the status of a check while files go; it says {checked.lines}", checked.status, SOUND)
        checked.says("snapshot 3", "6 frame")


def met_once(program):
    """The check has met a fault when it looks at the files behind it: then that is gone, as where a broker cuts what a failed write left. It
    looks once more, and says what is there; a fault that stays is told then."""
    files, told = row(*ONE_ROW), {}
    torn = {**files, "journal.3": files["journal.3"] + b"torn"}
    for is_cut in (True, False):
        with new_folder() as folder:
            laid(folder, torn)
            trace = f"{os.path.dirname(folder)}/calls"
            words = ["strace", "-D", "-f", "-o", trace, *by_path_or_handle(folder, ["journal.4"])]
            words += ["-e", "trace=openat", "-e", "inject=openat:signal=STOP:when=1"]

            def go(running):
                stopped = is_soon(lambda: os.path.exists(trace) and "--- stopped by SIGSTOP" in open(trace, encoding="ascii").read(), 20)
                if stopped and is_cut:
                    os.truncate(f"{folder}/journal.3", len(files["journal.3"]))
                if stopped:
                    resume(running.pid)
                elif running.poll() is None:
                    raise Fault("it doesn't look at the journal behind the fault")

            told[is_cut] = Checked(program, folder, words=words, meanwhile=go)
    same(f"the status where it is cut; it says {told[True].lines}", told[True].status, SOUND)
    told[True].says("snapshot 3", "6 frame")
    same(f"the status where it stays; it says {told[False].lines}", told[False].status, UNSOUND)
    told[False].says("journal.3", len(files["journal.3"]))


def files_that_come_and_go(program):
    """Names come all the time, so that no reading is of one moment: after some tries it says so, with status 4, and doesn't say that the
    directory is sound, or damaged."""
    with new_folder() as folder:
        laid(folder, row(50, 2, [FRAMES[2:3]]))
        told = f"{os.path.dirname(folder)}/calls"
        words = ["strace", "-D", "-f", "-o", told, *by_path_or_handle(folder, ["snapshot.50"])]
        words += ["-e", "trace=openat", "-e", "inject=openat:delay_enter=300000"]

        def come(running):
            for number in range(1, 50):
                if running.poll() is not None:
                    break
                write(folder, f"journal.{number}", b"")
                time.sleep(0.1)

        checked = Checked(program, folder, words=words, meanwhile=come)
        same(f"the status of a check while files come; it says {checked.lines}", checked.status, FAILED)
        holds(f"its lines: {checked.lines}", checked.lines[-1].startswith(f"kbroker: {folder}: "))


# ---- backups

BACKUP = f"{ROOT}/examples/backup.sh"
BACKUPS, TRIES = 6, 20


def asks_on(broker, frames, acknowledged, over):
    """A client that produces, one request after the other, until it is over."""
    with broker.client() as client:
        for number, frame in enumerate(frames):
            if over.is_set():
                return
            client.send(frame)
            client.gets(reply(f"produced t:0 0 {number}"))
            acknowledged[0] = number + 1


def records_in(broker):
    """How many records t:0 has."""
    with broker.client() as client:
        client.send(request("listoffsets t:0 -1"))
        got = client.receive(len(reply("listed t:0 0 -1 0")))
    return next(it for it in range(1 << 20) if reply(f"listed t:0 0 -1 {it}") == got)


def script(program, *words):
    """The status of the script that makes a backup, and what it says of why there is none."""
    ran = subprocess.run([BACKUP, *words], env={**os.environ, "KBROKER": program}, stdout=subprocess.PIPE, stderr=subprocess.PIPE)
    return ran.returncode, ran.stderr.decode("ascii", "replace")


def backup(program, folder, copy):
    """Makes a backup: again where a snapshot was taken each time, which alone may keep it from being made."""
    for _ in range(TRIES):
        status, said = script(program, folder, copy)
        if status == 0:
            return
        holds(f"a backup has status {status}, and says {said!r}", status == 1 and "a snapshot was taken each time" in said)
        shutil.rmtree(copy)
    raise Fault(f"none of {TRIES} backups is made")


def backups_that_are_none(program):
    """A copy of a damaged directory is said to be none, and so are directories that aren't there or have no snapshot; a copy that holds
    something isn't written to, and none is begun that couldn't be checked."""
    with new_folder() as folder, tempfile.TemporaryDirectory() as there:
        status, said = script(program, folder, f"{there}/1")
        holds(f"of nothing: status {status}, {said!r}", status == 2 and folder in said)
        laid(folder, {JOURNAL: kept_files.journal([])})
        status, said = script(program, folder, f"{there}/2")
        holds(f"without a snapshot: status {status}, {said!r}", status == 1 and "no snapshot" in said)
        laid(folder, faults()["a group that is damaged"])
        status, said = script(program, folder, f"{there}/3")
        holds(f"of a damaged one: status {status}, {said!r}", status == UNSOUND and "damaged at byte" in said)
        laid(folder, row(*ONE_ROW))
        laid(f"{there}/4", {"notes.txt": b"mine"})
        status, said = script(program, folder, f"{there}/4")
        holds(f"where something stands: status {status}, {said!r}", status == 2 and "not empty" in said)
        same("what stands there", files_of(f"{there}/4"), {"notes.txt": b"mine"})
        same("a copy of a sound one", script(program, folder, f"{there}/5"), (0, ""))
        same("what is copied", files_of(f"{there}/5"), row(*ONE_ROW))
        status, said = script(f"{there}/none", folder, f"{there}/6")
        holds(f"without a program to check it: status {status}, {said!r}", status == 2 and "no such program" in said)
        holds("a copy is begun that can't be checked", not os.path.exists(f"{there}/6"))


def backups(program):
    """Backups by the script while a client produces and snapshots are taken. Each has what was acknowledged before it began, and no gap; a check
    says that it is sound, also once it is put back, and a start comes to the state of just that."""
    frames = [request(f"produce t:0 batch k{number}={{{chr(97 + number % 26)}*{number % 97}}}") for number in range(20_000)]
    acknowledged, over, taken = [0], threading.Event(), []
    with new_folder() as folder, tempfile.TemporaryDirectory() as there:
        with Kept(program, folder, "--snapshot-after", "20000") as broker:
            asking = threading.Thread(target=asks_on, args=(broker, frames, acknowledged, over), daemon=True)
            asking.start()
            try:
                for number in range(BACKUPS):
                    holds("it doesn't go on", is_soon(lambda: acknowledged[0] >= 40 * number))
                    before = acknowledged[0]
                    backup(program, folder, f"{there}/{number}")
                    taken.append((before, acknowledged[0] + 1))
            finally:
                over.set()
                asking.join()
        shutil.rmtree(folder)
        for number, (least, most) in enumerate(taken):
            laid(folder, files_of(f"{there}/{number}"))
            check(program, folder, SOUND, f"backup {number}, put back")
            with Kept(program, folder) as broker:
                count = records_in(broker)
                holds(f"backup {number} has {count} records, not {least} to {most}", least <= count <= most)
                has_state(broker, node_after(frames[:count]), f"backup {number}")


CASES = [
    ("a check of sound directories", sound_ones),
    ("a check of files that a start would remove", leftovers),
    ("a check of directories with a fault", unsound_ones),
    ("a check of files that are none", files_of_another_kind),
    ("a check of what is no data directory", none_there),
    ("a check by one who may only read", reads_alone),
    ("the calls of a check", where_it_can_be_seen(calls_alone)),
    ("a check whose calls fail", where_it_can_be_seen(calls_that_fail)),
    ("a check beside a broker that runs", beside_a_broker),
    ("a check while files go", where_it_can_be_seen(files_that_go)),
    ("a check that meets a fault once", where_it_can_be_seen(met_once)),
    ("a check while files come all the time", where_it_can_be_seen(files_that_come_and_go)),
    ("backups that can't be made", backups_that_are_none),
    ("backups while a broker runs", backups),
]
