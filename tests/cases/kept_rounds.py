"""What a `kbroker start --data` does round after round, and what it needs at its start beside sound files: when it syncs while
others go on to send, a sync that fails, connections to which what they are owed leaves late, frames that are put off for long, and
the largest configuration.

What must come is worked by hand. That a sync fails or takes long is said by strace, where it is there and may look; else those
cases can't be tried.
"""
import os
import shutil
import signal
import struct
import threading
import time

from cases.kept_calls import where_it_can_be_seen
from cases.kept_runs import (
    ANOTHER,
    FAILED,
    IN_THE_MAKING,
    JOURNAL,
    SNAPSHOT,
    Kept,
    content,
    key_in,
    lay,
    new,
    new_folder,
    recovered,
    refusal,
)
from cases.started import CannotBeTried, holds, is_soon, reply, request, same
from encoders import frames
from models import kept_files

# ---- when it syncs

MOST_UNSYNCED = 4_194_304  # bytes that are synced at once, whatever the time


def synced_while_it_grows(program):
    """With milliseconds the sync comes in time though a request comes every 20 ms: none puts it off."""
    with new_folder() as folder:
        with Kept(program, folder, sync="300") as broker, broker.client() as client:
            for number in range(100):
                client.ask("produce t:0 batch a=1", f"produced t:0 0 {number}")
                time.sleep(0.02)
        synced = [it.synced for it in kept_files.groups_of(content(folder, JOURNAL))]
        holds(f"two seconds with no sync: {synced}", synced[-1] > kept_files.HEAD_SIZE)
        holds(f"each group is synced by itself: {synced}", len(set(synced)) < 50)


def refused_produce(size):
    """A Produce of so many bytes that are no batch; it stands in the journal like others."""
    head = request("produce t:0 batch a=1")[4:37]  # up to the index of the partition
    return frames.data(head + struct.pack(">i", size) + bytes(size))


def synced_when_much(program):
    """With a minute to sync four megabytes are synced at once: the next group says so. With `never` they aren't."""
    for sync in ("60000", "never"):
        with new_folder() as folder:
            with Kept(program, folder, sync=sync) as broker, broker.client() as client:
                for number in range(24):
                    client.send(refused_produce(400_000 + number))
                    client.gets(reply("produced t:0 43 -1"))
            data, at, synced = content(folder, JOURNAL), kept_files.HEAD_SIZE, kept_files.HEAD_SIZE
            while at < len(data):
                its_synced, size = struct.unpack(">Qi", data[at + 20 : at + 32])
                same(f"with {sync} how much was synced before the group at {at}", its_synced, synced)
                at += kept_files.FRONT_SIZE + size
                if sync != "never" and at - synced >= MOST_UNSYNCED:
                    synced = at


def switches(broker):
    """How often it has waited until now."""
    with open(f"/proc/{broker.process.pid}/status", encoding="ascii") as file:
        return int(next(it for it in file if it.startswith("voluntary_ctxt_switches:")).split()[1])


def rests_behind_a_sync(program):
    """Once what was written is synced it rests, in each way, and nothing wakes it."""
    for sync in ("always", "30", "never"):
        with new_folder() as folder, Kept(program, folder, sync=sync) as broker, broker.client() as client:
            for number in range(3):
                client.ask("produce t:0 batch a=1", f"produced t:0 0 {number}")
            time.sleep(0.3)
            broker.rests(f"all is synced, with {sync}")
            before = switches(broker)
            time.sleep(1)
            holds(f"with {sync} it wakes {switches(broker) - before} times in a second", switches(broker) - before < 5)


def written_though_none_is_owed(program):
    """A Produce without acknowledgement is in the journal though nothing is sent for it, and though its client is gone."""
    for sync in ("always", "60000", "never"):
        with new_folder() as folder, Kept(program, folder, sync=sync) as broker:
            frame = request("produce acks=0 t:0 batch a=1")
            with broker.client() as client:
                client.send(frame)
            wanted = [frame]
            written = is_soon(lambda: kept_files.all_frames(kept_files.groups_of(content(folder, JOURNAL))) == wanted, 10)
            holds(f"with {sync} it isn't written", written)


LARGEST_FRAME = 8_388_608


def much_in_a_round(program):
    """The broker finds at once what is not yet half a group, the largest frame of another client, and small frames behind it: that is
    more than a group may have, so a round must end before. All are answered."""
    head = request("produce t:0 batch a=1")[4:37]
    first, largest = (refused_produce(size - len(head) - 4) for size in (LARGEST_FRAME - 8, LARGEST_FRAME))
    small = request("produce t:1 batch b=1") * 400
    with new_folder() as folder, Kept(program, folder) as broker:
        clients = broker.clients(2)
        for it, frame in zip(clients, (first, largest)):
            it.send(frame[:-1])
        broker.rests("all but a byte has come")
        broker.process.send_signal(signal.SIGSTOP)
        clients[0].send(first[-1:])
        clients[1].send(largest[-1:] + small)
        broker.process.send_signal(signal.SIGCONT)
        clients[0].gets(reply("produced t:0 43 -1"))
        clients[1].gets(reply("produced t:0 43 -1"))
        clients[1].gets(b"".join(reply(f"produced t:1 0 {number}") for number in range(400)))


# ---- a sync that fails


class Failing(Kept):
    """A program whose `fdatasync` of the journal fails from the second one on: the first is that of a start on files that are there."""

    def __init__(self, program, folder, **ways):
        super().__init__(shutil.which("strace"), folder, **ways)
        told = ["-D", "-f", "-o", "/dev/null", "-P", f"{folder}/{JOURNAL}", "-e", "trace=fdatasync", "-e", "inject=fdatasync:error=EIO:when=2+"]
        self.command = ["strace", *told, program, *self.command[1:]]


def sync_fails(program):
    """Where a sync fails it ends: with `always` before the reply leaves, and so where four megabytes are synced at once; with
    milliseconds when their time has come, though nobody sends any more. What was written is there in the next start."""
    small, large = request("produce t:0 batch a=1"), refused_produce(MOST_UNSYNCED)
    for sync, frame, told in (("always", small, b""), ("60000", large, b""), ("50", small, reply("produced t:0 0 0"))):
        with new_folder() as folder:
            lay(folder, kept_files.journal([]))
            with Failing(program, folder, sync=sync) as broker, broker.client() as client:
                client.send(frame)
                client.gets_to_the_end(told, f"with {sync} what comes")
                status, lines = broker.ends_by_itself()
            same(f"with {sync} the status", status, FAILED)
            holds(f"with {sync} the last line: {lines}", lines[-1].startswith(f"kbroker: {folder}/{JOURNAL}: "))
            with Kept(program, folder) as broker:
                same(f"the line behind it, with {sync}", broker.said(), recovered(1))


# ---- connections to which what they are owed leaves at the end of a round


READ_PIECE = 65_536  # bytes that one read may bring
MOST_OWED = 262_144  # bytes behind which no further frame is answered


def padded(words, size):
    """A request that is so many bytes long with its size, by its client id."""
    plain = request(words)
    key, version, correlation, length = struct.unpack(">hhih", plain[4:14])
    behind = plain[14 + max(length, 0) :]
    name = size - 14 - len(behind)
    return struct.pack(">ihhih", size - 4, key, version, correlation, name) + b"i" * name + behind


def full_at_the_end_of_a_read(program, stops=True):
    """The first read brings two whole frames and no byte more, and each one's reply is more than may be owed; another frame is there
    behind them, and the end perhaps. All of it is answered, though no event comes any more."""
    large = f"batch large={{v*{MOST_OWED}}}"
    told = reply(f"fetched t:0 0 1 {large}")
    with new_folder() as folder, Kept(program, folder) as broker, broker.client() as client:
        client.ask(f"produce t:0 {large}", "produced t:0 0 0")
        broker.process.send_signal(signal.SIGSTOP)
        client.send(padded("fetch t:0 0", READ_PIECE // 2) * 2 + request("versions"))
        if stops:
            client.stop()
        broker.process.send_signal(signal.SIGCONT)
        client.gets(told * 2 + reply("versions 0"), "the replies")
        if stops:
            client.gets_to_the_end(b"")
            broker.tells(0, client, "end")


def asks_on(program):
    """The same of a client that stays and waits for the reply to its last frame."""
    full_at_the_end_of_a_read(program, stops=False)


def much_for_each(program):
    """Frames that come at once, and each of whose replies is more than may be owed, are answered one after the other."""
    large = f"batch large={{v*{MOST_OWED}}}"
    told = reply(f"fetched t:0 0 1 {large}")
    with new_folder() as folder, Kept(program, folder) as broker, broker.client() as client:
        client.ask(f"produce t:0 {large}", "produced t:0 0 0")
        client.send(request("fetch t:0 0") * 8 + request("versions"))
        client.gets(told * 8 + reply("versions 0"), "the replies")


def many_at_once(program):
    """Clients whose requests the broker finds at once, and who then say nothing more, all get their replies in that round."""
    with new_folder() as folder, Kept(program, folder) as broker:
        clients = broker.clients(5)
        broker.rests("five have come")
        broker.process.send_signal(signal.SIGSTOP)
        for it in clients:
            it.send(request("produce t:0 batch a=1"))
        broker.process.send_signal(signal.SIGCONT)
        same("the replies", {it.receive(len(reply("produced t:0 0 0"))) for it in clients[::-1]},
             {reply(f"produced t:0 0 {number}") for number in range(5)})


def beside_one_that_never_stops(program):
    """A client changes something all the time, and waits for nothing; the others' replies leave all the same."""
    over = threading.Event()

    def pump(client):
        block = request("produce acks=0 t:1 batch x=1") * 500
        while not over.is_set():
            client.send(block)

    with new_folder() as folder, Kept(program, folder, sync="never") as broker, broker.client() as busy, broker.client() as other:
        pumping = threading.Thread(target=pump, args=[busy], daemon=True)
        pumping.start()
        try:
            for number in range(6):
                other.ask("produce t:0 batch a=1", f"produced t:0 0 {number}")
        finally:
            over.set()
            pumping.join()


def sent_is_not_held(program):
    """Twenty that each got a reply of a fifth of what all may hold, and then say nothing, hold nothing more."""
    large = f"batch large={{v*{200_000}}}"
    with new_folder() as folder, Kept(program, folder, "--most-held", "1000000") as broker, broker.client() as other:
        other.ask(f"produce t:0 {large}", "produced t:0 0 0")
        clients = broker.clients(20)
        for it in clients:
            it.ask("fetch t:0 0", f"fetched t:0 0 1 {large}")
        for it in clients:
            it.ask("versions", "versions 0")
            it.close()
        same("why they end", {why for _, _, why in broker.ends(20).told}, {"end"})


def slow_reader_is_not_idle(program):
    """A client that reads its one large reply slowly isn't idle: of it something leaves all the time."""
    count, metadata = 8_192, "m" * 4_096
    entry = struct.pack(">iqh", 0, 5, len(metadata)) + metadata.encode() + bytes(2)
    told = frames.response(frames.topics([(b"t", entry)] * count))
    # (the system takes little for the client, so that the last byte leaves late on a busy machine too)
    with new_folder() as folder, Kept(program, folder, "--idle", "5") as broker, broker.client(room=1 << 16) as slow:
        slow.ask(f"commit t:0 5 {metadata}", "committed t:0 0")
        slow.send(request(f"offsets each {count} t:0"))
        began, got = time.monotonic(), 0
        while got < len(told):
            piece = slow.receive(min(1_000_000, len(told) - got))
            same(f"the reply from {got} on", piece, told[got : got + len(piece)])
            holds(f"the end after {got} bytes: {broker.lines}", bool(piece))
            got += len(piece)
            time.sleep(0.3)
        holds("it was read fast", time.monotonic() > began + 8)
        slow.ask("versions", "versions 0")


# ---- frames that are put off

IDLE, OF_AN_IMAGE = 1, 2  # seconds that a client may be idle, and that the sync of each image takes


class Slowed(Kept):
    """A program of which each sync of a snapshot that it writes takes so many seconds."""

    def __init__(self, program, folder, seconds, *arguments, **ways):
        super().__init__(shutil.which("strace"), folder, *arguments, **ways)
        delayed = f"inject=fsync,fdatasync:delay_enter={seconds * 1_000_000}"
        told = ["-D", "-f", "-o", "/dev/null", "-P", f"{folder}/{IN_THE_MAKING}", "-e", "trace=fsync,fdatasync", "-e", delayed]
        self.command = ["strace", *told, program, *self.command[1:]]


def asks_while_images_are_written(program, folder):
    """A client asks for what begins a snapshot, and then at once for what waits for two images. Whether it came to that before it
    was idle; a slow machine may not let it."""
    bounds = ("--snapshot-after", "1500", "--idle", str(IDLE))
    with Slowed(program, folder, OF_AN_IMAGE, *bounds) as broker, broker.client() as client:
        began = time.monotonic()
        client.ask("produce t:0 batch k={a*1600}", "produced t:0 0 0")
        client.send(request("produce t:0 batch b=1 | t:1 batch c=1"))
        if time.monotonic() - began >= IDLE:
            return False
        client.gets(reply("produced t:0 0 1 | t:1 0 0"), "the reply to what is put off")
        took = time.monotonic() - began
        holds(f"it came after {took:.1f} s, and wasn't put off for long", took > 2 * IDLE)
        client.gets_to_the_end(b"")
        broker.tells(0, client, f"idle for {IDLE} s")
    return True


def put_off_is_not_idle(program):
    """A frame that is put off while images are written, each for longer than a client may be idle, is answered, and its connection
    stays; once nothing is put off any more it ends."""
    for _ in range(5):
        with new_folder() as folder:
            with Kept(program, folder):
                pass
            if asks_while_images_are_written(program, folder):
                return
    raise CannotBeTried("the machine is too slow to ask again before a second is over")


# ---- the start

LARGEST = tuple(f"{number:03}{'t' * 240}:64" for number in range(64))


def largest_configuration(program):
    """As many topics as there may be, of as many partitions and with long names."""
    with new_folder() as folder:
        for turn in range(2):
            with Kept(program, folder, topics=LARGEST) as broker, broker.client() as client:
                same("the line", broker.said(), recovered(turn) if turn else new(folder))
                client.ask("producer-id", f"producer 0 {turn} 0")
        wanted = kept_files.snapshot(kept_files.topics_of(LARGEST), key=key_in(folder))
        same("the snapshot", content(folder, SNAPSHOT), wanted)
        status, line = refusal(program, folder, topics=LARGEST[:-1])
        same("one topic less", (status, line), (ANOTHER, f"kbroker: {folder}: topic {LARGEST[-1][:-3]}: 64 partitions"))


def keys_differ(program):
    """The key of a new journal is drawn."""
    with new_folder() as folder, new_folder() as other:
        for it in (folder, other):
            with Kept(program, it):
                pass
        keys = {kept_files.key_of(content(it, JOURNAL)) for it in (folder, other)}
        holds(f"the keys {keys}", len(keys) == 2 and bytes(8) not in keys)


def name_alone(program):
    """The directory's path is a name alone, as in README.md: it is made where the program runs."""
    with new_folder() as folder:
        parent, name = os.path.split(folder)
        for turn in range(2):
            with Kept(program, name, cwd=parent) as broker:
                same("the line", broker.said(), recovered(0) if turn else new(name))
        same("the names", sorted(os.listdir(folder)), [JOURNAL, SNAPSHOT])


def pipe_in_its_place(program):
    """What should be the directory is a pipe, which isn't opened: that would wait."""
    with new_folder() as folder:
        os.mkfifo(folder)
        status, line = refusal(program, folder)
        same("the status", status, FAILED)
        holds(f"the line {line!r}", line.startswith(f"kbroker: {folder}: "))


CASES = [
    ("a sync in time while more comes", synced_while_it_grows),
    ("a sync of four megabytes", synced_when_much),
    ("rest behind a sync", rests_behind_a_sync),
    ("a change of which nobody is told", written_though_none_is_owed),
    ("much in a round", much_in_a_round),
    ("a sync that fails", where_it_can_be_seen(sync_fails)),
    ("much that is owed at the end of a read", full_at_the_end_of_a_read),
    ("a client that asks on behind much that it is owed", asks_on),
    ("replies of which each is more than may be owed", much_for_each),
    ("five requests at once", many_at_once),
    ("a client that never stops to change something", beside_one_that_never_stops),
    ("what was sent isn't held, with a directory", sent_is_not_held),
    ("a slow reader isn't idle, with a directory", slow_reader_is_not_idle),
    ("idle and put off", where_it_can_be_seen(put_off_is_not_idle)),
    ("the largest configuration", largest_configuration),
    ("keys of new journals", keys_differ),
    ("a directory by its name alone", name_alone),
    ("a pipe in the place of a directory", pipe_in_its_place),
]
