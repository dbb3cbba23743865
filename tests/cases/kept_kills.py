"""A `kbroker start --data` that is killed at random moments, again and again, while 16 connections ask of it.

After each start a client that only reads sees what there is. Of partitions that all produce to: each batch that was acknowledged
stands at its offset with its bytes, what was fetched is still there, no batch is there in part, twice, or unsent; one that an
idempotent producer has sent again is there once. Of partitions and groups that one connection has to itself: they are as the plain
model says behind some front of what it asked, with all that was answered. No producer id is given twice.
"""
import collections
import contextlib
import itertools
import os
import random
import re
import select
import struct
import threading
import time

from cases.kept_runs import FAILED, WAYS, Ended, Kept, found, new, new_folder
from cases.kept_watched import fill, is_small, left_of
from cases.random_clients import CLEAN, COMMIT, EXPORT, FETCH, FORGET, OFFSETS, PRODUCE, PRODUCER_ID, TRIM, framed
from cases.started import RANDOM, SECONDS, Fault, holds, same, slow
from encoders import batches, copies
from models import broker, kept_files, wire

KILLS, SEED = 210, 1
KILLS_OF_ONE = 14  # how often the broker of one directory is killed
AFTER = 200_000  # bytes of journals, behind which a snapshot is taken
IN_THE_GATE = 60  # seconds, for each of two programs
LONGEST_LIFE = 0.2  # seconds from the line `listening` on, of one that is killed by the clock
LONGEST_WAIT = 0.5  # seconds, of one that is killed behind a number of responses
MOST_ANSWERS = 300
IMPORT = (20003, 0)
SHARED, OWNED = b"s", b"o"
PARTITIONS, OWNERS = 2, 4
OF_OWNERS = 24  # partitions
TOPICS = (f"s:{PARTITIONS}", f"o:{OF_OWNERS}")
OWN = OF_OWNERS // OWNERS  # partitions of each
WHOLE = 8_000_000  # bytes of a Fetch that asks for all
ROOM = (60_000, 1_500_000)  # bytes, from which to which a directory on a small disk has room
NO_ROOM = re.compile(r"kbroker: .*: no storage space")


# ---- what is known of a partition that all produce to


def batches_in(data):
    """Of each batch its base offset, how many offsets it spans, and its bytes behind the base offset."""
    at = 0
    while at < len(data):
        base, length = struct.unpack(">qi", data[at : at + 12])
        holds("a batch that is cut", at + 12 + length <= len(data))
        yield base, struct.unpack(">i", data[at + 23 : at + 27])[0] + 1, data[at + 8 : at + 12 + length]
        at += 12 + length


class Log:
    """A partition: what was sent to it and may be there, what stands where for certain, and what was there at the last start."""

    def __init__(self, index):
        self.index, self.sent, self.known, self.must, self.end = index, set(), {}, set(), 0
        self.front, self.next, self.there = b"", 0, set()

    def learn(self, base, content, count):
        """A batch stands at this offset: it was acknowledged, or fetched."""
        holds(f"s:{self.index} has bytes at {base} that nobody sent", content in self.sent)
        same(f"the batch at {base} of s:{self.index}", content, self.known.setdefault(base, content))
        self.end = max(self.end, base + count)

    def check(self, data, end):
        """All of the partition, as it is behind a start."""
        holds(f"s:{self.index} is no more what it was", data.startswith(self.front))
        for base, count, content in batches_in(data[len(self.front) :]):
            same(f"the next base offset of s:{self.index}", base, self.next)
            holds(f"the batch at {base} of s:{self.index} is there twice", content not in self.there)
            self.learn(base, content, count)
            self.there.add(content)
            self.next += count
        same(f"the end of s:{self.index}", self.next, end)
        holds(f"s:{self.index} ends at {end}, and not at {self.end}", end >= self.end)
        lost = [base for base, content in self.known.items() if content not in self.there]
        holds(f"batches at {lost[:5]} of s:{self.index} are lost, which ends at {end}", not lost)
        holds(f"batches of acks 0 in s:{self.index} are lost", self.must <= self.there)
        self.front = data

    def forget(self, content):
        """A batch that isn't there, and that nobody will send again."""
        if content not in self.there:
            self.sent.discard(content)


# ---- connections

# a request that is on its way: its correlation id, its bytes, what takes the values of its response, or none with acks 0, and what
# else is known of it
Asked = collections.namedtuple("Asked", "correlation kind frame take about")


class Asker:
    """One of the connections; it has at most `depth` requests on the way."""

    depth = 1

    def __init__(self, number, world):
        self.number, self.world, self.drawn = number, world, random.Random(f"{world.seed} {number}")
        self.waiting, self.numbers = collections.deque(), itertools.count()

    def begin(self, started):
        self.client, self.waiting = started.client(), collections.deque()
        self.client.socket.setblocking(False)
        self.out, self.came, self.is_over, self.can_send = b"", bytearray(), False, True

    def ask(self, kind, values, take, about=None):
        correlation = next(self.numbers)
        self.send(correlation, kind, framed(kind, correlation, values), take, about)

    def send(self, correlation, kind, frame, take, about):
        self.waiting.append(Asked(correlation, kind, frame, take, about))
        self.out += frame
        self.world.count_sent(kind)

    def step(self, can_read):
        """Sends and receives what goes without waiting."""
        while self.can_send and len(self.waiting) < self.depth:
            self.next_request()
        if self.can_send and self.out:
            try:
                self.out = self.out[self.client.socket.send(self.out) :]
            except BlockingIOError:
                pass
            except OSError:
                self.can_send = False
        if can_read:
            self.receive()

    def receive(self):
        try:
            piece = self.client.socket.recv(1 << 18)
        except BlockingIOError:
            return
        except ConnectionResetError:
            piece = b""
        self.is_over = not piece
        self.came += piece
        while len(self.came) >= 4 and len(self.came) >= 4 + (size := struct.unpack(">i", self.came[:4])[0]):
            response = bytes(self.came[4 : 4 + size])
            del self.came[: 4 + size]
            self.take_response(response)

    def take_response(self, response):
        while self.waiting and self.waiting[0].take is None:
            self.done_before(self.waiting.popleft())
        holds(f"connection {self.number} gets what it didn't ask for", bool(self.waiting))
        asked = self.waiting.popleft()
        self.world.count_answered(asked.kind)
        self.take(asked, response)

    def done_before(self, asked):
        """A request with acks 0, which stands before one that was answered."""
        self.world.count_answered(asked.kind)

    def take(self, asked, response):
        (correlation, *values), end = wire.read(["i", *wire.REQUESTS[asked.kind][1]], response, 0)
        same("a response's correlation id and end", (correlation, end), (asked.correlation, len(response)))
        asked.take(values)

    def check(self, _reader):
        """What of its own it finds behind a start. What was on the way at the kill may be done or not."""


def one_answer(values):
    """The answer for the one partition that was asked for."""
    ((_, (answer,)),) = values
    return answer


class Producer(Asker):
    """Sends batches without a producer id, each once, now and then with acks 0."""

    depth = 4

    def new_batch(self, log, producer=(-1, -1, -1)):
        """The bytes of a batch that no other is like."""
        count = self.drawn.randrange(1, 4)
        name = b"%d %d %d" % (self.world.directory, self.number, next(self.numbers))
        value = name + b"." * self.drawn.choice([0, 0, 10, 100, 2000])
        records = [batches.record(delta, b"k%d" % self.number, value, [], {}) for delta in range(count)]
        data = batches.batch(records, dict(zip(("producer", "epoch", "sequence"), producer)))
        log.sent.add(data[8:])
        return data, count

    def produce(self, log, data, count, acks=1):
        def take(values):
            _, code, base, _ = one_answer(values[0])
            same("the code of a Produce", code, 0)
            log.learn(base, data[8:], count)

        values = [None, acks, 1000, [[SHARED, [[log.index, data]]]]]
        self.ask(PRODUCE, values, take if acks else None, (log, data, count))

    def next_request(self):
        log = self.drawn.choice(self.world.logs)
        self.produce(log, *self.new_batch(log), self.drawn.choice([1, 1, 1, -1, 0]))

    def done_before(self, asked):
        super().done_before(asked)
        log, data, _ = asked.about
        log.must.add(data[8:])

    def check(self, _reader):
        """What wasn't answered and isn't there stays away."""
        for asked in self.waiting:
            log, data, _ = asked.about
            log.forget(data[8:])


class Idempotent(Producer):
    """Has a producer id, and sends its batches to one partition. What wasn't answered at a kill it sends again."""

    def __init__(self, number, world):
        super().__init__(number, world)
        self.log, self.id, self.sequence, self.again = world.logs[number % PARTITIONS], None, 0, []

    def step(self, can_read):
        self.depth = 1 if self.id is None else 5  # a broker tells five batches again
        super().step(can_read)

    def next_request(self):
        if self.id is None:
            self.ask(PRODUCER_ID, [None, 60_000], self.has_id)
        elif self.again:
            self.produce(*self.again.pop(0))
        else:
            data, count = self.new_batch(self.log, (self.id, 0, self.sequence))
            self.sequence += count
            self.produce(self.log, data, count)

    def has_id(self, values):
        self.id = self.world.new_id(values)

    def check(self, _reader):
        self.again = [it.about for it in self.waiting if it.about] + self.again


class Consumer(Asker):
    """Fetches from where it is, or from anywhere; it may wait for what comes."""

    def next_request(self):
        log = self.drawn.choice(self.world.logs)
        offset = self.drawn.choice([log.end, log.end, self.drawn.randrange(log.end + 1)])
        wait, most = self.drawn.choice([0, 5, 200]), self.drawn.choice([100, 10_000, 1 << 20])
        least = log.end
        asked = [-1, wait, 1, most, 0, [[SHARED, [[log.index, offset, most]]]]]
        self.ask(FETCH, asked, lambda values: self.fetched(values, log, offset, least))

    def fetched(self, values, log, offset, least):
        _, code, end, _, _, data = one_answer(values[1])
        same("the code of a Fetch", code, 0)
        holds(f"s:{log.index} ends at {end}, and not at {least}", end >= least)
        log.end = max(log.end, end)
        following = None
        for base, count, content in batches_in(data):
            holds(f"a Fetch from {offset} begins at {base}", following is not None or base <= offset < base + count)
            same("the next base offset that is fetched", base, base if following is None else following)
            log.learn(base, content, count)
            following = base + count


class Identified(Asker):
    """Asks for producer ids."""

    depth = 3

    def next_request(self):
        self.ask(PRODUCER_ID, [None, 60_000], self.world.new_id)


class Committer(Asker):
    """Commits offsets of a group of its own for two partitions at once, forgets it, and asks for what was committed."""

    depth = 3
    NOTHING = ((-1, b""), (-1, b""))

    def __init__(self, number, world):
        super().__init__(number, world)
        self.group, self.has, self.coming = b"group %d" % number, self.NOTHING, collections.deque()

    def next_request(self):
        draw = self.drawn.random()
        if draw < 0.6:
            text = b"m" * self.drawn.randrange(30)
            positions = tuple((next(self.numbers), text) for _ in range(PARTITIONS))
            entries = [[index, *it] for index, it in enumerate(positions)]
            self.coming.append(positions)
            self.ask(COMMIT, [self.group, -1, b"", -1, [[SHARED, entries]]], self.committed)
        elif draw < 0.7:
            self.coming.append(self.NOTHING)
            self.ask(FORGET, [self.group], self.forgotten)
        else:
            self.ask(OFFSETS, self.asked(), lambda values: same("what was committed", self.positions(values), self.has))

    def asked(self):
        return [self.group, [[SHARED, [[index] for index in range(PARTITIONS)]]]]

    def positions(self, values):
        ((_, answers),) = values[0]
        same("the codes of an OffsetFetch", [it[3] for it in answers], [0] * PARTITIONS)
        return tuple((it[1], it[2]) for it in answers)

    def committed(self, values):
        same("the response to a commit", values[0], [[SHARED, [[index, 0] for index in range(PARTITIONS)]]])
        self.has = self.coming.popleft()

    def forgotten(self, values):
        same("the response to a ForgetGroup", values, [0, 0 if self.has == self.NOTHING else PARTITIONS])
        self.has = self.coming.popleft()

    def check(self, reader):
        found, may_be = self.positions(reader.values(OFFSETS, self.asked())), [self.has, *self.coming]
        holds(f"{self.group} has committed {found}, and not one of {may_be}", found in may_be)
        self.has = found
        self.coming.clear()


class Owner(Asker):
    """Has some partitions to itself: produces to them, cleans and trims them, fetches from them, and imports copies into those that
    are empty yet. Each reply must be that of the plain model, which goes on as replies come."""

    depth = 3
    KEYS = [b"a", b"b", b"c", b"d", b"e", b"f"]

    def __init__(self, number, world):
        super().__init__(number, world)
        first = number % OWNERS * OWN
        self.node, self.own, self.opened = broker.Broker(True, [(OWNED, OF_OWNERS)]), range(first, first + OWN), 1
        self.sequence, self.again = {}, []

    def place(self):
        return self.own[self.drawn.randrange(self.opened)]

    def records(self, count):
        values = [self.drawn.choice([None, b"%d" % next(self.numbers), b"v" * 300]) for _ in range(count)]
        return [batches.record(delta, self.drawn.choice(self.KEYS), it, [], {}) for delta, it in enumerate(values)]

    def plain(self, place):
        data = batches.batch(self.records(self.drawn.randrange(1, 4)), {})
        return PRODUCE, [None, 1, 1000, [[OWNED, [[place, data]]]]]

    def idempotent(self, place):
        count, sequence = self.drawn.randrange(1, 3), self.sequence.get(place, 0)
        self.sequence[place] = sequence + count
        fields = {"producer": 10**9 + self.number, "epoch": 0, "sequence": sequence}
        return PRODUCE, [None, 1, 1000, [[OWNED, [[place, batches.batch(self.records(count), fields)]]]]]

    def clean(self, place):
        end = self.node.copy(OWNED, place).end()
        return CLEAN, [OWNED, place, self.drawn.randrange(end + 3), self.drawn.randrange(end + 3)]

    def trim(self, place):
        return TRIM, [OWNED, place, self.drawn.choice(sorted(self.node.copy(OWNED, place).boundaries()))]

    def fetch(self, place):
        offset = self.drawn.randrange(self.node.copy(OWNED, place).end() + 1)
        return FETCH, [-1, 0, 1, 1 << 16, 0, [[OWNED, [[place, offset, 1 << 16]]]]]

    def import_(self, place):
        if self.opened < OWN:
            place, self.opened = self.own[self.opened], self.opened + 1
        held = [batches.batch(self.records(2), {"base": base}) for base in range(0, 2 * self.drawn.randrange(6), 2)]
        return IMPORT, [OWNED, place, copies.image([(0, 2 * len(held))], held, {})]

    DRAWS = [plain, plain, plain, plain, plain, idempotent, idempotent, idempotent, fetch, clean, trim, import_]

    def next_request(self):
        correlation = next(self.numbers)
        if self.again:
            kind, frame, is_sent_again = *self.again.pop(0), True
            frame = frame[:8] + struct.pack(">i", correlation) + frame[12:]
        else:
            draw = self.drawn.choice(self.DRAWS)
            kind, values = draw(self, self.place())
            frame, is_sent_again = framed(kind, correlation, values), draw == Owner.idempotent
        self.send(correlation, kind, frame, True, is_sent_again)

    def take(self, asked, response):
        wanted = self.node.reply(asked.frame[4:])
        same(f"the reply to {asked.kind} of connection {self.number}", wire.framed(response), wanted)

    def is_here(self, images):
        return all(images[index] == self.node.copy(OWNED, index).image() for index in self.own)

    def check(self, reader):
        """The partitions must be as the model has them behind what was answered, or some of the requests behind it."""
        images = {index: reader.values(EXPORT, [OWNED, index])[1] for index in self.own}
        left = [it for it in self.waiting if it.kind != FETCH]
        while not self.is_here(images):
            holds(f"connection {self.number}'s partitions are behind no front of what it asked", bool(left))
            self.node.reply(left.pop(0).frame[4:])
        self.again = [(it.kind, it.frame) for it in self.waiting if it.about] + self.again
        self.sequence = {index: self.following(index) for index in self.own}

    def following(self, index):
        """The sequence number behind the last batch of its producer."""
        own = [it for it in self.node.copy(OWNED, index).batches() if it.producer == 10**9 + self.number]
        return own[-1].sequence + own[-1].last + 1 if own else 0


# ---- the reader


class Reader:
    """A client that only reads."""

    def __init__(self, started):
        self.client = started.client()

    def values(self, kind, values):
        """The values of the response to a request."""
        self.client.send(framed(kind, 5, values))
        size = struct.unpack(">i", self.client.receive(4))[0]
        return wire.read(["i", *wire.REQUESTS[kind][1]], self.client.receive(size), 0)[0][1:]

    def all_of(self, index):
        """The bytes of a shared partition, and its end."""
        data, offset, end = b"", 0, None
        while end is None or offset < end:
            asked = [-1, 0, 1, WHOLE, 0, [[SHARED, [[index, offset, WHOLE]]]]]
            _, code, end, _, _, piece = one_answer(self.values(FETCH, asked)[1])
            same("the code of a Fetch", code, 0)
            holds(f"a Fetch of s:{index} from {offset} of {end} gives nothing", bool(piece) or end == offset)
            data += piece
            offset = max([offset, *(base + count for base, count, _ in batches_in(piece))])
        return data, end


# ---- a directory, and the lives of its broker


class World:
    """What is known of one directory's broker, over all of its lives."""

    kinds = [Producer] * 4 + [Idempotent] * 3 + [Consumer] * 2 + [Identified] + [Committer] * 2 + [Owner] * OWNERS  # of connections
    broker, options, topics, lives = Kept, (), TOPICS, ([0.002, 0.02, LONGEST_LIFE], LONGEST_WAIT)
    most_answers = MOST_ANSWERS
    reading = (FETCH, OFFSETS)  # kinds of requests that leave nothing in the journal

    def __init__(self, program, folder, sync, seed, directory, after=None, may_be_full=False):
        self.may_be_full, self.ends = may_be_full, 0  # the ends for which there was no room
        self.program, self.folder, self.sync, self.seed, self.directory = program, folder, sync, f"{seed} {directory}", directory
        self.after, self.snapshot = after, 1
        self.drawn, self.logs, self.ids = random.Random(self.seed), [Log(index) for index in range(PARTITIONS)], set()
        self.least = self.most = self.answered = 0  # frames in the journal; responses
        self.is_new, self.began, self.kills, self.behind = True, None, 0, 0
        self.askers = [kind(number, self) for number, kind in enumerate(self.kinds)]

    def count_sent(self, kind):
        self.most += kind not in self.reading

    def count_answered(self, kind):
        self.least += kind not in self.reading
        self.answered += 1

    def new_id(self, values):
        """The producer id of a response, which nobody may have got before."""
        _, code, number, epoch = values
        same("the code and the epoch of InitProducerId", (code, epoch), (0, 0))
        holds(f"the producer id {number} is given twice", number not in self.ids)
        self.ids.add(number)
        return number

    def check_line(self, line):
        """What a start says: how many frames there were, and that it has cut what was written behind them."""
        if line == new(self.folder):
            holds("a directory with acknowledged requests is new", self.is_new)
            self.most = 0
            return
        snapshot, count = found(line)
        if snapshot == 1:
            holds(f"{count} frames, and not {self.least} to {self.most}", self.least <= count <= self.most)
            self.least = self.most = count
        holds(f"snapshot {snapshot} behind {self.snapshot}", self.snapshot <= snapshot <= (snapshot if self.after else 1))
        self.snapshot = snapshot
        words = line.split()
        cut = int(words[words.index("cut") + 1]) if "cut" in words else 0
        holds(f"{cut} bytes cut, of {self.behind} that were written behind", cut >= self.behind)

    def check(self, started):
        self.check_line(started.said())
        self.behind = 0
        reader = Reader(started)
        self.check_logs(reader)
        for it in self.askers:
            it.check(reader)
        reader.client.close()

    def check_logs(self, reader):
        """The shared partitions."""
        for log in self.logs:
            log.check(*reader.all_of(log.index))

    def kept(self, *arguments):
        """Its broker, which may take snapshots while it runs."""
        after = ["--snapshot-after", str(self.after)] if self.after else []
        return self.broker(self.program, self.folder, *after, *self.options, *arguments, sync=self.sync, topics=self.topics)

    def is_full(self, status, lines):
        """Whether it ended since there was no room, which it may on a small disk."""
        is_so = self.may_be_full and status == FAILED and bool(lines) and NO_ROOM.fullmatch(lines[-1]) is not None
        self.ends += is_so
        return is_so

    def live(self):
        """Starts it, looks at what there is, lets all ask, and kills it."""
        try:
            self.live_on()
        except Ended as ended:
            if not self.is_full(ended.status, ended.lines):
                raise
        self.kills += 1

    def live_on(self):
        with self.kept() as started:
            self.check(started)
            self.is_new = False
            for it in self.askers:
                it.begin(started)
            by_clock, (lives, longest) = self.drawn.random() < 0.5, self.lives
            life = self.drawn.choice(lives) * self.drawn.random() if by_clock else longest
            killer = threading.Timer(life, started.process.kill)
            started.is_over = True
            killer.start()
            self.drive(started, float("inf") if by_clock else self.answered + self.drawn.randrange(self.most_answers))
            killer.cancel()
            killer.join()
            for it in self.askers:
                it.client.close()
            status = started.process.wait(SECONDS)
            if status != -9:
                started.reader.join()
                holds(f"it ended with status {status}: {started.lines[-3:]}", self.is_full(status, started.lines))

    def drive(self, started, most):
        """Lets all ask until it is gone, or until there were so many responses, and kills it then."""
        late = time.monotonic() + SECONDS
        while left := [it for it in self.askers if not it.is_over]:
            holds(f"connections {[it.number for it in left]} don't end", time.monotonic() < late)
            sockets = {it.client.socket.fileno(): it for it in left}
            ready = select.select([*sockets], [], [], 0.002)[0]
            for number, it in sockets.items():
                it.step(number in ready)
            if self.answered >= most:
                started.process.kill()

    def end_early(self):
        """Starts it, and kills it before it listens, or about then; or while it takes a snapshot and no more."""
        is_folded = bool(self.after) and not self.is_new and self.drawn.random() < 0.5
        started = self.kept(*(["--fold"] if is_folded else []))
        killer = threading.Timer(self.drawn.random() * (0.1 if is_folded else 0.02), lambda: started.process.kill())
        with contextlib.suppress(Fault), started:
            started.is_over = True
            killer.start()
            killer.join()
        self.kills += 1
        self.behind = 0  # (it may have cut what stood there)

    def spoil(self):
        """Now and then other bytes come to stand behind the journal, as a write leaves them that was torn; not behind one without
        a head, which a kill left as it was being made: nothing is written there."""
        numbers = [int(it[8:]) for it in os.listdir(self.folder) if it.startswith("journal.")]
        path = f"{self.folder}/journal.{max(numbers, default=1)}"
        if self.is_new or self.drawn.random() < 0.6 or os.path.getsize(path) < kept_files.HEAD_SIZE:
            return
        if self.may_be_full and left_of(self.folder) < 100_000:
            return
        with open(path, "r+b") as file:
            old = file.read(300)
            file.seek(0, os.SEEK_END)
            self.behind += file.write(self.drawn.choice([bytes(700), self.drawn.randbytes(100), old, b"\0"]))

    def said(self):
        """What else is to be told of all directories."""
        return ""

    def run(self, lives):
        for _ in range(lives):
            if self.drawn.random() < 0.15:
                self.end_early()
            self.live()
            self.spoil()
        with contextlib.suppress(FileNotFoundError):
            os.remove(f"{os.path.dirname(self.folder)}/filler")  # (that there be room for the last start)
        with self.kept() as started:
            self.check(started)


@contextlib.contextmanager
def folder_of(seed, directory, there):
    """A directory's path; on a small disk it has room for some hundred kB, by the luck of the draw."""
    with new_folder(there) as folder:
        if there is not None and is_small(there):
            fill(os.path.dirname(folder), random.Random(f"{seed} {directory} room").randrange(*ROOM))
        yield folder


def run(program, kills, seed, seconds, after=None, there=None, world_of=World):
    """Kills it so often, or for so long, in directories with the ways of syncing by turns, and says what came of it. The directories stand
    in the folder `there`, if one is given, which may be a small disk."""
    late, done, answered, ids, rotations, full = time.monotonic() + seconds, 0, collections.Counter(), 0, 0, 0
    for directory in itertools.count():
        if done >= kills or time.monotonic() > late:
            break
        with folder_of(seed, directory, there) as folder:
            world = world_of(program, folder, WAYS[directory % len(WAYS)], seed, directory, after, there is not None)
            try:
                world.run(min(KILLS_OF_ONE, kills - done))
            except Fault as why:
                raise Fault(f"directory {directory}, --sync {world.sync}, kill {world.kills}, seed {seed}: {why}") from None
            done, ids, rotations = done + world.kills, ids + len(world.ids), rotations + world.snapshot - 1
            answered[world.sync] += world.answered
            full += world.ends
    of_each = ", ".join(f"{count} with {sync}" for sync, count in answered.items())
    without_room = f"; {full} ends without room" if there is not None else ""
    ids_and_more = f"{ids} producer ids{world.said()}{without_room}"
    return f"{done} kills of {directory} directories; answered: {of_each}; {ids_and_more}; {rotations} snapshots"


@slow(RANDOM)
def random_kills(program):
    """As often as in the gate; each way of syncing must have answered some thousands."""
    run(program, KILLS, SEED, IN_THE_GATE)


@slow(RANDOM)
def rotating_kills(program):
    """The same while snapshots are taken often, and with kills of starts that take one and end."""
    said = run(program, KILLS // 2, SEED + 1, IN_THE_GATE, AFTER)
    holds(f"no snapshot was taken: {said}", not said.endswith("; 0 snapshots"))


CASES = [("kills at random moments", random_kills), ("kills at random moments, with snapshots", rotating_kills)]
