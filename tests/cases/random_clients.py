"""Random frames in random pieces on 40 connections of `kbroker start` at once.

In the first run each connection works on a partition and for groups of its own, so what it must get doesn't depend on what the
others do: the plain model of tests/models/broker.py says it, a model for each connection. Some end by a refused frame, of which some
send more behind it, some within a frame, some by a reset, some read late; some Fetches wait for many partitions. Beside them are
clients that end since they say nothing, or send large parts of frames. In the second run all share partitions: what they get must
agree with one order of all requests, which base offsets, producer ids and the logs at the end show.
"""
import contextlib
import functools
import random
import select
import struct
import threading
import time

from cases.many_clients import REFUSED
from cases.started import RANDOM, SECONDS, Fault, Started, holds, same, slow
from encoders import batches
from generated.exchanges import batch_of, damaged, rarely, sender_of
from generated.scripts import KEYS, Numbers
from models import broker, wire

COUNT = 40
TOPIC = b"t"
QUIET, QUIET_COUNT = b"w", 64  # a topic to which nothing is produced, and its partitions
SHARED = [(b"u", 0), (b"u", 1)]
PRODUCE, FETCH, LISTOFFSETS, METADATA, COMMIT, OFFSETS = (0, 3), (1, 4), (2, 1), (3, 1), (8, 2), (9, 1)
COORDINATOR, VERSIONS, PRODUCER_ID = (10, 0), (wire.API_VERSIONS, 0), (22, 0)
CLEAN, CLEAN_PART, EXPORT, EXPORT_DELTA, GET, COVER = (20001, 0), (20001, 1), (20002, 0), (20002, 1), (20004, 0), (20005, 0)
FORGET, TRIM = (20006, 0), (20007, 0)
BOUNDS = {CLEAN: 2, CLEAN_PART: 4, TRIM: 1}  # how many offsets such a request has
# each as often as it is drawn
OFTEN = {PRODUCE: 6, FETCH: 4, COMMIT: 3, OFFSETS: 2, CLEAN: 1, CLEAN_PART: 2, EXPORT: 1, EXPORT_DELTA: 1, GET: 2, COVER: 1, TRIM: 1}
OFTEN |= {FORGET: 1, LISTOFFSETS: 2, METADATA: 1, COORDINATOR: 1, VERSIONS: 1, PRODUCER_ID: 1}
DRAWN = [kind for kind, often in OFTEN.items() for _ in range(often)]
LIMITS = [0, 69, 150, 400, 1 << 20, -1]
LARGE_VALUE, LARGEST_VALUE = 20_000, 300_000  # bytes of a value
LARGEST = 6_000_000  # bytes of replies to a client that reads late, which are more than the system takes


# ---- frames


def framed(kind, correlation, values, client=None):
    """A request with its size in front."""
    fields = ["h", "h", "i", "S", *wire.REQUESTS[kind][0]]
    return wire.framed(wire.written(fields, [*kind, correlation, client, *values]))


class Draws:
    """Requests of one connection, about partition `index` and groups of its own, and now and then about what is unknown."""

    def __init__(self, index):
        self.numbers, self.index = Numbers(index + 1), index
        self.node = broker.Broker(True, [(TOPIC, COUNT), (QUIET, QUIET_COUNT)])
        self.groups = [b"%d" % index, b"%d and more" % index, b""]

    def place(self):
        known = (TOPIC, self.index)
        return rarely(self.numbers, known, self.numbers.one_of([(b"v", self.index), (TOPIC, -1), (TOPIC, COUNT), (b"", 0)]))

    def copy(self):
        return self.node.copy(TOPIC, self.index)

    def offset(self):
        return self.numbers.below(self.copy().end() + 4) - 1

    def topics(self, entry):
        """One to three entries."""
        made = []
        for _ in range(1 + self.numbers.below(3)):
            name, index = self.place()
            made.append([name, [[index, *entry()]]])
        return made

    def batch(self):
        numbers = self.numbers
        sender = sender_of(numbers, self.copy(), 0)
        if numbers.below(8) == 0:
            record = batches.record(0, numbers.one_of(KEYS), bytes([65 + numbers.below(26)]) * LARGE_VALUE, [], {})
            return batches.batch([record], {})
        return damaged(numbers, batch_of(numbers, numbers.below(9), sender))

    def frame(self):
        """A request with its size in front."""
        numbers = self.numbers
        kind = numbers.one_of(DRAWN)
        client = numbers.one_of([None, b"", b"me"])
        return framed(kind, numbers.below(2**15), self.values(kind), client)

    def large_frames(self):
        """A large batch, and Fetches of it whose replies are more than the system takes of what nobody reads."""
        record = batches.record(0, b"large", bytes(LARGEST_VALUE), [], {})
        data = batches.batch([record], {})
        fetched = [-1, 500, 1, 1 << 20, 0, [[TOPIC, [[self.index, self.copy().end(), 1 << 20]]]]]
        produced = framed(PRODUCE, 1, [None, 1, 1000, [[TOPIC, [[self.index, data]]]]])
        return [produced] + [framed(FETCH, it, fetched) for it in range(LARGEST // LARGEST_VALUE)]

    def values(self, kind):
        numbers, (name, index) = self.numbers, self.place()
        group = numbers.one_of(self.groups)
        if kind == PRODUCE:
            acks = numbers.one_of([1, 1, 1, -1, 0, rarely(numbers, 1, 2)])
            return [rarely(numbers, None, b"x"), acks, 1000, self.topics(lambda: [self.batch()])]
        if kind == FETCH:
            entries = self.topics(lambda: [self.offset(), numbers.one_of(LIMITS)])
            if numbers.below(4) == 0:
                entries.append([QUIET, [[it, 0, 1 << 20] for it in range(QUIET_COUNT)]])
            return [-1, numbers.one_of([0, 0, 1, 10]), numbers.one_of([1, 1, 0, 300]), numbers.one_of(LIMITS), 0, entries]
        if kind == LISTOFFSETS:
            return [-1, self.topics(lambda: [numbers.one_of([-1, -2, -3, 0, 10, 20])])]
        if kind == METADATA:
            return [numbers.one_of([None, [], [[TOPIC]], [[b"v"], [TOPIC], [b"a b"]]])]
        if kind == COMMIT:
            entries = self.topics(lambda: [numbers.below(50) - 1, numbers.one_of([None, b"", b"m", bytes(4_097)])])
            return [group, rarely(numbers, -1, 5), b"", -1, entries]
        if kind == OFFSETS:
            return [group, self.topics(list)]
        if kind in (COORDINATOR, FORGET):
            return [group]
        if kind == VERSIONS:
            return []
        if kind == PRODUCER_ID:
            return [b"x", 60_000]  # which is refused, and gives out no id
        if kind in BOUNDS:
            return [name, index, *(self.offset() for _ in range(BOUNDS[kind]))]
        if kind == EXPORT_DELTA:
            return [name, index, numbers.one_of([[], [[0, 1]], [[1, 0]]])]
        return [name, index] + [numbers.one_of(KEYS)] * (kind == GET)


# ---- talks


class Talk:
    """What one connection sends, in pieces, what it must get, how it ends, and how it reads."""

    def __init__(self, number, sent, wanted, why, ends, refused=0):
        """`refused` bytes of what it sends are a refused frame and what stands behind that."""
        self.number, self.sent, self.wanted, self.why, self.ends = number, sent, wanted, why, ends
        self.whole = len(sent) - refused  # where the last frame ends that is answered
        self.began, self.late = None, 0.0  # when the first byte behind that was sent, and how long after that it sent another
        self.drawn, self.at, self.got, self.is_over = random.Random(number), 0, bytearray(), False
        self.is_slow = number % 5 == 4
        self.rests_until = 0.0

    def begin(self, program):
        self.client = program.client(room=4096 if self.is_slow else None)
        self.client.socket.setblocking(False)

    def is_sent(self):
        return self.at == len(self.sent)

    def send(self):
        """Sends the next piece, and ends what is sent behind the last one."""
        size = self.drawn.choice([1, 2, 3, 5, 20, 100, 1000, 5000, 70_000, 70_000])
        if self.began is None and self.at + size > self.whole:
            self.began = time.monotonic()
        with contextlib.suppress(BlockingIOError):
            self.at += self.client.socket.send(self.sent[self.at : self.at + size])
        if self.began is not None:
            self.late = time.monotonic() - self.began
        if self.drawn.random() < 0.05:
            self.rests_until = time.monotonic() + self.drawn.random() * 0.03
        if self.is_sent() and self.ends == "stop":
            self.client.stop()
        if self.is_sent() and self.ends == "reset":
            self.client.reset()
            self.is_over = True

    def receive(self):
        size = self.drawn.choice([1, 100, 3000, 20_000] if self.is_slow else [10, 1000, 1 << 20, 1 << 20])
        with contextlib.suppress(BlockingIOError):
            piece = self.client.socket.recv(size)
            self.got += piece
            self.is_over = not piece

    def step(self, readable, writable):
        try:
            if writable and not self.is_sent():
                self.send()
            if readable and not self.is_over:
                self.receive()
        except (ConnectionResetError, BrokenPipeError):
            # it was refused while it sent: what came before that is still there
            self.client.socket.settimeout(SECONDS)
            with contextlib.suppress(OSError):
                self.got += self.client.rest()
            self.is_over = True

    def check(self):
        """All that is owed must have come, unless it reset the connection, or was so slow to send a refused frame and what stands behind
        it that the broker may have closed the connection before."""
        got, name = bytes(self.got), f"connection {self.number}, which ends by {self.ends}"
        if self.ends == "reset" or (self.ends == "a refused frame" and self.late >= 2):
            holds(f"{name}: {len(got)} bytes came that aren't owed", self.wanted.startswith(got))
            return
        if got != self.wanted:
            common = next((at for at, (one, other) in enumerate(zip(got, self.wanted)) if one != other), None)
            raise Fault(f"{name}: {len(got)} bytes, not {len(self.wanted)}; the first other byte is {common}")


def drive(talks):
    """Lets all clients go on in pieces until each has come to its end."""
    late = time.monotonic() + 3 * SECONDS
    while left := [it for it in talks if not it.is_over]:
        holds(f"connections {[it.number for it in left]} don't come to an end", time.monotonic() < late)
        now = time.monotonic()
        ready = [it for it in left if it.rests_until <= now]
        sockets = {it.client.socket.fileno(): it for it in ready}
        sending = [fd for fd, it in sockets.items() if not it.is_sent()]
        can_read, can_write, _ = select.select([*sockets], sending, [], 0.01)
        for fd, it in sockets.items():
            it.step(fd in can_read, fd in can_write)


# ---- each on a partition of its own

REQUESTS = 60
BEHIND = 60_000  # bytes that stand behind a refused frame, once or twice


@functools.cache
def parts_of(number):
    """The random talk of a connection: its frames, and at its end a refused frame, a part of a frame, a reset or nothing. Gives
    what it sends, what must come for it, why it ends, how the client ends it, and how many bytes a refused frame and what
    stands behind it have, if there is one."""
    draws = Draws(number)
    frames = [draws.frame() for _ in range(REQUESTS - number % 7)]
    if number % 10 == 4:
        frames += draws.large_frames()
    wanted = b"".join(draws.node.reply(it[4:]) for it in frames)
    sent, count = b"".join(frames), len(frames)
    way = number % 4
    if way == 0:
        why, data = REFUSED[number // 4 % len(REFUSED)]
        more = bytes(number % 3 * BEHIND)
        return sent + data + more, wanted, f"frame {count}: {why}", "a refused frame", len(data + more)
    if way == 1:
        part = draws.frame()
        cut = 1 + draws.numbers.below(len(part) - 1)
        return sent + part[:cut], wanted, f"end within frame {count}", "stop"
    if number % 8 == 2:
        return sent, wanted, "* failed: *", "reset"
    return sent, wanted, "end", "stop"


IDLE = 6  # seconds
MOST_HELD = 24_000_000  # bytes; the talks hold and are owed less than half of that
HOARDERS, HOARD = 6, 6_000_000  # clients of another address, and the bytes of a frame that each sends and doesn't go on with


def hoard(clients, over):
    """Each sends a large part of a frame, or as much of it as is taken. Notes when that is over."""
    for it in clients:
        with contextlib.suppress(ConnectionError):
            it.send(struct.pack(">i", HOARD + 1) + bytes(HOARD))
    over.append(time.monotonic())


@slow(RANDOM)
def own_partitions(program):
    """Beside the talks are a client that says nothing behind a part of a frame, and some that hold too much together."""
    talks = [Talk(number, *parts_of(number)) for number in range(COUNT)]
    arguments = ["--advertise", f"{broker.HOST.decode()}:{broker.PORT}", "--idle", str(IDLE), "--most-held", str(MOST_HELD)]
    with Started(program, *arguments, topics=[f"t:{COUNT}", f"{QUIET.decode()}:{QUIET_COUNT}"]) as started:
        for it in talks:
            it.begin(started)
        began, over = time.monotonic(), []
        silent, hoarders = started.client(), started.clients(HOARDERS, host="127.0.0.2")
        silent.send(framed(VERSIONS, 1, [])[:-1])
        hoarding = threading.Thread(target=hoard, args=[hoarders, over])
        hoarding.start()
        drive(talks)
        hoarding.join()
        for it in talks:
            it.check()
        for it in talks:
            started.tells(it.number, it.client, it.why)
        started.tells(COUNT, silent, f"idle for {IDLE} s")
        ends = started.ends(COUNT + 1 + HOARDERS).told
        whys = [why for number, _, why in ends if number > COUNT]
        most = whys.count("most held")
        least = 2 if over[0] < began + IDLE / 2 else 0  # (else the first may be idle before the last has sent all)
        holds(f"ends of those that hold much: {whys}", least <= most < HOARDERS and whys.count(f"idle for {IDLE} s") == HOARDERS - most)
        for it in [silent, *hoarders, *(it.client for it in talks)]:
            it.close()


# ---- all on shared partitions


class Sharing:
    """A client of the shared run: it asks one request after the other, and keeps what it learns."""

    def __init__(self, number, program):
        self.number, self.client, self.drawn = number, program.client(), random.Random(1000 + number)
        self.bases = {it: [] for it in SHARED}  # the base offset and the batch of each Produce that was answered
        self.logs = {it: 0 for it in SHARED}  # the least length that the log must have
        self.fetched, self.ids, self.committed, self.left = [], [], None, 24
        self.waits = None

    def next_request(self):
        """Sends the next request, and keeps what takes its response."""
        self.left -= 1
        place = self.drawn.choice(SHARED)
        draw = self.drawn.random()
        if draw < 0.6:
            records = [
                batches.record(delta, b"%d" % self.number, b"%d %d" % (self.left, delta), [], {})
                for delta in range(self.drawn.randrange(1, 4))
            ]
            data = batches.batch(records, {})
            self.ask(PRODUCE, [None, self.drawn.choice([1, -1]), 1000, [[place[0], [[place[1], data]]]]])
            self.waits = (self.produced, place, data, len(records))
        elif draw < 0.85:
            self.ask(FETCH, [-1, 500, 1, 1 << 22, 0, [[place[0], [[place[1], 0, 1 << 22]]]]])
            self.waits = (self.has_fetched, place)
        elif draw < 0.95:
            self.ask(PRODUCER_ID, [None, 60_000])
            self.waits = (self.has_id,)
        else:
            self.ask(COMMIT, [b"g", -1, b"", -1, [[b"u", [[0, self.number * 1000 + self.left, None]]]]])
            self.waits = (self.has_committed, self.number * 1000 + self.left)

    def ask(self, kind, values):
        self.kind, self.correlation = kind, self.number * 1000 + self.left
        data, at = framed(kind, self.correlation, values), 0
        while at < len(data):
            size = self.drawn.choice([7, 50, 1 << 16])
            self.client.send(data[at : at + size])
            at += size

    def take_response(self):
        size = struct.unpack(">i", self.client.receive(4))[0]
        data = self.client.receive(size)
        fields = wire.REQUESTS[self.kind][1]
        (correlation, *values), end = wire.read(["i", *fields], data, 0)
        same("a response's correlation id and end", (correlation, end), (self.correlation, len(data)))
        self.waits[0](values, *self.waits[1:])

    def produced(self, values, place, data, count):
        (_, ((_, code, base, _),)) = values[0][0]
        same("the code of a Produce", code, 0)
        holds(f"a base offset {base} below {self.logs[place]}", base >= self.logs[place])
        self.logs[place] = base + count
        self.bases[place].append((base, data, count))

    def has_fetched(self, values, place):
        (_, ((_, code, end, _, _, data),)) = values[1][0]
        same("the code of a Fetch", code, 0)
        holds(f"a log of {end} offsets behind one of {self.logs[place]}", end >= self.logs[place])
        self.logs[place] = end
        self.fetched.append((place, end, data))

    def has_id(self, values):
        same("the code of InitProducerId", values[1], 0)
        self.ids.append(values[2])

    def has_committed(self, values, offset):
        same("the response to a commit", values, [[[b"u", [[0, 0]]]]])
        self.committed = offset


def log_of(place, clients):
    """The batches of a partition in the order of their offsets, of which none may be missing or there twice."""
    known = sorted((it for client in clients for it in client.bases[place]), key=lambda it: it[0])
    log, end = b"", 0
    ends = {0: 0}  # of each offset between two batches how many bytes stand before it
    for base, data, count in known:
        same(f"the next base offset of {place}", base, end)
        log, end = log + struct.pack(">q", base) + data[8:], end + count
        ends[end] = len(log)
    return log, ends


@slow(RANDOM)
def shared_partitions(program):
    """All produce to two partitions: their base offsets are those of one log each, rising for each client; what any of them
    fetches is a front of it that holds what it knew of. Producer ids are given out once each, and the offset that is committed at
    last is the last one of some client."""
    with Started(program, topics=["u:2"]) as started:
        clients = [Sharing(number, started) for number in range(COUNT)]
        drawn = random.Random(7)
        while busy := [it for it in clients if it.left]:
            asking = drawn.sample(busy, len(busy))
            for it in asking:
                it.next_request()
            for it in drawn.sample(asking, len(asking)):
                it.take_response()
        for place in SHARED:
            log, ends = log_of(place, clients)
            for client in clients:
                for _, end, data in (it for it in client.fetched if it[0] == place):
                    holds(f"a log of {end} offsets in {place}", end in ends)
                    same(f"what client {client.number} fetched of {place}", data, log[: ends[end]])
            last = Sharing(COUNT, started)
            last.ask(FETCH, [-1, 500, 1, 1 << 22, 0, [[place[0], [[place[1], 0, 1 << 22]]]]])
            last.waits = (last.has_fetched, place)
            last.take_response()
            same(f"the log of {place} at the end", last.fetched, [(place, max(ends), log)])
        ids = [it for client in clients for it in client.ids]
        same("the producer ids that were given out", sorted(ids), [*range(len(ids))])
        holds("ids that don't rise", all(client.ids == sorted(client.ids) for client in clients))
        last.ask(OFFSETS, [b"g", [[b"u", [[0]]]]])
        last.waits = (lambda values: last.ids.append(values),)
        last.take_response()
        (_, ((_, offset, _, code),)) = last.ids[-1][0][0]
        committed = {it.committed for it in clients if it.committed is not None}
        holds(f"the offset that is committed is {offset}, code {code}", code == 0 and offset in committed)


CASES = [
    ("40 connections with random frames in random pieces", own_partitions),
    ("40 connections that share partitions", shared_partitions),
]
