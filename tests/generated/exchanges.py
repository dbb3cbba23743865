"""Generated sessions of `kbroker session`: a leader's, and those of two followers, which get its batches and images, and of
which one brings the other up to date by deltas.

The replies that must come are those of tests/models/broker.py.
"""
import struct

from encoders import batches
from generated.scripts import KEYS, NOBODY, Numbers, VALUES
from models import broker, logs, wire

TOPICS = [(b"t", 2), (b"u", 1)]
NAMES = [b"t", b"t", b"t", b"u", broker.GROUP_TOPIC]
GROUPS = [b"g", b"g", b"gg", b"h t", b"\xff", b""]
METADATA = [None, b"", b"m", b"read \x00", bytes(4_096), bytes(4_097)]
TIMES = [0, 0, 10, 20, -5]
FIRST_PRODUCERS = [0, 0, 0, 1_000, broker.LAST_PRODUCER - 3, broker.LAST_PRODUCER]
VERSIONS = (wire.API_VERSIONS, 0)
PLACES = [(name, index) for name, count in [*TOPICS, (broker.GROUP_TOPIC, 1)] for index in range(count)]


def rarely(numbers, value, other):
    return other if numbers.below(12) == 0 else value


def place(numbers):
    """A partition; now and then one that is unknown."""
    name = rarely(numbers, numbers.one_of(NAMES), numbers.one_of([b"v", b""]))
    return name, rarely(numbers, numbers.below(2 if name == b"t" else 1), numbers.one_of([-1, 1, 2]))


def sender_of(numbers, copy, first_producer):
    """One of the first producers, with an epoch and a sequence number that are right, or sent again, or wrong."""
    producer = min(first_producer + numbers.below(3), broker.LAST_PRODUCER)
    newest = logs.window(copy.batches(), producer)
    if numbers.below(3) == 0:
        return NOBODY
    if not newest or numbers.below(8) == 0:
        return producer, numbers.below(3), numbers.one_of([0, 0, 7, logs.SEQUENCES - 1])
    epoch, sequence = newest[-1].epoch, (newest[-1].sequence + newest[-1].last + 1) % logs.SEQUENCES
    return numbers.one_of(
        [
            (producer, epoch, sequence),
            (producer, epoch, sequence),
            (producer, epoch, numbers.one_of(newest).sequence),
            (producer, epoch, (sequence + 1) % logs.SEQUENCES),
            (producer, epoch + 1, numbers.below(2)),
            (rarely(numbers, -1, -2), epoch, rarely(numbers, sequence, -1)),
        ]
    )


def batch_of(numbers, base, sender, keys=KEYS):
    """A batch as bytes; now and then one with a gap or a null key."""
    made, delta = [], 0
    for _ in range(1 + numbers.below(4)):
        key = rarely(numbers, numbers.one_of(keys), numbers.one_of([b"k", None]))
        headers = [(b"h", numbers.one_of(VALUES))] * (numbers.below(4) == 0)
        made.append(batches.record(delta, key, numbers.one_of(VALUES), headers, {"time": numbers.one_of(TIMES)}))
        delta += 1 if numbers.below(40) else 2
    producer, epoch, sequence = sender
    head = {"base": base, "time": numbers.one_of(TIMES), "maxtime": numbers.below(30), "last": delta - 1}
    head |= {"leader": rarely(numbers, 0, 5), "attributes": rarely(numbers, 0, 1 << numbers.below(9))}
    return batches.batch(made, {**head, "producer": producer, "epoch": epoch, "sequence": sequence})


def damaged(numbers, data):
    """Bytes; now and then with one that is another, cut, or with more behind them."""
    if numbers.below(10) or not data:
        return data
    at = numbers.below(len(data))
    return numbers.one_of([data[:at], data[:at] + bytes([data[at] ^ 1 << numbers.below(8)]) + data[at + 1 :], data + b"\0"])


class Exchange:
    """Brokers, the first of which leads, what was sent to each and what it must answer, and the batches, images and deltas that
    have left them."""

    groups, metadata_texts = GROUPS, METADATA  # of which each commit has one
    limits = [0, 69, 70, 150, 400, 1 << 20, -1]  # of which each Fetch, and each of its entries, has one
    keys = KEYS

    roles = (True, False, False)

    def __init__(self, start, first_producer=0):
        self.numbers, self.first_producer = Numbers(start), first_producer
        self.sides = [(broker.Broker(leads, TOPICS, first_producer), [], []) for leads in self.roles]
        self.batches = {it: [] for it in PLACES}
        self.images = {it: [] for it in PLACES}
        self.deltas = {it: [] for it in PLACES}

    def send(self, side, kind, values):
        client = self.numbers.one_of([None, b"", b"me"])
        head = [*kind, self.numbers.below(2**15), client]
        self.ask(side, wire.written(["h", "h", "i", "S", *wire.REQUESTS[kind][0]], [*head, *values]))

    def ask(self, side, frame):
        node, given, wanted = side
        given.append(wire.framed(frame))
        wanted.append(node.reply(frame))
        if node.leads:
            self.note(node)

    def note(self, leader):
        """Keeps the batches that the leader has appended."""
        for name, index in PLACES:
            known = self.batches[name, index]
            behind = known[-1].base if known else -1
            known += [it for it in leader.topics[name][index].batches() if it.base > behind]

    def topics(self, entry, most=3):
        """Topics of one to so many entries, each a partition and what `entry` says of it."""
        found = []
        for _ in range(1 + self.numbers.below(most)):
            name, index = place(self.numbers)
            if not found or found[-1][0] != name:
                found.append([name, []])
            found[-1][1].append([index, *entry(name, index)])
        return found

    def step(self, side):
        kind = self.numbers.one_of(self.kinds(side[0].leads))
        if kind == VERSIONS and self.numbers.below(3):
            self.ask(side, self.other_versions())
        else:
            self.send(side, kind, self.drawn_values(kind, side[0]))

    def kinds(self, leads):
        return KINDS[leads]

    def drawn_values(self, kind, node):
        return DRAWS[kind](self, node)

    def other_versions(self):
        """An ApiVersions request of another version, with nothing that is read behind its correlation id."""
        version = self.numbers.one_of([1, 2, 3, 4, -1, 2**15 - 1, -(2**15)])
        behind = self.numbers.one_of([b"", b"\xff\xff", b"\xff\xfe", b"\0\2me\0\5kcat\0", bytes(99)])
        return struct.pack(">hhi", wire.API_VERSIONS, version, self.numbers.below(2**15)) + behind

    # -- the values of each request

    def copy(self, node, name, index):
        """A partition's copy, and an empty one of an unknown partition."""
        try:
            return node.copy(name, index)
        except wire.Refused:
            return logs.Copy()

    def offset(self, node, name, index):
        return self.numbers.below(self.copy(node, name, index).end() % 2**20 + 4) - 1

    def produce(self, node):
        numbers = self.numbers

        def entry(name, index):
            sender = sender_of(numbers, self.copy(node, name, index), self.first_producer)
            return [damaged(numbers, rarely(numbers, batch_of(numbers, numbers.below(9), sender), b""))]

        acks = numbers.one_of([1, 1, 1, -1, 0, rarely(numbers, 1, 2)])
        return [rarely(numbers, None, numbers.one_of([None, None, b"x"])), acks, 1000, self.topics(entry)]

    def fetch(self, node):
        numbers = self.numbers
        entries = self.topics(lambda name, index: [self.offset(node, name, index), numbers.one_of(self.limits)])
        return [-1, 500, 1, numbers.one_of(self.limits), 0, entries]

    def listoffsets(self, node):
        times = [-1, -2, -1, -2, -3, 0, 5, 10, 15, 20, 30, 40, 41]
        return [-1, self.topics(lambda name, index: [self.numbers.one_of(times)])]

    def metadata(self, node):
        drawn = [[place(self.numbers)[0]] for _ in range(self.numbers.below(5))]
        return [self.numbers.one_of([None, drawn, drawn])]

    def commit(self, node):
        numbers = self.numbers
        generation = rarely(numbers, -1, numbers.one_of([-1, 0, 5]))
        entries = self.topics(lambda name, index: [rarely(numbers, numbers.below(50), -1), numbers.one_of(self.metadata_texts)])
        return [numbers.one_of(self.groups), generation, numbers.one_of([b"", b"me"]), numbers.below(9) - 1, entries]

    def offsets(self, node):
        return [self.numbers.one_of(self.groups), self.topics(lambda name, index: [])]

    def coordinator(self, node):
        return [self.numbers.one_of(self.groups)]

    def versions(self, node):
        return []

    def producer_id(self, node):
        numbers = self.numbers
        return [rarely(numbers, None, numbers.one_of([b"", b"x"])), numbers.one_of([60_000, 0, -1, 2**31 - 1])]

    def forget(self, node):
        return [self.numbers.one_of(self.groups)]

    def deliver(self, node):
        """Mostly a batch of the leader's log; else one of another partition, or of no log."""
        numbers = self.numbers
        where = place(numbers)
        known = self.batches.get(rarely(numbers, where, numbers.one_of(PLACES)), [])
        if known and numbers.below(15):
            return [*where, damaged(numbers, numbers.one_of(known).encoded())]
        base = numbers.one_of([-1, 0, 3, 40, logs.OFFSETS - 2, logs.OFFSETS])
        return [*where, damaged(numbers, batch_of(numbers, base, (numbers.below(3), numbers.below(2), numbers.below(9))))]

    def clean(self, node):
        where = place(self.numbers)
        return [*where, self.offset(node, *where), self.offset(node, *where)]

    def clean_part(self, node):
        """Mostly the batches from one that is kept on, up to another one; else any."""
        where = place(self.numbers)
        kept = sorted(node.copy(*where).kept) if where in PLACES else []
        first, end = (self.numbers.one_of([*kept, self.offset(node, *where)]) for _ in range(2))
        return [*where, min(first, end), max(first, end), self.offset(node, *where), self.offset(node, *where)]

    def export(self, node):
        where = place(self.numbers)
        if where in PLACES:
            self.images[where].append(node.copy(*where).image())
        return [*where]

    def import_(self, node):
        """Mostly an image of the same partition; else of another one, or with a value that is no position."""
        numbers = self.numbers
        where = place(numbers)
        known = self.images.get(rarely(numbers, where, numbers.one_of(PLACES)), [])
        if known and numbers.below(15):
            return [*where, damaged(numbers, numbers.one_of(known))]
        key = logs.group_key(numbers.one_of(GROUPS), b"t", numbers.below(2))
        batch = batches.batch([batches.record(0, key, numbers.one_of(VALUES), [], {})], {"base": 900})
        return [*where, damaged(numbers, logs.Copy([(900, 900)], [logs.view(batch)[0]]).image())]

    def asked(self, where):
        """Mostly what a side has seen of a partition, or had; else ranges of a few offsets, or what is none."""
        numbers = self.numbers
        if numbers.below(4):
            return self.copy(numbers.one_of(self.sides)[0], *where).cover
        first = numbers.below(9)
        ranges = [(first, first + numbers.below(4)), (first + 6, first + 6 + numbers.below(40))]
        return numbers.one_of([[], ranges, ranges[:1], rarely(numbers, ranges, numbers.one_of([ranges[::-1], [(3, 2)], [(-1, 2)]]))])

    def export_delta(self, node):
        where = place(self.numbers)
        asked = self.asked(where)
        if where in PLACES and logs.are_maximal(asked):
            self.deltas[where].append(node.copy(*where).delta(asked))
        return [*where, asked]

    def import_delta(self, node):
        """Mostly a delta that was sent of the same partition; now and then one of another, or an image."""
        numbers = self.numbers
        where = place(numbers)
        known = self.deltas.get(rarely(numbers, where, numbers.one_of(PLACES)), [])
        if known and numbers.below(15):
            return [*where, damaged(numbers, numbers.one_of(known[-6:]))]
        images = self.images.get(where, [])
        return [*where, numbers.one_of(images) if images else b""]

    def get(self, node):
        return [*place(self.numbers), self.numbers.one_of([*self.keys, b"k"])]

    def cover(self, node):
        return [*place(self.numbers)]

    def trim(self, node):
        """Mostly one of the first offsets at which the copy may start; else any."""
        where = place(self.numbers)
        boundaries = sorted(self.copy(node, *where).boundaries())
        return [*where, rarely(self.numbers, self.numbers.one_of(boundaries[:3]), self.offset(node, *where))]

    def bring_up_to_date(self):
        """One side asks what another has that it lacks: what it has seen goes to the other, and the delta for it comes back,
        mostly after more has happened to both."""
        numbers, where = self.numbers, self.numbers.one_of(PLACES)
        asking, answering = numbers.one_of(self.sides[1:]), numbers.one_of(self.sides)
        self.send(asking, (20005, 0), [*where])
        asked = asking[0].copy(*where).cover
        self.send(answering, (20002, 1), [*where, asked])
        delta = answering[0].copy(*where).delta(asked)
        for _ in range(numbers.below(4)):
            self.step(numbers.one_of(self.sides))
        self.send(asking, (20003, 1), [*where, delta])

    def looks(self):
        """Asks each side for an image of each partition, and for the values of some keys."""
        for side in self.sides:
            for where in PLACES:
                self.send(side, (20002, 0), [*where])
                self.send(side, (20004, 0), [*where, self.numbers.one_of(KEYS)])

    def begin(self, before):
        """Gives the leader images of another exchange, of each partition until one is taken."""
        for where in PLACES:
            while before.images[where] and not self.copy(self.sides[0][0], *where).cover and self.numbers.below(4):
                self.send(self.sides[0], (20003, 0), [*where, self.numbers.one_of(before.images[where])])


DRAWS = {
    (0, 3): Exchange.produce,
    (1, 4): Exchange.fetch,
    (2, 1): Exchange.listoffsets,
    (3, 1): Exchange.metadata,
    (8, 2): Exchange.commit,
    (9, 1): Exchange.offsets,
    (10, 0): Exchange.coordinator,
    VERSIONS: Exchange.versions,
    (22, 0): Exchange.producer_id,
    (20000, 0): Exchange.deliver,
    (20001, 0): Exchange.clean,
    (20001, 1): Exchange.clean_part,
    (20002, 0): Exchange.export,
    (20002, 1): Exchange.export_delta,
    (20003, 0): Exchange.import_,
    (20003, 1): Exchange.import_delta,
    (20004, 0): Exchange.get,
    (20005, 0): Exchange.cover,
    (20006, 0): Exchange.forget,
    (20007, 0): Exchange.trim,
}

# of a leader and of a follower, each request as often as it is drawn among the others
OFTEN = {
    True: {(0, 3): 5, (1, 4): 3, (8, 2): 4, (9, 1): 3, (20001, 0): 2, (20001, 1): 2, (20002, 0): 2},
    False: {(20000, 0): 8, (20001, 0): 2, (20001, 1): 2, (20002, 0): 2, (20003, 0): 4, (20003, 1): 4, (9, 1): 3},
}
KINDS = {leads: [key for key in DRAWS for _ in range(often.get(key, 1))] for leads, often in OFTEN.items()}


EXCHANGES, SIDES = 20, 3
SESSIONS = EXCHANGES * SIDES


def sessions(count=EXCHANGES, requests=200):
    """So many sessions of each role, each with so many requests, and with looks after every fifty: its arguments, its
    input and its output, as bytes."""
    made, before = [], None
    for start in range(1, count + 1):
        exchange = Exchange(start, FIRST_PRODUCERS[start % len(FIRST_PRODUCERS)])
        if before and start % 3 == 0:
            exchange.begin(before)
        before = exchange
        for step in range(1, requests + 1):
            for side in exchange.sides:
                exchange.step(side)
            if step % 5 == 0:
                exchange.bring_up_to_date()
            if step % 50 == 0:
                exchange.looks()
        for node, given, wanted in exchange.sides:
            topics = [name + b":" + str(many).encode() for name, many in TOPICS]
            role = b"leader" if node.leads else b"follower"
            first = [b"--first-producer", str(exchange.first_producer).encode()] * (exchange.first_producer > 0)
            made.append(([b"session", b"--role", role, *first, *topics], b"".join(given), b"".join(wanted)))
    return made


# ---- small deltas that lie

DELTAS = 6


def log_of_four():
    """a=1, b=2, a deleted, and b=3 with b=4, at offsets 0 to 4."""
    forms = ["base:0 a=1", "base:1 b=2", "base:2 a=null", "base:3 b=3 b=4"]
    return [logs.view(batches.input_of(f"batch {it}", None))[0] for it in forms]


def small_deltas():
    """Deltas of a copy, of a cleaned one, and of one with a start, for a copy that has seen some offsets."""
    copies = [logs.Copy([(0, 4)], log_of_four()) for _ in range(3)]
    copies[1].clean(5, 5)
    copies[2].trim(2)
    return [it.delta(asked) for it in copies for asked in ([(0, 1)], [(0, 2), (4, 4)])]


def sealed(body):
    return body + struct.pack(">I", batches.crc32c(body))


def changed(data):
    """The delta with each byte another, in four ways, and with each cut; the crc is right each time."""
    body = data[:-4]
    turned = [(at, bits) for at in range(len(body)) for bits in (1, 2, 0x80, 0xFF)]
    made = [body[:at] + bytes([body[at] ^ bits]) + body[at + 1 :] for at, bits in turned]
    return [sealed(it) for it in made + [body[:size] for size in range(len(body))]]


def lies():
    """Sessions of a follower that has seen the first three offsets, and is given all that small deltas can become, as bytes:
    the arguments, the input and the output."""
    made = []
    for delta in small_deltas():
        node, given, wanted = broker.Broker(False, [(b"t", 1)]), [], []
        requests = [((20000, 0), it.encoded()) for it in log_of_four()[:3]]
        requests += [((20003, 1), it) for it in changed(delta)]
        for kind, data in requests:
            frame = wire.written(["h", "h", "i", "S", *wire.REQUESTS[kind][0]], [*kind, 7, None, b"t", 0, data])
            given.append(wire.framed(frame))
            wanted.append(node.reply(frame))
            if kind == (20003, 1) and node.copy(b"t", 0).image() != image_before:
                # what was taken is shown, and the session goes on
                frame = wire.written(["h", "h", "i", "S", *wire.REQUESTS[20002, 0][0]], [20002, 0, 7, None, b"t", 0])
                given.append(wire.framed(frame))
                wanted.append(node.reply(frame))
            image_before = node.copy(b"t", 0).image()
        made.append(([b"session", b"--role", b"follower", b"t:1"], b"".join(given), b"".join(wanted)))
    return made
