"""The generated run: a long script of `kbroker replay`, and a long session of a leader and one of a follower.

The script has 2,000 events on three copies. Behind each of them stand each copy's table, by a pass over the log at the offsets
that the copy has seen, and its cover: those of tests/generated/scripts.py. A session has 2,000 requests, whose replies are those of
tests/models/broker.py. Then come batches of at least 128 bytes to 512 KiB, which are produced and delivered.

What is drawn is the same each time. The tests end where it lacks a kind of event or of request, or something that may come of
one: so no run is taken for this one that leaves out what it is for.
"""
import collections
import struct

from encoders import batches
from generated import exchanges, scripts
from generated.exchanges import place, rarely
from generated.scripts import NOBODY, Numbers
from models import broker, logs, wire

EVENTS = REQUESTS = 2_000
SCRIPT_COPIES = 3
RECORDS_OF_A_BATCH = 8
VALUE_BYTES = 300
POWERS = range(7, 20)  # of two: the bytes that the large batches have at least
PATTERN = bytes(7 * it % 256 for it in range(256 + VALUE_BYTES))  # of which each value is a piece
KEY_COUNT = 16
KEYS = [b"a", b"", b"aa", b"b", b"B", b"0", b"\0", b"\xff", b"\n", b"%", b"x=y", b"fig tree", b"\xc3\xa9", b"key " * 30]
KEYS += [b"prices/2", b"prices/20"]


def require(is_so, what):
    """Ends the tests where the run isn't what it says."""
    if not is_so:
        raise AssertionError(f"the generated run: {what}")


class Choices(scripts.Choices):
    """Batches of 1 to 8 records of 16 keys, with null values and values of 0 to 300 bytes."""

    keys, most = KEYS, RECORDS_OF_A_BATCH

    def __init__(self):
        self.sizes = collections.Counter()

    def value(self, numbers):
        if numbers.below(10) == 0:
            return None
        size, first = numbers.one_of([0, VALUE_BYTES, *[numbers.below(VALUE_BYTES + 1)] * 14]), numbers.below(256)
        self.sizes[size] += 1
        return PATTERN[first : first + size]

    def check(self):
        require(len({*KEYS}) == KEY_COUNT, "another number of keys")
        require(min(self.sizes) == 0 and max(self.sizes) == VALUE_BYTES, "values of other sizes")


def long_values(numbers, size):
    """Records of 1 to 8 keys, whose values have together so many bytes or more."""
    count = 1 + numbers.below(RECORDS_OF_A_BATCH)
    return [(numbers.one_of(KEYS), bytes([97 + numbers.below(26)]) * -(-size // count)) for _ in range(count)]


def many_records(numbers, size):
    """Records of short values, so many that a batch of them has so many bytes or more."""
    choices, records, drawn = Choices(), [], scripts.HEAD_BYTES
    while drawn < size:
        records.append(scripts.record_of(numbers, choices))
        drawn += len(batches.record(len(records) - 1, *records[-1], [], {}))
    return records


def large_batches(numbers):
    """Two batches for each of the sizes: one of few long values, and one of many records."""
    for power in POWERS:
        for records in (long_values(numbers, 2**power), many_records(numbers, 2**power)):
            require(2**power <= scripts.size_of(records) <= logs.BATCH_LIMIT, f"no batch of 2^{power} bytes")
            yield records


# ---- the script

# one event in some five hundred is a batch that is too large, since each is a line of a megabyte
KINDS = scripts.KINDS * 25 + ["too-large"]

# of each kind of event all that may come of it, but for a lack of memory or of offsets
OUTCOMES = {
    "produce": ["base", "refused TooLarge"],
    "produce-as": ["base", "repeat", "refused BadProducer", "refused OldEpoch", "refused OutOfOrder"],
    "deliver": ["added", "repeat", "refused NoCopy", "refused LeaderCopy", "refused NoBatch"],
    "clean": ["cleaned", "refused NoCopy"],
    "send": ["image", "refused NoCopy"],
    "merge": ["merged", "refused NoCopy", "refused LeaderCopy", "refused NoImage"],
    "trim": ["trimmed", "refused NoCopy", "refused BelowStart", "refused PastEnd", "refused NotABase"],
}


class Script:
    """A script's lines, what each must print, and what came of each kind of event."""

    def __init__(self):
        self.numbers = Numbers(1)
        self.model = scripts.Model(SCRIPT_COPIES, Choices())
        self.given, self.wanted = [f"copies {SCRIPT_COPIES}"], []
        self.outcomes = collections.Counter()
        self.removed = [0, 0, 0]

    def add(self, line, answer):
        """An event, and a look at each copy."""
        more, answers = scripts.looks(self.model)
        self.given += [line, *more]
        self.wanted += [answer, *answers]
        kind, words = line.partition(" ")[0], answer.split()
        self.outcomes[kind, " ".join(words[: 2 if words[0] == "refused" else 1])] += 1
        if words[0] == "cleaned":
            self.removed = [total + int(it) for total, it in zip(self.removed, words[1:])]

    def draw(self):
        for _ in range(EVENTS):
            self.add(*scripts.event(self.numbers, self.model, KINDS))
        self.check()
        for records in large_batches(self.numbers):
            self.add(" ".join(["produce", *(scripts.item(*it) for it in records)]), self.model.produce(records))
            number = len(self.model.log) - 1
            for copy in range(1, SCRIPT_COPIES):
                answer = self.model.deliver(copy, number)
                require(answer == "added", "a large batch was not delivered")
                self.add(f"deliver {copy} {number}", answer)
        require("refused OutOfMemory" not in self.wanted, "an event that lacks memory")

    def check(self):
        wanted = {(kind, outcome) for kind, outcomes in OUTCOMES.items() for outcome in outcomes}
        require({*self.outcomes} == wanted, f"outcomes of events that differ: {sorted({*self.outcomes} ^ wanted)}")
        require(self.outcomes.total() == EVENTS, "another number of events")
        require(all(self.removed), f"what Cleans have removed: {self.removed}")
        require({len(it.records) for it in self.model.log} == {*range(1, RECORDS_OF_A_BATCH + 1)}, "batches of other sizes")
        require({key for it in self.model.log for key, _ in it.records} == {*KEYS}, "other keys")
        self.model.choices.check()


def script():
    """The arguments, the script and what it prints."""
    made = Script()
    made.draw()
    return [b"replay"], scripts.as_bytes(made.given), scripts.as_bytes(made.wanted)


# ---- the sessions

# of each request, by its key and version, all codes that a leader answers, and all that a follower does: those of
# docs/FORMATS.md, but for a lack of memory, for what is too large to be sent, and for a full log of the groups
CODES = {
    (0, 3): ([0, -1, 2, 3, 10, 17, 21, 43, 45, 47, 48, 76, 87], [3, 6, 17, 21, 48]),
    (1, 4): ([0, 1, 3], [3, 6]),
    (2, 1): ([0, 3, 42], [3, 6]),
    (3, 1): ([0, 3, 17], [0, 3, 5, 17]),
    (8, 2): ([0, 3, 12, 22, 24, 42], [3, 6, 22, 24]),
    (9, 1): ([0, -1, 3, 24, 42], [0, -1, 3, 24, 42]),
    (10, 0): ([0, 24], [6, 24]),
    (18, 0): ([0, 35], [0, 35]),
    (22, 0): ([0, -1, 48], [6, 48]),
    (20000, 0): ([3, 42], [0, 1, 2, 3, 10, 42, 43, 48, 76, 87]),
    (20001, 0): ([0, 3], [0, 3]),
    (20001, 1): ([0, 3], [0, 3]),
    (20002, 0): ([0, 3], [0, 3]),
    (20002, 1): ([0, 3, 42], [0, 3, 42]),
    (20003, 0): ([0, 2, 3, 42], [0, 2, 3, 42]),
    (20003, 1): ([3, 42], [0, 2, 3, 42]),
    (20004, 0): ([0, 3], [0, 3]),
    (20005, 0): ([0, 3], [0, 3]),
    (20006, 0): ([0, 24], [6, 24]),
    (20007, 0): ([0, 1, 3, 42], [0, 1, 3, 42]),
}
NO_MEMORY = 56

# where the code of an entry stands in a response of topics, and the topics in it; and the code of one that isn't in front
ENTRY_CODES = {(0, 3): (0, 1), (1, 4): (1, 1), (2, 1): (0, 1), (8, 2): (0, 1), (9, 1): (0, 3)}
OTHER_CODES = {(22, 0): 1}

# heads of batches that are refused whatever the copy
FAULTS = [{"magic": 1}, {"crc": 0}, {"length": 48}, {"length": logs.BATCH_LIMIT}, {"last": -1}, {"tail": 1}]
FAULTS += [{"count": -1}, {"count": RECORDS_OF_A_BATCH + 1}, *({"attributes": 1 << bit} for bit in (0, 3, 4, 5, 6))]
FAULTS_OF_RECORDS = ["null key", "gap"]
FAULTS_OF_BYTES = ["cut", "longer", "flipped"]

# batches of no log, and images of others, go to this partition alone: the other ones stay copies of their leader's log
STRAYS, OTHER = (b"u", 0), (b"t", 0)
STRAY_BASES = [-1, 0, 40, logs.OFFSETS]
OFFSETS_LEFT = 250  # of a partition whose offsets are given out to the last
FIRST_PRODUCER = broker.LAST_PRODUCER - 20
NO_COMMITS = b"odd"  # a group whose keys have values that are none of a commit
NAMES = [b"t", b"u", broker.GROUP_TOPIC, b"v", b"x" * 249, b"x" * 250, b"no/name", b"..", b""]
BAD_RANGES = [[(3, 2)], [(-1, 2)], [(5, 6), (0, 1)], [(0, 1), (2, 3)], [(0, logs.OFFSETS)]]
PRODUCE, FETCH, METADATA, OFFSETS = (0, 3), (1, 4), (3, 1), (9, 1)
DELIVER, EXPORT, IMPORT, IMPORT_DELTA, GET, COVER = (20000, 0), (20002, 0), (20003, 0), (20003, 1), (20004, 0), (20005, 0)
TRIM = (20007, 0)


def codes_of(kind, reply):
    """The codes in a response; none in that of a Produce that isn't answered."""
    if not reply:
        return []
    values, _ = wire.read(wire.REQUESTS[kind][1], reply, 8)
    if kind in ENTRY_CODES:
        where, at = ENTRY_CODES[kind]
        return [entry[at] for _, entries in values[where] for entry in entries]
    if kind == METADATA:
        return [it[0] for topic in values[2] for it in (topic, *topic[3])]
    return [values[OTHER_CODES.get(kind, 0)]]


def spoiled(numbers, data, fault):
    """Bytes, cut, or with one behind them, or with a bit turned behind what stands outside of a batch's checksum."""
    if fault == "cut":
        return data[: numbers.below(len(data))]
    if fault == "longer":
        return data + b"\0"
    at = 16 + numbers.below(len(data) - 16)
    return data[:at] + bytes([data[at] ^ 1 << numbers.below(8)]) + data[at + 1 :]


class Exchange(exchanges.Exchange):
    """A leader and a follower, and the codes that each has answered."""

    roles = (True, False)
    keys = KEYS
    limits = [0, 700, 1_500, 5_000, 1 << 20, -1]
    metadata_texts = [None, b"", b"m", b"read \0"] * 4 + [bytes(broker.METADATA_LIMIT), bytes(broker.METADATA_LIMIT + 1)]

    def __init__(self):
        super().__init__(3, FIRST_PRODUCER)
        self.leader, self.follower = self.sides
        self.choices = Choices()
        self.drawn = collections.Counter()  # of each role, key and version how many requests
        self.codes = collections.defaultdict(collections.Counter)  # of each role and request how often each code

    def ask(self, side, frame):
        super().ask(side, frame)
        node, _, wanted = side
        key, version = struct.unpack(">hh", frame[:4])
        kind = (key, 0 if key == wire.API_VERSIONS else version)
        self.drawn[node.leads, key, version] += 1
        self.codes[node.leads, kind].update(codes_of(kind, wanted[-1]))

    def kinds(self, leads):
        return exchanges.KINDS[leads] + [PRODUCE] * 8 * leads

    def drawn_values(self, kind, node):
        return DRAWS[kind](self, node)

    # -- batches

    def records(self):
        numbers, made = self.numbers, []
        for delta in range(1 + numbers.below(RECORDS_OF_A_BATCH)):
            headers = [(b"h", numbers.one_of([None, b"", b"1"]))] * (numbers.below(8) == 0)
            fields = {"time": numbers.one_of(exchanges.TIMES), "attributes": rarely(numbers, 0, 3)}
            made.append(batches.record(delta, numbers.one_of(KEYS), self.choices.value(numbers), headers, fields))
        return made

    def batch(self, base, sender):
        numbers, head = self.numbers, dict(zip(("producer", "epoch", "sequence"), sender))
        head |= {"base": base, "leader": rarely(numbers, 0, 5), "attributes": rarely(numbers, 0, 128 << numbers.below(8))}
        return batches.batch(self.records(), {**head, "time": numbers.one_of(exchanges.TIMES), "maxtime": numbers.below(30)})

    def faulty(self):
        """A batch that is refused whatever the copy."""
        numbers, records = self.numbers, self.records()
        fault = numbers.one_of([*FAULTS, *FAULTS_OF_RECORDS, *FAULTS_OF_BYTES])
        if isinstance(fault, dict):
            return batches.batch(records, fault)
        if fault == "null key":
            return batches.batch([*records, batches.record(len(records), None, b"1", [], {})], {})
        if fault == "gap":
            return batches.batch([*records, batches.record(len(records) + 1, b"a", b"1", [], {})], {"last": len(records) + 1})
        return spoiled(numbers, batches.batch(records, {}), fault)

    # -- the values of each request

    def offset(self, node, name, index):
        """An offset near those of a copy."""
        copy = self.copy(node, name, index)
        return copy.start + self.numbers.below(copy.end() - copy.start + 4) - 1

    def produce(self, node):
        numbers = self.numbers

        def entry(name, index):
            if numbers.below(4) == 0:
                return [rarely(numbers, self.faulty(), numbers.one_of([None, b""]))]
            sender = exchanges.sender_of(numbers, self.copy(node, name, index), self.first_producer)
            return [self.batch(numbers.below(9), sender)]

        acks = numbers.one_of([1, 1, 1, 1, -1, -1, 0, rarely(numbers, 2, 1)])
        return [rarely(numbers, None, b"x"), acks, 1000, self.topics(entry)]

    def metadata(self, node):
        drawn = [[self.numbers.one_of(NAMES)] for _ in range(self.numbers.below(5))]
        return [self.numbers.one_of([None, drawn, drawn])]

    def offsets(self, node):
        """Mostly some partitions of a group; now and then more than are answered."""
        group = self.numbers.one_of([*self.groups, NO_COMMITS])
        if self.numbers.below(40) == 0:
            return [group, [[b"t", [[0]] * (broker.PARTITIONS_LIMIT + 1)]]]
        return [group, self.topics(lambda name, index: [])]

    def deliver(self, node):
        numbers, where = self.numbers, place(self.numbers)
        known = self.batches.get(where, [])
        if not known or numbers.below(5) == 0:
            return [*where, self.faulty()]
        if where == STRAYS and numbers.below(2):
            return [*where, self.stray(self.copy(node, *where).end())]
        return [*where, numbers.one_of(known).encoded()]

    def stray(self, end):
        """A batch of no log, mostly near the end of a copy."""
        numbers = self.numbers
        sender = numbers.one_of([NOBODY, (numbers.below(3), numbers.below(2), numbers.below(9))])
        return self.batch(numbers.one_of([*STRAY_BASES, *range(end - 2, end + 3)]), sender)

    def sent_before(self, kept, where, newest):
        """What was sent of a partition, of the newest so many; now and then spoiled. Of the one for strays, also of another."""
        numbers = self.numbers
        if where == STRAYS and numbers.below(2):
            where = OTHER
        known = kept.get(where, [])[-newest:]
        if not known:
            return b""
        data = numbers.one_of(known)
        return data if numbers.below(6) else spoiled(numbers, data, numbers.one_of(FAULTS_OF_BYTES))

    def import_(self, node):
        where = place(self.numbers)
        return [*where, self.sent_before(self.images, where, 20)]

    def import_delta(self, node):
        where = place(self.numbers)
        return [*where, self.sent_before(self.deltas, where, 6)]

    def asked(self, where):
        """Mostly what a side has seen of a partition; now and then what is no ranges."""
        if self.numbers.below(8) == 0:
            return self.numbers.one_of(BAD_RANGES)
        return super().asked(where)

    def trim(self, node):
        """Mostly one of the first offsets at which the copy may start; else one right outside of it, or any."""
        numbers, where = self.numbers, place(self.numbers)
        copy = self.copy(node, *where)
        if numbers.below(3):
            return [*where, numbers.one_of(sorted(copy.boundaries())[:3])]
        return [*where, numbers.one_of([self.offset(node, *where), copy.start - 1, copy.end() + 1])]

    # -- the run

    def first_copies(self):
        """Of each partition a log as it begins: with some batches, with few offsets left, with a start, and with group records
        that are none of a commit."""
        some, few, late, groups = (logs.Copy(start=it) for it in (0, logs.OFFSETS - OFFSETS_LEFT, 40, 900))
        for copy in (some, some, late, late):
            copy.append(logs.view(self.batch(0, NOBODY))[0])
        keys = [logs.group_key(NO_COMMITS, *where) for where in exchanges.PLACES]
        groups.append(logs.group_batch([(key, self.numbers.one_of([b"", b"1", bytes(300)])) for key in keys]))
        return [some, few, late, groups]

    def begin(self):
        """Gives the leader a log of each partition, behind an image that is cut, and one of a copy with a gap."""
        gapped = logs.Copy([(0, 0), (2, 2)]).image()
        for where, copy in zip(exchanges.PLACES, self.first_copies()):
            for image in (spoiled(self.numbers, copy.image(), "cut"), gapped, copy.image()):
                self.send(self.leader, IMPORT, [*where, image])

    def draw(self):
        self.begin()
        while any(len(given) < REQUESTS for _, given, _ in self.sides):
            for side in self.sides:
                if len(side[1]) < REQUESTS:
                    self.step(side)
        self.check()
        for records in large_batches(self.numbers):
            self.send_large(records)
        self.look()
        require(not any(NO_MEMORY in it for it in self.codes.values()), "an answer that lacks memory")

    def send_large(self, records):
        """A batch is produced, fetched and delivered, and the value of its first key looked up."""
        made = [batches.record(delta, *it, [], {}) for delta, it in enumerate(records)]
        self.send(self.leader, PRODUCE, [None, 1, 1000, [[b"t", [[0, batches.batch(made, {})]]]]])
        batch = self.leader[0].copy(b"t", 0).batches()[-1]
        require(batch.held()[0][1:] == records[0], "a large batch was not appended")
        self.send(self.leader, FETCH, [-1, 500, 1, 1 << 20, 0, [[b"t", [[0, batch.base, 1 << 20]]]]])
        self.send(self.follower, DELIVER, [b"t", 0, batch.encoded()])
        require(self.follower[2][-1][-3:] == bytes(3), "a large batch was not delivered")
        for side in self.sides:
            self.send(side, GET, [b"t", 0, records[0][0]])

    def look(self):
        """Shows each copy as a whole, and the follower's once more when it was given the leader's."""
        for where in exchanges.PLACES:
            self.show(self.leader, where)
            self.show(self.follower, where)
            self.send(self.follower, IMPORT, [*where, self.leader[0].copy(*where).image()])
            self.show(self.follower, where)

    def show(self, side, where):
        self.send(side, COVER, [*where])
        self.send(side, EXPORT, [*where])

    def check(self):
        for kind, answered in CODES.items():
            for leads, codes in zip((True, False), answered):
                require(self.drawn[leads, *kind] > 0, f"no request {kind} of a {'leader' if leads else 'follower'}")
                came = {*self.codes[leads, kind]}
                require(came == {*codes}, f"codes of request {kind}, leads: {leads}, that differ: {sorted(came ^ {*codes})}")
        require({*CODES} == {*wire.REQUESTS}, "requests that are missing")
        require([len(given) for _, given, _ in self.sides] == [REQUESTS] * 2, "another number of requests")
        self.choices.check()


DRAWS = {
    **exchanges.DRAWS,
    PRODUCE: Exchange.produce,
    METADATA: Exchange.metadata,
    OFFSETS: Exchange.offsets,
    DELIVER: Exchange.deliver,
    IMPORT: Exchange.import_,
    IMPORT_DELTA: Exchange.import_delta,
    TRIM: Exchange.trim,
}


ROWS = ["long script", "long session of a leader", "long session of a follower"]


def runs():
    """Of the script and of the session of each role its arguments, its input and its output, as bytes."""
    exchange = Exchange()
    exchange.draw()
    made = [script()]
    topics = [name + b":" + str(many).encode() for name, many in exchanges.TOPICS]
    for node, given, wanted in exchange.sides:
        role = b"leader" if node.leads else b"follower"
        arguments = [b"session", b"--role", role, b"--first-producer", str(FIRST_PRODUCER).encode(), *topics]
        made.append((arguments, b"".join(given), b"".join(wanted)))
    return made
