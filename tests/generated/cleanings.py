"""Generated sessions of `kbroker session` that are run three times: with their Cleans, without them, and with others in other
places. Each is a leader's, or that of a follower which gets the batches of the leader's log.

The replies to all other requests must be the same bytes each time, but for those that show which batches are kept: Fetch,
Export, and ListOffsets with a time of 0 or more. There is no Import, a follower gets no batch of another log, and no Trim is to
where a copy may start only if it keeps a batch there: for these it needn't hold. The requests are drawn beside brokers of
tests/models/broker.py that are never cleaned, for sequence numbers and offsets that fit; what must be replied is taken from the other
runs alone.
"""
import itertools
import os
import struct

from encoders import batches
from generated import exchanges
from generated.exchanges import PLACES, TOPICS, place, rarely
from generated.scripts import Numbers
from models import broker, logs, wire

PRODUCE, FETCH, LISTOFFSETS, COMMIT, OFFSETS = (0, 3), (1, 4), (2, 1), (8, 2), (9, 1)
DELIVER, CLEAN, EXPORT, IMPORT, GET, COVER, FORGET, TRIM = [(key, 0) for key in range(20000, 20008)]
CLEAN_PART, EXPORT_DELTA, IMPORT_DELTA = [(key, 1) for key in range(20001, 20004)]
CHANGING = (PRODUCE, COMMIT, FORGET, TRIM)  # what changes a leader's partitions
WAYS = ["with its Cleans", "without Cleans", "with other Cleans"]
KEYS = [b"a", b"b", b"fig tree"]  # so few that most records are soon older than another one of their key
TIMES = [[-1], [-2], [-1, -2, -3], [-1, -2, 0, 5, 10, 20, 41]]  # of which one request has its times
EXTREMES = [-(2**63), 2**63 - 1]
NO_BATCH = bytes(80)
CORRELATION_OF_CLEANS = -1  # that of another request is its number, from 0


def framed(kind, correlation, client, values):
    fields = ["h", "h", "i", "S", *wire.REQUESTS[kind][0]]
    return wire.framed(wire.written(fields, [*kind, correlation, client, *values]))


def shows_kept_batches(kind, values):
    """Whether the reply to a request depends on which batches are kept."""
    if kind == LISTOFFSETS:
        return any(time >= 0 for _, entries in values[1] for _, time in entries)
    return kind in (FETCH, EXPORT, EXPORT_DELTA)


class Request:
    """A request that is no Clean, and where the partitions end when it comes."""

    def __init__(self, number, kind, values, client, ends):
        self.number, self.kind, self.ends = number, kind, ends
        self.is_compared = not shows_kept_batches(kind, values)
        self.frame = framed(kind, number, client, values)


class Requests(exchanges.Exchange):
    """Draws the requests of a leader, and those of a follower to which the leader's batches are delivered."""

    roles = (True, False)
    groups = [b"g", b"g", b"h t", b""]
    metadata_texts = [None, b"", b"m", b"read \x00", bytes(300)]

    def __init__(self, start):
        super().__init__(start)
        self.leader, self.follower = (node for node, *_ in self.sides)
        self.undelivered = {}

    def request(self, number, leads, key, values):
        """The request. The role's broker does it too, so that later ones fit what it has made."""
        ends = {(name, index): self.leader.copy(name, index).end() for name, index in PLACES}
        made = Request(number, key, values, self.numbers.one_of([None, b"", b"me"]), ends)
        if leads and key in CHANGING:
            self.leader.reply(made.frame[4:])
            self.note(self.leader)
        if not leads and key in (DELIVER, TRIM):
            self.follower.reply(made.frame[4:])
        return made

    def drawn(self, leads, count):
        """So many requests of a role, and the last looks. A follower's are drawn after the leader's, whose log it gets."""
        self.undelivered = {where: [*log] for where, log in self.batches.items()}
        made = []
        for number in range(count):
            key = self.numbers.one_of(KINDS[leads])
            made.append(self.request(number, leads, key, DRAWS[key](self, self.node_of(leads, key))))
        for key, values in self.last_looks():
            made.append(self.request(len(made), leads, key, values))
        return made

    def node_of(self, leads, key):
        """The broker beside which a request is drawn: the leader's, but for a follower's Trims."""
        return self.leader if leads or key != TRIM else self.follower

    def last_looks(self):
        """Requests that show the whole of what must not depend on cleaning: covers, ends, tables, what groups have committed,
        which batches are repeats, and of how many partitions each group forgets."""
        topics = [[name, [[index] for index in range(many)]] for name, many in [*TOPICS, (broker.GROUP_TOPIC, 1)]]
        found = [(COVER, [*where]) for where in PLACES]
        found += [(LISTOFFSETS, [-1, [[name, [[index, -1]]] for name, index in PLACES]])]
        found += [(GET, [*where, key]) for where in PLACES for key in KEYS]
        found += [(OFFSETS, [group, topics]) for group in sorted({*self.groups})]
        for (name, index), log in self.batches.items():
            found += [(PRODUCE, [None, 1, 1000, [[name, [[index, it.encoded()]]]]]) for it in log[-20:] if it.producer >= 0]
        return found + [(FORGET, [group]) for group in sorted({*self.groups})]

    def produce(self, node):
        numbers = self.numbers

        def entry(name, index):
            copy = self.copy(node, name, index)
            sent = [it for it in copy.batches() if it.producer >= 0]
            if sent and numbers.below(5) == 0:
                return [numbers.one_of(sent[-12:]).encoded()]
            batch = exchanges.batch_of(numbers, numbers.below(9), exchanges.sender_of(numbers, copy, self.first_producer), KEYS)
            return [exchanges.damaged(numbers, rarely(numbers, batch, b""))]

        acks = numbers.one_of([1, 1, 1, -1, 0, rarely(numbers, 1, 2)])
        return [rarely(numbers, None, b"x"), acks, 1000, self.topics(entry, 4)]

    def listoffsets(self, node):
        times = self.numbers.one_of(TIMES)
        return [-1, self.topics(lambda name, index: [self.numbers.one_of(times)])]

    def offsets(self, node):
        return [self.numbers.one_of(self.groups), self.topics(lambda name, index: [], self.numbers.one_of([1, 3, 12]))]

    def deliver(self, node):
        """Mostly a batch of the partition's log, or one again; else bytes that no copy takes."""
        where = place(self.numbers)
        log = self.batches.get(where, [])
        if not log:
            return [*where, refused(self.numbers, NO_BATCH)]
        if self.numbers.below(8) == 0:
            return [*where, refused(self.numbers, self.numbers.one_of(log).encoded())]
        return [*where, (self.next_of(where) or self.numbers.one_of(log)).encoded()]

    def next_of(self, where):
        """A batch that a follower hasn't got: mostly one of the first three, so that offsets are seen without a gap from 0 on,
        and tombstones can go. Now and then none."""
        left = self.undelivered.get(where, [])
        if not left or self.numbers.below(5) == 0:
            return None
        reach = rarely(self.numbers, 3, len(left))
        return left.pop(min(self.numbers.below(reach), len(left) - 1))

    def export(self, node):
        return [*place(self.numbers)]

    def trim(self, node):
        """To an offset at which a copy may start whatever it keeps, or outside of it."""
        where = place(self.numbers)
        copy = self.copy(node, *where)
        firsts = [first for first, _ in copy.cover]
        return [*where, self.numbers.one_of([copy.start - 1, copy.end() + 1, copy.end(), *firsts[:3]])]

    def get(self, node):
        numbers = self.numbers
        name, index = place(numbers)
        if name == broker.GROUP_TOPIC:
            return [name, index, logs.group_key(numbers.one_of(self.groups), *numbers.one_of(PLACES))]
        return [name, index, numbers.one_of([*KEYS, b"k"])]


def refused(numbers, data):
    """Bytes that no copy takes. Of the batch neither the base offset nor the leader epoch is changed, which stand outside its
    checksum: it would be a valid one that isn't in the log."""
    at = 16 + numbers.below(len(data) - 16)
    null_key = batches.batch([batches.record(0, None, b"1", [], {})], {})
    gap = batches.batch([batches.record(1, b"a", b"1", [], {})], {"last": 1})
    outside = batches.batch([batches.record(0, b"a", b"1", [], {})], {"base": numbers.one_of([-1, logs.OFFSETS])})
    changed = data[:at] + bytes([data[at] ^ 1 << numbers.below(8)]) + data[at + 1 :]
    return numbers.one_of([b"", data[:at], changed, changed, data + b"\0", data * 2, null_key, gap, outside])


DRAWS = {
    **exchanges.DRAWS,
    PRODUCE: Requests.produce,
    LISTOFFSETS: Requests.listoffsets,
    OFFSETS: Requests.offsets,
    DELIVER: Requests.deliver,
    EXPORT: Requests.export,
    TRIM: Requests.trim,
    GET: Requests.get,
}

# of a leader and of a follower, each request as often as it is drawn among the others
OFTEN = {
    True: {PRODUCE: 7, COMMIT: 4, OFFSETS: 4, LISTOFFSETS: 2, GET: 3, COVER: 2},
    False: {DELIVER: 16, OFFSETS: 4, LISTOFFSETS: 2, GET: 4, COVER: 3},
}
KINDS = {
    leads: [key for key in DRAWS if key not in (CLEAN, CLEAN_PART, IMPORT, IMPORT_DELTA) for _ in range(often.get(key, 1))]
    for leads, often in OFTEN.items()
}


def bound(numbers, end):
    """A bound of a Clean: from below the start to beyond the end, and often near the end, so that much goes."""
    anywhere = numbers.below(end + 4) - 1
    return numbers.one_of([end, end, anywhere, anywhere, rarely(numbers, end + 1, numbers.one_of(EXTREMES))])


def clean(numbers, ends):
    """A Clean of a whole partition; of a part of it; or of parts, one behind the other."""
    where = place(numbers)
    end = ends.get(where, 0)
    bounds = [bound(numbers, end), bound(numbers, end)]
    if numbers.below(2):
        return framed(CLEAN, CORRELATION_OF_CLEANS, b"", [*where, *bounds])
    places = sorted(bound(numbers, end) for _ in range(2 + numbers.below(4)))
    parts = [[*where, first, last, *bounds] for first, last in zip(places, places[1:])]
    return b"".join(framed(CLEAN_PART, CORRELATION_OF_CLEANS, b"", it) for it in parts)


def cleaned(requests, numbers):
    """The requests with Cleans between, in some sessions many and in others few."""
    made, seldom = [], numbers.one_of([2, 4, 8])
    for it in requests:
        while numbers.below(seldom) == 0:
            made.append(clean(numbers, it.ends))
        made.append(it.frame)
    return b"".join(made)


class Session:
    """What a session is given each time, and how its replies are compared."""

    def __init__(self, seed, leads, requests):
        topics = [name + b":" + str(many).encode() for name, many in TOPICS]
        self.arguments = [b"session", b"--role", b"leader" if leads else b"follower", *topics]
        self.requests = requests
        numbers = Numbers(1000 * seed + leads)
        self.inputs = [cleaned(requests, numbers), b"".join(it.frame for it in requests), cleaned(requests, numbers)]

    def fault(self, outputs):
        """What is wrong with what the three runs wrote; none where it is as it must be."""
        runs = [replies_of(it) for it in outputs]
        others = [[it for it in replies if it[0] != CORRELATION_OF_CLEANS] for replies in runs]
        for replies in itertools.zip_longest(*others, fillvalue=(None, b"")):
            if not self.are_alike(replies):
                return self.difference(replies)
        if not any(removed(reply) for number, reply in runs[0] if number == CORRELATION_OF_CLEANS):
            return "its Cleans removed nothing"
        return None

    def are_alike(self, replies):
        """Whether these are replies to one request, and the same where they must be."""
        number = replies[0][0]
        if any(it[0] != number for it in replies) or not 0 <= number < len(self.requests):
            return False
        return not self.requests[number].is_compared or len({reply for _, reply in replies}) == 1

    def difference(self, replies):
        """Says which replies differ, and from where on. Requests are numbered from 0, without Cleans."""
        at = len(os.path.commonprefix([reply for _, reply in replies]))
        return "\n  ".join(
            f"{way}, {self.named(number)}, from byte {at} on {reply[at : at + 60]}"
            for way, (number, reply) in zip(WAYS, replies)
        )

    def named(self, number):
        if number is None or not 0 <= number < len(self.requests):
            return "no reply to a request"
        return f"reply to request {number} of kind {self.requests[number].kind}"


def replies_of(output):
    """The replies, each with its correlation id."""
    replies, at = [], 0
    while at + 8 <= len(output):
        size, correlation = struct.unpack(">ii", output[at : at + 8])
        replies.append((correlation, output[at + 8 : at + 4 + size]))
        at += 4 + size
    return replies


def removed(reply):
    """How many records, tombstones and batches a Clean has removed, by its reply."""
    return sum(struct.unpack(">hqqq", reply)[1:])


SESSIONS = 90  # of each role
NAMES = [f"cleanings of a {role}, seed {seed}" for seed in range(1, SESSIONS + 1) for role in ("leader", "follower")]


def sessions(count=SESSIONS, requests=300):
    """So many sessions of each role, each with so many requests beside its Cleans and its last looks."""
    made = []
    for seed in range(1, count + 1):
        drawing = Requests(seed)
        made += [Session(seed, leads, drawing.drawn(leads, requests)) for leads in (True, False)]
    return made
