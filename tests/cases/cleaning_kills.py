"""A `kbroker start --data` that cleans itself all the time and is killed at random moments, again and again, while connections ask of it.

It is kept_kills.py with other connections. Each partition has one that writes to it, and compares each reply with a plain model that is
never cleaned: all that doesn't show which batches are kept is the same. Others read partitions from their beginning on, in one life of the
broker after the other. Whoever was shown a record of a key finds, for as long as deletions are kept, the last record of that key that was
acknowledged before, or one behind it, though it be a deletion; and of a key that isn't deleted always.
"""
import collections
import os
import struct
import time

from cases import kept_kills
from cases.cleaning_words import CLEANINGS, OF_ANOTHER, of_marks
from cases.kept_kills import PRODUCE, SHARED, Asker, Committer, Identified, one_answer
from cases.kept_runs import Kept, found, new, plainly
from cases.random_clients import CLEAN, COVER, FETCH, GET, LISTOFFSETS, OFFSETS, TRIM, framed
from cases.started import RANDOM, Ends, holds, is_soon, same, slow
from encoders import batches
from models import broker, logs, wire

CLEANED = b"c"
KEEP = 1  # seconds that deletions are kept
WRITERS, OF_EACH = 4, 2  # partitions of each writer
PLACES = WRITERS * OF_EACH
OPTIONS = ("--clean-at", "1", "--clean-lag", "0", "--clean-within", "1", "--keep-deletes", str(KEEP))
TOPICS = (f"c:{PLACES}", f"{SHARED.decode()}:2")
KEYS = [b"k%d" % number for number in range(12)]
ALL = 1 << 20  # bytes of a Fetch
CLOCK = 0.005  # seconds: a policy's times are whole milliseconds
KILLS, SEED, IN_THE_GATE = 60, 11, 40  # (seconds, in the gate)


# ---- what readers are shown


def records_in(data):
    """Of each record of a Fetch its offset, its key, and whether it is a deletion."""
    for base, _, content in kept_kills.batches_in(data):
        batch = logs.view(data_of(base, content))[0]
        for offset, key, value in batch.held():
            yield offset, key, value is None


def data_of(base, content):
    return struct.pack(">q", base) + content


class Shown:
    """Of a partition: the last record of each key that was acknowledged, and until when which records of it were shown. `start` is the
    offset to which a trim was asked for, and `begin` that to which one was acknowledged."""

    def __init__(self):
        self.start = self.begin = 0
        self.last = {}  # of each key its offset, and whether it is a deletion
        self.shown = collections.defaultdict(dict)  # of each key the offsets, with the last moment at which they could be shown

    def acknowledged(self, offset, key, is_deletion):
        self.last[key] = offset, is_deletion

    def show(self, asked, offset, key):
        """It was asked for at a moment, so that it was shown then or later."""
        self.shown[key][offset] = max(asked, self.shown[key].get(offset, asked))

    def must_show(self, key, offset, is_deletion, over):
        """Whether a look that is over by a moment must have come to this last record of a key, or to a later one."""
        if not is_deletion:
            return True
        seen = [asked for before, asked in self.shown[key].items() if before < offset]
        return bool(seen) and over < max(seen) + KEEP - CLOCK

    def forget(self, start):
        """Records below a start are nothing that must be found."""
        self.start = max(self.start, start)


# ---- connections


class FromTheStart(Asker):
    """Reads a partition from its beginning to its end, and then another one."""

    def __init__(self, number, world):
        super().__init__(number, world)
        self.index = None

    def begin(self, started):
        super().begin(started)
        self.index = None

    def next_request(self):
        if self.index is None:
            self.index, self.found = self.drawn.randrange(PLACES), {}
            self.offset, self.last = self.world.shown[self.index].begin, dict(self.world.shown[self.index].last)
        asked = [-1, 0, 1, ALL, 0, [[CLEANED, [[self.index, self.offset, self.drawn.choice([2_000, ALL, ALL])]]]]]
        moment = time.monotonic()
        self.ask(FETCH, asked, lambda values: self.fetched(values, moment))

    def fetched(self, values, moment):
        _, code, end, _, _, data = one_answer(values[1])
        if code:  # (its start was moved above the offset)
            same("the code of a Fetch", code, 1)
            self.index = None
            return
        shown, following = self.world.shown[self.index], self.offset
        for offset, key, _ in records_in(data):
            shown.show(moment, offset, key)
            self.found[key] = max(offset, self.found.get(key, offset))
        for base, count, _ in kept_kills.batches_in(data):
            following = max(following, base + count)
        if data and following < end:
            self.offset = following
            return
        self.is_through(shown)

    def is_through(self, shown):
        over = time.monotonic()
        for key, (offset, is_deletion) in self.last.items():
            if offset < shown.start or not shown.must_show(key, offset, is_deletion, over):
                continue
            found_ = self.found.get(key, -1)
            what = "deletion" if is_deletion else "record"
            holds(f"the {what} of {key} at {offset} of c:{self.index} isn't found, but {found_}", found_ >= offset)
        self.world.looks += 1
        self.index = None


class Writer(Asker):
    """Has some partitions to itself, and changes nothing by what others ask. Each reply must be that of the model without cleaning."""

    depth = 3

    def __init__(self, number, world):
        super().__init__(number, world)
        self.node = broker.Broker(True, [(CLEANED, PLACES)])
        first = number % WRITERS * OF_EACH
        self.own, self.sequence, self.again = range(first, first + OF_EACH), {}, []

    def records(self, count):
        drawn = self.drawn
        values = [drawn.choice([None, None, b"%d" % next(self.numbers), b"v" * 300, b"v" * 3_000]) for _ in range(count)]
        return [batches.record(delta, drawn.choice(KEYS), it, [], {}) for delta, it in enumerate(values)]

    def produce(self, place):
        data = batches.batch(self.records(self.drawn.randrange(1, 5)), {})
        return PRODUCE, [None, 1, 1000, [[CLEANED, [[place, data]]]]]

    def idempotent(self, place):
        count, sequence = self.drawn.randrange(1, 3), self.sequence.get(place, 0)
        self.sequence[place] = sequence + count
        fields = {"producer": 10**9 + self.number, "epoch": 0, "sequence": sequence}
        return PRODUCE, [None, 1, 1000, [[CLEANED, [[place, batches.batch(self.records(count), fields)]]]]]

    def get(self, place):
        return GET, [CLEANED, place, self.drawn.choice(KEYS)]

    def cover(self, place):
        return COVER, [CLEANED, place]

    def ends(self, place):
        return LISTOFFSETS, [-1, [[CLEANED, [[place, self.drawn.choice([-1, -2])]]]]]

    def trim(self, place):
        """To where it ends: then a copy may start there whatever it keeps."""
        return TRIM, [CLEANED, place, self.node.copy(CLEANED, place).end()]

    DRAWS = [produce] * 14 + [idempotent] * 10 + [get] * 6 + [cover, ends]

    def next_request(self):
        correlation = next(self.numbers)
        if self.again:
            kind, frame, is_sent_again = *self.again.pop(0), True
            frame = frame[:8] + struct.pack(">i", correlation) + frame[12:]
        else:
            draw = Writer.trim if self.drawn.random() < 0.002 and not self.waiting else self.drawn.choice(self.DRAWS)
            kind, values = draw(self, self.drawn.choice(self.own))
            frame, is_sent_again = framed(kind, correlation, values), draw == Writer.idempotent
        if kind == TRIM:
            self.forget(frame)
        self.send(correlation, kind, frame, True, is_sent_again)

    def take(self, asked, response):
        wanted = self.done(asked.frame)
        same(f"the reply to {asked.kind} of connection {self.number}", wire.framed(response), wanted)

    def done(self, frame):
        """The model does it too; what is stored then is acknowledged, or there by now."""
        before = {place: self.node.copy(CLEANED, place).end() for place in self.own}
        reply = self.node.reply(frame[4:])
        for place, end in before.items():
            self.world.shown[place].begin = self.node.copy(CLEANED, place).start
            for batch in self.node.copy(CLEANED, place).kept.values() if self.node.copy(CLEANED, place).end() > end else ():
                if batch.base >= end:
                    for offset, key, value in batch.held():
                        self.world.shown[place].acknowledged(offset, key, value is None)
        return reply

    def forget(self, frame):
        """What a trim takes needn't be found from now on."""
        place = wire.parsed(frame[4:])[2][1]
        self.world.shown[place].forget(self.node.copy(CLEANED, place).end())

    def is_here(self, seen):
        """Whether the model shows the same of each partition: where it begins and ends, and the value of each key."""
        return all(seen[place] == self.seen(self.node_values, place) for place in self.own)

    def seen(self, values, place):
        """The start, the end, and each key's value, by some way of asking."""
        begin, end = (one_answer(values(LISTOFFSETS, [-1, [[CLEANED, [[place, time_]]]]])[0])[3] for time_ in (-2, -1))
        return [begin, end, *(values(GET, [CLEANED, place, key])[1] for key in KEYS)]

    def node_values(self, kind, values):
        reply = self.node.reply(framed(kind, 0, values)[4:])
        return wire.read(["i", *wire.REQUESTS[kind][1]], reply, 4)[0][1:]

    def check(self, reader):
        """The partitions must be as the model has them behind what was answered, or some of the requests behind it."""
        seen = {place: self.seen(reader.values, place) for place in self.own}
        left = [it for it in self.waiting if it.kind in (PRODUCE, TRIM)]
        while not self.is_here(seen):
            holds(f"connection {self.number}'s partitions are behind no front of what it asked", bool(left))
            self.done(left.pop(0).frame)
        self.again = [(it.kind, it.frame) for it in self.waiting if it.about] + self.again
        self.sequence = {place: self.following(place) for place in self.own}

    def following(self, place):
        """The sequence number behind the last batch of its producer."""
        own = [it for it in self.node.copy(CLEANED, place).batches() if it.producer == 10**9 + self.number]
        return own[-1].sequence + own[-1].last + 1 if own else self.sequence_behind_a_trim(place)

    def sequence_behind_a_trim(self, place):
        """A producer of which nothing is kept begins anew."""
        return 0


class Cleaner(Asker):
    """Sends Cleans too, which take no deletion."""

    def next_request(self):
        place = self.drawn.randrange(PLACES)
        self.ask(CLEAN, [CLEANED, place, self.drawn.randrange(2_000), 0], lambda values: same("the code of a Clean", values[0], 0))
        self.can_send_next = time.monotonic() + 0.05

    def step(self, can_read):
        self.depth = 1 if time.monotonic() >= getattr(self, "can_send_next", 0) else 0
        super().step(can_read)


# ---- a directory


class CleaningKept(Kept):
    """A broker that may say of its file of marks that it isn't behind these journals, since it took a snapshot and had not written it
    anew."""

    def said(self):
        is_soon(lambda: self.at_the_start())
        same("lines at the start", len(self.at_the_start()), 1)
        return self.at_the_start()[0]

    def at_the_start(self):
        return [it for it in plainly(Ends([*self.lines]).others) if it != OF_ANOTHER.format("OfAnotherJournal")]


class CleaningWorld(kept_kills.World):
    """What is known of one directory's broker that cleans itself."""

    broker = CleaningKept
    kinds = [Writer] * WRITERS + [FromTheStart] * 6 + [Cleaner] + [Identified] + [Committer] * 2
    options, topics, lives, most_answers = OPTIONS, TOPICS, ([0.02, 1, 3], 4), 6_000
    reading = (FETCH, OFFSETS, GET, COVER, LISTOFFSETS)
    totals = collections.Counter()  # over all directories

    def __init__(self, *given, **more):
        self.shown, self.looks = [Shown() for _ in range(PLACES)], 0
        super().__init__(*given, **more)

    def check_line(self, line):
        """Its own cleanings are frames too, so that there may be any number of them beside those that were asked."""
        if line != new(self.folder) and found(line)[0] == 1:
            self.most = max(self.most, found(line)[1])
        super().check_line(line)

    def check_logs(self, reader):
        pass

    def live_on(self):
        super().live_on()
        self.totals["looks"] += self.looks
        self.totals["lives with passes"] += bool(self.started.passes)
        self.totals["files that weren't believed"] += len(of_marks(self.started.lines))
        self.totals["files of marks that were there at a kill"] += os.path.exists(f"{self.folder}/{CLEANINGS}")
        self.looks = 0

    def kept(self, *arguments):
        self.started = super().kept(*arguments)
        return self.started

    def said(self):
        return "".join(f"; {count} {what}" for what, count in sorted(self.totals.items()))


def run(program, kills, seed, seconds, after=None, there=None):
    """As kept_kills.run, with a broker that cleans itself."""
    CleaningWorld.totals.clear()
    return kept_kills.run(program, kills, seed, seconds, after, there, CleaningWorld)


@slow(RANDOM)
def cleaning_kills(program):
    """As often as in the gate; passes must have been told, and partitions read to their ends."""
    said = run(program, KILLS, SEED, IN_THE_GATE)
    holds(f"nothing was cleaned or read: {said}", CleaningWorld.totals["lives with passes"] > 5 and CleaningWorld.totals["looks"] > 100)


@slow(RANDOM)
def rotating_kills(program):
    """The same while snapshots are taken often."""
    said = run(program, KILLS // 2, SEED + 1, IN_THE_GATE, kept_kills.AFTER)
    holds(f"no snapshot was taken: {said}", not said.endswith("; 0 snapshots"))


CASES = [
    ("kills at random moments while it cleans", cleaning_kills),
    ("kills at random moments while it cleans, with snapshots", rotating_kills),
]
