"""Requests that are as dear as one of their kind can be, and those that make what they are asked of.

The broker has as many topics as it may, with the longest names, alike but for the last digits, and 64 partitions each;
what is asked for stands in partition 0 of the last one. Names, numbers and limits are those of docs/FORMATS.md.
"""
import functools
import itertools
import random
import struct

from streams import PARTITION, batches, batches_of, frames

from encoders import copies

LIMIT = 8_388_608  # bytes of a frame
BATCH_LIMIT = 1_048_588
STRING = 32_767  # bytes of the longest
BATCHES = 100_000
HEADER = 10  # bytes of a request in front of its fields
TOPICS = [b"%0249d" % number for number in range(64)]
NAME, GROUPS, GROUP = TOPICS[-1], b"__consumer_offsets", b"g"
PLACE = frames.text(NAME) + PARTITION
GROUP_PLACE = frames.text(GROUPS) + PARTITION
FORGOTTEN = TOPICS[:54]  # of which one batch can forget all partitions
END = 1 << 62
LETTERS = b"-.0123456789ABCDEFGHIJKLMNOPQRSTUVWXYZ_abcdefghijklmnopqrstuvwxyz"


def one_topic(entries, name=NAME):
    return struct.pack(">i", 1) + frames.text(name) + frames.array(entries)


def filled(key, front, entry, name=NAME):
    """A request with as many entries of one topic as fit; of each its bytes, which are as many as those of entry 0."""
    version = {0: 3, 1: 4, 2: 1, 8: 2, 9: 1}[key]
    count = (LIMIT - HEADER - len(front) - len(one_topic([], name))) // len(entry(0))
    return frames.request(key, version, front + one_topic([entry(number) for number in range(count)], name))


def emptied(key, version, front, tail=b""):
    """A request with as many topics without a name and without entries as fit."""
    count = (LIMIT - HEADER - len(front) - len(tail) - 4) // 6
    return frames.request(key, version, front + struct.pack(">i", count) + bytes(6 * count) + tail)


def each_partition(names, entry):
    """Topics with all their partitions."""
    entries = frames.array([struct.pack(">i", number) + entry for number in range(64)])
    return frames.array([frames.text(it) + entries for it in names])


# Keys of 16 bytes that end with these eight have one hash, and so have the group records of a partition whose groups
# are four bytes and these: the hash multiplies by their exclusive or with this number, which is 0.
MULTIPLIER = struct.pack("<Q", 0x9E3779B97F4A7C15)


def of_one_hash(number):
    return struct.pack(">Q", number) + MULTIPLIER


# ---- batches


def at(base, batch):
    return struct.pack(">q", base) + batch[8:]


@functools.cache
def most_records(room=BATCH_LIMIT):
    """The batch of as many records as fit, each of its own key, the last one of a time later than any in a log."""
    made, size = [], 61
    while size < room - 20:
        made.append(batches.record(len(made), len(made).to_bytes(3, "big"), b"", [], {}))
        size += len(made[-1])
    last = len(made) - 1
    made[last] = batches.record(last, last.to_bytes(3, "big"), b"", [], {"time": 10_000_000})
    return batches.batch(made, {})


@functools.cache
def largest_record():
    return batches.batch([batches.record(0, b"k", bytes(BATCH_LIMIT - 80), [], {})], {})


@functools.cache
def most_headers(room):
    return batches.batch([batches.record(0, b"k", b"", [(b"", None)] * ((room - 80) // 2), {})], {})


EIGHTH = (LIMIT - HEADER - 8 - len(one_topic([]))) // 8 - 8  # bytes of a batch of which a Produce has eight


def own_producer(number):
    """A small batch of a producer that has no other."""
    return batches.batch([batches.record(0, b"k", b"", [], {})], {"producer": number, "epoch": 0, "sequence": 0})


def positions(count, records, group=GROUP):
    """Batches of so many records that show commits of a group, each of another partition."""
    for first in range(0, count, records):
        made = []
        for number in range(first, min(count, first + records)):
            key = struct.pack(">h", 1) + frames.text(group) + frames.text(b"") + struct.pack(">i", number)
            made.append(batches.record(number - first, key, struct.pack(">hqh", 0, number, -1), [], {}))
        yield batches.batch(made, {"base": first})


def position_among_most():
    """One batch: a commit, and behind it as many records as fit of other keys."""
    key = struct.pack(">h", 1) + frames.text(GROUP) + frames.text(NAME) + PARTITION
    made = [batches.record(0, key, struct.pack(">hqh", 0, 7, -1), [], {})]
    size = 61 + len(made[0])
    while size < BATCH_LIMIT - 20:
        made.append(batches.record(len(made), b"", b"", [], {}))
        size += len(made[-1])
    return batches.batch(made, {})


# ---- requests


def produce_entry(batch):
    return PARTITION + frames.data(batch)


def produce(sent):
    return frames.request(0, 3, struct.pack(">hhi", -1, 1, 1000) + one_topic([produce_entry(it) for it in sent]))


def produces(stream):
    """Produce requests of a thousand batches each."""
    sent = batches_of(stream)
    while some := list(itertools.islice(sent, 1000)):
        yield produce(some)


def produce_many(make):
    return filled(0, struct.pack(">hhi", -1, 1, 1000), lambda number: produce_entry(make(number)))


def small(number):
    """A small batch with a key of its own."""
    return batches.batch([batches.record(0, number.to_bytes(3, "big"), b"", [], {})], {})


def small_of_one_hash(number):
    return batches.batch([batches.record(0, of_one_hash(number), b"", [], {})], {})


FETCH = struct.pack(">iiiib", -1, 0, 0, LIMIT, 0)


def fetch(offset_of, limit):
    return filled(1, FETCH, lambda number: PARTITION + struct.pack(">qi", offset_of(number), limit))


def fetch_one(offset):
    return frames.request(1, 4, FETCH + one_topic([PARTITION + struct.pack(">qi", offset, LIMIT)]))


def anywhere():
    """Offsets of the log at random."""
    numbers = random.Random(1)
    return lambda _: numbers.randrange(BATCHES)


def list_offsets(time_of):
    return filled(2, struct.pack(">i", -1), lambda number: PARTITION + struct.pack(">q", time_of(number)))


def any_time(number):
    return number * 7919 % (10 * BATCHES)


def metadata(names):
    return frames.request(3, 1, frames.array([frames.text(it) for it in names]))


def own_names():
    """Names of four letters, all different."""
    return (bytes(it) for it in itertools.islice(itertools.product(LETTERS, repeat=4), (LIMIT - HEADER - 4) // 6))


def own_bytes():
    """Names of three bytes, all different, most of them none of a topic."""
    return (number.to_bytes(3, "big") for number in range((LIMIT - HEADER - 4) // 5))


def names_of_one_hash():
    return (of_one_hash(number) for number in range((LIMIT - HEADER - 4) // 18))


def commit_front(group):
    return frames.text(group) + struct.pack(">ihq", -1, 0, -1)


def commit(group, names, metadata=b""):
    """An OffsetCommit to all partitions of some topics."""
    entry = struct.pack(">q", 7) + frames.text(metadata)
    return frames.request(8, 2, commit_front(group) + each_partition(names, entry))


def commit_many(group):
    return filled(8, commit_front(group), lambda number: struct.pack(">iqh", number % 64, number, -1))


def others():
    """OffsetCommit requests of one entry, each of another group."""
    for number in range(BATCHES):
        entry = PARTITION + struct.pack(">q", number) + frames.text(b"")
        yield frames.request(8, 2, commit_front(b"other%d" % number) + one_topic([entry]))


def fetch_offsets(group, names):
    """An OffsetFetch of 8,192 partitions, all those of these topics over and over."""
    names = list(itertools.islice(itertools.cycle(names), 128))
    return frames.request(9, 1, frames.text(group) + each_partition(names, b""))


def forget(group):
    return frames.request(20006, 0, frames.text(group))


def own(key, rest=b"", version=0, place=PLACE):
    return frames.request(key, version, place + rest)


def deliver(batch):
    return own(20000, frames.data(batch))


def clean(place=PLACE):
    return own(20001, struct.pack(">qq", END, END), 0, place)


def export(asked=None):
    return own(20002) if asked is None else own(20002, frames.array(copies.packed(asked)), 1)


def import_image(ranges, kept, place=PLACE):
    return own(20003, frames.data(copies.image(ranges, kept, {})), 0, place)


def import_delta(ranges, asked, entries):
    return own(20003, frames.data(copies.delta(ranges, asked, entries, {})), 1)


def get(key):
    return own(20004, frames.data(key))


def trim(start):
    return own(20007, struct.pack(">q", start))


def apart(count, first=0):
    """Ranges of one offset, with one between any two."""
    return [(offset, offset) for offset in range(first, first + 2 * count, 2)]


def most_apart(taken, first=0):
    """As many as fit beside so many bytes."""
    return apart((LIMIT - HEADER - len(PLACE) - 4 - taken) // 16, first)


def in_row(made, first=0):
    """The ranges of batches that stand one behind the other from this offset on, and these batches."""
    placed, base = [], first
    for it in made:
        placed.append(at(base, it))
        base += 1 + struct.unpack_from(">i", it, 23)[0]
    return [(first, base - 1)], placed


def listed(base, offsets):
    return struct.pack(">bqi", 0, base, len(offsets)) + b"".join(struct.pack(">q", it) for it in offsets)
