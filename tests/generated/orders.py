"""Streams of many batches in different orders, each with the table that `kbroker table` must print of it.

They are large enough that a log of them has more segments than one block of their list takes, whatever order they come in.
"""
import random
import struct

from encoders.batches import batch, record

BATCHES = 12_000
KEYS = 5_000
VALUE_BYTES = 250


def key_of(number):
    return b"key%05d" % (number * 7_919 % KEYS)


def value_of(number):
    return b"%0*d" % (VALUE_BYTES, number)


NAMES = ["in order", "reversed", "even and odd", "shuffled"]


def orders():
    """Orders of so many batches, as they are named above."""
    numbers = range(BATCHES)
    shuffled = list(numbers)
    random.Random(1).shuffle(shuffled)
    return [numbers, numbers[::-1], [*numbers[::2], *numbers[1::2]], shuffled]


def streams():
    """Streams of batches of one record, each with its table: each key has the value of its last offset."""
    all_batches = [batch([record(0, key_of(it), value_of(it), [], {})], {"base": it}) for it in range(BATCHES)]
    table = {key_of(it): value_of(it) for it in range(BATCHES)}
    printed = b"".join(b"%s=%s\n" % (key, table[key]) for key in sorted(table))
    return [(b"".join(all_batches[it] for it in order), printed) for order in orders()]


# ---- ten million batches

MILLIONS = 10_000_000
BLOCK = 100_000
LAST = b"a=2\n"  # the table


def millions():
    """Ten million batches of one record of one key, and one more with its last value, in blocks. A base offset stands before
    what a batch's crc covers."""
    one = batch([record(0, b"a", b"1", [], {})], {})
    block = bytearray(one * BLOCK)
    for first in range(0, MILLIONS, BLOCK):
        for at in range(BLOCK):
            struct.pack_into(">q", block, at * len(one), first + at)
        yield bytes(block)
    yield batch([record(0, b"a", b"2", [], {})], {"base": MILLIONS})
