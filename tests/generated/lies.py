"""Rows of batches, images and deltas of which one byte is another one, each byte and each other one in turn.

What must come is said of each place by docs/FORMATS.md, and worked by the encoders beside this file.
"""
import functools
import struct

from encoders import copies, frames
from generated import counts, exchanges
from models import broker, logs, wire

BATCH = counts.ONE  # 70 bytes
BASE, LENGTH, EPOCH, MAGIC, CRC = range(8), range(8, 12), range(12, 16), 16, range(17, 70)
OFFSETS = 2**62
GREATEST_LENGTH = 1_048_576
OUT_OF_RANGE, CORRUPT, TOO_LARGE, NO_FORMAT = 1, 2, 10, 43


def with_byte(data, at, value):
    return data[:at] + bytes([value]) + data[at + 1 :]


def others(data, places):
    """The bytes with each other byte at each of these places: the place, and what they are then."""
    return [(at, with_byte(data, at, value)) for at in places for value in range(256) if value != data[at]]


def code_of(at, data):
    """What a leader answers to a batch with another byte there, whose crc is that of before."""
    if at in BASE or at in EPOCH:
        return 0
    if at == MAGIC:
        return NO_FORMAT
    if at in LENGTH:
        # a length below 49, a crc of fewer bytes, and bytes that are missing
        return TOO_LARGE if struct.unpack(">i", data[8:12])[0] > GREATEST_LENGTH else CORRUPT
    return CORRUPT


def changed_and_produced():
    """The head that is accepted gets the log's next offset, and epoch 0."""
    sent = others(BATCH, range(len(BATCH)))
    answers, end = [], 0
    for at, data in sent:
        code = code_of(at, data)
        answers.append((code, end if code == 0 else -1))
        end += code == 0
    stored = b"".join(counts.at(n) for n in range(end))
    return counts.row(
        "t:1",
        [
            (counts.produce([data for _, data in sent]), counts.produced(answers)),
            (counts.fetch([0]), counts.fetched(end, [stored])),
        ],
    )


def deliver(place, data):
    return copies.of_copy(20000, place, lambda _: frames.data(data))


def delivered(code):
    return frames.response(struct.pack(">hb", code, 0))


def runs_of(offsets):
    """The ranges of rising offsets."""
    found = []
    for it in offsets:
        if found and found[-1][1] == it - 1:
            found[-1] = (found[-1][0], it)
        else:
            found.append((it, it))
    return found


def kept(place, known):
    """An Export of a copy with these batches, by their base offsets."""
    return counts.exported(place, counts.image(runs_of(sorted(known)), [known[it] for it in sorted(known)]))


def changed_and_delivered():
    """The head that is accepted is kept as it is."""
    exchanges, by_base, by_epoch = [], {}, {}
    for _, data in others(BATCH, BASE):
        base = struct.unpack(">q", data[:8])[0]
        is_offset = 0 <= base < OFFSETS
        exchanges.append((deliver("t:0", data), delivered(0 if is_offset else OUT_OF_RANGE)))
        by_base |= {base: data} if is_offset else {}
    for number, (_, data) in enumerate(others(BATCH, EPOCH)):
        by_epoch[number] = counts.at(number, data)
        exchanges.append((deliver("t:1", by_epoch[number]), delivered(0)))
    for at, data in others(BATCH, [*LENGTH, MAGIC, *CRC]):
        exchanges.append((deliver("t:2", data), delivered(code_of(at, data))))
    exchanges += [kept("t:0", by_base), kept("t:1", by_epoch), counts.exported("t:2", counts.image([], []))]
    return counts.row("--role follower t:3", exchanges)


# ---- images, with the crc that they have then


def small_images():
    """Of a copy, of a cleaned one, and of one with a start; and the first of version 0."""
    made = [logs.Copy([(0, 4)], exchanges.log_of_four()) for _ in range(3)]
    made[1].clean(5, 5)
    made[2].trim(2)
    first = [it.encoded() for it in exchanges.log_of_four()]
    return [it.image() for it in made] + [copies.image([(0, 4)], first, {"version": 0})]


def changed_images(number):
    """A follower that has seen an offset is given an image with each byte another, in four ways, and with each cut; the replies
    are those of tests/models/broker.py."""
    node, given, wanted = broker.Broker(False, [(b"t", 1)]), [], []

    def send(kind, *data):
        frame = wire.written(["h", "h", "i", "S", *wire.REQUESTS[kind][0]], [*kind, 7, None, b"t", 0, *data])
        given.append(wire.framed(frame))
        wanted.append(node.reply(frame))

    send((20000, 0), exchanges.log_of_four()[0].encoded())
    before = node.copy(b"t", 0).image()
    for data in exchanges.changed(small_images()[number]):
        send((20003, 0), data)
        if node.copy(b"t", 0).image() != before:
            send((20002, 0))
            before = node.copy(b"t", 0).image()
    arguments = [b"session", b"--role", b"follower", b"t:1"]
    return {"arguments": arguments, "data": b"".join(given), "stdout": b"".join(wanted)}


# ---- an image and a delta with each byte another one, and the crc that they had


def changed_and_imported():
    """None is taken, and the copy stays."""
    image = copies.input_of("image 0-2 batch base:1 b=2", None)
    delta = copies.input_of("delta version:0 0-2 0-0 list 0 0 + batch base:1 b=2", None)
    exchanges = [(deliver("t:0", BATCH), delivered(0))]
    for version, data in ((0, image), (1, delta)):
        for _, lie in others(data, range(len(data))):
            request = copies.of_copy(20003, "t:0", lambda _, held=lie: frames.data(held), version)
            exchanges.append((request, frames.response(struct.pack(">h", CORRUPT))))
    exchanges += [counts.exported("t:0", counts.image([(0, 0)], [BATCH])), counts.patched("t:0", delta)]
    return counts.row("--role follower t:1", exchanges)


def rows():
    """The name of each row, why tests/quick leaves it out, if it does, and what makes its fields."""
    return [
        ("a batch of which any byte is another, produced", None, changed_and_produced),
        ("a batch of which any byte is another, delivered", None, changed_and_delivered),
        ("an image and a delta of which any byte is another", None, changed_and_imported),
        *((f"small image {it}, with each byte changed", None, functools.partial(changed_images, it)) for it in range(4)),
    ]
