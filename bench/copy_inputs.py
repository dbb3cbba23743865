"""Inputs for `kbroker replay` and `kbroker merge`, each with what the program must write.

    copy_inputs.py NAME

writes the input of this name to standard output. The same name gives the same bytes. Batches and images are written
from their formats (docs/FORMATS.md), by the encoder of tests/encoders/batches.py.
"""
import functools
import os
import random
import struct
import sys

sys.dont_write_bytecode = True
sys.path.insert(0, os.path.join(os.path.dirname(os.path.realpath(__file__)), "..", "tests"))
from encoders.batches import batch, crc32c, record

BATCHES = 100_000
VALUE_BYTES = 100


def pairs(count, keys):
    """So many pairs of a key and a value, of so many keys."""
    numbers = random.Random(1)
    for _ in range(count):
        value = f"{numbers.getrandbits(4 * VALUE_BYTES):0{VALUE_BYTES}x}"
        yield f"key{numbers.randrange(keys):07}", value


# ---- scripts


def script(lines):
    return "".join(f"{line}\n" for line in lines).encode()


def delivered():
    """Batches of one record, each delivered to a second copy as soon as it was appended."""
    given, wanted = ["copies 2"], []
    for number, (key, value) in enumerate(pairs(BATCHES, 50_000)):
        given += [f"produce {key}={value}", f"deliver 1 {number}"]
        wanted += [f"base {number}", "added"]
    return script(given + ["cover 1"]), script(wanted + [f"0-{BATCHES - 1}"])


def produced_by(producers):
    """Batches of one record, of so many producers in turn."""
    given, wanted = ["copies 1"], []
    for number, (key, value) in enumerate(pairs(BATCHES, 50_000)):
        given.append(f"produce-as {number % producers} 0 {number // producers} {key}={value}")
        wanted.append(f"base {number}")
    return script(given), script(wanted)


def produced_by_one():
    """Those of one producer."""
    return produced_by(1)


def produced_by_a_thousand():
    """Those of 1,000 producers."""
    return produced_by(1_000)


def produced_by_each():
    """Those of as many producers as there are batches."""
    return produced_by(BATCHES)


def trimmed():
    """Those of 1,000 producers, and a start that moves to the half of them."""
    given, wanted = produced_by(1_000)
    return given + script([f"trim 0 {BATCHES // 2}"]), wanted + script(["trimmed"])


CLEANED_BATCHES = 20_000
CLEANED_RECORDS = 50
CLEANED_KEYS = 10_000


@functools.lru_cache(maxsize=1)
def many_records():
    """Batches of many records: the script and what it prints."""
    given, wanted = ["copies 1"], []
    records = list(pairs(CLEANED_BATCHES * CLEANED_RECORDS, CLEANED_KEYS))
    for base in range(0, len(records), CLEANED_RECORDS):
        items = " ".join(f"{key}={value}" for key, value in records[base : base + CLEANED_RECORDS])
        given.append(f"produce {items}")
        wanted.append(f"base {base}")
    return script(given), script(wanted)


def produced(more=(), answers=()):
    """Batches of many records, and then these lines."""
    given, wanted = many_records()
    return given + script(more), wanted + script(answers)


def cleaned(more=(), answers=()):
    """Those, cleaned, and then these lines."""
    latest = {key: offset for offset, (key, _) in enumerate(pairs(CLEANED_BATCHES * CLEANED_RECORDS, CLEANED_KEYS))}
    end = CLEANED_BATCHES * CLEANED_RECORDS
    left = {offset // CLEANED_RECORDS for offset in latest.values()}
    report = f"cleaned {end - len(latest)} 0 {CLEANED_BATCHES - len(left)}"
    return produced([f"clean 0 {end} {end}", *more], [report, *answers])


def cleaned_twice():
    """Those, cleaned twice."""
    end = CLEANED_BATCHES * CLEANED_RECORDS
    return cleaned([f"clean 0 {end} {end}"], ["cleaned 0 0 0"])


@functools.lru_cache(maxsize=1)
def half_delivered():
    """Batches of one record, half of them delivered to a second copy: the script and what it prints."""
    given, wanted = ["copies 2"], []
    for number, (key, value) in enumerate(pairs(BATCHES, 50_000)):
        given.append(f"produce {key}={value}")
        wanted.append(f"base {number}")
    for number in range(BATCHES // 4, BATCHES - BATCHES // 4):
        given.append(f"deliver 1 {number}")
        wanted.append("added")
    return script(given), script(wanted)


def halved(more=(), answers=()):
    """Batches of one record, half of them delivered to a second copy, and then these lines."""
    given, wanted = half_delivered()
    return given + script(more), wanted + script(answers)


def sent(more=(), answers=()):
    """Those, the first copy sent, and then these lines."""
    return halved(["send 0", *more], ["image 0", *answers])


def merged(more=(), answers=()):
    """Those, the image merged into the second copy, and then these lines."""
    return sent(["merge 1 0", "cover 1", *more], ["merged", f"0-{BATCHES - 1}", *answers])


def merged_twice():
    """Those, the image merged again."""
    return merged(["merge 1 0"], ["merged"])


def produced_and_sent():
    """Batches of many records, and an image of them."""
    return produced(["send 0"], ["image 0"])


def received(more=(), answers=()):
    """Batches of many records, an image of them merged into an empty copy, and then these lines."""
    given, wanted = produced(["send 0", "merge 1 0", *more], ["image 0", "merged", *answers])
    return given.replace(b"copies 1", b"copies 2", 1), wanted


def received_again():
    """Those, the image merged again: it is read, and nothing of it is taken."""
    return received(["merge 1 0"], ["merged"])


# ---- images


def runs(numbers):
    """The maximal ranges of rising numbers."""
    ranges = []
    for number in numbers:
        if ranges and ranges[-1][1] == number - 1:
            ranges[-1] = (ranges[-1][0], number)
        else:
            ranges.append((number, number))
    return ranges


def image(batches):
    """The image of a copy that keeps these batches of one record, by their offsets, and has seen nothing else."""
    return image_of(runs(sorted(batches)), batches)


def image_of(ranges, batches):
    """The image of a copy that has seen these ranges and keeps these batches, by their base offsets."""
    body = b"KCPY" + struct.pack(">hqi", 1, 0, len(ranges)) + b"".join(struct.pack(">qq", *it) for it in ranges)
    body += struct.pack(">i", len(batches)) + b"".join(batches[base] for base in sorted(batches))
    return body + struct.pack(">I", crc32c(body))


@functools.lru_cache(maxsize=1)
def log():
    """Batches of one record each, in order."""
    numbered = enumerate(pairs(2 * BATCHES, 50_000))
    return [batch([record(0, key.encode(), value.encode(), [], {})], {"base": base}) for base, (key, value) in numbered]


def at(bases):
    """The batches at these base offsets."""
    return {base: log()[base] for base in bases}


def two_images(left, right):
    """Two images, each behind its size, and the image of the two merged."""
    merged_image = image({**left, **right})
    sized = [struct.pack(">i", len(it)) + it for it in (image(left), image(right))]
    return b"".join(sized), merged_image


def overlapping_images():
    """Two copies, of which each has seen half of what the other has."""
    return two_images(at(range(BATCHES)), at(range(BATCHES // 2, BATCHES + BATCHES // 2)))


def equal_images():
    """One copy twice."""
    return two_images(at(range(BATCHES)), at(range(BATCHES)))


def alternating_images():
    """Two copies, of which one has seen the even offsets and the other the odd ones."""
    return two_images(at(range(0, 2 * BATCHES, 2)), at(range(1, 2 * BATCHES, 2)))


@functools.lru_cache(maxsize=1)
def large_image():
    """The image of the batches of many records."""
    records = list(pairs(CLEANED_BATCHES * CLEANED_RECORDS, CLEANED_KEYS))
    batches = {}
    for base in range(0, len(records), CLEANED_RECORDS):
        chosen = enumerate(records[base : base + CLEANED_RECORDS])
        batches[base] = batch([record(at, key.encode(), value.encode(), [], {}) for at, (key, value) in chosen], {"base": base})
    return image_of([(0, len(records) - 1)], batches)


def image_and_empty():
    """The image of the batches of many records, and that of a copy that has seen nothing."""
    large, empty = large_image(), image_of([], {})
    return b"".join(struct.pack(">i", len(it)) + it for it in (large, empty)), large


INPUTS = [
    delivered,
    produced_by_one,
    produced_by_a_thousand,
    produced_by_each,
    produced,
    cleaned,
    cleaned_twice,
    halved,
    sent,
    merged,
    merged_twice,
    produced_and_sent,
    image_and_empty,
    overlapping_images,
    equal_images,
    alternating_images,
]


def main():
    named = {make.__name__: make for make in INPUTS}
    if len(sys.argv) != 2 or sys.argv[1] not in named:
        sys.exit(f"{__doc__}\nNames: {' '.join(named)}")
    given, _ = named[sys.argv[1]]()
    sys.stdout.buffer.write(given)


if __name__ == "__main__":
    main()
