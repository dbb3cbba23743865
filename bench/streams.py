"""Streams of requests for `session`, of batches that bench/generate.rs makes, and the time that a stream takes."""
import os
import struct
import subprocess
import sys

from timing import run

HERE = os.path.dirname(os.path.realpath(__file__))
sys.path.insert(0, os.path.join(HERE, "..", "tests"))
from encoders import batches, frames

PARTITION = struct.pack(">i", 0)
PLACE = frames.text(b"t") + PARTITION  # of a request for one partition
ENTRY = b"\0\0\0\1" + frames.text(b"t") + b"\0\0\0\1" + PARTITION  # of a request for topics, in front of one entry


def built(folder):
    """The generator."""
    generator = os.path.join(folder, "generate")
    subprocess.run(["rustc", "-O", "--edition", "2024", "-o", generator, f"{HERE}/generate.rs"], check=True)
    return generator


def generated(generator, words):
    """The batches of these arguments, end to end."""
    return subprocess.run([generator, *words.split()], stdout=subprocess.PIPE, check=True).stdout


def batches_of(stream):
    """Each batch of a stream."""
    at = 0
    while at < len(stream):
        size = 12 + struct.unpack_from(">i", stream, at + 8)[0]
        yield stream[at : at + size]
        at += size


def produces(stream):
    """Produce requests, each of one batch."""
    for batch in batches_of(stream):
        yield frames.request(0, 3, struct.pack(">hhi", -1, 1, 1000) + ENTRY + frames.data(batch))


def written(folder, parts):
    """A file of these bytes."""
    stream = os.path.join(folder, "stream")
    with open(stream, "wb") as file:
        for part in parts:
            file.write(part)
    return stream


def best(words, stream, folder, runs):
    """The best time."""
    return min(run(words, stream, os.path.join(folder, "output"))[0] for _ in range(runs))


def more(words, without, parts, times, folder, runs):
    """The time of each of so many more requests, in ns."""
    before = best(words, written(folder, without), folder, runs)
    after = best(words, written(folder, parts), folder, runs)
    return (after - before) / times * 1e9
