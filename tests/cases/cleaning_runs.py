"""A `kbroker start` that cleans by itself: its options, what is sent to it, and what must be left, by the plain model."""
import concurrent.futures
import functools
import os
import shlex
import struct
import tempfile
import time

from cases.kept_runs import exported
from cases.started import SECONDS, Fault, Started, holds, is_soon, request, same
from models import broker, kept_files

# A pass begins a second behind what came, however little that is, and up to the end.
SOON = ("--clean-at", "99", "--clean-lag", "0", "--clean-within", "1")
# The same of the share alone: of 64 kB and more.
BY_SHARE = ("--clean-at", "1", "--clean-lag", "0")
LEAST_DIRTY = 65_536  # bytes, below which no share makes a pass due
PATIENCE = 60  # seconds that a busy machine has for some passes
BRIEF = 0.05  # seconds between looks


class Cleaned:
    """A broker that is asked, and the plain model that is asked likewise; the model is cleaned once, up to its ends, where the broker
    must have come to the same by its own passes."""

    def __init__(self, topics, leads=True):
        self.node = broker.Broker(leads, kept_files.topics_of(topics))

    def ask(self, client, words):
        frame = request(words)
        wanted = self.node.reply(frame[4:])
        client.send(frame)
        client.gets(wanted, f"the reply to {words[:60]}")

    def places(self):
        return [(name, index) for name, copies in self.node.topics.items() for index in range(len(copies))]

    def clean(self, takes_deletions=False):
        """What passes up to the ends leave: with the deletions that may go, or without."""
        for name, index in self.places():
            end = self.node.copy(name, index).end()
            upto = (end, end if takes_deletions else 0)
            self.node.reply(request(f"clean {name.decode()}:{index} {upto[0]} {upto[1]}")[4:])

    def image(self, name, index):
        return exported(self.node.copy(name, index).image())

    def is_so(self, client, places=None):
        """Whether the broker has each partition as the model has it, byte for byte."""
        places = self.places() if places is None else places
        client.send(b"".join(request(f"export {name.decode()}:{index}") for name, index in places))
        given = [whole_reply(client) for _ in places]
        return all(it == self.image(*place) for it, place in zip(given, places))

    def comes_to_be_so(self, broker_, what, places=None, seconds=PATIENCE):
        with broker_.client() as client:
            holds(f"{what}: it isn't as the model has it, behind {seconds} s", is_soon(lambda: self.is_so(client, places), seconds))

    def stays_so(self, broker_, what, seconds):
        """For so long each look must find it as it is."""
        late = time.monotonic() + seconds
        with broker_.client() as client:
            while time.monotonic() < late:
                holds(f"{what}: it isn't as the model has it", self.is_so(client))
                time.sleep(BRIEF)


def whole_reply(client):
    """The next response with its size."""
    size = client.receive(4)
    return size + client.receive(struct.unpack(">i", size)[0])


def image_size(client, place):
    client.send(request(f"export {place}"))
    return len(whole_reply(client)) - len(exported(b""))


def first_offset(client, place):
    """The offset of the first record that a Fetch shows; none where it shows none."""
    client.send(request(f"fetch wait=0 {place} 0"))
    data = whole_reply(client)
    shown = data[4 + 4 + 4 + 4 + 2 + 1 + 4 + 4 + 2 + 8 + 8 + 4 + 4 :]
    return struct.unpack(">q", shown[:8])[0] if shown else None


def overwrite(asked, client, place, keys, count, size=200):
    """So many batches with one record each, of a few keys, and a value that differs."""
    for number in range(count):
        asked.ask(client, f"produce {place} batch k{number % keys}={number}-{{v*{size}}}")


def started(program, *arguments, topics=("t:2",), **ways):
    return Started(program, *arguments, topics=topics, **ways)


def is_told(broker_, line):
    """The line of a start must be said, once."""
    holds(f"no line {line!r} in {broker_.notices}", is_soon(lambda: line in broker_.notices, SECONDS))
    same(f"how often it is said, in {broker_.notices}", broker_.notices.count(line), 1)


def beside_each_other(*cases):
    """Cases that wait long, as one that waits for all of them at once."""

    def tried(program):
        with concurrent.futures.ThreadPoolExecutor(len(cases)) as pool:
            running = [(case, pool.submit(case, program)) for case in cases]
        for case, it in running:
            if why := it.exception():
                raise Fault(f"{case.__name__}: {why}")

    return tried


def with_cleaning(case, *arguments):
    """A case of `kbroker start` of which each start cleans by itself, all the time unless it is said how."""
    words = " ".join(arguments or SOON)

    @functools.wraps(case)
    def tried(program):
        with tempfile.TemporaryDirectory() as folder:
            cleaning = f"{folder}/kbroker"
            with open(cleaning, "w", encoding="utf-8") as file:
                file.write(f'#!/bin/sh\n[ "$1" = start ] && exec {shlex.quote(program)} "$@" {words}\nexec {shlex.quote(program)} "$@"\n')
            os.chmod(cleaning, 0o755)
            case(cleaning)

    return tried
