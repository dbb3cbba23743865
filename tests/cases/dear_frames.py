"""Frames that take long, to `kbroker start`: behind each the other clients have their turn, and idle counts from an answer on."""
import contextlib
import itertools
import struct
import time

from cases.many_clients import ONE_READ
from cases.started import Fault, Started, holds, is_soon, reply, request, same, slow

RECORDS, PIECE = 250, 20  # records of a batch, and batches that are sent in one piece
CLEANED = reply("cleaned 0 0 0 0")  # where each record is the only one of its key
IDLE = 5  # seconds
NAMES = 2_700_000  # of a Metadata
A_WHILE = 0.005  # seconds of processor time: more than a short frame takes, and less than so many names


def fill(client, first, count=PIECE):
    """Puts so many batches into partition 0, the first of which has this number; each record has a key of its own."""
    bases = range(first * RECORDS, (first + count) * RECORDS, RECORDS)
    keys = [[f"k{offset}=v" for offset in range(base, base + RECORDS)] for base in bases]
    client.send(b"".join(request(f"produce t:0 batch {' '.join(it)}") for it in keys))
    client.gets(b"".join(reply(f"produced t:0 0 {base}") for base in bases), "the replies to Produces")


def cleans():
    """Cleans, no two of which are the same: each has to look through the log."""
    return (request(f"clean t:0 {upto} 0") for upto in itertools.count(1_000_000, -1))


def many_in_one_piece(program):
    """Thirty Cleans come in one piece, which one read takes, and then a Produce of another client, before the broker looks at either.
    The record has the key of one that is there, so the first Clean behind it takes that one: few Cleans come before. All are
    answered, though nothing more comes of the first client."""
    count = 30
    with Started(program) as broker, broker.client() as dear, broker.client() as other:
        fill(dear, 0)
        frames = cleans()
        with broker.stands_still():
            dear.send(b"".join(itertools.islice(frames, count)))
            other.send(request("produce t:0 batch k0=w"))
        other.gets(reply(f"produced t:0 0 {PIECE * RECORDS}"))
        told = [dear.receive(len(CLEANED)) for _ in range(count)]
        others = [number for number, it in enumerate(told) if it != CLEANED]
        same("the replies to Cleans that take something", [told[it] for it in others], [reply("cleaned 0 1 0 0")])
        holds(f"{others[0]} of {count} Cleans were answered before another client's request", others[0] <= 2)


def cheap_ones_behind(program):
    """Behind a Clean stand requests of other kinds, another Clean, and the first half of a frame: all are answered, in order."""
    with Started(program) as broker, broker.client() as client:
        fill(client, 0)
        frames, half = cleans(), request("versions")[:7]
        client.send(next(frames) + request("versions") * 3 + next(frames) + next(frames) + request("versions") + half)
        client.gets(CLEANED + reply("versions 0") * 3 + CLEANED * 2 + reply("versions 0"))
        client.send(request("versions")[7:])
        client.gets(reply("versions 0"))
        client.send(next(frames) + request("versions"))
        client.stop()
        client.gets_to_the_end(CLEANED + reply("versions 0"))


def long_one():
    """A Metadata with so many names that it takes a while, with its size in front."""
    one = request("metadata x")
    body = one[4:-7] + struct.pack(">i", NAMES) + one[-3:] * NAMES
    return struct.pack(">i", len(body)) + body


def stands_still_behind(broker, dear, other, frame, is_last):
    """The last byte of a long frame and another client's request come, that one last or first, before the broker looks at either. The
    other one waits for the long one, unless the broker looks at it first: it isn't answered while the broker runs for a while. Then the
    broker stands still for longer than a client may be idle. Gives until when the other one wasn't answered, or none if it was before."""
    for at in range(0, len(frame) - 1, ONE_READ):
        dear.send(frame[at : min(at + ONE_READ, len(frame) - 1)])
        other.ask("versions", "versions 0")  # by a round, in which as much is read
    with broker.stands_still():
        for client, sent in [(dear, frame[-1:]), (other, request("versions"))][:: 1 if is_last else -1]:
            client.send(sent)
        before = broker.schedule()[0]
    is_soon(lambda: not other.gets_nothing(0) or broker.schedule()[0] > before + A_WHILE, every=0.001)
    with broker.stands_still():
        if not other.gets_nothing(0.05):
            return None
        time.sleep(IDLE + 0.5)
        return time.monotonic()


def gets_reply(client, since):
    """A client gets a reply that hadn't come at some time. Gives the last time at which it was seen that it hadn't."""
    looked = since
    while client.gets_nothing(0.05):
        since, looked = looked, time.monotonic()
    client.gets(reply("versions 0"))
    return since


def is_served(client):
    """Whether a client is still answered."""
    told = reply("versions 0")
    with contextlib.suppress(ConnectionError):
        client.send(request("versions"))
        return client.receive(len(told)) == told
    return False


def answered_behind(broker, dear, other, frame):
    """Another client is answered behind a long frame, in the same round. Gives the last time at which its reply hadn't come, or none
    if its request was only seen in a later round: it may have ended as idle by then, unanswered."""
    for turn in range(20):  # (which one the broker looks at first may go by what it did before)
        if since := stands_still_behind(broker, dear, other, frame, is_last=turn % 2 == 0):
            break
        other.gets(reply("versions 0"))
        dear.receive(int.from_bytes(dear.receive(4), "big"))
    else:
        raise Fault("no request came behind a long frame")
    with contextlib.suppress(ConnectionError):
        return gets_reply(other, since)
    return None


@slow("with the program's checks a long frame takes too long")
def not_idle_behind_others(program):
    """While one client's frame is answered the broker stands still for longer than a client may be idle. Another one that is answered
    behind that, in the same round, isn't idle half that time later."""
    frame = long_one()
    for _ in range(5):
        with Started(program, "--idle", str(IDLE)) as broker, broker.client() as dear, broker.client() as other:
            since = answered_behind(broker, dear, other, frame)
            if since is None:
                continue
            answered = time.monotonic()
            dear.receive(int.from_bytes(dear.receive(4), "big"))
            time.sleep(max(0, answered + IDLE / 2 - time.monotonic()))
            served, ended = is_served(other), [line for line in broker.lines if other.address in line]
            if time.monotonic() < since + IDLE:  # (else the machine is too slow to tell)
                same("the ends of a client that was answered a moment ago", ended, [])
                holds("a client that was answered a moment ago is answered no more", served)
            return
    raise Fault("no request was seen in the round of a long frame")


CASES = [
    ("many dear frames in one piece, and another client", many_in_one_piece),
    ("other frames behind dear ones", cheap_ones_behind),
    ("a client that was answered behind a long round", not_idle_behind_others),
]
