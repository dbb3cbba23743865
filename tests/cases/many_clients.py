"""Many clients of `kbroker start` at once: each is served, whatever another one does.

What must come is worked by hand, in the words of tests/rows, which tests/encoders/frames.py and tests/encoders/copies.py encode.
"""
import contextlib
import ctypes
import functools
import os
import random
import socket
import stat
import struct
import threading
import time

from cases.started import SECONDS, Started, holds, reply, request, same, taken_unread
from encoders import frames

LARGE = 1_000_000  # bytes of a value, of which one batch has one
ONE_READ = 1 << 16  # bytes that are read at most before another client's turn


@functools.cache
def large_batch():
    return f"batch large={{v*{LARGE}}}"


@functools.cache
def large_reply():
    """Of a Fetch of partition 0 from the start, where it has one large batch."""
    return reply(f"fetched t:0 0 1 {large_batch()}")


def fill(client):
    """Puts one large batch into partition 0."""
    client.ask(f"produce t:0 {large_batch()}", "produced t:0 0 0")


def works(client, first, count=1):
    """A client's Produces to partition 1, which hold the offsets from `first` on, and a Fetch behind each; a reply comes before
    the next request is sent."""
    for offset in range(first, first + count):
        client.ask(f"produce t:1 batch k{offset}=v", f"produced t:1 0 {offset}")
        client.ask(f"fetch t:1 {offset}", f"fetched t:1 0 {offset + 1} batch base:{offset} k{offset}=v")


# ---- all take turns


def place_of(number):
    """One of 200 partitions, of four topics with 50 each."""
    return f"{'tuvw'[number // 50]}:{number % 50}"


def two_hundred(program):
    """Each has a partition of its own. In a round all send a Produce before any reply is read, and then a Fetch of all that it
    has; the replies are read in another order."""
    drawn, rounds = random.Random(1), 4
    with Started(program, topics=[f"{it}:50" for it in "tuvw"]) as broker:
        clients = broker.clients(200)
        for turn in range(rounds):
            for number, it in enumerate(clients):
                it.send(request(f"produce {place_of(number)} batch turn={turn}-{number}"))
            for number in drawn.sample(range(200), 200):
                clients[number].gets(reply(f"produced {place_of(number)} 0 {turn}"), f"client {number}'s offset")
            for number, it in enumerate(clients):
                it.send(request(f"fetch {place_of(number)} 0"))
            for number in drawn.sample(range(200), 200):
                kept = " + ".join(f"batch base:{it} turn={it}-{number}" for it in range(turn + 1))
                clients[number].gets(reply(f"fetched {place_of(number)} 0 {turn + 1} {kept}"), f"client {number}'s log")
        for it in clients:
            it.close()
        ends = broker.ends(200)
        holds(f"an end of another kind: {ends.told}", all(why == "end" for _, _, why in ends.told))
        same("ends that are told or counted", ends.count(), 200)


def two_that_stay(program):
    """A producer and a consumer that are both connected, and a third that does nothing."""
    with Started(program) as broker, broker.client(), broker.client() as producer, broker.client() as consumer:
        for offset in range(20):
            consumer.ask(f"fetch wait=0 t:0 {offset}", f"fetched t:0 0 {offset}")
            producer.ask(f"produce t:0 batch k={offset}", f"produced t:0 0 {offset}")
            consumer.ask(f"fetch t:0 {offset}", f"fetched t:0 0 {offset + 1} batch base:{offset} k={offset}")
        consumer.ask("commit t:0 20", "committed t:0 0")
        producer.ask("offsets t:0", "found t:0 0 20 ")


def one_that_never_stops(program):
    """A client has requests on the way all the time; the others' round trips end all the same."""
    sent, over = [], threading.Event()

    def pump(client):
        block = request("listoffsets t:0 -1") * 500
        while not over.is_set():
            client.send(block)
            sent.append(client.receive(len(reply("listed t:0 0 -1 0")) * 500))

    with Started(program) as broker, broker.client() as busy, broker.client() as other:
        pumping = threading.Thread(target=pump, args=[busy], daemon=True)
        pumping.start()
        try:
            works(other, 0, 30)
        finally:
            over.set()
            pumping.join()
        same("the replies to the busy client", set(sent), {reply("listed t:0 0 -1 0") * 500})


def without_delay(program):
    """What it sends leaves at once, and doesn't wait until what was sent before is confirmed: its sockets are set so, where the
    system shows them."""
    with Started(program) as broker, broker.client() as client:
        works(client, 0)
        set_so = []
        process = os.pidfd_open(broker.process.pid)
        for number in os.listdir(f"/proc/{broker.process.pid}/fd"):
            copy = ctypes.CDLL(None).syscall(438, process, int(number), 0)  # pidfd_getfd
            if copy >= 0 and not stat.S_ISSOCK(os.fstat(copy).st_mode):
                os.close(copy)
            elif copy >= 0:
                with contextlib.suppress(OSError), socket.socket(fileno=copy) as it:
                    if it.getpeername() == client.socket.getsockname():
                        set_so.append(it.getsockopt(socket.IPPROTO_TCP, socket.TCP_NODELAY))
        os.close(process)
        holds(f"TCP_NODELAY is {set_so}", set_so in ([], [1]))


# ---- clients that are slow


def one_that_does_not_read(program):
    """It asks for 40 MB and reads none of it; what it is owed comes once it reads."""
    count = 40
    with Started(program) as broker, broker.client() as other, broker.client(room=4096) as slow:
        fill(other)
        slow.send(request("fetch t:0 0") * count + request("listoffsets t:0 -1"))
        works(other, 0, 50)
        for number in range(count):
            slow.gets(large_reply(), f"reply {number}")
            if number % 10 == 0:
                works(other, 50 + number // 10)
        slow.gets(reply("listed t:0 0 -1 1"), "the last reply")


def one_byte_at_a_time(program):
    """Others ask between two bytes of a request. Nothing comes before its last byte."""
    with Started(program) as broker, broker.client() as slow, broker.client() as other:
        data = request("listoffsets t:0 -1")
        for at in range(len(data) - 1):
            slow.send(data[at : at + 1])
            time.sleep(0.02)
            works(other, at)
        holds("a reply came before the request was whole", slow.gets_nothing(0.05))
        slow.send(data[-1:])
        slow.gets(reply("listed t:0 0 -1 0"))
        other.ask("listoffsets t:0 -2", "listed t:0 0 -1 0")


def urgent_bytes(program):
    """TCP's urgent bytes stand within a request and behind one, and more behind them; all is there before it is read. A read ends
    before such a byte, which is no part of the input, and what stands behind is answered too."""
    with Started(program) as broker, broker.client() as client, broker.client() as other:
        client.ask("versions", "versions 0")
        data, told = request("listoffsets t:0 -1"), reply("listed t:0 0 -1 0")
        for pieces in ([data[:9], data[9:]], [data, data], [data[:-1], data[-1:] + data]):
            with broker.stands_still():
                client.send(pieces[0])
                client.socket.send(b"!", socket.MSG_OOB)
                client.send(pieces[1])
            client.gets(told * (len(b"".join(pieces)) // len(data)), f"replies where a read ends after {len(pieces[0])} bytes")
        broker.rests("urgent bytes came")
        works(other, 0, 5)


def large_frames_in_pieces(program):
    """Two clients send a large Produce each, by turns, in pieces of which several make one read and of which some are cut
    anywhere."""
    with Started(program) as broker, broker.client() as left, broker.client() as right, broker.client() as other:
        asked = [request(f"produce t:{it} {large_batch()}") + request(f"listoffsets t:{it} -1") for it in (0, 2)]
        for at in range(0, len(asked[0]), 3 * ONE_READ - 1):
            for client, data in zip((left, right), asked):
                client.send(data[at : at + 3 * ONE_READ - 1])
            works(other, at // (3 * ONE_READ - 1))
        left.gets(reply("produced t:0 0 0") + reply("listed t:0 0 -1 1"))
        right.gets(reply("produced t:2 0 0") + reply("listed t:2 0 -1 1"))
        left.send(request("fetch t:0 0"))
        left.gets(large_reply(), "what was produced")


# ---- frames that are refused


def frame(key, version, body=b"\0\0\0\7\xff\xff"):
    """A frame with this key and version, a correlation id, and null as client id, unless something else stands there."""
    return frames.data(struct.pack(">hh", key, version) + body)


REFUSED = [
    ("UnknownApi (key 60, version 0)", frame(60, 0)),
    ("UnknownApi (key -1, version 3)", frame(-1, 3)),
    ("BadVersion (key 0, version 2)", frame(0, 2)),
    ("BadVersion (key 3, version 12)", frame(3, 12)),
    ("ShortBody (key 3, version 1)", frame(3, 1)),
    ("Malformed (key 10, version 0)", frame(10, 0, b"\0\0\0\7\xff\xff\xff\xff")),
    ("TrailingBytes (key 18, version 0)", frame(18, 0, b"\0\0\0\7\xff\xff\0")),
    ("ShortHeader", frame(18, 0, b"\0\0\0")),
    ("ShortHeader", frames.data(b"\0\x12\0")),
    ("ShortHeader", frames.data(b"")),
    ("NegativeSize", b"\xff\xff\xff\xff"),
    ("NegativeSize", b"\x80\0\0\0"),
    ("TooLarge", struct.pack(">i", 8_388_609)),
    ("TooLarge", struct.pack(">i", 2**31 - 1)),
]


def refused_frames(program):
    """The replies before it still come, the connection ends, and its line says why. Another one is served all along."""
    with Started(program) as broker, broker.client() as other:
        for number, (why, data) in enumerate(REFUSED):
            with broker.client() as client:
                client.send(request("listoffsets t:0 -1") * number + data)
                client.gets_to_the_end(reply("listed t:0 0 -1 0") * number, f"all that comes before {why}")
                broker.tells(number + 1, client, f"frame {number}: {why}")
            works(other, number)
        same("lines beside these", len(broker.lines), len(REFUSED))


def refused_before_more(program):
    """What stands behind a refused frame isn't answered: partition 0 stays empty."""
    with Started(program) as broker, broker.client() as other, broker.client() as client:
        behind = request("produce t:0 batch a=1")
        client.send(request("produce t:2 batch a=1") + frame(60, 0) + behind)
        client.gets_to_the_end(reply("produced t:2 0 0"))
        broker.tells(1, client, "frame 1: UnknownApi (key 60, version 0)")
        with broker.client() as short:
            short.send(frames.data(b"\0\x12\0") + behind)
            short.gets_to_the_end(b"")
            broker.tells(2, short, "frame 0: ShortHeader")
        other.ask("listoffsets t:0 -1", "listed t:0 0 -1 0")


def refused_behind_much(program):
    """Some large replies are owed when a refused frame comes. They leave before the end, also to a client that reads late."""
    with Started(program) as broker, broker.client() as other, broker.client(room=4096) as client:
        fill(other)
        client.send(request("fetch t:0 0") * 12 + frame(60, 0))
        works(other, 0, 5)
        for number in range(12):
            client.gets(large_reply(), f"reply {number}")
        client.gets_to_the_end(b"", "what comes behind them")
        broker.tells(1, client, "frame 12: UnknownApi (key 60, version 0)")


def refused_before_unread(program):
    """Behind a refused frame more is sent than the broker reads of it, by a client that reads late. The replies before it come to
    their last byte, and then the end."""
    with Started(program) as broker, broker.client() as other, broker.client(room=4096) as client:
        fill(other)
        client.send(request("fetch t:0 0") + frame(60, 0) + bytes(2 * ONE_READ))
        works(other, 0, 5)
        time.sleep(0.3)
        client.gets(large_reply(), "the reply before the refused frame")
        client.gets_to_the_end(b"", "what comes behind it")
        broker.tells(1, client, "frame 1: UnknownApi (key 60, version 0)")
        works(other, 5, 5)


def sends_on(client):
    """Sends a byte, whether or not the other side takes any."""
    with contextlib.suppress(ConnectionError):
        client.send(b"\0")


def refused_and_open(program):
    """A client whose frame is refused stays, and sends a byte now and then: for two seconds it counts as a connection, and then no
    more. One that leaves once it is refused makes room at once."""
    with Started(program, "--most-connections", "1") as broker:
        with broker.client() as client, broker.client() as other:
            began = time.monotonic()
            client.send(frame(60, 0))
            client.gets_to_the_end(b"")
            other.send(request("versions"))
            while other.gets_nothing(0.1):
                sends_on(client)
                holds("none is served in its place", time.monotonic() < began + SECONDS)
            seconds = time.monotonic() - began
            other.gets(reply("versions 0"))
            holds(f"another is served in its place after {seconds:.1f} s", seconds >= 2)
        took = []
        while len(took) < 5 or (min(took) >= 1.5 and len(took) < 20):
            with broker.client() as client, broker.client() as other:
                began = time.monotonic()
                client.send(frame(60, 0))
                client.gets_to_the_end(b"")
                client.close()
                other.ask("versions", "versions 0")
                took.append(time.monotonic() - began)
        holds(f"those that leave make room after {took} s", min(took) < 1.5)
        count = 1 + len(took)
        ends = broker.ends(2 * count)
        same("ends", sorted(why for _, _, why in ends.told), ["end"] * count + ["frame 0: UnknownApi (key 60, version 0)"] * count)


def refused_and_resting(program):
    """A client whose frame is refused stays, and sends nothing more: after two seconds another is served in its place, and its end is
    one line, though seconds that are idle would end it before."""
    with Started(program, "--most-connections", "1", "--idle", "1") as broker:
        with broker.client() as client:
            began = time.monotonic()
            client.send(frame(60, 0))  # before anything else, since it may be idle for a second only
            with broker.client() as other:
                client.gets_to_the_end(b"")
                other.ask("versions", "versions 0")
                seconds = time.monotonic() - began
            holds(f"another is served in its place after {seconds:.1f} s", seconds >= 2)
            why = "frame 0: UnknownApi (key 60, version 0)"
            same("ends of the one", [it[2] for it in broker.ends(1).told if it[1] == client.address], [why])


def refused_and_more_without_end(program):
    """A client that sends behind a refused frame for as long as it is taken: that comes to an end, and costs no memory."""
    with Started(program) as broker, broker.client() as other, broker.client() as client:
        works(other, 0, 5)
        before, sent = broker.memory(), 0
        with contextlib.suppress(ConnectionError):
            client.send(frame(60, 0))
            while sent < 100 * LARGE:
                client.send(bytes(LARGE))
                sent += LARGE
        holds(f"{sent} bytes were taken behind a refused frame", sent < 20 * LARGE)
        works(other, 5, 5)
        more = broker.memory() - before
        holds(f"what comes behind a refused frame costs {more} bytes of memory", more < 4 * LARGE)
        broker.tells(1, client, "frame 0: UnknownApi (key 60, version 0)")
        same("lines", len(broker.lines), 1)


# ---- ends


def ordinary_ends(program):
    """A client that is done, one that sent nothing, and one that leaves within a frame."""
    with Started(program) as broker, broker.client() as other:
        done, silent, half = broker.clients(3)
        works(done, 0, 3)
        half.send(request("versions") + request("listoffsets t:0 -1")[:-1])
        half.gets(reply("versions 0"))
        for it in (done, silent, half):
            it.close()
        broker.tells(1, done, "end")
        broker.tells(2, silent, "end")
        broker.tells(3, half, "end within frame 1")
        works(other, 3, 3)


def half_closes(program):
    """Clients that send all at once, and no more: all replies come, and then the end."""
    with Started(program) as broker, broker.client() as other, broker.client() as few, broker.client(room=4096) as large:
        fill(other)
        few.send(request("versions") * 20 + request("versions")[:9])
        few.stop()
        large.send(request("fetch t:0 0") * 8 + request("listoffsets t:0 -1"))
        large.stop()
        works(other, 0, 5)
        few.gets_to_the_end(reply("versions 0") * 20)
        broker.tells(1, few, "end within frame 20")
        for number in range(8):
            large.gets(large_reply(), f"reply {number}")
        large.gets_to_the_end(reply("listed t:0 0 -1 1"))
        broker.tells(2, large, "end")
        works(other, 5, 5)


def ends_with_little_owed(program):
    """Clients that read late, and of which some are owed a little when nothing more is taken for them and all is answered: one half
    stops, the other sends a refused frame. Since it isn't known what the system takes, each is owed a tenth of a megabyte more
    than the one before."""
    size, room = 100_000, 4096
    large = f"batch large={{v*{size}}}"
    told, least = reply(f"fetched t:0 0 1 {large}"), max(1, taken_unread(room) // size - 4)
    with Started(program) as broker, broker.client() as other:
        other.ask(f"produce t:0 {large}", "produced t:0 0 0")
        clients = []
        for count in range(least, least + 13):
            for behind in (b"", frame(60, 0)):
                clients.append((broker.client(room), count))
                clients[-1][0].send(request("fetch t:0 0") * count + behind)
                if not behind:
                    clients[-1][0].stop()
        works(other, 0, 30)
        time.sleep(0.3)
        for number, (it, count) in enumerate(clients, 1):
            it.gets_to_the_end(told * count, f"{count} replies")
            broker.tells(number, it, "end" if number % 2 else f"frame {count}: UnknownApi (key 60, version 0)")
            it.close()


def half_close_behind_many_reads(program):
    """More is sent than one read takes, in requests that are small and that are large, before the end of the input comes."""
    asked, told = b"", b""
    for offset in range(40):
        asked += request(f"produce t:0 batch k={{v*30000}}{offset:05}") + request("listoffsets t:0 -2") * 100
        told += reply(f"produced t:0 0 {offset}") + reply("listed t:0 0 -1 0") * 100
    with Started(program) as broker, broker.client() as client:
        client.send(asked)
        client.stop()
        client.gets_to_the_end(told)
        broker.tells(0, client, "end")


# a request of each kind, and what a leader answers (Metadata and FindCoordinator are those of tests/listening.py)
EACH_KIND = [
    ("produce t:1 batch a=1 b=2", "produced t:1 0 0"),
    ("fetch t:1 0", "fetched t:1 0 2 batch base:0 a=1 b=2"),
    ("listoffsets t:1 -1", "listed t:1 0 -1 2"),
    ("commit t:1 1 m", "committed t:1 0"),
    ("offsets t:1", "found t:1 0 1 m"),
    ("get t:1 a", "got 0 1"),
    ("cover t:1", "covered 0 0-1"),
    ("export t:1", "exported 0 image 0-1 batch base:0 a=1 b=2"),
    ("export-delta t:1 none", "exported 0 delta 0-1 none batch base:0 a=1 b=2"),
    ("clean t:1 0 0", "cleaned 0 0 0 0"),
    ("trim t:1 2", "trimmed 0"),
    ("forget g", "forgotten 0 1"),
    ("import t:1 image 0-0 batch base:0 a=1", "imported 42"),
    ("deliver t:1 batch base:0 a=1", "delivered 42 0"),
    ("versions", "versions 0"),
    ("producer-id", "producer 0 0 0"),
]
BEFORE = [0, 1, 255, 65_537, 261_000]  # bytes of a value, which a reply before them has; no more than may be owed


def each_kind_behind_others(program):
    """A request of each kind, in one piece with one whose reply is large: what a reply stands behind makes no difference to it, nor
    how much that is."""
    for size in BEFORE:
        with Started(program) as broker, broker.client() as client:
            value = f"batch large={{v*{size}}}"
            asked = [(f"produce t:0 {value}", "produced t:0 0 0"), ("fetch t:0 0", f"fetched t:0 0 1 {value}"), *EACH_KIND]
            client.send(b"".join(request(words) for words, _ in asked))
            for words, answer in asked:
                client.gets(reply(answer), f"the reply to {words[:60]} behind {size} bytes")


def resets(program):
    """Of a client that has sent nothing, one within a frame, one with replies that wait, and one that is owed large ones."""
    with Started(program) as broker, broker.client() as other:
        fill(other)
        silent, half, replied, owed = broker.clients(4)
        half.send(request("versions") + request("listoffsets t:0 -1")[:-1])
        half.gets(reply("versions 0"))
        replied.send(request("versions") * 50)
        owed.send(request("fetch t:0 0") * 12)
        owed.gets(large_reply())
        for it in (silent, half, replied, owed):
            it.reset()
        ends = broker.ends(4)
        for number, it in enumerate((silent, half, replied, owed), 1):
            failed = ends.why(it) or ""
            holds(f"client {number}'s end is {failed!r}", failed.startswith(("read failed: ", "write failed: ")))
            broker.tells(number, it, failed)
        works(other, 0, 5)


def resets_in_a_row(program):
    """Some may be gone before they are accepted; then nothing need be said of them. None does harm."""
    with Started(program) as broker, broker.client() as other:
        for number in range(100):
            client = broker.client()
            client.send(request("versions")[: number % 15])
            client.reset()
            if number % 10 == 0:
                works(other, number // 10)
        works(other, 10, 5)
        with broker.client() as last:
            works(last, 15, 5)


CASES = [
    ("200 clients that produce and fetch in turns", two_hundred),
    ("a producer and a consumer that stay connected", two_that_stay),
    ("a client that never stops, and another", one_that_never_stops),
    ("sockets that send at once", without_delay),
    ("a client that doesn't read, and another", one_that_does_not_read),
    ("a client that sends a byte at a time, and another", one_byte_at_a_time),
    ("urgent bytes between others", urgent_bytes),
    ("large frames that come in pieces, by turns", large_frames_in_pieces),
    ("frames that are refused", refused_frames),
    ("what stands behind a refused frame", refused_before_more),
    ("a refused frame behind large replies that are owed", refused_behind_much),
    ("a refused frame before what isn't read", refused_before_unread),
    ("a client that is refused and stays", refused_and_open),
    ("a client that is refused and rests", refused_and_resting),
    ("a client that sends on behind a refused frame", refused_and_more_without_end),
    ("ends between frames and within one", ordinary_ends),
    ("clients that stop and read on", half_closes),
    ("ends of clients that read late and are owed a little", ends_with_little_owed),
    ("a client that stops behind more than a read", half_close_behind_many_reads),
    ("a request of each kind behind large replies", each_kind_behind_others),
    ("connections that are reset", resets),
    ("a hundred resets in a row", resets_in_a_row),
]
