"""What clients of `kbroker start` can make it hold and spend, and what it does at each bound: connections, open files, bytes,
memory, time without a word, and lines of connections' ends.

Each bound is given on the command line or set by the system; processor time and memory are those of /proc.
"""
import contextlib
import re
import select
import signal
import struct
import time

from cases.many_clients import LARGE, ONE_READ, fill, frame, large_reply, works
from cases.started import KEEPS, SECONDS, Started, holds, is_soon, reply, request, same, slow, taken_unread
from encoders import frames

MEGABYTE = 1_000_000
LARGEST_FRAME = 8_388_608


def announced(size):
    """What stands in front of a frame."""
    return struct.pack(">i", size)


def produce_of(size):
    """A Produce to partition 0 of about so many bytes."""
    return request(f"produce t:0 batch a={{v*{size - 150}}}")


def is_gone(client):
    """Whether the other side has ended a client's connection, of which all that comes is passed over."""
    with contextlib.suppress(ConnectionError):
        while select.select([client.socket], [], [], 0)[0]:
            if not client.socket.recv(1 << 20):
                return True
        return False
    return True


# ---- connections and open files


def served_in_turn(broker, clients, most):
    """Of clients that all have asked, only so many are served at a time; each of the others once one of them is gone."""
    told = reply("versions 0")
    for it in clients:
        it.send(request("versions"))
    for it in clients[:most]:
        it.gets(told)
    for number, it in enumerate(clients[most:], most):
        holds(f"client {number} is served beside {most} others", it.gets_nothing(0.05))
    broker.rests("connections wait")
    for number, it in enumerate(clients[most:]):
        clients[number].close()
        it.gets(told, f"the reply to client {number + most}")
        it.ask("listoffsets t:0 -1", "listed t:0 0 -1 0")
    for it in clients:
        it.close()
    holds("an end of another kind", all(why == "end" for _, _, why in broker.ends(len(clients)).told))


def reached(most):
    """The line that as many connections are open as there may be."""
    return f"connections: {most}, the most; others wait"


def most_connections(program):
    """The most are three; six clients come. That the most are there is said once, and again ten seconds later where it is so then."""
    with Started(program, "--most-connections", "3") as broker:
        with broker.client() as first, broker.client() as second:
            for it in (first, second):
                it.ask("versions", "versions 0")
            same("lines while fewer are open", broker.lines, [])
        began, seconds, told, others = time.monotonic(), 0, 2, []
        while seconds < 11 or (len(others) < 2 and seconds < SECONDS):
            told += 6
            served_in_turn(broker, broker.clients(6), 3)
            others = broker.ends(told).others
            seconds = time.monotonic() - began
        same("lines beside those of ends", set(others), {reached(3)})
        holds(f"{len(others)} such lines in {seconds:.1f} s", 2 <= len(others) <= seconds / 10 + 1)


def most_connections_reset(program):
    """Clients that are reset while they wait cost the others nothing."""
    with Started(program, "--most-connections", "1") as broker, broker.client() as first:
        first.ask("versions", "versions 0")
        waiting = broker.clients(20)
        for it in waiting[:19]:
            it.send(request("versions"))
            it.reset()
        first.ask("versions", "versions 0")
        first.close()
        waiting[19].ask("versions", "versions 0")
        waiting[19].close()


def most_per_address(program):
    """Two of an address may be connected, others of it are closed at once; clients of another address are let in beside them, and one
    of the first address once one of its is gone."""
    with Started(program, "--most-per-address", "2") as broker:
        first, second = broker.clients(2)
        works(first, 0)
        works(second, 1)
        third = broker.client()
        third.gets_to_the_end(b"", "what comes to one too many")
        broker.tells(2, third, "most per address")
        with broker.client(host="127.0.0.2") as other:
            works(other, 2)
        broker.tells(3, other, "end")
        works(first, 3)
        second.close()
        broker.tells(1, second, "end")
        with broker.client() as fourth:
            works(fourth, 4)
            works(first, 5)
        for _ in range(300):
            broker.client(host="127.0.0.2").close()
        broker.ends(304)
        with broker.client(host="127.0.0.2") as last:
            works(last, 6)
        first.close()
    with Started(program) as broker:
        clients = broker.clients(100)
        for it in clients:
            it.ask("versions", "versions 0")
        same("lines without such a bound", broker.lines, [])


MOST_GROWN = 300_000  # bytes of memory: half of what 10,000 addresses take, and less than so many sessions do


def many_come(broker, come, what):
    """A hundred clients at a time come and go, 12,000 in all. The last 10,000 cost next to no memory."""
    for turn in range(120):
        if turn == 20:
            before = broker.memory()
        come(turn)
    more = broker.memory() - before
    holds(f"10,000 {what} cost {more} bytes of memory", more < MOST_GROWN)


@slow(KEEPS)
def many_turned_away(program):
    """Of clients that are closed at once, since their address has as many as it may have, nothing is kept."""
    with Started(program, "--most-per-address", "1") as broker, broker.client() as first:
        works(first, 0)

        def come(_):
            for it in broker.clients(100):
                it.gets_to_the_end(b"", "what comes to one too many")
                it.reset()

        many_come(broker, come, "clients that were turned away")
        works(first, 1)


@slow(KEEPS)
def many_addresses(program):
    """Of addresses whose clients are gone nothing is kept."""
    with Started(program) as broker, broker.client() as first:
        works(first, 0)

        def come(turn):
            clients = [broker.client(host=f"127.1.{turn}.{number}") for number in range(1, 101)]
            for it in clients:
                it.stop()
            for it in clients:
                it.gets_to_the_end(b"")
                it.close()

        many_come(broker, come, "addresses whose clients are gone")
        works(first, 1)


def few_files(program):
    """Of the files that it may open it keeps 32 for others, and says at the start how many connections are left. What it might
    have if it asked for more doesn't count."""
    for files, most in ((36, 4), (33, 1), (24, 1)):
        with Started(program, files=files) as broker:
            served_in_turn(broker, broker.clients(most + 3), most)
            line = f"connections: {most} of 10000, as the system allows {files} open files"
            same("lines beside those of ends", broker.ends(most + 3).others[:2], [line, reached(most)])


def enough_files(program):
    """Nothing is said of files where they are enough."""
    with Started(program, "--most-connections", "8", files=40) as broker:
        served_in_turn(broker, broker.clients(9), 8)
        same("lines beside those of ends", set(broker.ends(9).others), {reached(8)})


def no_file_left(program):
    """The system takes the files away once it runs: accepting fails, which is told once in a second, costs no processor time, and
    harms nobody that is connected. Once there are files again, those that wait are served."""
    with Started(program) as broker, broker.client() as served:
        works(served, 0)
        began = time.monotonic()
        broker.take_files()
        waiting = broker.clients(3)
        for it in waiting:
            it.send(request("versions"))
        form = re.escape(f"accept {broker.listening.removeprefix('listening ')}: ")
        said = is_soon(lambda: any(re.match(form, it) for it in broker.lines))
        holds(f"no line 'accept ADDRESS: WHY' in {broker.lines}", said)
        broker.rests("accepting fails")
        works(served, 1, 5)
        holds("one is served without a file", waiting[0].gets_nothing(0.05))
        broker.limit_files(200)
        for number, it in enumerate(waiting):
            it.gets(reply("versions 0"), f"the reply to client {number} that waited")
            it.close()
        works(served, 6, 5)
        holds(f"more lines than the time allows: {broker.lines}", len(broker.lines) <= 100)
        failed = [it for it in broker.lines if re.match(form, it)]
        holds(f"more than one in a second: {failed}", len(failed) <= time.monotonic() - began + 2)


# ---- bytes that are held and owed


def most_held(program):
    """Of three that each send a part of a large Produce, the one that holds most ends when all hold more than allowed: the first,
    and not the one that came last or held most before. The others get their replies."""
    with Started(program, "--most-held", str(MEGABYTE)) as broker, broker.client() as other:
        first, second, third = broker.clients(3)
        large, middle, small = produce_of(900_000), produce_of(380_000), produce_of(220_000)
        first.send(large[:300_000])
        second.send(middle[:350_000])
        third.send(small[:200_000])
        works(other, 0, 5)
        same("lines while less than the most is held", broker.lines, [])
        with contextlib.suppress(ConnectionError):
            first.send(large[300_000:600_000])
        broker.tells(1, first, "most held")
        holds("the connection that held most stays", is_soon(lambda: is_gone(first)))
        works(other, 5, 5)
        second.send(middle[350_000:])
        second.gets(reply("produced t:0 0 0"))
        third.send(small[200_000:])
        third.gets(reply("produced t:0 0 1"))
        same("connections that ended", broker.ends(1).count(), 1)


def takes_on(client):
    """Whether the other side takes what a client sends. One that is closed resets the connection at the first byte."""
    with contextlib.suppress(ConnectionError):
        for _ in range(2):
            client.send(b"\0")
        return True
    return False


def most_held_and_refused(program):
    """Two clients each send a large frame that is refused once it is whole, and stay. A third one sends as much of a Produce: all of
    that together is more than may be held, and what any of them sends isn't. What was held of a refused frame counts no more: none
    ends for it, of each refused one is told once, and it isn't reset within two seconds."""
    size, why = 700_000, "frame 0: TrailingBytes (key 18, version 0)"
    large = produce_of(size)
    with Started(program, "--most-held", "1500000") as broker, broker.client() as other, broker.client() as last:
        began, refused = time.monotonic(), broker.clients(2)
        for it in refused:
            it.send(frame(18, 0, b"\0\0\0\7\xff\xff" + bytes(size)))
            it.gets_to_the_end(b"", "what comes to a frame that is refused")
        last.send(large[:-1])
        works(other, 0, 20)
        taken = [takes_on(it) for it in refused]
        if time.monotonic() < began + 2:  # (else they may be closed)
            same("which of those that were refused may send on", taken, [True, True])
        last.send(large[-1:])
        last.gets(reply("produced t:0 0 0"))
        for number, it in enumerate(refused, 2):
            broker.tells(number, it, why)
            it.close()
        works(other, 20, 5)
        same("lines", len(broker.lines), 2)


def within_bounds(broker, most, what):
    """The broker's memory is within what is allowed for what is kept of its clients, and some."""
    memory = broker.memory()
    holds(f"{what} it has {memory} bytes of memory", memory <= 1.5 * most + 64 * MEGABYTE)


@slow(KEEPS)
def kept_behind_frames(program):
    """Forty clients leave a byte each behind a frame of 8 MB that was answered: next to nothing is kept for them, and none of them
    ends. Where each leaves 6 MB of such a frame those that hold the most end, and the memory stays within bounds too."""
    most = 20 * MEGABYTE
    frame, told = request(f"produce t:2 batch a={{v*{8 * MEGABYTE}}}"), reply("produced t:2 10 -1")
    with Started(program, "--most-held", str(most)) as broker, broker.client() as other:
        clients = broker.clients(40)
        for it in clients:
            it.send(frame + bytes(1))
            it.gets(told)
        works(other, 0, 5)
        within_bounds(broker, most, "with a byte behind each of 40 frames of 8 MB")
        same("lines while little is kept", broker.lines, [])
        for it in clients:
            with contextlib.suppress(ConnectionError):
                it.send(frame[1 : 6 * MEGABYTE])
        works(other, 5, 5)
        within_bounds(broker, most, "with 6 MB of each of 40 frames")
        holds("some end", is_soon(lambda: len(broker.lines) >= 35))
        same("ends", {why for _, _, why in broker.ends(35).told}, {"most held"})
        works(other, 10, 5)


@slow(KEEPS)
def kept_behind_replies(program):
    """Thirty clients each leave less than 1 MB of a reply of 8 MB with the broker: little more is kept for them, and none ends."""
    most, room, count = 40 * MEGABYTE, 4096, 8
    unread = taken_unread(room) + 200_000
    with Started(program, "--most-held", str(most)) as broker, broker.client() as other:
        for number in range(count):
            other.ask(f"produce t:0 batch a={{v*{MEGABYTE}}}", f"produced t:0 0 {number}")
        fetch = request(f"fetch max=52428800 t:0 0 {LARGEST_FRAME}")
        clients = [broker.client(room=room) for _ in range(30)]
        for it in clients:
            it.send(fetch)
            size = int.from_bytes(it.receive(4), "big")
            holds("the reply has all batches", size > count * MEGABYTE)
            it.receive(size - unread)
        works(other, 0, 5)
        within_bounds(broker, most, "with some of each of 30 replies of 8 MB")
        same("lines", broker.lines, [])
        for it in clients:
            it.receive(unread)
            it.ask("versions", "versions 0")


def most_held_by_address(program):
    """A connection of one address holds a quarter of a megabyte, and thirty of another address a part of that each, more and more of
    it, until more is held than is allowed. Then one of the thirty ends, or two, of those that hold the most, and not the one that holds
    more than each of them. The room for what a connection holds may be up to twice as much, by how it came. Before, one of a further
    address held more than any, and left."""
    large, small = produce_of(300_000), produce_of(200_000)
    with Started(program, "--most-held", "3000000") as broker, broker.client() as consumer, broker.client(host="127.0.0.3") as other:
        works(consumer, 0, 5)
        with broker.client(host="127.0.0.4") as gone:
            gone.send(produce_of(2_000_000)[:1_400_000])
            works(other, 5, 5)
        broker.tells(2, gone, "end within frame 0")
        broker.lines.clear()
        consumer.send(large[:250_000])
        many = broker.clients(30, host="127.0.0.2")
        for it in many:
            it.ask("versions", "versions 0")
            it.send(small[:23_000])
        works(other, 10, 5)
        same("lines while less than the most is held", broker.lines, [])
        sent = []
        for number, it in enumerate(many):
            if broker.lines:
                break
            it.send(small[23_000:120_000])
            sent.append(it)
            works(other, 15 + 5 * number, 5)
        same("why some end of those that hold the most", {why for it in sent if (why := broker.ends(1).why(it))}, {"most held"})
        same("why others end", [why for it in many[len(sent) :] if (why := broker.ends(1).why(it))], [])
        for it in many:
            it.close()
        broker.ends(30)
        consumer.send(large[250_000:])
        consumer.gets(reply("produced t:0 0 0"))
        same("why the one ends that held the most", broker.ends(30).why(consumer), None)


def most_owed(program):
    """Ten that don't read their large replies are owed a quarter of a megabyte each at the least, once the system takes no more,
    and so more than the one and a half that are allowed together, which is more than one of them can be owed: some end, others
    stay, and who reads is served."""
    with Started(program, "--most-held", "1500000") as broker, broker.client() as other:
        fill(other)
        slow = [broker.client(room=4096) for _ in range(10)]
        for it in slow:
            it.send(request("fetch t:0 0") * 10)
        broker.ends(1)
        works(other, 0, 50)
        ends = broker.ends(1)
        holds(f"others end, or for another reason: {ends.told}", {why for _, _, why in ends.told} == {"most held"})
        holds("a client that reads has ended", ends.why(other) is None)
        holds("all end that don't read", any(ends.why(it) is None for it in slow))
        for it in slow:
            it.close()


def announced_alone(program):
    """Fifty connections each announce the largest frame, and send a hundred bytes of it."""
    with Started(program) as broker, broker.client() as other:
        works(other, 0, 5)
        clients = broker.clients(50)
        for it in clients:
            it.ask("versions", "versions 0")
        before = broker.memory()
        for it in clients:
            it.send(announced(LARGEST_FRAME) + bytes(100))
        works(other, 5, 20)
        more = broker.memory() - before
        holds(f"fifty sizes cost {more} bytes of memory", more < 10 * MEGABYTE)
        for it in clients:
            it.close()
        ends = broker.ends(50)
        same("why they end", {why for _, _, why in ends.told}, {"end within frame 1"})


def replies_unread(program):
    """A client asks for 200 MB, and reads none of it: of what it is owed some megabytes are held at the most."""
    with Started(program) as broker, broker.client() as other, broker.client(room=4096) as slow:
        fill(other)
        works(other, 0, 5)
        before = broker.memory()
        slow.send(request("fetch t:0 0") * 200)
        works(other, 5, 50)
        more = broker.memory() - before
        holds(f"a client that doesn't read costs {more} bytes of memory", more < 16 * MEGABYTE)
        broker.rests("a client doesn't read")
        for number in range(20):
            slow.gets(large_reply(), f"reply {number}")


def requests_unread(program):
    """A client that reads nothing sends requests for as long as they are taken: that comes to an end, and costs memory only up
    to a bound."""
    with Started(program) as broker, broker.client() as other, broker.client(room=4096) as slow:
        fill(other)
        before = broker.memory()
        one = request("fetch t:0 0")
        asked = one * (100 * MEGABYTE // len(one))
        taken = slow.send_what_is_taken(asked)
        holds(f"all of {len(asked)} bytes were taken", taken < len(asked))
        works(other, 0, 10)
        more = broker.memory() - before
        holds(f"a client that sends and doesn't read costs {more} bytes of memory", more < 24 * MEGABYTE)
        broker.rests("a client neither reads nor is read")
        for number in range(5):
            slow.gets(large_reply(), f"reply {number}")


def largest_replies(program):
    """The largest reply is that to an OffsetFetch: 33 MB, for a request of 33 kB. A client that asks for ten of them and reads none
    costs little more than one; each is as it must be."""
    count, metadata = 8_192, "m" * 4_096
    entry = struct.pack(">iqh", 0, 5, len(metadata)) + metadata.encode() + bytes(2)
    told = frames.response(frames.topics([(b"t", entry)] * count))
    with Started(program) as broker, broker.client() as other, broker.client(room=4096) as slow:
        other.ask(f"commit t:0 5 {metadata}", "committed t:0 0")
        works(other, 0, 5)
        before = broker.memory()
        slow.send(request(f"offsets each {count} t:0") * 10)
        slow.gets(told[:100])
        works(other, 5, 20)
        more = broker.memory() - before
        holds(f"ten replies of {len(told)} bytes that nobody reads cost {more} bytes of memory", more < 3 * len(told))
        slow.gets(told[100:], "the first reply")
        slow.gets(told, "the next reply")


@slow(KEEPS)
def memory_comes_back(program):
    """Connections that came and went, each with a large frame that was cut, leave no memory taken."""
    with Started(program) as broker, broker.client() as other:
        works(other, 0, 5)
        data = announced(LARGEST_FRAME) + bytes(LARGE)
        for number in range(60):
            with broker.client() as client:
                client.send(data)
                client.stop()
                client.gets_to_the_end(b"")
            if number == 9:
                before = broker.memory()
        more = broker.memory() - before
        holds(f"fifty connections that are gone cost {more} bytes of memory", more < 10 * MEGABYTE)


# ---- time


def idle(program):
    """With five seconds allowed, within which a client gets to ask on a busy machine too: a client that says nothing ends, one that
    sends a byte now and then of a frame that doesn't become whole, one that asked once, and one that takes nothing of what it is
    owed; one that asks now and then stays."""
    with Started(program, "--idle", "5") as broker, broker.client() as active:
        fill(active)
        began, offset = time.monotonic(), 0
        silent, partial, once = broker.clients(3)
        owed = broker.client(room=4096)
        once.ask("versions", "versions 0")
        owed.send(request("fetch t:0 0") * 20)
        partial.send(announced(LARGEST_FRAME))
        while len(told := list(broker.lines)) < 4 or time.monotonic() < began + 7:
            since = time.monotonic() - began
            holds(f"an end after {since:.1f} s: {told}", not told or since >= 5)
            holds(f"the ends after {since:.1f} s: {told}", since < SECONDS)
            works(active, offset)
            offset += 1
            with contextlib.suppress(ConnectionError):
                partial.send(b"\0")
            time.sleep(0.1)
        for number, it in enumerate((silent, partial, once, owed), 1):
            broker.tells(number, it, "idle for 5 s")
        works(active, offset)
        same("lines", len(broker.lines), 4)
        for it in (silent, partial, once):
            holds("a connection that is told to have ended stays", is_soon(lambda held=it: is_gone(held)))


def idle_from_the_start(program):
    """The second that is allowed begins when a connection is opened, and not when the broker began to wait for it."""
    with Started(program, "--idle", "1") as broker:
        time.sleep(0.8)
        began = time.monotonic()
        with broker.client() as client:
            time.sleep(0.5)
            if time.monotonic() < began + 0.9:  # (else the machine is too slow to tell)
                client.ask("versions", "versions 0")
                same("ends", broker.lines, [])


def idle_beside_new_ones(program):
    """A connection on which nothing moves ends though others come all along."""
    with Started(program, "--idle", "1") as broker, broker.client() as silent, contextlib.ExitStack() as others:
        began = time.monotonic()
        while f"connection 0 {silent.address}: idle for 1 s" not in broker.lines:
            holds(f"no end while others come: {broker.lines}", time.monotonic() < began + SECONDS)
            others.enter_context(broker.client())
            time.sleep(0.2)


def patience(program):
    """Of a longer time nothing is seen in two seconds, and connections that say nothing cost no processor time."""
    with Started(program, "--idle", "60") as broker:
        clients = broker.clients(50)
        for it in clients:
            it.ask("versions", "versions 0")
        for _ in range(3):
            broker.rests("fifty clients say nothing")
        same("lines", broker.lines, [])
        for it in clients:
            it.ask("versions", "versions 0")


def part_of_a_frame(program):
    """Of a larger frame comes as much as one read takes, so that the read doesn't tell that no more is there; and then nothing."""
    with Started(program) as broker, broker.client() as other, broker.client() as client:
        client.ask("versions", "versions 0")
        data = announced(LARGEST_FRAME) + bytes(ONE_READ - 4)
        broker.process.send_signal(signal.SIGSTOP)
        sent = client.send_what_is_taken(data)
        broker.process.send_signal(signal.SIGCONT)
        client.send(data[sent:])
        works(other, 0, 5)
        broker.rests("64 KiB of a larger frame came, and no more")
        works(other, 5, 5)


# ---- lines of ends


def many_ends(program):
    """Of 400 connections that end at once a hundred a second are told, and the rest counted; of ten that end later each is told
    again."""
    with Started(program) as broker:
        clients = broker.clients(400)
        for it in clients:
            it.ask("versions", "versions 0")
        began = time.monotonic()
        for it in clients:
            it.close()
        holds("not all ends are counted", is_soon(lambda: broker.ends().count() >= 400))
        seconds, ends = time.monotonic() - began, broker.ends(400)
        same("ends that are told or counted", ends.count(), 400)
        holds(f"{len(ends.told)} lines in {seconds:.1f} s", len(ends.told) <= 100 * (int(seconds) + 2))
        holds(f"{ends.more} ends are counted alone", ends.more > 0 or seconds >= 2)
        same("lines of other kinds", ends.others, [])
        time.sleep(1.2)
        later = broker.clients(10)
        for it in later:
            it.ask("versions", "versions 0")
            it.close()
        for number, it in enumerate(later, 400):
            broker.tells(number, it, "end")


def many_refusals(program):
    """Likewise of refused frames, while one client is served."""
    with Started(program) as broker, broker.client() as other:
        for _ in range(4):
            clients = broker.clients(60)
            for it in clients:
                it.send(frame(60, 0))
            for it in clients:
                it.gets_to_the_end(b"")
            other.ask("versions", "versions 0")
        ends = broker.ends(240)
        same("ends that are told or counted", ends.count(), 240)
        same("why they end", {why for _, _, why in ends.told}, {"frame 0: UnknownApi (key 60, version 0)"})


CASES = [
    ("more connections than allowed", most_connections),
    ("connections that are reset while they wait", most_connections_reset),
    ("more connections of an address than allowed", most_per_address),
    ("memory of clients that are turned away", many_turned_away),
    ("memory of addresses that are gone", many_addresses),
    ("few open files", few_files),
    ("open files that are just enough", enough_files),
    ("accepting that fails for lack of files", no_file_left),
    ("more bytes held than allowed", most_held),
    ("more bytes held than allowed, by address", most_held_by_address),
    ("more bytes held than allowed, some of refused frames", most_held_and_refused),
    ("memory behind large frames", kept_behind_frames),
    ("memory behind large replies", kept_behind_replies),
    ("more bytes owed than allowed", most_owed),
    ("sizes that are announced, and nothing behind them", announced_alone),
    ("large replies that nobody reads", replies_unread),
    ("requests without end of one that doesn't read", requests_unread),
    ("the largest replies, that nobody reads", largest_replies),
    ("memory of connections that are gone", memory_comes_back),
    ("connections on which nothing moves", idle),
    ("a connection that is opened after a while", idle_from_the_start),
    ("a connection on which nothing moves, and new ones", idle_beside_new_ones),
    ("fifty connections that say nothing", patience),
    ("a part of a frame, and nothing behind it", part_of_a_frame),
    ("400 ends at once", many_ends),
    ("240 refused frames", many_refusals),
]
