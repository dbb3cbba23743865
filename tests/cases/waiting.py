"""Fetches that wait at a `kbroker start`: for what they wait, until when, and what that costs.

No case needs a fast machine: what must come soon may take a minute, and what must not come yet is looked for a third of a second.
"""
import contextlib
import os
import resource
import signal
import time

from cases.many_clients import fill, large_reply
from cases.started import SECONDS, Started, holds, reply, request, same, slow

LONG = 600_000  # milliseconds, which no case waits
BRIEF = 0.3  # seconds in which nothing may come
MANY = 1_000


def fetch(entry, wait=LONG, least=1):
    return request(f"fetch wait={wait} min={least} {entry}")


def comes_to_wait(client, *frames):
    """Sends frames, of which the first must wait, and returns once the broker has come to it."""
    client.send(request("versions") + b"".join(frames))
    client.gets(reply("versions 0"))


def waits(client, *frames):
    """Sends frames, of which the first must wait."""
    comes_to_wait(client, *frames)
    holds("a reply comes to what must wait", client.gets_nothing(BRIEF))


def produce(client, place, base, form):
    client.ask(f"produce {place} batch {form}", f"produced {place} 0 {base}")


def is_woken_by_produce(program):
    """What another produces comes long before the time is over; once more at the next offset."""
    with Started(program) as broker, broker.client() as consumer, broker.client() as producer:
        for number in range(3):
            waits(consumer, fetch(f"t:0 {number}"))
            produce(producer, "t:0", number, f"a={number}")
            consumer.gets(reply(f"fetched t:0 0 {number + 1} batch base:{number} a={number}"))


def is_woken_by_each_entry(program):
    """A Produce to several topics and partitions wakes who waits for any of them, the last too; and nobody who waits for another."""
    places = ("t:0", "t:1", "u:0", "u:1")
    with Started(program, topics=("t:4", "u:4")) as broker, broker.client() as producer, contextlib.ExitStack() as stack:
        consumers = [stack.enter_context(broker.client()) for _ in (*places, "another")]
        for consumer, place in zip(consumers, (*places, "u:2")):
            waits(consumer, fetch(f"{place} 0"))
        producer.ask(
            "produce " + " | ".join(f"{place} batch {place[0]}={place[2]}" for place in places),
            "produced " + " | ".join(f"{place} 0 0" for place in places),
        )
        for consumer, place in zip(consumers, places):
            consumer.gets(reply(f"fetched {place} 0 1 batch {place[0]}={place[2]}"))
        holds("a reply comes to another partition's bytes", consumers[-1].gets_nothing(BRIEF))


def time_runs_out(program):
    """Without anything else the reply comes when the time is over, not before, and is empty."""
    with Started(program) as broker, broker.client() as consumer:
        for wait in (1, 400, 700):
            began = time.monotonic()
            consumer.send(fetch("t:0 0", wait))
            consumer.gets(reply("fetched t:0 0 0"))
            took = time.monotonic() - began
            holds(f"{took} s of {wait} ms", took >= wait / 1000 - 0.002)


def late_by(consumer, wait):
    """How many seconds after its time a Fetch is answered that waits so many milliseconds for nothing."""
    began = time.monotonic()
    consumer.send(fetch("t:0 0", wait))
    consumer.gets(reply("fetched t:0 0 0"))
    late = time.monotonic() - began - wait / 1000
    holds(f"a fetch that waits {wait} ms is answered {-late:.3f} s before its time", late >= -0.002)
    return late


def rests_meanwhile(program):
    """A wait that isn't of whole seconds costs next to no processor time. Its reply never comes before its time, and comes soon
    after it, if not at each of several tries."""
    with Started(program) as broker, broker.client() as consumer:
        consumer.ask("versions", "versions 0")
        for wait in (600, 900):
            late = []
            broker.rests(f"a fetch waits {wait} ms", lambda wait=wait, late=late: late.append(late_by(consumer, wait)))
            if min(late) >= BRIEF:
                late += [late_by(consumer, wait) for _ in range(5)]
            holds(f"a fetch that waits {wait} ms is answered {late} s after its time", min(late) < BRIEF)


def times_in_their_order(program):
    """Of two that wait the one whose time is over first is answered first, whoever asked first."""
    with Started(program) as broker, broker.client() as late, broker.client() as early, broker.client() as producer:
        comes_to_wait(late, fetch("t:0 0"))
        early.send(fetch("t:0 0", 300))
        early.gets(reply("fetched t:0 0 0"))
        holds("the later one is answered too early", late.gets_nothing(BRIEF))
        produce(producer, "t:0", 0, "a=1")
        late.gets(reply("fetched t:0 0 1 batch a=1"))


def least_bytes(program):
    """It waits until the bytes of all partitions together are as many as it asks for, or as it takes."""
    with Started(program) as broker, broker.client() as consumer, broker.client() as producer:
        one = len(request("batch a=1"))
        waits(consumer, fetch("t:0 0 | t:1 0", least=one + 1))
        produce(producer, "t:0", 0, "a=1")
        holds("a reply comes to too few bytes", consumer.gets_nothing(BRIEF))
        produce(producer, "t:2", 0, "a=1")
        holds("a reply comes to another partition's bytes", consumer.gets_nothing(BRIEF))
        produce(producer, "t:1", 0, "b=2")
        consumer.gets(reply("fetched t:0 0 1 batch a=1 | t:1 0 1 batch b=2"))
        consumer.send(request(f"fetch max={one} wait={LONG} min={LONG} t:0 0"))
        consumer.gets(reply("fetched t:0 0 1 batch a=1"))


def record(number, size):
    """The words of a record whose value has so many bytes."""
    return f"k{number}={{x*{size}}}"


def stores(broker, place, sizes, first=0):
    """Produces a batch with a record of each of these sizes to a partition that has so many."""
    with broker.client() as producer:
        for number, size in enumerate(sizes, first):
            produce(producer, place, number, record(number, size))


def given(place, end, sizes):
    """What is answered of a partition: the first of its batches."""
    return f"fetched {place} 0 {end} " + " + ".join(f"batch base:{number} {record(number, size)}" for number, size in enumerate(sizes))


def limits_leave_out(program):
    """Where a limit leaves out a batch that is there, it is answered at once, though what is given has fewer bytes than it asks
    for: a partition's limit, that of the request, and that of each response, 8,388,608 bytes."""
    some, much = [600] * 3, 52_428_800
    for limit, stored, asked, wanted in (
        ("a partition's, as of a consumer", {"t:0": [600_000] * 3}, f"max={much} min=700000 t:0 0 1048576", [given("t:0", 3, [600_000])]),
        ("a partition's", {"t:0": some}, "min=900 t:0 0 800", [given("t:0", 3, [600])]),
        ("a partition's, below its first batch", {"t:0": some}, "min=900 t:0 0 10", [given("t:0", 3, [600])]),
        ("a partition's, below another's batch", {"t:0": [1], "t:1": some}, "min=900 t:0 0 | t:1 0 10", [given("t:0", 1, [1]), "t:1 0 3"]),
        ("the request's", {"t:0": some}, "max=800 min=700 t:0 0", [given("t:0", 3, [600])]),
        ("the request's, of two partitions", {"t:0": [600], "t:1": some}, "max=800 min=700 t:0 0 | t:1 0", [given("t:0", 1, [600]), "t:1 0 3"]),
        ("the response's", {"t:0": [1_000_000] * 9}, f"max={much} min={much} t:0 0 {much}", [given("t:0", 9, [1_000_000] * 8)]),
    ):
        with Started(program) as broker, broker.client() as consumer:
            for place, sizes in stored.items():
                stores(broker, place, sizes)
            consumer.send(request(f"fetch wait={LONG} {asked}"))
            consumer.gets(reply(" | ".join(wanted)), f"the reply where the limit is {limit}")


def all_is_given(program):
    """Where no batch is left out it waits for as many bytes as it asks for, or as it takes, whatever the limits. The next batch makes
    it due, be it left out or given."""
    one, much = len(request(f"batch {record(0, 600)}")), 52_428_800
    for in_all, least, limit, count in (
        (much, 900, 800, 1),
        (much, 900, one, 1),
        (much, 900, 10, 1),
        (one + 1, much, much, 1),
        (2 * one, much, much, 2),
        (much, 2 * one, much, 2),
    ):
        asked = f"max={in_all} min={least} t:0 0 {limit}"
        with Started(program) as broker, broker.client() as consumer:
            stores(broker, "t:0", [600])
            waits(consumer, request(f"fetch wait={LONG} {asked}"))
            stores(broker, "t:0", [600], 1)
            consumer.gets(reply(given("t:0", 2, [600] * count)), f"the reply to {asked}")


def trim_makes_due(program):
    """A start that is moved above the offset that is asked for."""
    with Started(program) as broker, broker.client() as consumer, broker.client() as other:
        for number in range(3):
            produce(other, "t:0", number, f"a={number}")
        waits(consumer, fetch("t:0 1", least=LONG))
        other.ask("trim t:0 1", "trimmed 0")
        holds("a reply comes to a start that isn't above", consumer.gets_nothing(BRIEF))
        other.ask("trim t:0 2", "trimmed 0")
        consumer.gets(reply("fetched t:0 1 -1"))


def commit_makes_due(program):
    """The group topic's partition grows by a commit, and by a group that is forgotten."""
    place = "__consumer_offsets:0"
    with Started(program) as broker, broker.client() as consumer, broker.client() as other:
        waits(consumer, fetch(f"{place} 0"))
        other.ask("commit t:0 5", "committed t:0 0")
        consumer.gets(reply(f"fetched {place} 0 1 positions g/t/0=5"))
        waits(consumer, fetch(f"{place} 1"))
        other.ask("forget g", "forgotten 0 1")
        consumer.gets(reply(f"fetched {place} 0 2 positions base:1 g/t/0=null"))


def import_makes_due(program):
    """What an image brings to a partition that has nothing."""
    with Started(program) as broker, broker.client() as consumer, broker.client() as other:
        waits(consumer, fetch("t:0 0"))
        other.ask("import t:0 image 0-0 batch base:0 a=1", "imported 0")
        consumer.gets(reply("fetched t:0 0 1 batch base:0 a=1"))


def clean_leaves_waiting(program):
    """A cleaning takes bytes away and adds none, so the Fetch waits on. It is answered with what is kept once more has come."""
    whole, thinned, behind = "a={x*400} a=1", "batch last:1 a=1;delta:1", "b={y*600}"
    with Started(program) as broker, broker.client() as consumer, broker.client() as other:
        produce(other, "t:0", 0, whole)
        waits(consumer, fetch("t:0 0", least=len(request(f"{thinned} && batch {behind}"))))
        other.ask("clean t:0 2 0", "cleaned 0 1 0 0")
        holds("a reply comes to a cleaning", consumer.gets_nothing(BRIEF))
        produce(other, "t:0", 2, behind)
        consumer.gets(reply(f"fetched t:0 0 3 {thinned} + batch base:2 {behind}"))


def without_acknowledgement(program):
    """A produce that isn't answered wakes, too."""
    with Started(program) as broker, broker.client() as consumer, broker.client() as producer:
        waits(consumer, fetch("t:0 0"))
        producer.send(request("produce acks=0 t:0 batch a=1"))
        consumer.gets(reply("fetched t:0 0 1 batch a=1"))


def behind_much(program):
    """A client that is owed too much to be answered more has a Fetch that waits behind that."""
    with Started(program) as broker, broker.client() as other, broker.client(room=4096) as client:
        fill(other)
        client.send(request("fetch t:0 0") * 12 + fetch("t:1 0"))
        for number in range(12):
            client.gets(large_reply(), f"reply {number}")
        holds("a reply comes to what must wait", client.gets_nothing(BRIEF))
        produce(other, "t:1", 0, "a=1")
        client.gets(reply("fetched t:1 0 1 batch a=1"))


def at_once(program):
    """Where a partition has an error code, nothing is waited for, or too many entries are there."""
    with Started(program) as broker, broker.client() as client:
        none = "fetched t:0 0 0"
        for wait, least, entry, wanted in (
            (LONG, 1, "t:0 1", "fetched t:0 1 -1"),
            (LONG, 1, "t:9 0", "fetched t:9 3 -1"),
            (LONG, 1, "t:0 0 | u:0 0", "fetched t:0 0 0 | u:0 3 -1"),
            (LONG, 0, "t:0 0", none),
            (LONG, -1, "t:0 0", none),
            (0, 1, "t:0 0", none),
            (-1, 1, "t:0 0", none),
        ):
            client.send(fetch(entry, wait, least))
            client.gets(reply(wanted), f"the reply to wait {wait}, min {least}, {entry}")
        client.send(request(f"fetch max=0 wait={LONG} min=1 t:0 0"))
        client.gets(reply(none))
        client.send(fetch("each 4098 t:0 0"))
        client.gets(reply("fetched each 4098 t:0 0 0"))
        waits(client, fetch("each 4097 t:0 0"))
    with Started(program, "--role", "follower") as broker, broker.client() as client:
        client.send(fetch("t:0 0"))
        client.gets(reply("fetched t:0 6 -1"))


def frames_behind(program):
    """Frames behind one that waits are answered behind it, and not before; so is a second that waits."""
    with Started(program) as broker, broker.client() as consumer, broker.client() as producer:
        waits(consumer, fetch("t:0 0"), request("versions"), fetch("t:0 1"), request("listoffsets t:0 -1"))
        produce(producer, "t:0", 0, "a=1")
        consumer.gets(reply("fetched t:0 0 1 batch a=1") + reply("versions 0"))
        holds("the second doesn't wait", consumer.gets_nothing(BRIEF))
        produce(producer, "t:0", 1, "b=2")
        consumer.gets(reply("fetched t:0 0 2 batch base:1 b=2") + reply("listed t:0 0 -1 2"))


def half_close(program):
    """The end of the input makes it due, and what is behind it, too."""
    with Started(program) as broker, broker.client() as consumer, broker.client() as other:
        waits(consumer, fetch("t:0 0"), request("versions"), fetch("t:0 0"))
        consumer.stop()
        consumer.gets_to_the_end(reply("fetched t:0 0 0") + reply("versions 0") + reply("fetched t:0 0 0"))
        other.ask("versions", "versions 0")
        broker.tells(0, consumer, "end")


def ends_with_the_frame(program):
    """A client that asks and closes its side at once gets the reply at once."""
    with Started(program) as broker, broker.client() as consumer:
        consumer.send(fetch("t:0 0"))
        consumer.stop()
        consumer.gets_to_the_end(reply("fetched t:0 0 0"))


def reset(program):
    """A reset ends the connection at once, though the time is long, and what is behind the Fetch isn't done. Nothing of it is
    left: another that came to wait behind it is woken."""
    with Started(program) as broker, broker.client() as producer, broker.client() as stays:
        gone = broker.clients(10)
        for it in gone:
            comes_to_wait(it, fetch("t:0 0"), request("produce t:1 batch a=1"))
        comes_to_wait(stays, fetch("t:0 0"))
        for it in gone:
            it.reset()
        broker.ends(10)
        producer.ask("listoffsets t:1 -1", "listed t:1 0 -1 0")
        broker.rests("all but two are gone")
        produce(producer, "t:0", 0, "a=1")
        stays.gets(reply("fetched t:0 0 1 batch a=1"))


def reset_as_it_is_woken(program):
    """Many are woken and reset at the same time, and one that came behind them is woken with them."""
    with Started(program) as broker, broker.client() as producer, broker.client() as stays:
        gone = broker.clients(10)
        for it in gone:
            comes_to_wait(it, fetch("t:0 0"))
        comes_to_wait(stays, fetch("t:0 0"))
        os.kill(broker.process.pid, signal.SIGSTOP)
        producer.send(request("produce t:0 batch a=1"))
        for it in gone:
            it.reset()
        os.kill(broker.process.pid, signal.SIGCONT)
        producer.gets(reply("produced t:0 0 0"))
        stays.gets(reply("fetched t:0 0 1 batch a=1"))


def idle(program):
    """The time of a wait doesn't count as idle; what follows does."""
    with Started(program, "--idle", "2") as broker, broker.client() as consumer:
        consumer.send(fetch("t:0 0", 4_500))
        consumer.gets(reply("fetched t:0 0 0"))
        consumer.gets_to_the_end(b"")
        broker.tells(0, consumer, "idle for 2 s")


def raise_files():
    """Lets this process and its children have as many files as the system allows."""
    most = resource.getrlimit(resource.RLIMIT_NOFILE)[1]
    resource.setrlimit(resource.RLIMIT_NOFILE, (most, most))


def has_nothing(client):
    """Whether nothing has come, of a socket with any number."""
    client.socket.setblocking(False)
    try:
        return not client.socket.recv(1)
    except BlockingIOError:
        return True
    finally:
        client.socket.settimeout(SECONDS)


def produced_in(broker, producer, first):
    """The processor time of 1,000 produces to a partition for which nobody waits, from this offset on."""
    before = broker.processor_seconds()
    for number in range(first, first + 1_000):
        produce(producer, "t:3", number, "c=3")
    return broker.processor_seconds() - before


def a_thousand(program):
    """A thousand wait at next to no cost, also while others produce to another partition. A produce wakes those that ask for its
    partition, and no other."""
    raise_files()
    with Started(program) as broker, broker.client() as producer:
        alone = produced_in(broker, producer, 0)
        waiting = broker.clients(MANY)
        for number, it in enumerate(waiting):
            comes_to_wait(it, fetch("t:1 0 | t:2 0" if number % 100 == 0 else "t:2 0"))
        before = broker.processor_seconds()
        time.sleep(2)
        taken = broker.processor_seconds() - before
        holds(f"{MANY} that wait take {taken} s of processor time in 2 s", taken < 0.1)
        beside = produced_in(broker, producer, 1_000)
        holds(f"1,000 produces take {alone} s of processor time, beside {MANY} that wait {beside} s", beside < 2 * alone + 0.3)
        produce(producer, "t:1", 0, "a=1")
        for it in waiting[::100]:
            it.gets(reply("fetched t:1 0 1 batch a=1 | t:2 0 0"))
        others = [it for number, it in enumerate(waiting) if number % 100]
        holds("one is answered for another partition", all(has_nothing(it) for it in others))
        produce(producer, "t:2", 0, "b=2")
        for it in others:
            it.gets(reply("fetched t:2 0 1 batch b=2"))
        for it in waiting:
            it.close()


def produced_to(broker, producer, place, first):
    """The processor time of 500 produces to a partition, from this offset on."""
    before = broker.processor_seconds()
    for number in range(first, first + 500):
        produce(producer, place, number, "c=3")
    return broker.processor_seconds() - before


@slow("the program's checks cost more than what is compared")
def many_partitions(program):
    """A produce beside a Fetch that waits for 4,031 partitions costs at most twice what it costs alone: to a partition for which that
    doesn't wait, and to its own, where it lacks much, and where the next batch makes it due."""
    places = [f"t{topic}:{number}" for topic in range(63) for number in range(64)]
    asked = " | ".join(f"{place} 0" for place in places[1:])
    one = len(request("batch c=3"))
    with Started(program, topics=tuple(f"t{topic}:64" for topic in range(63))) as broker, broker.client() as producer:
        alone = produced_to(broker, producer, places[0], 0)
        # The last one finds the 500 batches that the one before it brought.
        for least, place, first in ((1, places[0], 500), (8_388_608, places[1], 0), (1_001 * one, places[2], 0)):
            with broker.client() as consumer:
                comes_to_wait(consumer, request(f"fetch max=52428800 wait={LONG} min={least} {asked}"))
                beside = produced_to(broker, producer, place, first)
                words = f"500 produces take {alone} s of processor time, beside a fetch of 4,031 partitions with min {least} {beside} s"
                holds(words, beside < 2 * alone + 0.1)
                holds("a reply comes to what must wait", consumer.gets_nothing(BRIEF))
                if least == 1_001 * one:
                    produce(producer, place, 500, "c=3")
                    consumer.receive(1)


def most_held(program):
    """What is kept of frames that wait counts as held, by partitions; where all hold too much the largest ends."""
    places = [f"{topic}:{number} 0" for topic in "tu" for number in range(64)]
    with Started(program, "--most-held", "130000", topics=("t:64", "u:64")) as broker, broker.client() as producer:
        waiting = broker.clients(3)
        for count, it in zip((40, 80), waiting):
            comes_to_wait(it, fetch(" | ".join(places[:count])))
        waiting[2].send(fetch(" | ".join(places[:120])))
        same("what a client gets that holds too much", waiting[2].rest(), b"")
        broker.tells(3, waiting[2], "most held")
        produce(producer, "t:0", 0, "a=1")
        for it in waiting[:2]:
            it.receive(1)
            it.close()


CASES = [
    ("a fetch waits for what another produces", is_woken_by_produce),
    ("fetches wait for what one produce stores", is_woken_by_each_entry),
    ("a fetch whose time runs out", time_runs_out),
    ("a broker that rests while a fetch waits", rests_meanwhile),
    ("fetches' times in their order", times_in_their_order),
    ("the least bytes of a fetch", least_bytes),
    ("a fetch of which a limit leaves out a batch", limits_leave_out),
    ("a fetch that is given all that is there", all_is_given),
    ("a trim makes a fetch due", trim_makes_due),
    ("a commit makes a fetch due", commit_makes_due),
    ("an import makes a fetch due", import_makes_due),
    ("a cleaning while a fetch waits", clean_leaves_waiting),
    ("a fetch and a produce without acknowledgement", without_acknowledgement),
    ("a fetch that waits behind large replies", behind_much),
    ("fetches that are answered at once", at_once),
    ("frames behind a fetch that waits", frames_behind),
    ("a half-close while a fetch waits", half_close),
    ("a fetch and the end of input", ends_with_the_frame),
    ("resets while fetches wait", reset),
    ("resets as fetches are woken", reset_as_it_is_woken),
    ("idle and waiting", idle),
    ("a thousand fetches that wait", a_thousand),
    ("a produce beside a fetch of many partitions", many_partitions),
    ("more held than allowed, and waiting", most_held),
]
