"""A `kbroker start` that cleans by itself, in memory: what it cleans and what not, when deletions go, what clients notice of it, what it
says, and what it costs where nothing comes.

What must be left is the plain model's (tests/models/broker.py), cleaned once: the broker's passes must come to the same.
"""
import contextlib
import itertools
import re
import resource
import threading
import time

from cases import limits, listening, many_clients, waiting
from cases.cleaning_runs import (
    BRIEF,
    BY_SHARE,
    LEAST_DIRTY,
    PATIENCE,
    SOON,
    Cleaned,
    beside_each_other,
    first_offset,
    image_size,
    is_told,
    overwrite,
    started,
    whole_reply,
    with_cleaning,
)
from cases.cleaning_words import GIVEN_UP, NOTHING_CLEANED, cleaning_at, told_of
from cases.kept_runs import Kept, new_folder
from cases.started import KEEPS, holds, is_soon, reply, request, same, slow
from encoders import batches
from generated import cleanings

KEYS = 8
NEVER = ("--clean-at", "never")


# ---- what is cleaned


def shows_the_latest(client, place, keys, count, size=200):
    """A Fetch from the start and Gets must show of each key the last one of so many values."""
    client.send(request(f"fetch {place} 0 8000000"))
    fetched = whole_reply(client)
    for number in range(count - keys, count):
        key, value = b"k%d" % (number % keys), b"%d-" % number + b"v" * size
        client.ask(f"get {place} {key.decode()}", f"got 0 {value.decode()}")
        holds(f"a fetch of {place} lacks the last value of {key}", batches.with_size(key) + batches.with_size(value) in fetched)


def few_keys(program):
    """Few keys are overwritten. Behind a pass or some just the last record of each is left, in the batches and at the offsets that it
    had; where nothing was said of cleaning, or `never`, all stays."""
    for arguments, said in ((SOON, cleaning_at(99, 0, 1)), ((), NOTHING_CLEANED), (("--clean-at", "never"), NOTHING_CLEANED)):
        asked = Cleaned(("t:2",))
        with started(program, *arguments) as broker:
            is_told(broker, said)
            with broker.client() as client:
                overwrite(asked, client, "t:0", KEYS, 200)
                asked.ask(client, "produce t:1 batch a=1 b=2 a=3 c=4")
                asked.ask(client, "produce t:1 batch a=5 c=null")
                if arguments == SOON:
                    asked.clean()
                    asked.comes_to_be_so(broker, "behind its passes")
                else:
                    asked.stays_so(broker, f"with {arguments}", 4)
                shows_the_latest(client, "t:0", KEYS, 200)
                client.ask("get t:1 c", "got 0 null")
                client.ask("listoffsets t:0 -1", "listed t:0 0 -1 200")


def by_share(program):
    """By its share alone a partition is cleaned once it has 64 kB; what is less stays, and goes with the next pass."""
    asked = Cleaned(("t:2",))
    with started(program, *BY_SHARE) as broker, broker.client() as client:
        overwrite(asked, client, "t:1", KEYS, 100, 400)
        asked.stays_so(broker, "with less than is worth a pass", 3)
        before = image_size(client, "t:1")
        holds(f"{before} bytes are enough for a pass", before < LEAST_DIRTY)
        overwrite(asked, client, "t:1", KEYS, 400, 400)
        shrinks = is_soon(lambda: image_size(client, "t:1") < before + LEAST_DIRTY, PATIENCE)
        holds(f"{image_size(client, 't:1')} bytes are left of it", shrinks)
        overwrite(asked, client, "t:0", KEYS, 500, 400)
        holds("the other partition isn't cleaned", is_soon(lambda: image_size(client, "t:0") < before + LEAST_DIRTY, PATIENCE))
        for place, count in (("t:0", 500), ("t:1", 400)):
            shows_the_latest(client, place, KEYS, count, 400)


def is_cleaned_alone(program, seconds):
    """Whether a record, and then its deletion, go in so many seconds in which nobody asks anything, by one look behind them."""
    asked = Cleaned(("t:2",))
    with started(program, *SOON, "--keep-deletes", "2") as broker:
        with broker.client() as client:
            asked.ask(client, "produce t:0 batch a=1 b=2")
            asked.ask(client, "produce t:0 batch a=null")
        asked.clean(takes_deletions=True)
        time.sleep(seconds)
        with broker.client() as client:
            return asked.is_so(client)


def while_nobody_asks(program):
    """A pass comes, its reply is taken, and the deletion goes once it is old enough, though nobody asks anything meanwhile. A busy machine
    has a second try with more time."""
    holds("it isn't cleaned while nobody asks", any(is_cleaned_alone(program, it) for it in (8, PATIENCE)))


def follower(program):
    """A follower cleans what it was delivered, also where its leader's batches came in another order or one lacks, and what came late, by
    images and by a delta; and rests then."""
    asked = Cleaned(("t:3",), leads=False)
    with started(program, *SOON, "--role", "follower", topics=("t:3",)) as broker, broker.client() as client:
        for base in range(0, 60, 2):
            asked.ask(client, f"deliver t:0 batch base:{base} k{base % 3}={base} a={base}")
        for base in (6, 2, 4, 0, 10):
            asked.ask(client, f"deliver t:1 batch base:{base} a={base} b=null")
        asked.clean()
        asked.comes_to_be_so(broker, "a follower's partitions")
        asked.ask(client, "get t:0 a")
        asked.ask(client, "cover t:1")
        asked.ask(client, "deliver t:1 batch base:8 a=8 c=8")
        asked.ask(client, "import t:2 image 0-3 batch base:0 a=1 a=2 + batch base:2 a=3 b=1")
        asked.clean()
        asked.comes_to_be_so(broker, "a partition with what came late")
        asked.ask(client, "import t:2 image 4-5 batch base:4 b=2 c=1")
        asked.ask(client, "import-delta t:2 delta 0-7 0-5 list 2 2 + list 4 4,5 + batch base:6 c=2 c=3")
        asked.ask(client, "trim t:0 10")
        asked.clean()
        asked.comes_to_be_so(broker, "partitions that were merged and trimmed")
        broker.rests("a follower has cleaned itself")


def positions(program):
    """What groups commit is cleaned likewise; a group that is forgotten leaves nothing once its deletions are old enough."""
    asked = Cleaned(("t:2",))
    with started(program, *SOON, "--keep-deletes", "1") as broker, broker.client() as client:
        for number in range(60):
            asked.ask(client, f"commit group=g{number % 3} t:{number % 2} {number}")
        asked.clean()
        asked.comes_to_be_so(broker, "the groups' partition")
        for group in range(3):
            asked.ask(client, f"offsets group=g{group} t:0 | t:1")
        asked.ask(client, "forget g1")
        asked.clean(takes_deletions=True)
        asked.comes_to_be_so(broker, "the groups' partition without a group")
        asked.ask(client, "offsets group=g1 t:0")
        asked.ask(client, "offsets group=g2 t:1")


def of_producers(program):
    """Batches of an idempotent producer, of which a cleaning keeps the last five though they are empty: each is told as a repeat then."""
    asked = Cleaned(("t:2",))
    with started(program, *SOON) as broker, broker.client() as client:
        asked.ask(client, "producer-id")
        batches = [f"produce t:0 batch producer:0 epoch:0 sequence:{number} a={number}" for number in range(12)]
        for it in batches:
            asked.ask(client, it)
        asked.ask(client, "produce t:0 batch a=last")
        asked.clean()
        asked.comes_to_be_so(broker, "batches of a producer")
        for it in batches[-5:]:
            asked.ask(client, it)
        asked.ask(client, batches[0])
        asked.ask(client, "produce t:0 batch producer:0 epoch:0 sequence:12 b=12")
        asked.clean()
        asked.comes_to_be_so(broker, "once its window has moved")


# ---- the lag, and deletions


def lag_is_kept(program):
    """What came within the lag stays whole: a look that ends before then finds all of it, also while what came before is cleaned."""
    lag = 4
    asked = Cleaned(("t:2",))
    with started(program, "--clean-at", "1", "--clean-lag", str(lag), "--clean-within", str(lag)) as broker, broker.client() as client:
        is_told(broker, cleaning_at(1, lag, lag))
        for turn in range(3):
            began, values = time.monotonic(), [f"{turn}-{number:03d}" for number in range(40)]
            for number, value in enumerate(values):
                asked.ask(client, f"produce t:0 batch k{number % 4}={value}")
            while True:
                client.send(request("fetch wait=0 t:0 0 8000000"))
                given = whole_reply(client)
                seconds = time.monotonic() - began
                if seconds >= lag:
                    break
                gone = [it for it in values if it.encode() not in given]
                same(f"what is gone of turn {turn}, {seconds:.2f} s behind its begin", gone, [])
                time.sleep(BRIEF)
            if turn == 1:
                continue  # (the next turn comes while this one is cleaned)
            asked.clean()
            asked.comes_to_be_so(broker, f"turn {turn}, behind the lag")


def deletions_stay(program):
    """Each key's deletion is found for as long as it is kept by whoever was shown what it deletes: a look that ends before then shows it.
    Then it goes. So it is of each that comes later, in the same partition and in others."""
    keep = 3
    with started(program, *SOON, "--keep-deletes", str(keep)) as broker, broker.client() as client:
        is_told(broker, cleaning_at(99, 0, 1, keep))
        for turn, place in enumerate(("t:0", "t:1", "t:0")):
            began, base = time.monotonic(), 2 * (turn // 2)
            with broker.client() as producer:
                producer.ask(f"produce {place} batch k{turn}=1", f"produced {place} 0 {base}")
                producer.ask(f"produce {place} batch k{turn}=null", f"produced {place} 0 {base + 1}")
            is_kept_for(client, place, base, began, keep)


def is_kept_for(client, place, base, began, keep):
    """The record at an offset, which came behind a moment, is shown until another one; the deletion behind it must be for so long from then
    on, and go in the end."""
    shown, late = began, time.monotonic() + PATIENCE
    while True:
        asked, first = time.monotonic(), first_offset(client, place)
        over = time.monotonic()
        if first == base:
            shown = asked
        elif first is None:
            # (a policy's times are whole milliseconds)
            what = f"the deletion in {place} went {over - shown:.3f} s behind the last look at what it deletes"
            holds(what, over >= shown + keep - 0.005)
            return
        else:
            same(f"the first offset in {place}", first, base + 1)
        holds(f"the deletion in {place} doesn't go", over < late)
        time.sleep(BRIEF)


def deletions_stay_long(program):
    """Unless it is said, a deletion stays for a day: a few passes don't take it."""
    asked = Cleaned(("t:2",))
    with started(program, *SOON) as broker, broker.client() as client:
        for number in range(4):
            asked.ask(client, f"produce t:0 batch a={number} b={number}")
            asked.ask(client, "produce t:0 batch a=null")
            time.sleep(1.2)
        asked.clean()
        asked.comes_to_be_so(broker, "behind some passes")
        asked.stays_so(broker, "a second later", 2)


# ---- what clients notice


def foreign_cleans(program):
    """Clients send Cleans too, of any bounds, while others produce: each is answered with code 0, and in the end all is cleaned."""
    asked, over = Cleaned(("t:2",)), threading.Event()
    faults = []

    def cleans(broker):
        with broker.client() as other, contextlib.suppress(OSError):
            for number in itertools.count():
                if over.is_set():
                    return
                other.send(request(f"clean t:{number % 2} {number * 7 % 300} 0"))
                answer = whole_reply(other)
                if answer[8:10] != b"\0\0":
                    faults.append(answer)
                time.sleep(0.005)

    with started(program, *SOON) as broker, broker.client() as client:
        cleaning = threading.Thread(target=cleans, args=[broker], daemon=True)
        cleaning.start()
        try:
            for turn in range(3):
                overwrite(asked, client, f"t:{turn % 2}", KEYS, 100)
                time.sleep(1)
        finally:
            over.set()
            cleaning.join()
        same("Cleans that aren't answered with code 0", faults, [])
        asked.clean()
        asked.comes_to_be_so(broker, "behind both kinds of cleanings")
        client.ask("clean t:0 1000000 1000000", "cleaned 0 0 0 0")
        client.ask("clean t:9 1 1", "cleaned 3 0 0 0")


def waits_on(program):
    """A Fetch that waits isn't woken by a pass, which takes bytes away: it is answered with what is left, once more has come."""
    with started(program, *SOON) as broker, broker.client() as consumer, broker.client() as other:
        other.ask("produce t:0 batch a={x*400} a=1", "produced t:0 0 0")
        least = len(request("batch last:1 a=1;delta:1 && batch b={y*600}"))
        waiting.comes_to_wait(consumer, waiting.fetch("t:0 0", least=least))
        is_cleaned = is_soon(lambda: image_size(other, "t:0") < 300, PATIENCE)
        holds("no pass comes while a fetch waits", is_cleaned)
        holds("a reply comes to a pass", consumer.gets_nothing(1))
        other.ask("produce t:0 batch b={y*600}", "produced t:0 0 2")
        consumer.gets(reply("fetched t:0 0 3 batch last:1 a=1;delta:1 + batch base:2 b={y*600}"))


def counts_for_no_limit(program):
    """With one connection at most, that is idle for five seconds at most and is of the only one of its address: a client is served beside
    passes, and connections have the numbers that they have without."""
    asked = Cleaned(("t:2",))
    limits_ = ["--most-connections", "1", "--most-per-address", "1", "--idle", "5", "--most-held", "100000"]
    with started(program, *SOON, *limits_) as broker:
        for number in range(3):
            with broker.client() as client:
                overwrite(asked, client, f"t:{number % 2}", 2, 20)
                asked.clean()
                holds(f"client {number}: nothing is cleaned", is_soon(lambda: asked.is_so(client), PATIENCE))
            broker.tells(number, client, "end")
        time.sleep(6)
        with broker.client() as client:
            client.ask("versions", "versions 0")
            client.gets_to_the_end(b"")
        broker.tells(3, client, "idle for 5 s")
        ends = broker.ends(4)
        same("the numbers of connections that ended", sorted(it[0] for it in ends.told), [0, 1, 2, 3])


def replies_to(program, session, arguments, seconds):
    """The replies to the requests of a generated session, which are sent over so many seconds; by the requests' numbers."""
    role, *topics = [it.decode() for it in session.arguments[2:]]
    frames = [it.frame for it in session.requests]
    named = ("--advertise", "a.example:9092", "--role", role)  # (Metadata names it)
    with started(program, *arguments, *named, topics=topics) as broker, broker.client() as client:
        for at in range(0, len(frames), 20):
            client.send(b"".join(frames[at : at + 20]))
            time.sleep(20 * seconds / len(frames))
        client.stop()
        got = dict(cleanings.replies_of(client.rest()))
        is_cleaned = bool(broker.passes)
    same(f"whether passes are told with {arguments}", is_cleaned, arguments != NEVER)
    return got


def as_one_that_never_cleans(program):
    """Generated sessions of leaders and followers: a broker that cleans itself all the time, and lets deletions go at once, gives the same
    replies to all requests that don't show which batches are kept as one that never cleans."""
    for session in cleanings.sessions(count=3):
        runs = [replies_to(program, session, it, seconds) for it, seconds in (((*SOON, "--keep-deletes", "0"), 5), (NEVER, 0))]
        same("the requests that are answered", sorted(runs[0]), sorted(runs[1]))
        for number, it in enumerate(session.requests):
            if it.is_compared:
                same(f"the reply to request {number} of kind {it.kind}", runs[0].get(number), runs[1].get(number))


# ---- what it says


def line_of_a_pass(program):
    """The first pass is told at once, with what it took; the next ones within that minute aren't."""
    with started(program, *SOON, topics=("t:4",)) as broker, broker.client() as client:
        asked, began = Cleaned(("t:4",)), time.monotonic()
        frames = [request(f"produce t:2 batch a={number} b={{v*2000}}") for number in range(30)] + [request("produce t:2 batch b=null")]
        client.send(b"".join(frames))
        client.gets(b"".join(asked.node.reply(it[4:]) for it in frames), "the replies")
        holds(f"nothing is told: {broker.lines}", is_soon(lambda: broker.passes, PATIENCE))
        for turn in range(3):
            asked.ask(client, f"produce t:{turn} batch a=1 a=2")
            time.sleep(1.5)
        told = [told_of(it) for it in broker.passes]
        seconds = time.monotonic() - began
        holds(f"{len(told)} lines in {seconds:.1f} s: {broker.passes}", len(told) <= 1 + seconds / 60)
        first = told[0]
        same("the partition of the first line", (first.topic, first.partition, first.more), ("t", 2, 0))
        holds(f"the sizes of {first}", first.now < first.before <= 70_000)
        holds(f"what it took, of {first}", first.records <= 59 and first.tombstones == 0 and first.batches <= 29)
        same("other lines", broker.lines, [])


def produces_and_is_cleaned(client, place, base):
    """Two batches come, and passes take all but the last one."""
    client.ask(f"produce {place} batch a=1", f"produced {place} 0 {base}")
    client.ask(f"produce {place} batch a=2", f"produced {place} 0 {base + 1}")
    holds(f"{place} isn't cleaned up to {base + 1}", is_soon(lambda: first_offset(client, place) == base + 1, PATIENCE))


def further_lines(program):
    """Within the next minute others are cleaned: a line behind it says how many, though nobody asks anything; the line of the minute behind
    that counts its own ones alone. A partition that is cleaned several times in a minute counts once."""
    with started(program, *SOON, topics=("t:8",)) as broker:
        with broker.client() as client:
            for place in range(8):
                client.ask(f"produce t:{place} batch a=1 a=2", f"produced t:{place} 0 0")
        holds(f"no second line: {broker.passes}", is_soon(lambda: len(broker.passes) == 2, 60 + PATIENCE))
        with broker.client() as client:
            for place, base in (("t:0", 2), ("t:0", 4), ("t:3", 2), ("t:0", 6), ("t:3", 4)):
                produces_and_is_cleaned(client, place, base)
        holds(f"no third line: {broker.passes}", is_soon(lambda: len(broker.passes) == 3, 60 + PATIENCE))
        told = [told_of(it) for it in broker.passes]
        same(f"how many more partitions, in {broker.passes}", [it.more for it in told], [0, 6, 1])
        same("the partition of the last line", (told[2].topic, told[2].partition), ("t", 3))


# ---- what it costs


def all_places(topics):
    """The partitions of topics NAME:N, as they stand in requests."""
    return [f"{name}:{index}" for name, count in (it.split(":") for it in topics) for index in range(int(count))]


@contextlib.contextmanager
def rested(program, *arguments):
    """A broker with 200 partitions that has cleaned all, and to which nothing comes any more."""
    topics = [f"{it}:50" for it in "tuvw"]
    asked = Cleaned(topics)
    with started(program, *SOON, *arguments, topics=topics) as broker:
        with broker.client() as client:
            for place in all_places(topics):
                asked.ask(client, f"produce {place} batch a=1 a=null b=2")
            asked.ask(client, "commit t:0 4")
            asked.clean(takes_deletions=True)
        asked.comes_to_be_so(broker, "behind its passes")
        broker.rests("nothing comes any more")
        yield broker


def switches(broker):
    """How often it has given the processor away to wait."""
    with open(f"/proc/{broker.process.pid}/status", encoding="ascii") as file:
        return int(re.search(r"^voluntary_ctxt_switches:\s+(\d+)$", file.read(), re.M)[1])


@slow("the program's checks cost more than what is compared")
def rests(program):
    """Once all that may go has gone, and nothing comes, it takes next to no processor time, and hardly ever wakes."""
    with rested(program, "--keep-deletes", "1") as broker:
        time.sleep(3)
        before, woken = broker.schedule()[0], switches(broker)
        time.sleep(5)
        took, woken = broker.schedule()[0] - before, switches(broker) - woken
        holds(f"it took {took * 1000:.1f} ms of 5 s, and woke {woken} times", took < 0.005 and woken <= 8)


# ---- memory


def filling(keys):
    """Produces of so many keys, in large batches."""
    for base in range(0, keys, 500):
        yield request("produce t:0 batch " + " ".join(f"key-{number:08d}=v" for number in range(base, base + 500)))


@contextlib.contextmanager
def no_more_memory(broker):
    """It can have no further memory meanwhile."""
    with open(f"/proc/{broker.process.pid}/statm", encoding="ascii") as file:
        space = int(file.read().split()[0]) * resource.getpagesize()
    _, most = resource.prlimit(broker.process.pid, resource.RLIMIT_AS)
    resource.prlimit(broker.process.pid, resource.RLIMIT_AS, (space, most))
    try:
        yield
    finally:
        resource.prlimit(broker.process.pid, resource.RLIMIT_AS, (most, most))


def has_its_first_record(client):
    client.send(request("fetch wait=0 t:0 0 100000"))
    return batches.with_size(b"key-00000000") + batches.with_size(b"v") in whole_reply(client)


def lacks_memory(program, *arguments):
    """A pass that lacks memory is given up with a line; the broker goes on, and nothing of the partition is changed. Once there is memory
    it comes again, a minute later at the soonest."""
    keys, lag = 40_000, 6
    frames = [*filling(keys), request("produce t:0 batch key-00000000=new")]
    arguments = ["--clean-at", "1", "--clean-lag", str(lag), "--clean-within", str(lag), *arguments]
    with started(program, *arguments) as broker, broker.client() as client:
        client.send(b"".join(frames))
        for number in range(len(frames)):
            client.gets(reply(f"produced t:0 0 {number * 500}"))
        with no_more_memory(broker):
            is_given_up = is_soon(lambda: any(map(GIVEN_UP.fullmatch, [*broker.lines])), PATIENCE)
            holds(f"no pass is given up: {broker.lines}", is_given_up)
            began = time.monotonic()
        given_up = next(it for it in map(GIVEN_UP.fullmatch, broker.lines) if it)
        same("the line", given_up.groups(), ("t", "0", "out of memory"))
        client.ask("get t:0 key-00000000", "got 0 new")
        client.ask("listoffsets t:0 -1", f"listed t:0 0 -1 {keys + 1}")
        holds("it isn't as it was", has_its_first_record(client))
        is_done = is_soon(lambda: broker.passes, 120)
        holds(f"it isn't tried again: {broker.lines}", is_done and time.monotonic() - began > 50)
        holds("what was superseded is there", not has_its_first_record(client))


def lacks_memory_and_keeps(program):
    """The same with a directory: neither does the broker end, and the next start has all."""
    with new_folder() as folder:
        lacks_memory(program, "--data", folder)
        with Kept(program, folder) as broker, broker.client() as client:
            client.ask("get t:0 key-00000000", "got 0 new")
            holds("what was superseded is there again", not has_its_first_record(client))


# ---- many partitions

MANY = 4_097  # with the groups' partition
TOPICS_OF_MANY = tuple(f"t{number:02d}:64" for number in range(64))
FULL = all_places(TOPICS_OF_MANY[-1:])[:32]  # partitions that are written all the time


def writes(broker, over, written):
    """Overwrites a key in each of these partitions again and again."""
    frames = [request(f"produce {place} batch k={{v*8000}}") for place in FULL]
    with broker.client() as client:
        for number in itertools.count():
            if over.is_set():
                written.append(number)
                return
            client.send(frames[number % len(frames)])
            whole_reply(client)


@slow("the program's checks cost more than what is compared")
def many_partitions(program):
    """Of 4,097 partitions, most of them small, and some that are written all the time, none stays due for ever: all small ones are
    cleaned, and the deletions in them go; so it is of the others once they are left alone."""
    asked, over, written = Cleaned(TOPICS_OF_MANY), threading.Event(), []
    small = all_places(TOPICS_OF_MANY[:-1])
    names = [(name.encode(), int(index)) for name, index in (it.split(":") for it in small)]
    frames = [request(f"produce {place} batch a=1 b=1 a=null") for place in small]
    wanted = b"".join(asked.node.reply(it[4:]) for it in frames)
    for place in small:
        asked.node.reply(request(f"clean {place} 3 3")[4:])
    with started(program, *SOON, "--keep-deletes", "1", topics=TOPICS_OF_MANY) as broker, broker.client() as client:
        writing = threading.Thread(target=writes, args=[broker, over, written], daemon=True)
        writing.start()
        try:
            for at in range(0, len(frames), 500):
                client.send(b"".join(frames[at : at + 500]))
                time.sleep(0.3)
            client.gets(wanted, "the replies")
            asked.comes_to_be_so(broker, f"{len(small)} of {MANY} partitions", names, 5 * PATIENCE)
        finally:
            over.set()
            writing.join()
        holds(f"only {written} batches were written beside it", written[0] > 100)
        are_small = is_soon(lambda: max(image_size(client, place) for place in FULL) < 9_000, PATIENCE)
        holds(f"what was written all the time has {max(image_size(client, place) for place in FULL)} bytes", are_small)


# ---- the command line (tests/rows/command_lines.rows has the faulty ones)

SOUND = [
    (["--clean-at", "1"], cleaning_at(1)),
    (["--clean-at", "99", "--clean-lag", "0"], cleaning_at(99, 0)),
    (["--clean-at", "50", "--clean-lag", "31536000", "--clean-within", "31536000"], cleaning_at(50, 31_536_000, 31_536_000)),
    (["--clean-at", "50", "--clean-lag", "1", "--clean-within", "1"], cleaning_at(50, 1, 1)),
    (["--clean-at", "50", "--keep-deletes", "0"], cleaning_at(50, keep=0)),
    (["--clean-at", "50", "--keep-deletes", "315360000"], cleaning_at(50, keep=315_360_000)),
    (["--clean-at", "never"], NOTHING_CLEANED),
    ([], NOTHING_CLEANED),
]


def sound_arguments(program):
    """What is said at the start, with all that wasn't given."""
    for words, line in SOUND:
        with started(program, *words) as broker:
            is_told(broker, line)


# what is so without cleaning is so with it: cases of each kind, in which no key is written again that is looked for
AS_WITHOUT = [
    ("a producer and a consumer that stay connected", many_clients.two_that_stay),
    ("refused frames", many_clients.refused_frames),
    ("a refused frame before what isn't read", many_clients.refused_before_unread),
    ("connections that are reset", many_clients.resets),
    ("more connections than allowed", limits.most_connections),
    ("more connections of an address than allowed", limits.most_per_address),
    ("more bytes held than allowed", limits.most_held),
    ("connections on which nothing moves", limits.idle),
    ("fetches' times in their order", waiting.times_in_their_order),
    ("a broker that rests while a fetch waits", waiting.rests_meanwhile),
    ("a trim makes a fetch due", waiting.trim_makes_due),
    ("an import makes a fetch due", waiting.import_makes_due),
    ("a commit makes a fetch due", waiting.commit_makes_due),
    ("more held than allowed, and waiting", waiting.most_held),
    ("standard error that is full", listening.full_errors),
    ("standard streams that are all closed", listening.closed_streams),
]

told_in_time = beside_each_other(lacks_memory, lacks_memory_and_keeps, further_lines)
CASES = [
    ("a broker that cleans few keys, and one that doesn't", few_keys),
    ("a broker that cleans by the share", by_share),
    ("a broker that cleans while nobody asks", while_nobody_asks),
    ("a follower that cleans itself", follower),
    ("groups' positions that are cleaned", positions),
    ("batches of a producer, cleaned by itself", of_producers),
    ("what is younger than the lag", lag_is_kept),
    ("deletions that stay, and go", deletions_stay),
    ("deletions that stay for a day", deletions_stay_long),
    ("Cleans of clients beside a broker's own", foreign_cleans),
    ("a fetch that waits while it cleans", waits_on),
    ("limits that count no cleaning", counts_for_no_limit),
    ("a broker that cleans beside one that never does", as_one_that_never_cleans),
    *((f"{name}, while it cleans", with_cleaning(case)) for name, case in AS_WITHOUT),
    ("the line of a pass", line_of_a_pass),
    ("a broker that cleans, and rests", rests),
    ("a pass that lacks memory, and the line of further passes", slow(KEEPS)(told_in_time)),
    ("many partitions that are cleaned", many_partitions),
    ("options of cleaning", sound_arguments),
]
