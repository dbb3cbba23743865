"""Rows of 101, 1,001, 10,001 and 65,537 of whatever the program counts: no contract refuses a body that gives up where a count is
large, and answers that memory lacks.

What must come is worked by the encoders beside this file, or by what stands here; nothing is taken from the program.
"""
import functools
import struct

from encoders import batches, copies, frames

COUNTS = [101, 1_001, 10_001, 65_537]
GREATEST = "the greatest counts"
DIGITS = b"-.0123456789ABCDEFGHIJKLMNOPQRSTUVWXYZabcdefghijklmnopqrstuvwxyz"  # rising, and as they are in a table and a name
ONE = batches.batch([batches.record(0, b"a", b"1", [], {})], {})  # the batch a=1
MOST_BYTES = 8_388_608  # of a Fetch
NO_TOPIC = 3
NO_POSITION = 42


def key_of(number):
    """Three bytes, which rise with the number."""
    return bytes([DIGITS[number >> 12 & 63], DIGITS[number >> 6 & 63], DIGITS[number & 63]])


def at(base, batch=ONE):
    """The batch at another base offset, which its crc isn't of."""
    return struct.pack(">q", base) + batch[8:]


def row(arguments, exchanges):
    """A session of requests and their replies, which stand in pairs."""
    return {
        "arguments": [b"session", *(it.encode() for it in arguments.split())],
        "data": b"".join(request for request, _ in exchanges),
        "stdout": b"".join(reply for _, reply in exchanges),
    }


def merge(images, merged):
    return {"arguments": [b"merge"], "data": b"".join(frames.data(it) for it in images), "stdout": merged}


def asked(request, reply):
    """A request and its reply, in the words of rows."""
    return copies.input_of(request, None), copies.reply_of(reply, None)


# ---- requests and replies of many entries, as bytes


def one_topic(entries, name=b"t"):
    return frames.array([frames.text(name) + frames.array(entries)])


def topic_each(entries, name=b"t"):
    """A topic for each entry."""
    return frames.array([frames.text(name) + frames.array([it]) for it in entries])


def produce(entries, in_topics=one_topic):
    """Bytes for partition 0 of `t`, or None for null."""
    held = [struct.pack(">ii", 0, -1) if it is None else struct.pack(">i", 0) + frames.data(it) for it in entries]
    return frames.request(0, 3, struct.pack(">hhi", -1, 1, 1000) + in_topics(held))


def produced(answers, in_topics=one_topic):
    """Of each entry its code and its base offset."""
    held = [struct.pack(">ihqq", 0, code, base, -1) for code, base in answers]
    return frames.response(in_topics(held) + struct.pack(">i", 0))


def appended(sent, first=0):
    """Batches of one record, which a leader takes from this offset on."""
    return produce(sent), produced([(0, first + n) for n in range(len(sent))])


def fetch(entries, in_topics=one_topic):
    """From offsets of partition 0 of `t`."""
    held = [struct.pack(">iqi", 0, it, MOST_BYTES) for it in entries]
    return frames.request(1, 4, struct.pack(">iiiib", -1, 500, 1, MOST_BYTES, 0) + in_topics(held))


def fetched(end, entries, in_topics=one_topic):
    """Of each entry the batches."""
    held = [struct.pack(">ihqqi", 0, 0, end, end, -1) + frames.data(it) for it in entries]
    return frames.response(struct.pack(">i", 0) + in_topics(held))


def listoffsets(times, in_topics=one_topic):
    return frames.request(2, 1, struct.pack(">i", -1) + in_topics([struct.pack(">iq", 0, it) for it in times]))


def listed(answers, in_topics=one_topic):
    """Of each entry its time and its offset."""
    return frames.response(in_topics([struct.pack(">ihqq", 0, 0, *it) for it in answers]))


def imported(place, image):
    """An image that a copy takes."""
    return copies.of_copy(20003, place, lambda _: frames.data(image)), frames.response(struct.pack(">h", 0))


def patched(place, delta, code=0):
    """A delta for a copy, and the code that it is answered with."""
    return copies.of_copy(20003, place, lambda _: frames.data(delta), 1), frames.response(struct.pack(">h", code))


def exported(place, image):
    return copies.of_copy(20002, place, lambda _: b""), frames.response(struct.pack(">h", 0) + frames.data(image))


def compared(place, ranges, delta):
    """An Export for a copy that has seen these ranges, and the delta that comes."""
    request = copies.of_copy(20002, place, lambda _: frames.array(copies.packed(ranges)), 1)
    return request, frames.response(struct.pack(">h", 0) + frames.data(delta))


def covered(place, ranges):
    reply = frames.response(struct.pack(">h", 0) + frames.array(copies.packed(ranges)))
    return copies.of_copy(20005, place, lambda _: b""), reply


def delivered(place, batch):
    """A batch that a follower takes, and has not seen."""
    return copies.of_copy(20000, place, lambda _: frames.data(batch)), frames.response(struct.pack(">hb", 0, 0))


def image(ranges, kept, **fields):
    return copies.image(ranges, kept, fields)


def delta(ranges, wanted, entries, **fields):
    return copies.delta(ranges, wanted, entries, fields)


def listing(base, offsets):
    """What a delta says of a batch whose records have these offsets."""
    return struct.pack(">bqi", 0, base, len(offsets)) + b"".join(struct.pack(">q", it) for it in offsets)


def apart(count, step=2, first=0):
    """So many ranges of one offset."""
    return [(offset, offset) for offset in range(first, first + step * count, step)]


# ---- records and headers


@functools.lru_cache(maxsize=1)
def many_records(count):
    """A batch of records with different keys and no byte of a value, whose times rise by one."""
    return batches.batch([batches.record(n, key_of(n), b"", [], {"time": n}) for n in range(count)], {})


def records_of_a_batch(count):
    batch = many_records(count)
    last = count - 1
    return row(
        "t:1",
        [
            (produce([batch]), produced([(0, 0)])),
            (fetch([last]), fetched(count, [batch])),
            (listoffsets([-1, 0, last, count]), listed([(-1, count), (0, 0), (last, last), (-1, -1)])),
            asked(f"get t:0 {key_of(last).decode()}", "got 0 "),
            asked(f"clean t:0 {count} {count}", "cleaned 0 0 0 0"),
            (fetch([0]), fetched(count, [batch])),
        ],
    )


def lines_of_a_table(count):
    printed = b"".join(key_of(n) + b"=\n" for n in range(count))
    return {"arguments": [b"table"], "data": many_records(count), "stdout": printed}


def records_that_a_cleaning_removes(count):
    """Of one key, and tombstones of different ones."""
    same = [batches.record(n, b"a", b"%d" % (n % 10), [], {}) for n in range(count)]
    kept = batches.batch(same[-1:], {"last": count - 1})
    nulls = batches.batch([batches.record(n, key_of(n), None, [], {}) for n in range(count)], {"base": count})
    return row(
        "t:1",
        [
            (produce([batches.batch(same, {}), nulls]), produced([(0, 0), (0, count)])),
            asked(f"clean t:0 {count} 0", f"cleaned 0 {count - 1} 0 0"),
            exported("t:0", image([(0, 2 * count - 1)], [kept, nulls])),
            asked(f"clean t:0 {2 * count} {2 * count}", f"cleaned 0 0 {count} 1"),
            exported("t:0", image([(0, 2 * count - 1)], [kept])),
        ],
    )


def with_headers(count):
    return batches.record(0, b"a", b"1", [(b"", None)] * count, {})


def headers_of_a_record(count):
    return {"arguments": [b"table"], "data": batches.batch([with_headers(count)], {}), "stdout": b"a=1\n"}


def headers_that_are_given_out(count):
    batch = batches.batch([with_headers(count)], {})
    return row("t:1", [appended([batch]), (fetch([0]), fetched(1, [batch]))])


def headers_that_are_written_anew(count):
    """By a merge of copies that have lost another record each."""
    held = with_headers(count)
    others = [batches.record(n, b"x", b"1", [], {}) for n in (1, 2)]
    lost = [image([(0, 2)], [batches.batch([held, it], {"last": 2})]) for it in others]
    return merge(lost, image([(0, 2)], [batches.batch([held], {"last": 2})]))


def bytes_of_a_text(count):
    """Of keys, values, headers, and the texts of requests, which have at most 32,767 bytes."""
    long, text = b"v" * count, b"g" * min(count, 32_767)
    batch = batches.batch([batches.record(0, long, long, [(long, long)], {})], {})
    position = batches.input_of(f"positions {text.decode()}/t/0=5", None)
    head = struct.pack(">hhi", 2, 1, 7) + frames.text(text) + struct.pack(">i", -1)
    transaction = struct.pack(">h", len(text)) + text + struct.pack(">i", 60_000)
    return row(
        "t:1",
        [
            (produce([batch]), produced([(0, 0)])),
            (fetch([0]), fetched(1, [batch])),
            asked(f"get t:0 {long.decode()}", f"got 0 {long.decode()}"),
            (frames.data(head + one_topic([struct.pack(">iq", 0, -1)])), listed([(-1, 1)])),
            asked(f"commit group={text.decode()} t:0 5", "committed t:0 0"),
            asked(f"offsets group={text.decode()} t:0", "found t:0 0 5"),
            exported("__consumer_offsets:0", image([(0, 0)], [position])),
            asked(f"forget {text.decode()}", "forgotten 0 1"),
            asked(f"coordinator {text.decode()}", "coordinator 0 1 127.0.0.1:9092"),
            (frames.request(22, 0, transaction), copies.reply_of("producer 48 -1 -1", None)),
        ],
    )


# ---- batches


def batches_of_a_stream(count):
    """In a table's input; the last one has another value."""
    last = batches.batch([batches.record(0, b"a", b"2", [], {})], {"base": count})
    return {"arguments": [b"table"], "data": b"".join(at(n) for n in range(count)) + last, "stdout": b"a=2\n"}


def batches_of_a_log(count):
    """Appended by one request and given out by one, trimmed, exported and cleaned."""
    held = [at(n) for n in range(count)]
    exchanges = [
        appended([ONE] * count),
        (fetch([0, count - 1]), fetched(count, [b"".join(held), held[-1]])),
        asked(f"trim t:0 {count // 2}", "trimmed 0"),
        exported("t:0", image([(count // 2, count - 1)], held[count // 2 :], start=count // 2)),
        asked(f"clean t:0 {count} 0", f"cleaned 0 {count - count // 2 - 1} 0 {count - count // 2 - 1}"),
        asked("get t:0 a", "got 0 1"),
        asked(f"trim t:0 {count}", "trimmed 0"),
        exported("t:0", image([], [], start=count)),
    ]
    return row("t:1", exchanges)


def batches_of_an_image(role, count):
    """Taken, given out and cleaned."""
    held = image([(0, count - 1)], [at(n) for n in range(count)])
    cleaning = asked(f"clean t:0 {count} 0", f"cleaned 0 {count - 1} 0 {count - 1}")
    return row(f"--role {role} t:1", [imported("t:0", held), exported("t:0", held), cleaning, asked("get t:0 a", "got 0 1")])


def batches_of_two_images(count):
    """Copies with every other batch each."""
    parts = [image(apart(len(range(first, count, 2)), 2, first), [at(n) for n in range(first, count, 2)]) for first in (0, 1)]
    return merge(parts, image([(0, count - 1)], [at(n) for n in range(count)]))


def batches_that_are_delivered(count):
    """The even offsets, and then the odd ones from the last one on."""
    even, odd = apart((count + 1) // 2), apart(count // 2, 2, 1)
    exchanges = [delivered("t:0", at(first)) for first, _ in even]
    exchanges.append(covered("t:0", even))
    exchanges += [delivered("t:0", at(first)) for first, _ in odd[::-1]]
    exchanges.append(covered("t:0", [(0, count - 1)]))
    return row("--role follower t:1", exchanges)


# ---- ranges


def halves(count, step):
    """Two copies' ranges, which are so many together, and of which each second one is the other's."""
    return apart((count + 1) // 2, 2 * step), apart(count // 2, 2 * step, step)


def ranges_of_two_images(step, is_turned, count):
    """A merge of copies of every second range; with a step of 1 they leave no gap."""
    images = [image(it, []) for it in halves(count, step)]
    merged = image(apart(count, step) if step > 1 else [(0, count - 1)], [])
    return merge(images[::-1] if is_turned else images, merged)


def ranges_of_two_copies(count):
    """Of a follower that takes another one's image, and then a delta that knows of what lies between."""
    seen, between = apart(count), apart(count, 2, 1)
    return row(
        "--role follower t:1",
        [
            *[imported("t:0", image(it, [])) for it in halves(count, 2)],
            covered("t:0", seen),
            exported("t:0", image(seen, [])),
            compared("t:0", between, delta(seen, between, [])),
            patched("t:0", delta(between, seen, [])),
            covered("t:0", [(0, 2 * count - 1)]),
        ],
    )


def ranges_that_are_asked(count):
    """Of which the receiver has seen all, or lacks the last one."""
    seen = apart(count)
    return row(
        "--role follower t:2",
        [
            compared("t:0", seen, delta([], seen, [])),
            imported("t:0", image(seen, [])),
            imported("t:1", image(seen[:-1], [])),
            patched("t:0", delta([], seen, [])),
            patched("t:1", delta([], seen, []), 42),
            patched("t:0", delta([], seen, [], version=0)),
            patched("t:1", delta([], seen, [], version=0), 42),
        ],
    )


def entries_of_a_delta(count):
    """Batches that a copy takes, and gives to another one; and lists of them."""
    ranges = [(0, count - 1)]
    sent = delta(ranges, [], [b"\1" + at(n) for n in range(count)])
    lists = delta(ranges, ranges, [listing(n, [n]) for n in range(count)])
    return row(
        "--role follower t:2",
        [
            patched("t:0", sent),
            compared("t:0", ranges, lists),
            compared("t:0", [], sent),
            patched("t:1", sent),
            patched("t:1", lists),
            compared("t:1", [], sent),
        ],
    )


def offsets_of_a_list(count):
    """What a delta says of a batch of so many records, and of one that has lost every other record."""
    records = [batches.record(n, key_of(n), b"", [], {}) for n in range(count)]
    all_of_it = [(0, count - 1)]
    listed_one = delta(all_of_it, [(0, 0)], [listing(0, range(count))])
    half = delta(all_of_it, [(0, 0)], [listing(0, range(0, count, 2))])
    return row(
        "--role follower t:1",
        [
            delivered("t:0", batches.batch(records, {})),
            compared("t:0", [(0, 0)], listed_one),
            patched("t:0", listed_one),
            patched("t:0", half),
            exported("t:0", image(all_of_it, [batches.batch(records[::2], {"last": count - 1})])),
        ],
    )


# ---- entries of requests


def entries_of_a_produce(count):
    """In one topic, and in a topic each; what is null is no batch."""
    exchanges = [appended([ONE] * count)]
    for in_topics in (one_topic, topic_each):
        exchanges.append((produce([None] * count, in_topics), produced([(2, -1)] * count, in_topics)))
    exchanges.append((listoffsets([-1]), listed([(-1, count)])))
    return row("t:1", exchanges)


def entries_of_a_fetch(count):
    exchanges = [appended([ONE])]
    for in_topics in (one_topic, topic_each):
        exchanges.append((fetch([1] * count + [0], in_topics), fetched(1, [b""] * count + [ONE], in_topics)))
    return row("t:1", exchanges)


def entries_of_a_listoffsets(count):
    exchanges = [appended([ONE])]
    for in_topics in (one_topic, topic_each):
        exchanges.append((listoffsets([-1] * count + [-2, 0], in_topics), listed([(-1, 1)] * count + [(-1, 0), (0, 0)], in_topics)))
    return row("t:1", exchanges)


def names_of_a_metadata(count):
    """Names that there aren't, and one name so many times."""
    unknown = [frames.text(key_of(n)) for n in range(count)]
    broker = struct.pack(">i", 1) + frames.text(b"127.0.0.1") + struct.pack(">ih", 9092, -1)
    told = [struct.pack(">h", NO_TOPIC) + it + struct.pack(">bi", 0, 0) for it in unknown]
    reply = frames.response(frames.array([broker]) + struct.pack(">i", 1) + frames.array(told))
    again = frames.request(3, 1, frames.array([frames.text(b"t")] * count))
    return row(
        "t:1",
        [
            (frames.request(3, 1, frames.array(unknown)), reply),
            (again, copies.reply_of("described leader t 0 0 1", None)),
        ],
    )


def commit(entries, in_topics):
    """Offsets of partition 0 of `t` for the group `g`."""
    held = [struct.pack(">iqh", 0, it, 0) for it in entries]
    return frames.request(8, 2, frames.text(b"g") + struct.pack(">ihq", -1, 0, -1) + in_topics(held))


def committed(count, in_topics):
    return frames.response(in_topics([struct.pack(">ih", 0, 0)] * count))


def entries_of_a_commit(count):
    """The latest one holds, and the others are cleaned away."""
    exchanges = [(commit(range(count), it), committed(count, it)) for it in (one_topic, topic_each)]
    return row(
        "t:1",
        [
            *exchanges,
            asked("offsets t:0", f"found t:0 0 {count - 1}"),
            asked(f"clean __consumer_offsets:0 {2 * count} 0", f"cleaned 0 {2 * count - 1} 0 {2 * count - 1}"),
            asked("offsets t:0 | t:0", f"found t:0 0 {count - 1} | t:0 0 {count - 1}"),
            asked("forget g", "forgotten 0 1"),
        ],
    )


def entries_of_an_offset_fetch(count):
    """In one topic, and in a topic each; above 8,192 each is refused."""
    answer = struct.pack(">iqhh", 0, 5, 0, 0) if count <= 8_192 else struct.pack(">iqhh", 0, -1, 0, NO_POSITION)
    exchanges = [asked("commit t:0 5", "committed t:0 0")]
    for in_topics in (one_topic, topic_each):
        request = frames.request(9, 1, frames.text(b"g") + in_topics([struct.pack(">i", 0)] * count))
        exchanges.append((request, frames.response(in_topics([answer] * count))))
    return row("t:1", exchanges)


# ---- frames, producers, groups


def frames_of_a_session(count):
    request, reply = listoffsets([-1]), listed([(-1, 0)])
    return row("t:1", [(request * count, reply * count)])


def producers(count):
    """Each gets its id, sends a batch, and sends it again, behind a cleaning too."""
    ids = frames.request(22, 0, struct.pack(">hi", -1, 60_000)) * count
    given = b"".join(frames.response(struct.pack(">ihqh", 0, 0, n, 0)) for n in range(count))
    record = batches.record(0, b"k", b"v", [], {})
    sent = [batches.batch([record], {"producer": n, "epoch": 0, "sequence": 0}) for n in range(count)]
    return row(
        "t:1",
        [
            (ids, given),
            appended(sent),
            appended(sent),
            asked(f"clean t:0 {count} 0", f"cleaned 0 {count - 1} 0 0"),
            appended(sent),
            (listoffsets([-1]), listed([(-1, count)])),
        ],
    )


def groups(count):
    """Each commits a position; the first, the last and one between are read, and one is forgotten."""
    rest = struct.pack(">ihq", -1, 0, -1)
    requests = [
        frames.request(8, 2, frames.text(key_of(n)) + rest + one_topic([struct.pack(">iqh", 0, n, 0)])) for n in range(count)
    ]
    looks = [asked(f"offsets group={key_of(n).decode()} t:0", f"found t:0 0 {n}") for n in (0, count // 2, count - 1)]
    first = key_of(0).decode()
    return row(
        "t:1",
        [
            (b"".join(requests), committed(1, one_topic) * count),
            *looks,
            asked(f"forget {first}", "forgotten 0 1"),
            asked(f"offsets group={first} t:0", "found t:0 0 -1"),
            looks[-1],
        ],
    )


def positions_of_a_group(count):
    rest = f"each:{count}:g/t/#"
    position = batches.input_of(f"positions {rest}=1", None)
    forgotten = batches.input_of(f"positions {rest}=null", None)
    return row(
        "t:1",
        [
            imported("__consumer_offsets:0", image([(0, count - 1)], [position])),
            asked("forget g", f"forgotten 0 {count}"),
            asked("forget g", "forgotten 0 0"),
            exported("__consumer_offsets:0", image([(0, 2 * count - 1)], [position, at(count, forgotten)])),
        ],
    )


def connections(count):
    """Each with a request; what one appends the next one finds."""
    clients, lines = [], []
    for number in range(count):
        sent = ["produce t:0 batch a=1", [f"produced t:0 0 {number // 2}"]] if number % 2 else ["get t:0 a", [f"got 0 {'1' if number > 1 else 'null'}"]]
        clients.append([sent])
        lines.append(f"connection {number}: frames 1\n")
    arguments = f"serve --port 0 --connections {count} t:1"
    return {"arguments": arguments.encode().split(), "clients": clients, "stdout": "".join(lines).encode()}


# ---- topics, each with all of its partitions

PLACES = [(b"t%d" % topic, index) for topic in range(64) for index in range(64)]


def in_places(encode):
    """What is said of each partition, in its topic."""
    return frames.topics([(name, struct.pack(">i", index) + encode(name, index)) for name, index in PLACES])


def all_partitions():
    """A batch for each partition of a request, and what is told of them; and a commit for each."""
    head = struct.pack(">hhi", -1, 1, 1000)
    group = frames.text(b"g")
    rest = struct.pack(">ihq", -1, 0, -1)
    names = " | ".join(f"t{topic} 0 0 64" for topic in range(64))
    return row(
        " ".join(f"t{topic}:64" for topic in range(64)),
        [
            asked("metadata all", f"described leader {names} | __consumer_offsets 0 1 1"),
            (
                frames.request(0, 3, head + in_places(lambda *_: frames.data(ONE))),
                frames.response(in_places(lambda *_: struct.pack(">hqq", 0, 0, -1)) + struct.pack(">i", 0)),
            ),
            (
                frames.request(2, 1, struct.pack(">i", -1) + in_places(lambda *_: struct.pack(">q", -1))),
                frames.response(in_places(lambda *_: struct.pack(">hqq", 0, -1, 1))),
            ),
            (
                frames.request(8, 2, group + rest + in_places(lambda _, index: struct.pack(">qh", index, 0))),
                frames.response(in_places(lambda *_: struct.pack(">h", 0))),
            ),
            (
                frames.request(9, 1, group + in_places(lambda *_: b"")),
                frames.response(in_places(lambda _, index: struct.pack(">qhh", index, 0, 0))),
            ),
            asked("forget g", "forgotten 0 4096"),
        ],
    )


# ---- scripts


def script(lines, printed):
    return {"arguments": [b"replay"], "data": b"\n".join(lines) + b"\n", "stdout": b"".join(b"%s\n" % it for it in printed)}


def items_of_a_line(count):
    items = [key_of(n) + b"=" for n in range(count)]
    return script(
        [b"copies 1", b"produce " + b" ".join(items), b"table 0", b"cover 0"],
        [b"base 0", *items, b"end", b"0-%d" % (count - 1)],
    )


def events_of_a_script(count):
    """Batches that are appended, of which a follower gets every other one, and then an image of all."""
    even = range(0, count, 2)
    return script(
        [b"copies 8", *[b"produce a=1"] * count, *[b"deliver 7 %d" % n for n in even], b"cover 7", b"send 0", b"merge 7 0", b"cover 7"],
        [
            *[b"base %d" % n for n in range(count)],
            *[b"added"] * len(even),
            b" ".join(b"%d-%d" % (n, n) for n in even),
            b"image 0",
            b"merged",
            b"0-%d" % (count - 1),
        ],
    )


def images_of_a_script(count):
    """Of a copy that has seen nothing, but for the last one."""
    return script(
        [b"copies 2", *[b"send 0"] * count, b"produce a=1", b"send 0", b"merge 1 %d" % (count - 1), b"cover 1", b"merge 1 %d" % count, b"cover 1"],
        [*[b"image %d" % n for n in range(count)], b"base 0", b"image %d" % count, b"merged", b"none", b"merged", b"0-0"],
    )


# ---- all of them

KINDS = {
    "records of a batch": records_of_a_batch,
    "lines of a table": lines_of_a_table,
    "records that a cleaning removes": records_that_a_cleaning_removes,
    "headers of a record": headers_of_a_record,
    "headers that are given out": headers_that_are_given_out,
    "headers that are written anew": headers_that_are_written_anew,
    "bytes of a text": bytes_of_a_text,
    "batches of a stream": batches_of_a_stream,
    "batches of a log": batches_of_a_log,
    "batches of a leader's image": functools.partial(batches_of_an_image, "leader"),
    "batches of a follower's image": functools.partial(batches_of_an_image, "follower"),
    "batches of two images": batches_of_two_images,
    "batches that are delivered": batches_that_are_delivered,
    "ranges of two images": functools.partial(ranges_of_two_images, 2, False),
    "ranges of two images, the other way round": functools.partial(ranges_of_two_images, 2, True),
    "ranges of two images that leave no gap": functools.partial(ranges_of_two_images, 1, False),
    "ranges of two images that leave no gap, the other way round": functools.partial(ranges_of_two_images, 1, True),
    "ranges of two copies": ranges_of_two_copies,
    "ranges that are asked": ranges_that_are_asked,
    "entries of a delta": entries_of_a_delta,
    "offsets of a list": offsets_of_a_list,
    "entries of a Produce": entries_of_a_produce,
    "entries of a Fetch": entries_of_a_fetch,
    "entries of a ListOffsets": entries_of_a_listoffsets,
    "names of a Metadata": names_of_a_metadata,
    "entries of an OffsetCommit": entries_of_a_commit,
    "entries of an OffsetFetch": entries_of_an_offset_fetch,
    "frames of a session": frames_of_a_session,
    "producers": producers,
    "groups": groups,
    "positions of a group": positions_of_a_group,
    "connections": connections,
    "items of a line": items_of_a_line,
    "events of a script": events_of_a_script,
    "images of a script": images_of_a_script,
}
# of what isn't made up to 65,537, since rows of tests/rows have as many: the most
FEWER = {
    "batches of a leader's image": 10_001,
    "batches of a follower's image": 10_001,
    "batches of two images": 10_001,
    "positions of a group": 10_001,
    "connections": 1_001,
}
# from which count on tests/quick leaves out what takes long before its greatest one
SLOW_FROM = {
    "records that a cleaning removes": 10_001,
    "batches of a stream": 10_001,
    "batches of a log": 10_001,
    "batches that are delivered": 10_001,
}


def rows():
    """The name of each row, why tests/quick leaves it out, if it does, and what makes its fields."""
    yield "each of 64 partitions of each of 64 topics", GREATEST, all_partitions
    for count in COUNTS:
        for name, make in KINDS.items():
            most = FEWER.get(name, COUNTS[-1])
            if count <= most:
                slow = GREATEST if count >= min(most, SLOW_FROM.get(name, most)) else None
                yield f"{count:,} {name}", slow, functools.partial(make, count)
