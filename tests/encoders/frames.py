"""Request frames and their responses, field by field, by Kafka's public documentation ("Protocol Guide", "The Messages").

It shares nothing with the program that is tested on them. Each frame has correlation id 7.
"""
import struct

from encoders import batches


def text(name):
    return struct.pack(">h", len(name)) + name


def data(held):
    return struct.pack(">i", len(held)) + held


def array(elements):
    return struct.pack(">i", len(elements)) + b"".join(elements)


def topics(entries):
    """Entries as pairs of a topic's name and bytes; those of one name in a row stand in one topic."""
    grouped = []
    for name, entry in entries:
        if not grouped or grouped[-1][0] != name:
            grouped.append((name, []))
        grouped[-1][1].append(entry)
    return array([text(name) + array(held) for name, held in grouped])


def each_of(words):
    """The entries of `each N ENTRY`, with 0 to N - 1 for its `#`, and any other entry by itself."""
    kind, _, rest = words.partition(" ")
    if kind != "each":
        return [words]
    count, _, entry = rest.partition(" ")
    return [entry.replace("#", str(n)) for n in range(int(count))]


def place_of(words):
    """The name and the partition of `TOPIC:PARTITION REST`, and the rest."""
    place, _, rest = words.partition(" ")
    name, _, partition = place.rpartition(":")
    return batches.unescaped(name), struct.pack(">i", int(partition)), rest


def entries_of(words, encode):
    """Entries `TOPIC:PARTITION REST`, with ` | ` between; `encode` gives the bytes behind the partition."""
    made = []
    for it in (it for each in words.split(" | ") for it in each_of(each.strip())):
        name, partition, rest = place_of(it)
        made.append((name, partition + encode(rest)))
    return topics(made)


def options(words, known):
    """`NAME=VALUE` for known names in front of other words."""
    found = {}
    while words.partition("=")[0] in known:
        first, _, words = words.partition(" ")
        name, _, value = first.partition("=")
        found[name] = value
    return found, words


def request(key, version, body):
    return data(struct.pack(">hhih", key, version, 7, -1) + body)


def nullable(words, root):
    """BYTES of inputs, or -1 for `null`."""
    return struct.pack(">i", -1) if words == "null" else data(sent_of(words, root))


def nullable_name(given):
    """The transactional id that is given, or -1 for none."""
    return text(given["id"].encode()) if "id" in given else struct.pack(">h", -1)


def produce(words, root):
    given, words = options(words, ("acks", "id"))
    head = nullable_name(given) + struct.pack(">hi", int(given.get("acks", 1)), 1000)
    return request(0, 3, head + entries_of(words, lambda it: nullable(it, root)))


def fetch(words, root):
    given, words = options(words, ("max", "wait", "min"))
    wait, least, most = (int(given.get(name, usual)) for name, usual in (("wait", 500), ("min", 1), ("max", 1 << 20)))
    head = struct.pack(">iiiib", -1, wait, least, most, 0)

    def entry(rest):
        offset, _, limit = rest.partition(" ")
        return struct.pack(">qi", int(offset), int(limit or 1 << 20))

    return request(1, 4, head + entries_of(words, entry))


def listoffsets(words, root):
    return request(2, 1, struct.pack(">i", -1) + entries_of(words, lambda it: struct.pack(">q", int(it))))


def metadata(words, root):
    if words == "all":
        return request(3, 1, struct.pack(">i", -1))
    return request(3, 1, array([text(batches.unescaped(it)) for it in words.split(",") if words != "none"]))


def commit(words, root):
    """Without a member, and with retention -1."""
    given, words = options(words, ("group", "generation"))
    group, generation = batches.unescaped(given.get("group", "g")), int(given.get("generation", -1))

    def entry(rest):
        offset, _, metadata = rest.partition(" ")
        return struct.pack(">q", int(offset)) + batches.name_of(metadata)

    return request(8, 2, text(group) + struct.pack(">ihq", generation, 0, -1) + entries_of(words, entry))


def offsets(words, root):
    given, words = options(words, ("group",))
    return request(9, 1, text(batches.unescaped(given.get("group", "g"))) + entries_of(words, lambda _: b""))


def versions(words, root):
    """Of any version, without a body."""
    return request(18, int(words or 0), b"")


def producer_id(words, root):
    given, _ = options(words, ("id",))
    return request(22, 0, nullable_name(given) + struct.pack(">i", 60_000))


def coordinator(words, root):
    return request(10, 0, text(batches.unescaped(words)))


REQUESTS = {
    "produce": produce,
    "fetch": fetch,
    "listoffsets": listoffsets,
    "metadata": metadata,
    "commit": commit,
    "offsets": offsets,
    "versions": versions,
    "producer-id": producer_id,
    "coordinator": coordinator,
}


def sent_of(words, root):
    """Inputs one behind the other, with ` + ` between."""
    return b"".join(input_of(it, root) for it in words.split(" + ") if it)


def input_of(words, root):
    """The bytes that a line of input stands for."""
    kind, _, rest = words.partition(" ")
    if kind in REQUESTS:
        return REQUESTS[kind](rest, root)
    return batches.input_of(words, root)


# ---- responses


def response(body):
    return data(struct.pack(">i", 7) + body)


def produced(words, root):
    """Of each entry its code and its base offset."""

    def entry(rest):
        code, base = (int(it) for it in rest.split())
        return struct.pack(">hqq", code, base, -1)

    return response(entries_of(words, entry) + struct.pack(">i", 0))


def fetched(words, root):
    """Of each entry its code, its end, and the batches."""

    def entry(rest):
        code, end, *form = rest.split(" ", 2)
        head = struct.pack(">hqqi", int(code), int(end), int(end), -1)
        return head + data(sent_of(form[0] if form else "", root))

    return response(struct.pack(">i", 0) + entries_of(words, entry))


def listed(words, root):
    """Of each entry its code, its time and its offset."""
    return response(entries_of(words, lambda it: struct.pack(">hqq", *(int(each) for each in it.split()))))


def described(words, root):
    """The role of broker 1 at 127.0.0.1, with a port that isn't 9092 behind it, and of each topic its name, its code, whether
    it is internal and its number of partitions."""
    role, _, words = words.partition(" ")
    role, _, port = role.partition(":")
    leads = role == "leader"
    nodes = [struct.pack(">i", 1)] if leads else []
    made = []
    for it in words.split(" | "):
        if not it:
            continue
        name, code, internal, count = it.split(" ")
        partitions = [
            struct.pack(">hii", 0 if leads else 5, index, 1 if leads else -1) + array(nodes) * 2
            for index in range(int(count))
        ]
        made.append(struct.pack(">h", int(code)) + text(batches.unescaped(name)) + bytes([int(internal)]) + array(partitions))
    broker = struct.pack(">i", 1) + text(b"127.0.0.1") + struct.pack(">ih", int(port or 9092), -1)
    return response(array([broker]) + struct.pack(">i", 1 if leads else -1) + array(made))


def committed(words, root):
    """Of each entry its code."""
    return response(entries_of(words, lambda it: struct.pack(">h", int(it))))


def found(words, root):
    """Of each entry its code, its offset and its metadata."""

    def entry(rest):
        code, _, rest = rest.partition(" ")
        offset, _, metadata = rest.partition(" ")
        return struct.pack(">q", int(offset)) + batches.name_of(metadata) + struct.pack(">h", int(code))

    return response(entries_of(words, entry))


# of each request its key, and the least and the greatest version that is read
READ = [(0, 3, 3), (1, 4, 4), (2, 1, 1), (3, 1, 1), (8, 2, 2), (9, 1, 1), (10, 0, 0), (18, 0, 0), (22, 0, 0)]


def versions_read(words, root):
    """A code, and what is read."""
    return response(struct.pack(">h", int(words)) + array([struct.pack(">hhh", *it) for it in READ]))


def producer(words, root):
    """A code, the producer's id and its epoch."""
    return response(struct.pack(">ihqh", 0, *(int(it) for it in words.split())))


def coordinated(words, root):
    """A code, a node, and its host and port with a colon between."""
    code, node, place = words.split()
    host, _, port = place.rpartition(":")
    return response(struct.pack(">hi", int(code), int(node)) + text(host.encode()) + struct.pack(">i", int(port)))


RESPONSES = {
    "produced": produced,
    "fetched": fetched,
    "listed": listed,
    "described": described,
    "committed": committed,
    "found": found,
    "versions": versions_read,
    "producer": producer,
    "coordinator": coordinated,
}


def reply_of(words, root):
    """The bytes of a response, from its kind and its words, or from hexadecimal digits."""
    kind, _, rest = words.partition(" ")
    if kind in RESPONSES:
        return RESPONSES[kind](rest, root)
    return bytes.fromhex(words)
