"""Images and deltas of copies, and requests about copies and groups that Kafka has none for, as docs/FORMATS.md has them; and lines of
scripts.

It shares nothing with the program that is tested on them.
"""
import functools
import re
import struct

from encoders import batches, frames

FIELDS = "mark version start ranges count crc tail".split()
FIELDS_OF_A_DELTA = [*FIELDS, "asked"]


def image(ranges, kept, fields):
    """The image of a copy that has seen these ranges, and keeps these batches, which are given as bytes. `fields` may set each
    field, also the counts and the crc, and `tail`, the number of zeros behind the batches. The version is 1 unless they say
    otherwise; in version 0 there is no log start."""
    version = fields.get("version", 1)
    body = struct.pack(">Ih", fields.get("mark", 0x4B435059), version)
    body += struct.pack(">q", fields.get("start", 0)) if version else b""
    body += struct.pack(">i", fields.get("ranges", len(ranges)))
    body += b"".join(packed(ranges))
    body += struct.pack(">i", fields.get("count", len(kept)))
    body += b"".join(kept) + bytes(fields.get("tail", 0))
    return body + struct.pack(">I", fields.get("crc", batches.crc32c(body)))


def ranges_of(words):
    """`none`, or with commas between FIRST-LAST and `even:N`, N even offsets from 0, or `even:N:FROM`."""
    found = []
    for it in words.split(",") if words != "none" else []:
        if it.startswith("even:"):
            count, _, first = it.removeprefix("even:").partition(":")
            found += [(offset, offset) for offset in range(int(first or 0), int(first or 0) + 2 * int(count), 2)]
        else:
            found.append(tuple(int(each) for each in re.fullmatch(r"(-?\d+)-(-?\d+)", it).groups()))
    return found


def fields_of(words, known):
    """The fields FIELD:VALUE in front of other words."""
    fields = {}
    name, colon, rest = words.partition(":")
    while colon and name in known:
        value, _, words = rest.partition(" ")
        fields[name] = int(value, 0)
        name, colon, rest = words.partition(":")
    return fields, words


def packed(ranges):
    return [struct.pack(">qq", first, last) for first, last in ranges]


def image_of(words, root):
    """The image of words FIELD:VALUE, ranges, and batches with ` + ` between."""
    fields, words = fields_of(words, FIELDS)
    ranges, _, forms = words.partition(" ")
    return image(ranges_of(ranges), [input_of(it, root) for it in forms.split(" + ") if it], fields)


# ---- deltas


def delta(ranges, asked, entries, fields):
    """The delta of a copy that has seen these ranges, for one that asked for those, with these entries, which are given as
    bytes. `fields` may set each field, as of an image; `ranges`, `asked` and `count` are the three counts."""
    version = fields.get("version", 1)
    body = struct.pack(">Ih", fields.get("mark", 0x4B444C54), version)
    body += struct.pack(">q", fields.get("start", 0)) if version else b""
    for name, them in (("ranges", ranges), ("asked", asked)):
        body += struct.pack(">i", fields.get(name, len(them)))
        body += b"".join(packed(them))
    body += struct.pack(">i", fields.get("count", len(entries)))
    body += b"".join(entries) + bytes(fields.get("tail", 0))
    return body + struct.pack(">I", fields.get("crc", batches.crc32c(body)))


def entry_of(words, root):
    """What a delta says of a batch: `list BASE [OFFSETS]`, with commas between and `count:N` in front of them for another
    count; bytes as they are, `as-is FORM`; else the batch of an input."""
    kind, _, rest = words.partition(" ")
    if kind == "each":
        count, _, form = rest.partition(" ")
        return b"".join(entry_of(form.replace("#", str(n)), root) for n in range(int(count)))
    if kind == "as-is":
        return input_of(rest, root)
    if kind != "list":
        return b"\1" + input_of(words, root)
    base, _, rest = rest.partition(" ")
    fields, rest = fields_of(rest, ["count"])
    offsets = [int(it) for it in rest.split(",") if it]
    head = struct.pack(">bqi", 0, int(base), fields.get("count", len(offsets)))
    return head + b"".join(struct.pack(">q", it) for it in offsets)


def delta_of(words, root):
    """The delta of words FIELD:VALUE, the sender's ranges, the asked ones, and entries with ` + ` between."""
    fields, words = fields_of(words, FIELDS_OF_A_DELTA)
    ranges, _, words = words.partition(" ")
    asked, _, forms = words.partition(" ")
    return delta(ranges_of(ranges), ranges_of(asked), [entry_of(it, root) for it in forms.split(" + ") if it], fields)


# ---- requests about a partition's copy, and the one that forgets a group


def of_copy(key, words, encode, version=0):
    """The request with this key for `TOPIC:PARTITION REST`; `encode` gives the bytes behind the partition."""
    name, partition, rest = frames.place_of(words)
    return frames.request(key, version, frames.text(name) + partition + encode(rest))


def sent_of(words, root):
    """BYTES of inputs with ` + ` between, or of none."""
    return frames.data(b"".join(input_of(it, root) for it in words.split(" + ") if it))


def deliver(words, root):
    return of_copy(20000, words, lambda it: sent_of(it, root))


def clean(words, root):
    return of_copy(20001, words, lambda it: struct.pack(">qq", *(int(each) for each in it.split())))


def clean_part(words, root):
    return of_copy(20001, words, lambda it: struct.pack(">qqqq", *(int(each) for each in it.split())), 1)


def export(words, root):
    return of_copy(20002, words, lambda _: b"")


def import_(words, root):
    return of_copy(20003, words, lambda it: frames.data(input_of(it, root) if it else b""))


def export_delta(words, root):
    return of_copy(20002, words, lambda it: frames.array(packed(ranges_of(it))), 1)


def import_delta(words, root):
    return of_copy(20003, words, lambda it: frames.data(input_of(it, root) if it else b""), 1)


def get(words, root):
    return of_copy(20004, words, lambda it: frames.data(batches.unescaped(it)))


def cover(words, root):
    return of_copy(20005, words, lambda _: b"")


def trim(words, root):
    return of_copy(20007, words, lambda it: struct.pack(">q", int(it)))


def forget(words, root):
    return frames.request(20006, 0, frames.text(batches.unescaped(words)))


REQUESTS = {
    "deliver": deliver,
    "clean": clean,
    "clean-part": clean_part,
    "export": export,
    "import": import_,
    "export-delta": export_delta,
    "import-delta": import_delta,
    "get": get,
    "cover": cover,
    "forget": forget,
    "trim": trim,
}


def delivered(words, root):
    return frames.response(struct.pack(">hb", *(int(it) for it in words.split())))


def cleaned(words, root):
    return frames.response(struct.pack(">hqqq", *(int(it) for it in words.split())))


def exported(words, root):
    code, _, form = words.partition(" ")
    return frames.response(struct.pack(">h", int(code)) + frames.data(input_of(form, root) if form else b""))


def imported(words, root):
    return frames.response(struct.pack(">h", int(words)))


def got(words, root):
    code, _, value = words.partition(" ")
    value = batches.nullable(value)
    return frames.response(struct.pack(">h", int(code)) + (struct.pack(">i", -1) if value is None else frames.data(value)))


def covered(words, root):
    code, _, ranges = words.partition(" ")
    return frames.response(struct.pack(">h", int(code)) + frames.array(packed(ranges_of(ranges))))


def trimmed(words, root):
    return frames.response(struct.pack(">h", int(words)))


def forgotten(words, root):
    return frames.response(struct.pack(">hi", *(int(it) for it in words.split())))


RESPONSES = {
    "delivered": delivered,
    "cleaned": cleaned,
    "exported": exported,
    "imported": imported,
    "got": got,
    "covered": covered,
    "forgotten": forgotten,
    "trimmed": trimmed,
}


def flipped(data, at, bits=0x10):
    """The bytes with a bit of one of them turned."""
    return data[:at] + bytes([data[at] ^ bits]) + data[at + 1 :]


# what becomes of bytes and a number
CHANGES = {"cut": lambda data, size: data[:size], "flip": flipped, "flip-lowest": lambda data, at: flipped(data, at, 1)}


@functools.lru_cache(maxsize=8)
def input_of(words, root):
    """The bytes that a line of input stands for."""
    if " && " in words:
        return b"".join(input_of(it, root) for it in words.split(" && "))
    kind, _, rest = words.partition(" ")
    if kind == "text":
        return batches.unescaped(rest)
    if kind == "line":
        return batches.unescaped(rest) + b"\n"
    if kind == "each":
        count, _, form = rest.partition(" ")
        return b"".join(input_of(form.replace("#", str(n)), root) for n in range(int(count)))
    if kind == "image":
        return image_of(rest, root)
    if kind == "delta":
        return delta_of(rest, root)
    if kind == "sized":
        data = input_of(rest, root)
        return struct.pack(">i", len(data)) + data
    if kind == "sealed":
        data = input_of(rest, root)
        return data + struct.pack(">I", batches.crc32c(data))
    if kind in CHANGES:
        number, _, form = rest.partition(" ")
        return CHANGES[kind](input_of(form, root), int(number))
    if kind in REQUESTS:
        return REQUESTS[kind](rest, root)
    return frames.input_of(words, root)


def reply_of(words, root):
    """The bytes that must come."""
    kind, _, rest = words.partition(" ")
    if kind == "each":
        count, _, form = rest.partition(" ")
        return b"".join(reply_of(form.replace("#", str(n)), root) for n in range(int(count)))
    if kind in ("line", "image", "delta"):
        return input_of(words, root)
    if kind in RESPONSES:
        return RESPONSES[kind](rest, root)
    return frames.reply_of(words, root)
