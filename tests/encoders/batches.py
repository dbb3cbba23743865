"""Record batches by Kafka's public documentation of the format ("Record Batch", magic 2), and those of group records by
docs/FORMATS.md.

It shares nothing with the program that is tested on them.
"""
import functools
import os
import re
import struct


def crc_of_byte(byte):
    for _ in range(8):
        byte = (byte >> 1) ^ (0x82F63B78 if byte & 1 else 0)
    return byte


CRCS = [crc_of_byte(byte) for byte in range(256)]


@functools.lru_cache(maxsize=4)
def crc32c(data):
    """CRC-32C: polynomial 0x1edc6f41, bits reflected, initial value and final xor 0xffffffff."""
    crc = 0xFFFFFFFF
    for byte in data:
        crc = (crc >> 8) ^ CRCS[(crc ^ byte) & 0xFF]
    return crc ^ 0xFFFFFFFF


assert crc32c(b"123456789") == 0xE3069283  # the check value that catalogues of crcs give


def varint(number):
    """The zigzag number in groups of seven bits, the lowest first."""
    number = number * 2 if number >= 0 else -number * 2 - 1
    out = bytearray()
    while number >= 0x80:
        out.append(number & 0x7F | 0x80)
        number >>= 7
    return bytes(out) + bytes([number])


def with_size(data):
    """Bytes behind their number, which is -1 for null."""
    return varint(-1) if data is None else varint(len(data)) + data


def record(delta, key, value, headers, fields):
    body = bytes([fields.get("attributes", 0)]) + varint(fields.get("time", 0)) + varint(delta)
    body += with_size(key) + with_size(value) + varint(len(headers))
    body += b"".join(with_size(name) + with_size(held) for name, held in headers)
    return varint(fields.get("length", len(body))) + body


FIELDS = "base length leader magic crc attributes last time maxtime producer epoch sequence count tail".split()


def batch(records, fields):
    """The batch of these encoded records. `fields` may set each field, also the length and the crc, and `tail`, the
    number of zeros behind the records."""
    body = struct.pack(
        ">hiqqqhii",
        fields.get("attributes", 0),
        fields.get("last", len(records) - 1),
        fields.get("time", 0),
        fields.get("maxtime", 0),
        fields.get("producer", -1),
        fields.get("epoch", -1),
        fields.get("sequence", -1),
        fields.get("count", len(records)),
    )
    body += b"".join(records) + bytes(fields.get("tail", 0))
    length = fields.get("length", len(body) + 9)
    crc = fields.get("crc", crc32c(body))
    leader, magic = fields.get("leader", 0), fields.get("magic", 2)
    return struct.pack(">qiibI", fields.get("base", 0), length, leader, magic, crc) + body


# ---- what stands in rows


def expanded(text):
    """Text in which {X*N} stands for the character X, N times."""
    return re.sub(r"\{(.)\*(\d+)\}", lambda it: it[1] * int(it[2]), text)


def unescaped(text):
    r"""Bytes of a text in which \xHH stands for a byte."""
    return re.sub(rb"\\x([0-9a-f]{2})", lambda it: bytes([int(it[1], 16)]), expanded(text).encode("ascii"))


def nullable(text):
    return None if text == "null" else unescaped(text)


def pair_of(words):
    """A key and a value, from KEY=VALUE."""
    key, value = words.split("=")
    return nullable(key), nullable(value)


def name_of(words):
    """A text behind its size, an int16, which is -1 for `null`."""
    held = nullable(words)
    return struct.pack(">h", -1) if held is None else struct.pack(">h", len(held)) + held


def position_of(words):
    """The key and the value of a group record, from GROUP/TOPIC/PARTITION=OFFSET[/METADATA], or with the value as `null` or
    hex:HH.."""
    key, value = words.split("=")
    group, topic, partition = key.split("/")
    key = struct.pack(">h", 1) + name_of(group) + name_of(topic) + struct.pack(">i", int(partition))
    if value == "null":
        return key, None
    if value.startswith("hex:"):
        return key, bytes.fromhex(value[4:])
    offset, _, metadata = value.partition("/")
    return key, struct.pack(">hq", 0, int(offset)) + name_of(metadata)


def record_of(word, delta, read):
    """Returns an encoded record and its offset delta, from what `read` takes, and ;FIELD:VALUE or ;header:NAME=VALUE."""
    if word.startswith("hex:"):
        return bytes.fromhex(word[4:]), delta
    pair, *more = word.split(";")
    fields, headers = {}, []
    for it in more:
        name, value = it.split(":", 1)
        if name == "header":
            headers.append(tuple(nullable(part) for part in value.split("=")))
        else:
            fields[name] = int(value, 0)
    delta = fields.get("delta", delta)
    return record(delta, *read(pair), headers, fields), delta


def each_of(word):
    """The words of each:N:WORD, with 0 to N - 1 for its `#`, and any other word by itself."""
    if not word.startswith("each:"):
        return [word]
    _, count, word = word.split(":", 2)
    return [word.replace("#", str(n)) for n in range(int(count))]


def batch_of(words, read, fields):
    """The batch of words that are FIELD:VALUE or records; an offset delta is one above that of the record before. `read`
    gives a record's key and value."""
    records, delta = [], -1
    for word in (it for each in words for it in each_of(each)):
        name, colon, value = word.partition(":")
        if colon and name in FIELDS:
            fields[name] = int(value, 0)
        else:
            made, delta = record_of(word, delta + 1, read)
            records.append(made)
    return batch(records, fields)


def input_of(words, root):
    """The bytes that a line of input stands for."""
    kind, _, rest = words.partition(" ")
    if kind == "hex":
        return bytes.fromhex(rest)
    if kind == "zeros":
        return bytes(int(rest))
    if kind == "file":
        name, _, size = rest.partition(" ")
        with open(os.path.join(root, name), "rb") as file:
            data = file.read()
        return data[: int(size)] if size else data
    if kind == "batch":
        return batch_of(rest.split(), pair_of, {})
    if kind == "positions":
        return batch_of(rest.split(), position_of, {"time": -1, "maxtime": -1})
    if kind == "each":
        count, _, form = rest.partition(" ")
        return b"".join(input_of(form.replace("#", str(n)), root) for n in range(int(count)))
    raise ValueError(f"no input is of the kind {kind}")
