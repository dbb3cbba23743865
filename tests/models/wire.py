"""The frames of a broker's requests and responses as plain values: numbers, bytes and lists, by docs/FORMATS.md.

It shares nothing with the program that is tested on it.
"""
import struct


class Refused(Exception):
    """An error code."""


class Fault(Exception):
    """Why a frame is no request, by name."""


# ---- fields. A letter is a number as `struct` has it, or bytes behind their length (`s` STRING, `S` NULLABLE_STRING,
# `B` BYTES, `N` nullable BYTES); a list is an array of these fields, behind its count, and `[None, ..]` one that may be null.

LENGTHS = {"s": ("h", 0), "S": ("h", -1), "B": ("i", 0), "N": ("i", -1)}


def number(kind, data, at):
    """The number at a byte offset, and where it ends."""
    end = at + struct.calcsize(f">{kind}")
    if end > len(data):
        raise Fault("ShortBody")
    return struct.unpack(f">{kind}", data[at:end])[0], end


def field(kind, data, at):
    if kind not in LENGTHS:
        return number(kind, data, at)
    size, at = number(LENGTHS[kind][0], data, at)
    if size < LENGTHS[kind][1]:
        raise Fault("Malformed")
    if size < 0:
        return None, at
    if at + size > len(data):
        raise Fault("ShortBody")
    return data[at : at + size], at + size


def read(fields, data, at):
    """The values of fields, and where they end."""
    values = []
    for kind in fields:
        if isinstance(kind, str):
            value, at = field(kind, data, at)
        else:
            least = -1 if kind[0] is None else 0
            count, at = number("i", data, at)
            if count < least:
                raise Fault("Malformed")
            value = None if count < 0 else []
            for _ in range(count):
                element, at = read([it for it in kind if it is not None], data, at)
                value.append(element)
        values.append(value)
    return values, at


def written(fields, values):
    """Fields as bytes."""
    made = b""
    for kind, value in zip(fields, values, strict=True):
        if isinstance(kind, list):
            kind = [it for it in kind if it is not None]
            made += struct.pack(">i", -1 if value is None else len(value)) + b"".join(written(kind, it) for it in value or [])
        elif kind in LENGTHS:
            made += struct.pack(f">{LENGTHS[kind][0]}", -1 if value is None else len(value)) + (value or b"")
        else:
            made += struct.pack(f">{kind}", value)
    return made


def framed(data):
    return struct.pack(">i", len(data)) + data


PLACE = ["s", "i"]
API_VERSIONS = 18

# of each key and version the fields of its request behind the client id, and those of its response behind the correlation id
REQUESTS = {
    (0, 3): (["S", "h", "i", ["s", ["i", "N"]]], [["s", ["i", "h", "q", "q"]], "i"]),
    (1, 4): (["i", "i", "i", "i", "b", ["s", ["i", "q", "i"]]], ["i", ["s", ["i", "h", "q", "q", "i", "B"]]]),
    (2, 1): (["i", ["s", ["i", "q"]]], [["s", ["i", "h", "q", "q"]]]),
    (3, 1): ([[None, "s"]], [["i", "s", "i", "S"], "i", ["h", "s", "b", ["h", "i", "i", ["i"], ["i"]]]]),
    (8, 2): (["s", "i", "s", "q", ["s", ["i", "q", "S"]]], [["s", ["i", "h"]]]),
    (9, 1): (["s", ["s", ["i"]]], [["s", ["i", "q", "S", "h"]]]),
    (10, 0): (["s"], ["h", "i", "s", "i"]),
    (API_VERSIONS, 0): ([], ["h", ["h", "h", "h"]]),
    (22, 0): (["S", "i"], ["i", "h", "q", "h"]),
    (20000, 0): ([*PLACE, "B"], ["h", "b"]),
    (20001, 0): ([*PLACE, "q", "q"], ["h", "q", "q", "q"]),
    (20001, 1): ([*PLACE, "q", "q", "q", "q"], ["h", "q", "q", "q"]),
    (20002, 0): (PLACE, ["h", "B"]),
    (20002, 1): ([*PLACE, ["q", "q"]], ["h", "B"]),
    (20003, 0): ([*PLACE, "B"], ["h"]),
    (20003, 1): ([*PLACE, "B"], ["h"]),
    (20004, 0): ([*PLACE, "B"], ["h", "N"]),
    (20005, 0): (PLACE, ["h", ["q", "q"]]),
    (20006, 0): (["s"], ["h", "i"]),
    (20007, 0): ([*PLACE, "q"], ["h"]),
}


def parsed(frame):
    """A request's key and version, its correlation id and its values. Of ApiVersions any other version is read as version 0
    with the code that it is answered with, whatever stands behind the correlation id."""
    if len(frame) < 8:
        raise Fault("ShortHeader")
    key, version, correlation = struct.unpack(">hhi", frame[:8])
    if all(key != known for known, _ in REQUESTS):
        raise Fault("UnknownApi")
    if key == API_VERSIONS and version != 0:
        return (key, 0), correlation, [35]
    if (key, version) not in REQUESTS:
        raise Fault("BadVersion")
    values, end = read(["S", *REQUESTS[key, version][0]], frame, 8)
    if end < len(frame):
        raise Fault("TrailingBytes")
    return (key, version), correlation, values[1:]
