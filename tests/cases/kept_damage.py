"""Directories of `kbroker start --data` that a crash, a failing disk or a person left otherwise than they were: what is recovered
of them, and what is refused; a refusal changes nothing.

What must come is worked by hand; for each place of a loop by the rules of docs/FORMATS.md.
"""
import os
import random
import socket
import struct

from cases.kept_runs import (
    ANOTHER,
    IN_THE_MAKING,
    JOURNAL,
    REFUSED,
    SNAPSHOT,
    TOPICS,
    Kept,
    all_of,
    another,
    checked,
    content,
    damaged,
    has_state,
    irregular,
    later,
    lay,
    missing,
    new,
    new_folder,
    of_another,
    recovered,
    refused,
    would,
    write,
)
from cases.many_clients import frame
from cases.started import holds, request, same, slow
from encoders import batches, copies, frames, kept
from models import kept_files
from models.kept_files import never

# three groups, of which the last is small
ROUNDS = [
    [request("produce t:0 batch a=1")],
    [request("produce t:1 batch b=2"), request("commit t:0 4 m")],
    [request("trim t:0 1")],
]
SOUND = kept_files.journal(ROUNDS)
FIRST, SECOND, LAST = (it.at for it in kept_files.groups_of(SOUND))
LAST_GROUP = SOUND[LAST:]
GROUPS = [SOUND[FIRST:SECOND], SOUND[SECOND:LAST], LAST_GROUP]
NAMES_OF_TOPICS = kept_files.topics_of(TOPICS)
HEAD = kept_files.journal_head()
OLD = kept_files.journal(ROUNDS, version=0)
# the fields of a group, each with the byte offsets of its first and its last byte; of its frames the first's size and name
FIELDS = {"crc": (0, 3), "key": (4, 11), "offset": (12, 19), "synced": (20, 27), "size": (28, 31), "frame": (32, 40)}


def flipped(data, at, bits):
    return data[:at] + bytes([data[at] ^ bits]) + data[at + 1 :]


# ---- what comes of a journal


def leaves(program, folder, what, journal, count, **snapshot):
    """A start on this journal must cut what is behind the first `count` groups, say so, and have what these lead to."""
    kept_frames = [it for round_ in ROUNDS[:count] for it in round_]
    end = [FIRST, SECOND, LAST, len(SOUND)][count]
    lay(folder, journal, **snapshot)
    line = recovered(len(kept_frames), len(journal) - end, end)
    same(f"the line of a check, of {what}", checked(program, folder), would(line))
    with Kept(program, folder) as broker:
        same(f"the line, of {what}", broker.said(), line)
        has_state(broker, kept_files.node_after(kept_frames, NAMES_OF_TOPICS), what)
        same(f"the journal behind the start, of {what}", content(folder, JOURNAL), journal[:end])


def refuses(program, folder, what, journal, at, why):
    """A start on this journal must be refused as damaged."""
    lay(folder, journal)
    try:
        refused(program, folder, REFUSED, damaged(folder, JOURNAL, at, why))
    except Exception as fault:
        raise type(fault)(f"{what}: {fault}") from None


def cut_journal(program):
    """A journal that ends behind each byte of its last group: with nothing behind it, and with zeros or random bytes by turns."""
    drawn = random.Random(4)
    with new_folder() as folder:
        for size in range(len(LAST_GROUP)):
            front, rest = SOUND[: LAST + size], len(LAST_GROUP) - size
            other = bytes([LAST_GROUP[size] ^ 1 + drawn.randrange(255)]) + drawn.randbytes(rest - 1)
            leaves(program, folder, f"{size} bytes of the last group", front, 2)
            leaves(program, folder, f"{size} bytes of the last group and others", front + (other if size % 2 else bytes(rest)), 2)


def end_behind(program):
    """What may stand behind the last group: nothing, zeros, random bytes, a part of a group, and old bytes of the file."""
    drawn = random.Random(5)
    with new_folder() as folder:
        for what, behind in (
            ("nothing", b""),
            ("a zero", b"\0"),
            ("a sector of zeros", bytes(512)),
            ("a hundred thousand zeros", bytes(100_000)),
            ("random bytes", drawn.randbytes(100_000)),
            ("the file's key alone", kept_files.KEY * 100),
            ("the file itself", SOUND),
            ("its groups", SOUND[FIRST:]),
            ("its last group", LAST_GROUP),
            ("a head", HEAD),
        ):
            leaves(program, folder, f"the journal with {what} behind it", SOUND + behind, 3)


def zeros_in_a_sector(program):
    """A last group of some sectors, of which each in turn is zeros; and each but the others."""
    large = [request("produce t:0 batch k={v*3000}")]
    journal = kept_files.journal([*ROUNDS[:2], large])
    at = LAST
    with new_folder() as folder:
        for first in range(at // 512 * 512, len(journal), 512):
            begin, end = max(first, at), min(first + 512, len(journal))
            hole = journal[:begin] + bytes(end - begin) + journal[end:]
            leaves(program, folder, f"zeros from {begin} to {end}", hole, 2)
            alone = journal[:at] + bytes(begin - at) + journal[begin:end] + bytes(len(journal) - end)
            leaves(program, folder, f"zeros but from {begin} to {end}", alone, 2)


def turned_bits(program):
    """A bit of each field of each group. Where a group behind it says that it was synced, that is damage; else what is from there
    on is cut: so is the last group in any case, and each one where nothing was synced behind the head."""
    unsynced = kept_files.journal(ROUNDS, never)
    with new_folder() as folder:
        for number, at in enumerate((FIRST, SECOND, LAST)):
            for field, places in FIELDS.items():
                for place, bits in zip(places, (0x10, 0x01)):
                    what = f"group {number} with a bit of its {field} turned"
                    if number < 2:
                        refuses(program, folder, what, flipped(SOUND, at + place, bits), at, "LaterSync")
                    else:
                        leaves(program, folder, what, flipped(SOUND, at + place, bits), number)
                    leaves_unsynced(program, folder, what, flipped(unsynced, at + place, bits), number, unsynced[:at])


def leaves_unsynced(program, folder, what, journal, count, front):
    """As `leaves`, of a journal of which nothing was synced behind its head."""
    kept_frames = [it for round_ in ROUNDS[:count] for it in round_]
    lay(folder, journal)
    with Kept(program, folder) as broker:
        wanted = recovered(len(kept_frames), len(journal) - len(front), len(front))
        same(f"the line, of {what}, unsynced", broker.said(), wanted)
        same(f"the journal, of {what}, unsynced", content(folder, JOURNAL), front)


def torn(group):
    """A group without its last bytes, which are zeros."""
    return group[:-6] + bytes(6)


def torn_and_more(program):
    """A torn group in the middle with a sound one behind it: what that says was synced decides. One that knows of more bytes than
    stand before it is none."""
    frames_of_last = b"".join(ROUNDS[2])
    front = SOUND[:SECOND] + torn(GROUPS[1])
    with new_folder() as folder:
        for synced in (0, kept_files.HEAD_SIZE, SECOND, LAST + 1, 2**64 - 1):
            behind = kept.group(LAST, synced, frames_of_last)
            leaves(program, folder, f"a torn group, and one behind it that knew of {synced} bytes", front + behind, 1)
        for synced in (SECOND + 1, LAST):
            behind = kept.group(LAST, synced, frames_of_last)
            what = f"a torn group, and one behind it that knew of {synced} bytes"
            refuses(program, folder, what, front + behind, SECOND, "LaterSync")
            refuses(program, folder, what + ", and a torn one", front + behind + LAST_GROUP[:9], SECOND, "LaterSync")
            leaves(program, folder, what + ", itself torn", front + torn(behind), 1)


def torn_and_far_behind(program):
    """Such a group far behind the bad place: some reads of 64 KiB further, and across their bounds."""
    frames_of_last = b"".join(ROUNDS[2])
    front, drawn = SOUND[:SECOND], random.Random(6)
    with new_folder() as folder:
        for distance in (1, 31, 65_504, 65_505, 65_520, 65_535, 65_536, 200_000):
            between, at = drawn.randbytes(distance), SECOND + distance
            what = f"{distance} other bytes, and then a group"
            later_one = kept.group(at, at, frames_of_last)
            refuses(program, folder, what, front + between + later_one, SECOND, "LaterSync")
            leaves(program, folder, what, front + between + kept.group(at, SECOND, frames_of_last), 1)
            leaves(program, folder, what, front + between + kept.group(at + 1, at, frames_of_last), 1)
            leaves(program, folder, what, front + between + kept.group(at, at, frames_of_last, key=b"another "), 1)


def groups_out_of_place(program):
    """A group twice, two in the wrong order, one that lacks, one of another journal, and a head of another one: beside a snapshot that
    says the journal's key that is refused, and beside one of version 0 it has no group."""
    first, second, last = GROUPS
    other = kept_files.journal(ROUNDS, key=b"another ")
    theirs = other[SECOND:LAST]
    with new_folder() as folder:
        leaves(program, folder, "the first group twice", HEAD + first + first, 1)
        leaves(program, folder, "the last group twice", SOUND + last, 3)
        leaves(program, folder, "the last two in the wrong order", HEAD + first + last + second, 1)
        leaves(program, folder, "all in the wrong order", HEAD + last + second + first, 0)
        leaves(program, folder, "the second lacks", HEAD + first + last, 1)
        leaves(program, folder, "the first lacks", HEAD + second + last, 0)
        leaves(program, folder, "another journal's group at the end", HEAD + first + theirs, 1)
        leaves(program, folder, "another journal's groups behind one", SOUND[:SECOND] + other[SECOND:], 1)
        another_head = other[: kept_files.HEAD_SIZE] + SOUND[FIRST:]
        leaves(program, folder, "a head of another journal", another_head, 0, version=0)
        lay(folder, another_head)
        refused(program, folder, REFUSED, of_another(folder, JOURNAL, SNAPSHOT))
        refuses(program, folder, "another journal's in the middle", HEAD + first + theirs + last, SECOND, "LaterSync")
        refuses(program, folder, "a group twice in another's place", HEAD + first + resized(first) + last, SECOND, "LaterSync")


def resized(group):
    """A group's bytes in the place of the second one: as many as that has."""
    return (group + bytes(len(GROUPS[1])))[: len(GROUPS[1])]


# ---- groups of one size, in other orders and with other fields

ALIKE = [request(f"produce t:0 batch {key}=1") for key in "abc"]
ALIKE_SIZE = len(ALIKE[0])
ALIKE_AT = [kept_files.HEAD_SIZE + index * (kept_files.FRONT_SIZE + ALIKE_SIZE) for index in range(4)]


def alike(index, synced=None, frames_=None, **fields):
    """The group of an index, which is synced unless it is said how much was."""
    at = ALIKE_AT[index]
    return kept.group(at, at if synced is None else synced, ALIKE[index] if frames_ is None else frames_, **fields)


PARTS = {
    "1": alike(0),
    "2": alike(1),
    "3": alike(2),
    "e": alike(2, synced=ALIKE_AT[1]),  # the third, written before the second was synced
    # in the place of the second
    "k": alike(1, key=b"01234568"),
    "l": alike(1, synced=ALIKE_AT[1] + 1),
    "n": alike(1, frames_=b""),
    "-": alike(1, size=-1),
    "m": alike(1, size=kept_files.MOST + 1),
    "6": alike(1, size=ALIKE_SIZE + 1),
    "4": alike(1, size=ALIKE_SIZE - 1),
    "h": HEAD,
    "0": bytes(40),
}
# the parts behind a head, how many groups stand before what isn't read, and whether that is damage
ORDERS = [
    ("", 0, False),
    ("123", 3, False),
    ("1233", 3, False),
    ("113", 1, True),
    ("1123", 1, False),
    ("213", 0, True),
    ("132", 1, False),
    ("23", 0, False),
    ("13", 1, False),
    ("1k", 1, False),
    ("1k3", 1, True),
    ("1ke", 1, False),
    ("12e", 3, False),
    ("1l", 1, False),
    ("1l3", 1, True),
    ("1n", 1, False),
    ("1-", 1, False),
    ("1-3", 1, True),
    ("1m", 1, False),
    ("16", 1, False),
    ("163", 1, True),
    ("14", 1, False),
    ("143", 1, True),
    ("1h", 1, False),
    ("00", 0, False),
    ("123000", 3, False),
    ("1203", 2, False),
]


def leaves_alike(program, folder, what, journal, count):
    """As `leaves`, of a journal of such groups; what these lead to isn't looked at."""
    end = ALIKE_AT[count]
    lay(folder, journal)
    line = recovered(count, len(journal) - end, end)
    same(f"the line of a check, of {what}", checked(program, folder), would(line))
    with Kept(program, folder) as broker:
        same(f"the line, of {what}", broker.said(), line)
    same(f"the journal behind the start, of {what}", content(folder, JOURNAL), journal[:end])


def other_orders(program):
    """Such groups lost, doubled and out of order, and others in the place of the second."""
    with new_folder() as folder:
        for letters, count, is_damage in ORDERS:
            journal, what = HEAD + b"".join(PARTS[it] for it in letters), f"the parts {letters!r}"
            if is_damage:
                refuses(program, folder, what, journal, ALIKE_AT[count], "LaterSync")
            else:
                leaves_alike(program, folder, what, journal, count)


def each_bit_turned(program):
    """Each bit of what stands before a group's frames, and one of each byte of these, in one of the three groups by turns: what is
    synced before is damage, and the last group is cut."""
    sound = HEAD + PARTS["1"] + PARTS["2"] + PARTS["3"]
    with new_folder() as folder:
        for place in range(kept_files.FRONT_SIZE + ALIKE_SIZE):
            for bit in range(8) if place < kept_files.FRONT_SIZE else [place % 8]:
                number = (place + bit) % 3
                journal = flipped(sound, ALIKE_AT[number] + place, 1 << bit)
                what = f"bit {bit} of byte {place} of group {number}"
                if number < 2:
                    refuses(program, folder, what, journal, ALIKE_AT[number], "LaterSync")
                else:
                    leaves_alike(program, folder, what, journal, number)


def fed(register, data):
    """A register of a CRC-32C behind some bytes."""
    for byte in data:
        register = register >> 8 ^ batches.CRCS[(register ^ byte) & 0xFF]
    return register


def fed_zeros(register, count):
    """The same behind so many zeros. What a step does to a register is the sum of what it does to its bits; a step that is made
    twice is one of twice as many zeros."""
    step = [fed(1 << bit, b"\0") for bit in range(32)]

    def after(value):
        total = 0
        for bit in range(32):
            if value >> bit & 1:
                total ^= step[bit]
        return total

    while count:
        if count & 1:
            register = after(register)
        count, step = count >> 1, [after(it) for it in step]
    return register


assert fed_zeros(fed(0, b"kbroker"), 1000) == fed(0, b"kbroker" + bytes(1000))


def zeros_frame(size):
    """A Produce request of so many bytes with its size, whose batch is zeros, and so refused: what stands before these, and how
    many they are."""
    front = request("produce t:0 batch a=1")[4:37]  # up to the index of the partition
    zeros = size - 4 - len(front) - 4
    return struct.pack(">i", size - 4) + front + struct.pack(">i", zeros), zeros


def group_of_zeros(sizes):
    """The first group of a journal, of such frames."""
    parts = [zeros_frame(it) for it in sizes]
    at = kept_files.HEAD_SIZE
    covered = kept_files.KEY + struct.pack(">QQI", at, at, sum(sizes))
    register = fed(0xFFFFFFFF, covered)
    for front, zeros in parts:
        register = fed_zeros(fed(register, front), zeros)
    crc = struct.pack(">I", register ^ 0xFFFFFFFF)
    return crc + covered + b"".join(front + bytes(zeros) for front, zeros in parts)


@slow("the largest frames take long")
def largest_group(program):
    """A group of the most bytes is read, and one of a byte more is none."""
    half = kept_files.MOST // 2
    with new_folder() as folder:
        for more, count in ((0, 2), (1, 0)):
            journal = HEAD + group_of_zeros([half, half + more])
            end = len(journal) if count else kept_files.HEAD_SIZE
            lay(folder, journal)
            with Kept(program, folder) as broker:
                same(f"the line, of a group with {more} more", broker.said(), recovered(count, len(journal) - end, end))
            same("the bytes of the journal behind the start", len(content(folder, JOURNAL)), end)


# ---- frames that are refused in a sound group

READING = ["fetch t:0 0", "listoffsets t:0 -1", "metadata all", "offsets t:0", "versions", "coordinator g", "export t:0"]
READING += ["export-delta t:0 none", "get t:0 a", "cover t:0"]
REFUSED_FRAMES = [
    ("UnknownApi", frame(60, 0)),
    ("UnknownApi", frame(-1, 3)),
    ("BadVersion", frame(0, 2)),
    ("ShortBody", frame(22, 0)),
    ("Malformed", frame(20006, 0, b"\0\0\0\7\xff\xff\xff\xff")),
    ("TrailingBytes", frames.data(request("trim t:0 1")[4:] + b"\0")),
    ("ShortHeader", frames.data(b"\0\x12\0")),
    ("ShortHeader", frames.data(b"")),
    ("NegativeSize", b"\xff\xff\xff\xff"),
    ("TooLarge", struct.pack(">i", 8_388_609)),
    ("Short", request("trim t:0 1")[:-1]),
    ("Short", b"\0\0\0"),
    *(("OnlyReads", request(it)) for it in READING),
]


def refused_frames(program):
    """A sound group with a frame that no broker has written: by itself, behind others of its group, and where the journal's end is
    torn beside it, which isn't cut then."""
    with new_folder() as folder:
        for why, bad in REFUSED_FRAMES:
            refuses(program, folder, f"a frame {why}", kept_files.journal([ROUNDS[0], [bad]]), SECOND, why)
        for why, bad in REFUSED_FRAMES[:3]:
            journal = kept_files.journal([ROUNDS[0], [*ROUNDS[1], bad], ROUNDS[2]])
            refuses(program, folder, f"a frame {why} in the middle", journal, SECOND, why)
            refuses(program, folder, f"a frame {why} and a torn end", journal + LAST_GROUP[:20], SECOND, why)


# ---- heads

# fields of a journal's head that are none, with the right crcs: where they stand, and why they are none
RESEALED = [
    (4, "BadMark", {"mark": b"KSNP"}),
    (4, "BadMark", {"mark": b"kjnl", "version": 2}),
    (4, "BadMark", {"mark": b"KSNP", "version": 0}),
    *((12, "BadNumber", {"number": number, "version": version}) for number in (0, 2, 1 - 2**63) for version in (1, 0)),
    (12, "BadNumber", {"number": -(2**63), "version": 0}),
    (28, "BadBefore", {"before": (1, kept_files.KEY, 99)}),
    (28, "BadBefore", {"before": (-1, bytes(8), 0)}),
    (28, "BadBefore", {"before": (1, kept_files.KEY, 99), "number": 3}),
    (28, "BadBefore", {"before": (2**63 - 1, bytes(8), 0), "number": -(2**63)}),
]
LATER = [
    ("BadVersion", {"version": 2}),
    ("BadVersion", {"version": 2, "meaning": 2}),
    ("BadVersion", {"version": 2, "before": (7, bytes(8), 0)}),
    ("BadVersion", {"version": -1}),
    ("BadVersion", {"version": -1, "number": 0}),
    *(("BadMeaning", {"meaning": meaning, "version": version}) for meaning in (2, 0, -1) for version in (1, 0)),
]


def heads_of_journals(program):
    """The head of a journal, of both versions: each byte with a bit turned, too few bytes, and fields that are none, with the right
    crcs. A later version has another form perhaps, so what stands behind the first crc's bytes isn't judged then."""
    with new_folder() as folder:
        for at in range(kept_files.HEAD_SIZE):
            fault = (0, "BadCrc") if at < kept_files.OLD_HEAD_SIZE else (kept_files.OLD_HEAD_SIZE, "BadBefore")
            refuses(program, folder, f"a bit of byte {at}", flipped(SOUND, at, 1 << at % 8), *fault)
        for at in range(kept_files.OLD_HEAD_SIZE):
            refuses(program, folder, f"a bit of byte {at} of version 0", flipped(OLD, at, 1 << at % 8), 0, "BadCrc")
        for size in range(kept_files.HEAD_SIZE):
            refuses(program, folder, f"{size} bytes", SOUND[:size], size, "Short")
        for size in (0, 1, kept_files.OLD_HEAD_SIZE - 1):
            refuses(program, folder, f"{size} bytes of version 0", OLD[:size], size, "Short")
        for size in (kept_files.OLD_HEAD_SIZE, kept_files.HEAD_SIZE):
            refuses(program, folder, f"{size} zeros", bytes(size), 0, "BadCrc")
        for size in (kept_files.OLD_HEAD_SIZE, len(SOUND)):
            lay(folder, kept_files.journal(ROUNDS, version=2)[:size])
            refused(program, folder, REFUSED, later(folder, JOURNAL, "BadVersion"))
        for at, why, fields in RESEALED:
            refuses(program, folder, f"{fields}", kept_files.journal(ROUNDS, **fields), at, why)
        for why, fields in LATER:
            lay(folder, kept_files.journal(ROUNDS, **fields))
            refused(program, folder, REFUSED, later(folder, JOURNAL, why))


EMPTY = kept_files.EMPTY_IMAGE
IMAGES, OLD_IMAGES = kept_files.snapshot(NAMES_OF_TOPICS), kept_files.snapshot(NAMES_OF_TOPICS, version=0)
BEHIND_HEAD = len(IMAGES) - 3 * len(EMPTY)  # where the images begin: of t:0, t:1 and the groups' partition
MARK_AT, VERSION_AT, KEY_AT = 4, 8, 10
FIELDS_AT = {1: 22, 0: 14}  # by the version; their size stands before them


def fault_of_head(data):
    """Why a snapshot is refused in whose head a bit is turned, and where that stands; the crc is looked at behind the size."""
    mark, version = struct.unpack(">4sh", data[MARK_AT:KEY_AT])
    if mark != b"KSNP":
        return MARK_AT, "BadMark"
    if version not in FIELDS_AT:
        return VERSION_AT, "BadVersion"
    at = FIELDS_AT[version]
    size = struct.unpack(">i", data[at - 4 : at])[0]
    if size < 0:
        return at - 4, "BadSize"
    return (len(data), "Short") if at + size > len(data) else (0, "BadCrc")


NO_TOPIC = kept.fields(1, 0, 0, 0, [])
# a byte more, a byte less, none at all, a topic that is announced and isn't there, and one whose name is null
SAID = [NO_TOPIC + b"\0", NO_TOPIC[:-1], b"", NO_TOPIC[:-1] + b"\1", NO_TOPIC[:-1] + b"\1" + struct.pack(">hi", -1, 0)]


def snapshot_refused(program, folder, snapshot, at, why):
    """A start beside this snapshot must be refused for it; as of a later version where no byte is at fault."""
    lay(folder, SOUND)
    write(folder, SNAPSHOT, snapshot)
    is_later = why == "BadVersion"
    refused(program, folder, REFUSED, later(folder, SNAPSHOT, why) if is_later else damaged(folder, SNAPSHOT, at, why))


def heads_of_snapshots(program):
    """The head of a snapshot, of both versions: each bit before its fields turned, and one of each byte of these, each front of it, and
    fields that are none, with the right crc. Of version 0 one bit of each byte, and some fronts."""
    with new_folder() as folder:
        for sound, fields_at, fronts in ((IMAGES, FIELDS_AT[1], 1), (OLD_IMAGES, 0, 9)):
            for at in range(len(sound) - 3 * len(EMPTY)):
                for bit in range(8) if at < fields_at else [at % 8]:
                    data = flipped(sound, at, 1 << bit)
                    snapshot_refused(program, folder, data, *fault_of_head(data))
            for size in range(0, len(sound) - 3 * len(EMPTY), fronts):
                snapshot_refused(program, folder, sound[:size], size, "Short")
        snapshot_refused(program, folder, SOUND, MARK_AT, "BadMark")
        for version, fields_at in FIELDS_AT.items():
            for it in SAID:
                snapshot_refused(program, folder, kept_files.snapshot_head(it, version), fields_at, "BadFields")
            snapshot_refused(program, folder, kept_files.snapshot_head(NO_TOPIC, version, mark=b"KJNL"), MARK_AT, "BadMark")
            snapshot_refused(program, folder, kept_files.snapshot_head(NO_TOPIC, version, size=-1), fields_at - 4, "BadSize")
            for number in (0, 2, -1):
                other = kept_files.snapshot(NAMES_OF_TOPICS, number=number, version=version)
                snapshot_refused(program, folder, other, fields_at, "BadNumber")
        for version in (2, -1):
            snapshot_refused(program, folder, kept_files.snapshot_head(NO_TOPIC, version), VERSION_AT, "BadVersion")


def images_of_snapshots(program):
    """Behind the head of a snapshot an image of the size that it says must stand for each partition, and nothing else. What doesn't
    is damaged from the image's first byte on, at the file's end, or from what is too much."""
    at, size = BEHIND_HEAD, len(EMPTY)
    with new_folder() as folder:
        for index in range(3):
            for byte in (0, 5, 13, 17, 21, 25):
                there = at + index * size
                why = "BadCrc" if byte else "BadMark"
                snapshot_refused(program, folder, flipped(IMAGES, there + byte, 1), there, why)
        for images in (b"", EMPTY, EMPTY * 2 + EMPTY[:-1]):
            snapshot_refused(program, folder, IMAGES[:at] + images, at + len(images), "Short")
        for images in (EMPTY * 3 + b"\0", EMPTY * 4):
            snapshot_refused(program, folder, IMAGES[:at] + images, at + size * 3, "Behind")


def snapshot_of(version, sizes, images, following=0, group=(len(EMPTY),), role=0, first=0):
    """A snapshot with images of these sizes for t:0 and t:1, and for the groups' topic."""
    topics = [(b"t", sizes), (b"__consumer_offsets", group)]
    return kept_files.snapshot_head(kept.fields(1, role, first, following, topics), version) + images


def snapshots_of_none(program):
    """Sound heads of what no broker holds: a role that is none, a size below 0, a producer id below the first one, groups' offsets in
    no partition or in two, a topic without partitions or of no name; and an image that a leader can't have, whose offsets have a
    gap."""
    size = len(EMPTY)
    gapped = copies.image([(2, 4)], [batches.batch([batches.record(0, b"a", b"1", [], {})], {"base": 2})], {})
    with new_folder() as folder:
        for version, fields_at in FIELDS_AT.items():
            topics_at, images_at = fields_at + 26, BEHIND_HEAD - FIELDS_AT[1] + fields_at
            for snapshot, at, why in (
                (snapshot_of(version, [size, size], EMPTY * 3, role=2), fields_at + 8, "BadRole"),
                (snapshot_of(version, [-1, size], EMPTY * 3), images_at, "BadSize"),
                (snapshot_of(version, [size, size], EMPTY * 3, first=5, following=4), fields_at + 18, "EarlyProducer"),
                (snapshot_of(version, [size, size], EMPTY * 2, group=()), topics_at, "BadTopics"),
                (snapshot_of(version, [size, size], EMPTY * 4, group=(size, size)), topics_at, "BadTopics"),
                (snapshot_of(version, [len(gapped), size], gapped + EMPTY * 2), images_at, "Gapped"),
            ):
                snapshot_refused(program, folder, snapshot, at, why)


def first_fault(program):
    """Of many faults the first is named: of the names, of the snapshot, of the configuration, of the journal's head, of what it means,
    of what it stands behind, of its groups."""
    bad = flipped(SOUND, SECOND, 1)
    with new_folder() as folder:
        lay(folder, flipped(bad, 0, 1))
        write(folder, SNAPSHOT, flipped(IMAGES, MARK_AT, 1))
        write(folder, "snapshot.2", b"")
        refused(program, folder, REFUSED, missing(folder, "journal.2"))
        os.remove(f"{folder}/snapshot.2")
        refused(program, folder, REFUSED, damaged(folder, SNAPSHOT, MARK_AT, "BadMark"))
        write(folder, SNAPSHOT, IMAGES)
        refused(program, folder, ANOTHER, another(folder, "topic t: 2 partitions"), topics=("t:1",))
        refused(program, folder, REFUSED, damaged(folder, JOURNAL, 0, "BadCrc"))
        for fields, line in (({"meaning": 2}, later(folder, JOURNAL, "BadMeaning")), ({}, of_another(folder, JOURNAL, SNAPSHOT))):
            write(folder, JOURNAL, flipped(kept_files.journal(ROUNDS, key=b"another ", **fields), SECOND, 1))
            refused(program, folder, REFUSED, line)
        write(folder, JOURNAL, bad)
        refused(program, folder, REFUSED, damaged(folder, JOURNAL, SECOND, "LaterSync"))


# ---- names


def without(folder, name):
    lay(folder, SOUND)
    os.remove(f"{folder}/{name}")


def files_that_are_missing(program):
    """One file without the other."""
    with new_folder() as folder:
        for name in (JOURNAL, SNAPSHOT):
            without(folder, name)
            refused(program, folder, REFUSED, missing(folder, name))
        for journal in (SOUND, OLD):
            for size in (FIRST + 1, FIRST + 10, FIRST + 40, len(journal) - 1):
                lay(folder, journal[:size])
                os.remove(f"{folder}/{SNAPSHOT}")
                refused(program, folder, REFUSED, missing(folder, SNAPSHOT))
        lay(folder, HEAD)
        with Kept(program, folder) as broker:
            same("the line of a journal without a group", broker.said(), recovered(0))
        without(folder, SNAPSHOT)
        write(folder, JOURNAL, b"")
        os.remove(f"{folder}/{JOURNAL}")
        with Kept(program, folder) as broker:
            same("the line without either", broker.said(), new(folder))


def socket_at(path):
    """Leaves the name of a socket that nobody listens at. (The path of one is short.)"""
    there, here = os.path.split(path)
    before = os.getcwd()
    os.chdir(there)
    try:
        with socket.socket(socket.AF_UNIX) as made:
            made.bind(here)
    finally:
        os.chdir(before)


def link_to_a_file(path):
    """A link to the sound file, which is there by another name."""
    os.symlink(os.path.basename(path) + ".there", path)


KINDS = [("a directory", os.mkdir), ("a link", link_to_a_file), ("a pipe", os.mkfifo), ("a socket", socket_at)]
KINDS.append(("a link to nothing", lambda path: os.symlink("nothing", path)))


def files_of_another_kind(program):
    """A directory, a link, a pipe and a socket in the place of each file. A pipe isn't opened, which would wait. The torn end of the
    journal stays."""
    for name in (JOURNAL, SNAPSHOT, IN_THE_MAKING):
        for _, make in KINDS:
            with new_folder() as folder:
                lay(folder, SOUND + bytes(9))
                write(folder, IN_THE_MAKING, b"")
                os.rename(f"{folder}/{name}", f"{folder}/{name}.there")
                make(f"{folder}/{name}")
                refused(program, folder, REFUSED, irregular(folder, name))


OTHER_NAMES = [b"notes.txt", b".hidden", b"snapshot", b"journal", b"snapshot.", b"journal.", b"snapshot.1.old", b"journal.0"]
OTHER_NAMES += [b"journal.02", b"snapshot.01"]
OTHER_NAMES += [b"journal.-2", b"snapshot.+2", b"journal.2x", b"xjournal.2", b"Journal.2", b"journal.tmp", b"snapshot.tmp2"]
OTHER_NAMES += [b"\xff\xfe", b"journal.\xb2", b"journal.\xd9\xa2", b"snapshot.2\xff", b"a name\nof two lines", b"journal.2 "]


def other_names(program):
    """Names that aren't its own, also ones that are no text, are left alone, as a directory and a pipe are; its own file in the
    making goes."""
    with new_folder() as folder:
        lay(folder, SOUND)
        there = os.fsencode(folder)
        for it in OTHER_NAMES:
            with open(os.path.join(there, it), "wb") as file:
                file.write(b"mine")
        os.mkdir(f"{folder}/lost+found")
        os.mkfifo(f"{folder}/pipe")
        os.symlink("nothing", f"{folder}/link")
        write(folder, IN_THE_MAKING, b"of a start before")
        before = all_of(folder)
        with Kept(program, folder) as broker:
            same("the line", broker.said(), recovered(4))
        after = all_of(folder)
        holds("its file in the making stays", IN_THE_MAKING.encode() not in after)
        for own in (b".", IN_THE_MAKING.encode(), JOURNAL.encode()):
            before.pop(own), after.pop(own, None)
        same("what isn't its own", after, before)
        same("the journal", content(folder, JOURNAL), SOUND)


def making_stays_on_refusal(program):
    """Its file in the making goes at a start that passes alone."""
    with new_folder() as folder:
        lay(folder, flipped(SOUND, SECOND, 1))
        write(folder, IN_THE_MAKING, b"of a start before")
        refused(program, folder, REFUSED, damaged(folder, JOURNAL, SECOND, "LaterSync"))
        holds("the file in the making is gone", os.path.exists(f"{folder}/{IN_THE_MAKING}"))


CASES = [
    ("a journal that is cut behind each byte of its last group", cut_journal),
    ("what may stand behind a journal's end", end_behind),
    ("a sector of zeros in the last group", zeros_in_a_sector),
    ("a bit of each field of each group", turned_bits),
    ("a torn group with a sound one behind it", torn_and_more),
    ("a torn group with a sound one far behind it", torn_and_far_behind),
    ("groups that are out of place", groups_out_of_place),
    ("groups of one size, in other orders and with other fields", other_orders),
    ("each bit of a group", each_bit_turned),
    ("a group of the most bytes", largest_group),
    ("refused frames in a sound group", refused_frames),
    ("heads of journals that are none", heads_of_journals),
    ("heads of snapshots that are none", heads_of_snapshots),
    ("images of snapshots that are none", images_of_snapshots),
    ("snapshots of what no broker holds", snapshots_of_none),
    ("which of many faults is named", first_fault),
    ("files that are missing", files_that_are_missing),
    ("files that are none", files_of_another_kind),
    ("names that aren't its own", other_names),
    ("a file in the making, and a refusal", making_stays_on_refusal),
]
