"""The file in which a broker keeps the marks of its own cleanings over restarts, written and read by docs/FORMATS.md.

It shares nothing with the program.
"""
import collections
import struct

from encoders.batches import crc32c
from models import kept_files
from models.cleaning_policy import Mark, Marks

MARK, VERSION = b"KCLN", 0
FRONT = ">4sh"  # behind the crc
PLACE = ">q8sQQI"

# behind which the marks hold: a journal's number, its key and its size, where its last group begins, 0 for the head, and that one's crc
Place = collections.namedtuple("Place", "number key size group_at group_crc")
# what a file says: the place, and of each partition, by its topic's name and its number, its marks
Said = collections.namedtuple("Said", "place marks")


def place_of(journal, number=1, groups=None):
    """The place behind so many groups of a journal, all unless it is said; its bytes must be sound."""
    head, found = kept_files.head_of(journal), kept_files.groups_of(journal, number)[:groups]
    if not found:
        return Place(number, head.key, head.end, 0, struct.unpack(">I", journal[:4])[0])
    last = found[-1]
    return Place(number, head.key, last.end, last.at, struct.unpack(">I", journal[last.at : last.at + 4])[0])


def written_mark(mark):
    return struct.pack(">bqq", 1, *mark) if mark else bytes(17)


def written(said, mark=MARK, version=VERSION, crc=None, behind=b""):
    """The file that says this."""
    fields = struct.pack(PLACE, *said.place) + struct.pack(">i", len(said.marks))
    for (topic, partition), it in said.marks.items():
        fields += struct.pack(">h", len(topic)) + topic + struct.pack(">i", partition)
        fields += written_mark(it.older) + written_mark(it.newest)
        fields += struct.pack(">qqqq", it.used, it.reached, it.began, it.size)
    covered = struct.pack(FRONT, mark, version) + fields + behind
    return struct.pack(">I", crc32c(covered) if crc is None else crc) + covered


def read_mark(data, at):
    there, upto, ended = struct.unpack_from(">bqq", data, at)
    if there not in (0, 1) or not there and (upto or ended):
        raise kept_files.Damaged(at, "BadMarks")
    return Mark(upto, ended) if there else None


def read(data):
    """What a file says, which must be sound."""
    crc, mark, version = struct.unpack_from(">I4sh", data)
    if (mark, version, crc) != (MARK, VERSION, crc32c(data[4:])):
        raise kept_files.Damaged(0, "another head")
    at, marks = 10 + struct.calcsize(PLACE), {}
    place, count = Place(*struct.unpack_from(PLACE, data, 10)), struct.unpack_from(">i", data, at)[0]
    at += 4
    for _ in range(count):
        size = struct.unpack_from(">h", data, at)[0]
        topic, at = data[at + 2 : at + 2 + size], at + 2 + size
        numbers = struct.unpack_from(">qqqq", data, at + 4 + 34)
        own = Marks(read_mark(data, at + 4), read_mark(data, at + 21), *numbers)
        marks[topic, struct.unpack_from(">i", data, at)[0]] = own
        at += 4 + 34 + 32
    if at != len(data):
        raise kept_files.Damaged(at, "bytes behind")
    return Said(place, marks)
