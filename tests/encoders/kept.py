"""Journals and heads of snapshots by struct and a CRC-32C, and the bytes of journals that the tests of crates/kept_tests name.

It shares nothing with the program. `python3 -m encoders.kept`, in the folder tests, prints each of them by its name there; that the
sources have these bytes is compared by tests/runner/source_bytes.py.
"""
from struct import calcsize, pack

from encoders import copies
from encoders.batches import crc32c

KEY = b"01234567"
BEFORE = ">q8sQ"  # what a journal's head of version 1 says of the one before it: its number, its key, and how many bytes it has
OLD_HEAD_SIZE = 28  # bytes of a journal's head of version 0
HEAD_SIZE = OLD_HEAD_SIZE + calcsize(BEFORE) + 4
A, B, C = b"\0\0\0\x01a", b"\0\0\0\x01b", b"\0\0\0\x01c"


def sealed(covered):
    return pack(">I", crc32c(covered)) + covered


def old_head(mark=b"KJNL", version=0, meaning=3, number=1, key=KEY):
    """A journal's head of version 0, which says nothing of the one before it."""
    return sealed(mark + pack(">hhq", version, meaning, number) + key)


def head(mark=b"KJNL", version=1, meaning=3, number=1, key=KEY, before=None):
    """A journal's head of version 1; unless it is said what stands before, nothing but its number is known of it."""
    front = old_head(mark, version, meaning, number, key) + pack(BEFORE, *(before or (number - 1, bytes(8), 0)))
    return front + pack(">I", crc32c(front))


def group(at, synced, frames, key=KEY, size=None):
    return sealed(key + pack(">QQi", at, synced, len(frames) if size is None else size) + frames)


def text(name):
    return pack(">h", len(name)) + name


def fields(number, role, first, following, topics):
    said = [text(name) + pack(">i", len(sizes)) + b"".join(pack(">q", size) for size in sizes) for name, sizes in topics]
    return pack(">qhqqi", number, role, first, following, len(said)) + b"".join(said)


def old_snapshot(said, mark=b"KSNP", version=0, size=None):
    """A snapshot's head of version 0, which says nothing of its journal."""
    return sealed(mark + pack(">hi", version, len(said) if size is None else size) + said)


def snapshot(said, mark=b"KSNP", version=1, size=None, key=KEY):
    """A snapshot's head of version 1, with the key of the journal of its number."""
    return sealed(mark + pack(">h", version) + key + pack(">i", len(said) if size is None else size) + said)


# frames that a broker of the topics t and u was sent, and the snapshot of one before it was sent any
STORE, COMMIT, CLEAN = (copies.input_of(it, None) for it in ("produce t:0 batch a=1", "commit t:0 10", "clean t:0 1 0"))
EMPTY = copies.image([], [], {})
TOPICS = [(b"t", [len(EMPTY)] * 2), (b"u", [len(EMPTY)] * 2), (b"__consumer_offsets", [len(EMPTY)])]

BYTES = {
    "HEAD": head(number=2, before=(1, b"89abcdef", 61)),
    "OLD_HEAD": old_head(),
    # three groups of one size, each behind a sync
    "ONE": group(56, 56, A),
    "SECOND": group(93, 93, B),
    "THIRD": group(130, 130, C),
    # a group that goes on behind some that had 173 bytes with the head
    "FOUR": group(173, 173, A),
    # the files of a directory of version 0, whose journal has two groups
    "OLD_SNAPSHOT": old_snapshot(fields(1, 0, 0, 0, TOPICS)) + EMPTY * 5,
    "OLD_JOURNAL": old_head(meaning=1) + group(28, 28, STORE) + group(171, 171, COMMIT + CLEAN),
    "OLD_NEXT": old_head(meaning=1, number=2),
    # two groups behind a head of version 0
    "OLD_ONE": group(28, 28, A),
    "OLD_SECOND": group(65, 65, B),
}


def literal(data):
    shown = (r"\0" if byte == 0 else chr(byte) if 32 < byte < 127 and chr(byte) not in '"\\' else f"\\x{byte:02x}"
             for byte in data)
    return 'b"' + "".join(shown) + '"'


if __name__ == "__main__":
    for name, data in BYTES.items():
        print(name, len(data), literal(data))
