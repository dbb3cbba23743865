"""All that `kbroker start` says where it cleans by itself, or doesn't: each text stands here, once."""
import collections
import re

CLEANINGS, DRAFT = "cleanings", "cleanings.tmp"  # the file of marks in a directory, and what it is while it is written
NOTHING_CLEANED = "nothing is cleaned by itself"
USUAL = {"lag": 10, "within": 86_400, "keep": 86_400}  # seconds, of what isn't given

TIME = r"\d+(?:\.\d+)? s"
UNITS = {"bytes": 1, "kB": 1_000, "MB": 1_000_000}
SIZES = rf"(\d+) ({'|'.join(UNITS)}), now (\d+)"
COUNTS = r"(\d+) records?, (\d+) tombstones?, (\d+) batch(?:es)?"
MORE = r"1 more partition|\d+ more partitions"
CLEANED = re.compile(rf"cleaned (\S+) (\d+): {SIZES}; {COUNTS}; {TIME}(?:, and ({MORE}))?")
GIVEN_UP = re.compile(r"clean (\S+) (\d+): given up: (.+)")
STARTING = re.compile(r"cleaning at \d+ %, lag \d+ s, within \d+ s, deletes kept \d+ s")

# a line of passes: the partition, its bytes before and now, what the last one took, and how many more partitions were cleaned since the
# line before it, each of which counts once
Told = collections.namedtuple("Told", "topic partition before now records tombstones batches more")


def cleaning_at(percent, lag=USUAL["lag"], within=USUAL["within"], keep=USUAL["keep"]):
    """The line of a start that cleans."""
    return f"cleaning at {percent} %, lag {lag} s, within {within} s, deletes kept {keep} s"


def is_of_cleaning(line):
    """Whether it is the line of a start that says what it cleans."""
    return line == NOTHING_CLEANED or STARTING.fullmatch(line) is not None


def told_of(line):
    """What a line says of passes; of another line, none."""
    found = CLEANED.fullmatch(line)
    if not found:
        return None
    topic, partition, before, unit, now, *counts, more = found.groups()
    sizes = (int(before) * UNITS[unit], int(now) * UNITS[unit])
    return Told(topic, int(partition), *sizes, *(int(it) for it in counts), int(more.split()[0]) if more else 0)


# what a start says of the file of marks where it doesn't believe it, and what stands in its place and is none
DAMAGED = "cleanings: damaged: {}; removed"
LATER = "cleanings: of a later version; removed"
OF_ANOTHER = "cleanings: not behind these journals: {}; removed"
TOO_LARGE = "cleanings: too large; removed"
UNREADABLE = "cleanings: permission denied; removed"
IRREGULAR = "cleanings: not a regular file; passed over"


def is_unwritten(line):
    """Whether a line says, while it runs, that the file can't be written."""
    return re.fullmatch(r"cleanings: .+", line) is not None and not line.endswith(("; removed", "; passed over"))


def of_marks(lines):
    """The lines that are about that file."""
    return [it for it in lines if it.startswith(f"{CLEANINGS}: ")]
