"""The bytes in sources that were made by the Python of tests, compared with what it makes now.

Covered are three kinds of files, in whichever crate they stand. Those of FILES: each of their constants that holds bytes is named
there with the forms that make it, or with how it was worked by hand. Those that say that kept.py prints them. And those whose head
has Python in a block of text: it is run, and so is what stands in the comment of each constant. A constant that is missing is a
fault too, and one that is compared with nothing. All other bytes of sources were worked by hand.
"""
import os
import re
import struct
import sys

from encoders import copies, kept
from runner.places import ROOT, TESTS

STRING = r'b"(?:[^"\\]|\\.)*"'
ARRAY = r"\[\s*0x[0-9a-f]{2}\b[^\]]*\]"
CONSTANT = re.compile(r"^((?:///[^\n]*\n)*)(?:pub(?:\(crate\))? )?(?:const|static) (\w+):[^=]*=(.*?);\n(?=\n|\Z)", re.M | re.S)
ESCAPES = {"0": 0, "n": 10, "r": 13, "t": 9, "\\": 92, '"': 34, "'": 39}
BY_HAND = "worked by hand, since no form makes it"

NO_TIMEOUT = "hex 00000010 0016 0000 00000007 ffff ffff 00000000"  # InitProducerId, whose form has a timeout

# an exchange: the request, the response, and the response where memory lacks
EXCHANGES = {
    "STORE_REQUEST": ["produce t:0 batch a=1"],
    "STORE": ["produce t:0 batch a=1", "reply produced t:0 0 0", "reply produced t:0 56 -1"],
    "COMMIT": ["commit t:0 10", "reply committed t:0 0", "reply committed t:0 56"],
    "POSITION": ["offsets t:0", "reply found t:0 0 10", "reply found t:0 56 -1"],
    "VALUE": ["get t:0 a", "reply got 0 1"],
    "SEEN": ["cover t:0", "reply covered 0 0-0"],
    "IMAGE": ["export t:0", "reply exported 0 image 0-0 batch a=1", "reply exported 56"],
    "CLEAN": ["clean t:0 1 0", "reply cleaned 0 0 0 0", "reply cleaned 56 0 0 0"],
    "CLEAN_PART": ["clean-part t:0 0 1 1 0", "reply cleaned 0 0 0 0", "reply cleaned 56 0 0 0"],
    "TRIM": ["trim t:0 1", "reply trimmed 0"],
    "FORGET": ["forget g", "reply forgotten 0 1", "reply forgotten 56 0"],
    "TAKE": ["import u:0 image version:0 0-0 batch a=1", "reply imported 0", "reply imported 56"],
    "DELIVER": ["deliver t:0 batch a=1", "reply delivered 0 0", "reply delivered 56 0"],
    "MERGE": ["import t:0 image version:0 1-1 batch base:1 b=2", "reply imported 0", "reply imported 56"],
    "DELTA": ["export-delta t:0 1-1", "reply exported 0 delta 0-0 1-1 batch a=1", "reply exported 56"],
    "PATCH": [
        "import-delta t:0 delta 0-2 0-1 list 0 0 + list 1 1 + batch base:2 c=3",
        "reply imported 0",
        "reply imported 56",
    ],
    "VERSIONS": ["versions", "reply versions 0"],
    "COORDINATOR": ["coordinator g", "reply coordinator 0 1 hhh:9092"],
    "PRODUCER_ID": [NO_TIMEOUT, "reply producer 0 0 0"],
    "NEXT_PRODUCER_ID": [NO_TIMEOUT, "reply producer 0 1 0"],
    "SILENT": ["produce acks=0 t:0 batch a=1", "hex", "hex"],
}
# of each file of a crate of tests or of samples the forms of tests/rows of what its constants hold, one behind the other
FILES = {
    "sample_batches/src/lib.rt": {
        "A_IS_1": ["batch a=1"],
        "A_IS_NULL": ["batch a=null"],
        "A_IS_EMPTY": ["batch a="],
        "EMPTIED": ["batch last:3"],
        "THREE": ["batch a=1 b=2 a=null"],
        "ALL_FIELDS": [
            "batch base:5 leader:7 attributes:128 last:300 time:1000 maxtime:2000 producer:9 epoch:3 sequence:2147483647"
            " null={x*64};attributes:255;time:-1000;header:h=null;header:= key=null;delta:300;time:300"
        ],
        "NINE": ["batch base:3 a=9"],
        "NO_KEY": ["batch null=1"],
    },
    "exchanges.rt": EXCHANGES,
    "frames.rt": {
        "PRODUCE": ["id:5 produce t:0 batch a=1"],
        "STORED": ["id:5 reply produced t:0 0 0"],
        "NOT_STORED": ["id:5 reply produced t:0 56 -1"],
        "FETCH": ["id:9 fetch max=1000 wait=0 min=0 t:0 0 1000"],
        "FETCHED": ["id:9 reply fetched t:0 0 1 batch a=1"],
        "DESCRIBE": ["id:11 metadata t"],
        "DESCRIBED": BY_HAND,
        "LIST": ["listoffsets t:0 -1"],
        "LISTED": ["reply listed t:0 0 -1 0"],
        "LISTED_AT_1": ["reply listed t:0 0 -1 1"],
    },
    "group_copies.rt": {
        "KEY": BY_HAND,
        "NEXT_KEY": BY_HAND,
        "VALUE": BY_HAND,
        "COMMITS": [
            "positions g/t/0=10/null",
            "positions base:1 g/t/1=7/null",
            "positions base:2 h/t/0=8/null",
            "positions base:3 g/t/0=20/m",
        ],
        "NO_VALUE": ["positions base:4 g/t/2=hex:616263"],
        "COMMIT": ["positions g/t/0=20/m"],
        "FORGOTTEN": ["positions g/t/1=null g/t/0=null"],
    },
    "script_memory.rt": {
        "PAIR": ["sized image 0-0 batch a=1 && sized image 1-1 batch base:1 b=2"],
        "MERGED": ["image 0-1 batch a=1 + batch base:1 b=2"],
    },
}


def bytes_of(literal):
    """The bytes of a byte string or of an array, as a source has them."""
    if literal.startswith("["):
        return bytes(int(it, 16) for it in re.findall(r"0x([0-9a-f]{2})", literal))
    text = re.sub(r"\\\n\s*", "", literal[2:-1])
    return bytes(
        int(code, 16) if code else ESCAPES[escaped] if escaped else ord(plain)
        for code, escaped, plain in re.findall(r"\\x([0-9a-f]{2})|\\(.)|(.)", text)
    )


def constants_of(source):
    """The constants of a source that hold bytes: of each its name, the byte strings and arrays in it, also in constants that it
    names, and its comment."""
    found = {}
    for it in CONSTANT.finditer(source):
        held = []
        for word in re.findall(rf"{STRING}|{ARRAY}|\b[A-Z][A-Z0-9_]+\b", it[3], re.S):
            held += found[word][0] if word in found else [bytes_of(word)] if word.startswith(("b", "[")) else []
        if held:
            found[it[2]] = held, re.sub(r"^/// ?", "", it[1], flags=re.M).strip()
    return found


def made_by(form):
    """The bytes of a form of tests/rows, a request or an input; of a response behind `reply`, with the correlation id behind `id:`."""
    number, form = form.removeprefix("id:").split(" ", 1) if form.startswith("id:") else (None, form)
    is_reply = form.startswith("reply ")
    made = copies.reply_of(form.removeprefix("reply "), ROOT) if is_reply else copies.input_of(form, ROOT)
    at = 4 if is_reply else 8
    return made if number is None else made[:at] + struct.pack(">i", int(number)) + made[at + 4 :]


def faults_of_forms(path, held, forms):
    """What of a source isn't as these forms make it."""
    faults = [f"{path}: {name} is compared with nothing" for name in held if name not in forms]
    for name, (given, _) in held.items():
        if forms.get(name, BY_HAND) != BY_HAND and given != [made_by(it) for it in forms[name]]:
            faults.append(f"{path}: {name} isn't what {forms[name]} make")
    return faults


def faults_of_kept(path, held):
    """What of a source isn't as tests/encoders/kept.py prints it."""
    return [f"{path}: {name} isn't what kept.py prints" for name in held if held[name][0] != [kept.BYTES.get(name)]]


def texts_of(held):
    """Of the constants of a source those of which Python stands at the end of their comments, behind a colon."""
    found = {name: re.search(r":\s`([^`]+)`\.\Z", comment) for name, (_, comment) in held.items()}
    return {name: text[1].replace("\n", " ") for name, text in found.items() if text}


def faults_of_texts(path, held, names):
    """What of a source isn't as the Python in its comments makes it."""
    return [
        f"{path}: {name} isn't what {text} makes"
        for name, text in texts_of(held).items()
        if held[name][0] != [eval(text, names)]
    ]


def python_of(source):
    """What the Python in the head of a source defines, in the folder of encoders."""
    text = re.search(r"^//! ```text\n(.*?)^//! ```$", source, re.M | re.S)[1]
    names = {}
    sys.path.insert(0, f"{TESTS}/encoders")
    try:
        exec(re.sub(r"^//! ?", "", text, flags=re.M), names)
    finally:
        sys.path.remove(f"{TESTS}/encoders")
    return names


def sources():
    """The sources of all crates, by their paths from crates/ on."""
    for folder, _, names in os.walk(f"{ROOT}/crates"):
        for name in sorted(names):
            if name.endswith(".rt") and "/src" in folder:
                with open(f"{folder}/{name}", encoding="utf-8") as file:
                    yield os.path.relpath(f"{folder}/{name}", f"{ROOT}/crates"), file.read()


def faults_by_forms(held):
    """What differs in the files of FILES, and what of FILES isn't there."""
    faults = []
    for end, forms in FILES.items():
        paths = [path for path in held if re.match(r"sample_|\w+_tests/", path) and f"/{path}".endswith(f"/{end}")]
        for path in paths:
            faults += faults_of_forms(path, held[path], forms)
        there = {name for path in paths for name in held[path]}
        faults += [f"{end}: {name} isn't there" for name in forms if name not in there]
    return faults


def faults_by_kept(read, held):
    """What differs in files that say that kept.py prints them, and what of it isn't there."""
    paths = [path for path, source in read.items() if re.search(r"^//!.*kept\.py", source, re.M)]
    there = {name for path in paths for name in held[path]}
    faults = [f"{name} of kept.py isn't there" for name in kept.BYTES if name not in there]
    return faults + [it for path in paths for it in faults_of_kept(path, held[path])]


def faults_by_texts(read, held):
    """What differs in files whose head has Python, and in those beside them that have such comments."""
    faults, heads = [], [path for path, source in read.items() if "//! ```text\n//! from batches import" in source]
    for head in heads:
        names = python_of(read[head])
        faults += [f"{head}: {name} has no Python" for name in held[head] if name not in texts_of(held[head])]
        for path in read:
            if os.path.dirname(path) == os.path.dirname(head):
                faults += faults_of_texts(path, held[path], names)
    return faults if heads else ["no source has Python in its head"]


def faults():
    """What of the bytes in sources isn't as it is made now."""
    read = dict(sources())
    held = {path: constants_of(source) for path, source in read.items()}
    return [*faults_by_forms(held), *faults_by_kept(read, held), *faults_by_texts(read, held)]
