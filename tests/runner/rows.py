"""The rows of tests/rows and those that tests/generated makes: what each gives the program, and what must come of it.

tests/rows/README.md has their form.
"""
import copy
import functools
import os
import sys

from encoders import batches, copies
from generated import cleanings, counts, exchanges, lies, long_run, orders, scripts
from runner.places import ROOT, TESTS

SECONDS = 120  # that a run may take


class Row:
    """One run of the program, and what must come of it."""

    def __init__(self, name):
        self.name = name
        self.arguments = []
        self.input = []
        self.data = b""  # bytes behind the input
        self.runs = None  # the first and the last of the numbers that stand for `#` in the input, one a run
        self.reads = "all"  # 'bytes': one byte a read
        self.stdin = None  # a file in place of the input, or 'closed'
        self.output = None  # a file in place of a pipe, 'closed', or 'left': a pipe that nobody reads from then on
        self.errors = None  # a file in place of a pipe that is looked at, or 'closed'
        self.takes = None  # how many bytes standard output takes, or '#': the number of the run
        self.files = None  # the most files that the program may have open
        self.memory = None  # the most address space, in bytes
        self.beyond_own = False  # whether that is what it may have beyond its own
        self.seconds = SECONDS  # that a run may take
        self.refuses = []  # of a program that listens: addresses at which nobody listens
        self.status = 0
        self.stdout = b""
        self.replies = []  # what stands in front of it: bytes, or forms of responses
        self.stderr = b""
        self.clients = []  # of a program that listens: of each its steps, [what it sends, [what it must get for it]]
        self.session = None  # one of tests/generated/cleanings.py, which is run several times in place of the input
        self.make = None  # what gives the other fields, in a dictionary, once the row is run
        self.generator = None  # or the one of GENERATORS that does
        self.slow = None  # why tests/quick leaves it out


def set_field(row, field, value):
    """Sets what a line of a row says."""
    if field == "arguments":
        row.arguments = [batches.unescaped(it) for it in value.split()]
    elif field in ("input", "refuses"):
        getattr(row, field).append(value)
    elif field == "reply":
        row.replies.append(value)
    elif field == "client":
        row.clients.append([[value, []]])
    elif field == "then":
        row.clients[-1].append([value, []])
    elif field == "gets":
        row.clients[-1][-1][1].append(value)
    elif field == "runs":
        row.runs = [int(it) for it in value.split("-")]
    elif field in ("reads", "stdin", "output", "errors", "slow"):
        setattr(row, field, value)
    elif field == "takes":
        row.takes = value if value == "#" else int(value)
    elif field == "memory":
        row.beyond_own = value.startswith("own + ")
        row.memory = int(value.removeprefix("own + "))
    elif field in ("status", "seconds", "files"):
        setattr(row, field, int(value))
    elif field == "stdout":
        row.replies.append(batches.expanded(value).encode("ascii") + b"\n")
    elif field == "stderr":
        row.stderr += batches.expanded(value).encode("ascii") + b"\n"
    else:
        raise ValueError(f"no field is named {field}")


def rows_of(path):
    """Returns the rows of a file: 'row: NAME' begins one, and each other line is a field of it."""
    rows = []
    with open(path, encoding="ascii") as file:
        for number, line in enumerate(file, 1):
            line = line.rstrip("\n")
            if not line.strip() or line.startswith("#"):
                continue
            field, colon, value = line.partition(":")
            value = value[1:] if value.startswith(" ") else value
            try:
                if not colon:
                    raise ValueError("no field")
                if field == "row":
                    rows.append(Row(value))
                else:
                    set_field(rows[-1], field, value)
            except (ValueError, IndexError, KeyError) as why:
                sys.exit(f"{path}:{number}: {why}")
    return rows


def refuse_twins(rows):
    """Ends the run where two rows have one name: a failure names its row."""
    names = set()
    for row in rows:
        if row.name in names:
            sys.exit(f"tests/rows: two rows are named {row.name}")
        names.add(row.name)


def runs_of(row):
    """The row; or a row for each of its numbers, which stands for `#` in the input."""
    if row.runs is None:
        return [row]
    first, last = row.runs
    runs = [copy.copy(row) for _ in range(first, last + 1)]
    for number, run_of_it in enumerate(runs, first):
        run_of_it.name = f"{row.name}, {number}"
        run_of_it.input = [it.replace("#", str(number)) for it in row.input]
        run_of_it.takes = number if row.takes == "#" else row.takes
    return runs


# ---- rows that tests/generated makes


def fields_of_scripts():
    return [{"arguments": [b"replay"], "data": script, "stdout": printed} for script, printed in scripts.scripts()]


def fields_of_sessions():
    return [{"arguments": it, "data": sent, "stdout": replied} for it, sent, replied in exchanges.sessions()]


def fields_of_lies():
    return [{"arguments": it, "data": sent, "stdout": replied} for it, sent, replied in exchanges.lies()]


def fields_of_long_runs():
    return [{"arguments": it, "data": given, "stdout": wanted} for it, given, wanted in long_run.runs()]


def fields_of_orders():
    return [{"arguments": [b"table"], "data": stream, "stdout": printed} for stream, printed in orders.streams()]


def fields_of_cleanings():
    return [{"arguments": it.arguments, "session": it} for it in cleanings.sessions()]


# of each generator the names of its rows, and what makes the fields of all of them
GENERATORS = [
    ([f"generated script {it}" for it in range(scripts.SCRIPTS)], fields_of_scripts),
    ([f"generated session {it}" for it in range(exchanges.SESSIONS)], fields_of_sessions),
    ([f"small delta {it}, with each byte changed" for it in range(exchanges.DELTAS)], fields_of_lies),
    (long_run.ROWS, fields_of_long_runs),
    ([f"many batches, {it}" for it in orders.NAMES], fields_of_orders),
    (cleanings.NAMES, fields_of_cleanings),
]
# why tests/quick leaves out some of these rows
SLOW = {f"generated script {it}": "scripts with large values take long" for it in scripts.LARGE}
SLOW |= {f"many batches, {it}": counts.GREATEST for it in orders.NAMES}
SLOW |= {long_run.ROWS[0]: "a script of all that can happen takes long"}


@functools.cache
def fields_by(generator):
    """The fields of each row of a generator: one list of names has as many."""
    names = next(names for names, it in GENERATORS if it is generator)
    made = generator()
    if len(made) != len(names):
        raise ValueError(f"{len(made)} rows are made for {len(names)} names, of which the first is {names[0]}")
    return dict(zip(names, made))


def generated_rows():
    """The rows of tests/generated, whose fields are made once they are run."""
    rows = []
    for names, generator in GENERATORS:
        for name in names:
            rows.append(Row(name))
            rows[-1].generator, rows[-1].slow = generator, SLOW.get(name)
    for name, slow, make in [*lies.rows(), *counts.rows()]:
        rows.append(Row(name))
        rows[-1].make, rows[-1].slow = make, slow
    return rows


def prepare(rows):
    """Makes now what generators give these rows."""
    for generator in {it.generator for it in rows if it.generator}:
        fields_by(generator)


def made(row):
    """The row with all of its fields."""
    whole = copy.copy(row)
    whole.stdout = b"".join(it if isinstance(it, bytes) else copies.reply_of(it, ROOT) for it in row.replies)
    if row.make or row.generator:
        vars(whole).update(row.make() if row.make else fields_by(row.generator)[row.name])
    return whole


def all_rows():
    """The rows of tests/rows and of tests/generated, one for each of their runs."""
    names = sorted(it for it in os.listdir(f"{TESTS}/rows") if it.endswith(".rows"))
    written = [row for it in names for row in rows_of(f"{TESTS}/rows/{it}")]
    refuse_twins(written)
    return [run_of_it for row in written for run_of_it in runs_of(row)] + generated_rows()
