"""What is run by name, one after the other or side by side: rows, cases of `kbroker start`, sessions, documents, sources.

A trial is a name and what says the faults of a program. It may have a reason for which tests/quick leaves it out, and it may
be one that is run with the first program alone.
"""
import concurrent.futures
import contextlib
import multiprocessing
import os
import signal
import sys
import time

from cases import cleaning_cases, cleaning_kept, cleaning_kills, kept_cases, start_cases, started
from runner import documents, kinds, rows, runs, source_bytes

CASES = "kbroker start: "  # what the name of each case begins with
MOST_SECONDS = 360  # that a trial may take: the longest take some two minutes
EACH_SECONDS = 300  # how often it is said how far the trials are
TRIED = []  # the trials that are run side by side, each with its program; the processes that run them are forked with it
LONG = [*kept_cases.CASES, *cleaning_cases.CASES, *cleaning_kept.CASES, *cleaning_kills.CASES]  # cases that take minutes together


class Trial:
    """Something that is run under a name."""

    def __init__(self, name, faults_of, slow=None, once=False):
        """Its faults are texts, none where all is as it must be. With `once` it is run with the first program alone."""
        self.name, self.faults_of, self.slow, self.once = name, faults_of, slow, once
        self.row = self.crate = None  # the row or the crate of tests that it is of


class Late(BaseException):
    """A trial took longer than one may. It is no Exception, so that no case takes it for an answer."""


class Outcome:
    """What came of a trial: its faults, or why it can't be tried on this machine; and how long it took."""

    def __init__(self, trial, program):
        began = time.monotonic()
        self.name, self.program, self.untried, self.is_late = trial.name, os.path.basename(program), None, False
        try:
            with contextlib.nullcontext() if trial.crate else ended_in_time():
                self.faults = trial.faults_of(program)
        except started.CannotBeTried as why:
            self.faults, self.untried = [], str(why)
        except Late:
            self.faults, self.is_late = [f"it was not over after {MOST_SECONDS} s"], True
        except Exception as why:  # (also of a response that can't be read)
            self.faults = [str(why) if isinstance(why, started.Fault) else f"{type(why).__name__}: {why}"]
        self.seconds = time.monotonic() - began

    def told(self):
        """What is printed of it."""
        if self.faults:
            return "\n  ".join([f"FAILED {self.name} ({self.program}) {self.seconds:.1f} s", *self.faults])
        said = f"left out, since {self.untried}:" if self.untried else "passed"
        return f"{said} {self.name} ({self.program}) {self.seconds:.1f} s"


@contextlib.contextmanager
def ended_in_time():
    """Has what takes longer than a trial may end."""

    def end(*_):
        raise Late

    signal.signal(signal.SIGALRM, end)
    signal.alarm(MOST_SECONDS)
    try:
        yield
    finally:
        signal.alarm(0)


def trial_of_row(row):
    """Rows of the greatest counts take minutes: they are run with the first program alone."""
    slow = row.slow or (started.LIMITED if row.memory is not None else None)
    made = Trial(row.name, lambda program: runs.faults_of(program, row), slow, once=row.slow is not None)
    made.row = row
    return made


def trial_of_case(name, case):
    """Cases of what is kept, and of a broker that cleans itself, take minutes: they are run with the first program alone."""

    def faults_of(program):
        case(program)
        return []

    return Trial(CASES + name, faults_of, getattr(case, "slow", None), (name, case) in LONG)


def all_trials():
    """All that tests/program runs."""
    return [
        *(trial_of_case(name, case) for name, case in start_cases.CASES),
        Trial("ten million batches", runs.faults_of_millions, "the greatest counts", once=True),
        Trial("a session whose client waits for each reply", runs.faults_of_waiting),
        *(trial_of_row(it) for it in rows.all_rows()),
        *(Trial(name, faults_of, once=once) for name, faults_of, once in documents.COMPARED),
        Trial("bytes in sources that Python made", lambda _: source_bytes.faults(), once=True),
        Trial("kinds of requests that sources match on", lambda _: kinds.faults(), once=True),
    ]


def open_stdin():
    """Has descriptor 0 open, so that no pipe of a row takes its number."""
    try:
        os.fstat(0)
    except OSError:
        os.open(os.devnull, os.O_RDONLY)


def named(trials, names):
    """The trials that have one of these in their names, all where none is given. Each must be in some."""
    for name in names:
        if not any(name in it.name for it in trials):
            sys.exit(f"{name!r} is part of no name of a row or a case")
    return [it for it in trials if not names or any(name in it.name for name in names)]


def processors():
    return len(os.sched_getaffinity(0))


def pool(processes):
    return concurrent.futures.ProcessPoolExecutor(processes, multiprocessing.get_context("fork"))


def outcome_at(at):
    return Outcome(*TRIED[at])


def stands_company(trial):
    """Whether it may be run beside others: a row, or a case that tests/quick runs so."""
    return trial.row is not None or (trial.name.startswith(CASES) and not trial.slow)


def outcomes_of(tried):
    """The outcomes of trials, each with a program. As many as there are processors are run side by side, of those that stand it; then the
    others, one after the other. Cases go by the clock, so one that fails beside others, or takes too long, is run again, and that counts."""
    TRIED[:] = [it for it in tried if stands_company(it[0])]
    rows.prepare([trial.row for trial, _ in TRIED if trial.row])
    alone = [it for it in tried if not stands_company(it[0])]
    with pool(processors()) as programs:
        for (trial, program), outcome in zip(TRIED, programs.map(outcome_at, range(len(TRIED)))):
            if outcome.is_late or (outcome.faults and not trial.row):
                print("to be run again, " + outcome.told(), flush=True)
                alone.append((trial, program))
            else:
                yield outcome
    for trial, program in alone:
        outcome = Outcome(trial, program)
        if outcome.is_late:
            print("to be run again, " + outcome.told(), flush=True)
            outcome = Outcome(trial, program)
        yield outcome


def run_all(outcomes, tells_all):
    """Prints what failed, or with `tells_all` what came of each, and every few minutes how far it is; and returns how many passed, how
    many failed, and for each reason how many were left out."""
    passed, failed, untried = 0, 0, {}
    began = said = time.monotonic()
    for it in outcomes:
        if it.faults or tells_all:
            print(it.told(), flush=True)
        if it.untried:
            untried[it.untried] = untried.get(it.untried, 0) + 1
        else:
            passed, failed = passed + (not it.faults), failed + bool(it.faults)
        if time.monotonic() > said + EACH_SECONDS:
            said = time.monotonic()
            print(f"after {said - began:.0f} s: {passed} passed, {failed} failed; the last was {it.name}", flush=True)
    return passed, failed, untried
