"""Random histories of a broker that cleans itself by the policy of tests/models/cleaning_policy.py: appends of several records, frames
that are done or lost, restarts with the marks that were kept, power cuts, clocks that leap, foreign cleanings, trims.

Of each history: the law on frames holds. Whoever was shown a record of a key finds, for so long as deletions are kept, the last record
of that key behind it. Nothing is due before its time; no partition that is due is passed over twice for the same one; and once
nothing comes any more, a few passes take all deletions, and then the broker rests.

A leader's logs are what its journal leads to. Times are those of a clock that nobody sets; the policy is told those of one that leaps at
restarts, back alone, or in some histories forward too: of these the readers' sentence isn't asked.
"""
import collections
import random

from models.cleaning_policy import Mark, Policy, Settings

Record = collections.namedtuple("Record", "offset key is_deletion")
Batch = collections.namedtuple("Batch", "base last records")
# what stands in the journal: a number that no other has, when it was done, what it does to which log
Entry = collections.namedtuple("Entry", "number time act index arguments")
# what is kept of passes: how long the journal was, and the number of its last entry; the marks of each partition
Kept = collections.namedtuple("Kept", "size last marks")

KEYS = 3
# rules that are wrong, each of which breaks something, and what
WRONG = {
    "by arrival": "a deletion goes once it came so long ago",
    "within a batch": "partitions are told to end within a batch",
    "not over": "a pass leaves its mark as it begins",
    "too young": "a pass goes up to the end that was told last, however young",
    "without the journal": "marks are put back whatever became of the journal",
    "by size": "marks are believed where the journal is so long, and stay where it isn't",
}


class Broken(Exception):
    """What a history shows that must not be."""


class Log:
    """A leader's partition; of what went of it, when."""

    def __init__(self):
        self.batches, self.start, self.end = [], 0, 0
        self.came, self.gone = {}, {}  # when each offset came; when each record went
        self.offsets = collections.defaultdict(list)  # of each key

    def append(self, time, records):
        base = self.end
        made = [Record(base + delta, *it) for delta, it in enumerate(records)]
        for it in made:
            self.offsets[it.key].append(it.offset)
            self.came[it.offset] = time
        self.end += len(made)
        self.batches.append(Batch(base, self.end - 1, made))
        return []

    def held(self):
        return [it for batch in self.batches for it in batch.records]

    def clean(self, time, upto, tomb_before, arrival=None):
        """What goes, by the definition of a cleaning. Of batches that lie below `upto`: a record that a later one of them has the key
        of, and a deletion below `tomb_before`, or that came so long ago."""
        below = [it for batch in self.batches if batch.last < upto for it in batch.records]
        last = {it.key: it.offset for it in below}

        def goes(it):
            is_old = it.offset < tomb_before if arrival is None else self.came[it.offset] + arrival <= time
            return last[it.key] > it.offset or it.is_deletion and is_old

        return self.drop(time, {it.offset for it in below if goes(it)})

    def trim(self, time, start):
        self.start = max(self.start, start)
        return self.drop(time, {it.offset for it in self.held() if it.offset < self.start})

    def drop(self, time, offsets):
        gone = [it for it in self.held() if it.offset in offsets]
        self.gone.update((it.offset, time) for it in gone)
        left = [it._replace(records=[each for each in it.records if each.offset not in offsets]) for it in self.batches]
        self.batches = [it for it in left if it.records]
        return gone

    def size(self):
        return sum(10 + 5 * len(it.records) for it in self.batches)


class History:
    """A broker and its policy, from a start on."""

    def __init__(self, drawn, rule=None):
        self.drawn, self.rule = drawn, rule
        lag = drawn.choice([0, 0, 3, 10, 40])
        percent, within, keep = drawn.choice([1, 20, 50, 99]), lag + drawn.choice([1, 20, 200]), drawn.choice([0, 1, 5, 30, 100])
        self.settings = Settings(percent, lag, within, keep, drawn.choice([1, 20, 64]), 60)
        self.least_keep, self.leaps_forward = keep, drawn.random() < 0.1
        self.count, self.now, self.shift = drawn.choice([1, 1, 2, 5]), drawn.randrange(3000, 4000), 0
        self.journal, self.numbers, self.synced, self.files = [], 0, 0, []
        self.passes, self.pending, self.is_done = 0, None, False
        self.began([None] * self.count)

    def began(self, marks):
        """A run begins with what the journal leads to, and with the marks that are put back."""
        self.logs = [Log() for _ in range(self.count)]
        for it in self.journal:
            getattr(self.logs[it.index], it.act)(it.time, *it.arguments)
        self.policy, self.waited = Policy(self.settings), {}
        self.told, self.over = [[] for _ in self.logs], [[] for _ in self.logs]
        for index, it in enumerate(marks):
            self.policy.add(self.clock())
            if it:
                self.policy.put_back(self.clock(), index, it)
                self.over[index] = [Mark(each.upto, min(each.ended, self.clock())) for each in (it.older, it.newest) if each]

    def clock(self):
        """What the policy is told of the time."""
        return self.now + self.shift

    # -- what happens to logs

    def do(self, act, index, *arguments):
        """A log changes, and the journal has it."""
        self.numbers += 1
        self.journal.append(Entry(self.numbers, self.now, act, index, arguments))
        return getattr(self.logs[index], act)(self.now, *arguments)

    def clean(self, frame):
        """The effect of the policy's own frame. It may take the last record of a key, a deletion, only where nobody was shown one of
        that key for so long."""
        log, arrival = self.logs[frame.partition], [self.settings.keep] if self.rule == "by arrival" else []
        last = {it.key: it.offset for it in log.held()}
        for it in self.do("clean", frame.partition, frame.upto, frame.tomb_before, *arrival):
            if last[it.key] != it.offset or self.leaps_forward:
                continue
            for before in log.offsets[it.key]:
                shown = log.gone[before] if before < it.offset else float("-inf")
                if shown + self.least_keep > self.now:
                    raise Broken(f"a reader: key {it.key} at {before} was shown until {shown}, its deletion {it.offset} went at {self.now}")

    def append(self):
        for _ in range(self.drawn.choice([1, 1, 3])):
            records = [(self.drawn.randrange(KEYS), self.drawn.random() < 0.4) for _ in range(self.drawn.choice([1, 1, 2, 3]))]
            self.do("append", self.drawn.randrange(self.count), records)

    def foreign(self):
        """A Clean, or a Trim, that somebody sends."""
        index = self.drawn.randrange(self.count)
        end = self.logs[index].end
        if self.drawn.random() < 0.7:
            self.do("clean", index, self.drawn.randrange(end + 1), self.drawn.randrange(end + 1))
        else:
            self.do("trim", index, self.drawn.choice([it.base for it in self.logs[index].batches] or [end]))

    # -- what is said to the policy, and what it gives

    def tell(self, index):
        log, end = self.logs[index], self.logs[index].end
        if self.rule == "within a batch" and end and self.drawn.random() < 0.5:
            end -= 1
        self.policy.tell(self.clock(), index, log.start, end, log.size())
        self.told[index].append((self.clock(), end))

    def ask(self):
        """The policy is told of most partitions, and asked for a frame where none is under way."""
        for index in range(self.count):
            if self.drawn.random() < 0.8:
                self.tell(index)
        if self.pending:
            return
        self.nothing_is_due_before()
        self.pending, self.is_done = self.next(), False
        if self.pending and self.drawn.random() < 0.5:
            self.clean(self.pending)
            self.is_done = True

    def next(self):
        """The next frame, which must keep the law and the order of turns."""
        due = {it.frame.partition for it in self.policy.due(self.clock())}
        frame = self.policy.next(self.clock())
        if frame is None:
            return None
        if self.rule == "too young":
            frame = frame._replace(upto=self.logs[frame.partition].end)
        if self.rule == "not over":
            self.leave_mark(frame)
        self.passes += 1
        self.keeps_the_law(frame)
        self.waited = {index: passed for index, passed in self.waited.items() if index in due and index != frame.partition}
        for index in due - {frame.partition}:
            passed = self.waited.setdefault(index, set())
            if frame.partition in passed:
                raise Broken(f"a turn: partition {frame.partition} comes twice while {index} is due")
            passed.add(frame.partition)
        return frame

    def leave_mark(self, frame):
        part = self.policy.parts[frame.partition]
        part.marks = part.with_mark(self.settings.keep, self.clock(), frame.upto)

    def keeps_the_law(self, frame):
        """Its upto was told as an end the lag ago; its tomb_before is none, or the upto of a pass that was over so long ago."""
        lag, keep = self.settings.lag, self.settings.keep
        if not any(end == frame.upto and time + lag <= self.clock() for time, end in self.told[frame.partition]):
            raise Broken(f"the law: {frame} at {self.clock()}, of an end that wasn't told the lag ago")
        over = self.over[frame.partition]
        if frame.tomb_before and not any(it.upto == frame.tomb_before and it.ended + keep <= self.clock() for it in over):
            raise Broken(f"the law: {frame} at {self.clock()}, with tomb_before of no pass that was over so long ago")

    def nothing_is_due_before(self):
        """Where nothing is due now, nothing is before the time that is given for it, or ever."""
        now, at = self.clock(), self.policy.due_at(self.clock())
        if next(self.policy.due(now), None) or at is not None and at <= now + 1:
            return
        sooner = now + 10**9 if at is None else self.drawn.randrange(now, at)
        if next(self.policy.due(sooner), None):
            raise Broken(f"a wait: something is due at {sooner}, and {at} was given at {now}")

    def go_on(self):
        """The frame under way is done, and answered; or given up, where it isn't done."""
        if not self.pending:
            return
        if not self.is_done and self.drawn.random() < 0.15:
            self.policy.given_up(self.clock())
            self.pending = None
            return
        self.finish()

    def finish(self):
        frame, self.pending = self.pending, None
        if not self.is_done:
            self.clean(frame)
        self.policy.cleaned(self.clock(), self.logs[frame.partition].size())
        self.over[frame.partition].append(Mark(frame.upto, self.clock()))

    # -- the disk

    def sync(self):
        self.synced = len(self.journal)

    def save(self):
        marks = [self.policy.marks(index) for index in range(self.count)]
        self.files.append(Kept(len(self.journal), self.journal[-1].number if self.journal else 0, marks))

    def believed(self, file):
        """Whether the marks of a file are of this journal."""
        if self.rule == "without the journal":
            return True
        if file.size > len(self.journal):
            return False
        return self.rule == "by size" or file.last == (self.journal[file.size - 1].number if file.size else 0)

    def kill(self):
        """It ends, and starts again with all that was written; a frame that is under way is done at the start, or lost."""
        if self.pending and not self.is_done and self.drawn.random() < 0.5:
            self.clean(self.pending)
        self.start(self.files[-1] if self.files else None)

    def cut(self):
        """The power is cut: the journal's end that wasn't synced is lost, and of the marks an older file is there, or none."""
        size = self.drawn.randrange(self.synced, len(self.journal) + 1)
        del self.journal[size:]
        self.start(self.drawn.choice([None, *self.files[-1:], *self.files]))

    def start(self, file):
        """A start with a file of marks, or with none, a while later, by a clock that may have leapt."""
        self.pending = None
        self.now += self.drawn.randrange(30)
        if self.drawn.random() < 0.4:
            self.shift += self.drawn.randrange(-80, 80 if self.leaps_forward else 0)
        keep = self.drawn.choice([self.settings.keep] * 2 + [self.settings.keep + 20, max(0, self.settings.keep - 3)])
        self.settings, self.least_keep = self.settings._replace(keep=keep), min(self.least_keep, keep)
        believed = file is not None and self.believed(file)
        self.began(file.marks if believed else [None] * self.count)
        if believed or self.rule != "by size":
            self.files = [file] if believed else []
        self.synced = len(self.journal)

    # -- all of it

    ACTS = [append] * 40 + [ask] * 32 + [go_on] * 14 + [foreign] * 2 + [save] * 4 + [sync] * 2 + [kill] * 2 + [cut] * 2

    def run(self):
        """Raises what is broken, and returns how many passes there were."""
        for _ in range(self.drawn.choice([40, 120])):
            self.now += self.drawn.choice([0, 0, 1, 1, 2, 5, self.drawn.randrange(60)])
            self.drawn.choice(self.ACTS)(self)
        self.comes_to_rest()
        return self.passes

    def comes_to_rest(self):
        """Nothing comes any more: behind some passes and waits nothing is ever due, and no deletion is left."""
        if self.pending:
            self.finish()
        for _ in range(60 * self.count + 50):
            for index in range(self.count):
                self.tell(index)
            self.pending, self.is_done = self.next(), False
            if self.pending:
                self.finish()
            elif (at := self.policy.due_at(self.clock())) is not None:
                self.now = at - self.shift
            else:
                break
        else:
            raise Broken("no rest: it goes on and on")
        if any(it.is_deletion for log in self.logs for it in log.held()):
            raise Broken("no rest: deletions are left")


def tried(seed, number, rule=None):
    """A history: how many passes it had, and what it shows that must not be, or none."""
    history = History(random.Random(f"{seed} {number}"), rule)
    try:
        return history.run(), None
    except Broken as why:
        return history.passes, str(why)


def run(histories, seed, rule=None):
    """So many histories: how many passes, and of each kind of break how many, with the number of the first one and what it shows."""
    passes, broken = 0, {}
    for number in range(histories):
        count, why = tried(seed, number, rule)
        passes += count
        if why:
            kind = why.partition(":")[0]
            first = broken.get(kind, (0, number, why))
            broken[kind] = (first[0] + 1, *first[1:])
    return passes, broken
