"""When which partition is cleaned, and with what bounds: the rules of crates/cleaning_policy/specs as plain Python.

It shares nothing with the program. Times are whole numbers of one clock, and sizes are bytes.
"""
import collections

MOST_SAMPLES = 12

# the four options of the command line, the least number of dirty bytes, and how long a partition waits whose pass was given up
Settings = collections.namedtuple("Settings", "percent lag within keep least retry", defaults=(65_536, 60_000))
# where a partition ended at a time, and how many bytes had come by then
Sample = collections.namedtuple("Sample", "time end came")
# a pass that is over: up to where it cleaned, and when it was over
Mark = collections.namedtuple("Mark", "upto ended")
# what is kept of a partition's passes over a restart; a mark may be none
Marks = collections.namedtuple("Marks", "older newest used reached began size")
Frame = collections.namedtuple("Frame", "partition upto tomb_before")
# a frame that is under way, and how many bytes of its partition had come at the sample that it goes by
Pass = collections.namedtuple("Pass", "frame came")


class Partition:
    """What is known of a partition; its samples stand oldest first."""

    def __init__(self, now):
        self.samples, self.start, self.bytes, self.came, self.covered, self.since = [], 0, 0, 0, 0, now
        self.marks = Marks(None, None, 0, 0, now, 0)

    def tell(self, lag, now, start, end, size):
        self.came += abs(size - self.bytes)
        self.start, self.bytes = start, size
        self.note(lag, Sample(now, end, self.came))
        old = [at for at, it in enumerate(self.samples) if it.time + lag <= now]
        self.samples = self.samples[old[-1] if old else 0 :]

    def note(self, lag, sample):
        """One more sample, unless it says what the newest says; in place of that one where there are enough."""
        samples = self.samples
        if samples and samples[-1][1:] == sample[1:]:
            return
        is_crowded = len(samples) >= 2 and (samples[-1].time - samples[-2].time < lag // 8 or len(samples) >= MOST_SAMPLES)
        self.samples = [*(samples[:-1] if is_crowded else samples), sample]

    def old_sample(self, lag, now):
        """The newest one that is so old."""
        return next((it for it in reversed(self.samples) if it.time + lag <= now), None)

    def bound(self, keep, now):
        """The offset below which deletions may go: up to where the pass of the newest ripe mark cleaned."""
        marks = (self.marks.newest, self.marks.older)
        return next((it.upto for it in marks if it and it.ended + keep <= now), 0)

    def is_due(self, settings, now, sample):
        if sample.end <= self.start or now < self.since:
            return False
        dirty = max(0, sample.came - self.covered)
        old = max(0, self.bytes - max(0, self.came - sample.came))
        is_dirty = dirty >= settings.least and old // 100 <= dirty // max(1, settings.percent)
        is_late = self.marks.began + settings.within <= now and (dirty > 0 or self.marks.reached < sample.end)
        return is_dirty or is_late or self.marks.used < self.bound(settings.keep, now)

    def due_pass(self, settings, now, index):
        sample = self.old_sample(settings.lag, now)
        if sample is None or not self.is_due(settings, now, sample):
            return None
        return Pass(Frame(index, sample.end, self.bound(settings.keep, now)), sample.came)

    def with_mark(self, keep, now, upto):
        """The marks behind a pass: it leaves one where no other is ripening, and it cleaned further than the newest one's."""
        newest = self.marks.newest
        if newest is None or newest.ended + keep <= now and newest.upto < upto:
            return self.marks._replace(older=newest, newest=Mark(upto, now))
        return self.marks

    def end(self, keep, now, over, size):
        """A pass of it is over, and left so many bytes in all."""
        marks = self.with_mark(keep, now, over.frame.upto)
        left = max(0, size - max(0, self.came - over.came))
        self.bytes, self.covered = size, over.came
        self.marks = marks._replace(used=over.frame.tomb_before, reached=over.frame.upto, size=left)

    def put_back(self, now, marks):
        """What was kept over a restart; what lies in the future counts from now."""
        older, newest = (it and Mark(it.upto, min(it.ended, now)) for it in (marks.older, marks.newest))
        self.covered = marks.size
        self.marks = marks._replace(older=older, newest=newest, began=min(marks.began, now))

    def moments(self, settings):
        """When it may become due."""
        yield self.since
        yield self.marks.began + settings.within
        yield from (it.ended + settings.keep for it in (self.marks.newest, self.marks.older) if it)
        yield from (it.time + settings.lag for it in self.samples)


class Policy:
    """It is told times, what each partition has and what became of its frames, and gives the next frame, or none."""

    def __init__(self, settings):
        self.settings, self.parts, self.under_way, self.turn = settings, [], None, 0

    def add(self, now):
        self.parts.append(Partition(now))

    def tell(self, now, index, start, end, size):
        self.parts[index].tell(self.settings.lag, now, start, end, size)

    def marks(self, index):
        return self.parts[index].marks

    def put_back(self, now, index, marks):
        self.parts[index].put_back(now, marks)

    def due(self, now):
        """The passes of all partitions that are due, from the one on whose turn it is."""
        count = len(self.parts)
        order = (at % count for at in range(self.turn, self.turn + count)) if count else ()
        found = (self.parts[at].due_pass(self.settings, now, at) for at in order)
        return (it for it in found if it)

    def next(self, now):
        if self.under_way:
            return None
        self.under_way = next(self.due(now), None)
        if self.under_way is None:
            return None
        frame = self.under_way.frame
        part = self.parts[frame.partition]
        self.turn, part.marks = frame.partition + 1, part.marks._replace(began=now)
        return frame

    def cleaned(self, now, size):
        over, self.under_way = self.under_way, None
        if over:
            self.parts[over.frame.partition].end(self.settings.keep, now, over, size)

    def given_up(self, now):
        over, self.under_way = self.under_way, None
        if over:
            self.parts[over.frame.partition].since = now + self.settings.retry

    def due_at(self, now):
        """The time before which nothing is due that isn't now; none where nothing ever is."""
        return min((at for part in self.parts for at in part.moments(self.settings) if at > now), default=None)
