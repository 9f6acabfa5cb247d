"""A model of what was slow or missing in a log: the slow times of a tag, the times in which samples are missing, and the incidents that tags
have together. Integers decide everything."""
import dataclasses
import math
from collections import Counter
from fractions import Fraction
from itertools import pairwise

from cells import above, cells_of, tail_value, usual_of

# The tails that are tested: the share of samples above a percentile
TAILS = {"p50": (1, 2), "p90": (1, 10), "p99": (1, 100), "p99.9": (1, 1000)}
# How many times its usual value a percentile has to be, by the most cells with slow samples
ENOUGH = ((1, Fraction(4)), (3, Fraction(3)), (7, Fraction(2)), (math.inf, Fraction(3, 2)))
# What is below so many times a value is of the same state
SAME_STATE = 4

# Runs


@dataclasses.dataclass
class Search:
    """A search for runs of cells: as much evidence as the bar opens one, and as much to the contrary closes it."""

    bar: int
    runs: list = dataclasses.field(default_factory=list)
    cells: int = 0
    start: int = 0
    end: int = None
    evidence: int = 0

    def is_open(self):
        return self.end is not None

    def see(self, opening, closing):
        """Takes the scores of the next cell."""
        if self.is_open():
            self.see_within(closing)
        else:
            self.start = self.start if self.evidence else self.cells
            self.evidence = max(0, self.evidence + opening)
            if self.evidence >= self.bar:
                self.end, self.evidence = self.cells + 1, 0
        self.cells += 1

    def see_within(self, score):
        self.evidence = max(0, self.evidence - score)
        if score > 0 and not self.evidence:
            self.end = self.cells + 1
        if self.evidence >= self.bar:
            self.runs.append(range(self.start, self.end))
            self.end, self.evidence = None, 0

    def found(self):
        return [*self.runs, range(self.start, self.end)] if self.is_open() else self.runs


def bar_of(cells):
    """How many samples open a run, if there are so many cells of all tags."""
    return 6 + (4 * cells).bit_length() // 2


# Slow times


@dataclasses.dataclass
class Test:
    """A tail, its usual value if it is known, and the value above which samples are slow."""

    name: str
    num: int
    den: int
    usual: int
    threshold: int
    is_level: bool = False


@dataclasses.dataclass
class Rise:
    name: str
    usual: int
    value: int


@dataclasses.dataclass
class SlowTime:
    run: range
    rises: list
    excess: int


def tests_of(cells):
    """The tests of the tails with samples enough."""
    for name, (num, den) in TAILS.items():
        found = usual_of(cells, num, den)
        if found:
            usual, half = found
            yield Test(name, num, den, usual, max(3 * usual // 2, half, usual + 1))


def level_test(cells, level):
    """The test of a level: a tail and the greatest value that it allows."""
    num, den, value = level
    usual = usual_of(cells, num, den)
    return Test("level", num, den, usual[0] if usual else None, value, True)


def value_in(cells, test, indices):
    """The value of a test's tail in some cells."""
    counts = Counter()
    for at in indices:
        counts.update(cells[at].counts)
    return tail_value(counts, test.num, test.den)


def is_enough(high, usual, value):
    """Whether a value is as many times its usual one as so many cells with slow samples need."""
    return value >= usual * next(times for most, times in ENOUGH if high <= most)


def is_same(cells, test, value, run, earlier):
    """Whether an earlier time touches a run with this value and is of the same state."""
    touches = earlier.run.start <= run.stop and run.start <= earlier.run.stop
    return touches and value_in(cells, test, earlier.run) < SAME_STATE * value


def joined(slow, earlier):
    names = {it.name for it in earlier.rises}
    run = range(min(slow.run.start, earlier.run.start), max(slow.run.stop, earlier.run.stop))
    return SlowTime(run, earlier.rises + [it for it in slow.rises if it.name not in names], slow.excess + earlier.excess)


def with_slow(cells, test, found, slow):
    """The times that were found, and one more, which those of the same state join."""
    value, others, run = slow.rises[0].value, [], slow.run
    for earlier in found:
        if is_same(cells, test, value, run, earlier):
            slow = joined(slow, earlier)
        else:
            others.append(earlier)
    return [*others, slow]


def with_value(cells, test, found, slow):
    """A time with the value of a test's tail there, outside of shorter times that were found."""
    shorter = {at for other in found if len(other.run) < len(slow.run) for at in other.run}
    own = [at for at in slow.run if at not in shorter]
    if not own or any(it.name == test.name for it in slow.rises):
        return slow
    return dataclasses.replace(slow, rises=[*slow.rises, Rise(test.name, test.usual, value_in(cells, test, own))])


def after_test(cells, bar, found, test):
    """The times that are found after one more test. Cells of the earlier ones are explained."""
    explained, search = {at for it in found for at in it.run}, Search(bar * (test.den - test.num))
    scores = [0 if at in explained else test.den * above(cell.counts, test.threshold) - test.num * cell.samples for at, cell in enumerate(cells)]
    for score in scores:
        search.see(score, score)
    for run in search.found():
        value = value_in(cells, test, [at for at in run if at not in explained])
        if test.is_level or is_enough(sum(scores[at] > 0 for at in run), test.usual, value):
            rise = Rise(test.name, test.usual, value)
            found = with_slow(cells, test, found, SlowTime(run, [rise], sum(scores[at] for at in run) // test.den))
    return [with_value(cells, test, found, it) for it in found]


def slow_times(cells, bar, tests):
    found = []
    for test in tests:
        found = after_test(cells, bar, found, test)
    return found


# Missing samples


@dataclasses.dataclass
class Rate:
    samples: int
    time: int

    def exact(self):
        return Fraction(self.samples, self.time)

    def expected(self, share, time):
        """How many samples a share of the rate gives in a time."""
        return math.floor(self.exact() * share * time)


@dataclasses.dataclass
class MissingTime:
    """Cells with too few samples. The run in which they were found begins at `origin`."""

    is_gap: bool
    run: range
    origin: int
    rate: Rate
    usual: Rate


def together(rates):
    return Rate(sum(it.samples for it in rates), sum(it.time for it in rates))


def usual_rate(past):
    """The rate of the last 16 cells, or of as many as have 100 samples, or of the third slowest of their eight parts, if that is less."""
    if len(past) < 8:
        return None
    window = next((size for size in range(16, 64) if together(past[-size:]).samples >= 100), 64)
    cells = past[-window:]
    size = len(cells) // 8
    parts = sorted((together(cells[at : at + size]) for at in range(len(cells) - 8 * size, len(cells), size)), key=Rate.exact)
    usual = min(together(cells), parts[2], key=Rate.exact)
    return usual if usual.samples else None


def usual_swing(cells):
    """The median change of the number of samples from a cell to the next one, if that were as long."""
    swings = sorted(abs(cell.samples * after.time - after.samples * cell.time) // cell.time for cell, after in pairwise(cells))
    return swings[len(swings) // 2] if swings else 0


def missing_in(cells, run, usual):
    """What is missing in a run, by the usual rate before each cell: a gap, a low rate, or None."""
    empty = [at for at in run if not cells[at].samples]
    whole, without = (sum(cells[at].time for at in part) for part in (run, empty))
    is_gap = 2 * without > whole or len(run) < 3 and without > 0
    own = range(empty[0], empty[-1] + 1) if is_gap else run
    rate, expected = together([Rate(cells[at].samples, cells[at].time) for at in own]), usual[own.start]
    if expected is None:
        return None
    times = 5 if len(own) < 8 else 2
    if is_gap or len(own) >= 3 and times * rate.exact() <= expected.exact():
        return MissingTime(is_gap, own, run.start, rate, expected)
    return None


def missing_times(cells, bar):
    """Runs that open below half of the usual rate, and close at three quarters of it."""
    search, past, usual = Search(bar + 3 * usual_swing(cells)), [], []
    for cell in cells:
        rate = usual_rate(past)
        half, most = (rate.expected(share, cell.time) - cell.samples if rate else 0 for share in (Fraction(1, 2), Fraction(3, 4)))
        search.see(half, most)
        usual.append(rate)
        if not search.is_open() and half <= 0:
            past.append(Rate(cell.samples, cell.time))
    return [it for run in search.found() if (it := missing_in(cells, run, usual))]


# Episodes


@dataclasses.dataclass
class Episode:
    """What happened to a tag, by its index. `rates` are the rate and the usual one, if samples are missing."""

    tag: int
    kind: str
    start: int
    end: int
    run: range
    rises: list
    rates: tuple
    weight: int
    lasts: bool

    def is_slow(self):
        return self.kind in ("slow", "stall")


def overlap(one, other):
    return min(one[1], other[1]) - max(one[0], other[0])


@dataclasses.dataclass
class TagTimes:
    """The cells of a tag, and when the log ends."""

    tag: int
    cells: list
    log_end: int

    def bounds(self, run):
        return self.cells[run.start].start, self.cells[run.stop - 1].last

    def lasts(self, run, end):
        """Whether a run is not over at the end of the log."""
        last = self.cells[run.stop - 1]
        return run.stop == len(self.cells) and self.log_end - (last.end - last.start) <= end

    def is_during(self, run, missing):
        """Whether half of a time with too few samples is in a run."""
        start, end = self.bounds(missing.run)
        return 2 * overlap(self.bounds(run), (start, end)) >= end - start

    def slow(self, time, missing):
        """The episode of a slow time: a stall if it begins in or right after a gap."""
        start, end = self.bounds(time.run)
        gap = next((it for it in missing if begins_in(time.run, it)), None)
        falls = [it for it in missing if not begins_in(time.run, it) and self.is_during(time.run, it)]
        start = min(start, self.cells[gap.origin].start) if gap else start
        weight = max(time.excess, 1) * max(1, *(magnitude(it) for it in time.rises))
        rates = (falls[-1].rate, falls[-1].usual) if falls else None
        return Episode(self.tag, "stall" if gap else "slow", start, end, time.run, time.rises, rates, weight, self.lasts(time.run, end))

    def missing(self, time):
        start, end = self.bounds(time.run)
        weight = max(1, time.usual.expected(1, end - start) - time.rate.samples)
        kind = "gap" if time.is_gap else "fall"
        return Episode(self.tag, kind, start, end, time.run, [], (time.rate, time.usual), weight, self.lasts(time.run, end))

    def episodes(self, slow, missing):
        """The slow times, and the times with too few samples that are no part of one."""
        found = []
        for time in slow:
            found.append(self.slow(time, missing))
            missing = [it for it in missing if not begins_in(time.run, it) and not self.is_during(time.run, it)]
        return found + [self.missing(it) for it in missing]


def begins_in(run, missing):
    return missing.is_gap and missing.run.start <= run.start <= missing.run.stop


def magnitude(rise):
    """How far a value is above its usual one: 1 up to 2 times, 2 up to 4 times, and so on."""
    return max(0, (16 * (rise.value + 1) // ((rise.usual or 0) + 1)).bit_length() - 4)


# Incidents


@dataclasses.dataclass
class Incident:
    """Episodes of several tags at one time, the heaviest first."""

    episodes: list

    @property
    def heaviest(self):
        return self.episodes[0]

    def weight(self):
        return sum(it.weight for it in self.episodes)

    def tags(self):
        return [it.tag for it in self.episodes]

    def has_stall(self):
        return any(it.kind == "stall" for it in self.episodes)

    def lasts(self):
        return any(it.lasts for it in self.episodes)

    def accepts(self, one):
        """Whether an episode of another tag is of the same sort and overlaps the heaviest one by half of their union or more."""
        first = self.heaviest
        union = max(first.end, one.end) - min(first.start, one.start)
        is_alike = 2 * overlap((first.start, first.end), (one.start, one.end)) >= union
        return first.is_slow() == one.is_slow() and is_alike and one.tag not in self.tags()


def incidents_of(episodes):
    """The incidents, the heaviest first."""
    found = []
    for one in sorted(episodes, key=lambda it: (-it.weight, it.start, it.tag)):
        for incident in found:
            if incident.accepts(one):
                incident.episodes.append(one)
                break
        else:
            found.append(Incident([one]))
    return sorted(found, key=lambda it: (-it.weight(), it.heaviest.start, it.heaviest.tag))


@dataclasses.dataclass
class TagVerdict:
    cells: int
    tested: set
    over: list


@dataclasses.dataclass
class Verdict:
    bar: int
    tags: list
    incidents: list


def verdict_of(tags, level=None):
    """The verdict on the intervals of tags, those with the most samples first. A level is a tail and the greatest value that it allows."""
    log_end = max(it.end for intervals in tags for it in intervals)
    cells = [cells_of(intervals, log_end) for intervals in tags]
    bar, found, episodes = bar_of(sum(map(len, cells))), [], []
    for at, own in enumerate(cells):
        times, tests = TagTimes(at, own, log_end), list(tests_of(own))
        over = slow_times(own, bar, [level_test(own, level)]) if level else []
        episodes += times.episodes(slow_times(own, bar, tests), missing_times(own, bar))
        found.append(TagVerdict(len(own), {it.name for it in tests}, [times.bounds(it.run) for it in over]))
    return Verdict(bar, found, incidents_of(episodes))
