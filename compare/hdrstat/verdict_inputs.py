"""Random logs of which something was slow or missing, with what the model of hdrstat page --text prints of them."""
import base64
import re
from collections import Counter
from fractions import Fraction

from cells import Interval
from levels import UNITS, Level, LogTally
from log_inputs import case_of
from logs import add, closed, encode, is_finer, read_first
from model import LIMIT, Samples, class_of
from verdict import verdict_of
from verdict_text import Clock, Page, TagFigures

SIGFIG = 3
UNIT_NAMES = ("ns", "us", "ms", "s")
# 25 November 2026
BASE = 1_795_593_600_000


# The page of a log


def width_of(histograms):
    """The digits and the lowest value of classes that have those of all histograms in them."""
    return min((it.sigfig for it in histograms), default=5), max((it.low for it in histograms), default=1)


def interval_of(it, samples, sigfig, low):
    start, counts = it.key()[0], Counter()
    for lowest, count in samples.counts.items():
        counts[class_of(lowest, sigfig, low)[1]] += count
    return Interval(start, min(start + it.length(), LIMIT - 1), counts)


def figures_of(name, histograms, level):
    """The figures of a tag, whose histograms are merged at three digits."""
    total = Samples(SIGFIG)
    for it in histograms:
        add(total, it)
    closed(total)
    figures = TagFigures(name, total.len(), total.greatest or 0)
    if level:
        num, den, _ = level
        sigfig, low = width_of([*histograms, Samples(SIGFIG)])
        figures.at_level = total.at(den - num, den)
        figures.lowest_at_level, figures.highest_at_level = class_of(figures.at_level, sigfig, low)
    return figures


def page_of(logs, unit=None, level=None, amount=None):
    """The page of logs, by their names; a level is a tail and the greatest value that it allows, and may have an amount as it is written."""
    tags, coarser, read = {}, 0, read_first(logs, {}, {})
    for name, it in read:
        samples = it.samples(name)
        coarser += not is_finer(samples, Samples(SIGFIG))
        tags.setdefault((it.tag or b"").decode(), []).append((it, samples))
    figures = [figures_of(name, [samples for _, samples in found], level) for name, found in tags.items()]
    figures.sort(key=lambda it: (-it.samples, it.name))
    intervals = []
    for tag in figures:
        width = width_of([samples for _, samples in tags[tag.name]])
        intervals.append([interval_of(it, samples, *width) for it, samples in tags[tag.name]])
    first, last = min(it.start for own in intervals for it in own), max(it.end for own in intervals for it in own)
    lengths = sorted(it.end - it.start for own in intervals for it in own)
    clock = Clock(min(first, last), last, (lengths[len(lengths) // 2] or 1000) < 1000)
    unit = None if unit is None else UNIT_NAMES.index(unit)
    is_instant = len({it.start for own in intervals for it in own}) == 1
    return Page(figures, verdict_of(intervals, level), clock, unit, level, amount, coarser, len(read), is_instant)


class Begins:
    """The first lines of an output, up to an empty one."""

    def __init__(self, text):
        self.text = text

    def __eq__(self, other):
        return self.text == other.partition(b"\n\n")[0].rstrip(b"\n") + b"\n"

    def __repr__(self):
        return repr(self.text)


# Random logs


class Effect:
    """What happens to some tags for a while: their values and rates are multiplied, or nothing comes and then all at once."""

    def __init__(self, random, tags, span):
        self.tags = set(random.sample(tags, random.randint(1, len(tags))))
        self.start = random.uniform(0, span)
        length = random.choice([300, 1000, 2000, 10_000, span // 40, span // 15, span // 4, span])
        self.end = min(self.start + length, span * 1.01)
        kind = random.choice(["slow", "slow", "slow", "tail", "stall", "stall", "stall", "gap", "gap", "fall", "fall", "closed", "growth", "better"])
        self.is_stall, self.is_growth = kind == "stall", kind == "growth"
        self.share = random.choice([0.003, 0.03, 0.1, 0.3]) if kind == "tail" else 1
        self.times = {"slow": random.choice([1.5, 2, 3, 10, 100]), "tail": random.choice([5, 50]), "closed": 20, "growth": random.choice([3, 20]), "better": 0.3}.get(kind, 1)
        self.rate = {"gap": 0, "fall": random.choice([0.5, 0.3, 0.1]), "closed": 0.1}.get(kind, 1)

    def is_at(self, tag, time):
        return tag in self.tags and self.start <= time < self.end

    def scaled(self, random, value, time):
        if random.random() >= self.share:
            return value
        return value * (self.times ** ((time - self.start) / (self.end - self.start)) if self.is_growth else self.times)


class Traffic:
    """The samples of a tag: their number a second, the median, the spread, a second mode, and how many are alike."""

    def __init__(self, random):
        self.rate = random.choice([0.3, 3, 10, 20, 50, 150])
        self.middle, self.spread = random.choice([5, 300, 2000, 40_000, 3_000_000]), random.choice([0, 0.05, 0.3, 0.6, 1.2])
        self.mode = random.choice([None, None, None, (0.1, 30), (0.5, 10), (0.01, 50)])
        self.many, self.is_bursty = random.choice([1, 1, 1, 5, 100]), random.random() < 0.2

    def value(self, random):
        value = self.middle * random.lognormvariate(0, self.spread)
        if self.mode and random.random() < self.mode[0]:
            value *= self.mode[1]
        return value

    def counts(self, random, tag, effects, start, end):
        """The samples of an interval."""
        found, time = Counter(), (start + end) / 2
        here = [it for it in effects if it.is_at(tag, time)]
        rate = self.rate * (random.choice([0.2, 0.5, 1, 2.5]) if self.is_bursty else 1)
        for it in here:
            rate *= it.rate * (not it.is_stall)
        number = rate * (end - start) / 1000
        for _ in range(min(int(number) + (random.random() < number % 1), 2000)):
            value = self.value(random)
            for it in here:
                value = it.scaled(random, value, time)
            found[max(1, int(value))] += self.many
        for it in effects:
            if it.is_stall and tag in it.tags and start < it.end <= end:
                self.add_late(random, found, it.end - it.start)
        return found

    def add_late(self, random, found, length):
        """Adds the samples of a stall, which waited for up to its length."""
        for _ in range(min(int(self.rate * length / 1000) + 1, 2000)):
            found[max(1, int(random.random() * length * 1000))] += self.many


def lengths_of(random):
    """How long the intervals of a log are, one after the other, in milliseconds."""
    length = random.choice([100, 500, 1000, 1000, 1000, 5000, 60_000, None])
    while True:
        yield length or random.choice([500, 1000, 2000, 10_000])


def line_of(tag, start, length, counts, sigfig):
    samples = Samples(sigfig)
    for value, count in counts.items():
        samples.add(value, count)
    head = b"Tag=%s," % tag.encode() if tag else b""
    high = class_of(max(2, samples.greatest or 0), sigfig)[1]
    times = b"%d.%03d,%d.%03d,%d.000," % (*divmod(start, 1000), *divmod(length, 1000), samples.greatest or 0)
    return head + times + base64.b64encode(encode(samples, high)) + b"\n"


def random_log(random):
    """The lines of a log of a few tags, of one host or two, at times with effects; and a usual value."""
    tags = random.choice([[""], ["api"], ["api", "db"], ["a", "b", "c", ""], [f"svc-{at}" for at in range(6)]])
    number, lengths, offset = random.choice([3, 12, 40, 80, 120, 200]), lengths_of(random), random.choice([0, 5000, BASE, BASE + 86_300_000])
    sigfigs, hosts = random.choice([[3], [3], [3], [3], [1], [2], [3, 2], [3, 5]]), random.choice([1, 1, 1, 2])
    starts = [0]
    for _ in range(number):
        starts.append(starts[-1] + next(lengths))
    effects = [Effect(random, tags, starts[-1]) for _ in range(random.choice([0, 1, 1, 2, 4]))]
    traffic, has_empty, jitter = {tag: Traffic(random) for tag in tags}, random.random() < 0.2, random.choice([0, 0, 0, 30])
    lines = []
    for start, end in zip(starts, starts[1:]):
        for tag in tags * hosts:
            counts = traffic[tag].counts(random, tag, effects, start, end)
            if counts or has_empty:
                begin = offset + start + random.randint(0, jitter)
                lines.append(line_of(tag, begin, max(1, end - start - random.randint(0, jitter)), counts, random.choice(sigfigs)))
    return b"".join(lines or [line_of("api", offset, 1000, Counter(), SIGFIG)]), traffic[tags[0]].middle


def page_level(text, unit):
    """The tail of a level, and the greatest value that it allows."""
    name, sign, number, suffix = re.fullmatch(r"(p[0-9.]+)(<=?)([0-9]+)(|ns|us|ms|s)", text).groups()
    scale = UNITS[unit] - UNITS[suffix] if suffix else 0
    level = Level(text, name, sign, Fraction(number) * Fraction(10) ** scale)
    share = 1 - level.quantile()
    return share.numerator, share.denominator, LogTally(None, 0).greatest_within(level)


def amount_of(text, unit):
    """The amount of a level as it is written, if values have to be below it."""
    sign, amount = re.search("(<=?)(.*)", text).groups()
    has_unit = not amount[-1].isdigit()
    return None if sign == "<=" else f"below {amount}" + (f" {unit}" if unit and not has_unit else "")


def level_text(random, unit, usual):
    name, times = random.choice(["p50", "p90", "p99", "p99.9", "p75", "p100"]), random.choice([100, random.randint(95, 300)])
    value = random.choice([2, 1000, 1_000_000, *[max(2, usual * times // 100)] * 6])
    suffix = random.choice(["", *(it for it in UNITS if UNITS[it] <= UNITS[unit])]) if unit else ""
    return f"{name}{random.choice(['<', '<='])}{value}{suffix}"


def verdict_case(random):
    """A case of page --text: the lines of what was slow or missing."""
    log, usual = random_log(random)
    logs, unit = {"standard input": log}, random.choice([None, None, *UNITS])
    arguments, level, amount = ["page", "--text", *(["--unit", unit] if unit else [])], None, None
    if random.random() < 0.4:
        text = level_text(random, unit, usual)
        level, amount = page_level(text, unit), amount_of(text, unit)
        arguments += ["--level", text]
    return case_of(arguments, logs, (Begins(page_of(logs, unit, level, amount).text().encode()), b"", 0))
