"""A model of levels: what samples say of them, by exact fractions and sorted samples."""
import dataclasses
import re
from fractions import Fraction

from model import LIMIT, UNITS, class_of, decimal_text

SIGNS = {"<": lambda a, b: a < b, "<=": lambda a, b: a <= b, ">": lambda a, b: a > b, ">=": lambda a, b: a >= b}
# The least number that is told from 0
TINY = Fraction(1, 10**1000)


@dataclasses.dataclass
class Level:
    text: str
    name: str
    sign: str
    bound: Fraction

    def is_upper(self):
        return self.sign[0] == "<"

    def is_on_side(self, value):
        return SIGNS[self.sign](value, self.bound)

    def is_within(self, value):
        """Whether a value is below the level, or at it if that is with those below it."""
        return value < self.bound if self.sign in ("<", ">=") else value <= self.bound

    def quantile(self):
        whole, _, part = self.name[1:].partition(".")
        return Fraction(int(whole + part), 100 * 10 ** len(part))


@dataclasses.dataclass
class Known:
    """Samples that are from `low` to `high`, which are both the number if that is known."""

    low: Fraction
    high: Fraction
    count: int


def fraction(digits, decimals):
    """A number as it was read."""
    if decimals - len(str(digits)) > 100:
        return TINY if digits else Fraction(0)
    return Fraction(digits, 10**decimals)


def at_rank(samples, rank, end):
    """The sample of a rank, if each is as low, or as high, as it may be."""
    for it in sorted(samples, key=end):
        rank -= it.count
        if rank <= 0:
            return end(it)
    raise ValueError


def ceil(number):
    return -(-number.numerator // number.denominator)


def hundredths(mean, decimals):
    """A mean with two more decimals than values, halves up."""
    return decimal_text((mean * 10 ** (decimals + 2) + Fraction(1, 2)).__floor__(), decimals + 2)


def rank_of(level, count):
    if level.name in ("min", "max"):
        return 1 if level.name == "min" else count
    return max(1, ceil(level.quantile() * count))


def is_few(level, count, low, high):
    """Whether one of so many samples is hardly expected beyond the quantile, and none is beyond the level. `low` and `high` are the lowest and the
    highest of all samples."""
    quantile = level.quantile()
    rare = min(quantile, 1 - quantile)
    if not rare or count * rare >= 1:
        return False
    if level.is_upper():
        return quantile >= Fraction(1, 2) and level.is_on_side(high)
    return quantile <= Fraction(1, 2) and level.is_on_side(low)


def verdict_between(level, low, high):
    """The verdict of a value that is from `low` to `high`."""
    sides = {level.is_on_side(low), level.is_on_side(high)}
    return {(True,): "kept", (False,): "broken"}.get(tuple(sides), "undecided")


def checked_line(level, samples, tally, mean):
    """The verdict on a level, and what follows it. `mean` is the mean of the samples, if they are only known by their classes, in units."""
    decimals, scale = tally.decimals or 0, 10 ** (tally.decimals or 0)
    count = sum(it.count for it in samples)
    if level.name == "count":
        return ("kept" if level.is_on_side(count) else "broken"), str(count)
    if not count:
        return "kept", "-"
    if level.name == "mean":
        low, high = tally.mean_ends(samples)
        verdict = verdict_between(level, low, high)
        ends = hundredths(low, decimals), hundredths(high, decimals)
        if verdict == "undecided":
            return verdict, "..".join(ends)
        return verdict, ends[0] if ends[0] == ends[1] or mean is None else hundredths(mean / scale, decimals)
    rank = rank_of(level, count)
    low, high = at_rank(samples, rank, lambda it: it.low), at_rank(samples, rank, lambda it: it.high)
    verdict = verdict_between(level, low, high)
    if verdict == "undecided":
        across = [it for it in samples if level.is_within(it.low) and not level.is_within(it.high)]
        ends = min(it.low for it in across), max(it.high for it in across)
        return verdict, "..".join(decimal_text(int(it * scale), decimals) for it in ends)
    value = value_of(level, tally, high)
    if level.name in ("min", "max"):
        return verdict, decimal_text(value, decimals)
    if is_few(level, count, min(it.low for it in samples), max(it.high for it in samples)):
        quantile = level.quantile()
        return "few", f"{decimal_text(value, decimals)} needs {ceil(1 / min(quantile, 1 - quantile))}"
    return verdict, decimal_text(value, decimals)


def value_of(level, tally, high):
    """The value of a figure in units: for a percentile whose sample is surely within the level, no greater value than one that is."""
    samples = tally.samples
    if level.name in ("min", "max"):
        return samples.least if level.name == "min" else samples.greatest
    value = samples.at(level.quantile().numerator, level.quantile().denominator)
    return min(value, tally.greatest_within(level)) if level.is_within(high) else value


def status_of(verdicts, is_mostly_skipped=False):
    if "broken" in verdicts:
        return 3
    return 4 if is_mostly_skipped or set(verdicts) - {"kept"} else 0


def random_level(random, samples, tally, unit):
    """A level: at a sample, beside one, between two, or with more decimals than the samples have; None if its number is too large."""
    decimals = tally.decimals or 0
    name = random.choice(["count", "min", "max", "mean", "p50", "p99", "p99.9", "p0", "p100", "p75.5", "p1", "p10", "p90", f"p{random.randint(0, 100)}"])
    if name == "count":
        value, places = sum(it.count for it in samples), 0
    else:
        near = random.choice(samples) if samples else Known(Fraction(0), Fraction(0), 0)
        exact = random.choice([near.low, near.high]) * 10**decimals
        value, places = int(exact), decimals
        if name == "mean" and samples and random.random() < 0.8:
            value = int(tally.mean_ends(samples)[0] * 10**decimals)
    return level_near(random, name, value, places, unit)


def level_near(random, name, value, places, unit):
    """A level of a figure at a value of so many decimals, or near it; None if its number is too large."""
    digits, shift = max(0, value + random.choice([-1, 0, 0, 0, 1, random.randint(-1000, 1000)])), places
    more = random.choice([0, 0, 0, 1, 2, 5])
    digits, shift = digits * 10**more + (random.choice([0, 1, random.randint(0, 10**more - 1)]) if more else 0), places + more
    sign = random.choice(list(SIGNS))
    text, scale = decimal_text(digits, shift), 0
    if unit and name not in ("count",) and random.random() < 0.5:
        suffix = random.choice(list(UNITS))
        scale, text = UNITS[unit] - UNITS[suffix], text + suffix
    too_large = digits * 10 ** max(scale - shift, 0) >= LIMIT or max(shift, shift - scale) > 18 or digits >= LIMIT
    return None if too_large else Level(f"{name}{sign}{text}", name, sign, Fraction(digits, 10**shift) * Fraction(10) ** scale)


def is_level_in_each_unit(level, unit):
    """Whether the number of a level fits in each unit that a log may have."""
    number, suffix = re.fullmatch(r"[a-z0-9.]+[<>]=?([0-9.]+)([a-z]*)", level.text).groups()
    whole, _, part = number.partition(".")
    digits, shift, of = int(whole + part), len(part), suffix or unit
    if level.name == "count" or not of:
        return True
    scales = [UNITS[it] - UNITS[of] for it in UNITS]
    return not any(digits * 10 ** max(it - shift, 0) >= LIMIT or max(shift, shift - it) > 18 for it in scales)


def checked(random, samples, tally, unit, mean=None):
    """Some levels of samples: their arguments, and for each its verdict and what follows that."""
    levels = [it for it in (random_level(random, samples, tally, unit) for _ in range(random.randint(1, 4))) if it]
    levels = levels or [Level("count>=0", "count", ">=", Fraction(0))]
    return [it.text for it in levels], [checked_line(it, samples, tally, mean) for it in levels]


def classes_of(samples, decimals):
    """The samples of a log, by their classes."""
    scale = 10**decimals
    return [
        Known(Fraction(low, scale), Fraction(class_of(low, samples.sigfig, samples.low)[1], scale), count)
        for low, count in samples.counts.items() if count
    ]


class LogTally:
    """What levels see of the chosen intervals of logs: the sum of their histograms, which has the value that is printed."""

    def __init__(self, total, decimals):
        self.samples, self.decimals = total, decimals

    def mean_ends(self, samples):
        """The least and the greatest that the mean may be."""
        count = sum(it.count for it in samples)
        return tuple(sum(end(it) * it.count for it in samples) / count for end in (lambda it: it.low, lambda it: it.high))

    def greatest_within(self, level):
        """The greatest value within a level."""
        units = level.bound * 10**self.decimals
        return int(units) if level.is_within(Fraction(int(units), 10**self.decimals)) else int(units) - 1
