"""An exact model of a histogram: its classes, ranks, statistics, iterations and corrections, in integers."""
import bisect
import math


class Scale:
    """The classes of a lowest discernible value and a number of significant digits."""

    def __init__(self, low, sigfig):
        self.unit = low.bit_length() - 1
        self.digits = (2 * 10**sigfig - 1).bit_length()

    def bucket(self, value):
        return max(0, value.bit_length() - self.unit - self.digits)

    def index(self, value):
        """The number of classes below that of a value."""
        bucket = self.bucket(value)
        return (bucket << self.digits - 1) + (value >> self.unit + bucket)

    def width(self, value):
        return 1 << self.unit + self.bucket(value)

    def lowest(self, value):
        return value & -self.width(value)

    def top(self, value):
        return self.lowest(value) + self.width(value) - 1

    def middle(self, value):
        return self.lowest(value) + self.width(value) // 2

    def class_of(self, value):
        """The lowest, greatest and middle value of a class, the lowest of the next, and the width."""
        return [self.lowest(value), self.top(value), self.middle(value), self.top(value) + 1, self.width(value)]

    def lowest_at(self, index):
        """The lowest value of the class with so many classes below it."""
        half = 1 << self.digits - 1
        bucket = max(0, (index >> self.digits - 1) - 1)
        return index - bucket * half << self.unit + bucket

    def length(self, high):
        """The number of classes of a histogram for values up to `high`: all buckets up to that of `high`."""
        return self.bucket(high) + 2 << self.digits - 1


def missing(value, interval):
    """The values that coordinated omission left out below a value."""
    return range(value - interval, interval - 1, -interval) if 0 < interval < value else ()


class Model:
    def __init__(self, low, high, sigfig):
        self.low, self.high, self.sigfig = low, high, sigfig
        self.scale = Scale(low, sigfig)
        self.counts = {}

    def record(self, value, count):
        lowest = self.scale.lowest(value)
        self.counts[lowest] = self.counts.get(lowest, 0) + count

    def record_corrected(self, value, count, interval):
        for it in (value, *missing(value, interval)):
            self.record(it, count)

    def corrected(self, interval, side):
        """The sum of all classes, each corrected from the value in it that `side` returns."""
        sum_ = Model(self.low, self.high, self.sigfig)
        for lowest, count in self.counts.items():
            sum_.record_corrected(side(lowest), count, interval)
        return sum_.closed()

    def closed(self):
        """Sorts the classes. Nothing is recorded after this."""
        self.classes = sorted(self.counts)
        self.tops = [self.scale.top(lowest) for lowest in self.classes]
        self.sums, total = [], 0
        for lowest in self.classes:
            total += self.counts[lowest]
            self.sums.append(total)
        self.total = total
        return self

    def recorded(self):
        return [(top, self.counts[lowest]) for top, lowest in zip(self.tops, self.classes)]

    def at_rank(self, rank):
        """The number of the class with the sample of a rank, from 1."""
        return bisect.bisect_left(self.sums, max(1, rank))

    def value_of_rank(self, rank, is_zero):
        """What a percentile is whose sample has this rank; `is_zero`: of the percentile 0."""
        if not self.total or rank > self.total:
            return 0
        at = self.at_rank(rank)
        return self.classes[at] if is_zero else self.tops[at]

    def percentile(self, num, den):
        rank = -(-num * self.total // (100 * den))
        return self.value_of_rank(min(rank, self.total), num == 0)

    def up_to(self, index):
        """The number of samples in the classes up to an index."""
        if index < 0:
            return 0
        at = bisect.bisect_right(self.classes, self.scale.lowest_at(index))
        return self.sums[at - 1] if at else 0

    def between(self, low, high):
        return max(0, self.up_to(self.scale.index(high)) - self.up_to(self.scale.index(low) - 1))

    def moments(self):
        """The sums of the middles of the samples, and of their squares."""
        middles = [(self.scale.middle(lowest), self.counts[lowest]) for lowest in self.classes]
        return sum(m * n for m, n in middles), sum(m * m * n for m, n in middles)

    def mean(self):
        """A numerator and a denominator."""
        return (self.moments()[0], self.total) if self.total else (0, 1)

    def deviation(self):
        """The same, with the root rounded down to a fraction over the number of samples."""
        once, twice = self.moments()
        return (math.isqrt(self.total * twice - once * once), self.total) if self.total else (0, 1)

    def last(self):
        """The index of the last class recorded, or 0."""
        return self.scale.index(self.classes[-1]) if self.classes else 0

    def steps(self, levels, end):
        """The samples up to each level and past the level before; `end(index)` returns the last level to go on to."""
        found, before, limit = [], 0, None
        for level in levels:
            if limit is not None and level > limit:
                return found
            index = min(self.scale.index(level), self.scale.length(self.high) - 1)
            found.append((level, self.up_to(index) - before))
            before = self.up_to(index)
            if limit is None and index >= self.last():
                limit = end(index)

    def linear(self, step):
        def end(index):
            return self.scale.top(self.scale.lowest_at(index))
        return self.steps((i * step - 1 for i in range(1, 1 << 62)), end)

    def logarithmic(self, start, base):
        return self.steps((start * base**i - 1 for i in range(1 << 10)), lambda index: -1)

    def tick_steps(self, ticks):
        """The classes at quantiles that approach 1: as many in each half of the distance to it."""
        found, half, i, before = [], 0, 0, 0
        for top, sum_ in zip(self.tops, self.sums):
            if sum_ == self.total:
                return [*found, (top, sum_ - before), (top, 0)]
            while ((ticks << half + 1) - 2 * ticks + i) * self.total <= sum_ * (ticks << half + 1):
                found.append((top, sum_ - before))
                before = sum_
                half, i = (half, i + 1) if i + 1 < ticks else (half + 1, 0)
        return found
