"""A model of what hdrstat says of runs: intervals of percentiles, changes and limits, by integers of any size."""
import dataclasses

# Most comparisons of a report, the confidence in percent, thousandths of the normal quantile, hundredths of the edge, and the column of
# FACTORS. The first row is that of summary --ci
TIERS = [(1, "95", 1960, 369, 0), (5, "99", 2576, 530, 1), (50, "99.9", 3291, 761, 2), (500, "99.99", 3891, 991, 3), (5000, "99.999", 4418, 1221, 4)]
# A thousand times the square of Student's quantile by that of the normal one, for 4 batches to 16
FACTORS = [
    (2637, 5142, 15427, 51796, 186956), (2007, 3195, 6848, 15963, 39529), (1721, 2451, 4358, 8255, 16416), (1559, 2072, 3280, 5450, 9418),
    (1456, 1846, 2701, 4108, 6447), (1385, 1697, 2348, 3350, 4905), (1333, 1592, 2112, 2873, 3994), (1293, 1514, 1944, 2549, 3405),
    (1262, 1454, 1819, 2317, 2998), (1236, 1407, 1722, 2143, 2702), (1215, 1368, 1646, 2008, 2479), (1198, 1336, 1584, 1901, 2306),
    (1183, 1309, 1532, 1814, 2167),
]
MOST_RATIO = 10**7
# The program compares values below this, in a power of two as unit
MOST_BITS = 40


def tier_of(comparisons):
    return next(tier for tier in TIERS[1:] if comparisons <= tier[0])


def class_of(value, sigfig):
    """The least and the greatest value of a class."""
    kept = (2 * 10**sigfig - 1).bit_length()
    shift = max(0, value.bit_length() - kept)
    low = value >> shift << shift
    return low, low + (1 << shift) - 1


def batches_of(items):
    """Items in batches of 1, 2, 4 or more that follow one another: at most 16 full ones, or 17 with the last."""
    size = 1
    while -(-len(items) // size) > 16:
        size *= 2
    return [items[at : at + size] for at in range(0, len(items), size)]


@dataclasses.dataclass
class Samples:
    """Samples of a run in batches, each a list of them, in units of so many decimals."""

    batches: list
    decimals: int
    sigfig: int
    note: str = ""
    is_ordered: bool = True

    def __post_init__(self):
        every = [it for batch in self.batches for it in batch]
        self.count, self.least, self.greatest = len(every), min(every), max(every)
        self.classes = sorted({class_of(it, self.sigfig) for it in every})
        place = {it: at for at, it in enumerate(self.classes)}
        # How many samples of each batch are in the first classes: none, one, two and so on
        steps = [[0] * len(self.batches) for _ in range(len(self.classes) + 1)]
        for at, batch in enumerate(self.batches):
            for it in batch:
                steps[place[class_of(it, self.sigfig)] + 1][at] += 1
        self.upto = [steps[0]]
        for step in steps[1:]:
            self.upto.append([one + more for one, more in zip(self.upto[-1], step)])

    def effective(self, counts, tier):
        """As how many independent samples all count, by how many of each batch meet a condition."""
        sizes, total, batches = self.upto[-1], sum(counts), len(self.batches)
        squares = sum((16 * abs(count * self.count - size * total) // self.count) ** 2 for size, count in zip(sizes, counts))
        if not self.is_ordered or batches < 4 or not 0 < total < self.count or not squares:
            return self.count
        # As how many batches of one size these count
        even = min(batches, -(-self.count**2 // sum(size**2 for size in sizes)))
        if even < 4:
            return 1
        factor = FACTORS[min(even, 16) - 4][tier[4]]
        return min(self.count, max(1, 256000 * total * (self.count - total) * (even - 1) // (squares * even * factor)))

    def is_far(self, rank, independent, quantile, tier):
        """Whether a rank is so far from the quantile that chance reaches it seldom enough."""
        num, den = quantile
        left = 9 * 10**6 * independent * (rank * den - num * self.count) ** 2
        return left >= tier[2] ** 2 * (2 * num * self.count + rank * den) * (3 * den * self.count - 2 * num * self.count - rank * den)

    def point(self, quantile, tier):
        """The value, both ends or None, and the independent samples."""
        num, den = quantile
        rank = max(1, -(-num * self.count // den))
        at = next(at for at in range(len(self.classes)) if sum(self.upto[at + 1]) >= rank)
        first = min(self.effective(self.upto[at], tier), self.effective(self.upto[at + 1], tier))
        low, lower = self.end(range(at, -1, -1), first, quantile, tier, True)
        high, upper = self.end(range(at, len(self.classes)), first, quantile, tier, False)
        # The quantile 0 is the least value of the first class, as in summary
        value = self.classes[at][1 if num else 0]
        within = [None if it is None else max(self.least, min(self.greatest, it)) for it in (value, low, high)]
        return Point(*within, min(lower, upper))

    def end(self, places, independent, quantile, tier, is_low):
        """An end of an interval: that of the nearest class whose neighbour's rank is far, or of the last one if enough are beyond."""
        num, den = quantile
        for at in places:
            counts = self.upto[at] if is_low else self.upto[at + 1]
            independent = min(independent, self.effective(counts, tier))
            rank = sum(counts) + (1 if is_low else -1)
            beyond = num * self.count - rank * den if is_low else rank * den - num * self.count
            if beyond > 0 and self.is_far(rank, independent, quantile, tier):
                return self.classes[at][0 if is_low else 1], independent
        share = num if is_low else den - num
        if 100 * independent * share >= tier[3] * den:
            return self.classes[0][0] if is_low else self.classes[-1][1], independent
        return None, independent


    def verdict(self, quantile, tier, most, sure, perhaps):
        """Whether a percentile is within a bound: True or False beyond chance, and otherwise why it is not known. `most` is the greatest unit within
        the bound, or None if none is; `sure` samples are within it, and `perhaps` may be."""
        upto = self.upto[sum(low <= most for low, _ in self.classes) if most is not None else 0]
        first, last = self.ranks(quantile, tier, min(self.point(quantile, tier).independent, self.effective(upto, tier)))
        if last is not None and last <= sure:
            return True
        if first is not None and perhaps < first:
            return False
        return "few" if first is None or last is None else "undecided"

    def ranks(self, quantile, tier, independent):
        """The ranks of the first and of the last sample of an interval, None where the samples are too few."""
        num, den = quantile
        far = [rank for rank in range(self.count + 1) if self.is_far(rank, independent, quantile, tier)]
        first = max((rank for rank in far if 0 < rank and rank * den < num * self.count), default=None)
        last = min((rank + 1 for rank in far if rank < self.count and num * self.count < rank * den), default=None)
        if first is None and 100 * independent * num >= tier[3] * den:
            first = 1
        if last is None and 100 * independent * (den - num) >= tier[3] * den:
            last = self.count
        return first, last


@dataclasses.dataclass
class Point:
    value: int
    low: int
    high: int
    independent: int

    def shown(self, decimals, more):
        return [None if it is None else decimal_of(it * 10**more, decimals) for it in (self.value, self.low, self.high)]

    def measured(self, more):
        return [None if it is None else it * 10**more for it in (self.value, self.low, self.high)]


def decimal_of(units, decimals):
    if not decimals:
        return str(units)
    digits = str(units).rjust(decimals + 1, "0")
    return f"{digits[:-decimals]}.{digits[-decimals:]}"


def in_small_units(before, after):
    """Both in the least power of two in which they are small: values rounded down, and ends outwards."""
    shift = 0
    while True:
        both = [[value >> shift, low if low is None else low >> shift, high if high is None else -(-high >> shift)] for value, low, high in (before, after)]
        if all(it is None or it < 1 << MOST_BITS for one in both for it in one):
            return both
        shift += 1


def exceeds(num, den, before, after):
    """Whether the second is above num / den times the first by more than chance, or None without an end."""
    (one, _, high), (other, low, _) = before, after
    if high is None or low is None:
        return None
    distance = den * other - num * one
    return distance > 0 and distance**2 > (den * (other - low)) ** 2 + (num * (high - one)) ** 2


def falls_below(num, den, before, after):
    (one, low, _), (other, _, high) = before, after
    if low is None or high is None:
        return None
    distance = num * one - den * other
    return distance > 0 and distance**2 > (den * (high - other)) ** 2 + (num * (one - low)) ** 2


def first_of(most, holds):
    """The least number up to `most` at which something holds that holds from there on."""
    low, high = 0, most
    while low < high:
        middle = (low + high) // 2
        if holds(middle):
            high = middle
        else:
            low = middle + 1
    return low


def ratios(before, after):
    """The ratio and its least and greatest one in thousandths, None where there is none."""
    if not before[0]:
        return None, None, None
    nearest = (2000 * after[0] + before[0]) // (2 * before[0])
    least = greatest = None
    if exceeds(0, 1000, before, after) is not None:
        least = first_of(MOST_RATIO, lambda it: not exceeds(it, 1000, before, after))
    if falls_below(MOST_RATIO, 1000, before, after):
        greatest = first_of(MOST_RATIO, lambda it: falls_below(it + 1, 1000, before, after))
    # The ratio is rounded, and may be past an end
    return nearest, None if least is None else min(least, nearest), None if greatest is None else max(greatest, nearest)


def verdict_of(before, after):
    slower, faster = exceeds(1, 1, before, after), falls_below(1, 1, before, after)
    if slower:
        return "slower"
    if faster:
        return "faster"
    return "too few" if slower is None or faster is None else "same"


def needed(quantile, tier):
    num, den = quantile
    return -(-tier[3] * den // (100 * min(num, den - num)))


def percent_of(ratio):
    change = ratio - 1000
    sign = "-" if change < 0 else "+" if change else ""
    return f"{sign}{abs(change) // 10}.{abs(change) % 10}"
