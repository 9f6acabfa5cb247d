"""A model of a tag's cells, of the tails of their samples, and of what is usual for a tag. A histogram is a Counter of values, each the greatest
of its class."""
import dataclasses
import functools
from collections import Counter
from itertools import pairwise

# Samples of a block's tail, the fewest blocks, and the most
IN_TAIL, FEWEST_BLOCKS, MOST_BLOCKS = 20, 4, 64


@dataclasses.dataclass
class Interval:
    start: int
    end: int
    counts: Counter


@dataclasses.dataclass
class Cell:
    """A part of a tag's time. Its intervals end at `last`, and the next cell begins at `end`."""

    start: int
    end: int
    last: int
    counts: Counter

    @functools.cached_property
    def samples(self):
        return self.counts.total()

    @functools.cached_property
    def time(self):
        return max(self.end - self.start, 1)


# Cells


def groups_of(intervals):
    """Intervals in groups, each with those that begin before its first one ends, or one that is twice as long as the group was or longer.
    Those without samples are left out; of a tag that has no others the first one stays."""
    groups, end = [], 0
    own = sorted(intervals, key=lambda it: (it.start, it.end))
    for it in [it for it in own if it.counts] or own[:1]:
        if groups and it.start < end:
            groups[-1].append(it)
            if it.end - it.start >= 2 * (end - groups[-1][0].start):
                end = it.end
        else:
            groups.append([it])
            end = it.end
    return groups


def usual_stride(groups):
    """The time from a group to the next one that nine of ten do not exceed; of one group its length."""
    strides = sorted(after[0].start - group[0].start for group, after in pairwise(groups))
    first = groups[0][0]
    return strides[len(strides) * 9 // 10] if strides else max(1, first.end - first.start)


def cells_of_group(group, stride, until, is_last):
    """The cell of a group, and one without samples if none follow for long. The next group begins, or the log ends, at `until`."""
    start, last = group[0].start, max(it.end for it in group)
    length, rest = last - start, until - start
    has_hole = 2 * rest > 3 * max(stride, length)
    if has_hole:
        span = min(length, rest) if is_last or length >= stride else stride
    else:
        span = min(max(length, stride), max(rest, 1)) if is_last else rest
    end = start + max(span, 1)
    counts = Counter()
    for it in group:
        counts.update(it.counts)
    cell = Cell(start, end, min(max(last, start + 1), end), counts)
    return [cell, Cell(end, until, until, Counter())] if has_hole and end < until else [cell]


def cells_of(intervals, log_end):
    groups = groups_of(intervals)
    stride, ends = usual_stride(groups), [*(group[0].start for group in groups[1:]), log_end]
    return [cell for at, group in enumerate(groups) for cell in cells_of_group(group, stride, ends[at], at + 1 == len(groups))]


# Tails and what is usual


def above(counts, value):
    """The number of samples above a value."""
    return sum(count for it, count in counts.items() if it > value)


def tail_value(counts, num, den):
    """The least value that leaves at most num / den of the samples above it, or 0 without samples."""
    most, found, passed = num * counts.total(), 0, 0
    for value in sorted(counts, reverse=True):
        if den * passed > most:
            break
        found, passed = value, passed + counts[value]
    return found


def blocks_of(cells, least):
    """The shortest runs of cells with so many samples or more, one after the other."""
    blocks, block = [], Counter()
    for cell in cells:
        block.update(cell.counts)
        if block.total() >= least:
            blocks.append(block)
            block = Counter()
    return blocks


def usual_of(cells, num, den):
    """The lower quartiles over blocks of the values of a tail and of half of it, or None with too few blocks."""
    if not num:
        return None
    samples = sum(cell.samples for cell in cells)
    blocks = blocks_of(cells, max(-(-IN_TAIL * den // num), -(-samples // MOST_BLOCKS)))
    if len(blocks) < FEWEST_BLOCKS:
        return None
    return [sorted(tail_value(it, num, den * part) for it in blocks)[len(blocks) // 4] for part in (1, 2)]
