"""Times of record_many for arrays of a type, as multiples of that of 64-bit integers: at most 2, and 4 for floats."""

import sys
import time
from typing import Any

import numpy
import pandas

from deckapricot import Histogram

VALUES = numpy.random.default_rng(48).lognormal(7, 1, 1_000_000).astype("u8")


def seconds(values: Any, **options: Any) -> float:
    """The time of a call."""
    histogram = Histogram(3, 1, 10**9)
    start = time.perf_counter()
    histogram.record_many(values, **options)
    return time.perf_counter() - start


def ratio(values: Any, words: Any, **options: Any) -> float:
    """The ratio of the least times of an array and of 64-bit integers, in turns. Other work of the machine only adds to times, so that a
    ratio above 2 is measured again, at most four times."""
    found = [9.0]
    while found[-1] > 2 and len(found) < 6:
        turns = [(seconds(values, **options), seconds(words)) for _ in range(9)]
        found.append(min(it[0] for it in turns) / min(it[1] for it in turns))
    return min(found)


def ratios() -> dict[str, float]:
    """The ratio of each type to 64-bit integers of the same values."""
    found = {}
    for dtype in ("i8", "i4", "u4", "i2", "u2", "u1", ">i8"):
        values = VALUES % (100 if dtype == "u1" else 30_000)
        found[dtype] = ratio(values.astype(dtype), values)
    found["strided"] = ratio(numpy.repeat(VALUES, 2)[::2], VALUES)
    found["Int64"] = ratio(pandas.Series(VALUES.astype("i8"), dtype="Int64"), VALUES)
    found["f8"] = ratio(VALUES / 1e6, VALUES, scale=1e6)
    return found


if __name__ == "__main__":
    measured = ratios()
    print(", ".join(f"{name} {least:.2f}" for name, least in measured.items()))
    sys.exit(any(least > (4 if name == "f8" else 2) for name, least in measured.items()))
