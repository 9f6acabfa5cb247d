"""Tests of Histogram: python3 -m unittest discover python/tests, with python on PYTHONPATH."""

from __future__ import annotations

import copy
import pickle
import random
import resource
import sys
import threading
import unittest
from array import array
from collections.abc import Iterator
from contextlib import contextmanager
from decimal import Decimal
from fractions import Fraction
from pathlib import Path

from deckapricot import (
    Class,
    ClosedError,
    CountError,
    DecodeError,
    Histogram,
    HistogramError,
    InvalidBounds,
    ValueOutOfRange,
    version,
)
from deckapricot._library import locked
from deckapricot._values import words

try:
    import numpy
except ImportError:
    numpy = None
try:
    import pandas
except ImportError:
    pandas = None


class Series:
    """What record_many needs of a pandas Series."""

    def __init__(self, values: object) -> None:
        self.values = values

    def to_numpy(self) -> object:
        return self.values


class Named(Histogram):
    """A subclass."""


class Labelled(Histogram):
    """A subclass with an attribute in its `__dict__`."""

    label: list[str]


class Slotted(Histogram):
    """A subclass with an attribute in its `__slots__`."""

    __slots__ = ("label",)


@contextmanager
def little_memory() -> Iterator[None]:
    """Lets allocations of more than 16 MiB fail."""
    limits = resource.getrlimit(resource.RLIMIT_AS)
    pages = int(Path("/proc/self/statm").read_text().split()[0])
    resource.setrlimit(resource.RLIMIT_AS, (pages * resource.getpagesize() + 2**24, limits[1]))
    try:
        yield
    finally:
        resource.setrlimit(resource.RLIMIT_AS, limits)


def is_shared(values: object) -> bool:
    """Whether a change of the values is seen through `words`."""
    view = words(values)
    values[0] = 12345
    return view[0] == 12345


class Reading(unittest.TestCase):
    def test_figures(self) -> None:
        h = Histogram(3, 1, 3_600_000_000)
        h.record_many(range(1, 101))
        self.assertEqual((h.total, h.min, h.min_nonzero, h.max), (100, 1, 1, 100))
        self.assertEqual((h.mean, h.standard_deviation), (Fraction(101, 2), Fraction(2886, 100)))
        self.assertEqual((h.fraction_below(25), h.count_at(7), h.count_between(3, 5)), (Fraction(1, 4), 1, 3))
        self.assertEqual(list(h)[:2], [Class(1, 1, 1), Class(2, 2, 1)])
        self.assertEqual((h.digits, h.low, h.high, h.bins, h.auto_resize), (3, 1, 3_600_000_000, 23552, False))
        self.assertEqual(repr(h), "<Histogram: 100 samples from 1 to 100, digits 3, low 1, high 3600000000>")
        self.assertTrue(version()[0].isdigit())

    def test_empty(self) -> None:
        h = Histogram()
        self.assertEqual((h.total, bool(h), h.min, h.min_nonzero, h.max, h.mean), (0, False, 0, None, 0, 0))
        self.assertEqual(h.standard_deviation, 0)
        self.assertEqual((h.percentile(99), h.fraction_below(3), list(h), h.auto_resize), (0, 1, [], True))
        self.assertEqual(h.quantile(Fraction(1, 3**60)), 0)

    def test_quantile_forms(self) -> None:
        h = Histogram(4)
        h.record_many(range(1, 10_001))
        for quantile in (("0.999",), (Decimal("0.999"),), (Fraction(999, 1000),), (0.999,), (999, 1000), ("99.9", 100)):
            self.assertEqual(h.quantile(*quantile), 9990)
        for percent in ("99.9", Decimal("99.9"), Fraction(999, 10), 99.9):
            self.assertEqual(h.percentile(percent), 9990)
        self.assertEqual((h.quantile(0), h.quantile(1), h.quantile(7), h.percentile("1e-30")), (1, 10000, 10000, 1))
        for tiny in (Fraction(1, 3**60), Fraction(3**60 - 1, 3**60)):
            self.assertEqual(h.quantile(tiny), 1 if tiny < Fraction(1, 2) else 10000)
        with self.assertRaises(ZeroDivisionError):
            h.quantile(1, 0)
        for bad in (-1, "x", float("nan"), "-0.1"):
            with self.assertRaises(ValueError):
                h.quantile(bad)

    def test_percentiles(self) -> None:
        h = Histogram(4)
        h.record_many(range(1, 10_001))
        self.assertEqual(h.percentiles(["99.9", 50, Fraction(1, 3), 0, 100, 700]), [9990, 5000, 34, 1, 10_000, 10_000])
        self.assertEqual((h.percentiles([]), h.percentiles([Fraction(1, 3**60), 50])), ([], [1, 5000]))
        with self.assertRaises(ValueError):
            h.percentiles([50, -1])
        h.close()
        with self.assertRaises(ClosedError):
            h.percentiles([50])

    def test_iteration(self) -> None:
        h = Histogram()
        h.record(5, 2**60)
        self.assertEqual((list(h), h.total, bool(h)), ([Class(5, 5, 2**60)], 2**60, True))
        with self.assertRaises(TypeError):
            len(h)
        self.assertEqual(h.class_of(2049), (2048, 2049))

    def test_quantiles_of_sorted_samples(self) -> None:
        rng = random.Random(48)
        samples = [rng.randrange(1, 10**9) for _ in range(10_000)]
        h = Histogram()
        h.record_many(samples)
        samples.sort()
        for per_mille in range(1, 1001):
            sample = samples[-(-per_mille * len(samples) // 1000) - 1]
            self.assertTrue(sample <= h.quantile(per_mille, 1000) <= sample + sample // 1000 + 1)


class Recording(unittest.TestCase):
    def test_correction(self) -> None:
        h = Histogram()
        h.record(100, expected_interval=20)
        self.assertEqual([c.low for c in h], [20, 40, 60, 80, 100])
        k = Histogram()
        k.record(100)
        corrected = Histogram()
        corrected.merge(k, expected_interval=20)
        self.assertEqual(list(corrected), list(h))

    def test_units(self) -> None:
        h = Histogram(3, low=1000)
        h.record(123_456_789)
        self.assertEqual((h.low, h.auto_resize, h.max // 1000), (1000, True, 123_469))

    def test_many(self) -> None:
        sources = [[3, 4], (3, 4), iter([3, 4]), array("Q", [3, 4]), array("q", [3, 4]), array("I", [3, 4])]
        sources += [memoryview(array("Q", [3, 4])).toreadonly(), bytes([3, 4]), Series(array("Q", [3, 4]))]
        sources += [memoryview(array("Q", [3, 0, 4, 0]))[::2]]
        for values in sources:
            h = Histogram()
            self.assertEqual(h.record_many(values), 2)
            self.assertEqual(list(h), [Class(3, 3, 1), Class(4, 4, 1)])
        for nothing in ([], array("Q"), b"", iter(())):
            self.assertEqual(Histogram().record_many(nothing), 0)

    def test_no_copy(self) -> None:
        self.assertTrue(is_shared(array("Q", [1, 2])) and is_shared(array("q", [1, 2])))
        self.assertTrue(is_shared(Series(array("q", [1, 2])).to_numpy()))
        if numpy:
            self.assertTrue(is_shared(numpy.arange(5)) and is_shared(numpy.arange(5, dtype="u8")))
        if pandas:
            self.assertEqual(Histogram().record_many(pandas.Series([1, 2, 3])), 3)

    def test_scale(self) -> None:
        for values in ([0.0012, 0.5, 1e-9, 3], array("d", [0.0012, 0.5, 1e-9, 3]), iter([0.0012, 0.5, 1e-9, 3])):
            h = Histogram(4)
            self.assertEqual(h.record_many(values, scale=1000), 4)
            self.assertEqual(list(h), [Class(0, 0, 1), Class(1, 1, 1), Class(500, 500, 1), Class(3000, 3000, 1)])
        h = Histogram()
        for values in ([float("nan")], array("d", [1.0, float("nan")])):
            with self.assertRaisesRegex(ValueError, "not a number"):
                h.record_many(values, scale=1)
        for values in ([-1.0], [2.0**64], [float("inf")]):
            with self.assertRaises(OverflowError):
                h.record_many(values, scale=1)
        self.assertEqual(h.total, 0)

    @unittest.skipUnless(numpy, "NumPy is not installed")
    def test_arrays(self) -> None:
        expected = [Class(3, 3, 1), Class(4, 4, 1), Class(200, 200, 1)]
        for dtype in ("u1", "i2", "u2", "i4", "u4", "i8", "u8", ">i8", ">u4", "O"):
            for values in (numpy.array([3, 4, 200], dtype), numpy.array([3, 0, 4, 0, 200, 0], dtype)[::2]):
                h = Histogram()
                self.assertEqual((h.record_many(values), list(h)), (3, expected))
        for values in (numpy.array([1, -1], "i4"), numpy.array([1, -1], ">i8")):
            with self.assertRaises(OverflowError):
                Histogram().record_many(values)
        for values in (numpy.zeros((2, 2), "u8"), numpy.zeros(2), numpy.zeros(2, "M8[s]"), numpy.zeros(2, "?"), numpy.array(3)):
            with self.assertRaises(TypeError):
                Histogram().record_many(values)
        with self.assertRaisesRegex(TypeError, "2 dimensions"):
            Histogram().record_many(numpy.zeros((2, 2), "u8"))
        h = Histogram(4)
        self.assertEqual(h.record_many(numpy.array([0.0012, 0.5, -1e-9], "f4"), scale=1000), 3)
        self.assertEqual(list(h), [Class(0, 0, 1), Class(1, 1, 1), Class(500, 500, 1)])
        for bad, error in (([1, numpy.nan], ValueError), ([-1], OverflowError), ([2.0**64], OverflowError), ([numpy.inf], OverflowError)):
            with self.assertRaises(error):
                h.record_many(numpy.array(bad), scale=1)
        self.assertEqual(h.record_many(numpy.array([]), scale=1), 0)
        self.assertEqual(h.record_many(memoryview(array("i", [7, 8]))), 2)

    @unittest.skipUnless(pandas, "pandas is not installed")
    def test_series(self) -> None:
        for values in (pandas.Series([3, 4]), pandas.Series([3, 4], dtype="Int64"), pandas.Index([3, 4]), pandas.Series([3, 4], dtype="uint8")):
            h = Histogram()
            self.assertEqual((h.record_many(values), list(h)), (2, [Class(3, 3, 1), Class(4, 4, 1)]))
        with self.assertRaisesRegex(ValueError, "missing"):
            Histogram().record_many(pandas.Series([3, None], dtype="Int64"))
        with self.assertRaisesRegex(ValueError, "not a number"):
            Histogram().record_many(pandas.Series([3, None]), scale=1)
        with self.assertRaisesRegex(TypeError, "2 dimensions"):
            Histogram().record_many(pandas.DataFrame({"a": [1], "b": [2]}))
        self.assertEqual(Histogram().record_many(pandas.Series([0.5, 0.25]), scale=1e6), 2)

    def test_invalid(self) -> None:
        h = Histogram(3, 1, 1000)
        for call in (lambda: h.record(-1), lambda: h.record(2**64), lambda: h.record_many([1, -1])):
            with self.assertRaises(OverflowError):
                call()
        with self.assertRaises(OverflowError):
            h.record_many(array("q", [1, -1]))
        for values in ([1.5], array("d", [1.0]), "12", 7):
            with self.assertRaises(TypeError):
                h.record_many(values)
        with self.assertRaises(TypeError):
            h.record(1.5)
        with self.assertRaisesRegex(ValueOutOfRange, "the value at index 2") as context:
            h.record_many([1, 2, 9999, 3])
        self.assertEqual((context.exception.recorded, context.exception.status, h.total), (2, 3, 2))
        with self.assertRaises(ValueOutOfRange):
            h.record(5000)
        h.record_saturating(5000)
        self.assertEqual(h.count_at(1000), 1)

    def test_out_of_memory(self) -> None:
        h = Histogram(5)
        with little_memory(), self.assertRaises(MemoryError) as context:
            h.record_many([1, 2, 2**63, 3])
        self.assertEqual((context.exception.recorded, h.total), (2, 2))

    def test_bounds(self) -> None:
        for arguments in ((3, 0, 10), (3, 10, 19), (6, 1, 2), (300, 1, 2), (5, 2**62, 2**64 - 1), (7,), (3, 2**63)):
            with self.assertRaises(InvalidBounds):
                Histogram(*arguments)
        for arguments in ((-1,), (3, -1), (3, 1, 2**64)):
            with self.assertRaises(OverflowError):
                Histogram(*arguments)

    def test_clearing(self) -> None:
        h = Histogram()
        h.record(77)
        h.clear()
        self.assertEqual((h.total, h.max), (0, 77))
        h.reset()
        self.assertEqual((h.total, h.max), (0, 0))


class Objects(unittest.TestCase):
    def test_bytes(self) -> None:
        h = Histogram(2, 1, 10**6)
        h.record(1234, 7)
        data = h.to_bytes()
        for source in (data, bytearray(data), memoryview(data)):
            self.assertEqual(Histogram.from_bytes(source), h)
        for bad in (b"", data[:-1], data + b"x", b"x" + data[1:]):
            with self.assertRaises(DecodeError):
                Histogram.from_bytes(bad)
        h.record_many(range(1, 10**6, 100))
        self.assertGreater(len(h.to_bytes()), len(data))
        self.assertEqual(Histogram.from_bytes(h.to_bytes()), h)
        h.record(1, 2**63)
        with self.assertRaises(CountError):
            h.to_bytes()

    def test_copies(self) -> None:
        for h in (Histogram(), Histogram(2, 1, 10**6)):
            h.record(3)
            for k in (h.copy(), copy.copy(h), copy.deepcopy(h), pickle.loads(pickle.dumps(h))):
                self.assertEqual((k, k.auto_resize), (h, h.auto_resize))
                k.record(4)
                self.assertNotEqual(k, h)
        self.assertNotEqual(Histogram(), 3)
        named = Named(2)
        for k in (copy.copy(named), copy.deepcopy(named), pickle.loads(pickle.dumps(named))):
            self.assertEqual((type(k), k.digits), (Named, 2))
        with self.assertRaises(TypeError):
            hash(Histogram())

    def test_attributes(self) -> None:
        for kind in (Labelled, Slotted):
            h = kind(2)
            h.label = ["a"]
            h.record(7)
            for k in (h.copy(), copy.copy(h), copy.deepcopy(h), pickle.loads(pickle.dumps(h)), pickle.loads(pickle.dumps(h, 2))):
                self.assertEqual((type(k), k.label, k.total, k), (kind, ["a"], 1, h))
            self.assertIs(copy.copy(h).label, h.label)
            self.assertIsNot(copy.deepcopy(h).label, h.label)
        with self.assertRaises(AttributeError):
            Histogram().lable = 3

    def test_second_init(self) -> None:
        pages = int(Path("/proc/self/statm").read_text().split()[1])
        h = Histogram(5, 1, 2**40)
        for _ in range(50):
            h.__init__(5, 1, 2**40)
        self.assertLess(int(Path("/proc/self/statm").read_text().split()[1]) - pages, 20_000)
        h.record(3)
        with self.assertRaises(InvalidBounds):
            h.__init__(7)
        self.assertEqual((h.total, h.digits), (1, 5))

    def test_forms(self) -> None:
        h = Histogram(2, 1, 10**6)
        h.record(1234, 7)
        packed = h.to_bytes(compressed=True)
        self.assertEqual((packed[:4].hex(), Histogram.from_bytes(packed)), ("1c849314", h))
        with self.assertRaises(DecodeError) as context:
            Histogram.from_bytes(packed, max_bins=100)
        self.assertEqual(context.exception.status, 27)
        with self.assertRaises(DecodeError):
            Histogram.from_bytes(packed[:-1])

    def test_merging(self) -> None:
        h, k = Histogram(3, 1, 1000), Histogram()
        k.record_many([5, 6, 7])
        h += k
        h.merge(h)
        self.assertEqual((h.total, k.total), (6, 3))
        h.subtract(k)
        self.assertEqual(list(h), list(k))
        h.subtract(h)
        self.assertFalse(h)
        with self.assertRaises(CountError):
            h.subtract(k)
        k.record(10**6)
        with self.assertRaises(ValueOutOfRange):
            h.merge(k)
        for call in (h.merge, h.subtract):
            with self.assertRaisesRegex(TypeError, "a histogram is wanted, and not int"):
                call(5)
        with self.assertRaises(TypeError):
            h += 3
        self.assertEqual(h.total, 0)

    def test_closing(self) -> None:
        with Histogram() as h:
            h.record(1)
        h.close()
        calls = [lambda: h.record(1), lambda: h.record_many([1]), lambda: h.mean, lambda: h.quantile(1)]
        for call in (*calls, h.to_bytes, h.copy):
            with self.assertRaises(ClosedError):
                call()
        self.assertTrue(issubclass(ClosedError, HistogramError))
        self.assertEqual((h.total, list(h), repr(h)), (0, [], "<Histogram: closed>"))


class Threads(unittest.TestCase):
    def test_no_record_is_lost(self) -> None:
        h = Histogram(3, 1, 10**9)
        values = array("Q", range(1, 20_001))

        def work() -> None:
            for _ in range(5):
                h.record_many(values)
            for _ in range(4000):
                h.record(7)

        interval = sys.getswitchinterval()
        sys.setswitchinterval(1e-6)
        threads = [threading.Thread(target=work) for _ in range(8)]
        for thread in threads:
            thread.start()
        for thread in threads:
            thread.join()
        sys.setswitchinterval(interval)
        self.assertEqual((h.total, h.count_at(7)), (8 * 104_000, 8 * 4005))

    def test_lock_without_that_of_the_interpreter(self) -> None:
        self.assertEqual(locked(divmod)(7, 2), (3, 1))
        # A garbage collection within a call may close another histogram.
        nested = threading.Thread(target=locked(locked(Histogram().close)), daemon=True)
        nested.start()
        nested.join(10)
        self.assertFalse(nested.is_alive())


if __name__ == "__main__":
    unittest.main()
