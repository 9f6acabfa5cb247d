"""The histogram."""

from __future__ import annotations

from array import array
from collections.abc import Callable, Iterable, Iterator
from copy import deepcopy
from ctypes import byref, c_size_t, c_uint64
from fractions import Fraction
from math import ceil, lcm
from typing import Any, NamedTuple, Optional, TypeVar

from ._library import (
    TOO_MANY_SAMPLES,
    U64_MAX,
    ClassCursor,
    Handle,
    Shape,
    WideFraction,
    check,
    check_recorded,
    lib,
)
from ._values import Number, exact, memory, word, words, written
from .errors import DecodeError

_close = lib.close

_Self = TypeVar("_Self", bound="Histogram")


class Class(NamedTuple):
    """A nonempty class: its values are low to high."""

    low: int
    high: int
    count: int  # type: ignore[assignment]


class Histogram:
    """Counts of integers from 0 to 2**64 - 1, to a number of significant digits.

    `digits` is 0 to 5. Values that differ by less than `low`, which is 1 or more, may be counted together. With a
    `high`, values from 0 to at least that can be recorded, and others are errors. Without one the histogram grows.
    """

    __slots__ = ("_at", "_handle", "__weakref__")

    _at: Any
    _handle: Handle

    def __new__(cls: type[_Self], *_: Any, **__: Any) -> _Self:
        histogram = super().__new__(cls)
        histogram._handle = Handle()
        histogram._at = byref(histogram._handle)
        return histogram

    def __init__(self, digits: int = 3, low: int = 1, high: Optional[int] = None) -> None:
        digits = min(word(digits, "digits"), 255)
        if high is None and low == 1:
            check(lib.init_auto(self._at, digits))
        else:
            low = word(low, "low")
            check(lib.init(self._at, low, min(2 * low, U64_MAX) if high is None else word(high, "high"), digits))
            if high is None:
                self.auto_resize = True

    @classmethod
    def from_bytes(cls: type[_Self], data: Any, *, auto_resize: bool = False, max_bins: int = U64_MAX) -> _Self:
        """Decodes the bytes of a histogram of any HdrHistogram library: of versions 0 to 2, compressed or not.

        It grows if `auto_resize` is true; without, a value or a histogram added beyond its bounds is an error. A histogram
        of more than `max_bins` bins, of 8 bytes each, is an error.
        """
        histogram = cls.__new__(cls)
        histogram._decode(data, auto_resize, max_bins)
        return histogram

    def _decode(self, data: Any, auto_resize: bool, max_bins: int = U64_MAX) -> None:
        taken = c_size_t()
        with memory(data) as (address, length):
            check(lib.decode(self._at, address, length, word(max_bins, "max_bins"), byref(taken)))
        if taken.value != length:
            raise DecodeError(f"{length - taken.value} bytes follow the histogram")
        self.auto_resize = auto_resize

    def to_bytes(self, *, compressed: bool = False) -> bytes:
        """Encodes the counts and bounds as V2 bytes, which may be compressed as in the logs of other libraries.

        These do not say whether the histogram grows.
        """
        return written(lib.encode_compressed if compressed else lib.encode, self._at)

    def copy(self: _Self) -> _Self:
        """Returns a copy, which is independent. Attributes of a subclass are copied as copy.copy does."""
        histogram = type(self).__new__(type(self))
        check(lib.copy(histogram._at, self._at))
        for name, value in self._attributes().items():
            setattr(histogram, name, value)
        return histogram

    __copy__ = copy

    def __deepcopy__(self: _Self, memo: dict[int, Any]) -> _Self:
        histogram = type(self).__new__(type(self))
        memo[id(self)] = histogram
        check(lib.copy(histogram._at, self._at))
        for name, value in deepcopy(self._attributes(), memo).items():
            setattr(histogram, name, value)
        return histogram

    def __reduce__(self) -> Any:
        return _closed, (type(self),), (self.to_bytes(), self.auto_resize, self._attributes())

    def __setstate__(self, state: tuple[bytes, bool, dict[str, Any]]) -> None:
        data, auto_resize, attributes = state
        self._decode(data, auto_resize)
        for name, value in attributes.items():
            setattr(self, name, value)

    def _attributes(self) -> dict[str, Any]:
        """The attributes that a subclass added, in its `__dict__` and its `__slots__`."""
        found = dict(getattr(self, "__dict__", {}))
        for kind in type(self).__mro__[: -len(Histogram.__mro__)]:
            slots = vars(kind).get("__slots__", ())
            for name in (slots,) if isinstance(slots, str) else slots:
                if name not in ("__dict__", "__weakref__") and hasattr(self, name):
                    found[name] = getattr(self, name)
        return found

    def close(self) -> None:
        """Frees the memory. Other calls raise ClosedError then, or return 0."""
        lib.close(self._at)

    def __enter__(self: _Self) -> _Self:
        return self

    def __exit__(self, *_: Any) -> None:
        self.close()

    def __del__(self, _close: Any = _close) -> None:
        _close(self._at)

    def record(self, value: int, count: int = 1, *, expected_interval: int = 0) -> None:
        """Records a value `count` times.

        With an expected interval between samples, the samples that are missing since a response was late are recorded
        too (coordinated omission).
        """
        value, count = word(value), word(count, "count")
        if expected_interval:
            check(lib.record_correct(self._at, value, count, word(expected_interval, "expected_interval")))
        else:
            check(lib.record_n(self._at, value, count))

    def record_saturating(self, value: int, count: int = 1) -> None:
        """Records a value, or `high` in place of one that has no bin. The histogram never grows."""
        check(lib.record_saturating(self._at, word(value), word(count, "count")))

    def record_many(self, values: Any, *, scale: Optional[float] = None) -> int:
        """Records each value of an iterable or buffer once, and returns their number.

        Values are integers of any type. With a scale they may be floats: each is recorded as its product with the
        scale, rounded. Arrays of 64-bit integers are not copied: array.array, NumPy arrays, pandas Series. If a value
        is out of range or memory runs out, the values before it are recorded, and their number is `recorded` of the
        exception.
        """
        done = c_size_t()
        view = words(values, scale)
        with memory(view) as (address, length):
            status = lib.record_all(self._at, address, length // 8, byref(done))
        check_recorded(status, done.value)
        return done.value

    def merge(self, other: Histogram, *, expected_interval: int = 0) -> None:
        """Adds the counts of another histogram, corrected for an expected interval between samples if there is one."""
        other = _histogram(other)
        other = other.copy() if other is self else other
        if expected_interval:
            check(lib.add_correct(self._at, other._at, word(expected_interval, "expected_interval")))
        else:
            check(lib.add(self._at, other._at))

    def __iadd__(self: _Self, other: Histogram) -> _Self:
        if not isinstance(other, Histogram):
            return NotImplemented
        self.merge(other)
        return self

    def subtract(self, other: Histogram) -> None:
        """Subtracts the counts of another histogram."""
        other = _histogram(other)
        other = other.copy() if other is self else other
        check(lib.subtract(self._at, other._at))

    def reset(self) -> None:
        """Clears the samples, and the minimum and maximum."""
        check(lib.reset(self._at))

    def clear(self) -> None:
        """Clears the samples, and keeps max and min_nonzero. min is 0 until a value is recorded."""
        check(lib.clear(self._at))

    def _shape(self) -> Shape:
        shape = Shape()
        check(lib.shape_of(self._at, byref(shape)))
        return shape

    @property
    def digits(self) -> int:
        """The number of significant digits."""
        return int(self._shape().sigfig)

    @property
    def low(self) -> int:
        """The bound `low`: values that differ by less may be counted together."""
        return int(self._shape().low)

    @property
    def high(self) -> int:
        """The highest value that can be recorded for certain; it increases as the histogram grows."""
        return int(self._shape().high)

    @property
    def bins(self) -> int:
        """The number of bins, of 8 bytes each."""
        return int(self._shape().bins)

    @property
    def auto_resize(self) -> bool:
        """Whether the histogram grows. It can be set."""
        return bool(self._shape().auto_resize)

    @auto_resize.setter
    def auto_resize(self, enabled: bool) -> None:
        check(lib.auto_resize(self._at, bool(enabled)))

    @property
    def total(self) -> int:
        """The number of samples, at most 2**64 - 1. A histogram has no `len`: its iterator yields classes."""
        return int(lib.len(self._at))

    def __bool__(self) -> bool:
        return self.total > 0

    @property
    def min(self) -> int:
        """The lowest value of the first class recorded, 0 if there are no samples."""
        return int(lib.min(self._at))

    @property
    def min_nonzero(self) -> Optional[int]:
        """The lowest value recorded past the class of 0, or None."""
        found = int(lib.min_nz(self._at))
        return None if found == U64_MAX else found

    @property
    def max(self) -> int:
        """The greatest value of the last class recorded, 0 if there is none."""
        return int(lib.max(self._at))

    @property
    def mean(self) -> Optional[Fraction]:
        """The mean, each sample taken as the middle of its class. It is None if there are 2**64 - 1 samples or more."""
        return self._fraction_by(lib.mean)

    @property
    def standard_deviation(self) -> Optional[Fraction]:
        """The standard deviation, each sample taken as the middle of its class. It is None if there are 2**64 - 1 samples or more.

        The root is rounded down to a fraction over the number of samples.
        """
        return self._fraction_by(lib.standard_deviation)

    def _fraction_by(self, call: Callable[..., int]) -> Optional[Fraction]:
        """Returns the fraction that a call of the library stores, or None if there are too many samples."""
        found = WideFraction()
        status = call(self._at, byref(found))
        if status == TOO_MANY_SAMPLES:
            return None
        check(status)
        return _fraction(found)

    def quantile(self, numerator: Number, denominator: Number = 1) -> int:
        """Returns the value at a quantile, such as 99, 100 or "0.99" or Fraction(99, 100).

        It is the greatest value of the class of the sample of exact rank. A quantile above 1 counts as 1. A float is
        taken as the decimal number that Python prints.
        """
        quantile = exact(numerator) / exact(denominator)
        if quantile < 0:
            raise ValueError(f"the quantile {quantile} is negative")
        quantile = min(quantile, Fraction(1))
        if quantile.denominator > U64_MAX:
            # This has the same rank.
            total = max(self.total, 1)
            quantile = Fraction(ceil(quantile * total), total)
        value = c_uint64()
        check(lib.value_at_quantile(self._at, quantile.numerator, quantile.denominator, byref(value)))
        return value.value

    def percentile(self, percent: Number) -> int:
        """Returns the value at a percentile, such as "99.9", which is exact."""
        return self.quantile(exact(percent), 100)

    def percentiles(self, percents: Iterable[Number]) -> list[int]:
        """Returns the value at each percentile, in the order given, by one call of the library if it can be."""
        quantiles = [exact(percent) / 100 for percent in percents]
        whole = lcm(*(quantile.denominator for quantile in quantiles))
        if whole > U64_MAX or any(quantile < 0 for quantile in quantiles):
            return [self.quantile(quantile) for quantile in quantiles]
        nums = array("Q", (int(min(quantile, Fraction(1)) * whole) for quantile in quantiles))
        values = array("Q", bytes(8 * len(nums)))
        with memory(nums) as (address, _), memory(values) as (result, _):
            check(lib.values_at_quantiles(self._at, address, len(nums), whole, result, len(values)))
        return values.tolist()

    def fraction_below(self, value: int) -> Fraction:
        """Returns the fraction of samples in the class of `value` or below it, 1 if there are none."""
        found = WideFraction()
        check(lib.quantile_below(self._at, word(value), byref(found)))
        return _fraction(found)

    def class_of(self, value: int) -> tuple[int, int]:
        """Returns the lowest and the greatest of the values that count as this one."""
        value = word(value)
        return int(lib.lowest_equivalent(self._at, value)), int(lib.highest_equivalent(self._at, value))

    def count_at(self, value: int) -> int:
        """Returns the count of the class of `value`; of the last class if it has no bin."""
        return int(lib.count_at(self._at, word(value)))

    def count_between(self, low: int, high: int) -> int:
        """Returns the sum of the counts from the class of `low` to that of `high`."""
        return int(lib.count_between(self._at, word(low, "low"), word(high, "high")))

    def __iter__(self) -> Iterator[Class]:
        """Yields the nonempty classes in ascending order."""
        found = ClassCursor()
        while lib.next_class(self._at, byref(found)):
            yield Class(found.lowest, found.highest, found.count)

    def __eq__(self, other: object) -> bool:
        if not isinstance(other, Histogram):
            return NotImplemented
        return self is other or bool(lib.equal(self._at, other._at))

    __hash__ = None  # type: ignore[assignment]

    def __repr__(self) -> str:
        if not self._handle.filled:
            return "<Histogram: closed>"
        shape = self._shape()
        grows = ", grows" if shape.auto_resize else ""
        return (
            f"<Histogram: {self.total} samples from {self.min} to {self.max}, "
            f"digits {shape.sigfig}, low {shape.low}, high {shape.high}{grows}>"
        )


def _closed(kind: type[_Self]) -> _Self:
    return kind.__new__(kind)


def _histogram(other: Any) -> Histogram:
    if not isinstance(other, Histogram):
        raise TypeError(f"a histogram is wanted, and not {type(other).__name__}")
    return other


def _fraction(wide: WideFraction) -> Fraction:
    return Fraction((wide.num_high << 64) + wide.num_low, wide.den)
