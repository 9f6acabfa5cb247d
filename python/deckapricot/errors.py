"""The exceptions. A call that raises one has changed nothing; only `record_many` keeps the values before the error."""

from __future__ import annotations

from typing import Optional


class HistogramError(Exception):
    """An error of the library. `status` is its number in dkap.h."""

    status: Optional[int] = None


class ClosedError(HistogramError):
    """The histogram is closed."""


class ValueOutOfRange(HistogramError, ValueError):
    """A value has no bin, and the histogram does not grow. `recorded` is the number of values before it."""

    recorded: Optional[int] = None


class InvalidBounds(HistogramError, ValueError):
    """The bounds or the number of digits are invalid."""


class CountError(HistogramError, ValueError):
    """A count is out of range: below 0, or 2**63 or more in V2 bytes."""


class DecodeError(HistogramError, ValueError):
    """Bytes are not a histogram, or one of more bins than the limit. `offset` is that of the line read, of a log."""

    offset: Optional[int] = None


class LogError(HistogramError, ValueError):
    """A line of a log is invalid, or an interval cannot be written. `offset` is that of the line read."""

    offset: Optional[int] = None
