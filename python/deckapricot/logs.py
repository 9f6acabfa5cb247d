"""Interval logs: text with a line for each interval, as the HdrHistogram libraries and hdrstat write and read them."""

from __future__ import annotations

import os
from collections.abc import Iterator
from ctypes import byref
from dataclasses import dataclass
from typing import Any, BinaryIO, Optional, Union

from ._library import INVALID_LINE, LOG_END, U64_MAX, IntervalCursor, LogHeader, Time, error_of, lib
from ._values import Number, exact, memory, word, written
from .errors import DecodeError, LogError
from .histogram import Histogram

SECOND = 1_000_000_000

# The names of units, by their nanoseconds.
UNITS = {1: "ns", 1_000: "us", 1_000_000: "ms", SECOND: "s"}


@dataclass(frozen=True)
class Interval:
    """An interval of a log. `base_ns` is the last base time before it in the log; its start is relative to that."""

    start_ns: int
    duration_ns: int
    tag: Optional[str]
    base_ns: Optional[int]
    histogram: Histogram

    @property
    def start(self) -> float:
        """The start in seconds."""
        return self.start_ns / SECOND

    @property
    def duration(self) -> float:
        """The duration in seconds."""
        return self.duration_ns / SECOND


class HistogramLogReader:
    """Yields the intervals of a log: a path, a binary file, or bytes.

    Histograms are of any HdrHistogram library: of versions 0 to 2, compressed or not. One of more than `max_bins` bins,
    of 8 bytes each, is an error. After an error of one interval the next ones can be read.

    `start_time_ns` is the start time in the log's headers, or None. `unit` is "ns", "us", "ms" or "s", if a comment such
    as "#[Values are in us]" has it, or None. `decimals` is how many of a value's digits are decimals, if a comment such
    as "#[Values have 2 decimals]" has it, and otherwise 0: with 2, the value 1250 is 12.50 units.
    """

    __slots__ = ("_data", "_found", "decimals", "max_bins", "start_time_ns", "unit")

    def __init__(self, source: Any, *, max_bins: int = U64_MAX) -> None:
        self.max_bins = word(max_bins, "max_bins")
        self._data = _read(source)
        self._found = IntervalCursor()
        header = LogHeader()
        with memory(self._data) as (address, length):
            lib.log_header_of(address, length, byref(header))
        self.start_time_ns = _nanos_of(header.start_time) if header.has_start_time else None
        self.unit = UNITS.get(header.unit_nanos)
        self.decimals = int(header.decimals)

    def __iter__(self) -> Iterator[Interval]:
        return self

    def __next__(self) -> Interval:
        histogram = Histogram.__new__(Histogram)
        found, data = self._found, self._data
        with memory(data) as (address, length):
            status = lib.log_next(histogram._at, address, length, self.max_bins, byref(found))
        if status == LOG_END:
            raise StopIteration
        if status:
            error = error_of(status)
            if isinstance(error, (DecodeError, LogError)):
                error.offset = found.next if status == INVALID_LINE else data.rfind(b"\n", 0, found.next - 1) + 1
            raise error
        return _interval(found, data, histogram)


def read_log(source: Any, *, max_bins: int = U64_MAX) -> HistogramLogReader:
    """Returns a reader of a log: a path, a binary file, or bytes."""
    return HistogramLogReader(source, max_bins=max_bins)


def _read(source: Any) -> bytes:
    if isinstance(source, (str, os.PathLike)):
        with open(source, "rb") as file:
            return file.read()
    return bytes(source.read() if hasattr(source, "read") else source)


def _interval(found: IntervalCursor, data: bytes, histogram: Histogram) -> Interval:
    tag = data[found.tag_at : found.tag_at + found.tag_length].decode()
    return Interval(
        start_ns=_nanos_of(found.start),
        duration_ns=_nanos_of(found.duration),
        tag=tag or None,
        base_ns=_nanos_of(found.base) if found.has_base else None,
        histogram=histogram,
    )


def _nanos_of(time: Time) -> int:
    return int(time.seconds) * SECOND + int(time.nanos)


class LogWriter:
    """Writes intervals to a path or a binary file. Times are in seconds; a log has milliseconds.

    If `compressed`, histograms are written in the form that the other libraries read, after the line of the version that
    HdrHistogram_c asks for.
    """

    __slots__ = ("_compressed", "_file", "_owns")

    def __init__(self, target: Union[str, os.PathLike[str], BinaryIO], *, compressed: bool = False) -> None:
        self._owns = isinstance(target, (str, os.PathLike))
        self._file: Any = open(target, "wb") if isinstance(target, (str, os.PathLike)) else target
        self._compressed = compressed
        if compressed:
            self.write_comment("[Histogram log format version 1.3]")

    def write(self, histogram: Histogram, start: Number, duration: Number, tag: Optional[str] = None) -> None:
        """Writes the line of an interval."""
        call = lib.log_line_compressed if self._compressed else lib.log_line
        times = (*divmod(_nanos(start), SECOND), *divmod(_nanos(duration), SECOND))
        with memory((tag or "").encode()) as (address, length):
            self._file.write(written(call, histogram._at, *times, address, length))

    def write_comment(self, text: str) -> None:
        """Writes a comment, each of its lines as one."""
        with memory(text.encode()) as (address, length):
            self._file.write(written(lib.log_comment, address, length))

    def write_unit(self, unit: str) -> None:
        """Writes the comment with the unit of values: "ns", "us", "ms" or "s"."""
        if unit not in UNITS.values():
            raise ValueError(f"the unit {unit} is none of {', '.join(UNITS.values())}")
        self.write_comment(f"[Values are in {unit}]")

    def write_start_time(self, time: Number) -> None:
        """Writes the header of the log's start time, in seconds since the epoch."""
        self._file.write(written(lib.log_start_time, *divmod(_nanos(time), SECOND)))

    def write_base_time(self, time: Number) -> None:
        """Writes the header of a base time, in seconds since the epoch, to which later starts are relative."""
        self._file.write(written(lib.log_base_time, *divmod(_nanos(time), SECOND)))

    def close(self) -> None:
        """Closes the file, if this object opened it."""
        if self._owns:
            self._file.close()

    def __enter__(self) -> LogWriter:
        return self

    def __exit__(self, *_: Any) -> None:
        self.close()


def _nanos(seconds: Number) -> int:
    nanos = round(exact(seconds) * SECOND)
    if not 0 <= nanos < 2**64 * SECOND:
        raise LogError(f"the time {seconds} is out of range")
    return nanos
