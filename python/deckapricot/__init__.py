"""High dynamic range (HDR) histograms, over the C library libdkap.

    from deckapricot import Histogram

    latencies = Histogram(digits=3)
    latencies.record(1190)
    latencies.record_many([980, 1020])
    latencies.percentile("99.9")

A call keeps the interpreter's lock, so threads may share a histogram. Without that lock, as in a free-threaded build,
the package has a lock of its own. Threads record at once in a Recorder. As in C, a histogram is not used in the forked child of a process that has threads.
"""

from ._library import version
from .errors import (
    ClosedError,
    CountError,
    DecodeError,
    HistogramError,
    InvalidBounds,
    LogError,
    ValueOutOfRange,
)
from .histogram import Class, Histogram
from .logs import HistogramLogReader, Interval, LogWriter, read_log
from .recorder import Recorder

__all__ = [
    "Class",
    "ClosedError",
    "CountError",
    "DecodeError",
    "Histogram",
    "HistogramError",
    "HistogramLogReader",
    "Interval",
    "InvalidBounds",
    "LogError",
    "LogWriter",
    "Recorder",
    "ValueOutOfRange",
    "read_log",
    "version",
]
