"""Recording by threads at once, over the C library libdkap_recorder."""

from __future__ import annotations

import ctypes
import os
from ctypes import POINTER, byref, c_size_t, c_uint8, c_uint32, c_uint64, c_void_p
from functools import lru_cache
from typing import Any, Optional

from ._library import HANDLE, check, check_recorded, guarded, library_path
from ._values import memory, word, words
from .histogram import Histogram

# The arguments of each call; all but close return a status.
_CALLS: dict[str, list[Any]] = {
    "open": [POINTER(c_void_p), c_uint64, c_uint64, c_uint8],
    "open_auto": [POINTER(c_void_p), c_uint8],
    "record": [c_void_p, c_uint64],
    "record_n": [c_void_p, c_uint64, c_uint64],
    "record_correct": [c_void_p, c_uint64, c_uint64, c_uint64],
    "record_saturating": [c_void_p, c_uint64, c_uint64],
    "record_all": [c_void_p, c_void_p, c_size_t, POINTER(c_size_t)],
    "swap": [c_void_p, HANDLE],
    "close": [c_void_p],
}


class _Calls:
    """The calls of the library, without the prefix dkap_recorder_."""

    def __init__(self) -> None:
        path = os.path.join(os.path.dirname(library_path()), "libdkap_recorder.so.1")
        try:
            holds, lets_go = ctypes.PyDLL(path), ctypes.CDLL(path)
        except OSError as error:
            raise ImportError(f"{error}: build libdkap_recorder by capi/build.sh, or install it beside libdkap") from None
        for name, arguments in _CALLS.items():
            # An array may take long. Other threads run meanwhile: the recorder is for that, and the array is not copied.
            call = getattr(lets_go if name == "record_all" else holds, "dkap_recorder_" + name)
            call.restype = None if name == "close" else c_uint32
            call.argtypes = arguments
            # A swap changes a histogram, and these have a lock in an interpreter without one.
            setattr(self, name, guarded(call) if name == "swap" else call)


@lru_cache(maxsize=None)
def _calls() -> Any:
    return _Calls()


class Recorder:
    """Records integers from any number of threads at once, without a lock.

    Each thread has a histogram of its own. `swap` returns what was recorded since the last one, and no thread waits for
    it. A thread that ends leaves its samples. The arguments are those of Histogram, but a `low` above 1 needs a `high`.

        recorder = Recorder(digits=3)
        recorder.record(1190)  # in any thread
        interval = recorder.swap()  # every second
    """

    __slots__ = ("__weakref__", "_at", "_bounds", "_lib")

    def __init__(self, digits: int = 3, low: int = 1, high: Optional[int] = None) -> None:
        self._at = c_void_p()
        self._lib = _calls()
        digits = min(word(digits, "digits"), 255)
        low = word(low, "low")
        if high is not None:
            high = word(high, "high")
            check(self._lib.open(byref(self._at), low, high, digits))
        elif low == 1:
            check(self._lib.open_auto(byref(self._at), digits))
        else:
            raise ValueError(f"a recorder with low {low} needs a high: it does not grow")
        self._bounds = (digits, low, high)

    def __del__(self) -> None:
        # A call in any thread keeps this object alive, so none is made now.
        if getattr(self, "_at", None):
            self._lib.close(self._at)

    def record(self, value: int, count: int = 1, *, expected_interval: int = 0) -> None:
        """Records a value, `count` times, and the samples that are missing for an expected interval between them."""
        at, value = self._at, word(value)
        if expected_interval:
            interval = word(expected_interval, "expected_interval")
            check(self._lib.record_correct(at, value, word(count, "count"), interval))
        elif count == 1:
            check(self._lib.record(at, value))
        else:
            check(self._lib.record_n(at, value, word(count, "count")))

    def record_saturating(self, value: int, count: int = 1) -> None:
        """Records a value, `count` times, or `high` if it has no bin."""
        check(self._lib.record_saturating(self._at, word(value), word(count, "count")))

    def record_many(self, values: Any, *, scale: Optional[float] = None) -> int:
        """Records each value of an iterable or a buffer once, and returns their number.

        The values are as those of Histogram.record_many, and errors too. Other threads run meanwhile; none of them may
        change an array that is recorded.
        """
        done = c_size_t()
        with memory(words(values, scale)) as (address, length):
            status = self._lib.record_all(self._at, address, length // 8, byref(done))
        check_recorded(status, done.value)
        return done.value

    def swap(self, into: Optional[Histogram] = None) -> Histogram:
        """Adds all samples since the last swap to a histogram, by default a new one, and returns it.

        Each sample is in exactly one interval. On an error the samples remain for the next swap.
        """
        if into is None:
            into = Histogram(*self._bounds)
        elif not isinstance(into, Histogram):
            raise TypeError(f"a histogram is wanted, and not {type(into).__name__}")
        check(self._lib.swap(self._at, into._at))
        return into
