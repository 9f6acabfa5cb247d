"""Loads libdkap, declares its calls, and raises exceptions for its statuses."""

from __future__ import annotations

import ctypes
import os
import sys
import threading
from ctypes import POINTER, c_bool, c_char_p, c_size_t, c_uint8, c_uint32, c_uint64, c_void_p
from pathlib import Path
from typing import Any, Callable

from . import errors

U64_MAX = 2**64 - 1

OUT_OF_MEMORY = 2
OUT_OF_RANGE = 3
BUFFER_TOO_SMALL = 11
TOO_MANY_SAMPLES = 13
LOG_END = 23
INVALID_LINE = 24
TOO_MANY_BINS = 27

_CLASSES: dict[int, type[errors.HistogramError]] = {
    1: errors.ClosedError,
    OUT_OF_RANGE: errors.ValueOutOfRange,
    **dict.fromkeys(range(4, 9), errors.InvalidBounds),
    **dict.fromkeys((9, 10), errors.CountError),
    **dict.fromkeys((*range(14, 20), 27, 28), errors.DecodeError),
    **dict.fromkeys((21, 22, 24, 25, 29), errors.LogError),
}


class Handle(ctypes.Structure):
    """struct dkap_histogram: all bytes zero are a closed handle."""

    _fields_ = [("filled", c_bool), ("at", c_void_p)]


class WideFraction(ctypes.Structure):
    """struct dkap_fraction."""

    _fields_ = [("num_low", c_uint64), ("num_high", c_uint64), ("den", c_uint64)]


class Shape(ctypes.Structure):
    """struct dkap_shape."""

    _fields_ = [
        ("low", c_uint64),
        ("high", c_uint64),
        ("bins", c_uint64),
        ("sigfig", c_uint8),
        ("auto_resize", c_bool),
    ]


class ClassCursor(ctypes.Structure):
    """struct dkap_class."""

    _fields_ = [("next", c_size_t), ("lowest", c_uint64), ("highest", c_uint64), ("count", c_uint64)]


class Time(ctypes.Structure):
    """struct dkap_time."""

    _fields_ = [("seconds", c_uint64), ("nanos", c_uint32)]


class IntervalCursor(ctypes.Structure):
    """struct dkap_interval."""

    _fields_ = [
        ("next", c_size_t),
        ("start", Time),
        ("duration", Time),
        ("base", Time),
        ("has_base", c_bool),
        ("tag_at", c_size_t),
        ("tag_length", c_size_t),
    ]


class LogHeader(ctypes.Structure):
    """struct dkap_log_header."""

    _fields_ = [("start_time", Time), ("has_start_time", c_bool), ("decimals", c_uint8), ("unit_nanos", c_uint64)]


HANDLE = POINTER(Handle)
_SIZE = POINTER(c_size_t)
_BYTES = [c_void_p, c_size_t, _SIZE]

# The result of each call, and its arguments after the handle.
_CALLS: dict[str, tuple[Any, list[Any]]] = {
    "init": (c_uint32, [c_uint64, c_uint64, c_uint8]),
    "init_auto": (c_uint32, [c_uint8]),
    "copy": (c_uint32, [HANDLE]),
    "close": (None, []),
    "auto_resize": (c_uint32, [c_bool]),
    "reset": (c_uint32, []),
    "clear": (c_uint32, []),
    "record": (c_uint32, [c_uint64]),
    "record_n": (c_uint32, [c_uint64, c_uint64]),
    "record_correct": (c_uint32, [c_uint64, c_uint64, c_uint64]),
    "record_saturating": (c_uint32, [c_uint64, c_uint64]),
    "record_all": (c_uint32, _BYTES),
    "add": (c_uint32, [HANDLE]),
    "add_correct": (c_uint32, [HANDLE, c_uint64]),
    "subtract": (c_uint32, [HANDLE]),
    "equal": (c_bool, [HANDLE]),
    "len": (c_uint64, []),
    "min": (c_uint64, []),
    "min_nz": (c_uint64, []),
    "max": (c_uint64, []),
    "mean": (c_uint32, [POINTER(WideFraction)]),
    "standard_deviation": (c_uint32, [POINTER(WideFraction)]),
    "value_at_quantile": (c_uint32, [c_uint64, c_uint64, POINTER(c_uint64)]),
    "values_at_quantiles": (c_uint32, [c_void_p, c_size_t, c_uint64, c_void_p, c_size_t]),
    "quantile_below": (c_uint32, [c_uint64, POINTER(WideFraction)]),
    "count_at": (c_uint64, [c_uint64]),
    "count_between": (c_uint64, [c_uint64, c_uint64]),
    "shape_of": (c_uint32, [POINTER(Shape)]),
    "next_class": (c_bool, [POINTER(ClassCursor)]),
    "lowest_equivalent": (c_uint64, [c_uint64]),
    "highest_equivalent": (c_uint64, [c_uint64]),
    "encode": (c_uint32, _BYTES),
    "encode_compressed": (c_uint32, _BYTES),
    "decode": (c_uint32, [c_void_p, c_size_t, c_uint64, _SIZE]),
    "log_line": (c_uint32, [c_uint64, c_uint32, c_uint64, c_uint32, c_void_p, c_size_t, *_BYTES]),
    "log_line_compressed": (c_uint32, [c_uint64, c_uint32, c_uint64, c_uint32, c_void_p, c_size_t, *_BYTES]),
    "log_next": (c_uint32, [c_void_p, c_size_t, c_uint64, POINTER(IntervalCursor)]),
}

# The calls without a handle.
_CALLS_OF_LOGS: dict[str, tuple[Any, list[Any]]] = {
    "log_comment": (c_uint32, [c_void_p, c_size_t, *_BYTES]),
    "log_start_time": (c_uint32, [c_uint64, c_uint32, *_BYTES]),
    "log_base_time": (c_uint32, [c_uint64, c_uint32, *_BYTES]),
    "log_header_of": (None, [c_void_p, c_size_t, POINTER(LogHeader)]),
}

# A garbage collection may run within a call, and close another histogram.
_LOCK = threading.RLock()


def locked(call: Callable[..., Any]) -> Callable[..., Any]:
    """Returns the call, made under the lock of the package."""

    def call_locked(*arguments: Any) -> Any:
        with _LOCK:
            return call(*arguments)

    return call_locked


def guarded(call: Callable[..., Any]) -> Callable[..., Any]:
    """Returns the call, made under the lock of the package if the interpreter has none."""
    has_lock = getattr(sys, "_is_gil_enabled", lambda: True)()
    return call if has_lock else locked(call)


def library_path() -> str:
    """Returns what DECKAPRICOT_LIBRARY names, else the library beside the package or of the repository, if any.

    Otherwise it returns the name alone, which the loader searches.
    """
    name = "libdkap.so.1"
    package = Path(__file__).resolve().parent
    named = os.environ.get("DECKAPRICOT_LIBRARY")
    if named:
        return named
    for folder in (package, package.parent.parent / "capi" / "target"):
        if (folder / name).exists():
            return str(folder / name)
    return name


class Library:
    """The calls of the library, without the prefix dkap_."""

    def __init__(self) -> None:
        # PyDLL keeps the interpreter's lock during a call. CDLL would let another thread use the histogram meanwhile.
        path = library_path()
        try:
            library = ctypes.PyDLL(path)
        except OSError as error:
            raise ImportError(f"{error}: build libdkap by capi/build.sh, install it, or name it in DECKAPRICOT_LIBRARY") from None
        calls = {name: (result, [HANDLE, *arguments]) for name, (result, arguments) in _CALLS.items()}
        for name, (result, arguments) in {**calls, **_CALLS_OF_LOGS}.items():
            call = getattr(library, "dkap_" + name)
            call.restype = result
            call.argtypes = arguments
            setattr(self, name, guarded(call))
        self.strerror = library.dkap_strerror
        self.strerror.argtypes = [c_uint32]
        self.strerror.restype = c_char_p
        library.dkap_version.restype = c_char_p
        self.version: str = library.dkap_version().decode()


lib: Any = Library()


def version() -> str:
    """Returns the version of the library that is loaded."""
    return str(lib.version)


def error_of(status: int) -> Exception:
    """Returns the exception of a status that is not 0."""
    text = lib.strerror(status).decode()
    if status == OUT_OF_MEMORY:
        return MemoryError(text)
    error = _CLASSES.get(status, errors.HistogramError)(text)
    error.status = status
    return error


def check(status: int) -> None:
    """Raises the exception of a status, if it is not 0."""
    if status:
        raise error_of(status)


def check_recorded(status: int, recorded: int) -> None:
    """Raises the exception of a status, if it is not 0, with the number of values recorded before the error."""
    if status:
        error = error_of(status)
        error.recorded = recorded  # type: ignore[attr-defined]
        if status == OUT_OF_RANGE:
            error.args = (f"{error}: the value at index {recorded}",)
        raise error
