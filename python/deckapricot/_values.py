"""Numbers as the library takes them: arrays of 64-bit integers in memory, and exact fractions."""

from __future__ import annotations

import ctypes
import sys
from array import array
from collections.abc import Iterator
from contextlib import contextmanager
from ctypes import POINTER, byref, c_char_p, c_int, c_size_t, c_ssize_t, c_void_p, py_object
from decimal import Decimal
from fractions import Fraction
from math import isnan
from numbers import Rational
from operator import index
from typing import Any, Optional, Union

from ._library import BUFFER_TOO_SMALL, U64_MAX, check

Number = Union[int, float, str, Decimal, Fraction, Rational]


class _Buffer(ctypes.Structure):
    """Py_buffer, of Python's C interface."""

    _fields_ = [
        ("buf", c_void_p),
        ("obj", c_void_p),
        ("len", c_ssize_t),
        ("itemsize", c_ssize_t),
        ("readonly", c_int),
        ("ndim", c_int),
        ("format", c_char_p),
        ("shape", POINTER(c_ssize_t)),
        ("strides", POINTER(c_ssize_t)),
        ("suboffsets", POINTER(c_ssize_t)),
        ("internal", c_void_p),
    ]


_get_buffer = ctypes.pythonapi.PyObject_GetBuffer
_get_buffer.argtypes = [py_object, POINTER(_Buffer), c_int]
_get_buffer.restype = c_int
_release_buffer = ctypes.pythonapi.PyBuffer_Release
_release_buffer.argtypes = [POINTER(_Buffer)]
_release_buffer.restype = None

# An address that is not null, for an empty array.
_NOTHING = (ctypes.c_uint64 * 1)()
NOTHING = ctypes.addressof(_NOTHING)


@contextmanager
def memory(source: Any) -> Iterator[tuple[int, int]]:
    """Yields the address and the number of bytes of a contiguous buffer, which may be read-only. It is not copied."""
    buffer = _Buffer()
    _get_buffer(source, byref(buffer), 0)
    try:
        yield buffer.buf or NOTHING, buffer.len
    finally:
        _release_buffer(byref(buffer))


def written(call: Any, *arguments: Any) -> bytes:
    """Returns the bytes that a call writes. Its last arguments are a buffer, its length, and the number of bytes."""
    needed = c_size_t(4096)
    status = BUFFER_TOO_SMALL
    while status == BUFFER_TOO_SMALL:
        buffer = bytearray(needed.value)
        with memory(buffer) as (address, length):
            status = call(*arguments, address, length, byref(needed))
    check(status)
    return bytes(buffer[: needed.value])


def words(values: Any, scale: Optional[float] = None) -> memoryview:
    """Returns values as an array of unsigned 64-bit integers: with a scale, each times it and rounded.

    An array of 64-bit integers is not copied: array.array, NumPy arrays, pandas Series. An array of other integers is
    converted at once if NumPy is there.
    """
    values = _series(values)
    dtype = getattr(values, "dtype", None)
    if getattr(values, "ndim", 1) != 1:
        raise TypeError(f"the values have {values.ndim} dimensions: pass one column, or values.ravel()")
    if dtype is None and scale is None:
        return _plain(values)
    if dtype is None or dtype.kind == "O":
        return memoryview(array("Q", _scaled(values, scale)))
    if scale is not None:
        return memoryview(_scaled_array(values, scale))
    if dtype.kind not in "ui":
        raise TypeError(f"the values are of type {dtype}: integers are wanted, or floats with scale=")
    if dtype.kind == "i" and values.size and values.min() < 0:
        raise OverflowError("a value is negative")
    same = dtype.itemsize == 8 and dtype.isnative and values.flags.c_contiguous
    return memoryview(values if same else values.astype("u8", order="C"))


def _series(values: Any) -> Any:
    """Returns the NumPy array of a pandas Series, Index or array, or other values as they are."""
    if not hasattr(values, "to_numpy"):
        return values
    dtype = getattr(values, "dtype", None)
    numpy_dtype = getattr(dtype, "numpy_dtype", None)
    if numpy_dtype is None:
        return values.to_numpy()
    if values.isna().any():
        raise ValueError("a value is missing")
    return values.to_numpy(dtype=numpy_dtype)


def _plain(values: Any) -> memoryview:
    """Returns the values of a buffer or an iterable of integers."""
    try:
        view = memoryview(values)
    except TypeError:
        return memoryview(array("Q", values))
    if view.ndim != 1:
        raise TypeError(f"the values have {view.ndim} dimensions, and not one")
    is_words = view.itemsize == 8 and view.c_contiguous
    if is_words and view.format in ("Q", "L"):
        return view
    if is_words and view.format in ("q", "l"):
        if _has_negative(view):
            raise OverflowError("a value is negative")
        return view
    if view.format in ("f", "d"):
        raise TypeError("the values are floats: integers are wanted, or floats with scale=")
    numpy = sys.modules.get("numpy")
    return memoryview(array("Q", iter(view))) if numpy is None else words(numpy.asarray(view))


def _has_negative(view: memoryview) -> bool:
    """Whether a 64-bit integer is negative: whether its highest byte is not ASCII."""
    if view.nbytes == 0:
        return False
    highest = 7 if sys.byteorder == "little" else 0
    return not view.cast("B")[highest::8].tobytes().isascii()


def _scaled(values: Any, scale: Optional[float]) -> Iterator[int]:
    """Yields each value as an integer: with a scale, times it and rounded."""
    for value in values:
        if scale is None:
            yield index(value)
        elif isnan(value):
            raise ValueError("a value is not a number")
        else:
            yield word(round(value * scale))


def _scaled_array(values: Any, scale: float) -> Any:
    """Returns a NumPy array of numbers times a scale, rounded."""
    if values.dtype.kind not in "uif":
        raise TypeError(f"the values are of type {values.dtype}: numbers are wanted")
    scaled = values.astype("f8") * scale
    if scaled.size == 0:
        return scaled.astype("u8")
    # A NaN is both the least and the greatest.
    least, greatest = float(scaled.min()), float(scaled.max())
    if isnan(least):
        raise ValueError("a value is not a number")
    if least < -0.5 or greatest >= 2.0**64:
        raise OverflowError("a value times the scale is not from 0 to 2**64 - 1")
    return scaled.round(out=scaled).astype("u8")


def word(number: Any, name: str = "value") -> int:
    """Returns an integer of 64 bits without sign."""
    number = index(number)
    if not 0 <= number <= U64_MAX:
        raise OverflowError(f"{name} {number} is not from 0 to 2**64 - 1")
    return int(number)


def exact(number: Number) -> Fraction:
    """Returns a number as a fraction. A float is taken as the decimal number that Python prints: 0.1 as 1/10."""
    if isinstance(number, float):
        number = float.__repr__(number)
    return Fraction(number)
