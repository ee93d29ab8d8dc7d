"""Memory that is lent to the library for the time of one call.

The library tests lengths itself. What it can't test is tested here, before a
call crosses: that a pointer is not null, aligned and good for its length, that
what is written may be written, and that nothing of it overlaps with anything
else.
"""

from __future__ import annotations

import ctypes
import operator
from array import array
from typing import Any, List, Optional, Sequence


class _View(ctypes.Structure):
    """CPython's Py_buffer."""

    _fields_ = [
        ("buf", ctypes.c_void_p),
        ("obj", ctypes.c_void_p),
        ("len", ctypes.c_ssize_t),
        ("itemsize", ctypes.c_ssize_t),
        ("readonly", ctypes.c_int),
        ("ndim", ctypes.c_int),
        ("format", ctypes.c_char_p),
        ("shape", ctypes.c_void_p),
        ("strides", ctypes.c_void_p),
        ("suboffsets", ctypes.c_void_p),
        ("internal", ctypes.c_void_p),
    ]


# Functions of our own, since argtypes of ctypes.pythonapi would be everybody's.
_python = ctypes.PyDLL(None)
_get = _python.PyObject_GetBuffer
_get.argtypes = [ctypes.py_object, ctypes.POINTER(_View), ctypes.c_int]
_get.restype = ctypes.c_int
_release = _python.PyBuffer_Release
_release.argtypes = [ctypes.POINTER(_View)]
_release.restype = None

# PyBUF_C_CONTIGUOUS and PyBUF_FORMAT.
_CONTIGUOUS_WITH_FORMAT = 0x38 | 0x04

# Where an empty list is said to be: its own pointer may be null.
_nowhere = ctypes.c_uint64()
_NOWHERE = ctypes.addressof(_nowhere)


class Lent:
    """A list that is lent: address, and length in elements. Its owner can't
    move it until it is given back.
    """

    __slots__ = ("name", "written", "address", "length", "size", "_view")

    def __init__(self, name: str, owner: Any, element: int, written: bool) -> None:
        self.name = name
        self.written = written
        self._view: Optional[_View] = None
        view = _View()
        try:
            _get(owner, ctypes.byref(view), _CONTIGUOUS_WITH_FORMAT)
        except TypeError:
            raise TypeError(f"{name} has to be a buffer, not {type(owner).__name__}") from None
        except (BufferError, ValueError) as fault:
            raise BufferError(f"{name}: {fault}") from None
        self._view = view
        try:
            _test(name, view, element, written)
        except BaseException:
            self.give_back()
            raise
        self.size = view.len
        self.length = view.len // element
        self.address = view.buf if view.len else _NOWHERE

    def overlaps(self, other: Lent) -> bool:
        """Whether a byte is in both."""
        return max(self.address, other.address) < min(self.address + self.size, other.address + other.size)

    def give_back(self) -> None:
        """Ends the loan."""
        view, self._view = self._view, None
        if view is not None:
            _release(ctypes.byref(view))


def _test(name: str, view: _View, element: int, written: bool) -> None:
    """Type, whole elements, alignment, and whether it may be written."""
    code = (view.format or b"B").decode().lstrip("@=<")
    if not (view.itemsize == 1 and code in ("B", "c") or view.itemsize == element == 4 and code in ("I", "L")):
        wanted = "unsigned values of 4 bytes, or bytes" if element == 4 else "bytes"
        raise TypeError(f"{name} has to hold {wanted}, not elements of format {view.format!r}")
    if written and view.readonly:
        raise TypeError(f"{name} has to be writable")
    if view.len % element:
        raise ValueError(f"{name} has {view.len} bytes, which are not whole values of {element}")
    if view.len and view.buf % element:
        raise ValueError(f"{name} is not aligned at {element} bytes: hand in a copy")


def test_apart(lists: List[Lent]) -> None:
    """What is written overlaps with nothing."""
    for at, one in enumerate(lists):
        for other in lists[:at]:
            if (one.written or other.written) and one.overlaps(other):
                raise ValueError(f"{other.name} and {one.name} overlap")


def u32(name: str, number: Any) -> int:
    """The number, if a u32 can hold it."""
    value = operator.index(number)
    if not 0 <= value < 1 << 32:
        raise ValueError(f"{name} has to be from 0 to 2^32 - 1, not {value}")
    return value


def zeros(count: int) -> array[int]:
    """So many values of u32."""
    return array("I", bytes(4 * count))


def numbers(name: str, values: Any) -> Any:
    """A list that is only read, as a buffer: as it is if it is one, else
    copied if it is a sequence of numbers.
    """
    try:
        with memoryview(values):
            return values
    except TypeError:
        if not isinstance(values, Sequence) or isinstance(values, str):
            kind = type(values).__name__
            raise TypeError(f"{name} has to be a buffer or a sequence of numbers, not {kind}") from None
    return array("I", [u32(f"a value of {name}", value) for value in values])
