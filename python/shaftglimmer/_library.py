"""The shared library: where it is found, and its functions, each declared
once.
"""

from __future__ import annotations

import ctypes
import os
from pathlib import Path
from typing import Any, Iterator, List, Tuple, Type

from ._lend import Lent, test_apart, u32
from ._refusal import Refusal

SONAME = "libshaftglimmer.so.2"

# What has one length only, and crosses without it.
ShapeMemory = ctypes.c_uint32 * 10
SessionMemory = ctypes.c_uint32 * 1292
OutcomeMemory = ctypes.c_uint32 * 3
LineMemory = ctypes.c_uint32 * 1024


def _places() -> Iterator[str]:
    """Where the library may be: the file or folder that SHAFTGLIMMER_LIB names
    and no other, or else the places beside this package, and then the name
    alone, for the loader to find.
    """
    named = os.environ.get("SHAFTGLIMMER_LIB")
    if named:
        yield named if os.path.isfile(named) else os.path.join(named, SONAME)
        return
    package = Path(__file__).resolve().parent
    # in the package; in PREFIX/lib, from PREFIX/share/shaftglimmer/python and from PREFIX/lib/python3.x/site-packages; in
    # the repository
    for place in (".", "../../../../lib", "../../..", "../../target"):
        found = package / place / SONAME
        if found.is_file():
            yield os.path.normpath(found)
    yield SONAME


def _load() -> ctypes.PyDLL:
    """The first that can be loaded. A call holds the interpreter's lock, so
    that no thread changes what is lent meanwhile.
    """
    faults = []
    for place in _places():
        try:
            return ctypes.PyDLL(place)
        except OSError as fault:
            faults.append(str(fault))
    raise ImportError(
        f"{SONAME} can't be loaded ({'; '.join(faults)}). Install it with `make install`, then run `ldconfig`, "
        "or name its folder in the environment variable SHAFTGLIMMER_LIB."
    )


_library = _load()


class Number:
    """A number that crosses as it is."""

    types: List[Any] = [ctypes.c_uint32]

    def __init__(self, name: str) -> None:
        self.name = name

    def crossing(self, argument: Any, lent: List[Lent]) -> Tuple[Any, ...]:
        return (u32(self.name, argument),)


class Fixed:
    """Memory of this package that has one length only: that of a shape, a
    session, an outcome.
    """

    def __init__(self, name: str, memory: Type[Any]) -> None:
        self.name = name
        self.memory = memory
        self.types = [ctypes.POINTER(memory)]

    def crossing(self, argument: Any, lent: List[Lent]) -> Tuple[Any, ...]:
        memory = getattr(argument, "_memory", argument)
        if not isinstance(memory, self.memory):
            raise TypeError(f"{self.name} has to be a {self.name.capitalize()}, not {type(argument).__name__}")
        return (ctypes.byref(memory),)


class Slice:
    """A list that is lent, as a pointer and its length."""

    types = [ctypes.c_void_p, ctypes.c_size_t]

    def __init__(self, name: str, written: bool = False, element: int = 4) -> None:
        self.name = name
        self.written = written
        self.element = element

    def crossing(self, argument: Any, lent: List[Lent]) -> Tuple[Any, ...]:
        one = Lent(self.name, argument, self.element, self.written)
        lent.append(one)
        return (one.address, one.length)


class Function:
    """A function of the library. Called, it tests and lends its arguments, and
    gives the answer or raises the refusal.
    """

    def __init__(self, name: str, *parameters: Any, answer: Any = ctypes.c_uint32, refused: int = 1 << 31) -> None:
        self._parameters = parameters
        self._refused = refused
        self._call = getattr(_library, "shaftglimmer_" + name)
        self._call.argtypes = [kind for parameter in parameters for kind in parameter.types]
        self._call.restype = answer

    def __call__(self, *arguments: Any) -> int:
        lent: List[Lent] = []
        try:
            crossing: List[Any] = []
            for parameter, argument in zip(self._parameters, arguments):
                crossing += parameter.crossing(argument, lent)
            test_apart(lent)
            answer: int = self._call(*crossing)
        finally:
            for one in lent:
                one.give_back()
        if answer >= self._refused:
            raise Refusal(answer - self._refused)
        return answer


def _read(name: str, element: int = 4) -> Slice:
    return Slice(name, element=element)


def _written(name: str, element: int = 4) -> Slice:
    return Slice(name, written=True, element=element)


_shape = Fixed("shape", ShapeMemory)
_session = Fixed("session", SessionMemory)
_scratch = _written("scratch")

version = Function("version")
text = Function("text", Number("refusal"), _written("text", element=1))
parse_line = Function("parse_line", _read("line", element=1), Fixed("values", LineMemory))

word_length = Function("word_length", _shape)
data_length = Function("data_length", _shape)
scratch_length = Function("scratch_length", _shape)

encode = Function("encode", _shape, _read("data"), _written("word"), _scratch)
extract = Function("extract", _shape, _read("word"), _written("data"), _scratch)
decode = Function("decode", _shape, _written("word"))
decode_majority = Function("decode_majority", _shape, _written("word"))
decode_two = Function("decode_two", _shape, _written("word"))
decode_nearest = Function("decode_nearest", _shape, _written("word"))
fill = Function("fill", _shape, _read("places"), _written("word"), _scratch)
restore = Function("restore", _shape, _read("places"), _written("word"), _scratch)
check = Function("check", _shape, _read("received"), _read("proposed"))
looked = Function("looked", _shape, _read("word"), _written("looked"))

parse_page = Function("parse_page", _shape, _read("data"))
marks = Function("marks", _shape, _read("data"), _written("marks"))
write_page = Function("write_page", _shape, Number("number"), _read("marks"), _written("data"))

fresh = Function("fresh", _shape, _session)
arrive = Function("arrive", _session, Number("way"), _written("word"), Fixed("outcome", OutcomeMemory), _scratch)
arrive_all = Function("arrive_all", _session, Number("way"), _written("words"), _written("outcomes"), _scratch)
count = Function("count", _session, Number("function"), answer=ctypes.c_uint64, refused=1 << 32)
bill = Function("bill", _session, _read("prices"), answer=ctypes.c_uint64, refused=1 << 63)
cover = Function("cover", _session, _written("bytes", element=1))
