"""The shape of words."""

from __future__ import annotations

from array import array
from typing import Any, Sequence, Tuple

from . import _library
from ._lend import u32, zeros
from ._refusal import Refusal

SLOPES = 7


class Shape:
    """The shape of words: order q, directions n, width b, and the slopes of
    the directions.

    A word has q * q symbols below 2^b. The order q is 3, 5, 7, 11, 13, 17, 19,
    23, 29 or 31. There are n directions, from 2 to the smaller of q and 8, and
    b is 1 to 32. The first n - 1 slopes are below q and differ. Most probes
    have the standard ones, 0, 1, 2, .. There are only shapes that the library
    accepts: others raise Refusal 1 or 18.

    >>> shape = Shape(17, 4, 32)
    >>> shape.word_length, shape.data_length, shape.most_marks
    (289, 224, 222)
    >>> Shape(5, 3, 8, slopes=[2, 4])
    Shape(5, 3, 8, slopes=(2, 4, 0, 0, 0, 0, 0))
    """

    STANDARD = (0, 1, 2, 3, 4, 5, 6)

    __slots__ = ("_memory", "_word_length", "_data_length", "_scratch_length")

    def __init__(self, q: int, n: int, b: int, slopes: Sequence[int] = STANDARD) -> None:
        head = [u32(name, value) for name, value in (("q", q), ("n", n), ("b", b))]
        tail = [u32("a slope", slope) for slope in slopes]
        if len(tail) > SLOPES or len(tail) < min(head[1] - 1, SLOPES):
            raise ValueError(f"there are {len(tail)} slopes: {head[1]} directions need {head[1] - 1}, {SLOPES} at most")
        self._memory = _library.ShapeMemory(*head, *tail)
        self._word_length = _library.word_length(self)
        self._data_length = _library.data_length(self)
        self._scratch_length = _library.scratch_length(self)
        if self._word_length == 0:
            self._refuse()

    def _refuse(self) -> None:
        """A reader that is lent no symbol says what is wrong with the shape."""
        _library.decode(self, zeros(0))
        raise Refusal(1)

    @property
    def q(self) -> int:
        """The order: a word is a square of q rows and q columns."""
        return self._memory[0]

    @property
    def n(self) -> int:
        """The number of directions."""
        return self._memory[1]

    @property
    def b(self) -> int:
        """The width: symbols are below 2^b."""
        return self._memory[2]

    @property
    def slopes(self) -> Tuple[int, ...]:
        """The seven slopes, of which the first n - 1 count."""
        return tuple(self._memory[3:])

    @property
    def word_length(self) -> int:
        """How many symbols a word has."""
        return self._word_length

    @property
    def data_length(self) -> int:
        """How many information symbols a word has, which are a page's symbols."""
        return self._data_length

    @property
    def scratch_length(self) -> int:
        """How many values of working space a call needs. This package lends it
        by itself.
        """
        return self._scratch_length

    @property
    def most_marks(self) -> int:
        """How many marks a page holds."""
        return self._data_length - 2

    def __eq__(self, other: Any) -> bool:
        return isinstance(other, Shape) and bytes(self._memory) == bytes(other._memory)

    def __hash__(self) -> int:
        return hash(bytes(self._memory))

    def __repr__(self) -> str:
        slopes = "" if self.slopes == self.STANDARD else f", slopes={self.slopes}"
        return f"Shape({self.q}, {self.n}, {self.b}{slopes})"

    def __reduce__(self) -> Tuple[Any, ...]:
        return (Shape, (self.q, self.n, self.b, self.slopes))


def shaped(shape: Any) -> Shape:
    """The shape, if it is one."""
    if not isinstance(shape, Shape):
        raise TypeError(f"shape has to be a Shape, not {type(shape).__name__}")
    return shape


def space(shape: Any) -> array[int]:
    """Working space for one call."""
    return zeros(shaped(shape).scratch_length)
