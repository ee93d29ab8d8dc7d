"""The page in a word's information symbols."""

from __future__ import annotations

from array import array
from dataclasses import dataclass
from typing import TYPE_CHECKING, Sequence, Tuple, Union

from . import _library
from ._lend import numbers, zeros
from ._shape import Shape, shaped

if TYPE_CHECKING:
    from typing_extensions import Buffer


@dataclass(frozen=True)
class Page:
    """A page: its number, below 1024, and its marks, which are the numbers of
    the functions called. A mark 0 is the idle loop, which is no call.
    """

    number: int
    marks: Tuple[int, ...]


def parse_page(shape: Shape, data: Union[Buffer, Sequence[int]]) -> Page:
    """Reads the page in these information symbols. Refuses with 2, 3, 5, 6, 7
    or 8.

    >>> parse_page(Shape(3, 2, 8), [1, 2, 3, 5])
    Page(number=1, marks=(3, 5))
    """
    data = numbers("data", data)
    number = _library.parse_page(shape, data) // 1024
    found = zeros(shape.data_length)
    return Page(number, tuple(found[: _library.marks(shape, data, found)]))


def marks(shape: Shape, data: Union[Buffer, Sequence[int]]) -> Tuple[int, ...]:
    """The marks of the page in these information symbols. Refuses as
    `parse_page` does.

    >>> marks(Shape(3, 2, 8), [1, 2, 3, 5])
    (3, 5)
    """
    return parse_page(shape, data).marks


def write_page(shape: Shape, number: int, marks: Union[Buffer, Sequence[int]]) -> array[int]:
    """The information symbols of the page with this number and these marks.
    Refuses with 5, 6, 7 or 3.

    >>> write_page(Shape(3, 2, 8), 1, [3, 5])
    array('I', [1, 2, 3, 5])
    """
    data = zeros(shaped(shape).data_length)
    _library.write_page(shape, number, numbers("marks", marks), data)
    return data
