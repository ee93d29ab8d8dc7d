"""Words: written, read, filled in, restored, checked."""

from __future__ import annotations

from array import array
from typing import TYPE_CHECKING, Sequence, Union

from . import _library
from ._lend import numbers, zeros
from ._shape import Shape, shaped, space

if TYPE_CHECKING:
    from typing_extensions import Buffer


def encode(shape: Shape, data: Union[Buffer, Sequence[int]]) -> array[int]:
    """The codeword with these information symbols. Refuses with 2 or 3.

    >>> encode(Shape(3, 2, 3), [3, 5, 6, 7])
    array('I', [7, 5, 2, 6, 3, 5, 1, 6, 7])
    """
    scratch, word = space(shape), zeros(shape.word_length)
    _library.encode(shape, numbers("data", data), word, scratch)
    return word


def extract(shape: Shape, word: Union[Buffer, Sequence[int]]) -> array[int]:
    """The information symbols of a word, codeword or not. Refuses with 2 or 3.

    >>> extract(Shape(3, 2, 3), [7, 5, 2, 6, 3, 5, 1, 6, 7])
    array('I', [3, 5, 6, 7])
    """
    scratch, data = space(shape), zeros(shape.data_length)
    _library.extract(shape, numbers("word", word), data, scratch)
    return data


def decode(shape: Shape, word: Buffer) -> int:
    """Reads a damaged word in place, the clean way: undoes damage to at most n
    - 1 symbols that no check hides.

    Gives the number of symbols changed. Refuses with 2, 3 or 4, and then
    leaves the word as it came.

    >>> word = array("I", [12, 2, 7, 3, 1, 2, 6, 3, 5])
    >>> decode(Shape(3, 2, 8), word)
    1
    >>> word
    array('I', [5, 2, 7, 3, 1, 2, 6, 3, 5])
    """
    return _library.decode(shape, word)


def decode_majority(shape: Shape, word: Buffer) -> int:
    """Reads a damaged word in place, by vote: undoes any damage to at most n /
    2 symbols, rounded down.

    Gives the number of symbols changed. Refuses with 2, 3 or 15, and then
    leaves the word as it came.
    """
    return _library.decode_majority(shape, word)


def decode_two(shape: Shape, word: Buffer) -> int:
    """Reads a damaged word in place: undoes any damage to at most two symbols,
    where there are three directions or more.

    Gives the number of symbols changed. Refuses with 16, 2, 3 or 17, and then
    leaves the word as it came.

    >>> word = array("I", [3, 6, 5, 2, 4, 6, 6, 5, 3])  # 7 stands on two symbols of one row, where it cancels
    >>> decode_two(Shape(3, 3, 3), word)
    2
    >>> word
    array('I', [3, 6, 5, 5, 3, 6, 6, 5, 3])
    """
    return _library.decode_two(shape, word)


def decode_nearest(shape: Shape, word: Buffer) -> int:
    """Reads a damaged word in place: undoes any damage to at most n - 1
    symbols, whether checks hide it or not.

    Gives the number of symbols changed. Refuses with 2, 3 or 20, and then
    leaves the word as it came. What it has restored arrives at a session the
    clean way.

    >>> word = array("I", [3, 6, 5, 2, 4, 6, 6, 5, 3])
    >>> decode_nearest(Shape(3, 3, 3), word)
    2
    """
    return _library.decode_nearest(shape, word)


def fill(shape: Shape, places: Union[Buffer, Sequence[int]], word: Buffer) -> int:
    """Fills a word in where the symbols at these places, in rising order, are
    not to be believed.

    Gives the number of symbols changed. Refuses with 2, 3, 12, 13 or 14, and
    then leaves the word as it came.

    >>> word = array("I", [0, 2, 7, 3, 1, 2, 6, 3, 0])
    >>> fill(Shape(3, 2, 8), [0, 8], word)
    2
    >>> word
    array('I', [5, 2, 7, 3, 1, 2, 6, 3, 5])
    """
    return _library.fill(shape, numbers("places", places), word, space(shape))


def restore(shape: Shape, places: Union[Buffer, Sequence[int]], word: Buffer) -> int:
    """Restores a word with dead cells and other damage: undoes anything at the
    f listed places, which rise, and any damage to e other symbols as long as 2
    * e + f is below 2 * n.

    Gives the number of symbols changed. Refuses with 2, 3, 12, 20 or 14, and
    then leaves the word as it came. A 14 never comes with fewer than 2 * n
    places.

    >>> word = array("I", [0, 2, 7, 3, 1, 2, 6, 3, 9])  # cell 0 is gone, and symbol 8 is wrong besides
    >>> restore(Shape(3, 2, 8), [0], word)
    2
    >>> word
    array('I', [5, 2, 7, 3, 1, 2, 6, 3, 5])
    """
    return _library.restore(shape, numbers("places", places), word, space(shape))


def check(shape: Shape, received: Union[Buffer, Sequence[int]], proposed: Union[Buffer, Sequence[int]]) -> bool:
    """Whether a word that somebody else restored is the one that `decode`
    makes of the received word. Refuses with 2 or 3.

    >>> check(Shape(3, 2, 8), [12, 2, 7, 3, 1, 2, 6, 3, 5], [5, 2, 7, 3, 1, 2, 6, 3, 5])
    True
    """
    return _library.check(shape, numbers("received", received), numbers("proposed", proposed)) == 1


def looked(shape: Shape, word: Union[Buffer, Sequence[int]]) -> array[int]:
    """How many checks of each symbol `decode` looks at, up to the first that
    is silent. Refuses with 2 or 3.

    >>> looked(Shape(3, 3, 3), [3, 6, 5, 2, 2, 6, 6, 5, 3])
    array('I', [1, 1, 1, 3, 3, 2, 1, 1, 1])
    """
    found = zeros(shaped(shape).word_length)
    _library.looked(shape, numbers("word", word), found)
    return found
