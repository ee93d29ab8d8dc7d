"""Sessions: which pages have come, and how often each function was called."""

from __future__ import annotations

from dataclasses import dataclass
from enum import Enum
from typing import TYPE_CHECKING, Any, Dict, FrozenSet, List, Optional, Sequence, Tuple, Union

from . import _library
from ._lend import numbers, zeros
from ._refusal import Refusal
from ._shape import Shape, shaped, space

if TYPE_CHECKING:
    from typing_extensions import Buffer

PAGES = 1024
FUNCTIONS = 256
BUNDLE = 64

# Where a session's values stand.
_PAGES_AT = 10
_LOWEST_AT = 11
_TAKEN_AT = 12
_CALLS_AT = 1036
_VALUES = 1292


class Way(Enum):
    """A way of reading a word that arrives: as `decode`, `decode_majority` and
    `decode_two` do.
    """

    CLEAN = 0
    VOTE = 1
    TWO = 2


KINDS = ("taken", "again", "refused")


@dataclass(frozen=True)
class Outcome:
    """What became of a word that arrived: `kind` is "taken", "again" or
    "refused".

    `number` is the page's, or the refusal's of a refused word. `changed` is
    how many symbols were restored. Written as text it is a line of the
    program's output.

    >>> print(Outcome("again", 1, 2))
    again 1 2
    """

    kind: str
    number: int
    changed: int

    @property
    def page(self) -> Optional[int]:
        """The page's number, None of a refused word."""
        return None if self.kind == "refused" else self.number

    @property
    def refusal(self) -> Optional[Refusal]:
        """The refusal of a refused word, to look at or to raise, else None."""
        return Refusal(self.number) if self.kind == "refused" else None

    def __str__(self) -> str:
        return f"{self.kind} {self.number} {self.changed}"


def _outcome(values: Sequence[int]) -> Outcome:
    return Outcome(KINDS[values[0]], values[1], values[2])


def _number(way: Union[Way, int]) -> int:
    return way.value if isinstance(way, Way) else way


class Session:
    """A session: which pages have come, and how often each function was
    called.

    A word that arrives is read, and its page is taken the first time: its
    marks are counted. After that it comes again, and nothing is counted twice.
    `Session(shape)` begins a fresh session, as `Session.fresh` does.

    >>> from array import array
    >>> session = Session.fresh(Shape(3, 2, 8))
    >>> print(session.arrive(array("I", [5, 2, 7, 3, 1, 2, 6, 3, 5])))
    taken 1 0
    >>> print(session.arrive(array("I", [12, 2, 7, 3, 1, 2, 6, 3, 5])))
    again 1 1
    >>> session.tally()
    {3: 1, 5: 1}
    """

    __slots__ = ("_memory", "_shape", "_scratch")

    def __init__(self, shape: Shape) -> None:
        self._memory = _library.SessionMemory()
        self._shape = shaped(shape)
        self._scratch = space(shape)
        _library.fresh(shape, self)

    @classmethod
    def fresh(cls, shape: Shape) -> Session:
        """A session to which no page has come."""
        return cls(shape)

    @classmethod
    def from_bytes(cls, saved: Buffer) -> Session:
        """The session that was saved as these 5,168 bytes. Refuses with 1 or
        18, its shape, or 11, its two figures beside its page marks.

        A changed count can't be told, nor another lawful shape, nor other page
        marks that leave the two figures right: keep a check sum where that may
        happen.
        """
        values = bytes(memoryview(saved))
        if len(values) != 4 * _VALUES:
            raise ValueError(f"a saved session has {4 * _VALUES} bytes, not {len(values)}")
        memory = _library.SessionMemory.from_buffer_copy(values)
        session = cls(Shape(memory[0], memory[1], memory[2], memory[3:_PAGES_AT]))
        session._memory = memory
        session.count(0)
        return session

    def to_bytes(self) -> bytes:
        """The session, to be saved: 1,292 values of four bytes each, low byte
        first.
        """
        return bytes(self._memory)

    def arrive(self, word: Buffer, way: Union[Way, int] = Way.CLEAN) -> Outcome:
        """Lets a word arrive: reads it this way, restores it in place, and
        counts the marks of its page if that has not come.

        A word whose page is taken or again is left restored, a refused one as
        it came. A refused word is an outcome, and raises nothing.
        """
        outcome = _library.OutcomeMemory()
        _library.arrive(self, _number(way), word, outcome, self._scratch)
        return _outcome(outcome)

    def arrive_all(self, words: Buffer, way: Union[Way, int] = Way.CLEAN) -> List[Outcome]:
        """Lets 1 to 64 words arrive that stand one behind the other, all read
        one way. It is as if they had arrived one by one. Refuses a whole call
        with 1, 16 or 2, and has then changed nothing.

        >>> from array import array
        >>> words = array("I", [5, 2, 7, 3, 1, 2, 6, 3, 5, 12, 2, 7, 3, 1, 2, 6, 3, 5])
        >>> [str(outcome) for outcome in Session(Shape(3, 2, 8)).arrive_all(words)]
        ['taken 1 0', 'again 1 1']
        """
        outcomes = zeros(3 * BUNDLE)
        _library.arrive_all(self, _number(way), words, outcomes, self._scratch)
        count = memoryview(words).nbytes // (4 * self._shape.word_length)
        return [_outcome(outcomes[3 * word : 3 * word + 3]) for word in range(count)]

    @property
    def shape(self) -> Shape:
        """The shape of its words."""
        return self._shape

    @property
    def pages(self) -> int:
        """How many pages are taken."""
        return self._memory[_PAGES_AT]

    @property
    def lowest(self) -> int:
        """The lowest page number that is not taken, 1024 if all are."""
        return self._memory[_LOWEST_AT]

    @property
    def calls(self) -> Tuple[int, ...]:
        """How often each of the 256 functions was called."""
        return tuple(self._memory[_CALLS_AT:])

    def tally(self) -> Dict[int, int]:
        """The functions that were called, rising, each with how often."""
        return {function: calls for function, calls in enumerate(self.calls) if calls > 0}

    def missing(self, pages: int = PAGES) -> List[int]:
        """The page numbers below `pages` that are not taken, rising.

        >>> Session(Shape(3, 2, 8)).missing(3)
        [0, 1, 2]
        """
        taken = self._memory[_TAKEN_AT : _TAKEN_AT + PAGES]
        return [page for page, mark in enumerate(taken[: max(pages, 0)]) if not mark]

    def count(self, function: int) -> int:
        """How often this function was called. Refuses with 7 above 255."""
        return _library.count(self, function)

    def bill(self, prices: Union[Buffer, Sequence[int]]) -> int:
        """The energy of the calls in whole picojoules, rounded up once. There
        are 256 prices, in thousandths of a picojoule for one call. Function 0,
        the idle loop, costs nothing. Refuses with 2 or 19.

        >>> from array import array
        >>> session = Session(Shape(3, 2, 8))
        >>> print(session.arrive(array("I", [5, 2, 7, 3, 1, 2, 6, 3, 5])))
        taken 1 0
        >>> session.bill([600] * 256)
        2
        """
        return _library.bill(self, numbers("prices", prices))

    def cover(self) -> FrozenSet[int]:
        """The functions that were called at all."""
        called = bytearray(FUNCTIONS)
        _library.cover(self, called)
        return frozenset(function for function, yes in enumerate(called) if yes)

    def __eq__(self, other: Any) -> bool:
        return isinstance(other, Session) and self.to_bytes() == other.to_bytes()

    __hash__ = None  # type: ignore[assignment]

    def __repr__(self) -> str:
        return f"<Session of {self.shape}: {self.pages} pages taken, lowest missing {self.lowest}>"

    def __reduce__(self) -> Tuple[Any, ...]:
        return (Session.from_bytes, (self.to_bytes(),))
