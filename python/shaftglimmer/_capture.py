"""Captures as text."""

from __future__ import annotations

import os
from array import array
from dataclasses import dataclass
from typing import IO, TYPE_CHECKING, Any, Iterator, List, Optional, Union

from . import _library
from ._refusal import Refusal
from ._session import Outcome, Session, Way
from ._shape import Shape

if TYPE_CHECKING:
    from typing_extensions import Buffer

# The bytes of a line with its newline, at most.
LINE = 16384

# The refusal of a line that is malformed.
TEXT = 10


@dataclass(frozen=True)
class Capture:
    """What a capture came to: the session, and an outcome for each word line.
    """

    session: Session
    outcomes: List[Outcome]


def parse_line(line: Buffer) -> array[int]:
    """The values of a line of a capture, which comes without its newline.
    Refuses with 10. Of more than 1,024 values these are the first.

    >>> parse_line(b"12 2 7")
    array('I', [12, 2, 7])
    """
    return array("I", _values(line).tobytes())


def _values(line: Buffer) -> memoryview:
    """The same, where the library has written them."""
    values = _library.LineMemory()
    return memoryview(values)[: _library.parse_line(line, values)]


def read_capture(file: Union[str, os.PathLike[str], IO[bytes]], way: Union[Way, int] = Way.CLEAN) -> Capture:
    """Reads a capture: a file's name, or a file that is open for reading
    bytes. Every word is read this way.

    The session and the outcomes are those of the program `tally`, which reads
    every word the clean way. A malformed line is an outcome too, refused with
    10. Only a fault in lines 1 to 3 raises: Refusal 10 or 1, with the line's
    number. Unlike the program it reads a capture of any length.

    >>> import io
    >>> text = b"q n b\\n3 2 8\\nword\\n5 2 7 3 1 2 6 3 5\\n1 0 0 0 1 0 0 0 0\\n"
    >>> capture = read_capture(io.BytesIO(text))
    >>> [str(outcome) for outcome in capture.outcomes]
    ['taken 1 0', 'refused 4 0']
    >>> capture.session.tally()
    {3: 1, 5: 1}
    """
    if isinstance(file, (str, os.PathLike)):
        with open(file, "rb") as opened:
            return read_capture(opened, way)
    if not hasattr(file, "readline"):
        raise TypeError(f"file has to be a file or its name, not {type(file).__name__}")
    lines = _lines(file)
    if next(lines, None) != b"q n b":
        raise Refusal(TEXT, line=1)
    shape = _shape(next(lines, None))
    if next(lines, None) != b"word":
        raise Refusal(TEXT, line=3)
    session = Session.fresh(shape)
    return Capture(session, [_arrive(session, line, way) for line in lines])


def _lines(file: IO[bytes]) -> Iterator[Optional[bytes]]:
    """Each line without its newline, None for one that is too long or has
    none.
    """
    while True:
        line = file.readline(LINE)
        if not isinstance(line, bytes):
            raise TypeError("a capture is read from a file that is open for reading bytes")
        if not line:
            return
        if line.endswith(b"\n"):
            yield line[:-1]
            continue
        while line and not line.endswith(b"\n"):
            line = file.readline(LINE)
        yield None


def _shape(line: Optional[bytes]) -> Shape:
    """The shape that line 2 gives."""
    try:
        values: Any = [] if line is None else parse_line(line)
        if len(values) != 3:
            raise Refusal(TEXT)
        return Shape(*values)
    except Refusal as refusal:
        raise Refusal(refusal.number, line=2) from None


def _arrive(session: Session, line: Optional[bytes], way: Union[Way, int]) -> Outcome:
    """The outcome of a word line."""
    try:
        if line is None:
            raise Refusal(TEXT)
        return session.arrive(_values(line), way)
    except Refusal as refusal:
        return Outcome("refused", refusal.number, 0)
