"""Trace captures read, restored and counted, nothing twice.

The trace of a probe comes as words of q * q symbols under a group-testing
code. Each word carries a page, and a page has marks: the numbers of the
functions that were called. This package reads words, undoes the damage in
them, and counts. It calls the proved library, and has no rule of its own.

>>> from array import array
>>> from shaftglimmer import Session, Shape
>>> session = Session.fresh(Shape(3, 2, 8))
>>> for word in [5, 2, 7, 3, 1, 2, 6, 3, 5], [12, 2, 7, 3, 1, 2, 6, 3, 5]:
...     print(session.arrive(array("I", word)))
taken 1 0
again 1 1
>>> session.tally()
{3: 1, 5: 1}

What to use for what:

    write a word, take the data out of one      encode, extract
    read a damaged word, in place               decode, decode_majority,
                                                decode_two, decode_nearest
    see how many checks reading looks at        looked
    fill in dead cells                          fill
    restore, dead cells and damage together     restore
    check a word that somebody else restored    check
    read a page, get its marks, write one       parse_page, marks, write_page
    count pages that come as words              Session
    read a capture, or a line of one            read_capture, parse_line

Memory. A list is anything with the buffer protocol that lies in one piece:
array("I"), a numpy array of uint32, or bytes, four a symbol, low byte first.
It is lent to the library as it is, aligned at 4 bytes, and nothing is copied.
A list that is only read may also be a sequence of numbers, which is copied. A
word that is read is restored in place, so it has to be writable.

Faults. What the library refuses raises Refusal, which has a number, a name, a
text and an advice. A list of a wrong length is refused so, with 2. What may
not cross to the library at all raises before the call, and nothing has been
touched then: TypeError for a list that holds something else or can't be
written, BufferError for one that is not in one piece, ValueError for numbers
that are out of range, for bytes that are no whole symbols or not aligned, and
for lists that overlap.

Threads. A call holds the interpreter's lock, so that no other thread changes
what is lent. In an interpreter without that lock this is the caller's part.

The library is found where SHAFTGLIMMER_LIB says, a file or a folder; without
it beside the package, or by the loader.
"""

from ._capture import Capture, parse_line, read_capture
from ._page import Page, marks, parse_page, write_page
from ._refusal import Refusal
from ._session import Outcome, Session, Way
from ._shape import Shape
from ._words import (
    check,
    decode,
    decode_majority,
    decode_nearest,
    decode_two,
    encode,
    extract,
    fill,
    looked,
    restore,
)

__version__ = "0.1.0"

__all__ = [
    "Capture",
    "Outcome",
    "Page",
    "Refusal",
    "Session",
    "Shape",
    "Way",
    "check",
    "decode",
    "decode_majority",
    "decode_nearest",
    "decode_two",
    "encode",
    "extract",
    "fill",
    "looked",
    "marks",
    "parse_line",
    "parse_page",
    "read_capture",
    "restore",
    "write_page",
]
