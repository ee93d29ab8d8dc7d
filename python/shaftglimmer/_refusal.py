"""Refusals: their numbers, names, texts, and what to do about each."""

from __future__ import annotations

from typing import Any, Dict, Optional, Tuple

# Number: name, when it comes, what to do about it, as docs/ANSWERS.md has them.
REFUSALS: Dict[int, Tuple[str, str, str]] = {
    1: (
        "shape",
        "q, n or b is outside its list: q is one of 3, 5, 7, 11, 13, 17, 19, 23, 29, 31; n goes from 2 to the smaller of q and 8; b goes from 1 to 32. Or an arrival names a way of reading other than 0, 1 and 2.",
        "Correct line 2 of the capture, or the shape or the way that was handed in.",
    ),
    2: (
        "length",
        "A word line does not have q×q values. Or a lent slice has the wrong length.",
        "Check that shape and capture belong together. A single such line was cut, or run together with another: have the page sent again.",
    ),
    3: (
        "width",
        "A symbol is 2^b or more.",
        "Check b. If it is right, the line was damaged where the code does not reach: have the page sent again.",
    ),
    4: (
        "damage",
        "No unmasked damage to at most n - 1 symbols explains the word. (Unmasked damage is what the trade calls clean: no check hides it.)",
        "With the library read the nearest codeword, which undoes hidden damage too. Otherwise have the page sent again. The word is left as it came.",
    ),
    5: (
        "page",
        "The page number is 1024 or more.",
        "The word is no page of this format: check the shape, then the sender.",
    ),
    6: (
        "count",
        "There are more marks than a page holds, (q - 1)(q + 1 - n) - 2.",
        "The word is no page of this format: check the shape, then the sender.",
    ),
    7: (
        "function",
        "A function number is above 255.",
        "The word is no page of this format: check the shape, then the sender. In a count query, ask for 0 to 255.",
    ),
    8: (
        "tail",
        "A symbol after the last mark is not zero.",
        "The word is no page of this format: check the shape, then the sender.",
    ),
    9: (
        "worn",
        "A count would pass 2^32 - 1. Only a session that was not grown from a fresh one meets it.",
        "Begin a fresh session.",
    ),
    10: (
        "text",
        "A line is malformed, too long, or without its newline. Or one of the first three lines is missing, or is not `q n b`, three values, `word`.",
        "Look at that line. The usual causes are tabs, doubled or trailing spaces, carriage returns, leading zeros, and a cut end.",
    ),
    11: (
        "figures",
        "The two figures of a session, pages taken and lowest page missing, are not what its page marks say. Only a session from elsewhere meets it.",
        "Have the session handed over again whole, or begin a fresh one.",
    ),
    12: (
        "places",
        "The list of dead cells is not strictly rising, or names a place beyond the word.",
        "Sort the list and drop repeats. Check that list and shape belong together.",
    ),
    13: (
        "unfillable",
        "No codeword agrees with the symbols outside the list.",
        "There is damage outside the list: restore the word with the same list, which undoes it as far as it can be told. Otherwise have the page sent again.",
    ),
    14: (
        "ambiguous",
        "The list leaves more than one codeword. It never comes with up to 2n - 1 places.",
        "Too many cells are gone for this word: have the page sent again over other cells.",
    ),
    15: (
        "no majority",
        "Reading by vote: no codeword differs from the word in at most n/2 symbols.",
        "Read it the clean way, which undoes up to n - 1 symbols where no check hides the damage, or read the nearest codeword. Or have the page sent again. The word is left as it came.",
    ),
    16: (
        "directions",
        "Reading two wrong symbols: the shape has two directions, and two wrong symbols can't be told there.",
        "Read the word the clean way or by vote.",
    ),
    17: (
        "beyond two",
        "Reading two wrong symbols: no codeword differs from the word in at most two.",
        "With n of 4 or more read the nearest codeword, or try another way, which may undo more. Otherwise have the page sent again. The word is left as it came.",
    ),
    18: (
        "slope",
        "One of the first n - 1 slopes is not below q, or stands twice.",
        "Correct the slopes that were handed in.",
    ),
    19: (
        "bill",
        "Calls times price come to more than 2^64 - 1 thousandths of a picojoule. The pages of a recording do not have so many marks.",
        "Check the counts that were handed in.",
    ),
    20: (
        "far",
        "No codeword is within reach. Reading the nearest codeword: none differs from the word in at most n - 1 symbols. Restoring a word with f dead cells: none differs in at most (2n - 1 - f)/2 symbols outside the list, rounded down, or in none if f is 2n - 1 or more.",
        "If the memory test names dead cells, restore the word with the list of all of them. Otherwise have the page sent again: no other reading undoes more. The word is left as it came.",
    ),
}

# A later library may have more.
_UNKNOWN = ("unknown", "This package does not know the refusal.", "Take the package that came with the library.")


class Refusal(Exception):
    """A call that the library has refused. It has changed nothing that was
    lent to it.

    Of several faults the first test of the function tells. `line` is the line
    of a capture, where it is about one of the first three, and None elsewhere.

    >>> from shaftglimmer import Refusal, Shape
    >>> try:
    ...     Shape(9, 2, 8)
    ... except Refusal as refusal:
    ...     print(refusal.number, refusal.name)
    ...     print(refusal.advice)
    1 shape
    Correct line 2 of the capture, or the shape or the way that was handed in.
    """

    def __init__(self, number: int, line: Optional[int] = None) -> None:
        super().__init__(number, line)
        self.number = number
        self.line = line

    @property
    def name(self) -> str:
        """A word for it: shape, length, width, damage, .."""
        return REFUSALS.get(self.number, _UNKNOWN)[0]

    @property
    def text(self) -> str:
        """When it comes."""
        return REFUSALS.get(self.number, _UNKNOWN)[1]

    @property
    def advice(self) -> str:
        """What to do about it."""
        return REFUSALS.get(self.number, _UNKNOWN)[2]

    def __eq__(self, other: Any) -> bool:
        return isinstance(other, Refusal) and (self.number, self.line) == (other.number, other.line)

    def __hash__(self) -> int:
        return hash((self.number, self.line))

    def __str__(self) -> str:
        where = "" if self.line is None else f"line {self.line}: "
        return f"{where}refusal {self.number} ({self.name}): {self.text}"
