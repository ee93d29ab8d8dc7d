"""Calls held to the second implementation: the file that VECTORS names, as `vectors` of tests/ writes it."""

import os
import unittest
from array import array
from typing import Any, Callable, Dict, List, Tuple

import shaftglimmer as sg

Lists = List[Any]


def numbers(text: str) -> "array[int]":
    """A list, in which a run of equal values is one of them, `*`, and how many."""
    values = array("I")
    for run in text.split():
        value, _, count = run.partition("*")
        values.extend([int(value)] * int(count or 1))
    return values


def shaped(values: "array[int]") -> sg.Shape:
    return sg.Shape(*values[:3], slopes=values[3:])


def encode(shape: sg.Shape, number: int, data: Any, word: Any) -> int:
    word[:] = sg.encode(shape, data)
    return 0


def extract(shape: sg.Shape, number: int, word: Any, data: Any) -> int:
    data[:] = sg.extract(shape, word)
    return 0


def looked(shape: sg.Shape, number: int, word: Any, found: Any) -> int:
    found[:] = sg.looked(shape, word)
    return 0


def read_page(shape: sg.Shape, number: int, data: Any) -> int:
    page = sg.parse_page(shape, data)
    return 1024 * page.number + len(page.marks)


def marks(shape: sg.Shape, number: int, data: Any, found: Any) -> int:
    marks = sg.marks(shape, data)
    found[: len(marks)] = array("I", marks)
    return len(marks)


def write_page(shape: sg.Shape, number: int, marks: Any, data: Any) -> int:
    data[:] = sg.write_page(shape, number, marks)
    return 0


def fresh(shape: sg.Shape, number: int, session: Any) -> int:
    session[:] = array("I", sg.Session.fresh(shape).to_bytes())
    return 0


def cover(number: int, session: Any, found: Any) -> int:
    called = sg.Session.from_bytes(session).cover()
    found[:] = array("I", [function in called for function in range(256)])
    return len(called)


def arrive(way: int, session: Any, word: Any, outcome: Any) -> int:
    """An arrival says in its outcome that the session is refused."""
    try:
        opened = sg.Session.from_bytes(session)
    except sg.Refusal as refusal:
        outcome[:] = array("I", [2, refusal.number, 0])
        return 0
    answer = opened.arrive(word, way)
    outcome[:] = array("I", [["taken", "again", "refused"].index(answer.kind), answer.number, answer.changed])
    session[:] = array("I", opened.to_bytes())
    return 0


def arrive_all(way: int, session: Any, words: Any, outcomes: Any) -> int:
    opened = sg.Session.from_bytes(session)
    answers = opened.arrive_all(words, way)
    values = [[["taken", "again", "refused"].index(one.kind), one.number, one.changed] for one in answers]
    outcomes[:] = array("I", sum(values, []) + [0] * (192 - 3 * len(values)))
    session[:] = array("I", opened.to_bytes())
    return 0


OF_SHAPES: Dict[str, Callable[..., int]] = {
    "Encode": encode,
    "Extract": extract,
    "Decode": lambda shape, number, word: sg.decode(shape, word),
    "Looked": looked,
    "DecodeMajority": lambda shape, number, word: sg.decode_majority(shape, word),
    "DecodeTwo": lambda shape, number, word: sg.decode_two(shape, word),
    "DecodeNearest": lambda shape, number, word: sg.decode_nearest(shape, word),
    "Fill": lambda shape, number, places, word: sg.fill(shape, places, word),
    "Restore": lambda shape, number, places, word: sg.restore(shape, places, word),
    "Check": lambda shape, number, received, proposed: int(sg.check(shape, received, proposed)),
    "ReadPage": read_page,
    "Marks": marks,
    "WritePage": write_page,
    "Fresh": fresh,
}

# Their shape is in the session.
OF_SESSIONS: Dict[str, Callable[..., int]] = {
    "Count": lambda number, session: sg.Session.from_bytes(session).count(number),
    "Bill": lambda number, session, prices: sg.Session.from_bytes(session).bill(prices),
    "Cover": cover,
    "Arrive": arrive,
    "Batch": arrive_all,
}

# What the answer of a refusal begins with, where it is not 2^31.
REFUSED = {"Count": 1 << 32, "Bill": 1 << 63}


def made(entry: str, shape: "array[int]", number: int, lists: Lists) -> int:
    """The answer of a call. The lists are left as the call leaves them."""
    try:
        if entry in OF_SESSIONS:
            return OF_SESSIONS[entry](number, *lists)
        return OF_SHAPES[entry](shaped(shape), number, *lists)
    except sg.Refusal as refusal:
        if entry == "Marks" and len(lists[0]) == len(lists[1]):
            return 0  # in the library a page that is refused has no marks, and a shape is one
        return REFUSED.get(entry, 1 << 31) + refusal.number


def read(line: str) -> Tuple[str, "array[int]", int, Lists, int, Lists]:
    before, after = line.rstrip("\n").split("\t=\t")
    entry, shape, number, *lists = before.split("\t")
    answer, *left = after.split("\t")
    return entry, numbers(shape), int(number), list(map(numbers, lists)), int(answer), list(map(numbers, left))


class Vectors(unittest.TestCase):
    @unittest.skipUnless("VECTORS" in os.environ, "VECTORS names no file")
    def test_vectors(self) -> None:
        seen = set()
        with open(os.environ["VECTORS"], encoding="ascii") as file:
            for at, line in enumerate(file, 1):
                entry, shape, number, lists, answer, left = read(line)
                with self.subTest(line=at, entry=entry):
                    self.assertEqual(made(entry, shape, number, lists), answer)
                    self.assertEqual(lists, left)
                seen.add(entry)
        self.assertEqual(seen, {*OF_SHAPES, *OF_SESSIONS})


if __name__ == "__main__":
    unittest.main()
