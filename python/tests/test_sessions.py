"""Sessions: arrivals and bundles, counts, bills, coverage, sessions that are saved."""

import copy
import pickle
import re
import unittest
from array import array
from pathlib import Path
from typing import Any

import shaftglimmer as sg
from test_words import B8, DAMAGED, P6, P7, Refused, packed

ANSWERS = Path(__file__).resolve().parents[2] / "docs" / "ANSWERS.md"

PAGE_0 = [6, 0, 6, 2, 0, 2, 4, 0, 4]  # page 0 with marks 0 and 4
BEYOND = [1, 0, 0, 0, 1, 0, 0, 0, 0]


def after_page_1() -> sg.Session:
    session = sg.Session.fresh(B8)
    session.arrive(array("I", P7))
    return session


class Arrivals(Refused):
    def arrives(self, session: sg.Session, values: Any, text: str, left: Any, way: Any = sg.Way.CLEAN) -> sg.Outcome:
        word = array("I", values)
        outcome = session.arrive(word, way)
        self.assertEqual(str(outcome), text)
        self.assertEqual(list(word), left)
        return outcome

    def test_one_by_one(self) -> None:
        session = sg.Session(B8)
        taken = self.arrives(session, P7, "taken 1 0", P7)
        self.assertEqual((taken.page, taken.refusal), (1, None))
        saved = session.to_bytes()
        self.arrives(session, DAMAGED, "again 1 1", P7, sg.Way.VOTE)
        refused = self.arrives(session, BEYOND, "refused 4 0", BEYOND)
        self.assertEqual((refused.page, refused.refusal), (None, sg.Refusal(4)))
        self.assertEqual(session.to_bytes(), saved)
        self.arrives(session, PAGE_0, "taken 0 0", PAGE_0)
        self.assertEqual(session.tally(), {3: 1, 4: 1, 5: 1})
        self.assertEqual((session.pages, session.lowest), (2, 2))
        self.assertEqual(session.missing(5), [2, 3, 4])
        self.assertEqual(session.missing(), list(range(2, 1024)))
        self.assertEqual((session.missing(0), session.missing(-1)), ([], []))

    def test_refused(self) -> None:
        session = after_page_1()
        before = session.to_bytes()
        self.arrives(session, BEYOND, "refused 15 0", BEYOND, sg.Way.VOTE)
        self.arrives(session, P7, "refused 16 0", P7, sg.Way.TWO)
        self.arrives(session, P7, "refused 1 0", P7, 3)
        self.arrives(session, P7[:8], "refused 2 0", P7[:8])
        self.arrives(session, [256] + P7[1:], "refused 3 0", [256] + P7[1:])
        self.arrives(session, [], "refused 2 0", [])
        self.assertEqual(session.to_bytes(), before)

    def test_two_that_cancel(self) -> None:
        session = sg.Session(sg.Shape(3, 3, 3))
        self.assertEqual(session.arrive(array("I", P6), sg.Way.TWO).kind, "refused")  # its page has too many marks
        self.assertEqual(session.arrive(array("I", P6), sg.Way.TWO).number, 6)

    def test_bundles(self) -> None:
        session, words = sg.Session(B8), array("I", P7 + BEYOND + DAMAGED)
        outcomes = session.arrive_all(words)
        self.assertEqual([str(one) for one in outcomes], ["taken 1 0", "refused 4 0", "again 1 1"])
        self.assertEqual(list(words), P7 + BEYOND + P7)
        self.assertEqual(session, after_page_1())
        self.assertEqual(len(session.arrive_all(bytearray(64 * packed(P7)), sg.Way.VOTE)), 64)
        self.refused(16, session.arrive_all, array("I", P7), sg.Way.TWO)
        self.refused(1, session.arrive_all, array("I", P7), 3)
        self.assertEqual(session, after_page_1())


class Reports(Refused):
    def test_counts(self) -> None:
        session = after_page_1()
        self.assertEqual([session.count(function) for function in (3, 4, 5, 255)], [1, 0, 1, 0])
        self.refused(7, session.count, 256)
        self.refused(7, session.count, 2**32 - 1)
        self.assertEqual((len(session.calls), sum(session.calls), session.calls[3]), (256, 2, 1))

    def test_bills(self) -> None:
        session = after_page_1()
        self.assertEqual(session.bill([600] * 256), 2)
        self.assertEqual(session.bill(bytes(1024)), 0)
        self.assertEqual(session.bill(array("I", [0, 0, 0, 1500, 0, 1] + [0] * 250)), 2)
        values = array("I", session.to_bytes())
        values[1036 + 3] = values[1036 + 5] = 2**32 - 1
        self.refused(19, sg.Session.from_bytes(values).bill, [2**32 - 1] * 256)

    def test_coverage(self) -> None:
        self.assertEqual(after_page_1().cover(), {3, 5})
        self.assertEqual(sg.Session(B8).cover(), frozenset())


class Saved(Refused):
    def test_saved(self) -> None:
        session = after_page_1()
        saved = session.to_bytes()
        self.assertEqual(len(saved), 5168)
        for copied in sg.Session.from_bytes(saved), pickle.loads(pickle.dumps(session)), copy.copy(session):
            self.assertEqual(copied, session)
            self.assertEqual(copied.shape, B8)
            self.assertEqual(str(copied.arrive(array("I", P7))), "again 1 0")
        other = sg.Session.from_bytes(bytearray(b"x" + saved)[1:])
        other.arrive(array("I", PAGE_0))
        self.assertNotEqual(other, session)

    def test_refused(self) -> None:
        for at, value, number in (10, 2, 11), (11, 1, 11), (0, 9, 1), (3, 3, 18), (2, 33, 1):
            values = array("I", after_page_1().to_bytes())
            values[at] = value
            self.refused(number, sg.Session.from_bytes, values)


class Refusals(unittest.TestCase):
    def test_texts(self) -> None:
        texts = {(sg.Refusal(number).name, sg.Refusal(number).text) for number in range(1, 21)}
        self.assertEqual(len(texts), 20)
        for number in range(1, 21):
            refusal = sg.Refusal(number)
            self.assertTrue(str(refusal).startswith(f"refusal {number} ({refusal.name}): {refusal.text[:1]}"))
            self.assertTrue(refusal.advice.endswith("."))
            self.assertNotIn("As for", refusal.advice)
        self.assertEqual(sg.Refusal(21).name, "unknown")

    def test_answers(self) -> None:
        """Texts and advice are those of docs/ANSWERS.md."""
        rows = re.findall(r"^\| (\d+)[ ,].*?\| (.*?) \| (.*?) \|$", ANSWERS.read_text(encoding="utf-8"), re.MULTILINE)
        known = [(str(number), sg.Refusal(number).text, sg.Refusal(number).advice) for number in range(1, 21)]
        self.assertEqual(rows, known)

    def test_exceptions(self) -> None:
        self.assertEqual(pickle.loads(pickle.dumps(sg.Refusal(10, line=2))), sg.Refusal(10, line=2))
        self.assertEqual(str(sg.Refusal(1, line=2))[:27], "line 2: refusal 1 (shape): ")


if __name__ == "__main__":
    unittest.main()
