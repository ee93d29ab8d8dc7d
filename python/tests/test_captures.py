"""Captures as text: the sample, and every fault that a line may have."""

import io
import os
import tempfile
import unittest
from pathlib import Path
from typing import Any, List

import shaftglimmer as sg
from shaftglimmer import _library
from test_words import Refused

SAMPLES = Path(__file__).resolve().parents[2] / "samples"
HEAD = b"q n b\n3 2 8\nword\n"
WORD = b"5 2 7 3 1 2 6 3 5"


def tally(capture: sg.Capture) -> List[str]:
    """What the program prints."""
    counts = [f"{function} {calls}" for function, calls in capture.session.tally().items()]
    return ["outcome page fixed", *map(str, capture.outcomes), "function calls", *counts]


def read(text: bytes, way: Any = sg.Way.CLEAN) -> sg.Capture:
    return sg.read_capture(io.BytesIO(text), way)


class Sample(unittest.TestCase):
    def test_tallies(self) -> None:
        """Each sample's tally is the one that is kept beside it."""
        captures = [path for path in sorted(SAMPLES.glob("*.txt")) if path.with_suffix(".tally").exists()]
        self.assertTrue(captures)
        for path in captures:
            expected = path.with_suffix(".tally").read_text(encoding="ascii").splitlines()
            self.assertEqual(tally(sg.read_capture(path)), expected)
            with open(path, "rb") as file:
                self.assertEqual(tally(sg.read_capture(file)), expected)


class Lines(Refused):
    def outcomes(self, lines: bytes, *expected: str) -> None:
        self.assertEqual([str(outcome) for outcome in read(HEAD + lines).outcomes], list(expected))

    def test_words(self) -> None:
        self.outcomes(b"")
        self.outcomes(WORD + b"\n", "taken 1 0")
        self.outcomes(2 * (WORD + b"\n") + b"1 0 0 0 1 0 0 0 0\n", "taken 1 0", "again 1 0", "refused 4 0")
        self.outcomes(b"1 2 3\n" + WORD + b" 0\n", "refused 2 0", "refused 2 0")
        self.outcomes(b"256" + WORD[1:] + b"\n", "refused 3 0")

    def test_malformed(self) -> None:
        for line in b"", b" ", b"5  2", b"05", b"5 2 ", WORD + b"\r", WORD + b" ", b"word", b"\0", b"4294967296", b"-1":
            self.outcomes(line + b"\n" + WORD + b"\n", "refused 10 0", "taken 1 0")

    def test_end(self) -> None:
        self.outcomes(WORD, "refused 10 0")
        self.outcomes(WORD + b"\n5 2", "taken 1 0", "refused 10 0")

    def test_length(self) -> None:
        """A line has 16,384 bytes at most, with its newline."""
        longest = (b"1 " * 8192)[:16383]
        self.outcomes(longest + b"\n" + WORD + b"\n", "refused 2 0", "taken 1 0")
        for length in 16384, 16385, 32767, 32768, 32769, 100000:
            self.outcomes(b"1" * length + b"\n" + WORD + b"\n", "refused 10 0", "taken 1 0")
            self.outcomes(b"1" * length, "refused 10 0")
        self.outcomes((b"1 " * 8192)[:16384] + b"\n", "refused 10 0")

    def test_values(self) -> None:
        self.assertEqual(list(sg.parse_line(b"0 4294967295")), [0, 2**32 - 1])
        self.assertEqual(list(sg.parse_line(memoryview(b"12 3")[1:])), [2, 3])
        self.assertEqual(list(sg.parse_line(bytearray(b"7 " * 3000)[:-1])), [7] * 1024)
        for line in b"", b"1 ", b"1\n":
            self.refused(10, sg.parse_line, line)

    def test_ways(self) -> None:
        shape = b"q n b\n3 3 3\nword\n"
        word = sg.encode(sg.Shape(3, 3, 3), [1, 0])
        word[3] ^= 7
        word[4] ^= 7
        text = shape + " ".join(map(str, word)).encode() + b"\n"
        found = [str(read(text, way).outcomes[0]) for way in (sg.Way.CLEAN, sg.Way.VOTE, sg.Way.TWO, 3)]
        self.assertEqual(found, ["refused 4 0", "refused 15 0", "taken 1 2", "refused 1 0"])


class Heads(Refused):
    def fault(self, text: bytes, number: int, line: int) -> None:
        with self.assertRaises(sg.Refusal) as caught:
            read(text)
        self.assertEqual((caught.exception.number, caught.exception.line), (number, line))

    def test_faults(self) -> None:
        for text in b"", b"q n b", b"q n b ", b"q n b\r\n3 2 8\nword\n", b"Q N B\n", b"x" * 99999 + b"\n":
            self.fault(text, 10, 1)
        for text in b"", b"3 2 8", b"3 2\n", b"3 2 8 0\n", b"3  2 8\n", b"q\n", b"\n", b"9" * 20000 + b"\n":
            self.fault(b"q n b\n" + text, 10, 2)
        for text in b"9 2 8\n", b"3 4 8\nword\n", b"3 2 33\nx\n":
            self.fault(b"q n b\n" + text, 1, 2)
        for text in b"", b"word", b"words\n", b"5\n":
            self.fault(b"q n b\n3 2 8\n" + text, 10, 3)

    def test_files(self) -> None:
        with tempfile.TemporaryDirectory() as folder:
            name = os.path.join(folder, "capture")
            Path(name).write_bytes(HEAD + WORD + b"\n")
            for file in name, Path(name):
                self.assertEqual(sg.read_capture(file).session.tally(), {3: 1, 5: 1})


class Library(unittest.TestCase):
    def test_version(self) -> None:
        major, minor, patch = map(int, sg.__version__.split("."))
        self.assertEqual(_library.version(), 10000 * major + 100 * minor + patch)

    def test_texts(self) -> None:
        """The library's own texts begin with the names that refusals have here."""
        for number in range(1, 21):
            text = bytearray(96)
            length = _library.text(number, text)
            self.assertEqual(text[:length].decode().partition(":")[0], sg.Refusal(number).name)
            self.assertFalse(any(text[length:]))


if __name__ == "__main__":
    unittest.main()
