"""Calls that may not cross to the library: each raises, and touches nothing."""

import array
import ctypes
import io
import subprocess
import sys
import unittest
from typing import Any

import shaftglimmer as sg
from test_words import B8, DAMAGED, P7, packed

WORD = [sg.decode, sg.decode_majority, sg.decode_two, sg.decode_nearest]


def values(numbers: Any) -> Any:
    return array.array("I", numbers)


class Untouched(unittest.TestCase):
    def raises(self, fault: Any, call: Any, *arguments: Any) -> None:
        """It raises this very fault, and every list that was handed in is as it was."""
        before = [bytes(one) if isinstance(one, (bytearray, array.array)) else None for one in arguments]
        with self.assertRaises(fault):
            call(*arguments)
        after = [bytes(one) if isinstance(one, (bytearray, array.array)) else None for one in arguments]
        self.assertEqual(before, after)


class Lists(Untouched):
    def test_lengths(self) -> None:
        for count in 0, 1, 8, 10, 961:
            for reader in sg.decode, sg.decode_majority, sg.decode_nearest:
                self.raises(sg.Refusal, reader, B8, values([1] * count))
            self.raises(sg.Refusal, sg.fill, B8, [], values([1] * count))
            self.raises(sg.Refusal, sg.check, B8, P7, [1] * count)
            self.raises(sg.Refusal, sg.looked, B8, [1] * count)
            self.raises(sg.Refusal, sg.extract, B8, [1] * count)
            self.raises(sg.Refusal, sg.encode, B8, [1] * count)

    def test_bytes_that_are_no_whole_symbols(self) -> None:
        for count in 1, 35, 37:
            self.raises(ValueError, sg.decode, B8, bytearray(count))
            self.raises(ValueError, sg.extract, B8, bytes(count))

    def test_types(self) -> None:
        for code in "bhilqHQfd":
            for call in sg.decode, sg.extract:
                self.raises(TypeError, call, B8, array.array(code, [0] * 9))
        for word in None, 5, "000000000", object(), {1}, {1: 2}, iter(P7), [1.5] * 9, ["1"] * 9, [None] * 9:
            self.raises(TypeError, sg.extract, B8, word)
        for word in list(P7), tuple(P7), range(9), None, 5, "000000000":
            for reader in WORD:
                self.raises(TypeError, reader, B8, word)

    def test_byte_order(self) -> None:
        self.raises(TypeError, sg.decode, B8, (ctypes.c_uint32.__ctype_be__ * 9)(*DAMAGED))

    def test_values_out_of_range(self) -> None:
        for value in -1, 2**32, 2**64, -(2**32) + 5:
            self.raises(ValueError, sg.extract, B8, [value] + P7[1:])
            self.raises(ValueError, sg.fill, B8, [value], values(P7))

    def test_read_only(self) -> None:
        for reader in WORD:
            self.raises(TypeError, reader, B8, packed(DAMAGED))
            self.raises(TypeError, reader, B8, memoryview(values(DAMAGED)).toreadonly())
        self.raises(TypeError, sg.fill, B8, [0], packed(DAMAGED))
        self.raises(TypeError, sg.restore, B8, [0], packed(DAMAGED))
        self.raises(TypeError, sg.Session(B8).arrive, packed(P7))
        self.raises(TypeError, sg.Session(B8).arrive_all, packed(P7))

    def test_in_pieces(self) -> None:
        memory = values(2 * DAMAGED)
        for call in sg.decode, sg.extract:
            self.raises(BufferError, call, B8, memoryview(memory)[::2])
        self.assertEqual(list(memory), 2 * DAMAGED)

    def test_alignment(self) -> None:
        memory = bytearray(40)
        for off in 1, 2, 3:
            part = memoryview(memory)[off : off + 36]
            for call in sg.decode, sg.extract, sg.Session(B8).arrive:
                self.raises(ValueError, call, *([B8] if call in (sg.decode, sg.extract) else []), part)

    def test_overlap(self) -> None:
        memory = values([0] * 3 + DAMAGED)
        view = memoryview(memory)
        for places in view[3:12], view[2:4], view[11:12], view[0:12]:
            for call in sg.fill, sg.restore:
                self.raises(ValueError, call, B8, places, view[3:12])
        self.assertEqual(list(memory), [0] * 3 + DAMAGED)
        # side by side is apart
        memory[2] = 0
        self.assertEqual(sg.fill(B8, view[2:3], view[3:12]), 1)

    def test_shapes(self) -> None:
        for shape in None, (3, 2, 8), "3 2 8", 3, object(), values([3, 2, 8, 0, 1, 2, 3, 4, 5, 6]):
            for call in [sg.encode, sg.extract, sg.looked, sg.parse_page, sg.marks, *WORD]:
                self.raises(TypeError, call, shape, values(P7))
            for places in sg.fill, sg.restore:
                self.raises(TypeError, places, shape, [], values(P7))
            self.raises(TypeError, sg.check, shape, P7, P7)
            self.raises(TypeError, sg.write_page, shape, 1, [])
            self.raises(TypeError, sg.Session, shape)
            self.raises(TypeError, sg.Session.fresh, shape)


class Lines(Untouched):
    def test_types(self) -> None:
        for line in None, 5, "1 2 3", [49, 32, 50], values([1, 2, 3]), memoryview(b"1 2 3 4 ")[::2]:
            self.raises((TypeError, BufferError), sg.parse_line, line)

    def test_files(self) -> None:
        for file in None, 5, b"q n b", io.StringIO("q n b\n3 2 8\nword\n"):
            self.raises(TypeError, sg.read_capture, file)
        self.raises(OSError, sg.read_capture, "/nowhere")


class Numbers(Untouched):
    def test_out_of_range(self) -> None:
        for number in -1, 2**32, 2**32 + 3, -(2**63), 2**64:
            for numbers in (number, 2, 8), (3, number, 8), (3, 2, number):
                self.raises(ValueError, sg.Shape, *numbers)
            self.raises(ValueError, sg.Shape, 3, 3, 8, [0, number])
            self.raises(ValueError, sg.write_page, B8, number, [])
            self.raises(ValueError, sg.Session(B8).count, number)
            self.raises(ValueError, sg.Session(B8).arrive, values(P7), number)

    def test_types(self) -> None:
        for number in None, 1.0, "1", b"1", [1]:
            self.raises(TypeError, sg.Shape, number, 2, 8)
            self.raises(TypeError, sg.write_page, B8, number, [])
            self.raises(TypeError, sg.Session(B8).count, number)
            self.raises(TypeError, sg.Session(B8).arrive, values(P7), number)


class Sessions(Untouched):
    def test_lengths(self) -> None:
        session = sg.Session(B8)
        for count in 0, 1, 8, 10, 65 * 9:
            self.raises(sg.Refusal, session.arrive_all, values([1] * count))
        for count in 0, 255, 257:
            self.raises(sg.Refusal, session.bill, [1] * count)
            self.raises(sg.Refusal, session.bill, bytes(4 * count))
        self.assertEqual(session, sg.Session(B8))

    def test_saved(self) -> None:
        for count in 0, 1, 5167, 5169, 2 * 5168:
            self.raises(ValueError, sg.Session.from_bytes, bytes(count))
        for saved in None, 5, "x", [0] * 1292:
            self.raises(TypeError, sg.Session.from_bytes, saved)


class Loading(unittest.TestCase):
    """Where the library is not, or is no library, importing says what to do."""

    def test_missing(self) -> None:
        for place in "/nowhere", __file__:
            command = [sys.executable, "-c", "import shaftglimmer"]
            environment = {"SHAFTGLIMMER_LIB": place, "PYTHONPATH": ":".join(sys.path)}
            run = subprocess.run(command, env=environment, capture_output=True, text=True, check=False)
            self.assertNotEqual(run.returncode, 0)
            self.assertIn("ImportError: libshaftglimmer.so", run.stderr)
            self.assertIn("make install", run.stderr)


if __name__ == "__main__":
    unittest.main()
