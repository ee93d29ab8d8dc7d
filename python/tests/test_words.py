"""Words and pages: the rules' values, in every kind of memory."""

import ctypes
import mmap
import pickle
import unittest
from array import array
from typing import Any

import shaftglimmer as sg

P4 = [3, 6, 5, 5, 3, 6, 6, 5, 3]
P5 = [3, 6, 5, 2, 2, 6, 6, 5, 3]
P6 = [3, 6, 5, 2, 4, 6, 6, 5, 3]
P7 = [5, 2, 7, 3, 1, 2, 6, 3, 5]
DAMAGED = [12, 2, 7, 3, 1, 2, 6, 3, 5]
B3 = sg.Shape(3, 3, 3)
B8 = sg.Shape(3, 2, 8)

try:
    import numpy
except ImportError:
    numpy = None


def packed(values: Any) -> bytes:
    return array("I", values).tobytes()


class Refused(unittest.TestCase):
    """A test that can tell which refusal came."""

    def refused(self, number: int, call: Any, *arguments: Any) -> None:
        with self.assertRaises(sg.Refusal) as caught:
            call(*arguments)
        self.assertEqual(caught.exception.number, number)


class Words(Refused):
    def test_written_and_taken_out(self) -> None:
        self.assertEqual(list(sg.encode(sg.Shape(3, 2, 3), [3, 5, 6, 7])), [7, 5, 2, 6, 3, 5, 1, 6, 7])
        self.assertEqual(list(sg.encode(B3, [5, 3])), P4)
        self.assertEqual(list(sg.encode(B8, [1, 2, 3, 5])), P7)
        self.assertEqual(list(sg.extract(B8, P7)), [1, 2, 3, 5])

    def test_readers(self) -> None:
        readers = [sg.decode, sg.decode_majority, sg.decode_two, sg.decode_nearest]
        for word, answers in (P4, [0, 0, 0, 0]), (P5, [2, -15, 2, 2]), (P6, [-4, -15, 2, 2]):
            for reader, answer in zip(readers, answers):
                lent = array("I", word)
                if answer < 0:
                    self.refused(-answer, reader, B3, lent)
                    self.assertEqual(list(lent), word)
                else:
                    self.assertEqual(reader(B3, lent), answer)
                    self.assertEqual(list(lent), P4)
        self.refused(16, sg.decode_two, B8, array("I", P7))

    def test_dead_cells(self) -> None:
        word = array("I", [0, 2, 7, 3, 1, 2, 6, 3, 0])
        self.assertEqual(sg.fill(B8, [0, 8], word), 2)
        self.assertEqual(list(word), P7)
        self.assertEqual(sg.fill(B8, [], word), 0)
        self.assertEqual(sg.restore(B8, array("I"), word), 0)
        word[0], word[8] = 0, 9
        self.refused(13, sg.fill, B8, [0], word)
        self.refused(12, sg.fill, B8, [8, 0], word)
        self.refused(14, sg.fill, B8, range(9), word)
        self.refused(20, sg.restore, B8, b"", word)
        self.assertEqual(sg.restore(B8, [0], word), 2)
        self.assertEqual(list(word), P7)

    def test_proposals_and_checks_looked_at(self) -> None:
        self.assertIs(sg.check(B3, P5, P4), True)
        self.assertIs(sg.check(B3, P6, P4), False)
        self.assertIs(sg.check(B3, P5, P5), False)
        one = array("I", P4)
        self.assertIs(sg.check(B3, one, one), True)  # both are only read, so they may be one
        self.assertEqual(list(sg.looked(B3, P5)), [1, 1, 1, 3, 3, 2, 1, 1, 1])

    def test_pages(self) -> None:
        self.assertEqual(sg.parse_page(B8, [1, 2, 3, 5]), sg.Page(1, (3, 5)))
        self.assertEqual(sg.marks(B8, [0, 0, 0, 0]), ())
        self.assertEqual(sg.parse_page(sg.Shape(3, 2, 11), [1023, 0, 0, 0]), sg.Page(1023, ()))
        for number, data in (6, [1, 3, 0, 0]), (8, [0, 1, 4, 9]), (2, [1, 2, 3]), (2, []), (3, [256, 0, 0, 0]):
            self.refused(number, sg.parse_page, B8, data)
            self.refused(number, sg.marks, B8, data)
        self.assertEqual(list(sg.write_page(B8, 1, [3, 5])), [1, 2, 3, 5])
        self.assertEqual(list(sg.write_page(B8, 1, b"")), [1, 0, 0, 0])
        for number, page, marks in (5, 1024, []), (6, 1, [3, 5, 7]), (7, 1, [256]), (3, 256, []):
            self.refused(number, sg.write_page, B8, page, marks)


class Shapes(Refused):
    def test_lengths(self) -> None:
        shape = sg.Shape(31, 8, 32)
        lengths = (shape.word_length, shape.data_length, shape.scratch_length, shape.most_marks)
        self.assertEqual(lengths, (961, 720, 7471, 718))

    def test_refused(self) -> None:
        for q, n, b in (3, 4, 8), (31, 9, 8), (9, 2, 8), (3, 2, 0), (3, 2, 33), (0, 0, 0), (2**32 - 1, 2, 8):
            self.refused(1, sg.Shape, q, n, b)
        self.refused(18, sg.Shape, 3, 3, 8, [1, 1])
        self.refused(18, sg.Shape, 3, 3, 8, [0, 3])
        self.refused(1, sg.Shape, 9, 3, 8, [1, 1])

    def test_slopes(self) -> None:
        self.assertEqual(sg.Shape(3, 2, 8).slopes, sg.Shape.STANDARD)
        self.assertEqual(sg.Shape(3, 3, 8, slopes=(2, 0)).slopes, (2, 0, 0, 0, 0, 0, 0))
        for slopes in [], [1], [0, 1, 2, 3, 4, 5, 6, 7]:
            with self.assertRaises(ValueError):
                sg.Shape(3, 3, 8, slopes)

    def test_values(self) -> None:
        self.assertEqual(sg.Shape(3, 2, 8), B8)
        self.assertNotEqual(sg.Shape(3, 2, 9), B8)
        self.assertEqual(len({sg.Shape(3, 2, 8), B8}), 1)
        self.assertEqual(pickle.loads(pickle.dumps(sg.Shape(5, 3, 8, [2, 4]))), sg.Shape(5, 3, 8, [2, 4]))
        self.assertEqual(eval(repr(sg.Shape(5, 3, 8, [2, 4])), {"Shape": sg.Shape}), sg.Shape(5, 3, 8, [2, 4]))
        with self.assertRaises(AttributeError):
            B8.q = 5  # type: ignore[misc]


class Memory(unittest.TestCase):
    """A word is restored where it is, whatever kind of memory that is."""

    def restored(self, word: Any) -> None:
        self.assertEqual(sg.decode(B8, word), 1)
        self.assertEqual(bytes(memoryview(word)), packed(P7))

    def test_written(self) -> None:
        self.restored(array("I", DAMAGED))
        self.restored(bytearray(packed(DAMAGED)))
        self.restored(memoryview(bytearray(packed(DAMAGED))).cast("I"))
        self.restored(memoryview(bytearray(packed(DAMAGED))).cast("I", [3, 3]))
        self.restored((ctypes.c_uint32 * 9)(*DAMAGED))
        self.restored(ctypes.create_string_buffer(packed(DAMAGED), 36))
        with mmap.mmap(-1, 36) as mapped:
            mapped[:] = packed(DAMAGED)
            self.restored(mapped)

    def test_part_of_a_longer_list(self) -> None:
        values = array("I", [7] + DAMAGED + [7])
        with memoryview(values) as view, view[1:10] as part:
            self.restored(part)
        self.assertEqual(list(values), [7] + P7 + [7])

    def test_only_read(self) -> None:
        for word in packed(P7), memoryview(packed(P7)), memoryview(packed(P7)).cast("I"), P7, tuple(P7):
            self.assertEqual(list(sg.extract(B8, word)), [1, 2, 3, 5])
        self.assertEqual(sg.encode(B8, range(4)), sg.encode(B8, [0, 1, 2, 3]))

    def test_given_back(self) -> None:
        """Memory can be resized after a call, and after one that was refused."""
        for values in DAMAGED, [0] * 8:
            word = bytearray(packed(values))
            try:
                sg.decode(B8, word)
            except sg.Refusal:
                pass
            word.clear()

    @unittest.skipIf(numpy is None, "no numpy here")
    def test_numpy(self) -> None:
        self.restored(numpy.array(DAMAGED, dtype=numpy.uint32))
        self.restored(numpy.array(DAMAGED, dtype=numpy.uint32).reshape(3, 3))
        frozen = numpy.array(DAMAGED, dtype=numpy.uint32)
        frozen.flags.writeable = False
        with self.assertRaises(TypeError):
            sg.decode(B8, frozen)
        for kind in numpy.int32, numpy.uint64, numpy.float32, ">u4":
            with self.assertRaises(TypeError):
                sg.decode(B8, numpy.array(DAMAGED, dtype=kind))
        with self.assertRaises(BufferError):
            sg.decode(B8, numpy.array(2 * DAMAGED, dtype=numpy.uint32)[::2])


if __name__ == "__main__":
    unittest.main()
