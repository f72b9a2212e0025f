"""Points in arrays of numpy: the same answers as one by one. Skipped where numpy is not there."""
import random
import unittest
from unittest import mock

from planar_locate import Layer, ProgramNotFound, Refused, Unread, _answers, _program
from planar_locate._grouping import LONGEST, grouped
from planar_locate._points import blocks_of, line_of

try:
    import numpy
except ImportError:
    numpy = None


def values(text):
    """The numbers of a points text, with their signs, by digits alone."""
    from decimal import Decimal
    return [tuple(Decimal(word) for word in line.split()) for line in text.decode().splitlines()]


@unittest.skipIf(numpy is None, "numpy is not there")
class ArraysTest(unittest.TestCase):
    layer = Layer("POLYGON ((0 0, 0.5 0, 0.5 0.5, 0 0.5, 0 0))", 1)

    def compare(self, array, scale, is_rounding):
        found = b"".join(blocks_of(array, scale, is_rounding))
        wanted = "".join(line_of(point, scale, is_rounding) for point in array).encode()
        self.assertEqual(values(found), values(wanted), (array, scale, is_rounding))

    def test_text(self):
        draw = random.Random(1)
        for scale in range(16):
            some = numpy.array([[draw.uniform(-200, 200), draw.uniform(-90, 90)] for _ in range(500)])
            for is_rounding in (False, True):
                self.compare(numpy.round(some, scale), scale, is_rounding)
                self.compare(some, scale, is_rounding)
                self.compare(numpy.round(some).astype(int), scale, is_rounding)
        halves = numpy.array([[0.5, -0.5], [1.5, 2.5], [0.125, 1e-9], [2.675, 1.005], [-0.0, 0.1 + 0.2], [1e22, 5e-324], [123456789012.5, 1e15]])
        for scale in range(4):
            for row in halves:
                self.compare(row.reshape(1, 2), scale, True)
                self.compare(row.reshape(1, 2), scale, False)

    def test_other_types(self):
        self.compare(numpy.array([[0.1, 0.5]], dtype=numpy.float32), 1, False)
        self.compare(numpy.array([[2 ** 63, 1]], dtype=numpy.uint64), 1, False)
        self.compare(numpy.array([[-2 ** 63, 2 ** 62]]), 0, False)
        self.compare(numpy.array([["0.1", "5"]], dtype=object), 1, False)
        for array in (numpy.zeros((2, 3)), numpy.zeros(4)):
            with self.assertRaises(TypeError):
                self.layer.ask(array)

    def test_answers(self):
        x, y = numpy.array([0.5, 0.5, 0.1, 0.5, 9]), numpy.array([0.5, 0.1, 0.1, 0.1, 9])
        found = self.layer.ask_arrays(x, y)
        answers = self.layer.ask(list(zip(x, y)))
        self.assertEqual(found.place.tolist(), [answer.place for answer in answers])
        self.assertEqual(found.number.tolist(), [-1 if answer.number is None else answer.number for answer in answers])
        self.assertEqual(found.on.tolist(), [answer.on for answer in answers])
        self.assertEqual(found.covered_by.tolist(), [answer.covered_by for answer in answers])
        self.assertEqual(len(self.layer.ask_arrays([], []).place), 0)

    def test_grouped(self):
        draw = random.Random(1)
        kinds = [lambda: bytes(draw.choices(b"ab\0", k=draw.randrange(4))), lambda: b"face in %d" % draw.randrange(30000),
                 lambda: bytes(draw.choices(b"ab", k=draw.choice([7, 8, 9, 16, LONGEST - 1, LONGEST, LONGEST + 1, 400]))), lambda: b"x" * draw.randrange(300)]
        for count in (1, 2, 3, 10, 1000, 50000):
            for some in (kinds, kinds[:1], kinds[1:2], kinds[2:3]):
                lines = [draw.choice(some)() for _ in range(count)]
                found, own = grouped(b"".join(line + b"\n" for line in lines))
                self.assertEqual([found[number] for number in own.tolist()], lines)
                self.assertEqual(len(set(found)), len(found))

    def test_pieces(self):
        lines = [b'face in "%d"' % (number * 7919 % 5000) for number in range(20000)] + [b"unread", b"face in", b'corner 1 on "a" "b""c" in "d"'] * 2
        whole = b"".join(line + b"\n" for line in lines)
        one, many = _answers.Known(), _answers.Known()
        wanted = [one.answers[number] for number in one.take([whole])]
        try:
            together, _answers.TOGETHER = _answers.TOGETHER, 1000
            codes = many.take_array(line + b"\n" for line in lines)
        finally:
            _answers.TOGETHER = together
        self.assertEqual([many.answers[number] for number in codes.tolist()], wanted)
        self.assertEqual(many.take_array([]).tolist(), [])

    def test_several_runs(self):
        points = numpy.array([[0.1 * (at % 7), 0.1 * (at % 5)] for at in range(120_000)]).round(1)
        wanted = self.layer.ask(points)
        try:
            longest, _program.LONGEST_POINTS = _program.LONGEST_POINTS, 600_000
            self.assertEqual(self.layer.ask(points), wanted)
            self.assertEqual(self.layer.ask(points.tolist()), wanted)
        finally:
            _program.LONGEST_POINTS = longest

    def test_failures(self):
        points = numpy.zeros((3, 2))
        with self.assertRaises(Refused):
            Layer("POLYGON ((0 0, 4 4, 4 0, 0 4, 0 0))", 0).ask(points)
        with self.assertRaises(TypeError):
            self.layer.ask(numpy.array([[0.1, None], [0.2, [1]]], dtype=object))
        with mock.patch.dict("os.environ", {"LOCATE": "/none"}), self.assertRaises(ProgramNotFound):
            self.layer.ask(points)

    def test_unread(self):
        points = numpy.array([[0, 0], [0.25, 0], [numpy.nan, 0]])
        with self.assertRaises(Unread) as caught:
            self.layer.ask(points)
        self.assertEqual((caught.exception.index, caught.exception.count), (1, 2))
        self.assertEqual(self.layer.ask_arrays(*points.T, errors="coerce").place.tolist(), ["corner", "unread", "unread"])
        self.assertEqual(self.layer.ask_arrays(*points.T, errors="coerce", round=True).place.tolist(), ["corner", "border", "unread"])


if __name__ == "__main__":
    unittest.main()
