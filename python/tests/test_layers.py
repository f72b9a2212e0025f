"""Layers, index files and errors."""
import os
import subprocess
import sys
import tempfile
import unittest
from decimal import Decimal
from pathlib import Path
from unittest import mock

from planar_locate import (Answer, BadWords, Counts, Index, Layer, LocateError, ProgramNotFound, ReadFailed, Refused, Unread, WriteFailed,
                           find_program, query)
from planar_locate import _program

TOP = Path(__file__).resolve().parents[2]
PARCELS = TOP / "examples" / "parcels.wkt"
SQUARE = "POLYGON ((0 0, 4 0, 4 4, 0 4, 0 0))"
BOW_TIE = "POLYGON ((0 0, 4 4, 4 0, 0 4, 0 0))"


class LayerTest(unittest.TestCase):
    def test_counts(self):
        self.assertEqual(Layer(PARCELS, 0).check(), Counts(5, 14, 17))
        self.assertEqual(Layer(str(PARCELS), scale=0).check(), Counts(5, 14, 17))

    def test_text(self):
        self.assertEqual(Layer(SQUARE, 0).check(), (1, 4, 4))
        self.assertEqual(Layer("  multipolygon EMPTY", 0).check(), (1, 0, 0))
        self.assertEqual(Layer("id,wkt\na,\n", 0, "csv").check(), (1, 0, 0))

    def test_pairs(self):
        layer = Layer([('a "b", c', SQUARE), ("ß", "POLYGON ((1 1, 2 1, 2 2, 1 1))"), ("", "")], 0)
        self.assertEqual(layer.check(), (3, 7, 7))
        self.assertEqual(layer.ask([(1, 1), (4, 1)]), [Answer("corner", 2, ("ß",), ('a "b", c',)), Answer("border", 6, ('a "b", c',), ())])

    def test_pairs_with_line_end(self):
        with self.assertRaises(ValueError):
            Layer([("a\nb", SQUARE)], 0)

    def test_text_is_removed(self):
        layer = Layer(SQUARE, 0)
        path = layer.path
        self.assertTrue(os.path.exists(path))
        del layer
        self.assertFalse(os.path.exists(path))

    def test_csv(self):
        lots = Layer(TOP / "examples" / "lots.csv", 6, "csv")
        self.assertEqual(lots.ask([("13.3775", "52.5165")]), [Answer("face", None, (), ('Lot 7 "east"',))])

    def test_refused(self):
        with self.assertRaises(Refused) as caught:
            Layer(SQUARE + "\n\nPOLYGON ((0 0, 4 0, 4.5 4, 0 0))", 0).check()
        self.assertEqual((caught.exception.line, caught.exception.cause, caught.exception.status), (3, "number 5 off grid", 1))
        with self.assertRaises(Refused) as caught:
            Layer(BOW_TIE, 0).ask([(0, 0)])
        self.assertEqual((caught.exception.line, caught.exception.cause), (None, "edges 0 0, 4 4 and 0 4, 4 0 cross"))
        with self.assertRaises(Refused) as caught:
            Layer([("a", SQUARE), ("b", "LINESTRING (0 0, 4 0)")], 0).check()
        self.assertEqual((caught.exception.line, caught.exception.cause), (2, "tag"))

    def test_failures(self):
        with self.assertRaises(ReadFailed) as caught:
            Layer("no file", 0).check()
        self.assertIn("no file", str(caught.exception))
        with self.assertRaises(WriteFailed):
            Layer(SQUARE, 0).build("/no folder/index")
        with self.assertRaises(ValueError):
            Layer(SQUARE, 0, "wkb")

    def test_bad_words(self):
        if "fake" in find_program():
            self.skipTest("the program is not the real one")
        with self.assertRaises(BadWords) as caught:
            Layer(SQUARE, 16).check()
        self.assertEqual(caught.exception.status, 2)


class IndexTest(unittest.TestCase):
    def test_index(self):
        with tempfile.TemporaryDirectory() as folder:
            path = Path(folder) / "index"
            built = Layer(PARCELS, 0).build(path)
            index = Index.open(path)
            self.assertEqual((built.path, built.scale), (index.path, index.scale))
            self.assertEqual(index.verify()[:3], (5, 14, 17))
            lines = (TOP / "examples" / "points.txt").read_text().splitlines()
            points = [tuple(line.split()) if len(line.split()) == 2 else ("", "") for line in lines]
            answers = index.ask(points, errors="coerce")
            self.assertEqual(answers, query(Layer(PARCELS, 0), points, errors="coerce"))
            wanted = (TOP / "examples" / "answers.txt").read_text().splitlines()
            self.assertEqual([answer.name for answer in answers], [line.split(" on")[0].split(" in")[0] for line in wanted])

    def test_version_1(self):
        """A file of the first version is asked and judged as one of the second is."""
        index = Index.open(TOP / "examples" / "lots_1.index")
        self.assertEqual((index.scale, index.verify()), (6, (3, 11, 14, 20)))
        points = [line.strip("POINT ()").split() for line in (TOP / "examples" / "places.txt").read_text().splitlines()[:-1]]
        self.assertEqual(index.ask(points), Layer(TOP / "examples" / "lots.csv", 6, "csv").ask(points))

    def test_open(self):
        with self.assertRaises(ReadFailed):
            Index.open("no file")
        with self.assertRaises(Refused) as caught:
            Index.open(PARCELS)
        self.assertEqual(caught.exception.cause, "bad magic")


class PointsTest(unittest.TestCase):
    layer = Layer("POLYGON ((0 0, 0.5 0, 0.5 0.5, 0 0.5, 0 0))", 1)

    def test_numbers(self):
        points = [(0.5, 0.1), ("0.5", "1e-1"), (Decimal("0.50"), Decimal("1E-1")), (0.5, "+.1")]
        self.assertEqual({answer.place for answer in self.layer.ask(points)}, {"border"})
        self.assertEqual(self.layer.ask([]), [])
        self.assertEqual(self.layer.ask(iter(points)), self.layer.ask(points))

    def test_unread(self):
        points = [(0, 0), (0.25, 0), (0, float("nan")), ("a b", 0), ("1\n1", 1), ("", 0), (None, 0), (Decimal("inf"), 0)]
        self.assertEqual([answer.place for answer in self.layer.ask(points, errors="coerce")], ["corner"] + ["unread"] * 7)
        with self.assertRaises(Unread) as caught:
            self.layer.ask(points)
        self.assertEqual((caught.exception.index, caught.exception.point, caught.exception.count), (1, (0.25, 0), 7))
        self.assertIsInstance(caught.exception, (LocateError, ValueError))

    def test_round(self):
        points = [(0.45, 0), (Decimal("0.54999"), "0.04"), (0.5, -0.04), ("0.25", 0.15)]
        self.assertEqual([answer.place for answer in self.layer.ask(points, round=True)], ["corner", "corner", "corner", "face"])

    def test_other_points(self):
        for points in ([1, 2], [(1, 2, 3)], [(1j, 2)], [(b"1", 2)]):
            with self.assertRaises(TypeError):
                self.layer.ask(points)
        with self.assertRaises(ValueError):
            self.layer.ask([(0, 0)], errors="ignore")

    def test_points_that_fail(self):
        def failing():
            yield 0, 0
            raise KeyError("of the points")

        with self.assertRaises(KeyError):
            self.layer.ask(failing())

    def test_many_runs(self):
        """More text than a run may have goes to several runs."""
        with mock.patch.object(_program, "LONGEST_POINTS", 40), mock.patch("planar_locate._points.POINTS_OF_A_BLOCK", 3):
            answers = self.layer.ask([(0.5, 0.1 * number) for number in (0, 1, 2, 5, 6)] * 3, round=True)
        self.assertEqual([answer.place for answer in answers], ["corner", "border", "border", "corner", "face"] * 3)


class ProgramTest(unittest.TestCase):
    def test_program(self):
        with mock.patch.dict(os.environ, {"LOCATE": "/no/program"}), self.assertRaises(ProgramNotFound):
            find_program()
        with mock.patch.dict(os.environ, {"LOCATE": "", "PATH": "/no/folder"}), mock.patch.object(_program, "SCRIPT", Path("/no/script")):
            with self.assertRaises(ProgramNotFound):
                Layer(SQUARE, 0).check()

    def test_on_path(self):
        with tempfile.TemporaryDirectory() as folder:
            command = Path(folder) / "planar-locate"
            command.symlink_to(Path(find_program()).resolve())
            with mock.patch.dict(os.environ, {"LOCATE": "", "PATH": folder}), mock.patch.object(_program, "SCRIPT", Path("/no/script")):
                self.assertEqual(find_program(), str(command))

    def test_without_numpy(self):
        """The package is imported and used without numpy, pandas and geopandas."""
        code = ("import sys; sys.modules.update(dict.fromkeys(['numpy', 'pandas', 'geopandas'])); import planar_locate; "
                f"print(planar_locate.Layer({SQUARE!r}, 0).ask([(1, 1)])[0].name)")
        done = subprocess.run([sys.executable, "-c", code], cwd=TOP / "python", capture_output=True, text=True)
        self.assertEqual((done.stdout, done.stderr), ("face\n", ""))


if __name__ == "__main__":
    unittest.main()
