"""The join of points with polygons beside that of geopandas. Skipped where geopandas is not there."""
import unittest
import warnings

from planar_locate import Refused, Unread, sjoin

try:
    import geopandas
    import pandas
    from shapely.geometry import LineString, Point, Polygon
except ImportError:
    geopandas = None


def box(left, bottom, right, top):
    return Polygon([(left, bottom), (right, bottom), (right, top), (left, top)])


@unittest.skipIf(geopandas is None, "geopandas is not there")
class FramesTest(unittest.TestCase):
    def setUp(self):
        warnings.simplefilter("ignore")
        shapes = [box(0, 0, 2, 2), box(2, 0, 4, 2), box(0.5, 0.5, 1.5, 1.5), box(9, 9, 10, 10)]
        self.polygons = geopandas.GeoDataFrame({"name": ["a", "b", "c", "d"], "size": [4, 4, 1, 1]}, geometry=shapes, index=[10, 11, 12, 13])
        places = [Point(x / 2, y / 2) for x in range(-1, 10) for y in range(-1, 6)]
        self.points = geopandas.GeoDataFrame({"name": range(len(places)), "note": "p"}, geometry=places, index=range(100, 100 + len(places)))

    def compare(self, points, polygons, how, predicate, **more):
        found = sjoin(points, polygons, 1, how, predicate, **more)
        try:
            wanted = geopandas.sjoin(points, polygons, how, predicate, **more)
        except ImportError as error:
            self.skipTest(str(error))
        self.assertIsInstance(found, geopandas.GeoDataFrame)
        self.assertEqual(list(found.columns), list(wanted.columns) + ["place"])
        by = [name for name in found.columns if name.startswith("index_")]
        tables = [pandas.DataFrame(table.drop(columns="geometry")).assign(key=table.index).sort_values(["key"] + by).reset_index(drop=True)
                  for table in (found.drop(columns="place"), wanted)]
        pandas.testing.assert_frame_equal(*tables, check_dtype=False)
        return found

    def test_as_geopandas(self):
        for how in ("inner", "left", "right"):
            for predicate in ("intersects", "within", "touches"):
                with self.subTest(how=how, predicate=predicate):
                    self.compare(self.points, self.polygons, how, predicate)
        self.compare(self.points, self.polygons.rename(columns={"name": "lot"}), "left", "intersects", lsuffix="p", rsuffix="q")

    def test_none(self):
        self.compare(self.points.iloc[:0], self.polygons, "left", "intersects")
        self.compare(self.points.iloc[-3:], self.polygons, "inner", "within")

    def test_places(self):
        found = sjoin(self.points, self.polygons, 1, "left")
        place = dict(zip(zip(found.geometry.x, found.geometry.y), found["place"]))
        self.assertEqual((place[0, 0], place[1, 1], place[0.5, 1], place[4.5, 2]), ("corner 0", "face", "border 3", "face"))
        self.assertEqual(list(found.index), sorted(found.index))

    def test_missing_geometry(self):
        points = geopandas.GeoDataFrame({"name": [1, 2, 3]}, geometry=[Point(1, 1), None, Point()])
        found = sjoin(points, self.polygons, 1, "left")
        self.assertEqual(list(found["place"]), ["face", "face", None, None])
        self.assertEqual(list(found["name_right"].fillna("")), ["a", "c", "", ""])

    def test_refused(self):
        bent = geopandas.GeoDataFrame(geometry=[box(0, 0, 2, 2), box(1, 1, 3, 3)])
        with self.assertRaises(Refused):
            sjoin(self.points, bent, 1)
        with self.assertRaises(Unread):
            sjoin(geopandas.GeoDataFrame(geometry=[Point(0.25, 1)]), self.polygons, 1)
        self.assertEqual(list(sjoin(geopandas.GeoDataFrame(geometry=[Point(0.04, 1)]), self.polygons, 1, round=True)["place"]), ["border 0"])
        for words in ({"how": "outer"}, {"predicate": "contains"}):
            with self.assertRaises(ValueError):
                sjoin(self.points, self.polygons, 1, **words)
        for points, polygons in ((self.polygons, self.polygons), (self.points, self.points), (self.points.assign(place=1), self.polygons),
                                 (self.points.assign(index_right=1), self.polygons)):
            with self.assertRaises(ValueError):
                sjoin(points, polygons, 1)
        with self.assertRaises(ValueError):
            sjoin(self.points, geopandas.GeoDataFrame(geometry=[LineString([(0, 0), (1, 1)])]), 1)


if __name__ == "__main__":
    unittest.main()
