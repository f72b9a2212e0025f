#!/usr/bin/env python3
"""The package on the five parcels of this repository, step by step: python3 python/examples/parcels.py

Each step writes what it finds; `python/tests/test_example.py` runs it and compares the lines.
"""
import sys
import tempfile
from decimal import Decimal
from pathlib import Path

sys.dont_write_bytecode = True
HERE = Path(__file__).resolve().parent
sys.path.insert(0, str(HERE.parent))
from planar_locate import Index, Layer, Refused, Unread

PARCELS = HERE.parents[1] / "examples" / "parcels.wkt"


# 1. A layer is a file, a text or pairs of ids and polygons. `check` reads it, and counts.
layer = Layer(PARCELS, scale=0)
print("counts:", layer.check())

# 2. A layer is asked for points. An answer has the place, its number, and the ids of the polygons that touch and that cover the point.
for answer in layer.ask([(5, 5), (40, 30), (40, 10), (100, 100)]):
    print(answer.name, "on", answer.on, "covered by", answer.covered_by)

# 3. Who asks more than once builds an index file, which is opened ever after.
with tempfile.TemporaryDirectory() as folder:
    layer.build(Path(folder) / "parcels.index")
    index = Index.open(Path(folder) / "parcels.index")
    print("scale:", index.scale)
    print("judged:", index.verify()[:3])
    print("the same answers:", index.ask([(5, 5), (40, 30)]) == layer.ask([(5, 5), (40, 30)]))

# 4. Coordinates are exact: text and Decimal as they are written, floats by the shortest text that reads back as them.
lots = Layer([("north", "POLYGON ((0 0.5, 1 0.5, 1 1, 0 1, 0 0.5))"), ("south", "POLYGON ((0 0, 1 0, 1 0.5, 0 0.5, 0 0))")], scale=1)
for point in [(0.5, 0.5), ("0.5", Decimal("0.6"))]:
    print(lots.ask([point])[0])

# 5. What has more decimals than the scale is an error, or is rounded, or is answered `unread`.
try:
    lots.ask([(0.1, 0.2), (0.25, 0.2)])
except Unread as error:
    print("unread:", error.index, error.point)
print("rounded:", lots.ask([(0.25, 0.45)], round=True)[0].name)
print("coerced:", lots.ask([(0.25, 0.2)], errors="coerce")[0].name)

# 6. A layer that is refused tells its line and its cause.
for text in ["POLYGON ((0 0, 4 4, 4 0, 0 4, 0 0))", "POLYGON ((0 0, 4 0, 4 4, 0 0))\nPOLYGON ((0 0, 4 0, 4.5 4, 0 0))"]:
    try:
        Layer(text, scale=0).check()
    except Refused as error:
        print("refused: line", error.line, error.cause)
