#!/usr/bin/env python3
"""Draws the rows of crates/loc_run_rows in which corners lie on sides of others: brick_rows.py ROWS LEFT writes the rows, and what they leave.

A layer is a wall: courses of bricks of random lengths, some left out, under a linear map. Its corners lie inside sides, and no two sides cross. The
answers are those of reference.py, by whole numbers. The number of nodes is that of the program in dist/ on the same wall with each corner put into
the sides on which it lies.
"""
import pathlib
import random
import subprocess
import sys
import tempfile

from reference import covers, lies_on, segments

PROGRAM = pathlib.Path(__file__).resolve().parent.parent / "dist" / "locate"
MAPS = [(1, 0, 0, 1), (1, 2, -1, 3), (2, 1, 1, 1), (3, -1, 1, 2), (0, 1, -1, 0), (1, -3, 2, 1), (5, 2, 1, 3)]


def brick(draw, box):
    left, low, right, high = box
    corners = [(left, low), (right, low), (right, high), (left, high)]
    first = draw.randrange(4)
    corners = corners[first:] + corners[:first]
    if draw.random() < 0.5:
        corners.reverse()
    return corners + corners[:1]


def wall(draw):
    a, b, c, d = draw.choice(MAPS)
    width, courses = draw.randint(5, 9), draw.randint(2, 4)
    heights = [0]
    for _ in range(courses):
        heights.append(heights[-1] + draw.randint(1, 2))
    rings = []
    for low, high in zip(heights, heights[1:]):
        cuts = [0] + sorted(draw.sample(range(1, width), draw.randint(1, 3))) + [width]
        for left, right in zip(cuts, cuts[1:]):
            if draw.random() < 0.8:
                ring = brick(draw, (left, low, right, high))
                rings.append([(2 * (a * x + b * y), 2 * (c * x + d * y)) for x, y in ring])
    draw.shuffle(rings)
    return rings


class Layer:
    def __init__(self, rings):
        self.rings = rings
        self.corners = sorted({p for ring in rings for p in ring})
        self.sides = sorted({side for ring in rings for side in segments(ring)})
        self.edges = sorted({piece for side in self.sides for piece in self.pieces(side)})

    def pieces(self, side):
        on = [p for p in self.corners if lies_on(side, p)]
        return list(zip(on, on[1:]))

    def with_corners(self, ring):
        """The ring with each corner of the layer put in where it lies on a side."""
        points = ring[:1]
        for p, q in zip(ring, ring[1:]):
            on = [c for c in self.corners if lies_on(tuple(sorted((p, q))), c)]
            points += on[1:] if p < q else on[-2::-1]
        return points

    def answer(self, p):
        on = [n for n, ring in enumerate(self.rings, 1) if any(lies_on(side, p) for side in segments(ring))]
        over = [n for n, ring in enumerate(self.rings, 1) if n not in on and covers(ring, p)]
        at = [lies_on(edge, p) for edge in self.edges]
        words = ["face"]
        if p in self.corners:
            words = ["corner", str(self.corners.index(p)), "on"] + [f'"{n}"' for n in on]
        elif True in at:
            words = ["border", str(at.index(True)), "on"] + [f'"{n}"' for n in on]
        return " ".join(words + ["in"] + [f'"{n}"' for n in over])

    def points(self, draw):
        points = draw.sample(self.corners, 3)
        points += [((p[0] + q[0]) // 2, (p[1] + q[1]) // 2) for p, q in draw.sample(self.edges, 4)]
        xs, ys = [x for x, _ in self.corners], [y for _, y in self.corners]
        return points + [(draw.randint(min(xs), max(xs)), draw.randint(min(ys), max(ys))) for _ in range(5)]

    def index_line(self):
        with tempfile.TemporaryDirectory() as folder:
            layer, index = pathlib.Path(folder, "layer"), pathlib.Path(folder, "index")
            layer.write_text(text_of(map(self.with_corners, self.rings)))
            subprocess.run([PROGRAM, "build", layer, index, "--scale", "0"], check=True)
            line = subprocess.run([PROGRAM, "verify", index], check=True, capture_output=True, text=True).stdout.strip()
        if not line.startswith(f"index of {len(self.rings)} features, {len(self.corners)} corners, {len(self.edges)} edges, "):
            raise SystemExit(f"another table: {line}")
        return line


def text_of(rings):
    return "".join("POLYGON ((" + ", ".join(f"{x} {y}" for x, y in ring) + "))\n" for ring in rings)


def row_of(number, layer, points):
    text = text_of(layer.rings).replace("\n", "\\n")
    head = [f"row bricks whose corners lie on sides of others, {number} of 10", f"file layer {text}",
            "file points " + "".join(f"{x} {y}\\n" for x, y in points)]
    answers = ["| " + layer.answer(p) for p in points] + ["status 0"]
    index = layer.index_line()
    query = "query layer points --scale 0"
    steps = [("run build layer index --scale 0", ["status 0", "made " + index.replace(" of", ":", 1)]), (f"run {query} --index scan", answers)]
    steps += [(f"same {query} --index {name}", ["same"]) for name in ("tree", "trap")]
    steps += [("same ask index points", ["same"]), ("run verify index", ["| " + index, "status 0"])]
    counts = f"| features {len(layer.rings)} corners {len(layer.corners)} edges {len(layer.edges)}"
    steps += [("run check layer --scale 0", [counts, "status 0"]), (f"run {query}", answers)]
    steps += [(f"same {query} --index trap --shuffle {n}", ["same"]) for n in range(24)]
    left = head + [line for step, lines in steps for line in (step, *lines)]
    return head + [step for step, _ in steps] + [""], left + [""]


def main():
    draw = random.Random(37)
    rows, left, number = [], [], 0
    while number < 10:
        layer = Layer(wall(draw))
        if any(len(layer.pieces(side)) > 1 for side in layer.sides):
            number += 1
            row, leaves = row_of(number, layer, layer.points(draw))
            rows += row
            left += leaves
    pathlib.Path(sys.argv[1]).write_text("\n".join(rows))
    pathlib.Path(sys.argv[2]).write_text("\n".join(left))


if __name__ == "__main__":
    main()
