#!/usr/bin/env python3
"""Makes a layer and points for benchmarks: make_layer.py KIND N SHIFT LAYER POINTS [COUNT]

With s = SHIFT mod 65536, every feature of the first three kinds is the rectangle from (a c) to (b d):
grid    for i and j from 0 to N-1: a, c = s+i, j and b, d = s+i+1, j+1
nest    for i from 0 to N-1: a, c = s+i, i and b, d = s+4N-i, 4N-i
strips  for i from 0 to N-1, with h = (s + i*40503) mod 65536: a, c = h, 2i and b, d = h+200000, 2i+1
quads   a jittered grid of N by N quadrilaterals that share their corners; SHIFT seeds the jitter
cells   the same in degrees of 7 decimals, at which the midpoint of each edge can be written
near    cells, with other points
joints  quads, of which each fourth has a corner more, in the middle of the side that it shares with the quadrilateral below
seams   the same in degrees of 7 decimals
long    strips, and a triangle with a corner on the long side of the first
Point t, for t from 0 to N-1, is (s + (t*40503) mod 4N, (t*25173) mod 2N); those of quads, cells, near, joints and seams are drawn, 1000 of them.
With COUNT so many points are drawn, from the box of the layer. Of each four points of near the first is drawn from the box, and the others
are a corner, the midpoint of an edge, and a point one unit above or below a midpoint.
"""
import random
import sys

DEGREES = {"cells": 7, "near": 7, "seams": 7}


def box(a, c, b, d):
    return [(a, c), (b, c), (b, d), (a, d)]


def grid(n, s):
    return (box(s + i, j, s + i + 1, j + 1) for i in range(n) for j in range(n))


def nest(n, s):
    return (box(s + i, i, s + 4 * n - i, 4 * n - i) for i in range(n))


def strips(n, s):
    starts = ((s + i * 40503) % 65536 for i in range(n))
    return (box(h, 2 * i, h + 200000, 2 * i + 1) for i, h in enumerate(starts))


def net(n, s, left, low, width, step):
    draw = random.Random(s)
    jitter = width * 2 // 5 // step
    return [
        [(left + width * i + step * draw.randrange(jitter), low + width * j + step * draw.randrange(jitter)) for j in range(n + 1)]
        for i in range(n + 1)
    ]


def quadrilaterals(at):
    n = len(at) - 1
    return ([at[i][j], at[i + 1][j], at[i + 1][j + 1], at[i][j + 1]] for i in range(n) for j in range(n))


def quads(n, s):
    return quadrilaterals(net(n, s, 0, 0, 100, 1))


def jointed(at):
    # all coordinates are even, so that each side has a middle
    n = len(at) - 1
    for k, (a, b, c, d) in enumerate(quadrilaterals(at)):
        middle = ((a[0] + b[0]) // 2, (a[1] + b[1]) // 2)
        yield [a, middle, b, c, d] if (k // n + k) % 4 == 0 else [a, b, c, d]


def joints(n, s):
    return jointed(net(n, s, 0, 0, 100, 2))


def degrees(n, s):
    return net(n, s, 130_000_000, 520_000_000, 100_000, 2)


def cells(n, s):
    return quadrilaterals(degrees(n, s))


def seams(n, s):
    return jointed(degrees(n, s))


def long(n, s):
    yield from strips(n, s)
    yield [(100_000, 0), (100_001, -5), (100_002, -5)]


def size(kind, n, s):
    sizes = {"grid": (s, 0, n, n), "nest": (s, 0, 4 * n, 4 * n), "strips": (0, 0, 265536, 2 * n), "quads": (0, 0, 100 * n, 100 * n)}
    sizes["joints"], sizes["long"] = sizes["quads"], sizes["strips"]
    return sizes.get(kind, (130_000_000, 520_000_000, 100_000 * n, 100_000 * n))


def anywhere(kind, n, s, count):
    draw = random.Random(s + 1)
    left, low, width, height = size(kind, n, s)
    return ((left + draw.randrange(width), low + draw.randrange(height)) for _ in range(count))


def near(n, s, count):
    at, draw = degrees(n, s), random.Random(s + 2)
    for t, drawn in enumerate(anywhere("near", n, s, count)):
        i, j = draw.randrange(n), draw.randrange(n)
        (x, y), (u, v) = at[i][j], draw.choice([at[i + 1][j], at[i][j + 1]])
        middle = ((x + u) // 2, (y + v) // 2)
        yield [drawn, (x, y), middle, (middle[0], middle[1] + draw.choice([-1, 1]))][t % 4]


def points(kind, n, s, count):
    if kind == "near":
        return near(n, s, count or 1000)
    if count or kind in ("quads", "cells", "joints", "seams"):
        return anywhere(kind, n, s, count or 1000)
    return ((s + t * 40503 % (4 * n), t * 25173 % (2 * n)) for t in range(n))


def number(value, decimals):
    return f"{value // 10**decimals}.{value % 10**decimals:0{decimals}}" if decimals else str(value)


def main():
    kind, n, s, layer, lines = sys.argv[1], int(sys.argv[2]), int(sys.argv[3]) % 65536, sys.argv[4], sys.argv[5]
    count = int(sys.argv[6]) if len(sys.argv) > 6 else None
    make = {"grid": grid, "nest": nest, "strips": strips, "quads": quads, "cells": cells, "near": cells, "joints": joints, "seams": seams,
            "long": long}[kind]
    decimals = DEGREES.get(kind, 0)

    def text(point):
        return f"{number(point[0], decimals)} {number(point[1], decimals)}"

    with open(layer, "w") as out:
        out.writelines("POLYGON ((" + ", ".join(map(text, ring + ring[:1])) + "))\n" for ring in make(n, s))
    with open(lines, "w") as out:
        out.writelines(text(point) + "\n" for point in points(kind, n, s, count))


main()
