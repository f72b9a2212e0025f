#!/usr/bin/env python3
"""A plain reference, to compare the program with: reference.py LAYER POINTS [SCALE] prints the answers by whole numbers, from the texts alone.

It reads lines POLYGON ((x y, ..)) and points x y, of numbers with at most SCALE decimals, and takes the layer as one in which no two edges
cross. An edge is cut at each corner that lies on it.
"""
import re
import sys
from bisect import bisect_left, bisect_right

NUMBER = r"[-+]?\d+(?:\.\d*)?"
POINT = re.compile(rf"[ \t\r]*({NUMBER})[ \t\r]+({NUMBER})[ \t\r]*\n?")


def whole(word, scale):
    units, _, decimals = word.partition(".")
    if len(decimals) > scale:
        raise ValueError(f"{word} has more than {scale} decimals")
    return int(units + decimals.ljust(scale, "0"))


def read_layer(path, scale=0):
    features = []
    for number, line in enumerate(open(path), 1):
        if line.strip(" \t\r\n"):
            values = [whole(word, scale) for word in re.findall(NUMBER, line)]
            features.append((number, list(zip(values[0::2], values[1::2]))))
    return features


def segments(ring):
    return [tuple(sorted(pair)) for pair in zip(ring, ring[1:]) if pair[0] != pair[1]]


def turn(a, b, p):
    return (b[0] - a[0]) * (p[1] - a[1]) - (b[1] - a[1]) * (p[0] - a[0])


def lies_on(edge, p):
    return turn(*edge, p) == 0 and edge[0] <= p <= edge[1]


def sources(edges):
    """The edges cut at each corner that lies on them: by each piece the least edge of which it is one."""
    corners = sorted({p for edge in edges for p in edge})
    found = {}
    for low, high in sorted(edges):
        between = corners[bisect_right(corners, low):bisect_left(corners, high)]
        inside = [p for p in between if turn(low, high, p) == 0]
        for piece in zip([low] + inside, inside + [high]):
            found.setdefault(piece, (low, high))
    return found


def noded(edges):
    """The pieces of edges that are cut at each corner that lies on them, each once, in order."""
    return sorted(sources(edges))


def covers(ring, p):
    inside = False
    for a, b in segments(ring):
        low, high = sorted((a, b), key=lambda q: q[1])
        if low[1] <= p[1] < high[1] and turn(low, high, p) > 0:
            inside = not inside
    return inside


def touching_and_covering(features, p):
    on = [n for n, ring in features if any(lies_on(edge, p) for edge in segments(ring))]
    return on, [n for n, ring in features if n not in on and covers(ring, p)]


def main():
    scale = int(sys.argv[3]) if len(sys.argv) > 3 else 0
    features = read_layer(sys.argv[1], scale)
    edges = noded({edge for _, ring in features for edge in segments(ring)})
    corners = sorted({p for edge in edges for p in edge})
    for line in open(sys.argv[2]):
        found = POINT.fullmatch(line)
        if not found:
            print("unread")
            continue
        p = (whole(found[1], scale), whole(found[2], scale))
        on, inside = touching_and_covering(features, p)
        words = ["face"]
        if p in corners:
            words = ["corner", str(corners.index(p)), "on"] + [f'"{n}"' for n in on]
        elif any(lies_on(edge, p) for edge in edges):
            words = ["border", str([lies_on(edge, p) for edge in edges].index(True)), "on"] + [f'"{n}"' for n in on]
        print(" ".join(words + ["in"] + [f'"{n}"' for n in inside]))


if __name__ == "__main__":
    main()
