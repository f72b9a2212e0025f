"""Random layers at scale 1, and their conflicts by the definition of a conflict: what tools/test_faults and tools/test_mend compare with.

A feature is a list of rings, a ring a list of points whose first is its last, and a point a pair of whole numbers: tenths.
"""
import itertools


def random_ring(draw, width):
    """A box, a triangle or any ring, whose corners are often those of its neighbours."""
    x, y = draw.randrange(-width, width), draw.randrange(-width, width)
    kind = draw.random()
    if kind < 0.6:
        right, top = x + draw.randint(1, 4), y + draw.randint(1, 4)
        points = [(x, y), (right, y), (right, top), (x, top)]
    else:
        count = 3 if kind < 0.85 else draw.randint(4, 7)
        points = [(x + draw.randint(-3, 3), y + draw.randint(-3, 3)) for _ in range(count)]
    return points + points[:1]


def random_layer(draw):
    """Features as lists of rings; from sparse layers without a conflict to crowded ones."""
    width = draw.choice([8, 20, 60, 200])
    return [[random_ring(draw, width) for _ in range(draw.choice([1, 1, 1, 2]))] for _ in range(draw.randint(1, 14))]


def decimal(value):
    return f"{'-' if value < 0 else ''}{abs(value) // 10}.{abs(value) % 10}"


def geometry(rings):
    texts = ["((" + ", ".join(f"{decimal(x)} {decimal(y)}" for x, y in ring) + "))" for ring in rings]
    return f"MULTIPOLYGON ({', '.join(texts)})"


def text_of(features, form):
    lines = [geometry(rings) if rings else "" for rings in features]
    if form == "csv":
        lines = ["id,wkt"] + [f'{number},"{line}"' for number, line in enumerate(lines, 1)]
    return "\n".join(lines).encode() + b"\n"


def turn(a, b, p):
    return (b[0] - a[0]) * (p[1] - a[1]) - (b[1] - a[1]) * (p[0] - a[0])


def lies_inside(edge, p):
    return turn(*edge, p) == 0 and p not in edge and all(min(s) <= v <= max(s) for s, v in zip(zip(*edge), p))


def how_by_definition(one, other):
    if any(lies_inside(one, p) for p in other) or any(lies_inside(other, p) for p in one):
        return "touch"
    apart = turn(*one, other[0]) * turn(*one, other[1]) < 0 and turn(*other, one[0]) * turn(*other, one[1]) < 0
    return "cross" if apart else None


def pieces_by_definition(segments):
    """The segments cut at each corner that lies inside of one."""
    corners = {p for segment in segments for p in segment}
    chains = [sorted({*segment, *(p for p in corners if lies_inside(segment, p))}) for segment in segments]
    return {piece for chain in chains for piece in zip(chain, chain[1:])}


def pairs_by_definition(features):
    segments = pieces_by_definition({tuple(sorted(side)) for rings in features for ring in rings for side in zip(ring, ring[1:]) if side[0] != side[1]})
    def written(edge):
        return ", ".join(f"{decimal(x)} {decimal(y)}" for x, y in edge)
    found = set()
    for one, other in itertools.combinations(sorted(segments), 2):
        how = how_by_definition(one, other)
        if how:
            found.add(f"edges {written(one)} and {written(other)} {how}")
    return found
