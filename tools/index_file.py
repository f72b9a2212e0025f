"""Index files of both versions, read, made, searched and judged by whole numbers, written apart from the program and after docs/FORMATS.md alone.

`read` raises `IndexFault`, whose words are the note that `locate ask` writes; `made` gives the bytes of a content in either version; `answer`
gives the answer line of a point, or raises `IndexFault` where the search is given up; `edge_lines` gives the lines of the edges with their sources;
`judge` gives the notes that may refuse a file that reads.
"""
from fractions import Fraction
from typing import NamedTuple

GRID = 10 ** 18
DEEPEST = 42
# The most edges of each version, which are also its most marks.
MOST_EDGES = {1: 2 ** 20, 2: 2 ** 21}


class IndexFault(Exception):
    """The note that refuses an index file."""


class Node(NamedTuple):
    item: int
    left: int
    right: int
    side: int
    stamp: int
    extra: int


class Content:
    """What a file holds: its version, and its rows part by part. A source is a pair of corners, as an edge is."""
    version: int
    scale: int
    ids: list
    corners: list
    edges: list
    above: list
    sources: list
    marks: list
    covers: list
    floors: list
    roots: list
    nodes: list


class Reader:
    """The bytes of a file, and how far they are read."""

    def __init__(self, data):
        self.data, self.at = data, 0

    def take(self, count):
        if self.at + count > len(self.data):
            raise IndexFault(f"index: short, {self.at + count} bytes needed")
        self.at += count
        return self.data[self.at - count:self.at]

    def number(self, width, bound):
        value = int.from_bytes(self.take(width), "big")
        if value >= bound:
            raise IndexFault(f"index: field at {self.at - width} holds {value}, bound {bound}")
        return value

    def word(self, bound):
        return self.number(4, bound)

    def coordinate(self):
        value = int.from_bytes(self.take(8), "big", signed=True)
        if abs(value) > GRID:
            raise IndexFault(f"index: field at {self.at - 8} holds {abs(value)}, bound {GRID + 1}")
        return value


def in_order(part, row, rows):
    if len(rows) > 1 and not rows[-2] < rows[-1]:
        raise IndexFault(f"index: {part} row {row} not in order")


def read_edges(r, content, count, corners, lists):
    content.edges, content.above, content.sources = [], [], []
    for row in range(count):
        edge = r.word(corners), r.word(corners)
        above = r.word(lists)
        source = (r.word(corners), r.word(corners)) if content.version == 2 else edge
        content.edges.append(edge)
        content.above.append(above)
        content.sources.append(source)
        if not (edge[0] < edge[1] and source[0] < source[1]):
            raise IndexFault(f"index: edges row {row} not in order")
        in_order("edges", row, content.edges)


def read_marks(r, content, count, edges, features):
    content.marks = []
    for row in range(count):
        content.marks.append((r.word(edges), r.word(features), r.number(1, 2)))
        in_order("marks", row, [mark[:2] for mark in content.marks[-2:]])


def read_covers(r, content, count, features):
    content.covers, members = [], 0
    for row in range(count):
        length = r.word(min(features, 2 ** 24 - members) + 1)
        members += length
        content.covers.append([r.word(features) for _ in range(length)])
        if any(a >= b for a, b in zip(content.covers[-1], content.covers[-1][1:])):
            raise IndexFault(f"index: covers row {row} not in order")
        in_order("covers", row, content.covers)


def read_node(r, edges, corners, nodes):
    item, left, right, side = r.word(edges), r.word(nodes + 1), r.word(nodes + 1), r.number(1, 3)
    return Node(item, left, right, side, r.word(corners if side else 1), r.word(nodes + 1 if side else 1))


def read(data):
    """The content of the bytes of a file."""
    r, content = Reader(data), Content()
    if r.take(8) != b"LOCINDEX":
        raise IndexFault("index: bad magic")
    content.version = int.from_bytes(r.take(4), "big")
    if content.version not in MOST_EDGES:
        raise IndexFault(f"index: version {content.version}")
    most = MOST_EDGES[content.version]
    content.scale = r.word(16)
    features, corners, edges, marks = r.word(2 ** 18 + 1), r.word(2 ** 20 + 1), r.word(most + 1), r.word(most + 1)
    lists, nodes = r.word(edges + 1), r.word(24 * edges + 1)
    content.ids = [r.take(r.number(1, 201)) for _ in range(features)]
    content.corners = []
    for row in range(corners):
        content.corners.append((r.coordinate(), r.coordinate()))
        in_order("corners", row, content.corners)
    read_edges(r, content, edges, corners, lists)
    read_marks(r, content, marks, edges, features)
    read_covers(r, content, lists, features)
    content.floors = [r.word(edges + 1) - 1 for _ in range(corners)]
    content.roots = [r.word(nodes + 1) for _ in range(corners)]
    content.nodes = [None] + [read_node(r, edges, corners, nodes) for _ in range(nodes)]
    if r.at < len(data):
        raise IndexFault(f"index: {len(data) - r.at} bytes too many")
    return content


def words(*values):
    return b"".join(value.to_bytes(4, "big") for value in values)


def made(content, version):
    """The bytes of a content as a file of a version; the first has no room for sources."""
    parts = [b"LOCINDEX", words(version, content.scale, len(content.ids), len(content.corners), len(content.edges), len(content.marks),
                                len(content.covers), len(content.nodes) - 1)]
    parts += [len(name).to_bytes(1, "big") + name for name in content.ids]
    parts += [value.to_bytes(8, "big", signed=True) for corner in content.corners for value in corner]
    for edge, above, source in zip(content.edges, content.above, content.sources):
        parts.append(words(*edge, above, *(source if version == 2 else ())))
    parts += [words(edge, feature) + odd.to_bytes(1, "big") for edge, feature, odd in content.marks]
    parts += [words(len(cover), *cover) for cover in content.covers]
    parts += [words(floor + 1) for floor in content.floors] + [words(root) for root in content.roots]
    parts += [words(n.item, n.left, n.right) + n.side.to_bytes(1, "big") + words(n.stamp, n.extra) for n in content.nodes[1:]]
    return b"".join(parts)


def child(content, version, number, side):
    node = content.nodes[number]
    if node.side == side and node.stamp <= version:
        return node.extra
    return node.left if side == 1 else node.right


def points(content, pair):
    """The corners whose numbers are these two."""
    return content.corners[pair[0]], content.corners[pair[1]]


def ends(content, edge):
    return points(content, content.edges[edge])


def turn(a, b, p):
    return (b[0] - a[0]) * (p[1] - a[1]) - (b[1] - a[1]) * (p[0] - a[0])


def lies_on(segment, p):
    low, high = segment
    return turn(low, high, p) == 0 and low <= p <= high


def printed(content, value):
    """A coordinate as it is printed at the file's scale."""
    digits = str(abs(value)).rjust(content.scale + 1, "0")
    whole = len(digits) - content.scale
    return "-" * (value < 0) + digits[:whole] + ("." + digits[whole:] if content.scale else "")


def edge_lines(content):
    """A line for each edge, in order: its ends, and those of its source."""
    def ends_text(pair):
        return ", ".join(f"{printed(content, x)} {printed(content, y)}" for x, y in points(content, pair))

    return "".join(f"edge {n} {ends_text(edge)} of {ends_text(source)}\n" for n, (edge, source) in enumerate(zip(content.edges, content.sources)))


def is_above(content, edge, p):
    low, high = ends(content, edge)
    return turn(low, high, p) > 0


def search(content, p):
    """The place of a point by the file's own nodes: its kind and a number; -1 where it has no floor."""
    if p in content.corners:
        return "corner", content.corners.index(p)
    version = sum(corner < p for corner in content.corners) - 1
    if version < 0:
        return "face", -1
    number, floor = content.roots[version], -1
    for _ in range(DEEPEST):
        if number == 0:
            return "face", floor
        item = content.nodes[number].item
        side = turn(*ends(content, item), p)
        if side == 0:
            return "border", item
        if side > 0:
            number, floor = child(content, version, number, 2), item
        else:
            number = child(content, version, number, 1)
    if number == 0:
        return "face", floor
    raise IndexFault(f"index: version {version} deeper than {DEEPEST}")


def quoted(content, features):
    return "".join(' "' + content.ids[f].decode("utf-8", "surrogateescape").replace('"', '""') + '"' for f in features)


def answer(content, p):
    """The answer line of a point, by the search and the file's own rows."""
    kind, number = search(content, p)
    if kind == "face":
        return "face in" + quoted(content, content.covers[content.above[number]] if number >= 0 else [])
    edges = [number] if kind == "border" else [e for e, pair in enumerate(content.edges) if number in pair]
    on = sorted({feature for edge, feature, _ in content.marks if edge in edges})
    over = number if kind == "border" else content.floors[number]
    covering = [f for f in (content.covers[content.above[over]] if over >= 0 else []) if f not in on]
    return f"{kind} {number} on{quoted(content, on)} in{quoted(content, covering)}"


def conflict(content, a, b):
    """How two edges conflict, or None: they cross, or they touch elsewhere than at common ends."""
    (p, q), (r, s) = ends(content, a), ends(content, b)
    turns = [turn(p, q, r), turn(p, q, s), turn(r, s, p), turn(r, s, q)]
    if turns[0] * turns[1] < 0 and turns[2] * turns[3] < 0:
        return "cross"
    touching = {x for x in (r, s) if lies_on((p, q), x)} | {x for x in (p, q) if lies_on((r, s), x)}
    return "touch" if touching - ({p, q} & {r, s}) or len(touching) > 1 else None


def alive(content, p):
    """The edges alive at a corner, from the lowest to the highest: those that begin at it or before it, and end behind it."""
    found = [e for e in range(len(content.edges)) if ends(content, e)[0] <= p < ends(content, e)[1]]

    def height(edge):
        """Where the edge stands at the corner's x; where several meet there, those that begin rise with their slopes, and those that end fall."""
        low, high = ends(content, edge)
        if low[0] == high[0]:
            return low[1], 1, 0
        slope = Fraction(high[1] - low[1], high[0] - low[0])
        at = low[1] + slope * (p[0] - low[0])
        return at, 0, slope if low == (p[0], at) else -slope

    return sorted(found, key=height)


def floor_of(content, p):
    below = [e for e in alive(content, p) if ends(content, e)[0] < p and is_above(content, e, p)]
    return below[-1] if below else -1


def cover_above(content, edge):
    low = ends(content, edge)[0]
    order = alive(content, low)
    beneath = set(order[:order.index(edge) + 1])
    count = {}
    for e, feature, odd in content.marks:
        if odd and e in beneath:
            count[feature] = count.get(feature, 0) + 1
    return sorted(f for f, times in count.items() if times % 2)


def is_deep(content, version, k):
    """Whether a path from the root has d nodes with 2^d > (k+1)^2: by levels, each node once a level."""
    level, depth = {content.roots[version]} - {0}, 0
    while level:
        depth += 1
        if 2 ** depth > (k + 1) ** 2:
            return True
        level = {child(content, version, n, side) for n in level for side in (1, 2)} - {0}
    return False


def reading(content, version, number):
    if number == 0:
        return []
    return reading(content, version, child(content, version, number, 1)) + [content.nodes[number].item] + reading(content, version, child(content, version, number, 2))


def flaw_of_version(content, version):
    expected = alive(content, content.corners[version])
    if is_deep(content, version, len(expected)):
        return f"verify: version {version} deep"
    found = reading(content, version, content.roots[version])
    if found == expected:
        return None
    at = next((i for i, (a, b) in enumerate(zip(found, expected)) if a != b), min(len(found), len(expected)))
    return f"verify: version {version} wrong at {at}"


def conflicts(content):
    """All pairs of edges that conflict, as the notes name them."""
    count = len(content.edges)
    return [f"verify: edges {a} and {b} {how}" for a in range(count) for b in range(a + 1, count) if (how := conflict(content, a, b))]


def uneven(content, corner):
    count = {}
    for e, feature, odd in content.marks:
        if odd and corner in content.edges[e]:
            count[feature] = count.get(feature, 0) + 1
    return [f for f in sorted(count) if count[f] % 2]


def judge(content):
    """The notes that may refuse a file that reads: several where edges conflict, none where it is a true index."""
    corners, edges = range(len(content.corners)), range(len(content.edges))
    for n in corners:
        if not any(n in pair for pair in content.edges):
            return [f"verify: corner {n} lone"]
    for e in edges:
        if not any(mark[0] == e for mark in content.marks):
            return [f"verify: edge {e} bare"]
    for n in corners:
        for f in uneven(content, n):
            return [f"verify: feature {f} uneven at corner {n}"]
    if pairs := conflicts(content):
        return pairs
    for n in corners:
        if content.floors[n] != floor_of(content, content.corners[n]):
            return [f"verify: floor of corner {n}"]
    for e in edges:
        if content.covers[content.above[e]] != cover_above(content, e):
            return [f"verify: cover of edge {e}"]
    for number in range(len(content.covers)):
        if number not in content.above:
            return [f"verify: list {number} spare"]
    for e in edges:
        if not all(lies_on(points(content, content.sources[e]), p) for p in ends(content, e)):
            return [f"verify: source of edge {e}"]
    for version in corners:
        if flaw := flaw_of_version(content, version):
            return [flaw]
    return []
