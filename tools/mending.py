"""Mends the conflicts of a layer by snapping, in whole numbers: what tools/mend does.

The idea. Where pieces of edges cross, corners that lie on these edges are put into them, and nothing moves. Then two edges that cross are
mended by the least of these that is allowed:

- an end of the one is close to an end of the other: the two corners become one, that with fewer edges moves;
- an end of the one is close to the other: it is put into the other, which then bends to it;
- neither is allowed: the point where they cross, rounded to the grid, is put into both.

How close the closest end is, is the depth of a crossing; one that is deeper than the bound is left as it is. What was changed is
looked at again, until nothing is left or nothing more is allowed. Each edge of the layer becomes a chain of corners. Edges are changed
for all features at once, so what is shared stays shared.

Two things always hold. A corner is never farther than the bound from where it was. And a corner that is put into an edge is never
farther than the bound from the edge as it was in the layer: so no border is.
"""
from fractions import Fraction
from math import isqrt
from typing import NamedTuple

from conflicts import all_conflicts, crossings
from layer_text import edges_of, turn

MOST_ROUNDS = 60
# Two corners were meant to be one where they are at most so many times as far apart as the crossing is deep, or as the grid is wide;
REACH = 2
# or where the pieces at both are at least so many times as long as they are apart.
LONGER = 4
# How far a corner that is rounded to the grid is at most from its place, in units, squared.
ROUNDED = Fraction(1, 2)


class Moved(NamedTuple):
    """A corner that has another place; the distance is squared, in units of the grid."""
    start: tuple
    end: tuple
    distance: Fraction
    features: list


class Inserted(NamedTuple):
    """A corner that was put into an edge of the layer, and its squared distance from that edge."""
    edge: tuple
    corner: tuple
    distance: Fraction
    features: list


class Mended(NamedTuple):
    """The rings of the features that were changed, by the features' numbers; and what was done. Corners that were put into one edge follow
    each other as they do along the edge, from its lower end."""
    rings: dict
    moved: list
    inserted: list
    conflicts: int


def apart(p, q):
    """The squared distance of two points."""
    return (p[0] - q[0]) ** 2 + (p[1] - q[1]) ** 2


def faces(p, edge):
    """Whether a point lies beside an edge: closest to a place strictly between its ends."""
    (ax, ay), (bx, by) = edge
    along = (p[0] - ax) * (bx - ax) + (p[1] - ay) * (by - ay)
    return 0 < along < apart(*edge)


def apart_from_edge(p, edge):
    """The squared distance of a point from an edge, exactly."""
    if faces(p, edge):
        return Fraction(turn(*edge, p) ** 2, apart(*edge))
    return Fraction(min(apart(p, edge[0]), apart(p, edge[1])))


def crossing(first, second):
    """The point where two edges cross, rounded to the grid."""
    (a, b), (c, d) = first, second
    part = Fraction(turn(c, d, a), turn(c, d, a) - turn(c, d, b))
    return tuple(round_half_up(low + (high - low) * part) for low, high in zip(a, b))


def round_half_up(value):
    return (2 * value.numerator + value.denominator) // (2 * value.denominator)


def ordered(p, q):
    return (p, q) if p < q else (q, p)


def pieces_of(chain):
    return [ordered(p, q) for p, q in zip(chain, chain[1:])]


def without_loops(chain):
    """A chain that comes to a corner twice leaves out what lies between."""
    last = {}
    kept = []
    for point in chain:
        if point in last:
            for gone in kept[last[point] + 1:]:
                del last[gone]
            del kept[last[point] + 1:]
        else:
            last[point] = len(kept)
            kept.append(point)
    return kept


class Net:
    """The edges of a layer as chains of corners, and the pieces that the chains consist of.

    `bounds` holds for the numbers of edges that may move less than the others, and `fixed` the corners that may not move at all.
    """

    def __init__(self, edges, bound, bounds, fixed):
        self.edges, self.bound, self.bounds, self.fixed = edges, bound, bounds, fixed
        self.chains = [list(edge) for edge in edges]
        self.users = {edge: {number} for number, edge in enumerate(edges)}
        self.chains_at, self.origins = {}, {}
        for number, edge in enumerate(edges):
            for corner in edge:
                self.chains_at.setdefault(corner, set()).add(number)
        self.corners = set(self.chains_at)
        self.fresh = set()

    def replace(self, number, chain):
        """Another chain for an edge."""
        chain = without_loops(chain)
        old = self.chains[number]
        for piece in pieces_of(old):
            users = self.users[piece]
            users.discard(number)
            if not users:
                del self.users[piece]
                self.fresh.discard(piece)
        for corner in old:
            self.chains_at[corner].discard(number)
        self.chains[number] = chain
        for piece in pieces_of(chain):
            if piece not in self.users:
                self.users[piece] = set()
                self.fresh.add(piece)
            self.users[piece].add(number)
        for corner in chain:
            self.chains_at.setdefault(corner, set()).add(number)

    def may_take(self, number, corner):
        """Whether a corner is close enough to an edge of the layer to stand in its chain."""
        return apart_from_edge(corner, self.edges[number]) <= self.bounds.get(number, self.bound)

    def may_insert(self, corner, piece):
        """Whether all edges that have the piece may take the corner; one that is an end of the piece stands there already."""
        return corner in piece or all(self.may_take(number, corner) for number in self.users[piece])

    def insert(self, corner, piece):
        """Puts a corner into a piece; whether that was allowed and changed something."""
        if corner in piece or not self.may_insert(corner, piece):
            return False
        for number in sorted(self.users[piece]):
            chain = self.chains[number]
            at = next(at for at, ends in enumerate(zip(chain, chain[1:]), 1) if ordered(*ends) == piece)
            self.replace(number, chain[:at] + [corner] + chain[at:])
        return True

    def origins_of(self, corner):
        """The corners of the layer that have their place here."""
        return self.origins.get(corner, {corner} if corner in self.corners else set())

    def may_move(self, start, end):
        if self.fixed.intersection(self.origins_of(start)) or ordered(start, end) in self.users:
            return False
        return (all(apart(corner, end) <= self.bound for corner in self.origins_of(start))
                and all(self.may_take(number, end) for number in self.chains_at[start] if start in self.chains[number][1:-1]))

    def move(self, start, end):
        """Makes two corners one, if every edge and corner allows it."""
        if not self.may_move(start, end):
            return False
        self.origins[end] = self.origins_of(end) | self.origins_of(start)
        self.origins[start] = set()
        for number in sorted(self.chains_at[start]):
            self.replace(number, [end if corner == start else corner for corner in self.chains[number]])
        return True

    def are_meant_as_one(self, one, other, depth):
        """Whether two corners are much closer together than what is around, and not farther than the bound."""
        distance = apart(one, other)
        return distance <= self.bound and (distance <= REACH ** 2 * max(depth, 1)
                                           or LONGER ** 2 * distance <= min(self.shortest_at(one), self.shortest_at(other)))

    def shortest_at(self, corner):
        """The squared length of the shortest piece at a corner."""
        return min(apart(*piece) for number in self.chains_at[corner] for piece in pieces_of(self.chains[number]) if corner in piece)

    def join(self, one, other):
        """Makes two corners one; the one with more edges stays, if that is allowed."""
        weight = {corner: (len(self.chains_at[corner]), corner) for corner in (one, other)}
        stays, goes = sorted((one, other), key=weight.get, reverse=True)
        return self.move(goes, stays) or self.move(stays, goes)


def depths(first, second):
    """For each end of two edges its squared distance from the other edge, the least first: (distance, end, other edge)."""
    found = [(apart_from_edge(end, second), end, second) for end in first] + [(apart_from_edge(end, first), end, first) for end in second]
    return sorted(found)


def mend_touch(net, first, second):
    """Puts the ends of each edge that lie on the other into it."""
    for piece, ends in ((first, second), (second, first)):
        for end in ends:
            if piece[0] < end < piece[1] and turn(*piece, end) == 0:
                return net.insert(end, piece)
    return False


def mend_cross(net, first, second):
    """Does the least that is allowed; whether anything was."""
    found = [row for row in depths(first, second) if row[0] <= net.bound]
    for depth, end, other in found:
        for corner in sorted(other, key=lambda corner: apart(end, corner)):
            if net.are_meant_as_one(end, corner, depth) and net.join(end, corner):
                return True
        if faces(end, other) and net.insert(end, other):
            return True
    if not found:
        return False
    middle = crossing(first, second)
    if not all(net.may_insert(middle, piece) for piece in (first, second)):
        return False
    changed = [net.insert(middle, piece) for piece in (first, second) if piece in net.users]
    return any(changed)


def mend_round(net, conflicts):
    """Mends what can be mended of conflicts, the least deep first; a pair of which an edge is changed already waits for the next round."""
    order = []
    for first, second, how in conflicts:
        depth = depths(first, second)[0][0] if how == "cross" else 0
        if depth <= net.bound:
            order.append((depth, first, second, how))
    for _, first, second, how in sorted(order):
        if first in net.users and second in net.users:
            (mend_touch if how == "touch" else mend_cross)(net, first, second)


def conflicts_of(net):
    """The conflicts of the pieces that are new since the last round."""
    edges = sorted(net.users)
    fresh = [edge in net.fresh for edge in edges]
    return [(edges[first], edges[second], how) for first, second, how in all_conflicts(edges, fresh)]


def mend_net(net, conflicts):
    """Mends in rounds, until nothing changes any more."""
    for _ in range(MOST_ROUNDS):
        net.fresh = set()
        mend_round(net, conflicts)
        if not net.fresh:
            return
        conflicts = conflicts_of(net)


class Shapes:
    """The rings of the features, as they become by a net."""

    def __init__(self, layer, edges):
        self.layer = layer
        self.number_of = {edge: number for number, edge in enumerate(edges)}

    def ring(self, ring, net):
        """A ring by its edges' chains."""
        points = []
        for start, end in zip(ring, ring[1:]):
            if start != end:
                chain = net.chains[self.number_of[ordered(start, end)]]
                chain = chain if start < end else chain[::-1]
                points += chain[1:] if points else chain
        return points if len(points) > 1 else (points or ring[:1]) * 2

    def changed(self, owners, net):
        """The numbers of the features that have an edge with another chain."""
        return sorted({owner for number, chain in enumerate(net.chains) if tuple(chain) != net.edges[number] for owner in owners[number]})

    def lost(self, changed, net):
        """The rings that no longer enclose anything, and did; and all rings of features of which that holds on the whole."""
        found = []
        for feature in changed:
            rings = self.layer.features[feature].rings
            now = [self.ring(ring, net) for ring in rings]
            if odd_sides(rings) and not odd_sides(now):
                found += rings
            else:
                found += [ring for ring, after in zip(rings, now) if doubled_area(ring) and not doubled_area(after)]
        return found


def odd_sides(rings):
    """The sides of rings that stand there an odd number of times: none where the rings cover nothing."""
    odd = set()
    for ring in rings:
        for start, end in zip(ring, ring[1:]):
            if start != end:
                odd ^= {ordered(start, end)}
    return odd


def doubled_area(ring):
    return sum(a[0] * b[1] - a[1] * b[0] for a, b in zip(ring, ring[1:]))


def mend(layer, bound):
    """Mends a layer; `bound` is how far corners and borders may move at most, in units of the grid, a fraction.

    A ring that would enclose nothing any more is made stiffer, and all is mended anew: at first its corners stay and its edges bend by
    a rounded corner at most, then they do not bend at all. So no feature, part or hole gets lost.
    """
    edges, owners = edges_of(layer)
    shapes = Shapes(layer, edges)
    found = all_conflicts(edges)
    _, edges_of_piece, crossing_pieces = crossings(edges, [[number] for number in range(len(edges))], found)
    count = len(crossing_pieces)
    crossed = {number for first, second, _ in crossing_pieces for piece in (first, second) for number in edges_of_piece[piece]}
    conflicts = to_mend(edges, found, crossed)
    square, bounds, fixed = bound * bound, {}, set()
    while True:
        net = Net(edges, square, bounds, fixed)
        mend_net(net, conflicts)
        changed = shapes.changed(owners, net)
        if not stiffen(shapes.lost(changed, net), shapes, square, bounds, fixed):
            break
    return outcome(shapes, owners, net, changed, count)


def to_mend(edges, found, crossed):
    """Of all pairs of edges that meet, those with an edge of which pieces cross: it is cut where the other one's ends lie."""
    return [(edges[first], edges[second], how) for first, second, how in found if first in crossed or second in crossed]


def stiffen(rings, shapes, square, bounds, fixed):
    """Makes rings stiffer; whether any was not yet as stiff as can be. One that is and still encloses nothing did not before: its sides
    lie on one another."""
    sides = {ordered(*side) for ring in rings for side in zip(ring, ring[1:]) if side[0] != side[1]}
    soft = [number for number in map(shapes.number_of.get, sides) if bounds.get(number, 1)]
    for number in soft:
        bounds[number] = 0 if number in bounds else min(square, ROUNDED)
    fixed.update(point for ring in rings for point in ring)
    return bool(soft)


def outcome(shapes, owners, net, changed, conflicts):
    """What was done, corner by corner."""
    rings = {}
    for feature in changed:
        found = [shapes.ring(ring, net) for ring in shapes.layer.features[feature].rings]
        rings[feature] = found
    moved = []
    owners_of = {}
    for number, edge in enumerate(net.edges):
        for corner in edge:
            owners_of.setdefault(corner, set()).update(owners[number])
    for end, starts in net.origins.items():
        moved += [Moved(start, end, Fraction(apart(start, end)), sorted(owners_of[start])) for start in starts if start != end]
    inserted = []
    for number, chain in enumerate(net.chains):
        if len(chain) > 2:
            edge = net.edges[number]
            inserted += [Inserted(edge, corner, apart_from_edge(corner, edge), owners[number]) for corner in chain[1:-1]]
    return Mended(rings, sorted(moved), inserted, conflicts)


def root_above(value, scale, decimals=3):
    """The root of a squared distance in units of the grid, as text in the layer's unit with `decimals` decimals more than the scale has;
    rounded up, so that it is never less than the distance."""
    grown = value * 10 ** (2 * decimals)
    whole = -(-grown.numerator // grown.denominator)
    root = isqrt(whole)
    root += root * root < whole
    digits = str(root).rjust(scale + decimals + 1, "0")
    return f"{digits[:-scale - decimals]}.{digits[-scale - decimals:]}"
