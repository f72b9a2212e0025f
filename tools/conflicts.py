"""All pairs of edges that cross, exactly, in whole numbers: what tools/faults writes, tools/mend mends, tools/view draws and tools/why
explains.

An edge is a pair of different points, the lower first, and a point is a pair of whole numbers: coordinates times 10^scale. Two edges meet
where they have a point in common that is no end of both: see `conflict`. `locate` cuts an edge at each corner that lies on it, and so two
edges are refused only if pieces of them cross: see `crossings`.
"""
from layer_text import names, printed_edge, turn

FEW = 12


def conflict(first, second):
    """`touch` where an end of one lies on the other and is no end of it, `cross` where the ends of each are strictly apart, or None."""
    (a, b), (c, d) = first, second
    of_c, of_d = turn(a, b, c), turn(a, b, d)
    if (of_c > 0 and of_d > 0) or (of_c < 0 and of_d < 0):
        return None
    of_a, of_b = turn(c, d, a), turn(c, d, b)
    if of_c and of_d and of_a and of_b:
        return "cross" if (of_a > 0) != (of_b > 0) else None
    for side, point, (low, high) in ((of_c, c, first), (of_d, d, first), (of_a, a, second), (of_b, b, second)):
        if side == 0 and is_within(point, low, high):
            return "touch"
    return None


def is_within(point, low, high):
    """Whether a point in line with an edge lies between its ends and is neither."""
    return low < point < high


def passes(edge, left, bottom, right, top):
    """Whether an edge meets a box: their extents meet, and the box does not lie strictly to one side of the edge's line."""
    (ax, ay), (bx, by) = edge
    if ax > right or bx < left:
        return False
    width, height = bx - ax, by - ay
    if height >= 0:
        return (ay <= top and by >= bottom
                and width * (top - ay) >= height * (left - ax) and width * (bottom - ay) <= height * (right - ax))
    return (by <= top and ay >= bottom
            and width * (top - ay) >= height * (right - ax) and width * (bottom - ay) <= height * (left - ax))


def quarters(left, bottom, right, top):
    """A box in up to four, which meet at their sides; one of width 1 is not cut any more."""
    column, row = (left + right) // 2, (bottom + top) // 2
    columns = [(left, column), (column, right)] if right - left > 1 else [(left, right)]
    rows = [(bottom, row), (row, top)] if top - bottom > 1 else [(bottom, top)]
    return [(start, low, end, high) for start, end in columns for low, high in rows]


def groups(edges, fresh=None):
    """Lists of edges by their numbers. Two edges with a common point are together in one of them, since each box that is cut has the
    point in one of its quarters, and both edges pass there. Lists without a fresh edge are left out, where `fresh` is given."""
    if not edges:
        return
    heights = [y for edge in edges for _, y in edge]
    box = (edges[0][0][0], min(heights), max(edge[1][0] for edge in edges), max(heights))
    waiting = [(box, range(len(edges)))]
    while waiting:
        box, members = waiting.pop()
        if fresh and not any(fresh[number] for number in members):
            continue
        parts = quarters(*box) if len(members) > FEW else []
        inside = [(part, [number for number in members if passes(edges[number], *part)]) for part in parts]
        if is_worth_it(len(members), [len(found) for _, found in inside]):
            waiting += inside
        else:
            yield members


def is_worth_it(whole, parts):
    """Whether a cut saves pairs, or at least makes few edges stand in several quarters."""
    return len(parts) > 1 and (10 * sum(part * part for part in parts) < 9 * whole * whole or 4 * sum(parts) < 5 * whole)


def all_conflicts(edges, fresh=None):
    """The pairs of numbers of edges that conflict, in order, each with the word for how.

    The edges are in order, each once. Where `fresh` is given, a list of one truth for each edge, only pairs are found of which one edge
    at least is fresh.
    """
    found = {}
    for members in groups(edges, fresh):
        for at, first in enumerate(members):
            a, b = edges[first]
            for second in members[at + 1:]:
                c, d = edges[second]
                if b[0] < c[0]:
                    break
                if max(a[1], b[1]) < min(c[1], d[1]) or max(c[1], d[1]) < min(a[1], b[1]):
                    continue
                if fresh and not (fresh[first] or fresh[second]):
                    continue
                how = conflict((a, b), (c, d))
                if how:
                    found[first, second] = how
    return sorted((first, second, how) for (first, second), how in found.items())


def cuts_of(edges, found):
    """The corners inside of edges, by the numbers of these; `found` are all pairs that meet."""
    cuts = {}
    for first, second, how in found:
        if how == "touch":
            for number, other in ((first, second), (second, first)):
                low, high = edges[number]
                inside = [point for point in edges[other] if low < point < high and turn(low, high, point) == 0]
                if inside:
                    cuts.setdefault(number, set()).update(inside)
    return cuts


def crossings(edges, owners, found=None):
    """The pieces of edges that are cut at each corner on them, in order, each once; their owners; and the pairs of pieces that cross.

    Where `found` is given, it is all pairs of edges that meet. Two edges that are not cut cross as they did; so only pairs are sought of
    which one piece at least is no edge that stays whole.
    """
    found = all_conflicts(edges) if found is None else found
    cuts = cuts_of(edges, found)
    if not cuts:
        return edges, owners, found
    pieces = {}
    for number, (low, high) in enumerate(edges):
        chain = [low, *sorted(cuts.get(number, ())), high]
        for piece in zip(chain, chain[1:]):
            pieces.setdefault(piece, set()).update(owners[number])
    parts = sorted(pieces)
    number_of = {piece: number for number, piece in enumerate(parts)}
    is_fresh = [True] * len(parts)
    for number, edge in enumerate(edges):
        if number not in cuts:
            is_fresh[number_of[edge]] = False
    stay = [(number_of[edges[first]], number_of[edges[second]], how) for first, second, how in found if not {first, second} & cuts.keys()]
    return parts, [sorted(pieces[piece]) for piece in parts], sorted(stay + all_conflicts(parts, is_fresh))


def told(layer, edges, owners, found):
    """The line for a pair that conflicts: the edges, how, and the features that have the one and the other as a side."""
    first, second, how = found
    one, other = (printed_edge(edges[number], layer.scale) for number in (first, second))
    return f"edges {one} and {other} {how} on {names(layer, owners[first])} and on {names(layer, owners[second])}"
