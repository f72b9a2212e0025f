"""Windows on the plane and what is drawn in them as SVG: what tools/view puts together.

A place is a pair of whole numbers, hundredths of a pixel in the picture, from its upper left corner. Positions are reckoned from the whole
numbers of the layer, and in whole numbers.
"""
import html
from fractions import Fraction
from typing import NamedTuple

import layer_text
from layer_text import turn

# The longer side of a picture, and a pixel, in hundredths of a pixel.
SIDE = 80000
PIXEL = 100
# How wide a letter of a name is, and how high a line.
LETTER, LINE = 720, 1300
LONGEST_NAME = 24


class Window(NamedTuple):
    """A part of the plane, and how far it is drawn: `length` of the plane are SIDE units of the picture, of which 100 are a pixel."""
    left: int
    bottom: int
    right: int
    top: int
    scale: int

    @property
    def length(self):
        return max(self.right - self.left, self.top - self.bottom, 1)

    @property
    def size(self):
        return tuple(max(units * SIDE // self.length, SIDE // 8) for units in (self.right - self.left, self.top - self.bottom))

    def place(self, point):
        return (point[0] - self.left) * SIDE // self.length, (self.top - point[1]) * SIDE // self.length


def element(name, title="", **attributes):
    written = "".join(f' {key.rstrip("_").replace("_", "-")}="{html.escape(str(value))}"' for key, value in attributes.items())
    return f"<{name}{written}><title>{html.escape(title)}</title></{name}>" if title else f"<{name}{written}/>"


def thinned(ring, window, step):
    """The places of a ring's points, without those closer than `step` to the one before."""
    drawn = []
    for x, y in map(window.place, ring):
        if not drawn or max(abs(x - drawn[-1][0]), abs(y - drawn[-1][1])) >= step:
            drawn.append((x, y))
    return drawn


def cut(places, axis, limit, sign):
    """The part of a ring of places on one side of a line: sign * place <= sign * limit on the axis."""
    kept = []
    for before, after in zip(places[-1:] + places[:-1], places):
        inside = [sign * place[axis] <= sign * limit for place in (before, after)]
        if inside[0] != inside[1]:
            across, along = after[axis] - before[axis], after[1 - axis] - before[1 - axis]
            other = before[1 - axis] + along * (limit - before[axis]) // across
            kept.append((limit, other) if axis == 0 else (other, limit))
        if inside[1]:
            kept.append(after)
    return kept


def clipped(places):
    """A ring of places without what lies far outside the picture, since a browser reckons with few digits."""
    for axis, limit, sign in ((0, -SIDE, -1), (0, 2 * SIDE, 1), (1, -SIDE, -1), (1, 2 * SIDE, 1)):
        places = cut(places, axis, limit, sign)
    return places


def outline(places):
    """A closed line; each place behind the first by its distance from the one before, which is shorter to write."""
    steps = " ".join(f"{after[0] - before[0]} {after[1] - before[1]}" for before, after in zip(places, places[1:]))
    return f"M{places[0][0]} {places[0][1]}" + (f"l{steps}" if steps else "") + "Z"


def box_of(rings):
    """The extent of rings of points, or None without any."""
    columns, rows = [x for ring in rings for x, _ in ring], [y for ring in rings for _, y in ring]
    return (min(columns), min(rows), max(columns), max(rows)) if columns else None


def meets(box, window):
    return box[0] <= window.right and box[2] >= window.left and box[1] <= window.top and box[3] >= window.bottom


def clipped_box(box, window):
    """The part of a box that lies in a window, which it meets."""
    return max(box[0], window.left), max(box[1], window.bottom), min(box[2], window.right), min(box[3], window.top)


def width_of(places):
    return max(x for x, _ in places) - min(x for x, _ in places) if places else 0


def extent_of(box, window):
    """The longer side of a box as it is drawn, in hundredths of a pixel."""
    return max(box[2] - box[0], box[3] - box[1]) * SIDE // window.length


class Tiles:
    """Small boxes as an area: the tiles of two pixels that they meet, in one path."""
    SIZE = 2 * PIXEL

    def __init__(self):
        self.rows = {}

    def add(self, box, window):
        (left, top), (right, bottom) = window.place((box[0], box[3])), window.place((box[2], box[1]))
        for row in range(top // self.SIZE, bottom // self.SIZE + 1):
            self.rows.setdefault(row, set()).update(range(left // self.SIZE, right // self.SIZE + 1))

    def path(self):
        parts, size = [], self.SIZE
        for row, columns in sorted(self.rows.items()):
            for start, count in runs(sorted(columns)):
                parts.append(f"M{start * size} {row * size}h{count * size}v{size}h{-count * size}z")
        return "".join(parts)


def runs(numbers):
    """The starts and the lengths of the runs in a list of numbers that rise."""
    found = []
    for number in numbers:
        if found and found[-1][0] + found[-1][1] == number:
            found[-1][1] += 1
        else:
            found.append([number, 1])
    return found


class Labels:
    """Names that do not overlap, nor hide the marks that are there before."""
    CELL = 4 * LINE

    def __init__(self):
        self.taken = {}

    def cells(self, box):
        return [(column, row) for column in range(box[0] // self.CELL, box[2] // self.CELL + 1)
                for row in range(box[1] // self.CELL, box[3] // self.CELL + 1)]

    def is_free(self, box):
        return not any(other[0] < box[2] and box[0] < other[2] and other[1] < box[3] and box[1] < other[3]
                       for cell in self.cells(box) for other in self.taken.get(cell, ()))

    def take(self, box):
        for cell in self.cells(box):
            self.taken.setdefault(cell, []).append(box)

    def put(self, name, places, size):
        """Whether there was room for a name at one of the places of its middle, and which it was."""
        half = len(name) * LETTER // 2
        for across, down in places:
            box = (across - half, down - LINE, across + half, down + LINE // 3)
            if box[0] >= 0 and box[1] >= 0 and box[2] <= size[0] and box[3] <= size[1] and self.is_free(box):
                self.take(box)
                return across, down
        return None


def short(name):
    return name if len(name) <= LONGEST_NAME else name[:LONGEST_NAME - 1] + "\u2026"


def rooms(places, fractions):
    """For rows at parts of the height of a ring of places: the middle and the length of the row's longest part within the ring."""
    rows = [y for _, y in places]
    for part in fractions:
        row = min(rows) + int((max(rows) - min(rows)) * part)
        sides = [(a, b) for a, b in zip(places, places[1:] + places[:1]) if (a[1] <= row) != (b[1] <= row)]
        crossed = sorted(a[0] + (b[0] - a[0]) * (row - a[1]) // (b[1] - a[1]) for a, b in sides)
        if crossed:
            left, right = max(zip(crossed[0::2], crossed[1::2]), key=lambda found: found[1] - found[0])
            yield (left + right) // 2, row, right - left


def steps_of(low, high, count):
    """Round values between two whole numbers, about `count` of them: multiples of 1, 2 or 5 times a power of ten."""
    step = 1
    while True:
        for factor in (1, 2, 5):
            if (high - low) // (step * factor) <= count:
                width = step * factor
                return list(range(-(-low // width) * width, high + 1, width))
        step *= 10


def short_number(value, scale):
    """A coordinate without zeros at its end."""
    text = layer_text.printed(value, scale)
    return text.rstrip("0").rstrip(".") if "." in text else text


def axes(window, at, top, across, down):
    """Coordinates at the frame of a picture, which stands `at` to the right and `top` down, and is so wide and high, all in pixels."""
    def mark(value, axis):
        text = html.escape(short_number(value, window.scale))
        if axis == 0:
            x = at + (value - window.left) * across // max(window.right - window.left, 1)
            return (f'<path class="tick" d="M{x} {top + down}v5"/>'
                    f'<text class="coordinate" x="{x}" y="{top + down + 17}" text-anchor="middle">{text}</text>')
        y = top + (window.top - value) * down // max(window.top - window.bottom, 1)
        return (f'<path class="tick" d="M{at - 5} {y}h5"/>'
                f'<text class="coordinate" x="{at - 7}" y="{y + 4}" text-anchor="end">{text}</text>')

    letters = max(len(layer_text.printed(value, window.scale)) for value in (window.left, window.right))
    fitting = max(min(across // (8 * letters), 8), 1)
    columns = steps_of(window.left, window.right, fitting)
    rows = steps_of(window.bottom, window.top, max(min(down // 40, 8), 1))
    return [mark(value, 0) for value in columns] + [mark(value, 1) for value in rows]


def meeting(first, second):
    """A point of both edges of a conflict, exactly."""
    (a, b), (c, d) = first, second
    for end, (low, high) in ((a, (c, d)), (b, (c, d)), (c, (a, b)), (d, (a, b))):
        if low < end < high and turn(low, high, end) == 0:
            return end
    part = Fraction(turn(c, d, a), turn(c, d, a) - turn(c, d, b))
    return a[0] + (b[0] - a[0]) * part, a[1] + (b[1] - a[1]) * part


def lies_in(point, window):
    return window.left <= point[0] <= window.right and window.bottom <= point[1] <= window.top
