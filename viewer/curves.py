"""The curves of links: from box to box, beside parallel ones, around what stands between, and back to one box."""

import math

STEPS = 28


def point(curve, t):
    """The point of a Bezier curve at t."""
    return blossom(curve, [t] * (len(curve) - 1))


def blossom(curve, ts):
    """The blossom of a Bezier curve: de Casteljau's scheme with another parameter at each step."""
    points = curve
    for t in ts:
        points = [((1 - t) * x + t * u, (1 - t) * y + t * v) for (x, y), (u, v) in zip(points, points[1:])]
    return points[0]


def part(curve, low, high):
    """The part of a curve between two parameters, as a curve."""
    degree = len(curve) - 1
    return [blossom(curve, [low] * (degree - k) + [high] * k) for k in range(degree + 1)]


def leaves(curve, box, forward=True):
    """The parameter at which a curve leaves the box in which it begins, or from the other end."""
    (x, y), (width, height) = box

    def inside(t):
        a, b = point(curve, t if forward else 1 - t)
        return abs(a - x) < width / 2 + 1 and abs(b - y) < height / 2 + 1

    low, high = 0.0, 0.5
    for _ in range(9):
        middle = (low + high) / 2
        low, high = (middle, high) if inside(middle) else (low, middle)
    return high if forward else 1 - high


def link_curve(one, other, beside, bend):
    """The curve of a link between the middles of two boxes: straight, or bent to the side by so much."""
    (x, y), (u, v) = one, other
    length = math.hypot(u - x, v - y) or 1.0
    offset = 2 * (beside + bend)
    return [one, ((x + u) / 2 - (v - y) / length * offset, (y + v) / 2 + (u - x) / length * offset), other]


def loop_curve(box, turn):
    """The curve of a link of a switch to itself: over its box at the right, below it, at the left over and below it,
    and then further out."""
    (x, y), (width, height) = box
    side, over = (1, -1)[turn // 2 % 2], (-1, 1)[turn % 2]
    corner, edge, out = x + side * width / 2, y + over * height / 2, 64 + 40 * (turn // 4)
    inner, outer, high = corner - side * min(40, width / 2 - 4), corner - side * 6, edge + over * out
    return [(inner, edge), (inner - side * 12, high), (outer + side * 16, high), (outer, edge)]


def along(curve):
    """Points of a curve with the way to each from its beginning."""
    points, way = [(curve[0], 0.0)], 0.0
    for k in range(1, STEPS + 1):
        found = point(curve, k / STEPS)
        (x, y), _ = points[-1]
        way += math.hypot(found[0] - x, found[1] - y)
        points.append((found, way))
    return points


def at_way(points, way):
    """The point after so much of the way, or the last."""
    for (a, before), (b, after) in zip(points, points[1:]):
        if after >= way:
            share = (way - before) / ((after - before) or 1.0)
            return a[0] + share * (b[0] - a[0]), a[1] + share * (b[1] - a[1])
    return points[-1][0]


def path(curve):
    """The curve as the data of a path."""
    (x, y), rest = curve[0], curve[1:]
    kind = {1: "L", 2: "Q", 3: "C"}[len(rest)]
    return f"M{x:.1f} {y:.1f}{kind}" + " ".join(f"{u:.1f} {v:.1f}" for u, v in rest)


class Room:
    """Where small things stand, so that no two lie on one another."""

    CELL = 40

    def __init__(self):
        self.cells = {}

    def is_free(self, x, y, wide, high):
        """Whether nothing stands in this rectangle, by its middle and sides."""
        near = [one for key in self.keys(x, y, wide, high) for one in self.cells.get(key, [])]
        return all(abs(x - a) >= (wide + w) / 2 or abs(y - b) >= (high + h) / 2 for a, b, w, h in near)

    def take(self, x, y, wide, high):
        """Something stands there."""
        for key in self.keys(x, y, wide, high):
            self.cells.setdefault(key, []).append((x, y, wide, high))

    def keys(self, x, y, wide, high):
        """The cells that a rectangle touches."""
        across = range(int((x - wide / 2) // self.CELL), int((x + wide / 2) // self.CELL) + 1)
        down = range(int((y - high / 2) // self.CELL), int((y + high / 2) // self.CELL) + 1)
        return [(a, b) for a in across for b in down]

    def first_free(self, points, ways, wide, high):
        """The first of these ways along points where a rectangle has room, else the first; it stands there then."""
        places = [at_way(points, way) for way in ways if way <= points[-1][1] / 2] or [at_way(points, ways[0])]
        x, y = next((place for place in places if self.is_free(*place, wide, high)), places[0])
        self.take(x, y, wide, high)
        return x, y
