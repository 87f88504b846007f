"""A picture of a network as SVG: boxes of switches, curves of links, ports at their ends, hosts at their sides."""

import math
from pathlib import Path
from xml.sax.saxutils import escape, quoteattr

from .curves import Room, along, at_way, leaves, link_curve, loop_curve, part, path

MARGIN = 26
CHIP = 20
RING = 10
STYLE = Path(__file__).with_name("picture.css").read_text()
MARK = (
    '<marker id="arrow-{0}" class="arrow-{0}" viewBox="0 0 10 10" refX="9" refY="5" markerWidth="13" '
    'markerHeight="13" markerUnits="userSpaceOnUse" orient="auto-start-reverse"><path d="M0 0L10 5L0 10z"/></marker>'
)
MARKS = f"<defs>{''.join(map(MARK.format, ('red', 'was', 'hop', 'lost')))}</defs>"


def tag(name, attributes, *inner):
    """An element; the inner parts are SVG already."""
    words = "".join(f" {key}={quoteattr(str(value))}" for key, value in attributes.items())
    return f"<{name}{words}>{''.join(inner)}</{name}>" if inner else f"<{name}{words}/>"


def title(words):
    """What an element says to those who hover over it or hear it."""
    return tag("title", {}, escape(words))


def text(x, y, words, **more):
    """A text with its middle there."""
    return tag("text", {"x": f"{x:.1f}", "y": f"{y:.1f}", **more}, escape(words))


def box(x, y, wide, high, **more):
    """A rectangle with its middle there."""
    place = {"x": f"{x - wide / 2:.1f}", "y": f"{y - high / 2:.1f}", "width": f"{wide:.1f}", "height": f"{high:.1f}"}
    return tag("rect", {**place, **more})


class Picture:
    """Draws a plan with the values of slots, each of which has what is drawn if it has no value."""

    def __init__(self, plan, values, channels=False, port_width=16):
        """With room for words at each channel, or without; a port's sign is so wide."""
        self.plan, self.values, self.network = plan, values, plan.network
        self.channels, self.port_width = channels, port_width
        self.room = Room()
        self.bounds = [math.inf, math.inf, -math.inf, -math.inf]
        self.curves = self.all_curves()
        self.sides = {switch: self.side_of_hosts(switch) for switch in plan.at}

    def value(self, element, what, other=""):
        """The value of a slot."""
        return self.values.get((element, what), other)

    def box_of(self, switch):
        """The middle and size of the box of a switch."""
        return self.plan.at[switch], self.plan.size(switch)

    def reach(self, x, y, wide=0.0, high=0.0):
        """The picture reaches over this rectangle."""
        low_x, low_y, high_x, high_y = self.bounds
        self.bounds = [
            min(low_x, x - wide / 2), min(low_y, y - high / 2), max(high_x, x + wide / 2), max(high_y, y + high / 2)
        ]

    def all_curves(self):
        """The curve of each link of which both ends are placed, from box to box."""
        many, curves = {}, {}
        placed = [k for k, ((s, _), (t, _)) in enumerate(self.network.links) if {s, t} <= set(self.plan.at)]
        for k in placed:
            many.setdefault(self.pair(k), []).append(k)
        for pair, links in many.items():
            for place, k in enumerate(links):
                curves[k] = self.curve(k, pair, place, len(links))
        return dict(sorted(curves.items()))

    def pair(self, k):
        """The two switches that a link joins."""
        (s, _), (t, _) = self.network.links[k]
        return min(s, t), max(s, t)

    def curve(self, k, pair, place, many):
        """The curve of a link, which is at this place among so many of one pair."""
        (s, _), (t, _) = self.network.links[k]
        if s == t:
            return loop_curve(self.box_of(s), place)
        sign = 1 if (s, t) == pair else -1
        beside = 26 * (place - (many - 1) / 2) * sign
        curve = link_curve(self.plan.at[s], self.plan.at[t], beside, self.bend(s, t, k))
        return part(curve, leaves(curve, self.box_of(s)), leaves(curve, self.box_of(t), False))

    def bend(self, s, t, k):
        """How far a link bends around what stands in between: in a grid what closes a line, in levels what joins
        switches of one row that are no neighbours."""
        (x, y), (u, v) = self.plan.at[s], self.plan.at[t]
        if self.plan.kind == "grid" and k in self.plan.bends:
            side = -1 if abs(x - u) > abs(y - v) else 1
            return side * (62 if abs(x - u) > abs(y - v) else 80) * (1 if (x, y) < (u, v) else -1)
        between = [a for a, b in self.plan.at.values() if b == y and min(x, u) < a < max(x, u)]
        if self.plan.kind == "levels" and y == v and between:
            return (30 + 0.06 * abs(u - x)) * (1 if u > x else -1)
        return 0.0

    def side_of_hosts(self, switch):
        """At which side of a switch its hosts stand: the one to which the fewest links lead."""
        (x, y), many = self.plan.at[switch], {"right": 0, "left": 0, "bottom": 0, "top": 0}
        for k, curve in self.curves.items():
            for (owner, _), points in zip(self.network.links[k], (curve, curve[::-1])):
                if owner == switch:
                    u, v = at_way(along(points), 40)
                    many[side_of(u - x, v - y)] += 1
        return min(many, key=many.get)

    def svg(self, least=(0, 0), **more):
        """The whole picture, and its size, which is at least so much."""
        hosts, boxes, (wires, signs) = self.hosts(), self.boxes(), self.wires()
        bands = self.bands()
        low_x, low_y, high_x, high_y = self.bounds if self.plan.at else (0, 0, 0, 0)
        wide = max(high_x - low_x + 2 * MARGIN, least[0])
        high = max(high_y - low_y + 2 * MARGIN, least[1])
        view = f"{(low_x + high_x - wide) / 2:.0f} {(low_y + high_y - high) / 2:.0f} {wide:.0f} {high:.0f}"
        return tag("svg", {"viewBox": view, **more}, bands, *wires, hosts, *signs, *boxes), wide, high

    def bands(self):
        """The bands of levels."""
        low_x, _, high_x, _ = self.bounds
        left, found = low_x - 62, []
        for low, high, words in self.plan.bands:
            self.reach(left, low)
            self.reach(left, high)
            middle, wide = (left + high_x) / 2 + 5, high_x - left + 10
            found.append(box(middle, (low + high) / 2, wide, high - low - 8, rx=6, **{"class": "band"}))
            found.append(text(left + 8, (low + high) / 2 + 4, words, **{"class": "level"}))
        return "".join(found)

    def boxes(self):
        """The boxes of switches, each with its words."""
        return [self.switch(switch) for switch in self.plan.at]

    def switch(self, switch):
        """The box of a switch: its name, and lines of words."""
        (x, y), (wide, high) = self.box_of(switch)
        name = f"switch-{switch}"
        words = self.value(name, "title", f"switch {self.plan.label(switch)}")
        top = y - high / 2 + 18
        lines = [
            text(x, top + 14 * k, self.value(f"{name}-{k + 1}", "text"), id=f"{name}-{k + 1}")
            for k in range(1, self.plan.lines)
        ]
        corner = x + wide / 2 + 5, y - high / 2 + 9
        mark = text(*corner, self.value(f"tag-{switch}", "text"), id=f"tag-{switch}", **{"class": "packets"})
        about = {"id": name, "class": self.value(name, "class", "switch"), "tabindex": 0, "role": "img"}
        return tag("g", {**about, "aria-label": words}, title(words), box(x, y, wide, high, rx=7),
                   text(x, top, self.plan.label(switch), **{"class": "name"}), *lines, mark)

    def hosts(self):
        """The hosts, each at its side of its switch, and the room of boxes and hosts."""
        found = []
        for switch in self.plan.at:
            (x, y), (wide, high) = self.box_of(switch)
            self.reach(x, y, wide + 70 * ((f"tag-{switch}", "text") in self.values), high + 24)
            self.room.take(x, y, wide, high)
            here = [(p, host) for host, (s, p) in self.plan.hosts.items() if s == switch]
            for k, (p, host) in enumerate(sorted(here)):
                found.append(self.host(switch, p, host, k, len(here)))
        return "".join(found)

    def host(self, switch, p, host, k, many):
        """A host: a line from its switch, the port and its name."""
        (x, y), (wide, high) = self.box_of(switch)
        label, port_wide = self.plan.label(host), self.port_width
        width = len(label) * 6.6 + port_wide + 16
        side = self.sides[switch]
        if side in ("right", "left"):
            sign = 1 if side == "right" else -1
            u, v = x + sign * (wide / 2 + 12 + width / 2), y + (k - (many - 1) / 2) * (CHIP + 2)
        else:
            sign = 1 if side == "bottom" else -1
            u, v = x, y + sign * (high / 2 + 10 + CHIP / 2 + k * (CHIP + 2))
        self.reach(u, v, width, CHIP)
        self.room.take(u, v, width, CHIP)
        words = self.value(f"host-{host}", "title", f"host {label} at port {p} of {self.plan.label(switch)}")
        left = u - width / 2 + 3
        wire = tag("path", {"d": f"M{x:.1f} {y:.1f}L{u:.1f} {v:.1f}", "class": "cord"})
        return wire + tag(
            "g", {"id": f"host-{host}", "class": self.value(f"host-{host}", "class", "host")}, title(words),
            box(u, v, width, CHIP, rx=9), self.port((switch, p), left + port_wide / 2, v),
            text(left + port_wide + 5, v + 4, label, **{"class": "host-name"}))

    def port(self, end, x, y):
        """The sign of a port."""
        name = f"port-{end[0]}-{end[1]}"
        words = self.value(name, "title", f"port {end[1]} of {self.plan.label(end[0])}")
        return tag("g", {"id": name, "class": self.value(name, "class", "port")}, title(words),
                   box(x, y, self.port_width, 15, rx=4),
                   text(x, y + 4, self.value(f"{name}-sign", "text", str(end[1])), id=f"{name}-sign"))

    def wires(self):
        """The links, and what is written at their ends."""
        lines, signs = [], []
        for k, curve in self.curves.items():
            lines.append(self.wire(k, curve))
            for end, points in zip(self.network.links[k], (along(curve), along(curve[::-1]))):
                signs.append(self.sign(end, points))
            for spot in along(curve):
                self.reach(*spot[0])
        return lines, signs

    def wire(self, k, curve):
        """A link."""
        (s, p), (t, q) = self.network.links[k]
        name = f"link-{k}"
        words = f"link from port {p} of {self.plan.label(s)} to port {q} of {self.plan.label(t)}"
        data = path(curve)
        return tag("g", {"id": name, "class": self.value(name, "class", "wire")},
                   title(self.value(name, "title", words)),
                   tag("path", {"class": "line", "d": data}), tag("path", {"class": "touch", "d": data}))

    def sign(self, end, points):
        """What is written at an end of a link: the port, and words of the channel where there are any."""
        first = int(14 + self.port_width / 2)
        x, y = self.room.first_free(points, range(first, 160, 8), self.port_width + 2, 17)
        found = self.port(end, x, y)
        return found + self.channel(end, points) if self.channels else found

    def channel(self, end, points):
        """The words of the channel that leaves by this end, beside its link."""
        name = f"channel-{end[0]}-{end[1]}"
        words = self.value(name, "text")
        wide = max(24, len(words) * 6.8)
        first, spots = int(14 + self.port_width / 2), beside(points, wide / 2, 13)
        clear = (way for way in range(first, first + 60, 6) if self.is_clear(end[0], at_way(spots, way), wide))
        first = next(clear, first)
        x, y = self.room.first_free(spots, range(first, first + 160, 6), wide, 15)
        return text(x, y + 4, words, id=name, **{"class": self.value(name, "class", "channel")})

    def is_clear(self, switch, spot, wide):
        """Whether words of this width there leave room for a ring around the box of a switch."""
        (x, y), (box_wide, box_high) = self.box_of(switch)
        beside_it = abs(spot[0] - x) >= (wide + box_wide) / 2 + RING
        return beside_it or abs(spot[1] - y) >= (15 + box_high) / 2 + RING


def beside(points, wide, high):
    """Points at the left of those of a curve, each the middle of a rectangle of such halves that is clear of it."""
    found = []
    for ((x, y), way), ((u, v), _) in zip(points, points[1:]):
        length = math.hypot(u - x, v - y) or 1.0
        right, down = (v - y) / length, -(u - x) / length
        far = abs(right) * wide + abs(down) * high + 3
        found.append(((x + right * far, y + down * far), way))
    return found


def side_of(x, y):
    """To which side a direction leads."""
    if abs(x) > abs(y):
        return "right" if x > 0 else "left"
    return "bottom" if y > 0 else "top"
