"""Where switches stand: by levels from the root down, as a grid if the ports tell one, or on a ring."""

import math

from .tables import components

CHAR = 7.7
LEVEL_GAP = 150
MOST_IN_A_ROW = 18
SHELF = 1800
SIDE = 110


class Plan:
    """Where things stand: the middle of the box of each switch; bands of levels with their words; what kind of plan
    it is; and the places of the links that close a line of a grid, and bend around what stands between."""

    def __init__(self, network, lines, shown=None, hosts=True):
        """A plan without places, for boxes of so many lines of words, with hosts or without."""
        self.network = network
        self.hosts = network.hosts if hosts else {}
        self.shown = shown or {}
        self.lines = lines
        self.at = {}
        self.bands = []
        self.bends = set()
        self.kind = "levels"

    def label(self, name):
        """What stands in the box of a switch, or at a host."""
        return self.shown.get(name, name)

    def size(self, switch):
        """The width and height of its box."""
        least = (40, 76, 112)[self.lines - 1]
        return max(least, len(self.label(switch)) * CHAR + 18), 18 + 14 * self.lines

    def chip_width(self, switch):
        """How much room hosts take at its side."""
        names = [self.label(host) for host, end in self.hosts.items() if end[0] == switch]
        return max([0] + [len(name) * 6.4 + 42 for name in names])

    def slot(self, switch):
        """The width that it needs in a row."""
        return self.size(switch)[0] + 2 * self.chip_width(switch) * 0.75 + 56


def by_levels(plan, tables):
    """Places each component by the levels of its tree, one beside the other, and below if there are many."""
    left, top, low = 0.0, 0.0, 0.0
    for members in components(plan.network):
        rows = rows_of(plan.network, members, tables)
        at = place_rows(plan, rows)
        width = extent(plan, at)
        if left and left + width > SHELF:
            left, top = 0.0, low + LEVEL_GAP
        shift = left - min(x - plan.slot(s) / 2 for s, (x, _) in at.items())
        for switch, (x, y) in at.items():
            plan.at[switch] = x + shift, y + top
        low = max(low, max(y for _, y in plan.at.values()))
        left += width + 30
    plan.bands = bands_of(plan, tables)


def extent(plan, at):
    """The width of what is placed."""
    left = min(x - plan.slot(switch) / 2 for switch, (x, _) in at.items())
    return max(x + plan.slot(switch) / 2 for switch, (x, _) in at.items()) - left


def rows_of(network, members, tables):
    """The members by level, in an order in which links cross less."""
    rows = {}
    for switch in members:
        rows.setdefault(tables.level.get(switch, 0), []).append(switch)
    levels = [rows[level] for level in sorted(rows)]
    near = network.neighbours()
    for _ in range(4):
        for upper, row in zip(levels, levels[1:]):
            sort_by(row, upper, near)
        for lower, row in zip(levels[:0:-1], levels[-2::-1]):
            sort_by(row, lower, near)
    return levels


def sort_by(row, beside, near):
    """Sorts a row by the middle of the neighbours in the row beside it."""
    place = {switch: (k + 0.5) / len(beside) for k, switch in enumerate(beside)}
    old = {switch: (k + 0.5) / len(row) for k, switch in enumerate(row)}

    def middle(switch):
        found = [place[other] for _, other, _ in near[switch] if other in place]
        return sum(found) / len(found) if found else old[switch]

    row.sort(key=middle)


def place_rows(plan, rows):
    """The places of rows under one another; a long one stands in several, one below the other."""
    near, at, y = plan.network.neighbours(), {}, 0.0
    for row in rows:
        pieces = -(-len(row) // MOST_IN_A_ROW)
        for piece in range(pieces):
            part = row[piece::pieces]
            wanted = {switch: middle_above(switch, near, at) for switch in part}
            if pieces > 1:
                wanted = {switch: 40.0 * (piece % 2) for switch in part}
            for switch, x in spread(plan, part, wanted).items():
                at[switch] = x, y
            y += LEVEL_GAP if piece + 1 == pieces else SIDE
        y += 26 * has_arc(part, near)
    return at


def middle_above(switch, near, at):
    """The middle of the neighbours that are placed."""
    found = [at[other][0] for _, other, _ in near[switch] if other in at]
    return sum(found) / len(found) if found else 0.0


def has_arc(row, near):
    """Whether a link joins switches of the row between which others stand."""
    place = {switch: k for k, switch in enumerate(row)}
    return any(place.get(other, -9) > place[switch] + 1 for switch in row for _, other, _ in near[switch])


def spread(plan, row, wanted):
    """Places of a row in its order, near those that are wanted, with room for each."""
    room = [(plan.slot(a) + plan.slot(b)) / 2 for a, b in zip(row, row[1:])]
    rising, falling = [wanted[row[0]]], [wanted[row[-1]]]
    for switch, gap in zip(row[1:], room):
        rising.append(max(wanted[switch], rising[-1] + gap))
    for switch, gap in zip(row[-2::-1], room[::-1]):
        falling.append(min(wanted[switch], falling[-1] - gap))
    return {switch: (a + b) / 2 for switch, a, b in zip(row, rising, falling[::-1])}


def bands_of(plan, tables):
    """The bands of levels: from where, to where, and the word. Those of other shelves have bands of their own."""
    bands = []
    for switch, (_, y) in sorted(plan.at.items(), key=lambda of: of[1][1]):
        level = tables.level.get(switch, 0)
        if bands and bands[-1][2] == level:
            bands[-1][1] = y + SIDE / 2
        else:
            bands.append([y - SIDE / 2, y + SIDE / 2, level])
    return [(low, high, f"level {level}") for low, high, level in bands]


def by_grid(plan):
    """Places a mesh or torus of two dimensions, if all links join ports of two pairs, one pair a dimension. Says
    whether it is one."""
    pairs = port_pairs(plan.network)
    if pairs is None:
        return False
    across, down = pairs
    first = min(plan.network.switches, key=plan.network.switches.get)
    rows = [line_of(plan.network, start, across) for start in line_of(plan.network, first, down)]
    places = {switch: (x, y) for y, row in enumerate(rows) for x, switch in enumerate(row)}
    if not is_grid(plan.network, rows, places):
        return False
    wide = max(plan.slot(switch) for switch in places) + 40
    for switch, (x, y) in places.items():
        plan.at[switch] = x * wide, y * LEVEL_GAP
    plan.bends = {k for k, link in enumerate(plan.network.links) if steps(places, link) > 1}
    plan.kind = "grid"
    return True


def port_pairs(network):
    """The two pairs of ports that all links join, or None."""
    pairs = {tuple(sorted((p, q))) for (_, p), (_, q) in network.links}
    once = len({port for pair in pairs for port in pair}) == 2 * len(pairs)
    return sorted(pairs) if len(pairs) == 2 and once else None


def line_of(network, start, pair):
    """The switches on the line through this one, by the ports of the pair, from its end if it has one."""
    line = walk(network, start, pair[0])
    if network.far(line[-1], pair[0]) is None:
        return walk(network, start, pair[1])[:0:-1] + line
    return line


def walk(network, start, port):
    """The switches in turn by this port, until there is no link, or one comes again."""
    line, seen = [start], {start}
    while True:
        far = network.far(line[-1], port)
        if far is None or far[0] in seen:
            return line
        line.append(far[0])
        seen.add(far[0])


def is_grid(network, rows, places):
    """Whether all switches are placed, in rows of one length, and each link joins neighbours or closes a line."""
    lengths = {len(row) for row in rows}
    if len(lengths) != 1 or len(places) != len(network.switches) or sum(map(len, rows)) != len(places):
        return False
    wide, high = len(rows[0]), len(rows)
    if wide < 3 or high < 3:
        return False
    return all(is_step(places[s], places[t], wide, high) for (s, _), (t, _) in network.links)


def is_step(one, other, wide, high):
    """Whether two places are neighbours, or the two ends of one line."""
    x, y = abs(one[0] - other[0]), abs(one[1] - other[1])
    return (x, y) in ((1, 0), (0, 1), (wide - 1, 0), (0, high - 1))


def steps(places, link):
    """How far apart the ends of a link are."""
    (s, _), (t, _) = link
    return max(abs(places[s][0] - places[t][0]), abs(places[s][1] - places[t][1]))


def by_ring(plan, switches):
    """Places the switches on a ring, clockwise from the top."""
    widest = max(plan.size(switch)[0] for switch in switches)
    around = max(150.0, (widest + 130) * len(switches) / (2 * math.pi))
    for k, switch in enumerate(switches):
        turn = 2 * math.pi * k / len(switches)
        plan.at[switch] = around * 1.25 * math.sin(turn), -around * math.cos(turn)
    plan.kind = "ring"
