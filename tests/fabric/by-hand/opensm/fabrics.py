"""Fabrics by name, as netlists for ibsim. A name is KIND-NUMBERS[@HOSTS][~PERCENT~DRAW]:

    ring-8           eight switches in a ring
    mesh-4x4         a grid; torus-4x4 with each row and column closed; also of three or more dimensions
    cube-4           a hypercube of four dimensions
    hyperx-4x4       a grid, each row and column of which is fully joined
    full-8           eight switches, each two of them joined
    tree-4-3         a 4-ary 3-tree: three levels of switches with four ways down and up
    fat-8-3          the fat tree of three levels whose switches have eight ports, all of them used
    dragonfly-4-2-2  groups of four switches, each with two links to other groups and two hosts
    random-16-4-8    sixteen switches with four links each, drawn with seed 8

HOSTS is the number of hosts at each switch: one if it is not there, and in trees and dragonflies those of the shape.
With ~PERCENT~DRAW so much of the links between switches is taken out, drawn with seed DRAW; the switches stay
joined."""

import collections
import dataclasses
import itertools
import random

SWITCH_GUID = 0x0002C90000000001
ADAPTER_GUID = 0x0008F10400000010


@dataclasses.dataclass
class Fabric:
    """Switches by name; links and hosts by the places of their switches; those that up*/down* engines take as roots."""

    switches: list
    links: list
    hosts: list
    roots: list
    torus: str = ""

    def ports(self):
        """The cables of each switch: its ports in order, hosts first, each with the far name and port."""
        ports = [[] for _ in self.switches]
        for host, switch in enumerate(self.hosts):
            ports[switch].append((f"H{host}", 1))
        for one, other in self.links:
            here, there = len(ports[one]) + 1, len(ports[other]) + 1
            ports[one].append((self.switches[other], there))
            ports[other].append((self.switches[one], here))
        return ports

    def netlist(self):
        """The text that ibsim reads."""
        ports, parts = self.ports(), []
        width = max(24, *map(len, ports))
        for place, name in enumerate(self.switches):
            lines = [f"switchguid={SWITCH_GUID + place:#x}", f'Switch {width} "{name}"']
            lines += [f'[{port}] "{far}"[{there}]' for port, (far, there) in enumerate(ports[place], 1)]
            parts.append(lines)
        at = {far: (self.switches[place], port)
              for place, cables in enumerate(ports) for port, (far, _) in enumerate(cables, 1) if far[0] == "H"}
        for host in range(len(self.hosts)):
            switch, port = at[f"H{host}"]
            parts.append([f"caguid={ADAPTER_GUID + 16 * host:#x}", f'Hca 1 "H{host}"', f'[1] "{switch}"[{port}]'])
        return "\n\n".join("\n".join(lines) for lines in parts) + "\n"

    def root_guids(self):
        """The text that OpenSM reads as the roots of up*/down* engines and fat trees."""
        return "".join(f"{SWITCH_GUID + root:#018x}\n" for root in self.roots)


def joined(names, pairs, roots=(0,), hosts=1):
    """A fabric of names, linked in pairs, with so many hosts at each switch."""
    place = {name: number for number, name in enumerate(names)}
    links = [(place[one], place[other]) for one, other in pairs]
    return Fabric(list(names), links, [number for number in range(len(names)) for _ in range(hosts)], list(roots))


def called(letter, numbers):
    return letter + "_".join(map(str, numbers))


def ring(hosts, switches):
    return joined([f"r{at}" for at in range(switches)],
                  [(f"r{at}", f"r{(at + 1) % switches}") for at in range(switches)], hosts=hosts)


def full(hosts, switches):
    names = [f"f{at}" for at in range(switches)]
    return joined(names, itertools.combinations(names, 2), hosts=hosts)


def grid(hosts, sizes, is_closed):
    """A mesh or torus; a row of two is linked once."""
    places = list(itertools.product(*map(range, sizes)))
    pairs = []
    for place in places:
        for axis, size in enumerate(sizes):
            far = place[:axis] + ((place[axis] + 1) % size,) + place[axis + 1:]
            if place[axis] + 1 < size or (is_closed and size > 2):
                pairs.append((called("t", place), called("t", far)))
    fabric = joined([called("t", place) for place in places], pairs, hosts=hosts)
    if len(sizes) <= 3:
        fabric.torus = torus_text(fabric, sizes, is_closed)
    return fabric


def torus_text(fabric, sizes, is_closed):
    """What torus-2QoS is told: the sizes, and one link of each axis at the first switch."""
    def guid(place):
        return f"{SWITCH_GUID + fabric.switches.index(called('t', place)):#018x}"

    first = (0,) * len(sizes)
    lines = [("torus " if is_closed else "mesh ") + " ".join(map(str, [*sizes, 1, 1][:3]))]
    for axis, size in enumerate(sizes):
        plus, minus = (first[:axis] + (to,) + first[axis + 1:] for to in (1 % size, size - 1))
        lines.append(f"{'xyz'[axis]}p_link {guid(first)} {guid(plus)}")
        if size == 4 and is_closed:
            lines.append(f"{'xyz'[axis]}m_link {guid(first)} {guid(minus)}")
        lines.append(f"{'xyz'[axis]}_dateline 0")
    return "\n".join([*lines, "portgroup_max_ports 32", ""])


def hyperx(hosts, sizes):
    places = list(itertools.product(*map(range, sizes)))
    pairs = [(called("h", place), called("h", place[:axis] + (to,) + place[axis + 1:]))
             for place in places for axis, size in enumerate(sizes) for to in range(place[axis] + 1, size)]
    return joined([called("h", place) for place in places], pairs, hosts=hosts)


def tree(downs, ups):
    """A tree of levels: on each the ways down and up of a switch, hosts on the lowest; the roots are the highest level.
    A switch of a level is named by the ways down that lead to it from a root, and the ways up that it took."""
    levels = len(downs)
    rows = [list(itertools.product(*map(range, downs[level:]), *map(range, ups[:level])))
            for level in range(levels + 1)]

    def name(level, row):
        return called(f"x{level}_", row)

    names = [name(level, row) for level in range(1, levels + 1) for row in rows[level]]
    pairs = [(name(level, row), name(level + 1, row[1:] + (up,)))
             for level in range(1, levels) for row in rows[level] for up in range(ups[level])]
    fabric = joined(names, pairs, hosts=0)
    fabric.hosts = [names.index(name(1, row[1:] + (0,))) for row in rows[0]]
    fabric.roots = [names.index(name(levels, row)) for row in rows[levels]]
    return fabric


def dragonfly(each, globals_, hosts):
    groups = each * globals_ + 1
    names = [f"g{group}_{at}" for group in range(groups) for at in range(each)]
    pairs = [(f"g{group}_{one}", f"g{group}_{other}")
             for group in range(groups) for one, other in itertools.combinations(range(each), 2)]
    for group in range(groups):
        for step in range(groups - 1):
            far = (group + step + 1) % groups
            back = (group - far - 1) % groups
            if group < far:
                pairs.append((f"g{group}_{step // globals_}", f"g{far}_{back // globals_}"))
    return joined(names, pairs, hosts=hosts)


def drawn(hosts, switches, degree, seed):
    """A random regular graph: ends of links are paired at random, and again those whose pair was of one switch or of
    two that are linked; all anew if no two of those left could be linked."""
    if degree >= switches or switches * degree % 2:
        raise ValueError("no such graph")
    draw = random.Random(seed)
    links, left = set(), list(range(switches)) * degree
    while left:
        draw.shuffle(left)
        again = []
        for pair in zip(left[::2], left[1::2]):
            link = (min(pair), max(pair))
            if link[0] == link[1] or link in links:
                again += link
            else:
                links.add(link)
        left = list(collections.Counter(again).elements())
        if left and not any(pair not in links for pair in itertools.combinations(sorted(set(left)), 2)):
            links, left = set(), list(range(switches)) * degree
    names = [f"s{at}" for at in range(switches)]
    return joined(names, [(names[one], names[other]) for one, other in sorted(links)], hosts=hosts)


def is_joined(fabric, links):
    """Whether there is a way between each two switches."""
    near = collections.defaultdict(list)
    for one, other in links:
        near[one].append(other)
        near[other].append(one)
    seen, to_visit = {0}, [0]
    while to_visit:
        new = [far for far in near[to_visit.pop()] if far not in seen]
        seen.update(new)
        to_visit += new
    return len(seen) == len(fabric.switches)


def without(fabric, percent, seed):
    """The fabric with so much of its links taken out, at least one, but none without which it falls apart."""
    order = list(range(len(fabric.links)))
    random.Random(seed).shuffle(order)
    gone = set()
    for at in order:
        kept = [link for place, link in enumerate(fabric.links) if place not in gone | {at}]
        if len(gone) < max(1, round(len(fabric.links) * percent / 100)) and is_joined(fabric, kept):
            gone.add(at)
    return dataclasses.replace(fabric, links=[link for at, link in enumerate(fabric.links) if at not in gone])


def fabric_called(name):
    """The fabric of a name, or None."""
    shape, *out = name.split("~")
    shape, _, hosts = shape.partition("@")
    kind, *numbers = shape.split("-")
    try:
        sizes = [int(word) for word in numbers[0].split("x")]
        numbers = sizes if len(sizes) > 1 else [int(word) for word in numbers]
        hosts = int(hosts or 1)
        fabric = {
            "ring": lambda: ring(hosts, *numbers),
            "full": lambda: full(hosts, *numbers),
            "mesh": lambda: grid(hosts, sizes, False),
            "torus": lambda: grid(hosts, sizes, True),
            "cube": lambda: grid(hosts, [2] * numbers[0], False),
            "hyperx": lambda: hyperx(hosts, sizes),
            "tree": lambda: tree([numbers[0]] * numbers[1], [1] + [numbers[0]] * (numbers[1] - 1)),
            "fat": lambda: tree([numbers[0] // 2] * (numbers[1] - 1) + [numbers[0]],
                                [1] + [numbers[0] // 2] * (numbers[1] - 1)),
            "dragonfly": lambda: dragonfly(*numbers),
            "random": lambda: drawn(hosts, *numbers),
        }[kind]()
        fabric = without(fabric, float(out[0]), int(out[1])) if out else fabric
        return fabric if is_joined(fabric, fabric.links) else None
    except (KeyError, ValueError, IndexError, TypeError):
        return None
