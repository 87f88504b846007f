"""Judges tables with lanes route by route, with nothing of the program: each end port, LID and service level by itself.
Takes a folder with what OpenSM dumps, opensm-subnet.lst, opensm-lfts.dump and opensm-sl2vl.dump. A route is followed up
to a port by which one to the same LID, on the same lanes, came before: from there both do the same."""

import collections
import functools
import itertools
import re

NODE = (r"\{ ([\w-]+) Ports:(\w+) SystemGUID:\w+ NodeGUID:(\w+) PortGUID:(\w+) VenID:.*?\} "
        r"LID:(\w+) PN:(\w+) \}")
PAIR = re.compile(f"{NODE} {NODE}")
HEAD = re.compile(r"(Switch|Channel Adapter|Router) 0x(\w{16}), base LID ")
NAME = re.compile(r"NodeGUID:(\w{16}) PortGUID:\w+ VenID:\w+ DevID:\w+ Rev:\w+ \{(.*?)\} LID:")
CHANNEL = re.compile(r"channel (?P<switch>\w+) (?P<port>\d+) lane (?P<lane>\d+) "
                     r"lid (?P<lid>\d+) from (?P<source>\w+) level (?P<level>\d+)")
DISCARD = 15
UNSET = (0, 0xFFFF)

Node = collections.namedtuple("Node", "is_switch guid ports lid port")


def node_of(words):
    """A node and a port of it, as a line of the topology tells them: an adapter by the GUID of its port."""
    kind, ports, node, guid, lid, port = words
    is_switch = kind.startswith("SW")
    return Node(is_switch, int(node if is_switch else guid, 16), int(ports, 16), int(lid, 16), int(port, 16))


class Fabric:
    """What the files of a folder say. `like` has for each level the least one that all switches put on the same lanes;
    `gate` for each port in a switch the least one from which all levels take the same lanes."""

    def __init__(self, folder):
        self.far, self.cable, self.owner, self.ports = {}, {}, {}, {}
        for line in open(folder / "opensm-subnet.lst", errors="replace"):
            found = PAIR.match(line)
            if found:
                one, other = node_of(found.groups()[:6]), node_of(found.groups()[6:])
                self.add(one, other)
                self.add(other, one)
        self.table = collections.defaultdict(dict)
        for line in open(folder / "opensm-lfts.dump", errors="replace"):
            head = re.match(r"Unicast lids.*? guid 0x(\w{16})", line)
            row = re.match(r"0x(\w{4}) (\d{3})", line)
            if head:
                table = self.table[int(head[1], 16)]
            elif row and row[2] != "255":
                table[int(row[1], 16)] = int(row[2])
        self.lanes, rows = {}, {}
        for switch, line in parts_of(folder / "opensm-sl2vl.dump", "Switch"):
            ports, _, row = line.partition(":")
            if row:
                lanes = rows.setdefault(row, [int(lane) for lane in row.split()])
                self.lanes[(switch, *map(int, ports.split()))] = lanes
        self.count = 1 + max((lane for row in rows.values() for lane in row if lane < DISCARD), default=-1)
        columns = list(zip(*rows.values())) or [()] * 16
        self.like = [columns.index(column) for column in columns]
        self.gate = self.gates()

    def gates(self):
        """The least port of each switch with the same lanes to all ports."""
        rows = collections.defaultdict(list)
        for (switch, entry, port), row in sorted(self.lanes.items()):
            rows[switch, entry].append((port, id(row)))
        gates = {}
        return {(switch, entry): (switch, gates.setdefault((switch, *row), entry))
                for (switch, entry), row in rows.items()}

    def add(self, node, far):
        """A node, with the far side of its port."""
        if node.lid not in UNSET:
            self.owner[node.lid] = node.is_switch, node.guid
        if node.is_switch:
            self.ports[node.guid] = node.ports
            self.far[node.guid, node.port] = far
        else:
            self.cable[node.guid] = far.guid, far.port

    def hop(self, switch, entry, level, lid):
        """What a switch does with a packet that came in by a port: how its route ends, or on which channel it goes on,
        and to which port of which switch."""
        port = self.table[switch].get(lid)
        owner = self.owner.get(lid)
        if port is None:
            return "missing", None
        if port == 0:
            return ("arrive" if owner in (None, (True, switch)) else "wrong"), None
        far = self.far.get((switch, port))
        if far is None or port > self.ports[switch]:
            return "dead", None
        lane = self.lanes.get((switch, entry, port), [DISCARD] * 16)[level]
        if lane == DISCARD:
            return "discard", None
        if not far.is_switch:
            return ("arrive" if owner in (None, (False, far.guid)) else "wrong"), None
        return (switch, port, lane), self.gate.get((far.guid, far.port), (far.guid, far.port))


@functools.lru_cache(maxsize=1)
def fabric_in(folder):
    """The fabric of a folder, which is read once for all that is asked of it."""
    return Fabric(folder)


def parts_of(path, kind):
    """The lines of the parts of nodes of a kind, each with the GUID of its node; no comments."""
    guid = None
    for line in open(path, errors="replace"):
        head = HEAD.match(line)
        if head:
            guid = int(head[2], 16) if head[1] == kind else None
        elif guid is not None and not line.startswith("#"):
            yield guid, line


@functools.lru_cache(maxsize=1)
def levels_in(path):
    """The levels of each pair of an end port and a LID, as a file tells them in parts."""
    levels = collections.defaultdict(set)
    for guid, line in itertools.chain(parts_of(path, "Channel Adapter"), parts_of(path, "Switch")):
        lid, level = line.split(":")
        levels[guid, int(lid, 16)].add(int(level))
    in_order = {pair: tuple(sorted(some)) for pair, some in levels.items()}
    return lambda source, lid: in_order.get((source, lid), ())


def with_replies(fabric, levels):
    """Levels with those of replies: an end port that is sent to answers with the level of the request."""
    own = collections.defaultdict(list)
    for lid, (_, guid) in fabric.owner.items():
        own[guid].append(lid)

    def both(source, lid):
        owner = fabric.owner.get(lid)
        replies = [levels(owner[1], one) for one in own[source]] if owner else []
        return tuple(sorted({*levels(source, lid), *itertools.chain(*replies)}))
    return both


class Answer:
    """The counts, the dependencies with their least routes, and the lost routes of all that is sent."""

    def __init__(self, fabric, levels, traffic, given=None):
        self.fabric, self.levels, self.given = fabric, levels, given or levels
        self.routes = self.arrived = self.hops = self.silent = self.unowned = 0
        self.traffic, self.mute = traffic, None
        self.depends, self.lost, self.first = {}, collections.Counter(), {}
        self.known, self.counted = {}, {}
        sources = {guid: fabric.gate.get(begin, begin) for guid, begin in fabric.cable.items()}
        hosts = sorted(sources.items())
        if traffic in ("managed", "all", "rows"):
            sources.update({guid: fabric.gate.get((guid, 0), (guid, 0)) for guid in fabric.ports})
        everyone = sorted(sources.items())
        for lid in sorted(self.targets()):
            is_switch, owner = fabric.owner.get(lid, (False, None))
            self.known = {like: {} for like in fabric.like}
            for source, begin in hosts if is_switch and traffic == "managed" else everyone:
                if source != owner:
                    self.add(begin, source, lid)

    def targets(self):
        """The LIDs to which the traffic goes."""
        yield from (lid for lid, (is_switch, _) in self.fabric.owner.items()
                    if not is_switch or self.traffic != "hosts")
        if self.traffic == "rows":
            yield from {lid for table in self.fabric.table.values() for lid in table} - self.fabric.owner.keys()

    def add(self, begin, source, lid):
        """The routes of a pair, each level one."""
        levels = tuple(self.levels(source, lid))
        if not self.given(source, lid):
            self.silent += 1
            self.mute = self.mute or (lid, source)
        if levels not in self.counted:
            self.counted[levels] = self.count_like(levels)
        for level, count in self.counted[levels]:
            known = self.known[self.fabric.like[level]]
            if begin not in known:
                self.follow(begin, (lid, source, level), known)
            self.end(*known[begin][1:], (lid, source, level), count)

    def count_like(self, levels):
        """Of levels that take the same lanes the least, and how many these are."""
        counts = {}
        for level in levels:
            counts.setdefault(self.fabric.like[level], [level, 0])[1] += 1
        return list(counts.values())

    def follow(self, spot, route, known):
        """Follows a route to where it ends, or to a spot that is known: keeps of each spot on its way what is done
        there, and how a route ends from there: the cause, how many switches it takes, and the switch where it is
        lost."""
        lid, _, level = route
        way, before = {}, None
        while spot not in known and spot not in way:
            does, spot_after = way[spot] = self.fabric.hop(*spot, level, lid)
            if spot_after is None:
                return self.keep(known, way, (does, 0, spot[0]))
            if before is not None:
                self.depends.setdefault((before, does), route)
            before, spot = does, spot_after
        if spot in way:
            self.depends.setdefault((before, way[spot][0]), route)
            ring = list(way)[list(way).index(spot):]
            return self.keep(known, way, ("loop", 0, min(ring)[0]))
        does, *ends = known[spot]
        if before is not None and isinstance(does, tuple):
            self.depends.setdefault((before, does), route)
        return self.keep(known, way, ends)

    @staticmethod
    def keep(known, way, ends):
        """Keeps how routes end from each spot of a way."""
        how, switches, at = ends
        for spot, (does, _) in reversed(way.items()):
            switches += 1
            known[spot] = does, how, switches, at

    def end(self, how, switches, at, route, count):
        """So many routes end: they arrive, or are lost at a switch."""
        self.routes += count
        if how == "arrive":
            self.arrived += count
            self.unowned += count if route[0] not in self.fabric.owner else 0
            self.hops = max(self.hops, switches)
        else:
            self.lost[how] += count
            self.first.setdefault(how, (*route, at))

    def cycle(self):
        """The least cycle: from the least channel on any a shortest, of these the least as a list."""
        after = collections.defaultdict(set)
        before = collections.defaultdict(set)
        for one, other in self.depends:
            after[one].add(other)
            before[other].add(one)
        for first in sorted(after):
            far, queue = {first: 0}, collections.deque([first])
            while queue:
                at = queue.popleft()
                for one in before[at]:
                    if one not in far:
                        far[one] = far[at] + 1
                        queue.append(one)
            if any(other in far for other in after[first]):
                return self.way(first, after, far)
        return []

    def way(self, first, after, far):
        """The least of the shortest ways from a channel back to it."""
        way = [first]
        left = min(far[other] for other in after[first] if other in far)
        at = min(other for other in after[first] if far.get(other) == left)
        while at != first:
            way.append(at)
            left -= 1
            at = min(other for other in after[at] if far.get(other) == left)
        return way

    def lines(self, word):
        """The lines of the answer after `read`, without names."""
        channels = self.fabric.count * sum(far.is_switch for far in self.fabric.far.values())
        unowned = f" unowned {self.unowned}" if self.traffic == "rows" else ""
        yield f"routes {self.routes} arrived {self.arrived} hops {self.hops}{unowned}"
        if self.silent:
            yield f"silent {self.silent}"
            yield "mute lid {} from 0x{:016x}".format(*self.mute)
        yield f"channels {channels} dependencies {len(self.depends)}"
        cycle = self.cycle()
        yield f"cycle {len(cycle) or 'none'}"
        for channel, following in zip(cycle, cycle[1:] + cycle[:1]):
            (switch, port, lane), (lid, source, level) = channel, self.depends[channel, following]
            yield f"channel 0x{switch:016x} {port} lane {lane} lid {lid} from 0x{source:016x} level {level}"
        if cycle and word == "any":
            yield "note the levels in use need not close it"
        if self.lost:
            causes = ("missing", "dead", "wrong", "discard", "loop")
            yield f"lost {sum(self.lost.values())} " + " ".join(f"{cause} {self.lost[cause]}" for cause in causes)
            for cause in causes:
                if cause in self.first:
                    lid, source, level, at = self.first[cause]
                    yield f"{cause} lid {lid} from 0x{source:016x} level {level} at 0x{at:016x}"


def lines_of(folder, word, traffic):
    """The lines of the answer for a folder: `levels` takes those of path-sl.dump, else one level or `any`."""
    fabric = fabric_in(folder)
    given = {"levels": lambda: levels_in(folder / "path-sl.dump"),
             "any": lambda: lambda source, lid: range(16)}.get(word, lambda: lambda source, lid: [int(word)])()
    levels = with_replies(fabric, given) if word == "levels" else given
    told = "file" if word == "levels" else word
    answer = Answer(fabric, levels, traffic, given)
    return [f"judged traffic {traffic} lanes {fabric.count} levels {told}", *answer.lines(word)]


def names_in(path):
    """The name of each node, as the first line with the node tells it."""
    names = {}
    for line in open(path, errors="replace"):
        for guid, name in NAME.findall(line):
            names.setdefault(f"0x{guid}", name)
    return names


def picture_of(folder, lines):
    """The lines of the picture of the loop that the lines of an answer tell."""
    far, names = fabric_in(folder).far, names_in(folder / "opensm-subnet.lst")
    loop = [CHANNEL.fullmatch(line) for line in lines if line.startswith("channel ")]
    found = f"has a credit loop of {len(loop)} channels" if loop else "has no credit loop"
    yield from ("digraph cycle {", f'label = "{lines[0].removeprefix("judged ")} {found}"')
    yield from ("node [ shape = box ]", "edge [ labeldistance = 2 ]")
    for switch in dict.fromkeys(one["switch"] for one in loop):
        name = re.sub(r'["\\\\]', r"\\\g<0>", names[switch]).replace("&", "&amp;")
        yield f'"{switch}" [ label = "{name}\\n\\N" ]'
    for one in loop:
        to = far[int(one["switch"], 16), int(one["port"])]
        label = f"lane {one['lane']} level {one['level']}\\nlid {one['lid']} from {one['source']}"
        yield (f'"{one["switch"]}" -> "0x{to.guid:016x}" '
               f'[ taillabel = {one["port"]} headlabel = {to.port} label = "{label}" ]')
    yield "}"
