"""What tests/fabric/route-examples, tests/fabric/repair-examples and tests/fabric/largest share: calls of the program,
a topology and tables as plain Python, the routes that are followed there, and fabrics that are made."""

import itertools
import os
import pathlib
import random
import re
import subprocess

TOP = pathlib.Path(__file__).resolve().parents[2]
FABRIC = os.environ.get("FABRIC", str(TOP / "fabric"))
TRAFFICS = ("hosts", "lids", "all")
HEAD = re.compile(r"(?:Unicast lids .*guid 0x(\w+)|(?:\w+: S|s)witch 0x(\w+))")
ROW = re.compile(r"(0x[0-9a-fA-F]+|\d+)\s+(?::\s)?(\d+)(?:\s|$)")


def run(*words, **streams):
    """The status of a call, and what it writes to out and to err."""
    done = subprocess.run([FABRIC, *map(str, words)], text=True, timeout=900,
                          **{"stdout": subprocess.PIPE, "stderr": subprocess.PIPE, **streams})
    return done.returncode, done.stdout, done.stderr


def put(folder, name, text):
    """The path of a new file of this text."""
    path = pathlib.Path(folder) / name
    path.write_text(text)
    return path


class Fabric:
    """A topology in plain words, as OpenSM lists it, or as ibnetdiscover prints it: owners of LIDs, ends at switches,
    and links."""

    def __init__(self, text):
        self.switches, self.at, self.owner, self.links = set(), {}, {}, {}
        is_list = re.match(r"(?:#.*\n|\n)*(?:\{|lmc )", text)
        told = self.plain if text.startswith("topology 1") else self.listed if is_list else self.found
        told(text)

    def own(self, end, base, lmc):
        for lid in range(base, base + (1 << lmc) if base not in (0, 0xFFFF) else 0):
            self.owner[lid] = end

    def cable(self, one, port, other, far):
        """A cable between two ports, told from one side or from both."""
        for (near, place), (end, entry) in (((one, port), (other, far)), ((other, far), (one, port))):
            if near in self.switches:
                self.links[near, place] = (end, entry)
            else:
                self.at[near] = end

    def plain(self, text):
        lines = [line.split() for line in text.splitlines()]
        for kind, *rest in lines:
            if kind in ("switch", "host"):
                guid = int(rest[0], 16)
                self.own(guid, *map(int, rest[2:4] if kind == "switch" else rest[1:3]))
                self.switches |= {guid} if kind == "switch" else set()
        for kind, *rest in lines:
            if kind == "host":
                self.cable(int(rest[3], 16), int(rest[4]), int(rest[0], 16), 1)
            elif kind == "link":
                self.cable(int(rest[0], 16), int(rest[1]), int(rest[2], 16), int(rest[3]))

    def listed(self, text):
        told = []
        lmc = int(next(iter(re.findall(r"^lmc (\d)$", text, re.M)), 0))
        for line in text.splitlines():
            ends = re.findall(r"\{ (\w+).*?PortGUID:(\w+).*?LID:(\w+) PN:(\w+) \}", line)
            ends = [(kind, int(guid, 16), int(lid, 16), int(port, 16)) for kind, guid, lid, port in ends]
            for kind, guid, lid, _ in ends:
                self.own(guid, lid, 0 if kind.startswith("SW") else lmc)
                self.switches |= {guid} if kind.startswith("SW") else set()
            told.append([(guid, port) for _, guid, _, port in ends])
        for pair in told:
            if len(pair) == 2:
                self.cable(*pair[0], *pair[1])

    def found(self, text):
        """What ibnetdiscover prints: the ports of each switch lead to GUIDs of ports."""
        switch = re.compile(r'Switch\t\d+ "S-(\w+)".* lid (\d+) lmc (\d+)')
        port = re.compile(r'\[(\d+)\](?:\((\w+)\))?\s+"(.)-(\w+)"\[(\d+)\](?:\((\w+)\))?\s+# (?:lid (\d+) lmc (\d+))?')
        for guid, lid, lmc in switch.findall(text):
            self.switches.add(int(guid, 16))
            self.own(int(guid, 16), int(lid), int(lmc))
        here = None
        for line in text.splitlines():
            here = int(it[1], 16) if (it := switch.match(line)) else None if line.startswith("Ca") else here
            if it := port.match(line):
                place, own, kind, far, entry, end, lid, lmc = it.groups()
                if own:
                    self.own(int(own, 16), int(lid), int(lmc))
                near = int(own, 16) if own else here
                self.cable(near, int(place), int(end or far, 16), int(entry))

    def hosts(self):
        return sorted(self.at)


def tables_in(text):
    """The rows of each switch, as a dump or a list of OpenSM or a plain text tells them. Port 255 is none."""
    tables = {}
    for line in text.splitlines():
        if found := HEAD.match(line):
            rows = tables.setdefault(int(found[1] or found[2], 16), {})
        elif (found := ROW.match(line)) and int(found[2]) != 255:
            rows[int(found[1], 0)] = int(found[2])
    return tables


def way(fabric, tables, at, lid):
    """The switches and ports by which what a switch sends to a LID goes to others; none if it does not arrive."""
    links, owner = [], fabric.owner.get(lid)
    while len(links) < len(fabric.switches):
        port = tables.get(at, {}).get(lid)
        if at == owner:
            return links if port == 0 else None
        far, _ = fabric.links.get((at, port), (None, None))
        if far == owner and owner in fabric.at:
            return links
        if far not in fabric.switches:
            return None
        links.append((at, port))
        at = far
    return None


def route(fabric, tables, host, lid):
    """The same of a host, which sends to the switch to which it is cabled."""
    return way(fabric, tables, fabric.at[host], lid)


def astray(fabric, tables):
    """The rows by which what a switch sends does not arrive."""
    found, good = [], set()
    for at, lid in [(at, lid) for at, rows in tables.items() for lid in rows]:
        if (at, lid) not in good:
            links = way(fabric, tables, at, lid)
            found += [(at, lid)] if links is None else []
            good |= {(switch, lid) for switch, _ in links or ()}
    return found


def places(fabric):
    """The switch of each LID: it owns the LID, or the owner is cabled to it."""
    return {lid: at for lid, owner in fabric.owner.items() if (at := fabric.at.get(owner, owner)) in fabric.switches}


def wanting(fabric, tables, traffic):
    """The rows that are not there and should be. For `all` each switch has one for each LID. Else each switch with
    hosts has one for each LID at such switches; and each switch has one for each LID at itself and at those next to
    it, since one link is a way along any order."""
    near, leaves = {switch: {switch} for switch in fabric.switches}, set(fabric.at.values())
    for (switch, _), (far, _) in fabric.links.items():
        near[switch].add(far)
    return [(switch, lid) for switch in sorted(fabric.switches) for lid, at in places(fabric).items()
            if (traffic == "all" or at in near[switch] or {switch, at} <= leaves) and lid not in tables.get(switch, {})]


def measured(fabric, tables):
    """How many routes lead from hosts to LIDs of others and arrive, how many links between switches they have, the most
    that one has, and the most routes over a link in one direction."""
    loads, routes, hops, longest = {}, 0, 0, 0
    for lid, owner in fabric.owner.items():
        for host in fabric.hosts() if owner in fabric.at else ():
            links = None if host == owner else route(fabric, tables, host, lid)
            if links is not None:
                routes, hops, longest = routes + 1, hops + len(links), max(longest, len(links))
                for link in links:
                    loads[link] = loads.get(link, 0) + 1
    return routes, hops, longest, max(loads.values(), default=0)


def whole_tree(ways, levels):
    """The text of a whole tree: its switches have so many links up and as many down, the lowest ones hosts in place of
    these, and the highest ones none up. Links from a level lead to switches whose rows differ at most at its place. The
    LID of a switch is its GUID. With the text come the switches by their levels and rows."""
    rows = list(itertools.product(range(ways), repeat=levels - 1))
    guid = {place: number for number, place in enumerate(itertools.product(range(levels), rows), 1)}
    lines = [f"switch {number:#x} {2 * ways} {number} 0 s" for number in guid.values()]
    for number, (row, port) in enumerate(itertools.product(rows, range(ways)), len(guid) + 1):
        lines.append(f"host {number:#x} {number} 0 {guid[0, row]:#x} {port + 1} h")
    for level, row, up in itertools.product(range(levels - 1), rows, range(ways)):
        far = guid[level + 1, row[:level] + (up,) + row[level + 1:]]
        lines.append(f"link {guid[level, row]:#x} {ways + up + 1} {far:#x} {row[level] + 1}")
    return "\n".join(["topology 1", *lines, "end", ""]), guid


def full(count):
    """The text of so many switches of 254 ports with a host each, each two of them linked. GUIDs and ports are drawn,
    always in the same way: their orders are not those of the lines."""
    draw = random.Random("full")
    switches, hosts = (draw.sample(range(1, 1 << 62), count) for _ in range(2))
    ports = [draw.sample(range(1, 255), count) for _ in range(count)]
    lines = [f"switch {guid:#x} 254 {at + 1} 0 s{at}" for at, guid in enumerate(switches)]
    for at, guid in enumerate(hosts):
        lines.append(f"host {guid:#x} {count + at + 1} 0 {switches[at]:#x} {ports[at][at]} h{at}")
    for at, to in itertools.combinations(range(count), 2):
        lines.append(f"link {switches[at]:#x} {ports[at][to]} {switches[to]:#x} {ports[to][at]}")
    return "\n".join(["topology 1", *lines, "end", ""])
