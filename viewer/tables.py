"""Trees and tables, as `expect` prints them and `check` reads them; and the tree where none was told."""

from .network import fields
from .texts import Forms


class Tables:
    """What was told: for a member its level, parent and port to it (None at a root); numbers; rows by switch."""

    def __init__(self):
        self.level = {}
        self.parent = {}
        self.numbers = {}
        self.rows = {}

    def exits(self, switch, entry, number):
        """The ports by which rows send what came in at an entry and is for a number."""
        return self.by_entry(switch).get(entry, {}).get(str(number), [])

    def by_entry(self, switch):
        """The rows of a switch: for each entry and number its exits."""
        found = {}
        for line in self.rows.get(switch, []):
            entry, *pairs = line.split()
            ways = [pair.partition(":") for pair in pairs]
            exits = {number: [int(p) for p in ports.split("/") if p != "-"] for number, _, ports in ways}
            found.setdefault(int(entry), {}).update(exits)
        return found


class TablesReader:
    """Takes the lines of trees and tables up to their `end`. As by `check`, of a `component` or `member` line other
    words than those of `expect` are passed over."""

    def __init__(self, network):
        self.tables = Tables()
        self.takers = {
            "component WORD..": None,
            "member SWITCH level N": self.root,
            "member SWITCH level N parent SWITCH port PORT": self.member,
            "member WORD..": None,
            "number SWITCH ADDRESS": self.number,
            "row SWITCH ENTRY PAIR..": self.row,
        }
        self.forms = Forms({**fields(network), "WORD": str}, *self.takers)

    def take(self, line):
        """Takes a line."""
        which, values = self.forms.read(line, line.words)
        taker = list(self.takers.values())[which]
        if taker:
            taker(*values)

    def root(self, switch, level):
        """Takes the root of a tree."""
        self.tables.level[switch] = level
        self.tables.parent[switch] = None

    def member(self, switch, level, parent, port):
        """Takes a member below the root."""
        self.tables.level[switch] = level
        self.tables.parent[switch] = parent, port

    def number(self, switch, address):
        """Takes the number of a switch."""
        self.tables.numbers[switch] = address

    def row(self, switch, entry, pairs):
        """Takes a line of rows."""
        self.tables.rows.setdefault(switch, []).append(f"{entry} {' '.join(pairs)}")


def components(network):
    """The components, each as its switches, by rising least identifier; the root is the first of each."""
    near, left, found = network.neighbours(), sorted(network.switches, key=network.switches.get), []
    seen = set()
    for root in left:
        if root not in seen:
            found.append(reached(near, root))
            seen.update(found[-1])
    return found


def reached(near, root):
    """The switches that links lead to from the root, the nearer ones first."""
    order, seen = [root], {root}
    for switch in order:
        for _, other, _ in near[switch]:
            if other not in seen:
                seen.add(other)
                order.append(other)
    return order


def shortest_trees(network):
    """Trees of shortest walks from the least identifier of each component, with all links up: the parent is the
    least neighbour one level nearer, and the port the least to it."""
    near, tables = network.neighbours(), Tables()
    for members in components(network):
        tables.level[members[0]], tables.parent[members[0]] = 0, None
        for switch in members:
            for _, other, _ in near[switch]:
                tables.level.setdefault(other, tables.level[switch] + 1)
        for switch in members[1:]:
            ways = [(network.switches[t], p, t) for p, t, _ in near[switch] if tables.level[t] < tables.level[switch]]
            _, port, parent = min(ways)
            tables.parent[switch] = parent, port
    return tables


def tree_links(network, tables):
    """The places of the links by which members reach their parents."""
    ends = [(switch, parent[1]) for switch, parent in tables.parent.items() if parent]
    return {network.link_at[end] for end in ends if end in network.link_at}
