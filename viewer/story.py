"""What a page tells: a plan, a scene with its steps, and words; here of a network with its tree and numbers."""

from .layout import Plan, by_grid, by_levels
from .scene import Scene
from .tables import Tables, components, shortest_trees, tree_links


NO_ROWS = "There are no rows."


def plural(many, one):
    """A number with what it counts: 1 link, 2 links, 2 switches."""
    return f"{many} {one}" if many == 1 else f"{many} {one}es" if one.endswith("ch") else f"{many} {one}s"


def listed(words, most=12):
    """Words in a sentence, or so many of them."""
    words = [str(word) for word in words]
    return ", ".join(words) if len(words) <= most else ", ".join(words[:most]) + f" and {len(words) - most} more"


class Story:
    """A network with its trees, as `expect` prints them; else with trees that were worked out here."""

    lines = 2
    port_width = 16
    channels = False
    what = "network"
    SIGNS = (
        ("host", "a host, with the port of its switch"),
        ("port", "a port", "1"),
        ("band", "a level: the switches as far from the root as each other"),
    )

    def __init__(self, files, layout=None):
        self.files, self.network = files, files.network
        told = files.tables or Tables()
        self.told_tree = bool(told.level)
        self.tables = told if self.told_tree else shortest_trees(self.network)
        self.numbers, self.rows = told.numbers, told.rows
        self.tables.numbers, self.tables.rows = told.numbers, told.rows
        self.tree = tree_links(self.network, self.tables)
        self.scene = Scene()
        self.strip, self.last, self.marks = None, 0, []
        self.verdict = "plain", ""
        self.reasons = []
        self.marked = []
        self.legend = []
        self.notes = []
        self.plan = self.make_plan(layout)
        self.tell()

    def make_plan(self, layout):
        """Where things stand: by levels or as a grid where that is asked, else as a grid where it is one."""
        plan = Plan(self.network, self.lines, getattr(self.network, "shown", None))
        if self.network.switches and (layout == "levels" or not by_grid(plan)):
            by_levels(plan, self.tables)
        return plan

    def tell(self):
        """Puts all that the page tells."""
        self.put_links()
        self.put_switches()
        self.verdict = "plain", self.of_network()
        if self.told_tree:
            roots = listed((switch for switch, parent in self.tables.parent.items() if parent is None), 6)
            self.reasons.append(f"Its spanning tree has the root {roots}.")
        if self.rows:
            self.reasons.append("The rows of a switch say by which ports it sends what is for another one.")
        self.scene.begin()
        self.note_tree()

    def words(self):
        """The verdict and what is told with it, for those who hear it."""
        network = [] if self.verdict[1] == self.of_network() else [self.of_network()]
        return " ".join([self.verdict[1], *self.reasons, *network])

    def of_network(self):
        """What the network is, in a sentence."""
        net, roots = self.network, sum(parent is None for parent in self.tables.parent.values())
        parts = [plural(len(net.switches), "switch"), plural(len(net.links), "link"), plural(len(net.hosts), "host")]
        kind = f", {roots} components" if roots > 1 else ""
        return f"A network of {parts[0]}, {parts[1]} and {parts[2]}{kind}."

    def who_sends(self, packets):
        """Who sends which packets to whom: of each packet its number and its two hosts."""
        sent = {}
        for packet, ends in packets:
            sent.setdefault(ends, []).append(packet)
        ways = [
            f"{sender} sends packet{'s' * (len(numbers) > 1)} {listed(numbers, 5)} to {target}"
            for (sender, target), numbers in sent.items()
        ]
        return f"{listed(ways, 5)}." if ways else ""

    def note_tree(self):
        """Says where the tree comes from."""
        whose = "as the program printed it" if self.told_tree else (
            "worked out by this page, with all links up: the program did not print it")
        self.legend += [
            ("wire tree", "a link of the spanning tree"),
            ("wire other", "another link"),
            ("switch root", "the root of a tree"),
            *self.SIGNS,
        ]
        self.legend += [("text", "the number by which rows name a switch", "no. 3")] * bool(self.numbers)
        self.notes += [f"The tree is {whose}."] * bool(self.tree)

    def put_links(self):
        """The classes and words of links."""
        for k, ((s, p), (t, q)) in enumerate(self.network.links):
            kind = "tree" if k in self.tree else "other"
            which = "tree link" if kind == "tree" else "link"
            self.scene.put(f"link-{k}", "class", f"wire {kind}")
            self.scene.put(f"link-{k}", "title", f"{which} from port {p} of {s} to port {q} of {t}")

    def put_switches(self):
        """The classes and words of switches."""
        for switch in self.network.switches:
            root = self.tables.parent.get(switch, 0) is None
            number = f"no. {self.numbers[switch]}" if switch in self.numbers else ""
            words = " · ".join(part for part in (number, "root" if root else "") if part)
            self.scene.put(f"switch-{switch}", "class", "switch root" if root else "switch")
            self.scene.put(f"switch-{switch}-2", "text", words)
            self.scene.put(f"switch-{switch}", "title", self.words_of(switch, number))
        self.put_rows()
        for host in self.network.hosts:
            self.scene.put(f"host-{host}", "class", "host")
        for end in [*self.network.link_at, *self.network.host_at]:
            self.put_port(end)

    def put_rows(self):
        """The rows of each switch as they were printed, and the numbers and names that they mean; where none are told
        of any switch, nothing."""
        for members in components(self.network) if self.rows else []:
            names = " ".join(f"{self.numbers[switch]} {switch}" for switch in members if switch in self.numbers)
            for switch in members:
                self.scene.put(f"rows-{switch}", "text", "\n".join(self.rows.get(switch, [NO_ROWS])))
                self.scene.put(f"names-{switch}", "text", names)

    def put_port(self, end):
        """The words of a port."""
        self.scene.put(f"port-{end[0]}-{end[1]}", "title", self.port_words(end))

    def port_words(self, end):
        """What is at a port."""
        host, far = self.network.host_at.get(end), self.network.far(*end)
        what = f"host {self.plan.label(host)}" if host else f"port {far[1]} of {self.plan.label(far[0])}"
        return f"port {end[1]} of {self.plan.label(end[0])}: {what}"

    def put_red(self, end, words):
        """A channel in red, as its arrow shows, with words beside it."""
        k, way = self.network.link_at[end], self.network.way(end)
        old = self.scene.lasting[f"link-{k}", "class"]
        self.scene.put(f"link-{k}", "class", f"{old} {way}" if "red" in old else f"wire red {way}")
        self.scene.put(f"channel-{end[0]}-{end[1]}", "text", words)
        self.scene.put(f"channel-{end[0]}-{end[1]}", "class", "channel red")

    def words_of(self, switch, number):
        """A switch in words."""
        level, parent = self.tables.level.get(switch), self.tables.parent.get(switch)
        parts = [f"switch {switch}", f"identifier {self.network.switches[switch]:012x}"]
        parts += [f"level {level}"] if level is not None else []
        parts += [f"parent {parent[0]} by port {parent[1]}"] if parent else ["root"] if level == 0 else []
        return ", ".join(parts + [number.replace("no.", "number")] * bool(number))

    def by_number(self, near, number):
        """The switch with this number in the component of another one, or None."""
        for members in components(self.network):
            if near in members:
                return next((switch for switch in members if self.numbers.get(switch) == number), None)
        return None
