"""What `fabric judge` prints: the cycle of channels, or that there is none, and the routes that are lost."""

from collections import Counter

from .layout import Plan, by_grid, by_levels, by_ring
from .story import Story, listed, plural
from .tables import Tables
from .texts import Fault

MOST_DRAWN = 300


class Judged(Story):
    """A fabric. Where there is a cycle its switches stand on a ring, and no others are drawn."""

    lines = 2
    port_width = 22
    channels = True
    what = "fabric judge"

    def __init__(self, files, layout=None):
        self.judgement = files.judgement
        self.cycle = self.judgement.cycle if self.judgement else []
        super().__init__(files, layout)

    def make_plan(self, layout):
        """A ring for a cycle; else a grid, if it is one and no levels are asked for; else levels above hosts."""
        shown = {**self.network.shown, **(self.judgement.names if self.judgement else {})}
        plan = Plan(self.network, self.lines, labels(self.network, shown), hosts=False)
        if self.cycle:
            by_ring(plan, list(dict.fromkeys(end[0] for end, _, _ in self.cycle)))
        elif len(self.network.switches) > MOST_DRAWN:
            raise Fault(self.files.names[0], 0, f"more than {MOST_DRAWN} switches, and no cycle to draw")
        elif layout == "levels" or not by_grid(plan):
            by_levels(plan, above_hosts(self.network))
            plan.bands = []
        return plan

    def tell(self):
        """Puts the links, and the cycle over them."""
        for k in range(len(self.network.links)):
            self.scene.put(f"link-{k}", "class", "wire")
        for switch in self.plan.at:
            self.put_switch(switch)
        for place, (end, lid, source) in enumerate(self.cycle, 1):
            self.put_red(end, f"{place}: LID {lid}")
            self.note_channel(place, end, source, lid)
        for cause, lid, source, at in self.judgement.lost if self.judgement else []:
            self.scene.put(f"switch-{at}", "class", "switch red")
            ends = self.plan.label(source), self.plan.label(at)
            self.notes.append(f"Lost ({cause}): what {ends[0]} sends to LID {lid}, at {ends[1]}.")
        self.judge()
        if self.cycle:
            red = "a channel of the cycle, with the LID of a route that takes it and the next"
            self.legend.append(("wire red ahead", red))
        self.legend.append(("wire", "another link between switches of the cycle" if self.cycle else "a link"))
        if self.judgement and self.judgement.lost:
            self.legend.append(("switch red", "a switch where a route is lost"))
        self.legend.append(("port", "a port", "1"))
        facts = self.judgement.facts if self.judgement else []
        self.notes += [fact for fact in map(in_words, facts) if fact]
        self.scene.begin()

    def put_switch(self, switch):
        """The box of a switch, and what is told of it when it is chosen."""
        hosts = sum(end[0] == switch for end in self.network.hosts.values())
        self.scene.put(f"switch-{switch}", "class", "switch")
        self.scene.put(f"switch-{switch}", "title", f"switch {self.network.shown.get(switch, '')} {switch}")
        self.scene.put(f"switch-{switch}-2", "text", plural(hosts, "end port") if hosts else "")
        far = {end: self.network.far(*end) for end in self.network.link_at if end[0] == switch}
        drawn = [end for end in far if far[end][0] in self.plan.at]
        others = [end for end in [*far, *self.network.host_at] if end[0] == switch and end not in drawn]
        for end in drawn:
            self.put_port(end)
        self.scene.put(f"more-{switch}", "text", "\n".join(map(self.port_words, sorted(others))))

    def note_channel(self, place, end, source, lid):
        """A channel of the cycle in words."""
        at, of = self.plan.label(end[0]), len(self.cycle)
        route = f"a route that takes it and the next one goes to LID {lid} from {self.plan.label(source)}"
        self.notes.append(f"Channel {place} of {of}: {at} by port {end[1]}; {route}.")

    def of_network(self):
        """What was judged, in a sentence."""
        net = self.network
        switches, links = plural(len(net.switches), "switch"), plural(len(net.links), "link")
        words = f"A fabric of {switches}, {links} between them and {plural(len(net.hosts), 'end port')}."
        left = len(net.switches) - len(self.plan.at)
        others = "The other switch is" if left == 1 else f"The other {left} switches are"
        return f"{words} {others} not drawn." if left else words

    def judge(self):
        """The verdict, with the lane on which all was judged."""
        self.verdict = "plain", self.of_network()
        if not self.judgement:
            return
        lost = sum(values[0] for form, values in self.judgement.facts if form.startswith("lost"))
        ends = f"{plural(lost, 'route')} {'is' if lost == 1 else 'are'} lost"
        if self.cycle:
            many = plural(len(self.cycle), "channel")
            names = listed(f"{self.plan.label(end[0])} by port {end[1]}" for end, _, _ in self.cycle)
            self.verdict = "bad", f"✕ Judged on one lane, the tables make a credit loop of {many}."
            self.reasons += [
                "If the routing engine uses several lanes, this does not settle it.",
                f"In a credit loop each channel can wait for the next: {names}, and round again. For each step a route "
                "is told that takes a channel and then the next."]
            self.reasons += [f"And {ends}."] * bool(lost)
        elif lost:
            self.verdict = "bad", f"✕ {ends[0].upper()}{ends[1:]}; judged on one lane, there is no credit loop."
        else:
            self.verdict = "good", "✓ Judged on one lane, the tables make no credit loop, and all routes arrive."


TRAFFIC = {
    "hosts": "from end ports to end ports",
    "lids": "from end ports to end ports and switches",
    "managed": "from end ports to end ports and switches, and from switches to end ports",
    "all": "from end ports and switches to both",
    "rows": "from end ports and switches to both, and to each LID that nobody owns and that has a row",
}


def in_words(fact):
    """A line of counts in words; none of what the verdict says."""
    form, values = fact
    if form.startswith("read"):
        parts = [plural(many, one) for many, one in zip(values, ("switch", "end port", "link", "row"))]
        return f"Read: {', '.join(parts)}, of which {values[4]} are for LIDs that nobody owns."
    if form.startswith("judged"):
        return f"Judged: routes {TRAFFIC.get(values[0], values[0])}."
    if form.startswith("routes"):
        unowned = f" {values[3]} of these are for LIDs that nobody owns." if len(values) > 3 else ""
        most = plural(values[2], "switch")
        return f"Of {plural(values[0], 'route')} {values[1]} arrive, over {most} at most.{unowned}"
    if form.startswith("channels"):
        pairs = plural(values[1], "pair")
        takes = "of which some route takes the one and then the other"
        return f"There are {plural(values[0], 'channel')}, and {pairs} {takes}."
    if form.startswith("note unset"):
        return f"{plural(values[0], 'end port')} had LID 65535, which is none."
    if form.startswith("lost"):
        kinds = zip(("missing", "dead", "wrong", "loop"), values[1:])
        return f"Routes lost: {values[0]}, which are " + ", ".join(f"{many} {kind}" for kind, many in kinds) + "."
    return None


def labels(network, shown):
    """The first words of the name of each node. A switch goes by its GUID if there are none, or another one has the
    same."""
    names = {guid: short(name) for guid, name in shown.items()}
    many = Counter(names.get(switch) for switch in network.switches)
    return {guid: name for guid, name in names.items() if name and many[name] < 2}


def short(name):
    """The first words of a name, for a box."""
    name = name.split(":")[0].split(";")[-1] if ";" in name else name
    return name if len(name) <= 20 else name[:19] + "…"


def above_hosts(network):
    """Levels by how far a switch is from those with hosts, the furthest first."""
    near, far = network.neighbours(), {}
    front = {end[0] for end in network.hosts.values()} or set(list(network.switches)[:1])
    while front:
        far.update(dict.fromkeys(front, 1 + max(far.values(), default=-1)))
        front = {other for switch in front for _, other, _ in near[switch] if other not in far}
    tables, most = Tables(), max(far.values(), default=0)
    tables.level = {switch: most - far.get(switch, most) for switch in network.switches}
    return tables
