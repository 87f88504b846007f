"""Networks that scripts of this folder and tests/project/view share, each as lines without the last, `end`."""

import random


class Lines:
    """The lines of a network, and the ports that are left."""

    def __init__(self, switches, ports):
        self.lines = ["autonet 1"] + [f"switch S{s} {s + 1:012x}" for s in range(switches)]
        self.free = [list(range(1, ports + 1)) for _ in range(switches)]

    def link(self, a, b):
        """A link by the lowest ports that are left."""
        self.lines.append(f"link S{a} {self.free[a].pop(0)} S{b} {self.free[b].pop(0)}")


def tree_with_links(switches):
    """A tree in which each new switch gets a link to one before it, and as many further links between ports 1 to 8,
    chosen by a fixed seed."""
    drawn, net = random.Random(switches), Lines(switches, 8)
    for s in range(1, switches):
        net.link(drawn.choice([t for t in range(s) if net.free[t]]), s)
    for _ in range(switches):
        a, b = drawn.sample(range(switches), 2)
        if net.free[a] and net.free[b]:
            net.link(a, b)
    return net.lines


def path_with_all_links(switches):
    """A path, and as many further links as the ports allow, chosen by a fixed seed."""
    drawn, net = random.Random(switches), Lines(switches, 12)
    for s in range(switches - 1):
        net.link(s, s + 1)
    while len([s for s in range(switches) if net.free[s]]) >= 2:
        net.link(*drawn.sample([s for s in range(switches) if net.free[s]], 2))
    return net.lines


def text(lines):
    """The text of a network with these lines."""
    return "\n".join(lines + ["end", ""])
