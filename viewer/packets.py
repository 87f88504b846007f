"""What `flow` and `flood` print: packets in channels, and the hops of a broadcast, step by step."""

from .story import Story, listed, plural
from .tables import components


class Flow(Story):
    """Packets that move through channels, each of which holds some, first in first out."""

    what = "flow"
    lines = 3
    channels = True

    def tell(self):
        """Puts the network, and then each move."""
        self.put_links()
        self.put_switches()
        self.where, self.waiting, self.held, self.targets = {}, {}, {}, {}
        self.arrived = 0
        for place, (sender, target) in enumerate(self.network.sends, 1):
            self.wait(place, sender, target)
        self.put_waiting()
        self.tell_count()
        self.verdict = "plain", f"{plural(len(self.network.sends), 'packet')} to send."
        self.reasons.append(self.who_sends(enumerate(self.network.sends, 1)))
        self.note_tree()
        self.legend.append(("wire hop ahead", "the packet that moved last"))
        moves = any(form.startswith("move") for form, _, _ in self.files.flow.told)
        self.legend += [("text", "at a channel: it holds packets 3 and 5, and 3 goes first", "▸ 3, 5")] * moves
        self.legend.append(("host got", "a host to which a packet comes now"))
        self.notes.append("Each channel has room for some packets. One packet moves in a step: the first of a channel, "
                          "or one that waits to enter, if there is room for it or it is at its target.")
        self.scene.begin()
        takers = {"local": self.local, "unjoined": self.unjoined, "move": self.move, "arrive": self.arrive}
        for form, values, line in self.files.flow.told:
            taker = takers.get(form.split()[0], self.end)
            self.scene.step(taker(line, *values), form.split()[0], len(self.scene.steps) + 1)

    def wait(self, packet, sender, target):
        """A packet waits at the switch of its sender."""
        self.where[packet] = None
        self.waiting.setdefault(self.network.hosts[sender][0], []).append(packet)
        self.targets[packet] = sender, target

    def put_waiting(self):
        """Who waits where to enter."""
        for switch in self.network.switches:
            words = f"waiting: {listed(self.waiting.get(switch, []), 4)}" if self.waiting.get(switch) else ""
            self.scene.put(f"switch-{switch}-3", "text", words)

    def packet(self, line, packet):
        """Who sends the packet to whom."""
        if packet not in self.targets:
            raise line.fault("no such packet")
        return "packet {} from {} to {}".format(packet, *self.targets[packet])

    def leave(self, packet):
        """The packet leaves the place where it was."""
        end = self.where[packet]
        if end is None:
            for packets in self.waiting.values():
                if packet in packets:
                    packets.remove(packet)
        else:
            self.held[end].remove(packet)
            self.put_channel(end)
        self.put_waiting()

    def put_channel(self, end):
        """Which packets a channel holds."""
        words = f"▸ {listed(self.held[end], 5)}" if self.held[end] else ""
        self.scene.put(f"channel-{end[0]}-{end[1]}", "text", words)

    def tell_count(self):
        """How many are where."""
        inside = sum(map(len, self.held.values()))
        outside = plural(sum(map(len, self.waiting.values())), "packet")
        words = f"{outside} not yet in, {inside} in channels, {self.arrived} arrived"
        self.scene.put("count", "text", words)

    def move(self, line, packet, switch, port):
        """A packet goes into a channel."""
        words = self.packet(line, packet)
        if (switch, port) not in self.network.link_at:
            raise line.fault("no link")
        self.leave(packet)
        self.where[packet] = switch, port
        self.held.setdefault((switch, port), []).append(packet)
        self.put_channel((switch, port))
        way = self.network.way((switch, port))
        self.scene.flash(f"link-{self.network.link_at[switch, port]}", "class", f"wire hop {way}")
        self.tell_count()
        return f"{words} leaves {switch} by port {port}"

    def arrive(self, line, packet, switch):
        """A packet is at its target."""
        words = self.packet(line, packet)
        self.leave(packet)
        self.arrived += 1
        self.tell_count()
        _, target = self.targets.pop(packet)
        self.scene.flash(f"host-{target}", "class", "host got")
        return f"{words} arrives at {switch}"

    def local(self, line, packet, switch):
        """A packet that enters nowhere: both hosts are at one switch."""
        return f"{self.nowhere(line, packet)}: both are at {switch}"

    def unjoined(self, line, packet):
        """A packet that enters nowhere: its hosts are not joined."""
        return f"{self.nowhere(line, packet)}: no way joins the two"

    def nowhere(self, line, packet):
        """A packet enters nowhere, and is told no more."""
        words = self.packet(line, packet)
        self.leave(packet)
        self.tell_count()
        del self.targets[packet]
        return f"{words} enters nowhere"

    def end(self, _line, moves, arrived, local, unjoined):
        """All moves are done."""
        sent = len(self.network.sends)
        words = [f"{arrived} of {plural(sent, 'packet')} arrived, with {plural(moves, 'move')} into channels"]
        words += [f"{local} needed no channel, since both hosts are at one switch"] * bool(local)
        words += [f"{unjoined} could not enter, since no way joins the hosts"] * bool(unjoined)
        good = sent and arrived + local == sent
        self.verdict = "good" if good else "plain", "✓ " * bool(good) + "; ".join(words) + "."
        return f"the end: {'; '.join(words)}"


class Flood(Story):
    """Broadcasts, one after the other: up the tree to its root, and from there down."""

    what = "flood"
    lines = 3
    channels = True

    def tell(self):
        """Puts the network, and then each hop."""
        self.put_links()
        self.put_switches()
        self.verdict = "plain", "A broadcast from each switch goes up the tree to its root, and down."
        self.note_tree()
        self.legend.append(("wire hop ahead", "the newest hop of the broadcast"))
        self.legend.append(("wire was was-ahead", "an older hop of it"))
        self.legend.append(("text", "at a port from which it went: by its hop 3", "3"))
        self.legend.append(("text", "the switch that sends it", "broadcast"))
        self.legend.append(("text", "a switch that has got it", "copy"))
        self.notes.append("A root has its copy when the way up ends, every other switch from the hop down to it.")
        self.scene.begin()
        self.gone, self.hops, self.newest = {}, 0, None
        self.begins, self.short = {}, []
        self.members = {switch: len(members) for members in components(self.network) for switch in members}
        for form, values, line in self.files.flood.told:
            taker = {"flood": self.flood, "copies": self.copies, "end": self.end}.get(form.split()[0], self.hop)
            self.scene.step(taker(line, *values), form.split()[0], len(self.scene.steps) + 1)
        self.tell_end()

    def tell_end(self):
        """Whether all broadcasts came to all switches, and where each begins."""
        many = plural(len(self.begins), "broadcast")
        if self.short:
            from_whom = f"those from {listed(self.short)}"
            self.verdict = "bad", f"✕ Of {many} not all came to each switch of the component: {from_whom}."
        elif self.begins:
            whose = "the broadcast" if len(self.begins) == 1 else f"each of the {many}"
            self.verdict = "good", f"✓ Every switch of the component has one copy of {whose}."
        self.reasons.append("Each goes up the tree to its root, and from there down.")
        begins = listed((f"from {switch} at step {step}" for switch, step in self.begins.items()), 8)
        self.reasons += [f"They begin: {begins}."] * bool(self.begins)

    def flood(self, _line, switch):
        """A broadcast begins."""
        self.clear()
        self.begins[switch] = len(self.scene.steps) + 1
        self.scene.put(f"switch-{switch}-3", "text", "broadcast")
        self.sender = switch
        return f"a broadcast from {switch}"

    def clear(self):
        """The last broadcast is gone."""
        for k in self.gone:
            self.scene.put(f"link-{k}", "class", f"wire {'tree' if k in self.tree else 'other'}")
        for switch in self.network.switches:
            self.scene.put(f"switch-{switch}-3", "text", "")
        for end in self.network.link_at:
            self.scene.put(f"channel-{end[0]}-{end[1]}", "text", "")
        self.gone, self.hops, self.newest = {}, 0, None

    def hop(self, line, switch, port):
        """The broadcast goes over a link."""
        k = self.network.link_at.get((switch, port))
        if k is None:
            raise line.fault("no link")
        self.age()
        self.newest = k, self.network.way((switch, port))
        self.scene.put(f"link-{k}", "class", f"{self.older(k)} hop {self.newest[1]}")
        self.hops += 1
        self.scene.put(f"channel-{switch}-{port}", "text", str(self.hops))
        far, _ = self.network.far(switch, port)
        kind = line.words[0]
        if kind == "down":
            self.put_copy(switch)
            self.put_copy(far)
        return f"the broadcast from {self.sender} goes {kind} from {switch} by port {port} to {far}"

    def age(self):
        """The newest hop is an older one from now on."""
        if self.newest:
            k, way = self.newest
            self.gone.setdefault(k, []).append(way)
            self.scene.put(f"link-{k}", "class", self.older(k))
            self.newest = None

    def older(self, k):
        """How a link is drawn over which older hops went, or none."""
        return " ".join(["wire", *["was"] * (k in self.gone), *(f"was-{way}" for way in self.gone.get(k, []))])

    def put_copy(self, switch):
        """A switch has its copy; the one that sends stays told."""
        self.scene.put(f"switch-{switch}-3", "text", "broadcast · copy" if switch == self.sender else "copy")

    def copies(self, _line, many):
        """So many have their copies."""
        self.age()
        if many != self.members[self.sender]:
            self.short.append(self.sender)
        return f"{plural(many, 'switch')} of the component {'has its copy' if many == 1 else 'have one copy each'}"

    def end(self, _line):
        """All broadcasts are told."""
        return "the end"
