"""What `check` answers: ranks, or a refused cycle, pair or exit."""

from .story import Story, listed, plural


class Verdict(Story):
    """A network with tables that pass, with a rank for each channel; or with what is refused in red."""

    what = "check"
    channels = True

    def __init__(self, files, layout=None):
        """With a line more in each box where one says from where, to where and where a packet is stuck."""
        self.lines = 3 if any("refused pair" in form for form, _, _ in files.verdict.told) else 2
        super().__init__(files, layout)

    def tell(self):
        """Puts the network, and the verdict over it."""
        self.put_links()
        self.put_switches()
        self.passed()
        self.note_tree()
        takers = {"rank": self.rank, "cycle": self.cycle, "pair": self.pair, "exit": self.exit}
        for form, values, _ in self.files.verdict.told:
            kind = form.replace("refused ", "").split()[0]
            if kind in takers:
                takers[kind](*values)
        self.scene.begin()

    def passed(self):
        """The tables pass, unless something else is told."""
        self.verdict = "good", "✓ Passed: in each component every switch reaches every other one, and no cycle closes."
        if self.files.verdict.told[0][0].startswith("rank"):
            falls = "Ranks fall along every way that packets take, so no way leads round, and no cycle closes."
            self.reasons.append(falls)
            words = "at a channel: its rank, above the ranks of all channels to which it leads"
            self.legend.append(("text", words, "rank 2"))
            self.notes.append("A channel leads to another one if some row takes what came by the one out by the other.")
        self.reasons.append("Each exit has a link, and none goes up the tree after a way down.")

    def refused(self, words, *reasons, sign="wire red ahead", of_sign="refused: packets go as the arrow shows"):
        """The tables are refused, which the picture shows by a sign."""
        self.verdict = "bad", f"✕ Refused: {words}."
        self.reasons = list(reasons)
        self.legend.append((sign, of_sign))

    def fade_tree(self):
        """The verdict is not about the tree, which steps back."""
        faint = {kind: f"{kind} faint" for kind in ("wire tree", "wire other")}
        self.legend = [(faint.get(kind, kind), *of) for kind, *of in self.legend]
        for k in range(len(self.network.links)):
            old = self.scene.lasting[f"link-{k}", "class"]
            self.scene.put(f"link-{k}", "class", old if "red" in old else f"{old} faint")

    def rank(self, switch, port, rank):
        """A channel has a rank."""
        self.scene.put(f"channel-{switch}-{port}", "text", f"rank {rank}")

    def redden(self, switch):
        """The box of a switch is red."""
        old = self.scene.lasting[f"switch-{switch}", "class"]
        self.scene.put(f"switch-{switch}", "class", old if "red" in old else f"{old} red")

    # A cycle

    def cycle(self, first, others):
        """Channels that wait for one another in a ring."""
        channels = [first, *others]
        many, ways = len(channels), listed(f"{switch} by port {port}" for switch, port in channels)
        self.fade_tree()
        turns = [self.turn(one, other) for one, other in zip(channels, channels[1:] + channels[:1])]
        self.legend.append(("text", "at a channel of the cycle: its place in it", f"1 of {many}"))
        for place, end in enumerate(channels, 1):
            self.put_red(end, f"{place} of {many}")
            self.notes.append(f"Channel {place} of {many}: {end[0]} by port {end[1]}. {turns[place - 1]}")
        self.refused(
            f"{plural(many, 'channel')} lead round in a cycle, in which each can wait for the next",
            f"The channels are {ways}, and round again. {turns[0]}" + " The notes say it of each." * (many > 1),
            "Packets that fill them would wait for one another for ever. Whether such packets come there is not "
            "looked at.")

    def turn(self, one, other):
        """Why the first channel can wait for the next: what the rows take by the first and then by the next."""
        (s, p), (t, q), entry = one, other, self.network.far(*one)[1]
        before = self.tables.by_entry(s).values()
        onward = [number for number, ports in self.tables.by_entry(t).get(entry, {}).items() if q in ports]
        both = [number for number in onward if any(p in exits.get(number, []) for exits in before)]
        self.marked.append([t, entry, (both or onward or ["0"])[0]])
        if both:
            target = self.target(s, both[0])
            return f"Rows let what is for {target} out of {s} by port {p}, and then out of {t} by port {q}."
        if onward:
            came = f"what came into {t} by port {entry} and is for {self.target(t, onward[0])}"
            return f"A row lets {came} out by port {q}."
        return f"A row of {t} lets what came in by port {entry} out by port {q}."

    def target(self, near, number):
        """A target as rows name it."""
        switch = self.by_number(near, int(number))
        return f"{switch} (no. {number})" if switch else f"no. {number} (which no switch has)"

    # A pair

    def pair(self, one, other, at, entry):
        """Two switches that are not joined."""
        for switch, words in ((one, "from here"), (other, "to here"), (at, "stuck")):
            old = self.scene.lasting.get((f"switch-{switch}-3", "text"))
            self.redden(switch)
            self.scene.put(f"switch-{switch}-3", "text", f"{old} · {words}" if old else words)
        if entry:
            self.scene.put(f"port-{at}-{entry}", "class", "port red")
        self.fade_tree()
        why = self.dead_end(other, at, entry)
        self.marked.append([at, entry, str(self.numbers.get(other, 0))])
        if entry:
            stuck = f"a packet from {one} to {other} can get stuck at {at}", f"There {self.came(at, entry)} {why}."
        else:
            stuck = f"{at} {why}", f"So a packet from {one} to {other} is stuck at {at}, where it starts."
        self.refused(*stuck, "Only the first fault is told.", sign="switch red",
                     of_sign="refused: the two of the pair, and where a packet is stuck")

    def dead_end(self, other, at, entry):
        """What a switch does not do with packets for another one."""
        if not self.rows:
            return f"has no exit with a link for {other}"
        exits = self.tables.exits(at, entry, self.numbers.get(other, 0))
        ports = listed(port for port in exits if (at, port) not in self.network.link_at)
        return f"has an exit for {other} without a link: port {ports}" if exits else f"has no exit for {other}"

    def came(self, at, entry):
        """What came into a switch at an entry."""
        far = self.network.far(at, entry)
        return f"what came in by port {entry}" + (f", from {far[0]}," if far else "")

    # An exit

    def exit(self, switch, entry, number, port):
        """An exit without a link, or up after a way down."""
        has_link = (switch, port) in self.network.link_at
        if has_link:
            self.put_red((switch, port), "exit")
        else:
            self.scene.put(f"port-{switch}-{port}", "class", "port red")
        self.redden(switch)
        if entry:
            self.scene.put(f"port-{switch}-{entry}", "class", "port red")
        self.marked.append([switch, entry, str(number)])
        came = self.came(switch, entry) if entry else "what comes from the switch itself"
        may = f"At {switch} {came} and is for {self.target(switch, number)} may leave by port {port}"
        words = f"{switch} has an exit " + ("up the tree for what came down" if has_link else "without a link")
        why = "which goes up the tree after a way down" if has_link else "which has no link"
        sign = {} if has_link else {"sign": "port red", "of_sign": "refused: the ports by which it comes and leaves"}
        self.refused(words, f"{may}, {why}.", "Only the first fault is told.", **sign)
