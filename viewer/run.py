"""A run, as `run` and `replay` print it: epochs, what ports show, tables, cables, packets, frames lost."""

from .story import Story, listed, plural
from .strip import tint

STATES = {
    "s.dead": ("✕", "dead"),
    "s.checking": ("…", "checking"),
    "s.host": ("h", "a host's"),
    "s.switch.who": ("?", "a switch's, not yet known which"),
    "s.switch.loop": ("↺", "a loop to this switch"),
    "s.switch.good": ("✓", "good"),
}


class Run(Story):
    """A run, line by line of its report."""

    what = "run"
    lines = 3
    SIGNS = [sign for sign in Story.SIGNS if sign[0] != "port"]
    port_width = 27

    def tell(self):
        """Puts what is there at first, and then each line."""
        net = self.network
        self.epoch = {switch: None for switch in net.switches}
        self.table = {switch: None for switch in net.switches}
        self.spent = set()
        self.port = {end: ("s.dead", None) for end in [*net.link_at, *net.host_at]}
        self.down = set()
        self.lost, self.sent, self.delivered, self.dropped = {}, 0, 0, 0
        self.here, self.packets = {}, {}
        self.epochs, self.states = set(), {"s.dead"} if self.port else set()
        self.spans, self.place = {switch: [] for switch in net.switches}, 0
        self.faults = []
        self.names, self.finished = self.all_names(), {}
        for switch in net.switches:
            self.put_switch(switch)
            self.put_packets(switch)
        for end in self.port:
            self.put_port(end)
        for k in range(len(net.links)):
            self.put_link(k)
        self.put_counts()
        self.scene.begin()
        self.tell_lines()
        self.strip = self.spans
        self.tell_words()

    def all_names(self):
        """The numbers and names of each epoch under its root, by the loads of the whole run."""
        finished, found = {}, {}
        for form, values, _ in self.files.report.lines.told:
            if form.startswith("LIFE finish"):
                finished[values[0]] = tuple(values[1:3])
            elif form.startswith("LIFE load") and values[0] in finished:
                found.setdefault(finished[values[0]], {})[values[2]] = named(values[0])
        return {of: " ".join(f"{number} {names[number]}" for number in sorted(names)) for of, names in found.items()}

    def tell_lines(self):
        """A step for each line of the report, by the word that is its own."""
        report = self.files.report
        for k, (form, values, line) in enumerate(report.lines.told):
            self.place, self.rows_now = report.places[k], report.rows.get(k, [])
            words = form.split()
            kind = words[1] if words[0] == "LIFE" else words[0]
            self.scene.step(getattr(self, f"at_{kind}")(line, form, *values), kind, self.place)
            mark = self.mark(form, kind, values)
            self.marks += [(self.place, *mark)] if mark else []
        self.end_spans()

    def tell_words(self):
        """How it ended, and what signs mean."""
        self.tell_end()
        self.legend += [
            ("wire good", "a link that is good at both ends"),
            ("wire asked", "a link of which an end is not good (yet)"),
            ("wire down", "a cable that failed"),
            ("wire hop ahead", "the hop of a packet"),
            ("wire lost ahead", "a frame that is lost"),
            *self.epoch_signs(),
            ("switch no-table", "a switch that uses no table"),
            ("switch spent", "a switch for which no epoch is left"),
            *self.SIGNS,
            ("host got", "a host that sends or gets a packet now"),
            *[("port", f"a port with its number: {words}", f"1 {sign}")
              for state, (sign, words) in STATES.items() if state in self.states],
            ("port red", "a port at which what comes is no frame"),
        ]
        self.legend += [("text", "packet 2 is at this switch, or on the way to it", "✉ 2")] * bool(self.sent)
        self.notes += [
            "An event is one thing that a switch, a cable, a host or the clock does. A step of the slider is a line "
            "that the program printed of an event, which may have none or several. A frame is what switches send each "
            "other, a packet what hosts send. A tick is one beat of the network's clock.",
            "An epoch is one agreement of the switches on how they are cabled. A switch whose links changed begins "
            "the next epoch, and those that hear of it join it. To load is to bring the routes of an epoch into use. "
            "Parts that no cable joins can have epochs of one number, which have nothing to do with each other.",
            "A box has the switch, its epoch, and the table in use with the switch's own number (no.) in it.",
        ]
        if self.plan.bands:
            self.notes.append(
                "Levels are those of the tree with all links up, and stay so: the tree of an epoch is not in the "
                "report, but its root is, in the step in which a switch has finished the epoch.")
        if self.files.report.end[0] != "settled":
            self.notes.append("Settled means that nothing is left to do, and every port shows what is at its link.")
        lives = [values[0] for form, values, _ in self.files.report.lines.told if form == "restart LIFE"]
        if lives:
            now = named(lives[0])
            self.notes.append(f"{now} is {lives[0][0]} in its life {lives[0][1]}: each time that a switch is switched "
                              "off and on, another life begins.")

    def epoch_signs(self):
        """The signs of the epochs, each colour with all that have it."""
        shown = {}
        for epoch in sorted(self.epochs):
            shown.setdefault(tint(epoch), []).append(epoch)
        return [(f"switch {kind}", f"a switch in epoch {listed(epochs, 5)}") for kind, epochs in shown.items()]

    def tell_end(self):
        """How the run ended, and what happened in it."""
        end, tick, events = self.files.report.end
        self.tell_verdict(end)
        self.reasons += self.faults[:3]
        self.reasons += [f"{len(self.faults) - 3} more faults and repairs are in the steps."] * (len(self.faults) > 3)
        self.reasons.append(self.who_sends((packet, ends) for packet, ends in self.packets.items()))
        sent = f"{plural(self.sent, 'packet')} sent, {self.delivered} delivered, {self.dropped} dropped"
        lost = f"{plural(sum(self.lost.values()), 'frame')} lost"
        self.reasons.append(f"{sent}; {lost}. The end is at tick {tick}, after {plural(events, 'event')}.")
        self.reasons = [reason for reason in self.reasons if reason]

    def tell_verdict(self, end):
        """What an end says of the network: whether it is settled, and in how many parts."""
        parts = [listed(part, 6) + " alone" * (len(part) == 1) for part in self.parts()]
        apart = f"{len(parts)} parts that no cable joins: {listed(parts, 4)}"
        settled = "Nothing is left to do, and every port shows what is at its link."
        if end != "settled":
            why = {
                "unsettled": "the last tick came while the network was not settled",
                "full": "the journal had no room for more events",
                "spent": f"no epoch is left for {listed(sorted(self.spent))}",
            }[end]
            self.verdict = "bad", f"✕ Not settled: {why}."
        elif len(parts) > 1:
            self.verdict = "good", f"✓ Settled, in {apart}."
            self.reasons.append(settled)
        else:
            self.verdict = "good", f"✓ Settled: {settled[0].lower()}{settled[1:]}"

    def parts(self):
        """The switches in the end, in parts that links join of which the cable is up."""
        left, found = list(self.network.switches), []
        up = [link for link in self.network.links if not self.down.intersection(link)]
        while left:
            part = [left[0]]
            for switch in part:
                part += [t for (s, _), (t, _) in up + [link[::-1] for link in up] if s == switch and t not in part]
            found.append([switch for switch in left if switch in part])
            left = [switch for switch in left if switch not in part]
        return found

    # What is put

    def put_switch(self, switch):
        """The box of a switch."""
        epoch, table = self.epoch[switch], self.table[switch]
        kind = f"switch {tint(epoch)}".rstrip()
        kind += ("" if table else " no-table") + (" spent" if switch in self.spent else "")
        second = f"epoch {epoch}" if epoch is not None else "in no epoch yet"
        third = f"table {table[0]} · no. {table[1]}" if table else "no table"
        third = "no epoch left" if switch in self.spent else third
        self.scene.put(f"switch-{switch}", "class", kind)
        self.scene.put(f"switch-{switch}-2", "text", second)
        self.scene.put(f"switch-{switch}-3", "text", third)
        self.scene.put(f"switch-{switch}", "title", f"switch {switch}: {second}, {third}")
        self.scene.put(f"rows-{switch}", "text", "\n".join(table[2]) if table else "No table is in use.")
        self.scene.put(f"names-{switch}", "text", self.names.get(table[3], "") if table else "")

    def port_state(self, switch, p):
        """The state of a port in words."""
        state, far = self.port[switch, p]
        return STATES[state][1] + (f", at port {far[1]} of {far[0]}" if far else "")

    def put_port(self, end):
        """The sign of a port."""
        switch, p = end
        self.scene.put(f"port-{switch}-{p}-sign", "text", f"{p} {STATES[self.port[end][0]][0]}")
        self.scene.put(f"port-{switch}-{p}", "class", "port")
        self.scene.put(f"port-{switch}-{p}", "title", f"port {p} of {switch}: {self.port_state(switch, p)}")
        host = self.network.host_at.get(end)
        if host:
            down = ", its cable has failed" if end in self.down else ""
            self.scene.put(f"host-{host}", "class", "host")
            self.scene.put(f"host-{host}", "title", f"host {host} at port {p} of {switch}{down}")

    def put_link(self, k):
        """A link."""
        (s, p), (t, q) = self.network.links[k]
        kind = self.link_kind(k)
        words = {"good": "good at both ends", "asked": "not good at both ends", "down": "failed"}[kind]
        self.scene.put(f"link-{k}", "class", f"wire {kind}")
        self.scene.put(f"link-{k}", "title", f"link from port {p} of {s} to port {q} of {t}: {words}")

    def link_kind(self, k):
        """How a link is drawn."""
        ends = self.network.links[k]
        if self.down.intersection(ends):
            return "down"
        fine = ("s.switch.good", "s.switch.loop")
        return "good" if all(self.port[end][0] in fine for end in ends) else "asked"

    def put_counts(self):
        """How many packets and frames there were."""
        words = f"{plural(self.sent, 'packet')} sent, {self.delivered} delivered, {self.dropped} dropped"
        where = listed(f"{many} from port {p} of {s}" for (s, p), many in sorted(self.lost.items()))
        lost = plural(sum(self.lost.values()), "frame") + " lost" + (f" ({where})" if where else "")
        self.scene.put("count", "text", f"{words}; {lost}")
        epochs = {}
        for switch, epoch in self.epoch.items():
            epochs.setdefault(epoch, []).append(switch)
        told = [f"epoch {epoch}: {listed(epochs[epoch], 6)}" for epoch in sorted(e for e in epochs if e is not None)]
        none = [f"in no epoch yet: {listed(epochs[None], 6)}"] if None in epochs else []
        self.scene.put("epochs", "text", "; ".join(told + none))

    def put_packets(self, switch):
        """Which packets are at a switch."""
        packets = sorted(packet for packet, at in self.here.items() if at == switch)
        self.scene.put(f"tag-{switch}", "text", f"✉ {listed(packets, 4)}" if packets else "")

    # What the lines say: each gives its words

    def at_port(self, line, _form, life, p, *what):
        """A port changed its state: a good one has the other end in place of a state."""
        end = self.end(line, life, p)
        self.port[end] = (what[0], None) if len(what) == 1 else ("s.switch.good", (named(what[0]), what[1]))
        self.states.add(self.port[end][0])
        self.put_port(end)
        if end in self.network.link_at:
            self.put_link(self.network.link_at[end])
        return f"port {p} of {named(life)} is {self.port_state(*end)}"

    def end(self, line, life, p):
        """An end that has a link or a host."""
        if (life[0], p) not in self.port:
            raise line.fault("no link")
        return life[0], p

    def at_noframe(self, line, _form, life, p):
        """Bytes came that are no frame."""
        self.end(line, life, p)
        self.scene.flash(f"port-{life[0]}-{p}", "class", "port red")
        return f"what comes to port {p} of {named(life)} is no frame"

    def at_join(self, _line, _form, life, epoch):
        """A switch joined an epoch, and uses no table."""
        switch = life[0]
        self.epoch[switch], self.table[switch] = epoch, None
        self.epochs.add(epoch)
        self.span(switch)
        self.put_switch(switch)
        self.put_counts()
        return f"{named(life)} joins epoch {epoch}; its table goes out of use"

    def at_spent(self, _line, _form, life):
        """No epoch is left."""
        self.spent.add(life[0])
        self.put_switch(life[0])
        return f"no epoch is left for {named(life)}"

    def at_finish(self, _line, _form, life, epoch, root, members):
        """A switch finished an epoch."""
        self.finished[life] = epoch, root
        return f"{named(life)} has finished epoch {epoch}: {plural(members, 'switch')} under the root {named(root)}"

    def at_load(self, _line, _form, life, epoch, number):
        """A table came into use."""
        switch = life[0]
        self.table[switch] = epoch, number, self.rows_now, self.finished.get(life)
        self.span(switch)
        self.put_switch(switch)
        return f"{named(life)} loads the table of epoch {epoch}, in which it is number {number}"

    def at_lost(self, line, form, life, p, *room):
        """A frame was lost."""
        end = self.end(line, life, p)
        self.lost[end] = self.lost.get(end, 0) + 1
        self.put_counts()
        k = self.network.link_at.get(end)
        if k is not None:
            self.scene.flash(f"link-{k}", "class", f"wire lost {self.network.way(end)}")
        why = {"down": "the link is down", "told": "the script says so"}.get(form.split()[3])
        why = why or "it needs {} blocks, and {} are free".format(*room)
        return f"a frame from port {p} of {named(life)} is lost: {why}"

    def at_fail(self, line, _form, life, p, dropped):
        """A cable failed."""
        self.cable(self.end(line, life, p), True)
        cable = self.cable_name(life, p)
        self.faults.append(f"The {cable} fails at event {self.place}.")
        return f"the {cable} fails; {plural(dropped, 'frame')} on it dropped"

    def cable_name(self, life, p):
        """A cable by both of its ends."""
        far = self.network.far(life[0], p)
        other = f"port {far[1]} of {far[0]}" if far else f"host {self.network.host_at[life[0], p]}"
        return f"cable from port {p} of {named(life)} to {other}"

    def at_repair(self, line, _form, life, p):
        """A cable is up again."""
        self.cable(self.end(line, life, p), False)
        cable = f"The {self.cable_name(life, p)}"
        it = "It" if len(self.faults) == 1 and self.faults[0].startswith(f"{cable} fails") else cable
        self.faults.append(f"{it} is repaired at event {self.place}.")
        return f"the {self.cable_name(life, p)} is repaired"

    def cable(self, end, is_down):
        """The cable at an end goes down or up, at its other end too."""
        ends = {end, self.network.far(*end)} - {None}
        (self.down.update if is_down else self.down.difference_update)(ends)
        if end in self.network.link_at:
            self.put_link(self.network.link_at[end])
        else:
            self.put_port(end)

    def at_restart(self, _line, _form, life):
        """A switch is off and on again."""
        switch = life[0]
        self.epoch[switch], self.table[switch] = None, None
        self.spent.discard(switch)
        for end in self.port:
            if end[0] == switch:
                self.port[end] = "s.dead", None
                self.put_port(end)
                if end in self.network.link_at:
                    self.put_link(self.network.link_at[end])
        self.span(switch)
        self.put_switch(switch)
        self.put_counts()
        self.faults.append(f"{switch} is switched off and on at event {self.place}.")
        return f"{switch} is switched off and on: it is {named(life)} now"

    def at_packet(self, line, form, packet, sender, target, address):
        """A host sends a packet."""
        self.sent += 1
        self.packets[packet] = sender, target
        dropped = "drop" in form
        self.dropped += dropped
        self.scene.flash(f"host-{sender}", "class", "host got")
        if not dropped:
            self.here[packet] = self.network.hosts[sender][0]
            self.put_packets(self.here[packet])
        self.put_counts()
        words = f"{sender} sends packet {packet} to {target}"
        return f"{words}; it is dropped at once: {address}" if dropped else f"{words} by the address {address}"

    def at_move(self, _line, form, packet, life, *more):
        """A packet makes one hop."""
        switch = life[0]
        self.here.pop(packet, None)
        if "drop" in form:
            self.dropped += 1
            words = f"packet {packet} is dropped at {named(life)}: {more[0]}"
        else:
            words = self.hop(packet, switch, *more)
        self.put_packets(switch)
        self.put_counts()
        return words

    def hop(self, packet, switch, epoch, came, gone, host=None):
        """A packet goes out by a port, or to its host."""
        if host:
            self.delivered += 1
            self.scene.flash(f"host-{host}", "class", "host got")
            return f"packet {packet} comes to {switch} by port {came}, and is delivered to {host} by port {gone}"
        k, far = self.network.link_at.get((switch, gone)), self.network.far(switch, gone)
        to = f" to {far[0]}" if far else ""
        if far:
            self.here[packet] = far[0]
            self.put_packets(far[0])
            self.scene.flash(f"link-{k}", "class", f"wire hop {self.network.way((switch, gone))}")
        words = f"packet {packet}, in by port {came}, goes from {switch} by port {gone}{to}"
        return f"{words}, by the table of epoch {epoch}"

    # The strip of epochs

    def mark(self, form, kind, values):
        """What is marked on the strip: failures, repairs, restarts, losses, and packets that are sent, delivered or
        dropped; of each its kind and words."""
        if kind in ("fail", "repair"):
            end = values[0][0], values[1]
            far = self.network.far(*end)
            other = far[0] if far else self.network.host_at[end]
            return "fault", f"cable {end[0]}–{other} {'fails' if kind == 'fail' else 'repaired'}"
        if kind == "restart":
            return "fault", f"{values[0][0]} off and on"
        if kind == "lost":
            return "lost", f"frame of {values[0][0]} lost"
        if kind in ("packet", "move"):
            done = "dropped" if "drop" in form else "sent" if kind == "packet" else "delivered"
            return None if done == "delivered" and "deliver" not in form else ("packet", f"packet {values[0]} {done}")
        return None

    def span(self, switch):
        """From this place on the switch is in its epoch with its table."""
        table = self.table[switch]
        self.spans[switch].append([self.place, None, self.epoch[switch], table and table[0]])

    def end_spans(self):
        """Each span ends where the next one begins, and the last at the end of the run."""
        self.last = self.files.report.end[2]
        for spans in self.spans.values():
            for one, following in zip(spans, spans[1:] + [[self.last]]):
                one[1] = following[0]


def named(life):
    """A switch in one of its lives."""
    switch, boot = life
    return switch if boot == 1 else f"{switch}.{boot}"
