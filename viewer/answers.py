"""What `check`, `flow`, `flood`, `run` and `replay` print."""

from .network import fields
from .texts import Forms, number, one_of

VERDICTS = (
    "ok",
    "rank SWITCH PORT N",
    "refused cycle CHANNEL CHANNEL..",
    "refused pair SWITCH to SWITCH at SWITCH entry ENTRY",
    "refused exit SWITCH entry ENTRY to ADDRESS by PORT",
)
FLOWS = (
    "local N SWITCH",
    "unjoined N",
    "move N SWITCH out PORT",
    "arrive N SWITCH",
    "end moves N arrived N local N unjoined N",
)
FLOODS = ("flood SWITCH", "up SWITCH PORT", "down SWITCH PORT", "copies N", "end")
EVENTS = (
    "tick",
    "clock SWITCH",
    "take SWITCH PORT",
    "handle SWITCH",
    "load SWITCH",
    "fail SWITCH PORT",
    "repair SWITCH PORT",
    "lose SWITCH PORT N",
    "again SWITCH PORT N",
    "swap SWITCH PORT N",
    "noise SWITCH PORT N",
    "send HOST HOST",
    "move N",
    "restart SWITCH",
)
REPORTS = (
    "LIFE port PORT STATE",
    "LIFE port PORT s.switch.good LIFE PORT",
    "LIFE noframe PORT",
    "LIFE join N",
    "LIFE spent",
    "LIFE finish N root LIFE members N",
    "LIFE load N number ADDRESS",
    "lost LIFE PORT down",
    "lost LIFE PORT told",
    "lost LIFE PORT room need N free N",
    "fail LIFE PORT dropped N",
    "repair LIFE PORT",
    "restart LIFE",
    "packet N HOST to HOST address N",
    "packet N HOST to HOST drop WHY",
    "move N LIFE epoch N from ENTRY out ENTRY",
    "move N LIFE epoch N from ENTRY out ENTRY deliver HOST",
    "move N LIFE drop WHY",
)


ENDS = (
    "end settled tick N events N",
    "end unsettled tick N events N",
    "end full tick N events N",
    "end spent LIFE tick N events N",
)
STATES = one_of("s.dead", "s.checking", "s.host", "s.switch.who", "s.switch.loop")
WHYS = one_of("no-port", "no-table", "no-host", "wrong-host", "no-exit", "link-down")


class Told:
    """Lines that were told, each as its form, the values of its fields, and its own line."""

    def __init__(self, network, *forms, **kinds):
        """With further kinds of fields, or others of these names."""
        self.names = forms
        self.told = []
        self.forms = Forms({**fields(network), "STATE": STATES, "WHY": WHYS, **kinds}, *forms)

    def take(self, line, words=None):
        """Takes a line, of which the words are all unless they are given, and gives its form."""
        which, values = self.forms.read(line, words or line.words)
        self.told.append((self.names[which], values, line))
        return self.names[which]


class Journal:
    """The events of a run. `ticks` has the tick of each, from the first."""

    def __init__(self, network):
        self.events = Told(network, *EVENTS, PORT=number(1, 12))  # (there is no `port range` in a journal)
        self.ticks = []
        self.tick = 0

    def take(self, line):
        """Takes an event."""
        self.tick += self.events.take(line) == "tick"
        self.ticks.append(self.tick)


class Report:
    """The lines of a report, each with the place of its event; the rows of tables, by the number of the line of their
    load; how the run ended, at which tick and after how many events."""

    def __init__(self, network):
        self.lines = Told(network, *REPORTS)
        self.placed = Forms({**fields(network), "WORD": str}, "N WORD..")
        self.row_forms = Forms(fields(network), "row LIFE ENTRY PAIR..")
        self.end_forms = Forms(fields(network), *ENDS)
        self.places = []
        self.rows = {}
        self.end = None

    def take(self, line):
        """Takes a line after the first."""
        words = line.words
        if words[0] == "row":
            self.row_forms.read(line, words)
            self.rows.setdefault(len(self.places) - 1, []).append(" ".join(words[2:]))
        elif words[0] == "end":
            _, (*_, tick, events) = self.end_forms.read(line, words)
            self.end = words[1], tick, events
        elif words[0].isdigit():
            _, (place, told) = self.placed.read(line, words)
            self.places.append(place)
            self.lines.take(line, told)
        else:
            raise line.fault("unknown word")
