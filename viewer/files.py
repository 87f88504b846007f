"""All that the files of a call hold. Each text is told by its first line, so that they may stand in one file, as a
script with its journal and report, or in several."""

from .answers import FLOODS, FLOWS, VERDICTS, Journal, Report, Told
from .fabric import Judgement, is_topology, read_topology
from .network import NetworkReader
from .tables import TablesReader
from .texts import Fault, read_file

STARTS = {
    "component": "tables",
    "member": "tables",
    "number": "tables",
    "row": "tables",
    "rank": "verdict",
    "ok": "verdict",
    "refused": "verdict",
    "flood": "flood",
    "local": "flow",
    "unjoined": "flow",
    "move": "flow",
    "arrive": "flow",
}


class Files:
    """What was read: the network, and what else was there; None is what was not. The network comes first, since what
    was printed of it is read over its names."""

    def __init__(self, names):
        self.names = names
        self.network = self.tables = self.journal = None
        self.verdict = self.flow = self.flood = self.report = self.judgement = None
        for name in names:
            self.take_file(read_file(name))
        if self.network is None:
            raise Fault(names[0], 0, "no network")

    def take_file(self, lines):
        """Takes the texts that stand in one file. The line that the program wrote on standard error may come last."""
        said = [line for line in lines if line.words]
        if len(said) > 1 and said[-1].words[0] in ("autonet:", "fabric:"):
            said.pop()
        if said and is_topology(said[0]):
            self.put(said[0], "network", read_topology(said))
        else:
            left = iter(said)
            for line in left:
                self.take_text(line, left)

    def put(self, line, kind, found):
        """Keeps what was read; there may be one of each kind."""
        if getattr(self, kind) is not None:
            raise line.fault(f"{kind} for the second time")
        setattr(self, kind, found)

    def put_tables(self, line, tables):
        """Keeps tables; those without a tree may get the tree of others."""
        if self.tables and tables.level and not self.tables.level:
            self.tables.level, self.tables.parent = tables.level, tables.parent
        else:
            self.put(line, "tables", tables)

    def take_text(self, line, left):
        """Takes a text by its first line, with its further lines."""
        words = line.words
        if words == ["autonet", "1"]:
            self.take_network(line, left)
        elif self.network is None:
            raise line.fault("bad header")
        elif words == ["journal", "1"]:
            self.put_to_end(line, left, "journal", Journal(self.network))
        elif words == ["report", "1"]:
            self.put(line, "report", Report(self.network))
            take_while(self.report, left, line, lambda end: end.words[0] == "end")
        elif words == ["fabric", "1"]:
            self.put(line, "judgement", Judgement(self.network))
            take_rest(self.judgement, left, line)
        else:
            self.take_answer(line, left)

    def take_network(self, line, left):
        """Takes a script after its first line."""
        reader = NetworkReader()
        self.put(line, "network", reader.network)
        take_to_end(reader, left, line)

    def put_to_end(self, line, left, kind, reader):
        """Takes lines up to `end`, and keeps what they say."""
        self.put(line, kind, reader)
        take_to_end(reader, left, line)

    def take_answer(self, line, left):
        """Takes what a command printed that has no first line of its own."""
        words, lines = line.words, chained(line, left)
        kind = "tables" if words == ["end"] else "flow" if words[0] == "end" else STARTS.get(words[0])
        if kind == "tables":
            reader = TablesReader(self.network)
            take_to_end(reader, lines, line)
            self.put_tables(line, reader.tables)
        elif kind == "verdict":
            self.put(line, kind, Told(self.network, *VERDICTS))
            take_while(self.verdict, lines, line, lambda end: end.words[0] in ("ok", "refused"))
        elif kind == "flow":
            self.put(line, kind, Told(self.network, *FLOWS))
            take_while(self.flow, lines, line, lambda end: end.words[0] == "end")
        elif kind == "flood":
            self.put(line, kind, Told(self.network, *FLOODS))
            take_while(self.flood, lines, line, lambda end: end.words == ["end"])
        else:
            raise line.fault("unknown word")


def chained(line, left):
    """The line, and then those that are left."""
    yield line
    yield from left


def take_to_end(reader, left, last):
    """Hands lines on up to one that is `end`, which is not handed on. `last` is the last line that was seen."""
    for last in left:
        if last.words == ["end"]:
            return
        reader.take(last)
    raise Fault(last.name, last.number + 1, "no end")


def take_while(reader, left, last, is_end):
    """Hands lines on up to the one that ends them, which is handed on too. `last` is the last line that was seen."""
    for last in left:
        reader.take(last)
        if is_end(last):
            return
    raise Fault(last.name, last.number + 1, "no end")


def take_rest(reader, left, last):
    """Hands all lines on, which are to be a whole answer. `last` is the last line that was seen."""
    for last in left:
        reader.take(last)
    if not reader.is_whole():
        raise Fault(last.name, last.number + 1, "no end")
