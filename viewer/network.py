"""The script of autonet: its switches, links and hosts, and the packets that it sends."""

import functools

from .texts import Cause, Forms, number, one_of, port

MOST_SWITCHES = 126


class Network:
    """A network: switches with their identifiers, links as pairs of ends, hosts with their ends. An end is the name
    of a switch and a port. `link_at` has the place of the link at an end, `host_at` the host there, `sends` the two
    hosts of each packet."""

    def __init__(self):
        self.switches = {}
        self.links = []
        self.hosts = {}
        self.sends = []
        self.link_at = {}
        self.host_at = {}
        self.names = {}
        self.uids = set()

    def far(self, switch, port):
        """The other end of the link at this end, or None."""
        if (switch, port) not in self.link_at:
            return None
        one, other = self.links[self.link_at[switch, port]]
        return other if one == (switch, port) else one

    def way(self, end):
        """Whether who leaves by this end goes over its link ahead, as it is told, or back."""
        return "ahead" if self.links[self.link_at[end]][0] == end else "back"

    def neighbours(self):
        """Of each switch its links to others, as its own port, the far switch and the far port, by rising port."""
        found = {switch: [] for switch in self.switches}
        for (s, p), (t, q) in self.links:
            if s != t:
                found[s].append((p, t, q))
                found[t].append((q, s, p))
        return {switch: sorted(links) for switch, links in found.items()}

    def is_free(self, end):
        """Whether neither a link nor a host is at this end."""
        return end not in self.link_at and end not in self.host_at


def name(word):
    """Reads a name: 1 to 16 letters, digits and `_`, the first a letter."""
    letters = word.replace("_", "a")
    if not (len(word) <= 16 and word.isascii() and letters.isalnum() and word[0].isalpha()):
        raise Cause("bad name")
    return word


def uid(word):
    """Reads an identifier of twelve hexadecimal digits."""
    if len(word) != 12 or not all(c in "0123456789abcdefABCDEF" for c in word):
        raise Cause("bad number")
    return int(word, 16)


def names_of(kind, of):
    """Reads a name that is known, of a switch or of a host."""

    def read(word):
        if of.names.get(name(word)) != kind:
            raise Cause("no such name")
        return word

    return read


def fields(network):
    """How the fields of lines are read, over the names of a network."""
    return {
        "NEW": lambda word: new_name(network, word),
        "UID": lambda word: new_uid(network, word),
        "SWITCH": names_of("switch", network),
        "LIFE": lambda word: life(network, word),
        "HOST": names_of("host", network),
        "CHANNEL": lambda word: channel(network, word),
        "PORT": port,
        "ENTRY": lambda word: port(word, least=0),
        "ADDRESS": number(1, MOST_SWITCHES),
        "N": number(0, 2**64 - 1),
        "PAIR": pair,
    }


def new_name(network, word):
    """Reads a name that is not taken."""
    if name(word) in network.names:
        raise Cause("name twice")
    return word


def new_uid(network, word):
    """Reads an identifier that is not taken."""
    found = uid(word)
    if found in network.uids:
        raise Cause("uid twice")
    return found


def life(network, word):
    """Reads a switch in one of its lives: its name, from the second life on with a point and the boot after it."""
    of, point, boot = word.partition(".")
    return names_of("switch", network)(of), number(2, 2**64)(boot) if point else 1


def channel(network, word):
    """Reads a channel: a switch, a colon and a port with a link."""
    of, _, after = word.partition(":")
    end = names_of("switch", network)(of), port(after)
    if end not in network.link_at:
        raise Cause("no link")
    return end


@functools.cache
def pair(word):
    """Reads a number with its exits, as `4:1/2`, or `4:-` without any, and gives it as it stands."""
    of, _, exits = word.partition(":")
    number(1, MOST_SWITCHES)(of)
    for one in [] if exits == "-" else exits.split("/"):
        number(1, 12)(one)
    return word


class NetworkReader:
    """Takes the lines of a script, one after the other."""

    def __init__(self):
        self.network = Network()
        verbs = one_of("lose", "again", "swap", "noise")
        kinds = {**fields(self.network), "VERB": verbs, "CABLE": one_of("fail", "repair")}
        self.takers = {
            "switch NEW UID": self.switch,
            "switch NEW UID had ADDRESS": self.switch,
            "link SWITCH PORT SWITCH PORT": self.link,
            "host NEW UID SWITCH PORT": self.host,
            "epoch N": None,
            "at N send HOST HOST": self.send,
            "at N CABLE SWITCH PORT": None,
            "at N restart SWITCH": None,
            "at N VERB SWITCH PORT N": None,
            "limit ticks N": None,
            "limit events N": None,
            "limit blocks N": None,
            "pace N": None,
            "routes any": None,
        }
        self.forms = Forms(kinds, *self.takers)

    def take(self, line):
        """Takes a line between the first and `end`."""
        if len(line.text.rstrip("\r")) > 200:
            raise line.fault("line too long")
        if not line.text.isascii():
            raise line.fault("not ascii")
        which, values = self.forms.read(line, line.words)
        taker = list(self.takers.values())[which]
        if taker:
            taker(line, *values)

    def switch(self, line, new, identifier, _had=1):
        """Takes a switch."""
        if len(self.network.switches) == MOST_SWITCHES:
            raise line.fault("too many")
        self.network.switches[new] = identifier
        self.network.names[new] = "switch"
        self.network.uids.add(identifier)

    def link(self, line, s, p, t, q):
        """Takes a link of two ports that are free."""
        if (s, p) == (t, q) or not (self.network.is_free((s, p)) and self.network.is_free((t, q))):
            raise line.fault("port used")
        self.network.link_at[s, p] = self.network.link_at[t, q] = len(self.network.links)
        self.network.links.append(((s, p), (t, q)))

    def host(self, line, new, identifier, s, p):
        """Takes a host on a port that is free."""
        if not self.network.is_free((s, p)):
            raise line.fault("port used")
        self.network.hosts[new] = (s, p)
        self.network.host_at[s, p] = new
        self.network.names[new] = "host"
        self.network.uids.add(identifier)

    def send(self, _line, _time, sender, target):
        """Takes the two hosts of a packet."""
        self.network.sends.append((sender, target))
