"""The topology of a fabric, as `fabric` reads it in three formats, and what `fabric judge` prints of it."""

import re

from .network import Network
from .texts import Cause, Forms, number

SECTION = re.compile(r'(Switch|Ca|Rt)\s+\d+\s+"[SHR]-([0-9a-fA-F]+)"\s*#\s*"(.*)"')
PORT_LINE = re.compile(r'\[(\d+)\]([^"]*)"([SHR])-([0-9a-fA-F]+)"\[(\d+)\](?:\(([0-9a-fA-F]+)\))?')
CHASSIS = "Chassis", "Non-Chassis"  # the first words of lines by which `ibnetdiscover -g` groups nodes
DUMPED = re.compile(
    r"\{ (SW|CA|Rt)\S* Ports:\w+ SystemGUID:\w+ NodeGUID:([0-9a-fA-F]+) PortGUID:([0-9a-fA-F]+) "
    r"VenID:\w+ DevID:\w+ Rev:\w+ \{(.*?)\} LID:\w+ PN:(\w+) \}"
)


def is_topology(line):
    """Whether a text that begins with this line is the topology of a fabric."""
    first = line.all[0]
    return line.all == ["topology", "1"] or first in ("{", "Switch", "Ca", "Rt", *CHASSIS) or "=" in first


def guid_name(guid):
    """A switch or an end port by its GUID, as `fabric` prints it."""
    return f"0x{guid:016x}"


def shown(name):
    """A name as it is shown: what cannot be printed, and may be no XML, is a question mark."""
    return "".join(letter if letter.isprintable() else "?" for letter in name.strip())


class Fabric(Network):
    """A fabric: a network whose switches are named by their GUIDs, with the text of each name, if there is one."""

    def __init__(self):
        super().__init__()
        self.shown = {}

    def add(self, guid, text):
        """A switch is there."""
        self.switches[guid_name(guid)] = guid
        self.names[guid_name(guid)] = "switch"
        if text:
            self.shown[guid_name(guid)] = shown(text)

    def join(self, line, a, p, b, q):
        """A link, which may be told from both ends."""
        one, other = (guid_name(a), p), (guid_name(b), q)
        if self.far(*one) == other:
            return
        if one == other or not (self.is_free(one) and self.is_free(other)):
            raise line.fault("port used")
        self.link_at[one] = self.link_at[other] = len(self.links)
        self.links.append((one, other))

    def attach(self, line, guid, text, a, p):
        """An end port at a port of a switch, which may be told from both ends."""
        end = guid_name(a), p
        if text:
            self.shown[guid_name(guid)] = shown(text)
        if self.host_at.get(end) == guid_name(guid):
            return
        if not self.is_free(end):
            raise line.fault("port used")
        self.hosts[guid_name(guid)] = end
        self.host_at[end] = guid_name(guid)
        self.names[guid_name(guid)] = "host"

    def complete(self, line):
        """Refuses a link or end port at a switch that was not told."""
        for end in [*self.link_at, *self.host_at]:
            if end[0] not in self.switches:
                raise line.fault(f"no such switch {end[0]}")

    def leave_out(self):
        """Leaves out links and end ports at switches that were not told."""
        self.links = [link for link in self.links if {end[0] for end in link} <= self.switches.keys()]
        self.link_at = {end: k for k, link in enumerate(self.links) for end in link}
        self.hosts = {host: end for host, end in self.hosts.items() if end[0] in self.switches}
        self.host_at = {end: host for host, end in self.hosts.items()}


def read_topology(lines):
    """Reads a topology in the format that its first line begins."""
    fabric = Fabric()
    first = lines[0].all[0]
    read = take_plain if first == "topology" else take_dumped if first == "{" else Discovered().take
    for line in lines[first == "topology":]:
        try:
            read(fabric, line)
        except ValueError as error:
            raise line.fault("bad number") from error
    if first == "topology":
        fabric.complete(lines[-1])
    else:
        fabric.leave_out()  # (the others may lack the section of a node)
    return fabric


def take_plain(fabric, line):
    """Takes a line of the plain format."""
    words = line.all
    kind, many = words[0], {"switch": 5, "host": 6, "link": 5, "end": 1}.get(words[0])
    if many is None or len(words) < many:
        raise line.fault("unknown word")
    if kind == "switch":
        fabric.add(int(words[1], 16), " ".join(words[5:]))
    elif kind == "host":
        fabric.attach(line, int(words[1], 16), " ".join(words[6:]), int(words[4], 16), int(words[5]))
    elif kind == "link":
        fabric.join(line, int(words[1], 16), int(words[2]), int(words[3], 16), int(words[4]))


def take_dumped(fabric, line):
    """Takes a line of `opensm-subnet.lst`: a link with both of its ends."""
    ends = [
        (kind, int(node, 16), int(port_guid, 16), text, int(port, 16))
        for kind, node, port_guid, text, port in DUMPED.findall(line.text)
    ]
    if len(ends) != 2:
        raise line.fault("unknown word")
    for kind, node, _, text, _ in ends:
        if kind == "SW":
            fabric.add(node, text)
    (a, node, guid, text, p), (b, far, far_guid, far_text, q) = ends
    if a == b == "SW":
        fabric.join(line, node, p, far, q)
    elif a == "SW":
        fabric.attach(line, far_guid, far_text, node, p)
    elif b == "SW":
        fabric.attach(line, guid, text, far, q)


class Discovered:
    """Takes the lines of `ibnetdiscover`, of which those of a node follow its own line."""

    def __init__(self):
        self.node = None

    def take(self, fabric, line):
        """Takes a line: the head of a node, one of its ports, or one that says nothing of links."""
        head, port = SECTION.match(line.text), PORT_LINE.match(line.text)
        if head:
            self.node = head[1], int(head[2], 16), head[3]
            if head[1] == "Switch":
                fabric.add(self.node[1], head[3])
        elif port and self.node:
            self.take_port(fabric, line, port)
        elif port or not (line.all[0] in CHASSIS or "=" in line.all[0]):
            raise line.fault("unknown word")

    def take_port(self, fabric, line, port):
        """Takes a port of the present node: of a switch its links, of another one to which switch it is cabled."""
        kind, node, text = self.node
        p, far, q = int(port[1]), int(port[4], 16), int(port[5])
        if kind == "Switch" and port[3] == "S":
            fabric.join(line, node, p, far, q)
        elif kind == "Switch" and port[6]:
            fabric.attach(line, int(port[6], 16), "", node, p)
        elif kind != "Switch" and port[3] == "S":
            own = re.search(r"\(([0-9a-fA-F]+)\)", port[2])
            fabric.attach(line, int(own[1], 16) if own else node, text, far, q)


def guid(word):
    """Reads a GUID, as `fabric` prints it."""
    if not re.fullmatch(r"0x[0-9a-f]{16}", word):
        raise Cause("bad number")
    return word


JUDGED = (
    "read switches N ends N links N rows N unowned N",
    "judged traffic WORD lanes WORD",
    "routes N arrived N hops N",
    "routes N arrived N hops N unowned N",
    "channels N dependencies N",
    "cycle none",
    "cycle N",
    "channel GUID N lid N from GUID",
    "lost N missing N dead N wrong N loop N",
    "missing lid N from GUID at GUID",
    "dead lid N from GUID at GUID",
    "wrong lid N from GUID at GUID",
    "loop lid N from GUID at GUID",
    "note unset N",
    "name GUID WORD..",
)


class Judgement:
    """What `fabric judge` printed, after its first line: counts, the cycle, losses, names."""

    def __init__(self, fabric):
        self.fabric = fabric
        self.facts, self.cycle, self.lost, self.names = [], [], [], {}
        self.forms = Forms({"N": number(0, 2**64 - 1), "GUID": guid, "WORD": str}, *JUDGED)

    def take(self, line):
        """Takes a line."""
        which, values = self.forms.read(line, line.all)
        kind = line.all[0]
        if kind == "channel":
            self.take_channel(line, *values)
        elif kind in ("missing", "dead", "wrong", "loop"):
            self.lost.append((kind, *values))
        elif kind == "name":
            self.names[values[0]] = shown(" ".join(values[1]))
        else:
            if kind == "read" and values[:3:2] != [len(self.fabric.switches), len(self.fabric.links)]:
                raise line.fault("another topology")
            self.facts.append((JUDGED[which], values))

    def is_whole(self):
        """Whether all is told but names: each channel of the cycle, and for each cause one of the lost routes."""
        facts = {form.split()[0]: values for form, values in self.facts}
        if not {"routes", "cycle"} <= facts.keys():
            return False
        (routes, arrived, *_), (lost, *causes) = facts["routes"], facts.get("lost", [0])
        told = len(self.cycle), lost, len(self.lost)
        return told == (sum(facts["cycle"]), routes - arrived, sum(map(bool, causes)))

    def take_channel(self, line, switch, port, lid, source):
        """Takes a channel of the cycle."""
        if (switch, port) not in self.fabric.link_at:
            raise line.fault("no link")
        self.cycle.append(((switch, port), lid, source))
