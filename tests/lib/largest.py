"""Networks at the edges of the program's limits, which scripts of this folder share."""


def switches(steps, count=126):
    """Switches in a ring, each linked to those so many places on; and the next port that is free at each."""
    lines = [f"switch S{at} {at + 1:012x}" for at in range(count)]
    for step in range(1, steps + 1):
        lines += [f"link S{at} {2 * step - 1} S{(at + step) % count} {2 * step}" for at in range(count)]
    return lines


def hosts():
    """A ring of 126 switches with 252 links and 1,000 hosts."""
    return switches(2) + [f"host H{at} {0x10000000000 + at:012x} S{at % 126} {5 + at // 126}" for at in range(1000)]


def text(lines, head=()):
    """The text of a network."""
    return "\n".join(["autonet 1", *head, *lines, "end", ""]).encode()


def commands():
    """10,000 packets between hosts."""
    return [f"at {at // 100} send H{at % 1000} H{at * 7 % 1000}" for at in range(10000)]


def path():
    """A path of 126 switches with a host at each end, and 10,000 packets from one to the other."""
    lines = [f"switch S{at} {at + 1:012x}" for at in range(126)]
    lines += [f"link S{at} 1 S{at + 1} 2" for at in range(125)]
    lines += ["host H 010000000001 S0 12", "host G 010000000002 S125 12"]
    return lines + ["at 0 send H G"] * 10000


def faults():
    """10,000 commands that are no packets."""
    kinds = ("lose S{} 1 1", "again S{} 1 1", "swap S{} 1 1", "noise S{} 1 64", "fail S{} 1", "repair S{} 1")
    return [f"at {at // 25} {kinds[at % 6].format(at // 6 % 126)}" for at in range(10000)]
