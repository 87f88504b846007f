#!/usr/bin/env python3
"""Whether ranks fall along each dependency of a fabric's tables: `tests/lib/ranks.py TOPOLOGY TABLES RANKS
[hosts|lids|all]`. By hand, or by tests/fabric/ranks-by-verify.

It shares nothing with `fabric`, not its language, its code or its way: for each LID it goes along the tables from the
switches at which its routes begin, and compares the ranks of each two channels that follow each other. It takes files
for good, and tells no fault of them. A channel of which the ranks say nothing has rank 0."""
import re
import sys


def end(kind, guid, port):
    return ("switch", guid) if kind in ("S", "SW") else ("host", guid, port)


def facts(text):
    """The links, each as two times an end and its port; and of each LID with its LMC the owner."""
    here = None
    for line in text.splitlines():
        word = line.split()
        if two := re.findall(r"{ (SW|CA|Rt?|RT)\S* .*?NodeGUID:(\w+) PortGUID:\w+.*? LID:(\w{4}) PN:(\w+) }", line):
            (k, g, l, p), (m, h, n, q) = [(k, int(g, 16), int(n, 16), int(p, 16)) for k, g, n, p in two]
            yield "link", end(k, g, p), p, end(m, h, q), q
            yield from [("own", l, 0, end(k, g, p)), ("own", n, 0, end(m, h, q))]
        elif m := re.match(r'(Switch|Ca|Rt)\t\d+ "(.)-(\w+)".*?(?: lid (\d+) lmc (\d+))?$', line):
            here = m[2], int(m[3], 16)
            if m[4]:
                yield "own", int(m[4]), int(m[5]), end(*here, 0)
        elif m := re.match(r'\[(\d+)\]\S*\s+"(.)-(\w+)"\[(\d+)\](?:.*?# lid (\d+) lmc (\d+))?', line):
            port, far = int(m[1]), int(m[4])
            yield "link", end(*here, port), port, end(m[2], int(m[3], 16), far), far
            if m[5]:
                yield "own", int(m[5]), int(m[6]), end(*here, port)
        elif word[:1] == ["switch"]:
            yield "own", int(word[3]), int(word[4]), end("S", int(word[1], 16), 0)
        elif word[:1] == ["host"]:
            yield "own", int(word[2]), int(word[3]), end("H", int(word[1], 16), 0)
            yield "link", end("H", int(word[1], 16), 0), 1, end("S", int(word[4], 16), 0), int(word[5])
        elif word[:1] == ["link"]:
            yield "link", end("S", int(word[1], 16), 0), int(word[2]), end("S", int(word[3], 16), 0), int(word[4])


def main(topology, tables, ranks, traffic="hosts"):
    far, start, owner, table, rank, steps = {}, {}, {}, {}, {}, 0
    for kind, *fact in facts(open(topology, errors="replace").read()):
        if kind == "own":
            owner.update({fact[0] + k: fact[2] for k in range(1 << fact[1]) if fact[0]})
        for one, port, other, entry in [fact, fact[2:] + fact[:2]] if kind == "link" else []:
            far[one, port] = other
            if one[0] == "host" and other[0] == "switch":
                start[one] = other
    for line in open(tables, errors="replace"):
        if m := re.match(r"(?:Unicast lids .* guid|\w+: Switch|switch) 0x(\w+)", line):
            row = table.setdefault(("switch", int(m[1], 16)), {})
        elif m := re.match(r"(?:0x(\w{4})|(\d+)) (?:: )?(\d+)\b", line):
            row[int(m[1], 16) if m[1] else int(m[2])] = int(m[3])
    for line in open(ranks):
        if m := re.match(r"rank 0x(\w+) (\d+) (\d+)", line):
            rank[("switch", int(m[1], 16)), int(m[2])] = int(m[3])
    sources = {**start, **({switch: switch for switch in table} if traffic == "all" else {})}
    for lid, target in sorted(owner.items()):
        if not (target in start or target[0] == "switch" and traffic != "hosts"):
            continue
        todo = list({at for source, at in sources.items() if source != target})
        seen = set(todo)
        for at in todo:
            one = at, table[at].get(lid, 255)
            then = far.get(one, ("none",))
            if one[1] == 0 or then[0] != "switch":
                continue
            other = then, table[then].get(lid, 255)
            if other[1] and far.get(other, ("none",))[0] == "switch":
                steps += 1
                if rank.get(one, 0) <= rank.get(other, 0):
                    sys.exit(f"ranks rise: lid {lid} from {one[0][1]:#018x} {one[1]} to {other[0][1]:#018x} {other[1]}")
            if then not in seen:
                seen.add(then)
                todo.append(then)
    print("ranks fall along", steps, "steps")


print(__doc__) if sys.argv[1:] in (["-h"], ["--help"]) else main(*sys.argv[1:])
