#!/usr/bin/env python3
"""Writes FOLDER/topology and FOLDER/tables for `fabric judge`. FOLDER/links has a line `SWITCH PORT SWITCH PORT` or
`SWITCH PORT HOST` for each cable, and FOLDER/routes a line `SWITCH HOST PORT` for each entry of a table."""
import itertools
import sys

folder = sys.argv[1]
links = [line.split() for line in open(f"{folder}/links")]
routes = [line.split() for line in open(f"{folder}/routes")]
hosts = [link[2] for link in links if len(link) == 3]
switches = sorted({link[0] for link in links} | {link[2] for link in links if len(link) == 4})
guid = {name: hex(place) for place, name in enumerate(switches + hosts, 1)}
lid = {name: place for place, name in enumerate(hosts, 1)}

topology = [f"switch {guid[name]} 254 0 0 {name}" for name in switches]
topology += [f"host {guid[c]} {lid[c]} 0 {guid[a]} {b} {c}" for a, b, c, *far in links if not far]
topology += [f"link {guid[a]} {b} {guid[c]} {far[0]}" for a, b, c, *far in links if far]
tables = []
for switch, rows in itertools.groupby(routes, key=lambda route: route[0]):
    tables += [f"switch {guid[switch]}", *(f"{lid[host]} {port}" for _, host, port in rows)]
for kind, lines in ("topology", topology), ("tables", tables):
    print(f"{kind} 1", *lines, "end", sep="\n", file=open(f"{folder}/{kind}", "w"))
