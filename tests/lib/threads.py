"""What tests/autonet/by-hand/threads-delayed and tests/autonet/by-hand/settling share: the program, a count of what
passed, small random networks with commands, and the two parts of what `run` prints."""

import os
import subprocess
import tempfile

import program

ENDS = (0, 1, 6, 10)  # the statuses of a run


class Program:
    """The program, which answers in threads on some processors."""

    def __init__(self, words):
        self.words = words

    def answer(self, words, given, processors=None):
        """Status, output and line on err."""
        on = None if processors is None else lambda: os.sched_setaffinity(0, processors)
        run = subprocess.run(self.words + words, input=given, capture_output=True, preexec_fn=on, timeout=600)
        return run.returncode, run.stdout, run.stderr

    def runs(self, networks, processors):
        """The answers of `run` to each network."""
        return [self.answer(["run"], network, processors) for network in networks]


class Count(program.Tally):
    """How many tries passed, and how many failed."""

    def add(self, holds, what, network):
        """Counts one, and keeps the network if it failed."""
        if not holds:
            with tempfile.NamedTemporaryFile(prefix="run_threads-", suffix=".net", delete=False) as kept:
                kept.write(network)
            what = f"{what}; the network is in {kept.name}"
        self.count(holds, what)


def journal_of(output):
    """The journal at the beginning of an output, and the report after it."""
    at = output.find(b"\nend\n") + len(b"\nend\n")
    return output[:at], output[at:]


def parts(drawn, count, least):
    """The lines of so many switches, of at least so many links, and of hosts; the ends of the links; and the ports of
    the hosts."""
    uids = drawn.sample(range(1, 100), count + 3)
    lines = [f"switch S{s} {uids[s]:012x}" for s in range(count)]
    free = [drawn.sample(range(1, 13), 12) for _ in range(count)]
    wired, hosts = [], []
    for _ in range(drawn.randint(least, count + 2)):
        one, other = [(s, free[s].pop()) for s in (drawn.randrange(count), drawn.randrange(count))]
        lines.append("link S%d %d S%d %d" % (one + other))
        wired += [one, other]
    for host in range(drawn.randint(0, 3)):
        hosts.append((s := drawn.randrange(count), port := free[s].pop()))
        lines.append(f"host H{host} {uids[count + host]:012x} S{s} {port}")
    return lines, wired, hosts


def commands(drawn, count, wired, hosts):
    """Timed lines, of those kinds that the network has ends for."""
    kinds = ["restart"] + ["fail", "repair"] * bool(wired + hosts) + ["send"] * 3 * bool(hosts)
    kinds += ["lose", "again", "swap", "noise"] * bool(wired)
    time, lines = 0, []
    for _ in range(drawn.randint(0, 10)):
        time += drawn.choice([0, 0, 1, 1, 2, 3, 5, 8])
        kind = drawn.choice(kinds)
        if kind == "restart":
            rest = f"S{drawn.randrange(count)}"
        elif kind == "send":
            rest = f"H{drawn.randrange(len(hosts))} H{drawn.randrange(len(hosts))}"
        elif kind in ("fail", "repair"):
            rest = "S%d %d" % drawn.choice(wired + hosts)
        else:
            rest = "S%d %d" % drawn.choice(wired) + f" {drawn.randint(1, 4)}"
        lines.append(f"at {time} {kind} {rest}")
    return lines


def text(lines):
    """The text of a network with these lines."""
    return "\n".join(lines + ["end", ""]).encode()
