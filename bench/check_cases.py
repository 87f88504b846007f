"""Inputs on which a check of tables may be slow, for bench/check: long paths with six links between neighbours,
long least cycles, wide ties, gaps at the first and at the last switch, and many components.

`python3 bench/check_cases.py NAME` prints one, and without a name the names."""

import sys

SWITCHES = 126


def path(order=None):
    """The script of 126 switches in a path, ports 7 to 12 of each joined to ports 1 to 6 of the next, and
    their numbers: those of the places in the path, or the given ones."""
    lines = ["autonet 1"]
    lines += [f"switch S{s} {s + 1:012x}" for s in range(SWITCHES)]
    for s in range(SWITCHES - 1):
        lines += [f"link S{s} {7 + i} S{s + 1} {1 + i}" for i in range(6)]
    lines.append("end")
    numbers = list(range(1, SWITCHES + 1)) if order is None else order
    lines += [f"number S{s} {numbers[s]}" for s in range(SWITCHES)]
    return lines


def text(lines, rows):
    """The script and its numbers, and rows as (switch, entry, words), in the order of the switches."""
    rows = [f"row S{s} {entry} {words}" for s, entry, words in sorted(rows)]
    return "\n".join(lines + rows + ["end", ""])


WIDE = "/".join(str(port) for port in range(7, 13))


def cycle_at_the_end():
    """Packets go up the path by all six links, and only after the last switch two channels lead round."""
    rows = [(s, entry, f"126:{WIDE}") for s in range(SWITCHES - 1) for entry in range(7)]
    rows += [(SWITCHES - 2, 7, "126:7"), (SWITCHES - 1, 1, "126:1")]
    return text(path(), rows)


def gap_at_the_end():
    """The same with a gap after the last switch but one, of which the numbers are 1, 126 and 2."""
    numbers = list(range(3, SWITCHES)) + [1, 126, 2]
    rows = [(s, entry, f"2:{WIDE}") for s in range(SWITCHES - 1) for entry in (0, 1)]
    rows = [row for row in rows if row[:2] != (SWITCHES - 2, 1)]
    return text(path(numbers), rows)


def round_trip():
    """Packets go up the path by one link, and back by it: the least cycle has all 250 channels."""
    rows = [(s, 1, "126:7") for s in range(1, SWITCHES - 1)]
    rows += [(SWITCHES - 1, 1, "1:1")] + [(s, 7, "1:1") for s in range(1, SWITCHES - 1)] + [(0, 7, "126:7")]
    return text(path(), rows)


def wide_round_trip():
    """The same by all six links, so that each channel of the cycle is one of six that are as near."""
    back = "/".join(str(port) for port in range(1, 7))
    rows = [(s, entry, f"126:{WIDE}") for s in range(SWITCHES - 1) for entry in range(1, 7) if s > 0]
    rows += [(s, entry, f"1:{back}") for s in range(1, SWITCHES - 1) for entry in range(7, 13)]
    rows += [(SWITCHES - 1, entry, f"1:{back}") for entry in range(1, 7)]
    rows += [(0, entry, f"126:{WIDE}") for entry in range(7, 13)]
    return text(path(), rows)


def every_target_gets_stuck():
    """Rows towards each number from entry 0 and up the path, none of which comes to a target below."""
    rows = []
    for s in range(SWITCHES - 1):
        for entry in range(7):
            rows.append((s, entry, " ".join(f"{to}:{WIDE}" for to in range(1, SWITCHES + 1) if to != s + 1)))
    return text(path(), rows)


def many_components():
    """63 components of two switches each, with a row at each of 13 entries towards each number, most without exits."""
    lines = ["autonet 1"] + [f"switch S{s} {s + 1:012x}" for s in range(SWITCHES)]
    lines += [f"link S{s} 1 S{s + 1} 1" for s in range(0, SWITCHES, 2)] + ["end"]
    lines += [f"number S{s} {s + 1}" for s in range(SWITCHES)]
    rows = []
    for s in range(SWITCHES):
        for entry in range(13):
            joined = (s ^ 1) + 1 if entry == 0 else 0
            rows.append((s, entry, " ".join(f"{to}:{1 if to == joined else '-'}" for to in range(1, SWITCHES + 1))))
    return text(lines, rows)


def single_switches():
    """126 components of one switch each, with a row at each of 13 entries towards each number, all without exits."""
    lines = ["autonet 1"] + [f"switch S{s} {s + 1:012x}" for s in range(SWITCHES)] + ["end"]
    lines += [f"number S{s} {s + 1}" for s in range(SWITCHES)]
    words = " ".join(f"{to}:-" for to in range(1, SWITCHES + 1))
    return text(lines, [(s, entry, words) for s in range(SWITCHES) for entry in range(13)])


CASES = {case.__name__: case for case in (cycle_at_the_end, gap_at_the_end, round_trip, wide_round_trip,
                                          every_target_gets_stuck, many_components,
                                          single_switches)}


def main():
    if len(sys.argv) == 1:
        print("\n".join(CASES))
    else:
        sys.stdout.write(CASES[sys.argv[1]]())


if __name__ == "__main__":
    main()
