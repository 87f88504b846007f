"""The yardstick of yardsticks/fabric, for tests/fabric/by-hand/corpora, bench/judge and bench/lanes: where it is built,
and what its answers and those of `fabric judge` say."""

import pathlib
import subprocess

TOP = pathlib.Path(__file__).resolve().parents[2]
YARDSTICK = TOP / "out" / "fabric-yardstick"
ANSWERED = (0, 7, 8)


def build():
    """Builds the yardstick if it is older than its sources."""
    subprocess.run([TOP / "yardsticks" / "build"], check=True)


def facts_of(text, status):
    """What an answer says, by the first word of its lines; of each channel the GUID, port, LID and source. It says
    nothing if the status is not one of an answer."""
    facts, channels = {}, []
    for line in text.splitlines() if status in ANSWERED else []:
        words = line.replace("[", " ").replace("]", " ").split()
        if words and words[0] == "channel":
            channels.append((words[1], words[2], words[4], words[6]))
        elif words and words[0] == "read":
            facts["unowned"] = words[-1]
        elif words and words[0] in ("routes", "channels", "lost"):
            facts[words[0]] = tuple(words)
        elif words and words[0] == "cycle":
            facts["cycle"] = words[1]
    facts["witnesses"] = tuple(channels)
    return facts


def differences(own, other):
    """Which facts differ, or that there are none."""
    wrong = sorted(key for key in {*own, *other} if own.get(key) != other.get(key))
    return wrong or ["no answer"] * ("routes" not in own)
