"""The signs of a page: which of them it uses, how each is drawn beside its words, and words that are explained."""

import re
from html import escape

from .picture import box, tag, text

ARROWS = {"ahead", "back", "was-ahead", "was-back"}
CHOSEN = [
    ("ring", "around the switch that is chosen"),
    ("port chosen", "a port of a link of the switch that is chosen"),
    ("wire chosen", "a link of the switch that is chosen"),
]
WORDS = {
    "component": "A component is a set of switches that links join, directly or by way of others.",
    "channel": "A channel is a port of a switch with a link to a switch. Packets wait there to go out.",
    "LID": "A LID is an address in a fabric. Rows name by it where packets go.",
}


def legend(story, is_dense):
    """The lines of the legend: the signs that are used in the picture of a story, at first or after some step; in a
    dense one links of a switch that is chosen have a colour."""
    classes = used_classes(story)
    signs = [sign for sign in story.legend if is_used(sign[0], classes)]
    chosen = 0 if not story.plan.at else 1 if not story.network.links else 3 if is_dense else 2
    return "".join(line(*sign) for sign in signs + CHOSEN[:chosen])


def used_classes(story):
    """The classes that drawn elements have, each as a set of words."""
    values = {(element, value) for (element, what), value in story.scene.first.items() if what == "class"}
    for step in story.scene.steps:
        values.update((element, new) for (element, what), _, new in step["changes"] if what == "class")
    found = {frozenset(value.split()) for element, value in values if is_drawn(story, element)}
    found.update(frozenset([kind]) for kind, there in (
        ("band", story.plan.bands), ("port", story.network.links or story.plan.hosts), ("text", True)) if there)
    return found


def is_drawn(story, element):
    """Whether a switch or link is in the picture, as all else is."""
    kind, _, name = element.partition("-")
    if kind == "link":
        return all(end[0] in story.plan.at for end in story.network.links[int(name)])
    return kind != "switch" or name in story.plan.at


def is_used(kind, classes):
    """Whether some element has this sign: a plain one if it has no other class, else one with all these words."""
    words = frozenset(kind.split()) - ARROWS
    return words in classes or (len(words) > 1 and any(words <= found for found in classes))


def line(kind, words, label=""):
    """A line of the legend: how something is drawn, with a label in it, and what it is."""
    middle = text(28, 13, label) if label else ""
    first = kind.split()[0]
    shape = {
        "wire": tag("path", {"class": "line", "d": "M4 9L52 9"}),
        "ring": tag("rect", {"class": "ring", "x": 6, "y": 2, "width": 44, "height": 14, "rx": 7}),
        "port": box(28, 9, max(16, 9 * len(label)), 15, rx=4),
        "text": "",
    }.get(first, box(28, 9, 44, 13, rx=4))
    drawn = f'<g class="{kind if first != "ring" else ""}">{shape}{middle}</g>'
    sample = f'<svg viewBox="0 0 60 18" width="60" height="18" aria-hidden="true">{drawn}</svg>'
    return f"<div>{sample} {escape(words)}</div>"


def explained(story):
    """What words mean that the page says."""
    said = [story.words(), *story.notes, *(sign[1] for sign in story.legend)]
    said = " ".join(said + [step["says"] for step in story.scene.steps])
    return [meaning for word, meaning in WORDS.items() if re.search(rf"\b{word}s?\b", said)]
