"""The page: one HTML file with its picture, its steps as data, and what moves them."""

import json
import re
from html import escape
from pathlib import Path
from string import Template
from textwrap import wrap

from .picture import MARKS, STYLE, Picture, tag, text, title
from .signs import explained, legend
from .strip import LEFT, WIDE, Strip, strip_words

HERE = Path(__file__).parent
DENSE = 150
GAP = 40
CAPTION = 44
LEAST = 900, 520
CHOSEN_TELLS = "rows", "names", "more"


def picture_of(story, many=0):
    """The picture of a story after so many steps."""
    return Picture(story.plan, story.scene.at(many), story.channels, story.port_width)


def page(story):
    """The whole page."""
    dense = "dense" if len(story.network.links) > DENSE else ""
    about = {"id": "picture", "role": "group", "class": dense, "aria-label": story.words()}
    svg, _, _ = picture_of(story).svg(LEAST, **about)
    return Template((HERE / "page.html").read_text()).substitute(
        title=escape(heading(story)),
        verdict_kind=story.verdict[0],
        verdict=escape(story.verdict[1]),
        reasons=escape(story.words().replace(story.verdict[1], "", 1).strip()),
        style=STYLE + (HERE / "page.css").read_text(),
        marks=f'<svg width="0" height="0" aria-hidden="true">{MARKS}</svg>',
        picture=svg,
        counts_hidden="" if counts(story) else "hidden",
        player="" if story.scene.steps else "hidden",
        last=len(story.scene.steps),
        strip=Strip(story.strip, story.last, story.marks).svg() if story.strip else "",
        strip_words=escape(strip_words(story.strip, story.marks)) if story.strip else "",
        strip_hidden="" if story.strip else "hidden",
        legend=legend(story, bool(dense)),
        notes="".join(f"<li>{escape(note)}</li>" for note in story.notes + explained(story)),
        tells="its ports and rows" if has_rows(story) else "its ports",
        names="".join(f'<option value="{escape(story.plan.label(name))}">' for name in story.plan.at),
        counts="".join(f'<p id="{slot}">{escape(value)}</p>' for slot, value in counts(story)),
        data=data(story),
        script=(HERE / "page.js").read_text(),
    )


def heading(story):
    """What is shown, and of which files: one that has no name of its own goes by that of its folder."""
    names = [Path(name) for name in story.files.names]
    own = [name.parent.name if name.name in ("-", "stdin", "stdout") else name.name for name in names]
    named = " and ".join(dict.fromkeys(name for name in own if name))
    return f"{story.what}: {named}" if named else story.what


def has_rows(story):
    """Whether rows of some switch are told."""
    return any(element.startswith("rows-") for element, _ in story.scene.first)


def counts(story):
    """The lines of counts below the slider, with what they say at first."""
    first = story.scene.first
    return [(slot, first[slot, "text"]) for slot in ("epochs", "count") if (slot, "text") in first]


def data(story):
    """What the page's script reads: slots with their first values, steps, and what joins what. A value is the place
    of its text in the list of texts. No name can end it before its end, since `<` is not in it."""
    slots, texts = {slot: k for k, slot in enumerate(all_slots(story.scene))}, {}

    def place(value):
        return texts.setdefault(value, len(texts))

    steps = []
    for step in story.scene.steps:
        changes = [[slots[slot], place(old), place(new)] for slot, old, new in step["changes"]]
        steps.append([step["says"], step["kind"], step["place"], tick(story, step), changes])
    found = {
        "slots": [[element, what, place(story.scene.first.get((element, what), ""))] for element, what in slots],
        "texts": list(texts),
        "steps": steps,
        "links": [[list(one), list(other)] for one, other in story.network.links],
        "switches": {story.plan.label(name): name for name in story.plan.at},
        "hosts": [[story.plan.label(host), *end] for host, end in story.plan.hosts.items()],
        "marked": story.marked,
        "undrawn": [story.plan.label(name) for name in story.network.switches if name not in story.plan.at],
        "strip": [LEFT, WIDE, story.last] if story.strip else None,
    }
    return json.dumps(found, separators=(",", ":")).replace("<", "\\u003c")


def all_slots(scene):
    """The slots that the page's script needs: those that change, and what is told of a switch that is chosen."""
    changed = [slot for step in scene.steps for slot, _, _ in step["changes"]]
    return dict.fromkeys([slot for slot in scene.first if slot[0].split("-")[0] in CHOSEN_TELLS] + changed)


def tick(story, step):
    """The tick of the event of a step, where a journal tells it."""
    ticks = story.files.journal.ticks if story.strip and story.files.journal else []
    return ticks[step["place"] - 1] if 0 < step["place"] <= len(ticks) else None


def pictures(story, places):
    """An SVG file of the story after each of these numbers of steps, one picture beside the other."""
    top = CAPTION * (len(places) > 1)
    drawn, left, low = [], 0.0, 0.0
    for many in places:
        svg, wide, high = picture_of(story, many).svg()
        drawn.append(placed(svg, left, top, wide, high))
        if top:
            drawn += caption(story, many, left, wide)
        left, low = left + wide + GAP, max(low, top + high)
    about = {"xmlns": "http://www.w3.org/2000/svg", "viewBox": f"0 0 {left - GAP:.0f} {low:.0f}",
             "width": f"{left - GAP:.0f}", "role": "img"}
    return tag("svg", about, title(story.words()), f"<style>{STYLE}</style>", MARKS, *drawn) + "\n"


def placed(svg, x, y, wide, high):
    """A picture at its place in another one, in which it gives no element its name."""
    place = f'<svg x="{x:.0f}" y="{y:.0f}" width="{wide:.0f}" height="{high:.0f}" '
    return re.sub(r' id="[^"]*"', "", svg.replace("<svg ", place, 1))


def caption(story, many, x, wide):
    """The words over one of several pictures, in two lines at most."""
    step = story.scene.steps[many - 1] if many else {"place": 0, "says": "before the first event"}
    lines = wrap(f"Event {step['place']}: {step['says']}" if many else step["says"], int(wide / 7.4))
    return [text(x + 26, 18 + 18 * k, line, **{"class": "caption"}) for k, line in enumerate(lines[:2])]
