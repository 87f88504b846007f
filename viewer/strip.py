"""The strip of time over switches: who is in which epoch, from event to event, and what happened in between."""

from .picture import box, tag, text, title

LEFT, WIDE, ROW = 96, 1000, 17
MOST_LABELS = 4
TICKS = 8
TINTS = 5


def tint(epoch):
    """The class of what has the colour of an epoch; empty for none."""
    return f"epoch-{(epoch - 1) % TINTS + 1}" if epoch else ""


class Strip:
    """Draws spans of epochs over the places of events up to the last, with marks at some of them."""

    def __init__(self, spans, last, marks=()):
        """Of each switch its spans; the place of the last event; of each mark its place, kind and words."""
        self.spans, self.last, self.marks = spans, max(last, 1), marks
        self.labels = self.placed_labels()
        self.top = ROW * (1 + max(self.labels.values(), default=-1)) + 2

    def x(self, place):
        """Where an event stands."""
        return LEFT + WIDE * place / self.last

    def placed_labels(self):
        """In which row the label of each mark stands; one for which no row has room is left out."""
        ends, found = [0.0] * MOST_LABELS, {}
        for k, (place, _, words) in enumerate(self.marks):
            left, wide = self.label_left(place, words)
            row = next((row for row, end in enumerate(ends) if end < left), None)
            if row is not None:
                ends[row] = left + wide + 6
                found[k] = row
        return found

    def label_left(self, place, words):
        """Where the label of a mark begins, and its width."""
        wide = 5.9 * len(f"{place} {words}") + 6
        return min(self.x(place), LEFT + WIDE + 8 - wide), wide

    def svg(self):
        """The strip: marks, a row for each switch, numbers of events, and a line where the slider is."""
        rows, high = [], self.top + ROW * len(self.spans) + 2
        for k, (switch, spans) in enumerate(self.spans.items()):
            y = self.top + ROW * k + ROW / 2
            rows.append(text(LEFT - 6, y + 4, switch, **{"class": "row-name"}))
            rows += [self.span(switch, y, *span) for span in spans]
        rows += [self.line(k, place, kind, high) for k, (place, kind, _) in enumerate(self.marks)]
        rows += [self.mark(k, *mark) for k, mark in enumerate(self.marks)]
        rows += [text(self.x(place), high + 12, str(place), **{"class": "event"}) for place in self.ticks()]
        rows.append(text(LEFT - 6, high + 12, "event", **{"class": "row-name"}))
        cursor = tag("line", {"id": "cursor", "x1": LEFT, "x2": LEFT, "y1": 0, "y2": high})
        return tag("svg", {"id": "strip", "viewBox": f"0 0 {LEFT + WIDE + 14} {high + 16}", "role": "group",
                           "aria-label": "epochs of switches over events", "class": "strip"}, *rows, cursor)

    def ticks(self):
        """The events of which the numbers stand below, at round distances, and the last one."""
        round_ones = (digit * 10**power for power in range(20) for digit in (1, 2, 5))
        by = next(by for by in round_ones if by * TICKS >= self.last)
        return [place for place in range(0, self.last, by) if self.last - place > by / 3] + [self.last]

    def line(self, k, place, kind, high):
        """The line of a mark, from its label down."""
        x, top = f"{self.x(place):.1f}", ROW * self.labels[k] + 4 if k in self.labels else self.top
        return tag("line", {"class": f"at {kind}", "x1": x, "x2": x, "y1": top, "y2": high})

    def mark(self, k, place, kind, words):
        """A mark in words: in its row the number of the event and what happened; without room, a short line."""
        label, row = f"{place} {words}", self.labels.get(k)
        if row is None:
            shape = box(self.x(place), self.top + 2, 3, 6)
        else:
            left, wide = self.label_left(place, words)
            shape = text(left + wide / 2, ROW * row + 13, label)
        about = {"class": f"mark {kind}", "data-place": place, "role": "img", "aria-label": f"event {label}"}
        return tag("g", about, title(f"event {label}"), shape)

    def span(self, switch, y, begin, end, epoch, table):
        """A switch in one epoch, with its table or without."""
        kind = tint(epoch) if table else f"{tint(epoch)} no-table"
        used = f"table of epoch {table}" if table else "no table"
        words = f"{switch}: {f'epoch {epoch}' if epoch else 'no epoch'}, {used}, events {begin} to {end}"
        wide = max(self.x(end) - self.x(begin), 0.5)
        label = f"{epoch}{'' if table else ' –'}" if epoch else ""
        inner = text(self.x(begin) + wide / 2, y + 4, label) if label and wide > 7.5 * len(label) + 4 else ""
        return tag("g", {"class": kind}, title(words), box(self.x(begin) + wide / 2, y, wide, ROW - 3), inner)


def strip_words(spans, marks):
    """What the strip shows, for its heading."""
    told = [span for of in spans.values() for span in of]
    words = ["– : no table in use"] if any(not span[3] for span in told) else []
    words += ["grey: in no epoch"] if any(span[2] is None for span in told) else []
    words += ["thin lines: what else happened"] if marks else []
    return "; ".join(words + ["red line: now", "click to go there"])
