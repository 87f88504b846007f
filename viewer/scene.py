"""What a picture shows, and how that changes from step to step."""


class Scene:
    """Slots with values. A slot is an element of the picture and what of it changes: `class`, `text` or `title`. A
    step has words, a kind, the place of its event, and the slots that change with their values before and after."""

    def __init__(self):
        self.first = {}
        self.steps = []
        self.lasting = {}
        self.passing = {}
        self.shown = {}
        self.touched = {}

    def put(self, element, what, value):
        """Gives a slot a value that stays."""
        self.lasting[element, what] = value
        self.touched[element, what] = True

    def flash(self, element, what, value):
        """Gives a slot a value for this step alone."""
        self.passing[element, what] = value
        self.touched[element, what] = True

    def begin(self):
        """What was put so far is there before the first step."""
        self.first, self.shown, self.touched = dict(self.lasting), dict(self.lasting), {}

    def step(self, says, kind, place):
        """Ends a step."""
        changes = []
        for slot in self.touched:
            new, old = self.passing.get(slot, self.lasting.get(slot, "")), self.shown.get(slot, "")
            if new != old:
                changes.append((slot, old, new))
                self.shown[slot] = new
        self.steps.append({"says": says, "kind": kind, "place": place, "changes": changes})
        self.touched, self.passing = dict.fromkeys(self.passing, True), {}

    def at(self, many):
        """The values after so many steps."""
        values = dict(self.first)
        for step in self.steps[:many]:
            values.update({slot: new for slot, _, new in step["changes"]})
        return values
