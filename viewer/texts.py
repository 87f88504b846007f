"""Texts as lines of words, the forms of lines, and what is said of a text that cannot be read."""

MOST_BYTES = 268_435_456
MOST_DIGITS = 20  # of 2^64, which no number passes


class Fault(Exception):
    """What is wrong: the name of a file, the number of its line from 1 (0: no line of it), and the cause."""

    def __init__(self, name, line, cause):
        super().__init__(f"{name} line {line}: {cause}" if line else f"{name}: {cause}")


class Cause(Exception):
    """What is wrong with a word or a line of words; whoever knows the line makes a Fault of it."""


class Line:
    """A line with words: the name of its file, its number from 1, its text, its words up to a comment, and all."""

    def __init__(self, name, number, text):
        self.name, self.number, self.text = name, number, text
        self.all = text.split()
        self.words = text.partition("#")[0].split()

    def fault(self, cause):
        """The fault of this line by this cause."""
        return Fault(self.name, self.number, cause)


def read_file(name):
    """The lines of a file, or of standard input where its name is `-`; those without any word are left out."""
    shown = "standard input" if name == "-" else name
    try:
        with open(0 if name == "-" else name, "rb") as file:
            data = file.read(MOST_BYTES + 1)
    except OSError as error:
        raise Fault(shown, 0, error.strerror) from error
    if len(data) > MOST_BYTES:
        raise Fault(shown, 0, "too many bytes")
    lines = data.decode("utf-8", "replace").split("\n")
    return [Line(shown, number, text) for number, text in enumerate(lines, 1) if text.strip()]


def number(low, high):
    """Reads a number in a range, in decimal digits without a leading zero."""

    def read(word):
        digits = len(word) <= MOST_DIGITS and word.isascii() and word.isdigit()
        if not digits or word != str(int(word)) or not low <= int(word) <= high:
            raise Cause("bad number")
        return int(word)

    return read


def port(word, least=1):
    """Reads a port of a switch, 1 to 12, or from another least one."""
    found = number(0, 2**64 - 1)(word)
    if not least <= found <= 12:
        raise Cause("port range")
    return found


def one_of(*words):
    """Reads one of some words."""

    def read(word):
        if word not in words:
            raise Cause("unknown word")
        return word

    return read


class Forms:
    """The forms that a line may have. A form is words: those in capitals are fields, the others stand as they are.
    The last field may end in `..`: it takes all words that are left, and gives a list."""

    def __init__(self, kinds, *forms):
        """The kinds give, for the name of a field, what reads its word."""
        self.kinds = kinds
        self.forms = [form.split() for form in forms]

    def read(self, line, words):
        """The form of these words of the line, by its number, and the values of its fields. Of several, as if a switch
        has a fixed word as its name, it is the first whose fields can be read."""
        first = None
        for which, form in enumerate(self.forms):
            if has_form(form, words):
                try:
                    return which, self.values(line, form, words)
                except Fault as fault:
                    first = first or fault
        raise first or line.fault("unknown word")

    def values(self, line, form, words):
        """The values of the fields, from left to right."""
        try:
            return [value for part, word in paired(form, words) for value in self.value(part, word)]
        except Cause as cause:
            raise line.fault(str(cause)) from cause

    def value(self, part, word):
        """The value of a field, and none of a fixed word."""
        if not part.isupper():
            return []
        if part.endswith(".."):
            return [[self.kinds[part[:-2]](one) for one in word]]
        return [self.kinds[part](word)]


def has_form(form, words):
    """Whether the words have so many, and the fixed ones of the form in their places."""
    open_ended = form[-1].endswith("..")
    fixed = form[:-1] if open_ended else form
    enough = len(words) >= len(fixed) if open_ended else len(words) == len(fixed)
    return enough and all(part.isupper() or part == word for part, word in zip(fixed, words))


def paired(form, words):
    """Each part of the form with its word, the last one with all that are left where it ends in `..`."""
    if form[-1].endswith(".."):
        last = len(form) - 1
        return list(zip(form[:-1], words)) + [(form[-1], words[last:])]
    return list(zip(form, words))
