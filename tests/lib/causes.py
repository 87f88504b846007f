"""What tests/autonet/causes and tests/fabric/causes share: the rows of a page of causes that have a wrong and a right
line, and how a program answers these."""

import pathlib
import re
import subprocess
import tempfile

import program

DOTS = "..."
ROW = re.compile(r"\| ?`[^`]*` ?\| ?`[^`]*` ?\| ?`[^`]*` ?\|")


def sections_of(page):
    """The sections of a page that have lines to try: the lines of its file, and its rows, cause, wrong and right."""
    for text in page.read_text().split("\n## ")[1:]:
        heading = text.splitlines()[0].replace("`", "")
        files = [block.splitlines()[1:] for block in text.split("```")[1::2]]
        rows = [line.split("`")[1:6:2] for line in text.splitlines() if ROW.match(line)]
        if rows:
            yield heading, (next((lines for lines in files if DOTS in lines), []), rows)


def with_line(lines, line):
    """A file with a line in the place of the dots."""
    return "".join(f"{line if it == DOTS else it}\n" for it in lines)


def number_of(lines, heading, cause):
    """The number of the line that is told: that of the dots, of a journal counted from its first line; and of words
    after an end the next one."""
    first = lines.index("journal 1") if heading == "Lines of a journal" else 0
    return lines.index(DOTS) + 1 - first + (cause == "after end")


def try_row(tally, words, file, heading, lines, row):
    """Tries a row: put in the place of the dots the wrong line gives its cause alone, and the right one none."""
    cause, wrong, right = row
    status = 7 if "journal" in file else 3
    told = f"{file} line {number_of(lines, heading, cause)}: {cause}\n"
    for line, is_wrong in (wrong, True), (right, False):
        run = subprocess.run(words, input=with_line(lines, line), capture_output=True, text=True, timeout=60)
        got = run.returncode, run.stdout, run.stderr
        holds = got == (status, "", told) if is_wrong else got[0] in (0, 7, 8) and " line " not in got[2]
        tally.count(holds, f"{heading}, line '{line}': {got[0]} {got[2]}")


def try_page(page, path, calls, beside):
    """Tries each row of a page. For each section there are the words of a call, and the file that its causes name; some
    words are files that stand beside what is tried, each the one of a section."""
    tally, sections = program.Tally(), dict(sections_of(page))
    with tempfile.TemporaryDirectory() as place:
        files = {name: pathlib.Path(place) / name for name in beside}
        for name, heading in beside.items():
            files[name].write_text(with_line(sections[heading][0], "# "))
        for heading, (lines, rows) in sections.items():
            words, file = calls[heading]
            for row in rows:
                try_row(tally, [path, *(files.get(word, word) for word in words)], file, heading, lines, row)
    tally.end()
