"""What the scripts of this folder that measure autonet share: the proved program and, if rustc is there, the
yardstick (yardsticks/build, an unverified Rust program with the same answers), each on the same input in turn.

The proved program is out/autonet, or the one that the variable AUTONET names. If it is not there, the yardstick
is measured alone, and its columns have `-`."""

import os
import subprocess
import sys
import tempfile
import time

ROOT = os.path.dirname(os.path.dirname(os.path.abspath(__file__)))
PROVED = os.environ.get("AUTONET", os.path.join(ROOT, "out", "autonet"))
YARDSTICK = os.path.join(ROOT, "out", "yardstick")
HEAD = " milliseconds  processor   peak KiB   yardstick's processor   peak KiB  times as long"


def help_if_asked(text):
    """Prints the head of a script, and ends, if its only word is -h or --help."""
    if sys.argv[1:] in (["-h"], ["--help"]):
        print(text)
        sys.exit()


class Programs:
    """The programs that are there, brought up to date."""

    def __init__(self):
        is_built = "AUTONET" in os.environ or subprocess.run(
            [os.path.join(ROOT, "autonet"), "run"], stdin=subprocess.DEVNULL,
            capture_output=True).returncode not in (126, 127)
        has_yardstick = subprocess.run([os.path.join(ROOT, "yardsticks", "build")]).returncode == 0
        self.proved = PROVED if is_built and os.access(PROVED, os.X_OK) else None
        self.yardstick = YARDSTICK if has_yardstick else None
        if self.proved is None and self.yardstick is None:
            raise SystemExit("neither out/autonet nor out/yardstick is there")

    def answer(self, words, text):
        """What is written to out for the words and the input; both programs must write the same."""
        answers = [subprocess.run([program] + words, input=text, stdout=subprocess.PIPE,
                                  stderr=subprocess.DEVNULL).stdout
                   for program in (self.proved, self.yardstick) if program is not None]
        if answers[0] != answers[-1]:
            raise SystemExit(f"the yardstick's answer to {' '.join(words)} differs from that of the proved program")
        return answers[0]

    def columns(self, words, text, runs):
        """The columns of HEAD: of so many runs the least time on the clock and the least time of processor, user and
        system together, in milliseconds, and the peak memory as GNU time tells it; the programs run in turn."""
        self.answer(words, text)
        with tempfile.NamedTemporaryFile() as file:
            file.write(text)
            file.flush()
            took = [(taken(self.proved, words, file.name), taken(self.yardstick, words, file.name))
                    for _ in range(runs)]
            clock, proved = least(run[0] for run in took)
            _, yardstick = least(run[1] for run in took)
            peaks = [peak_of(program, words, file.name) for program in (self.proved, self.yardstick)]
        times = None if None in (proved, yardstick) else proved / yardstick
        return "%13s  %9s  %9s  %22s  %9s  %13s" % (
            shown(clock), shown(proved), shown(peaks[0]), shown(yardstick), shown(peaks[1]), shown(times))


def taken(program, words, path):
    """The seconds that a run took on the clock and of processor, or None without the program."""
    if program is None:
        return None
    with open(path, "rb") as stdin:
        begun = time.perf_counter()
        run = subprocess.Popen([program] + words, stdin=stdin, stdout=subprocess.DEVNULL, stderr=subprocess.DEVNULL)
        _, status, used = os.wait4(run.pid, 0)
        run.returncode = status >> 8
        return time.perf_counter() - begun, used.ru_utime + used.ru_stime


def least(runs):
    """The least of both times in milliseconds."""
    runs = list(runs)
    return (None, None) if None in runs else (min(run[0] for run in runs) * 1000, min(run[1] for run in runs) * 1000)


def peak_of(program, words, path):
    """The peak memory of a run in KiB, or None without the program."""
    if program is None:
        return None
    with open(path, "rb") as stdin:
        run = subprocess.run(["/usr/bin/time", "-f", "%M", program] + words, stdin=stdin,
                             stdout=subprocess.DEVNULL, stderr=subprocess.PIPE)
    return int(run.stderr.split()[-1])


def shown(value):
    """A value as a column has it."""
    return "-" if value is None else "%.2f" % value if isinstance(value, float) else str(value)
