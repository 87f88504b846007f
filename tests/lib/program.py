"""What the programs of tests/ in Python share: the program, a library that is loaded before it and makes
calls of the C library fail, and one run of it with all that it wrote.

The program is out/autonet, or the one that the variable AUTONET names; with AUTONET none is built. Where it is
built by `rt try` it has checks of its own, and a run takes longer. That of `fabric` is out/fabric, or FABRIC."""

import collections
import functools
import os
import pathlib
import resource
import select
import shutil
import signal
import subprocess
import sys
import tempfile
import time

TOP = pathlib.Path(__file__).resolve().parents[2]
CASES = TOP / "tests" / "cases" / "autonet"

# The most seconds by the clock that a run may take.
CLOCK = 900


def help_if_asked(text):
    """Prints the head of a script, and ends, if its only word is -h or --help."""
    if sys.argv[1:] in (["-h"], ["--help"]):
        print(text)
        sys.exit()


# Of the calls of the C library by which memory is taken, bytes are read from standard input and bytes are written,
# the one whose number is given fails: a growth, or with FAIL_GROWTHS_FROM each from that one on; a read or a write
# with the error number FAILURE, and a write with FAILURE 0 takes nothing. SHORT has each move one byte at most. At
# the end COUNTS is the file that gets how many there were of each, and of how many bytes the growths were. Only calls
# of the program FAULTY count, and only those after it was loaded. STACK is how much of its stack it has from the
# beginning: if a limit on memory lets a stack not grow, the system ends a program by a signal, which none can
# answer.
FAULTS = r"""
#define _GNU_SOURCE
#include <alloca.h>
#include <dlfcn.h>
#include <errno.h>
#include <fcntl.h>
#include <stdio.h>
#include <stdlib.h>
#include <string.h>
#include <sys/types.h>
#include <unistd.h>
#include <sys/syscall.h>

static unsigned long wanted(const char *name) {
    const char *text = getenv(name);
    return text ? strtoul(text, 0, 10) : 0;
}

static unsigned long growths, reads, writes, bytes;
static int begun;
static unsigned long growth, reading, writing, is_short, growth_all;
static int failure;

__attribute__((noinline)) static void grow_stack(unsigned long size) {
    volatile char *part = alloca(size + 1);
    for (unsigned long at = 0; at < size; at += 1024) part[size - at] = 0;
}

__attribute__((constructor)) static void begin(void) {
    char path[4096], *program = getenv("FAULTY");
    ssize_t length = readlink("/proc/self/exe", path, sizeof path - 1);
    if (length < 0 || !program || strlen(program) != (size_t)length || memcmp(path, program, length)) return;
    growth = wanted("FAIL_GROWTH");
    growth_all = wanted("FAIL_GROWTHS_FROM");
    reading = wanted("FAIL_READ");
    writing = wanted("FAIL_WRITE");
    is_short = wanted("SHORT");
    failure = (int)wanted("FAILURE");
    grow_stack(wanted("STACK"));
    begun = 1;
}

__attribute__((destructor)) static void end(void) {
    char *path = getenv("COUNTS"), line[100];
    int fd = begun && path ? open(path, O_WRONLY | O_CREAT | O_TRUNC, 0600) : -1;
    if (fd >= 0) {
        int n = snprintf(line, sizeof line, "%lu %lu %lu %lu", growths, reads, writes, bytes);
        syscall(SYS_write, fd, line, n);
        close(fd);
    }
}

/* A program that ends by this call runs no destructor. */
void _exit(int status) {
    end();
    for (;;) syscall(SYS_exit_group, status);
}

static int refused(size_t n) {
    if (begun) __atomic_add_fetch(&bytes, n, __ATOMIC_SEQ_CST);
    unsigned long at = begun ? __atomic_add_fetch(&growths, 1, __ATOMIC_SEQ_CST) : 0;
    if (at && (at == growth || (growth_all && at >= growth_all))) {
        errno = ENOMEM;
        return 1;
    }
    return 0;
}

extern void *__libc_malloc(size_t), *__libc_calloc(size_t, size_t), *__libc_realloc(void *, size_t);
void *malloc(size_t n) { return refused(n) ? 0 : __libc_malloc(n); }
void *calloc(size_t n, size_t m) { return refused(n * m) ? 0 : __libc_calloc(n, m); }
void *realloc(void *p, size_t n) { return refused(n) ? 0 : __libc_realloc(p, n); }

ssize_t read(int fd, void *buf, size_t n) {
    if (begun && fd == 0 && __atomic_add_fetch(&reads, 1, __ATOMIC_SEQ_CST) == reading) {
        errno = failure;
        return -1;
    }
    return syscall(SYS_read, fd, buf, begun && is_short && n > 1 ? 1 : n);
}

ssize_t write(int fd, const void *buf, size_t n) {
    if (begun && __atomic_add_fetch(&writes, 1, __ATOMIC_SEQ_CST) == writing) {
        if (failure == 0) return 0;
        errno = failure;
        return -1;
    }
    return syscall(SYS_write, fd, buf, begun && is_short && n > 1 ? 1 : n);
}
ssize_t __write(int fd, const void *buf, size_t n) { return write(fd, buf, n); }
ssize_t __read(int fd, void *buf, size_t n) { return read(fd, buf, n); }
"""


class Run:
    """What a run came to: its status, or less than 0 for a signal; out; and err."""

    def __init__(self, status, out, err):
        self.status, self.out, self.err = status, out, err

    def __repr__(self):
        return f"status {self.status}, {len(self.out)} bytes on out, err {self.err[:200]!r}"

    def __eq__(self, other):
        return (self.status, self.out, self.err) == (other.status, other.out, other.err)


class Tally:
    """Counts what passed, and says what failed."""

    def __init__(self):
        self.passed = self.failed = 0

    def count(self, holds, what):
        """Counts what is named as passed if it holds, and else as failed."""
        if holds:
            self.passed += 1
        else:
            self.failed += 1
            print(f"failed: {what}", flush=True)

    def end(self):
        """The last line, and the status, which is no good one if nothing was tried."""
        print(f"{self.passed} passed, {self.failed} failed")
        raise SystemExit(1 if self.failed or not self.passed else 0)


def built(name, *words):
    """The program of a wrapper, which builds it for these words, unless a variable names another one."""
    path, status = os.environ.get(name.upper()), 0
    if path is None:
        path = str(TOP / "out" / name)
        status = subprocess.run([TOP / name, *words], stdin=subprocess.DEVNULL, capture_output=True).returncode
    if status in (126, 127) or not os.access(path, os.X_OK):
        raise SystemExit(f"{path} is not built")
    return path


def is_newest(path):
    """Whether a program is there, and no source is newer."""
    sources = [TOP / "crates.txt", *TOP.glob("crates/*/src/**/*"), *TOP.glob("crates/*/specs/**/*")]
    return path.exists() and all(it.stat().st_mtime <= path.stat().st_mtime for it in sources)


@functools.cache
def autonet():
    """The program `autonet` of all commands, or the one that AUTONET names."""
    return built("autonet", "run")


@functools.cache
def fabric():
    """The program `fabric` of all commands, or the one that FABRIC names."""
    return built("fabric", "route", "-")


def faults(folder):
    """The library of FAULTS, compiled in this folder."""
    source, library = f"{folder}/faults.c", f"{folder}/faults.so"
    pathlib.Path(source).write_text(FAULTS)
    subprocess.run(["cc", "-O1", "-shared", "-fPIC", "-o", library, source], check=True)
    return library


def faulty(library, **faults_of):
    """The variables by which the program has these faults."""
    return {"LD_PRELOAD": library, "FAULTY": os.path.realpath(autonet()),
            **{name: str(value) for name, value in faults_of.items()}}


def used(pid):
    """The seconds of processor that a process has used."""
    with open(f"/proc/{pid}/stat", encoding="utf-8") as file:
        words = file.read().rsplit(")", 1)[1].split()
    return (int(words[11]) + int(words[12])) / os.sysconf("SC_CLK_TCK")


def ended(pid, seconds):
    """The status in which a process ends; or None, if it had to be killed."""
    begun, wait, end = time.monotonic(), min(seconds, CLOCK), os.pidfd_open(pid)
    try:
        while not select.select([end], [], [], wait)[0]:
            if used(pid) >= seconds or time.monotonic() - begun >= CLOCK:
                os.kill(pid, signal.SIGKILL)
                os.waitpid(pid, 0)
                return None
            wait = 1
        return os.waitpid(pid, 0)[1]
    finally:
        os.close(end)


class Process:
    """Runs a program again and again, over files in memory that are used each time."""

    def __init__(self, path):
        self.path = path
        self.files = [os.memfd_create(name) for name in ("in", "out", "err")]
        self.actions = [(os.POSIX_SPAWN_DUP2, file, number) for number, file in enumerate(self.files)]

    def run(self, words, text, env=None, seconds=CLOCK):
        """A run on these bytes, with these variables alone. One that has no end in so many seconds of processor, or
        in CLOCK by the clock, is killed."""
        for file in self.files:
            os.ftruncate(file, 0)
            os.lseek(file, 0, os.SEEK_SET)
        os.pwrite(self.files[0], text, 0)
        pid = os.posix_spawn(self.path, [self.path, *words], env or {}, file_actions=self.actions)
        status = ended(pid, seconds)
        if status is None:
            return Run(-1000, b"", b"no end within %d seconds" % seconds)
        out, err = (os.pread(file, os.fstat(file).st_size, 0) for file in self.files[1:])
        return Run(os.waitstatus_to_exitcode(status), out, err)


resource.setrlimit(resource.RLIMIT_CORE, (0, 0))
PROCESSES = {}


def run(words, text, library=None, memory=None, **faults_of):
    """A run of the program on these bytes, with the library of FAULTS if it is given, or in so much memory."""
    path = autonet()
    if memory:
        path, words = shutil.which("prlimit"), [f"--as={memory}", path, *words]
    if path not in PROCESSES:
        PROCESSES[path] = Process(path)
    return PROCESSES[path].run(words, text, faulty(library, **faults_of) if library else {})


Counts = collections.namedtuple("Counts", "growths reads writes bytes", defaults=(0, 0, 0, 0))


def counted(words, text, library, **faults_of):
    """A run, and how many growths, reads and writes it made, and of how many bytes the growths were."""
    with tempfile.NamedTemporaryFile() as counts:
        ran = run(words, text, library, COUNTS=counts.name, **faults_of)
        return ran, Counts(*map(int, counts.read().split()))


def calls(words, text, library):
    """What a run makes of these calls."""
    return counted(words, text, library)[1]


def is_answer(words, text, ran, whole):
    """Whether a run gave the whole answer: that of another run, or for `run`, whose events may come in another order
    each time, one with its status whose journal replays to its report and line on err."""
    if words != ["run"] or whole.status not in (0, 1, 6, 10):
        return ran == whole
    at = ran.out.find(b"report 1\n")
    return ran.status == whole.status and at >= 0 and (
        run(["replay"], text + ran.out) == Run(ran.status, ran.out[at:], ran.err))


def case_input(name):
    """The input of a case."""
    return (CASES / name / "stdin").read_bytes()
