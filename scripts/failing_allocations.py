#!/usr/bin/env python3
"""Runs the built program on samples and lets each of its requests for memory fail in turn.

    python3 scripts/failing_allocations.py [--program PATH] [ROW ..]

The program is crates/test_runner/out/test_runner, or the one at PATH, and beside it, where it is there, PATH.by-rattle, which Rattle's own
compiler built. A C compiler `cc` is needed. The samples are those rows of rows/runs that are named, or without names `SAMPLES` and an example
whose answer scripts/run_rows.py reckons. A run in which no request fails has to come to the sample's answer. Then one request fails in each
run, the first, the second and so on, until a run meets no failure: each has to come to the same, or to exit 74 with a prefix of that report and
nothing on standard error. Of each sample at least one run exits 74.

Where all is so, it prints a line with the number of runs and of seconds; else each sample that differs, with the request that failed, and the
exit status is 1.
"""
import argparse
import collections
import concurrent.futures
import contextlib
import dataclasses
import functools
import itertools
import os
import pathlib
import subprocess
import sys
import tempfile
import time

sys.dont_write_bytecode = True
from run_rows import run_answer
from whole_runs import BY_RATTLE, PROGRAM, ROOT, ROWS

# The samples: rows of rows/runs, and an example.
SAMPLES = [
    "passes-at-second-attempt",
    "binary-that-no-test-is-wanted-of-is-not-listed",
    "version-too-old",
    "version-too-old-passed-over",
    "setup-script-times-out",
    "group-of-the-first-override",
    "limit-finishes-tests-between-attempts",
]
EXAMPLE = ROOT / "examples/filterset.txt"

# The exit status of a run for want of memory.
NO_MEMORY = 74

# The most seconds that a run takes, the most bytes that are shown of what it wrote, and the most runs that are shown of a sample.
LIMIT, SHOWN, SHOWN_RUNS = 60, 2_000, 5

# How many runs are begun before the first of them is looked at.
AHEAD = 16

# Stands before the C library's calls: the request of the chosen number fails. Requests are counted from the program's first on; where
# FAILING_FROM is the name of a file, from where the program opens it, and until it opens another.
FAILS = r"""
#define _GNU_SOURCE
#include <dlfcn.h>
#include <errno.h>
#include <fcntl.h>
#include <stdarg.h>
#include <stdlib.h>
#include <string.h>
#include <unistd.h>

static long left;
static int counts;
static const char *from;

__attribute__((constructor)) static void begin(void) {
    left = atol(getenv("FAILING_ALLOCATION"));
    from = getenv("FAILING_FROM");
    counts = from == NULL;
}

static int fails(void) {
    if (!counts || --left != 0) return 0;
    close(creat(getenv("FAILED"), 0600));
    errno = ENOMEM;
    return 1;
}

#define REAL(name) ((__typeof__(&name))dlsym(RTLD_NEXT, #name))

void *malloc(size_t n) { return fails() ? NULL : REAL(malloc)(n); }
void *calloc(size_t m, size_t n) { return fails() ? NULL : REAL(calloc)(m, n); }
void *realloc(void *p, size_t n) { return fails() ? NULL : REAL(realloc)(p, n); }
void *aligned_alloc(size_t a, size_t n) { return fails() ? NULL : REAL(aligned_alloc)(a, n); }
int posix_memalign(void **p, size_t a, size_t n) { return fails() ? ENOMEM : REAL(posix_memalign)(p, a, n); }

static void opened(const char *path) {
    const char *slash = strrchr(path, '/');
    if (from != NULL) counts = strcmp(slash == NULL ? path : slash + 1, from) == 0;
}

static mode_t mode_of(int flags, va_list rest) { return flags & O_CREAT ? va_arg(rest, mode_t) : 0; }

#define OPENS(name) \
    int name(const char *path, int flags, ...) { \
        va_list rest; \
        va_start(rest, flags); \
        mode_t mode = mode_of(flags, rest); \
        va_end(rest); \
        opened(path); \
        return REAL(name)(path, flags, mode); \
    }

#define OPENS_AT(name) \
    int name(int folder, const char *path, int flags, ...) { \
        va_list rest; \
        va_start(rest, flags); \
        mode_t mode = mode_of(flags, rest); \
        va_end(rest); \
        opened(path); \
        return REAL(name)(folder, path, flags, mode); \
    }

OPENS(open)
OPENS(open64)
OPENS_AT(openat)
OPENS_AT(openat64)
"""


# ---- runs in which a request fails


@dataclasses.dataclass
class Run:
    """What a run came to: whether a request failed in it, its exit status, and what it wrote. One that takes too long has no status."""

    failed: bool
    status: int | None
    output: bytes
    error: bytes

    def came_to(self):
        return self.status, self.output, self.error

    def shown(self):
        status = f"no end within {LIMIT} seconds" if self.status is None else f"exit {self.status}"
        return f"{status}, {self.output[:SHOWN]!r}, on standard error {self.error[:SHOWN]!r}"


class Failing:
    """Runs programs in which a request fails: several side by side, with a library that is built into a folder."""

    def __init__(self, folder, pool):
        self.folder, self.pool, self.marks = folder, pool, itertools.count()
        self.library, source = folder / "fails.so", folder / "fails.c"
        source.write_text(FAILS)
        subprocess.run(["cc", "-shared", "-fPIC", "-O1", "-o", self.library, source, "-ldl"], check=True)

    def run(self, number, program, stream=b"", work=None, counts_from=None):
        """A run on a stream, in which the request of a number fails; none does where it is 0. `work` is the folder in which it runs, and
        `counts_from` the name of the file of which FAILS speaks."""
        mark = self.folder / f"failed-{next(self.marks)}"
        variables = {"LD_PRELOAD": str(self.library), "FAILING_ALLOCATION": str(number), "FAILED": str(mark)}
        variables |= {"FAILING_FROM": counts_from} if counts_from else {}
        try:
            done = subprocess.run([program], input=stream, capture_output=True, env=variables, cwd=work, timeout=LIMIT)
            run = Run(mark.exists(), done.returncode, done.stdout, done.stderr)
        except subprocess.TimeoutExpired as late:
            run = Run(mark.exists(), None, late.stdout or b"", late.stderr or b"")
        mark.unlink(missing_ok=True)
        return run

    def each_run(self, run):
        """Each number from 1 with the run of that number. The last is the first that meets no failure."""
        ahead = collections.deque()
        for last in itertools.count(1):
            ahead.append(self.pool.submit(run, last))
            if last >= AHEAD:
                done = ahead.popleft().result()
                yield last - AHEAD + 1, done
                if not done.failed:
                    return


@contextlib.contextmanager
def failing_runs():
    """What runs programs in which a request fails, for a while."""
    with tempfile.TemporaryDirectory() as folder, concurrent.futures.ThreadPoolExecutor(2 * len(os.sched_getaffinity(0))) as pool:
        yield Failing(pathlib.Path(folder), pool)


@dataclasses.dataclass
class Outcome:
    """What letting each request fail came to: the run in which none fails, in how many runs one did, how many of these ended for want of
    memory, and what is said of the first of those that differ."""

    whole: Run
    requests: int
    wanting: int
    differing: list


def fail_each(failing, program, stream, status, is_silent=True):
    """Lets each request fail in turn, until so many runs differ as are shown. A run that ends for want of memory has this status, writes a prefix
    of what the whole run does, and, where it is silent, nothing to standard error."""
    run = functools.partial(failing.run, program=program, stream=stream)
    outcome = Outcome(run(0), 0, 0, [])
    whole = outcome.whole
    for number, it in failing.each_run(run):
        outcome.requests += it.failed
        if it.failed and it.status == status and whole.output.startswith(it.output) and not (is_silent and it.error):
            outcome.wanting += 1
        elif it.came_to() != whole.came_to():
            outcome.differing.append(f"request {number}: {it.shown()}")
            if len(outcome.differing) == SHOWN_RUNS:
                break
    return outcome


# ---- the samples


def row(name):
    """A row of rows/runs: its name, its stream and its answer."""
    file = ROWS / "runs" / name
    if not file.with_suffix(".in").exists():
        raise SystemExit(f"There is no row {file}.in.")
    return name, file.with_suffix(".in").read_bytes(), file.with_suffix(".out").read_bytes()


def example():
    """The same of the example."""
    stream = EXAMPLE.read_text(encoding="utf-8")
    return EXAMPLE.stem, stream.encode(), run_answer(stream).encode()


def faults(outcome, answer):
    """What is wrong with what a sample came to."""
    whole = outcome.whole
    if whole.output + f"(status {whole.status})\n".encode() != answer or whole.error:
        yield f"the run without a failure: {whole.shown()}\n    but the answer is: {answer!r}"
    yield from outcome.differing
    if not outcome.wanting and not outcome.differing:
        yield f"of {outcome.requests} runs in which a request failed none exits {NO_MEMORY}"


def builds_of(path):
    """The paths of a program's builds that are there."""
    path = os.path.abspath(path)
    if not os.access(path, os.X_OK):
        raise SystemExit(f"There is no program {path}: `make test` builds it.")
    return [it for it in (path, path + BY_RATTLE) if os.access(it, os.X_OK)]


def main():
    parser = argparse.ArgumentParser(description="Lets each request for memory of the built program fail in turn.")
    parser.add_argument("--program", default=PROGRAM, help="the program that is run")
    parser.add_argument("rows", nargs="*", metavar="ROW", help="the name of a row of rows/runs")
    words, begun = parser.parse_args(), time.monotonic()
    builds = builds_of(words.program)
    samples = [row(name) for name in words.rows] or [*map(row, SAMPLES), example()]
    requests = wanting = wrong = 0
    with failing_runs() as failing:
        for build, (name, stream, answer) in itertools.product(builds, samples):
            outcome = fail_each(failing, build, stream, NO_MEMORY)
            requests, wanting = requests + outcome.requests, wanting + outcome.wanting
            for fault in faults(outcome, answer):
                wrong += 1
                print(f"{name} of {os.path.basename(build)}: {fault}")
    if wrong:
        return 1
    of = " and ".join(map(os.path.basename, builds))
    print(f"{len(samples)} samples of {of}: {requests} requests failed in turn, {wanting} runs exit {NO_MEMORY}, {time.monotonic() - begun:.0f} seconds")
    return 0


if __name__ == "__main__":
    sys.exit(main())
