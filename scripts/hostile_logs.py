#!/usr/bin/env python3
"""Runs the built program on a log that is as long as a log may be, and on longer ones, and compares whole reports.

    python3 scripts/hostile_logs.py [--program PATH] [--line-feeds]

The program is crates/test_runner/out/test_runner, or the one at PATH, and beside it, where it is there, PATH.by-rattle, which Rattle's own
compiler built. The logs are made here and fed as they are made, so none of them is ever whole in memory: one of 1,073,741,824 bytes, which is
accepted, and two that have a byte more and are refused, as an empty line at the end or within the last line. Each is of one test that passes
at its try 1,025. The lines that end the other tries have 1,048,576 bytes without their line feed, which is the most that a line may have; but
the last of them fills the log up. The reports are reckoned here by docs/FORMATS.md.

With --line-feeds it feeds line feeds without end in place of these logs.

Where all is as it is due, it prints a line that says so, with the seconds and the peak of memory of each run; else what differs, and the exit
status is 1. A peak below that of Python itself, some 20 MiB, isn't seen. Lines and inputs that are as long as they may be, and longer ones,
are rows of rows/refused_lines.txt and rows/inputs_other.txt.
"""
import argparse
import dataclasses
import itertools
import json
import os
import subprocess
import sys
import tempfile
import threading
import time

sys.dont_write_bytecode = True
from failing_allocations import builds_of
from run_rows import COUNTERS
from whole_runs import PROGRAM

# The most bytes of a log, with its line feeds, and of a line, without its own.
LONGEST_LOG, LONGEST_LINE = 1_073_741_824, 1_048_576

# How often the test is tried: 1,023 times ended by a longest line, once by the line that fills the log up, and the last time by a line that passes.
TRIES = 1_025

# The first of the nanoseconds of the tries, each of which has one more. All have one length.
FIRST_NANOS = 1_000_000

# What the failing tries write, in hex.
OUTPUT = b"0123456789abcdef" * (LONGEST_LINE // 16)

START = b"start\tp\ta\n"

# The most seconds that a run takes, and the most characters that are shown of a report.
LIMIT, SHOWN = 3_600, 2_000


# ---- the logs, as their lines


def inputs():
    """The first line: inputs with one test, which may be tried so often."""
    binary = {"id": "p", "name": "p", "package": "p", "kind": "lib", "platform": "target", "tests": ["a"]}
    workspace = {"packages": [{"id": "p", "name": "p"}], "links": [], "binaries": [binary]}
    source = {"kind": "explicit", "path": "nextest.toml", "text": f"profile.default.retries = {TRIES - 1}\n"}
    return json.dumps({"workspace": workspace, "sources": [source], "current_version": "0.9.100"}).encode() + b"\n"


def failing(number, length):
    """The line that ends a try without success, of so many bytes with its line feed. Standard error is empty or wasn't captured, as the length wants."""
    front = b"end\tp\ta\tfail:1\t-\t%d\t" % (FIRST_NANOS + number)
    behind = b"\t\n" if (length - len(front)) % 2 == 0 else b"\t-\n"
    return front + OUTPUT[: length - len(front) - len(behind)] + behind


def longest_log():
    """A log that is as long as it may be."""
    last = b"end\tp\ta\tpass\t-\t%d\t-\t-\n" % (FIRST_NANOS + TRIES)
    left = LONGEST_LOG - len(START + last)
    for number in range(1, TRIES - 1):
        line = failing(number, LONGEST_LINE + 1)
        left -= len(START + line)
        yield START
        yield line
    yield START
    yield failing(TRIES - 1, left - len(START))
    yield START
    yield last


def with_empty_line():
    """The same with an empty line at the end."""
    yield from longest_log()
    yield b"\n"


def with_longer_last_line():
    """The same where the last line has a byte more, so that its line feed is the first byte too many."""
    before = None
    for line in longest_log():
        if before:
            yield before
        before = line
    yield before.replace(b"\tpass\t-\t", b"\tpass\t-\t1")


def line_feeds():
    """Line feeds without end."""
    return itertools.repeat(b"\n" * 65_536)


# ---- the reports


DONE = f"done\tp\ta\tflaky\t{TRIES}/{TRIES}\n"

# The longest log has a line for the start of each try, and one for its end.
LINES = 2 * TRIES


def report():
    """The report of the longest log: the test passed after others than its first try, which the final text tells, without any output."""
    counts = dict.fromkeys(COUNTERS, 0) | dict.fromkeys(("initial-run-count", "finished-count", "passed", "flaky"), 1)
    counters = "".join(f"{name}\t{count}\n" for name, count in counts.items())
    tries = "".join(f"try\t{number}\tfail:1\t-\t{FIRST_NANOS + number}\n" for number in range(1, TRIES))
    passed = f"try\t{TRIES}\tpass\t-\t{FIRST_NANOS + TRIES}\n"
    final = f"== final ==\nstatus\t0\noutcome success\n{counters}cancel-reason\t-\n"
    return f"{DONE}{final}test\tp\ta\tflaky\t{TRIES}/{TRIES}\n{tries}{passed}"


@dataclasses.dataclass
class Case:
    """A log, with what is said of it, the exit status and the report that are due of it."""

    name: str
    log: object
    status: int
    report: str


CASES = [
    Case("the longest log", longest_log, 0, report()),
    Case("an empty line more", with_empty_line, 96, f"{DONE}refused\tline\t{LINES + 1}\tLogTooLong\n"),
    Case("a byte more in its last line", with_longer_last_line, 96, f"refused\tline\t{LINES}\tLogTooLong\n"),
]

# A line feed is a line, so the first byte too many is the line of its own number.
LINE_FEEDS = [Case("line feeds without end", line_feeds, 96, f"refused\tline\t{LONGEST_LOG + 1}\tLogTooLong\n")]


# ---- runs


@dataclasses.dataclass
class Run:
    """What a run came to, how many seconds it took, and its peak of memory in MiB."""

    status: int
    report: str
    error: str
    seconds: float
    peak: int


def feed(pipe, log):
    """Feeds the inputs and a log."""
    try:
        with pipe:
            pipe.write(inputs())
            for line in log:
                pipe.write(line)
    except BrokenPipeError:
        # The program reads no further, which its report shows.
        pass


def text_of(file):
    file.seek(0)
    return file.read().decode("utf-8", "backslashreplace")


def run(program, log):
    """A run of the program on a log."""
    with tempfile.TemporaryFile() as report, tempfile.TemporaryFile() as error:
        begun = time.monotonic()
        child = subprocess.Popen([program], stdin=subprocess.PIPE, stdout=report, stderr=error)
        ending = threading.Timer(LIMIT, child.kill)
        ending.start()
        feed(child.stdin, log)
        _, status, used = os.wait4(child.pid, 0)
        ending.cancel()
        child.returncode = os.waitstatus_to_exitcode(status)
        return Run(child.returncode, text_of(report), text_of(error), time.monotonic() - begun, used.ru_maxrss // 1024)


def faults(run, case):
    """What of a run isn't as it is due."""
    if run.status != case.status:
        yield f"exit {run.status}, but {case.status} is due"
    if run.error:
        yield f"on standard error: {run.error[:SHOWN]}"
    lines = itertools.zip_longest(run.report.split("\n"), case.report.split("\n"))
    for number, (given, due) in enumerate(lines, 1):
        if given != due:
            yield f"line {number} of the report is {given!r:.{SHOWN}}, but {due!r} is due"
            return


def main():
    parser = argparse.ArgumentParser(description="Runs the built program on logs that are as long as a log may be, and longer.")
    parser.add_argument("--program", default=PROGRAM, help="the program that is run")
    parser.add_argument("--line-feeds", action="store_true", help="feeds line feeds without end")
    words, wrong, told = parser.parse_args(), False, []
    for build in builds_of(words.program):
        for case in LINE_FEEDS if words.line_feeds else CASES:
            done = run(build, case.log())
            told.append(f"{case.name} {done.seconds:.1f} seconds and {done.peak} MiB")
            for fault in faults(done, case):
                wrong = True
                print(f"{case.name}, of {os.path.basename(build)}: {fault}")
        told[-1] += f" ({os.path.basename(build)})"
    if wrong:
        return 1
    print(f"Whole reports are as they are due: {', '.join(told)}")
    return 0


if __name__ == "__main__":
    sys.exit(main())
