#!/usr/bin/env python3
"""Runs what nests millions deep in the libraries on a stack of 256 KiB: rows of the built program worked_rows, and a test.

    python3 scripts/deep_calls.py [--program PATH] [--tests PATH]

The program is crates/worked_rows/out/worked_rows, which `rt ci` leaves, or the one at PATH, and beside it, where it is there,
PATH.by-rattle, which Rattle's own compiler built. The rows are those of rows/deep_calls.txt, each `TABLE: ROW` with a row of a table of
that program, in which `⟪HEX×N⟫` stands for bytes as in the other tables of rows/. The program runs in a folder in which that row is its
table's only one, and all other tables are empty. The test is one of crates/test_runner_core_tests, whose built tests are in its folder
out/, or at the other PATH: it prints, copies and searches trees of a million levels.

It says nothing where all rows hold and the test passes; else what doesn't, and the exit status is 1.
"""
import argparse
import os
import pathlib
import resource
import subprocess
import sys
import tempfile

sys.dont_write_bytecode = True
from whole_runs import BY_RATTLE, DATA, LIMIT, ROOT, ROWS, SMALL_STACK, as_fed

PROGRAM = ROOT / "crates/worked_rows/out/worked_rows"

# The built tests, and the one that is run.
TESTS = ROOT / "crates/test_runner_core_tests/out/test_runner_core_tests_tests"
TEST = "filtersets::a_million_levels_print_as_they_were_written"

# The most characters that are shown of an answer.
SHOWN = 500


def limit():
    resource.setrlimit(resource.RLIMIT_CORE, (0, 0))
    resource.setrlimit(resource.RLIMIT_STACK, (SMALL_STACK, SMALL_STACK))


def run(words, folder):
    """How a command ends on the small stack: its status, and what it said."""
    how = {"stdin": subprocess.DEVNULL, "stdout": subprocess.PIPE, "stderr": subprocess.STDOUT}
    process = subprocess.run(words, cwd=folder, preexec_fn=limit, timeout=LIMIT, **how)
    return process.returncode, process.stdout.decode("utf-8", "backslashreplace")


def differs(path, table, row):
    """What is said of a row of a table that doesn't hold."""
    with tempfile.TemporaryDirectory() as name:
        folder = pathlib.Path(name)
        (folder / "inputs").mkdir()
        for file in DATA.glob("*.txt"):
            (folder / file.name).touch()
        (folder / "plan.json").write_bytes((DATA / "plan.json").read_bytes())
        (folder / f"{table}.txt").write_bytes(as_fed(row) + b"\n")
        status, told = run([path], folder)
    if status == 0 and f"\n{table}: 1 rows hold\n" in told:
        return None
    answer = told.split("\n    but the answer is: ", 1)[-1].split("\n")[0]
    return f"{table}: {row}\n    but the status of {path} is {status}, and the answer is: {answer[:SHOWN]}"


def fails(path):
    """What is said of the test where it doesn't pass."""
    status, told = run([path, TEST], None)
    return None if status == 0 and told.endswith("test result: ok\n") else f"{TEST}: the status of {path} is {status}\n{told[:SHOWN]}"


def main():
    parser = argparse.ArgumentParser(description="Runs the rows of rows/deep_calls.txt and a test on a small stack.")
    parser.add_argument("--program", default=PROGRAM, help="the program worked_rows that is run")
    parser.add_argument("--tests", default=TESTS, help="the tests of test_runner_core_tests, one of which is run")
    words = parser.parse_args()
    path, tests = os.path.abspath(words.program), os.path.abspath(words.tests)
    for it in (path, tests):
        if not os.access(it, os.X_OK):
            print(f"There is no program {it}: `make test` builds it.")
            return 1
    lines = (ROWS / "deep_calls.txt").read_text(encoding="utf-8").split("\n")
    rows = [line.split(": ", 1) for line in lines if line and not line.startswith("#")]
    programs = [it for it in (path, path + BY_RATTLE) if it == path or os.access(it, os.X_OK)]
    told = [differs(it, *row) for row in rows for it in programs] + [fails(tests)]
    for it in filter(None, told):
        print(it)
    return 1 if any(told) else 0


if __name__ == "__main__":
    sys.exit(main())
