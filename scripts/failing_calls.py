#!/usr/bin/env python3
"""Runs the program `worked_rows` on each row of its table `calls_again` and lets each of the row's requests for memory fail in turn.

    python3 scripts/failing_calls.py [--program PATH] [--table NAME]

A row is `CALL ARGUMENTS => ANSWER`. Where memory is refused to its call, the program makes the call once more and has ` at the second call`
behind the answer, and `changed` in it where the receiver or an argument wasn't as it was before. The program is
crates/worked_rows/out/worked_rows, or the one at PATH, and beside it, where it is there, PATH.by-rattle, which Rattle's own compiler built. A
C compiler `cc` is needed.

Each row stands alone in a folder whose other tables are empty. In a first run no request fails, and the row has to hold. Then one request
fails in each run, of those that are made from where the program opens the table until it opens another: the first, the second and so on,
until a run meets no failure. Each of these runs has to be one of three:

- all rows hold;
- the row alone doesn't hold, and its answer is the right one with ` at the second call` behind it;
- the program ends for want of memory elsewhere, with exit status 1, a word of it on standard error, and no row that doesn't hold.

At least one run of each row is the second of these. With --table it takes the rows of another table of the program, none of whose runs may be
that.

Where all is so, it prints a line with the number of runs and of seconds; else each row that differs, with the request that failed, and the
exit status is 1.
"""
import argparse
import collections
import functools
import os
import pathlib
import re
import shutil
import sys
import tempfile
import time

sys.dont_write_bytecode = True
from failing_allocations import SHOWN, SHOWN_RUNS, builds_of, failing_runs
from whole_runs import ARROW, DATA, ROOT

PROGRAM = ROOT / "crates/worked_rows/out/worked_rows"
TABLE = "calls_again"

# What stands behind the answer of a call that was made again; the line of a table; what the program writes where it ends for want of memory.
SECOND_CALL = " at the second call"
HELD = re.compile(r"^(\w+): (\d+) rows hold\n", re.M)
NO_MEMORY = re.compile(rb"^Error: (out of memory|memory allocation failed|no answer to a row of )")

# The exit status where a row doesn't hold, and where the program ends with an error.
NOT_ALL_HOLD = ENDED_BY_ERROR = 1

# What a run may be.
HOLDS, AGAIN, ENDED = "all rows hold", "at the second call", "no memory elsewhere"


def rows_of(table):
    """The lines of a table that are rows."""
    file = DATA / f"{table}.txt"
    lines = file.read_text(encoding="utf-8").split("\n") if file.exists() else []
    rows = [line for line in lines if line and not line.startswith("#")]
    if not rows:
        raise SystemExit(f"There is no table {file}, or it has no rows.")
    return rows


def make_folder(folder, table, line):
    """Makes a folder in which the program finds a table of one row, and the others empty."""
    (folder / "inputs").mkdir(parents=True)
    shutil.copy(DATA / "plan.json", folder)
    for file in DATA.glob("*.txt"):
        (folder / file.name).touch()
    (folder / f"{table}.txt").write_text(line + "\n", encoding="utf-8")


def holds(run, table):
    """Whether the row of a table holds in a run, and no other table has one."""
    rows = dict(HELD.findall(run.output.decode("utf-8", "backslashreplace")))
    due = "".join(f"{name}: {int(name == table)} rows hold\n" for name in rows).encode()
    return run.came_to() == (0, due, b"") and table in rows


def kind_of(run, whole, table, line):
    """Which of the three a run is, where it is one of them."""
    if run.came_to() == whole.came_to():
        return HOLDS
    held, differs = f"{table}: 1 rows hold\n", f"{table}: {line}\n    but the answer is: {line.rsplit(ARROW, 1)[1]}{SECOND_CALL}\n"
    again = whole.output.replace(held.encode(), f"{differs}{table}: 0 rows hold\n".encode())
    if run.failed and run.came_to() == (NOT_ALL_HOLD, again, b""):
        return AGAIN
    if run.failed and run.status == ENDED_BY_ERROR and whole.output.startswith(run.output) and NO_MEMORY.search(run.error):
        return ENDED
    return None


def shown(run):
    """What a run came to, but for the lines of tables."""
    told = HELD.sub("", run.output.decode("utf-8", "backslashreplace"))
    return f"exit {run.status}, on standard error {run.error!r}, lines of rows that don't hold: {told[:SHOWN] or 'none'}"


def fail_row(failing, run, table, line):
    """Lets each request of a row fail in turn, until so many runs are wrong as are shown: how many are of which kind, and what is wrong."""
    whole, kinds, faults = run(0), collections.Counter(), []
    if not holds(whole, table):
        return kinds, [f"the run without a failure doesn't hold: {shown(whole)}"]
    for number, it in failing.each_run(run):
        kind = kind_of(it, whole, table, line)
        kinds[kind] += it.failed
        if kind is None:
            faults.append(f"request {number}: {shown(it)}")
            if len(faults) == SHOWN_RUNS:
                break
    if not faults and bool(kinds[AGAIN]) != (table == TABLE):
        faults.append(f"of {kinds.total()} runs in which a request failed {kinds[AGAIN]} have the answer{SECOND_CALL}")
    return kinds, faults


def fail_rows(builds, table, lines):
    """Does so with each row and build, and prints what is wrong: how many runs are of which kind, and whether all is right."""
    kinds, right = collections.Counter(), True
    with tempfile.TemporaryDirectory() as folders, failing_runs() as failing:
        for place, line in enumerate(lines):
            folder = pathlib.Path(folders) / str(place)
            make_folder(folder, table, line)
            for build in builds:
                run = functools.partial(failing.run, program=build, work=folder, counts_from=f"{table}.txt")
                more, faults = fail_row(failing, run, table, line)
                kinds, right = kinds + more, right and not faults
                for fault in faults:
                    print(f"{line}\n    of {os.path.basename(build)}, {fault}")
    return kinds, right


def main():
    parser = argparse.ArgumentParser(description="Lets each request for memory of the calls of a table fail in turn.")
    parser.add_argument("--program", default=PROGRAM, help="the program of tables that is run")
    parser.add_argument("--table", default=TABLE, help="the table whose rows are taken")
    words, begun = parser.parse_args(), time.monotonic()
    builds, lines = builds_of(words.program), rows_of(words.table)
    kinds, right = fail_rows(builds, words.table, lines)
    if not right:
        return 1
    of, told = " and ".join(map(os.path.basename, builds)), ", ".join(f"{kinds[kind]} {kind}" for kind in (AGAIN, ENDED, HOLDS))
    print(f"{len(lines)} rows of {words.table} by {of}: {kinds.total()} requests failed in turn ({told}), {time.monotonic() - begun:.0f} seconds")
    return 0


if __name__ == "__main__":
    sys.exit(main())
