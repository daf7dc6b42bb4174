#!/usr/bin/env python3
"""Measures the runs of rows/deep_inputs.txt: the bytes of a row's stream, the seconds and the peak of memory of its run, and that a byte.

    python3 bench/deep_inputs.py [--program PATH] [--divided N]

The program is crates/test_runner/out/test_runner, or the one at PATH. Each row is run twice, on a stack of 256 KiB as scripts/whole_runs.py runs
it, and the least of both is printed, in the order of the rows, as the lines of a table. Seconds are those of the processor, in the program and in
the system for it. A peak below that of Python itself, some 20 MB, isn't seen. With `--divided` each count of repetitions in a row is divided,
so how time and memory grow with the size can be read.
"""
import argparse
import dataclasses
import os
import pathlib
import re
import resource
import subprocess
import sys
import tempfile

sys.dont_write_bytecode = True
sys.path.insert(0, str(pathlib.Path(__file__).resolve().parent.parent / "scripts"))
import whole_runs

RUNS = 2


class Measured(whole_runs.Program):
    """The program, with what its last run took."""

    def run_on_stack(self, stream, size):
        fed = whole_runs.as_fed(stream)
        with tempfile.TemporaryFile() as given, tempfile.TemporaryFile() as report:
            given.write(fed)
            given.seek(0)

            def limit():
                resource.setrlimit(resource.RLIMIT_STACK, (size, size))

            child = subprocess.Popen([self.path], stdin=given, stdout=report, preexec_fn=limit)
            _, status, used = os.wait4(child.pid, 0)
            child.returncode = os.waitstatus_to_exitcode(status)
            report.seek(0)
            self.took = len(fed), used.ru_utime + used.ru_stime, 1024 * used.ru_maxrss
            return whole_runs.ended(child, report.read(), b"")


def divided(row, by):
    """A row with each count divided, but odd where it was odd, so that the answer stays."""
    fewer = re.sub("×([0-9]+)⟫", lambda count: f"×{int(count[1]) // by // 2 * 2 + int(count[1]) % 2}⟫", row.input)
    return dataclasses.replace(row, input=fewer) if by > 1 else row


def shown(row):
    """A row's input, short."""
    return row.input if len(row.input) < 90 else f"{row.input[:87]}..."


def main():
    parser = argparse.ArgumentParser(description="Measures the runs of rows/deep_inputs.txt.")
    parser.add_argument("--program", default=whole_runs.PROGRAM, help="the program that is run")
    parser.add_argument("--divided", type=int, default=1, help="what each count is divided by")
    given = parser.parse_args()
    program = Measured(os.path.abspath(given.program))
    print("| Input | MB | Seconds | Peak, MB | Bytes a byte |\n|---|---|---|---|---|")
    for row in [divided(row, given.divided) for row in whole_runs.rows_of("deep_inputs")]:
        took = []
        for _ in range(RUNS):
            if row.differs([program]):
                sys.exit(f"{shown(row)} differs")
            took.append(program.took)
        size, seconds, peak = (min(it) for it in zip(*took))
        print(f"| `{shown(row)}` | {size / 1e6:.1f} | {seconds:.2f} | {peak / 1e6:.0f} | {peak / size:.0f} |", flush=True)


if __name__ == "__main__":
    main()
