#!/usr/bin/env python3
"""Puts the line `failed-weight N` behind `skipped` into each final text that was made by hand and has no such line: in rows/runs and in what
crates/test_runner has to print.

    python3 scripts/weight_lines.py

N is reckoned from the text's own counters of tests that failed, `failed`, `exec-failed` and `failed-timed-out`, so this is for runs whose tests all
weigh 1. A text that has the line stays as it is.
"""
import pathlib
import re

ROOT = pathlib.Path(__file__).resolve().parent.parent
FILES = [*sorted((ROOT / "rows/runs").glob("*.out")), ROOT / "crates/test_runner/stdout"]
FINAL = "== final ==\n"
FAILED = ("failed", "exec-failed", "failed-timed-out")


def with_weight(report):
    """A report whose final text, if it has one, says what its failed tests weigh."""
    before, found, final = report.partition(FINAL)
    if not found or re.search("^failed-weight\t", final, re.M):
        return report
    weight = sum(int(re.search(f"^{name}\t([0-9]+)$", final, re.M)[1]) for name in FAILED)
    final, number = re.subn("^(skipped\t[0-9]+\n)", rf"\1failed-weight\t{weight}\n", final, count=1, flags=re.M)
    assert number == 1, report
    return before + found + final


def main():
    changed = 0
    for file in FILES:
        report = file.read_bytes().decode()
        told = with_weight(report)
        if told != report:
            file.write_bytes(told.encode())
            changed += 1
    print(f"{changed} of {len(FILES)} reports got the line")


if __name__ == "__main__":
    main()
