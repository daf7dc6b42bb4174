#!/usr/bin/env python3
"""Lists the functions of the libraries that promise nothing, and says how many there are of how many.

    python3 scripts/without_clause.py

A function with no `ensures` of its own is one, unless it is a method of an `impl` of a trait, which has the trait's. Crates of tests,
tables and the program are left out. docs/PROVING.md names those that are found, with their reason.
"""
import pathlib
import re

ROOT = pathlib.Path(__file__).resolve().parent.parent
ABOVE = ("worked_rows", "test_runner_core_tests", "faces_tests", "test_runner")
FUNCTION = re.compile(r"^(\s*)(?:pub(?:\(\w+\))? )?(?:const |final )?fn (\w+)")


def head_of(lines, at):
    """The lines of a function's signature and clauses."""
    for end in range(at, len(lines)):
        if lines[end].strip() in ("{", "{}") or lines[end].rstrip().endswith(";"):
            return "\n".join(lines[at : end + 1])
        if lines[end].rstrip().endswith("{") and "ensures" not in lines[end] and "requires" not in lines[end]:
            return "\n".join(lines[at:end])
    return "\n".join(lines[at:])


def functions_of(file):
    """Each function of a file, and whether it has a clause."""
    lines, is_of_trait = file.read_text().splitlines(), False
    for at, line in enumerate(lines):
        if re.match(r"impl\b", line):
            head = " ".join(lines[at : at + 8]).split("{")[0]
            is_of_trait = re.search(r"\bfor\b(?!<)", head) is not None
        if line == "}":
            is_of_trait = False
        function = FUNCTION.match(line)
        if function:
            yield function.group(2), "ensures" in head_of(lines, at) or (is_of_trait and function.group(1) != "")


def main():
    count, without = 0, []
    for crate in sorted((ROOT / "crates").iterdir()):
        if crate.name in ABOVE:
            continue
        for file in sorted(crate.glob("src/**/*.rt")):
            for name, has_clause in functions_of(file):
                count += 1
                if not has_clause:
                    without.append(f"{crate.name} {file.name} {name}")
    print("\n".join(without))
    print(f"{len(without)} of {count} functions have no clause")


main()
