#!/usr/bin/env python3
"""Times the planning of many listed tests with a filterset by the built program, and prints a table.

    bench/planning.py [FILTERSET]

Build the program first by `make run`. A plan of 300,000 tests of 300 binaries is timed as the difference between two runs over the same
inputs, the least of seven of each, in turns: one whose filterset is refused (`all`, as long as the other by blanks), so that the inputs are read and no
more, and one whose tests are listed, selected and sorted, and then refused for too many retries, so that no session is made and nothing is
reported. Beside the filterset below (or the one that is given) it times none, and filtersets made to be hostile: each has to take time in
proportion to the names' bytes. A filterset that selects no test isn't refused so: it has to select one. Names rise, as a test harness lists
them, but for one row. In one row a default filter of four predicates, which leaves no test out, is in force beside the filterset; the last
line is how much longer that takes than the filterset alone.
"""
import json
import pathlib
import subprocess
import sys
import time

PROGRAM = pathlib.Path(__file__).resolve().parent.parent / "crates/test_runner/out/test_runner"
BINARIES, TESTS, TIMES = 300, 1_000, 7
DEFAULT = r"(test(~zz) | test(/case_\d+/)) & !test(#*slow*{_d\,_e}) & platform(target)"
FILTERSET = r"(test(~a) | test(/x\d+$/)) & !test(#*slow*{_b\,_c}) & (package(p*) | deps(=q))"
HOSTILE = {
    "glob *a*a*a*a*b": "all() | test(#*a*a*a*a*b)",
    "regex (a*)*b": "all() | test(/(a*)*b/)",
    "regex of a thousand alternatives": "all() | test(/" + "|".join(f"w{at}" for at in range(1_000)) + "/)",
}


def name(at):
    word = ("alpha", "slow_reader", "codec", "writer_slow", "parse")[at % 5]
    tail = ("_b", "_c", f"_x{at}", "", "::deep")[at // 5 % 5]
    return f"module_{at // 40}::{word}::case_{at:04}{tail}"


def inputs(filterset, default, in_order=True):
    packages = [f"p{at}" for at in range(30)] + ["q"] + [f"r{at}" for at in range(30)]
    links = [["q", f"r{at}"] for at in range(15)]
    names = [name(at) for at in range(TESTS)]
    if in_order:
        names.sort()
    binaries = [
        {"id": f"b{at:03}", "name": f"b{at:03}", "package": packages[at % len(packages)], "kind": "test", "platform": "target", "tests": names}
        for at in range(BINARIES)
    ]
    workspace = {"packages": [{"id": it, "name": it} for it in packages], "links": links, "binaries": binaries}
    text = "[profile.default]\nretries = 4294967295\n" + (f"default-filter = '{default}'\n" if default else "")
    sources = [{"kind": "explicit", "path": "nextest.toml", "text": text}]
    whole = {"workspace": workspace, "sources": sources, "current_version": "0.9.100"}
    if filterset is not None:
        whole["filterset"] = filterset
    return json.dumps(whole, separators=(",", ":")).encode() + b"\n"


def seconds(given, refused):
    began = time.perf_counter()
    ended = subprocess.run([PROGRAM], input=given, stdout=subprocess.PIPE)
    took = time.perf_counter() - began
    if ended.stdout != f"refused\t{refused}\n".encode():
        sys.exit(f"unexpected report: {ended.stdout[:200]}")
    return took


def main():
    chosen = sys.argv[1] if len(sys.argv) > 1 else FILTERSET
    rows = [("no filterset", None, None, True), ("filterset", chosen, None, True), ("filterset and default filter", chosen, DEFAULT, True)]
    rows += [("filterset, names in no order", chosen, None, False), *((words, filterset, None, True) for words, filterset in HOSTILE.items())]
    plans = {}
    print(f"{'':40}{'read':>8}{'plan':>8}{'tests a second':>18}")
    for words, filterset, default, in_order in rows:
        length = len(filterset or "")
        given, refused = inputs(filterset, default, in_order), inputs("all" + " " * max(length - 3, 1), default, in_order)
        reads, wholes = [], []
        for _ in range(TIMES):
            reads.append(seconds(refused, "Filterset"))
            wholes.append(seconds(given, "RetriesTooMany"))
        read, plan = min(reads), min(wholes) - min(reads)
        plans[words] = plan
        print(f"{words:40}{read:8.3f}{plan:8.3f}{BINARIES * TESTS / plan:18,.0f}")
    print(f"both filters in force over the filterset alone: {plans['filterset and default filter'] / plans['filterset']:.2f}")


if __name__ == "__main__":
    main()
