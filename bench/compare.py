#!/usr/bin/env python3
"""Times the built program beside a plain program in Rust on the same loads, and prints a table of ratios.

    python3 bench/compare.py [--runs N] [--program PATH] [LOAD ..]

Build the program first by `make run`. The plain one is bench/plain/plain.rs, built here by `rustc -O` alone. Each load is a file that
both read from standard input; they run in turns, N times each (5 where nothing is said), and of each the least time and the least peak
memory count: processor seconds, and MB as the system tells them. Their reports have to be the same, byte for byte. A second table has
what names in no order cost either program more than names in order; the loads that it compares are run in turns too.

Of the plain program there are two for loads with rules: one whose matchers are all written by hand for these rules, and one in which the
crate `regex` matches the regular expressions, built by Cargo from Debian's packages (`apt-get install librust-regex+default-dev`).
"""
import argparse
import dataclasses
import filecmp
import json
import os
import pathlib
import random
import shutil
import subprocess
import sys
import tempfile

sys.dont_write_bytecode = True
sys.path.insert(0, str(pathlib.Path(__file__).resolve().parent))
import loads
import overrides

ROOT = pathlib.Path(__file__).resolve().parent.parent
PROGRAM = ROOT / "crates/test_runner/out/test_runner"


def passing(tests):
    return "".join(f"start\t{binary}\t{name}\nend\t{binary}\t{name}\tpass\t-\t1\t-\t-\n" for binary, name in tests)


def of_binaries(count, shuffled):
    """Tests of 300 binaries, whose log has them in the plan's order or in none."""
    binaries = [(f"b{at:03}", [f"module::case_{place:07}" for place in range(at, count, 300)]) for at in range(300)]
    tests = [(binary, name) for binary, names in binaries for name in names]
    if shuffled:
        random.Random(1).shuffle(tests)
    return loads.inputs([loads.binary(*it) for it in binaries]), passing(tests)


def names_in_no_order(count):
    """Tests of one binary, which lists them in no order, and whose log has them in the order of the list."""
    names = loads.names_of(count)
    random.Random(1).shuffle(names)
    return loads.run_of(names, names)


def side_by_side(count, width):
    """Tests of one binary that start and end in no order, so many of which run at a time."""
    names, chance, running, log = loads.names_of(count), random.Random(1), [], []
    end = "end\tp\t{}\tpass\t-\t1\t-\t-\n".format
    for name in chance.sample(names, count):
        log.append(f"start\tp\t{name}\n")
        running.append(name)
        if len(running) == width:
            log.append(end(running.pop(chance.randrange(width))))
    return loads.run_of(names, [])[0], "".join(log + [end(name) for name in running])


def with_outputs(count, size):
    """Tests that pass, each of which writes so many bytes, a half to each stream."""
    names = loads.names_of(count)
    ended = f"pass\t-\t1\t{loads.written(size - size // 2)}\t{loads.written(size // 2)}\n"
    return loads.inputs([loads.binary("p", names)]), "".join(f"start\tp\t{name}\nend\tp\t{name}\t{ended}" for name in names)


def flaky(count, size):
    """Tests that fail at their first try, at which each writes so many bytes, and pass at their second."""
    names = loads.names_of(count)
    failed = f"fail:101\t-\t1\t{loads.written(size - size // 2)}\t{loads.written(size // 2)}\n"
    tries = "start\tp\t{0}\nend\tp\t{0}\t" + failed + "start\tp\t{0}\nend\tp\t{0}\tpass\t-\t1\t-\t-\n"
    settings = "[profile.default]\nretries = 1\n"
    return loads.inputs([loads.binary("p", names)], settings), "".join(tries.format(name) for name in names)


# What is in force beside overrides: a default filter, a setup script and a filterset, which bench/plain/rules.rs knows too.
BESIDE_RULES = r"""
experimental = ["setup-scripts"]
# rules {}
[scripts.setup.database]
command = "database"
[profile.default]
default-filter = "not (kind(example) & test(~codec))"
[[profile.default.scripts]]
filter = "test(~writer) & package(p2*)"
setup = "database"
"""
FILTERSET = r"(test(~a) | test(/x\d+$/)) & !test(#*slow*{_b\,_c}) & (package(p*) | deps(=q))"


def ruled(count):
    """Tests of 300 binaries under so many overrides of bench/overrides.py, three groups, a default filter, a setup script and a filterset."""
    given = overrides.inputs(range(overrides.BINARIES), count, BESIDE_RULES.format(count))
    return json.dumps({**given, "filterset": FILTERSET}, separators=(",", ":"))


# Each load: what it is, and what makes its inputs and its log.
LOADS = {
    "sorted": ("200,000 tests of one binary, names in order, all pass", lambda: loads.tests(200_000)),
    "shuffled": ("the same, in the log in no order", lambda: loads.shuffled(200_000)),
    "listed": ("the same, listed in no order, in the log as listed", lambda: names_in_no_order(200_000)),
    "side": ("the same, 16 tests at a time, which start and end in no order", lambda: side_by_side(200_000, 16)),
    "binaries": ("200,000 tests of 300 binaries, all pass", lambda: of_binaries(200_000, False)),
    "any": ("the same, in the log in no order", lambda: of_binaries(200_000, True)),
    "short": ("20,000 tests that pass, 4 KiB of output each", lambda: with_outputs(20_000, 4096)),
    "long": ("2,000 tests that pass, 64 KiB of output each", lambda: with_outputs(2_000, 65_536)),
    "gibibyte": ("8,000 tests that pass, 64 KiB of output each", lambda: with_outputs(8_000, 65_536)),
    "flaky": ("1,000 tests that fail at first, 64 KiB of output each, then pass", lambda: flaky(1_000, 65_536)),
    "failing": ("1,000 tests that fail, 64 KiB of output each, all written", lambda: loads.failing(65_536)),
    "planned": ("300,000 tests of 300 binaries, planned, no log", lambda: (of_binaries(300_000, False)[0], "")),
    "filtered": ("300,000 tests of 300 binaries under a filterset and a default filter, planned, no log; the plain program with `regex`", lambda: (ruled(0), "")),
    "ruled": ("300,000 tests of 300 binaries under 20 overrides and two filters, planned, no log", lambda: (ruled(20), "")),
    "regex": ("the same, the plain program with `regex`", lambda: (ruled(20), "")),
}

# Pairs of loads of the same tests, of which the first has its names in order: what a program takes more for the other one is printed.
GAPS = [("sorted", "shuffled"), ("sorted", "listed"), ("sorted", "side"), ("binaries", "any")]

# Those in which the plain program has the crate `regex`.
WITH_REGEX = ["filtered", "regex"]

MANIFEST = """[package]
name = "plain"
version = "0.0.0"
edition = "2021"
[[bin]]
name = "plain"
path = "plain.rs"
[dependencies]
regex = "1"
"""
DEBIAN = """[source.crates-io]
replace-with = "debian"
[source.debian]
directory = "/usr/share/cargo/registry"
"""


def build_with_regex(room):
    """The plain program with the crate `regex` of Debian's packages, built in this folder."""
    folder = room / "with-regex"
    shutil.copytree(ROOT / "bench/plain", folder, dirs_exist_ok=True)
    (folder / "Cargo.toml").write_text(MANIFEST)
    (folder / ".cargo").mkdir(exist_ok=True)
    (folder / ".cargo/config.toml").write_text(DEBIAN)
    command = ["cargo", "build", "--quiet", "--release", "--offline"]
    subprocess.run(command, cwd=folder, env={**os.environ, "RUSTFLAGS": "--cfg regex -Awarnings"}, check=True)
    return folder / "target/release/plain"


@dataclasses.dataclass
class Took:
    """The least processor seconds and the least peak memory, in MB, of some runs."""

    seconds: float = float("inf")
    memory: float = float("inf")

    def run(self, room, program, load, report):
        command = [room / "measure", program, room / load, room / report]
        told = subprocess.run(command, capture_output=True, text=True, check=True)
        microseconds, kibibytes = map(int, told.stdout.split())
        self.seconds = min(self.seconds, microseconds / 1e6)
        self.memory = min(self.memory, kibibytes / 1024)


def compare(room, program, names, runs):
    """Runs both programs on these loads in turns, so that whatever else the machine does meets all of them alike; prints a row of each."""
    for name in names:
        inputs, log = LOADS[name][1]()
        (room / name).write_text(f"{inputs}\n{log}")
    programs = {name: (program, build_with_regex(room) if name in WITH_REGEX else room / "plain") for name in names}
    took = {name: (Took(), Took()) for name in names}
    for _ in range(runs):
        for name in names:
            for told, path, report in zip(took[name], programs[name], ("of-ours", "of-plain")):
                told.run(room, path, name, report)
            if not filecmp.cmp(room / "of-ours", room / "of-plain", shallow=False):
                raise SystemExit(f"{name}: the reports of the two programs differ")
    for name in names:
        print_row(name, (room / name).stat().st_size / 1e6, *took[name])
        (room / name).unlink()
    return {name: (ours.seconds, plain.seconds) for name, (ours, plain) in took.items()}


def print_row(name, size, ours, plain):
    print(
        f"| {LOADS[name][0]} ({size:.0f} MB) | {ours.seconds:.2f} s, {ours.memory:.0f} MB | {plain.seconds:.2f} s, {plain.memory:.0f} MB"
        f" | {ours.seconds / plain.seconds:.2f} | {ours.memory / plain.memory:.2f} |",
        flush=True,
    )


def compare_all(room, program, names, runs):
    """Runs those loads in turns that are compared with one another, and each of the others by itself."""
    paired = {name for pair in GAPS for name in pair}
    together = [name for name in names if name in paired]
    took = compare(room, program, together, runs)
    for name in names:
        if name not in paired:
            took |= compare(room, program, [name], runs)
    return took


def print_gaps(took):
    """Prints what names in no order cost each program beside names in order, by what the loads took."""
    print("\n| Beside | Names in no order | Ours takes more | Plain takes more |\n|---|---|---|---|")
    for ordered, other in GAPS:
        if ordered in took and other in took:
            ours, plain = (after - before for before, after in zip(took[ordered], took[other]))
            print(f"| {LOADS[ordered][0]} | {LOADS[other][0]} | {ours:.3f} s | {plain:.3f} s |")


def main():
    parser = argparse.ArgumentParser(description="Times the built program beside a plain one.")
    parser.add_argument("--runs", type=int, default=5)
    parser.add_argument("--program", type=pathlib.Path, default=PROGRAM, help="the program that is timed")
    parser.add_argument("loads", nargs="*", metavar="LOAD", help=f"one of {', '.join(LOADS)}")
    words = parser.parse_args()
    if not set(words.loads) <= set(LOADS):
        parser.error(f"the loads are {', '.join(LOADS)}")
    if not os.access(words.program, os.X_OK):
        raise SystemExit(f"There is no program {words.program}: `make run` builds it.")
    with tempfile.TemporaryDirectory() as at:
        room = pathlib.Path(at)
        for name in ("plain", "measure"):
            subprocess.run(["rustc", "-O", "-o", room / name, ROOT / f"bench/plain/{name}.rs"], check=True)
        print("| Load | Ours | Plain | Time | Memory |\n|---|---|---|---|---|")
        print_gaps(compare_all(room, words.program.resolve(), list(dict.fromkeys(words.loads or LOADS)), words.runs))


if __name__ == "__main__":
    main()
