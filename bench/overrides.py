#!/usr/bin/env python3
"""Times what overrides add to the planning of many tests, in the built program and in a plain Rust program, and prints a table.

    bench/overrides.py [--check]

Build the program first by `make run`, and have `rustc` on the PATH. Both programs plan 300,000 tests of 300 binaries without overrides, and
with the first 10, 20 and 40 of the overrides below: contained texts, regular expressions, globs, packages, kinds and platforms, which set
priorities, retries, groups and more, so that tests are also put into another order; and 150 binaries with 20 overrides. Each row is the least of five runs
in turns, in processor seconds of the user and the system. The log's first line is a bad one, so the built program plans, starts a session, and reports nothing
but this line. The plain one (bench/overrides_plain.rs) has the rules as constants and matchers by hand, takes names in plain lines, and keeps what it
reads, so its time is a lower bound of what Rust takes. What the overrides add is the difference to the run without them, the reading of their texts included.
`a pair` is that over the number of tests times that of the overrides: where the cost is at most linear in both, it doesn't rise with them.

First it is seen that both programs, and the rules by scripts/plan_rules.py, come to the same decisions over 12 binaries; with `--check` no more is done.
"""
import json
import pathlib
import resource
import subprocess
import sys
import tempfile

sys.dont_write_bytecode = True
ROOT = pathlib.Path(__file__).resolve().parent.parent
sys.path += [str(ROOT / "scripts"), str(ROOT / "bench")]
import plan_rules as plans
from element_rows import toml
from planning import name

PROGRAM = ROOT / "crates/test_runner/out/test_runner"
PLAIN = ROOT / "bench/overrides_plain.rs"
BINARIES, TESTS, TIMES = 300, 1_000, 5
ROWS = [(BINARIES, 0), (BINARIES, 10), (BINARIES, 20), (BINARIES, 40), (BINARIES // 2, 0), (BINARIES // 2, 20)]
KINDS = ["test", "lib", "bin", "bench", "proc-macro", "example"]
PACKAGES = [f"p{at}" for at in range(30)] + ["q"] + [f"r{at}" for at in range(30)]
GROUPS = ["g0", "g1", "g2"]
FACTS = {"triple": "x86_64-unknown-linux-gnu", "facts": [["unix", True], ["windows", False], ["target_os", "linux", True]]}


def override(filter=None, platform=None, **sets):
    where = {**({"filter": filter} if filter else {}), **({"platform": platform} if platform else {})}
    return {**where, **{key.replace("_", "-"): value for key, value in sets.items()}}


# The rules of bench/plain/rules.rs, in the same order.
OVERRIDES = [
    override("test(~slow)", threads_required=2),
    override(r"test(/case_09\d+/)", retries=1),
    override("test(#*::codec::*_b)", test_group="g0"),
    override("package(p1*)", retries=2),
    override("kind(bench)", priority=-10, flaky_result="fail"),
    override(platform="cfg(windows)", retries=3),
    override("platform(host)", priority=10),
    override(r"test(/_x\d*7$/)", 'cfg(target_os = "linux")', priority=20, retries=4),
    override("test(~deep) - kind(lib)", flaky_result="fail"),
    override("binary(b2*) & test(~parse)", test_group="g1"),
    override(r"test(/^module_1\d?::/)", retries=5),
    override("test(#module_?::alpha::*)", threads_required=3),
    override("deps(=q) | test(~writer)", success_output="final"),
    override("test(=module_0::alpha::case_0000_b)", priority=100),
    override("test(~codec)", {"host": "cfg(unix)"}, failure_output="never"),
    override(r"test(/(alpha|parse)::case_\d\d\d5/)", retries=6),
    override("not test(~case)", priority=-100),
    override(r"test(#*{_b\,_c})", leak_timeout="1s"),
    override("kind(/^(bin|example)$/) & test(/deep$/)", test_group="g2"),
    override("test(~_x) & not test(~slow)", retries=7),
    # the first 20 overrides end here
    override("test(~module_2)", threads_required=4),
    override(r"test(/::case_\d+5_x/)", leak_timeout="3s"),
    override("test(#*reader*_c)", test_group="g0"),
    override("package(r?)", priority=1),
    override("test(/^module_(3|5|7)::/)", flaky_result="pass"),
    override("test(~writer_slow::case_00)", retries=9),
    override("binary_id(b1*) & test(#*::deep)", success_output="immediate"),
    override("test(~case)", "cfg(not(unix))", retries=10),
    override(r"test(/case_\d{4}$/)", failure_output="final"),
    override("kind(test) - test(~parse)", priority=2),
    override("test(=module_9::parse::case_0399::deep)", retries=11),
    override("test(~alpha) & test(~_x)", leak_timeout="2s"),
    override("test(#module_[12]?::*)", test_group="g1"),
    override("rdeps(=r0)", retries=12),
    override(r"test(/x\d{3}$/)", threads_required=5),
    override("platform(target) & test(~codec::case_09)", priority=3),
    override(r"test(#*{alpha\,codec}*b)", flaky_result="fail"),
    override("not (test(~a) | test(~b))", priority=4),
    override("test(/(slow|deep)/)", success_output="never"),
    override("all()", retries=13),
]


def binary(at):
    kind = KINDS[at % len(KINDS)]
    platform = "host" if kind == "proc-macro" else "target"
    return {"id": f"b{at:03}", "name": f"b{at:03}", "package": PACKAGES[at % len(PACKAGES)], "kind": kind, "platform": platform}


def inputs(binaries, overrides, before=""):
    """Inputs with these binaries and the first of the overrides, and a text before them in their file."""
    names = sorted(name(at) for at in range(TESTS))
    text = before + "".join(f"[test-groups.{group}]\nmax-threads = 1\n" for group in GROUPS)
    for rule in OVERRIDES[:overrides]:
        text += "[[profile.default.overrides]]\n" + "".join(f"{key} = {toml(value)}\n" for key, value in rule.items())
    workspace = {
        "packages": [{"id": it, "name": it} for it in PACKAGES],
        "links": [["q", f"r{at}"] for at in range(15)],
        "binaries": [{**binary(at), "tests": names} for at in binaries],
    }
    sources = [{"kind": "explicit", "path": "nextest.toml", "text": text}]
    return {"workspace": workspace, "sources": sources, "current_version": "0.9.100", "host": FACTS, "target": FACTS}


def stream(given):
    return json.dumps(given, separators=(",", ":")).encode() + b"\n"


def lines(given):
    """The same tests as the plain program takes them."""
    pieces = []
    for it in given["workspace"]["binaries"]:
        pieces += ["".join(f"\t{it[key]}" for key in ("id", "name", "package", "kind", "platform")), *it["tests"]]
    return ("\n".join(pieces) + "\n").encode()


def seconds(command, given, is_right):
    before = resource.getrusage(resource.RUSAGE_CHILDREN)
    ended = subprocess.run(command, input=given, stdout=subprocess.PIPE)
    after = resource.getrusage(resource.RUSAGE_CHILDREN)
    if not is_right(ended.stdout):
        sys.exit(f"unexpected report: {ended.stdout[:200]}")
    return after.ru_utime + after.ru_stime - before.ru_utime - before.ru_stime


# What the plain program tells of a test's settings; of weights it knows none.
KNOWN = ("priority", "tries", "group", "flaky_result", "success_output", "failure_output")


def check(plain):
    """That all come to the same decisions, over binaries of each kind, and of packages of each kind."""
    chosen = [0, 1, 2, 3, 4, 5, 30, 31, 46, 101, 121, 245]
    for overrides in (0, 10, 20, 40):
        given = inputs(chosen, overrides)
        plan = plans.plan_of(given)
        right = [(it.binary, it.name, *(str(getattr(it.settings, key)) for key in KNOWN)) for it in plan.tests]
        told = subprocess.run([plain, str(overrides), "list"], input=lines(given), stdout=subprocess.PIPE, check=True).stdout.decode()
        if [tuple(line.split(" ")) for line in told.splitlines()] != right:
            sys.exit(f"the plain program comes to something else with {overrides} overrides")
        if PROGRAM.exists():
            report = subprocess.run([PROGRAM], input=stream(given), stdout=subprocess.PIPE).stdout.decode()
            found = [tuple(line.split("\t")[1:]) for line in report.splitlines() if line.startswith("test\t")]
            if found != [(it.binary, it.name, "not-run", f"0/{it.settings.tries}") for it in plan.tests]:
                sys.exit(f"the built program comes to something else with {overrides} overrides: {report[:200]}")
    print(f"the same decisions in the rules, the plain program{' and the built one' if PROGRAM.exists() else ''}")


def main():
    with tempfile.TemporaryDirectory() as folder:
        plain = pathlib.Path(folder) / "overrides_plain"
        subprocess.run(["rustc", "--edition=2021", "-O", "-o", plain, PLAIN], check=True)
        check(plain)
        if sys.argv[1:] == ["--check"]:
            return
        if not PROGRAM.exists():
            print(f"There is no program {PROGRAM}: `make run` builds it. So the plain one is timed alone.")
        # the last binaries, since a filterset may name none that isn't there
        given = {row: inputs(range(BINARIES - row[0], BINARIES), row[1]) for row in ROWS}
        streams = {row: stream(it) + b"x\n" for row, it in given.items()} if PROGRAM.exists() else {}
        texts = {row: lines(it) for row, it in given.items()}
        taken = {}
        for _ in range(TIMES):
            for row in ROWS:
                binaries, overrides = row
                if streams:
                    took = seconds([PROGRAM], streams[row], lambda it: it == b"refused\tline\t1\tBadLine\n")
                    taken.setdefault(("built", row), []).append(took)
                took = seconds([plain, str(overrides)], texts[row], lambda it: it.startswith(b"%d tests" % (binaries * TESTS)))
                taken.setdefault(("plain", row), []).append(took)
    least = {key: min(it) for key, it in taken.items()}
    programs = ["built", "plain"] if streams else ["plain"]
    heads = "".join(f"{word:>12}{'adds':>10}{'a pair':>12}" for word in programs)
    print(f"{'tests':>8}{'overrides':>11}{heads}" + (f"{'ratio':>8}" if streams else ""))
    for row in ROWS:
        binaries, overrides = row
        told, added = "", {}
        for program in programs:
            added[program] = least[program, row] - least[program, (binaries, 0)]
            pair = f"{added[program] / (binaries * TESTS * overrides) * 1e9:.1f} ns" if overrides else "-"
            told += f"{least[program, row]:10.3f} s{added[program]:8.3f} s{pair:>12}"
        ratio = f"{added['built'] / added['plain']:8.1f}" if streams and overrides else ""
        print(f"{binaries * TESTS:>8}{overrides:>11}{told}{ratio}")


if __name__ == "__main__":
    main()
