#!/usr/bin/env python3
"""Writes the table `script_runs` of rows/ and its inputs `script_runs.in`: whole runs with scripts.

    python3 scripts/script_run_rows.py

It knows nothing of the program: what inputs come to is reckoned by scripts/plan_rules.py, and what a run comes to by scripts/run_rows.py. The rows
by hand have each pair of refusals of a line that can meet. The others are drawn from one seed: which scripts are planned, by filters, platforms,
lists of names, several rules, profiles and files, and on tests that aren't selected; and logs that go on as a run may, have stop lines, are cut, or
have a last line that is perhaps refused. Each of the wrong rules of `WRONG` comes to something else on at least `EACH` of all rows, and each of
`KINDS` is among them.
"""
import contextlib
import itertools
import json
import random
import re
import sys

sys.dont_write_bytecode = True
import plan_rules as plans
import run_rows as runs
from config_rows import bare
from element_rows import SIGNS
from plan_rows import changed, facts, shown, source, with_fields
from run_rows import ROWS

SEED, DRAWN, EACH = 61, 150, 3
HEAD = """\
# Made by scripts/script_run_rows.py. Changes of script_runs.in | a log, whose lines are divided by `; ` and have a space for each tab => the report
# without the lines of counters that are 0, and a line with the status.
"""

# ---- inputs as changes of script_runs.in

SETUP = "[scripts.setup.s]\ncommand = \"x\"\n"
RULE = "[[profile.default.scripts]]\nfilter = \"all()\"\nsetup = \"s\"\n"
TEXT = f'experimental = ["setup-scripts"]\n{SETUP}{RULE}'


def inner(text):
    """A text as it stands within a text of JSON."""
    return json.dumps(text, ensure_ascii=False)[1:-1]


def quoted(value):
    """A text, or a list or table of these, in TOML."""
    if isinstance(value, list):
        return f"[{', '.join(map(quoted, value))}]"
    if isinstance(value, dict):
        return "{ " + ", ".join(f"{key} = {quoted(it)}" for key, it in value.items()) + " }"
    return f"'{value}'"


def rule(profile="default", **sets):
    """The text of a script rule."""
    return f"[[profile.{profile}.scripts]]\n" + "".join(f"{key.replace('_', '-')} = {quoted(value)}\n" for key, value in sets.items())


def scripts(*names):
    """The changes that define setup scripts of these names."""
    return [inner(SETUP), inner("".join(f"[scripts.setup.{bare(it)}]\ncommand = 'x'\n" for it in names))]


def ruled(*rules):
    """The changes that put these texts in the place of the script rule."""
    return [inner(RULE), inner("".join(rules))]


def keyed(text):
    """The changes that put a text before the script rule."""
    return ["[[profile.default.scripts]]", inner(text) + "[[profile.default.scripts]]"]


# ---- rows by hand

ALL = rule(filter="all()", setup=["t", "s"])
TWO = [*scripts("t", "s"), *ruled(ALL)]
THREE = [*scripts("s", "t", "u"), *ruled(rule(filter="all()", setup=["u", "s", "t"]))]
ON_B = ruled(rule(filter="test(b)", setup="s"))
NOTHING, ONLY_A = with_fields(filterset="none()"), with_fields(filterset="test(a)")
IMMEDIATELY = keyed("[profile.default]\nfail-fast = { max-fail = 1, terminate = 'immediate' }\n")
PASSES = "{} pass - 1 - -"
S, T, U, ZZ = (PASSES.format(f"script {id}") for id in ("s", "t", "u", "zz"))
A, B, NO_TEST = (PASSES.format(f"end p {name}") for name in ("a", "b", "zz"))
START_A, START_B, START_NONE = (f"start p {name}" for name in ("a", "b", "zz"))
BOTH_PASS = [START_A, A, START_B, B]
FAILS, TIMES_OUT = "script s fail:1 - 1 - -", "script s timeout:pass - 1 - -"


def ends():
    """How a script ends: each result, slow or not, with outputs or without."""
    for result, slow in itertools.product(RESULTS, ("-", "slow")):
        out = "6e6f -" if result == "exec-fail" else "6f6b 4572726f723a2065" if slow == "-" else "- 61"
        yield [], [f"script s {result} {slow} 5 {out}", *(BOTH_PASS if result in runs.SUCCESSES else [])]
    yield [], [TIMES_OUT, *BOTH_PASS]
    yield [], [FAILS]
    yield [], ["script s pass slow 18446744073709551615  -", *BOTH_PASS]
    yield [], ["script s exec-fail slow 0  -"]
    yield [], ["script s abort:127:leaked - 1  "]
    yield [], ["script s fail:-2147483648 - 1 00ff -"]


def failures():
    """What fails a run with scripts: of all the scripts' part counts most."""
    for first in (S, TIMES_OUT):
        yield [], [first, START_A, "end p a fail:1 - 1 - -"]
        yield [], [first, START_A, A]
        yield [], [first]
    yield IMMEDIATELY, [TIMES_OUT, START_A, START_B, "end p a fail:1 - 1 - -", "end p b abort:15 - 1 61 -"]
    yield TWO, [S, "script t leak:fail - 2 - 65"]
    yield TWO, ["script s timeout:fail - 2 61 65"]
    yield TWO, [S]
    yield THREE, [TIMES_OUT, T]
    yield THREE, [S, T, U, *BOTH_PASS]
    yield THREE, ["script s leak:pass slow 1 - -", "script t timeout:pass - 2 - -", "script u timeout:pass slow 3 - -", *BOTH_PASS]


def stops():
    """Stops before, among and behind scripts."""
    for reason in dict.fromkeys(REASONS):
        yield TWO, [f"stop {reason}"]
        yield TWO, [S, f"stop {reason}"]
        yield TWO, [S, T, f"stop {reason}"]
        yield TWO, [S, T, START_A, f"stop {reason}", A]
        yield TWO, [FAILS, f"stop {reason}"]
        yield TWO, [TIMES_OUT, T, *BOTH_PASS, f"stop {reason}"]
    yield [], ["stop signal", "stop report-error"]
    yield [], ["stop signal", "stop interrupt"]
    yield [], []


def enabled():
    """Which scripts are planned: none where nothing is selected, or by a rule that holds only on a test that isn't; and what warnings there are."""
    for log in ([], ["stop interrupt"], [S], [START_A], ["stop interrupt", S]):
        yield NOTHING, log
    yield ['experimental = [\\"setup-scripts\\"]\\n', ""], []
    yield ruled(rule(filter="all()")), BOTH_PASS
    yield ruled(rule(filter="all()", setup=[]), rule(filter="all()", setup="s"), rule("z", filter="all()")), [S, *BOTH_PASS]
    yield ["[scripts.setup.s]", "[script.s]"], [S, *BOTH_PASS]
    yield ["[scripts.setup.s]", "zzz = 1\\n[script.s]"], [FAILS]
    yield ruled(), BOTH_PASS
    yield ruled(), [S]
    yield ON_B, [S, *BOTH_PASS]
    for log in ([], [START_A, A], [S]):
        yield [*ON_B, *ONLY_A], log


def names():
    """A name counts in its NFC, in a rule as in a definition, but not in a log; scripts stand by the bytes of their names, each once."""
    for name, other in itertools.product(("\u00e9", "e\u0301"), repeat=2):
        yield [*scripts(name), *ruled(rule(filter="all()", setup=other))], [S.replace(" s ", " \u00e9 "), *BOTH_PASS]
    yield [*scripts("\u00e9"), *ruled(rule(filter="all()", setup="\u00e9"))], [S.replace(" s ", " e\u0301 ")]
    yield [*scripts("a", "Z", "\u00e9", "z"), *ruled(rule(filter="all()", setup=["z", "a"]), rule(filter="test(b)", setup=["\u00e9", "Z", "z"]))], []
    yield [*scripts("s", "s2", "s-1"), *ruled(rule(filter="all()", setup=["s2", "s", "s-1", "s"]))], []


def wrappers():
    """A wrapper script is no setup script, and changes nothing of a report."""
    part, other = scripts("s")
    wrapped = ['[\\"setup-scripts\\"]', '[\\"setup-scripts\\", \\"wrapper-scripts\\"]', part, other + inner("[scripts.wrapper.w]\ncommand = 'y'\n")]
    yield [*wrapped, *ruled(rule(filter="all()", setup="s", run_wrapper="w"))], [S, *BOTH_PASS]
    yield [*wrapped, *ruled(rule(filter="all()", run_wrapper="w"))], BOTH_PASS
    yield [*wrapped, *ruled(rule(filter="all()", list_wrapper="w"))], [PASSES.format("script w")]


def default_filters():
    """In a filter of a rule `default()` is the default filter, also where it is left aside."""
    default = keyed("[profile.default]\ndefault-filter = 'test(a)'\n")
    for text, fields in itertools.product(("default()", "not default()"), ({}, {"ignore_default_filter": True})):
        yield [*default, inner(RULE), inner(rule(filter=text, setup="s")), *with_fields(**fields)], [S, START_A, A]


def platforms():
    """Rules hold by what is known of the platforms of a test's binary."""
    given = ({}, {"host": facts(unix=True)}, {"host": facts(unix=False)}, {"host": facts(unix=True), "target": facts(unix=False)})
    for fields, platform in itertools.product(given, ("cfg(unix)", {"host": "cfg(unix)"})):
        yield [*ruled(rule(platform=platform, setup="s")), *with_fields(**fields)], [S, *BOTH_PASS]


def profiles():
    """Rules are those of the chosen profile, of its parents and of `default`, and of no other."""
    chain = "[profile.ci]\ninherits = 'base'\n[profile.base]\n"
    for profile in ("ci", "base", "default", "other"):
        yield [*ruled(chain, rule(profile, filter="all()", setup="s")), *with_fields(profile="ci")], [S, *BOTH_PASS]
    yield ruled("[profile.ci]\n", rule("ci", filter="all()", setup="s")), [S]


# Each refusal of a line, beside each that comes behind it and can meet it.


def bad_lines():
    """A line of a script that spells nothing, of a script that isn't planned, and in a stopped run."""
    for line in ("script zz pass - 01 - -", "script s pass - 1 -", "script s pass - 1 - - -", "script s exec-fail - 1 - -", "script s pass - 1 - A0", "script s", "script"):
        yield [], [line]
        yield [], ["stop interrupt", line]


def unknown_scripts():
    """A script that isn't planned: in a run that goes on, is stopped, has scripts behind it."""
    for before in ([], [S], ["stop interrupt"], [FAILS], [S, START_A]):
        yield [], [*before, ZZ]
        yield TWO, [*before[:1], PASSES.format("script ")]
    yield [*scripts("s", "t"), *ruled(rule(filter="all()", setup="s"))], [S, T]


def stopped_scripts():
    """A script of a stopped run: the next one, one behind it, one that ended."""
    logs = (["stop interrupt"], [S, "stop report-error"], [FAILS], [S, T, "stop signal"], ["stop signal", "stop second-signal"])
    for before, line in itertools.product(logs, (S, T, U)):
        yield THREE, [*before, line]


def scripts_out_of_order():
    """A script that ended, and one whose turn it isn't yet."""
    for before, line in (([], T), ([], U), ([S], S), ([S], U), ([S, T], S), ([S, T], T), ([S, T, U], S), ([S, T, U], U), ([S, T, U, START_A], T), ([S, T, U, START_A, A], U)):
        yield THREE, [*before, line]
    yield [], [S, S]
    yield TWO, [T]


def unknown_starts():
    """A start of a test that isn't selected: in a stopped run, before scripts ended, and both."""
    for before in ([], [S], [S, T], ["stop interrupt"], [FAILS], [S, T, "stop interrupt"], [S, T, START_A]):
        yield TWO, [*before, START_NONE]
        yield TWO, [*before, "start q a"]
    yield ONLY_A, [START_B]
    yield ONLY_A, [S, START_B]


def stopped_starts():
    """A start in a stopped run: before scripts ended, of a test that runs or is finished."""
    yield [], [FAILS, START_A]
    for before in (["stop interrupt"], [FAILS], [S, "stop signal"], [S, T, "stop signal"], [S, T, START_A, "stop signal"], [S, T, START_A, A, "stop signal"]):
        yield TWO, [*before, START_A]


def other_starts():
    """A start before scripts ended, of a test that runs, and of one that is finished."""
    yield [], [START_A]
    for before in ([], [S], [TIMES_OUT], [S, T, START_A], [S, T, START_A, A]):
        yield TWO, [*before, START_A]


def refused_ends():
    """An end of a test that isn't selected, and of one that doesn't run."""
    for before in ([], [S], [S, T], ["stop interrupt"], [FAILS], [S, T, START_A, A]):
        yield TWO, [*before, NO_TEST]
        yield TWO, [*before, A]


BY_HAND = [
    ends, failures, stops, enabled, names, wrappers, default_filters, platforms, profiles, bad_lines, unknown_scripts, stopped_scripts, scripts_out_of_order,
    unknown_starts, stopped_starts, other_starts, refused_ends,
]


# ---- drawn plans

NAMES = ["s", "t", "u", "Z"]
OF_TOOL = "@tool:t:s"
FILTERS = ["all()", "all()", "test(a)", "test(b)", "test(c)", "not test(a)", "none()", "kind(lib)", "platform(host)", "binary(p)", "default()", "test(a) or test(c)", "test(zz)"]
SPECS = ["cfg(unix)", "cfg(unix)", "cfg(windows)", "cfg(not(unix))", "cfg(foo)", "x86-1"]
FILTERSETS = ["test(a)", "test(b)", "not test(a)", "kind(lib)", "test(c)", "none()"]
SETTINGS = ["", "", "retries = 1\n", "fail-fast = false\n", "fail-fast = false\nretries = 2\n", "fail-fast = { max-fail = 2 }\n", "fail-fast = { max-fail = 1, terminate = 'immediate' }\n"]
OTHER_BINARY = {"id": "q", "name": "q", "package": "p", "kind": "proc-macro", "platform": "host", "tests": ["c"]}
PLATFORMS = [{}, {}, {"host": facts(unix=True)}, {"host": facts(unix=False)}, {"host": facts(unix=True), "target": facts(unix=False)}, {"target": facts(unix=False, windows=True)}]


def drawn_rule(draw, profiles, names):
    """The text of a script rule of some profile that names some of these scripts."""
    sets, spec = {}, lambda: draw.choice(SPECS)
    kind = draw.choice(["filter", "filter", "filter", "both", "platform"])
    if kind != "filter":
        sets["platform"] = draw.choice([spec(), {"host": spec()}, {"target": spec()}, {"host": spec(), "target": spec()}])
    if kind != "platform":
        sets["filter"] = draw.choice(FILTERS)
    chosen = draw.sample(names, draw.randrange(1, len(names) + 1))
    return rule(draw.choice(profiles), **sets, setup=chosen[0] if len(chosen) == 1 and draw.random() < 0.7 else chosen)


def drawn_changes(draw):
    """Changes of script_runs.in: one to three scripts, some rules in a chain of profiles and beside it, and other fields."""
    names = draw.sample(NAMES, draw.choice([1, 2, 2, 3, 3]))
    chain = draw.choice([["default"], ["default"], ["ci", "default"], ["ci", "base", "default"]])
    profiles = [*chain, *chain, "other"]
    of_tool = [OF_TOOL] if draw.random() < 0.2 else []
    text = f"[profile.default]\n{draw.choice(SETTINGS)}"
    text += "[profile.ci]\ninherits = 'base'\n[profile.base]\n" if len(chain) == 3 else "[profile.ci]\n" if len(chain) == 2 else ""
    rules = [drawn_rule(draw, profiles, names + of_tool) for _ in range(draw.randrange(1, 5))]
    changes = [*scripts(*names), *ruled(text, *rules)]
    if of_tool:
        tool = source(f"[scripts.setup.'{OF_TOOL}']\ncommand = 'x'\n" + drawn_rule(draw, profiles, of_tool), "tool")
        changes += ['"sources":[', f'"sources":[{shown(tool)},']
    if draw.random() < 0.5:
        changes += ['["a","b"]}', f'["a","b"]}},{shown(OTHER_BINARY)}']
    fields = {"profile": "ci"} if len(chain) > 1 else {}
    fields |= draw.choice(PLATFORMS)
    if draw.random() < 0.35:
        fields["filterset"] = draw.choice(FILTERSETS)
    return changes + with_fields(**fields)


# ---- drawn logs

RESULTS = ["pass", "leak:pass", "leak:fail", "fail:1", "fail:1:leaked", "abort:9", "exec-fail", "timeout:pass", "timeout:fail"]
OFTEN = [*runs.SUCCESSES, *runs.SUCCESSES, *runs.SUCCESSES, *["pass"] * 16]
OUTPUTS = ["-", "-", "", "6f6b0a", "4572726f723a207a0a"]
REASONS = ["report-error", "global-timeout", "signal", "interrupt", "interrupt", "second-signal"]
WRONG_LINES = [ZZ, START_NONE, NO_TEST, "script s pass - 1"]


def drawn_record(draw):
    result = draw.choice([*RESULTS, *OFTEN])
    outputs = "6e6f -" if result == "exec-fail" else f"{draw.choice(OUTPUTS)} {draw.choice(OUTPUTS)}"
    return f"{result} {draw.choice(['-', '-', 'slow'])} {draw.randrange(1000)} {outputs}"


def drawn_line(draw, run):
    """A line that may come next; None where none but a stop may."""
    if run.reason is None and run.pending():
        return f"script {run.pending()[0].id} {drawn_record(draw)}"
    starts = [f"start {' '.join(name)}" for name, test in run.tests.items() if run.reason is None and test.mark in ("waiting", "between")]
    ends = [f"end {' '.join(name)} {drawn_record(draw)}" for name, test in run.tests.items() if test.mark == "running"]
    return draw.choice(starts + ends) if starts + ends else None


def drawn_walk(draw, plan):
    """The lines of a run that goes on till nothing can come, with some stops."""
    run, lines, stops = runs.Run(plan), [], draw.choice([0, 0, 0, 1, 1, 2])
    while True:
        line = drawn_line(draw, run)
        if stops and (line is None or draw.random() < 0.2):
            line, stops = f"stop {draw.choice(REASONS)}", stops - 1
        if line is None:
            return lines
        run.take(line.split(" "))
        lines.append(line)


def drawn_log(draw, plan):
    """Such lines; or a front of them, perhaps with any line behind it."""
    lines, kind = drawn_walk(draw, plan), draw.choice(["whole", "whole", "cut", "wrong"])
    if kind == "whole":
        return lines
    cut = lines[: draw.randrange(len(lines) + 1)]
    return cut + ([draw.choice(any_lines(plan))] if kind == "wrong" else [])


def any_lines(plan):
    """Lines that may be refused or not: of each script, and of each test its start and an end; and some that are always refused."""
    tests = [f"{it.binary} {it.name}" for it in plan.tests]
    ends = [PASSES.format(f"script {id}") for id in plan.scripts] + [PASSES.format(f"end {test}") for test in tests]
    return [*ends, *(f"start {test}" for test in tests), *WRONG_LINES]


# ---- wrong rules, to see that rows tell them from the right ones


class OtherRun(runs.Run):
    """A run by another rule."""


class NoOrder(OtherRun):
    """Scripts end in any order."""

    def end_script(self, id, ended):
        self.scripts.sort(key=lambda script: (script.ended is None, script.id != id))
        return super().end_script(id, ended)


class ScriptsOfStoppedRuns(OtherRun):
    def end_script(self, id, ended):
        kept, self.reason = self.reason, None
        try:
            return super().end_script(id, ended)
        finally:
            self.reason = self.reason or kept


class StoppedBeforeUnknown(OtherRun):
    def end_script(self, id, ended):
        if self.reason is not None:
            raise plans.Refused("Stopped")
        return super().end_script(id, ended)


class OrderBeforeStopped(OtherRun):
    def end_script(self, id, ended):
        if id in [script.id for script in self.scripts] and id not in [script.id for script in self.pending()[:1]]:
            raise plans.Refused("OutOfOrder")
        return super().end_script(id, ended)


class NoFailureStops(OtherRun):
    """A script that failed doesn't stop the run."""

    def end_script(self, id, ended):
        super().end_script(id, ended)
        self.reason = None
        return []


class EachFailureStops(OtherRun):
    """A timeout that passes stops the run too."""

    def end_script(self, id, ended):
        told = super().end_script(id, ended)
        return self.stop("setup-script-failure") if ended[0] == "timeout:pass" else told


class StartsBeforeScripts(OtherRun):
    def start(self, test):
        kept, self.scripts = self.scripts, []
        try:
            super().start(test)
        finally:
            self.scripts = kept


class PendingBeforeStopped(OtherRun):
    def start(self, test):
        if self.pending():
            raise plans.Refused("ScriptsPending")
        super().start(test)


class TestsCountMost(OtherRun):
    """Failed tests come before scripts in the outcome."""

    def summary(self, reason):
        kept, self.scripts = self.scripts, [] if any(test.fails() for test in self.finished()) else self.scripts
        told = super().summary(reason)
        self.scripts = kept
        return told


class FailedScriptsAlone(OtherRun):
    """Scripts that didn't end count for nothing."""

    def summary(self, reason):
        kept, self.scripts = self.scripts, [script for script in self.scripts if script.ended]
        told = super().summary(reason)
        self.scripts = kept
        return told


class FailuresAreCancelled(OtherRun):
    def summary(self, reason):
        status, outcome = super().summary(reason)
        return status, f"cancelled setup-script {reason}" if outcome == "failed setup-script" and reason != "-" else outcome


class ScriptsBehindTests(OtherRun):
    parts = lambda self: [it for test in self.tests.values() for it in test.part()] + [it for script in self.scripts for it in script.part()]


class EndedScriptsAlone(OtherRun):
    """The final text tells nothing of scripts that didn't end."""

    parts = lambda self: [line for line in super(EndedScriptsAlone, self).parts() if not line.endswith("\tnot-run") or line.startswith("test")]


class OtherScript(runs.Script):
    """A script by another rule."""


class PassingTimeouts(OtherScript):
    counter = lambda self: "passed" if self.ended[0] == "timeout:pass" else super().counter()


class FailedTimeouts(OtherScript):
    counter = lambda self: "failed" if self.ended[0] == "timeout:fail" else super().counter()


class FailedStarts(OtherScript):
    counter = lambda self: "failed" if self.ended[0] == "exec-fail" else super().counter()


class LeaksPass(OtherScript):
    counter = lambda self: "passed" if self.ended[0] == "leak:fail" else super().counter()


class LeaksFail(OtherScript):
    counter = lambda self: "failed" if self.ended[0] == "leak:pass" else super().counter()


class AllOutputs(OtherScript):
    part = lambda self: super().part()[:1] + (runs.outputs_of(self.ended) if self.ended else [])


class NoOutputs(OtherScript):
    part = lambda self: super().part()[:1]


class OutputsOfTimeouts(OtherScript):
    """Outputs of each script that counts as failed, of a timeout that passes too."""

    part = lambda self: super().part()[:1] + (runs.outputs_of(self.ended) if self.fails() else [])


WRONG = [*OtherRun.__subclasses__(), *OtherScript.__subclasses__()]


@contextlib.contextmanager
def by_rule(wrong):
    name = "Run" if issubclass(wrong, runs.Run) else "Script"
    right = getattr(runs, name)
    setattr(runs, name, wrong)
    try:
        yield
    finally:
        setattr(runs, name, right)


# ---- the rows


def stream_of(text, changes, lines):
    return changed(text, changes) + "".join(line.replace(" ", "\t") + "\n" for line in lines)


def answer_to(stream):
    """The report without counters that are 0, and the status."""
    return re.sub(r"(?m)^(?!status)[a-z-]+\t0\n", "", runs.run_answer(stream))


def differing(stream, right):
    """The wrong rules by which a stream comes to something else."""
    for wrong in WRONG:
        with by_rule(wrong):
            try:
                told = answer_to(stream)
            except plans.Refused as refusal:
                told = str(refusal)
        if told != right:
            yield wrong


KINDS = [
    *(f"script\t[^\t]*\t{result}\t{slow}" for result in RESULTS for slow in ("-", "slow")), "script\t[^\t]*\tnot-run", "script\t@tool:t:s",
    *(f"refused\tline\t[0-9]+\t{name}\n" for name in ("UnknownScript", "Stopped", "OutOfOrder", "UnknownTest", "ScriptsPending", "Running", "Finished", "NotRunning", "BadLine")),
    *(f"outcome {outcome}" for outcome in ("success", "no-tests-run", "failed setup-script", "cancelled setup-script -", "cancelled setup-script interrupt", "failed test", "cancelled test")),
    *(f"setup-scripts-initial-count\t{number}" for number in (1, 2, 3)), "initial-run-count", "status\t0\n", "status\t4\n", "status\t100\n", "status\t105\n",
    *(f"cancel-reason\t{reason}\n" for reason in ("-", "setup-script-failure", "test-failure", "test-failure-immediate", "interrupt")), "\nout\t\n", "\nerr\t\n", "\nerror\t6e6f\n",
]


class Rows:
    """The rows so far, each with its answer, and how often each wrong rule comes to something else on them."""

    def __init__(self, text):
        self.text, self.answers, self.told = text, {}, dict.fromkeys(WRONG, 0)

    def add(self, changes, lines, fewest=0):
        """A row, where at least so many wrong rules come to something else on it."""
        stream, name = stream_of(self.text, changes, lines), f"{' => '.join(changes)} | {'; '.join(lines)}"
        right = answer_to(stream)
        others = list(differing(stream, right))
        if name in self.answers or len(others) < fewest:
            return
        self.answers[name] = right
        for wrong in others:
            self.told[wrong] += 1

    def draw(self, draw):
        """A drawn row: most have scripts, and tell some wrong rules from the right one."""
        changes = drawn_changes(draw)
        plan = plans.plan_of(json.loads(changed(self.text, changes)))
        if plan.scripts or draw.random() < 0.1:
            self.add(changes, drawn_log(draw, plan), draw.choice([0, 1, 2, 3]))

    def check(self):
        """That each wrong rule is told, and each kind is there."""
        told = {wrong.__name__: number for wrong, number in self.told.items() if number < EACH}
        missing = [kind for kind in KINDS if not any(re.search(kind, answer) for answer in self.answers.values())]
        assert not told and not missing, (told, missing)


def main():
    plan = (runs.DATA / "plan.json").read_text(encoding="utf-8").rstrip("\n")
    text = changed(plan, ['"sources":[]', f'"sources":{shown([source(TEXT)])}']) + "\n"
    (ROWS / "script_runs.in").write_text(text, encoding="utf-8")
    rows, draw = Rows(text), random.Random(SEED)
    for changes, lines in itertools.chain(*(make() for make in BY_HAND)):
        rows.add(changes, lines)
    hand = len(rows.answers)
    while len(rows.answers) < hand + DRAWN:
        rows.draw(draw)
    rows.check()
    told = [f"{name} => {answer}".translate(SIGNS) for name, answer in rows.answers.items()]
    (ROWS / "script_runs.txt").write_text("\n".join([HEAD, *told]) + "\n", encoding="utf-8")
    print(f"script_runs: {len(told)} rows, {hand} by hand")


if __name__ == "__main__":
    main()
