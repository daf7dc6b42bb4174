#!/usr/bin/env python3
"""Writes two tables: `profiles_plans` of the program `worked_rows`, what the configurations and the profile of inputs come to, and
`profiles_runs` of rows/, whole runs under settings of every kind.

    python3 scripts/run_rows.py

It knows nothing of the program: each answer is reckoned here by the rules. What inputs come to is reckoned by scripts/plan_rules.py; rows that
scripts/plan_rows.py draws stand at the end of `profiles_plans`. Then, by the rules:

- Scripts end one by one, in the plan's order, while the run isn't stopped: another line of a script is refused, of one that isn't planned first,
  then where the run is stopped. A script that ends without a success stops the run. No test starts before all scripts ended.
- An attempt that ends finishes its test if it is a success, the last try, or the run is stopped; else the test is between two attempts. A
  finished test fails where its last attempt does, or where it passes late and the flaky rule is `fail`. A run that isn't stopped is stopped by
  the end that finishes a test after which those that failed weigh as much together as the limit, each once and by its own setting
  (`fail-weight`); and each stop finishes the tests between two attempts. What all that failed weigh in the end is a counter, at most 2^64 - 1.
- A test is told by the reason that stood before its own attempt ended, or by the stop that finished it. Its line is due where the status level
  reaches the test's. Outputs are those for a success where the last attempt is one. They stand at once where they are shown immediately, but
  not after an interrupt; in the final text where they are shown finally, but not after a signal where they stood at once. The final text has
  each test that isn't finished, without outputs; and of the others, but after an interrupt, those whose outputs are shown finally and those
  that the final level reaches. A test that the run itself ended has its line alone.
- A script failed whose end is a failure, a leak that fails, an abort, a start that failed or any timeout, also one that passes. The status is 105
  where one failed or didn't end; else 100 where a test failed or didn't finish; else 4 where there is no test. The final text tells of scripts
  first, with the outputs of those that ended without a success.
- The part of an output that tells of the error runs from the last panic message of standard error, or from a line before it that begins with
  `Error:`, else from its first line that begins so; or it is the note on standard output that a panic is missing.
"""
import itertools
import json
import random
import re
import sys

sys.dont_write_bytecode = True
import config_rows as configs
import plan_rows
import plan_rules as plans
import version_rows as versions
from config_rows import in_order
from element_rows import SIGNS, tell_numbers, toml
from plan_rules import Refused
from plan_rows import changed, facts, source, with_sources

DATA, ROWS = versions.ROOT / "crates/worked_rows/data", versions.ROOT / "rows"

STATUS_LEVELS = ["None", "Fail", "Retry", "Slow", "Leak", "Pass", "Skip", "All"]
FINAL_LEVELS = ["None", "Fail", "Flaky", "Slow", "Skip", "Leak", "Pass", "All"]
REASONS = ["setup-script-failure", "test-failure", "report-error", "test-failure-immediate", "global-timeout", "signal", "interrupt", "second-signal"]
COUNTERS = (
    "initial-run-count finished-count setup-scripts-initial-count setup-scripts-finished-count setup-scripts-passed setup-scripts-failed"
    " setup-scripts-exec-failed setup-scripts-timed-out passed passed-slow passed-timed-out flaky failed failed-slow failed-timed-out leaky"
    " leaky-failed exec-failed skipped failed-weight"
).split()
MOST_COUNTED = 2**64 - 1

SUCCESSES = ("pass", "leak:pass", "timeout:pass")
# Under which counter a script counts that ended, by the first word of its end; of leaks by the whole.
COUNTED_SCRIPTS = {"pass": "passed", "leak:pass": "passed", "leak:fail": "failed", "fail": "failed", "abort": "failed", "exec-fail": "exec-failed", "timeout": "timed-out"}

# The lines of a log, but for the bounds of numbers.
RECORD = (
    r"(?:(?:pass|(?:leak|timeout):(?:pass|fail)|(?:fail:-?|abort:)[1-9][0-9]*(?::leaked)?)\t(?:slow|-)\t(?:0|[1-9][0-9]*)(?:\t(?:-|(?:[0-9a-f]{2})*)){2}"
    r"|exec-fail\t(?:slow|-)\t(?:0|[1-9][0-9]*)\t(?:[0-9a-f]{2})*\t-)"
)
LINE = re.compile(
    rf"script\t[^\t]*\t{RECORD}|start\t[^\t]*\t[^\t]*|end\t[^\t]*\t[^\t]*\t{RECORD}|stop\t(?:report-error|global-timeout|signal|interrupt|second-signal)"
)

# ---- runs

WHITE = "\t\n\v\f\r \u0085\u00a0\u1680\u2028\u2029\u202f\u205f\u3000" + "".join(map(chr, range(0x2000, 0x200B)))


def trimmed(output):
    return output.decode("utf-8", "surrogateescape").rstrip(WHITE).encode("utf-8", "surrogateescape")


def slice_of(out, err):
    """The part of outputs that tells of the error: its kind, its place in its stream, and its length; None where there is none."""
    panics = list(re.finditer(rb"^thread '[^']+' (?:\([0-9]+\) )?panicked at ", err, re.MULTILINE))
    error = re.search(rb"^Error: ", err, re.MULTILINE)
    if panics:
        start = panics[-1].start()
        line = err[:start].rstrip(b"\r\n").rfind(b"\n") + 1
        start = line if line and err[line:].startswith(b"Error:") else start
        return "panic", start, len(trimmed(err[start:]))
    if error:
        return "error", error.start(), len(trimmed(err[error.start() :]))
    note = re.search(rb"^.*note: test did not panic as expected.*?(?=\r?$)", out, re.MULTILINE)
    return ("should-panic", note.start(), len(note[0])) if note else None


def outputs_of(ended):
    """The lines of the outputs of what ended so."""
    result, _, _, out, err = ended
    if result == "exec-fail":
        return [f"error\t{out}"]
    return [f"{name}\t{stream}" for name, stream in (("out", out), ("err", err)) if stream != "-"]


class Script:
    """A script of a run: the fields of its end, or None where it didn't end."""

    def __init__(self, id):
        self.id, self.ended = id, None

    def is_success(self):
        return self.ended[0] in SUCCESSES

    def counter(self):
        """The counter under which it counts, once it ended."""
        result = self.ended[0]
        return COUNTED_SCRIPTS[result if result.startswith("leak") else result.split(":")[0]]

    def fails(self):
        return self.ended is not None and self.counter() != "passed"

    def part(self):
        """Its lines in the final text."""
        if self.ended is None:
            return [f"script\t{self.id}\tnot-run"]
        line = "\t".join(["script", self.id, *self.ended[:3]])
        return [line] + ([] if self.is_success() else outputs_of(self.ended))


class Test:
    """A test of a run: the fields of its ended attempts, its mark, and the reason under which it finished."""

    def __init__(self, planned, levels):
        self.name, self.settings, self.levels_shown = (planned.binary, planned.name), planned.settings, levels
        self.ended, self.mark, self.under = [], "waiting", None

    def result(self):
        return self.ended[-1][0]

    def is_success(self):
        return self.result() in SUCCESSES

    def is_late(self):
        return len(self.ended) > 1

    def weight(self):
        return self.settings.fail_weight

    def fails(self):
        return not self.is_success() or (self.is_late() and self.settings.flaky_result == "Fail")

    def is_ended_by_run(self):
        return self.under == "test-failure-immediate" and self.result() in ("abort:15", "abort:15:leaked")

    def fate(self):
        if self.mark != "finished":
            return "unfinished" if self.ended else "not-run"
        if not self.is_success():
            return "fail"
        return "pass" if not self.is_late() else "flaky-fail" if self.fails() else "flaky"

    def levels(self):
        if self.fails():
            return "Fail", "Fail"
        if self.is_late():
            return "Retry", "Flaky"
        level = {"pass": "Pass", "leak:pass": "Leak", "timeout:pass": "Slow"}[self.result()]
        return level, "Slow" if self.ended[-1][1] == "slow" else level

    def shows(self):
        """Whether it has a line as it finishes, outputs there, a part in the final text, and outputs there."""
        display = self.settings.success_output if self.is_success() else self.settings.failure_output
        status, final = self.levels()
        is_hidden = self.under in ("interrupt", "second-signal") or self.is_ended_by_run()
        at_once, at_end = display.startswith("Immediate"), display.endswith("Final")
        line = STATUS_LEVELS.index(self.levels_shown[0]) >= STATUS_LEVELS.index(status)
        part = at_end or FINAL_LEVELS.index(self.levels_shown[1]) >= FINAL_LEVELS.index(final)
        is_immediate = at_once and not is_hidden
        return line or is_immediate, is_immediate, part and not is_hidden, at_end and not (at_once and self.under == "signal")

    def words(self):
        return "\t".join([*self.name, self.fate(), f"{len(self.ended)}/{self.settings.tries}"])

    def outputs(self):
        lines = outputs_of(self.ended[-1])
        if self.is_success() or self.result() == "exec-fail":
            return lines
        found = slice_of(*(b"" if stream == "-" else bytes.fromhex(stream) for stream in self.ended[-1][3:]))
        return lines + (["slice\t{}\t{}\t{}".format(*found)] if found else [])

    def done(self):
        line, outputs, _, _ = self.shows()
        return [f"done\t{self.words()}"] * line + (self.outputs() if outputs else [])

    def part(self):
        _, _, is_stored, outputs = self.shows() if self.mark == "finished" else (0, 0, True, False)
        tries = [f"try\t{number}\t" + "\t".join(fields[:3]) for number, fields in enumerate(self.ended, 1)]
        return ([f"test\t{self.words()}"] + tries + (self.outputs() if outputs else [])) if is_stored else []


class Run:
    """A run of a plan."""

    def __init__(self, plan):
        self.tests = {(it.binary, it.name): Test(it, plan.levels) for it in plan.tests}
        self.scripts = [Script(id) for id in plan.scripts]
        self.skipped, self.reason = len(plan.skipped), None
        limit = re.fullmatch("All|Count { max_fail: ([0-9]+), terminate: (Wait|Immediate) }", plan.limit)
        self.limit = int(limit[1]) if limit[1] else None
        self.limit_reason = "test-failure-immediate" if limit[2] == "Immediate" else "test-failure"

    def finished(self):
        return [test for test in self.tests.values() if test.mark == "finished"]

    def failed_weight(self):
        """What the finished tests that fail weigh together."""
        return sum(test.weight() for test in self.finished() if test.fails())

    def is_at_limit(self):
        return self.limit is not None and self.failed_weight() >= self.limit

    def stop(self, reason):
        """The tests that a stop finishes."""
        if self.reason is not None:
            self.reason = max(self.reason, reason, key=REASONS.index)
            return []
        self.reason = reason
        between = [test for test in self.tests.values() if test.mark == "between"]
        for test in between:
            test.mark, test.under = "finished", reason
        return between

    def pending(self):
        """The scripts that didn't end yet."""
        return [script for script in self.scripts if script.ended is None]

    def end_script(self, id, ended):
        """The tests that the end of a script finishes."""
        if id not in [script.id for script in self.scripts]:
            raise Refused("UnknownScript")
        if self.reason is not None:
            raise Refused("Stopped")
        if id not in [script.id for script in self.pending()[:1]]:
            raise Refused("OutOfOrder")
        script = self.pending()[0]
        script.ended = ended
        return [] if script.is_success() else self.stop("setup-script-failure")

    def start(self, test):
        if self.reason is not None:
            raise Refused("Stopped")
        if self.pending():
            raise Refused("ScriptsPending")
        if test.mark in ("running", "finished"):
            raise Refused(test.mark.capitalize())
        test.mark = "running"

    def take(self, fields):
        """The tests that a line finishes, in the order in which they are told."""
        if not LINE.fullmatch("\t".join(fields)):
            raise Refused("BadLine")
        if fields[0] == "stop":
            return self.stop(fields[1])
        if fields[0] == "script":
            return self.end_script(fields[1], fields[2:])
        test = self.tests.get(tuple(fields[1:3]))
        if test is None:
            raise Refused("UnknownTest")
        if fields[0] == "start":
            self.start(test)
            return []
        if test.mark != "running":
            raise Refused("NotRunning")
        test.ended.append(fields[3:])
        if not (test.is_success() or len(test.ended) == test.settings.tries or self.reason is not None):
            test.mark = "between"
            return []
        test.mark, test.under = "finished", self.reason
        is_over = self.reason is None and self.is_at_limit()
        return [test, *(self.stop(self.limit_reason) if is_over else [])]

    def counters(self):
        counts = dict.fromkeys(COUNTERS, 0) | {"initial-run-count": len(self.tests), "finished-count": len(self.finished())}
        counts |= {"skipped": self.skipped, "failed-weight": min(self.failed_weight(), MOST_COUNTED)}
        ended = [script for script in self.scripts if script.ended is not None]
        counts |= {"setup-scripts-initial-count": len(self.scripts), "setup-scripts-finished-count": len(ended)}
        for script in ended:
            counts[f"setup-scripts-{script.counter()}"] += 1
        for test in self.finished():
            result, kind = test.result(), test.result().split(":")[0]
            if not test.fails():
                names = ["passed", *(["flaky"] if test.is_late() else []), *(["passed-timed-out"] if kind == "timeout" else [])]
                counted_slow = "passed-slow" if kind != "timeout" else None
            else:
                names = ["exec-failed" if kind == "exec-fail" else "failed-timed-out" if result == "timeout:fail" else "failed"]
                counted_slow = "failed-slow" if names == ["failed"] else None
            names += [counted_slow] if counted_slow and test.ended[-1][1] == "slow" else []
            names += {"leak:pass": ["leaky"], "leak:fail": ["leaky-failed"]}.get(result, [])
            for name in names:
                counts[name] += 1
        return counts

    def summary(self, reason):
        """The status and the outcome."""
        initial, finished = len(self.tests), len(self.finished())
        numbers = f"test {initial} {initial - finished}"
        is_failed = reason in ("-", "setup-script-failure", "test-failure", "test-failure-immediate")
        if any(script.fails() for script in self.scripts):
            return 105, "failed setup-script" if is_failed else f"cancelled setup-script {reason}"
        if self.pending():
            return 105, f"cancelled setup-script {reason}"
        if any(test.fails() for test in self.finished()):
            return 100, f"failed {numbers}" if is_failed else f"cancelled {numbers} {reason}"
        if finished < initial:
            return 100, f"cancelled {numbers} {reason}"
        return (0, "success") if initial else (4, "no-tests-run")

    def parts(self):
        """The lines of scripts and tests in the final text."""
        return [line for it in [*self.scripts, *self.tests.values()] for line in it.part()]

    def final_text(self):
        """The final text and the status."""
        reason = self.reason or "-"
        status, outcome = self.summary(reason)
        lines = ["== final ==", f"status\t{status}", f"outcome {outcome}"]
        lines += [f"{name}\t{count}" for name, count in self.counters().items()]
        return [*lines, f"cancel-reason\t{reason}", *self.parts()], status


def run_answer(stream):
    """The report of a stream and a line with the status."""
    first, *log = stream.split("\n")
    inputs = json.loads(first)
    try:
        plan = plans.plan_of(inputs)
    except Refused as refusal:
        return f"refused\t{refusal}\n(status {92 if str(refusal) == 'VersionError' else 96})\n"
    return log_answer(plan, log)


def log_answer(plan, log):
    """The report of a plan by the lines of a log, and a line with the status."""
    run, lines = Run(plan), [f"warning\t{warning}" for warning in plan.warnings]
    for number, line in enumerate(log, 1):
        try:
            told = run.take(line.split("\t")) if line else []
        except Refused as refusal:
            return "\n".join([*lines, f"refused\tline\t{number}\t{refusal}", "(status 96)\n"])
        lines += itertools.chain(*(test.done() for test in told))
    final, status = run.final_text()
    return "\n".join([*lines, *final, f"(status {status})\n"])


# ---- the rows, each as changes of a text

LEVELS = ["none", "fail", "retry", "slow", "leak", "pass", "skip", "all"]
FINALS = ["none", "fail", "flaky", "retry", "slow", "skip", "leak", "pass", "all"]
DISPLAYS = ["immediate", "immediate-final", "final", "never"]
IMMEDIATELY = "{ max-fail = 1, terminate = 'immediate' }"
# What stops a run before its tests end: the limit, and a line.
STOPS = [("false", None), ("true", None), (IMMEDIATELY, None), ("false", "signal"), ("false", "interrupt")]
OTHER_STOPS = [("false", "report-error"), ("true", "global-timeout"), (IMMEDIATELY, "second-signal")]
RETRIES = ["0", "1", "2", "{ backoff = 'fixed', count = 0 }", "{ backoff = 'fixed', count = 1, delay = '1s', jitter = true }",
           "{ backoff = 'exponential', count = 1, delay = '1s', max-delay = '2s' }", "{ backoff = 'exponential', count = 2, delay = '1ms' }"]
LIMITS = ["true", "false", "{ max-fail = 1 }", "{ max-fail = 2 }", "{ max-fail = 3, terminate = 'wait' }", IMMEDIATELY,
          "{ max-fail = 2, terminate = 'immediate' }", "{ max-fail = 'all' }", "{ max-fail = 'all', terminate = 'immediate' }"]
VALUES = {
    "retries": RETRIES, "fail-fast": LIMITS, "flaky-result": ["'pass'", "'fail'"], "status-level": [f"'{it}'" for it in LEVELS],
    "final-status-level": [f"'{it}'" for it in FINALS], "success-output": [f"'{it}'" for it in DISPLAYS], "failure-output": [f"'{it}'" for it in DISPLAYS],
}
# Where a setting may stand, the nearest first: the profile, its parent and `default`, each in the repository's file and in a tool's.
PLACES = list(itertools.product(("ci", "base", "default"), ("nextest.toml", "t.toml")))
CHOSEN, PARENT, DEFAULT, TOOL = PLACES[0], PLACES[2], PLACES[4], PLACES[5]
# The lines of a run in which each test but `idle` runs as it is stopped, and most of them for the second time.
STARTED = "abort between exec fail flaky leak pass running slow spared timeout".split()
AGAIN = "abort exec fail flaky running timeout".split()
ENDS = ["fail fail:1 - 5 - 4572726f723a2065", "flaky pass - 6 6f -", "leak leak:pass - 7 6f -", "pass pass - 8 6f -", "slow pass slow 9 6f 65",
        "spared timeout:pass - 1 - 65", "exec exec-fail - 2 6e6f -", "timeout timeout:fail slow 3 74 -", "abort abort:15 - 4 61 -"]


def base_run(plan):
    names = json.dumps(sorted([*STARTED, "idle"]), separators=(",", ":"))
    failed = [f"end p {name} fail:1 - 1 - 66" for name in [*AGAIN, "between"]]
    lines = [*(f"start p {name}" for name in STARTED), *failed, *(f"start p {name}" for name in AGAIN), "", *(f"end p {end}" for end in ENDS)]
    return plan.replace('["a","b"]', names).rstrip("\n") + "\n" + "\n".join(lines).replace(" ", "\t") + "\n"


def set_at(settings):
    """The changes that give inputs settings (place, key, value), and the profile `ci` where one stands there or at its parent."""
    profiles = {profile for (profile, _), _, _ in settings}
    tables = {place: [] for place in PLACES}
    for place, key, value in settings:
        tables[place].append(f"{key} = {value}\n")
    if profiles - {"default"}:
        tables["ci", "nextest.toml"].append("inherits = 'base'\n")
        tables["base", "nextest.toml"].append("")
    texts = {path: "".join(f"[profile.{it[0]}]\n" + "".join(lines) for it, lines in tables.items() if it[1] == path and lines) for _, path in PLACES}
    sources = [source(texts["nextest.toml"])] + ([source(texts["t.toml"], "tool")] if texts["t.toml"] else [])
    return with_sources(sources, **({"profile": "ci"} if profiles - {"default"} else {}))


def plainly(**settings):
    return set_at([(DEFAULT, key.replace("_", "-"), value) for key, value in settings.items()])


def stopped_by(line, place="\n\n"):
    return [place, f"\nstop\t{line}{place}"] if line else []


def run_rows():
    yield []
    yield plainly(retries="1", fail_fast="false", final_status_level="'all'", success_output="'final'") + stopped_by("interrupt")
    # both levels, and then both displays, under each reason
    for (a, level), (b, final) in itertools.product(enumerate(LEVELS), enumerate(FINALS)):
        limit, line = STOPS[(a + b) % 5]
        yield plainly(retries="1", fail_fast=limit, status_level=f"'{level}'", final_status_level=f"'{final}'") + stopped_by(line)
    for (a, success), (b, failure), (c, (limit, line)) in itertools.product(enumerate(DISPLAYS), enumerate(DISPLAYS), enumerate(STOPS + OTHER_STOPS)):
        levels = {"status_level": f"'{LEVELS[(a + 3 * b + c) % 8]}'", "final_status_level": f"'{FINALS[(5 * a + b + c) % 9]}'"}
        displays = {"success_output": f"'{success}'", "failure_output": f"'{failure}'"}
        if c < 5 or a == b:
            flaky_result = VALUES["flaky-result"][(a + b // 2 + c) % 2]
            yield plainly(retries="1", fail_fast=limit, flaky_result=flaky_result, **levels, **displays) + stopped_by(line)
    # a stop while tests end, and a graver or a milder one behind them
    for (a, (limit, line)), (b, place) in itertools.product(enumerate(STOPS[3:] + OTHER_STOPS), enumerate(("\nend\tp\tleak", "\nend\tp\texec\texec-fail"))):
        row = plainly(retries="1", fail_fast=limit, success_output=f"'{DISPLAYS[a % 4]}'", failure_output=f"'{DISPLAYS[a % 3 + b]}'", final_status_level="'all'")
        yield row + stopped_by(line, place)
        yield row + stopped_by("signal") + stopped_by(line, place)
    # each form of retries and of the limit at each place, over what stands below it
    for (key, values), (a, place) in itertools.product([("retries", RETRIES), ("fail-fast", LIMITS)], enumerate([CHOSEN, PARENT, DEFAULT, TOOL])):
        for b, value in enumerate(values):
            below = [(it, key, values[(b + 1) % len(values)]) for it in [PARENT, DEFAULT, TOOL][a : a + 1]]
            other = [] if key == "retries" else [(DEFAULT, "retries", "1")]
            yield set_at([(place, key, value), *below, *other, (PLACES[(a + b) % 6], "flaky-result", VALUES["flaky-result"][(a + b) % 2])])
    for seed in range(60):
        choose = random.Random(seed)
        settings = [(place, key, choose.choice(VALUES[key])) for key in VALUES for place in PLACES if choose.random() < 0.3]
        settings += [] if any(key == "retries" for _, key, _ in settings) else [(choose.choice(PLACES), "retries", "1")]
        yield set_at(settings) + stopped_by(choose.choice([None, None, "signal", "interrupt", "report-error"]))


# The keys of profiles that are drawn: no default filter; and no weight, which runs show (scripts/weight_rows.py).
KEYS = [key for key in configs.RIGHT if key not in ("default-filter", "fail-weight")]


def drawn_sources(choose):
    """Some sources: of tools, explicit and discovered, with a text in TOML, or not read."""
    for place in range(choose.randrange(1, 4)):
        text = ""
        for name in choose.sample(["default", "default-miri", "ci", "base"], choose.randrange(1, 5)):
            keys = choose.sample(KEYS, choose.randrange(5))
            profile = {key: choose.choice(configs.RIGHT[key] if choose.randrange(60) else configs.WRONG) for key in keys}
            if choose.random() < (0.4 if "default" not in name else 0.05):
                profile["inherits"] = choose.choice(["default", "default", "base", "default-miri", "ci"])
            if choose.random() < 0.15:
                key, value = choose.choice([("zzz", 1), ("archive", 1), ("bench", {"zzz": 1}), ("slow-timeout", "9s"), ("default-filter", "all()")])
                profile[key] = value
            text += f"[profile.{name}]\n" + "".join(f"{key} = {toml(it)}\n" for key, it in profile.items())
        kind = choose.choice(["tool", "tool", "explicit", "discovered"])
        yield source(None if choose.randrange(25) == 0 else text, kind, f"{'abc'[place]}.toml")


# Texts of a repository's file, with the profile `default`.
PLAN_TEXTS = [
    "", "[profile.default]\n", "[profile]\n", "\n# nothing\n", "[profile.default]\nretries = 1\nfail-fast = false\n",
    "[profile.default]\nretries = 1\nfail-fast = true\n", "[profile.default]\nfail-fast = true\n", "[profile.default]\nretries = 0\n",
    "[profile.default]\nretries = 4294967294\n", "[profile.default]\nretries = 4294967295\n", "profile.default.retries = 3\n",
    # refused before anything is looked into
    "x", "nextest-version = '0.9.60'\nx", "[profile.default]\nretries = 1\nretries = 2\n", "nextest-version = 1", "nextest-version = '0.9.200'\nprofile = 1\n",
    "experimental = ['foo']\n[profile.default]\nretries = -1\n", "experimental = ['foo']", "nextest-version = '0.9.200'\nexperimental = ['foo']\n",
    # what versions and features ask for
    "nextest-version = '0.9.60'", "experimental = ['setup-scripts', 'wrapper-scripts', 'benchmarks']", "experimental = { foo = false, benchmarks = true }",
    "nextest-version = { recommended = '0.9.200' }\nzzz = 1\n", "nextest-version = { required = '0.9.60', zzz = 1 }", "nextest-version = {}",
    # values that can't stand at their keys
    "nextest-version = '0.9.60'\nprofile = 1\n", "profile = 1", "profile = []", "[profile]\ndefault = 2\n", "store = 1", "store.dir = 1",
    *(f"[profile.default]\nretries = {it}\n" for it in ("-1", "4294967296", "'1'", "1.0", "true", "[]", "{}", "{ backoff = 'fixed' }", "{ backoff = 'other', count = 1 }",
        "{ backoff = 'fixed', count = 1, jitter = true }", "{ backoff = 'exponential', count = 0, delay = '1s' }", "{ backoff = 'exponential', count = 1 }")),
    *(f"[profile.default]\nfail-fast = {it}\n" for it in ("1", "'all'", "[]", "{}", "{ max-fail = 0 }", "{ max-fail = '1' }", "{ max-fail = 'ALL' }", "{ terminate = 'wait' }",
        "{ max-fail = 1, terminate = 'now' }", "{ max-fail = 9223372036854775807 }")),
    *(f"[profile.default]\n{key} = {it}\n" for key in ("status-level", "final-status-level", "success-output", "failure-output", "flaky-result") for it in ("'Pass'", "'immediate_final'", "1")),
    "[profile.default]\nstatus-level = 'flaky'\n", "[profile.default]\nfinal-status-level = 'retry'\n", "store = {}\n[profile.default]\nslow-timeout = '60s'\nretries = -1\n",
    "[profile.ci]\nretries = 1\n[profile.default]\nfail-fast = 1\n", "[profile.ci]\nslow-timeout = '0s'\n", "[profile.default]\ndefault-filter = 1\n",
    # keys that a plan shows nothing of
    "store = {}", "[profile.default]\nslow-timeout = '60s'\ntest-threads = 4\nleak-timeout = '1s'\nglobal-timeout = '1h'\nrun-extra-args = ['x']\narchive = 1\n",
    "[profile.default]\nretries = { backoff = 'fixed', count = 1 }\n", "[profile.default]\nfail-fast = { max-fail = 1 }\n", "[profile.ci]\n", "[profile.default.junit]\npath = 'j.xml'\n",
    # overrides and groups; and scripts, with what is refused before and behind them
    "[[profile.default.overrides]]\nfilter = 'all()'\npriority = 1\n", "[profile.default]\ndefault-filter = 'all()'\n", "experimental = ['setup-scripts']\n[scripts.setup.s]\ncommand = 'x'\n[[profile.default.scripts]]\nfilter = 'all()'\nsetup = 's'\n",
    "[[profile.z.overrides]]\nfilter = 'all()'\nretries = 1\n", "[profile.z]\ndefault-filter = 'all()'\n", "[test-groups.g]\nmax-threads = 1\n", "experimental = ['setup-scripts']\n[script.s]\ncommand = 'x'\n",
    "experimental = ['setup-scripts']\n[scripts.setup.s]\ncommand = 'x'\n", "[profile.default]\ndefault-filter = 'all()'\nretries = -1\n",
    "[profile.z]\ndefault-filter = 'all()'\ninherits = 'q'\n", "[profile.default]\ndefault-filter = 'all()'\nretries = 4294967295\n", "zzz = 1\n[profile.default]\ndefault-filter = 'all()'\n",
    "[profile.default]\noverrides = []\n", "[test-groups]\n",
    "experimental = ['setup-scripts']\n[scripts.setup.s]\ncommand = 'x'\n[[profile.default.overrides]]\nfilter = 'all()'\nretries = 1\n[[profile.default.scripts]]\nfilter = 'all()'\nsetup = 's'\n",
    "experimental = ['setup-scripts']\n[[profile.default.overrides]]\nretries = 1\n[script.s]\ncommand = 'x'\n",
    # how profiles inherit
    "[profile.z]\ninherits = 'q'\n", "[profile.x]\ninherits = 'y'\n[profile.y]\ninherits = 'x'\n", "[profile.x]\ninherits = 'x'\n", "[profile.default]\ninherits = 'x'\n[profile.x]\n",
    "[profile.x]\n[profile.default-y]\ninherits = 'x'\n", "[profile.default-miri]\ninherits = 'default'\n", "[profile.a]\ninherits = 'a'\n[profile.z]\ninherits = 'q'\n",
    "[profile.a]\ninherits = 'a'\n[profile.z]\nretries = -1\n",
    # warnings
    "zzz = 1\n", "b = 1\na.x.y = 2\nB = 3\n'a.b' = 4\n'a\u0009b' = 5\n", "[profile.default-x]\nzzz = 1\n[profile.default-b]\n[profile.default-miri]\n[profile.z]\nzzy = 1\n",
    "[profile.default]\nretries = { backoff = 'fixed', count = 1, max-delay = '1s' }\nfail-fast = { max-fail = 1, zzz = 1 }\narchive = { zzz = 1 }\nbench.zzz = 1\n",
    "zzz = 1\n[profile.default]\nretries = -1\n",
    # scripts of which one thing is wrong; and filters of script rules, with a `list-wrapper` and without
    "[scripts.wrapper.w]\ncommand = 'x'\n", "experimental = ['wrapper-scripts']\n[scripts.setup.s]\ncommand = 'x'\n", "experimental = ['setup-scripts']\n[scripts.setup.s]\n",
    "experimental = ['setup-scripts']\n[script.s]\ncommand = 'x'\n[scripts.setup.t]\ncommand = 'x'\n", "experimental = ['setup-scripts']\n[scripts.setup.'@tool:t:s']\ncommand = 'x'\n",
    "experimental = ['setup-scripts', 'wrapper-scripts']\n[scripts.setup.s]\ncommand = 'x'\n[scripts.wrapper.s]\ncommand = 'x'\n",
    "[[profile.default.scripts]]\nfilter = 'all()'\nsetup = 's'\n", "[[profile.default.scripts]]\nfilter = 'all()'\nlist-wrapper = 'w'\n", "[[profile.default.scripts]]\nplatform = 'cfg('\n",
    *(
        f"experimental = ['wrapper-scripts']\n[scripts.wrapper.w]\ncommand = 'x'\n[[profile.default.scripts]]\nfilter = '{text}'\n{key} = 'w'\n"
        for text, key in [
            *((text, "list-wrapper") for text in ("all()", "none()", "test(a)", "not test(a)", "all() | test(a)", "default()", "group(@global)", "kind(lib)", "kind(lib) & test(a)", "platform(host)", "test(")),
            *((text, "run-wrapper") for text in ("test(a)", "default()", "group(@global)")),
        ]
    ),
]
EXPONENTIAL = "[profile.default]\nretries = { backoff = 'exponential', count = 1, delay = '1s', max-delay = '2s' }\n"
# A profile and texts: of tools, the first one the highest, and of the repository.
PLAN_FILES = [
    ("default", "[profile.default]\nretries = 2\nfail-fast = false\n", "[profile.default]\nretries = 1\n"),
    ("default", "[profile.default]\nretries = 2\n", "[profile.default]\nretries = 3\nfail-fast = false\n", ""),
    ("x", "[profile.x]\ninherits = 'y'\n[profile.y]\nretries = 3\n"), ("y", "[profile.x]\ninherits = 'y'\n[profile.y]\nretries = 3\n"),
    ("default", "[profile.x]\ninherits = 'y'\n[profile.y]\nretries = 3\n"), ("x", "[profile.y]\nretries = 3\n", "[profile.x]\ninherits = 'y'\n"),
    ("x", "[profile.x]\ninherits = 'y'\n[profile.y]\nretries = 3\n", "[profile.x]\ninherits = 'default'\n[profile.default]\nretries = 1\n"),
    ("default", EXPONENTIAL, EXPONENTIAL.replace("'1s', max-delay = '2s'", "'3s'")), ("default", EXPONENTIAL, "[profile.default]\nretries = 5\n"),
    ("default", "[profile.default]\nretries = 5\n", EXPONENTIAL), ("default", "[profile.default]\nfail-fast = { max-fail = 3, terminate = 'immediate' }\n", "[profile.default]\nfail-fast.max-fail = 2\n"),
    ("default", "[profile.default]\nfail-fast = { max-fail = 3, terminate = 'immediate' }\n", "[profile.default]\nfail-fast = true\n"),
    ("a", "[profile.'a.b']\nretries = 2\n"), ("a.b", "[profile.'a.b']\nretries = 2\n"), ("a", "[profile.a.b]\nretries = 2\n"), ("a.b", "[profile.a.b]\nretries = 2\n"),
    ("z", "[profile.z]\n", ""), ("z", "[profile.z]\n", "[profile.z]\n"), ("z", ""), ("Z", "[profile.z]\n"), ("default-x", "[profile.default-x]\nretries = 1\n"), ("default-miri", ""),
    ("default-miri", "[profile.default-miri]\nretries = 1\n"), ("z", "[profile.z]\nretries = 4294967295\n"), ("default", "[profile.z]\nretries = 4294967295\n"),
    ("z", "[profile.default]\nretries = 4294967295\n[profile.z]\nretries = 1\n"), ("z", "[profile.z]\n[profile.default]\nretries = 4294967295\n"),
    ("default", "zzz = 1\n", "zzy = 1\n"), ("default", "zzz = 1\n", "[profile.default-x]\n", "zzy = 1\n"), ("default", "profile.default = 1\n", "zzz = 1\n"),
    ("default", "zzz = 1\n", "nextest-version = { recommended = '0.9.200' }\nzzy = 1\n"), ("default", "nextest-version = { recommended = '0.9.200' }\nzzz = 1\n", "zzy = 1\n"),
    ("default", "[profile.default]\ndefault-filter = 'all()'\n", "zzz = 1\n"), ("default", "x", "[profile.default]\nretries = -1\n"), ("default", "[profile.default]\nretries = -1\n", "x"),
    ("default", "[profile.a]\ninherits = 'z'\n", "[profile.z]\n"), ("default", "[profile.a]\ninherits = 'z'\n", ""),
    ("default", "[profile.a]\ninherits = 'b'\n[profile.b]\n", "[profile.b]\ninherits = 'a'\n"),
]
# Other fields of inputs.
PLAN_FIELDS = [
    {"profile": "ci"}, {"profile": "default"}, {"profile": ""}, {"host": {"triple": "x", "facts": []}}, {"host": {"triple": "", "facts": [["unix", True]]}},
    {"host": {"triple": "", "facts": []}}, {"target": {"triple": "", "facts": []}}, {"profile": "ci", "target": {"triple": "x", "facts": []}}, {"profile": "ci", "mode": "benchmark"},
]


RULE = "[[profile.default.overrides]]\n"
UNIX = RULE + "platform = 'cfg(unix)'\nretries = 1\n"
NO_UNIX, SOME_UNIX, NOTHING = facts(unix=False), facts(unix=True), facts()
OF_HOST = ['"platform":"target"', '"platform":"host"']
THREE = ['["a","b"]', '["a","b","c"]']
HELD = RULE + "filter = 'test(a)'\nretries = 3\n"
TABLE = "{ backoff = 'exponential', count = 2, delay = '1s', max-delay = '2s' }"
# Overrides of a file, with other fields of inputs and other changes of them.
OVERRIDES = [
    # what each of two sets, and what only the second sets
    (RULE + "filter = 'all()'\npriority = 5\n" + RULE + "filter = 'test(a)'\nretries = 2\n",),
    (RULE + "filter = 'all()'\npriority = 5\n" + RULE + "filter = 'test(a)'\nretries = 2\npriority = -5\n",),
    (RULE + "filter = 'test(a)'\nretries = 2\n" + RULE + "filter = 'all()'\nretries = 1\n",), (RULE + "filter = 'all()'\nretries = 1\n" + HELD,),
    (RULE + f"filter = 'test(a)'\nretries = {TABLE}\n",), (RULE + "filter = 'test(a)'\nflaky-result = 'fail'\nsuccess-output = 'final'\nfailure-output = 'never'\n",),
    (RULE + "filter = 'none()'\nretries = 1\n",), (RULE + "filter = 'not test(a)'\nretries = 1\n" + RULE + "filter = 'kind(lib)'\nflaky-result = 'fail'\n",),
    # over the settings of profiles, the nearest too
    ("[profile.default]\nretries = 1\n" + HELD,), (f"[profile.ci]\nretries = 1\n{HELD}", {"profile": "ci"}),
    (f"[profile.ci]\nretries = 1\n[[profile.ci.overrides]]\nfilter = 'test(a)'\nflaky-result = 'fail'\n{HELD}", {"profile": "ci"}),
    ("[[profile.ci.overrides]]\nfilter = 'all()'\nretries = 1\n" + HELD, {"profile": "ci"}), ("[[profile.ci.overrides]]\nfilter = 'all()'\nretries = 1\n" + HELD,),
    # which stand first: greater priorities, from -100 to 100
    (RULE + "filter = 'test(b)'\npriority = 100\n",), (RULE + "filter = 'test(a)'\npriority = -100\n",), (RULE + "filter = 'test(a)'\npriority = -1\n" + RULE + "filter = 'test(b)'\npriority = 1\n", {}, THREE),
    (RULE + "filter = 'test(c)'\npriority = 1\n" + RULE + "filter = 'not test(a)'\npriority = 0\n" + RULE + "filter = 'all()'\npriority = -1\n", {}, THREE),
    (RULE + "filter = 'all()'\npriority = 101\n",), (RULE + "filter = 'all()'\npriority = -101\n",),
    # on what is known of host and target, of a binary of each
    *((UNIX, fields, change) for change in ([], OF_HOST) for fields in (
        {}, {"host": NO_UNIX}, {"host": SOME_UNIX}, {"host": NO_UNIX, "target": SOME_UNIX}, {"host": SOME_UNIX, "target": NO_UNIX}, {"host": NO_UNIX, "target": NOTHING}, {"target": NO_UNIX},
    )),
    *((RULE + f"platform = {{ host = 'cfg(unix)'{more} }}\nretries = 1\n", {"host": host, "target": target}) for more in ("", ", target = 'cfg(windows)'") for host, target in (
        (SOME_UNIX, NO_UNIX), (NO_UNIX, SOME_UNIX), (SOME_UNIX, facts(windows=False)), (SOME_UNIX, facts(windows=True)), (NOTHING, NOTHING),
    )),
    *((RULE + f"platform = '{spec}'\nretries = 1\n", fields) for spec in ("t-1", "cfg(t)", "cfg(all(unix, not(unix)))", "cfg(any())") for fields in ({}, {"host": facts("t-1", unix=True)}, {"target": facts("t-1")})),
    (RULE + "platform = 'cfg(unix)'\nfilter = 'test(a)'\nretries = 1\n", {"host": SOME_UNIX}), (RULE + "platform = 'cfg(unix)'\nfilter = 'test(a)'\nretries = 1\n", {"host": NO_UNIX}),
    # what is too often
    (RULE + "filter = 'test(a)'\nretries = 4294967295\n",), (RULE + "filter = 'test(zzz)'\nretries = 4294967295\n",), (RULE + "filter = 'test(a)'\nretries = 4294967295\n", {"filterset": "test(b)"}),
    ("[profile.default]\nretries = 4294967295\n" + RULE + "filter = 'all()'\nretries = 0\n",), ("[profile.default]\nretries = 4294967295\n" + RULE + "filter = 'test(a)'\nretries = 0\n",),
    # what is told of keys that aren't known
    (RULE + "filter = 'all()'\nzzz = 1\n" + RULE + "platform = { host = 'cfg(unix)', zzz = 1 }\njunit.zzz = 1\n[test-groups.g]\nmax-threads = 1\nzzz = 1\n",),
]


def plan_changes():
    for text in PLAN_TEXTS:
        yield with_sources([source(text)])
    for profile, *texts in PLAN_FILES:
        sources = [source(texts[-1]), *(source(text, "tool", f"{'tuv'[place]}.toml") for place, text in enumerate(texts[:-1]))]
        yield with_sources(sources, **({"profile": profile} if profile != "default" else {}))
    some, other = "[profile.default]\nretries = 2\nzzz = 1\n", "[profile.default]\nfail-fast = false\n"
    pairs = [*itertools.product((some, other, None), repeat=2), (some, "FAILED"), ("FAILED", some)]
    for kinds, texts in itertools.product(itertools.product(("tool", "explicit", "discovered"), repeat=2), pairs):
        yield with_sources([source(text, kind, f"{name}.toml") for kind, text, name in zip(kinds, texts, "ab")])
    for fields in PLAN_FIELDS:
        for text in ("", "[profile.ci]\nretries = 1\n", "[profile.a]\ninherits = 'a'\n", "[profile.ci]\ndefault-filter = 'all()'\n"):
            yield with_sources([source(text)], **fields)
    for key, (a, place) in itertools.product(VALUES, enumerate(PLACES)):
        below = PLACES[a + 1 :]
        yield set_at([(place, key, VALUES[key][-2]), *((it, key, VALUES[key][-1]) for it in below)])
        yield set_at([(place, key, VALUES[key][-1]), *((it, key, VALUES[key][0]) for it in below[-1:])])
    for seed in range(120):
        choose = random.Random(seed)
        profile = choose.choice(["default", "ci", "ci", "base", "default-miri"])
        yield with_sources(list(drawn_sources(choose)), **({"profile": profile} if profile != "default" else {}))
    for text, *more in OVERRIDES:
        fields, change = (*more, {}, [])[:2] if len(more) < 2 else more
        yield [*change, *with_sources([source(text)], **fields)]
    # the same key in an override of each place, over the next one, as the rows of settings have it in profiles
    for a, (place, below) in enumerate(zip(PLACES, PLACES[1:])):
        texts = dict.fromkeys(("nextest.toml", "t.toml"), "")
        texts["nextest.toml"] = "[profile.ci]\ninherits = 'base'\n[profile.base]\n"
        for (profile, path), retries, name in ((place, a + 2, "test(a)"), (below, 9, "all()")):
            texts[path] += f"[[profile.{profile}.overrides]]\nfilter = '{name}'\nretries = {retries}\n"
        for profile in ("ci", "default"):
            yield with_sources([source(texts["nextest.toml"]), source(texts["t.toml"], "tool")], profile=profile)


# ---- the files


def write(folder, name, head, rows):
    lines = dict.fromkeys(f"{' => '.join(changes)} => {answer}".translate(SIGNS) for changes, answer in rows)
    (folder / f"{name}.txt").write_text("\n".join([f"# Made by scripts/run_rows.py. {head}", *lines]) + "\n", encoding="utf-8")
    print(f"{name}: {len(lines)} rows")
    return len(lines)


def main():
    plan = (DATA / "plan.json").read_text(encoding="utf-8")
    run = base_run(plan)
    (ROWS / "profiles_runs.in").write_text(run, encoding="utf-8")
    made = ((changes, plans.shown_settings(json.loads(changed(plan, changes)))) for changes in plan_changes())
    number = write(
        DATA,
        "profiles_plans",
        "Changes of plan.json => the tests, each with its most attempts, its flaky rule and when its output is shown where it passes and"
        " where it fails, and behind `wrapper` what its wrapper script runs, where it has one; the scripts where there are some; the limit,"
        " the levels of lines and of the final text, and the warnings; or the name under which it is refused.",
        [
            *made,
            *plan_rows.drawn(plan_rows.SEED + 1, plans.shown_settings, plan),
            *plan_rows.drawn_with_scripts(plan_rows.SCRIPTS_SEED + 1, plans.shown_settings, plan, plan_rows.WRONG_SCRIPTS),
        ],
    )
    tell_numbers({"profiles_plans": number})
    write(
        ROWS,
        "profiles_runs",
        "Changes of profiles_runs.in, the inputs and a log => the report, and a line with the status.",
        ((changes, run_answer(changed(run, changes))) for changes in run_rows()),
    )


if __name__ == "__main__":
    main()
