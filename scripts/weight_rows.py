#!/usr/bin/env python3
"""Writes the table `weight_runs` of rows/ and its inputs `weight_runs.in`: whole runs of tests that have fail weights.

    python3 scripts/weight_rows.py

It knows nothing of the program: what inputs come to is reckoned by scripts/plan_rules.py, and what a run comes to by scripts/run_rows.py. All is
drawn from one seed: weights of profiles and of overrides in several files, retries, flaky rules, groups with filtersets that ask for them, and logs
in which many tests fail. Each run is first walked through without a limit, and then gets one that the sum of its weights reaches, passes, or stays
below. It prints how many rows there are of each of `KINDS`; each of the wrong rules of `WRONG` comes to something else on at least `EACH` rows.
"""
import contextlib
import json
import random
import re
import sys

sys.dont_write_bytecode = True
import plan_rules as plans
import run_rows as runs
from element_rows import SIGNS, toml
from plan_rows import changed, facts, shown, source, with_fields
from run_rows import ROWS

SEED, EACH = 71, 5
HEAD = """\
# Made by scripts/weight_rows.py. Changes of weight_runs.in | a log, whose lines are divided by `; ` and have a space for each tab => the report
# without the lines of counters that are 0, and a line with the status.
"""
# How many rows there are by where the sum of the weights of the tests that failed is, the limit's stop or the end of the log reached.
KINDS = {
    "at the limit, which stops the run": 100,
    "past the limit, which stops the run": 90,
    "one below the limit at the end": 95,
    "further below the limit at the end": 15,
    "at the limit or past it in a run that something else stopped": 40,
    "at the limit or past it, with a line behind that is refused": 40,
    "without a limit": 20,
}

# ---- inputs as changes of weight_runs.in

BINARY = {"id": "q", "name": "q", "package": "p", "kind": "proc-macro", "platform": "host", "tests": ["a", "e", "f"]}
GROUPS = "[test-groups]\ng.max-threads = 1\nh.max-threads = 2\n"
WEIGHTS = [1, 1, 2, 2, 3, 4, 5, 7, 10, 33, 50, 99, 100]
FILTERS = [
    "test(a)", "test(a)", "test(=b)", "test(/[cd]/)", "all()", "not test(a)", "platform(host)", "binary_id(q)", "kind(lib)", "default()",
    "not default()", "test(b) or test(e)", "platform(target) - test(c)", "none()", "test(zz)",
]
FILTERSETS = ["group(g)", "not group(g)", "group(@global)", "test(a) or group(h)", "not test(f)", "default() or group(g)"]
DEFAULTS = ["not test(d)", "platform(target)", "not test(/[ef]/)"]
SPECS = ["cfg(unix)", "cfg(windows)", "cfg(not(unix))", "cfg(foo)"]
PLATFORMS = [{}, {}, {"host": facts(unix=True)}, {"host": facts(unix=False)}, {"host": facts(unix=True), "target": facts(unix=False)}]
# What profiles and overrides may set, and how often of a hundred they do.
OF_PROFILES = {"fail-weight": (60, WEIGHTS), "retries": (20, [0, 1, 2]), "flaky-result": (30, ["pass", "fail", "fail"])}
OF_OVERRIDES = {
    "fail-weight": (80, WEIGHTS), "retries": (20, [0, 1, 2]), "flaky-result": (20, ["pass", "fail"]), "test-group": (30, ["g", "h", "@global"]),
    "priority": (10, [-1, 1]),
}


def chosen(draw, keys):
    return {key: draw.choice(values) for key, (often, values) in keys.items() if draw.randrange(100) < often}


def drawn_override(draw):
    it, kind = {}, draw.choice(["filter", "filter", "filter", "both", "platform"])
    if kind != "filter":
        it["platform"] = draw.choice([draw.choice(SPECS), {"host": draw.choice(SPECS)}])
    if kind != "platform":
        it["filter"] = draw.choice(FILTERS)
    return it | chosen(draw, OF_OVERRIDES)


def drawn_profiles(draw, names):
    """What a file sets in some profiles: of each its keys and its overrides."""
    some = [name for name in names if draw.random() < 0.75]
    return {name: (chosen(draw, OF_PROFILES), [drawn_override(draw) for _ in range(draw.choice([0, 1, 1, 2, 3]))]) for name in some}


def text_of(profiles):
    text = ""
    for name, (keys, rules) in profiles.items():
        tables = [(f"[profile.{name}]\n", keys), *((f"[[profile.{name}.overrides]]\n", rule) for rule in rules)]
        text += "".join(head + "".join(f"{key} = {toml(value)}\n" for key, value in members.items()) for head, members in tables)
    return text


class Given:
    """Drawn inputs, but for their limit."""

    def __init__(self, draw):
        chain = draw.choice([["default"], ["default"], ["ci", "default"], ["ci", "base", "default"]])
        own, self.of_tool = drawn_profiles(draw, [*chain, "other"]), drawn_profiles(draw, [*chain, "other"]) if draw.random() < 0.4 else {}
        self.own = {name: own.get(name, ({}, [])) for name in [*chain, *own]}
        for name, parent in zip(chain, chain[1:-1]):
            self.own[name][0]["inherits"] = parent
        self.own["default"][0].setdefault("retries", draw.choice([0, 0, 1, 1, 2]))
        if draw.random() < 0.3:
            self.own["default"][0]["default-filter"] = draw.choice(DEFAULTS)
        self.fields = ({"profile": "ci"} if len(chain) > 1 else {}) | draw.choice(PLATFORMS)
        if draw.random() < 0.3:
            self.fields["filterset"] = draw.choice(FILTERSETS)
        self.limited, self.mode = draw.choice(chain), draw.choice([{}, {"terminate": "wait"}, {"terminate": "immediate"}])

    def changes(self, limit):
        """Changes of weight_runs.in that make these inputs, with a limit or with none."""
        value = {"max-fail": "all" if limit is None else limit, **self.mode}
        if not self.mode and limit in (1, None):
            value = limit == 1
        keys, rules = self.own[self.limited]
        texts = [GROUPS + text_of({**self.own, self.limited: ({**keys, "fail-fast": value}, rules)}), text_of(self.of_tool)]
        sources = [source(text, kind) for text, kind in zip(texts, ("explicit", "tool")) if text]
        return ['"sources":[]', f'"sources":{shown(sources)}', *with_fields(**self.fields)]


# ---- drawn logs

FAILURES = ["fail:1", "fail:1", "fail:101:leaked", "abort:9", "leak:fail", "timeout:fail", "exec-fail"]
PASSES = ["pass", "pass", "leak:pass", "timeout:pass"]
REASONS = [*["report-error"] * 4, "global-timeout", "signal", "interrupt", "second-signal"]


class Luck:
    """How a log is drawn: by a number, of a hundred attempts how many fail, and how many stop lines there may be."""

    def __init__(self, draw):
        self.seed, self.fails, self.stops = draw.randrange(2**32), draw.choice([30, 50, 50, 70, 90]), draw.choice([0, 0, 0, 0, 1, 2])


def drawn_end(draw, luck, is_ended_by_run):
    result = draw.choice(FAILURES if draw.randrange(100) < luck.fails else PASSES)
    if is_ended_by_run and draw.random() < 0.5:
        result = "abort:15"
    return f"{result} {draw.choice(['-', '-', 'slow'])} {draw.randrange(100)} {'6e6f' if result == 'exec-fail' else '-'} -"


def drawn_line(draw, luck, run):
    """A line that may come next; None where none but a stop may."""
    starts = [f"start {' '.join(name)}" for name, test in run.tests.items() if run.reason is None and test.mark in ("waiting", "between")]
    ends = [name for name, test in run.tests.items() if test.mark == "running"]
    if starts and (not ends or len(ends) < 3 and draw.random() < 0.5):
        return draw.choice(starts)
    return f"end {' '.join(draw.choice(ends))} {drawn_end(draw, luck, run.reason == 'test-failure-immediate')}" if ends else None


class Walk:
    """The lines of a run that goes on till nothing can come, the sums while it wasn't stopped, and where it was as the limit stopped it."""

    def __init__(self, luck, plan):
        draw, stops = random.Random(luck.seed), luck.stops
        self.run, self.lines, self.sums, self.stop = runs.Run(plan), [], [0], None
        while True:
            line = drawn_line(draw, luck, self.run)
            if stops and (line is None or draw.random() < 0.15):
                line, stops = f"stop {draw.choice(REASONS)}", stops - 1
            if line is None:
                break
            self.take(line)

    def take(self, line):
        was_stopped = self.run.reason is not None
        told = self.run.take(line.split(" "))
        self.lines.append(line)
        if not was_stopped and line.startswith("end"):
            # The sum before the tests count that a stop finished.
            weight = sum(test.weight() for test in self.run.finished() if test.fails() and test not in told[1:])
            self.sums += [weight] if weight > self.sums[-1] else []
            self.stop = weight if self.run.reason is not None else None

    def kind(self):
        """Which of the kinds it is."""
        limit, weight = self.run.limit, self.run.failed_weight()
        if limit is None:
            return "without a limit"
        if self.stop is not None:
            return "at the limit, which stops the run" if self.stop == limit else "past the limit, which stops the run"
        if weight >= limit:
            return "at the limit or past it in a run that something else stopped"
        return "one below the limit at the end" if weight == limit - 1 else "further below the limit at the end"


def drawn_limit(draw, kind, walk):
    """A limit that may make a row of a kind of this walk without one: None where the kind wants none, and 0 where there is none."""
    if kind == "without a limit":
        return None
    if "something else" in kind:
        return draw.randrange(walk.run.failed_weight() + 1)
    if "at the end" in kind:
        return walk.sums[-1] + (1 if kind.startswith("one") else draw.choice([2, 3, 10, 100, 1000]))
    pairs = [(before, sum) for before, sum in zip(walk.sums, walk.sums[1:]) if sum > before + 1 or not kind.startswith("past")]
    if not pairs:
        return 0
    before, sum = draw.choice(pairs)
    return draw.randrange(before + 1, sum) if kind.startswith("past") else sum


# ---- wrong rules, to see that rows tell them from the right ones


class OtherRun(runs.Run):
    """A run by another rule."""

    def failing(self):
        return [test for test in self.finished() if test.fails()]


class LimitOfNumbers(OtherRun):
    """So many failing tests stop a run, whatever they weigh."""

    is_at_limit = lambda self: self.limit is not None and len(self.failing()) >= self.limit


class LimitOfAttempts(OtherRun):
    """Each failed attempt weighs as much as its test, also before its test is finished."""

    def is_at_limit(self):
        weights = [test.weight() for test in self.tests.values() for result, *_ in test.ended if result not in runs.SUCCESSES]
        return self.limit is not None and sum(weights) >= self.limit


class LimitPassed(OtherRun):
    is_at_limit = lambda self: self.limit is not None and self.failed_weight() > self.limit


class LimitOfTheHeaviest(OtherRun):
    is_at_limit = lambda self: self.limit is not None and max([test.weight() for test in self.failing()], default=0) >= self.limit


class LimitOfAllFinished(OtherRun):
    is_at_limit = lambda self: self.limit is not None and sum(test.weight() for test in self.finished()) >= self.limit


class LimitOfTestsBetween(OtherRun):
    """Tests between two attempts weigh already."""

    def is_at_limit(self):
        between = [test for test in self.tests.values() if test.mark == "between"]
        return self.limit is not None and self.failed_weight() + sum(test.weight() for test in between) >= self.limit


class LimitOfStoppedRuns(OtherRun):
    """The limit gives a reason in a stopped run too."""

    def take(self, fields):
        told = super().take(fields)
        return told + self.stop(self.limit_reason) if fields[0] == "end" and self.is_at_limit() else told


class StartedTestsGoOn(OtherRun):
    """A test between two attempts isn't finished by the stop."""

    def stop(self, reason):
        between = super().stop(reason)
        for test in between:
            test.mark, test.under = "between", None
        return []


class CounterOfNumbers(OtherRun):
    counters = lambda self: super().counters() | {"failed-weight": len(self.failing())}


class CounterOfAttempts(OtherRun):
    """Each failed attempt of a test that fails weighs as much as the test."""

    def counters(self):
        weights = [test.weight() * len([it for it, *_ in test.ended if it not in runs.SUCCESSES]) for test in self.failing()]
        return super().counters() | {"failed-weight": sum(weights)}


class CounterUpToTheStop(OtherRun):
    """What finishes in a stopped run, or by its stop, isn't counted."""

    counters = lambda self: super().counters() | {"failed-weight": sum(test.weight() for test in self.failing() if test.under is None)}


class CounterUpToTheLimit(OtherRun):
    counters = lambda self: super().counters() | {"failed-weight": min(self.failed_weight(), self.limit or self.failed_weight())}


class WeightsCountAsFailed(OtherRun):
    """The counter of failed tests is of weights."""

    counters = lambda self: super().counters() | {"failed": self.failed_weight()}


class FlakyWeighNothing(OtherRun):
    failed_weight = lambda self: sum(test.weight() for test in self.failing() if not test.is_success())


class LatePassesWeigh(OtherRun):
    failed_weight = lambda self: sum(test.weight() for test in self.finished() if test.fails() or test.is_late())


class FailedStartsWeighNothing(OtherRun):
    failed_weight = lambda self: sum(test.weight() for test in self.failing() if test.result() != "exec-fail")


class TimeoutsWeighNothing(OtherRun):
    failed_weight = lambda self: sum(test.weight() for test in self.failing() if test.result() != "timeout:fail")


class OtherTest(runs.Test):
    """A test by another rule."""


class EachWeighsOne(OtherTest):
    weight = lambda self: 1


class OtherProfile(plans.Profile):
    """A profile that gives tests their weights by another rule."""

    def settings(self, filtering, binary, test):
        rules = [it.values for it in self.holding(self.rules, filtering, binary, test)]
        found = super().settings(filtering, binary, test)
        return found._replace(fail_weight=self.weight_by(rules, found))

    def own(self):
        """What the profiles set."""
        return plans.number_of(self.setting("fail-weight"))

    def set_by(self, rules):
        return [plans.number_of(it["fail-weight"]) for it in rules if "fail-weight" in it]


class WeightOfTheProfile(OtherProfile):
    """A weight of an override counts for nothing."""

    weight_by = lambda self, rules, found: self.own()


class WeightOfOverridesAlone(OtherProfile):
    weight_by = lambda self, rules, found: [*self.set_by(rules), 1][0]


class WeightOfTheLastOverride(OtherProfile):
    weight_by = lambda self, rules, found: [self.own(), *self.set_by(rules)][-1]


class WeightOfTheFirstThatHolds(OtherProfile):
    """The first override that holds counts alone, whether it sets a weight or not."""

    weight_by = lambda self, rules, found: [*self.set_by(rules[:1]), self.own()][0]


class GreatestWeight(OtherProfile):
    weight_by = lambda self, rules, found: max([*self.set_by(rules), self.own()])


class SumOfWeights(OtherProfile):
    weight_by = lambda self, rules, found: sum(self.set_by(rules)) or self.own()


class WeightOfDefault(OtherProfile):
    """Where no override sets a weight it is that of `default`."""

    def weight_by(self, rules, found):
        return [*self.set_by(rules), plans.number_of(plans.configs.setting(self.config.merged, "default", "fail-weight"))][0]


class WeightOfTheChosenProfile(OtherProfile):
    """A profile has no weight of its parents."""

    def weight_by(self, rules, found):
        return [*self.set_by(rules), plans.number_of(self.config.merged["profile"][self.name].get("fail-weight", "1"))][0]


class WeightBesideOtherGroups(OtherProfile):
    """Tests of other groups than the global one weigh 1."""

    weight_by = lambda self, rules, found: found.fail_weight if found.group == "@global" else 1


PLACES = {OtherRun: (runs, "Run"), OtherTest: (runs, "Test"), OtherProfile: (plans, "Profile")}
WRONG = [wrong for kind in PLACES for wrong in kind.__subclasses__()]


@contextlib.contextmanager
def by_rule(wrong):
    module, name = PLACES[wrong.__bases__[0]]
    right = getattr(module, name)
    setattr(module, name, wrong)
    try:
        yield
    finally:
        setattr(module, name, right)


# ---- the rows


def without_zeros(report):
    return re.sub(r"(?m)^(?!status)[a-z-]+\t0\n", "", report)


def answer_to(plan, lines):
    """The report without counters that are 0, and the status."""
    return without_zeros(runs.log_answer(plan, [line.replace(" ", "\t") for line in lines]))


class Rows:
    """The rows so far, each with its answer, how many there are of each kind, and how often each wrong rule comes to something else."""

    def __init__(self, text):
        self.text, self.answers, self.kinds, self.told = text, {}, dict.fromkeys(KINDS, 0), dict.fromkeys(WRONG, 0)

    def plan(self, changes):
        return plans.plan_of(json.loads(changed(self.text, changes)))

    def draw(self, draw):
        """A drawn row, of a kind of which there are too few, or none."""
        given, luck = Given(draw), Luck(draw)
        free = Walk(luck, self.plan(given.changes(None)))
        kind = draw.choice([kind for kind in KINDS if self.kinds[kind] < KINDS[kind]])
        if free.run.failed_weight() == 0 and draw.random() < 0.9:
            return
        limit = drawn_limit(draw, kind, free)
        if limit == 0:
            return
        changes = given.changes(limit)
        plan = self.plan(changes)
        walk = Walk(luck, plan)
        if walk.stop is not None and "refused" in kind:
            self.add(kind, changes, plan, [*walk.lines, f"start {' '.join(draw.choice(list(walk.run.tests)))}"])
        elif walk.kind() == kind:
            self.add(kind, changes, plan, walk.lines)

    def add(self, kind, changes, plan, lines):
        name = f"{' => '.join(changes)} | {'; '.join(lines)}"
        if name in self.answers:
            return
        self.answers[name], self.kinds[kind] = answer_to(plan, lines), self.kinds[kind] + 1
        for wrong in WRONG:
            with by_rule(wrong):
                other = self.plan(changes) if issubclass(wrong, OtherProfile) else plan
                try:
                    told = answer_to(other, lines)
                except plans.Refused as refusal:
                    told = str(refusal)
            self.told[wrong] += told != self.answers[name]

    def check(self):
        """That each wrong rule is told, and each kind is there."""
        few = {wrong.__name__: number for wrong, number in self.told.items() if number < EACH}
        assert not few and self.kinds == KINDS, (few, self.kinds)


def main():
    plan = (runs.DATA / "plan.json").read_text(encoding="utf-8").rstrip("\n")
    text = changed(plan, ['["a","b"]}', f'["a","b","c","d"]}},{shown(BINARY)}']) + "\n"
    (ROWS / "weight_runs.in").write_text(text, encoding="utf-8")
    rows, draw = Rows(text), random.Random(SEED)
    while rows.kinds != KINDS:
        rows.draw(draw)
    rows.check()
    told = [f"{name} => {answer}".translate(SIGNS) for name, answer in rows.answers.items()]
    (ROWS / "weight_runs.txt").write_text("\n".join([HEAD, *told]) + "\n", encoding="utf-8")
    print(f"weight_runs: {len(told)} rows")
    for kind, number in rows.kinds.items():
        print(f"  {number} {kind}")


if __name__ == "__main__":
    main()
