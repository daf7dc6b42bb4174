#!/usr/bin/env python3
"""Writes the table `agreeing` of rows/: a hundred random plans without scripts and sixty with some, an assignment of each,
and ten logs that agree with it.

    python3 scripts/agreeing_logs.py

All is drawn from two seeds, so the table comes out the same each time. It knows nothing of the program, only these rules:

- A setup script is planned where a rule that names it holds on a selected test; planned scripts stand by the bytes of their names.
- The first script that didn't end yet may end while the run isn't stopped, with the record that is assigned to it. One that ends
  without a success stops the run.
- A test that waits or is between two attempts may start while the run isn't stopped and all scripts ended; a test that runs may end.
- The K-th attempt of a test that ends while the run isn't stopped has the record that is assigned to try K; one that ends in a
  stopped run has that record or any that is no success.
- An attempt finishes its test if it is a success, the last try, or ends in a stopped run; else the test is between two attempts.
- A run that isn't stopped is stopped by a stop line, and with `fail-fast` as soon as a finished test failed; that finishes the
  tests between two attempts, which have then failed.
- A script failed where it ended other than by `pass` or `leak:pass`: a timeout that passes stops nothing, but has failed.
- Due is 4 where no test is selected, else 105 where a script's record is one of a failed script, else 100 where a test has no
  success in any of its tries, else 0. An assignment is unstopped where each script has a success and no failing test stops the run.
- The status of a log is 4 where no test is selected, else 105 where a script failed or didn't end, else 100 where a test failed or
  isn't finished, else 0.
"""
import json
import pathlib
import random

TABLE = pathlib.Path(__file__).resolve().parent.parent / "rows/agreeing.txt"
SEED, CASES, LOGS = 16, 100, 10
SCRIPTS_SEED, WITH_SCRIPTS = 17, 60
HEAD = """\
# Made by scripts/agreeing_logs.py. Changes of plan.json | the lines of the logs, from 0, with a space for each tab: of each script how
# it ends, of each test its start and what is assigned to its tries, then what else comes | logs, each as the numbers of its lines => the due status, whether
# the assignment is unstopped, and the status of each log.
"""
SCRIPTS = ["s", "t", "Z", "s-2"]
NAMES = ["a", "b", "B", "slow_a", "slow_b", "io::reads", "io::slow", "é"]
SUCCESSES = ["pass", "pass", "pass", "leak:pass", "timeout:pass"]
FAILURES = ["fail:1", "fail:101", "fail:-1:leaked", "abort:6", "abort:9:leaked", "leak:fail", "timeout:fail", "exec-fail"]
FAILED_SCRIPTS = [*FAILURES, *["timeout:pass"] * len(FAILURES)]
ENDED_BY_RUN = ["abort:15", "abort:15", "timeout:fail", "fail:3"]
OUTPUTS = ["-", "-", "", "6f6b0a", "4572726f723a207a0a"]
REASONS = ["report-error", "global-timeout", "signal", "interrupt", "second-signal"]


def drawn_record(draw, result):
    """The fields of an attempt's end from its result on."""
    out = "6e6f" if result == "exec-fail" else draw.choice(OUTPUTS)
    err = "-" if result == "exec-fail" else draw.choice(OUTPUTS)
    return f"{result} {draw.choice(['-', '-', 'slow'])} {draw.randrange(1000)} {out} {err}"


def succeeds(record):
    return record.split(" ")[0] in SUCCESSES


def fails_script(record):
    return record.split(" ")[0] not in ("pass", "leak:pass")


def shown(value):
    return json.dumps(value, ensure_ascii=False, separators=(",", ":"))


class Case:
    """A plan with an assignment: binaries with their tests, settings, a filterset, and the records of the planned scripts and of the
    selected tests."""

    def __init__(self, draw):
        self.scripts = {}
        ids = ["p"] + draw.sample(["k", "p::t", "q"], draw.randrange(3))
        self.binaries = {binary: [] for binary in ids}
        for _ in range(draw.randrange(1, 7)):
            tests = self.binaries[draw.choice(ids)]
            tests.append(draw.choice([name for name in NAMES if name not in tests]))
        self.retries = draw.choice([None, 0, 1, 2, 2])
        self.fail_fast = draw.choice([None, True, False, False])
        self.word = draw.choice([None] * 7 + ["slow", "io"])
        self.filterset = draw.choice([None] * 8 + ["all()", "none()"]) if self.word is None else f"test(~{self.word})"
        self.tries = (self.retries or 0) + 1
        luck = draw.choice([0.4, 0.7, 0.9])
        self.assigned = {
            f"{binary} {name}": [drawn_record(draw, draw.choice(SUCCESSES if draw.random() < luck else FAILURES)) for _ in range(self.tries)]
            for binary, names in self.binaries.items() for name in names if self.selects(name)
        }

    def selects(self, name):
        return self.filterset != "none()" and (self.word is None or self.word in name)

    def stops_at_failure(self):
        return self.fail_fast is not False

    def some_test_fails(self):
        return any(not any(map(succeeds, records)) for records in self.assigned.values())

    def due(self):
        if not self.assigned:
            return 4
        return 105 if any(map(fails_script, self.scripts.values())) else 100 if self.some_test_fails() else 0

    def is_unstopped(self):
        return all(map(succeeds, self.scripts.values())) and not (self.stops_at_failure() and self.some_test_fails())

    def text(self):
        """What the repository's file has; nothing where there is none."""
        lines = [f"retries = {self.retries}\n"] if self.retries is not None else []
        lines += [f"fail-fast = {shown(self.fail_fast)}\n"] if self.fail_fast is not None else []
        return "".join(["[profile.default]\n"] + lines) if lines else ""

    def changes(self):
        """What is changed of plan.json, in which the binary `p` stands alone."""
        others = [{"id": it, "name": it, "package": "p", "kind": "test", "platform": "target", "tests": self.binaries[it]}
                  for it in self.binaries if it != "p"]
        changes = ['["a","b"]}', ",".join([shown(self.binaries["p"]) + "}"] + [shown(it) for it in others])]
        if self.text():
            changes += ['"sources":[]', '"sources":' + shown([{"kind": "explicit", "path": "nextest.toml", "text": self.text()}])]
        if self.filterset is not None:
            changes += ['"0.9.100"', f'"0.9.100","filterset":"{self.filterset}"']
        return " => ".join(changes)


class CaseWithScripts(Case):
    """The same with some setup scripts, each named by a rule that holds on all tests or on those with a word in their names."""

    def __init__(self, draw):
        super().__init__(draw)
        self.words = {id: draw.choice(["", "", "slow", "io", "zz"]) for id in draw.sample(SCRIPTS, draw.randrange(1, 4))}
        luck = draw.choice([0.5, 0.9, 0.9])
        for id in sorted(self.words, key=str.encode):
            if any(self.words[id] in test.split(" ")[1] for test in self.assigned):
                self.scripts[id] = drawn_record(draw, draw.choice(SUCCESSES[:4] if draw.random() < luck else FAILED_SCRIPTS))

    def text(self):
        scripts = "".join(f"[scripts.setup.{id}]\ncommand = 'x'\n" for id in self.words)
        filters = {id: f"test({word})" if word else "all()" for id, word in self.words.items()}
        rules = "".join(f"[[profile.default.scripts]]\nfilter = '{filters[id]}'\nsetup = '{id}'\n" for id in self.words)
        return f"experimental = ['setup-scripts']\n{scripts}{super().text()}{rules}"


class Run:
    """What a run came to: how many scripts ended, the records of the attempts that ended, which tests run and which are finished, and
    whether it is stopped."""

    def __init__(self, case):
        self.case, self.is_stopped = case, False
        self.pending = list(case.scripts)
        self.ended_scripts = []
        self.ended = {test: [] for test in case.assigned}
        self.running, self.finished = set(), set()

    def next_script(self):
        """The script that may end, in a list; an empty one where none may."""
        return [] if self.is_stopped else self.pending[:1]

    def end_script(self):
        """Ends the next script, and gives it with its record."""
        id = self.pending.pop(0)
        record = self.case.scripts[id]
        self.ended_scripts.append(record)
        if not succeeds(record):
            self.stop()
        return id, record

    def may_start(self):
        return [] if self.is_stopped or self.pending else [test for test in self.ended if test not in self.running and test not in self.finished]

    def may_end(self):
        return [test for test in self.ended if test in self.running]

    def stop(self):
        if not self.is_stopped:
            self.is_stopped = True
            self.finished |= {test for test, records in self.ended.items() if records and test not in self.running}

    def end(self, test, record):
        self.running.remove(test)
        self.ended[test].append(record)
        if succeeds(record) or len(self.ended[test]) == self.case.tries or self.is_stopped:
            self.finished.add(test)
            if self.case.stops_at_failure() and not all(succeeds(self.ended[it][-1]) for it in self.finished):
                self.stop()

    def status(self):
        if not self.ended:
            return 4
        if self.pending or any(map(fails_script, self.ended_scripts)):
            return 105
        passed = [test for test in self.finished if succeeds(self.ended[test][-1])]
        return 0 if len(passed) == len(self.ended) else 100


def drawn_event(draw, run):
    """Takes a random step that may come next, and gives its line."""
    if run.next_script():
        return "script {} {}".format(*run.end_script())
    test = draw.choice(run.may_start() + run.may_end())
    if test not in run.running:
        run.running.add(test)
        return f"start {test}"
    record = run.case.assigned[test][len(run.ended[test])]
    if run.is_stopped and draw.random() < 0.5:
        record = drawn_record(draw, draw.choice(ENDED_BY_RUN))
    run.end(test, record)
    return f"end {test} {record}"


def drawn_walk(draw, case, stops):
    """A random log with so many stop lines, that goes on till nothing can come, and the status behind each number of its lines."""
    run, lines = Run(case), []
    statuses = [run.status()]
    while stops or run.next_script() or run.may_start() or run.may_end():
        if stops and (draw.random() < 0.2 or not (run.next_script() or run.may_start() or run.may_end())):
            stops -= 1
            run.stop()
            lines.append(f"stop {draw.choice(REASONS)}")
        else:
            lines.append(drawn_event(draw, run))
        statuses.append(run.status())
    return lines, statuses


def drawn_log(draw, case, kind):
    """The kind of a log, its lines and its status."""
    lines, statuses = drawn_walk(draw, case, draw.choice([1, 1, 2, 3]) if kind == "stopped" else 0)
    length = len(lines)
    if kind == "cut":
        length = draw.randrange(len(lines) + 1)
    elif kind == "stopped" and draw.random() < 0.3:
        first = next(place for place, line in enumerate(lines) if line.startswith("stop "))
        length = draw.randrange(first, len(lines)) + 1
    return kind, lines[:length], statuses[length]


def row(draw, case):
    kinds = ["cut"] * draw.randrange(2, 4) + ["stopped"] * draw.randrange(2, 4)
    kinds += ["whole"] * (LOGS - 1 - len(kinds))
    draw.shuffle(kinds)
    logs = [drawn_log(draw, case, kind) for kind in ["whole"] + kinds]
    numbers = {f"script {id} {record}": place for place, (id, record) in enumerate(case.scripts.items())}
    for test, records in case.assigned.items():
        for line in [f"start {test}"] + [f"end {test} {record}" for record in records]:
            numbers.setdefault(line, len(numbers))
    told = [" ".join([kind] + [str(numbers.setdefault(line, len(numbers))) for line in lines]) for kind, lines, _ in logs]
    statuses = " ".join(str(status) for _, _, status in logs)
    answer = f"due {case.due()}, {'unstopped' if case.is_unstopped() else 'stopped'}: {statuses}"
    return f"{case.changes()} | {'; '.join(numbers)} | {'; '.join(told)} => {answer}\n"


def main():
    draw, other = random.Random(SEED), random.Random(SCRIPTS_SEED)
    rows = [row(draw, Case(draw)) for _ in range(CASES)] + [row(other, CaseWithScripts(other)) for _ in range(WITH_SCRIPTS)]
    TABLE.write_text(HEAD + "\n" + "".join(rows), encoding="utf-8")


if __name__ == "__main__":
    main()
