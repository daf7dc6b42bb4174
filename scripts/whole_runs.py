#!/usr/bin/env python3
"""Runs the built program on the rows of rows/, and prints each row whose answer isn't what the program comes to.

    python3 scripts/whole_runs.py [--program PATH] [--counts] [TABLE ..]

What each table has stands in rows/README.md. The program is crates/test_runner/out/test_runner, which `rt ci` leaves, or the one at
PATH, and beside it, where it is there, PATH.by-rattle, which Rattle's own compiler built: a row holds where it holds of both. Without
names all tables are compared. It says nothing where all rows hold, but how many hold of each table with --counts; else its last line
is `N passed, M failed`, and the exit status 1.
"""
import argparse
import concurrent.futures
import dataclasses
import json
import os
import pathlib
import re
import resource
import signal
import socket
import subprocess
import sys
import tempfile
import threading

ROOT = pathlib.Path(__file__).resolve().parent.parent
ROWS = ROOT / "rows"
DATA = ROOT / "crates/worked_rows/data"
PROGRAM = ROOT / "crates/test_runner/out/test_runner"

# What the other compiler's build is called.
BY_RATTLE = ".by-rattle"

# The most seconds that a run takes, and the most characters that are shown of an answer.
LIMIT, SHOWN = 60, 10_000

# The bytes of stack that deep inputs get, and those that a program usually has.
SMALL_STACK, USUAL_STACK = 256 * 1024, 8 * 1024 * 1024

# The pieces in which short streams are fed once more, in bytes, and which are short.
PIECES, SHORT = (1, 7), 65_536

ARROW, BAR, BREAK = " => ", " | ", "; "
SIGNS = {"␉": "\t", "␊": "\n", "␍": "\r"}
BYTES = re.compile(rb"\xe2\x9f\xaa([0-9A-F]+)(?:\xc3\x97([0-9]+))?\xe2\x9f\xab")

FINAL = "== final ==\n"
NO_REASON = "\ncancel-reason\t-\n"

# The line of a counter that is 0.
ZERO = re.compile("^(?!status)[a-z-]+\t0\n", re.M)

# Why a line is refused for what it says, which hangs on the plan.
OF_STEPS = "UnknownScript UnknownTest Stopped ScriptsPending OutOfOrder Running Finished NotRunning InnerReason".split()

# The statuses that are no milder than one.
NO_MILDER = {0: (0, 100, 105), 100: (100, 105)}

# A log in which both tests of plan.json pass.
BOTH_PASS = "start p a; end p a pass - 1 - -; start p b; end p b pass - 1 - -"

# What a row of told_tests sets in the default profile.
RULES = {
    "pass": "flaky-result = 'pass', fail-fast = false",
    "fail": "flaky-result = 'fail', fail-fast = false",
    "pass immediate": "fail-fast = { max-fail = 1, terminate = 'immediate' }",
}

# What a part of a row of deep inputs is in their source.
SOURCES = {
    "toml": "{}\n",
    "default-filter": "[profile.default]\ndefault-filter = '{}'\n",
    "filter": "[[profile.default.overrides]]\nfilter = '{}'\nretries = 1\n",
    "platform": "[[profile.default.overrides]]\nplatform = '{}'\nretries = 1\n",
}


def with_signs(text):
    for character, sign in {it: sign for sign, it in SIGNS.items()}.items():
        text = text.replace(character, sign)
    return text


def without_signs(text):
    for sign, character in SIGNS.items():
        text = text.replace(sign, character)
    return text


def as_fed(stream):
    """The bytes of a stream, where `⟪HEX⟫` stands for bytes and `⟪HEX×N⟫` for N times these."""
    return BYTES.sub(lambda it: bytes.fromhex(it[1].decode()) * int(it[2] or 1), stream.encode())


def on_a_line(inputs):
    """Inputs as the first line of a stream."""
    return inputs.replace("\n", " ") + "\n"


def with_tabs(log, divided=BREAK):
    """The lines of a log whose fields are divided by a space."""
    return "".join(line.replace(" ", "\t") + "\n" for line in log.split(divided) if line)


# ---- runs of the program


@dataclasses.dataclass
class Run:
    """What the program came to: its exit status, its report, and what it wrote to standard error, where nothing is due."""

    status: int
    report: str
    error: str = ""

    def shown(self):
        return f"{self.report}(status {self.status})\n{self.error}"

    def final_text(self):
        """The final text behind its first line, or none where something is refused."""
        return self.report.split(FINAL, 1)[1] if FINAL in self.report else None

    def fields(self):
        """The fields of the first line of the report."""
        return self.report.split("\n", 1)[0].split("\t")

    def is_unstopped(self):
        """Whether it came to its final text, and no reason to stop it stood."""
        return NO_REASON in (self.final_text() or "")


def ended(process, report, error):
    return Run(process.returncode, report.decode("utf-8", "backslashreplace"), error.decode("utf-8", "backslashreplace"))


def send_pieces(sender, stream, piece):
    """Sends a stream so that each read of it gets a piece."""
    with sender:
        try:
            for place in range(0, len(stream), piece):
                sender.send(stream[place : place + piece])
        except OSError:
            # The program reads no further, which its report shows.
            pass


@dataclasses.dataclass
class Program:
    """The program, which is fed streams."""

    path: str

    def run(self, stream):
        process = subprocess.run([self.path], input=as_fed(stream), capture_output=True, timeout=LIMIT)
        return ended(process, process.stdout, process.stderr)

    def run_on_stack(self, stream, size):
        def limit():
            resource.setrlimit(resource.RLIMIT_STACK, (size, size))

        process = subprocess.run([self.path], input=as_fed(stream), capture_output=True, timeout=LIMIT, preexec_fn=limit)
        return ended(process, process.stdout, process.stderr)

    def run_into(self, file, stream, size, is_ignored):
        """The status where the report goes to a file of so many bytes at most, with the signal for that as usual or ignored."""

        def limit():
            resource.setrlimit(resource.RLIMIT_CORE, (0, 0))
            resource.setrlimit(resource.RLIMIT_FSIZE, (size, size))

        # Python itself ignores the signal.
        how = {"stdout": file, "stderr": subprocess.DEVNULL, "timeout": LIMIT, "preexec_fn": limit}
        return subprocess.run([self.path], input=as_fed(stream), restore_signals=not is_ignored, **how).returncode

    def run_in_pieces(self, stream, piece):
        """The same, where each read gets so many bytes."""
        sender, taker = socket.socketpair(socket.AF_UNIX, socket.SOCK_SEQPACKET)
        pipes = {"stdin": taker, "stdout": subprocess.PIPE, "stderr": subprocess.PIPE}
        with taker:
            process = subprocess.Popen([self.path], **pipes)
        thread = threading.Thread(target=send_pieces, args=(sender, as_fed(stream), piece))
        thread.start()
        try:
            return ended(process, *process.communicate(timeout=LIMIT))
        finally:
            process.kill()
            thread.join()

    def come_to(self, stream):
        """What a stream comes to, also in pieces where it is short."""
        told = self.run(stream).shown()
        for piece in PIECES if len(as_fed(stream)) < SHORT else ():
            other = self.run_in_pieces(stream, piece).shown()
            if other != told:
                return f"{told}in pieces of {piece}:\n{other}"
        return told


# ---- what tables answer


def changed(file):
    """What a row makes of a text: the first place of each part has the other text in place of it."""
    text = file.read_text(encoding="utf-8")

    def by(changes):
        pieces, made = changes.split(ARROW), text
        for part, other in zip(pieces[::2], pieces[1::2]):
            if part not in made:
                raise ValueError(f"{file.name} has no part {part}")
            made = made.replace(part, other, 1)
        return made

    return by


FULL = changed(DATA / "inputs/full.in")
PLAN = changed(DATA / "plan.json")
STREAM = changed(ROWS / "profiles_runs.in")
SCRIPTS = changed(ROWS / "script_runs.in")
WEIGHTS = changed(ROWS / "weight_runs.in")


def runs(program, stream):
    return program.come_to(stream)


def profiles_runs(program, changes):
    return program.run(STREAM(changes)).shown()


def without_zeros(program, inputs, row):
    """The report of changed inputs and a log without the lines of counters that are 0, and a line with the status."""
    changes, log = row.split(BAR)
    told = program.run(on_a_line(inputs(changes)) + with_tabs(log)).shown()
    return re.sub(ZERO, "", told)


def script_runs(program, row):
    return without_zeros(program, SCRIPTS, row)


def weight_runs(program, row):
    return without_zeros(program, WEIGHTS, row)


def many_tests(program, row):
    """What a run comes to of so many tests, each of a weight, under a limit, of which so many fail one after another."""
    count, weight, limit, failing = row.split(" ")
    inputs = json.loads(PLAN(""))
    names = inputs["workspace"]["binaries"][0]["tests"] = [f"t{place:06}" for place in range(int(count))]
    text = f"[profile.default]\nfail-fast = {{ max-fail = {limit} }}\nfail-weight = {weight}\n"
    inputs["sources"] = [{"kind": "explicit", "path": "n", "text": text}]
    log = "".join(f"start\tp\t{name}\nend\tp\t{name}\tfail:1\t-\t1\t-\t-\n" for name in names[: int(failing)])
    run = program.run(json.dumps(inputs) + "\n" + log)
    refused = re.search(r"^refused\t(.*)$", run.report, re.M)
    if refused:
        return f"status {run.status}, refused {refused[1]}".replace("\t", " ")
    reason = re.search(r"^cancel-reason\t(.*)$", run.final_text() or "", re.M)
    if not reason:
        return run.shown()
    counters = ("failed", "failed-weight")
    return ", ".join([f"status {run.status}", *(f"{name} {counter(name, run)}" for name in counters), f"cancel-reason {reason[1]}"])


def inputs(program, text):
    """`read`, `syntax`, or the path that is told."""
    run = program.run(on_a_line(text))
    fields = run.fields()
    if fields[:2] == ["refused", "Syntax"]:
        return "syntax" if run.status == 96 else run.shown()
    if fields[:2] == ["refused", "Field"]:
        return fields[2] if run.status == 96 else run.shown()
    return "read" if fields[0] == "refused" or run.final_text() is not None else run.shown()


def inputs_changed(program, changes):
    return inputs(program, FULL(changes))


def versions(program, text):
    """The warnings, or the name under which inputs are refused."""
    run = program.run(on_a_line(text))
    fields = run.fields()
    if fields[0] == "refused":
        return fields[1] if run.status == (92 if fields[1] == "VersionError" else 96) else run.shown()
    if run.final_text() is None:
        return run.shown()
    warnings = re.findall(r"^warning\t(.*)$", run.report, re.M)
    return " ".join(["warnings", *(f"[{it}]" for it in warnings)])


def refused_lines(program, log):
    """The first line that is refused whatever the plan. Behind a line that only this plan refuses the log is judged anew."""
    first = 0
    while True:
        told = program.come_to(on_a_line(PLAN("")) + log)
        found = re.search(r"^refused\tline\t(\d+)\t(\w+)\n\(status 96\)\n\Z", told, re.M)
        if not found:
            return "none" if FINAL in told else told
        if found[2] not in OF_STEPS:
            return f"{first + int(found[1])} {found[2]}"
        first += int(found[1])
        log = log.split("\n", int(found[1]))[-1]


def block(text, head):
    """The lines of a test: the one that begins so, and those up to the next test's."""
    lines, told = text.splitlines(keepends=True), ""
    for line in lines:
        if line.startswith(head) or told and not re.match(r"done\t|test\t", line):
            told += line
        elif told:
            break
    return told


def told_tests(program, row):
    """What is written as `p a` finishes, and its part of the final text."""
    words, log = row.split(": ", 1)
    tries, rule = words.split(" ", 1)
    source = f"profile.default = {{ retries = {int(tries) - 1}, {RULES[rule]} }}"
    stream = on_a_line(PLAN(f'"sources":[]{ARROW}"sources":[{{"kind":"explicit","path":"n","text":"{source}"}}]')) + with_tabs(log)
    run = program.run(stream)
    if run.final_text() is None:
        return run.shown()
    done, final = run.report.split(FINAL, 1)
    return "|".join([block(done, "done\tp\ta\t"), block(final, "test\tp\ta\t")])


def pairs(program, row):
    """The status of two logs, and how much of their reports is the same."""
    changes, one, other = row.split(BAR)
    one, other = (program.run(on_a_line(PLAN(changes)) + with_tabs(log)) for log in (one, other))
    if one.report == other.report:
        shared = "one report"
    elif one.final_text() is not None and one.final_text() == other.final_text():
        shared = "one final text"
    else:
        shared = "two final texts"
    return f"{one.status} and {other.status}, {shared}"


def without_warnings(report):
    return re.sub(r"^warning\t.*\n", "", report, flags=re.M)


def law_row(program, inputs, other, log):
    """What the runs of two inputs by one log come to: the first one's status and number of tests, where both have one report."""
    one, second, none = (program.run(json.dumps(it) + "\n" + with_tabs(log)) for it, log in ((inputs, log), (other, log), (inputs, "")))
    if one.status != second.status or without_warnings(one.report) != without_warnings(second.report):
        return f"{one.shown()}and {second.shown()}"
    return f"status {one.status}, {counter('initial-run-count', none)} tests, one report"


def counter(name, run):
    """A counter of a final text."""
    return re.search(rf"^{name}\t(\d+)$", run.report, re.M)[1]


def default_twice(program, row):
    """Inputs with a filterset, and with the default filter beside it."""
    changes, log = row.rsplit(BAR, 1)
    inputs = json.loads(PLAN(changes))
    return law_row(program, inputs, {**inputs, "filterset": f"({inputs['filterset']}) and default()"}, log)


def isolation(program, row):
    """Two inputs whose files have other texts besides."""
    changes, one, other, log = row.rsplit(BAR, 3)
    inputs = json.loads(PLAN(changes))
    both = ({**inputs, "sources": [{**it, "text": it["text"] + texts[it["path"]]} for it in inputs["sources"]]} for texts in map(json.loads, (one, other)))
    return law_row(program, *both, log)


def roads(program, changes):
    """The planned tests, by the bytes of binary and name."""
    run = program.run(on_a_line(PLAN(changes)))
    if run.final_text() is None:
        return run.shown()
    tests = re.findall(r"^test\t(.*)\t(.*)\tnot-run\t0/\d+$", run.report, re.M)
    return ", ".join(" ".join(it) for it in sorted(tests, key=lambda test: [part.encode() for part in test])) or "none"


def deep(program, row, stack):
    """The status on such a stack, and why the inputs are refused, or how many tests are planned, and with an override of how many tries."""
    parts = dict(part.split(": ", 1) for part in row.split(BAR))
    inputs, source = json.loads(PLAN("")), "".join(SOURCES[key].format(text) for key, text in parts.items() if key in SOURCES)
    if source:
        inputs["sources"] = [{"kind": "explicit", "path": "n", "text": source}]
    if "filterset" in parts:
        inputs["filterset"] = parts["filterset"]
    line = json.dumps(inputs, ensure_ascii=False)
    if "member" in parts:
        line = f'{{"x":{parts["member"]},{line[1:]}'
    run = program.run_on_stack(line + "\n" + with_tabs(BOTH_PASS), stack)
    fields = run.fields()
    if fields[0] == "refused":
        return f"status {run.status}, refused {fields[1]}"
    if run.final_text() is None:
        return run.shown()
    told = f"status {run.status}, {counter('initial-run-count', run)} tests"
    if parts.keys() & {"filter", "platform"}:
        told += f" of {' and '.join(re.findall(r'^done.*/(.*)$', run.report, re.M))} tries"
    return told


def deep_inputs(program, row):
    return deep(program, row, SMALL_STACK)


def reader_limits(program, row):
    return deep(program, row, USUAL_STACK)


def file_limits(program, row):
    """How a program ends whose report goes to a file that may not have all of it, and how many bytes of it are missing there."""
    fewer, word = row.split(" ")
    stream = on_a_line(PLAN("")) + with_tabs(BOTH_PASS)
    whole = program.run(stream).report.encode()
    with tempfile.TemporaryFile() as file:
        status = program.run_into(file, stream, len(whole) - int(fewer), word == "ignored")
        file.seek(0)
        written = file.read()
    told = f"status {status}" if status >= 0 else signal.Signals(-status).name
    return f"{told}, " + (f"{len(whole) - len(written)} bytes missing" if whole.startswith(written) else "other bytes")


def agrees(kind, log, first):
    """Whether a log is as the first one wants it."""
    if kind != "whole":
        return log.status in NO_MILDER.get(first.status, (first.status,))
    as_first = log.status == first.status and log.is_unstopped() == first.is_unstopped()
    return as_first and (not first.is_unstopped() or log.final_text() == first.final_text())


def agreeing(program, row):
    """What logs come to that agree with one assignment."""
    changes, lines, logs = row.split(BAR)
    lines, given = lines.split(BREAK), on_a_line(PLAN(changes))
    told = []
    for log in logs.split(BREAK):
        kind, *numbers = log.split(" ")
        chosen = BREAK.join(lines[int(it)] for it in numbers if it)
        told.append((kind, program.run(given + with_tabs(chosen))))
    first = told[0][1]
    words = [f"due {first.status}, {'unstopped' if first.is_unstopped() else 'stopped'}:", str(first.status)]
    for kind, log in told[1:]:
        words.append(str(log.status) + ("" if agrees(kind, log, first) else " differs"))
    return " ".join(words)


# Each table, and what answers its inputs.
TABLES = {
    "runs": runs,
    "profiles_runs": profiles_runs,
    "script_runs": script_runs,
    "weight_runs": weight_runs,
    "many_tests": many_tests,
    "told_tests": told_tests,
    "pairs": pairs,
    "agreeing": agreeing,
    "default_twice": default_twice,
    "isolation": isolation,
    "roads": roads,
    "versions": versions,
    "inputs_changed": inputs_changed,
    "inputs_other": inputs,
    "refused_lines": refused_lines,
    "deep_inputs": deep_inputs,
    "json_members": deep_inputs,
    "reader_limits": reader_limits,
    "file_limits": file_limits,
}

# Those whose rows take up to some 2 GB of memory, so that few are run side by side.
LARGE, SIDE_BY_SIDE = {"deep_inputs"}, 3


# ---- rows


@dataclasses.dataclass
class Row:
    """A row: its table, what is shown of it, its input and its answer."""

    table: str
    shown: str
    input: str
    answer: str

    def differs(self, programs):
        """What is said of it where a program comes to something else."""
        for program in programs:
            try:
                given = TABLES[self.table](program, self.input)
            except subprocess.TimeoutExpired:
                given = f"no end within {LIMIT} seconds"
            except (ValueError, IndexError, KeyError, TypeError) as error:
                given = f"none, since the input is none: {error!r}"
            if given != self.answer:
                of = f" of {os.path.basename(program.path)}" if len(programs) > 1 else ""
                return f"{self.shown}\n    but the answer{of} is: {with_signs(given)[:SHOWN]}"
        return None


def rows_of_lines(table):
    """The rows of a table that are lines."""
    for line in (ROWS / f"{table}.txt").read_text(encoding="utf-8").split("\n"):
        if line and not line.startswith("#"):
            if ARROW not in line:
                raise SystemExit(f"a line of {table} is no row: {line}")
            given, answer = map(without_signs, line.rsplit(ARROW, 1))
            yield Row(table, f"{table}: {line}", given, answer)


def rows_of_cases(table):
    """The rows of a table that are two files each."""
    for file in sorted((ROWS / table).glob("*.in")):
        answer = file.with_suffix(".out").read_text(encoding="utf-8")
        given = file.read_bytes().hex().upper()
        yield Row(table, f"{table}/{file.stem}: {with_signs(answer)}", f"⟪{given}⟫" if given else "", answer)


def rows_of(table):
    return list(rows_of_cases(table) if (ROWS / table).is_dir() else rows_of_lines(table))


def main():
    parser = argparse.ArgumentParser(description="Compares the rows of rows/ with what the built program comes to.")
    parser.add_argument("--program", default=PROGRAM, help="the program that is run")
    parser.add_argument("--counts", action="store_true", help="says how many rows of each table hold")
    parser.add_argument("tables", nargs="*", metavar="TABLE", help=f"one of {', '.join(TABLES)}")
    words = parser.parse_args()
    if not set(words.tables) <= set(TABLES):
        parser.error(f"the tables are {', '.join(TABLES)}")
    path = os.path.abspath(words.program)
    if not os.access(path, os.X_OK):
        print(f"There is no program {path}: `make test` builds it, and so does `make run`.")
        return 1
    programs = [Program(it) for it in (path, path + BY_RATTLE) if it == path or os.access(it, os.X_OK)]
    passed = failed = 0
    pools = concurrent.futures.ThreadPoolExecutor
    with pools(2 * len(os.sched_getaffinity(0))) as pool, pools(SIDE_BY_SIDE) as few:
        told = {
            table: (few if table in LARGE else pool).map(lambda row: row.differs(programs), rows_of(table))
            for table in words.tables or TABLES
        }
        for table, answers in told.items():
            answers = list(answers)
            for it in filter(None, answers):
                print(it)
            held = answers.count(None)
            passed, failed = passed + held, failed + len(answers) - held
            if words.counts:
                print(f"{table}: {held} rows hold")
    if failed:
        print(f"{passed} passed, {failed} failed")
    return 1 if failed else 0


if __name__ == "__main__":
    sys.exit(main())
