"""What holds of every run of the program, whatever it is fed: the oracle of fuzz/mutate.py and of scripts/replay_corpus.py.

It isn't called by itself. `faults_of_run` says what is wrong with a run as such, by docs/FORMATS.md; `LAWS` are what holds between two runs.
Each answers a text for each thing that doesn't hold.
"""
import dataclasses
import json
import os
import pathlib
import re
import socket
import subprocess
import sys
import threading

sys.dont_write_bytecode = True
ROOT = pathlib.Path(__file__).resolve().parent.parent
sys.path.insert(0, str(ROOT / "scripts"))
import whole_runs as rows

# The exit status of a run whose standard streams or memory failed; and those of runs that were judged.
FAULT = 74
STATUSES = (0, 4, 92, 96, 100, 105)

# How severe the statuses are of runs that came to their final text and in which a test is selected.
SEVERITY = {0: 0, 100: 1, 105: 2}

COUNTERS = (
    "initial-run-count finished-count setup-scripts-initial-count setup-scripts-finished-count setup-scripts-passed setup-scripts-failed"
    " setup-scripts-exec-failed setup-scripts-timed-out passed passed-slow passed-timed-out flaky failed failed-slow failed-timed-out leaky"
    " leaky-failed exec-failed skipped failed-weight"
).split()
REASONS = "report-error global-timeout signal interrupt second-signal".split()
OWN_REASONS = "setup-script-failure test-failure test-failure-immediate".split()

# Why inputs have no plan, and why a line is refused.
NO_PLAN = (
    "RepeatedPackage UnknownLink RepeatedBinary UnknownPackage BadId VersionSource VersionError UnknownFeature Load.Unread Load.Toml"
    " Load.BadValue Load.BothScriptTables Load.FeatureNotEnabled Load.BadName Load.RepeatedScript Load.NoConstraint"
    " Load.FilterAndDefaultFilter Load.BadSpec Load.BadFilter Load.ListWrapperRunFilter Load.UnknownGroup Load.UnknownScript"
    " Load.UnknownWrapper Load.InheritsInDefault Load.UnknownParent Load.Cycle ProfileNotFound RepeatedFact Filterset ListFault"
    " EmptyTestName BadTestName RepeatedTest RetriesTooMany"
).split()
BAD_LINE = (
    "LineTooLong LogTooLong NoLineEnd NotUtf8 BadLine UnknownScript OutOfOrder UnknownTest Stopped ScriptsPending Running NotRunning Finished"
).split()

# ---- the form of a report


def one_of(names):
    return "(?:" + "|".join(map(re.escape, names)) + ")"


HEX, NUMBER, NAME = "(?:[0-9a-f]{2})*", "(?:0|[1-9][0-9]*)", r"[^\t\n]+"
RESULT = r"(?:pass|leak:pass|leak:fail|timeout:pass|timeout:fail|fail:-?[1-9][0-9]*(?::leaked)?|abort:[1-9][0-9]*(?::leaked)?|exec-fail)"
ENDED = rf"{RESULT}\t(?:slow|-)\t{NUMBER}"
OUTPUTS = rf"(?:(?:out\t{HEX}\n)?(?:err\t{HEX}\n)?|error\t{HEX}\n)"
SHOWN = rf"{OUTPUTS}(?:slice\t(?:panic|error|should-panic)\t{NUMBER}\t{NUMBER}\n)?"
FATE = "(?:pass|fail|flaky|flaky-fail)"
DONE = rf"done\t{NAME}\t{NAME}\t{FATE}\t{NUMBER}/{NUMBER}\n{SHOWN}"
SCRIPT = rf"script\t[^\t\n]*\t(?:not-run\n|{ENDED}\n{OUTPUTS})"
TEST = rf"test\t{NAME}\t{NAME}\t(?:{FATE}|not-run|unfinished)\t{NUMBER}/{NUMBER}\n(?:try\t{NUMBER}\t{ENDED}\n)*{SHOWN}"
OUTCOME = r"(?P<outcome>success|no-tests-run|(?:failed|cancelled) (?:setup-script|test [0-9]+ [0-9]+)(?: [a-z-]+)?)"
COUNTED = "".join(rf"{it}\t(?P<{it.replace('-', '_')}>{NUMBER})\n" for it in COUNTERS)
REASON = rf"(?P<reason>{one_of(['-', *REASONS, *OWN_REASONS])})"
FINAL = rf"== final ==\nstatus\t(?P<status>[0-9]+)\noutcome {OUTCOME}\n{COUNTED}cancel-reason\t{REASON}\n(?:{SCRIPT})*(?:{TEST})*"
TOLD = rf"(?:warning\t[^\t\n]+\n)*(?:{DONE})*"

WITHOUT_PLAN = re.compile(rf"refused\t(?:Syntax|Field\t[^\t\n]+|{one_of(NO_PLAN)})\n")
WITH_BAD_LINE = re.compile(rf"{TOLD}refused\tline\t(?P<number>[1-9][0-9]*)\t{one_of(BAD_LINE)}\n")
WHOLE = re.compile(TOLD + FINAL)


def due_outcome(counts, reason):
    """The status and the outcome that counters and the reason come to."""
    initial, scripts = counts["initial_run_count"], counts["setup_scripts_initial_count"]
    numbers = f"test {initial} {initial - counts['finished_count']}"
    is_failed = reason not in REASONS
    if sum(counts[f"setup_scripts_{it}"] for it in ("failed", "exec_failed", "timed_out")):
        step, status = "setup-script", 105
    elif counts["setup_scripts_finished_count"] < scripts:
        step, status, is_failed = "setup-script", 105, False
    elif sum(counts[it] for it in ("failed", "exec_failed", "failed_timed_out")):
        step, status = numbers, 100
    elif counts["finished_count"] < initial:
        step, status, is_failed = numbers, 100, False
    else:
        return ("success", 0) if initial else ("no-tests-run", 4)
    return f"failed {step}" if is_failed else f"cancelled {step} {reason}", status if initial else 4


def faults_of_final(found, status):
    """What is wrong with the numbers of a final text, of which this was found."""
    counts = {it: int(found[it]) for it in (name.replace("-", "_") for name in COUNTERS)}
    finished = sum(counts[it] for it in ("passed", "failed", "exec_failed", "failed_timed_out"))
    scripts = sum(counts[f"setup_scripts_{it}"] for it in ("passed", "failed", "exec_failed", "timed_out"))
    outcome, due = due_outcome(counts, found["reason"])
    said = [
        (int(found["status"]) == status, "the status line isn't the exit status"),
        (status == due, f"the exit status isn't {due}, as the counters want it"),
        (found["outcome"] == outcome, f"the outcome isn't {outcome}"),
        (finished == counts["finished_count"] <= counts["initial_run_count"], "tests are counted wrongly"),
        (scripts == counts["setup_scripts_finished_count"] <= counts["setup_scripts_initial_count"], "scripts are counted wrongly"),
    ]
    return [fault for holds, fault in said if not holds]


def faults_of_report(report, status):
    """What is wrong with a report, by its form and its status."""
    try:
        text = report.decode()
    except UnicodeDecodeError:
        return ["the report isn't UTF-8"]
    if status == 92:
        return [] if text == "refused\tVersionError\n" else ["the report isn't that of a version"]
    if status == 96:
        is_plan = WITHOUT_PLAN.fullmatch(text) and text != "refused\tVersionError\n"
        return [] if is_plan or WITH_BAD_LINE.fullmatch(text) else ["the report isn't one that ends with what is refused"]
    found = WHOLE.fullmatch(text)
    return faults_of_final(found, status) if found else ["the report isn't one that ends with the final text"]


# What may have a pattern that is too large to compile, which is answered as want of memory is: it takes a repetition.
LARGE = re.compile(rb"/[^/]*[{][^/]*/")


def faults_of_run(stream, run):
    """What is wrong with the run of a stream as such."""
    if run.error:
        return ["something stands on standard error"]
    if run.status in STATUSES:
        return faults_of_report(run.report, run.status)
    if run.status == FAULT:
        return [] if LARGE.search(stream) else ["there is no memory"]
    return [f"it ended as none does: {run.status}"]


# ---- runs


@dataclasses.dataclass(frozen=True)
class Run:
    """What the program came to: its exit status, below 0 for a signal, and the bytes of its streams."""

    status: int
    report: bytes
    error: bytes

    def is_judged(self):
        """Whether it came to its final text."""
        return self.status in (0, 4, 100, 105)

    def is_unstopped(self):
        return b"\ncancel-reason\t-\n" in self.final_text()

    def final_text(self):
        """The final text; nothing where there is none."""
        _, found, final = self.report.rpartition(b"\n== final ==\n") if not self.report.startswith(b"== final ==\n") else (b"", b"=", self.report)
        return final if found else b""

    def without_warnings(self):
        return re.sub(rb"^warning\t.*\n", b"", self.report, flags=re.M)


@dataclasses.dataclass(frozen=True)
class Program:
    """The program, which is fed the bytes of streams."""

    path: str

    def run(self, stream):
        done = subprocess.run([self.path], input=stream, capture_output=True, timeout=rows.LIMIT)
        return Run(done.returncode, done.stdout, done.stderr)

    def run_in_pieces(self, stream, piece):
        """The same, where each read gets so many bytes."""
        sender, taker = socket.socketpair(socket.AF_UNIX, socket.SOCK_SEQPACKET)
        with taker:
            process = subprocess.Popen([self.path], stdin=taker, stdout=subprocess.PIPE, stderr=subprocess.PIPE)
        thread = threading.Thread(target=rows.send_pieces, args=(sender, stream, piece))
        thread.start()
        try:
            report, error = process.communicate(timeout=rows.LIMIT)
            return Run(process.returncode, report, error)
        finally:
            process.kill()
            thread.join()


def programs_at(path):
    """The program at a path, and beside it the one that Rattle's own compiler built, where it is there."""
    path = os.path.abspath(path)
    return [Program(it) for it in (path, path + rows.BY_RATTLE) if it == path or os.access(it, os.X_OK)]


# ---- laws of two runs; each takes a draw, the program, the stream in its parts, and its run


def in_pieces(draw, program, stream, run):
    """The stream in pieces is the same stream."""
    piece = draw.choice(rows.PIECES)
    return [] if program.run_in_pieces(stream, piece) == run else [f"in pieces of {piece} it comes to something else"]


def no_milder(run, other, what):
    """That another run of the same plan is no milder."""
    if run.status == 4:
        return [] if other.status == 4 else [f"{what} it isn't 4"]
    is_severe = other.status in SEVERITY and SEVERITY[other.status] >= SEVERITY[run.status]
    return [] if is_severe else [f"{what} its status is {other.status}"]


def cut(draw, program, stream, run):
    """A log that is cut after a line ends no milder."""
    first, *lines = stream.split(b"\n")
    if not run.is_judged() or len(lines) < 2:
        return []
    kept = draw.randrange(len(lines))
    return no_milder(run, program.run(b"\n".join([first, *lines[:kept], b""])), f"cut after {kept} lines")


def stopped(draw, program, stream, run):
    """A log with a line that stops it ends no milder, unless a line behind it is refused then."""
    first, *lines = stream.split(b"\n")
    if not run.is_judged() or not lines:
        return []
    at = draw.randrange(len(lines))
    other = program.run(b"\n".join([first, *lines[:at], b"stop\t" + draw.choice(REASONS).encode(), *lines[at:]]))
    is_refused = other.status == 96 and other.report.endswith(b"\tStopped\n") and at < len(lines) - 1
    return [] if is_refused else no_milder(run, other, f"stopped after {at} lines")


def with_blank_lines(draw, program, stream, run):
    """An empty line says nothing."""
    first, *lines = stream.split(b"\n")
    if not run.is_judged() or not lines:
        return []
    at = draw.randrange(len(lines))
    other = program.run(b"\n".join([first, *lines[:at], b"", *lines[at:]]))
    return [] if other == run else [f"an empty line after {at} lines changes what it comes to"]


def in_other_order(draw, program, stream, run):
    """Of logs in which each test ends as in the other, and which nothing stops, the final text is the same."""
    first, *lines = stream.split(b"\n")
    if not run.is_judged() or not run.is_unstopped() or len(lines) < 3:
        return []
    at = draw.randrange(len(lines) - 2)
    one, other = lines[at : at + 2]
    if one.split(b"\t")[1:3] == other.split(b"\t")[1:3]:
        return []
    moved = program.run(b"\n".join([first, *lines[:at], other, one, *lines[at + 2 :]]))
    is_same = not moved.is_judged() or not moved.is_unstopped() or moved.final_text() == run.final_text()
    return [] if is_same else [f"lines {at + 1} and {at + 2} in the other order change the final text"]


def inputs_of(stream):
    """The inputs of a stream, where they are an object, and what stands behind their line."""
    first, _, log = stream.partition(b"\n")
    try:
        inputs = json.loads(first)
    except (ValueError, RecursionError):
        return None, log
    return inputs if isinstance(inputs, dict) else None, log


def fed(inputs, log, as_ascii=True):
    return json.dumps(inputs, ensure_ascii=as_ascii).encode("utf-8", "surrogatepass") + b"\n" + log


def spelled_otherwise(draw, program, stream, run):
    """The same JSON with its members in another order, and in another spelling, says the same."""
    inputs, log = inputs_of(stream)
    is_syntax = run.report == b"refused\tSyntax\n"
    if inputs is None or is_syntax:
        return []
    members = list(inputs.items())
    draw.shuffle(members)
    other = program.run(fed(dict([*members, ("unknown", [None])]), log, draw.random() < 0.5))
    return [] if other == run else ["its inputs in another spelling come to something else"]


# Filtersets that are the same as F, wherever it is one.
ALIKE = ["({}) and default()", "({}) and all()", "({}) or none()", "not not ({})", "!(not ({}))", " ( {} ) ", "({}) - none()", "({}) and ({})"]


def filtersets_alike(draw, program, stream, run):
    """A filterset, and one that is the same wherever it is one, choose the same."""
    inputs, log = inputs_of(stream)
    if inputs is None or not run.is_judged() or not isinstance(inputs.get("filterset"), str):
        return []
    form = draw.choice(ALIKE)
    if "default" in form and inputs.get("ignore_default_filter"):
        return []
    other = program.run(fed({**inputs, "filterset": form.replace("{}", inputs["filterset"])}, log))
    return [] if other == run else [f"the filterset F and {form.replace('{}', 'F')} choose differently"]


# What can stand behind the text of any configuration, and changes nothing but warnings.
BEHIND = ["\n# nothing\n", "\n[profile.zz9]\nretries = 9\n", "\n[[profile.zz9.overrides]]\nfilter = 'all()'\nretries = 9\npriority = 3\n", "\n[zz9]\na = 1\n"]


def with_more_behind(draw, program, stream, run):
    """What is outside of a profile's chain changes nothing but warnings."""
    inputs, log = inputs_of(stream)
    if inputs is None or not run.is_judged():
        return []
    sources = [it for it in inputs["sources"] if isinstance(it, dict) and isinstance(it.get("text"), str)]
    if not sources or any("zz9" in it["text"] for it in sources):
        return []
    source, behind = draw.choice(sources), draw.choice(BEHIND)
    source["text"] += behind
    other = program.run(fed(inputs, log))
    is_same = other.status == run.status and other.without_warnings() == run.without_warnings()
    return [] if is_same else [f"with {behind!r} behind a source it comes to something else"]


LAWS = [in_pieces, cut, stopped, with_blank_lines, in_other_order, spelled_otherwise, filtersets_alike, with_more_behind]
