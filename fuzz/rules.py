"""What a stream comes to by the rules of the scripts that make the rows, reckoned without the program: one more law of fuzz/oracle.py.

It isn't called by itself. `reckoned` answers the report and the status, or nothing where the rules don't reach: those of JSON, of the inputs'
form and of the end of a log stand here, by docs/FORMATS.md, all others in scripts/run_rows.py and what it imports.
"""
import functools
import json
import math
import pathlib
import re
import sys
import tomllib

sys.dont_write_bytecode = True
sys.path.insert(0, str(pathlib.Path(__file__).resolve().parent.parent / "scripts"))
import element_rows as elements
import plan_rules as plans
import run_rows as runs

# The bounds of a first line, of its nesting, and of a line of the log.
LONGEST_FIRST, DEEPEST, LONGEST = 16_777_216, 127, 1_048_576

# A version with a pre-release or a build, of which scripts/config_rows.py says nothing.
VERSION = re.compile(r"nextest-version.{0,60}?[0-9][-+]", re.S)

# A regular expression in a filterset that Python may read otherwise: one that isn't made of plain characters, dots and ranges.
PATTERN = re.compile(r"\(\s*/(?!(?:[A-Za-z0-9_:. ][+*?]?|\[[a-z]-[a-z]\][+*?]?|[|^$])*/)")

SEMVER = re.compile(
    r"(?:0|[1-9]\d*)\.(?:0|[1-9]\d*)\.(?:0|[1-9]\d*)(?:-(?:0|[1-9]\d*|\d*[A-Za-z-][0-9A-Za-z-]*)(?:\.(?:0|[1-9]\d*|\d*[A-Za-z-][0-9A-Za-z-]*))*)?"
    r"(?:\+[0-9A-Za-z-]+(?:\.[0-9A-Za-z-]+)*)?", re.A
)

sys.set_int_max_str_digits(0)

# ---- JSON


class NoJson(ValueError):
    """A text that is no JSON here."""


def finite(text):
    """A number, if it isn't too large for a float."""
    if math.isinf(float(text)):
        raise NoJson
    return float(text) if re.search("[.eE]", text) else int(text)


def no_constant(_):
    raise NoJson


def depth(value):
    """How deep a value nests."""
    layer, count = [value], 0
    while layer := [it for it in layer if isinstance(it, (dict, list))]:
        layer = [part for it in layer for part in (it.values() if isinstance(it, dict) else it)]
        count += 1
    return count


def value_of(line):
    """The value of a first line; it raises ValueError where the line is refused as `Syntax`."""
    if len(line) > LONGEST_FIRST:
        raise NoJson
    text = line.decode()
    value = json.loads(text, parse_float=finite, parse_int=finite, parse_constant=no_constant)
    if depth(value) > DEEPEST or re.search("[\ud800-\udfff]", json.dumps(value, ensure_ascii=False)):
        raise NoJson
    return value


# ---- the form of inputs


class Field(Exception):
    """The path of what is missing, ill-typed or not allowed."""


def leaf(is_right):
    def read(value, path):
        if not is_right(value):
            raise Field(path)

    return read


def one_of(*words):
    return leaf(lambda it: isinstance(it, str) and it in words)


def members(**readers):
    """An object, whose members are read in their order; those that end in `_` may be absent."""

    def read(value, path):
        if not isinstance(value, dict):
            raise Field(path)
        for name, reader in readers.items():
            part = value.get(name.rstrip("_"))
            if part is not None or not name.endswith("_"):
                reader(part, [*path, name.rstrip("_")])

    return read


def list_of(reader):
    def read(value, path):
        if not isinstance(value, list):
            raise Field(path)
        for place, part in enumerate(value):
            reader(part, [*path, str(place)])

    return read


def row_of(*forms):
    """A list with as many items as one of the forms has readers."""

    def read(value, path):
        readers = next((it for it in forms if isinstance(value, list) and len(value) == len(it)), None)
        if readers is None:
            raise Field(path)
        for place, (reader, part) in enumerate(zip(readers, value)):
            reader(part, [*path, str(place)])

    return read


TEXT, TRUTH = leaf(lambda it: isinstance(it, str)), leaf(lambda it: isinstance(it, bool))
PLATFORM = members(triple=TEXT, facts=list_of(row_of((TEXT, TRUTH), (TEXT, TEXT, TRUTH))))


def tests(value, path):
    list_of(TEXT)(value, path) if isinstance(value, list) else members(fault=TEXT)(value, path)


def source(value, path):
    members(kind=one_of("tool", "explicit", "discovered"))(value, path)
    if value["kind"] == "tool":
        members(tool=leaf(lambda it: isinstance(it, str) and elements.is_tool_name(it)))(value, path)
    members(path=leaf(lambda it: isinstance(it, str) and not re.search("[\t\n\r]", it)))(value, path)
    forms = [it for it in ("text", "missing", "failed") if value.get(it) is not None]
    if len(forms) != 1:
        raise Field(path)
    members(text_=TEXT, missing_=leaf(lambda it: it is True), failed_=TEXT)(value, path)


BINARY = members(
    id=TEXT, name=TEXT, package=TEXT, kind=one_of("lib", "test", "bench", "bin", "example", "proc-macro"), platform=one_of("host", "target"), tests=tests
)
WORKSPACE = members(packages=list_of(members(id=TEXT, name=TEXT)), links=list_of(row_of((TEXT, TEXT))), binaries=list_of(BINARY))
INPUTS = members(
    workspace=WORKSPACE, sources=list_of(source), current_version=leaf(lambda it: isinstance(it, str) and is_version(it)), profile_=TEXT,
    mode_=one_of("test", "benchmark"), host_=PLATFORM, target_=PLATFORM, filterset_=TEXT, ignore_default_filter_=TRUTH,
    override_version_check_=TRUTH, processors_=leaf(lambda it: type(it) is int and 1 <= it < 2**64), root_=TEXT,
)


def is_version(text):
    return SEMVER.fullmatch(text) is not None and all(int(it) < 2**64 for it in re.split("[-+]", text)[0].split("."))


def form_fault(value):
    """The path that is told of a value that isn't of the inputs' form, or None."""
    if not isinstance(value, dict):
        return "workspace"
    try:
        INPUTS(value, [])
    except Field as field:
        return ".".join(field.args[0])
    return None


# ---- plans and logs


def integers(value):
    """The whole numbers in a value of TOML: one of more than 64 bits is none, which Python's reader doesn't know."""
    if type(value) is int:
        yield value
    for part in value.values() if isinstance(value, dict) else value if isinstance(value, list) else ():
        yield from integers(part)


def is_within_reach(inputs):
    """Whether the rules of scripts/ tell of such inputs."""
    texts = [it["text"] for it in inputs["sources"] if it.get("text") is not None]
    if any(map(VERSION.search, texts)) or any(map(PATTERN.search, [*texts, inputs.get("filterset") or ""])):
        return False
    try:
        return all(abs(number) < 2**63 for it in texts for number in integers(plans.read_toml(it)))
    except (tomllib.TOMLDecodeError, RecursionError):
        return False


def is_number(text, least, most):
    return least <= int(text) <= most


def has_bounds(line):
    """Whether a line that has the form of an event has its numbers within their bounds."""
    fields = line.split("\t")
    ended = {"end": fields[3:], "script": fields[2:]}.get(fields[0])
    if not ended or not runs.LINE.fullmatch(line):
        return True
    kind, _, rest = ended[0].partition(":")
    bounds = {"fail": (-(2**31), 2**31 - 1), "abort": (1, 127)}.get(kind)
    is_code = bounds is None or is_number(rest.split(":")[0], *bounds)
    return is_code and is_number(ended[2], 0, 2**64 - 1) and (kind != "exec-fail" or is_text(ended[3]))


def is_text(digits):
    try:
        return bytes.fromhex(digits).decode() is not None
    except UnicodeDecodeError:
        return False


def line_of(line):
    """A line of a log as the rules take it: of one that is refused for its bytes or numbers, one that is refused in the same way."""
    text = line.decode()
    return text if has_bounds(text) else "\t\t"


def by_log(plan, log):
    """The report of a plan by the bytes of a log."""
    *lines, rest = log.split(b"\n")
    bad = next((it for it, line in enumerate(lines) if len(line) > LONGEST or not is_utf8(line)), None)
    name = "NoLineEnd" if bad is None and rest else "NotUtf8"
    if bad is None and not rest:
        return runs.log_answer(plan, [line_of(it) for it in lines])
    kept = lines if bad is None else lines[:bad]
    told = runs.log_answer(plan, [line_of(it) for it in kept] + ["\t\t"])
    return told.replace(f"refused\tline\t{len(kept) + 1}\tBadLine\n", f"refused\tline\t{len(kept) + 1}\t{name}\n")


def is_utf8(line):
    try:
        return line.decode() is not None
    except UnicodeDecodeError:
        return False


@functools.lru_cache(maxsize=1)
def reckoned(stream):
    """The report of a stream and a line with its status, or None where the rules don't reach."""
    first, _, log = stream.partition(b"\n")
    try:
        inputs = value_of(first)
    except (NoJson, ValueError):
        return "refused\tSyntax\n(status 96)\n"
    except RecursionError:
        return None
    path = form_fault(inputs)
    if path is not None:
        return f"refused\tField\t{path}\n(status 96)\n"
    if not is_within_reach(inputs) or max(map(len, log.split(b"\n"))) > LONGEST:
        return None
    try:
        plan = plans.plan_of(inputs)
    except plans.Refused as refusal:
        return f"refused\t{refusal}\n(status {92 if str(refusal) == 'VersionError' else 96})\n"
    except RecursionError:
        return None
    return by_log(plan, log)


def as_reckoned(stream, run):
    """What is wrong with a run by these rules."""
    due = reckoned(stream)
    told = run.report + b"(status %d)\n" % run.status
    return [] if due is None or due.encode() == told else ["it isn't what the rules of scripts/ come to"]
