"""The rows of the repository as seeds of the fuzzers: whole streams, and the texts that stand in them.

It isn't called by itself: `Stock()` reads all, and fuzz/mutate.py and fuzz/build.py take their seeds from it.
"""
import dataclasses
import json
import pathlib
import re
import sys

sys.dont_write_bytecode = True
ROOT = pathlib.Path(__file__).resolve().parent.parent
sys.path.insert(0, str(ROOT / "scripts"))
import whole_runs as rows

# At most so many rows of a table are taken, at even distances, and no stream that is longer than this.
MOST, LONGEST = 400, 20_000

# The tables of rows/ that change inputs and have a log behind a bar, and what they change.
WITH_LOG = {"script_runs": rows.SCRIPTS, "weight_runs": rows.WEIGHTS, "pairs": rows.PLAN, "default_twice": rows.PLAN, "isolation": rows.PLAN}

# The tables that have no log, with what makes inputs of a row: these are whole, or changes of plan.json.
WITHOUT_LOG = [(rows.ROWS, "versions", str), (rows.DATA, "in_force", str), (rows.DATA, "selected", str)]
WITHOUT_LOG += [(rows.ROWS, "roads", rows.PLAN), (rows.DATA, "plans", rows.PLAN), (rows.DATA, "profiles_plans", rows.PLAN)]

# A word of a dictionary in the form that AFL and libFuzzer share.
WORD = re.compile(r'^(?:[A-Za-z0-9_]+=)?"((?:[^"\\]|\\.)*)"$', re.M)
ESCAPED = re.compile(rb'\\(?:x([0-9A-Fa-f]{2})|(["\\]))')


def spread(items):
    """At most MOST of some items, at even distances."""
    items = list(items)
    return items[:: len(items) // MOST + 1]


def rows_of(folder, table):
    """The inputs of a table's rows."""
    lines = (folder / f"{table}.txt").read_text(encoding="utf-8").split("\n")
    lines = [line for line in lines if line and not line.startswith("#") and rows.ARROW in line]
    return [rows.without_signs(line.rsplit(rows.ARROW, 1)[0]) for line in spread(lines)]


def streams_with_log(table, changed):
    """The streams of a table whose rows are changes, other parts and, last of all, a log."""
    for row in rows_of(rows.ROWS, table):
        changes, *_, log = row.split(rows.BAR)
        yield rows.on_a_line(changed(changes)) + rows.with_tabs(log)


def streams_without_log():
    """Inputs of the tables that have no log."""
    for folder, table, whole in WITHOUT_LOG:
        yield from (rows.on_a_line(whole(it)) for it in rows_of(folder, table))


def streams_of_agreeing():
    """All lines of the rows of logs that agree, one after another."""
    for row in rows_of(rows.ROWS, "agreeing"):
        changes, lines, _ = row.split(rows.BAR)
        yield rows.on_a_line(rows.PLAN(changes)) + rows.with_tabs(lines)


def all_streams():
    """The streams of all tables, as bytes."""
    files = [*sorted((rows.ROWS / "runs").glob("*.in")), *sorted((ROOT / "examples").glob("*.txt"))]
    yield from (file.read_bytes() for file in files)
    texts = [rows.STREAM(it) for it in rows_of(rows.ROWS, "profiles_runs")]
    texts += [rows.on_a_line(rows.PLAN("")) + it for it in rows_of(rows.ROWS, "refused_lines")]
    texts += [rows.on_a_line(rows.FULL(it)) for it in rows_of(rows.ROWS, "inputs_changed")]
    texts += [*streams_without_log(), *streams_of_agreeing()]
    for table, changed in WITH_LOG.items():
        texts += streams_with_log(table, changed)
    yield from map(rows.as_fed, texts)


def members_of(stream):
    """The inputs of a stream, where they are an object with a list of sources; else none."""
    try:
        inputs = json.loads(stream.split(b"\n", 1)[0])
    except (ValueError, RecursionError):
        return {}
    is_whole = isinstance(inputs, dict) and isinstance(inputs.get("sources"), list)
    return inputs if is_whole and all(isinstance(it, dict) for it in inputs["sources"]) else {}


def words_of_dictionary():
    """The words of words.dict, as bytes."""
    text = (ROOT / "fuzz/words.dict").read_text(encoding="utf-8")
    return [ESCAPED.sub(lambda it: bytes.fromhex(it[1].decode()) if it[1] else it[2], word.encode()) for word in WORD.findall(text)]


@dataclasses.dataclass
class Stock:
    """What mutations are made of: streams as bytes, and texts of each kind."""

    streams: list = dataclasses.field(default_factory=lambda: [it for it in all_streams() if len(it) <= LONGEST])
    words: list = dataclasses.field(default_factory=words_of_dictionary)

    def __post_init__(self):
        inputs = [members_of(it) for it in self.streams]
        texts = {it["text"] for members in inputs for it in members.get("sources", []) if isinstance(it.get("text"), str)}
        texts |= {it.split(" ", 1)[-1] for it in rows_of(rows.DATA, "warnings")}
        texts |= {text for it in rows_of(rows.DATA, "loads") for text in re.findall(r"\S+ text (.*?)(?= \| |$)", it, re.S)}
        texts |= {f"[profile.default]\n{it.replace(' ', ' = ', 1)}" for it in rows_of(rows.DATA, "values")}
        self.configurations = sorted(texts)
        filtersets = {it["filterset"] for it in inputs if isinstance(it.get("filterset"), str)}
        filtersets |= {text for it in texts for text in re.findall(r"""filter = (?:"([^"\n]*)"|'[^'\n]*')""", it)}
        self.filtersets = sorted({*filtersets, *rows_of(rows.DATA, "filtersets"), *(it.split(" ", 3)[-1] for it in rows_of(rows.DATA, "compiled"))})
        self.specs = sorted({it.split(" | ", 2)[-1] for it in rows_of(rows.DATA, "platform_specs")})
        logs = [it.split(b"\n", 1)[1] for it in self.streams if b"\n" in it]
        self.logs = sorted({it for it in logs if it})
        self.lines = sorted({line for log in self.logs for line in log.split(b"\n")} | {it.encode() for it in rows_of(rows.DATA, "log_lines")})
