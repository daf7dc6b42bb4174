#!/usr/bin/env python3
"""Compares rows/memory_calls.txt with the public calls of the five faces that can answer that there is no memory, and prints what differs.

    python3 scripts/memory_calls.py
    python3 scripts/memory_calls.py --list

A call is a function or a method of what a face hands on by `pub use`, also of its traits, whose answer is a `Result` with an error that can
be want of memory, an `io::Result`, or such an error itself: `FACE::TYPE::CALL` or `FACE::CALL`, by the first face that hands it on. What an
impl has of a handed-on trait counts once, as the trait's call; `clone` counts for each type, but for those that are `Copy`, whose copies
take no memory. The head of the table says what its lines are. By the names in the sources it is looked up that the table or the test gets
to the function that is named, that this one makes the call, or the one behind `through`, and that this one gets to the call.
With `--list` the calls are printed, each with its file and its answer. The exit status is 1 where something differs.
"""
import collections
import functools
import pathlib
import re
import sys

ROOT = pathlib.Path(__file__).resolve().parent.parent
FACES = ("nextest_filtering", "nextest_config_elements", "nextest_config_resolution", "nextest_run_events", "test_runner_core")
TABLE = ROOT / "rows/memory_calls.txt"
ROWS, TESTS = "worked_rows", "test_runner_core_tests"

# Texts, characters and comments: what stands in them is no code.
LITERALS = re.compile(r'r#".*?"#|b?"(?:\\.|[^"\\])*"|b?\'(?:\\[^\']*|[^\'\\\n])\'|//[^\n]*', re.S)
ITEM = re.compile(r"^((?:#\[[^\n]*\]\n)*)(pub )?(?:pub\(\w+\) )?(struct|enum|trait|impl|fn|type|use|mod|const)\b", re.M)
METHOD = re.compile(r"^    (pub )?(?:pub\(\w+\) )?fn (\w+)", re.M)
# A call in a body: a dot or an owner, and the name.
CALLED = re.compile(r"(?:(\.)|\b(\w+)(?:::<[^;{}()]*>)?::)?\b(\w+)(?:::<[^;{}]*?>)?\(")
LINE = re.compile(r"(\S+) => (?:worked_rows: (\w+) \((\w+) in src/(\w+)\.rt\)|test: (\w+)::(\w+)|runs: (\S+))(?: through (\S+))?")

Function = collections.namedtuple("Function", "crate file owner trait name parameters answer body is_public")
Type = collections.namedtuple("Type", "file derives body is_public")


def code_of(text):
    """A source's code: no comment, and each literal as an empty text."""
    return LITERALS.sub(lambda found: "" if found.group(0).startswith("//") else '""', text)


def behind(text, start, brackets):
    """The place behind the bracket that closes the one at a place."""
    depth = 0
    for place in range(start, len(text)):
        if text[place] == brackets[0]:
            depth += 1
        elif text[place] == brackets[1] and text[place - 1 : place + 1] not in ("->", "=>"):
            depth -= 1
            if depth == 0:
                return place + 1
    raise ValueError(f"no bracket closes `{text[start : start + 60]}`")


def signature_of(text, start):
    """The parameters and the answer of the function whose name ends at a place, and where its contract and body begin."""
    if text[start] == "<":
        start = behind(text, start, "<>")
    end = behind(text, start, "()")
    found = re.compile(r" -> (.*?)(?= \{|;|\s+(?:where|requires|ensures\*?|ghost|\{))", re.S).match(text, end)
    return " ".join(text[start:end].split()), " ".join(found.group(1).split()) if found else "", found.end() if found else end


def head_of(part):
    """The trait of an impl, without its parameters, and the type that it is for."""
    head = part.split("impl", 1)[1].split("\n", 1)[0]
    head = head[behind(head, 0, "<>") :] if head.startswith("<") else head
    while "<" in head:
        bare = re.sub(r"<[^<>]*>", "", head)
        if bare == head:
            break
        head = bare
    words = [re.sub(r"&|'\w+ ", "", word).strip(" {").split("::")[-1].split(" ")[0] for word in head.split(" for ")]
    return (words[0], words[1]) if len(words) == 2 else (None, words[0])


class Crate:
    """What the sources of a crate have: functions, types, traits, names for types, and what its root hands on, as (path, name)."""

    def __init__(self, name, below):
        self.name, self.below = name, below
        self.functions, self.types, self.traits, self.aliases, self.exports = [], {}, {}, {}, {}
        for file in sorted((ROOT / "crates" / name / "src").glob("*.rt")):
            text = code_of(file.read_text())
            starts = [*ITEM.finditer(text)]
            for found, follower in zip(starts, [*starts[1:], None]):
                self.read(file, found, text[found.end() : follower.start() if follower else len(text)])

    def read(self, file, found, body):
        """Takes in an item, which is this behind its first word."""
        attributes, is_public, kind = found.group(1), bool(found.group(2)), found.group(3)
        name = re.match(r"\s*(\w*)", body).group(1)
        if kind in ("struct", "enum"):
            derives = set(re.findall(r"\w+", " ".join(re.findall(r"derive(?:_where)?\(([^);]*)", attributes))))
            self.types[name] = Type(file, derives, body, is_public)
            if "Clone" in derives:
                answer = "Result<Self, AllocError>"
                self.functions.append(Function(self.name, file, name, "Clone", "clone", "(&self)", answer, ".clone()", False))
        elif kind == "fn":
            self.take(file, None, None, name, body, re.match(r"\s*\w+", body).end(), is_public)
        elif kind in ("impl", "trait"):
            trait, owner = head_of("impl" + body) if kind == "impl" else (name, None)
            if kind == "trait":
                self.traits[name] = file
            starts = [*METHOD.finditer(body)]
            for method, follower in zip(starts, [*starts[1:], None]):
                text = body[: follower.start() if follower else len(body)]
                self.take(file, owner, trait, method.group(2), text, method.end(), bool(method.group(1)))
        elif kind == "type" and (alias := re.match(r"\s*(\w+)(?:<.*?>)? = ([\w:]+)", body)):
            self.aliases[alias.group(1)] = alias.group(2).split("::")[-1]
        elif kind == "use" and is_public and file.stem == "lib":
            path, _, names = " ".join(body.split(";")[0].split()).rpartition("::")
            for word in names.strip("{ }").split(","):
                self.exports[word.split(" as ")[-1].strip()] = (path, word.split(" as ")[0].strip())

    def take(self, file, owner, trait, name, text, start, is_public):
        """Takes in the function whose name ends at a place of a text, which ends with it."""
        parameters, answer, end = signature_of(text, start)
        self.functions.append(Function(self.name, file, owner, trait, name, parameters, answer, text[end:], is_public))


@functools.cache
def crates():
    """All crates, by name, each with all that it depends on."""
    named = dict(re.findall(r"^(\w+):(.*)$", (ROOT / "crates.txt").read_text(), re.M))
    below = functools.cache(lambda name: {name}.union(*[below(it) for it in named[name].split() if it in named]))
    return {name: Crate(name, below(name)) for name in named}


def source_of(crate, name):
    """The crate in whose sources a name stands that another one hands on, the name there, and the module."""
    path, old = crates()[crate].exports.get(name, ("", name))
    first = path.split("::")[0]
    return source_of(first, old) if first in crates() else (crate, old)


@functools.cache
def errors():
    """The errors that can be want of memory."""
    found = {"AllocError", "AllocFailed"}
    for crate in crates().values():
        found |= {name for name, it in crate.types.items() if it.is_public and re.search(r"^    (OutOf|No)?Memory\b", it.body, re.M)}
    return found


def takes_memory(function):
    """Whether a function can answer that there is no memory."""
    of_error = re.search(r"\bResult<.*, (\w+)(?:<\w+>)?>", function.answer)
    is_error = function.answer in errors() and "Global" in function.parameters
    return "io::Result<" in function.answer or bool(of_error and of_error.group(1) in errors()) or is_error


def methods_of(crate, name):
    """The functions of a type by its own name: its own public ones, and its copy."""
    home = crates()[crate]
    owner = home.aliases.get(name, name)
    if owner in home.types and "Copy" in home.types[owner].derives:
        return [it for it in home.functions if it.owner == owner and it.trait is None and it.is_public]
    return [it for it in home.functions if it.owner in (name, owner) and (it.is_public if it.trait is None else it.trait == "Clone")]


@functools.cache
def calls():
    """The functions that each call is, by its name: those of all impls where it is a trait's."""
    found, seen = {}, set()
    for face in FACES:
        for name, (path, _) in crates()[face].exports.items():
            crate, old = source_of(face, name)
            if path.startswith("laws") or (crate, old) in seen:
                continue
            seen |= {(crate, old), (crate, crates()[crate].aliases.get(old, old))}
            for key, function in callable_as(f"{face}::{name}", crate, old):
                if takes_memory(function):
                    found.setdefault(key, []).append(function)
    return found


def callable_as(prefix, crate, name):
    """The functions of what is handed on from a crate, each with the name by which it is called."""
    home = crates()[crate]
    if name in home.traits:
        declared = {it.name for it in home.functions if it.trait == name and it.owner is None}
        for other in crates().values():
            yield from ((f"{prefix}::{it.name}", it) for it in other.functions if it.trait == name and it.name in declared)
    elif name in home.types or name in home.aliases:
        yield from ((f"{prefix}::{it.name}", it) for it in methods_of(crate, name))
    else:
        for it in home.functions:
            if it.owner is it.trait is None and it.is_public and name in (it.name, it.file.stem):
                yield prefix if it.name == name else f"{prefix}::{it.name}", it


@functools.cache
def functions_named():
    """All functions, by name."""
    found = collections.defaultdict(list)
    for crate in crates().values():
        for it in crate.functions:
            found[it.name].append(it)
    return found


@functools.cache
def owners():
    """The names of all types and traits, and the type that another name stands for."""
    found = {}
    for crate in crates().values():
        found |= {name: name for name in (*crate.types, *crate.traits)}
    for crate in crates().values():
        found |= {name: of for name, of in crate.aliases.items() if of in found}
    return found


@functools.cache
def traits():
    """The names of the traits that a face hands on."""
    exported = [source_of(face, name) for face in FACES for name in crates()[face].exports]
    return {name for crate, name in exported if name in crates()[crate].traits}


@functools.cache
def brought_in(crate, file):
    """What a file's `use` items bring in: by its name the crate, and the name there."""
    found = {}
    for path, names in re.findall(r"^(?:pub )?use ([\w:]+)::(\{.*?\}|\w+);", code_of(file.read_text()), re.M | re.S):
        first = path.split("::")[0]
        for name in re.findall(r"\w+", names):
            if first in ("crate", "super"):
                found[name] = (crate, name, path.split("::")[-1])
            elif first in crates():
                found[name] = (*source_of(first, name), None)
    return found


def is_free_call(function, owner, it):
    """Whether a call without a dot, or one of a module, is of this free function."""
    if it.owner or it.trait:
        return False
    if owner:
        return owner == it.file.stem
    if it.file == function.file:
        return True
    crate, name, module = brought_in(function.crate, function.file).get(it.name, (None, None, None))
    return (it.crate, it.name) == (crate, name) and module in (None, it.file.stem)


@functools.cache
def called_by(function):
    """The functions that a function may call, by the names in its body."""
    found = set()
    for dot, owner, name in CALLED.findall(function.body):
        for it in functions_named()[name]:
            # An impl of a handed-on trait may stand above who calls the trait.
            if it.crate not in crates()[function.crate].below and it.trait not in traits():
                continue
            if owner == "Self":
                fits = it.owner == function.owner
            elif owner in owners():
                fits = owners()[owner] in (it.owner, it.trait)
            elif dot or re.fullmatch("[A-Z]", owner):
                fits = it.owner is not None or it.trait is not None
            else:
                fits = is_free_call(function, owner, it)
            if fits:
                found.add(it)
    return found


@functools.cache
def reached_from(function, within=None):
    """The functions that a function may get to, itself among them; those of a crate alone where one is named."""
    found, waiting = set(), [function]
    while waiting:
        it = waiting.pop()
        if it not in found and within in (None, it.crate):
            found.add(it)
            waiting += called_by(it)
    return found


def starts_of(table):
    """The functions of `worked_rows` that answer the rows of a table."""
    rows = crates()[ROWS].functions
    sources = {file.stem: file.read_text() for file in (ROOT / "crates" / ROWS / "src").glob("*.rt")}
    if found := re.search(rf'"{table}" => (\w+)::(\w+)\(', sources["answering"]):
        return [it for it in rows if (it.file.stem, it.name) == found.groups()]
    named = [stem for stem in ("plans", "inputs") if f'"{table}"' in sources[stem]]
    return [it for it in rows if it.file.stem in named and it.name in ("answer", "case_holds")]


def makes(function, call):
    """Whether a function makes a call itself, or by others of its crate."""
    return any(not called_by(it).isdisjoint(calls()[call]) for it in reached_from(function, function.crate))


def place_of(line):
    """The functions that a line of the table says the call is made by, or what is wrong with them, as a text."""
    _, table, function, file, module, test, row, _ = line.groups()
    if row:
        is_there = (ROOT / "rows/runs" / f"{row}.in").is_file()
        return [it for it in functions_named()["main"] if it.crate == "test_runner"] if is_there else f"rows/runs has no {row}"
    if test:
        source = ROOT / "crates" / TESTS / f"src/{module}.rt"
        found = [it for it in crates()[TESTS].functions if (it.file.stem, it.name) == (module, test)]
        is_test = source.is_file() and re.search(rf"#\[test\]\nfn {test}\b", source.read_text())
        return found if found and is_test else f"{TESTS} has no test {module}::{test}"
    if not any((ROOT / "crates" / ROWS / "data" / name).exists() for name in (table, f"{table}.txt")):
        return f"{ROWS} has no table {table}"
    found = [it for it in crates()[ROWS].functions if (it.file.stem, it.name) == (file, function)]
    if not found:
        return f"src/{file}.rt of {ROWS} has no function {function}"
    reached = set().union(*[reached_from(it, ROWS) for it in starts_of(table)])
    return found if reached.intersection(found) else f"the table {table} doesn't get to {function} in src/{file}.rt"


def wrong_with(line, lines):
    """What is wrong with a line of the table; None where nothing is."""
    call, through = line.group(1), line.group(8)
    place = place_of(line)
    if isinstance(place, str):
        return place
    if through and through not in lines:
        return f"there is no line for {through}"
    if through and lines[through].group(8):
        return f"{through} itself stands behind another call"
    made = through or call
    if not any(makes(it, made) for it in place):
        return f"that place doesn't make the call {made}"
    if through and not any(not reached_from(it).isdisjoint(calls()[call]) for it in calls()[through]):
        return f"{through} doesn't get to it"
    return None


def differing():
    """What differs between the table and the faces, and what is wrong with lines."""
    lines = {}
    for text in TABLE.read_text().splitlines():
        if not text or text.startswith("#"):
            continue
        line = LINE.fullmatch(text)
        if not line:
            yield f"no line of the table's form: {text}"
        elif line.group(1) in lines:
            yield f"{line.group(1)} has two lines"
        else:
            lines[line.group(1)] = line
    yield from (f"no line says where {call} is shown" for call in calls() if call not in lines)
    yield from (f"{call} is no call that takes memory" for call in lines if call not in calls())
    for call, line in lines.items():
        if call in calls() and (wrong := wrong_with(line, lines)):
            yield f"{call}: {wrong}"


def main():
    if sys.argv[1:] == ["--list"]:
        for call, functions in calls().items():
            print(call, functions[0].file.relative_to(ROOT / "crates"), functions[0].parameters, "->", functions[0].answer)
        return 0
    found = [*differing()]
    if found:
        print("\n".join(found))
    return bool(found)


if __name__ == "__main__":
    sys.exit(main())
