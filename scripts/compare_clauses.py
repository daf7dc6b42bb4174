#!/usr/bin/env python3
"""Compares the contracts and definitions of two states of the repository, whichever crates and files they stand in.

    python3 scripts/compare_clauses.py BEFORE [AFTER] [OLD=NEW ..]

BEFORE and AFTER are commits; without AFTER it is the working tree. OLD=NEW says that a function was renamed. Printed are the clauses (`requires`, `ensures`, a struct's or
trait's `ghost` members) and the definitions of specs/ that stood before and don't stand after, and the `requires` that are new on a function that stood before. A
clause is known by the function, type or trait that it belongs to and by its text, a definition by its name and its text; blanks,
comments the paths of imports and the names under which a file imports a module don't count, and the crates of tests and tables are left out. The exit status is 1 where
something is missing or a `requires` is new.
"""
import collections
import pathlib
import re
import subprocess
import sys

ROOT = pathlib.Path(__file__).resolve().parent.parent
LEFT_OUT = re.compile(r"crates/(?:worked_\w+|\w+_tests)/")
CLAUSE = re.compile(r"\b(requires|ensures\*?|ghost)\b(?! use)\s*([\w]*)\s*(?::|=)?\s*\{")
OWNER = re.compile(r"\b(?:fn|struct|enum|trait|impl)\b[^{;]*")
NAME = re.compile(r"^(?:abbrev )?(?:unfoldable )?(?:pub )?(?:data |record )?([^\s:]+)\s")


def files_of(commit, ending):
    """The texts of the files with this ending, by their paths; of the working tree where there is no commit."""
    if commit is None:
        found = sorted(ROOT.glob(f"crates/*/{'src' if ending == '.rt' else 'specs'}/**/*{ending}"))
        return {str(it.relative_to(ROOT)): it.read_text() for it in found}
    folder = "src" if ending == ".rt" else "specs"
    listed = subprocess.run(["git", "ls-tree", "-r", "--name-only", commit, "crates/"], cwd=ROOT, capture_output=True, text=True, check=True)
    names = [it for it in listed.stdout.splitlines() if it.endswith(ending) and it.split("/")[2] == folder]
    asked = "".join(f"{commit}:{it}\n" for it in names).encode()
    given = subprocess.run(["git", "cat-file", "--batch"], cwd=ROOT, input=asked, capture_output=True, check=True).stdout
    return dict(zip(names, blobs(given)))


def blobs(given):
    """The texts that `git cat-file --batch` gives."""
    at = 0
    while at < len(given):
        end = given.index(b"\n", at)
        size = int(given[at:end].split()[2])
        yield given[end + 1 : end + 1 + size].decode()
        at = end + size + 2


def braced(text, at):
    """What stands between the brace at a place and the one that closes it."""
    depth = 0
    for place in range(at, len(text)):
        depth += {"{": 1, "}": -1}.get(text[place], 0)
        if depth == 0:
            return text[at + 1 : place]
    return text[at + 1 :]


def plain(text):
    return " ".join(text.split())


def owner_before(text, at):
    """The name of the function, type or trait that a clause belongs to."""
    found = None
    for found in OWNER.finditer(text, 0, at):
        pass
    words = re.search(r"\b(?:fn|struct|enum|trait)\s+(\w+)", found.group()) if found else None
    return words.group(1) if words else plain(re.sub(r"<[^<>]*>", "", found.group())) if found else ""


def clauses_in(texts, renamed):
    """How often each clause stands: its owner, its kind, its name and its text."""
    found = collections.Counter()
    for path, text in texts.items():
        if LEFT_OUT.match(path):
            continue
        text = re.sub(r"//[^\n]*", "", text)
        for module in re.findall(r"ghost use [\w.]+ as (\w+);", text):
            text = re.sub(rf"(?<![\w.]){module}\.(?=\w)", "", text)
        for clause in CLAUSE.finditer(text):
            body = plain(braced(text, clause.end() - 1))
            owner = owner_before(text, clause.start())
            found[renamed.get(owner, owner), clause.group(1), clause.group(2), body] += 1
    return found


def definitions_in(texts):
    """How often each definition stands: its name and its text. Clauses that go on with a name belong to it."""
    found = collections.Counter()
    for path, text in texts.items():
        if LEFT_OUT.match(path):
            continue
        for name, body in parts_of(text):
            found[name, body] += 1
    return found


def parts_of(text):
    """The definitions of a file, each with its name: lines that begin at the margin, joined where they go on with one name."""
    name, lines = None, []
    for line in text.splitlines():
        if line.startswith(("--", "use ", "pub use ", "pub mod ", "mod ", "infix")):
            continue
        head = NAME.match(line)
        if line and not line[0].isspace() and head and head.group(1) != name and is_head(line, name):
            if name:
                yield name, plain(" ".join(lines))
            name, lines = head.group(1), []
        lines.append(re.sub(r"\s--\s.*", "", line))
    if name:
        yield name, plain(" ".join(lines))


def is_head(line, name):
    """Whether a line begins a definition: it is a signature, and not a further clause of the one before."""
    return " : " in line or line.startswith(("data ", "record ", "pub data ", "pub record ", "abbrev")) or name is None


def main(before, after=None, *pairs):
    if after and "=" in after:
        after, pairs = None, (after, *pairs)
    renamed = dict(it.split("=") for it in pairs)
    old, new = clauses_in(files_of(before, ".rt"), renamed), clauses_in(files_of(after, ".rt"), {})
    lost = list((old - new).elements())
    owners = {it[0] for it in old}
    wanted = [it for it in (new - old).elements() if it[1] == "requires" and it[0] in owners]
    gone = list((definitions_in(files_of(before, ".antt")) - definitions_in(files_of(after, ".antt"))).elements())
    for owner, kind, name, body in lost:
        print(f"no longer there: {owner}: {kind} {name} {{ {body} }}")
    for owner, kind, name, body in wanted:
        print(f"newly required: {owner}: {kind} {name} {{ {body} }}")
    for name, body in gone:
        print(f"no longer defined: {name}: {body[:300]}")
    print(f"{old.total()} clauses before, {new.total()} after; missing {len(lost)}, newly required {len(wanted)}, definitions missing {len(gone)}")
    return 1 if lost or wanted or gone else 0


if __name__ == "__main__":
    sys.exit(main(*sys.argv[1:]) if len(sys.argv) > 1 else __doc__)
