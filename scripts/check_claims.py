#!/usr/bin/env python3
"""Looks up each call and clause that README.md and docs/CLAIMS.md name, and prints those that don't exist; and compares what they print of sources.

    python3 scripts/check_claims.py

In docs/CLAIMS.md a heading names the crate, and the last cell of a row its calls, divided by `;`: a function (`judge`), one of a
type, a trait or a module (`Plan::build`, `laws::selected`), a trait (`Clone`), or a trait of a type (`Display` of `Text`), each
perhaps with a colon and the names of its clauses behind it. In README.md a list's item that begins with the name of a crate has
such calls in the parentheses that end it. The exit status is 1 where something is missing.
"""
import pathlib
import re
import sys

ROOT = pathlib.Path(__file__).resolve().parent.parent
WORD = re.compile(r"`([^`]+)`")
CLAUSE = re.compile(r"(?:ensures\*?|ghost)\s+(\w+)\s*(?:\{|=|:)")


class Crate:
    """The functions of a crate's sources, each with the names of its clauses, and its impls and types."""

    def __init__(self, name):
        folder = ROOT / "crates" / name / "src"
        self.functions, self.impls, self.words, self.aliases = [], [], set(), {}
        for file in sorted(folder.rglob("*.rt")):
            self.read(file)
        if not folder.is_dir():
            raise SystemExit(f"there is no crate {name}")

    def read(self, file):
        text = re.sub(r"//[^\n]*", "", file.read_text())
        self.hand_on(file.stem, text)
        self.aliases |= dict(re.findall(r"\btype (\w+)(?:<[^=>]*>)? = (\w+)<", text))
        owner = None
        for part in re.split(r"\n(?=(?:pub(?:\([a-z]+\))? )?(?:impl|trait|fn|struct|enum|mod|type|const)\b|#\[)", "\n" + text):
            head = part.strip().split("{")[0]
            self.words |= set(re.findall(r"\b(?:struct|enum|trait|type)\s+(\w+)", part))
            for derived in re.findall(r"#\[derive(?:_where)?\(([^)]*)\)\]", part):
                self.impls += [(word, None) for word in re.findall(r"\w+", derived)]
            if head.startswith(("impl", "pub trait", "trait")):
                owner = re.sub(r"<[^<>]*>", "", re.sub(r"<[^<>]*>", "", head))
                given = re.match(r"impl\s*(?:[\w:]*?(\w+)\s+for\s+)?&?(?:'\w+ )?([\w:]+)", owner)
                trait, of = (given.group(1), given.group(2)) if given else (None, head.split()[-1].rstrip(":"))
                if not given:
                    of = re.search(r"trait\s+(\w+)", head).group(1)
                self.impls.append((trait, of, set(CLAUSE.findall(part))))
                owner = of
            else:
                owner = file.stem
            for found in re.finditer(r"\bfn\s+(\w+)(.*?)(?=\bfn\s+\w+|\Z)", part, re.S):
                self.functions.append((owner, found.group(1), set(CLAUSE.findall(found.group(2)))))

    def hand_on(self, module, text):
        """Adds the functions that a module takes from that of the same name in another crate, and hands on as its own."""
        for crate, names in re.findall(r"pub use (\w+)::" + module + r"::\{([^}]*)\}", text):
            self.functions += [it for it in Crate(crate).functions if it[0] == module and it[1] in re.findall(r"\w+", names)]

    def clauses(self, call):
        """The clauses' names of what a call names; None where there is no such thing."""
        words = WORD.findall(call)
        if len(words) == 2:
            found = [it[2] for it in self.impls if len(it) == 3 and it[0] == words[0] and it[1].split("::")[-1] == words[1]]
            derived = [set() for it in self.impls if len(it) == 2 and it[0] == words[0]] if words[1] in self.words else []
            return set().union(*found, *derived) if found or derived else None
        owner, _, name = words[0].rpartition("::")
        # What is a call of a generic type is one of each name that it has for some parameters.
        owners = (owner, self.aliases.get(owner, owner))
        found = [it[2] for it in self.functions if it[1] == name and (not owner or it[0] in owners)]
        found += [it[-1] if len(it) == 3 else set() for it in self.impls if it[0] == name and not owner]
        return set().union(*found) if found else None


def missing(crate, calls):
    """What doesn't exist of calls, as they are written."""
    for call in filter(str.strip, calls.split(";")):
        named, _, clauses = call.partition(":") if "`:" in call else (call, "", "")
        if "`:" in call:
            named, clauses = call.split("`:", 1)
            named += "`"
        found = crate.clauses(named)
        if found is None:
            yield named.strip()
            continue
        for clause in WORD.findall(clauses):
            if clause not in found:
                yield f"{named.strip()}: {clause}"


def rows():
    """(file, crate, calls) of each row and item."""
    crate = None
    for line in (ROOT / "docs/CLAIMS.md").read_text().splitlines():
        if heading := re.match(r"## `(\w+)`", line):
            crate = heading.group(1)
        elif crate and line.startswith("| ") and not line.startswith("| Claim"):
            yield "docs/CLAIMS.md", crate, line.rstrip("| ").rsplit(" | ", 1)[1]
    text = re.sub(r"\n  +", " ", (ROOT / "README.md").read_text())
    for crate, calls in re.findall(r"^- `(\w+)`: .*?\(((?:[^()]|\(\))*)\)\.?$", text, re.M):
        yield "README.md", crate, calls


# What documents print of the sources, without regard to how it is laid out: the document, the first words of the block, and the source.
PRINTED = (
    ("docs/CLAIMS.md", "record Headline", "crates/test_runner_core/specs/Headline.antt"),
    ("README.md", "/// The plan of inputs", "crates/faces_tests/src/plans.rt"),
    ("README.md", "/// An attempt of a test", "crates/faces_tests/src/sessions.rt"),
    ("README.md", "/// Judges a recorded run", "crates/faces_tests/src/runs.rt"),
)


def differing():
    """The blocks of documents that don't stand so in the source that they are of."""
    for document, begins, source in PRINTED:
        text = (ROOT / document).read_text()
        block = re.search(rf"^    {begins}.*?(?=^\S|^    ///|\Z)", text, re.M | re.S)
        if not block or "".join(block.group(0).split()) not in "".join((ROOT / source).read_text().split()):
            yield f"{document}: `{begins}` isn't as in {source}"


def main():
    crates, wrong, count = {}, list(differing()), 0
    for file, name, calls in rows():
        crate = crates.setdefault(name, None) or Crate(name)
        crates[name] = crate
        wrong += [f"{file}: {name} has no {it}" for it in missing(crate, calls)]
        count += 1
    print("\n".join(wrong) if wrong else f"claims: {count} rows name calls and clauses that exist")
    return bool(wrong)


if __name__ == "__main__":
    sys.exit(main())
