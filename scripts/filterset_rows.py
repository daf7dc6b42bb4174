#!/usr/bin/env python3
"""Writes the tables `compiled` and `answers` of the program `worked_rows`: which filtersets a workspace accepts, and on which binaries
and tests they hold.

    python3 scripts/filterset_rows.py

All is drawn from one seed, so the tables come out the same each time. It knows nothing of the program: a filterset is drawn as a formula
beside its text, with a function of names beside each matcher, and the answers follow from these by the rules:

- A predicate that may not stand in a filterset of its kind is a ban (`BANS`). Bans are told alone, from the left.
- Else a predicate that nothing in the workspace can be is a fault (`NOTHING`): no package has a name that its matcher matches; no binary
  has such an id or name, where binaries are known; neither `@global` nor a known group has such a name, where groups are known.
- deps(m) holds on a binary whose package is reached by a path of links, perhaps an empty one, from a package that m matches; rdeps(m) where
  the binary's package reaches one.
- On a binary each place of test(), group() may be either, and default() is the default filter with its own places afresh: the value is that
  which all lists of answers give, tried one by one, or there is none. On a test they are asked of its name and of its group's.
"""
import itertools
import pathlib
import random
import re
from typing import Callable, NamedTuple, Optional

DATA = pathlib.Path(__file__).resolve().parent.parent / "crates/worked_rows/data"
SEED, COMPILED, PLAIN, ANSWERS, QUESTIONS = 23, 153, 5, 858, 10

COMMON = """# The workspaces (a binary: id, package's id, kind, name, platform):
{workspaces}
"""
COMPILED_HEAD = """# Made by scripts/filterset_rows.py. WORKSPACE KIND GROUPS FILTERSET => accepted, or the faults: label, offset, length and, of a ban, the reason.
# GROUPS are the known ones, or `-` where they aren't known.
"""
ANSWERS_HEAD = """# Made by scripts/filterset_rows.py. WORKSPACE DEFAULT BINARY TEST GROUP FILTERSET => the value on the binary, and that on the test,
# where DEFAULT is the default filter, `-` the one that is made to hold on all, and TEST a test of the binary that is in GROUP. Which
# groups there are isn't known.
"""


class Binary(NamedTuple):
    id: str
    package: str
    kind: str
    name: str
    platform: str


class Workspace(NamedTuple):
    packages: dict
    links: list
    binaries: list

    def reached(self, start):
        """The packages that a path of links, perhaps an empty one, leads to from one."""
        found, left = {start}, [start]
        while left:
            at = left.pop()
            for origin, end in self.links:
                if origin == at and end not in found:
                    found.add(end)
                    left.append(end)
        return found


def binaries(*lines):
    return [Binary(*line.split()) for line in lines]


CHAIN = Workspace(
    {"a-1": "a", "b-1": "b", "c-1": "c"},
    [("a-1", "b-1"), ("b-1", "c-1")],
    binaries(
        "a a-1 lib a target",
        "a::it a-1 test it target",
        "b b-1 lib b target",
        "b::bench/fast b-1 bench fast target",
        "b::example/show b-1 example show host",
        "c c-1 proc-macro c host",
        "c::bin/tool c-1 bin tool target",
    ),
)
NET = Workspace(
    {"app-1": "app", "core-1": "core", "util-1": "util", "log-1": "log", "twin-1": "twin", "twin-2": "twin", "grey-1": "grey"},
    [("app-1", "core-1"), ("app-1", "util-1"), ("core-1", "log-1"), ("util-1", "log-1"), ("twin-1", "core-1")],
    binaries(
        "app::bin/app app-1 bin app target",
        "core core-1 lib core target",
        "util::it util-1 test it target",
        "log log-1 lib log host",
        "log::macros log-1 proc-macro macros host",
        "one::it twin-1 test it target",
        "two::it twin-2 test it host",
        "grey::bench/slow grey-1 bench slow target",
    ),
)
RING = Workspace(
    {"red-1": "red", "green-1": "grün", "blue-1": "blue", "grey-1": "grey", "far-1": "far_blue"},
    [("red-1", "green-1"), ("green-1", "blue-1"), ("blue-1", "red-1"), ("grey-1", "red-1")],
    binaries(
        "red red-1 lib red target",
        "grün green-1 lib grün host",
        "blue::it blue-1 test it target",
        "grey grey-1 lib grey target",
        "far_blue far-1 lib far_blue target",
    ),
)
LINE = Workspace(
    {f"p{at}": f"p{at}" for at in range(65)},
    [(f"p{at}", f"p{at + 1}") for at in range(64)],
    binaries(*(f"p{at} p{at} lib p{at} target" for at in (0, 1, 31, 32, 63, 64))),
)
WORKSPACES = {"chain": CHAIN, "bare": Workspace(CHAIN.packages, CHAIN.links, []), "net": NET, "ring": RING, "line": LINE}

TESTS = ["a", "ba", "io::read", "io::read_12", "io::write", "größe", "tests::slow", "tests::it_is_a"]
GROUPS = ["@global", "heavy", "io-1", "io-22", "größer"]
KINDS = ["lib", "test", "bench", "bin", "example", "proc-macro"]
PURPOSES = ["test", "test-archive", "override-filter", "default-filter"]

BANS = {
    ("default-filter", "default"): "DefaultInfiniteRecursion",
    ("default-filter", "group"): "GroupNotAvailableInDefaultFilter",
    ("override-filter", "group"): "GroupCircularDependency",
    ("test-archive", "group"): "GroupNotAvailableInArchive",
    ("test-archive", "test"): "TestNotAvailableInArchive",
}
NOTHING = {
    "package": "NoPackageMatch",
    "deps": "NoPackageMatch",
    "rdeps": "NoPackageMatch",
    "binary": "NoBinaryNameMatch",
    "binary_id": "NoBinaryIdMatch",
    "group": "NoGroupMatch",
}
# What a matcher without a sign is.
BARE = {"package": "#", "deps": "#", "rdeps": "#", "kind": "=", "binary": "#", "binary_id": "#", "test": "~", "group": "#"}
UNMATCHED = ["platform", "default", "all", "none"]

COMPILED_BY_HAND = """
chain test - all() => accepted
chain test - default() => accepted
chain test-archive - default() => accepted
chain override-filter - default() => accepted
chain default-filter - default() => BannedPredicate 0 9 DefaultInfiniteRecursion
chain test - group(a) => accepted
chain test-archive - group(a) => BannedPredicate 0 8 GroupNotAvailableInArchive
chain override-filter - group(a) => BannedPredicate 0 8 GroupCircularDependency
chain default-filter - group(a) => BannedPredicate 0 8 GroupNotAvailableInDefaultFilter
chain test - test(a) => accepted
chain test-archive - test(a) => BannedPredicate 0 7 TestNotAvailableInArchive
chain override-filter - test(a) => accepted
chain default-filter - test(a) => accepted
chain default-filter - default() or group(x) => BannedPredicate 0 9 DefaultInfiniteRecursion; BannedPredicate 13 8 GroupNotAvailableInDefaultFilter
chain default-filter - default() or group(a) | default() => BannedPredicate 0 9 DefaultInfiniteRecursion; BannedPredicate 13 8 GroupNotAvailableInDefaultFilter; BannedPredicate 24 9 DefaultInfiniteRecursion
chain test-archive - test(a) and not group(b) => BannedPredicate 0 7 TestNotAvailableInArchive; BannedPredicate 16 8 GroupNotAvailableInArchive
chain default-filter @global package(=zz) or default() => BannedPredicate 16 9 DefaultInfiniteRecursion
chain override-filter @global group(=zz) and binary(zz) => BannedPredicate 0 10 GroupCircularDependency
chain test @global package(zzz) => NoPackageMatch 0 12
chain test @global binary(zzz) => NoBinaryNameMatch 0 11
chain test @global package(=zz) or group(=zz) => NoPackageMatch 0 12; NoGroupMatch 16 10
chain test @global deps(zz)-rdeps(zz) => NoPackageMatch 0 8; NoPackageMatch 9 9
chain test @global none() and binary_id(zz)|!binary(zz) => NoBinaryIdMatch 11 13; NoBinaryNameMatch 26 10
bare test @global none() and binary_id(zz)|!binary(zz) => accepted
bare test @global binary_id(zz) or package(zz) => NoPackageMatch 17 11
bare test-archive @global package(a) => accepted
chain test - group(zz) => accepted
chain test @global group(@global) => accepted
chain test @global group(=@global) => accepted
chain test @global group(/^@/) => accepted
chain test @global group(*) => accepted
chain test @global group(=heavy) => NoGroupMatch 0 13
chain test @global,heavy group(=heavy) => accepted
chain test @global,heavy group(=Heavy) => NoGroupMatch 0 13
chain test @global,heavy,io-1 group(io-?) => accepted
chain test @global,heavy,io-1 group(io-??) => NoGroupMatch 0 12
chain test @global kind(zz) or test(zz) or platform(host) => accepted
chain test @global package(=a-1) => NoPackageMatch 0 13
chain test @global package(=A) => NoPackageMatch 0 11
chain test @global binary(=a::it) => NoBinaryNameMatch 0 14
chain test @global binary_id(=it) => NoBinaryIdMatch 0 14
chain test @global binary_id(a::*) => accepted
net test @global package(=twin) => accepted
net test @global package({twin\\,zz}) => accepted
line default-filter @global deps(=p64) and rdeps(p65) => NoPackageMatch 15 10
ring test - test(=é) or package(=é) => NoPackageMatch 13 12
chain test @global  not ( group( =zz ) ) => NoGroupMatch 7 12
chain test @global package(=zz) or group(=zz => ExpectedCloseParenthesis 25 0
chain default-filter - default(x) => UnexpectedArgument 8 1
chain default-filter - default() && group(a) => InvalidAndOperator 10 2
chain test-archive - test(a) || group(b) => InvalidOrOperator 8 2
chain test @global test() => InvalidString 5 0
chain test @global package(=zz,) => UnexpectedComma 11 1
chain test @global binary(/zz) => ExpectedCloseRegex 11 0
chain test @global deps(#[) => InvalidGlob 6 1
chain test @global group(/(/) => InvalidRegexWithoutMessage 7 1
chain test @global foo() or package(zz) => ExpectedExpr 0 20
chain test @global package(zz) group(zz) => ExpectedEndOfExpression 12 9
chain test @global platform(x) | package(zz) => InvalidPlatformArgument 9 1
chain test @global package(\\x) => InvalidEscapeCharacter 8 2
chain test @global all or package(zz) => ExpectedOpenParenthesis 4 0
chain default-filter @global default(x) or package(y,z) => UnexpectedArgument 8 1; UnexpectedComma 23 1
chain test @global  => ExpectedExpr 0 0
"""

ANSWERS_BY_HAND = """
chain - a a @global default() => binary true, test true
line all() p64 a @global deps(=p0) => binary true, test true
line all() p0 a @global rdeps(=p64) => binary true, test true
line all() p63 a @global deps(=p64) => binary false, test false
line all() p1 a @global rdeps(=p0) => binary false, test false
line all() p0 a @global deps(=p0) and rdeps(=p0) => binary true, test true
line all() p32 a @global deps(=p0) and rdeps(=p64) => binary true, test true
line all() p31 a @global deps(p2*) => binary true, test true
line all() p1 a @global deps(p2*) => binary false, test false
line all() p63 a @global rdeps(/^p6[34]$/) => binary true, test true
line all() p64 a @global deps(*) - rdeps(p6[0-3]) => binary true, test true
chain all() a a @global deps(=a) => binary true, test true
chain all() b a @global deps(=a) => binary true, test true
chain all() c a @global deps(=a) => binary true, test true
chain all() a a @global rdeps(=c) => binary true, test true
chain all() b a @global rdeps(=c) => binary true, test true
chain all() c a @global rdeps(=c) => binary true, test true
chain all() a a @global deps(=b) => binary false, test false
chain all() c a @global deps(=b) => binary true, test true
chain all() a a @global deps(a) and not deps(b) => binary true, test true
chain all() c a @global deps(a) and deps(b) and deps(c) => binary true, test true
chain all() b a @global deps(c) or rdeps(a) => binary false, test false
chain all() b::bench/fast a @global deps(a) and rdeps(c) and package(b) => binary true, test true
ring all() grün a @global deps(red) and rdeps(red) => binary true, test true
ring all() red a @global deps(=red) and rdeps(=red) and deps(gr?n) and rdeps(blue) => binary true, test true
ring all() grey a @global rdeps(red) => binary true, test true
ring all() grey a @global deps(red) => binary false, test false
ring all() red a @global deps(grey) - rdeps(grey) => binary true, test true
ring all() far_blue a @global deps(/^(red|grey)$/) or rdeps(/^(red|grey)$/) => binary false, test false
net all() one::it a @global package(=twin) => binary true, test true
net all() two::it a @global package(=twin) => binary true, test true
net all() core a @global deps(=twin) => binary true, test true
net all() util::it a @global deps(=twin) => binary false, test false
net all() two::it a @global rdeps(=core) => binary false, test false
net all() one::it a @global rdeps(=core) => binary true, test true
net all() log::macros a @global deps(app) and deps(twin) and not deps(grey) => binary true, test true
chain all() a a @global test(a) or all() => binary true, test true
chain all() a io::read @global none() and test(=zz) => binary false, test false
chain all() a a @global not (test(a) and test(~a)) => binary undecided, test false
chain all() a io::write @global not (test(a) and test(~a)) => binary undecided, test true
chain all() a a @global test(=a) or not test(=a) => binary undecided, test true
chain all() a a @global test(=a) and not test(=a) => binary undecided, test false
chain all() a a @global test(=a) - test(=a) => binary undecided, test false
chain all() a a heavy group(heavy) => binary undecided, test true
chain all() a a @global group(heavy) => binary undecided, test false
chain all() a a @global group(@global) => binary undecided, test true
chain all() a a heavy group(=@global) or !group(*) => binary undecided, test false
chain all() a a heavy (group(heavy) or test(a)) and none() => binary false, test false
chain test(a) a ba @global default() => binary undecided, test true
chain test(a) a io::write @global default() => binary undecided, test false
chain test(=a) a a @global default() or not default() => binary undecided, test true
chain test(=a) a a @global default() - default() => binary undecided, test false
chain all() a a @global default() - default() => binary false, test false
chain none() a a @global not default() => binary true, test true
chain platform(host) a a @global default() or not default() => binary true, test true
chain platform(host) c a @global default() and kind(proc-macro) => binary true, test true
chain test(a)&none() a a @global default() => binary false, test false
chain test(a)|all() a ba @global default() => binary true, test true
chain test(a)|!test(a) a a heavy default() => binary undecided, test true
chain all() a a @global all() or none() and none() => binary true, test true
chain all() a a @global none() and none() or all() => binary true, test true
chain all() a a @global all()|none()-all() => binary true, test true
chain all() a a @global all() - none() - all() => binary false, test false
chain all() a a @global all() - (none() - all()) => binary true, test true
chain all() a a @global all()+all()&none() => binary true, test true
chain all() a a @global (all()+all())&none() => binary false, test false
chain all() a a @global not none() and none() => binary false, test false
chain all() a a @global not (none() and none()) => binary true, test true
chain all() a a @global not none() or all() => binary true, test true
chain all() a a @global !(none() or all()) => binary false, test false
chain all() a a @global not not !none() => binary true, test true
chain all() a ba @global test(a) => binary undecided, test true
chain all() a ba @global test(=a) => binary undecided, test false
chain all() a ba @global test(#a) => binary undecided, test false
chain all() a ba @global test(/a/) => binary undecided, test true
chain all() a ba @global test(/^a/) => binary undecided, test false
chain all() a größe @global test(=\\u{67}rö\\u{df}e) => binary undecided, test true
chain all() a größe @global test(#gr??e) => binary undecided, test true
chain all() a größe größer group(/^gr..er$/) => binary undecided, test true
chain all() a io::read @global test(#*{ad\\,rite}) => binary undecided, test true
chain all() a io::write @global test(#*{ad\\,rite}) => binary undecided, test true
chain all() a io::read_12 @global test(#*{ad\\,rite}) => binary undecided, test false
chain all() a io::read_12 @global test(/_[0-9]{2}$/) => binary undecided, test true
chain all() a a @global kind(lib) and platform(target) => binary true, test true
chain all() a a @global kind(li) => binary false, test false
chain all() a a @global kind(~li) => binary true, test true
chain all() a a @global kind(#l?b) => binary true, test true
chain all() a a @global binary(a) and binary_id(=a) and package(=a) => binary true, test true
chain all() a::it a @global binary(it) and binary_id(a::it) => binary true, test true
chain all() c::bin/tool a @global binary_id(/bin\\/t/) - kind(/^b[^i]/) => binary true, test true
chain all() c::bin/tool a @global binary_id(=c::bin/tool) => binary true, test true
"""


class Leaf(NamedTuple):
    """A predicate: its name, its whole text, and which names its matcher matches, or the platform."""

    name: str
    text: str
    matches: Optional[Callable] = None
    platform: str = ""


def drawn_glob(draw, name):
    """A glob that matches a name: as it is written in a filterset, and as a regular expression."""
    glob, pattern, at = "", "", 0
    while at < len(name):
        one, size = name[at], 1
        kind = draw.choices(["letter", "one", "run", "class", "braces"], [9, 1, 1, 1, 1])[0]
        if kind == "one":
            parts = "?", "."
        elif kind == "run":
            parts, size = ("*", ".*"), draw.randrange(4)
        elif kind == "class" and one in "abcdefghijklmnoprstuw":
            parts = draw.choice([(f"[{one}x]", f"[{one}x]"), ("[!q-q]", "[^q]"), ("[a-z]", "[a-z]"), ("[^0-9_]", "[^0-9_]")])
        elif kind == "braces":
            size = draw.randrange(1, 4)
            piece, other = name[at : at + size], draw.choice(["", "x", "io"])
            ways = draw.sample([piece, other], 2)
            parts = "{" + "\\,".join(ways) + "}", "(?:" + "|".join(re.escape(way) for way in ways) + ")"
        else:
            parts = one, re.escape(one)
        glob, pattern, at = glob + parts[0], pattern + parts[1], at + size
    return glob, pattern


def drawn_pattern(draw, name):
    """A regular expression that is found in a name."""
    start = draw.randrange(len(name))
    end = draw.randrange(start + 1, len(name) + 1)
    start, end = draw.choice([(start, end), (0, end), (start, len(name)), (0, len(name))])
    pattern = "^" if start == 0 and draw.random() < 0.6 else ""
    for one in name[start:end]:
        forms = [one] * 8 + [".", ".*", f"({one}|xy)"]
        forms += [f"{one}+", f"{one}{{1,2}}", f"[{one}x]", "[^q]", f"x?{one}"] if one.isalnum() else []
        pattern += draw.choice(forms)
    return pattern + ("$" if end == len(name) and draw.random() < 0.6 else "")


def changed(draw, text):
    """A text with a character less, more, or another."""
    at = draw.randrange(len(text) + 1)
    return (text[:at] + draw.choice(["", *"abx"]) + text[at + draw.randrange(2) :]) or "x"


def spelled(draw, text):
    """A text as it is written in a filterset, perhaps with a character by its number."""
    at = draw.randrange(len(text))
    return f"{text[:at]}\\u{{{ord(text[at]):x}}}{text[at + 1:]}" if draw.random() < 0.15 else text


def drawn_matcher(draw, names, sign, bare):
    """A matcher with a sign, or with none: as it is written, and which names it matches."""
    name = draw.choice(names)
    name = changed(draw, name) if draw.random() < 0.2 else name
    kind = sign or bare
    if kind == "=":
        return sign + spelled(draw, name), lambda other: other == name
    if kind == "~":
        start = draw.randrange(len(name))
        part = name[start : draw.randrange(start + 1, len(name) + 1)]
        return sign + spelled(draw, part), lambda other: part in other
    if kind == "#":
        glob, pattern = drawn_glob(draw, name)
        return sign + glob, lambda other: re.fullmatch(pattern, other, re.DOTALL) is not None
    pattern = drawn_pattern(draw, name)
    return "/" + pattern.replace("/", "\\/") + "/", lambda other: re.search(pattern, other) is not None


def names_for(predicate, workspace):
    """What a matcher of a predicate is asked of."""
    return {
        "kind": KINDS,
        "test": TESTS,
        "group": GROUPS,
        "binary": [it.name for it in workspace.binaries] or ["it"],
        "binary_id": [it.id for it in workspace.binaries] or ["a::it"],
    }.get(predicate, list(workspace.packages.values()))


def drawn_leaf(draw, workspace, predicate, sign, tight):
    before, behind = ("", "") if tight or draw.random() < 0.85 else (" " * draw.randrange(3), " " * draw.randrange(3))
    if predicate == "platform":
        platform = draw.choice(["host", "target"])
        return Leaf(predicate, f"platform({before}{platform}{behind})", platform=platform)
    if predicate in UNMATCHED:
        return Leaf(predicate, f"{predicate}({before}{behind})")
    text, matches = drawn_matcher(draw, names_for(predicate, workspace), sign, BARE[predicate])
    return Leaf(predicate, f"{predicate}({before}{text}{behind})", matches)


class Drawing(NamedTuple):
    """What filtersets are drawn with: `tight` ones have no blanks."""

    draw: random.Random
    workspace: Workspace
    predicates: list
    tight: bool = False

    def operator(self, *signs):
        sign = self.draw.choice([it for it in signs if not (self.tight and it.isalpha())])
        return f" {sign} " if sign.isalpha() or not self.tight and self.draw.random() < 0.5 else sign

    def row_of(self, part, kind, signs, depth):
        """Parts with operators between them, grouped to the left: its pieces, and its formula."""
        pieces, formula = part(depth)
        for _ in range(self.draw.choice([0, 0, 0, 1, 1, 2])):
            sign = self.operator(*signs)
            more, other = part(depth)
            other = ("not", other) if sign.strip() == "-" else other
            pieces, formula = [*pieces, sign, *more], (kind, formula, other)
        return pieces, formula

    def expression(self, depth=0):
        return self.row_of(self.conjunction, "or", ("or", "|", "+"), depth)

    def conjunction(self, depth):
        return self.row_of(self.operand, "and", ("and", "&", "-"), depth)

    def operand(self, depth):
        kind = self.draw.random()
        if kind < 0.2:
            pieces, formula = self.operand(depth)
            sign = self.draw.choice(["!", "!" if self.tight else "not ", "!" if self.tight else "! "])
            return [sign, *pieces], ("not", formula)
        if kind < 0.35 and depth < 2:
            pieces, formula = self.expression(depth + 1)
            before, behind = ("(", ")") if self.tight else self.draw.choice([("(", ")"), ("( ", " )")])
            return [before, *pieces, behind], formula
        sign = self.draw.choice(["=", "~", "#", "/", ""])
        leaf = drawn_leaf(self.draw, self.workspace, self.draw.choice(self.predicates), sign, self.tight)
        return [leaf], leaf


def text_of(pieces):
    return "".join(piece.text if isinstance(piece, Leaf) else piece for piece in pieces)


def leaves_of(pieces):
    """The predicates with their places in bytes."""
    for at, piece in enumerate(pieces):
        if isinstance(piece, Leaf):
            yield piece, len(text_of(pieces[:at]).encode()), len(piece.text.encode())


def is_nothing(leaf, workspace, groups):
    """Whether nothing in the workspace can be what a predicate asks for."""
    if leaf.name in ("package", "deps", "rdeps"):
        return not any(map(leaf.matches, workspace.packages.values()))
    if leaf.name in ("binary", "binary_id") and workspace.binaries:
        return not any(leaf.matches(it.id if leaf.name == "binary_id" else it.name) for it in workspace.binaries)
    return leaf.name == "group" and groups is not None and not any(map(leaf.matches, ["@global", *groups]))


def faults(workspace, purpose, groups, pieces):
    """The bans of a filterset, else its other faults."""
    leaves = list(leaves_of(pieces))
    banned = [
        f"BannedPredicate {offset} {length} {BANS[purpose, leaf.name]}"
        for leaf, offset, length in leaves
        if (purpose, leaf.name) in BANS
    ]
    return banned or [
        f"{NOTHING[leaf.name]} {offset} {length}" for leaf, offset, length in leaves if is_nothing(leaf, workspace, groups)
    ]


def known(leaf, workspace, binary):
    """What a binary alone tells of a predicate."""
    if leaf.name in ("all", "none"):
        return leaf.name == "all"
    if leaf.name == "platform":
        return leaf.platform == binary.platform
    if leaf.name in ("kind", "binary", "binary_id"):
        return leaf.matches({"kind": binary.kind, "binary": binary.name, "binary_id": binary.id}[leaf.name])
    named = {id for id, name in workspace.packages.items() if leaf.matches(name)}
    if leaf.name == "deps":
        return any(binary.package in workspace.reached(id) for id in named)
    if leaf.name == "rdeps":
        return bool(workspace.reached(binary.package) & named)
    return binary.package in named


def value(formula, answer):
    """The value of a formula where each predicate, from the left, has this answer."""
    if isinstance(formula, Leaf):
        return answer(formula)
    sign, *parts = formula
    values = [value(part, answer) for part in parts]
    return not values[0] if sign == "not" else any(values) if sign == "or" else all(values)


def questions(formula, default):
    """The predicates that only a test answers, each place apart."""
    if isinstance(formula, Leaf):
        return questions(default, None) if formula.name == "default" else [formula] if formula.name in ("test", "group") else []
    return [leaf for part in formula[1:] for leaf in questions(part, default)]


def on_binary(formula, default, workspace, binary):
    values = set()
    for answers in itertools.product([False, True], repeat=len(questions(formula, default))):
        left = iter(answers)

        def answer(leaf):
            if leaf.name in ("test", "group"):
                return next(left)
            return value(default, answer) if leaf.name == "default" else known(leaf, workspace, binary)

        values.add(value(formula, answer))
    return "undecided" if len(values) == 2 else str(values.pop()).lower()


def on_test(formula, default, workspace, binary, test, group):
    def answer(leaf):
        if leaf.name == "default":
            return value(default, answer)
        return leaf.matches({"test": test, "group": group}[leaf.name]) if leaf.name in ("test", "group") else known(leaf, workspace, binary)

    return str(value(formula, answer)).lower()


def drawn_default(draw, workspace):
    """A default filter without blanks and faults: its pieces, and its formula."""
    drawing = Drawing(draw, workspace, ["test", "test", "test", "platform", "kind", "package", "deps", "binary", "all", "none"], True)
    while True:
        pieces, formula = drawing.expression(1)
        if len(list(leaves_of(pieces))) <= 3 and not faults(workspace, "default-filter", None, pieces):
            return pieces, formula


def answer_row(draw, name, pieces, formula):
    """A row that asks for a filterset on a binary and a test; none where it is refused, or asks too much."""
    workspace = WORKSPACES[name]
    binary, test, group = draw.choice(workspace.binaries), draw.choice(TESTS), draw.choice(GROUPS)
    default = ["all()"], Leaf("all", "all()")
    if any(leaf.name == "default" for leaf, _, _ in leaves_of(pieces)):
        default = drawn_default(draw, workspace)
    if faults(workspace, "test", None, pieces) or len(questions(formula, default[1])) > QUESTIONS:
        return None
    whole = on_binary(formula, default[1], workspace, binary)
    one = on_test(formula, default[1], workspace, binary, test, group)
    return f"{name} {text_of(default[0])} {binary.id} {test} {group} {text_of(pieces)} => binary {whole}, test {one}"


def by_hand(rows):
    return {row: None for row in rows.strip("\n").split("\n")}


def answers(draw):
    rows = by_hand(ANSWERS_BY_HAND)
    for predicate, sign, _ in itertools.product([*BARE, "platform", "default"], ["=", "~", "#", "/", ""], range(PLAIN)):
        name = draw.choice(["chain", "net", "ring", "line"])
        leaf = drawn_leaf(draw, WORKSPACES[name], predicate, sign, False)
        rows[answer_row(draw, name, [leaf], leaf)] = None
    predicates = [*BARE, "test", "test", "group", "platform", "default", "default", "all", "none"]
    while len(rows) <= ANSWERS:
        name = draw.choice(["chain", "chain", "net", "net", "net", "ring", "ring", "line"])
        pieces, formula = Drawing(draw, WORKSPACES[name], predicates).expression()
        if 2 <= len(list(leaves_of(pieces))) <= 6:
            rows[answer_row(draw, name, pieces, formula)] = None
    rows.pop(None, None)
    return rows


def compiled(draw):
    rows = by_hand(COMPILED_BY_HAND)
    while len(rows) < COMPILED:
        name, purpose = draw.choice(list(WORKSPACES)), draw.choice(PURPOSES)
        groups = draw.choice([None, [], ["heavy", "io-1"], ["io-22", "größer"]])
        predicates = [it for it in [*BARE, *UNMATCHED] if draw.random() < 0.8 or (purpose, it) not in BANS]
        pieces, _ = Drawing(draw, WORKSPACES[name], predicates).expression()
        if len(list(leaves_of(pieces))) <= 5:
            told = "; ".join(faults(WORKSPACES[name], purpose, groups, pieces)) or "accepted"
            listed = "-" if groups is None else ",".join(["@global", *groups])
            rows[f"{name} {purpose} {listed} {text_of(pieces)} => {told}"] = None
    return rows


def described(name):
    workspace = WORKSPACES[name]
    if name == "line":
        return "# line: packages p0 to p64, whose ids are their names, each linked to the next; lib binaries of p0, p1, p31, p32, p63, p64 with their names."
    if name == "bare":
        return "# bare: as chain, but its binaries aren't known."
    named = ", ".join(f"{id} {text}" for id, text in workspace.packages.items())
    links = ", ".join(f"{origin} to {end}" for origin, end in workspace.links)
    return f"# {name}: packages (id, name) {named}; links {links}; binaries " + ", ".join(" ".join(it) for it in workspace.binaries) + "."


def write(name, head, rows):
    described_all = "\n".join(map(described, WORKSPACES))
    (DATA / f"{name}.txt").write_text(head + COMMON.format(workspaces=described_all) + "\n" + "\n".join(rows) + "\n")


def main():
    write("compiled", COMPILED_HEAD, compiled(random.Random(SEED)))
    write("answers", ANSWERS_HEAD, answers(random.Random(SEED)))


if __name__ == "__main__":
    main()
