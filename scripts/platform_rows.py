#!/usr/bin/env python3
"""Writes the table `platform_specs` of the program `worked_rows`: whether platform specs hold on platforms of which some facts are known.

    python3 scripts/platform_rows.py

All is drawn from one seed, so the table comes out the same each time. By the rules:

- A spec is a triple, a name of ASCII letters, digits, `_`, `.` and `-`, with blanks around it; or `cfg(P)`. P is a name, a name with `=` and a
  value in quotes, or `not(P)`, `all(..)` or `any(..)`. Blanks are free between all of these, and so is a comma behind the last item of a list.
- A triple is the platform's or not, and that is always known. A fact that isn't handed in may be true or false, at each place where it stands
  by itself. The answer is the one value that a spec can have so, or none. `all()` is true, `any()` false.
- Two facts with the same name and the same value are refused, with the same answer too.
"""
import itertools
import pathlib
import random

DATA = pathlib.Path(__file__).resolve().parent.parent / "crates/worked_rows/data/platform_specs.txt"
SEED, DRAWN = 35, 260
HEAD = """# Made by scripts/platform_rows.py. TRIPLE | FACTS | SPEC => whether the spec holds on the platform of that triple and of these facts, `refused`
# where it is none, `repeated` where two facts are one. FACTS: NAME:HOLDS or NAME=VALUE:HOLDS, each with a comma behind it.
"""
TRIPLES = ["x86_64-unknown-linux-gnu", "wasm32-wasi", "thumbv7em-none-eabi.1", "cfg", ""]
NAMES = ["unix", "windows", "test", "all", "not", "_x", "a1"]
VALUES = [("target_os", "linux"), ("target_os", "windows"), ("feature", ""), ("a1", "x y,)(")]
BLANKS = ["", "", "", " ", "␉", "  "]

# Texts that are no specs, each for another reason.
REFUSED = [
    "", " ", "cfg()", "cfg(unix", "cfg unix", "cfg(unix))", "cfg(unix) x", "cfg(,)", "cfg(unix,)", "cfg(not())", "cfg(not(unix,))",
    "cfg(not(unix,windows))", "cfg(all(,))", "cfg(all(unix,,))", "cfg(all(unix windows))", "cfg(any(unix;windows))", "cfg(target_os = linux)",
    'cfg(target_os = "linux)', 'cfg(target_os == "linux")', 'cfg(target_os = "li\\nux")', "cfg(1a)", "cfg(a-b)", "cfg(a.b)", "cfg(not unix)",
    'cfg(= "x")', 'cfg("x")', "CFG(unix)", "cfg(unix(windows))", "cfg(all)(unix)", "x86 64", "x86/64", "x86:64", "ä", "cfg(ä)", "(unix)",
    "cfg((unix))", "cfg(unix = )", "cfg(unix) cfg(unix)", "not(unix)", 'unix = "x"',
]

# From the rules by hand: spec, facts, answer.
BY_HAND = [
    ('cfg(all(unix, not(target_os = "windows")))', ["unix:true"], "None"),
    ("cfg(any(unix, foo))", ["unix:true"], "Some(true)"),
    ("cfg(any(unix, not(unix)))", [], "None"),
    ("cfg(all(unix, not(unix)))", [], "None"),
    ("cfg(all())", [], "Some(true)"),
    ("cfg(any())", [], "Some(false)"),
    ("cfg(not(any()))", [], "Some(true)"),
    ("cfg(all)", ["all:true"], "Some(true)"),
    ("cfg (all(unix,),)", ["unix:true"], "refused"),
    ("cfg ( all ( unix , ) ) ", ["unix:true"], "Some(true)"),
    ("cfg(unix)", ["unix=:true"], "None"),
    ('cfg(unix = "")', ["unix:false", "unix=:true"], "Some(true)"),
    ("cfg(unix)", ["unix:true", "unix:true"], "repeated"),
    ("cfg(unix)", ["unix:true", "unix:false"], "repeated"),
    ("cfg(unix)", ["a=b:true", "unix:true", "a=b:false"], "repeated"),
]


def drawn_tree(draw, depth):
    kind = draw.choice(["fact", "fact", "value", "not", "all", "any"]) if depth else draw.choice(["fact", "fact", "value"])
    if kind == "fact":
        return kind, draw.choice(NAMES)
    if kind == "value":
        return kind, draw.choice(VALUES)
    if kind == "not":
        return kind, [drawn_tree(draw, depth - 1)]
    return kind, [drawn_tree(draw, depth - 1) for _ in range(draw.randrange(4))]


def written(draw, tree):
    blank = lambda: draw.choice(BLANKS)
    kind, of = tree
    if kind == "fact":
        return of
    if kind == "value":
        return f'{of[0]}{blank()}={blank()}"{of[1]}"'
    if kind == "not":
        return f"not{blank()}({blank()}{written(draw, of[0])}{blank()})"
    items = f"{blank()},{blank()}".join(written(draw, it) for it in of)
    comma = draw.choice(["", f"{blank()},"]) if of else ""
    return f"{kind}{blank()}({blank()}{items}{comma}{blank()})"


def places(tree, known):
    """How many places of a tree have an unknown fact."""
    kind, of = tree
    if kind in ("fact", "value"):
        return (of if kind == "value" else (of, None)) not in known
    return sum(places(it, known) for it in of)


def value(tree, known, answers):
    kind, of = tree
    if kind in ("fact", "value"):
        key = of if kind == "value" else (of, None)
        return known[key] if key in known else next(answers)
    values = [value(it, known, answers) for it in of]
    return not values[0] if kind == "not" else all(values) if kind == "all" else any(values)


def answer(tree, known):
    """The one value of a tree over all lists of answers to its unknown places."""
    lists = itertools.product([False, True], repeat=places(tree, known))
    values = {value(tree, known, iter(it)) for it in lists}
    return f"Some({str(values.pop()).lower()})" if len(values) == 1 else "None"


def drawn_facts(draw):
    keys = [(name, None) for name in NAMES] + VALUES
    return {key: draw.random() < 0.5 for key in draw.sample(keys, draw.randrange(len(keys))) if "," not in (key[1] or "")}


def told(known):
    return "".join(f"{name}{'' if of is None else '=' + of}:{str(holds).lower()}," for (name, of), holds in known.items())


def row(triple, facts, spec, result):
    return f"{triple} | {facts} | {spec} => {result}\n"


def main():
    draw = random.Random(SEED)
    rows = [row("x", "".join(f"{it}," for it in facts), spec, result) for spec, facts, result in BY_HAND]
    rows += [row("x", "unix:true,", spec, "refused") for spec in REFUSED]
    for triple in TRIPLES:
        for spec in TRIPLES[:4]:
            rows.append(row(triple, "unix:true,", f"{draw.choice(BLANKS)}{spec}{draw.choice(BLANKS)}", f"Some({str(spec == triple).lower()})"))
    seen = set()
    while len(seen) < DRAWN:
        tree, known = drawn_tree(draw, 4), drawn_facts(draw)
        spec = f"{draw.choice(BLANKS)}cfg{draw.choice(BLANKS)}({draw.choice(BLANKS)}{written(draw, tree)}{draw.choice(BLANKS)}){draw.choice(BLANKS)}"
        if spec in seen or places(tree, known) > 12 or len(spec) > 200:
            continue
        seen.add(spec)
        rows.append(row(draw.choice(TRIPLES[:3]), told(known), spec, answer(tree, known)))
    DATA.write_text(HEAD + "".join(rows))


if __name__ == "__main__":
    main()
