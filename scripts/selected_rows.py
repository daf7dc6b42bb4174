#!/usr/bin/env python3
"""Writes the table `selected` of the program `worked_rows`: which binaries inputs with a filterset list, and which of their tests they select.

    python3 scripts/selected_rows.py

All is drawn from one seed, so the table comes out the same each time. Filtersets and workspaces are those of `filterset_rows.py`, and so is
what a filterset is on a binary, reckoned by all lists of answers, and on a test; each binary lists some tests, or can't. By the rules:

- A filterset with a fault, as one that chooses tests where no group but `@global` is known, is refused, and nobody is asked.
- A binary is listed where the filterset isn't false on it. The listed ones are asked in their order, up to the first that can't list its tests.
- A test of a listed binary is selected where the filterset holds on it; it is in the group `@global`. Selected tests rise by binary id, and
  then by name; the others stay as they were listed.
"""
import json
import pathlib
import random
import sys

sys.dont_write_bytecode = True
sys.path.insert(0, str(pathlib.Path(__file__).resolve().parent))
import filterset_rows as rows

DATA = pathlib.Path(__file__).resolve().parent.parent / "crates/worked_rows/data/selected.txt"
SEED, SELECTED, QUESTIONS = 29, 120, 10
HEAD = """# Made by scripts/selected_rows.py. Whole inputs => the tests to run with the most attempts of each, the skipped ones, the limit and the
# listed binaries; or the name under which they are refused; and the binaries that were asked for their tests.
"""
LIMIT = "limit Count { max_fail: 1, terminate: Wait }"
EVERYTHING = rows.Leaf("all", "all()")
HAND = ["all", "", " ", "test(a", "test(a) or", "default()", "group(@global)", "group(heavy)", "not group(*)", "test(a) and not test(a)", "package(zzz)"]


def inputs(workspace, listed, sources, **fields):
    record = {
        "packages": [{"id": id, "name": name} for id, name in workspace.packages.items()],
        "links": workspace.links,
        "binaries": [{**binary._asdict(), "tests": tests} for binary, tests in zip(workspace.binaries, listed)],
    }
    whole = {"workspace": record, "sources": sources, "current_version": "0.9.100", **fields}
    return json.dumps(whole, separators=(",", ":"), ensure_ascii=False)


def planned(workspace, listed, in_force, default):
    """What the filters in force select, beside this default filter."""
    wanted = [
        (binary, tests)
        for binary, tests in zip(workspace.binaries, listed)
        if all(rows.on_binary(it, default, workspace, binary) != "false" for it in in_force)
    ]
    asked, run, skip = [], [], []
    for binary, tests in wanted:
        asked.append(binary.id)
        if isinstance(tests, dict):
            return "ListFault; asked" + told(asked)
        for test in tests:
            holds = all(rows.on_test(it, default, workspace, binary, test, "@global") == "true" for it in in_force)
            (run if holds else skip).append((binary.id, test))
    run.sort(key=lambda test: [part.encode() for part in test])
    ran = told(f"[{id} {test} x1]" for id, test in run)
    skipped = told(f"[{id} {test}]" for id, test in skip)
    return f"run{ran}; skip{skipped}; {LIMIT}; listed{told(asked)}; asked{told(asked)}"


def told(words):
    return "".join(f" {word}" for word in words)


def drawn_tests(draw):
    return {"fault": "gone"} if draw.random() < 0.06 else draw.sample(rows.TESTS, draw.choice([0, 1, 2, 2, 3]))


def row(draw, workspace, pieces, formula):
    """A row; none where the filterset asks too much."""
    if len(rows.questions(formula, EVERYTHING)) > QUESTIONS:
        return None
    listed = [drawn_tests(draw) for _ in workspace.binaries]
    refused = rows.faults(workspace, "test", [], pieces)
    answer = "Filterset; asked" if refused else planned(workspace, listed, [formula], EVERYTHING)
    return f"{inputs(workspace, listed, [], filterset=rows.text_of(pieces))} => {answer}"


def by_hand(draw):
    workspace = rows.WORKSPACES["chain"]
    listed = [["a", "ba"]] + [["io::read"]] * (len(workspace.binaries) - 1)
    test = rows.Leaf("test", "test(a)", lambda name: "a" in name)
    trees = {
        "default()": EVERYTHING,
        "group(@global)": rows.Leaf("group", "group(@global)", lambda name: name == "@global"),
        "not group(*)": ("not", rows.Leaf("group", "group(*)", lambda name: True)),
        "test(a) and not test(a)": ("and", test, ("not", test)),
    }
    for text in HAND:
        answer = planned(workspace, listed, [trees[text]], EVERYTHING) if text in trees else "Filterset; asked"
        yield f"{inputs(workspace, listed, [], filterset=text)} => {answer}"


def main():
    draw = random.Random(SEED)
    found = dict.fromkeys(by_hand(draw))
    predicates = [*rows.BARE, "test", "test", "test", "package", "deps", "platform", "default", "all", "none"]
    while len(found) < SELECTED:
        workspace = rows.WORKSPACES[draw.choice(["chain", "net", "net", "ring"])]
        pieces, formula = rows.Drawing(draw, workspace, predicates).expression()
        if len(list(rows.leaves_of(pieces))) <= 5:
            found[row(draw, workspace, pieces, formula)] = None
        found.pop(None, None)
    DATA.write_text(HEAD + "\n" + "\n".join(found) + "\n")


if __name__ == "__main__":
    main()
