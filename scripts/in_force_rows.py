#!/usr/bin/env python3
"""Writes the table `in_force` of the program `worked_rows`: which binaries and tests inputs with a default filter list and select.

    python3 scripts/in_force_rows.py

All is drawn from one seed, so the table comes out the same each time. Workspaces, filtersets and what these are on binaries and tests are those
of `filterset_rows.py`; binaries and their tests are drawn as in `selected_rows.py`. By the rules:

- The default filter is that of the chosen profile: its own, else that of the nearest of its parents, where `default` is the last; of one key in
  several files the highest counts. Where none is set it is everything.
- Of every profile it must be one that the workspace accepts as a default filter. That is looked at before the filterset.
- In force are the filterset, where one is given, and the default filter, unless it is left aside. `default()` is the default filter in either case.
- A binary is listed where no filter in force is false on it, each reckoned by all lists of answers of its own. A test of a listed binary is
  selected where all of them hold on it.
"""
import collections
import json
import pathlib
import random
import sys

sys.dont_write_bytecode = True
sys.path.insert(0, str(pathlib.Path(__file__).resolve().parent))
import filterset_rows as rows
import selected_rows as selected

DATA = pathlib.Path(__file__).resolve().parent.parent / "crates/worked_rows/data/in_force.txt"
SEED, DRAWN, EACH = 34, 160, 4
HEAD = """# Made by scripts/in_force_rows.py. Whole inputs => the tests to run with the most attempts of each, the skipped ones, the limit and the
# listed binaries; or the name under which they are refused; and the binaries that were asked for their tests.
"""
SLOW = rows.Leaf("test", "test(~slow)", lambda name: "slow" in name)
TEST_A = rows.Leaf("test", "test(a)", lambda name: "a" in name)
DEFAULT = rows.Leaf("default", "default()")
PREDICATES = ["test", "test", "default", "default", "kind", "platform", "deps", "package", "group", "all"]
DEFAULT_PREDICATES = ["test", "test", "test", "kind", "platform", "package", "binary", "all", "none", "default", "group"]


def file(profiles, kind="explicit"):
    """A source that sets these keys of these profiles."""
    text = "".join(f"[profile.{name}]\n" + "".join(f"{key} = {json.dumps(value, ensure_ascii=False)}\n" for key, value in keys.items()) for name, keys in profiles.items())
    return {"kind": kind, **({"tool": "t"} if kind == "tool" else {}), "path": f"{kind}.toml", "text": text}


def kinds_of(workspace, listed, filterset, default, ignored):
    """What a row shows, to see that each is there."""
    if filterset is None or ignored:
        yield "one filter"
        return
    for binary, tests in zip(workspace.binaries, listed):
        both = tuple(rows.on_binary(it, default, workspace, binary) for it in (filterset, default))
        yield "undecided by " + {(True, True): "both", (True, False): "the filterset", (False, True): "the default filter", (False, False): "neither"}[tuple(it == "undecided" for it in both)]
        if "false" not in both and isinstance(tests, list):
            each = [all(rows.on_test(it, default, workspace, binary, test, "@global") == "true" for it in (filterset, default)) for test in tests]
            if tests and not any(each):
                yield "listed, and nothing selected"


# ---- where the default filter stands


def of_default(draw, text, other):
    return [file({"default": {"default-filter": text}})], {}


def of_profile(draw, text, other):
    return [file({"default": {"default-filter": other}, "ci": {"default-filter": text}})], {"profile": "ci"}


def of_parent(draw, text, other):
    return [file({"x": {"inherits": "y"}, "y": {"default-filter": text}, "default": {"default-filter": other}})], {"profile": "x"}


def of_higher_file(draw, text, other):
    hidden = draw.choice([other, "default()", "foo(", "package(zzz)"])
    return [file({"default": {"default-filter": text}}), file({"default": {"default-filter": hidden}}, "tool")], {}


def of_lower_file(draw, text, other):
    return [file({"default": {"retries": 0}}), file({"default": {"default-filter": text}, "z": {"default-filter": other}}, "tool")], {}


PLACES = [of_default, of_default, of_profile, of_parent, of_higher_file, of_lower_file]


def drawn_row(draw, counts):
    """A row; none where it asks too much."""
    workspace = rows.WORKSPACES[draw.choice(["chain", "net", "ring"])]
    listed = [selected.drawn_tests(draw) for _ in workspace.binaries]
    pieces, default = drawn_filter(draw, workspace, "default-filter", None, DEFAULT_PREDICATES, 0.1)
    (other, _), filterset, ignored = rows.drawn_default(draw, workspace), None, draw.random() < 0.15
    fields = {"ignore_default_filter": True} if ignored else {}
    refused = None
    if rows.faults(workspace, "default-filter", None, pieces):
        refused = "Load.BadFilter"
    if draw.random() < 0.85:
        chosen, filterset = drawn_filter(draw, workspace, "test", [], PREDICATES, 0)
        fields["filterset"] = rows.text_of(chosen)
        if refused is None and rows.faults(workspace, "test", [], chosen):
            refused = "Filterset"
    in_force = [filterset] * (filterset is not None) + [default] * (not ignored)
    if refused is None and any(len(rows.questions(it, default)) > selected.QUESTIONS for it in in_force):
        return None
    sources, more = draw.choice(PLACES)(draw, rows.text_of(pieces), rows.text_of(other))
    if refused is None:
        counts.update(set(kinds_of(workspace, listed, filterset, default, ignored)))
    counts[refused] += 1
    answer = selected.planned(workspace, listed, in_force, default) if refused is None else f"{refused}; asked"
    return f"{selected.inputs(workspace, listed, sources, **more, **fields)} => {answer}"


def drawn_filter(draw, workspace, purpose, groups, predicates, faulty):
    """A filter of few predicates: its pieces, and its formula. Of those that are refused for this purpose only this share is kept."""
    while True:
        pieces, formula = rows.Drawing(draw, workspace, predicates).expression(1)
        if len(list(rows.leaves_of(pieces))) <= 4 and (draw.random() < faulty or not rows.faults(workspace, purpose, groups, pieces)):
            return pieces, formula


# ---- rows by hand


def by_hand():
    workspace = rows.Workspace({"p": "p"}, [], [rows.Binary("p", "p", "lib", "p", "target")])
    listed = [["a", "slow_b"]]
    everything = selected.EVERYTHING

    def row(text, filterset, in_force, default, **fields):
        sources = [file({"default": {"default-filter": text}})]
        fields = {**({"filterset": filterset} if filterset is not None else {}), **fields}
        return f"{selected.inputs(workspace, listed, sources, **fields)} => {selected.planned(workspace, listed, in_force, default)}"

    ignored = {"ignore_default_filter": True}
    fast, text = ("not", SLOW), "not test(~slow)"
    yield row(text, "all()", [everything, fast], fast)
    yield row(text, "all()", [everything], fast, **ignored)
    yield row(text, None, [fast], fast)
    yield row(text, None, [], fast, **ignored)
    yield row(text, "default()", [DEFAULT, fast], fast)
    yield row(text, "default()", [DEFAULT], fast, **ignored)
    yield row(text, "not default()", [("not", DEFAULT), fast], fast)
    yield row(text, "not default()", [("not", DEFAULT)], fast, **ignored)
    yield row(text, "not not default() and test(b)", [("and", ("not", ("not", DEFAULT)), rows.Leaf("test", "test(b)", lambda name: "b" in name)), fast], fast)
    yield row("not test(a)", "test(a)", [TEST_A, ("not", TEST_A)], ("not", TEST_A))
    yield row("none()", "all()", [everything, rows.Leaf("none", "none()")], rows.Leaf("none", "none()"))
    yield row("all()", "none()", [rows.Leaf("none", "none()"), everything], everything)
    yield row("all()", "test(a", [], everything).split(" => ")[0] + " => Filterset; asked"
    for bad in ("default()", "group(x)", "group(@global)", "foo(", "", " ", "package(zzz)", "test(a) or", "binary(zzz)"):
        for fields in ({}, {"filterset": "test(a"}, ignored):
            yield f"{selected.inputs(workspace, listed, [file({'default': {'default-filter': bad}})], **fields)} => Load.BadFilter; asked"
    for sources, fields, in_force in (
        ([file({"default": {"default-filter": text}}), file({"default": {"default-filter": "foo("}}, "tool")], {}, [fast]),
        ([file({"default": {}, "z": {}}), file({"z": {"default-filter": text}}, "tool")], {}, [everything]),
        ([file({"z": {"default-filter": text}})], {"profile": "z"}, [fast]),
        ([file({"x": {"inherits": "y"}, "y": {"default-filter": text}})], {"profile": "x"}, [fast]),
        ([file({"x": {"inherits": "y"}, "y": {}, "default": {"default-filter": text}})], {"profile": "x"}, [fast]),
        ([file({"x": {"inherits": "y", "default-filter": "all()"}, "y": {"default-filter": text}})], {"profile": "x"}, [everything]),
    ):
        yield f"{selected.inputs(workspace, listed, sources, **fields)} => {selected.planned(workspace, listed, in_force, in_force[0])}"
    for profiles, refusal in (
        ({"z": {"default-filter": "foo("}}, "Load.BadFilter"),
        ({"z": {"default-filter": "foo(", "inherits": "q"}}, "Load.UnknownParent"),
        ({"z": {"default-filter": "foo("}, "y": {"inherits": "y"}}, "Load.Cycle"),
        ({"z": {"default-filter": "foo(", "retries": -1}}, "Load.BadValue"),
        ({"z": {"default-filter": ["all()"]}}, "Load.BadValue"),
    ):
        for fields in ({}, {"profile": "none"}, {"target": {"triple": "", "facts": []}}):
            yield f"{selected.inputs(workspace, listed, [file(profiles)], **fields)} => {refusal}; asked"


def main():
    draw, counts = random.Random(SEED), collections.Counter()
    found = dict.fromkeys(by_hand())
    hand = len(found)
    while len(found) < hand + DRAWN:
        found[drawn_row(draw, counts)] = None
        found.pop(None, None)
    kinds = ["one filter", *(f"undecided by {it}" for it in ("both", "the filterset", "the default filter", "neither")), "listed, and nothing selected", "Load.BadFilter"]
    assert all(counts[it] >= EACH for it in kinds), counts
    DATA.write_text(HEAD + "\n" + "\n".join(found) + "\n", encoding="utf-8")
    print(f"in_force: {len(found)} rows, {hand} by hand; {dict(counts)}")


if __name__ == "__main__":
    main()
