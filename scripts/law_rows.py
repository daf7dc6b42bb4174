#!/usr/bin/env python3
"""Writes three tables of rows/, each of 200 drawn rows of a law about inputs, behind a few that were written by hand, with answers by the rules in scripts/plan_rules.py and scripts/run_rows.py.

    python3 scripts/law_rows.py

- `default_twice`: inputs with a filterset F and the default filter in force, and the same inputs with `(F) and default()`, have one report of each log.
- `isolation`: two inputs whose files differ only in profiles outside of the chosen one's chain have one report of each log, warnings aside.
- `roads`: where each binary answers its tests, the selected tests are those of all binaries, listed or not, on which the filters in force hold.

All is drawn from one seed, so the tables come out the same each time. Of the drawn inputs those are left out that have no plan, and most of those that
select nothing. A row of `isolation` has what its two files have of other profiles: drawn for each of the two inputs, moved from the one file to the
other, or nowhere in the one of them.
"""
import json
import pathlib
import random
import sys

sys.dont_write_bytecode = True
sys.path.insert(0, str(pathlib.Path(__file__).resolve().parent))
import plan_rows
import plan_rules as plans
import run_rows as runs
import script_run_rows as scripts
from config_rows import bare
from element_rows import SIGNS, toml
from plan_rows import changed, shown

ROWS = pathlib.Path(__file__).resolve().parent.parent / "rows"
SEED, DRAWN = 61, 200
HEADS = {
    "default_twice": "Changes of plan.json, with a filterset | a log => the status, how many tests are planned, and `one report`: of these inputs and of those\n"
    "# that ask for `default()` too, which is the default filter in force.",
    "isolation": "Changes of plan.json | what its files have besides, in profiles outside of the chosen one's chain | the same of other inputs | a log => the\n"
    "# status, how many tests are planned, and `one report`, warnings aside.",
    "roads": "Changes of plan.json => the planned tests, by binary and name.",
}


def planned(inputs):
    """The plan of inputs, or None."""
    try:
        return plans.plan_of(inputs)
    except plans.Refused:
        return None


def reported(inputs, log):
    """The report of inputs by a log, with its status."""
    return runs.run_answer(shown(inputs) + "\n" + "".join(line.replace(" ", "\t") + "\n" for line in log))


def status_of(report):
    return report.rsplit("(status ", 1)[1].split(")")[0]


def without_warnings(report):
    return "".join(line for line in report.splitlines(keepends=True) if not line.startswith("warning\t"))


def answer(plan, report):
    return f"status {status_of(report)}, {len(plan.tests)} tests, one report"


def is_kept(draw, plan):
    """Most of the plans that are kept select something."""
    return plan is not None and (plan.tests or draw.random() < 0.1)


# ---- a filterset, with and without the default filter


def with_default(inputs):
    return {**inputs, "filterset": f"({inputs['filterset']}) and default()"}


def drawn_filterset(draw):
    one = lambda: draw.choice([*plan_rows.FILTERSETS, plan_rows.drawn_filter(draw)])
    return draw.choice([one(), one(), f"{one()} or {one()}", f"not ({one()})", f" {one()} - {one()} "])


def default_twice(draw, text):
    changes = draw.choice([plan_rows.drawn_row, plan_rows.drawn_script_row])(draw)
    inputs = json.loads(changed(text, changes))
    if inputs.get("ignore_default_filter"):
        return None
    if "filterset" not in inputs:
        filterset = drawn_filterset(draw)
        changes, inputs = with_filterset(changes, filterset), {**inputs, "filterset": filterset}
    plan = planned(inputs)
    if not is_kept(draw, plan):
        return None
    return default_twice_row(changes, inputs, plan, scripts.drawn_log(draw, plan))


def with_filterset(changes, filterset):
    return [*changes, '"current_version":', f'"filterset":{shown(filterset)},"current_version":']


def default_twice_row(changes, inputs, plan, log):
    report, other = reported(inputs, log), reported(with_default(inputs), log)
    assert report == other, changes
    return f"{' => '.join(changes)} | {'; '.join(log)}", answer(plan, report)


# ---- profiles outside of the chain


def drawn_others(draw):
    """What a file has in profiles outside of a chain."""
    text = plan_rows.drawn_file(draw, [], []) + plan_rows.drawn_script_file(draw, [])
    if draw.random() < 0.3:
        text += f"[profile.zzz]\n{'inherits = ' + toml(draw.choice(['other', 'default'])) if draw.random() < 0.5 else ''}\nretries = {draw.randrange(9)}\n"
    return text if "[profile.other]" in text or "zzz" not in text else text.replace("inherits = 'other'", "").replace('inherits = "other"', "")


def drawn_chain_file(draw, chain, groups):
    """What a file has in the profiles of a chain, and groups."""
    text = plan_rows.drawn_file(draw, chain, groups)
    return text.split("[profile.other]")[0] if "[[profile.other" not in text.split("[profile.other]")[0] else None


def isolation(draw, text):
    chain = draw.choice([["default"], ["ci", "default"], ["ci", "base", "default"]])
    own, of_tool = drawn_chain_file(draw, chain, ["g", "h"]), drawn_chain_file(draw, chain, ["@tool:t:slow"])
    if own is None or of_tool is None:
        return None
    own = 'experimental = ["setup-scripts", "wrapper-scripts"]\n' + plan_rows.drawn_scripts(draw, plan_rows.SETUPS, plan_rows.WRAPPERS) + plan_rows.with_parents(own, chain)
    of_tool = plan_rows.drawn_scripts(draw, [plan_rows.OF_TOOL["setup"]], [plan_rows.OF_TOOL["wrapper"]]) + of_tool
    rules = plan_rows.drawn_script_file(draw, chain)
    own += rules.split("[[profile.other.scripts]]")[0]
    changes = plan_rows.drawn_changes(draw, chain, own, {"t": of_tool})
    base = json.loads(changed(text, changes))
    paths = [it["path"] for it in base["sources"]]
    one = {path: drawn_others(draw) for path in paths}
    kind = draw.choice(["drawn", "drawn", "moved", "none"])
    other = {path: drawn_others(draw) for path in paths} if kind == "drawn" else dict(zip(paths, reversed(one.values()))) if kind == "moved" else dict.fromkeys(paths, "")
    first, second = with_others(base, one), with_others(base, other)
    plan = planned(first)
    if one == other or not is_kept(draw, plan) or planned(second) is None:
        return None
    return isolation_row(changes, one, other, first, second, plan, scripts.drawn_log(draw, plan))


def isolation_row(changes, one, other, first, second, plan, log):
    report, also = reported(first, log), reported(second, log)
    assert without_warnings(report) == without_warnings(also), changes
    return f"{' => '.join(changes)} | {shown(one)} | {shown(other)} | {'; '.join(log)}", answer(plan, report)


def with_others(inputs, texts):
    """Inputs whose files have these texts besides."""
    return {**inputs, "sources": [{**it, "text": it["text"] + texts[it["path"]]} for it in inputs["sources"]]}


# ---- the two roads


def by_all_tests(inputs):
    """The tests of all binaries on which the filters in force hold."""
    workspace, sources = plans.workspace_of(inputs["workspace"]), plans.counted(inputs["sources"])
    _, features = plans.versions_told(sources, inputs)
    config = plans.load(sources, workspace, features)
    host = plans.platform_of(inputs.get("host"))
    target = plans.platform_of(inputs["target"]) if "target" in inputs else None
    profile = plans.Profile(config, inputs.get("profile", "default"), host, target)
    in_force = [plans.filter_of(inputs["filterset"], workspace, "test", config.groups)] if "filterset" in inputs else []
    in_force += [] if inputs.get("ignore_default_filter") else [profile.default]
    filtering = plans.Filtering(workspace, profile.default)
    for binary, record in zip(workspace.binaries, inputs["workspace"]["binaries"]):
        for test in record["tests"]:
            group = profile.settings(filtering, binary, test).group
            if all(filtering.holds(formula, binary, test, group) for formula in in_force):
                yield binary.id, test


def roads(draw, text):
    changes = draw.choice([plan_rows.drawn_row, plan_rows.drawn_row, plan_rows.drawn_script_row])(draw)
    inputs = json.loads(changed(text, changes))
    plan = planned(inputs)
    if not is_kept(draw, plan):
        return None
    tests = sorted(by_all_tests(inputs), key=lambda test: [part.encode() for part in test])
    assert tests == sorted(((it.binary, it.name) for it in plan.tests), key=lambda test: [part.encode() for part in test]), changes
    return " => ".join(changes), ", ".join(f"{binary} {name}" for binary, name in tests) or "none"


# ---- worked rows, which stand first

LOG = ["start p a", "end p a fail:1 - 5 - -", "start p a", "end p a pass - 7 - -", "start p b", "end p b pass - 9 - -"]
OTHER = "[profile.other]\ndefault-filter = 'none()'\n[[profile.other.overrides]]\nfilter = 'all()'\ntest-group = 'g'\nretries = 9\n[[profile.other.scripts]]\nfilter = 'all()'\nsetup = 's'\n"
DEFINED = 'experimental = ["setup-scripts"]\n[scripts.setup.s]\ncommand = "x"\n[test-groups.g]\nmax-threads = 1\n'


def in_files(*texts):
    """The change that gives inputs these files of their own, by path."""
    return ['"sources":[]', f'"sources":{shown([{"kind": kind, "path": path, "text": text, **({"tool": "t"} if kind == "tool" else {})} for kind, path, text in texts])}']


def worked_default_twice(text):
    changes = with_filterset(in_files(("explicit", "nextest.toml", "[profile.default]\ndefault-filter = 'test(a)'\n")), "all()")
    inputs = json.loads(changed(text, changes))
    yield default_twice_row(changes, inputs, planned(inputs), ["start p a", "end p a pass - 1 - -"])


def worked_isolation(text):
    retried = "[profile.default]\nretries = 1\nfail-fast = false\n"
    files = [("tool", "t.toml", ""), ("explicit", "nextest.toml", DEFINED + retried)]
    for changes, one, other in (
        (in_files(("explicit", "nextest.toml", retried)), {"nextest.toml": ""}, {"nextest.toml": "[profile.other]\nretries = 9\n"}),
        (in_files(*files), {"t.toml": "", "nextest.toml": ""}, {"t.toml": "", "nextest.toml": OTHER}),
        (in_files(*files), {"t.toml": "[profile.other]\nretries = 9\n", "nextest.toml": OTHER}, {"t.toml": OTHER, "nextest.toml": "[profile.other]\nretries = 9\n"}),
    ):
        base = json.loads(changed(text, changes))
        first, second = with_others(base, one), with_others(base, other)
        yield isolation_row(changes, one, other, first, second, planned(first), LOG)


WORKED = {"default_twice": worked_default_twice, "isolation": worked_isolation, "roads": lambda text: ()}


def main():
    text = (runs.DATA / "plan.json").read_text(encoding="utf-8").rstrip("\n")
    for number, make in enumerate((default_twice, isolation, roads)):
        draw, found, worked = random.Random(SEED + number), {}, dict(WORKED[make.__name__](text))
        while len(found) < DRAWN:
            found.update(filter(None, [make(draw, text)]))
        found = {**worked, **found}
        lines = [f"{given} => {answer}".translate(SIGNS) for given, answer in found.items()]
        (ROWS / f"{make.__name__}.txt").write_text("\n".join([f"# Made by scripts/law_rows.py. {HEADS[make.__name__]}", "", *lines]) + "\n", encoding="utf-8")
        print(f"{make.__name__}: {len(lines)} rows")


if __name__ == "__main__":
    main()
