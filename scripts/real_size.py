#!/usr/bin/env python3
"""Writes `examples/real-size.txt`, a run of the size that a project has, and its row in rows/runs, from the files of `examples/real-size/`.

    python3 scripts/real_size.py

The files are `inputs.json`, whose sources name their files in place of texts, these files in TOML, and `log.txt`. The row's answer is reckoned by
scripts/run_rows.py, by the rules and without the program.
"""
import json
import sys

sys.dont_write_bytecode = True
import plan_rules as plans
import run_rows as runs
from version_rows import ROOT

FILES, STREAM = ROOT / "examples/real-size", ROOT / "examples/real-size.txt"
ROW = runs.ROWS / "runs/real-size.in"


def main():
    inputs = json.loads((FILES / "inputs.json").read_text(encoding="utf-8"))
    for source in inputs["sources"]:
        source["text"] = (FILES / source["path"]).read_text(encoding="utf-8")
    stream = json.dumps(inputs, separators=(",", ":"), ensure_ascii=False) + "\n" + (FILES / "log.txt").read_text(encoding="utf-8")
    for file in (STREAM, ROW):
        file.write_text(stream, encoding="utf-8")
    ROW.with_suffix(".out").write_text(runs.run_answer(stream), encoding="utf-8")
    plan = plans.plan_of(inputs)
    files = [plans.read_toml(source["text"]) for source in inputs["sources"]]
    overrides = sum(len(profile.get("overrides", [])) for file in files for profile in file["profile"].values())
    groups, tests = sum(len(file["test-groups"]) for file in files), sum(len(it["tests"]) for it in inputs["workspace"]["binaries"])
    print(f"{len(files)} files, {overrides} overrides, {groups} groups, {tests} tests: {len(plan.tests)} selected, {len(plan.skipped)} skipped")


if __name__ == "__main__":
    main()
