#!/usr/bin/env python3
"""Writes the table `test_settings` of the program `worked_rows`: what a test is run with, and where each setting comes from; and its scripts.

    python3 scripts/settings_rows.py

Four rows are made by hand, all others are drawn from two seeds, so the table comes out the same each time. It knows nothing of the program.
Filters and platform specs are those without a language: a filter is `all()`, `none()` or the name of a test, a spec the name of a platform; of
a platform without names nothing is known. Values, the merge of files and the parents of profiles are reckoned by scripts/config_rows.py. Then,
by the rules:

- The overrides are asked in one order: by the chain of the profile (itself, its parents one after another, `default`), then by file from the
  highest, then by their places in the profile's list.
- One holds on a test where its spec of the host holds on the host, and its spec of the target on the platform of the test's binary: on the host
  for a binary of the host; else on the target, or on the host where no target is given. A spec that is left out holds, and one of which nothing
  is known. Its filter, where it has one, must hold on the test.
- A setting is that of the first override that holds and sets it; else that of the nearest profile of the chain that sets it; else a priority
  of 0 and the group `@global`. Of a benchmark `bench.slow-timeout` is the slow timeout, and that alone.
- The default filter is that of the first override that has one and whose specs hold for the target, whatever the test; else that of the
  nearest profile.
- Script rules are asked in the same order, and hold on a test by the same rule. Its wrapper script is the one that the first names which holds
  and has `run-wrapper`. The one with which its binary is listed is the one that the first names which has `list-wrapper` and whose specs hold
  for the binary, and whose filter, where it has one, is `all()`. Its setup scripts are those that rules which hold name, by the bytes of their
  names, each once.
"""
import random
import re
import sys
import tomllib

sys.dont_write_bytecode = True
import config_rows as configs
import element_rows as elements
from element_rows import CRATE, SIGNS, toml

SEED, DRAWN = 35, 400
SCRIPTS_SEED, WITH_SCRIPTS = 36, 150
HEAD = (
    "# Made by scripts/settings_rows.py. PROFILE MODE BINARY HOST TARGET TEST KEYS | KIND PATH OUTCOME | .. => each setting and where it comes from:"
    " of the default filter the key; and for `list-wrapper` and `setup-scripts` the scripts alone; HOST and TARGET are the names of a platform with commas between them, `-` where nothing is known of it, `none` where there is no target"
)
KEYS = (
    "priority threads-required run-extra-args retries flaky-result fail-weight slow-timeout leak-timeout test-group success-output failure-output"
    " junit.store-success-output junit.store-failure-output junit.report-skipped junit.flaky-fail-status default-filter"
).split()
ONLY_RULES = {"priority": "TestPriority { number: 0 }", "test-group": "Global"}
SCRIPT_KEYS = ["run-wrapper", "list-wrapper", "setup-scripts"]
FEATURES = ["setup-scripts", "wrapper-scripts"]
DEFINED = """scripts.setup = { s.command = "x", t.command = "x", Z.command = "x" }
scripts.wrapper = { v.command = "v 'a b'", w = { command = ["w"], target-runner = "within-wrapper" } }"""
PLATFORMS = ["p", "q"]
TESTS = ["a", "b", "c"]
RIGHT = {
    "priority": [-100, 0, 5, 100],
    "threads-required": [1, 2, "num-cpus", "num-test-threads"],
    "run-extra-args": [[], ["--a"], ["--a", "b"]],
    "retries": [0, 1, 3, {"backoff": "fixed", "count": 2, "delay": "1s", "jitter": True}],
    "flaky-result": ["pass", "fail"],
    "fail-weight": [1, 2, 50, 100],
    "slow-timeout": ["5s", {"period": "7s", "terminate-after": 2}],
    "leak-timeout": ["1s", {"period": "2s", "result": "fail"}],
    "test-group": ["g", "h", "@global"],
    "success-output": ["immediate", "final", "never"],
    "failure-output": ["immediate-final", "final", "never"],
    "bench": [{}, {"slow-timeout": "9s"}],
    "junit": [{}, {"store-success-output": True}, {"report-skipped": "all", "flaky-fail-status": "success"}, {"store-failure-output": False}],
}
OF_PROFILES = [key for key in RIGHT if key not in ONLY_RULES]


def override(draw):
    it = {}
    if draw.random() < 0.7:
        it["filter"] = draw.choice(["all()", "none()", *TESTS])
    if "filter" not in it or draw.random() < 0.4:
        spec = lambda: draw.choice([*PLATFORMS, "r"])
        it["platform"] = draw.choice([spec(), {"host": spec()}, {"target": spec()}, {"host": spec(), "target": spec()}])
    if "filter" not in it and draw.random() < 0.5:
        it["default-filter"] = draw.choice(["all()", "none()", *TESTS])
    for key in draw.sample(list(RIGHT), draw.randrange(5)):
        it[key] = draw.choice(RIGHT[key])
    return it


def file(draw, names, most):
    """A file with some settings and overrides of these profiles, the first of which inherit from the next."""
    profiles = {}
    for place, name in enumerate(names):
        if draw.random() < 0.75:
            profile = {key: draw.choice(RIGHT[key]) for key in draw.sample(OF_PROFILES, draw.randrange(5))}
            if draw.random() < 0.3:
                profile["default-filter"] = draw.choice(["all()", "none()", *TESTS])
            rules = [override(draw) for _ in range(draw.randrange(most + 1))]
            profiles[name] = {**profile, **({"overrides": rules} if rules else {})}
    return profiles


def script_rule(draw):
    it = {}
    if draw.random() < 0.7:
        it["filter"] = draw.choice(["all()", "all()", "none()", *TESTS])
    if "filter" not in it or draw.random() < 0.4:
        spec = lambda: draw.choice([*PLATFORMS, "r"])
        it["platform"] = draw.choice([spec(), {"host": spec()}, {"target": spec()}, {"host": spec(), "target": spec()}])
    names = draw.sample(["s", "t", "Z"], draw.randrange(4))
    if names or draw.random() < 0.3:
        it["setup"] = names[0] if len(names) == 1 and draw.random() < 0.7 else names
    if draw.random() < 0.5:
        it["run-wrapper"] = draw.choice(["v", "w"])
    if draw.random() < 0.5 and it.get("filter", "all()") in ("all()", "none()"):
        it["list-wrapper"] = draw.choice(["v", "w"])
    return it


def script_file(draw, names):
    """A file with some script rules of these profiles, and of another one."""
    return {name: {"scripts": [script_rule(draw) for _ in range(draw.choice([0, 1, 1, 2, 3]))]} for name in [*names, "other"]}


def holds_on(spec, names):
    return spec is None or names == [] or spec in names


def holds_for(rule, binary, host, target):
    platform = rule.get("platform", {})
    platform = {"target": platform} if isinstance(platform, str) else platform
    built = host if binary == "host" or target is None else target
    return holds_on(platform.get("host"), host) and holds_on(platform.get("target"), built)


def rules_of(chain, sources, kind="overrides", word="override"):
    """The overrides in their order, each with where it stands; or the script rules."""
    for name in chain:
        for _, path, outcome in sources[::-1]:
            for index, rule in enumerate(tomllib.loads(outcome.removeprefix("text ")).get("profile", {}).get(name, {}).get(kind, [])):
                yield name, f"{word} {path} {name} {index}", rule


def at(table, key, mode):
    """What a table sets for a setting."""
    if key == "slow-timeout" and mode == "benchmark":
        return table.get("bench", {}).get(key)
    if key.startswith("junit."):
        return table.get("junit", {}).get(key.removeprefix("junit."))
    return table.get(key)


def answer(name, mode, binary, host, target, test, keys, sources):
    config = configs.load(sources)
    sources = configs.counted(sources)
    profiles = config["profile"]
    chain = configs.chain_of(profiles, name)
    told = []
    for key in keys:
        is_default = key == "default-filter"
        found = []
        for profile, where, rule in rules_of(chain, sources):
            holds = holds_for(rule, "target" if is_default else binary, host, target) and (is_default or rule.get("filter", "all()") in ("all()", test))
            if holds and (value := at(configs.RULE(rule, []), key, mode)) is not None:
                found.append((value, f"profile.{profile}.default-filter (override)" if is_default else where))
        for place, it in enumerate(chain):
            if (value := at(profiles[it], key, mode)) is not None:
                found.append((value, f"profile.{it}.default-filter" if is_default else f"profile {place}"))
        value, where = [*found, (ONLY_RULES.get(key), "default")][0]
        told.append(f"{key} = {elements.shown(value)} from {where}")
    return "; ".join(told)


def script_answer(name, mode, binary, host, target, test, keys, sources):
    """What the scripts of a test are."""
    config = configs.load(sources, FEATURES)
    chain = configs.chain_of(config["profile"], name)
    rules = [(where, configs.SCRIPT_RULE(rule, [])) for _, where, rule in rules_of(chain, configs.counted(sources), "scripts", "script rule")]
    rules = [(where, rule) for where, rule in rules if holds_for(rule, binary, host, target)]
    on_test = [(where, rule) for where, rule in rules if rule.get("filter", "all()") in ("all()", test)]
    on_binary = [(where, rule) for where, rule in rules if rule.get("filter", "all()") == "all()"]
    setups = {it for _, rule in on_test for it in rule.get("setup", [])}
    told = {
        "run-wrapper": "{} from {}".format(*wrapper(config, on_test, "run-wrapper")),
        "list-wrapper": wrapper(config, on_binary, "list-wrapper")[0],
        "setup-scripts": ",".join(configs.in_order(setups)) or "-",
    }
    return "; ".join(f"{key} = {told[key]}" for key in keys)


def wrapper(config, rules, key):
    """The wrapper script that the first of these rules names which names one under a key, and where the rule stands."""
    found = [(configs.wrapper_told(dict(config["scripts"]["wrapper"])[rule[key]]), where) for where, rule in rules if key in rule]
    return [*found, ("None", "default")][0]


def rows_by_hand():
    """A rule that sets no retries leaves them to the next one that holds; and a fail weight of a rule comes before that of the profile."""
    text = """profile.default.overrides = [{ filter = "all()", priority = 5 }, { filter = "a", retries = 2 }]"""
    for test in ("a", "b"):
        yield "default", "test", "target", [], None, test, ["priority", "retries"], [("explicit", "nextest.toml", "text " + text)]
    text = """profile.default = { fail-weight = 2, overrides = [{ filter = "all()", retries = 1 }, { filter = "a", fail-weight = 3 }] }"""
    for test in ("a", "b"):
        yield "default", "test", "target", [], None, test, ["fail-weight"], [("explicit", "nextest.toml", "text " + text)]


def rows():
    draw = random.Random(SEED)
    for _ in range(DRAWN):
        groups = "test-groups.g.max-threads = 1\ntest-groups.h.max-threads = 2"
        yield drawn_row(draw, groups, lambda names: file(draw, names, draw.choice([1, 2, 4])), lambda: draw.sample(KEYS, 5))


def script_rows():
    draw = random.Random(SCRIPTS_SEED)
    for _ in range(WITH_SCRIPTS):
        yield drawn_row(draw, DEFINED, lambda names: script_file(draw, names), lambda: SCRIPT_KEYS)


def drawn_row(draw, defined, drawn_file, keys):
    """What a row has: files, of which the repository's defines something that may be named in every file."""
    names = draw.choice([["default"], ["x", "default"], ["x", "y", "default"], ["x", "y", "z", "default"]])
    files = [drawn_file(names) for _ in range(draw.randrange(1, 4))]
    for name, parent in zip(names[:-1], names[1:]):
        if parent != "default":
            files[0].setdefault(name, {})["inherits"] = parent
        else:
            files[0].setdefault(name, {})
    texts = ["\n".join(f"profile.{name} = {toml(it)}" for name, it in profiles.items()) for profiles in files]
    sources = [("tool", f"t{place}.toml", "text " + text) for place, text in enumerate(texts[:-1])][::-1]
    sources.append(("explicit", "r.toml", "text " + "\n".join(it for it in (texts[-1], defined) if it)))
    host = draw.choice([[], [], ["p"], ["q"], ["p", "q"]])
    target = draw.choice([None, [], ["p"], ["q"]])
    mode, binary, test = draw.choice(["test", "test", "benchmark"]), draw.choice(["host", "target", "target"]), draw.choice([*TESTS, "d"])
    return names[0], mode, binary, host, target, test, keys(), sources


def shown_names(names):
    return "none" if names is None else ",".join(names) or "-"


def line(given, result):
    name, mode, binary, host, target, test, keys, sources = given
    told = " | ".join(" ".join(source) for source in sources)
    return f"{name} {mode} {binary} {shown_names(host)} {shown_names(target)} {test} {','.join(keys)} | {told} => {result}".translate(SIGNS)


def main():
    told = [(given, answer(*given)) for given in [*rows_by_hand(), *rows()]] + [(given, script_answer(*given)) for given in script_rows()]
    assert {found for _, result in told for found in re.findall("from (override|script rule|profile|default)", result)} == {"override", "script rule", "profile", "default"}
    assert all(any(text in result for _, result in told) for text in ("list-wrapper = v", "list-wrapper = w", "list-wrapper = None", "setup-scripts = Z,s,t", "setup-scripts = -"))
    lines = [HEAD, *dict.fromkeys(line(given, result) for given, result in told)]
    (CRATE / "data/test_settings.txt").write_text("\n".join(lines) + "\n")
    numbers = {"test_settings": len(lines) - 1}
    elements.tell_numbers(numbers)
    print(numbers)


if __name__ == "__main__":
    main()
