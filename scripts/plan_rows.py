#!/usr/bin/env python3
"""Writes the end of the table `plans` of the program `worked_rows`, behind the line `MARK`: refusals of inputs that have two faults, and plans of
inputs with overrides, groups and platforms, and of inputs with scripts. What is before that line was written by hand.

    python3 scripts/plan_rows.py

It knows nothing of the program: what inputs come to is reckoned by scripts/plan_rules.py. `drawn` draws inputs from one seed; scripts/run_rows.py puts
others of them into `profiles_plans`. Each of the wrong rules of `WRONG` comes to something else on at least `EACH` of the drawn rows of either table,
and so does each of `WRONG_SCRIPTS` on those with scripts, but for those of `WRONG_WRAPPERS`, which only `profiles_plans` tells apart.
"""
import contextlib
import itertools
import json
import random
import re
import sys

sys.dont_write_bytecode = True
import element_rows as elements
import plan_rules as plans
from config_rows import bare
from element_rows import CRATE, SIGNS, toml

SEED, DRAWN, EACH = 47, 40, 3
SCRIPTS_SEED, SCRIPTS_DRAWN = 53, 30
MARK = "# Made by scripts/plan_rows.py, as all rows below this line."

# ---- inputs as changes of plan.json


def shown(value):
    return json.dumps(value, ensure_ascii=False, separators=(",", ":"))


def source(text, kind="explicit", path=None):
    path = path or {"explicit": "nextest.toml", "discovered": ".config/nextest.toml", "tool": "t.toml"}[kind]
    form = {"missing": True} if text is None else {"failed": "denied"} if text == "FAILED" else {"text": text}
    return {"kind": kind, **({"tool": path.split(".")[0]} if kind == "tool" else {}), "path": path, **form}


def with_fields(**fields):
    """The changes that give inputs other fields."""
    more = "".join(f',"{name}":{shown(value)}' for name, value in fields.items())
    return ['"0.9.100"', f'"0.9.100"{more}'] if more else []


def with_sources(sources, **fields):
    """The changes that give inputs their sources and other fields."""
    return ['"sources":[]', f'"sources":{shown(sources)}', *with_fields(**fields)]


def changed(text, changes):
    """The text with the first place of each part put into its other form."""
    for part, other in zip(changes[::2], changes[1::2]):
        assert part in text, part
        text = text.replace(part, other, 1)
    return text


def facts(triple="", **known):
    return {"triple": triple, "facts": [[name, holds] for name, holds in known.items()]}


# ---- drawn inputs

# Beside the binary `p` of the package `p`, which is a library for the target.
BINARIES = [
    ("p::it", "it", "p", "test", "target"), ("a-tool", "tool", "p", "bin", "host"), ("q", "q", "q-1", "lib", "target"),
    ("q::macros", "macros", "q-1", "proc-macro", "host"), ("Q", "fast", "q-1", "bench", "target"),
]
TESTS = ["a", "b", "slow_a", "io::read", "io::write", "Z", "größe"]
NAMES = [("test(a)", 4), ("test(=slow_a)", 1), ("test(/^io::/)", 2), ("test(#*e)", 1), ("kind(lib)", 1), ("kind(/^(bin|proc)/)", 1), ("platform(host)", 2),
         ("platform(target)", 1), ("package(=p)", 1), ("rdeps(q)", 1), ("deps(=p)", 1), ("binary_id(#*::*)", 1), ("binary(~t)", 1), ("all()", 2)]
DEFAULTS = ["test(a)", "not test(~slow)", "platform(target)", "kind(lib) or test(io)", "not package(q)", "test(/^[a-z]/)", "all()"]
SPECS = [
    "cfg(unix)", "cfg(unix)", "cfg(windows)", "cfg(not(windows))", "cfg(all(unix, not(test)))", "cfg(any(windows, foo))", 'cfg(target_os = "linux")',
    'cfg(not(target_os = "linux"))', "x86_64-unknown-linux-gnu", "wasm32-wasi", "cfg(all())",
]
FILTERSETS = ["group(=g)", "not group(g)", "group(@global)", "group(#[gh])", "group(/tool:/) or test(b)", "default() and not group(h)", "default() - test(b)", "test(a) or group(h)",
              "group(*) & package(p)", "not default()"]
SETTINGS = {
    "priority": [-100, -1, 0, 5, 5, 100], "retries": [0, 1, 2, 3, {"backoff": "fixed", "count": 4, "delay": "1s"}], "flaky-result": ["pass", "fail"],
    "success-output": ["final", "immediate"], "failure-output": ["never", "immediate-final"], "test-group": ["g", "g", "h", "@global", "@tool:t:slow"],
    "threads-required": [2], "run-extra-args": [["--a"]],
}
OF_PROFILES = {
    **{key: SETTINGS[key] for key in ("retries", "flaky-result", "success-output", "failure-output")}, "fail-fast": [False, {"max-fail": 2}],
    "status-level": ["fail", "all"], "default-filter": DEFAULTS,
}
TRIPLES = ["", "x86_64-unknown-linux-gnu", "wasm32-wasi"]


def chosen(draw, keys, most):
    """Some keys, each with one of its values."""
    return {key: draw.choice(keys[key]) for key in draw.sample(list(keys), draw.randrange(most + 1))}


def drawn_filter(draw):
    name = lambda: draw.choices([it for it, _ in NAMES], [weight for _, weight in NAMES])[0]
    return draw.choice([name(), name(), name(), "default()", "not default()", f"default() and {name()}", f"{name()} - {name()}", f"{name()} or {name()}"])


def drawn_override(draw):
    it, spec = {}, lambda: draw.choice(SPECS)
    kind = draw.choice(["filter", "filter", "both", "platform", "default"])
    if kind != "filter":
        it["platform"] = draw.choice([spec(), {"host": spec()}, {"target": spec()}, {"host": spec(), "target": spec()}])
    if kind in ("filter", "both"):
        it["filter"] = drawn_filter(draw)
    if kind == "default":
        it["default-filter"] = draw.choice(DEFAULTS)
    return {**it, **(chosen(draw, SETTINGS, 3) or {"retries": draw.choice(SETTINGS["retries"])})}


def drawn_file(draw, chain, groups):
    """The text of a file: what it sets in the profiles of a chain and in another profile, and groups."""
    text = "".join(f"[test-groups.{bare(group)}]\nmax-threads = {draw.randrange(1, 9)}\n" for group in groups)
    for name in [*chain, "other"]:
        if draw.random() < 0.3:
            continue
        text += f"[profile.{name}]\n" + "".join(f"{key} = {toml(value)}\n" for key, value in chosen(draw, OF_PROFILES, 2).items())
        for _ in range(draw.choice([0, 1, 1, 2, 3])):
            text += f"[[profile.{name}.overrides]]\n" + "".join(f"{key} = {toml(value)}\n" for key, value in drawn_override(draw).items())
    return text


def drawn_platform(draw):
    known = [["unix", draw.random() < 0.5], ["windows", draw.random() < 0.5], ["test", True], ["target_os", "linux", draw.random() < 0.7], ["target_os", "windows", False]]
    return {"triple": draw.choice(TRIPLES), "facts": draw.sample(known, draw.randrange(len(known) + 1))}


def drawn_row(draw):
    """Changes of plan.json: two or three files, a chain of one to three profiles, some binaries, platforms, and a filterset or none."""
    chain = draw.choice([["default"], ["ci", "default"], ["ci", "default"], ["ci", "base", "default"]])
    tools = draw.choice(["t", "t", "tu", "tu"])
    texts = {tool: drawn_file(draw, chain, [f"@tool:{tool}:slow"]) for tool in tools}
    own = drawn_file(draw, chain, ["g", "h"])
    return drawn_changes(draw, chain, with_parents(own, chain), texts)


def with_parents(own, chain):
    """The repository's file, in which each profile of a chain is somewhere, and says what its parent is."""
    for name, parent in zip(chain[:-1], chain[1:]):
        line = f"[profile.{name}]\n" + (f'inherits = "{parent}"\n' if parent != "default" else "")
        own = own.replace(f"[profile.{name}]\n", line) if f"[profile.{name}]\n" in own else own + line
    return own


def drawn_changes(draw, chain, own, texts):
    """Changes that give inputs the first profile of a chain, the repository's file and those of tools, and drawn binaries, platforms and filterset."""
    binaries = draw.sample(BINARIES, draw.choice([1, 2, 2, 3]))
    others = [{"id": id, "name": name, "package": package, "kind": kind, "platform": platform, "tests": draw.sample(TESTS, draw.choice([1, 2, 3]))}
              for id, name, package, kind, platform in binaries]
    fields = {"profile": chain[0]} if chain[0] != "default" else {}
    if draw.random() < 0.75:
        fields["host"] = drawn_platform(draw)
    if draw.random() < 0.5:
        fields["target"] = drawn_platform(draw)
    if draw.random() < 0.6:
        fields["filterset"] = draw.choice(FILTERSETS)
    if draw.random() < 0.25:
        fields["ignore_default_filter"] = True
    sources = [source(own, draw.choice(["explicit", "discovered"])), *(source(text, "tool", f"{tool}.toml") for tool, text in texts.items())]
    draw.shuffle(sources)
    return [
        '["a","b"]', shown(draw.sample(TESTS, draw.choice([2, 3, 4]))), '{"id":"p","name":"p"}', '{"id":"p","name":"p"},{"id":"q-1","name":"q"}',
        '"links":[]', '"links":[["p","q-1"]]', '"binaries":[', f'"binaries":{shown(others)[:-1]},', *with_sources(sources, **fields),
    ]


# ---- drawn inputs with scripts

SETUPS, WRAPPERS = ["s", "t", "Z", "über"], ["w", "v"]
OF_TOOL = {"setup": "@tool:t:s", "wrapper": "@tool:t:w"}
COMMANDS = ["x", "y --z 'a b'", ["v", ""], {"command-line": "w 1", "relative-to": "target"}, {"command-line": ["u"], "env": {"B": "2", "A": ""}}]
RUNNERS = [{}, {}, {"target-runner": "ignore"}, {"target-runner": "within-wrapper"}, {"target-runner": "around-wrapper"}]


def drawn_scripts(draw, setups, wrappers):
    """The text that defines setup scripts and wrapper scripts of these names."""
    text = "".join(f"{bare(name)}.command = 'x'\n" for name in setups)
    told = "".join(f"{bare(name)} = {toml({'command': draw.choice(COMMANDS), **draw.choice(RUNNERS)})}\n" for name in wrappers)
    return f"[scripts.setup]\n{text}[scripts.wrapper]\n{told}"


def drawn_script_rule(draw):
    """A script rule that holds somewhere, or nowhere, and names some scripts, or none."""
    it, spec = {}, lambda: draw.choice(SPECS)
    kind = draw.choice(["filter", "filter", "both", "platform"])
    if kind != "filter":
        it["platform"] = draw.choice([spec(), {"host": spec()}, {"target": spec()}, {"host": spec(), "target": spec()}])
    if kind != "platform":
        it["filter"] = drawn_filter(draw)
    # a decomposed name is the composed one
    setups = draw.sample([*SETUPS, "u\u0308ber", OF_TOOL["setup"]], draw.choice([0, 1, 1, 2, 3]))
    if setups or draw.random() < 0.3:
        it["setup"] = setups[0] if len(setups) == 1 and draw.random() < 0.7 else setups
    if draw.random() < 0.5:
        it["run-wrapper"] = draw.choice([*WRAPPERS, OF_TOOL["wrapper"]])
    if draw.random() < 0.3 and not re.search(r"test\(|default\(", it.get("filter", "")):
        it["list-wrapper"] = draw.choice([*WRAPPERS, OF_TOOL["wrapper"]])
    return it


def drawn_script_file(draw, chain):
    """The text of the script rules of a file, in the profiles of a chain and in another one."""
    text = ""
    for name in [*chain, "other"]:
        for _ in range(draw.choice([0, 1, 1, 2, 3])):
            text += f"[[profile.{name}.scripts]]\n" + "".join(f"{key} = {toml(value)}\n" for key, value in drawn_script_rule(draw).items())
    return text


def drawn_script_row(draw):
    """Changes of plan.json: two files with scripts, a chain of one to three profiles, some binaries, platforms, and a filterset or none."""
    chain = draw.choice([["default"], ["ci", "default"], ["ci", "default"], ["ci", "base", "default"]])
    own = 'experimental = ["setup-scripts", "wrapper-scripts"]\n' + drawn_scripts(draw, SETUPS, WRAPPERS)
    own += "[test-groups]\ng.max-threads = 1\nh.max-threads = 1\n" + with_parents("", chain)
    of_tool = drawn_scripts(draw, [OF_TOOL["setup"]], [OF_TOOL["wrapper"]]) + drawn_script_file(draw, chain)
    if draw.random() < 0.6:
        own += f"[[profile.{chain[0]}.overrides]]\nplatform = 'cfg(all())'\ndefault-filter = {toml(draw.choice(DEFAULTS))}\n"
    return drawn_changes(draw, chain, own + drawn_script_file(draw, chain), {"t": of_tool})


# ---- wrong rules, to see that rows tell them from the right ones


class OtherProfile(plans.Profile):
    """A profile by another rule."""

    def __init__(self, *given):
        super().__init__(*given)
        self.choose()

    def choose(self):
        pass

    def first_default(self, holds):
        nearest = next(self.config.default_filters[it] for it in self.chain() if it in self.config.default_filters)
        self.default = next((rule.default for rule in self.rules if rule.default is not None and holds(rule)), nearest)

    def chain(self):
        return plans.configs.chain_of(self.config.merged["profile"], self.name)

    def in_order(self, place):
        """The overrides in the order of (profile of the chain, file from the highest, index) by a key of these."""
        found = [((a, b, c), rule) for a, it in enumerate(self.chain()) for b, of_file in enumerate(self.config.overrides[::-1])
                 for c, rule in enumerate(of_file.get(it, []))]
        self.rules = [rule for _, rule in sorted(found, key=lambda pair: place(*pair[0]))]


class LowestFileFirst(OtherProfile):
    choose = lambda self: self.in_order(lambda a, b, c: (a, -b, c))


class FilesBeforeTheChain(OtherProfile):
    choose = lambda self: self.in_order(lambda a, b, c: (b, a, c))


class LastIndexFirst(OtherProfile):
    choose = lambda self: self.in_order(lambda a, b, c: (a, b, -c))


class DefaultProfileFirst(OtherProfile):
    choose = lambda self: self.in_order(lambda a, b, c: (-a, b, c))


class ChosenProfileAlone(OtherProfile):
    def choose(self):
        chain = self.chain()
        self.in_order(lambda a, b, c: (a, b, c))
        own = [rule for of_file in self.config.overrides[::-1] for rule in of_file.get(chain[0], [])]
        self.rules = [rule for rule in self.rules if any(rule is it for it in own)]


class OfEveryProfile(OtherProfile):
    def choose(self):
        self.rules = self.rules + [rule for of_file in self.config.overrides[::-1] for rule in of_file.get("other", [])]


class NoDefaultOfOverrides(OtherProfile):
    choose = lambda self: self.first_default(lambda rule: False)


class DefaultWhateverThePlatforms(OtherProfile):
    choose = lambda self: self.first_default(lambda rule: True)


class DefaultByTheHostAlone(OtherProfile):
    choose = lambda self: self.first_default(lambda rule: self.fits(rule, self.host))


class UnknownIsFalse(OtherProfile):
    def fits(self, rule, built):
        return all(tree is None or plans.spec_values(tree, it) == {True} for tree, it in ((rule.host, self.host), (rule.target, built)))


class PlatformsDontCount(OtherProfile):
    fits = lambda self, rule, built: True


class HostSpecOfTheTarget(OtherProfile):
    fits = lambda self, rule, built: plans.may_hold(rule.host, built) and plans.may_hold(rule.target, built)


class TargetSpecOfTheHost(OtherProfile):
    fits = lambda self, rule, built: plans.may_hold(rule.host, self.host) and plans.may_hold(rule.target, self.host)


class TargetForEachBinary(OtherProfile):
    fits = lambda self, rule, built: super().fits(rule, self.target)


class FiltersDontCount(OtherProfile):
    def choose(self):
        self.rules = [rule._replace(filter=None) for rule in self.rules]


class FirstThatHoldsAlone(OtherProfile):
    """A setting is that of the first override that holds, whatever it sets."""

    def settings(self, filtering, binary, test):
        kept, self.rules = self.rules, self.holding(self.rules, filtering, binary, test)[:1]
        found = super().settings(filtering, binary, test)
        self.rules = kept
        return found


class LastThatHolds(OtherProfile):
    """The group is that of the last override that holds and sets it."""

    def settings(self, filtering, binary, test):
        found = super().settings(filtering, binary, test)
        kept, self.rules = self.rules, self.rules[::-1]
        group = super().settings(filtering, binary, test).group
        self.rules = kept
        return found._replace(group=group)


class EachInGlobal(OtherProfile):
    def settings(self, filtering, binary, test):
        return super().settings(filtering, binary, test)._replace(group="@global")


class NoPriority(OtherProfile):
    def settings(self, filtering, binary, test):
        return super().settings(filtering, binary, test)._replace(priority=0)


class LessPriorityFirst(OtherProfile):
    def settings(self, filtering, binary, test):
        found = super().settings(filtering, binary, test)
        return found._replace(priority=-found.priority)


class DefaultIsEverything(OtherProfile):
    """In filters of overrides `default()` is everything."""

    def settings(self, filtering, binary, test):
        return super().settings(filtering._replace(default=plans.filtersets.Leaf("all", "")), binary, test)


WRONG = [it for it in OtherProfile.__subclasses__()]


class OtherScripts(plans.Profile):
    """A profile whose scripts are planned by another rule."""

    def __init__(self, *given):
        super().__init__(*given)
        self.selected = []
        self.choose()

    def choose(self):
        pass

    def chain(self):
        return plans.configs.chain_of(self.config.merged["profile"], self.name)

    def in_place(self, place):
        """The script rules in the order of (profile of the chain, file from the highest, index) by a key of these."""
        found = [((a, b, c), rule) for a, it in enumerate(self.chain()) for b, of_file in enumerate(self.config.script_rules[::-1])
                 for c, rule in enumerate(of_file.get(it, []))]
        self.script_rules = [rule for _, rule in sorted(found, key=lambda pair: place(*pair[0]))]


class ScriptsOfTheChosenProfile(OtherScripts):
    def choose(self):
        self.script_rules = [rule for of_file in self.config.script_rules[::-1] for rule in of_file.get(self.chain()[0], [])]


class ScriptsOfEveryProfile(OtherScripts):
    def choose(self):
        self.script_rules = self.script_rules + [rule for of_file in self.config.script_rules[::-1] for rule in of_file.get("other", [])]


class ScriptsOfTheHighestFile(OtherScripts):
    def choose(self):
        self.script_rules = [rule for it in self.chain() for rule in self.config.script_rules[-1].get(it, [])]


class ScriptsWhateverThePlatforms(OtherScripts):
    fits = lambda self, rule, built: True


class ScriptsOfKnownPlatforms(OtherScripts):
    def fits(self, rule, built):
        return all(tree is None or plans.spec_values(tree, it) == {True} for tree, it in ((rule.host, self.host), (rule.target, built)))


class ScriptsByTheHostAlone(OtherScripts):
    fits = lambda self, rule, built: plans.may_hold(rule.host, self.host) and plans.may_hold(rule.target, self.host)


class ScriptsByTheTargetAlone(OtherScripts):
    fits = lambda self, rule, built: super().fits(rule, self.target)


class ScriptsWhateverTheFilters(OtherScripts):
    def choose(self):
        self.script_rules = [rule._replace(filter=None) for rule in self.script_rules]


class ScriptsOfTheFirstThatHolds(OtherScripts):
    def setup_scripts(self, filtering, binary, test):
        rules = self.holding(self.script_rules, filtering, binary, test)
        return {name for rule in rules[:1] for name in rule.values.get("setup", [])}


class ScriptsOfTheFirstThatNamesSome(OtherScripts):
    def setup_scripts(self, filtering, binary, test):
        rules = self.holding(self.script_rules, filtering, binary, test)
        return {*next((rule.values["setup"] for rule in rules if "setup" in rule.values), [])}


class EachNamedScript(OtherScripts):
    def setup_scripts(self, filtering, binary, test):
        return {name for rule in self.script_rules for name in rule.values.get("setup", [])}


class EachDefinedScript(OtherScripts):
    def setup_scripts(self, filtering, binary, test):
        return {name for name, _ in self.config.merged["scripts"]["setup"]}


class ScriptsOfSkippedTests(OtherScripts):
    """Tests that were listed before, selected or not, have scripts planned."""

    def settings(self, filtering, binary, test):
        self.selected.append((filtering, binary, test))
        return super().settings(filtering, binary, test)

    def setup_scripts(self, filtering, binary, test):
        return {name for it in self.selected for name in super(ScriptsOfSkippedTests, self).setup_scripts(*it)}


class EverythingIsDefault(OtherScripts):
    """In filters of script rules `default()` is everything."""

    def holding(self, rules, filtering, binary, test):
        return super().holding(rules, filtering._replace(default=plans.filtersets.Leaf("all", "")), binary, test)


class ScriptsInAnyCase(OtherScripts):
    script_order = lambda self, scripts: sorted(super().script_order(scripts), key=str.lower)


class LastScriptFirst(OtherScripts):
    script_order = lambda self, scripts: super().script_order(scripts)[::-1]


class WrapperOfTheLowestFile(OtherScripts):
    choose = lambda self: self.in_place(lambda a, b, c: (a, -b, c))


class WrapperOfTheHighestFile(OtherScripts):
    choose = lambda self: self.in_place(lambda a, b, c: (b, a, c))


class WrapperOfTheLastIndex(OtherScripts):
    choose = lambda self: self.in_place(lambda a, b, c: (a, b, -c))


class WrapperOfTheDefaultProfile(OtherScripts):
    choose = lambda self: self.in_place(lambda a, b, c: (-a, b, c))


class WrapperOfTheFirstThatHolds(OtherScripts):
    def run_wrapper(self, filtering, binary, test):
        name = next((rule.values.get("run-wrapper") for rule in self.holding(self.script_rules, filtering, binary, test)), None)
        return None if name is None else self.config.wrapper(name)


class WrapperOfLists(OtherScripts):
    """A test has the wrapper script by which its binary is listed."""

    def run_wrapper(self, filtering, binary, test):
        rules = self.holding(self.script_rules, filtering, binary, test)
        name = next((rule.values["list-wrapper"] for rule in rules if "list-wrapper" in rule.values), None)
        return None if name is None else self.config.wrapper(name)


WRONG_SCRIPTS = [it for it in OtherScripts.__subclasses__()]
WRONG_WRAPPERS = [it for it in WRONG_SCRIPTS if it.__name__.startswith("Wrapper")]


@contextlib.contextmanager
def by_rule(profile):
    right, plans.Profile = plans.Profile, profile
    try:
        yield
    finally:
        plans.Profile = right


def drawn(seed, answer, plan):
    """Drawn changes, each with its answer by a form of answers."""
    return drawn_by(random.Random(seed), answer, plan, (drawn_row, DRAWN, WRONG))


def drawn_with_scripts(seed, answer, plan, wrongs):
    """The same of inputs with scripts, which tell these wrong rules apart."""
    return drawn_by(random.Random(seed), answer, plan, (drawn_script_row, SCRIPTS_DRAWN, wrongs))


def drawn_by(draw, answer, plan, kind):
    row, number, wrongs = kind
    found, told = {}, dict.fromkeys(wrongs, 0)
    while len(found) < number or min(told.values()) < EACH:
        changes = row(draw)
        inputs = json.loads(changed(plan, changes))
        right = answer(inputs)
        others = [wrong for wrong in wrongs if comes_to(wrong, inputs, answer) != right]
        # left out are rows that tell few wrong rules apart, but for those that are told apart rarely; and most that are refused
        is_rare = any(told[wrong] < EACH for wrong in others)
        if tuple(changes) not in found and (is_rare or len(found) < number and len(others) >= draw.choice([0, 4, 6, 6])):
            found[tuple(changes)] = right
            for wrong in others:
                told[wrong] += 1
    return found.items()


def comes_to(wrong, inputs, answer):
    """What inputs come to by a wrong rule."""
    with by_rule(wrong):
        return answer(inputs)


# ---- inputs with two faults

TWICE = [["unix", True], ["windows", False], ["unix", True]]
BOTH = [["target_os", "linux", True], ["target_os", "linux", False]]
OVERRIDE = "[[profile.default.overrides]]\n"
# In the order in which they are told: the name under which inputs are refused, where the fault stands (the file, the tests of the binary, or other fields),
# and what stands there. A script is no fault, so what is told is the other one's.
FAULTS = [
    ("Load.BadName", "file", '[test-groups."@tool:t:g"]\nmax-threads = 1\n'),
    ("Load.NoConstraint", "file", f"{OVERRIDE}retries = 1\n"),
    ("Load.FilterAndDefaultFilter", "file", f'{OVERRIDE}filter = "all()"\ndefault-filter = "all()"\n'),
    ("Load.BadSpec", "file", f'{OVERRIDE}platform = "cfg(unix"\n'),
    ("Load.BadFilter", "file", f'{OVERRIDE}filter = "group(@global)"\n'),
    ("Load.UnknownGroup", "file", f'{OVERRIDE}filter = "all()"\ntest-group = "h"\n'),
    ("Load.Cycle", "file", '[profile.a]\ninherits = "a"\n'),
    (None, "file", "[experimental]\nsetup-scripts = true\n[scripts.setup.s]\ncommand = \"x\"\n"),
    ("ProfileNotFound", "fields", {"profile": "ci"}),
    ("RepeatedFact", "fields", {"host": {"triple": "", "facts": TWICE}}),
    ("RepeatedFact", "fields", {"target": {"triple": "", "facts": BOTH}}),
    ("Filterset", "fields", {"filterset": "group(g"}),
    ("ListFault", "tests", {"fault": "gone"}),
    ("RetriesTooMany", "file", f'{OVERRIDE}filter = "test(b)"\nretries = 4294967295\n'),
]


def faulty(*faults):
    texts = {kind: [it for _, place, it in faults if place == kind] for kind in ("file", "tests", "fields")}
    tests = ['["a","b"]', shown(texts["tests"][0])] if texts["tests"] else []
    return [*tests, *with_sources([source("".join(texts["file"]))], **{key: value for it in texts["fields"] for key, value in it.items()})]


def faulty_rows(plan):
    """Inputs with each two faults, each with its answer: that of the first in the list."""
    for one, other in itertools.combinations(FAULTS, 2):
        # of two faults of the load those of one file and of the profiles stand in a table of loads
        if all(name and name.startswith("Load.") for name, _, _ in (one, other)):
            continue
        changes = faulty(one, other)
        answer = plans.shown_selection(json.loads(changed(plan, changes)))
        assert answer.split(";")[0] == (one[0] or other[0]), (changes, answer)
        yield tuple(changes), answer


# ---- the file


def main():
    plan = (CRATE / "data/plan.json").read_text(encoding="utf-8")
    setups = [it for it in WRONG_SCRIPTS if it not in WRONG_WRAPPERS]
    scripts = drawn_with_scripts(SCRIPTS_SEED, plans.shown_selection, plan, setups)
    found = {**dict(faulty_rows(plan)), **dict(drawn(SEED, plans.shown_selection, plan)), **dict(scripts)}
    file = CRATE / "data/plans.txt"
    by_hand = file.read_text(encoding="utf-8").split(f"\n{MARK}\n")[0].rstrip("\n")
    lines = [f"{' => '.join(changes)} => {answer}".translate(SIGNS) for changes, answer in found.items()]
    text = "\n".join([by_hand, "", MARK, *lines]) + "\n"
    file.write_text(text, encoding="utf-8")
    elements.tell_numbers({"plans": sum(1 for line in text.split("\n") if line and not line.startswith("#"))})
    print(f"plans: {len(lines)} rows")


if __name__ == "__main__":
    main()
