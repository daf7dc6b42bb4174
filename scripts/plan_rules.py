"""The rules by which inputs have a plan or are refused, for the scripts that make rows of plans and of runs. It knows nothing of the program.

What may stand at the keys of files, how files merge and how profiles inherit is reckoned by scripts/config_rows.py, which versions are asked for by
scripts/version_rows.py, and what predicates of filtersets are on a binary by scripts/filterset_rows.py. Here are the rules above these:

- Inputs are refused for the first of these: a fault of the workspace, of versions and features, of the load; a profile that isn't there; a
  repeated fact, of the host before the target; a filterset that is none; as soon as a listed binary answered what is wrong with its tests; and a
  selected test whose retries can't be counted.
- Overrides stand in one order: by the chain of the profile (itself, its parents one after another, `default`), then by file from the highest, then
  by index. One holds on a test where its spec of the host may hold on the host, and its spec of the target on the platform that the test's binary
  is built for: the host of a binary of the host; else the target, which is the host where none is given; and where its filter, if it has one, holds
  on the test. A setting is that of the first that holds and sets it, else that of the nearest profile, else a priority of 0 and `@global`.
- The default filter is that of the first override that has one and whose specs may hold on the host and on the target, else that of the nearest
  profile. `default()` is this filter, in a filter of an override as in the filterset, also where it is left aside.
- The filter of a script rule with a `list-wrapper` asks for no `test(..)`, `group(..)` or `default()`.
- Script rules stand in one order as overrides do, and hold on a test by the same rule. A setup script is planned exactly if a script rule that
  names it under `setup` holds on a selected test; so none is where nothing is selected. Planned scripts run in the order of the bytes of their
  names in NFC, each once. The wrapper script of a test is the one that the first script rule names that holds on it and sets `run-wrapper`, else
  there is none; no report tells it.
- In force are the filterset, where one is given, and the default filter, unless it is left aside. A binary is listed where each of them can hold on
  it, by answers of its own to each place of `test(..)` and `group(..)`; a test is selected where all hold on it. `group(..)` is asked of the group
  that is the test's setting, and may name `@global` and the groups that all files define together.
- Selected tests stand by greater priority, then by the bytes of the binary's id, then of the name. The others stay as they were listed.
"""
import functools
import json
import re
import sys
import tomllib
from typing import NamedTuple, Optional

sys.dont_write_bytecode = True
import config_rows as configs
import element_rows as elements
import filterset_rows as filtersets
import version_rows as versions
from config_rows import in_order, on_one_line

BLANK = " \t\r\n"
MOST_RETRIES = 2**32 - 1

# Texts are read again and again; what they come to is only looked at.
read_toml = functools.lru_cache(maxsize=64)(tomllib.loads)


class Refused(Exception):
    """Inputs without a plan, with the binaries that were asked for their tests by then; or a line that is refused."""

    def __init__(self, name, asked=()):
        super().__init__(name)
        self.asked = list(asked)


# ---- platform specs


class NoSpec(Exception):
    """A text that is no platform spec."""


TOKEN = re.compile(r'[ \t\r\n]*(?:([A-Za-z_][A-Za-z0-9_]*)|("[^"\\]*")|([(),=]))')


class Condition:
    """The condition of a spec, as it is read from the left."""

    def __init__(self, text):
        self.tokens, at = [], 0
        text = text.rstrip(BLANK)
        while at < len(text):
            found = TOKEN.match(text, at)
            if not found:
                raise NoSpec
            self.tokens.append(found[0].strip(BLANK) if not found[2] else found[2])
            at = found.end()

    def take(self, token):
        if self.tokens[:1] != [token]:
            return False
        del self.tokens[0]
        return True

    def need(self, token):
        if not self.take(token):
            raise NoSpec

    def name(self):
        if not self.tokens or not re.match("[A-Za-z_]", self.tokens[0]):
            raise NoSpec
        return self.tokens.pop(0)

    def tree(self):
        name = self.name()
        if name == "not" and self.take("("):
            of = [self.tree()]
            self.need(")")
            return name, of
        if name in ("all", "any") and self.take("("):
            of = []
            while not self.take(")"):
                of.append(self.tree())
                if not self.take(","):
                    self.need(")")
                    break
            return name, of
        if not self.take("="):
            return "fact", (name, None)
        if not self.tokens or not self.tokens[0].startswith('"'):
            raise NoSpec
        return "fact", (name, self.tokens.pop(0)[1:-1])


def spec_of(text):
    """What a platform spec says: a triple, or facts that are joined."""
    text = text.strip(BLANK)
    if re.fullmatch("[A-Za-z0-9_.-]+", text):
        return "triple", text
    form = re.fullmatch(r"cfg[ \t\r\n]*\((.*)\)", text, re.DOTALL)
    if not form:
        raise NoSpec
    condition = Condition(form[1])
    tree = condition.tree()
    if condition.tokens:
        raise NoSpec
    return tree


class Platform(NamedTuple):
    triple: str
    facts: dict


def platform_of(record):
    """A platform of inputs; by default nothing is known of it."""
    facts = {}
    for name, *value, holds in (record or {}).get("facts", []):
        key = name, value[0] if value else None
        if key in facts:
            raise Refused("RepeatedFact")
        facts[key] = holds
    return Platform((record or {}).get("triple", ""), facts)


def spec_values(tree, platform):
    """What a spec can be on a platform, where each place of an unknown fact may be either."""
    kind, of = tree
    if kind == "triple":
        return {of == platform.triple}
    if kind == "fact":
        return {platform.facts[of]} if of in platform.facts else {False, True}
    each = [spec_values(it, platform) for it in of]
    if kind == "not":
        return {not it for it in each[0]}
    # all items can be true together, as each place is by itself; and so can they be false
    one = kind == "any"
    return ({one} if any(one in it for it in each) else set()) | ({not one} if all((not one) in it for it in each) else set())


def may_hold(tree, platform):
    return tree is None or True in spec_values(tree, platform)


# ---- filtersets


class NoFilterset(Exception):
    """A text that is no filterset, or none here."""


ESCAPE = re.compile(r"\\(?:([nrtbf\\/),])|u\{([0-9A-Fa-f]{1,6})\})")
ESCAPED = {"n": "\n", "r": "\r", "t": "\t", "b": "\b", "f": "\f"}
OR = re.compile(r"or(?=[ \t\r\n(!])|\|(?!\|)|\+")
AND = re.compile(r"and(?=[ \t\r\n(!])|&(?!&)|-")
NOT = re.compile(r"not(?=[ \t\r\n(!])|!")


def class_pattern(glob, at):
    """The pattern of a class of a glob whose bracket stands before this place, and the place behind it."""
    is_other = glob[at : at + 1] in ("!", "^")
    at += is_other
    items, first = "", at
    while at < len(glob) and (glob[at] != "]" or at == first):
        if glob[at + 1 : at + 2] == "-" and glob[at + 2 : at + 3] not in ("]", ""):
            if glob[at] > glob[at + 2]:
                raise NoFilterset
            items += f"{re.escape(glob[at])}-{re.escape(glob[at + 2])}"
            at += 3
            if glob[at : at + 1] == "-":
                items, at = items + "\\-", at + 1
        else:
            items, at = items + re.escape(glob[at]), at + 1
    if at == len(glob):
        raise NoFilterset
    return f"[{'^' * is_other}{items}]", at + 1


def glob_pattern(glob):
    """A regular expression for the whole names that a glob matches."""
    pattern, at, depth = "", 0, 0
    while at < len(glob):
        one, at = glob[at], at + 1
        if one == "[":
            part, at = class_pattern(glob, at)
        elif one == "\\":
            if at == len(glob):
                raise NoFilterset
            part, at = re.escape(glob[at]), at + 1
        elif one == "}" and not depth:
            raise NoFilterset
        elif one in "{}":
            part, depth = ("(?:", depth + 1) if one == "{" else (")", depth - 1)
        else:
            part = {"?": ".", "*": ".*", ",": "|" if depth else ","}.get(one, re.escape(one))
        pattern += part
    if depth:
        raise NoFilterset
    return re.compile(pattern, re.DOTALL)


class Expression:
    """A filterset, as it is read from the left."""

    def __init__(self, text):
        self.text, self.at = text, 0

    def take(self, pattern):
        """What a pattern matches here, behind blanks, which is taken."""
        while self.text[self.at : self.at + 1] in tuple(BLANK):
            self.at += 1
        found = re.compile(pattern).match(self.text, self.at)
        self.at = found.end() if found else self.at
        return found

    def need(self, pattern):
        found = self.take(pattern)
        if not found:
            raise NoFilterset
        return found

    def whole(self):
        formula = self.either()
        self.need(r"\Z")
        return formula

    def either(self):
        formula = self.both()
        while self.take(OR):
            formula = "or", formula, self.both()
        return formula

    def both(self):
        formula = self.operand()
        while sign := self.take(AND):
            other = self.operand()
            formula = "and", formula, ("not", other) if sign[0] == "-" else other
        return formula

    def operand(self):
        if self.take(NOT):
            return "not", self.operand()
        if self.take(r"\("):
            formula = self.either()
            self.need(r"\)")
            return formula
        name = self.need("[A-Za-z0-9_]+")[0]
        if name not in (*filtersets.BARE, *filtersets.UNMATCHED):
            raise NoFilterset
        self.need(r"\(")
        leaf = self.leaf(name)
        self.need(r"\)")
        return leaf

    def leaf(self, name):
        if name == "platform":
            platform = self.words()
            if platform not in ("host", "target"):
                raise NoFilterset
            return filtersets.Leaf(name, "", platform=platform)
        if name in filtersets.UNMATCHED:
            return filtersets.Leaf(name, "")
        if self.take("/"):
            pattern = re.compile(r"(.*?)(?<!\\)/|/", re.DOTALL).match(self.text, self.at)
            if not pattern:
                raise NoFilterset
            self.at = pattern.end()
            try:
                found = re.compile((pattern[1] or "").replace("\\/", "/"))
            except re.error:
                raise NoFilterset from None
            return filtersets.Leaf(name, "", lambda it: found.search(it) is not None)
        sign = self.take("[=~#]")
        kind = sign[0] if sign else filtersets.BARE[name]
        text = self.words()
        if kind == "#":
            pattern = glob_pattern(text)
            return filtersets.Leaf(name, "", lambda it: pattern.fullmatch(it) is not None)
        return filtersets.Leaf(name, "", (lambda it: it == text) if kind == "=" else (lambda it: text in it))

    def words(self):
        """A text up to where it ends, without the blanks around it."""
        self.take("")
        text, kept = "", 0
        while self.at < len(self.text) and self.text[self.at] not in "),":
            if self.text[self.at] == "\\":
                found = ESCAPE.match(self.text, self.at)
                number = int(found[2], 16) if found and found[2] else 0
                if not found or number > 0x10FFFF or 0xD800 <= number < 0xE000:
                    raise NoFilterset
                text += chr(number) if found[2] else ESCAPED.get(found[1], found[1])
                self.at, kept = found.end(), len(text)
            else:
                text, self.at = text + self.text[self.at], self.at + 1
                kept = len(text) if text[-1] not in BLANK else kept
        if not kept:
            raise NoFilterset
        return text[:kept]


def leaves_of(formula):
    if isinstance(formula, filtersets.Leaf):
        return [formula]
    return [leaf for part in formula[1:] for leaf in leaves_of(part)]


def filter_of(text, workspace, purpose, groups):
    """The formula of a filterset that a workspace accepts for a purpose, where these groups are known, or none is said of them."""
    formula = Expression(text).whole()
    for leaf in leaves_of(formula):
        if (purpose, leaf.name) in filtersets.BANS or filtersets.is_nothing(leaf, workspace, groups):
            raise NoFilterset
    return formula


def filter_values(formula, answers):
    """What a filter can be, where each predicate, each place by itself, can be what is answered."""
    if isinstance(formula, filtersets.Leaf):
        return answers(formula)
    sign, *parts = formula
    each = [filter_values(part, answers) for part in parts]
    if sign == "not":
        return {not it for it in each[0]}
    one, other = each
    return {(a or b) if sign == "or" else (a and b) for a in one for b in other}


class Filtering(NamedTuple):
    """What filters are asked of: a workspace, and which filter `default()` is."""

    workspace: filtersets.Workspace
    default: object

    def can_hold(self, formula, binary):
        """Whether a filter holds on a binary for some answers to what it asks of tests."""

        def answers(leaf):
            if leaf.name in ("test", "group"):
                return {False, True}
            return filter_values(self.default, answers) if leaf.name == "default" else {filtersets.known(leaf, self.workspace, binary)}

        return True in filter_values(formula, answers)

    def holds(self, formula, binary, test, group):
        """Whether a filter holds on a test, of whose group nothing is asked where none is given."""

        def answers(leaf):
            if leaf.name == "default":
                return filter_values(self.default, answers)
            if leaf.name in ("test", "group"):
                return {leaf.matches({"test": test, "group": group}[leaf.name])}
            return {filtersets.known(leaf, self.workspace, binary)}

        return filter_values(formula, answers) == {True}


# ---- the load


class Override(NamedTuple):
    """An override of a file: what it sets, its specs and its filters."""

    values: dict
    host: Optional[tuple]
    target: Optional[tuple]
    filter: object
    default: object


class Config(NamedTuple):
    """What sources come to: the settings of profiles, the rules of each file by its profiles, the lowest file first, and groups."""

    merged: dict
    default_filters: dict
    overrides: list
    script_rules: list
    groups: list

    def wrapper(self, name):
        """The wrapper script of a name."""
        return dict(self.merged["scripts"]["wrapper"])[name]


def counted(sources):
    """The sources that count, the lowest first."""
    tools = [source for source in sources if source["kind"] == "tool"]
    repository = [it for kind in ("explicit", "discovered") for it in sources if it["kind"] == kind]
    return tools[::-1] + repository[:1]


def override_of(rule, workspace):
    """An override; or what is read of a script rule, which has no default filter."""
    platforms = rule.get("platform", {})
    if not platforms and "filter" not in rule:
        raise Refused("Load.NoConstraint")
    if "filter" in rule and "default-filter" in rule:
        raise Refused("Load.FilterAndDefaultFilter")
    try:
        host, target = (spec_of(platforms[side]) if side in platforms else None for side in ("host", "target"))
    except NoSpec:
        raise Refused("Load.BadSpec") from None
    purposes = {"filter": "override-filter", "default-filter": "default-filter"}
    try:
        filters = [filter_of(rule[key], workspace, purpose, None) if key in rule else None for key, purpose in purposes.items()]
    except NoFilterset:
        raise Refused("Load.BadFilter") from None
    return Override(rule, host, target, *filters)


def script_rule_of(rule, workspace):
    it = override_of(rule, workspace)
    if "list-wrapper" in rule and it.filter and {"test", "group", "default"} & {leaf.name for leaf in leaves_of(it.filter)}:
        raise Refused("Load.ListWrapperRunFilter")
    return it


class Rules(NamedTuple):
    """The rules of a profile in a file."""

    overrides: list
    scripts: list


def rules_of(profile, workspace):
    overrides = [override_of(rule, workspace) for rule in profile.get("overrides", [])]
    return Rules(overrides, [script_rule_of(rule, workspace) for rule in profile.get("scripts", [])])


def file_of(source, workspace, features):
    """What a file has, and its rules by profiles."""
    if source.get("missing") and source["kind"] == "discovered":
        return {}, {}
    if "text" not in source:
        raise Refused("Load.Unread")
    members = read_toml(source["text"])
    try:
        file = configs.FILE(members, [])
    except configs.Bad:
        raise Refused("Load.BadValue") from None
    owner = elements.identifier(source["tool"])[0] if source["kind"] == "tool" else None
    try:
        configs.check_defined(owner, source["path"], file, features)
    except configs.Refusal as refusal:
        raise Refused(f"Load.{str(refusal).split(' ')[0]}") from None
    profiles = file.get("profile", {})
    return members, {name: rules_of(profiles[name], workspace) for name in in_order(profiles)}


def custom_group(rule):
    """The group that an override names and that has to be defined."""
    group = rule.values.get("test-group", "Global")
    return None if group == "Global" else json.loads(group.removeprefix("Custom(").removesuffix(")"))


def check_named(merged, rules):
    """That each group and script that a rule names is defined."""
    if not {custom_group(rule) for it in rules for rule in it.overrides} <= {None, *merged.get("test-groups", {})}:
        raise Refused("Load.UnknownGroup")
    scripts = merged.get("scripts", {})
    values = [rule.values for it in rules for rule in it.scripts]
    if not {name for it in values for name in it.get("setup", [])} <= {*dict(scripts.get("setup", []))}:
        raise Refused("Load.UnknownScript")
    if not {it[key] for it in values for key in ("list-wrapper", "run-wrapper") if key in it} <= {*dict(scripts.get("wrapper", []))}:
        raise Refused("Load.UnknownWrapper")


def load(sources, workspace, features=()):
    tree, rules = read_toml(configs.BUILT_IN), []
    for source in sources:
        members, of_file = file_of(source, workspace, features)
        tree = configs.over(configs.moved(members), tree)
        rules.append(of_file)
    try:
        merged = configs.MERGED(tree, [])
    except configs.Bad:
        raise Refused("Load.BadValue") from None
    check_named(merged, [of_profile for of_file in rules for of_profile in of_file.values()])
    try:
        configs.accepted(merged["profile"])
    except configs.Refusal as refusal:
        raise Refused(f"Load.{str(refusal).split(' ')[0]}") from None
    try:
        texts = {name: it["default-filter"] for name, it in merged["profile"].items() if "default-filter" in it}
        default_filters = {name: filter_of(text, workspace, "default-filter", None) for name, text in texts.items()}
    except NoFilterset:
        raise Refused("Load.BadFilter") from None
    overrides = [{name: it.overrides for name, it in of_file.items()} for of_file in rules]
    script_rules = [{name: it.scripts for name, it in of_file.items()} for of_file in rules]
    return Config(merged, default_filters, overrides, script_rules, list(merged.get("test-groups", {})))


def versions_told(sources, inputs):
    """The warnings of versions, and the features that are asked for."""
    greatest, names = [None, None], []
    for source in sources:
        if "text" not in source:
            continue
        try:
            file = read_toml(source["text"])
            asked, names_here = versions.asked(file.get("nextest-version")), versions.features(file.get("experimental"))
        except (tomllib.TOMLDecodeError, versions.Bad):
            raise Refused("VersionSource") from None
        if source["kind"] == "tool" and names_here:
            raise Refused("VersionSource")
        names += names_here
        for role, version in enumerate(asked):
            if version is not None and (greatest[role] is None or versions.before(version, greatest[role][0]) >= 0):
                greatest[role] = version, source["path"]
    current, passes = inputs["current_version"], inputs.get("override_version_check", False)
    told = []
    for role, found in zip(("required", "recommended"), greatest):
        if found and versions.before(found[0], current) > 0:
            if role == "required" and not passes:
                raise Refused("VersionError")
            told = [f"version {role} {found[0]} current {current} by {on_one_line(found[1])}{' (overridden)' * passes}"]
            break
    if set(names) - versions.FEATURES:
        raise Refused("UnknownFeature")
    return told, names


# ---- settings


class Settings(NamedTuple):
    """What a test is run with, as far as rows show it."""

    priority: int
    tries: int
    group: str
    flaky_result: str
    success_output: str
    failure_output: str
    fail_weight: int


def number_of(shown):
    """The number in a setting as it is shown."""
    return int(re.search("-?[0-9]+", shown)[0])


class Profile:
    """The chosen profile on the platforms of inputs."""

    def __init__(self, config, name, host, target):
        self.config, self.name, self.host = config, name, host
        self.target = host if target is None else target
        chain = configs.chain_of(config.merged["profile"], name)
        self.rules = [rule for it in chain for of_file in config.overrides[::-1] for rule in of_file.get(it, [])]
        self.script_rules = [rule for it in chain for of_file in config.script_rules[::-1] for rule in of_file.get(it, [])]
        nearest = next(config.default_filters[it] for it in chain if it in config.default_filters)
        self.default = next((rule.default for rule in self.rules if rule.default is not None and self.fits(rule, self.target)), nearest)

    def setting(self, key):
        """What the profiles set."""
        return configs.setting(self.config.merged, self.name, key)

    def fits(self, rule, built):
        """Whether an override may hold for what is built for a platform."""
        return may_hold(rule.host, self.host) and may_hold(rule.target, built)

    def holding(self, rules, filtering, binary, test):
        """Those of some rules that hold on a test."""
        built = self.host if binary.platform == "host" else self.target
        return [it for it in rules if self.fits(it, built) and (it.filter is None or filtering.holds(it.filter, binary, test, None))]

    def setup_scripts(self, filtering, binary, test):
        """The names of the setup scripts that are planned where this test is selected."""
        return {name for rule in self.holding(self.script_rules, filtering, binary, test) for name in rule.values.get("setup", [])}

    def script_order(self, scripts):
        """Scripts in the order in which they run."""
        return in_order(scripts)

    def run_wrapper(self, filtering, binary, test):
        """The wrapper script of a test, or None."""
        rules = self.holding(self.script_rules, filtering, binary, test)
        name = next((rule.values["run-wrapper"] for rule in rules if "run-wrapper" in rule.values), None)
        return None if name is None else self.config.wrapper(name)

    def settings(self, filtering, binary, test):
        """The settings of a test."""
        rules = self.holding(self.rules, filtering, binary, test)

        def setting(key, otherwise):
            return next((elements.shown(rule.values[key]) for rule in rules if key in rule.values), otherwise)

        group = setting("test-group", "Global")
        return Settings(
            priority=number_of(setting("priority", "0")),
            tries=int(re.search("count: ([0-9]+)", setting("retries", self.setting("retries")))[1]) + 1,
            group="@global" if group == "Global" else json.loads(group.removeprefix("Custom(").removesuffix(")")),
            fail_weight=number_of(setting("fail-weight", self.setting("fail-weight"))),
            **{key.replace("-", "_"): setting(key, self.setting(key)) for key in ("flaky-result", "success-output", "failure-output")},
        )


# ---- plans


class PlanTest(NamedTuple):
    binary: str
    name: str
    settings: Settings
    run_wrapper: Optional[dict]


class Plan(NamedTuple):
    """What inputs come to."""

    warnings: list
    scripts: list
    tests: list
    skipped: list
    listed: list
    limit: str
    levels: tuple


def check_workspace(workspace):
    """The refusals of a workspace, each looked for in all of it before the next."""
    packages, binaries = ([it["id"] for it in workspace[key]] for key in ("packages", "binaries"))
    if len(set(packages)) < len(packages):
        raise Refused("RepeatedPackage")
    if not {end for link in workspace["links"] for end in link} <= set(packages):
        raise Refused("UnknownLink")
    if len(set(binaries)) < len(binaries):
        raise Refused("RepeatedBinary")
    if not {it["package"] for it in workspace["binaries"]} <= set(packages):
        raise Refused("UnknownPackage")
    if any(not id or re.search("[\t\n\r]", id) for id in binaries):
        raise Refused("BadId")


def workspace_of(record):
    packages = {it["id"]: it["name"] for it in record["packages"]}
    binaries = [filtersets.Binary(*(it[key] for key in filtersets.Binary._fields)) for it in record["binaries"]]
    return filtersets.Workspace(packages, [tuple(link) for link in record["links"]], binaries)


def check_names(tests, asked):
    """The refusals of what a binary lists."""
    if isinstance(tests, dict):
        raise Refused("ListFault", asked)
    for place, name in enumerate(tests):
        if not name:
            raise Refused("EmptyTestName", asked)
        if re.search("[\t\n\r]", name):
            raise Refused("BadTestName", asked)
        if name in tests[:place]:
            raise Refused("RepeatedTest", asked)


def plan_of(inputs):
    """The plan of inputs, whose form is right."""
    inputs = {key: value for key, value in inputs.items() if value is not None}
    record = inputs["workspace"]
    check_workspace(record)
    workspace, sources = workspace_of(record), counted(inputs["sources"])
    warnings, features = versions_told(sources, inputs)
    config = load(sources, workspace, features)
    name = inputs.get("profile", "default")
    if name not in config.merged["profile"]:
        raise Refused("ProfileNotFound")
    host = platform_of(inputs.get("host"))
    target = platform_of(inputs["target"]) if "target" in inputs else None
    profile = Profile(config, name, host, target)
    in_force = []
    if "filterset" in inputs:
        try:
            in_force.append(filter_of(inputs["filterset"], workspace, "test", config.groups))
        except NoFilterset:
            raise Refused("Filterset") from None
    if not inputs.get("ignore_default_filter"):
        in_force.append(profile.default)
    filtering = Filtering(workspace, profile.default)
    listed, selected, skipped, scripts = [], [], [], set()
    for binary, it in zip(workspace.binaries, record["binaries"]):
        if not all(filtering.can_hold(formula, binary) for formula in in_force):
            continue
        listed.append(binary.id)
        check_names(it["tests"], listed)
        for test in it["tests"]:
            settings, wrapper = profile.settings(filtering, binary, test), profile.run_wrapper(filtering, binary, test)
            holds = all(filtering.holds(formula, binary, test, settings.group) for formula in in_force)
            (selected if holds else skipped).append(PlanTest(binary.id, test, settings, wrapper))
            scripts |= profile.setup_scripts(filtering, binary, test) if holds else set()
    if any(test.settings.tries > MOST_RETRIES for test in selected):
        raise Refused("RetriesTooMany", listed)
    selected.sort(key=lambda test: (-test.settings.priority, test.binary.encode(), test.name.encode()))
    for path, text in ((it["path"], it["text"]) for it in sources if "text" in it):
        warnings += [line for line in configs.warning_answer(path, text).split("; ") if line != "-"]
    levels = profile.setting("status-level"), profile.setting("final-status-level")
    return Plan(warnings, profile.script_order(scripts), selected, skipped, listed, profile.setting("fail-fast"), levels)


def each(words, form="{}"):
    return "".join(f" {form.format(it)}" for it in words)


def scripts_shown(plan):
    """The planned scripts, where there are some."""
    return f"; scripts{each(plan.scripts)}" if plan.scripts else ""


def test_shown(test):
    """A test with its settings, and its wrapper script where it has one."""
    it = test.settings
    words = [test.binary, test.name, f"x{it.tries}", it.flaky_result, it.success_output, it.failure_output]
    return " ".join(words if test.run_wrapper is None else [*words, "wrapper", configs.wrapper_told(test.run_wrapper)])


def shown_settings(inputs):
    """A plan with the settings of its tests, as the table profiles_plans has it."""
    try:
        plan = plan_of(inputs)
    except Refused as refusal:
        return str(refusal)
    tests = each(map(test_shown, plan.tests), "[{}]")
    return f"run{tests}{scripts_shown(plan)}; limit {plan.limit}; levels {' '.join(plan.levels)}; warnings{each(plan.warnings, '[{}]')}"


def shown_selection(inputs):
    """A plan with what is skipped, listed and asked, as the table plans has it."""
    try:
        plan = plan_of(inputs)
    except Refused as refusal:
        return f"{refusal}; asked{each(refusal.asked)}"
    tests = [f"{it.binary} {it.name} x{it.settings.tries}" for it in plan.tests]
    skipped = [f"{it.binary} {it.name}" for it in plan.skipped]
    tests = f"run{each(tests, '[{}]')}{scripts_shown(plan)}"
    return f"{tests}; skip{each(skipped, '[{}]')}; limit {plan.limit}; listed{each(plan.listed)}; asked{each(plan.listed)}"
