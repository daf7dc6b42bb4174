#!/usr/bin/env python3
"""Writes the tables of configurations in the program `worked_rows`, and the numbers of their rows into what it has to print.

    python3 scripts/config_rows.py

It knows nothing of the program: a row has texts in TOML, which Python reads, and each answer is reckoned here by the rules:

- Of the sources those of the tools count, of which the first handed in is the highest, and above them the repository's: the first explicit
  one, else the first discovered one. Each that counts, the lowest first, must have been read (a discovered one may be missing), must be TOML,
  and must have only values that may stand at their keys: `experimental`, `nextest-version`, each profile with its overrides and script rules,
  `script`, `scripts`, `store`, `test-groups`, in the order of the bytes.
- Then it has no scripts under `script` beside some under `scripts`; has setup scripts, in either place, only where the feature `setup-scripts`
  is known, and then wrapper scripts only where `wrapper-scripts` is; defines only names that it may, first of groups, then of setup scripts
  under `script` and under `scripts`, then of wrapper scripts: a tool's file those that are its own alone, and the repository's none that is a
  tool's; and has no setup script with the name of a wrapper script.
- Then each rule of its profiles, by their names, of each first the overrides and then the script rules, in their order: it has a platform or a
  filter; an override has no filter beside a default filter; its specs of host and target are some, then its filter, then its default filter.
  Here the empty text is no spec and no filter. The filter of a script rule with a `list-wrapper` asks nothing that only tests tell; here those
  that do are all but `all()` and `none()`.
- A file stands over the lower ones and over what is built in: tables join key by key, and anything else hides what is below it. What a file has
  under `script` stands over what it has under `scripts.setup`. Of what all come to each profile, `scripts`, `store` and `test-groups` is read
  again. Then, the lowest file first, each group that an override names is defined; then, of all files, each setup script that a script rule
  names; and then, of all files, its `list-wrapper` and its `run-wrapper`, which are wrapper scripts.
- No profile with a reserved name (`default`, `default-..`) inherits, each parent is a profile, and parents come to `default`. Each rule is asked
  of all profiles, by the bytes of their names, before the next.
- A setting is that of the nearest profile of the chain that sets it: the profile, its parents one after another, and `default`. There is a
  report exactly if one of them sets its path.
- Which features are known a row says behind the settings: their names, or `asked`, those that `experimental` asks for in the sources that count;
  none where one of these is no TOML, has a value that may not stand at `experimental` or `nextest-version`, or is a tool's and asks for one.
- A command is one text, divided into words as a Unix shell does, or a list of texts, with one word at least and each quote closed.
- What a file has that no key of the configuration is, is told by its path, tables by the bytes of their keys; then each profile whose name
  begins with `default-` and isn't `default-miri`; then that it has scripts under `script`, if there is one; and then each profile, by the bytes
  of their names, with the number of its script rules that name no script, if there are any: that have no wrapper, and no `setup` but an empty list.
"""
import itertools
import random
import re
import tomllib

import element_rows as elements
from element_rows import CRATE, KINDS, NOTHING, SIGNS, Refused, found, toml

BUILT_IN = """
store.dir = "target/nextest"
[profile.default]
default-filter = "all()"
retries = 0
flaky-result = "pass"
test-threads = "num-cpus"
threads-required = 1
run-extra-args = []
status-level = "pass"
final-status-level = "flaky"
failure-output = "immediate"
success-output = "never"
fail-fast = true
fail-weight = 1
slow-timeout = "60s"
global-timeout = "30y"
leak-timeout = "100ms"
bench = { slow-timeout = "30y", global-timeout = "30y" }
[profile.default.junit]
report-name = "nextest-run"
store-success-output = false
store-failure-output = true
report-skipped = "none"
flaky-fail-status = "failure"
[profile.default-miri]
"""

# ---- values


class Bad(Exception):
    """A value that may not stand at its key."""

    def __init__(self, keys, expected, value):
        super().__init__(f"{'.'.join(keys)}: expected {expected}, found {found(value)}")
        self.keys = keys


def by_kind(kind):
    def read(value, keys):
        try:
            return KINDS[kind](value)
        except Refused as refusal:
            message = str(refusal).removeprefix("k")
            error = Bad(keys, "", value)
            error.args = ('.'.join(keys) + message,)
            raise error from None

    return read


def a_text(value, keys):
    if not isinstance(value, str):
        raise Bad(keys, "a string", value)
    return value


def a_truth(value, keys):
    if not isinstance(value, bool):
        raise Bad(keys, "true or false", value)
    return str(value).lower()


def texts(value, keys):
    if not isinstance(value, list):
        raise Bad(keys, "an array of strings", value)
    for place, item in enumerate(value):
        a_text(item, [*keys, str(place)])
    return "".join(f"[{item}]" for item in value)


def table_of(rules, needed=None):
    """A table with some keys, each of which may be left out, but for those that are needed; other keys are read past."""
    needed = needed or {}

    def read(value, keys):
        if not isinstance(value, dict):
            raise Bad(keys, "a table", value)
        members = {}
        for key in in_order({*value, *needed} & {*rules}):
            if key not in value:
                raise Bad([*keys, key], needed[key], NOTHING)
            members[key] = rules[key](value[key], [*keys, key])
        return members

    return read


def in_order(keys):
    return sorted(keys, key=str.encode)


PROFILE = table_of(
    {
        "bench": table_of({"global-timeout": by_kind("global-timeout"), "slow-timeout": by_kind("slow-timeout")}),
        "junit": table_of(
            {
                "flaky-fail-status": by_kind("flaky-fail-status"),
                "path": a_text,
                "report-name": a_text,
                "report-skipped": by_kind("report-skipped"),
                "store-failure-output": a_truth,
                "store-success-output": a_truth,
            }
        ),
        "default-filter": a_text,
        "inherits": a_text,
        "run-extra-args": texts,
        "failure-output": by_kind("output-display"),
        "success-output": by_kind("output-display"),
        **{
            key: by_kind(key)
            for key in (
                "fail-fast fail-weight final-status-level flaky-result global-timeout leak-timeout retries slow-timeout status-level"
                " test-threads threads-required"
            ).split()
        },
    }
)


def list_of(read):
    def reads(value, keys):
        if not isinstance(value, list):
            raise Bad(keys, "an array of tables", value)
        return [read(item, [*keys, str(place)]) for place, item in enumerate(value)]

    return reads


PLATFORMS = table_of({"host": a_text, "target": a_text})


def platforms_of(value, keys):
    if isinstance(value, dict):
        return PLATFORMS(value, keys)
    if not isinstance(value, str):
        raise Bad(keys, "a string or a table", value)
    return {"target": value}


RULE = table_of(
    {
        "bench": table_of({"slow-timeout": by_kind("slow-timeout")}),
        "junit": table_of(
            {
                "flaky-fail-status": by_kind("flaky-fail-status"),
                "report-skipped": by_kind("report-skipped"),
                "store-failure-output": a_truth,
                "store-success-output": a_truth,
            }
        ),
        "default-filter": a_text,
        "filter": a_text,
        "platform": platforms_of,
        "run-extra-args": texts,
        "failure-output": by_kind("output-display"),
        "success-output": by_kind("output-display"),
        **{key: by_kind(key) for key in "fail-weight flaky-result leak-timeout priority retries slow-timeout test-group threads-required".split()},
    }
)


def name_of(value, keys):
    """The identifier that a text is."""
    if elements.IDENTIFIER.read(value) is None:
        raise Bad(keys, elements.IDENTIFIER.expected, value)
    return elements.identifier(value)[0]


def names_of(value, keys):
    if not isinstance(value, list):
        return [name_of(value, keys)]
    return [name_of(item, [*keys, str(place)]) for place, item in enumerate(value)]


SCRIPT_RULE = table_of({"filter": a_text, "list-wrapper": name_of, "platform": platforms_of, "run-wrapper": name_of, "setup": names_of})
RULES = table_of({"overrides": list_of(RULE), "scripts": list_of(SCRIPT_RULE)})


def profile_of_file(value, keys):
    """The overrides and script rules of a profile in a file, of which each value must be one."""
    faults = []
    for read in (PROFILE, RULES):
        try:
            rules = read(value, keys)
        except Bad as bad:
            faults.append(bad)
    if faults:
        raise min(faults, key=lambda bad: [key.encode() for key in bad.keys[len(keys) :][:1]])
    return rules


def profiles_of_file(value, keys):
    if not isinstance(value, dict):
        raise Bad(keys, "a table", value)
    return {name: profile_of_file(value[name], [*keys, name]) for name in in_order(value)}


def groups_of(value, keys):
    """The groups of tests by their names: of two keys that are one name the later holds."""
    if not isinstance(value, dict):
        raise Bad(keys, "a table", value)
    groups = {}
    for key in in_order(value):
        try:
            name, _ = elements.identifier(key)
        except elements.NoName:
            bad = Bad([*keys, key], "", key)
            bad.args = (f"{'.'.join([*keys, key])}: expected the name of a test group, an identifier, found {elements.debug(key)}",)
            raise bad from None
        groups[name] = by_kind("test-group-config")(value[key], [*keys, key])
    return groups


def profiles_of(value, keys):
    if not isinstance(value, dict):
        raise Bad(keys, "a table", value)
    return {name: PROFILE(value[name], [*keys, name]) for name in in_order(value)}


def features_of(value, keys):
    """The names that are asked for."""
    if isinstance(value, list):
        return [a_text(item, [*keys, str(place)]) for place, item in enumerate(value)]
    if not isinstance(value, dict):
        raise Bad(keys, "an array of strings, or a table of booleans", value)
    for name in in_order(value):
        if not isinstance(value[name], bool):
            raise Bad([*keys, name], "a boolean", value[name])
    return [name for name in in_order(value) if value[name]]


A_VERSION = "a version as `X.Y.Z` or `X.Y`"


def version_of(value, keys):
    number = "(0|[1-9][0-9]*)"
    if not (isinstance(value, str) and re.fullmatch(rf"{number}\.{number}(\.{number})?", value)):
        raise Bad(keys, A_VERSION, value)


def versions_of(value, keys):
    if isinstance(value, dict):
        for key in ("recommended", "required"):
            if key in value:
                version_of(value[key], [*keys, key])
    elif isinstance(value, str):
        version_of(value, keys)
    else:
        raise Bad(keys, f"{A_VERSION}, or a table of these", value)


# ---- scripts

BLANK = r"(?:[ \t\n]|\\\n|#[^\n]*(?:\n|\Z))*"
PIECE = r"""[^ \t\n'"\\]|\\(?:[\s\S]|\Z)|'[^']*'|"(?:[^"\\]|\\[\s\S])*\""""


def said(piece):
    """What a piece of a word says."""
    if piece[0] == "'":
        return piece[1:-1]
    if piece[0] == '"':
        return re.sub(r"\\([\s\S])", lambda it: "" if it[1] == "\n" else it[1] if it[1] in '"\\$`' else it[0], piece[1:-1])
    return "" if piece == "\\\n" else piece[-1]


def words_of(text):
    """The words of a text; None where a quote isn't closed."""
    words, place = [], re.match(BLANK, text).end()
    while place < len(text):
        word = re.compile(f"(?:{PIECE})+").match(text, place)
        if word is None or text[word.end() :][:1] in ("'", '"'):
            return None
        words.append("".join(map(said, re.findall(PIECE, word[0]))))
        place = re.compile(BLANK).match(text, word.end()).end()
    return words


LINE = "a command: a string or an array of strings"
RELATIVE = elements.words("`none`, `workspace-root` or `target`", none="None", workspace_root="WorkspaceRoot", target="Target")
RUNNER = elements.words(
    "`ignore`, `overrides-wrapper`, `within-wrapper` or `around-wrapper`", ignore="Ignore", overrides_wrapper="OverridesWrapper",
    within_wrapper="WithinWrapper", around_wrapper="AroundWrapper",
)


def by_rule(rule):
    def read(value, keys):
        answer = rule.read(value)
        if answer is None:
            raise Bad(keys, rule.expected, value)
        return answer

    return read


def line_of(value, keys):
    if not isinstance(value, (str, list)):
        raise Bad(keys, LINE, value)
    words = words_of(value) if isinstance(value, str) else [a_text(item, [*keys, str(place)]) for place, item in enumerate(value)]
    if not words:
        raise Bad(keys, "a command of at least one word, with each quote closed", value)
    return words


def variables_of(value, keys):
    if not isinstance(value, dict):
        raise Bad(keys, "a table of strings", value)
    for name in in_order(value):
        if name.startswith("NEXTEST"):
            raise Bad([*keys, name], "the name of a variable, which doesn't begin with `NEXTEST`", name)
        a_text(value[name], [*keys, name])
    return value


COMMAND_TABLE = table_of({"command-line": line_of, "env": variables_of, "relative-to": by_rule(RELATIVE)}, {"command-line": LINE})


def command_of(value, keys):
    return COMMAND_TABLE(value, keys) if isinstance(value, dict) else {"command-line": line_of(value, keys)}


SETUP_SCRIPT = table_of(
    {
        "command": command_of, "slow-timeout": by_kind("slow-timeout"), "leak-timeout": by_kind("leak-timeout"), "capture-stdout": a_truth,
        "capture-stderr": a_truth, "junit": table_of({"store-success-output": a_truth, "store-failure-output": a_truth}),
    },
    {"command": "a command"},
)
WRAPPER_SCRIPT = table_of({"command": command_of, "target-runner": by_rule(RUNNER)}, {"command": "a command"})


def scripts_of(read):
    """The scripts of a table, each by its name."""

    def reads(value, keys):
        if not isinstance(value, dict):
            raise Bad(keys, "a table", value)
        scripts = []
        for key in in_order(value):
            try:
                name = elements.identifier(key)[0]
            except elements.NoName:
                raise Bad([*keys, key], "the name of a script, an identifier", key) from None
            scripts.append((name, read(value[key], [*keys, key])))
        return scripts

    return reads


OLD_SCRIPTS = scripts_of(SETUP_SCRIPT)
SCRIPTS = table_of({"setup": scripts_of(SETUP_SCRIPT), "wrapper": scripts_of(WRAPPER_SCRIPT)})

# ---- a file, and what all come to

STORE = table_of({"dir": a_text})
FILE = table_of(
    {
        "experimental": features_of, "nextest-version": versions_of, "profile": profiles_of_file, "script": OLD_SCRIPTS, "scripts": SCRIPTS,
        "store": STORE, "test-groups": groups_of,
    }
)
ASKED = table_of({"experimental": features_of, "nextest-version": versions_of})
MERGED = table_of({"profile": profiles_of, "scripts": SCRIPTS, "store": STORE, "test-groups": groups_of})

# ---- loading


class Refusal(Exception):
    pass


def over(higher, lower):
    if not (isinstance(higher, dict) and isinstance(lower, dict)):
        return higher
    return {**lower, **{key: over(value, lower[key]) if key in lower else value for key, value in higher.items()}}


def counted(sources):
    tools = [source for source in sources if source[0] == "tool"]
    repository = [source for source in sources if source[0] == "explicit"] or [source for source in sources if source[0] == "discovered"]
    return tools[::-1] + repository[:1]


def file_of(source, features):
    kind, path, outcome = source
    if outcome == "missing" and kind == "discovered":
        return {}
    if not outcome.startswith("text "):
        raise Refusal(f"Unread {path}")
    try:
        members = tomllib.loads(outcome.removeprefix("text "))
    except tomllib.TOMLDecodeError:
        raise Refusal(f"Toml {path}") from None
    try:
        file = FILE(members, [])
    except Bad as bad:
        raise Refusal(f"BadValue {path}: {bad}") from None
    check_defined("t" if kind == "tool" else None, path, file, features)
    check_rules(path, file)
    return members


def rules_of(path, file, kind):
    """The rules of a file of one kind, `overrides` or `scripts`, each with where it is written."""
    profiles = file.get("profile", {})
    for name in in_order(profiles):
        for index, rule in enumerate(profiles[name].get(kind, [])):
            yield f"{path}: profile.{name}.{kind}.{index}", rule


def check_defined(owner, path, file, features):
    """That a file may define what it does: the file of a tool, or, without one, of the repository."""
    old, scripts = file.get("script", []), file.get("scripts", {})
    setup, wrapper = scripts.get("setup", []), scripts.get("wrapper", [])
    if old and (setup or wrapper):
        raise Refusal(f"BothScriptTables {path}: the file defines scripts under `script` and under `scripts`")
    for feature, some in (("setup-scripts", old or setup), ("wrapper-scripts", wrapper)):
        if some and feature not in features:
            raise Refusal(f"FeatureNotEnabled {path}: the file defines scripts that need the experimental feature `{feature}`")
    for name in [*file.get("test-groups", {}), *(name for name, _ in [*old, *setup, *wrapper])]:
        tool = elements.identifier(name)[1]
        if (tool and tool[0]) != owner:
            raise Refusal(f"BadName {path}: the file may not define `{name}`")
    for name, _ in setup:
        if name in dict(wrapper):
            raise Refusal(f"RepeatedScript {path}: `{name}` is a setup script and a wrapper script")


def check_rules(path, file):
    for name in in_order(file.get("profile", {})):
        of_profile = {"profile": {name: file["profile"][name]}}
        for rule, it in (*rules_of(path, of_profile, "overrides"), *rules_of(path, of_profile, "scripts")):
            check_rule(rule, it)


def check_rule(rule, it):
    platforms = it.get("platform", {})
    if not platforms and "filter" not in it:
        raise Refusal(f"NoConstraint {rule}: at least one of `filter` and `platform` is needed")
    if "filter" in it and "default-filter" in it:
        raise Refusal(f"FilterAndDefaultFilter {rule}: an override can't have both `filter` and `default-filter`")
    for side in ("host", "target"):
        if platforms.get(side) == "":
            raise Refusal(f"BadSpec {rule}: the {side} platform is no platform spec: ``")
    for key in ("filter", "default-filter"):
        if it.get(key) == "":
            raise Refusal(f"BadFilter {rule}: this is no filter here: ``")
    if "list-wrapper" in it and it.get("filter", "all()") not in ("all()", "none()"):
        raise Refusal(f"ListWrapperRunFilter {rule}: this is no filter here: `{it['filter']}`")


def all_rules(sources, kind):
    """The rules of all sources that count of one kind, the lowest first."""
    for _, path, outcome in counted(sources):
        if outcome.startswith("text "):
            yield from rules_of(path, FILE(tomllib.loads(outcome.removeprefix("text ")), []), kind)


def check_named(sources, config):
    """That each group and script that a rule names is defined."""
    for rule, it in all_rules(sources, "overrides"):
        custom = re.fullmatch(r"Custom\((.*)\)", str(it.get("test-group", "")))
        if custom and custom[1] not in map(elements.debug, config.get("test-groups", {})):
            raise Refusal(f"UnknownGroup {rule}: no group is named `{custom[1][1:-1]}`")
    scripts = config.get("scripts", {})
    for rule, it in all_rules(sources, "scripts"):
        for name in it.get("setup", []):
            if name not in dict(scripts.get("setup", [])):
                raise Refusal(f"UnknownScript {rule}: no setup script is named `{name}`")
    for rule, it in all_rules(sources, "scripts"):
        for key in ("list-wrapper", "run-wrapper"):
            if key in it and it[key] not in dict(scripts.get("wrapper", [])):
                raise Refusal(f"UnknownWrapper {rule}: no wrapper script is named `{it[key]}`")


def is_reserved(name):
    return name == "default" or name.startswith("default-")


def ends(profiles, name):
    for _ in profiles:
        if name == "default":
            return True
        name = profiles[name].get("inherits", "default")
    return name == "default"


def accepted(profiles):
    for name in in_order(profiles):
        if is_reserved(name) and "inherits" in profiles[name]:
            raise Refusal(
                f"InheritsInDefault profile `{name}` inherits, but `default` and names that begin with `default-` are reserved and can't"
            )
    for name in in_order(profiles):
        parent = profiles[name].get("inherits")
        if parent is not None and parent not in profiles:
            raise Refusal(f"UnknownParent profile `{name}` inherits from `{parent}`, which is no profile")
    for name in in_order(profiles):
        if not ends(profiles, name):
            raise Refusal(f"Cycle profile `{name}` inherits without end: its parents go in a cycle")


def filtered(profiles):
    for name in in_order(profiles):
        if profiles[name].get("default-filter") == "":
            raise Refusal(f"BadFilter in profile `{name}`, `default-filter` is no filter here: ``")


def moved(file):
    """A file with what it has under `script` where it stands now."""
    return over({"scripts": {"setup": file["script"]}}, file) if "script" in file else file


def features_asked(sources):
    """The features that sources ask for; none where one of them may not ask for what it does."""
    features = set()
    for kind, path, outcome in counted(sources):
        if outcome.startswith("text "):
            try:
                asked = ASKED(tomllib.loads(outcome.removeprefix("text ")), []).get("experimental", [])
            except (tomllib.TOMLDecodeError, Bad):
                return set()
            if kind == "tool" and asked:
                return set()
            features.update(asked)
    return features


def load(sources, features=()):
    tree = tomllib.loads(BUILT_IN)
    for file in [file_of(source, features) for source in counted(sources)]:
        tree = over(moved(file), tree)
    try:
        config = MERGED(tree, [])
    except Bad as bad:
        raise Refusal(f"BadValue in all configuration files together: {bad}") from None
    check_named(sources, config)
    accepted(config["profile"])
    filtered(config["profile"])
    return config


# ---- settings


def chain_of(profiles, name):
    chain = [name]
    while chain[-1] != "default":
        chain.append(profiles[chain[-1]].get("inherits", "default"))
    return chain


def command_told(command):
    program, *args = command["command-line"]
    told = program + "".join(f"[{it}]" for it in args) + " " + command.get("relative-to", "None")
    return told + "".join(f" {name}={value}" for name, value in sorted(command.get("env", {}).items(), key=lambda it: it[0].encode()))


def setup_told(name, it):
    slow = elements.Some("SetupScript" + it["slow-timeout"]) if "slow-timeout" in it else "None"
    leak = elements.Some(it["leak-timeout"]) if "leak-timeout" in it else "None"
    junit = it.get("junit", {})
    truths = it.get("capture-stdout", "false"), it.get("capture-stderr", "false"), *(junit.get(key, "true") for key in STORED)
    return f"[setup {name}: {command_told(it['command'])}, {elements.shown(slow)}, {elements.shown(leak)}, {' '.join(truths)}]"


def wrapper_told(it):
    return f"{command_told(it['command'])}, {it.get('target-runner', 'Ignore')}"


def scripts_told(scripts):
    told = [setup_told(*it) for it in scripts.get("setup", [])]
    told += [f"[wrapper {name}: {wrapper_told(it)}]" for name, it in scripts.get("wrapper", [])]
    return " ".join(told) or "-"


def rules_told(sources):
    """The script rules, the highest file first."""
    rules = [rule for source in counted(sources)[::-1] for rule in all_rules([source], "scripts")]
    return " ".join(
        f"[{rule}: setup {','.join(it.get('setup', []))}, list {it.get('list-wrapper', '-')}, run {it.get('run-wrapper', '-')}]" for rule, it in rules
    ) or "-"


def setting(config, name, key):
    profiles = config["profile"]
    if key == "scripts":
        return scripts_told(config.get("scripts", {}))
    if key == "script-rules":
        return rules_told(config["sources"])
    chain = chain_of(profiles, name)
    nearest = lambda table, key: next((profiles[it].get(table, {})[key] for it in chain if key in profiles[it].get(table, {})), "-")
    if key == "profiles":
        return "".join(f"[{it}]" for it in in_order(profiles))
    if key == "parents":
        return str(len(chain) - 1)
    if key == "inherits":
        return profiles[name].get("inherits", "-")
    if key == "store-dir":
        directory = f"{config['store']['dir']}/{name}"
        return directory if directory.startswith("/") and config["store"]["dir"] else f"/work/{directory}"
    if key == "junit":
        parts = ("path", "report-name", "store-success-output", "store-failure-output", "report-skipped", "flaky-fail-status")
        return "-" if nearest("junit", "path") == "-" else " ".join(elements.shown(nearest("junit", it)) for it in parts)
    if key.startswith("bench."):
        return elements.shown(nearest("bench", key.removeprefix("bench.")))
    return elements.shown(next(profiles[it][key] for it in chain if key in profiles[it]))


def load_answer(name, keys, sources, words):
    try:
        config = load(sources, features_asked(sources) if words == "asked" else words.split(","))
    except Refusal as refusal:
        return f"refused {refusal}"
    config["sources"] = sources
    if name not in config["profile"]:
        return "no such profile"
    return "; ".join(f"{key} = {setting(config, name, key)}" for key in keys.split(","))


# ---- warnings

ANY = "any"
SLOW_KEYS = dict.fromkeys(("period", "terminate-after", "grace-period", "on-timeout"), ANY)
LEAK_KEYS = dict.fromkeys(("period", "result"), ANY)
RETRY_KEYS = dict.fromkeys(("backoff", "count", "delay", "jitter", "max-delay"), ANY)
STORED = dict.fromkeys(("store-success-output", "store-failure-output"), ANY)
JUDGED = {**STORED, "report-skipped": ANY, "flaky-fail-status": ANY}
COMMAND = dict.fromkeys(("command-line", "env", "relative-to"), ANY)
PLATFORM = {"host": ANY, "target": ANY}


class Each:
    """A table with any keys, or a list, whose members are of one form."""

    def __init__(self, form, kind=dict):
        self.form, self.kind = form, kind


SETUP = Each({"command": COMMAND, "slow-timeout": SLOW_KEYS, "leak-timeout": LEAK_KEYS, "capture-stdout": ANY, "capture-stderr": ANY, "junit": STORED})
OVERRIDE = {
    **dict.fromkeys(
        "filter default-filter priority threads-required run-extra-args flaky-result fail-weight test-group success-output failure-output".split(),
        ANY,
    ),
    "platform": PLATFORM, "retries": RETRY_KEYS, "slow-timeout": SLOW_KEYS, "leak-timeout": LEAK_KEYS, "bench": {"slow-timeout": SLOW_KEYS},
    "junit": JUDGED,
}
PROFILE_KEYS = {
    **dict.fromkeys(
        "inherits default-filter flaky-result fail-weight test-threads threads-required run-extra-args status-level final-status-level"
        " failure-output success-output global-timeout archive".split(), ANY
    ),
    "retries": RETRY_KEYS, "fail-fast": dict.fromkeys(("max-fail", "terminate"), ANY), "slow-timeout": SLOW_KEYS, "leak-timeout": LEAK_KEYS,
    "bench": {"slow-timeout": SLOW_KEYS, "global-timeout": ANY}, "junit": {**JUDGED, "path": ANY, "report-name": ANY},
    "overrides": Each(OVERRIDE, list),
    "scripts": Each({"platform": PLATFORM, "filter": ANY, "setup": ANY, "list-wrapper": ANY, "run-wrapper": ANY}, list),
}
TOP = {
    "nextest-version": {"required": ANY, "recommended": ANY}, "experimental": ANY, "store": {"dir": ANY}, "profile": Each(PROFILE_KEYS),
    "test-groups": Each({"max-threads": ANY}), "scripts": {"setup": SETUP, "wrapper": Each({"command": COMMAND, "target-runner": ANY})},
    "script": SETUP,
}


def unknown(form, value, keys):
    if form is ANY:
        return
    if isinstance(form, Each):
        if isinstance(value, form.kind):
            members = ((key, value[key]) for key in in_order(value)) if form.kind is dict else ((str(place), it) for place, it in enumerate(value))
            for key, member in members:
                yield from unknown(form.form, member, [*keys, key])
        return
    if isinstance(value, dict):
        if form is RETRY_KEYS and value.get("backoff") == "fixed":
            form = {key: it for key, it in form.items() if key != "max-delay"}
        for key in in_order(value):
            if key in form:
                yield from unknown(form[key], value[key], [*keys, key])
            else:
                yield [*keys, key]


def on_one_line(text):
    return "".join(f"\\u{{{ord(it):x}}}" if ord(it) < 32 or ord(it) == 127 else it for it in text)


def empty_rules(profile):
    """How many script rules of a profile name no script."""
    rules = profile.get("scripts") if isinstance(profile, dict) else None
    tables = [it for it in rules if isinstance(it, dict)] if isinstance(rules, list) else []
    return sum(not {"list-wrapper", "run-wrapper"} & {*it} and it.get("setup", []) == [] for it in tables)


def warning_answer(path, text):
    file = tomllib.loads(text)
    lines = [f"unknown key {on_one_line('.'.join(keys))} in {on_one_line(path)}" for keys in unknown(TOP, file, [])]
    profiles = file.get("profile")
    for name in in_order(profiles) if isinstance(profiles, dict) else []:
        if name.startswith("default-") and name != "default-miri":
            lines.append(f"unknown reserved profile {on_one_line(name)} in {on_one_line(path)}")
    if isinstance(file.get("script"), dict) and file["script"]:
        lines.append(f"deprecated script table in {on_one_line(path)}")
    for name in in_order(profiles) if isinstance(profiles, dict) else []:
        number = empty_rules(profiles[name])
        if number:
            lines.append(f"empty script sections {number} in profile {on_one_line(name)} in {on_one_line(path)}")
    return "; ".join(lines) or "-"


# ---- the rows of loads

ALL = (
    "retries,flaky-result,fail-fast,fail-weight,slow-timeout,global-timeout,bench.slow-timeout,bench.global-timeout,leak-timeout,test-threads,"
    "threads-required,status-level,final-status-level,failure-output,success-output,run-extra-args,default-filter,junit,store-dir,inherits,parents,profiles"
)
DAY = elements.DAY
WRONG = ["x", 0, -1, 1.5, True, DAY, ["1s"], {"a": 1}]
KEYS = [key for key in ALL.split(",") if key not in ("junit", "store-dir", "parents", "profiles")]
JUNIT_KEYS = ["path", "report-name", "store-success-output", "store-failure-output", "report-skipped", "flaky-fail-status"]
RIGHT = {
    "retries": [3, {"backoff": "fixed", "count": 2, "delay": "1s", "jitter": True}, {"backoff": "exponential", "count": 4, "delay": "1s", "max-delay": "1m"}],
    "flaky-result": ["fail"],
    "fail-fast": [False, {"max-fail": 5}, {"max-fail": "all"}, {"max-fail": 2, "terminate": "immediate"}],
    "fail-weight": [1, 2, 100],
    "slow-timeout": ["5s", {"period": "5s", "terminate-after": 2, "grace-period": "0s", "on-timeout": "pass"}],
    "global-timeout": ["2h"],
    "leak-timeout": ["1s", {"period": "0s", "result": "fail"}],
    "test-threads": [4, -2, "num-cpus"],
    "threads-required": [2, "num-cpus", "num-test-threads"],
    "status-level": ["none", "skip", "all"],
    "final-status-level": ["none", "retry", "all"],
    "failure-output": ["final", "never"],
    "success-output": ["immediate-final"],
    "run-extra-args": [[], ["--a", "b"]],
    "default-filter": ["none()"],
}


def repository(text, kind="discovered"):
    return kind, "r.toml", "text " + text


def tool(name, text):
    return "tool", f"{name}.toml", "text " + text


def one(text, name="default", keys=ALL):
    return name, keys, [repository(text)]


def files(*texts, name="default", keys=ALL):
    """The lowest first; the last one is the repository's."""
    tools = [tool(f"t{place}", text) for place, text in enumerate(texts[:-1])]
    return name, keys, [*tools[::-1], repository(texts[-1])]


def source_rows():
    yield "default", ALL, [("discovered", "r.toml", "missing")]
    yield "default-miri", ALL, [("discovered", "r.toml", "missing")]
    yield "ci", ALL, [("discovered", "r.toml", "missing")]
    yield one("")
    yield one(BUILT_IN.strip())
    for kind in ("tool", "explicit", "discovered"):
        for outcome in ("missing", "failed no leave", "failed there is no such file", "text x", "text ", "text [", "text a = 1\na = 2"):
            yield "default", "retries,profiles", [(kind, "a b.toml".replace(" ", "-"), outcome)]
    good = "text profile.default.retries = 1"
    for first, second in itertools.product(("missing", "failed x", "text =", "text profile = 1", good), repeat=2):
        for kinds in (("tool", "discovered"), ("explicit", "discovered"), ("discovered", "explicit"), ("tool", "tool"), ("discovered", "discovered")):
            yield "default", "retries", [(kinds[0], "a.toml", first), (kinds[1], "b.toml", second)]
    for kinds in itertools.product(("tool", "explicit", "discovered"), repeat=3):
        yield "default", "retries", [(kind, f"{place}.toml", f"text profile.default.retries = {place + 1}") for place, kind in enumerate(kinds)]


def bare(key):
    return key if re.fullmatch("[A-Za-z0-9_-]+", key) else elements.quoted(key)


def value_rows():
    for key in KEYS:
        where = f"profile.default.{key}"
        for value in WRONG:
            yield one(f"{where} = {toml(value)}", keys="retries" if key == "inherits" else key)
        for value in RIGHT.get(key, []):
            yield one(f"{where} = {toml(value)}", keys=key)
            yield one(f"profile.ci.{key} = {toml(value)}", "ci", key)
            yield one(f"profile.ci.{key} = {toml(value)}", "default", key)
    for value in (0, 1, 100, 101, 256, 257):
        yield one(f"profile.ci.fail-weight = {value}", "ci", "fail-weight")
        yield one(f"profile.ci.overrides = [{{ filter = 'x', fail-weight = {value} }}]", "ci", "fail-weight")
    for key in JUNIT_KEYS:
        for value in WRONG:
            yield one(f"profile.ci.junit.{key} = {toml(value)}", "ci", "junit")
    for path in ("bench", "junit", "retries", "slow-timeout", "fail-fast", "leak-timeout"):
        for value in [*WRONG, {}, []]:
            yield one(f"profile.default.{path} = {toml(value)}", keys=f"{'bench.slow-timeout' if path == 'bench' else path}")
    for kind, table in ((kind, table) for kind, tables in elements.TABLES.items() for table in tables if kind != "test-group-config"):
        for key, value in itertools.product(table, WRONG):
            yield one(f"[profile.a.{kind}]\n" + "".join(f"{it} = {toml(value if it == key else had)}\n" for it, had in table.items()), "a", kind)
    for value in [*WRONG, {}, []]:
        yield one(f"profile = {toml(value)}", keys="profiles")
        yield one(f"profile.default = {toml(value)}", keys="profiles")
        yield one(f"profile.z = {toml(value)}", keys="profiles")
        yield one(f"store = {toml(value)}", keys="store-dir")
        yield one(f"store.dir = {toml(value)}", keys="store-dir")
        yield one(f"experimental = {toml(value)}", keys="profiles")
        yield one(f"nextest-version = {toml(value)}", keys="profiles")
    for path in ("", "d", "/d", "d/e", "/", "./d"):
        yield one(f"store.dir = {toml(path)}", keys="store-dir")
        yield one(f"store.dir = {toml(path)}\nprofile.ci = {{}}", "ci", "store-dir")
    # of several the first by the bytes of the keys
    wrongs = ["experimental = 1", "nextest-version = 1", "profile.default.retries = 'x'", "store = 1"]
    for pair in itertools.permutations(wrongs, 2):
        yield one("\n".join(pair), keys="profiles")
    for pair in itertools.combinations(["bench", *KEYS, "junit"], 2):
        if "." not in "".join(pair):
            yield one("".join(f"profile.default.{key} = 1979-05-27\n" for key in pair[::-1]), keys="profiles")
    yield one("profile.b.retries = -1\nprofile.a.retries = -1", keys="profiles")
    yield one("profile.b.bench = 1\nprofile.aa.retries = -1\nprofile.a-a.retries = -1", keys="profiles")
    yield one("profile.é.retries = -1\nprofile.z.retries = -1".replace("é", '"é"'), keys="profiles")
    yield one("profile.Z.retries = -1\nprofile.a.retries = -1", keys="profiles")
    yield one('profile."".retries = -1', keys="profiles")
    yield one('profile."a.b".retries = -1', keys="profiles")
    yield one('profile.default.run-extra-args = ["a", 1, "b", 2]', keys="profiles")
    yield one('experimental = ["a", 1]', keys="profiles")
    yield one("experimental = { b = 1, a = 'x' }", keys="profiles")
    yield one("nextest-version = { required = 1, recommended = 'x' }", keys="profiles")
    yield one("nextest-version = '0.9'\nexperimental = ['setup-scripts']", keys="profiles")


def merge_rows():
    leaf_keys = {"retries": (1, 2), "status-level": ("fail", "all"), "test-threads": (1, 2), "run-extra-args": (["a", "b"], ["c"])}
    for key, (low, high) in leaf_keys.items():
        for texts in itertools.product((f"profile.default.{key} = {toml(low)}", f"profile.default.{key} = {toml(high)}", ""), repeat=3):
            yield files(*texts, keys=key)
    retries = [
        "profile.default.retries = 2",
        "profile.default.retries = { backoff = 'fixed', count = 3 }",
        "profile.default.retries = { backoff = 'fixed', count = 3, delay = '2s', jitter = true }",
        "profile.default.retries = { backoff = 'fixed', count = 3, delay = '0s' }",
        "profile.default.retries = { backoff = 'fixed', count = 3, max-delay = [] }",
        "profile.default.retries = { backoff = 'exponential', count = 4, delay = '1s', max-delay = '2s' }",
        "profile.default.retries = { backoff = 'exponential', count = 4, delay = '3s' }",
        "profile.default.retries = { backoff = 'exponential', count = 5, delay = '1s', jitter = true }",
        "profile.default = {}",
    ]
    for texts in itertools.product(retries, repeat=2):
        yield files(*texts, keys="retries")
    for texts in itertools.product(retries[2:7], repeat=3):
        yield files(*texts, keys="retries")
    slow = [
        "profile.default.slow-timeout = '5s'",
        "profile.default.slow-timeout = { period = '1s', terminate-after = 2 }",
        "profile.default.slow-timeout = { period = '7s', grace-period = '1s', on-timeout = 'pass' }",
        "profile.default.slow-timeout = { period = '8s' }",
    ]
    for texts in itertools.product(slow, repeat=2):
        yield files(*texts, keys="slow-timeout")
        yield files(*(text.replace("default.", "default.bench.") for text in texts), keys="slow-timeout,bench.slow-timeout,bench.global-timeout")
    fast = ["profile.default.fail-fast = true", "profile.default.fail-fast = { max-fail = 3 }", "profile.default.fail-fast = { max-fail = 'all', terminate = 'immediate' }"]
    for texts in itertools.product([*fast, "profile.default.fail-fast = false"], repeat=2):
        yield files(*texts, keys="fail-fast")
    leak = ["profile.default.leak-timeout = '1s'", "profile.default.leak-timeout = { period = '2s', result = 'fail' }", "profile.default.leak-timeout = { period = '3s' }"]
    for texts in itertools.product(leak, repeat=2):
        yield files(*texts, keys="leak-timeout")
    junit = ["profile.default.junit.path = 'j.xml'", "profile.default.junit = {}", "profile.default.junit = { report-name = 'n', store-success-output = true }", "profile.ci.junit = { path = 'ci.xml', store-failure-output = false, report-skipped = 'all', flaky-fail-status = 'success' }", "profile.ci = {}"]
    for texts in itertools.product(junit, repeat=2):
        yield files(*texts, keys="junit")
        if "ci" in "".join(texts).replace("ci.xml", ""):
            yield files(*texts, name="ci", keys="junit,parents")
    # tables without members, over others and under them
    parts = ["profile.z = {}", "profile.z.retries = 1", "profile = {}", "profile.z = { status-level = 'all', junit = {} }", ""]
    for texts in itertools.product(parts, repeat=2):
        yield files(*texts, name="z", keys="profiles,retries,status-level,parents")
    for texts in itertools.permutations(parts[:4], 3):
        yield files(*texts, name="z", keys="profiles,retries,status-level")
    for texts in itertools.product(("store = {}", "store.dir = 'a'", "store.dir = '/b'", "store.zzz = 1"), repeat=2):
        yield files(*texts, keys="store-dir")
    # unknown keys: what one file has as a table is no table in another
    for texts in itertools.permutations(("profile.default.zzz = 1", "profile.default.zzz.a.b = 1", "profile.default.zzz = {}", "zzz = 1\nzzy.a = 2"), 2):
        yield files(*texts, keys="profiles")
    # keys of which one begins with the other
    for texts in itertools.product(("profile.a.retries = 1", "profile.a-b.retries = 2", 'profile."a.b".retries = 3', "profile.ab.retries = 4"), repeat=2):
        yield files(*texts, name="a", keys="profiles,retries")
        yield files(*texts, name="a-b", keys="profiles,retries")
        yield files(*texts, name="a.b", keys="profiles,retries")
    yield one('[profile."a.b"]\nretries = 3', "a", "retries")
    yield one('[profile."a.b"]\nretries = 3', "a.b", "retries,profiles,store-dir")
    yield one("[profile.a.b]\nretries = 3", "a", "retries,profiles")
    yield one("[profile.a.b]\nretries = 3", "a.b", "retries,profiles")
    yield one('[profile.""]\nretries = 3', "default", "profiles")
    # a bad one is told of the lowest file
    for bad in itertools.product(("profile.default.retries = -1", "profile.default.retries = 1", "x"), repeat=3):
        yield files(*bad, keys="retries")


def parents_of(links, extra=""):
    return "".join(f"[profile.{name}]\n" + (f'inherits = "{parent}"\n' if parent else "") for name, parent in links.items()) + extra


def chain_rows():
    names = ["a", "b", "c", "d", "e", "f"]
    for length in range(1, 6):
        links = dict(zip(names, names[1 : length + 1])) | {names[length]: "default"}
        for place in range(length + 1):
            text = "".join(
                f'[profile.{name}]\ninherits = "{parent}"\n' + (f"retries = {place}\nstatus-level = 'fail'\n" if name == names[place] else "")
                for name, parent in links.items()
            )
            yield one(text, "a", "retries,status-level,inherits,parents")
        yield one(parents_of({**links, names[length]: None}), "a", ALL)
        yield one(parents_of(links), names[length], "inherits,parents")
        # each sets another setting
        text = "".join(
            f'[profile.{name}]\ninherits = "{parent}"\n{setting}\n'
            for (name, parent), setting in zip(links.items(), ["retries = 1", "retries = 2\ntest-threads = 3", "junit.path = 'x'", "junit.path = 'y'\njunit.report-name = 'n'", "leak-timeout = '9s'", "fail-fast = false"])
        )
        yield one(text, "a", ALL)
        yield one(text + "[profile.default]\nretries = 9\njunit.path = 'z'\nleak-timeout = '1s'\nfail-fast = { max-fail = 7 }\n", "a", ALL)
    # over files
    yield files("[profile.b]\nretries = 1", "[profile.a]\ninherits = 'b'", name="a", keys="retries,parents")
    yield files("[profile.a]\ninherits = 'b'", "[profile.b]\nretries = 1", name="a", keys="retries,parents")
    yield files("[profile.a]\ninherits = 'b'\n[profile.b]\nretries = 2\n[profile.c]\nretries = 3", "[profile.a]\ninherits = 'c'", name="a", keys="retries,inherits,parents")
    yield files("[profile.a]\ninherits = 'b'\n[profile.b]", "[profile.b]\ninherits = 'a'", name="a", keys="parents")
    yield files("[profile.a]\ninherits = 'nowhere'", "[profile.a]\ninherits = 'default'", name="a", keys="inherits,parents")
    yield files("[profile.a]\ninherits = 'z'", "[profile.z]", name="a", keys="inherits,parents")
    yield files("[profile.z]", "[profile.a]\ninherits = 'z'", name="a", keys="inherits,parents,profiles")
    # reserved names
    for name in ("default", "default-miri", "default-x", "default-", "defaultx", "Default", "default_x", "xdefault", "default.x", "default -x"):
        for parent in ("default", "a", "nowhere", name):
            yield one(f'profile.{bare(name)}.inherits = "{parent}"\nprofile.a.retries = 1', "a", "retries,profiles")
    for parent in ("default-miri", "default-x", "default", "", "a.b", "A", " a"):
        yield one(f'profile.a.inherits = "{parent}"', "a", "inherits,parents,profiles")
        yield one(f'profile.a.inherits = "{parent}"\nprofile.{bare(parent)}.retries = 7', "a", "retries,inherits,parents,profiles")
    # cycles, what leads into them, and which fault comes first
    for links in (
        {"a": "a"}, {"b": "b", "a": None}, {"a": "b", "b": "a"}, {"b": "a", "a": "b", "c": "a"}, {"a": "b", "b": "c", "c": "a"}, {"a": "c", "b": "c", "c": "c"},
        {"a": "b", "b": "c", "c": "d", "d": "b"}, {"x": "y", "y": "x", "a": "default"}, {"a": "b", "b": "default", "c": "d", "d": "c"},
        {"a": "z", "z": "y", "y": "z"}, {"a": "nowhere"}, {"a": "nowhere", "b": "b"}, {"a": "a", "b": "nowhere"}, {"b": "nowhere", "a": "neither"},
        {"a": "b", "b": "nowhere"}, {"a": "a", "default-x": "a"}, {"a": "nowhere", "default-x": "a"}, {"default-x": "a", "default-a": "a", "a": None},
        {"default": "a", "a": None}, {"default": "a", "a": "default"}, {"default": "default"}, {"default-miri": "default"}, {"Z": "Z", "a": "a"},
        {"a-b": "a-b", "a": "a"}, {"ab": "ab", "a-b": "a-b"},
    ):
        yield one(parents_of(links), "default", "profiles,parents")
        for name in in_order(links)[:1]:
            yield one(parents_of(links), name, "parents,inherits")
        split = [parents_of({name: parent}) for name, parent in links.items()]
        yield files(*split, keys="profiles")
    # a bad value comes before how profiles inherit
    yield one("profile.a.inherits = 'a'\nprofile.b.retries = -1", keys="profiles")
    yield files("profile.a.inherits = 'a'", "profile.b.retries = -1", keys="profiles")
    yield files("profile.a.inherits = 'a'\nprofile.default.retries = { backoff = 'exponential', count = 1, delay = '1s', max-delay = '2s' }", "profile.default.retries = { backoff = 'exponential', count = 1, delay = '3s' }", keys="profiles")


def drawn(choose, wrong):
    """The text of a file that is drawn: some profiles with some settings, one in so many wrong."""
    file = {}
    for name in choose.sample(["default", "default-miri", "a", "b", "c", "a.b", "a-b"], choose.randrange(1, 6)):
        profile = file.setdefault("profile", {}).setdefault(name, {})
        if not is_reserved(name) and choose.random() < 0.4:
            profile["inherits"] = choose.choice(["default", "default-miri", "a", "b", "c"] if choose.random() < 0.5 else ["default"])
        for key in choose.sample(list(RIGHT), choose.randrange(7)):
            profile[key] = choose.choice(WRONG if choose.randrange(wrong) == 0 else RIGHT[key])
        for key in ("bench", "junit"):
            if choose.random() < 0.3:
                rules = {"bench": ["slow-timeout", "global-timeout"], "junit": JUNIT_KEYS}[key]
                rights = {**dict.fromkeys(JUNIT_KEYS, ["x"]), **RIGHT, **JUNIT_RIGHT}
                profile[key] = {it: choose.choice(rights[it]) for it in choose.sample(rules, choose.randrange(len(rules) + 1))}
        if choose.random() < 0.1:
            profile[choose.choice(["zzz", "overrides", "bench", "junit"])] = {}
    if choose.random() < 0.2:
        file["store"] = {"dir": choose.choice(["d", "/d"])} if choose.random() < 0.8 else {}
    return "\n".join(f"{bare(key)} = {toml(value)}" for key, value in file.items())


JUNIT_RIGHT = {
    "store-success-output": [True, False], "store-failure-output": [True, False], "report-skipped": ["none", "ignored", "all"],
    "flaky-fail-status": ["failure", "success"],
}


def drawn_rows(seeds, wrong=60):
    for seed in seeds:
        choose = random.Random(seed)
        kinds = [choose.choice(["tool", "tool", "explicit", "discovered"]) for _ in range(choose.randrange(1, 5))]
        sources = [(kind, f"{place}.toml", "text " + drawn(choose, wrong)) for place, kind in enumerate(kinds)]
        keys = choose.sample(ALL.split(","), 4)
        yield choose.choice(["default", "default-miri", "a", "b", "a"]), ",".join(["profiles", "parents", *keys]), sources


def filter_rows():
    """Default filters without a language, of which the empty text is none."""
    none, some = 'default-filter = ""\n', 'default-filter = "x"\n'
    for text in (
        f"[profile.default]\n{none}",
        f"[profile.z]\n{none}",
        f"[profile.z]\n{none}[profile.b]\n{none}[profile.c]\n{some}",
        f"[profile.z]\n{none}inherits = 'q'\n",
        f"[profile.a]\n{none}[profile.z]\ninherits = 'z'\n",
        f"[profile.a]\n{none}[profile.default-z]\ninherits = 'a'\n",
        f"[profile.a]\n{none}retries = -1\n",
    ):
        yield "default", "default-filter", [repository(text)]
    for high, low in ((some, none), (none, some), (none, none), ("", none), ("retries = 1\n", none)):
        for name in ("default", "z"):
            yield name, "default-filter", [repository(f"[profile.{name}]\n{high}"), tool("t", f"[profile.{name}]\n{low}")]
    yield "x", "default-filter,parents", [repository(f"[profile.x]\ninherits = 'y'\n[profile.y]\n{some}")]
    yield "x", "default-filter,parents", [repository(f"[profile.x]\ninherits = 'y'\n[profile.y]\n{none}[profile.default]\n{some}")]


OVERRIDE_RIGHT = {
    "filter": ["x", "all()"],
    "default-filter": ["x"],
    "platform": ["p", {}, {"host": "p"}, {"target": "p"}, {"host": "p", "target": "q"}],
    "priority": [-100, 100],
    "threads-required": [2, "num-cpus", "num-test-threads"],
    "run-extra-args": [[], ["--a"]],
    "retries": [3, {"backoff": "fixed", "count": 2}],
    "flaky-result": ["fail"],
    "fail-weight": [1, 100],
    "slow-timeout": ["5s", {"period": "5s", "terminate-after": 2}],
    "leak-timeout": ["5s"],
    "test-group": ["@global"],
    "success-output": ["final"],
    "failure-output": ["never"],
    "bench": [{}, {"slow-timeout": "5s"}],
    "junit": [{}, {"report-skipped": "all"}],
}
# for each kind of refusal something that a file may have for which it is refused
REFUSED_FOR = {
    "BadValue": "profile.a.retries = -1",
    "BadOverride": "profile.a.overrides = [{ filter = 'x', priority = 101 }]",
    "BadGroup": "test-groups.g = {}",
    "BadName": "test-groups.'@tool:other:g'.max-threads = 1",
    "NoConstraint": "profile.b.overrides = [{ retries = 1 }]",
    "FilterAndDefaultFilter": "profile.h.overrides = [{ filter = 'x', default-filter = 'x' }]",
    "BadSpec": "profile.c.overrides = [{ platform = '' }]",
    "BadFilter": "profile.i.overrides = [{ filter = '' }]",
    "BadDefaultFilter": "profile.d.overrides = [{ platform = 'p', default-filter = '' }]",
    "UnknownGroup": "profile.j.overrides = [{ filter = 'x', test-group = 'nowhere' }]",
    "InheritsInDefault": "profile.default-x.inherits = 'default'",
    "UnknownParent": "profile.e.inherits = 'nowhere'",
    "Cycle": "profile.f.inherits = 'f'",
    "ProfileFilter": "profile.g.default-filter = ''",
}


def override_rows():
    # the values of each key, and what may not stand there
    for key, right in OVERRIDE_RIGHT.items():
        constraint = {} if key in ("filter", "platform") else {"filter": "x"}
        for value in [*right, *WRONG]:
            yield one(f"profile.default.overrides = [{toml({**constraint, key: value})}]", keys="retries")
    for table, key, value in [("bench", "slow-timeout", it) for it in WRONG] + [("junit", key, it) for key in JUNIT_KEYS for it in WRONG] + [("platform", side, it) for side in ("host", "target") for it in WRONG]:
        yield one(f"profile.default.overrides = [{{ filter = 'x' }}, {toml({'filter': 'x', table: {key: value}})}]", keys="retries")
    for value in [*WRONG, {}, [], [{}], [1], [{"filter": "x"}, []], [{"filter": "x"}, {"filter": "x", "zzz": 1}]]:
        yield one(f"profile.a.overrides = {toml(value)}", keys="profiles")
    # where a value of the profile and one of its overrides are bad, the key that comes first is told
    for key in KEYS:
        if key != "inherits":
            yield one(f"profile.default.{key} = -1\nprofile.default.overrides = [{{ priority = 101 }}]", keys="retries")
    # which overrides are constrained, and by which texts; the empty text is no filter and no spec
    texts = {"filter": ["x", ""], "default-filter": ["x", ""], "platform": ["p", "", {}, {"host": ""}, {"host": "p", "target": ""}, {"host": "", "target": ""}]}
    for chosen in itertools.product(*([None, *values] for values in texts.values())):
        yield one(f"profile.default.overrides = [{toml({key: value for key, value in zip(texts, chosen) if value is not None})}]", keys="retries")
    # names of groups, by where they are defined and where they are named
    names = ["g", "@tool:t:g", "@tool:other:g", "@global", "", "1", "e\u0301", "\u00e9"]
    for name in names:
        for source in (repository, lambda text: tool("t", text)):
            yield "default", "profiles", [source(f"test-groups.{elements.quoted(name)}.max-threads = 1")]
    for defined, named in itertools.product(names[:2] + names[6:], names):
        yield one(f"test-groups.{elements.quoted(defined)}.max-threads = 1\nprofile.a.overrides = [{{ filter = 'x', test-group = {elements.quoted(named)} }}]", keys="profiles")
    for value in [*WRONG, {}, {"max-threads": 1}, {"max-threads": "num-cpus"}, {"max-threads": 0}, {"max-threads": 1, "zzz": 1}]:
        yield one(f"test-groups.g = {toml(value)}", keys="profiles")
    for value in [*WRONG, {}, []]:
        yield one(f"test-groups = {toml(value)}", keys="profiles")
    # a group may be defined in one file and named in another, and a lower file's fault comes first
    use, define = "profile.a.overrides = [{ filter = 'x', test-group = 'g' }]", "test-groups.g.max-threads = 1"
    for low, high in ((use, define), (use, ""), (use, use.replace("'g'", "'h'")), ("profile.default.overrides = [{ filter = 'x', test-group = '@tool:t0:g' }]", define)):
        yield files(low, high, keys="profiles")
    # every refusal before and after every other, in one file and in two
    for (_, first), (_, second) in itertools.permutations(REFUSED_FOR.items(), 2):
        yield one(f"{first}\n{second}", keys="profiles")
        yield files(first, second, keys="profiles")
    # by the names of profiles, and in a profile by the places of overrides
    for order in itertools.permutations(("[{ }]", "[{ filter = '' }]", "[{ platform = '' }]")):
        yield one("\n".join(f"profile.{name}.overrides = {rules}" for name, rules in zip("cab", order)), keys="profiles")
        yield one(f"profile.a.overrides = [{', '.join(it[1:-1] for it in order)}]", keys="profiles")


# for each kind of refusal for which scripts are refused something that a file may have; `<a>` is a name that the file may define
SCRIPTS_REFUSED_FOR = {
    "BadScript": "scripts.setup.<a> = {}",
    "BothScriptTables": "script.<c>.command = 'x'\nscripts.setup.<d>.command = 'x'",
    "SetupNotEnabled": "scripts.setup.<e>.command = 'x'",
    "WrapperNotEnabled": "scripts.wrapper.<f>.command = 'x'",
    "BadScriptName": "scripts.setup.'@tool:other:s'.command = 'x'",
    "RepeatedScript": "scripts.setup.<g>.command = 'x'\nscripts.wrapper.<g>.command = 'x'",
    "NoScriptConstraint": "profile.l.scripts = [{}]",
    "BadScriptSpec": "profile.m.scripts = [{ platform = '' }]",
    "BadScriptFilter": "profile.n.scripts = [{ filter = '' }]",
    "ListWrapperRunFilter": "scripts.wrapper.<h>.command = 'x'\nprofile.o.scripts = [{ filter = 'x', list-wrapper = <h> }]",
    "UnknownScript": "profile.p.scripts = [{ filter = 'x', setup = 'nowhere' }]",
    "UnknownWrapper": "profile.q.scripts = [{ filter = 'x', run-wrapper = 'nowhere' }]",
}
# what a file may have, of the same kind, for which it is refused before or behind those
BEFORE_SCRIPTS = (
    "BadValue BadName NoConstraint FilterAndDefaultFilter BadSpec BadFilter UnknownGroup InheritsInDefault UnknownParent Cycle ProfileFilter".split()
)
BOTH = "setup-scripts,wrapper-scripts"
DEFINED = "scripts,script-rules"
FEW_WRONG = ["x", 1, [1], {"a": 1}]


def own(text, kind="discovered"):
    """A text in which each `<a>` is a name that such a file may define."""
    return re.sub("<(.*?)>", r'"@tool:t:\1"' if kind == "tool" else r'"\1"', text)


def with_scripts(*texts, words=BOTH, keys=DEFINED):
    """The lowest first; the last one is the repository's."""
    tools = [tool(f"t{place}", own(text, "tool")) for place, text in enumerate(texts[:-1])]
    return "default", keys, [*tools[::-1], repository(own(texts[-1]))], *([words] if words else [])


def known_for(*kinds):
    """The features that are known, so that these are refused."""
    return ",".join(it for it in BOTH.split(",") if it.split("-")[0].title() + "NotEnabled" not in kinds)


def script_pair_rows():
    """Every refusal before and behind every other that comes of scripts, or not; in one file and in two."""
    refused = {**{kind: REFUSED_FOR[kind] for kind in BEFORE_SCRIPTS}, **SCRIPTS_REFUSED_FOR}
    for kind, text in SCRIPTS_REFUSED_FOR.items():
        yield with_scripts(text, words=known_for(kind), keys="profiles")
        yield with_scripts(text, "", words=known_for(kind), keys="profiles")
        yield with_scripts(text, words="", keys="profiles")
    for first, second in itertools.combinations(refused, 2):
        if second in SCRIPTS_REFUSED_FOR:
            pair = refused[first], refused[second]
            yield with_scripts("\n".join(pair), words=known_for(first, second), keys="profiles")
            yield with_scripts(*pair, words=known_for(first, second), keys="profiles")
            yield with_scripts(*pair[::-1], words=known_for(first, second), keys="profiles")


def script_stage_rows():
    """Every refusal that comes of scripts beside a source without a text, or one that is no TOML, and beside what no file says alone."""
    low, high = (f"profile.z.retries = {{ backoff = 'exponential', count = 1, {delays} }}" for delays in ("delay = '1s', max-delay = '2s'", "delay = '3s'"))
    for kind, text in SCRIPTS_REFUSED_FOR.items():
        below, above = tool("t", own(text, "tool")), repository(own(text))
        for other in ("failed x", "text ="):
            yield "default", "profiles", [("tool", "u.toml", other), above], known_for(kind)
            yield "default", "profiles", [below, ("explicit", "e.toml", other)], known_for(kind)
        yield with_scripts(low, f"{high}\n{text}", words=known_for(kind), keys="profiles")
        yield with_scripts(f"{low}\n{text}", high, words=known_for(kind), keys="profiles")


COMMANDS = [
    "p", " p  x\ty\n", "p 'a b' \"c d\"", "p a\\ b # c", "''", ["p"], ["p", "a b", ""], [""], {"command-line": "p x"}, {"command-line": ["p"], "env": {}},
    {"command-line": "p", "env": {"B": "1", "A": "x y", "b": ""}, "relative-to": "target"}, {"command-line": "p", "relative-to": "workspace-root"},
    {"command-line": "p", "relative-to": "none", "zzz": 1}, {"command-line": "p", "env": {"nextest": "1", "_NEXTEST": "2", "": "3"}},
]
NO_COMMANDS = [
    "", " \t\n", "# p", "p 'a", 'p "a\\"', [], ["p", 1], 1, True, 1.5, DAY, {}, {"env": {}}, {"command-line": ""}, {"command-line": []},
    {"command-line": {"command-line": "p"}}, {"command-line": "p", "env": ["A"]}, {"command-line": "p", "env": {"A": 1}},
    {"command-line": "p", "env": {"NEXTEST_A": "1"}}, {"command-line": "p", "env": {"NEXTEST": 1}}, {"command-line": "p", "env": {"NEXTEST": "1", "A": 2}},
    {"command-line": "p", "env": {"NEXTESTED": "1"}},
    {"command-line": "p", "relative-to": "Target"}, {"command-line": "p", "relative-to": 1}, {"relative-to": 1, "env": 1},
]
SETUP_RIGHT = {
    "slow-timeout": ["5s", {"period": "5s", "terminate-after": 2, "grace-period": "0s", "on-timeout": "pass"}],
    "leak-timeout": ["1s", {"period": "0s", "result": "fail"}],
    "capture-stdout": [True, False],
    "capture-stderr": [True],
    "junit": [{}, {"store-success-output": False}, {"store-failure-output": False, "zzz": 1}],
}


def script_value_rows():
    """What may stand at the keys of scripts and of script rules, and what may not."""
    for command in [*COMMANDS, *NO_COMMANDS]:
        yield with_scripts(f"scripts.setup.<a>.command = {toml(command)}")
    for command in [COMMANDS[1], COMMANDS[10], *NO_COMMANDS[3:5], NO_COMMANDS[12]]:
        yield with_scripts(f"script.<a>.command = {toml(command)}")
        yield with_scripts(f"scripts.wrapper.<a>.command = {toml(command)}")
    for key, right in SETUP_RIGHT.items():
        for value in [*right, *FEW_WRONG]:
            yield with_scripts(f"scripts.setup.<a> = {toml({'command': 'p', key: value})}")
    for key, value in itertools.product(("store-success-output", "store-failure-output"), ["x", 1]):
        yield with_scripts(f"script.<a> = {toml({'junit': {key: value}, 'command': 'p'})}")
    for value in ["ignore", "overrides-wrapper", "within-wrapper", "around-wrapper", "Ignore", *FEW_WRONG]:
        yield with_scripts(f"scripts.wrapper.<a> = {toml({'command': 'p', 'target-runner': value})}")
    for key in ("filter", "platform", "setup", "list-wrapper", "run-wrapper"):
        for value in ["", "1a", 1, ["x", 1], ["x", ""], {"a": 1}, []]:
            yield with_scripts(f"profile.default.scripts = [{{ filter = 'all()' }}, {toml({**({} if key == 'filter' else {'filter': 'all()'}), key: value})}]")
    for place in ("script", "scripts", "scripts.setup", "scripts.wrapper", "scripts.setup.a", "scripts.wrapper.a", "script.a", "profile.a.scripts"):
        for value in ["x", {}, [], [1], {"command": "p"}]:
            yield with_scripts(f"{place} = {toml(value)}")
    # of several the first by the bytes of the keys, and a key that must stand as if it stood
    for pair in itertools.combinations(["nextest-version = 1", "profile.a = 1", "script = 1", "scripts = 1", "store = 1", "test-groups = 1"], 2):
        yield with_scripts("\n".join(pair[::-1]))
    for key in ("overrides", "run-extra-args", "retries", "slow-timeout", "status-level", "junit"):
        yield with_scripts(f"profile.a.scripts = 1\nprofile.a.{key} = 1979-05-27")
    for key in SETUP_RIGHT:
        yield with_scripts(f"scripts.setup.<a>.{key} = 1979-05-27")
    for text in ("scripts.wrapper.<a> = 1\nscripts.setup.<b> = 1", "scripts.setup = { b = 1, a = 2, '1' = 3 }", "scripts.setup = { b = 1, a = 2 }", "script.<a>.command = 'p'\nscript.<b> = 1"):
        yield with_scripts(text)
    for rules in ("[{ filter = 'x' }, { setup = 1, run-wrapper = 1 }, 1]", "[{}, { platform = 1, filter = 1 }]", "[{ list-wrapper = 1, platform = 1 }]", "[{ platform = { host = 1, target = 1 }, setup = [] }]"):
        yield with_scripts(f"profile.a.scripts = {rules}")


def script_name_rows():
    """Which names scripts may have, and which of them rules may name."""
    names = ["s", "@tool:t:s", "@tool:other:s", "@tool:t", "@global", "", "1", "e\u0301", "\u00e9"]
    for table, name in itertools.product(("script", "scripts.setup", "scripts.wrapper"), names):
        for source in (repository, lambda text: tool("t", text)):
            yield "default", DEFINED, [source(f"{table}.{elements.quoted(name)}.command = 'p'")], BOTH
    # groups first, then setup scripts, and then wrapper scripts
    wrong = ["test-groups.'@tool:t:z'.max-threads = 1", "scripts.setup.'@tool:t:y'.command = 'p'", "scripts.wrapper.'@tool:t:x'.command = 'p'"]
    for pair in [*itertools.combinations(wrong, 2), (wrong[0], wrong[1].replace("scripts.setup", "script"))]:
        yield with_scripts("\n".join(pair[::-1]))
    # one name twice
    for setup, wrapper in (("e\u0301", "\u00e9"), ("a", "A"), ("b", "b")):
        yield with_scripts(f"scripts.setup.{elements.quoted(setup)}.command = 'p'\nscripts.wrapper.{elements.quoted(wrapper)}.command = 'q'")
    yield with_scripts("scripts.setup.\"e\u0301\".command = 'p'\nscripts.setup.\"\u00e9\".command = 'q'")
    yield with_scripts("scripts.setup = { d = { command = 'p' }, c = { command = 'p' } }\nscripts.wrapper = { c = { command = 'q' }, d = { command = 'q' } }")
    # a rule names what any file defines, of the kind that it needs
    defined = "scripts.setup.<s>.command = 'p'\nscripts.wrapper.<w>.command = 'q'\nscripts.setup.\"e\u0301\".command = 'r'"
    for rule in (
        {"setup": "s"}, {"setup": ["s", "s", "\u00e9"]}, {"setup": "w"}, {"setup": ["s", "x", "y"]}, {"setup": []}, {"list-wrapper": "w"}, {"run-wrapper": "w"}, {"list-wrapper": "s"},
        {"run-wrapper": "s"}, {"list-wrapper": "x", "run-wrapper": "y"}, {"run-wrapper": "y", "setup": "x"}, {"setup": "s", "list-wrapper": "w", "run-wrapper": "w"}, {"setup": "@tool:t:s"},
    ):
        yield with_scripts(f"{defined}\nprofile.a.scripts = [{toml({'filter': 'all()', **rule})}]")
    use = "profile.a.scripts = [{ filter = 'all()', setup = %s }]"
    for low, high in (
        (use % "'s'", "scripts.setup.<s>.command = 'p'"), ("scripts.setup.<s>.command = 'p'", use % "'@tool:t:s'"), ("script.<s>.command = 'p'", use % "'@tool:t:s'"), (use % "'s'", "script.<s>.command = 'p'"),
        (use % "'s'", "scripts.wrapper.<s>.command = 'p'"), (use % "'x'", use % "'y'"), (use.replace("setup", "run-wrapper") % "'x'", use % "'y'"), (use.replace("setup", "run-wrapper") % "'x'", use.replace("setup", "list-wrapper") % "'y'"),
        (use % "'x'", "profile.a.overrides = [{ filter = 'x', test-group = 'nowhere' }]"),
    ):
        yield with_scripts(low, high)


def script_rule_rows():
    """Which script rules are constrained, by which texts, and in which order rules are looked at."""
    texts = {"filter": ["x", "all()", ""], "platform": ["p", "", {}, {"host": "", "target": ""}], "list-wrapper": ["w"]}
    for chosen in itertools.product(*([None, *values] for values in texts.values())):
        rule = {key: value for key, value in zip(texts, chosen) if value is not None}
        yield with_scripts(f"scripts.wrapper.<w>.command = 'p'\nprofile.default.scripts = [{toml(rule)}]")
    rules = "[{ }]", "[{ filter = '' }]", "[{ platform = '' }]"
    for order in itertools.permutations(rules, 2):
        yield with_scripts(f"profile.a.scripts = [{', '.join(it[1:-1] for it in order)}]")
        yield with_scripts(f"profile.b.scripts = {order[0]}\nprofile.a.scripts = {order[1]}")
        yield with_scripts(f"profile.a.scripts = {order[0]}\nprofile.a.overrides = {order[1]}")
        yield with_scripts(f"profile.a.scripts = {order[0]}\nprofile.b.overrides = {order[1]}")
    # other keys are read past
    yield with_scripts("profile.a.scripts = [{ filter = 'all()', default-filter = '', retries = -1, zzz = 1 }]")
    yield with_scripts("scripts.zzz.a = {}\nscripts.setup.<a> = { command = 'p', target-runner = 1, run-wrapper = 1 }\nscripts.wrapper.<b> = { command = 'p', slow-timeout = 1 }")
    yield with_scripts("profile.a.scripts = [{ filter = 'a' }, { filter = 'b' }]", "profile.b.scripts = [{ platform = 'p' }]\nprofile.a.scripts = [{ filter = 'c' }]")
    yield with_scripts("profile.a.scripts = [{ filter = 'x', list-wrapper = '@tool:t:w' }]\nscripts.wrapper.<w>.command = 'p'", "profile.a.scripts = [{ filter = '' }]")


def feature_rows():
    """Which features are known, and which scripts need them."""
    texts = ["script.<a>.command = 'p'", "scripts.setup.<a>.command = 'p'", "scripts.wrapper.<a>.command = 'p'", "scripts.setup.<a>.command = 'p'\nscripts.wrapper.<b>.command = 'p'"]
    for text, words in itertools.product(texts, ("", "setup-scripts", "wrapper-scripts", BOTH, "benchmarks")):
        yield with_scripts(text, words=words)
    asked = [
        "experimental = ['setup-scripts']", "experimental = ['wrapper-scripts']", "experimental = ['wrapper-scripts', 'zzz', 'setup-scripts']", "experimental = { setup-scripts = true, wrapper-scripts = false }",
        "experimental = { setup-scripts = true, wrapper-scripts = true }", "experimental = []", "experimental = ['setup-scripts', 1]", "experimental = ['setup-scripts', 'wrapper-scripts']\nnextest-version = 'x'",
    ]
    for text in asked:
        yield with_scripts(f"{text}\n{texts[3]}", words="asked")
        yield with_scripts(texts[3], text, words="asked")
    for text in (asked[0], asked[2], asked[5]):
        yield with_scripts(text, texts[1], words="asked")
        yield with_scripts(texts[1], text, "", words="asked")
    both = own(f"{asked[4]}\n{texts[3]}")
    yield "default", DEFINED, [repository(both, "explicit"), ("discovered", "d.toml", "text " + own(texts[3]))], "asked"
    yield "default", DEFINED, [repository(own(texts[3]), "explicit"), ("discovered", "d.toml", "text " + both)], "asked"
    # rules alone need none, nor do tables without scripts
    for text in ("script = {}", "scripts = {}", "scripts = { setup = {}, wrapper = {} }", "profile.a.scripts = [{ filter = 'all()' }]", "script = {}\nscripts.setup = {}"):
        yield with_scripts(text, words="")
        yield with_scripts(text)
    for table in ("script = {}\nscripts.setup.<b>.command = 'p'", "script.<a>.command = 'p'\nscripts.setup = {}", "script.<a>.command = 'p'\nscripts.wrapper.<b>.command = 'p'", "script.<a>.command = 'p'\nscripts.wrapper = {}"):
        yield with_scripts(table)
        yield with_scripts(*table.split("\n"))


def script_merge_rows():
    """Scripts of several files: what stands under `script` stands under `scripts.setup` of what all come to."""
    repositories = [
        "script.'@tool:t:a'.command = 'new'", "scripts.setup.<b>.command = 'new'", "script.<b>.command = { command-line = 'new', relative-to = 'none' }", "scripts = {}", "script = {}", "scripts.wrapper.<a>.command = 'w'",
    ]
    tools = [
        "script.<a> = { command = { command-line = 'old', env = { A = 'old' }, relative-to = 'target' }, capture-stdout = true }",
        "scripts.setup.<a> = { command = ['old'], leak-timeout = { period = '1s', result = 'fail' } }",
        "script.<a> = { command = { command-line = 'older', env = { B = 'older' } }, leak-timeout = { period = '2s' }, junit.store-success-output = false }",
        "scripts.setup.<a> = { command = { command-line = ['oldest', 'x'], env = { A = 'oldest' } }, slow-timeout = '5s' }",
        "scripts.wrapper.<a> = { command = 'w', target-runner = 'around-wrapper' }",
    ]
    for low, high in itertools.permutations(tools, 2):
        yield with_scripts(low, high, "")
    for low, high in itertools.product(tools[:2], repositories):
        yield with_scripts(low, high)
    for three in itertools.permutations(tools[:3], 3):
        yield with_scripts(*three, "scripts.setup.<b>.command = 'p'")
    # two keys that are one name
    yield with_scripts("script.\"\u00e9\".command = 'p'", words="setup-scripts")
    yield "default", DEFINED, [tool("t", "scripts.setup.\"@tool:t:e\u0301\".command = 'p'"), tool("u", "script.\"@tool:t:\u00e9\".command = 'q'"), repository("profile.a.scripts = [{ filter = 'x', setup = \"@tool:t:\u00e9\" }]")], BOTH
    # what `script` and `scripts` are in several files
    for low, high in (("script = {}", "scripts = 1"), ("scripts = []", "script = {}"), ("scripts.setup = {}", "script = 'x'")):
        yield with_scripts(low, high)


def script_rows():
    for rows in (script_pair_rows, script_stage_rows, script_value_rows, script_name_rows, script_rule_rows, feature_rows, script_merge_rows):
        yield from rows()


def load_rows():
    for rows in (source_rows, value_rows, merge_rows, chain_rows, filter_rows, override_rows):
        yield from rows()
    yield "default", "profiles", [tool("t", "experimental = ['setup-scripts', 'zzz']")]
    yield from drawn_rows(range(200))
    yield from script_rows()


def load_pairs():
    for name, keys, sources, *words in load_rows():
        told = " | ".join(" ".join(source) for source in sources)
        yield " ".join([name, keys, *words]) + f" | {told}", load_answer(name, keys, sources, *(words or [""]))


# ---- the rows of warnings


def places(form, text, rest=""):
    """Texts, each with an unknown key at one of the places below a form."""
    if isinstance(form, Each):
        keys = ["a", '"b.c"'] if form.kind is dict else []
        for key in keys:
            yield from places(form.form, f"{text}.{key}" if text else key)
        return
    if isinstance(form, dict):
        where = f"{text}." if text else ""
        yield f"{where}zzz = 1"
        yield f"{where}zzz.x.y = 1\n{where}aaa = []"
        yield f"{where}zzz = {{}}"
        for key, below in form.items():
            yield f"{where}{key} = 1"
            yield f"{where}{key.upper()} = 1"
            yield f"{where}{key}.zzz = 1"
            yield f"{where}{key} = [{{ zzz = 1 }}, 2]"
            if below is not ANY:
                yield from places(below, f"{where}{key}")


def inline_places(name, form):
    for key, below in form.items():
        yield f"[[profile.default.{name}]]\n{key} = 1\nzzz = 1\n"
        yield f"[[profile.default.{name}]]\n[[profile.default.{name}]]\n{key} = {{ zzz = {{ a = 1 }} }}\n"
        if below is not ANY:
            for inner in below:
                yield f"[[profile.default.{name}]]\n{key}.{inner} = {{ zzz = 1 }}\n{key}.zzz = 1\n"


def warning_texts():
    yield from ["", "x = 1", "x = 1\na = 2\nX = 3", BUILT_IN.strip()]
    yield from places(TOP, "")
    yield from inline_places("overrides", OVERRIDE)
    yield from inline_places("scripts", PROFILE_KEYS["scripts"].form)
    for where in ("profile.default.retries", "profile.x.retries"):
        for backoff in ("fixed", "exponential", "Fixed", "", 1):
            yield f"{where} = {{ backoff = {toml(backoff)}, count = 1, max-delay = '1s' }}"
        yield f"{where} = {{ max-delay = '1s' }}"
        yield f"{where} = {{ backoff = ['fixed'], max-delay = '1s' }}"
    yield "[[profile.default.overrides]]\nretries = { backoff = 'fixed', count = 1, max-delay = '1s' }"
    yield "[[profile.default.overrides]]\nretries = { backoff = 'exponential', count = 1, delay = '1s', max-delay = '1s' }"
    yield "profile.default.overrides = { zzz = 1 }"
    yield "profile.default.overrides = [1, { zzz = 1 }, [{ zzz = 1 }]]"
    yield "profile.default.overrides = [" + "{ filter = 'all()' }, " * 10 + "{ filter = 'all()', b = 1, a = 2 }]"
    yield "profile = [{ zzz = 1 }]"
    yield "profile.default = [{ zzz = 1 }]"
    yield "profile.default.retries = [{ zzz = 1 }]"
    for name in ("default-x", "default-", "default-miri", "default-miri2", "default-Miri", "default", "defaults", "Default-x", "a-default-x", "default_x"):
        yield f"[profile.{name}]"
        yield f"[profile.{name}]\nzzz = 1"
    yield "[profile.default-b]\n[profile.default-a]\n[profile.default-B]\nzzz = 1\n[profile.a]\nzzy = 1"
    yield 'profile."default-é" = {}\nprofile."default-z" = {}\nprofile."default-\\n" = {}\nprofile."default-\\u007f" = {}'
    yield "profile.default-x = 1"
    yield '"" = 1\n" " = 2\n"a.b" = 3\n"a\\tb" = 4\n"\\u0000" = 5\n"é" = 6\n"\\u007f" = 7\n"\\u0080" = 8\n"🎉" = 9'
    yield 'profile."a\\nb".zzz = 1\nprofile."a.b".zzz = 2\nprofile."".zzz = 3'
    yield "[scripts.setup.x]\ncommand = { command-line = 'a', env = { A = 'b' }, relative-to = 'target', zzz = 1 }\nslow-timeout = { period = '1s', zzz = 1 }\nleak-timeout.zzz = 1\njunit = { store-success-output = true, path = 'x' }\nzzz = 1"
    yield "[scripts.wrapper.x]\ncommand = ['a', 'b']\ntarget-runner = 'ignore'\ncapture-stdout = true"
    yield "[script.x]\ncommand = 'a'\nzzz = 1\n[scripts]\nother = {}\n[test-groups.g]\nmax-threads = 1\nmin-threads = 1"


def script_warning_texts():
    """Tables of scripts where they stood before, and rules that name no script."""
    for table in ("{}", "{ a = {} }", "1", "[]", "[{ a = 1 }]", "{ a = 1, b = 2 }"):
        yield f"script = {table}"
        yield f"scripts.setup = {table}"
    rules = [
        "{}", "{ setup = [] }", "{ setup = 'a' }", "{ setup = ['a'] }", "{ setup = [[]] }", "{ setup = {} }", "{ setup = 1 }", "{ list-wrapper = 'a' }", "{ run-wrapper = [] }",
        "{ setup = [], run-wrapper = 'a' }", "{ filter = 'x', platform = 'p' }", "{ zzz = 1 }", "[]", "1",
    ]
    for rule in rules:
        yield f"profile.a.scripts = [{rule}]"
        yield f"profile.a.scripts = [{rule}, {{ }}, {rule}]"
    for value in ("{}", "[]", "'x'", "{ setup = [] }"):
        yield f"profile.a.scripts = {value}"
    yield "profile = [{ scripts = [{}] }]"
    yield "profile.a = [{ scripts = [{}] }]"
    yield "profile.b.scripts = [{}]\nprofile.a.scripts = [{}, {}]\nprofile.B.scripts = [{}]\nprofile.'a.b'.scripts = [{}]\nprofile.c.overrides = [{}]"
    yield "profile.\"a\\nb\".scripts = [{}]\nprofile.\"\".scripts = [{}]\nprofile.\"\u00e9\".scripts = [{}]"
    yield f"profile.default.scripts = [{', '.join(['{}'] * 12)}]"
    yield "profile.default-x.scripts = [{ zzz = 1 }]\nzzz = 1\nscript.a = {}\nscripts.zzz = 1\nprofile.default-a.scripts = [{ setup = [] }]"


def warning_pairs():
    for text in script_warning_texts():
        yield f"r.toml {text}", warning_answer("r.toml", text)
    for text in warning_texts():
        yield f"r.toml {text}", warning_answer("r.toml", text)
    for path in ("/a/b.toml", "é.toml", "a\u0001b.toml", "a\u007f\u0080.toml", "\u001b"):
        for text in ("x = 1\nprofile.default-x = {}", "script.a = 1\nprofile.a.scripts = [{}]"):
            yield f"{path} {text}", warning_answer(path, text)


# ---- the files

TABLE_ROWS = {
    "loads": (
        "PROFILE SETTINGS FEATURES | KIND PATH OUTCOME | .. => each setting, or `refused`, the rule and where; FEATURES are those that are known,"
        " `asked` for those that the sources ask for, and may be left out; OUTCOME is `missing`, `failed` and a cause, or `text` and the text",
        load_pairs,
    ),
    "warnings": ("PATH TEXT => what is told of the file, in order; `-` where nothing is", warning_pairs),
}


def main():
    numbers = {}
    for name, (head, pairs) in TABLE_ROWS.items():
        rows = dict.fromkeys(f"{text} => {answer}".translate(SIGNS) for text, answer in pairs())
        lines = [f"# Made by scripts/config_rows.py. {head}", *rows]
        (CRATE / f"data/{name}.txt").write_text("\n".join(lines) + "\n")
        numbers[name] = len(rows)
    elements.tell_numbers(numbers)
    print(numbers)


if __name__ == "__main__":
    main()
