#!/usr/bin/env python3
"""Writes the rows of the table `versions` of rows/, whole inputs and what the versions and features that their sources ask
for come to, and of `verdicts` of worked_rows, lists of sources and the verdict on a version, reckoned here from the rules
and by nothing of the project.

Run it from the repository's root: `scripts/version_rows.py`. It writes the two files versions.txt and verdicts.txt, and prints
how many rows there are. The rules: sources count from the lowest up, the tools' with the first handed in as the highest, then of the
repository's the first that was named, else the first that was looked for. A text that is no TOML or asks in other than the
forms, and a tool that asks for a feature, refuse the inputs (`VersionSource`); then a required version above the current one,
unless it is passed over (`VersionError`); then a feature that isn't known (`UnknownFeature`); then a source that counts and
isn't there, unless it was only looked for (`Load.Unread`). Behind the warning of a version stand those of the keys below
`nextest-version` that nobody knows, the lowest source first. Of the greatest version of a role
the last source that asks for one equal to it counts. Versions stand by SemVer 2.0, builds aside.
"""
import functools
import itertools
import json
import pathlib
import re

ROOT = pathlib.Path(__file__).resolve().parent.parent
FEATURES = {"setup-scripts", "wrapper-scripts", "benchmarks"}
NUMBER = r"(0|[1-9][0-9]*)"
PART = r"(?:0|[1-9][0-9]*|[0-9]*[A-Za-z-][0-9A-Za-z-]*)"
VERSION = re.compile(rf"{NUMBER}\.{NUMBER}\.{NUMBER}(?:-({PART}(?:\.{PART})*))?(?:\+([0-9A-Za-z-]+(?:\.[0-9A-Za-z-]+)*))?")
SHORT = re.compile(rf"{NUMBER}\.{NUMBER}")


def version(text):
    """The version that a text asks for, as it prints, or None."""
    if not isinstance(text, str):
        return None
    if SHORT.fullmatch(text):
        text += ".0"
    match = VERSION.fullmatch(text)
    if match is None or any(int(match[i]) >= 2**64 for i in (1, 2, 3)):
        return None
    return text


def before(one, other):
    """Whether a version stands before another: -1, 0 or 1."""
    a, b = VERSION.fullmatch(one), VERSION.fullmatch(other)
    numbers = [[int(m[i]) for i in (1, 2, 3)] for m in (a, b)]
    if numbers[0] != numbers[1]:
        return -1 if numbers[0] < numbers[1] else 1
    if (a[4] is None) != (b[4] is None):
        return 1 if a[4] is None else -1
    for x, y in itertools.zip_longest((a[4] or "").split("."), (b[4] or "").split(".")):
        if x == y:
            continue
        if x is None or y is None:
            return -1 if x is None else 1
        if x.isdigit() != y.isdigit():
            return -1 if x.isdigit() else 1
        if x.isdigit():
            return -1 if int(x) < int(y) else 1
        return -1 if x < y else 1
    return 0


class Bad(Exception):
    pass


def asked(value):
    """The required and the recommended version of what `nextest-version` is set to."""
    if value is None:
        return None, None
    if isinstance(value, str):
        value = {"required": value}
    if not isinstance(value, dict):
        raise Bad
    found = []
    for key in ("required", "recommended"):
        if key in value and version(value[key]) is None:
            raise Bad
        found.append(version(value[key]) if key in value else None)
    return tuple(found)


def features(value):
    """The features that `experimental` asks for."""
    if value is None:
        return []
    if isinstance(value, list) and all(isinstance(it, str) for it in value):
        return value
    if isinstance(value, dict) and all(isinstance(it, bool) for it in value.values()):
        return [key for key, it in value.items() if it]
    raise Bad


def toml(value):
    """A value as TOML."""
    if isinstance(value, bool):
        return "true" if value else "false"
    if isinstance(value, str):
        return json.dumps(value, ensure_ascii=False)
    if isinstance(value, list):
        return "[" + ", ".join(map(toml, value)) + "]"
    if isinstance(value, dict):
        return "{ " + ", ".join(f"{json.dumps(k)} = {toml(v)}" for k, v in value.items()) + " }" if value else "{}"
    return str(value)


class Source:
    def __init__(self, kind, path, wanted=None, names=None, text=None, read=True, extra=""):
        self.kind, self.path, self.wanted, self.names, self.read = kind, path, wanted, names, read
        lines = [] if wanted is None else [f"nextest-version = {toml(wanted)}\n"]
        lines += [] if names is None else [f"experimental = {toml(names)}\n"]
        self.text = "".join(lines) + extra if text is None else text
        self.is_toml = text is None

    def record(self):
        found = {"kind": self.kind, "path": self.path}
        if self.kind == "tool":
            found["tool"] = "t" + self.path[:1]
        found.update({"text": self.text} if self.read else {"missing": True})
        return found


def escaped(path):
    return "".join(f"\\u{{{ord(c):x}}}" if ord(c) < 32 or ord(c) == 127 else c for c in path)


def outcome(sources, current, override):
    """What the inputs come to: the name of a refusal, or their warnings."""
    tools = [it for it in sources if it.kind == "tool"][::-1]
    repository = [it for it in sources if it.kind == "explicit"][:1] or [it for it in sources if it.kind == "discovered"][:1]
    greatest, unknown = [None, None], False
    for source in tools + repository:
        if not source.read:
            continue
        try:
            if not source.is_toml:
                raise Bad
            names = features(source.names)
            versions = asked(source.wanted)
            if names and source.kind == "tool":
                raise Bad
        except Bad:
            return "VersionSource"
        unknown = unknown or any(it not in FEATURES for it in names)
        for role in (0, 1):
            if versions[role] is not None and (greatest[role] is None or before(versions[role], greatest[role][0]) >= 0):
                greatest[role] = versions[role], source.path
    told = ""
    for role, name in enumerate(("required", "recommended")):
        if greatest[role] is not None and before(greatest[role][0], current) > 0:
            wanted, path = greatest[role]
            if role == 0 and not override:
                return "VersionError"
            told = f" [version {name} {wanted} current {current} by {escaped(path)}{' (overridden)' if override else ''}]"
            break
    if unknown:
        return "UnknownFeature"
    if any(not it.read and it.kind != "discovered" for it in tools + repository):
        return "Load.Unread"
    for it in tools + repository:
        keys = sorted(set(it.wanted) - {"required", "recommended"}) if it.read and isinstance(it.wanted, dict) else []
        told += "".join(f" [unknown key nextest-version.{key} in {escaped(it.path)}]" for key in keys)
    return "warnings" + told


def rows():
    one = functools.partial(Source, "explicit", "nextest.toml")
    currents = ["0.9.55", "0.9.60", "0.9.65", "0.9.100", "1.0.0-rc.1", "1.0.0+b"]
    wants = ["0.9.60", "0.9", "1.0", "1.0.0-rc.1", "1.0.0-rc.2", "1.0.0-rc.10", "1.0.0-alpha", "1.0.0+a", "0.9.60-b+c.d"]
    for current, wanted in itertools.product(currents, wants):
        for override in (False, True):
            yield [one(wanted)], current, override
    for wanted in ({"required": "0.9.60", "recommended": "0.9.70"}, {"recommended": "0.9.70"}, {"required": "0.9.70", "recommended": "0.9.60"}, {}, {"zzz": 1, "required": "0.9.60"}):
        for current in ("0.9.55", "0.9.65", "0.9.70"):
            yield [one(wanted)], current, False
            yield [one(wanted)], current, True
    for bad in ("", "1", "1.", "1.2.", "1.2.3.4", "01.2", "1.02.3", "1.2.3-", "1.2.3+", "1.2.3-01", "1.2-a", "v1.2.3", " 1.2.3", "1.2.3 ", "1.2.x", "18446744073709551616.0", 1, True, ["0.9"], {"required": 9}, {"recommended": "x"}, {"required": "0.9", "recommended": False}):
        yield [one(bad)], "0.9.100", False
    yield [one("18446744073709551615.0")], "0.9.100", True
    yield [one("1.2.3--")], "0.9.100", True
    for names in ([], ["setup-scripts"], ["benchmarks", "wrapper-scripts"], ["foo"], ["setup-scripts", "foo"], {"foo": True}, {"foo": False}, {"setup-scripts": True, "benchmarks": False}, "setup-scripts", True, 1, [1], ["setup-scripts", 2], {"setup-scripts": "yes"}, {"foo": 1}, {}):
        yield [one(None, names)], "0.9.100", False
        yield [Source("tool", "a.toml", None, names)], "0.9.100", False
        yield [one("0.9.200", names)], "0.9.100", False
        yield [one("0.9.200", names)], "0.9.100", True
    yield [one(text="x")], "0.9.100", False
    yield [one(text="nextest-version = '0.9.200'\nx")], "0.9.100", False
    yield [Source("explicit", "a\u0001b\u007f.toml", "0.9.200")], "0.9.100", True
    yield [Source("explicit", "Δ é.toml", {"recommended": "0.9.200"})], "0.9.100", False
    yield [Source("discovered", "d.toml", {"recommended": "0.9.200"})], "0.9.100", False
    yield [Source("tool", "a.toml", {"recommended": "0.9.200"})], "0.9.100", False
    yield [Source("tool", "a.toml", "0.9.200")], "0.9.100", False
    for read in itertools.product((True, False), repeat=2):
        for kinds in (("tool", "explicit"), ("explicit", "discovered"), ("discovered", "tool"), ("tool", "tool"), ("discovered", "discovered"), ("explicit", "explicit")):
            pair = [Source(kind, f"{name}.toml", "0.9.200", read=is_read) for kind, name, is_read in zip(kinds, "ab", read)]
            yield pair, "0.9.100", False
            yield [Source(kinds[0], "a.toml", "0.9.60", ["foo"], read=read[0]), Source(kinds[1], "b.toml", {"recommended": "0.9.200"}, read=read[1])], "0.9.100", False
    yield [Source("discovered", "a.toml", text="x"), one()], "0.9.100", False
    yield [one(), Source("discovered", "a.toml", text="x")], "0.9.100", False


def verdict(sources, current, override):
    """What a list of sources comes to, and the verdict on a version."""
    greatest, known, unknown = [None, None], set(), []
    for source in sources:
        names, versions = features(source.names), asked(source.wanted)
        if names and source.kind == "tool":
            return f"{source.path}: a tool may ask for no experimental feature"
        known |= set(names) & FEATURES
        unknown += [it for it in names if it not in FEATURES]
        for role in (0, 1):
            if versions[role] is not None and (greatest[role] is None or before(versions[role], greatest[role][0]) >= 0):
                greatest[role] = versions[role], source.path
    told = "satisfied"
    for role, name in enumerate(("error", "warn")):
        if greatest[role] is not None and before(greatest[role][0], current) > 0:
            told = f"{name}{'-override' if override else ''} {greatest[role][0]} by {greatest[role][1]}"
            break
    order = [it for it in ("setup-scripts", "wrapper-scripts", "benchmarks") if it in known]
    return f"{told}; known{''.join(' ' + it for it in order)}; unknown{''.join(' ' + it for it in unknown)}"


def lists():
    """Lists of sources, the lowest first, with a current version and whether it is let pass."""
    one = functools.partial(Source, "explicit", "nextest.toml")
    tool = functools.partial(Source, "tool")
    yield [tool("t.toml", "0.9.60"), one("0.9.60")], "0.9.55", False
    yield [one({"required": "0.9.60", "recommended": "0.9.70"})], "0.9.65", False
    wants = ["0.9.60", "0.9.60+a", {"recommended": "0.9.60"}, {"required": "0.9.50", "recommended": "0.9.70-rc.1"}, {}, None]
    for first, second, third in itertools.product(wants, repeat=3):
        for current in ("0.9.55", "0.9.70-rc.0"):
            yield [tool("a.toml", first), tool("b.toml", second), one(third)], current, third == {}
    for first, second in itertools.product(([], ["setup-scripts"], ["foo", "benchmarks"], {"foo": False, "wrapper-scripts": True}, None), repeat=2):
        yield [one(None, first), Source("discovered", "d.toml", None, second)], "0.9.55", False
        yield [tool("a.toml", "0.9.60", first), one("0.9.60", second)], "0.9.55", True


def main():
    verdicts = ["# CURRENT strict or override | KIND PATH TEXT | .. => the verdict, and the features that are known and those that aren't; or why the", "# first source is refused that is. Written by scripts/version_rows.py.", ""]
    for sources, current, override in lists():
        told = " | ".join(f"{it.kind} {it.path} {it.text}" for it in sources).replace("\n", "␊")
        verdicts.append(f"{current} {'override' if override else 'strict'} | {told} => {verdict(sources, current, override)}")
    (ROOT / "crates/worked_rows/data/verdicts.txt").write_text("\n".join(verdicts) + "\n")
    print(len(verdicts) - 3, "verdicts")
    base = json.loads((ROOT / "crates/worked_rows/data/plan.json").read_text())
    lines = ["# Whole inputs, and what the versions and features that their sources ask for come to: the warnings of the plan, or the name", "# under which the inputs are refused. Written by scripts/version_rows.py.", ""]
    count = 0
    for sources, current, override in rows():
        given = dict(base, sources=[it.record() for it in sources], current_version=current)
        if override:
            given["override_version_check"] = True
        text = json.dumps(given, ensure_ascii=False, separators=(",", ":"))
        lines.append(f"{text} => {outcome(sources, current, override)}")
        count += 1
    (ROOT / "rows/versions.txt").write_text("\n".join(lines) + "\n")
    print(count, "rows")


if __name__ == "__main__":
    main()
