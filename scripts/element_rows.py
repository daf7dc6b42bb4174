#!/usr/bin/env python3
"""Writes the tables of elements in the program `worked_rows`, and the numbers of their rows into what it has to print.

    python3 scripts/element_rows.py

It knows nothing of the program: each answer is reckoned here from the input by the rules, and values of the configuration are Python objects
that are also written as TOML. By the rules:

- A duration is one whole number with a unit, or more that add up, with blanks (space, tab, CR, LF) wherever one likes, or `0` alone. It is
  at most 2^64 - 1 nanoseconds.
- An identifier is taken in its NFC. It begins with a character of XID_Start, and goes on with those of XID_Continue and `-`; or it is `@tool:`,
  such a name, `:` and such a name, divided at the first `:`. A group of tests is `@global` or an identifier.
- A tool's file is the name of a tool, `:` and a path that begins with `/`, divided at the first `:`; the path stays as it is written.
- A limit of what failing tests weigh is `all` in any case, or a number from 1 to 2^63 - 1, a `+` and zeros before it free, with `:wait` or
  `:immediate` behind it or not. It is reached by a sum of weights that isn't below it.
- A fail weight is a number from 1 to 100, and 1 where nothing is said.
- A value of the configuration is read by its kind. Of a table only the keys that the kind knows are looked at. If several of them are
  missing or may not stand, that with the least bytes is told.
"""
import datetime
import itertools
import pathlib
import re
import unicodedata
from typing import Callable, NamedTuple

CRATE = pathlib.Path(__file__).resolve().parent.parent / "crates/worked_rows"
BLANK = " \t\r\n"
MOST_NANOS, MOST_COUNT, MOST_32 = 2**64 - 1, 2**63 - 1, 2**32 - 1

# ---- durations

UNITS = {
    "ns nsec nanos": 1,
    "us usec": 10**3,
    "ms msec millis": 10**6,
    "s sec secs second seconds": 10**9,
    "m min mins minute minutes": 60 * 10**9,
    "h hr hrs hour hours": 3_600 * 10**9,
    "d day days": 86_400 * 10**9,
    "w wk wks week weeks": 7 * 86_400 * 10**9,
    "M month months": 2_630_016 * 10**9,
    "y yr yrs year years": 31_557_600 * 10**9,
}
NANOS = {word: nanos for words, nanos in UNITS.items() for word in words.split()}
BAD_DURATION = "expected a duration, as `1h 30m`"


def nanos_of(text):
    """The nanoseconds of a text; None if it is no duration."""
    rest = text.strip(BLANK)
    if rest == "0":
        return 0
    part = r"([0-9]+)[ \t\r\n]*({})[ \t\r\n]*".format("|".join(sorted(NANOS, key=len, reverse=True)))
    if not re.fullmatch(f"({part}(?![A-Za-z]))+", rest):
        return None
    total = sum(int(number) * NANOS[word] for number, word in re.findall(part, rest))
    return total if total <= MOST_NANOS else None


def duration_rows():
    for place, word in enumerate(NANOS):
        yield f"{place + 1}{word}"
        yield f"1 {word}"
    yield from [
        "0", "0s", "0ns", "00s", "0 y", "1M", "2 h 1ns", "1h 30m", "1h30m", "1m1M", "1M1m", "1y1M1w1d1h1m1s1ms1us1ns", "1s1s1s", "1ns 1y", "007s",
    ]
    yield from [
        "1 day 2 hours 3 minutes 4 seconds 5 millis 6 usec 7 nanos", "000000000000000000000000000000000001s", "0m 0h", "0s 5ns", "1second2seconds",
    ]
    # blanks
    yield from [" 0", "0 ", "\t0\r\n", " 0s ", " 1s", "1s ", "\n1\ts\r", "1\r\ns", "1 s 2 m", "1s\n2m", "  1   h   30   m  ", "\t1\th\t30\tm\t"]
    yield from ["", " ", "\r\n", "\u00a01s", "1\u00a0s", "1s\u2003", "1s\u000b", "1s\u000c", "1s,2m", "1s+2m", "1s\u0085"]
    # no whole number with a known unit
    yield from [
        "1", "1 ", "00", "0 0", "0 1", "1s 2", "1 2s", "1s 0", "0 1s", "s", "h 1", "1 s m", "1ss", "1sm", "1hm", "1.5s", "1,5s", "1s.", ".5s", "1e3s",
        "0x10s",
    ]
    yield from ["-1s", "+1s", "1s -1s", "- 1s", "1_000s", "1 000s", "١s", "１s", "1ｓ", "1µs", "1μs", "1ſ", "1K"]
    yield from [
        "1x", "1q", "1nanosecond", "1nss", "1micros", "1milli", "1mo", "1mon", "1hs", "1decade", "1S", "1H", "1D", "1W", "1Y", "1MS", "1Ms", "1mS",
    ]
    yield from ["1NS", "1US", "1Min", "1MIN", "1Month", "1MONTHS", "1Sec", "1Hours", "1Years", "all", "1 s s", "1s2", "1s 2x", "1x 2s", "inf", "1s;"]
    # the most
    for word, nanos in ((word.split()[0], nanos) for word, nanos in UNITS.items()):
        yield f"{MOST_NANOS // nanos}{word}"
        yield f"{MOST_NANOS // nanos + 1}{word}"
    yield from [
        f"{MOST_NANOS - 1}ns 1ns", f"{MOST_NANOS}ns 1ns", f"1ns {MOST_NANOS}ns", f"{MOST_NANOS}ns 0y", "18446744073s 709551615ns",
        "18446744073s 709551616ns",
    ]
    yield from [
        "584y 17103105s 709551615ns", "999999999999999999999999999999ns", "1y 99999999999999999999y", "0000018446744073709551615ns",
        "340282366920938463463374607431768211457ns",
    ]


def duration_answer(text):
    nanos = nanos_of(text)
    return BAD_DURATION if nanos is None else str(nanos)


# ---- identifiers


class NoName(Exception):
    """Why a text is no identifier."""


def starts(character):
    """Whether it is of XID_Start. No row asks of a character that one version of Unicode has in these classes and another has not, as U+200D."""
    return character.isidentifier() and character != "_"


def goes_on(character):
    return character == "-" or ("a" + character).isidentifier()


def is_plain(text):
    return text != "" and starts(text[0]) and all(map(goes_on, text[1:]))


def identifier(text):
    """The identifier of a text with the tool and what is its own, if it is a tool's."""
    name = unicodedata.normalize("NFC", text)
    if name == "":
        raise NoName("identifier is empty")
    if not name.startswith("@"):
        if not is_plain(name):
            raise NoName(f"invalid identifier `{name}`")
        return name, None
    form = re.fullmatch("@tool:([^:]*):(.*)", name, re.DOTALL)
    if form is None:
        raise NoName(f"tool identifier not of the form `@tool:tool-name:identifier`: `{name}`")
    if "" in form.groups():
        raise NoName(f"tool identifier has empty component: `{name}`")
    if not all(map(is_plain, form.groups())):
        raise NoName(f"tool identifier contains invalid identifier: `{name}`")
    return name, form.groups()


def is_tool_name(text):
    return is_plain(unicodedata.normalize("NFC", text))


PLAIN_NAMES = [
    "a", "abc", "my-tool", "a_b", "a-", "a--b", "a1", "A", "Δabc_def-ghi", "ß", "名前", "ℵ", "℘", "a·b", "a١", "𝔸b", "ﬁx", "aͅ", "a\u0e33", "_a", "-a",
    "1a", "a b", "a.b", " a", "a ", "a\t", "a:b", "a@b", "a/b", "١a", "a🎉", "🎉", "ͺ", "゛", "\u0e33a", "a\ufeff", "a+b", "№", "a²", "_", "-", "·a",
]
COMPOSED = [
    ("é", "e\u0301"),
    ("Å", "A\u030a", "\u212b"),
    ("Ω", "\u2126"),
    ("K", "\u212a"),
    ("가x", "\u1100\u1161x"),
    ("각", "\u1100\u1161\u11a8", "\uac00\u11a8"),
    ("ṩ", "s\u0323\u0307", "s\u0307\u0323", "\u1e63\u0307"),
    ("q\u0323\u0307", "q\u0307\u0323"),
    ("\u0915\u093c", "\u0958"),
    ("1é", "1e\u0301"),
    ("a`", "a\u1fef"),
    ("a≠", "a=\u0338"),
    ("\u0301a",),
    ("a\u0301\u0301",),
]


def identifier_rows():
    yield ""
    yield from PLAIN_NAMES
    yield from itertools.chain(*COMPOSED)
    yield from [
        "@tool:a:b", "@tool:Δabc_def-ghi:foo-bar", "@tool:my-tool:a-1", "@tool:é:é", "@tool:e\u0301:e\u0301", "@tool:\u212b:\u212a",
        "@tool:tool:tool",
    ]
    yield from [
        "@", "@@", "@tool", "@tool:", "@tool:x", "@global", "@Tool:a:b", "@TOOL:a:b", "@tools:a:b", "@ tool:a:b", "@tool :a:b", "@a:b:c", "@tool;a:b",
        "@e\u0301", "@tool\u037ea:b", "@tool:a\u037eb",
    ]
    yield from ["@tool::", "@tool::b", "@tool:a:", "@tool::1", "@tool:1:", "@tool:::", "@tool::a:b"]
    yield from [
        "@tool:a:b:c", "@tool:a::", "@tool:a::b", "@tool:1:b", "@tool:a:1", "@tool:_a:b", "@tool:a:_b", "@tool:a:@tool:b:c", "@tool:a b:c",
        "@tool: a:b", "@tool:a:b ", "@tool:-a:b", "@tool:a:-b", "@tool:\u0301a:b", "@tool:a:\u0301",
    ]
    yield from [" @tool:a:b", "tool:a:b", "a@tool:a:b", "＠tool:a:b"]


def identifier_answer(text):
    try:
        name, tool = identifier(text)
    except NoName as refusal:
        return str(refusal)
    return f"plain {name}" if tool is None else "tool {} {}".format(*tool)


def group_rows():
    yield from [
        "@global", "global", "", "@Global", "@GLOBAL", "@global ", " @global", "@global:a", "@globals", "@", "serial", "my-group", "a b", "_a", "1a",
        "é", "e\u0301", "\u212b", "@tool:a:b", "@tool:e\u0301:b", "@tool:a", "@tool::b", "@tool:a:1", "@tool:global:global", "@tool:a:@global",
    ]


def group_answer(text):
    if text == "@global":
        return "global"
    try:
        return "custom " + identifier(text)[0]
    except NoName as refusal:
        return str(refusal)


BAD_TOOL_CONFIG = "expected `NAME:PATH`, the name of a tool and an absolute path"


def tool_config_rows():
    yield from [
        "t:/a:b", "t:a:b", "t", "", ":", "t:", "t:/", "t://", ":/a", "t:/a", "my-tool:/etc/nextest/my-tool.toml", "Δ:/Δ", "e\u0301:/e\u0301", "é:/é",
        "\u212b:/\u212b", "t:/a b", "t:/a\tb", "t: /a", "t:\t/a", " t:/a", "t :/a", "t:~/a", "t:./a", "t:../a", "t:\\a", "t:C:/a", "t::/a", "/a:/b",
        "1:/a", "_t:/a", "-t:/a", "a.b:/a", "@tool:x:/a", "@tool:x:y:/a", "t:/:/", "t-1:/x", "\u0301t:/a", "t：/a", "t:／a", "t\n:/a", "t:/a\n",
    ]


def tool_config_answer(text):
    name, colon, path = text.partition(":")
    if not (colon and is_tool_name(name) and path.startswith("/")):
        return BAD_TOOL_CONFIG
    return f"{unicodedata.normalize('NFC', name)} {path}"


# ---- limits

BAD_LIMIT = "the text has none of the accepted forms"


def limit_of(text):
    """A limit and how a run stops; None for one that is never reached. It raises ValueError if the text is none."""
    if re.fullmatch("[aA][lL][lL]", text):
        return None
    form = re.fullmatch(r"\+?([0-9]+)(?::(wait|immediate))?", text)
    if form is None or not 1 <= int(form[1]) <= MOST_COUNT:
        raise ValueError(text)
    return int(form[1]), form[2] or "wait"


def limit_rows():
    yield from ["all", "ALL", "All", "aLL", "alL", "al", "alll", "all ", " all", "+all", "all:wait", "all:immediate", "ａｌｌ", "a l l", "none", "ſ"]
    yield from [
        "1", "3", "10", "3:wait", "3:immediate", "5:immediate", "+05", "+5", "007", "00000000000000000000000000000000001", "+1:immediate", "+01:wait",
        "010:immediate",
    ]
    yield from [
        f"{MOST_COUNT}", f"{MOST_COUNT}:wait", f"{MOST_COUNT}:immediate", f"+000{MOST_COUNT}", f"{MOST_COUNT + 1}", f"{MOST_COUNT + 1}:wait",
        f"{MOST_NANOS}", f"{MOST_NANOS + 1}", "100000000000000000000000000",
    ]
    yield from ["0", "00", "+0", "0:wait", "0:immediate", "+00:immediate", "", "+", "-", "-1", "-0", "++1", "+-1", "1+", "--1"]
    yield from [
        ":", "1:", ":wait", ":immediate", "1:Wait", "1:WAIT", "1:Immediate", "1:stop", "1:wait:", "1:wait:wait", "1::wait", "1:wait ", "1: wait",
        "1 :wait", "wait", "immediate", "wait:1", "1;wait", "1:waiting", "1:w",
    ]
    yield from [" 1", "1 ", "1\n", "\t1", "1 2", "1,000", "1_000", "1.0", "1e3", "0x10", "0b1", "١", "１", "true", "x", "1x"]


def limit_answer(text):
    try:
        limit = limit_of(text)
    except ValueError:
        return BAD_LIMIT
    if limit is None:
        return "all"
    number, mode = limit
    printed = str(number) if mode == "wait" else f"{number}:{mode}"
    return f"{printed} {mode}"


def exceeded_rows():
    yield from [
        "3 0", "3 1", "3 2", "3 3", "3 4", "3:wait 2", "3:wait 3", "3:immediate 2", "3:immediate 3", "3:immediate 1000", "1 0", "1 1",
        "1:immediate 0", "1:immediate 1", "+05 4", "+05 5",
    ]
    yield from [
        "all 0", "all 1", "ALL 1000000", f"all {MOST_NANOS}", f"{MOST_COUNT} {MOST_COUNT - 1}", f"{MOST_COUNT} {MOST_COUNT}",
        f"{MOST_COUNT}:immediate {MOST_NANOS}", f"1 {MOST_NANOS}",
    ]
    yield from ["100 99", "100 100", "101 100", "150 100", "150 200", "150:immediate 200", "10000000 9999900", "10000000 10000000"]


def exceeded_answer(text):
    limit, weight = text.split(" ")
    number, mode = limit_of(limit) or (MOST_NANOS + 1, None)
    return mode if int(weight) >= number else "-"


# ---- small tables


def flaky_rows():
    yield from ["fail 2 3", "fail 1 1", "fail 2 2", "fail 10 100", f"fail {MOST_32} {MOST_32}", "fail 0 0", "pass 2 3", "pass 1 1"]


def flaky_answer(text):
    rule, attempt, total = text.split(" ")
    return f"test passed on attempt {attempt}/{total} but is configured to fail when flaky" if rule == "fail" else "-"


def priority_rows():
    yield from [
        "0 100 -100", "", "0", "5 5 5", "-1 0 1", "1 -1", "100 -100 99 -99", "-100 -99 -98 98 99 100", "3 1 4 1 -5 9 -2 6", "10 9 8", "-3 -2 -1",
        "50 -50 50 -50",
    ]
    yield from ["101", "-101", "127", "-128", "100 101", "5 120 -120", "0 -101 101", "-100 100 -128"]


def priority_answer(text):
    numbers = [int(number) for number in text.split()]
    for number in numbers:
        if not -100 <= number <= 100:
            return f"priority {number} is out of range: it must be from -100 to 100"
    return " ".join(map(str, sorted(numbers, reverse=True)))


LEAST_WEIGHT, MOST_WEIGHT = 1, 100


def weight_rows():
    yield ""
    yield from map(str, [0, 1, 2, 3, 10, 49, 50, 51, 98, 99, 100, 101, 102, 127, 128, 200, 254, 255])


def weight_answer(text):
    number = int(text or 1)
    if not LEAST_WEIGHT <= number <= MOST_WEIGHT:
        return f"fail weight {number} is out of range: it must be from {LEAST_WEIGHT} to {MOST_WEIGHT}"
    return f"{number}, default {str(number == 1).lower()}"


LEAST = -(2**63)


def thread_rows():
    for processors in [1, 2, 3, 4, 64]:
        yield from (f"test-threads {setting} {processors}" for setting in ["-2", '"num-cpus"', "3"])
    yield from [
        "test-threads -1 4", "test-threads -4 4", "test-threads -3 4", "test-threads 100 4", "test-threads 1 1", "test-threads -1 0",
        'test-threads "num-cpus" 0',
    ]
    yield from [
        f"test-threads {LEAST} 8", f"test-threads {MOST_COUNT} 8", f"test-threads -1 {MOST_NANOS}", f"test-threads {LEAST} {MOST_NANOS}",
        f'test-threads "num-cpus" {MOST_NANOS}',
    ]
    for running, processors in [(8, 4), (4, 8), (1, 1)]:
        yield from (f"threads-required {setting} {running} {processors}" for setting in ["3", '"num-cpus"', '"num-test-threads"'])
    yield f"threads-required {MOST_COUNT} 2 4"


def thread_answer(text):
    kind, setting, *numbers = text.split(" ")
    *running, processors = map(int, numbers)
    if setting == '"num-cpus"':
        return str(processors)
    if setting == '"num-test-threads"':
        return str(running[0])
    number = int(setting)
    return str(number if number > 0 else max(processors + number, 1))


# ---- values: how they are written


def quoted(text):
    marks = {'"': '\\"', "\\": "\\\\", "\t": "\\t", "\n": "\\n", "\r": "\\r"}
    return '"' + "".join(marks.get(it) or (it if it.isprintable() else f"\\u{ord(it):04x}") for it in text) + '"'


def toml(value):
    """A value as it is written in TOML."""
    if isinstance(value, bool):
        return str(value).lower()
    if isinstance(value, str):
        return quoted(value)
    if isinstance(value, list):
        return "[{}]".format(", ".join(map(toml, value)))
    if isinstance(value, dict):
        members = (f"{key if re.fullmatch('[A-Za-z0-9_-]+', key) else quoted(key)} = {toml(it)}" for key, it in value.items())
        return "{{ {} }}".format(", ".join(members)) if value else "{}"
    return value.isoformat() if isinstance(value, (datetime.date, datetime.time)) else repr(value)


# ---- values: how they are read

NOTHING = object()


class Nanos(NamedTuple):
    number: int


class Some(NamedTuple):
    value: object


class Word(str):
    """A variant without parts."""


def shown(value):
    """A value as it is shown."""
    if isinstance(value, Nanos):
        return f"ConfigDuration {{ nanos: {value.number} }}"
    if isinstance(value, Some):
        return f"Some({shown(value.value)})"
    return str(value).lower() if isinstance(value, bool) else str(value)


def record(name, **fields):
    return Word("{} {{ {} }}".format(name, ", ".join(f"{field}: {shown(value)}" for field, value in fields.items())))


def debug(text):
    """A text in quotes, as a fault shows it."""
    marks = {'"': '\\"', "\\": "\\\\", "\t": "\\t", "\n": "\\n", "\r": "\\r", "\0": "\\0"}
    escaped = lambda it: unicodedata.category(it) in ("Mn", "Me") or not (it.isprintable() or it == " ")
    return '"' + "".join(marks.get(it) or (f"\\u{{{ord(it):x}}}" if escaped(it) else it) for it in text) + '"'


def found(value):
    """What stands in a place, in words."""
    if value is NOTHING:
        return "nothing"
    if isinstance(value, str):
        return debug(value)
    if isinstance(value, int):
        return str(value).lower()
    names = {float: "a float", list: "an array", dict: "a table"}
    return names.get(type(value), "a date or time")


class Rule(NamedTuple):
    """What may stand, in words, and what a value is by it: None if it may not stand."""

    expected: str
    read: Callable


def numbers(least, most):
    return Rule(f"an integer from {least} to {most}", lambda it: it if type(it) is int and least <= it <= most else None)


def words(expected, **variants):
    by_name = {name.strip("_").replace("_", "-"): Word(variant) for name, variant in variants.items()}
    return Rule(expected, lambda it: by_name.get(it) if isinstance(it, str) else None)


def duration_from(least, expected):
    def read(value):
        nanos = nanos_of(value) if isinstance(value, str) else None
        return None if nanos is None or nanos < least else Nanos(nanos)

    return Rule(expected, read)


def or_words(count, **variants):
    """A value that is counted by a function, or one of some words."""
    named = words("", **variants)
    return lambda it: named.read(it) if isinstance(it, str) else count(it) if type(it) is int else None


def some_count(number):
    return Word(f"Count({number})") if 1 <= number <= MOST_COUNT else None


def some_threads(number):
    return Word(f"CpusLess({-number})") if number < 0 else some_count(number)


def some_limit(number):
    return number if 1 <= number <= MOST_COUNT else None


COUNT, POSITIVE_COUNT = numbers(0, MOST_32), numbers(1, MOST_32)
PERIODS = numbers(1, MOST_COUNT)
PRIORITY = Rule("an integer from -100 to 100", lambda it: record("TestPriority", number=it) if type(it) is int and -100 <= it <= 100 else None)
FAIL_WEIGHT = Rule(
    f"an integer from {LEAST_WEIGHT} to {MOST_WEIGHT}",
    lambda it: record("FailWeight", number=it) if type(it) is int and LEAST_WEIGHT <= it <= MOST_WEIGHT else None,
)
TRUTH = Rule("true or false", lambda it: it if isinstance(it, bool) else None)
DURATION = duration_from(0, "a duration, as `1h 30m`")
POSITIVE_DURATION = duration_from(1, "a duration above 0, as `1h 30m`")
BACKOFF = words("`fixed` or `exponential`", fixed="Fixed", exponential="Exponential")
LIMIT = Rule(f"an integer from 1 to {MOST_COUNT} or `all`", or_words(some_limit, all="All"))
TERMINATE = words("`wait` or `immediate`", wait="Wait", immediate="Immediate")
SLOW = words("`fail` or `pass`", fail="Fail", _pass="Pass")
LEAK = words("`pass` or `fail`", _pass="Pass", fail="Fail")
TEST_THREADS = Rule("an integer other than 0, or `num-cpus`", or_words(some_threads, num_cpus="NumCpus"))
THREADS_REQUIRED = Rule(
    f"an integer from 1 to {MOST_COUNT}, `num-cpus` or `num-test-threads`",
    or_words(some_count, num_cpus="NumCpus", num_test_threads="NumTestThreads"),
)
LEVELS = words(
    "`none`, `fail`, `retry`, `slow`, `leak`, `pass`, `skip` or `all`", none="None", fail="Fail", retry="Retry", slow="Slow", leak="Leak",
    _pass="Pass", skip="Skip", all="All",
)
FINAL_LEVELS = words(
    "`none`, `fail`, `flaky`, `slow`, `skip`, `leak`, `pass` or `all`", none="None", fail="Fail", flaky="Flaky", retry="Flaky", slow="Slow",
    skip="Skip", leak="Leak", _pass="Pass", all="All",
)
SKIPPED = words("`none`, `ignored` or `all`", none="None", ignored="Ignored", all="All")
FLAKY_STATUS = words("`failure` or `success`", failure="Failure", success="Success")
DISPLAYS = words(
    "`immediate`, `immediate-final`, `final` or `never`", immediate="Immediate", immediate_final="ImmediateFinal", final="Final", never="Never",
)


def named(read):
    def name(value):
        try:
            return Word(read(value)) if isinstance(value, str) else None
        except NoName:
            return None

    return name


def tool_name(text):
    name, tool = identifier(text)
    if tool is not None:
        raise NoName(name)
    return debug(name)


def group_name(text):
    return "Global" if text == "@global" else f"Custom({debug(identifier(text)[0])})"


TOOL_NAME = Rule("the name of a tool, a plain identifier", named(tool_name))
IDENTIFIER = Rule("an identifier, plain or `@tool:TOOL:NAME`", named(lambda text: debug(identifier(text)[0])))
GROUP = Rule("`@global` or an identifier, plain or `@tool:TOOL:NAME`", named(group_name))


class Refused(Exception):
    """Where a value stands that may not, what may stand there, and what does."""

    def __init__(self, keys, expected, value):
        super().__init__(f"{'.'.join(['k', *keys])}: expected {expected}, found {found(value)}")


class Members:
    """What is read of a table. Its faults are kept until all is read."""

    def __init__(self, members):
        self.members, self.faults = members, {}

    def read(self, key, rule, otherwise=NOTHING):
        value = self.members.get(key, NOTHING)
        if value is NOTHING and otherwise is not NOTHING:
            return otherwise
        answer = None if value is NOTHING else rule.read(value)
        if answer is None:
            self.refuse(key, rule.expected)
        return answer

    def refuse(self, key, expected):
        self.faults[key] = Refused([key], expected, self.members.get(key, NOTHING))

    def tell(self):
        if self.faults:
            raise self.faults[min(self.faults, key=str.encode)]


def whole(rule, value):
    answer = rule.read(value)
    if answer is None:
        raise Refused([], rule.expected, value)
    return answer


def retries(value):
    if not isinstance(value, dict):
        return record("Fixed", count=whole(COUNT, value), delay=Nanos(0), jitter=False)
    members = Members(value)
    backoff = members.read("backoff", BACKOFF)
    members.tell()
    jitter = members.read("jitter", TRUTH, False)
    if backoff == "Fixed":
        fields = {"count": members.read("count", COUNT), "delay": members.read("delay", DURATION, Nanos(0)), "jitter": jitter}
        if jitter and fields["delay"] == Nanos(0):
            members.refuse("jitter", "false, or a delay above 0 beside it")
    else:
        fields = {"count": members.read("count", POSITIVE_COUNT), "delay": members.read("delay", POSITIVE_DURATION), "jitter": jitter}
        longest = members.read("max-delay", DURATION, "None")
        if isinstance(longest, Nanos) and fields["delay"] and longest < fields["delay"]:
            members.refuse("max-delay", "a duration not below `delay`")
        fields["max_delay"] = longest if longest == "None" else Some(longest)
    members.tell()
    return record(backoff, **fields)


def fail_fast(value):
    if not isinstance(value, dict):
        return record("Count", max_fail=1, terminate="Wait") if whole(TRUTH, value) else "All"
    members = Members(value)
    limit = members.read("max-fail", LIMIT)
    terminate = members.read("terminate", TERMINATE, "Wait")
    members.tell()
    return limit if limit == "All" else record("Count", max_fail=limit, terminate=terminate)


def slow_timeout(value):
    if not isinstance(value, dict):
        whole(POSITIVE_DURATION, value)
        return slow_timeout({"period": value})
    members = Members(value)
    period = members.read("period", POSITIVE_DURATION)
    after = members.read("terminate-after", PERIODS, "None")
    grace = members.read("grace-period", DURATION, Nanos(10 * 10**9))
    end = members.read("on-timeout", SLOW, "Fail")
    members.tell()
    return record("SlowTimeout", period=period, terminate_after=after if after == "None" else Some(after), grace_period=grace, on_timeout=end)


def leak_timeout(value):
    if not isinstance(value, dict):
        return record("LeakTimeout", period=whole(DURATION, value), result="Pass")
    members = Members(value)
    fields = {"period": members.read("period", DURATION), "result": members.read("result", LEAK, "Pass")}
    members.tell()
    return record("LeakTimeout", **fields)


def test_group_config(value):
    if not isinstance(value, dict):
        raise Refused([], "a table", value)
    members = Members(value)
    threads = members.read("max-threads", TEST_THREADS)
    members.tell()
    return record("TestGroupConfig", max_threads=threads)


KINDS = {
    "retries": retries,
    "flaky-result": lambda it: whole(LEAK, it),
    "fail-fast": fail_fast,
    "fail-weight": lambda it: whole(FAIL_WEIGHT, it),
    "slow-timeout": slow_timeout,
    "leak-timeout": leak_timeout,
    "global-timeout": lambda it: record("GlobalTimeout", period=whole(POSITIVE_DURATION, it)),
    "test-threads": lambda it: whole(TEST_THREADS, it),
    "threads-required": lambda it: whole(THREADS_REQUIRED, it),
    "test-group-config": test_group_config,
    "status-level": lambda it: whole(LEVELS, it),
    "final-status-level": lambda it: whole(FINAL_LEVELS, it),
    "output-display": lambda it: whole(DISPLAYS, it),
    "tool-name": lambda it: whole(TOOL_NAME, it),
    "config-identifier": lambda it: whole(IDENTIFIER, it),
    "test-group": lambda it: whole(GROUP, it),
    "priority": lambda it: whole(PRIORITY, it),
    "report-skipped": lambda it: whole(SKIPPED, it),
    "flaky-fail-status": lambda it: whole(FLAKY_STATUS, it),
    "custom-test-group": lambda it: whole(IDENTIFIER, it),
    "terminate-mode": lambda it: whole(TERMINATE, it),
    "slow-result": lambda it: whole(SLOW, it),
    "leak-result": lambda it: whole(LEAK, it),
}

# ---- values: the rows

DAY, TIME, MOMENT = datetime.date(1979, 5, 27), datetime.time(7, 32), datetime.datetime(1979, 5, 27, 7, 32)
WRONG = ["x", 0, -1, 1.5, True, DAY, ["1s"], {"a": 1}]
DURATIONS = [
    "0", "0s", "1ns", " 1h 30m ", "1M", f"{MOST_NANOS}ns", f"{MOST_NANOS + 1}ns", "1", "", "1.5s", "-1s", 10, 0, -1, 1.5, float("inf"), False, TIME,
    [], ["1s"],
]
NUMBERS = [0, 1, 2, -1, -2, MOST_32, MOST_32 + 1, MOST_COUNT, LEAST, 1.0, float("nan"), "1", "", "x", True, False, MOMENT, [1]]
TEXTS = ["", "x", "pass ", 'a"b', "a\\b", "a\tb", "a\nb", "it's", "Δ", "\u0000", "\u001b", "e\u0301", "\u00a0", "🎉"]

NAMES = [
    "a", "my-tool", "é", "e\u0301", "\u212b", "", "_a", "1a", "a b", "@tool:a:b", "@tool:e\u0301:b", "@tool:a", "@tool::b", "@tool:a:1", "@global", "global",
    "\u0301a", "@Global", "@",
]

FIXED = {"backoff": "fixed", "count": 3, "delay": "1s", "jitter": True}
EXPONENTIAL = {"backoff": "exponential", "count": 3, "delay": "1s", "jitter": True, "max-delay": "1m"}
TABLES = {
    "retries": [FIXED, EXPONENTIAL],
    "fail-fast": [{"max-fail": 3, "terminate": "immediate"}],
    "slow-timeout": [{"period": "1m", "terminate-after": 3, "grace-period": "5s", "on-timeout": "pass"}],
    "leak-timeout": [{"period": "500ms", "result": "fail"}],
    "test-group-config": [{"max-threads": 4}],
}

BY_HAND = {
    "retries": [
        *({**FIXED, "count": count} for count in [0, 1, MOST_32, MOST_32 + 1]),
        *({**FIXED, "delay": delay} for delay in ["0", "0s", "0 ns 0h", "1ns", " 2 m "]),
        *({"backoff": "fixed", "count": 3, **more} for more in [{}, {"jitter": False}, {"jitter": True}, {"delay": "0"}, {"delay": "0", "jitter": False}]),
        *({**FIXED, "max-delay": longest} for longest in ["1ns", "1h", 3, [], {}]),
        {"backoff": "fixed", "count": 3, "jitter": True, "max-delay": "1s"},
        *({**EXPONENTIAL, "count": count} for count in [1, MOST_32, MOST_32 + 1]),
        *({**EXPONENTIAL, "delay": delay} for delay in ["0", "0s", "1ns", "59s", "60s", "1m", "1m 1ns", "2m"]),
        *({**EXPONENTIAL, "max-delay": longest} for longest in ["0", "0s", "1ns", "999ms", "1s", "1000ms", "999999999ns", "1000000001ns", "1y"]),
        {"backoff": "exponential", "count": 3, "delay": "1s"},
        {"backoff": "exponential", "count": 3, "delay": "1s", "jitter": False},
        {"backoff": "exponential", "count": 3, "delay": "2s", "jitter": 1, "max-delay": "1s"},
        {"backoff": "exponential", "count": 3, "delay": "0", "max-delay": "0"},
        {"backoff": "exponential", "count": 3, "delay": "x", "max-delay": "0"},
        *({**FIXED, "backoff": word} for word in ["Fixed", "FIXED", "linear", "", "fixed "]),
        {"Backoff": "fixed", "count": 3},
        {"backoff": "exponential", "count": 3, "delay": "1s", "max_delay": "1ns", "Jitter": "x"},
    ],
    "fail-fast": [
        *({"max-fail": limit} for limit in [1, 3, MOST_COUNT, 0, -1, "all", "ALL", "All", "3", "3:immediate", "", True]),
        *({"max-fail": 1, "terminate": mode} for mode in ["wait", "immediate", "Wait", "IMMEDIATE", ""]),
        *({"max-fail": "all", "terminate": mode} for mode in ["wait", "immediate", "x", 1]),
        {"terminate": "wait"},
        {"max_fail": 3},
        "all",
        "true",
        "3:immediate",
    ],
    "fail-weight": [
        1, 2, 50, 99, 100, 101, 127, 128, 255, 256, 257, 300, 2**32, 2**32 + 1, 2**62, MOST_COUNT, -2, -99, -100, -255, LEAST, 1.0, 100.0, float("nan"), "1",
        "100", "", "heavy", "all", "1s", True, [1], {"max-fail": 1}, {"fail-weight": 1}, {},
    ],
    "slow-timeout": [
        *({"period": period} for period in ["0", "0s", "1ns", "1m", f"{MOST_NANOS}ns", f"{MOST_NANOS + 1}ns"]),
        *({"period": "1m", "terminate-after": after} for after in [1, 2, MOST_32 + 1, MOST_COUNT, 0, -1, LEAST, 1.0, "1"]),
        *({"period": "1m", "grace-period": grace} for grace in ["0", "0s", "1h", "10s", "x"]),
        *({"period": "1m", "on-timeout": word} for word in ["fail", "pass", "Pass", "terminate"]),
        {"period": "0", "terminate-after": 0},
        {"period": 60, "terminate-after": 3},
        {"Period": "1m"},
        {"period": "1m", "terminate_after": 0, "grace_period": 1, "on_timeout": "x"},
    ],
    "leak-timeout": [
        *({"period": period} for period in ["0", "0s", "1ns", f"{MOST_NANOS}ns", f"{MOST_NANOS + 1}ns"]),
        *({"period": "1s", "result": word} for word in ["pass", "fail", "FAIL", "leak"]),
        {"Period": "1s", "result": "pass"},
    ],
    "test-group-config": [
        *({"max-threads": threads} for threads in [1, -1, 0, MOST_COUNT, LEAST, "num-cpus", "num-test-threads", "4", 4.0]), {"max_threads": 4},
    ],
    "global-timeout": [{"period": "1s"}, {}],
    "test-threads": ["num-cpus", "num-test-threads", "NUM-CPUS", "num_cpus", "-2"],
    "threads-required": ["num-cpus", "num-test-threads", "NUM-TEST-THREADS", "num-test-threads "],
    "flaky-result": ["pass", "fail", "Pass", "FAIL", *TEXTS],
    "status-level": ["none", "fail", "retry", "slow", "leak", "pass", "skip", "all", "flaky", "None", "ALL", "passed"],
    "final-status-level": ["none", "fail", "flaky", "retry", "slow", "skip", "leak", "pass", "all", "Flaky", "RETRY", "failed"],
    "output-display": ["immediate", "immediate-final", "final", "never", "immediate_final", "final-immediate", "Never", "always"],
    "tool-name": [*NAMES],
    "config-identifier": [*NAMES],
    "test-group": [*NAMES],
    "priority": [100, 101, -100, -101, 99, 128, -128, -129, 256, 2**32, 2**62, MOST_COUNT, LEAST, "0", "high", "100"],
    "report-skipped": ["none", "ignored", "all", "None", "IGNORED", "skipped", "ignore"],
    "flaky-fail-status": ["failure", "success", "fail", "pass", "Failure", "SUCCESS"],
    "custom-test-group": [*NAMES],
    "terminate-mode": ["wait", "immediate", "Wait", "IMMEDIATE", "pass"],
    "slow-result": ["pass", "fail", "Pass", "FAIL", "wait"],
    "leak-result": ["pass", "fail", "Pass", "FAIL", "leak"],
}
# another way to write a value
SPELLED = [
    ("retries", 3, "+3"),
    ("retries", 16, "0x10"),
    ("retries", 5, "0b101"),
    ("retries", 1000, "1_000"),
    ("retries", 3.0, "3e0"),
    ("retries", FIXED, '{backoff="fixed",count=3,delay="1s",jitter=true}'),
    ("retries", FIXED, "{ 'jitter' = true, \"delay\" = '1s', count = 0o3, backoff = \"\"\"fixed\"\"\", }"),
    ("slow-timeout", "1h 30m", "'1h 30m'"),
    ("slow-timeout", "1h\n30m", '"""\n1h\n30m"""'),
    ("slow-timeout", "1h 30m", '"1h\\u002030m"'),
    ("global-timeout", "1s", '"""1s"""'),
    ("threads-required", "num-cpus", "'num-cpus'"),
    ("test-threads", -2, "-2 # processors stay free"),
    ("fail-weight", 7, "+7"),
    ("fail-weight", 100, "1_00"),
    ("fail-weight", 100, "0x64 # a hundred"),
    ("fail-weight", 101, "0b1100101"),
    ("fail-weight", 1.0, "1e0"),
    ("fail-weight", 0, "-0"),
    ("fail-weight", "1", "'1'"),
    ("test-group-config", {"max-threads": "num-cpus"}, "{ max-threads = 'num-cpus' }"),
    ("fail-fast", {"max-fail": "all"}, "{ \"max\\u002dfail\" = 'all' }"),
    ("tool-name", "é", '"e\\u0301"'),
    ("config-identifier", "@tool:é:b", "'@tool:e\u0301:b'"),
    ("test-group", "@global", "'@global'"),
    ("flaky-result", DAY, "1979-05-27T07:32:00Z"),
    ("flaky-result", DAY, "1979-05-27T00:32:00.999999-07:00"),
]


def alone(kind):
    """Values of a kind that is no table, or need not be one."""
    if kind.endswith("timeout"):
        return [*DURATIONS, {"a": 1}]
    if kind in ("retries", "test-threads", "threads-required"):
        return [*NUMBERS, {"a": 1}]
    return [*WRONG, False, TIME, float("-inf"), []]


def with_wrong(table):
    """A table with each key left out, each value wrong, each two wrong, and with keys that nobody knows."""
    yield table
    yield dict(reversed(table.items()))
    yield {"zzz": 1, **table, "Count": "x", "": [], "delays": {}}
    for left in table:
        yield {key: value for key, value in table.items() if key != left}
        yield {**{key: value for key, value in table.items() if key != left}, "extra": 1}
        yield from ({**table, left: value} for value in WRONG)
    for pair in itertools.combinations(table, 2):
        yield {**table, **dict.fromkeys(pair, [])}
        yield {key: value for key, value in table.items() if key not in pair}
    yield dict.fromkeys(table, DAY)
    yield {}


def value_rows():
    for kind in KINDS:
        values = [*alone(kind), *itertools.chain(*map(with_wrong, TABLES.get(kind, []))), *BY_HAND[kind]]
        yield from ((kind, value, toml(value)) for value in values)
    yield from SPELLED


def value_pairs():
    """Inputs, each with what its answer is reckoned from."""
    return ((f"{kind} {text}", (kind, value)) for kind, value, text in value_rows())


def value_answer(kind, value):
    try:
        return shown(KINDS[kind](value))
    except Refused as refusal:
        return str(refusal)


# ---- the files

SIGNS = str.maketrans({"\t": "␉", "\n": "␊", "\r": "␍"})
TABLE_ROWS = {
    "durations": ("TEXT => its nanoseconds, or why it is no duration", duration_rows, duration_answer),
    "identifiers": ("TEXT => `plain` and the identifier, or `tool`, the tool and what is its own; or why it is none", identifier_rows, identifier_answer),
    "tool_config_files": ("TEXT => the tool and its file, or why it is none", tool_config_rows, tool_config_answer),
    "test_groups": ("TEXT => `global`, or `custom` and the identifier; or why it is none", group_rows, group_answer),
    "limits": ("TEXT => the limit as it prints, and how a run stops there; or why it is none", limit_rows, limit_answer),
    "exceeded": ("LIMIT and what failing tests weigh together => how the run stops, or `-` where it goes on", exceeded_rows, exceeded_answer),
    "flaky_messages": ("RULE, the attempt that passed, and how many there may be => what is told of the failure, or `-`", flaky_rows, flaky_answer),
    "priorities": ("NUMBERS => the priorities in the order in which tests run, or why the first that is none is none", priority_rows, priority_answer),
    "fail_weights": (
        "NUMBER, or nothing where none is said => the fail weight, and whether it is that where none is said; or why it is none",
        weight_rows,
        weight_answer,
    ),
    "threads": (
        "test-threads SETTING PROCESSORS => how many tests run at a time; threads-required SETTING TEST-THREADS PROCESSORS => how many a test takes",
        thread_rows,
        thread_answer,
    ),
    "values": ("KIND and what stands behind `k = ` => the value, or why it is refused", value_pairs, lambda it: value_answer(*it)),
}


def tell_numbers(numbers):
    """Puts the numbers of the rows of these tables into what the program has to print."""
    text = (CRATE / "stdout").read_text()
    for name, number in numbers.items():
        text = re.sub(rf"(?m)^{name}: \d+ rows", f"{name}: {number} rows", text)
    (CRATE / "stdout").write_text(text)


def main():
    numbers = {}
    for name, (head, inputs, answer) in TABLE_ROWS.items():
        pairs = ((it, it) if isinstance(it, str) else it for it in inputs())
        rows = dict.fromkeys(f"{text} => {answer(given)}".translate(SIGNS) for text, given in pairs)
        lines = [f"# Made by scripts/element_rows.py. {head}", *rows]
        (CRATE / f"data/{name}.txt").write_text("\n".join(lines) + "\n")
        numbers[name] = len(rows)
    tell_numbers(numbers)


if __name__ == "__main__":
    main()
