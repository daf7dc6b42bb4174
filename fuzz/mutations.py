"""What fuzz/mutate.py feeds: streams and texts that are drawn of the seeds, and changed on bytes, tokens, JSON values and log lines.

It isn't called by itself. Each function takes a `random.Random`, of which alone its answer depends, beside its arguments.
"""
import dataclasses
import json
import re

# Numbers at the bounds of what the formats take.
BOUNDS = [0, 1, -1, 2, 100, 101, 255, 256, 2**31 - 1, -(2**31), 2**32 - 1, 2**32, 2**53, 2**63 - 1, -(2**63), 2**64 - 1, 2**64, 1.5, 1e300]

# The deepest nesting that is drawn: the inputs' bound is 127.
DEEPEST = 130

TOKENS = {
    "toml": re.compile(r'"(?:[^"\\\n]|\\.)*"|\'[^\'\n]*\'|[A-Za-z0-9_.+-]+|\[\[|\]\]|\s+|.', re.S),
    "filterset": re.compile(r"[A-Za-z0-9_]+|\\u\{[^}]*\}|\\.|\s+|.", re.S),
    "spec": re.compile(r'"[^"]*"|[A-Za-z0-9_.-]+|\s+|.', re.S),
}

RESULTS = "pass leak:pass leak:fail timeout:pass timeout:fail fail:1 fail:-7 fail:1:leaked abort:15 abort:6:leaked exec-fail".split()
REASONS = "report-error global-timeout signal interrupt second-signal".split()
OUTPUTS = ["-", "", "6f6b0a", b"Error: no\n".hex(), b"thread 'a' panicked at x:1:\nno\n".hex(), b"note: test did not panic as expected\n".hex()]

SETTINGS = ["retries = 1", "retries = 4294967295", "priority = -3", "fail-weight = 7", "test-group = 'g'", "flaky-result = 'fail'", "slow-timeout = '1s'"]

PREDICATES = "package deps rdeps kind binary binary_id platform test group default all none".split()
OPERATORS = [" and ", " or ", " & ", " | ", " - ", " + ", " AND ", " || "]
CONDITIONS = ["unix", "windows", 'target_os = "linux"', 'target_arch = "x86_64"', "test", "cfg"]

# ---- bytes


def change_bytes(draw, data, stock):
    """Some bytes with one change: a flip, a cut, a copy, a word or a part of another seed in them."""
    at = draw.randrange(len(data) + 1)
    to = min(len(data), at + draw.choice([1, 1, 2, 7, 40, 400]))
    return draw.choice([
        lambda: data[:at] + bytes([draw.randrange(256)]) + data[at + 1 :],
        lambda: data[:at] + bytes([data[at] ^ 1 << draw.randrange(8)]) + data[at + 1 :] if at < len(data) else data,
        lambda: data[:at] + data[to:],
        lambda: data[:to] + data[at:],
        lambda: data[:at] + draw.choice(stock.words) + data[at:],
        lambda: data[:at] + draw.choice(stock.words) + data[to:],
        lambda: data[:at] + draw.choice(stock.streams)[at:],
        lambda: data[:at],
    ])()


def changed_bytes(draw, data, stock):
    for _ in range(draw.choice([1, 1, 1, 2, 4, 8])):
        data = change_bytes(draw, data, stock)
    return data


# ---- tokens


def change_tokens(draw, tokens, others):
    """Tokens with one change, by which some go, stand twice, change places, or are another text's."""
    if not tokens:
        return list(others)
    at, to = sorted((draw.randrange(len(tokens)), draw.randrange(len(tokens))))
    other = draw.choice(others) if others else ""
    return draw.choice([
        lambda: tokens[:at] + tokens[at + 1 :],
        lambda: tokens[: at + 1] + tokens[at:],
        lambda: tokens[:at] + [other] + tokens[at:],
        lambda: tokens[:at] + [other] + tokens[at + 1 :],
        lambda: tokens[:at] + [tokens[to]] + tokens[at + 1 : to] + [tokens[at]] + tokens[to + 1 :],
        lambda: tokens[:at] + tokens[to:],
        lambda: tokens[:to] + tokens[at:],
        lambda: tokens[:at] + [str(draw.choice(BOUNDS))] + tokens[at + 1 :],
    ])()


def changed_tokens(draw, text, kind, stock):
    """A text with some tokens changed, also by those of other texts of its kind and of the dictionary."""
    find = TOKENS[kind].findall
    texts = {"toml": stock.configurations, "filterset": stock.filtersets, "spec": stock.specs}[kind]
    others = find(draw.choice(texts)) + [draw.choice(stock.words).decode("utf-8", "replace")]
    tokens = find(text)
    for _ in range(draw.choice([1, 1, 2, 3, 6])):
        tokens = change_tokens(draw, tokens, others)
    return "".join(tokens)


# ---- filtersets


def drawn_matcher(draw, names):
    """An argument: a name, a part of one, a glob or a pattern."""
    name = draw.choice(names)
    sign = draw.choice(["", "", "=", "~", "#", "/"])
    escaped = f"\\u{{{ord(name[0]) if name else 61:x}}}"
    text = draw.choice([name, name[:1], name[-2:], "*", f"{name[:1]}*", f"[{name[:1]}-z]?", f"{{{name},b}}", "", escaped])
    pattern = draw.choice([name, "^a", "b$", ".", "a|b", "(?i)A", "[a-c]+", "(", name[:1]])
    return f"/{pattern}/" if sign == "/" else sign + text


def drawn_leaf(draw, names):
    predicate = draw.choice(PREDICATES)
    if predicate in ("default", "all", "none"):
        return f"{predicate}()"
    argument = {"platform": ["host", "target"], "kind": ["lib", "test", "bin", "~e"]}.get(predicate)
    return f"{predicate}({draw.choice(argument) if argument else drawn_matcher(draw, names)})"


def drawn_filterset(draw, names, depth=3):
    """A filterset over names, mostly one that is accepted."""
    form = draw.randrange(5) if depth else 0
    if form < 2:
        return drawn_leaf(draw, names)
    one = drawn_filterset(draw, names, depth - 1)
    if form == 2:
        return draw.choice(["not ", "!", "not not ", ""]) + f"({one})"
    return one + draw.choice(OPERATORS[:6]) + drawn_filterset(draw, names, depth - 1)


def some_filterset(draw, stock, names):
    """A filterset that is drawn, or a seed's, at times changed, or one that nests deep."""
    form = draw.randrange(10)
    if form == 0:
        count = draw.randrange(1, 400)
        return draw.choice(["(", "not ", "!", "not ("])[: draw.randrange(1, 5)] * count + "all()" + ")" * draw.choice([0, count])
    text = drawn_filterset(draw, names) if form < 6 else draw.choice(stock.filtersets)
    return changed_tokens(draw, text, "filterset", stock) if draw.random() < 0.5 else text


# ---- platform specs


def drawn_condition(draw, depth=3):
    form = draw.randrange(4) if depth else 0
    if form == 0:
        return draw.choice(CONDITIONS)
    count = 1 if form == 1 else draw.randrange(4)
    return ("not", "not", "all", "any")[form] + "(" + ", ".join(drawn_condition(draw, depth - 1) for _ in range(count)) + ")"


def some_spec(draw, stock):
    """A platform spec that is drawn, or a seed's, at times changed."""
    text = draw.choice([f"cfg({drawn_condition(draw)})", draw.choice(stock.specs), "x86_64-unknown-linux-gnu"])
    return changed_tokens(draw, text, "spec", stock) if draw.random() < 0.4 else text


# ---- configurations


def shuffled_lines(draw, text, other):
    """A text in which lines stand elsewhere, or are another's."""
    lines, others = text.split("\n"), other.split("\n")
    at, to = draw.randrange(len(lines)), draw.randrange(len(lines))
    start = draw.randrange(len(others))
    return "\n".join(draw.choice([
        lambda: lines[:at] + lines[at + 1 :],
        lambda: lines[:at] + [lines[to]] + lines[at:],
        lambda: lines[:at] + others[start : start + 3] + lines[at:],
        lambda: lines + others,
        lambda: others[:start] + lines,
    ])())


def drawn_rule(draw, stock, names):
    """An override or a script rule of some profile."""
    profile = draw.choice(["default", "default", "ci", "base"])
    setting = draw.choice(SETTINGS)
    key, quote = draw.choice(["filter", "filter", "default-filter"]), json.dumps
    lines = draw.sample([f"{key} = {quote(some_filterset(draw, stock, names))}", f"platform = {quote(some_spec(draw, stock))}"], draw.choice([1, 1, 2]))
    if draw.random() < 0.3:
        return f"[[profile.{profile}.scripts]]\n" + "\n".join([*lines, draw.choice(["setup = 's'", "run-wrapper = 'w'", "list-wrapper = 'w'"])]) + "\n"
    return f"[[profile.{profile}.overrides]]\n" + "\n".join([*lines, setting]) + "\n"


def some_configuration(draw, stock, names):
    """The text of a configuration: a seed's, changed, or with another rule."""
    text = draw.choice(stock.configurations)
    for _ in range(draw.choice([0, 1, 1, 2])):
        text = draw.choice([
            lambda: changed_tokens(draw, text, "toml", stock),
            lambda: shuffled_lines(draw, text, draw.choice(stock.configurations)),
            lambda: f"{text}\n{drawn_rule(draw, stock, names)}",
            lambda: text.replace("\n", "\r\n"),
        ])()
    return text


# ---- JSON values


def places(value, path=()):
    """The paths to all values in one."""
    yield path
    parts = value.items() if isinstance(value, dict) else enumerate(value) if isinstance(value, list) else ()
    for key, part in parts:
        yield from places(part, (*path, key))


def part_at(value, path):
    for key in path:
        value = value[key]
    return value


def other_value(draw, value, stock):
    """A value in place of another."""
    nest = draw.randrange(1, DEEPEST)
    return draw.choice([
        lambda: draw.choice(BOUNDS),
        lambda: draw.choice([None, True, False, "", [], {}, "default", "p", "\u00e9", "a\tb", "\x00", "@global"]),
        lambda: draw.choice(stock.words).decode("utf-8", "replace"),
        lambda: [value, value],
        lambda: {"id": value, "fault": "f"},
        lambda: value + value if isinstance(value, (str, list)) else value,
        lambda: value[: len(value) // 2] if isinstance(value, (str, list)) else value,
        lambda: json.loads("[" * nest + "]" * nest),
    ])()


def change_json(draw, value, stock):
    """Changes one place of a value, which isn't the whole: another value, a copy beside it, or nothing."""
    path = draw.choice(list(places(value))[1:] or [None])
    if path is None:
        return
    *above, key = path
    holder = part_at(value, above)
    form = draw.randrange(4)
    if form == 0:
        del holder[key]
    elif form == 1 and isinstance(holder, list):
        holder.insert(draw.randrange(len(holder) + 1), json.loads(json.dumps(holder[key])))
    elif form == 2 and isinstance(holder, list):
        draw.shuffle(holder)
    else:
        holder[key] = other_value(draw, holder[key], stock)


def spelled(draw, value):
    """The JSON of a value on a line, in one of its spellings."""
    separators = draw.choice([(",", ":"), (", ", ": "), (" ,\t", " :\r")])
    return json.dumps(value, ensure_ascii=draw.random() < 0.5, separators=separators).encode("utf-8", "surrogatepass")


# ---- logs


def fields_changed(draw, line, stock):
    """A line of a log with a field changed."""
    fields = line.split(b"\t")
    at = draw.randrange(len(fields))
    other = draw.choice(stock.lines).split(b"\t")
    fields[at : at + 1] = draw.choice([
        lambda: [],
        lambda: [fields[at], fields[at]],
        lambda: [draw.choice(other)],
        lambda: [draw.choice(stock.words)],
        lambda: [changed_bytes(draw, fields[at], stock)],
        lambda: [str(draw.choice(BOUNDS)).encode()],
    ])()
    return b"\t".join(fields)


def change_log(draw, lines, stock):
    """The lines of a log with one change."""
    at, to = (draw.randrange(len(lines) + 1) for _ in range(2))
    return draw.choice([
        lambda: lines[:at],
        lambda: lines[:at] + lines[at + 1 :],
        lambda: lines[:at] + lines[to : to + 1] + lines[at:],
        lambda: lines[:at] + [draw.choice(stock.lines)] + lines[at:],
        lambda: lines[:at] + [b""] + lines[at:],
        lambda: lines[:at] + [b"stop\t" + draw.choice(REASONS).encode()] + lines[at:],
        lambda: lines[:at] + [fields_changed(draw, it, stock) for it in lines[at : at + 1]] + lines[at + 1 :],
        lambda: lines[:at] + lines[to : to + 1] + lines[at + 1 : to] + lines[at : at + 1] + lines[to + 1 :] if at < to else lines,
    ])()


def drawn_end(draw):
    """The fields of how something ended: mostly a pass."""
    result = draw.choice(["pass"] * 6 + ["fail:1"] * 2 + [draw.choice(RESULTS)])
    out, err = draw.choice(OUTPUTS), draw.choice(OUTPUTS)
    streams = [out.replace("-", ""), "-"] if result == "exec-fail" else [out, err]
    return [result, draw.choice(["-", "-", "slow"]), str(draw.choice([1, 7, 400, 2**64 - 1])), *streams]


def drawn_tries(draw, test, tries):
    """The lines of a test's attempts, up to its first success."""
    lines = []
    for _ in range(tries):
        end = drawn_end(draw)
        lines += [["start", *test], ["end", *test, *end]]
        if end[0] in ("pass", "leak:pass", "timeout:pass"):
            break
    return lines


def drawn_log(draw, tests, scripts):
    """A log in which scripts and then tests run side by side, at times stopped or with tests left out."""
    lines = [["script", it, *drawn_end(draw)] for it in scripts]
    tries = draw.choice([1, 1, 2, 3])
    waiting = [drawn_tries(draw, test, tries) for test in tests if draw.random() < 0.9]
    stops = draw.random() < 0.2
    while waiting:
        one = draw.choice(waiting)
        lines.append(one.pop(0))
        waiting = [it for it in waiting if it]
        if stops and draw.random() < 0.1:
            lines.append(["stop", draw.choice(REASONS)])
    return ["\t".join(it).encode("utf-8", "surrogatepass") for it in lines]


# ---- whole streams


@dataclasses.dataclass
class Case:
    """A stream in its parts: the inputs, and the lines of the log."""

    inputs: object
    lines: list

    def binaries(self):
        """The binaries of the workspace, where these are in their form."""
        workspace = self.inputs.get("workspace") if isinstance(self.inputs, dict) else None
        binaries = workspace.get("binaries") if isinstance(workspace, dict) else None
        return [it for it in binaries if isinstance(it, dict) and isinstance(it.get("id"), str)] if isinstance(binaries, list) else []

    def tests(self):
        """Each test by its binary's id and its name."""
        listed = [(it["id"], it.get("tests")) for it in self.binaries()]
        return [(binary, name) for binary, names in listed if isinstance(names, list) for name in names if isinstance(name, str)]

    def names(self):
        return sorted({name for pair in self.tests() for name in pair}) or ["a"]

    def sources(self):
        """The sources that have a text."""
        sources = self.inputs.get("sources") if isinstance(self.inputs, dict) else None
        return [it for it in sources if isinstance(it, dict) and isinstance(it.get("text"), str)] if isinstance(sources, list) else []

    def scripts(self):
        texts = "\n".join(it["text"] for it in self.sources())
        return sorted(set(re.findall(r"scripts?\.(?:setup\.)?\"?([\w@:-]+)\"?\.command|\[scripts?\.(?:setup\.)?\"?([\w@:-]+)\"?\]", texts)))

    def stream(self, draw):
        return spelled(draw, self.inputs) + b"\n" + b"".join(line + b"\n" for line in self.lines)


def parts_of(stream):
    """A stream in its parts, where its first line is JSON; else none."""
    first, _, log = stream.partition(b"\n")
    try:
        return Case(json.loads(first), log.split(b"\n")[:-1])
    except (ValueError, RecursionError):
        return None


def change_source(draw, case, stock):
    """Changes the text of a source, or hands in another source."""
    sources, names = case.sources(), case.names()
    if sources and draw.random() < 0.6:
        source = draw.choice(sources)
        source["text"] = draw.choice([
            lambda: changed_tokens(draw, source["text"], "toml", stock),
            lambda: shuffled_lines(draw, source["text"], draw.choice(stock.configurations)),
            lambda: f"{source['text']}\n{drawn_rule(draw, stock, names)}",
        ])()
    elif isinstance(case.inputs, dict) and isinstance(case.inputs.get("sources"), list):
        kind = draw.choice(["explicit", "discovered", "tool"])
        tool = {"tool": draw.choice(["t", "u", "\u00e9"])} if kind == "tool" else {}
        text = some_configuration(draw, stock, names)
        case.inputs["sources"].append({"kind": kind, **tool, "path": f"{kind}.toml", "text": text})


def change_choice(draw, case, stock):
    """Sets what is chosen beside the sources: a filterset, a profile, facts of platforms, a mode."""
    if not isinstance(case.inputs, dict):
        return
    facts = [[it.split(" = ")[0], *(json.loads(word) for word in it.split(" = ")[1:]), draw.random() < 0.5] for it in draw.sample(CONDITIONS, 3)]
    key, value = draw.choice([
        ("filterset", some_filterset(draw, stock, case.names())),
        ("filterset", drawn_filterset(draw, case.names())),
        ("profile", draw.choice(["ci", "base", "default", "default-miri", "none"])),
        ("host", {"triple": "x86_64-unknown-linux-gnu", "facts": facts}),
        ("target", {"triple": "x", "facts": facts[:2]}),
        ("mode", draw.choice(["test", "benchmark"])),
        ("ignore_default_filter", True),
        ("current_version", draw.choice(["0.9.60", "1.0.0-rc.1", "0.9", "18446744073709551615.0.0", "v1"])),
    ])
    case.inputs[key] = value


def change_inputs(draw, case, stock):
    change_json(draw, case.inputs, stock)


def change_lines(draw, case, stock):
    case.lines = change_log(draw, case.lines, stock)


# A source below all others, by which failing tests stop no run, and are tried again.
LENIENT = {"kind": "tool", "tool": "z", "path": "z.toml", "text": "[profile.default]\nretries = 2\nfail-fast = false\n"}


def redraw_log(draw, case, stock):
    """Draws another log, of tests of the workspace and scripts of the sources."""
    if draw.random() < 0.5 and isinstance(case.inputs, dict) and isinstance(case.inputs.get("sources"), list):
        case.inputs["sources"].append(dict(LENIENT))
    tests = draw.sample(case.tests(), min(len(case.tests()), 12))
    scripts = [one or other for one, other in case.scripts()] if draw.random() < 0.6 else []
    case.lines = drawn_log(draw, tests, scripts)


CHANGES = [change_source, change_source, change_choice, change_choice, change_inputs, change_lines, change_lines, redraw_log, redraw_log, redraw_log]


def drawn_stream(draw, stock):
    """A stream: a seed's with some changes of its parts, at times of its bytes as well."""
    stream = draw.choice(stock.streams)
    case = parts_of(stream)
    if case is None or draw.random() < 0.1:
        return changed_bytes(draw, stream, stock)
    for _ in range(draw.choice([1, 1, 2, 3, 5])):
        draw.choice(CHANGES)(draw, case, stock)
    stream = case.stream(draw)
    return changed_bytes(draw, stream, stock) if draw.random() < 0.05 else stream


# ---- parts


def some_log(draw, stock):
    """A log behind the fixed inputs: of its tests a, b and c of the binary p, and of its script s."""
    if draw.random() < 0.2:
        return changed_bytes(draw, draw.choice(stock.logs), stock)
    lines = drawn_log(draw, [("p", "a"), ("p", "b"), ("p", "c")], ["s"])
    for _ in range(draw.choice([0, 0, 1, 2])):
        lines = change_log(draw, lines, stock)
    return b"".join(line + b"\n" for line in lines)


# By its letter, how a part of each kind is drawn, as bytes.
PARTS = {
    "s": drawn_stream,
    "l": some_log,
    "c": lambda draw, stock: some_configuration(draw, stock, ["a", "b", "p"]).encode("utf-8", "surrogatepass"),
    "f": lambda draw, stock: some_filterset(draw, stock, ["a", "io::read", "p", "gr\u00f6\u00dfe"]).encode("utf-8", "surrogatepass"),
    "p": lambda draw, stock: some_spec(draw, stock).encode("utf-8", "surrogatepass"),
}


def drawn_part(draw, stock, kind):
    """A part of a kind; one in twenty has its bytes changed besides."""
    part = PARTS[kind](draw, stock)
    return changed_bytes(draw, part, stock) if draw.random() < 0.05 else part
