#!/usr/bin/env python3
"""Times the built program on loads of several sizes, and prints a table.

Build it first by `make run`. For each size: the bytes of the load and of its report, seconds, peak memory, bytes of the load a second, and
how much longer than the size before it took for so many times the bytes (1.0 is in proportion). A timed report goes nowhere.

  binaries N   N binaries with one test each, and no log: the report has a line for each test, which didn't run
  tests N      one binary with N tests, which all pass: 2 N lines of log, and N of the report
  shuffled N   the same, where the log has the tests in another order
  ranked N     the same as tests N, where two overrides give a priority to six tests of ten, and the log has them in the plan's order
  ranked shuffled N   the same, where the log has the tests in another order
  places N     inputs of N bytes that are made to take much memory, and no log
  passing N    1,000 tests which all pass, each of which writes N bytes, a half to each stream: none of them is in the report
  failing N    the same, where all fail, the last line of each standard error tells of a panic, and no failure stops the run: the report has
               all that was written, once
  ordinary N, given N   tests of the names in a file that is given as an argument, one a line, beside as many others of their
               length: so names that are made to collide can be tried

With `colliding` or `colliding N` as arguments it times these alone, of N names of 32 bytes each, 20000 where no N is given, a half and
a quarter of them. They cost as ordinary ones do; the time of a program with a table that they are aimed at grows with the square of N.

  ordinary N       names that come one after another, which fall, as all of these do: names that rise need no table
  listing N        names of one hash, where it is found whether a binary has a name twice
  session N        the same for the table by which a session looks for a test
  near listing N   names that would lie close together in a set of a binary's names, if it were given std's hasher with no key
  near session N   the same for a map from a binary's id and a name
"""
import itertools
import json
import os
import pathlib
import random
import subprocess
import sys
import tempfile
import time

PROGRAM = pathlib.Path(__file__).resolve().parent.parent / "crates/test_runner/out/test_runner"


def binary(name, tests):
    return {"id": name, "name": name, "package": "p", "kind": "lib", "platform": "target", "tests": tests}


def inputs(binaries, settings=""):
    workspace = {"packages": [{"id": "p", "name": "p"}], "links": [], "binaries": binaries}
    sources = [{"kind": "explicit", "path": "nextest.toml", "text": settings}] if settings else []
    return json.dumps({"workspace": workspace, "sources": sources, "current_version": "0.9.100"}, separators=(",", ":"))


def binaries(count):
    return inputs([binary(f"b{i:06}", ["t"]) for i in range(count)]), ""


def run_of(names, order, settings=""):
    log = "".join(f"start\tp\t{name}\nend\tp\t{name}\tpass\t-\t1\t-\t-\n" for name in order)
    return inputs([binary("p", names)], settings), log


def names_of(count):
    return [f"module::case_{i:07}" for i in range(count)]


def tests(count):
    names = names_of(count)
    return run_of(names, names)


def shuffled(count):
    names = names_of(count)
    return run_of(names, random.Random(1).sample(names, count))


# By the last digit of a test's name: its priority.
RANKS = {**dict.fromkeys("123", 5), **dict.fromkeys("789", -5)}
RANKED = """[[profile.default.overrides]]
filter = "test(/[123]$/)"
priority = 5
[[profile.default.overrides]]
filter = "test(/[789]$/)"
priority = -5
"""


def ranked(count):
    names = names_of(count)
    return run_of(names, sorted(names, key=lambda it: (-RANKS.get(it[-1], 0), it)), RANKED)


def ranked_shuffled(count):
    names = names_of(count)
    return run_of(names, random.Random(1).sample(names, count), RANKED)


def places(count):
    return '{"x":[' + ",".join(['{"":0}'] * (count // 8)) + "]}", ""


LINE = b"module::case: a line of an output\n"
PANIC = b"\nthread 'main' panicked at src/lib.rs:1:\n"


def written(count, last=b""):
    """So many bytes of an output, in hex, which end in these where there is room for them."""
    last = last if len(last) <= count else b""
    return ((LINE * (count // len(LINE) + 1))[: count - len(last)] + last).hex()


def outputs(count, result, last):
    names = names_of(1_000)
    ended = f"{result}\t-\t1\t{written(count - count // 2)}\t{written(count // 2, last)}\n"
    log = "".join(f"start\tp\t{name}\nend\tp\t{name}\t{ended}" for name in names)
    return inputs([binary("p", names)], "[profile.default]\nfail-fast = false\n"), log


def passing(count):
    return outputs(count, "pass", b"")


def failing(count):
    return outputs(count, "fail:101", PANIC)


WORD = 2**64 - 1

# What the hasher of a session's table reads before a name, and what a map's would; std's hashers read an end behind each text.
TABLE_KEY = b"p"
TEXT_END = b"\xff"
MAP_KEY = b"p" + TEXT_END

# The kit's `FoldHasher`, as far as single bytes and names of 32 bytes want it.
FOLD_START = 0x243F_6A88_85A3_08D3
FOLD_FACTOR = 0x9E37_79B9_7F4A_7C15


def folded(one, other):
    product = one * other
    return (product ^ product >> 64) & WORD


def word(text):
    return int.from_bytes(text, "little")


def one_hash(before, count):
    """Names that all leave the hasher at 0, if it reads these bytes before each: their third word is the hasher's state once it has read
    two, so that it multiplies by 0 whatever the fourth is."""
    start = FOLD_START
    for byte in before:
        start = folded(start ^ 0x010101 * byte, FOLD_FACTOR ^ 2)
    for place in itertools.count():
        head = f"module::{place:08}"
        first, second = word(head[:8].encode()), word(head[8:].encode())
        third = folded(first ^ (start + 32 & WORD), second ^ FOLD_FACTOR).to_bytes(8, "little")
        if third.isalnum():
            return [f"{head}{third.decode()}{i:08}" for i in range(count)]


# The hasher of std with no key: SipHash with one round a word, and three at the end.
SIP_START = (0x736F_6D65_7073_6575, 0x646F_7261_6E64_6F6D, 0x6C79_6765_6E65_7261, 0x7465_6462_7974_6573)


def sip_round(a, b, c, d):
    a, c = a + b & WORD, c + d & WORD
    b, d = (b << 13 & WORD | b >> 51) ^ a, (d << 16 & WORD | d >> 48) ^ c
    a = a << 32 & WORD | a >> 32
    c, a = c + b & WORD, a + d & WORD
    b, d = (b << 17 & WORD | b >> 47) ^ c, (d << 21 & WORD | d >> 43) ^ a
    return a, b, c << 32 & WORD | c >> 32, d


def sip_word(state, read):
    a, b, c, d = state
    a, b, c, d = sip_round(a, b, c, d ^ read)
    return a ^ read, b, c, d


def sip_end(state):
    a, b, c, d = state
    c ^= 0xFF
    for _ in range(3):
        a, b, c, d = sip_round(a, b, c, d)
    return a ^ b ^ c ^ d


def near(before, count):
    """Names whose places are in the first eighth of a table for so many, if the hasher reads these bytes before each."""
    groups = 1
    while 9 * groups < count:
        groups *= 2
    common = before + b"module::case_" + b"0" * 24
    state = SIP_START
    for at in (0, 8, 16):
        state = sip_word(state, word(common[at : at + 8]))
    names = []
    for i in itertools.count():
        name = f"module::case_{i:019}"
        read = before + name.encode() + TEXT_END
        last = word(read[32:]) | len(read) << 56
        found = sip_end(sip_word(sip_word(state, word(read[24:32])), last))
        if (found ^ found >> 32) % groups < max(groups // 8, 1):
            names.append(name)
            if len(names) == count:
                return names


def one_by_one(_before, count):
    return [f"module::case_{i:019}" for i in range(count)]


def colliding(count):
    def load(chosen, before):
        def make(size):
            names = sorted(chosen(before, size), reverse=True)
            return run_of(names, names)

        return make

    sizes = (count // 4, count // 2, count)
    makers = [
        ("ordinary", one_by_one, b""),
        ("listing", one_hash, b""),
        ("session", one_hash, TABLE_KEY),
        ("near listing", near, b""),
        ("near session", near, MAP_KEY),
    ]
    return [(name, load(chosen, before), sizes) for name, chosen, before in makers]


def report_length(load):
    """How many bytes the report of a load has."""
    with tempfile.TemporaryFile() as report:
        load.seek(0)
        subprocess.run([PROGRAM], stdin=load, stdout=report)
        return report.seek(0, os.SEEK_END)


def run(load):
    with open(os.devnull, "w") as report:
        load.seek(0)
        begun = time.monotonic()
        child = os.fork()
        if child == 0:
            os.dup2(load.fileno(), 0)
            os.dup2(report.fileno(), 1)
            os.execv(PROGRAM, [str(PROGRAM)])
        _, status, used = os.wait4(child, 0)
        return time.monotonic() - begun, used.ru_maxrss // 1024, os.waitstatus_to_exitcode(status)


def main():
    print("load               bytes     report  seconds  MB peak  MB/s  ratio  status")
    loads = [
        ("binaries", binaries, (1_000, 10_000, 100_000)),
        ("tests", tests, (1_000, 10_000, 100_000, 300_000)),
        ("shuffled", shuffled, (300_000,)),
        ("ranked", ranked, (300_000,)),
        ("ranked shuffled", ranked_shuffled, (300_000,)),
        ("places", places, (1_000_000, 16_000_000)),
        ("passing", passing, (0, 1_024, 16_384, 65_536)),
        ("failing", failing, (0, 1_024, 16_384, 65_536)),
    ]
    arguments = sys.argv[1:]
    if arguments[:1] == ["colliding"]:
        loads = colliding(int(arguments[1]) if arguments[1:] else 20_000)
        arguments = []
    for file in arguments:
        names = pathlib.Path(file).read_text().split()
        others = [f"{i:0{len(names[0])}}" for i in range(len(names))]
        random.Random(1).shuffle(others)
        loads.append(("ordinary", lambda _, names=others: run_of(names, names), (len(names),)))
        loads.append(("given", lambda _, names=names: run_of(names, names), (len(names),)))
    for name, make, counts in loads:
        before = None
        for count in counts:
            head, log = make(count)
            with tempfile.TemporaryFile("w+") as load:
                size = load.write(head + "\n" + log)
                load.flush()
                told = report_length(load)
                seconds, peak, status = min(run(load) for _ in range(3))
            ratio = "" if before is None else f"{seconds / before[0] / (size / before[1]):.2f}"
            before = (seconds, size)
            print(f"{name} {count:<9} {size:>9}  {told:>9}  {seconds:7.3f}  {peak:7}  {size / seconds / 1e6:4.0f}  {ratio:>5}  {status}")


if __name__ == "__main__":
    sys.exit(main())
