#!/usr/bin/env python3
"""Feeds the built program streams that are drawn from the rows and changed, and says where something doesn't hold that always should.

    python3 fuzz/mutate.py [--program PATH] [--seed N] [--from N] [--count N] [--jobs N] [--laws N] [--save FOLDER]
    python3 fuzz/mutate.py --frames PATH [--kinds slcfp] [--seed N] [--from N] [--count N] [--jobs N] [--save FOLDER]

The first way runs the program on each stream, and on others, by so many LAWS, that ought to come to the same, or to no milder status
(fuzz/oracle.py has what is asked); where the rules reach by which the rows are made, its report and status are those (fuzz/rules.py).
The second way feeds PATH, which fuzz/build.py makes, many parts in one process: streams (s), logs (l), configurations (c), filtersets
(f) and platform specs (p), each as its letter, its length in four bytes, the lowest first, and its bytes; a byte answers each. There a
code of 1, 2, 3 (unless a pattern may be too large) or 255 is a finding, and so is the end of the process.

Stream number I of seed N is the same wherever it is drawn of the same rows, so `--seed N --from I --count 1` runs it again. Each finding is printed, and
kept in FOLDER where one is given; the last lines tell how many runs ended in which way, and the seconds. The exit status is 1 where
something was found.
"""
import argparse
import collections
import concurrent.futures
import functools
import hashlib
import pathlib
import random
import struct
import subprocess
import sys
import time

sys.dont_write_bytecode = True
import mutations
import oracle
import rules
import seeds

# How many numbers a worker takes at a time.
BATCH = 500

# The codes of a harness that no input ought to have: of a failed read and write, for want of memory, and of what doesn't hold.
BAD_CODES = {1: "a read failed", 2: "the report is too long", 3: "there is no memory", 255: "what is promised doesn't hold"}


@functools.cache
def stock():
    return seeds.Stock()


def drawn(seed, number, kind):
    """The part of a kind that has this number, by this seed."""
    return mutations.drawn_part(random.Random(f"{seed} {kind} {number}"), stock(), kind)


# ---- one process each


def faults_of(programs, seed, number, laws):
    """The stream of a number, how its run ended, and what doesn't hold of it."""
    stream, draw = drawn(seed, number, "s"), random.Random(f"{seed} laws {number}")
    program = programs[0]
    run = program.run(stream)
    faults = oracle.faults_of_run(stream, run) + rules.as_reckoned(stream, run)
    for law in draw.sample(oracle.LAWS, laws):
        faults += law(draw, program, stream, run)
    faults += [f"{other.path} comes to something else" for other in programs[1:] if other.run(stream) != run]
    return stream, run.status, faults


def run_streams(path, seed, numbers, laws):
    """What became of the streams of these numbers: how many ended in which way, and the findings."""
    ends, findings, programs = collections.Counter(), [], oracle.programs_at(path)
    for number in numbers:
        try:
            stream, status, faults = faults_of(programs, seed, number, laws)
        except subprocess.TimeoutExpired:
            stream, status, faults = drawn(seed, number, "s"), "none", ["it doesn't end"]
        ends["s", status] += 1
        findings += [(number, "s", fault, stream) for fault in faults]
    return ends, findings


# ---- many parts in one process


def answers(path, parts):
    """The codes that a harness answers to parts, each behind its kind; fewer where it ended before."""
    frames = b"".join(kind.encode() + struct.pack("<I", len(part)) + part for kind, part in parts)
    try:
        done = subprocess.run([path], input=frames, capture_output=True, timeout=600)
    except subprocess.TimeoutExpired as error:
        return list(error.stdout or b""), "it doesn't end"
    return list(done.stdout), f"it ended with status {done.returncode}: {done.stderr.decode(errors='replace')[:2000]}"


def run_frames(path, seed, numbers, kinds):
    """What became of a part of each kind for these numbers."""
    parts = [(kind, drawn(seed, number, kind)) for number in numbers for kind in kinds]
    named = [number for number in numbers for _ in kinds]
    codes, end = answers(path, parts)
    ends = collections.Counter((kind, code) for (kind, _), code in zip(parts, codes))
    told = [(number, *it, code) for number, it, code in zip(named, parts, codes) if code in BAD_CODES]
    findings = [(number, kind, BAD_CODES[code], part) for number, kind, part, code in told if code != 3 or not oracle.LARGE.search(part)]
    if len(codes) < len(parts):
        kind, part = parts[len(codes)]
        findings.append((named[len(codes)], kind, end, part))
    return ends, findings


# ---- all


def told(seed, finding, folder):
    """A finding on a line, kept in a folder where there is one."""
    number, kind, fault, part = finding
    if folder:
        folder.mkdir(parents=True, exist_ok=True)
        (folder / f"{kind}-{hashlib.sha256(part).hexdigest()[:16]}").write_bytes(part)
    return f"seed {seed}, {kind} number {number}: {fault}"


def words():
    parser = argparse.ArgumentParser(description=__doc__, formatter_class=argparse.RawDescriptionHelpFormatter)
    parser.add_argument("--program", default=oracle.rows.PROGRAM)
    parser.add_argument("--frames", help="a harness, which is fed many parts in one process")
    parser.add_argument("--kinds", default="slcfp")
    parser.add_argument("--seed", type=int, default=1)
    parser.add_argument("--from", dest="first", type=int, default=0)
    parser.add_argument("--count", type=int, default=10_000)
    parser.add_argument("--jobs", type=int, default=2)
    parser.add_argument("--laws", type=int, default=2, help="how many laws are tried on each stream")
    parser.add_argument("--save", type=pathlib.Path)
    return parser.parse_args()


def batches(given, results):
    """The ends of each batch and the number of its findings, which are printed as they come."""
    for ends, findings in results:
        print("".join(f"{told(given.seed, it, given.save)}\n" for it in findings), end="", flush=True)
        yield ends, len(findings)


def main():
    given, start = words(), time.monotonic()
    last = given.first + given.count
    numbers = [range(it, min(it + BATCH, last)) for it in range(given.first, last, BATCH)]
    task = functools.partial(run_frames, given.frames, given.seed) if given.frames else functools.partial(run_streams, given.program, given.seed)
    with concurrent.futures.ProcessPoolExecutor(given.jobs) as pool:
        how = [given.kinds if given.frames else given.laws] * len(numbers)
        done = list(batches(given, pool.map(task, numbers, how)))
    ends, count = sum((it for it, _ in done), collections.Counter()), sum(number for _, number in done)
    print("\n".join(f"{kind} {end}: {number}" for (kind, end), number in sorted(ends.items(), key=str)))
    print(f"{sum(ends.values())} runs, {count} findings, {time.monotonic() - start:.0f} seconds")
    return 1 if count else 0


if __name__ == "__main__":
    sys.exit(main())
