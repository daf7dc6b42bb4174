#!/usr/bin/env python3
"""Proves and builds the libraries that a program stands on, those side by side that don't wait for one another, and tells of
each as it is done, and how much time is left.

    python3 scripts/prove_below.py test_runner

`rt run` would prove one after another, without a word; what this leaves, it finds built. How long it takes is reckoned: the table
of docs/MEASUREMENTS.md has the units that each crate's proof is worth, `calibration.py` tells what a unit takes here and now, and
the same order is gone through with these numbers. As libraries are done, what they took counts too. It works by the parts of
the kit's own `rt`, so `rt` has to be on the PATH. The exit status is 1 where a library isn't proved, and what was said of it is
printed.
"""
import collections
import concurrent.futures
import copy
import os
import pathlib
import sys
import tempfile
import time

sys.dont_write_bytecode = True
from calibration import UNITS, Unfit, calibrate, kit

ROOT = pathlib.Path(__file__).resolve().parent.parent

# The most memory that one of these proofs took, with some room.
BYTES = 2_500_000_000

# The seconds after which timing the small proof is given up.
MOST = 45


def lanes():
    """How many proofs run side by side: one a processor, and no more than the free memory holds."""
    meminfo = dict(line.split(":") for line in open("/proc/meminfo"))
    free = 1024 * int(meminfo["MemAvailable"].split()[0])
    return max(min(len(os.sched_getaffinity(0)), free // BYTES), 1)


def rows():
    """The rows of the gate's table in docs/MEASUREMENTS.md, by crate: the numbers by the names of their columns."""
    found, names = {}, None
    for line in (ROOT / "docs/MEASUREMENTS.md").read_text().split("\n"):
        cells = [it.strip() for it in line.strip().strip("|").split("|")] if line.startswith("|") else []
        if names and not cells:
            break
        if cells and cells[0] == "Crate" and "proof" in cells:
            names = cells
        elif names and cells[0] != "all" and cells[0].strip("-"):
            numbers = {name: it.replace(",", "").split() for name, it in zip(names, cells)}
            found[cells[0]] = {name: float(it[0]) for name, it in numbers.items() if it and it[0].replace(".", "").isdigit()}
    return found


class Weights:
    """What the proofs are worth in units; one that isn't in the table counts as the mean."""

    def __init__(self):
        self.rows = rows()
        proofs = [it["proof"] for it in self.rows.values() if "proof" in it] or [UNITS]
        self.mean = sum(proofs) / len(proofs)

    def proof(self, crate):
        return self.rows.get(crate.name, {}).get("proof", self.mean)

    def program(self, crate):
        """A program's proof, and one of the two compilers that the table's column counts."""
        row = self.rows.get(crate.name, {})
        return self.proof(crate) + row.get("program", row.get("build", self.mean)) / 2


def prove(crate):
    """Builds a library whose own libraries are built: whether it is proved, and what was said."""
    os.makedirs(f"{crate.folder}/out", exist_ok=True)
    crate = copy.copy(crate)
    with tempfile.TemporaryFile("w+", errors="replace") as crate.out:
        status = crate.build_rlib(["--jobs", "1"], anew=False)
        crate.out.seek(0)
        return status == 0, crate.out.read()


def by_chain(crates):
    """The libraries, those first on which the longest chain of others stands."""
    above = collections.Counter()
    for crate in sorted(crates, key=lambda it: -len(it.below())):
        for it in crate.below():
            above[it.name] = max(above[it.name], above[crate.name] + 1)
    return sorted(crates, key=lambda it: -above[it.name])


def first_ready(waiting, below, done, room):
    """The first of those that wait whose own libraries are done, as many as there is room for."""
    return [it for it in waiting if below[it] <= done][:room]


def time_of(waiting, running, below, takes, count):
    """The seconds until all are done, when `count` go side by side, a running one still takes what it is given with, and a
    waiting one what `takes` says."""
    clock, running, waiting = 0, dict(running), list(waiting)
    done = set(below) - {*waiting, *running}
    while waiting or running:
        for it in first_ready(waiting, below, done, count - len(running)):
            waiting.remove(it)
            running[it] = clock + takes(it)
        first = min(running, key=running.get)
        clock = max(clock, running.pop(first))
        done.add(first)
    return clock


def as_time(seconds):
    minutes, seconds = divmod(int(seconds), 60)
    return f"{minutes}:{seconds:02}"


class Progress:
    """What is known of how long it takes: the units of each crate, and the seconds by the clock that units took so far."""

    def __init__(self, crates, program, weights, count):
        self.order, self.count, self.began = [it.name for it in crates], count, time.time()
        names = set(self.order)
        self.below = {it.name: {below.name for below in it.below()} & names for it in crates}
        self.units = {it.name: weights.proof(it) for it in crates}
        self.last = weights.program(program)
        self.seconds, self.of_units = 0, 0

    def saw(self, seconds, units):
        self.seconds, self.of_units = self.seconds + seconds, self.of_units + units

    def takes(self, units):
        return units * self.seconds / self.of_units

    def left(self, waiting, running):
        """The seconds that are left, with the program; `running` has when each began."""
        now = time.time()
        of_running = {it: max(self.takes(self.units[it]) - (now - began), 0) for it, began in running.items()}
        libraries = time_of(waiting, of_running, self.below, lambda it: self.takes(self.units[it]), self.count)
        return libraries + self.takes(self.last)

    def tell_done(self, name, began, waiting, running):
        self.saw(time.time() - began, self.units[name])
        at = len(self.order) - len(waiting) - len(running)
        left = f"about {as_time(self.left(waiting, running))} left"
        print(f"{as_time(time.time() - self.began):>6}  {name} is done, {at} of {len(self.order)}, {left}", flush=True)


def prove_all(crates, progress):
    """Proves libraries, each once its own are proved: whether all are."""
    of_name, waiting, began, running = {it.name: it for it in crates}, list(progress.order), {}, {}
    with concurrent.futures.ThreadPoolExecutor(progress.count) as pool:
        while waiting or running:
            done = set(of_name) - {*waiting, *began}
            for name in first_ready(waiting, progress.below, done, progress.count - len(running)):
                waiting.remove(name)
                began[name] = time.time()
                running[pool.submit(prove, of_name[name])] = name
            for ended in concurrent.futures.wait(running, return_when=concurrent.futures.FIRST_COMPLETED).done:
                name, (well, said) = running.pop(ended), ended.result()
                if not well:
                    print(f"{said}{name} is not proved", flush=True)
                    return False
                progress.tell_done(name, began.pop(name), waiting, began)
    return True


def reckon(progress, weights, name, whole):
    """Times a small proof, and prints how long all will take."""
    left = len(progress.order)
    what = f"the {left} libraries below {name}" if left == whole else f"{left} of the {whole} libraries below {name}"
    print(f"Proving {what}, {progress.count} side by side, and the program: ", end="", flush=True)
    try:
        if not weights.rows:
            raise Unfit("docs/MEASUREMENTS.md has no table of proofs")
        timed = calibrate(min(progress.count, left), MOST)
    except Unfit as why:
        print(f"how long that takes can't be told before the first is done, since {why}", flush=True)
        return
    progress.saw(timed.copies * timed.clock_seconds, timed.copies * UNITS)
    progress.began = time.time()
    much, minutes = "about" if timed.ended else "more than", max(round(progress.left(progress.order, {}) / 60), 1)
    many = f"{minutes} minute{'s' if minutes > 1 else ''}"
    by = "timed just now" if timed.ended else f"that wasn't done after {MOST} seconds"
    print(f"{much} {many} here from nothing, by a small proof {by}.", flush=True)


def main(name):
    parts = kit()
    crates = parts.crates_below(str(ROOT))
    program = next(it for it in crates if it.name == name)
    below = by_chain(program.below())
    held = parts.lock(below)
    missing = [it for it in below if not it.is_built()]
    if not missing:
        return 0
    weights = Weights()
    progress = Progress(missing, program, weights, lanes())
    reckon(progress, weights, name, len(below))
    well = prove_all(missing, progress)
    if well:
        print(f"Then the program itself, which takes about {as_time(progress.takes(progress.last))}.", flush=True)
    for it in held:
        os.close(it)
    return 0 if well else 1


if __name__ == "__main__":
    sys.exit(main(*sys.argv[1:]))
