#!/usr/bin/env python3
"""Runs the gate, and prints what it took by crate and kind, read from the process table as it goes, in units and in seconds.

Run it from the repository's root: `bench/gate.py`, which runs `make test`, or `bench/gate.py COMMAND ..` for another command of
`rt` (as `rt must-fail nextest_text`). What the command prints goes to bench/gate.log. The exit status is the command's. The kinds:
proof (the crate, from nothing), tests (the crate once more with its tests), edits (its wrong bodies), build (what LLVM and
Rattle's own compiler make of a proved program or of tests). A process that lives less than the time between two looks may be
missed; the sum of all, by the system's own count, stands in the last line.

Seconds of one day are no seconds of another, so one small proof is timed before and after, in rounds, once a processor side by
side, and a unit is a 35th of what it takes (scripts/calibration.py): of the rounds before the median, of those after the median,
and of these two the mean. Where the two are far apart the machine wasn't quiet.
What other processes used meanwhile is told as well: of /proc/stat what the run and this script didn't use themselves.
"""
import collections
import os
import pathlib
import re
import resource
import statistics
import subprocess
import sys
import time

ROOT = pathlib.Path(__file__).resolve().parent.parent
sys.dont_write_bytecode = True
sys.path.insert(0, str(ROOT / "scripts"))
from calibration import UNITS, Unfit, calibrate, used

LOG = ROOT / "bench/gate.log"
KINDS = ("proof", "tests", "edits", "build")
BETWEEN_LOOKS = 0.4
TICK = os.sysconf("SC_CLK_TCK")

# How often the small proof is timed before and after, how far the two medians may be apart, and how long the machine is looked at.
ROUNDS = 5
MOST_APART = 0.10
LOOK_SECONDS = 3


def read(path):
    try:
        return path.read_bytes()
    except OSError:
        return b""


def look():
    """The processes: by number, the parent's number, when it began, its processor seconds so far, its words."""
    found = {}
    for folder in pathlib.Path("/proc").glob("[0-9]*"):
        stat = read(folder / "stat")
        fields = stat[stat.rfind(b")") + 2 :].split()
        if len(fields) > 19:
            words = read(folder / "cmdline").decode(errors="replace").split("\0")
            seconds = (int(fields[11]) + int(fields[12])) / TICK
            found[int(folder.name)] = int(fields[1]), fields[19], seconds, words
    return found


def what_for(processes, number, above):
    """The crate and the kind that a process works for, told by its own words or by those of the one that started it; `None`
    where it doesn't stand below `above`."""
    found = None
    while number in processes and number != above:
        parent, _, _, words = processes[number]
        found = found or work_of(number, words)
        number = parent
    return found or ("(the rest)", "") if number == above else None


def work_of(number, words):
    if "--crate-name" not in words:
        return None
    crate = words[words.index("--crate-name") + 1]
    try:
        folder = os.readlink(f"/proc/{number}/cwd")
    except OSError:
        return None
    if "rt-edit-" in folder:
        return crate, "edits"
    if "--crate-checked" in words:
        return crate, "build"
    return crate, "tests" if "--test" in words else "proof"


def watch(running):
    """Looks at what runs until it ends: the seconds of each process, and what each works for."""
    seconds, works = {}, {}
    while running.poll() is None:
        processes = look()
        for number, (_, began, spent, _) in processes.items():
            key = number, began
            if works.get(key, ("", ""))[1] == "":
                work = what_for(processes, number, running.pid)
                if work is None:
                    continue
                works[key] = work
            seconds[key] = spent
        time.sleep(BETWEEN_LOOKS)
    return seconds, works


def mark():
    """The time, the processor seconds that the machine was busy and that were taken from it, and those of this run."""
    ticks = [int(it) / TICK for it in read(pathlib.Path("/proc/stat")).split(b"\n")[0].split()[1:9]]
    busy, stolen = (sum(ticks[:3]) + sum(ticks[5:7]), ticks[7]) if len(ticks) == 8 else (None, None)
    own = resource.getrusage(resource.RUSAGE_SELF)
    return time.time(), busy, stolen, used() + own.ru_utime + own.ru_stime


def tell_others(when, one, other):
    """Prints how many processors others used between two marks, and how much of them the machine below took away."""
    if one[1] is None or other[1] is None:
        print(f"{when}: what others use can't be told here", flush=True)
        return
    clock, busy, stolen, own = (after - before for before, after in zip(one, other))
    others = f"{max(busy - own, 0) / clock:.2f} of {os.cpu_count()} processors used by other processes"
    print(f"{when}: {others}, {stolen / clock:.2f} taken by other machines", flush=True)


def tell_load(when):
    """Looks at the machine while nothing of this run goes."""
    began = mark()
    time.sleep(LOOK_SECONDS)
    tell_others(when, began, mark())


def time_proof(when):
    """What the small proof takes in processor seconds, the median of some rounds; `None` where there is no unit."""
    rounds = []
    for _ in range(ROUNDS):
        try:
            timed = calibrate()
        except Unfit as why:
            print(f"{when}: no unit, and raw seconds alone, since {why}", flush=True)
            return None
        print(f"{when}: the small proof took {timed}", flush=True)
        rounds.append(timed.processor_seconds)
    return statistics.median(rounds)


def seconds_of_unit(before, after):
    """The processor seconds of a unit, by the two times of the small proof; `None` where one is missing."""
    if before is None or after is None:
        return None
    mean = (before + after) / 2
    apart = abs(after - before) / mean
    print(f"the two are {100 * apart:.0f} % apart; a unit is {mean / UNITS:.3f} processor seconds")
    if apart > MOST_APART:
        print(f"warning: that is more than {100 * MOST_APART:.0f} %, so the machine wasn't quiet, and the figures are no better")
    return mean / UNITS


def table(seconds, works, unit):
    """Prints the kinds of each crate in units, and their sum in units and in seconds, or all in seconds if there is no unit."""
    spent = collections.defaultdict(lambda: collections.Counter())
    for key, (crate, kind) in works.items():
        spent[crate][kind] += seconds[key]
    rows = sorted(spent.items(), key=lambda row: -sum(row[1].values()))
    rows.append(("all", sum((kinds for _, kinds in rows), collections.Counter())))
    names = ["Crate", *KINDS, *(["units"] if unit else []), "seconds"]
    print(f"\n| {' | '.join(names)} |\n|{'---|' * len(names)}")
    for crate, kinds in rows:
        number = lambda it: f"{it / (unit or 1):.0f}"
        cells = [number(kinds[kind]) if kinds[kind] >= 0.5 * (unit or 1) else "" for kind in KINDS]
        whole = sum(kinds.values())
        print(f"| {crate} | {' | '.join([*cells, *([number(whole)] if unit else []), f'{whole:.0f}'])} |")


def main():
    tell_load("before")
    before = time_proof("before")
    began, used_before = mark(), used()
    with open(LOG, "wb") as log:
        running = subprocess.Popen(sys.argv[1:] or ["make", "test"], cwd=ROOT, stdout=log, stderr=subprocess.STDOUT)
        seconds, works = watch(running)
    ended, spent = mark(), used() - used_before
    tell_others("meanwhile", began, ended)
    after = time_proof("after") if before else None
    tell_load("after")
    unit = seconds_of_unit(before, after)
    table(seconds, works, unit)
    lines = re.findall(r"\S.*", LOG.read_text(errors="replace"))
    print(f"\n{lines[-1] if lines else 'it printed nothing'}")
    units = f", {spent / unit:,.0f} units" if unit else ""
    print(f"{spent:.0f} processor seconds{units}, {ended[0] - began[0]:.0f} seconds by the clock")
    return running.returncode


if __name__ == "__main__":
    sys.exit(main())
