#!/usr/bin/env python3
"""Times one small proof on this machine, so that what proofs take can be told in units that mean the same on each machine and
under each load.

    python3 scripts/calibration.py [COPIES]

The proof is that of the crate `nextest_version` from nothing, as the gate does it, and it is 35 units: so many processor seconds
it took where the gate was read for docs/MEASUREMENTS.md, with four proofs side by side. So it is done COPIES times side by side,
once a processor if no number is given, each in a copy of its own outside of the repository, which begins with nothing and
leaves nothing for others. Printed is what one of them took on average. Other scripts call `calibrate`.
"""
import hashlib
import importlib.machinery
import importlib.util
import os
import pathlib
import resource
import shutil
import subprocess
import sys
import tempfile
import time
import typing

ROOT = pathlib.Path(__file__).resolve().parent.parent

# The crate, its line of crates.txt, what its proof is worth, and the sum of the files and the logic that this holds for. Where
# one of them is another, time the old and the new side by side, and write here UNITS times the new seconds by the old ones.
CRATE, LINE, UNITS = "nextest_version", "nextest_version: semver", 35
SUM = "eff57f497fc765c96013234097475c0ceb644914ae98f72684b2f4c8ccd16584"
LOGIC = "logic dac8208d650f15bf"
MENDED = "fix the unit anew, at the head of scripts/calibration.py"
PARTS = ("src", "specs", "proofs")


class Unfit(Exception):
    """Why there is no unit: the crate isn't the one that it was fixed by, or isn't proved."""


class Calibration(typing.NamedTuple):
    """What one proof took on average, of `copies` side by side. Unless they `ended`, it takes more than these seconds by the
    clock, and the processor's aren't known."""

    copies: int
    processor_seconds: float
    clock_seconds: float
    ended: bool

    def __str__(self):
        if not self.ended:
            return f"more than {self.clock_seconds:.0f} seconds by the clock, {self.copies} side by side"
        return (
            f"{self.processor_seconds:.1f} processor seconds for {UNITS} units, "
            f"{self.clock_seconds:.1f} seconds by the clock, {self.copies} side by side"
        )


def kit():
    """The parts of the kit's `rt`, with what `rt` itself mends in them."""
    sys.dont_write_bytecode = True
    loader = importlib.machinery.SourceFileLoader("rt_of_the_kit", os.path.realpath(shutil.which("rt")))
    made = importlib.util.module_from_spec(importlib.util.spec_from_loader("rt_of_the_kit", loader))
    loader.exec_module(made)
    # its first call sets a signal's handler, which only the main thread may
    made.rtlib.guarded()
    return made.rtlib


def processors():
    return len(os.sched_getaffinity(0))


def used():
    """The processor seconds of all processes that this one started and waited for."""
    spent = resource.getrusage(resource.RUSAGE_CHILDREN)
    return spent.ru_utime + spent.ru_stime


def sum_of_files():
    """The sum of the crate's files: their paths and their bytes."""
    folder, found = ROOT / "crates" / CRATE, hashlib.sha256()
    for file in sorted(it for part in PARTS for it in (folder / part).rglob("*") if it.is_file()):
        found.update(f"{file.relative_to(folder)}\n{file.stat().st_size}\n".encode() + file.read_bytes())
    return found.hexdigest()


def stop_unless_fixed():
    """Raises `Unfit` where crate or kit aren't those that the unit was fixed by."""
    if sum_of_files() != SUM:
        raise Unfit(f"the files of {CRATE} changed (sum {sum_of_files()}): {MENDED}")
    said = subprocess.run(["rt", "version"], capture_output=True, text=True).stdout.strip()
    if not said.endswith(LOGIC):
        raise Unfit(f"the kit's logic is another ({said}): {MENDED}")


def make_copy(room):
    """Makes a repository of the one crate."""
    (room / ".git").mkdir(parents=True)
    for part in PARTS:
        if (ROOT / "crates" / CRATE / part).is_dir():
            shutil.copytree(ROOT / "crates" / CRATE / part, room / "crates" / CRATE / part)
    (room / "crates.txt").write_text(LINE + "\n")
    shutil.copyfile(ROOT / "HANDLES", room / "HANDLES")


def prove_here():
    """Proves the one crate of the repository in this folder, as the gate does: the exit status."""
    parts = kit()
    (crate,) = parts.crates_below(os.getcwd())
    os.makedirs(f"{crate.folder}/out")
    # the crates above a library load its statements alone
    parts.Crate.cuts_libraries = True
    return crate.build_rlib(["--jobs", "1"], anew=True)


def wait_for(running, most):
    """The seconds by the clock after which each of the processes ended, no longer than `most` seconds."""
    began, ended = time.time(), {}
    while len(ended) < len(running) and (most is None or time.time() - began < most):
        ended.update({at: time.time() - began for at, it in enumerate(running) if at not in ended and it.poll() is not None})
        time.sleep(0.05)
    return list(ended.values())


def calibrate(copies=None, most=None):
    """Times the proof, and gives up after `most` seconds by the clock. Raises `Unfit` where there is no unit."""
    stop_unless_fixed()
    copies, running, before = copies or processors(), [], used()
    folder = pathlib.Path(tempfile.mkdtemp(prefix="calibration-"))
    try:
        rooms = [folder / str(it) for it in range(copies)]
        for room in rooms:
            make_copy(room)
        for room in rooms:
            with open(room / "said", "wb") as said:
                how = {"stdin": subprocess.DEVNULL, "stdout": said, "stderr": said, "env": {**os.environ, "TMPDIR": str(room)}}
                running.append(subprocess.Popen([sys.executable, os.path.abspath(__file__), "--here"], cwd=room, **how))
        seconds = wait_for(running, most)
        if len(seconds) < copies:
            return Calibration(copies, 0, most, False)
        for room, it in zip(rooms, running):
            if it.returncode:
                raise Unfit(f"{CRATE} was not proved:\n{(room / 'said').read_text(errors='replace')[-2000:]}")
        return Calibration(copies, (used() - before) / copies, sum(seconds) / copies, True)
    finally:
        end(running)
        shutil.rmtree(folder, ignore_errors=True)


def end(running):
    """Ends the processes that still run; what the kit started for them ends with them, a moment later."""
    left = [it for it in running if it.poll() is None]
    for it in left:
        it.kill()
        it.wait()
    time.sleep(0.5 if left else 0)


def main(words):
    if words == ["--here"]:
        return prove_here()
    try:
        print(calibrate(int(words[0]) if words else None))
    except Unfit as why:
        print(f"there is no unit: {why}")
        return 1
    return 0


if __name__ == "__main__":
    sys.exit(main(sys.argv[1:]))
