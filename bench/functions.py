#!/usr/bin/env python3
"""Prints what the proofs of single functions took, the dearest first, as the files tell that a check of their crates kept.

    python3 bench/functions.py SECONDS CRATE ..         functions of these crates that took so long or longer
    python3 bench/functions.py --parts REGEX CRATE ..   the parts of the functions whose names match, with their bytes

A check with one job (`rt check --jobs 1`, or what `make run` does) writes a file in the crate's out/incremental as each part of
a function's proof is done, so the time between two files is that of the second one's part: `Lts` is the walk over the function's
code, which grows with its exits and with what is dropped at them, `Tie` follows from it, and `Proof` has the goals that tactics
search for. The seconds are those of the clock, of a check from nothing: remove out/ first, and let nothing run beside it. What
was only loaded has old files and is told with the time between two of these, so after a small edit go by the bytes of the parts
alone: those don't depend on the machine.
"""
import collections
import pathlib
import re
import sys

ROOT = pathlib.Path(__file__).resolve().parent.parent


def parts(crate):
    """The parts of a crate's proofs in the order in which they were done: name, seconds, bytes."""
    kept = (ROOT / "crates" / crate / "out/incremental").rglob("*.oantt")
    files = sorted((it.stat().st_mtime_ns, it.name, it.stat().st_size) for it in kept if it.parent.name != "records")
    for before, (when, name, size) in zip(files, files[1:]):
        yield re.sub(r"^Rattle-\w+[-.]", "", name.removesuffix(".oantt")), (when - before[0]) / 1e9, size


def function_of(part):
    """The name of the function that a part is of, or its own where it is of none."""
    function, _, last = part.rpartition(".")
    return function if part.startswith("proofs.") and last[:1].isupper() else part


def functions(crate):
    """The seconds of each function of a crate."""
    seconds = collections.Counter()
    for part, spent, _ in parts(crate):
        seconds[function_of(part)] += spent
    return seconds


def main(words):
    wanted = words[1] if words[0] == "--parts" else float(words[0])
    for crate in words[2:] if words[0] == "--parts" else words[1:]:
        print(crate)
        if words[0] == "--parts":
            for part, spent, size in parts(crate):
                if re.search(wanted, part):
                    print(f"{spent:8.2f} {size:10} {part}")
        else:
            for function, spent in functions(crate).most_common():
                if spent >= wanted:
                    print(f"{spent:8.1f} {function}")


if __name__ == "__main__":
    main(sys.argv[1:])
