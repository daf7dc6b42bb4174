#!/usr/bin/env python3
"""Runs a part of the gate: what `rt ci` does, for some crates and all that stand on them. The others are only built, where they aren't.

    python3 bench/part_gate.py CRATE ..
    python3 bench/gate.py python3 bench/part_gate.py CRATE ..     also tells the processor seconds

It stands on the parts of the kit's own `rt`, which has to be on the PATH. Libraries, tests and programs of the part are proved from nothing,
their wrong bodies are tried, and their tests and programs run; the last line is that of the gate, in which the others count as passed. It is no
verdict: what was built before is taken as it lies.
"""
import importlib.machinery
import importlib.util
import os
import re
import shutil
import sys


def kit():
    """The kit's `rt`, as a module."""
    sys.dont_write_bytecode = True
    loader = importlib.machinery.SourceFileLoader("rt_of_the_kit", os.path.realpath(shutil.which("rt")))
    made = importlib.util.module_from_spec(importlib.util.spec_from_loader("rt_of_the_kit", loader))
    sys.modules["rt_of_the_kit"] = made
    loader.exec_module(made)
    return made


def main(names):
    rt = kit()
    part = set()
    prove, edits_of = rt.Crate.ci, rt.edits_of

    def ci(crate, flags, tests):
        if crate.name in part:
            return prove(crate, flags, tests)
        return 0 if tests or not crate.makes_rlib() else crate.build_rlib(flags, anew=False)

    def crates_of(root, _aside):
        rt.rtlib.Crate = rt.Crate
        crates = rt.rtlib.crates_below(root)
        for crate in crates:
            # whole libraries, so that what lies there serves
            crate.cuts_libraries = False
            if crate.name in names or {it.name for it in crate.below()} & set(names):
                part.add(crate.name)
        print(f"the part: {' '.join(sorted(part))}", flush=True)
        return crates

    # what a check kept is taken here, which no verdict takes
    rt.rtlib.VERDICT = re.compile(rt.rtlib.VERDICT.pattern.replace(r"\n\Z", r"( incremental=trusted)?\n\Z"), re.M)
    rt.Crate.ci, rt.crates_of = ci, crates_of
    rt.edits_of = lambda crate: edits_of(crate) if crate.name in part else ([], [])
    return rt.ci_from_nothing(None)


if __name__ == "__main__":
    sys.exit(main(sys.argv[1:]) if sys.argv[1:] else __doc__)
