#!/usr/bin/env python3
"""Puts into a checkout the libraries that `rt ci` proved and kept on this machine, so that `rt check` begins above them.

    python3 scripts/take_kept.py [CHECKOUT]

For each crate whose files are those that a run of `rt ci` passed, over the libraries below as that run had them, the library is linked into
`crates/NAME/out/rlib`, and the kit's stamp is written beside it; one that is built there already stays. It prints how many there are, and
the crates that it has none of: these, and those above them, are built by the next check. It goes by names inside of the kit's `rt` (`Kept`,
`place`, `give`), which another kit may lack.
"""
import fcntl
import importlib.machinery
import importlib.util
import os
import pathlib
import shutil
import sys
import tempfile

sys.dont_write_bytecode = True
ROOT = pathlib.Path(__file__).resolve().parent.parent


def kit():
    """The kit's `rt` as a module: it ends where it is called with no command, which leaves all its names there."""
    loader = importlib.machinery.SourceFileLoader("rt", shutil.which("rt"))
    module = importlib.util.module_from_spec(importlib.util.spec_from_loader("rt", loader))
    sys.modules["rt"] = module
    sys.argv[1:] = []
    try:
        loader.exec_module(module)
    except SystemExit:
        pass
    module.rtlib.Crate = module.Crate
    return module


def take(kept, crate, told):
    """Takes the crate's library, those below it first, where all of them are kept."""
    if crate.name in told:
        return
    told[crate.name] = False
    below = crate.below()
    for it in below:
        take(kept, it, told)
    if not crate.makes_rlib() or not all(told[it.name] for it in below):
        return
    # One that is built stays, since a check that began over it would have to begin again.
    if crate.is_built():
        kept.is_built(crate)
        told[crate.name] = True
        return
    if not os.path.isdir(kept.place(crate, False, kept.key(crate))):
        return
    shutil.rmtree(f"{crate.folder}/out/rlib", ignore_errors=True)
    if kept.give(crate, False, kept.key(crate)):
        pathlib.Path(f"{crate.folder}/out/rlib/stamp").write_text(crate.stamp())
        kept.is_built(crate)
        told[crate.name] = True


def main():
    top = os.path.realpath(sys.argv[1] if len(sys.argv) > 1 else ROOT)
    alone = open(f"{tempfile.gettempdir()}/take_kept.lock", "w")
    fcntl.flock(alone, fcntl.LOCK_EX)
    rt = kit()
    os.chdir(top)
    crates = list(rt.rtlib.crates_below(top))
    kept, told = rt.Kept(crates), {}
    # What can't be given stays in the store: another run may be able to.
    kept.drop = lambda path: None
    for crate in crates:
        take(kept, crate, told)
    print(f"{sum(told.values())} libraries taken; none of: {' '.join(name for name, is_there in told.items() if not is_there)}")


if __name__ == "__main__":
    main()
