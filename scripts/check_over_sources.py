#!/usr/bin/env python3
"""Checks some functions of a crate over libraries that needn't be proved or built.

    python3 scripts/check_over_sources.py CRATE PATH ..

A PATH is a module (`enabled`), a type or a function, as `rt check --only` takes it. A library below it that is built, with all below it, is
taken as it is (`scripts/take_kept.py` brings what `rt ci` kept); the others are read as sources, and what these functions call of those is
checked too, so leave out functions that call much of them. Open goals are printed, with the names that can be used there; the last line is
`only=N holes=K`. It gives no verdict. Over thirty sources it takes some eight minutes and 5 to 11 GB, over a few two minutes: name as many
paths as are wanted at once. It goes by names inside of the kit's `rt`, which another kit may lack.
"""
import os
import pathlib
import subprocess
import sys

sys.dont_write_bytecode = True
from calibration import kit

ROOT = pathlib.Path(__file__).resolve().parent.parent


def built_ones(below):
    """Which libraries can be taken as built: one over another that can't is read as a source as well."""
    built = {it.name: it.is_built() for it in below}
    for it in below:
        built[it.name] = built[it.name] and all(built[lower.name] for lower in it.deps)
    return built


def library(it, built):
    """The words for rattle by which a crate uses a library below it."""
    if built[it.name]:
        return ["--extern", f"{it.name}={it.rlib}", "-L", f"dependency={os.path.dirname(it.rlib)}"]
    uses = dict.fromkeys(["core", *it.of_kit, *[lower.name for lower in it.deps]])
    return ["--lib", f"{it.name}:{','.join(uses)}={it.folder}/src/lib.rt"]


def main():
    name, *paths = sys.argv[1:]
    rtlib = kit()
    rtlib.Crate.cuts_libraries = False
    os.chdir(ROOT)
    crate = next(it for it in rtlib.crates_below(str(ROOT)) if it.name == name)
    below = crate.below()
    built = built_ones(below)
    print("as sources:", " ".join(it for it in built if not built[it]) or "none", flush=True)
    root = "main.rt" if (ROOT / "crates" / name / "src/main.rt").exists() else "lib.rt"
    words = ["--crate-name", name, f"src/{root}"]
    for lib in dict.fromkeys(["std", "core", *crate.of_kit, *[lib for it in below for lib in it.of_kit]]):
        words += ["--extern", f"{lib}={rtlib.KIT}/rlibs/{lib}.rlib"]
    words += ["-L", f"dependency={rtlib.KIT}/rlibs"]
    for it in below:
        words += library(it, built)
    words += ["--antt-project", f"{rtlib.KIT}/rattle/logic/antt-project.json", "--logic-built", f"{rtlib.KIT}/logic_built"]
    words += ["--jobs", "1", "--links", f"{name}=", "--allow-holes"]
    for path in paths:
        words += ["--only", path]
    ran = subprocess.run([rtlib.RATTLE, "check", *words], cwd=crate.folder, check=False)
    sys.exit(ran.returncode)


if __name__ == "__main__":
    main()
