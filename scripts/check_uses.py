#!/usr/bin/env python3
"""Says which imports of definitions and lemmas name what isn't there, in seconds, where the gate says so in a crate's proof.

    python3 scripts/check_uses.py

It reads each `use Rattle.CRATE.specs.MODULE.{NAMES}`, or `.proofs.`, of the sources, specs and proofs, follows `pub use .. as ..` of the
specs/Lib.antt of crates that hand on modules, and looks for each name as a word of that module's file. It prints a line for each
module or name that it doesn't find; the exit status is 1 where there is one.
"""
import pathlib
import re
import sys

CRATES = pathlib.Path(__file__).resolve().parent.parent / "crates"
USE = re.compile(r"^\s*(?:ghost |pub )?use Rattle\.(\w+)\.(specs|proofs)\.([\w.+-]+?)(?:\.\{([^}]*)\})?(?: as \w+)?;?\s*$", re.M)
HANDED_ON = re.compile(r"^pub use Rattle\.(\w+)\.specs\.([\w.+]+)(?: as (\w+))?", re.M)

# The last parts of the names of modules that the checker makes.
MADE = ("TheVariants", "Goals", "Given", "Lts")


def handed_on(crate):
    """The modules of other crates that a crate hands on, by the name that they have there."""
    lib = CRATES / crate / "specs/Lib.antt"
    text = lib.read_text() if lib.exists() else ""
    return {other or module.split(".")[-1]: (home, module) for home, module, other in HANDED_ON.findall(text)}


def file_of(crate, folder, module):
    """The file of a module, or None where the crate has none of that name."""
    file = CRATES / crate / folder / (module.replace(".", "/") + ".antt")
    if file.exists() or folder == "proofs":
        return file if file.exists() else None
    first, *rest = module.split(".")
    home = handed_on(crate).get(first)
    return file_of(home[0], folder, ".".join([home[1], *rest])) if home and home[0] != crate else None


def has_type(crate, module):
    """Whether a module is one that the checker makes of a type of the crate, or of one that it hands on."""
    if "declared" in module or "contracts" in module or module.split(".")[-1] in MADE:
        return True
    name = module.split(".")[-1]
    if name in handed_on(crate):
        return True
    return any(re.search(rf"\b(struct|enum|type|trait) {name}\b", it.read_text()) for it in (CRATES / crate / "src").rglob("*.rt"))


def missing(text):
    """What the imports of a file name that isn't there."""
    for crate, folder, module, names in USE.findall(text):
        if not (CRATES / crate).is_dir():
            continue
        file = file_of(crate, folder, module) or file_of(crate, folder, module.rpartition(".")[0])
        if file is None:
            if not has_type(crate, module):
                yield f"{crate} has no module {folder}.{module}"
            continue
        words = set(re.findall(r"[\w'-]+|◌[^\s{}(),]+", re.sub(r"(?m)^\s*use .*$", "", file.read_text())))
        for name in filter(None, (it.split(" as ")[0].strip() for it in names.split(","))):
            if name not in words:
                yield f"{name} isn't in {file.relative_to(CRATES)}"


def main():
    faults = 0
    for file in sorted([*CRATES.glob("*/src/**/*.rt"), *CRATES.glob("*/specs/**/*.antt"), *CRATES.glob("*/proofs/**/*.antt")]):
        for fault in missing(file.read_text()):
            print(f"{file.relative_to(CRATES)}: {fault}")
            faults += 1
    return 1 if faults else 0


if __name__ == "__main__":
    sys.exit(main())
