#!/usr/bin/env python3
"""Keeps the links of docs/DEFINITIONS.md: from each word in the last column of a table to the line that defines it.

    python3 scripts/definition_links.py            prints what isn't linked to its definition; the exit status is then 1
    python3 scripts/definition_links.py --write    writes the links anew

A cell names crates, files of `specs/` and, behind a colon, the words that a file defines. A cell that begins with no crate is of the
crate of the cell above it, or of its heading; a word is looked for there first, and else in the one file of that name that has it.
"""
import pathlib
import re
import sys

ROOT = pathlib.Path(__file__).resolve().parent.parent
PAGE = ROOT / "docs/DEFINITIONS.md"
LINK = re.compile(r"\[(`[^`]+`)\]\([^)]*\)")
NAME = re.compile(r"`([^`]+)`(:?)")


def line_of(file, word):
    """The number of the line of a file that defines a word; `None` where none does."""
    defines = re.compile(rf"\s*(?:abbrev |unfoldable )*(?:pub )?(?:(?:record|data) {re.escape(word)}\b|{re.escape(word)} :)")
    for number, line in enumerate(file.read_text().split("\n"), 1):
        if defines.match(line):
            return number
    return None


def place_of(crate, files, word):
    """The file and line that define a word: in files of these names, of this crate or else of the only one that has it."""
    for own in (True, False):
        found = [
            (file, line_of(file, word))
            for name in files
            for file in sorted(ROOT.glob(f"crates/{crate if own else '*'}/specs/{name}.antt"))
        ]
        found = [it for it in found if it[1]]
        if len(found) == 1:
            return found[0]
    raise SystemExit(f"{PAGE.name}: `{word}` of {', '.join(files)} isn't defined once")


def linked(cell, crate):
    """A cell with its links, and the crate that it begins with."""
    cell, begins, files, is_word = LINK.sub(r"\1", cell), crate, [], False
    pieces, behind, own = [], 0, crate
    for found in NAME.finditer(cell):
        pieces.append(cell[behind : found.start()])
        behind, name, colon = found.end(), found.group(1), found.group(2)
        is_new = ";" in pieces[-1]
        if (ROOT / "crates" / name).is_dir():
            own, files, is_word = name, [], False
            begins = name if not "".join(pieces).strip() else begins
            pieces.append(f"`{name}`{colon}")
        elif is_word and not is_new or not list(ROOT.glob(f"crates/*/specs/{name}.antt")):
            file, number = place_of(own, files, name)
            pieces.append(f"[`{name}`](../{file.relative_to(ROOT)}#L{number}){colon}")
        else:
            files = [name] if is_new or is_word else [*files, name]
            is_word = bool(colon)
            pieces.append(f"`{name}`{colon}")
    return "".join(pieces) + cell[behind:], begins


def page(text):
    """The page with its links."""
    crate, lines = None, []
    for line in text.split("\n"):
        if line.startswith("## "):
            crate = (NAME.search(line) or [None, crate])[1]
        elif line.startswith("| ") and not line.startswith("| Word"):
            front, bar, cell = line.removesuffix(" |").rpartition("| ")
            cell, crate = linked(cell, crate)
            line = f"{front}{bar}{cell} |"
        lines.append(line)
    return "\n".join(lines)


def main(words):
    before = PAGE.read_text()
    after = page(before)
    if words == ["--write"]:
        PAGE.write_text(after)
        return 0
    stale = [line for line, wanted in zip(before.split("\n"), after.split("\n")) if line != wanted]
    for line in stale:
        print(f"{PAGE.name}: a link doesn't lead to its definition (--write mends it): {line[:60]}..")
    return 1 if stale else 0


if __name__ == "__main__":
    sys.exit(main(sys.argv[1:]))
