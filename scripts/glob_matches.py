#!/usr/bin/env python3
"""Writes the table `glob_matches` of the program `worked_rows`: globs, texts, and whether the one matches the other.

    python3 scripts/glob_matches.py

All is drawn from one seed, so the table comes out the same each time. It knows nothing of the program: a glob is drawn as a regular
expression of Python beside its text, and what that says of the whole text is the answer. Half of the texts are drawn from the glob, and
then perhaps changed.
"""
import pathlib
import random
import re

TABLE = pathlib.Path(__file__).resolve().parent.parent / "crates/worked_rows/data/glob_matches.txt"
SEED, ROWS = 17, 240
LETTERS = "abcdé-"
BY_HAND = [
    ("a?[b-d]{x,yy}*", "a1cyyzz", True),
    ("a?[b-d]{x,yy}*", "a1exx", False),
    ("", "", True),
    ("", "a", False),
    ("*", "", True),
    ("?", "é", True),
    ("{}", "", True),
    ("{,a}b", "b", True),
    ("[!a]", "a", False),
    ("[!a]", "", False),
    ("[]-a]", "]", True),
    ("a,b", "a,b", True),
    ("\\*", "*", True),
    ("\\*", "a", False),
    ("*a*a*a*a*b", "a" * 1000, False),
    ("*a*a*a*a*b", "a" * 1000 + "b", True),
    ("{a,{b,{c,{d,{e,f}}}}}", "f", True),
    ("{a,{b,{c,{d,{e,f}}}}}", "g", False),
    ("{*,a}{*,a}{*,a}{*,a}b", "a" * 200, False),
]


def drawn_class(draw):
    """A class: as it is written, as a regular expression, and a character of it."""
    first, last = sorted(draw.sample("abcd", 2))
    alone = draw.choice("xé")
    negated = draw.random() < 0.4
    inside = f"{first}-{last}{alone}"
    one = draw.choice("z,") if negated else draw.choice([first, last, alone])
    return ("[" + draw.choice("!^") + inside + "]" if negated else f"[{inside}]"), f"[{'^' if negated else ''}{inside}]", one


def drawn(draw, depth):
    """Some tokens: as they are written, as a regular expression, and a text that they match."""
    glob, pattern, text = "", "", ""
    for _ in range(draw.randrange(4)):
        kind = draw.choice(["letter", "letter", "one", "run", "class", "escaped"] + ["braces"] * (2 if depth < 3 else 0))
        if kind == "letter":
            one = draw.choice(LETTERS)
            parts = one, re.escape(one), one
        elif kind == "escaped":
            one = draw.choice("*?{},\\[a")
            parts = "\\" + one, re.escape(one), one
        elif kind == "one":
            parts = "?", ".", draw.choice(LETTERS)
        elif kind == "run":
            parts = "*", ".*", "".join(draw.choices(LETTERS, k=draw.randrange(4)))
        elif kind == "class":
            parts = drawn_class(draw)
        else:
            ways = [drawn(draw, depth + 1) for _ in range(draw.randrange(1, 4))]
            parts = "{" + ",".join(way[0] for way in ways) + "}", "(?:" + "|".join(way[1] for way in ways) + ")", draw.choice(ways)[2]
        glob, pattern, text = glob + parts[0], pattern + parts[1], text + parts[2]
    return glob, pattern, text


def changed(draw, text):
    """A text with a character less, more, or another."""
    at = draw.randrange(len(text) + 1)
    return text[:at] + draw.choice(["", draw.choice(LETTERS)]) + text[at + draw.randrange(2) :]


def main():
    draw = random.Random(SEED)
    rows = {f"{glob} | {text} => {str(holds).lower()}": None for glob, text, holds in BY_HAND}
    while len(rows) < ROWS:
        glob, pattern, text = drawn(draw, 0)
        text = text if draw.random() < 0.4 else changed(draw, text)
        holds = re.fullmatch(pattern, text, re.DOTALL) is not None
        if glob.strip() == glob and text.strip() == text and " => " not in glob + text:
            rows[f"{glob} | {text} => {str(holds).lower()}"] = None
    head = "# Made by scripts/glob_matches.py. A glob | a text => whether the glob matches the whole text.\n"
    TABLE.write_text(head + "\n".join(rows) + "\n")


if __name__ == "__main__":
    main()
