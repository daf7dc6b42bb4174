#!/usr/bin/env python3
"""Writes the table `commands` of the program `worked_rows`, the words of commands that are written as one text, and the number of its rows
into what the program has to print.

    python3 scripts/command_rows.py

All is drawn from one seed, so the table comes out the same each time, and any two of the characters that mean something stand side by side
in some text. It knows nothing of the program: each answer is reckoned here from the text by the rules:

- Spaces, tabs and line feeds divide words; a carriage return divides nothing. A `#` where a word would begin begins a comment, up to the next
  line feed or the end.
- What is between single quotes stands for itself. Between double quotes a backslash takes `"`, `\\`, `$` or a backtick, is dropped with a line
  feed behind it, and stays before all else.
- Outside of quotes a backslash is dropped with a line feed behind it, and takes any other character; at the end of the text it stays.
- A quote that isn't closed refuses the text. `''` is a word, the empty one.
"""
import itertools
import pathlib
import random
import re

CRATE = pathlib.Path(__file__).resolve().parent.parent / "crates/worked_rows"
SEED, DRAWN = 41, 300
HEAD = """# Made by scripts/command_rows.py. ‹TEXT› => the words of a command that is written as one text, or `None` where a quote isn't closed. In quotes a
# word has `\\"`, `\\\\`, `\\t`, `\\n` and `\\r` for the characters that they stand for.
"""
SIGNS = str.maketrans({"\t": "␉", "\n": "␊", "\r": "␍"})
BLANKS, SPECIAL, LETTERS = " \t\n", " \t\n\r'\"\\$`#", "abcö"
BY_HAND = ["a 'b c' \"d\\\"e\" f\\ g # h", "''", '"a', "a\\", "a\\\nb", " \\\n#c", "a\\\n#c", "a#b", "", " "]

# What may stand before a word, and a part of a word.
GAP = re.compile(r"(?:[ \t\n]|\\\n|#[^\n]*)*")
PART = re.compile(r"""'(?P<literal>[^']*)'|"(?P<quoted>(?:[^"\\]|\\.)*)"|\\(?P<taken>.|\Z)|(?P<plain>[^ \t\n'"\\])""", re.DOTALL)


def meant_in_quotes(escape):
    """What a backslash and the character behind it mean between double quotes."""
    character = escape[0][1]
    return "" if character == "\n" else character if character in '"\\$`' else escape[0]


def meant(part):
    """What a part of a word means."""
    kind = part.lastgroup
    if kind == "quoted":
        return re.sub(r"\\.", meant_in_quotes, part[kind], flags=re.DOTALL)
    if kind == "taken":
        return {"": "\\", "\n": ""}.get(part[kind], part[kind])
    return part[kind]


def words_of(text):
    """The words of a text; None where a quote isn't closed."""
    words, place = [], GAP.match(text).end()
    while place < len(text):
        word = ""
        while place < len(text) and text[place] not in BLANKS:
            part = PART.match(text, place)
            if part is None:
                return None
            word, place = word + meant(part), part.end()
        words.append(word)
        place = GAP.match(text, place).end()
    return words


def some(draw, characters, least, most):
    return "".join(draw.choice(characters) for _ in range(draw.randint(least, most)))


def drawn_piece(draw):
    kind = draw.choice(["letters", "letters", "blanks", "escape", "literal", "quoted", "comment", "any"])
    if kind == "letters":
        return some(draw, LETTERS, 1, 2)
    if kind == "blanks":
        return some(draw, BLANKS, 1, 2)
    if kind == "escape":
        return "\\" + draw.choice(SPECIAL + LETTERS)
    if kind == "literal":
        return "'" + some(draw, SPECIAL.replace("'", "") + LETTERS, 0, 4) + "'"
    if kind == "quoted":
        items = [*SPECIAL.replace('"', "").replace("\\", ""), *LETTERS, *(f"\\{it}" for it in SPECIAL + "a")]
        return '"' + some(draw, items, 0, 4) + '"'
    if kind == "comment":
        return draw.choice(" \n") + "#" + some(draw, SPECIAL + LETTERS, 0, 3) + draw.choice(["\n", ""])
    return some(draw, SPECIAL, 1, 1)


def drawn_pieces(draw, least, most):
    return "".join(drawn_piece(draw) for _ in range(draw.randint(least, most)))


def drawn_texts():
    """Texts that differ, first one for each two characters that mean something."""
    draw, texts, pairs = random.Random(SEED), {}, itertools.product(SPECIAL, repeat=2)
    while len(texts) < DRAWN:
        pair = "".join(next(pairs, ""))
        before, behind = (drawn_pieces(draw, 0, 1), drawn_pieces(draw, 0, 2)) if pair else ("", drawn_pieces(draw, 1, 6))
        texts[before + pair + behind] = None
    return list(texts)


def quoted(word):
    escapes = {"\\": "\\\\", '"': '\\"', "\t": "\\t", "\n": "\\n", "\r": "\\r"}
    return '"' + "".join(escapes.get(it, it) for it in word) + '"'


def answer(text):
    words = words_of(text)
    return "None" if words is None else f"Some([{', '.join(map(quoted, words))}])"


def tell_number(rows):
    """Writes how many rows hold into what the program has to print."""
    told = (CRATE / "stdout").read_text()
    told = re.sub(r"^commands: \d+ rows", f"commands: {rows} rows", told, flags=re.MULTILINE)
    (CRATE / "stdout").write_text(told)


def main():
    texts = list(dict.fromkeys([*BY_HAND, *drawn_texts()]))
    assert all(any(a + b in text for text in texts) for a, b in itertools.product(SPECIAL, repeat=2))
    rows = [f"‹{text}› => {answer(text)}".translate(SIGNS) for text in texts]
    (CRATE / "data/commands.txt").write_text(HEAD + "".join(f"{row}\n" for row in rows))
    tell_number(len(rows))
    print(len(rows), "rows")


if __name__ == "__main__":
    main()
