#!/usr/bin/env python3
"""Reads and writes fuzz/corpus, and puts parts into whole streams.

    python3 fuzz/corpus.py add FOLDER ..     puts in the parts that lie in files there, as a fuzzer keeps them
    python3 fuzz/corpus.py give FOLDER       writes each part of the corpus, and of the seeds, into a file there
    python3 fuzz/corpus.py reckon            reckons all answers anew

A file of a fuzzer has the letter of its kind (s, l, c, f, p) and the bytes of the part. In fuzz/corpus each kind has a file of lines
`PART => STATUS DIGEST`, in the signs of rows/README.md, sorted by their lengths. The answer is what the rules of fuzz/rules.py come to for the
stream of the part, or `-` where they don't reach: the exit status, and the first digits of the SHA-256 of the report. No program is run here.
"""
import hashlib
import json
import pathlib
import re
import sys

sys.dont_write_bytecode = True
import rules
import seeds

FOLDER = seeds.ROOT / "fuzz/corpus"
CODES = seeds.ROOT / "crates/faces_tests/src/codes.rt"

FILES = {"s": "streams.txt", "l": "logs.txt", "c": "configurations.txt", "f": "filtersets.txt", "p": "platform_specs.txt"}

# How many digits of a digest are kept.
DIGITS = 16

# What a sign of the rows or of a line is written as.
SIGNS = re.compile("[\u2409\u240a\u240d\u27ea\u27eb]|^#|=> |[\x00-\x08\x0b\x0c\x0e-\x1f\x7f\x85\u2028\u2029\ufeff]| $|^ ")

# ---- lines


def hexed(data):
    return f"⟪{data.hex().upper()}⟫"


def written(part):
    """Bytes in the signs of the rows."""
    pieces = part.decode("utf-8", "surrogateescape")
    pieces = SIGNS.sub(lambda it: hexed(it[0].encode()), pieces)
    pieces = re.sub("[\udc80-\udcff]+", lambda it: hexed(it[0].encode("utf-8", "surrogateescape")), pieces)
    return seeds.rows.with_signs(pieces)


def read(text):
    """The bytes that are written so."""
    return seeds.rows.as_fed(seeds.rows.without_signs(text))


def lines_of(kind):
    """The parts of a kind with their answers."""
    file = FOLDER / FILES[kind]
    lines = file.read_text(encoding="utf-8").split("\n") if file.exists() else []
    for line in lines:
        if line and not line.startswith("#"):
            part, answer = line.rsplit(" => ", 1)
            yield read(part), answer


# ---- streams


def log_inputs():
    """The inputs that stand before a log, as crates/faces_tests has them."""
    text = re.search(r'const INPUTS: &\[u8\] =\s+b"(.*)";', CODES.read_text(encoding="utf-8"))[1]
    return re.sub(r"\\(.)", lambda it: {"n": "\n"}.get(it[1], it[1]), text).encode()


def with_source(text):
    source = {"kind": "explicit", "path": "nextest.toml", "text": text}
    return {**json.loads(seeds.rows.PLAN("")), "sources": [source]}


def with_filterset(text):
    return {**json.loads(seeds.rows.PLAN("")), "filterset": text}


def with_spec(text):
    """Inputs with an override that holds on all tests of a platform; the spec is spelled in the characters of JSON and TOML alike."""
    spelled = json.dumps(text, ensure_ascii=False).replace("\x7f", "\\u007F")
    return with_source(f"[[profile.default.overrides]]\nfilter = 'all()'\nretries = 1\nplatform = {spelled}\n")


def stream_of(kind, part):
    """The stream that a part is put into; None where its bytes are no text, though they have to be."""
    if kind == "s":
        return part
    if kind == "l":
        return log_inputs() + part
    try:
        text = part.decode()
    except UnicodeDecodeError:
        return None
    inputs = {"c": with_source, "f": with_filterset, "p": with_spec}[kind](text)
    return json.dumps(inputs).encode() + b"\n" + seeds.rows.with_tabs(seeds.rows.BOTH_PASS).encode()


def answer_to(stream):
    """The status and the digest that the rules come to, or `-`."""
    due = rules.reckoned(stream)
    if due is None:
        return "-"
    report, status = re.fullmatch(r"(.*)\(status (\d+)\)\n", due, re.S).groups()
    return f"{status} {digest(report.encode())}"


def digest(report):
    return hashlib.sha256(report).hexdigest()[:DIGITS]


# ---- the files


def write(kind, parts):
    """Writes the parts of a kind, those that stand in a stream."""
    streams = {part: stream_of(kind, part) for part in sorted(set(parts), key=lambda it: (len(it), it))}
    lines = [f"{written(part)} => {answer_to(stream)}\n" for part, stream in streams.items() if stream is not None]
    FOLDER.mkdir(exist_ok=True)
    (FOLDER / FILES[kind]).write_text("# Written by fuzz/corpus.py, which has the form.\n\n" + "".join(lines), encoding="utf-8")


def add(folders):
    """Puts in the parts of a fuzzer's files."""
    files = [it.read_bytes() for folder in folders for it in sorted(pathlib.Path(folder).iterdir())]
    for kind in FILES:
        write(kind, [*(part for part, _ in lines_of(kind)), *(it[1:] for it in files if it[:1] == kind.encode())])


def all_parts():
    """The parts of the corpus and of the seeds, each with its kind."""
    stock = seeds.Stock()
    texts = {"c": stock.configurations, "f": stock.filtersets, "p": stock.specs}
    of_seeds = {"s": stock.streams, "l": stock.logs, **{kind: [it.encode() for it in them] for kind, them in texts.items()}}
    for kind in FILES:
        yield from ((kind, part) for part in {*of_seeds[kind], *(part for part, _ in lines_of(kind))})


def give(folder):
    """Writes all parts as a fuzzer's files."""
    pathlib.Path(folder).mkdir(parents=True, exist_ok=True)
    for kind, part in all_parts():
        (pathlib.Path(folder) / f"{kind}{hashlib.sha256(part).hexdigest()[:24]}").write_bytes(kind.encode() + part)


if __name__ == "__main__":
    if sys.argv[1:2] == ["add"] and sys.argv[2:]:
        add(sys.argv[2:])
    elif sys.argv[1:2] == ["give"] and len(sys.argv) == 3:
        give(sys.argv[2])
    elif sys.argv[1:] == ["reckon"]:
        add([])
    else:
        sys.exit(__doc__)
