#!/usr/bin/env python3
"""Feeds the built program the corpus of fuzz/corpus, and prints each part of which something doesn't hold.

    python3 scripts/replay_corpus.py [--program PATH]

The program is crates/test_runner/out/test_runner, which `rt ci` leaves, or the one at PATH, and beside it, where it is there, PATH.by-rattle,
which Rattle's own compiler built. Each part is put into a stream (fuzz/corpus.py). Of each run that holds which fuzz/oracle.py asks of a run as
such; its status and the digest of its report are those of the corpus, where it has some, which no program told; both builds come to the same; and
so does a short stream in pieces of 7 bytes. It says nothing where all hold; else its last line is `N passed, M failed`, and the exit status 1.
"""
import argparse
import concurrent.futures
import os
import pathlib
import subprocess
import sys

sys.dont_write_bytecode = True
sys.path.insert(0, str(pathlib.Path(__file__).resolve().parent.parent / "fuzz"))
import corpus
import oracle

# The most characters that are shown of a part.
SHOWN = 2_000

# The bytes of a piece, and below which length a stream is fed in pieces.
PIECE, SHORT = 7, 2_000


def faults_of(programs, stream, answer):
    """What doesn't hold of the runs of a stream."""
    try:
        run, *others = [program.run(stream) for program in programs]
        pieces = programs[0].run_in_pieces(stream, PIECE) if len(stream) < SHORT else run
    except subprocess.TimeoutExpired:
        return ["it doesn't end"]
    faults = oracle.faults_of_run(stream, run)
    faults += ["the builds come to different ends"] * any(other != run for other in others)
    faults += [f"in pieces of {PIECE} it comes to something else"] * (pieces != run)
    told = f"{run.status} {corpus.digest(run.report)}"
    return faults + [f"it is {told}, and not {answer}"] * (answer not in ("-", told))


def lines(programs, kind):
    """For each part of a kind what is said of it, which is nothing where all holds."""
    parts = list(corpus.lines_of(kind))
    with concurrent.futures.ThreadPoolExecutor(2 * len(os.sched_getaffinity(0))) as pool:
        found = pool.map(lambda it: faults_of(programs, corpus.stream_of(kind, it[0]), it[1]), parts)
        for (part, _), faults in zip(parts, found):
            yield f"{corpus.FILES[kind]}: {corpus.written(part)[:SHOWN]}\n    but {'; '.join(faults)}" if faults else ""


def main():
    parser = argparse.ArgumentParser(description="Feeds the built program the corpus of fuzz/corpus.")
    parser.add_argument("--program", default=oracle.rows.PROGRAM, help="the program that is run")
    path = parser.parse_args().program
    if not os.access(path, os.X_OK):
        print(f"There is no program {path}: `make test` builds it, and so does `make run`.")
        return 1
    programs = oracle.programs_at(path)
    told = [line for kind in corpus.FILES for line in lines(programs, kind)]
    failed = [line for line in told if line]
    if failed:
        print("\n".join(failed))
        print(f"{len(told) - len(failed)} passed, {len(failed)} failed")
    return 1 if failed else 0


if __name__ == "__main__":
    sys.exit(main())
