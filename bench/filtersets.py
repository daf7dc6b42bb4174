#!/usr/bin/env python3
"""Times the reading and printing of long filtersets, looks how deep they may nest on the ordinary stack, and lets each request for memory fail in turn.

Run it from the repository's root, with the kit's `rt` and a C compiler `cc` on the PATH. It makes a program of its own for the time of the run, and takes it
away again.
"""
import os
import pathlib
import shutil
import subprocess
import sys
import time

sys.dont_write_bytecode = True
sys.path.insert(0, str(pathlib.Path(__file__).resolve().parent.parent / "scripts"))
from failing_allocations import fail_each, failing_runs

CRATE = "crates/filterset_bench"
PROGRAM = CRATE + "/out/filterset_bench"
SOURCE = '''//! Reads a filterset from standard input, and tells its faults, its tree, and what only a test answers.
#![tactic(auto)]

use anyhow::Result;
use nextest_filtering::read;
use std::io::Read;

fn main(rt: HostRuntime) -> Result<()> {
    let mut text = String::new(rt.alloc());
    rt.reader().read_to_string(&mut text)?;
    let reading = read(rt.alloc(), text.as_str())?;
    for fault in reading.faults.as_slice() {
        let span = fault.span();
        println!(rt; "{} {} {}", fault.label(), span.offset, span.length)?;
    }
    if let Some(tree) = &reading.tree {
        println!(rt; "{tree}")?;
        println!(rt; "{}", tree.runtime_only_leaves(rt.alloc())?.len())?;
    }
    Ok(())
}
'''

# One of each kind of argument, operator and recovery.
SAMPLES = (
    "all()",
    "test(a\\nb) or not (package(=c) and deps(~d)) - kind(#l*[!a-c]?)",
    "rdeps(/x{2,3}y|[^z]/) + binary_id(p::q) & platform(host) | group(@g) ! default()",
    "test(/[/) || package(#a[) and binary(a\\xb) foo",
    "test(a, b) && test( ) OR test(/a",
    "not not (all() | (none() - test(\\u{e9})))",
)


def run(text):
    start = time.time()
    done = subprocess.run([PROGRAM], input=text.encode(), stdout=subprocess.DEVNULL, stderr=subprocess.DEVNULL)
    return done.returncode, time.time() - start


def deepest(make, high):
    low = 1
    while low + 1 < high:
        middle = (low + high) // 2
        if run(make(middle))[0] == 0:
            low = middle
        else:
            high = middle
    return low


def measure():
    for megabytes in (1, 4, 16):
        n = megabytes * 1_000_000
        for name, text in (
            ("a text", "test(" + "a" * n + ")"),
            ("escapes", "test(" + "\\)" * (n // 2) + ")"),
            ("blanks", " " * n + "all()"),
            ("a glob", "test(#" + "a" * n + ")"),
        ):
            code, seconds = run(text)
            print(f"{name}, {megabytes} MB: exit {code}, {seconds:.2f} s")
    print("parentheses:", deepest(lambda n: "(" * n + "all()" + ")" * n, 400_000))
    print("negations:", deepest(lambda n: "not " * n + "all()", 400_000))
    print("operators in a row:", deepest(lambda n: "all()" + " | all()" * n, 2_000_000))


def fail_requests():
    with failing_runs() as failing:
        for sample in SAMPLES:
            told = fail_each(failing, PROGRAM, sample.encode(), 1, is_silent=False)
            if told.differing:
                sys.exit(f"{sample}: {told.differing[0]}")
            print(f"{told.requests} requests failed in turn, {told.wanting} runs end for want of memory: {sample}")


def main():
    with open("crates.txt", encoding="utf-8") as file:
        crates = file.read()
    os.makedirs(CRATE + "/src")
    try:
        with open(CRATE + "/src/main.rt", "w", encoding="utf-8") as file:
            file.write(SOURCE)
        with open("crates.txt", "a", encoding="utf-8") as file:
            file.write("filterset_bench: nextest_filtering anyhow\n")
        subprocess.run(["rt", "run"], cwd=CRATE, input=b"all()", check=True, stdout=subprocess.DEVNULL)
        fail_requests()
        measure()
    finally:
        shutil.rmtree(CRATE)
        with open("crates.txt", "w", encoding="utf-8") as file:
            file.write(crates)


main()
