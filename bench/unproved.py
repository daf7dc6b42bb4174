#!/usr/bin/env python3
"""Builds a program with nothing proved, so that its instructions and cache misses can be counted some five minutes after an edit.

    python3 bench/unproved.py CRATE TO

`rt try` compiles a crate with all libraries below it from their sources, with checks wherever a proof would be owed, and with nothing
optimized. This takes the module that it hands to clang, leaves out the checks of addresses and all calls that only check something, and
compiles it with `-O3`. A branch that such a call guarded is then one that clang takes to be impossible, so a step that a check would have
stopped may do anything: it is no test of the code. It takes some 1.4 times the instructions of the proved program (seen of one program; why
it isn't fewer wasn't looked into), so no ratio to another program can be read off it. But its page faults and cache misses were those of
the proved one, and two such programs can be compared. The files of the crate's `data/` are not copied: run the program where they lie.
"""
import os
import pathlib
import shutil
import subprocess
import sys
import tempfile

ROOT = pathlib.Path(__file__).resolve().parent.parent
KIT = pathlib.Path(os.path.realpath(shutil.which("rt") or sys.exit("the command rt of the Rattle kit is missing"))).parent.parent
TARGET = "x86_64-unknown-linux-gnu"

# What the kit's own build hands to clang for a program, as `rt try` does, but for what differs between the two.
FLAGS = f"""--target={TARGET} --sysroot={KIT}/toolchain -mllvm -no-trap-after-noreturn -ffunction-sections -fdata-sections
-mllvm -trap-unreachable -mllvm -no-x86-call-frame-opt -mllvm -disable-machine-licm -mllvm -disable-postra-machine-licm
-mllvm -sink-common-insts=false --no-default-config -no-canonical-prefixes -fintegrated-cc1 -fno-crash-diagnostics -fPIE""".split()

# Stands for clang: it keeps the program's module, which is long, and ends the run of `rt try` there.
CATCH = """#!/bin/sh
for word in "$@"; do
    if [ -f "$word" ] && [ "$(stat -c %s "$word")" -gt 1000000 ]; then cp "$word" "{kept}"; exit 1; fi
done
exec "{clang}" "$@"
"""


def copy_of_kit(room, kept):
    """A kit of links, whose clang keeps what it is handed."""
    for name in os.listdir(KIT):
        if name not in ("bin", "toolchain"):
            os.symlink(KIT / name, room / name)
    shutil.copytree(KIT / "bin", room / "bin")
    shutil.copytree(KIT / "toolchain", room / "toolchain", symlinks=True, ignore=shutil.ignore_patterns("clang", "lib"))
    os.symlink(KIT / "toolchain/lib", room / "toolchain/lib")
    clang = room / "toolchain/bin/clang"
    clang.write_text(CATCH.format(kept=kept, clang=KIT / "toolchain/bin/clang"))
    clang.chmod(0o755)


# Calls that check something, and those that fill what isn't set yet.
CHECKS = ('call void @"rattle-llvm-checks::', ", i8 -86, i64 ")


def without_checks(text):
    """The module's text for a common processor, with no function watched for its addresses, and no call that only checks."""
    text = "".join(line for line in text.splitlines(keepends=True) if not any(check in line for check in CHECKS))
    text = text.replace('"target-cpu"="x86-64"', '"target-cpu"="x86-64-v2"').replace(" sanitize_address", "")
    return text.replace(' "probe-stack"="inline-asm" "stack-probe-size"="3072"', "")


def build(folder, to):
    """Compiles the program of a crate's folder, and links it."""
    with tempfile.TemporaryDirectory() as made:
        room, kept = pathlib.Path(made) / "kit", pathlib.Path(made) / "module.bc"
        room.mkdir()
        copy_of_kit(room, kept)
        tried = subprocess.run([sys.executable, room / "bin/rt", "try"], cwd=folder, stdin=subprocess.DEVNULL, capture_output=True, text=True)
        if not kept.exists():
            sys.exit(tried.stdout + tried.stderr + "no module was compiled")
        clang, plain, code = KIT / "toolchain/bin/clang", kept.with_suffix(".ll"), kept.with_suffix(".o")
        subprocess.run([clang, *FLAGS, "-S", "-emit-llvm", "-O0", "-x", "ir", kept, "-o", plain], check=True)
        plain.write_text(without_checks(plain.read_text()))
        subprocess.run([clang, *FLAGS, "-march=x86-64-v2", "-O3", "-c", "-x", "ir", plain, "-o", code], check=True)
        words = ["--target", TARGET, "--toolchain", KIT / "toolchain", "-o", to, code, KIT / "c/libos_c.a", KIT / "c/liblibc_c.a"]
        subprocess.run([KIT / "bin/rattle-link", *words], check=True)


if __name__ == "__main__":
    if len(sys.argv) != 3:
        sys.exit(__doc__)
    build(ROOT / "crates" / sys.argv[1], os.path.abspath(sys.argv[2]))
