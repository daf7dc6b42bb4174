#!/usr/bin/env python3
"""Builds what the fuzzers run: the five exports of crates/faces_tests, in one of three forms.

    python3 fuzz/build.py proved TO       a harness over out/libfaces_tests.a, which `rt lib` leaves in crates/faces_tests
    python3 fuzz/build.py checked TO      the same with nothing proved, and a check wherever a proof would be owed
    python3 fuzz/build.py coverage TO     a program of libFuzzer, with nothing proved, those checks, and counters of what was reached

The first two are fed many parts on standard input: the letter of a kind, the length in four bytes, the lowest first, and the bytes; they answer
each with a byte, the code of crates/faces_tests/src/exports.rt. The third takes the words of libFuzzer; a part is the letter of its kind and its
bytes, and a code of 1, 2 or 255 ends it as a crash.

`checked` and `coverage` put a program over the exports beside a copy of the crates, take the module that `rt try` hands to clang, and compile it;
the checks in it trap. `proved` and `coverage` want a C compiler `cc`, and `coverage` the runtime of libFuzzer, as Debian's libclang-rt-14-dev
has it: LIBFUZZER names another.
"""
import os
import pathlib
import re
import shutil
import subprocess
import sys
import tempfile

sys.dont_write_bytecode = True
ROOT = pathlib.Path(__file__).resolve().parent.parent
sys.path.insert(0, str(ROOT / "bench"))
from unproved import FLAGS, KIT, TARGET, copy_of_kit

LIBFUZZER = os.environ.get("LIBFUZZER", "/usr/lib/llvm-14/lib/clang/14.0.6/lib/linux/libclang_rt.fuzzer-x86_64.a")
CLANG = KIT / "toolchain/bin/clang"
LIBC = [KIT / "c/libos_c.a", KIT / "c/liblibc_c.a"]

# The modules of the exports.
MODULES = ("codes.rt", "exports.rt")

# The exports, each by the letter of what it takes.
EXPORTS = {"s": "stream", "l": "log", "c": "configuration", "f": "filterset", "p": "platform_spec"}

# What is counted: which branches a part takes, and how often.
COUNTED = "-fsanitize-coverage=inline-8bit-counters,pc-table"

# The program whose module has the exports, which `rt try` compiles.
PROGRAM = """//! Answers each part of standard input by a code.
#![tactic(auto)]

mod codes;
mod exports;

use exports::{NAMES};
use std::io;
use std::io::{BufReader, Read, Write};

fn main(rt: HostRuntime) -> io::Result<()> {
    let mut input = BufReader::new(rt.alloc(), rt.reader())?;
    let mut output = io::writer(&rt);
    for _ in 0..u64::MAX {
        let mut head = [0u8; 5];
        if input.read_exact(&mut head).is_err() {
            break;
        }
        let length = u32::from_le_bytes([head[1], head[2], head[3], head[4]]) as usize;
        let mut body = vec![in rt.alloc(); 0u8; length]?;
        input.read_exact(body.as_mut_slice())?;
        let bytes = body.as_slice();
        let code = match head[0] {
ARMS
            _ => 254,
        };
        output.write_all(&[code])?;
    }
    Ok(())
}
"""

# A part's code, by the letter of its kind; and the harness over that.
CODE = """
#include <stddef.h>
#include <stdint.h>
#include <stdio.h>
#include <stdlib.h>

DECLARED

static uint8_t code_of(int kind, const uint8_t *bytes, size_t length) {
    switch (kind) {
CASES
    }
    return 254;
}
"""
HARNESS = """
int main(void) {
    uint8_t head[5];
    while (fread(head, 1, 5, stdin) == 5) {
        size_t length = head[1] | head[2] << 8 | head[3] << 16 | (size_t)head[4] << 24;
        uint8_t *bytes = malloc(length ? length : 1);
        if (!bytes || fread(bytes, 1, length, stdin) != length) return 1;
        putchar(code_of(head[0], bytes, length));
        fflush(stdout);
        free(bytes);
    }
    return 0;
}
"""
FUZZER = """
int LLVMFuzzerTestOneInput(const uint8_t *data, size_t size) {
    if (!size) return -1;
    uint8_t code = code_of(data[0], data + 1, size - 1);
    if (code == 254) return -1;
    if (code == 1 || code == 2 || code == 255) abort();
    return 0;
}
"""


def c_code(rest):
    """The C of a harness."""
    names = {letter: f"faces_tests_{it}" for letter, it in EXPORTS.items()}
    declared = [f"uint8_t {it}(const uint8_t *, size_t);" for it in names.values()]
    cases = [f"    case '{letter}': return {it}(bytes, length);" for letter, it in names.items()]
    return CODE.replace("DECLARED", "\n".join(declared)).replace("CASES", "\n".join(cases)) + rest


def compile_c(room, text):
    source, code = room / "harness.c", room / "harness.o"
    source.write_text(text)
    subprocess.run(["cc", "-O1", "-c", source, "-o", code], check=True)
    return code


# ---- the module of the exports, with nothing proved


def copy_with_program(room):
    """A copy of the repository with the program beside the crates: the program's folder."""
    (room / ".git").mkdir(parents=True)
    shutil.copytree(ROOT / "crates", room / "crates", ignore=shutil.ignore_patterns("out"))
    shutil.copyfile(ROOT / "HANDLES", room / "HANDLES")
    rows = (ROOT / "crates.txt").read_text()
    below = re.search(r"^faces_tests\b[^:]*:(.*)$", rows, re.M)[1]
    (room / "crates.txt").write_text(f"{rows}\nfuzzed:{below}\n")
    folder = room / "crates/fuzzed"
    (folder / "src").mkdir(parents=True)
    for name in MODULES:
        shutil.copyfile(ROOT / "crates/faces_tests/src" / name, folder / "src" / name)
    arms = [f"            b'{letter}' => faces_tests_{it}(rt.alloc(), bytes)," for letter, it in EXPORTS.items()]
    names = ", ".join(f"faces_tests_{it}" for it in EXPORTS.values())
    (folder / "src/main.rt").write_text(PROGRAM.replace("NAMES", names).replace("ARMS", "\n".join(arms)))
    return folder


def module(room):
    """The module that `rt try` hands to clang."""
    kept = room / "module.bc"
    (room / "kit").mkdir()
    copy_of_kit(room / "kit", kept)
    folder = copy_with_program(room / "copy")
    tried = subprocess.run([sys.executable, room / "kit/bin/rt", "try"], cwd=folder, stdin=subprocess.DEVNULL, capture_output=True, text=True)
    if not kept.exists():
        sys.exit(tried.stdout + tried.stderr + "no module was compiled")
    return kept


def with_exports(room, kept):
    """The module with the exports for C, under their own names, and with no `main`."""
    plain = room / "module.ll"
    subprocess.run([CLANG, *FLAGS, "-S", "-emit-llvm", "-O0", "-x", "ir", kept, "-o", plain], check=True)
    text = plain.read_text().replace("define i32 @main()", "define i32 @main_of_program()")
    text = re.sub(r'^define internal (.*@"fuzzed::exports::faces_tests_)', r"define \1", text, flags=re.M)
    plain.write_text(re.sub(r'@"fuzzed::exports::(faces_tests_\w+)"', r"@\1", text))
    return plain


# ---- the three forms


def proved(room, to):
    archive = ROOT / "crates/faces_tests/out/libfaces_tests.a"
    code = compile_c(room, c_code(HARNESS))
    subprocess.run(["cc", "-o", to, code, archive, *LIBC], check=True)


def checked(room, to):
    kept, code = module(room), room / "module.o"
    subprocess.run([CLANG, *FLAGS, "-O1", "-c", "-x", "ir", kept, "-o", code], check=True)
    words = ["--target", TARGET, "--toolchain", KIT / "toolchain", "-o", to, code, KIT / "c/asan.a", *LIBC]
    subprocess.run([KIT / "bin/rattle-link", *words], check=True)


def coverage(room, to):
    plain, code = with_exports(room, module(room)), room / "module.o"
    subprocess.run([CLANG, *FLAGS, "-O1", COUNTED, "-c", "-x", "ir", plain, "-o", code], check=True)
    harness = compile_c(room, c_code(FUZZER))
    subprocess.run(["cc", "-o", to, harness, code, *LIBC, LIBFUZZER, "-lstdc++", "-lm", "-lpthread", "-ldl"], check=True)


FORMS = {"proved": proved, "checked": checked, "coverage": coverage}

if __name__ == "__main__":
    if len(sys.argv) != 3 or sys.argv[1] not in FORMS:
        sys.exit(__doc__)
    with tempfile.TemporaryDirectory() as made:
        FORMS[sys.argv[1]](pathlib.Path(made), os.path.abspath(sys.argv[2]))
