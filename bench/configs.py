#!/usr/bin/env python3
"""Times the load of files beside the reading of the same bytes by `toml` alone: three files of 200 profiles each, some 430 kB a file;
and 4,000 files of one key each (a group; a key of a profile that nothing knows) beside one file with as many.

    python3 bench/configs.py

It copies the repository with what is built in it, adds the program below, proves and builds it (some minutes, where the libraries
are built), and prints processor seconds, the least of 21 runs of each in turns, with the system's share and the page faults of that run.
Each run has the texts in memory first, as a load needs them; `read` drops the table of each before it reads the next one, `kept`
has all of them at the end. The program has no place in the repository: the gate would prove it again.
"""
import os
import pathlib
import random
import shutil
import subprocess
import tempfile

ROOT = pathlib.Path(__file__).resolve().parent.parent
LINE = (
    "time_load: nextest_config_resolution_profiles nextest_config_resolution_sources"
    " nextest_config_elements_versions nextest_config_elements_identifiers nextest_filtering_compiling nextest_filtering_graph"
    " test_runner_core_platforms nextest_text toml anyhow\n"
)
PROGRAM = """//! Reads files as TOML, or loads them one over the other.
#![tactic(auto)]

use anyhow::Result;
use nextest_config_elements_identifiers::{ConfigSourceKind, ToolName};
use nextest_config_elements_versions::FeatureSet;
use nextest_config_resolution_profiles::NextestConfig;
use nextest_config_resolution_sources::{ConfigSource, ConfigSourceOutcome};
use nextest_filtering_compiling::{Filterset, ParseContext};
use nextest_filtering_graph::PackageGraph;
use nextest_text::Text;
use std::alloc::Global;
use std::fs;
use std::process::ExitCode;
use test_runner_core_platforms::PlatformSpec;
use toml::Table;

// Whether the sources come to a configuration.
fn is_loaded(alloc: Global, sources: &[ConfigSource]) -> Result<bool> {
    let cx = ParseContext::new(alloc, PackageGraph::new(alloc, &[], &[])?)?;
    let features = FeatureSet::default();
    let config = NextestConfig::<Filterset, PlatformSpec>::from_sources(
        alloc, "/", &cx, sources, features,
    );
    Ok(config.is_ok())
}

// How many keys the tables of some texts have. They are dropped one by one, or all at the end.
fn keys_in(alloc: Global, texts: &[String], is_kept: bool) -> Result<usize> {
    let mut tables: Vec<Table> = Vec::new(alloc);
    let mut count: usize = 0;
    for text in texts {
        let table = toml::table_from_str(alloc, text.as_str())?;
        count = count.saturating_add(table.len());
        if is_kept {
            tables.push(table)?;
        }
    }
    Ok(count)
}

// The sources of some texts, the first the highest.
fn sources_of(alloc: Global, texts: Vec<String>) -> Result<Vec<ConfigSource>> {
    let mut sources: Vec<ConfigSource> = Vec::new(alloc);
    for text in texts {
        sources.push(ConfigSource {
            kind: ConfigSourceKind::Tool(ToolName::new(alloc, "t")?),
            path: Text::from_str(alloc, "path")?,
            outcome: ConfigSourceOutcome::Text(Text::from(text)),
        })?;
    }
    Ok(sources)
}

fn main(rt: HostRuntime) -> Result<ExitCode> {
    let alloc = rt.alloc();
    let mode = fs::read_to_string(&rt, "mode.txt")?;
    let names = fs::read_to_string(&rt, "names.txt")?;
    let mut texts: Vec<String> = Vec::new(alloc);
    for name in names.as_str().lines() {
        texts.push(fs::read_to_string(&rt, name)?)?;
    }
    if mode.as_str() == "load" {
        let sources = sources_of(alloc, texts)?;
        println!(rt; "{}", is_loaded(alloc, sources.as_slice())?)?;
    } else {
        println!(rt; "{}", keys_in(alloc, texts.as_slice(), mode.as_str() == "kept")?)?;
    }
    Ok(ExitCode::SUCCESS)
}
"""
KEYS = [
    'retries = { backoff = "exponential", count = 3, delay = "1s", jitter = true, max-delay = "10s" }',
    'flaky-result = "fail"', "test-threads = 4", "threads-required = 2", 'run-extra-args = ["--nocapture", "--another-argument"]',
    'status-level = "all"', 'final-status-level = "slow"', 'failure-output = "final"', 'success-output = "never"',
    'fail-fast = { max-fail = 5, terminate = "immediate" }',
    'slow-timeout = { period = "60s", terminate-after = 2, grace-period = "10s", on-timeout = "fail" }',
    'global-timeout = "2h"', 'leak-timeout = { period = "500ms", result = "fail" }', 'default-filter = "not test(very_slow)"',
] + [f'a-key-of-a-later-release-{place} = "a value of that key, of some length"' for place in range(20)]
JUNIT = """path = "target/junit.xml"
report-name = "some report"
store-success-output = true
store-failure-output = true
report-skipped = "all"
flaky-fail-status = "success"
"""


def file():
    """200 profiles of 40 keys, those of each in another order."""
    text = []
    for number in range(200):
        keys = random.sample(KEYS, len(KEYS))
        text.append(f"[profile.profile-number-{number}]\n" + "\n".join(keys) + f"\n[profile.profile-number-{number}.junit]\n{JUNIT}")
    return "".join(text)


GROUPS = [f"[test-groups.'@tool:t:g{place}']\nmax-threads = 1\n" for place in range(4000)]
UNKNOWN = [f"key-{place} = 1\n" for place in range(4000)]
PROFILE = "[profile.default]\n"


def kinds():
    """The texts of each kind of files, the first the highest."""
    return {
        "three files": [file() for _ in range(3)],
        "4,000 files of a group": GROUPS,
        "a file of 4,000 groups": ["".join(GROUPS)],
        "4,000 files of a key": [PROFILE + key for key in UNKNOWN],
        "a file of 4,000 keys": [PROFILE + "".join(UNKNOWN)],
    }


def put(folder, texts):
    """Writes texts into files of a folder, and their names into another."""
    folder.mkdir(parents=True)
    for place, text in enumerate(texts):
        (folder / f"{place}.toml").write_text(text)
    (folder / "names.txt").write_text("".join(f"{place}.toml\n" for place in range(len(texts))))
    (folder / "mode.txt").write_text("read")


def run(program, folder, mode):
    """The processor seconds of a run, the system's among them, and its page faults."""
    (folder / "mode.txt").write_text(mode)
    child = subprocess.Popen([program], cwd=folder, stdout=subprocess.DEVNULL)
    _, status, used = os.wait4(child.pid, 0)
    child.returncode = os.waitstatus_to_exitcode(status)
    if child.returncode:
        raise SystemExit(f"{mode} ended with {child.returncode}")
    return used.ru_utime + used.ru_stime, used.ru_stime, used.ru_minflt


def main():
    random.seed(1)
    with tempfile.TemporaryDirectory() as kept:
        copy = pathlib.Path(kept) / "repository"
        shutil.copytree(ROOT, copy, symlinks=True, ignore=shutil.ignore_patterns(".git"))
        source = copy / "crates/time_load/src"
        source.mkdir(parents=True)
        (source / "main.rt").write_text(PROGRAM)
        with open(copy / "crates.txt", "a") as lines:
            lines.write(LINE)
        put(source.parent / "data", [""])
        subprocess.run(["rt", "run"], cwd=source.parent, stdin=subprocess.DEVNULL, stdout=subprocess.DEVNULL, stderr=subprocess.DEVNULL)
        for place, (name, texts) in enumerate(kinds().items()):
            folder = pathlib.Path(kept) / str(place)
            put(folder, texts)
            print(f"{name}: {sum(map(len, texts))} bytes")
            runs = {mode: [] for mode in ("read", "kept", "load")}
            for _ in range(21):
                for mode in runs:
                    runs[mode].append(run(source.parent / "out/time_load", folder, mode))
            for mode in runs:
                whole, system, faults = min(runs[mode])
                print(f"  {mode}: {whole:.4f} s ({system:.4f} the system's, {faults} page faults), {whole / min(runs['read'])[0]:.2f} times read")


if __name__ == "__main__":
    main()
