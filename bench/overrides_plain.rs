// The decisions of bench/overrides.py in plain Rust: gives each test of a list its settings by the first rules of a table, and puts the
// tests into the order of a plan.
//
//     overrides_plain RULES [list] < LIST
//
// A line of the list is a test's name, or a tab and the fields of the binary whose tests follow: id, name, package, kind, platform. The rules are
// the constants of plain/rules.rs. Nothing is owned or refused. It prints a digest of all decisions, or with `list` each of them.
#[allow(dead_code)]
#[path = "plain/rules.rs"]
mod rules;

use rules::{settings_of, Binary, Settings, RULES};
use std::io::{Read, Write};

struct Test<'a> {
    binary: usize,
    name: &'a str,
    settings: Settings,
}

fn digest(tests: &[Test<'_>]) -> u64 {
    let mut sum = 0u64;
    for test in tests {
        let it = &test.settings;
        for part in [
            test.binary as u64,
            test.name.len() as u64,
            it.priority as u64,
            u64::from(it.retries),
            it.group.len() as u64 + u64::from(*it.group.as_bytes().last().unwrap()),
            it.flaky_result.len() as u64 + u64::from(it.flaky_result.as_bytes()[0]),
            it.success_output.len() as u64,
            it.failure_output.len() as u64,
            u64::from(it.threads),
            u64::from(it.leak_seconds),
        ] {
            sum = (sum ^ part).wrapping_mul(0x100_0000_01b3).rotate_left(7);
        }
    }
    sum
}

fn main() {
    let words: Vec<String> = std::env::args().collect();
    let rules = &RULES[..words[1].parse::<usize>().unwrap()];
    let mut text = String::new();
    std::io::stdin().read_to_string(&mut text).unwrap();
    let mut binaries: Vec<Binary<'_>> = Vec::new();
    let mut tests: Vec<Test<'_>> = Vec::new();
    for line in text.lines() {
        if let Some(fields) = line.strip_prefix('\t') {
            let mut fields = fields.split('\t');
            let mut next = || fields.next().unwrap();
            binaries.push(Binary {
                id: next(),
                name: next(),
                package: next(),
                kind: next(),
                platform: next(),
            });
            continue;
        }
        let binary = binaries.len() - 1;
        tests.push(Test {
            binary,
            name: line,
            settings: settings_of(rules, &binaries[binary], line),
        });
    }
    tests.sort_by(|a, b| {
        b.settings
            .priority
            .cmp(&a.settings.priority)
            .then_with(|| binaries[a.binary].id.cmp(binaries[b.binary].id))
            .then_with(|| a.name.cmp(b.name))
    });
    let mut out = std::io::BufWriter::new(std::io::stdout().lock());
    if words.len() > 2 {
        for test in &tests {
            let (id, it) = (binaries[test.binary].id, &test.settings);
            writeln!(
                out,
                "{id} {} {} {} {} {} {} {}",
                test.name,
                it.priority,
                it.retries + 1,
                it.group,
                it.flaky_result,
                it.success_output,
                it.failure_output
            )
            .unwrap();
        }
    } else {
        writeln!(out, "{} tests, digest {:016x}", tests.len(), digest(&tests)).unwrap();
    }
}
