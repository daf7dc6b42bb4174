// The rules of `OVERRIDES` in bench/overrides.py, as constants, in the same order, and what else bench/compare.py has in force with them. Their
// matchers are written by hand for these patterns alone, so they take less than those of a library of patterns would. With `--cfg regex`
// the crate of that name matches the regular expressions, and globs and contained texts are matched by hand still.
#[cfg(regex)]
use std::sync::LazyLock;

pub struct Binary<'a> {
    pub id: &'a str,
    pub name: &'a str,
    pub package: &'a str,
    pub kind: &'a str,
    pub platform: &'a str,
}

#[derive(Clone, Copy)]
pub struct Settings {
    pub priority: i8,
    pub retries: u32,
    pub group: &'static str,
    pub flaky_result: &'static str,
    pub success_output: &'static str,
    pub failure_output: &'static str,
    pub threads: u32,
    pub leak_seconds: u32,
}

pub const NONE: Settings = Settings {
    priority: 0,
    retries: 0,
    group: "@global",
    flaky_result: "Pass",
    success_output: "Never",
    failure_output: "Immediate",
    threads: 1,
    leak_seconds: 0,
};

#[derive(Clone, Copy)]
pub enum Set {
    Priority(i8),
    Retries(u32),
    Group(&'static str),
    FlakyResult(&'static str),
    SuccessOutput(&'static str),
    FailureOutput(&'static str),
    Threads(u32),
    LeakSeconds(u32),
}
use self::Set::*;

pub struct Rule {
    pub holds: fn(&Binary<'_>, &str) -> bool,
    pub sets: &'static [Set],
}

// ---- matchers

// Whether a part of a name matches a regular expression.
macro_rules! is_match {
    ($name:expr, $pattern:literal, $by_hand:expr) => {{
        #[cfg(regex)]
        static PATTERN: LazyLock<regex::Regex> = LazyLock::new(|| regex::Regex::new($pattern).unwrap());
        #[cfg(regex)]
        let is_match = PATTERN.is_match($name);
        #[cfg(not(regex))]
        let is_match = $by_hand;
        is_match
    }};
}

// How many digits a text begins with.
fn digits(text: &str) -> usize {
    text.bytes().take_while(u8::is_ascii_digit).count()
}

// Whether a part stands somewhere in a text such that what follows it is as it should be.
fn followed(text: &str, part: &str, by: impl Fn(&str) -> bool) -> bool {
    text.match_indices(part).any(|(at, _)| by(&text[at + part.len()..]))
}

fn is_in_module(name: &str, fits: impl Fn(&[u8]) -> bool) -> bool {
    name.strip_prefix("module_")
        .and_then(|rest| rest.split_once("::"))
        .is_some_and(|(number, _)| fits(number.as_bytes()))
}

fn is_reached_from_q(package: &str) -> bool {
    package == "q"
        || package
            .strip_prefix('r')
            .and_then(|it| it.parse::<u32>().ok())
            .is_some_and(|it| it < 15)
}

fn is_between_and_at_end(name: &str, between: &str, end: &str) -> bool {
    name.ends_with(end) && name[..name.len() - end.len()].contains(between)
}

pub const RULES: [Rule; 40] = [
    Rule {
        holds: |_, name| name.contains("slow"),
        sets: &[Threads(2)],
    },
    Rule {
        holds: |_, name| is_match!(name, r"case_09\d+", followed(name, "case_09", |it| digits(it) > 0)),
        sets: &[Retries(1)],
    },
    Rule {
        holds: |_, name| is_between_and_at_end(name, "::codec::", "_b"),
        sets: &[Group("g0")],
    },
    Rule {
        holds: |binary, _| binary.package.starts_with("p1"),
        sets: &[Retries(2)],
    },
    Rule {
        holds: |binary, _| binary.kind == "bench",
        sets: &[Priority(-10), FlakyResult("Fail")],
    },
    Rule {
        holds: |_, _| false,
        sets: &[Retries(3)],
    },
    Rule {
        holds: |binary, _| binary.platform == "host",
        sets: &[Priority(10)],
    },
    Rule {
        holds: |_, name| is_match!(name, r"_x\d*7$", name.ends_with('7') && followed(name, "_x", |it| digits(it) == it.len())),
        sets: &[Priority(20), Retries(4)],
    },
    Rule {
        holds: |binary, name| binary.kind != "lib" && name.contains("deep"),
        sets: &[FlakyResult("Fail")],
    },
    Rule {
        holds: |binary, name| binary.name.starts_with("b2") && name.contains("parse"),
        sets: &[Group("g1")],
    },
    Rule {
        holds: |_, name| is_match!(name, r"^module_1\d?::", is_in_module(name, |it| it[0] == b'1' && it.len() < 3)),
        sets: &[Retries(5)],
    },
    Rule {
        holds: |_, name| is_in_module(name, |it| it.len() == 1) && name[10..].starts_with("alpha::"),
        sets: &[Threads(3)],
    },
    Rule {
        holds: |binary, name| is_reached_from_q(binary.package) || name.contains("writer"),
        sets: &[SuccessOutput("Final")],
    },
    Rule {
        holds: |_, name| name == "module_0::alpha::case_0000_b",
        sets: &[Priority(100)],
    },
    Rule {
        holds: |_, name| name.contains("codec"),
        sets: &[FailureOutput("Never")],
    },
    Rule {
        holds: |_, name| {
            let is_fifth = |it: &str| digits(it) > 3 && it.as_bytes()[3] == b'5';
            is_match!(name, r"(alpha|parse)::case_\d\d\d5", ["alpha::case_", "parse::case_"].iter().any(|it| followed(name, it, is_fifth)))
        },
        sets: &[Retries(6)],
    },
    Rule {
        holds: |_, name| !name.contains("case"),
        sets: &[Priority(-100)],
    },
    Rule {
        holds: |_, name| name.ends_with("_b") || name.ends_with("_c"),
        sets: &[LeakSeconds(1)],
    },
    Rule {
        holds: |binary, name| matches!(binary.kind, "bin" | "example") && is_match!(name, "deep$", name.ends_with("deep")),
        sets: &[Group("g2")],
    },
    Rule {
        holds: |_, name| name.contains("_x") && !name.contains("slow"),
        sets: &[Retries(7)],
    },
    // the first 20 rules end here
    Rule {
        holds: |_, name| name.contains("module_2"),
        sets: &[Threads(4)],
    },
    Rule {
        holds: |_, name| {
            let is_fifth = |it: &str| digits(it) > 1 && it[..digits(it)].ends_with('5') && it[digits(it)..].starts_with("_x");
            is_match!(name, r"::case_\d+5_x", followed(name, "::case_", is_fifth))
        },
        sets: &[LeakSeconds(3)],
    },
    Rule {
        holds: |_, name| is_between_and_at_end(name, "reader", "_c"),
        sets: &[Group("g0")],
    },
    Rule {
        holds: |binary, _| binary.package.len() == 2 && binary.package.starts_with('r'),
        sets: &[Priority(1)],
    },
    Rule {
        holds: |_, name| is_match!(name, "^module_(3|5|7)::", is_in_module(name, |it| matches!(it, b"3" | b"5" | b"7"))),
        sets: &[FlakyResult("Pass")],
    },
    Rule {
        holds: |_, name| name.contains("writer_slow::case_00"),
        sets: &[Retries(9)],
    },
    Rule {
        holds: |binary, name| binary.id.starts_with("b1") && name.ends_with("::deep"),
        sets: &[SuccessOutput("Immediate")],
    },
    Rule {
        holds: |_, _| false,
        sets: &[Retries(10)],
    },
    Rule {
        holds: |_, name| is_match!(name, r"case_\d{4}$", followed(name, "case_", |it| it.len() == 4 && digits(it) == 4)),
        sets: &[FailureOutput("Final")],
    },
    Rule {
        holds: |binary, name| binary.kind == "test" && !name.contains("parse"),
        sets: &[Priority(2)],
    },
    Rule {
        holds: |_, name| name == "module_9::parse::case_0399::deep",
        sets: &[Retries(11)],
    },
    Rule {
        holds: |_, name| name.contains("alpha") && name.contains("_x"),
        sets: &[LeakSeconds(2)],
    },
    Rule {
        holds: |_, name| is_in_module(name, |it| it.len() == 2 && matches!(it[0], b'1' | b'2')),
        sets: &[Group("g1")],
    },
    Rule {
        holds: |binary, _| matches!(binary.package, "q" | "r0"),
        sets: &[Retries(12)],
    },
    Rule {
        holds: |_, name| {
            let is_so = |name: &str| name.len() > 3 && name[name.len() - 4..].starts_with('x') && digits(&name[name.len() - 3..]) == 3;
            is_match!(name, r"x\d{3}$", is_so(name))
        },
        sets: &[Threads(5)],
    },
    Rule {
        holds: |binary, name| binary.platform == "target" && name.contains("codec::case_09"),
        sets: &[Priority(3)],
    },
    Rule {
        holds: |_, name| ["alpha", "codec"].iter().any(|it| is_between_and_at_end(name, it, "b")),
        sets: &[FlakyResult("Fail")],
    },
    Rule {
        holds: |_, name| !(name.contains('a') || name.contains('b')),
        sets: &[Priority(4)],
    },
    Rule {
        holds: |_, name| is_match!(name, "(slow|deep)", name.contains("slow") || name.contains("deep")),
        sets: &[SuccessOutput("Never")],
    },
    Rule {
        holds: |_, _| true,
        sets: &[Retries(13)],
    },
];

// ---- settings

// Which key is set, as a bit.
fn key(set: &Set) -> u32 {
    1 << match set {
        Priority(_) => 0,
        Retries(_) => 1,
        Group(_) => 2,
        FlakyResult(_) => 3,
        SuccessOutput(_) => 4,
        FailureOutput(_) => 5,
        Threads(_) => 6,
        LeakSeconds(_) => 7,
    }
}

pub fn settings_of(rules: &[Rule], binary: &Binary<'_>, name: &str) -> Settings {
    let (mut settings, mut known) = (NONE, 0);
    for rule in rules {
        if rule.sets.iter().all(|it| known & key(it) != 0) || !(rule.holds)(binary, name) {
            continue;
        }
        for set in rule.sets {
            if known & key(set) != 0 {
                continue;
            }
            known |= key(set);
            match *set {
                Priority(it) => settings.priority = it,
                Retries(it) => settings.retries = it,
                Group(it) => settings.group = it,
                FlakyResult(it) => settings.flaky_result = it,
                SuccessOutput(it) => settings.success_output = it,
                FailureOutput(it) => settings.failure_output = it,
                Threads(it) => settings.threads = it,
                LeakSeconds(it) => settings.leak_seconds = it,
            }
        }
    }
    settings
}

// ---- what is in force beside the rules, in bench/compare.py

// The filterset `(test(~a) | test(/x\d+$/)) & !test(#*slow*{_b\,_c}) & (package(p*) | deps(=q))` and the default filter
// `not (kind(example) & test(~codec))`. Whether some test of a binary may be one on which both hold.
pub fn is_listed(binary: &Binary<'_>) -> bool {
    binary.package.starts_with('p') || is_reached_from_q(binary.package)
}

// Whether both hold on a test of a binary that is listed.
pub fn is_selected(binary: &Binary<'_>, name: &str) -> bool {
    let is_numbered = |it: &str| digits(it) > 0 && digits(it) == it.len();
    let is_named = || name.contains('a') || is_match!(name, r"x\d+$", followed(name, "x", is_numbered));
    let is_left_out = || ["_b", "_c"].iter().any(|it| is_between_and_at_end(name, "slow", it));
    is_named() && !is_left_out() && !(binary.kind == "example" && name.contains("codec"))
}

// `test(~writer) & package(p2*)`
pub fn needs_script(binary: &Binary<'_>, name: &str) -> bool {
    binary.package.starts_with("p2") && name.contains("writer")
}
