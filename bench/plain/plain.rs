// A plain program to compare the time and memory of ours with: it reads the same inputs and log from standard input, refuses the same lines
// of a log by the same names, and writes the same report. `rustc -O plain.rs` builds it; it uses nothing but std.
//
// It knows plans without filtersets and scripts, and of settings what `fail-fast = false` and `retries = N` in the first source say; it
// doesn't know inputs that are refused, and warnings. It knows no fail weights: each test weighs 1, and its limit is 1 or none. Outputs are
// looked at as hex and kept only until they are written. Where the first source has the comment `# rules N`, the first N rules of rules.rs
// give tests their settings, and its two filters and its script are in force; of the script no line of the log is known.
use std::collections::HashMap;
use std::io::{self, BufRead, Read, Write};

mod rules;
use rules::{is_listed, is_selected, needs_script, settings_of, Rule, Settings, RULES};

// ---- the JSON inputs

struct Json<'a> {
    text: &'a [u8],
    at: usize,
}

#[derive(Default)]
struct Inputs {
    binaries: Vec<Listed>,
    settings: String,
}

#[derive(Default)]
struct Listed {
    id: String,
    name: String,
    package: String,
    kind: String,
    platform: String,
    tests: Vec<String>,
}

impl Json<'_> {
    fn peek(&mut self) -> u8 {
        while matches!(self.text.get(self.at), Some(b' ' | b'\t' | b'\r' | b'\n')) {
            self.at += 1;
        }
        self.text.get(self.at).copied().unwrap_or(0)
    }

    fn take(&mut self, sign: u8) -> bool {
        let found = self.peek() == sign;
        self.at += usize::from(found);
        found
    }

    fn string(&mut self) -> String {
        assert!(self.take(b'"'), "a text is due at {}", self.at);
        let mut made = Vec::new();
        loop {
            let run = self.text[self.at..].iter().position(|byte| matches!(byte, b'"' | b'\\')).expect("an end of a text");
            made.extend_from_slice(&self.text[self.at..self.at + run]);
            self.at += run + 1;
            if self.text[self.at - 1] == b'"' {
                return String::from_utf8(made).expect("UTF-8");
            }
            self.escape(&mut made);
        }
    }

    fn escape(&mut self, made: &mut Vec<u8>) {
        let sign = self.text[self.at];
        self.at += 1;
        match sign {
            b'n' => made.push(b'\n'),
            b't' => made.push(b'\t'),
            b'r' => made.push(b'\r'),
            b'b' => made.push(8),
            b'f' => made.push(12),
            b'u' => {
                let unit = self.unit();
                let number = if (0xD800..0xDC00).contains(&unit) {
                    self.at += 2;
                    0x10000 + (unit - 0xD800) * 0x400 + (self.unit() - 0xDC00)
                } else {
                    unit
                };
                made.extend_from_slice(char::from_u32(number).expect("a character").to_string().as_bytes());
            }
            other => made.push(other),
        }
    }

    fn unit(&mut self) -> u32 {
        let digits = std::str::from_utf8(&self.text[self.at..self.at + 4]).expect("digits");
        self.at += 4;
        u32::from_str_radix(digits, 16).expect("digits")
    }

    fn list(&mut self, mut each: impl FnMut(&mut Self)) {
        assert!(self.take(b'['));
        while !self.take(b']') {
            each(self);
            self.take(b',');
        }
    }

    fn object(&mut self, mut each: impl FnMut(&mut Self, &str)) {
        assert!(self.take(b'{'));
        while !self.take(b'}') {
            let key = self.string();
            assert!(self.take(b':'));
            each(self, &key);
            self.take(b',');
        }
    }

    fn skip(&mut self) {
        match self.peek() {
            b'"' => drop(self.string()),
            b'[' => self.list(Json::skip),
            b'{' => self.object(|json, _| json.skip()),
            _ => {
                while !matches!(self.peek(), b',' | b']' | b'}' | 0) {
                    self.at += 1;
                }
            }
        }
    }

    fn inputs(&mut self) -> Inputs {
        let mut made = Inputs::default();
        self.object(|json, key| match key {
            "workspace" => json.object(|json, key| match key {
                "binaries" => json.list(|json| made.binaries.push(json.binary())),
                _ => json.skip(),
            }),
            "sources" => json.list(|json| {
                json.object(|json, key| match key {
                    "text" if made.settings.is_empty() => made.settings = json.string(),
                    _ => json.skip(),
                })
            }),
            _ => json.skip(),
        });
        made
    }

    fn binary(&mut self) -> Listed {
        let mut made = Listed::default();
        self.object(|json, key| match key {
            "id" => made.id = json.string(),
            "name" => made.name = json.string(),
            "package" => made.package = json.string(),
            "kind" => made.kind = json.string(),
            "platform" => made.platform = json.string(),
            "tests" => json.list(|json| made.tests.push(json.string())),
            _ => json.skip(),
        });
        made
    }
}

// ---- results

#[derive(Clone, Copy, PartialEq)]
enum Ended {
    Pass,
    LeakPass,
    LeakFail,
    TimeoutPass,
    TimeoutFail,
    Fail(i32, bool),
    Abort(u8, bool),
    ExecFail,
}
use Ended::*;

impl Ended {
    fn read(text: &str) -> Option<Ended> {
        Some(match text {
            "pass" => Pass,
            "leak:pass" => LeakPass,
            "leak:fail" => LeakFail,
            "timeout:pass" => TimeoutPass,
            "timeout:fail" => TimeoutFail,
            "exec-fail" => ExecFail,
            _ => {
                let (text, leaked) = text.strip_suffix(":leaked").map_or((text, false), |it| (it, true));
                if let Some(code) = text.strip_prefix("fail:") {
                    Fail(number(code).filter(|code| *code != 0)?, leaked)
                } else {
                    Abort(number(text.strip_prefix("abort:")?).filter(|it| (1..=127).contains(it))?, leaked)
                }
            }
        })
    }

    fn is_success(self) -> bool {
        matches!(self, Pass | LeakPass | TimeoutPass)
    }

    fn write(self, to: &mut Vec<u8>) {
        let mark = |leaked| if leaked { ":leaked" } else { "" };
        let _ = match self {
            Pass => write!(to, "pass"),
            LeakPass => write!(to, "leak:pass"),
            LeakFail => write!(to, "leak:fail"),
            TimeoutPass => write!(to, "timeout:pass"),
            TimeoutFail => write!(to, "timeout:fail"),
            Fail(code, leaked) => write!(to, "fail:{code}{}", mark(leaked)),
            Abort(signal, leaked) => write!(to, "abort:{signal}{}", mark(leaked)),
            ExecFail => write!(to, "exec-fail"),
        };
    }
}

// A number in shortest decimal.
fn number<T: std::str::FromStr + ToString>(text: &str) -> Option<T> {
    let made: T = text.parse().ok()?;
    (made.to_string() == text).then_some(made)
}

fn is_hex(text: &str) -> bool {
    let bad = text.bytes().fold(0u8, |bad, it| bad | u8::from(!(it.wrapping_sub(b'0') < 10 || it.wrapping_sub(b'a') < 6)));
    bad == 0 && text.len() % 2 == 0
}

fn bytes_of(hex: &str) -> Vec<u8> {
    let digit = |it: u8| if it < b'a' { it - b'0' } else { it - b'a' + 10 };
    hex.as_bytes().chunks_exact(2).map(|pair| digit(pair[0]) * 16 + digit(pair[1])).collect()
}

// ---- lines of a log

struct End<'l> {
    result: Ended,
    slow: bool,
    nanos: u64,
    out: &'l str,
    err: &'l str,
}

enum Line<'l> {
    None,
    Script,
    Start(&'l str, &'l str),
    End(&'l str, &'l str, End<'l>),
    Stop(&'static str),
}

const REASONS: [&str; 5] = ["report-error", "global-timeout", "signal", "interrupt", "second-signal"];

fn end_of<'l>(mut fields: impl Iterator<Item = &'l str>) -> Option<End<'l>> {
    let result = Ended::read(fields.next()?)?;
    let slow = match fields.next()? {
        "slow" => true,
        "-" => false,
        _ => return None,
    };
    let nanos = number(fields.next()?)?;
    let (out, err) = (fields.next()?, fields.next()?);
    if fields.next().is_some() || !(out == "-" || is_hex(out)) || !(err == "-" || is_hex(err)) {
        return None;
    }
    if result == ExecFail && (out == "-" || err != "-" || std::str::from_utf8(&bytes_of(out)).is_err()) {
        return None;
    }
    Some(End { result, slow, nanos, out, err })
}

fn read_line(text: &str) -> Option<Line<'_>> {
    if text.is_empty() {
        return Some(Line::None);
    }
    let mut fields = text.split('\t');
    match fields.next()? {
        "start" => {
            let (binary, name) = (fields.next()?, fields.next()?);
            fields.next().is_none().then_some(Line::Start(binary, name))
        }
        "end" => {
            let (binary, name) = (fields.next()?, fields.next()?);
            Some(Line::End(binary, name, end_of(fields)?))
        }
        "script" => {
            fields.next()?;
            end_of(fields).map(|_| Line::Script)
        }
        "stop" => {
            let word = fields.next()?;
            let reason = *REASONS.iter().find(|it| **it == word)?;
            fields.next().is_none().then_some(Line::Stop(reason))
        }
        _ => None,
    }
}

// ---- plans

#[derive(Default)]
struct Plan<'a> {
    tests: Vec<Test<'a>>,
    // Of each test, in the order of the lists. Where no rules are in force there are none.
    settings: Vec<Settings>,
    // How many tests of binaries that are listed are left out.
    skipped: usize,
    has_script: bool,
}

impl<'a> Plan<'a> {
    fn new(binaries: &'a [Listed], settings: &str) -> Plan<'a> {
        if let Some(count) = number_behind(settings, "# rules ") {
            return Plan::by_rules(binaries, &RULES[..count]);
        }
        let tries = number_behind(settings, "retries = ").unwrap_or(0) as u32 + 1;
        let mut names: Vec<(&str, &str)> = binaries.iter().flat_map(|it| it.tests.iter().map(move |name| (it.id.as_str(), name.as_str()))).collect();
        if !names.is_sorted() {
            names.sort_unstable();
        }
        Plan { tests: names.into_iter().map(|(binary, name)| Test::new(binary, name, tries)).collect(), ..Plan::default() }
    }

    fn by_rules(binaries: &'a [Listed], rules: &[Rule]) -> Plan<'a> {
        let (mut ranked, mut plan) = (Vec::new(), Plan::default());
        for it in binaries {
            let binary = rules::Binary { id: &it.id, name: &it.name, package: &it.package, kind: &it.kind, platform: &it.platform };
            if !is_listed(&binary) {
                continue;
            }
            plan.skipped += it.tests.len();
            for name in it.tests.iter().filter(|name| is_selected(&binary, name)) {
                let settings = settings_of(rules, &binary, name);
                plan.has_script = plan.has_script || needs_script(&binary, name);
                ranked.push((settings.priority, it.id.as_str(), name.as_str(), settings.retries + 1));
                plan.settings.push(settings);
            }
        }
        plan.skipped -= ranked.len();
        ranked.sort_by(|a, b| b.0.cmp(&a.0).then_with(|| a.1.cmp(b.1)).then_with(|| a.2.cmp(b.2)));
        plan.tests = ranked.into_iter().map(|(_, binary, name, tries)| Test::new(binary, name, tries)).collect();
        plan
    }
}

// The number that stands behind the first place of some words.
fn number_behind(text: &str, words: &str) -> Option<usize> {
    let (_, rest) = text.split_once(words)?;
    rest.split(|it: char| !it.is_ascii_digit()).next()?.parse().ok()
}

// ---- runs

struct Attempt {
    result: Ended,
    slow: bool,
    nanos: u64,
}

#[derive(Clone, Copy, PartialEq)]
enum Mark {
    Waiting,
    Running,
    Between,
    Finished,
}

struct Test<'a> {
    binary: &'a str,
    name: &'a str,
    mark: Mark,
    attempts: Vec<Attempt>,
    // Between two attempts, what the last one wrote.
    written: Option<Box<(String, String)>>,
    // It finished under an interrupt: nothing but its line is shown.
    is_hidden: bool,
    tries: u32,
}

impl<'a> Test<'a> {
    fn new(binary: &'a str, name: &'a str, tries: u32) -> Test<'a> {
        Test { binary, name, mark: Mark::Waiting, attempts: Vec::new(), written: None, is_hidden: false, tries }
    }

    fn fate(&self) -> &'static str {
        match self.attempts.last() {
            None => "not-run",
            Some(_) if self.mark != Mark::Finished => "unfinished",
            Some(last) if !last.result.is_success() => "fail",
            Some(_) if self.attempts.len() == 1 => "pass",
            Some(_) => "flaky",
        }
    }
}

// How a reason stands among reasons: the greater one stays.
fn weight(reason: &str) -> usize {
    let order = ["", "setup-script-failure", "test-failure", "report-error", "global-timeout", "test-failure-immediate", "signal", "interrupt", "second-signal"];
    order.iter().position(|it| *it == reason).unwrap_or(0)
}

struct Run<'a> {
    tests: Vec<Test<'a>>,
    places: HashMap<&'a str, HashMap<&'a str, usize>>,
    skipped: usize,
    has_script: bool,
    is_limited: bool,
    reason: &'static str,
    report: Vec<u8>,
}

impl<'a> Run<'a> {
    fn place(&self, binary: &str, name: &str) -> Result<usize, &'static str> {
        self.places.get(binary).and_then(|names| names.get(name)).copied().ok_or("UnknownTest")
    }

    fn step(&mut self, line: &[u8]) -> Result<(), &'static str> {
        let text = std::str::from_utf8(line).map_err(|_| "NotUtf8")?;
        match read_line(text).ok_or("BadLine")? {
            Line::None => Ok(()),
            Line::Script => Err("UnknownScript"),
            Line::Start(binary, name) => self.start(binary, name),
            Line::End(binary, name, end) => self.end(binary, name, end),
            Line::Stop(reason) => {
                self.stop(reason);
                Ok(())
            }
        }
    }

    fn start(&mut self, binary: &str, name: &str) -> Result<(), &'static str> {
        let place = self.place(binary, name)?;
        if !self.reason.is_empty() {
            return Err("Stopped");
        }
        let test = &mut self.tests[place];
        match test.mark {
            Mark::Running => return Err("Running"),
            Mark::Finished => return Err("Finished"),
            Mark::Waiting | Mark::Between => test.mark = Mark::Running,
        }
        Ok(())
    }

    fn end(&mut self, binary: &str, name: &str, end: End<'_>) -> Result<(), &'static str> {
        let place = self.place(binary, name)?;
        let test = &mut self.tests[place];
        if test.mark != Mark::Running {
            return Err("NotRunning");
        }
        let End { result, slow, nanos, out, err } = end;
        test.attempts.push(Attempt { result, slow, nanos });
        if !result.is_success() && test.attempts.len() < test.tries as usize && self.reason.is_empty() {
            test.mark = Mark::Between;
            test.written = Some(Box::new((out.to_string(), err.to_string())));
            return Ok(());
        }
        self.finish(place, result, out, err);
        if !result.is_success() && self.is_limited {
            self.stop("test-failure");
        }
        Ok(())
    }

    fn stop(&mut self, reason: &'static str) {
        if weight(reason) > weight(self.reason) {
            self.reason = reason;
        }
        for place in 0..self.tests.len() {
            if self.tests[place].mark == Mark::Between {
                let written = self.tests[place].written.take().unwrap_or_default();
                let result = self.tests[place].attempts.last().map_or(Pass, |it| it.result);
                self.finish(place, result, &written.0, &written.1);
            }
        }
    }

    fn finish(&mut self, place: usize, result: Ended, out: &str, err: &str) {
        let test = &mut self.tests[place];
        test.mark = Mark::Finished;
        test.written = None;
        test.is_hidden = matches!(self.reason, "interrupt" | "second-signal");
        self.write_test(b"done", place);
        if !result.is_success() && !self.tests[place].is_hidden {
            self.write_outputs(result, out, err);
        }
    }

    fn write_test(&mut self, word: &[u8], place: usize) {
        let test = &self.tests[place];
        for part in [word, test.binary.as_bytes(), test.name.as_bytes(), test.fate().as_bytes()] {
            self.report.extend_from_slice(part);
            self.report.push(b'\t');
        }
        let _ = writeln!(self.report, "{}/{}", test.attempts.len(), test.tries);
    }

    fn write_outputs(&mut self, result: Ended, out: &str, err: &str) {
        if result == ExecFail {
            let _ = writeln!(self.report, "error\t{out}");
            return;
        }
        for (word, hex) in [("out", out), ("err", err)] {
            if hex != "-" {
                let _ = writeln!(self.report, "{word}\t{hex}");
            }
        }
        let bytes = |hex: &str| if hex == "-" { Vec::new() } else { bytes_of(hex) };
        if let Some((kind, start, length)) = slice_of(&bytes(out), &bytes(err)) {
            let _ = writeln!(self.report, "slice\t{kind}\t{start}\t{length}");
        }
    }

    fn write_final(&mut self) -> u8 {
        let last = |test: &Test<'_>| test.attempts.last().map(|it| (it.result, it.slow, test.attempts.len() > 1));
        let finished: Vec<_> = self.tests.iter().filter(|it| it.mark == Mark::Finished).filter_map(last).collect();
        let count = |holds: &dyn Fn(Ended, bool, bool) -> bool| finished.iter().filter(|it| holds(it.0, it.1, it.2)).count();
        let is_failed = |it: Ended| matches!(it, LeakFail | Fail(..) | Abort(..));
        let initial = self.tests.len();
        let ended = self.tests.iter().filter(|it| it.mark == Mark::Finished).count();
        let failing = count(&|it, _, _| !it.is_success());
        let counters = [
            ("initial-run-count", initial),
            ("finished-count", ended),
            ("setup-scripts-initial-count", usize::from(self.has_script)),
            ("setup-scripts-finished-count", 0),
            ("setup-scripts-passed", 0),
            ("setup-scripts-failed", 0),
            ("setup-scripts-exec-failed", 0),
            ("setup-scripts-timed-out", 0),
            ("passed", count(&|it, _, _| it.is_success())),
            ("passed-slow", count(&|it, slow, _| matches!(it, Pass | LeakPass) && slow)),
            ("passed-timed-out", count(&|it, _, _| it == TimeoutPass)),
            ("flaky", count(&|it, _, late| it.is_success() && late)),
            ("failed", count(&|it, _, _| is_failed(it))),
            ("failed-slow", count(&|it, slow, _| is_failed(it) && slow)),
            ("failed-timed-out", count(&|it, _, _| it == TimeoutFail)),
            ("leaky", count(&|it, _, _| it == LeakPass)),
            ("leaky-failed", count(&|it, _, _| it == LeakFail)),
            ("exec-failed", count(&|it, _, _| it == ExecFail)),
            ("skipped", self.skipped),
            ("failed-weight", failing),
        ];
        let status = match initial {
            0 => 4,
            _ if self.has_script => 105,
            _ => 100 * u8::from(failing > 0 || ended < initial),
        };
        let reason = if self.reason.is_empty() { "-" } else { self.reason };
        let at = format!("test {initial} {}", initial - ended);
        let outcome = match status {
            4 => "no-tests-run".to_string(),
            0 => "success".to_string(),
            105 => format!("cancelled setup-script {reason}"),
            _ if failing > 0 && !REASONS.contains(&self.reason) => format!("failed {at}"),
            _ => format!("cancelled {at} {reason}"),
        };
        let _ = writeln!(self.report, "== final ==\nstatus\t{status}\noutcome {outcome}");
        for (name, number) in counters {
            let _ = writeln!(self.report, "{name}\t{number}");
        }
        let _ = writeln!(self.report, "cancel-reason\t{reason}");
        if self.has_script {
            let _ = writeln!(self.report, "script\tdatabase\tnot-run");
        }
        for place in 0..self.tests.len() {
            if self.tests[place].fate() != "pass" && !self.tests[place].is_hidden {
                self.write_test(b"test", place);
                for (at, attempt) in self.tests[place].attempts.iter().enumerate() {
                    let _ = write!(self.report, "try\t{}\t", at + 1);
                    attempt.result.write(&mut self.report);
                    let _ = writeln!(self.report, "\t{}\t{}", if attempt.slow { "slow" } else { "-" }, attempt.nanos);
                }
            }
        }
        status
    }
}

// ---- the part of an output that shows an error

fn lines_of(bytes: &[u8]) -> impl Iterator<Item = (usize, &[u8])> {
    let mut at = 0;
    bytes.split(|it| *it == b'\n').map(move |line| {
        let start = at;
        at += line.len() + 1;
        (start, line)
    })
}

// How many bytes are left without white space at the end.
fn without_end(mut bytes: &[u8]) -> usize {
    let last = |bytes: &[u8]| (1..=bytes.len().min(4)).find(|it| std::str::from_utf8(&bytes[bytes.len() - it..]).is_ok_and(|it| it.trim().is_empty()));
    while let Some(length) = last(bytes) {
        bytes = &bytes[..bytes.len() - length];
    }
    bytes.len()
}

fn is_panic(line: &[u8]) -> bool {
    let Some(rest) = line.strip_prefix(b"thread '") else { return false };
    let Some(end) = rest.iter().position(|it| *it == b'\'').filter(|it| *it > 0) else { return false };
    let rest = &rest[end + 1..];
    if rest.starts_with(b" panicked at ") {
        return true;
    }
    let Some(rest) = rest.strip_prefix(b" (") else { return false };
    let digits = rest.iter().take_while(|it| it.is_ascii_digit()).count();
    digits > 0 && rest[digits..].starts_with(b") panicked at ")
}

fn slice_of(out: &[u8], err: &[u8]) -> Option<(&'static str, usize, usize)> {
    let trimmed = |start: usize| without_end(&err[start..]);
    let lines: Vec<_> = lines_of(err).collect();
    if let Some(at) = lines.iter().rposition(|(_, line)| is_panic(line)) {
        let above = lines[..at].iter().enumerate().rev().find(|(_, (_, line))| !line.is_empty());
        let start = match above {
            Some((place, (start, line))) if place > 0 && line.starts_with(b"Error:") => *start,
            _ => lines[at].0,
        };
        return Some(("panic", start, trimmed(start)));
    }
    if let Some((start, _)) = lines.iter().find(|(_, line)| line.starts_with(b"Error: ")) {
        return Some(("error", *start, trimmed(*start)));
    }
    let words = b"note: test did not panic as expected";
    let found = lines_of(out).find(|(_, line)| line.windows(words.len()).any(|it| it == words));
    found.map(|(start, line)| ("should-panic", start, without_end(line)))
}

// ---- the whole

const LINE_LIMIT: usize = 1_048_576;

fn main() -> io::Result<()> {
    let mut input = io::BufReader::with_capacity(65_536, io::stdin().lock());
    let mut line = Vec::new();
    input.read_until(b'\n', &mut line)?;
    let Inputs { binaries, settings } = Json { text: &line, at: 0 }.inputs();
    let Plan { tests, settings: _kept, skipped, has_script } = Plan::new(&binaries, &settings);
    let mut places: HashMap<&str, HashMap<&str, usize>> = HashMap::new();
    for (place, test) in tests.iter().enumerate() {
        places.entry(test.binary).or_default().insert(test.name, place);
    }
    let mut run = Run { tests, places, skipped, has_script, is_limited: !settings.contains("fail-fast = false"), reason: "", report: Vec::new() };
    let mut output = io::stdout().lock();
    let (mut number, mut status) = (0u64, None);
    let mut text = Vec::new();
    while status.is_none() {
        text.clear();
        (&mut input).take(LINE_LIMIT as u64 + 1).read_until(b'\n', &mut text)?;
        if text.is_empty() {
            break;
        }
        number += 1;
        let refusal = if text.len() > LINE_LIMIT && text.last() != Some(&b'\n') {
            Some("LineTooLong")
        } else if text.last() != Some(&b'\n') {
            Some("NoLineEnd")
        } else {
            run.step(&text[..text.len() - 1]).err()
        };
        if let Some(name) = refusal {
            let _ = writeln!(run.report, "refused\tline\t{number}\t{name}");
            status = Some(96);
        }
        if run.report.len() >= 65_536 {
            output.write_all(&run.report)?;
            run.report.clear();
        }
    }
    let status = status.unwrap_or_else(|| run.write_final());
    output.write_all(&run.report)?;
    output.flush()?;
    std::process::exit(status.into())
}
