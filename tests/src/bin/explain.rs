//! The program `explain`: every end of a journal has a record, every other place is refused with 16, a record gets yes, and one that was changed gets no.
//! Usage: explain EXAMPLES PROGRAM FOLDER (tests/explain makes the program)

#[path = "../programs.rs"]
mod programs;

use outside_checks::independent::{build, ends, latest_starts, parse, Checker, Proposal, LONGEST_IMAGE};
use outside_checks::texts::text;
use programs::{generated, start, Checks, File};
use std::io::Write;
use std::path::Path;
use std::process::{exit, Stdio};

/// A byte as document 01's plain writing has it.
fn plain(byte: u8) -> String {
    match byte {
        b'-' | b'\\' | b'|' | b'(' | b')' | b'[' | b']' | b'{' | b'}' | b'?' | b'*' | b'+' | b'.' => format!("\\{}", byte as char),
        33..=126 => (byte as char).to_string(),
        _ => format!("\\x{byte:02X}"),
    }
}

/// A record taken apart: its start, its end and its states; nothing where the places and bytes that it shows are not those of the journal.
fn taken_apart(journal: &[u8], record: &str) -> Option<(usize, usize, Vec<usize>)> {
    let mut lines = record.lines();
    let start: usize = lines.next()?.strip_prefix("start ")?.parse().ok()?;
    let end: usize = lines.next()?.strip_prefix("end ")?.parse().ok()?;
    let states = journal.get(start..end)?.iter().enumerate().map(|(i, &byte)| {
        let shown = format!("{} {} state ", start + i + 1, plain(byte));
        lines.next()?.strip_prefix(&shown)?.parse().ok()
    });
    let states: Option<Vec<usize>> = states.collect();
    if lines.next().is_some() { None } else { Some((start, end, states?)) }
}

/// A record of a proposal.
fn written(journal: &[u8], start: usize, end: usize, states: &[usize]) -> String {
    let lines = states.iter().enumerate().map(|(i, state)| format!("{} {} state {state}\n", start + i + 1, plain(journal[start + i])));
    format!("start {start}\nend {end}\n") + &lines.collect::<String>()
}

impl Checks {
    /// What the program writes in a folder with these files.
    fn answer(&self, rule: &File, journal: &File, request: &str) -> String {
        let mut command = self.command(&[("rule", rule), ("journal", journal)]);
        let mut child = command.stdin(Stdio::piped()).stdout(Stdio::piped()).spawn().expect("the program");
        // A request that is too long is not taken whole, and that is no fault here.
        let _ = child.stdin.take().expect("its input").write_all(request.as_bytes());
        let output = child.wait_with_output().expect("the program");
        if output.status.code().is_none() {
            return "(killed by a signal)".to_string();
        }
        String::from_utf8_lossy(&output.stdout).into_owned()
    }

    fn says(&mut self, what: &str, rule: &File, journal: &File, request: &str, right: &str) {
        let got = self.answer(rule, journal, request);
        let [asked, wrote, expected] = [request, &got, right].map(|text| start(text.as_bytes()));
        self.note(&format!("{what}: rule {}, request {asked}: wrote {wrote}, expected {expected}", start(rule.bytes())), got == right);
    }

    /// A place that is an end: its record shows the journal, has the latest start, is right by the independent program and gets yes; changed, it gets no.
    fn explained(&mut self, what: &str, rule: &[u8], journal: &[u8], place: usize) {
        let (rule, file) = (File::of(rule), File::of(journal));
        let record = self.answer(&rule, &file, &format!("place {place}\n"));
        let Some((begin, end, states)) = taken_apart(journal, &record) else {
            self.note(&format!("{what}: place {place}: {}", start(record.as_bytes())), false);
            return;
        };
        self.note(&format!("{what}: place {place}: the record is for {end}"), end == place);
        let tree = parse(rule.bytes()).expect("a rule that was taken");
        self.note(&format!("{what}: place {place}: the record starts at {begin}"), latest_starts(&tree, journal)[place] == Some(begin));
        let proposal = Proposal { start: begin as u64, end: end as u64, states: states.iter().map(|&state| state as u32).collect() };
        self.note(&format!("{what}: place {place}: the record is right"), Checker::of(&tree).right(journal, &proposal));
        self.says(what, &rule, &file, &record, "yes\n");
        let lines: Vec<&str> = record.lines().collect();
        for (i, line) in lines.iter().enumerate().skip(2).step_by(1 + states.len() / 3) {
            let but = |line: &str| [&lines[..i], &[line][..], &lines[i + 1..]].concat().join("\n") + "\n";
            let words: Vec<&str> = line.split(' ').collect();
            let other = if words[1] == "X" { "Y" } else { "X" };
            self.says("a byte changed", &rule, &file, &but(&format!("{} {other} state {}", words[0], words[3])), "no\n");
            self.says("a place changed", &rule, &file, &but(&format!("{}0 {} state {}", words[0], words[1], words[3])), "no\n");
            self.says("a state that no rule has", &rule, &file, &but(&format!("{} {} state 512", words[0], words[1])), "no\n");
            self.says("a zero before a state", &rule, &file, &but(&format!("{} {} state 0{}", words[0], words[1], words[3])), "no\n");
            self.says("a line left out", &rule, &file, &record.replacen(&format!("{line}\n"), "", 1), "no\n");
            self.says("a line twice", &rule, &file, &but(&format!("{line}\n{line}")), "no\n");
            self.says("no line", &rule, &file, &but("nothing"), &format!("unreadable at line {}\n", i + 1));
        }
        self.says("a later end", &rule, &file, &record.replacen(&format!("end {end}"), &format!("end {}", end + 1), 1), "no\n");
        self.says("an earlier start", &rule, &file, &record.replacen(&format!("start {begin}"), &format!("start {}", begin.wrapping_sub(1)), 1), "no\n");
        self.says("the last byte missing", &rule, &file, &record[..record.len() - 1], &format!("unreadable at line {}\n", lines.len()));
    }
}

/// The desk program's report has the writing, the total and then the ends: those are explained, and no other place is.
fn examples(checks: &mut Checks, folder: &Path) {
    let shipped = programs::examples(folder);
    checks.note("there are examples", !shipped.is_empty());
    for example in shipped {
        let report = String::from_utf8(example.report).expect("a report");
        if report.starts_with("refused") {
            checks.says(&example.name, &File::of(example.rule), &File::of(example.journal), "place 1\n", &report);
            continue;
        }
        let places: Vec<usize> = report.lines().skip(2).map(|line| line.parse().expect("a place")).collect();
        every_place(checks, &example.name, &example.rule, &example.journal, &places);
    }
}

/// Every place of a journal, and some past it: these are the ends.
fn every_place(checks: &mut Checks, what: &str, rule: &[u8], journal: &[u8], ends: &[usize]) {
    for place in 0..journal.len() + 3 {
        if ends.contains(&place) {
            checks.explained(what, rule, journal, place);
        } else {
            checks.says(what, &File::of(rule), &File::of(journal), &format!("place {place}\n"), "refused 16\n");
        }
    }
}

/// Within a record alone, and across its end.
fn dots(checks: &mut Checks) {
    every_place(checks, "a dot", b"o.*d", b"Monday\nTuesday\n", &[4]);
    every_place(checks, "every byte", b"o[\\x00-\\xFF]*d", b"Monday\nTuesday\n", &[4, 12]);
    checks.says("a dot across a record's end", &File::of("y.T"), &File::of("y\nT"), "start 0\nend 3\n1 y state 1\n2 \\x0A state 2\n3 T state 3\n", "no\n");
}

/// Left out and taken; one in another; and a group that is the whole rule, which is left out at every place.
fn optional_groups(checks: &mut Checks) {
    every_place(checks, "an optional group", b"O(flush|drain)?C", b"OCOflushCOrinseCOdrainC", &[2, 9, 23]);
    every_place(checks, "one in another", b"x((a)?b)?y", b"xyxbyxabyxay", &[2, 5, 9]);
    every_place(checks, "the whole rule", b"(ab)?", b"ab", &[0, 1, 2]);
    checks.says("a group taken", &File::of("(ab)?"), &File::of("ab"), "start 0\nend 2\n1 a state 2\n2 b state 3\n", "yes\n");
    checks.says("a group left in its middle", &File::of("(ab)?"), &File::of("ab"), "start 0\nend 1\n1 a state 2\n", "no\n");
}

/// Left out, once and more often round; one in another; the whole rule; and records round a cycle, and broken off in it.
fn repeated_groups(checks: &mut Checks) {
    every_place(checks, "a repeated group", b"O(flush|drain)*C", b"OCOflushdrainCOrinseC", &[2, 14]);
    every_place(checks, "one in another", b"x((a)*b)+y", b"xyxbyxabbyxay", &[5, 10]);
    every_place(checks, "the whole rule", b"(ab)*", b"abab", &[0, 1, 2, 3, 4]);
    let (rule, journal) = (File::of("(ab)*"), File::of("abab"));
    checks.says("two rounds", &rule, &journal, "start 0\nend 4\n1 a state 2\n2 b state 3\n3 a state 2\n4 b state 3\n", "yes\n");
    checks.says("a round and a half", &rule, &journal, "start 0\nend 3\n1 a state 2\n2 b state 3\n3 a state 2\n", "no\n");
}

/// The valve's states are determined: the record is the shipped one, and any other state is wrong.
fn valve(checks: &mut Checks, folder: &Path) {
    let [rule, journal, record] = ["rule", "journal", "record"].map(|name| std::fs::read(folder.join("valve").join(name)).expect("the valve's files"));
    let (rule, file, record) = (File::of(rule), File::of(&journal[..]), String::from_utf8(record).expect("a record"));
    checks.says("the shipped record", &rule, &file, "place 13\n", &record);
    let (begin, end, states) = taken_apart(&journal, &record).expect("the shipped record");
    for i in 0..states.len() {
        for state in 0..5 {
            let mut other = states.clone();
            other[i] = state;
            let right = if state == states[i] { "yes\n" } else { "no\n" };
            checks.says("a state", &rule, &file, &written(&journal, begin, end, &other), right);
        }
    }
    for other in 0..begin {
        let longer = [&vec![1; begin - other], &states[..]].concat();
        checks.says("an earlier start with its bytes", &rule, &file, &written(&journal, other, end, &longer), "no\n");
    }
}

fn refusals(checks: &mut Checks) {
    let nine_deep = (0..9).fold("a".to_string(), |inner, _| format!("({inner}|b)"));
    let long = [&b"["[..], &[b'a'; 1023], b"]"].concat();
    let journal = File::of("aaa");
    for request in ["place 1\n", "start 0\nend 1\n1 a state 1\n"] {
        let rules = [
            (File::of(&long[..]), "1"),
            (File::Missing, "2 at 0"),
            (File::Folder, "2 at 0"),
            (File::of("a\n"), "2 at 1"),
            (File::of("(a"), "2 at 2"),
            (File::of("(".repeat(1024)), "2 at 1024"),
            (File::of("a{512}"), "3"),
            (File::of(&nine_deep[..]), "4"),
        ];
        for (rule, number) in rules {
            checks.says("a rule that is refused", &rule, &journal, request, &format!("refused {number}\n"));
        }
        checks.says("a journal that is too long", &File::of("a"), &File::of(vec![b'a'; 65536]), request, "refused 7\n");
    }
    checks.says("no journal", &File::of("a"), &File::Missing, "place 1\n", "refused 16\n");
    checks.says("no bytes", &File::of("a?"), &File::Missing, "place 0\n", "start 0\nend 0\n");
    checks.says("no bytes, checked", &File::of("a?"), &File::Missing, "start 0\nend 0\n", "yes\n");
    checks.says("no bytes of a rule that is not empty", &File::of("a"), &journal, "start 1\nend 1\n", "no\n");
    for number in ["4", "65536", "1000000", "18446744073709551617", &"9".repeat(3000)] {
        checks.says("a large place", &File::of("a"), &journal, &format!("place {number}\n"), "refused 16\n");
        checks.says("a large start", &File::of("a"), &journal, &format!("start {number}\nend 1\n1 a state 1\n"), "no\n");
        checks.says("a large end", &File::of("a"), &journal, &format!("start 0\nend {number}\n1 a state 1\n"), "no\n");
        checks.says("a large state", &File::of("a"), &journal, &format!("start 0\nend 1\n1 a state {number}\n"), "no\n");
    }
}

fn unreadable(checks: &mut Checks) {
    let first = ["", "\n", "place\n", "place \n", "place 1", "place 1 \n", "place -1\n", "Start 0\n", "start 0"].map(|request| (request, 1));
    let second = ["start 0\n", "start 0\nend x\n"].map(|request| (request, 2));
    let later = [
        ("start 0\nend 1\n1 a state 1", 3),
        ("start 0\nend 1\n1 a state \n", 3),
        ("start 0\nend 1\n1 a\n", 3),
        ("start 0\nend 1\n1  a state 1\n", 3),
        ("start 0\nend 1\n1 a state 1\r\n", 3),
        ("start 0\nend 1\n1 a state 1\n\n", 4),
        ("start 0\nend 1\n1 a state 1\n\0", 4),
    ];
    for (request, line) in first.into_iter().chain(second).chain(later) {
        checks.says("unreadable", &File::of("a"), &File::of("aaa"), request, &format!("unreadable at line {line}\n"));
    }
    checks.says("three million bytes", &File::of("a"), &File::of("aaa"), &"x".repeat(3_000_000), "unreadable at line 1\n");
}

/// The longest journal and the longest lines.
fn limits(checks: &mut Checks) {
    let journal = [&[1][..], &[0; 65533], &[2]].concat();
    for rule in ["\\x01\\x00*\\x02".to_string(), format!("(b{{505}}|\\x01\\x00*\\x02)"), "\\x01(a|(\\x00)*)*\\x02".to_string()] {
        let (rule, file) = (File::of(rule), File::of(&journal[..]));
        let record = checks.answer(&rule, &file, "place 65535\n");
        checks.note("a record of 65,537 lines", record.lines().count() == 65537 && taken_apart(&journal, &record).is_some());
        checks.says("a record of 65,537 lines", &rule, &file, &record, "yes\n");
        checks.says("a line more", &rule, &file, &format!("{record}65536 a state 1\n"), "unreadable at line 65538\n");
        checks.says("lines without end", &rule, &file, &format!("{record}{}", "65536 a state 1\n".repeat(150_000)), "unreadable at line 65538\n");
        checks.says("the last state changed", &rule, &file, &(record[..record.len() - 2].to_string() + "9\n"), "no\n");
    }
    let every: Vec<u8> = (0..=255).collect();
    checks.explained("every byte", b"[\\x00-\\xFF]{256}", &every, 256);
}

fn seeds(checks: &mut Checks) {
    for seed in (0..300).step_by(3) {
        let (mut r, rule) = generated(seed);
        let Some(tree) = parse(&rule) else { continue };
        if build(&rule, LONGEST_IMAGE).number > 0 {
            continue;
        }
        let most = [3, 40, 400][r.below(3)];
        let journal = text(&mut r, &tree, most);
        let found = ends(&tree, &journal);
        let what = format!("seed {seed}");
        for place in (0..=journal.len() + 1).step_by(1 + journal.len() / 4) {
            let next = found.iter().map(|&end| end as usize).find(|&end| end >= place);
            if let Some(end) = next {
                checks.explained(&what, &rule, &journal, end);
            }
            if next != Some(place) {
                checks.says(&what, &File::of(&rule[..]), &File::of(&journal[..]), &format!("place {place}\n"), "refused 16\n");
            }
        }
    }
}

fn main() {
    let arguments: Vec<String> = std::env::args().collect();
    let [_, shipped, program, folder] = &arguments[..] else {
        eprintln!("usage: explain EXAMPLES PROGRAM FOLDER");
        exit(2);
    };
    let mut checks = Checks::new("explain", program, folder);
    checks.part("shipped examples", |c| examples(c, Path::new(shipped)));
    checks.part("the valve's record", |c| valve(c, Path::new(shipped)));
    checks.part("dots", dots);
    checks.part("optional groups", optional_groups);
    checks.part("repeated groups", repeated_groups);
    checks.part("refusals", refusals);
    checks.part("unreadable requests", unreadable);
    checks.part("limits", limits);
    checks.part("rules and journals from seeds", seeds);
    checks.end();
}
