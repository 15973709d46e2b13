//! The program `follow`, fed journals in pieces: what it writes must be the ends that the independent program finds in the whole journal, and each of them
//! must be there before the next piece is written.
//! Usage: follow EXAMPLES PROGRAM FOLDER (tests/follow makes the program)

#[path = "../programs.rs"]
mod programs;

use outside_checks::generate::Random;
use outside_checks::independent::{build, ends, parse, refusal, Built, LONGEST_IMAGE};
use outside_checks::texts::{cut, text};
use programs::{generated, start, Checks, File};
use std::io::{BufRead, BufReader, Write};
use std::path::Path;
use std::process::{exit, Child, ChildStdin, Command, Stdio};
use std::sync::mpsc::{channel, Receiver};
use std::thread::{sleep, spawn};
use std::time::{Duration, Instant};

/// No answer takes as long.
const LONG: Duration = Duration::from_secs(20);

/// The program, its journal still open, and the lines that it has written.
struct Running {
    child: Child,
    journal: ChildStdin,
    lines: Receiver<String>,
}

impl Running {
    fn start(mut command: Command) -> Running {
        let mut child = command.stdin(Stdio::piped()).stdout(Stdio::piped()).spawn().expect("the program");
        let (journal, output) = (child.stdin.take().expect("its input"), child.stdout.take().expect("its output"));
        let (sender, lines) = channel();
        spawn(move || BufReader::new(output).split(b'\n').map_while(Result::ok).all(|line| sender.send(String::from_utf8_lossy(&line).into_owned()).is_ok()));
        Running { child, journal, lines }
    }

    /// A program that has ended takes nothing, and is no fault here.
    fn feed(&mut self, piece: &[u8]) {
        let _ = self.journal.write_all(piece);
    }

    /// The next line, while the journal stays open.
    fn line(&self) -> String {
        self.lines.recv_timeout(LONG).unwrap_or_else(|e| format!("({e})"))
    }

    /// Whether it ends by itself, while the journal stays open.
    fn ends(&mut self) -> bool {
        let begun = Instant::now();
        while begun.elapsed() < LONG {
            if self.child.try_wait().expect("the program").is_some() {
                return true;
            }
            sleep(Duration::from_millis(1));
        }
        let _ = self.child.kill();
        false
    }

    /// The lines that are still to come, once the journal is at its end.
    fn rest(mut self) -> Vec<String> {
        drop(self.journal);
        let mut lines: Vec<String> = self.lines.iter().collect();
        if self.child.wait().expect("the program").code().is_none() {
            lines.push("(killed by a signal)".to_string());
        }
        lines
    }
}

/// What is to be written: "each end's place on a line", and the total; or a refusal of the rule.
fn expected(rule: &[u8], journal: &[u8]) -> Vec<String> {
    match (build(rule, LONGEST_IMAGE), parse(rule)) {
        (Built { number: 0, .. }, Some(tree)) => {
            let places = ends(&tree, journal);
            places.iter().map(|place| place.to_string()).chain([format!("total {}", places.len())]).collect()
        }
        (Built { number, place, .. }, _) => vec![refusal(number, place)],
    }
}

impl Checks {
    fn begin(&self, rule: &[u8]) -> Running {
        Running::start(self.command(&[("rule", &File::of(rule))]))
    }

    fn same(&mut self, what: &str, got: &[String], right: &[String]) {
        let told = |lines: &[String]| format!("{} lines ({})", lines.len(), start(lines.join(" ").as_bytes()));
        self.note(&format!("{what}: wrote {}, expected {}", told(got), told(right)), got == right);
    }

    /// A journal in pieces, with a moment between them, so that most arrive by themselves.
    fn fed(&mut self, what: &str, rule: &[u8], pieces: &[&[u8]], right: &[String]) {
        let mut running = self.begin(rule);
        for piece in pieces {
            running.feed(piece);
            sleep(Duration::from_micros(100));
        }
        let what = format!("{what}: rule {}, journal in {} pieces", rule.escape_ascii(), pieces.len());
        self.same(&what, &running.rest(), right);
    }

    /// A journal byte by byte: each end is there before the next byte is written, place 0 before the first.
    fn at_once(&mut self, what: &str, rule: &[u8], journal: &[u8]) {
        let right = expected(rule, journal);
        let mut running = self.begin(rule);
        let mut got = Vec::new();
        for place in 0..=journal.len() {
            if place > 0 {
                running.feed(&journal[place - 1..place]);
            }
            if right.get(got.len()) == Some(&place.to_string()) {
                got.push(running.line());
            }
        }
        got.extend(running.rest());
        self.same(&format!("{what}: rule {}, byte by byte", rule.escape_ascii()), &got, &right);
    }
}

/// The desk program's report has the writing, the total and then the ends; here the total comes last.
fn examples(checks: &mut Checks, folder: &Path) {
    let shipped = programs::examples(folder);
    checks.note("there are examples", !shipped.is_empty());
    for example in shipped {
        let report = String::from_utf8(example.report).expect("a report");
        let mut right: Vec<String> = report.lines().map(str::to_string).collect();
        // a refusal is all there is; else the places come before the total, and the writing not at all
        if right.len() > 1 {
            right.remove(0);
            right.rotate_left(1);
        }
        for length in [1, 2, 5, 1000] {
            let pieces: Vec<&[u8]> = example.journal.chunks(length).collect();
            checks.fed(&example.name, &example.rule, &pieces, &right);
        }
        checks.at_once(&example.name, &example.rule, &example.journal);
    }
}

fn open_pipes(checks: &mut Checks) {
    let mut running = checks.begin(b"O[A-EG-NP-Z]*O");
    running.feed(b"OFC");
    running.feed(b"MOPC");
    running.feed(b"O");
    checks.note("the valve's second opening is seen at once", running.line() == "8");
    checks.note("and the total at the end", running.rest() == ["total 1"]);
    checks.at_once("place 0", b"b?", b"ab");
    for (rule, places) in [("o.*d", &["4", "total 1"][..]), ("o[\\x00-\\xFF]*d", &["4", "12", "total 2"])] {
        checks.fed("a record's end", rule.as_bytes(), &[b"Monday\nTue", b"sday\n"], &places.iter().map(|line| line.to_string()).collect::<Vec<_>>());
        checks.at_once("a record's end", rule.as_bytes(), b"Monday\nTuesday\n");
    }
    checks.at_once("place 0 of an optional group", b"(ab)?", b"ab");
    checks.at_once("an optional group", b"O(flush|drain)?C", b"OCOflushCOrinseCOdrainC");
    checks.at_once("place 0 of a repeated group", b"(ab)*", b"abab");
    checks.at_once("a repeated group", b"O(flush|drain)*C", b"OCOflushdrainflushCOrinseCOdrainC");
    for seed in 0..40 {
        let (mut r, rule) = generated(seed);
        let length = r.between(1, 60);
        let journal = parse(&rule).map_or(Vec::new(), |tree| text(&mut r, &tree, length));
        checks.at_once(&format!("seed {seed}"), &rule, &journal);
    }
    let mut running = checks.begin(b"a");
    running.lines = channel().1;
    for _ in 0..10 {
        running.feed(b"a");
        sleep(Duration::from_millis(10));
    }
    checks.note("where nobody takes the lines any more, it ends", running.ends());
}

/// Before anything of the journal is written; and nothing comes after.
fn refusals(checks: &mut Checks) {
    let nine_deep = (0..9).fold("a".to_string(), |inner, _| format!("({inner}|b)"));
    let long = [&b"["[..], &[b'a'; 1023], b"]"].concat();
    let rules = [
        (File::of(long), "1"),
        (File::Missing, "2 at 0"),
        (File::Folder, "2 at 0"),
        (File::of(""), "2 at 0"),
        (File::of("a\n"), "2 at 1"),
        (File::of("(flush|drain){2}"), "2 at 13"),
        (File::of("(flush|drain"), "2 at 12"),
        (File::of("(".repeat(1024)), "2 at 1024"),
        (File::of("a{512}"), "3"),
        (File::of(nine_deep), "4"),
    ];
    for (rule, number) in rules {
        let mut running = Running::start(checks.command(&[("rule", &rule)]));
        let what = format!("rule {}", start(rule.bytes()));
        checks.note(&format!("{what}: refused {number}"), running.line() == format!("refused {number}"));
        checks.note(&format!("{what}: it ends by itself"), running.ends());
        running.feed(b"aaa");
        checks.note(&format!("{what}: nothing comes after"), running.rest().is_empty());
    }
}

fn limits(checks: &mut Checks) {
    let rule = [&b"["[..], &[b'a'; 1022], b"]"].concat();
    checks.fed("a rule of 1,024 bytes", &rule, &[b"aba"], &expected(&rule, b"aba"));
    for rule in ["a", "b?"] {
        checks.fed("an empty journal", rule.as_bytes(), &[], &expected(rule.as_bytes(), b""));
    }
    let mut command = checks.command(&[("rule", &File::of("b?"))]);
    command.stdin(std::fs::File::open(".").expect("a folder"));
    let output = command.output().expect("the program");
    checks.note("a journal that can't be read is at its end", output.stdout == b"0\ntotal 1\n");
    let every: Vec<u8> = (0..=255).collect();
    for rule in [".", "[\\x00-\\xFF]"] {
        checks.fed("every byte", rule.as_bytes(), &[&every], &expected(rule.as_bytes(), &every));
    }
    for length in [4095, 4096, 4097, 8192, 65535, 65536, 65537] {
        let journal = vec![b'a'; length];
        checks.fed(&format!("{length} bytes, each an end"), b".", &[&journal], &expected(b".", &journal));
    }
}

fn long_journals(checks: &mut Checks) {
    for (seed, rule) in ["ba*|a{7}", "a(b?|c)d", "[ab]{70}(c|d)e*", "a((bc|d)?e)?f", "a((bc|d)*e)*f"].into_iter().enumerate() {
        let mut r = Random::new(seed as u64);
        let tree = parse(rule.as_bytes()).expect("a rule");
        let journal = text(&mut r, &tree, 400_000);
        let right = expected(rule.as_bytes(), &journal);
        checks.note(&format!("{rule}: some place has six digits"), right.iter().any(|line| line.len() == 6));
        checks.fed("at once", rule.as_bytes(), &[&journal], &right);
        checks.fed("in pieces", rule.as_bytes(), &cut(&mut r, &journal, 9000), &right);
    }
}

fn seeds(checks: &mut Checks) {
    for seed in 0..300 {
        let (mut r, rule) = generated(seed);
        let most = [3, 40, 400, 4000][r.below(4)];
        let journal = parse(&rule).map_or(b"aba".to_vec(), |tree| text(&mut r, &tree, most));
        let right = expected(&rule, &journal);
        let longest = [1, 3, 40, 700][r.below(4)].max(journal.len() / 60);
        checks.fed(&format!("seed {seed}"), &rule, &cut(&mut r, &journal, longest), &right);
    }
}

fn main() {
    let arguments: Vec<String> = std::env::args().collect();
    let [_, shipped, program, folder] = &arguments[..] else {
        eprintln!("usage: follow EXAMPLES PROGRAM FOLDER");
        exit(2);
    };
    let mut checks = Checks::new("follow", program, folder);
    checks.part("shipped examples", |c| examples(c, Path::new(shipped)));
    checks.part("pipes that stay open", open_pipes);
    checks.part("refusals", refusals);
    checks.part("limits", limits);
    checks.part("long journals", long_journals);
    checks.part("rules and cuttings from seeds", seeds);
    checks.end();
}
