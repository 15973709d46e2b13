//! The desk program, run in a folder for each case: what it writes must be, byte for byte, what the outside vector or the independent program says.
//! Usage: desk VECTORS EXAMPLES PROGRAM FOLDER (tests/desk makes the program)

#[path = "../programs.rs"]
mod programs;

use outside_checks::by_hand::PLACES;
use outside_checks::independent::{desk, parse, writing};
use outside_checks::texts::text;
use outside_checks::{bytes, file, vectors};
use programs::{generated, start, Checks, File};
use std::path::Path;
use std::process::exit;

impl Checks {
    /// What the program writes in a folder with these files.
    fn run(&self, rule: &File, journal: &File) -> Vec<u8> {
        let output = self.command(&[("rule", rule), ("journal", journal)]).output().expect("the program");
        if output.status.code().is_none() {
            return b"(killed by a signal)".to_vec();
        }
        output.stdout
    }

    fn same(&mut self, what: &str, rule: &File, journal: &File, expected: &[u8]) {
        let got = self.run(rule, journal);
        let told = format!(
            "{what}: rule {}, {} bytes of journal ({}): wrote {} bytes ({}), expected {} ({})",
            rule.bytes().escape_ascii(),
            journal.bytes().len(),
            start(journal.bytes()),
            got.len(),
            start(&got),
            expected.len(),
            start(expected)
        );
        self.note(&told, got == expected);
    }

    /// Beside the independent program; `begins` is document 01's word on it.
    fn beside(&mut self, what: &str, rule: &File, journal: &File, begins: &str) {
        let expected = desk(rule.bytes(), journal.bytes());
        self.note(&format!("{what}: the independent program begins with {begins:?}"), expected.starts_with(begins.as_bytes()));
        self.same(what, rule, journal, &expected);
    }
}

fn outside(checks: &mut Checks, folder: &Path) {
    for (place, v) in vectors(folder, "desk") {
        let [rule, journal] = [0, 1].map(|k| file(&v[k]).map_or(File::Missing, File::Bytes));
        checks.same(&place, &rule, &journal, &bytes(&v[2]));
    }
}

fn examples(checks: &mut Checks, folder: &Path) {
    let shipped = programs::examples(folder);
    checks.note("there are examples", !shipped.is_empty());
    for example in shipped {
        checks.note(&format!("{}: the independent program", example.name), desk(&example.rule, &example.journal) == example.report);
        checks.same(&example.name, &File::Bytes(example.rule), &File::Bytes(example.journal), &example.report);
    }
}

fn files(checks: &mut Checks) {
    let (a, aba) = (File::of("a"), File::of("aba"));
    checks.beside("document 01's example", &a, &aba, "a\ntotal 2\n1\n3\n");
    checks.beside("a closing newline in the rule", &File::of("a\n"), &aba, "refused 2 at 1\n");
    checks.beside("a closing newline in the journal", &File::of("[\\x00-\\xFF]"), &File::of("aba\n"), "[\\x00-\\xFF]\ntotal 4\n");
    checks.beside("every byte in the journal", &File::of("[\\x00-\\xFF]"), &File::of((0..=255).collect::<Vec<u8>>()), "[\\x00-\\xFF]\ntotal 256\n");
    for nothing in [File::Missing, File::Folder, File::of("")] {
        checks.beside("no rule", &nothing, &aba, "refused 2 at 0\n");
        checks.beside("no journal", &File::of("b?"), &nothing, "b?\ntotal 1\n0\n");
        checks.beside("neither", &nothing, &nothing, "refused 2 at 0\n");
    }
}

/// Rules that are not in the grammar, and how far they could be.
fn places(checks: &mut Checks) {
    for (rule, place) in PLACES {
        checks.beside("a place", &File::of(rule), &File::of("aba"), &format!("refused 2 at {place}\n"));
    }
}

/// Within a record and across its end; written as a dot only where byte 10 alone is missing.
fn dots(checks: &mut Checks) {
    let journal = File::of("Monday\nTuesday\n");
    let rules = [
        (".", ".\ntotal 13\n"),
        ("o.*d", "o.*d\ntotal 1\n4\n"),
        ("o[\\x00-\\x09\\x0B-\\xFF]*d", "o.*d\ntotal 1\n4\n"),
        ("o[\\x00-\\xFF]*d", "o[\\x00-\\xFF]*d\ntotal 2\n4\n12\n"),
        ("o[\\x00-\\x08\\x0A-\\xFF]*d", "o[\\x00-\\x08\\x0A-\\xFF]*d\ntotal 2\n4\n12\n"),
        ("y.T", "y.T\ntotal 0\n"),
        ("y(.|\\x0A)T", "y(.|\\x0A)T\ntotal 1\n8\n"),
        ("\\.", "\\.\ntotal 0\n"),
    ];
    for (rule, begins) in rules {
        checks.beside("a dot", &File::of(rule), &journal, begins);
    }
}

/// Left out and taken; written as it is kept, or not where it is dropped; and signs that no group takes.
fn optional_groups(checks: &mut Checks) {
    let journal = File::of("startstopstartflushstopstartrinsestopstartdrainstop");
    let groups = [
        ("start(flush|drain)?stop", "start(flush|drain)?stop\ntotal 3\n9\n23\n51\n"),
        ("start((flush|drain))?stop", "start((flush|drain))?stop\ntotal 3\n9\n23\n51\n"),
        ("start(flush|(drain)?)?stop", "start(flush|(drain)?)stop\ntotal 3\n9\n23\n51\n"),
        ("start((flush)?(rinse)?)?stop", "start(flush)?(rinse)?stop\ntotal 3\n9\n23\n37\n"),
        ("(stop)?", "(stop)?\ntotal 52\n0\n1\n2\n"),
        ("(flush|drain)??", "refused 2 at 14\n"),
    ];
    for (rule, begins) in groups {
        checks.beside("an optional group", &File::of(rule), &journal, begins);
    }
    let nine_deep = (0..9).fold("a".to_string(), |inner, _| format!("({inner}b)?"));
    checks.beside("nine optional groups in one another", &File::of(nine_deep), &journal, "refused 4\n");
}

/// Left out, once and more often round; written with the body that it has, and a first round before it for `+`; and what is refused.
fn repeated_groups(checks: &mut Checks) {
    let journal = File::of("startstopstartflushflushstopstartflushdrainstopstartrinsestop");
    let groups = [
        ("start(flush|drain)*stop", "start((flush|drain))*stop\ntotal 3\n9\n28\n47\n"),
        ("start(flush)*stop", "start(flush)*stop\ntotal 2\n9\n28\n"),
        ("start(flush|drain)+stop", "start(flush|drain)((flush|drain))*stop\ntotal 2\n28\n47\n"),
        ("start(flush(drain)*)+stop", "startflush(drain)*(flush(drain)*)*stop\ntotal 2\n28\n47\n"),
        ("start((flush)*(drain)*)?stop", "start(flush)*(drain)*stop\ntotal 3\n9\n28\n47\n"),
        ("(stop)*", "(stop)*\ntotal 62\n0\n1\n2\n"),
        ("(flush|drain){2}", "refused 2 at 13\n"),
        ("(flush|drain)**", "refused 2 at 14\n"),
    ];
    for (rule, begins) in groups {
        checks.beside("a repeated group", &File::of(rule), &journal, begins);
    }
    let nested = |count: usize, sign: &str| File::of("(".repeat(count) + "a" + &format!("){sign}").repeat(count));
    checks.beside("eight repeated groups in one another", &nested(8, "*"), &journal, "((((((((a)*)*)*)*)*)*)*)*\ntotal 62\n");
    checks.beside("nine", &nested(9, "*"), &journal, "refused 4\n");
    checks.beside("seven doubled", &nested(7, "+"), &journal, "a(a)*(a(a)*)*(a(a)*(a(a)*)*)*");
    checks.beside("eight doubled", &nested(8, "+"), &journal, "refused 3\n");
    checks.beside("three hundred doubled", &nested(300, "+"), &journal, "refused 3\n");
}

/// A rule whose plain writing is just so long: a class many times, and letters.
fn written(length: usize) -> Vec<u8> {
    let class = "[!#%'13579ACEGIKMOQSUWYacegikmoqsuwy\\x00\\x02\\x04\\x06\\x08\\x10\\x12\\x14\\x16]";
    let rule = format!("{class}{{{}}}{}", length / class.len(), "a".repeat(length % class.len()));
    assert_eq!(writing(&parse(rule.as_bytes()).expect("a rule")).len(), length);
    rule.into_bytes()
}

fn limits(checks: &mut Checks) {
    let class = |length: usize| File::of([&b"["[..], &vec![b'a'; length - 2], b"]"].concat());
    checks.beside("a rule of 1,024 bytes", &class(1024), &File::of("aba"), "a\ntotal 2\n");
    for length in [1025, 1026, 5000] {
        checks.beside("a rule that is too long", &class(length), &File::of("aba"), "refused 1\n");
    }
    let journal = |length: usize| File::of(vec![b'a'; length]);
    checks.beside("a journal of 65,535 bytes", &File::of("ba*|a{7}"), &journal(65535), "(ba*|aaaaaaa)\ntotal 65529\n");
    for length in [65536, 65537, 200_000] {
        checks.beside("a journal that is too long", &File::of("a"), &journal(length), "refused 7\n");
    }
    for total in [999, 1000, 1001, 40000] {
        checks.beside("a thousand ends", &File::of("a"), &journal(total), &format!("a\ntotal {total}\n1\n2\n"));
    }
    checks.beside("a writing that just fits", &File::of(written(16384)), &File::of("a"), "[\\x00");
    checks.beside("a writing one byte too long", &File::of(written(16385)), &File::of("a"), "refused 8\n");
    checks.beside("a writing far too long", &File::of(written(20000)), &File::of("a"), "refused 8\n");
    let rules = [("1 before 7", "(".repeat(1025), "1"), ("2 before 7", "(".repeat(1024), "2 at 1024"), ("3 before 7", "a{512}".to_string(), "3")];
    for (what, rule, number) in rules {
        checks.beside(what, &File::of(rule), &journal(65536), &format!("refused {number}\n"));
    }
    let nine_deep = (0..9).fold("a".to_string(), |inner, _| format!("({inner}|b)"));
    checks.beside("4 before 7", &File::of(nine_deep), &journal(65536), "refused 4\n");
    checks.beside("8 before 7", &File::of(written(16385)), &journal(65536), "refused 8\n");
}

fn seeds(checks: &mut Checks) {
    let mut numbers = [0; 9];
    for seed in 0..300 {
        let (mut r, rule) = generated(seed);
        let most = [3, 40, 400, 4000][r.below(4)];
        let journal = parse(&rule).map_or(b"aba".to_vec(), |tree| text(&mut r, &tree, most));
        let expected = desk(&rule, &journal);
        let number = expected.strip_prefix(b"refused ").map_or(0, |rest| usize::from(rest[0] - b'0'));
        numbers[number] += 1;
        checks.same(&format!("seed {seed}"), &File::Bytes(rule), &File::Bytes(journal), &expected);
    }
    println!("desk: from seeds: numbers 0 to 8: {numbers:?}");
}

/// A wrong copy of what is expected must be seen: a byte changed, one more, one less.
fn faults(checks: &mut Checks) {
    let (rule, journal) = (File::of("a"), File::of("aba"));
    let (got, right) = (checks.run(&rule, &journal), b"a\ntotal 2\n1\n3\n");
    checks.note("what is right is seen as right", got == right);
    for place in 0..right.len() {
        let mut wrong = right.to_vec();
        wrong[place] ^= 1;
        checks.note("a changed byte is seen", got != wrong);
        checks.note("a lost end is seen", got != right[..place]);
    }
    checks.note("a byte too many is seen", got != [&right[..], b"\n"].concat());
}

fn main() {
    let arguments: Vec<String> = std::env::args().collect();
    let [_, vectors, shipped, program, folder] = &arguments[..] else {
        eprintln!("usage: desk VECTORS EXAMPLES PROGRAM FOLDER");
        exit(2);
    };
    let mut checks = Checks::new("desk", program, folder);
    checks.part("shipped examples", |c| examples(c, Path::new(shipped)));
    checks.part("outside vectors", |c| outside(c, Path::new(vectors)));
    checks.part("faults planted in copies of an answer", faults);
    checks.part("files", files);
    checks.part("places", places);
    checks.part("dots", dots);
    checks.part("optional groups", optional_groups);
    checks.part("repeated groups", repeated_groups);
    checks.part("limits", limits);
    checks.part("rules and journals from seeds", seeds);
    checks.end();
}
