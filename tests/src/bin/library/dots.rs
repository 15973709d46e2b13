//! Document 02's dot, every byte but 10: by hand, and images from before it, when a dot was every byte, which stay images and are read back as that class.

use crate::checks::{Checks, LONGEST};
use crate::match_ends::seeded;
use crate::read_back::{built, rooms};
use crate::seen::Seen;
use outside_checks::dots::{lines_of, rule_of_now, writing_of_now};
use outside_checks::driver::Answer;
use outside_checks::generate::Random;
use outside_checks::independent::{build, ends, image, parse, parse_with, states, writing, writing_with, Class, Sequence};
use outside_checks::texts::text;
use std::fs;
use std::path::Path;

pub fn all(checks: &mut Checks, examples: &Path) {
    checks.part("dots: plain writings", writings);
    checks.part("dots: images", images);
    checks.part("dots: images from before, of rules from seeds", seeds);
    checks.part("dots: the shipped image from before", |c| shipped(c, examples));
}

/// Only every byte but 10 is written as a dot, however the rule has it; `\.` is the byte.
const WRITINGS: [(&str, &str); 26] = [
    (".", "."),
    (".*", ".*"),
    (".{1,3}", ".?.?."),
    ("(.)+", ".(.)*"),
    ("(.|\\x0A)", "(.|\\x0A)"),
    ("[\\x00-\\x09\\x0B-\\xFF]", "."),
    ("[\\x0b-\\xff\\x00-\\x09]", "."),
    ("[\\x00-\\x08\\x03-\\x09\\x0B-\\xFF]{2}", ".."),
    ("[\\x00-\\xFF]", "[\\x00-\\xFF]"),
    ("[\\x0A-\\xFF\\x00-\\x09]", "[\\x00-\\xFF]"),
    ("[\\x00-\\x09\\x0B-\\xFF\\x0A]", "[\\x00-\\xFF]"),
    ("[\\x00-\\xFF]*", "[\\x00-\\xFF]*"),
    ("(.|[\\x00-\\xFF])?", "(.|[\\x00-\\xFF])?"),
    ("[\\x00-\\x08\\x0A-\\xFF]", "[\\x00-\\x08\\x0A-\\xFF]"),
    ("[\\x00-\\x0A\\x0C-\\xFF]", "[\\x00-\\x0A\\x0C-\\xFF]"),
    ("[\\x01-\\xFF]", "[\\x01-\\xFF]"),
    ("[\\x00-\\xFE]", "[\\x00-\\xFE]"),
    ("[\\x00-\\x09\\x0B-\\xFE]", "[\\x00-\\x09\\x0B-\\xFE]"),
    ("[\\x01-\\x09\\x0B-\\xFF]", "[\\x01-\\x09\\x0B-\\xFF]"),
    ("[\\x00-\\x09]", "[\\x00-\\x09]"),
    ("[\\x0B-\\xFF]", "[\\x0B-\\xFF]"),
    ("\\x0A", "\\x0A"),
    ("[\\x0A]", "\\x0A"),
    ("\\.", "\\."),
    ("[\\.]", "\\."),
    ("\\x2E", "\\."),
];

fn writings(checks: &mut Checks) {
    for (rule, plain) in WRITINGS {
        built(checks, "dots", rule.as_bytes(), plain.as_bytes());
        checks.build("the image of its plain writing", rule.as_bytes(), &Answer::of(0, &build(plain.as_bytes(), LONGEST).image, LONGEST));
    }
}

/// Whole: one letter, with a loop or without, of every byte or of all but 10.
fn images(checks: &mut Checks) {
    for (rule, of_10, repeats, propagate) in [(".", 0, 0, [0; 3]), ("[\\x00-\\xFF]", 2, 0, [0; 3]), (".*", 0, 2, [3, 1, 2]), ("[\\x00-\\xFF]+", 2, 2, [0; 3])] {
        let masks = |entered: u64| (0..256).map(move |byte| if byte == 10 { entered.min(of_10) } else { entered });
        let before = [3, 2, 1, 0, 256].into_iter().chain(masks(2)).chain([256]).chain(masks(repeats));
        let whole: Vec<u64> = before.chain([0, 0, 3]).chain(propagate).chain([0]).collect();
        checks.build("an image, whole", rule.as_bytes(), &Answer::of(0, &whole, 530));
    }
}

// ---- images from before

/// A rule with dots: the tree that it had before and the one that it has now.
struct Moved {
    rule: Vec<u8>,
    before: Sequence,
    now: Sequence,
}

impl Moved {
    fn of(rule: Vec<u8>) -> Moved {
        let before = parse_with(Class::every(), &rule).expect("a rule");
        let now = parse(&rule).expect("a rule");
        Moved { rule, before, now }
    }

    /// Its image from before is read back as the writing of that tree: the one from then, letter by letter as it is written now.
    fn read_back(&self, checks: &mut Checks, what: &str, words: &[u64]) {
        let by_letters = writing_of_now(&writing_with(&Class::every(), &self.before));
        rooms(checks, what, words, &writing(&self.before));
        checks.read_back(&format!("{what}, letter by letter"), words, &Answer::of(0, &by_letters, by_letters.len() + 1));
    }

    /// It finds the ends that it found; the image of now finds its own. Whether one is missing there.
    fn matched(&self, checks: &mut Checks, what: &str, words: &[u64], text: &[u8]) -> bool {
        let (before, now) = (ends(&self.before, text), ends(&self.now, text));
        let what = format!("{what}, text {}", text.escape_ascii());
        checks.match_ends(&what, words, text, &Answer::of(0, &before, before.len() + 1));
        checks.match_ends(&format!("{what}, now"), &image(&self.now), text, &Answer::of(0, &now, now.len() + 1));
        before.iter().any(|end| !now.contains(end))
    }

    /// The same image is built now from the rule with each dot as the class that it was. Whether that is short enough for a rule.
    fn built(&self, checks: &mut Checks, what: &str, words: &[u64]) -> bool {
        let rule = rule_of_now(&self.rule);
        let fits = rule.len() <= 1024;
        if fits {
            checks.build(what, &rule, &Answer::of(0, words, LONGEST));
        }
        fits
    }
}

fn seeds(checks: &mut Checks) {
    let mut seen = Seen::default();
    for seed in 0..2300 {
        let Some((mut r, rule, _)) = seeded(seed) else { continue };
        let moved = Moved::of(rule);
        if moved.before != moved.now {
            seen.tree(&moved.before);
            from_before(checks, &mut seen, &mut r, &format!("seed {seed}, rule {}", moved.rule.escape_ascii()), &moved);
        }
    }
    seen.tell(checks, "images from before", 20);
}

/// Every call takes the image, with texts in which the rule happened.
fn from_before(checks: &mut Checks, seen: &mut Seen, r: &mut Random, what: &str, moved: &Moved) {
    let words = image(&moved.before);
    moved.read_back(checks, what, &words);
    for most in [12, 60, 3 * states(&moved.before)] {
        let length = r.between(1, most);
        let text = text(r, &moved.before, length);
        let missing = moved.matched(checks, what, &words, &text);
        checks.watch_beside(what, &words, words[2] as usize, &text);
        checks.spelling_beside(what, &words, &text);
        seen.note("texts with byte 10", text.contains(&10));
        seen.note("with an end that is none now", missing);
    }
    seen.note("built now with a class for each dot", moved.built(checks, what, &words));
}

/// The image of examples/records from before, as it stands there: it still finds an end across a record's end, which that of now does not.
fn shipped(checks: &mut Checks, examples: &Path) {
    let file = |name: &str| {
        let path = examples.join("records").join(name);
        fs::read(&path).unwrap_or_else(|e| panic!("{}: {e}", path.display()))
    };
    let (moved, journal, listed) = (Moved::of(file("rule")), file("journal"), String::from_utf8_lossy(&file("image-before")).into_owned());
    let words: Vec<u64> = listed.lines().map(|line| u64::from_str_radix(line, 16).unwrap_or(0)).collect();
    checks.same("the shipped image is the one that the rule had", &listed, &lines_of(&image(&moved.before)));
    moved.read_back(checks, "the shipped image", &words);
    let joins = moved.matched(checks, "the shipped image", &words, &journal);
    checks.same("the shipped image joins records", joins, true);
    moved.built(checks, "the shipped image", &words);
}
