//! The calls of the speed table of build and read back. Usage: calls FOLDER, which writes for each call the files NAME.given and NAME.answer, by the
//! independent program, and prints the lines `OPERATION NAME`. An image that comes with a line `check` has two more: NAME.first and NAME.last, with
//! the first word and the last word of a mask changed.

use outside_checks::independent::{build, image, parse, read_back, Built, LONGEST_IMAGE};
use std::fs;
use std::path::Path;

fn bytes_of(words: &[u64]) -> Vec<u8> {
    words.iter().flat_map(|word| word.to_le_bytes()).collect()
}

/// In brackets up to 1,024 bytes.
fn whole(rule: String) -> String {
    assert!(rule.len() % 2 == 0 && rule.len() <= 1024, "{} bytes", rule.len());
    let around = (1024 - rule.len()) / 2;
    "(".repeat(around) + &rule + &")".repeat(around)
}

/// Unions nested so deep, of 4 states for each and 1 more.
fn nested(depth: usize, letter: &str) -> String {
    (0..depth).fold(letter.to_string(), |inner, _| format!("({inner}|{letter})"))
}

/// So many groups round a letter, each with this sign.
fn groups(count: usize, sign: &str) -> String {
    "(".repeat(count) + "a" + &format!("){sign}").repeat(count)
}

/// Every second byte: as many runs as a class can have.
fn runs() -> String {
    "[".to_string() + &(0..128).map(|i| format!("\\x{:02X}", 2 * i)).collect::<String>() + "]"
}

/// Rules of 1,024 bytes.
fn rules() -> Vec<(&'static str, String)> {
    vec![
        ("letters", "\\.\\-".repeat(255) + "\\x61"),
        ("options", whole("a?".repeat(511))),
        ("stars", whole("a*".repeat(511))),
        ("dots", whole(".".repeat(510) + "\\x61")),
        ("classes", whole("[0-9A-Fa-f]{7}".repeat(73))),
        ("counted", "[ab]{2,4}".repeat(113) + "a{1,59}"),
        ("unions", whole(nested(8, "a").repeat(15) + "a{16}")),
        ("cycles", whole(groups(8, "*").repeat(30) + "\\x61")),
        ("pluses", whole(groups(7, "+") + "a{129}")),
        ("brackets", whole("ab".to_string())),
        ("refused-2", "a".repeat(1023) + "("),
        ("refused-3", "a".repeat(1024)),
        ("refused-3-plus", groups(341, "+")),
    ]
}

/// Images by their rules: of 525 words, and of 4,834. Of `525-stars` and `4834-inner` the check was found to take the proved library longest, before
/// there were cycles; `4834-rounds` has more groups than that, with back edges.
fn images() -> Vec<(&'static str, String)> {
    let deep = |letter: &str| nested(8, letter) + &format!("{letter}{{478}}");
    vec![
        ("525-a", "a".to_string()),
        ("525-letters", "a{63}".to_string()),
        ("525-runs", runs() + "{63}"),
        ("525-stars", "a*".repeat(63)),
        ("4834-letters", deep("a")),
        ("4834-dots", deep(".")),
        ("4834-runs", deep(&runs())),
        ("4834-stars", nested(8, "a") + &"a*".repeat(478)),
        ("4834-unions", nested(8, "a").repeat(15) + "a{16}"),
        ("4834-cycles", groups(8, "*").repeat(30) + "a"),
        ("4834-rounds", (0..7).fold("(a*)*".repeat(161), |inner, _| format!("(a*|{inner})"))),
        ("4834-inner", (0..7).fold("(a*|a*)".repeat(96) + "a*a*a*", |inner, _| format!("(a*|{inner})"))),
    ]
}

fn main() {
    let arguments: Vec<String> = std::env::args().collect();
    let [_, folder] = &arguments[..] else { panic!("usage: calls FOLDER") };
    let put = |name: &str, kind: &str, bytes: &[u8]| fs::write(Path::new(folder).join(format!("{name}.{kind}")), bytes).unwrap();
    fs::create_dir_all(folder).unwrap();
    for (name, rule) in rules() {
        let Built { number, place, image } = build(rule.as_bytes(), LONGEST_IMAGE);
        let low = if number == 2 { place } else { image.len() };
        assert_eq!(rule.len(), 1024, "{name}");
        put(name, "given", rule.as_bytes());
        put(name, "answer", &bytes_of(&[&[number << 32 | low as u64], &image[..]].concat()));
        println!("build {name}");
    }
    for (name, rule) in images() {
        let words = image(&parse(rule.as_bytes()).expect("a rule"));
        let (number, writing) = read_back(&words, usize::MAX);
        assert_eq!(name.split('-').next(), Some(&*words.len().to_string()), "{name}");
        put(name, "given", &bytes_of(&words));
        put(name, "answer", &[bytes_of(&[number << 32 | writing.len() as u64]), writing].concat());
        println!("readback {name}");
    }
    for (name, rule) in images() {
        let words = image(&parse(rule.as_bytes()).expect("a rule"));
        // without depths the last word is the count of the back edges, which is looked at before any mask
        let last = words.len() - if words[3] == 0 { 2 } else { 1 };
        for (kind, place) in [("first", 0), ("last", last)] {
            let mut changed = words.clone();
            changed[place] ^= 1;
            put(name, kind, &bytes_of(&changed));
        }
        println!("check {name}");
    }
}
