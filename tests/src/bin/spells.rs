//! The spellings of the speed table. Usage: spells FOLDER, which writes for each row a folder NAME with the files image, text, end and answer (the result
//! of the proposer, by the independent program), and prints the lines `NAME COUNT`, how many states the proposal has.

use outside_checks::independent::{depth, image, latest_starts, parse, proposed, states};
use std::fs;
use std::path::Path;

const LENGTH: usize = 65535;

/// Unions nested so deep.
fn nested(depth: usize, letter: &str) -> String {
    (0..depth).fold(letter.to_string(), |inner, _| format!("({inner}|{letter})"))
}

/// Repeated groups nested eight deep.
fn cycles() -> String {
    "(".repeat(8) + "a" + &")*".repeat(8)
}

/// Rules of 512 states that are spelled by `b`, any number of `a` and `c`.
fn rules() -> Vec<(&'static str, String)> {
    vec![
        ("stars", format!("b{}c", ".*".repeat(509))),
        ("options", format!("b{}a*c", "a?".repeat(508))),
        ("unions", format!("b{}{}c", nested(8, "a*").repeat(15), "a*".repeat(14))),
        ("cycles", format!("b{}{}c", cycles().repeat(29), "a*".repeat(16))),
        ("round", "b(a{,507})*c".to_string()),
        ("sparse", "(b.*c|x{505})".to_string()),
    ]
}

/// Texts of one length: spelled whole; by their last 40 bytes; and not at all, though each place but the first could be passed on the way to a start.
fn texts() -> Vec<(&'static str, Vec<u8>)> {
    let text = |before: usize, first: u8| [&vec![b'a'; before][..], &[first], &vec![b'a'; LENGTH - before - 2], b"c"].concat();
    vec![("whole", text(0, b'b')), ("last-40", text(LENGTH - 40, b'b')), ("no-end", text(0, b'a'))]
}

fn main() {
    let folder = std::env::args().nth(1).expect("usage: spells FOLDER");
    for (name, rule) in rules() {
        let tree = parse(rule.as_bytes()).expect("a rule");
        assert!(states(&tree) == 512 && depth(&tree) <= 8, "{name}: {} states", states(&tree));
        let words: Vec<u8> = image(&tree).iter().flat_map(|word| word.to_le_bytes()).collect();
        for (kind, text) in texts() {
            let (number, count) = proposed(&latest_starts(&tree, &text), LENGTH as u64, LENGTH);
            let row = Path::new(&folder).join(format!("{name}-{kind}"));
            let put = |file: &str, bytes: &[u8]| fs::write(row.join(file), bytes).unwrap();
            fs::create_dir_all(&row).unwrap();
            put("image", &words);
            put("text", &text);
            put("end", &(LENGTH as u64).to_le_bytes());
            put("answer", &(number << 32 | count as u64).to_le_bytes());
            println!("{name}-{kind} {count}");
        }
    }
}
