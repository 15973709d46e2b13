//! The three operations with document 01's numbers, and the desk program.

use super::{depth, ends, image, parse, place, states, tree_of, writing, LONGEST_IMAGE, MOST_DEPTH, MOST_STATES};

/// What build gives: document 01's number, the place (0 unless the number is 2), and the image (none after a refusal).
pub struct Built {
    pub number: u64,
    pub place: usize,
    pub image: Vec<u64>,
}

/// Build with so many words lent.
pub fn build(rule: &[u8], room: usize) -> Built {
    let refused = |number| Built { number, place: 0, image: Vec::new() };
    if rule.len() > 1024 {
        return refused(1);
    }
    let Some(tree) = parse(rule) else { return Built { place: place(rule), ..refused(2) } };
    if states(&tree) > MOST_STATES {
        return refused(3);
    }
    if depth(&tree) > MOST_DEPTH {
        return refused(4);
    }
    let words = image(&tree);
    if words.len() > room {
        return refused(5);
    }
    Built { number: 0, place: 0, image: words }
}

/// Read back with so many bytes lent: the number and the plain writing.
pub fn read_back(words: &[u64], room: usize) -> (u64, Vec<u8>) {
    match tree_of(words).map(|tree| writing(&tree)) {
        None => (6, Vec::new()),
        Some(written) if written.len() > room => (8, Vec::new()),
        Some(written) => (0, written),
    }
}

/// Match: the number and all ends.
pub fn match_ends(words: &[u64], text: &[u8]) -> (u64, Vec<u32>) {
    match tree_of(words) {
        None => (6, Vec::new()),
        Some(_) if text.len() > 65535 => (7, Vec::new()),
        Some(tree) => (0, ends(&tree, text)),
    }
}

/// The line that a program writes of a refusal: with 2 it has the place.
pub fn refusal(number: u64, place: usize) -> String {
    if number == 2 {
        format!("refused 2 at {place}")
    } else {
        format!("refused {number}")
    }
}

/// What the desk program writes for the contents of its two files.
pub fn desk(rule: &[u8], journal: &[u8]) -> Vec<u8> {
    let refused = |number, place| (refusal(number, place) + "\n").into_bytes();
    let Built { number, place, image } = build(rule, LONGEST_IMAGE);
    if number != 0 {
        return refused(number, place);
    }
    let (number, mut out) = read_back(&image, 16384);
    if number != 0 {
        return refused(number, 0);
    }
    let (number, ends) = match_ends(&image, journal);
    if number != 0 {
        return refused(number, 0);
    }
    out.extend(format!("\ntotal {}\n", ends.len()).bytes());
    out.extend(ends.iter().take(1000).flat_map(|end| format!("{end}\n").into_bytes()));
    out
}
