//! The outside vectors of the watch: a line is an image, a begin and steps.

use crate::independent::Watch;
use crate::{bytes, expand, places, runs, vectors, Runs, Vector};
use std::path::Path;

/// A begin, which has no stretch, or a step: what it is given and lent, and the answer.
pub struct WatchCall {
    pub lent: Watch,
    pub stretch: Option<Vec<u8>>,
    pub room: usize,
    pub number: u64,
    pub total: u64,
    pub ends: Vec<u32>,
    pub after: Watch,
}

/// What is lent to a begin: word i of the mask holds `before(i)`, and the place comes after them.
pub fn lent(words: usize, before: &dyn Fn(usize) -> u64) -> Watch {
    Watch { mask: (0..words).map(before).collect(), place: before(words) }
}

/// Where each line stands, its image and its calls. A vector does not say what the words hold that are lent to a begin; `before` does.
pub fn watches(folder: &Path, before: &dyn Fn(usize) -> u64) -> Vec<(String, Runs, Vec<WatchCall>)> {
    let of = |(place, line): Vector| {
        let (begin, steps) = line[1..].split_at(7);
        assert_eq!(steps.len(), 9 * number(&begin[6]) as usize, "STEPS");
        let lent = lent(number(&begin[0]) as usize, before);
        let after = if begin[5] == "-" { lent.place } else { 0 };
        let calls = std::iter::once(call(lent, None, &begin[1..6], after)).chain(steps.chunks(9).map(step));
        (place, runs(&line[0]), calls.collect())
    };
    vectors(folder, "watch").into_iter().map(of).collect()
}

fn step(fields: &[String]) -> WatchCall {
    let lent = Watch { mask: expand(&runs(&fields[0])), place: number(&fields[1]) };
    call(lent, Some(bytes(&fields[2])), &fields[3..8], number(&fields[8]))
}

/// From the fields ROOM NUMBER TOTAL ENDS MASK, and the place afterwards.
fn call(lent: Watch, stretch: Option<Vec<u8>>, fields: &[String], place: u64) -> WatchCall {
    let mask = if fields[4] == "-" { lent.mask.clone() } else { expand(&runs(&fields[4])) };
    let [room, given_back, total] = [0, 1, 2].map(|i| number(&fields[i]));
    let ends = places(&fields[3]).into_iter().map(|p| p as u32).collect();
    WatchCall { lent, stretch, room: room as usize, number: given_back, total, ends, after: Watch { mask, place } }
}

fn number(field: &str) -> u64 {
    field.parse().expect("a number")
}
