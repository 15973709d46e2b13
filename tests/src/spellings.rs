//! The outside vectors of spellings: a line is one call.

use crate::independent::Proposal;
use crate::{bytes, places, runs, vectors, Runs, Vector};
use std::path::Path;

/// A check: where its line stands, what it is given, and the answer.
pub struct CheckCall {
    pub place: String,
    pub image: Runs,
    pub text: Vec<u8>,
    pub proposal: Proposal,
    pub number: u64,
    pub yes: bool,
}

/// A call of the proposer: where its line stands, what it is given, how many states are lent, and the answer but for the states, which are free.
pub struct ProposeCall {
    pub place: String,
    pub image: Runs,
    pub text: Vec<u8>,
    pub end: u64,
    pub room: usize,
    pub number: u64,
    pub count: usize,
}

pub fn checks(folder: &Path) -> Vec<CheckCall> {
    let of = |(place, line): Vector| {
        let [start, end, number, yes] = [2, 3, 5, 6].map(|i| number(&line[i]));
        let states = places(&line[4]).into_iter().map(|s| u32::try_from(s).expect("a state")).collect();
        CheckCall { place, image: runs(&line[0]), text: bytes(&line[1]), proposal: Proposal { start, end, states }, number, yes: yes == 1 }
    };
    vectors(folder, "check").into_iter().map(of).collect()
}

pub fn proposals(folder: &Path) -> Vec<ProposeCall> {
    let of = |(place, line): Vector| {
        let [end, room, number, count] = [2, 3, 4, 5].map(|i| number(&line[i]));
        ProposeCall { place, image: runs(&line[0]), text: bytes(&line[1]), end, room: room as usize, number, count: count as usize }
    };
    vectors(folder, "propose").into_iter().map(of).collect()
}

fn number(field: &str) -> u64 {
    field.parse().expect("a number")
}
