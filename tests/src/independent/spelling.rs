//! Spellings: whether a proposal is right, by the tree's edges, one sentence of the wish after another; and the latest start of every end, by places on
//! the tree, where there are no states at all.

use super::edges::Edges;
use super::{tree_of, Class, Item, Mark};
use std::collections::BTreeMap;

/// What any tool may propose: a start, an end, and for each byte between them the state that it enters.
#[derive(Clone, PartialEq, Eq, Debug)]
pub struct Proposal {
    pub start: u64,
    pub end: u64,
    pub states: Vec<u32>,
}

/// The edges of a tree, and for each state all that it reaches without a letter, itself among them.
pub struct Checker<'a> {
    edges: Edges<'a>,
    reached: Vec<Vec<usize>>,
}

impl<'a> Checker<'a> {
    pub fn of(tree: &'a [Item]) -> Checker<'a> {
        let edges = Edges::of(tree);
        let all = |state| edges.reached(vec![state]).iter().enumerate().filter(|(_, is_in)| **is_in).map(|(to, _)| to).collect();
        let reached = (0..edges.free.len()).map(all).collect();
        Checker { edges, reached }
    }

    /// The states that a byte enters by an edge or a loop that leaves a state reached without a letter from the one before.
    pub fn entered(&self, before: usize, byte: u8) -> impl Iterator<Item = usize> + '_ {
        let leaving = self.reached[before].iter().flat_map(|from| &self.edges.letters[*from]);
        leaving.filter(move |(class, _)| class.0[byte as usize]).map(|(_, to)| *to)
    }

    pub fn right(&self, text: &[u8], Proposal { start, end, states }: &Proposal) -> bool {
        if *end > text.len() as u64 || start > end || states.len() as u64 != end - start {
            return false;
        }
        let mut before = 0;
        for (byte, state) in text[*start as usize..*end as usize].iter().zip(states) {
            let Some(state) = self.entered(before, *byte).find(|to| *to == *state as usize) else { return false };
            before = state;
        }
        self.reached[before].contains(&(self.reached.len() - 1))
    }
}

/// The places up to which something is spelled, rising, each with the latest start from which it is.
type Spelled = Vec<(usize, usize)>;

/// The places of both, each with the later start.
fn joined(mut one: Spelled, other: Spelled) -> Spelled {
    one.extend(other);
    one.sort();
    one.dedup_by(|later, kept| {
        let same = later.0 == kept.0;
        kept.1 = if same { later.1 } else { kept.1 };
        same
    });
    one
}

/// After one byte of a class.
fn taken(class: &Class, text: &[u8], before: &Spelled) -> Spelled {
    let takes = |place: usize| text.get(place).is_some_and(|byte| class.0[*byte as usize]);
    before.iter().filter(|(place, _)| takes(*place)).map(|(place, start)| (place + 1, *start)).collect()
}

/// After one byte of a class or more: from each place on up to the next, and past it with the later of the two starts.
fn taken_on(class: &Class, text: &[u8], before: &Spelled) -> Spelled {
    let (mut after, mut carried) = (Spelled::new(), 0);
    for (i, (place, start)) in before.iter().enumerate() {
        let next = before.get(i + 1).map_or(text.len(), |(next, _)| *next);
        let (start, count) = (carried.max(*start), text[*place..next].iter().take_while(|byte| class.0[**byte as usize]).count());
        after.extend((1..=count).map(|n| (place + n, start)));
        carried = if place + count == next { start } else { 0 };
    }
    after
}

/// After any number of rounds of a body. Each round goes on from the places only that the last one reached from a later start than all before it, so
/// that a body which can be empty comes to an end.
fn after_rounds(body: &[Item], text: &[u8], before: Spelled) -> Spelled {
    let mut latest: BTreeMap<usize, usize> = before.iter().copied().collect();
    let mut newer = before;
    while !newer.is_empty() {
        newer = after(body, text, newer);
        newer.retain(|(place, start)| latest.get(place).is_none_or(|known| known < start));
        latest.extend(newer.iter().copied());
    }
    latest.into_iter().collect()
}

fn after_item(item: &Item, text: &[u8], before: Spelled) -> Spelled {
    match item {
        Item::Letter(class, repeat) => {
            let taken = if repeat.loops() { taken_on(class, text, &before) } else { taken(class, text, &before) };
            if repeat.skips() { joined(before, taken) } else { taken }
        }
        Item::Union(Mark::Repeated, bodies) => after_rounds(&bodies[0], text, before),
        Item::Union(mark, alternatives) => {
            let left_out = if mark.skips() { before.clone() } else { Spelled::new() };
            alternatives.iter().fold(left_out, |all, a| joined(all, after(a, text, before.clone())))
        }
    }
}

fn after(sequence: &[Item], text: &[u8], before: Spelled) -> Spelled {
    sequence.iter().fold(before, |spelled, item| after_item(item, text, spelled))
}

/// For each place of a text the largest start with a spelled stretch from there to the place; none where the place is no end.
pub type Starts = Vec<Option<usize>>;

pub fn latest_starts(tree: &[Item], text: &[u8]) -> Starts {
    let mut starts = vec![None; text.len() + 1];
    let spelled = after(tree, text, (0..=text.len()).map(|place| (place, place)).collect());
    spelled.into_iter().for_each(|(place, start)| starts[place] = Some(start));
    starts
}

/// Check: the number, and whether it is a yes.
pub fn check(words: &[u64], text: &[u8], proposal: &Proposal) -> (u64, bool) {
    match tree_of(words) {
        None => (6, false),
        Some(_) if text.len() > 65535 => (7, false),
        Some(tree) => (0, Checker::of(&tree).right(text, proposal)),
    }
}

/// Propose with so many states lent: the number, and how many states the latest start asks for (0 after a refusal).
pub fn propose(words: &[u64], text: &[u8], end: u64, room: usize) -> (u64, usize) {
    let Some(tree) = tree_of(words) else { return (6, 0) };
    if text.len() > 65535 {
        return (7, 0);
    }
    proposed(&latest_starts(&tree, text), end, room)
}

/// The same of an image and a text that is not too long, from the latest starts of its places.
pub fn proposed(starts: &[Option<usize>], end: u64, room: usize) -> (u64, usize) {
    let latest = usize::try_from(end).ok().and_then(|end| starts.get(end).copied().flatten());
    match latest.map(|start| end as usize - start) {
        None => (16, 0),
        Some(count) if count > room => (17, 0),
        Some(count) => (0, count),
    }
}
