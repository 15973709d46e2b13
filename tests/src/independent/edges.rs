//! The edges of a tree, and what is reached by those without a letter.

use super::states::{states, Parts};
use super::{Class, Item};

/// For each state whether it is live.
pub type Live = Vec<bool>;

/// The edges that leave each state: with a letter, its loop among them, and without one.
pub struct Edges<'a> {
    pub letters: Vec<Vec<(&'a Class, usize)>>,
    pub free: Vec<Vec<usize>>,
}

impl<'a> Edges<'a> {
    pub fn of(tree: &'a [Item]) -> Edges<'a> {
        let (parts, m) = (Parts::of(tree), states(tree));
        let mut edges = Edges { letters: vec![Vec::new(); m], free: vec![Vec::new(); m] };
        for letter in &parts.letters {
            let to = letter.from + 1;
            edges.letters[letter.from].push((letter.class, to));
            if letter.repeat.loops() {
                edges.letters[to].push((letter.class, to));
            }
        }
        for union in &parts.unions {
            for (start, end) in &union.alternatives {
                edges.free[union.start].push(*start);
                edges.free[*end].push(union.end);
            }
        }
        for (_, (from, to)) in parts.propagate().into_iter().chain(parts.back()) {
            edges.free[from].push(to);
        }
        edges
    }

    /// All that these states reach by edges without a letter.
    pub fn reached(&self, mut left: Vec<usize>) -> Live {
        let mut reached = vec![false; self.free.len()];
        while let Some(state) = left.pop() {
            if !std::mem::replace(&mut reached[state], true) {
                left.extend(&self.free[state]);
            }
        }
        reached
    }
}
