//! The states of a tree: how many, how deep, and where its letters and unions lie among them.

use super::{Class, Item, Mark, Repeat, Sequence};

pub fn depth(sequence: &[Item]) -> usize {
    let of = |item: &Item| match item {
        Item::Letter(..) => 0,
        Item::Union(_, alternatives) => 1 + alternatives.iter().map(|a| depth(a)).max().unwrap_or(0),
    };
    sequence.iter().map(of).max().unwrap_or(0)
}

pub fn states(sequence: &[Item]) -> usize {
    1 + length(sequence)
}

/// How many states a sequence adds to the one that it starts in.
fn length(sequence: &[Item]) -> usize {
    let of = |item: &Item| match item {
        Item::Letter(..) => 1,
        Item::Union(_, alternatives) => 1 + alternatives.iter().map(|a| 1 + length(a)).sum::<usize>(),
    };
    sequence.iter().map(of).sum()
}

/// Whether a sequence spells the empty text.
pub fn can_be_empty(sequence: &[Item]) -> bool {
    sequence.iter().all(|item| match item {
        Item::Letter(_, repeat) => repeat.skips(),
        Item::Union(mark, alternatives) => mark.skips() || alternatives.iter().any(|a| can_be_empty(a)),
    })
}

/// All unions of a tree with this mark: the alternatives of each.
pub fn marked(tree: &[Item], wanted: Mark) -> Vec<&[Sequence]> {
    let of = |item| match item {
        &Item::Letter(..) => Vec::new(),
        Item::Union(mark, alternatives) => {
            let here = (*mark == wanted).then_some(&alternatives[..]);
            here.into_iter().chain(alternatives.iter().flat_map(|a| marked(a, wanted))).collect()
        }
    };
    tree.iter().flat_map(of).collect()
}

/// The classes of all letters of a tree.
pub fn classes(tree: &[Item]) -> Vec<&Class> {
    Parts::of(tree).letters.into_iter().map(|letter| letter.class).collect()
}

/// A letter from a state to the next.
pub struct Letter<'a> {
    pub class: &'a Class,
    pub repeat: Repeat,
    pub from: usize,
    depth: usize,
}

/// A union, and the first and the last state of each of its alternatives.
pub struct Union {
    pub start: usize,
    pub alternatives: Vec<(usize, usize)>,
    pub end: usize,
    pub depth: usize,
    mark: Mark,
    can_be_empty: bool,
}

/// All letters and unions of a tree.
pub struct Parts<'a> {
    pub letters: Vec<Letter<'a>>,
    pub unions: Vec<Union>,
}

impl<'a> Parts<'a> {
    pub fn of(tree: &'a [Item]) -> Parts<'a> {
        let mut parts = Parts { letters: Vec::new(), unions: Vec::new() };
        assert_eq!(parts.lay(tree, 0, 0) + 1, states(tree));
        parts
    }

    /// A sequence from a state on; the state in which it ends.
    fn lay(&mut self, sequence: &'a [Item], start: usize, depth: usize) -> usize {
        let mut state = start;
        for item in sequence {
            match item {
                Item::Letter(class, repeat) => {
                    self.letters.push(Letter { class, repeat: *repeat, from: state, depth });
                    state += 1;
                }
                Item::Union(mark, alternatives) => state = self.lay_union(*mark, alternatives, state, depth),
            }
        }
        state
    }

    fn lay_union(&mut self, mark: Mark, sequences: &'a [Sequence], start: usize, depth: usize) -> usize {
        let (mut alternatives, mut state) = (Vec::new(), start);
        for sequence in sequences {
            let first = state + 1;
            state = self.lay(sequence, first, depth + 1);
            alternatives.push((first, state));
        }
        let end = state + 1;
        let can_be_empty = mark.skips() || sequences.iter().any(|s| can_be_empty(s));
        self.unions.push(Union { start, alternatives, end, depth, mark, can_be_empty });
        end
    }

    /// The propagate edges, each with its depth.
    pub fn propagate(&self) -> Vec<(usize, (usize, usize))> {
        let letters = self.letters.iter().filter(|l| l.repeat.skips()).map(|l| (l.depth, (l.from, l.from + 1)));
        letters.chain(self.unions.iter().filter(|u| u.can_be_empty).map(|u| (u.depth, (u.start, u.end)))).collect()
    }

    /// The back edges, each with its depth: that of the group's start and end.
    pub fn back(&self) -> Vec<(usize, (usize, usize))> {
        let repeated = self.unions.iter().filter(|u| u.mark == Mark::Repeated);
        repeated.flat_map(|u| u.alternatives.iter().map(|(start, end)| (u.depth, (*end, *start)))).collect()
    }
}
