//! Document 01 and the wishes of document 02 that have landed once more, written independently of the proofs and of the proved code: a parser, an
//! automaton for places of rules, the plain writing, the image, an image's tree by the edges that it shows, ends by backtracking, a watch and spellings
//! by the tree's edges, and the answers. Plain and slow; it shares nothing with the crates.

mod answers;
mod edges;
mod ends;
mod image;
mod place;
mod rules;
mod spelling;
mod states;
mod tree;
mod watch;
mod writing;

pub use answers::{build, desk, match_ends, read_back, refusal, Built};
pub use edges::Edges;
pub use ends::ends;
pub use image::image;
pub use place::place;
pub use rules::{parse, parse_with};
pub use spelling::{check, latest_starts, propose, proposed, Checker, Proposal, Starts};
pub use states::{can_be_empty, classes, depth, marked, states};
pub use tree::tree_of;
pub use watch::{begin, step, Watch, LAST_PLACE};
pub use writing::{writing, writing_with};

#[derive(Clone, Copy, PartialEq, Eq, Debug)]
pub enum Repeat {
    Once,
    Option,
    Star,
    Plus,
}

impl Repeat {
    fn of(skips: bool, loops: bool) -> Repeat {
        match (skips, loops) {
            (false, false) => Repeat::Once,
            (true, false) => Repeat::Option,
            (true, true) => Repeat::Star,
            (false, true) => Repeat::Plus,
        }
    }

    fn skips(self) -> bool {
        matches!(self, Repeat::Option | Repeat::Star)
    }
    fn loops(self) -> bool {
        matches!(self, Repeat::Star | Repeat::Plus)
    }
}

/// The sign that a group keeps in the tree.
#[derive(Clone, Copy, PartialEq, Eq, Hash, Debug)]
pub enum Mark {
    Unmarked,
    Optional,
    Repeated,
}

impl Mark {
    pub fn skips(self) -> bool {
        match self {
            Mark::Unmarked => false,
            Mark::Optional | Mark::Repeated => true,
        }
    }
}

/// A set of bytes.
#[derive(Clone, PartialEq, Eq, Debug)]
pub struct Class(pub [bool; 256]);

impl Class {
    fn none() -> Class {
        Class([false; 256])
    }
    fn one(byte: u8) -> Class {
        let mut class = Class::none();
        class.0[byte as usize] = true;
        class
    }
    /// Every byte, which `.` was before Wish 4.
    pub fn every() -> Class {
        Class([true; 256])
    }
    /// What `.` is: every byte but 10.
    pub fn dot() -> Class {
        let mut class = Class::every();
        class.0[10] = false;
        class
    }
}

/// A repeated group is a union whose one alternative is its body.
#[derive(Clone, PartialEq, Eq, Debug)]
pub enum Item {
    Letter(Class, Repeat),
    Union(Mark, Vec<Sequence>),
}

pub type Sequence = Vec<Item>;

/// The most states that a tree may have, and the most depths below its own.
pub const MOST_STATES: usize = 512;
pub const MOST_DEPTH: usize = 8;

/// The length of the longest image.
pub const LONGEST_IMAGE: usize = 4834;

const SIGNS: &[u8] = b"\\|()[]{}?*+.";

fn is_plain(byte: u8) -> bool {
    (33..=126).contains(&byte) && !SIGNS.contains(&byte)
}
