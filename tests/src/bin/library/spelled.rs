//! A rule's image and a text, with what the independent program knows of them: calls of the proposer and checks beside it.

use crate::checks::Checks;
use outside_checks::driver::{Judged, Proposed};
use outside_checks::independent::{image, latest_starts, parse, proposed, Checker, Item, Proposal, Starts};

pub fn image_of(rule: &[u8]) -> Vec<u64> {
    image(&parse(rule).expect("a rule"))
}

pub struct Spelled<'a> {
    pub checks: &'a mut Checks,
    pub name: String,
    pub checker: &'a Checker<'a>,
    pub image: &'a [u64],
    pub text: &'a [u8],
    pub starts: Starts,
}

impl Spelled<'_> {
    /// A tree, its checker and its image, and a text that is not too long.
    pub fn of<'a>(checks: &'a mut Checks, name: &str, tree: &[Item], checker: &'a Checker, image: &'a [u64], text: &'a [u8]) -> Spelled<'a> {
        let name = format!("{name}, {} bytes of text {}", text.len(), text[..text.len().min(60)].escape_ascii());
        Spelled { checks, name, checker, image, text, starts: latest_starts(tree, text) }
    }

    /// How many states the latest start of a place asks for; none where it is no end.
    pub fn count(&self, end: usize) -> Option<usize> {
        self.starts[end].map(|start| end - start)
    }

    /// The library's check of any proposal, beside the independent checker, whose answer is given back.
    pub fn check(&mut self, proposal: &Proposal) -> bool {
        let (right, states) = (self.checker.right(self.text, proposal), &proposal.states[..proposal.states.len().min(9)]);
        let what = format!("{}, proposed {} to {}, {states:?}..", self.name, proposal.start, proposal.end);
        self.checks.check(&what, self.image, self.text, proposal, &Judged::of((0, right)));
        right
    }

    /// The proposer at a place, with so many states lent; what it proposed, which must get yes from both checkers.
    pub fn propose(&mut self, end: u64, room: usize) -> Option<Proposal> {
        let (what, expected) = (format!("{}, end {end}, room for {room}", self.name), Proposed::of(proposed(&self.starts, end, room), room));
        let proposal = self.checks.propose(&what, self.image, self.text, end, &expected)?.proposal(end)?;
        let right = self.check(&proposal);
        self.checks.same(&format!("{what}: what was proposed is right"), right, true);
        Some(proposal)
    }
}

/// One rule and its texts, each given to `with`.
pub fn spelled(checks: &mut Checks, rule: &[u8], texts: &[&[u8]], with: &mut dyn FnMut(&mut Spelled)) {
    let tree = parse(rule).expect("a rule");
    let (checker, words, name) = (Checker::of(&tree), image(&tree), format!("rule {}", rule.escape_ascii()));
    for text in texts {
        with(&mut Spelled::of(checks, &name, &tree, &checker, &words, text));
    }
}
