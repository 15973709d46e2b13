//! What kinds of trees and calls there were, so that none goes missing.

use crate::checks::Checks;
use outside_checks::independent::{can_be_empty, classes, depth, marked, states, Class, Item, Mark};

/// How many there were of each kind.
#[derive(Default)]
pub struct Seen(Vec<(String, usize)>);

impl Seen {
    pub fn add(&mut self, kind: &str, count: usize) {
        match self.0.iter_mut().find(|(name, _)| name == kind) {
            Some((_, all)) => *all += count,
            None => self.0.push((kind.to_string(), count)),
        }
    }

    /// One more of a kind, if it is one.
    pub fn note(&mut self, kind: &str, is_one: bool) {
        self.add(kind, usize::from(is_one));
    }

    /// A tree, by its size, its widest letters, its optional unions and its repeated groups.
    pub fn tree(&mut self, tree: &[Item]) {
        let (classes, optional, repeated) = (classes(tree), marked(tree, Mark::Optional), marked(tree, Mark::Repeated));
        let mut without = classes.iter().map(|class| (0..256).filter(|byte| !class.0[*byte]).collect::<Vec<_>>());
        self.note("with a dot", classes.contains(&&Class::dot()));
        self.note("with a letter of every byte", classes.contains(&&Class::every()));
        self.note("of every byte but another than 10", without.any(|bytes| bytes.len() == 1 && bytes[0] != 10));
        self.note("with an optional union of one alternative", optional.iter().any(|all| all.len() == 1));
        self.note("of several", optional.iter().any(|all| all.len() > 1));
        self.note("with a repeated group", !repeated.is_empty());
        self.note("whose body can be empty", repeated.iter().any(|body| can_be_empty(&body[0])));
        self.note("in another", repeated.iter().any(|body| !marked(&body[0], Mark::Repeated).is_empty()));
        self.note("over 64 states", states(tree) > 64);
        self.note("over 448 states", states(tree) > 448);
        self.note("eight deep", depth(tree) == 8);
    }

    /// Tells what was seen; there must be enough of each kind.
    pub fn tell(&self, checks: &mut Checks, what: &str, enough: usize) {
        let kinds: Vec<String> = self.0.iter().map(|(kind, count)| format!("{count} {kind}")).collect();
        println!("library: {what}: {}", kinds.join(", "));
        let missing = self.0.iter().find(|(_, count)| *count < enough);
        checks.same(&format!("{what}: a kind of which there are fewer than {enough}"), missing, None);
    }
}
