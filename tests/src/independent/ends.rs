//! Ends by backtracking: from every place of the text a search tries each way to spell the rule, and notes where the whole of it is spelled.

use super::{Class, Item, Mark, Repeat};

/// Where a search stands in the tree.
enum Point<'a> {
    /// a letter, and where the search goes on after it
    Letter(&'a Class, Repeat, usize),
    /// a union: where its alternatives begin, and where the search goes on if it is left out, or after its last round
    Choice(Vec<usize>),
    /// the whole rule is spelled
    Spelled,
}

/// The points of a sequence that goes on at `next`; where it begins.
fn lay<'a>(sequence: &'a [Item], mut next: usize, points: &mut Vec<Point<'a>>) -> usize {
    for item in sequence.iter().rev() {
        let here = points.len();
        match item {
            Item::Letter(class, repeat) => points.push(Point::Letter(class, *repeat, next)),
            Item::Union(mark, alternatives) => {
                points.push(Point::Choice(Vec::new()));
                // after a round of a repeated group the choice is there again
                let after = if *mark == Mark::Repeated { here } else { next };
                let begins = alternatives.iter().map(|a| lay(a, after, points));
                points[here] = Point::Choice(begins.chain(mark.skips().then_some(next)).collect());
            }
        }
        next = here;
    }
    next
}

/// Every place at which a spelled stretch of the text stops. What is to be tried is a point and a place; each such pair is tried once, or the search
/// would take exponential time.
pub fn ends(sequence: &[Item], text: &[u8]) -> Vec<u32> {
    let mut points = vec![Point::Spelled];
    let first = lay(sequence, 0, &mut points);
    let places = text.len() + 1;
    let mut tried = vec![false; points.len() * places];
    let mut left: Vec<(usize, usize)> = (0..places).map(|at| (first, at)).collect();
    while let Some((point, at)) = left.pop() {
        if std::mem::replace(&mut tried[point * places + at], true) {
            continue;
        }
        match &points[point] {
            Point::Spelled => {}
            Point::Choice(ways) => left.extend(ways.iter().map(|way| (*way, at))),
            Point::Letter(class, repeat, next) => {
                if repeat.skips() {
                    left.push((*next, at));
                }
                if text.get(at).is_some_and(|byte| class.0[*byte as usize]) {
                    left.push((*next, at + 1));
                    if repeat.loops() {
                        left.push((point, at + 1));
                    }
                }
            }
        }
    }
    (0..places).filter(|at| tried[*at]).map(|at| at as u32).collect()
}
