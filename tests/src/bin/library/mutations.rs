//! The check of proposals from seeds: the proposer's, ways through a text by chance, and each of them with one thing changed, which most often makes it
//! wrong.

use crate::checks::Checks;
use crate::match_ends::seeded;
use crate::seen::Seen;
use crate::spelled::{spelled, Spelled};
use outside_checks::generate::Random;
use outside_checks::independent::Proposal;
use outside_checks::texts::text;

pub fn all(checks: &mut Checks) {
    checks.part("check: proposals from seeds, and one thing changed", seeds);
}

/// A way through the text from a place, at each byte by any of the states that it can enter, until there is none or by chance no more.
fn walk(r: &mut Random, s: &Spelled) -> Proposal {
    let start = r.below(s.text.len() + 1);
    let (mut states, mut before) = (Vec::new(), 0);
    for byte in &s.text[start..] {
        let entered: Vec<usize> = s.checker.entered(before, *byte).collect();
        if entered.is_empty() || r.below(20) == 0 {
            break;
        }
        before = *r.pick(&entered);
        states.push(before as u32);
    }
    Proposal { start: start as u64, end: (start + states.len()) as u64, states }
}

fn seeds(checks: &mut Checks) {
    let mut seen = Seen::default();
    for seed in (0..1700).step_by(12).chain((1700..2100).step_by(4)).chain((2100..2300).step_by(2)) {
        let Some((mut r, rule, tree)) = seeded(seed) else { continue };
        seen.tree(&tree);
        let text = text(&mut r, &tree, 80);
        spelled(checks, &rule, &[&text], &mut |s| {
            let ends: Vec<u64> = (0..=text.len()).filter(|end| s.starts[*end].is_some()).map(|end| end as u64).collect();
            let mut bases: Vec<Proposal> = (0..8).map(|_| walk(&mut r, s)).collect();
            for _ in 0..ends.len().min(4) {
                bases.extend(s.propose(*r.pick(&ends), text.len()));
            }
            for base in bases {
                let right = s.check(&base);
                seen.note("right", right && !base.states.is_empty());
                seen.note("with no bytes", base.states.is_empty());
                seen.note("that stop too early", !right);
                for (how, changed) in [places(&mut r, &base), states(&mut r, &base, s.image[1] as u32)].concat() {
                    let right = s.check(&changed);
                    seen.note(how, true);
                    seen.note("changed and still right", right && changed != base);
                }
            }
        });
    }
    seen.tell(checks, "proposals from seeds", 20);
}

// ---- one thing changed: how, and what becomes of the proposal

/// Places moved, a little and far, both together or one alone.
fn places(r: &mut Random, base: &Proposal) -> Vec<(&'static str, Proposal)> {
    let moved = |start: u64, end: u64| Proposal { start, end, ..base.clone() };
    let (start, end, by) = (base.start, base.end, [1, 2, 256, 65_536, 1 << 32, 1 << 63, r.word()][r.below(7)]);
    let mut all = vec![
        ("start earlier", moved(start.wrapping_sub(1), end)),
        ("start later", moved(start + 1, end)),
        ("end moved", moved(start, end.wrapping_add(by))),
        ("both moved on", moved(start.wrapping_add(by), end.wrapping_add(by))),
        ("both moved back", moved(start.wrapping_sub(1), end.wrapping_sub(1))),
        ("start and end exchanged", moved(end, start)),
        ("start past end", moved(end + 1 + r.below(3) as u64, end)),
        ("the last place", moved(start, u64::MAX)),
        ("as long by 64 bits", moved(u64::MAX - base.states.len() as u64 + 1, 0)),
    ];
    if let [_, rest @ ..] = &base.states[..] {
        all.push(("the first byte and its state left out", Proposal { start: start + 1, end, states: rest.to_vec() }));
    }
    if let [rest @ .., _] = &base.states[..] {
        all.push(("the last byte and its state left out", Proposal { start, end: end - 1, states: rest.to_vec() }));
    }
    all
}

/// States changed, left out, added and exchanged.
fn states(r: &mut Random, base: &Proposal, m: u32) -> Vec<(&'static str, Proposal)> {
    let (length, place) = (base.states.len(), r.below(base.states.len() + 1));
    let with = |change: &dyn Fn(&mut Vec<u32>)| {
        let mut states = base.states.clone();
        change(&mut states);
        Proposal { states, ..base.clone() }
    };
    let any = r.below(m as usize) as u32;
    let mut all = vec![("a state more", with(&|s| s.insert(place, any))), ("the last state once more", with(&|s| s.extend(base.states.last())))];
    if length == 0 {
        return all;
    }
    let (at, other, bit) = (r.below(length), r.below(length), 1 << r.between(9, 31));
    let past = [m, m + 1, m + 64, 512, 1 << 16, 1 << 31, u32::MAX][r.below(7)];
    all.extend([
        ("a state one up", with(&|s| s[at] += 1)),
        ("a state one down", with(&|s| s[at] = s[at].wrapping_sub(1))),
        ("any other state", with(&|s| s[at] = any)),
        ("a state at or past m", with(&|s| s[at] = past)),
        ("a state with a high bit", with(&|s| s[at] |= bit)),
        ("state 0", with(&|s| s[at] = 0)),
        ("a state left out", with(&|s| s.splice(at..=at, []).for_each(drop))),
        ("two states exchanged", with(&|s| s.swap(at, other))),
        ("a state as the one beside it", with(&|s| s[at] = s[other])),
        ("no states", with(&|s| s.clear())),
    ]);
    all
}
