//! The proposer: every place of texts from seeds with the independent latest start, lists of states too short, just long enough and longer, places that
//! are no ends, and the order of the checks.

use crate::build::longest;
use crate::checks::Checks;
use crate::match_ends::{seeded, EXAMPLES, LONGEST_TEXT};
use crate::repeated::cycles;
use crate::seen::Seen;
use crate::spelled::{image_of, spelled, Spelled};
use outside_checks::driver::{propose_call, Proposed};
use outside_checks::generate::Random;
use outside_checks::independent::{ends, states, Proposal};
use outside_checks::texts::text;

pub fn all(checks: &mut Checks) {
    checks.part("propose: latest starts by hand", latest);
    checks.part("propose: document 01's examples", examples);
    checks.part("propose: rules and texts from seeds", seeds);
    checks.part("propose: order of the checks", order);
    checks.part("propose: stack", stack);
}

/// Rule, text, end, and the proposal where the rule leaves no choice.
const LATEST: [(&str, &str, u64, u64, &[u32]); 22] = [
    ("a", "aba", 3, 2, &[1]),
    ("a+", "aaa", 3, 2, &[1]),
    ("a{2,3}", "aaaa", 4, 2, &[2, 3]),
    ("aa+b", "xaaab", 5, 2, &[1, 2, 3]),
    ("ab*c", "abcabbc", 7, 3, &[1, 2, 2, 3]),
    ("a.*c", "abacc", 5, 2, &[1, 2, 3]),
    ("(abc|c)", "abc", 3, 2, &[6]),
    ("(c|abc)", "xabc", 4, 3, &[2]),
    ("(ab|a+b*c)", "aabc", 4, 1, &[5, 6, 7]),
    ("x(ab)?y", "xaby", 4, 0, &[1, 3, 4, 6]),
    ("(ab)?y", "aby", 3, 2, &[5]),
    ("x(ab)*y", "xababy", 6, 0, &[1, 3, 4, 3, 4, 6]),
    ("(ab)*y", "ababy", 5, 4, &[5]),
    ("(ab)+y", "ababy", 5, 2, &[1, 2, 7]),
    ("x(a|b)+y", "xaby", 4, 0, &[1, 3, 11, 14]),
    ("x((a)*b)*y", "xbaby", 5, 0, &[1, 6, 4, 6, 8]),
    ("x(a?)*y", "xxaay", 5, 1, &[1, 3, 3, 5]),
    // what can be empty has no bytes
    ("b?", "ab", 0, 0, &[]),
    ("b?", "ab", 2, 2, &[]),
    ("(a*|bc)", "bcaa", 4, 4, &[]),
    ("(ab)?", "ab", 2, 2, &[]),
    ("(ab)*", "abab", 4, 4, &[]),
];

fn latest(checks: &mut Checks) {
    for (rule, text, end, start, states) in LATEST {
        spelled(checks, rule.as_bytes(), &[text.as_bytes()], &mut |s| {
            let (proposal, expected) = (s.propose(end, text.len()), Proposal { start, end, states: states.to_vec() });
            s.checks.same(&s.name, proposal, Some(expected));
        });
    }
}

/// Places past a text, a little and far, some of which are an end in their low 32 bits.
fn past(length: u64) -> [u64; 8] {
    [length + 1, length + 256, 65_535 + length + 1, (1 << 32) + length, (1 << 32) + 1, 1 << 63, (1 << 63) + length, u64::MAX]
}

fn past_text(s: &mut Spelled) {
    for place in past(s.text.len() as u64) {
        s.propose(place, s.text.len());
    }
}

/// Room for more, just enough, one short, none.
fn every_room(s: &mut Spelled, end: usize) {
    let count = s.count(end).unwrap_or(3);
    for room in [count + 5, count + 1, count, count.saturating_sub(1), 0] {
        s.propose(end as u64, room);
    }
}

fn examples(checks: &mut Checks) {
    for (rule, text, _) in EXAMPLES {
        spelled(checks, rule.as_bytes(), &[text.as_bytes()], &mut |s| {
            (0..=text.len()).for_each(|end| every_room(s, end));
            past_text(s);
        });
    }
}

/// One place of a text, with some room; what kinds there were is noted.
fn at_place(s: &mut Spelled, r: &mut Random, seen: &mut Seen, end: usize) {
    let (length, count) = (s.text.len(), s.count(end));
    let some = count.unwrap_or(0);
    let room = [0, some.saturating_sub(1), some, some, some + 1, length][r.below(6)];
    s.propose(end as u64, room);
    seen.note("no ends", count.is_none());
    seen.note("ends with no bytes", count == Some(0));
    seen.note("spelled by some bytes", some > 0);
    seen.note("over a word's bits of bytes", some > 64);
    seen.note("lists of states too short", room < some);
    seen.note("just long enough", room == some && some > 0);
    seen.note("longer", room > some && some > 0);
}

/// All places of short texts, some of longer ones; and that the ends are those found by backtracking.
fn seeds(checks: &mut Checks) {
    let mut seen = Seen::default();
    for seed in (0..1700).step_by(5).chain((1700..2100).step_by(3)).chain(2100..2300) {
        let Some((mut r, rule, tree)) = seeded(seed) else { continue };
        seen.tree(&tree);
        let texts = [0, 30, 3 * states(&tree)].map(|length| text(&mut r, &tree, length));
        spelled(checks, &rule, &[&texts[0], &texts[1], &texts[2]], &mut |s| {
            let with_start: Vec<u32> = (0..).zip(&s.starts).filter(|(_, start)| start.is_some()).map(|(end, _)| end).collect();
            s.checks.same(&format!("{}: the ends", s.name), &with_start, &ends(&tree, s.text));
            let every = s.text.len() / 40 + 1;
            (r.below(every)..=s.text.len()).step_by(every).for_each(|end| at_place(s, &mut r, &mut seen, end));
            with_start.iter().rev().take(3).for_each(|end| at_place(s, &mut r, &mut seen, *end as usize));
            if seed % 20 == 0 {
                past_text(s);
            }
        });
    }
    seen.tell(checks, "places proposed for", 20);
}

/// Each thing right or wrong with each other: 6, then 7, then 16, then 17.
fn order(checks: &mut Checks) {
    let image = image_of(b"a{64}b?");
    let mut damaged = image.clone();
    *damaged.last_mut().expect("a word") ^= 1;
    for (is_image, words) in [(true, &image[..]), (false, &damaged), (false, &image[1..]), (false, &[])] {
        let lengths = [64, 300, LONGEST_TEXT, LONGEST_TEXT + 1];
        for (length, end) in lengths.into_iter().flat_map(|n| [0, 63, 64, 300, n, n + 1].map(|end| (n, end as u64))) {
            for room in [0, 63, 64, 65] {
                let right = [(is_image, 6), (length <= LONGEST_TEXT, 7), (end >= 64 && end <= length as u64, 16), (room >= 64, 17)];
                let refused = right.iter().find(|(is_right, _)| !is_right).map(|(_, number)| (*number, 0));
                let what = format!("image {is_image}, {length} bytes, end {end}, room for {room}");
                checks.propose(&what, words, &vec![b'a'; length], end, &Proposed::of(refused.unwrap_or((0, 64)), room));
            }
        }
    }
}

fn stack(checks: &mut Checks) {
    let rules = [&b"a"[..], b"ba*c", b"A(AB|B?)(B?.*|AB)C", &longest(), &b"a*".repeat(511), &cycles(), b"b((a)*)*c"].map(image_of);
    let long = [&b"b"[..], &[b'a'; 998], b"c"].concat();
    let texts = [&b""[..], b"a", &[b'a'; 700], &long, &[b'a'; LONGEST_TEXT + 1]];
    let images = rules.into_iter().chain([vec![0; 9], Vec::new()]);
    let calls = images.flat_map(|words| texts.map(|text| propose_call(&words, text, text.len() as u64, text.len())));
    checks.stack("propose", 128 << 10, &calls.collect::<Vec<_>>());
}
