//! The check of a spelling: proposals right and wrong by hand, all of small rules and texts, places of any size, and the order of the checks.

use crate::build::longest;
use crate::checks::Checks;
use crate::match_ends::LONGEST_TEXT;
use crate::repeated::cycles;
use crate::spelled::{image_of, spelled};
use outside_checks::driver::{check_call, Judged};
use outside_checks::independent::{ends, parse, Proposal};

pub fn all(checks: &mut Checks) {
    checks.part("check: examples", examples);
    checks.part("check: every proposal of small rules and texts", every_proposal);
    checks.part("check: places", places);
    checks.part("check: order of the checks", order);
    checks.part("check: stack", stack);
}

fn proposal(start: u64, end: u64, states: &[u32]) -> Proposal {
    Proposal { start, end, states: states.to_vec() }
}

/// Rule, text, start, end, states, and whether it is right.
const EXAMPLES: [(&str, &str, u64, u64, &[u32], bool); 54] = [
    ("a", "aba", 0, 1, &[1], true),
    ("a", "aba", 2, 3, &[1], true),
    // another byte; state 0, entered by nothing; a state past the accepting one; a list too short and too long
    ("a", "aba", 1, 2, &[1], false),
    ("a", "aba", 0, 1, &[0], false),
    ("a", "aba", 0, 1, &[2], false),
    ("a", "aba", 0, 1, &[], false),
    ("a", "aba", 0, 1, &[1, 1], false),
    ("a", "aba", 0, 0, &[], false),
    // no bytes, for a rule that can be empty; past the text; start past end
    ("a*", "aa", 0, 0, &[], true),
    ("a*", "aa", 2, 2, &[], true),
    ("a*", "aa", 3, 3, &[], false),
    ("a*", "aa", 2, 1, &[], false),
    // by the edge and then the loop; by the loop from the first step on, which a*b's accepting state shows
    ("a*", "aa", 0, 2, &[1, 1], true),
    ("a*b", "aab", 0, 3, &[1, 1, 2], true),
    ("a+", "aa", 0, 2, &[1, 1], true),
    ("aa+", "aaa", 0, 3, &[1, 2, 2], true),
    ("aa+", "aaa", 0, 3, &[1, 1, 2], false),
    // over an option, and into it
    ("a?b", "b", 0, 1, &[2], true),
    ("a?b", "ab", 0, 2, &[1, 2], true),
    ("ab*c", "abbc", 0, 4, &[1, 2, 2, 3], true),
    ("ab*c", "ac", 0, 2, &[1, 3], true),
    ("ab*c", "ac", 0, 2, &[2, 3], false),
    // the last state does not reach the accepting one; the first is not entered from what 0 reaches
    ("ab", "ab", 0, 1, &[1], false),
    ("ab", "ab", 1, 2, &[2], false),
    // a union: 2 and 4 are entered by letters, 1, 3 and 5 without
    ("(a|b)", "b", 0, 1, &[4], true),
    ("(a|b)", "b", 0, 1, &[2], false),
    ("(a|b)", "b", 0, 1, &[3], false),
    ("(a|b)", "b", 0, 1, &[5], false),
    // each byte enters its state, and the second step leaves the other alternative
    ("(ab|ac)", "ac", 0, 2, &[5, 6], true),
    ("(ab|ac)", "ac", 0, 2, &[2, 6], false),
    // the latest start is not the only one
    ("a+b", "aab", 1, 3, &[1, 2], true),
    ("a+b", "aab", 0, 3, &[1, 1, 2], true),
    // an optional group: left out, taken, and left in its middle; its end is entered without a letter
    ("(a)?", "a", 1, 1, &[], true),
    ("(a)?", "a", 0, 1, &[2], true),
    ("(a)?", "a", 0, 1, &[3], false),
    ("x(ab)?y", "xy", 0, 2, &[1, 6], true),
    ("x(ab)?y", "xaby", 0, 4, &[1, 3, 4, 6], true),
    ("x(ab)?y", "xay", 0, 3, &[1, 3, 6], false),
    // a repeated group: left out, once and twice round, broken off, begun in its middle; a round that would begin before the last one's end
    ("(ab)*", "abab", 2, 2, &[], true),
    ("(ab)*", "abab", 0, 2, &[2, 3], true),
    ("(ab)*", "abab", 0, 4, &[2, 3, 2, 3], true),
    ("(ab)*", "abab", 0, 3, &[2, 3, 2], false),
    ("(ab)*", "abab", 1, 2, &[3], false),
    ("(ab)*", "aab", 0, 3, &[2, 2, 3], false),
    ("x(a)*y", "xaay", 0, 4, &[1, 3, 3, 5], true),
    ("x(a)*y", "xaay", 0, 4, &[1, 3, 4, 5], false),
    // with `+` the first round has states of its own
    ("(a)+", "aa", 0, 2, &[1, 3], true),
    ("(a)+", "aaa", 0, 3, &[1, 3, 3], true),
    ("(a)+", "aa", 0, 2, &[1, 1], false),
    ("(a)+", "aa", 0, 2, &[3, 3], false),
    // a body that can be empty; a cycle in another, and past it; a union in a cycle
    ("(a?)*", "aa", 0, 2, &[2, 2], true),
    ("((a)*b)*", "aabb", 0, 4, &[3, 3, 5, 5], true),
    ("((a)*b)*", "aaba", 0, 4, &[3, 3, 5, 3], false),
    ("(a|b)*", "aba", 0, 3, &[3, 5, 3], true),
];

fn examples(checks: &mut Checks) {
    for (rule, text, start, end, states, right) in EXAMPLES {
        let (what, words) = (format!("rule {rule}, text {text}, {start} to {end}, {states:?}"), image_of(rule.as_bytes()));
        checks.check_beside(&what, &words, text.as_bytes(), &proposal(start, end, states));
        checks.check(&what, &words, text.as_bytes(), &proposal(start, end, states), &Judged::of((0, right)));
    }
}

/// All lists of so many states below n.
fn lists(length: usize, n: u32) -> Vec<Vec<u32>> {
    let longer = |lists: Vec<Vec<u32>>, _| lists.iter().flat_map(|list| (0..n).map(|state| [&list[..], &[state]].concat())).collect();
    (0..length).fold(vec![vec![]], longer)
}

/// One that gets yes exists exactly for document 01's ends, and the latest start of those is the proposer's.
fn every_proposal(checks: &mut Checks) {
    for rule in ["a", "b?", "a*b?c+", "a?b*", "(a|b*)", "a(b|a?)", "(ab|a+)", "a(ab)?", "((a)?b)?", "(a)*b", "(ab)*", "(a?b)*", "((a)*b)*", "(a)+"] {
        let (tree, m) = (parse(rule.as_bytes()).expect("a rule"), image_of(rule.as_bytes())[1] as u32);
        for text in ["", "a", "ab", "aab", "bca"] {
            let (mut starts, ends) = (vec![None; text.len() + 1], ends(&tree, text.as_bytes()));
            spelled(checks, rule.as_bytes(), &[text.as_bytes()], &mut |s| {
                for (end, start) in (0..=text.len()).flat_map(|end| (0..=end).map(move |start| (end, start))) {
                    let right = lists(end - start, m + 1).into_iter().filter(|states| s.check(&proposal(start as u64, end as u64, states))).count();
                    starts[end] = if right > 0 { Some(start) } else { starts[end] };
                }
                s.checks.same(&format!("{}: the latest starts", s.name), &starts, &s.starts);
                let with_one: Vec<u32> = (0..).zip(&starts).filter(|(_, start)| start.is_some()).map(|(end, _)| end).collect();
                s.checks.same(&format!("{}: the ends that have one", s.name), &with_one, &ends);
            });
        }
    }
}

/// Every place with every other, with a list as long as their difference by 64 bits and others, small ones and those far past any text.
fn places(checks: &mut Checks) {
    let near = |place: u64| [place.wrapping_sub(1), place, place.wrapping_add(1)];
    let far = [0, 4, 256, 65_535, 1 << 16, 1 << 31, 1 << 32, (1 << 32) + 3, 1 << 63].map(near).concat();
    let long = [b'a'; LONGEST_TEXT];
    spelled(checks, b"a*", &[b"", b"aaaa", &long], &mut |s| {
        for (start, end) in far.iter().flat_map(|start| far.iter().map(move |end| (*start, *end))) {
            let between = end.wrapping_sub(start) % (1 << 32);
            for length in [0, 4, between] {
                if length <= 9 || length == between && between <= 65_536 && s.text.len() == LONGEST_TEXT {
                    s.check(&Proposal { start, end, states: vec![1; length as usize] });
                }
            }
        }
    });
}

/// Each thing right or wrong with each other: 6 comes before 7, and both before any no.
fn order(checks: &mut Checks) {
    let image = image_of(b"a{64}");
    let mut damaged = image.clone();
    *damaged.last_mut().expect("a word") ^= 1;
    let right = Proposal { start: 1, end: 65, states: (1..=64).collect() };
    let proposals = [right.clone(), proposal(1, 65, &[]), proposal(65, 1, &[]), proposal(u64::MAX, 65, &[1]), proposal(65_472, 65_536, &right.states)];
    for (is_image, words) in [(true, &image[..]), (false, &damaged), (false, &image[1..]), (false, &[])] {
        for (length, proposal) in [64, 65, LONGEST_TEXT, LONGEST_TEXT + 1].iter().flat_map(|length| proposals.iter().map(move |p| (*length, p))) {
            let wrong = [(!is_image, 6), (length > LONGEST_TEXT, 7)];
            let number = wrong.iter().find(|(is_wrong, _)| *is_wrong).map_or(0, |(_, number)| *number);
            let yes = number == 0 && length >= 65 && *proposal == right;
            let what = format!("image {is_image}, {length} bytes, {} to {}", proposal.start, proposal.end);
            checks.check(&what, words, &vec![b'a'; length], proposal, &Judged::of((number, yes)));
        }
    }
}

fn stack(checks: &mut Checks) {
    let rules = [&b"a"[..], &longest(), b"A(AB|B?)(B?.*|AB)C", &b"a*".repeat(511), &cycles()].map(image_of);
    let images: Vec<Vec<u64>> = rules.into_iter().chain([vec![0; 9], Vec::new()]).collect();
    let call = |words: &[u64], n: usize| check_call(words, &vec![b'a'; n], &proposal(0, n as u64, &vec![1; n]));
    let calls = images.iter().flat_map(|words| [0, 1, 700].map(|n| call(words, n)));
    checks.stack("check", 64 << 10, &calls.collect::<Vec<_>>());
}
