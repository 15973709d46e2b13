//! Document 02's repeated groups by hand: rules and their plain writings, images, states and depths, back edges, limits, and what is still refused.

use crate::build::{refused, refused_at, section};
use crate::checks::{Checks, LONGEST};
use crate::read_back::built;
use outside_checks::driver::Answer;
use outside_checks::independent::build;

pub fn all(checks: &mut Checks) {
    checks.part("repeated groups: plain writings", writings);
    checks.part("repeated groups: images", images);
    checks.part("repeated groups: refused", refusals);
    checks.part("repeated groups: limits", limits);
}

/// Several alternatives become the body's sole item, `+` is the group and then its `*`, and nothing is dropped but a `?` on what can be empty.
const WRITINGS: [(&str, &str); 34] = [
    ("(a)*", "(a)*"),
    ("(ab)*", "(ab)*"),
    ("((ab))*", "(ab)*"),
    ("((ab)*)", "(ab)*"),
    ("(a|b)*", "((a|b))*"),
    ("((a|b))*", "((a|b))*"),
    ("(((a|b)))*", "((a|b))*"),
    ("((a|b)c)*", "((a|b)c)*"),
    ("(a|b)*c", "((a|b))*c"),
    ("(a?)*", "(a?)*"),
    ("(a*)*", "(a*)*"),
    ("(a+)*", "(a+)*"),
    ("(a{,2})*", "(a?a?)*"),
    ("(a?|b)*", "((a?|b))*"),
    ("((ab)*)*", "((ab)*)*"),
    ("((ab)?)*", "((ab)?)*"),
    ("((a|b)?)*", "((a|b)?)*"),
    ("((ab)*)?", "(ab)*"),
    ("((a|b)*)?", "((a|b))*"),
    ("((ab)*|c)?", "((ab)*|c)"),
    ("((a)*b)?", "((a)*b)?"),
    ("x((a)*b?)?y", "x(a)*b?y"),
    ("(a)+", "a(a)*"),
    ("(ab)+", "ab(ab)*"),
    ("(a|b)+", "(a|b)((a|b))*"),
    ("((a|b))+", "(a|b)((a|b))*"),
    ("(a?)+", "a?(a?)*"),
    ("(a{2})+", "aa(aa)*"),
    ("((a)+)+", "a(a)*(a(a)*)*"),
    ("((a)*)+", "(a)*((a)*)*"),
    ("((a)+)*", "(a(a)*)*"),
    ("((ab)?)+", "(ab)?((ab)?)*"),
    ("((ab)+)?", "(ab(ab)*)?"),
    ("((a?)+)?", "a?(a?)*"),
];

fn writings(checks: &mut Checks) {
    for (rule, plain) in WRITINGS {
        built(checks, "repeated", rule.as_bytes(), plain.as_bytes());
        checks.build("the image of its plain writing", rule.as_bytes(), &Answer::of(0, &build(plain.as_bytes(), LONGEST).image, LONGEST));
    }
}

/// One whole; states and depth, for which a repeated group counts as a union; and the sources and targets of back edges, depth by depth.
fn images(checks: &mut Checks) {
    let letters = (0..256).map(|byte| if byte == 97 { 4 } else { 0 });
    let before = [3, 4, 1, 1, 256].into_iter().chain(letters).chain([256]).chain([0; 256]);
    let whole: Vec<u64> = before.chain([3, 4, 1, 2]).chain([3, 4, 4, 8]).chain([6, 9, 1, 8, 0, 0, 0]).chain([2, 4, 2]).collect();
    checks.build("the image of (a)*, whole", b"(a)*", &Answer::of(0, &whole, 540));
    checks.build("room one word short", b"(a)*", &Answer::of(5, &[], 535));
    checks.build("room for six sections alone", b"(a)*", &Answer::of(5, &[], 533));
    let shapes = [("(ab)*", 5, 1), ("(a|b)*", 8, 2), ("(a)+", 5, 1), ("(ab)+", 7, 1), ("(a|b)+", 13, 2), ("(a?)+", 5, 1), ("((a)+)+", 11, 2)];
    for (rule, states, depth) in shapes {
        let words = checks.build_beside("repeated", rule.as_bytes(), LONGEST);
        checks.same(&format!("{rule}: shape"), section(&words, 1), vec![states, 1, depth]);
    }
    let back: [(&str, &[u64]); 7] = [
        ("a*", &[]),
        ("(a|b)?", &[0, 0]),
        ("(ab)*", &[1 << 3, 1 << 1]),
        ("(a|b)*", &[1 << 6, 1 << 1, 0, 0]),
        ("(a)*(b)*", &[1 << 2 | 1 << 5, 1 << 1 | 1 << 4]),
        ("((a)*b)*", &[1 << 5, 1 << 1, 1 << 3, 1 << 2]),
        ("((a)*)*", &[1 << 4, 1 << 1, 1 << 3, 1 << 2]),
    ];
    for (rule, masks) in back {
        let words = checks.build_beside("back edges", rule.as_bytes(), LONGEST);
        checks.same(&format!("{rule}: back edges"), section(&words, 7), masks.to_vec());
    }
    let words = checks.build_beside("one chain over two groups", b"(a)*(b)*", LONGEST);
    checks.same("(a)*(b)*: propagate", section(&words, 6), vec![0b100_1001, 1, 0b100_0000, 0, 0, 0]);
}

fn refusals(checks: &mut Checks) {
    let numbers = [("(a){2}", 3), ("(a){1}", 3), ("(a){,2}", 3), ("(a){0,1}", 3), ("(a|b){2,3}", 5), ("((a)*){2}", 6)];
    let two_signs = [("(a)**", 4), ("(a)*?", 4), ("(a)*+", 4), ("(a)+*", 4), ("(a)++", 4), ("(a)+?", 4), ("(a)*{2}", 4), ("(a)+{2}", 4)];
    let further = [("((a)*)**", 7), ("a**", 2), ("a+*", 2)];
    let no_group = [("*", 0), ("+", 0), ("()*", 1), ("()+", 1), ("(*)", 1), ("(|a)*", 1), ("(a|)+", 3), ("(a*", 3), ("a)*", 1), ("|(a)*", 0)];
    let no_item = [("(a)*|", 5)];
    for (rule, place) in [&numbers[..], &two_signs, &further, &no_group, &no_item].concat() {
        checks.build("refused with 2", rule.as_bytes(), &refused_at(place));
    }
}

// ---- limits

/// So many groups round a letter, each with this sign. With `*` there are two states for each, and two more.
pub fn groups(count: usize, sign: u8) -> Vec<u8> {
    [&vec![b'('; count][..], b"a", &[b')', sign].repeat(count)].concat()
}

/// 512 states, eight deep: thirty times eight repeated groups in one another, and a letter.
pub fn cycles() -> Vec<u8> {
    [groups(8, b'*').repeat(30), b"a".to_vec()].concat()
}

fn limits(checks: &mut Checks) {
    let words = checks.build_beside("eight deep", &groups(8, b'*'), LONGEST);
    checks.same("eight deep: shape", section(&words, 1), vec![18, 1, 8]);
    checks.build("nine deep", &groups(9, b'*'), &refused(4));
    checks.build("255 deep, 512 states", &groups(255, b'*'), &refused(4));
    checks.build("256 deep, 514 states", &groups(256, b'*'), &refused(3));
    let words = checks.build_beside("512 states", b"(a{509})*", LONGEST);
    checks.same("(a{509})*: shape", section(&words, 1), vec![512, 8, 1]);
    checks.build("513 states", b"(a{510})*", &refused(3));
    built(checks, "240 groups, 512 states, eight deep", &cycles(), &cycles());
    checks.build("240 groups, 513 states", &[cycles(), b"a".to_vec()].concat(), &refused(3));
    doubled(checks);
}

/// Each `+` round another doubles the states, up to far more than a word counts.
fn doubled(checks: &mut Checks) {
    let words = checks.build_beside("seven times `+`", &groups(7, b'+'), LONGEST);
    checks.same("seven times `+`: shape", section(&words, 1), vec![383, 6, 7]);
    for count in (8..80).chain([126, 127, 128, 129, 254, 255, 256, 257, 299, 300, 340, 341]) {
        checks.build(&format!("{count} times `+`"), &groups(count, b'+'), &refused(3));
    }
    checks.build("342 times `+`, 1,027 bytes", &groups(342, b'+'), &refused(1));
    let words = checks.build_beside("511 states", b"(a{254})+", LONGEST);
    checks.same("(a{254})+: shape", section(&words, 1), vec![511, 8, 1]);
    checks.build("513 states", b"(a{255})+", &refused(3));
    checks.build("113 times 999 letters doubled", &b"(a{999})+".repeat(113), &refused(3));
    let inner = groups(7, b'+');
    // Brackets that vanish are open while the copies are made, and must not count.
    let bracketed = [&vec![b'('; 498][..], &inner, &vec![b')'; 498], b"a{129}"].concat();
    let words = checks.build_beside("seven times `+` in 498 brackets, 1,024 bytes, 512 states", &bracketed, LONGEST);
    checks.same("seven times `+` in 498 brackets: shape", section(&words, 1), vec![512, 8, 7]);
    let words = checks.build_beside("seven times `+` in `*`", &[b"(", &inner[..], b")*"].concat(), LONGEST);
    checks.same("seven times `+` in `*`: shape", section(&words, 1), vec![385, 7, 8]);
    checks.build("in two `*`", &[b"((", &inner[..], b")*)*"].concat(), &refused(4));
    // Doubled often enough the last state is 2 less than a multiple of a power of two: in so many bits a few states more would make it small again.
    for count in (8..70).chain(126..131).chain([255, 256, 257]) {
        let inner = groups(count, b'+');
        for rule in [[&inner[..], b"aaa"].concat(), [b"a", &inner[..], b"(b)*"].concat(), [b"((", &inner[..], b")*c)*"].concat()] {
            checks.build(&format!("{count} times `+`, and a few states more"), &rule, &refused(3));
        }
    }
}
