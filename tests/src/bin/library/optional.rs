//! Document 02's optional groups by hand: rules and their plain writings, images, states and depths, limits, and what is still refused.

use crate::build::{refused, refused_at, section};
use crate::checks::{Checks, LONGEST};
use crate::read_back::built;
use outside_checks::driver::Answer;
use outside_checks::independent::build;

pub fn all(checks: &mut Checks) {
    checks.part("optional groups: plain writings", writings);
    checks.part("optional groups: images", images);
    checks.part("optional groups: refused", refusals);
    checks.part("optional groups: limits", limits);
}

/// A `?` on what can already be empty is dropped, and brackets round one alternative then vanish.
const WRITINGS: [(&str, &str); 20] = [
    ("(a)?", "(a)?"),
    ("(ab)?", "(ab)?"),
    ("((ab))?", "(ab)?"),
    ("((ab)?)", "(ab)?"),
    ("((ab)?)?", "(ab)?"),
    ("(((((a)?)?)?)?)?", "(a)?"),
    ("(a+)?", "(a+)?"),
    ("(a?b)?", "(a?b)?"),
    ("(a?)?", "a?"),
    ("(a*)?", "a*"),
    ("(a{,2})?", "a?a?"),
    ("x(a?b?)?y", "xa?b?y"),
    ("x((a)?(b)?)?y", "x(a)?(b)?y"),
    ("(flush|drain)?", "(flush|drain)?"),
    ("((a|b)?)?", "(a|b)?"),
    ("((a|b))?", "((a|b))?"),
    ("((a|b)|c)?", "((a|b)|c)?"),
    ("(a?|b)?", "(a?|b)"),
    ("((ab)?|c)?", "((ab)?|c)"),
    ("((a?|b)|c)?", "((a?|b)|c)"),
];

fn writings(checks: &mut Checks) {
    for (rule, plain) in WRITINGS {
        built(checks, "optional", rule.as_bytes(), plain.as_bytes());
        checks.build("the image of its plain writing", rule.as_bytes(), &Answer::of(0, &build(plain.as_bytes(), LONGEST).image, LONGEST));
    }
}

/// One whole; and states and depth, which a group that keeps its `?` counts as a union for.
fn images(checks: &mut Checks) {
    let letters = (0..256).map(|byte| if byte == 97 { 4 } else { 0 });
    let before = [3, 4, 1, 1, 256].into_iter().chain(letters).chain([256]).chain([0; 256]);
    let whole: Vec<u64> = before.chain([3, 4, 1, 2]).chain([3, 4, 4, 8]).chain([6, 9, 1, 8, 0, 0, 0]).chain([2, 0, 0]).collect();
    checks.build("the image of (a)?, whole", b"(a)?", &Answer::of(0, &whole, 540));
    checks.build("room one word short", b"(a)?", &Answer::of(5, &[], 535));
    for (rule, states, depth) in [("a?", 2, 0), ("(a|b)?", 6, 1), ("((a|b))?", 8, 2), ("((a)?b)?", 7, 2), ("((a)?b?)?", 5, 1), ("(a)?(b)?", 7, 1)] {
        let words = checks.build_beside("optional", rule.as_bytes(), LONGEST);
        checks.same(&format!("{rule}: shape"), section(&words, 1), vec![states, 1, depth]);
    }
    let words = checks.build_beside("one chain over two groups and a letter", b"(a)?b?(c|d)?e", LONGEST);
    checks.same("(a)?b?(c|d)?e: propagate", section(&words, 6), vec![0b10_0001_1001, 1, 0b10_0000_0000, 0, 0, 0]);
}

fn refusals(checks: &mut Checks) {
    let two_signs = [("(a)??", 4), ("(a)?*", 4), ("(a)?+", 4), ("(a)?{2}", 4), ("(a?)??", 5), ("((a)?)??", 7), ("a??", 2)];
    let no_group = [("?", 0), ("()?", 1), ("(?)", 1), ("(|a)?", 1), ("(a|)?", 3), ("(a?", 3), ("a)?", 1), ("|(a)?", 0)];
    for (rule, place) in [&two_signs[..], &no_group].concat() {
        checks.build("refused with 2", rule.as_bytes(), &refused_at(place));
    }
}

// ---- limits

/// Optional groups of one alternative nested so deep: three states for each, and one more.
pub fn optionals(count: usize) -> Vec<u8> {
    (1..count).fold(b"(a)?".to_vec(), |inner, _| [b"(", &inner[..], b"b)?"].concat())
}

/// So many brackets, each with `?`, all but the innermost of which are dropped.
pub fn dropped(count: usize, inner: &str) -> Vec<u8> {
    [&vec![b'('; count], inner.as_bytes(), &b")?".repeat(count)].concat()
}

/// 512 states, eight deep: twenty times eight optional groups in one another, and one more of so many letters as are left.
pub fn most() -> Vec<u8> {
    [optionals(8).repeat(20), b"(a{29})?".to_vec()].concat()
}

fn limits(checks: &mut Checks) {
    let words = checks.build_beside("eight deep", &optionals(8), LONGEST);
    checks.same("eight deep: shape", section(&words, 1), vec![25, 1, 8]);
    checks.build("nine deep", &optionals(9), &refused(4));
    checks.build("170 deep, 511 states", &optionals(170), &refused(4));
    checks.build("171 deep, 514 states", &optionals(171), &refused(3));
    let words = checks.build_beside("512 states", b"(a{509})?", LONGEST);
    checks.same("(a{509})?: shape", section(&words, 1), vec![512, 8, 1]);
    checks.build("513 states", b"(a{510})?", &refused(3));
    built(checks, "161 groups, 512 states, eight deep", &most(), &[&optionals(8).repeat(20)[..], b"(", &[b'a'; 29], b")?"].concat());

    let [a, options] = [&b"(a)?"[..], b"a{,511}"].map(|rule| build(rule, LONGEST).image);
    checks.build("341 brackets, 1,024 bytes", &dropped(341, "a"), &Answer::of(0, &a, LONGEST));
    checks.build("341 brackets, 1,025 bytes", &dropped(341, "aa"), &refused(1));
    checks.build("dropped, 512 states", b"(a{,511})?", &Answer::of(0, &options, LONGEST));
    checks.build("dropped, 513 states", b"(a{,512})?", &refused(3));
}
