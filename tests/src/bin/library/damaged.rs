//! Images damaged in every way, images of trees that no rule has, and random words.

use crate::build::{longest, unions};
use crate::checks::Checks;
use crate::damage::{Damage, Tally};
use crate::masks::{sections, Masks};
use crate::match_ends::seeded;
use crate::optional::{most, optionals};
use crate::repeated::{cycles, groups};
use crate::seen::Seen;
use outside_checks::driver::Answer;
use outside_checks::generate::{nested, other_mark, sized, small, Random};
use outside_checks::independent::{depth, ends, image, marked, parse, states, writing, Class, Item, Mark, Repeat, Sequence};
use outside_checks::texts::text;

pub fn all(checks: &mut Checks) {
    checks.part("damage: every bit of eleven images", every_bit);
    checks.part("damage: every bit of seventh sections, and back edges moved", back_sections);
    checks.part("damage: images of rules from seeds", seeds);
    checks.part("damage: images of trees that no rule has or past the limits", ill_formed);
    checks.part("damage: random words", random_words);
}

fn tree_of(rule: &[u8]) -> Sequence {
    parse(rule).expect("a rule")
}

// ---- damage that gives the image of another tree

/// Calls `with` for the letter that ends in a state, if there is one. `at` is the state in which the sequence starts, and then the one in which it ends.
fn letter_to(sequence: &mut [Item], at: &mut usize, state: usize, with: &mut dyn FnMut(&mut Class, Repeat)) {
    for item in sequence {
        if let Item::Union(_, alternatives) = item {
            for alternative in alternatives {
                *at += 1;
                letter_to(alternative, at, state, with);
            }
        }
        *at += 1;
        if let Item::Letter(class, repeat) = item {
            if *at == state {
                with(class, *repeat);
            }
        }
    }
}

/// A byte put into a letter's class or taken out of it, where others are left: in the letters, and in the repeats if the letter loops. Whether there
/// was such a letter.
fn other_class(checks: &mut Checks, r: &mut Random, name: &str, tree: &Sequence) -> bool {
    let (state, mut byte) = (r.between(1, states(tree) - 1), r.below(256));
    let (mut other, mut found) = (tree.clone(), None);
    letter_to(&mut other, &mut 0, state, &mut |class, repeat| {
        let bytes: Vec<usize> = (0..256).filter(|b| class.0[*b]).collect();
        if bytes.len() > 1 && r.below(2) == 0 {
            byte = bytes[r.below(bytes.len())];
        }
        class.0[byte] = !class.0[byte];
        found = class.0.contains(&true).then_some(matches!(repeat, Repeat::Star | Repeat::Plus));
    });
    let Some(loops) = found else { return false };
    let mut masks = Masks::of(&image(tree)).flipped(0, byte, state);
    if loops {
        masks = masks.flipped(1, byte, state);
    }
    let (what, words, plain) = (format!("{name}, byte {byte} for state {state}"), masks.laid(), writing(&other));
    checks.read_back(&what, &words, &Answer::of(0, &plain, plain.len() + 5));
    let text = text(r, &other, 40);
    checks.match_ends(&what, &words, &text, &Answer::of(0, &ends(&other, &text), 9));
    checks.watch_beside(&what, &words, masks.width, &text);
    checks.spelling_beside(&what, &words, &text);
    true
}

// ---- all images

/// Of images without optional unions and repeated groups, and with some: of one alternative and of several, in one another, round a union, one after
/// another.
fn every_bit(checks: &mut Checks) {
    let mut tally = Tally::default();
    for rule in ["a", ".", "(a|b*)", "(a)?", "(a|b*c)?", "((a)?b+)?", "((a|b))?", "(a)?b?(c|d)?", "(a)*", "((a|b))*", "((a)*b?)*(c)?"] {
        let mut damage = Damage::of(checks, &mut tally, rule.to_string(), &tree_of(rule.as_bytes()));
        for place in 0..damage.image.len() {
            (0..64).for_each(|bit| damage.flipped(place, bit));
        }
    }
    println!("library: one bit flipped: {} refused, {} read back as another tree", tally.refused, tally.other);
}

/// Of rules from seeds with a repeated group: small ones, deep ones, and a few of many words.
fn back_sections(checks: &mut Checks) {
    let (mut tally, mut seen) = (Tally::default(), Seen::default());
    for seed in (0..160).chain(1700..1720).chain(2100..2106) {
        let Some((mut r, rule, tree)) = seeded(seed) else { continue };
        if marked(&tree, Mark::Repeated).is_empty() {
            continue;
        }
        seen.tree(&tree);
        let mut damage = Damage::of(checks, &mut tally, format!("seed {seed}, rule {}", rule.escape_ascii()), &tree);
        damage.back_section();
        damage.moved_back_edges(&mut r);
    }
    seen.add("refused", tally.refused);
    seen.add("read back as another tree", tally.other);
    seen.tell(checks, "seventh sections damaged", 1);
}

fn seeds(checks: &mut Checks) {
    let (mut tally, mut seen) = (Tally::default(), Seen::default());
    for seed in 0..140 {
        let mut r = Random::new(seed);
        let (wanted, deep) = match seed {
            0..110 => (0, r.between(6, 8)),
            110..128 => (r.between(60, 200), r.below(9)),
            _ => (r.between(449, 512), r.below(9)),
        };
        let rule = match seed {
            0..80 => small(&mut r),
            80..110 => nested(&mut r, deep),
            _ => sized(&mut r, wanted, deep),
        };
        let (name, tree) = (format!("seed {seed}, rule {}", rule.escape_ascii()), tree_of(&rule));
        if states(&tree) > 512 || depth(&tree) > 8 {
            continue;
        }
        seen.tree(&tree);
        let mut damage = Damage::of(checks, &mut tally, name.clone(), &tree);
        damage.every_kind(&mut r);
        damage.moved_back_edges(&mut r);
        for _ in 0..4 {
            let other = other_mark(&mut r, &tree);
            seen.note("with another mark", other.is_some());
            other.iter().for_each(|other| damage.attempt(&format!("laid as {}", writing(other).escape_ascii()), &image(other)));
        }
        for _ in 0..8 {
            seen.note("with another class", other_class(checks, &mut r, &name, &tree));
        }
    }
    seen.add("refused", tally.refused);
    seen.add("read back as another tree", tally.other);
    seen.tell(checks, "damaged images", 10);
}

/// Trees that no rule has.
fn of_no_rule() -> Vec<(&'static str, Sequence)> {
    let a = || vec![Item::Letter(Class(std::array::from_fn(|b| b == 97)), Repeat::Once)];
    let none = || vec![Item::Letter(Class([false; 256]), Repeat::Once)];
    let union = |alternatives: &[Sequence]| vec![Item::Union(Mark::Unmarked, alternatives.to_vec())];
    let optional = |alternatives: &[Sequence]| vec![Item::Union(Mark::Optional, alternatives.to_vec())];
    let repeated = |bodies: &[Sequence]| vec![Item::Union(Mark::Repeated, bodies.to_vec())];
    vec![
        ("no item", vec![]),
        ("a class of no byte", none()),
        ("a class of no byte after a letter", [a(), none()].concat()),
        ("a class of no byte in a union", union(&[none(), a()])),
        ("a union of one alternative", union(&[a()])),
        ("a union of one alternative between letters", [a(), union(&[a()]), a()].concat()),
        ("a union of one union", union(&[tree_of(b"a|b")])),
        ("a union of one optional union", union(&[tree_of(b"(a)?")])),
        ("a union of one alternative that can be empty", union(&[tree_of(b"a?")])),
        ("an optional union of one alternative that can be empty", optional(&[tree_of(b"a?b*")])),
        ("an optional union of one optional union", optional(&[tree_of(b"(a|b)?")])),
        ("an optional union of one empty alternative", optional(&[vec![]])),
        ("an optional union with an empty alternative", optional(&[a(), vec![]])),
        ("a class of no byte in an optional union", optional(&[none()])),
        ("a union of one repeated group", union(&[tree_of(b"(a)*")])),
        ("an optional union of one repeated group", optional(&[tree_of(b"(a)*")])),
        ("a repeated group of two bodies", repeated(&[a(), tree_of(b"b")])),
        ("a repeated group of two bodies that can be empty", repeated(&[tree_of(b"a?"), tree_of(b"b*")])),
        ("a repeated group of no item", repeated(&[vec![]])),
        ("a repeated group of no item between letters", [a(), repeated(&[vec![]]), a()].concat()),
        ("a repeated group of a union of one alternative", repeated(&[union(&[a()])])),
        ("a class of no byte in a repeated group", repeated(&[none()])),
        ("an empty first alternative", union(&[vec![], a()])),
        ("an empty last alternative", union(&[a(), vec![]])),
        ("an empty alternative between two", union(&[a(), vec![], a()])),
        ("an empty last alternative before a union", [union(&[a(), vec![]]), tree_of(b"(a|b)")].concat()),
    ]
}

/// Trees with too many states or depths.
fn past_limits() -> Vec<(&'static str, Sequence)> {
    vec![
        ("513 states", tree_of(b"a{512}")),
        ("576 states", tree_of(b"a{575}")),
        ("513 states, eight deep", [tree_of(&longest()), tree_of(b"a")].concat()),
        ("513 states in an optional union", tree_of(b"(a{510})?")),
        ("513 states, 161 optional unions", [tree_of(&most()), tree_of(b"a")].concat()),
        ("depth 9", tree_of(&unions(9))),
        ("depth 9 in 512 states", [tree_of(&unions(9)), tree_of(b"a{474}")].concat()),
        ("depth 12", tree_of(&unions(12))),
        ("depth 9 of optional unions", tree_of(&optionals(9))),
        ("depth 170 of optional unions", tree_of(&optionals(170))),
        ("513 states in a repeated group", tree_of(b"(a{510})*")),
        ("513 states, 240 repeated groups", [tree_of(&cycles()), tree_of(b"a")].concat()),
        ("depth 9 of repeated groups", tree_of(&groups(9, b'*'))),
        ("depth 255 of repeated groups", tree_of(&groups(255, b'*'))),
    ]
}

/// Such trees laid out as if they were rules'.
fn ill_formed(checks: &mut Checks) {
    for (what, tree) in of_no_rule().into_iter().chain(past_limits()) {
        checks.read_back(what, &image(&tree), &Answer::of(6, &[], 40));
        checks.match_ends(what, &image(&tree), b"aab", &Answer::of(6, &[], 4));
        checks.watch_beside(what, &image(&tree), states(&tree).div_ceil(64), b"aab");
        checks.spelling_beside(what, &image(&tree), b"aab");
    }
}

/// Words that no rule gave, half of them with a right header and length.
fn random_words(checks: &mut Checks) {
    for seed in 0..2000 {
        let mut r = Random::new(seed);
        let (m, d) = (r.between(2, if seed % 20 == 0 { 512 } else { 70 }), r.below(if seed % 3 == 0 { 9 } else { 2 }));
        let mut words = Masks::empty(m, d).laid();
        let counts: Vec<usize> = sections(&words).iter().map(|s| s.start - 1).chain([1, 2, 3]).collect();
        let (whole, kind) = (r.below(2) == 0, r.below(4));
        for place in 0..words.len() {
            if whole || !counts.contains(&place) {
                words[place] = match kind {
                    0 => r.word(),
                    1 => r.below(m) as u64,
                    2 => u64::from(r.below(600) == 0) << r.below(64),
                    _ => 0,
                };
            }
        }
        if r.below(4) == 0 {
            words.truncate(r.below(20));
        }
        checks.read_back_beside(&format!("random words, seed {seed}"), &words, 64);
        checks.match_beside(&format!("random words, seed {seed}"), &words, b"aab", 4);
        checks.watch_beside(&format!("random words, seed {seed}"), &words, m.div_ceil(64), b"aab");
        checks.spelling_beside(&format!("random words, seed {seed}"), &words, b"aab");
    }
}
