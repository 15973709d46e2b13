//! The independent program against itself, where the documents leave two ways to one answer: rules and their writings, trees and their images, ends by
//! every cut of a short text, how many states nested `+` asks for, and places of rules by completion. Usage: itself

use outside_checks::by_hand::PLACES;
use outside_checks::dots::{rule_of_now, writing_of_now};
use outside_checks::generate::{change, nested, other_mark, short_texts, sized, small, Random};
use outside_checks::independent::{build, depth, ends, image, latest_starts, marked, parse, parse_with, place, states, tree_of, writing, writing_with};
use outside_checks::independent::{Built, Class, Edges, Item, Mark, Repeat, Sequence, LONGEST_IMAGE, MOST_DEPTH, MOST_STATES};
use outside_checks::texts::text;

/// The tree of a rule from a seed below 2,000: small, deep and large ones. None that passes the limits.
fn seeded(seed: u64) -> Option<(Random, Sequence)> {
    let mut r = Random::new(seed);
    let (deep, wanted) = (r.between(1, 8), r.between(60, 512));
    let rule = match seed {
        0..1400 => small(&mut r),
        1400..1900 => nested(&mut r, deep),
        _ => sized(&mut r, wanted, deep),
    };
    let tree = parse(&rule).expect("a rule");
    (states(&tree) <= MOST_STATES && depth(&tree) <= MOST_DEPTH).then_some((r, tree))
}

/// A tree's writing is a rule of it, and its image is nobody else's.
fn round_trips() {
    let (mut trees, mut cycles) = (0, 0);
    for (_, tree) in (0..2000).filter_map(seeded) {
        let written = writing(&tree);
        assert_eq!(parse(&written).as_ref(), Some(&tree), "{}", written.escape_ascii());
        assert_eq!(tree_of(&image(&tree)).as_ref(), Some(&tree), "{}", written.escape_ascii());
        trees += 1;
        cycles += usize::from(!marked(&tree, Mark::Repeated).is_empty());
    }
    println!("itself: {trees} trees, {cycles} of them with a repeated group, come back from their writing and from their image");
}

/// With the dot from before Wish 4 a tree comes back from its writing too; letter by letter as it is written now that is a rule of it, and its writing.
fn writings_before() {
    let (mut trees, every) = (0, Class::every());
    for (_, tree) in (0..2000).filter_map(seeded) {
        let (before, now) = (writing_with(&every, &tree), writing(&tree));
        assert_eq!(parse_with(every.clone(), &before).as_ref(), Some(&tree), "{}", before.escape_ascii());
        assert_eq!(parse(&rule_of_now(&before)).as_ref(), Some(&tree), "{}", before.escape_ascii());
        assert_eq!(writing_of_now(&before), now, "{}", before.escape_ascii());
        trees += usize::from(before != now);
    }
    println!("itself: {trees} of these trees were written otherwise before Wish 4, and come back from that writing too");
}

/// Words are no image, or that of another tree, which has a rule. Whether they are.
fn judged(words: &[u64], tree: &Sequence) -> bool {
    let Some(other) = tree_of(words) else { return false };
    assert!(other != *tree && image(&other) == words, "{}", writing(tree).escape_ascii());
    assert_eq!(parse(&writing(&other)).as_ref(), Some(&other));
    true
}

/// Trees with another mark, which no rule may have: an image gives back the tree exactly if its writing does.
fn other_marks() {
    let (mut trees, mut of_rules) = (0, 0);
    for (mut r, tree) in (0..1900).filter_map(seeded) {
        let Some(other) = other_mark(&mut r, &tree) else { continue };
        let is_one = parse(&writing(&other)).as_ref() == Some(&other);
        assert_eq!(tree_of(&image(&other)).as_ref() == Some(&other), is_one, "{}", writing(&other).escape_ascii());
        trees += 1;
        of_rules += usize::from(is_one);
    }
    println!("itself: {trees} trees with another mark, {of_rules} of them a rule's, judged alike by writing and by image");
}

/// Every bit of the sections after the repeats, their counts' too, turned alone, and fewer of them where masks have several words; then those of two
/// states in both masks of back edges of a depth, which moves, adds or takes away a whole back edge.
fn edge_sections() {
    let (mut single, mut whole, mut images) = (0, 0, 0);
    for (mut r, tree) in (0..2000).step_by(31).filter_map(seeded) {
        let (words, m) = (image(&tree), states(&tree));
        let (width, d) = (m.div_ceil(64), depth(&tree));
        let (scatter, back) = (7 + 512 * width, words.len() - 2 * width * d);
        for (place, bit) in (scatter - 1..words.len()).flat_map(|place| (0..64).map(move |bit| (place, bit))).step_by(width * width) {
            let mut turned = words.clone();
            turned[place] ^= 1 << bit;
            assert!(!judged(&turned, &tree), "{}, bit {bit} of word {place}", writing(&tree).escape_ascii());
            single += 1;
        }
        for _ in 0..if d > 0 { 200 } else { 0 } {
            let (mut turned, at, from) = (words.clone(), back + 2 * width * r.below(d), r.between(1, m - 1));
            let to = r.between(from.saturating_sub(6).max(1), from);
            turned[at + from / 64] ^= 1 << (from % 64);
            turned[at + width + to / 64] ^= 1 << (to % 64);
            images += usize::from(judged(&turned, &tree));
            whole += 1;
        }
    }
    println!("itself: {single} bits of sections of edges turned, no image; {whole} back edges changed, {images} images of another tree");
}

/// Whether a sequence spells a text, by every cut of it between the first item and the others.
fn spells(sequence: &[Item], text: &[u8]) -> bool {
    let Some((first, others)) = sequence.split_first() else { return text.is_empty() };
    (0..=text.len()).any(|cut| item_spells(first, &text[..cut]) && spells(others, &text[cut..]))
}

fn item_spells(item: &Item, text: &[u8]) -> bool {
    match item {
        Item::Letter(class, repeat) => {
            let often = match repeat {
                Repeat::Once => text.len() == 1,
                Repeat::Option => text.len() <= 1,
                Repeat::Star => true,
                Repeat::Plus => !text.is_empty(),
            };
            often && text.iter().all(|byte| class.0[*byte as usize])
        }
        Item::Union(Mark::Unmarked, alternatives) => alternatives.iter().any(|a| spells(a, text)),
        Item::Union(Mark::Optional, alternatives) => text.is_empty() || alternatives.iter().any(|a| spells(a, text)),
        // rounds of no byte add nothing
        Item::Union(Mark::Repeated, bodies) => {
            text.is_empty() || (1..=text.len()).any(|cut| spells(&bodies[0], &text[..cut]) && item_spells(item, &text[cut..]))
        }
    }
}

/// The latest start of each place: by every stretch, on the tree, by its edges and by backtracking.
fn short_ends() {
    let (mut texts, mut found) = (0, 0);
    for (mut r, tree) in (0..1900).filter_map(seeded).filter(|(_, tree)| states(tree) <= 40) {
        for length in [0, 3, 5, 7] {
            let text = text(&mut r, &tree, length);
            let by_cuts: Vec<Option<usize>> = (0..=length).map(|end| (0..=end).rev().find(|start| spells(&tree, &text[*start..end]))).collect();
            let places: Vec<u32> = (0..).zip(&by_cuts).filter(|(_, start)| start.is_some()).map(|(end, _)| end).collect();
            let what = format!("{} on {}", writing(&tree).escape_ascii(), text.escape_ascii());
            let (edges, live) = (Edges::of(&tree), |edges: &Edges, mask: &[u64]| edges.live(mask).expect("a mask"));
            let (first, begun) = edges.begin();
            let later = edges.step(live(&edges, &begun.mask), 0, &text).0;
            assert_eq!(latest_starts(&tree, &text), by_cuts, "{what}");
            assert_eq!(ends(&tree, &text), places, "{what}");
            assert_eq!([first, later].concat(), places, "{what}");
            texts += 1;
            found += places.len();
        }
    }
    println!("itself: {texts} short texts, {found} ends by every cut, on the tree, by edges and by backtracking");
}

/// `+` round `+` round a letter: its accepting state is 1, and then twice the one before and two more.
fn nested_plus() {
    let mut accepting: u128 = 1;
    for count in 1..=341 {
        accepting = (2 * accepting + 2).min(1 << 100);
        let rule = [&vec![b'('; count][..], b"a", &b")+".repeat(count)].concat();
        let Built { number, image, .. } = build(&rule, LONGEST_IMAGE);
        assert_eq!(number, if accepting < 512 { 0 } else { 3 }, "{count} deep");
        assert!(number > 0 || u128::from(image[1]) == accepting + 1, "{count} deep");
    }
    println!("itself: up to 341 times `+` round a letter counted");
}

/// What may come after a beginning, whatever it leaves open: an item, the rest of an escape, of a class, of braces; and what no beginning needs.
const CLOSINGS: [&str; 36] = [
    "", "a", ".", "xFF", "FF", "F", "]", "a]", "~]", "\\xFF]", "xFF]", "FF]", "F]", "}", "1}", "9}", "99}", "999}", ",1}", ",999}", "?", "*", "+", "{1}",
    "|a", "a|a", "|]", "-]", "-~]", "a-~]", "00]", "0]", "0}", ",}", ",9}", "9,99}",
];

/// Whether such a closing and brackets make a rule of a text.
fn completes(text: &[u8]) -> bool {
    let open = text.iter().filter(|byte| **byte == b'(').count();
    let mut brackets = (0..=open).map(|count| vec![b')'; count]);
    brackets.any(|brackets| CLOSINGS.iter().any(|closing| parse(&[text, closing.as_bytes(), &brackets].concat()).is_some()))
}

/// The place of a text: so much of it can be completed to a rule, and not a byte more.
fn judged_place(text: &[u8]) -> usize {
    let place = place(text);
    assert!(completes(&text[..place]), "{}: {place} bytes of it are no beginning", text.escape_ascii());
    assert!(place == text.len() || !completes(&text[..=place]), "{}: more than {place} bytes of it are a beginning", text.escape_ascii());
    place
}

/// Of every short text, and no rule is stuck. One that is stuck before its last byte was judged when it was shorter.
fn places_of_short_texts() {
    let (mut texts, mut beginnings, mut rules) = (0, 0, 0);
    for text in short_texts(1) {
        let place = place(&text);
        if place + 1 >= text.len() {
            judged_place(&text);
        }
        let is_rule = parse(&text).is_some();
        assert!(!is_rule || place == text.len(), "{}: a rule with the place {place}", text.escape_ascii());
        texts += 1;
        beginnings += usize::from(place == text.len());
        rules += usize::from(is_rule);
    }
    println!("itself: {texts} short texts, {beginnings} of them beginnings of a rule, {rules} of these rules: places by an automaton and by completion");
}

/// By hand, and of rules with one byte wrong.
fn places_of_rules() {
    for (rule, by_hand) in PLACES {
        assert_eq!(judged_place(rule.as_bytes()), by_hand, "{rule}");
    }
    let mut stuck = 0;
    for seed in 0..3000 {
        let mut r = Random::new(seed);
        let deep = r.between(1, 8);
        let mut rule = if seed < 2500 { small(&mut r) } else { nested(&mut r, deep) };
        assert_eq!(place(&rule), rule.len(), "{}", rule.escape_ascii());
        change(&mut r, &mut rule);
        stuck += usize::from(judged_place(&rule) < rule.len());
    }
    println!("itself: {} places by hand, and 3000 rules with one byte wrong, {stuck} of them stuck, likewise", PLACES.len());
}

fn main() {
    round_trips();
    writings_before();
    other_marks();
    edge_sections();
    short_ends();
    nested_plus();
    places_of_short_texts();
    places_of_rules();
}
