//! Begin and step, one call at a time: masks, places, the order of the checks, lists of ends, and masks that come from no text.

use crate::build::longest;
use crate::checks::{fresh, Checks};
use crate::match_ends::{seeded, LONGEST_TEXT};
use crate::repeated::cycles;
use crate::seen::Seen;
use outside_checks::driver::{begin_call, step_call, Watched};
use outside_checks::generate::Random;
use outside_checks::independent::{image, parse, states, step, Edges, Item, Watch, LAST_PLACE};
use outside_checks::texts::text;

pub fn all(checks: &mut Checks) {
    checks.part("watch: begin", begin);
    checks.part("watch: every bit of a mask alone", bits);
    checks.part("watch: every mask of small rules", every_mask);
    checks.part("watch: places", places);
    checks.part("watch: order of the checks", order);
    checks.part("watch: lists of ends", lists);
    checks.part("watch: another image in the middle", another_image);
    checks.part("watch: steps from any mask and place, from seeds", seeds);
    checks.part("watch: stack", stack);
}

fn image_of(rule: &[u8]) -> Vec<u64> {
    image(&parse(rule).expect("a rule"))
}

/// The image of `a` many times, of just so many states.
fn of_states(m: usize) -> Vec<u64> {
    image_of(format!("a{{{}}}", m - 1).as_bytes())
}

/// On both sides of a word's end.
const SIZES: [usize; 8] = [2, 63, 64, 65, 128, 449, 511, 512];

/// Numbers of words other than those of so many states.
fn other_widths(m: usize) -> Vec<usize> {
    let width = m.div_ceil(64);
    [0, width - 1, width + 1, 8, 9].into_iter().filter(|w| *w != width).collect()
}

/// An answer with no ends that leaves the watch where it was: a refusal, or a stretch of no bytes.
fn unmoved(number: u64, room: usize, lent: &Watch) -> Watched {
    Watched::of(number, &[], room, lent.clone())
}

fn begin(checks: &mut Checks) {
    let letters = [("a", &[][..]), ("b?", &[0]), ("(a|b*)", &[0]), ("a{,200}", &[0]), ("a?b", &[])];
    let groups = [("(ab)?", &[0][..]), ("(ab)*", &[0]), ("(ab)+", &[]), ("(a?)+", &[0])];
    for (rule, first) in letters.into_iter().chain(groups) {
        let words = image_of(rule.as_bytes());
        let (_, watch) = Edges::of(&parse(rule.as_bytes()).expect("a rule")).begin();
        for room in [0, 1, 3] {
            let expected = Watched::of(0, first, room, watch.clone());
            checks.begin(&format!("rule {rule}, room for {room}"), &words, &fresh(watch.mask.len()), &expected);
        }
    }
    for m in SIZES {
        let (mut words, width) = (of_states(m), m.div_ceil(64));
        checks.begin_beside(&format!("{m} states"), &words, &fresh(width), 2);
        for lent in other_widths(m).into_iter().map(fresh) {
            checks.begin(&format!("{m} states, {} words", lent.mask.len()), &words, &lent, &unmoved(9, 2, &lent));
        }
        words[0] = 4;
        for lent in [0, width, 9].map(fresh) {
            checks.begin(&format!("{m} states, damaged, {} words", lent.mask.len()), &words, &lent, &unmoved(6, 2, &lent));
        }
    }
}

/// One bit alone: that of a state is taken, with no bytes and with some; one at or past m is not.
fn bits(checks: &mut Checks) {
    for m in SIZES {
        let (words, width) = (of_states(m), m.div_ceil(64));
        for bit in 0..64 * width {
            let mut watch = Watch { mask: vec![0; width], place: 5 };
            watch.mask[bit / 64] |= 1 << (bit % 64);
            let (number, what) = (if bit < m { 0 } else { 9 }, format!("{m} states, bit {bit}"));
            checks.step(&what, &words, &watch, b"", &unmoved(number, 2, &watch));
            if number == 9 {
                checks.step(&what, &words, &watch, b"a", &unmoved(9, 2, &watch));
            } else {
                checks.step_beside(&what, &words, &watch, b"a", 2);
            }
        }
        for watch in other_widths(m).into_iter().flat_map(|w| [0, 1].map(|word| Watch { mask: vec![word; w], place: 0 })) {
            checks.step(&format!("{m} states, {} words", watch.mask.len()), &words, &watch, b"a", &unmoved(9, 2, &watch));
        }
    }
}

/// At place 0, closed or not, accepting or not: no bytes change nothing and are no end.
fn every_mask(checks: &mut Checks) {
    for rule in ["b?", "a*b?c+", "(a|b*)", "((a|b)|c?)", "((a)?b)?", "((a|b))?", "(a)*", "(ab)*c", "(a|b)*", "((a)*b)*"] {
        let words = image_of(rule.as_bytes());
        for mask in 0..1 << words[1] {
            let (what, lent) = (format!("rule {rule}, mask {mask:x}"), Watch { mask: vec![mask], place: 0 });
            checks.step(&what, &words, &lent, b"", &unmoved(0, 2, &lent));
            for stretch in ["a", "bc", "cxa"] {
                checks.step_beside(&what, &words, &lent, stretch.as_bytes(), 2);
            }
        }
    }
}

/// The rule `a` on so many of its letters: every place is an end.
fn places(checks: &mut Checks) {
    let limit = |place: u64| [place - 2, place - 1, place, place.wrapping_add(1), place.wrapping_add(2)];
    let near = [65_535, 65_536, 1 << 31, LAST_PLACE, LAST_PLACE - LONGEST_TEXT as u64, 1 << 33, 1 << 63, u64::MAX - 2].map(limit);
    for place in near.concat().into_iter().chain([0, 1, LAST_PLACE - 7, u64::MAX, u64::MAX - LONGEST_TEXT as u64 + 1]) {
        for length in [0, 1, 2, 7, LONGEST_TEXT] {
            let (lent, last) = (Watch { mask: vec![1], place }, u128::from(place) + length as u128);
            let expected = if last > u128::from(LAST_PLACE) {
                unmoved(10, 8, &lent)
            } else if length == 0 {
                unmoved(0, 8, &lent)
            } else {
                let ends: Vec<u32> = (place + 1..=last as u64).map(|p| p as u32).collect();
                Watched::of(0, &ends, 8, Watch { mask: vec![3], place: last as u64 })
            };
            checks.step(&format!("place {place}, {length} bytes"), &image_of(b"a"), &lent, &vec![b'a'; length], &expected);
        }
    }
}

/// Each thing right or wrong, in several ways, with each other thing.
fn order(checks: &mut Checks) {
    let image = of_states(65);
    let mut damaged = image.clone();
    *damaged.last_mut().expect("a word") ^= 1;
    let images = [(true, &image[..]), (false, &damaged), (false, &image[1..]), (false, &[])];
    let masks = [(true, &[1, 1][..]), (true, &[0, 0]), (false, &[1, 2]), (false, &[0, 1 << 63]), (false, &[1]), (false, &[1, 0, 0]), (false, &[])];
    for (words, length) in images.iter().flat_map(|i| [0, 1, LONGEST_TEXT, LONGEST_TEXT + 1].map(|length| (i, length))) {
        for (mask, place) in masks.iter().flat_map(|m| [0, LAST_PLACE, LAST_PLACE + 1, u64::MAX].map(|place| (m, place))) {
            first_wrong(checks, *words, length, *mask, place);
        }
    }
}

/// One step of an image or not, so many bytes, a mask or not, a place: the first of 6, 7, 9, 10 that is wrong is given.
fn first_wrong(checks: &mut Checks, (is_image, words): (bool, &[u64]), length: usize, (is_mask, mask): (bool, &[u64]), place: u64) {
    let fits = u128::from(place) + length as u128 <= u128::from(LAST_PLACE);
    let right = [(is_image, 6), (length <= LONGEST_TEXT, 7), (is_mask, 9), (fits, 10)];
    let what = format!("image {is_image}, {length} bytes, mask {mask:x?}, place {place}");
    let (lent, stretch) = (Watch { mask: mask.to_vec(), place }, vec![b'a'; length]);
    match right.iter().find(|(is_right, _)| !is_right) {
        Some((_, number)) => checks.step(&what, words, &lent, &stretch, &unmoved(*number, 3, &lent)),
        None => checks.step_beside(&what, words, &lent, &stretch, 3),
    };
}

/// Longer, just long enough, too short, none.
fn lists(checks: &mut Checks) {
    let (lent, after) = (Watch { mask: vec![1], place: 70_000 }, Watch { mask: vec![3], place: 70_009 });
    let ends = [70_001, 70_003, 70_004, 70_006, 70_009];
    for room in [9, 6, 5, 4, 1, 0] {
        checks.step(&format!("room for {room}"), &image_of(b"a"), &lent, b"abaabaxxa", &Watched::of(0, &ends, room, after.clone()));
    }
}

/// A caller who changes image gets the step's own promise.
fn another_image(checks: &mut Checks) {
    let images = ["a*b?", "(a|b*)c", "A(AB|B?)(B?.*|AB)C", "ab", "((a)*b)*", "(ab)?"].map(|rule| image_of(rule.as_bytes()));
    for first in &images {
        for second in &images {
            let Some(begun) = checks.begin_beside("the first image", first, &fresh(1), 1) else { continue };
            let Some(stepped) = checks.step_beside("the first image", first, &begun.watch, b"abA", 4) else { continue };
            checks.step_beside("the second image", second, &stepped.watch, b"Cabc", 4);
        }
    }
}

// ---- any mask and place

/// A mask for so many states: of no text, of one, or no mask at all.
fn mask(r: &mut Random, tree: &[Item]) -> Vec<u64> {
    let (m, begun) = (states(tree), Edges::of(tree).begin().1.mask);
    let mut mask = vec![0; begun.len()];
    let kind = r.below(10);
    for state in 0..m {
        let is_in = match kind {
            0 => false,
            1 => true,
            2 => begun[state / 64] >> (state % 64) & 1 == 1,
            3 | 4 => r.below(m) == 0,
            _ => r.below(2) == 0,
        };
        mask[state / 64] |= u64::from(is_in) << (state % 64);
    }
    if r.below(3) == 0 {
        mask[0] &= !1;
    }
    match r.below(12) {
        0 if m % 64 > 0 => *mask.last_mut().expect("a word") |= 1 << r.between(m % 64, 63),
        1 => mask.push(0),
        2 => drop(mask.pop()),
        _ => {}
    }
    mask
}

fn any_place(r: &mut Random) -> u64 {
    match r.below(6) {
        0 => 0,
        1 => r.below(100_000) as u64,
        2 => LAST_PLACE - r.below(20) as u64,
        3 => r.word() >> r.below(33),
        _ => r.word() >> 32,
    }
}

fn seeds(checks: &mut Checks) {
    let mut seen = Seen::default();
    for seed in (0..1700).step_by(5).chain((1700..2100).step_by(2)).chain((2100..2300).step_by(2)) {
        let Some((mut r, rule, tree)) = seeded(seed) else { continue };
        seen.tree(&tree);
        let words = image(&tree);
        for _ in 0..10 {
            let (lent, length) = (Watch { mask: mask(&mut r, &tree), place: any_place(&mut r) }, [0, 1, 12, 40][r.below(4)]);
            let stretch = text(&mut r, &tree, length);
            let (number, ends, after) = step(&words, &lent, &stretch);
            let room = [0, ends.len().saturating_sub(1), ends.len(), ends.len() + 1, ends.len() + 9][r.below(5)];
            let what = format!("seed {seed}, rule {}, stretch {}", rule.escape_ascii(), stretch.escape_ascii());
            checks.step(&what, &words, &lent, &stretch, &Watched::of(number, &ends, room, after));
            [0, 9, 10].iter().for_each(|n| seen.note(&format!("given {n}"), number == *n));
            if number == 0 {
                note_mask(&mut seen, &Edges::of(&tree), &lent.mask, stretch.is_empty());
                seen.note("lists of ends too short", room < ends.len());
                seen.note("just long enough", room == ends.len() && room > 0);
                seen.note("longer", room > ends.len() && !ends.is_empty());
            }
        }
    }
    seen.tell(checks, "steps from any mask", 20);
}

fn note_mask(seen: &mut Seen, edges: &Edges, mask: &[u64], no_bytes: bool) {
    let live = edges.live(mask).expect("a mask");
    seen.note("masks of no state", !live.contains(&true));
    seen.note("without state 0", !live[0]);
    seen.note("not closed", !edges.closed(&live));
    seen.note("not closed, with no bytes", !edges.closed(&live) && no_bytes);
    seen.note("accepting, with no bytes", live.ends_with(&[true]) && no_bytes);
}

fn stack(checks: &mut Checks) {
    let images = [image_of(b"a"), image_of(&longest()), image_of(b"A(AB|B?)(B?.*|AB)C"), of_states(65), image_of(&cycles()), vec![0; 9], Vec::new()];
    let width = |words: &[u64]| words.get(2).map_or(0, |w| *w as usize);
    let begins = images.iter().map(|words| begin_call(words, &fresh(width(words)), 100));
    checks.stack("begin", 64 << 10, &begins.collect::<Vec<_>>());
    let watch = |words: &[u64]| Watch { mask: vec![1; width(words)], place: 7 };
    let steps = images.iter().flat_map(|words| [0, 70].map(|length| step_call(words, &watch(words), &vec![b'a'; length], 100)));
    checks.stack("step", 64 << 10, &steps.collect::<Vec<_>>());
}
