//! Texts made by a fixed generator, in which a rule happens, nearly happens and does not.

use crate::generate::{any_byte, Random};
use crate::independent::{Class, Item, Mark, Repeat};

/// A byte of a class, often byte 10 if it has that.
fn byte_of(r: &mut Random, class: &Class) -> u8 {
    let bytes: Vec<u8> = (0..=255).filter(|b| class.0[*b as usize]).collect();
    if class.0[10] && r.one_in(6) {
        return 10;
    }
    *r.pick(&bytes)
}

/// One way to spell a tree, each letter and each group repeated at most three times, an optional union left out one time in three.
pub fn spelled(r: &mut Random, sequence: &[Item], out: &mut Vec<u8>) {
    for item in sequence {
        match item {
            Item::Letter(class, repeat) => {
                let (least, most) = match repeat {
                    Repeat::Once => (1, 1),
                    Repeat::Option => (0, 1),
                    Repeat::Star => (0, 3),
                    Repeat::Plus => (1, 3),
                };
                for _ in 0..r.between(least, most) {
                    out.push(byte_of(r, class));
                }
            }
            Item::Union(Mark::Repeated, bodies) => (0..r.between(0, 3)).for_each(|_| spelled(r, &bodies[0], out)),
            Item::Union(Mark::Optional, _) if r.one_in(3) => {}
            Item::Union(_, alternatives) => {
                let chosen = r.pick(alternatives);
                spelled(r, chosen, out);
            }
        }
    }
}

/// A text of just so many bytes: the rule spelled, spelled but for one byte, cut short, and other bytes, one after another.
pub fn text(r: &mut Random, tree: &[Item], length: usize) -> Vec<u8> {
    let mut text = Vec::new();
    while text.len() < length {
        let mut part = Vec::new();
        spelled(r, tree, &mut part);
        match r.below(5) {
            0 if !part.is_empty() => {
                let at = r.below(part.len());
                part[at] = any_byte(r);
            }
            1 => part.truncate(r.below(part.len() + 1)),
            2 => part = (0..r.between(1, 9)).map(|_| any_byte(r)).collect(),
            _ => {}
        }
        text.extend(part);
    }
    text.truncate(length);
    text
}

/// A text cut into stretches of at most so many bytes, many of one byte and of none.
pub fn cut<'a>(r: &mut Random, text: &'a [u8], most: usize) -> Vec<&'a [u8]> {
    let (mut stretches, mut left) = (Vec::new(), text);
    while !left.is_empty() {
        let lengths = [0, 1, r.between(1, most), r.between(1, most)];
        let (stretch, rest) = left.split_at(lengths[r.below(4)].min(left.len()));
        stretches.push(stretch);
        left = rest;
    }
    stretches.extend((0..r.below(3)).map(|_| left));
    stretches
}
