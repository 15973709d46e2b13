//! Damage of one image: what is left is refused with 6 by every call, or it is the image of another tree and each answers for that one.

use crate::checks::{fresh, Checks};
use crate::masks::{sections, Masks, BACK};
use outside_checks::generate::Random;
use outside_checks::independent::{image, parse, writing, Item, Proposal, Watch};
use outside_checks::texts::text;
use std::ops::Range;

/// What damage came to: refused, or the image of another tree.
#[derive(Default)]
pub struct Tally {
    pub refused: usize,
    pub other: usize,
}

/// A sound image, what it is called where something fails, and what its damage comes to.
pub struct Damage<'a> {
    checks: &'a mut Checks,
    tally: &'a mut Tally,
    name: String,
    pub image: Vec<u64>,
    room: usize,
    /// in which the tree's rule happens
    text: Vec<u8>,
}

impl Damage<'_> {
    pub fn of<'a>(checks: &'a mut Checks, tally: &'a mut Tally, name: String, tree: &[Item]) -> Damage<'a> {
        let text = text(&mut Random::new(1), tree, 12);
        Damage { checks, tally, name, image: image(tree), room: writing(tree).len() + 64, text }
    }

    /// Match, and by turns begin, step, check and propose, refuse these words as read back does and else answer for the tree that it writes. One text
    /// in 64 is too long.
    fn others(&mut self, what: &str, words: &[u64], number: u64) {
        let (too_long, width) = ([b'a'; 65536], self.image[2] as usize);
        let text = if self.tally.refused % 64 == 63 { &too_long[..] } else { &self.text };
        let checks = &mut *self.checks;
        let found = checks.match_beside(what, words, text, 4).map(|a| a.number);
        let other = match (self.tally.refused + self.tally.refused / 64) % 4 {
            0 => checks.begin_beside(what, words, &fresh(width), 1).map(|w| w.found.number),
            1 => checks.step_beside(what, words, &Watch { mask: vec![1; width], place: 3 }, text, 4).map(|w| w.found.number),
            2 => checks.check_beside(what, words, text, &Proposal { start: 0, end: 1, states: vec![1] }).map(|j| j.number),
            _ => checks.propose_beside(what, words, text, self.text.len() as u64, self.text.len()).map(|p| p.0.number),
        };
        for given in found.into_iter().chain(other) {
            checks.same(&format!("{what}: refused as by read back"), given == 6, number == 6);
        }
    }

    /// Words in its place, if they differ from it: the answer is the independent program's, and a writing is that of a tree with exactly these words
    /// as its image.
    pub fn attempt(&mut self, how: &str, words: &[u64]) {
        if words == self.image {
            return;
        }
        let what = format!("{}, {how}", self.name);
        let Some(answer) = self.checks.read_back_beside(&what, words, self.room) else { return };
        self.others(&what, words, answer.number);
        if answer.number != 0 {
            self.tally.refused += 1;
            return;
        }
        self.tally.other += 1;
        let laid = parse(answer.written()).map(|tree| image(&tree));
        self.checks.same(&format!("{what}: what was written has these words as its image"), laid.as_deref() == Some(words), true);
    }

    pub fn flipped(&mut self, place: usize, bit: usize) {
        let mut words = self.image.clone();
        words[place] ^= 1 << bit;
        self.attempt(&format!("bit {bit} of word {place} flipped"), &words);
    }

    fn changed(&mut self, place: usize, value: u64) {
        let mut words = self.image.clone();
        words[place] = value;
        self.attempt(&format!("word {place} now {value:x}"), &words);
    }

    /// Two words swapped, half of the time neighbours.
    fn swapped(&mut self, r: &mut Random, among: &Range<usize>) {
        let one = r.between(among.start, among.end - 1);
        let other = if r.below(2) == 0 { (one + 1).min(among.end - 1) } else { r.between(among.start, among.end - 1) };
        let mut words = self.image.clone();
        words.swap(one, other);
        self.attempt(&format!("words {one} and {other} swapped"), &words);
    }

    /// In a section: bits flipped, words changed, words swapped.
    fn in_section(&mut self, r: &mut Random, section: &Range<usize>) {
        for _ in 0..3 {
            self.flipped(r.between(section.start, section.end - 1), r.below(64));
            let place = r.between(section.start, section.end - 1);
            let old = self.image[place];
            let news = [0, u64::MAX, old.wrapping_add(1), old.wrapping_sub(1), self.image[r.below(self.image.len())], r.word()];
            self.changed(place, news[r.below(6)]);
            self.swapped(r, section);
        }
    }

    /// Cut and lengthened, by one word and by many.
    fn lengths(&mut self, r: &mut Random) {
        let image = self.image.clone();
        let (length, cut) = (image.len(), r.below(image.len()));
        self.attempt("cut by one word", &image[..length - 1]);
        self.attempt(&format!("cut to {cut} words"), &image[..cut]);
        self.attempt("without its first word", &image[1..]);
        self.attempt("cut to nothing", &[]);
        self.attempt("without its seventh section", &image[..sections(&image)[6].start - 1]);
        for more in [vec![0], vec![image[length - 1]], vec![r.word()], vec![0; r.between(2, 600)], image.clone()] {
            self.attempt(&format!("lengthened by {} words", more.len()), &[&image[..], &more].concat());
        }
    }

    /// The counts of the sections and the shape's numbers changed.
    fn numbers(&mut self, r: &mut Random, sections: &[Range<usize>]) {
        for place in sections.iter().map(|s| s.start - 1).chain([1, 2, 3]) {
            let right = self.image[place];
            let wrong = [0, 1, right + 1, right.wrapping_sub(1), 2 * right, 512, 513, right | 1 << 32, right | 1 << 63, u64::MAX];
            for _ in 0..3 {
                self.changed(place, wrong[r.below(wrong.len())]);
            }
        }
    }

    /// Other numbers with all counts and the length as these numbers ask; and bits and masks that only the tree decides.
    fn reshaped(&mut self, r: &mut Random) {
        let masks = Masks::of(&self.image);
        let (m, d) = (masks.states, masks.depth);
        let mut all = vec![
            ("one state more", masks.with_states(m + 1)),
            ("one state less", masks.with_states(m - 1)),
            ("64 states more", masks.with_states(m + 64)),
            ("a word wider", masks.with_width(masks.width + 1)),
            ("one depth more", masks.with_depth(d + 1)),
        ];
        if d > 0 {
            all.push(("one depth less", masks.with_depth(d - 1)));
            all.push(("two depths exchanged", masks.exchanged(r.between(2, BACK), r.below(d))));
        }
        for section in 0..=BACK {
            let rows = masks.rows[section].len();
            if rows > 0 {
                all.push(("a state's bit flipped", masks.flipped(section, r.below(rows), r.below(m))));
                if m % 64 > 0 {
                    all.push(("a bit at or past m set", masks.flipped(section, r.below(rows), r.between(m, 64 * masks.width - 1))));
                }
            }
        }
        for (how, masks) in all {
            self.attempt(how, &masks.laid());
        }
    }

    /// Every bit of the seventh section, its count among them.
    pub fn back_section(&mut self) {
        let back = sections(&self.image)[6].clone();
        for place in back.start - 1..back.end {
            (0..64).for_each(|bit| self.flipped(place, bit));
        }
    }

    /// Whole back edges: put in round any states, and the image's own taken out and moved to other states and other depths.
    pub fn moved_back_edges(&mut self, r: &mut Random) {
        let masks = Masks::of(&self.image);
        let (m, d) = (masks.states, masks.depth);
        for _ in 0..if d > 0 { 12 } else { 0 } {
            let (depth, from) = (r.below(d), r.between(1, m - 1));
            let edge = (from, r.between(from.saturating_sub(6).max(1), from));
            self.attempt(&format!("a back edge {edge:?} at depth {depth}"), &masks.with_back_edge(depth, edge).laid());
        }
        for (depth, edge) in masks.back_edges() {
            let (without, (from, to)) = (masks.with_back_edge(depth, edge), edge);
            self.attempt(&format!("without the back edge {edge:?} at depth {depth}"), &without.laid());
            for other in (0..d).filter(|other| *other != depth) {
                self.attempt(&format!("the back edge {edge:?} moved from depth {depth} to {other}"), &without.with_back_edge(other, edge).laid());
            }
            for moved in [(from - 1, to), (from, to + 1), (from, to - 1), ((from + 1).min(m - 1), to), (from - 1, to - 1), (to, from)] {
                self.attempt(&format!("the back edge {edge:?} now {moved:?}"), &without.with_back_edge(depth, moved).laid());
            }
        }
    }

    pub fn every_kind(&mut self, r: &mut Random) {
        let (length, sections) = (self.image.len(), sections(&self.image));
        for section in &sections {
            self.flipped(section.start - 1, r.below(64));
            if !section.is_empty() {
                self.in_section(r, section);
            }
        }
        for _ in 0..4 {
            self.swapped(r, &(0..length));
        }
        self.lengths(r);
        self.numbers(r, &sections);
        self.reshaped(r);
    }
}
