//! Images taken apart, to be laid again with other numbers or other bits.

use std::ops::Range;

/// The words of each section; the word before them is their count.
pub fn sections(image: &[u64]) -> Vec<Range<usize>> {
    let mut at = 0;
    let next = |_| {
        let words = at + 1..at + 1 + image[at] as usize;
        at = words.end;
        words
    };
    (0..7).map(next).collect()
}

/// An image's numbers and masks.
#[derive(Clone)]
pub struct Masks {
    pub states: usize,
    pub width: usize,
    pub depth: usize,
    /// letters, repeats, scatter, gather, propagate, back edges
    pub rows: Vec<Vec<Vec<u64>>>,
}

/// Where back edges stand among these rows.
pub const BACK: usize = 5;

/// How many rows a section has for each depth: block, source and target; of back edges source and target.
fn each(section: usize) -> usize {
    if section == BACK { 2 } else { 3 }
}

impl Masks {
    pub fn of(image: &[u64]) -> Masks {
        let [states, width, depth] = [1, 2, 3].map(|place| image[place] as usize);
        let rows = |words: &Range<usize>| image[words.clone()].chunks(width).map(<[u64]>::to_vec).collect();
        Masks { states, width, depth, rows: sections(image)[1..].iter().map(rows).collect() }
    }

    /// No state in any row.
    pub fn empty(states: usize, depth: usize) -> Masks {
        let width = states.div_ceil(64);
        let bytes = vec![vec![0; width]; 256];
        Masks { states, width, depth, rows: vec![bytes.clone(), bytes, vec![], vec![], vec![], vec![]] }.with_depth(depth)
    }

    /// The words, with the counts and the length that these numbers ask.
    pub fn laid(&self) -> Vec<u64> {
        let mut words = vec![3, self.states as u64, self.width as u64, self.depth as u64];
        for rows in &self.rows {
            words.push((rows.len() * self.width) as u64);
            words.extend(rows.concat());
        }
        words
    }

    /// With rows of so many words.
    pub fn with_width(&self, width: usize) -> Masks {
        let mut masks = Masks { width, ..self.clone() };
        masks.rows.iter_mut().flatten().for_each(|row| row.resize(width, 0));
        masks
    }

    /// With so many states, and as wide as they ask.
    pub fn with_states(&self, states: usize) -> Masks {
        Masks { states, ..self.with_width(states.div_ceil(64)) }
    }

    /// With so many depths: further ones have empty masks.
    pub fn with_depth(&self, depth: usize) -> Masks {
        let mut masks = Masks { depth, ..self.clone() };
        for (section, depths) in [(2, depth), (3, depth), (4, depth + 1), (BACK, depth)] {
            masks.rows[section].resize(each(section) * depths, vec![0; self.width]);
        }
        masks
    }

    /// The masks of a depth exchanged with those of the last in one section.
    pub fn exchanged(&self, section: usize, depth: usize) -> Masks {
        let (mut masks, each) = (self.clone(), each(section));
        let rows = &mut masks.rows[section];
        (0..each).for_each(|i| rows.swap(each * depth + i, self.rows[section].len() - each + i));
        masks
    }

    /// The back edges, each with its depth: groups of one depth lie one after another, so that their sources and targets belong together in turn.
    pub fn back_edges(&self) -> Vec<(usize, (usize, usize))> {
        let states = |row: &[u64]| (0..64 * row.len()).filter(|state| row[state / 64] >> (state % 64) & 1 == 1).collect::<Vec<_>>();
        let depths = self.rows[BACK].chunks(2).map(|rows| states(&rows[0]).into_iter().zip(states(&rows[1])));
        (0..).zip(depths).flat_map(|(depth, edges)| edges.map(move |edge| (depth, edge))).collect()
    }

    /// A back edge put in at a depth, or taken out; where one of its states has another, its bit alone goes.
    pub fn with_back_edge(&self, depth: usize, (from, to): (usize, usize)) -> Masks {
        self.flipped(BACK, 2 * depth, from).flipped(BACK, 2 * depth + 1, to)
    }

    /// The bit of a state in a row flipped.
    pub fn flipped(&self, section: usize, row: usize, state: usize) -> Masks {
        let mut masks = self.clone();
        masks.rows[section][row][state / 64] ^= 1 << (state % 64);
        masks
    }
}
