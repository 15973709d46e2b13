//! A watch: begin and step by a search over the tree's edges. A mask stands for the states whose bits it has, and for nothing else.

use super::edges::{Edges, Live};
use super::tree_of;

/// What is handed from call to call: the mask of the live states, and the place, the number of bytes read.
#[derive(Clone, PartialEq, Eq, Debug)]
pub struct Watch {
    pub mask: Vec<u64>,
    pub place: u64,
}

/// The last place of the longest text.
pub const LAST_PLACE: u64 = 4_294_967_295;

fn mask_of(live: &[bool]) -> Vec<u64> {
    let word = |states: &[bool]| (0..states.len()).filter(|i| states[*i]).fold(0, |word, i| word | 1 << i);
    live.chunks(64).map(word).collect()
}

impl Edges<'_> {
    /// The states of a mask, if it has as many words as the states ask and no bit at or past their number.
    pub fn live(&self, mask: &[u64]) -> Option<Live> {
        let m = self.free.len();
        let live: Live = (0..64 * mask.len()).map(|state| mask[state / 64] >> (state % 64) & 1 == 1).collect();
        (mask.len() == m.div_ceil(64) && !live[m..].contains(&true)).then(|| live[..m].to_vec())
    }

    /// Whether these states are all that they reach so.
    pub fn closed(&self, live: &[bool]) -> bool {
        self.reached((0..live.len()).filter(|state| live[*state]).collect()) == live
    }

    /// After a byte: all that the moved states and state 0 reach.
    fn after(&self, live: &[bool], byte: u8) -> Live {
        let leaving = self.letters.iter().zip(live).filter(|(_, live)| **live).flat_map(|(edges, _)| edges);
        let moved = leaving.filter(|(class, _)| class.0[byte as usize]).map(|(_, to)| *to);
        self.reached(moved.chain([0]).collect())
    }

    /// Before any byte: the ends, and the watch.
    pub fn begin(&self) -> (Vec<u32>, Watch) {
        let live = self.reached(vec![0]);
        let ends = if live.ends_with(&[true]) { vec![0] } else { Vec::new() };
        (ends, Watch { mask: mask_of(&live), place: 0 })
    }

    /// From live states at a place, after a stretch of any length: the ends in it, and the watch.
    pub fn step(&self, mut live: Live, mut place: u64, stretch: &[u8]) -> (Vec<u32>, Watch) {
        let mut ends = Vec::new();
        for byte in stretch {
            live = self.after(&live, *byte);
            place += 1;
            if live.ends_with(&[true]) {
                ends.push(place as u32);
            }
        }
        (ends, Watch { mask: mask_of(&live), place })
    }
}

fn refused(number: u64, lent: &Watch) -> (u64, Vec<u32>, Watch) {
    (number, Vec::new(), lent.clone())
}

/// Begin with a mask and a place lent: the number, all ends, and the watch afterwards.
pub fn begin(words: &[u64], lent: &Watch) -> (u64, Vec<u32>, Watch) {
    let Some(tree) = tree_of(words) else { return refused(6, lent) };
    let (ends, watch) = Edges::of(&tree).begin();
    if lent.mask.len() != watch.mask.len() {
        return refused(9, lent);
    }
    (0, ends, watch)
}

/// Step from the watch that is lent: the number, all ends in the stretch, and the watch afterwards.
pub fn step(words: &[u64], lent: &Watch, stretch: &[u8]) -> (u64, Vec<u32>, Watch) {
    let Some(tree) = tree_of(words) else { return refused(6, lent) };
    if stretch.len() > 65535 {
        return refused(7, lent);
    }
    let edges = Edges::of(&tree);
    let Some(live) = edges.live(&lent.mask) else { return refused(9, lent) };
    if lent.place > LAST_PLACE - stretch.len() as u64 {
        return refused(10, lent);
    }
    let (ends, watch) = edges.step(live, lent.place, stretch);
    (0, ends, watch)
}
