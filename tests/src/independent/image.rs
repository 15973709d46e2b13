//! The image of a tree.

use super::states::{depth, states, Letter, Parts, Union};
use super::Item;

/// The sets that the masks hold, as lists of states: for each byte; block, source and target for each depth; of back edges source and target alone.
struct Sets {
    letters: Vec<Vec<usize>>,
    repeats: Vec<Vec<usize>>,
    scatter: Vec<[Vec<usize>; 3]>,
    gather: Vec<[Vec<usize>; 3]>,
    propagate: Vec<[Vec<usize>; 3]>,
    back: Vec<[Vec<usize>; 2]>,
}

impl Sets {
    fn of(parts: &Parts, d: usize) -> Sets {
        let mut sets = Sets {
            letters: vec![Vec::new(); 256],
            repeats: vec![Vec::new(); 256],
            scatter: vec![Default::default(); d],
            gather: vec![Default::default(); d],
            propagate: Vec::new(),
            back: vec![Default::default(); d],
        };
        parts.letters.iter().for_each(|letter| sets.put_letter(letter));
        parts.unions.iter().for_each(|union| sets.put_union(union));
        let edges = parts.propagate();
        let at = |k: usize| edges.iter().filter(|e| e.0 == k).map(|e| e.1).collect::<Vec<_>>();
        sets.propagate = (0..=d).map(|k| chains(&at(k))).collect();
        for (k, (from, to)) in parts.back() {
            sets.back[k][0].push(from);
            sets.back[k][1].push(to);
        }
        sets
    }

    fn put_letter(&mut self, letter: &Letter) {
        for byte in (0..256).filter(|b| letter.class.0[*b]) {
            self.letters[byte].push(letter.from + 1);
            if letter.repeat.loops() {
                self.repeats[byte].push(letter.from + 1);
            }
        }
    }

    fn put_union(&mut self, union: &Union) {
        let (starts, ends): (Vec<usize>, Vec<usize>) = union.alternatives.iter().copied().unzip();
        let [block, source, target] = &mut self.scatter[union.depth];
        block.push(starts[starts.len() - 1] + 1);
        source.push(union.start);
        target.extend(starts);
        let [block, source, target] = &mut self.gather[union.depth];
        block.extend(ends[0]..union.end);
        source.extend(ends);
        target.push(union.end);
    }
}

pub fn image(sequence: &[Item]) -> Vec<u64> {
    let (m, d) = (states(sequence), depth(sequence));
    let width = m.div_ceil(64);
    let sets = Sets::of(&Parts::of(sequence), d);

    let rows = |sets: &[Vec<usize>]| {
        let mut words = vec![0u64; width * sets.len()];
        for (row, states) in words.chunks_mut(width).zip(sets) {
            states.iter().for_each(|state| row[state / 64] |= 1 << (state % 64));
        }
        words
    };
    let sections = [
        vec![m as u64, width as u64, d as u64],
        rows(&sets.letters),
        rows(&sets.repeats),
        rows(&sets.scatter.concat()),
        rows(&sets.gather.concat()),
        rows(&sets.propagate.concat()),
        rows(&sets.back.concat()),
    ];
    sections.iter().flat_map(|s| std::iter::once(s.len() as u64).chain(s.iter().copied())).collect()
}

/// All states, the smallest and the largest of each maximal chain of edges.
fn chains(edges: &[(usize, usize)]) -> [Vec<usize>; 3] {
    let mut out = [Vec::new(), Vec::new(), Vec::new()];
    for &(first, _) in edges.iter().filter(|e| edges.iter().all(|f| f.1 != e.0)) {
        let mut last = first;
        out[0].push(first);
        while let Some(next) = edges.iter().find(|e| e.0 == last) {
            last = next.1;
            out[0].push(last);
        }
        out[1].push(first);
        out[2].push(last);
    }
    out
}
