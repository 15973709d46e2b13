//! The tree whose image words are, from the whole down to the letters: the masks are read as the edges that they stand for, and the tree is taken out
//! of these, a union by where its scatter edges begin and its gather edges end. No image is made: words are one if no edge is left over.

use super::states::{can_be_empty, depth};
use super::{Class, Item, Mark, Repeat, Sequence, MOST_DEPTH, MOST_STATES};
use std::collections::{BTreeMap, BTreeSet};
use std::iter::zip;

/// The states of a mask, rising.
type States = Vec<usize>;

/// The edges that masks show. Those without a letter stand with their depth.
struct Shown {
    /// for each state the bytes by which it is entered from the state before, and from itself
    letters: Vec<Class>,
    loops: Vec<Class>,
    /// for each start of a union its alternatives' starts, for each end their ends
    scatter: BTreeMap<(usize, usize), States>,
    gather: BTreeMap<(usize, usize), States>,
    propagate: BTreeSet<(usize, usize, usize)>,
    back: BTreeSet<(usize, usize, usize)>,
}

pub fn tree_of(words: &[u64]) -> Option<Sequence> {
    let [shape, sections @ ..] = sections(words)?;
    let &[m, width, d] = shape else { return None };
    if !(2..=MOST_STATES as u64).contains(&m) || width != m.div_ceil(64) || d > MOST_DEPTH as u64 {
        return None;
    }
    let (m, width, d) = (m as usize, width as usize, d as usize);
    let counts = [256, 256, 3 * d, 3 * d, 3 * (d + 1), 2 * d];
    if zip(sections, counts).any(|(section, masks)| section.len() != masks * width) {
        return None;
    }
    let mut shown = Shown::of(sections, width, m)?;
    let tree = shown.sequence(0, m - 1, 0)?;
    (shown.is_empty() && depth(&tree) == d).then_some(tree)
}

/// Seven sections, each after its count of words, and nothing after them.
fn sections(mut words: &[u64]) -> Option<[&[u64]; 7]> {
    let mut all = [words; 7];
    for section in &mut all {
        let (count, after) = words.split_first()?;
        (*section, words) = after.split_at_checked(usize::try_from(*count).ok()?)?;
    }
    words.is_empty().then_some(all)
}

/// The masks of a section, if none has a bit at or past m.
fn masks(section: &[u64], width: usize, m: usize) -> Option<Vec<States>> {
    let states_of = |row: &[u64]| {
        let bits = |(at, word): (usize, &u64)| (0..64).filter(|bit| word >> bit & 1 == 1).map(move |bit| 64 * at + bit).collect::<States>();
        row.iter().enumerate().filter(|(_, word)| **word != 0).flat_map(bits).collect::<States>()
    };
    let masks: Vec<States> = section.chunks(width).map(states_of).collect();
    masks.iter().all(|states| states.last().is_none_or(|last| *last < m)).then_some(masks)
}

/// For each state the bytes whose mask has it.
fn classes(section: &[u64], width: usize, m: usize) -> Option<Vec<Class>> {
    let mut classes = vec![Class::none(); m];
    for (byte, states) in masks(section, width, m)?.into_iter().enumerate() {
        states.into_iter().for_each(|state| classes[state].0[byte] = true);
    }
    Some(classes)
}

/// Unions of one depth follow one another, so that a union's alternatives start before the next one does.
fn scattered([block, source, target]: &[States; 3], m: usize) -> Option<Vec<States>> {
    let before = source.iter().skip(1).chain([&m]);
    let starts: Vec<States> = zip(source, before).map(|(from, next)| target.iter().copied().filter(|to| from < to && to < next).collect()).collect();
    let blocks: Option<States> = starts.iter().map(|starts| starts.last().map(|last| last + 1)).collect();
    (starts.concat() == *target && blocks? == *block).then_some(starts)
}

/// And end after the one before has ended.
fn gathered([block, source, target]: &[States; 3]) -> Option<Vec<States>> {
    let after = [&0].into_iter().chain(target);
    let ends: Vec<States> = zip(after, target).map(|(last, to)| source.iter().copied().filter(|from| last < from && from < to).collect()).collect();
    let blocks: Option<Vec<States>> = zip(&ends, target).map(|(ends, to)| ends.first().map(|first| (*first..*to).collect())).collect();
    (ends.concat() == *source && blocks?.concat() == *block).then_some(ends)
}

/// The edges whose maximal chains have these states, and these for their smallest and their largest.
fn chained([block, source, target]: &[States; 3]) -> Option<Vec<(usize, usize)>> {
    let mut chains: Vec<States> = Vec::new();
    for (first, last) in zip(source, target) {
        let chain: States = block.iter().copied().filter(|state| first <= state && state <= last).collect();
        if chain.len() < 2 || chain[0] != *first || chain[chain.len() - 1] != *last {
            return None;
        }
        chains.push(chain);
    }
    let edges = chains.iter().flat_map(|chain| chain.windows(2).map(|two| (two[0], two[1]))).collect();
    (source.len() == target.len() && chains.concat() == *block).then_some(edges)
}

/// The masks of each depth.
fn by_depth<const N: usize>(masks: Vec<States>) -> impl Iterator<Item = (usize, [States; N])> {
    let depths: Vec<[States; N]> = masks.chunks(N).map(|of_one| of_one.to_vec().try_into().unwrap()).collect();
    depths.into_iter().enumerate()
}

impl Shown {
    fn of([letters, repeats, scatter, gather, propagate, back]: [&[u64]; 6], width: usize, m: usize) -> Option<Shown> {
        let (letters, loops) = (classes(letters, width, m)?, classes(repeats, width, m)?);
        let mut shown = Shown { letters, loops, scatter: BTreeMap::new(), gather: BTreeMap::new(), propagate: BTreeSet::new(), back: BTreeSet::new() };
        for (k, masks) in by_depth(masks(scatter, width, m)?) {
            shown.scatter.extend(zip(&masks[1], scattered(&masks, m)?).map(|(start, starts)| ((k, *start), starts)));
        }
        for (k, masks) in by_depth(masks(gather, width, m)?) {
            shown.gather.extend(zip(&masks[2], gathered(&masks)?).map(|(end, ends)| ((k, *end), ends)));
        }
        for (k, masks) in by_depth(masks(propagate, width, m)?) {
            shown.propagate.extend(chained(&masks)?.into_iter().map(|(from, to)| (k, from, to)));
        }
        // repeated groups of one depth follow one another too
        for (k, [source, target]) in by_depth(masks(back, width, m)?) {
            if source.len() != target.len() {
                return None;
            }
            shown.back.extend(zip(source, target).map(|(from, to)| (k, from, to)));
        }
        Some(shown)
    }

    fn is_empty(&self) -> bool {
        let enters = |class: &Class| class.0.contains(&true);
        let by_bytes = self.letters.iter().chain(&self.loops).any(enters);
        !by_bytes && self.scatter.is_empty() && self.gather.is_empty() && self.propagate.is_empty() && self.back.is_empty()
    }

    /// Takes out a sequence from one state to another.
    fn sequence(&mut self, start: usize, end: usize, k: usize) -> Option<Sequence> {
        let (mut items, mut at) = (Sequence::new(), start);
        while at < end {
            let (item, next) = if self.letters[at + 1].0.contains(&true) { self.letter(at, k)? } else { self.union(at, k)? };
            items.push(item);
            at = next;
        }
        (at == end && !items.is_empty()).then_some(items)
    }

    /// The letter from a state to the next, where it ends.
    fn letter(&mut self, from: usize, k: usize) -> Option<(Item, usize)> {
        let to = from + 1;
        let [class, again] = [&mut self.letters, &mut self.loops].map(|classes| std::mem::replace(&mut classes[to], Class::none()));
        let loops = again.0.contains(&true);
        let skips = self.propagate.remove(&(k, from, to));
        (!loops || again == class).then_some((Item::Letter(class, Repeat::of(skips, loops)), to))
    }

    /// The union that starts in a state, and where it ends: where gather edges of its depth next do.
    fn union(&mut self, start: usize, k: usize) -> Option<(Item, usize)> {
        let starts = self.scatter.remove(&(k, start))?;
        let (_, end) = *self.gather.range((k, start + 1)..(k + 1, 0)).next()?.0;
        let ends = self.gather.remove(&(k, end))?;
        // each alternative starts after the one before has ended, the first after the union's start, and the union's end comes after the last
        let right = [start].iter().chain(&ends).map(|state| state + 1).eq(starts.iter().copied().chain([end]));
        if !right {
            return None;
        }
        let ways: Option<Vec<Sequence>> = zip(&starts, &ends).map(|(first, last)| self.sequence(*first, *last, k + 1)).collect();
        let (ways, over) = (ways?, self.propagate.remove(&(k, start, end)));
        let returns = ways.len() == 1 && self.back.remove(&(k, ends[0], starts[0]));
        Some((Item::Union(mark(&ways, over, returns)?, ways), end))
    }
}

/// The mark by which a group of these alternatives has an edge over it and one back, or neither; none where no rule has such a group.
fn mark(ways: &[Sequence], over: bool, returns: bool) -> Option<Mark> {
    let empty = ways.iter().any(|way| can_be_empty(way));
    match (over, returns) {
        (true, true) => Some(Mark::Repeated),
        (true, false) if !empty => Some(Mark::Optional),
        (_, false) if over == empty && ways.len() > 1 => Some(Mark::Unmarked),
        _ => None,
    }
}
