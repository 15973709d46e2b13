//! Rules made by a fixed generator: valid ones in every way of writing, small, large and deep, and broken ones; and trees with another mark.

use crate::independent::{can_be_empty, parse, states, Item, Mark, Sequence};

/// Numbers from a seed (splitmix64).
pub struct Random(u64);

impl Random {
    pub fn new(seed: u64) -> Random {
        Random(seed)
    }

    /// Any word.
    pub fn word(&mut self) -> u64 {
        self.0 = self.0.wrapping_add(0x9e37_79b9_7f4a_7c15);
        let mut z = self.0;
        z = (z ^ (z >> 30)).wrapping_mul(0xbf58_476d_1ce4_e5b9);
        z = (z ^ (z >> 27)).wrapping_mul(0x94d0_49bb_1331_11eb);
        z ^ (z >> 31)
    }

    /// A number below n.
    pub fn below(&mut self, n: usize) -> usize {
        (self.word() % n as u64) as usize
    }

    /// A number from low to high.
    pub fn between(&mut self, low: usize, high: usize) -> usize {
        low + self.below(high - low + 1)
    }

    pub fn one_in(&mut self, n: usize) -> bool {
        self.below(n) == 0
    }

    pub fn pick<'a, T>(&mut self, all: &'a [T]) -> &'a T {
        &all[self.below(all.len())]
    }
}

const SIGNS: &[u8] = b"\\|()[]{}?*+.";

/// The bytes that rules are made of most often: signs, and what has a meaning beside them.
pub const TELLING: &[u8] = b"\\|()[]{}?*+.-,019axAFg";

/// A byte as an escape, or as itself where a class's single may be itself.
fn single(r: &mut Random, byte: u8, out: &mut Vec<u8>) {
    let special = byte == b'-' || SIGNS.contains(&byte);
    if special && !r.one_in(3) {
        out.extend([b'\\', byte]);
    } else if special || !(33..=126).contains(&byte) || r.one_in(12) {
        let written = if r.one_in(2) { format!("\\x{byte:02x}") } else { format!("\\x{byte:02X}") };
        out.extend(written.bytes());
    } else {
        out.push(byte);
    }
}

/// Most often one of the small letters that generated rules are made of, and often byte 10.
pub fn any_byte(r: &mut Random) -> u8 {
    match r.below(8) {
        0 => 10,
        1 | 2 => r.below(256) as u8,
        3 => *r.pick(SIGNS),
        _ => b'a' + r.below(6) as u8,
    }
}

fn range(r: &mut Random, low: u8, high: u8, out: &mut Vec<u8>) {
    single(r, low, out);
    out.push(b'-');
    single(r, high, out);
}

fn class(r: &mut Random, out: &mut Vec<u8>) {
    out.push(b'[');
    for _ in 0..r.between(1, 4) {
        let (a, b) = (any_byte(r), any_byte(r));
        if r.one_in(3) {
            range(r, a.min(b), a.max(b), out);
        } else {
            single(r, a, out);
        }
    }
    out.push(b']');
}

/// A class of every byte but one, which is 10 half of the time, or of that one too; its ranges in any order.
fn wide_class(r: &mut Random, out: &mut Vec<u8>) {
    let byte = if r.one_in(2) { 10 } else { r.below(256) as u8 };
    let mut ranges: Vec<(u8, u8)> = byte.checked_sub(1).map(|high| (0, high)).into_iter().chain(byte.checked_add(1).map(|low| (low, 255))).collect();
    if r.one_in(2) {
        ranges.push((byte, byte));
    }
    let first = r.below(ranges.len());
    ranges.rotate_left(first);
    out.push(b'[');
    ranges.into_iter().for_each(|(low, high)| range(r, low, high, out));
    out.push(b']');
}

/// A letter with its repeat sign, which adds at most `most` states.
fn letter(r: &mut Random, most: usize, out: &mut Vec<u8>) {
    match r.below(20) {
        0 | 1 => out.push(b'.'),
        2..=4 => class(r, out),
        5 => wide_class(r, out),
        6 | 7 => {
            let byte = any_byte(r);
            single(r, byte, out);
        }
        8 | 9 => out.push(b'-'),
        _ => out.push(b'a' + r.below(6) as u8),
    }
    let y = r.between(1, most);
    let x = r.below(y + 1);
    match r.below(12) {
        0 => out.push(b'?'),
        1 => out.push(b'*'),
        2 => out.push(b'+'),
        3 => out.extend(format!("{{{y}}}").bytes()),
        4 => out.extend(format!("{{{x},{y}}}").bytes()),
        5 => out.extend(format!("{{,{y}}}").bytes()),
        _ => {}
    }
}

/// A sequence of about `size` states, unions in it nested at most `depth` deep.
pub fn sequence(r: &mut Random, size: usize, depth: usize, out: &mut Vec<u8>) {
    let mut left = size.max(1) as isize;
    while left > 0 {
        let part = r.between(1, left as usize);
        if depth > 0 && left > 3 && r.one_in(3) {
            group(r, part, depth - 1, out);
            left -= part as isize + 3;
        } else if r.one_in(12) {
            alternatives(r, part, 1, depth, out);
            left -= part as isize;
        } else {
            let most = (left as usize).min(4);
            letter(r, most, out);
            left -= most.div_ceil(2) as isize;
        }
    }
}

/// Several alternatives with a sign or without, or one with a sign; a `?` is dropped where one of them can be empty. One more `?` round a group with `?`
/// or `*` is always dropped.
fn group(r: &mut Random, size: usize, depth: usize, out: &mut Vec<u8>) {
    let (start, count) = (out.len(), *r.pick(&[1, 2, 2, 3, 4]));
    let sign: &[u8] = if count == 1 || r.one_in(2) { *r.pick(&[&b"?"[..], b"?", b"*", b"*", b"+"]) } else { b"" };
    match sign {
        b"*" | b"+" => body(r, if sign == b"+" { size / 2 } else { size }, count, depth, out),
        _ => alternatives(r, size, count, depth, out),
    }
    out.extend(sign);
    if matches!(sign, b"?" | b"*") && r.one_in(6) {
        out.insert(start, b'(');
        out.extend(b")?");
    }
}

/// The same before `*` or `+`: several alternatives are a union in the body, one deeper.
fn body(r: &mut Random, size: usize, count: usize, depth: usize, out: &mut Vec<u8>) {
    if count == 1 || depth == 0 {
        alternatives(r, size, 1, depth, out);
    } else {
        alternatives(r, size, count, depth - 1, out);
    }
}

/// So many alternatives in brackets, of about `size` states together.
fn alternatives(r: &mut Random, size: usize, count: usize, depth: usize, out: &mut Vec<u8>) {
    out.push(b'(');
    for i in 0..count {
        if i > 0 {
            out.push(b'|');
        }
        sequence(r, size / count, depth, out);
    }
    out.push(b')');
}

/// A small rule.
pub fn small(r: &mut Random) -> Vec<u8> {
    let mut out = Vec::new();
    for i in 0..*r.pick(&[1, 1, 1, 2, 3]) {
        if i > 0 {
            out.push(b'|');
        }
        let (size, depth) = (r.between(1, 12), r.below(4));
        sequence(r, size, depth, &mut out);
    }
    out
}

fn short(r: &mut Random, out: &mut Vec<u8>) {
    let size = r.between(1, 2);
    sequence(r, size, 0, out);
}

/// Unions nested just so deep.
pub fn nested(r: &mut Random, depth: usize) -> Vec<u8> {
    let mut out = Vec::new();
    short(r, &mut out);
    for _ in 0..depth {
        out = match r.below(5) {
            0 | 1 => union(r, &out),
            2 => optional(r, &out),
            _ => repeated(r, &out),
        };
    }
    out
}

/// Several alternatives round this sequence, with `?` or without.
fn union(r: &mut Random, inner: &[u8]) -> Vec<u8> {
    let mut out = vec![b'('];
    if r.one_in(2) {
        short(r, &mut out);
        out.push(b'|');
    }
    if r.one_in(2) {
        short(r, &mut out);
    }
    out.extend(inner);
    if r.one_in(2) {
        short(r, &mut out);
    }
    out.push(b'|');
    short(r, &mut out);
    out.extend(*r.pick(&[&b")"[..], b")?"]));
    out
}

/// This sequence as the one alternative of an optional union, with a letter where the `?` would be dropped else.
fn optional(r: &mut Random, inner: &[u8]) -> Vec<u8> {
    let letter: &[u8] = if can_be_empty(&tree(inner)) { &[b'a' + r.below(6) as u8] } else { &[] };
    let parts = if r.one_in(2) { [letter, inner] } else { [inner, letter] };
    [b"(", parts[0], parts[1], b")?"].concat()
}

/// This sequence in the body of a repeated group; with `+`, which doubles the states, as long as they are few.
fn repeated(r: &mut Random, inner: &[u8]) -> Vec<u8> {
    let mut out = vec![b'('];
    if r.one_in(3) {
        short(r, &mut out);
    }
    out.extend(inner);
    if r.one_in(3) {
        short(r, &mut out);
    }
    let close = if count(inner) < 30 && r.one_in(3) { b")+" } else { b")*" };
    out.extend(close);
    out
}

/// A rule of just so many states, in at most 1,024 bytes: parts as long as they fit, then one letter repeated.
pub fn sized(r: &mut Random, wanted: usize, depth: usize) -> Vec<u8> {
    let mut rule = nested(r, depth);
    let mut size = wanted / 4;
    while size > 0 {
        let mut longer = rule.clone();
        sequence(r, size, depth, &mut longer);
        if longer.len() <= 1000 && count(&longer) <= wanted {
            rule = longer;
        } else {
            size /= 2;
        }
    }
    match wanted.saturating_sub(count(&rule)) {
        0 => {}
        n => rule.extend(format!("e{{{n}}}").bytes()),
    }
    rule
}

fn tree(rule: &[u8]) -> Sequence {
    parse(rule).expect("a generated rule is in the grammar")
}

fn count(rule: &[u8]) -> usize {
    states(&tree(rule))
}

/// A small rule in so many brackets, with a sign or without, that it has about 1,024 bytes.
pub fn long(r: &mut Random) -> Vec<u8> {
    let (rule, wanted, close) = (small(r), r.between(1020, 1028), *r.pick(&[&b")"[..], b")", b")?", b")?", b")*", b")+"]));
    let around = wanted.saturating_sub(rule.len()) / (1 + close.len());
    [vec![b'('; around], rule, close.repeat(around)].concat()
}

/// A rule with one to three of its bytes taken out, put in, changed or moved: most often no rule any more.
pub fn broken(r: &mut Random) -> Vec<u8> {
    let mut rule = small(r);
    for _ in 0..r.between(1, 3) {
        change(r, &mut rule);
    }
    rule
}

/// One byte of a rule taken out, put in, changed or moved, or all from it on cut off.
pub fn change(r: &mut Random, rule: &mut Vec<u8>) {
    let at = r.below(rule.len() + 1);
    let byte = if r.one_in(8) { r.below(256) as u8 } else { *r.pick(TELLING) };
    match r.below(5) {
        0 if at < rule.len() => drop(rule.remove(at)),
        1 if at < rule.len() => rule[at] = byte,
        2 => rule.truncate(at),
        3 if at < rule.len() => {
            let other = r.below(rule.len());
            rule.swap(at, other);
        }
        _ => rule.insert(at, byte),
    }
}

/// A few of the telling bytes, in any order.
pub fn jumbled(r: &mut Random) -> Vec<u8> {
    (0..r.between(3, 12)).map(|_| *r.pick(TELLING)).collect()
}

/// Starts of rules, the bytes that come after them, and up to how many.
const FORMS: [(&[u8], &[u8], u32); 4] = [
    // all that a rule is made of
    (b"", b"a()|?{},012[]-\\x.", 4),
    // numbers
    (b"a{", b"0129,}", 6),
    // classes
    (b"[", b"ac-\\x6]", 5),
    // upper ends of a range
    (b"[c-\\", b"x236F-|]", 4),
];

/// Every text of these forms, or with up to so many bytes more; of each form the shorter ones come first.
pub fn short_texts(more: u32) -> impl Iterator<Item = Vec<u8>> {
    FORMS.into_iter().flat_map(move |(start, bytes, most)| (0..=most + more).flat_map(move |length| texts_of(start, bytes, length)))
}

/// Every text of a start and so many of these bytes.
fn texts_of(start: &'static [u8], bytes: &'static [u8], length: u32) -> impl Iterator<Item = Vec<u8>> {
    let count = bytes.len();
    let byte = move |n: usize, at: u32| bytes[n / count.pow(at) % count];
    (0..count.pow(length)).map(move |n| start.iter().copied().chain((0..length).map(|at| byte(n, at))).collect())
}

/// The marks of a tree's unions.
fn marks(sequence: &mut Sequence) -> Vec<&mut Mark> {
    let mut all = Vec::new();
    for item in sequence {
        if let Item::Union(mark, alternatives) = item {
            all.push(mark);
            all.extend(alternatives.iter_mut().flat_map(marks));
        }
    }
    all
}

/// The tree with another mark on one of its unions, if it has any: another rule's, or one that no rule has, with its image or that of another tree.
pub fn other_mark(r: &mut Random, tree: &Sequence) -> Option<Sequence> {
    let mut other = tree.clone();
    let mut all = marks(&mut other);
    let at = r.below(all.len().max(1));
    let mark = all.get_mut(at)?;
    let others = [Mark::Unmarked, Mark::Optional, Mark::Repeated].into_iter().filter(|m| m != *mark);
    **mark = *r.pick(&others.collect::<Vec<_>>());
    Some(other)
}
