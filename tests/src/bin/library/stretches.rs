//! Long spellings: of lengths about 256 and its multiples, of 65,535 bytes, and through rules of 512 states.

use crate::checks::Checks;
use crate::match_ends::LONGEST_TEXT;
use crate::repeated::groups;
use crate::seen::Seen;
use crate::spelled::{spelled, Spelled};
use outside_checks::generate::{sized, small, Random};
use outside_checks::independent::{parse, Item};
use outside_checks::texts::{spelled as spell, text};

pub fn all(checks: &mut Checks) {
    checks.part("propose: spellings about 256 bytes long and its multiples", blocks);
    checks.part("propose: spellings of 65,535 bytes", longest);
    checks.part("propose: long spellings through rules from seeds", seeds);
    checks.part("propose: short spellings in long texts", short);
}

/// A proposal for an end, exact room and one short; then the check of it with one state changed, at each end and somewhere between.
fn proposed(s: &mut Spelled, r: &mut Random, end: usize) {
    let Some(count) = s.count(end) else { return s.checks.same(&format!("{}: end {end}", s.name), false, true) };
    let Some(proposal) = s.propose(end as u64, count).filter(|_| count > 0) else { return };
    s.propose(end as u64, count - 1);
    for at in [0, r.below(count), count - 1] {
        let mut changed = proposal.clone();
        changed.states[at] = [0, changed.states[at] + 1, changed.states[at].wrapping_sub(1)][r.below(3)];
        s.check(&changed);
    }
}

/// So many bytes from `a` to `c`, these in turn between them, with others before and after.
fn placed(before: usize, length: usize, after: usize, middle: &[u8]) -> Vec<u8> {
    let middle = middle.iter().cycle().take(length - 2);
    [&vec![b'x'; before][..], b"a", &middle.copied().collect::<Vec<u8>>(), b"c", &vec![b'x'; after]].concat()
}

fn blocks(checks: &mut Checks) {
    let mut r = Random::new(9);
    let rules = [
        ("ab*c", &b"b"[..]),
        ("a(b?|d?)[bd]*(b|d|e*)c", b"bd"),
        ("a.*.*(bd*|b*|.)c", b"bd"),
        ("a(bd)?[bd]*((b|e)d*)?c", b"bd"),
        ("a(b)*c", b"b"),
        ("a(bd)*b?c", b"bd"),
        ("a((b|d)?e?)*c", b"bd"),
        ("a((bd)*(b)*)*c", b"bdb"),
    ];
    for length in [2, 3, 254, 255, 256, 257, 258, 511, 512, 513, 767, 768, 769] {
        for (before, after) in [(0, 0), (1, 0), (0, 1), (254, 3), (255, 0), (256, 1), (257, 255), (300, 256), (513, 600)] {
            let (rule, middle) = rules[r.below(rules.len())];
            let text = placed(before, length, after, middle);
            spelled(checks, rule.as_bytes(), &[&text], &mut |s| {
                proposed(s, &mut r, before + length);
                s.propose((before + length + 1) as u64, length);
            });
        }
    }
}

/// Of the whole text but for a few bytes, through rules whose loops leave no choice, some and every one.
fn longest(checks: &mut Checks) {
    let unions = (0..8).fold("b*".to_string(), |inner, _| format!("({inner}|b?d)"));
    let all = "a".to_string() + &".*".repeat(509) + "c";
    let counted = format!("a(b{{100}}|{}|[bd]*d){}c", "b?".repeat(200), "d?b*".repeat(95));
    let nested = format!("a[bd]*{unions}c");
    let cycles = [&b"a"[..], &groups(8, b'*').repeat(28), b"((b)*d)*b?c"].concat().escape_ascii().to_string();
    let rules = [
        ("ab*c", &b"b"[..]),
        ("a(b*|d?)(b|d?)b*c", b"b"),
        (&all, b"bd"),
        (&counted, b"bbbd"),
        (&nested, b"bdd"),
        ("a(bd)*b?c", b"bd"),
        ("a((b|d)?)*c", b"bd"),
        ("a(b{3}d)*b?b?b?c", b"bbbd"),
        (&cycles, b"bd"),
    ];
    for (seed, (rule, middle)) in (0..).zip(rules) {
        let mut r = Random::new(seed);
        let (before, after) = [(0, 0), (1, 0), (0, 1), (3, 252)][r.below(4)];
        let text = placed(before, LONGEST_TEXT - before - after, after, middle);
        spelled(checks, rule.as_bytes(), &[&text], &mut |s| {
            proposed(s, &mut r, LONGEST_TEXT - after);
            s.propose(LONGEST_TEXT as u64 - after as u64 - 1, LONGEST_TEXT);
        });
    }
}

/// Byte 1, what spells a rule, a text of so many bytes, what spells another rule, byte 2. There is no other byte 1, so that it all is one stretch.
fn between(r: &mut Random, first: &[Item], length: usize, last: &[Item]) -> Vec<u8> {
    let mut inner = Vec::new();
    spell(r, first, &mut inner);
    inner.extend(text(r, first, length));
    spell(r, last, &mut inner);
    inner.iter_mut().filter(|byte| **byte == 1).for_each(|byte| *byte = 0);
    [&b"x\x01"[..], &inner, b"\x02"].concat()
}

/// Byte 1, a rule, anything, another rule, byte 2.
fn seeds(checks: &mut Checks) {
    let mut seen = Seen::default();
    for seed in 0..24 {
        let mut r = Random::new(seed);
        let (size, length) = ([40, 100, 240][r.below(3)], [300, 1000, 5000, r.between(6000, 20_000)][r.below(4)]);
        let [first, last] = [0, 1].map(|_| if seed % 2 == 0 { sized(&mut r, size, 2) } else { small(&mut r) });
        let rule = [b"\\x01(", &first[..], b")[\\x00-\\xFF]*(", &last, b")\\x02"].concat();
        let [first, last] = [first, last].map(|rule| parse(&rule).expect("a rule"));
        let text = between(&mut r, &first, length, &last);
        spelled(checks, &rule, &[&text], &mut |s| {
            let whole = s.count(text.len());
            seen.note("spellings", whole.is_some());
            seen.note("over 256 bytes", whole > Some(256));
            seen.note("over 4,096 bytes", whole > Some(4096));
            seen.note("over 448 states", s.image[1] > 448);
            if whole.is_some() {
                proposed(s, &mut r, text.len());
            }
        });
    }
    seen.tell(checks, "long spellings", 3);
}

/// At the end of long texts and in their middle, and places there that are no ends.
fn short(checks: &mut Checks) {
    let mut r = Random::new(7);
    let text = [vec![b'x'; LONGEST_TEXT - 40], b"a".to_vec(), vec![b'b'; 38], b"c".to_vec()].concat();
    for rule in ["ab*c", "(a|x)b?b*(c|d)", "x*ab*c", "x*"] {
        spelled(checks, rule.as_bytes(), &[&text], &mut |s| {
            proposed(s, &mut r, LONGEST_TEXT);
            for place in [0, 1, 30_000, LONGEST_TEXT - 41, LONGEST_TEXT - 40, LONGEST_TEXT - 1] {
                s.propose(place as u64, 50);
            }
        });
    }
}
