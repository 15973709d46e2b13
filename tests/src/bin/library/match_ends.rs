//! Match: document 01's examples and limits, and generated rules on generated texts beside the independent program, all on images that the proved
//! build gave; and the three operations one after another as the desk program calls them.

use crate::build::{longest, unions};
use crate::checks::{Checks, LONGEST};
use crate::optional::most;
use crate::repeated::{cycles, groups};
use crate::seen::Seen;
use outside_checks::driver::{build_call, match_call, read_back_call, Answer};
use outside_checks::generate::{nested, sized, small, Random};
use outside_checks::independent::{build, depth, ends, image, parse, refusal, states, Sequence};
use outside_checks::texts::text;
use outside_checks::{bytes, file, vectors};
use std::path::Path;

/// The length of the longest text.
pub const LONGEST_TEXT: usize = 65535;

pub fn all(checks: &mut Checks, folder: &Path) {
    checks.part("match: document 01's examples", examples);
    checks.part("match: limits", limits);
    checks.part("match: rules and texts from seeds", seeds);
    checks.part("match: long texts from seeds", long_texts);
    checks.part("match: stack", stack);
    checks.part("build, read back and match: the desk program's outside vectors", |c| desk_vectors(c, folder));
}

/// What the proved build gives for a rule, matched with these ends: room for more, just enough, one short, none.
fn finds(checks: &mut Checks, what: &str, rule: &[u8], text: &[u8], ends: &[u32]) {
    let Some(image) = checks.built(what, rule) else { return };
    let what = format!("{what}, rule {}, {} bytes of text", rule.escape_ascii(), text.len());
    for room in [ends.len() + 3, ends.len(), ends.len().saturating_sub(1), 0] {
        checks.match_ends(&what, &image, text, &Answer::of(0, ends, room));
    }
}

/// Rules, texts and their ends.
pub const EXAMPLES: [(&str, &str, &[u32]); 35] = [
    ("a", "aba", &[1, 3]),
    ("b?", "", &[0]),
    ("b?", "ab", &[0, 1, 2]),
    ("a{2,3}", "aaaa", &[2, 3, 4]),
    ("[AB]+B.{1,3}[BC]?.*C", "ABCBBC", &[6]),
    ("[AB]+B.{1,3}[BC]?.*C", "ABCBCC", &[5, 6]),
    ("A(BA|CD)(CD|AB)B", "ABACDB", &[6]),
    ("A(AB|B?)(B?.*|AB)C", "AC", &[2]),
    // "Errors that look right"
    ("a(b?|c)d", "ad", &[2]),
    ("((a|b)|c)", "xabc", &[2, 3, 4]),
    ("a((b|c)d|e)f", "abdfacdfaef", &[4, 8, 11]),
    ("a{64}b", "", &[]),
    ("(a|b)(c|d)", "acbdad", &[2, 4, 6]),
    // the dot, which takes all bytes but 10
    (".", "a\nb", &[1, 3]),
    ("[\\x00-\\xFF]", "a\nb", &[1, 2, 3]),
    ("(.|\\x0A)", "a\nb", &[1, 2, 3]),
    ("\\.", "a\n.", &[3]),
    ("a.*c", "ab\nbcac", &[7]),
    ("a[\\x00-\\xFF]*c", "ab\nbcac", &[5, 7]),
    // optional groups
    ("(ab)?", "ab", &[0, 1, 2]),
    ("x(ab)?y", "xyxabxay", &[2]),
    ("x(ab|c)?y", "xabyxcy", &[4, 7]),
    ("x((a|b))?y", "xyxay", &[2, 5]),
    ("x((a)?b)?y", "xabyxby", &[4, 7]),
    ("x(a)?(b)?(c)?y", "xyxacy", &[2, 6]),
    ("x(a?|b)?y", "xyxby", &[2, 5]),
    // repeated groups
    ("(ab)*", "abab", &[0, 1, 2, 3, 4]),
    ("x(ab)*y", "xyxababy", &[2, 8]),
    ("x(ab)*y", "xabay", &[]),
    ("x(ab)+y", "xyxababy", &[8]),
    ("x(a|b)*y", "xyxabay", &[2, 7]),
    ("x(a?)*y", "xyxaay", &[2, 6]),
    ("x((a)*b)*y", "xaabby", &[6]),
    ("x(a|(bc)*)*y", "xabcay", &[6]),
    ("((a)+)+", "baab", &[2, 3]),
];

fn examples(checks: &mut Checks) {
    for (rule, text, ends) in EXAMPLES {
        finds(checks, "an example", rule.as_bytes(), text.as_bytes(), ends);
    }
    finds(checks, "a carry from word to word", b"a{500}", &[b'a'; 502], &[500, 501, 502]);
    finds(checks, "a carry through a union of 130 states", b"(a{64}|b{64})c", &[[b'b'; 64].to_vec(), b"c".to_vec()].concat(), &[65]);
    finds(checks, "options over four words", b"a{,200}b", b"b", &[1]);
    finds(checks, "eight deep", &unions(8), b"xab", &[2, 3]);
    finds(checks, "an edge over an optional group of 131 states", b"x(a{64}|b{64})?y", b"xyby", &[2]);
    finds(checks, "a chain over 161 optional groups", &[&b"x"[..], &most()[..most().len() - 8], b"y"].concat(), b"xyabybxb", &[2]);
    finds(checks, "a back edge over two words", b"x(a{70}b)*y", &[&b"x"[..], &[&[b'a'; 70][..], b"b"].concat().repeat(3), b"y"].concat(), &[215]);
    finds(checks, "eight cycles in one another", &[b"x", &groups(8, b'*')[..], b"y"].concat(), b"xyxaaaayay", &[2, 8]);
    finds(checks, "232 cycles", &[b"x", &groups(8, b'*').repeat(29)[..], b"y"].concat(), b"xyxaaaayay", &[2, 8]);
}

fn limits(checks: &mut Checks) {
    let all: Vec<u32> = (0..=LONGEST_TEXT as u32).collect();
    finds(checks, "every place of the longest text", b"a*", &[b'a'; LONGEST_TEXT], &all);
    finds(checks, "every place but the first", b"a", &[b'a'; LONGEST_TEXT], &all[1..]);
    finds(checks, "the last place alone", b"a{9}b", &[&[b'a'; LONGEST_TEXT - 1][..], b"b"].concat(), &all[LONGEST_TEXT..]);
    finds(checks, "512 states, eight deep, on the empty text", &longest(), b"", &[]);
    rounds(checks);

    let (a, long) = (build(b"a", LONGEST).image, [b'a'; LONGEST_TEXT + 1]);
    let mut spoilt = a.clone();
    spoilt[523] = 2;
    for (what, words, number) in [("an image", &a, 7), ("damaged", &spoilt, 6), ("cut", &a[..524].to_vec(), 6), ("no words", &Vec::new(), 6)] {
        for room in [0, 1, 9] {
            checks.match_ends(&format!("{what}, 65,536 bytes"), words, &long, &Answer::of(number, &[], room));
        }
    }
    for length in [0, 1, LONGEST_TEXT] {
        checks.match_ends("damaged, a text that is not too long", &spoilt, &long[..length], &Answer::of(6, &[], 9));
    }
    checks.match_ends("512 states, eight deep, 65,536 bytes", &build(&longest(), LONGEST).image, &long, &Answer::of(7, &[], 9));
}

/// The longest text, by rounds of a cycle: of two bytes, of one in eight cycles, of many, of either of two in turn, and all but the last round.
fn rounds(checks: &mut Checks) {
    let text = |rounds: usize, round: &[u8]| [&b"x"[..], &round.repeat(rounds), b"y"].concat();
    let last = |length: usize| [length as u32];
    finds(checks, "32,766 rounds", b"x(ab)*y", &text(32766, b"ab"), &last(65534));
    finds(checks, "65,533 rounds in eight cycles", &[b"x", &groups(8, b'*')[..], b"y"].concat(), &text(65533, b"a"), &last(LONGEST_TEXT));
    finds(checks, "65,533 rounds, 500 states", &[&b"x("[..], &b"(a)*".repeat(165), b"b?)*y"].concat(), &text(65533, b"a"), &last(LONGEST_TEXT));
    finds(checks, "21,844 rounds of two cycles", b"x((ab)*c)*y", &text(21844, b"abc"), &last(65534));
    finds(checks, "a last round that is not whole", b"x(abc)*y", &[&text(21000, b"abc")[..63001], b"ay"].concat(), &[]);
    finds(checks, "every second place", b"(ab)+", &b"ab".repeat(32767), &(1..=32767).map(|n| 2 * n).collect::<Vec<u32>>());
}

// ---- generated rules and texts

/// A rule of a seed below 2,300, its tree, and the numbers that go on from there: small ones, then deep ones, then large ones. None that passes document
/// 01's limits.
pub fn seeded(seed: u64) -> Option<(Random, Vec<u8>, Sequence)> {
    let mut r = Random::new(seed);
    let (deep, wanted) = (r.below(9), [r.between(60, 70), r.between(71, 448), r.between(449, 512)][r.below(3)]);
    let rule = match seed {
        0..1700 => small(&mut r),
        1700..2100 => nested(&mut r, deep.max(1)),
        _ => sized(&mut r, wanted, deep),
    };
    let tree = parse(&rule).expect("a rule");
    (states(&tree) <= 512 && depth(&tree) <= 8).then_some((r, rule, tree))
}

fn seeds(checks: &mut Checks) {
    let mut seen = Seen::default();
    for seed in 0..2300 {
        let Some((mut r, rule, tree)) = seeded(seed) else { continue };
        let Some(image) = checks.built(&format!("seed {seed}"), &rule) else { continue };
        seen.add("rules", 1);
        seen.tree(&tree);
        for most in [0, 12, 60, 3 * states(&tree)] {
            let length = r.below(most + 1);
            let text = text(&mut r, &tree, length);
            let ends = ends(&tree, &text);
            let room = [0, ends.len() / 2, ends.len().saturating_sub(1), ends.len(), ends.len() + 1, ends.len() + 40][r.below(6)];
            seen.note("texts with an end", !ends.is_empty());
            seen.note("texts with none", ends.is_empty());
            seen.note("lists of ends too short", room < ends.len());
            let what = format!("seed {seed}, rule {}, text {}", rule.escape_ascii(), text.escape_ascii());
            checks.match_ends(&what, &image, &text, &Answer::of(0, &ends, room));
        }
    }
    seen.tell(checks, "matched from seeds", 20);
}

/// Texts of thousands of bytes, some as long as can be.
fn long_texts(checks: &mut Checks) {
    for seed in 0..36 {
        let mut r = Random::new(seed);
        let (wanted, deep) = (r.between(60, 512), r.below(9));
        let rule = if seed % 3 == 0 { sized(&mut r, wanted, deep) } else { small(&mut r) };
        let tree = parse(&rule).expect("a rule");
        let Some(image) = checks.built(&format!("seed {seed}"), &rule) else { continue };
        let length = if seed % 9 == 1 { LONGEST_TEXT } else { r.between(1000, 6000) };
        let (text, room) = (text(&mut r, &tree, length), [LONGEST_TEXT + 1, 1000][r.below(2)]);
        checks.match_ends(&format!("long text, seed {seed}, rule {}", rule.escape_ascii()), &image, &text, &Answer::of(0, &ends(&tree, &text), room));
    }
}

fn stack(checks: &mut Checks) {
    let of = |rule: &[u8]| image(&parse(rule).expect("a rule"));
    let images = [of(b"a"), of(&longest()), of(&most()), of(b"A(AB|B?)(B?.*|AB)C"), of(&cycles()), of(b"x((ab)*c)*y"), vec![0; 9], Vec::new()];
    let calls = images.iter().flat_map(|words| [0, 70].map(|length| match_call(words, &vec![b'a'; length], 100)));
    checks.stack("match", 64 << 10, &calls.collect::<Vec<_>>());
}

// ---- the three together

/// What the desk program is to write, by three calls.
fn desk(checks: &mut Checks, rule: &[u8], journal: &[u8]) -> Result<Vec<u8>, String> {
    let refused = |number: u64, place: u64| Ok((refusal(number, place as usize) + "\n").into_bytes());
    let built = checks.driver.call::<Answer<u64>>(&build_call(rule, LONGEST))?;
    if built.number != 0 {
        return refused(built.number, built.count);
    }
    let written = checks.driver.call::<Answer<u8>>(&read_back_call(built.written(), 16384))?;
    if written.number != 0 {
        return refused(written.number, 0);
    }
    let found = checks.driver.call::<Answer<u32>>(&match_call(built.written(), journal, 1000))?;
    if found.number != 0 {
        return refused(found.number, 0);
    }
    let ends = found.written().iter().map(|end| format!("{end}\n"));
    let lines = std::iter::once(format!("\ntotal {}\n", found.count)).chain(ends).flat_map(String::into_bytes);
    Ok(written.written().iter().copied().chain(lines).collect())
}

fn desk_vectors(checks: &mut Checks, folder: &Path) {
    for (place, v) in vectors(folder, "desk") {
        let (rule, journal) = (file(&v[0]).unwrap_or_default(), file(&v[1]).unwrap_or_default());
        let written = desk(checks, &rule, &journal);
        checks.same(&format!("{place}, rule {}", rule.escape_ascii()), written, Ok(bytes(&v[2])));
    }
}
