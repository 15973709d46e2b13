//! Build: document 01's examples and limits, document 02's places, and generated rules beside the independent program.

use crate::checks::{Checks, LONGEST};
use crate::optional::{dropped, most, optionals};
use crate::repeated::{cycles, groups};
use crate::seen::Seen;
use outside_checks::by_hand::PLACES;
use outside_checks::driver::{build_call, Answer};
use outside_checks::generate::{broken, change, jumbled, long, nested, short_texts, sized, small, Random, TELLING};
use outside_checks::independent::{build, marked, parse, Built, Mark};

pub fn all(checks: &mut Checks) {
    checks.part("build: document 01's examples", examples);
    checks.part("build: limits", limits);
    checks.part("build: stack", stack);
    checks.part("build: places by hand", places);
    checks.part("build: places of every short text", every_short_text);
    checks.part("build: places of numbers and ranges", numbers_and_ranges);
    checks.part("build: rules of every byte", every_byte);
    checks.part("build: rules from seeds", seeds);
    checks.part("build: rules from seeds with one byte wrong", wrong_by_a_byte);
}

// ---- document 01: "Measured examples", "The image", and the limits

/// A section of an image, without its count.
pub fn section(image: &[u64], number: usize) -> Vec<u64> {
    let mut rest = image;
    for _ in 1..number {
        let Some((count, more)) = rest.split_first() else { break };
        rest = more.get(*count as usize..).unwrap_or(&[]);
    }
    rest.split_first().map_or(Vec::new(), |(count, more)| more.iter().take(*count as usize).copied().collect())
}

fn pairs(count: usize, inner: &str) -> Vec<u8> {
    [&vec![b'('; count], inner.as_bytes(), &vec![b')'; count]].concat()
}

/// Unions nested so deep, as short as can be: four states for each.
pub fn unions(count: usize) -> Vec<u8> {
    (0..count).fold(b"a".to_vec(), |inner, _| [b"(", &inner[..], b"|b)"].concat())
}

/// 512 states, eight deep.
pub fn longest() -> Vec<u8> {
    [unions(8), b"a{478}".to_vec()].concat()
}

pub fn refused(number: u64) -> Answer<u64> {
    Answer::of(number, &[], LONGEST)
}

/// Refused with 2.
pub fn refused_at(place: usize) -> Answer<u64> {
    Answer::refused_at(place, LONGEST)
}

fn examples(checks: &mut Checks) {
    let letters = (0..256).map(|byte| if byte == 97 { 2 } else { 0 });
    let whole: Vec<u64> = [3, 2, 1, 0, 256].into_iter().chain(letters).chain([256]).chain([0; 256]).chain([0, 0, 3, 0, 0, 0, 0]).collect();
    assert_eq!(whole.len(), 525);
    checks.build("the image of a, whole", b"a", &Answer::of(0, &whole, 530));
    checks.build("the image of a in just its room", b"a", &Answer::of(0, &whole, 525));
    checks.build("room one word short", b"a", &Answer::of(5, &[], 524));

    let words = checks.build_beside("states", b"[AB]+B.{1,3}[BC]?.*C", LONGEST);
    checks.same("[AB]+B.{1,3}[BC]?.*C: shape", section(&words, 1), vec![9, 1, 0]);
    let words = checks.build_beside("states", b"a|b", LONGEST);
    checks.same("a|b: shape", section(&words, 1), vec![6, 1, 1]);
    let words = checks.build_beside("masks", b"A(BA|CD)(CD|AB)B", LONGEST);
    checks.same("A(BA|CD)(CD|AB)B: shape", section(&words, 1), vec![17, 1, 1]);
    checks.same("A(BA|CD)(CD|AB)B: scatter", section(&words, 4), vec![8256, 258, 4644]);
    checks.same("A(BA|CD)(CD|AB)B: gather", section(&words, 5), vec![30960, 18576, 33024]);
    let words = checks.build_beside("masks", b"A(AB|B?)(B?.*|AB)C", LONGEST);
    checks.same("A(AB|B?)(B?.*|AB)C: shape", section(&words, 1), vec![16, 1, 1]);
    checks.same("A(AB|B?)(B?.*|AB)C: propagate", section(&words, 6), vec![16514, 2, 16384, 1888, 288, 1088]);

    for (rule, plain) in [("a{2,3}", "a?aa"), ("((ab))", "ab"), ("a|b", "(a|b)"), ("((a|b)|c)", "((a|b)|c)"), ("[ba]", "[a-b]")] {
        let image = build(plain.as_bytes(), LONGEST).image;
        checks.build("the image of its plain writing", rule.as_bytes(), &Answer::of(0, &image, LONGEST));
    }
}

fn limits(checks: &mut Checks) {
    let words = checks.build_beside("512 states", b"a{511}", LONGEST);
    checks.same("a{511}: shape", section(&words, 1), vec![512, 8, 0]);
    checks.build("513 states", b"a{512}", &refused(3));
    checks.build("513 states, letter by letter", &[b'a'; 512], &refused(3));
    let words = checks.build_beside("eight nested unions", &unions(8), LONGEST);
    checks.same("eight nested unions: shape", section(&words, 1), vec![34, 1, 8]);
    checks.build("nine nested unions", &unions(9), &refused(4));
    let words = checks.build_beside("the longest image", &longest(), LONGEST);
    checks.same("the longest image: shape", section(&words, 1), vec![512, 8, 8]);
    checks.build("the longest image, room one word short", &longest(), &Answer::of(5, &[], LONGEST - 1));

    let [a, ab] = [&b"a"[..], b"ab"].map(|rule| build(rule, LONGEST).image);
    checks.build("511 bracket pairs, 1,024 bytes", &pairs(511, "ab"), &Answer::of(0, &ab, LONGEST));
    checks.build("511 bracket pairs, 1,025 bytes", &pairs(511, "abc"), &refused(1));
    checks.build("a class, 1,024 bytes", &[&b"["[..], &[b'a'; 1022], b"]"].concat(), &Answer::of(0, &a, LONGEST));
    checks.build("a class, 1,025 bytes", &[&b"["[..], &[b'a'; 1023], b"]"].concat(), &refused(1));
    checks.build("1,024 letters", &[b'a'; 1024], &refused(3));
    checks.build("1,024 opening brackets", &[b'('; 1024], &refused_at(1024));
    checks.build("1,025 opening brackets", &[b'('; 1025], &refused(1));
    checks.build("1,024 bytes of a class", &[&b"["[..], &[b'a'; 1023]].concat(), &refused_at(1024));
    checks.build("1,024 bytes, the last one wrong", &[&[b'a'; 1023][..], b")"].concat(), &refused_at(1023));
    checks.build("1,024 bytes, the first one wrong", &[&b"]"[..], &[b'a'; 1023]].concat(), &refused_at(0));
    checks.build("more states than any image has before the place", &[&b"a{999}".repeat(170)[..], b"a{0}"].concat(), &refused_at(1023));

    // "Checks run in the table's order."
    checks.build("1 before 2 and 5", &[b')'; 1025], &Answer::of(1, &[], 0));
    checks.build("2 before 3 and 5", b"a{999})", &Answer::refused_at(6, 0));
    checks.build("3 before 4 and 5", &[unions(9), b"a{500}".to_vec()].concat(), &Answer::of(3, &[], 0));
    checks.build("4 before 5", &unions(9), &Answer::of(4, &[], 0));
}

/// Rules that nest as deep, or go on as long, as 1,024 bytes allow.
fn stack(checks: &mut Checks) {
    let class = [vec![b'('; 1023], b"[".to_vec()].concat();
    let brackets = [vec![b'('; 1024], pairs(511, "ab"), dropped(341, "a"), optionals(255), groups(341, b'*'), groups(341, b'+')];
    let rules = [class, vec![b'a'; 1024], longest(), most(), cycles(), groups(7, b'+')];
    checks.stack("build", 1 << 20, &brackets.into_iter().chain(rules).map(|rule| build_call(&rule, LONGEST)).collect::<Vec<_>>());
}

// ---- document 02: "Say where the rule went wrong"

fn places(checks: &mut Checks) {
    for (rule, place) in PLACES {
        checks.build("refused with 2", rule.as_bytes(), &refused_at(place));
    }
}

fn every_short_text(checks: &mut Checks) {
    for text in short_texts(0) {
        checks.build_beside("a short text", &text, 4);
    }
}

/// Braces with numbers up to one that has four digits, and ranges up to every byte in every writing.
fn numbers_and_ranges(checks: &mut Checks) {
    for x in [0, 1, 2, 9, 10, 11, 19, 20, 99, 100, 101, 199, 200, 299, 300, 989, 990, 998, 999] {
        for y in 0..=1000 {
            checks.build_beside("two numbers", format!("a{{{x},{y}}}").as_bytes(), 4);
        }
    }
    for lower in ["\\x00", "\\x0F", "!", "\\-", "c", "\\|", "~", "\\x7F", "\\x80", "\\xa9", "\\xF0", "\\xFF"] {
        for b in 0..=255 {
            for upper in [vec![b], vec![b'\\', b], format!("\\x{b:02x}").into_bytes(), format!("\\x{b:02X}").into_bytes()] {
                checks.build_beside("a range", &[b"[", lower.as_bytes(), b"-", &upper, b"]"].concat(), 4);
            }
        }
    }
}

// ---- generated rules

fn every_byte(checks: &mut Checks) {
    for b in 0..=255 {
        let letters = [&[b][..], &[b'\\', b], &[b'a', b], &[b'[', b, b']'], &[b'[', b, b'-', b'~', b']'], &[b'a', b'{', b, b'}']];
        for rule in letters {
            checks.build_beside("every byte", rule, 550);
        }
        for group in [&b"(a)"[..], b"(a?)", b"(a|b)", b"(a)?", b"(a)*", b"(a)+"] {
            checks.build_beside("every byte after a group", &[group, &[b]].concat(), 550);
        }
    }
    for &first in TELLING {
        for &second in TELLING {
            checks.build_beside("two bytes", &[first, second], 530);
        }
    }
}

/// How many groups of a rule have a `?`. A bracket after `\` closes none.
fn optional_groups(rule: &[u8]) -> usize {
    let (mut count, mut at) = (0, 0);
    while at < rule.len() {
        count += usize::from(rule[at..].starts_with(b")?"));
        at += if rule[at] == b'\\' { 2 } else { 1 };
    }
    count
}

fn seeds(checks: &mut Checks) {
    let mut seen = Seen::default();
    for seed in 0..5200 {
        let mut r = Random::new(seed);
        let rule = match seed {
            0..1500 => small(&mut r),
            1500..3500 => broken(&mut r),
            3500..4400 => jumbled(&mut r),
            4400..4500 => long(&mut r),
            4500..4800 => {
                let deep = r.between(1, 10);
                nested(&mut r, deep)
            }
            _ => {
                let sizes = [r.between(60, 70), r.between(71, 448), r.between(449, 512), r.between(510, 515)];
                let (wanted, deep) = (sizes[r.below(4)], r.below(10));
                sized(&mut r, wanted, deep)
            }
        };
        let length = build(&rule, LONGEST).image.len();
        let room = match r.below(6) {
            0 => r.below(length + 1),
            1 => length.saturating_sub(1),
            2 => length,
            3 => LONGEST + 100,
            _ => length + r.below(20),
        };
        checks.build_beside(&format!("seed {seed}"), &rule, room);
        let number = build(&rule, room).number;
        (0..6).for_each(|n| seen.note(&format!("given {n}"), number == n));
        if number == 0 {
            let tree = parse(&rule).expect("a rule");
            seen.note("with a `?` dropped", optional_groups(&rule) > marked(&tree, Mark::Optional).len());
            seen.tree(&tree);
        }
    }
    seen.tell(checks, "built from seeds", 20);
}

/// Where they are stuck is counted; some are rules all the same.
fn wrong_by_a_byte(checks: &mut Checks) {
    let mut seen = Seen::default();
    for seed in 0..6000 {
        let mut r = Random::new(seed);
        let deep = r.between(1, 10);
        let mut rule = match seed {
            0..4000 => small(&mut r),
            4000..5500 => nested(&mut r, deep),
            _ => long(&mut r),
        };
        change(&mut r, &mut rule);
        let Built { number, place, .. } = build(&rule, 4);
        checks.build_beside(&format!("seed {seed}, one byte wrong"), &rule, 4);
        seen.note("not given 2", number != 2);
        seen.note("stuck at the first byte", number == 2 && place == 0);
        seen.note("at the last", number == 2 && place + 1 == rule.len());
        seen.note("between them", number == 2 && 0 < place && place + 1 < rule.len());
        seen.note("not stuck, but not finished", number == 2 && place == rule.len());
        seen.note("at 256 or later", place >= 256);
    }
    seen.tell(checks, "with one byte wrong", 20);
}
