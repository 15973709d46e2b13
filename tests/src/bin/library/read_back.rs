//! Read back: document 01's examples, images that the proved build gives, every byte, and writings longer than any rule.

use crate::build::{longest, unions};
use crate::checks::{Checks, LONGEST};
use crate::optional::most;
use crate::repeated::cycles;
use outside_checks::driver::{read_back_call, Answer};
use outside_checks::generate::{nested, sized, small, Random};
use outside_checks::independent::{build, image, parse, writing, Class, Item, Repeat, Sequence};
use outside_checks::{bytes, vectors};
use std::path::Path;

pub fn all(checks: &mut Checks, folder: &Path) {
    checks.part("read back: document 01's examples", examples);
    checks.part("read back: what build gives for the outside vectors", |c| built_vectors(c, folder));
    checks.part("read back: what build gives for rules from seeds", built_seeds);
    checks.part("read back: every byte", every_byte);
    checks.part("read back: writings longer than 1,024 bytes", long_writings);
    checks.part("read back: stack", stack);
}

// ---- images read back in every room

/// An image of a tree with this plain writing: room for more, just enough, one byte short, none.
pub fn rooms(checks: &mut Checks, what: &str, image: &[u64], plain: &[u8]) {
    for room in [plain.len() + 9, plain.len()] {
        checks.read_back(what, image, &Answer::of(0, plain, room));
    }
    for room in [plain.len() - 1, 0] {
        checks.read_back(what, image, &Answer::of(8, &[], room));
    }
}

/// What the proved build gives for a rule, read back as the plain writing by the independent program.
pub fn built(checks: &mut Checks, what: &str, rule: &[u8], plain: &[u8]) {
    if let Some(image) = checks.built(what, rule) {
        rooms(checks, &format!("{what}, rule {}", rule.escape_ascii()), &image, plain);
    }
}

fn plain(rule: &[u8]) -> Vec<u8> {
    writing(&parse(rule).expect("a rule"))
}

fn examples(checks: &mut Checks) {
    for (rule, plain) in [("a", "a"), ("a{2,3}", "a?aa"), ("((ab))", "ab"), ("a|b", "(a|b)"), ("((a|b)|c)", "((a|b)|c)"), ("[ba]", "[a-b]")] {
        built(checks, "an example", rule.as_bytes(), plain.as_bytes());
    }
    built(checks, "512 states", b"a{511}", &[b'a'; 511]);
    built(checks, "eight nested unions", &unions(8), &unions(8));
    built(checks, "the longest image", &longest(), &[&unions(8)[..], &[b'a'; 478]].concat());
}

fn built_vectors(checks: &mut Checks, folder: &Path) {
    for (place, v) in vectors(folder, "build").iter().filter(|(_, v)| v[2] == "0") {
        let rule = bytes(&v[0]);
        built(checks, place, &rule, &plain(&rule));
    }
}

fn built_seeds(checks: &mut Checks) {
    for seed in 0..500 {
        let mut r = Random::new(seed);
        let rule = match seed {
            0..300 => small(&mut r),
            300..400 => {
                let deep = r.between(1, 8);
                nested(&mut r, deep)
            }
            _ => {
                let (wanted, deep) = (r.between(60, 512), r.below(9));
                sized(&mut r, wanted, deep)
            }
        };
        if build(&rule, LONGEST).number == 0 {
            built(checks, &format!("seed {seed}"), &rule, &plain(&rule));
        }
    }
}

// ---- trees that no rule of 1,024 bytes has

fn tree(checks: &mut Checks, what: &str, tree: &[Item]) {
    rooms(checks, what, &image(tree), &writing(tree));
}

/// Each byte alone, up to it, from it on, and all others; with each repeat sign.
fn every_byte(checks: &mut Checks) {
    for b in 0..256 {
        let repeat = [Repeat::Once, Repeat::Option, Repeat::Star, Repeat::Plus][b % 4];
        let ways: [&dyn Fn(usize) -> bool; 4] = [&|x| x == b, &|x| x <= b, &|x| x >= b, &|x| x != b];
        for is_in in ways {
            let class = Class(std::array::from_fn(is_in));
            tree(checks, &format!("byte {b}"), &[Item::Letter(class, repeat)]);
        }
    }
}

/// Classes whose writing is long: every other byte, two in three, and any.
fn wide(r: &mut Random) -> Class {
    match r.below(3) {
        0 => Class(std::array::from_fn(|b| b % 2 == 0)),
        1 => Class(std::array::from_fn(|b| b % 3 != 2)),
        _ => Class(std::array::from_fn(|b| b == 97 || r.below(2) == 0)),
    }
}

fn widen(r: &mut Random, sequence: &mut [Item]) {
    for item in sequence {
        match item {
            Item::Letter(class, _) => *class = wide(r),
            Item::Union(_, alternatives) => alternatives.iter_mut().for_each(|a| widen(r, a)),
        }
    }
}

fn long_writings(checks: &mut Checks) {
    let mut longest = 0;
    for seed in 0..40 {
        let mut r = Random::new(seed);
        let mut wider: Sequence = if seed < 4 {
            parse(["a{511}", "a{,511}", "a{255}a*a{255}", "a+a{509}a+"][seed as usize].as_bytes()).expect("a rule")
        } else {
            let (wanted, deep) = (r.between(20, 512), r.below(9));
            parse(&sized(&mut r, wanted, deep)).expect("a rule")
        };
        widen(&mut r, &mut wider);
        let length = writing(&wider).len();
        longest = longest.max(length);
        checks.same(&format!("seed {seed}: the writing passes 1,024 bytes"), length > 1024, true);
        tree(checks, &format!("wide classes, seed {seed}"), &wider);
    }
    println!("library: the longest writing read back: {longest} bytes");
}

fn stack(checks: &mut Checks) {
    let [a, mut wider, groups, cycles] = [&b"a"[..], &longest(), &most(), &cycles()].map(|rule| parse(rule).expect("a rule"));
    widen(&mut Random::new(0), &mut wider);
    let images = [a, wider, groups, cycles].map(|tree| image(&tree)).into_iter().chain([vec![0; 9], Vec::new()]);
    checks.stack("read back", 16 << 10, &images.map(|words| read_back_call(&words, 1 << 19)).collect::<Vec<_>>());
}
