//! The rules and journals of the speed table. Usage: speed list | speed write RULE JOURNAL FOLDER, which writes the files image, rule, text, ends and
//! sets: how many different sets of live states the journal meets. The list has the number of each rule, states/words/depth and the rule. A rule with
//! cycles has a `*` after its depth; the rule after it, with a `?`, is the same with `?` for the `*` of its groups.

use outside_checks::independent::{can_be_empty, depth, ends, image, marked, parse, states, writing, Edges, Item, Mark, Sequence};
use std::collections::BTreeSet;
use std::fs;
use std::path::Path;

/// Unions nested `level` deep, the innermost one of which can be empty.
fn nested(level: usize) -> String {
    if level == 1 {
        "(AB|C?)".to_string()
    } else {
        format!("({}A|B*)", nested(level - 1))
    }
}

/// The same, but innermost a `.*` that stays live to the end of the record.
fn kept(level: usize) -> String {
    nested(level).replace("AB|", ".*B|")
}

/// Cycles nested `level` deep, which A and B keep going round. No round is without an event.
fn cycles(level: usize) -> String {
    if level == 1 {
        "([AB]C?)*".to_string()
    } else {
        format!("([AB]{}B?)*", cycles(level - 1))
    }
}

fn tree(rule: &str) -> Sequence {
    parse(rule.as_bytes()).expect("a rule")
}

/// A rule with just so many states and that depth: from an event to D such unions or cycles, one after another, and letters.
fn rule_of(first: &str, part: fn(usize) -> String, (wanted, level): (usize, usize)) -> String {
    let mut rule = first.to_string() + &part(level);
    for part in [part(level), part(level / 2 + 1), "[AB]*".to_string()] {
        while states(&tree(&(rule.clone() + &part))) < wanted {
            rule += &part;
        }
    }
    rule + "D"
}

/// 24 words of eight events, any of the four that the journals have.
fn words() -> String {
    let mut below = generator(24);
    let words: Vec<String> = (0..24).map(|_| (0..8).map(|_| char::from(b'A' + below(4))).collect()).collect();
    format!("({})", words.join("|"))
}

/// An A and any 30 events: the live states tell which of the last 31 were an A, so that all but quiet journals meet a new set with nearly every byte.
const MANY_SETS: &str = "A[A-D]{30}";

fn rules() -> Vec<String> {
    let mut rules = ["A[BD]*A", "[AB]+B.{1,3}[BC]?.*C", "A(BA|CD)(CD|AB)B", "A(AB|B?)(B?.*|AB)C"].map(String::from).to_vec();
    rules.extend([(58, 2), (100, 2), (180, 4), (254, 3), (380, 5), (500, 8)].map(|shape| rule_of("C", nested, shape)));
    rules.extend(["D([AB]C?)+D", "D([AB](BC?)*[AC]?)*D", "D(A?(B*C?)*)*D"].map(String::from));
    rules.extend([(58, 3), (100, 2), (200, 3), (500, 8)].map(|shape| rule_of("D", cycles, shape)));
    // without chains; `.*` kept alive deep down; words; and two that meet many sets
    rules.extend(["A[BC]{2}D".to_string(), rule_of("D", kept, (251, 8)), words()]);
    rules.extend([(60, 2), (240, 4)].map(|shape| rule_of(MANY_SETS, nested, shape)));
    rules
}

/// The same without back edges, if a rule has that image: with `?` for the `*` of every group, which is dropped where the group can be empty.
fn without_cycles(tree: &Sequence) -> Option<Sequence> {
    let bodies = marked(tree, Mark::Repeated);
    (!bodies.is_empty() && !bodies.iter().any(|body| can_be_empty(&body[0]))).then(|| optional(tree))
}

fn optional(sequence: &Sequence) -> Sequence {
    let of = |item: &Item| match item {
        Item::Union(mark, all) => Item::Union(if *mark == Mark::Repeated { Mark::Optional } else { *mark }, all.iter().map(optional).collect()),
        letter => letter.clone(),
    };
    sequence.iter().map(of).collect()
}

/// Every row's shape, rule and tree.
fn rows() -> Vec<(String, String, Sequence)> {
    let shape = |t: &Sequence, sign: &str| format!("{}/{}/{}{sign}", states(t), states(t).div_ceil(64), depth(t));
    let mut rows = Vec::new();
    for rule in rules() {
        let t = tree(&rule);
        let without = without_cycles(&t);
        rows.push((shape(&t, if marked(&t, Mark::Repeated).is_empty() { "" } else { "*" }), rule, t));
        rows.extend(without.map(|t| (shape(&t, "?"), String::from_utf8(writing(&t)).expect("plain bytes"), t)));
    }
    rows
}

const JOURNALS: [&str; 3] = ["quiet", "busy", "hard"];

/// Numbers below n, always the same from a seed.
fn generator(mut state: u32) -> impl FnMut(u32) -> u8 {
    move |n| {
        state = state.wrapping_mul(1_664_525).wrapping_add(1_013_904_223);
        ((state >> 16) % n) as u8
    }
}

/// A journal of 65,535 bytes. Quiet: one event in 32 is of those that the rules name. Busy: all are. Hard: nearly all are A or B, which keep the most
/// states live and the cycles going round.
fn journal(kind: &str) -> Vec<u8> {
    let mut below = generator(1);
    let mut event = || match (kind, below(32)) {
        ("quiet", 0) | ("busy", _) | ("hard", 0) => b'A' + below(4),
        ("quiet", _) => b'E' + below(20),
        _ => b'A' + below(2),
    };
    (0..65535).map(|_| event()).collect()
}

/// How many different sets of live states a text meets, the one before any byte among them.
fn sets(tree: &Sequence, text: &[u8]) -> usize {
    let edges = Edges::of(tree);
    let (_, mut watch) = edges.begin();
    let mut met = BTreeSet::from([watch.mask.clone()]);
    for byte in text {
        let live = edges.live(&watch.mask).expect("the mask of a watch");
        (_, watch) = edges.step(live, watch.place, &[*byte]);
        met.insert(watch.mask.clone());
    }
    met.len()
}

fn main() {
    let arguments: Vec<String> = std::env::args().skip(1).collect();
    if arguments.len() != 4 {
        rows().iter().enumerate().for_each(|(i, (shape, rule, _))| println!("{i} {shape} {rule}"));
        return;
    }
    assert!(JOURNALS.contains(&arguments[2].as_str()), "JOURNAL is one of {JOURNALS:?}");
    let rule: usize = arguments[1].parse().expect("RULE");
    let (folder, (_, rule, tree), mut text) = (Path::new(&arguments[3]), &rows()[rule], journal(&arguments[2]));
    // the rules with cycles and the one that keeps `.*` alive are entered by D, and what goes on from there is to be counted from the first byte on
    text[0] = if rule.starts_with('D') { b'D' } else { text[0] };
    let lines: String = ends(tree, &text).iter().map(|p| format!("{p}\n")).collect();
    fs::create_dir_all(folder).unwrap();
    fs::write(folder.join("image"), image(tree).iter().flat_map(|w| w.to_le_bytes()).collect::<Vec<u8>>()).unwrap();
    fs::write(folder.join("rule"), writing(tree)).unwrap();
    fs::write(folder.join("sets"), sets(tree, &text).to_string()).unwrap();
    fs::write(folder.join("text"), text).unwrap();
    fs::write(folder.join("ends"), lines).unwrap();
}
