//! Writes a repository with a crate of theorems: for each outside vector that the checker can compute, and for some calls of a watch and some of
//! spellings, that the one answer which the table gives is the vector's. `rt check` then computes them over a copy of the crate `model`.
//! Usage: definitions VECTORS OUT

use outside_checks::independent::{classes, marked, parse, states, tree_of, Class, Item, Mark};
use outside_checks::spellings::{checks, proposals};
use outside_checks::watches::{watches, WatchCall};
use outside_checks::{bytes, expand, old_images, places, runs, vectors, word, Runs};
use std::collections::{HashMap, HashSet};
use std::fmt::Write as _;
use std::fs;
use std::path::Path;

/// The checker computes masks state by state, and the verdict on an image far more slowly than the image: larger ones take it too long.
const STATES: u64 = 7;
const IMAGE_STATES: u64 = 3;
const BYTES: usize = 24;

/// An image with an optional union or a repeated group has four states at least; there are few of at most so many.
const OPTIONAL_STATES: u64 = 8;
const REPEATED_STATES: u64 = 9;

/// Rules of up to so many bytes show every way in which a reading stops; there are many.
const PLACE_BYTES: usize = 8;

/// So many images of six sections are enough: their length is wrong.
const SIX_SECTIONS: usize = 4;

/// So many calls of a watch of each kind are enough, and so many of spellings.
const EACH: usize = 4;
const SPELLED: usize = 2;

/// What the lent words and bytes hold before a call.
const BEFORE: u64 = 7;

const HEAD: &str = "\
-- The outside vectors, computed from the definitions.
use mathlib.Core.Path.{◌≡◌, refl}
use mathlib.Core.Bool.{Bool, true, false, ◌&&◌}
use mathlib.Core.List.{List, [], ◌∷◌, ◌++◌}
use Prim.Native.Nat.{ℕ}
use lib.Dec.{eqb}
use lib.ListN.{replicate}
use Rattle.model.specs.Models.Verdict.{same_words}
";

const EXPAND: &str = "
abbrev expand : List (ℕ × ℕ) → List ℕ
expand [] = []
expand (r ∷ rs) = replicate r.0 r.1 ++ expand rs
";

const ANSWERS: [&str; 2] = [
    "\
use Rattle.model.specs.Answers.{Counted}
use Rattle.model.proofs.Answers.Build.{build_answer}
use Rattle.model.proofs.Answers.ReadBack.{read_back_answer}
use Rattle.model.proofs.Answers.Match.{match_answer}
",
    "
abbrev is : Counted → ℕ → ℕ → ℕ → List (ℕ × ℕ) → Bool
is a number place count lent = eqb a.number number && (eqb a.place place && (eqb a.given count && same_words a.lent (expand lent)))
",
];

const WATCHES: [&str; 2] = [
    "\
use Rattle.model.specs.Watch.{Watched}
use Rattle.model.proofs.Watch.Answers.{begin_answer, step_answer}
",
    "
abbrev counts : Watched → ℕ → ℕ → Bool
counts a number count = eqb a.number number && eqb a.given count

abbrev is : Watched → ℕ → ℕ → List (ℕ × ℕ) → ℕ → List (ℕ × ℕ) → Bool
is a number count mask place ends = counts a number count && (same_words a.lent.mask (expand mask) && (eqb a.lent.place place && same_words a.lent.ends (expand ends)))
",
];

const SPELLINGS: [&str; 2] = [
    "\
use mathlib.Core.Bool.{cond}
use Rattle.model.specs.Spelling.{Judgement, Proposal}
use Rattle.model.proofs.Spelling.Answers.{check_answer, propose_answer}
",
    "
abbrev check : Judgement → ℕ × ℕ
check a = (a.number, cond a.given 1 0)

abbrev propose : Proposal → ℕ × ℕ
propose a = (a.number, a.given.count)

abbrev is : ℕ × ℕ → ℕ → ℕ → Bool
is a number count = eqb a.0 number && eqb a.1 count
",
];

fn list(runs: &Runs) -> String {
    let mut out = String::from("(");
    for (n, value) in runs {
        write!(out, "({n}, {value}) ∷ ").unwrap();
    }
    out + "[])"
}

fn numbers(values: impl Iterator<Item = u64>) -> String {
    let mut out = String::from("(");
    for value in values {
        write!(out, "{value} ∷ ").unwrap();
    }
    out + "[])"
}

/// What was lent, with `whole` written over its beginning as far as it fits.
fn lent(whole: Runs, room: usize) -> Runs {
    let mut left = room;
    let mut out = Runs::new();
    for (n, value) in whole {
        out.push((n.min(left), value));
        left -= n.min(left);
    }
    out.push((left, BEFORE));
    out
}

fn singles(values: impl Iterator<Item = u64>) -> Runs {
    values.map(|v| (1, v)).collect()
}

/// What is lent before a call.
fn before(room: usize) -> String {
    format!("(replicate {room} {BEFORE})")
}

/// A module of theorems.
struct Theorems {
    text: String,
    count: usize,
    left_out: usize,
}

impl Theorems {
    /// With further imports, and a definition of what is claimed.
    fn of([imports, is]: [&str; 2]) -> Theorems {
        Theorems { text: [HEAD, imports, EXPAND, is].concat(), count: 0, left_out: 0 }
    }

    /// The claim that a call `is` this answer, after the place where its vector stands (tests/definitions shows both where the proof fails).
    fn add(&mut self, place: &str, call: String, answer: String) {
        self.count += 1;
        let n = self.count;
        writeln!(self.text, "\n-- {place}\nvector-{n} : is ({call}) {answer} ≡ true\nvector-{n} = refl").unwrap();
    }
}

/// The newest mark that an image has; none for words that are no image.
fn newest_mark(image: &Runs) -> Option<Mark> {
    let tree = tree_of(&expand(image))?;
    let newest = [Mark::Repeated, Mark::Optional].into_iter().find(|mark| !marked(&tree, *mark).is_empty());
    Some(newest.unwrap_or(Mark::Unmarked))
}

/// Whether a tree has a letter of every byte, or of every byte but 10.
fn has_wide_letter(tree: &[Item]) -> bool {
    classes(tree).into_iter().any(|class| *class == Class::every() || *class == Class::dot())
}

/// Whether an image is too large, or comes with a wish and has not what is new with it: an optional union with wish 3, a repeated group with wish 12, one
/// of the widest letters with wish 4.
fn left_out(place: &str, image: &Runs) -> bool {
    let mark = newest_mark(image);
    let most = match mark {
        None | Some(Mark::Unmarked) => IMAGE_STATES,
        Some(Mark::Optional) => OPTIONAL_STATES,
        Some(Mark::Repeated) => REPEATED_STATES,
    };
    let like_others = match mark {
        Some(Mark::Unmarked) => place.starts_with("wish-03") || place.starts_with("wish-12"),
        Some(Mark::Optional) => place.starts_with("wish-12"),
        None | Some(Mark::Repeated) => false,
    };
    let shows_dot = || tree_of(&expand(image)).is_some_and(|tree| has_wide_letter(&tree));
    word(image, 1) > most || like_others || place.starts_with("wish-04") && !shows_dot()
}

/// Whether a build is too large. A refusal for room (5) needs the image's length, and so its masks; one for states or depth (3, 4) the whole tree, which is
/// beyond bounds where `+` doubles groups.
fn build_left_out(rule: &[u8], number: &str) -> bool {
    let states = parse(rule).map_or(0, |tree| states(&tree) as u64);
    match number {
        "0" => states > STATES,
        "3" | "4" => rule.windows(2).any(|two| two == b")+"),
        "5" => states > STATES || rule.len() > STATES as usize,
        _ => false,
    }
}

/// Whether a build comes with a wish and shows nothing that is new with it: with wish 2 a place, with wish 4 one of the widest letters.
fn build_like_others(place: &str, rule: &[u8], number: &str) -> bool {
    let shows_dot = || number == "0" && parse(rule).is_some_and(|tree| has_wide_letter(&tree));
    place.starts_with("wish-02") && number != "2" || place.starts_with("wish-04") && !shows_dot()
}

/// What is claimed of an answer: its number, place and count, and what was lent as it is afterwards.
fn answer(number: &str, place: &str, count: &str, after: &Runs) -> String {
    format!("{number} {place} {count} {}", list(after))
}

fn build_call(rule: &[u8], room: usize) -> String {
    format!("build_answer {} {}", numbers(rule.iter().map(|b| u64::from(*b))), before(room))
}

/// Builds; and of the lines of places those of short rules that are refused with 2, each rule once, and with no room at all, since 2 comes before 5.
fn builds(folder: &Path, t: &mut Theorems) {
    let mut refused = HashSet::new();
    for (place, v) in vectors(folder, "build") {
        let (rule, room, number) = (bytes(&v[0]), v[1].parse::<usize>().unwrap(), v[2].as_str());
        if build_left_out(&rule, number) || build_like_others(&place, &rule, number) {
            t.left_out += 1;
            continue;
        }
        t.add(&place, build_call(&rule, room), answer(number, &v[5], &v[3], &lent(runs(&v[4]), room)));
        refused.extend((number == "2").then_some(rule));
    }
    for (place, v) in vectors(folder, "place") {
        let rule = bytes(&v[0]);
        if v[1] != "2" || rule.len() > PLACE_BYTES || refused.contains(&rule) {
            t.left_out += 1;
            continue;
        }
        t.add(&place, build_call(&rule, 0), answer(&v[1], &v[2], "0", &lent(Runs::new(), 0)));
        refused.insert(rule);
    }
}

fn answers(folder: &Path) -> Theorems {
    let mut t = Theorems::of(ANSWERS);
    builds(folder, &mut t);
    for (place, v) in vectors(folder, "readback") {
        let (image, room) = (runs(&v[0]), v[1].parse::<usize>().unwrap());
        if left_out(&place, &image) {
            t.left_out += 1;
            continue;
        }
        let call = format!("read_back_answer (expand {}) {}", list(&image), before(room));
        t.add(&place, call, answer(&v[2], "0", &v[3], &lent(singles(bytes(&v[4]).into_iter().map(u64::from)), room)));
    }
    let small = old_images(folder).into_iter().filter(|(_, image)| word(image, 1) <= IMAGE_STATES);
    for (place, image) in small.take(SIX_SECTIONS) {
        t.add(&place, format!("read_back_answer (expand {}) {}", list(&image), before(9)), answer("6", "0", "0", &lent(Runs::new(), 9)));
    }
    for (place, v) in vectors(folder, "match") {
        let (image, text, room) = (runs(&v[0]), bytes(&v[1]), v[2].parse::<usize>().unwrap());
        if left_out(&place, &image) || text.len() > BYTES {
            t.left_out += 1;
            continue;
        }
        let call = format!("match_answer (expand {}) {} {}", list(&image), numbers(text.iter().map(|b| u64::from(*b))), before(room));
        t.add(&place, call, answer(&v[3], "0", &v[4], &lent(singles(places(&v[5]).into_iter()), room)));
    }
    t
}

/// The first calls of each kind, one to a line: begin or step, by number, by whether there are bytes and ends; and one of each with an optional union and
/// one with a repeated group.
fn watched(folder: &Path) -> Theorems {
    let (mut t, mut seen) = (Theorems::of(WATCHES), HashMap::<_, Vec<String>>::new());
    for (place, image, calls) in watches(folder, &|_| BEFORE) {
        let (left_out, mark) = (left_out(&place, &image), newest_mark(&image).unwrap_or(Mark::Unmarked));
        let enough = if mark == Mark::Unmarked { EACH } else { 1 };
        for WatchCall { lent: given, stretch, room, number, total, ends, after } in calls {
            let bytes = stretch.as_ref().map(Vec::len);
            let alike = seen.entry((bytes.is_some(), number, bytes > Some(0), total > 0, mark)).or_default();
            if left_out || bytes > Some(BYTES) || alike.len() == enough || alike.contains(&place) {
                t.left_out += 1;
                continue;
            }
            alike.push(place.clone());
            let (words, mask, at, ends_before) = (list(&image), numbers(given.mask.into_iter()), given.place, before(room));
            let call = match stretch {
                None => format!("begin_answer (expand {words}) {mask} {at} {ends_before}"),
                Some(bytes) => {
                    let stretch = numbers(bytes.into_iter().map(u64::from));
                    format!("step_answer (expand {words}) {mask} {at} {stretch} {ends_before}")
                }
            };
            let (mask, ends) = (list(&singles(after.mask.into_iter())), list(&lent(singles(ends.into_iter().map(u64::from)), room)));
            t.add(&place, call, format!("{number} {total} {mask} {} {ends}", after.place));
        }
    }
    t
}

/// The first calls of each kind: check by number and yes, propose by number and whether there are states; and one of each with an optional union and one
/// with a repeated group. Of a proposal the states are free.
fn spelled(folder: &Path) -> Theorems {
    let (mut t, mut seen) = (Theorems::of(SPELLINGS), HashMap::new());
    let mut add = |kind: &str, place: &str, image: Runs, text: Vec<u8>, given: String, number: u64, count: u64| {
        let mark = newest_mark(&image).unwrap_or(Mark::Unmarked);
        let (alike, enough) = (seen.entry((kind.to_string(), number, count > 0, mark)).or_insert(0), if mark == Mark::Unmarked { SPELLED } else { 1 });
        if left_out(place, &image) || text.len() > BYTES || *alike == enough {
            t.left_out += 1;
            return;
        }
        *alike += 1;
        let text = numbers(text.into_iter().map(u64::from));
        t.add(place, format!("{kind} ({kind}_answer (expand {}) {text} {given})", list(&image)), format!("{number} {count}"));
    };
    for c in checks(folder) {
        let given = format!("{} {} {}", c.proposal.start, c.proposal.end, numbers(c.proposal.states.into_iter().map(u64::from)));
        add("check", &c.place, c.image, c.text, given, c.number, u64::from(c.yes));
    }
    for p in proposals(folder) {
        add("propose", &p.place, p.image, p.text, format!("{} {}", p.end, before(p.room)), p.number, p.count as u64);
    }
    t
}

fn main() {
    let arguments: Vec<String> = std::env::args().collect();
    let (folder, out) = (Path::new(&arguments[1]), Path::new(&arguments[2]));
    let krate = out.join("crates/vectors");
    fs::create_dir_all(krate.join("src")).unwrap();
    fs::create_dir_all(krate.join("specs")).unwrap();
    fs::write(out.join("crates.txt"), "model:\nvectors: model\n").unwrap();
    fs::write(krate.join("src/lib.rt"), "// No code: the theorems stand in specs/.\npub const VECTORS: usize = 0;\n").unwrap();
    fs::write(krate.join("specs/Lib.antt"), "pub mod Vectors\npub mod Watches\npub mod Spellings\n").unwrap();
    let modules =
        [("Vectors", "vectors", answers(folder)), ("Watches", "calls of a watch", watched(folder)), ("Spellings", "calls of spellings", spelled(folder))];
    for (name, what, t) in modules {
        println!("definitions: {} {what} to compute, {} left out as too large for the checker or like others", t.count, t.left_out);
        fs::write(krate.join("specs").join(format!("{name}.antt")), t.text).unwrap();
    }
}
