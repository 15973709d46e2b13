//! The outside vectors, and faults planted in copies of their answers: the comparison must see every one.

use crate::checks::{Checks, LONGEST};
use outside_checks::driver::{begin_call, build_call, check_call, match_call, propose_call, read_back_call, step_call};
use outside_checks::driver::{Answer, Judged, Lent, Proposed, Reply, Watched};
use outside_checks::generate::Random;
use outside_checks::independent::{self, Built, Proposal, Watch};
use outside_checks::spellings;
use outside_checks::watches::watches;
use outside_checks::{bytes, expand, old_images, places, runs, vectors, word};
use std::ops::BitXor;
use std::path::Path;

/// What a call gave, and what was expected.
type Pairs<R> = Vec<(R, R)>;

pub fn all(checks: &mut Checks, folder: &Path) {
    let (mut built, mut written, mut found, mut watched) = (Vec::new(), Vec::new(), Vec::new(), Vec::new());
    let (mut judged, mut proposed) = (Vec::new(), Vec::new());
    checks.part("outside vectors: build", |c| built = build(c, folder));
    checks.part("outside vectors: place", |c| built.extend(place(c, folder)));
    checks.part("outside vectors: read back", |c| written = read_back(c, folder));
    checks.part("outside vectors: match", |c| found = match_ends(c, folder));
    checks.part("outside vectors: watch", |c| watched = watch(c, folder));
    checks.part("outside vectors: check", |c| judged = check(c, folder));
    checks.part("outside vectors: propose", |c| proposed = propose(c, folder));
    checks.part("images of six sections as they stand", |c| six_sections(c, folder));
    checks.part("faults planted in copies of build's answers", |c| planted(c, &built, build_faults));
    checks.part("faults planted in copies of read back's answers", |c| planted(c, &written, faults));
    checks.part("faults planted in copies of match's answers", |c| planted(c, &found, faults));
    checks.part("faults planted in copies of the watch's answers", |c| planted(c, &watched, watch_faults));
    checks.part("faults planted in copies of check's answers", |c| planted(c, &judged, check_faults));
    checks.part("faults planted in copies of propose's answers", |c| planted(c, &proposed, propose_faults));
    checks.part("changes in and beside what is given and lent", changes);
}

fn room(field: &str) -> usize {
    field.parse().expect("ROOM")
}

/// The expected answer: NUMBER and COUNT, and the whole of which the vector has what fits.
fn expected<T: Lent>(number: &str, count: &str, written: &[T], room: usize) -> Answer<T> {
    Answer { count: count.parse().expect("COUNT"), ..Answer::of(number.parse().expect("NUMBER"), written, room) }
}

fn build(checks: &mut Checks, folder: &Path) -> Pairs<Answer<u64>> {
    let mut answers = Vec::new();
    for (place, v) in vectors(folder, "build") {
        let count = if v[2] == "2" { &v[5] } else { &v[3] };
        let expected = expected(&v[2], count, &expand(&runs(&v[4])), room(&v[1]));
        answers.extend(checks.build(&place, &bytes(&v[0]), &expected).map(|got| (got, expected)));
    }
    answers
}

/// Builds with room for every image, of which the lines show number and place; the image is the independent program's.
fn place(checks: &mut Checks, folder: &Path) -> Pairs<Answer<u64>> {
    let mut answers = Vec::new();
    for (line, v) in vectors(folder, "place") {
        let rule = bytes(&v[0]);
        let built = Built { number: v[1].parse().expect("NUMBER"), place: v[2].parse().expect("PLACE"), ..independent::build(&rule, LONGEST) };
        let expected = Answer::built(&built, LONGEST);
        answers.extend(checks.build(&line, &rule, &expected).map(|got| (got, expected)));
    }
    answers
}

fn read_back(checks: &mut Checks, folder: &Path) -> Pairs<Answer<u8>> {
    let mut answers = Vec::new();
    for (place, v) in vectors(folder, "readback") {
        let expected = expected(&v[2], &v[3], &bytes(&v[4]), room(&v[1]));
        answers.extend(checks.read_back(&place, &expand(&runs(&v[0])), &expected).map(|got| (got, expected)));
    }
    answers
}

fn match_ends(checks: &mut Checks, folder: &Path) -> Pairs<Answer<u32>> {
    let mut answers = Vec::new();
    for (place, v) in vectors(folder, "match") {
        let ends: Vec<u32> = places(&v[5]).iter().map(|p| *p as u32).collect();
        let expected = expected(&v[3], &v[4], &ends, room(&v[2]));
        answers.extend(checks.match_ends(&place, &expand(&runs(&v[0])), &bytes(&v[1]), &expected).map(|got| (got, expected)));
    }
    answers
}

fn watch(checks: &mut Checks, folder: &Path) -> Pairs<Watched> {
    let mut answers = Vec::new();
    for (what, image, calls) in watches(folder, &u64::before) {
        let image = expand(&image);
        for call in calls {
            let found = Answer { count: call.total, ..Answer::of(call.number, &call.ends, call.room) };
            let expected = Watched { found, watch: call.after };
            let got = match &call.stretch {
                None => checks.begin(&what, &image, &call.lent, &expected),
                Some(stretch) => checks.step(&what, &image, &call.lent, stretch, &expected),
            };
            answers.extend(got.map(|got| (got, expected)));
        }
    }
    answers
}

fn check(checks: &mut Checks, folder: &Path) -> Pairs<Judged> {
    let mut answers = Vec::new();
    for call in spellings::checks(folder) {
        let expected = Judged::of((call.number, call.yes));
        let got = checks.check(&call.place, &expand(&call.image), &call.text, &call.proposal, &expected);
        answers.extend(got.map(|got| (got, expected)));
    }
    answers
}

fn propose(checks: &mut Checks, folder: &Path) -> Pairs<Proposed> {
    let mut answers = Vec::new();
    for call in spellings::proposals(folder) {
        let image = expand(&call.image);
        let expected = Proposed::of((call.number, call.count), call.room);
        let got = checks.propose(&call.place, &image, &call.text, call.end, &expected);
        checks.proposal_beside(&call.place, &image, &call.text, call.end, got.as_ref());
        answers.extend(got.map(|got| (got, expected)));
    }
    answers
}

/// What was an image before Wish 12 gets 6 from every call.
fn six_sections(checks: &mut Checks, folder: &Path) {
    for (place, image) in old_images(folder) {
        let (words, watch) = (expand(&image), Watch { mask: vec![1; word(&image, 2) as usize], place: 3 });
        let proposal = Proposal { start: 0, end: 1, states: vec![1] };
        checks.read_back(&place, &words, &Answer::of(6, &[], 9));
        checks.match_ends(&place, &words, b"ab", &Answer::of(6, &[], 3));
        checks.begin(&place, &words, &watch, &Watched::of(6, &[], 1, watch.clone()));
        checks.step(&place, &words, &watch, b"ab", &Watched::of(6, &[], 2, watch.clone()));
        checks.check(&place, &words, b"ab", &proposal, &Judged { number: 6, yes: 0 });
        checks.propose(&place, &words, b"ab", 1, &Proposed::of((6, 0), 1));
    }
}

// ---- that a wrong answer would be seen

fn planted<R: Reply>(checks: &mut Checks, answers: &Pairs<R>, faults: impl Fn(&mut Random, &R) -> Vec<R>) {
    let mut r = Random::new(1);
    for (got, expected) in answers {
        for fault in faults(&mut r, expected) {
            checks.same("a planted fault is seen", got.difference(&fault).is_some(), true);
        }
    }
}

/// Copies of an answer, each with one thing wrong: the number, the count, or something of what was lent.
fn faults<T: Lent + BitXor<Output = T>>(r: &mut Random, right: &Answer<T>) -> Vec<Answer<T>> {
    let mut faults = vec![right.clone(); 2];
    faults[0].number += 1;
    faults[1].count += 1;
    let lists = lent_faults(r, &right.lent, right.written().len());
    faults.extend(lists.into_iter().map(|lent| Answer { lent, ..right.clone() }));
    faults
}

/// Copies of what was lent, each with one thing wrong: one element less or more, one of those written changed, one past them.
fn lent_faults<T: Lent + BitXor<Output = T>>(r: &mut Random, right: &[T], written: usize) -> Vec<Vec<T>> {
    let longer = [right, &[T::before(right.len())]].concat();
    let mut faults = vec![longer];
    faults.extend(right.split_last().map(|(_, shorter)| shorter.to_vec()));
    for (from, to) in [(0, written), (written, right.len())] {
        if from < to {
            let (mut fault, place) = (right.to_vec(), r.between(from, to - 1));
            fault[place] = fault[place] ^ T::cut(1 << r.below(T::BITS as usize));
            faults.push(fault);
        }
    }
    faults
}

/// The same of build; with 2 the place is wrong where the count is, and is also one too small, and 0.
fn build_faults(r: &mut Random, right: &Answer<u64>) -> Vec<Answer<u64>> {
    let smaller = if right.number == 2 && right.count > 0 { vec![right.count - 1, 0] } else { Vec::new() };
    faults(r, right).into_iter().chain(smaller.into_iter().map(|count| Answer { count, ..right.clone() })).collect()
}

/// The same of begin and step, or the mask or the place wrong.
fn watch_faults(r: &mut Random, right: &Watched) -> Vec<Watched> {
    let Watched { found, watch: Watch { mask, place } } = right;
    let mut watches = vec![Watch { mask: mask.clone(), place: place ^ (1 << r.below(64)) }];
    watches.extend(lent_faults(r, mask, mask.len()).into_iter().map(|mask| Watch { mask, place: *place }));
    let found = faults(r, found).into_iter().map(|found| Watched { found, watch: right.watch.clone() });
    found.chain(watches.into_iter().map(|watch| Watched { found: right.found.clone(), watch })).collect()
}

fn check_faults(_: &mut Random, right: &Judged) -> Vec<Judged> {
    vec![Judged { number: right.number + 1, ..right.clone() }, Judged { yes: 1 - right.yes, ..right.clone() }]
}

/// The number or the count wrong, or something past the states, which are free.
fn propose_faults(r: &mut Random, Proposed(right): &Proposed) -> Vec<Proposed> {
    let (states, rest) = right.lent.split_at(right.written().len());
    let numbers = [(right.number + 1, right.count), (right.number, right.count + 1)].map(|(number, count)| Answer { number, count, ..right.clone() });
    let lists = lent_faults(r, rest, 0).into_iter().map(|fault| Answer { lent: [states, &fault].concat(), ..right.clone() });
    numbers.into_iter().chain(lists).map(Proposed).collect()
}

/// The driver itself changes what a call must not change: in each area given, and in and beside each area lent.
fn changes(checks: &mut Checks) {
    let (image, watch) = ([1, 2, 3], Watch { mask: vec![5; 7], place: 9 });
    let watched = Watched::of(0, &[], 7, watch.clone());
    spoilt(checks, &build_call(b"abc", 7), &[3], &[7], &Answer::<u64>::of(0, &[], 7));
    spoilt(checks, &read_back_call(&image, 7), &[3], &[7], &Answer::<u8>::of(0, &[], 7));
    spoilt(checks, &match_call(&image, b"abcd", 7), &[3, 4], &[7], &Answer::<u32>::of(0, &[], 7));
    spoilt(checks, &begin_call(&image, &watch, 7), &[3], &[7, 1, 7], &watched);
    spoilt(checks, &step_call(&image, &watch, b"abcd", 7), &[3, 4], &[7, 1, 7], &watched);
    let proposal = Proposal { start: 1, end: 3, states: vec![1, 2] };
    spoilt(checks, &check_call(&image, b"abcd", &proposal), &[3, 4, 2], &[], &Judged { number: 0, yes: 0 });
    spoilt(checks, &propose_call(&image, b"abcd", 3, 7), &[3, 4], &[7], &Proposed::of((0, 0), 7));
}

/// A call with areas of these lengths given and lent.
fn spoilt<R: Reply>(checks: &mut Checks, call: &str, given: &[i64], lent: &[i64], as_it_was: &R) {
    for (area, length) in given.iter().enumerate() {
        for place in [0, length - 1] {
            let seen = checks.driver.call::<R>(&format!("spoil given {area} {place} {call}")).is_err();
            checks.same("a change in what is given is seen", seen, true);
        }
    }
    for (area, length) in lent.iter().enumerate() {
        for place in [-128, -1, *length, length + 127] {
            let seen = checks.driver.call::<R>(&format!("spoil lent {area} {place} {call}")).is_err();
            checks.same("a change beside what is lent is seen", seen, true);
        }
        for place in [0, length / 2, length - 1] {
            let got = checks.driver.call::<R>(&format!("spoil lent {area} {place} {call}"));
            checks.same("a change in what is lent is seen", matches!(got.map(|a| a.difference(as_it_was)), Ok(Some(_))), true);
        }
    }
}
