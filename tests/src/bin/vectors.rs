//! The independent program against the outside vectors: every number, count, word, byte and place. Usage: vectors VECTORS

use outside_checks::dots::writing_of_now;
use outside_checks::independent::{begin, build, check, desk, match_ends, parse, parse_with, propose, read_back, step, Class, LONGEST_IMAGE};
use outside_checks::spellings::{checks, proposals};
use outside_checks::watches::watches;
use outside_checks::{amended, bytes, expand, file, is_before, lines, old_images, places, runs, vectors};
use std::path::Path;

fn main() {
    let folder = std::env::args().nth(1).expect("VECTORS");
    let folder = Path::new(&folder);
    let checked = answered(folder);
    println!("vectors: {checked} agree with the independent program, {} of them as amended by a later wish", amended(folder).len());
    let [begins, steps] = watched(folder);
    println!("vectors: {begins} begins and {steps} steps of a watch agree with it");
    let [checks, proposals] = spelled(folder);
    println!("vectors: {checks} checks and {proposals} proposals of spellings agree with it");
    println!("vectors: {} images of six sections, taken before Wish 12, get 6 as they stand", refused(folder));
    let more = vectors(folder, "build").len() - lines(folder, "build").len();
    println!("vectors: {more} builds from before it had room for six sections alone, and were made in their room and in more");
    println!("vectors: {} lines of places agree with it", placed(folder));
    let [builds, reports] = unplaced(folder);
    println!("vectors: {builds} builds and {reports} reports from before Wish 2 are refused with 2, and take their place from it");
    let [builds, read_backs] = moved(folder);
    println!("vectors: {builds} builds and {read_backs} read backs from before Wish 4 have a dot, and were made with the answers of now");
    let more = vectors(folder, "readback").len() - lines(folder, "readback").len();
    println!("vectors: {more} of the read backs had too little room for that, and were made in their room and in more");
}

/// How many lines of places agree: number and place with room for every image.
fn placed(folder: &Path) -> usize {
    let lines = vectors(folder, "place");
    for (line, v) in &lines {
        let built = build(&bytes(&v[0]), LONGEST_IMAGE);
        assert_eq!([built.number.to_string(), built.place.to_string()], v[1..], "{line}");
    }
    lines.len()
}

/// How many lines of build and of the desk program have 2 and show no place, which is not compared here then.
fn unplaced(folder: &Path) -> [usize; 2] {
    let older = |kind| vectors(folder, kind).into_iter().filter(|(line, _)| is_before("wish-02", line));
    [older("build").filter(|(_, v)| v[2] == "2").count(), older("desk").filter(|(_, v)| bytes(&v[2]).starts_with(b"refused 2 at ")).count()]
}

/// How many builds and read backs have other words or another writing since the dot is without byte 10.
fn moved(folder: &Path) -> [usize; 2] {
    let done = |kind| lines(folder, kind).into_iter().filter(|(line, v)| is_before("wish-04", line) && v[2] == "0");
    let has_dot = |rule: &[u8]| parse(rule) != parse_with(Class::every(), rule);
    let written_otherwise = |writing: Vec<u8>| writing_of_now(&writing) != writing;
    [done("build").filter(|(_, v)| has_dot(&bytes(&v[0]))).count(), done("readback").filter(|(_, v)| written_otherwise(bytes(&v[4]))).count()]
}

/// How many images of six sections there are, which are all refused.
fn refused(folder: &Path) -> usize {
    let images = old_images(folder);
    for (place, image) in &images {
        assert_eq!(read_back(&expand(image), usize::MAX), (6, Vec::new()), "{place}");
    }
    images.len()
}

/// How many calls of the three operations and of the desk program agree.
fn answered(folder: &Path) -> usize {
    let mut checked = 0;
    for (place, v) in vectors(folder, "build") {
        let built = build(&bytes(&v[0]), v[1].parse().unwrap());
        let numbers = [built.number, built.image.len() as u64, built.place as u64];
        assert_eq!(numbers.map(|n| n.to_string()), [2, 3, 5].map(|k| v[k].clone()), "{place}");
        assert_eq!(built.image, expand(&runs(&v[4])), "{place}");
        checked += 1;
    }
    for (place, v) in vectors(folder, "readback") {
        let (number, written) = read_back(&expand(&runs(&v[0])), v[1].parse().unwrap());
        assert_eq!((number.to_string(), written.len().to_string(), written), (v[2].clone(), v[3].clone(), bytes(&v[4])), "{place}");
        checked += 1;
    }
    for (place, v) in vectors(folder, "match") {
        let (number, found) = match_ends(&expand(&runs(&v[0])), &bytes(&v[1]));
        let written: Vec<u64> = found.iter().take(v[2].parse().unwrap()).map(|p| u64::from(*p)).collect();
        assert_eq!((number.to_string(), found.len().to_string(), written), (v[3].clone(), v[4].clone(), places(&v[5])), "{place}");
        checked += 1;
    }
    for (place, v) in vectors(folder, "desk") {
        assert_eq!(desk(&file(&v[0]).unwrap_or_default(), &file(&v[1]).unwrap_or_default()), bytes(&v[2]), "{place}");
        checked += 1;
    }
    checked
}

/// How many begins and steps of the watch agree.
fn watched(folder: &Path) -> [usize; 2] {
    let mut checked = [0, 0];
    for (place, image, calls) in watches(folder, &|i| i as u64) {
        let image = expand(&image);
        for (i, call) in calls.into_iter().enumerate() {
            let (number, ends, after) = match &call.stretch {
                None => begin(&image, &call.lent),
                Some(stretch) => step(&image, &call.lent, stretch),
            };
            let written = &ends[..ends.len().min(call.room)];
            let expected = (call.number, call.total as usize, &call.ends[..], call.after);
            assert_eq!((number, ends.len(), written, after), expected, "{place}, call {i}");
            checked[usize::from(call.stretch.is_some())] += 1;
        }
    }
    checked
}

/// How many checks and proposals of spellings agree.
fn spelled(folder: &Path) -> [usize; 2] {
    let (checks, proposals) = (checks(folder), proposals(folder));
    for call in &checks {
        assert_eq!(check(&expand(&call.image), &call.text, &call.proposal), (call.number, call.yes), "{}", call.place);
    }
    for call in &proposals {
        assert_eq!(propose(&expand(&call.image), &call.text, call.end, call.room), (call.number, call.count), "{}", call.place);
    }
    [checks.len(), proposals.len()]
}
