//! Reading the outside vectors (their format is in vectors/README.md); the documents once more, independently; calls of the library for C, and rules
//! and texts for it.

pub mod by_hand;
pub mod dots;
pub mod driver;
pub mod generate;
mod grown;
pub mod independent;
mod placed;
pub mod spellings;
pub mod texts;
pub mod watches;

use dots::dotted;
use grown::grown;
use placed::placed;
use std::fs;
use std::path::Path;

/// A list of words as runs of equal words: (how many, which).
pub type Runs = Vec<(usize, u64)>;

/// The kinds of vectors in each folder, and the folders in the order in which their wishes landed.
const KINDS: [(&str, &[&str]); 7] = [
    ("base", &["build", "readback", "match", "desk"]),
    ("wish-01", &["watch"]),
    ("wish-09", &["check", "propose"]),
    ("wish-03", &["build", "readback", "match", "desk", "watch", "check", "propose"]),
    ("wish-12", &["build", "readback", "match", "desk", "watch", "check", "propose"]),
    ("wish-02", &["build", "place", "desk"]),
    ("wish-04", &["build", "readback", "match", "desk", "watch"]),
];

/// One vector: where it stands, and its fields after the kind.
pub type Vector = (String, Vec<String>);

fn read(path: &Path) -> String {
    fs::read_to_string(path).unwrap_or_else(|e| panic!("{}: {e}", path.display()))
}

/// The lines of one kind in all folders as they stand there.
pub fn lines(folder: &Path, kind: &str) -> Vec<Vector> {
    let mut all: Vec<Vector> = Vec::new();
    for (since, _) in KINDS.iter().filter(|(_, kinds)| kinds.contains(&kind)) {
        let file = format!("{since}/{kind}.txt");
        all.extend((1..).zip(read(&folder.join(&file)).lines()).map(|(n, line)| {
            let fields = line.strip_prefix(kind).and_then(|rest| rest.strip_prefix(' ')).unwrap_or_else(|| panic!("{file} {n}: {line}"));
            (format!("{file} {n}"), fields.split(' ').map(str::to_string).collect())
        }));
    }
    all
}

/// The vectors of one kind in all folders: those that a later wish answers otherwise with that answer, images of six sections with the seventh, builds
/// and reports from before there were places with theirs, and builds and read backs from before the dot was without byte 10 with the answers of now.
pub fn vectors(folder: &Path, kind: &str) -> Vec<Vector> {
    let mut all = lines(folder, kind);
    for (line, fields) in amended(folder).into_iter().filter(|(_, fields)| fields[0] == kind) {
        let (_, old) = all.iter_mut().find(|(place, _)| *place == line).unwrap_or_else(|| panic!("amended: no {line}"));
        assert!(old[..2] == fields[1..3] && old[2..] != fields[3..], "amended: {line} is another call, or has this answer");
        *old = fields[1..].to_vec();
    }
    let of = |(place, fields): Vector| {
        let lines = if is_before("wish-12", &place) { grown(kind, fields) } else { vec![fields] };
        let with_place = |fields| if is_before("wish-02", &place) { placed(kind, fields) } else { fields };
        let with_dots = |fields| if is_before("wish-04", &place) { dotted(kind, fields) } else { vec![fields] };
        lines.into_iter().map(with_place).flat_map(with_dots).map(|fields| (place.clone(), fields)).collect::<Vec<_>>()
    };
    all.into_iter().flat_map(of).collect()
}

/// Whether a line stands in a folder from before a wish.
pub fn is_before(wish: &str, place: &str) -> bool {
    KINDS.iter().map(|(folder, _)| folder).take_while(|folder| **folder != wish).any(|folder| place.starts_with(folder))
}

/// The images that the lines from before Wish 12 show and that were taken then: where each stands, and its words as they stand.
pub fn old_images(folder: &Path) -> Vec<(String, Runs)> {
    let kinds = [("build", 4, 2), ("readback", 0, 2), ("match", 0, 3), ("watch", 0, 3), ("check", 0, 5), ("propose", 0, 4)];
    let of = |(kind, image, number): (&str, usize, usize)| {
        let old = lines(folder, kind).into_iter().filter(|(place, _)| is_before("wish-12", place));
        let taken = old.filter(move |(_, fields)| fields[number] != "6" && fields[image] != "0;-");
        taken.map(move |(place, fields)| (place, runs(&fields[image]))).collect::<Vec<_>>()
    };
    kinds.into_iter().flat_map(of).collect()
}

/// The vectors that a later wish answers otherwise, as amended.txt gives them: where each stands, and its line of now, the kind included.
pub fn amended(folder: &Path) -> Vec<Vector> {
    let text = read(&folder.join("amended.txt"));
    let of = |line: &str| {
        let fields: Vec<String> = line.split(' ').map(str::to_string).collect();
        (fields[..2].join(" "), fields[2..].to_vec())
    };
    text.lines().filter(|line| !line.starts_with('#')).map(of).collect()
}

/// Bytes in hex, `-` for none; `HEX*N` is N bytes, these over and over.
pub fn bytes(field: &str) -> Vec<u8> {
    if field == "-" {
        return Vec::new();
    }
    let (hex, length) = field.split_once('*').map_or((field, field.len() / 2), |(hex, n)| (hex, n.parse().expect("length")));
    assert!(hex.len() % 2 == 0, "odd hex: {field}");
    let once: Vec<u8> = (0..hex.len() / 2).map(|i| u8::from_str_radix(&hex[2 * i..2 * i + 2], 16).expect("hex")).collect();
    once.into_iter().cycle().take(length).collect()
}

/// Bytes as such a field.
pub fn hex(bytes: &[u8]) -> String {
    if bytes.is_empty() {
        return "-".to_string();
    }
    bytes.iter().map(|byte| format!("{byte:02x}")).collect()
}

/// A file's bytes, or no file.
pub fn file(field: &str) -> Option<Vec<u8>> {
    (field != "missing").then(|| bytes(field))
}

/// Words as LENGTH;RUNS; a run of several values is these over and over.
pub fn runs(field: &str) -> Runs {
    let (length, listed) = field.split_once(';').expect("LENGTH;RUNS");
    let length: usize = length.parse().expect("length");
    let mut out = Runs::new();
    let mut at = 0;
    for run in listed.split(',').filter(|r| *r != "-") {
        let (places, value) = run.split_once(':').expect("places:value");
        let (first, last) = places.split_once('-').unwrap_or((places, places));
        let (first, last): (usize, usize) = (first.parse().expect("place"), last.parse().expect("place"));
        if at < first {
            out.push((first - at, 0));
        }
        let values: Vec<u64> = value.split('/').map(|v| u64::from_str_radix(v, 16).expect("hex")).collect();
        at = last + 1;
        match values[..] {
            [value] => out.push((at - first, value)),
            _ => out.extend(values.iter().cycle().take(at - first).map(|v| (1, *v))),
        }
    }
    if at < length {
        out.push((length - at, 0));
    }
    out
}

/// The words themselves.
pub fn expand(runs: &Runs) -> Vec<u64> {
    runs.iter().flat_map(|(n, value)| std::iter::repeat_n(*value, *n)).collect()
}

/// The word at a place.
pub fn word(runs: &Runs, place: usize) -> u64 {
    let mut at = 0;
    for (n, value) in runs {
        at += n;
        if place < at {
            return *value;
        }
    }
    0
}

/// Ends in decimal between commas, `-` for none.
pub fn places(field: &str) -> Vec<u64> {
    field.split(',').filter(|p| *p != "-").map(|p| p.parse().expect("place")).collect()
}
