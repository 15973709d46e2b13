//! Lines of the folders before Wish 2, which show no place: as Wish 2 has them. Where the number is 2 the place is the one that the independent program
//! finds, since the line doesn't say it.

use crate::independent::{place, refusal};
use crate::{bytes, file, hex};

/// A line of this kind with its place.
pub fn placed(kind: &str, mut fields: Vec<String>) -> Vec<String> {
    let place_of = |rule: &str| place(&file(rule).unwrap_or_default());
    match kind {
        "build" => fields.push(if fields[2] == "2" { place_of(&fields[0]) } else { 0 }.to_string()),
        "desk" if bytes(&fields[2]) == b"refused 2\n" => {
            fields[2] = hex((refusal(2, place_of(&fields[0])) + "\n").as_bytes());
        }
        _ => {}
    }
    fields
}
