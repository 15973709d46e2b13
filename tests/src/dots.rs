//! The dot before Wish 4, which was every byte: rules and plain writings from then as they are written now, and the lines of the folders before Wish 4
//! with the answers that they have now.

use crate::{bytes, expand, hex, runs};

/// The classes of every byte and of every byte but 10, as they are written without a dot.
const EVERY: &[u8] = br"[\x00-\xFF]";
const BUT_10: &[u8] = br"[\x00-\x09\x0B-\xFF]";

/// A rule from then with each dot as the class that it was. A `.` that is not behind a `\` is a dot: in a class it needs one.
pub fn rule_of_now(rule: &[u8]) -> Vec<u8> {
    replaced(rule, &[(b".", EVERY)])
}

/// A plain writing from then: every byte was `.`, and every byte but 10 is.
pub fn writing_of_now(writing: &[u8]) -> Vec<u8> {
    replaced(writing, &[(b".", EVERY), (BUT_10, b".")])
}

/// With the second of a pair wherever the first stands and is not behind a `\`.
fn replaced(written: &[u8], pairs: &[(&[u8], &[u8])]) -> Vec<u8> {
    let (mut out, mut left) = (Vec::new(), written);
    while let Some(first) = left.first() {
        let as_it_is = &left[..if *first == b'\\' { 2 } else { 1 }];
        let (old, new) = pairs.iter().copied().find(|(old, _)| left.starts_with(old)).unwrap_or((as_it_is, as_it_is));
        out.extend(new);
        left = &left[old.len()..];
    }
    out
}

/// Words as a file has them: one to a line, in hex.
pub fn lines_of(words: &[u64]) -> String {
    words.iter().map(|word| format!("{word:x}\n")).collect()
}

/// The image that a rule of then has now: the letters that took every byte, in these lines all of them dots, no longer take byte 10.
fn image_of_now(words: &str) -> String {
    let mut image = expand(&runs(words));
    let width = image[2] as usize;
    let [letters, repeats] = [5, 6 + 256 * width];
    for word in 0..width {
        let dots = (0..256).fold(u64::MAX, |dots, byte| dots & image[letters + byte * width + word]);
        [letters, repeats].into_iter().for_each(|masks| image[masks + 10 * width + word] &= !dots);
    }
    let listed: Vec<String> = (0..image.len()).filter(|i| image[*i] > 0).map(|i| format!("{i}:{:x}", image[i])).collect();
    format!("{};{}", image.len(), listed.join(","))
}

/// A read back with the writing of now. Where its room is too little for that, the line becomes two: it is refused with 8, and in as much more room done.
fn read_back_of_now(fields: &[String]) -> Vec<Vec<String>> {
    let [image, room, number, count, written] = fields else { panic!("readback: {fields:?}") };
    let writing = writing_of_now(&bytes(written));
    let [room, count]: [usize; 2] = [room, count].map(|n| n.parse().expect("a number"));
    let line = |room: usize, number: &str, writing: &[u8]| {
        let [room, count] = [room, writing.len()].map(|n| n.to_string());
        [image, &room, number, &count, &hex(writing)].map(str::to_string).to_vec()
    };
    if writing.len() <= room {
        vec![line(room, number, &writing)]
    } else {
        vec![line(room, "8", &[]), line(room + writing.len() - count, number, &writing)]
    }
}

/// A line of this kind with its answer of now. A refusal stays, and so does what is answered for an image that is given; a report that moves is amended.
pub fn dotted(kind: &str, mut fields: Vec<String>) -> Vec<Vec<String>> {
    match kind {
        "readback" if fields[2] == "0" => return read_back_of_now(&fields),
        "build" if fields[2] == "0" => fields[4] = image_of_now(&fields[4]),
        _ => {}
    }
    vec![fields]
}
