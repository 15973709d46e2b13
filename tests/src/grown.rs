//! Lines of the folders before Wish 12, whose images have six sections: as Wish 12 has them, with a seventh that has no back edge.

use crate::{runs, word};

/// Words of six sections with the seventh; any other words as they are.
fn with_seventh(words: &str) -> String {
    let (length, listed) = words.split_once(';').expect("LENGTH;RUNS");
    let (length, image): (usize, _) = (length.parse().expect("length"), runs(words));
    // cut where no image is as wide or as deep
    let [first, width, depth] = [0, 2, 3].map(|place| word(&image, place).min(1 << 20) as usize);
    if first != 3 || length != 9 + width * (515 + 9 * depth) {
        return words.to_string();
    }
    let count = 2 * width * depth;
    format!("{};{listed},{length}:{count:x}", length + 1 + count)
}

/// A build with its image grown. Where its room is too little for that now, the line becomes two: it is refused with 5, and in as much more room done.
fn grown_build(fields: &[String]) -> Vec<Vec<String>> {
    let [rule, room, number, count, words] = fields else { panic!("build: {fields:?}") };
    let words = with_seventh(words);
    let length = words.split(';').next().expect("LENGTH");
    let [room, count, length]: [usize; 3] = [room, count, length].map(|n| n.parse().expect("a number"));
    let line = |room: usize, number: &str, count: usize, words: &str| [rule, &room.to_string(), number, &count.to_string(), words].map(str::to_string).to_vec();
    if length <= room {
        vec![line(room, number, length, &words)]
    } else {
        vec![line(room, "5", 0, "0;-"), line(room + length - count, number, length, &words)]
    }
}

/// A line of this kind with such words grown.
pub fn grown(kind: &str, mut fields: Vec<String>) -> Vec<Vec<String>> {
    match kind {
        "desk" => vec![fields],
        "build" => grown_build(&fields),
        _ => {
            fields[0] = with_seventh(&fields[0]);
            vec![fields]
        }
    }
}
