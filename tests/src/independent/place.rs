//! The place of a rule: how many of its bytes an automaton takes before it is stuck. It keeps of a beginning only what decides how that can go on to
//! some text in the grammar; no tree is made, and no byte is looked at twice.

use super::{is_plain, SIGNS};

/// What a byte is written for.
#[derive(Clone, Copy)]
enum For {
    Letter,
    /// in a class: alone, or as the lower end of a range
    Single,
    /// the upper end of a range with this lower one
    Upper(u8),
}

/// Where the automaton stands in the innermost brackets.
#[derive(Clone, Copy)]
enum At {
    /// where an item has to come: at the start, after `(` and after `|`
    Start,
    /// after an item, which may take one of these signs
    Item(&'static [u8]),
    /// in a class, where a single has to come
    Class(For),
    /// in a class, after a member; after a single there may come `-`
    Member(Option<u8>),
    /// after `\`, after `\x`, and after the first hex digit
    Escape(For),
    Hex(For),
    LastHex(For, u8),
    /// in braces: in the first number, as far as it is written, and in the second, which has to be at least so much
    First(Option<u32>),
    Second(u32, Option<u32>),
}

const LETTER: At = At::Item(b"?*+{");
const GROUP: At = At::Item(b"?*+");
const SIGNED: At = At::Item(b"");

impl For {
    /// After the whole byte, if it is one that will do.
    fn then(self, byte: u8) -> Option<At> {
        match self {
            For::Letter => Some(LETTER),
            For::Single => Some(At::Member(Some(byte))),
            For::Upper(lower) => (lower <= byte).then_some(At::Member(None)),
        }
    }
}

fn hex(byte: u8) -> Option<u8> {
    char::from(byte).to_digit(16).map(|digit| digit as u8)
}

/// A number with one more digit: it has at most three, and none after 0.
fn longer(number: Option<u32>, byte: u8) -> Option<u32> {
    let digit = char::from(byte).to_digit(10)?;
    match number {
        None => Some(digit),
        Some(before @ 1..100) => Some(10 * before + digit),
        Some(_) => None,
    }
}

/// Whether some number of at least so much begins with the digits of this one.
fn can_reach(least: u32, number: u32) -> bool {
    let digits = number.to_string();
    (least..1000).any(|wanted| wanted.to_string().starts_with(&digits))
}

impl At {
    /// After one more byte, and how many brackets are open then; none where it is stuck.
    fn then(self, byte: u8, open: &mut usize) -> Option<At> {
        match (self, byte) {
            (At::Item(_), b'|') => Some(At::Start),
            (At::Item(_), b')') => {
                *open = open.checked_sub(1)?;
                Some(GROUP)
            }
            (At::Item(signs), _) if signs.contains(&byte) => Some(if byte == b'{' { At::First(None) } else { SIGNED }),
            (At::Start | At::Item(_), b'(') => {
                *open += 1;
                Some(At::Start)
            }
            (At::Start | At::Item(_), b'.') => Some(LETTER),
            (At::Start | At::Item(_), b'[') => Some(At::Class(For::Single)),
            (At::Start | At::Item(_), b'\\') => Some(At::Escape(For::Letter)),
            (At::Start | At::Item(_), _) => is_plain(byte).then_some(LETTER),

            (At::Member(Some(lower)), b'-') => Some(At::Class(For::Upper(lower))),
            (At::Member(_), b']') => Some(LETTER),
            (At::Member(_), _) => At::Class(For::Single).then(byte, open),
            (At::Class(wanted), b'\\') => Some(At::Escape(wanted)),
            (At::Class(wanted), _) if is_plain(byte) && byte != b'-' => wanted.then(byte),

            (At::Escape(wanted), b'x') => Some(At::Hex(wanted)),
            (At::Escape(wanted), _) if byte == b'-' || SIGNS.contains(&byte) => wanted.then(byte),
            (At::Class(_) | At::Escape(_), _) => None,
            (At::Hex(wanted), _) => {
                let first = hex(byte)?;
                // if any byte with this digit will do, the largest will
                wanted.then(16 * first + 15).map(|_| At::LastHex(wanted, first))
            }
            (At::LastHex(wanted, first), _) => wanted.then(16 * first + hex(byte)?),

            (At::First(x), b',') => Some(At::Second(x.unwrap_or(0).max(1), None)),
            (At::First(x), b'}') => (x >= Some(1)).then_some(SIGNED),
            (At::First(x), _) => longer(x, byte).map(|x| At::First(Some(x))),
            (At::Second(least, y), b'}') => (y >= Some(least)).then_some(SIGNED),
            (At::Second(least, y), _) => longer(y, byte).filter(|y| can_reach(least, *y)).map(|y| At::Second(least, Some(y))),
        }
    }
}

/// The length of the longest beginning of a rule that is also the beginning of some text in the grammar.
pub fn place(rule: &[u8]) -> usize {
    let (mut at, mut open) = (At::Start, 0);
    for (place, byte) in rule.iter().enumerate() {
        let Some(next) = at.then(*byte, &mut open) else { return place };
        at = next;
    }
    rule.len()
}
