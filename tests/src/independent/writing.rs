//! The plain writing.

use super::{is_plain, Class, Item, Mark, Repeat, SIGNS};

fn write_byte(byte: u8, out: &mut Vec<u8>) {
    if byte == b'-' || SIGNS.contains(&byte) {
        out.extend([b'\\', byte]);
    } else if is_plain(byte) {
        out.push(byte);
    } else {
        out.extend(format!("\\x{byte:02X}").bytes());
    }
}

fn write_class(dot: &Class, class: &Class, out: &mut Vec<u8>) {
    if class == dot {
        return out.push(b'.');
    }
    let mut runs: Vec<(u8, u8)> = Vec::new();
    for byte in (0..=255u8).filter(|b| class.0[*b as usize]) {
        match runs.last_mut() {
            Some(run) if byte > 0 && run.1 == byte - 1 => run.1 = byte,
            _ => runs.push((byte, byte)),
        }
    }
    match runs[..] {
        [(low, high)] if low == high => write_byte(low, out),
        _ => {
            out.push(b'[');
            for (low, high) in runs {
                write_byte(low, out);
                if low < high {
                    out.push(b'-');
                    write_byte(high, out);
                }
            }
            out.push(b']');
        }
    }
}

pub fn writing(sequence: &[Item]) -> Vec<u8> {
    writing_with(&Class::dot(), sequence)
}

/// The same with `.` for this class.
pub fn writing_with(dot: &Class, sequence: &[Item]) -> Vec<u8> {
    let mut out = Vec::new();
    for item in sequence {
        match item {
            Item::Letter(class, repeat) => {
                write_class(dot, class, &mut out);
                match repeat {
                    Repeat::Once => {}
                    Repeat::Option => out.push(b'?'),
                    Repeat::Star => out.push(b'*'),
                    Repeat::Plus => out.push(b'+'),
                }
            }
            Item::Union(mark, alternatives) => {
                let written: Vec<Vec<u8>> = alternatives.iter().map(|a| writing_with(dot, a)).collect();
                out.push(b'(');
                out.extend(written.join(&b'|'));
                out.push(b')');
                match mark {
                    Mark::Unmarked => {}
                    Mark::Optional => out.push(b'?'),
                    Mark::Repeated => out.push(b'*'),
                }
            }
        }
    }
    out
}
