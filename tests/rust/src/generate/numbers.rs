//! The two forms of a number in a text.

use super::mutations::{join, split, Lines};
use crate::random::Random;

pub fn hexadecimal(value: usize) -> Vec<u8> {
    format!("0x{value:x}").into_bytes()
}

/// What a field is worth, in either form; also of some fields that are no numbers, such as 01 and 0xA.
pub fn worth(field: &[u8]) -> Option<usize> {
    let text = std::str::from_utf8(field).ok()?;
    let value = match text.strip_prefix("0x") {
        Some(digits) => u32::from_str_radix(digits, 16).ok()?,
        None => text.parse().ok()?,
    };
    Some(value as usize)
}

/// The same number in the form that the field does not have, if the field is a number that has both.
pub fn other_form(field: &[u8]) -> Option<Vec<u8>> {
    let value = worth(field).filter(|&value| value <= 0xFFFF)?;
    let (decimal, hexadecimal) = (value.to_string().into_bytes(), hexadecimal(value));
    if field == decimal {
        Some(hexadecimal)
    } else if field == hexadecimal {
        Some(decimal)
    } else {
        None
    }
}

/// Whether a number stands in a field of a line: not the word, and not a right's letters.
pub fn is_place(line: &[Vec<u8>], field: usize) -> bool {
    field > 0 && !(field == 3 && line[0] == b"right")
}

/// Puts numbers into the other form, each once in `rate`.
pub fn rewrite(random: &mut Random, lines: &mut Lines, rate: usize) {
    for line in lines {
        for field in 1..line.len() {
            if is_place(line, field) && random.one_in(rate) {
                if let Some(other) = other_form(&line[field]) {
                    line[field] = other;
                }
            }
        }
    }
}

/// A text in decimal, with none, some or all of its numbers in hexadecimal.
pub fn written(random: &mut Random, text: Vec<u8>) -> Vec<u8> {
    let rate = random.pick(&[0, 0, 0, 1, 1, 2, 2, 5, 30]);
    if rate == 0 {
        return text;
    }
    let mut lines = split(&text);
    rewrite(random, &mut lines, rate);
    join(&lines)
}

/// A number that is hexadecimal, or is made so, and then wrong by little.
pub fn damage(random: &mut Random, field: &mut Vec<u8>) {
    *field = hexadecimal(worth(field).unwrap_or(0xA) & 0xFFFF);
    let digit = random.from(2, field.len() - 1);
    match random.below(9) {
        0 => field[digit] = random.pick(b"ABCDEF"),
        1 => field[1] = b'X',
        // A leading zero (0 becomes 0x00).
        2 => field.insert(2, b'0'),
        // Five digits.
        3 => field.resize(7, random.pick(b"0123456789abcdef")),
        4 => field.truncate(2),
        5 => field[digit] = random.pick(b"gGxX/:@` \r-+\0\xE1"),
        6 => field.push(random.pick(b"gzAFx \r\0")),
        // The x gone, or the 0.
        7 => drop(field.remove(1)),
        _ => drop(field.remove(0)),
    }
}
