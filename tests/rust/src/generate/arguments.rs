//! Arguments of the program policyreach.

use super::numbers::{damage, hexadecimal};
use crate::random::Random;

/// What is no number, but for the last three: those name no segment.
const FORMS: [&[u8]; 30] = [
    b"", b" ", b"-", b"-1", b"+1", b" 1", b"1 ", b"1\n", b"\t1", b"00", b"01", b"0x", b"x1", b"0X1", b"0xA", b"0x00", b"0x01", b"0x10000", b"100000",
    b"1a", b"a", b"1.0", b"1,0", b"--help", b"0 3", b"\xFF", b"r", b"65536", b"99999", b"0xffff",
];
/// They come round to segment 3 in 32 and 64 bits.
const LONG: [&[u8]; 2] = [b"4294967299", b"18446744073709551619"];

/// None, two numbers, or others: too few, too many, or not numbers.
pub fn arguments(random: &mut Random, segments: usize) -> Vec<Vec<u8>> {
    let segments = segments.max(1);
    let count = match random.below(12) {
        0..=3 => 0,
        10 => random.pick(&[1, 1, 3, 3, 4, 20]),
        _ => 2,
    };
    let mut arguments: Vec<Vec<u8>> = (0..count).map(|_| number(random, segments)).collect();
    if count > 0 && random.one_in(6) {
        arguments[random.below(count)] = bad(random, segments);
    }
    arguments
}

fn number(random: &mut Random, segments: usize) -> Vec<u8> {
    let value = match random.below(8) {
        0 => random.pick(&[segments, segments + 1, 31, 32, 33, 63, 64, 255, 256, 65_535]),
        1 => random.below(segments) + random.pick(&[32, 64, 256, 65_536 - 256]),
        _ => random.below(segments),
    };
    if random.one_in(3) {
        hexadecimal(value)
    } else {
        value.to_string().into_bytes()
    }
}

fn bad(random: &mut Random, segments: usize) -> Vec<u8> {
    match random.below(8) {
        // Too long for a buffer.
        0 => vec![random.pick(b"0 1x9a"); random.pick(&[6, 7, 16, 64, 255, 256, 5_000])],
        1..=2 => {
            let mut field = number(random, segments);
            damage(random, &mut field);
            // No argument has a zero byte.
            field.retain(|&byte| byte != 0);
            field
        }
        3 => random.pick(&LONG).to_vec(),
        _ => random.pick(&FORMS).to_vec(),
    }
}
