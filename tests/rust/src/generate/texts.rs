//! Random policy texts: accepted ones, mutated ones, and texts put together line by line or byte by byte.

use super::mutations::{join, mutate, split};
use super::numbers::{rewrite, written};
use super::policies::{longest, policy, Shape};
use crate::kernel::Policy;
use crate::random::Random;
use crate::reference::print;

pub fn text_of(policy: &Policy) -> Vec<u8> {
    print(policy).expect("counts within the tables").into_bytes()
}

/// The record's text with all its numbers in hexadecimal.
pub fn hexadecimal_text_of(policy: &Policy) -> Vec<u8> {
    let mut lines = split(&text_of(policy));
    rewrite(&mut Random::new(0), &mut lines, 1);
    join(&lines)
}

/// One text of any sort.
pub fn text(random: &mut Random) -> Vec<u8> {
    match random.below(20) {
        0 => {
            let text = text_of(&any_policy(random));
            written(random, text)
        }
        1..=2 => {
            let text = soup(random);
            written(random, text)
        }
        3 => bytes(random),
        _ => {
            let text = text_of(&any_policy(random));
            let mut lines = split(&written(random, text));
            // One mutation mostly; more of them for lines that break two rules, and for the order of bad lines.
            for _ in 0..random.pick(&[1, 1, 1, 2, 2, 3, 5]) {
                mutate(random, &mut lines);
            }
            let mut text = join(&lines);
            if random.one_in(8) {
                spoil_bytes(random, &mut text);
            }
            text
        }
    }
}

fn any_policy(random: &mut Random) -> Policy {
    if random.one_in(300) {
        return longest();
    }
    let shape = match random.below(60) {
        0 => Shape::DENSE,
        1..=8 => Shape::LARGE,
        _ => Shape::any(random),
    };
    policy(random, shape)
}

/// Changes below the level of fields: single bytes, line ends, the text's length.
fn spoil_bytes(random: &mut Random, text: &mut Vec<u8>) {
    const BYTES: [u8; 26] = *b"\t\n\r \x00019rwsxXafgAFG/:@`\x0B\x7F\xFF";
    if text.is_empty() {
        return text.push(random.pick(&BYTES));
    }
    let at = random.below(text.len());
    match random.below(9) {
        0 => text[at] = random.pick(&BYTES),
        1 => text[at] ^= 1 << random.below(8),
        2 => text.insert(at, random.pick(&BYTES)),
        3 => drop(text.remove(at)),
        4 => text.truncate(at),
        // The last line end cut off.
        5 => drop(text.pop()),
        // Bytes after the last line end.
        6 => text.extend_from_slice(random.pick(&[b"slot\t0\t1" as &[u8], b"x", b"\t", b"\r", b"\n", b"\n\n"])),
        7 => {
            if let Some(end) = text[at..].iter().position(|&byte| byte == b'\n') {
                text.insert(at + end, b'\r');
            }
        }
        // To a length near the limit, with a byte that may or may not be a line's.
        _ => {
            let length = random.pick(&[16_383, 16_384, 16_385, 16_386, 20_000, 65_536 + 300]);
            let last = text.len().min(random.from(1, 20));
            let tail = text[text.len() - last..].to_vec();
            while text.len() < length {
                text.push(tail[text.len() % last]);
            }
            text.truncate(length);
        }
    }
}

/// Lines put together one by one: mostly in order and in range.
fn soup(random: &mut Random) -> Vec<u8> {
    // How many lines of each kind.
    const COUNTS: [[usize; 8]; 5] =
        [[0, 1, 2, 3, 4, 4, 4, 6], [0, 1, 1, 1, 1, 1, 2, 3], [0, 1, 1, 1, 2, 2, 3, 6], [0, 1, 1, 2, 2, 3, 4, 6], [0, 1, 1, 1, 2, 2, 3, 4]];
    let mut soup = Soup::default();
    for (kind, counts) in COUNTS.iter().enumerate() {
        soup.pair = (0, 0);
        for _ in 0..random.pick(counts) {
            let kind = if random.one_in(60) { random.below(5) } else { kind };
            soup.line(random, kind);
        }
    }
    soup.text.into_bytes()
}

#[derive(Default)]
struct Soup {
    text: String,
    segments: usize,
    partitions: usize,
    /// Where the last segment ends.
    base: usize,
    /// That of the last line of the kind.
    pair: (usize, usize),
}

impl Soup {
    fn line(&mut self, random: &mut Random, kind: usize) {
        self.next_pair(random, kind);
        let pair = self.pair;
        let line = match kind {
            0 => self.segment(random),
            1 => self.partition(random),
            2 => format!("right\t{}\t{}\t{}\n", pair.0, pair.1, random.pick(&["r", "r", "rw", "w"])),
            3 => format!("flow\t{}\t{}\n", pair.0, pair.1),
            _ => format!("slot\t{}\t{}\n", below(random, self.partitions), random.pick(&[1, 2, 3, 1_000, 1_000, 1_001, 0])),
        };
        self.text += &line;
    }

    /// Pairs ascend mostly, and every other flow goes into a segment that may be a save segment.
    fn next_pair(&mut self, random: &mut Random, kind: usize) {
        let (first, second) = self.pair;
        self.pair = match random.below(12) {
            0 => (first, second),
            _ if kind == 3 && random.one_in(2) => (first + 1, 2 * random.below(self.partitions)),
            1..=8 => (first, second + random.from(1, 2)),
            _ => (first + 1, random.below(2)),
        };
    }

    fn segment(&mut self, random: &mut Random) -> String {
        let length = if random.one_in(2) { 44 } else { random.pick(&[[44, 44, 44, 12], [44, 12, 1, 64]][self.segments % 2]) };
        let base = if random.one_in(15) { below(random, 400) } else { self.base };
        self.base = base + length;
        self.segments += 1;
        format!("segment\t{}\t{base}\t{length}\n", next(random, self.segments - 1))
    }

    /// Mostly an even segment to save in, and the one behind it for code.
    fn partition(&mut self, random: &mut Random) -> String {
        let id = self.partitions;
        self.partitions += 1;
        let (code, save) = if random.one_in(4) { (below(random, self.segments), below(random, self.segments)) } else { (2 * id + 1, 2 * id) };
        format!("partition\t{}\t{code}\t{save}\n", next(random, id))
    }
}

/// A number below a limit, mostly.
fn below(random: &mut Random, most: usize) -> usize {
    match random.below(30) {
        0 => random.pick(&[0, 7, 8, 31, 32, 33, 44, 4_096, 4_097, 16_384, 65_536, 99_999]),
        1 => most,
        _ => random.below(most.max(1)),
    }
}

/// The next id, mostly.
fn next(random: &mut Random, count: usize) -> usize {
    if random.one_in(60) {
        below(random, count)
    } else {
        count
    }
}

/// Bytes and pieces of lines in no order.
fn bytes(random: &mut Random) -> Vec<u8> {
    const PIECES: [&[u8]; 25] = [
        b"segment",
        b"partition",
        b"right",
        b"flow",
        b"slot",
        b"\t",
        b"\t",
        b"\t",
        b"\n",
        b"0",
        b"1",
        b"44",
        b"0x",
        b"0x2c",
        b"x",
        b"a",
        b"A",
        b"r",
        b"w",
        b"rw",
        b" ",
        b"\r",
        b"\0",
        b"segment\t0\t0\t44\n",
        b"slot\t0\t1\n",
    ];
    let mut text = Vec::new();
    for _ in 0..random.below(12) {
        text.extend_from_slice(random.pick(&PIECES));
    }
    text
}
