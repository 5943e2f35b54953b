//! Changes to a text, line by line and field by field, near every limit.

use super::flows;
use super::numbers::{damage, hexadecimal, is_place, other_form, rewrite, worth};
use crate::random::Random;

pub type Lines = Vec<Vec<Vec<u8>>>;

pub fn split(text: &[u8]) -> Lines {
    let mut lines: Lines = text.split(|&byte| byte == b'\n').map(|line| line.split(|&byte| byte == b'\t').map(<[u8]>::to_vec).collect()).collect();
    lines.pop();
    lines
}

pub fn join(lines: &Lines) -> Vec<u8> {
    let mut text = Vec::new();
    for line in lines {
        text.extend_from_slice(&line.join(&b'\t'));
        text.push(b'\n');
    }
    text
}

const EDGES: [&str; 32] = [
    "0", "1", "2", "3", "7", "8", "9", "10", "31", "32", "33", "43", "44", "45", "255", "256", "999", "1000", "1001", "4095", "4096", "4097",
    "12288", "16383", "16384", "16385", "32768", "65535", "65536", "65580", "99999", "64",
];
const FORMS: [&str; 20] =
    ["", "00", "01", "044", "00000", "000001", "100000", "123456", "4294967340", "+1", "-1", " 1", "1 ", "1a", "a", "1x", "1.", "/", ":", "\u{b2}"];
const HEX_EDGES: [&str; 32] = [
    "0x0", "0x1", "0x2", "0x7", "0x8", "0x9", "0xa", "0xf", "0x10", "0x1f", "0x20", "0x21", "0x2b", "0x2c", "0x2d", "0xff", "0x100", "0x3e7",
    "0x3e8", "0x3e9", "0xfff", "0x1000", "0x1001", "0x3000", "0x3001", "0x3fff", "0x4000", "0x4001", "0x8000", "0xfffe", "0xffff", "0x40",
];
const HEX_FORMS: [&str; 37] = [
    "0x", "0X", "0x00", "0x01", "0x000", "0x0001", "0x00000", "0x0ffff", "0x10000", "0x12345", "0xfffff", "0X1", "0XA", "0xA", "0xF", "0xaF", "0xFa",
    "0xG", "0xg", "0xfg", "0x1g", "x1", "00x1", "0xx1", "0x0x1", "0x 1", "0x1 ", " 0x1", "0x-1", "0x+1", "0x/", "0x:", "0x@", "0x`", "ff", "0a",
    "2c",
];
const WORDS: [&str; 16] = [
    "segment",
    "partition",
    "right",
    "flow",
    "slot",
    "",
    "Segment",
    "segments",
    "segmen",
    "partitions",
    "rights",
    "flows",
    "slots",
    "slo",
    " slot",
    "memory",
];
const LETTERS: [&str; 14] = ["r", "w", "rw", "wr", "R", "", "rr", "rwr", "r ", "x", "0", "3", "0x1", "0x3"];

pub(super) fn word(line: &[Vec<u8>]) -> &[u8] {
    line.first().map_or(&[], |word| word)
}

pub(super) fn number(line: &[Vec<u8>], field: usize) -> usize {
    line.get(field).and_then(|field| worth(field)).unwrap_or(0)
}

/// In the form of what stood there.
fn put(line: &mut [Vec<u8>], field: usize, value: usize) {
    if let Some(place) = line.get_mut(field) {
        *place = if place.starts_with(b"0x") { hexadecimal(value) } else { value.to_string().into_bytes() };
    }
}

/// A random line of a kind, or of any kind if there is none.
fn line_of(random: &mut Random, lines: &Lines, kind: &str) -> Option<usize> {
    let of_kind: Vec<usize> = (0..lines.len()).filter(|&at| word(&lines[at]) == kind.as_bytes()).collect();
    if of_kind.is_empty() {
        return (!lines.is_empty()).then(|| random.below(lines.len()));
    }
    Some(of_kind[random.below(of_kind.len())])
}

/// One change.
pub fn mutate(random: &mut Random, lines: &mut Lines) {
    let kind = random.pick(&["segment", "partition", "right", "flow", "slot"]);
    let Some(at) = line_of(random, lines, kind) else {
        return lines.push(vec![random.pick(&WORDS).into()]);
    };
    match random.below(14) {
        0..=2 => {
            field(random, &mut lines[at]);
            // A second change to the same line: lines that break two rules.
            if random.one_in(3) {
                field(random, &mut lines[at]);
            }
        }
        3 => fields(random, &mut lines[at]),
        4..=5 => order(random, lines, at),
        6 => roles(random, lines),
        7 => bases(random, lines),
        8 => one_more(random, lines),
        9 => drop_needed(random, lines),
        10 => two_rules(random, lines),
        // One kind missing.
        11 if random.one_in(4) => lines.retain(|line| word(line) != kind.as_bytes()),
        _ => flows::change(random, lines),
    }
}

/// One field: a number at a limit, one up or down, in the other form or in none; the word; the letters.
fn field(random: &mut Random, line: &mut [Vec<u8>]) {
    let which = random.below(line.len());
    if !is_place(line, which) {
        line[which] = if which == 0 { random.pick(&WORDS) } else { random.pick(&LETTERS) }.into();
        return;
    }
    match random.below(10) {
        0 => line[which] = random.pick(&FORMS).into(),
        1 => line[which] = random.pick(&HEX_FORMS).into(),
        2 => damage(random, &mut line[which]),
        3..=4 => put(line, which, number(line, which) + 1),
        5 => put(line, which, number(line, which).saturating_sub(1)),
        // No answer changes, unless the text gets too long.
        6 => line[which] = other_form(&line[which]).unwrap_or_else(|| line[which].clone()),
        7 => line[which] = random.pick(&HEX_EDGES).into(),
        _ => line[which] = random.pick(&EDGES).into(),
    }
}

/// The number of fields, and what parts them.
fn fields(random: &mut Random, line: &mut Vec<Vec<u8>>) {
    let which = random.below(line.len());
    match random.below(6) {
        0 => drop(line.remove(which)),
        1 => line.insert(which, random.pick(&EDGES).into()),
        2 => line.insert(which, Vec::new()),
        3 => line.push(Vec::new()),
        4 => line.push(b"0".to_vec()),
        // A space or nothing in place of a tab.
        _ if which + 1 < line.len() => {
            let next = line.remove(which + 1);
            if random.one_in(2) {
                line[which].push(b' ');
            }
            line[which].extend_from_slice(&next);
        }
        _ => (),
    }
}

/// Lines gone, doubled, swapped, moved, empty.
fn order(random: &mut Random, lines: &mut Lines, at: usize) {
    match random.below(6) {
        0 => drop(lines.remove(at)),
        1 => lines.insert(at, lines[at].clone()),
        2 if at + 1 < lines.len() => lines.swap(at, at + 1),
        3 => {
            let other = random.below(lines.len());
            lines.swap(at, other);
        }
        4 => {
            let line = lines.remove(at);
            let to = random.below(lines.len() + 1);
            lines.insert(to, line);
        }
        _ => lines.insert(at, vec![Vec::new()]),
    }
}

/// Save and code roles: two partitions with one save segment, code that is a save segment, a right on one, a flow from a segment to itself.
fn roles(random: &mut Random, lines: &mut Lines) {
    let of = |random: &mut Random, lines: &Lines, field: usize| line_of(random, lines, "partition").map_or(0, |at| number(&lines[at], field));
    match random.below(6) {
        0..=3 => {
            let (to, from) = (random.from(2, 3), random.from(2, 3));
            let value = of(random, lines, from);
            if let Some(at) = line_of(random, lines, "partition") {
                put(&mut lines[at], to, value);
            }
        }
        4 => {
            let save = of(random, lines, 3);
            if let Some(at) = line_of(random, lines, "right") {
                put(&mut lines[at], 2, save);
            }
        }
        _ => {
            if let Some(at) = line_of(random, lines, "flow") {
                let (from, to) = random.pick(&[(1, 2), (2, 1)]);
                let value = number(&lines[at], from);
                put(&mut lines[at], to, value);
            }
        }
    }
}

/// Segments that touch or overlap by one, and sums at 16,384.
fn bases(random: &mut Random, lines: &mut Lines) {
    let (Some(one), Some(other)) = (line_of(random, lines, "segment"), line_of(random, lines, "segment")) else { return };
    let (base, length) = (number(&lines[other], 2), number(&lines[other], 3));
    let (own_base, own) = (number(&lines[one], 2), number(&lines[one], 3));
    let by_one = random.below(2);
    match random.below(6) {
        // Its first byte on or just past the other's last.
        0 => put(&mut lines[one], 2, (base + length).saturating_sub(by_one)),
        // Its last byte on or just before the other's first.
        1 => put(&mut lines[one], 2, (base + by_one).saturating_sub(own)),
        2 => put(&mut lines[one], 3, (base + by_one).saturating_sub(own_base)),
        // Inside the other.
        3 => put(&mut lines[one], 2, base + random.below(length.max(1))),
        4 => put(&mut lines[one], 2, (16_384 + by_one).saturating_sub(own)),
        _ => put(&mut lines[one], 3, (16_384 + by_one).saturating_sub(own_base)),
    }
}

/// One line more at the end of a kind, with the id that comes next (the 33rd segment or slot and the 9th partition, in a large policy).
fn one_more(random: &mut Random, lines: &mut Lines) {
    let kind = random.pick(&["segment", "segment", "partition", "slot", "slot"]);
    let count = lines.iter().filter(|line| word(line) == kind.as_bytes()).count();
    let end = lines.iter().rposition(|line| word(line) == kind.as_bytes()).map_or(lines.len(), |at| at + 1);
    let id = if random.one_in(5) { count + random.below(3) } else { count };
    let (a, b) = (random.below(9), random.below(9));
    let line = match kind {
        "segment" => format!("segment\t{id}\t{}\t{}", random.pick(&[0, 16_383, 16_384 - 44, 9_000, 16_385]), random.pick(&[1, 44, 0, 5_000])),
        "partition" => format!("partition\t{id}\t{a}\t{b}"),
        _ => format!("slot\t{}\t{}", if a < 5 { 0 } else { a }, random.pick(&[1, 1_000, 1_001, 0])),
    };
    let mut new = split(format!("{line}\n").as_bytes());
    rewrite(random, &mut new, 3);
    lines.splice(end..end, new);
}

/// Rules 7, 8 and 16: a right on the code segment or another gone or weakened, a right made wider, a flow gone.
fn drop_needed(random: &mut Random, lines: &mut Lines) {
    match random.below(4) {
        0 => {
            let Some(at) = line_of(random, lines, "flow") else { return };
            lines.remove(at);
        }
        1 => {
            let Some(at) = line_of(random, lines, "right") else { return };
            lines.remove(at);
        }
        _ => {
            let Some(at) = line_of(random, lines, "right") else { return };
            if lines[at].len() == 4 {
                lines[at][3] = random.pick(&["r", "w", "rw"]).into();
            }
        }
    }
}

/// A line that breaks rule 3 and rule 4 or 5, or 4 and 5.
fn two_rules(random: &mut Random, lines: &mut Lines) {
    let kind = random.pick(&["segment", "segment", "partition", "partition", "right", "flow", "slot"]);
    let Some(at) = line_of(random, lines, kind) else { return };
    let big = |random: &mut Random| random.pick(&[8, 32, 33, 40, 99_999]);
    match (kind, random.below(3)) {
        ("segment", 0) => put(&mut lines[at], 3, 5_000),
        ("segment", 1) => {
            let (id, base) = (number(&lines[at], 1) + 1, number(&lines[0], 2));
            put(&mut lines[at], 1, id);
            put(&mut lines[at], 2, base);
        }
        ("segment", _) => {
            put(&mut lines[at], 1, 0);
            put(&mut lines[at], 2, 16_380);
        }
        ("partition", which) => {
            let value = big(random);
            let other = number(&lines[at], 2 + which % 2);
            put(&mut lines[at], 1 + which, value);
            put(&mut lines[at], 3 - which % 2, other);
        }
        ("right", which) => {
            let save = line_of(random, lines, "partition").map_or(0, |p| number(&lines[p], 3));
            let value = if which == 0 { 0 } else { big(random) };
            put(&mut lines[at], 1, value);
            put(&mut lines[at], 2, save);
        }
        ("flow", which) => {
            let value = if which == 0 { 0 } else { big(random) };
            put(&mut lines[at], 1, value);
            put(&mut lines[at], 2, value);
        }
        (_, _) => {
            // A slot line too early and out of range.
            let mut line = lines.remove(at);
            put(&mut line, 2, 1_001);
            let to = random.below(lines.len() + 1);
            lines.insert(to, line);
        }
    }
}
