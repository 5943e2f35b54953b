//! Changes to a text's right and flow lines around rule 16: a flow more into a save segment or elsewhere, and a right that comes or goes with the
//! flows that it asks for or without them.

use super::mutations::{number, word, Lines};
use super::numbers::rewrite;
use crate::random::Random;
use std::collections::BTreeMap;
use std::ops::Range;

/// The pairs of right or flow lines, with a right's letters.
type Pairs = BTreeMap<(usize, usize), Vec<u8>>;

/// Where the lines of a kind stand, if they stand together (or would, before this place).
fn block(lines: &Lines, kind: &[u8], before: usize) -> Option<Range<usize>> {
    let start = lines.iter().position(|line| word(line) == kind).unwrap_or(before);
    let end = lines.iter().rposition(|line| word(line) == kind).map_or(start, |at| at + 1);
    lines[start..end].iter().all(|line| word(line) == kind).then_some(start..end)
}

fn pairs(lines: &[Vec<Vec<u8>>]) -> Pairs {
    lines.iter().map(|line| ((number(line, 1), number(line, 2)), line.get(3).cloned().unwrap_or_default())).collect()
}

/// Lines in the order of their pairs, some or all of their numbers in hexadecimal.
fn written(random: &mut Random, kind: &[u8], pairs: &Pairs) -> Lines {
    let mut lines: Lines = Vec::new();
    for (&(first, second), letters) in pairs {
        let mut line = vec![kind.to_vec(), first.to_string().into(), second.to_string().into()];
        if !letters.is_empty() {
            line.push(letters.clone());
        }
        lines.push(line);
    }
    let rate = random.pick(&[1, 3, 1_000, 1_000]);
    rewrite(random, &mut lines, rate);
    lines
}

/// What the lines say of one partition, and the pairs to change.
struct View {
    segments: usize,
    partition: usize,
    save: usize,
    saves: Vec<usize>,
    rights: Pairs,
    flows: Pairs,
}

impl View {
    fn may(&self, segment: usize, letter: u8) -> bool {
        segment == self.save || self.rights.get(&(self.partition, segment)).is_some_and(|letters| letters.contains(&letter))
    }

    fn flow(&mut self, from: usize, to: usize) {
        self.flows.insert((from, to), Vec::new());
    }

    /// A segment that is the save segment of none.
    fn open(&self, random: &mut Random) -> usize {
        let open: Vec<usize> = (0..self.segments).filter(|segment| !self.saves.contains(segment)).collect();
        if open.is_empty() {
            0
        } else {
            random.pick(&open)
        }
    }

    /// A right more, or another one, with every flow that r asks for: with w alone the line into the save segment is a stray one.
    fn right(&mut self, random: &mut Random) {
        let (segment, letters) = (self.open(random), random.pick(&["r", "r", "rw", "w"]));
        self.rights.insert((self.partition, segment), letters.into());
        for to in (0..self.segments).filter(|&to| to != segment) {
            if self.may(to, b'w') {
                self.flow(segment, to);
            }
            if self.may(segment, b'w') && self.may(to, b'r') {
                self.flow(to, segment);
            }
        }
    }

    /// A right less: its line into the save segment goes too, or is left over.
    fn no_right(&mut self, random: &mut Random) {
        let own: Vec<usize> = self.rights.keys().filter(|pair| pair.0 == self.partition).map(|pair| pair.1).collect();
        if own.is_empty() {
            return;
        }
        let segment = random.pick(&own);
        self.rights.remove(&(self.partition, segment));
        if random.one_in(2) {
            self.flows.remove(&(segment, self.save));
        }
    }
}

/// One change. Most such texts are accepted or refused by 8 or 16.
pub fn change(random: &mut Random, lines: &mut Lines) {
    let slots = lines.iter().position(|line| word(line) == b"slot").unwrap_or(lines.len());
    let Some(flows) = block(lines, b"flow", slots) else { return };
    let Some(rights) = block(lines, b"right", flows.start).filter(|rights| rights.end <= flows.start) else { return };
    let segments = lines.iter().filter(|line| word(line) == b"segment").count();
    let saves: Vec<usize> = lines.iter().filter(|line| word(line) == b"partition").map(|line| number(line, 3)).collect();
    let partition = random.below(saves.len());
    let save = saves.get(partition).copied().unwrap_or(0);
    let mut view = View { segments, partition, save, saves, rights: pairs(&lines[rights.clone()]), flows: pairs(&lines[flows.clone()]) };
    match random.below(12) {
        // Into a save segment, from any or from another one.
        0..=1 => view.flow(random.below(segments), save),
        2 => view.flow(random.pick(&[&view.saves[..], &[0]].concat()), save),
        // Into a segment that is none.
        3..=5 => view.flow(random.below(segments), view.open(random)),
        // Anywhere, also from a segment that isn't there.
        6..=7 => view.flow(random.below(segments + 1), random.below(segments)),
        8..=9 => view.right(random),
        _ => view.no_right(random),
    }
    lines.splice(flows, written(random, b"flow", &view.flows));
    lines.splice(rights, written(random, b"right", &view.rights));
}
