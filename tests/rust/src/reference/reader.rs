//! Reading a policy: refusals 1 to 8 and 16, in their order.

use super::line::{parse, Kind, Line};
use super::record::Lines;
use crate::kernel::ReadResult;
use crate::{accepted, refused};

/// A refused text: the number, the line, and why (for the count of what the tests have reached).
#[derive(Clone, Debug)]
pub struct Refusal {
    pub number: u32,
    pub line: u32,
    pub why: &'static str,
    /// The later rules that the same line, or with line 0 the text, breaks too.
    pub also: Vec<u32>,
}

/// A rule's number, and why it is broken if it is.
type Rule = (u32, Option<&'static str>);

impl Refusal {
    fn one(number: u32, line: u32, why: &'static str) -> Refusal {
        Refusal { number, line, why, also: Vec::new() }
    }

    /// Of the first rule of a list that is broken.
    fn first(line: u32, rules: &[Rule]) -> Option<Refusal> {
        let mut broken = rules.iter().filter_map(|&(number, why)| Some((number, why?)));
        let (number, why) = broken.next()?;
        Some(Refusal { number, line, why, also: broken.map(|later| later.0).collect() })
    }
}

/// The lines accepted so far.
#[derive(Default)]
struct Seen {
    kind: Option<Kind>,
    lines: Lines,
}

/// "A refusal returns number, line and the record of zeros. An accepted text returns number 0, line 0 and its record."
pub fn read(text: &[u8]) -> ReadResult {
    match judge(text) {
        Ok(lines) => accepted(lines.record()),
        Err(refusal) => refused(refusal.number, refusal.line),
    }
}

/// The lines of an accepted text.
pub fn judge(text: &[u8]) -> Result<Lines, Refusal> {
    let lines = lines(text)?;
    Refusal::first(0, &whole(&lines)).map_or(Ok(lines), Err)
}

/// The same by the rules before change request S-5, which had no 16.
pub fn judge_without_16(text: &[u8]) -> Result<Lines, Refusal> {
    let lines = lines(text)?;
    Refusal::first(0, &whole(&lines)[..3]).map_or(Ok(lines), Err)
}

/// The lines of a text in which each line is good.
fn lines(text: &[u8]) -> Result<Lines, Refusal> {
    // "1: over 16,384 bytes, line 0."
    if text.len() > 16_384 {
        return Err(Refusal::one(1, 0, "1 over 16,384 bytes"));
    }
    // "Then the first bad line, counted from 1, and within it in this order."
    let mut seen = Seen::default();
    let mut rest = text;
    let mut line_number = 0;
    while !rest.is_empty() {
        line_number += 1;
        // "Lines end in hex 0A, the last one too."
        let Some(end) = rest.iter().position(|&byte| byte == 0x0A) else {
            return Err(Refusal::one(2, line_number, "2 no line end"));
        };
        let line = parse(&rest[..end]).map_err(|why| Refusal::one(2, line_number, why))?;
        rest = &rest[end + 1..];
        if let Some(refusal) = Refusal::first(line_number, &[(3, seen.order(&line)), (4, seen.range(&line)), (5, seen.clash(&line))]) {
            return Err(refusal);
        }
        seen.add(&line);
    }
    Ok(seen.lines)
}

/// "Then, with line 0": the rules on the whole text.
fn whole(lines: &Lines) -> [Rule; 4] {
    [
        // "6: no segment, partition or slot."
        (6, lines.lack_kind()),
        // "7: a partition lacks r on its code segment."
        (7, lines.lack_code_right().then_some("7 no r on the code segment")),
        // "8: for some p, t in W(p) and s in R(p) other than t, 'flow s t' is missing."
        (8, lines.lack_flow().then_some("8 flow missing")),
        // Change request S-5: "16 if a flow line into a save segment has another source, line 0, after 8."
        (16, lines.stray_source()),
    ]
}

impl Seen {
    /// "3: kind, id or pair out of order."
    fn order(&self, line: &Line) -> Option<&'static str> {
        // "lines come in this order of kinds"
        if self.kind.is_some_and(|kind| line.kind() < kind) {
            return Some("3 kind out of order");
        }
        match *line {
            // "Ids run 0, 1, 2 without a gap."
            Line::Segment { id, .. } if id as usize != self.lines.segments.len() => Some("3 segment id out of order"),
            Line::Partition { id, .. } if id as usize != self.lines.partitions.len() => Some("3 partition id out of order"),
            // "Right pairs (partition, segment) and flow pairs (from, to) strictly ascend, first number first."
            Line::Right { partition, segment, .. } if self.lines.rights.last().is_some_and(|&(p, s, _)| (partition, segment) <= (p, s)) => {
                Some("3 right pair out of order")
            }
            Line::Flow { from, to } if self.lines.flows.last().is_some_and(|&last| (from, to) <= last) => Some("3 flow pair out of order"),
            _ => None,
        }
    }

    /// "4: more than 32 segments, 8 partitions or 32 slots; a length or tick count out of range; base + length over 16,384; a partition or segment
    /// named that isn't there."
    fn range(&self, line: &Line) -> Option<&'static str> {
        let segment_there = |id: u32| (id as usize) < self.lines.segments.len();
        let partition_there = |id: u32| (id as usize) < self.lines.partitions.len();
        match *line {
            Line::Segment { base, length, .. } => {
                if self.lines.segments.len() >= 32 {
                    Some("4 more than 32 segments")
                // "a length of 1 to 4,096"
                } else if length < 1 {
                    Some("4 length 0")
                } else if length > 4_096 {
                    Some("4 length over 4,096")
                } else if base + length > 16_384 {
                    Some("4 base + length over 16,384")
                } else {
                    None
                }
            }
            Line::Partition { code, save, .. } => {
                if self.lines.partitions.len() >= 8 {
                    Some("4 more than 8 partitions")
                } else if !segment_there(code) {
                    Some("4 code segment not there")
                } else if !segment_there(save) {
                    Some("4 save segment not there")
                } else {
                    None
                }
            }
            Line::Right { partition, segment, .. } => {
                if !partition_there(partition) {
                    Some("4 partition of a right not there")
                } else if !segment_there(segment) {
                    Some("4 segment of a right not there")
                } else {
                    None
                }
            }
            Line::Flow { from, to } => {
                if !segment_there(from) {
                    Some("4 from of a flow not there")
                } else if !segment_there(to) {
                    Some("4 to of a flow not there")
                } else {
                    None
                }
            }
            // "slot: partition, ticks (1 to 1,000)"
            Line::Slot { partition, ticks } => {
                if self.lines.slots.len() >= 32 {
                    Some("4 more than 32 slots")
                } else if ticks < 1 {
                    Some("4 ticks 0")
                } else if ticks > 1_000 {
                    Some("4 ticks over 1,000")
                } else if !partition_there(partition) {
                    Some("4 partition of a slot not there")
                } else {
                    None
                }
            }
        }
    }

    /// "5: a segment overlaps an earlier one; a save segment's length isn't 44; a segment is save of two partitions, or code of one and save of the
    /// same or another; a right names a save segment; a flow goes from a segment to itself."
    fn clash(&self, line: &Line) -> Option<&'static str> {
        match *line {
            Line::Segment { base, length, .. } => {
                let overlaps = |&(b, l): &(u32, u32)| base < b + l && b < base + length;
                self.lines.segments.iter().any(overlaps).then_some("5 overlap")
            }
            Line::Partition { code, save, .. } => {
                let size = self.lines.segments.get(save as usize).map(|segment| segment.1);
                if size.is_some_and(|length| length != 44) {
                    Some("5 save length not 44")
                } else if self.lines.partitions.iter().any(|other| other.1 == save) {
                    Some("5 save of two partitions")
                } else if code == save {
                    Some("5 code and save of the same")
                } else if self.lines.partitions.iter().any(|other| other.0 == save) {
                    Some("5 save is the code of another")
                } else if self.lines.partitions.iter().any(|other| other.1 == code) {
                    Some("5 code is the save of another")
                } else {
                    None
                }
            }
            Line::Right { segment, .. } => self.lines.partitions.iter().any(|p| p.1 == segment).then_some("5 right on a save segment"),
            Line::Flow { from, to } => (from == to).then_some("5 flow to itself"),
            Line::Slot { .. } => None,
        }
    }

    fn add(&mut self, line: &Line) {
        self.kind = Some(line.kind());
        match *line {
            Line::Segment { base, length, .. } => self.lines.segments.push((base, length)),
            Line::Partition { code, save, .. } => self.lines.partitions.push((code, save)),
            Line::Right { partition, segment, right } => self.lines.rights.push((partition, segment, right)),
            Line::Flow { from, to } => self.lines.flows.push((from, to)),
            Line::Slot { partition, ticks } => self.lines.slots.push((partition, ticks)),
        }
    }
}
