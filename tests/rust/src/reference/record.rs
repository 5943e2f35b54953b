//! The policy record: its lines, rules 6, 7, 8 and 16, sound records, chains of flow lines, and the text of a record.

use crate::kernel::{Policy, RecordExt};

/// What a policy's lines give, line by line, in the order of the text.
#[derive(Default, Clone, PartialEq, Eq, Debug)]
pub struct Lines {
    /// base, length
    pub segments: Vec<(u32, u32)>,
    /// code segment, save segment
    pub partitions: Vec<(u32, u32)>,
    /// partition, segment, and 1 r, 2 w or 3 rw
    pub rights: Vec<(u32, u32, u8)>,
    /// from, to
    pub flows: Vec<(u32, u32)>,
    /// partition, ticks
    pub slots: Vec<(u32, u32)>,
}

impl Lines {
    /// The lines that can give a record: ids, pairs and slots have one order. Counts over the tables' sizes give none.
    pub fn of(policy: &Policy) -> Option<Lines> {
        let (segments, partitions, slots) = (policy.segments as usize, policy.partitions as usize, policy.slots as usize);
        if segments > 32 || partitions > 8 || slots > 32 {
            return None;
        }
        let pairs = |first: usize| (0..first).flat_map(|a| (0..32).map(move |b| (a, b)));
        Some(Lines {
            segments: (0..segments).map(|id| (policy.base[id].into(), policy.size[id].into())).collect(),
            partitions: (0..partitions).map(|id| (policy.code[id].into(), policy.save[id].into())).collect(),
            // The masks of partitions and segments that aren't there too.
            rights: pairs(8).map(|(p, s)| (p as u32, s as u32, policy.right(p, s))).filter(|line| line.2 != 0).collect(),
            flows: pairs(32).filter(|&(from, to)| policy.flow(from, to)).map(|(from, to)| (from as u32, to as u32)).collect(),
            slots: (0..slots).map(|slot| (policy.slot_partition[slot].into(), policy.slot_ticks[slot].into())).collect(),
        })
    }

    /// "The policy record holds the numbers of segments, partitions and slots; [..]. Unused entries are 0." Change request S-6: "Keep the right lines of
    /// a partition as two 32-bit masks, one for read and one for write, and the sources of a segment as one 32-bit mask, bit s for segment s, worth 2 to
    /// the power s."
    pub fn record(&self) -> Policy {
        let mut policy = Policy::ZERO;
        policy.segments = self.segments.len() as u8;
        policy.partitions = self.partitions.len() as u8;
        policy.slots = self.slots.len() as u8;
        for (id, &(base, length)) in self.segments.iter().enumerate() {
            (policy.base[id], policy.size[id]) = (base as u16, length as u16);
        }
        for (id, &(code, save)) in self.partitions.iter().enumerate() {
            (policy.code[id], policy.save[id]) = (code as u8, save as u8);
        }
        for (slot, &(partition, ticks)) in self.slots.iter().enumerate() {
            (policy.slot_partition[slot], policy.slot_ticks[slot]) = (partition as u8, ticks as u16);
        }
        // Pairs ascend, so no bit is added twice.
        for &(partition, segment, right) in &self.rights {
            policy.reads[partition as usize] += u32::from(right % 2) * 2_u32.pow(segment);
            policy.writes[partition as usize] += u32::from(right / 2) * 2_u32.pow(segment);
        }
        for &(from, to) in &self.flows {
            policy.sources[to as usize] += 2_u32.pow(from);
        }
        policy
    }

    /// "R(p) is the save segment of p and each segment on which p has an r right." "W(p) is the save segment of p and each segment with a w right."
    fn reached(&self, p: usize, right: u8) -> Vec<u32> {
        let lines = self.rights.iter().filter(|line| line.0 as usize == p && line.2 & right != 0);
        lines.map(|line| line.1).chain([self.partitions[p].1]).collect()
    }

    /// "6: no segment, partition or slot."
    pub fn lack_kind(&self) -> Option<&'static str> {
        let kinds = [(self.segments.len(), "6 no segment"), (self.partitions.len(), "6 no partition"), (self.slots.len(), "6 no slot")];
        kinds.into_iter().find(|kind| kind.0 == 0).map(|kind| kind.1)
    }

    /// "7: a partition lacks r on its code segment."
    pub fn lack_code_right(&self) -> bool {
        let reads = |p: usize, code: u32| self.rights.iter().any(|&(q, s, right)| (q as usize, s) == (p, code) && right & 1 != 0);
        self.partitions.iter().enumerate().any(|(p, &(code, _))| !reads(p, code))
    }

    /// "8: for some p, t in W(p) and s in R(p) other than t, 'flow s t' is missing."
    pub fn lack_flow(&self) -> bool {
        let mut there = [[false; 32]; 32];
        self.flows.iter().for_each(|&(from, to)| there[from as usize][to as usize] = true);
        (0..self.partitions.len()).any(|p| {
            let (reads, writes) = (self.reached(p, 1), self.reached(p, 2));
            writes.iter().any(|&t| reads.iter().any(|&s| s != t && !there[s as usize][t as usize]))
        })
    }

    /// Change request S-5: "a flow line into p's save segment must come from a segment of R(p)". For some p what a source is that doesn't.
    pub fn stray_source(&self) -> Option<&'static str> {
        (0..self.partitions.len()).find_map(|p| {
            let (reads, save) = (self.reached(p, 1), self.partitions[p].1);
            let stray = self.flows.iter().find(|&&(from, to)| to == save && !reads.contains(&from))?;
            Some(self.stray_kind(p, stray.0))
        })
    }

    /// What a segment is that p may not read.
    fn stray_kind(&self, p: usize, segment: u32) -> &'static str {
        if !self.slots.iter().any(|slot| slot.0 as usize == p) {
            "16 for a partition without a slot"
        } else if self.reached(p, 2).contains(&segment) {
            "16 from a segment with w alone"
        } else if self.partitions.iter().any(|partition| partition.1 == segment) {
            "16 from another's save segment"
        } else if self.partitions.iter().any(|partition| partition.0 == segment) {
            "16 from another's code segment"
        } else if (0..self.partitions.len()).any(|q| self.reached(q, 1).contains(&segment)) {
            "16 from a segment that another reads"
        } else {
            "16 from a segment that nobody reads"
        }
    }
}

pub fn readable(policy: &Policy, partition: usize, segment: usize) -> bool {
    policy.save[partition] as usize == segment || policy.right(partition, segment) & 1 != 0
}

pub fn writable(policy: &Policy, partition: usize, segment: usize) -> bool {
    policy.save[partition] as usize == segment || policy.right(partition, segment) & 2 != 0
}

/// Rule 8 asks for the line "flow s t".
pub fn asked(policy: &Policy, s: usize, t: usize) -> bool {
    s != t && (0..policy.partitions as usize).any(|p| readable(policy, p, s) && writable(policy, p, t))
}

/// "A record is sound if some accepted text gives it." An accepted text has one line for each segment, partition and slot and for each right and flow,
/// so each rule on a line is a rule on the entries that the line gives; and nothing else stands in the record.
pub fn sound(policy: &Policy) -> bool {
    let Some(lines) = Lines::of(policy) else { return false };
    lines.lack_kind().is_none()
        && segments_sound(&lines.segments)
        && partitions_sound(&lines)
        && rights_sound(&lines)
        && flows_sound(&lines)
        && slots_sound(&lines)
        && !lines.lack_code_right()
        && !lines.lack_flow()
        && lines.stray_source().is_none()
        // "Unused entries are 0."
        && lines.record().bytes() == policy.bytes()
}

fn segments_sound(segments: &[(u32, u32)]) -> bool {
    segments.iter().enumerate().all(|(id, &(base, size))| {
        // 4: "a length [..] out of range; base + length over 16,384". 5: "a segment overlaps an earlier one".
        (1..=4_096).contains(&size) && base + size <= 16_384 && !segments[..id].iter().any(|&(b, s)| base < b + s && b < base + size)
    })
}

fn partitions_sound(lines: &Lines) -> bool {
    let there = |id: u32| (id as usize) < lines.segments.len();
    lines.partitions.iter().enumerate().all(|(p, &(code, save))| {
        // 4: "a [..] segment named that isn't there".
        there(code) && there(save)
            // 5: "a save segment's length isn't 44".
            && lines.segments[save as usize].1 == 44
            // 5: "a segment is save of two partitions, or code of one and save of the same or another".
            && !lines.partitions.iter().enumerate().any(|(q, other)| p != q && other.1 == save || other.1 == code)
    })
}

fn rights_sound(lines: &Lines) -> bool {
    // 4: a partition or segment that isn't there; 5: "a right names a save segment".
    lines.rights.iter().all(|&(partition, segment, _)| {
        (partition as usize) < lines.partitions.len() && (segment as usize) < lines.segments.len() && !lines.partitions.iter().any(|p| p.1 == segment)
    })
}

fn flows_sound(lines: &Lines) -> bool {
    // 4: a segment that isn't there; 5: "a flow goes from a segment to itself".
    lines.flows.iter().all(|&(from, to)| (from.max(to) as usize) < lines.segments.len() && from != to)
}

fn slots_sound(lines: &Lines) -> bool {
    // 4: "a [..] tick count out of range", "a partition [..] named that isn't there".
    lines.slots.iter().all(|&(partition, ticks)| (partition as usize) < lines.partitions.len() && (1..=1_000).contains(&ticks))
}

/// The segment t and all segments from which a chain of flow lines leads to it: "the first goes out from s, each further one from the segment that
/// the line before went into, and the last goes into t".
pub fn sources(policy: &Policy, t: usize) -> [bool; 32] {
    let mut found = [false; 32];
    found[t] = true;
    loop {
        let before = found;
        for from in 0..32 {
            for to in 0..32 {
                if found[to] && policy.flow(from, to) {
                    found[from] = true;
                }
            }
        }
        if found == before {
            return found;
        }
    }
}

/// The one text with decimal numbers that can give the record. Other texts that give it have some of these numbers in hexadecimal, which takes more
/// bytes, so if any of them is accepted this one is.
pub fn print(policy: &Policy) -> Option<String> {
    let lines = Lines::of(policy)?;
    let mut text = String::new();
    for (id, (base, length)) in lines.segments.iter().enumerate() {
        text += &format!("segment\t{id}\t{base}\t{length}\n");
    }
    for (id, (code, save)) in lines.partitions.iter().enumerate() {
        text += &format!("partition\t{id}\t{code}\t{save}\n");
    }
    for (partition, segment, right) in lines.rights {
        text += &format!("right\t{partition}\t{segment}\t{}\n", ["", "r", "w", "rw"][right as usize]);
    }
    for (from, to) in lines.flows {
        text += &format!("flow\t{from}\t{to}\n");
    }
    for (partition, ticks) in lines.slots {
        text += &format!("slot\t{partition}\t{ticks}\n");
    }
    Some(text)
}
