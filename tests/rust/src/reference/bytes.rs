//! Document 01's record: "one byte for each pair of partition and segment (0 none, 1 r, 2 w, 3 rw), and one byte (0 or 1) for each ordered pair of
//! segments (from, to)". Change request S-6 has masks in its place: "Show that old and new records from the same text stand for the same rights and flows".

use super::reader::judge;
use super::record::Lines;
use crate::kernel::Policy;

/// The bytes of the pairs; the other entries are those of both records.
#[derive(Clone, PartialEq, Eq, Debug)]
pub struct Bytes {
    pub counts: [u8; 3],
    pub segments: [(u16, u16); 32],
    pub partitions: [(u8, u8); 8],
    pub slots: [(u8, u16); 32],
    pub rights: [[u8; 32]; 8],
    pub flows: [[u8; 32]; 32],
}

/// What document 01's Read answers: number, line and record.
pub fn read(text: &[u8]) -> (u32, u32, Bytes) {
    match judge(text) {
        Ok(lines) => (0, 0, Bytes::of_lines(&lines)),
        Err(refusal) => (refusal.number, refusal.line, Bytes::of_lines(&Lines::default())),
    }
}

impl Bytes {
    fn of_lines(lines: &Lines) -> Bytes {
        let mut bytes = Bytes {
            counts: [lines.segments.len() as u8, lines.partitions.len() as u8, lines.slots.len() as u8],
            segments: [(0, 0); 32],
            partitions: [(0, 0); 8],
            slots: [(0, 0); 32],
            rights: [[0; 32]; 8],
            flows: [[0; 32]; 32],
        };
        lines.segments.iter().enumerate().for_each(|(id, &(base, length))| bytes.segments[id] = (base as u16, length as u16));
        lines.partitions.iter().enumerate().for_each(|(id, &(code, save))| bytes.partitions[id] = (code as u8, save as u8));
        lines.slots.iter().enumerate().for_each(|(slot, &(partition, ticks))| bytes.slots[slot] = (partition as u8, ticks as u16));
        lines.rights.iter().for_each(|&(partition, segment, right)| bytes.rights[partition as usize][segment as usize] = right);
        lines.flows.iter().for_each(|&(from, to)| bytes.flows[from as usize][to as usize] = 1);
        bytes
    }

    /// The one record of bytes, rights up to 3 and flows up to 1, that stands for the same as a record of masks.
    pub fn of_masks(policy: &Policy) -> Bytes {
        let mut bytes = Bytes::of_lines(&Lines::default());
        bytes.counts = [policy.segments, policy.partitions, policy.slots];
        for id in 0..32 {
            bytes.segments[id] = (policy.base[id], policy.size[id]);
            bytes.slots[id] = (policy.slot_partition[id], policy.slot_ticks[id]);
            for from in 0..32 {
                bytes.flows[from][id] = (policy.sources[id] / 2_u32.pow(from as u32) % 2) as u8;
            }
        }
        for p in 0..8 {
            bytes.partitions[p] = (policy.code[p], policy.save[p]);
            for s in 0..32 {
                let bit = |mask: u32| (mask / 2_u32.pow(s as u32) % 2) as u8;
                bytes.rights[p][s] = bit(policy.reads[p]) + 2 * bit(policy.writes[p]);
            }
        }
        bytes
    }

    /// Where a record of masks stands for something else, pair by pair.
    pub fn difference(&self, policy: &Policy) -> Option<String> {
        let other = Bytes::of_masks(policy);
        let pairs = |a: usize| (0..a).flat_map(|a| (0..32).map(move |b| (a, b)));
        if let Some((p, s)) = pairs(8).find(|&(p, s)| self.rights[p][s] != other.rights[p][s]) {
            return Some(format!("right of partition {p} on segment {s}: {}, masks {}", self.rights[p][s], other.rights[p][s]));
        }
        if let Some((from, to)) = pairs(32).find(|&(from, to)| self.flows[from][to] != other.flows[from][to]) {
            return Some(format!("flow {from} {to}: {}, masks {}", self.flows[from][to], other.flows[from][to]));
        }
        (*self != other).then(|| format!("counts or tables: {self:?}, masks {policy:?}"))
    }

    /// "A record is sound if some accepted text gives it.": the rules of the lines and of the whole text, entry by entry.
    pub fn sound(&self) -> bool {
        let [segments, partitions, slots] = self.counts.map(usize::from);
        (1..=32).contains(&segments)
            && (1..=8).contains(&partitions)
            && (1..=32).contains(&slots)
            && self.segments_sound(segments)
            && self.partitions_sound(segments, partitions)
            && self.pairs_sound(segments, partitions)
            && (0..slots).all(|i| usize::from(self.slots[i].0) < partitions && (1..=1_000).contains(&self.slots[i].1))
            && (slots..32).all(|i| self.slots[i] == (0, 0))
            && (0..partitions).all(|p| self.may(p, usize::from(self.partitions[p].0), 1))
            && !self.lacks_flow(segments, partitions)
            && (0..partitions).all(|p| !self.has_stray_source(p))
    }

    fn segments_sound(&self, segments: usize) -> bool {
        let end = |(base, size): (u16, u16)| u32::from(base) + u32::from(size);
        let meet = |one: (u16, u16), other: (u16, u16)| u32::from(one.0) < end(other) && u32::from(other.0) < end(one);
        (0..segments).all(|id| {
            let own = self.segments[id];
            (1..=4_096).contains(&own.1) && end(own) <= 16_384 && !self.segments[..id].iter().any(|&earlier| meet(own, earlier))
        }) && (segments..32).all(|id| self.segments[id] == (0, 0))
    }

    fn partitions_sound(&self, segments: usize, partitions: usize) -> bool {
        (0..partitions).all(|p| {
            let (code, save) = self.partitions[p];
            usize::from(code.max(save)) < segments
                && self.segments[usize::from(save)].1 == 44
                && (0..partitions).all(|q| (p == q || self.partitions[q].1 != save) && self.partitions[q].1 != code)
        }) && (partitions..8).all(|p| self.partitions[p] == (0, 0))
    }

    /// Rights and flows that a line could give.
    fn pairs_sound(&self, segments: usize, partitions: usize) -> bool {
        let is_save = |s: usize| self.partitions[..partitions].iter().any(|partition| usize::from(partition.1) == s);
        for p in 0..8 {
            for s in 0..32 {
                let right = self.rights[p][s];
                if right > 3 || right != 0 && (p >= partitions || s >= segments || is_save(s)) {
                    return false;
                }
            }
        }
        for from in 0..32 {
            for to in 0..32 {
                let flow = self.flows[from][to];
                if flow > 1 || flow == 1 && (from >= segments || to >= segments || from == to) {
                    return false;
                }
            }
        }
        true
    }

    /// R(p) without the save segment, or W(p).
    fn may(&self, p: usize, s: usize, right: u8) -> bool {
        self.rights[p][s] & right != 0
    }

    fn lacks_flow(&self, segments: usize, partitions: usize) -> bool {
        let reach = |p: usize, s: usize, right: u8| usize::from(self.partitions[p].1) == s || self.may(p, s, right);
        for p in 0..partitions {
            for t in (0..segments).filter(|&t| reach(p, t, 2)) {
                if (0..segments).any(|s| s != t && reach(p, s, 1) && self.flows[s][t] == 0) {
                    return true;
                }
            }
        }
        false
    }

    /// Change request S-5: a flow into the save segment of p that comes from no segment of R(p).
    fn has_stray_source(&self, p: usize) -> bool {
        let save = usize::from(self.partitions[p].1);
        (0..32).any(|s| s != save && self.flows[s][save] != 0 && !self.may(p, s, 1))
    }
}
