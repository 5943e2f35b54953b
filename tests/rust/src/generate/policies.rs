//! Random sound records.

use crate::kernel::{Policy, RecordExt};
use crate::random::Random;
use crate::reference::asked;

/// How large and how tight a policy is to be. The rates are "one in".
#[derive(Clone, Copy)]
pub struct Shape {
    pub segments: (usize, usize),
    pub partitions: (usize, usize),
    pub slots: (usize, usize),
    pub right_rate: usize,
    pub flow_rate: usize,
}

impl Shape {
    pub const SMALL: Shape = Shape { segments: (2, 9), partitions: (1, 4), slots: (1, 6), right_rate: 3, flow_rate: 12 };
    pub const MIDDLE: Shape = Shape { segments: (6, 20), partitions: (2, 8), slots: (1, 12), right_rate: 4, flow_rate: 40 };
    pub const LARGE: Shape = Shape { segments: (31, 32), partitions: (7, 8), slots: (31, 32), right_rate: 12, flow_rate: 200 };
    pub const DENSE: Shape = Shape { segments: (30, 32), partitions: (8, 8), slots: (32, 32), right_rate: 1, flow_rate: 2 };
    /// Few rights and no flows beyond those that rule 8 asks for, so that there is much to keep apart.
    pub const APART: Shape = Shape { segments: (5, 16), partitions: (2, 5), slots: (2, 8), right_rate: 7, flow_rate: 100 };

    pub fn any(random: &mut Random) -> Shape {
        match random.below(40) {
            0 => Shape::DENSE,
            1..=2 => Shape::LARGE,
            3..=10 => Shape::MIDDLE,
            11..=18 => Shape::APART,
            _ => Shape::SMALL,
        }
    }
}

const LENGTHS: [usize; 20] = [1, 2, 3, 4, 4, 4, 5, 5, 7, 8, 16, 20, 43, 44, 45, 64, 100, 256, 1_000, 4_096];
const CODE_LENGTHS: [usize; 12] = [12, 16, 23, 32, 41, 64, 64, 96, 128, 128, 200, 256];
const TICKS: [usize; 10] = [1, 2, 10, 30, 99, 200, 555, 998, 999, 1_000];

/// A sound record of this shape.
pub fn policy(random: &mut Random, shape: Shape) -> Policy {
    let mut policy = Policy::ZERO;
    let segments = random.from(shape.segments.0, shape.segments.1);
    let partitions = random.from(shape.partitions.0, shape.partitions.1).min(segments - 1);
    policy.segments = segments as u8;
    policy.partitions = partitions as u8;
    // Which ids are save segments, and which may be code: the first ids of a shuffled list.
    let mut ids: Vec<usize> = (0..segments).collect();
    random.shuffle(&mut ids);
    let codes = random.from(1, partitions.min(segments - partitions));
    for p in 0..partitions {
        policy.save[p] = ids[p] as u8;
        policy.code[p] = ids[partitions + if p < codes { p } else { random.below(codes) }] as u8;
    }
    lay_out(random, &mut policy, &ids, codes);
    rights(random, &mut policy, shape);
    flows(random, &mut policy, shape);
    let slots = random.from(shape.slots.0, shape.slots.1);
    schedule(random, &mut policy, slots);
    policy
}

/// So many slots.
pub(super) fn schedule(random: &mut Random, policy: &mut Policy, slots: usize) {
    let partitions = policy.partitions as usize;
    policy.slots = slots as u8;
    let short = random.below(3) > 0;
    for slot in 0..slots {
        // Each partition has a slot if there are enough.
        policy.slot_partition[slot] = if slot < partitions { slot } else { random.below(partitions) } as u8;
        policy.slot_ticks[slot] = if short { random.from(1, 9) } else { random.pick(&TICKS) } as u16;
    }
    if random.one_in(2) {
        for slot in (1..slots).rev() {
            policy.slot_partition.swap(slot, random.below(slot + 1));
        }
    }
}

/// Lengths, and bases in a random order of ids, with gaps or without. The ids come save segments first, then so many code segments.
pub(super) fn lay_out(random: &mut Random, policy: &mut Policy, ids: &[usize], codes: usize) {
    let partitions = policy.partitions as usize;
    let segments = ids.len();
    let mut room = 16_384 - 44 * partitions;
    for (rank, &id) in ids.iter().enumerate() {
        let length = if rank < partitions {
            44
        } else {
            // One byte at least stays for each segment that has no length yet.
            let most = (room - (segments - rank - 1)).min(4_096);
            let wish = match rank {
                _ if random.one_in(10) => random.from(1, 300),
                _ if rank < partitions + codes => random.pick(&CODE_LENGTHS),
                _ => random.pick(&LENGTHS),
            };
            let length = wish.min(most);
            room -= length;
            length
        };
        policy.size[id] = length as u16;
    }
    let mut order: Vec<usize> = (0..segments).collect();
    if !random.one_in(3) {
        random.shuffle(&mut order);
    }
    // 0: no gaps; 1: small gaps; 2: gaps as they come, up to the end of memory.
    let gaps = random.below(3);
    let mut base = if gaps > 0 && random.one_in(2) { random.below(room.min(50) + 1) } else { 0 };
    room -= base;
    for (i, &id) in order.iter().enumerate() {
        policy.base[id] = base as u16;
        base += policy.size[id] as usize;
        let last = i + 2 == segments;
        let gap = match gaps {
            0 => 0,
            1 => random.below(5).min(room),
            _ if last => room,
            _ => random.below(room / 4 + 1),
        };
        base += gap;
        room -= gap;
    }
}

fn rights(random: &mut Random, policy: &mut Policy, shape: Shape) {
    for p in 0..policy.partitions as usize {
        for s in 0..policy.segments as usize {
            if policy.is_save(s) {
                continue;
            }
            let right = if policy.code[p] as usize == s {
                if random.one_in(4) {
                    3
                } else {
                    1
                }
            } else if random.one_in(shape.right_rate) {
                if shape.right_rate == 1 {
                    3
                } else {
                    random.from(1, 3)
                }
            } else {
                0
            };
            policy.set_right(p, s, right as u8);
        }
    }
}

/// The flows that rule 8 asks for, and some more: into save segments none, as rule 16 refuses them.
fn flows(random: &mut Random, policy: &mut Policy, shape: Shape) {
    let segments = policy.segments as usize;
    let more = random.one_in(2);
    for from in 0..segments {
        for to in 0..segments {
            let free = more && !policy.is_save(to) && random.one_in(shape.flow_rate);
            if from != to && (free || asked(policy, from, to)) {
                policy.set_flow(from, to, true);
            }
        }
    }
}

/// The record with the longest text in decimal of all: 13,639 bytes, every line but the flows between save segments, which rule 16 refuses. None is
/// longer: fewer rights allow no more flows; a partition less loses 351 bytes and gains at most 219 (7 rights, 14 flows, a length), the next loses
/// more; a save segment with an id of two digits gains 1 byte, but makes 8 rights shorter, and the 14 flows that it does without would be longer.
pub fn longest() -> Policy {
    let mut policy = Policy::ZERO;
    (policy.segments, policy.partitions, policy.slots) = (32, 8, 32);
    // Saves first (rights never name them, so their ids may be short); then 9 segments of 1,000 bytes with bases of 4 digits, 5 of 1,000 and
    // 10 of 100 bytes with bases of 5 digits.
    let mut upper = 10_000;
    for id in 0..32 {
        let (base, size) = match id {
            0..=7 => (upper, 44),
            8..=16 => (1_000 * (id as u16 - 7), 1_000),
            17..=21 => (upper, 1_000),
            _ => (upper, 100),
        };
        policy.base[id] = base;
        policy.size[id] = size;
        if base >= 10_000 {
            upper += size;
        }
    }
    for p in 0..8 {
        policy.code[p] = 10 + p as u8;
        policy.save[p] = p as u8;
        (8..32).for_each(|s| policy.set_right(p, s, 3));
    }
    for to in 0..32 {
        (0..32).for_each(|from| policy.set_flow(from, to, from != to && from.max(to) >= 8));
    }
    for slot in 0..32 {
        policy.slot_partition[slot] = slot as u8 % 8;
        policy.slot_ticks[slot] = 1_000;
    }
    policy
}

/// A record whose text of 1,096 lines has 12,391 bytes in decimal and in hexadecimal as many as there may be: 16,384.
pub fn full_in_hexadecimal() -> Policy {
    let mut policy = longest();
    // The first four may do all; the others read their code and the last ten segments, of which they write seven.
    for p in 4..8 {
        (8..32).for_each(|s| policy.set_right(p, s, if s >= 25 { 3 } else { (s == policy.code[p] as usize || s >= 22) as u8 }));
        policy.sources[policy.save[p] as usize] = policy.reads[p];
    }
    policy
}

/// The demonstration text of the scope document.
pub const DEMONSTRATION: &str = "segment\t0\t0\t64\nsegment\t1\t64\t44\nsegment\t2\t128\t64\nsegment\t3\t192\t44\nsegment\t4\t256\t16\n\
partition\t0\t0\t1\npartition\t1\t2\t3\nright\t0\t0\tr\nright\t0\t4\tw\nright\t1\t2\tr\nright\t1\t4\tr\n\
flow\t0\t1\nflow\t0\t4\nflow\t1\t4\nflow\t2\t3\nflow\t4\t3\nslot\t0\t3\nslot\t1\t2\n";
