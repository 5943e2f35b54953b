//! Records near the sound ones: one entry or one bit changed, a count out of range, or nothing sound at all.

use crate::kernel::{Policy, RecordExt, RECORD};
use crate::random::Random;
use crate::reference::{readable, writable};

/// Changes one byte of a record.
pub fn change(policy: &mut Policy, at: usize, with: impl Fn(u8) -> u8) {
    let mut bytes = policy.bytes();
    bytes[at] = with(bytes[at]);
    *policy = Policy::of_bytes(bytes);
}

/// The masks of a record: of each partition those of r and w, then the sources of each segment.
pub fn masks(policy: &mut Policy) -> impl Iterator<Item = &mut u32> {
    policy.reads.iter_mut().chain(&mut policy.writes).chain(&mut policy.sources)
}

/// A record with every single bit of every mask turned (bits past the last segment, on save segments, from a segment to itself, bit 31, and those of
/// masks that aren't in use); every mask with all bits, none, or the highest alone; each r turned with the flow into the save segment; and the unused
/// byte not 0.
pub fn near(policy: &Policy) -> Vec<Policy> {
    let mut records = Vec::new();
    let mut with = |at: usize, value: fn(u32, u32) -> u32, bit: u32| {
        let mut other = *policy;
        let mask = masks(&mut other).nth(at).unwrap();
        *mask = value(*mask, 1 << bit);
        records.push(other);
    };
    for at in 0..8 + 8 + 32 {
        (0..32).for_each(|bit| with(at, |mask, bit| mask ^ bit, bit));
        with(at, |_, _| u32::MAX, 0);
        with(at, |mask, _| !mask, 0);
        with(at, |_, _| 0, 0);
        with(at, |_, bit| bit, 31);
    }
    for (p, bit) in (0..8).flat_map(|p| (0..32).map(move |s| (p, 1 << s))) {
        let mut other = *policy;
        other.reads[p] ^= bit;
        other.sources[other.save[p] as usize % 32] ^= bit;
        records.push(other);
    }
    for all in [0, u32::MAX] {
        let mut other = *policy;
        masks(&mut other).for_each(|mask| *mask = all);
        records.push(other);
    }
    (1..=255).for_each(|unused| records.push(Policy { unused, ..*policy }));
    records
}

/// One to three changes to a record, most of them small.
pub fn perturb(random: &mut Random, policy: &mut Policy) {
    for _ in 0..random.pick(&[1, 1, 1, 2, 3]) {
        one_change(random, policy);
    }
}

fn one_change(random: &mut Random, policy: &mut Policy) {
    let (segments, partitions, slots) = (policy.segments as usize % 33, policy.partitions as usize % 9, policy.slots as usize % 33);
    // An index of the used part, or of the first unused entry.
    let s = random.below(segments + 1).min(31);
    let p = random.below(partitions + 1).min(7);
    let slot = random.below(slots + 1).min(31);
    let small = random.pick(&[0, 1, 2, 3, 4, 7, 8, 9, 31, 32, 33, 128, 255]);
    match random.below(22) {
        0 => policy.segments = random.pick(&[policy.segments.wrapping_add(1), policy.segments.wrapping_sub(1), 0, 31, 32, 33, 255]),
        1 => policy.partitions = random.pick(&[policy.partitions.wrapping_add(1), policy.partitions.wrapping_sub(1), 0, 7, 8, 9, 255]),
        2 => policy.slots = random.pick(&[policy.slots.wrapping_add(1), policy.slots.wrapping_sub(1), 0, 31, 32, 33, 255]),
        3 => policy.base[s] = random.pick(&[policy.base[s].wrapping_add(1), policy.base[s].wrapping_sub(1), 0, 16_383, 16_384, 65_535]),
        4 => policy.size[s] = random.pick(&[policy.size[s].wrapping_add(1), policy.size[s].wrapping_sub(1), 0, 44, 4_096, 4_097, 65_535]),
        5 => policy.base[s] = 16_384 - policy.size[s].min(16_384) + random.below(2) as u16,
        6 => policy.code[p] = random.pick(&[small, s as u8, policy.save[p], policy.save[0]]),
        7 => policy.save[p] = random.pick(&[small, s as u8, policy.code[p], policy.save[0]]),
        8 => policy.slot_partition[slot] = random.pick(&[small, p as u8]),
        9 => policy.slot_ticks[slot] = random.pick(&[0, 1, 2, 256, 999, 1_000, 1_001, 65_535]),
        10 => policy.set_right(p, s, random.pick(&[0, 1, 2, 3])),
        11 => policy.set_right(p, policy.code[p] as usize % 32, random.pick(&[0, 1, 2, 3])),
        12 => policy.set_right(p, policy.save[p] as usize % 32, random.pick(&[0, 1, 2, 3])),
        13 => policy.sources[s] ^= 1 << random.below(segments + 1).min(31),
        14 => policy.sources[s] ^= 1 << s,
        15 => one_mask(random, policy),
        16 => policy.unused = random.byte(),
        17..=18 => one_source(random, policy, p),
        19 => more_elsewhere(random, policy),
        20 => one_reader(random, policy, p),
        _ => {
            let (at, value) = (random.below(RECORD), random.byte());
            change(policy, at, |_| value);
        }
    }
}

/// One flow more into the save segment of p: a stray one, unless p may read all segments.
pub fn one_source(random: &mut Random, policy: &mut Policy, p: usize) {
    let strays: Vec<usize> = (0..policy.segments as usize % 33).filter(|&s| !readable(policy, p, s)).collect();
    if !strays.is_empty() {
        policy.set_flow(random.pick(&strays), policy.save[p] as usize % 32, true);
    }
}

/// One flow more into a segment that is no save segment.
fn more_elsewhere(random: &mut Random, policy: &mut Policy) {
    let (from, to) = (random.below(policy.segments as usize % 33), random.below(policy.segments as usize % 33));
    if from != to && !policy.is_save(to) {
        policy.set_flow(from, to, true);
    }
}

/// A right r more, with the flows that it asks for: one source more that the save segment of p may have.
fn one_reader(random: &mut Random, policy: &mut Policy, p: usize) {
    let s = random.below(policy.segments as usize % 33);
    if policy.is_save(s) {
        return;
    }
    policy.set_right(p, s, policy.right(p, s) | 1);
    for to in (0..32).filter(|&to| to != s) {
        if writable(policy, p, to) {
            policy.set_flow(s, to, true);
        }
    }
}

/// A mask gets a bit of its highest, another bit turned, or a value of its own.
fn one_mask(random: &mut Random, policy: &mut Policy) {
    let (at, bit, any) = (random.below(8 + 8 + 32), 1 << random.below(32), random.number() as u32);
    let kind = random.below(4);
    let mask = masks(policy).nth(at).unwrap();
    *mask = match kind {
        0 => *mask | 1 << 31,
        1 => *mask ^ bit,
        2 => any,
        _ => u32::MAX,
    };
}

/// Every byte at random.
pub fn noise(random: &mut Random) -> Policy {
    let small = random.one_in(2);
    Policy::of_bytes([(); RECORD].map(|()| if small { random.byte() & 3 } else { random.byte() }))
}
