//! Sound records, by masks. Loops over tables go over all entries and have no early end, so that they can be done on many entries at once.

use crate::kernel::Policy;

/// What the partitions' lines give: for each partition R(p) as a mask, 0 past the last, and the mask of all save segments.
pub struct Roles {
    pub reached: [u32; 8],
    pub saves: u32,
}

/// Bit t at place t.
const BITS: [u32; 32] = {
    let mut bits = [0; 32];
    let mut t = 0;
    while t < 32 {
        bits[t] = 1 << t;
        t += 1;
    }
    bits
};

pub fn sound(policy: &Policy) -> bool {
    let (segments, partitions, slots) = (policy.segments as usize, policy.partitions as usize, policy.slots as usize);
    if segments.wrapping_sub(1) >= 32 || partitions.wrapping_sub(1) >= 8 || slots.wrapping_sub(1) >= 32 || policy.unused != 0 {
        return false;
    }
    let Some(roles) = roles(policy, segments, partitions) else { return false };
    let there = u32::MAX >> (32 - segments);
    segments_sound(policy, segments)
        && slots_sound(policy, partitions, slots)
        && masks_sound(policy, partitions, there, there & !roles.saves)
        && !flow_missing(policy, &roles, partitions)
}

/// Code and save segments, with rule 7, and rules 8 and 16 for save segments: together they ask for the sources that the partition has r on, no right
/// being on a save segment.
fn roles(policy: &Policy, segments: usize, partitions: usize) -> Option<Roles> {
    // Past the last partition all is 0.
    let past = |bytes: [u8; 8]| u64::from_le_bytes(bytes) >> (8 * (partitions - 1)) >> 8;
    if past(policy.code) | past(policy.save) != 0 {
        return None;
    }
    let mut roles = Roles { reached: [0; 8], saves: 0 };
    let mut codes = 0_u32;
    for p in 0..partitions {
        let (code, save, reads) = (policy.code[p] as usize, policy.save[p] as usize, policy.reads[p]);
        if code.max(save) >= segments || policy.size[save] != 44 || reads >> code & 1 == 0 || policy.sources[save] != reads {
            return None;
        }
        roles.reached[p] = reads | 1 << save;
        roles.saves |= 1 << save;
        codes |= 1 << code;
    }
    (roles.saves & codes == 0 && roles.saves.count_ones() as usize == partitions).then_some(roles)
}

fn segments_sound(policy: &Policy, segments: usize) -> bool {
    // With a sign, which the numbers in range are too small for.
    let (bases, mut ends) = (policy.base.map(|base| base as i16), [0_i16; 32]);
    let mut bad = false;
    for (id, (&base, &size)) in policy.base.iter().zip(&policy.size).enumerate() {
        // All bits in an entry in use, where a size is 1 to 4,096 and the base at most what is left; else both are 0.
        let used = 0_u16.wrapping_sub((id < segments) as u16);
        bad |= (size.wrapping_sub(used & 1) > 4_095 & used) | (base > 16_384_u16.wrapping_sub(size) & used);
        ends[id] = base.wrapping_add(size) as i16;
    }
    !bad && !overlap(&bases, &ends, segments)
}

/// Some segment meets another than itself.
fn overlap(bases: &[i16; 32], ends: &[i16; 32], segments: usize) -> bool {
    let mut met = [0_i16; 32];
    for (&base, &end) in bases.iter().zip(ends).take(segments) {
        for ((met, &other), &other_end) in met.iter_mut().zip(bases).zip(ends) {
            *met += ((base < other_end) & (other < end)) as i16;
        }
    }
    met.iter().sum::<i16>() as usize != segments
}

fn slots_sound(policy: &Policy, partitions: usize, slots: usize) -> bool {
    let mut bad = false;
    for slot in 0..32 {
        let used = 0_u8.wrapping_sub((slot < slots) as u8);
        bad |= policy.slot_partition[slot] > (partitions - 1) as u8 & used;
    }
    for slot in 0..32 {
        let used = 0_u16.wrapping_sub((slot < slots) as u16);
        bad |= policy.slot_ticks[slot].wrapping_sub(used & 1) > 999 & used;
    }
    !bad
}

/// No stray bit: rights on segments that may have one, flows between two segments that are there.
fn masks_sound(policy: &Policy, partitions: usize, there: u32, open: u32) -> bool {
    let mut stray = 0;
    for p in 0..8 {
        let allowed = if p < partitions { open } else { 0 };
        stray |= (policy.reads[p] | policy.writes[p]) & !allowed;
    }
    for (&sources, bit) in policy.sources.iter().zip(&BITS) {
        let allowed = if there & bit != 0 { there & !bit } else { 0 };
        stray |= sources & !allowed;
    }
    stray == 0
}

/// Rules 8 and 16 for save segments: sources that some of them lack, and stray ones. In a function of its own, so that the reader's loops keep their
/// registers.
#[inline(never)]
pub fn save_sources(policy: &Policy, partitions: usize) -> (u32, u32) {
    let (mut lacking, mut stray) = (0, 0);
    for (reads, save) in policy.reads.iter().zip(policy.save).take(partitions) {
        let sources = policy.sources[(save & 31) as usize];
        lacking |= reads & !sources;
        stray |= sources & !reads;
    }
    (lacking, stray)
}

/// Rule 8 but for save segments: for each target what the partitions with w on it read, less its sources and itself.
pub fn flow_missing(policy: &Policy, roles: &Roles, partitions: usize) -> bool {
    let mut asked = [0_u32; 32];
    for p in 0..partitions {
        for (asked, bit) in asked.iter_mut().zip(&BITS) {
            *asked |= if policy.writes[p] & bit != 0 { roles.reached[p] } else { 0 };
        }
    }
    let mut missing = 0;
    for ((asked, sources), bit) in asked.iter().zip(&policy.sources).zip(&BITS) {
        missing |= asked & !(sources | bit);
    }
    missing != 0
}
