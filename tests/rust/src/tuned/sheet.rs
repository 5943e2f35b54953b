//! The schedule sheet, of all partitions at once.

use super::record::sound;
use crate::kernel::{Policy, Refused, SheetResult};

/// A number for each partition: eight of 16 bits are one vector, and a round has 32,000 ticks at most.
type Row = [i16; 8];

/// All bits in the place of one partition.
const OWN: [Row; 8] = {
    let mut rows = [[0; 8]; 8];
    let mut p = 0;
    while p < 8 {
        rows[p][p] = -1;
        p += 1;
    }
    rows
};

pub fn sheet(policy: &Policy) -> SheetResult {
    if !sound(policy) {
        return SheetResult::refused(10);
    }
    let (ticks, silence) = rows(policy);
    SheetResult { number: 0, ticks: ticks.map(|ticks| ticks as u32), silence: silence.map(|ticks| ticks as u32) }
}

/// One pass through the slots, without a branch. The silence round the end is that before the first own slot and that after the last. In a function of its
/// own: beside the results' 32 bits the compiler takes half a vector for a row.
#[inline(never)]
fn rows(policy: &Policy) -> (Row, Row) {
    let (mut ticks, mut longest, mut silent, mut before, mut seen) = ([0; 8], [0; 8], [0; 8], [0; 8], [0; 8]);
    for (&owner, &slot) in policy.slot_partition.iter().zip(&policy.slot_ticks).take(policy.slots as usize) {
        let (own, slot) = (OWN[(owner & 7) as usize], [slot as i16; 8]);
        ticks = each(|p| ticks[p] + (slot[p] & own[p]));
        silent = each(|p| (silent[p] + slot[p]) & !own[p]);
        longest = each(|p| longest[p].max(silent[p]));
        seen = each(|p| seen[p] | own[p]);
        before = each(|p| before[p] + (slot[p] & !seen[p]));
    }
    // A partition that has no slot has twice the round here, which need not fit, and loses it.
    let silence = each(|p| longest[p].max(before[p].wrapping_add(silent[p])) & seen[p]);
    (ticks, silence)
}

#[inline(always)]
fn each(number: impl Fn(usize) -> i16) -> Row {
    std::array::from_fn(number)
}
