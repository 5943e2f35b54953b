//! Change request S-7: the schedule sheet.

use super::machine::next_place;
use super::record::sound;
use crate::kernel::{Place, Policy, Refused, SheetResult};

/// "a sheet with, for each partition, its ticks in one round and the longest stretch of ticks in a row, going round the end, in which it isn't current".
/// "Refused: 10, all zeros."
pub fn sheet(policy: &Policy) -> SheetResult {
    if !sound(policy) {
        return SheetResult::refused(10);
    }
    let round = round(policy);
    let mut result = SheetResult { number: 0, ticks: [0; 8], silence: [0; 8] };
    for p in 0..policy.partitions as usize {
        result.ticks[p] = round.iter().filter(|&&current| current == p).count() as u32;
        result.silence[p] = longest_silence(&round, p);
    }
    result
}

/// "Current is the partition of the present slot": of each tick from the first slot on, until it begins again.
fn round(policy: &Policy) -> Vec<usize> {
    let (mut round, mut place) = (Vec::new(), Place::FIRST);
    loop {
        round.push(policy.slot_partition[place.slot as usize] as usize);
        place = next_place(policy, place);
        if (place.slot, place.used) == (0, 0) {
            return round;
        }
    }
}

/// Through two rounds, so that a stretch round the end comes whole. "A partition with no slot shows 0 and 0."
fn longest_silence(round: &[usize], p: usize) -> u32 {
    if !round.contains(&p) {
        return 0;
    }
    let (mut longest, mut silent) = (0, 0);
    for &current in round.iter().chain(round) {
        silent = if current == p { 0 } else { silent + 1 };
        longest = longest.max(silent);
    }
    longest
}
