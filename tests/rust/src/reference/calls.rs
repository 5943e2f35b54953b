//! Start, Pend and Run: "When they refuse they return the number and change no byte of memory."

use super::machine::{next_place, tick, Event, PENDED, SAVE};
use super::record::sound;
use crate::kernel::{Place, Policy, RunResult, MEMORY};

/// "9: memory isn't 16,384 bytes. 10: the record is that of no accepted text."
fn refused(policy: &Policy, memory: &[u8]) -> Option<u32> {
    if memory.len() != MEMORY {
        return Some(9);
    }
    if !sound(policy) {
        return Some(10);
    }
    None
}

/// "Else all save segments become zero, other bytes stay, and the place is slot 0 with 0 used." "a refused Start returns slot 0 with 0 used" S-8: the
/// count, "which Start, refused too, sets to 0".
pub fn start(policy: &Policy, memory: &mut [u8]) -> RunResult {
    if let Some(number) = refused(policy, memory) {
        return RunResult { number, place: Place::FIRST };
    }
    for p in 0..policy.partitions as usize {
        let base = policy.base[policy.save[p] as usize] as usize;
        memory[base..base + SAVE].fill(0);
    }
    RunResult { number: 0, place: Place::FIRST }
}

/// "9, 10, then 11: no such partition. 12: line above 7. Else that pended bit becomes 1 and no other bit of memory changes."
pub fn pend(policy: &Policy, memory: &mut [u8], partition: u32, line: u32) -> u32 {
    if let Some(number) = refused(policy, memory) {
        return number;
    }
    if partition >= u32::from(policy.partitions) {
        return 11;
    }
    if line > 7 {
        return 12;
    }
    let base = policy.base[policy.save[partition as usize] as usize] as usize;
    memory[base + PENDED] |= 1 << line;
    0
}

pub fn run(policy: &Policy, memory: &mut [u8], place: Place, ticks: u32) -> RunResult {
    run_watched(policy, memory, place, ticks, &mut |_| ())
}

/// "9, 10, then 13: slot not in the schedule, or ticks used at or past the slot's. 14: n over 10,000. Else n ticks are done and the new place is
/// returned; n = 0 changes nothing." "A refused Run returns the place it was given".
pub fn run_watched(policy: &Policy, memory: &mut [u8], place: Place, ticks: u32, watch: &mut dyn FnMut(Event)) -> RunResult {
    if let Some(number) = refused(policy, memory) {
        return RunResult { number, place };
    }
    if place.slot >= u32::from(policy.slots) || place.used >= u32::from(policy.slot_ticks[place.slot as usize]) {
        return RunResult { number: 13, place };
    }
    if ticks > 10_000 {
        return RunResult { number: 14, place };
    }
    let mut place = place;
    for _ in 0..ticks {
        // "Current is the partition of the present slot."
        let current = policy.slot_partition[place.slot as usize] as usize;
        watch(tick(policy, memory, current, place.count));
        place = next_place(policy, place);
    }
    RunResult { number: 0, place }
}
