//! Kernels that leak on purpose, one way each: the test of separation has to catch every one of them.

use crate::as_reference;
use crate::kernel::{Kernel, Place, Policy, RecordExt, RunResult, MEMORY};
use crate::reference::{self, next_place, tick, Event, COUNTER, STATE};

#[derive(Clone, Copy, PartialEq, Eq, Debug)]
pub enum Leak {
    /// "Giving a waiting partition's ticks to the next one: its idleness then shows."
    IdleTicksGivenAway,
    /// "Letting a store also read back."
    StoreReadsBack,
    WordStoreReadsBack,
    /// The last of a word's four offsets is worked out modulo 4,294,967,296 and tested alone, so that a word may begin before its segment.
    WordComesRound,
    /// "Leaving code or save out of the sources in rule 8."
    RuleEightWithoutSave,
    /// "Testing the fetch by counter below length alone."
    FetchPastTheEnd,
    LoadAnywhere,
    StoreAnywhere,
    /// A line pended for one partition is pended for all.
    PendForAll,
    /// Register 0 stays when the next slot begins.
    RegisterKept,
    /// A fault of one partition halts the next.
    FaultHaltsTheNext,
    /// A halted partition's slot ends at once.
    HaltEndsTheSlot,
    /// Only a tick that does something raises the count: another partition's idleness then shows in it.
    CountOfWork,
    /// The same, and the count that Run returns is right: it shows in registers alone.
    CountOfWorkWithin,
}

pub const LEAKS: [Leak; 14] = [
    Leak::IdleTicksGivenAway,
    Leak::StoreReadsBack,
    Leak::WordStoreReadsBack,
    Leak::WordComesRound,
    Leak::RuleEightWithoutSave,
    Leak::FetchPastTheEnd,
    Leak::LoadAnywhere,
    Leak::StoreAnywhere,
    Leak::PendForAll,
    Leak::RegisterKept,
    Leak::FaultHaltsTheNext,
    Leak::HaltEndsTheSlot,
    Leak::CountOfWork,
    Leak::CountOfWorkWithin,
];

pub struct Leaky(pub Leak);

fn save_base(policy: &Policy, partition: usize) -> usize {
    policy.base[policy.save[partition] as usize] as usize
}

fn two(memory: &[u8], at: usize) -> usize {
    memory[at] as usize + 256 * memory[at + 1] as usize
}

fn four(memory: &[u8], at: usize) -> [u8; 4] {
    memory[at..at + 4].try_into().unwrap()
}

fn register(memory: &[u8], policy: &Policy, partition: usize, r: u8) -> u32 {
    u32::from_le_bytes(four(memory, save_base(policy, partition) + 4 * r as usize))
}

fn set_register(memory: &mut [u8], policy: &Policy, partition: usize, r: u8, value: [u8; 4]) {
    let at = save_base(policy, partition) + 4 * r as usize;
    memory[at..at + 4].copy_from_slice(&value);
}

impl Leaky {
    /// The policy with what the leak adds to it for a tick.
    fn wide(&self, policy: &Policy, memory: &[u8], current: usize) -> Policy {
        let mut wide = *policy;
        match self.0 {
            Leak::LoadAnywhere | Leak::StoreAnywhere => {
                let right = if self.0 == Leak::LoadAnywhere { 1 } else { 2 };
                (0..policy.segments as usize).for_each(|s| wide.set_right(current, s, policy.right(current, s) | right));
            }
            Leak::FetchPastTheEnd => {
                let code = policy.code[current] as usize;
                let (counter, size) = (two(memory, save_base(policy, current) + COUNTER), policy.size[code] as usize);
                if counter < size && counter + 4 > size && policy.base[code] as usize + counter + 4 <= MEMORY {
                    wide.size[code] = counter as u16 + 4;
                }
            }
            _ => (),
        }
        wide
    }

    /// One tick, with the leak; the place after it.
    fn leaky_tick(&self, policy: &Policy, memory: &mut [u8], place: Place) -> Place {
        let current = policy.slot_partition[place.slot as usize] as usize;
        let next = next_place(policy, place);
        let base = save_base(policy, current);
        let before = memory.to_vec();
        let event = tick(&self.wide(policy, &before, current), memory, current, place.count);
        let skip = Place { used: u32::from(policy.slot_ticks[place.slot as usize]) - 1, ..place };
        let heir = policy.slot_partition[next.slot as usize] as usize;
        match (self.0, event) {
            (Leak::IdleTicksGivenAway, Event::Idle { .. }) if memory[base + STATE] == 3 => return next_place(policy, skip),
            (Leak::HaltEndsTheSlot, Event::Idle { .. }) if memory[base + STATE] == 1 => return next_place(policy, skip),
            (Leak::StoreReadsBack, Event::Ran { opcode: 8 }) => read_back(policy, &before, memory, current, 1),
            (Leak::WordStoreReadsBack, Event::Ran { opcode: 14 }) => read_back(policy, &before, memory, current, 4),
            (Leak::WordComesRound, Event::Fault { number: 4, .. }) => come_round(policy, &before, memory, current),
            (Leak::RegisterKept, _) if next.used == 0 => {
                let kept = four(memory, base);
                set_register(memory, policy, heir, 0, kept);
            }
            (Leak::FaultHaltsTheNext, Event::Fault { .. }) => memory[save_base(policy, heir) + STATE] = 1,
            (Leak::CountOfWork | Leak::CountOfWorkWithin, Event::Idle { .. }) => return Place { count: place.count, ..next },
            _ => (),
        }
        next
    }
}

/// The instruction that a partition's next tick fetches.
fn fetched(policy: &Policy, memory: &[u8], partition: usize) -> [u8; 4] {
    four(memory, policy.base[policy.code[partition] as usize] as usize + two(memory, save_base(policy, partition) + COUNTER))
}

/// After a store: ra gets what its bytes were.
fn read_back(policy: &Policy, before: &[u8], memory: &mut [u8], partition: usize, width: usize) {
    let [_, a, b, c] = fetched(policy, before, partition);
    let at = policy.base[c as usize] as usize + register(before, policy, partition, b) as usize;
    let mut old = [0; 4];
    old[..width].copy_from_slice(&before[at..at + width]);
    set_register(memory, policy, partition, a, old);
}

/// After fault 4: a word whose last offset comes round into the segment is loaded or stored after all, from where its first byte would lie.
fn come_round(policy: &Policy, before: &[u8], memory: &mut [u8], partition: usize) {
    let [opcode, a, b, c] = fetched(policy, before, partition);
    let offset = register(before, policy, partition, b);
    let (base, size) = (u32::from(policy.base[c as usize]), u32::from(policy.size[c as usize]));
    let at = base.wrapping_add(offset) as usize;
    if opcode < 13 || offset.wrapping_add(3) >= size || at + 4 > MEMORY {
        return;
    }
    memory.copy_from_slice(before);
    let counter = save_base(policy, partition) + COUNTER;
    let next = two(before, counter) as u16 + 4;
    memory[counter..counter + 2].copy_from_slice(&next.to_le_bytes());
    if opcode == 13 {
        set_register(memory, policy, partition, a, four(before, at));
    } else {
        let word = register(before, policy, partition, a).to_le_bytes();
        memory[at..at + 4].copy_from_slice(&word);
    }
}

impl Kernel for Leaky {
    fn name(&self) -> &'static str {
        "leaky"
    }
    as_reference!(read, start, reach, can_reach, sheet);
    fn sound(&self, policy: &Policy) -> u32 {
        (self.0 == Leak::RuleEightWithoutSave || reference::sound(policy)) as u32
    }
    fn pend(&self, policy: &Policy, memory: &mut [u8], partition: u32, line: u32) -> u32 {
        if memory.len() != MEMORY || self.sound(policy) == 0 || partition >= u32::from(policy.partitions) || line > 7 {
            return reference::pend(policy, memory, partition, line);
        }
        for p in 0..policy.partitions as usize {
            if self.0 == Leak::PendForAll || p == partition as usize {
                memory[save_base(policy, p) + reference::PENDED] |= 1 << line;
            }
        }
        0
    }
    fn run(&self, policy: &Policy, memory: &mut [u8], place: Place, ticks: u32) -> RunResult {
        let slot_there = place.slot < u32::from(policy.slots) && place.used < u32::from(policy.slot_ticks[place.slot as usize]);
        let number = match () {
            _ if memory.len() != MEMORY => 9,
            _ if self.sound(policy) == 0 => 10,
            _ if !slot_there => 13,
            _ if ticks > 10_000 => 14,
            _ => 0,
        };
        if number != 0 {
            return RunResult { number, place };
        }
        let right = place.count.wrapping_add(ticks);
        let mut place = place;
        for _ in 0..ticks {
            place = self.leaky_tick(policy, memory, place);
        }
        if self.0 == Leak::CountOfWorkWithin {
            place.count = right;
        }
        RunResult { number: 0, place }
    }
}
