//! Kernels whose schedule sheet is wrong, one way each.

use crate::as_reference;
use crate::kernel::{Kernel, Policy, SheetResult};
use crate::tuned::sheet;
use Wrong::*;

#[derive(Clone, Copy, PartialEq, Eq, Debug)]
pub enum Wrong {
    /// The walk stops after the last slot: what lies before the first own slot and what comes after the last are two stretches.
    NotRoundTheEnd,
    /// The stretch round the end is lost, or the one after the first own slot.
    LastLost,
    FirstLost,
    /// No stretch begins at the first slot, or at the last.
    NotFromFirst,
    NotFromLast,
    /// The walk ends one slot before it has gone round.
    OneStepShort,
    /// The last slot is left out.
    LastSlotLost,
    /// The first stretch alone, or the last, in place of the longest; the shortest; all together.
    FirstAlone,
    LastAlone,
    Shortest,
    Together,
    /// From slot 0 to the first own slot.
    FromSlotZero,
    /// The stretch with the longest slot of another.
    ByLongestSlot,
    /// The slot where a stretch ends counts too, or the one that it comes after.
    EndCounted,
    BeginCounted,
    /// A stretch is longer by one tick, or shorter.
    OneMore,
    OneLess,
    /// Slots are counted in place of ticks.
    SilenceBySlots,
    TicksBySlots,
    /// The ticks of the others, of the first own slot alone, or of two rounds.
    SumOfOthers,
    FirstSlotAlone,
    TwoRounds,
    /// A partition without a slot is silent for a whole round; one with every slot too.
    SilentWithoutSlot,
    SilentAlone,
    /// The row past the last partition is not 0, or the last row is.
    RowPast,
    LastRowLost,
    /// Ticks in place of silence and silence in place of ticks.
    Swapped,
    /// Sums, or the ticks of a slot, are cut to so many bits.
    SumsCut(u32),
    TicksCut(u32),
    /// A record that is not sound is answered, or refused with rows.
    Unchecked,
    NotEmptied,
}

pub const WRONG: [Wrong; 33] = [
    NotRoundTheEnd,
    LastLost,
    FirstLost,
    NotFromFirst,
    NotFromLast,
    OneStepShort,
    LastSlotLost,
    FirstAlone,
    LastAlone,
    Shortest,
    Together,
    FromSlotZero,
    ByLongestSlot,
    EndCounted,
    BeginCounted,
    OneMore,
    OneLess,
    SilenceBySlots,
    TicksBySlots,
    SumOfOthers,
    FirstSlotAlone,
    TwoRounds,
    SilentWithoutSlot,
    SilentAlone,
    RowPast,
    LastRowLost,
    Swapped,
    SumsCut(8),
    SumsCut(14),
    TicksCut(8),
    TicksCut(9),
    Unchecked,
    NotEmptied,
];

/// Those that break no law of a sound record's sheet: the reference finds them.
pub const LAWFUL: [Wrong; 3] = [Together, Unchecked, NotEmptied];

/// Those that break the law of a change.
pub const JUMPING: [Wrong; 5] = [ByLongestSlot, SumsCut(8), SumsCut(14), TicksCut(8), TicksCut(9)];

pub struct MisledSheet(pub Wrong);

/// A slot of the schedule.
#[derive(Clone, Copy)]
struct Slot {
    owner: usize,
    ticks: u32,
}

/// Of each own slot those that follow it up to the next one, going round the end.
fn stretches(slots: &[Slot], p: usize) -> Vec<Vec<Slot>> {
    let count = slots.len();
    let after = |own: usize| (1..count).map(|step| slots[(own + step) % count]).take_while(|slot| slot.owner != p).collect();
    (0..count).filter(|&slot| slots[slot].owner == p).map(after).collect()
}

fn sum(slots: &[Slot]) -> u32 {
    slots.iter().map(|slot| slot.ticks).sum()
}

impl Wrong {
    /// The slots as this kernel has them.
    fn slots(self, policy: &Policy) -> Vec<Slot> {
        let count = (policy.slots as usize).min(32);
        let cut = |ticks: u32| if let TicksCut(bits) = self { ticks % (1 << bits) } else { ticks };
        let slot = |k: usize| Slot { owner: policy.slot_partition[k] as usize, ticks: cut(u32::from(policy.slot_ticks[k])) };
        let walked = if self == LastSlotLost { count.saturating_sub(1) } else { count };
        (0..walked).map(slot).collect()
    }

    fn ticks(self, slots: &[Slot], p: usize) -> u32 {
        let own: Vec<Slot> = slots.iter().copied().filter(|slot| slot.owner == p).collect();
        match self {
            TicksBySlots => own.len() as u32,
            SumOfOthers => sum(slots) - sum(&own),
            FirstSlotAlone => own.first().map_or(0, |slot| slot.ticks),
            TwoRounds => 2 * sum(&own),
            SumsCut(bits) => sum(&own) % (1 << bits),
            _ => sum(&own),
        }
    }

    fn silence(self, slots: &[Slot], p: usize) -> u32 {
        let stretches = self.stretches(slots, p);
        let own: Vec<u32> = slots.iter().filter(|slot| slot.owner == p).map(|slot| slot.ticks).collect();
        if own.is_empty() {
            return if self == SilentWithoutSlot { sum(slots) } else { 0 };
        }
        let length = |(at, stretch): (usize, &Vec<Slot>)| match self {
            EndCounted => sum(stretch) + own[(at + 1) % own.len()],
            BeginCounted => sum(stretch) + own[at],
            SilenceBySlots => stretch.len() as u32,
            OneMore => sum(stretch) + 1,
            OneLess => sum(stretch).saturating_sub(1),
            _ => sum(stretch),
        };
        let lengths: Vec<u32> = stretches.iter().enumerate().map(length).collect();
        if self == FromSlotZero {
            return slots.iter().take_while(|slot| slot.owner != p).map(|slot| slot.ticks).sum();
        }
        self.picked(&stretches, &lengths).unwrap_or(if self == SilentAlone { sum(slots) } else { 0 })
    }

    /// The stretches that this kernel finds.
    fn stretches(self, slots: &[Slot], p: usize) -> Vec<Vec<Slot>> {
        let mut stretches = stretches(slots, p);
        let Some(last) = stretches.pop() else { return stretches };
        // So many slots of the last stretch lie past the end.
        let past = slots.iter().take_while(|slot| slot.owner != p).count();
        let before = last.len() - past;
        match self {
            NotRoundTheEnd => stretches.extend([last[..before].to_vec(), last[before..].to_vec()]),
            LastLost => (),
            NotFromFirst if before == 0 => stretches.push(last.into_iter().skip(1).collect()),
            NotFromLast if before == 1 => stretches.push(last[1..].to_vec()),
            OneStepShort if last.len() + 1 == slots.len() => stretches.push(last.into_iter().rev().skip(1).collect()),
            _ => stretches.push(last),
        }
        if self == FirstLost {
            stretches.remove(0);
        }
        stretches
    }

    /// The one that this kernel takes for the longest, if there is one.
    fn picked(self, stretches: &[Vec<Slot>], lengths: &[u32]) -> Option<u32> {
        let longest = lengths.iter().copied().max();
        let longest_slot = |at: &usize| stretches[*at].iter().map(|slot| slot.ticks).max();
        match self {
            FirstAlone => lengths.first().copied(),
            LastAlone => lengths.last().copied(),
            Shortest => lengths.iter().copied().min(),
            Together => Some(lengths.iter().sum()),
            ByLongestSlot => (0..lengths.len()).max_by_key(longest_slot).map(|at| lengths[at]),
            SumsCut(bits) => longest.map(|longest| longest % (1 << bits)),
            SilentAlone => longest.filter(|&longest| longest > 0),
            _ => longest,
        }
    }

    fn sheet(self, policy: &Policy) -> SheetResult {
        let slots = self.slots(policy);
        let mut sheet = SheetResult { number: 0, ticks: [0; 8], silence: [0; 8] };
        for p in 0..(policy.partitions as usize).min(8) {
            (sheet.ticks[p], sheet.silence[p]) = (self.ticks(&slots, p), self.silence(&slots, p));
        }
        let partitions = policy.partitions as usize;
        match self {
            RowPast if partitions < 8 => sheet.silence[partitions] = sum(&slots),
            LastRowLost if partitions > 1 => (sheet.ticks[partitions - 1], sheet.silence[partitions - 1]) = (0, 0),
            Swapped => (sheet.ticks, sheet.silence) = (sheet.silence, sheet.ticks),
            _ => (),
        }
        sheet
    }
}

impl Kernel for MisledSheet {
    fn name(&self) -> &'static str {
        "misled"
    }
    as_reference!(read, sound, start, pend, run, reach, can_reach);

    fn sheet(&self, policy: &Policy) -> SheetResult {
        let right = sheet(policy);
        match self.0 {
            Unchecked => SheetResult { number: 0, ..self.0.sheet(policy) },
            NotEmptied if right.number == 10 => SheetResult { number: 10, ..self.0.sheet(policy) },
            wrong if right.number == 0 => wrong.sheet(policy),
            _ => right,
        }
    }
}
