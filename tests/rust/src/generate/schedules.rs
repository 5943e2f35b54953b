//! Sound records by their schedules: where the slots of one partition stand, and how many ticks slots have; records that are not sound by their schedule
//! alone; and pairs that differ in the ticks of one slot.

use super::policies::{policy, Shape};
use super::records::perturb;
use crate::kernel::Policy;
use crate::random::Random;

/// Where the slots of one partition stand; the others' stand in no order.
#[derive(Clone, Copy, PartialEq, Eq, Debug)]
pub enum Sort {
    /// The schedule has one slot.
    OneSlot,
    /// All slots are its own, or none is.
    Alone,
    Without,
    /// Its slots are the first ones, the last ones, or both.
    First,
    Last,
    Ends,
    /// No two of them in a row.
    Apart,
    /// All of them in a row, none of them the first or the last slot.
    Within,
    /// The partitions in turn.
    Turns,
    Any,
}

pub const SORTS: [Sort; 10] =
    [Sort::OneSlot, Sort::Alone, Sort::Without, Sort::First, Sort::Last, Sort::Ends, Sort::Apart, Sort::Within, Sort::Turns, Sort::Any];

/// How many ticks slots have.
#[derive(Clone, Copy, PartialEq, Eq, Debug)]
pub enum Ticks {
    /// 1 to 9, so that stretches are often equal, or 1 to 1,000.
    Short,
    Any,
    /// One of 1 and one of 1,000, the others near either.
    Edges,
    /// All have the same.
    Alike,
    /// All have 1,000.
    Full,
    /// The last slot has the most.
    LastLongest,
}

pub const TICKS: [Ticks; 6] = [Ticks::Short, Ticks::Any, Ticks::Edges, Ticks::Alike, Ticks::Full, Ticks::LastLongest];

/// Up to eight partitions, and little else.
const SHAPE: Shape = Shape { segments: (2, 17), partitions: (1, 8), slots: (1, 1), right_rate: 8, flow_rate: 100 };

/// A sound record with a schedule of any sort.
pub fn record(random: &mut Random) -> Policy {
    let (sort, ticks) = (random.pick(&SORTS), random.pick(&TICKS));
    let slots = random.pick(&[2, 3, 4, 5, 8, 16, 31, 32]);
    of_sort(random, sort, ticks, slots).0
}

/// A sound record with a schedule of this sort, and the partition that it is about. Where there must be others there are two partitions at least.
pub fn of_sort(random: &mut Random, sort: Sort, ticks: Ticks, slots: usize) -> (Policy, usize) {
    let least = if let Sort::OneSlot | Sort::Alone | Sort::Turns | Sort::Any = sort { 1 } else { 2 };
    let mut policy = policy(random, Shape { segments: (least + 1, 17), partitions: (least, 8), ..SHAPE });
    let slots = match sort {
        Sort::OneSlot => 1,
        Sort::Ends | Sort::Within => slots.max(3),
        _ => slots,
    };
    let one = random.below(policy.partitions as usize);
    let owners = owners(random, sort, one, policy.partitions as usize, slots);
    let ticks = ticks_of(random, ticks, slots);
    put(&mut policy, &owners, &ticks);
    (policy, one)
}

/// Gives a record these slots and no others.
pub fn put(policy: &mut Policy, owners: &[usize], ticks: &[usize]) {
    (policy.slot_partition, policy.slot_ticks) = ([0; 32], [0; 32]);
    policy.slots = owners.len() as u8;
    for (slot, (&owner, &ticks)) in owners.iter().zip(ticks).enumerate() {
        (policy.slot_partition[slot], policy.slot_ticks[slot]) = (owner as u8, ticks as u16);
    }
}

fn owners(random: &mut Random, sort: Sort, one: usize, partitions: usize, slots: usize) -> Vec<usize> {
    // Its own slots: so many first, so many last, or one in so many. A third of all is left between.
    let third = (slots / 3).max(1);
    let (first, last, step) = (random.from(1, third), random.from(1, third), random.from(2, 4));
    let own = |slot: usize| match sort {
        Sort::OneSlot | Sort::Alone => true,
        Sort::Without => false,
        Sort::First => slot < first,
        Sort::Last => slot + last >= slots,
        Sort::Ends => slot < first || slot + last >= slots,
        Sort::Apart => slot % step == (first - 1) % step,
        Sort::Within => slot >= first && slot + last < slots,
        Sort::Turns | Sort::Any => false,
    };
    let mut other = |slot: usize| match sort {
        Sort::Turns => slot % partitions,
        Sort::Any => random.below(partitions),
        _ => (one + random.from(1, partitions - 1)) % partitions,
    };
    (0..slots).map(|slot| if own(slot) { one } else { other(slot) }).collect()
}

fn ticks_of(random: &mut Random, ticks: Ticks, slots: usize) -> Vec<usize> {
    let alike = random.pick(&[1, 2, 7, 999, 1_000]);
    let mut one = || match ticks {
        Ticks::Short => random.from(1, 9),
        Ticks::Any => random.from(1, 1_000),
        Ticks::Edges => random.pick(&[1, 1, 2, 999, 1_000, 1_000]),
        Ticks::Alike => alike,
        Ticks::Full => 1_000,
        Ticks::LastLongest => random.from(1, 500),
    };
    let mut all: Vec<usize> = (0..slots).map(|_| one()).collect();
    let most = random.from(501, 1_000);
    let at = random.below(slots);
    match ticks {
        Ticks::Edges => (all[at], all[(at + random.from(1, (slots - 1).max(1))) % slots]) = (1, 1_000),
        Ticks::LastLongest => all[slots - 1] = most,
        _ => (),
    }
    all
}

/// A record with a schedule, or one near it that need not be sound.
pub fn near(random: &mut Random) -> Policy {
    let mut policy = record(random);
    match random.below(6) {
        0 => perturb(random, &mut policy),
        1 => spoil(random, &mut policy),
        _ => (),
    }
    policy
}

/// One entry of the schedule out of range, or not 0 past the last slot.
pub fn spoil(random: &mut Random, policy: &mut Policy) {
    let slots = policy.slots as usize;
    let slot = random.below(slots);
    let past = random.from(slots, 32);
    match random.below(5) {
        0 => policy.slot_ticks[slot] = random.pick(&[0, 1_001, 1_024, 32_768, 65_535]),
        1 => policy.slot_partition[slot] = random.pick(&[policy.partitions, policy.partitions + 8, 8, 128, 255]),
        2 if past < 32 => policy.slot_ticks[past] = random.pick(&[1, 1_000]),
        3 if past < 32 => policy.slot_partition[past] = random.pick(&[1, policy.partitions, 255]),
        _ => policy.slots = random.pick(&[0, policy.slots - 1, policy.slots + 1, 33, 255]),
    }
}

/// Two sound records that differ in the ticks of one slot.
pub fn pair(random: &mut Random) -> [Policy; 2] {
    let one = record(random);
    let mut other = one;
    let slot = random.below(one.slots as usize);
    let ticks = one.slot_ticks[slot];
    let changed = [1, 1_000, ticks - 1, ticks + 1, random.from(1, 1_000) as u16];
    let within: Vec<u16> = changed.into_iter().filter(|&changed| changed != ticks && (1..=1_000).contains(&changed)).collect();
    other.slot_ticks[slot] = random.pick(&within);
    [one, other]
}
