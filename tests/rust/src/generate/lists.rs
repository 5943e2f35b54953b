//! Random lists of calls.

use super::memories::memory;
use super::policies::{policy, Shape};
use super::records::{one_source, perturb};
use crate::kernel::{Place, Policy, MEMORY};
use crate::random::Random;

/// Bytes behind the memory that no call may touch.
pub const BEHIND: usize = 64;

#[derive(Clone, Copy, Debug, PartialEq, Eq)]
pub enum Call {
    Start,
    Pend {
        partition: u32,
        line: u32,
    },
    /// From the place that the Start or Run before returned, or from another one.
    Run {
        ticks: u32,
        from: Option<Place>,
    },
}

/// One call, with the length of the memory that it gets, and whether it gets the list's second record.
#[derive(Clone, Copy, Debug, PartialEq, Eq)]
pub struct Step {
    pub call: Call,
    pub length: usize,
    pub second: bool,
}

#[derive(Clone)]
pub struct List {
    /// A sound record, and one near it that may be none.
    pub policies: [Policy; 2],
    /// The memory, and some bytes behind it.
    pub memory: Vec<u8>,
    pub place: Place,
    pub steps: Vec<Step>,
}

/// A count: 0, a small one, one from which some ticks come round to 0, or any.
pub fn count(random: &mut Random) -> u32 {
    match random.below(8) {
        0..=1 => 0,
        2..=3 => random.below(1_000) as u32,
        4..=5 => u32::MAX - random.pick(&[0, 1, 2, 10, 100, 10_000]).min(random.below(10_001) as u32),
        _ => random.number() as u32,
    }
}

pub fn place(random: &mut Random, policy: &Policy) -> Place {
    let slots = u32::from(policy.slots);
    let (slot, used) = match random.below(16) {
        0 => (random.pick(&[slots, slots + 1, 32, 33, 255, 256, 65_536, u32::MAX]), random.below(2) as u32),
        1 => {
            let slot = random.below(policy.slots as usize);
            let ticks = u32::from(policy.slot_ticks[slot]);
            (slot as u32, random.pick(&[ticks, ticks + 1, ticks.wrapping_sub(1), 1_000, 65_536, u32::MAX]))
        }
        2..=8 => {
            let slot = random.below(policy.slots as usize);
            (slot as u32, random.below(policy.slot_ticks[slot] as usize) as u32)
        }
        _ => (0, 0),
    };
    Place { slot, used, count: count(random) }
}

pub fn ticks(random: &mut Random) -> u32 {
    match random.below(300) {
        0 => 10_000,
        1 => 9_999,
        2 => 10_001,
        3 => random.pick(&[10_002, 65_536, 65_537, u32::MAX, 1 << 31]),
        4..=30 => 0,
        31..=120 => random.below(12) as u32,
        121..=285 => random.below(120) as u32,
        _ => random.below(900) as u32,
    }
}

pub fn list(random: &mut Random) -> List {
    let shape = if random.one_in(3) { Shape::APART } else { Shape::any(random) };
    let policy = policy(random, shape);
    let mut second = policy;
    if random.one_in(3) {
        let p = random.below(policy.partitions as usize);
        one_source(random, &mut second, p);
    } else {
        perturb(random, &mut second);
    }
    let mut memory = memory(random, &policy, 60);
    memory.resize(MEMORY + BEHIND, 0xA5);
    let place = place(random, &policy);
    let count = random.from(1, 10);
    let steps = (0..count).map(|_| step(random, &policy)).collect();
    List { policies: [policy, second], memory, place, steps }
}

fn step(random: &mut Random, policy: &Policy) -> Step {
    let call = match random.below(20) {
        0 => Call::Start,
        1..=8 => {
            let partitions = policy.partitions as usize;
            let partition =
                if random.one_in(15) { random.pick(&[partitions, partitions + 1, 8, 255, 256, 65_536]) } else { random.below(partitions) };
            let line = if random.one_in(15) { random.pick(&[8, 9, 32, 256, u32::MAX]) } else { random.below(8) as u32 };
            Call::Pend { partition: partition as u32, line }
        }
        _ => Call::Run { ticks: ticks(random), from: random.one_in(12).then(|| place(random, policy)) },
    };
    let length = if random.one_in(40) { random.pick(&[0, 1, 44, MEMORY - 1, MEMORY + 1, MEMORY + BEHIND]) } else { MEMORY };
    Step { call, length, second: random.one_in(30) }
}
