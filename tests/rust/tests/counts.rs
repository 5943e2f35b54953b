//! Change request S-8: the count of ticks since Start, and opcode 15, on the reference and on each kernel.

use separation::compare::list_difference;
use separation::generate::lists::{count, list};
use separation::generate::workloads::policy_of;
use separation::kernel::{Kernel, Place, Policy, RunResult, MEMORY};
use separation::random::Random;
use separation::{as_reference, demonstration, each, reference};

/// One partition with 64 bytes of code at 0 and its save segment at 64, in a slot of 7 ticks.
const SAVE: usize = 64;
const TEXT: &str = "segment\t0\t0\t64\nsegment\t1\t64\t44\npartition\t0\t0\t1\nright\t0\t0\tr\nflow\t0\t1\nslot\t0\t7\n";

fn policy() -> Policy {
    policy_of(TEXT.as_bytes())
}

fn memory(instructions: &[[u8; 4]]) -> Vec<u8> {
    let mut memory = vec![0; MEMORY];
    memory[..4 * instructions.len()].copy_from_slice(&instructions.concat());
    memory
}

fn register(memory: &[u8], save: usize, r: usize) -> u32 {
    u32::from_le_bytes(memory[save + 4 * r..save + 4 * r + 4].try_into().unwrap())
}

const COUNTS: [u32; 8] = [0, 1, 255, 65_536, 0x0102_0304, 1 << 31, u32::MAX - 1, u32::MAX];

/// "Opcode 15 sets ra to the count before its tick"; nothing else changes but the counter, which gains 4.
#[test]
fn a_register_takes_the_count_before_the_tick() {
    each(|kernel| {
        for from in COUNTS {
            for a in 0..8 {
                let before = memory(&[[15, a, 255, 255]]);
                let (mut got, mut wanted) = (before.clone(), before);
                wanted[SAVE + 4 * a as usize..SAVE + 4 * a as usize + 4].copy_from_slice(&from.to_le_bytes());
                wanted[SAVE + 32] = 4;
                let result = kernel.run(&policy(), &mut got, Place { slot: 0, used: 3, count: from }, 1);
                assert_eq!(result, RunResult { number: 0, place: Place { slot: 0, used: 4, count: from.wrapping_add(1) } });
                assert_eq!(got, wanted, "{}: r{a} at {from}", kernel.name());
            }
        }
    });
}

/// "a must be a register"; b and c may have all values.
#[test]
fn a_must_be_a_register_and_the_other_bytes_are_free() {
    let policy = policy();
    each(|kernel| {
        for a in 8..=255 {
            let before = memory(&[[15, a, 0, 0]]);
            let (mut got, mut wanted) = (before.clone(), before);
            wanted[SAVE + 34..SAVE + 36].copy_from_slice(&[2, 2]);
            assert_eq!(kernel.run(&policy, &mut got, Place { slot: 0, used: 0, count: 9 }, 1).place.count, 10);
            assert_eq!(got, wanted, "{}: a of {a}", kernel.name());
        }
        let mut got = memory(&[]);
        for (b, c) in (0..=255).flat_map(|b| (0..=255).map(move |c| (b, c))) {
            got[..4].copy_from_slice(&[15, 3, b, c]);
            got[SAVE..SAVE + 44].fill(0);
            kernel.run(&policy, &mut got, Place { slot: 0, used: 0, count: 77 }, 1);
            assert_eq!((register(&got, SAVE, 3), got[SAVE + 32], got[SAVE + 34]), (77, 4, 0), "{}: {b} {c}", kernel.name());
        }
    });
}

/// "each tick raises": an instruction, a fault, an interrupt, an idle step; "modulo 4,294,967,296".
#[test]
fn every_tick_raises_the_count() {
    // State, in-handler, pended and enabled lines, and the instruction that is there.
    let kinds: [(&str, [u8; 4], [u8; 4]); 9] = [
        ("an instruction", [0, 0, 0, 0], [1, 0, 0, 0]),
        ("a halt", [0, 0, 0, 0], [0, 0, 0, 0]),
        ("a wait", [0, 0, 0, 0], [10, 0, 0, 0]),
        ("a fault", [0, 0, 0, 0], [16, 0, 0, 0]),
        ("an interrupt", [0, 0, 4, 4], [1, 0, 0, 0]),
        ("an interrupt while waiting", [3, 0, 4, 4], [1, 0, 0, 0]),
        ("halted", [1, 0, 4, 4], [15, 0, 0, 0]),
        ("faulted", [2, 0, 4, 4], [15, 0, 0, 0]),
        ("waiting", [3, 0, 4, 0], [15, 0, 0, 0]),
    ];
    each(|kernel| {
        for (name, [state, inside, pended, enabled], instruction) in kinds {
            for from in COUNTS {
                let mut memory = memory(&[instruction]);
                (memory[SAVE + 34], memory[SAVE + 42]) = (state, inside);
                (memory[SAVE + 36], memory[SAVE + 37]) = (pended, enabled);
                let place = kernel.run(&policy(), &mut memory, Place { slot: 0, used: 6, count: from }, 1).place;
                assert_eq!(place, Place { slot: 0, used: 0, count: from.wrapping_add(1) }, "{}: {name}", kernel.name());
            }
        }
    });
}

/// The count over the end within one Run, and between two; a Run of n ticks adds n.
#[test]
fn the_count_comes_round() {
    let program: Vec<[u8; 4]> = (0..8).map(|r| [15, r, 0, 0]).collect();
    each(|kernel| {
        let mut memory = memory(&program);
        kernel.run(&policy(), &mut memory, Place { slot: 0, used: 2, count: u32::MAX - 2 }, 8);
        let read: Vec<u32> = (0..8).map(|r| register(&memory, SAVE, r)).collect();
        assert_eq!(read, [u32::MAX - 2, u32::MAX - 1, u32::MAX, 0, 1, 2, 3, 4], "{}", kernel.name());
        for from in COUNTS {
            for ticks in [0, 1, 2, 9_999, 10_000] {
                let mut memory = vec![0; MEMORY];
                let place = kernel.run(&policy(), &mut memory, Place { slot: 0, used: 0, count: from }, ticks).place;
                assert_eq!(place, Place { slot: 0, used: ticks % 7, count: from.wrapping_add(ticks) }, "{}", kernel.name());
            }
        }
    });
}

/// "which Start, refused too, sets to 0"; a refused Run returns the place that it was given, and every count is a good one.
#[test]
fn start_sets_the_count_to_0_and_refused_runs_leave_it() {
    let stray = Policy { unused: 1, ..demonstration() };
    each(|kernel| {
        let mut memory = vec![0; MEMORY];
        assert_eq!(kernel.start(&demonstration(), &mut memory), RunResult { number: 0, place: Place::FIRST });
        assert_eq!(kernel.start(&demonstration(), &mut memory[..MEMORY - 1]), RunResult { number: 9, place: Place::FIRST });
        assert_eq!(kernel.start(&stray, &mut memory), RunResult { number: 10, place: Place::FIRST });
        for count in COUNTS {
            let place = Place { slot: 1, used: 1, count };
            assert_eq!(kernel.run(&demonstration(), &mut memory[1..], place, 1), RunResult { number: 9, place });
            assert_eq!(kernel.run(&stray, &mut memory, place, 1), RunResult { number: 10, place });
            assert_eq!(kernel.run(&demonstration(), &mut memory, place, 10_001), RunResult { number: 14, place });
            assert_eq!(kernel.run(&demonstration(), &mut memory, place, 0), RunResult { number: 0, place });
            for far in [Place { slot: 2, ..place }, Place { used: 2, ..place }] {
                assert_eq!(kernel.run(&demonstration(), &mut memory, far, 1), RunResult { number: 13, place: far });
            }
        }
    });
}

/// "Old opcodes act as they did": without opcode 15 the count decides nothing.
#[test]
fn without_opcode_15_the_count_decides_nothing() {
    each(|kernel| {
        let mut random = Random::new(18);
        for _ in 0..300 {
            let mut memory = vec![0; MEMORY];
            random.fill(&mut memory[..272]);
            // No 15 in the code of either; segment 4 is code to nobody.
            memory[..192].iter_mut().filter(|byte| **byte == 15).for_each(|byte| *byte = 9);
            let (mut other, ticks) = (memory.clone(), random.below(200) as u32);
            let one = kernel.run(&demonstration(), &mut memory, Place::FIRST, ticks);
            let two = kernel.run(&demonstration(), &mut other, Place { count: count(&mut random), ..Place::FIRST }, ticks);
            assert_eq!((memory, one.number, one.place.slot, one.place.used), (other, two.number, two.place.slot, two.place.used));
        }
    });
}

/// Both partitions read one clock, and whether the other one runs or not does not show in it.
#[test]
fn all_partitions_read_one_clock() {
    each(|kernel| {
        for other in [[15, 0, 0, 0], [0, 0, 0, 0], [10, 0, 0, 0], [200, 0, 0, 0]] {
            let mut memory = vec![0; MEMORY];
            memory[..4].copy_from_slice(&other);
            memory[128..136].copy_from_slice(&[15, 2, 0, 0, 15, 3, 0, 0]);
            kernel.run(&demonstration(), &mut memory, Place::FIRST, 5);
            assert_eq!((register(&memory, 192, 2), register(&memory, 192, 3)), (3, 4), "{}: {other:?}", kernel.name());
        }
    });
}

/// Wrong about the count, one way each.
#[derive(Clone, Copy, PartialEq, Eq, Debug)]
enum Miscount {
    /// Start leaves a count of 1.
    StartAtOne,
    /// So does one that is refused, and no other.
    RefusedStartAtOne,
    /// The count stays at its end.
    Saturates,
    /// All ticks of a Run get its first count.
    StandsInARun,
    /// A tick gets the count after it.
    After,
    /// The first tick of a slot isn't counted.
    SlotsUncounted,
    /// A refused Run gives count 0 back.
    RefusedRunForgets,
    /// 13 refuses the highest count.
    HighestRefused,
}

const MISCOUNTS: [Miscount; 8] = [
    Miscount::StartAtOne,
    Miscount::RefusedStartAtOne,
    Miscount::Saturates,
    Miscount::StandsInARun,
    Miscount::After,
    Miscount::SlotsUncounted,
    Miscount::RefusedRunForgets,
    Miscount::HighestRefused,
];

impl Miscount {
    /// The count that the tick of a place gets, in a Run that began at another.
    fn told(self, place: Place, begun: u32) -> u32 {
        match self {
            Miscount::StandsInARun => begun,
            Miscount::After => place.count.wrapping_add(1),
            _ => place.count,
        }
    }

    fn next(self, policy: &Policy, place: Place) -> Place {
        let next = reference::next_place(policy, place);
        match self {
            Miscount::Saturates => Place { count: place.count.saturating_add(1), ..next },
            Miscount::SlotsUncounted if place.used == 0 => Place { count: place.count, ..next },
            _ => next,
        }
    }
}

impl Kernel for Miscount {
    fn name(&self) -> &'static str {
        "miscount"
    }
    as_reference!(read, sound, pend, reach, can_reach, sheet);
    fn start(&self, policy: &Policy, memory: &mut [u8]) -> RunResult {
        let mut result = reference::start(policy, memory);
        let wrong = *self == Miscount::StartAtOne || *self == Miscount::RefusedStartAtOne && result.number > 0;
        result.place.count = wrong as u32;
        result
    }
    fn run(&self, policy: &Policy, memory: &mut [u8], place: Place, ticks: u32) -> RunResult {
        let number = reference::run(policy, &mut memory.to_vec(), place, ticks).number;
        if number > 0 {
            let count = if *self == Miscount::RefusedRunForgets { 0 } else { place.count };
            return RunResult { number, place: Place { count, ..place } };
        }
        if *self == Miscount::HighestRefused && place.count == u32::MAX {
            return RunResult { number: 13, place };
        }
        let mut at = place;
        for _ in 0..ticks {
            reference::tick(policy, memory, policy.slot_partition[at.slot as usize] as usize, self.told(at, place.count));
            at = self.next(policy, at);
        }
        RunResult { number: 0, place: at }
    }
}

/// Generated lists tell each wrong count from the right one.
#[test]
fn wrong_counts_are_found() {
    for wrong in MISCOUNTS {
        let mut random = Random::new(19);
        assert!((0..20_000).any(|_| list_difference(&wrong, &list(&mut random)).is_some()), "{wrong:?}");
    }
}
