//! The rows of the benchmark.

use crate::timed::Timed;
use separation::generate::policies::{full_in_hexadecimal, longest};
use separation::generate::texts::{hexadecimal_text_of, text_of};
use separation::generate::workloads::{chain, copy, copy_words, few_flows, idle, in_no_order, in_order, in_turn, least, policy_of, programs};
use separation::generate::workloads::{each_with, COMPUTE};
use separation::kernel::Policy;
use separation::kernel::MEMORY;

pub const DEMONSTRATION: &[u8] = include_bytes!("../../../../../policies/demonstration.policy");

/// The ticks of a Run whose ticks are measured.
const RUN: u32 = 10_000;

pub struct Case {
    pub name: &'static str,
    /// The most that the ratio to the tuned kernel should be.
    pub aim: f64,
    /// The calls of one measurement.
    pub calls: u32,
    /// What a call has of what the row is about: ticks of a Run, or 1.
    pub parts: u32,
    pub time: fn(&dyn Timed, u32) -> f64,
}

const fn tick(name: &'static str, time: fn(&dyn Timed, u32) -> f64) -> Case {
    Case { name, aim: 1.0, calls: 4, parts: RUN, time }
}

/// A tick in a long slot.
const fn long(name: &'static str, time: fn(&dyn Timed, u32) -> f64) -> Case {
    Case { aim: 0.7, ..tick(name, time) }
}

const fn call(name: &'static str, calls: u32, time: fn(&dyn Timed, u32) -> f64) -> Case {
    Case { name, aim: 2.0, calls, parts: 1, time }
}

/// A call that does little beside the test of the record.
const fn small(name: &'static str, calls: u32, aim: f64, time: fn(&dyn Timed, u32) -> f64) -> Case {
    Case { aim, ..call(name, calls, time) }
}

const fn read(name: &'static str, calls: u32, time: fn(&dyn Timed, u32) -> f64) -> Case {
    Case { aim: 1.8, ..call(name, calls, time) }
}

/// Runs under a policy with a program for each of its partitions.
fn run_each(kernel: &dyn Timed, calls: u32, policy: &Policy, program: impl Fn(usize) -> Vec<[u8; 4]>) -> f64 {
    kernel.run(policy, &each_with(policy, program), RUN, calls)
}

fn compute(_: usize) -> Vec<[u8; 4]> {
    COMPUTE.to_vec()
}

/// From the segment that a partition of `in_turn` may read into the one that it may write.
fn copy_own(p: usize) -> Vec<[u8; 4]> {
    copy(4 * p as u8 + 3, 4 * p as u8 + 2)
}

/// Its calls time one another, so that its instructions are not counted.
pub const INTERRUPTS: &str = "tick, interrupts (taken and back in turn)";

const SOUND_DEMONSTRATION: &str = "soundness, demonstration (5/2/2)";
const SOUND_LARGEST: &str = "soundness, largest record (32/8/32)";
const ASK_DEMONSTRATION: &str = "question that one line answers, demonstration";
const ASK_LARGEST: &str = "question that one line answers, largest record";

/// Flow lines of the two records, from and to.
pub const ONE_LINE: [(u32, u32); 2] = [(4, 3), (30, 31)];

/// Rows that bear soundness and little more, each with the row of soundness alone, and the most that their ratio should be.
pub const BESIDE: [(&str, &str); 2] = [(ASK_DEMONSTRATION, SOUND_DEMONSTRATION), (ASK_LARGEST, SOUND_LARGEST)];
pub const BESIDE_AIM: f64 = 1.1;

pub const CASES: [Case; 36] = [
    long("tick, compute loop", |kernel, calls| {
        let (policy, memory) = programs(&COMPUTE, &COMPUTE);
        kernel.run(&policy, &memory, RUN, calls)
    }),
    long("tick, load-and-store copy loop", |kernel, calls| {
        let (policy, memory) = programs(&copy(5, 4), &copy(4, 5));
        kernel.run(&policy, &memory, RUN, calls)
    }),
    long("tick, word copy loop", |kernel, calls| {
        let (policy, memory) = programs(&copy_words(5, 4), &copy_words(4, 5));
        kernel.run(&policy, &memory, RUN, calls)
    }),
    tick("tick, idle (one halted, one waiting)", |kernel, calls| {
        let (policy, memory) = programs(&[[0, 0, 0, 0]], &[[10, 0, 0, 0]]);
        kernel.run(&policy, &memory, RUN, calls)
    }),
    tick("tick, slots of one, compute loop", |kernel, calls| run_each(kernel, calls, &in_turn(1), compute)),
    tick("tick, slots of one, load-and-store copy loop", |kernel, calls| run_each(kernel, calls, &in_turn(1), copy_own)),
    tick("tick, slots of one, idle", |kernel, calls| run_each(kernel, calls, &in_turn(1), idle)),
    tick("tick, demonstration (slots of 3 and 2), compute loop", |kernel, calls| run_each(kernel, calls, &policy_of(DEMONSTRATION), compute)),
    Case { aim: 0.8, ..tick("tick, demonstration, idle", |kernel, calls| run_each(kernel, calls, &policy_of(DEMONSTRATION), idle)) },
    long("tick, 32/8/32 in slots of 100, compute loop", |kernel, calls| run_each(kernel, calls, &in_turn(100), compute)),
    long("tick, 32/8/32 in slots of 100, load-and-store copy loop", |kernel, calls| run_each(kernel, calls, &in_turn(100), copy_own)),
    Case { name: INTERRUPTS, aim: 1.0, calls: 200, parts: 128, time: |kernel, calls| kernel.interrupts(calls) },
    call("soundness, least record (3/1/1)", 300, |kernel, calls| kernel.sound(&least(), calls)),
    call(SOUND_DEMONSTRATION, 300, |kernel, calls| kernel.sound(&policy_of(DEMONSTRATION), calls)),
    call(SOUND_LARGEST, 100, |kernel, calls| kernel.sound(&longest(), calls)),
    call("soundness, 32/8/32 with few flows", 100, |kernel, calls| kernel.sound(&few_flows(), calls)),
    small("Pend, demonstration", 300, 1.3, |kernel, calls| kernel.pend(&policy_of(DEMONSTRATION), calls)),
    small("Pend, largest record", 100, 1.35, |kernel, calls| kernel.pend(&longest(), calls)),
    small("Start, demonstration", 300, 1.3, |kernel, calls| kernel.start(&policy_of(DEMONSTRATION), calls)),
    small("Start, largest record", 100, 1.35, |kernel, calls| kernel.start(&longest(), calls)),
    small("Run of 0 ticks, demonstration", 300, 1.3, |kernel, calls| kernel.run(&policy_of(DEMONSTRATION), &[0; MEMORY], 0, calls)),
    small("Run of 0 ticks, largest record", 100, 1.35, |kernel, calls| kernel.run(&longest(), &[0; MEMORY], 0, calls)),
    read("Read, demonstration (225 bytes)", 200, |kernel, calls| kernel.read(DEMONSTRATION, calls)),
    read("Read, 32/8/32 with few flows (1,363 bytes)", 100, |kernel, calls| kernel.read(&text_of(&few_flows()), calls)),
    read("Read, longest text in decimal (13,639 bytes)", 10, |kernel, calls| kernel.read(&text_of(&longest()), calls)),
    read("Read, 1,096 lines in decimal (12,391 bytes)", 10, |kernel, calls| kernel.read(&text_of(&full_in_hexadecimal()), calls)),
    read("Read, the same in hexadecimal (16,384 bytes)", 10, |kernel, calls| kernel.read(&hexadecimal_text_of(&full_in_hexadecimal()), calls)),
    Case { aim: 1.5, ..call("report, largest record", 100, |kernel, calls| kernel.reach(&longest(), calls)) },
    Case { aim: 1.5, ..call("report, chain of 32 segments", 100, |kernel, calls| kernel.reach(&chain(), calls)) },
    call(ASK_DEMONSTRATION, 300, |kernel, calls| kernel.can_reach(&policy_of(DEMONSTRATION), ONE_LINE[0], calls)),
    call(ASK_LARGEST, 100, |kernel, calls| kernel.can_reach(&longest(), ONE_LINE[1], calls)),
    call("question, chain of 32 segments end to end", 100, |kernel, calls| kernel.can_reach(&chain(), (0, 31), calls)),
    call("sheet, demonstration", 300, |kernel, calls| kernel.sheet(&policy_of(DEMONSTRATION), calls)),
    Case { aim: 1.5, ..call("sheet, largest record (32 slots in turn)", 100, |kernel, calls| kernel.sheet(&longest(), calls)) },
    Case { aim: 1.5, ..call("sheet, the same with segments in order", 100, |kernel, calls| kernel.sheet(&in_order(), calls)) },
    Case { aim: 1.5, ..call("sheet, 32 slots in no order", 100, |kernel, calls| kernel.sheet(&in_no_order(), calls)) },
];
