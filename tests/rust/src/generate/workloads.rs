//! The policies and programs of the benchmark.

use super::policies::longest;
use crate::kernel::{Policy, RecordExt, MEMORY};
use crate::random::Random;
use crate::reference;

/// Two partitions in slots of 100 ticks; each may write a segment of its own, and read one of the other's.
const TWO: &str = "segment\t0\t0\t64\nsegment\t1\t64\t44\nsegment\t2\t128\t64\nsegment\t3\t192\t44\nsegment\t4\t256\t256\nsegment\t5\t512\t256\n\
partition\t0\t0\t1\npartition\t1\t2\t3\nright\t0\t0\tr\nright\t0\t4\trw\nright\t0\t5\tr\nright\t1\t2\tr\nright\t1\t4\tr\nright\t1\t5\trw\n\
flow\t0\t1\nflow\t0\t4\nflow\t1\t4\nflow\t2\t3\nflow\t2\t5\nflow\t3\t5\nflow\t4\t1\nflow\t4\t3\nflow\t4\t5\nflow\t5\t1\nflow\t5\t3\nflow\t5\t4\n\
slot\t0\t100\nslot\t1\t100\n";

/// Three segments, one partition, one slot.
const LEAST: &str = "segment\t0\t0\t64\nsegment\t1\t64\t44\nsegment\t2\t128\t16\npartition\t0\t0\t1\nright\t0\t0\tr\nflow\t0\t1\nslot\t0\t1\n";

/// add, xor, shift, sub, and, jump, after two sets.
pub const COMPUTE: [[u8; 4]; 8] = [[1, 1, 1, 0], [1, 2, 3, 0], [2, 0, 0, 1], [5, 3, 3, 0], [6, 4, 3, 2], [3, 5, 5, 1], [4, 6, 5, 3], [9, 1, 8, 0]];

/// 256 bytes from one segment into another, over and over: sub, and, load, store, jump, after two sets.
fn copying(step: u8, load: u8, store: u8, from: u8, to: u8) -> Vec<[u8; 4]> {
    vec![[1, 1, step, 0], [1, 2, 255 - (step - 1), 0], [3, 0, 0, 1], [4, 0, 0, 2], [load, 3, 0, from], [store, 3, 0, to], [9, 1, 8, 0]]
}

pub fn copy(from: u8, to: u8) -> Vec<[u8; 4]> {
    copying(1, 7, 8, from, to)
}

/// The same by words: four bytes with each load and store.
pub fn copy_words(from: u8, to: u8) -> Vec<[u8; 4]> {
    copying(4, 13, 14, from, to)
}

pub fn policy_of(text: &[u8]) -> Policy {
    let answer = reference::read(text);
    assert_eq!(answer.number, 0);
    answer.policy
}

pub fn least() -> Policy {
    policy_of(LEAST.as_bytes())
}

/// 32 segments, 8 partitions and 32 slots, and one right and one flow for each partition: 88 lines.
pub fn few_flows() -> Policy {
    let mut policy = longest();
    (policy.reads, policy.writes, policy.sources) = ([0; 8], [0; 8], [0; 32]);
    for p in 0..8 {
        policy.set_right(p, policy.code[p] as usize, 1);
        policy.set_flow(policy.code[p] as usize, policy.save[p] as usize, true);
    }
    policy
}

/// 32 segments, 8 partitions and 32 slots, and one chain through all segments, 0 to 31: each partition's code flows into its save segment, and that into
/// the next one's code.
pub fn chain() -> Policy {
    let mut policy = longest();
    (policy.reads, policy.writes, policy.sources) = ([0; 8], [0; 8], [0; 32]);
    (policy.base, policy.size) = (std::array::from_fn(|s| 44 * s as u16), [44; 32]);
    for p in 0..8 {
        (policy.code[p], policy.save[p]) = (2 * p as u8, 2 * p as u8 + 1);
        policy.set_right(p, 2 * p, 1);
    }
    (1..32).for_each(|s| policy.set_flow(s - 1, s, true));
    policy
}

/// The largest record with its segments one behind the other in memory, as a linker puts them.
pub fn in_order() -> Policy {
    let mut policy = longest();
    let mut end = 0;
    for (base, size) in policy.base.iter_mut().zip(policy.size) {
        *base = end;
        end += size;
    }
    policy
}

/// The largest record with its slots in no order, and of 1 to 1,000 ticks.
pub fn in_no_order() -> Policy {
    let mut policy = longest();
    let mut random = Random::new(32);
    random.shuffle(&mut policy.slot_partition);
    policy.slot_ticks.iter_mut().for_each(|ticks| *ticks = random.from(1, 1_000) as u16);
    policy
}

/// 32 segments, 8 partitions and 32 slots in turn, each of so many ticks. A partition has four segments, one behind the other: its code, its save segment, one
/// that it may write and one that it may read.
pub fn in_turn(ticks: u16) -> Policy {
    let mut policy = Policy { segments: 32, partitions: 8, slots: 32, slot_ticks: [ticks; 32], ..Policy::ZERO };
    (policy.base, policy.size) = (std::array::from_fn(|s| 256 * s as u16), std::array::from_fn(|s| [64, 44, 256, 256][s % 4]));
    policy.slot_partition = std::array::from_fn(|slot| slot as u8 % 8);
    for p in 0..8 {
        let [code, save, own, other] = std::array::from_fn(|s| 4 * p + s);
        (policy.code[p], policy.save[p]) = (code as u8, save as u8);
        [(code, 1), (own, 3), (other, 1)].iter().for_each(|&(s, mode)| policy.set_right(p, s, mode));
        [(code, save), (own, save), (other, save), (code, own), (save, own), (other, own)]
            .iter()
            .for_each(|&(from, to)| policy.set_flow(from, to, true));
    }
    policy
}

/// A policy's memory with a program for each of its partitions.
pub fn each_with(policy: &Policy, program: impl Fn(usize) -> Vec<[u8; 4]>) -> Vec<u8> {
    let mut memory = vec![0; MEMORY];
    (0..policy.partitions as usize).for_each(|p| put(&mut memory, policy, policy.code[p] as usize, &program(p)));
    memory
}

/// Halted or waiting from the first tick on, by turns.
pub fn idle(partition: usize) -> Vec<[u8; 4]> {
    vec![[[0, 0, 0, 0], [10, 0, 0, 0]][partition % 2]]
}

/// Eight partitions in slots of 16 ticks, for 8 interrupts each.
pub fn eight() -> Policy {
    let mut text = String::new();
    (0..8).for_each(|p| text += &format!("segment\t{}\t{}\t44\nsegment\t{}\t{}\t16\n", 2 * p, 64 * p, 2 * p + 1, 64 * p + 44));
    (0..8).for_each(|p| text += &format!("partition\t{p}\t{}\t{}\n", 2 * p + 1, 2 * p));
    (0..8).for_each(|p| text += &format!("right\t{p}\t{}\tr\n", 2 * p + 1));
    (0..8).for_each(|p| text += &format!("flow\t{}\t{}\n", 2 * p + 1, 2 * p));
    (0..8).for_each(|p| text += &format!("slot\t{p}\t16\n"));
    policy_of(text.as_bytes())
}

/// Puts a program into a segment.
pub fn put(memory: &mut [u8], policy: &Policy, segment: usize, program: &[[u8; 4]]) {
    let base = policy.base[segment] as usize;
    memory[base..base + 4 * program.len()].copy_from_slice(&program.concat());
}

/// Two partitions with these programs.
pub fn programs(first: &[[u8; 4]], second: &[[u8; 4]]) -> (Policy, Vec<u8>) {
    let policy = policy_of(TWO.as_bytes());
    let mut memory = vec![0; MEMORY];
    put(&mut memory, &policy, 0, first);
    put(&mut memory, &policy, 2, second);
    (policy, memory)
}
