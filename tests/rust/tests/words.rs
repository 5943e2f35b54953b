//! Change request S-2: opcodes 13 and 14 load and store four bytes at once, on the reference and on each kernel.

use separation::generate::workloads::{copy, copy_words, policy_of, programs};
use separation::kernel::{Kernel, Place, Policy, MEMORY};
use separation::{demonstration, each};

/// Base and length of each segment, without gaps: code, save, segments of 1 to 5 bytes, one to read, one to write, one without a right.
const SEGMENTS: [(usize, usize); 10] = [(0, 32), (32, 44), (76, 1), (77, 2), (79, 3), (82, 4), (86, 5), (91, 16), (107, 16), (123, 16)];
const SAVE: usize = 32;

/// One partition: rw on its code and on the small segments, r on segment 7, w on 8, nothing on 9.
fn policy() -> Policy {
    let mut text = String::new();
    SEGMENTS.iter().enumerate().for_each(|(s, (base, length))| text += &format!("segment\t{s}\t{base}\t{length}\n"));
    text += "partition\t0\t0\t1\n";
    [(0, "rw"), (2, "rw"), (3, "rw"), (4, "rw"), (5, "rw"), (6, "rw"), (7, "r"), (8, "w")]
        .iter()
        .for_each(|(s, letters)| text += &format!("right\t0\t{s}\t{letters}\n"));
    for from in 0..8 {
        [0, 1, 2, 3, 4, 5, 6, 8].iter().filter(|&&to| to != from).for_each(|to| text += &format!("flow\t{from}\t{to}\n"));
    }
    policy_of((text + "slot\t0\t100\n").as_bytes())
}

/// Every byte is its own address, but for a save segment of zeros with these registers, and the instructions.
fn memory(registers: &[(usize, u32)], instructions: &[[u8; 4]]) -> Vec<u8> {
    let mut memory: Vec<u8> = (0..MEMORY).map(|at| at as u8).collect();
    memory[SAVE..SAVE + 44].fill(0);
    registers.iter().for_each(|&(r, value)| memory[SAVE + 4 * r..SAVE + 4 * r + 4].copy_from_slice(&value.to_le_bytes()));
    memory[..4 * instructions.len()].copy_from_slice(&instructions.concat());
    memory
}

/// One tick on this memory leaves all bytes as they were but for these.
fn tick_gives(kernel: &dyn Kernel, before: &[u8], changes: &[(usize, &[u8])]) {
    let (mut got, mut wanted) = (before.to_vec(), before.to_vec());
    assert_eq!(kernel.run(&policy(), &mut got, Place::FIRST, 1).number, 0);
    changes.iter().for_each(|(at, bytes)| wanted[*at..at + bytes.len()].copy_from_slice(bytes));
    let first = (0..MEMORY).find(|&at| got[at] != wanted[at]);
    assert_eq!(first, None, "{}: {:?}, first byte that is not {changes:?}", kernel.name(), &before[..4]);
}

fn faults(kernel: &dyn Kernel, before: &[u8], number: u8) {
    tick_gives(kernel, before, &[(SAVE + 34, &[2, number])]);
}

const COUNTER: (usize, &[u8]) = (SAVE + 32, &[4, 0]);

/// Offsets of words that lie inside, and of the first and last ones that do not, in each segment.
const INSIDE: [(u8, u32); 9] = [(5, 0), (6, 0), (6, 1), (0, 0), (0, 28), (7, 0), (7, 5), (7, 11), (7, 12)];
const OUTSIDE: [(u8, u32); 16] =
    [(2, 0), (3, 0), (4, 0), (2, 1), (4, 2), (4, 3), (5, 1), (6, 2), (0, 29), (0, 32), (7, 13), (7, 14), (7, 15), (7, 16), (7, 17), (7, 65_536)];
/// From the third to the fifth of them the last byte's offset would come round to 0, 1 and 2.
const FAR: [u32; 8] = [4_294_967_291, 4_294_967_292, 4_294_967_293, 4_294_967_294, 4_294_967_295, 1 << 31, (1 << 31) - 4, 1 << 16];

fn outside() -> impl Iterator<Item = (u8, u32)> {
    OUTSIDE.into_iter().chain((0..8).filter(|&segment| segment != 1).flat_map(|segment| FAR.map(|offset| (segment, offset))))
}

#[test]
fn a_word_is_loaded_where_all_four_bytes_lie_inside() {
    each(|kernel| {
        for (segment, offset) in INSIDE {
            let before = memory(&[(3, offset), (6, 0xFFFF_FFFF)], &[[13, 6, 3, segment]]);
            let at = SEGMENTS[segment as usize].0 + offset as usize;
            tick_gives(kernel, &before, &[(SAVE + 24, &before[at..at + 4]), COUNTER]);
        }
        // By hand: segment 7 begins at 91.
        tick_gives(kernel, &memory(&[], &[[13, 0, 1, 7]]), &[(SAVE, &[91, 92, 93, 94]), COUNTER]);
        tick_gives(kernel, &memory(&[(1, 12)], &[[13, 0, 1, 7]]), &[(SAVE, &[103, 104, 105, 106]), COUNTER]);
        for (segment, offset) in outside() {
            faults(kernel, &memory(&[(3, offset)], &[[13, 6, 3, segment]]), 4);
        }
    });
}

#[test]
fn a_word_is_stored_where_all_four_bytes_lie_inside() {
    // What may be loaded from segment 7 may be stored in 8: its length is the same.
    let store = |segment: u8| [14, 6, 3, if segment == 7 { 8 } else { segment }];
    each(|kernel| {
        for (segment, offset) in INSIDE {
            let instruction = store(segment);
            let before = memory(&[(3, offset), (6, 0x8765_4321)], &[instruction]);
            let at = SEGMENTS[instruction[3] as usize].0 + offset as usize;
            tick_gives(kernel, &before, &[(at, &[0x21, 0x43, 0x65, 0x87]), COUNTER]);
        }
        // By hand: segment 8 begins at 107 and ends before 123.
        tick_gives(kernel, &memory(&[(0, 0x0102_0304)], &[[14, 0, 1, 8]]), &[(107, &[4, 3, 2, 1]), COUNTER]);
        tick_gives(kernel, &memory(&[(0, 0x0102_0304), (1, 12)], &[[14, 0, 1, 8]]), &[(119, &[4, 3, 2, 1]), COUNTER]);
        for (segment, offset) in outside() {
            faults(kernel, &memory(&[(3, offset), (6, 0x8765_4321)], &[store(segment)]), 4);
        }
    });
}

/// "faults 3 and 4 keep their places": 1, 2, 3, 4.
#[test]
fn faults_come_in_their_order() {
    each(|kernel| {
        for opcode in [13, 14] {
            // Counter 28 fetches, 29 does not.
            let mut before = memory(&[], &[[0; 4]; 8]);
            before[28..32].copy_from_slice(&[opcode, 8, 8, 255]);
            before[SAVE + 32] = 28;
            faults(kernel, &before, 2);
            before[28..32].copy_from_slice(&[0, opcode, 8, 8]);
            before[SAVE + 32] = 29;
            faults(kernel, &before, 1);
            let far = [(1, 4_294_967_293)];
            for (a, b) in [(8, 1), (0, 8), (255, 1), (0, 255), (8, 8)] {
                [0, 7, 8, 9, 10, 255].iter().for_each(|&c| faults(kernel, &memory(&far, &[[opcode, a, b, c]]), 2));
            }
            // Not there, the save segment, no right, the other right alone.
            for c in [10, 31, 32, 39, 255, 1, 9, if opcode == 13 { 8 } else { 7 }] {
                faults(kernel, &memory(&[], &[[opcode, 0, 1, c]]), 3);
                faults(kernel, &memory(&far, &[[opcode, 0, 1, c]]), 3);
            }
            faults(kernel, &memory(&far, &[[opcode, 0, 1, if opcode == 13 { 7 } else { 8 }]]), 4);
        }
    });
}

#[test]
fn every_opcode_above_15_is_fault_2() {
    each(|kernel| (16..=255).for_each(|opcode| faults(kernel, &memory(&[], &[[opcode, 0, 0, 5]]), 2)));
}

/// The offset and the value are read before anything is written.
#[test]
fn one_register_for_both_operands() {
    each(|kernel| {
        tick_gives(kernel, &memory(&[(1, 4)], &[[13, 1, 1, 7]]), &[(SAVE + 4, &[95, 96, 97, 98]), COUNTER]);
        tick_gives(kernel, &memory(&[(7, 8)], &[[14, 7, 7, 8]]), &[(107 + 8, &[8, 0, 0, 0]), COUNTER]);
        faults(kernel, &memory(&[(1, 4_294_967_293)], &[[13, 1, 1, 7]]), 4);
        faults(kernel, &memory(&[(7, 13)], &[[14, 7, 7, 8]]), 4);
        // In a handler too.
        let mut before = memory(&[(1, 4)], &[[13, 1, 1, 7]]);
        before[SAVE + 42] = 1;
        tick_gives(kernel, &before, &[(SAVE + 4, &[95, 96, 97, 98]), COUNTER]);
    });
}

/// A word stored into the running code is the next instruction; one stored over itself has been fetched before.
#[test]
fn words_into_the_own_code() {
    each(|kernel| {
        let set = u32::from_le_bytes([1, 2, 0x34, 0x12]);
        let mut after = memory(&[(0, set), (1, 4)], &[[14, 0, 1, 0], [0, 0, 0, 0]]);
        assert_eq!(kernel.run(&policy(), &mut after, Place::FIRST, 2).number, 0);
        assert_eq!((&after[..8], &after[SAVE + 8..SAVE + 12], after[SAVE + 32]), (&[14, 0, 1, 0, 1, 2, 0x34, 0x12][..], &[0x34, 0x12, 0, 0][..], 8));
        tick_gives(kernel, &memory(&[(0, set)], &[[14, 0, 1, 0]]), &[(0, &[1, 2, 0x34, 0x12]), COUNTER]);
        // Over the end of one instruction and the start of the next.
        tick_gives(kernel, &memory(&[(0, set), (1, 2)], &[[14, 0, 1, 0]]), &[(2, &[1, 2, 0x34, 0x12]), COUNTER]);
    });
}

/// The demonstration: one partition stores a word at the end of segment 4, the other loads it.
#[test]
fn a_word_from_one_partition_to_the_other() {
    each(|kernel| {
        let mut memory = vec![0; MEMORY];
        memory[..8].copy_from_slice(&[1, 1, 12, 0, 14, 0, 1, 4]);
        memory[128..136].copy_from_slice(&[1, 1, 12, 0, 13, 2, 1, 4]);
        memory[64..68].copy_from_slice(&[1, 2, 3, 4]);
        assert_eq!(kernel.run(&demonstration(), &mut memory, Place::FIRST, 5).place, Place { count: 5, ..Place::FIRST });
        assert_eq!((&memory[268..272], &memory[192 + 8..192 + 12]), (&[1, 2, 3, 4][..], &[1, 2, 3, 4][..]));
        assert_eq!((memory[267], memory[272], memory[64 + 34], memory[192 + 34]), (0, 0, 1, 0));
    });
}

/// The benchmark's loops: 256 bytes are copied in 64 rounds of words, in 256 rounds of bytes, five ticks each, after two sets.
#[test]
fn the_loop_of_words_copies_what_the_loop_of_bytes_does() {
    each(|kernel| {
        for (program, rounds) in [(copy(5, 4), 256), (copy_words(5, 4), 64)] {
            let (mut policy, mut memory) = programs(&program, &[[0; 4]]);
            policy.slot_ticks[0] = 1_000;
            (0..256).for_each(|i| memory[512 + i] = 255 - i as u8);
            let mut place = Place::FIRST;
            let mut run = |memory: &mut [u8], ticks: u32| place = kernel.run(&policy, memory, place, ticks).place;
            // One round less leaves the first bytes.
            let ticks = 2 + 5 * (rounds - 1);
            run(&mut memory, ticks + ticks / 1_000 * 100);
            assert_ne!(memory[256..512], memory[512..768]);
            run(&mut memory, 5);
            assert_eq!(memory[256..512], memory[512..768]);
            assert_eq!((memory[64 + 34], memory[64]), (0, 0));
        }
    });
}
