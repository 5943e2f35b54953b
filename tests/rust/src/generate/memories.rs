//! Random memories: programs in the code segments, save segments as Start leaves them or with arbitrary values, anything elsewhere.

use super::programs::program;
use crate::kernel::{Policy, MEMORY};
use crate::random::Random;
use crate::reference::{COUNTER, ENABLED, FAULT, HANDLER, IN_HANDLER, OPCODES, PENDED, RETURN, SAVE, STATE, UNUSED};

/// A memory for a sound record. Once in `daring` loads and stores a program tries any segment.
pub fn memory(random: &mut Random, policy: &Policy, daring: usize) -> Vec<u8> {
    let mut memory = vec![0; MEMORY];
    match random.below(4) {
        0 => (),
        1 => random.fill(&mut memory),
        _ => memory.iter_mut().for_each(|byte| *byte = random.byte() % OPCODES),
    }
    for p in 0..policy.partitions as usize {
        let mut handler = 0;
        if !random.one_in(30) {
            let (code, place) = program(random, policy, p, daring);
            let base = policy.base[policy.code[p] as usize] as usize;
            memory[base..base + code.len()].copy_from_slice(&code);
            handler = place;
        }
        let base = policy.base[policy.save[p] as usize] as usize;
        save(random, policy, p, handler, &mut memory[base..base + SAVE]);
    }
    memory
}

/// A save segment's 44 bytes.
fn save(random: &mut Random, policy: &Policy, partition: usize, handler: usize, save: &mut [u8]) {
    let room = policy.size[policy.code[partition] as usize] as usize;
    if random.one_in(4) {
        return save.fill(0);
    }
    if random.one_in(12) {
        return random.fill(save);
    }
    let place = |random: &mut Random| match random.below(12) {
        0 => random.pick(&[0xFFFF, 0xFFFC, 0xFFFD, 0xFFFE, 4_093]),
        1..=2 => (room + 1).saturating_sub(random.below(6)),
        3..=5 => handler,
        _ => 4 * random.below(room / 8 + 1),
    };
    let two = |save: &mut [u8], at: usize, value: usize| save[at..at + 2].copy_from_slice(&(value as u16).to_le_bytes());
    for r in 0..8 {
        let value = match random.below(4) {
            0 => random.number() as u32,
            1 => random.pick(&[0xFFFF_FFFF, 0xFFFF_FFFD, 0x8000_0000, 0x1_0000, 0x7FFF_FFFF]),
            _ => random.below(64) as u32,
        };
        save[4 * r..4 * r + 4].copy_from_slice(&value.to_le_bytes());
    }
    two(save, COUNTER, if random.one_in(4) { place(random) } else { 0 });
    save[STATE] = if random.one_in(8) { random.pick(&[1, 2, 3, 3, 3, 4, 255]) } else { 0 };
    save[FAULT] = random.pick(&[0, 0, 1, 255]);
    save[PENDED] = if random.one_in(2) { 0 } else { random.byte() };
    save[ENABLED] = if random.one_in(2) { 0 } else { random.byte() };
    two(save, RETURN, if random.one_in(2) { place(random) } else { 0 });
    two(save, HANDLER, if random.one_in(4) { place(random) } else { handler });
    save[IN_HANDLER] = random.pick(&[0, 0, 0, 0, 0, 0, 0, 0, 1, 1, 2, 255]);
    save[UNUSED] = random.byte();
}
