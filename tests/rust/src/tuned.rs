//! The same operations, tuned: the measure for the benchmark. Safe Rust, the policy by reference, its masks read as such, and one tick at a time on the
//! bytes in memory; an idle slot is left at once.

mod reach;
mod reader;
mod record;
mod sheet;

pub use reach::{can_reach, reach};
pub use reader::read;
pub use record::sound;
pub use sheet::sheet;

use crate::kernel::{Answer, Kernel, Place, Policy, ReachResult, ReadResult, RunResult, SheetResult, MEMORY};

pub struct Tuned;

impl Kernel for Tuned {
    fn name(&self) -> &'static str {
        "tuned"
    }
    fn read(&self, text: &[u8]) -> ReadResult {
        read(text)
    }
    fn sound(&self, policy: &Policy) -> u32 {
        sound(policy) as u32
    }
    fn start(&self, policy: &Policy, memory: &mut [u8]) -> RunResult {
        start(policy, memory)
    }
    fn pend(&self, policy: &Policy, memory: &mut [u8], partition: u32, line: u32) -> u32 {
        pend(policy, memory, partition, line)
    }
    fn run(&self, policy: &Policy, memory: &mut [u8], place: Place, ticks: u32) -> RunResult {
        run(policy, memory, place, ticks)
    }
    fn reach(&self, policy: &Policy) -> ReachResult {
        reach(policy)
    }
    fn can_reach(&self, policy: &Policy, from: u32, to: u32) -> Answer {
        can_reach(policy, from, to)
    }
    fn sheet(&self, policy: &Policy) -> SheetResult {
        sheet(policy)
    }
}

type Memory = [u8; MEMORY];

fn admit<'m>(policy: &Policy, memory: &'m mut [u8]) -> Result<&'m mut Memory, u32> {
    let memory = <&mut Memory>::try_from(memory).map_err(|_| 9_u32)?;
    if sound(policy) {
        Ok(memory)
    } else {
        Err(10)
    }
}

pub fn start(policy: &Policy, memory: &mut [u8]) -> RunResult {
    let number = match admit(policy, memory) {
        Err(number) => number,
        Ok(memory) => {
            for &save in &policy.save[..policy.partitions as usize] {
                let base = policy.base[save as usize] as usize;
                memory[base..base + 44].fill(0);
            }
            0
        }
    };
    RunResult { number, place: Place::FIRST }
}

pub fn pend(policy: &Policy, memory: &mut [u8], partition: u32, line: u32) -> u32 {
    match admit(policy, memory) {
        Err(number) => number,
        Ok(_) if partition >= u32::from(policy.partitions) => 11,
        Ok(_) if line > 7 => 12,
        Ok(memory) => {
            memory[policy.base[policy.save[partition as usize] as usize] as usize + 36] |= 1 << line;
            0
        }
    }
}

pub fn run(policy: &Policy, memory: &mut [u8], place: Place, ticks: u32) -> RunResult {
    let memory = match admit(policy, memory) {
        Ok(memory) => memory,
        Err(number) => return RunResult { number, place },
    };
    if place.slot >= u32::from(policy.slots) || place.used >= u32::from(policy.slot_ticks[place.slot as usize]) {
        return RunResult { number: 13, place };
    }
    if ticks > 10_000 {
        return RunResult { number: 14, place };
    }
    let (mut slot, mut used, mut count, mut left) = (place.slot as usize, place.used, place.count, ticks);
    loop {
        let (room, partition) = (u32::from(policy.slot_ticks[slot & 31]) - used, policy.slot_partition[slot & 31] as usize & 7);
        // The least is itself, as the record is sound; so the compiler knows that the save bytes are in memory.
        let save = (policy.base[policy.save[partition] as usize & 31] as usize).min(MEMORY - 44);
        // Before all else is looked up: an idle partition needs none of it.
        if memory[save + 34] == 0 || memory[save + 36] & memory[save + 37] != 0 {
            View::new(policy, partition, save).ticks(memory, count, left.min(room));
        }
        // A branch, and no choice between numbers: the next slot does not wait for what is left.
        if left < room {
            return RunResult { number: 0, place: Place { slot: slot as u32, used: used + left, count: count.wrapping_add(left) } };
        }
        count = count.wrapping_add(room);
        left -= room;
        used = 0;
        slot = if slot + 1 < policy.slots as usize { slot + 1 } else { 0 };
    }
}

/// What a tick of one partition needs of the policy.
struct View<'p> {
    policy: &'p Policy,
    save: usize,
    code: usize,
    code_size: usize,
    reads: u32,
    writes: u32,
}

impl<'p> View<'p> {
    fn new(policy: &'p Policy, partition: usize, save: usize) -> View<'p> {
        let code = policy.code[partition] as usize & 31;
        View {
            policy,
            save,
            code: policy.base[code] as usize,
            code_size: policy.size[code] as usize,
            reads: policy.reads[partition],
            writes: policy.writes[partition],
        }
    }

    #[inline(always)]
    fn save<'m>(&self, memory: &'m mut Memory) -> &'m mut [u8; 44] {
        (&mut memory[self.save..self.save + 44]).try_into().unwrap()
    }

    /// Ticks of one slot, the first at this count. The counter is kept beside its bytes, which follow it at each tick.
    #[inline(always)]
    fn ticks(&self, memory: &mut Memory, mut count: u32, ticks: u32) {
        let end = count.wrapping_add(ticks);
        let mut counter = two(self.save(memory), 32);
        while count != end {
            let save = self.save(memory);
            let (state, lines) = (save[34], save[36] & save[37]);
            if lines != 0 && save[42] == 0 && (state == 0 || state == 3) {
                let line = lines.trailing_zeros();
                save[36] &= !(1 << line);
                set_register(save, 7, line);
                [save[38], save[39]] = counter.to_le_bytes();
                counter = two(save, 40);
                [save[32], save[33]] = counter.to_le_bytes();
                save[42] = 1;
                save[34] = 0;
            } else if state == 0 {
                match self.step(memory, counter, count) {
                    Ok(next) => {
                        counter = next;
                        let save = self.save(memory);
                        [save[32], save[33]] = next.to_le_bytes();
                    }
                    Err(fault) => {
                        let save = self.save(memory);
                        save[34] = 2;
                        save[35] = fault;
                        return;
                    }
                }
            } else {
                // Nothing changes, so nothing will until the slot ends.
                return;
            }
            count = count.wrapping_add(1);
        }
    }

    /// One instruction, and the counter after it.
    #[inline(always)]
    fn step(&self, memory: &mut Memory, counter: u16, count: u32) -> Result<u16, u8> {
        if counter as usize + 4 > self.code_size {
            return Err(1);
        }
        let at = self.code + counter as usize;
        let [opcode, a, b, c]: [u8; 4] = memory[at..at + 4].try_into().unwrap();
        let n = u16::from_le_bytes([b, c]);
        let save = self.save(memory);
        let three = (a | b | c) < 8;
        // One arm an opcode, so that one jump leads to it; and the counter after it is worked out past them.
        match opcode {
            0 => {
                save[34] = 1;
                return Ok(counter);
            }
            1 if a < 8 => set_register(save, a, u32::from(n)),
            2 if three => set_register(save, a, register(save, b).wrapping_add(register(save, c))),
            3 if three => set_register(save, a, register(save, b).wrapping_sub(register(save, c))),
            4 if three => set_register(save, a, register(save, b) & register(save, c)),
            5 if three => set_register(save, a, register(save, b) ^ register(save, c)),
            6 if three => set_register(save, a, register(save, b) >> (register(save, c) & 31)),
            7 if (a | b) < 8 => self.load::<1>(memory, a, b, c)?,
            8 if (a | b) < 8 => self.store::<1>(memory, a, b, c)?,
            9 if a < 8 => {
                if register(save, a) != 0 {
                    return Ok(n);
                }
            }
            10 if save[42] != 0 => return Err(5),
            10 => save[34] = 3,
            11 => {
                save[37] = a;
                (save[40], save[41]) = (b, c);
            }
            12 if save[42] == 0 => return Err(5),
            12 => {
                save[42] = 0;
                return Ok(two(save, 38));
            }
            13 if (a | b) < 8 => self.load::<4>(memory, a, b, c)?,
            14 if (a | b) < 8 => self.store::<4>(memory, a, b, c)?,
            15 if a < 8 => set_register(save, a, count),
            _ => return Err(2),
        }
        Ok(counter + 4)
    }

    #[inline(always)]
    fn load<const WIDTH: usize>(&self, memory: &mut Memory, a: u8, b: u8, c: u8) -> Result<(), u8> {
        let offset = register(self.save(memory), b);
        let place = self.place::<WIDTH>(c, self.reads, offset)?;
        let mut value = [0; 4];
        value[..WIDTH].copy_from_slice(&memory[place..place + WIDTH]);
        set_register(self.save(memory), a, u32::from_le_bytes(value));
        Ok(())
    }

    #[inline(always)]
    fn store<const WIDTH: usize>(&self, memory: &mut Memory, a: u8, b: u8, c: u8) -> Result<(), u8> {
        let save = self.save(memory);
        let (offset, value) = (register(save, b), register(save, a).to_le_bytes());
        let place = self.place::<WIDTH>(c, self.writes, offset)?;
        memory[place..place + WIDTH].copy_from_slice(&value[..WIDTH]);
        Ok(())
    }

    /// WIDTH bytes from an offset of segment c on, if its bit stands in the mask. Stray bits are 0, so a segment that isn't there has none.
    #[inline(always)]
    fn place<const WIDTH: usize>(&self, c: u8, mask: u32, offset: u32) -> Result<usize, u8> {
        let c = c as usize;
        if c >= 32 || mask >> c & 1 == 0 {
            return Err(3);
        }
        // Over 64 bits, so that no sum comes round.
        if u64::from(offset) + WIDTH as u64 > u64::from(self.policy.size[c]) {
            return Err(4);
        }
        Ok(self.policy.base[c] as usize + offset as usize)
    }
}

#[inline(always)]
fn two(save: &[u8; 44], at: usize) -> u16 {
    u16::from_le_bytes([save[at], save[at + 1]])
}

#[inline(always)]
fn register(save: &[u8; 44], r: u8) -> u32 {
    let at = 4 * (r & 7) as usize;
    u32::from_le_bytes(save[at..at + 4].try_into().unwrap())
}

#[inline(always)]
fn set_register(save: &mut [u8; 44], r: u8, value: u32) {
    let at = 4 * (r & 7) as usize;
    save[at..at + 4].copy_from_slice(&value.to_le_bytes());
}
