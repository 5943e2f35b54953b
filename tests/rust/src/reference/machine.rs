//! One tick: an interrupt taken, one instruction, or an idle step.

use crate::kernel::{Place, Policy, RecordExt, R, W};

/// "The save segment is 44 bytes, little-endian": offsets in it. The registers r0 to r7 stand at 0 to 31, four bytes each.
pub const SAVE: usize = 44;
pub const COUNTER: usize = 32;
pub const STATE: usize = 34;
pub const FAULT: usize = 35;
pub const PENDED: usize = 36;
pub const ENABLED: usize = 37;
pub const RETURN: usize = 38;
pub const HANDLER: usize = 40;
pub const IN_HANDLER: usize = 42;
pub const UNUSED: usize = 43;

/// "state 34 (0 ready, 1 halted, 2 faulted, 3 waiting, above 3 taken as halted)"
const READY: u8 = 0;
const HALTED: u8 = 1;
const FAULTED: u8 = 2;
const WAITING: u8 = 3;

/// Opcodes 0 to 12 of the scope document, with S-2 13 and 14, and with S-8 15; every one above is fault 2.
pub const OPCODES: u8 = 16;

/// "The table of opcodes says for each which operand bytes must be registers, below 8": a, b, c. S-2: "operands as for 7 and 8"; S-8: "a must be a
/// register".
const REGISTERS: [[bool; 3]; OPCODES as usize] = [
    [false, false, false], // 0 halt
    [true, false, false],  // 1 set
    [true, true, true],    // 2 add
    [true, true, true],    // 3 sub
    [true, true, true],    // 4 and
    [true, true, true],    // 5 xor
    [true, true, true],    // 6 shift
    [true, true, false],   // 7 load
    [true, true, false],   // 8 store
    [true, false, false],  // 9 jump
    [false, false, false], // 10 wait
    [false, false, false], // 11 listen
    [false, false, false], // 12 back
    [true, true, false],   // 13 load word
    [true, true, false],   // 14 store word
    [true, false, false],  // 15 count
];

/// What a tick was (for the count of what the tests have reached); opcode 15 with what it gave.
#[derive(Clone, Copy, PartialEq, Eq, Debug)]
pub enum Event {
    Interrupt { line: u8, waiting: bool },
    Ran { opcode: u8 },
    Counted { count: u32, in_handler: bool },
    Fault { number: u8, why: &'static str },
    Idle { why: &'static str },
}

/// The save segment's values, at its base in memory.
struct Save<'m> {
    bytes: &'m mut [u8],
}

impl Save<'_> {
    fn register(&self, r: u8) -> u32 {
        let at = 4 * r as usize;
        u32::from_le_bytes([self.bytes[at], self.bytes[at + 1], self.bytes[at + 2], self.bytes[at + 3]])
    }
    fn set_register(&mut self, r: u8, value: u32) {
        let at = 4 * r as usize;
        self.bytes[at..at + 4].copy_from_slice(&value.to_le_bytes());
    }
    fn two(&self, at: usize) -> u16 {
        u16::from_le_bytes([self.bytes[at], self.bytes[at + 1]])
    }
    fn set_two(&mut self, at: usize, value: u16) {
        self.bytes[at..at + 2].copy_from_slice(&value.to_le_bytes());
    }
}

fn save_of<'m>(policy: &Policy, memory: &'m mut [u8], partition: usize) -> Save<'m> {
    let base = policy.base[policy.save[partition] as usize] as usize;
    Save { bytes: &mut memory[base..base + SAVE] }
}

/// One tick of the current partition, under a sound record and on 16,384 bytes, at the count of the place before it.
pub fn tick(policy: &Policy, memory: &mut [u8], partition: usize, count: u32) -> Event {
    let mut save = save_of(policy, memory, partition);
    let state = save.bytes[STATE];
    let in_handler = save.bytes[IN_HANDLER] != 0;
    let ready_lines = save.bytes[PENDED] & save.bytes[ENABLED];
    // "With state 0 or 3, in-handler 0, and a line that is pended and enabled, the tick takes an interrupt."
    if (state == READY || state == WAITING) && !in_handler && ready_lines != 0 {
        return interrupt(&mut save, ready_lines, state == WAITING);
    }
    // "Else, with state 0, one instruction runs."
    if state == READY {
        return match instruction(policy, memory, partition, in_handler, count) {
            Ok(15) => Event::Counted { count, in_handler },
            Ok(opcode) => Event::Ran { opcode },
            Err((number, why)) => {
                // "A fault sets state 2 and the fault byte. The rest of memory stays."
                let save = save_of(policy, memory, partition);
                save.bytes[STATE] = FAULTED;
                save.bytes[FAULT] = number;
                Event::Fault { number, why }
            }
        };
    }
    // "Else memory is unchanged."
    Event::Idle {
        why: match (state, in_handler, ready_lines != 0) {
            (HALTED, _, _) => "idle halted",
            (FAULTED, _, _) => "idle faulted",
            (WAITING, true, true) => "idle waiting in a handler, a line pended",
            (WAITING, true, false) => "idle waiting in a handler",
            (WAITING, false, _) => "idle waiting",
            _ => "idle state above 3",
        },
    }
}

/// "It takes the lowest-numbered line that is both pended and enabled: its pended bit is cleared, r7 becomes the line number, the return place takes the
/// program counter, the counter takes the handler place, in-handler becomes 1, state 0."
fn interrupt(save: &mut Save, ready_lines: u8, waiting: bool) -> Event {
    let line = (0..8).find(|line| ready_lines & (1 << line) != 0).unwrap();
    save.bytes[PENDED] &= !(1 << line);
    save.set_register(7, line);
    save.set_two(RETURN, save.two(COUNTER));
    save.set_two(COUNTER, save.two(HANDLER));
    save.bytes[IN_HANDLER] = 1;
    save.bytes[STATE] = READY;
    Event::Interrupt { line: line as u8, waiting }
}

type Fault = (u8, &'static str);

/// One instruction: its opcode, or the fault's number. Faults come before any change.
fn instruction(policy: &Policy, memory: &mut [u8], partition: usize, in_handler: bool, count: u32) -> Result<u8, Fault> {
    let counter = save_of(policy, memory, partition).two(COUNTER);
    let [opcode, a, b, c] = fetch(policy, memory, partition, counter)?;
    judge([opcode, a, b, c], in_handler)?;
    let next_counter = match opcode {
        // "7 load: ra = byte at offset rb of segment c", "8 store: that byte = ra modulo 256"
        7 => load(policy, memory, partition, [a, b, c], 1).map(|()| counter + 4)?,
        8 => store(policy, memory, partition, [a, b, c], 1).map(|()| counter + 4)?,
        // S-2: "Opcode 13 loads and opcode 14 stores four bytes, little-endian, at offsets rb to rb + 3 of segment c"
        13 => load(policy, memory, partition, [a, b, c], 4).map(|()| counter + 4)?,
        14 => store(policy, memory, partition, [a, b, c], 4).map(|()| counter + 4)?,
        _ => effect(&mut save_of(policy, memory, partition), [opcode, a, b, c], counter, count),
    };
    save_of(policy, memory, partition).set_two(COUNTER, next_counter);
    Ok(opcode)
}

/// "An instruction is four bytes: opcode, a, b, c."
fn fetch(policy: &Policy, memory: &[u8], partition: usize, counter: u16) -> Result<[u8; 4], Fault> {
    let code = policy.code[partition] as usize;
    let (counter, length) = (counter as usize, policy.size[code] as usize);
    // "1 counter + 4 is over the code length"
    if counter + 4 > length {
        return Err((1, if counter >= length { "1 counter past the code" } else { "1 counter near the code's end" }));
    }
    let at = policy.base[code] as usize + counter;
    Ok([memory[at], memory[at + 1], memory[at + 2], memory[at + 3]])
}

/// The faults that the instruction alone tells, and whether a handler runs.
fn judge([opcode, a, b, c]: [u8; 4], in_handler: bool) -> Result<(), Fault> {
    // "2 bad opcode or register"
    if opcode >= OPCODES {
        return Err((2, "2 bad opcode"));
    }
    for (operand, must) in [a, b, c].into_iter().zip(REGISTERS[opcode as usize]) {
        if must && operand >= 8 {
            return Err((2, "2 bad register"));
        }
    }
    // "5 wait inside a handler or back outside one"
    if opcode == 10 && in_handler {
        return Err((5, "5 wait inside a handler"));
    }
    if opcode == 12 && !in_handler {
        return Err((5, "5 back outside a handler"));
    }
    Ok(())
}

/// ra = so many bytes from offset rb of segment c on, the first the lowest.
fn load(policy: &Policy, memory: &mut [u8], partition: usize, [a, b, c]: [u8; 3], width: usize) -> Result<(), Fault> {
    let offset = save_of(policy, memory, partition).register(b);
    let place = place(policy, partition, c as usize, R, offset, width)?;
    let value = (0..width).fold(0, |value, i| value | u32::from(memory[place + i]) << (8 * i));
    save_of(policy, memory, partition).set_register(a, value);
    Ok(())
}

/// So many bytes from offset rb of segment c on = ra's, the lowest first.
fn store(policy: &Policy, memory: &mut [u8], partition: usize, [a, b, c]: [u8; 3], width: usize) -> Result<(), Fault> {
    let save = save_of(policy, memory, partition);
    let (offset, value) = (save.register(b), save.register(a));
    let place = place(policy, partition, c as usize, W, offset, width)?;
    (0..width).for_each(|i| memory[place + i] = (value >> (8 * i)) as u8);
    Ok(())
}

/// Where in memory the bytes of a load or store begin.
fn place(policy: &Policy, partition: usize, segment: usize, needed: u8, offset: u32, width: usize) -> Result<usize, Fault> {
    // "3 segment c not there, or no line gives the right (save segments never have one)"
    if segment >= policy.segments as usize {
        return Err((3, if width == 1 { "3 segment not there" } else { "3 segment of a word not there" }));
    }
    let right = policy.right(partition, segment);
    if right & needed == 0 {
        return Err((3, why_not(needed, right, width)));
    }
    // "4 offset at or past the length"; S-2: "All four must lie inside the segment; a large rb must not come round to a small offset", so the sum is one
    // of plain numbers.
    let (first, length) = (u64::from(offset), u64::from(policy.size[segment]));
    let end = first + width as u64;
    if end > length {
        return Err((4, why_outside(first, end, length)));
    }
    Ok(policy.base[segment] as usize + offset as usize)
}

fn why_not(needed: u8, right: u8, width: usize) -> &'static str {
    match (width, needed, right) {
        (1, R, 0) => "3 load without a right",
        (1, R, _) => "3 load with w alone",
        (1, _, 0) => "3 store without a right",
        (1, _, _) => "3 store with r alone",
        (_, R, 0) => "3 load word without a right",
        (_, R, _) => "3 load word with w alone",
        (_, _, 0) => "3 store word without a right",
        (_, _, _) => "3 store word with r alone",
    }
}

fn why_outside(first: u64, end: u64, length: u64) -> &'static str {
    match end - first {
        4 if end > 1 << 32 => "4 word that would come round",
        4 if length < 4 => "4 word in a segment below four bytes",
        4 if first < length => "4 word over the segment's end",
        4 => "4 word past the segment's end",
        _ if first == length => "4 offset at the length",
        _ => "4 offset past the length",
    }
}

/// What the other instructions do with the save segment, and the counter after them.
fn effect(save: &mut Save, [opcode, a, b, c]: [u8; 4], counter: u16, count: u32) -> u16 {
    // "The number n is b + 256 × c."
    let n = u16::from(b) + 256 * u16::from(c);
    match opcode {
        // "0 halt: state 1, counter stays"
        0 => {
            save.bytes[STATE] = HALTED;
            return counter;
        }
        // "1 set: ra = n"
        1 => save.set_register(a, u32::from(n)),
        // "2 add, 3 sub: ra = rb + rc for 2, rb − rc for 3, modulo 4,294,967,296"
        2 => save.set_register(a, save.register(b).wrapping_add(save.register(c))),
        3 => save.set_register(a, save.register(b).wrapping_sub(save.register(c))),
        // "4 and, 5 xor: ra = rb and rc, rb xor rc, bit by bit"
        4 => save.set_register(a, save.register(b) & save.register(c)),
        5 => save.set_register(a, save.register(b) ^ save.register(c)),
        // "6 shift: ra = rb moved right by (rc modulo 32) bits, zeros in"
        6 => save.set_register(a, save.register(b) >> (save.register(c) % 32)),
        // "9 jump: counter = n if ra is not 0"
        9 if save.register(a) != 0 => return n,
        9 => (),
        // "10 wait: state 3"
        10 => save.bytes[STATE] = WAITING,
        // "11 listen: enabled = a, handler place = n"
        11 => {
            save.bytes[ENABLED] = a;
            save.set_two(HANDLER, n);
        }
        // S-8: "Opcode 15 sets ra to the count before its tick"
        15 => save.set_register(a, count),
        // "12 back: counter = return place, in-handler 0"
        _ => {
            save.bytes[IN_HANDLER] = 0;
            return save.two(RETURN);
        }
    }
    // "Unless said otherwise the counter gains 4."
    counter + 4
}

/// "After each tick the ticks used in the slot gain 1. At the slot's ticks the next slot begins with 0 used; after the last comes slot 0." S-8: the count is
/// "modulo 4,294,967,296", and "each tick raises" it.
pub fn next_place(policy: &Policy, place: Place) -> Place {
    let count = place.count.wrapping_add(1);
    let used = place.used + 1;
    if used < u32::from(policy.slot_ticks[place.slot as usize]) {
        return Place { slot: place.slot, used, count };
    }
    let slot = place.slot + 1;
    Place { slot: if slot < u32::from(policy.slots) { slot } else { 0 }, used: 0, count }
}
