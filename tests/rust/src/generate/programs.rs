//! Random programs that do something: loops, loads and stores of bytes and words, copies from one segment into another, handlers, code that changes
//! itself, and faults.

use crate::kernel::{Policy, RecordExt, R, W};
use crate::random::Random;
use crate::reference::OPCODES;

/// Of a byte, and of a word.
const LOADS: [u8; 2] = [7, 13];
const STORES: [u8; 2] = [8, 14];
const COUNT: u8 = 15;

fn width(opcode: u8) -> usize {
    if opcode >= 13 {
        4
    } else {
        1
    }
}

struct Writer<'w> {
    random: &'w mut Random,
    policy: &'w Policy,
    partition: usize,
    code: Vec<u8>,
    /// The code's length.
    room: usize,
    /// No instruction is put past this.
    limit: usize,
    /// Where the handler begins.
    handler: usize,
    /// Once in so many loads and stores the segment is any, also one without a right.
    daring: usize,
}

/// A program for a partition's code segment, and the place of its handler.
pub fn program(random: &mut Random, policy: &Policy, partition: usize, daring: usize) -> (Vec<u8>, usize) {
    let room = policy.size[policy.code[partition] as usize] as usize;
    // Programs of a few hundred bytes are long enough.
    let used = room.min(400);
    let handler = if used >= 32 { used * 2 / 3 / 4 * 4 } else { used.saturating_sub(4) / 4 * 4 };
    let mut writer = Writer { random, policy, partition, code: Vec::new(), room, limit: 0, handler, daring };
    let skew = if writer.random.one_in(12) { writer.random.below(4) } else { 0 };
    writer.code.resize(skew, 0);
    writer.main(handler);
    writer.code.resize(handler, 0);
    writer.handler(used);
    while writer.code.len() < room {
        let byte = writer.random.byte() % OPCODES;
        writer.code.push(byte);
    }
    (writer.code, handler)
}

impl Writer<'_> {
    fn put(&mut self, opcode: u8, a: u8, b: u8, c: u8) {
        if self.code.len() + 4 <= self.limit {
            self.code.extend_from_slice(&[opcode, a, b, c]);
        }
    }

    fn put_n(&mut self, opcode: u8, a: u8, n: usize) {
        self.put(opcode, a, n as u8, (n >> 8) as u8);
    }

    /// Sets a register; a number over 65,535 is taken as 0 less what is missing to 4,294,967,296.
    fn put_number(&mut self, a: u8, number: u32) {
        if number <= 0xFFFF {
            return self.put_n(1, a, number as usize);
        }
        let b = (a + 1) % 8;
        self.put_n(1, a, number.wrapping_neg() as usize);
        self.put(3, b, a, a);
        self.put(3, a, b, a);
    }

    /// Halt, wait or back, whose other bytes may have all values.
    fn put_bare(&mut self, opcode: u8) {
        let (a, b, c) = (self.random.byte() % OPCODES, self.random.byte() % OPCODES, self.random.byte());
        self.put(opcode, a, b, c);
    }

    fn register(&mut self) -> u8 {
        self.random.below(8) as u8
    }

    fn main(&mut self, until: usize) {
        // The last instruction has its place before the handler.
        self.limit = until.saturating_sub(8);
        if self.random.one_in(2) {
            let lines = self.random.pick(&[1, 2, 6, 0x80, 0xFF, 0xFF]);
            let handler = self.handler;
            self.put_n(11, lines, handler);
        }
        while self.code.len() + 4 <= self.limit {
            self.piece();
        }
        self.limit = until;
        match self.random.below(16) {
            0 => self.put_bare(0),
            1 => self.put_bare(10),
            2 => (),
            _ => {
                self.put_n(1, 6, 1);
                let to = 4 * self.random.below(3);
                self.put_n(9, 6, to);
            }
        }
    }

    /// Mostly: keep the line's number somewhere, and go back.
    fn handler(&mut self, until: usize) {
        self.limit = until.saturating_sub(4);
        if self.random.one_in(3) {
            self.transfer(&STORES);
        }
        while self.code.len() + 4 <= self.limit && self.random.one_in(2) {
            self.piece();
        }
        self.limit = until;
        match self.random.below(16) {
            0 => self.put_bare(10),
            1 => self.piece(),
            _ => self.put_bare(12),
        }
    }

    fn piece(&mut self) {
        match self.random.below(40) {
            0..=8 => self.compute(),
            9..=12 => {
                let (a, n) = (self.register(), self.random.pick(&[0, 1, 2, 5, 31, 32, 33, 255, 256, 0x1234, 0xFFFF]));
                self.put_n(1, a, n);
            }
            13..=17 => self.transfer(&LOADS),
            18..=22 => self.transfer(&STORES),
            23..=26 => self.copy_loop(),
            27..=30 => self.count_loop(),
            31..=32 => self.jump(),
            33 => {
                let lines = self.random.byte();
                let handler = if self.random.one_in(4) { self.place() } else { self.handler };
                self.put_n(11, lines, handler);
            }
            34 => self.put_bare(10),
            35 => self.stamp(),
            36 if self.policy.right(self.partition, self.policy.code[self.partition] as usize) == 3 || self.random.one_in(20) => self.own_code(),
            37 if self.random.one_in(8) => self.bad(),
            38 if self.random.one_in(8) => self.put_bare(12),
            39 if self.random.one_in(8) => self.put_bare(0),
            _ => self.compute(),
        }
    }

    fn compute(&mut self) {
        for _ in 0..self.random.from(1, 3) {
            let opcode = self.random.from(2, 6) as u8;
            let (a, b, c) = (self.register(), self.register(), self.register());
            self.put(opcode, a, b, c);
        }
    }

    /// A segment that the partition may load from or store into, mostly one with room for it and often not the code, or once in a while any other.
    fn segment(&mut self, opcode: u8) -> Option<u8> {
        if self.random.one_in(self.daring) {
            return Some(match self.random.below(8) {
                0 => self.policy.save[self.partition],
                1 => self.policy.segments,
                2 => self.random.byte(),
                _ => self.random.below(self.policy.segments as usize) as u8,
            });
        }
        let bit = if LOADS.contains(&opcode) { R } else { W };
        let least = if self.random.one_in(30) { 1 } else { width(opcode) };
        let open = |s: usize| self.policy.right(self.partition, s) & bit != 0 && self.policy.size[s] as usize >= least;
        let mut open: Vec<u8> = (0..32).filter(|&s| open(s as usize)).collect();
        if open.len() > 1 && self.random.one_in(2) {
            open.retain(|&s| s != self.policy.code[self.partition]);
        }
        (!open.is_empty()).then(|| self.random.pick(&open))
    }

    fn size(&self, segment: u8) -> usize {
        self.policy.size.get(segment as usize).copied().unwrap_or(1) as usize
    }

    fn offset(&mut self, segment: u8) -> u32 {
        let size = self.size(segment);
        let offset = match self.random.below(100) {
            0 => size,
            1 => size + 1,
            2 => 0xFFFF,
            3..=6 => size.saturating_sub(1),
            7..=12 => 0,
            _ => self.random.below(size.max(1)),
        };
        offset as u32
    }

    /// Aligned or not; the last one that fits, the first ones that do not, and those whose last byte's offset would come round to a small one.
    fn word_offset(&mut self, segment: u8) -> u32 {
        let size = self.size(segment);
        let offset = match self.random.below(100) {
            0..=1 => size.saturating_sub(3),
            2 => size.saturating_sub(self.random.from(1, 2)),
            3 => size + self.random.below(2),
            4 => 0xFFFF,
            5..=14 => return u32::MAX - self.random.pick(&[0, 1, 1, 2, 2, 3]),
            15..=22 => size.saturating_sub(4),
            23..=28 => 0,
            _ => self.random.below(size.saturating_sub(3).max(1)),
        };
        offset as u32
    }

    /// One load or store at a set offset.
    fn transfer(&mut self, opcodes: &[u8; 2]) {
        let opcode = self.random.pick(opcodes);
        let Some(segment) = self.segment(opcode) else { return self.compute() };
        let offset = if width(opcode) == 4 { self.word_offset(segment) } else { self.offset(segment) };
        let (a, b) = (self.register(), self.register());
        self.put_number(b, offset);
        if self.random.one_in(150) {
            // An offset over 16 bits whose low half is in range.
            self.put_n(1, 6, 0x100);
            self.put(2, b, b, 6);
            for _ in 0..8 {
                self.put(2, b, b, b);
            }
        }
        self.put(opcode, a, b, segment);
    }

    /// Bytes or words from a segment that may be read into one that may be written: so bytes are handed on from partition to partition.
    fn copy_loop(&mut self) {
        let (load, store) = (self.random.pick(&LOADS), self.random.pick(&STORES));
        let (Some(from), Some(to)) = (self.segment(load), self.segment(store)) else { return self.count_loop() };
        let wide = width(load).max(width(store));
        // Words also in steps that leave them unaligned, or on one another.
        let step = if wide == 4 { self.random.pick(&[4, 4, 4, 1, 3]) } else { 1 };
        let most = self.size(from).min(self.size(to)).saturating_sub(wide) / step + 1;
        let count = if self.random.one_in(50) { most + 1 } else { self.random.from(1, most.min(24)) };
        self.put_n(1, 0, step * count);
        self.put_n(1, 1, step);
        let top = self.code.len();
        // From the last one down to the first.
        self.put(3, 0, 0, 1);
        self.put(load, 2, 0, from);
        if self.random.one_in(3) {
            let c = self.register();
            self.put(5, 2, 2, c);
        }
        self.put(store, 2, 0, to);
        self.put_n(9, 0, top);
    }

    fn count_loop(&mut self) {
        let count = self.random.from(1, 6);
        self.put_n(1, 5, count);
        self.put_n(1, 4, 1);
        let top = self.code.len();
        for _ in 0..self.random.from(1, 2) {
            match self.random.below(4) {
                0 => self.transfer(&LOADS),
                1 => self.transfer(&STORES),
                _ => self.compute(),
            }
        }
        self.put(3, 5, 5, 4);
        self.put_n(9, 5, top);
    }

    /// The count, mostly stored with some of its bytes; the other two bytes of the instruction may have all values.
    fn stamp(&mut self) {
        let (a, b, c) = (self.register(), self.random.byte(), self.random.byte());
        self.put(COUNT, a, b, c);
        let opcode = self.random.pick(&STORES);
        let Some(segment) = self.segment(opcode) else { return };
        let at = (a + 1) % 8;
        let offset = if width(opcode) == 4 { self.word_offset(segment) } else { self.offset(segment) };
        self.put_number(at, offset);
        self.put(opcode, a, at, segment);
    }

    /// A place in the code, mostly one where an instruction begins.
    fn place(&mut self) -> usize {
        match self.random.below(30) {
            0 => self.random.below(self.room),
            1 => self.room.saturating_sub(self.random.pick(&[0, 1, 3, 4, 5])),
            2 => self.random.pick(&[0xFFFF, 0xFFFC, 0xFFFD, 4_096, 0x8000]),
            _ => 4 * self.random.below(self.handler / 4 + 1),
        }
    }

    fn jump(&mut self) {
        let (a, n) = (self.register(), self.place());
        if self.random.one_in(2) {
            let value = self.random.below(2);
            self.put_n(1, a, value);
        }
        self.put_n(9, a, n);
    }

    /// A store into the code that the partition runs, a byte or an instruction from another place in it: it works where the policy gives w on the code
    /// segment.
    fn own_code(&mut self) {
        let code = self.policy.code[self.partition];
        let (from, to, value) = (self.place(), self.random.below(self.room), self.random.below(OPCODES as usize));
        if self.random.one_in(2) {
            self.put_n(1, 3, from);
            self.put(13, 2, 3, code);
            let to = if self.random.one_in(4) { to } else { self.place() };
            self.put_n(1, 3, to);
            return self.put(14, 2, 3, code);
        }
        self.put_n(1, 3, to);
        self.put_n(1, 2, value);
        self.put(8, 2, 3, code);
    }

    /// A bad opcode or a bad register; also good ones with bytes that need not be registers.
    fn bad(&mut self) {
        let (a, b, c) = (self.random.byte(), self.random.byte(), self.random.byte());
        let (x, y, z) = (self.register(), self.register(), self.register());
        let opcode = self.random.pick(&[1, 2, 3, 4, 5, 6, 7, 8, 9, 13, 14, 15]);
        let high = self.random.pick(&[8, 9, 15, 16, 128, 255]);
        let none = self.random.from(OPCODES as usize, 255) as u8;
        match self.random.below(6) {
            0 => self.put(none, x, y, z),
            1 => self.put(OPCODES, x, y, z),
            2 => self.put(opcode, high, y, z),
            3 => self.put(opcode, x, high, z),
            4 => self.put(opcode, x, y, high),
            _ => self.put(opcode, a, b, c),
        }
    }
}
