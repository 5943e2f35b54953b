use crate::{Memory, Policy};
use core::fmt;
use separation_kernel_sys as sys;

/// What a partition is doing.
#[derive(Clone, Copy, PartialEq, Eq, Hash, Debug)]
pub enum State {
    /// Each of its ticks runs an instruction, or takes an interrupt.
    Ready,
    /// It does nothing until the next Start. A state byte above 3 is taken as this.
    Halted,
    /// The same after a fault; the counter stays on the instruction that faulted.
    Faulted,
    /// It waits for a line that is pended and enabled.
    Waiting,
}

impl fmt::Display for State {
    fn fmt(&self, out: &mut fmt::Formatter<'_>) -> fmt::Result {
        out.write_str(match self {
            State::Ready => "ready",
            State::Halted => "halted",
            State::Faulted => "faulted",
            State::Waiting => "waiting",
        })
    }
}

/// Why a partition faulted.
#[non_exhaustive]
#[derive(Clone, Copy, PartialEq, Eq, Hash, Debug)]
pub enum Fault {
    /// 1: counter + 4 is over the code segment's length.
    Counter,
    /// 2: no such opcode or register.
    Opcode,
    /// 3: no such segment, or no right line gives r for a load, w for a store.
    Right,
    /// 4: an offset at or past the segment's length; for a word, offset + 4 over it.
    Offset,
    /// 5: wait inside a handler, or back outside one.
    Handler,
    /// Another number: not the kernel's, but somebody else's who wrote the byte.
    Unknown(u8),
}

impl Fault {
    /// The fault byte.
    pub const fn number(self) -> u8 {
        match self {
            Fault::Counter => sys::SK_FAULT_COUNTER,
            Fault::Opcode => sys::SK_FAULT_OPCODE,
            Fault::Right => sys::SK_FAULT_RIGHT,
            Fault::Offset => sys::SK_FAULT_OFFSET,
            Fault::Handler => sys::SK_FAULT_HANDLER,
            Fault::Unknown(number) => number,
        }
    }
}

impl fmt::Display for Fault {
    fn fmt(&self, out: &mut fmt::Formatter<'_>) -> fmt::Result {
        let words = match self {
            Fault::Counter => "the instruction is not whole inside the code segment",
            Fault::Opcode => "no such opcode or register",
            Fault::Right => "no such segment, or no right to it",
            Fault::Offset => "offset past the end of the segment",
            Fault::Handler => "wait inside a handler, or back outside one",
            Fault::Unknown(_) => "no fault of the kernel",
        };
        write!(out, "fault {}: {words}", self.number())
    }
}

/// A partition's save segment: what the machine keeps for its program.
#[derive(Clone, Copy, PartialEq, Eq, Hash, Debug)]
pub struct SaveArea<'m>(&'m [u8; sys::SK_SAVE_BYTES]);

impl<'m> SaveArea<'m> {
    const fn two(self, at: usize) -> u16 {
        u16::from_le_bytes([self.0[at], self.0[at + 1]])
    }

    /// The registers r0 to r7.
    pub fn registers(self) -> [u32; sys::SK_REGISTERS] {
        core::array::from_fn(|r| {
            let at = sys::SK_SAVE_REGISTERS + 4 * r;
            u32::from_le_bytes([self.0[at], self.0[at + 1], self.0[at + 2], self.0[at + 3]])
        })
    }

    /// The program counter, an offset in the code segment.
    pub const fn counter(self) -> u16 {
        self.two(sys::SK_SAVE_COUNTER)
    }

    /// The state.
    pub const fn state(self) -> State {
        match self.0[sys::SK_SAVE_STATE] {
            sys::SK_STATE_READY => State::Ready,
            sys::SK_STATE_FAULTED => State::Faulted,
            sys::SK_STATE_WAITING => State::Waiting,
            _ => State::Halted,
        }
    }

    /// The last fault since Start, if there was one.
    pub const fn fault(self) -> Option<Fault> {
        Some(match self.0[sys::SK_SAVE_FAULT] {
            sys::SK_FAULT_NONE => return None,
            sys::SK_FAULT_COUNTER => Fault::Counter,
            sys::SK_FAULT_OPCODE => Fault::Opcode,
            sys::SK_FAULT_RIGHT => Fault::Right,
            sys::SK_FAULT_OFFSET => Fault::Offset,
            sys::SK_FAULT_HANDLER => Fault::Handler,
            number => Fault::Unknown(number),
        })
    }

    /// The pended lines: bit k stands for line k.
    pub const fn pended(self) -> u8 {
        self.0[sys::SK_SAVE_PENDED]
    }

    /// The lines that the program listens to, likewise.
    pub const fn enabled(self) -> u8 {
        self.0[sys::SK_SAVE_ENABLED]
    }

    /// Where opcode 12, back, goes: an offset in the code segment.
    pub const fn return_place(self) -> u16 {
        self.two(sys::SK_SAVE_RETURN)
    }

    /// Where an interrupt goes, likewise.
    pub const fn handler_place(self) -> u16 {
        self.two(sys::SK_SAVE_HANDLER)
    }

    /// Is the program in its handler?
    pub const fn in_handler(self) -> bool {
        self.0[sys::SK_SAVE_IN_HANDLER] != 0
    }

    /// All bytes.
    pub const fn bytes(self) -> &'m [u8; sys::SK_SAVE_BYTES] {
        self.0
    }
}

impl Policy {
    /// A partition's save segment in memory; none if there is no such partition.
    pub fn save_area<'m>(&self, memory: &'m Memory, partition: u32) -> Option<SaveArea<'m>> {
        let save = self.bytes(memory, self.partition(partition)?.save)?;
        save.try_into().ok().map(SaveArea)
    }
}
