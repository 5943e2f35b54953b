//! The numbers of the header, under its names.

/// Constants of one type, each with what it is.
macro_rules! constants {
    ($type:ty: $($(#[$doc:meta])* $name:ident = $value:expr;)+) => {
        $($(#[$doc])* pub const $name: $type = $value;)+
    };
}

constants! { u32:
    /// The major version: another one does not fit.
    SK_VERSION_MAJOR = 3;
    /// The minor version.
    SK_VERSION_MINOR = 1;
    /// What `sk_version` answers if the archive is of this version.
    SK_VERSION = SK_VERSION_MAJOR * 65_536 + SK_VERSION_MINOR;
    /// The most ticks of a slot.
    SK_MAX_SLOT_TICKS = 1_000;
    /// The most ticks of one Run.
    SK_MAX_RUN_TICKS = 10_000;
    /// Each partition's interrupt lines, 0 to 7.
    SK_LINES = 8;
}

constants! { usize:
    /// The bytes of memory.
    SK_MEMORY_BYTES = 16_384;
    /// The most bytes of a policy text.
    SK_TEXT_BYTES = 16_384;
    /// The most segments.
    SK_MAX_SEGMENTS = 32;
    /// The most bytes of a segment.
    SK_MAX_SEGMENT_BYTES = 4_096;
    /// The most partitions.
    SK_MAX_PARTITIONS = 8;
    /// The most slots of a schedule.
    SK_MAX_SLOTS = 32;
    /// The registers of a partition.
    SK_REGISTERS = 8;
    /// The bytes of a save segment. Its numbers of two and four bytes have the lowest byte first.
    SK_SAVE_BYTES = 44;
    /// In a save segment: r0 to r7, four bytes each.
    SK_SAVE_REGISTERS = 0;
    /// In a save segment: the program counter, two bytes.
    SK_SAVE_COUNTER = 32;
    /// In a save segment: the state, `SK_STATE_..`; above 3 as halted.
    SK_SAVE_STATE = 34;
    /// In a save segment: the fault, `SK_FAULT_..`.
    SK_SAVE_FAULT = 35;
    /// In a save segment: the pended lines, bit k for line k.
    SK_SAVE_PENDED = 36;
    /// In a save segment: the enabled lines, likewise.
    SK_SAVE_ENABLED = 37;
    /// In a save segment: the return place, two bytes.
    SK_SAVE_RETURN = 38;
    /// In a save segment: the handler place, two bytes.
    SK_SAVE_HANDLER = 40;
    /// In a save segment: 0 outside a handler, else inside one.
    SK_SAVE_IN_HANDLER = 42;
    /// In a save segment: a byte that nothing uses.
    SK_SAVE_UNUSED = 43;
}

// enum sk_refusal
constants! { u32:
    /// Accepted, or done.
    SK_DONE = 0;
    /// Over 16,384 bytes.
    SK_TEXT_TOO_LONG = 1;
    /// Unknown word, wrong fields, bad number or letters, no line end.
    SK_BAD_LINE = 2;
    /// Kind, id or pair out of order.
    SK_OUT_OF_ORDER = 3;
    /// Too many lines of a kind, a number out of range, a partition or segment that isn't there.
    SK_OUT_OF_RANGE = 4;
    /// Segments overlap, a save segment misused, a flow from a segment to itself.
    SK_CLASH = 5;
    /// No segment, partition or slot.
    SK_EMPTY = 6;
    /// A partition lacks r on its code segment.
    SK_CODE_NOT_READ = 7;
    /// A partition could carry bytes where no flow line allows it.
    SK_FLOW_MISSING = 8;
    /// Memory isn't 16,384 bytes.
    SK_MEMORY_LENGTH = 9;
    /// The record is that of no accepted text.
    SK_RECORD = 10;
    /// No such partition.
    SK_NO_PARTITION = 11;
    /// Interrupt line above 7.
    SK_NO_LINE = 12;
    /// Slot not in the schedule, or its ticks used up.
    SK_PLACE = 13;
    /// Over 10,000 ticks in one Run.
    SK_TOO_MANY_TICKS = 14;
    /// No such segment.
    SK_NO_SEGMENT = 15;
    /// A flow line into a save segment from a segment that its partition may not read.
    SK_STRAY_SOURCE = 16;
}

// enum sk_state
constants! { u8:
    /// Each tick runs an instruction, or takes an interrupt.
    SK_STATE_READY = 0;
    /// Halted until Start.
    SK_STATE_HALTED = 1;
    /// Faulted until Start; the counter stays on the instruction that faulted.
    SK_STATE_FAULTED = 2;
    /// Waits for a line that is pended and enabled.
    SK_STATE_WAITING = 3;
}

// enum sk_fault
constants! { u8:
    /// No fault.
    SK_FAULT_NONE = 0;
    /// Counter + 4 is over the code segment's length.
    SK_FAULT_COUNTER = 1;
    /// Opcode above 15, or a register byte above 7.
    SK_FAULT_OPCODE = 2;
    /// No such segment, or no right line gives r for a load, w for a store.
    SK_FAULT_RIGHT = 3;
    /// An offset at or past the segment's length; for a word, offset + 4 over it.
    SK_FAULT_OFFSET = 4;
    /// Wait inside a handler, or back outside one.
    SK_FAULT_HANDLER = 5;
}
