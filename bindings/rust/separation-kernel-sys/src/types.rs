//! The structs, laid out as in C: `tests/layout.rs` and `tests/header.rs` compare.

use crate::{SK_MAX_PARTITIONS as PARTITIONS, SK_MAX_SEGMENTS as SEGMENTS, SK_MAX_SLOTS as SLOTS};

/// A policy, in 436 bytes without a hole. The counts are at most 32, 8 and 32; entries past them are 0. In a mask bit s stands for segment s.
#[repr(C)]
#[derive(Clone, Copy, PartialEq, Eq, Hash, Debug)]
pub struct sk_policy {
    /// How many segments there are.
    pub segments: u8,
    /// How many partitions.
    pub partitions: u8,
    /// How many slots the schedule has.
    pub slots: u8,
    /// 0; a record with another value is refused by 10.
    pub unused: u8,
    /// Of each segment: its first byte in memory.
    pub base: [u16; SEGMENTS],
    /// Of each segment: its bytes.
    pub size: [u16; SEGMENTS],
    /// Of each partition: its code segment.
    pub code: [u8; PARTITIONS],
    /// Of each partition: its save segment.
    pub save: [u8; PARTITIONS],
    /// Of each slot: the partition that it belongs to.
    pub slot_partition: [u8; SLOTS],
    /// Of each slot: its ticks.
    pub slot_ticks: [u16; SLOTS],
    /// Of each partition: the segments on which a right line gives r.
    pub reads: [u32; PARTITIONS],
    /// Of each partition: those on which one gives w.
    pub writes: [u32; PARTITIONS],
    /// Of each segment: those that flow into it by a flow line.
    pub sources: [u32; SEGMENTS],
}

impl sk_policy {
    /// The record of zeros, which a refused text gives. It is not sound.
    pub const ZERO: sk_policy = sk_policy {
        segments: 0,
        partitions: 0,
        slots: 0,
        unused: 0,
        base: [0; SEGMENTS],
        size: [0; SEGMENTS],
        code: [0; PARTITIONS],
        save: [0; PARTITIONS],
        slot_partition: [0; SLOTS],
        slot_ticks: [0; SLOTS],
        reads: [0; PARTITIONS],
        writes: [0; PARTITIONS],
        sources: [0; SEGMENTS],
    };
}

/// A place in the schedule.
#[repr(C)]
#[derive(Clone, Copy, PartialEq, Eq, Hash, Debug)]
pub struct sk_place {
    /// The present slot.
    pub slot: u32,
    /// The ticks used in it.
    pub used: u32,
    /// The ticks since Start, modulo 4,294,967,296.
    pub count: u32,
}

impl sk_place {
    /// The place that Start gives.
    pub const FIRST: sk_place = sk_place { slot: 0, used: 0, count: 0 };
}

/// What `sk_read` answers.
#[repr(C)]
#[derive(Clone, Copy, PartialEq, Eq, Hash, Debug)]
pub struct sk_read_result {
    /// 0, or why the text was refused.
    pub number: u32,
    /// The bad line, counted from 1; 0 if it is no single line's fault.
    pub line: u32,
    /// The text's record, or the record of zeros.
    pub policy: sk_policy,
}

/// What Start and Run answer.
#[repr(C)]
#[derive(Clone, Copy, PartialEq, Eq, Hash, Debug)]
pub struct sk_run_result {
    /// 0, or why the call was refused.
    pub number: u32,
    /// The place after it.
    pub place: sk_place,
}

/// Who can reach whom.
#[repr(C)]
#[derive(Clone, Copy, PartialEq, Eq, Hash, Debug)]
pub struct sk_reach_result {
    /// 0, or why the call was refused.
    pub number: u32,
    /// Bit s of entry t: a chain leads from s to t.
    pub sources: [u32; SEGMENTS],
}

/// Can one segment reach another?
#[repr(C)]
#[derive(Clone, Copy, PartialEq, Eq, Hash, Debug)]
pub struct sk_answer {
    /// 0, or why the call was refused.
    pub number: u32,
    /// 1 or 0.
    pub yes: u32,
}

/// The schedule sheet.
#[repr(C)]
#[derive(Clone, Copy, PartialEq, Eq, Hash, Debug)]
pub struct sk_sheet_result {
    /// 0, or why the call was refused.
    pub number: u32,
    /// Of each partition: its ticks in one round.
    pub ticks: [u32; PARTITIONS],
    /// Of each partition: the most ticks in a row in which it isn't current.
    pub silence: [u32; PARTITIONS],
}
