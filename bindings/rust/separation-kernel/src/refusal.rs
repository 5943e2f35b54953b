use core::fmt;
use separation_kernel_sys as sys;

/// Why a policy text, a record or a call was refused. A refused call has changed no byte of memory.
#[non_exhaustive]
#[derive(Clone, Copy, PartialEq, Eq, Hash, Debug)]
pub enum Refusal {
    /// 1: the text is over 16,384 bytes.
    TextTooLong,
    /// 2: an unknown word, wrong fields, a bad number or letters, no line end.
    BadLine {
        /// The line, counted from 1.
        line: u32,
    },
    /// 3: a kind, an id or a pair is out of order.
    OutOfOrder {
        /// The line, counted from 1.
        line: u32,
    },
    /// 4: too many lines of a kind, a number out of range, a partition or segment that isn't there.
    OutOfRange {
        /// The line, counted from 1.
        line: u32,
    },
    /// 5: segments overlap, a save segment is misused, a flow goes from a segment to itself.
    Clash {
        /// The line, counted from 1.
        line: u32,
    },
    /// 6: no segment, no partition or no slot.
    Empty,
    /// 7: a partition lacks r on its code segment.
    CodeNotRead,
    /// 8: a partition could carry bytes where no flow line allows it.
    FlowMissing,
    /// 10: the record is that of no accepted text.
    UnsoundRecord,
    /// 11: no such partition.
    NoPartition,
    /// 12: an interrupt line above 7.
    NoLine,
    /// 13: the place's slot is not in the schedule, or its ticks are used up.
    NoPlace,
    /// 14: over 10,000 ticks in one Run.
    TooManyTicks,
    /// 15: no such segment.
    NoSegment,
    /// 16: a flow line into a save segment from a segment that its partition may not read.
    StraySource,
    /// A number that this version of the crate does not know: the archive is a later one.
    Unknown {
        /// The number.
        number: u32,
        /// The line, or 0.
        line: u32,
    },
}

impl Refusal {
    /// The boundary's number and line, as a refusal; nothing for 0, which is none.
    pub(crate) fn check(number: u32, line: u32) -> Result<(), Refusal> {
        Err(match number {
            sys::SK_DONE => return Ok(()),
            sys::SK_TEXT_TOO_LONG => Refusal::TextTooLong,
            sys::SK_BAD_LINE => Refusal::BadLine { line },
            sys::SK_OUT_OF_ORDER => Refusal::OutOfOrder { line },
            sys::SK_OUT_OF_RANGE => Refusal::OutOfRange { line },
            sys::SK_CLASH => Refusal::Clash { line },
            sys::SK_EMPTY => Refusal::Empty,
            sys::SK_CODE_NOT_READ => Refusal::CodeNotRead,
            sys::SK_FLOW_MISSING => Refusal::FlowMissing,
            sys::SK_RECORD => Refusal::UnsoundRecord,
            sys::SK_NO_PARTITION => Refusal::NoPartition,
            sys::SK_NO_LINE => Refusal::NoLine,
            sys::SK_PLACE => Refusal::NoPlace,
            sys::SK_TOO_MANY_TICKS => Refusal::TooManyTicks,
            sys::SK_NO_SEGMENT => Refusal::NoSegment,
            sys::SK_STRAY_SOURCE => Refusal::StraySource,
            _ => Refusal::Unknown { number, line },
        })
    }

    /// The number that policycheck prints and the C boundary answers.
    pub const fn number(self) -> u32 {
        match self {
            Refusal::TextTooLong => sys::SK_TEXT_TOO_LONG,
            Refusal::BadLine { .. } => sys::SK_BAD_LINE,
            Refusal::OutOfOrder { .. } => sys::SK_OUT_OF_ORDER,
            Refusal::OutOfRange { .. } => sys::SK_OUT_OF_RANGE,
            Refusal::Clash { .. } => sys::SK_CLASH,
            Refusal::Empty => sys::SK_EMPTY,
            Refusal::CodeNotRead => sys::SK_CODE_NOT_READ,
            Refusal::FlowMissing => sys::SK_FLOW_MISSING,
            Refusal::UnsoundRecord => sys::SK_RECORD,
            Refusal::NoPartition => sys::SK_NO_PARTITION,
            Refusal::NoLine => sys::SK_NO_LINE,
            Refusal::NoPlace => sys::SK_PLACE,
            Refusal::TooManyTicks => sys::SK_TOO_MANY_TICKS,
            Refusal::NoSegment => sys::SK_NO_SEGMENT,
            Refusal::StraySource => sys::SK_STRAY_SOURCE,
            Refusal::Unknown { number, .. } => number,
        }
    }

    /// The bad line of a text, counted from 1; none if it is no single line's fault.
    pub const fn line(self) -> Option<u32> {
        match self {
            Refusal::BadLine { line } | Refusal::OutOfOrder { line } | Refusal::OutOfRange { line } | Refusal::Clash { line } => Some(line),
            Refusal::Unknown { line, .. } if line > 0 => Some(line),
            _ => None,
        }
    }

    const fn words(self) -> &'static str {
        match self {
            Refusal::TextTooLong => "the text is over 16,384 bytes",
            Refusal::BadLine { .. } => "not the form of a line: an unknown word, wrong fields, a bad number or letters, or no line end",
            Refusal::OutOfOrder { .. } => "a kind, an id or a pair is out of order",
            Refusal::OutOfRange { .. } => "too many lines of a kind, a number out of range, or a partition or segment that is not there",
            Refusal::Clash { .. } => "segments overlap, a save segment is misused, or a flow goes from a segment to itself",
            Refusal::Empty => "no segment, no partition or no slot",
            Refusal::CodeNotRead => "a partition lacks r on its code segment",
            Refusal::FlowMissing => "a partition could carry bytes where no flow line allows it",
            Refusal::UnsoundRecord => "the record is that of no accepted text",
            Refusal::NoPartition => "no such partition",
            Refusal::NoLine => "the interrupt line is above 7",
            Refusal::NoPlace => "the slot is not in the schedule, or its ticks are used up",
            Refusal::TooManyTicks => "over 10,000 ticks in one Run",
            Refusal::NoSegment => "no such segment",
            Refusal::StraySource => "a flow line into a save segment from a segment that its partition may not read",
            Refusal::Unknown { .. } => "the kernel is a later version, and this number is not known here",
        }
    }
}

impl fmt::Display for Refusal {
    fn fmt(&self, out: &mut fmt::Formatter<'_>) -> fmt::Result {
        write!(out, "refused by {}", self.number())?;
        if let Some(line) = self.line() {
            write!(out, ", line {line}")?;
        }
        write!(out, ": {}", self.words())
    }
}

impl core::error::Error for Refusal {}
