//! The types of the C boundary, which are the bindings' own; what the tests ask of them beside; and its operations as a trait that each implementation meets.

pub use separation_kernel_sys::{
    sk_answer as Answer, sk_place as Place, sk_policy as Policy, sk_reach_result as ReachResult, sk_read_result as ReadResult,
    sk_run_result as RunResult, sk_sheet_result as SheetResult, SK_MEMORY_BYTES as MEMORY,
};

/// The bytes of a record.
pub const RECORD: usize = 436;

pub const R: u8 = 1;
pub const W: u8 = 2;

/// A record by its lines, and by its bytes.
pub trait RecordExt {
    /// What right lines give: 0 none, 1 r, 2 w, 3 rw.
    fn right(&self, partition: usize, segment: usize) -> u8;
    fn set_right(&mut self, partition: usize, segment: usize, right: u8);
    fn flow(&self, from: usize, to: usize) -> bool;
    fn set_flow(&mut self, from: usize, to: usize, there: bool);
    fn is_save(&self, segment: usize) -> bool;
    /// The record's bytes as they stand in memory.
    fn bytes(&self) -> [u8; RECORD];
    fn of_bytes(bytes: [u8; RECORD]) -> Self;
}

impl RecordExt for Policy {
    fn right(&self, partition: usize, segment: usize) -> u8 {
        R * has(self.reads[partition], segment) as u8 + W * has(self.writes[partition], segment) as u8
    }

    fn set_right(&mut self, partition: usize, segment: usize, right: u8) {
        set(&mut self.reads[partition], segment, right & R != 0);
        set(&mut self.writes[partition], segment, right & W != 0);
    }

    fn flow(&self, from: usize, to: usize) -> bool {
        has(self.sources[to], from)
    }

    fn set_flow(&mut self, from: usize, to: usize, there: bool) {
        set(&mut self.sources[to], from, there);
    }

    fn is_save(&self, segment: usize) -> bool {
        self.save.iter().take(self.partitions as usize).any(|&save| save as usize == segment)
    }

    fn bytes(&self) -> [u8; RECORD] {
        // No hole: every byte is one of an entry. The bindings' `no_struct_has_a_hole` tests it.
        unsafe { std::mem::transmute(*self) }
    }

    fn of_bytes(bytes: [u8; RECORD]) -> Policy {
        // Every byte is one of an entry, and entries have all values.
        unsafe { std::mem::transmute(bytes) }
    }
}

/// Bit s of a mask, worth 2 to the power s.
pub fn has(mask: u32, s: usize) -> bool {
    mask >> s & 1 == 1
}

fn set(mask: &mut u32, s: usize, bit: bool) {
    *mask = *mask & !(1 << s) | u32::from(bit) << s;
}

pub trait PlaceExt {
    /// A place that no tick has counted towards.
    fn at(slot: u32, used: u32) -> Self;
}

impl PlaceExt for Place {
    fn at(slot: u32, used: u32) -> Place {
        Place { slot, used, count: 0 }
    }
}

pub trait Refused {
    /// What is answered with a number that is not 0: all else is 0.
    fn refused(number: u32) -> Self;
}

impl Refused for ReachResult {
    fn refused(number: u32) -> ReachResult {
        ReachResult { number, sources: [0; 32] }
    }
}

impl Refused for Answer {
    fn refused(number: u32) -> Answer {
        Answer { number, yes: 0 }
    }
}

impl Refused for SheetResult {
    fn refused(number: u32) -> SheetResult {
        SheetResult { number, ticks: [0; 8], silence: [0; 8] }
    }
}

/// What the C boundary offers.
pub trait Kernel {
    fn name(&self) -> &'static str;
    fn read(&self, text: &[u8]) -> ReadResult;
    /// 1 or 0.
    fn sound(&self, policy: &Policy) -> u32;
    fn start(&self, policy: &Policy, memory: &mut [u8]) -> RunResult;
    fn pend(&self, policy: &Policy, memory: &mut [u8], partition: u32, line: u32) -> u32;
    fn run(&self, policy: &Policy, memory: &mut [u8], place: Place, ticks: u32) -> RunResult;
    fn reach(&self, policy: &Policy) -> ReachResult;
    fn can_reach(&self, policy: &Policy, from: u32, to: u32) -> Answer;
    fn sheet(&self, policy: &Policy) -> SheetResult;
}
