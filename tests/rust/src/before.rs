//! For the benchmark: an earlier archive of the proved kernel, its functions renamed with the prefix before_. tests/run-benchmark --before makes it.

#[cfg(feature = "before-counts")]
use crate::kernel as earlier;
#[cfg(not(feature = "before-sheets"))]
use crate::kernel::Refused;
use crate::kernel::{Answer, Kernel, Place, Policy, ReachResult, ReadResult, RunResult, SheetResult};
#[cfg(not(feature = "before-counts"))]
use uncounted as earlier;

/// The place and the result before version 3.0, without a count.
#[cfg(not(feature = "before-counts"))]
mod uncounted {
    use crate::kernel::{self, PlaceExt};

    #[repr(C)]
    #[derive(Clone, Copy)]
    pub struct Place {
        slot: u32,
        used: u32,
    }

    #[repr(C)]
    #[derive(Clone, Copy)]
    pub struct RunResult {
        number: u32,
        place: Place,
    }

    impl From<kernel::Place> for Place {
        fn from(place: kernel::Place) -> Place {
            Place { slot: place.slot, used: place.used }
        }
    }

    impl From<RunResult> for kernel::RunResult {
        fn from(result: RunResult) -> kernel::RunResult {
            kernel::RunResult { number: result.number, place: kernel::Place::at(result.place.slot, result.place.used) }
        }
    }
}

// Not bundled into the Rust library, so that link-time optimisation does not look into it. The bindings say where it is: beside libboundary.a.
#[link(name = "before", kind = "static", modifiers = "-bundle")]
extern "C" {
    fn before_sk_read(text: *const u8, text_len: usize) -> ReadResult;
    fn before_sk_sound(policy: Policy) -> u32;
    fn before_sk_start(policy: Policy, memory: *mut u8, memory_len: usize) -> earlier::RunResult;
    fn before_sk_pend(policy: Policy, memory: *mut u8, memory_len: usize, partition: u32, line: u32) -> u32;
    fn before_sk_run(policy: Policy, memory: *mut u8, memory_len: usize, place: earlier::Place, ticks: u32) -> earlier::RunResult;
    #[cfg(feature = "before-reaches")]
    fn before_sk_reach(policy: Policy) -> ReachResult;
    #[cfg(feature = "before-reaches")]
    fn before_sk_can_reach(policy: Policy, from: u32, to: u32) -> Answer;
    #[cfg(feature = "before-sheets")]
    fn before_sk_sheet(policy: Policy) -> SheetResult;
}

// Named here so that a new library is linked anew.
const _: &[u8] = include_bytes!(concat!(env!("SEPARATION_KERNEL_LIB_DIR"), "/libbefore.a"));

/// Where it is without sk_reach and sk_can_reach, or without sk_sheet, it answers a number that no kernel has.
pub struct Before;

// In each call the pointer and the length are those of one Rust slice, lent for the length of the call.
impl Kernel for Before {
    fn name(&self) -> &'static str {
        "before"
    }
    fn read(&self, text: &[u8]) -> ReadResult {
        unsafe { before_sk_read(text.as_ptr(), text.len()) }
    }
    fn sound(&self, policy: &Policy) -> u32 {
        unsafe { before_sk_sound(*policy) }
    }
    #[allow(clippy::useless_conversion)]
    fn start(&self, policy: &Policy, memory: &mut [u8]) -> RunResult {
        unsafe { before_sk_start(*policy, memory.as_mut_ptr(), memory.len()) }.into()
    }
    fn pend(&self, policy: &Policy, memory: &mut [u8], partition: u32, line: u32) -> u32 {
        unsafe { before_sk_pend(*policy, memory.as_mut_ptr(), memory.len(), partition, line) }
    }
    #[allow(clippy::useless_conversion)]
    fn run(&self, policy: &Policy, memory: &mut [u8], place: Place, ticks: u32) -> RunResult {
        unsafe { before_sk_run(*policy, memory.as_mut_ptr(), memory.len(), place.into(), ticks) }.into()
    }
    #[cfg(feature = "before-reaches")]
    fn reach(&self, policy: &Policy) -> ReachResult {
        unsafe { before_sk_reach(*policy) }
    }
    #[cfg(feature = "before-reaches")]
    fn can_reach(&self, policy: &Policy, from: u32, to: u32) -> Answer {
        unsafe { before_sk_can_reach(*policy, from, to) }
    }
    #[cfg(not(feature = "before-reaches"))]
    fn reach(&self, _: &Policy) -> ReachResult {
        ReachResult::refused(u32::MAX)
    }
    #[cfg(not(feature = "before-reaches"))]
    fn can_reach(&self, _: &Policy, _: u32, _: u32) -> Answer {
        Answer::refused(u32::MAX)
    }
    #[cfg(feature = "before-sheets")]
    fn sheet(&self, policy: &Policy) -> SheetResult {
        unsafe { before_sk_sheet(*policy) }
    }
    #[cfg(not(feature = "before-sheets"))]
    fn sheet(&self, _: &Policy) -> SheetResult {
        SheetResult::refused(u32::MAX)
    }
}
