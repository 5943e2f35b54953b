//! The correctness reference: the rules of the scope document and the change requests in plain code, each with the sentence that it follows. Nothing
//! here is made for speed.

pub mod bytes;
mod calls;
mod line;
mod machine;
mod reach;
mod reader;
mod record;
mod report;
mod sheet;

pub use calls::{pend, run, run_watched, start};
pub use machine::{next_place, tick, Event, COUNTER, ENABLED, FAULT, HANDLER, IN_HANDLER, OPCODES, PENDED, RETURN, SAVE, STATE, UNUSED};
pub use reach::{answer, can_reach, reach};
pub use reader::{judge, judge_without_16, read, Refusal};
pub use record::{asked, print, readable, sound, sources, writable, Lines};
pub use report::{policyreach, policysheet, report, USAGE};
pub use sheet::sheet;

use crate::kernel::Kernel;

/// Calls of a kernel that answer as the reference does: for this one all, for a wrong one those that it is right in.
#[macro_export]
macro_rules! as_reference {
    (read) => {
        fn read(&self, text: &[u8]) -> $crate::kernel::ReadResult {
            $crate::reference::read(text)
        }
    };
    (sound) => {
        fn sound(&self, policy: &$crate::kernel::Policy) -> u32 {
            $crate::reference::sound(policy) as u32
        }
    };
    (start) => {
        fn start(&self, policy: &$crate::kernel::Policy, memory: &mut [u8]) -> $crate::kernel::RunResult {
            $crate::reference::start(policy, memory)
        }
    };
    (pend) => {
        fn pend(&self, policy: &$crate::kernel::Policy, memory: &mut [u8], partition: u32, line: u32) -> u32 {
            $crate::reference::pend(policy, memory, partition, line)
        }
    };
    (run) => {
        fn run(
            &self,
            policy: &$crate::kernel::Policy,
            memory: &mut [u8],
            place: $crate::kernel::Place,
            ticks: u32,
        ) -> $crate::kernel::RunResult {
            $crate::reference::run(policy, memory, place, ticks)
        }
    };
    (reach) => {
        fn reach(&self, policy: &$crate::kernel::Policy) -> $crate::kernel::ReachResult {
            $crate::reference::reach(policy)
        }
    };
    (can_reach) => {
        fn can_reach(&self, policy: &$crate::kernel::Policy, from: u32, to: u32) -> $crate::kernel::Answer {
            $crate::reference::can_reach(policy, from, to)
        }
    };
    (sheet) => {
        fn sheet(&self, policy: &$crate::kernel::Policy) -> $crate::kernel::SheetResult {
            $crate::reference::sheet(policy)
        }
    };
    ($($call:ident),+) => {
        $($crate::as_reference!($call);)+
    };
}

pub struct Reference;

impl Kernel for Reference {
    fn name(&self) -> &'static str {
        "reference"
    }
    as_reference!(read, sound, start, pend, run, reach, can_reach, sheet);
}
