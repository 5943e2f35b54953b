//! The proved kernel, by its bindings for Rust: the boundary's functions themselves, which take all inputs, and the safe crate above them.

use crate::kernel::{Answer, Kernel, Place, Policy, ReachResult, ReadResult, Refused, RunResult, SheetResult};
use crate::{accepted, refused};
use separation_kernel::{sys, Memory, Refusal};

/// The boundary's functions: a record may be unsound here, and a memory of any length.
pub struct Archive;

// In each call the pointer and the length are those of one Rust slice, lent for the length of the call.
impl Kernel for Archive {
    fn name(&self) -> &'static str {
        "archive"
    }
    fn read(&self, text: &[u8]) -> ReadResult {
        unsafe { sys::sk_read(text.as_ptr(), text.len()) }
    }
    fn sound(&self, policy: &Policy) -> u32 {
        unsafe { sys::sk_sound(*policy) }
    }
    fn start(&self, policy: &Policy, memory: &mut [u8]) -> RunResult {
        unsafe { sys::sk_start(*policy, memory.as_mut_ptr(), memory.len()) }
    }
    fn pend(&self, policy: &Policy, memory: &mut [u8], partition: u32, line: u32) -> u32 {
        unsafe { sys::sk_pend(*policy, memory.as_mut_ptr(), memory.len(), partition, line) }
    }
    fn run(&self, policy: &Policy, memory: &mut [u8], place: Place, ticks: u32) -> RunResult {
        unsafe { sys::sk_run(*policy, memory.as_mut_ptr(), memory.len(), place, ticks) }
    }
    fn reach(&self, policy: &Policy) -> ReachResult {
        unsafe { sys::sk_reach(*policy) }
    }
    fn can_reach(&self, policy: &Policy, from: u32, to: u32) -> Answer {
        unsafe { sys::sk_can_reach(*policy, from, to) }
    }
    fn sheet(&self, policy: &Policy) -> SheetResult {
        unsafe { sys::sk_sheet(*policy) }
    }
}

/// The safe crate. What its types shut out, a memory of another length and an unsound record, is refused where they are made: by 9 and 10.
pub struct Safe;

fn admit<'m>(policy: &Policy, memory: &'m mut [u8]) -> Result<(separation_kernel::Policy, &'m mut Memory), u32> {
    let memory = <&mut Memory>::try_from(memory).map_err(|_| 9_u32)?;
    Ok((safe(policy)?, memory))
}

fn safe(policy: &Policy) -> Result<separation_kernel::Policy, u32> {
    separation_kernel::Policy::from_record(*policy).map_err(Refusal::number)
}

fn number(answer: Result<(), u32>) -> u32 {
    answer.err().unwrap_or(0)
}

impl Kernel for Safe {
    fn name(&self) -> &'static str {
        "safe"
    }
    fn read(&self, text: &[u8]) -> ReadResult {
        match separation_kernel::Policy::read(text) {
            Ok(policy) => accepted(*policy.record()),
            Err(refusal) => refused(refusal.number(), refusal.line().unwrap_or(0)),
        }
    }
    fn sound(&self, policy: &Policy) -> u32 {
        safe(policy).is_ok() as u32
    }
    fn start(&self, policy: &Policy, memory: &mut [u8]) -> RunResult {
        match admit(policy, memory) {
            Ok((policy, memory)) => RunResult { number: 0, place: policy.start(memory).into() },
            Err(number) => RunResult { number, place: Place::FIRST },
        }
    }
    fn pend(&self, policy: &Policy, memory: &mut [u8], partition: u32, line: u32) -> u32 {
        number(admit(policy, memory).and_then(|(policy, memory)| policy.pend(memory, partition, line).map_err(Refusal::number)))
    }
    fn run(&self, policy: &Policy, memory: &mut [u8], place: Place, ticks: u32) -> RunResult {
        let run = admit(policy, memory).and_then(|(policy, memory)| policy.run(memory, place.into(), ticks).map_err(Refusal::number));
        match run {
            Ok(place) => RunResult { number: 0, place: place.into() },
            Err(number) => RunResult { number, place },
        }
    }
    fn reach(&self, policy: &Policy) -> ReachResult {
        let masks = |reach: separation_kernel::Reach| std::array::from_fn(|t| reach.sources(t as u32).unwrap_or_default().mask());
        safe(policy).map_or_else(ReachResult::refused, |policy| ReachResult { number: 0, sources: masks(policy.reach()) })
    }
    fn can_reach(&self, policy: &Policy, from: u32, to: u32) -> Answer {
        let answer = safe(policy).and_then(|policy| policy.can_reach(from, to).map_err(Refusal::number));
        answer.map_or_else(Answer::refused, |yes| Answer { number: 0, yes: yes.into() })
    }
    fn sheet(&self, policy: &Policy) -> SheetResult {
        let Ok(policy) = safe(policy) else { return SheetResult::refused(10) };
        let share = |p: usize| policy.sheet().share(p as u32);
        let ticks = std::array::from_fn(|p| share(p).map_or(0, |share| share.ticks));
        SheetResult { number: 0, ticks, silence: std::array::from_fn(|p| share(p).map_or(0, |share| share.silence)) }
    }
}
