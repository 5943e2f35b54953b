use crate::answers::{Reach, Sheet};
use crate::version::assert_types_fit;
use crate::{Memory, Place, Record, Refusal};
use separation_kernel_sys as sys;

/// A policy that the kernel accepts: its record is sound. It is made from a text or from a record, and cannot be changed.
#[derive(Clone, Copy, PartialEq, Eq, Hash, Debug)]
pub struct Policy {
    record: Record,
}

impl Policy {
    /// Reads a policy text (`docs/POLICY.md`).
    ///
    /// ```
    /// use separation_kernel::{Policy, Refusal};
    /// let refusal = Policy::read(b"segment\t0\t0\t64\nsegment\t1\t63\t44\n").unwrap_err();
    /// assert_eq!(refusal, Refusal::Clash { line: 2 });
    /// assert_eq!((refusal.number(), refusal.line()), (5, Some(2)));
    /// ```
    ///
    /// # Errors
    ///
    /// 1 to 8 and 16; of several reasons the first counts, and 2 to 5 are those of the first bad line.
    ///
    /// # Panics
    ///
    /// If the archive is of another major version, as its types do not fit.
    pub fn read(text: &[u8]) -> Result<Policy, Refusal> {
        assert_types_fit();
        // SAFETY: pointer and length are those of one slice, lent for the call; the function answers for all bytes.
        let read = unsafe { sys::sk_read(text.as_ptr(), text.len()) };
        // An accepted text gives a sound record: that is proved.
        Refusal::check(read.number, read.line).map(|()| Policy { record: read.policy })
    }

    /// A policy from a record, such as one that was stored; it may come from anywhere.
    ///
    /// # Errors
    ///
    /// 10 if no accepted text gives this record.
    ///
    /// # Panics
    ///
    /// If the archive is of another major version, as its types do not fit.
    pub fn from_record(record: Record) -> Result<Policy, Refusal> {
        assert_types_fit();
        // SAFETY: the record goes by value, and the function answers for all records.
        match unsafe { sys::sk_sound(record) } {
            1 => Ok(Policy { record }),
            _ => Err(Refusal::UnsoundRecord),
        }
    }

    /// The record, for looking at.
    pub const fn record(&self) -> &Record {
        &self.record
    }

    /// Starts: the save segments become zero, all other bytes stay, and the place is the first.
    pub fn start(&self, memory: &mut Memory) -> Place {
        // SAFETY: pointer and length are those of one array, lent for the call to nobody else; the function answers for all records and bytes.
        let started = unsafe { sys::sk_start(self.record, memory.as_mut_ptr(), memory.len()) };
        debug_assert_eq!(started.number, sys::SK_DONE, "a sound record and a memory of the right length are not refused");
        started.place.into()
    }

    /// Pends an interrupt line for a partition, which takes it in a tick of its own once it listens to it.
    ///
    /// # Errors
    ///
    /// 11 or 12: no such partition, no such line.
    pub fn pend(&self, memory: &mut Memory, partition: u32, line: u32) -> Result<(), Refusal> {
        // SAFETY: as in `start`; the function answers for all numbers.
        Refusal::check(unsafe { sys::sk_pend(self.record, memory.as_mut_ptr(), memory.len(), partition, line) }, 0)
    }

    /// Runs so many ticks from a place, and gives the place after them.
    ///
    /// # Errors
    ///
    /// 13 or 14: the place is not in the schedule, over 10,000 ticks. The place that was given is still the present one.
    pub fn run(&self, memory: &mut Memory, place: Place, ticks: u32) -> Result<Place, Refusal> {
        // SAFETY: as in `start`; the function answers for all places and numbers.
        let run = unsafe { sys::sk_run(self.record, memory.as_mut_ptr(), memory.len(), place.into(), ticks) };
        Refusal::check(run.number, 0).map(|()| run.place.into())
    }

    /// Who can reach whom by chains of flow lines, for all segments.
    pub fn reach(&self) -> Reach {
        // SAFETY: the record goes by value, and the function answers for all records.
        let reach = unsafe { sys::sk_reach(self.record) };
        debug_assert_eq!(reach.number, sys::SK_DONE, "a sound record is not refused");
        Reach::new(self.record.segments, reach.sources)
    }

    /// Can one segment reach another by a chain of flow lines? It agrees with [`Policy::reach`], and stops at the first chain found.
    ///
    /// # Errors
    ///
    /// 15: no such segment.
    pub fn can_reach(&self, from: u32, to: u32) -> Result<bool, Refusal> {
        // SAFETY: the record goes by value, and the function answers for all records and numbers.
        let answer = unsafe { sys::sk_can_reach(self.record, from, to) };
        Refusal::check(answer.number, 0).map(|()| answer.yes == 1)
    }

    /// The schedule sheet: how many ticks each partition has in one round, and how long it may be silent.
    pub fn sheet(&self) -> Sheet {
        // SAFETY: the record goes by value, and the function answers for all records.
        let sheet = unsafe { sys::sk_sheet(self.record) };
        debug_assert_eq!(sheet.number, sys::SK_DONE, "a sound record is not refused");
        Sheet::new(self.record.partitions, sheet.ticks, sheet.silence)
    }
}
