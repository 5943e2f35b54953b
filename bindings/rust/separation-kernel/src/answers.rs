use crate::Segments;
use separation_kernel_sys::{SK_MAX_PARTITIONS, SK_MAX_SEGMENTS};

/// Who can reach whom. A chain from s to t is one or more flow lines: the first goes out from s, each further one from the segment that the line before went
/// into, and the last goes into t.
#[derive(Clone, Copy, PartialEq, Eq, Hash, Debug)]
pub struct Reach {
    segments: u8,
    sources: [u32; SK_MAX_SEGMENTS],
}

impl Reach {
    pub(crate) const fn new(segments: u8, sources: [u32; SK_MAX_SEGMENTS]) -> Reach {
        Reach { segments, sources }
    }

    /// The segments from which a chain leads to this one, itself only if a chain returns to it; none if there is no such segment.
    pub fn sources(&self, segment: u32) -> Option<Segments> {
        (segment < u32::from(self.segments)).then(|| Segments::from_mask(self.sources[segment as usize]))
    }
}

/// The schedule sheet.
#[derive(Clone, Copy, PartialEq, Eq, Hash, Debug)]
pub struct Sheet {
    partitions: u8,
    ticks: [u32; SK_MAX_PARTITIONS],
    silence: [u32; SK_MAX_PARTITIONS],
}

/// A partition's share of the schedule.
#[non_exhaustive]
#[derive(Clone, Copy, PartialEq, Eq, Hash, Debug)]
pub struct Share {
    /// Its ticks in one round; 0 if it has no slot, and never runs.
    pub ticks: u32,
    /// The most ticks in a row in which it isn't current; 0 also if it has no slot.
    pub silence: u32,
}

impl Sheet {
    pub(crate) const fn new(partitions: u8, ticks: [u32; SK_MAX_PARTITIONS], silence: [u32; SK_MAX_PARTITIONS]) -> Sheet {
        Sheet { partitions, ticks, silence }
    }

    /// A partition's share; none if there is no such partition.
    pub fn share(&self, partition: u32) -> Option<Share> {
        let entry = partition as usize;
        (partition < u32::from(self.partitions)).then(|| Share { ticks: self.ticks[entry], silence: self.silence[entry] })
    }

    /// The ticks of one round, which are those of all partitions.
    pub fn round(&self) -> u32 {
        self.ticks.iter().sum()
    }
}
