use crate::{Memory, Policy};
use core::fmt;
use core::ops::Range;

/// A set of segments.
#[derive(Clone, Copy, PartialEq, Eq, Hash, Default)]
pub struct Segments(u32);

impl Segments {
    /// The set whose mask this is: bit s stands for segment s.
    pub const fn from_mask(mask: u32) -> Segments {
        Segments(mask)
    }

    /// Its mask.
    pub const fn mask(self) -> u32 {
        self.0
    }

    /// Is the segment in it?
    pub const fn contains(self, segment: u32) -> bool {
        segment < u32::BITS && self.0 >> segment & 1 == 1
    }

    /// How many segments are in it.
    pub const fn len(self) -> u32 {
        self.0.count_ones()
    }

    /// Is none in it?
    pub const fn is_empty(self) -> bool {
        self.0 == 0
    }

    /// The segments, ascending.
    pub const fn iter(self) -> SegmentsIter {
        SegmentsIter(self.0)
    }
}

impl fmt::Debug for Segments {
    fn fmt(&self, out: &mut fmt::Formatter<'_>) -> fmt::Result {
        out.debug_set().entries(self.iter()).finish()
    }
}

impl IntoIterator for Segments {
    type Item = u32;
    type IntoIter = SegmentsIter;

    fn into_iter(self) -> SegmentsIter {
        self.iter()
    }
}

/// The segments of a set, ascending.
#[derive(Clone, Debug)]
pub struct SegmentsIter(u32);

impl Iterator for SegmentsIter {
    type Item = u32;

    fn next(&mut self) -> Option<u32> {
        let segment = self.0.trailing_zeros();
        (segment < u32::BITS).then(|| {
            self.0 &= self.0 - 1;
            segment
        })
    }
}

/// A segment: its bytes in memory.
#[non_exhaustive]
#[derive(Clone, Copy, PartialEq, Eq, Hash, Debug)]
pub struct Segment {
    /// The first byte.
    pub base: u16,
    /// How many bytes, 1 to 4,096.
    pub size: u16,
    /// The segments that flow into it by a flow line.
    pub sources: Segments,
}

impl Segment {
    /// Where its bytes are in memory.
    pub const fn range(self) -> Range<usize> {
        self.base as usize..self.base as usize + self.size as usize
    }
}

/// A partition: its segments.
#[non_exhaustive]
#[derive(Clone, Copy, PartialEq, Eq, Hash, Debug)]
pub struct Partition {
    /// The code segment.
    pub code: u32,
    /// The save segment. The partition reads and writes it without a right line, so it is in neither set below.
    pub save: u32,
    /// The segments on which a right line gives r.
    pub reads: Segments,
    /// Those on which one gives w.
    pub writes: Segments,
}

/// A slot of the schedule.
#[non_exhaustive]
#[derive(Clone, Copy, PartialEq, Eq, Hash, Debug)]
pub struct Slot {
    /// The partition that is current in it.
    pub partition: u32,
    /// Its ticks.
    pub ticks: u32,
}

/// What the policy says of its segments, partitions and slots.
impl Policy {
    /// A segment; none if there is no such one.
    pub fn segment(&self, segment: u32) -> Option<Segment> {
        let (record, s) = (self.record(), segment as usize);
        (segment < u32::from(record.segments)).then(|| Segment {
            base: record.base[s],
            size: record.size[s],
            sources: Segments::from_mask(record.sources[s]),
        })
    }

    /// A partition; none if there is no such one.
    pub fn partition(&self, partition: u32) -> Option<Partition> {
        let (record, p) = (self.record(), partition as usize);
        (partition < u32::from(record.partitions)).then(|| Partition {
            code: u32::from(record.code[p]),
            save: u32::from(record.save[p]),
            reads: Segments::from_mask(record.reads[p]),
            writes: Segments::from_mask(record.writes[p]),
        })
    }

    /// A slot; none if there is no such one.
    pub fn slot(&self, slot: u32) -> Option<Slot> {
        let (record, i) = (self.record(), slot as usize);
        (slot < u32::from(record.slots)).then(|| Slot { partition: u32::from(record.slot_partition[i]), ticks: u32::from(record.slot_ticks[i]) })
    }

    /// The segments, 0 first.
    pub fn segments(&self) -> impl ExactSizeIterator<Item = Segment> + '_ {
        (0..self.record().segments).map(|s| self.segment(u32::from(s)).expect("it is there"))
    }

    /// The partitions, 0 first.
    pub fn partitions(&self) -> impl ExactSizeIterator<Item = Partition> + '_ {
        (0..self.record().partitions).map(|p| self.partition(u32::from(p)).expect("it is there"))
    }

    /// The slots in schedule order.
    pub fn slots(&self) -> impl ExactSizeIterator<Item = Slot> + '_ {
        (0..self.record().slots).map(|i| self.slot(u32::from(i)).expect("it is there"))
    }

    /// Is there a line "flow from to"?
    pub fn flows(&self, from: u32, to: u32) -> bool {
        self.segment(to).is_some_and(|segment| segment.sources.contains(from))
    }

    /// A segment's bytes; none if there is no such segment.
    pub fn bytes<'m>(&self, memory: &'m Memory, segment: u32) -> Option<&'m [u8]> {
        memory.get(self.segment(segment)?.range())
    }

    /// A segment's bytes, to be written between two Runs: a program and its data, or an input; none if there is no such segment.
    pub fn bytes_mut<'m>(&self, memory: &'m mut Memory, segment: u32) -> Option<&'m mut [u8]> {
        memory.get_mut(self.segment(segment)?.range())
    }
}
