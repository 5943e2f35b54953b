//! Kernels that are wrong about who can reach whom, one way each: the comparison has to find every one of them.

pub mod sheet;

use crate::as_reference;
use crate::kernel::{has, Answer, Kernel, Policy, ReachResult, Refused};
use crate::tuned::{can_reach, reach, sound};
use Mistake::*;

#[derive(Clone, Copy, PartialEq, Eq, Debug)]
pub enum Mistake {
    /// Chains of so many lines at most: no line is added to another, or the bound is one short.
    AtMost(u32),
    /// Chains through the last segment alone.
    ThroughTheLast,
    /// All but the first segment, or all but the last, are passed through.
    FirstLeftOut,
    LastLeftOut,
    /// The loop over what is passed through inside the loop over the targets.
    LoopsTurned,
    /// What is found is not kept while one of it is looked at.
    Forgotten,
    /// Each segment in its own row, or none.
    OwnRow,
    NeverOwnRow,
    /// Where a segment leads to in place of what leads to it.
    Turned,
    /// Bit 31 of each row is lost, or row 31.
    BitCut,
    RowCut,
    /// A refused report has rows, a refused question is answered yes.
    NotEmptied,
    /// No test that the record is sound.
    Unchecked,
    /// The row past the last segment is not 0.
    RowPast,
    /// 15 before 10.
    FifteenFirst,
    /// Numbers are taken modulo this one.
    Modulo(u32),
    /// The number past the last is let through, or any first or second number.
    OnePast,
    AnyFrom,
    AnyTo,
}

/// In the rows, so that the report or the question can have them.
pub const IN_ROWS: [Mistake; 15] = [
    AtMost(1),
    AtMost(2),
    AtMost(3),
    AtMost(30),
    AtMost(31),
    ThroughTheLast,
    FirstLeftOut,
    LastLeftOut,
    LoopsTurned,
    OwnRow,
    NeverOwnRow,
    Turned,
    BitCut,
    RowCut,
    Forgotten,
];
pub const IN_THE_REPORT: [Mistake; 3] = [NotEmptied, Unchecked, RowPast];
pub const IN_THE_QUESTION: [Mistake; 10] =
    [NotEmptied, Unchecked, FifteenFirst, Modulo(32), Modulo(64), Modulo(256), Modulo(65_536), OnePast, AnyFrom, AnyTo];

/// A mistake in the report alone or in the question alone.
pub struct Misled {
    pub mistake: Mistake,
    pub in_question: bool,
}

impl Mistake {
    /// The rows of a sound record.
    fn rows(self, policy: &Policy) -> [u32; 32] {
        let segments = policy.segments as usize;
        let mut rows = reach(policy).sources;
        let lines = policy.sources;
        match self {
            AtMost(most) => rows = at_most(&lines, most),
            ThroughTheLast => rows = through(&lines, [segments - 1]),
            FirstLeftOut => rows = through(&lines, 1..segments),
            LastLeftOut => rows = through(&lines, 0..segments - 1),
            LoopsTurned => {
                rows = lines;
                (0..segments).for_each(|t| (0..segments).for_each(|k| spread(&mut rows, t, k)));
            }
            Forgotten => (0..segments).for_each(|t| rows[t] = without_memory(&lines, t)),
            OwnRow => (0..segments).for_each(|t| rows[t] |= 1 << t),
            NeverOwnRow => (0..segments).for_each(|t| rows[t] &= !(1 << t)),
            Turned => rows = std::array::from_fn(|t| (0..32).map(|s| (rows[s] >> t & 1) << s).sum()),
            BitCut => rows.iter_mut().for_each(|row| *row &= !(1 << 31)),
            RowCut => rows[31] = 0,
            RowPast if segments < 32 => rows[segments] = 1,
            _ => (),
        }
        rows
    }
}

/// What leads to k leads to t, if k does.
fn spread(rows: &mut [u32; 32], t: usize, k: usize) {
    if has(rows[t], k) {
        rows[t] |= rows[k];
    }
}

fn through(lines: &[u32; 32], segments: impl IntoIterator<Item = usize>) -> [u32; 32] {
    let mut rows = *lines;
    segments.into_iter().for_each(|k| (0..32).for_each(|t| spread(&mut rows, t, k)));
    rows
}

fn at_most(lines: &[u32; 32], most: u32) -> [u32; 32] {
    let mut rows = *lines;
    for _ in 1..most {
        let before = rows;
        (0..32).for_each(|t| (0..32).filter(|&k| has(before[t], k)).for_each(|k| rows[t] |= lines[k]));
    }
    rows
}

/// From the lowest source of t to its lowest source, and so on.
fn without_memory(lines: &[u32; 32], t: usize) -> u32 {
    let (mut row, mut last, mut looked_at) = (lines[t], lines[t], 0_u32);
    while last & !looked_at != 0 {
        let next = (last & !looked_at).trailing_zeros() as usize;
        looked_at |= 1 << next;
        last = lines[next];
        row |= last;
    }
    row
}

impl Kernel for Misled {
    fn name(&self) -> &'static str {
        "misled"
    }
    as_reference!(read, sound, start, pend, run, sheet);

    fn reach(&self, policy: &Policy) -> ReachResult {
        let right = reach(policy);
        match self.mistake {
            _ if self.in_question => right,
            NotEmptied if right.number == 10 => ReachResult { number: 10, sources: policy.sources },
            Unchecked => ReachResult { number: 0, sources: policy.sources },
            mistake if right.number == 0 => ReachResult { number: 0, sources: mistake.rows(policy) },
            _ => right,
        }
    }

    fn can_reach(&self, policy: &Policy, from: u32, to: u32) -> Answer {
        let right = can_reach(policy, from, to);
        let segments = u32::from(policy.segments);
        let taken = match self.mistake {
            Modulo(count) => (from % count, to % count),
            OnePast => (if from == segments { 0 } else { from }, if to == segments { 0 } else { to }),
            AnyFrom => (from.min(segments.saturating_sub(1)), to),
            AnyTo => (from, to.min(segments.saturating_sub(1))),
            _ => (from, to),
        };
        match self.mistake {
            _ if !self.in_question => right,
            FifteenFirst if from.max(to) >= segments => Answer::refused(15),
            NotEmptied if right.number != 0 => Answer { number: right.number, yes: 1 },
            Unchecked if !sound(policy) => Answer { number: 0, yes: policy.sources[(to & 31) as usize] >> (from & 31) & 1 },
            mistake if right.number == 0 => Answer { number: 0, yes: mistake.rows(policy)[to as usize] >> from & 1 },
            _ => can_reach(policy, taken.0, taken.1),
        }
    }
}
