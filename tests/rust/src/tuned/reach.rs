//! Who can reach whom, by masks.

use super::record::sound;
use crate::kernel::{Answer, Policy, ReachResult, Refused};

/// Warshall's algorithm: after step k a row has the chains through segments up to k. Row k stays in its own step, so that one pass in place does. All
/// rows at once, without a branch: those past the last segment are 0 and stay 0.
pub fn reach(policy: &Policy) -> ReachResult {
    if !sound(policy) {
        return ReachResult::refused(10);
    }
    let mut sources = policy.sources;
    for k in 0..policy.segments as usize {
        let through = sources[k & 31];
        for row in &mut sources {
            *row |= if *row & 1 << k != 0 { through } else { 0 };
        }
    }
    ReachResult { number: 0, sources }
}

/// Backwards from the target: the sources of each segment found are found too, until the one asked for is among them.
pub fn can_reach(policy: &Policy, from: u32, to: u32) -> Answer {
    if !sound(policy) {
        return Answer::refused(10);
    }
    if from.max(to) >= u32::from(policy.segments) {
        return Answer::refused(15);
    }
    let (mut found, mut looked_at) = (policy.sources[(to & 31) as usize], 0_u32);
    loop {
        let left = found & !looked_at;
        if found >> from & 1 == 1 || left == 0 {
            return Answer { number: 0, yes: found >> from & 1 };
        }
        let next = left.trailing_zeros();
        looked_at |= 1 << next;
        found |= policy.sources[next as usize];
    }
}
