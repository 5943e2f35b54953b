//! Change request S-1: who can reach whom.

use super::record::{sound, Lines};
use crate::kernel::{Answer, Policy, ReachResult, RecordExt, Refused};

/// "for each segment, all segments from which a chain of one or more flow lines leads to it, ascending, itself too if a chain returns". "Refused: [..] 10;
/// report empty".
pub fn reach(policy: &Policy) -> ReachResult {
    let Some(lines) = Lines::of(policy).filter(|_| sound(policy)) else {
        return ReachResult::refused(10);
    };
    let mut result = ReachResult { number: 0, sources: [0; 32] };
    for t in 0..policy.segments as usize {
        let row = row(&lines.flows, t);
        result.sources[t] = (0..32).filter(|&s| row[s]).map(|s| 2_u32.pow(s as u32)).sum();
    }
    result
}

/// The sources of the lines into t and into what is found, until nothing more is. What is found grows, so that a chain of any length comes in.
fn row(flows: &[(u32, u32)], t: usize) -> [bool; 32] {
    let mut row = [false; 32];
    loop {
        let before = row;
        for &(from, to) in flows {
            if to as usize == t || row[to as usize] {
                row[from as usize] = true;
            }
        }
        if row == before {
            return row;
        }
    }
}

/// "can s reach t". "Refused: 15 if s or t isn't a segment, after 10; [..] answer no."
pub fn can_reach(policy: &Policy, from: u32, to: u32) -> Answer {
    answer(policy, sound(policy), from, to)
}

/// The same where it is known whether the record is sound: to find out takes longer than to search.
pub fn answer(policy: &Policy, is_sound: bool, from: u32, to: u32) -> Answer {
    if !is_sound {
        return Answer::refused(10);
    }
    if from >= u32::from(policy.segments) || to >= u32::from(policy.segments) {
        return Answer::refused(15);
    }
    Answer { number: 0, yes: leads(policy, from as usize, to as usize, &mut [false; 32]) as u32 }
}

/// "stops at the first chain found": depth first along the lines out of s, which no segment is left by twice.
fn leads(policy: &Policy, s: usize, t: usize, left: &mut [bool; 32]) -> bool {
    left[s] = true;
    (0..policy.segments as usize).filter(|&next| policy.flow(s, next)).any(|next| next == t || !left[next] && leads(policy, next, t, left))
}
