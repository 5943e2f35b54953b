//! Makes a failing input shorter as long as it still fails (delta debugging).

use crate::generate::lists::{Call, List};
use crate::kernel::{Policy, MEMORY};
use crate::reference::{judge, print};

/// Drops parts of a list, large ones first, while the rest still fails.
pub fn shrink<T: Clone>(items: &[T], fails: &mut dyn FnMut(&[T]) -> bool) -> Vec<T> {
    let mut items = items.to_vec();
    let mut part = items.len().div_ceil(2).max(1);
    loop {
        let mut dropped = false;
        let mut at = 0;
        while at < items.len() {
            let mut rest = items.clone();
            rest.drain(at..(at + part).min(items.len()));
            if fails(&rest) {
                items = rest;
                dropped = true;
            } else {
                at += part;
            }
        }
        if part > 1 {
            part = part.div_ceil(2);
        } else if !dropped {
            return items;
        }
    }
}

/// A text: lines first, then single bytes.
pub fn shrink_text(text: &[u8], fails: &mut dyn FnMut(&[u8]) -> bool) -> Vec<u8> {
    let lines: Vec<&[u8]> = text.split_inclusive(|&byte| byte == b'\n').collect();
    let lines = shrink(&lines, &mut |lines| fails(&lines.concat()));
    let text = lines.concat();
    if text.len() > 2_000 {
        return text;
    }
    shrink(&text, &mut |bytes| fails(bytes))
}

/// A record: the lines of its text, as long as what is left is accepted.
pub fn shrink_policy(policy: &Policy, fails: &mut dyn FnMut(&Policy) -> bool) -> Policy {
    let Some(text) = print(policy) else { return *policy };
    let lines: Vec<&str> = text.split_inclusive('\n').collect();
    let mut with = |lines: &[&str]| {
        let record = judge(lines.concat().as_bytes()).ok()?.record();
        fails(&record).then_some(record)
    };
    let lines = shrink(&lines, &mut |lines| with(lines).is_some());
    with(&lines).unwrap_or(*policy)
}

/// A list: calls first, then the ticks of its Runs, its policy's lines, and the bytes of its memory.
pub fn shrink_list(list: &List, fails: &mut dyn FnMut(&List) -> bool) -> List {
    let mut list = list.clone();
    list.steps = shrink(&list.steps.clone(), &mut |steps| fails(&List { steps: steps.to_vec(), ..list.clone() }));
    for at in 0..list.steps.len() {
        while let Call::Run { ticks, from } = list.steps[at].call {
            let fewer = [ticks / 2, ticks.saturating_sub(1)].into_iter().find(|&fewer| {
                let mut other = list.clone();
                other.steps[at].call = Call::Run { ticks: fewer, from };
                fewer < ticks && fails(&other)
            });
            let Some(ticks) = fewer else { break };
            list.steps[at].call = Call::Run { ticks, from };
        }
    }
    let policy = list.policies[0];
    list.policies[0] = shrink_policy(&policy, &mut |policy| fails(&List { policies: [*policy, list.policies[1]], ..list.clone() }));
    let mut part = 4_096;
    while part > 0 {
        for at in (0..MEMORY).step_by(part) {
            let end = (at + part).min(list.memory.len());
            if list.memory[at..end].iter().any(|&byte| byte != 0) {
                let mut other = list.clone();
                other.memory[at..end].fill(0);
                if fails(&other) {
                    list = other;
                }
            }
        }
        part /= 4;
    }
    list
}
