//! The test of separation: pairs of memories and call lists, as demand 3 has them.

use crate::compare::perform;
use crate::generate::lists::{count, place, Call};
use crate::generate::memories::memory;
use crate::generate::policies::{policy, Shape};
use crate::kernel::{Kernel, Place, Policy, RecordExt};
use crate::random::Random;
use crate::reference::{readable, sources, writable};
use crate::{show, shrink};

/// Two memories and two lists that must leave the target segment and the place equal.
#[derive(Clone)]
pub struct Pair {
    pub policy: Policy,
    pub target: usize,
    pub memories: [Vec<u8>; 2],
    pub places: [Place; 2],
    pub lists: [Vec<Call>; 2],
    /// The place after both lists is the same too (over whole runs), or speaks of one tick alone.
    pub place_too: bool,
}

/// What a pair came to.
pub struct Outcome {
    pub leak: Option<String>,
    /// The target's bytes are not those that it began with.
    pub changed: bool,
    pub ticks: u64,
}

pub fn bytes_of(policy: &Policy, segment: usize) -> std::ops::Range<usize> {
    let base = policy.base[segment] as usize;
    base..base + policy.size[segment] as usize
}

/// Performs both lists, and says how the target or the place differ.
pub fn check(kernel: &dyn Kernel, pair: &Pair) -> Outcome {
    let target = bytes_of(&pair.policy, pair.target);
    let mut ticks_done = [0, 0];
    let mut memories = pair.memories.clone();
    let mut places = pair.places;
    for side in 0..2 {
        for &call in &pair.lists[side] {
            let answer = perform(kernel, &pair.policy, &mut memories[side], places[side], call);
            places[side] = answer.place;
            if let (Call::Run { ticks, .. }, 0) = (call, answer.number) {
                ticks_done[side] += u64::from(ticks);
            }
        }
    }
    let (one, other) = (&memories[0][target.clone()], &memories[1][target.clone()]);
    let leak = if ticks_done[0] != ticks_done[1] {
        Some(format!("ticks done: {} and {}", ticks_done[0], ticks_done[1]))
    } else if one != other {
        let at = (0..one.len()).find(|&at| one[at] != other[at]).unwrap();
        Some(format!("byte {at} of segment {}: {} and {}", pair.target, one[at], other[at]))
    } else if pair.place_too && places[0] != places[1] {
        Some(format!("place: {:?} and {:?}", places[0], places[1]))
    } else {
        None
    };
    Outcome { leak, changed: one != &pair.memories[0][target], ticks: ticks_done[0] }
}

/// A pair for whole runs: sources by chains equal, the rest different; the same lines pended between the same ticks for partitions whose save
/// segment is a source.
pub fn run_pair(random: &mut Random) -> Pair {
    let shape = if random.one_in(4) { Shape::any(random) } else { Shape::APART };
    let policy = policy(random, shape);
    run_pair_under(random, policy)
}

pub fn run_pair_under(random: &mut Random, policy: Policy) -> Pair {
    let segments = policy.segments as usize;
    let partitions = policy.partitions as usize;
    // Mostly a target that somebody writes and that not all segments lead to.
    let mut target = random.below(segments);
    for _ in 0..8 {
        let written = (0..partitions).any(|p| writable(&policy, p, target));
        if written && sources(&policy, target)[..segments].contains(&false) {
            break;
        }
        target = random.below(segments);
    }
    let same = sources(&policy, target);
    let memories = two_memories(random, &policy, &same);
    let start = place(random, &policy);
    let refused = start.slot >= u32::from(policy.slots) || start.used >= u32::from(policy.slot_ticks[start.slot as usize]);
    // Once in a while more ticks than one Run does.
    let most = if random.one_in(100) { 12_000 } else { random.pick(&[0, 1, 5, 30, 100, 100, 300]) };
    let total = if refused { 0 } else { random.below(most + 1) };
    // The lines pended for the partitions whose save segment is a source, the same in both lists.
    let inside: Vec<usize> = (0..partitions).filter(|&p| same[policy.save[p] as usize]).collect();
    let outside: Vec<usize> = (0..partitions).filter(|&p| !same[policy.save[p] as usize]).collect();
    let mut shared = Vec::new();
    if !inside.is_empty() {
        for _ in 0..random.below(6) {
            shared.push((random.below(total + 1), pend_for(random, &inside)));
        }
    }
    let lists = [(); 2].map(|()| one_list(random, &policy, total, &shared, &outside, refused));
    Pair { policy, target, memories, places: [start; 2], lists, place_too: true }
}

fn pend_for(random: &mut Random, partitions: &[usize]) -> Call {
    Call::Pend { partition: random.pick(partitions) as u32, line: random.below(8) as u32 }
}

/// Two memories, equal in some segments and as different as it comes elsewhere.
fn two_memories(random: &mut Random, policy: &Policy, same: &[bool; 32]) -> [Vec<u8>; 2] {
    let daring = random.pick(&[3, 10, 40]);
    let one = memory(random, policy, daring);
    let mut other = if random.one_in(4) {
        let mut other = one.clone();
        for byte in &mut other {
            if random.one_in(4) {
                *byte ^= random.byte();
            }
        }
        other
    } else {
        memory(random, policy, daring)
    };
    for segment in (0..policy.segments as usize).filter(|&segment| same[segment]) {
        other[bytes_of(policy, segment)].copy_from_slice(&one[bytes_of(policy, segment)]);
    }
    [one, other]
}

/// One of the two lists: the shared lines in any order and with repeats, other lines, refused calls, and the ticks in Runs of any lengths.
fn one_list(random: &mut Random, policy: &Policy, total: usize, shared: &[(usize, Call)], outside: &[usize], refused: bool) -> Vec<Call> {
    let partitions = u32::from(policy.partitions);
    let mut events: Vec<(usize, u64, Call)> = Vec::new();
    let mut add = |random: &mut Random, k: usize, call: Call| events.push((k, random.number(), call));
    for &(k, call) in shared {
        for _ in 0..random.pick(&[1, 1, 1, 2, 3]) {
            add(random, k, call);
        }
    }
    for _ in 0..random.below(8) {
        let k = random.below(total + 1);
        let line = random.below(8) as u32;
        let call = match random.below(6) {
            0 => Call::Pend { partition: partitions + random.below(3) as u32, line },
            1 => Call::Pend { partition: random.below(partitions as usize) as u32, line: line + 8 },
            2 => Call::Run { ticks: 0, from: None },
            3 => Call::Run { ticks: 10_001 + line, from: None },
            _ if outside.is_empty() => continue,
            _ => pend_for(random, outside),
        };
        add(random, k, call);
    }
    if refused && random.one_in(2) {
        let ticks = random.below(200) as u32;
        add(random, 0, Call::Run { ticks, from: None });
    }
    // By ticks before them, in random order between the same ticks.
    events.sort_by_key(|event| (event.0, event.1));
    let mut calls = Vec::new();
    let mut done = 0;
    for (k, _, call) in events {
        run_up_to(random, &mut calls, &mut done, k);
        calls.push(call);
    }
    run_up_to(random, &mut calls, &mut done, total);
    calls
}

fn run_up_to(random: &mut Random, calls: &mut Vec<Call>, done: &mut usize, k: usize) {
    while *done < k {
        let ticks = if random.one_in(3) { random.from(1, k - *done) } else { k - *done }.min(10_000);
        calls.push(Call::Run { ticks: ticks as u32, from: None });
        *done += ticks;
    }
}

/// A pair for one tick: the same current partition, the target and the segments that it may read and that flow into the target equal.
pub fn tick_pair(random: &mut Random) -> Pair {
    let shape = if random.one_in(4) { Shape::any(random) } else { Shape::APART };
    let policy = policy(random, shape);
    let slot = random.below(policy.slots as usize);
    let current = policy.slot_partition[slot] as usize;
    let target = random.below(policy.segments as usize);
    let mut same = [false; 32];
    for (s, equal) in same.iter_mut().enumerate().take(policy.segments as usize) {
        *equal = s == target || readable(&policy, current, s) && policy.flow(s, target);
    }
    let memories = two_memories(random, &policy, &same);
    let slots: Vec<usize> = (0..policy.slots as usize).filter(|&slot| policy.slot_partition[slot] as usize == current).collect();
    // S-8: "The one-tick separation rule now also takes the two counts as equal".
    let count = count(random);
    let places = [(); 2].map(|()| {
        let slot = random.pick(&slots);
        Place { slot: slot as u32, used: random.below(policy.slot_ticks[slot] as usize) as u32, count }
    });
    let tick = vec![Call::Run { ticks: 1, from: None }];
    Pair { policy, target, memories, places, lists: [tick.clone(), tick], place_too: false }
}

/// The same with counts that differ: of such a pair separation says nothing, and a search must find one that leaks.
pub fn tick_pair_by_count(random: &mut Random) -> Pair {
    let mut pair = tick_pair(random);
    while pair.places[0].count == pair.places[1].count {
        pair.places[1].count = count(random);
    }
    pair
}

/// A leaking pair, with those calls dropped that the leak and the claim don't need.
pub fn explain(kernel: &dyn Kernel, pair: &Pair) -> String {
    let mut pair = pair.clone();
    for side in 0..2 {
        let list = pair.lists[side].clone();
        // Only calls that do no ticks and pend nothing for a partition whose lines matter may go: the claim must still speak of the pair.
        let same = sources(&pair.policy, pair.target);
        let free = |call: &Call| match call {
            Call::Pend { partition, .. } => pair.policy.save.get(*partition as usize).is_none_or(|&save| !same[save as usize]),
            Call::Run { ticks, .. } => *ticks == 0 || *ticks > 10_000,
            Call::Start => false,
        };
        let kept = shrink::shrink(&(0..list.len()).collect::<Vec<_>>(), &mut |kept| {
            let dropped_free = (0..list.len()).all(|at| kept.contains(&at) || free(&list[at]));
            let mut other = pair.clone();
            other.lists[side] = kept.iter().map(|&at| list[at]).collect();
            dropped_free && check(kernel, &other).leak.is_some()
        });
        pair.lists[side] = kept.iter().map(|&at| list[at]).collect();
    }
    let leak = check(kernel, &pair).leak.unwrap_or_default();
    let mut shown = format!("{leak}\npolicy, {}target: segment {}\n", show::policy(&pair.policy), pair.target);
    for side in 0..2 {
        let place = pair.places[side];
        shown += &format!("memory {}:\n{}place: {}\ncalls:\n", side + 1, show::memory(&pair.memories[side]), show::place(place));
        for call in &pair.lists[side] {
            shown += &format!("  {}\n", show::call(call));
        }
    }
    shown
}
