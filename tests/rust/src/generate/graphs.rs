//! Sound records by their flow lines: rings, chains and other graphs. The lines come first, and save segments and rights are chosen so that rules 8 and
//! 16 let them stand.

use super::policies::{lay_out, schedule};
use super::records::perturb;
use crate::kernel::{has, Policy, RecordExt};
use crate::random::Random;

#[derive(Clone, Copy, PartialEq, Eq, Debug)]
pub enum Graph {
    /// One line after the other through all segments.
    Chain,
    Ring,
    /// A chain with a line back.
    Returning,
    /// With a line from the first to the second.
    TwoRings,
    /// Into one from all others.
    Into,
    /// Out of one into all others.
    OutOf,
    /// Never back: from earlier segments to later ones.
    Forward,
    /// About as many lines as segments, or half as many, so that some segments reach nobody.
    Sparse,
    Thin,
    /// Half of all lines, or all.
    Dense,
    Full,
    /// No line but what a save segment asks for.
    Bare,
}

pub const GRAPHS: [Graph; 12] = [
    Graph::Chain,
    Graph::Ring,
    Graph::Returning,
    Graph::TwoRings,
    Graph::Into,
    Graph::OutOf,
    Graph::Forward,
    Graph::Sparse,
    Graph::Thin,
    Graph::Dense,
    Graph::Full,
    Graph::Bare,
];

/// A sound record with a graph of any sort on 2 to 32 segments (a partition takes two).
pub fn record(random: &mut Random) -> Policy {
    let graph = random.pick(&GRAPHS);
    let segments = if random.one_in(3) { random.from(31, 32) } else { random.from(2, 32) };
    let mut order: Vec<usize> = (0..segments).collect();
    match random.below(4) {
        0 => (),
        1 => order.reverse(),
        _ => random.shuffle(&mut order),
    }
    let lines = lines(random, graph, &order);
    let any_saves = random.one_in(6);
    complete(random, flows(segments, &lines), any_saves)
}

/// The lines of a graph on segments in this order.
pub fn lines(random: &mut Random, graph: Graph, order: &[usize]) -> Vec<(usize, usize)> {
    let count = order.len();
    let pairs = || (0..count).flat_map(|i| (0..count).map(move |j| (i, j)));
    let chain = |from: usize, to: usize| (from + 1..to).map(|i| (i - 1, i));
    let ring = |from: usize, to: usize| chain(from, to).chain([(to - 1, from)]);
    let some = |random: &mut Random, keep: &dyn Fn(&mut Random, usize, usize) -> bool| pairs().filter(|&(i, j)| keep(random, i, j)).collect();
    let places: Vec<(usize, usize)> = match graph {
        Graph::Chain => chain(0, count).collect(),
        Graph::Ring => ring(0, count).collect(),
        Graph::Returning => {
            let back = random.from(1, count - 1);
            chain(0, count).chain([(back, random.below(back))]).collect()
        }
        Graph::TwoRings => {
            let first = random.from(1, count - 1);
            ring(0, first).chain(ring(first, count)).chain([(random.below(first), random.from(first, count - 1))]).collect()
        }
        Graph::Into => some(random, &|_, _, j| j == 0),
        Graph::OutOf => some(random, &|_, i, _| i == 0),
        Graph::Forward => some(random, &|random, i, j| i < j && random.one_in(4)),
        Graph::Sparse => some(random, &|random, _, _| random.one_in(count)),
        Graph::Thin => some(random, &|random, _, _| random.one_in(2 * count)),
        Graph::Dense => some(random, &|random, _, _| random.one_in(2)),
        Graph::Full => pairs().collect(),
        Graph::Bare => Vec::new(),
    };
    places.into_iter().map(|(i, j)| (order[i], order[j])).filter(|(from, to)| from != to).collect()
}

/// A sound record with these flow lines and no others, or with one if there are none: a save segment has a source.
pub fn with_lines(random: &mut Random, segments: usize, lines: &[(usize, usize)]) -> Policy {
    complete(random, flows(segments, lines), false)
}

fn flows(segments: usize, lines: &[(usize, usize)]) -> Policy {
    let mut policy = Policy { segments: segments as u8, ..Policy::ZERO };
    lines.iter().for_each(|&(from, to)| policy.set_flow(from, to, true));
    policy
}

/// Partitions and slots for a record that has flows alone. Save segments are any, and lose the lines between them, or those that fit.
fn complete(random: &mut Random, mut policy: Policy, any_saves: bool) -> Policy {
    let segments = policy.segments as usize;
    let mut ids: Vec<usize> = (0..segments).collect();
    random.shuffle(&mut ids);
    let most = random.from(1, 8).min(segments - 1);
    let mut saves = if any_saves { ids[..most].to_vec() } else { fitting(&policy, &ids, most) };
    if saves.is_empty() {
        saves.push(ids[0]);
    }
    let others: Vec<usize> = ids.into_iter().filter(|id| !saves.contains(id)).collect();
    partitions(random, &mut policy, &saves, &others);
    let codes: Vec<usize> = others.iter().copied().filter(|&id| policy.code[..saves.len()].contains(&(id as u8))).collect();
    let rest = others.iter().filter(|id| !codes.contains(id));
    let ids: Vec<usize> = saves.iter().chain(&codes).chain(rest).copied().collect();
    lay_out(random, &mut policy, &ids, codes.len());
    let slots = random.pick(&[1, 2, 3, 8, 31, 32]);
    schedule(random, &mut policy, slots);
    policy
}

/// Segments, this many at most, that can all be save segments as the lines are: each has a source, and none is another's.
fn fitting(policy: &Policy, ids: &[usize], most: usize) -> Vec<usize> {
    let mut saves: Vec<usize> = Vec::new();
    for &id in ids {
        let apart = saves.iter().all(|&save| !policy.flow(save, id) && !policy.flow(id, save));
        if saves.len() < most && policy.sources[id] != 0 && apart {
            saves.push(id);
        }
    }
    saves
}

/// Each partition reads the sources of its save segment, one of which is its code, and writes some segments that they all flow into.
fn partitions(random: &mut Random, policy: &mut Policy, saves: &[usize], others: &[usize]) {
    policy.partitions = saves.len() as u8;
    for (p, &save) in saves.iter().enumerate() {
        policy.save[p] = save as u8;
        saves.iter().for_each(|&other| policy.set_flow(other, save, false));
        if policy.sources[save] == 0 {
            policy.set_flow(random.pick(others), save, true);
        }
        policy.reads[p] = policy.sources[save];
        let sources: Vec<usize> = others.iter().copied().filter(|&s| policy.flow(s, save)).collect();
        policy.code[p] = random.pick(&sources) as u8;
    }
    let rate = random.pick(&[1, 3, 1_000]);
    for (p, &save) in saves.iter().enumerate() {
        for &t in others {
            let all_flow = (0..32).all(|s| s == t || policy.flow(s, t) || s != save && !has(policy.reads[p], s));
            if all_flow && random.one_in(rate) {
                policy.set_right(p, t, policy.right(p, t) | 2);
            }
        }
    }
}

/// A record with a graph, or one near it that need not be sound.
pub fn near(random: &mut Random) -> Policy {
    let mut policy = record(random);
    match random.below(4) {
        0 => turn_lines(random, &mut policy),
        1 => perturb(random, &mut policy),
        _ => (),
    }
    policy
}

/// Flow lines into segments that are no save segments come or go: where rule 8 does not ask for them, the record stays sound.
fn turn_lines(random: &mut Random, policy: &mut Policy) {
    for _ in 0..random.from(1, 4) {
        let (from, to) = (random.below(policy.segments as usize), random.below(policy.segments as usize));
        if from != to && !policy.is_save(to) {
            policy.set_flow(from, to, !policy.flow(from, to));
        }
    }
}
