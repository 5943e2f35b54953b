//! Demand 3 on each kernel: pairs of memories and call lists that must leave a segment and the place equal. First the test shows that it can fail.
//!
//!     separation [--seed N] [--pairs N]

use separation::generate::policies::{policy, Shape};
use separation::kernel::{Kernel, RecordExt};
use separation::kernels;
use separation::leaky::{Leak, Leaky, LEAKS};
use separation::pairs::{check, explain, run_pair, run_pair_under, tick_pair, tick_pair_by_count, Pair};
use separation::random::Random;
use separation::reference::{sources, Reference};
use std::time::Instant;

fn main() {
    let (mut seed, mut pairs) = (3, 30_000);
    let mut words = std::env::args().skip(1);
    while let (Some(name), Some(value)) = (words.next(), words.next()) {
        let number: u64 = value.parse().unwrap_or_else(|_| panic!("{name} takes a number"));
        match name.as_str() {
            "--seed" => seed = number,
            "--pairs" => pairs = number,
            _ => panic!("unknown option {name}"),
        }
    }
    let begun = Instant::now();
    for leak in LEAKS {
        match caught_after(leak, 20_000) {
            Some(count) => println!("leaky kernel {leak:?}: caught by pair {count}"),
            None => {
                println!("leaky kernel {leak:?}: NOT CAUGHT, the test is too weak");
                std::process::exit(1);
            }
        }
    }
    // That the counts are equal is a premise that one tick needs.
    match (1..=20_000).find({
        let mut random = Random::new(7);
        move |_| check(&Reference, &tick_pair_by_count(&mut random)).leak.is_some()
    }) {
        Some(count) => println!("one tick, counts that differ: a difference by pair {count}"),
        None => {
            println!("one tick, counts that differ: NO DIFFERENCE, the test is too weak");
            std::process::exit(1);
        }
    }
    for kernel in kernels() {
        hold(&*kernel, seed, pairs, "whole runs", run_pair);
        hold(&*kernel, seed, pairs, "one tick", tick_pair);
    }
    println!("separation: no difference, {:.1} s", begun.elapsed().as_secs_f64());
}

/// The number of the first pair that catches a leaky kernel.
fn caught_after(leak: Leak, most: usize) -> Option<usize> {
    let mut random = Random::new(7);
    (1..=most).find(|_| {
        let pair = if leak == Leak::RuleEightWithoutSave {
            // The flows out of save segments dropped: such a record is sound to this kernel alone.
            let mut weak = policy(&mut random, Shape::APART);
            for p in 0..weak.partitions as usize {
                (0..32).for_each(|to| weak.set_flow(weak.save[p] as usize, to, false));
            }
            run_pair_under(&mut random, weak)
        } else {
            run_pair(&mut random)
        };
        check(&Leaky(leak), &pair).leak.is_some()
    })
}

fn hold(kernel: &dyn Kernel, seed: u64, pairs: u64, what: &str, pair: fn(&mut Random) -> Pair) {
    let begun = Instant::now();
    let mut random = Random::new(seed);
    let (mut changed, mut apart, mut ticks) = (0, 0, 0);
    for _ in 0..pairs {
        let pair = pair(&mut random);
        let outcome = check(kernel, &pair);
        if outcome.leak.is_some() {
            println!("LEAK in {} over {what}: {}", kernel.name(), explain(kernel, &pair));
            std::process::exit(1);
        }
        let segments = pair.policy.segments as usize;
        changed += outcome.changed as u64;
        apart += sources(&pair.policy, pair.target)[..segments].contains(&false) as u64;
        ticks += outcome.ticks;
    }
    println!(
        "{}, {what}: {pairs} pairs, {changed} with a target that changed, {apart} with segments kept apart from it, {ticks} ticks each side, {:.1} s",
        kernel.name(),
        begun.elapsed().as_secs_f64()
    );
}
