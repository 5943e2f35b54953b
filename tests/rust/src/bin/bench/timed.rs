//! The measurements, with the kernel's calls bound at compile time.

use separation::generate::workloads::{eight, put};
use separation::kernel::{Kernel, Place, Policy, MEMORY};
use separation::reference::{ENABLED, HANDLER, PENDED, STATE};
use std::hint::black_box;
use std::time::Instant;

fn save_base(policy: &Policy, partition: usize) -> usize {
    policy.base[policy.save[partition] as usize] as usize
}

fn ns(begun: Instant, count: u32) -> f64 {
    begun.elapsed().as_nanos() as f64 / f64::from(count.max(1))
}

pub fn min_and_median(times: &mut [f64]) -> (f64, f64) {
    times.sort_by(f64::total_cmp);
    (times[0], times[times.len() / 2])
}

/// So many calls of one sort, and the nanoseconds of one; of Runs, those of a tick.
pub trait Timed {
    fn run(&self, policy: &Policy, memory: &[u8], ticks: u32, calls: u32) -> f64;
    fn interrupts(&self, calls: u32) -> f64;
    fn pend(&self, policy: &Policy, calls: u32) -> f64;
    fn start(&self, policy: &Policy, calls: u32) -> f64;
    fn sound(&self, policy: &Policy, calls: u32) -> f64;
    fn read(&self, text: &[u8], calls: u32) -> f64;
    fn reach(&self, policy: &Policy, calls: u32) -> f64;
    fn can_reach(&self, policy: &Policy, pair: (u32, u32), calls: u32) -> f64;
    fn sheet(&self, policy: &Policy, calls: u32) -> f64;
}

impl<K: Kernel> Timed for K {
    fn run(&self, policy: &Policy, memory: &[u8], ticks: u32, calls: u32) -> f64 {
        let mut memory = memory.to_vec();
        let mut place = Place::FIRST;
        let begun = Instant::now();
        for _ in 0..calls {
            let result = Kernel::run(self, black_box(policy), black_box(&mut memory), place, black_box(ticks));
            place = result.place;
        }
        let time = ns(begun, calls * ticks.max(1));
        // An earlier kernel may not have the opcodes, and the time of a faulted partition would say nothing.
        let faulted = (0..policy.partitions as usize).any(|p| black_box(&memory)[save_base(policy, p) + STATE] == 2);
        [time, f64::NAN][faulted as usize]
    }

    fn interrupts(&self, calls: u32) -> f64 {
        let policy = eight();
        let mut memory = vec![0; MEMORY];
        for p in 0..8 {
            // The handler is "back".
            put(&mut memory, &policy, policy.code[p] as usize, &[[10, 0, 0, 0], [9, 0, 0, 0], [12, 0, 0, 0]]);
            memory[save_base(&policy, p) + ENABLED] = 255;
            memory[save_base(&policy, p) + HANDLER] = 8;
        }
        let mut place = Place::FIRST;
        let (mut empty, mut full) = (Vec::new(), Vec::new());
        for _ in 0..calls {
            (0..8).for_each(|p| memory[save_base(&policy, p) + PENDED] = 255);
            for (ticks, times) in [(0, &mut empty), (128, &mut full)] {
                let begun = Instant::now();
                place = Kernel::run(self, black_box(&policy), black_box(&mut memory), place, black_box(ticks)).place;
                times.push(ns(begun, 1));
            }
        }
        assert!((0..8).all(|p| memory[save_base(&policy, p) + PENDED] == 0 && memory[save_base(&policy, p) + STATE] == 0));
        // Without what each call takes before its first tick.
        (min_and_median(&mut full).1 - min_and_median(&mut empty).1) / 128.0
    }

    fn pend(&self, policy: &Policy, calls: u32) -> f64 {
        let mut memory = vec![0; MEMORY];
        let begun = Instant::now();
        for call in 0..calls {
            black_box(Kernel::pend(self, black_box(policy), black_box(&mut memory), call & 1, call & 7));
        }
        ns(begun, calls)
    }

    fn start(&self, policy: &Policy, calls: u32) -> f64 {
        let mut memory = vec![0; MEMORY];
        let begun = Instant::now();
        for _ in 0..calls {
            black_box(Kernel::start(self, black_box(policy), black_box(&mut memory)));
        }
        ns(begun, calls)
    }

    fn sound(&self, policy: &Policy, calls: u32) -> f64 {
        let begun = Instant::now();
        for _ in 0..calls {
            black_box(Kernel::sound(self, black_box(policy)));
        }
        ns(begun, calls)
    }

    fn read(&self, text: &[u8], calls: u32) -> f64 {
        // An earlier kernel may refuse the text, and its time would say nothing.
        if Kernel::read(self, text).number != 0 {
            return f64::NAN;
        }
        let begun = Instant::now();
        for _ in 0..calls {
            black_box(&Kernel::read(self, black_box(text)));
        }
        ns(begun, calls)
    }

    fn reach(&self, policy: &Policy, calls: u32) -> f64 {
        // An earlier kernel may not have the call.
        if Kernel::reach(self, policy).number != 0 {
            return f64::NAN;
        }
        let begun = Instant::now();
        for _ in 0..calls {
            black_box(&Kernel::reach(self, black_box(policy)));
        }
        ns(begun, calls)
    }

    fn can_reach(&self, policy: &Policy, (from, to): (u32, u32), calls: u32) -> f64 {
        if Kernel::can_reach(self, policy, from, to).number != 0 {
            return f64::NAN;
        }
        let begun = Instant::now();
        for _ in 0..calls {
            black_box(Kernel::can_reach(self, black_box(policy), black_box(from), black_box(to)));
        }
        ns(begun, calls)
    }

    fn sheet(&self, policy: &Policy, calls: u32) -> f64 {
        if Kernel::sheet(self, policy).number != 0 {
            return f64::NAN;
        }
        let begun = Instant::now();
        for _ in 0..calls {
            black_box(&Kernel::sheet(self, black_box(policy)));
        }
        ns(begun, calls)
    }
}
