//! Times the proved kernel (or, without it, the reference) beside the tuned one, in turn and in the same run, and writes a Markdown table; with --count
//! the table has the instructions of one call.
//!
//!     bench [--rounds N]
//!     bench --count

mod cases;
mod instructions;
mod timed;

use cases::{BESIDE, BESIDE_AIM, CASES, DEMONSTRATION, ONE_LINE};
use instructions::SAYS_NOTHING;
use separation::generate::policies::{full_in_hexadecimal, longest};
use separation::generate::texts::{hexadecimal_text_of, text_of};
use separation::generate::workloads::{chain, few_flows, in_no_order, in_order, policy_of};
use separation::kernel::{Answer, Kernel, RecordExt};
use separation::reference;
use separation::tuned::Tuned;
use std::collections::BTreeMap;
use timed::{min_and_median, Timed};

#[cfg(feature = "before")]
use separation::before::Before;
#[cfg(feature = "archive")]
use separation::proved::Archive as Proved;
#[cfg(not(feature = "archive"))]
use separation::reference::Reference as Proved;

type Named = (&'static str, &'static dyn Timed);

fn kernels() -> Vec<Named> {
    vec![
        (Proved.name(), &Proved),
        (Tuned.name(), &Tuned),
        #[cfg(feature = "before")]
        (Before.name(), &Before),
    ]
}

/// The texts are as long as the rows say, and the kernel reads them as the reference does; two of them are one policy's.
fn assert_reads(kernel: &dyn Kernel) {
    let full = full_in_hexadecimal();
    for (text, length, lines) in [
        (DEMONSTRATION.to_vec(), 225, 18),
        (text_of(&few_flows()), 1_363, 88),
        (text_of(&longest()), 13_639, 1_200),
        (text_of(&full), 12_391, 1_096),
        (hexadecimal_text_of(&full), 16_384, 1_096),
    ] {
        assert_eq!((text.len(), text.iter().filter(|&&byte| byte == b'\n').count()), (length, lines));
        let answer = kernel.read(&text);
        assert_eq!((answer.number, answer.policy), (0, reference::read(&text).policy));
    }
    assert_eq!(kernel.read(&hexadecimal_text_of(&full)).policy, full);
}

/// The report and the answers are the reference's, and what one line is to answer one line does.
fn assert_reaches(kernel: &dyn Kernel) {
    let records = [policy_of(DEMONSTRATION), longest(), chain()];
    records.iter().for_each(|record| assert_eq!(kernel.reach(record), reference::reach(record)));
    for (record, (from, to)) in records.iter().zip(ONE_LINE.into_iter().chain([(0, 31)])) {
        assert_eq!(kernel.can_reach(record, from, to), Answer { number: 0, yes: 1 });
    }
    assert!(records.iter().zip(ONE_LINE).all(|(record, (from, to))| record.flow(from as usize, to as usize)));
}

/// The sheets are the reference's, of as many slots as the rows say.
fn assert_sheets(kernel: &dyn Kernel) {
    for (record, slots) in [(policy_of(DEMONSTRATION), 2), (longest(), 32), (in_order(), 32), (in_no_order(), 32)] {
        assert_eq!((record.slots, kernel.sheet(&record)), (slots, reference::sheet(&record)));
    }
}

/// A number, or a dash where a kernel says nothing.
fn shown(number: f64, digits: usize) -> String {
    if number.is_nan() {
        return "–".to_string();
    }
    format!("{number:.digits$}")
}

/// A second table: what a question takes beside soundness alone, of the columns of the first.
fn print_beside(columns: &[String], of: &dyn Fn(&str) -> Vec<f64>) {
    println!("\n| to soundness alone | {} | aim |", columns.join(" | "));
    println!("|---|{}---:|", "---:|".repeat(columns.len()));
    for (question, soundness) in BESIDE {
        print!("| {question} |");
        of(question).iter().zip(of(soundness)).for_each(|(question, soundness)| print!(" {} |", shown(question / soundness, 2)));
        println!(" {BESIDE_AIM:.1} |");
    }
}

fn main() {
    let words: Vec<String> = std::env::args().skip(1).collect();
    let words: Vec<&str> = words.iter().map(String::as_str).collect();
    let number = |word: &str| word.parse::<u32>().unwrap_or_else(|_| panic!("{word} is no number"));
    let kernels = kernels();
    match words[..] {
        [] => times(&kernels, 101),
        ["--rounds", rounds] => times(&kernels, number(rounds)),
        ["--count"] => instructions::table(&kernels.iter().map(|kernel| kernel.0).collect::<Vec<_>>()),
        // For --count: so many calls of one case by one kernel.
        ["--once", case, kernel, calls] => {
            let time = (CASES[number(case) as usize].time)(kernels[number(kernel) as usize].1, number(calls));
            std::process::exit(if time.is_nan() { SAYS_NOTHING } else { 0 });
        }
        _ => panic!("the options are --rounds N and --count"),
    }
}

fn times(kernels: &[Named], rounds: u32) {
    for kernel in [&Proved as &dyn Kernel, &Tuned] {
        assert_reads(kernel);
        assert_reaches(kernel);
        assert_sheets(kernel);
    }
    let times = measured(kernels, rounds);
    print!("| what, in ns |");
    kernels.iter().for_each(|(name, _)| print!(" {name} min | {name} median |"));
    kernels[1..].iter().for_each(|(name, _)| print!(" min to {name} | median to {name} |"));
    println!(" aim to tuned |");
    println!("|---|{}---:|", "---:|".repeat(4 * kernels.len() - 2));
    for case in &CASES {
        let times = &times[case.name];
        print!("| {} |", case.name);
        times.iter().for_each(|&time| print!(" {} |", shown(time, 2)));
        times[2..].iter().enumerate().for_each(|(at, time)| print!(" {} |", shown(times[at % 2] / time, 2)));
        println!(" {} |", case.aim);
    }
    let columns: Vec<String> = kernels.iter().flat_map(|(name, _)| ["min", "median"].map(|which| format!("{name} {which}"))).collect();
    print_beside(&columns, &|case| times[case].clone());
    println!();
    println!("{rounds} rounds, the kernels in turn, after one round that does not count. Memory is cleared and its programs put in before each");
    println!("measurement, outside the time taken; within one it goes on from call to call. Result buffers are not cleared before a call. Ticks are");
    println!("those of Runs of 10,000 (interrupts: of 128, less a Run of 0 ticks), so they bear their share of the check that the record is sound.");
    println!("The record goes by value through the archive's C boundary, by reference to the tuned kernel.");
}

/// Of each case the minimum and the median of each kernel.
fn measured(kernels: &[Named], rounds: u32) -> BTreeMap<&'static str, Vec<f64>> {
    let mut times = vec![vec![Vec::new(); kernels.len()]; CASES.len()];
    for round in 0..=rounds {
        for (case, times) in CASES.iter().zip(&mut times) {
            for ((_, kernel), times) in kernels.iter().zip(times) {
                let time = (case.time)(*kernel, case.calls);
                // Round 0 warms up.
                if round > 0 {
                    times.push(time);
                }
            }
        }
    }
    let both = |times: &mut Vec<f64>| <[f64; 2]>::from(min_and_median(times));
    CASES.iter().zip(&mut times).map(|(case, times)| (case.name, times.iter_mut().flat_map(both).collect())).collect()
}
