//! Instructions of one call, or of one tick, by callgrind: what more calls of the same program take, divided by them. So a caller's copy of the record is
//! counted, and what is done once is not.

use crate::cases::{CASES, INTERRUPTS};
use crate::{print_beside, shown};
use std::collections::BTreeMap;
use std::process::Command;

/// The exit code of this program where a kernel's calls of a case say nothing.
pub const SAYS_NOTHING: i32 = 3;

/// The table of instructions of each kernel.
pub fn table(kernels: &[&str]) {
    println!("| what | {} |", kernels.join(" | "));
    println!("|---|{}", "---:|".repeat(kernels.len()));
    let mut counts = BTreeMap::new();
    for (at, case) in CASES.iter().enumerate().filter(|(_, case)| case.name != INTERRUPTS) {
        let one = |kernel| (collected(at, kernel, 1 + case.calls) - collected(at, kernel, 1)) / f64::from(case.calls * case.parts);
        let row: Vec<f64> = (0..kernels.len()).map(one).collect();
        print!("| {} |", case.name);
        row.iter().for_each(|&one| print!(" {} |", shown(one, if case.parts == 1 { 0 } else { 1 })));
        println!();
        counts.insert(case.name, row);
    }
    print_beside(&kernels.iter().map(|kernel| kernel.to_string()).collect::<Vec<_>>(), &|case| counts[case].clone());
}

/// The instructions of this program when it does nothing but so many calls of a case.
fn collected(case: usize, kernel: usize, calls: u32) -> f64 {
    let program = std::env::current_exe().expect("this program has a path");
    let mut valgrind = Command::new("valgrind");
    valgrind.args(["--tool=callgrind", "--callgrind-out-file=/dev/null"]).arg(program).arg("--once");
    let output = valgrind.args([case as u32, kernel as u32, calls].map(|number| number.to_string())).output().expect("valgrind starts");
    if output.status.code() == Some(SAYS_NOTHING) {
        return f64::NAN;
    }
    let said = String::from_utf8_lossy(&output.stderr);
    let count = said.lines().find_map(|line| line.split("Collected : ").nth(1)?.trim().parse().ok());
    count.unwrap_or_else(|| panic!("valgrind said no number:\n{said}"))
}
