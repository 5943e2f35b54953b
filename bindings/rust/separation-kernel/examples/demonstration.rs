//! Reads a policy (the demonstration, or the file named), asks who can reach each partition and how long it may be silent, puts a program of three
//! instructions into segment 0, starts, pends a line, runs, and prints what came of it.
//!
//!     cargo run --offline --example demonstration [FILE]

use separation_kernel::{check_version, Memory, Policy, MAX_RUN_TICKS, MEMORY_BYTES};
use std::error::Error;
use std::io::{self, Write};

const DEMONSTRATION: &[u8] = include_bytes!("../../../../policies/demonstration.policy");

/// r0 = 65; store it at offset r1 (0) of segment 4; halt.
const PROGRAM: [u8; 12] = [0x01, 0x00, 0x41, 0x00, 0x08, 0x00, 0x01, 0x04, 0x00, 0x00, 0x00, 0x00];

fn write_policy(out: &mut impl Write, policy: &Policy) -> io::Result<()> {
    let (reach, sheet) = (policy.reach(), policy.sheet());
    writeln!(out, "policy accepted: {} partitions, {} segments, {} slots", policy.partitions().len(), policy.segments().len(), policy.slots().len())?;
    for (p, partition) in (0..).zip(policy.partitions()) {
        writeln!(out, "partition {p}: may read {:?}, may write {:?}", partition.reads, partition.writes)?;
        if let (Some(sources), Some(share)) = (reach.sources(partition.save), sheet.share(p)) {
            writeln!(out, "partition {p}: reached from {sources:?}; {} ticks in one round, longest silence {}", share.ticks, share.silence)?;
        }
    }
    Ok(())
}

fn write_save(out: &mut impl Write, policy: &Policy, memory: &Memory, partition: u32) -> io::Result<()> {
    let Some(save) = policy.save_area(memory, partition) else { return Ok(()) };
    let (counter, pended, r0) = (save.counter(), save.pended(), save.registers()[0]);
    writeln!(out, "partition {partition}: counter {counter}, {}, pended lines {pended:#04x}, r0 {r0}", save.state())?;
    save.fault().map_or(Ok(()), |fault| writeln!(out, "partition {partition}: {fault}"))
}

fn run(out: &mut impl Write, policy: &Policy) -> Result<(), Box<dyn Error>> {
    let mut memory = [0; MEMORY_BYTES];
    if let Some(code) = policy.bytes_mut(&mut memory, 0) {
        let room = code.len().min(PROGRAM.len());
        code[..room].copy_from_slice(&PROGRAM[..room]);
    }
    let first = policy.start(&mut memory);
    policy.pend(&mut memory, 0, 2)?;
    let place = policy.run(&mut memory, first, 3)?;
    writeln!(out, "after 3 ticks: slot {}, used {}, count {}", place.slot(), place.used(), place.count())?;
    write_save(out, policy, &memory, 0)?;
    if let Some(bytes) = policy.bytes(&memory, 4) {
        writeln!(out, "first byte of segment 4: {}", bytes[0])?;
    }
    if let Err(refusal) = policy.run(&mut memory, place, MAX_RUN_TICKS + 1) {
        writeln!(out, "a Run of {} ticks: {refusal}", MAX_RUN_TICKS + 1)?;
    }
    let place = policy.run(&mut memory, place, MAX_RUN_TICKS)?;
    writeln!(out, "after {MAX_RUN_TICKS} more: slot {}, used {}, count {}", place.slot(), place.used(), place.count())?;
    Ok(())
}

/// All of it on one text.
pub fn demonstrate(out: &mut impl Write, text: &[u8]) -> Result<(), Box<dyn Error>> {
    writeln!(out, "kernel version {}", check_version()?)?;
    let policy = Policy::read(text)?;
    write_policy(out, &policy)?;
    run(out, &policy)
}

/// Ends with 0, or with 1 and a line that says why: the policy is refused, or a file can't be read.
#[allow(dead_code)]
fn main() -> std::process::ExitCode {
    let text = std::env::args_os().nth(1).map_or(Ok(DEMONSTRATION.to_vec()), std::fs::read);
    match text.map_err(Box::from).and_then(|text| demonstrate(&mut io::stdout(), &text)) {
        Ok(()) => std::process::ExitCode::SUCCESS,
        Err(why) => {
            eprintln!("{why}");
            std::process::ExitCode::FAILURE
        }
    }
}
