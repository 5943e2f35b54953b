//! What the programs policycheck, policyreach and policysheet write.

use super::line::number;
use super::reach::{can_reach, reach};
use super::reader::read;
use super::record::{readable, writable};
use super::sheet::sheet;
use crate::kernel::{has, Policy};

/// "A refused text gives one line: refused, number, line."
fn refused(number: u32, line: u32) -> String {
    format!("refused\t{number}\t{line}\n")
}

/// The record of a text, or the line of a refused one.
fn accepted(text: &[u8]) -> Result<Policy, String> {
    let answer = read(text);
    if answer.number != 0 {
        return Err(refused(answer.number, answer.line));
    }
    Ok(answer.policy)
}

fn round_ticks(policy: &Policy) -> u32 {
    policy.slot_ticks[..policy.slots as usize].iter().map(|&ticks| u32::from(ticks)).sum()
}

/// "First line: partitions, segments, slots, ticks in one round. Then id, and the masks of partitions p with the segment in R(p) and in W(p), bit p
/// worth 2 to the power p. A refused text gives one line: refused, number, line."
pub fn report(text: &[u8]) -> String {
    let policy = match accepted(text) {
        Ok(policy) => policy,
        Err(line) => return line,
    };
    let ticks = round_ticks(&policy);
    let mut report = format!("accepted\t{}\t{}\t{}\t{ticks}\n", policy.partitions, policy.segments, policy.slots);
    for segment in 0..policy.segments as usize {
        let mask = |has: fn(&Policy, usize, usize) -> bool| -> u32 {
            (0..policy.partitions as usize).filter(|&p| has(&policy, p, segment)).map(|p| 1 << p).sum()
        };
        report += &format!("segment\t{segment}\t{}\t{}\n", mask(readable), mask(writable));
    }
    report
}

pub const USAGE: &str = "usage: policyreach [FROM TO] < POLICY\n";

/// Without arguments the report of change request S-1; with two numbers, written as in a policy text, the question's answer; with others how to call it.
pub fn policyreach(arguments: &[Vec<u8>], text: &[u8]) -> String {
    let numbers: Vec<Option<u32>> = arguments.iter().map(|argument| number(argument).ok()).collect();
    let line = match numbers[..] {
        [] => accepted(text).map(|policy| rows(&policy)),
        [Some(from), Some(to)] => accepted(text).map(|policy| question(&policy, from, to)),
        _ => Ok(USAGE.to_string()),
    };
    line.unwrap_or_else(|refused| refused)
}

fn rows(policy: &Policy) -> String {
    let result = reach(policy);
    let mut report = String::new();
    for t in 0..policy.segments as usize {
        report += &format!("segment\t{t}");
        (0..32).filter(|&s| has(result.sources[t], s)).for_each(|s| report += &format!("\t{s}"));
        report.push('\n');
    }
    report
}

fn question(policy: &Policy, from: u32, to: u32) -> String {
    let answer = can_reach(policy, from, to);
    match answer.number {
        0 => format!("reach\t{from}\t{to}\t{}\n", ["no", "yes"][answer.yes as usize]),
        number => refused(number, 0),
    }
}

/// Change request S-7: of each partition its number, its ticks and its longest silence; then the ticks of one round.
pub fn policysheet(text: &[u8]) -> String {
    let policy = match accepted(text) {
        Ok(policy) => policy,
        Err(line) => return line,
    };
    let result = sheet(&policy);
    let row = |p: usize| format!("partition\t{p}\t{}\t{}\n", result.ticks[p], result.silence[p]);
    let rows: String = (0..policy.partitions as usize).map(row).collect();
    format!("{rows}round\t{}\n", round_ticks(&policy))
}
