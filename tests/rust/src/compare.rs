//! Holds a kernel to the reference, and counts what the generated inputs have reached.

mod reach;
mod sheet;

pub use reach::{reach_difference, Wanted, PAST, REACH_CASES};
pub use sheet::{broken_law, moves_too_far, sheet_difference, WantedSheet, SHEET_CASES};

use crate::generate::lists::{Call, List, Step};
use crate::kernel::{Kernel, Place, Policy, RecordExt, MEMORY};
use crate::reference::bytes::{self, Bytes};
use crate::reference::{asked, judge, judge_without_16, print, read, run_watched, sound, Event, Reference, OPCODES};
use std::collections::BTreeMap;

/// How a kernel differs from the reference on a text, if it does.
pub fn text_difference(kernel: &dyn Kernel, text: &[u8]) -> Option<String> {
    let (want, got) = (read(text), kernel.read(text));
    if (want.number, want.line) != (got.number, got.line) {
        return Some(format!("reference: number {} line {}, {}: number {} line {}", want.number, want.line, kernel.name(), got.number, got.line));
    }
    // All bytes, as memcmp has them; an accepted text's record stands for what document 01's does, a refused one's for nothing.
    if want.policy.bytes() != got.policy.bytes() {
        return Some(format!("the record differs:\nreference: {:?}\n{}: {:?}", want.policy, kernel.name(), got.policy));
    }
    bytes::read(text).2.difference(&got.policy).map(|difference| format!("{}, record of bytes: {difference}", kernel.name()))
}

/// How a kernel differs from the reference on a record, if it does.
pub fn record_difference(kernel: &dyn Kernel, policy: &Policy) -> Option<String> {
    let (want, got) = (sound(policy) as u32, kernel.sound(policy));
    (want != got).then(|| format!("sound: reference {want}, {} {got}", kernel.name()))
}

/// The definition itself, "some accepted text gives it": if any does, the one with decimal numbers does.
pub fn text_gives(policy: &Policy) -> bool {
    print(policy).is_some_and(|text| judge(text.as_bytes()).is_ok_and(|lines| lines.record() == *policy))
}

/// The same by the rules before change request S-5.
pub fn text_gave(policy: &Policy) -> bool {
    print(policy).is_some_and(|text| judge_without_16(text.as_bytes()).is_ok_and(|lines| lines.record() == *policy))
}

/// A flow that rule 8 doesn't ask for.
fn has_free_flow(policy: &Policy) -> bool {
    (0..32).any(|to| (0..32).any(|from| policy.flow(from, to) && !asked(policy, from, to)))
}

/// The record of bytes that stands for the same is sound; a record whose unused byte is not 0 stands for none.
pub fn bytes_sound(policy: &Policy) -> bool {
    policy.unused == 0 && Bytes::of_masks(policy).sound()
}

/// What a call answers: a number, and the place that the next Run gets.
#[derive(Clone, Copy, PartialEq, Eq, Debug)]
pub struct Answer {
    pub number: u32,
    pub place: Place,
}

/// One call on the first bytes of a memory.
pub fn perform(kernel: &dyn Kernel, policy: &Policy, memory: &mut [u8], place: Place, call: Call) -> Answer {
    match call {
        Call::Start => {
            let result = kernel.start(policy, memory);
            Answer { number: result.number, place: result.place }
        }
        Call::Pend { partition, line } => Answer { number: kernel.pend(policy, memory, partition, line), place },
        Call::Run { ticks, from } => {
            let result = kernel.run(policy, memory, from.unwrap_or(place), ticks);
            Answer { number: result.number, place: result.place }
        }
    }
}

fn record_of<'l>(list: &'l List, step: &Step) -> &'l Policy {
    &list.policies[step.second as usize]
}

/// How a kernel differs from the reference on a list of calls, if it does: the answers and the whole memory after each call.
pub fn list_difference(kernel: &dyn Kernel, list: &List) -> Option<String> {
    let (mut wanted, mut gotten) = (list.memory.clone(), list.memory.clone());
    let mut place = list.place;
    for (at, step) in list.steps.iter().enumerate() {
        let policy = record_of(list, step);
        let want = perform(&Reference, policy, &mut wanted[..step.length], place, step.call);
        let got = perform(kernel, policy, &mut gotten[..step.length], place, step.call);
        let say = |what: String| Some(format!("call {}, {:?}: {what}", at + 1, step.call));
        if want != got {
            return say(format!("reference {want:?}, {} {got:?}", kernel.name()));
        }
        if wanted != gotten {
            let byte = (0..wanted.len()).find(|&byte| wanted[byte] != gotten[byte]).unwrap();
            return say(format!("byte {byte}: reference {}, {} {}", wanted[byte], kernel.name(), gotten[byte]));
        }
        place = want.place;
    }
    None
}

/// In which forms the numbers of a text are written.
fn forms(text: &[u8]) -> &'static str {
    let (mut decimal, mut hexadecimal) = (false, false);
    for field in text.split(|byte| matches!(byte, b'\t' | b'\n')).filter(|field| field.first().is_some_and(u8::is_ascii_digit)) {
        if field.starts_with(b"0x") {
            hexadecimal = true;
        } else {
            decimal = true;
        }
    }
    match (decimal, hexadecimal) {
        (true, true) => "in both forms",
        (false, true) => "in hexadecimal",
        _ => "in decimal",
    }
}

/// How often each case came up.
#[derive(Default)]
pub struct Reached(pub BTreeMap<String, u64>);

impl Reached {
    pub fn count(&mut self, case: &str) {
        if let Some(count) = self.0.get_mut(case) {
            *count += 1;
        } else {
            self.0.insert(case.to_string(), 1);
        }
    }

    pub fn text(&mut self, text: &[u8]) {
        match judge(text) {
            Ok(lines) => {
                self.count(&format!("accepted, {}", forms(text)));
                if has_free_flow(&lines.record()) {
                    self.count("accepted with a flow more");
                }
            }
            Err(refusal) => {
                self.count(refusal.why);
                for later in refusal.also {
                    self.count(&format!("{} and {later} {}", refusal.number, if refusal.line > 0 { "on one line" } else { "in one text" }));
                }
                if let 3..=5 = refusal.number {
                    let line = text.split(|&byte| byte == b'\n').nth(refusal.line as usize - 1).unwrap_or_default();
                    self.count(&format!("{} on a line {}", refusal.number, forms(line)));
                }
            }
        }
    }

    pub fn record(&mut self, policy: &Policy) {
        self.count(match () {
            _ if sound(policy) && has_free_flow(policy) => "sound with a flow more",
            _ if sound(policy) => "sound",
            _ if text_gave(policy) => "not sound by 16",
            _ => "not sound",
        });
    }

    pub fn list(&mut self, list: &List) {
        let mut memory = list.memory.clone();
        let mut place = list.place;
        for step in &list.steps {
            let policy = record_of(list, step);
            let bytes = &mut memory[..step.length];
            let (name, number) = match step.call {
                Call::Run { ticks, from } => {
                    let from = from.unwrap_or(place);
                    let result = run_watched(policy, bytes, from, ticks, &mut |event| self.event(event, from));
                    place = result.place;
                    if result.number == 0 && (ticks == 0 || ticks == 10_000) {
                        self.count(&format!("Run of {ticks} ticks"));
                    }
                    ("Run", result.number)
                }
                call => {
                    let answer = perform(&Reference, policy, bytes, place, call);
                    if call == Call::Start && place.count > 0 {
                        self.count(if answer.number == 0 { "Start at a count" } else { "Start refused at a count" });
                    }
                    place = answer.place;
                    (if call == Call::Start { "Start" } else { "Pend" }, answer.number)
                }
            };
            let by_16 = if number == 10 && text_gave(policy) { " by 16" } else { "" };
            self.count(&format!("{name} {number}{by_16}"));
            if step.length != MEMORY && step.second {
                self.count("9 before 10");
            }
        }
    }

    /// An event of a Run from a place.
    fn event(&mut self, event: Event, from: Place) {
        match event {
            Event::Interrupt { line, waiting } => {
                self.count(LINES[line as usize]);
                self.count(if waiting { "interrupt while waiting" } else { "interrupt while ready" });
            }
            Event::Ran { opcode } => self.count(NAMES[opcode as usize]),
            Event::Counted { count, in_handler } => {
                self.count("count");
                let cases = [
                    (count == 0, "count at 0"),
                    (count == u32::MAX, "count at 4,294,967,295"),
                    (count < from.count, "count that came round within a Run"),
                    (in_handler, "count in a handler"),
                ];
                cases.iter().filter(|(held, _)| *held).for_each(|(_, case)| self.count(case));
            }
            Event::Fault { why, .. } => self.count(&format!("fault {why}")),
            Event::Idle { why } => self.count(why),
        }
    }

    /// The cases of a list that never came up.
    pub fn missing(&self, wanted: &[&'static str]) -> Vec<&'static str> {
        wanted.iter().copied().filter(|case| !self.0.contains_key(*case)).collect()
    }
}

const LINES: [&str; 8] =
    ["line 0 taken", "line 1 taken", "line 2 taken", "line 3 taken", "line 4 taken", "line 5 taken", "line 6 taken", "line 7 taken"];
/// Opcode 15 has an event of its own.
const NAMES: [&str; OPCODES as usize - 1] =
    ["halt", "set", "add", "sub", "and", "xor", "shift", "load", "store", "jump", "wait", "listen", "back", "load word", "store word"];

/// Every reason of a refused text, and every outcome of a record.
pub const TEXT_CASES: [&str; 76] = [
    "accepted, in decimal",
    "accepted, in both forms",
    "accepted, in hexadecimal",
    "accepted with a flow more",
    "1 over 16,384 bytes",
    "2 no line end",
    "2 unknown word",
    "2 wrong fields",
    "2 bad number: digits",
    "2 bad number: not a digit",
    "2 bad number: leading zero",
    "2 bad number: capital X",
    "2 bad hexadecimal number: no digit",
    "2 bad hexadecimal number: over four digits",
    "2 bad hexadecimal number: capital",
    "2 bad hexadecimal number: leading zero",
    "2 bad hexadecimal number: not a digit",
    "2 bad letters",
    "3 kind out of order",
    "3 segment id out of order",
    "3 partition id out of order",
    "3 right pair out of order",
    "3 flow pair out of order",
    "4 more than 32 segments",
    "4 length 0",
    "4 length over 4,096",
    "4 base + length over 16,384",
    "4 more than 8 partitions",
    "4 code segment not there",
    "4 save segment not there",
    "4 partition of a right not there",
    "4 segment of a right not there",
    "4 from of a flow not there",
    "4 to of a flow not there",
    "4 more than 32 slots",
    "4 ticks 0",
    "4 ticks over 1,000",
    "4 partition of a slot not there",
    "5 overlap",
    "5 save length not 44",
    "5 save of two partitions",
    "5 code and save of the same",
    "5 save is the code of another",
    "5 code is the save of another",
    "5 right on a save segment",
    "5 flow to itself",
    "6 no segment",
    "6 no partition",
    "6 no slot",
    "7 no r on the code segment",
    "8 flow missing",
    "16 for a partition without a slot",
    "16 from another's code segment",
    "16 from another's save segment",
    "16 from a segment with w alone",
    "16 from a segment that another reads",
    "16 from a segment that nobody reads",
    "3 and 4 on one line",
    "3 and 5 on one line",
    "4 and 5 on one line",
    "6 and 16 in one text",
    "7 and 16 in one text",
    "8 and 16 in one text",
    "3 on a line in decimal",
    "3 on a line in both forms",
    "3 on a line in hexadecimal",
    "4 on a line in decimal",
    "4 on a line in both forms",
    "4 on a line in hexadecimal",
    "5 on a line in decimal",
    "5 on a line in both forms",
    "5 on a line in hexadecimal",
    "sound",
    "sound with a flow more",
    "not sound",
    "not sound by 16",
];

/// Every outcome of a call and of a tick.
pub const LIST_CASES: [&str; 79] = [
    "Start 0",
    "Start 9",
    "Start 10",
    "Start 10 by 16",
    "Pend 0",
    "Pend 9",
    "Pend 10",
    "Pend 10 by 16",
    "Pend 11",
    "Pend 12",
    "Run 0",
    "Run 9",
    "Run 10",
    "Run 10 by 16",
    "Run 13",
    "Run 14",
    "Run of 0 ticks",
    "Run of 10000 ticks",
    "9 before 10",
    "line 0 taken",
    "line 1 taken",
    "line 2 taken",
    "line 3 taken",
    "line 4 taken",
    "line 5 taken",
    "line 6 taken",
    "line 7 taken",
    "interrupt while waiting",
    "interrupt while ready",
    "halt",
    "set",
    "add",
    "sub",
    "and",
    "xor",
    "shift",
    "load",
    "store",
    "jump",
    "wait",
    "listen",
    "back",
    "load word",
    "store word",
    "count",
    "count at 0",
    "count at 4,294,967,295",
    "count in a handler",
    "count that came round within a Run",
    "Start at a count",
    "Start refused at a count",
    "fault 1 counter past the code",
    "fault 1 counter near the code's end",
    "fault 2 bad opcode",
    "fault 2 bad register",
    "fault 5 wait inside a handler",
    "fault 5 back outside a handler",
    "fault 3 segment not there",
    "fault 3 load without a right",
    "fault 3 load with w alone",
    "fault 3 store without a right",
    "fault 3 store with r alone",
    "fault 3 segment of a word not there",
    "fault 3 load word without a right",
    "fault 3 load word with w alone",
    "fault 3 store word without a right",
    "fault 3 store word with r alone",
    "fault 4 offset at the length",
    "fault 4 offset past the length",
    "fault 4 word over the segment's end",
    "fault 4 word past the segment's end",
    "fault 4 word in a segment below four bytes",
    "fault 4 word that would come round",
    "idle halted",
    "idle faulted",
    "idle waiting",
    "idle waiting in a handler",
    "idle waiting in a handler, a line pended",
    "idle state above 3",
];
