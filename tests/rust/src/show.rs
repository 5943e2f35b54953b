//! Writes texts, memories and lists so that they can be typed in again.

use crate::generate::lists::{Call, List};
use crate::kernel::{Place, Policy, MEMORY};
use crate::reference::{print, sound};

/// A text with its tabs and other bytes written out.
pub fn text(bytes: &[u8]) -> String {
    let mut shown = format!("{} bytes:\n", bytes.len());
    for &byte in bytes {
        match byte {
            b'\n' => shown += "\\n\n",
            b'\t' => shown += "\\t",
            b' '..=b'~' => shown.push(byte as char),
            _ => shown += &format!("\\x{byte:02X}"),
        }
    }
    shown
}

pub fn policy(policy: &Policy) -> String {
    match print(policy) {
        Some(lines) if sound(policy) => text(lines.as_bytes()),
        _ => format!("not sound: {policy:?}"),
    }
}

/// The bytes that are not 0, sixteen to a line.
pub fn memory(bytes: &[u8]) -> String {
    let mut shown = String::new();
    for (row, sixteen) in bytes[..MEMORY.min(bytes.len())].chunks(16).enumerate() {
        if sixteen.iter().any(|&byte| byte != 0) {
            shown += &format!("{:5}:", 16 * row);
            for byte in sixteen {
                shown += &format!(" {byte:02X}");
            }
            shown.push('\n');
        }
    }
    shown
}

pub fn call(call: &Call) -> String {
    match call {
        Call::Start => "Start".to_string(),
        Call::Pend { partition, line } => format!("Pend partition {partition} line {line}"),
        Call::Run { ticks, from: None } => format!("Run {ticks} ticks"),
        Call::Run { ticks, from: Some(from) } => format!("Run {ticks} ticks from {}", place(*from)),
    }
}

pub fn place(place: Place) -> String {
    format!("slot {} used {} count {}", place.slot, place.used, place.count)
}

pub fn list(list: &List) -> String {
    let mut shown = format!("policy, {}", policy(&list.policies[0]));
    if list.steps.iter().any(|step| step.second) {
        shown += &format!("second record, {}", policy(&list.policies[1]));
    }
    shown += &format!("memory:\n{}place: {}\ncalls:\n", memory(&list.memory), place(list.place));
    for (at, step) in list.steps.iter().enumerate() {
        shown += &format!("{}. {}", at + 1, call(&step.call));
        if step.length != MEMORY {
            shown += &format!(", memory of {} bytes", step.length);
        }
        if step.second {
            shown += ", second record";
        }
        shown.push('\n');
    }
    shown
}
