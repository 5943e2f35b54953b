//! The crate says what include/separation_kernel.h says: its numbers, structs and functions are read from it and compared.

mod parse;
mod shared;

use parse::{functions, numbers, structs, texts, HEADER};
use separation_kernel_sys::*;
use std::collections::BTreeMap;

macro_rules! named {
    ($($name:ident)+) => {
        BTreeMap::from([$((stringify!($name).to_string(), $name as u64)),+])
    };
}

/// The numbers of this crate.
fn ours() -> BTreeMap<String, u64> {
    named! {
        SK_VERSION_MAJOR SK_VERSION_MINOR SK_VERSION
        SK_MEMORY_BYTES SK_TEXT_BYTES SK_MAX_SEGMENTS SK_MAX_SEGMENT_BYTES SK_MAX_PARTITIONS SK_MAX_SLOTS SK_MAX_SLOT_TICKS SK_MAX_RUN_TICKS SK_LINES
        SK_REGISTERS SK_SAVE_BYTES SK_SAVE_REGISTERS SK_SAVE_COUNTER SK_SAVE_STATE SK_SAVE_FAULT SK_SAVE_PENDED SK_SAVE_ENABLED SK_SAVE_RETURN
        SK_SAVE_HANDLER SK_SAVE_IN_HANDLER SK_SAVE_UNUSED
        SK_DONE SK_TEXT_TOO_LONG SK_BAD_LINE SK_OUT_OF_ORDER SK_OUT_OF_RANGE SK_CLASH SK_EMPTY SK_CODE_NOT_READ SK_FLOW_MISSING SK_MEMORY_LENGTH
        SK_RECORD SK_NO_PARTITION SK_NO_LINE SK_PLACE SK_TOO_MANY_TICKS SK_NO_SEGMENT SK_STRAY_SOURCE
        SK_STATE_READY SK_STATE_HALTED SK_STATE_FAULTED SK_STATE_WAITING
        SK_FAULT_NONE SK_FAULT_COUNTER SK_FAULT_OPCODE SK_FAULT_RIGHT SK_FAULT_OFFSET SK_FAULT_HANDLER
    }
}

/// Of the header's numbers all but the stack's bounds, which belong to one archive and stand there alone.
#[test]
fn numbers_are_the_headers() {
    let mut theirs = numbers(HEADER);
    theirs.retain(|name, _| !name.starts_with("SK_STACK_"));
    assert_eq!(ours(), theirs);
}

#[test]
fn the_version_in_words_is_that_in_numbers() {
    assert_eq!(texts(HEADER), BTreeMap::from([("SK_VERSION_TEXT".to_string(), format!("{SK_VERSION_MAJOR}.{SK_VERSION_MINOR}"))]));
    let crates = env!("CARGO_PKG_VERSION").rsplit_once('.').expect("a version has two dots").0;
    assert_eq!(crates, format!("{SK_VERSION_MAJOR}.{SK_VERSION_MINOR}"));
}

#[test]
fn structs_are_laid_out_as_the_header_declares_them() {
    assert_eq!(shared::layouts(), structs(HEADER));
}

#[test]
fn functions_are_the_headers() {
    let declared = parse::declared(include_str!("../src/lib.rs"));
    assert_eq!(declared.len(), 9);
    assert_eq!(declared, functions(HEADER));
}
