//! The separation kernel's C boundary, as `include/separation_kernel.h` declares it: the types, the constants and the functions of `libboundary.a`, under
//! the header's names. What each function answers is said there. The crate `separation-kernel` has the same as safe Rust.
//!
//! The feature `link`, on unless switched off, declares the functions and links the archive; without it there are the types and constants alone.
//! The archive is looked for in the folder that the environment variable `SEPARATION_KERNEL_LIB_DIR` names, else in the repository's `target/staticlib`,
//! where `tools/build boundary` writes it.
//!
//! # Safety
//!
//! Each function answers for every text, record, memory, place and number, and a refused call changes no byte of memory. A pointer and its length must be
//! those of bytes that the caller may read (text), or read and write while nobody else touches them (memory); the functions without a pointer ask for nothing.
//! All need an archive whose types fit: its major version, `sk_version() / 65536`, is [`SK_VERSION_MAJOR`].

#![no_std]
#![deny(missing_docs)]
#![allow(non_camel_case_types)]

mod constants;
mod types;

pub use constants::*;
pub use types::*;

#[cfg(feature = "link")]
extern "C" {
    /// The archive's version: 65,536 times the major number, and the minor one.
    pub fn sk_version() -> u32;
    /// Reads a policy text.
    pub fn sk_read(text: *const u8, text_len: usize) -> sk_read_result;
    /// 1 if some accepted text gives this record, else 0.
    pub fn sk_sound(policy: sk_policy) -> u32;
    /// Clears the save segments, and gives the first place.
    pub fn sk_start(policy: sk_policy, memory: *mut u8, memory_len: usize) -> sk_run_result;
    /// Pends an interrupt line for a partition.
    pub fn sk_pend(policy: sk_policy, memory: *mut u8, memory_len: usize, partition: u32, line: u32) -> u32;
    /// Runs so many ticks from a place.
    pub fn sk_run(policy: sk_policy, memory: *mut u8, memory_len: usize, place: sk_place, ticks: u32) -> sk_run_result;
    /// Who can reach whom, for all segments.
    pub fn sk_reach(policy: sk_policy) -> sk_reach_result;
    /// Can one segment reach another?
    pub fn sk_can_reach(policy: sk_policy, from: u32, to: u32) -> sk_answer;
    /// Each partition's ticks in one round, and its longest silence.
    pub fn sk_sheet(policy: sk_policy) -> sk_sheet_result;
}
