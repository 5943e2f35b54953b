//! A separation kernel that is proved correct down to the code, for programs in Rust.
//!
//! It keeps the programs of one controller apart: each runs in a partition, and a policy text says which memory segments a partition may read or write. This
//! crate is a thin, safe layer above the kernel's C boundary (`include/separation_kernel.h`): it reads a policy, starts, pends interrupt lines and runs ticks.
//! What the kernel does is said in the repository's `docs/POLICY.md` (policies) and `docs/PROGRAMMING.md` (the machine that the partitions' programs run on).
//!
//! The proof is that of the kernel. This layer is tested, and it does nothing but call it and look at the answers: a [`Policy`] holds a record that the kernel
//! found sound and a [`Memory`] has the right length, so the refusals 9 and 10 do not arise in the calls.
//!
//! ```
//! use separation_kernel::{Policy, Refusal, State, MEMORY_BYTES};
//!
//! # fn main() -> Result<(), Refusal> {
//! // Two partitions, each with a code and a save segment; segment 4 is written by the first and read by the second.
//! let text = "segment\t0\t0\t64\nsegment\t1\t64\t44\nsegment\t2\t128\t64\nsegment\t3\t192\t44\nsegment\t4\t256\t16\n\
//!     partition\t0\t0\t1\npartition\t1\t2\t3\n\
//!     right\t0\t0\tr\nright\t0\t4\tw\nright\t1\t2\tr\nright\t1\t4\tr\n\
//!     flow\t0\t1\nflow\t0\t4\nflow\t1\t4\nflow\t2\t3\nflow\t4\t3\n\
//!     slot\t0\t3\nslot\t1\t2\n";
//! let policy = Policy::read(text.as_bytes())?;
//!
//! // r0 = 65; store it at offset r1 (0) of segment 4; halt.
//! let mut memory = [0; MEMORY_BYTES];
//! let code = policy.bytes_mut(&mut memory, 0).expect("segment 0 is there");
//! code[..12].copy_from_slice(&[1, 0, 65, 0, 8, 0, 1, 4, 0, 0, 0, 0]);
//!
//! let first = policy.start(&mut memory);
//! let place = policy.run(&mut memory, first, 3)?;
//! assert_eq!((place.slot(), place.used(), place.count()), (1, 0, 3));
//! assert_eq!(policy.bytes(&memory, 4).expect("segment 4 is there")[0], 65);
//! assert_eq!(policy.save_area(&memory, 0).expect("partition 0 is there").state(), State::Halted);
//!
//! // A Run of more than 10,000 ticks is refused, and memory stays as it is.
//! assert_eq!(policy.run(&mut memory, place, 10_001), Err(Refusal::TooManyTicks));
//! # Ok(())
//! # }
//! ```
//!
//! # Calls at one time
//!
//! The kernel has no state of its own: a call reads and writes its arguments, its answer and its stack, and nothing else. Rust's rules on `&mut Memory` are all
//! that is needed. A line is pended between two Runs: an interrupt handler sets a flag, and the loop that runs the kernel pends.
//!
//! # The archive
//!
//! `tools/build boundary` writes `target/staticlib/libboundary.a`, which is linked. To link one in another folder, name the folder in the environment
//! variable `SEPARATION_KERNEL_LIB_DIR`. [`check_version`] compares its version with this crate's.

#![no_std]
#![deny(missing_docs, unsafe_op_in_unsafe_fn, clippy::undocumented_unsafe_blocks)]

mod answers;
mod parts;
mod place;
mod policy;
mod refusal;
mod save;
mod version;

pub use answers::{Reach, Share, Sheet};
pub use parts::{Partition, Segment, Segments, SegmentsIter, Slot};
pub use place::Place;
pub use policy::Policy;
pub use refusal::Refusal;
pub use save::{Fault, SaveArea, State};
pub use version::{check_version, Version, WrongVersion};

/// The boundary itself, for those who need more than this crate offers.
pub use separation_kernel_sys as sys;

/// The policy record, as the boundary has it: all fields are open, and it may or may not be sound.
pub use separation_kernel_sys::sk_policy as Record;

/// The bytes of memory.
pub const MEMORY_BYTES: usize = sys::SK_MEMORY_BYTES;

/// The most bytes of a policy text.
pub const TEXT_BYTES: usize = sys::SK_TEXT_BYTES;

/// The most ticks of one [`Policy::run`].
pub const MAX_RUN_TICKS: u32 = sys::SK_MAX_RUN_TICKS;

/// Each partition's interrupt lines: they are numbered from 0 to this less 1.
pub const LINES: u32 = sys::SK_LINES;

/// All memory that the partitions have: their segments lie in it. The bytes may have all values.
pub type Memory = [u8; MEMORY_BYTES];

/// The example in README.md compiles.
#[cfg(doctest)]
#[doc = include_str!("../../README.md")]
struct Readme;
