//! Random policies, graphs of flows, schedules, texts, records, programs, memories, call lists and arguments. The same seed gives the same ones.

pub mod arguments;
mod flows;
pub mod graphs;
pub mod lists;
pub mod memories;
pub mod mutations;
pub mod numbers;
pub mod policies;
pub mod programs;
pub mod records;
pub mod schedules;
pub mod texts;
pub mod workloads;
