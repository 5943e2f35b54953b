//! The layout of each struct as the Rust compiler has it.

use separation_kernel_sys::*;
use std::mem::{align_of, offset_of, size_of};

/// A field: its name, where it begins and its bytes.
pub type Field = (String, usize, usize);

#[derive(PartialEq, Eq, Debug)]
pub struct Layout {
    pub name: String,
    pub size: usize,
    pub align: usize,
    pub fields: Vec<Field>,
}

fn bytes_of<T, F>(_: fn(&T) -> &F) -> usize {
    size_of::<F>()
}

macro_rules! layout {
    ($type:ident: $($field:ident)+) => {
        Layout {
            name: stringify!($type).to_string(),
            size: size_of::<$type>(),
            align: align_of::<$type>(),
            fields: vec![$((stringify!($field).to_string(), offset_of!($type, $field), bytes_of(|it: &$type| &it.$field))),+],
        }
    };
}

/// All structs, in the header's order.
pub fn layouts() -> Vec<Layout> {
    vec![
        layout!(sk_policy: segments partitions slots unused base size code save slot_partition slot_ticks reads writes sources),
        layout!(sk_place: slot used count),
        layout!(sk_read_result: number line policy),
        layout!(sk_run_result: number place),
        layout!(sk_reach_result: number sources),
        layout!(sk_answer: number yes),
        layout!(sk_sheet_result: number ticks silence),
    ]
}
