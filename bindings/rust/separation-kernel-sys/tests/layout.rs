//! The structs have the sizes and offsets that the archive was compiled with.

mod shared;

use shared::layouts;

/// Name, size and alignment; then of each field where it begins and its bytes.
type Wanted = (&'static str, usize, usize, &'static [(&'static str, usize, usize)]);

const WANTED: [Wanted; 7] = [
    (
        "sk_policy",
        436,
        4,
        &[
            ("segments", 0, 1),
            ("partitions", 1, 1),
            ("slots", 2, 1),
            ("unused", 3, 1),
            ("base", 4, 64),
            ("size", 68, 64),
            ("code", 132, 8),
            ("save", 140, 8),
            ("slot_partition", 148, 32),
            ("slot_ticks", 180, 64),
            ("reads", 244, 32),
            ("writes", 276, 32),
            ("sources", 308, 128),
        ],
    ),
    ("sk_place", 12, 4, &[("slot", 0, 4), ("used", 4, 4), ("count", 8, 4)]),
    ("sk_read_result", 444, 4, &[("number", 0, 4), ("line", 4, 4), ("policy", 8, 436)]),
    ("sk_run_result", 16, 4, &[("number", 0, 4), ("place", 4, 12)]),
    ("sk_reach_result", 132, 4, &[("number", 0, 4), ("sources", 4, 128)]),
    ("sk_answer", 8, 4, &[("number", 0, 4), ("yes", 4, 4)]),
    ("sk_sheet_result", 68, 4, &[("number", 0, 4), ("ticks", 4, 32), ("silence", 36, 32)]),
];

#[test]
fn each_struct_and_each_field_is_where_c_has_it() {
    let layouts = layouts();
    assert_eq!(layouts.len(), WANTED.len());
    for (layout, (name, size, align, fields)) in layouts.iter().zip(WANTED) {
        assert_eq!((layout.name.as_str(), layout.size, layout.align), (name, size, align));
        let found: Vec<_> = layout.fields.iter().map(|(name, at, bytes)| (name.as_str(), *at, *bytes)).collect();
        assert_eq!(found, fields, "{name}");
    }
}

#[test]
fn no_struct_has_a_hole() {
    for layout in layouts() {
        let end = layout.fields.iter().fold(0, |end, (field, at, bytes)| {
            assert_eq!(*at, end, "{} {field}", layout.name);
            end + bytes
        });
        assert_eq!(end, layout.size, "{}", layout.name);
    }
}
