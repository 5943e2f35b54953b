//! The example writes what is stored beside it.

#[path = "../examples/demonstration.rs"]
mod demonstration;

#[test]
fn the_example_writes_what_is_stored() {
    let mut wrote = Vec::new();
    demonstration::demonstrate(&mut wrote, include_bytes!("../../../../policies/demonstration.policy")).expect("the demonstration is accepted");
    assert_eq!(String::from_utf8_lossy(&wrote), include_str!("../examples/demonstration.stdout"));
}

#[test]
fn a_refused_policy_is_told() {
    let mut wrote = Vec::new();
    let why = demonstration::demonstrate(&mut wrote, b"segment\t0\t0\t0\n").expect_err("a segment has a byte at least");
    assert!(why.to_string().starts_with("refused by 4, line 1: "), "{why}");
}
