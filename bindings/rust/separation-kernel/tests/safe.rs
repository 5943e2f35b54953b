//! The safe crate says what the boundary says.

use separation_kernel::sys::{sk_place, SK_VERSION};
use separation_kernel::{check_version, Fault, Memory, Place, Policy, Record, Refusal, Segments, Share, State, Version, MEMORY_BYTES, TEXT_BYTES};

const DEMONSTRATION: &str = include_str!("../../../../policies/demonstration.policy");

fn demonstration() -> Policy {
    Policy::read(DEMONSTRATION.as_bytes()).expect("the demonstration is accepted")
}

/// The demonstration with these instructions in partition 0's code segment, started.
fn with_program(program: &[[u8; 4]]) -> (Policy, Box<Memory>) {
    let (policy, mut memory) = (demonstration(), Box::new([0; MEMORY_BYTES]));
    let code = policy.bytes_mut(&mut memory, 0).expect("segment 0 is there");
    program.iter().zip(code.chunks_mut(4)).for_each(|(instruction, bytes)| bytes.copy_from_slice(instruction));
    assert_eq!(policy.start(&mut memory), Place::FIRST);
    (policy, memory)
}

#[test]
fn the_archive_is_of_the_crates_version() {
    assert_eq!(check_version(), Ok(Version::OF_CRATE));
    assert_eq!(Version::of_archive().major() * 65_536 + Version::of_archive().minor(), SK_VERSION);
    assert_eq!(Version::OF_CRATE.to_string(), "3.1");
}

/// Changes of the demonstration's text, and what Read says of each.
#[test]
fn each_refusal_of_a_text_has_its_number_and_line() {
    let flows = "flow\t0\t1\n";
    for (from, to, wanted, number, line) in [
        ("slot\t1\t2\n", "slot\t1\t2", Refusal::BadLine { line: 18 }, 2, Some(18)),
        ("segment\t0", "segment\t1", Refusal::OutOfOrder { line: 1 }, 3, Some(1)),
        ("slot\t0\t3", "slot\t0\t0", Refusal::OutOfRange { line: 17 }, 4, Some(17)),
        ("segment\t1\t64", "segment\t1\t63", Refusal::Clash { line: 2 }, 5, Some(2)),
        (DEMONSTRATION, "", Refusal::Empty, 6, None),
        ("right\t0\t0\tr\n", "", Refusal::CodeNotRead, 7, None),
        ("flow\t1\t4\n", "", Refusal::FlowMissing, 8, None),
        (flows, "flow\t0\t1\nflow\t0\t3\n", Refusal::StraySource, 16, None),
    ] {
        let text = DEMONSTRATION.replacen(from, to, 1);
        assert_ne!(text, DEMONSTRATION);
        let refusal = Policy::read(text.as_bytes()).expect_err("the text is refused");
        assert_eq!((refusal, refusal.number(), refusal.line()), (wanted, number, line));
    }
    let long = vec![b'\n'; TEXT_BYTES + 1];
    assert_eq!(Policy::read(&long).map_err(Refusal::number), Err(1));
    assert_eq!(Policy::read(&long[1..]), Err(Refusal::BadLine { line: 1 }));
}

#[test]
fn a_refusal_says_number_line_and_words() {
    let bad = Policy::read(b"segment\n").unwrap_err();
    assert!(bad.to_string().starts_with("refused by 2, line 1: not the form of a line"), "{bad}");
    assert_eq!(Refusal::NoPartition.to_string(), "refused by 11: no such partition");
    let _: &dyn std::error::Error = &bad;
}

#[test]
fn a_record_is_a_policy_just_if_it_is_sound() {
    let policy = demonstration();
    assert_eq!(Policy::from_record(*policy.record()), Ok(policy));
    assert_eq!(Policy::from_record(Record::ZERO), Err(Refusal::UnsoundRecord));
    assert_eq!(Policy::from_record(Record { unused: 1, ..*policy.record() }), Err(Refusal::UnsoundRecord));
    assert_eq!(Refusal::UnsoundRecord.number(), 10);
}

#[test]
fn a_program_runs_and_the_place_goes_on() {
    let (policy, mut memory) = with_program(&[[1, 0, 65, 0], [8, 0, 1, 4], [0; 4]]);
    let place = policy.run(&mut memory, Place::FIRST, 3).unwrap();
    assert_eq!(place, Place::new(1, 0, 3));
    assert_eq!((place.slot(), place.used(), place.count()), (1, 0, 3));
    assert_eq!(memory[256], 65);
    let save = policy.save_area(&memory, 0).unwrap();
    assert_eq!((save.counter(), save.state(), save.fault(), save.registers()), (8, State::Halted, None, [65, 0, 0, 0, 0, 0, 0, 0]));
    assert_eq!(policy.run(&mut memory, place, 10_000), Ok(Place::new(1, 0, 10_003)));
    let raw = sk_place::from(Place::new(1, 1, 7));
    assert_eq!((raw.slot, raw.used, raw.count, Place::from(raw)), (1, 1, 7, Place::new(1, 1, 7)));
}

#[test]
fn a_refused_call_changes_nothing() {
    let (policy, mut memory) = with_program(&[[1, 0, 65, 0]]);
    let before = memory.clone();
    assert_eq!(policy.pend(&mut memory, 2, 0), Err(Refusal::NoPartition));
    assert_eq!(policy.pend(&mut memory, 1, 8), Err(Refusal::NoLine));
    assert_eq!(policy.run(&mut memory, Place::new(2, 0, 0), 1), Err(Refusal::NoPlace));
    assert_eq!(policy.run(&mut memory, Place::new(0, 3, 0), 1), Err(Refusal::NoPlace));
    assert_eq!(policy.run(&mut memory, Place::FIRST, 10_001), Err(Refusal::TooManyTicks));
    assert_eq!(policy.can_reach(0, 5), Err(Refusal::NoSegment));
    let numbers = [Refusal::NoPartition, Refusal::NoLine, Refusal::NoPlace, Refusal::TooManyTicks, Refusal::NoSegment].map(Refusal::number);
    assert_eq!((numbers, memory), ([11, 12, 13, 14, 15], before));
}

#[test]
fn the_save_area_shows_lines_handler_and_fault() {
    // Listen to lines 1 and 2 with the handler at 12; wait; (never reached); a jump in the handler; an opcode that isn't there.
    let (policy, mut memory) = with_program(&[[11, 6, 12, 0], [10, 0, 0, 0], [0; 4], [1, 3, 1, 2], [16, 0, 0, 0]]);
    let place = policy.run(&mut memory, Place::FIRST, 2).unwrap();
    assert_eq!(policy.save_area(&memory, 0).unwrap().state(), State::Waiting);
    [2, 7].into_iter().for_each(|line| policy.pend(&mut memory, 0, line).unwrap());
    let save = policy.save_area(&memory, 0).unwrap();
    assert_eq!((save.pended(), save.enabled(), save.handler_place(), save.in_handler()), (0x84, 6, 12, false));
    policy.run(&mut memory, place, 5).unwrap();
    let save = policy.save_area(&memory, 0).unwrap();
    assert_eq!((save.pended(), save.in_handler(), save.return_place(), save.registers()[7]), (0x80, true, 8, 2));
    assert_eq!((save.counter(), save.registers()[3], save.state(), save.fault()), (16, 513, State::Faulted, Some(Fault::Opcode)));
    assert_eq!(save.fault().unwrap().to_string(), "fault 2: no such opcode or register");
    assert_eq!(save.bytes()[..], memory[64..108]);
}

#[test]
fn state_and_fault_bytes_have_their_names() {
    let (policy, mut memory) = with_program(&[]);
    let states = [State::Ready, State::Halted, State::Faulted, State::Waiting, State::Halted, State::Halted];
    for (byte, wanted) in [0, 1, 2, 3, 4, 255].into_iter().zip(states) {
        memory[64 + 34] = byte;
        assert_eq!(policy.save_area(&memory, 0).unwrap().state(), wanted, "{byte}");
    }
    for byte in 0..=255 {
        memory[64 + 35] = byte;
        let fault = policy.save_area(&memory, 0).unwrap().fault();
        assert_eq!((fault.map_or(0, Fault::number), matches!(fault, Some(Fault::Unknown(_)))), (byte, byte > 5));
    }
}

#[test]
fn the_policy_shows_its_parts() {
    let policy = demonstration();
    assert_eq!((policy.segments().len(), policy.partitions().len(), policy.slots().len()), (5, 2, 2));
    let second = policy.partition(1).unwrap();
    assert_eq!((second.code, second.save, second.reads.mask(), second.writes.mask()), (2, 3, 0b10100, 0));
    let last = policy.segment(4).unwrap();
    assert_eq!((last.base, last.size, last.range(), last.sources.mask()), (256, 16, 256..272, 0b11));
    assert_eq!(policy.slots().map(|slot| (slot.partition, slot.ticks)).collect::<Vec<_>>(), [(0, 3), (1, 2)]);
    assert!(policy.flows(4, 3) && !policy.flows(3, 4) && !policy.flows(0, 5) && !policy.flows(32, 3));
    assert!(policy.segment(5).is_none() && policy.partition(2).is_none() && policy.slot(2).is_none());
    let mut memory = [0; MEMORY_BYTES];
    assert!(policy.bytes(&memory, 5).is_none() && policy.bytes_mut(&mut memory, 5).is_none() && policy.save_area(&memory, 2).is_none());
    assert_eq!(policy.bytes(&memory, 4).map(<[u8]>::len), Some(16));
}

#[test]
fn who_can_reach_whom_and_how_long_each_is_silent() {
    let policy = demonstration();
    let reach = policy.reach();
    assert_eq!(
        (0..6).map(|t| reach.sources(t).map(Segments::mask)).collect::<Vec<_>>(),
        [0, 1, 0, 0b10111, 0b11].map(Some).into_iter().chain([None]).collect::<Vec<_>>()
    );
    for (from, to) in (0..5).flat_map(|from| (0..5).map(move |to| (from, to))) {
        assert_eq!(policy.can_reach(from, to), Ok(reach.sources(to).unwrap().contains(from)), "{from} {to}");
    }
    let sheet = policy.sheet();
    let shares = |p| sheet.share(p).map(|Share { ticks, silence, .. }| (ticks, silence));
    assert_eq!((shares(0), shares(1), shares(2), sheet.round()), (Some((3, 2)), Some((2, 3)), None, 5));
}

#[test]
fn a_set_of_segments_is_its_mask() {
    let set = Segments::from_mask(0x8000_0005);
    assert_eq!((set.iter().collect::<Vec<_>>(), set.len(), set.is_empty()), (vec![0, 2, 31], 3, false));
    assert_eq!((0..64).filter(|&s| set.contains(s)).collect::<Vec<_>>(), [0, 2, 31]);
    assert_eq!((format!("{set:?}"), Segments::default().iter().next(), Segments::default().is_empty()), ("{0, 2, 31}".to_string(), None, true));
}
