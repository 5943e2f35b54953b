//! Change request S-6: rights and flows as masks, on the reference and on each kernel.

use separation::compare::{bytes_sound, record_difference, text_difference, text_gives};
use separation::generate::policies::{longest, policy, Shape, DEMONSTRATION};
use separation::generate::records::near;
use separation::generate::texts::{text, text_of};
use separation::kernel::{Kernel, Place, PlaceExt, Policy, RecordExt, RunResult, MEMORY};
use separation::random::Random;
use separation::reference::bytes::{self, Bytes};
use separation::reference::{sound, Reference};
use separation::{demonstration, each, show};

/// A least policy, the demonstration, some of every shape, the largest.
fn some_sound() -> Vec<Policy> {
    let mut random = Random::new(31);
    let least = Shape { segments: (2, 2), partitions: (1, 1), slots: (1, 1), right_rate: 9, flow_rate: 9 };
    let mut policies = vec![demonstration(), longest()];
    for shape in [least, Shape::SMALL, Shape::MIDDLE, Shape::APART, Shape::LARGE, Shape::DENSE] {
        policies.push(policy(&mut random, shape));
    }
    policies
}

/// "bit s for segment s, worth 2 to the power s": the demonstration's lines, by hand.
#[test]
fn the_demonstrations_masks() {
    each(|kernel| {
        let policy = kernel.read(DEMONSTRATION.as_bytes()).policy;
        assert_eq!(policy.reads, [1, 4 + 16, 0, 0, 0, 0, 0, 0]);
        assert_eq!(policy.writes, [16, 0, 0, 0, 0, 0, 0, 0]);
        let mut sources = [0; 32];
        (sources[1], sources[3], sources[4]) = (1, 4 + 16, 1 + 2);
        assert_eq!((policy.sources, policy.unused), (sources, 0));
    });
}

/// A right line sets up to two bits, of its partition and segment alone; a flow line one, in the target's mask.
#[test]
fn a_line_sets_its_bits() {
    let mut policy = longest();
    for p in 0..8 {
        (policy.reads[p], policy.writes[p]) = (1 << policy.code[p], 0);
        policy.sources[policy.save[p] as usize] = policy.reads[p];
    }
    let text = String::from_utf8(text_of(&policy)).unwrap();
    each(|kernel| {
        assert_eq!(kernel.read(text.as_bytes()).policy, policy);
        for (letters, right) in [("r", 1), ("w", 2), ("rw", 3)] {
            for s in (8..32).filter(|&s| s != 17) {
                let mut wanted = policy;
                wanted.set_right(7, s, right);
                let line = format!("right\t7\t{s}\t{letters}\n");
                let (before, after) = if s < 17 { (line, String::new()) } else { (String::new(), line) };
                let mut more = text.replacen("right\t7\t17\tr\n", &format!("{before}right\t7\t17\tr\n{after}"), 1);
                if right & 1 == 1 {
                    // What it may read goes into its save segment.
                    wanted.set_flow(s, 7, true);
                    let behind = format!("flow\t{s}\t{}\n", if s == 8 { 9 } else { 8 });
                    more = more.replacen(&behind, &format!("flow\t{s}\t7\n{behind}"), 1);
                }
                assert_eq!(kernel.read(more.as_bytes()).policy, wanted);
            }
        }
        // Flows that rule 8 does not ask for: those into segments that nobody writes.
        for (from, to) in (0..32).flat_map(|from| (8..32).map(move |to| (from, to))).filter(|(from, to)| from != to) {
            let mut wanted = policy;
            wanted.set_flow(from, to, false);
            assert_eq!(wanted.sources[to], policy.sources[to] - (1 << from));
            let less = text.replacen(&format!("flow\t{from}\t{to}\n"), "", 1);
            assert_eq!(kernel.read(less.as_bytes()).policy, wanted);
        }
    });
}

/// "Two reads of one text are equal by memcmp", whatever was read in between.
#[test]
fn two_reads_are_equal_byte_by_byte() {
    let mut random = Random::new(32);
    for _ in 0..3_000 {
        let (one, other) = (text(&mut random), text(&mut random));
        let wanted = Reference.read(&one).policy.bytes();
        each(|kernel| {
            let first = kernel.read(&one).policy.bytes();
            kernel.read(&other);
            let second = kernel.read(&one).policy.bytes();
            assert!(first == second && first == wanted, "{}", show::text(&one));
        });
    }
}

/// "old and new records from the same text stand for the same rights and flows": pair by pair.
#[test]
fn the_record_of_bytes_stands_for_the_same() {
    let mut random = Random::new(33);
    for _ in 0..5_000 {
        let text = text(&mut random);
        let (number, line, bytes) = bytes::read(&text);
        each(|kernel| {
            let answer = kernel.read(&text);
            assert_eq!((answer.number, answer.line), (number, line), "{}", show::text(&text));
            assert_eq!(bytes.difference(&answer.policy), None, "{}", show::text(&text));
            assert_eq!(text_difference(kernel, &text), None, "{}", show::text(&text));
        });
    }
}

/// The test above can fail.
#[test]
fn a_turned_bit_is_a_difference() {
    for policy in some_sound() {
        let bytes = Bytes::of_masks(&policy);
        assert_eq!(bytes.difference(&policy), None);
        for other in near(&policy).iter().filter(|other| other.unused == 0 && **other != policy) {
            assert!(bytes.difference(other).is_some());
        }
    }
}

/// "Refused: 10 for a stray bit": from every operation, and memory stays.
#[test]
fn records_near_the_sound_ones() {
    let memory: Vec<u8> = (0..MEMORY).map(|at| (at % 251) as u8).collect();
    for policy in some_sound() {
        for record in near(&policy) {
            let is_sound = sound(&record);
            assert!(is_sound == text_gives(&record) && is_sound == bytes_sound(&record), "{}", show::policy(&record));
            each(|kernel| {
                assert_eq!(record_difference(kernel, &record), None, "{}", show::policy(&record));
                if !is_sound {
                    let mut bytes = memory.clone();
                    let place = Place::at(0, 0);
                    assert_eq!(kernel.start(&record, &mut bytes), RunResult { number: 10, place });
                    assert_eq!(kernel.pend(&record, &mut bytes, 0, 0), 10);
                    assert_eq!(kernel.run(&record, &mut bytes, place, 1), RunResult { number: 10, place });
                    assert!(bytes == memory);
                }
            });
        }
    }
}

/// Bits that no line gives, one of each sort.
#[test]
fn stray_bits_are_10() {
    let policy = demonstration();
    let mut strays = vec![
        // Past the last segment, of a right and of a flow.
        Policy { reads: [1 + 32, 4 + 16, 0, 0, 0, 0, 0, 0], ..policy },
        Policy { writes: [16 + 32, 0, 0, 0, 0, 0, 0, 0], ..policy },
        Policy { reads: [1 + (1 << 31), 4 + 16, 0, 0, 0, 0, 0, 0], ..policy },
        // On a save segment, its own and another's.
        Policy { reads: [1 + 2, 4 + 16, 0, 0, 0, 0, 0, 0], ..policy },
        Policy { writes: [16 + 8, 0, 0, 0, 0, 0, 0, 0], ..policy },
        // Of partitions that aren't there.
        Policy { reads: [1, 4 + 16, 1, 0, 0, 0, 0, 0], ..policy },
        Policy { writes: [16, 0, 0, 0, 0, 0, 0, 16], ..policy },
        Policy { unused: 1, ..policy },
        Policy { unused: 255, ..policy },
    ];
    // From a segment past the last, into one, and from a segment to itself.
    for (from, to) in [(5, 0), (31, 4), (0, 5), (0, 31), (31, 31)].into_iter().chain((0..5).map(|s| (s, s))) {
        let mut stray = policy;
        stray.set_flow(from, to, true);
        strays.push(stray);
    }
    for stray in strays {
        each(|kernel| {
            let mut memory = vec![7; MEMORY];
            assert_eq!(kernel.sound(&stray), 0, "{}", show::policy(&stray));
            assert_eq!(kernel.start(&stray, &mut memory).number, 10);
            assert_eq!(kernel.pend(&stray, &mut memory, 0, 0), 10);
            assert_eq!(kernel.run(&stray, &mut memory, Place::FIRST, 0).number, 10);
            assert!(memory.iter().all(|&byte| byte == 7));
        });
    }
}
