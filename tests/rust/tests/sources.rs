//! Change request S-5: "a flow line into p's save segment must come from a segment of R(p)", on the reference and on each kernel.

use separation::compare::{bytes_sound, text_gives};
use separation::generate::policies::{policy, Shape, DEMONSTRATION};
use separation::generate::texts::{hexadecimal_text_of, text, text_of};
use separation::kernel::{Place, PlaceExt, Policy, RecordExt, RunResult, MEMORY};
use separation::random::Random;
use separation::reference::{judge, judge_without_16, readable, Lines};
use separation::{accepted, each, refused, show};

const SAVES: [usize; 3] = [3, 4, 5];
/// Nobody has a right on these; the second is as long as a save segment.
const BARE: [usize; 2] = [9, 10];

/// Three partitions, the last without a slot: 0, 1 and 2 are code, 3, 4 and 5 save. Partition p writes 6 + p, and the next one reads it; nobody has a
/// right on the last two.
fn three() -> Policy {
    let size = |s: u32| if (3..6).contains(&s) || s == 10 { 44 } else { 64 };
    let lines = Lines {
        segments: (0..11).map(|s| (64 * s, size(s))).collect(),
        partitions: vec![(0, 3), (1, 4), (2, 5)],
        rights: vec![(0, 0, 1), (0, 6, 2), (0, 8, 1), (1, 1, 1), (1, 6, 1), (1, 7, 2), (2, 2, 1), (2, 7, 1), (2, 8, 2)],
        flows: [[0, 3, 8, 6], [1, 4, 6, 7], [2, 5, 7, 8]]
            .iter()
            .flat_map(|&[code, save, read, written]| [(code, save), (read, save), (code, written), (save, written), (read, written)])
            .collect(),
        slots: vec![(0, 3), (1, 2)],
    };
    lines.record()
}

/// What partition p of these may not read, each sort of it.
fn strays(p: usize) -> [(usize, &'static str); 8] {
    let (next, last) = ((p + 1) % 3, (p + 2) % 3);
    [
        (next, "16 from another's code segment"),
        (last, "16 from another's code segment"),
        (SAVES[next], "16 from another's save segment"),
        (SAVES[last], "16 from another's save segment"),
        (6 + p, "16 from a segment with w alone"),
        (6 + next, "16 from a segment that another reads"),
        (BARE[0], "16 from a segment that nobody reads"),
        (BARE[1], "16 from a segment that nobody reads"),
    ]
}

/// The policy with one stray line, from each sort of segment into each save segment.
fn with_strays() -> Vec<Policy> {
    let with = |p: usize, (from, _)| {
        let mut policy = three();
        policy.set_flow(from, SAVES[p], true);
        policy
    };
    (0..3).flat_map(|p| strays(p).map(|stray| with(p, stray))).collect()
}

/// The sources of each save segment are R(p) without itself.
fn exact(policy: &Policy) -> bool {
    (0..policy.partitions as usize).all(|p| {
        let save = policy.save[p] as usize;
        (0..32).all(|s| policy.flow(s, save) == (s != save && readable(policy, p, s)))
    })
}

#[test]
fn a_stray_source_is_16() {
    each(|kernel| assert_eq!(kernel.read(&text_of(&three())), accepted(three())));
    for (p, save) in SAVES.into_iter().enumerate() {
        let (mut readers, strays) = (0, strays(p));
        for from in (0..11).filter(|&from| from != save) {
            let mut policy = three();
            policy.set_flow(from, save, true);
            let Some((_, why)) = strays.iter().find(|stray| stray.0 == from) else {
                assert_eq!(policy, three());
                readers += 1;
                continue;
            };
            let texts = [text_of(&policy), hexadecimal_text_of(&policy)];
            let why = if p == 2 { "16 for a partition without a slot" } else { why };
            assert!(texts.iter().all(|text| judge(text).is_err_and(|refusal| refusal.why == why)), "{from} {p}");
            each(|kernel| texts.iter().for_each(|text| assert_eq!(kernel.read(text), refused(16, 0), "{from} {p}")));
        }
        assert_eq!(readers, 2);
    }
}

/// The request's example on the demonstration: partition 0 writes segment 4 and may not read it.
#[test]
fn the_demonstration_with_a_stray_line() {
    let stray = DEMONSTRATION.replace("flow\t4\t3\n", "flow\t4\t1\nflow\t4\t3\n");
    let of_save = DEMONSTRATION.replace("flow\t1\t4\n", "flow\t1\t3\nflow\t1\t4\n");
    let elsewhere = DEMONSTRATION.replace("flow\t4\t3\n", "flow\t4\t2\nflow\t4\t3\n");
    each(|kernel| {
        assert_eq!(kernel.read(stray.as_bytes()), refused(16, 0));
        assert_eq!(kernel.read(of_save.as_bytes()), refused(16, 0));
        assert_eq!(kernel.read(elsewhere.as_bytes()).number, 0);
    });
}

/// "line 0, after 8": each earlier rule comes first, whatever stray line there is.
#[test]
fn every_other_rule_comes_before_16() {
    for policy in with_strays() {
        let text = String::from_utf8(text_of(&policy)).unwrap();
        let last = text.lines().count() as u32;
        let first_flow = text.lines().position(|line| line.starts_with("flow")).unwrap() as u32 + 1;
        let without = |line: &str| {
            assert!(text.contains(line));
            text.replacen(line, "", 1)
        };
        let mut cases = vec![
            ("x".repeat(16_385), refused(1, 0)),
            (text[..text.len() - 1].to_string(), refused(2, last)),
            (text.replacen("flow\t0\t3\n", "flow\t0\t3\nflow\t0\t3\n", 1), refused(3, first_flow + 1)),
            (format!("{text}slot\t0\t0\n"), refused(4, last + 1)),
            (format!("{text}slot\t3\t1\n"), refused(4, last + 1)),
            (text.replacen("segment\t1\t64\t", "segment\t1\t63\t", 1), refused(5, 2)),
            (text.replacen("flow\t0\t3\n", "flow\t0\t0\nflow\t0\t3\n", 1), refused(5, first_flow)),
            (without("slot\t0\t3\nslot\t1\t2\n"), refused(6, 0)),
        ];
        cases.extend(["right\t0\t0\tr\n", "right\t1\t1\tr\n", "right\t2\t2\tr\n"].map(|line| (without(line), refused(7, 0))));
        for (from, to) in (0..11).flat_map(|from| (0..11).map(move |to| (from, to))).filter(|&(from, to)| three().flow(from, to)) {
            cases.push((without(&format!("flow\t{from}\t{to}\n")), refused(8, 0)));
        }
        each(|kernel| {
            assert_eq!(kernel.read(text.as_bytes()), refused(16, 0));
            cases.iter().for_each(|(text, wanted)| assert_eq!(kernel.read(text.as_bytes()), *wanted, "{}", show::text(text.as_bytes())));
        });
    }
}

/// "More flow lines than that are accepted" still, into segments that are no save segments, also one of 44 bytes.
#[test]
fn other_segments_have_any_source() {
    for (from, to) in (0..11).flat_map(|from| (0..11).map(move |to| (from, to))).filter(|&(from, to)| from != to && !SAVES.contains(&to)) {
        let mut policy = three();
        policy.set_flow(from, to, true);
        each(|kernel| {
            assert_eq!(kernel.read(&text_of(&policy)), accepted(policy));
            assert_eq!(kernel.sound(&policy), 1);
        });
    }
    let mut all = three();
    for to in (0..11).filter(|to| !SAVES.contains(to)) {
        (0..11).for_each(|from| all.set_flow(from, to, from != to));
    }
    each(|kernel| assert_eq!(kernel.read(&text_of(&all)), accepted(all)));
}

/// A right that goes leaves a stray line behind; one that comes asks for the line.
#[test]
fn sources_go_with_the_rights() {
    // For the partition without a slot too: what it reads beside its code.
    for (p, read) in [(0, 8), (1, 6), (2, 7)] {
        let mut without = three();
        without.set_right(p, read, 0);
        let mut clean = without;
        clean.set_flow(read, SAVES[p], false);
        // w in place of r, with the flows that it asks for.
        let mut written = without;
        written.set_right(p, read, 2);
        [p, SAVES[p]].iter().for_each(|&from| written.set_flow(from, read, true));
        let mut more = three();
        more.set_right(p, BARE[1], 1);
        let asked = more;
        [SAVES[p], 6 + p].iter().for_each(|&to| more.set_flow(BARE[1], to, true));
        each(|kernel| {
            for (policy, wanted) in [(without, 16), (clean, 0), (written, 16), (asked, 8), (more, 0)] {
                assert_eq!(kernel.read(&text_of(&policy)), if wanted == 0 { accepted(policy) } else { refused(wanted, 0) });
                assert_eq!(kernel.sound(&policy), (wanted == 0) as u32);
            }
        });
    }
}

/// Start, Pend and Run answer 10 on a record with a stray line, after 9 and before all else, and memory stays.
#[test]
fn a_record_with_a_stray_source_is_not_sound() {
    let mut random = Random::new(51);
    let memory: Vec<u8> = (0..MEMORY).map(|at| (at % 251) as u8).collect();
    let mut records = with_strays();
    while records.len() < 2_000 {
        let shape = Shape::any(&mut random);
        let mut policy = policy(&mut random, shape);
        let (p, s) = (random.below(policy.partitions as usize), random.below(policy.segments as usize));
        if !readable(&policy, p, s) {
            policy.set_flow(s, policy.save[p] as usize, true);
            records.push(policy);
        }
    }
    for record in records {
        assert!(!text_gives(&record) && !bytes_sound(&record));
        each(|kernel| {
            let mut bytes = memory.clone();
            assert_eq!(kernel.sound(&record), 0, "{}", show::policy(&record));
            assert_eq!(kernel.start(&record, &mut bytes), RunResult { number: 10, place: Place::FIRST });
            for (partition, line) in [(0, 0), (0, 8), (8, 8)] {
                assert_eq!(kernel.pend(&record, &mut bytes, partition, line), 10);
            }
            for (slot, used, ticks) in [(0, 0, 0), (0, 0, 1), (0, 0, 10_001), (32, 7, 1)] {
                let place = Place::at(slot, used);
                assert_eq!(kernel.run(&record, &mut bytes, place, ticks), RunResult { number: 10, place });
            }
            assert_eq!(kernel.start(&record, &mut bytes[1..]).number, 9);
            assert!(bytes == memory);
        });
    }
}

/// "Source document 000 wants the sources of a save segment to be just what its partition may read."
#[test]
fn the_sources_of_a_save_segment_are_what_its_partition_reads() {
    let mut random = Random::new(52);
    for _ in 0..2_000 {
        let shape = Shape::any(&mut random);
        let policy = policy(&mut random, shape);
        assert!(exact(&policy), "{}", show::policy(&policy));
        each(|kernel| assert_eq!((kernel.sound(&policy), kernel.read(&text_of(&policy))), (1, accepted(policy))));
    }
    let mut count = 0;
    while count < 2_000 {
        let text = text(&mut random);
        each(|kernel| {
            let answer = kernel.read(&text);
            assert!(answer.number != 0 || exact(&answer.policy), "{}", show::text(&text));
        });
        count += judge(&text).is_ok() as usize;
    }
}

/// 16 takes some of what was accepted and changes nothing else.
#[test]
fn no_other_answer_changes() {
    let mut random = Random::new(53);
    let mut seen = [0; 3];
    for _ in 0..20_000 {
        let text = text(&mut random);
        let (case, wanted) = match judge_without_16(&text) {
            Err(refusal) => (0, refused(refusal.number, refusal.line)),
            Ok(lines) if exact(&lines.record()) => (1, accepted(lines.record())),
            Ok(_) => (2, refused(16, 0)),
        };
        seen[case] += 1;
        each(|kernel| assert_eq!(kernel.read(&text), wanted, "{}", show::text(&text)));
    }
    assert!(seen.iter().all(|&count| count > 300), "{seen:?}");
}
