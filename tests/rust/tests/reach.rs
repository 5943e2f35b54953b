//! Change request S-1: "for each segment, all segments from which a chain of one or more flow lines leads to it", and "can s reach t", on the reference and
//! on each kernel.

use separation::compare::{reach_difference, text_gives, PAST};
use separation::generate::graphs::{lines, near, record, with_lines, Graph, GRAPHS};
use separation::generate::policies::{longest, DEMONSTRATION};
use separation::generate::records;
use separation::generate::texts::{hexadecimal_text_of, text_of};
use separation::kernel::{has, Answer, Kernel, Policy, ReachResult, RecordExt};
use separation::misled::{Misled, Mistake, IN_ROWS, IN_THE_QUESTION, IN_THE_REPORT};
use separation::random::Random;
use separation::reference::{policyreach, read, sound, sources, USAGE};
use separation::{demonstration, each, show, shrink};

const YES: Answer = Answer { number: 0, yes: 1 };
const NO: Answer = Answer { number: 0, yes: 0 };

/// Sound records with just these flow lines, of several choices of partitions.
fn with(segments: usize, lines: &[(usize, usize)]) -> Vec<Policy> {
    let policies: Vec<Policy> = (0..4).map(|seed| with_lines(&mut Random::new(seed), segments, lines)).collect();
    for policy in &policies {
        assert!(sound(policy), "{}", show::policy(policy));
        let found = (0..32).flat_map(|from| (0..32).map(move |to| (from, to))).filter(|&(from, to)| policy.flow(from, to));
        assert_eq!(found.count(), lines.len());
        assert!(lines.iter().all(|&(from, to)| policy.flow(from, to)));
    }
    policies
}

/// Report and questions: row t has the segments of this mask, rows past the last are 0.
fn reports(kernel: &dyn Kernel, policy: &Policy, row: impl Fn(usize) -> u32) {
    let segments = policy.segments as usize;
    let wanted = std::array::from_fn(|t| if t < segments { row(t) } else { 0 });
    assert_eq!(kernel.reach(policy), ReachResult { number: 0, sources: wanted }, "{}: {}", kernel.name(), show::policy(policy));
    for (s, t) in (0..segments).flat_map(|s| (0..segments).map(move |t| (s, t))) {
        let answer = if has(wanted[t], s) { YES } else { NO };
        assert_eq!(kernel.can_reach(policy, s as u32, t as u32), answer, "{}, from {s} to {t}: {}", kernel.name(), show::policy(policy));
    }
}

/// The segments below this one.
fn below(t: usize) -> u32 {
    ((1_u64 << t) - 1) as u32
}

fn chain(segments: usize) -> Vec<(usize, usize)> {
    (1..segments).map(|t| (t - 1, t)).collect()
}

fn ring(first: usize, last: usize) -> Vec<(usize, usize)> {
    (first..=last).map(|s| (s, if s == last { first } else { s + 1 })).collect()
}

/// The request's report, by hand: 3 is reached from 0, 1, 2 and 4, and 4 from 0 and 1.
#[test]
fn the_demonstrations_report() {
    let rows = [0, 1, 0, 1 + 2 + 4 + 16, 1 + 2];
    each(|kernel| {
        reports(kernel, &demonstration(), |t| rows[t]);
        assert_eq!(kernel.can_reach(&demonstration(), 0, 3), YES);
        assert_eq!(kernel.can_reach(&demonstration(), 3, 0), NO);
        assert_eq!(kernel.can_reach(&demonstration(), 9, 0), Answer { number: 15, yes: 0 });
    });
}

/// "A chain may have any length": through all segments, in their order and against it.
#[test]
fn a_chain_through_all_segments() {
    for segments in 2..=32 {
        let back: Vec<(usize, usize)> = chain(segments).iter().map(|&(s, t)| (t, s)).collect();
        for policy in with(segments, &chain(segments)) {
            each(|kernel| reports(kernel, &policy, below));
        }
        for policy in with(segments, &back) {
            each(|kernel| reports(kernel, &policy, |t| below(segments) & !below(t + 1)));
        }
    }
}

/// Even segments up, then odd ones down: no order of the segments is that of the chain.
#[test]
fn a_chain_in_another_order() {
    let order: Vec<usize> = (0..16).map(|i| 2 * i).chain((0..16).map(|i| 31 - 2 * i)).collect();
    let lines: Vec<(usize, usize)> = order.windows(2).map(|two| (two[0], two[1])).collect();
    let before = |t: usize| order.iter().take_while(|&&s| s != t).map(|&s| 1 << s).sum();
    for policy in with(32, &lines) {
        each(|kernel| reports(kernel, &policy, before));
    }
}

/// "itself too if a chain returns": in a ring all reach all.
#[test]
fn a_ring() {
    for segments in 2..=32 {
        for policy in with(segments, &ring(0, segments - 1)) {
            each(|kernel| reports(kernel, &policy, |_| below(segments)));
        }
    }
}

/// 0 to 9, and from 6 back to 3: from 3 to 6 each reaches itself.
#[test]
fn a_chain_that_returns() {
    for policy in with(10, &[chain(10), vec![(6, 3)]].concat()) {
        each(|kernel| reports(kernel, &policy, |t| if (3..=6).contains(&t) { below(7) } else { below(t) }));
    }
}

#[test]
fn two_rings_joined_one_way() {
    for (first, from, to) in [(16, 15, 16), (16, 0, 31), (2, 1, 2), (30, 7, 31)] {
        for policy in with(32, &[ring(0, first - 1), ring(first, 31), vec![(from, to)]].concat()) {
            each(|kernel| reports(kernel, &policy, |t| if t < first { below(first) } else { below(32) }));
        }
    }
}

/// One line alone, and stars: into one from all, and from one into all.
#[test]
fn segments_that_reach_nobody() {
    for policy in with(32, &[(30, 31)]) {
        each(|kernel| reports(kernel, &policy, |t| if t == 31 { 1 << 30 } else { 0 }));
    }
    let into: Vec<(usize, usize)> = (0..31).map(|s| (s, 31)).collect();
    for policy in with(32, &into) {
        each(|kernel| reports(kernel, &policy, |t| if t == 31 { below(31) } else { 0 }));
    }
    let out_of: Vec<(usize, usize)> = (1..32).map(|t| (0, t)).collect();
    for policy in with(32, &out_of) {
        each(|kernel| reports(kernel, &policy, |t| (t > 0) as u32));
    }
}

/// All lines but those between save segments, which reach each other all the same.
#[test]
fn the_fullest_record() {
    each(|kernel| reports(kernel, &longest(), |_| u32::MAX));
    let mut without = longest();
    // Segment 31 has no right any more and flows nowhere; nothing but its own lines is lost.
    (0..8).for_each(|p| without.set_right(p, 31, 0));
    (0..32).for_each(|t| without.set_flow(31, t, false));
    assert!(sound(&without));
    each(|kernel| reports(kernel, &without, |_| below(31)));
}

/// The segment to itself: "yes only if a chain of one or more lines returns".
#[test]
fn no_line_is_no_chain() {
    for policy in with(5, &[(0, 1), (1, 2), (3, 4), (4, 3)]) {
        each(|kernel| {
            let itself = (0..5).map(|s| kernel.can_reach(&policy, s, s)).collect::<Vec<_>>();
            assert_eq!(itself, [NO, NO, NO, YES, YES]);
        });
    }
}

/// "15 if s or t isn't a segment": up to 4,294,967,295, also where one would come round to a segment.
#[test]
fn numbers_past_the_segments_are_15() {
    let mut random = Random::new(61);
    for segments in 2..=32 {
        let policy = &with(segments, &ring(0, segments - 1))[0];
        let mut past: Vec<u32> = (segments as u32..70).chain(PAST).collect();
        past.extend((0..200).map(|_| random.below(segments) as u32 + (32 << random.below(27))));
        past.extend((1..=32).map(|s: u32| s.wrapping_neg()));
        each(|kernel| {
            for &number in past.iter().filter(|&&number| number >= segments as u32) {
                for (from, to) in [(number, 0), (0, number), (number, segments as u32 - 1), (number, number), (number, u32::MAX)] {
                    assert_eq!(kernel.can_reach(policy, from, to), Answer { number: 15, yes: 0 }, "{} {from} {to}", kernel.name());
                }
            }
            assert_eq!(kernel.reach(policy).number, 0);
        });
    }
}

/// "after 10; report empty, answer no": every way to be unsound that the tests know.
#[test]
fn a_record_that_is_not_sound_is_10_before_15() {
    let mut random = Random::new(62);
    let mut unsound = vec![Policy::ZERO];
    for policy in [demonstration(), longest(), with(32, &chain(32))[0], record(&mut random)] {
        unsound.extend(records::near(&policy).into_iter().filter(|other| !sound(other)));
    }
    unsound.extend((0..1_000).map(|_| records::noise(&mut random)));
    for policy in unsound {
        assert!(!text_gives(&policy));
        each(|kernel| {
            assert_eq!(kernel.reach(&policy), ReachResult { number: 10, sources: [0; 32] }, "{}: {policy:?}", kernel.name());
            for (from, to) in [(0, 0), (0, 1), (1, 0), (4, 31), (0, 32), (255, 0), (u32::MAX, u32::MAX)] {
                assert_eq!(kernel.can_reach(&policy, from, to), Answer { number: 10, yes: 0 }, "{}: {policy:?}", kernel.name());
            }
        });
    }
}

/// "always agrees with the report"; and with its own segment each row is what demand 3 begins equal.
#[test]
fn report_and_question_agree() {
    let mut random = Random::new(63);
    for _ in 0..600 {
        let policy = near(&mut random);
        each(|kernel| {
            let report = kernel.reach(&policy);
            let segments = if report.number == 0 { policy.segments as usize } else { 0 };
            assert_eq!(report.number == 0, sound(&policy));
            assert!(report.sources[segments..].iter().all(|&row| row == 0));
            for t in 0..segments {
                let same = sources(&policy, t);
                for s in 0..32 {
                    let (there, yes) = (has(report.sources[t], s), kernel.can_reach(&policy, s as u32, t as u32));
                    assert_eq!(yes, [[Answer { number: 15, yes: 0 }; 2], [NO, YES]][(s < segments) as usize][there as usize]);
                    assert_eq!(there || s == t, same[s]);
                }
            }
        });
    }
}

/// Graphs of each sort are sound on 2 to 32 segments, and have the lines that they were made of.
#[test]
fn generated_graphs_are_sound() {
    let mut random = Random::new(64);
    for (graph, segments) in GRAPHS.into_iter().flat_map(|graph| (2..=32).map(move |segments| (graph, segments))) {
        let order: Vec<usize> = (0..segments).collect();
        let lines = lines(&mut random, graph, &order);
        let policy = with_lines(&mut random, segments, &lines);
        assert!(sound(&policy) && text_gives(&policy), "{graph:?}: {}", show::policy(&policy));
        let count: u32 = policy.sources.iter().map(|mask| mask.count_ones()).sum();
        assert!(count as usize == lines.len() || lines.is_empty() && count == 1, "{graph:?}");
        assert!(lines.is_empty() || graph != Graph::Bare);
    }
    for _ in 0..3_000 {
        let policy = record(&mut random);
        assert!(sound(&policy), "{}", show::policy(&policy));
    }
}

/// The program's bytes, by hand.
#[test]
fn what_the_program_writes() {
    let report = "segment\t0\nsegment\t1\t0\nsegment\t2\nsegment\t3\t0\t1\t2\t4\nsegment\t4\t0\t1\n";
    let with =
        |arguments: &[&str], text: &[u8]| policyreach(&arguments.iter().map(|argument| argument.as_bytes().to_vec()).collect::<Vec<_>>(), text);
    for text in [DEMONSTRATION.as_bytes().to_vec(), hexadecimal_text_of(&demonstration())] {
        for (arguments, wanted) in [
            (&[] as &[&str], report),
            (&["0", "3"], "reach\t0\t3\tyes\n"),
            (&["3", "0"], "reach\t3\t0\tno\n"),
            (&["0x0", "0x3"], "reach\t0\t3\tyes\n"),
            (&["0", "0x0"], "reach\t0\t0\tno\n"),
            (&["9", "0"], "refused\t15\t0\n"),
            (&["0", "5"], "refused\t15\t0\n"),
            (&["99999", "0xffff"], "refused\t15\t0\n"),
            (&["0"], USAGE),
            (&["0", "1", "2"], USAGE),
            (&["0", "03"], USAGE),
            (&["0x00", "3"], USAGE),
            (&["0", "0xA"], USAGE),
            (&["0", "100000"], USAGE),
            (&["", "0"], USAGE),
        ] {
            assert_eq!(with(arguments, &text), wanted, "{arguments:?}");
        }
    }
    let refused = DEMONSTRATION.replace("flow\t1\t4\n", "");
    assert_eq!(with(&[], refused.as_bytes()), "refused\t8\t0\n");
    assert_eq!(with(&["9", "9"], refused.as_bytes()), "refused\t8\t0\n");
    assert_eq!(with(&["9"], refused.as_bytes()), USAGE);
    assert_eq!(with(&["0", "1"], &DEMONSTRATION.as_bytes()[..224]), "refused\t2\t18\n");
    let chain = chain_text();
    assert!(with(&[], &chain).ends_with("\t28\t29\t30\n"));
    assert_eq!(with(&["0x1f", "0"], &chain), "reach\t31\t0\tno\n");
}

fn chain_text() -> Vec<u8> {
    let text = text_of(&with(32, &chain(32))[0]);
    assert_eq!(read(&text).number, 0);
    text
}

/// The comparison can fail: each mistake is found by the report alone or by the questions alone, in few records.
#[test]
fn wrong_reports_and_answers_are_found() {
    let report = IN_ROWS.iter().chain(&IN_THE_REPORT).map(|&mistake| Misled { mistake, in_question: false });
    let question = IN_ROWS.iter().chain(&IN_THE_QUESTION).map(|&mistake| Misled { mistake, in_question: true });
    for kernel in report.chain(question) {
        let mut random = Random::new(65);
        let found = (0..3_000).map(|_| near(&mut random)).find(|policy| reach_difference(&kernel, policy).is_some());
        let found = found.unwrap_or_else(|| panic!("{:?}, in the question: {}", kernel.mistake, kernel.in_question));
        let short = shrink::shrink_policy(&found, &mut |policy| reach_difference(&kernel, policy).is_some());
        let difference = reach_difference(&kernel, &short).unwrap();
        assert_eq!(difference.starts_with("can "), kernel.in_question, "{:?}: {difference}", kernel.mistake);
        // A chain of three lines is left, and what the partitions ask for.
        if kernel.mistake == Mistake::AtMost(2) {
            let flows: u32 = short.sources.iter().map(|mask| mask.count_ones()).sum();
            assert!(short.slots == 1 && flows < 12, "{}", show::policy(&short));
        }
    }
}
