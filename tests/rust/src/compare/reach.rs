//! Who can reach whom: a kernel's report and its answers to many questions, held to the reference.

use super::{text_gave, Reached};
use crate::kernel::{has, Answer, Kernel, Policy, ReachResult};
use crate::reference::{answer, reach, sound};

/// Numbers that name no segment of any record: past the largest, past the bits of masks, of a byte and of two, and the highest.
pub const PAST: [u32; 10] = [32, 33, 63, 64, 255, 256, 65_535, 65_536, 1 << 31, u32::MAX];

/// What a number that is a segment's plus one of these might be taken for.
const ROUND: [u32; 5] = [32, 64, 256, 65_536, 1 << 31];

/// What the reference answers about a record.
pub struct Wanted {
    policy: Policy,
    report: ReachResult,
    answers: Vec<(u32, u32, Answer)>,
}

impl Wanted {
    pub fn of(policy: &Policy) -> Wanted {
        let is_sound = sound(policy);
        let questions = if is_sound { all_questions(u32::from(policy.segments)) } else { some_questions() };
        let answers = questions.into_iter().map(|(from, to)| (from, to, answer(policy, is_sound, from, to))).collect();
        Wanted { policy: *policy, report: reach(policy), answers }
    }

    /// How a kernel differs, if it does.
    pub fn difference(&self, kernel: &dyn Kernel) -> Option<String> {
        let got = kernel.reach(&self.policy);
        if got.number != self.report.number {
            return Some(format!("reach: reference {}, {} {}", self.report.number, kernel.name(), got.number));
        }
        if let Some(t) = (0..32).find(|&t| got.sources[t] != self.report.sources[t]) {
            let (want, got) = (self.report.sources[t], got.sources[t]);
            return Some(format!("reach: the row of segment {t}: reference {want:#034b}, {} {got:#034b}", kernel.name()));
        }
        self.answers.iter().find_map(|&(from, to, want)| {
            let got = kernel.can_reach(&self.policy, from, to);
            (got != want).then(|| format!("can {from} reach {to}: reference {want:?}, {} {got:?}", kernel.name()))
        })
    }
}

/// How a kernel differs from the reference on a record, if it does.
pub fn reach_difference(kernel: &dyn Kernel, policy: &Policy) -> Option<String> {
    Wanted::of(policy).difference(kernel)
}

/// All pairs of segments, and of those with the two numbers past them; numbers past all, on either side and on both; and numbers that might be taken for
/// a segment's.
fn all_questions(segments: u32) -> Vec<(u32, u32)> {
    let mut questions: Vec<(u32, u32)> = (0..segments + 2).flat_map(|from| (0..segments + 2).map(move |to| (from, to))).collect();
    for past in PAST {
        questions.extend([(past, 0), (0, past), (past, segments - 1), (segments - 1, past), (past, past)]);
    }
    for (s, round) in (0..segments).flat_map(|s| ROUND.map(|round| (s, round))) {
        let t = (s + 1) % segments;
        questions.extend([(s + round, t), (t, s + round)]);
    }
    questions
}

/// For a record that is not sound: all have one answer.
fn some_questions() -> Vec<(u32, u32)> {
    let numbers = [0, 1, 2, 4, 31, 32, u32::MAX];
    numbers.into_iter().flat_map(|from| numbers.map(|to| (from, to))).collect()
}

/// The least lines of a chain from s to t, 0 if there is none.
fn least_lines(policy: &Policy, t: usize) -> [u32; 32] {
    let mut lines = [0; 32];
    let mut last = policy.sources[t];
    for length in 1.. {
        let new: Vec<usize> = (0..32).filter(|&s| has(last, s) && lines[s] == 0).collect();
        if new.is_empty() {
            break;
        }
        new.iter().for_each(|&s| lines[s] = length);
        last = new.iter().fold(0, |sources, &s| sources | policy.sources[s]);
    }
    lines
}

impl Reached {
    pub fn reach(&mut self, wanted: &Wanted) {
        let (policy, report) = (&wanted.policy, &wanted.report);
        let by_16 = if report.number == 10 && text_gave(policy) { " by 16" } else { "" };
        self.count(&format!("report {}{by_16}", report.number));
        for &(from, to, answer) in &wanted.answers {
            let segments = u32::from(policy.segments);
            self.count(match (answer.number, from < segments, to < segments) {
                (10, true, true) => "question 10",
                (10, ..) => "question 10 before 15",
                (15, false, true) => "question 15 for the first",
                (15, true, false) => "question 15 for the second",
                (15, ..) => "question 15 for both",
                _ if answer.yes == 1 => "question yes",
                _ => "question no",
            });
        }
        if report.number == 0 {
            self.graph(policy, &report.sources);
        }
    }

    fn graph(&mut self, policy: &Policy, rows: &[u32; 32]) {
        let segments = policy.segments as usize;
        let rows = &rows[..segments];
        let all = u32::MAX >> (32 - segments);
        let returning = (0..segments).filter(|&t| has(rows[t], t)).count();
        let longest = (0..segments).flat_map(|t| least_lines(policy, t)).max().unwrap_or(0);
        let reaching = rows.iter().fold(0, |reaching, row| reaching | row);
        let cases = [
            (longest == 1, "no chain of two lines"),
            (longest == 2, "no chain of three lines"),
            (longest > 2, "a chain of three lines or more"),
            (longest == 31, "a chain of 31 lines"),
            (longest == 32, "a chain of 32 lines, which returns"),
            (returning == 0, "no chain returns"),
            (returning > 0 && returning < segments, "chains return to some"),
            (returning == segments, "chains return to all"),
            (rows.contains(&0), "a segment that nobody reaches"),
            (reaching != all, "a segment that reaches nobody"),
            (rows.iter().all(|&row| row == all), "all reach all"),
            (segments == 2, "of two segments"),
            (segments == 32, "of 32 segments"),
            (has(reaching, 31), "segment 31 reaches some"),
            (segments == 32 && rows[31] != 0, "segment 31 is reached"),
        ];
        cases.iter().filter(|case| case.0).for_each(|case| self.count(&format!("graph: {}", case.1)));
    }
}

/// Every outcome of a report and of a question, and what graphs there were.
pub const REACH_CASES: [&str; 25] = [
    "report 0",
    "report 10",
    "report 10 by 16",
    "question 10",
    "question 10 before 15",
    "question 15 for the first",
    "question 15 for the second",
    "question 15 for both",
    "question yes",
    "question no",
    "graph: no chain of two lines",
    "graph: no chain of three lines",
    "graph: a chain of three lines or more",
    "graph: a chain of 31 lines",
    "graph: a chain of 32 lines, which returns",
    "graph: no chain returns",
    "graph: chains return to some",
    "graph: chains return to all",
    "graph: a segment that nobody reaches",
    "graph: a segment that reaches nobody",
    "graph: all reach all",
    "graph: of two segments",
    "graph: of 32 segments",
    "graph: segment 31 reaches some",
    "graph: segment 31 is reached",
];
