//! The schedule sheet: a kernel's held to the reference, and to what change request S-7 says of all sheets.

use super::{text_gave, Reached};
use crate::kernel::{Kernel, Policy, SheetResult};
use crate::reference::sheet;

/// What the reference answers about a record.
pub struct WantedSheet {
    policy: Policy,
    sheet: SheetResult,
}

impl WantedSheet {
    pub fn of(policy: &Policy) -> WantedSheet {
        WantedSheet { policy: *policy, sheet: sheet(policy) }
    }

    /// How a kernel differs, or which law its own answers break, if any.
    pub fn difference(&self, kernel: &dyn Kernel) -> Option<String> {
        let (want, got, name) = (&self.sheet, kernel.sheet(&self.policy), kernel.name());
        if want.number != got.number {
            return Some(format!("sheet: reference {}, {name} {}", want.number, got.number));
        }
        for (what, want, got) in [("ticks", want.ticks, got.ticks), ("silence", want.silence, got.silence)] {
            if let Some(p) = (0..8).find(|&p| want[p] != got[p]) {
                return Some(format!("sheet: the {what} of partition {p}: reference {}, {name} {}", want[p], got[p]));
            }
        }
        (want.number == 0).then(|| broken_law(kernel, &self.policy)).flatten()
    }
}

/// How a kernel differs from the reference on a record, if it does.
pub fn sheet_difference(kernel: &dyn Kernel, policy: &Policy) -> Option<String> {
    WantedSheet::of(policy).difference(kernel)
}

fn round_ticks(policy: &Policy) -> u64 {
    policy.slot_ticks[..policy.slots as usize].iter().map(|&ticks| u64::from(ticks)).sum()
}

/// The laws of a sheet on a kernel's own answers, for a sound record: without the reference.
pub fn broken_law(kernel: &dyn Kernel, policy: &Policy) -> Option<String> {
    let sheet = kernel.sheet(policy);
    let round = round_ticks(policy);
    let sum: u64 = sheet.ticks.iter().map(|&ticks| u64::from(ticks)).sum();
    // "The ticks of all partitions add up to the ticks of one round."
    if sum != round {
        return Some(format!("{}: the ticks of all add up to {sum}, a round has {round}", kernel.name()));
    }
    if let Some(p) = (0..8).find(|&p| !row_fits(policy, &sheet, p, round)) {
        let (own, silence) = (sheet.ticks[p], sheet.silence[p]);
        return Some(format!("{}: partition {p} has {own} ticks of {round}, and a silence of {silence}", kernel.name()));
    }
    // The schedule goes round: it does not matter where it begins.
    let other = (1..policy.slots as usize).find(|&first| kernel.sheet(&turned(policy, first)) != sheet)?;
    Some(format!("{}: another sheet if the schedule begins with slot {other}", kernel.name()))
}

/// "A partition with no slot shows 0 and 0." With a slot the silence fits into what the others have of the round, and has room for each of their slots.
fn row_fits(policy: &Policy, sheet: &SheetResult, p: usize, round: u64) -> bool {
    let (own, silence) = (u64::from(sheet.ticks[p]), u64::from(sheet.silence[p]));
    let others = (0..policy.slots as usize).filter(|&slot| policy.slot_partition[slot] as usize != p);
    let longest = others.map(|slot| u64::from(policy.slot_ticks[slot])).max().unwrap_or(0);
    if own == 0 {
        silence == 0
    } else {
        (longest..=round - own).contains(&silence)
    }
}

/// The record whose schedule begins with this slot.
fn turned(policy: &Policy, first: usize) -> Policy {
    let (mut turned, slots) = (*policy, policy.slots as usize);
    turned.slot_partition[..slots].rotate_left(first);
    turned.slot_ticks[..slots].rotate_left(first);
    turned
}

fn difference_of_ticks(pair: &[Policy; 2]) -> u32 {
    (0..32).map(|slot| u32::from(pair[0].slot_ticks[slot].abs_diff(pair[1].slot_ticks[slot]))).sum()
}

/// "If one slot's ticks change, within 1 to 1,000, the longest silence of each partition moves by at most that difference": of two sound records.
pub fn moves_too_far(kernel: &dyn Kernel, pair: &[Policy; 2]) -> Option<String> {
    let difference = difference_of_ticks(pair);
    let [one, other] = pair.map(|policy| kernel.sheet(&policy).silence);
    let p = (0..8).find(|&p| one[p].abs_diff(other[p]) > difference)?;
    Some(format!("{}: the silence of partition {p} moves from {} to {}, a slot's ticks by {difference}", kernel.name(), one[p], other[p]))
}

/// The stretches between a partition's slots, in the order of the slots that they come after; the last goes round the end.
fn stretches(policy: &Policy, p: usize) -> Vec<u32> {
    let slots = policy.slots as usize;
    let mut stretches = Vec::new();
    for own in (0..slots).filter(|&slot| policy.slot_partition[slot] as usize == p) {
        let others = (1..slots).map(|step| (own + step) % slots).take_while(|&slot| policy.slot_partition[slot] as usize != p);
        stretches.push(others.map(|slot| u32::from(policy.slot_ticks[slot])).sum());
    }
    stretches
}

impl Reached {
    pub fn sheet(&mut self, wanted: &WantedSheet) {
        let (policy, number) = (&wanted.policy, wanted.sheet.number);
        let by_16 = if number == 10 && text_gave(policy) { " by 16" } else { "" };
        self.count(&format!("sheet {number}{by_16}"));
        if number == 0 {
            self.schedule(policy);
            (0..policy.partitions as usize).for_each(|p| self.row(policy, p));
        }
    }

    fn schedule(&mut self, policy: &Policy) {
        let slots = policy.slots as usize;
        let (owners, ticks) = (&policy.slot_partition[..slots], &policy.slot_ticks[..slots]);
        let each_runs = (0..policy.partitions).all(|p| owners.contains(&p));
        let cases = [
            (slots == 1, "one slot"),
            (round_ticks(policy) == 1, "a round of one tick"),
            (slots == 32, "32 slots"),
            (slots == 32 && ticks.iter().all(|&ticks| ticks == 1_000), "32 slots of 1,000"),
            (slots == 32 && policy.partitions == 8 && each_runs, "32 slots, and each of 8 partitions has one"),
            (policy.partitions == 8 && !each_runs, "8 partitions, and one without a slot"),
            (ticks.contains(&1) && ticks.contains(&1_000), "a slot of 1 and one of 1,000"),
            (slots > 1 && ticks[..slots - 1].iter().all(|&before| before < ticks[slots - 1]), "the last slot the longest"),
        ];
        cases.iter().filter(|case| case.0).for_each(|case| self.count(&format!("schedule: {}", case.1)));
    }

    fn row(&mut self, policy: &Policy, p: usize) {
        let slots = policy.slots as usize;
        let own: Vec<usize> = (0..slots).filter(|&slot| policy.slot_partition[slot] as usize == p).collect();
        let [Some(&first), Some(&last)] = [own.first(), own.last()] else {
            return self.count("row: no slot");
        };
        if own.len() == slots {
            return self.count(if slots == 1 { "row: the one slot" } else { "row: every slot" });
        }
        self.count(match (first == 0, last == slots - 1) {
            (true, false) => "row: own slots first",
            (false, true) => "row: own slots last",
            (true, true) => "row: own slots first and last",
            (false, false) => "row: own slots neither first nor last",
        });
        let in_a_row = own.windows(2).filter(|two| two[0] + 1 == two[1]).count();
        self.count(match in_a_row {
            _ if own.len() == 1 => "row: one own slot",
            0 => "row: own slots apart",
            _ if in_a_row + 1 == own.len() => "row: own slots neighbours",
            _ => "row: own slots neighbours and apart",
        });
        self.silence(&stretches(policy, p), first > 0 && last < slots - 1);
    }

    /// The last stretch goes on past the end, or lies on one side of it.
    fn silence(&mut self, stretches: &[u32], past: bool) {
        let (round, before) = stretches.split_last().expect("a stretch comes after each slot");
        let longest = before.iter().max().unwrap_or(&0);
        self.count(match round.cmp(longest) {
            std::cmp::Ordering::Greater if past => "silence: longest round the end",
            std::cmp::Ordering::Greater => "silence: longest at the end",
            std::cmp::Ordering::Less if past => "silence: longest before the end, and one round it",
            std::cmp::Ordering::Less => "silence: longest before the end",
            std::cmp::Ordering::Equal => "silence: longest before the end and round it",
        });
        if before.iter().filter(|&stretch| stretch == longest).count() > 1 && longest > round {
            self.count("silence: longest twice before the end");
        }
    }

    /// What a change of one slot's ticks does to the silences.
    pub fn change(&mut self, pair: &[Policy; 2]) {
        let difference = difference_of_ticks(pair);
        self.count(match difference {
            1 => "change: by 1",
            999 => "change: by 999",
            _ => "change: by 2 to 998",
        });
        let [one, other] = pair.each_ref().map(|policy| sheet(policy).silence);
        for p in 0..pair[0].partitions as usize {
            let moved = one[p].abs_diff(other[p]);
            self.count(match moved {
                0 => "change: a silence stays",
                _ if moved == difference => "change: a silence moves as far",
                _ => "change: a silence moves less far",
            });
        }
    }
}

/// Every outcome of a sheet, and what schedules, rows and changes there were.
pub const SHEET_CASES: [&str; 34] = [
    "sheet 0",
    "sheet 10",
    "sheet 10 by 16",
    "schedule: one slot",
    "schedule: a round of one tick",
    "schedule: 32 slots",
    "schedule: 32 slots of 1,000",
    "schedule: 32 slots, and each of 8 partitions has one",
    "schedule: 8 partitions, and one without a slot",
    "schedule: a slot of 1 and one of 1,000",
    "schedule: the last slot the longest",
    "row: no slot",
    "row: the one slot",
    "row: every slot",
    "row: own slots first",
    "row: own slots last",
    "row: own slots first and last",
    "row: own slots neither first nor last",
    "row: one own slot",
    "row: own slots apart",
    "row: own slots neighbours",
    "row: own slots neighbours and apart",
    "silence: longest round the end",
    "silence: longest at the end",
    "silence: longest before the end, and one round it",
    "silence: longest before the end",
    "silence: longest before the end and round it",
    "silence: longest twice before the end",
    "change: by 1",
    "change: by 2 to 998",
    "change: by 999",
    "change: a silence stays",
    "change: a silence moves as far",
    "change: a silence moves less far",
];
