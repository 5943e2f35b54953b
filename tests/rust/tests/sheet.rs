//! Change request S-7: "for each partition, its ticks in one round and the longest stretch of ticks in a row, going round the end, in which it isn't
//! current", on the reference and on each kernel.

use separation::compare::{broken_law, moves_too_far, sheet_difference, text_gives};
use separation::generate::policies::{longest, policy, Shape, DEMONSTRATION};
use separation::generate::schedules::{near, of_sort, pair, put, record, spoil, Sort, Ticks, SORTS, TICKS};
use separation::generate::texts::{hexadecimal_text_of, text_of};
use separation::generate::{graphs, records};
use separation::kernel::{Kernel, Place, PlaceExt, Policy, SheetResult, MEMORY};
use separation::misled::sheet::{MisledSheet, Wrong, JUMPING, LAWFUL, WRONG};
use separation::random::Random;
use separation::reference::{policysheet, sound, Reference};
use separation::tuned::Tuned;
use separation::{demonstration, each, kernels, show, shrink};

/// A sound record with so many partitions and these slots: partition, ticks.
fn with(partitions: usize, slots: &[(usize, usize)]) -> Policy {
    let shape = Shape { segments: (16, 16), partitions: (partitions, partitions), slots: (1, 1), right_rate: 9, flow_rate: 100 };
    let mut policy = policy(&mut Random::new(71), shape);
    let (owners, ticks): (Vec<usize>, Vec<usize>) = slots.iter().copied().unzip();
    put(&mut policy, &owners, &ticks);
    assert!(sound(&policy) && policy.partitions as usize == partitions, "{}", show::policy(&policy));
    policy
}

/// Of each partition ticks and silence, 0 and 0 past them.
fn sheet_of(rows: &[(u32, u32)]) -> SheetResult {
    let mut sheet = SheetResult { number: 0, ticks: [0; 8], silence: [0; 8] };
    rows.iter().enumerate().for_each(|(p, &row)| (sheet.ticks[p], sheet.silence[p]) = row);
    sheet
}

/// Every kernel shows these rows, and keeps the laws.
fn shows(policy: &Policy, rows: &[(u32, u32)]) {
    assert_eq!(rows.len(), policy.partitions as usize);
    each(|kernel| {
        assert_eq!(kernel.sheet(policy), sheet_of(rows), "{}: {}", kernel.name(), show::policy(policy));
        assert_eq!(broken_law(kernel, policy), None);
    });
}

#[test]
fn the_demonstrations_sheet() {
    shows(&demonstration(), &[(3, 2), (2, 3)]);
}

#[test]
fn one_slot() {
    for ticks in [1, 2, 999, 1_000] {
        shows(&with(1, &[(0, ticks)]), &[(ticks as u32, 0)]);
        shows(&with(3, &[(1, ticks)]), &[(0, 0), (ticks as u32, 0), (0, 0)]);
    }
}

/// Silence 0 with ticks; a partition that never runs has none.
#[test]
fn all_slots_of_one_partition() {
    for slots in 2..=32 {
        let all: Vec<(usize, usize)> = (0..slots).map(|slot| (1, slot + 1)).collect();
        let ticks = (slots * (slots + 1) / 2) as u32;
        shows(&with(2, &all), &[(0, 0), (ticks, 0)]);
    }
}

/// "A partition with no slot shows 0 and 0."
#[test]
fn a_partition_without_a_slot() {
    shows(&with(2, &[(0, 7)]), &[(7, 0), (0, 0)]);
    shows(&with(3, &[(0, 3), (2, 4), (0, 5)]), &[(8, 4), (0, 0), (4, 8)]);
    shows(&with(8, &[(7, 3), (3, 4)]), &[(0, 0), (0, 0), (0, 0), (4, 3), (0, 0), (0, 0), (0, 0), (3, 4)]);
}

#[test]
fn own_slots_first() {
    shows(&with(2, &[(0, 5), (1, 2), (1, 3)]), &[(5, 5), (5, 5)]);
    shows(&with(3, &[(0, 5), (0, 1), (1, 2), (2, 10)]), &[(6, 12), (2, 16), (10, 8)]);
}

#[test]
fn own_slots_last() {
    shows(&with(2, &[(1, 2), (1, 3), (0, 5)]), &[(5, 5), (5, 5)]);
    shows(&with(3, &[(2, 10), (1, 2), (0, 5), (0, 1)]), &[(6, 12), (2, 16), (10, 8)]);
}

/// The stretch round the end is then none at all.
#[test]
fn own_slots_first_and_last() {
    shows(&with(2, &[(0, 4), (1, 7), (0, 2)]), &[(6, 7), (7, 6)]);
    shows(&with(3, &[(0, 4), (1, 7), (0, 1), (2, 9), (0, 2)]), &[(7, 9), (7, 16), (9, 14)]);
}

#[test]
fn own_slots_apart() {
    shows(&with(2, &[(1, 6), (0, 1), (1, 5), (0, 1), (1, 4)]), &[(2, 10), (15, 1)]);
    shows(&with(2, &[(1, 3), (0, 1), (1, 9), (0, 1), (1, 4)]), &[(2, 9), (16, 1)]);
}

#[test]
fn own_slots_neighbours() {
    shows(&with(2, &[(1, 3), (0, 2), (0, 5), (1, 4)]), &[(7, 7), (7, 7)]);
    shows(&with(2, &[(1, 3), (0, 2), (0, 5), (1, 4), (0, 1), (0, 1), (0, 1), (1, 8)]), &[(10, 11), (15, 7)]);
}

/// The longest is that round the end, then it is not, then both are equal.
#[test]
fn silence_round_the_end() {
    shows(&with(2, &[(1, 6), (0, 1), (1, 9), (0, 1), (1, 4)]), &[(2, 10), (19, 1)]);
    shows(&with(2, &[(1, 6), (0, 1), (1, 11), (0, 1), (1, 4)]), &[(2, 11), (21, 1)]);
    shows(&with(2, &[(1, 6), (0, 1), (1, 10), (0, 1), (1, 4)]), &[(2, 10), (20, 1)]);
    // Neither half of it is the longest by itself.
    shows(&with(2, &[(1, 6), (0, 1), (1, 8), (0, 1), (1, 6)]), &[(2, 12), (20, 1)]);
    // All but one slot, most of it past the end.
    shows(&with(2, &[(1, 100), (1, 200), (0, 1), (1, 3)]), &[(1, 303), (303, 1)]);
}

#[test]
fn the_last_slot_the_longest() {
    shows(&with(3, &[(0, 1), (1, 2), (2, 1_000)]), &[(1, 1_002), (2, 1_001), (1_000, 3)]);
    shows(&with(2, &[(1, 3), (0, 1), (1, 2), (0, 1_000)]), &[(1_001, 3), (5, 1_000)]);
}

#[test]
fn a_slot_of_1_and_one_of_1_000() {
    shows(&with(2, &[(0, 1), (1, 1_000)]), &[(1, 1_000), (1_000, 1)]);
    shows(&with(2, &[(0, 1_000), (1, 1)]), &[(1_000, 1), (1, 1_000)]);
}

/// The longest round of all has 32,000 ticks, the longest silence 31,000.
#[test]
fn thirty_two_slots_of_1_000() {
    shows(&longest(), &[(4_000, 7_000); 8]);
    for own in [0, 1, 15, 30, 31] {
        let mut slots = [(1, 1_000); 32];
        slots[own].0 = 0;
        shows(&with(2, &slots), &[(1_000, 31_000), (31_000, 1_000)]);
        slots[own].1 = 1;
        shows(&with(2, &slots), &[(1, 31_000), (31_000, 1)]);
    }
}

/// What the manual says of shorter silences: an own slot between; and that a slot in two parts is one slot.
#[test]
fn a_silence_is_shortened_by_an_own_slot_between() {
    shows(&with(2, &[(0, 4), (1, 10)]), &[(4, 10), (10, 4)]);
    shows(&with(2, &[(0, 4), (1, 5), (1, 5)]), &[(4, 10), (10, 4)]);
    shows(&with(2, &[(0, 2), (1, 5), (0, 2), (1, 5)]), &[(4, 5), (10, 2)]);
}

/// Each number of partitions, each with a slot in turn, or the last without one: rows past them are 0 and 0.
#[test]
fn rows_past_the_partitions() {
    for partitions in 1..=8_usize {
        let slots: Vec<(usize, usize)> = (0..partitions).map(|p| (p, 10)).collect();
        let others = 10 * (partitions as u32 - 1);
        shows(&with(partitions, &slots), &vec![(10, others); partitions]);
        if partitions > 1 {
            let mut rows = vec![(10, others - 10); partitions];
            rows[partitions - 1] = (0, 0);
            shows(&with(partitions, &slots[..partitions - 1]), &rows);
        }
    }
}

/// A record whose schedule alone is not sound.
fn spoilt(random: &mut Random) -> Policy {
    let mut policy = record(random);
    spoil(random, &mut policy);
    assert!(!sound(&policy), "{}", show::policy(&policy));
    policy
}

/// "Refused: 10, all zeros": every way to be unsound that the tests know.
#[test]
fn a_record_that_is_not_sound_is_10() {
    let mut random = Random::new(72);
    let records = [demonstration(), longest(), record(&mut random), graphs::record(&mut random)];
    let mut unsound: Vec<Policy> = records.iter().flat_map(records::near).filter(|other| !sound(other)).collect();
    unsound.push(Policy::ZERO);
    unsound.extend((0..1_000).map(|_| records::noise(&mut random)));
    unsound.extend((0..2_000).map(|_| spoilt(&mut random)));
    let wanted = SheetResult { number: 10, ticks: [0; 8], silence: [0; 8] };
    for policy in unsound {
        assert!(!text_gives(&policy));
        each(|kernel| assert_eq!(kernel.sheet(&policy), wanted, "{}: {policy:?}", kernel.name()));
    }
}

/// The current partitions of two rounds, by Runs of one tick.
fn two_rounds(kernel: &dyn Kernel, policy: &Policy, begin: Place) -> Vec<usize> {
    let (mut memory, mut place, mut currents, mut rounds) = (vec![0; MEMORY], begin, Vec::new(), 0);
    while rounds < 2 {
        currents.push(policy.slot_partition[place.slot as usize] as usize);
        place = kernel.run(policy, &mut memory, place, 1).place;
        rounds += ((place.slot, place.used) == (begin.slot, begin.used)) as u32;
    }
    currents
}

/// "current" is what it is in a Run, and it does not matter where Runs begin.
#[test]
fn the_sheet_is_what_runs_show() {
    let mut random = Random::new(73);
    for _ in 0..200 {
        let (sort, slots) = (random.pick(&SORTS), random.from(3, 9));
        let (policy, _) = of_sort(&mut random, sort, Ticks::Short, slots);
        let begin = Place::at(random.below(policy.slots as usize) as u32, 0);
        each(|kernel| {
            let currents = two_rounds(kernel, &policy, begin);
            let row = |p: usize| {
                let ticks = currents.iter().filter(|&&current| current == p).count() as u32 / 2;
                let silence = currents.split(|&current| current == p).map(|stretch| stretch.len() as u32).max().unwrap();
                (ticks, if ticks == 0 { 0 } else { silence })
            };
            let rows: Vec<(u32, u32)> = (0..policy.partitions as usize).map(row).collect();
            assert_eq!(kernel.sheet(&policy), sheet_of(&rows), "{}: {}", kernel.name(), show::policy(&policy));
        });
    }
}

/// Schedules of each sort, and records near them.
#[test]
fn kernels_agree_and_keep_the_laws() {
    let mut random = Random::new(74);
    for _ in 0..3_000 {
        let policy = near(&mut random);
        kernels().iter().for_each(|kernel| assert_eq!(sheet_difference(&**kernel, &policy), None, "{}", show::policy(&policy)));
        assert_eq!(sound(&policy).then(|| broken_law(&Reference, &policy)).flatten(), None, "{}", show::policy(&policy));
    }
}

/// A slot in two parts, one after the other, is the same schedule.
#[test]
fn a_slot_in_two_parts_changes_nothing() {
    let mut random = Random::new(75);
    for _ in 0..300 {
        let (sort, slots) = (random.pick(&SORTS), random.from(3, 31));
        let (policy, _) = of_sort(&mut random, sort, Ticks::Full, slots);
        let (last, at, ticks) = (policy.slots as usize - 1, random.below(policy.slots as usize), random.from(1, 999) as u16);
        let mut parts = Policy { slots: policy.slots + 1, ..policy };
        parts.slot_partition.copy_within(at..=last, at + 1);
        parts.slot_ticks.copy_within(at..=last, at + 1);
        (parts.slot_ticks[at], parts.slot_ticks[at + 1]) = (ticks, 1_000 - ticks);
        assert!(sound(&parts));
        each(|kernel| assert_eq!(kernel.sheet(&parts), kernel.sheet(&policy), "{}: {}", kernel.name(), show::policy(&parts)));
    }
}

/// "If one slot's ticks change, within 1 to 1,000, the longest silence of each partition moves by at most that difference": every slot of one schedule to
/// every number of ticks.
#[test]
fn silences_move_by_at_most_the_difference() {
    let one = with(3, &[(1, 600), (0, 1), (1, 400), (2, 300), (0, 1), (2, 1_000), (0, 5)]);
    let mut furthest = [0; 3];
    for (slot, ticks) in (0..7).flat_map(|slot| (1..=1_000).map(move |ticks| (slot, ticks))) {
        let mut other = one;
        other.slot_ticks[slot] = ticks;
        each(|kernel| assert_eq!(moves_too_far(kernel, &[one, other]), None, "slot {slot}, {ticks} ticks"));
        let moved = |p: usize| Tuned.sheet(&one).silence[p].abs_diff(Tuned.sheet(&other).silence[p]);
        (0..3).for_each(|p| furthest[p] = furthest[p].max(moved(p)));
    }
    // That of 0 is slot 5 alone, and moves furthest where slot 3 has 1,000 ticks: from 1,000 to 1,400.
    assert_eq!(furthest, [400, 999, 999]);
}

#[test]
fn silences_of_random_pairs_move_by_at_most_the_difference() {
    let mut random = Random::new(76);
    for _ in 0..3_000 {
        let pair = pair(&mut random);
        each(|kernel| assert_eq!(moves_too_far(kernel, &pair), None, "{}", pair.map(|policy| show::policy(&policy)).concat()));
    }
}

/// Schedules of each sort are sound and as they say, for 3 to 32 slots and ticks of each sort.
#[test]
fn generated_schedules_are_of_their_sort() {
    let mut random = Random::new(77);
    let all = SORTS.into_iter().flat_map(|sort| TICKS.map(|ticks| (sort, ticks)));
    for (sort, ticks, slots) in all.flat_map(|(sort, ticks)| (3..=32).map(move |slots| (sort, ticks, slots))) {
        let (policy, one) = of_sort(&mut random, sort, ticks, slots);
        let count = policy.slots as usize;
        assert!(sound(&policy) && count == if sort == Sort::OneSlot { 1 } else { slots }, "{sort:?}: {}", show::policy(&policy));
        let own: Vec<bool> = policy.slot_partition[..count].iter().map(|&owner| owner as usize == one).collect();
        let in_a_row = own.windows(2).filter(|two| two[0] && two[1]).count();
        let owned = own.iter().filter(|own| **own).count();
        let fits = match sort {
            Sort::OneSlot | Sort::Alone => owned == count,
            Sort::Without => owned == 0,
            Sort::First => own[0] && in_a_row + 1 == owned && owned < count,
            Sort::Last => own[count - 1] && in_a_row + 1 == owned && owned < count,
            Sort::Ends => own[0] && own[count - 1] && in_a_row + 2 == owned,
            Sort::Apart => owned > 0 && in_a_row == 0,
            Sort::Within => !own[0] && !own[count - 1] && in_a_row + 1 == owned,
            Sort::Turns => (0..count).all(|slot| policy.slot_partition[slot] as usize == slot % policy.partitions as usize),
            Sort::Any => true,
        };
        assert!(fits, "{sort:?}: {}", show::policy(&policy));
        assert!(ticks_fit(ticks, &policy.slot_ticks[..count]), "{ticks:?}: {}", show::policy(&policy));
    }
}

fn ticks_fit(ticks: Ticks, all: &[u16]) -> bool {
    let last = all[all.len() - 1];
    match ticks {
        Ticks::Short => all.iter().all(|&ticks| ticks <= 9),
        Ticks::Any => true,
        Ticks::Edges => all.contains(&1_000) && (all.len() == 1 || all.contains(&1)),
        Ticks::Alike => all.iter().all(|&ticks| ticks == last),
        Ticks::Full => all.iter().all(|&ticks| ticks == 1_000),
        Ticks::LastLongest => all[..all.len() - 1].iter().all(|&ticks| ticks < last),
    }
}

/// Both are sound, and differ in the ticks of one slot: by 1, by 999, and by others.
#[test]
fn generated_pairs_differ_in_one_slot() {
    let mut random = Random::new(78);
    let mut by = [0; 1_000];
    for _ in 0..5_000 {
        let pair = pair(&mut random);
        assert!(pair.iter().all(sound));
        let changed: Vec<usize> = (0..32).filter(|&slot| pair[0].slot_ticks[slot] != pair[1].slot_ticks[slot]).collect();
        let [slot] = changed[..] else { panic!("slots {changed:?}") };
        assert_eq!(Policy { slot_ticks: pair[1].slot_ticks, ..pair[0] }, pair[1]);
        by[pair[0].slot_ticks[slot].abs_diff(pair[1].slot_ticks[slot]) as usize] += 1;
    }
    assert!(by[1] > 500 && by[999] > 500 && by[2..999].iter().filter(|&&count| count > 0).count() > 300);
}

/// The program's bytes, by hand.
#[test]
fn what_the_program_writes() {
    let wanted = "partition\t0\t3\t2\npartition\t1\t2\t3\nround\t5\n";
    for text in [DEMONSTRATION.as_bytes().to_vec(), hexadecimal_text_of(&demonstration())] {
        assert_eq!(policysheet(&text), wanted);
    }
    let rows: String = (0..8).map(|p| format!("partition\t{p}\t4000\t7000\n")).collect();
    assert_eq!(policysheet(&text_of(&longest())), format!("{rows}round\t32000\n"));
    let alone = with(3, &[(1, 1_000), (1, 1)]);
    assert_eq!(policysheet(&text_of(&alone)), "partition\t0\t0\t0\npartition\t1\t1001\t0\npartition\t2\t0\t0\nround\t1001\n");
    assert_eq!(policysheet(DEMONSTRATION.replace("flow\t1\t4\n", "").as_bytes()), "refused\t8\t0\n");
    assert_eq!(policysheet(DEMONSTRATION.replace("slot\t1\t2\n", "slot\t2\t2\n").as_bytes()), "refused\t4\t18\n");
    assert_eq!(policysheet(&DEMONSTRATION.as_bytes()[..224]), "refused\t2\t18\n");
    assert_eq!(policysheet(b""), "refused\t6\t0\n");
    assert_eq!(policysheet(&[b'x'; 16_385]), "refused\t1\t0\n");
}

/// The comparison can fail: the reference finds each wrong sheet in few records, and the schedule is made short.
#[test]
fn wrong_sheets_are_found() {
    for wrong in WRONG {
        let kernel = MisledSheet(wrong);
        // Not by a law.
        let differs = |policy: &Policy| sheet_difference(&kernel, policy).is_some_and(|difference| difference.starts_with("sheet: "));
        let mut random = Random::new(79);
        let found = (0..1_000).map(|_| near(&mut random)).find(differs).unwrap_or_else(|| panic!("{wrong:?}"));
        // Two halves of a stretch and what is between.
        if wrong == Wrong::NotRoundTheEnd {
            let short = shrink::shrink_policy(&found, &mut |policy| differs(policy));
            assert_eq!(short.slots, 3, "{}", show::policy(&short));
        }
    }
}

/// The laws can fail too, without the reference: on one sheet, and on the sheets of a pair.
#[test]
fn wrong_sheets_break_the_laws() {
    for wrong in WRONG {
        let kernel = MisledSheet(wrong);
        let mut random = Random::new(80);
        assert_eq!((0..1_000).any(|_| broken_law(&kernel, &record(&mut random)).is_some()), !LAWFUL.contains(&wrong), "{wrong:?}");
        assert_eq!((0..1_000).any(|_| moves_too_far(&kernel, &pair(&mut random)).is_some()), JUMPING.contains(&wrong), "{wrong:?}");
    }
}
