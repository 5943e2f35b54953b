//! The tests' own tools: what they generate is what they say, differences are found and made short, and leaky kernels are caught.

use separation::compare::{list_difference, record_difference, text_difference, text_gave, text_gives};
use separation::generate::lists::{list, Call};
use separation::generate::mutations::split;
use separation::generate::numbers::worth;
use separation::generate::policies::{longest, policy, Shape};
use separation::generate::records::perturb;
use separation::generate::texts::text;
use separation::kernel::{Kernel, Place, Policy, ReadResult, RecordExt, RunResult, MEMORY};
use separation::leaky::{Leaky, LEAKS};
use separation::pairs::{bytes_of, check, explain, run_pair, tick_pair, tick_pair_by_count};
use separation::random::Random;
use separation::reference::{self, judge, judge_without_16, readable, sound, sources, tick, writable, Event, Reference, COUNTER, ENABLED};
use separation::{accepted, as_reference, refused, show, shrink};

#[test]
fn generated_policies_are_sound() {
    let mut random = Random::new(11);
    for _ in 0..3_000 {
        let shape = Shape::any(&mut random);
        let policy = policy(&mut random, shape);
        assert!(sound(&policy) && text_gives(&policy), "{}", show::policy(&policy));
    }
    assert!(sound(&longest()));
}

/// Wrong in two places: a length of 4,097 is refused as an overlap, and listen enables no line.
struct Wrong;

impl Kernel for Wrong {
    fn name(&self) -> &'static str {
        "wrong"
    }
    fn read(&self, text: &[u8]) -> ReadResult {
        let mut answer = reference::read(text);
        let line = text.split(|&byte| byte == b'\n').nth(answer.line.max(1) as usize - 1).unwrap_or_default();
        if answer.number == 4 && line.starts_with(b"segment") && line.ends_with(b"\t4097") {
            answer.number = 5;
        }
        answer
    }
    as_reference!(sound, start, pend, reach, can_reach, sheet);
    fn run(&self, policy: &Policy, memory: &mut [u8], place: Place, ticks: u32) -> RunResult {
        let enabled: Vec<usize> = (0..8).map(|p| policy.base[policy.save[p] as usize % 32] as usize + ENABLED).collect();
        let before: Vec<u8> = enabled.iter().map(|&at| memory.get(at).copied().unwrap_or(0)).collect();
        let result = reference::run(policy, memory, place, ticks);
        if result.number == 0 {
            enabled.iter().zip(before).take(policy.partitions as usize).for_each(|(&at, byte)| memory[at] = byte);
        }
        result
    }
}

#[test]
fn a_wrong_reader_is_found_and_the_text_is_made_short() {
    let mut random = Random::new(12);
    let found = (0..20_000).map(|_| text(&mut random)).find(|text| text_difference(&Wrong, text).is_some()).expect("a text that tells");
    let short = shrink::shrink_text(&found, &mut |text| text_difference(&Wrong, text).is_some());
    // The bad length alone, after the segments that its id asks for.
    let lines = split(&short);
    let last = lines.last().expect("a line");
    assert_eq!((&last[0][..], worth(&last[1])), (b"segment" as &[u8], Some(lines.len() - 1)), "{}", show::text(&short));
    assert!(short.ends_with(b"\t4097\n"));
}

#[test]
fn a_wrong_run_is_found_and_the_list_is_made_short() {
    let mut random = Random::new(13);
    let found = (0..5_000).map(|_| list(&mut random)).find(|list| list_difference(&Wrong, list).is_some()).expect("a list that tells");
    let short = shrink::shrink_list(&found, &mut |list| list_difference(&Wrong, list).is_some());
    assert_eq!(short.steps.len(), 1, "{}", show::list(&short));
    assert!(matches!(short.steps[0].call, Call::Run { .. }));
    assert!(short.memory[..MEMORY].iter().filter(|&&byte| byte != 0).count() < 40, "{}", show::list(&short));
}

/// Wrong about change request S-5, one way each.
#[derive(Clone, Copy, PartialEq, Eq, Debug)]
enum Sources {
    /// As before it.
    Any,
    /// W(p) for R(p).
    Written,
    ReadOrWritten,
    ReadBySome,
    /// Partitions without a slot are left out.
    WithoutSlotAny,
    /// A segment of 44 bytes is taken for a save segment.
    ByLength,
    /// 16 before 8.
    BeforeEight,
}

const WRONG_SOURCES: [Sources; 7] =
    [Sources::Any, Sources::Written, Sources::ReadOrWritten, Sources::ReadBySome, Sources::WithoutSlotAny, Sources::ByLength, Sources::BeforeEight];

impl Sources {
    fn allows(self, policy: &Policy, p: usize, s: usize) -> bool {
        match self {
            Sources::Any => true,
            Sources::Written => writable(policy, p, s),
            Sources::ReadOrWritten => readable(policy, p, s) || writable(policy, p, s),
            Sources::ReadBySome => (0..policy.partitions as usize).any(|q| readable(policy, q, s)),
            Sources::WithoutSlotAny if !policy.slot_partition[..policy.slots as usize].contains(&(p as u8)) => true,
            _ => readable(policy, p, s),
        }
    }

    fn stray(self, policy: &Policy) -> bool {
        let stray = |p: usize| (0..32).any(|s| policy.flow(s, policy.save[p] as usize) && !self.allows(policy, p, s));
        let taken = |t: usize| self == Sources::ByLength && policy.size[t] == 44 && !policy.is_save(t) && policy.sources[t] != 0;
        (0..policy.partitions as usize).any(stray) || (0..32).any(taken)
    }

    /// What a call answers that the reference would answer otherwise.
    fn otherwise(self, policy: &Policy, memory: &[u8]) -> Option<u32> {
        let is_sound = self.sound(policy) == 1;
        (memory.len() == MEMORY && is_sound != sound(policy)).then_some(if is_sound { 0 } else { 10 })
    }
}

impl Kernel for Sources {
    fn name(&self) -> &'static str {
        "wrong sources"
    }
    as_reference!(reach, can_reach, sheet);
    fn read(&self, text: &[u8]) -> ReadResult {
        match (judge(text), judge_without_16(text)) {
            (Err(refusal), _) if *self == Sources::BeforeEight && refusal.also.contains(&16) => refused(16, 0),
            (_, Err(refusal)) => refused(refusal.number, refusal.line),
            (_, Ok(lines)) if self.stray(&lines.record()) => refused(16, 0),
            (_, Ok(lines)) => accepted(lines.record()),
        }
    }
    fn sound(&self, policy: &Policy) -> u32 {
        (text_gave(policy) && !self.stray(policy)) as u32
    }
    fn start(&self, policy: &Policy, memory: &mut [u8]) -> RunResult {
        let otherwise = self.otherwise(policy, memory).map(|number| RunResult { number, place: Place::FIRST });
        otherwise.unwrap_or_else(|| reference::start(policy, memory))
    }
    fn pend(&self, policy: &Policy, memory: &mut [u8], partition: u32, line: u32) -> u32 {
        self.otherwise(policy, memory).unwrap_or_else(|| reference::pend(policy, memory, partition, line))
    }
    fn run(&self, policy: &Policy, memory: &mut [u8], place: Place, ticks: u32) -> RunResult {
        let otherwise = self.otherwise(policy, memory).map(|number| RunResult { number, place });
        otherwise.unwrap_or_else(|| reference::run(policy, memory, place, ticks))
    }
}

/// By texts, by records and by lists of calls; the order of refusals shows in texts alone.
#[test]
fn wrong_sources_are_found() {
    for wrong in WRONG_SOURCES {
        let mut random = Random::new(17);
        assert!((0..20_000).any(|_| text_difference(&wrong, &text(&mut random)).is_some()), "{wrong:?} by texts");
        let by_records = (0..20_000).any(|_| {
            let shape = Shape::any(&mut random);
            let mut record = policy(&mut random, shape);
            perturb(&mut random, &mut record);
            record_difference(&wrong, &record).is_some()
        });
        let by_lists = (0..20_000).any(|_| list_difference(&wrong, &list(&mut random)).is_some());
        assert_eq!((by_records, by_lists), [(true, true), (false, false)][(wrong == Sources::BeforeEight) as usize], "{wrong:?}");
    }
}

/// Words are loaded and stored at both ends of segments, between them aligned and not, in segments of four and five bytes, and in the code that runs.
#[test]
fn generated_programs_move_words() {
    let mut random = Random::new(16);
    let mut seen = [[0; 7]; 2];
    for _ in 0..4_000 {
        let list = list(&mut random);
        let (policy, mut memory, mut place) = (list.policies[0], list.memory, Place::FIRST);
        for _ in 0..200 {
            let p = policy.slot_partition[place.slot as usize] as usize;
            let save = memory[bytes_of(&policy, policy.save[p] as usize)].to_vec();
            let at = policy.base[policy.code[p] as usize] as usize + save[COUNTER] as usize + 256 * save[COUNTER + 1] as usize;
            let instruction = memory.get(at..at + 4).unwrap_or(&[0; 4]).to_vec();
            if let Event::Ran { opcode: opcode @ 13..=14 } = tick(&policy, &mut memory, p, place.count) {
                let register = 4 * instruction[2] as usize;
                let offset = u32::from_le_bytes(save[register..register + 4].try_into().unwrap()) as usize;
                let (segment, size) = (instruction[3], policy.size[instruction[3] as usize] as usize);
                let inner = offset > 0 && offset + 4 < size;
                let cases =
                    [offset == 0, offset + 4 == size, inner && offset.is_multiple_of(4), inner && !offset.is_multiple_of(4), size == 4, size == 5];
                let own = segment == policy.code[p];
                cases.into_iter().chain([own]).enumerate().for_each(|(case, is)| seen[opcode as usize - 13][case] += is as usize);
            }
            place = reference::next_place(&policy, place);
        }
    }
    assert!(seen.as_flattened().iter().all(|&count| count > 50), "{seen:?}");
}

#[test]
fn pairs_are_as_the_demand_has_them() {
    let mut random = Random::new(14);
    for _ in 0..2_000 {
        let pair = run_pair(&mut random);
        assert_eq!(pair.places[0], pair.places[1]);
        let same = sources(&pair.policy, pair.target);
        let segments = pair.policy.segments as usize;
        for segment in (0..segments).filter(|&segment| same[segment]) {
            let bytes = bytes_of(&pair.policy, segment);
            assert_eq!(pair.memories[0][bytes.clone()], pair.memories[1][bytes]);
        }
        // The lines pended between the same ticks, for partitions whose save segment is a source.
        let pended = [0, 1].map(|side| {
            let (mut done, mut place, mut lines) = (0, pair.places[side], Vec::new());
            for call in &pair.lists[side] {
                match *call {
                    Call::Run { ticks, .. } => {
                        let result = reference::run(&pair.policy, &mut [0; MEMORY], place, ticks);
                        done += if result.number == 0 { ticks } else { 0 };
                        place = result.place;
                    }
                    Call::Pend { partition, line } => {
                        let there = partition < u32::from(pair.policy.partitions) && line < 8;
                        if there && same[pair.policy.save[partition as usize] as usize] {
                            lines.push((done, partition, line));
                        }
                    }
                    Call::Start => panic!("no Start in these lists"),
                }
            }
            lines.sort();
            lines.dedup();
            (done, lines)
        });
        assert_eq!(pended[0], pended[1]);
        assert!(check(&Reference, &pair).leak.is_none(), "{}", explain(&Reference, &pair));
        let pair = tick_pair(&mut random);
        assert_eq!(pair.places[0].count, pair.places[1].count);
        assert!(check(&Reference, &pair).leak.is_none(), "{}", explain(&Reference, &pair));
    }
}

/// That the counts are equal is a premise that one tick needs; slots and ticks used may differ.
#[test]
fn counts_that_differ_show() {
    let mut random = Random::new(17);
    assert!((0..20_000).any(|_| check(&Reference, &tick_pair_by_count(&mut random)).leak.is_some()));
    assert!((0..200).any(|_| {
        let places = tick_pair(&mut random).places;
        places[0].slot != places[1].slot && places[0].used != places[1].used
    }));
}

#[test]
fn leaky_kernels_are_caught() {
    for leak in LEAKS.into_iter().filter(|&leak| leak != separation::leaky::Leak::RuleEightWithoutSave) {
        let mut random = Random::new(15);
        let pair = (0..20_000).map(|_| run_pair(&mut random)).find(|pair| check(&Leaky(leak), pair).leak.is_some());
        let pair = pair.unwrap_or_else(|| panic!("{leak:?} is not caught"));
        assert!(explain(&Leaky(leak), &pair).contains("target: segment"));
    }
}
