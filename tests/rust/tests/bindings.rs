//! The safe crate of the bindings, held to the reference on random texts, records and call lists.
#![cfg(feature = "archive")]

use separation::compare::{list_difference, reach_difference, record_difference, sheet_difference, text_difference};
use separation::generate::policies::{full_in_hexadecimal, longest, DEMONSTRATION};
use separation::generate::{graphs, lists, records, schedules, texts};
use separation::proved::Safe;
use separation::random::Random;
use separation::show;

#[test]
fn texts_are_read_as_the_reference_reads_them() {
    let mut random = Random::new(61);
    let fixed = [DEMONSTRATION.as_bytes().to_vec(), texts::text_of(&longest()), texts::hexadecimal_text_of(&full_in_hexadecimal())];
    let (mut read, mut accepted) = (0, 0);
    for text in fixed.into_iter().chain(std::iter::repeat_with(|| texts::text(&mut random)).take(3_000)) {
        assert_eq!(text_difference(&Safe, &text), None, "{}", show::text(&text));
        (read, accepted) = (read + 1, accepted + separation_kernel::Policy::read(&text).is_ok() as u32);
    }
    assert!(accepted > 100 && read - accepted > 100, "{accepted} of {read} accepted");
}

#[test]
fn records_are_judged_and_asked_as_the_reference_does() {
    let mut random = Random::new(62);
    for round in 0..1_500 {
        let mut record = [graphs::near, schedules::near][round % 2](&mut random);
        if round % 5 == 0 {
            records::perturb(&mut random, &mut record);
        }
        for difference in [record_difference, reach_difference, sheet_difference] {
            assert_eq!(difference(&Safe, &record), None, "{}", show::policy(&record));
        }
    }
}

#[test]
fn lists_of_calls_go_as_the_references_do() {
    let mut random = Random::new(63);
    for _ in 0..1_000 {
        let list = lists::list(&mut random);
        assert_eq!(list_difference(&Safe, &list), None, "{}", show::list(&list));
    }
}
