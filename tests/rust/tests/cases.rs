//! The cases of the scope document and of the change requests, on the reference and on each kernel.

use separation::compare::text_difference;
use separation::generate::mutations::{join, split};
use separation::generate::numbers::{is_place, rewrite};
use separation::generate::policies::{full_in_hexadecimal, longest, policy, Shape, DEMONSTRATION};
use separation::generate::texts::{hexadecimal_text_of, text, text_of};
use separation::kernel::{Kernel, Place, PlaceExt, Policy, RecordExt, RunResult, MEMORY};
use separation::random::Random;
use separation::reference::{report, SAVE};
use separation::{accepted, demonstration, each, kernels, refused, show};

/// Start, some bytes put into memory, ticks; the memory and the result.
fn after(kernel: &dyn Kernel, put: &[(usize, &[u8])], ticks: u32) -> (Vec<u8>, RunResult) {
    let policy = demonstration();
    let mut memory = vec![0; MEMORY];
    assert_eq!(kernel.start(&policy, &mut memory).number, 0);
    for (at, bytes) in put {
        memory[*at..at + bytes.len()].copy_from_slice(bytes);
    }
    let result = kernel.run(&policy, &mut memory, Place::FIRST, ticks);
    assert_eq!(result.number, 0);
    (memory, result)
}

#[test]
fn demonstration_is_the_one_in_the_repository_and_accepted() {
    assert_eq!(DEMONSTRATION.as_bytes(), include_bytes!("../../../policies/demonstration.policy"));
    each(|kernel| {
        let answer = kernel.read(DEMONSTRATION.as_bytes());
        assert_eq!((answer.number, answer.line), (0, 0));
        assert_eq!(kernel.sound(&answer.policy), 1);
        assert_eq!(kernel.sound(&Policy::ZERO), 0);
    });
    let wanted = "accepted\t2\t5\t2\t5\nsegment\t0\t1\t0\nsegment\t1\t1\t1\nsegment\t2\t2\t0\nsegment\t3\t2\t2\nsegment\t4\t2\t1\n";
    assert_eq!(report(DEMONSTRATION.as_bytes()), wanted);
    assert_eq!(report(b""), "refused\t6\t0\n");
}

#[test]
fn k1_to_k4() {
    each(|kernel| {
        assert_eq!(kernel.read(DEMONSTRATION.replace("flow\t1\t4\n", "").as_bytes()), refused(8, 0));
        assert_eq!(kernel.read(b""), refused(6, 0));
        assert_eq!(kernel.read(&DEMONSTRATION.as_bytes()[..DEMONSTRATION.len() - 1]), refused(2, 18));
        assert_eq!(kernel.read(DEMONSTRATION.replace("segment\t1\t64", "segment\t1\t63").as_bytes()), refused(5, 2));
    });
}

#[test]
fn k5_to_k7() {
    each(|kernel| {
        let program = [1, 0, 0x41, 0, 8, 0, 1, 4, 0, 0, 0, 0];
        let (memory, result) = after(kernel, &[(0, &program)], 3);
        assert_eq!((memory[256], memory[64 + 32], memory[64 + 33], memory[64 + 34]), (65, 8, 0, 1));
        assert_eq!(result.place, Place { slot: 1, used: 0, count: 3 });
        let (memory, _) = after(kernel, &[(0, &[7, 0, 1, 4])], 1);
        assert_eq!((memory[64 + 34], memory[64 + 35]), (2, 3));
        let (memory, _) = after(kernel, &[(0, &[1, 1, 15, 0, 8, 0, 1, 4]), (64, &[9])], 2);
        assert_eq!((memory[64 + 34], memory[256 + 15]), (0, 9));
        let (memory, _) = after(kernel, &[(0, &[1, 1, 16, 0, 8, 0, 1, 4]), (64, &[9])], 2);
        assert_eq!((memory[64 + 34], memory[64 + 35], memory[256 + 16]), (2, 4, 0));
    });
}

#[test]
fn k8_to_k10() {
    each(|kernel| {
        let (memory, _) = after(kernel, &[(60, &[1, 0, 5, 0]), (64 + 32, &[60])], 1);
        assert_eq!((memory[64], memory[64 + 34], memory[64 + 32]), (5, 0, 64));
        let (memory, _) = after(kernel, &[(64 + 32, &[61])], 1);
        assert_eq!((memory[64 + 34], memory[64 + 35], memory[64 + 32]), (2, 1, 61));
        let (memory, _) = after(kernel, &[(64 + 36, &[6, 7])], 1);
        assert_eq!((memory[64 + 36], memory[64 + 28], memory[64 + 42]), (4, 1, 1));
        let (memory, _) = after(kernel, &[(0, &[3, 2, 0, 1]), (64 + 4, &[1])], 1);
        assert_eq!(memory[64 + 8..64 + 12], [255; 4]);
    });
}

#[test]
fn limits_of_the_calls() {
    let policy = demonstration();
    each(|kernel| {
        let mut memory = vec![7; MEMORY + 1];
        for length in [0, MEMORY - 1, MEMORY + 1] {
            assert_eq!(kernel.start(&policy, &mut memory[..length]), RunResult { number: 9, place: Place::FIRST });
            assert_eq!(kernel.pend(&policy, &mut memory[..length], 0, 0), 9);
            let place = Place::at(1, 1);
            assert_eq!(kernel.run(&policy, &mut memory[..length], place, 1), RunResult { number: 9, place });
        }
        memory.truncate(MEMORY);
        let mut bad = policy;
        bad.set_flow(1, 1, true);
        let far = Place::at(2, 0);
        assert_eq!(kernel.run(&bad, &mut memory, far, 10_001), RunResult { number: 10, place: far });
        assert_eq!(kernel.run(&policy, &mut memory, far, 10_001), RunResult { number: 13, place: far });
        assert_eq!(kernel.run(&policy, &mut memory, Place::at(0, 3), 0).number, 13);
        assert_eq!(kernel.run(&policy, &mut memory, Place::at(0, 2), 10_001).number, 14);
        assert_eq!(kernel.pend(&policy, &mut memory, 2, 8), 11);
        assert_eq!(kernel.pend(&policy, &mut memory, 1, 8), 12);
        assert!(memory.iter().all(|&byte| byte == 7));
        assert_eq!(kernel.pend(&policy, &mut memory, 1, 7), 0);
        assert_eq!(memory[192 + 36], 7 | 128);
        assert_eq!(kernel.start(&policy, &mut memory).number, 0);
        assert!(memory[192..192 + SAVE].iter().all(|&byte| byte == 0) && memory[192 + SAVE] == 7);
        let round = RunResult { number: 0, place: Place { count: 10_000, ..Place::FIRST } };
        assert_eq!(kernel.run(&policy, &mut memory, Place::FIRST, 10_000), round);
    });
}

#[test]
fn limits_of_the_text() {
    each(|kernel| {
        let longest = text_of(&longest());
        assert_eq!(longest.len(), 13_639);
        assert_eq!(kernel.read(&longest).number, 0);
        let mut text = vec![b'x'; 16_384];
        assert_eq!(kernel.read(&text), refused(2, 1));
        text.push(b'\n');
        assert_eq!(kernel.read(&text), refused(1, 0));
        assert_eq!(kernel.read(b"\n"), refused(2, 1));
        assert_eq!(kernel.read(b"slot\t0\t1\n"), refused(4, 1));
        assert_eq!(kernel.read(b"segment\t1\t99999\t0\n"), refused(3, 1));
        assert_eq!(kernel.read(b"segment\t0\t12289\t4096\n"), refused(4, 1));
        assert_eq!(kernel.read(b"segment\t0\t12288\t4096\n"), refused(6, 0));
    });
}

#[test]
fn one_more_line_than_there_is_room_for() {
    let text = String::from_utf8(text_of(&longest())).unwrap();
    each(|kernel| {
        let with = |after: &str, line: &str| kernel.read(text.replacen(after, &format!("{after}{line}"), 1).as_bytes());
        assert_eq!(with("segment\t31\t16252\t100\n", "segment\t32\t0\t1\n"), refused(4, 33));
        assert_eq!(with("segment\t31\t16252\t100\n", "segment\t33\t0\t1\n"), refused(3, 33));
        assert_eq!(with("partition\t7\t17\t7\n", "partition\t8\t17\t7\n"), refused(4, 41));
        let lines = text.lines().count() as u32;
        assert_eq!(kernel.read(format!("{text}slot\t0\t1\n").as_bytes()), refused(4, lines + 1));
    });
}

/// Values at the edges of the hexadecimal form, as a base, a length and ticks, and how a line with them is judged.
#[test]
fn hexadecimal_values_at_the_edges() {
    let cases = [
        ("0x0", 0, [5, 4, 4]),
        ("0x1", 1, [5, 0, 0]),
        ("0xa", 10, [5, 0, 0]),
        ("0xf", 15, [5, 0, 0]),
        ("0x10", 16, [5, 0, 0]),
        ("0xff", 255, [0, 0, 0]),
        ("0x100", 256, [0, 0, 0]),
        ("0x3e8", 1_000, [0, 0, 0]),
        ("0x3e9", 1_001, [0, 0, 4]),
        ("0xffff", 65_535, [4, 4, 4]),
    ];
    each(|kernel| {
        for (form, value, numbers) in cases {
            let text = |base: &str, length: &str, ticks: &str| {
                let start = "segment\t0\t0\t64\nsegment\t1\t64\t44\n";
                let rest = "partition\t0\t0\t1\nright\t0\t0\tr\nflow\t0\t1\n";
                format!("{start}segment\t2\t{base}\t{length}\n{rest}slot\t0\t{ticks}\n").into_bytes()
            };
            let answers = [text(form, "16", "1"), text("8192", form, "1"), text("8192", "16", form)].map(|text| kernel.read(&text));
            let lines = [3, 3, 7];
            let entries = answers.map(|answer| [answer.policy.base[2], answer.policy.size[2], answer.policy.slot_ticks[0]]);
            for place in 0..3 {
                if numbers[place] == 0 {
                    assert_eq!((answers[place].number, answers[place].line, entries[place][place]), (0, 0, value), "{form} at {place}");
                } else {
                    assert_eq!(answers[place], refused(numbers[place], lines[place]), "{form} at {place}");
                }
            }
        }
    });
}

/// "Several texts may now give one record".
#[test]
fn one_record_from_several_texts() {
    let record = demonstration();
    let all = String::from_utf8(hexadecimal_text_of(&record)).unwrap();
    assert!(all.starts_with("segment\t0x0\t0x0\t0x40\nsegment\t0x1\t0x40\t0x2c\n") && all.ends_with("slot\t0x0\t0x3\nslot\t0x1\t0x2\n"));
    let mut texts = vec![DEMONSTRATION.to_string(), all];
    let mut random = Random::new(21);
    for rate in [2, 2, 3, 5, 10] {
        let mut lines = split(DEMONSTRATION.as_bytes());
        rewrite(&mut random, &mut lines, rate);
        texts.push(String::from_utf8(join(&lines)).unwrap());
    }
    each(|kernel| {
        for text in &texts {
            assert_eq!(kernel.read(text.as_bytes()), accepted(record), "{text}");
        }
    });
    // The report is in decimal.
    assert!(texts.iter().all(|text| report(text.as_bytes()) == report(DEMONSTRATION.as_bytes())));
}

/// "Refused: capitals and five digits are 2", in each place where a number stands.
#[test]
fn capitals_and_five_digits_are_2() {
    let bad =
        ["0XA", "0X1", "0xA", "0xF", "0xaB", "0xBa", "0x10000", "0x0ffff", "0xabcde", "0x", "0X", "0x00", "0x01", "0xg", "0x1g", "1a", "ff", "x1"];
    let lines = split(DEMONSTRATION.as_bytes());
    for (at, line) in lines.iter().enumerate() {
        for field in 1..line.len() {
            for form in bad {
                let mut lines = lines.clone();
                lines[at][field] = form.into();
                let text = join(&lines);
                each(|kernel| assert_eq!(kernel.read(&text), refused(2, at as u32 + 1), "{}", show::text(&text)));
            }
            // A good number too where letters are due.
            let mut lines = lines.clone();
            lines[at][field] = b"0x1".to_vec();
            let text = join(&lines);
            each(|kernel| assert_eq!(kernel.read(&text).number == 2, !is_place(line, field), "{}", show::text(&text)));
        }
    }
}

/// "decimal texts give what they gave": the printed text of a record gives the record; so does the one in hexadecimal, unless it is too long.
#[test]
fn a_records_texts_give_the_record() {
    let mut random = Random::new(22);
    for _ in 0..2_000 {
        let shape = Shape::any(&mut random);
        let record = policy(&mut random, shape);
        let (decimal, hexadecimal) = (text_of(&record), hexadecimal_text_of(&record));
        assert!(decimal.len() < hexadecimal.len());
        each(|kernel| {
            assert_eq!(kernel.read(&decimal), accepted(record));
            assert_eq!(kernel.read(&hexadecimal), if hexadecimal.len() > 16_384 { refused(1, 0) } else { accepted(record) });
        });
    }
}

#[test]
fn refusal_1_counts_bytes() {
    let record = full_in_hexadecimal();
    let text = hexadecimal_text_of(&record);
    assert_eq!((text.len(), text_of(&record).len()), (16_384, 12_391));
    let mut longer = record;
    longer.set_right(7, 22, 3);
    assert_eq!(hexadecimal_text_of(&longer).len(), 16_385);
    each(|kernel| {
        assert_eq!(kernel.read(&text), accepted(record));
        assert_eq!(kernel.read(&text_of(&record)), accepted(record));
        assert_eq!(kernel.read(&hexadecimal_text_of(&longer)), refused(1, 0));
        assert_eq!(kernel.read(&text_of(&longer)), accepted(longer));
        assert_eq!(kernel.read(&hexadecimal_text_of(&longest())), refused(1, 0));
    });
}

/// Random texts, good and bad: the kernels agree on them, and no answer changes with the form of a number.
#[test]
fn the_other_form_changes_no_answer() {
    let mut random = Random::new(23);
    for _ in 0..20_000 {
        let mut lines = split(&text(&mut random));
        let one = join(&lines);
        let rate = random.pick(&[1, 1, 2, 4]);
        rewrite(&mut random, &mut lines, rate);
        let other = join(&lines);
        for kernel in kernels() {
            assert_eq!(text_difference(&*kernel, &other), None, "{}", show::text(&other));
        }
        if one.len() <= 16_384 && other.len() <= 16_384 {
            each(|kernel| assert_eq!(kernel.read(&one), kernel.read(&other), "{}{}", show::text(&one), show::text(&other)));
        }
    }
}

/// The texts of tests/edge_texts.py, with the answers of the Python reference.
#[test]
fn edge_texts_have_their_stored_answers() {
    let mut cases: &[u8] = include_bytes!("../../../crates/texts/data/cases");
    for expected in include_str!("../../../crates/texts/stdout").lines() {
        let header = std::str::from_utf8(&cases[..48]).unwrap();
        let (name, length): (&str, usize) = (header[..40].trim_end(), header[40..47].parse().unwrap());
        let text = &cases[48..48 + length];
        cases = &cases[48 + length..];
        each(|kernel| {
            let answer = kernel.read(text);
            assert_eq!(format!("{name}\t{}\t{}", answer.number, answer.line), expected, "{}", kernel.name());
        });
    }
    assert!(cases.is_empty());
}
