//! Compares each kernel with the reference on random texts, records, graphs of flows, schedules and call lists, and the programs with what the reference
//! writes. Exits with 1 at the first difference, after shortening it.
//!
//!     differential [--seed N] [--texts N] [--records N] [--graphs N] [--schedules N] [--lists N]
//!                  [--policycheck PATH] [--policyreach PATH] [--policysheet PATH] [--reports N]

use separation::compare::{bytes_sound, list_difference, moves_too_far, reach_difference, record_difference, sheet_difference, text_difference};
use separation::compare::{text_gives, Reached, Wanted, WantedSheet, LIST_CASES, REACH_CASES, SHEET_CASES, TEXT_CASES};
use separation::generate::arguments::arguments;
use separation::generate::policies::{full_in_hexadecimal, longest, policy, Shape, DEMONSTRATION};
use separation::generate::{graphs, lists, numbers, records, schedules, texts};
use separation::kernel::{Kernel, Policy, RECORD};
use separation::random::Random;
use separation::reference::{policyreach, policysheet, report, sound, USAGE};
use separation::{kernels, show, shrink};
use std::ffi::OsStr;
use std::io::{Read, Write};
use std::os::unix::ffi::OsStrExt;
use std::process::{Command, Stdio};
use std::time::Instant;

struct Options {
    seed: u64,
    texts: usize,
    records: usize,
    graphs: usize,
    schedules: usize,
    lists: usize,
    policycheck: Option<String>,
    policyreach: Option<String>,
    policysheet: Option<String>,
    reports: usize,
}

impl Options {
    const USUAL: Options = Options {
        seed: 1,
        texts: 200_000,
        records: 60_000,
        graphs: 20_000,
        schedules: 20_000,
        lists: 60_000,
        policycheck: None,
        policyreach: None,
        policysheet: None,
        reports: 3_000,
    };
}

fn options() -> Options {
    let mut options = Options::USUAL;
    let mut words = std::env::args().skip(1);
    while let (Some(name), Some(value)) = (words.next(), words.next()) {
        let number = || value.parse().unwrap_or_else(|_| panic!("{name} takes a number"));
        match name.as_str() {
            "--seed" => options.seed = number() as u64,
            "--texts" => options.texts = number(),
            "--records" => options.records = number(),
            "--graphs" => options.graphs = number(),
            "--schedules" => options.schedules = number(),
            "--lists" => options.lists = number(),
            "--reports" => options.reports = number(),
            "--policycheck" => options.policycheck = Some(value),
            "--policyreach" => options.policyreach = Some(value),
            "--policysheet" => options.policysheet = Some(value),
            _ => panic!("unknown option {name}"),
        }
    }
    options
}

fn fail(what: &str, difference: &str, shown: &str) -> ! {
    println!("DIFFERENCE on a {what}: {difference}\n{shown}");
    std::process::exit(1)
}

fn main() {
    let options = options();
    let kernels = kernels();
    let names: Vec<&str> = kernels.iter().map(|kernel| kernel.name()).collect();
    println!("compared with the reference: {}", names.join(", "));
    let mut reached = Reached::default();
    let begun = Instant::now();
    compare_texts(&options, &kernels, &mut reached);
    compare_records(&options, &kernels, &mut reached);
    compare_graphs(&options, &kernels, &mut reached);
    compare_schedules(&options, &kernels, &mut reached);
    compare_lists(&options, &kernels, &mut reached);
    compare_reports(&options);
    compare_reaches(&options);
    compare_sheets(&options);
    for (case, count) in &reached.0 {
        println!("{count:9} {case}");
    }
    let wanted: Vec<&str> = TEXT_CASES.iter().chain(&REACH_CASES).chain(&SHEET_CASES).chain(&LIST_CASES).copied().collect();
    let missing = reached.missing(&wanted);
    println!(
        "differential: no difference, {} of {} cases reached, {:.1} s",
        wanted.len() - missing.len(),
        wanted.len(),
        begun.elapsed().as_secs_f64()
    );
    if !missing.is_empty() {
        println!("never reached: {missing:?}");
        std::process::exit(1);
    }
}

fn compare_texts(options: &Options, kernels: &[Box<dyn Kernel>], reached: &mut Reached) {
    let begun = Instant::now();
    let mut random = Random::new(options.seed);
    let mut bytes = 0;
    for round in 0..options.texts {
        let text = match round {
            0 => DEMONSTRATION.as_bytes().to_vec(),
            1 => texts::text_of(&longest()),
            2 => Vec::new(),
            3 => texts::hexadecimal_text_of(&full_in_hexadecimal()),
            _ => texts::text(&mut random),
        };
        bytes += text.len();
        reached.text(&text);
        for kernel in kernels {
            if text_difference(&**kernel, &text).is_some() {
                let short = shrink::shrink_text(&text, &mut |text| text_difference(&**kernel, text).is_some());
                fail("text", &text_difference(&**kernel, &short).unwrap(), &show::text(&short));
            }
        }
    }
    println!("texts: {} ({} bytes), {:.1} s", options.texts, bytes, begun.elapsed().as_secs_f64());
}

fn compare_record(record: &Policy, kernels: &[Box<dyn Kernel>], reached: &mut Reached) {
    reached.record(record);
    if sound(record) != text_gives(record) || sound(record) != bytes_sound(record) {
        fail("record", "the reference's rules, the record's text and the record of bytes disagree", &show::policy(record));
    }
    for kernel in kernels {
        if let Some(difference) = record_difference(&**kernel, record) {
            fail("record", &difference, &show::policy(record));
        }
    }
    compare_reach(record, kernels, reached);
    compare_sheet(record, kernels, reached);
}

fn compare_records(options: &Options, kernels: &[Box<dyn Kernel>], reached: &mut Reached) {
    let begun = Instant::now();
    let mut random = Random::new(options.seed ^ 0x5EC0);
    let mut done = 0;
    let mut compare = |record: &Policy, reached: &mut Reached| {
        done += 1;
        compare_record(record, kernels, reached);
    };
    for round in 0..options.records {
        let shape = Shape::any(&mut random);
        let mut record = if round % 100 == 0 { longest() } else { policy(&mut random, shape) };
        if round % 4 != 0 {
            records::perturb(&mut random, &mut record);
        }
        if round % 50 == 1 {
            record = records::noise(&mut random);
        }
        compare(&record, reached);
    }
    // Each bit of the masks of some sound records turned; each byte changed in five ways.
    for shape in [Shape::SMALL, Shape::MIDDLE, Shape::LARGE, Shape::DENSE] {
        let record = policy(&mut random, shape);
        compare(&record, reached);
        records::near(&record).iter().for_each(|other| compare(other, reached));
        for at in 0..RECORD {
            for change in
                [|byte: u8| byte ^ 1, |byte: u8| byte ^ 2, |byte: u8| byte ^ 128, |byte: u8| byte.wrapping_add(1), |byte: u8| byte.wrapping_sub(1)]
            {
                let mut other = record;
                records::change(&mut other, at, change);
                compare(&other, reached);
            }
        }
    }
    println!("records: {done}, {:.1} s", begun.elapsed().as_secs_f64());
}

/// The report on a record and the answers to questions about it.
fn compare_reach(record: &Policy, kernels: &[Box<dyn Kernel>], reached: &mut Reached) {
    let wanted = Wanted::of(record);
    reached.reach(&wanted);
    for kernel in kernels {
        if wanted.difference(&**kernel).is_some() {
            let short = shrink::shrink_policy(record, &mut |record| reach_difference(&**kernel, record).is_some());
            fail("graph", &reach_difference(&**kernel, &short).unwrap_or_default(), &show::policy(&short));
        }
    }
}

fn compare_graphs(options: &Options, kernels: &[Box<dyn Kernel>], reached: &mut Reached) {
    let begun = Instant::now();
    let mut random = Random::new(options.seed ^ 0x62AF);
    for _ in 0..options.graphs {
        compare_reach(&graphs::near(&mut random), kernels, reached);
    }
    println!("graphs: {}, {:.1} s", options.graphs, begun.elapsed().as_secs_f64());
}

/// The sheet of a record.
fn compare_sheet(record: &Policy, kernels: &[Box<dyn Kernel>], reached: &mut Reached) {
    let wanted = WantedSheet::of(record);
    reached.sheet(&wanted);
    for kernel in kernels {
        if wanted.difference(&**kernel).is_some() {
            let short = shrink::shrink_policy(record, &mut |record| sheet_difference(&**kernel, record).is_some());
            fail("schedule", &sheet_difference(&**kernel, &short).unwrap_or_default(), &show::policy(&short));
        }
    }
}

fn compare_schedules(options: &Options, kernels: &[Box<dyn Kernel>], reached: &mut Reached) {
    let begun = Instant::now();
    let mut random = Random::new(options.seed ^ 0x5C4ED);
    for _ in 0..options.schedules {
        compare_sheet(&schedules::near(&mut random), kernels, reached);
        let pair = schedules::pair(&mut random);
        reached.change(&pair);
        for kernel in kernels {
            if let Some(difference) = moves_too_far(&**kernel, &pair) {
                fail("pair of schedules", &difference, &pair.map(|policy| show::policy(&policy)).concat());
            }
        }
    }
    println!("schedules: {} and as many pairs, {:.1} s", options.schedules, begun.elapsed().as_secs_f64());
}

fn compare_lists(options: &Options, kernels: &[Box<dyn Kernel>], reached: &mut Reached) {
    let begun = Instant::now();
    let mut random = Random::new(options.seed ^ 0x11575);
    let mut calls = 0;
    for _ in 0..options.lists {
        let list = lists::list(&mut random);
        calls += list.steps.len();
        reached.list(&list);
        for kernel in kernels {
            if list_difference(&**kernel, &list).is_some() {
                let short = shrink::shrink_list(&list, &mut |list| list_difference(&**kernel, list).is_some());
                fail("list", &list_difference(&**kernel, &short).unwrap(), &show::list(&short));
            }
        }
    }
    println!("lists: {} ({calls} calls), {:.1} s", options.lists, begun.elapsed().as_secs_f64());
}

/// The program policycheck against the reference's report.
fn compare_reports(options: &Options) {
    let Some(path) = &options.policycheck else { return };
    let begun = Instant::now();
    let mut random = Random::new(options.seed ^ 0xC4EC);
    for round in 0..options.reports {
        let text = if round == 0 { DEMONSTRATION.as_bytes().to_vec() } else { texts::text(&mut random) };
        compare_written(path, &[], &text, &|text| report(text));
    }
    println!("reports: {}, {:.1} s", options.reports, begun.elapsed().as_secs_f64());
}

/// The program policyreach against the reference, with arguments of all sorts.
fn compare_reaches(options: &Options) {
    let Some(path) = &options.policyreach else { return };
    let begun = Instant::now();
    let mut random = Random::new(options.seed ^ 0x2EAC);
    let mut asked = [0; 3];
    for round in 0..options.reports {
        let record = graphs::record(&mut random);
        let text = match round {
            0 => DEMONSTRATION.as_bytes().to_vec(),
            1 => texts::text_of(&longest()),
            _ if round % 4 == 0 => texts::text(&mut random),
            _ => numbers::written(&mut random, texts::text_of(&record)),
        };
        let arguments = if round < 2 { Vec::new() } else { arguments(&mut random, record.segments as usize) };
        compare_written(path, &arguments, &text, &|text| policyreach(&arguments, text));
        let is_usage = policyreach(&arguments, &text) == USAGE;
        if is_usage {
            compare_unread(path, &arguments);
        }
        asked[if is_usage { 2 } else { arguments.len() / 2 }] += 1;
    }
    let [reports, questions, usages] = asked;
    println!("reaches: {reports} reports, {questions} questions, {usages} told how to call it, {:.1} s", begun.elapsed().as_secs_f64());
}

/// The program policysheet against the reference.
fn compare_sheets(options: &Options) {
    let Some(path) = &options.policysheet else { return };
    let begun = Instant::now();
    let mut random = Random::new(options.seed ^ 0x5EE7);
    let mut refused = 0;
    for round in 0..options.reports {
        let text = match round {
            0 => DEMONSTRATION.as_bytes().to_vec(),
            1 => texts::text_of(&longest()),
            _ if round % 4 == 0 => texts::text(&mut random),
            _ => {
                let record = schedules::record(&mut random);
                numbers::written(&mut random, texts::text_of(&record))
            }
        };
        compare_written(path, &[], &text, &|text| policysheet(text));
        refused += policysheet(&text).starts_with("refused") as usize;
    }
    println!("sheets: {}, {refused} texts refused, {:.1} s", options.reports - refused, begun.elapsed().as_secs_f64());
}

/// What a program writes on a text against what the reference has.
fn compare_written(path: &str, arguments: &[Vec<u8>], text: &[u8], wanted: &dyn Fn(&[u8]) -> String) {
    let differs = |text: &[u8]| Some(written(path, arguments, text)).filter(|wrote| wrote != wanted(text).as_bytes());
    if differs(text).is_some() {
        let short = shrink::shrink_text(text, &mut |text| differs(text).is_some());
        let wrote = differs(&short).unwrap_or_default();
        let difference = format!("{} wrote {:?}, the reference {:?}", call(path, arguments), String::from_utf8_lossy(&wrote), wanted(&short));
        fail("report", &difference, &show::text(&short));
    }
}

fn call(path: &str, arguments: &[Vec<u8>]) -> String {
    let shown: Vec<_> = arguments.iter().map(|argument| format!(" {:?}", String::from_utf8_lossy(argument))).collect();
    format!("{path}{}", shown.concat())
}

fn program(path: &str, arguments: &[Vec<u8>]) -> Command {
    let mut program = Command::new(path);
    program.args(arguments.iter().map(|argument| OsStr::from_bytes(argument)));
    program
}

fn written(path: &str, arguments: &[Vec<u8>], text: &[u8]) -> Vec<u8> {
    let mut program = program(path, arguments).stdin(Stdio::piped()).stdout(Stdio::piped()).spawn().expect("the program starts");
    // A program that stops reading early closes its input: that is no failure of the test.
    let _ = program.stdin.take().unwrap().write_all(text);
    program.wait_with_output().expect("the program ends").stdout
}

/// A program that says how to call it has read nothing.
fn compare_unread(path: &str, arguments: &[Vec<u8>]) {
    let (mut left, mut text) = std::io::pipe().expect("a pipe");
    text.write_all(DEMONSTRATION.as_bytes()).expect("the pipe has room");
    drop(text);
    let input = left.try_clone().expect("a second end");
    program(path, arguments).stdin(input).stdout(Stdio::null()).status().expect("the program ends");
    let mut unread = Vec::new();
    left.read_to_end(&mut unread).expect("the pipe can be read");
    if unread != DEMONSTRATION.as_bytes() {
        fail("call", "the program has read its input", &call(path, arguments));
    }
}
