//! As much of C as the header has: defines, enums, structs of numbers, prototypes.

use crate::shared::Layout;
use std::collections::{BTreeMap, BTreeSet};

pub const HEADER: &str = include_str!("../../../../../include/separation_kernel.h");

/// A text without what stands between two marks, the marks included; something else in its place.
fn without(text: &str, open: &str, close: &str, instead: &str) -> String {
    let mut parts = text.split(open);
    let mut rest = parts.next().unwrap_or_default().to_string();
    for part in parts {
        let (_, after) = part.split_once(close).unwrap_or_else(|| panic!("{open} without {close}"));
        rest += instead;
        rest += after;
    }
    rest
}

fn without_comments(text: &str) -> String {
    without(text, "/*", "*/", " ")
}

/// Names and values of the defines without parameters that begin with SK_.
fn defines(text: &str) -> Vec<(String, String)> {
    let text = without_comments(text);
    let defined = text.lines().filter_map(|line| line.trim().strip_prefix("#define SK_"));
    let parts = defined.filter_map(|line| line.split_once(' '));
    parts.filter(|(name, _)| !name.contains('(')).map(|(name, value)| (format!("SK_{name}"), value.trim().to_string())).collect()
}

/// Defines and enumerators that are numbers.
pub fn numbers(text: &str) -> BTreeMap<String, u64> {
    let mut found = BTreeMap::new();
    for (name, value) in defines(text).into_iter().filter(|(_, value)| !value.starts_with('"')) {
        let value = worth(&value, &found);
        assert!(found.insert(name.clone(), value).is_none(), "{name} twice");
    }
    for (kind, body) in blocks(text, "enum") {
        for entry in body.split(',').map(str::trim).filter(|entry| !entry.is_empty()) {
            let (name, value) = entry.split_once('=').unwrap_or_else(|| panic!("{kind}: {entry} has no number"));
            let value = worth(value.trim(), &found);
            assert!(found.insert(name.trim().to_string(), value).is_none(), "{name} twice");
        }
    }
    found
}

/// Defines that are texts.
pub fn texts(text: &str) -> BTreeMap<String, String> {
    let quoted = |value: String| Some(value.strip_prefix('"')?.strip_suffix('"')?.to_string());
    defines(text).into_iter().filter_map(|(name, value)| Some((name, quoted(value)?))).collect()
}

/// A sum of products of numbers and names.
fn worth(value: &str, known: &BTreeMap<String, u64>) -> u64 {
    let factor = |word: &str| match known.get(word) {
        Some(&value) => value,
        None => word.trim_end_matches('u').parse().unwrap_or_else(|_| panic!("{word} is no number")),
    };
    let term = |term: &str| term.split('*').map(|word| factor(word.trim())).product::<u64>();
    value.trim_matches(['(', ')']).split('+').map(term).sum()
}

/// Names and bodies of the enums or structs that are declared.
fn blocks(text: &str, keyword: &str) -> Vec<(String, String)> {
    let text = without_comments(text);
    let begin = format!("\n{keyword} ");
    let named = text.split(&begin).skip(1).filter_map(|part| part.split_once(" {\n"));
    let named = named.filter(|(name, _)| !name.contains([' ', '(', ';']));
    named.map(|(name, rest)| (name.to_string(), rest.split_once("};").unwrap_or_else(|| panic!("{name} has no end")).0.to_string())).collect()
}

/// The structs, laid out as C does it on the machines that the archive is for: each field at the next multiple of its alignment.
pub fn structs(text: &str) -> Vec<Layout> {
    let numbers = numbers(text);
    let mut found: Vec<Layout> = Vec::new();
    for (name, body) in blocks(text, "struct") {
        let mut layout = Layout { name, size: 0, align: 1, fields: Vec::new() };
        for declared in body.split(';').map(str::trim).filter(|declared| !declared.is_empty()) {
            let (of, names) = declared.strip_prefix("struct ").unwrap_or(declared).split_once(' ').expect("a type and names");
            let (size, align) = size_and_align(of, &found);
            for field in names.split(',') {
                let (field, entries) = field.trim().trim_end_matches(']').split_once('[').unwrap_or((field.trim(), "1"));
                let at = layout.size.next_multiple_of(align);
                let bytes = size * worth(entries, &numbers) as usize;
                layout.fields.push((field.to_string(), at, bytes));
                (layout.size, layout.align) = (at + bytes, layout.align.max(align));
            }
        }
        layout.size = layout.size.next_multiple_of(layout.align);
        found.push(layout);
    }
    found
}

fn size_and_align(of: &str, found: &[Layout]) -> (usize, usize) {
    match of {
        "uint8_t" => (1, 1),
        "uint16_t" => (2, 2),
        "uint32_t" => (4, 4),
        _ => found.iter().find(|layout| layout.name == of).map(|layout| (layout.size, layout.align)).unwrap_or_else(|| panic!("no type {of}")),
    }
}

/// The functions that the archive has, each as Rust declares it, without the parameters' names.
pub fn functions(text: &str) -> BTreeSet<String> {
    let text = without(&without_comments(text), "#ifdef __cplusplus", "#endif", "");
    let text: String = text.lines().filter(|line| !line.starts_with('#') && !line.ends_with('\\')).map(|line| format!("{line} ")).collect();
    let declared = without_bodies(&text);
    let declared = declared.split(';').map(str::trim).filter(|declared| !declared.starts_with("static"));
    declared.filter_map(|declared| declared.strip_suffix(')')?.split_once('(')).filter_map(|(head, rest)| signature(head, rest)).collect()
}

/// Every outermost pair of braces and what is between them gives way to a semicolon.
fn without_bodies(text: &str) -> String {
    let mut depth = 0_usize;
    let mut rest = String::new();
    for letter in text.chars() {
        match letter {
            '{' => depth += 1,
            '}' => {
                depth -= 1;
                rest.push(';');
            }
            _ if depth == 0 => rest.push(letter),
            _ => {}
        }
    }
    rest
}

fn signature(head: &str, parameters: &str) -> Option<String> {
    let (gives, name) = head.rsplit_once(' ')?;
    let taken = parameters.split(',').map(str::trim).filter(|&parameter| parameter != "void");
    let taken: Vec<String> =
        taken.map(|parameter| in_rust(parameter.rsplit_once([' ', '*']).expect("a parameter has a name").0, parameter)).collect();
    name.starts_with("sk_").then(|| format!("{name}({}) -> {}", taken.join(", "), in_rust(gives, gives)))
}

/// A C type; whether it is a pointer is seen from the whole parameter.
fn in_rust(of: &str, whole: &str) -> String {
    let (of, constant) = of.trim().strip_prefix("const ").map_or((of.trim(), false), |of| (of, true));
    let of = match of.trim_end_matches('*').trim() {
        "uint8_t" => "u8",
        "uint32_t" => "u32",
        "size_t" => "usize",
        other => other.strip_prefix("struct ").unwrap_or_else(|| panic!("{other}: not a type of the boundary")),
    };
    match (whole.contains('*'), constant) {
        (false, _) => of.to_string(),
        (true, true) => format!("*const {of}"),
        (true, false) => format!("*mut {of}"),
    }
}

/// The functions that a Rust source declares, without the parameters' names.
pub fn declared(source: &str) -> BTreeSet<String> {
    let lines = source.lines().filter_map(|line| line.trim().strip_prefix("pub fn ")?.strip_suffix(';'));
    lines
        .map(|line| {
            let (name, rest) = line.split_once('(').expect("a function has parameters");
            let (parameters, gives) = rest.split_once(')').expect("and an end of them");
            let types = parameters.split(", ").filter_map(|parameter| Some(parameter.split_once(": ")?.1));
            format!("{name}({}){gives}", types.collect::<Vec<_>>().join(", "))
        })
        .collect()
}
