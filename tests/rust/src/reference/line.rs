//! One line of a policy text: its fields, its numbers and its words (refusal 2).

/// The kinds, in the order in which "lines come in this order of kinds".
#[derive(Clone, Copy, PartialEq, Eq, PartialOrd, Ord, Debug)]
pub enum Kind {
    Segment,
    Partition,
    Right,
    Flow,
    Slot,
}

/// "segment: id, base, length", "partition: id, code segment, save segment", "right: partition, segment, then r, w or rw", "flow: from, to" and
/// "slot: partition, ticks".
#[derive(Clone, Copy, Debug)]
pub enum Line {
    Segment { id: u32, base: u32, length: u32 },
    Partition { id: u32, code: u32, save: u32 },
    Right { partition: u32, segment: u32, right: u8 },
    Flow { from: u32, to: u32 },
    Slot { partition: u32, ticks: u32 },
}

impl Line {
    pub fn kind(&self) -> Kind {
        match self {
            Line::Segment { .. } => Kind::Segment,
            Line::Partition { .. } => Kind::Partition,
            Line::Right { .. } => Kind::Right,
            Line::Flow { .. } => Kind::Flow,
            Line::Slot { .. } => Kind::Slot,
        }
    }
}

/// "2: unknown word, wrong fields, bad number or letters": a line without its line end, read, or why it can't be.
pub fn parse(line: &[u8]) -> Result<Line, &'static str> {
    // "Fields are parted by one tab."
    let fields: Vec<&[u8]> = line.split(|&byte| byte == b'\t').collect();
    // "The record words are segment, partition, right, flow and slot."
    let kind = match fields[0] {
        b"segment" => Kind::Segment,
        b"partition" => Kind::Partition,
        b"right" => Kind::Right,
        b"flow" => Kind::Flow,
        b"slot" => Kind::Slot,
        _ => return Err("2 unknown word"),
    };
    let wanted = match kind {
        Kind::Segment | Kind::Partition | Kind::Right => 4,
        Kind::Flow | Kind::Slot => 3,
    };
    if fields.len() != wanted {
        return Err("2 wrong fields");
    }
    Ok(match kind {
        Kind::Segment => Line::Segment { id: number(fields[1])?, base: number(fields[2])?, length: number(fields[3])? },
        Kind::Partition => Line::Partition { id: number(fields[1])?, code: number(fields[2])?, save: number(fields[3])? },
        Kind::Right => Line::Right { partition: number(fields[1])?, segment: number(fields[2])?, right: letters(fields[3])? },
        Kind::Flow => Line::Flow { from: number(fields[1])?, to: number(fields[2])? },
        Kind::Slot => Line::Slot { partition: number(fields[1])?, ticks: number(fields[2])? },
    })
}

/// A number, in either form. A field that begins with 0x is judged as hexadecimal alone.
pub fn number(field: &[u8]) -> Result<u32, &'static str> {
    match field.strip_prefix(b"0x") {
        Some(digits) => hexadecimal(digits),
        None => decimal(field),
    }
}

/// "Numbers have 1 to 5 digits and no leading zero, except 0 itself."
fn decimal(field: &[u8]) -> Result<u32, &'static str> {
    if field.is_empty() || field.len() > 5 {
        return Err("2 bad number: digits");
    }
    // Change request S-4: "0x", and "capitals [..] are 2".
    if field.starts_with(b"0X") {
        return Err("2 bad number: capital X");
    }
    if !field.iter().all(|byte| byte.is_ascii_digit()) {
        return Err("2 bad number: not a digit");
    }
    if field[0] == b'0' && field.len() > 1 {
        return Err("2 bad number: leading zero");
    }
    Ok(field.iter().fold(0, |value, digit| 10 * value + u32::from(digit - b'0')))
}

/// Change request S-4: "In all places where a number stands, 0x and one to four digits 0–9 or a–f is now read too, without a leading zero except in
/// 0x0. [..] Refused: capitals and five digits are 2." Here what stands after 0x.
fn hexadecimal(digits: &[u8]) -> Result<u32, &'static str> {
    if digits.is_empty() {
        return Err("2 bad hexadecimal number: no digit");
    }
    if digits.len() > 4 {
        return Err("2 bad hexadecimal number: over four digits");
    }
    if digits.iter().any(|byte| matches!(byte, b'A'..=b'F')) {
        return Err("2 bad hexadecimal number: capital");
    }
    if digits[0] == b'0' && digits.len() > 1 {
        return Err("2 bad hexadecimal number: leading zero");
    }
    let mut value = 0;
    for &byte in digits {
        value = 16 * value
            + match byte {
                b'0'..=b'9' => u32::from(byte - b'0'),
                b'a'..=b'f' => u32::from(byte - b'a') + 10,
                _ => return Err("2 bad hexadecimal number: not a digit"),
            };
    }
    Ok(value)
}

/// "r, w or rw", in the record "0 none, 1 r, 2 w, 3 rw".
fn letters(field: &[u8]) -> Result<u8, &'static str> {
    match field {
        b"r" => Ok(1),
        b"w" => Ok(2),
        b"rw" => Ok(3),
        _ => Err("2 bad letters"),
    }
}
