//! Reading a policy in one pass over its bytes: one loop for each kind of line.

use super::record::{flow_missing, save_sources, Roles};
use crate::kernel::{Policy, ReadResult};

/// The worth of each byte as a hexadecimal digit, 16 where it is none.
static DIGITS: [u8; 256] = {
    let mut digits = [16; 256];
    let mut worth = 0;
    while worth < 16 {
        digits[b"0123456789abcdef"[worth as usize] as usize] = worth;
        worth += 1;
    }
    digits
};

struct Cursor<'t> {
    text: &'t [u8],
    at: usize,
}

impl Cursor<'_> {
    /// The byte at the cursor; past the text one that no field has, so that a last line without its end is bad.
    #[inline(always)]
    fn peek(&self) -> u8 {
        self.text.get(self.at).copied().unwrap_or(0)
    }

    #[inline(always)]
    fn next(&mut self) -> u8 {
        let byte = self.peek();
        self.at += 1;
        byte
    }

    /// A line's word with its tab.
    #[inline(always)]
    fn word(&mut self, word: &[u8]) -> bool {
        let found = self.text[self.at..].starts_with(word);
        if found {
            self.at += word.len();
        }
        found
    }

    /// A number of 1 to 5 digits, or 0x and 1 to 4 hexadecimal ones, and the byte that must end it.
    #[inline(always)]
    fn number(&mut self, end: u8) -> Result<u32, u32> {
        let first = self.next().wrapping_sub(b'0');
        if first > 9 {
            return Err(2);
        }
        let mut value = u32::from(first);
        let mut byte = self.next();
        if byte == end {
            return Ok(value);
        }
        if first == 0 {
            return if byte == b'x' { self.hexadecimal(end) } else { Err(2) };
        }
        for _ in 0..4 {
            let digit = byte.wrapping_sub(b'0');
            if digit > 9 {
                return Err(2);
            }
            value = 10 * value + u32::from(digit);
            byte = self.next();
            if byte == end {
                return Ok(value);
            }
        }
        Err(2)
    }

    /// What follows 0x.
    #[inline(always)]
    fn hexadecimal(&mut self, end: u8) -> Result<u32, u32> {
        let mut value = 0;
        for count in 0..4 {
            let digit = DIGITS[self.next() as usize];
            if digit > 15 {
                return Err(2);
            }
            value = 16 * value + u32::from(digit);
            if self.peek() == end {
                self.at += 1;
                return Ok(value);
            }
            if count == 0 && value == 0 {
                return Err(2);
            }
        }
        Err(2)
    }

    /// The letters and the line end.
    #[inline(always)]
    fn letters(&mut self) -> Result<(u32, u32), u32> {
        match (self.next(), self.next()) {
            (b'r', b'\n') => Ok((1, 0)),
            (b'w', b'\n') => Ok((0, 1)),
            (b'r', b'w') if self.next() == b'\n' => Ok((1, 1)),
            _ => Err(2),
        }
    }

    #[inline(always)]
    fn two(&mut self) -> Result<[u32; 2], u32> {
        Ok([self.number(b'\t')?, self.number(b'\n')?])
    }

    #[inline(always)]
    fn three(&mut self) -> Result<[u32; 3], u32> {
        Ok([self.number(b'\t')?, self.number(b'\t')?, self.number(b'\n')?])
    }

    /// A line of no kind, or of one that may not come any more.
    #[cold]
    fn late(&mut self) -> u32 {
        let good = if self.word(b"segment\t") || self.word(b"partition\t") {
            self.three().is_ok()
        } else if self.word(b"right\t") {
            self.number(b'\t').is_ok() && self.number(b'\t').is_ok() && self.letters().is_ok()
        } else {
            self.word(b"flow\t") && self.two().is_ok()
        };
        if good {
            3
        } else {
            2
        }
    }
}

pub fn read(text: &[u8]) -> ReadResult {
    let mut result = ReadResult { number: 0, line: 0, policy: Policy::ZERO };
    if let Err(number) = fill(text, &mut result.policy, &mut result.line) {
        let line = if matches!(number, 2..=5) { result.line } else { 0 };
        return ReadResult { number, line, policy: Policy::ZERO };
    }
    result.line = 0;
    result
}

/// Fills the record and counts the lines.
#[inline(always)]
fn fill(text: &[u8], policy: &mut Policy, line: &mut u32) -> Result<(), u32> {
    if text.len() > 16_384 {
        return Err(1);
    }
    let mut cursor = Cursor { text, at: 0 };
    segments(&mut cursor, policy, line)?;
    let roles = partitions(&mut cursor, policy, line)?;
    rights(&mut cursor, policy, line, roles.saves)?;
    flows(&mut cursor, policy, line)?;
    slots(&mut cursor, policy, line)?;
    if cursor.at < text.len() {
        *line += 1;
        return Err(cursor.late());
    }
    if policy.slots == 0 {
        return Err(6);
    }
    whole(policy, roles)
}

#[inline(always)]
fn segments(cursor: &mut Cursor, policy: &mut Policy, line: &mut u32) -> Result<(), u32> {
    let mut ends = [0_i16; 32];
    let mut count = 0;
    while cursor.word(b"segment\t") {
        *line += 1;
        let [id, base, length] = cursor.three()?;
        if id != count {
            return Err(3);
        }
        let end = base + length;
        if id >= 32 || length.wrapping_sub(1) >= 4_096 || end > 16_384 {
            return Err(4);
        }
        // On all entries, those to come being 0; all numbers are below 32,768.
        let mut met = false;
        for (&other, &other_end) in policy.base.iter().zip(&ends) {
            met |= ((base as i16) < other_end) & ((other as i16) < end as i16);
        }
        if met {
            return Err(5);
        }
        ends[id as usize] = end as i16;
        policy.base[id as usize] = base as u16;
        policy.size[id as usize] = length as u16;
        count += 1;
        policy.segments = count as u8;
    }
    Ok(())
}

/// What the partitions' lines give, without the rights.
#[inline(always)]
fn partitions(cursor: &mut Cursor, policy: &mut Policy, line: &mut u32) -> Result<Roles, u32> {
    let mut roles = Roles { reached: [0; 8], saves: 0 };
    let (mut codes, mut count) = (0_u32, 0);
    while cursor.word(b"partition\t") {
        *line += 1;
        let [id, code, save] = cursor.three()?;
        if id != count {
            return Err(3);
        }
        if id >= 8 || code.max(save) >= u32::from(policy.segments) {
            return Err(4);
        }
        let (code_bit, save_bit) = (1 << code, 1 << save);
        if policy.size[save as usize] != 44 || save_bit & (roles.saves | codes | code_bit) != 0 || code_bit & roles.saves != 0 {
            return Err(5);
        }
        codes |= code_bit;
        roles.saves |= save_bit;
        roles.reached[id as usize] = save_bit;
        policy.code[id as usize] = code as u8;
        policy.save[id as usize] = save as u8;
        count += 1;
        policy.partitions = count as u8;
    }
    Ok(roles)
}

#[inline(always)]
fn rights(cursor: &mut Cursor, policy: &mut Policy, line: &mut u32, saves: u32) -> Result<(), u32> {
    // The last pair as one number, plus one. Numbers are below 100,000.
    let mut last = 0;
    while cursor.word(b"right\t") {
        *line += 1;
        let (partition, segment) = (cursor.number(b'\t')?, cursor.number(b'\t')?);
        let (read, write) = cursor.letters()?;
        let key = 100_000 * u64::from(partition) + u64::from(segment) + 1;
        if key <= last {
            return Err(3);
        }
        if partition >= u32::from(policy.partitions) || segment >= u32::from(policy.segments) {
            return Err(4);
        }
        if saves >> segment & 1 != 0 {
            return Err(5);
        }
        last = key;
        policy.reads[partition as usize] |= read << segment;
        policy.writes[partition as usize] |= write << segment;
    }
    Ok(())
}

#[inline(always)]
fn flows(cursor: &mut Cursor, policy: &mut Policy, line: &mut u32) -> Result<(), u32> {
    let mut last = 0;
    while cursor.word(b"flow\t") {
        *line += 1;
        let [from, to] = cursor.two()?;
        let key = 100_000 * u64::from(from) + u64::from(to) + 1;
        if key <= last {
            return Err(3);
        }
        if from.max(to) >= u32::from(policy.segments) {
            return Err(4);
        }
        if from == to {
            return Err(5);
        }
        last = key;
        policy.sources[to as usize] |= 1 << from;
    }
    Ok(())
}

#[inline(always)]
fn slots(cursor: &mut Cursor, policy: &mut Policy, line: &mut u32) -> Result<(), u32> {
    let mut count = 0;
    while cursor.word(b"slot\t") {
        *line += 1;
        let [partition, ticks] = cursor.two()?;
        if count >= 32 || ticks.wrapping_sub(1) >= 1_000 || partition >= u32::from(policy.partitions) {
            return Err(4);
        }
        policy.slot_partition[count] = partition as u8;
        policy.slot_ticks[count] = ticks as u16;
        count += 1;
        policy.slots = count as u8;
    }
    Ok(())
}

/// Rules 7, 8 and 16.
#[inline(always)]
fn whole(policy: &Policy, mut roles: Roles) -> Result<(), u32> {
    let partitions = policy.partitions as usize;
    for p in 0..partitions {
        if policy.reads[p] >> policy.code[p] & 1 == 0 {
            return Err(7);
        }
        roles.reached[p] |= policy.reads[p];
    }
    let (lacking, stray) = save_sources(policy, partitions);
    if lacking != 0 || flow_missing(policy, &roles, partitions) {
        return Err(8);
    }
    if stray != 0 {
        return Err(16);
    }
    Ok(())
}
