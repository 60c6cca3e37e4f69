//! "Request lines": a line's bytes read as a request.
use crate::bucket::{MAX_KEY, MAX_LENGTH, MAX_VERSION};
use crate::bytes::{digits, key_bytes, marks, word};
use crate::dates;
use crate::settings::{DAYS, MAX_DAYS, MAX_YEARS, YEARS};

pub const MAX_LINE: usize = 512;
const LEAST_LINE: usize = 28;
/// The most rows that a page may ask for.
pub const MAX_PAGE: u64 = 1000;

pub const GOVERNANCE: u64 = 1;
pub const COMPLIANCE: u64 = 2;

/// The letters of a rights field, in the order of their bits.
const LETTERS: &[u8; 7] = b"rwdthbc";

pub const READ: u8 = 1;
pub const WRITE: u8 = 2;
pub const DELETE: u8 = 4;
pub const RETENTION: u8 = 8;
pub const LEGAL_HOLD: u8 = 16;
pub const BYPASS: u8 = 32;
pub const CONFIGURE: u8 = 64;

/// A line that could be read.
#[derive(Clone, Copy, Debug, PartialEq, Eq)]
pub struct Request<'a> {
    pub clock: u64,
    pub rights: u8,
    pub verb: Verb<'a>,
}

/// The mode and date fields, each missing where it is `-`.
#[derive(Clone, Copy, Debug, PartialEq, Eq)]
pub struct Retention {
    pub mode: Option<u64>,
    pub date: Option<u64>,
}

/// A key and a version field; no version is `-`.
#[derive(Clone, Copy, Debug, PartialEq, Eq)]
pub struct Name<'a> {
    pub key: &'a [u8],
    pub version: Option<u64>,
}

/// A place in the table's order, with or without a row of its own: version 0 is before the key's first row, and no key
/// with it is the start.
#[derive(Clone, Copy, Debug, PartialEq, Eq)]
pub struct Place<'a> {
    pub key: &'a [u8],
    pub version: u64,
}

#[derive(Clone, Copy, Debug, PartialEq, Eq)]
pub struct Period {
    pub count: u64,
    pub unit: u64,
}

#[derive(Clone, Copy, Debug, PartialEq, Eq)]
pub enum Verb<'a> {
    Put { key: &'a [u8], body: u64, length: u64, retention: Retention, hold: Option<bool> },
    Copy { source: Name<'a>, target: &'a [u8], retention: Retention, hold: Option<bool> },
    Retain { name: Name<'a>, retention: Retention, bypass: bool },
    Hold { name: Name<'a>, on: bool },
    Delete { name: Name<'a>, bypass: bool },
    Default { mode: Option<u64>, period: Option<Period> },
    Rule { number: usize, prefix: &'a [u8], current: u64, noncurrent: u64 },
    Sweep,
    Get { name: Name<'a> },
    List { prefix: &'a [u8], after: Place<'a>, count: usize },
    Report { prefix: &'a [u8] },
}

/// A field as a part of its line: where it starts, and where it ends.
#[derive(Clone, Copy)]
struct Field<'a> {
    line: &'a [u8],
    start: usize,
    end: usize,
}

impl<'a> Field<'a> {
    #[inline(always)]
    fn bytes(self) -> &'a [u8] {
        &self.line[self.start..self.end]
    }

    #[inline(always)]
    fn length(self) -> usize {
        self.end - self.start
    }

    /// Whether the field is `-`.
    #[inline(always)]
    fn is_missing(self) -> bool {
        self.length() == 1 && self.line[self.start] == b'-'
    }

    /// The field's bytes as a number, the first of them the lowest and their count the highest byte, where there are 1 to 7 and a
    /// date stands before them.
    #[inline(always)]
    fn short(self) -> Option<u64> {
        let length = self.length();
        let of = |bytes: u64| bytes >> (64 - 8 * length) | (length as u64) << 56;
        (1..=7).contains(&length).then(|| of(word(self.line, self.end - 8)))
    }
}

/// A word of 1 to 7 bytes as a field's `short` has it.
const fn short<const N: usize>(text: &[u8; N]) -> u64 {
    let (mut sum, mut at) = (0, N);
    while at > 0 {
        at -= 1;
        sum = sum << 8 | text[at] as u64;
    }
    sum | (N as u64) << 56
}

/// The fields of a line that are still to be read.
struct Fields<'a> {
    line: &'a [u8],
    /// Where the next field starts: behind the line's end if none is left.
    start: usize,
    /// A bit for each place, of 64 from `base` on, where a field ends that is still to be read: at a tab or at the line's end.
    ends: u64,
    base: usize,
}

impl<'a> Fields<'a> {
    /// The fields of a line of 16 bytes at least.
    #[inline(always)]
    fn of(line: &'a [u8]) -> Fields<'a> {
        Fields { line, start: 0, ends: ends(line, 0), base: 0 }
    }

    #[inline(always)]
    fn next(&mut self) -> Option<Field<'a>> {
        let Fields { line, start, .. } = *self;
        if self.is_empty() {
            return None;
        }
        while self.ends == 0 {
            self.base += 64;
            self.ends = ends(line, self.base);
        }
        let end = self.base + self.ends.trailing_zeros() as usize;
        self.ends &= self.ends - 1;
        self.start = end + 1;
        Some(Field { line, start, end })
    }

    #[inline(always)]
    fn is_empty(&self) -> bool {
        self.start > self.line.len()
    }

    #[inline(always)]
    fn number(&mut self, most: u64) -> Option<u64> {
        number(self.next()?, most)
    }

    #[inline(always)]
    fn key(&mut self) -> Option<&'a [u8]> {
        self.prefix().filter(|key| !key.is_empty())
    }

    #[inline(always)]
    fn prefix(&mut self) -> Option<&'a [u8]> {
        self.next().filter(|field| is_key(*field)).map(Field::bytes)
    }

    #[inline(always)]
    fn name(&mut self) -> Option<Name<'a>> {
        Some(Name { key: self.key()?, version: missing(self.next()?, version)? })
    }

    fn place(&mut self) -> Option<Place<'a>> {
        let place = Place { key: self.prefix()?, version: self.number(MAX_VERSION)? };
        (!place.key.is_empty() || place.version == 0).then_some(place)
    }

    #[inline(always)]
    fn retention(&mut self) -> Option<Retention> {
        Some(Retention { mode: missing(self.next()?, mode)?, date: missing(self.next()?, date)? })
    }

    #[inline(always)]
    fn hold(&mut self) -> Option<Option<bool>> {
        missing(self.next()?, on_or_off)
    }

    #[inline(always)]
    fn bypass(&mut self) -> Option<bool> {
        const YES: u64 = short(b"yes");
        const NO: u64 = short(b"no");
        match self.next()?.short()? {
            YES => Some(true),
            NO => Some(false),
            _ => None,
        }
    }
}

/// A bit for each place, of 64 from a place on, where a tab or the line's end is.
#[inline(always)]
fn ends(line: &[u8], base: usize) -> u64 {
    let end = 1u64.checked_shl((line.len() - base) as u32).unwrap_or(0);
    marks(line, base, b'\t') | end
}

/// A field that allows `-`: the inner nothing is `-`, the outer one an unreadable field.
#[inline(always)]
fn missing<'a, T>(field: Field<'a>, read: impl FnOnce(Field<'a>) -> Option<T>) -> Option<Option<T>> {
    if field.is_missing() {
        Some(None)
    } else {
        read(field).map(Some)
    }
}

/// Whether a field that stands behind a date has at most 63 bytes, all of them key bytes. Each 16 are looked at together, the
/// last ones with what stands before them; a field of fewer is looked at with only its own bytes counting.
#[inline(always)]
fn is_key(field: Field) -> bool {
    let Field { line, start, end } = field;
    let length = field.length();
    if length > MAX_KEY {
        return false;
    }
    let last = key_bytes(line, end - 16);
    if length < 16 {
        return last >> (16 - length) == (1 << length) - 1;
    }
    let mut all = last;
    for at in (start..end - 16).step_by(16) {
        all &= key_bytes(line, at);
    }
    all == 0xFFFF
}

/// A whole number with no sign and no leading zero, at most so large, in a field that stands behind a date.
#[inline(always)]
fn number(field: Field, most: u64) -> Option<u64> {
    let Field { line, start, end } = field;
    let length = field.length();
    if length == 0 || length > 20 || length > 1 && line[start] == b'0' {
        return None;
    }
    let value = if length <= 8 { digits(line, end, length)? } else { long_number(line, end, length)? };
    (value <= most).then_some(value)
}

/// The number that 9 to 20 digits say which end at a place, if it has 64 bits.
fn long_number(line: &[u8], end: usize, length: usize) -> Option<u64> {
    let low = digits(line, end, 8)?;
    if length <= 16 {
        return Some(digits(line, end - 8, length - 8)? * 100_000_000 + low);
    }
    let low = digits(line, end - 8, 8)? * 100_000_000 + low;
    let high = digits(line, end - 16, length - 16)?;
    high.checked_mul(10_000_000_000_000_000)?.checked_add(low)
}

#[inline(always)]
fn version(field: Field) -> Option<u64> {
    number(field, MAX_VERSION).filter(|&version| version > 0)
}

#[inline(always)]
fn date(field: Field) -> Option<u64> {
    dates::read(field.bytes())
}

#[inline(always)]
fn mode(field: Field) -> Option<u64> {
    match field.bytes() {
        b"GOVERNANCE" => Some(GOVERNANCE),
        b"COMPLIANCE" => Some(COMPLIANCE),
        _ => None,
    }
}

#[inline(always)]
fn on_or_off(field: Field) -> Option<bool> {
    const ON: u64 = short(b"ON");
    const OFF: u64 = short(b"OFF");
    match field.short()? {
        ON => Some(true),
        OFF => Some(false),
        _ => None,
    }
}

fn period(field: Field) -> Option<Period> {
    let end = field.end - 1;
    let (unit, most) = match field.line[end] {
        b'd' => (DAYS, MAX_DAYS),
        b'y' => (YEARS, MAX_YEARS),
        _ => return None,
    };
    let count = number(Field { end, ..field }, most).filter(|&count| count > 0)?;
    Some(Period { count, unit })
}

/// The bit of each byte's right, 0 for a byte that is no letter of a right.
const BITS: [u8; 256] = {
    let (mut bits, mut at) = ([0; 256], 0);
    while at < LETTERS.len() {
        bits[LETTERS[at] as usize] = 1 << at;
        at += 1;
    }
    bits
};

/// The rights as bits; an empty field is unreadable.
#[inline(always)]
fn rights(field: Field) -> Option<u8> {
    if field.is_missing() {
        return Some(0);
    }
    let mut bits = 0;
    for &byte in field.bytes() {
        let bit = BITS[byte as usize];
        if bit & !bits == 0 {
            return None;
        }
        bits |= bit;
    }
    (bits != 0).then_some(bits)
}

const PUT: u64 = short(b"PUT");
const COPY: u64 = short(b"COPY");
const RETAIN: u64 = short(b"RETAIN");
const HOLD: u64 = short(b"HOLD");
const DELETE_VERB: u64 = short(b"DELETE");
const DEFAULT: u64 = short(b"DEFAULT");
const RULE: u64 = short(b"RULE");
const SWEEP: u64 = short(b"SWEEP");
const GET: u64 = short(b"GET");
const LIST: u64 = short(b"LIST");
const REPORT: u64 = short(b"REPORT");

#[inline(always)]
fn verb<'a>(word: Field, fields: &mut Fields<'a>) -> Option<Verb<'a>> {
    Some(match word.short()? {
        PUT => Verb::Put {
            key: fields.key()?,
            body: fields.number(u64::MAX)?,
            length: fields.number(MAX_LENGTH)?,
            retention: fields.retention()?,
            hold: fields.hold()?,
        },
        COPY => Verb::Copy {
            source: fields.name()?,
            target: fields.key()?,
            retention: fields.retention()?,
            hold: fields.hold()?,
        },
        RETAIN => {
            Verb::Retain { name: fields.name()?, retention: fields.retention()?, bypass: fields.bypass()? }
        }
        HOLD => Verb::Hold { name: fields.name()?, on: on_or_off(fields.next()?)? },
        DELETE_VERB => Verb::Delete { name: fields.name()?, bypass: fields.bypass()? },
        DEFAULT => {
            Verb::Default { mode: missing(fields.next()?, mode)?, period: missing(fields.next()?, period)? }
        }
        RULE => Verb::Rule {
            number: fields.number(7)? as usize,
            prefix: fields.prefix()?,
            current: fields.number(MAX_DAYS)?,
            noncurrent: fields.number(MAX_DAYS)?,
        },
        SWEEP => Verb::Sweep,
        GET => Verb::Get { name: fields.name()? },
        LIST => Verb::List {
            prefix: fields.prefix()?,
            after: fields.place()?,
            count: fields.number(MAX_PAGE).filter(|&count| count > 0)? as usize,
        },
        REPORT => Verb::Report { prefix: fields.prefix()? },
        _ => return None,
    })
}

/// The request that a line says, if it can be read; none that can is shorter than a date, a right and `SWEEP`.
#[inline]
pub fn read(line: &[u8]) -> Option<Request<'_>> {
    if !(LEAST_LINE..=MAX_LINE).contains(&line.len()) {
        return None;
    }
    let mut fields = Fields::of(line);
    let clock = date(fields.next()?)?;
    let rights = rights(fields.next()?)?;
    let word = fields.next()?;
    let verb = verb(word, &mut fields)?;
    fields.is_empty().then_some(Request { clock, rights, verb })
}

#[cfg(test)]
mod tests {
    use super::*;

    #[test]
    fn words_are_compared_byte_for_byte() {
        let reads = |rest: &str| read(format!("2024-01-01T00:00:00Z\trwdthbc\t{rest}").as_bytes()).is_some();
        let lines = [
            "PUT\tk\t1\t2\tGOVERNANCE\t2024-02-01T00:00:00Z\tOFF",
            "COPY\tk\t1\tl\tCOMPLIANCE\t2024-02-01T00:00:00Z\tON",
            "RETAIN\tk\t-\t-\t-\tyes",
            "HOLD\tk\t-\tON",
            "DELETE\tk\t-\tno",
            "DEFAULT\t-\t-",
            "RULE\t0\t\t0\t0",
            "SWEEP",
            "GET\tk\t-",
            "LIST\t\t\t0\t1",
            "REPORT\t",
        ];
        for line in lines {
            assert!(reads(line), "{line}");
            for (at, byte) in line.bytes().enumerate().filter(|(_, byte)| byte.is_ascii_uppercase()) {
                let mut other = line.as_bytes().to_vec();
                other[at] = byte.to_ascii_lowercase();
                assert!(!reads(&String::from_utf8(other).unwrap()), "{line} {at}");
            }
            let word = line.split('\t').next().unwrap();
            for wrong in ["\0", " ", "\r", "S", "\0\0", "\0\0\0"] {
                assert!(!reads(&line.replacen(word, &format!("{word}{wrong}"), 1)), "{line} {wrong:?}");
                assert!(!reads(&line.replacen(word, &format!("{wrong}{word}"), 1)), "{line} {wrong:?}");
                assert!(!reads(&format!("{line}{wrong}")) || line.starts_with("REPORT"), "{line} {wrong:?}");
            }
        }
    }
}
