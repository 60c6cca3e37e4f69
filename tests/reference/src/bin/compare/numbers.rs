//! Which lines tell where version numbers go on and where they end.
use crate::carried::ONCE_SPENT;
use crate::pages;
use crate::sides::Side;
use reference::settings::SPENT;

/// The kinds of lines that tell: see `kinds`.
pub const TELLING_NUMBERS: [&str; 14] = [
    "a row added with 4294967296",
    "a row added with a larger number",
    "the last number given by a PUT",
    "the last number given by a COPY",
    "the last number given by a DELETE",
    "the last number given by a SWEEP",
    "11 by a PUT",
    "11 by a COPY",
    "11 by a DELETE",
    "11 by a SWEEP that some numbers were left for",
    "a version of 20 digits named",
    "a page that shows one",
    "a page that starts at one and shows rows",
    "one more than the last in a field that can't be read",
];

fn is_long(version: &[u8]) -> bool {
    version.len() == 20 && version.iter().all(u8::is_ascii_digit)
}

/// Which kinds a line is of, in the order of their names: what came of it, the next number before it, and what it left.
pub fn kinds(line: &[u8], number: u64, before: u64, side: &Side) -> [bool; TELLING_NUMBERS.len()] {
    let fields: Vec<&[u8]> = line.split(|&byte| byte == b'\t').collect();
    let verb = fields.get(2).copied().unwrap_or(b"");
    // LIST has a prefix before its key and version.
    let version = fields.get(if verb == b"LIST" { 5 } else { 4 }).copied().unwrap_or(b"");
    let is = |word: &[u8]| verb == word;
    let (accepted, after) = (number == 0, side.settings.word(16));
    let adds = accepted && after > before;
    let last = |word| adds && after == SPENT && is(word);
    let spent = |word| number == 11 && is(word);
    let names = [&b"GET"[..], b"DELETE", b"RETAIN", b"HOLD", b"COPY"].contains(&verb);
    let page = if accepted && is(b"LIST") { pages::shown(side.answer.seen()) } else { None };
    let rows = page.unwrap_or_default();
    let shows_long =
        rows.iter().any(|row| row.split('\t').nth(1).is_some_and(|field| is_long(field.as_bytes())));
    [
        adds && before <= ONCE_SPENT && after > ONCE_SPENT,
        adds && before > ONCE_SPENT,
        last(b"PUT"),
        last(b"COPY"),
        last(b"DELETE"),
        last(b"SWEEP"),
        spent(b"PUT"),
        spent(b"COPY"),
        spent(b"DELETE"),
        spent(b"SWEEP") && before < SPENT,
        accepted && names && is_long(version),
        shows_long,
        is_long(version) && !rows.is_empty(),
        number == 3 && (names || is(b"LIST")) && version == SPENT.to_string().as_bytes(),
    ]
}
