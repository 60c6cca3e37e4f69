//! "The twelve refusals" and the thirteenth: their numbers, and those that the request's own fields decide.
use crate::answers::page_buffer;
use crate::requests::{self as right, Request, Retention, Verb};

pub const UNSOUND: u64 = 1;
pub const SHORT_ANSWER: u64 = 2;
pub const UNREADABLE: u64 = 3;
pub const HALF_GIVEN: u64 = 4;
pub const NO_RIGHT: u64 = 5;
pub const DATE_PASSED: u64 = 6;
pub const NO_ROW: u64 = 7;
pub const IS_MARKER: u64 = 8;
pub const LOCKED: u64 = 9;
pub const DATE_TOO_FAR: u64 = 10;
pub const NUMBERS_SPENT: u64 = 11;
pub const FULL: u64 = 12;
pub const SHORT_FOR_PAGE: u64 = 13;

/// Refuses with a number where the test holds.
pub fn refuse(when: bool, number: u64) -> Result<(), u64> {
    if when {
        Err(number)
    } else {
        Ok(())
    }
}

/// What a verb's own fields say of refusals 4, 5, 13 and 6.
struct Asked {
    /// Whether exactly one of mode and date (or period) is missing.
    half_given: bool,
    /// The rights that it needs.
    rights: u8,
    /// The rows that a page asks for, be they there or not.
    rows: usize,
    /// The date that is given.
    date: Option<u64>,
}

/// A verb that only asks for rights.
fn asking(rights: u8) -> Asked {
    Asked { half_given: false, rights, rows: 0, date: None }
}

/// A verb that gives a mode and a date, or neither, and asks for rights.
fn giving(retention: &Retention, rights: u8) -> Asked {
    let Retention { mode, date } = *retention;
    Asked { half_given: mode.is_some() != date.is_some(), rights, rows: 0, date }
}

/// The rights that a new row's mode and hold ask for.
fn lock_rights(retention: &Retention, hold: Option<bool>) -> u8 {
    given(retention.mode.is_some(), right::RETENTION) | given(hold.is_some(), right::LEGAL_HOLD)
}

/// A right that is asked for where something is given.
fn given(is_given: bool, right: u8) -> u8 {
    if is_given {
        right
    } else {
        0
    }
}

#[inline(always)]
fn asked(verb: &Verb) -> Asked {
    match verb {
        Verb::Put { retention, hold, .. } => giving(retention, right::WRITE | lock_rights(retention, *hold)),
        Verb::Copy { retention, hold, .. } => {
            giving(retention, right::READ | right::WRITE | lock_rights(retention, *hold))
        }
        Verb::Retain { retention, bypass, .. } => {
            giving(retention, right::RETENTION | given(*bypass, right::BYPASS))
        }
        Verb::Hold { .. } => asking(right::LEGAL_HOLD),
        Verb::Delete { bypass, .. } => asking(right::DELETE | given(*bypass, right::BYPASS)),
        Verb::Default { mode, period } => {
            Asked { half_given: mode.is_some() != period.is_some(), ..asking(right::CONFIGURE) }
        }
        Verb::Rule { .. } | Verb::Sweep => asking(right::CONFIGURE),
        Verb::Get { .. } | Verb::Report { .. } => asking(right::READ),
        Verb::List { count, .. } => Asked { rows: *count, ..asking(right::READ) },
    }
}

/// Refusals 4 and 5, then 13, then 6, for an answer buffer of so many bytes.
#[inline(always)]
pub fn screen(request: &Request, now: u64, room: usize) -> Result<(), u64> {
    let asked = asked(&request.verb);
    refuse(asked.half_given, HALF_GIVEN)?;
    refuse(asked.rights & !request.rights != 0, NO_RIGHT)?;
    refuse(room < page_buffer(asked.rows), SHORT_FOR_PAGE)?;
    refuse(asked.date.is_some_and(|date| date <= now), DATE_PASSED)
}
