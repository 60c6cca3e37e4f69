//! When a row is locked, and which changes of its retention are admitted.
use crate::bucket::{Row, HOLD, MODE, UNTIL};
use crate::requests::{Retention, COMPLIANCE, GOVERNANCE};

/// Whether a row may not be removed.
pub fn locked(row: &Row, now: u64, bypass: bool) -> bool {
    row[HOLD] == 1 || now < row[UNTIL] && (row[MODE] == COMPLIANCE || row[MODE] == GOVERNANCE && !bypass)
}

/// Whether RETAIN may give a row this retention.
pub fn admits(row: &Row, now: u64, bypass: bool, wish: Retention) -> bool {
    if row[UNTIL] <= now {
        return true;
    }
    let no_earlier = wish.date.is_some_and(|date| date >= row[UNTIL]);
    match row[MODE] {
        COMPLIANCE => wish.mode == Some(COMPLIANCE) && no_earlier,
        _ => bypass || wish.mode.is_some() && no_earlier,
    }
}
