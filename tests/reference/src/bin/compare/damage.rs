//! Buckets that are damaged: bits, numbers, places and lengths.
use crate::carried::ONCE_SPENT;
use crate::lines::near_midnight;
use crate::random::Random;
use crate::sides::{Lent, Side};
use reference::bucket::{CREATED, DATA, HOLD, KIND, MAX_LENGTH, MODE, UNTIL, VERSION};
use reference::dates::{DAY, LAST};
use reference::settings::SPENT;

fn some_number(side: &Side, random: &mut Random) -> u64 {
    let (time, next) = (side.settings.word(0), side.settings.word(16));
    let near = [time, next, LAST, ONCE_SPENT, MAX_LENGTH, 36500, 100, 0, 1, 2, 3, u64::MAX, 1 << 63, 1024];
    random.pick(&near).wrapping_add(random.pick(&[0, 0, 1, u64::MAX]))
}

fn some_part<'a>(side: &'a mut Side, random: &mut Random) -> &'a mut Lent {
    match random.below(3) {
        0 => &mut side.settings,
        1 => &mut side.rows,
        _ => &mut side.keys,
    }
}

/// A place in the used rows or in the one behind them, so that damage meets what is looked at.
fn some_place(side: &Side, random: &mut Random) -> usize {
    let used = side.settings.word(8) as usize;
    64 * random.below((used + 1).min(side.rows.seen().len() / 64)) + random.below(64)
}

fn flip(side: &mut Side, random: &mut Random) {
    let mut at = some_place(side, random);
    let part = some_part(side, random);
    if random.once_in(3) || at >= part.seen().len() {
        at = random.below(part.seen().len());
    }
    part.bytes()[at] ^= 1 << random.below(8);
}

fn set_number(side: &mut Side, random: &mut Random) {
    let value = some_number(side, random);
    let row = some_place(side, random) / 8 * 8;
    match random.below(5) {
        0 => side.settings.set_word(8 * random.below(6), value),
        1 => side.settings.set_word(48 + 80 * random.below(8) + 64 + 8 * random.below(2), value),
        _ => side.rows.set_word(row, value),
    }
}

/// Puts values at or over their limits into the default, the next number or the used rows.
fn set_limits(side: &mut Side, random: &mut Random) {
    let used = side.settings.word(8);
    match random.below(3) {
        0 => {
            side.settings.set_word(24, random.pick(&[0, 1, 1, 2, 2, 3]));
            side.settings.set_word(32, random.pick(&[0, 1, 4, 100, 101, 36500, 36501]));
            side.settings.set_word(40, random.pick(&[0, 1, 1, 2, 2, 3]));
        }
        1 => side.settings.set_word(16, random.pick(&[0, 1, ONCE_SPENT, SPENT])),
        _ => side.settings.set_word(8, random.pick(&[0, used + 1, used.wrapping_sub(1), 1025])),
    }
}

/// Puts a byte at or over the limits of key bytes and lengths into a key or a prefix.
fn set_key_byte(side: &mut Side, random: &mut Random) {
    let byte = random.pick(&[0, 1, 2, 0x20, 0x21, 0x3F, 0x40, 0x7E, 0x7F, 0x80]);
    let (row, within) = (some_place(side, random) / 64 * 64, random.below(4));
    if random.once_in(3) {
        side.settings.bytes()[48 + 80 * random.below(8) + within] = byte;
    } else {
        side.keys.bytes()[row + within] = byte;
    }
}

/// Swaps a row with its neighbour, in the numbers, in the keys or in both.
fn swap_rows(side: &mut Side, random: &mut Random) {
    let at = some_place(side, random) / 64 * 64;
    if at + 128 > side.rows.seen().len() {
        return;
    }
    let which = random.below(3);
    for (part, left_out) in [(&mut side.rows, 1), (&mut side.keys, 2)] {
        if which != left_out {
            part.bytes()[at..at + 128].rotate_left(64);
        }
    }
}

/// Damages a bucket whose lengths fit.
pub fn bucket(side: &mut Side, random: &mut Random) {
    match random.below(9) {
        0..=2 => flip(side, random),
        3..=5 => set_number(side, random),
        6 => set_key_byte(side, random),
        7 => set_limits(side, random),
        _ => swap_rows(side, random),
    }
}

/// Changes the length of one buffer, or of rows and keys alike.
pub fn lengths(side: &mut Side, random: &mut Random) {
    let change = random.pick(&[-64, -8, -1, 1, 8, 64, 128]);
    let new = |length: usize| (length as i64 + change).max(0) as usize;
    let length = side.rows.seen().len();
    let far = random.pick(&[0, 1, 64, 512, 65536, 65600]);
    match random.below(6) {
        0 => side.settings.resize(new(688)),
        1 => side.rows.resize(new(length)),
        2 => side.keys.resize(new(length)),
        3 => side.rows.resize(far),
        _ => {
            let length = if random.once_in(4) { far } else { new(length) };
            side.rows.resize(length);
            side.keys.resize(length);
        }
    }
}

/// Raises the next number, unless it is larger already.
fn raise_next(side: &mut Side, number: u64) {
    let next = side.next_number();
    side.settings.set_word(16, next.max(number));
}

/// A next number at or around the old end, or one for which few, some or many numbers are left.
fn some_next(random: &mut Random) -> u64 {
    let near = random.below(8) as u64;
    match random.below(8) {
        0 | 1 => ONCE_SPENT,
        2 | 3 => ONCE_SPENT - near,
        4 => ONCE_SPENT + near,
        5 => SPENT - near,
        6 => SPENT - 1000 * (1 + near),
        _ => random.next(),
    }
}

/// Leaves so few numbers that adding some rows meets the end.
pub fn leave_few(side: &mut Side, random: &mut Random) {
    raise_next(side, SPENT - random.below(8) as u64);
}

/// Raises a row's number to one next below that of the next newer row of its key, or below the next number.
fn raise_number(side: &mut Side, at: usize, random: &mut Random) {
    let newer = at.checked_sub(1).filter(|newer| key_at(side, *newer) == key_at(side, at));
    let above = newer.map_or(side.next_number(), |newer| side.rows.word(64 * newer + 8 * VERSION));
    let place = 64 * at + 8 * VERSION;
    let raised = (above - 1).saturating_sub(random.below(4) as u64);
    side.rows.set_word(place, side.rows.word(place).max(raised));
}

fn key_at(side: &Side, at: usize) -> &[u8] {
    &side.keys.seen()[64 * at..64 * at + 64]
}

/// Gives a data row a lock that perhaps no line could have given it.
fn set_lock(side: &mut Side, at: usize, random: &mut Random) {
    let time = side.settings.word(0);
    let mode = random.below(3) as u64;
    let days = random.next() % (4 * DAY);
    let until = random.pick(&[1, time, time + 1, time + days, time + 365 * DAY, LAST]).clamp(1, LAST);
    let numbers = [(MODE, mode), (UNTIL, if mode == 0 { 0 } else { until }), (HOLD, random.below(2) as u64)];
    if side.rows.word(64 * at + 8 * KIND) == DATA {
        numbers.into_iter().for_each(|(place, number)| side.rows.set_word(64 * at + 8 * place, number));
    }
}

/// Sets a row's creation back.
fn set_back(side: &mut Side, at: usize, random: &mut Random) {
    let place = 64 * at + 8 * CREATED;
    let created = side.rows.word(place);
    let earlier = created - random.next() % (3 * DAY).min(created + 1);
    side.rows.set_word(place, near_midnight(earlier, random).min(created));
}

/// A change that leaves a sound bucket sound, and that lines reach only after a long time, if at all.
pub fn sound_change(side: &mut Side, random: &mut Random) {
    let time = side.settings.word(0);
    let used = side.settings.word(8) as usize;
    match random.below(12) {
        0 => side.settings.set_word(0, time.max(near_midnight(LAST - random.next() % (3 * DAY), random))),
        1 => side.settings.set_word(0, time.max(LAST - random.next() % (40000 * DAY))),
        2..=4 => raise_next(side, some_next(random)),
        _ if used == 0 => {}
        5 | 6 => raise_number(side, random.below(used), random),
        7..=9 => set_lock(side, random.below(used), random),
        _ => set_back(side, random.below(used), random),
    }
}
