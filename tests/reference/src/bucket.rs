//! "Rows and settings": the table, its order, and when the whole is sound.
use crate::bytes::{key_bytes_of_64, marks_of_64, same_64, word};
use crate::dates;
use crate::settings::Settings;
use std::cmp::Ordering;

/// A key or a prefix: its length, its bytes, then zeros.
pub type Block = [u8; 64];
/// The eight numbers of a row.
pub type Row = [u64; 8];

pub const VERSION: usize = 0;
pub const KIND: usize = 1;
pub const CREATED: usize = 2;
pub const BODY: usize = 3;
pub const LENGTH: usize = 4;
pub const MODE: usize = 5;
pub const UNTIL: usize = 6;
pub const HOLD: usize = 7;

pub const DATA: u64 = 1;
pub const MARKER: u64 = 2;

pub const MAX_CAPACITY: usize = 1024;
pub const MAX_VERSION: u64 = 18446744073709551614;
pub const MAX_LENGTH: u64 = 5497558138880;
pub const MAX_KEY: usize = 63;

/// The block of a key or prefix of at most 63 bytes.
#[inline]
pub fn block(key: &[u8]) -> Block {
    let mut out = [0; 64];
    out[0] = key.len() as u8;
    match key.len() {
        16.. => copy::<16>(key, &mut out),
        8.. => copy::<8>(key, &mut out),
        4.. => copy::<4>(key, &mut out),
        _ => copy::<1>(key, &mut out),
    }
    out
}

/// Copies a key into its block, so many bytes at a time of which it has as many, the last ones together with some before them.
#[inline(always)]
fn copy<const N: usize>(key: &[u8], out: &mut Block) {
    let mut at = 0;
    while at + N < key.len() {
        out[1 + at..1 + at + N].copy_from_slice(&key[at..at + N]);
        at += N;
    }
    if let Some(last) = key.len().checked_sub(N) {
        out[1 + last..1 + last + N].copy_from_slice(&key[last..last + N]);
    }
}

/// Whether a block holds a key of at least so many bytes, with zeros behind it; all its bytes are looked at together.
#[inline(always)]
pub fn sound_block(block: &Block, least: usize) -> bool {
    let length = block[0] as usize;
    if !(least..=MAX_KEY).contains(&length) {
        return false;
    }
    let key = ((1 << length) - 1) << 1;
    key_bytes_of_64(block) & key == key && marks_of_64(block, 0, 0) | key | 1 == u64::MAX
}

/// The order of keys; zeros stand behind each key, so that a prefix comes before the longer key.
#[inline(always)]
fn key_order(one: &Block, other: &Block) -> Ordering {
    for at in [1, 17, 33] {
        let (one, other) = (sixteen(one, at), sixteen(other, at));
        if one != other {
            return one.cmp(&other);
        }
    }
    sixteen(one, 48).cmp(&sixteen(other, 48))
}

/// The place of the first byte at which two blocks differ, their lengths aside; 57 or more where there is none before it.
#[inline(always)]
fn common(one: &Block, other: &Block) -> usize {
    for at in [1, 9, 17, 25, 33, 41, 49] {
        let differ = word(one, at) ^ word(other, at);
        if differ != 0 {
            return at + differ.trailing_zeros() as usize / 8;
        }
    }
    57
}

/// The 16 bytes of a block from a place on, by whose order blocks are that are alike before it.
#[inline(always)]
fn sixteen(block: &Block, at: usize) -> u128 {
    u128::from(word(block, at).swap_bytes()) << 64 | u128::from(word(block, at + 8).swap_bytes())
}

/// Whether a prefix begins the key; a prefix that is longer differs from the zeros behind the key.
pub fn begins(prefix: &Block, key: &Block) -> bool {
    let length = prefix[0] as usize;
    let differ = word(prefix, 1) ^ word(key, 1);
    let alike = differ.trailing_zeros() as usize / 8;
    alike >= length.min(8) && (length <= 8 || prefix[9..=length] == key[9..=length])
}

/// The first place that doesn't come before a target, where all before it do and none from it on, the place at the end neither.
///
/// Of each stretch its three quarters are asked at once and their answers added up, so that nothing is there to be guessed.
#[inline(always)]
fn quarters(end: usize, is_before: impl Fn(usize) -> bool) -> usize {
    let mut low = 0;
    let mut shift = (usize::BITS - end.leading_zeros()).next_multiple_of(2);
    while shift > 0 {
        shift -= 2;
        let ask = |quarter: usize| usize::from(is_before((low + (quarter << shift) - 1).min(end)));
        low += (ask(1) + ask(2) + ask(3)) << shift;
    }
    low
}

/// The bucket: settings, and a table of as many rows as its capacity.
#[derive(Clone, Debug, PartialEq, Eq)]
pub struct Bucket {
    pub settings: Settings,
    pub rows: Vec<Row>,
    pub keys: Vec<Block>,
}

impl Bucket {
    /// A fresh bucket of a capacity from 1 to 1024.
    pub fn fresh(capacity: usize) -> Bucket {
        Bucket { settings: Settings::fresh(), rows: vec![[0; 8]; capacity], keys: vec![[0; 64]; capacity] }
    }

    pub fn capacity(&self) -> usize {
        self.rows.len()
    }

    pub fn used(&self) -> usize {
        self.settings.used as usize
    }

    /// Whether a row stands before this version of the key.
    #[inline]
    fn is_before(&self, at: usize, key: &Block, version: u64) -> bool {
        if same_64(&self.keys[at], key) {
            return version < self.rows[at][VERSION];
        }
        key_order(&self.keys[at], key) == Ordering::Less
    }

    /// The first place whose row stands at or after this version of the key.
    ///
    /// What the key has in common with the first and with the last row's key, all rows' keys have, so that the 16 bytes behind it
    /// decide nearly all.
    #[inline]
    pub fn place(&self, key: &Block, version: u64) -> usize {
        let keys = &self.keys[..self.used()];
        let (Some(first), Some(last)) = (keys.first(), keys.last()) else { return 0 };
        let window = common(first, key).min(common(last, key)).min(48);
        let target = sixteen(key, window);
        let end = keys.len() - 1;
        let ends_within = 1 + (key[0] as usize) < window + 16;
        if ends_within && version != u64::MAX {
            // Where all 16 bytes are alike the keys are, and the versions decide.
            let is_before = |at: usize| {
                let newer = u128::from(version < self.rows[at][VERSION]);
                sixteen(&keys[at], window) < target + newer
            };
            return if is_before(end) { keys.len() } else { quarters(end, is_before) };
        }
        let is_less = |at: usize| sixteen(&keys[at], window) < target;
        let low = if is_less(end) { keys.len() } else { quarters(end, is_less) };
        if low == keys.len() || !self.is_before(low, key, version) {
            return low;
        }
        self.place_behind(low, key, version)
    }

    /// The first place at or after this version of the key, where the row at a place is still before it: by steps that double.
    fn place_behind(&self, at: usize, key: &Block, version: u64) -> usize {
        let used = self.used();
        let (mut low, mut step) = (at + 1, 1);
        while low + step <= used && self.is_before(low + step - 1, key, version) {
            low += step;
            step *= 2;
        }
        let end = used.min(low + step - 1);
        low + quarters(end - low, |at| low + at < end && self.is_before(low + at, key, version))
    }

    /// The place where a key's current version stands, or where its first row would.
    #[inline]
    pub fn first_place(&self, key: &Block) -> usize {
        self.place(key, u64::MAX)
    }

    /// The place of the row that a key and a version field name.
    #[inline]
    pub fn find(&self, key: &Block, version: Option<u64>) -> Option<usize> {
        let at = self.place(key, version.unwrap_or(u64::MAX));
        let named = at < self.used()
            && same_64(&self.keys[at], key)
            && version.map_or(true, |number| self.rows[at][VERSION] == number);
        named.then_some(at)
    }

    /// Puts a row in, the rows from that place on moving by one.
    pub fn insert(&mut self, at: usize, row: Row, key: &Block) {
        let used = self.used();
        self.rows.copy_within(at..used, at + 1);
        self.keys.copy_within(at..used, at + 1);
        self.rows[at] = row;
        self.keys[at] = *key;
        self.settings.used += 1;
    }

    /// Takes a row out, the rows behind it moving by one.
    pub fn remove(&mut self, at: usize) {
        let used = self.used();
        self.rows.copy_within(at + 1..used, at);
        self.keys.copy_within(at + 1..used, at);
        self.rows[used - 1] = [0; 8];
        self.keys[used - 1] = [0; 64];
        self.settings.used -= 1;
    }

    /// The key of a used row, or the empty part.
    pub fn key_at(&self, position: usize) -> &[u8] {
        if !self.sound() || position >= self.used() {
            return &[];
        }
        let block = &self.keys[position];
        &block[1..=block[0] as usize]
    }

    #[inline(always)]
    fn sound_row(&self, at: usize) -> bool {
        let row = &self.rows[at];
        let [version, kind, created, body, length, mode, until, hold] = *row;
        // Joined without branches, since all of these hold nearly always.
        let numbers = (1..=MAX_VERSION).contains(&version)
            & (version < self.settings.next)
            & ((kind == DATA) | (kind == MARKER) & (body | length | mode | until | hold == 0))
            & (created <= self.settings.time)
            & (length <= MAX_LENGTH)
            & (mode <= 2)
            & ((mode == 0) == (until == 0))
            & (until <= dates::LAST)
            & (hold <= 1);
        numbers && sound_block(&self.keys[at], 1) && (at == 0 || self.in_order(at))
    }

    /// Whether a row stands rightly behind the one before it.
    #[inline(always)]
    fn in_order(&self, at: usize) -> bool {
        match key_order(&self.keys[at - 1], &self.keys[at]) {
            Ordering::Less => true,
            Ordering::Equal => self.rows[at - 1][VERSION] > self.rows[at][VERSION],
            Ordering::Greater => false,
        }
    }

    /// Whether the whole is sound; a table of no rows, more than 1024 or unequal parts is not.
    pub fn sound(&self) -> bool {
        let used = self.settings.used;
        (1..=MAX_CAPACITY).contains(&self.capacity())
            && self.keys.len() == self.capacity()
            && used <= self.capacity() as u64
            && self.settings.sound()
            && (0..used as usize).all(|at| self.sound_row(at))
            && self.rows[used as usize..]
                .iter()
                .all(|row| row.iter().fold(0, |joined, number| joined | number) == 0)
            && self.keys[used as usize..].iter().all(|key| same_64(key, &[0; 64]))
    }
}
