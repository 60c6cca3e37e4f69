//! When the whole is sound, and what the engine hands back of a key.
mod common;
use common::{names, Hub};
use reference::bucket::{block, Bucket, MAX_VERSION};
use reference::dates;
use reference::settings::{DefaultRetention, Rule, Settings, BYTES, SPENT};

/// A bucket with two versions of a, a marker on b and one free row.
fn example() -> Bucket {
    let mut hub = Hub::new(4);
    hub.run(&[
        ("2024-01-01T00:00:00Z|w|PUT|a|1|1|-|-|-", "ok|1"),
        ("2024-01-01T00:00:00Z|wth|PUT|a|2|2|GOVERNANCE|2024-02-01T00:00:00Z|ON", "ok|2"),
        ("2024-01-01T00:00:00Z|d|DELETE|b|-|no", "ok|3|marker"),
    ]);
    hub.bucket
}

fn after(change: impl FnOnce(&mut Bucket)) -> bool {
    let mut bucket = example();
    assert!(bucket.sound());
    change(&mut bucket);
    bucket.sound()
}

#[test]
fn settings_numbers() {
    assert!(after(|b| b.settings.time = dates::LAST));
    assert!(!after(|b| b.settings.time = dates::LAST + 1));
    assert!(!after(|b| b.settings.time -= 1), "a creation after the bucket's time");
    assert!(!after(|b| b.settings.used = 2));
    assert!(!after(|b| b.settings.used = 4));
    assert!(!after(|b| b.settings.used = 5));
    assert!(!after(|b| b.settings.used = u64::MAX));
    assert!(!after(|b| b.settings.next = 3), "a version number is not below the next one");
    for next in [4, 4294967295, 4294967296, 4294967297, SPENT - 1, SPENT] {
        assert!(after(|b| b.settings.next = next), "{next} is a next number");
    }
    let mut fresh = Bucket::fresh(1);
    fresh.settings.next = 0;
    assert!(!fresh.sound());
}

#[test]
fn defaults() {
    let sound = |mode, count, unit| after(|b| b.settings.default = DefaultRetention { mode, count, unit });
    assert!(sound(0, 0, 0) && sound(1, 1, 1) && sound(2, 36500, 1) && sound(1, 1, 2) && sound(2, 100, 2));
    for (mode, count, unit) in [
        (1, 0, 1),
        (1, 36501, 1),
        (1, 101, 2),
        (1, 0, 2),
        (0, 1, 1),
        (3, 1, 1),
        (1, 1, 3),
        (1, 1, 0),
        (1, 0, 0),
    ] {
        assert!(!sound(mode, count, unit), "{mode} {count} {unit}");
    }
}

#[test]
fn rules() {
    let sound =
        |prefix, current, noncurrent| after(|b| b.settings.rules[7] = Rule { prefix, current, noncurrent });
    assert!(sound(block(b""), 36500, 0) && sound(block(&[b'x'; 63]), 0, 36500) && sound(block(b""), 0, 0));
    assert!(!sound(block(b""), 36501, 0) && !sound(block(b""), 0, 36501) && !sound(block(b"x"), 0, 0));
    let (mut long, mut behind, mut space) = (block(&[b'x'; 63]), block(b"x"), block(b"x x"));
    long[0] = 64;
    behind[5] = b'y';
    assert!(!sound(long, 1, 1) && !sound(behind, 1, 1) && !sound(space, 1, 1));
    space[2] = 0x7F;
    assert!(!sound(space, 1, 1));
}

#[test]
fn row_numbers() {
    let sound = |at: usize, place: usize, value| after(|b| b.rows[at][place] = value);
    assert!(!sound(0, 0, 0) && !sound(0, 0, 1) && !sound(0, 0, 4) && sound(0, 0, 3));
    assert!(!sound(0, 0, 4294967299), "3 in its lower half alone");
    assert!(!sound(1, 1, 0) && sound(1, 1, 1) && !sound(1, 1, 2) && !sound(1, 1, 3));
    assert!(
        sound(1, 2, 0) && sound(1, 3, u64::MAX) && sound(1, 4, 5497558138880) && !sound(1, 4, 5497558138881)
    );
    assert!(!sound(0, 5, 0) && sound(0, 5, 2) && !sound(0, 5, 3) && !sound(0, 6, 0));
    assert!(sound(0, 6, dates::LAST) && !sound(0, 6, dates::LAST + 1) && sound(0, 6, 1) && !sound(1, 6, 1));
    assert!(sound(0, 7, 0) && sound(1, 7, 1) && !sound(0, 7, 2));
    for place in 3..8 {
        assert!(!sound(2, place, 1), "in a marker the last five are 0");
        assert!(!sound(3, place, 1), "unused rows are zero");
    }
}

#[test]
fn version_numbers_up_to_the_last() {
    let sound = |number, next| {
        after(|b| {
            b.rows[0][0] = number;
            b.settings.next = next;
        })
    };
    for number in [4294967295, 4294967296, 4294967297, 1 << 63, MAX_VERSION] {
        assert!(sound(number, number + 1) && sound(number, SPENT) && !sound(number, number), "{number}");
    }
    assert!(!sound(SPENT, SPENT), "the number behind the last is none");
}

#[test]
fn keys_and_order() {
    let sound = |at: usize, key| after(|b| b.keys[at] = key);
    assert!(
        sound(2, block(b"aa"))
            && sound(2, block(&[b'~'; 63]))
            && !sound(2, block(b""))
            && !sound(2, block(b"A"))
    );
    assert!(sound(0, block(b"A")) && !sound(1, block(b"A")) && !sound(3, block(b"x")));
    assert!(!after(|b| b.keys[2][9] = 1) && !after(|b| b.keys[2][0] = 64) && !after(|b| b.keys[2][0] = 0));
    assert!(!after(|b| b.rows.swap(0, 1)), "version numbers fall within a key");
    assert!(!after(|b| b.rows.truncate(2)) && !after(|b| b.keys.truncate(3)));
}

#[test]
fn the_order_of_keys() {
    let mut hub = Hub::new(8);
    for (body, key) in ["b", "a", "ab", "a!", "~", "!", "a"].into_iter().enumerate() {
        hub.say(&format!("2024-01-01T00:00:00Z|w|PUT|{key}|{body}|1|-|-|-"));
    }
    let order = [("!", 6), ("a", 7), ("a", 2), ("a!", 4), ("ab", 3), ("b", 1), ("~", 5)];
    assert_eq!(hub.names(), names(&order));
}

#[test]
fn a_key_handed_back() {
    let bucket = example();
    assert_eq!((bucket.key_at(1), bucket.key_at(2)), (&b"a"[..], &b"b"[..]));
    assert!(bucket.key_at(3).is_empty() && bucket.key_at(usize::MAX).is_empty());
    let mut unsound = bucket;
    unsound.settings.next = 0;
    assert!(unsound.key_at(1).is_empty());
}

#[test]
fn settings_as_bytes() {
    let mut bytes = [0; BYTES];
    for (at, byte) in bytes.iter_mut().enumerate() {
        *byte = (at * 7 % 251) as u8;
    }
    let mut again = [0; BYTES];
    Settings::from_bytes(&bytes).to_bytes(&mut again);
    assert_eq!(bytes, again);
    Settings::fresh().to_bytes(&mut again);
    assert_eq!((again[16], again.iter().map(|&byte| u64::from(byte)).sum::<u64>()), (1, 1));
}
