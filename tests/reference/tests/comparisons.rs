//! A sweep compares a rule's prefix with a key once: each sentence of the request, and a second count by a set of keys.
mod common;
use common::{names, Hub};
use reference::bucket::MAX_CAPACITY;
use reference::settings::{BYTES, SPENT};
use reference::Bucket;
use std::collections::BTreeSet;

const SWEEP: &str = "2024-05-02T00:00:00Z|c|SWEEP";

/// The rules with a day count times the keys, which a set tells apart.
fn product(hub: &Hub) -> u64 {
    let rules = hub.bucket.settings.rules.iter().filter(|rule| rule.current + rule.noncurrent > 0);
    let keys: BTreeSet<String> = hub.table().into_iter().map(|(key, _)| key).collect();
    (rules.count() * keys.len()) as u64
}

/// The comparisons that a line counts, none where it is refused; its answer and what it leaves are as without counting.
fn counts(hub: &mut Hub, line: &str) -> Option<u64> {
    let mut counted = hub.bucket.clone();
    let mut answer = [b'?'; 300];
    let served = counted.serve_counted(line.replace('|', "\t").as_bytes(), &mut answer);
    let said = hub.say(line);
    assert_eq!(counted, hub.bucket, "counting alters nothing: {line}");
    match served {
        Ok(served) => {
            let text = format!("{said}\n").replace('|', "\t");
            assert_eq!(answer[..served.length], *text.as_bytes(), "counting alters no answer: {line}");
            Some(served.comparisons)
        }
        Err(number) => {
            assert_eq!(said, format!("no|{number}"), "counting alters no refusal: {line}");
            None
        }
    }
}

/// A sweep counts so many comparisons, and so does the set of keys before it.
fn sweep_counts(hub: &mut Hub, comparisons: u64) {
    assert_eq!(product(hub), comparisons, "the rules set times the different keys");
    assert_eq!(counts(hub, SWEEP), Some(comparisons));
}

/// A sweep that is refused with a number gives no count.
fn sweep_refused(hub: &mut Hub, line: &str, number: u64) {
    assert_eq!(counts(hub, line), None);
    assert_eq!(hub.say(line), format!("no|{number}"));
}

fn put(hub: &mut Hub, key: &str) {
    let body = hub.bucket.settings.next;
    assert_eq!(hub.say(&format!("2024-05-01T00:00:00Z|w|PUT|{key}|{body}|1|-|-|-")), format!("ok|{body}"));
}

fn mark(hub: &mut Hub, key: &str) {
    let number = hub.bucket.settings.next;
    let line = format!("2024-05-01T00:00:00Z|d|DELETE|{key}|-|no");
    assert_eq!(hub.say(&line), format!("ok|{number}|marker"));
}

fn rule(hub: &mut Hub, number: usize, prefix: &str, days: [u64; 2]) {
    let [current, noncurrent] = days;
    let line = format!("2024-05-01T00:00:00Z|c|RULE|{number}|{prefix}|{current}|{noncurrent}");
    assert_eq!(hub.say(&line), "ok");
}

/// A bucket with a row for each of these keys.
fn with_keys(keys: &[&str]) -> Hub {
    let mut hub = Hub::new(MAX_CAPACITY);
    keys.iter().for_each(|key| put(&mut hub, key));
    hub
}

#[test]
fn without_rules_nothing_is_compared() {
    sweep_counts(&mut with_keys(&["a", "a", "b"]), 0);
}

#[test]
fn an_empty_table_has_no_key_to_compare() {
    let mut hub = Hub::new(4);
    sweep_counts(&mut hub, 0);
    (0..8).for_each(|number| rule(&mut hub, number, "", [1, 1]));
    sweep_counts(&mut hub, 0);
}

#[test]
fn a_key_is_compared_once_however_many_rows_it_has() {
    let mut hub = with_keys(&["a", "b"]);
    rule(&mut hub, 0, "a", [30, 30]);
    sweep_counts(&mut hub, 2);
    for _ in 0..5 {
        put(&mut hub, "a");
        sweep_counts(&mut hub, 2);
    }
    put(&mut hub, "c");
    sweep_counts(&mut hub, 3);
    rule(&mut hub, 1, "b", [30, 30]);
    sweep_counts(&mut hub, 6);
}

#[test]
fn the_rules_set_times_the_different_keys() {
    for rules in 0..=8 {
        for keys in 1..=5 {
            for rows in [keys, keys + 1, 3 * keys, 4 * keys + 2] {
                let mut hub = Hub::new(rows);
                (0..rows).for_each(|row| put(&mut hub, &format!("k/{}", row % keys)));
                (0..rules).for_each(|number| rule(&mut hub, number, &format!("k/{number}"), [30, 30]));
                sweep_counts(&mut hub, (rules * keys) as u64);
            }
        }
    }
}

#[test]
fn the_largest_tables() {
    for keys in [1, 2, MAX_CAPACITY] {
        let mut hub = Hub::new(MAX_CAPACITY);
        (0..MAX_CAPACITY).for_each(|row| put(&mut hub, &format!("k/{}", row % keys)));
        (0..8).for_each(|number| rule(&mut hub, number, "k/", [30, 30]));
        sweep_counts(&mut hub, 8 * keys as u64);
    }
}

#[test]
fn a_rule_that_is_not_set_is_not_compared() {
    let mut hub = with_keys(&["a", "b", "c"]);
    rule(&mut hub, 0, "a", [30, 30]);
    rule(&mut hub, 3, "a", [30, 30]);
    rule(&mut hub, 7, "a", [30, 30]);
    sweep_counts(&mut hub, 9);
    rule(&mut hub, 5, "b", [0, 0]);
    sweep_counts(&mut hub, 9);
}

#[test]
fn a_rule_that_was_cleared_is_not_compared() {
    let mut hub = with_keys(&["a", "b", "c"]);
    (0..3).for_each(|number| rule(&mut hub, number, "a", [30, 30]));
    sweep_counts(&mut hub, 9);
    rule(&mut hub, 1, "a", [0, 0]);
    sweep_counts(&mut hub, 6);
    rule(&mut hub, 0, "", [0, 0]);
    sweep_counts(&mut hub, 3);
    rule(&mut hub, 2, "b", [0, 0]);
    sweep_counts(&mut hub, 0);
    rule(&mut hub, 1, "a", [30, 30]);
    sweep_counts(&mut hub, 3);
}

#[test]
fn a_rule_with_one_of_its_day_counts_is_set() {
    let mut hub = with_keys(&["a", "b"]);
    rule(&mut hub, 0, "a", [1, 0]);
    sweep_counts(&mut hub, 2);
    rule(&mut hub, 1, "a", [0, 36500]);
    sweep_counts(&mut hub, 4);
    rule(&mut hub, 0, "a", [0, 1]);
    sweep_counts(&mut hub, 4);
}

#[test]
fn a_prefix_that_begins_no_key_is_compared_as_well() {
    let mut hub = with_keys(&["a", "a/1"]);
    for (number, prefix) in ["b", "!", "~", "a/12", "a/1/and/much/longer", "A"].into_iter().enumerate() {
        rule(&mut hub, number, prefix, [1, 1]);
        sweep_counts(&mut hub, 2 * (number as u64 + 1));
    }
}

#[test]
fn two_rules_with_one_prefix_are_compared_twice() {
    let mut hub = with_keys(&["a", "a", "b"]);
    rule(&mut hub, 0, "a", [30, 0]);
    rule(&mut hub, 1, "a", [0, 30]);
    sweep_counts(&mut hub, 4);
    (2..8).for_each(|number| rule(&mut hub, number, "a", [30, 0]));
    sweep_counts(&mut hub, 16);
}

#[test]
fn the_empty_prefix_is_compared() {
    let mut hub = with_keys(&["a", "b", "c"]);
    rule(&mut hub, 0, "", [30, 30]);
    sweep_counts(&mut hub, 3);
    rule(&mut hub, 7, "", [30, 30]);
    sweep_counts(&mut hub, 6);
}

#[test]
fn keys_that_begin_each_other_or_differ_late_are_different() {
    let longest = "k".repeat(62);
    let last = [format!("{longest}!"), format!("{longest}~")];
    let mut hub = with_keys(&["a", "a/", "a/1", &longest, &last[0], &last[1]]);
    rule(&mut hub, 0, "a", [30, 30]);
    rule(&mut hub, 1, &last[1], [30, 30]);
    sweep_counts(&mut hub, 12);
}

#[test]
fn a_key_with_markers_counts_once() {
    let mut hub = with_keys(&["a", "b"]);
    rule(&mut hub, 0, "", [30, 30]);
    mark(&mut hub, "a");
    sweep_counts(&mut hub, 2);
    mark(&mut hub, "a");
    sweep_counts(&mut hub, 2);
    mark(&mut hub, "never/put");
    sweep_counts(&mut hub, 3);
    mark(&mut hub, "never/put");
    sweep_counts(&mut hub, 3);
}

#[test]
fn a_key_that_has_gone_counts_no_more() {
    let mut hub = with_keys(&["a", "b"]);
    rule(&mut hub, 0, "", [30, 30]);
    sweep_counts(&mut hub, 2);
    assert_eq!(hub.say("2024-05-02T00:00:00Z|d|DELETE|a|1|no"), "ok|1|removed");
    sweep_counts(&mut hub, 1);
}

#[test]
fn what_a_sweep_marks_and_removes_counts_by_the_table_before_it() {
    let mut hub = with_keys(&["a", "a", "b", "c"]);
    rule(&mut hub, 2, "a", [1, 1]);
    rule(&mut hub, 4, "b", [1, 0]);
    sweep_counts(&mut hub, 6);
    assert_eq!(hub.names(), names(&[("a", 5), ("a", 2), ("b", 6), ("b", 3), ("c", 4)]));
    assert_eq!(hub.say(SWEEP), "ok|0|0");
    sweep_counts(&mut hub, 6);
}

#[test]
fn a_sweep_at_the_same_table_counts_the_same() {
    let mut hub = with_keys(&["a", "a", "b"]);
    rule(&mut hub, 0, "a", [30, 30]);
    for clock in ["2024-05-01T00:00:00Z", "2024-05-02T00:00:00Z", "1970-01-01T00:00:00Z"] {
        assert_eq!(counts(&mut hub, &format!("{clock}|c|SWEEP")), Some(2));
        assert_eq!(counts(&mut hub, &format!("{clock}|rwdthbc|SWEEP")), Some(2));
    }
}

#[test]
fn every_other_verb_compares_nothing() {
    let mut hub = with_keys(&["a", "a", "b"]);
    (0..8).for_each(|number| rule(&mut hub, number, "a", [1, 1]));
    for line in [
        "PUT|a|7|1|-|-|-",
        "PUT|a|7|1|-|-|-",
        "COPY|a|-|b|-|-|-",
        "RETAIN|a|1|GOVERNANCE|2030-01-01T00:00:00Z|no",
        "HOLD|a|2|ON",
        "DELETE|a|-|no",
        "DELETE|b|3|no",
        "DEFAULT|GOVERNANCE|1d",
        "RULE|0|b|2|2",
        "RULE|1||0|0",
        "GET|a|1",
        "REPORT|a",
    ] {
        assert_eq!(counts(&mut hub, &format!("2024-05-02T00:00:00Z|rwdthbc|{line}")), Some(0), "{line}");
    }
    let mut answer = vec![0; 512];
    let served = hub.bucket.serve_counted(b"2024-05-02T00:00:00Z\tr\tLIST\ta\t\t0\t1", &mut answer);
    assert_eq!(served.map(|served| served.comparisons), Ok(0));
}

#[test]
fn a_sweep_that_can_not_be_read_or_lacks_its_right_gives_no_count() {
    let mut hub = with_keys(&["a", "b"]);
    rule(&mut hub, 0, "a", [30, 30]);
    sweep_refused(&mut hub, "2024-05-02T00:00:00Z|rwdthb|SWEEP", 5);
    sweep_refused(&mut hub, "2024-05-02T00:00:00Z|-|SWEEP", 5);
    sweep_refused(&mut hub, "2024-05-02T00:00:00Z|c|SWEEP|", 3);
    sweep_refused(&mut hub, "2024-05-02T00:00:00Z|c|SWEEPS", 3);
    let refused = hub.bucket.serve_counted(SWEEP.replace('|', "\t").as_bytes(), &mut [0; 255]);
    assert_eq!(refused, Err(2));
    sweep_counts(&mut hub, 2);
}

#[test]
fn a_sweep_whose_outcome_does_not_fit_gives_no_count() {
    for (next, refusal) in [(1, 12), (SPENT - 1, 11)] {
        let mut hub = Hub::from_number(1, next);
        put(&mut hub, "a");
        rule(&mut hub, 0, "a", [1, 0]);
        assert_eq!(counts(&mut hub, "2024-05-01T23:59:59.999Z|c|SWEEP"), Some(1));
        sweep_refused(&mut hub, SWEEP, refusal);
        rule(&mut hub, 0, "a", [30, 0]);
        sweep_counts(&mut hub, 1);
    }
}

/// A bucket of two keys in three rows and one rule, as settings, rows and keys in bytes.
fn in_bytes() -> [Vec<u8>; 3] {
    let mut hub = Hub::new(4);
    ["a", "a", "b"].iter().for_each(|key| put(&mut hub, key));
    rule(&mut hub, 6, "a", [1, 0]);
    let mut parts = [vec![0; BYTES], vec![0; 256], vec![0; 256]];
    let [settings, rows, keys] = &mut parts;
    hub.bucket.to_bytes(settings, rows, keys);
    parts
}

/// Serves a line on a bucket in bytes with and without counting: the count or the refusal.
fn served_in_bytes(parts: &mut [Vec<u8>; 3], line: &str) -> Result<u64, u64> {
    let (line, mut plain) = (line.replace('|', "\t"), parts.clone());
    let mut answers = [[b'?'; 256]; 2];
    let [settings, rows, keys] = parts;
    let counted = reference::serve_bytes_counted(settings, rows, keys, line.as_bytes(), &mut answers[0]);
    let [settings, rows, keys] = &mut plain;
    let number = reference::serve_bytes(settings, rows, keys, line.as_bytes(), &mut answers[1]);
    assert_eq!(counted.err().unwrap_or(0), number, "{line}");
    assert_eq!(*parts, plain, "{line}");
    assert_eq!(answers[0], answers[1], "{line}");
    counted
}

#[test]
fn a_bucket_in_bytes_counts_alike() {
    let mut parts = in_bytes();
    assert_eq!(served_in_bytes(&mut parts, "2024-05-01T00:00:00Z|-|SWEEP"), Err(5));
    assert_eq!(served_in_bytes(&mut parts, "2024-05-01T00:00:00Z|w|PUT|a|9|9|-|-|-"), Ok(0));
    assert_eq!(served_in_bytes(&mut parts, SWEEP), Err(12));
    assert_eq!(served_in_bytes(&mut parts, "2024-05-01T00:00:00Z|c|SWEEP"), Ok(2));
    assert_eq!(served_in_bytes(&mut parts, "2024-05-01T00:00:00Z|d|DELETE|a|1|no"), Ok(0));
    assert_eq!(served_in_bytes(&mut parts, SWEEP), Ok(2));
    let [settings, rows, keys] = &parts;
    let bucket = Bucket::from_bytes(settings, rows, keys).expect("the lengths fit");
    assert_eq!(bucket.used(), 4, "the sweep has added a marker");
    parts[0][16..24].fill(0);
    assert_eq!(served_in_bytes(&mut parts, SWEEP), Err(1));
    parts[0].pop();
    assert_eq!(served_in_bytes(&mut parts, SWEEP), Err(1));
}
