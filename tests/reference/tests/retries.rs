//! A PUT that is sent again: each sentence of its request, and each boundary of what makes it a retry.
mod common;
use common::{names, Hub};
use reference::dates;
use reference::settings::SPENT;

const T: &str = "2024-01-01T00:00:00Z";
const LATER: &str = "2024-01-02T00:00:00Z";
/// The line whose reply the modem misses, without its clock.
const PUT: &str = "w|PUT|a|5|500|-|-|-";

/// A bucket of so many rows that has served the line once.
fn sent_once(capacity: usize) -> Hub {
    let mut hub = Hub::new(capacity);
    says(&mut hub, &[(PUT, "ok|1")]);
    hub
}

/// Serves lines at one clock and compares each answer.
fn says(hub: &mut Hub, lines: &[(&str, &str)]) {
    for (line, expected) in lines {
        assert_eq!(hub.say(&format!("{T}|{line}")), *expected, "{line}");
    }
}

/// Serves a retry at a later clock: it moves the time and changes nothing else.
fn retried(hub: &mut Hub, line: &str, number: u64) {
    let mut expected = hub.bucket.clone();
    expected.settings.time = dates::read(LATER.as_bytes()).unwrap();
    assert_eq!(hub.say(&format!("{LATER}|{line}")), format!("ok|{number}"), "{line}");
    assert_eq!(hub.bucket, expected, "{line}");
}

/// Serves a PUT that is no retry: it takes the next number and adds a row.
fn added(hub: &mut Hub, line: &str, number: u64) {
    let used = hub.bucket.used();
    says(hub, &[(line, &format!("ok|{number}"))]);
    assert_eq!((hub.bucket.used(), hub.bucket.settings.next), (used + 1, number + 1), "{line}");
}

#[test]
fn it_answers_the_rows_number_and_adds_no_row() {
    let mut hub = sent_once(4);
    for _ in 0..5 {
        retried(&mut hub, PUT, 1);
    }
    assert_eq!(hub.names(), names(&[("a", 1)]));
}

#[test]
fn the_row_keeps_its_creation() {
    let mut hub = sent_once(4);
    retried(&mut hub, PUT, 1);
    hub.run(&[("2024-01-01T00:00:00Z|c|RULE|0||1|0", "ok"), ("2024-01-02T00:00:00Z|c|SWEEP", "ok|0|1")]);
}

#[test]
fn the_time_moves_and_is_never_set_back() {
    let mut hub = sent_once(4);
    retried(&mut hub, PUT, 1);
    says(&mut hub, &[(PUT, "ok|1"), ("wt|PUT|b|1|1|GOVERNANCE|2024-01-02T00:00:00Z|-", "no|6")]);
    assert_eq!(hub.bucket.settings.time, dates::read(LATER.as_bytes()).unwrap());
}

#[test]
fn another_length_body_or_key_is_no_retry() {
    for line in [
        "w|PUT|a|5|501|-|-|-",
        "w|PUT|a|5|499|-|-|-",
        "w|PUT|a|4|500|-|-|-",
        "w|PUT|a|6|500|-|-|-",
        "w|PUT|a|500|5|-|-|-",
        "w|PUT|a|4294967301|500|-|-|-",
        "w|PUT|a|5|4294967796|-|-|-",
        "w|PUT|b|5|500|-|-|-",
        "w|PUT|A|5|500|-|-|-",
        "w|PUT|a/|5|500|-|-|-",
        "w|PUT|aa|5|500|-|-|-",
        "w|PUT|!|5|500|-|-|-",
    ] {
        added(&mut sent_once(4), line, 2);
    }
    added(&mut Hub::new(4), PUT, 1);
}

#[test]
fn the_least_and_the_greatest() {
    for (body, length) in [("0", "0"), ("18446744073709551615", "5497558138880"), ("0", "5497558138880")] {
        let mut hub = Hub::new(2);
        for key in ["!".to_string(), "~".repeat(63)] {
            let line = format!("w|PUT|{key}|{body}|{length}|-|-|-");
            let number = hub.bucket.settings.next;
            added(&mut hub, &line, number);
            retried(&mut hub, &line, number);
        }
    }
}

#[test]
fn keys_around_it_play_no_part() {
    let mut hub = Hub::new(8);
    for (body, key) in ["a", "a/", "a/1", "b", "~"].into_iter().enumerate() {
        says(&mut hub, &[(&format!("w|PUT|{key}|{body}|1|-|-|-"), &format!("ok|{}", body + 1))]);
    }
    for (body, key) in ["a", "a/", "a/1", "b", "~"].into_iter().enumerate() {
        retried(&mut hub, &format!("w|PUT|{key}|{body}|1|-|-|-"), body as u64 + 1);
    }
    added(&mut hub, "w|PUT|a/0|2|1|-|-|-", 6);
    added(&mut hub, "w|PUT|!|0|1|-|-|-", 7);
    added(&mut hub, "w|PUT|~~|4|1|-|-|-", 8);
}

#[test]
fn only_the_current_row_is_compared() {
    let mut hub = sent_once(4);
    added(&mut hub, "w|PUT|a|6|500|-|-|-", 2);
    added(&mut hub, PUT, 3);
    retried(&mut hub, PUT, 3);
    assert_eq!(hub.names(), names(&[("a", 3), ("a", 2), ("a", 1)]));
}

#[test]
fn under_a_marker_nothing_is_current() {
    let mut hub = sent_once(6);
    says(&mut hub, &[("d|DELETE|a|-|no", "ok|2|marker")]);
    added(&mut hub, PUT, 3);
    says(&mut hub, &[("d|DELETE|a|-|no", "ok|4|marker"), ("d|DELETE|a|4|no", "ok|4|removed-marker")]);
    retried(&mut hub, PUT, 3);
    says(&mut hub, &[("d|DELETE|a|3|no", "ok|3|removed")]);
    added(&mut hub, PUT, 5);
}

#[test]
fn a_marker_has_no_body_and_length_to_compare() {
    let mut hub = Hub::new(2);
    says(&mut hub, &[("d|DELETE|a|-|no", "ok|1|marker")]);
    added(&mut hub, "w|PUT|a|0|0|-|-|-", 2);
}

#[test]
fn a_row_becomes_current_when_those_above_it_go() {
    let mut hub = sent_once(4);
    says(&mut hub, &[("w|PUT|a|6|500|-|-|-", "ok|2"), ("d|DELETE|a|2|no", "ok|2|removed")]);
    retried(&mut hub, PUT, 1);
    says(&mut hub, &[("d|DELETE|a|1|no", "ok|1|removed")]);
    added(&mut hub, PUT, 3);
}

#[test]
fn under_a_sweeps_marker() {
    let mut hub = sent_once(4);
    says(&mut hub, &[("c|RULE|0|a|1|1", "ok")]);
    hub.run(&[
        ("2024-01-01T23:59:59.999Z|c|SWEEP", "ok|0|0"),
        ("2024-01-01T23:59:59.999Z|w|PUT|a|5|500|-|-|-", "ok|1"),
        ("2024-01-02T00:00:00Z|c|SWEEP", "ok|0|1"),
        ("2024-01-02T00:00:00Z|w|PUT|a|5|500|-|-|-", "ok|3"),
    ]);
}

#[test]
fn a_copy_is_never_a_retry() {
    let mut hub = sent_once(6);
    says(&mut hub, &[("rw|COPY|a|-|a|-|-|-", "ok|2"), ("rw|COPY|a|-|b|-|-|-", "ok|3")]);
    says(&mut hub, &[("rw|COPY|a|-|b|-|-|-", "ok|4"), ("rw|COPY|b|-|b|-|-|-", "ok|5")]);
    assert_eq!(hub.names(), names(&[("a", 2), ("a", 1), ("b", 5), ("b", 4), ("b", 3)]));
}

#[test]
fn a_row_that_a_copy_made_is_compared_too() {
    let mut hub = sent_once(4);
    says(&mut hub, &[("rw|COPY|a|-|a|-|-|-", "ok|2"), ("rw|COPY|a|1|b|-|-|-", "ok|3")]);
    retried(&mut hub, PUT, 2);
    retried(&mut hub, "w|PUT|b|5|500|-|-|-", 3);
}

#[test]
fn the_lock_fields_are_dropped() {
    let held = "wth|PUT|a|5|500|GOVERNANCE|2024-02-01T00:00:00Z|ON";
    for first in [PUT, "wt|PUT|a|5|500|COMPLIANCE|2024-03-01T00:00:00Z|-", held] {
        for again in [
            PUT,
            "wt|PUT|a|5|500|GOVERNANCE|2024-02-01T00:00:00Z|-",
            "wt|PUT|a|5|500|COMPLIANCE|9999-12-31T23:59:59.999Z|-",
            "wt|PUT|a|5|500|COMPLIANCE|2024-01-02T00:00:00.001Z|-",
            "wh|PUT|a|5|500|-|-|ON",
            "wh|PUT|a|5|500|-|-|OFF",
            "wth|PUT|a|5|500|COMPLIANCE|2024-04-01T00:00:00Z|ON",
        ] {
            let mut hub = Hub::new(2);
            added(&mut hub, first, 1);
            retried(&mut hub, again, 1);
        }
    }
}

#[test]
fn it_puts_nothing_on_hold_and_under_no_mode() {
    let mut hub = sent_once(2);
    says(
        &mut hub,
        &[
            ("wth|PUT|a|5|500|COMPLIANCE|2024-04-01T00:00:00Z|ON", "ok|1"),
            ("r|GET|a|1", "ok|1|5|500|-|-|OFF"),
            ("d|DELETE|a|1|no", "ok|1|removed"),
        ],
    );
}

#[test]
fn it_lifts_no_lock() {
    let mut hub = Hub::new(2);
    says(
        &mut hub,
        &[
            ("wth|PUT|a|5|500|COMPLIANCE|2024-04-01T00:00:00Z|ON", "ok|1"),
            ("wth|PUT|a|5|500|GOVERNANCE|2024-01-02T00:00:00Z|OFF", "ok|1"),
            ("w|PUT|a|5|500|-|-|-", "ok|1"),
            ("r|GET|a|-", "ok|1|5|500|COMPLIANCE|2024-04-01T00:00:00.000Z|ON"),
            ("db|DELETE|a|1|yes", "no|9"),
        ],
    );
}

#[test]
fn the_default_does_not_apply() {
    let mut hub = sent_once(2);
    says(&mut hub, &[("c|DEFAULT|COMPLIANCE|1d", "ok")]);
    retried(&mut hub, PUT, 1);
}

#[test]
fn after_retain_and_hold() {
    let mut hub = sent_once(2);
    says(&mut hub, &[("t|RETAIN|a|1|GOVERNANCE|2024-02-01T00:00:00Z|no", "ok"), ("h|HOLD|a|1|ON", "ok")]);
    retried(&mut hub, PUT, 1);
    assert_eq!(hub.say(&format!("{T}|r|GET|a|-")), "ok|1|5|500|GOVERNANCE|2024-02-01T00:00:00.000Z|ON");
}

#[test]
fn refusals_1_and_2_as_before() {
    let mut hub = sent_once(1);
    assert_eq!(hub.say_in(255, &format!("{T}|{PUT}")), "no|2");
    assert_eq!(hub.say_in(256, &format!("{T}|{PUT}")), "ok|1");
    hub.bucket.settings.next = 1;
    let number = hub.number_by_bytes(256, &format!("{T}|{PUT}"));
    assert_eq!(number, 1, "the row's number is not below the next one");
}

#[test]
fn refusals_3_to_6_as_before() {
    says(
        &mut sent_once(4),
        &[
            ("w|PUT|a|05|500|-|-|-", "no|3"),
            ("w|PUT|a|5|500|-|-", "no|3"),
            ("w|PUT|a|5|500|-|-|on", "no|3"),
            ("-|PUT|a|5|500|GOVERNANCE|-|-", "no|4"),
            ("-|PUT|a|5|500|-|2024-02-01T00:00:00Z|-", "no|4"),
            ("wt|PUT|a|5|500|-|1999-01-01T00:00:00Z|-", "no|4"),
            ("-|PUT|a|5|500|-|-|-", "no|5"),
            ("rdthbc|PUT|a|5|500|-|-|-", "no|5"),
            ("wh|PUT|a|5|500|GOVERNANCE|2024-02-01T00:00:00Z|-", "no|5"),
            ("wh|PUT|a|5|500|GOVERNANCE|1999-01-01T00:00:00Z|-", "no|5"),
            ("wt|PUT|a|5|500|-|-|ON", "no|5"),
            ("wt|PUT|a|5|500|-|-|OFF", "no|5"),
            ("wt|PUT|a|5|500|GOVERNANCE|2024-01-01T00:00:00Z|-", "no|6"),
            ("wt|PUT|a|5|500|COMPLIANCE|1970-01-01T00:00:00Z|-", "no|6"),
            ("wt|PUT|a|5|500|COMPLIANCE|2024-01-01T00:00:00.001Z|-", "ok|1"),
        ],
    );
}

#[test]
fn the_same_lock_is_refused_once_its_date_has_come() {
    let mut hub = Hub::new(2);
    let put = "wt|PUT|a|5|500|GOVERNANCE|2024-01-02T00:00:00Z|-";
    says(&mut hub, &[(put, "ok|1"), (put, "ok|1")]);
    assert_eq!(hub.say(&format!("{LATER}|{put}")), "no|6");
}

#[test]
fn refusal_10_does_not_arise() {
    let mut hub = sent_once(4);
    hub.run(&[
        ("9999-12-31T00:00:00Z|c|DEFAULT|GOVERNANCE|1d", "ok"),
        ("9999-12-31T00:00:00Z|w|PUT|a|5|501|-|-|-", "no|10"),
        ("9999-12-31T00:00:00Z|w|PUT|a|5|500|-|-|-", "ok|1"),
        ("9999-12-31T00:00:00Z|rw|COPY|a|-|a|-|-|-", "no|10"),
        ("9999-12-31T23:59:59.999Z|w|PUT|a|5|500|-|-|-", "ok|1"),
    ]);
}

#[test]
fn refusal_11_does_not_arise() {
    let mut hub = sent_once(4);
    hub.bucket.settings.next = SPENT;
    says(&mut hub, &[("w|PUT|a|5|501|-|-|-", "no|11"), ("rw|COPY|a|-|a|-|-|-", "no|11")]);
    retried(&mut hub, PUT, 1);
}

#[test]
fn refusal_12_does_not_arise() {
    for capacity in [1, 2, 1024] {
        let mut hub = sent_once(capacity);
        for number in 2..=capacity {
            says(&mut hub, &[(&format!("w|PUT|b|{number}|1|-|-|-"), &format!("ok|{number}"))]);
        }
        says(&mut hub, &[("w|PUT|a|5|501|-|-|-", "no|12"), ("rw|COPY|a|-|a|-|-|-", "no|12")]);
        retried(&mut hub, PUT, 1);
        says(&mut hub, &[("d|DELETE|a|-|no", "no|12")]);
    }
}

#[test]
fn none_of_10_to_12_arises_in_one_bucket() {
    let mut hub = Hub::from_number(1, SPENT - 1);
    hub.run(&[
        ("9999-12-31T00:00:00Z|w|PUT|a|5|500|-|-|-", "ok|18446744073709551614"),
        ("9999-12-31T00:00:00Z|c|DEFAULT|COMPLIANCE|100y", "ok"),
        ("9999-12-31T00:00:00Z|w|PUT|b|5|500|-|-|-", "no|10"),
        ("9999-12-31T00:00:00Z|w|PUT|a|5|500|-|-|-", "ok|18446744073709551614"),
        ("9999-12-31T23:59:59.999Z|wh|PUT|a|5|500|-|-|ON", "ok|18446744073709551614"),
        ("9999-12-31T23:59:59.999Z|r|GET|a|-", "ok|18446744073709551614|5|500|-|-|OFF"),
    ]);
}
