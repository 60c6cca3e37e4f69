//! The document's examples, its whole run, and the faults seen in other buckets.
mod common;
use common::{names, Hub};

#[test]
fn the_whole_run() {
    Hub::new(1024).run(&[
        ("2024-03-01T00:00:00Z|c|DEFAULT|COMPLIANCE|1d", "ok"),
        ("2024-03-01T00:00:00Z|w|PUT|q/7|41|300|-|-|-", "ok|1"),
        ("2024-03-01T12:00:00Z|db|DELETE|q/7|1|yes", "no|9"),
        ("2024-03-01T12:00:00Z|d|DELETE|q/7|-|no", "ok|2|marker"),
        ("2024-03-01T06:00:00Z|r|GET|q/7|1", "ok|1|41|300|COMPLIANCE|2024-03-02T00:00:00.000Z|OFF"),
        ("2024-03-02T00:00:00Z|d|DELETE|q/7|1|no", "ok|1|removed"),
        ("2024-03-02T00:00:00Z|r|GET|q/7|-", "no|8"),
    ]);
}

#[test]
fn compliance_until_its_date() {
    Hub::new(2).run(&[
        ("2024-01-01T00:00:00Z|wt|PUT|a|1|1|COMPLIANCE|2024-01-02T00:00:00Z|-", "ok|1"),
        ("2024-01-01T00:00:00Z|t|RETAIN|a|1|COMPLIANCE|2024-01-02T00:00:00Z|no", "ok"),
        ("2024-01-01T00:00:00Z|tb|RETAIN|a|1|COMPLIANCE|2024-01-01T23:59:59.999Z|yes", "no|9"),
        ("2024-01-01T23:59:59.999Z|tb|RETAIN|a|1|COMPLIANCE|2024-01-01T23:59:59.999Z|yes", "no|6"),
        ("2024-01-01T23:59:59.999Z|db|DELETE|a|1|yes", "no|9"),
        ("2024-01-02T00:00:00Z|d|DELETE|a|1|no", "ok|1|removed"),
    ]);
}

#[test]
fn keys_of_63_and_64_bytes() {
    let mut hub = Hub::new(2);
    assert_eq!(hub.say(&format!("2024-01-01T00:00:00Z|w|PUT|{}|1|1|-|-|-", "k".repeat(63))), "ok|1");
    assert_eq!(hub.say(&format!("2024-01-01T00:00:00Z|w|PUT|{}|1|1|-|-|-", "k".repeat(64))), "no|3");
}

#[test]
fn lines_of_512_and_513_bytes() {
    let mut hub = Hub::new(2);
    let start = "2024-01-01T00:00:00Z|w|PUT|a|1|1|-|-|";
    for length in [512, 513, 9000] {
        let line = format!("{start}{}", "-".repeat(length - start.len()));
        assert_eq!((line.len(), hub.say(&line).as_str()), (length, "no|3"));
    }
}

#[test]
fn sweep_at_creation_plus_current_days() {
    let mut hub = Hub::new(2);
    hub.run(&[
        ("2024-01-01T00:00:00Z|w|PUT|a|1|1|-|-|-", "ok|1"),
        ("2024-01-01T00:00:00Z|c|RULE|0|a|1|0", "ok"),
        ("2024-01-01T23:59:59.999Z|c|SWEEP", "ok|0|0"),
        ("2024-01-02T00:00:00Z|c|SWEEP", "ok|0|1"),
    ]);
    assert_eq!(hub.names(), names(&[("a", 2), ("a", 1)]));
}

#[test]
fn a_copy_inherits_no_lock() {
    Hub::new(4).run(&[
        ("2024-01-01T00:00:00Z|wth|PUT|a|5|6|COMPLIANCE|2024-02-01T00:00:00Z|ON", "ok|1"),
        ("2024-01-01T00:00:00Z|rw|COPY|a|-|b|-|-|-", "ok|2"),
        ("2024-01-01T00:00:00Z|r|GET|b|-", "ok|2|5|6|-|-|OFF"),
    ]);
}

#[test]
fn a_clock_set_back_opens_nothing() {
    Hub::new(4).run(&[
        ("2024-01-05T00:00:00Z|w|PUT|a|5|6|-|-|-", "ok|1"),
        ("2024-01-01T00:00:00Z|wt|PUT|a|5|6|COMPLIANCE|2024-01-03T00:00:00Z|-", "no|6"),
        ("2024-01-01T00:00:00Z|t|RETAIN|a|1|COMPLIANCE|2024-01-05T00:00:00Z|no", "no|6"),
        ("2024-01-01T00:00:00Z|t|RETAIN|a|1|COMPLIANCE|2024-01-05T00:00:00.001Z|no", "ok"),
    ]);
}

#[test]
fn the_default_protects_no_marker() {
    Hub::new(4).run(&[
        ("2024-01-01T00:00:00Z|c|DEFAULT|COMPLIANCE|100y", "ok"),
        ("2024-01-01T00:00:00Z|d|DELETE|a|-|no", "ok|1|marker"),
        ("2024-01-01T00:00:00Z|d|DELETE|a|1|no", "ok|1|removed-marker"),
    ]);
}

#[test]
fn bypass_lifts_no_hold() {
    Hub::new(4).run(&[
        ("2024-01-01T00:00:00Z|wh|PUT|a|5|6|-|-|ON", "ok|1"),
        ("2024-01-01T00:00:00Z|db|DELETE|a|1|yes", "no|9"),
        ("2024-01-01T00:00:00Z|h|HOLD|a|1|OFF", "ok"),
        ("2024-01-01T00:00:00Z|d|DELETE|a|1|no", "ok|1|removed"),
    ]);
}

#[test]
fn a_sweep_keeps_the_row_that_it_marks() {
    let mut hub = Hub::new(3);
    hub.run(&[
        ("2024-01-01T00:00:00Z|w|PUT|a|1|1|-|-|-", "ok|1"),
        ("2024-01-01T00:00:00Z|w|PUT|a|2|2|-|-|-", "ok|2"),
        ("2024-01-01T00:00:00Z|c|RULE|0||1|1", "ok"),
        ("2024-03-01T00:00:00Z|c|SWEEP", "ok|1|1"),
    ]);
    assert_eq!(hub.names(), names(&[("a", 3), ("a", 2)]));
    assert_eq!(hub.say("2024-03-02T00:00:00Z|c|SWEEP"), "ok|1|0");
    assert_eq!(hub.names(), names(&[("a", 3)]));
}
