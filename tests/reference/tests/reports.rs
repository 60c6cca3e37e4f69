//! REPORT: each sentence of its request, each number by itself, and each boundary of its field.
mod common;
#[path = "../src/bin/compare/plain.rs"]
mod plain;
#[allow(dead_code)]
#[path = "../src/bin/compare/totals.rs"]
mod totals;
use common::Hub;
use reference::dates;

const T: &str = "2024-01-01T00:00:00Z";
/// The largest length of a row.
const MOST: u64 = 5497558138880;

/// Two versions of q, a marker and a version under q/, three of q/1 with each lock, and q0.
fn example() -> Hub {
    let mut hub = Hub::new(16);
    hub.run(&[
        ("2024-01-01T00:00:00Z|w|PUT|q|1|1|-|-|-", "ok|1"),
        ("2024-01-01T00:00:00Z|wt|PUT|q|2|20|GOVERNANCE|2024-01-05T00:00:00Z|-", "ok|2"),
        ("2024-01-01T00:00:00Z|w|PUT|q/|3|300|-|-|-", "ok|3"),
        ("2024-01-01T00:00:00Z|d|DELETE|q/|-|no", "ok|4|marker"),
        ("2024-01-01T00:00:00Z|wt|PUT|q/1|5|4000|COMPLIANCE|2024-01-06T00:00:00Z|-", "ok|5"),
        ("2024-01-01T00:00:00Z|wh|PUT|q/1|6|50000|-|-|ON", "ok|6"),
        ("2024-01-01T00:00:00Z|wth|PUT|q/1|7|600000|GOVERNANCE|2024-01-02T00:00:00Z|ON", "ok|7"),
        ("2024-01-01T00:00:00Z|w|PUT|q0|8|7000000|-|-|-", "ok|8"),
    ]);
    hub
}

fn read(clock: &str) -> u64 {
    dates::read(clock.as_bytes()).expect("a date")
}

fn report(hub: &mut Hub, clock: &str, prefix: &str) -> String {
    hub.say_in(256, &format!("{clock}|r|REPORT|{prefix}"))
}

/// Compares the totals of the example's rows of a prefix at a clock.
fn comes_to(clock: &str, prefix: &str, numbers: [u64; 4]) {
    let [data, markers, length, locked] = numbers;
    let expected = format!("ok|{data}|{markers}|{length}|{locked}");
    assert_eq!(report(&mut example(), clock, prefix), expected, "{prefix} at {clock}");
}

#[test]
fn the_empty_prefix_matches_every_row() {
    comes_to(T, "", [7, 1, 7654321, 4]);
}

#[test]
fn a_prefix_begins_its_own_key_and_longer_ones() {
    comes_to(T, "q", [7, 1, 7654321, 4]);
    comes_to(T, "q/", [4, 1, 654300, 3]);
    comes_to(T, "q/1", [3, 0, 654000, 3]);
    comes_to(T, "q0", [1, 0, 7000000, 0]);
}

#[test]
fn a_prefix_without_rows() {
    for prefix in ["!", "p", "q!", "q.", "q/0", "q/11", "q/2", "q1", "r", "~", "Q", "-"] {
        comes_to(T, prefix, [0; 4]);
    }
    comes_to(T, &"q".repeat(63), [0; 4]);
    assert_eq!(report(&mut Hub::new(3), T, ""), "ok|0|0|0|0");
}

#[test]
fn data_alone() {
    let mut hub = Hub::new(4);
    for body in 1..=4 {
        assert_eq!(hub.say(&format!("{T}|w|PUT|k|{body}|0|-|-|-")), format!("ok|{body}"));
        assert_eq!(report(&mut hub, T, "k"), format!("ok|{body}|0|0|0"));
    }
}

#[test]
fn markers_alone() {
    let mut hub = Hub::new(4);
    for number in 1..=4 {
        assert_eq!(hub.say(&format!("{T}|d|DELETE|k|-|no")), format!("ok|{number}|marker"));
        assert_eq!(report(&mut hub, T, "k"), format!("ok|0|{number}|0|0"));
    }
}

#[test]
fn lengths_alone() {
    let mut hub = Hub::new(4);
    let mut sum = 0;
    for (length, rows) in [0, 1, 4294967295, MOST].into_iter().zip(1..) {
        hub.say(&format!("{T}|w|PUT|k|{rows}|{length}|-|-|-"));
        sum += length;
        assert_eq!(report(&mut hub, T, ""), format!("ok|{rows}|0|{sum}|0"));
    }
}

/// The locked rows of a table of one row, made with the given mode, date and hold.
fn locked(lock: &str, clock: &str) -> String {
    let mut hub = Hub::new(1);
    assert_eq!(hub.say(&format!("{T}|wth|PUT|k|1|1|{lock}")), "ok|1");
    report(&mut hub, clock, "k").strip_prefix("ok|1|0|1|").expect("one row of one byte").to_string()
}

#[test]
fn a_date_equal_to_now_does_not_lock() {
    for mode in ["GOVERNANCE", "COMPLIANCE"] {
        let lock = format!("{mode}|2024-02-01T00:00:00Z|OFF");
        let at = |clock| locked(&lock, clock);
        assert_eq!(at(T), "1", "{mode}");
        assert_eq!(at("2024-01-31T23:59:59.999Z"), "1", "{mode}");
        assert_eq!(at("2024-02-01T00:00:00Z"), "0", "{mode}");
        assert_eq!(at("2024-02-01T00:00:00.001Z"), "0", "{mode}");
    }
}

#[test]
fn a_row_on_hold_is_locked_whatever_its_date() {
    for lock in ["-|-|ON", "GOVERNANCE|2024-02-01T00:00:00Z|ON", "COMPLIANCE|2024-02-01T00:00:00Z|ON"] {
        for clock in [T, "2024-01-31T23:59:59.999Z", "2024-02-01T00:00:00Z", "9999-12-31T23:59:59.999Z"] {
            assert_eq!(locked(lock, clock), "1", "{lock} at {clock}");
        }
    }
    assert_eq!(locked("-|-|OFF", T), "0");
    assert_eq!(locked("-|-|-", T), "0");
}

#[test]
fn locks_end_one_by_one() {
    let mut hub = example();
    for (clock, locked) in [
        ("2024-01-01T23:59:59.999Z", 4),
        ("2024-01-02T00:00:00Z", 4),
        ("2024-01-04T23:59:59.999Z", 4),
        ("2024-01-05T00:00:00Z", 3),
        ("2024-01-06T00:00:00Z", 2),
        ("9999-12-31T23:59:59.999Z", 2),
    ] {
        assert_eq!(report(&mut hub, clock, ""), format!("ok|7|1|7654321|{locked}"), "{clock}");
    }
    hub.run(&[
        ("9999-12-31T23:59:59.999Z|h|HOLD|q/1|6|OFF", "ok"),
        ("9999-12-31T23:59:59.999Z|r|REPORT|q/1", "ok|3|0|654000|1"),
    ]);
}

#[test]
fn now_is_the_buckets_time_where_the_clock_is_set_back() {
    let mut hub = example();
    assert_eq!(report(&mut hub, "2024-01-05T00:00:00Z", "q"), "ok|7|1|7654321|3");
    assert_eq!(report(&mut hub, "2024-01-04T00:00:00Z", "q"), "ok|7|1|7654321|3");
    assert_eq!(report(&mut hub, "1970-01-01T00:00:00Z", "q"), "ok|7|1|7654321|3");
}

#[test]
fn the_largest_sum() {
    let mut hub = Hub::new(1024);
    for number in 0..1024 {
        let line = format!("{T}\twth\tPUT\tk{number}\t1\t{MOST}\tCOMPLIANCE\t9999-12-31T23:59:59.999Z\tON");
        hub.bucket.serve(line.as_bytes(), &mut [0; 256]).unwrap();
    }
    assert_eq!(report(&mut hub, T, "k"), "ok|1024|0|5629499534213120|1024");
    assert_eq!(report(&mut hub, T, "k102"), "ok|5|0|27487790694400|5");
}

#[test]
fn rows_that_have_gone_are_not_counted() {
    let mut hub = example();
    hub.run(&[
        ("2024-01-01T00:00:00Z|db|DELETE|q|2|yes", "ok|2|removed"),
        ("2024-01-01T00:00:00Z|r|REPORT|q", "ok|6|1|7654301|3"),
        ("2024-01-01T00:00:00Z|d|DELETE|q/|4|no", "ok|4|removed-marker"),
        ("2024-01-01T00:00:00Z|r|REPORT|q", "ok|6|0|7654301|3"),
        ("2024-01-01T00:00:00Z|d|DELETE|q/|3|no", "ok|3|removed"),
        ("2024-01-01T00:00:00Z|r|REPORT|q", "ok|5|0|7654001|3"),
        ("2024-01-01T00:00:00Z|r|REPORT|q/", "ok|3|0|654000|3"),
    ]);
}

#[test]
fn exactly_four_fields() {
    let mut hub = example();
    for line in
        ["REPORT", "REPORT|q|", "REPORT||", "REPORT|q|0", "REPORT||q", "report|q", "REPORTS|q", "REPOR|q"]
    {
        assert_eq!(hub.say(&format!("{T}|r|{line}")), "no|3", "{line}");
    }
    assert_eq!(hub.say(&format!("{T}|r|REPORT|")), "ok|7|1|7654321|4", "an empty prefix is a field");
}

#[test]
fn prefixes_are_as_in_list() {
    let mut hub = example();
    let (most, more) = ("k".repeat(63), "k".repeat(64));
    assert_eq!(hub.say(&format!("{T}|w|PUT|{most}|1|1|-|-|-")), "ok|9");
    assert_eq!(report(&mut hub, T, &most), "ok|1|0|1|0");
    for prefix in [&more, " ", "q q", "q ", "q\x7f", "\u{80}", "\0", "q\r"] {
        assert_eq!(report(&mut hub, T, prefix), "no|3", "{prefix:?}");
    }
}

#[test]
fn right_r() {
    let mut hub = example();
    for rights in ["-", "wdthbc", "c"] {
        assert_eq!(hub.say(&format!("{T}|{rights}|REPORT|q/1")), "no|5");
    }
    for rights in ["r", "rwdthbc", "rb", "cbr"] {
        assert_eq!(hub.say(&format!("{T}|{rights}|REPORT|q/1")), "ok|3|0|654000|3");
    }
    assert_eq!(hub.say(&format!("{T}||REPORT|q/1")), "no|3");
}

#[test]
fn a_buffer_of_256_bytes_is_enough() {
    let mut hub = example();
    let line = format!("{T}|r|REPORT|");
    assert_eq!(hub.say_in(255, &line), "no|2");
    for room in [256, 257, 511, 512, 65536] {
        assert_eq!(hub.say_in(room, &line), "ok|7|1|7654321|4");
    }
}

#[test]
fn the_order_of_its_refusals() {
    let mut hub = example();
    assert_eq!(hub.say_in(255, &format!("{T}|-|REPORT|q q")), "no|2");
    assert_eq!(hub.say_in(256, &format!("{T}|-|REPORT|q q")), "no|3");
    assert_eq!(hub.say_in(256, &format!("{T}|-|REPORT|q")), "no|5");
    hub.bucket.settings.next = 0;
    assert_eq!(hub.number_by_bytes(255, &format!("{T}|r|REPORT|q")), 1);
}

#[test]
fn later_refusals_are_never_met() {
    let mut hub = Hub::spent();
    assert_eq!(report(&mut hub, T, "m"), "ok|0|1|0|0");
    assert_eq!(report(&mut hub, T, "none"), "ok|0|0|0|0");
}

#[test]
fn an_accepted_report_moves_the_time_and_nothing_else() {
    let mut hub = example();
    let mut expected = hub.bucket.clone();
    assert_eq!(report(&mut hub, "2024-01-03T00:00:00.123Z", "q"), "ok|7|1|7654321|4");
    expected.settings.time = read("2024-01-03T00:00:00.123Z");
    assert_eq!(hub.bucket, expected);
    assert_eq!(report(&mut hub, T, "none"), "ok|0|0|0|0");
    assert_eq!(hub.bucket, expected, "a clock set back");
    assert_eq!(report(&mut hub, "2024-01-04T00:00:00Z", "q q"), "no|3");
    assert_eq!(hub.bucket, expected, "a refusal moves no time");
}

#[test]
fn each_number_is_that_of_the_rows_that_pages_show() {
    for clock in ["2024-01-02T00:00:00Z", "2024-01-05T00:00:00Z", "2024-01-05T23:59:59.999Z"] {
        for prefix in ["", "q", "q/", "q/1", "q0", "q/12", "r"] {
            let mut hub = example();
            let totals = totals::answer(&plain::matching(&hub.bucket, prefix), read(clock));
            let said = report(&mut hub, clock, prefix).replace('|', "\t") + "\n";
            assert_eq!(said, totals, "{prefix} at {clock}");
        }
    }
}
