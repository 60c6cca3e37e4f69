//! Each refusal, each boundary, and the order in which they are checked.
mod common;
use common::{names, Hub};
use reference::settings::SPENT;
use reference::{fresh_bytes, serve_bytes};

const T: &str = "2024-01-01T00:00:00Z";

fn hub_with(lines: &[&str]) -> Hub {
    let mut hub = Hub::new(4);
    for line in lines {
        assert!(hub.say(&format!("{T}|{line}")).starts_with("ok"), "{line}");
    }
    hub
}

fn refused(hub: &mut Hub, number: u64, lines: &[&str]) {
    for line in lines {
        assert_eq!(hub.say(&format!("{T}|{line}")), format!("no|{number}"), "{line}");
    }
}

#[test]
fn refusal_1_by_lengths() {
    let line = b"2024-01-01T00:00:00Z\tc\tSWEEP";
    let lengths = [(687, 64, 64), (689, 64, 64), (0, 64, 64), (688, 0, 0), (688, 64, 128), (688, 128, 64)];
    let more = [(688, 63, 63), (688, 65, 65), (688, 72, 64), (688, 65600, 65600), (688, 0, 64)];
    for (s, r, k) in lengths.into_iter().chain(more) {
        let (mut settings, mut rows, mut keys) = (vec![0; s], vec![0; r], vec![0; k]);
        assert_eq!(fresh_bytes(&mut settings, &mut rows, &mut keys), 1);
        if s >= 24 {
            settings[16] = 1;
        }
        assert_eq!(serve_bytes(&mut settings, &mut rows, &mut keys, line, &mut [0; 256]), 1, "{s} {r} {k}");
    }
    for c in [1, 2, 1023, 1024] {
        let (mut settings, mut rows, mut keys) = (vec![7; 688], vec![7; 64 * c], vec![7; 64 * c]);
        assert_eq!(serve_bytes(&mut settings, &mut rows, &mut keys, line, &mut [0; 256]), 1);
        assert_eq!(fresh_bytes(&mut settings, &mut rows, &mut keys), 0);
        assert_eq!(serve_bytes(&mut settings, &mut rows, &mut keys, line, &mut [0; 256]), 0);
    }
}

#[test]
fn refusal_2_before_3() {
    let mut hub = Hub::new(1);
    assert_eq!(hub.bucket.serve(b"", &mut [0; 255]), Err(2));
    assert_eq!(hub.bucket.serve(b"", &mut [0; 256]), Err(3));
    assert_eq!(hub.bucket.serve(b"2024-01-01T00:00:00Z\tc\tSWEEP", &mut [0; 256]), Ok(7));
}

#[test]
fn refusal_3() {
    let mut hub = hub_with(&["w|PUT|a|1|1|-|-|-"]);
    refused(
        &mut hub,
        3,
        &[
            "",
            "r",
            "r|",
            "r|GET",
            "r|GET|a",
            "r|GET|a|-|",
            "r|GET||-",
            "r|GET|a|0",
            "r|GET|a|18446744073709551615",
            "|GET|a|-",
            "rr|GET|a|-",
            "x|GET|a|-",
            "-r|GET|a|-",
            "r|get|a|-",
            "r|GET|a|01",
            "r|GET|a b|-",
            "w|PUT|a|18446744073709551616|1|-|-|-",
            "w|PUT|a|1|5497558138881|-|-|-",
            "w|PUT|a|01|1|-|-|-",
            "w|PUT|a|1|1|-|-",
            "w|PUT|a|1|1|-|-|on",
            "w|PUT|a|1|1|Governance|-|-",
            "w|PUT|a|1|1|-|soon|-",
            "h|HOLD|a|-|-",
            "d|DELETE|a|-|maybe",
            "c|DEFAULT|GOVERNANCE|0d",
            "c|DEFAULT|GOVERNANCE|36501d",
            "c|DEFAULT|GOVERNANCE|101y",
            "c|RULE|8|a|1|1",
            "c|RULE|0|a|36501|1",
            "c|SWEEP|",
            "c|SWEEP|now",
        ],
    );
}

#[test]
fn refusal_4_before_5() {
    let mut hub = hub_with(&["w|PUT|a|1|1|-|-|-"]);
    refused(
        &mut hub,
        4,
        &[
            "-|PUT|a|1|1|GOVERNANCE|-|-",
            "-|PUT|a|1|1|-|1999-01-01T00:00:00Z|-",
            "-|COPY|a|-|b|COMPLIANCE|-|-",
            "-|RETAIN|none|-|-|2025-01-01T00:00:00Z|no",
            "-|DEFAULT|-|1d",
            "-|DEFAULT|COMPLIANCE|-",
        ],
    );
}

#[test]
fn refusal_5_before_6_and_7() {
    let mut hub = hub_with(&["w|PUT|a|1|1|-|-|-"]);
    refused(
        &mut hub,
        5,
        &[
            "rdthbc|PUT|a|1|1|-|-|-",
            "w|PUT|a|1|1|GOVERNANCE|1999-01-01T00:00:00Z|-",
            "wt|PUT|a|1|1|-|-|OFF",
            "w|COPY|none|-|b|-|-|-",
            "r|COPY|none|-|b|-|-|-",
            "rw|COPY|none|-|b|-|-|ON",
            "b|RETAIN|none|-|-|-|yes",
            "t|RETAIN|none|-|-|-|yes",
            "rwdtbc|HOLD|none|-|ON",
            "rwthbc|DELETE|none|1|no",
            "d|DELETE|none|1|yes",
            "d|DELETE|none|-|yes",
            "rwdthb|DEFAULT|-|-",
            "rwdthb|RULE|0||1|1",
            "rwdthb|SWEEP",
            "wdthbc|GET|none|-",
        ],
    );
}

#[test]
fn refusal_6_before_7() {
    let mut hub = hub_with(&["w|PUT|a|1|1|-|-|-"]);
    refused(
        &mut hub,
        6,
        &[
            "wt|PUT|a|1|1|GOVERNANCE|2024-01-01T00:00:00Z|-",
            "rwt|COPY|none|-|b|COMPLIANCE|1970-01-01T00:00:00Z|-",
            "t|RETAIN|none|-|COMPLIANCE|2023-12-31T23:59:59.999Z|no",
        ],
    );
}

#[test]
fn refusals_7_and_8() {
    let mut hub = hub_with(&["w|PUT|a|1|1|-|-|-", "d|DELETE|a|-|no"]);
    refused(
        &mut hub,
        7,
        &[
            "r|GET|none|-",
            "r|GET|a|3",
            "r|GET|aa|1",
            "rw|COPY|none|-|a|-|-|-",
            "t|RETAIN|a|9|-|-|no",
            "h|HOLD|b|-|ON",
            "d|DELETE|a|3|no",
            "d|DELETE|b|1|no",
        ],
    );
    refused(
        &mut hub,
        8,
        &["r|GET|a|-", "r|GET|a|2", "rw|COPY|a|-|b|-|-|-", "t|RETAIN|a|2|-|-|no", "h|HOLD|a|-|OFF"],
    );
}

#[test]
fn refusal_9_by_retain() {
    let mut hub = hub_with(&["wt|PUT|g|1|1|GOVERNANCE|2024-02-01T00:00:00Z|-"]);
    refused(
        &mut hub,
        9,
        &["t|RETAIN|g|1|-|-|no", "t|RETAIN|g|1|GOVERNANCE|2024-01-31T23:59:59.999Z|no", "d|DELETE|g|1|no"],
    );
    hub.run(&[
        ("2024-01-01T00:00:00Z|t|RETAIN|g|1|COMPLIANCE|2024-02-01T00:00:00Z|no", "ok"),
        ("2024-01-01T00:00:00Z|tb|RETAIN|g|1|GOVERNANCE|2024-03-01T00:00:00Z|yes", "no|9"),
        ("2024-01-31T23:59:59.999Z|tb|RETAIN|g|1|-|-|yes", "no|9"),
        ("2024-02-01T00:00:00Z|t|RETAIN|g|1|GOVERNANCE|2024-02-01T00:00:00.001Z|no", "ok"),
        ("2024-02-01T00:00:00Z|tb|RETAIN|g|1|-|-|yes", "ok"),
        ("2024-02-01T00:00:00Z|r|GET|g|1", "ok|1|1|1|-|-|OFF"),
    ]);
}

#[test]
fn refusal_10_at_the_last_instant() {
    let mut hub = hub_with(&["c|DEFAULT|GOVERNANCE|1d"]);
    hub.run(&[
        ("9999-12-30T23:59:59.999Z|w|PUT|a|1|1|-|-|-", "ok|1"),
        ("9999-12-31T00:00:00Z|w|PUT|a|2|1|-|-|-", "no|10"),
        ("9999-12-31T00:00:00Z|rw|COPY|a|-|b|-|-|-", "no|10"),
        ("9999-12-31T00:00:00Z|rw|COPY|b|-|b|-|-|-", "no|7"),
    ]);
    hub.bucket.settings.next = SPENT;
    assert_eq!(hub.say("9999-12-31T00:00:00Z|w|PUT|a|2|1|-|-|-"), "no|10");
}

#[test]
fn refusal_11_before_12() {
    let mut hub = Hub::from_number(1, SPENT - 1);
    hub.run(&[
        ("2024-01-01T00:00:00Z|w|PUT|a|1|1|-|-|-", "ok|18446744073709551614"),
        ("2024-01-01T00:00:00Z|w|PUT|a|2|1|-|-|-", "no|11"),
        ("2024-01-01T00:00:00Z|d|DELETE|a|-|no", "no|11"),
        ("2024-01-01T00:00:00Z|rw|COPY|a|-|b|-|-|-", "no|11"),
        ("2024-01-01T00:00:00Z|c|RULE|0||1|0", "ok"),
        ("2024-01-01T00:00:00Z|c|SWEEP", "ok|0|0"),
        ("2024-01-02T00:00:00Z|c|SWEEP", "no|11"),
        ("2024-01-02T00:00:00Z|d|DELETE|a|18446744073709551614|no", "ok|18446744073709551614|removed"),
    ]);
}

#[test]
fn refusal_12_counts_what_a_sweep_removes() {
    let mut hub = Hub::new(2);
    hub.run(&[
        ("2024-01-01T00:00:00Z|w|PUT|a|1|1|-|-|-", "ok|1"),
        ("2024-01-01T00:00:00Z|w|PUT|b|1|1|-|-|-", "ok|2"),
        ("2024-01-01T00:00:00Z|w|PUT|c|1|1|-|-|-", "no|12"),
        ("2024-01-01T00:00:00Z|d|DELETE|c|-|no", "no|12"),
        ("2024-01-01T00:00:00Z|rw|COPY|a|-|b|-|-|-", "no|12"),
        ("2024-01-01T00:00:00Z|c|RULE|0|a|1|1", "ok"),
        ("2024-01-02T00:00:00Z|c|SWEEP", "no|12"),
        ("2024-01-02T00:00:00Z|d|DELETE|b|2|no", "ok|2|removed"),
        ("2024-01-02T00:00:00Z|w|PUT|a|2|2|-|-|-", "ok|3"),
        ("2024-01-03T00:00:00Z|c|SWEEP", "ok|1|1"),
    ]);
    assert_eq!(hub.names(), names(&[("a", 4), ("a", 3)]));
}
