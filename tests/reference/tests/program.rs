//! The program's lines: long ones, empty ones, and the bytes after the last line feed.
use reference::program::run;
use std::io::BufReader;

fn said(input: &[u8]) -> String {
    [1, 7, 512, 65536]
        .map(|buffer| {
            let mut output = Vec::new();
            run(BufReader::with_capacity(buffer, input), &mut output).unwrap();
            String::from_utf8(output).unwrap()
        })
        .into_iter()
        .reduce(|one, other| {
            assert_eq!(one, other, "the buffer's size plays no part");
            other
        })
        .unwrap()
}

const SWEEP: &str = "2024-01-01T00:00:00Z\tc\tSWEEP";

#[test]
fn nothing_in_nothing_out() {
    assert_eq!(said(b""), "");
}

#[test]
fn an_empty_line_is_a_line() {
    assert_eq!(said(b"\n\n"), "no\t3\nno\t3\n");
}

#[test]
fn bytes_after_the_last_line_feed() {
    assert_eq!(said(format!("{SWEEP}\n{SWEEP}").as_bytes()), "ok\t0\t0\nok\t0\t0\n");
    assert_eq!(said(format!("{SWEEP}\nx").as_bytes()), "ok\t0\t0\nno\t3\n");
}

#[test]
fn a_long_line_gets_one_answer() {
    for length in [512, 513, 514, 1024, 100000] {
        let long = "x".repeat(length);
        assert_eq!(said(format!("{long}\n{SWEEP}\n").as_bytes()), "no\t3\nok\t0\t0\n");
        assert_eq!(said(long.as_bytes()), "no\t3\n");
    }
}

#[test]
fn pages_up_to_the_answer_buffer() {
    let put = |body: usize| format!("2024-01-01T00:00:00Z\tw\tPUT\ta\t{body}\t6\t-\t-\t-\n");
    let list = |count: usize| format!("2024-01-01T00:00:00Z\tr\tLIST\t\t\t0\t{count}");
    let row =
        |number: usize| format!("a\t{number}\tdata\t2024-01-01T00:00:00.000Z\t{number}\t6\t-\t-\tOFF\n");
    let page =
        |count: usize| format!("ok\t{count}\n") + &(301 - count..=300).rev().map(row).collect::<String>();
    let puts: String = (1..=300).map(put).collect();
    let added: String = (1..=300).map(|number| format!("ok\t{number}\n")).collect();
    let input = format!("{puts}{}\n{}\n{}\n{}", list(255), list(256), list(1000), list(2));
    assert_eq!(said(input.as_bytes()), format!("{added}{}no\t13\nno\t13\n{}", page(255), page(2)));
}
