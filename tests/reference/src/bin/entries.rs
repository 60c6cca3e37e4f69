//! The cost of a call of the engine's C entries, rows as bytes and as words, beside the reference's entry over bytes.
//!
//! `entries ROUNDS CAPACITY USED...` prints a table: for each number of used rows and each call the best processor time of each.
use reference::answers::page_buffer;
use std::process::ExitCode;

#[allow(dead_code)]
#[path = "compare/engine.rs"]
mod engine;
#[path = "measure/usage.rs"]
mod usage;
use usage::{processor_time, THIS};

/// The calls of one measurement.
const CALLS: u64 = 2000;
/// The rows of a small page and of the largest one.
const PAGES: [usize; 2] = [10, 1000];

type Serve = fn(&mut [u8], &mut [u8], &mut [u8], &[u8], &mut [u8]) -> u64;

/// A bucket that stands in bytes, and an answer buffer of the given length.
#[derive(Clone)]
struct Buffers {
    settings: Vec<u8>,
    rows: Vec<u8>,
    keys: Vec<u8>,
    answer: Vec<u8>,
}

impl Buffers {
    /// A bucket of a capacity whose rows are current versions of as many keys.
    fn with_rows(capacity: usize, used: usize) -> Buffers {
        let table = vec![0; 64 * capacity];
        let mut made =
            Buffers { settings: vec![0; 688], rows: table.clone(), keys: table, answer: vec![0; 256] };
        engine::fresh(&mut made.settings, &mut made.rows, &mut made.keys);
        for row in 0..used {
            let line = format!("2024-01-01T00:00:00Z\tw\tPUT\t{}\t{row}\t4096\t-\t-\t-", key(row));
            assert_eq!(made.serve(reference::serve_bytes, line.as_bytes()), 0);
        }
        made
    }

    fn serve(&mut self, serve: Serve, line: &[u8]) -> u64 {
        serve(&mut self.settings, &mut self.rows, &mut self.keys, line, &mut self.answer)
    }
}

fn key(number: usize) -> String {
    format!("gauge/{:03}/level-{number:04}", number % 37)
}

/// A call to be measured: its name, what it answers, whether its settings are made unsound, its answer buffer,
/// and its lines, served in turn.
struct Call {
    name: &'static str,
    number: u64,
    spoilt: bool,
    answer: usize,
    lines: fn(usize, u64) -> Vec<String>,
}

fn get(used: usize, _: u64) -> Vec<String> {
    vec![format!("2024-01-02T00:00:00Z\tr\tGET\t{}\t-", key(used / 2))]
}

fn unreadable(_: usize, _: u64) -> Vec<String> {
    vec!["2024-01-02T00:00:00Z\tr\tFETCH\tgauge\t-".to_string()]
}

fn report(_: usize, _: u64) -> Vec<String> {
    vec!["2024-01-02T00:00:00Z\tr\tREPORT\t".to_string()]
}

fn small_page(_: usize, _: u64) -> Vec<String> {
    vec![format!("2024-01-02T00:00:00Z\tr\tLIST\t\t\t0\t{}", PAGES[0])]
}

fn large_page(_: usize, _: u64) -> Vec<String> {
    vec![format!("2024-01-02T00:00:00Z\tr\tLIST\t\t\t0\t{}", PAGES[1])]
}

fn put_and_delete(_: usize, next: u64) -> Vec<String> {
    let new = key(5000);
    vec![
        format!("2024-01-02T00:00:00Z\tw\tPUT\t{new}\t7\t4096\t-\t-\t-"),
        format!("2024-01-02T00:00:00Z\td\tDELETE\t{new}\t{next}\tno"),
    ]
}

const CALLS_MEASURED: [Call; 8] = [
    Call { name: "decoding (refusal 1)", number: 1, spoilt: true, answer: 256, lines: unreadable },
    Call { name: "and soundness (refusal 2)", number: 2, spoilt: false, answer: 255, lines: unreadable },
    Call { name: "unreadable line", number: 3, spoilt: false, answer: 256, lines: unreadable },
    Call { name: "GET", number: 0, spoilt: false, answer: 256, lines: get },
    Call { name: "REPORT of every row", number: 0, spoilt: false, answer: 256, lines: report },
    Call {
        name: "LIST of up to 10 rows",
        number: 0,
        spoilt: false,
        answer: page_buffer(PAGES[0]),
        lines: small_page,
    },
    Call {
        name: "LIST of up to 1000 rows",
        number: 0,
        spoilt: false,
        answer: page_buffer(PAGES[1]),
        lines: large_page,
    },
    Call { name: "PUT and DELETE, each", number: 0, spoilt: false, answer: 256, lines: put_and_delete },
];

/// The nanoseconds of processor time of a call, a pair counting as two.
fn measure(serve: Serve, call: &Call, used: usize, start: &Buffers) -> u64 {
    let mut bucket = start.clone();
    bucket.answer.resize(call.answer, 0);
    if call.spoilt {
        // no sound bucket has 0 for its next version number
        bucket.settings[16..24].fill(0);
    }
    let first = used as u64 + 1;
    let lists: Vec<Vec<String>> = (0..CALLS).map(|turn| (call.lines)(used, first + turn)).collect();
    let count = lists.iter().map(Vec::len).sum::<usize>() as u64;
    let before = processor_time(THIS);
    for line in lists.iter().flatten() {
        assert_eq!(bucket.serve(serve, line.as_bytes()), call.number, "{line}");
    }
    (processor_time(THIS) - before) / count
}

/// Prints the rows of the table for a capacity and so many used rows.
fn print(rounds: usize, capacity: usize, used: usize) {
    let start = Buffers::with_rows(capacity, used);
    // An empty table has no row that a GET could name.
    let calls: Vec<&Call> = CALLS_MEASURED.iter().filter(|call| used > 0 || call.name != "GET").collect();
    let mut best = [[u64::MAX; 3]; CALLS_MEASURED.len()];
    for _ in 0..rounds {
        for (call, best) in calls.iter().zip(&mut best) {
            best[0] = best[0].min(measure(engine::serve, call, used, &start));
            best[1] = best[1].min(measure(engine::serve_words, call, used, &start));
            best[2] = best[2].min(measure(reference::serve_bytes, call, used, &start));
        }
    }
    for (call, [engine, words, reference]) in calls.iter().zip(best) {
        let ratio = reference as f64 / engine as f64;
        println!("| {capacity} | {used} | {} | {engine} | {words} | {reference} | {ratio:.2} |", call.name);
    }
}

fn main() -> ExitCode {
    let numbers: Option<Vec<usize>> = std::env::args().skip(1).map(|word| word.parse().ok()).collect();
    let Some([rounds, capacity, used @ ..]) = numbers.as_deref() else {
        eprintln!("usage: entries ROUNDS CAPACITY USED...");
        return ExitCode::FAILURE;
    };
    println!("| capacity | used rows | call | engine, ns per call | rows as words | reference, ns per call | ratio |");
    println!("|---|---|---|---|---|---|---|");
    for used in used {
        print(*rounds, *capacity, *used);
    }
    ExitCode::SUCCESS
}
