//! Compares the engine, through its C entries, with the reference: each number, each byte and each count of comparisons.
mod carried;
mod comparisons;
mod damage;
mod engine;
mod lines;
mod lists;
mod midnights;
mod mutate;
mod numbers;
mod pages;
mod plain;
mod random;
mod sides;
mod tally;
mod totals;
mod years;

use sides::Fault;
use std::env;
use std::process::ExitCode;
use std::time::{Duration, Instant, SystemTime, UNIX_EPOCH};
use tally::Tally;

/// What a REPORT can come to.
const REPORT_NUMBERS: [usize; 5] = [0, 1, 2, 3, 5];

struct Options {
    seconds: u64,
    seed: u64,
    lists: u64,
    fault: Fault,
}

/// A seed that differs from run to run; it is printed.
fn some_seed() -> u64 {
    SystemTime::now().duration_since(UNIX_EPOCH).map_or(1, |since| since.as_nanos() as u64)
}

fn options() -> Option<Options> {
    let mut options = Options { seconds: 60, seed: some_seed(), lists: u64::MAX, fault: Fault::None };
    let mut words = env::args().skip(1);
    while let Some(word) = words.next() {
        match word.as_str() {
            "--seconds" => options.seconds = words.next()?.parse().ok()?,
            "--seed" => options.seed = words.next()?.parse().ok()?,
            "--lists" => options.lists = words.next()?.parse().ok()?,
            "--break" => options.fault = Fault::read(&words.next()?)?,
            _ => return None,
        }
    }
    Some(options)
}

/// What a run of usual length meets and this one has not met.
fn lacking(tally: &Tally) -> Vec<String> {
    let tests = [
        (!tally.missing().is_empty(), format!("numbers that never came: {:?}", tally.missing())),
        (!tally.idle().is_empty(), format!("entries that served no line: {:?}", tally.idle())),
        (tally.keys == 0, "no key was asked for".into()),
        (tally.rows == 0, "no page was followed that showed a row".into()),
        (!tally.unspared().is_empty(), format!("numbers that no retry was spared: {:?}", tally.unspared())),
        (tally.dropped == 0, "no retry named a lock that its row didn't have".into()),
        (tally.lacks_midnights(), "rounding to midnight did not decide rows of every kind".into()),
        (!tally.undecided().is_empty(), format!("rounding decided no sweep on: {:?}", tally.undecided())),
        (!tally.uncompared().is_empty(), format!("counts that no sweep had: {:?}", tally.uncompared())),
        (!tally.unended().is_empty(), format!("lines under years that never came: {:?}", tally.unended())),
        (!tally.untold().is_empty(), format!("reports that never came: {:?}", tally.untold())),
        (
            !tally.unnumbered().is_empty(),
            format!("lines about numbers that never came: {:?}", tally.unnumbered()),
        ),
        (!tally.unbound().is_empty(), format!("parts that bound no row carried over: {:?}", tally.unbound())),
        (tally.report_numbers() != REPORT_NUMBERS, format!("a REPORT came to {:?}", tally.report_numbers())),
    ];
    tests.into_iter().filter(|(lacks, _)| *lacks).map(|(_, said)| said).collect()
}

fn main() -> ExitCode {
    let Some(options) = options() else {
        eprintln!(
            "usage: compare [--seconds N] [--seed S] [--lists N] [--break answer|page|following|retry|midnight|count|years|totals|carried|spent]"
        );
        return ExitCode::from(2);
    };
    println!("seed {}", options.seed);
    let end = Instant::now() + Duration::from_secs(options.seconds);
    let mut tally = Tally::default();
    while tally.lists < options.lists && Instant::now() < end {
        if let Err(difference) = lists::run(options.seed, options.fault, &mut tally) {
            println!("seed {}, list {}: DIFFERENCE\n{difference}", options.seed, tally.lists);
            return ExitCode::FAILURE;
        }
        tally.lists += 1;
    }
    tally.print();
    let lacking = lacking(&tally);
    if !lacking.is_empty() {
        println!("{}", lacking.join("\n"));
        return ExitCode::FAILURE;
    }
    println!("no difference");
    ExitCode::SUCCESS
}
