//! Runs the engine's program and the reference's in turn on each load, and prints the best processor time of both.
//!
//! `rounds ROUNDS ENGINE REFERENCE [--rows] LOAD...`; a load whose outputs differ ends it. With `--rows` the loads are of LIST and
//! REPORT, and the rows that these look at in a second are printed too, and the bytes that they print.
//! Where the environment names a program in RIVAL, it is run in turn with the two and has two columns more; its output may differ.
use std::fs::File;
use std::io;
use std::path::Path;
use std::process::{Command, ExitCode, Stdio};

#[path = "measure/usage.rs"]
mod usage;
use usage::{processor_time, CHILDREN};

/// The nanoseconds of processor time that a program takes to serve a load.
fn run(program: &str, load: &str) -> io::Result<u64> {
    let before = processor_time(CHILDREN);
    let status = Command::new(program).stdin(File::open(load)?).stdout(Stdio::null()).status()?;
    if !status.success() {
        return Err(io::Error::other(format!("{program} failed on {load}")));
    }
    Ok(processor_time(CHILDREN) - before)
}

/// What a program prints for a load.
fn output(program: &str, load: &str) -> io::Result<Vec<u8>> {
    Ok(Command::new(program).stdin(File::open(load)?).stderr(Stdio::inherit()).output()?.stdout)
}

fn lines(bytes: &[u8]) -> u64 {
    bytes.iter().filter(|&&byte| byte == b'\n').count() as u64
}

/// The rows that a load's LISTs print, each in a line of its own, or that its REPORTs count, as data and as markers.
fn rows(lines: u64, printed: &[u8]) -> u64 {
    let listed = self::lines(printed) - lines;
    let reported = printed.split(|&byte| byte == b'\n').filter_map(|answer| {
        let answer = String::from_utf8_lossy(answer);
        let numbers: Vec<u64> = answer.strip_prefix("ok\t")?.split('\t').flat_map(str::parse).collect();
        (numbers.len() == 4).then(|| numbers[0] + numbers[1])
    });
    listed + reported.sum::<u64>()
}

/// What is measured: the rounds, the programs, of which the third may be missing, and whether rows are counted.
struct Measure<'a> {
    rounds: usize,
    engine: &'a str,
    reference: &'a str,
    rival: Option<String>,
    rows: bool,
}

impl Measure<'_> {
    fn print_head(&self) {
        let mut names = vec!["load", "engine, ns per line", "reference, ns per line", "ratio"];
        if self.rows {
            names.extend(["engine, million rows per s", "reference", "engine, MB per s", "reference"]);
        }
        let rival = self.rival.as_ref().map(|rival| format!("{}, ns per line", file_name(rival)));
        if let Some(rival) = &rival {
            names.extend([rival, "its ratio"]);
        }
        println!("| {} |", names.join(" | "));
        println!("|{}", "---|".repeat(names.len()));
    }

    /// Compares the programs on a load and prints a row of the table.
    fn print_row(&self, load: &str) -> io::Result<()> {
        let printed = output(self.engine, load)?;
        if printed != output(self.reference, load)? {
            return Err(io::Error::other(format!("the outputs for {load} differ")));
        }
        let lines = lines(&std::fs::read(load)?);
        let mut programs = vec![self.engine, self.reference];
        programs.extend(self.rival.as_deref());
        let mut best = vec![u64::MAX; programs.len()];
        for _ in 0..self.rounds {
            for (best, program) in best.iter_mut().zip(&programs) {
                *best = run(program, load)?.min(*best);
            }
        }
        let ratio = |other: u64| format!("{:.2}", other as f64 / best[0] as f64);
        let mut cells = vec![file_name(load)];
        cells.extend([(best[0] / lines).to_string(), (best[1] / lines).to_string(), ratio(best[1])]);
        if self.rows {
            let millions_per_second =
                |count: u64, time: u64| format!("{:.1}", 1000.0 * count as f64 / time as f64);
            let rows = rows(lines, &printed);
            cells.extend(best[..2].iter().map(|&time| millions_per_second(rows, time)));
            cells.extend(best[..2].iter().map(|&time| millions_per_second(printed.len() as u64, time)));
        }
        if let Some(rival) = &self.rival {
            let note = if output(rival, load)? == printed { "" } else { " (its answers differ)" };
            cells.extend([format!("{}{note}", best[2] / lines), ratio(best[2])]);
        }
        println!("| {} |", cells.join(" | "));
        Ok(())
    }
}

fn file_name(path: &str) -> String {
    Path::new(path).file_name().unwrap_or_default().to_string_lossy().into_owned()
}

fn main() -> ExitCode {
    let words: Vec<String> = std::env::args().skip(1).collect();
    let [rounds, engine, reference, loads @ ..] = &words[..] else {
        eprintln!("usage: rounds ROUNDS ENGINE REFERENCE [--rows] LOAD...");
        return ExitCode::FAILURE;
    };
    let rows = loads.first().is_some_and(|word| word == "--rows");
    let rival = std::env::var("RIVAL").ok().filter(|rival| !rival.is_empty());
    let measure = Measure { rounds: rounds.parse().unwrap_or(7), engine, reference, rival, rows };
    measure.print_head();
    for load in &loads[usize::from(rows)..] {
        if let Err(error) = measure.print_row(load) {
            eprintln!("rounds: {error}");
            return ExitCode::FAILURE;
        }
    }
    ExitCode::SUCCESS
}
