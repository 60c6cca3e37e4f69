//! Runs two programs `bucketrun` on the same input, whole and in pieces, and compares what they print byte by byte.
//!
//! `programs ENGINE REFERENCE LINES`; LINES is a file of request lines, from which the inputs are made.
//! The engine's program also has to answer each line before the next one comes, and to say where it can't print.
use std::fs::{File, OpenOptions};
use std::io::{self, Error, Read, Write};
use std::process::{Child, ChildStdin, Command, ExitCode, Stdio};
use std::sync::mpsc::{channel, Receiver};
use std::thread::{sleep, spawn};
use std::time::{Duration, Instant};

#[path = "compare/random.rs"]
mod random;
use random::Random;
#[path = "compare/mutate.rs"]
mod mutate;

/// Whatever takes longer than this hangs.
const PATIENCE: Duration = Duration::from_secs(60);
const SWEEP: &[u8] = b"2024-01-01T00:00:00Z\tc\tSWEEP\n";

/// A program at work: its input, and what it prints as it comes.
struct Running {
    child: Child,
    input: Option<ChildStdin>,
    output: Receiver<Vec<u8>>,
}

impl Drop for Running {
    fn drop(&mut self) {
        let _ = self.child.kill();
        let _ = self.child.wait();
    }
}

impl Running {
    fn start(program: &str) -> io::Result<Running> {
        let mut child = Command::new(program).stdin(Stdio::piped()).stdout(Stdio::piped()).spawn()?;
        let input = child.stdin.take();
        let mut printed = child.stdout.take().ok_or_else(|| Error::other("no output"))?;
        let (sender, output) = channel();
        spawn(move || {
            let mut part = [0; 65536];
            while let Ok(count @ 1..) = printed.read(&mut part) {
                if sender.send(part[..count].to_vec()).is_err() {
                    return;
                }
            }
        });
        Ok(Running { child, input, output })
    }

    /// What is printed up to the end of the output.
    fn rest(&self) -> io::Result<Vec<u8>> {
        let end = Instant::now() + PATIENCE;
        let mut printed = Vec::new();
        loop {
            match self.output.recv_timeout(end.saturating_duration_since(Instant::now())) {
                Ok(part) => printed.extend(part),
                Err(std::sync::mpsc::RecvTimeoutError::Disconnected) => return Ok(printed),
                Err(_) => return Err(Error::other("the program hangs")),
            }
        }
    }

    /// Hands over a line and waits for as many bytes as its answer has.
    fn ask(&mut self, line: &[u8], length: usize) -> io::Result<Vec<u8>> {
        let Some(input) = &mut self.input else { return Err(Error::other("no input")) };
        input.write_all(line)?;
        let mut printed = Vec::new();
        while printed.len() < length {
            let part = self.output.recv_timeout(PATIENCE);
            printed.extend(part.map_err(|_| Error::other("a line waits for its answer"))?);
        }
        Ok(printed)
    }
}

/// What a program prints for pieces of input that come one after the other.
fn printed(program: &str, pieces: Vec<Vec<u8>>) -> io::Result<Vec<u8>> {
    let mut running = Running::start(program)?;
    let input = running.input.take();
    spawn(move || {
        let Some(mut input) = input else { return };
        for piece in pieces {
            if input.write_all(&piece).is_err() {
                return;
            }
            sleep(Duration::from_micros(1));
        }
    });
    running.rest()
}

/// Cuts of up to so many bytes, anywhere.
fn pieces(input: &[u8], most: usize, random: &mut Random) -> Vec<Vec<u8>> {
    let (mut pieces, mut at) = (Vec::new(), 0);
    while at < input.len() {
        let end = input.len().min(at + 1 + random.below(most));
        pieces.push(input[at..end].to_vec());
        at = end;
    }
    pieces
}

/// The lines, a tenth of them damaged.
fn mixed(lines: &[Vec<u8>], random: &mut Random) -> Vec<u8> {
    let mut input = Vec::new();
    for line in lines {
        let damaged = (!line.is_empty() && random.once_in(10)).then(|| mutate::mutated(line, random));
        input.extend(damaged.as_ref().unwrap_or(line));
        input.push(b'\n');
    }
    input
}

/// The inputs, each with its name.
fn inputs(lines: &[Vec<u8>], random: &mut Random) -> Vec<(String, Vec<u8>)> {
    let mut inputs = vec![
        ("all lines".into(), mixed(lines, random)),
        ("some lines".into(), mixed(&lines[..lines.len().min(40)], random)),
        ("nothing".into(), vec![]),
        ("empty lines".into(), b"\n\n\n".to_vec()),
        ("bytes 0 and 255".into(), b"\0\xFF\n\xFF\0\n\0".to_vec()),
        ("empty lines by the thousand".into(), vec![b'\n'; 200_000]),
    ];
    for length in [511, 512, 513, 65535, 65536, 66560, 70000] {
        let long = vec![b'x'; length];
        inputs.push((format!("a line of {length} bytes"), [SWEEP, &long, b"\n", SWEEP].concat()));
        inputs.push((format!("a last line of {length} bytes"), [SWEEP, &long].concat()));
    }
    let (_, some) = &inputs[1];
    inputs.push(("no line feed at the end".into(), some[..some.len() - 1].to_vec()));
    inputs
}

/// Each input, whole and in pieces, prints the same as the reference prints for the whole.
fn compare(engine: &str, reference: &str, lines: &[Vec<u8>]) -> io::Result<usize> {
    let mut random = Random::new(1, 0);
    let mut runs = 0;
    for (name, input) in inputs(lines, &mut random) {
        let expected = printed(reference, vec![input.clone()])?;
        let mut ways =
            vec![vec![input.clone()], pieces(&input, 20_000, &mut random), pieces(&input, 700, &mut random)];
        if input.len() < 3000 {
            ways.push(pieces(&input, 1, &mut random));
        }
        for way in ways {
            let count = way.len();
            if printed(engine, way)? != expected {
                return Err(Error::other(format!("{name}, in {count} pieces: the outputs differ")));
            }
            runs += 1;
        }
    }
    Ok(runs)
}

/// The lines that an answer has behind its first one: those of a page's rows.
fn rows_shown(line: &[u8], first: &[u8]) -> usize {
    let listed = line.split(|&byte| byte == b'\t').nth(2) == Some(b"LIST");
    let count = first.strip_prefix(b"ok\t").filter(|_| listed).map(String::from_utf8_lossy);
    count.map_or(0, |count| count.trim_end().parse().unwrap_or(0))
}

/// What was printed, parted into an answer for each line that was asked.
fn parted<'a>(asked: &[&[u8]], mut printed: &'a [u8]) -> Option<Vec<&'a [u8]>> {
    let mut answers = Vec::new();
    for line in asked {
        let mut feeds = (0..printed.len()).filter(|&at| printed[at] == b'\n');
        let first = feeds.next()?;
        let end = match rows_shown(line, &printed[..first]) {
            0 => first,
            rows => feeds.nth(rows - 1)?,
        };
        let (answer, rest) = printed.split_at(end + 1);
        answers.push(answer);
        printed = rest;
    }
    printed.is_empty().then_some(answers)
}

/// Each of the first and of the last lines is answered before the next one comes, also where it comes in two pieces.
fn converse(engine: &str, reference: &str, lines: &[Vec<u8>]) -> io::Result<usize> {
    let mut random = Random::new(2, 0);
    let count = lines.len().min(700);
    let input = mixed(&[&lines[..count], &lines[lines.len() - count..]].concat(), &mut random);
    let asked: Vec<&[u8]> = input.split_inclusive(|&byte| byte == b'\n').collect();
    let printed = printed(reference, vec![input.clone()])?;
    let answers = parted(&asked, &printed).ok_or_else(|| Error::other("not one answer for each line"))?;
    let mut running = Running::start(engine)?;
    for (line, answer) in asked.iter().zip(&answers) {
        let (start, end) = line.split_at(random.below(line.len()));
        running.ask(start, 0)?;
        if running.ask(end, answer.len())? != *answer {
            return Err(Error::other("an answer differs while the input is open"));
        }
    }
    drop(running.input.take());
    match running.rest()?.is_empty() {
        true => Ok(answers.len()),
        false => Err(Error::other("more is printed than was asked")),
    }
}

/// With an output that takes nothing the program ends though its input is open, and says why.
fn complain(engine: &str, output: Stdio, script: &str) -> io::Result<()> {
    let mut child = Command::new("sh")
        .args(["-c", script, engine])
        .stdin(Stdio::piped())
        .stdout(output)
        .stderr(Stdio::piped())
        .spawn()?;
    let mut input = child.stdin.take();
    if let Some(input) = &mut input {
        input.write_all(SWEEP)?;
    }
    let start = Instant::now();
    while child.try_wait()?.is_none() {
        if start.elapsed() > PATIENCE {
            child.kill()?;
            return Err(Error::other("the program hangs where nobody takes its output"));
        }
        sleep(Duration::from_millis(5));
    }
    let mut said = String::new();
    if let Some(errors) = &mut child.stderr {
        errors.read_to_string(&mut said)?;
    }
    match said.as_str() {
        "bucketrun: standard output can't be written\n" => Ok(()),
        _ => Err(Error::other(format!("where nobody takes its output the program said {said:?}"))),
    }
}

/// An output that nobody reads any more.
fn closed_pipe() -> io::Result<Stdio> {
    let mut reader = Command::new("true").stdin(Stdio::piped()).spawn()?;
    let pipe = reader.stdin.take().ok_or_else(|| Error::other("no pipe"))?;
    reader.wait()?;
    Ok(pipe.into())
}

fn test(engine: &str, reference: &str, lines: &str) -> io::Result<()> {
    let mut text = Vec::new();
    File::open(lines)?.read_to_end(&mut text)?;
    let lines: Vec<Vec<u8>> = text.split(|&byte| byte == b'\n').map(<[u8]>::to_vec).collect();
    let runs = compare(engine, reference, &lines)?;
    let answers = converse(engine, reference, &lines)?;
    complain(engine, OpenOptions::new().write(true).open("/dev/full")?.into(), "exec \"$0\"")?;
    complain(engine, closed_pipe()?, "trap '' PIPE; exec \"$0\"")?;
    println!("programs: {runs} runs print the same, and {answers} lines were answered one by one");
    Ok(())
}

fn main() -> ExitCode {
    let words: Vec<String> = std::env::args().skip(1).collect();
    let [engine, reference, lines] = &words[..] else {
        eprintln!("usage: programs ENGINE REFERENCE LINES");
        return ExitCode::FAILURE;
    };
    match test(engine, reference, lines) {
        Ok(()) => ExitCode::SUCCESS,
        Err(error) => {
            eprintln!("programs: {error}");
            ExitCode::FAILURE
        }
    }
}
