//! Serves the lines of standard input on a fresh bucket and prints each answer.
use std::io::{self, ErrorKind};
use std::process::ExitCode;

fn main() -> ExitCode {
    match reference::program::run(io::stdin().lock(), io::stdout().lock()) {
        Ok(()) => ExitCode::SUCCESS,
        Err(error) if error.kind() == ErrorKind::BrokenPipe => ExitCode::SUCCESS,
        Err(error) => {
            eprintln!("bucketrun: {error}");
            ExitCode::FAILURE
        }
    }
}
