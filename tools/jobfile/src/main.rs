//! Reads a job's text from standard input and writes the job file to standard output.

use std::io::{Read, Write};
use std::process::ExitCode;

fn main() -> ExitCode {
    let mut text = String::new();
    if std::io::stdin().read_to_string(&mut text).is_err() {
        eprintln!("jobfile: the input is no text");
        return ExitCode::FAILURE;
    }
    match jobfile::job(&text) {
        Ok(job) => match std::io::stdout().write_all(&job) {
            Ok(()) => ExitCode::SUCCESS,
            Err(_) => ExitCode::FAILURE,
        },
        Err(message) => {
            eprintln!("jobfile: {message}");
            ExitCode::FAILURE
        }
    }
}
