// Reads SCRIPT.TXT in the working directory and prints the reference's answers to its commands.
// Build: rustc -O reference/replay.rs

// The line numbers of answers are for the comparison.
#[allow(dead_code)]
mod afternoon;
mod answers;
mod commands;
// Of the file format only the denials are needed here.
#[allow(dead_code)]
mod format;
mod hosts;
mod registers;

use std::fs;
use std::io::{self, ErrorKind, Write};
use std::process::ExitCode;

fn main() -> ExitCode {
    match answer_script() {
        Ok(()) => ExitCode::SUCCESS,
        Err(error) => {
            eprintln!("SCRIPT.TXT cannot be answered: {error}");
            ExitCode::FAILURE
        }
    }
}

fn answer_script() -> io::Result<()> {
    let answers = afternoon::replay_script(&read_script()?);
    io::stdout().write_all(&answers)
}

/// A missing file counts as an empty one.
fn read_script() -> io::Result<Vec<u8>> {
    match fs::read("SCRIPT.TXT") {
        Err(error) if error.kind() == ErrorKind::NotFound => Ok(Vec::new()),
        read => read,
    }
}
