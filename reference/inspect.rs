// Reads REQUEST.TXT in the working directory and prints how the reference sees it.
// Build: rustc -O reference/inspect.rs

// Packing is not needed here.
#[allow(dead_code)]
mod format;
mod summary;

use std::fs;
use std::io::{self, ErrorKind};
use std::process::ExitCode;

fn main() -> ExitCode {
    match read_request() {
        Ok(raw) => {
            print!("{}", summary::lines(&raw));
            ExitCode::SUCCESS
        }
        Err(error) => {
            eprintln!("REQUEST.TXT cannot be read: {error}");
            ExitCode::FAILURE
        }
    }
}

/// A missing file counts as an empty one.
fn read_request() -> io::Result<Vec<u8>> {
    match fs::read("REQUEST.TXT") {
        Err(error) if error.kind() == ErrorKind::NotFound => Ok(Vec::new()),
        read => read,
    }
}
