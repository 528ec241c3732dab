// How the comparing programs end: with status 0, or with the reason on standard error and status 1.

use std::process::ExitCode;

pub fn ended(result: Result<(), String>) -> ExitCode {
    match result {
        Ok(()) => ExitCode::SUCCESS,
        Err(why) => {
            eprintln!("{why}");
            ExitCode::FAILURE
        }
    }
}
