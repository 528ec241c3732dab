// Compares the engine's program `inspect` with the reference's on raw files, each in its own directory.
// Arguments: the engine's program, then the reference's. tools/compare builds and runs it.

mod ended;
// Only parts of the format and of the record writer are needed here.
#[allow(dead_code)]
mod format;
mod random;
mod raw;
mod raw_cases;
#[allow(dead_code)]
mod records;

use ended::ended;
use raw_cases::RawCase;
use std::env;
use std::fs;
use std::io;
use std::path::{Path, PathBuf};
use std::process::{self, Command, ExitCode};

/// Fewer cases than this would mean that the list of cases has been lost by mistake.
const FEWEST_CASES: usize = 150;

fn main() -> ExitCode {
    ended(compare())
}

fn compare() -> Result<(), String> {
    let [engine, reference] = programs()?;
    let cases = raw_cases::every_case();
    if cases.len() < FEWEST_CASES {
        return Err(format!("only {} raw files were generated", cases.len()));
    }
    let mut first_lines = Vec::new();
    let mut disagreements = Vec::new();
    for (number, case) in cases.iter().enumerate() {
        let [engine, reference] = in_own_directory(number, case, [&engine, &reference])
            .map_err(|error| format!("{}: {error}", case.name))?;
        if let Err(why) = agree(&engine, &reference) {
            disagreements.push(format!("{}: {why}", case.name));
        }
        first_lines.push(reference);
    }
    let agreed = cases.len() - disagreements.len();
    println!(
        "{agreed} of {} raw files agreed in the program inspect",
        cases.len()
    );
    if let Some(first) = disagreements.first() {
        return Err(format!("first disagreement: {first}"));
    }
    all_kinds_seen(&first_lines)
}

/// Full paths, because each program runs in another directory.
fn programs() -> Result<[PathBuf; 2], String> {
    let paths: Vec<String> = env::args().skip(1).collect();
    let [engine, reference] = paths.as_slice() else {
        return Err(
            "two arguments are needed: the engine's program and the reference's".to_string(),
        );
    };
    Ok([full_path(engine)?, full_path(reference)?])
}

fn full_path(path: &str) -> Result<PathBuf, String> {
    fs::canonicalize(path).map_err(|error| format!("{path} is not there: {error}"))
}

/// What a program printed and whether its status was 0.
struct Printed {
    bytes: Vec<u8>,
    success: bool,
}

/// Runs both programs in a new directory that holds the case as REQUEST.TXT.
fn in_own_directory(
    number: usize,
    case: &RawCase,
    programs: [&Path; 2],
) -> io::Result<[Printed; 2]> {
    let name = format!("compare_inspect_{}_{number}", process::id());
    let directory = env::temp_dir().join(name);
    fs::create_dir(&directory)?;
    let printed = in_directory(&directory, case, programs);
    fs::remove_dir_all(&directory)?;
    printed
}

fn in_directory(
    directory: &Path,
    case: &RawCase,
    programs: [&Path; 2],
) -> io::Result<[Printed; 2]> {
    if let Some(raw) = &case.raw {
        fs::write(directory.join("REQUEST.TXT"), raw)?;
    }
    let [engine, reference] = programs;
    Ok([run(engine, directory)?, run(reference, directory)?])
}

fn run(program: &Path, directory: &Path) -> io::Result<Printed> {
    let output = Command::new(program).current_dir(directory).output()?;
    Ok(Printed {
        bytes: output.stdout,
        success: output.status.success(),
    })
}

/// A lawful file has to give the same bytes, a refused one the same first line and one line of words.
fn agree(engine: &Printed, reference: &Printed) -> Result<(), String> {
    if !engine.success || !reference.success {
        return Err("a program's status is not 0".to_string());
    }
    let same = if reference.bytes.starts_with(b"REFUSED") {
        engine.bytes.starts_with(&reference.bytes)
            && is_one_line(&engine.bytes[reference.bytes.len()..])
    } else {
        engine.bytes == reference.bytes
    };
    if same {
        return Ok(());
    }
    let [engine, reference] =
        [engine, reference].map(|printed| String::from_utf8_lossy(&printed.bytes));
    Err(format!(
        "the programs print\nengine:\n{engine}reference:\n{reference}"
    ))
}

/// Some words and a line feed at their end, nowhere else.
fn is_one_line(bytes: &[u8]) -> bool {
    bytes.len() > 1 && bytes.iter().position(|&byte| byte == b'\n') == Some(bytes.len() - 1)
}

/// Lawful files and every denial of a file have to be among the cases.
fn all_kinds_seen(printed: &[Printed]) -> Result<(), String> {
    let mut starts = vec!["LAWFUL ".to_string()];
    starts.extend((11..=17).map(|number| format!("REFUSED {number} ")));
    for start in starts {
        let seen = printed
            .iter()
            .filter(|printed| printed.bytes.starts_with(start.as_bytes()))
            .count();
        println!("{}: seen {seen} times", start.trim_end());
        if seen == 0 {
            return Err(format!("no raw file gave {start}"));
        }
    }
    Ok(())
}
