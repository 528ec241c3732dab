// Compares the engine's program `replay` with the reference on fixed and random scripts.
// Arguments: the engine's program, then the number of random scripts and the generator's start number.

mod afternoon;
mod answers;
mod commands;
mod ended;
mod fixed_scripts;
// Of the file format only the denials are needed here.
#[allow(dead_code)]
mod format;
mod grouped;
mod hosts;
mod random;
mod registers;
mod script_cases;
mod script_damage;

use afternoon::{replay_lines, replay_script, Answered};
use ended::ended;
use grouped::grouped;
use random::Random;
use std::env;
use std::fs;
use std::path::PathBuf;
use std::process::{self, Command, ExitCode};

const RANDOM_SCRIPTS: u64 = 1_500;

/// Every sort of answer. Codes and denials count each for itself, other numbers do not.
const KINDS: [&str; 16] = [
    "OK",
    "NONE",
    "REGISTER",
    "CODE 0",
    "CODE 1",
    "CODE 2",
    "CODE 3",
    "CODE 4",
    "CODE 8",
    "CODE 9",
    "TAKEN",
    "DENIED 24",
    "DENIED 31",
    "DENIED 32",
    "DENIED 33",
    "BAD LINE",
];

fn main() -> ExitCode {
    ended(settings().and_then(|settings| compare(&settings)))
}

// ---- Settings ----

struct Settings {
    engine: PathBuf,
    random_scripts: u64,
    start: u64,
}

fn settings() -> Result<Settings, String> {
    let arguments: Vec<String> = env::args().skip(1).collect();
    let Some((engine, numbers)) = arguments.split_first() else {
        return Err("the engine's program is needed as the first argument".to_string());
    };
    // A full path, because the program runs in another directory.
    let engine =
        fs::canonicalize(engine).map_err(|error| format!("{engine} is not there: {error}"))?;
    let (random_scripts, start) = match numbers {
        [] => (RANDOM_SCRIPTS, 1),
        [scripts] => (number(scripts)?, 1),
        [scripts, start] => (number(scripts)?, number(start)?),
        _ => return Err("there is no fourth argument".to_string()),
    };
    Ok(Settings {
        engine,
        random_scripts,
        start,
    })
}

fn number(text: &str) -> Result<u64, String> {
    text.parse()
        .map_err(|_| format!("an argument has to be a number, not {text}"))
}

// ---- The comparison ----

fn compare(settings: &Settings) -> Result<(), String> {
    example_is_as_documented()?;
    let name = format!("compare_replay_{}", process::id());
    let mut comparison = Comparison {
        engine: settings.engine.clone(),
        directory: env::temp_dir().join(name),
        scripts: 0,
        agreed: 0,
        lines: 0,
    };
    comparison.make_directory()?;
    comparison.judge_missing_script()?;
    let mut fixed = Tally::default();
    for case in fixed_scripts::every_script() {
        comparison.judge(&case.name, &case.script, &mut fixed)?;
    }
    let mut drawn = Tally::default();
    let mut random = Random::new(settings.start);
    for script_number in 1..=settings.random_scripts {
        let script = script_cases::some_script(&mut random);
        let name = format!("random script {script_number}");
        comparison.judge(&name, &script, &mut drawn)?;
    }
    comparison.remove_directory()?;
    print_kinds(&fixed, &drawn);
    println!(
        "replay: {} of {} scripts agreed ({} lines)",
        grouped(comparison.agreed),
        grouped(comparison.scripts),
        grouped(comparison.lines)
    );
    all_kinds_seen(settings, &fixed, &drawn)
}

/// Keeps the page and the reference together; the engine is then compared on the same script.
fn example_is_as_documented() -> Result<(), String> {
    let (script, answers) = fixed_scripts::documented_example()
        .ok_or("docs/REPLAY.md has no example where it is looked for")?;
    if replay_script(script.as_bytes()) != answers.as_bytes() {
        return Err("the reference does not print the answers of docs/REPLAY.md".to_string());
    }
    Ok(())
}

struct Comparison {
    engine: PathBuf,
    /// Holds SCRIPT.TXT. It is left behind after a disagreement.
    directory: PathBuf,
    scripts: u64,
    agreed: u64,
    /// Answered lines; comments and empty lines do not count.
    lines: u64,
}

struct Printed {
    bytes: Vec<u8>,
    status: Option<i32>,
}

impl Comparison {
    fn make_directory(&self) -> Result<(), String> {
        fs::create_dir(&self.directory).map_err(|error| self.trouble(error))
    }

    fn remove_directory(&self) -> Result<(), String> {
        fs::remove_dir_all(&self.directory).map_err(|error| self.trouble(error))
    }

    fn trouble(&self, error: std::io::Error) -> String {
        format!("{}: {error}", self.directory.display())
    }

    fn run_engine(&mut self) -> Result<Printed, String> {
        self.scripts += 1;
        let output = Command::new(&self.engine)
            .current_dir(&self.directory)
            .output()
            .map_err(|error| format!("{}: {error}", self.engine.display()))?;
        Ok(Printed {
            bytes: output.stdout,
            status: output.status.code(),
        })
    }

    /// The directory is still empty then. A missing script counts as an empty one.
    fn judge_missing_script(&mut self) -> Result<(), String> {
        let printed = self.run_engine()?;
        if printed.status != Some(0) || !printed.bytes.is_empty() {
            return Err(format!(
                "without SCRIPT.TXT the engine's status is {:?} and it prints {} bytes",
                printed.status,
                printed.bytes.len()
            ));
        }
        self.agreed += 1;
        Ok(())
    }

    fn judge(&mut self, name: &str, script: &[u8], tally: &mut Tally) -> Result<(), String> {
        let path = self.directory.join("SCRIPT.TXT");
        fs::write(&path, script).map_err(|error| self.trouble(error))?;
        let printed = self.run_engine()?;
        let answered = replay_lines(script);
        let place = format!("{}, {name}", path.display());
        if let Some(difference) = first_difference(script, &answered, &printed.bytes) {
            return Err(format!("first disagreement: {place}, {difference}"));
        }
        if printed.status != Some(0) {
            let status = printed.status;
            return Err(format!("{place}: the engine's status is {status:?}, not 0"));
        }
        self.agreed += 1;
        self.lines += answered.len() as u64;
        tally.count(&answered);
        Ok(())
    }
}

/// Where the engine's bytes leave the reference's, with the script's line and both answers.
fn first_difference(script: &[u8], answered: &[Answered], engine: &[u8]) -> Option<String> {
    let mut rest = engine;
    for expected in answered {
        let Some(next) = rest.strip_prefix(expected.text.as_bytes()) else {
            let line = script.split(|&byte| byte == b'\n').nth(expected.line - 1);
            return Some(format!(
                "line {}: {}\n  engine:    {}\n  reference: {}",
                expected.line,
                shown(line.unwrap_or_default()),
                shown(first_line(rest)),
                shown(first_line(expected.text.as_bytes()))
            ));
        };
        rest = next;
    }
    if rest.is_empty() {
        return None;
    }
    Some(format!(
        "behind the last answer\n  engine:    {}\n  reference: nothing",
        shown(first_line(rest))
    ))
}

fn first_line(bytes: &[u8]) -> &[u8] {
    bytes
        .split_inclusive(|&byte| byte == b'\n')
        .next()
        .unwrap_or_default()
}

/// Bytes in a form that a terminal can show; long ones are cut.
fn shown(bytes: &[u8]) -> String {
    let cut = &bytes[..bytes.len().min(200)];
    format!("\"{}\"", cut.escape_ascii())
}

// ---- Kinds of answers ----

/// How often each kind was seen, in the order of the list.
#[derive(Default)]
struct Tally {
    seen: [u64; KINDS.len()],
}

impl Tally {
    fn count(&mut self, answered: &[Answered]) {
        for answer in answered {
            let text = answer.text.trim_end();
            let kind = KINDS.iter().position(|kind| is_of_kind(text, kind));
            let kind = kind.unwrap_or_else(|| panic!("\"{text}\" is of no kind"));
            self.seen[kind] += 1;
        }
    }
}

fn is_of_kind(text: &str, kind: &str) -> bool {
    match text.strip_prefix(kind) {
        Some(rest) => rest.is_empty() || rest.starts_with(' '),
        None => false,
    }
}

fn print_kinds(fixed: &Tally, drawn: &Tally) {
    for (kind, (fixed, drawn)) in KINDS.iter().zip(fixed.seen.iter().zip(drawn.seen)) {
        let [fixed, drawn] = [*fixed, drawn].map(grouped);
        println!("{kind}: seen {fixed} times in fixed scripts, {drawn} times in random ones");
    }
}

/// A generator that never reaches an answer is no test of it. Fewer random scripts than by default
/// need not reach everything.
fn all_kinds_seen(settings: &Settings, fixed: &Tally, drawn: &Tally) -> Result<(), String> {
    let enough_drawn = settings.random_scripts >= RANDOM_SCRIPTS;
    for (place, kind) in KINDS.iter().enumerate() {
        if fixed.seen[place] == 0 {
            return Err(format!("no fixed script was answered with {kind}"));
        }
        if enough_drawn && drawn.seen[place] == 0 {
            return Err(format!("no random script was answered with {kind}"));
        }
    }
    Ok(())
}
