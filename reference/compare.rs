// Compares the engine's C call with the reference's check on generated files, family by family.
// tools/compare builds and runs it. Arguments: number of random cases, the generator's start number.

mod cases;
mod damage;
mod ended;
mod format;
mod grouped;
mod random;
mod raw;
mod records;

use cases::{Family, Lawful, Settings, FAMILIES};
use ended::ended;
use format::RECORD_LENGTH;
use grouped::grouped;
use std::process::ExitCode;

extern "C" {
    fn zengin_check(bytes: *const u8, length: usize) -> u64;
}

/// The numbers of all denials that a check can answer.
const DENIALS: std::ops::RangeInclusive<u64> = 11..=17;

fn main() -> ExitCode {
    ended(settings().and_then(|settings| compare(&settings)))
}

/// 40,000 random cases bring the whole above 250,000 calls in a few seconds.
fn settings() -> Result<Settings, String> {
    let mut settings = Settings {
        random_cases: 40_000,
        start: 1,
    };
    let mut arguments = std::env::args().skip(1);
    if let Some(text) = arguments.next() {
        settings.random_cases = argument("number of random cases", &text)?;
    }
    if let Some(text) = arguments.next() {
        settings.start = argument("start number", &text)?;
    }
    match arguments.next() {
        Some(text) => Err(format!("there is no third argument: {text}")),
        None => Ok(settings),
    }
}

fn argument(name: &str, text: &str) -> Result<u64, String> {
    text.parse()
        .map_err(|_| format!("the {name} has to be a number, not {text}"))
}

// ---- The comparison ----

/// What one family, or all of them, came to.
#[derive(Default)]
struct Tally {
    calls: u64,
    agreed: u64,
    lawful: u64,
    /// How often the reference answered each number; the place in the list is the number.
    seen: [u64; 18],
    raw_forms: u64,
    disagreement: Option<String>,
    carrier_fault: Option<String>,
}

fn compare(settings: &Settings) -> Result<(), String> {
    if !format::layouts_cover_every_column() {
        return Err("the reference's own tables do not cover every column once".to_string());
    }
    let mut whole = Tally::default();
    call_without_bytes(&mut whole);
    let mut faults = Vec::new();
    for family in &FAMILIES {
        let tally = run(family, settings);
        let [agreed, calls, lawful] = [tally.agreed, tally.calls, tally.lawful].map(grouped);
        println!(
            "{}: {agreed} of {calls} agreed, {lawful} lawful",
            family.name
        );
        faults.extend(family_faults(family, &tally));
        whole.add(&tally);
    }
    println!(
        "the reference's own carrier: {} raw forms gave back their bare file",
        grouped(whole.raw_forms)
    );
    faults.extend(unseen_denials(&whole));
    faults.extend(whole.disagreement.take());
    println!(
        "{} of {} check calls agreed",
        grouped(whole.agreed),
        grouped(whole.calls)
    );
    if faults.is_empty() {
        Ok(())
    } else {
        Err(faults.join("\n"))
    }
}

/// Tells how often each denial was seen. One that never comes up would be compared in name only.
fn unseen_denials(whole: &Tally) -> Vec<String> {
    let mut faults = Vec::new();
    for number in DENIALS {
        let seen = whole.seen[number as usize];
        println!("denial {number}: seen {} times", grouped(seen));
        if seen == 0 {
            faults.push(format!("denial {number} was never seen"));
        }
    }
    faults
}

/// The one call that may pass a null pointer.
fn call_without_bytes(whole: &mut Tally) {
    // SAFETY: the header allows a null pointer with length 0.
    let engine = unsafe { zengin_check(std::ptr::null(), 0) };
    whole.count("a null pointer with length 0", &[], engine);
}

fn run(family: &Family, settings: &Settings) -> Tally {
    let mut tally = Tally::default();
    let lawful_only = matches!(family.lawful, Lawful::All);
    family.each(settings, &mut |bare| {
        // SAFETY: pointer and length are those of a slice that lives during the call.
        let engine = unsafe { zengin_check(bare.as_ptr(), bare.len()) };
        tally.count(family.name, bare, engine);
        if lawful_only {
            tally.try_carrier(bare);
        }
    });
    tally
}

fn family_faults(family: &Family, tally: &Tally) -> Vec<String> {
    let enough = match family.lawful {
        Lawful::All => tally.lawful == tally.calls && tally.calls > 0,
        Lawful::Exactly(number) => tally.lawful == number,
        Lawful::AtLeastOne => tally.lawful > 0,
    };
    let mut faults = Vec::new();
    if !enough {
        faults.push(format!(
            "{}: {} lawful files are not what it should have",
            family.name, tally.lawful
        ));
    }
    faults.extend(tally.carrier_fault.clone());
    faults
}

impl Tally {
    /// Counts one call and keeps the first disagreement.
    fn count(&mut self, family: &str, bare: &[u8], engine: u64) {
        let answer = format::check(bare);
        let reference = format::encode(&answer);
        self.calls += 1;
        match answer {
            Ok(_) => self.lawful += 1,
            Err(denial) => self.seen[denial.number as usize] += 1,
        }
        if engine == reference {
            self.agreed += 1;
        } else if self.disagreement.is_none() {
            self.disagreement = Some(describe(family, self.calls, bare, engine, reference));
        }
    }

    /// A lawful file has to survive the reference's own carrier in every raw form.
    fn try_carrier(&mut self, bare: &[u8]) {
        let packed = format::pack(bare).unwrap_or_default();
        let mut forms = raw::every_form(bare);
        if !forms.contains(&packed) {
            self.carrier_fault
                .get_or_insert("no raw form is the packed one".to_string());
        }
        forms.push(packed);
        for form in &forms {
            self.raw_forms += 1;
            if format::unpack(form).as_deref() != Ok(bare) {
                self.carrier_fault
                    .get_or_insert("a raw form did not give back its file".to_string());
            }
        }
    }

    fn add(&mut self, other: &Tally) {
        self.calls += other.calls;
        self.agreed += other.agreed;
        self.lawful += other.lawful;
        self.raw_forms += other.raw_forms;
        for (sum, more) in self.seen.iter_mut().zip(other.seen) {
            *sum += more;
        }
        if self.disagreement.is_none() {
            self.disagreement = other.disagreement.clone();
        }
    }
}

// ---- Showing a disagreement ----

fn describe(family: &str, case: u64, bare: &[u8], engine: u64, reference: u64) -> String {
    let mut text = format!(
        "first disagreement, in \"{family}\", file {case}, {} bytes\n  engine:    {}\n  reference: {}\n",
        bare.len(),
        answer_in_words(engine),
        answer_in_words(reference)
    );
    let mut places = vec![record_of(engine), record_of(reference)];
    places.dedup();
    for place in places {
        text += &record_in_hex(bare, place);
    }
    text
}

fn record_of(answer: u64) -> u64 {
    answer % 100_000_000 / 1_000
}

fn answer_in_words(answer: u64) -> String {
    if answer == 0 {
        return "lawful (0)".to_string();
    }
    let (number, record, column) = (answer / 100_000_000, record_of(answer), answer % 1_000);
    format!("{number} at record {record}, column {column} ({answer})")
}

/// A record's bytes, twenty to a line with the column of the first. Record 0 stands for no place.
fn record_in_hex(bare: &[u8], place: u64) -> String {
    let mut records = bare.chunks(RECORD_LENGTH);
    let Some(record) = place
        .checked_sub(1)
        .and_then(|index| records.nth(index as usize))
    else {
        return String::new();
    };
    let mut text = format!("  record {place}:\n");
    for (line, bytes) in record.chunks(20).enumerate() {
        let hex: Vec<String> = bytes.iter().map(|byte| format!("{byte:02X}")).collect();
        text += &format!("    column {:3}: {}\n", line * 20 + 1, hex.join(" "));
    }
    text
}
