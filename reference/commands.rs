// The lines of a replay script as docs/REPLAY.md tells them: what each line asks for, or that it is a bad one.

use crate::hosts::{Customer, Parts};
use crate::registers::RegisterSort;

const MOST_DIGITS: usize = 20;

#[derive(Clone, Copy, Debug, PartialEq, Eq)]
pub enum Bottom {
    Ledger,
    Sheet,
}

#[derive(Clone, Debug, PartialEq, Eq)]
pub enum Command {
    Ledger {
        account: u64,
        balance: u64,
    },
    Sheet {
        parts: Parts,
        code: u8,
    },
    Use(Bottom),
    Put(RegisterSort),
    Off,
    /// Which counts of numbers fit is known only when the register is found.
    List {
        register: u64,
        numbers: Vec<u64>,
    },
    Strike {
        register: u64,
        numbers: Vec<u64>,
    },
    Inquire(Parts),
    Debit(Parts),
    Taken {
        account: u64,
    },
}

#[derive(Clone, Debug, PartialEq, Eq)]
pub enum Line {
    /// An empty line or a comment, which is not answered.
    Silent,
    Bad,
    Command(Command),
}

/// Reads one line without its line end.
pub fn read_line(line: &[u8]) -> Line {
    match line.first() {
        None | Some(b'#') => Line::Silent,
        Some(_) => read_command(line).map_or(Line::Bad, Line::Command),
    }
}

/// A space too many leaves an empty field, which is neither a word nor a number.
fn read_command(line: &[u8]) -> Option<Command> {
    let fields: Vec<&[u8]> = line.split(|&byte| byte == b' ').collect();
    let (word, rest) = fields.split_first()?;
    match *word {
        b"use" => one_word(rest).and_then(bottom).map(Command::Use),
        b"put" => one_word(rest).and_then(sort).map(Command::Put),
        _ => command_on_numbers(word, &numbers(rest)?),
    }
}

fn command_on_numbers(word: &[u8], numbers: &[u64]) -> Option<Command> {
    match (word, numbers) {
        (b"ledger", &[account, balance]) => Some(Command::Ledger { account, balance }),
        (b"sheet", [claimed @ .., code]) => Some(Command::Sheet {
            parts: parts(claimed)?,
            code: u8::try_from(*code).ok()?,
        }),
        (b"off", []) => Some(Command::Off),
        (b"list", [register, row @ ..]) if (2..=3).contains(&row.len()) => Some(Command::List {
            register: *register,
            numbers: row.to_vec(),
        }),
        (b"strike", [register, row @ ..]) if (1..=3).contains(&row.len()) => {
            Some(Command::Strike {
                register: *register,
                numbers: row.to_vec(),
            })
        }
        (b"inquire", claimed) => parts(claimed).map(Command::Inquire),
        (b"debit", claimed) => parts(claimed).map(Command::Debit),
        (b"taken", &[account]) => Some(Command::Taken { account }),
        _ => None,
    }
}

fn one_word<'a>(fields: &[&'a [u8]]) -> Option<&'a [u8]> {
    match fields {
        [word] => Some(word),
        _ => None,
    }
}

fn bottom(word: &[u8]) -> Option<Bottom> {
    match word {
        b"ledger" => Some(Bottom::Ledger),
        b"sheet" => Some(Bottom::Sheet),
        _ => None,
    }
}

fn sort(word: &[u8]) -> Option<RegisterSort> {
    match word {
        b"holder" => Some(RegisterSort::HolderStop),
        b"biller" => Some(RegisterSort::BillerStop),
        b"mandates" => Some(RegisterSort::Mandates),
        b"ceiling" => Some(RegisterSort::Ceiling),
        _ => None,
    }
}

fn parts(numbers: &[u64]) -> Option<Parts> {
    let &[biller, account, high, low, amount] = numbers else {
        return None;
    };
    Some(Parts {
        biller,
        account,
        customer: Customer { high, low },
        amount,
    })
}

fn numbers(fields: &[&[u8]]) -> Option<Vec<u64>> {
    fields.iter().map(|field| number(field)).collect()
}

/// One to twenty digits that come to less than 2^64. The standard library's reader is not used,
/// because it takes a plus sign and any number of leading zeros.
fn number(field: &[u8]) -> Option<u64> {
    if field.is_empty() || field.len() > MOST_DIGITS {
        return None;
    }
    field.iter().try_fold(0_u64, |value, byte| {
        let digit = byte.is_ascii_digit().then(|| u64::from(byte - b'0'))?;
        value.checked_mul(10)?.checked_add(digit)
    })
}
