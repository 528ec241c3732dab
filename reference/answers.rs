// What replay answers to one command, and how the answer is printed.

use crate::format::Denial;
use crate::hosts::ResultCode;
use std::fmt::{self, Display, Formatter};

pub enum Answer {
    Done,
    /// There is no register to take off, or none that this row fits.
    Missing,
    /// The number of a register that was put on.
    Register(usize),
    Code(ResultCode),
    Taken(u64),
    Denied(Denial),
    BadLine,
}

impl From<Result<(), Denial>> for Answer {
    fn from(result: Result<(), Denial>) -> Answer {
        match result {
            Ok(()) => Answer::Done,
            Err(denial) => Answer::Denied(denial),
        }
    }
}

impl Display for Answer {
    fn fmt(&self, text: &mut Formatter) -> fmt::Result {
        match self {
            Answer::Done => write!(text, "OK"),
            Answer::Missing => write!(text, "NONE"),
            Answer::Register(number) => write!(text, "REGISTER {number}"),
            Answer::Code(code) => write!(text, "CODE {}", code.number()),
            Answer::Taken(figure) => write!(text, "TAKEN {figure}"),
            Answer::Denied(denial) => write!(
                text,
                "DENIED {} {} {} {}",
                denial.number,
                layer(denial.number),
                denial.record,
                denial.column
            ),
            Answer::BadLine => write!(text, "BAD LINE"),
        }
    }
}

/// The layer of each number in docs/DENIALS.md, in lower case.
fn layer(number: u64) -> &'static str {
    match number {
        11 | 12 | 18 | 21 => "carrier",
        13 => "order",
        14 | 15 => "record",
        16 | 17 => "totals",
        22 | 23 => "run",
        24 => "number",
        31..=33 => "register",
        41 | 42 => "accounts",
        _ => panic!("{number} is not in the list of denials"),
    }
}
