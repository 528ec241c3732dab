// Does what the lines of a replay script ask for: one ledger, one sheet and one pile, held for a whole script.

use crate::answers::Answer;
use crate::commands::{read_line, Bottom, Command, Line};
use crate::hosts::{Claim, Host, Ledger, Parts, Sheet};
use crate::registers::{Pile, Register, RegisterSort};

const LINE_FEED: u8 = 0x0A;

/// One line that was answered.
pub struct Answered {
    /// The line's number in the script, from 1.
    pub line: usize,
    /// The answer with its line end.
    pub text: String,
}

/// Everything that is printed for a script.
pub fn replay_script(script: &[u8]) -> Vec<u8> {
    let answered = replay_lines(script);
    answered
        .into_iter()
        .flat_map(|answered| answered.text.into_bytes())
        .collect()
}

/// The same line by line. What stands behind the last line end is a line too; if it has no bytes,
/// it is silent like any other line without bytes.
pub fn replay_lines(script: &[u8]) -> Vec<Answered> {
    let mut afternoon = Afternoon::new();
    let lines = script.split(|&byte| byte == LINE_FEED);
    let answered = (1..).zip(lines).filter_map(|(line, bytes)| {
        let answer = afternoon.answer_line(bytes)?;
        let text = format!("{answer}\n");
        Some(Answered { line, text })
    });
    answered.collect()
}

struct Afternoon {
    ledger: Ledger,
    sheet: Sheet,
    bottom: Bottom,
    /// Register 1, the lowest, comes first.
    registers: Vec<Register>,
}

impl Afternoon {
    fn new() -> Afternoon {
        Afternoon {
            ledger: Ledger::default(),
            sheet: Sheet::default(),
            bottom: Bottom::Ledger,
            registers: Vec::new(),
        }
    }

    fn answer_line(&mut self, line: &[u8]) -> Option<Answer> {
        match read_line(line) {
            Line::Silent => None,
            Line::Bad => Some(Answer::BadLine),
            Line::Command(command) => Some(self.answer(command)),
        }
    }

    fn answer(&mut self, command: Command) -> Answer {
        match command {
            Command::Ledger { account, balance } => {
                self.ledger.add(account, balance);
                Answer::Done
            }
            Command::Sheet { parts, code } => {
                self.sheet.add(parts, code);
                Answer::Done
            }
            Command::Use(bottom) => {
                self.bottom = bottom;
                Answer::Done
            }
            Command::Put(sort) => self.put(sort),
            Command::Off => self.off(),
            Command::List { register, numbers } => self.list(register, &numbers),
            Command::Strike { register, numbers } => self.strike(register, &numbers),
            Command::Inquire(parts) => {
                self.on_claim(parts, |pile, claim| Answer::Code(pile.verdict(claim)))
            }
            Command::Debit(parts) => {
                self.on_claim(parts, |pile, claim| Answer::Code(pile.debit(claim)))
            }
            // No claim reaches an account of more than 15 digits, so its figure stays 0 by itself.
            Command::Taken { account } => Answer::Taken(self.pile().taken(account)),
        }
    }

    fn put(&mut self, sort: RegisterSort) -> Answer {
        self.registers.push(Register::new(sort));
        Answer::Register(self.registers.len())
    }

    fn off(&mut self) -> Answer {
        match self.registers.pop() {
            Some(_) => Answer::Done,
            None => Answer::Missing,
        }
    }

    fn list(&mut self, register: u64, numbers: &[u64]) -> Answer {
        let Some(register) = self.register(register) else {
            return Answer::Missing;
        };
        let Some(row) = register.row_of(numbers) else {
            return Answer::Missing;
        };
        register.list(row).into()
    }

    fn strike(&mut self, register: u64, numbers: &[u64]) -> Answer {
        let Some(register) = self.register(register) else {
            return Answer::Missing;
        };
        let Some(known) = register.known_of(numbers) else {
            return Answer::Missing;
        };
        register.strike(known).into()
    }

    /// A register by its number from 1. There is none with the number 0.
    fn register(&mut self, number: u64) -> Option<&mut Register> {
        let place = usize::try_from(number.checked_sub(1)?).ok()?;
        self.registers.get_mut(place)
    }

    /// Makes the claim before anything is asked or debited.
    fn on_claim(&mut self, parts: Parts, ask: fn(&mut Pile, &Claim) -> Answer) -> Answer {
        match Claim::new(parts) {
            Ok(claim) => ask(&mut self.pile(), &claim),
            Err(denial) => Answer::Denied(denial),
        }
    }

    fn pile(&mut self) -> Pile<'_> {
        Pile {
            registers: &mut self.registers,
            bottom: match self.bottom {
                Bottom::Ledger => &mut self.ledger,
                Bottom::Sheet => &mut self.sheet,
            },
        }
    }
}
