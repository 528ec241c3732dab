// Claims and what they are posted to, as docs/HOSTS.md tells it, written a second time: ledger and sheet.
// It was written from docs/ without the engine's code, so that a slip in one of the two shows as a disagreement.

use crate::format::Denial;

/// Ten digits 9 each.
pub const GREATEST_BILLER: u64 = 9_999_999_999;
pub const GREATEST_HALF: u64 = 9_999_999_999;
pub const GREATEST_AMOUNT: u64 = 9_999_999_999;
/// Fifteen digits 9 each.
pub const GREATEST_ACCOUNT: u64 = 999_999_999_999_999;
pub const GREATEST_FIGURE: u64 = 999_999_999_999_999;
/// Rows of a sheet behind these do not count.
pub const COUNTED_SHEET_ROWS: usize = 100_000;

// ---- Claims ----

#[derive(Clone, Copy, Debug, PartialEq, Eq)]
pub struct Customer {
    pub high: u64,
    pub low: u64,
}

/// The four parts of a claim before anybody has looked at their widths. A sheet row has them too.
#[derive(Clone, Copy, Debug, PartialEq, Eq)]
pub struct Parts {
    pub biller: u64,
    pub account: u64,
    pub customer: Customer,
    pub amount: u64,
}

/// Parts that keep their widths; there is no other way to a claim than `Claim::new`.
#[derive(Clone, Copy, Debug, PartialEq, Eq)]
pub struct Claim {
    parts: Parts,
}

impl Claim {
    pub fn new(parts: Parts) -> Result<Claim, Denial> {
        keep_width(parts.biller, GREATEST_BILLER)?;
        keep_width(parts.account, GREATEST_ACCOUNT)?;
        keep_width(parts.customer.high, GREATEST_HALF)?;
        keep_width(parts.customer.low, GREATEST_HALF)?;
        if !is_amount(parts.amount) {
            return Err(outside_width());
        }
        Ok(Claim { parts })
    }

    pub fn parts(&self) -> &Parts {
        &self.parts
    }
}

/// Denies a number that is above the greatest of its width.
pub fn keep_width(number: u64, greatest: u64) -> Result<(), Denial> {
    if number > greatest {
        return Err(outside_width());
    }
    Ok(())
}

fn is_amount(number: u64) -> bool {
    (1..=GREATEST_AMOUNT).contains(&number)
}

const fn outside_width() -> Denial {
    Denial::without_place(24)
}

// ---- Result codes ----

#[derive(Clone, Copy, Debug, PartialEq, Eq)]
pub enum ResultCode {
    Settled,
    ShortOfFunds,
    NoAccount,
    StoppedByHolder,
    NoMandate,
    StoppedByBiller,
    Other,
}

const RESULT_CODES: [ResultCode; 7] = [
    ResultCode::Settled,
    ResultCode::ShortOfFunds,
    ResultCode::NoAccount,
    ResultCode::StoppedByHolder,
    ResultCode::NoMandate,
    ResultCode::StoppedByBiller,
    ResultCode::Other,
];

impl ResultCode {
    pub fn number(self) -> u8 {
        match self {
            ResultCode::Settled => 0,
            ResultCode::ShortOfFunds => 1,
            ResultCode::NoAccount => 2,
            ResultCode::StoppedByHolder => 3,
            ResultCode::NoMandate => 4,
            ResultCode::StoppedByBiller => 8,
            ResultCode::Other => 9,
        }
    }

    /// None for a number that is none of the seven.
    fn with_number(number: u8) -> Option<ResultCode> {
        RESULT_CODES
            .into_iter()
            .find(|code| code.number() == number)
    }
}

// ---- Hosts ----

pub trait Host {
    /// What a debit of this claim would answer now.
    fn verdict(&self, claim: &Claim) -> ResultCode;

    /// What was taken from this account so far.
    fn taken(&self, account: u64) -> u64;

    /// Answers the verdict and, if it is 0, takes the amount.
    fn debit(&mut self, claim: &Claim) -> ResultCode;
}

// ---- The ledger ----

struct LedgerRow {
    account: u64,
    balance: u64,
    taken: u64,
}

#[derive(Default)]
pub struct Ledger {
    rows: Vec<LedgerRow>,
}

impl Ledger {
    /// Adds a last row of which nothing is taken yet. An account that stands further up hides it.
    pub fn add(&mut self, account: u64, balance: u64) {
        self.rows.push(LedgerRow {
            account,
            balance,
            taken: 0,
        });
    }

    fn first_row(&self, account: u64) -> Option<&LedgerRow> {
        self.rows.iter().find(|row| row.account == account)
    }
}

impl LedgerRow {
    fn verdict(&self, amount: u64) -> ResultCode {
        if self.balance < amount {
            return ResultCode::ShortOfFunds;
        }
        match self.taken.checked_add(amount) {
            Some(raised) if raised <= GREATEST_FIGURE => ResultCode::Settled,
            _ => ResultCode::Other,
        }
    }
}

impl Host for Ledger {
    fn verdict(&self, claim: &Claim) -> ResultCode {
        let parts = claim.parts();
        self.first_row(parts.account)
            .map_or(ResultCode::NoAccount, |row| row.verdict(parts.amount))
    }

    fn taken(&self, account: u64) -> u64 {
        self.first_row(account).map_or(0, |row| row.taken)
    }

    fn debit(&mut self, claim: &Claim) -> ResultCode {
        let Parts {
            account, amount, ..
        } = *claim.parts();
        let mut rows = self.rows.iter_mut();
        let Some(row) = rows.find(|row| row.account == account) else {
            return ResultCode::NoAccount;
        };
        let verdict = row.verdict(amount);
        if verdict == ResultCode::Settled {
            row.balance -= amount;
            row.taken += amount;
        }
        verdict
    }
}

// ---- The sheet ----

struct SheetRow {
    parts: Parts,
    code: u8,
    spent: bool,
}

#[derive(Default)]
pub struct Sheet {
    rows: Vec<SheetRow>,
}

impl Sheet {
    pub fn add(&mut self, parts: Parts, code: u8) {
        self.rows.push(SheetRow {
            parts,
            code,
            spent: false,
        });
    }

    fn counted(&self) -> impl Iterator<Item = &SheetRow> {
        self.rows.iter().take(COUNTED_SHEET_ROWS)
    }
}

impl SheetRow {
    fn answers(&self, claim: &Claim) -> bool {
        !self.spent && self.parts == *claim.parts()
    }

    fn verdict(&self) -> ResultCode {
        ResultCode::with_number(self.code).unwrap_or(ResultCode::Other)
    }

    /// Code and amount are tested too: a spent mark alone does not say that a claim settled here.
    fn counts_as_taken(&self, account: u64) -> bool {
        self.spent
            && self.parts.account == account
            && self.code == 0
            && is_amount(self.parts.amount)
    }
}

impl Host for Sheet {
    fn verdict(&self, claim: &Claim) -> ResultCode {
        self.counted()
            .find(|row| row.answers(claim))
            .map_or(ResultCode::Other, SheetRow::verdict)
    }

    fn taken(&self, account: u64) -> u64 {
        self.counted()
            .filter(|row| row.counts_as_taken(account))
            .map(|row| row.parts.amount)
            .sum()
    }

    fn debit(&mut self, claim: &Claim) -> ResultCode {
        let mut counted = self.rows.iter_mut().take(COUNTED_SHEET_ROWS);
        let Some(row) = counted.find(|row| row.answers(claim)) else {
            return ResultCode::Other;
        };
        let verdict = row.verdict();
        // A row that does not settle goes on answering.
        row.spent = verdict == ResultCode::Settled;
        verdict
    }
}
