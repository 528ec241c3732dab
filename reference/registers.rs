// The four registers of docs/HOSTS.md with listing and striking, and the pile of them above a bottom host.
// It was written from docs/ without the engine's code.

use crate::format::Denial;
use crate::hosts::{
    keep_width, Claim, Customer, Host, ResultCode, GREATEST_ACCOUNT, GREATEST_BILLER, GREATEST_HALF,
};

pub const MOST_REGISTER_ROWS: usize = 256;
/// The greatest amount left in a ceiling; unlike a claim's amount it may also be 0.
const GREATEST_LEFT: u64 = 999_999_999_999_999;

#[derive(Clone, Copy, Debug, PartialEq, Eq)]
pub enum RegisterSort {
    HolderStop,
    BillerStop,
    Mandates,
    Ceiling,
}

/// The parts by which a row is known. No two rows of a register are known by the same.
#[derive(Clone, Copy, Debug, PartialEq, Eq)]
pub enum Known {
    ByAccount { biller: u64, account: u64 },
    ByCustomer { biller: u64, customer: Customer },
    ByBiller { biller: u64 },
}

#[derive(Clone, Copy, Debug, PartialEq, Eq)]
pub struct Row {
    known: Known,
    /// Only the rows of a ceiling have an amount left.
    left: Option<u64>,
}

pub struct Register {
    sort: RegisterSort,
    rows: Vec<Row>,
}

// ---- Listing and striking ----

impl Known {
    fn keep_widths(&self) -> Result<(), Denial> {
        match *self {
            Known::ByAccount { biller, account } => {
                keep_width(biller, GREATEST_BILLER)?;
                keep_width(account, GREATEST_ACCOUNT)
            }
            Known::ByCustomer { biller, customer } => {
                keep_width(biller, GREATEST_BILLER)?;
                keep_width(customer.high, GREATEST_HALF)?;
                keep_width(customer.low, GREATEST_HALF)
            }
            Known::ByBiller { biller } => keep_width(biller, GREATEST_BILLER),
        }
    }
}

impl Register {
    pub fn new(sort: RegisterSort) -> Register {
        Register {
            sort,
            rows: Vec::new(),
        }
    }

    /// The row that these numbers name for listing; none if their count does not fit the sort.
    pub fn row_of(&self, numbers: &[u64]) -> Option<Row> {
        match (self.sort, numbers) {
            (RegisterSort::Ceiling, &[biller, left]) => Some(Row {
                known: Known::ByBiller { biller },
                left: Some(left),
            }),
            (RegisterSort::Ceiling, _) => None,
            _ => self
                .known_of(numbers)
                .map(|known| Row { known, left: None }),
        }
    }

    /// The parts that these numbers name for striking; none if their count does not fit the sort.
    pub fn known_of(&self, numbers: &[u64]) -> Option<Known> {
        match (self.sort, numbers) {
            (RegisterSort::HolderStop | RegisterSort::Mandates, &[biller, account]) => {
                Some(Known::ByAccount { biller, account })
            }
            (RegisterSort::BillerStop, &[biller, high, low]) => {
                let customer = Customer { high, low };
                Some(Known::ByCustomer { biller, customer })
            }
            (RegisterSort::Ceiling, &[biller]) => Some(Known::ByBiller { biller }),
            _ => None,
        }
    }

    pub fn list(&mut self, row: Row) -> Result<(), Denial> {
        row.known.keep_widths()?;
        keep_width(row.left.unwrap_or(0), GREATEST_LEFT)?;
        // A row that is there already needs no place, so this goes before the room.
        if self.place_of(row.known).is_some() {
            return Err(Denial::without_place(32));
        }
        if self.rows.len() >= MOST_REGISTER_ROWS {
            return Err(Denial::without_place(31));
        }
        self.rows.push(row);
        Ok(())
    }

    pub fn strike(&mut self, known: Known) -> Result<(), Denial> {
        known.keep_widths()?;
        let place = self.place_of(known).ok_or(Denial::without_place(33))?;
        self.rows.remove(place);
        Ok(())
    }

    fn place_of(&self, known: Known) -> Option<usize> {
        self.rows.iter().position(|row| row.known == known)
    }
}

// ---- Objecting ----

impl Register {
    /// The parts by which a row on this claim would be known here.
    fn known_by(&self, claim: &Claim) -> Known {
        let parts = claim.parts();
        let biller = parts.biller;
        match self.sort {
            RegisterSort::HolderStop | RegisterSort::Mandates => Known::ByAccount {
                biller,
                account: parts.account,
            },
            RegisterSort::BillerStop => Known::ByCustomer {
                biller,
                customer: parts.customer,
            },
            RegisterSort::Ceiling => Known::ByBiller { biller },
        }
    }

    fn objection(&self, claim: &Claim) -> Option<ResultCode> {
        let place = self.place_of(self.known_by(claim));
        match self.sort {
            RegisterSort::HolderStop => place.map(|_| ResultCode::StoppedByHolder),
            RegisterSort::BillerStop => place.map(|_| ResultCode::StoppedByBiller),
            RegisterSort::Mandates => match place {
                Some(_) => None,
                None => Some(ResultCode::NoMandate),
            },
            RegisterSort::Ceiling => {
                let left = self.rows[place?].left?;
                (left < claim.parts().amount).then_some(ResultCode::Other)
            }
        }
    }

    /// Lowers the biller's ceiling; the claim has settled, so the amount is not above what is left.
    fn lower(&mut self, claim: &Claim) {
        let known = self.known_by(claim);
        for row in self.rows.iter_mut().filter(|row| row.known == known) {
            row.left = row.left.map(|left| left - claim.parts().amount);
        }
    }
}

// ---- The pile ----

/// Registers above a bottom host, lent for one call or more; the first register is the lowest.
pub struct Pile<'a> {
    pub registers: &'a mut [Register],
    pub bottom: &'a mut dyn Host,
}

impl Pile<'_> {
    fn uppermost_objection(&self, claim: &Claim) -> Option<ResultCode> {
        let mut from_the_top = self.registers.iter().rev();
        from_the_top.find_map(|register| register.objection(claim))
    }
}

impl Host for Pile<'_> {
    fn verdict(&self, claim: &Claim) -> ResultCode {
        self.uppermost_objection(claim)
            .unwrap_or_else(|| self.bottom.verdict(claim))
    }

    fn taken(&self, account: u64) -> u64 {
        self.bottom.taken(account)
    }

    fn debit(&mut self, claim: &Claim) -> ResultCode {
        if let Some(code) = self.uppermost_objection(claim) {
            return code;
        }
        let code = self.bottom.debit(claim);
        if code == ResultCode::Settled {
            for register in self.registers.iter_mut() {
                register.lower(claim);
            }
        }
        code
    }
}
