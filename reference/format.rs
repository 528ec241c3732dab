// The request file as docs/FORMAT.md tells it, written a second time: carrier, layouts, order and check.
// It was written from docs/ without the engine's code, so that a slip in one of the two shows as a disagreement.

/// Bytes in one record.
pub const RECORD_LENGTH: usize = 120;
/// A file has at least a header, a trailer and an end record.
pub const FEWEST_RECORDS: usize = 3;
pub const MOST_RECORDS: usize = 10_000;

const CARRIAGE_RETURN: u8 = 0x0D;
const LINE_FEED: u8 = 0x0A;
/// The byte that some systems write after the last line of a text file.
const FILE_END: u8 = 0x1A;

/// Why a file is refused, and where. Records and columns count from 1; 0 means that there is no place.
#[derive(Clone, Copy, Debug, PartialEq, Eq)]
pub struct Denial {
    pub number: u64,
    pub record: u64,
    pub column: u64,
}

impl Denial {
    pub const fn without_place(number: u64) -> Denial {
        Denial {
            number,
            record: 0,
            column: 0,
        }
    }
}

/// The parts of a lawful file that its summary tells.
#[derive(Debug, PartialEq, Eq)]
pub struct Request {
    pub records: usize,
    pub groups: Vec<Group>,
}

/// One biller's group: whose it is, when it is drawn, and what its data records come to.
#[derive(Debug, PartialEq, Eq)]
pub struct Group {
    pub biller_code: String,
    pub month: u64,
    pub day: u64,
    pub count: u64,
    pub amount: u64,
}

// ---- Carrier ----

fn keep_length_rule(length: usize) -> Result<(), Denial> {
    if length < FEWEST_RECORDS * RECORD_LENGTH || !length.is_multiple_of(RECORD_LENGTH) {
        return Err(Denial::without_place(11));
    }
    if length / RECORD_LENGTH > MOST_RECORDS {
        return Err(Denial::without_place(12));
    }
    Ok(())
}

/// Takes line ends and one last 1Ah away and gives the bare file, if its length is right.
pub fn unpack(raw: &[u8]) -> Result<Vec<u8>, Denial> {
    let text = raw.strip_suffix(&[FILE_END]).unwrap_or(raw);
    let bare: Vec<u8> = text
        .iter()
        .copied()
        .filter(|&byte| byte != CARRIAGE_RETURN && byte != LINE_FEED)
        .collect();
    keep_length_rule(bare.len())?;
    Ok(bare)
}

/// Puts a line end after every record; the bytes themselves are not looked at.
pub fn pack(bare: &[u8]) -> Result<Vec<u8>, Denial> {
    keep_length_rule(bare.len())?;
    let mut raw = Vec::new();
    for record in bare.chunks(RECORD_LENGTH) {
        raw.extend_from_slice(record);
        raw.extend_from_slice(&[CARRIAGE_RETURN, LINE_FEED]);
    }
    Ok(raw)
}

// ---- Fields ----

#[derive(Clone, Copy)]
enum Class {
    Number,
    Characters,
    Filler,
}

impl Class {
    fn holds(self, byte: u8) -> bool {
        match self {
            Class::Number => byte.is_ascii_digit(),
            Class::Characters => {
                let kana_or_voicing_mark = (0xB1..=0xDF).contains(&byte);
                byte.is_ascii_digit()
                    || byte.is_ascii_uppercase()
                    || kana_or_voicing_mark
                    || b" ()-.".contains(&byte)
            }
            Class::Filler => byte == b' ',
        }
    }
}

#[derive(Clone, Copy)]
enum Rule {
    Free,
    OneOf(&'static [u64]),
    NotZero,
    Date,
}

impl Rule {
    /// Reads the digits only where a rule asks for it: a customer number is too long for 64 bits.
    fn allows(self, digits: &[u8]) -> bool {
        match self {
            Rule::Free => true,
            Rule::OneOf(allowed) => allowed.contains(&number(digits)),
            Rule::NotZero => number(digits) != 0,
            Rule::Date => is_date(number(digits)),
        }
    }
}

/// The decimal number that digits spell. The caller has seen that they are digits.
fn number(digits: &[u8]) -> u64 {
    digits
        .iter()
        .fold(0, |value, digit| value * 10 + u64::from(digit - b'0'))
}

/// Month and day, from four digits read as one number.
fn month_and_day(date: u64) -> (u64, u64) {
    (date / 100, date % 100)
}

/// No year is known, so February has 29 days always.
fn is_date(date: u64) -> bool {
    let (month, day) = month_and_day(date);
    let last_day = match month {
        2 => 29,
        4 | 6 | 9 | 11 => 30,
        1..=12 => 31,
        _ => return false,
    };
    (1..=last_day).contains(&day)
}

/// A field by its first and last column.
struct Field {
    first: usize,
    last: usize,
    class: Class,
    rule: Rule,
}

impl Field {
    fn of<'a>(&self, record: &'a [u8]) -> &'a [u8] {
        &record[self.first - 1..self.last]
    }

    /// The number and column of what is wrong in this field: bytes first, then the rule.
    fn fault(&self, record: &[u8]) -> Option<(u64, usize)> {
        let bytes = self.of(record);
        if let Some(offset) = bytes.iter().position(|&byte| !self.class.holds(byte)) {
            return Some((14, self.first + offset));
        }
        if !self.rule.allows(bytes) {
            return Some((15, self.first));
        }
        None
    }
}

const fn digits(first: usize, last: usize, rule: Rule) -> Field {
    Field {
        first,
        last,
        class: Class::Number,
        rule,
    }
}

const fn text(first: usize, last: usize) -> Field {
    Field {
        first,
        last,
        class: Class::Characters,
        rule: Rule::Free,
    }
}

const fn filler(first: usize, last: usize) -> Field {
    Field {
        first,
        last,
        class: Class::Filler,
        rule: Rule::Free,
    }
}

// ---- Layouts ----

const HEADER: [Field; 13] = [
    digits(1, 1, Rule::OneOf(&[1])),
    digits(2, 3, Rule::OneOf(&[91])),
    digits(4, 4, Rule::OneOf(&[0])),
    digits(5, 14, Rule::Free),
    text(15, 54),
    digits(55, 58, Rule::Date),
    digits(59, 62, Rule::Free),
    text(63, 77),
    digits(78, 80, Rule::Free),
    text(81, 95),
    digits(96, 96, Rule::OneOf(&[1, 2, 9])),
    digits(97, 103, Rule::Free),
    filler(104, 120),
];

const DATA: [Field; 14] = [
    digits(1, 1, Rule::OneOf(&[2])),
    digits(2, 5, Rule::Free),
    text(6, 20),
    digits(21, 23, Rule::Free),
    text(24, 38),
    filler(39, 42),
    digits(43, 43, Rule::OneOf(&[1, 2, 3, 9])),
    digits(44, 50, Rule::Free),
    text(51, 80),
    digits(81, 90, Rule::NotZero),
    digits(91, 91, Rule::OneOf(&[0, 1, 2])),
    digits(92, 111, Rule::Free),
    digits(112, 112, Rule::OneOf(&[0])),
    filler(113, 120),
];

const TRAILER: [Field; 8] = [
    digits(1, 1, Rule::OneOf(&[8])),
    digits(2, 7, Rule::Free),
    digits(8, 19, Rule::Free),
    digits(20, 25, Rule::OneOf(&[0])),
    digits(26, 37, Rule::OneOf(&[0])),
    digits(38, 43, Rule::OneOf(&[0])),
    digits(44, 55, Rule::OneOf(&[0])),
    filler(56, 120),
];

const END: [Field; 2] = [digits(1, 1, Rule::OneOf(&[9])), filler(2, 120)];

// Places in the tables above of the fields that are read again by their meaning.
const BILLER_CODE: &Field = &HEADER[3];
const TRANSFER_DATE: &Field = &HEADER[5];
const DATA_AMOUNT: &Field = &DATA[9];
const COUNT_REQUESTED: &Field = &TRAILER[1];
const AMOUNT_REQUESTED: &Field = &TRAILER[2];

#[derive(Clone, Copy)]
enum Sort {
    Header,
    Data,
    Trailer,
    End,
}

impl Sort {
    fn of(record: &[u8]) -> Option<Sort> {
        match record[0] {
            b'1' => Some(Sort::Header),
            b'2' => Some(Sort::Data),
            b'8' => Some(Sort::Trailer),
            b'9' => Some(Sort::End),
            _ => None,
        }
    }

    fn layout(self) -> &'static [Field] {
        match self {
            Sort::Header => &HEADER,
            Sort::Data => &DATA,
            Sort::Trailer => &TRAILER,
            Sort::End => &END,
        }
    }
}

/// Whether every column belongs to exactly one field in each of the four tables.
pub fn layouts_cover_every_column() -> bool {
    [Sort::Header, Sort::Data, Sort::Trailer, Sort::End]
        .iter()
        .all(|sort| {
            let columns = sort
                .layout()
                .iter()
                .flat_map(|field| field.first..=field.last);
            columns.eq(1..=RECORD_LENGTH)
        })
}

// ---- Order and check ----

#[derive(Clone, Copy, PartialEq, Eq)]
enum Standing {
    AtStart,
    InsideGroup,
    AfterTrailer,
    Ended,
}

impl Standing {
    /// Where the file stands after a record of this sort, if one may come here.
    fn after(self, sort: Sort) -> Option<Standing> {
        match (self, sort) {
            (Standing::AtStart, Sort::Header) => Some(Standing::InsideGroup),
            (Standing::InsideGroup, Sort::Data) => Some(Standing::InsideGroup),
            (Standing::InsideGroup, Sort::Trailer) => Some(Standing::AfterTrailer),
            (Standing::AfterTrailer, Sort::Header) => Some(Standing::InsideGroup),
            (Standing::AfterTrailer, Sort::End) => Some(Standing::Ended),
            _ => None,
        }
    }
}

/// What is known of a file after its first records.
struct Reading {
    standing: Standing,
    groups: Vec<Group>,
}

impl Reading {
    /// Reads one record further, or tells number and column of what is wrong with the record.
    fn read(&mut self, record: &[u8]) -> Result<(), (u64, usize)> {
        let sort = Sort::of(record).ok_or((13, 1))?;
        self.standing = self.standing.after(sort).ok_or((13, 1))?;
        if let Some(fault) = sort.layout().iter().find_map(|field| field.fault(record)) {
            return Err(fault);
        }
        match sort {
            Sort::Header => self.groups.push(open_group(record)),
            Sort::Data => self.add_to_group(record),
            Sort::Trailer => self.compare_totals(record)?,
            Sort::End => {}
        }
        Ok(())
    }

    fn add_to_group(&mut self, record: &[u8]) {
        let group = self
            .groups
            .last_mut()
            .expect("the order lets data come only inside a group");
        group.count += 1;
        // 10,000 amounts of ten digits stay below 10 to the 14th, far inside 64 bits.
        group.amount += number(DATA_AMOUNT.of(record));
    }

    fn compare_totals(&self, record: &[u8]) -> Result<(), (u64, usize)> {
        let group = self
            .groups
            .last()
            .expect("the order lets a trailer come only inside a group");
        if number(COUNT_REQUESTED.of(record)) != group.count {
            return Err((16, COUNT_REQUESTED.first));
        }
        if number(AMOUNT_REQUESTED.of(record)) != group.amount {
            return Err((17, AMOUNT_REQUESTED.first));
        }
        Ok(())
    }
}

fn open_group(header: &[u8]) -> Group {
    let (month, day) = month_and_day(number(TRANSFER_DATE.of(header)));
    let biller_code = BILLER_CODE
        .of(header)
        .iter()
        .map(|&digit| char::from(digit))
        .collect();
    Group {
        biller_code,
        month,
        day,
        count: 0,
        amount: 0,
    }
}

/// Judges a bare file: what it holds if it is lawful, otherwise its first offending place.
pub fn check(bare: &[u8]) -> Result<Request, Denial> {
    keep_length_rule(bare.len())?;
    let mut reading = Reading {
        standing: Standing::AtStart,
        groups: Vec::new(),
    };
    let mut place = 0;
    for record in bare.chunks(RECORD_LENGTH) {
        place += 1;
        reading.read(record).map_err(|(number, column)| Denial {
            number,
            record: place,
            column: column as u64,
        })?;
    }
    if reading.standing != Standing::Ended {
        return Err(Denial {
            number: 13,
            record: place + 1,
            column: 1,
        });
    }
    Ok(Request {
        records: bare.len() / RECORD_LENGTH,
        groups: reading.groups,
    })
}

/// The answer as one number, the way the C call gives it: 0 for a lawful file.
pub fn encode(answer: &Result<Request, Denial>) -> u64 {
    match answer {
        Ok(_) => 0,
        Err(denial) => denial.number * 100_000_000 + denial.record * 1_000 + denial.column,
    }
}
