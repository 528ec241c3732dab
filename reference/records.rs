// Writes well-formed records and lawful files, field by field from left to right.
// Everything that a field may choose freely is drawn from the generator.

use crate::random::Random;

/// The bytes at the edges of each run of class C, where a range that is cut wrongly shows.
pub const EDGE_CHARACTERS: [u8; 13] = [
    b' ', b'(', b')', b'-', b'.', b'0', b'9', b'A', b'Z', 0xB1, 0xDD, 0xDE, 0xDF,
];

/// Deposit types that a header and a data record may name.
pub const HEADER_DEPOSITS: [u8; 3] = *b"129";
pub const DATA_DEPOSITS: [u8; 4] = *b"1239";
pub const NEW_CODES: [u8; 3] = *b"012";

/// The greatest amount of one data record: ten digits 9.
pub const GREATEST_AMOUNT: u64 = 9_999_999_999;
/// The first amount that a trailer's twelve digits cannot state.
pub const TWELVE_DIGITS: u64 = 1_000_000_000_000;

const DAYS_IN_MONTH: [u64; 12] = [31, 29, 31, 30, 31, 30, 31, 31, 30, 31, 30, 31];

pub type Record = Vec<u8>;

/// All 366 dates as month × 100 + day.
pub fn every_date() -> Vec<u64> {
    let months = (1..).zip(DAYS_IN_MONTH);
    months
        .flat_map(|(month, days)| (1..=days).map(move |day| month * 100 + day))
        .collect()
}

pub fn header(random: &mut Random, date: u64) -> Record {
    [
        b"1910".to_vec(),
        digits(random, 10),
        name(random, 40),
        zero_filled(date, 4),
        digits(random, 4),
        name(random, 15),
        digits(random, 3),
        name(random, 15),
        vec![random.pick(&HEADER_DEPOSITS)],
        digits(random, 7),
        spaces(17),
    ]
    .concat()
}

pub fn data(random: &mut Random, amount: u64) -> Record {
    [
        b"2".to_vec(),
        digits(random, 4),
        name(random, 15),
        digits(random, 3),
        name(random, 15),
        spaces(4),
        vec![random.pick(&DATA_DEPOSITS)],
        digits(random, 7),
        name(random, 30),
        zero_filled(amount, 10),
        vec![random.pick(&NEW_CODES)],
        digits(random, 20),
        b"0".to_vec(),
        spaces(8),
    ]
    .concat()
}

pub fn trailer(count: u64, amount: u64) -> Record {
    [
        b"8".to_vec(),
        zero_filled(count, 6),
        zero_filled(amount, 12),
        vec![b'0'; 36],
        spaces(65),
    ]
    .concat()
}

pub fn end() -> Record {
    [b"9".to_vec(), spaces(119)].concat()
}

/// A group of a header, a data record for each amount, and the trailer that states them.
pub fn group(random: &mut Random, amounts: &[u64]) -> Vec<Record> {
    let sum: u64 = amounts.iter().sum();
    group_stating(random, amounts, amounts.len() as u64, sum)
}

/// The same with a trailer that states what the caller wants.
pub fn group_stating(random: &mut Random, amounts: &[u64], count: u64, amount: u64) -> Vec<Record> {
    let date = random.pick(&every_date());
    let mut records = vec![header(random, date)];
    records.extend(amounts.iter().map(|&amount| data(random, amount)));
    records.push(trailer(count, amount));
    records
}

/// A lawful file with one group for each list of amounts.
pub fn file(random: &mut Random, groups: &[Vec<u64>]) -> Vec<Record> {
    let mut records: Vec<Record> = groups
        .iter()
        .flat_map(|amounts| group(random, amounts))
        .collect();
    records.push(end());
    records
}

/// A lawful file of one to four groups with none to six data records each.
pub fn some_file(random: &mut Random) -> Vec<Record> {
    let groups: Vec<Vec<u64>> = (0..=random.below(4))
        .map(|_| (0..random.below(7)).map(|_| some_amount(random)).collect())
        .collect();
    file(random, &groups)
}

/// An amount of one to ten digits, each number of digits as often as another; sometimes the greatest.
pub fn some_amount(random: &mut Random) -> u64 {
    if random.below(16) == 0 {
        return GREATEST_AMOUNT;
    }
    let width = 1 + random.below(10) as u32;
    1 + random.below(10_u64.pow(width) - 1)
}

/// A number with leading zeros. A number that does not fit would shift every later column.
pub fn zero_filled(number: u64, width: usize) -> Vec<u8> {
    let text = format!("{number:0width$}");
    assert_eq!(text.len(), width, "{number} does not fit its field");
    text.into_bytes()
}

fn spaces(length: usize) -> Vec<u8> {
    vec![b' '; length]
}

fn digits(random: &mut Random, length: usize) -> Vec<u8> {
    (0..length).map(|_| random.pick(b"0123456789")).collect()
}

/// A name in one of several tastes, filled up with spaces.
fn name(random: &mut Random, width: usize) -> Vec<u8> {
    let taste = random.below(5);
    let length = random.place(width + 1);
    let mut bytes: Vec<u8> = (0..length).map(|_| character(random, taste)).collect();
    bytes.resize(width, b' ');
    bytes
}

fn character(random: &mut Random, taste: u64) -> u8 {
    let kana = 0xB1 + random.place(0xDF - 0xB1 + 1) as u8;
    let letter = random.pick(b"ABCDEFGHIJKLMNOPQRSTUVWXYZ");
    match taste {
        0 => letter,
        1 => kana,
        2 => random.pick(&EDGE_CHARACTERS),
        3 => random.pick(&[kana, letter, b' ', b'-', b'.']),
        _ => random.pick(b"0123456789 ()"),
    }
}
