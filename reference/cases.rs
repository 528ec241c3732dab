// The families of generated bare files on which the two implementations are compared.
// Every family draws from its own generator, so that one family can change without moving the others.

use crate::damage;
use crate::format::{MOST_RECORDS, RECORD_LENGTH};
use crate::random::Random;
use crate::records::{self, Record, GREATEST_AMOUNT, TWELVE_DIGITS};

/// What the caller does with each generated file.
pub type Judge<'a> = dyn FnMut(&[u8]) + 'a;

pub struct Settings {
    /// How many files the family of random damage has; a tenth as many lawful ones are drawn.
    pub random_cases: u64,
    /// Where the generator starts.
    pub start: u64,
}

/// How many files of a family have to be lawful, so that a family cannot test less than it says.
pub enum Lawful {
    All,
    Exactly(u64),
    AtLeastOne,
}

pub struct Family {
    pub name: &'static str,
    pub lawful: Lawful,
    make: fn(&Settings, &mut Random, &mut Judge),
}

impl Family {
    /// Hands every file of the family to the judge. The name's bytes set its generator apart.
    pub fn each(&self, settings: &Settings, judge: &mut Judge) {
        let mix = |sum: u64, byte| sum.wrapping_mul(257).wrapping_add(u64::from(byte));
        let own = self.name.bytes().fold(0, mix);
        let mut random = Random::new(settings.start.wrapping_add(own));
        (self.make)(settings, &mut random, judge);
    }
}

pub const FAMILIES: [Family; 10] = [
    Family {
        name: "lawful files",
        lawful: Lawful::All,
        make: lawful_files,
    },
    Family {
        name: "every single byte changed",
        lawful: Lawful::AtLeastOne,
        make: single_bytes,
    },
    Family {
        name: "two faults in one record",
        lawful: Lawful::AtLeastOne,
        make: double_faults,
    },
    Family {
        name: "order of records",
        lawful: Lawful::AtLeastOne,
        make: orders,
    },
    Family {
        name: "trailer figures",
        lawful: Lawful::AtLeastOne,
        make: trailer_figures,
    },
    Family {
        name: "all four digits as a date",
        lawful: Lawful::Exactly(366),
        make: dates,
    },
    Family {
        name: "lengths",
        lawful: Lawful::AtLeastOne,
        make: lengths,
    },
    Family {
        name: "sums around twelve digits",
        lawful: Lawful::AtLeastOne,
        make: great_sums,
    },
    Family {
        name: "around 10,000 records",
        lawful: Lawful::AtLeastOne,
        make: many_records,
    },
    Family {
        name: "random damage",
        lawful: Lawful::AtLeastOne,
        make: random_damage,
    },
];

/// Overwrites bytes of a record from a column on; columns count from 1.
pub fn put(record: &mut Record, column: usize, bytes: &[u8]) {
    record[column - 1..column - 1 + bytes.len()].copy_from_slice(bytes);
}

// ---- Lawful files ----

fn lawful_files(settings: &Settings, random: &mut Random, judge: &mut Judge) {
    for date in records::every_date() {
        let group = [
            records::header(random, date),
            records::trailer(0, 0),
            records::end(),
        ];
        judge(&group.concat());
    }
    every_choice(random, judge);
    filled_fields(random, judge);
    for groups in 1..=20 {
        judge(&records::file(random, &vec![vec![]; groups]).concat());
        judge(&records::file(random, &vec![vec![1, GREATEST_AMOUNT]; groups]).concat());
    }
    for _ in 0..settings.random_cases / 10 {
        judge(&records::some_file(random).concat());
    }
}

/// Every deposit type of both records with every new code.
fn every_choice(random: &mut Random, judge: &mut Judge) {
    for header_deposit in records::HEADER_DEPOSITS {
        for data_deposit in records::DATA_DEPOSITS {
            for new_code in records::NEW_CODES {
                let mut file = records::file(random, &[vec![15]]);
                put(&mut file[0], 96, &[header_deposit]);
                put(&mut file[1], 43, &[data_deposit]);
                put(&mut file[1], 91, &[new_code]);
                judge(&file.concat());
            }
        }
    }
}

/// All name fields filled with one byte, all free number fields with one digit.
fn filled_fields(random: &mut Random, judge: &mut Judge) {
    let header_names = [(15, 40), (63, 15), (81, 15)];
    let data_names = [(6, 15), (24, 15), (51, 30)];
    for byte in records::EDGE_CHARACTERS {
        let mut file = records::file(random, &[vec![7]]);
        fill(&mut file[0], &header_names, byte);
        fill(&mut file[1], &data_names, byte);
        judge(&file.concat());
    }
    let header_numbers = [(5, 10), (59, 4), (78, 3), (97, 7)];
    let data_numbers = [(2, 4), (21, 3), (44, 7), (92, 20)];
    for digit in b'0'..=b'9' {
        let mut file = records::file(random, &[vec![7]]);
        fill(&mut file[0], &header_numbers, digit);
        fill(&mut file[1], &data_numbers, digit);
        judge(&file.concat());
    }
}

/// Fills stretches of a record, each given by its first column and its width.
fn fill(record: &mut Record, stretches: &[(usize, usize)], byte: u8) {
    for &(column, width) in stretches {
        put(record, column, &vec![byte; width]);
    }
}

// ---- Single bytes and order ----

/// Five records, each of their 600 bytes changed to each of the 255 other values.
fn single_bytes(_: &Settings, random: &mut Random, judge: &mut Judge) {
    let mut bare = records::file(random, &[vec![1_500, 700]]).concat();
    for place in 0..bare.len() {
        let right = bare[place];
        for wrong in (0..=255).filter(|&byte| byte != right) {
            bare[place] = wrong;
            judge(&bare);
        }
        bare[place] = right;
    }
}

/// The file itself first, then each of its records with two faults of which one has to come first.
fn double_faults(_: &Settings, random: &mut Random, judge: &mut Judge) {
    let file = records::file(random, &[vec![1_500, 700]]);
    judge(&file.concat());
    for place in 0..file.len() {
        damage::each_double_fault(&file, place, judge);
    }
}

fn orders(_: &Settings, random: &mut Random, judge: &mut Judge) {
    // Five choices a record: the four sorts and one of no sort.
    for length in 3..=6 {
        for code in 0..5_u32.pow(length) {
            judge(&sequence(random, code, length).concat());
        }
    }
    let shapes = [
        vec![vec![]],
        vec![vec![5], vec![]],
        vec![vec![], vec![3, 4]],
        vec![vec![1, 2, 3], vec![4, 5]],
    ];
    for shape in shapes {
        let file = records::file(random, &shape);
        damage::each_disorder(&file, judge);
        each_first_byte(&file, judge);
        each_stranger(random, &file, judge);
    }
}

/// Well-formed records in the order that the digits of a code to base 5 tell.
/// Trailers state what came since the last header, so that nothing but the order is wrong.
fn sequence(random: &mut Random, mut code: u32, length: u32) -> Vec<Record> {
    let (mut count, mut amount) = (0, 0);
    let mut file = Vec::new();
    for _ in 0..length {
        match code % 5 {
            0 => {
                (count, amount) = (0, 0);
                file.push(records::header(random, 1231));
            }
            1 => {
                (count, amount) = (count + 1, amount + 10);
                file.push(records::data(random, 10));
            }
            2 => file.push(records::trailer(count, amount)),
            3 => file.push(records::end()),
            _ => file.push(vec![b' '; RECORD_LENGTH]),
        }
        code /= 5;
    }
    file
}

/// Every record with every first byte.
fn each_first_byte(file: &[Record], judge: &mut Judge) {
    for place in 0..file.len() {
        for first in 0..=255 {
            let mut changed = file.to_vec();
            changed[place][0] = first;
            judge(&changed.concat());
        }
    }
}

/// A good record of each sort put before every record and in the place of every record.
fn each_stranger(random: &mut Random, file: &[Record], judge: &mut Judge) {
    let strangers = [
        records::header(random, 229),
        records::data(random, 1),
        records::trailer(0, 0),
        records::end(),
    ];
    for stranger in strangers {
        for place in 0..=file.len() {
            let mut longer = file.to_vec();
            longer.insert(place, stranger.clone());
            judge(&longer.concat());
        }
        for place in 0..file.len() {
            let mut replaced = file.to_vec();
            replaced[place] = stranger.clone();
            judge(&replaced.concat());
        }
    }
}

// ---- Trailer figures ----

/// Three groups of different figures, many times; each trailer in turn states something else.
fn trailer_figures(_: &Settings, random: &mut Random, judge: &mut Judge) {
    for _ in 0..15 {
        let mut groups: Vec<Vec<u64>> = Vec::new();
        for most in [3, 6, 12] {
            let count = random.below(most);
            groups.push((0..count).map(|_| records::some_amount(random)).collect());
        }
        let file = records::file(random, &groups);
        judge(&file.concat());
        zero_amounts(random, &groups, judge);
        let trailers: Vec<usize> = (0..file.len())
            .filter(|&place| file[place][0] == b'8')
            .collect();
        for (group, &place) in trailers.iter().enumerate() {
            for (count, amount) in other_figures(&groups, group) {
                let mut changed = file.clone();
                changed[place] = records::trailer(count, amount);
                judge(&changed.concat());
            }
            each_figure_edit(&file, place, judge);
        }
    }
}

/// One amount of 0 more in each group: all totals are right, but a data record may not hold it.
fn zero_amounts(random: &mut Random, groups: &[Vec<u64>], judge: &mut Judge) {
    for place in 0..groups.len() {
        let mut changed = groups.to_vec();
        changed[place].push(0);
        judge(&records::file(random, &changed).concat());
    }
}

fn figures(groups: &[Vec<u64>]) -> (u64, u64) {
    let amounts = groups.iter().flatten();
    (amounts.clone().count() as u64, amounts.sum())
}

/// Figures near the right ones, of other groups, of several groups at once, and right ones too.
/// Those that differ by a power of two show a number that is kept in too few bits.
fn other_figures(groups: &[Vec<u64>], group: usize) -> Vec<(u64, u64)> {
    let (count, amount) = figures(&groups[group..=group]);
    let mut stated = vec![
        (0, 0),
        (count, 0),
        (0, amount),
        (count, amount),
        (999_999, TWELVE_DIGITS - 1),
    ];
    for first in 0..groups.len() {
        for last in first..groups.len() {
            let (other_count, other_amount) = figures(&groups[first..=last]);
            stated.extend([
                (other_count, other_amount),
                (other_count, amount),
                (count, other_amount),
            ]);
        }
    }
    for distance in [1, 1 << 8, 1 << 16] {
        stated.extend([
            (count + distance, amount),
            (count.saturating_sub(distance), amount),
        ]);
    }
    for distance in [1, 10, 1 << 16, 1 << 31, 1 << 32, 1 << 33, 100_000_000_000] {
        stated.extend([
            (count, amount + distance),
            (count, amount.saturating_sub(distance)),
        ]);
        stated.push((count + 1, amount + distance));
    }
    stated
}

/// Each two neighbouring digits swapped and each digit replaced, in all six figures of a trailer.
fn each_figure_edit(file: &[Record], place: usize, judge: &mut Judge) {
    // The figures stand in columns 2 to 55, which are the offsets 1 to 54.
    for offset in 1..55 {
        let mut changed = file.to_vec();
        if offset < 54 {
            changed[place].swap(offset, offset + 1);
            judge(&changed.concat());
            changed[place].swap(offset, offset + 1);
        }
        for digit in b'0'..=b'9' {
            changed[place][offset] = digit;
            judge(&changed.concat());
        }
    }
}

// ---- Dates and lengths ----

fn dates(_: &Settings, random: &mut Random, judge: &mut Judge) {
    let mut file = records::file(random, &[vec![88]]);
    for date in 0..10_000 {
        put(&mut file[0], 55, &records::zero_filled(date, 4));
        judge(&file.concat());
    }
}

fn lengths(_: &Settings, random: &mut Random, judge: &mut Judge) {
    for fill in [b' ', b'9', b'1', 0x00, 0x1A, 0xFF] {
        for length in [
            0, 1, 119, 120, 121, 239, 240, 241, 359, 360, 361, 479, 480, 481,
        ] {
            judge(&vec![fill; length]);
        }
    }
    // Every length of lawful bytes, from none to a good record too many.
    for shape in [vec![vec![]], vec![vec![2, 3], vec![4]]] {
        let mut file = records::file(random, &shape);
        file.push(records::end());
        let bytes = file.concat();
        for length in 0..=bytes.len() {
            judge(&bytes[..length]);
            judge(&bytes[bytes.len() - length..]);
        }
    }
}

// ---- Great sums ----

/// 100 greatest amounts still fit twelve digits, 101 do not, and then no trailer is right.
fn great_sums(_: &Settings, random: &mut Random, judge: &mut Judge) {
    let most = vec![GREATEST_AMOUNT; 100];
    // 100 more is exactly the first sum of 13 digits; 99 more is the last sum of twelve.
    let last_lawful = [most.clone(), vec![99]].concat();
    let first_too_great = [most.clone(), vec![100]].concat();
    let one_more = vec![GREATEST_AMOUNT; 101];
    let far_too_great = vec![GREATEST_AMOUNT; 1_000];
    for amounts in [most, last_lawful, first_too_great, one_more, far_too_great] {
        judge_statements(random, &amounts, judge);
    }
    // Whole files may come to more than any one trailer can state.
    judge(&records::file(random, &vec![vec![GREATEST_AMOUNT; 100]; 3]).concat());
}

/// A group with the right count and many amounts: the sum cut to its last or first twelve digits,
/// the sum as a shorter number of bits would hold it, the greatest number, and some of no meaning.
fn judge_statements(random: &mut Random, amounts: &[u64], judge: &mut Judge) {
    let sum: u64 = amounts.iter().sum();
    let mut stated = vec![
        sum % TWELVE_DIGITS,
        TWELVE_DIGITS - 1,
        0,
        sum % (1 << 32),
        sum % (1 << 39),
    ];
    stated.push(if sum < TWELVE_DIGITS {
        sum
    } else {
        sum / 10 % TWELVE_DIGITS
    });
    stated.extend((0..10).map(|_| random.below(TWELVE_DIGITS)));
    let count = amounts.len() as u64;
    for amount in stated {
        let mut file = records::group_stating(random, amounts, count, amount);
        file.push(records::end());
        judge(&file.concat());
    }
    let mut wrong_count = records::group_stating(random, amounts, count + 1, sum % TWELVE_DIGITS);
    wrong_count.push(records::end());
    judge(&wrong_count.concat());
}

// ---- Around 10,000 records ----

fn many_records(_: &Settings, random: &mut Random, judge: &mut Judge) {
    // Header, trailer and end record leave 9,997 data records, and one record more is one too many.
    for data_records in [9_996, 9_997, 9_998] {
        let amounts: Vec<u64> = (0..data_records)
            .map(|_| 1 + random.below(50_000_000))
            .collect();
        judge(&records::file(random, &[amounts]).concat());
    }
    // 4,998 empty groups, one with a single data record, and the end record: 10,000 again.
    let mut groups = vec![vec![]; 4_998];
    groups.push(vec![1]);
    let full = records::file(random, &groups);
    judge(&full.concat());
    unended_files(random, judge);
    late_faults(&full, judge);
    long_rubbish(&full.concat(), judge);
}

/// 10,000 good records that miss their end record, after a trailer and inside a group.
fn unended_files(random: &mut Random, judge: &mut Judge) {
    let mut unended = records::group(random, &vec![1; MOST_RECORDS - 2]);
    judge(&unended.concat());
    unended[MOST_RECORDS - 1] = records::data(random, 1);
    judge(&unended.concat());
}

/// Faults in the last records of a full file, where the record number has five digits.
fn late_faults(full: &[Record], judge: &mut Judge) {
    for (back, column, byte) in [
        (1, 120, b'0'),
        (1, 1, b'8'),
        (2, 19, b'9'),
        (2, 7, b'9'),
        (3, 112, b'1'),
    ] {
        let mut file = full.to_vec();
        let place = file.len() - back;
        put(&mut file[place], column, &[byte]);
        judge(&file.concat());
    }
}

/// Lengths around and above 1,200,000 bytes, of a full lawful file with more behind it and of rubbish.
fn long_rubbish(full: &[u8], judge: &mut Judge) {
    for length in [
        full.len() - 120,
        full.len() - 1,
        full.len() + 1,
        full.len() + 119,
    ] {
        let mut bytes = full.to_vec();
        bytes.resize(length, b' ');
        judge(&bytes);
    }
    for length in [
        1_200_000, 1_200_001, 1_200_120, 1_200_121, 1_200_239, 1_200_240, 2_400_000, 2_400_060,
    ] {
        let mut bytes = full.to_vec();
        bytes.resize(length, b'9');
        judge(&bytes);
        judge(&vec![0; length]);
    }
}

// ---- Random damage ----

fn random_damage(settings: &Settings, random: &mut Random, judge: &mut Judge) {
    // One file stays whole, so that the family has a lawful one however few are wanted.
    judge(&records::some_file(random).concat());
    for _ in 0..settings.random_cases {
        let mut file = records::some_file(random);
        for _ in 0..1 + random.below(4) {
            damage::damage(random, &mut file);
        }
        let mut bytes = file.concat();
        if random.below(200) == 0 {
            bytes.truncate(bytes.len().saturating_sub(1 + random.place(3)));
        }
        judge(&bytes);
    }
}
