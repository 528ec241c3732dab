// Ways to spoil a file: records put out of order one by one, and random damage of many kinds.

use crate::cases::{put, Judge};
use crate::format::RECORD_LENGTH;
use crate::random::Random;
use crate::records::{self, Record};

/// Values just outside a class, and those that the carrier treats specially.
const OUTSIDE: [u8; 18] = [
    0x00, 0x0A, 0x0D, 0x1A, 0x1F, 0x21, 0x27, 0x2A, 0x2C, 0x2F, 0x3A, 0x40, 0x5B, 0x61, 0xA6, 0xB0,
    0xE0, 0xFF,
];

/// Each record dropped and doubled, each pair swapped, each record moved to each other place.
pub fn each_disorder(file: &[Record], judge: &mut Judge) {
    for place in 0..file.len() {
        let mut shorter = file.to_vec();
        shorter.remove(place);
        judge(&shorter.concat());
        let mut longer = file.to_vec();
        longer.insert(place, file[place].clone());
        judge(&longer.concat());
        for other in 0..file.len() {
            let mut swapped = file.to_vec();
            swapped.swap(place, other);
            judge(&swapped.concat());
            let mut moved = file.to_vec();
            let record = moved.remove(place);
            moved.insert(other, record);
            judge(&moved.concat());
        }
    }
}

/// Stretches of each sort of record that break a rule or a total: first column and bytes.
fn rule_faults(sort: u8) -> Vec<(usize, &'static [u8])> {
    match sort {
        b'1' => vec![
            (2, b"19"),
            (4, b"1"),
            (55, b"0230"),
            (55, b"0001"),
            (96, b"3"),
        ],
        b'2' => vec![(43, b"4"), (81, b"0000000000"), (91, b"3"), (112, b"1")],
        b'8' => vec![
            (2, b"000009"),
            (8, b"000000000009"),
            (20, b"000001"),
            (26, b"100000000000"),
            (38, b"000010"),
            (44, b"000000000001"),
        ],
        _ => Vec::new(),
    }
}

/// Each broken rule of a record together with each other one, and with a byte of no class in each column.
pub fn each_double_fault(file: &[Record], place: usize, judge: &mut Judge) {
    let faults = rule_faults(file[place][0]);
    for (column, bytes) in &faults {
        let mut first = file.to_vec();
        put(&mut first[place], *column, bytes);
        for (other_column, other_bytes) in &faults {
            let mut second = first.clone();
            put(&mut second[place], *other_column, other_bytes);
            judge(&second.concat());
        }
        for other_column in 1..=RECORD_LENGTH {
            let mut second = first.clone();
            put(&mut second[place], other_column, b"*");
            judge(&second.concat());
        }
    }
}

/// One random change. Some of them leave the file lawful, which is wanted.
pub fn damage(random: &mut Random, file: &mut Vec<Record>) {
    if file.is_empty() {
        return;
    }
    match random.below(4) {
        0 => damage_order(random, file),
        1 => damage_run(random, file),
        2 => damage_figures(random, file),
        _ => damage_byte(random, file),
    }
}

fn damage_order(random: &mut Random, file: &mut Vec<Record>) {
    let place = random.place(file.len());
    let other = random.place(file.len());
    match random.below(5) {
        0 => drop(file.remove(place)),
        1 => file.insert(other, file[place].clone()),
        2 => file.swap(place, other),
        3 => file[place] = file[other].clone(),
        _ => file[place][0] = random.pick(b"12890 "),
    }
}

fn damage_byte(random: &mut Random, file: &mut [Record]) {
    let record = random.place(file.len());
    let byte = &mut file[record][random.place(RECORD_LENGTH)];
    *byte = match random.below(4) {
        0 => random.below(256) as u8,
        1 => random.pick(&OUTSIDE),
        2 => random.pick(&records::EDGE_CHARACTERS),
        // A digit for a digit often leaves the file lawful or breaks a rule instead of a class.
        _ if byte.is_ascii_digit() => random.pick(b"0123456789"),
        _ => *byte,
    };
}

/// Several columns at once: from another record, or all the same byte.
fn damage_run(random: &mut Random, file: &mut [Record]) {
    let record = random.place(file.len());
    let first = random.place(RECORD_LENGTH);
    let last = (first + 1 + random.place(20)).min(RECORD_LENGTH);
    let bytes = match random.below(3) {
        0 => file[random.place(file.len())][first..last].to_vec(),
        1 => vec![random.pick(&OUTSIDE); last - first],
        _ => vec![random.pick(b"01239 "); last - first],
    };
    file[record][first..last].copy_from_slice(&bytes);
}

/// A trailer's figures or a data record's amount, so that the totals no longer agree.
fn damage_figures(random: &mut Random, file: &mut [Record]) {
    let record = random.place(file.len());
    match file[record][0] {
        b'2' => {
            // Columns 81 to 90.
            let amount = records::some_amount(random);
            file[record][80..90].copy_from_slice(&records::zero_filled(amount, 10));
        }
        b'8' => {
            // One digit of the figures in columns 2 to 19.
            file[record][1 + random.place(18)] = random.pick(b"0123456789");
        }
        _ => {}
    }
}
