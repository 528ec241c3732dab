// Raw files for the comparison of the two `inspect` programs: lawful and refused, in every raw form.

use crate::format::MOST_RECORDS;
use crate::random::Random;
use crate::raw::{every_form, form, LineEnd};
use crate::records::{self, Record, GREATEST_AMOUNT};

pub struct RawCase {
    pub name: String,
    /// Nothing stands for a missing file.
    pub raw: Option<Vec<u8>>,
}

pub fn every_case() -> Vec<RawCase> {
    let mut random = Random::new(1);
    let mut cases = vec![RawCase {
        name: "missing file".to_string(),
        raw: None,
    }];
    cases.extend(tiny_files());
    for (name, file) in lawful_files(&mut random) {
        cases.extend(in_every_form(name, &file));
    }
    for (name, file) in refused_files(&mut random) {
        cases.extend(in_every_form(name, &file));
    }
    cases.extend(odd_file_ends(&mut random));
    cases.extend(long_files(&mut random));
    cases
}

fn case(name: &str, raw: Vec<u8>) -> RawCase {
    RawCase {
        name: name.to_string(),
        raw: Some(raw),
    }
}

fn in_every_form(name: &str, file: &[Record]) -> Vec<RawCase> {
    let forms = every_form(&file.concat()).into_iter().enumerate();
    forms
        .map(|(number, raw)| case(&format!("{name}, raw form {number}"), raw))
        .collect()
}

fn tiny_files() -> Vec<RawCase> {
    vec![
        case("empty file", vec![]),
        case("1Ah alone", vec![0x1A]),
        case("1Ah twice", vec![0x1A, 0x1A]),
        case("line ends alone", b"\r\n\r\n".to_vec()),
        case("line ends and 1Ah", b"\r\n\x1A".to_vec()),
        case("1Ah before a line end", b"\x1A\r\n".to_vec()),
        case("one byte", b"1".to_vec()),
        case("one zero byte", vec![0]),
    ]
}

fn lawful_files(random: &mut Random) -> Vec<(&'static str, Vec<Record>)> {
    let shapes: [(&str, Vec<Vec<u64>>); 6] = [
        ("one empty group", vec![vec![]]),
        ("one group", vec![vec![1_500, 700]]),
        ("three empty groups", vec![vec![]; 3]),
        (
            "groups of several sizes",
            vec![vec![1], vec![], vec![20, 300, 4_000]],
        ),
        (
            "greatest amounts",
            vec![vec![GREATEST_AMOUNT; 100], vec![GREATEST_AMOUNT]],
        ),
        ("ten groups", vec![vec![7, 8]; 10]),
    ];
    let mut files: Vec<_> = shapes
        .into_iter()
        .map(|(name, shape)| (name, records::file(random, &shape)))
        .collect();
    files.extend((0..6).map(|_| ("drawn file", records::some_file(random))));
    let leap_day = vec![
        records::header(random, 229),
        records::trailer(0, 0),
        records::end(),
    ];
    files.push(("29 February", leap_day));
    files
}

/// One file for each way in which a check can refuse, each a small change of a lawful file.
fn refused_files(random: &mut Random) -> Vec<(&'static str, Vec<Record>)> {
    let right = records::file(random, &[vec![1_500, 700], vec![30]]);
    let changed = |place: usize, column: usize, bytes: &[u8]| {
        let mut file = right.clone();
        file[place][column - 1..column - 1 + bytes.len()].copy_from_slice(bytes);
        file
    };
    // Records of this file: header, two data records, trailer, header, data, trailer, end.
    vec![
        (
            "one byte short",
            [&right[..7], &[records::end()[..119].to_vec()]].concat(),
        ),
        ("one byte too many", [&right[..], &[b" ".to_vec()]].concat()),
        ("two records", right[..2].to_vec()),
        ("no end record", right[..7].to_vec()),
        ("end inside a group", right[..6].to_vec()),
        ("two end records", [&right[..], &[records::end()]].concat()),
        ("header first byte of no sort", changed(0, 1, b"7")),
        ("wrong kind", changed(0, 2, b"92")),
        ("30 February", changed(4, 55, b"0230")),
        ("small letter in a name", changed(1, 51, b"a")),
        ("1Ah in a name", changed(1, 80, &[0x1A])),
        ("zero byte in a filler", changed(7, 120, &[0x00])),
        ("amount 0", changed(2, 81, b"0000000000")),
        ("result code 1", changed(5, 112, b"1")),
        ("settled count", changed(3, 20, b"000002")),
        ("wrong count", changed(3, 2, b"000003")),
        ("wrong amount", changed(6, 8, b"000000000031")),
    ]
}

/// 1Ah where it is not dropped, or where only one of several is.
fn odd_file_ends(random: &mut Random) -> Vec<RawCase> {
    let bare = records::file(random, &[vec![12]]).concat();
    let ends: [&[u8]; 5] = [
        b"\x1A\x1A",
        b"\x1A\r\n",
        b"\x1A\n\x1A",
        b"\r\n\r\n\x1A",
        b" \x1A",
    ];
    let mut cases: Vec<RawCase> = ends
        .iter()
        .map(|end| case(&format!("file end {end:02X?}"), [&bare[..], end].concat()))
        .collect();
    cases.push(case("1Ah first", [b"\x1A", &bare[..]].concat()));
    cases
}

fn long_files(random: &mut Random) -> Vec<RawCase> {
    let small = records::file(random, &[vec![5, 6]]).concat();
    // Header, trailer and end record leave room for 9,997 data records.
    let full = records::file(random, &[vec![1_234_567; MOST_RECORDS - 3]]).concat();
    let one_more = records::file(random, &[vec![1; MOST_RECORDS - 2]]).concat();
    let odd = [&full[..], b" "].concat();
    vec![
        // Raw bytes have no limit: here three million line ends go before a small file.
        case(
            "three million line ends",
            [vec![b'\n'; 3_000_000], small].concat(),
        ),
        case("10,000 records", form(&full, LineEnd::CrLf, true)),
        case(
            "10,000 records, scattered line ends",
            form(&full, LineEnd::MidRecord, false),
        ),
        case("10,001 records", form(&one_more, LineEnd::CrLf, false)),
        case("1,200,001 bytes", form(&odd, LineEnd::None, false)),
    ]
}
