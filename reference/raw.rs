// The raw forms that one bare file can arrive in: every style of line ends, with and without a last 1Ah.

use crate::format::RECORD_LENGTH;

#[derive(Clone, Copy, Debug, PartialEq, Eq)]
pub enum LineEnd {
    CrLf,
    Lf,
    Cr,
    /// The records follow each other without a line end.
    None,
    /// Line ends of all kinds inside the records, before the first byte and doubled.
    MidRecord,
}

const LINE_ENDS: [LineEnd; 5] = [
    LineEnd::CrLf,
    LineEnd::Lf,
    LineEnd::Cr,
    LineEnd::None,
    LineEnd::MidRecord,
];

/// All ten raw forms of a bare file.
pub fn every_form(bare: &[u8]) -> Vec<Vec<u8>> {
    let forms = LINE_ENDS
        .iter()
        .flat_map(|&line_end| [false, true].map(|file_end| form(bare, line_end, file_end)));
    forms.collect()
}

/// One raw form. The bare bytes may be of any length.
pub fn form(bare: &[u8], line_end: LineEnd, file_end: bool) -> Vec<u8> {
    let mut raw = match line_end {
        LineEnd::CrLf => with_ends(bare, b"\r\n"),
        LineEnd::Lf => with_ends(bare, b"\n"),
        LineEnd::Cr => with_ends(bare, b"\r"),
        LineEnd::None => bare.to_vec(),
        LineEnd::MidRecord => with_scattered_ends(bare),
    };
    if file_end {
        raw.push(0x1A);
    }
    raw
}

fn with_ends(bare: &[u8], line_end: &[u8]) -> Vec<u8> {
    let lines = bare
        .chunks(RECORD_LENGTH)
        .map(|record| [record, line_end].concat());
    lines.flatten().collect()
}

/// 17 does not divide 120, so the line ends wander through the columns from record to record.
fn with_scattered_ends(bare: &[u8]) -> Vec<u8> {
    let ends: [&[u8]; 4] = [b"\r\n", b"\n\n", b"\r", b"\n\r\r"];
    let mut raw = b"\n".to_vec();
    for (number, piece) in bare.chunks(17).enumerate() {
        raw.extend_from_slice(piece);
        raw.extend_from_slice(ends[number % ends.len()]);
    }
    raw
}
