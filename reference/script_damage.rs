// Damage to one line of a replay script. Most damaged lines are bad ones; some stay lawful and mean something else.

use crate::random::Random;

/// Bytes that are no digit, among them those just beside the digits and line ends of other systems.
const ODD_BYTES: [u8; 16] = [
    b'/', b':', b'-', b'+', b'.', b',', b'_', b'a', b'A', b'\t', b'\r', b'#', 0x00, 0x1A, 0x7F,
    0x0B,
];

/// Fields that other readers of numbers might take.
const ODD_FIELDS: [&str; 12] = [
    "-1", "+1", "1.0", "1,500", "0x10", "1e3", "1_000", "１", "", "five", "1u64", "#",
];

const ODD_WORDS: [&str; 14] = [
    "", "Off", "OFF", "offs", "of", "deposit", "Ledger", "taken:", "sheets", "lists", "1", "use",
    "put", "debit\t",
];

/// The line's bytes with one damage.
pub fn damaged(random: &mut Random, mut fields: Vec<String>) -> Vec<u8> {
    match random.below(4) {
        0 => damage_fields(random, &mut fields),
        1 => return damage_spaces(random, &fields),
        _ => return damage_bytes(random, fields.join(" ").into_bytes()),
    }
    fields.join(" ").into_bytes()
}

/// A number too many or too few, another word, or something that is no number.
fn damage_fields(random: &mut Random, fields: &mut Vec<String>) {
    let place = random.place(fields.len());
    match random.below(6) {
        0 => {
            fields.pop();
        }
        1 => {
            fields.remove(place);
        }
        2 => fields.push("7".to_string()),
        3 => fields.insert(place, fields[place].clone()),
        4 => fields[0] = random.pick(&ODD_WORDS).to_string(),
        _ => fields[place] = random.pick(&ODD_FIELDS).to_string(),
    }
}

fn damage_spaces(random: &mut Random, fields: &[String]) -> Vec<u8> {
    let line = fields.join(" ");
    let text = match random.below(6) {
        0 => format!(" {line}"),
        1 => format!("{line} "),
        2 => line.replacen(' ', "  ", 1),
        3 => line.replacen(' ', "\t", 1),
        4 => line.replace(' ', ""),
        _ => " ".repeat(1 + random.place(3)),
    };
    text.into_bytes()
}

/// Capitals, a byte that does not belong there, or a line that breaks off.
fn damage_bytes(random: &mut Random, mut line: Vec<u8>) -> Vec<u8> {
    let high_byte = 0x80 + random.below(0x80) as u8;
    let low_byte = random.pick(&ODD_BYTES);
    let odd = random.pick(&[low_byte, high_byte]);
    let place = random.place(line.len().max(1));
    match random.below(7) {
        0 => line.make_ascii_uppercase(),
        1 => line[..1].make_ascii_uppercase(),
        2 => line.push(b'\r'),
        3 => line.push(odd),
        4 => line.insert(place, odd),
        5 => line[place] = odd,
        _ => line.truncate(place),
    }
    line
}
