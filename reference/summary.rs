// The lines that `inspect` prints for raw bytes, as the reference sees them.
// For a refused file only the first line is given, because the words of the second are free.

use crate::format::{check, unpack, Denial, Group, Request};

/// All lines for a lawful file, the first line for a refused one; every line ends with a line feed.
pub fn lines(raw: &[u8]) -> String {
    match unpack(raw).and_then(|bare| check(&bare)) {
        Ok(request) => lawful_lines(&request),
        Err(denial) => refused_line(&denial),
    }
}

fn lawful_lines(request: &Request) -> String {
    let count: u64 = request.groups.iter().map(|group| group.count).sum();
    let amount: u64 = request.groups.iter().map(|group| group.amount).sum();
    let groups = request.groups.len();
    let first = format!("LAWFUL {} {groups} {count} {amount}\n", request.records);
    let rest: String = request.groups.iter().map(group_line).collect();
    first + &rest
}

fn group_line(group: &Group) -> String {
    let Group {
        biller_code,
        month,
        day,
        count,
        amount,
    } = group;
    format!("{biller_code} {month:02}/{day:02} {count} {amount}\n")
}

fn refused_line(denial: &Denial) -> String {
    format!(
        "REFUSED {} {} {}\n",
        denial.number, denial.record, denial.column
    )
}
