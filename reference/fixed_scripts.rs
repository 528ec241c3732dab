// Replay scripts that no chance would write: full registers, figures at their limit, a sheet with a row
// too many, every byte and every count of numbers.

use crate::script_cases::{EDGE_NUMBERS, SORTS};

pub struct FixedScript {
    pub name: String,
    pub script: Vec<u8>,
}

/// The page that tells what replay does; its example is one of the scripts.
const PAGE: &str = include_str!("../docs/REPLAY.md");

const COMMANDS: [&str; 14] = [
    "ledger",
    "sheet",
    "use",
    "put",
    "off",
    "list",
    "strike",
    "inquire",
    "debit",
    "taken",
    "use ledger",
    "use sheet",
    "put holder",
    "nothing",
];

pub fn every_script() -> Vec<FixedScript> {
    let mut scripts = small_scripts();
    if let Some((example, _)) = documented_example() {
        scripts.push(fixed("the example of the page", example));
    }
    for sort in SORTS {
        let name = format!("a full register: {sort}");
        scripts.push(fixed(&name, full_register(sort)));
    }
    scripts.push(fixed("many registers", many_registers()));
    scripts.push(fixed("every order of two registers", every_order()));
    scripts.push(fixed("ceilings that fall or not", falling_ceilings()));
    scripts.push(fixed("both hosts", both_hosts()));
    scripts.push(fixed("every byte", every_byte()));
    scripts.push(fixed("every count of numbers", every_count()));
    scripts.push(fixed("numbers at edges", edge_numbers()));
    scripts.push(fixed("long lines", long_lines()));
    // With the greater balance the figure's limit stops the debit, with the smaller one want of funds.
    for balance in [u64::MAX, 1_000_000_000_000_000] {
        let name = format!("a figure at its limit, balance {balance}");
        scripts.push(fixed(&name, figure_at_limit(balance)));
    }
    scripts.push(fixed("a sheet with a row too many", long_sheet()));
    scripts
}

/// The example's commands and the answers that the page gives for them.
pub fn documented_example() -> Option<(String, String)> {
    let (_, section) = PAGE.split_once("\n## An example\n")?;
    // Pieces between the fences: words, commands, words, answers, words.
    let pieces: Vec<&str> = section.split("```\n").collect();
    let (commands, answers) = (pieces.get(1)?, pieces.get(3)?);
    Some((commands.to_string(), answers.to_string()))
}

fn fixed(name: &str, script: impl Into<Vec<u8>>) -> FixedScript {
    FixedScript {
        name: name.to_string(),
        script: script.into(),
    }
}

fn small_scripts() -> Vec<FixedScript> {
    let scripts: [(&str, &str); 10] = [
        ("an empty script", ""),
        ("one line end", "\n"),
        ("line ends alone", "\n\n\n"),
        ("a comment without a line end", "# off"),
        ("one command without a line end", "off"),
        ("one bad line without a line end", "offf"),
        ("a space", " "),
        (
            "0Dh before every line end",
            "off\r\n# off\r\n\r\nput holder\r\ntaken 1\r\n",
        ),
        ("0Dh for line ends", "off\roff\r"),
        ("a last line after a bad one", "off \noff"),
    ];
    scripts
        .into_iter()
        .map(|(name, script)| fixed(name, script))
        .collect()
}

// ---- Registers ----

/// The parts by which row `number` of a register of this sort is known.
fn known(sort: &str, number: u64) -> String {
    match sort {
        "biller" => format!("5 {number} 7"),
        "ceiling" => format!("{number}"),
        _ => format!("5 {number}"),
    }
}

fn listed(sort: &str, number: u64) -> String {
    match sort {
        "ceiling" => format!("{number} 20"),
        _ => known(sort, number),
    }
}

/// A claim that meets row `number`; for a ceiling it is above what is left.
fn claim(sort: &str, number: u64) -> String {
    match sort {
        "biller" => format!("5 1 {number} 7 21"),
        "ceiling" => format!("{number} 1 0 7 21"),
        _ => format!("5 {number} 0 7 21"),
    }
}

/// 256 rows, the 257th, then a place made free and used again; at the end a new register is empty.
fn full_register(sort: &str) -> String {
    let mut lines = vec![format!("put {sort}")];
    let list = |number| format!("list 1 {}", listed(sort, number));
    let strike = |number| format!("strike 1 {}", known(sort, number));
    let inquire = |number| format!("inquire {}", claim(sort, number));
    lines.extend((0..256).map(list));
    // Full: a new row has no place, a known one is told as known, one outside its width as that.
    lines.extend([list(256), list(5), list(255), list(9_999_999_999_999_999)]);
    lines.extend((0..=256).map(inquire));
    lines.extend([strike(256), strike(9_999_999_999_999_999), list(256)]);
    lines.extend([strike(100), strike(100), inquire(100), list(256), list(100)]);
    lines.extend((0..=256).map(inquire));
    lines.extend([strike(0), list(100), list(0), strike(255), strike(256)]);
    lines.extend([list(255), list(0), list(256)]);
    lines.extend((0..=256).map(inquire));
    lines.push(format!("put {sort}"));
    lines.push(format!("list 2 {}", listed(sort, 3)));
    lines.extend(["off", "off", "off"].map(String::from));
    lines.push(format!("put {sort}"));
    lines.extend([strike(3), list(3), list(3)]);
    lines.extend((0..5).map(inquire));
    lines.join("\n")
}

/// More registers than one register has rows, all with a row that lets one claim through.
fn many_registers() -> String {
    let mut lines = vec!["ledger 8 5000".to_string()];
    for number in (1..=1_200).step_by(4) {
        lines.extend(["put mandates", "put ceiling", "put holder", "put biller"].map(String::from));
        lines.push(format!("list {number} 6 8"));
        lines.push(format!("list {} 6 {}", number + 1, 2_000 + number));
        lines.push(format!("list {} 8 6", number + 2));
        lines.push(format!("list {} 6 8 0", number + 3));
    }
    // The lowest ceiling has 2,001 left.
    lines.extend(["2000", "2", "1", "1"].map(|amount| format!("debit 6 8 0 8 {amount}")));
    lines.push("taken 8".to_string());
    lines.push("inquire 6 8 8 0 1".to_string());
    lines.extend((0..1_202).map(|_| "off".to_string()));
    lines.push("debit 6 8 8 0 2999\ndebit 6 8 8 0 1\ntaken 8".to_string());
    lines.join("\n")
}

/// Each sort above each, the rows such that both object, one does, or none.
fn every_order() -> String {
    let mut lines = vec!["ledger 8 100".to_string()];
    for below in SORTS {
        for above in SORTS {
            lines.push(format!("put {below}\nput {above}"));
            lines.push(order_steps(below, above));
            lines.push("off\noff".to_string());
        }
    }
    lines.join("\n")
}

fn order_steps(below: &str, above: &str) -> String {
    let row = |sort: &str| match sort {
        "biller" => "6 0 7",
        "ceiling" => "6 1",
        _ => "6 8",
    };
    let name = |sort: &str| match sort {
        "biller" => "6 0 7",
        "ceiling" => "6",
        _ => "6 8",
    };
    let ask = "inquire 6 8 0 7 2\ndebit 6 8 0 7 1\ndebit 6 8 0 7 1\ninquire 7 8 0 7 1\ntaken 8";
    [
        ask.to_string(),
        format!("list 1 {}", row(below)),
        ask.to_string(),
        format!("list 2 {}", row(above)),
        ask.to_string(),
        format!("strike 1 {}", name(below)),
        ask.to_string(),
    ]
    .join("\n")
}

/// Ceilings fall after 0 alone, in every register of the pile, and only for the claim's biller.
fn falling_ceilings() -> &'static str {
    "ledger 8 1500\nput ceiling\nlist 1 6 1500\nlist 1 7 10\nput ceiling\nlist 2 6 2000\n\
     debit 6 8 0 0 1501\ndebit 6 9 0 0 1500\ndebit 6 8 0 0 1000\ninquire 6 8 0 0 501\n\
     inquire 6 8 0 0 500\nput holder\nlist 3 6 8\ndebit 6 8 0 0 500\noff\ndebit 6 8 0 0 500\n\
     inquire 6 8 0 0 1\nledger 8 900\ndebit 7 8 0 0 10\nstrike 1 6\ninquire 6 8 0 0 1\n\
     debit 6 8 0 0 500\noff\nlist 1 6 0\ninquire 6 8 0 0 1\nstrike 1 6\nlist 1 6 1\n\
     inquire 6 8 0 0 2\ninquire 6 8 0 0 1\ntaken 8\n"
}

// ---- Hosts ----

/// Both hosts keep their rows and figures while the other one stands below the pile.
fn both_hosts() -> &'static str {
    "sheet 6 8 0 7 50 0\nsheet 6 8 0 7 50 1\nsheet 6 8 0 7 50 0\nsheet 6 8 0 7 51 5\nledger 8 60\n\
     ledger 8 9999\ndebit 6 8 0 7 50\ntaken 8\nuse sheet\ntaken 8\ndebit 6 8 0 7 50\ntaken 8\n\
     debit 6 8 0 7 50\ndebit 6 8 0 7 51\ndebit 6 8 0 7 51\nsheet 6 8 0 7 51 0\ndebit 6 8 0 7 51\n\
     put ceiling\nlist 1 6 70\nsheet 1 8 0 7 50 0\nuse ledger\ntaken 8\ndebit 6 8 0 7 10\n\
     use sheet\ndebit 1 8 0 7 50\ntaken 8\nuse ledger\ntaken 8\ninquire 6 8 0 7 1\n\
     sheet 6 1000000000000000 0 7 5 0\nsheet 6 8 0 7 0 0\nledger 1000000000000000 77\nuse sheet\n\
     debit 6 1000000000000000 0 7 5\ndebit 6 8 0 7 0\ntaken 1000000000000000\n"
}

/// 100,000 greatest debits leave room for 99,999 yen in the account's figure.
fn figure_at_limit(balance: u64) -> String {
    let mut lines = vec![format!("ledger 1 {balance}\nledger 2 5")];
    lines.extend((0..100_001).map(|_| "debit 6 1 0 0 9999999999".to_string()));
    let amounts = ["100000", "99999", "1", "2", "9999999999"];
    lines.push("taken 1".to_string());
    for amount in amounts {
        lines.push(format!("inquire 6 1 0 0 {amount}\ndebit 6 1 0 0 {amount}"));
    }
    lines.push("taken 1\ndebit 6 2 0 0 5\ntaken 2\ntaken 1\n".to_string());
    lines.join("\n")
}

/// Of 100,001 rows the 100,000th counts and the last does not.
fn long_sheet() -> String {
    let mut lines = vec!["use sheet".to_string()];
    lines.extend((1..=99_999).map(|low| format!("sheet 6 1 0 {low} 10 0")));
    lines.push("sheet 6 1 0 0 20 0\nsheet 6 1 0 0 30 0".to_string());
    for amount in [20, 30] {
        lines.push(format!("inquire 6 1 0 0 {amount}\ndebit 6 1 0 0 {amount}"));
        lines.push("taken 1".to_string());
    }
    lines.push("debit 6 1 0 0 20\ndebit 6 1 0 99999 10\ndebit 6 1 0 1 10\ntaken 1\n".to_string());
    lines.join("\n")
}

// ---- Lines ----

/// Every byte alone, before and behind a command, for a space, and before, in and behind a number.
fn every_byte() -> Vec<u8> {
    let mut script = b"ledger 1 5\nledger 11 6\n".to_vec();
    for byte in 0..=255 {
        let places: [(&[u8], &[u8]); 8] = [
            (b"", b""),
            (b"", b"taken 1"),
            (b"taken", b"1"),
            (b"taken ", b"1"),
            (b"taken 1", b"1"),
            (b"taken 1", b""),
            (b"of", b"f"),
            (b"", b"off"),
        ];
        for (before, behind) in places {
            script.extend([before, &[byte], behind, b"\n"].concat());
        }
    }
    script
}

fn every_count() -> String {
    let mut lines = SORTS.map(|sort| format!("put {sort}")).to_vec();
    for command in COMMANDS {
        for count in 0..=9 {
            lines.push(format!("{command}{}", " 1".repeat(count)));
            lines.push(format!("{command}{}", " x".repeat(count)));
        }
    }
    for register in 0..=5 {
        for word in ["list", "strike"] {
            for count in 0..=5 {
                lines.push(format!("{word} {register}{}", " 3".repeat(count)));
            }
        }
    }
    lines.join("\n")
}

/// Every number of every command in turn at every edge, the others small.
fn edge_numbers() -> String {
    let mut lines = SORTS.map(|sort| format!("put {sort}")).to_vec();
    let commands = [
        ("ledger", 2),
        ("sheet", 6),
        ("list 1", 2),
        ("list 2", 3),
        ("list 3", 2),
        ("list 4", 2),
        ("list", 3),
        ("strike 1", 2),
        ("strike 2", 3),
        ("strike 3", 2),
        ("strike 4", 1),
        ("strike", 3),
        ("inquire", 5),
        ("debit", 5),
        ("taken", 1),
    ];
    for host in ["use ledger", "use sheet"] {
        lines.push(host.to_string());
        for (command, count) in commands {
            for place in 0..count {
                lines.extend(EDGE_NUMBERS.map(|edge| with_edge(command, count, place, edge)));
            }
        }
        // The second round is asked without registers.
        lines.push("off\noff\noff\noff\noff".to_string());
    }
    lines.join("\n")
}

fn with_edge(command: &str, count: usize, place: usize, edge: &str) -> String {
    let mut fields = vec![command; count + 1];
    for (number, field) in fields[1..].iter_mut().enumerate() {
        *field = if number == place { edge } else { "1" };
    }
    fields.join(" ")
}

fn long_lines() -> String {
    [
        format!("#{}", "x".repeat(200_000)),
        "y".repeat(200_000),
        format!("taken {}", "0".repeat(200_000)),
        format!("taken{}", " 1".repeat(50_000)),
        " ".repeat(100_000),
        "taken 1".to_string(),
    ]
    .join("\n")
}
