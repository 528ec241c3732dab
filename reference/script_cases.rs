// Random replay scripts: few billers, accounts, customers and amounts, so that rows and claims often meet.
// Some numbers are outside their widths and some lines are bad.

use crate::random::Random;
use crate::script_damage::damaged;

/// The four sorts as a script names them.
pub const SORTS: [&str; 4] = ["holder", "biller", "mandates", "ceiling"];

/// Numbers at the edges of widths and beyond, zero, and texts too long to be numbers at all.
pub const EDGE_NUMBERS: [&str; 18] = [
    "0",
    "00000000000000000000",
    "00000000000000000001",
    "000000000000000000001",
    "1",
    "255",
    "256",
    "9999999999",
    "10000000000",
    "00000000010000000000",
    "999999999999999",
    "1000000000000000",
    "9223372036854775808",
    "18446744073709551615",
    "18446744073709551616",
    "28446744073709551615",
    "99999999999999999999",
    "123456789012345678901",
];

const CODES: [u64; 16] = [0, 0, 0, 0, 0, 0, 1, 2, 3, 4, 8, 9, 5, 7, 10, 255];

/// A line before its fields are joined by spaces.
pub type Fields = Vec<String>;

pub fn some_script(random: &mut Random) -> Vec<u8> {
    if random.below(200) == 0 {
        return Vec::new();
    }
    let mut writer = Writer::new(random);
    writer.open();
    if writer.one_in(40) {
        writer.fill_register();
    }
    for _ in 0..5 + writer.random.below(100) {
        writer.line();
    }
    writer.close()
}

// ---- Pools ----

/// The numbers that one script draws from.
struct Pools {
    billers: Vec<u64>,
    accounts: Vec<u64>,
    customers: Vec<[u64; 2]>,
    amounts: Vec<u64>,
}

impl Pools {
    /// The same small numbers may stand in all pools, so that mixed-up fields do not go unseen.
    fn new(random: &mut Random) -> Pools {
        let billers = [0, 1, 7, 123, 9_999_999_999, random.below(10_000_000_000)];
        let accounts = [
            0,
            1,
            7,
            200_310_000_007,
            999_999_999_999_999,
            random.below(1_000_000_000_000_000),
        ];
        let customers = [
            [0, 0],
            [0, 7],
            [7, 0],
            [1, 7],
            [9_999_999_999, 0],
            [9_999_999_999, 9_999_999_999],
        ];
        let amounts = [
            1,
            2,
            7,
            1_500,
            9_999_999_999,
            1 + random.below(9_999_999_999),
        ];
        Pools {
            billers: some_of(random, &billers),
            accounts: some_of(random, &accounts),
            customers: some_of(random, &customers),
            amounts: some_of(random, &amounts),
        }
    }
}

/// One to three of the choices; one may come twice and is then drawn more often.
fn some_of<T: Copy>(random: &mut Random, choices: &[T]) -> Vec<T> {
    (0..=random.below(3))
        .map(|_| random.pick(choices))
        .collect()
}

// ---- Writing ----

struct Writer<'a> {
    random: &'a mut Random,
    pools: Pools,
    /// The sorts in the pile, the lowest first, as far as no damaged line changed them.
    sorts: Vec<&'static str>,
    /// The parts of the rows on the sheet, so that claims can meet them.
    sheet_rows: Vec<[u64; 5]>,
    script: Vec<u8>,
}

impl Writer<'_> {
    fn new(random: &mut Random) -> Writer<'_> {
        let pools = Pools::new(random);
        Writer {
            random,
            pools,
            sorts: Vec::new(),
            sheet_rows: Vec::new(),
            script: Vec::new(),
        }
    }

    fn one_in(&mut self, times: u64) -> bool {
        self.random.below(times) == 0
    }

    /// A first pile with some rows, and something to debit.
    fn open(&mut self) {
        for _ in 0..self.random.pick(&[0, 0, 1, 1, 2, 2, 3, 4, 6]) {
            let line = self.put();
            self.write(&line);
        }
        for _ in 0..self.random.below(4) {
            let line = self.ledger();
            self.write(&line);
        }
        for _ in 0..self.random.below(6) {
            let line = self.sheet();
            self.write(&line);
        }
        for _ in 0..self.random.below(4) * self.sorts.len() as u64 {
            let line = self.list();
            self.write(&line);
        }
        if self.one_in(2) {
            self.write(&fields(&["use", "sheet"]));
        }
    }

    fn line(&mut self) {
        if self.one_in(20) {
            let silent = self
                .random
                .pick(&["", "#", "# a comment", "#off", "#\r", "##  x "]);
            self.script.extend_from_slice(silent.as_bytes());
            self.script.push(b'\n');
            return;
        }
        if self.one_in(10) {
            let kept_sorts = self.sorts.clone();
            let line = self.command();
            // A damaged line is most often a bad one, and then the pile is as before.
            self.sorts = kept_sorts;
            let bytes = damaged(self.random, line);
            self.script.extend_from_slice(&bytes);
            self.script.push(b'\n');
            return;
        }
        let line = self.command();
        self.write(&line);
    }

    fn write(&mut self, line: &[String]) {
        self.script.extend_from_slice(line.join(" ").as_bytes());
        self.script.push(b'\n');
    }

    /// The last line may lack its end, or some empty lines may follow it.
    fn close(mut self) -> Vec<u8> {
        if self.one_in(2) {
            self.script.pop();
        } else if self.one_in(10) {
            self.script.extend_from_slice(b"\n\n");
        }
        self.script
    }

    /// Lists about as many rows as a register holds.
    fn fill_register(&mut self) {
        let line = self.put();
        self.write(&line);
        let number = self.sorts.len().to_string();
        let sort = self.sorts[self.sorts.len() - 1];
        for row in 0..250 + self.random.below(12) {
            let row = row.to_string();
            let line = match sort {
                "biller" => fields(&["list", &number, "1", &row, "7"]),
                "ceiling" => fields(&["list", &number, &row, "1500"]),
                _ => fields(&["list", &number, "1", &row]),
            };
            self.write(&line);
        }
    }
}

// ---- Commands ----

impl Writer<'_> {
    fn command(&mut self) -> Fields {
        match self.random.below(40) {
            0..=2 => self.ledger(),
            3..=6 => self.sheet(),
            7 => fields(&["use", self.random.pick(&["ledger", "sheet"])]),
            8..=9 => self.put(),
            10..=11 => self.off(),
            12..=17 => self.list(),
            18..=20 => self.strike(),
            21..=25 => self.on_claim("inquire"),
            26..=36 => self.on_claim("debit"),
            _ => self.taken(),
        }
    }

    fn ledger(&mut self) -> Fields {
        let account = self.random.pick(&self.pools.accounts);
        let balance = self.near_amount();
        self.numbered("ledger", &[account, balance])
    }

    /// Sometimes the parts of an older row once more.
    fn sheet(&mut self) -> Fields {
        let parts = if self.sheet_rows.is_empty() || self.one_in(2) {
            self.parts()
        } else {
            self.random.pick(&self.sheet_rows)
        };
        self.sheet_rows.push(parts);
        let code = if self.one_in(60) {
            256
        } else {
            self.random.pick(&CODES)
        };
        self.numbered("sheet", &[&parts[..], &[code]].concat())
    }

    fn put(&mut self) -> Fields {
        let sort = self.random.pick(&SORTS);
        self.sorts.push(sort);
        fields(&["put", sort])
    }

    fn off(&mut self) -> Fields {
        self.sorts.pop();
        fields(&["off"])
    }

    fn list(&mut self) -> Fields {
        let (register, sort) = self.register();
        let [high, low] = self.random.pick(&self.pools.customers);
        let biller = self.random.pick(&self.pools.billers);
        let row = match sort {
            "biller" => vec![register, biller, high, low],
            "ceiling" => vec![register, biller, self.near_amount()],
            _ => vec![register, biller, self.random.pick(&self.pools.accounts)],
        };
        self.numbered("list", &row)
    }

    fn strike(&mut self) -> Fields {
        let (register, sort) = self.register();
        let [high, low] = self.random.pick(&self.pools.customers);
        let biller = self.random.pick(&self.pools.billers);
        let row = match sort {
            "biller" => vec![register, biller, high, low],
            "ceiling" => vec![register, biller],
            _ => vec![register, biller, self.random.pick(&self.pools.accounts)],
        };
        self.numbered("strike", &row)
    }

    /// A register of the pile with its sort, but sometimes a number or a sort that does not fit.
    fn register(&mut self) -> (u64, &'static str) {
        let height = self.sorts.len();
        if height == 0 || self.one_in(12) {
            let above = height as u64 + 1;
            let number = self.random.pick(&[0, above, above + 1, 257, u64::MAX]);
            return (number, self.random.pick(&SORTS));
        }
        let mut place = self.random.place(height);
        // Stops are drawn less often, since a pile full of them would settle nothing.
        if matches!(self.sorts[place], "holder" | "biller") {
            place = self.random.place(height);
        }
        let sort = if self.one_in(12) {
            self.random.pick(&SORTS)
        } else {
            self.sorts[place]
        };
        (place as u64 + 1, sort)
    }

    fn on_claim(&mut self, word: &str) -> Fields {
        let parts = if self.sheet_rows.is_empty() || self.one_in(2) {
            self.parts()
        } else {
            self.random.pick(&self.sheet_rows)
        };
        self.numbered(word, &parts)
    }

    fn taken(&mut self) -> Fields {
        let account = self.random.pick(&self.pools.accounts);
        self.numbered("taken", &[account])
    }
}

// ---- Numbers ----

impl Writer<'_> {
    fn parts(&mut self) -> [u64; 5] {
        let [high, low] = self.random.pick(&self.pools.customers);
        let amount = if self.one_in(8) {
            self.near_amount()
        } else {
            self.random.pick(&self.pools.amounts)
        };
        [
            self.random.pick(&self.pools.billers),
            self.random.pick(&self.pools.accounts),
            high,
            low,
            amount,
        ]
    }

    /// A balance or ceiling that one claim, or two, just use up or just miss.
    fn near_amount(&mut self) -> u64 {
        let [one, other] = [(); 2].map(|()| self.random.pick(&self.pools.amounts));
        let great = self.random.pick(&[100_000_000_000, 999_999_999_999_999]);
        self.random.pick(&[
            0,
            one - 1,
            one,
            one,
            one + 1,
            one + other - 1,
            one + other,
            one + other,
            one + other + 1,
            one * 5,
            great,
            great,
        ])
    }

    fn numbered(&mut self, word: &str, numbers: &[u64]) -> Fields {
        let mut line = fields(&[word]);
        for &number in numbers {
            line.push(self.number(number));
        }
        line
    }

    /// Mostly plain, sometimes with leading zeros, and now and then another number at an edge.
    fn number(&mut self, number: u64) -> String {
        if self.one_in(60) {
            return self.random.pick(&EDGE_NUMBERS).to_string();
        }
        let width = if self.one_in(8) {
            1 + self.random.place(20)
        } else {
            1
        };
        format!("{number:0width$}")
    }
}

fn fields(words: &[&str]) -> Fields {
    words.iter().map(|word| word.to_string()).collect()
}
