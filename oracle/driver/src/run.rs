//! The comparison: one operation's calls on both sides, and the counts.

use crate::answer::{class, Answer, Input, Out, NOTHING};
use crate::progress;
use crate::random::Random;
use crate::record;
use crate::rules::longest_of;
use crate::settings;
use std::collections::BTreeMap;

/// One operation of the port, and what it is held against.
pub struct Operation {
    pub name: &'static str,
    /// What the expected answer comes from.
    pub against: &'static str,
    /// The names of its byte runs and numbers, for print.
    pub texts: &'static [&'static str],
    pub numbers: &'static [&'static str],
    pub outs: &'static [Out],
    /// The rows that must be met often enough: 0, `NOTHING`, and every refusal that can be reached.
    pub rows: &'static [u8],
    /// The answer by the Rust or a stand-in: out numbers are set where they are answered.
    pub expect: fn(&Input, &mut Answer) -> Result<(), u8>,
    /// The port's answer.
    pub ask: fn(&Input, &mut Answer) -> u8,
    /// Feeds the calls.
    pub inputs: fn(&mut Feed),
    /// A planted fault: what it is, and how it changes the port's answer.
    pub fault: &'static str,
    pub distort: Distort,
}

/// What a planted fault does to the port's answer.
pub type Distort = fn(&Input, &mut Answer);

/// A planted fault of an operation, beside its own.
pub struct Fault {
    /// What PLANTED calls it.
    pub name: &'static str,
    pub operation: &'static str,
    pub what: &'static str,
    pub distort: Distort,
}

/// What the tables say of an operation: its name, what it is held against, the rows that it must meet.
#[derive(Clone, Copy)]
pub struct Entry {
    pub name: &'static str,
    pub against: &'static str,
    pub rows: &'static [u8],
}

impl Operation {
    /// The operation in the tables.
    pub fn entry(&self) -> Entry {
        Entry {
            name: self.name,
            against: self.against,
            rows: self.rows,
        }
    }
}

/// How often a row was compared, and how often the two sides differed.
#[derive(Debug, Clone, Copy, Default)]
pub struct Count {
    pub compared: u64,
    pub differing: u64,
}

/// An operation's counts by row, and its first differing calls in full.
#[derive(Default)]
pub struct Tally {
    pub rows: BTreeMap<u8, Count>,
    /// How many calls had a text of the longest length and weren't refused by 1.
    pub longest_read: u64,
    pub shown: Vec<String>,
}

impl Tally {
    /// The sum over all rows.
    pub fn total(&self) -> Count {
        let add = |sum: Count, row: &Count| Count {
            compared: sum.compared + row.compared,
            differing: sum.differing + row.differing,
        };
        self.rows.values().fold(Count::default(), add)
    }

    /// Counts a call in its row; the first differing ones are kept in full.
    pub fn count(&mut self, row: u8, same: bool, show: impl FnOnce() -> String) {
        let count = self.rows.entry(row).or_default();
        count.compared += 1;
        if !same {
            count.differing += 1;
            if self.shown.len() < MOST_SHOWN {
                self.shown.push(show());
            }
        }
    }
}

/// The calls of an operation must be at least this many, and each row must be met at least this often.
pub const LEAST_CALLS: u64 = 10_000;
pub const LEAST_IN_ROW: u64 = 100;

/// A text of the longest length must be read at least this often.
pub const LEAST_LONGEST: u64 = 20;

/// At most so many differing calls of an operation are printed.
const MOST_SHOWN: usize = 3;

/// What fills out numbers and lent output before a call; the calls take turns.
pub const PATTERNS: [u64; 3] = [0xa5a5_a5a5_a5a5_a5a5, 0x5a3c_5a3c_5a3c_5a3c, u64::MAX];

/// Takes an operation's calls and compares them as they come.
pub struct Feed<'a> {
    pub random: Random,
    /// How many random calls to feed.
    pub calls: usize,
    operation: &'a Operation,
    planted: Option<Distort>,
    turn: usize,
    tally: Tally,
    /// At other sites: from where the settings of a call come.
    others: Option<Random>,
}

/// Compares each operation with calls of its own. `planted` says which have their fault put in, or one of `faults`.
pub fn compare_each(
    operations: Vec<&'static Operation>,
    faults: &[Fault],
    calls: usize,
    seed: u64,
    planted: impl Fn(&str) -> bool,
) -> Vec<Feed<'static>> {
    let fed = |operation: &'static Operation| {
        let own = planted(operation.name).then_some(operation.distort);
        let mut others = faults.iter().filter(|fault| fault.operation == operation.name);
        let other = others.find(|fault| planted(fault.name)).map(|fault| fault.distort);
        compare_one(operation, calls, seed, own.or(other))
    };
    operations.into_iter().map(fed).collect()
}

/// Compares an operation with calls of its own, with this fault put in.
pub fn compare_one(operation: &'static Operation, calls: usize, seed: u64, planted: Option<Distort>) -> Feed<'static> {
    let mut feed = Feed::new(operation, calls, seed, planted);
    (operation.inputs)(&mut feed);
    feed
}

/// The feed of an operation.
pub fn feed_of<'a, 'b>(feeds: &'a mut [Feed<'b>], name: &str) -> &'a mut Feed<'b> {
    let of_name = feeds.iter_mut().find(|feed| feed.operation().name == name);
    of_name.expect("an operation of that name")
}

impl<'a> Feed<'a> {
    /// A feed that has compared nothing yet.
    pub fn new(operation: &'a Operation, calls: usize, seed: u64, planted: Option<Distort>) -> Feed<'a> {
        Feed {
            random: Random::new(seed, operation.name),
            calls,
            operation,
            planted,
            turn: 0,
            tally: Tally::default(),
            others: settings::is_elsewhere(operation.name).then(|| Random::new(seed, "settings")),
        }
    }

    /// The operation, and what was counted.
    pub fn finish(self) -> (&'a Operation, Tally) {
        (self.operation, self.tally)
    }

    /// Compares one call.
    pub fn compare(&mut self, input: &Input) {
        self.compare_and_go_on(input);
    }

    /// Compares one call and gives what the port itself answered, without a planted fault.
    pub fn compare_and_go_on(&mut self, input: &Input) -> Answer {
        let operation = self.operation;
        let input = &match &mut self.others {
            None => *input,
            Some(random) => settings::at_site(random, input),
        };
        let pattern = record::pattern(self.turn);
        self.turn += 1;
        let mut expected = Answer::before(operation.outs, pattern);
        let mut answered = expected.clone();
        expected.number = match self.others {
            None => (operation.expect)(input, &mut expected).err().unwrap_or(0),
            Some(_) => settings::expect(operation, input, &mut expected),
        };
        answered.number = (operation.ask)(input, &mut answered);
        let own = self.planted.map(|distort| {
            let own = answered.clone();
            distort(input, &mut answered);
            own
        });
        let longest = longest_of(operation.name);
        let longest = input.texts.iter().any(|text| text.len() == longest);
        self.tally.longest_read += u64::from(longest && expected.number != 1);
        let row = class(operation.outs, &expected);
        record::call(operation, input, &expected, row);
        let show = || describe(operation, input, &expected, &answered);
        let same = expected == answered;
        self.tally.count(row, same, show);
        progress::compared(same);
        own.unwrap_or(answered)
    }

    /// The operation that is fed.
    pub fn operation(&self) -> &'a Operation {
        self.operation
    }

    /// How many calls were compared so far: lets generators vary what they feed.
    pub fn turn(&self) -> usize {
        self.turn
    }
}

/// A differing call in full.
fn describe(operation: &Operation, input: &Input, expected: &Answer, answered: &Answer) -> String {
    format!(
        "{}\n{}      expected {}\n      answered {}",
        operation.name,
        describe_input(operation, input),
        describe_answer(operation, expected),
        describe_answer(operation, answered),
    )
}

/// A call's arguments, a line each; bytes are escaped as Rust does.
fn describe_input(operation: &Operation, input: &Input) -> String {
    let mut lines = String::new();
    for (name, text) in operation.texts.iter().zip(input.texts) {
        let escaped = text.escape_ascii();
        lines += &format!("      {name} ({} bytes) \"{escaped}\"\n", text.len());
    }
    for (name, number) in operation.numbers.iter().zip(input.numbers) {
        lines += &format!("      {name} {number}\n");
    }
    if settings::is_elsewhere(operation.name) {
        lines += &format!("      {:?}\n", input.settings);
    }
    lines
}

/// An answer in one line.
fn describe_answer(operation: &Operation, answer: &Answer) -> String {
    let mut line = format!("{}", answer.number);
    for ((name, _), value) in operation.outs.iter().zip(answer.outs) {
        line += &format!(", {name} {value}");
    }
    if !answer.bytes.is_empty() {
        line += &format!(", output \"{}\"", answer.bytes.escape_ascii());
    }
    if !answer.steps.is_empty() {
        line += &format!(", steps (number, found, place, length, next) {:?}", answer.steps);
    }
    line
}

/// A row's name in the table.
pub fn row_name(row: u8) -> String {
    match row {
        NOTHING => "0, nothing or no".to_string(),
        number => number.to_string(),
    }
}
