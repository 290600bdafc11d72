//! The rows of docs/DIFFERENCES.md, by their inputs: each row of its sections 1 to 3 that has an input has a case here under its
//! number, with the input as the row has it. A case makes the row's calls on the Rust and on the port, and both must answer what
//! the row states.

mod apart;
mod calls;
mod dialogs;
mod document;
mod headers;
mod held;
mod intervals;
mod prack;
mod record;
mod row;
mod stand_ins;
mod tags;

use document::Entry;
use row::Row;

/// A row's case.
pub struct Case {
    row: &'static str,
    /// The last cell of the row, word for word.
    input: &'static str,
    run: fn(&mut Row),
}

/// The case of a row.
const fn case(row: &'static str, input: &'static str, run: fn(&mut Row)) -> Case {
    Case { row, input, run }
}

/// All cases, in the order of the rows.
fn cases() -> Vec<&'static Case> {
    let files: [&'static [Case]; 7] = [
        headers::CASES,
        dialogs::CASES,
        prack::CASES,
        intervals::CASES,
        stand_ins::CASES,
        apart::CASES,
        tags::CASES,
    ];
    files.into_iter().flatten().collect()
}

/// Runs every case and says whether each row with an input has one, with the same words, and each answer is the stated one.
pub fn run() -> bool {
    let entries = match document::entries() {
        Ok(entries) => entries,
        Err(error) => {
            println!("docs/DIFFERENCES.md: {error}");
            return false;
        }
    };
    let cases = cases();
    let mut wrong = unmatched(&entries, &cases);
    let mut answers = 0;
    for case in &cases {
        let mut row = Row::default();
        (case.run)(&mut row);
        answers += row.answers;
        wrong.extend(
            row.wrong
                .iter()
                .map(|line| format!("row {}, {}: {line}", case.row, case.input)),
        );
        if row.answers == 0 {
            wrong.push(format!("row {}: its case asks nothing", case.row));
        }
    }
    for line in &wrong {
        println!("{line}");
    }
    let without = entries.iter().filter(|entry| entry.has_none()).count();
    println!(
        "docs/DIFFERENCES.md: {} rows of sections 1 to 3, {without} without an input; {} cases, {answers} answers, {} wrong",
        entries.len(),
        cases.len(),
        wrong.len()
    );
    wrong.is_empty()
}

/// Rows with an input that have no case, or one with other words; cases that no row has, or that stand twice.
fn unmatched(entries: &[Entry], cases: &[&Case]) -> Vec<String> {
    let mut wrong = Vec::new();
    for entry in entries.iter().filter(|entry| !entry.has_none()) {
        let of_row: Vec<_> = cases.iter().filter(|case| case.row == entry.row).collect();
        match of_row[..] {
            [] => wrong.push(format!("row {}: no case", entry.row)),
            [case] if case.input == entry.input => {}
            [case] => wrong.push(format!(
                "row {}: the document has {:?}, its case {:?}",
                entry.row, entry.input, case.input
            )),
            _ => wrong.push(format!("row {}: more than one case", entry.row)),
        }
    }
    let with_input = |case: &&&Case| entries.iter().any(|entry| entry.row == case.row && !entry.has_none());
    let stray = cases.iter().filter(|case| !with_input(case));
    wrong.extend(stray.map(|case| format!("case {}: no row with an input has this number", case.row)));
    wrong
}
