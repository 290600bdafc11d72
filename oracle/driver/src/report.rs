//! The tables and verdicts of `all`, of its parts (`leaves`, `dialogs`, `store`, `rseq`, `prack`, `verdicts`), and of `planted`.

use crate::all::{self, Everything};
use crate::bounds;
use crate::contest;
use crate::dialogs;
use crate::mixed;
use crate::operations;
use crate::prack;
use crate::rseq;
use crate::run::{
    self, compare_each, row_name, Entry, Feed, Operation, Tally, LEAST_CALLS, LEAST_IN_ROW, LEAST_LONGEST,
};
use crate::settings::{self, Elsewhere};
use crate::store;
use crate::store::kind::Kind;
use crate::store::run::{each_fault, faults_named, Fault, Run};
use crate::verdicts;
use std::collections::BTreeSet;

/// Compares everything, so many calls in all, and says whether all agree and every minimum is met. The environment variable
/// PLANTED names a fault that is to be put in.
pub fn all(calls: u64, seed: u64) -> bool {
    let names = [
        names_of(&operations::all(), operations::FAULTS),
        names_of(&dialogs::all(), dialogs::FAULTS),
        faults_of(store::FAULTS),
        faults_of(rseq::FAULTS),
        faults_of(prack::FAULTS),
        faults_of(verdicts::FAULTS),
        faults_of(mixed::RECORD_FAULTS),
        faults_of(mixed::RSEQ_FAULTS),
        faults_of(mixed::PRACK_FAULTS),
        names_of(&settings::operations(), settings::IMAGE_FAULTS),
        faults_of(settings::RECORD_FAULTS),
        faults_of(settings::PRACK_FAULTS),
    ];
    let shown = contest::brute_force(seed);
    let same = verdict(&names.concat(), |planted, table| {
        let (everything, elsewhere) = all::compare_all(calls, seed, planted);
        table.add_everything(everything);
        table.add_elsewhere(elsewhere);
    });
    shown && same
}

/// The same for the operations on blocks, values, texts and numbers alone, each with so many random calls.
pub fn leaves(calls: usize, seed: u64) -> bool {
    let shown = contest::brute_force(seed);
    let same = verdict(&names_of(&operations::all(), operations::FAULTS), |planted, table| {
        table.add_feeds(operations::compare_all(calls, seed, |name| name == planted));
    });
    shown && same
}

/// The same for the operations on one record.
pub fn dialogs(calls: usize, seed: u64) -> bool {
    verdict(&names_of(&dialogs::all(), dialogs::FAULTS), |planted, table| {
        table.add_feeds(dialogs::compare_all(calls, seed, |name| name == planted));
    })
}

/// The same for so many lists of calls on a store of records.
pub fn store(lists: usize, seed: u64) -> bool {
    println!("{lists} random lists of calls, each from an empty store, and the directed ones\n");
    verdict(&faults_of(store::FAULTS), |planted, table| {
        table.add_run(store::compare_all(lists, seed, &faults_named(store::FAULTS, planted)));
    })
}

/// The same for lists of calls on an RSeq store.
pub fn rseq(lists: usize, seed: u64) -> bool {
    println!("{lists} random lists of calls, three in four from an empty store, and the directed ones\n");
    verdict(&faults_of(rseq::FAULTS), |planted, table| {
        table.add_run(rseq::compare_all(lists, seed, &faults_named(rseq::FAULTS, planted)));
    })
}

/// The same for lists of calls on a PRACK store.
pub fn prack(lists: usize, seed: u64) -> bool {
    println!("{lists} random lists of calls, three in four from an empty store, and the directed ones\n");
    verdict(&faults_of(prack::FAULTS), |planted, table| {
        table.add_run(prack::compare_all(lists, seed, &faults_named(prack::FAULTS, planted)));
    })
}

/// The same for lists of calls on a run of verdicts, against the run's own count.
pub fn verdicts(lists: usize, seed: u64) -> bool {
    println!("{lists} random lists of calls, three in four from an empty run, and the directed ones\n");
    verdict(&faults_of(verdicts::FAULTS), |planted, table| {
        table.add_run(verdicts::compare_all(
            lists,
            seed,
            &faults_named(verdicts::FAULTS, planted),
        ));
    })
}

/// The same at other sites: each operation without a store with so many random calls, and a tenth as many random lists of each kind.
pub fn settings(calls: usize, seed: u64) -> bool {
    let names = [
        names_of(&settings::operations(), settings::IMAGE_FAULTS),
        faults_of(settings::RECORD_FAULTS),
        faults_of(settings::PRACK_FAULTS),
    ];
    verdict(&names.concat(), |planted, table| {
        table.add_elsewhere(settings::compare_all(calls, calls / 10, seed, planted));
    })
}

/// Fills the table, with the one of these faults put in that PLANTED names, and prints its end.
fn verdict(names: &[&str], fill: impl FnOnce(&str, &mut Table)) -> bool {
    let Some(planted) = planted_name(names) else {
        return false;
    };
    let mut table = Table::default();
    fill(&planted, &mut table);
    table.print()
}

/// The names of the operations, which are those of their own faults, and of their other faults.
fn names_of(operations: &[&Operation], faults: &[run::Fault]) -> Vec<&'static str> {
    let own = operations.iter().map(|operation| operation.name);
    own.chain(faults.iter().map(|fault| fault.name)).collect()
}

/// The faults' names.
fn faults_of<K: Kind>(faults: &[Fault<K>]) -> Vec<&'static str> {
    faults.iter().map(|fault| fault.name).collect()
}

/// The name that PLANTED gives, or none; nothing where no operation or fault has it.
fn planted_name(names: &[&str]) -> Option<String> {
    let planted = std::env::var("PLANTED").unwrap_or_default();
    if !planted.is_empty() && !names.contains(&planted.as_str()) {
        println!("PLANTED: none is called {planted:?}; these are: {}", names.join(", "));
        return None;
    }
    Some(planted)
}

/// What was counted of each operation.
#[derive(Default)]
struct Table(Vec<(Entry, Tally)>);

impl Table {
    /// Takes all counts of a whole run.
    fn add_everything(&mut self, everything: Everything) {
        self.add_feeds(everything.feeds);
        self.add_run(everything.records);
        self.add_run(everything.rseqs);
        self.add_run(everything.pracks);
        self.add_run(everything.verdicts);
    }

    /// Takes all counts at other sites.
    fn add_elsewhere(&mut self, elsewhere: Elsewhere) {
        self.add_feeds(elsewhere.feeds);
        self.add_run(elsewhere.records);
        self.add_run(elsewhere.pracks);
    }

    /// Takes the counts of operations without a store.
    fn add_feeds(&mut self, feeds: Vec<Feed<'static>>) {
        let counted = feeds.into_iter().map(Feed::finish);
        self.0
            .extend(counted.map(|(operation, tally)| (operation.entry(), tally)));
    }

    /// Takes the counts of a kind of store; where a fault is put into an operation, they are those with the fault.
    fn add_run<K: Kind>(&mut self, run: Run<K>) {
        let (tallies, mut faults) = run.finish();
        for (operation, own) in tallies {
            let function = function_of(operation.name);
            let of_fault = faults.iter().position(|(fault, _)| fault.operation == function);
            let tally = of_fault.map_or(own, |at| faults.remove(at).1);
            self.0.push((operation, tally));
        }
    }

    /// Prints every row, the cells, the bounds and the verdict: whether all agree and every minimum is met.
    fn print(&self) -> bool {
        println!(
            "{:<30} {:>16} {:>9} {:>9}  against",
            "operation", "number", "compared", "differing"
        );
        for (operation, tally) in &self.0 {
            print_rows(*operation, tally);
        }
        self.print_cells();
        let minimums = |(operation, tally): &(Entry, Tally)| missed_minimums(*operation, tally);
        let mut missed: Vec<String> = self.0.iter().flat_map(minimums).collect();
        let names: Vec<&str> = self.0.iter().map(|(operation, _)| operation.name).collect();
        missed.extend(bounds::print(&names));
        self.print_verdict(&missed)
    }

    /// Prints the operations by the numbers: how often each was answered; a point where it can't be.
    fn print_cells(&self) {
        let rows = self.0.iter().flat_map(|(operation, _)| operation.rows);
        let numbers: BTreeSet<u8> = rows.copied().collect();
        let name = |number: &u8| row_name(*number).replace("0, nothing or no", "0, no");
        let head: String = numbers.iter().map(|number| format!("{:>8}", name(number))).collect();
        println!("\n{:<30}{head}", "operation by number");
        for (operation, tally) in &self.0 {
            let cell = |number: &u8| match tally.rows.get(number) {
                Some(count) => count.compared.to_string(),
                None if operation.rows.contains(number) => "0".to_string(),
                None => ".".to_string(),
            };
            let cells = numbers.iter().map(|number| format!("{:>8}", cell(number)));
            println!("{:<30}{}", operation.name, cells.collect::<String>());
        }
    }

    /// Prints the differing calls, the missed minimums and the last line.
    fn print_verdict(&self, missed: &[String]) -> bool {
        println!();
        for shown in self.0.iter().flat_map(|(_, tally)| &tally.shown) {
            println!("differing: {shown}");
        }
        for line in missed {
            println!("missed: {line}");
        }
        let totals: Vec<_> = self.0.iter().map(|(_, tally)| tally.total()).collect();
        let compared: u64 = totals.iter().map(|total| total.compared).sum();
        let differing: u64 = totals.iter().map(|total| total.differing).sum();
        let of = totals.iter().filter(|total| total.differing > 0).count();
        let operations = self.0.len();
        if differing == 0 && missed.is_empty() {
            println!(
                "{operations} operations, {compared} calls compared, 0 differing: all the same, every minimum met"
            );
            return true;
        }
        println!(
            "{operations} operations, {compared} calls compared: {differing} calls of {of} operations differ, {} minimums missed",
            missed.len()
        );
        false
    }
}

/// A line for each row of an operation.
fn print_rows(operation: Entry, tally: &Tally) {
    let mut name = operation.name;
    let mut against = operation.against;
    for (row, count) in &tally.rows {
        let (compared, differing) = (count.compared, count.differing);
        let row = row_name(*row);
        let line = format!("{name:<30} {row:>16} {compared:>9} {differing:>9}  {against}");
        println!("{}", line.trim_end());
        name = "";
        against = "";
    }
}

/// What was met too seldom.
fn missed_minimums(operation: Entry, tally: &Tally) -> Vec<String> {
    let mut missed = Vec::new();
    let name = operation.name;
    let total = tally.total().compared;
    if total < LEAST_CALLS {
        missed.push(format!("{name}: {total} calls, at least {LEAST_CALLS} are owed"));
    }
    let longest = tally.longest_read;
    if operation.rows.contains(&1) && longest < LEAST_LONGEST {
        missed.push(format!(
            "{name}: longest texts read {longest} times, {LEAST_LONGEST} are owed"
        ));
    }
    for row in operation.rows {
        let met = tally.rows.get(row).map_or(0, |count| count.compared);
        if met < LEAST_IN_ROW {
            let row = row_name(*row);
            missed.push(format!("{name}, {row}: met {met} times, {LEAST_IN_ROW} are owed"));
        }
    }
    for row in tally.rows.keys().filter(|row| !operation.rows.contains(row)) {
        let row = row_name(*row);
        missed.push(format!("{name}, {row}: expected, but not listed as reachable"));
    }
    missed
}

/// In `planted` a list of calls stands for so many calls.
const CALLS_PER_LIST: usize = 20;

/// Plants each fault and says whether the run reports every one of them, and whether every C function has one. The own faults of
/// operations without a store, and those of each kind of store, are put in at once: each changes only what is compared of its own
/// calls.
pub fn planted(calls: usize, seed: u64) -> bool {
    println!(
        "{:<30} {:>9} {:>9}  planted fault",
        "operation", "compared", "differing"
    );
    let mut faults = planted_feeds(operations::compare_all(calls, seed, |_| true));
    faults.extend(planted_others(&operations::all(), operations::FAULTS, calls, seed));
    faults.extend(planted_feeds(dialogs::compare_all(calls, seed, |_| true)));
    faults.extend(planted_others(&dialogs::all(), dialogs::FAULTS, calls, seed));
    let lists = calls / CALLS_PER_LIST;
    faults.extend(planted_run(store::compare_all(lists, seed, &each_fault(store::FAULTS))));
    faults.extend(planted_run(rseq::compare_all(lists, seed, &each_fault(rseq::FAULTS))));
    faults.extend(planted_run(prack::compare_all(lists, seed, &each_fault(prack::FAULTS))));
    faults.extend(planted_run(verdicts::compare_all(
        lists,
        seed,
        &each_fault(verdicts::FAULTS),
    )));
    let mixed = mixed::planted(lists, seed);
    faults.extend(planted_run(mixed.records));
    faults.extend(planted_run(mixed.rseqs));
    faults.extend(planted_run(mixed.pracks));
    faults.extend(planted_settings(calls, seed));
    let reported: Vec<_> = faults.iter().filter(|fault| fault.reported).collect();
    let unreported = faults.iter().filter(|fault| !fault.reported);
    let unreported: Vec<&str> = unreported.map(|fault| fault.name).collect();
    let without = functions_without(&faults);
    println!(
        "\n{} faults planted, {} reported, {} unreported {unreported:?}",
        faults.len(),
        reported.len(),
        unreported.len()
    );
    println!(
        "{} C functions, {} without a planted fault {without:?}",
        c_functions().len(),
        without.len()
    );
    unreported.is_empty() && without.is_empty()
}

/// The same for the faults at other sites.
fn planted_settings(calls: usize, seed: u64) -> Vec<Planted> {
    let mut faults = planted_feeds(compare_each(settings::operations(), &[], calls, seed, |_| true));
    let operations = settings::operations();
    faults.extend(planted_others(&operations, settings::IMAGE_FAULTS, calls, seed));
    let lists = calls / CALLS_PER_LIST;
    let records = settings::compare_records(lists, seed, &each_fault(settings::RECORD_FAULTS));
    let pracks = settings::compare_pracks(lists, seed, &each_fault(settings::PRACK_FAULTS));
    faults.extend(planted_run(records));
    faults.extend(planted_run(pracks));
    faults
}

/// What became of a fault.
struct Planted {
    operation: &'static str,
    name: &'static str,
    reported: bool,
}

/// Prints what became of the faults of operations without a store.
fn planted_feeds(feeds: Vec<Feed<'static>>) -> Vec<Planted> {
    let print =
        |(operation, tally): (&Operation, Tally)| print_fault(operation.name, operation.name, operation.fault, &tally);
    feeds.into_iter().map(Feed::finish).map(print).collect()
}

/// Plants the faults that operations without a store have beside their own, and prints what became of them.
fn planted_others(
    operations: &[&'static Operation],
    faults: &'static [run::Fault],
    calls: usize,
    seed: u64,
) -> Vec<Planted> {
    let plant = |fault: &'static run::Fault| {
        let of_name = operations.iter().find(|operation| operation.name == fault.operation);
        let operation = of_name.expect("the fault's operation");
        let (_, tally) = run::compare_one(operation, calls, seed, Some(fault.distort)).finish();
        print_fault(fault.operation, fault.name, fault.what, &tally)
    };
    faults.iter().map(plant).collect()
}

/// Prints what became of the faults of a kind of store.
fn planted_run<K: Kind>(run: Run<K>) -> Vec<Planted> {
    let (_, tallies) = run.finish();
    let print =
        |(fault, tally): (&'static Fault<K>, Tally)| print_fault(fault.operation, fault.name, fault.what, &tally);
    tallies.into_iter().map(print).collect()
}

/// Prints what became of a fault.
fn print_fault(operation: &'static str, name: &'static str, fault: &str, tally: &Tally) -> Planted {
    let total = tally.total();
    println!("{name:<30} {:>9} {:>9}  {fault}", total.compared, total.differing);
    Planted {
        operation,
        name,
        reported: total.differing > 0,
    }
}

/// The C functions that no fault is planted in.
fn functions_without(faults: &[Planted]) -> Vec<&'static str> {
    let with: BTreeSet<&str> = faults.iter().map(|fault| function_of(fault.operation)).collect();
    c_functions()
        .into_iter()
        .filter(|function| !with.contains(function))
        .collect()
}

/// The C function of an operation: `next_header, to the end` is a list of calls of `next_header`, and `get, any settings` is `get`.
fn function_of(operation: &str) -> &str {
    operation.split(',').next().expect("a name")
}

/// The functions that the C header declares, without their prefix.
fn c_functions() -> BTreeSet<&'static str> {
    const HEADER: &str = include_str!("../../../include/sip_dialog.h");
    let behind = HEADER.split("sip_dialog_").skip(1);
    behind
        .filter_map(|text| text.split_once('('))
        .map(|(name, _)| name)
        .filter(|name| is_name(name))
        .collect()
}

/// Whether a text is a C function's name.
fn is_name(text: &str) -> bool {
    text.bytes()
        .all(|byte| byte.is_ascii_lowercase() || byte.is_ascii_digit() || byte == b'_')
}
