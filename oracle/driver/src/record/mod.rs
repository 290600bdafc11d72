//! `record`: writes the list of recorded answers that the program `replay` runs (crates/replay/stdin), and what it must print
//! (crates/replay/stdout). The calls are those of the comparisons; what is recorded is the expected side, never the port's.
//! For each row of the tables, each side of each bound and each value at a limit of document 01 the shortest calls are kept.

pub mod arguments;
mod edges;
mod forms;
mod full;
mod line;
mod rows;
mod store_call;
mod writer;

use crate::answer::{Answer, Input};
use crate::bounds;
use crate::dialogs::{self, room};
use crate::operations;
use crate::prack;
use crate::prack::call::Pracks;
use crate::rseq;
use crate::rseq::call::RSeqs;
use crate::run::{Entry, Operation, PATTERNS};
use crate::settings;
use crate::store;
use crate::store::dialogs::Dialogs;
use crate::store::kind::Kind;
use crate::store::memory::Left;
use crate::verdicts;
use crate::verdicts::call::Verdicts;
use arguments::Recorded;
use forms::{form_of, sources_of};
use std::cell::RefCell;
use std::collections::{BTreeMap, BTreeSet};
use store_call::StoreCall;
use writer::Writer;

/// So many random calls of each operation, and so many random lists, are looked at.
const CALLS: usize = 2_000;
const LISTS: usize = 2_000;
const SEED: u64 = 1;

/// What fills out numbers and lent output before a recorded call: each fits the smallest width.
const OWN_PATTERNS: [u64; 3] = [165, 90, 60];

/// The shortest calls of a row, and others of it; one of each side of a bound, and of each value at a limit.
const SHORTEST: usize = 2;
const OTHERS: usize = 3;

/// A call that is longer than this in the list isn't kept, nor one of this length as one of the others.
const LONGEST: usize = 2_500;
const LONGEST_OTHER: usize = 220;

/// The operations on one record, and the listing, begin with these: their limits are in the table of bounds.
const ON_RECORDS: [&str; 3] = ["image_", "new_ua", "listing"];

/// What a call is kept for.
#[derive(Clone, PartialEq, Eq, PartialOrd, Ord)]
enum Key {
    Row(&'static str, u8),
    Other(&'static str, u8),
    Edge(&'static str, String, u64),
    Bound(&'static str, &'static str, &'static str),
}

/// A call that may be kept: its lines, or a call on a store.
#[derive(Clone)]
enum Kept {
    Lines(&'static str, Vec<String>),
    OnStore(StoreCall),
}

/// The calls kept so far.
#[derive(Default)]
struct Recorder {
    met: Vec<Key>,
    kept: BTreeMap<Key, Vec<(usize, u64, Kept)>>,
    seen: u64,
    /// Whether each call is kept.
    directed: bool,
    /// While a whole list is recorded: its calls.
    list: Option<Vec<StoreCall>>,
    /// What the calls of whole lists meet.
    in_lists: BTreeSet<Key>,
}

thread_local! {
    static RECORDER: RefCell<Option<Recorder>> = const { RefCell::new(None) };
}

/// What fills out numbers and lent output before the call of this turn.
pub fn pattern(turn: usize) -> u64 {
    let recording = RECORDER.with_borrow(Option::is_some);
    let patterns = if recording { OWN_PATTERNS } else { PATTERNS };
    patterns[turn % patterns.len()]
}

/// The call under way meets a side of a bound.
pub fn met(operation: &'static str, what: &'static str, side: &'static str) {
    with(|recorder| recorder.met.push(Key::Bound(operation, what, side)));
}

/// Works on the recorder, if there is one.
fn with(work: impl FnOnce(&mut Recorder)) {
    RECORDER.with_borrow_mut(|recorder| {
        if let Some(recorder) = recorder {
            work(recorder);
        }
    });
}

/// Takes a call on blocks, values, texts, numbers or one image.
pub fn call(operation: &Operation, input: &Input, expected: &Answer, row: u8) {
    with(|recorder| {
        let name = base_name(operation.name);
        let length = input.texts.iter().map(|text| line::length(text)).sum::<usize>();
        let length = (length + expected.bytes.len() / 8) * expected.steps.len().max(1);
        let mut keys = std::mem::take(&mut recorder.met);
        if !ON_RECORDS.iter().any(|front| name.starts_with(front)) {
            keys.extend(edges::of_call(name, input, expected, row));
        }
        if recorder.directed {
            keys.push(Key::Edge(name, "directed".to_string(), recorder.seen));
        }
        recorder.take(name, row, keys, length, || {
            Kept::Lines(name, lines(operation, input, expected))
        });
    });
}

/// Takes a call on a store.
pub fn on_store<K: Kind>(call: &K::Call, lent: usize, before: &Left, expected: &Left) {
    with(|recorder| {
        let name = K::name(call);
        let keys = std::mem::take(&mut recorder.met);
        if let Some(list) = &mut recorder.list {
            list.push(StoreCall::new(name, call.own_arguments(), lent, before, expected));
            recorder.in_lists.extend(keys);
            recorder.in_lists.insert(Key::Row(name, expected.number));
            return;
        }
        if before.store.used.min(lent) > 4 * LONGEST {
            return;
        }
        let length = StoreCall::length(&call.own_arguments(), lent, before, expected);
        recorder.take(name, expected.number, keys, length, || {
            Kept::OnStore(StoreCall::new(name, call.own_arguments(), lent, before, expected))
        });
    });
}

impl Recorder {
    /// Keeps a call for each key for which it is one of the shortest, and as one of the others of its row.
    fn take(&mut self, name: &'static str, row: u8, mut keys: Vec<Key>, length: usize, make: impl Fn() -> Kept) {
        self.seen += 1;
        if length > LONGEST {
            return;
        }
        keys.push(Key::Row(name, row));
        for key in keys {
            let most = if matches!(key, Key::Row(..)) { SHORTEST } else { 1 };
            self.keep(key, length, most, &make);
        }
        if length < LONGEST_OTHER {
            let chance = self.seen.wrapping_mul(0x9e37_79b9_7f4a_7c15) >> 32;
            self.keep(Key::Other(name, row), chance as usize, OTHERS, &make);
        }
    }

    /// Keeps a call for a key if it is among the `most` smallest.
    fn keep(&mut self, key: Key, measure: usize, most: usize, make: &impl Fn() -> Kept) {
        let kept = self.kept.entry(key).or_default();
        if kept.len() == most && kept[most - 1].0 <= measure {
            return;
        }
        kept.push((measure, self.seen, make()));
        kept.sort_by_key(|(measure, seen, _)| (*measure, *seen));
        kept.truncate(most);
    }
}

/// The C function of an operation that asks for a list to its end, or in a run of its own.
fn base_name(name: &'static str) -> &'static str {
    name.split(',').next().unwrap_or(name)
}

/// A call's lines: one, or one for each step of a list.
fn lines(operation: &Operation, input: &Input, expected: &Answer) -> Vec<String> {
    if expected.steps.is_empty() {
        return vec![one_line(operation, input, expected)];
    }
    let mut from = 0;
    let mut beyond = [input.texts[0].len() as u64 + 1, u64::MAX].into_iter();
    let step = |[number, found, place, length, next]: &[u64; 5]| {
        let input = input.and_number(0, from);
        let before = expected.pattern;
        let arguments = arguments_of(base_name(operation.name), &input, &[before; 8], &[]);
        let line = format!("{arguments} = {number} {found} {place} {length} {next}");
        from = match found {
            1 => *next,
            _ => beyond.next().unwrap_or_default(),
        };
        line
    };
    expected.steps.iter().map(step).collect()
}

/// The line of a call that isn't a list.
fn one_line(operation: &Operation, input: &Input, expected: &Answer) -> String {
    let name = base_name(operation.name);
    let form = form_of(name);
    let mut after = expected.bytes.clone();
    let after: &[u8] = if form.kinds.contains('o') {
        room::lent(&mut after)
    } else {
        &after
    };
    let lent_empty = vec![expected.pattern as u8; after.len()];
    let lent: &[u8] = if name.starts_with("image_") {
        input.texts[0]
    } else {
        &lent_empty
    };
    let arguments = arguments_of(name, input, &[expected.pattern; 8], lent);
    let outs = operation.outs.len();
    let answers = form
        .kinds
        .split('=')
        .nth(1)
        .map_or(0, |answer| answer.matches('n').count());
    if answers == 1 && outs == 1 {
        return format!("{arguments} = {}", expected.outs[0]);
    }
    let mut text = format!("{arguments} = {}", expected.number);
    for out in &expected.outs[..outs] {
        text += &format!(" {out}");
    }
    if form.kinds.ends_with('t') {
        text += &format!(" {}", line::text(after));
    }
    text
}

/// The name and the arguments in the order of the C declaration.
fn arguments_of(name: &str, input: &Input, outs: &[u64; 8], lent: &[u8]) -> String {
    let mut text = name.to_string();
    for word in sources_of(name).split_whitespace() {
        let index: usize = word[1..].parse().unwrap_or_default();
        let argument = match &word[..1] {
            "t" => line::text(input.texts[index]),
            "n" => input.numbers[index].to_string(),
            "s" => settings::figures(input.settings)[index].to_string(),
            "o" => outs[index].to_string(),
            _ => line::text(lent),
        };
        text += &format!(" {argument}");
    }
    text
}

/// Makes the list and what a right program prints, and writes both.
pub fn run() -> bool {
    RECORDER.set(Some(Recorder::default()));
    drop(operations::compare_all(CALLS, SEED, |_| false));
    with(|recorder| recorder.directed = true);
    edges::each_call();
    with(|recorder| recorder.directed = false);
    drop(dialogs::compare_all(CALLS, SEED, |_| false));
    drop(store::compare_all(LISTS, SEED, &[]));
    drop(rseq::compare_all(LISTS, SEED, &[]));
    drop(prack::compare_all(LISTS, SEED, &[]));
    drop(verdicts::compare_all(LISTS, SEED, &[]));
    drop(settings::compare_all(CALLS, LISTS, SEED, ""));
    let mut writer = Writer::new();
    let recorder = RECORDER.take().expect("the recorder");
    let mut covered: BTreeSet<Key> = recorder.kept.keys().cloned().collect();
    writer.kept(&recorder);
    RECORDER.set(Some(Recorder::default()));
    covered.append(&mut full::record(&mut writer));
    RECORDER.set(None);
    report(&covered);
    writer.finish()
}

/// Prints the rows and the sides of bounds that no recorded call has.
fn report(covered: &BTreeSet<Key>) {
    let mut lacking = 0;
    let stores = [
        Dialogs::OPERATIONS,
        RSeqs::OPERATIONS,
        Pracks::OPERATIONS,
        Verdicts::OPERATIONS,
    ]
    .concat();
    let on_sites = [Dialogs::OPERATIONS, Pracks::OPERATIONS].concat();
    let on_sites: Vec<Entry> = on_sites.iter().map(settings::entry).collect();
    let leaves = operations::all()
        .into_iter()
        .chain(dialogs::all())
        .chain(settings::operations())
        .map(Operation::entry);
    for entry in leaves.chain(stores).chain(on_sites) {
        for row in entry.rows {
            if !covered.contains(&Key::Row(base_name(entry.name), *row)) {
                println!("lacking: {}, {row}", entry.name);
                lacking += 1;
            }
        }
    }
    for (operation, what, side) in bounds::sides() {
        if !covered.contains(&Key::Bound(operation, what, side)) {
            println!("lacking: {operation}, {what}, {side}");
            lacking += 1;
        }
    }
    println!("{lacking} rows and sides of bounds are in no recorded call");
}
