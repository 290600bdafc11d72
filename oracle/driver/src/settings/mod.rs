//! A site's settings (02, request 7). The Rust has its own figures alone: there it is compared as without them. At other sites each
//! function is held against the run's own rules, which at the Rust's figures must say what the Rust says, and is given settings
//! outside their bounds, which it must refuse by 30 before all else.

mod faults;
mod images;
mod lists;
mod meet;

use crate::prack::call::Pracks;
use crate::random::Random;
use crate::run::{Entry, Feed};
use crate::store::dialogs::Dialogs;
use crate::store::kind::Kind;
use crate::store::run::{faults_named, Fault, Run};
use port::Settings;

pub use faults::{IMAGE_FAULTS, PRACK_FAULTS, RECORD_FAULTS};
pub use images::{at_site, expect, operations};
pub use meet::{meet, meet_beside, meet_input, meet_put, meet_request, meet_time, pending_bound};

/// The figures in the order of the C struct: what the tables call them, the least and the most.
pub const FIGURES: [(&str, u32, u32); 5] = [
    ("CSeq jump", 1, 65_535),
    ("pending", 1, 32),
    ("cleanup", 1, 3_600),
    ("timeout", 1, 3_600),
    ("Early cap", 1, 100),
];

/// Nanoseconds of a second.
const SECOND: u64 = 1_000_000_000;

/// Behind the name of an operation at other sites.
const ELSEWHERE: &str = ", any settings";

/// The five figures.
pub fn figures(settings: Settings) -> [u32; 5] {
    let Settings {
        cseq_jump,
        pending,
        cleanup_seconds,
        timeout_seconds,
        early_cap,
    } = settings;
    [cseq_jump, pending, cleanup_seconds, timeout_seconds, early_cap]
}

/// The settings of five figures.
pub fn of([cseq_jump, pending, cleanup_seconds, timeout_seconds, early_cap]: [u32; 5]) -> Settings {
    Settings {
        cseq_jump,
        pending,
        cleanup_seconds,
        timeout_seconds,
        early_cap,
    }
}

/// The cleanup and the timeout in nanoseconds.
pub fn times(settings: Settings) -> [u64; 2] {
    [settings.cleanup_seconds, settings.timeout_seconds].map(|seconds| u64::from(seconds) * SECOND)
}

/// Refusal 30: a figure outside its bounds.
pub fn permitted(settings: Settings) -> Result<(), u8> {
    let mut bounded = figures(settings).into_iter().zip(FIGURES);
    let is_permitted = bounded.all(|(figure, (_, least, most))| (least..=most).contains(&figure));
    is_permitted.then_some(()).ok_or(30)
}

/// Settings within their bounds: each figure the least, the most, the Rust's or any.
pub fn any(random: &mut Random) -> Settings {
    let mut figures = figures(Settings::RUST);
    for (figure, (_, least, most)) in figures.iter_mut().zip(FIGURES) {
        *figure = match random.below(5) {
            0 => least,
            1 => most,
            2 => *figure,
            3 => least + random.below(8.min(most as usize)) as u32,
            _ => least + random.below(most as usize) as u32,
        };
    }
    of(figures)
}

/// Settings of which one figure is outside its bounds, or at times several.
pub fn outside(random: &mut Random) -> Settings {
    let mut figures = figures(any(random));
    for _ in 0..random.pick(&[1, 1, 1, 2, 5]) {
        let at = random.below(FIGURES.len());
        let (_, _, most) = FIGURES[at];
        figures[at] = match random.below(8) {
            0 => u32::MAX,
            1 => most.wrapping_add(random.next() as u32 >> 8).max(most + 1),
            2..5 => most + 1,
            _ => 0,
        };
    }
    of(figures)
}

/// Settings for one call: at a bound, outside, or any.
pub fn one(random: &mut Random) -> Settings {
    match random.below(3) {
        0 => outside(random),
        1 => any(random),
        _ => {
            let mut figures = figures(any(random));
            let at = random.below(FIGURES.len());
            let (_, least, most) = FIGURES[at];
            figures[at] = random.pick(&[least, most]);
            of(figures)
        }
    }
}

/// Each figure at its least and at its most, the others the Rust's; all of them so; and figures in between, with cleanups and timeouts
/// that are far apart.
pub fn each_site() -> Vec<Settings> {
    let mut sites = vec![
        of(FIGURES.map(|(_, least, _)| least)),
        of(FIGURES.map(|(_, _, most)| most)),
    ];
    for (at, (_, least, most)) in FIGURES.into_iter().enumerate() {
        for bound in [least, most] {
            let mut figures = figures(Settings::RUST);
            figures[at] = bound;
            sites.push(of(figures));
        }
    }
    let between = [
        [2, 2, 1, 3_600, 2],
        [99, 5, 3_600, 1, 7],
        [1_001, 11, 10, 20, 50],
        [40_000, 31, 20, 10, 99],
    ];
    sites.extend(between.map(of));
    sites
}

/// Whether this is the name of an operation at other sites.
pub fn is_elsewhere(name: &str) -> bool {
    name.ends_with(ELSEWHERE)
}

/// The name of an operation at other sites.
fn name_of(operation: &'static str) -> &'static str {
    format!("{operation}{ELSEWHERE}").leak()
}

/// What the tables say of an operation of a store at other sites.
pub fn entry(base: &Entry) -> Entry {
    Entry {
        name: name_of(base.name),
        against: "the run's own rules, which at the Rust's figures are the Rust's",
        rows: [base.rows, &[30]].concat().leak(),
    }
}

/// What is compared at other sites.
pub struct Elsewhere {
    pub feeds: Vec<Feed<'static>>,
    pub records: Run<Dialogs>,
    pub pracks: Run<Pracks>,
}

/// Compares all functions at other sites: each operation without a store with so many random calls, each kind of store with so many
/// random lists; the directed ones besides. The faults of that name are put in.
pub fn compare_all(calls: usize, lists: usize, seed: u64, planted: &str) -> Elsewhere {
    Elsewhere {
        feeds: images::compare_all(calls, seed, |name| name == planted),
        records: compare_records(lists, seed, &faults_named(RECORD_FAULTS, planted)),
        pracks: compare_pracks(lists, seed, &faults_named(PRACK_FAULTS, planted)),
    }
}

/// Compares lists of calls on a store of records.
pub fn compare_records(lists: usize, seed: u64, faults: &[&'static Fault<Dialogs>]) -> Run<Dialogs> {
    let mut run = run_of(faults, seed);
    lists::on_records(&mut run, &mut Random::new(seed, "records, any settings"), lists);
    run
}

/// Compares lists of calls on a PRACK store.
pub fn compare_pracks(lists: usize, seed: u64, faults: &[&'static Fault<Pracks>]) -> Run<Pracks> {
    let mut run = run_of(faults, seed);
    lists::on_pracks(&mut run, &mut Random::new(seed, "PRACK lists, any settings"), lists);
    run
}

/// A run at other sites.
fn run_of<K: Kind>(faults: &[&'static Fault<K>], seed: u64) -> Run<K> {
    Run::of_sites(faults, Random::new(seed, "settings outside their bounds"))
}
