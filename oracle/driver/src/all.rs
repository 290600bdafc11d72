//! The whole run: what the six parts compare, then mixed lists until the calls are as many as were asked for; and besides, calls at
//! other sites.

use crate::dialogs;
use crate::mixed;
use crate::operations;
use crate::prack::{self, call::Pracks};
use crate::progress;
use crate::random::Random;
use crate::rseq::{self, call::RSeqs};
use crate::run::Feed;
use crate::settings::{self, Elsewhere};
use crate::store;
use crate::store::dialogs::Dialogs;
use crate::store::kind::Kind;
use crate::store::run::{faults_named, Fault, Run};
use crate::verdicts::{self, call::Verdicts};

/// The feeds of all operations without a store, and the runs of the three kinds of stores and of the run of verdicts.
pub struct Everything {
    pub feeds: Vec<Feed<'static>>,
    pub records: Run<Dialogs>,
    pub rseqs: Run<RSeqs>,
    pub pracks: Run<Pracks>,
    pub verdicts: Run<Verdicts>,
}

/// Of so many calls in all, each operation without a store has one in this many by chance, and each kind of store one list in
/// this many.
const CALLS_PER_RANDOM_CALL: u64 = 700;
const CALLS_PER_LIST: u64 = 1250;

/// There are at least so many mixed lists.
const LEAST_LISTS: usize = 500;

/// Compares at least so many calls; the last mixed list is gone through to its end. What is compared at other sites comes besides, for
/// which there are as many random calls and lists. The fault of that name is put in.
pub fn compare_all(calls: u64, seed: u64, planted: &str) -> (Everything, Elsewhere) {
    let random_calls = (calls / CALLS_PER_RANDOM_CALL) as usize;
    let lists = self::lists(calls);
    let is_planted = |name: &str| name == planted;
    progress::begin(calls);
    progress::part("blocks, values, texts and numbers");
    let mut feeds = operations::compare_all(random_calls, seed, is_planted);
    progress::part("one record");
    feeds.extend(dialogs::compare_all(random_calls, seed, is_planted));
    progress::part("lists of calls on a store of records");
    let records = store::compare_all(lists, seed, &both(store::FAULTS, mixed::RECORD_FAULTS, planted));
    progress::part("lists of calls on an RSeq store");
    let rseqs = rseq::compare_all(lists, seed, &both(rseq::FAULTS, mixed::RSEQ_FAULTS, planted));
    progress::part("lists of calls on a PRACK store");
    let pracks = prack::compare_all(lists, seed, &both(prack::FAULTS, mixed::PRACK_FAULTS, planted));
    progress::part("lists of calls on a run of verdicts");
    let verdicts = verdicts::compare_all(lists, seed, &faults_named(verdicts::FAULTS, planted));
    progress::part("mixed lists on all three stores");
    let mut everything = Everything {
        feeds,
        records,
        rseqs,
        pracks,
        verdicts,
    };
    let mut random = Random::new(seed, "mixed");
    mixed::each_plain(&mut everything, &mut random);
    let mut lists = 0;
    while lists < LEAST_LISTS || progress::so_far() < calls {
        mixed::list(&mut everything, &mut random);
        lists += 1;
    }
    progress::part("other settings than the Rust's");
    let elsewhere = settings::compare_all(random_calls, self::lists(calls), seed, planted);
    progress::end();
    (everything, elsewhere)
}

/// How many lists each kind of store has.
fn lists(calls: u64) -> usize {
    (calls / CALLS_PER_LIST) as usize
}

/// The faults of that name, of a kind of store alone and of mixed lists.
fn both<K: Kind>(alone: &'static [Fault<K>], mixed: &'static [Fault<K>], name: &str) -> Vec<&'static Fault<K>> {
    [faults_named(alone, name), faults_named(mixed, name)].concat()
}
