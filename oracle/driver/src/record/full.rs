//! Whole lists of calls, each call lent what the last one left: at 10,000 records, at 100 Early ones of a Call-ID, at 4,096 verdicts,
//! and short random ones of each kind of store.

use super::writer::Writer;
use super::{Key, RECORDER};
use crate::dialogs::encode;
use crate::prack::{self, call::Pracks};
use crate::random::Random;
use crate::rseq;
use crate::settings;
use crate::store::call::{texts_of, Call};
use crate::store::dialogs::Dialogs;
use crate::store::directed;
use crate::store::kind::Kind;
use crate::store::lists::{self, List};
use crate::store::run::Run;
use crate::verdicts::{self, call::Verdicts, ENTRY_SIZE};
use port::Settings;
use sip_dialog::DialogId;
use sip_dialog::DialogStateType::{self, Confirmed, Early, Terminated};
use std::collections::BTreeSet;

/// So many short random lists of each kind of store, each of so many calls and bytes at most.
const SHORT_LISTS: usize = 6;
const MOST_CALLS: usize = 24;
const MOST_BYTES: usize = 6_000;

/// The image with a number in its digits.
pub fn numbered(image: &[u8], at: usize, digits: usize, number: usize) -> Vec<u8> {
    let mut image = image.to_vec();
    image[at..at + digits].copy_from_slice(format!("{number:0digits$}").as_bytes());
    image
}

/// Copies of an image whose local tag is a number of five digits.
fn copies(many: usize, call_id: &str, state: DialogStateType) -> (usize, Vec<u8>, usize, usize) {
    let image = encode(&directed::record(&id(call_id, 0), state));
    let at = image.windows(5).position(|window| window == b"00000").expect("digits");
    (many, image, at, 5)
}

/// An identifier of such a record.
fn id(call_id: &str, number: usize) -> DialogId {
    DialogId::unchecked_new(call_id, format!("{number:05}"), "r")
}

/// A put of such a record.
fn put(call_id: &str, number: usize, state: DialogStateType) -> Call {
    directed::put(&id(call_id, number), state)
}

/// A look-up by request, then a round of each kind on a record, which it leaves Terminated.
fn rounds(id: &DialogId) -> Vec<Call> {
    let mut calls = vec![Call::FindByRequest(directed::request(id, 8).block().to_vec())];
    calls.extend(directed::rounds(id, 1));
    calls
}

/// The calls at 10,000 records.
fn at_most_records() -> Vec<Call> {
    let mut calls = vec![
        put("c", 9_999, Confirmed),
        put("c", 10_000, Confirmed),
        put("c", 5, Confirmed),
    ];
    calls.extend([put("c", 5, Early), put("c", 5, Terminated)]);
    calls.extend([
        Call::Count,
        Call::AllIds(20),
        Call::FindByCallId(b"c".to_vec()),
        Call::Get(texts_of(&id("c", 9_999))),
    ]);
    calls.extend(rounds(&id("c", 9_999)));
    calls.extend([put("c", 9_999, Confirmed), Call::Sweep, put("c", 9_999, Confirmed)]);
    calls.extend([
        Call::Remove(texts_of(&id("c", 0))),
        put("c", 0, Early),
        put("c", 10_000, Confirmed),
        put("c", 0, Early),
        Call::Count,
    ]);
    calls
}

/// The calls on 10,001 records.
fn over_most_records() -> Vec<Call> {
    let mut calls = vec![put("c", 10_001, Confirmed), put("c", 5, Confirmed)];
    calls.extend(rounds(&id("c", 10_000)));
    calls
}

/// The calls around 100 Early records of a Call-ID.
fn at_most_early() -> Vec<Call> {
    let up = [put("e", 200, Confirmed), put("e", 201, Terminated), put("e", 99, Early)];
    let at_limit = [
        put("e", 100, Early),
        put("e", 200, Early),
        put("e", 201, Early),
        put("e", 7, Early),
        put("e", 204, Confirmed),
        put("e", 205, Terminated),
        put("d", 0, Early),
        Call::Terminate(texts_of(&id("e", 3))),
        put("e", 200, Early),
        put("e", 100, Early),
        Call::Sweep,
        put("e", 100, Early),
        Call::Count,
    ];
    [up.as_slice(), &at_limit].concat()
}

/// The calls on 101 Early records of a Call-ID.
fn over_most_early() -> Vec<Call> {
    let mut calls = vec![
        put("e", 5, Early),
        put("e", 101, Early),
        put("e", 5, Confirmed),
        put("e", 102, Early),
    ];
    calls.extend(rounds(&id("e", 7)));
    calls
}

/// Records all of them; the rows and sides of bounds that they meet.
pub fn record(writer: &mut Writer) -> BTreeSet<Key> {
    let mut met = BTreeSet::new();
    full(writer, &mut met);
    short(writer, &mut met, "records", |seed| {
        let (mut run, mut random) = (Run::new(&[]), Random::new(seed, "recorded"));
        lists::list(&mut run, &mut random);
    });
    short(writer, &mut met, "RSeq numbers", |seed| {
        let (mut run, mut random) = (Run::new(&[]), Random::new(seed, "recorded"));
        rseq::lists::list(&mut run, &mut random);
    });
    short(writer, &mut met, "PRACK lists", |seed| {
        let (mut run, mut random) = (Run::new(&[]), Random::new(seed, "recorded"));
        prack::lists::list(&mut run, &mut random);
    });
    short(writer, &mut met, "records at another site", |seed| {
        let (mut run, mut random) = elsewhere(seed);
        lists::list(&mut run, &mut random);
    });
    short(writer, &mut met, "PRACK lists at another site", |seed| {
        let (mut run, mut random) = elsewhere(seed);
        prack::lists::list(&mut run, &mut random);
    });
    longest_list(writer, &mut met);
    full_run(writer, &mut met);
    short(writer, &mut met, "verdicts", |seed| {
        let (mut run, mut random) = (Run::new(&[]), Random::new(seed, "recorded"));
        verdicts::lists::list(&mut run, &mut random);
    });
    met
}

/// Records calls on a PRACK list of as many responses as any site allows, and one more; then the same store at a site that allows one
/// less.
fn longest_list(writer: &mut Writer, met: &mut BTreeSet<Key>) {
    let calls = captured(met, || {
        let (mut run, mut random) = elsewhere::<Pracks>(1);
        run.site = Settings {
            pending: 32,
            ..Settings::RUST
        };
        let mut list = List::new(&mut run, &mut random, &[], [0, 0]);
        list.each_roomy(&prack::directed::up_to(33));
        let store = list.sides.store.used_bytes().to_vec();
        run.site.pending = 31;
        prack::directed::over(&mut run, &mut random, &store);
    });
    writer.remark("a PRACK list of 32 responses");
    calls.iter().for_each(|call| writer.on_store(call));
}

/// A run at another site, whose calls are refused by 30 first.
fn elsewhere<K: Kind>(seed: u64) -> (Run<K>, Random) {
    let mut random = Random::new(seed, "recorded");
    let mut run = Run::of_sites(&[], Random::new(seed, "recorded settings"));
    run.site = settings::any(&mut random);
    (run, random)
}

/// Records calls on 4,095 verdicts and more that are alike, byte by byte, and on 4,097 of them.
fn full_run(writer: &mut Writer, met: &mut BTreeSet<Key>) {
    let store = [11; 4095 * ENTRY_SIZE];
    let calls = captured(met, || {
        let (mut run, mut random) = (Run::<Verdicts>::new(&[]), Random::new(1, "4,096 verdicts"));
        let mut list = List::new(&mut run, &mut random, &store, [0, 0]);
        for call in verdicts::most_calls(u64::from_be_bytes([11; 8])) {
            list.compare(&call, store.len() + 20);
        }
        verdicts::over_most(&mut run, &mut random, &[11; 4097 * ENTRY_SIZE]);
    });
    writer.remark("4,096 verdicts");
    calls.iter().for_each(|call| writer.on_store(call));
}

/// Records the lists on stores at and over their limits.
fn full(writer: &mut Writer, met: &mut BTreeSet<Key>) {
    let lists = [
        ("10,000 records", copies(9_999, "c", Confirmed), at_most_records()),
        (
            "10,001 records handed in",
            copies(10_001, "c", Confirmed),
            over_most_records(),
        ),
        (
            "100 Early records of a Call-ID",
            copies(99, "e", Early),
            at_most_early(),
        ),
        (
            "101 Early records handed in",
            copies(101, "e", Early),
            over_most_early(),
        ),
    ];
    for (remark, copies, calls) in lists {
        writer.remark(remark);
        writer.copies(&[copies], 400);
        let used = writer.memory().len() - 400;
        let store = writer.memory()[..used].to_vec();
        let calls = captured(met, || {
            let (mut run, mut random) = (Run::<Dialogs>::new(&[]), Random::new(1, remark));
            let mut list = List::new(&mut run, &mut random, &store, [0, 0]);
            for call in &calls {
                list.compare(call, store.len() + 300);
            }
        });
        calls.iter().for_each(|call| writer.on_store(call));
    }
}

/// Records the first short lists of a kind of store.
fn short(writer: &mut Writer, met: &mut BTreeSet<Key>, what: &str, list: impl Fn(u64)) {
    let mut recorded = 0;
    for seed in 1.. {
        let mut keys = BTreeSet::new();
        let calls = captured(&mut keys, || list(seed));
        let bytes: usize = calls.iter().map(|call| call.line().len() + call.given.len()).sum();
        if calls.len() > 5 && calls.len() <= MOST_CALLS && bytes <= MOST_BYTES {
            writer.remark(&format!("a list of calls on a store of {what}"));
            calls.iter().for_each(|call| writer.on_store(call));
            met.append(&mut keys);
            recorded += 1;
        }
        if recorded == SHORT_LISTS {
            return;
        }
    }
}

/// The calls that are compared meanwhile; the rows and sides of bounds that they meet.
fn captured(met: &mut BTreeSet<Key>, work: impl FnOnce()) -> Vec<super::StoreCall> {
    RECORDER.with_borrow_mut(|recorder| recorder.as_mut().expect("a recorder").list = Some(Vec::new()));
    work();
    RECORDER.with_borrow_mut(|recorder| {
        let recorder = recorder.as_mut().expect("a recorder");
        met.append(&mut recorder.in_lists);
        recorder.list.take().expect("a list")
    })
}
