//! metrics.rs's two counts. The Rust's counter starts at 0 and can only be counted up, so it is asked for the first
//! numbers one after another; above them, and at the largest, where the Rust would overflow, document 01 decides: one
//! more, stopping at the largest.

use crate::answer::{Answer, Input, Out, Width};
use crate::run::{Feed, Operation};
use sip_dialog::metrics::{DialogMetrics, DialogMetricsSnapshot};
use std::cell::RefCell;

const COUNT: &[Out] = &[("answer", Width::U64)];

pub const OPERATIONS: &[Operation] = &[
    Operation {
        name: "record_created",
        against: "Rust record_created up to 20,000, 01 above",
        texts: &[],
        numbers: &["created"],
        outs: COUNT,
        rows: &[0],
        expect: |input, answer| expect(input, answer, DialogMetrics::record_created, |s| s.created),
        ask: |input, answer| {
            answer.outs[0] = port::record_created(input.numbers[0]);
            0
        },
        inputs: each_count,
        fault: "the count has 32 bits",
        distort: |_, answer| answer.outs[0] &= 0xffff_ffff,
    },
    Operation {
        name: "record_terminated",
        against: "Rust record_terminated up to 20,000, 01 above",
        texts: &[],
        numbers: &["terminated"],
        outs: COUNT,
        rows: &[0],
        expect: |input, answer| expect(input, answer, DialogMetrics::record_terminated, |s| s.terminated),
        ask: |input, answer| {
            answer.outs[0] = port::record_terminated(input.numbers[0]);
            0
        },
        inputs: each_count,
        fault: "the count stops one below its largest",
        distort: |_, answer| answer.outs[0] = answer.outs[0].min(u64::MAX - 1),
    },
];

/// The Rust is asked up to this number.
const ASKED: u64 = 20_000;

/// The first numbers in order, then those around the bounds of the widths, then any.
fn each_count(feed: &mut Feed) {
    for count in 0..ASKED {
        feed.compare(&Input::number(count));
    }
    for bound in [1 << 16, 1 << 31, 1 << 32, 1 << 53, 1 << 63] {
        for count in bound - 2..bound + 2 {
            feed.compare(&Input::number(count));
        }
    }
    for below in 0..4 {
        feed.compare(&Input::number(u64::MAX - below));
    }
    for _ in 0..1000 {
        let count = feed.random.next() >> feed.random.below(48);
        feed.compare(&Input::number(count));
    }
}

thread_local! {
    /// The Rust's counter, and the number that it has reached.
    static COUNTER: RefCell<(DialogMetrics, u64)> = RefCell::new((DialogMetrics::new(), 0));
}

/// The Rust's count where it can be asked, else document 01's.
fn expect(
    input: &Input,
    answer: &mut Answer,
    record: fn(&DialogMetrics),
    read: fn(&DialogMetricsSnapshot) -> u64,
) -> Result<(), u8> {
    let count = input.numbers[0];
    answer.outs[0] = if count < ASKED {
        COUNTER.with_borrow_mut(|counter| counted(counter, count, record, read))
    } else {
        count.saturating_add(1)
    };
    Ok(())
}

/// Counts the Rust's counter up to `count`, a fresh one if need be, and then once more.
fn counted(
    counter: &mut (DialogMetrics, u64),
    count: u64,
    record: fn(&DialogMetrics),
    read: fn(&DialogMetricsSnapshot) -> u64,
) -> u64 {
    let (metrics, reached) = counter;
    if *reached > count || read(&metrics.snapshot()) != *reached {
        *metrics = DialogMetrics::new();
        *reached = 0;
    }
    while *reached <= count {
        record(metrics);
        *reached += 1;
    }
    read(&metrics.snapshot())
}
