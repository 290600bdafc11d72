//! Planted faults: each changes what the port answered to calls of one operation, and each must be reported.

use super::book::{last_ones, taken, MINUTE};
use super::call::{Call, Verdicts, ADD, WORST};
use super::layout::{decode, encode, read_loosely, Verdict, ENTRY_SIZE, MOST};
use crate::store::memory::{Left, Store};
use crate::store::run;

type Scene<'a> = run::Scene<'a, Verdicts>;
type Fault = run::Fault<Verdicts>;

pub const FAULTS: &[Fault] = &[
    Fault {
        name: "add_verdict",
        operation: ADD,
        what: "a time below the last one is kept as it was given",
        distort: |scene, left| {
            if let (0, Call::Add { time, .. }) = (left.number, scene.call) {
                rewrite(left, |run| run.last_mut().expect("a verdict").0 = *time);
            }
        },
    },
    Fault {
        name: "add_verdict-newest",
        operation: ADD,
        what: "the 4,097th takes the place of the newest",
        distort: |scene, left| {
            if dropped(scene, left) {
                let added = verdicts(&left.store)[MOST - 1];
                let mut run = verdicts(&scene.before.store);
                run[MOST - 1] = added;
                left.store.write(&encode(&run));
            }
        },
    },
    Fault {
        name: "add_verdict-4095",
        operation: ADD,
        what: "the 4,096th drops the oldest",
        distort: |_, left| {
            if left.number == 0 && left.store.used == MOST * ENTRY_SIZE {
                let run = verdicts(&left.store);
                left.store.write(&encode(&run[1..]));
            }
        },
    },
    Fault {
        name: "add_verdict-number",
        operation: ADD,
        what: "every refusal is kept as 1",
        distort: |_, left| {
            if left.number == 0 {
                rewrite(left, |run| {
                    let last = run.last_mut().expect("a verdict");
                    last.1 = last.1.min(1);
                });
            }
        },
    },
    Fault {
        name: "add_verdict-front",
        operation: ADD,
        what: "the newest is put first",
        distort: |_, left| {
            if left.number == 0 {
                rewrite(left, |run| run.rotate_right(1));
            }
        },
    },
    Fault {
        name: "add_verdict-18",
        operation: ADD,
        what: "18 while bytes are free: an exact fit is refused",
        distort: run::refuse_exact_fit,
    },
    Fault {
        name: "add_verdict-byte",
        operation: ADD,
        what: "the byte past the used length is touched",
        distort: |_, left| left.store.touch(left.store.used),
    },
    Fault {
        name: "add_verdict-used",
        operation: ADD,
        what: "a refused call moves the used length",
        distort: |_, left| left.store.used ^= usize::from(left.number != 0),
    },
    Fault {
        name: "add_verdict-lent",
        operation: ADD,
        what: "a used length over the lent one is taken",
        distort: run::lend_all,
    },
    Fault {
        name: "worst_minute",
        operation: WORST,
        what: "the end is included",
        distort: |_, left| {
            recount(left, |run| {
                worst_by(run, |_| true, |start, time| time - start <= MINUTE, false)
            })
        },
    },
    Fault {
        name: "worst_minute-latest",
        operation: WORST,
        what: "the latest of the starts that have as many",
        distort: |_, left| recount(left, |run| worst_by(run, |_| true, within, true)),
    },
    Fault {
        name: "worst_minute-starts",
        operation: WORST,
        what: "60 s start at refusals alone",
        distort: |_, left| recount(left, |run| worst_by(run, |number| number != 0, within, false)),
    },
    Fault {
        name: "worst_minute-all",
        operation: WORST,
        what: "accepted verdicts are counted too",
        distort: |_, left| {
            recount(left, |run| {
                let all: Vec<Verdict> = run.iter().map(|(time, _)| (*time, 1)).collect();
                worst_by(&all, |_| true, within, false)
            });
        },
    },
    Fault {
        name: "worst_minute-empty",
        operation: WORST,
        what: "the empty run has a start",
        distort: |_, left| {
            if left.number == 0 && left.store.used == 0 {
                left.outs[1] = 1;
            }
        },
    },
    Fault {
        name: "worst_minute-start",
        operation: WORST,
        what: "the empty run's start is set to 0",
        distort: |_, left| {
            if left.number == 0 && left.store.used == 0 {
                left.outs[2] = 0;
            }
        },
    },
    Fault {
        name: "worst_minute-order",
        operation: WORST,
        what: "times that fall are taken",
        distort: |scene, left| {
            let read = read_loosely(left.store.used_bytes());
            if let (3, true, Some(run)) = (left.number, left.store.used <= scene.lent, read) {
                if run.len() <= MOST {
                    give(left, worst_by(&taken(&run), |_| true, within, false));
                }
            }
        },
    },
    Fault {
        name: "worst_minute-4097",
        operation: WORST,
        what: "a run of 4,097 is cut, and not refused",
        distort: |scene, left| {
            let read = read_loosely(left.store.used_bytes());
            if let (3, true, Some(run)) = (left.number, left.store.used <= scene.lent, read) {
                if run.len() > MOST {
                    give(left, worst_by(&last_ones(&run), |_| true, within, false));
                }
            }
        },
    },
    Fault {
        name: "worst_minute-lent",
        operation: WORST,
        what: "a used length over the lent one is taken",
        distort: run::lend_all,
    },
];

/// The verdicts of a run; none where it isn't one.
fn verdicts(store: &Store) -> Vec<Verdict> {
    decode(store.used_bytes()).unwrap_or_default()
}

/// Whether the oldest was dropped.
fn dropped(scene: &Scene, left: &Left) -> bool {
    left.number == 0 && scene.before.store.used == MOST * ENTRY_SIZE
}

/// Writes a run's verdicts anew; they are as many.
fn rewrite(left: &mut Left, change: impl FnOnce(&mut Vec<Verdict>)) {
    let mut run = verdicts(&left.store);
    change(&mut run);
    left.store.write(&encode(&run));
}

/// The start included, the end excluded.
fn within(start: u64, time: u64) -> bool {
    time - start < MINUTE
}

/// The worst minute by these rules; none where there is no start.
fn worst_by(
    run: &[Verdict],
    starts: impl Fn(u8) -> bool,
    within: impl Fn(u64, u64) -> bool,
    latest: bool,
) -> Option<(usize, u64)> {
    let mut worst: Option<(usize, u64)> = None;
    for (start, _) in run.iter().filter(|(_, number)| starts(*number)) {
        let counts = |(time, number): &&Verdict| *number != 0 && time >= start && within(*start, *time);
        let refusals = run.iter().filter(counts).count();
        if worst.is_none_or(|(most, _)| refusals > most || refusals == most && latest) {
            worst = Some((refusals, *start));
        }
    }
    worst
}

/// Another count of a short run that was read.
fn recount(left: &mut Left, count: impl FnOnce(&[Verdict]) -> Option<(usize, u64)>) {
    let run = verdicts(&left.store);
    if left.number == 0 && run.len() < 200 {
        give(left, count(&run));
    }
}

/// Answers this minute.
fn give(left: &mut Left, worst: Option<(usize, u64)>) {
    left.number = 0;
    left.outs = match worst {
        Some((refusals, start)) => [refusals as u64, 1, start],
        None => [0, 0, left.outs[2]],
    };
}
