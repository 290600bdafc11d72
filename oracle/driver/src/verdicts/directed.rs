//! Lists for two verdicts around 60 s apart, and for runs at and over 4,096 verdicts.

use super::book::MINUTE;
use super::call::{Call, Verdicts};
use super::layout::{encode, Verdict, ENTRY_SIZE, MOST};
use super::lists::{number, time};
use crate::random::Random;
use crate::store::kind::Damage;
use crate::store::lists::List;
use crate::store::run::{Run, Sides};

/// A verdict.
fn add((time, number): Verdict) -> Call {
    Call::Add { time, number }
}

/// How far a verdict is behind another.
const APART: [u64; 7] = [0, 1, MINUTE - 1, MINUTE, MINUTE + 1, 2 * MINUTE - 1, 2 * MINUTE];

/// Where the first of two stands.
const FIRSTS: [u64; 5] = [0, 1, MINUTE, u64::MAX - 2 * MINUTE, u64::MAX - MINUTE];

/// Three verdicts, each so far behind the one before it, accepted and refused in every way; then one of the time before. The numbers at
/// which a time could go wrong are among them.
pub fn each_pair(run: &mut Run<Verdicts>, random: &mut Random) {
    for first in FIRSTS {
        for second in APART {
            for third in APART {
                for refused in 0..8u8 {
                    let number = |place: u8| if refused >> place & 1 == 1 { 1 + place } else { 0 };
                    let times = [
                        first,
                        first.saturating_add(second),
                        first.saturating_add(second).saturating_add(third),
                    ];
                    let mut calls: Vec<Call> = (0..3)
                        .map(|place| add((times[usize::from(place)], number(place))))
                        .collect();
                    calls.extend([Call::Worst, add((first, 7)), Call::Worst]);
                    List::new(run, random, &[], [0, 0]).each_roomy(&calls);
                }
            }
        }
    }
}

/// The damage that only the number of entries has.
const TOO_MANY: Damage = "4,097 verdicts";

/// How often each list is gone through, and how often the one from 4,095 verdicts each time.
const TIMES: usize = 3;
const TIMES_BELOW: usize = 8;

/// From a few verdicts below 4,096 over it, with every way that the times can go; from 4,095; 5,000 from an empty run; 4,097 handed in.
pub fn each_full(run: &mut Run<Verdicts>, random: &mut Random) {
    for turn in 0..TIMES {
        let verdicts = rising(random, MOST - 4, turn);
        let mut list = List::new(run, random, &encode(&verdicts), [0, 0]);
        for _ in 0..24 {
            let call = add((time(list.random, list.sides.book()), number(list.random)));
            let done = list.each(&[call]) && list.each_roomy(&[Call::Worst]);
            if !done {
                return;
            }
        }
        for _ in 0..TIMES_BELOW {
            from_one_below(run, random, turn);
        }
        over(run, random, turn);
    }
    from_nothing(run, random);
    back(run, random);
}

/// So many verdicts: of one time, of two, or one each second.
fn rising(random: &mut Random, many: usize, turn: usize) -> Vec<Verdict> {
    let time = |at: usize| match turn {
        0 => 5,
        1 => (at as u64 / 2048) * MINUTE,
        _ => at as u64 * 1_000_000_000,
    };
    (0..many).map(|at| (time(at), number(random))).collect()
}

/// From 4,095 verdicts to 4,096, and one more, which drops the oldest; the worst minute before and after each.
fn from_one_below(run: &mut Run<Verdicts>, random: &mut Random, turn: usize) {
    let verdicts = rising(random, MOST - 1, turn);
    let mut list = List::new(run, random, &encode(&verdicts), [0, 0]);
    for _ in 0..2 {
        let call = add((time(list.random, list.sides.book()), number(list.random)));
        if !list.each_roomy(&[Call::Worst, call]) {
            return;
        }
    }
    list.each_roomy(&[Call::Worst]);
}

/// Both operations on 4,097 verdicts, which are no run.
fn over(run: &mut Run<Verdicts>, random: &mut Random, turn: usize) {
    let bytes = encode(&rising(random, MOST + 1, turn));
    for call in [add((time_of_end(&bytes), 11)), Call::Worst].repeat(8) {
        let mut other = Sides::damaged(random, run.site, &bytes, [0, 0], TOO_MANY);
        let lent = bytes.len() + random.below(ENTRY_SIZE + 1);
        run.compare(&mut other, &call, lent);
    }
}

/// The last time.
fn time_of_end(bytes: &[u8]) -> u64 {
    let last = &bytes[bytes.len() - ENTRY_SIZE..];
    u64::from_be_bytes(*last.first_chunk().expect("eight bytes"))
}

/// 5,000 verdicts from an empty run, a second apart, one in 50 of them back.
fn from_nothing(run: &mut Run<Verdicts>, random: &mut Random) {
    let mut list = List::new(run, random, &[], [0, 0]);
    for at in 0..5_000u64 {
        let back = if list.random.one_in(50) { 100 } else { 0 };
        let call = add((at.saturating_sub(back) * 1_000_000_000, number(list.random)));
        if !list.each_roomy(&[call]) || at % 500 == 499 && !list.each_roomy(&[Call::Worst]) {
            return;
        }
    }
}

/// 10^12, then 4,096 times 0, all refused: the first is dropped, and its time stays.
fn back(run: &mut Run<Verdicts>, random: &mut Random) {
    let mut calls = vec![add((1_000_000_000_000, 11))];
    calls.extend(vec![add((0, 11)); MOST]);
    calls.push(Call::Worst);
    List::new(run, random, &[], [0, 0]).each_roomy(&calls);
}

/// Both operations on 4,097 verdicts of one time.
pub fn over_most(run: &mut Run<Verdicts>, random: &mut Random, bytes: &[u8]) {
    for call in [add((time_of_end(bytes), 11)), Call::Worst] {
        let mut other = Sides::damaged(random, run.site, bytes, [0, 0], TOO_MANY);
        run.compare(&mut other, &call, bytes.len());
    }
}

/// Calls on 4,095 verdicts of this time, for the recorded answers.
pub fn most_calls(last: u64) -> Vec<Call> {
    vec![
        Call::Worst,
        add((last, 11)),
        Call::Worst,
        add((last, 0)),
        Call::Worst,
        add((0, 11)),
        Call::Worst,
        add((last + MINUTE, 12)),
        add((last + MINUTE - 1, 0)),
        Call::Worst,
    ]
}
