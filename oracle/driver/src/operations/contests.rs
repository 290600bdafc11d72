//! Change request 12's contest over one offer of a session interval. The expected answer is gathered from the Rust's own
//! `negotiate_session_expires`: callees are tried, each one's first answer and, after 13, the answer to the retry; the least and
//! the most of what they reach is what can be forced. The bounds of an offer, which the Rust doesn't have, are the request's.

use crate::answer::{Answer, Input, Width};
use crate::bounds;
use crate::contest::{Callee, Figures, Offer, Reached};
use crate::random::Random;
use crate::run::{Feed, Operation};

pub const OPERATIONS: &[Operation] = &[Operation {
    name: "interval_contest",
    against: "Rust negotiate_session_expires over callees, 02 on offers",
    texts: &[],
    numbers: &["requested seconds", "Min-SE"],
    outs: &[
        ("has first", Width::U8),
        ("first least", Width::U64),
        ("first most", Width::U64),
        ("has retry", Width::U8),
        ("retry least", Width::U64),
        ("retry most", Width::U64),
        ("only requested", Width::U8),
        ("least", Width::U64),
    ],
    rows: &[0, 13, 14],
    expect,
    ask,
    inputs: each_offer,
    fault: "the least of the retry's answers is the request itself",
    distort: |_, answer| {
        if answer.number == 0 && answer.outs[3] == 1 {
            answer.outs[4] -= 1;
        }
    },
}];

/// Numbers at which an answer may turn.
fn edges() -> Vec<u64> {
    let around = |middle: u64| middle - 2..=middle + 2;
    let middles = [2, 90, 120, 1800, 86_399, 86_401, u64::from(u32::MAX), u64::MAX - 2];
    middles.into_iter().flat_map(around).collect()
}

/// All pairs of edges, then random offers, mostly within the bounds or near them.
fn each_offer(feed: &mut Feed) {
    let edges = edges();
    for requested in &edges {
        for min_se in &edges {
            feed.compare(&Input::number(*requested).and_number(1, *min_se));
        }
    }
    for _ in 0..feed.calls {
        let random = &mut feed.random;
        let requested = number(random, &edges);
        let min_se = match random.below(4) {
            0 => requested.saturating_add(random.below(3) as u64).saturating_sub(1),
            1 => 90 + random.next() % requested.max(1),
            _ => number(random, &edges),
        };
        feed.compare(&Input::number(requested).and_number(1, min_se));
    }
}

/// A number at an edge, within the bounds, or any.
fn number(random: &mut Random, edges: &[u64]) -> u64 {
    match random.below(4) {
        0 => random.pick(edges),
        1 | 2 => 90 + random.next() % 86_311,
        _ => random.next() >> random.below(64),
    }
}

/// The callees that are tried: each two numbers at which an answer may turn, and some that the offer picks by chance.
fn callees(offer: Offer) -> Vec<Callee> {
    let Figures { least, most } = Figures::OF_01;
    let Offer { requested, min_se } = offer;
    let mut random = Random::new(requested ^ min_se.rotate_left(32), "callees");
    let turns = [least, min_se, requested, most]
        .into_iter()
        .flat_map(|turn| turn - 1..=turn + 1);
    let chosen = (0..4)
        .map(|_| least + random.next() % (most - least + 3))
        .collect::<Vec<_>>();
    let mut numbers: Vec<u64> = turns.filter(|number| *number >= least).chain(chosen).collect();
    numbers.sort_unstable();
    numbers.dedup();
    let mut callees = Vec::new();
    for minimum in numbers.iter().copied() {
        for preference in numbers.iter().copied() {
            callees.push(Callee { minimum, preference });
        }
    }
    callees
}

/// The request's refusals of an offer, or what the callees reach by the Rust.
fn expect(input: &Input, answer: &mut Answer) -> Result<(), u8> {
    let [requested, min_se, ..] = input.numbers;
    let offer = Offer { requested, min_se };
    meet(offer);
    if let Some((number, least)) = Figures::OF_01.refuse(offer) {
        if let Some(least) = least {
            answer.outs[7] = least;
        }
        return Err(number);
    }
    let reached = Reached::by(&Figures::OF_01, offer, callees(offer));
    for (at, extent) in [(0, reached.first_extent()), (3, reached.retry_extent())] {
        answer.outs[at] = u64::from(extent.is_some());
        if let Some([least, most]) = extent {
            answer.outs[at + 1] = least;
            answer.outs[at + 2] = most;
        }
    }
    answer.outs[6] = u64::from(reached.only(requested));
    Ok(())
}

/// The sides of bounds that an offer is on.
fn meet(offer: Offer) {
    let Offer { requested, min_se } = offer;
    let name = OPERATIONS[0].name;
    bounds::number(name, "Min-SE", min_se);
    bounds::number(name, "request", requested);
    if Figures::OF_01.refuse(offer).is_none() {
        bounds::above(name, "request above Min-SE", requested, min_se);
        bounds::above(name, "most above request", Figures::OF_01.most, requested);
    } else if min_se >= Figures::OF_01.least {
        bounds::above(name, "request above Min-SE, refused", requested, min_se);
    }
}

/// The port's answer.
fn ask(input: &Input, answer: &mut Answer) -> u8 {
    let [requested, min_se, ..] = input.numbers;
    let outs = &mut answer.outs;
    let mut contest = port::Contest {
        has_first: outs[0] as u8,
        first: [outs[1], outs[2]],
        has_retry: outs[3] as u8,
        retry: [outs[4], outs[5]],
        only_requested: outs[6] as u8,
        least: outs[7],
    };
    let number = port::interval_contest(requested, min_se, &mut contest);
    *outs = [
        u64::from(contest.has_first),
        contest.first[0],
        contest.first[1],
        u64::from(contest.has_retry),
        contest.retry[0],
        contest.retry[1],
        u64::from(contest.only_requested),
        contest.least,
    ];
    number
}
