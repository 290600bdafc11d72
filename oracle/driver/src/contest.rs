//! One offer of a session interval as a contest (change request 12): the callee's answers by the Rust's own
//! `negotiate_session_expires`, first and, after 13, to the retry. What is shown for all numbers is held against it: with small
//! figures for every callee, with document 01's for callees by chance.

use crate::random::Random;
use sip_dialog::session_timer_manager::negotiate_session_expires;
use std::collections::BTreeSet;
use std::time::Duration;

/// The least number of each side and the most that a caller may request, in seconds.
#[derive(Debug, Clone, Copy)]
pub struct Figures {
    pub least: u64,
    pub most: u64,
}

/// The caller's request and Min-SE.
#[derive(Debug, Clone, Copy)]
pub struct Offer {
    pub requested: u64,
    pub min_se: u64,
}

impl Offer {
    /// The offer after 13: its minimum as both numbers.
    fn of_retry(minimum: u64) -> Offer {
        Offer {
            requested: minimum,
            min_se: minimum,
        }
    }
}

/// The callee's minimum and preference.
#[derive(Debug, Clone, Copy)]
pub struct Callee {
    pub minimum: u64,
    pub preference: u64,
}

impl Figures {
    pub const OF_01: Figures = Figures {
        least: 90,
        most: 86_400,
    };

    /// Why an offer is turned back, in the request's order: the number, and the minimum of 13.
    pub fn refuse(&self, offer: Offer) -> Option<(u8, Option<u64>)> {
        let Offer { requested, min_se } = offer;
        if min_se < self.least {
            Some((13, Some(self.least)))
        } else if requested < min_se {
            Some((13, Some(min_se)))
        } else if requested > self.most {
            Some((14, None))
        } else {
            None
        }
    }
}

/// The Rust's answer of a callee to an offer: the interval, or the minimum that comes with 13.
fn answer(offer: Offer, callee: Callee) -> Result<u64, u64> {
    let negotiated = negotiate_session_expires(
        Duration::from_secs(offer.requested),
        Duration::from_secs(callee.minimum),
        Some(Duration::from_secs(offer.min_se)),
        Some(Duration::from_secs(callee.preference)),
    );
    let seconds = |time: Duration| {
        assert_eq!(time.subsec_nanos(), 0, "whole seconds come to whole seconds");
        time.as_secs()
    };
    negotiated.map(seconds).map_err(seconds)
}

/// What callees reach.
#[derive(Debug, Default)]
pub struct Reached {
    /// The intervals of first answers and of answers to the retry, and the minima that came with a first 13.
    pub first: BTreeSet<u64>,
    pub retry: BTreeSet<u64>,
    pub refused: BTreeSet<u64>,
    /// The minima of callees with which the contest ended without an interval, and of those that refused the retry.
    pub without: BTreeSet<u64>,
    pub refused_again: BTreeSet<u64>,
    pub callees: u64,
}

impl Reached {
    /// By these callees.
    pub fn by(figures: &Figures, offer: Offer, callees: impl IntoIterator<Item = Callee>) -> Reached {
        let mut reached = Reached::default();
        for callee in callees {
            reached.add(figures, offer, callee);
        }
        reached
    }

    /// By one more: its first answer, and after 13 the answer to the one retry.
    fn add(&mut self, figures: &Figures, offer: Offer, callee: Callee) {
        self.callees += 1;
        let minimum = match answer(offer, callee) {
            Ok(interval) => {
                self.first.insert(interval);
                return;
            }
            Err(minimum) => minimum,
        };
        self.refused.insert(minimum);
        if minimum > figures.most {
            self.without.insert(callee.minimum);
            return;
        }
        match answer(Offer::of_retry(minimum), callee) {
            Ok(interval) => self.retry.insert(interval),
            Err(_) => self.refused_again.insert(callee.minimum),
        };
    }

    /// The least and the most interval of a first answer, or none.
    pub fn first_extent(&self) -> Option<[u64; 2]> {
        extent(&self.first)
    }

    /// The least and the most interval of an answer to the retry, or none.
    pub fn retry_extent(&self) -> Option<[u64; 2]> {
        extent(&self.retry)
    }

    /// Whether no first answer was another interval than the request.
    pub fn only(&self, requested: u64) -> bool {
        self.first.iter().all(|interval| *interval == requested)
    }
}

/// The ends of a set.
fn extent(set: &BTreeSet<u64>) -> Option<[u64; 2]> {
    Some([*set.first()?, *set.last()?])
}

/// What is shown for all numbers, held against what every callee of small figures reaches.
fn as_shown(figures: &Figures, offer: Offer, reached: &Reached, largest: u64) -> bool {
    let Offer { requested, min_se } = offer;
    reached.first == (min_se..=requested).collect()
        && reached.refused == (requested + 1..=largest).collect()
        && reached.retry == (requested + 1..=figures.most).collect()
        && reached.without == (figures.most + 1..=largest).collect()
        && reached.refused_again.is_empty()
        && reached.only(requested) == (min_se == requested)
}

/// Whether one callee's answers are as shown.
fn answers_as_shown(figures: &Figures, offer: Offer, callee: Callee) -> bool {
    let Offer { requested, min_se } = offer;
    let first = answer(offer, callee);
    if callee.minimum <= requested {
        return matches!(first, Ok(interval) if (min_se..=requested).contains(&interval));
    }
    if first != Err(callee.minimum) {
        return false;
    }
    callee.minimum > figures.most || answer(Offer::of_retry(callee.minimum), callee) == Ok(callee.minimum)
}

/// What is shown, held against the Rust's negotiation: with small figures for every callee, with 01's for some by chance. Says
/// whether all is as shown.
pub fn brute_force(seed: u64) -> bool {
    let every = every_callee();
    let some = callees_by_chance(seed);
    println!();
    every && some
}

/// At most so many that aren't as shown are printed.
const MOST_SHOWN: u64 = 3;

/// The small figures: the least from 1 to this, the most up to so many above it; callees go so far above the most.
const LARGEST_LEAST: u64 = 4;
const WIDEST: u64 = 12;
const ABOVE: u64 = 3;

/// Tries every callee on every offer of small figures, and prints how many.
fn every_callee() -> bool {
    let (mut offers, mut callees, mut differing) = (0u64, 0u64, 0u64);
    for least in 1..=LARGEST_LEAST {
        for most in least..=least + WIDEST {
            let figures = Figures { least, most };
            let largest = most + ABOVE;
            for offer in each_offer(&figures) {
                let reached = Reached::by(&figures, offer, each_callee(least, largest));
                offers += 1;
                callees += reached.callees;
                if !as_shown(&figures, offer, &reached, largest) {
                    differing += 1;
                    if differing <= MOST_SHOWN {
                        println!("differing: interval contest, {figures:?}, {offer:?}: {reached:?}");
                    }
                }
            }
        }
    }
    println!("interval contest, small figures: {offers} offers, {callees} callees, {differing} offers not as shown");
    differing == 0 && offers > 0
}

/// So many offers by chance, and so many callees of each.
const OFFERS: u64 = 5_000;
const CALLEES: u64 = 200;

/// Tries callees by chance on offers by chance, with 01's figures, and prints how many.
fn callees_by_chance(seed: u64) -> bool {
    let figures = Figures::OF_01;
    let mut random = Random::new(seed, "contest");
    let mut differing = 0;
    for _ in 0..OFFERS {
        let requested = number_to(&mut random, figures.least, figures.most);
        let min_se = number_to(&mut random, figures.least, requested);
        let offer = Offer { requested, min_se };
        for _ in 0..CALLEES {
            let callee = Callee {
                minimum: callee_number(&mut random, offer),
                preference: callee_number(&mut random, offer),
            };
            if !answers_as_shown(&figures, offer, callee) {
                differing += 1;
                if differing <= MOST_SHOWN {
                    println!("differing: interval contest, {offer:?}, {callee:?}");
                }
            }
        }
    }
    println!(
        "interval contest, 01's figures: {OFFERS} offers, {} callees, {differing} not as shown",
        OFFERS * CALLEES
    );
    differing == 0
}

/// A number between two, mostly near an end.
fn number_to(random: &mut Random, least: u64, most: u64) -> u64 {
    let off = random.next() % (most - least + 1);
    match random.below(4) {
        0 => least + off % 3.min(most - least + 1),
        1 => most - off % 3.min(most - least + 1),
        _ => least + off,
    }
}

/// A callee's number: near the offer's, near the most, or any that is large enough.
fn callee_number(random: &mut Random, offer: Offer) -> u64 {
    let Figures { least, most } = Figures::OF_01;
    let near = [offer.min_se, offer.requested, most][random.below(3)];
    let number = match random.below(4) {
        0 | 1 => near - 2 + random.next() % 5,
        2 => least + random.next() % (most - least + 3),
        _ => random.next() >> (30 + random.below(30)),
    };
    number.max(least)
}

/// Every offer within the figures.
fn each_offer(figures: &Figures) -> impl Iterator<Item = Offer> {
    let Figures { least, most } = *figures;
    let with_min_se = move |min_se: u64| (min_se..=most).map(move |requested| Offer { requested, min_se });
    (least..=most).flat_map(with_min_se)
}

/// Every callee from the least number to the largest.
fn each_callee(least: u64, largest: u64) -> impl Iterator<Item = Callee> {
    let with_minimum = move |minimum: u64| (least..=largest).map(move |preference| Callee { minimum, preference });
    (least..=largest).flat_map(with_minimum)
}
