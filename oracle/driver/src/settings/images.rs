//! The operations on one image and the listing, at other sites: the calls of each with settings of their own.

use super::{any, each_site, meet_beside, meet_input, name_of, one, ELSEWHERE};
use crate::answer::{Answer, Input};
use crate::bounds;
use crate::dialogs;
use crate::dialogs::updates::{make_request_at, REQUEST};
use crate::dialogs::{image, records};
use crate::random::Random;
use crate::rules::LISTING;
use crate::run::{compare_each, Feed, Operation};
use port::Settings;
use std::sync::OnceLock;

/// The operations that are given settings and no store.
pub fn operations() -> Vec<&'static Operation> {
    static ALL: OnceLock<Vec<Operation>> = OnceLock::new();
    let of_image = |operation: &&'static Operation| operation.name.starts_with("image_") || operation.name == LISTING;
    ALL.get_or_init(|| dialogs::all().into_iter().filter(of_image).map(elsewhere).collect())
        .iter()
        .collect()
}

/// Compares all of them. `planted` says which have their fault put in, and which other faults are.
pub fn compare_all(calls: usize, seed: u64, planted: impl Fn(&str) -> bool) -> Vec<Feed<'static>> {
    compare_each(operations(), super::IMAGE_FAULTS, calls, seed, planted)
}

/// An operation at other sites.
fn elsewhere(base: &'static Operation) -> Operation {
    Operation {
        name: name_of(base.name),
        against: "the run's own rules, which at the Rust's figures are the Rust's",
        rows: [base.rows, &[30]].concat().leak(),
        inputs: each_input,
        fault: "30 comes after 3",
        distort: |input, answer| {
            if answer.number == 30 && image::decode_all(input.texts[0]).is_none() {
                answer.number = 3;
            }
        },
        ..*base
    }
}

/// The operation at the Rust's figures.
pub fn base_of(name: &str) -> &'static Operation {
    let name = name.strip_suffix(ELSEWHERE);
    let all = dialogs::all();
    let base = all.into_iter().find(|operation| Some(operation.name) == name);
    base.expect("an operation on one image, or the listing")
}

/// The calls of the operation at the Rust's figures, each with settings of its own; requests around the site's jump.
fn each_input(feed: &mut Feed) {
    let base = base_of(feed.operation().name);
    bounds::quietly(|| (base.inputs)(feed));
    if base.name == REQUEST {
        bounds::quietly(|| each_request(feed));
    }
}

/// How often requests are made at each site.
const TIMES: usize = 400;

/// Requests on records of any remote number, at the sites of each bound and at others.
fn each_request(feed: &mut Feed) {
    let others: Vec<Settings> = (0..16 + feed.calls / 100).map(|_| any(&mut feed.random)).collect();
    for site in each_site().into_iter().chain(others) {
        for _ in 0..TIMES {
            let image = record(&mut feed.random);
            let call = make_request_at(&mut feed.random, &image, site);
            feed.compare(&call.input());
        }
    }
}

/// An image, mostly of a record with a remote number.
fn record(random: &mut Random) -> Vec<u8> {
    let image = records::record(random);
    let is_new = image::decode(&image).is_none_or(|record| record.dialog.remote_cseq() == 0);
    match is_new && !random.one_in(4) {
        true => record(random),
        false => image,
    }
}

/// A call with settings of its own, if it has the Rust's.
pub fn at_site<'a>(random: &mut Random, input: &Input<'a>) -> Input<'a> {
    let mut input = *input;
    if input.settings == Settings::RUST {
        input.settings = one(random);
    }
    input
}

/// The expected number at a site. Where it is 30, it is counted what stands beside.
pub fn expect(operation: &Operation, input: &Input, answer: &mut Answer) -> u8 {
    meet_input(operation.name, input);
    let mut beside = answer.clone();
    let expect =
        |input: &Input, answer: &mut Answer| bounds::quietly(|| (operation.expect)(input, answer)).err().unwrap_or(0);
    let number = expect(input, answer);
    if number == 30 {
        let settings = Settings::RUST;
        meet_beside(operation.name, expect(&Input { settings, ..*input }, &mut beside));
    }
    number
}
