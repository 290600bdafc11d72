//! Lists of calls on stores at other sites, one site for a list's whole life: the directed lists at each bound of the figures, random
//! lists at any.

use super::{any, each_site};
use crate::prack::call::Pracks;
use crate::prack::layout::{encode, Entry};
use crate::prack::{calls, directed, lists, order};
use crate::random::Random;
use crate::store;
use crate::store::dialogs::Dialogs;
use crate::store::run::{Run, Sides};
use port::Settings;

/// The lists on a store of records.
pub fn on_records(run: &mut Run<Dialogs>, random: &mut Random, count: usize) {
    for _ in 0..ORDERS {
        run.site = any(random);
        store::order::each(run, random);
    }
    store::lists::each_broken(run, random);
    store::directed::full(run, random);
    for site in sites(random) {
        run.site = site;
        store::directed::at_most_early(run, random);
        store::directed::each_jump(run, random);
        for _ in 0..LISTS {
            store::lists::list(run, random);
        }
    }
    for _ in 0..count {
        run.site = any(random);
        store::lists::list(run, random);
    }
}

/// At so many sites every choice of causes to be refused at once is gone through.
const ORDERS: usize = 3;

/// Each site at a bound, and some others.
fn sites(random: &mut Random) -> Vec<Settings> {
    let mut sites = each_site();
    sites.extend((0..OTHERS).map(|_| any(random)));
    sites
}

/// So many others.
const OTHERS: usize = 12;

/// So many random lists at each bound of the figures, and how often others are gone through.
const LISTS: usize = 20;
const TIMES: usize = 12;

/// The lists on a PRACK store.
pub fn on_pracks(run: &mut Run<Pracks>, random: &mut Random, count: usize) {
    run.site = Settings {
        pending: 3,
        ..any(random)
    };
    order::each(run, random);
    lists::each_broken(run, random);
    for site in sites(random) {
        run.site = site;
        directed::each_time(run, random);
        directed::each_count(run, random);
        for _ in 0..TIMES {
            directed::each_age(run, random);
            each_longer(run, random);
        }
        for _ in 0..LISTS {
            lists::list(run, random);
        }
    }
    for _ in 0..count {
        run.site = any(random);
        lists::list(run, random);
    }
}

/// Every call on a store of three lists of which one is as long as the site allows, shorter by one, or longer by one.
fn each_longer(run: &mut Run<Pracks>, random: &mut Random) {
    let most = run.site.pending as usize;
    let ids: [&[u8]; 3] = [b"a", b"b", b"c"];
    for (at, asked) in [(0, 0), (0, 2), (1, 1), (2, 0)] {
        for length in [most - 1, most, most + 1] {
            let entries = ids.map(|id| of_length(random, id, 1));
            let mut entries = entries.to_vec();
            entries[at] = of_length(random, ids[at], length);
            let damage = if at == asked { directed::OWN } else { directed::OTHER };
            for call in lists::all(ids[asked], TIME) {
                let mut sides = Sides::damaged(random, run.site, &encode(&entries), [0, 0], damage);
                let lent = sides.store.size();
                run.compare(&mut sides, &call, lent);
            }
        }
    }
}

/// The time of these calls.
const TIME: u64 = 5_000_000_000;

/// An entry with so many responses.
fn of_length(random: &mut Random, id: &[u8], length: usize) -> Entry {
    let list = (0..length).map(|_| calls::response(random, TIME, TIME)).collect();
    Entry {
        id: id.to_vec(),
        cleaned_at: random.pick(&[0, TIME - 1]),
        list: Some(list),
    }
}
