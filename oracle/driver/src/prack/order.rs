//! Calls with every choice of causes to be refused at once, which show the order in which they are tried. Each is on a store
//! of three entries, handed in.

use super::call::{Action, Call, Pracks};
use super::layout::{encode, Entry, RESPONSE};
use super::lists::three;
use super::steps::LONG;
use crate::random::Random;
use crate::rules::LONGEST;
use crate::store::entries::{chosen, lent_for, ROOMS, STORES};
use crate::store::run::{Run, Sides};
use crate::texts::each_choice;

/// The time: that of the last cleanups, 300 s later, or earlier.
const TIMES: [u64; 3] = [LONG, 2 * LONG, 1];

/// The longest, one more, and the most that two length bytes can say.
const LENGTHS: [usize; 3] = [LONGEST, LONGEST + 1, u16::MAX as usize];

/// All of them.
pub fn each(run: &mut Run<Pracks>, random: &mut Random) {
    let ids = ids();
    each_choice(&[ids.len(), TIMES.len(), STORES, ROOMS], &mut |choice| {
        let id = &ids[choice[0]];
        for action in actions(TIMES[choice[1]]) {
            let call = Call { id: id.clone(), action };
            give(run, random, &call, [choice[2], choice[3]]);
        }
    });
}

/// The three, one that isn't held, the longest, and two that are too long.
fn ids() -> Vec<Vec<u8>> {
    let held = three().map(|entry| entry.id);
    let others = LENGTHS.map(|length| vec![b'x'; length]);
    held.into_iter().chain([b"b".to_vec()]).chain(others).collect()
}

/// Every call: methods that are none, blocks that are too long, malformed, or have every fault of a RAck.
fn actions(time: u64) -> Vec<Action> {
    let mut actions = vec![Action::RemoveDialog];
    for method in [0, 1, 14, 15, 255] {
        actions.push(Action::Register {
            rseq: 2,
            cseq: 1,
            method,
            code: 183,
            time,
        });
    }
    for block in blocks() {
        actions.push(Action::Validate { block, time });
    }
    for rseq in [1, 2, 3] {
        actions.extend([Action::IsPracked { rseq }, Action::RemovePracked { rseq }]);
    }
    actions.extend([0, 5, 6, 7].map(|room| Action::GetPending { time, room }));
    actions
}

/// RAcks of the held responses and others; then the same with a malformed end, and too long.
fn blocks() -> Vec<Vec<u8>> {
    let values = [
        "RAck:1 1 INVITE\r\n",
        "RAck:2 1 INVITE\r\n",
        "RAck:2 2 INVITE\r\n",
        "RAck:2 1 ACK\r\n",
        "RAck:1 2 ACK\r\n",
        "RAck:3 1 INVITE\r\n",
        "RAck:1 1\r\n",
        "",
    ];
    let whole = values.map(|value| value.as_bytes().to_vec());
    let malformed = values.map(|value| [value, "\r\n"].concat().into_bytes());
    let filled = |length: usize| {
        let filling = vec![b'x'; length - values[0].len() - 4];
        [values[0].as_bytes(), b"Q:", &filling, b"\r\n"].concat()
    };
    let mut too_long = filled(LENGTHS[1]);
    too_long[1] = b'\r';
    let long = [filled(LENGTHS[0]), filled(LENGTHS[1]), too_long];
    whole.into_iter().chain(malformed).chain(long).collect()
}

/// Compares a call on the store so chosen.
fn give(run: &mut Run<Pracks>, random: &mut Random, call: &Call, [store, room]: [usize; 2]) {
    let (damage, bytes) = chosen(store, three(), encode);
    let mut sides = Sides::damaged(random, run.site, &bytes, [0, 0], damage);
    let lent = lent_for([store, room], bytes.len(), growth(&three(), call));
    sides.store.grow(random, lent + SPARE);
    run.compare(&mut sides, call, lent);
}

/// So many bytes lie behind the lent ones.
const SPARE: usize = 24;

/// How many bytes a call adds, if it cleans nothing.
fn growth(entries: &[Entry], call: &Call) -> usize {
    let held = entries.iter().find(|entry| entry.id == call.id);
    let response = match call.action {
        Action::Register { .. } => RESPONSE + usize::from(held.is_none_or(|entry| entry.list.is_none())),
        _ => 0,
    };
    let new = match held {
        None if call.time().is_some() => 2 + call.id.len() + 9,
        _ => 0,
    };
    new + response
}
