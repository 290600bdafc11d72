//! Planted faults: each changes what the port answered to calls of one operation, and each must be reported. Most of them are
//! the run's own steps with one thing wrong.

use super::book::set;
use super::call::{Call, Pracks, GET_PENDING, IS_PRACKED, REGISTER, REMOVE_DIALOG, REMOVE_PRACKED, VALIDATE};
use super::expect::say;
use super::layout::{decode, encode, take_entry, Entry, MOST};
use super::steps::{step, Said, Step, Wrong};
use crate::dialogs::room;
use crate::rules;
use crate::store::memory::{Left, Store};
use crate::store::run;

type Scene<'a> = run::Scene<'a, Pracks>;
type Fault = run::Fault<Pracks>;

/// A fault that is a step with one thing wrong.
macro_rules! wrong {
    ($name:literal, $operation:ident, $wrong:ident, $what:literal) => {
        Fault {
            name: $name,
            operation: $operation,
            what: $what,
            distort: |scene, left| go_wrong(scene, left, Wrong::$wrong),
        }
    };
}

/// Any other.
const fn fault(
    name: &'static str,
    operation: &'static str,
    what: &'static str,
    distort: fn(&Scene, &mut Left),
) -> Fault {
    Fault {
        name,
        operation,
        what,
        distort,
    }
}

pub const FAULTS: &[Fault] = &[
    wrong!("prack_register", REGISTER, NeverCleans, "the list isn't cleaned"),
    wrong!(
        "prack_register-due",
        REGISTER,
        CleansLate,
        "a cleanup is due only beyond 300 s"
    ),
    wrong!(
        "prack_register-300",
        REGISTER,
        DropsAt300,
        "a cleanup drops what is exactly 300 s old"
    ),
    wrong!(
        "prack_register-acknowledged",
        REGISTER,
        KeepsAcknowledged,
        "a cleanup keeps acknowledged ones"
    ),
    wrong!(
        "prack_register-back",
        REGISTER,
        StoresTimeGoneBack,
        "a time that went back is stored as the last cleanup's"
    ),
    wrong!(
        "prack_register-newest",
        REGISTER,
        DropsNewest,
        "of ten the newest is dropped, not the oldest"
    ),
    wrong!(
        "prack_register-11",
        REGISTER,
        TakesEleven,
        "ten responses become eleven"
    ),
    wrong!(
        "prack_register-equal",
        REGISTER,
        Replaces,
        "a response of an equal RSeq is replaced"
    ),
    wrong!(
        "prack_register-rseq",
        REGISTER,
        StoresOtherRseq,
        "another RSeq is stored"
    ),
    wrong!(
        "prack_register-cseq",
        REGISTER,
        StoresOtherCseq,
        "another CSeq is stored"
    ),
    wrong!(
        "prack_register-code",
        REGISTER,
        StoresOtherCode,
        "another code is stored"
    ),
    fault(
        "prack_register-order",
        REGISTER,
        "a new text is put at the end",
        put_at_end,
    ),
    fault(
        "prack_register-18",
        REGISTER,
        "18 while bytes are free: an exact fit is refused",
        run::refuse_exact_fit,
    ),
    fault(
        "prack_register-byte",
        REGISTER,
        "the byte past the used length is touched",
        |_, left| {
            left.store.touch(left.store.used);
        },
    ),
    fault(
        "prack_register-used",
        REGISTER,
        "a refused call moves the used length",
        |_, left| {
            left.store.used ^= usize::from(left.number != 0);
        },
    ),
    wrong!(
        "prack_validate",
        VALIDATE,
        KeepsStoreOnRefusal,
        "cleanup is skipped on refusal"
    ),
    wrong!(
        "prack_validate-20",
        VALIDATE,
        EmptiedIsNone,
        "an emptied list is treated as none"
    ),
    wrong!(
        "prack_validate-last",
        VALIDATE,
        LastDecides,
        "the last of equal RSeqs decides"
    ),
    wrong!(
        "prack_validate-mark",
        VALIDATE,
        MarksLast,
        "the mark is on the last of the list"
    ),
    wrong!(
        "prack_validate-unmarked",
        VALIDATE,
        MarksNone,
        "an accepted PRACK marks nothing"
    ),
    wrong!(
        "prack_validate-22",
        VALIDATE,
        MethodFirst,
        "the method is compared before the CSeq"
    ),
    wrong!(
        "prack_validate-23",
        VALIDATE,
        ComparesNoMethod,
        "the method isn't compared"
    ),
    wrong!("prack_validate-24", VALIDATE, TakesRepeat, "a repeat is accepted"),
    wrong!(
        "prack_validate-300",
        VALIDATE,
        DropsAt300,
        "a cleanup drops what is exactly 300 s old"
    ),
    wrong!(
        "prack_validate-back",
        VALIDATE,
        StoresTimeGoneBack,
        "a time that went back is stored as the last cleanup's"
    ),
    wrong!(
        "prack_validate-time",
        VALIDATE,
        ForgetsUnknown,
        "no time is stored where nothing was held"
    ),
    fault(
        "prack_validate-18",
        VALIDATE,
        "19 and 20 come before 18",
        refuse_before_room,
    ),
    fault(
        "prack_validate-out",
        VALIDATE,
        "a refused PRACK answers numbers too",
        |_, left| {
            if (22..=24).contains(&left.number) {
                left.outs = [1, 1, 1];
            }
        },
    ),
    fault(
        "prack_validate-byte",
        VALIDATE,
        "the bytes that a cleanup freed are cleared",
        |scene, left| {
            let freed = left.store.used..scene.before.store.used;
            if let Some(freed) = left.store.memory().get_mut(freed) {
                freed.fill(0);
            }
        },
    ),
    wrong!(
        "prack_is_pracked",
        IS_PRACKED,
        LastDecides,
        "the last of equal RSeqs decides"
    ),
    fault(
        "prack_is_pracked-any",
        IS_PRACKED,
        "where nothing is held, any RSeq counts as acknowledged",
        |scene, left| {
            if left.number == 0 && held(scene).is_none() {
                left.outs[0] = 1;
            }
        },
    ),
    wrong!(
        "prack_is_pracked-unknown",
        IS_PRACKED,
        AcknowledgesUnknown,
        "where the text is held, an RSeq that isn't counts as acknowledged"
    ),
    fault(
        "prack_is_pracked-lent",
        IS_PRACKED,
        "a used length over the lent one is taken",
        run::lend_all,
    ),
    fault(
        "prack_is_pracked-order",
        IS_PRACKED,
        "entries in any order are taken",
        |scene, left| {
            take_loosely(scene, left, |entries| {
                entries.sort_by(|one, other| one.id.cmp(&other.id))
            });
        },
    ),
    fault(
        "prack_is_pracked-twice",
        IS_PRACKED,
        "one text twice is taken",
        |scene, left| {
            take_loosely(scene, left, |entries| entries.dedup_by(|one, other| one.id == other.id));
        },
    ),
    fault(
        "prack_is_pracked-11",
        IS_PRACKED,
        "a list of eleven is taken",
        |scene, left| {
            take_loosely(scene, left, |entries| {
                let lists = entries.iter_mut().filter_map(|entry| entry.list.as_mut());
                lists.for_each(|list| list.truncate(10));
            });
        },
    ),
    wrong!(
        "prack_get_pending",
        GET_PENDING,
        ListsAcknowledged,
        "acknowledged ones are listed"
    ),
    wrong!(
        "prack_get_pending-clean",
        GET_PENDING,
        NeverCleans,
        "the list isn't cleaned"
    ),
    wrong!(
        "prack_get_pending-due",
        GET_PENDING,
        CleansLate,
        "a cleanup is due only beyond 300 s"
    ),
    wrong!(
        "prack_get_pending-300",
        GET_PENDING,
        DropsAt300,
        "a cleanup drops what is exactly 300 s old"
    ),
    wrong!(
        "prack_get_pending-time",
        GET_PENDING,
        ForgetsUnknown,
        "no time is stored where nothing was held"
    ),
    fault(
        "prack_get_pending-18",
        GET_PENDING,
        "18 cleans all the same",
        clean_without_room,
    ),
    fault(
        "prack_get_pending-fit",
        GET_PENDING,
        "18 while output is free: an exact fit is refused",
        |scene, left| {
            let lent = room::lent(&mut left.output).len();
            if left.number == 0 && lent > 0 && left.outs[0] == lent as u64 {
                run::keep(scene, left, 18);
            }
        },
    ),
    fault(
        "prack_get_pending-byte",
        GET_PENDING,
        "the byte past the written output is touched",
        |_, left| {
            let written = left.outs[0] as usize;
            if let (0, Some(byte)) = (left.number, room::lent(&mut left.output).get_mut(written)) {
                *byte ^= 1;
            }
        },
    ),
    wrong!(
        "prack_remove_dialog",
        REMOVE_DIALOG,
        KeepsTime,
        "the time of the last cleanup stays"
    ),
    fault(
        "prack_remove_dialog-byte",
        REMOVE_DIALOG,
        "the freed bytes are cleared",
        run::clear_freed,
    ),
    fault(
        "prack_remove_dialog-15",
        REMOVE_DIALOG,
        "a removal of nothing is refused",
        |scene, left| {
            if left.number == 0 && held(scene).is_none() {
                left.number = 15;
            }
        },
    ),
    fault(
        "prack_remove_dialog-guard",
        REMOVE_DIALOG,
        "the byte before the store is touched",
        |_, left| {
            left.store.touch_before();
        },
    ),
    wrong!(
        "prack_remove_pracked",
        REMOVE_PRACKED,
        DropsOpen,
        "responses that aren't acknowledged are dropped too"
    ),
    wrong!(
        "prack_remove_pracked-one",
        REMOVE_PRACKED,
        DropsOne,
        "only the first acknowledged one is dropped"
    ),
    wrong!(
        "prack_remove_pracked-empty",
        REMOVE_PRACKED,
        DropsEmptied,
        "a list that becomes empty is dropped"
    ),
    fault(
        "prack_remove_pracked-byte",
        REMOVE_PRACKED,
        "the byte past the lent ones is touched",
        |scene, left| {
            left.store.touch(scene.lent);
        },
    ),
];

/// The entries of a store; none where it isn't one.
fn entries(store: &Store) -> Vec<Entry> {
    decode(store.used_bytes(), store.settings.pending as usize).unwrap_or_default()
}

/// What was held for a call's text before it.
fn held(scene: &Scene) -> Option<Entry> {
    entries(&scene.before.store)
        .into_iter()
        .find(|entry| entry.id == scene.call.id)
}

/// The step of a call that 1, 28, 2 and 3 let through, with one thing wrong.
fn wrong_step(scene: &Scene, left: &Left, wrong: Wrong) -> Option<Step> {
    if matches!(left.number, 1 | 2 | 3 | 28 | 30) {
        return None;
    }
    let headers = rules::headers(scene.call.block()).ok()?;
    Some(step(
        wrong,
        scene.before.store.settings,
        scene.call,
        &headers,
        held(scene).as_ref(),
    ))
}

/// Leaves what a step with one thing wrong does.
fn go_wrong(scene: &Scene, left: &mut Left, wrong: Wrong) {
    if let Some(step) = wrong_step(scene, left, wrong) {
        leave(scene, left, scene.call, step);
    }
}

/// Leaves a step's answer and its store, or 18.
fn leave(scene: &Scene, left: &mut Left, call: &Call, step: Step) {
    let mut entries = entries(&scene.before.store);
    set(&mut entries, &call.id, step.after);
    let bytes = encode(&entries);
    let output = room::lent(&mut left.output).len();
    let written = match &step.said {
        Ok(Said::Pending(bytes)) => bytes.len(),
        _ => 0,
    };
    run::keep(scene, left, 18);
    if bytes.len() > scene.lent || written > output {
        return;
    }
    left.store.write(&bytes);
    left.number = match step.said {
        Ok(said) => {
            say(&said, left);
            0
        }
        Err(number) => number,
    };
}

/// The new entry stands behind all others.
fn put_at_end(scene: &Scene, left: &mut Left) {
    if left.number == 0 && held(scene).is_none() {
        let mut entries = entries(&left.store);
        entries.sort_by_key(|entry| entry.id == scene.call.id);
        left.store.write(&encode(&entries));
    }
}

/// Where there is no room, the cause behind it is given.
fn refuse_before_room(scene: &Scene, left: &mut Left) {
    let step = wrong_step(scene, left, Wrong::Nothing).filter(|_| left.number == 18);
    if let Some(Err(number)) = step.map(|step| step.said) {
        left.number = number;
    }
}

/// Where the output has no room, the cleaned list is left beside 18.
fn clean_without_room(scene: &Scene, left: &mut Left) {
    let step = wrong_step(scene, left, Wrong::Nothing).filter(|_| left.number == 18);
    if let Some(step) = step {
        let said = Err(18);
        leave(scene, left, scene.call, Step { said, ..step });
    }
}

/// Where a change makes the damaged bytes a store, it is read as that store.
fn take_loosely(scene: &Scene, left: &mut Left, mend: impl FnOnce(&mut Vec<Entry>)) {
    let Some(mut entries) = read_loosely(left.store.used_bytes()) else {
        return;
    };
    mend(&mut entries);
    if left.number == 3 && left.store.used <= scene.lent && decode(&encode(&entries), MOST).is_some() {
        (left.number, left.outs[0]) = (0, 0);
    }
}

/// The entries of bytes whatever their order and the lengths of their lists.
fn read_loosely(mut rest: &[u8]) -> Option<Vec<Entry>> {
    let mut entries = Vec::new();
    while !rest.is_empty() {
        entries.push(take_entry(&mut rest, usize::MAX)?);
    }
    Some(entries)
}
