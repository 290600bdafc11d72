//! Says which bounds the calls at other sites meet. What they meet of the bounds at the Rust's figures isn't counted.

use super::{figures, permitted, times, FIGURES};
use crate::answer::Input;
use crate::bounds;
use crate::dialogs::image;
use crate::dialogs::updates::REQUEST;
use crate::rules;
use port::Settings;
use sip_dialog::storage::private::parse_cseq_number;

/// The figures of a call. Those of settings of which another figure is outside its bounds don't count.
pub fn meet(operation: &'static str, settings: Settings) {
    let figures = figures(settings);
    let is_in = |at: usize| (FIGURES[at].1..=FIGURES[at].2).contains(&figures[at]);
    for (at, (what, _, _)) in FIGURES.into_iter().enumerate() {
        if (0..FIGURES.len()).all(|other| other == at || is_in(other)) {
            bounds::aloud(|| bounds::number(operation, what, figures[at]));
        }
    }
}

/// What a call that 30 refused would have been answered.
pub fn meet_beside(operation: &'static str, number: u8) {
    bounds::aloud(|| bounds::number(operation, "30 before", number));
}

/// What a call of an operation without a store meets.
pub fn meet_input(operation: &'static str, input: &Input) {
    meet(operation, input.settings);
    if operation.starts_with(REQUEST) && permitted(input.settings).is_ok() {
        let [lent, block, method, ..] = input.texts;
        let used = lent.get(..input.numbers[0] as usize);
        let remote = used.and_then(image::decode).map(|record| record.dialog.remote_cseq());
        meet_request(operation, input.settings, [method, block], remote);
    }
}

/// How far a request's CSeq is above the remote number, beside the jump.
pub fn meet_request(operation: &'static str, settings: Settings, [method, block]: [&[u8]; 2], remote: Option<u32>) {
    let cseq = rules::headers(block)
        .ok()
        .and_then(|headers| parse_cseq_number(&headers));
    if let (Some(cseq), Some(remote @ 1..), true) = (cseq, remote, method != b"ACK") {
        let above = i64::from(cseq) - i64::from(remote) - i64::from(settings.cseq_jump);
        let what = match settings.cseq_jump {
            1 => "CSeq above a jump of 1",
            65_535 => "CSeq above a jump of 65,535",
            _ => "CSeq above another jump",
        };
        bounds::aloud(|| bounds::number(operation, what, above));
    }
}

/// How many other Early records there are where an Early one is put, beside the cap.
pub fn meet_put(operation: &'static str, settings: Settings, other_early: usize) {
    let what = match settings.early_cap {
        1 => "other Early above a cap of 1",
        100 => "other Early above a cap of 100",
        _ => "other Early above another cap",
    };
    bounds::aloud(|| bounds::number(operation, what, other_early as i64 - i64::from(settings.early_cap)));
}

/// How many responses the list has, beside the most that it may have.
pub fn pending_bound(operation: &'static str, settings: Settings, responses: usize) {
    let what = match settings.pending {
        1 => "list beside 1 pending",
        32 => "list beside 32 pending",
        _ => "list beside another number",
    };
    bounds::aloud(|| bounds::number(operation, what, responses as i64 - i64::from(settings.pending)));
}

/// How long ago the last cleanup was, and where one is due, the responses.
pub fn meet_time(operation: &'static str, settings: Settings, time: u64, cleaned_at: u64, registered_at: &[u64]) {
    let [cleanup, timeout] = times(settings);
    let what = match settings.cleanup_seconds {
        1 => "beside a cleanup of 1 s",
        3_600 => "beside a cleanup of 3,600 s",
        _ => "beside another cleanup",
    };
    let ago = |since: u64, long: u64| i128::from(time.saturating_sub(since)) - i128::from(long);
    bounds::aloud(|| bounds::number(operation, what, ago(cleaned_at, cleanup)));
    if ago(cleaned_at, cleanup) < 0 {
        return;
    }
    let what = match settings.timeout_seconds {
        1 => "beside a timeout of 1 s",
        3_600 => "beside a timeout of 3,600 s",
        _ => "beside another timeout",
    };
    for since in registered_at {
        bounds::aloud(|| bounds::number(operation, what, ago(*since, timeout)));
        let side = match cleanup.cmp(&timeout) {
            std::cmp::Ordering::Less => "the shorter",
            std::cmp::Ordering::Equal => "as long",
            std::cmp::Ordering::Greater => "the longer",
        };
        bounds::aloud(|| bounds::met(operation, "cleanup beside timeout", side));
    }
}
