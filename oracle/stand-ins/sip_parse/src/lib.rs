//! Stand-in for `sip-parse`, written from document 01: `header` ("Block", and document 02, request 1) and `parse_session_expires` ("Response").

use sip_core::{Headers, RefresherRole};
use smol_str::SmolStr;

/// The value of the first line of that name in either spelling, letter case ignored.
pub fn header<'a>(headers: &'a Headers, name: &str) -> Option<&'a SmolStr> {
    headers.first(name)
}

/// What a Session-Expires value says.
#[derive(Debug, Clone, Copy, PartialEq, Eq)]
pub struct SessionExpires {
    seconds: u32,
    refresher: Option<RefresherRole>,
}

impl SessionExpires {
    /// The interval in seconds.
    pub fn delta_seconds(&self) -> u32 {
        self.seconds
    }

    /// The refresher, if one is named.
    pub fn refresher(&self) -> Option<RefresherRole> {
        self.refresher
    }
}

/// Digits fitting u32 before the first `;`, then the first `;` part that is `refresher=` with `uac` or `uas`, case
/// ignored, else none; parts are trimmed.
pub fn parse_session_expires(value: &SmolStr) -> Option<SessionExpires> {
    let mut parts = value.split(';').map(|part| part.trim_matches([' ', '\t']));
    let digits = parts.next()?;
    if !digits.bytes().all(|byte| byte.is_ascii_digit()) {
        return None;
    }
    Some(SessionExpires {
        seconds: digits.parse().ok()?,
        refresher: parts.find_map(refresher),
    })
}

/// The role that one trimmed part names.
fn refresher(part: &str) -> Option<RefresherRole> {
    match part.to_ascii_lowercase().as_str() {
        "refresher=uac" => Some(RefresherRole::Uac),
        "refresher=uas" => Some(RefresherRole::Uas),
        _ => None,
    }
}
