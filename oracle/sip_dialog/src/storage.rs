//! Stand-in for the module `storage`, which is in no listed file and out of scope. A child module sees its parent's
//! private items, so it also hands lib.rs's private functions to the run. It alters none of them.

/// In scope nothing is stored through this trait.
pub trait DialogStore {}

/// The name that lib.rs re-exports.
pub struct InMemoryDialogStore;

/// lib.rs's private functions, each as it is.
pub mod private {
    use crate::{DialogError, Duration, Headers, RefresherRole, Response, SipUri};

    pub fn split_header_values(value: &str) -> Vec<String> {
        crate::split_header_values(value)
    }

    pub fn parse_uri_from_header(value: &str) -> Option<SipUri> {
        crate::parse_uri_from_header(value)
    }

    pub fn extract_contact_uri(headers: &Headers) -> Option<SipUri> {
        crate::extract_contact_uri(headers)
    }

    pub fn build_route_set(headers: &Headers, reverse: bool) -> Result<Vec<SipUri>, DialogError> {
        crate::build_route_set(headers, reverse)
    }

    pub fn parse_cseq_number(headers: &Headers) -> Option<u32> {
        crate::parse_cseq_number(headers)
    }

    pub fn extract_session_timer(response: &Response) -> (Option<Duration>, Option<RefresherRole>) {
        crate::extract_session_timer(response)
    }

    pub fn validate_uri(uri: &SipUri) -> Result<(), DialogError> {
        crate::validate_uri(uri)
    }

    pub fn validate_route_set(route_set: &[SipUri]) -> Result<(), DialogError> {
        crate::validate_route_set(route_set)
    }

    pub fn validate_cseq(cseq: u32) -> Result<(), DialogError> {
        crate::validate_cseq(cseq)
    }

    pub fn validate_session_expires(duration: Duration) -> Result<(), DialogError> {
        crate::validate_session_expires(duration)
    }
}

/// Puts a dialog's remote number back, so that one request can be timed again and again.
pub fn set_remote_cseq(dialog: &mut crate::Dialog, number: u32) {
    dialog.remote_cseq = number;
}

/// Puts another identifier into a dialog: that of a response whose tags the Rust reads otherwise.
pub fn set_id(dialog: &mut crate::Dialog, id: crate::DialogId) {
    dialog.id = id;
}

/// Holds a dialog in a manager past its limits, without counting it: for stores handed in that are over them, and to undo
/// an insert.
pub fn hold(manager: &crate::DialogManager, dialog: crate::Dialog) {
    manager.dialogs.insert(dialog.id.clone(), dialog);
}

/// Holds a number for a dialog, whatever it is: for stores handed in.
pub fn hold_rseq(manager: &crate::RSeqManager, id: crate::DialogId, number: u32) {
    manager.sequences.insert(id, number);
}

/// All that a manager of RSeq numbers holds.
pub fn rseqs(manager: &crate::RSeqManager) -> Vec<(crate::DialogId, u32)> {
    let entries = manager.sequences.iter();
    entries.map(|entry| (entry.key().clone(), *entry.value())).collect()
}
