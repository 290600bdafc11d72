//! The calls on a store, and what the tables say of them.

use crate::run::Entry;
use sip_dialog::DialogId;

pub const PUT: &str = "put";
pub const REQUEST: &str = "request";
pub const RESPONSE: &str = "response";
pub const TERMINATE: &str = "terminate";
pub const NEXT: &str = "next_local_cseq";
pub const SET: &str = "set_session_expires";
pub const REMOVE: &str = "remove";
pub const SWEEP: &str = "sweep";
pub const GET: &str = "get";
pub const FIND_BY_CALL_ID: &str = "find_by_call_id";
pub const FIND_BY_REQUEST: &str = "find_by_request";
pub const COUNT: &str = "count";
pub const ALL_IDS: &str = "all_ids";

/// The operations in the order of the C declarations, each with every number that it can answer.
pub const OPERATIONS: &[Entry] = &[
    entry(PUT, "Rust DialogManager::insert", &[0, 3, 16, 17, 18]),
    entry(
        REQUEST,
        "Rust find_by_request (tags as in extract_tag), remove, update_from_request, insert",
        &[0, 1, 2, 3, 4, 9, 10, 11, 12, 15, 18],
    ),
    entry(
        RESPONSE,
        "Rust remove, update_from_response, insert",
        &[0, 1, 2, 3, 15, 18],
    ),
    entry(TERMINATE, "Rust remove, terminate, insert", &[0, 1, 3, 15]),
    entry(NEXT, "Rust remove, next_local_cseq, insert", &[0, 1, 3, 15, 18]),
    entry(
        SET,
        "Rust remove, set_session_expires, insert",
        &[0, 1, 3, 13, 14, 15, 18],
    ),
    entry(REMOVE, "Rust DialogManager::remove", &[0, 1, 3, 15]),
    entry(SWEEP, "Rust DialogManager::cleanup_terminated", &[0, 3]),
    entry(GET, "Rust DialogManager::get", &[0, 1, 3, 15]),
    entry(
        FIND_BY_CALL_ID,
        "Rust find_by_call_id (any of them), the run's order",
        &[0, 1, 3, 15],
    ),
    entry(
        FIND_BY_REQUEST,
        "Rust DialogManager::find_by_request, tags as in extract_tag",
        &[0, 1, 2, 3, 15],
    ),
    entry(COUNT, "Rust DialogManager::count", &[0, 3]),
    entry(ALL_IDS, "Rust all_ids (as a set), the run's order", &[0, 3, 18]),
];

/// An operation in the tables.
pub const fn entry(name: &'static str, against: &'static str, rows: &'static [u8]) -> Entry {
    Entry { name, against, rows }
}

/// An identifier's three texts, of any bytes: Call-ID, local tag, remote tag.
pub type Id = [Vec<u8>; 3];

/// A call's own arguments.
#[derive(Debug, Clone)]
pub enum Call {
    Put(Vec<u8>),
    Request {
        method: Vec<u8>,
        block: Vec<u8>,
    },
    Response {
        id: Id,
        status: u16,
        block: Vec<u8>,
    },
    Terminate(Id),
    Next(Id),
    Set {
        id: Id,
        seconds: u64,
    },
    Remove(Id),
    Sweep,
    Get(Id),
    FindByCallId(Vec<u8>),
    FindByRequest(Vec<u8>),
    Count,
    /// Given so many bytes of lent output.
    AllIds(usize),
}

impl Call {
    /// The operation's name.
    pub fn name(&self) -> &'static str {
        match self {
            Call::Put(_) => PUT,
            Call::Request { .. } => REQUEST,
            Call::Response { .. } => RESPONSE,
            Call::Terminate(_) => TERMINATE,
            Call::Next(_) => NEXT,
            Call::Set { .. } => SET,
            Call::Remove(_) => REMOVE,
            Call::Sweep => SWEEP,
            Call::Get(_) => GET,
            Call::FindByCallId(_) => FIND_BY_CALL_ID,
            Call::FindByRequest(_) => FIND_BY_REQUEST,
            Call::Count => COUNT,
            Call::AllIds(_) => ALL_IDS,
        }
    }

    /// The identifier of a call by identifier.
    pub fn id(&self) -> Option<&Id> {
        match self {
            Call::Terminate(id) | Call::Next(id) | Call::Remove(id) | Call::Get(id) => Some(id),
            Call::Response { id, .. } | Call::Set { id, .. } => Some(id),
            _ => None,
        }
    }

    /// The header block; the empty one, which is valid, for a call that has none.
    pub fn block(&self) -> &[u8] {
        match self {
            Call::Request { block, .. } | Call::Response { block, .. } | Call::FindByRequest(block) => block,
            _ => &[],
        }
    }

    /// The texts that refusal 1 holds for, each with what it is bounded as.
    pub fn texts(&self) -> Vec<(&'static str, &[u8])> {
        let mut texts: Vec<(&'static str, &[u8])> = Vec::new();
        if let Some(id) = self.id() {
            texts.extend(PARTS.into_iter().zip(id.iter().map(Vec::as_slice)));
        }
        match self {
            Call::Request { method, block } => texts.extend([("method, bytes", method.as_slice()), (BLOCK, block)]),
            Call::Response { block, .. } | Call::FindByRequest(block) => texts.push((BLOCK, block)),
            Call::FindByCallId(call_id) => texts.push((PARTS[0], call_id)),
            _ => {}
        }
        texts
    }
}

/// What an identifier's parts and a block are bounded as.
pub const PARTS: [&str; 3] = ["Call-ID, bytes", "local tag, bytes", "remote tag, bytes"];
const BLOCK: &str = "block, bytes";

/// The texts of an identifier of the Rust.
pub fn texts_of(id: &DialogId) -> Id {
    [id.call_id(), id.local_tag(), id.remote_tag()].map(|text| text.as_bytes().to_vec())
}

/// The Rust's identifier of three texts. A text that isn't UTF-8 names no record: no image can hold it.
pub fn dialog_id(id: &Id) -> Option<DialogId> {
    let [call_id, local, remote] = [&id[0], &id[1], &id[2]].map(|text| std::str::from_utf8(text).ok());
    Some(DialogId::unchecked_new(call_id?, local?, remote?))
}
