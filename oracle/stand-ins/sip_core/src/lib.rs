//! Stand-in for `sip-core`. msg.rs is the Rust's own file, copied in by `prepare` and unchanged; the other modules are
//! in no listed file, and their bodies are written from document 01, the five short
//! names from document 02, request 1.

pub mod block;
pub mod headers;
pub mod method;
pub mod msg;
pub mod uri;
pub mod version;

pub use headers::Headers;
pub use method::Method;
pub use msg::*;
pub use uri::{SipUri, Uri};
pub use version::SipVersion;

/// The side that refreshes a session (RFC 4028).
#[derive(Debug, Clone, Copy, PartialEq, Eq)]
pub enum RefresherRole {
    Uac,
    Uas,
}
