//! Stand-in for the protocol version, which nothing in scope looks at.

/// SIP/2.0.
#[derive(Debug, Clone, PartialEq, Eq)]
pub enum SipVersion {
    V2,
}
