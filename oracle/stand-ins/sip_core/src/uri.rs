//! Stand-in written from document 01, "Contact": `sip:` or `sips:` in any case; bytes 33 to 126 without `<`, `>`, `"`;
//! user is all before the first `@`, non-empty if there is one; host runs to `:`, `;`, `?` or the end (`[` to `]` kept
//! whole), non-empty letters, digits, `.`, `-`, or hex digits, `:`, `.` in brackets; port 1 to 5 digits, at most
//! 65,535; then the end, `;` or `?`. The text is kept as given.

use smol_str::SmolStr;

/// A SIP URI: its text as given, and its parts.
#[derive(Debug, Clone, PartialEq, Eq)]
pub struct SipUri {
    text: SmolStr,
    secure: bool,
    user: Option<SmolStr>,
    host: SmolStr,
    port: Option<u16>,
}

/// The text is no SIP URI.
#[derive(Debug, Clone, PartialEq, Eq)]
pub struct Unreadable;

impl SipUri {
    /// Reads a text.
    pub fn parse(text: &str) -> Result<SipUri, Unreadable> {
        SipUri::read(text).ok_or(Unreadable)
    }

    /// The text as given.
    pub fn as_str(&self) -> &str {
        &self.text
    }

    /// The user, if there is one.
    pub fn user(&self) -> Option<&str> {
        self.user.as_deref()
    }

    /// The host; an address in brackets with its brackets.
    pub fn host(&self) -> &str {
        &self.host
    }

    /// The port, if there is one.
    pub fn port(&self) -> Option<u16> {
        self.port
    }

    /// Whether the scheme is `sips`.
    pub fn is_sips(&self) -> bool {
        self.secure
    }

    /// The URI of a text, part by part.
    fn read(text: &str) -> Option<SipUri> {
        let is_allowed = |byte: u8| (33..=126).contains(&byte) && !b"<>\"".contains(&byte);
        if !text.bytes().all(is_allowed) {
            return None;
        }
        let (scheme, rest) = text.split_once(':')?;
        let secure = scheme.eq_ignore_ascii_case("sips");
        if !secure && !scheme.eq_ignore_ascii_case("sip") {
            return None;
        }
        let (user, rest) = match rest.split_once('@') {
            Some(("", _)) => return None,
            Some((user, rest)) => (Some(user), rest),
            None => (None, rest),
        };
        let (host, rest) = host(rest)?;
        let (port, rest) = match rest.strip_prefix(':') {
            Some(digits) => port(digits)?,
            None => (None, rest),
        };
        if !rest.is_empty() && !rest.starts_with([';', '?']) {
            return None;
        }
        Some(SipUri {
            text: text.into(),
            secure,
            user: user.map(SmolStr::from),
            host: host.into(),
            port,
        })
    }
}

/// The host at the front of a text, and what follows it.
fn host(text: &str) -> Option<(&str, &str)> {
    if let Some(inside) = text.strip_prefix('[') {
        let (address, _) = inside.split_once(']')?;
        let is_address_byte = |byte: u8| byte.is_ascii_hexdigit() || byte == b':' || byte == b'.';
        let good = !address.is_empty() && address.bytes().all(is_address_byte);
        return good.then(|| text.split_at(address.len() + 2));
    }
    let (name, rest) = text.split_at(text.find([':', ';', '?']).unwrap_or(text.len()));
    let is_name_byte = |byte: u8| byte.is_ascii_alphanumeric() || byte == b'.' || byte == b'-';
    let good = !name.is_empty() && name.bytes().all(is_name_byte);
    good.then_some((name, rest))
}

/// The port at the front of a text, and what follows it.
fn port(text: &str) -> Option<(Option<u16>, &str)> {
    let digits = text.bytes().take_while(u8::is_ascii_digit).count();
    if !(1..=5).contains(&digits) {
        return None;
    }
    let (port, rest) = text.split_at(digits);
    Some((Some(port.parse().ok()?), rest))
}

/// A request's URI; only SIP URIs are in scope.
#[derive(Debug, Clone, PartialEq, Eq)]
pub enum Uri {
    Sip(SipUri),
}

impl Uri {
    /// The SIP URI.
    pub fn as_sip(&self) -> Option<&SipUri> {
        let Uri::Sip(uri) = self;
        Some(uri)
    }
}

impl From<SipUri> for Uri {
    fn from(uri: SipUri) -> Uri {
        Uri::Sip(uri)
    }
}
