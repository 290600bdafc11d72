//! Stand-in for `Method`. Its numbers are document 01's: 1 to 14 in the order of `parse_method`.

use smol_str::SmolStr;

/// A request's method; `Other` for any text that is none of the fourteen.
#[derive(Debug, Clone, PartialEq, Eq)]
pub enum Method {
    Invite,
    Ack,
    Bye,
    Cancel,
    Register,
    Options,
    Info,
    Update,
    Message,
    Prack,
    Refer,
    Subscribe,
    Notify,
    Publish,
    Other(SmolStr),
}

/// The fourteen methods and their texts, in the order of `parse_method`.
const METHODS: [(Method, &str); 14] = [
    (Method::Invite, "INVITE"),
    (Method::Ack, "ACK"),
    (Method::Bye, "BYE"),
    (Method::Cancel, "CANCEL"),
    (Method::Register, "REGISTER"),
    (Method::Options, "OPTIONS"),
    (Method::Info, "INFO"),
    (Method::Update, "UPDATE"),
    (Method::Message, "MESSAGE"),
    (Method::Prack, "PRACK"),
    (Method::Refer, "REFER"),
    (Method::Subscribe, "SUBSCRIBE"),
    (Method::Notify, "NOTIFY"),
    (Method::Publish, "PUBLISH"),
];

impl Method {
    /// The method of a number from 1 to 14.
    pub fn of_number(number: u8) -> Option<Method> {
        let index = usize::from(number).checked_sub(1)?;
        METHODS.get(index).map(|(method, _)| method.clone())
    }

    /// The method's number; nothing for `Other`.
    pub fn number(&self) -> Option<u8> {
        let index = METHODS.iter().position(|(method, _)| method == self)?;
        u8::try_from(index + 1).ok()
    }

    /// The method of exactly these letters.
    pub fn exact(text: &str) -> Method {
        let known = METHODS.iter().find(|(_, name)| *name == text);
        known.map_or_else(|| Method::Other(text.into()), |(method, _)| method.clone())
    }

    /// The method's text.
    pub fn as_str(&self) -> &str {
        if let Method::Other(text) = self {
            return text;
        }
        let known = METHODS.iter().find(|(method, _)| method == self);
        known.map_or("", |(_, name)| name)
    }
}
