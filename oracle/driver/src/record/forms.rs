//! The rows at the list's head (rows.rs, made from the sources): each operation in the order of the C declarations, and the kinds
//! of the items of its lines (`n` a number, `t` a text, `o` a text lent to be written, `s` a store lent in so many bytes, `=`
//! before the answer).

use super::rows::ROWS;

/// A row: the name, the kinds, and for an operation that isn't on a store where each argument comes from: a text, a number, one of
/// the site's figures or an out number of the call by its index, `x` the lent bytes.
pub struct Form {
    pub name: &'static str,
    pub kinds: &'static str,
    pub arguments: &'static str,
}

pub const fn form(name: &'static str, kinds: &'static str, arguments: &'static str) -> Form {
    Form { name, kinds, arguments }
}

/// The operations whose calls have their texts and numbers in another order than the C declaration, or an out number given
/// as a number: where each argument comes from.
const OWN_ORDER: [(&str, &str); 7] = [
    ("image_matches_request", "s0 s1 s2 s3 s4 t1 t0 o0"),
    ("image_confirm", "s0 s1 s2 s3 s4 x n0"),
    ("image_terminate", "s0 s1 s2 s3 s4 x n0"),
    ("image_next_local_cseq", "s0 s1 s2 s3 s4 x n0 o1"),
    ("image_set_session_expires", "s0 s1 s2 s3 s4 x n0 n1 o1"),
    ("image_update_from_request", "s0 s1 s2 s3 s4 t2 t1 x n0"),
    ("image_update_from_response", "s0 s1 s2 s3 s4 n1 t1 x n0"),
];

/// The form of an operation.
pub fn form_of(name: &str) -> &'static Form {
    let of_name = ROWS.iter().find(|form| form.name == name);
    of_name.expect("a listed operation")
}

/// Whether a call on a store begins with the five numbers of the site's settings.
pub fn takes_settings(name: &str) -> bool {
    form_of(name).kinds.starts_with("nnnnn")
}

/// Where its arguments come from.
pub fn sources_of(name: &str) -> &'static str {
    let own = OWN_ORDER.iter().find(|(operation, _)| *operation == name);
    own.map_or_else(|| form_of(name).arguments, |(_, arguments)| arguments)
}
