//! Stand-in written from document 01, "Block", and document 02, request 1: `Headers::get` gives the first line of that
//! name in either spelling, letter case ignored; `get_all_smol` gives all, in order.

use crate::block;
use smol_str::SmolStr;

/// The names with two spellings: the short one, and the full one.
const SPELLINGS: [(&str, &str); 5] = [
    ("i", "Call-ID"),
    ("f", "From"),
    ("t", "To"),
    ("m", "Contact"),
    ("x", "Session-Expires"),
];

/// Whether two names are spellings of one, letter case ignored.
pub fn same_name(one: &str, other: &str) -> bool {
    let is_pair = |(short, full): &(&str, &str)| {
        let spells = |name: &str| name.eq_ignore_ascii_case(short) || name.eq_ignore_ascii_case(full);
        spells(one) && spells(other)
    };
    one.eq_ignore_ascii_case(other) || SPELLINGS.iter().any(is_pair)
}

/// The header lines of a message, in order: name and trimmed value.
#[derive(Debug, Clone, PartialEq, Eq, Default)]
pub struct Headers(Vec<(SmolStr, SmolStr)>);

impl Headers {
    /// The lines of a header block, or nothing if it is not of document 01's form.
    pub fn parse(bytes: &[u8]) -> Option<Headers> {
        // A valid block is ASCII.
        let text = |range| std::str::from_utf8(&bytes[range]).ok().map(SmolStr::new);
        let lines = block::lines(bytes)?.into_iter();
        let pairs = lines.map(|line| Some((text(line.name)?, text(line.value)?)));
        pairs.collect::<Option<Vec<_>>>().map(Headers)
    }

    /// Headers of one line, its value taken as it is.
    pub fn of_one(name: &str, value: &str) -> Headers {
        Headers(vec![(name.into(), value.into())])
    }

    /// The value of the first line of that name.
    pub fn first(&self, name: &str) -> Option<&SmolStr> {
        let of_name = |line: &&(SmolStr, SmolStr)| same_name(&line.0, name);
        self.0.iter().find(of_name).map(|line| &line.1)
    }

    /// The value of the first line of that name, as text.
    pub fn get(&self, name: &str) -> Option<&str> {
        self.first(name).map(SmolStr::as_str)
    }

    /// The values of all lines of that name, in order.
    pub fn get_all_smol<'a>(&'a self, name: &'a str) -> impl Iterator<Item = &'a SmolStr> + 'a {
        let of_name = move |line: &&(SmolStr, SmolStr)| same_name(&line.0, name);
        self.0.iter().filter(of_name).map(|line| &line.1)
    }
}
