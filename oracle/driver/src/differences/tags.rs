//! Section 3, the rows of change request 3: From and To values with semicolons in quotes or in angle brackets. Each side is asked by
//! itself, as in `apart.rs`.

use super::calls::block;
use super::row::Row;
use super::{case, Case};
use crate::messages::request;
use sip_core::{Headers, Method};
use sip_dialog::{extract_tag, DialogId};
use smol_str::SmolStr;

/// The two sides' tags of a value, held against the stated ones.
fn tags(row: &mut Row, value: &str, rust: &str, port: &str) {
    let tag = extract_tag(&SmolStr::new(value));
    row.rust(tag.map_or("None".into(), |tag| format!("`{tag}`")), rust);
    let [mut place, mut length] = [0; 2];
    let number = port::extract_tag(value.as_bytes(), &mut place, &mut length);
    row.port(answered(number, &value[place..place + length]), port);
}

/// A tag that the port answers, or its refusal.
fn answered(number: u8, tag: &str) -> String {
    match number {
        0 => format!("`{tag}`"),
        number => number.to_string(),
    }
}

pub const CASES: &[Case] = &[
    case("3.37", r#"`extract_tag` of `";tag="<sip:h>`: `"<sip:h>`; 4"#, |row| {
        tags(row, r#"";tag="<sip:h>"#, r#"`"<sip:h>`"#, "4")
    }),
    case("3.38", "`extract_tag` of `<sip:h;tag=a>`: `a>`; 4", |row| {
        tags(row, "<sip:h;tag=a>", "`a>`", "4");
    }),
    case(
        "3.39",
        r#"`extract_tag` of `"\";tag=a"`: `a"`; 4. Of `\";tag=a`: `a`; 4"#,
        |row| {
            tags(row, r#""\";tag=a""#, r#"`a"`"#, "4");
            tags(row, r#"\";tag=a"#, "`a`", "4");
        },
    ),
    case(
        "3.40",
        r#"`extract_tag` of `a"b;tag=x`: `x`; 4. Of `<a;tag=x`: `x`; 4"#,
        |row| {
            tags(row, r#"a"b;tag=x"#, "`x`", "4");
            tags(row, "<a;tag=x", "`x`", "4");
        },
    ),
    case("3.41", r#"`extract_tag` of `;tag="a;b"`: `"a`; `"a;b"`"#, |row| {
        tags(row, r#";tag="a;b""#, r#"`"a`"#, r#"`"a;b"`"#);
    }),
    case(
        "3.42",
        r#"`from_request` of `Call-ID:c`, `From:"a;tag=x";tag=y` and `To:tag=b`: local `x"`; local `y`"#,
        |row| {
            let block = block(&["Call-ID:c", r#"From:"a;tag=x";tag=y"#, "To:tag=b"]);
            let headers = Headers::parse(&block).expect("a block");
            let id = DialogId::from_request(&request(Method::Invite, headers)).expect("read");
            row.rust(format!("`{}`", id.local_tag()), r#"`x"`"#);
            let mut parts = [0; 6];
            let number = port::from_request(&block, &mut parts);
            let local = String::from_utf8_lossy(&block[parts[2]..parts[2] + parts[3]]);
            row.port(answered(number, &local), "`y`");
        },
    ),
];
