//! The status classes. The Rust has no response outside 100 to 699 (`StatusLine::new` refuses): there msg.rs's own
//! ranges say no.

use super::YES;
use crate::answer::{Answer, Input, NOTHING};
use crate::run::{Feed, Operation};
use sip_core::StatusLine;

/// One class: its name, the Rust's function, the port's, and the code that its planted fault gets wrong.
macro_rules! status_class {
    ($name:literal, $function:ident, $wrong:literal, $fault:literal) => {
        Operation {
            name: $name,
            against: concat!("Rust StatusLine::", $name),
            texts: &[],
            numbers: &["code"],
            outs: YES,
            rows: &[0, NOTHING],
            expect: |input, answer| expect(input, answer, StatusLine::$function),
            ask: |input, answer| {
                answer.outs[0] = u64::from(port::$function(input.numbers[0] as u16));
                0
            },
            inputs: each_code,
            fault: $fault,
            distort: |input, answer| {
                if input.numbers[0] == $wrong {
                    answer.outs[0] = 1 - answer.outs[0];
                }
            },
        }
    };
}

pub const OPERATIONS: &[Operation] = &[
    status_class!("is_informational", is_informational, 199, "199 is left out"),
    status_class!("is_success", is_success, 300, "300 is taken in"),
    status_class!("is_redirection", is_redirection, 300, "300 is left out"),
    status_class!("is_client_error", is_client_error, 499, "499 is left out"),
    status_class!("is_server_error", is_server_error, 600, "600 is taken in"),
    status_class!("is_global_failure", is_global_failure, 700, "700 is taken in"),
    status_class!("is_error", is_error, 399, "399 is taken in"),
];

/// Every code that a u16 can hold.
fn each_code(feed: &mut Feed) {
    for code in 0..=u16::MAX {
        feed.compare(&Input::number(u64::from(code)));
    }
}

/// The Rust's yes or no; no where it has no such response.
fn expect(input: &Input, answer: &mut Answer, function: fn(&StatusLine) -> bool) -> Result<(), u8> {
    let line = StatusLine::new(input.numbers[0] as u16, "x");
    answer.outs[0] = u64::from(line.is_ok_and(|line| function(&line)));
    Ok(())
}
