//! One record on both sides: each step and each reading is the Rust's method on its dialog and the port's C function on its own
//! image, as the last step left them.

use super::calls::{answers, block, in_words, side};
use super::row::Said;
use crate::answer::{Answer, Input};
use crate::dialogs::image::{encode, Parts};
use crate::dialogs::room;
use sip_core::SipUri;
use sip_dialog::{DialogId, DialogStateType};

/// The record's image on each side; the refusal in words where its creation was refused.
pub struct Record {
    rust: Result<Vec<u8>, String>,
    port: Result<Vec<u8>, String>,
}

/// More bytes than any step of a case adds.
const ROOM: usize = 500;

/// A readable URI.
pub fn uri(text: &str) -> SipUri {
    SipUri::parse(text).expect("readable")
}

/// The fields of a short record, of which a case changes what it needs. Its image has 41 bytes.
pub fn plain() -> Parts {
    Parts {
        id: DialogId::unchecked_new("c", "L", "R"),
        state: DialogStateType::Confirmed,
        target: uri("sip:t"),
        local_uri: uri("sip:l"),
        remote_uri: uri("sip:r"),
        local: 1,
        remote: 1,
        last_ack: None,
        seconds: None,
        refresher: None,
        routes: Vec::new(),
        is_uac: false,
    }
}

/// A record of the short one's fields, changed.
pub fn record(change: impl FnOnce(&mut Parts)) -> Record {
    let mut parts = plain();
    change(&mut parts);
    let image = encode(&parts.dialog());
    Record {
        rust: Ok(image.clone()),
        port: Ok(image),
    }
}

/// What a record is made from; a case changes what it needs.
pub struct Creation {
    pub method: &'static str,
    pub request: Vec<&'static str>,
    pub status: u64,
    pub response: Vec<&'static str>,
    pub local_uri: &'static str,
    pub remote_uri: &'static str,
}

/// A creation of no more than is needed.
pub fn creation() -> Creation {
    Creation {
        method: "INVITE",
        request: vec!["CSeq:1 INVITE"],
        status: 200,
        response: vec!["Call-ID:c", "From:;tag=a", "To:;tag=b"],
        local_uri: "sip:l",
        remote_uri: "sip:r",
    }
}

/// The record of a creation by `new_uac` or `new_uas`.
pub fn made(name: &str, change: impl FnOnce(&mut Creation)) -> Record {
    let mut given = creation();
    change(&mut given);
    let (request, response) = (block(&given.request), block(&given.response));
    let mut input = Input::number(given.status).and_number(1, ROOM as u64);
    input.texts = [
        given.method.as_bytes(),
        &request,
        &response,
        given.local_uri.as_bytes(),
        given.remote_uri.as_bytes(),
    ];
    let [rust, port] = answers(name, [&input, &input]).map(|mut answer| {
        let refusal = in_words(&answer, |_| String::new());
        left(&mut answer.1).ok_or(refusal)
    });
    Record { rust, port }
}

/// The image that an accepted call left.
fn left(answer: &mut Answer) -> Option<Vec<u8>> {
    let length = answer.outs[0] as usize;
    (answer.number == 0).then(|| room::lent(&mut answer.bytes)[..length].to_vec())
}

impl Record {
    /// Whether it was made.
    pub fn creation(&self) -> Said {
        let [rust, port] = [&self.rust, &self.port].map(|side| match side {
            Ok(_) => "accepted".to_string(),
            Err(refusal) => refusal.clone(),
        });
        Said { rust, port }
    }

    /// A step on each side's own image; what it leaves is the image of the next.
    fn step(&mut self, name: &str, texts: [&[u8]; 2], numbers: [u64; 1], accepted: impl Fn(&Answer) -> String) -> Said {
        let [rust, port] = [&self.rust, &self.port].map(|side| {
            let mut lent = side.clone().expect("a record");
            let used = lent.len();
            lent.resize(used + ROOM, 0);
            (lent, used as u64)
        });
        let [on_rust, on_port] = [&rust, &port].map(|(lent, used)| {
            let input = Input::text(lent).and_text(1, texts[0]).and_text(2, texts[1]);
            input.and_number(0, *used).and_number(1, numbers[0])
        });
        let mut both = answers(name, [&on_rust, &on_port]);
        for (side, (_, answer)) in [&mut self.rust, &mut self.port].into_iter().zip(&mut both) {
            if let Some(image) = left(answer) {
                *side = Ok(image);
            }
        }
        let [rust, port] = both.map(|answer| in_words(&answer, &accepted));
        Said { rust, port }
    }

    /// A request with these lines.
    pub fn request(&mut self, method: &str, lines: &[&str]) -> Said {
        let texts = [block(lines), method.into()];
        self.step("image_update_from_request", [&texts[0], &texts[1]], [0], |_| {
            "taken".into()
        })
    }

    /// A response with these lines.
    pub fn response(&mut self, status: u16, lines: &[&str]) -> Said {
        let block = block(lines);
        let numbers = [u64::from(status)];
        self.step("image_update_from_response", [&block, &[]], numbers, |_| "taken".into())
    }

    /// The next local number.
    pub fn next_local_cseq(&mut self) -> Said {
        self.step("image_next_local_cseq", [&[], &[]], [0], |answer| {
            answer.outs[1].to_string()
        })
    }

    /// Another interval.
    pub fn set_session_expires(&mut self, seconds: u64) -> Said {
        self.step("image_set_session_expires", [&[], &[]], [seconds], |_| {
            "accepted".into()
        })
    }

    /// A reading of each side's own image; the words are given that image.
    fn reading(&self, name: &str, number: u64, accepted: impl Fn(&[u8], &Answer) -> String) -> Said {
        let images = [&self.rust, &self.port].map(|side| side.clone().expect("a record"));
        let inputs = [&images[0], &images[1]].map(|image| Input::text(image).and_number(0, number));
        let both = answers(name, [&inputs[0], &inputs[1]]);
        let words = |side: usize| in_words(&both[side], |answer| accepted(&images[side], answer));
        Said {
            rust: words(0),
            port: words(1),
        }
    }

    /// Its state.
    pub fn state(&self) -> Said {
        self.reading("image_state", 0, |_, answer| {
            ["", "Early", "Confirmed", "Terminated"][answer.outs[0] as usize].into()
        })
    }

    /// Its side.
    pub fn side(&self) -> Said {
        self.reading("image_state", 0, |_, answer| {
            ["uas", "uac"][answer.outs[1] as usize].into()
        })
    }

    /// Whether it is secure.
    pub fn secure(&self) -> Said {
        self.reading("image_state", 0, |_, answer| {
            ["no", "yes"][answer.outs[2] as usize].into()
        })
    }

    /// Its target.
    pub fn target(&self) -> Said {
        self.reading("image_uris", 0, |image, answer| {
            let [place, length, ..] = answer.outs;
            let text = &image[place as usize..][..length as usize];
            format!("`{}`", text.escape_ascii())
        })
    }

    /// Its interval and refresher.
    pub fn interval(&self) -> Said {
        self.reading("image_numbers", 0, |_, answer| match answer.outs {
            [_, _, _, _, 0, _, refresher, ..] => format!("no interval, {}", side(refresher)),
            [_, _, _, _, _, seconds, refresher, ..] => format!("{seconds} s, {}", side(refresher)),
        })
    }

    /// One of its routes.
    pub fn route(&self, index: u64) -> Said {
        self.reading("image_route", index, |image, answer| match answer.outs {
            [0, ..] => "nothing".into(),
            [_, place, length, ..] => {
                let text = &image[place as usize..][..length as usize];
                format!("`{}`", text.escape_ascii())
            }
        })
    }

    /// Whether a refresh is due.
    pub fn needs_refresh(&self, elapsed: u64) -> Said {
        self.reading("image_needs_refresh", elapsed, |_, answer| {
            ["no", "yes"][answer.outs[0] as usize].into()
        })
    }
}
