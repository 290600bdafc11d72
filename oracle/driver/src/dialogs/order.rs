//! Calls with every choice of causes to be refused at once, which show the order in which they are tried.

use super::calls::Call;
use super::room::{IMAGE, USED};
use crate::rules::LONGEST;
use crate::texts::each_choice;
use sip_dialog::Dialog;

/// Every creation with or without each of its causes: 1, 2, 6, 4, 5, 7, 7 or 8 in the routes, 4, 9 or 10, 13 or 14, 18.
pub fn each_creation(give: &mut dyn FnMut(&Call)) {
    let session = ["", "Session-Expires:89\r\n", "Session-Expires:86401\r\n"];
    each_choice(&[2, 2, 2, 2, 2, 2, 3, 4, 3, 2], &mut |choice| {
        let mut call = Call::default();
        let identifier = [
            "Call-ID:c\r\nFrom:;tag=x\r\nTo:;tag=y\r\n",
            "Call-ID:c\r\nTo:;tag=y\r\n",
        ][choice[3]];
        let routes = &routes()[choice[6]];
        call.texts = [
            method(choice[0]),
            [CSEQS[choice[7]], routes, FORMS[choice[1]]].concat().into(),
            [identifier, session[choice[8]], routes].concat().into(),
            ["sip:l", "x"][choice[2]].into(),
            ["sip:r".to_string(), too_long()][choice[5]].clone().into(),
        ];
        call.numbers[0] = [200, 300][choice[4]];
        call.numbers[1] = [3000, 20][choice[9]];
        give(&call);
    });
}

/// Every request on this record with or without each of its causes: 1, 2, 3, 4, 9, 10, 11 or 12, 18; ACK or another.
pub fn each_request(before: &Dialog, image: &[u8], give: &mut dyn FnMut(&Call)) {
    let remote = before.remote_cseq();
    let above = [remote, remote + 1, remote + 1001].map(|number| format!("CSeq:{number}\r\n"));
    let numbers: Vec<&str> = CSEQS.into_iter().chain(above.iter().map(String::as_str)).collect();
    each_choice(&[3, 2, 2, numbers.len(), 2, 2], &mut |choice| {
        let contact = [
            "Contact:<sip:a>\r\n",
            "Contact:<sip:a;longer-than-the-target-before>\r\n",
        ][choice[4]];
        let mut call = on_image(image, choice[2], choice[5]);
        call.texts[1] = [numbers[choice[3]], contact, FORMS[choice[1]]].concat().into();
        call.texts[2] = [method(0), method(1), b"ACK".to_vec()][choice[0]].clone();
        give(&call);
    });
}

/// Every response on this image with or without each of its causes: 1, 2, 3, 18.
pub fn each_response(image: &[u8], give: &mut dyn FnMut(&Call)) {
    let forms = [FORMS[0].to_string(), FORMS[1].to_string(), "X:\r\n".repeat(LONGEST)];
    each_choice(&[3, 2, 3, 2, 2], &mut |choice| {
        let mut call = on_image(image, choice[1], choice[4]);
        let longer = [
            "",
            "Session-Expires:7\r\nContact:<sip:a;longer-than-the-target-before>\r\n",
        ][choice[3]];
        call.texts[1] = [longer, &routes()[choice[2]], &forms[choice[0]]].concat().into();
        call.numbers[1] = 200;
        give(&call);
    });
}

/// Good and bad ends of a block.
const FORMS: [&str; 2] = ["", "\r\n"];

/// Good and bad CSeq lines.
const CSEQS: [&str; 4] = ["CSeq:1 A\r\n", "", "CSeq:0\r\n", "CSeq:2147483648\r\n"];

/// A good method, or one over the limit.
fn method(choice: usize) -> Vec<u8> {
    vec![b'A'; [4, LONGEST + 1][choice]]
}

/// A URI whose estimate is 513.
fn too_long() -> String {
    format!("sip:{}", "h".repeat(503))
}

/// No routes, one whose estimate is 513, or 51.
fn routes() -> [String; 3] {
    [
        String::new(),
        format!("Record-Route:<{}>\r\n", too_long()),
        format!("Record-Route:{}\r\n", "<sip:a>,".repeat(51)),
    ]
}

/// A change of an image, whole or cut off by one byte, with room or without.
fn on_image(image: &[u8], cut: usize, full: usize) -> Call {
    let mut call = Call::on_image(&image[..image.len() - cut]);
    let lent = call.texts[IMAGE].len() + [600, 0][full];
    call.texts[IMAGE].resize(lent, 0);
    assert!(call.numbers[USED] <= lent as u64);
    call
}
