//! The plain day of a line, from its INVITE to its end, each step taken: what chance seldom does in one piece.

use super::line::Line;
use super::list::List;
use super::three::Part;
use crate::all::Everything;
use crate::dialogs::calls::Call;
use crate::dialogs::creation::{is_made, Side};
use crate::dialogs::next_image;
use crate::prack::call::{Action, Call as OnPracks, Pracks};
use crate::random::Random;
use crate::rseq::call::{Call as OnRseqs, RSeqs};
use crate::rseq::calls::n;
use crate::store::call::{Call as OnRecords, Id};
use crate::store::dialogs::Dialogs;
use crate::store::lists::roomy;
use std::ops::ControlFlow;

/// How often it is gone through, on each side.
const TIMES: usize = 25;

/// All of them.
pub fn each(everything: &mut Everything, random: &mut Random) {
    for turn in 0..2 * TIMES {
        let side = [Side::Uac, Side::Uas][turn % 2];
        let mut day = Day {
            list: List::new(everything, random, [0, 0], vec![Line::new()]),
            numbers: Vec::new(),
        };
        assert!(is_made(&invite(), side), "the Rust makes the record of the plain day");
        if day.go(side).is_continue() {
            assert_eq!(day.numbers, NUMBERS, "every step of the plain day is taken");
        }
    }
}

/// What the calls of the day answer: all are taken but the PRACK that comes again, and what is asked for when all is dropped.
const NUMBERS: [u8; 22] = [0, 0, 0, 0, 0, 0, 24, 0, 0, 0, 0, 0, 0, 0, 0, 0, 0, 0, 0, 0, 15, 15];

/// A list of one line, and the numbers answered.
struct Day<'a> {
    list: List<'a>,
    numbers: Vec<u8>,
}

impl Day<'_> {
    /// A call that is lent more than enough; its first out number.
    fn call<K: Part>(&mut self, call: K::Call) -> ControlFlow<(), u64> {
        let sides = K::sides(&mut self.list.three);
        let lent = roomy::<K>(self.list.random, sides, &call);
        let answered = self.list.compare::<K>(&call, lent)?;
        self.numbers.push(answered.number);
        ControlFlow::Continue(answered.outs[0])
    }

    /// The whole day.
    fn go(&mut self, side: Side) -> ControlFlow<()> {
        let Some(image) = next_image(&mut self.list.everything.feeds, side.name(), &invite()) else {
            return ControlFlow::Break(());
        };
        let id = match side {
            Side::Uac => ID,
            Side::Uas => [ID[0], ID[2], ID[1]],
        };
        let id = id.map(|text| text.as_bytes().to_vec());
        self.call::<Dialogs>(OnRecords::Put(image))?;
        let [first, second] = [self.offer(&id, 180)?, self.offer(&id, 183)?];
        self.acknowledge(&id, first, 2)?;
        self.acknowledge_last(&id, second)?;
        self.talk(&id)?;
        self.end(&id)
    }

    /// A reliable response: its number, which is registered.
    fn offer(&mut self, id: &Id, code: u16) -> ControlFlow<(), u32> {
        let n = n(self.list.random);
        let rseq = self.call::<RSeqs>(OnRseqs::Next { id: id.clone(), n })? as u32;
        let register = Action::Register {
            rseq,
            cseq: 1,
            method: 1,
            code,
            time: self.list.clock,
        };
        self.on_pracks(id, register)?;
        ControlFlow::Continue(rseq)
    }

    /// A call on the PRACK store.
    fn on_pracks(&mut self, id: &Id, action: Action) -> ControlFlow<(), u64> {
        let id = id.join(&b';');
        self.call::<Pracks>(OnPracks { id, action })
    }

    /// The PRACK of a response, twice, and as a request on the record.
    fn acknowledge(&mut self, id: &Id, rseq: u32, number: u32) -> ControlFlow<()> {
        let block = block(id, number, &format!("RAck:{rseq} 1 INVITE\r\n"));
        let validate = Action::Validate {
            block: block.clone(),
            time: self.list.clock,
        };
        self.on_pracks(id, validate.clone())?;
        self.on_pracks(id, validate)?;
        self.request("PRACK", block)
    }

    /// That of the last one, once; then both are acknowledged.
    fn acknowledge_last(&mut self, id: &Id, rseq: u32) -> ControlFlow<()> {
        let block = block(id, 3, &format!("RAck:{rseq} 1 INVITE\r\n"));
        let time = self.list.clock;
        self.on_pracks(id, Action::Validate { block, time })?;
        self.on_pracks(id, Action::RemovePracked { rseq })?;
        self.on_pracks(id, Action::GetPending { time, room: 0 })?;
        ControlFlow::Continue(())
    }

    /// A request on the record.
    fn request(&mut self, method: &str, block: Vec<u8>) -> ControlFlow<()> {
        let method = method.into();
        self.call::<Dialogs>(OnRecords::Request { method, block })?;
        ControlFlow::Continue(())
    }

    /// The 2xx, the interval, a request and the next local number.
    fn talk(&mut self, id: &Id) -> ControlFlow<()> {
        let response = OnRecords::Response {
            id: id.clone(),
            status: 200,
            block: b"Contact:<sip:p@h>\r\n".to_vec(),
        };
        self.call::<Dialogs>(response)?;
        let set = OnRecords::Set {
            id: id.clone(),
            seconds: 1800,
        };
        self.call::<Dialogs>(set)?;
        self.request("UPDATE", block(id, 4, ""))?;
        self.call::<Dialogs>(OnRecords::Next(id.clone()))?;
        ControlFlow::Continue(())
    }

    /// BYE, and all that is held is dropped; then nothing is found.
    fn end(&mut self, id: &Id) -> ControlFlow<()> {
        self.request("BYE", block(id, 5, ""))?;
        self.call::<Dialogs>(OnRecords::Terminate(id.clone()))?;
        self.call::<Dialogs>(OnRecords::Sweep)?;
        self.call::<RSeqs>(OnRseqs::Remove(id.clone()))?;
        self.on_pracks(id, Action::RemoveDialog)?;
        self.call::<Dialogs>(OnRecords::Get(id.clone()))?;
        self.call::<RSeqs>(OnRseqs::Current(id.clone()))?;
        ControlFlow::Continue(())
    }
}

/// Call-ID, the tag of From and the tag of To of the first messages.
const ID: [&str; 3] = ["c1@h", "f", "t"];

/// The INVITE and its 180, with much room for the record.
fn invite() -> Call {
    let block = format!("Call-ID:{}\r\nFrom:;tag={}\r\nTo:;tag={}\r\n", ID[0], ID[1], ID[2]);
    let both = ["CSeq:1 INVITE\r\nContact:<sip:q@h>\r\n", block.as_str()].concat();
    let mut call = Call::default();
    call.texts = [
        b"INVITE".to_vec(),
        both.clone().into(),
        both.into(),
        b"sip:l@h".to_vec(),
        b"sip:r@h".to_vec(),
    ];
    call.numbers[..2].copy_from_slice(&[180, 500]);
    call
}

/// The block of a request of the peer, whose tag is the remote one.
fn block(id: &Id, number: u32, line: &str) -> Vec<u8> {
    let [call_id, local, remote] = [&id[0], &id[1], &id[2]].map(|text| String::from_utf8_lossy(text));
    format!("CSeq:{number} A\r\nCall-ID:{call_id}\r\nFrom:;tag={remote}\r\nTo:;tag={local}\r\n{line}").into()
}
