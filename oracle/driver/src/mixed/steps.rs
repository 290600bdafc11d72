//! What a line goes through: its record is made and put, reliable responses are sent and acknowledged, a 2xx confirms it, requests
//! come, a BYE ends it, and all that is held of it is dropped.

use super::list::{Flow, List, ON};
use crate::dialogs::calls::{self, Call};
use crate::dialogs::creation::{self, Side};
use crate::dialogs::{image, next_image, readings, room};
use crate::prack::call::{Action, Call as OnPracks, Pracks};
use crate::rseq::call::{Call as OnRseqs, RSeqs};
use crate::rseq::calls::n;
use crate::store::call::Call as OnRecords;
use crate::store::dialogs::Dialogs;
use port::Settings;

/// The stages of a line.
const STAGES: usize = 8;

/// The site's CSeq jump: the Rust's.
const JUMP: u32 = Settings::RUST.cseq_jump;

/// INVITE's number.
const INVITE: u8 = 1;

impl List<'_> {
    /// The next step of a line; at times it is done again, or one is left out.
    pub fn step(&mut self, at: usize) -> Flow {
        let stage = self.lines[at].stage;
        match stage {
            0 if !self.create(at) => return ON,
            0 => {}
            1 => self.put(at)?,
            2 => self.offer(at)?,
            3 => self.acknowledge(at)?,
            4 => self.answer(at)?,
            5 => self.within(at)?,
            6 => self.bye(at)?,
            _ => self.drop_all(at)?,
        }
        let on = match self.random.below(12) {
            0 | 1 => 0,
            2 => 2,
            _ => 1,
        };
        self.lines[at].stage = (stage + on) % STAGES;
        ON
    }

    /// A request and a response make a record's image; both blocks are read. Whether it was made.
    fn create(&mut self, at: usize) -> bool {
        let side = self.random.pick(&[Side::Uac, Side::Uas]);
        let call = creation::make(self.random, side);
        let image = next_image(&mut self.everything.feeds, side.name(), &call);
        let made = image.and_then(|image| Some((image::decode(&image)?, image)));
        let request = Call::of_image(&call.texts[1]);
        let number = self.feed("cseq_number", &request);
        let line = &mut self.lines[at];
        line.blocks = vec![call.texts[1].clone(), call.texts[2].clone()];
        line.uris = [call.texts[3].clone(), call.texts[4].clone()];
        line.status = call.numbers[0] as u16;
        line.since = self.clock;
        line.sent.clear();
        let is_made = made.is_some();
        if let Some((record, image)) = made {
            line.id = record.dialog.id().clone();
            line.invite = number.outs[0] as u32;
            line.image = image;
        }
        self.leaves(at);
        is_made
    }

    /// The image is put, and looked for.
    fn put(&mut self, at: usize) -> Flow {
        let image = self.lines[at].image.clone();
        self.call::<Dialogs>(OnRecords::Put(image))?;
        let call_id = self.lines[at].texts()[0].clone();
        self.call::<Dialogs>(OnRecords::FindByCallId(call_id))?;
        self.call::<Dialogs>(OnRecords::Count)?;
        ON
    }

    /// A reliable 180 or 183 gets its number and waits for its PRACK; mostly once or twice.
    fn offer(&mut self, at: usize) -> Flow {
        for _ in 0..1 + self.random.below(3) {
            let n = n(self.random);
            let id = self.lines[at].texts();
            let answered = self.call::<RSeqs>(OnRseqs::Next { id: id.clone(), n })?;
            self.call::<RSeqs>(OnRseqs::Current(id))?;
            if answered.number != 0 {
                continue;
            }
            let rseq = answered.outs[0] as u32;
            let code = self.random.pick(&[180, 183]);
            self.send(at, rseq, code);
            let cseq = self.lines[at].invite;
            let register = Action::Register {
                rseq,
                cseq,
                method: INVITE,
                code,
                time: self.clock,
            };
            self.on_pracks(at, register)?;
            self.lines[at].sent.push(rseq);
        }
        ON
    }

    /// The block of a reliable response is read.
    fn send(&mut self, at: usize, rseq: u32, code: u16) {
        let block = format!("RSeq: {rseq}\r\nRequire:100rel\r\n");
        let mut response = Call::of_image(block.as_bytes());
        response.numbers[0] = u64::from(code);
        self.feed("is_reliable_provisional", &response);
        self.feed("rseq", &response);
        self.lines[at].status = code;
        self.lines[at].keep(block.as_bytes());
    }

    /// A call on the PRACK store by a line's text.
    fn on_pracks(&mut self, at: usize, action: Action) -> Flow {
        let id = self.lines[at].text();
        self.call::<Pracks>(OnPracks { id, action })?;
        ON
    }

    /// A PRACK with the RAck of a response is validated, then once more, and is a request on the record.
    fn acknowledge(&mut self, at: usize) -> Flow {
        let rseq = self.lines[at].rseq(self.random);
        let rack = self.rack(at, rseq);
        let number = self.remote(at).wrapping_add(1);
        let block = calls::prack_naming(self.random, &self.lines[at].id, number, &rack);
        self.lines[at].keep(&block);
        self.leaves(at);
        let validate = Action::Validate {
            block: block.clone(),
            time: self.clock,
        };
        self.on_pracks(at, validate.clone())?;
        self.on_pracks(at, Action::IsPracked { rseq })?;
        self.on_pracks(at, validate)?;
        let method = b"PRACK".to_vec();
        self.call::<Dialogs>(OnRecords::FindByRequest(block.clone()))?;
        self.call::<Dialogs>(OnRecords::Request { method, block })?;
        match self.random.below(3) {
            0 => self.on_pracks(at, Action::RemovePracked { rseq }),
            1 => self.pending(at),
            _ => ON,
        }
    }

    /// The RAck of a response to the INVITE, as the port writes it; where it doesn't, none.
    fn rack(&mut self, at: usize, rseq: u32) -> Vec<u8> {
        let mut call = Call::default();
        let lent = self.random.pick(&[5, 64, 64, 64]);
        let cseq = self.lines[at].invite;
        call.numbers[..4].copy_from_slice(&[u64::from(rseq), u64::from(cseq), u64::from(INVITE), lent]);
        let mut answer = self.feed("format_rack", &call);
        let text = room::lent(&mut answer.bytes).get(..answer.outs[0] as usize);
        match answer.number {
            0 => text.unwrap_or_default().to_vec(),
            _ => Vec::new(),
        }
    }

    /// What waits on a line.
    fn pending(&mut self, at: usize) -> Flow {
        let room = self.random.pick(&[60, 60, 60, 6, 0]);
        let time = self.clock;
        self.on_pracks(at, Action::GetPending { time, room })
    }

    /// The remote number of a line's record; 0 where none is held.
    fn remote(&mut self, at: usize) -> u32 {
        let held = self.three.records.book().dialog(&self.lines[at].id);
        held.map_or(0, |dialog| dialog.remote_cseq())
    }

    /// A response, mostly the 2xx that confirms the record; then its interval.
    fn answer(&mut self, at: usize) -> Flow {
        let id = self.lines[at].texts();
        let status = match self.random.below(4) {
            0 => calls::any_status(self.random),
            _ => 200,
        };
        let block = match self.random.one_in(2) {
            true => self.lines[at].block(self.random),
            false => calls::response(self.random),
        };
        self.lines[at].status = status;
        self.lines[at].keep(&block);
        self.leaves(at);
        let response = OnRecords::Response {
            id: id.clone(),
            status,
            block,
        };
        self.call::<Dialogs>(response)?;
        let seconds = calls::any_seconds(self.random);
        self.call::<Dialogs>(OnRecords::Set { id, seconds })?;
        ON
    }

    /// A request within the dialog, the next local number, and readings of the record where it lies in the store.
    fn within(&mut self, at: usize) -> Flow {
        let remote = self.remote(at);
        let (method, block) = calls::request_naming(self.random, &self.lines[at].id, remote, JUMP);
        self.lines[at].keep(&block);
        self.leaves(at);
        self.call::<Dialogs>(OnRecords::Request { method, block })?;
        let id = self.lines[at].texts();
        self.call::<Dialogs>(OnRecords::Next(id.clone()))?;
        let answered = self.call::<Dialogs>(OnRecords::Get(id))?;
        if answered.number == 0 {
            let [place, length, _] = answered.outs.map(|out| out as usize);
            let image = self.three.records()[place..place + length].to_vec();
            self.read(at, &image);
        }
        self.pending(at)
    }

    /// Every reading of an image, and whether its refresh is due by now.
    fn read(&mut self, at: usize, image: &[u8]) {
        for (name, make) in readings::MAKERS {
            let call = make(self.random, image);
            self.feed(name, &call);
        }
        let mut due = Call::of_image(image);
        due.numbers[0] = self.clock.saturating_sub(self.lines[at].since);
        self.feed("image_needs_refresh", &due);
    }

    /// A BYE comes, and the record is terminated.
    fn bye(&mut self, at: usize) -> Flow {
        let number = self.remote(at).wrapping_add(1);
        let block = calls::named(self.random, &self.lines[at].id, number);
        self.lines[at].keep(&block);
        let method = b"BYE".to_vec();
        self.call::<Dialogs>(OnRecords::Request { method, block })?;
        let id = self.lines[at].texts();
        self.call::<Dialogs>(OnRecords::Terminate(id))?;
        ON
    }

    /// The record is removed or swept, and the two other stores forget the line.
    fn drop_all(&mut self, at: usize) -> Flow {
        let id = self.lines[at].texts();
        let call = match self.random.one_in(2) {
            true => OnRecords::Remove(id.clone()),
            false => OnRecords::Sweep,
        };
        self.call::<Dialogs>(call)?;
        self.call::<RSeqs>(OnRseqs::Remove(id))?;
        self.on_pracks(at, Action::RemoveDialog)
    }
}
