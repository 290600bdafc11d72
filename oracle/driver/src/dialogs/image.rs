//! The record image, written and read by the run itself from docs/LAYOUTS.md: a `Dialog` of the Rust as bytes, and back.

use sip_core::{block, RefresherRole, SipUri};
use sip_dialog::{Dialog, DialogId, DialogStateType};
use std::ops::Range;
use std::time::Duration;

/// The bits of the map.
const CALL_ID: u16 = 0;
const LOCAL_TAG: u16 = 1;
const REMOTE_TAG: u16 = 2;
const STATE: u16 = 3;
const TARGET: u16 = 4;
const LOCAL_URI: u16 = 5;
const REMOTE_URI: u16 = 6;
const LOCAL: u16 = 7;
const REMOTE: u16 = 8;
const LAST_ACK: u16 = 9;
const SECONDS: u16 = 10;
const REFRESHER: u16 = 11;
const ROUTES: u16 = 12;

/// The most routes of an image.
const MOST_ROUTES: usize = 50;

/// The image of a dialog.
pub fn encode(dialog: &Dialog) -> Vec<u8> {
    let mut fields = Fields::default();
    fields.text(CALL_ID, dialog.id().call_id());
    fields.text(LOCAL_TAG, dialog.id().local_tag());
    fields.text(REMOTE_TAG, dialog.id().remote_tag());
    fields.put(STATE, &[state_byte(dialog)]);
    fields.text(TARGET, dialog.remote_target().as_str());
    fields.text(LOCAL_URI, dialog.local_uri().as_str());
    fields.text(REMOTE_URI, dialog.remote_uri().as_str());
    fields.number(LOCAL, Some(dialog.local_cseq()).filter(|number| *number != 0));
    fields.number(REMOTE, Some(dialog.remote_cseq()).filter(|number| *number != 0));
    fields.number(LAST_ACK, dialog.last_ack_cseq());
    fields.number(SECONDS, seconds(dialog));
    fields.number(REFRESHER, dialog.refresher().map(refresher_number));
    fields.routes(dialog.route_set());
    [fields.map.to_be_bytes().as_slice(), &fields.bytes].concat()
}

/// The session's seconds, if it has an interval.
pub fn seconds(dialog: &Dialog) -> Option<u32> {
    let of_interval = |interval: Duration| u32::try_from(interval.as_secs()).expect("seconds fit 32 bits");
    dialog.session_expires().map(of_interval)
}

/// 1 Early, 2 Confirmed, 3 Terminated.
pub fn state_number(state: DialogStateType) -> u8 {
    match state {
        DialogStateType::Early => 1,
        DialogStateType::Confirmed => 2,
        DialogStateType::Terminated => 3,
    }
}

/// The state's name.
pub fn state_name(state: DialogStateType) -> &'static str {
    match state {
        DialogStateType::Early => "Early",
        DialogStateType::Confirmed => "Confirmed",
        DialogStateType::Terminated => "Terminated",
    }
}

/// 1 uac, 2 uas.
pub fn refresher_number(role: RefresherRole) -> u32 {
    match role {
        RefresherRole::Uac => 1,
        RefresherRole::Uas => 2,
    }
}

/// State in the low two bits, bit 2 for uac, bit 3 for secure.
fn state_byte(dialog: &Dialog) -> u8 {
    state_number(dialog.state()) + 4 * u8::from(dialog.is_uac()) + 8 * u8::from(dialog.secure())
}

/// The fields written so far, in bit order, and the map of those that stand.
#[derive(Default)]
struct Fields {
    map: u16,
    bytes: Vec<u8>,
}

impl Fields {
    /// A field that stands.
    fn put(&mut self, bit: u16, bytes: &[u8]) {
        self.map |= 1 << bit;
        self.bytes.extend_from_slice(bytes);
    }

    /// A text, if it isn't empty.
    fn text(&mut self, bit: u16, text: &str) {
        if !text.is_empty() {
            self.put(bit, &text_field(text));
        }
    }

    /// A number, if it is present.
    fn number(&mut self, bit: u16, number: Option<u32>) {
        if let Some(number) = number {
            self.put(bit, &number.to_be_bytes());
        }
    }

    /// The routes, if there are any.
    fn routes(&mut self, routes: &[SipUri]) {
        if !routes.is_empty() {
            let count = u8::try_from(routes.len()).expect("at most 50 routes");
            self.put(ROUTES, &[count]);
            for route in routes {
                self.put(ROUTES, &text_field(route.as_str()));
            }
        }
    }
}

/// A text: two length bytes, then its bytes.
pub fn text_field(text: &str) -> Vec<u8> {
    let length = u16::try_from(text.len()).expect("a text's length fits 16 bits");
    [length.to_be_bytes().as_slice(), text.as_bytes()].concat()
}

/// The fields of a record. Whether it is secure follows from its two URIs.
pub struct Parts {
    pub id: DialogId,
    pub state: DialogStateType,
    pub target: SipUri,
    pub local_uri: SipUri,
    pub remote_uri: SipUri,
    pub local: u32,
    pub remote: u32,
    pub last_ack: Option<u32>,
    pub seconds: Option<u32>,
    pub refresher: Option<RefresherRole>,
    pub routes: Vec<SipUri>,
    pub is_uac: bool,
}

impl Parts {
    /// The fields of a dialog.
    pub fn of(dialog: &Dialog) -> Parts {
        Parts {
            id: dialog.id().clone(),
            state: dialog.state(),
            target: dialog.remote_target().clone(),
            local_uri: dialog.local_uri().clone(),
            remote_uri: dialog.remote_uri().clone(),
            local: dialog.local_cseq(),
            remote: dialog.remote_cseq(),
            last_ack: dialog.last_ack_cseq(),
            seconds: seconds(dialog),
            refresher: dialog.refresher(),
            routes: dialog.route_set().to_vec(),
            is_uac: dialog.is_uac(),
        }
    }

    /// The dialog of these fields.
    pub fn dialog(self) -> Dialog {
        let secure = self.local_uri.is_sips() || self.remote_uri.is_sips();
        Dialog::unchecked_new(
            self.id,
            self.state,
            self.local_uri,
            self.remote_uri,
            self.target,
            self.local,
            self.remote,
            self.last_ack,
            self.routes,
            secure,
            self.seconds.map(|seconds| Duration::from_secs(u64::from(seconds))),
            self.refresher,
            self.is_uac,
        )
    }
}

/// A record that was read: the dialog, and where its texts lie in the image.
pub struct Record {
    pub dialog: Dialog,
    /// Call-ID, local tag, remote tag. An empty one lies where its field would begin.
    pub id: [Range<usize>; 3],
    /// Target, local URI, remote URI.
    pub uris: [Range<usize>; 3],
    pub routes: Vec<Range<usize>>,
}

/// The record of exactly one image; nothing where the bytes aren't one.
pub fn decode(image: &[u8]) -> Option<Record> {
    let (record, length) = front(image)?;
    (length == image.len()).then_some(record)
}

/// Whether the bytes would be an image, were it not for its routes: one more than an image may have.
pub fn is_crowded(bytes: &[u8]) -> bool {
    let whole = |most| read(bytes, most).is_some_and(|(_, length)| length == bytes.len());
    !whole(MOST_ROUTES) && whole(MOST_ROUTES + 1)
}

/// The records of images one after another; nothing where the bytes aren't whole images.
pub fn decode_all(mut bytes: &[u8]) -> Option<Vec<Record>> {
    let mut records = Vec::new();
    while !bytes.is_empty() {
        let (record, length) = front(bytes)?;
        records.push(record);
        bytes = &bytes[length..];
    }
    Some(records)
}

/// The record of the image at the front, and that image's length.
fn front(bytes: &[u8]) -> Option<(Record, usize)> {
    let (record, length) = read(bytes, MOST_ROUTES)?;
    assert_eq!(
        encode(&record.dialog),
        &bytes[..length],
        "the run's image isn't the one of its record"
    );
    Some((record, length))
}

/// The fields in bit order, with so many routes at most, and where they end.
fn read(image: &[u8], most: usize) -> Option<(Record, usize)> {
    let mut reader = Reader { image, at: 0, map: 0 };
    reader.map = reader.map()?;
    let id = [reader.id(CALL_ID)?, reader.id(LOCAL_TAG)?, reader.id(REMOTE_TAG)?];
    let state = reader.take(1)?[0];
    let uris = [reader.uri()?, reader.uri()?, reader.uri()?];
    let local = reader.number(LOCAL)?;
    let remote = reader.number(REMOTE)?;
    let last_ack = reader.number(LAST_ACK)?;
    let seconds = reader.number(SECONDS)?;
    let refresher = reader.number(REFRESHER)?;
    let routes = reader.routes(most)?;
    if local == Some(0) || remote == Some(0) {
        return None;
    }
    let text = |place: &Range<usize>| std::str::from_utf8(&image[place.clone()]).expect("ASCII");
    let uri = |place: &Range<usize>| SipUri::parse(text(place)).expect("read before");
    let parts = Parts {
        id: DialogId::unchecked_new(text(&id[0]), text(&id[1]), text(&id[2])),
        state: state_of(state)?,
        target: uri(&uris[0]),
        local_uri: uri(&uris[1]),
        remote_uri: uri(&uris[2]),
        local: local.unwrap_or(0),
        remote: remote.unwrap_or(0),
        last_ack,
        seconds,
        refresher: refresher_of(refresher)?,
        routes: routes.iter().map(uri).collect(),
        is_uac: state & 4 != 0,
    };
    let dialog = parts.dialog();
    let secure = dialog.secure();
    let record = Record {
        dialog,
        id,
        uris,
        routes,
    };
    (secure == (state & 8 != 0)).then_some((record, reader.at))
}

/// The state of a state byte, whose upper four bits must be 0.
fn state_of(byte: u8) -> Option<DialogStateType> {
    match (byte >> 4, byte & 3) {
        (0, 1) => Some(DialogStateType::Early),
        (0, 2) => Some(DialogStateType::Confirmed),
        (0, 3) => Some(DialogStateType::Terminated),
        _ => None,
    }
}

/// The role of a refresher's number, if it is present.
fn refresher_of(number: Option<u32>) -> Option<Option<RefresherRole>> {
    match number {
        None => Some(None),
        Some(1) => Some(Some(RefresherRole::Uac)),
        Some(2) => Some(Some(RefresherRole::Uas)),
        Some(_) => None,
    }
}

/// A place in the image, and the map.
struct Reader<'a> {
    image: &'a [u8],
    at: usize,
    map: u16,
}

impl<'a> Reader<'a> {
    /// The next bytes.
    fn take(&mut self, count: usize) -> Option<&'a [u8]> {
        let bytes = self.image.get(self.at..self.at + count)?;
        self.at += count;
        Some(bytes)
    }

    /// Whether a bit stands.
    fn stands(&self, bit: u16) -> bool {
        self.map & (1 << bit) != 0
    }

    /// The map: bits 3 to 6 stand, none above 12.
    fn map(&mut self) -> Option<u16> {
        let bytes = self.take(2)?;
        let map = u16::from_be_bytes([bytes[0], bytes[1]]);
        let always = 1 << STATE | 1 << TARGET | 1 << LOCAL_URI | 1 << REMOTE_URI;
        (map & always == always && map >> (ROUTES + 1) == 0).then_some(map)
    }

    /// Where the next text lies.
    fn text(&mut self) -> Option<Range<usize>> {
        let length = self.take(2)?;
        let length = u16::from_be_bytes([length[0], length[1]]);
        let start = self.at;
        self.take(usize::from(length))?;
        Some(start..self.at)
    }

    /// An identifier part: at least one byte, all of them allowed in values.
    fn id(&mut self, bit: u16) -> Option<Range<usize>> {
        if !self.stands(bit) {
            return Some(self.at..self.at);
        }
        let place = self.text()?;
        let good = self.image[place.clone()].iter().copied().all(block::is_value_byte);
        (good && !place.is_empty()).then_some(place)
    }

    /// A readable URI.
    fn uri(&mut self) -> Option<Range<usize>> {
        let place = self.text()?;
        let text = std::str::from_utf8(&self.image[place.clone()]).ok()?;
        SipUri::parse(text).is_ok().then_some(place)
    }

    /// A number, if its bit stands.
    fn number(&mut self, bit: u16) -> Option<Option<u32>> {
        if !self.stands(bit) {
            return Some(None);
        }
        let bytes = self.take(4)?;
        Some(Some(u32::from_be_bytes(bytes.try_into().ok()?)))
    }

    /// The routes, if their bit stands: one at least, and so many at most.
    fn routes(&mut self, most: usize) -> Option<Vec<Range<usize>>> {
        if !self.stands(ROUTES) {
            return Some(Vec::new());
        }
        let count = usize::from(self.take(1)?[0]);
        if !(1..=most).contains(&count) {
            return None;
        }
        (0..count).map(|_| self.uri()).collect()
    }
}
