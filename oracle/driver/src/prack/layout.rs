//! The PRACK store's bytes, written and read by the run itself from docs/LAYOUTS.md.

/// A response that was registered.
#[derive(Debug, Clone, Copy, PartialEq, Eq)]
pub struct Response {
    pub rseq: u32,
    pub cseq: u32,
    pub method: u8,
    pub code: u16,
    pub acknowledged: bool,
    pub registered_at: u64,
}

/// What is held for an identifier text.
#[derive(Debug, Clone, PartialEq, Eq)]
pub struct Entry {
    pub id: Vec<u8>,
    pub cleaned_at: u64,
    pub list: Option<Vec<Response>>,
}

impl Entry {
    /// Its responses; none where it has no list.
    pub fn responses(&self) -> &[Response] {
        self.list.as_deref().unwrap_or_default()
    }

    /// How many bytes it has.
    pub fn size(&self) -> usize {
        let of_list = self.list.as_ref().map_or(0, |list| 1 + list.len() * RESPONSE);
        2 + self.id.len() + 8 + 1 + of_list
    }
}

/// The bytes of a response, and the most of them in a list at the Rust's figures.
pub const RESPONSE: usize = 20;
pub const MOST: usize = 10;

/// The store of these entries, which are in ascending order.
pub fn encode(entries: &[Entry]) -> Vec<u8> {
    entries.iter().flat_map(encode_entry).collect()
}

/// One entry.
fn encode_entry(entry: &Entry) -> Vec<u8> {
    let mut bytes = Vec::with_capacity(entry.size());
    let length = u16::try_from(entry.id.len()).expect("a text's length fits 16 bits");
    bytes.extend(length.to_be_bytes());
    bytes.extend(&entry.id);
    bytes.extend(entry.cleaned_at.to_be_bytes());
    bytes.push(u8::from(entry.list.is_some()));
    if let Some(list) = &entry.list {
        bytes.push(u8::try_from(list.len()).expect("a count fits 8 bits"));
        bytes.extend(list.iter().flat_map(encode_response));
    }
    bytes
}

/// One response.
fn encode_response(response: &Response) -> Vec<u8> {
    let mut bytes = Vec::with_capacity(RESPONSE);
    bytes.extend(response.rseq.to_be_bytes());
    bytes.extend(response.cseq.to_be_bytes());
    bytes.push(response.method);
    bytes.extend(response.code.to_be_bytes());
    bytes.push(u8::from(response.acknowledged));
    bytes.extend(response.registered_at.to_be_bytes());
    bytes
}

/// The entries of a store whose lists have at most so many responses; nothing where the bytes aren't one.
pub fn decode(bytes: &[u8], most: usize) -> Option<Vec<Entry>> {
    let mut rest = bytes;
    let mut entries: Vec<Entry> = Vec::new();
    while !rest.is_empty() {
        let entry = take_entry(&mut rest, most)?;
        if entries.last().is_some_and(|last| last.id >= entry.id) {
            return None;
        }
        entries.push(entry);
    }
    assert!(encode(&entries) == bytes, "one content has one image");
    Some(entries)
}

/// Takes an entry off the front, with at most so many responses.
pub fn take_entry(rest: &mut &[u8], most: usize) -> Option<Entry> {
    let length = u16::from_be_bytes(take(rest)?);
    let (id, behind) = rest.split_at_checked(usize::from(length))?;
    *rest = behind;
    let cleaned_at = u64::from_be_bytes(take(rest)?);
    let list = match take::<1>(rest)? {
        [0] => None,
        [1] => Some(take_list(rest, most)?),
        _ => return None,
    };
    Some(Entry {
        id: id.to_vec(),
        cleaned_at,
        list,
    })
}

/// Takes a count and as many responses off the front.
fn take_list(rest: &mut &[u8], most: usize) -> Option<Vec<Response>> {
    let [count] = take(rest)?;
    if usize::from(count) > most {
        return None;
    }
    (0..count).map(|_| take_response(rest)).collect()
}

/// Takes a response off the front.
fn take_response(rest: &mut &[u8]) -> Option<Response> {
    let rseq = u32::from_be_bytes(take(rest)?);
    let cseq = u32::from_be_bytes(take(rest)?);
    let [method] = take(rest)?;
    let code = u16::from_be_bytes(take(rest)?);
    let [flag] = take(rest)?;
    let registered_at = u64::from_be_bytes(take(rest)?);
    ((1..=14).contains(&method) && flag <= 1).then_some(Response {
        rseq,
        cseq,
        method,
        code,
        acknowledged: flag == 1,
        registered_at,
    })
}

/// Takes so many bytes off the front.
fn take<const LENGTH: usize>(rest: &mut &[u8]) -> Option<[u8; LENGTH]> {
    let (front, behind) = rest.split_first_chunk()?;
    *rest = behind;
    Some(*front)
}
