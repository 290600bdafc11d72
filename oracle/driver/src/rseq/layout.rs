//! The RSeq store's bytes, written and read by the run itself from docs/LAYOUTS.md.

use crate::store::call::Id;

/// An identifier and its number. Entries compare as the layout says: by the texts in their order, each byte by byte, a proper
/// prefix first.
pub type Entry = (Id, u32);

/// The store of these entries, which are in ascending order.
pub fn encode(entries: &[Entry]) -> Vec<u8> {
    entries.iter().flat_map(encode_entry).collect()
}

/// One entry.
fn encode_entry((id, number): &Entry) -> Vec<u8> {
    let mut bytes = Vec::with_capacity(entry_size(id));
    for text in id {
        let length = u16::try_from(text.len()).expect("a text's length fits 16 bits");
        bytes.extend(length.to_be_bytes());
        bytes.extend(text);
    }
    bytes.extend(number.to_be_bytes());
    bytes
}

/// How many bytes an identifier's entry has.
pub fn entry_size(id: &Id) -> usize {
    id.iter().map(|text| 2 + text.len()).sum::<usize>() + 4
}

/// The entries of a store; nothing where the bytes aren't one.
pub fn decode(bytes: &[u8]) -> Option<Vec<Entry>> {
    let mut rest = bytes;
    let mut entries: Vec<Entry> = Vec::new();
    while !rest.is_empty() {
        let (id, number) = take_entry(&mut rest)?;
        if number == 0 || entries.last().is_some_and(|(last, _)| *last >= id) {
            return None;
        }
        entries.push((id, number));
    }
    assert!(encode(&entries) == bytes, "one content has one image");
    Some(entries)
}

/// Takes an entry off the front, whatever its number.
pub fn take_entry(rest: &mut &[u8]) -> Option<Entry> {
    let id = [take_text(rest)?, take_text(rest)?, take_text(rest)?];
    let number = u32::from_be_bytes(*take(rest, 4)?.first_chunk()?);
    Some((id, number))
}

/// Takes a text off the front.
fn take_text(rest: &mut &[u8]) -> Option<Vec<u8>> {
    let length = u16::from_be_bytes(*take(rest, 2)?.first_chunk()?);
    Some(take(rest, usize::from(length))?.to_vec())
}

/// Takes so many bytes off the front.
fn take<'a>(rest: &mut &'a [u8], length: usize) -> Option<&'a [u8]> {
    let (front, behind) = rest.split_at_checked(length)?;
    *rest = behind;
    Some(front)
}
