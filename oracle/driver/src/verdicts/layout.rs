//! The run's bytes, written and read by the run itself from docs/LAYOUTS.md.

/// A verdict: its time, and its number.
pub type Verdict = (u64, u8);

/// How many bytes an entry has, and how many entries a run has at most.
pub const ENTRY_SIZE: usize = 9;
pub const MOST: usize = 4096;

/// The run of these verdicts.
pub fn encode(verdicts: &[Verdict]) -> Vec<u8> {
    let mut bytes = Vec::with_capacity(verdicts.len() * ENTRY_SIZE);
    for (time, number) in verdicts {
        bytes.extend(time.to_be_bytes());
        bytes.push(*number);
    }
    bytes
}

/// The verdicts of whole entries, whatever their times and however many.
pub fn read_loosely(bytes: &[u8]) -> Option<Vec<Verdict>> {
    let entries = bytes.chunks_exact(ENTRY_SIZE);
    if !entries.remainder().is_empty() {
        return None;
    }
    let verdict = |entry: &[u8]| (u64::from_be_bytes(*entry.first_chunk().expect("eight bytes")), entry[8]);
    Some(entries.map(verdict).collect())
}

/// The verdicts of a run; nothing where the bytes aren't one.
pub fn decode(bytes: &[u8]) -> Option<Vec<Verdict>> {
    let verdicts = read_loosely(bytes)?;
    let rises = verdicts.windows(2).all(|pair| pair[0].0 <= pair[1].0);
    (rises && verdicts.len() <= MOST).then_some(verdicts)
}
