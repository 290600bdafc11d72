//! The list as it is written, with the memory that the program then has.

use super::line;
use super::rows::ROWS;
use super::store_call::StoreCall;
use super::{Kept, Recorder};
use std::collections::{BTreeMap, BTreeSet};

/// The folder of the program.
const FOLDER: &str = concat!(env!("CARGO_MANIFEST_DIR"), "/../../crates/replay");

/// So many bytes at least lie behind the lent ones, of this value; those between the used and the lent ones are of the other.
const BEHIND: usize = 8;
const BEHIND_BYTE: u8 = b'#';
const FREE_BYTE: u8 = b'-';

/// The text so far, how many calls of each operation it has, and the program's memory.
pub struct Writer {
    text: String,
    calls: BTreeMap<&'static str, usize>,
    written: BTreeSet<String>,
    memory: Vec<u8>,
}

impl Writer {
    /// The head: a row for each operation.
    pub fn new() -> Writer {
        let rows = ROWS.iter().map(|form| format!("{} {}\n", form.name, form.kinds));
        Writer {
            text: rows.collect::<String>() + "\n" + include_str!("head.txt"),
            calls: BTreeMap::new(),
            written: BTreeSet::new(),
            memory: Vec::new(),
        }
    }

    /// All calls that were kept, by operation, the shortest first; none twice.
    pub fn kept(&mut self, recorder: &Recorder) {
        for form in &ROWS {
            let mut calls: Vec<_> = recorder
                .kept
                .values()
                .flatten()
                .filter(|(_, _, kept)| name_of(kept) == form.name)
                .collect();
            calls.sort_by_key(|(_, seen, _)| *seen);
            calls.dedup_by_key(|(_, seen, _)| *seen);
            for (_, _, kept) in calls {
                match kept {
                    Kept::Lines(name, lines) => self.lines(name, lines),
                    Kept::OnStore(call) => self.alone(call),
                }
            }
        }
    }

    /// Lines that need no store, but those that are there already.
    pub fn lines(&mut self, name: &'static str, lines: &[String]) {
        for line in lines {
            if self.written.insert(line.clone()) {
                self.line(line);
                *self.calls.entry(name).or_default() += 1;
            }
        }
    }

    /// A call on a store of its own, unless it is there already.
    fn alone(&mut self, call: &StoreCall) {
        let key = format!("{:?} {}", call.given, call.line());
        if self.written.insert(key) {
            self.on_store(call);
        }
    }

    /// A call on a store. The store is written if the memory isn't it, and the memory is made larger if need be.
    pub fn on_store(&mut self, call: &StoreCall) {
        let given = &call.given;
        if self.memory.get(..given.len()) != Some(given.as_slice()) {
            self.memory = given.clone();
            self.memory.resize(call.lent.max(given.len()), FREE_BYTE);
            self.memory.extend([BEHIND_BYTE; BEHIND]);
            self.line(&format!("store {}", line::text(&self.memory)));
        }
        if self.memory.len() < call.lent + BEHIND {
            let more = vec![BEHIND_BYTE; call.lent + BEHIND - self.memory.len()];
            self.line(&format!("room {}", line::text(&more)));
            self.memory.extend(more);
        }
        self.line(&call.line());
        *self.calls.entry(call.name).or_default() += 1;
        if let Some((at, dropped, piece)) = call.change() {
            let moved = self.memory[at + dropped..call.used].to_vec();
            let end = at + piece.len();
            self.memory[at..end].copy_from_slice(piece);
            self.memory[end..end + moved.len()].copy_from_slice(&moved);
        }
    }

    /// Copies of an image, its digits counted up, as the memory.
    pub fn copies(&mut self, copies: &[(usize, Vec<u8>, usize, usize)], room: usize) {
        self.line("store \"\"");
        self.memory.clear();
        for (many, image, at, digits) in copies {
            self.line(&format!("copies {many} {} {at} {digits}", line::text(image)));
            for number in 0..*many {
                self.memory.extend(super::full::numbered(image, *at, *digits, number));
            }
        }
        let free = vec![FREE_BYTE; room];
        self.line(&format!("room {}", line::text(&free)));
        self.memory.extend(free);
    }

    /// The memory's first bytes.
    pub fn memory(&self) -> &[u8] {
        &self.memory
    }

    /// A line that says what follows.
    pub fn remark(&mut self, remark: &str) {
        self.line(&format!("# {remark}"));
    }

    fn line(&mut self, line: &str) {
        self.text += line;
        self.text.push('\n');
    }

    /// Writes the two files.
    pub fn finish(self) -> bool {
        let mut lines = String::new();
        for form in &ROWS {
            let calls = self.calls.get(form.name).copied().unwrap_or_default();
            lines += &format!("{}: {calls} calls\n", form.name);
        }
        let sum: usize = self.calls.values().sum();
        lines += &format!("{sum} calls, all as recorded\n");
        println!("{sum} calls, {} bytes", self.text.len());
        let written = std::fs::write(format!("{FOLDER}/stdin"), &self.text)
            .and(std::fs::write(format!("{FOLDER}/stdout"), lines));
        if let Err(error) = &written {
            println!("{FOLDER}: {error}");
        }
        written.is_ok()
    }
}

/// A kept call's operation.
fn name_of(kept: &Kept) -> &'static str {
    match kept {
        Kept::Lines(name, _) => name,
        Kept::OnStore(call) => call.name,
    }
}
