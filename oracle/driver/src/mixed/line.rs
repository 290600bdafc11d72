//! A line of a panel: the blocks that came on it, its identifier, and how far it has come.

use crate::random::Random;
use crate::store::call::{texts_of, Id};
use sip_dialog::DialogId;

/// A line. Before its record is made, its identifier is three empty texts.
pub struct Line {
    pub stage: usize,
    /// Request and response of its creation, then the last other blocks.
    pub blocks: Vec<Vec<u8>>,
    /// Local and remote URI.
    pub uris: [Vec<u8>; 2],
    pub status: u16,
    pub image: Vec<u8>,
    pub id: DialogId,
    /// The CSeq of its INVITE.
    pub invite: u32,
    /// The RSeqs of its reliable responses.
    pub sent: Vec<u32>,
    /// When its record was made.
    pub since: u64,
}

/// The blocks of a creation, and so many others at most are kept.
const CREATION: usize = 2;
const MOST_BLOCKS: usize = 5;

impl Line {
    /// A line on which nothing came yet.
    pub fn new() -> Line {
        Line {
            stage: 0,
            blocks: Vec::new(),
            uris: [Vec::new(), Vec::new()],
            status: 100,
            image: Vec::new(),
            id: DialogId::unchecked_new("", "", ""),
            invite: 1,
            sent: Vec::new(),
            since: 0,
        }
    }

    /// The identifier's three texts.
    pub fn texts(&self) -> Id {
        texts_of(&self.id)
    }

    /// The identifier as the one text of the PRACK store.
    pub fn text(&self) -> Vec<u8> {
        self.texts().join(&b';')
    }

    /// Keeps a block that came.
    pub fn keep(&mut self, block: &[u8]) {
        if self.blocks.len() == MOST_BLOCKS {
            self.blocks.remove(CREATION);
        }
        self.blocks.push(block.to_vec());
    }

    /// One of the blocks; the empty one where none came.
    pub fn block(&self, random: &mut Random) -> Vec<u8> {
        match self.blocks.len() {
            0 => Vec::new(),
            count => self.blocks[random.below(count)].clone(),
        }
    }

    /// An RSeq: mostly one that was sent.
    pub fn rseq(&self, random: &mut Random) -> u32 {
        match self.sent.len() {
            0 => random.pick(&[0, 1, u32::MAX]),
            _ if random.one_in(12) => random.next() as u32,
            count => self.sent[random.below(count)],
        }
    }
}
