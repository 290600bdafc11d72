//! Header blocks to feed: good ones with every byte in every place, one line with every short value, every short
//! sequence of lines, random blocks, blocks of a length at the limit, damaged blocks.

use crate::random::Random;
use crate::rules::LONGEST;
use crate::run::Feed;
use crate::texts::{damage, each_replacement, each_sequence, near, spelled};

/// How an operation's blocks are made.
pub struct Blocks {
    /// Good blocks; each is fed with every byte in every place.
    pub templates: &'static [&'static str],
    /// The name of the line that the operation reads.
    pub name: &'static str,
    /// The pieces of which every sequence up to `longest` is fed as that line's value.
    pub pieces: &'static [&'static str],
    pub longest: usize,
    /// The pieces of which every sequence up to `longest_lines` is fed as a whole block.
    pub lines: &'static [&'static str],
    pub longest_lines: usize,
    /// The names that random blocks have, and a random value for each.
    pub names: &'static [&'static str],
    pub write: fn(&mut Random, &str) -> Vec<u8>,
}

/// Feeds all of them.
pub fn each_block(feed: &mut Feed, blocks: &Blocks, give: &dyn Fn(&mut Feed, &[u8])) {
    each_replacement(blocks.templates, &mut |block| give(feed, block));
    each_sequence(blocks.lines, blocks.longest_lines, &mut |block| give(feed, block));
    each_sequence(blocks.pieces, blocks.longest, &mut |value| {
        let block = around(feed.turn(), blocks.name, value);
        give(feed, &block);
    });
    for _ in 0..feed.calls {
        let block = random_block(&mut feed.random, blocks);
        give(feed, &block);
    }
}

/// A block with one line of that value: alone, after another line, before a second one of its name, or between blanks.
fn around(turn: usize, name: &str, value: &[u8]) -> Vec<u8> {
    let (before, after) = match turn % 4 {
        0 => (format!("{name}:"), "\r\n".to_string()),
        1 => (format!("Q:1\r\n{}: ", name.to_uppercase()), "\t\r\n".to_string()),
        2 => (format!("{name}:"), format!("\r\n{name}:7 BYE;tag=z\r\n")),
        _ => (format!("{}:\t ", name.to_lowercase()), " \r\nY:\r\n".to_string()),
    };
    [before.as_bytes(), value, after.as_bytes()].concat()
}

/// A random block, at times stretched to the limit and at times damaged.
fn random_block(random: &mut Random, blocks: &Blocks) -> Vec<u8> {
    let mut lines = Vec::new();
    for name in blocks.names {
        if !random.one_in(10) {
            lines.push(line(random, name, blocks.write));
        }
        if random.one_in(4) {
            lines.push(line(random, name, blocks.write));
        }
    }
    for _ in 0..random.below(4) {
        let name = random.pick(&["Q", "v", "Via", "-", "Subject2", "9"]);
        lines.push(line(random, name, |random, _| vec![b'v'; random.below(9)]));
    }
    shuffle(random, &mut lines);
    if random.one_in(12) {
        let length = near(random, LONGEST);
        fill(random, &mut lines, length);
    }
    let mut block = lines.concat();
    if random.one_in(4) {
        damage(random, &mut block);
    }
    block
}

/// A line of that name in some spelling and letter case, at times of a name that only resembles it, its value between blanks.
fn line(random: &mut Random, name: &str, write: impl Fn(&mut Random, &str) -> Vec<u8>) -> Vec<u8> {
    let mut bytes = spelled(random, name);
    match random.below(24) {
        0 => bytes.insert(0, b'X'),
        1 => bytes.push(b's'),
        2 => drop(bytes.pop()),
        _ => {}
    }
    bytes.push(b':');
    bytes.extend(random.pick(&["", " ", "\t", "  "]).bytes());
    bytes.extend(write(random, name));
    bytes.extend(random.pick(&["", "", " ", "\t "]).bytes());
    bytes.extend(b"\r\n");
    bytes
}

/// Puts the lines in a random order.
pub fn shuffle(random: &mut Random, lines: &mut [Vec<u8>]) {
    for last in (1..lines.len()).rev() {
        lines.swap(last, random.below(last + 1));
    }
}

/// Brings the lines to `length` bytes together by one more line, at a random place among them.
pub fn fill(random: &mut Random, lines: &mut Vec<Vec<u8>>, length: usize) {
    let held: usize = lines.iter().map(Vec::len).sum();
    let filler = random.pick(b"x \t;,:");
    let overhead = b"Q:\r\n".len();
    if let Some(missing) = length.checked_sub(held + overhead) {
        let line = [b"Q:", vec![filler; missing].as_slice(), b"\r\n"].concat();
        lines.insert(random.below(lines.len() + 1), line);
    }
}
