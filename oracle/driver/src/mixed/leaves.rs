//! Calls of the operations without a store on what a line has: its blocks and what stands in them, its identifier and URIs, its
//! numbers.

use super::line::Line;
use crate::dialogs::calls::Call;
use crate::random::Random;
use crate::run::Operation;
use crate::texts::METHOD_TEXTS;

/// Nanoseconds of a second.
const SECOND: u64 = 1_000_000_000;

/// A call of an operation, by the names of its texts and numbers.
pub fn call(random: &mut Random, operation: &Operation, line: &Line, clock: u64) -> Call {
    let mut call = Call::default();
    let block = line.block(random);
    for (text, name) in call.texts.iter_mut().zip(operation.texts) {
        *text = self::text(random, name, line, &block);
    }
    for (number, name) in call.numbers.iter_mut().zip(operation.numbers) {
        *number = self::number(random, name, line, clock);
    }
    call
}

/// The text of that name.
fn text(random: &mut Random, name: &str, line: &Line, block: &[u8]) -> Vec<u8> {
    let [call_id, local, remote] = line.texts();
    match name {
        "block" => block.to_vec(),
        "name" => part_of_line(random, block, 0),
        "value" => part_of_line(random, block, 1),
        "Call-ID" => call_id,
        "local tag" => local,
        "remote tag" => remote,
        "text" => match random.below(4) {
            0 => random.pick(&METHOD_TEXTS).into(),
            1 => random.pick(&["uac", "uas", "UAC", "Uas"]).into(),
            which => line.uris[which - 2].clone(),
        },
        other => panic!("a text that no line has: {other}"),
    }
}

/// The name of one of the block's lines, or its value without the blanks around it.
fn part_of_line(random: &mut Random, block: &[u8], part: usize) -> Vec<u8> {
    let lines: Vec<&[u8]> = block.split(|byte| *byte == b'\n').collect();
    let line = lines[random.below(lines.len())];
    let mut parts = line.splitn(2, |byte| *byte == b':');
    parts.nth(part).unwrap_or_default().trim_ascii().to_vec()
}

/// The number of that name.
fn number(random: &mut Random, name: &str, line: &Line, clock: u64) -> u64 {
    let seconds = random.pick(&[0, 89, 90, 120, 1800, 86_400, 86_401]);
    match name {
        "from" => random.below(300) as u64,
        "status" | "code" => u64::from(line.status),
        "index" => random.below(4) as u64,
        "method" => random.below(16) as u64,
        "lent" => random.below(40) as u64,
        "RSeq" => u64::from(line.rseq(random)),
        "CSeq" => u64::from(line.invite),
        "created" | "terminated" => random.below(50) as u64,
        "seconds" | "requested seconds" | "Min-SE" => seconds,
        "elapsed" => clock.saturating_sub(line.since),
        "interval" | "minimum" | "requested" | "local minimum" | "remote minimum" | "preference" => seconds * SECOND,
        "reversed" | "given" | "is uac" | "has interval" | "has minimum" | "has remote minimum" | "has preference" => {
            random.below(2) as u64
        }
        other => panic!("a number that no line has: {other}"),
    }
}
