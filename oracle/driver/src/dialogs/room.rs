//! Lent bytes: an image with the room behind it, or room for a new one. Guard bytes stand before and behind them, and all
//! of them are compared.

use super::image::{self, Parts, Record};
use crate::answer::{Answer, Input};
use crate::bounds;
use sip_dialog::Dialog;

/// How many guard bytes stand on each side.
pub const GUARD: usize = 16;

/// Where a change has its image: the lent bytes are the first text, the used length is the first number and the first
/// out number.
pub const IMAGE: usize = 0;
pub const USED: usize = 0;

/// Lends these bytes between guard bytes.
pub fn lend(answer: &mut Answer, bytes: &[u8]) {
    answer.bytes = guarded(bytes, answer.pattern);
}

/// These bytes between guard bytes of a pattern.
pub fn guarded(bytes: &[u8], pattern: u64) -> Vec<u8> {
    let guard = [pattern as u8; GUARD];
    [guard.as_slice(), bytes, &guard].concat()
}

/// Lends `length` bytes, filled with the pattern.
pub fn lend_empty(answer: &mut Answer, length: usize) {
    answer.bytes = vec![answer.pattern as u8; length + 2 * GUARD];
}

/// Leaves a text at the front of the lent bytes, and its length in the first out number: 18.
pub fn leave_text(answer: &mut Answer, text: &[u8]) -> Result<(), u8> {
    let lent = lent(&mut answer.bytes);
    lent.get_mut(..text.len()).ok_or(18)?.copy_from_slice(text);
    answer.outs[0] = text.len() as u64;
    Ok(())
}

/// The lent bytes without the guard bytes.
pub fn lent(bytes: &mut [u8]) -> &mut [u8] {
    let end = bytes.len() - GUARD;
    &mut bytes[GUARD..end]
}

/// Lends a change's image, and its used length as the first out number.
pub fn lend_image(input: &Input, answer: &mut Answer) {
    lend(answer, input.texts[IMAGE]);
    answer.outs[USED] = input.numbers[USED];
}

/// The record of a change's used bytes: 3.
pub fn used_record(operation: &'static str, input: &Input) -> Result<Record, u8> {
    let lent = input.texts[IMAGE];
    bounds::number(operation, "lent bytes", lent.len());
    let used = input.numbers[USED];
    match i128::from(used) - lent.len() as i128 {
        0 => bounds::met(operation, "used bytes", "as many as lent"),
        1 => bounds::met(operation, "used bytes", "one more than lent"),
        _ => {}
    }
    let used = usize::try_from(used).map_err(|_| 3)?;
    let record = image::decode(lent.get(..used).ok_or(3)?).ok_or(3)?;
    bounds::met(operation, "state", image::state_name(record.dialog.state()));
    Ok(record)
}

/// Leaves the dialog's image in the lent bytes, and its length in the first out number: 18.
pub fn leave(operation: &'static str, answer: &mut Answer, dialog: &Dialog) -> Result<(), u8> {
    let result = image::encode(dialog);
    let lent = lent(&mut answer.bytes);
    bounds::room(operation, result.len(), lent.len());
    lent.get_mut(..result.len()).ok_or(18)?.copy_from_slice(&result);
    answer.outs[USED] = result.len() as u64;
    Ok(())
}

/// A planted fault: changes the record that an accepted call left, if the changed one fits.
pub fn distort_record(answer: &mut Answer, change: impl FnOnce(&mut Parts)) {
    let length = answer.outs[USED] as usize;
    let lent = lent(&mut answer.bytes);
    let Some(record) = lent.get(..length).and_then(image::decode) else {
        return;
    };
    let mut parts = Parts::of(&record.dialog);
    change(&mut parts);
    let result = image::encode(&parts.dialog());
    if let (0, Some(front)) = (answer.number, lent.get_mut(..result.len())) {
        front.copy_from_slice(&result);
        answer.outs[USED] = result.len() as u64;
    }
}
