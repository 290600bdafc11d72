//! A differing call in full: its arguments, the store that it was given, and what both sides left.

use super::kind::Kind;
use super::memory::Left;
use super::run::Scene;
use crate::dialogs::room::GUARD;

/// At most so many bytes of a run are printed.
const MOST: usize = 2000;

/// The call in lines.
pub fn describe<K: Kind>(scene: &Scene<K>, expected: &Left, answered: &Left) -> String {
    let mut lines = vec![K::name(scene.call).to_string()];
    let argument = |(name, bytes): (&str, &[u8])| format!("{name}: {}", run_of(bytes));
    lines.extend(K::texts(scene.call).into_iter().map(argument));
    lines.extend(K::arguments(scene.call));
    let store = &scene.before.store;
    lines.push(format!(
        "lent {} of {} bytes, {:?}",
        scene.lent,
        store.size(),
        store.settings
    ));
    lines.push(format!("given {}", numbers(scene.before)));
    lines.push(format!("used bytes: {}", run_of(store.used_bytes())));
    lines.push(format!("expected {}, {}", expected.number, numbers(expected)));
    lines.push(format!("answered {}, {}", answered.number, numbers(answered)));
    let [one, other] = [&expected.store.bytes, &answered.store.bytes];
    lines.extend(first_difference("memory", store.place.start, one, other));
    lines.extend(first_difference("output", GUARD, &expected.output, &answered.output));
    lines.join("\n      ")
}

/// The out numbers, the used length and the counts.
fn numbers(left: &Left) -> String {
    let store = &left.store;
    format!(
        "outs {:?}, used {}, created {}, terminated {}",
        left.outs, store.used, store.created, store.terminated
    )
}

/// A byte run as Rust escapes it, with its length; a long one is cut off.
pub fn run_of(bytes: &[u8]) -> String {
    let shown = &bytes[..bytes.len().min(MOST)];
    let rest = if shown.len() < bytes.len() { ".." } else { "" };
    format!("({} bytes) \"{}{rest}\"", bytes.len(), shown.escape_ascii())
}

/// Where two runs part first, counted from the first lent byte, and the next bytes of both.
fn first_difference(name: &str, first: usize, expected: &[u8], answered: &[u8]) -> Option<String> {
    let place = expected.iter().zip(answered).position(|(one, other)| one != other)?;
    let next = |bytes: &[u8]| run_of(&bytes[place..bytes.len().min(place + 40)]);
    Some(format!(
        "{name} from byte {}: expected {}, answered {}",
        place as i64 - first as i64,
        next(expected),
        next(answered)
    ))
}
