//! One recorded call on a store.

use super::arguments::Argument;
use super::forms::{form_of, takes_settings};
use super::line;
use crate::dialogs::room;
use crate::settings;
use crate::store::memory::Left;
use port::Settings;

/// The call: what it is given and what it must leave.
#[derive(Clone)]
pub struct StoreCall {
    pub name: &'static str,
    /// The name, the settings and the own arguments, as text.
    own: String,
    pub lent: usize,
    pub used: usize,
    used_after: usize,
    number: u8,
    outs: Vec<[u64; 2]>,
    output: Option<[Vec<u8>; 2]>,
    /// The bytes that the call can read, and the used bytes before and after it.
    pub given: Vec<u8>,
    before: Vec<u8>,
    after: Vec<u8>,
}

/// The bytes of a change: where, how many go, and what comes instead.
pub type Change<'a> = Option<(usize, usize, &'a [u8])>;

impl StoreCall {
    /// A call as the comparison has it.
    pub fn new(name: &'static str, own: Vec<Argument>, lent: usize, before: &Left, expected: &Left) -> StoreCall {
        let kinds = form_of(name).kinds;
        let answers = kinds.split('=').nth(1).expect("an answer").matches('n').count();
        let outs = match name {
            "put" => vec![[before.store.created, expected.store.created]],
            "remove" => vec![[before.store.terminated, expected.store.terminated]],
            _ => before
                .outs
                .iter()
                .zip(&expected.outs)
                .map(|(before, after)| [*before, *after])
                .collect(),
        };
        let lent_of = |bytes: &[u8]| room::lent(&mut bytes.to_vec()).to_vec();
        let output = kinds
            .contains('o')
            .then(|| [lent_of(&before.output), lent_of(&expected.output)]);
        let memory = before.store.clone().memory().to_vec();
        StoreCall {
            name,
            own: own_text(name, before.store.settings, &own),
            lent,
            used: before.store.used,
            used_after: expected.store.used,
            number: expected.number,
            outs: outs.into_iter().take(answers - 2).collect(),
            output,
            given: memory[..lent.min(before.store.used)].to_vec(),
            before: before.store.used_bytes().to_vec(),
            after: expected.store.used_bytes().to_vec(),
        }
    }

    /// About how long it is in the list, with its store.
    pub fn length(own: &[Argument], lent: usize, before: &Left, expected: &Left) -> usize {
        let own = own.iter().map(|argument| match argument {
            Argument::Text(text) => line::length(text),
            Argument::Number(_) => 8,
        });
        let used = before.store.used_bytes();
        let given = line::length(&used[..lent.min(used.len())]);
        own.sum::<usize>() + given + line::length(&expected.output)
    }

    /// The change of the used bytes.
    pub fn change(&self) -> Change<'_> {
        let (old, new) = (&self.before, &self.after);
        if old == new {
            return None;
        }
        let front = old.iter().zip(new).take_while(|(old, new)| old == new).count();
        let most = old.len().min(new.len()) - front;
        let ends = old.iter().rev().zip(new.iter().rev());
        let end = ends.take(most).take_while(|(old, new)| old == new).count();
        Some((front, old.len() - front - end, &new[front..new.len() - end]))
    }

    /// Its line.
    pub fn line(&self) -> String {
        let mut text = format!("{} [{}] {}", self.own, self.lent, self.used);
        if let Some([before, _]) = &self.output {
            text += &format!(" {}", line::text(before));
        }
        for [before, _] in &self.outs {
            text += &format!(" {before}");
        }
        text += &format!(" = {} {}", self.number, self.used_after);
        for [_, after] in &self.outs {
            text += &format!(" {after}");
        }
        if let Some([_, after]) = &self.output {
            text += &format!(" {}", line::text(after));
        }
        if let Some((at, dropped, piece)) = self.change() {
            text += &format!(" {at} {dropped} {}", line::text(piece));
        }
        text
    }
}

/// The name, the site's figures where the operation is given them, and the own arguments.
fn own_text(name: &str, settings: Settings, own: &[Argument]) -> String {
    let mut text = name.to_string();
    if takes_settings(name) {
        for figure in settings::figures(settings) {
            text += &format!(" {figure}");
        }
    }
    for argument in own {
        match argument {
            Argument::Text(bytes) => text += &format!(" {}", line::text(bytes)),
            Argument::Number(number) => text += &format!(" {number}"),
        }
    }
    text
}
