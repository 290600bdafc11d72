//! What an operation is given and what it answers, in one form for both sides.

use port::Settings;

/// The width of an out number; a `size_t` has 64 bits.
#[derive(Debug, Clone, Copy, PartialEq, Eq)]
pub enum Width {
    U8,
    U16,
    U32,
    U64,
}

/// An out number: its name and width.
pub type Out = (&'static str, Width);

/// A call's arguments: byte runs, numbers, and the site's settings. Those that an operation doesn't have are empty, 0 and the Rust's.
#[derive(Debug, Clone, Copy, Default)]
pub struct Input<'a> {
    pub texts: [&'a [u8]; 5],
    pub numbers: [u64; 6],
    pub settings: Settings,
}

impl<'a> Input<'a> {
    /// A call with one byte run.
    pub fn text(text: &'a [u8]) -> Input<'a> {
        Input::default().and_text(0, text)
    }

    /// A call with one number.
    pub fn number(number: u64) -> Input<'a> {
        Input::default().and_number(0, number)
    }

    /// The same call with another byte run.
    pub fn and_text(mut self, index: usize, text: &'a [u8]) -> Input<'a> {
        self.texts[index] = text;
        self
    }

    /// The same call with another number.
    pub fn and_number(mut self, index: usize, number: u64) -> Input<'a> {
        self.numbers[index] = number;
        self
    }
}

/// One step of a list: number, found, place, length, next.
pub type Step = [u64; 5];

/// All that a call answers: its number, every out number afterwards, every byte of lent output, and for a list that is
/// read to its end every step.
#[derive(Debug, Clone, PartialEq, Eq)]
pub struct Answer {
    pub number: u8,
    pub outs: [u64; 8],
    pub bytes: Vec<u8>,
    pub steps: Vec<Step>,
    /// What fills out numbers and lent output before the call.
    pub pattern: u64,
}

impl Answer {
    /// The answer before the call: every out number holds the pattern, cut to its width.
    pub fn before(outs: &[Out], pattern: u64) -> Answer {
        let mut answer = Answer {
            number: 0,
            outs: [0; 8],
            bytes: Vec::new(),
            steps: Vec::new(),
            pattern,
        };
        answer.keep_all(outs);
        answer
    }

    /// Puts the pattern back into every out number.
    pub fn keep_all(&mut self, outs: &[Out]) {
        for (held, (_, width)) in self.outs.iter_mut().zip(outs) {
            *held = match width {
                Width::U8 => self.pattern & 0xff,
                Width::U16 => self.pattern & 0xffff,
                Width::U32 => self.pattern & 0xffff_ffff,
                Width::U64 => self.pattern,
            };
        }
    }

    /// Gives a found part (found, place, length), or says that there is none.
    pub fn give_part(&mut self, part: Option<std::ops::Range<usize>>) {
        self.outs[0] = u64::from(part.is_some());
        if let Some(part) = part {
            self.outs[1] = part.start as u64;
            self.outs[2] = part.len() as u64;
        }
    }
}

/// Lends an out number in the width that the call takes it in, and takes it back.
pub fn lent_as<T: TryFrom<u64> + TryInto<u64>>(out: &mut u64, ask: impl FnOnce(&mut T) -> u8) -> u8 {
    let mut held = T::try_from(*out).ok().expect("of that width");
    let number = ask(&mut held);
    *out = held.try_into().ok().expect("64 bits hold it");
    number
}

/// Lends the first three out numbers as a RAck, and takes them back.
pub fn lent_as_rack(outs: &mut [u64], ask: impl FnOnce(&mut port::Rack) -> u8) -> u8 {
    let mut rack = port::Rack {
        rseq: outs[0] as u32,
        cseq: outs[1] as u32,
        method: outs[2] as u8,
    };
    let number = ask(&mut rack);
    outs[..3].copy_from_slice(&[u64::from(rack.rseq), u64::from(rack.cseq), u64::from(rack.method)]);
    number
}

/// The first out number of these names says whether there is an answer, or yes or no.
const FLAGS: [&str; 2] = ["found", "yes"];

/// The row of the table in which an answer is counted: its number, or `NOTHING`.
pub fn class(outs: &[Out], answer: &Answer) -> u8 {
    let flagged = outs.first().is_some_and(|out| FLAGS.contains(&out.0));
    let flag = answer.steps.first().map_or(answer.outs[0], |step| step[1]);
    match answer.number {
        0 if flagged && flag == 0 => NOTHING,
        number => number,
    }
}

/// The row for an accepted call that finds nothing, or answers no.
pub const NOTHING: u8 = 255;
