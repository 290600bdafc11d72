//! The own arguments of a call on a store, in the order of its C declaration: those before the store.

use crate::prack::call::{Action, Call as PrackCall};
use crate::rseq::call::Call as RSeqCall;
use crate::store::call::{Call, Id};
use crate::verdicts::call::Call as VerdictCall;

/// An argument.
pub enum Argument<'a> {
    Text(&'a [u8]),
    Number(u64),
}

use Argument::{Number, Text};

/// A call that can be recorded.
pub trait Recorded {
    fn own_arguments(&self) -> Vec<Argument<'_>>;
}

/// An identifier's three texts.
fn texts(id: &Id) -> Vec<Argument<'_>> {
    id.iter().map(|text| Text(text)).collect()
}

impl Recorded for Call {
    fn own_arguments(&self) -> Vec<Argument<'_>> {
        match self {
            Call::Put(image) => vec![Text(image)],
            Call::Request { method, block } => vec![Text(method), Text(block)],
            Call::Response { id, status, block } => {
                let mut arguments = texts(id);
                arguments.extend([Number(u64::from(*status)), Text(block)]);
                arguments
            }
            Call::Set { id, seconds } => {
                let mut arguments = texts(id);
                arguments.push(Number(*seconds));
                arguments
            }
            Call::Terminate(id) | Call::Next(id) | Call::Remove(id) | Call::Get(id) => texts(id),
            Call::FindByCallId(text) | Call::FindByRequest(text) => vec![Text(text)],
            Call::Sweep | Call::Count | Call::AllIds(_) => Vec::new(),
        }
    }
}

impl Recorded for RSeqCall {
    fn own_arguments(&self) -> Vec<Argument<'_>> {
        match self {
            RSeqCall::Next { id, n } => {
                let mut arguments = texts(id);
                arguments.push(Number(u64::from(*n)));
                arguments
            }
            RSeqCall::Current(id) | RSeqCall::Remove(id) => texts(id),
            RSeqCall::Len | RSeqCall::IsEmpty => Vec::new(),
        }
    }
}

impl Recorded for PrackCall {
    fn own_arguments(&self) -> Vec<Argument<'_>> {
        let mut arguments = vec![Text(&self.id)];
        match &self.action {
            Action::Register {
                rseq,
                cseq,
                method,
                code,
                time,
            } => {
                let numbers = [
                    u64::from(*rseq),
                    u64::from(*cseq),
                    u64::from(*method),
                    u64::from(*code),
                    *time,
                ];
                arguments.extend(numbers.map(Number));
            }
            Action::Validate { block, time } => arguments.extend([Text(block), Number(*time)]),
            Action::IsPracked { rseq } | Action::RemovePracked { rseq } => arguments.push(Number(u64::from(*rseq))),
            Action::GetPending { time, .. } => arguments.push(Number(*time)),
            Action::RemoveDialog => {}
        }
        arguments
    }
}

impl Recorded for VerdictCall {
    fn own_arguments(&self) -> Vec<Argument<'_>> {
        match self {
            VerdictCall::Add { time, number } => vec![Number(*time), Number(u64::from(*number))],
            VerdictCall::Worst => Vec::new(),
        }
    }
}
