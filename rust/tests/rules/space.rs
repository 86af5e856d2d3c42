//! The rules of docs/RULES.md, Working space, once more: which working space is refused and what a call leaves in it,
//! for every call that is lent some.

use super::held::{self, Change, Reported};
use super::{candidates, planned, reply, RULES};
use hubplan::tables::Table;

/// Fewer bytes are refused, 3, and as many of the first are cleared.
pub const BYTES: usize = 4_608;

/// How working space is understood: below how many bytes it is refused, and how many of its bytes are cleared, if there
/// are so many, by a call with this refusal, 0 for none.
#[derive(Clone, Copy)]
pub struct Meaning {
    pub refused_below: usize,
    pub cleared: fn(u8) -> usize,
}

pub const RIGHT: Meaning = Meaning {
    refused_below: BYTES,
    cleared,
};

/// An accepted call clears, and of the refusals 8 alone.
fn cleared(refusal: u8) -> usize {
    match refusal {
        0 | 8 => BYTES,
        _ => 0,
    }
}

impl Meaning {
    /// The working space after a call with this refusal. Bytes beyond are untouched.
    pub fn after(&self, refusal: u8, before: &[u8]) -> Vec<u8> {
        let mut after = before.to_vec();
        let cleared = (self.cleared)(refusal).min(before.len());
        after[..cleared].fill(0);
        after
    }
}

/// A call that is lent working space, with what its outputs hold before it.
#[derive(Clone, Debug)]
pub enum Call {
    Plan { table: Table, labels: Vec<u8> },
    Change { lent: held::Lent, change: Change },
    Try(candidates::Lent),
    Reply { tape: Vec<u8>, out: Vec<u8> },
}

/// What a call gives and what its outputs hold then, the working space aside.
#[derive(Clone, Debug, PartialEq)]
pub enum Given {
    Plan { reported: Reported, labels: Vec<u8> },
    Change { reported: Reported, lent: held::Lent },
    Try(candidates::Given),
    Reply { length: usize, out: Vec<u8> },
}

/// A refusal, 0 for none, and what is given with it.
pub type Answer = (u8, Given);

impl Call {
    /// What a call gives that is lent so many bytes.
    pub fn answer(&self, space: usize) -> Answer {
        match self {
            Call::Plan { table, labels } => {
                let (refusal, count, labels) = planned(&RULES, table, labels, space);
                let reported = (refusal, count);
                (refusal, Given::Plan { reported, labels })
            }
            Call::Change { lent, change } => {
                let (reported, lent) = lent.changed(*change, space);
                (reported.0, Given::Change { reported, lent })
            }
            Call::Try(lent) => {
                let given = candidates::Lent { space, ..lent.clone() }.tried(&candidates::RIGHT);
                (given.refusal, Given::Try(given))
            }
            Call::Reply { tape, out } => {
                let (refusal, text) = reply(tape, space);
                let mut out = out.clone();
                out[..text.len()].copy_from_slice(text.as_bytes());
                (
                    refusal,
                    Given::Reply {
                        length: text.len(),
                        out,
                    },
                )
            }
        }
    }

    pub fn answers(&self) -> Answers {
        Answers {
            short: self.answer(BYTES - 1),
            enough: self.answer(BYTES),
        }
    }
}

/// What a call gives where its working space is too short, and where it is not: nothing else of the working space
/// matters.
pub struct Answers {
    short: Answer,
    enough: Answer,
}

impl Answers {
    /// The refusal, 0 for none, where the working space is not too short.
    pub fn refusal(&self) -> u8 {
        self.enough.0
    }

    /// What is given, and the working space after the call.
    pub fn given(&self, meaning: &Meaning, before: &[u8]) -> (&Given, Vec<u8>) {
        let (refusal, given) = if before.len() < meaning.refused_below {
            &self.short
        } else {
            &self.enough
        };
        (given, meaning.after(*refusal, before))
    }
}
