//! One bit per row: labels, musts and clashes as 64-bit words, in which bit i, worth 2 to the i, is row i's. In every
//! word that is given, the bits from the row count up are 0.

use crate::{answer, c, Kind, Refusal};

/// What labels are as words: which rows are heard, which of those by receiver 2, and the number heard, which is the
/// number of ones of `heard`.
#[derive(Clone, Copy, Debug, PartialEq, Eq)]
pub struct LabelWords {
    pub heard: u64,
    pub receiver: u64,
    pub count: usize,
}

/// The words of labels, one label a row: any labels 0 to 2, plan or not. `to_labels` gives them back. Refused: `Rows`
/// for more than `MAX_ROWS`, then `NotPlan` for a label above 2; the library gives words of 0 then.
pub fn of_labels(labels: &[u8]) -> Result<LabelWords, Refusal> {
    // SAFETY: the address comes with its slice's length, and nothing is written.
    let words = unsafe { c::hub_words_of_labels(labels.as_ptr(), labels.len()) };
    accepted(words.refusal)?;
    Ok(LabelWords {
        heard: words.heard,
        receiver: words.receiver,
        count: words.count,
    })
}

/// Fills a list that has a place for each row with the labels of words, and gives the number heard. Refused: `Rows` for
/// more than `MAX_ROWS` places, then `NotPlan` for a receiver bit of a row not heard or a one from the row count up,
/// which no labels have; the list is left then.
pub fn to_labels(heard: u64, receiver: u64, labels: &mut [u8]) -> Result<usize, Refusal> {
    // SAFETY: the address comes with its slice's length, and no other list is lent.
    answer(unsafe { c::hub_labels_of_words(heard, receiver, labels.as_mut_ptr(), labels.len()) })
}

/// The must word of marks, one mark a row: bit i is 1 exactly if mark i is 1, 3 or 5. Refused is only `Rows`, for more
/// than `MAX_ROWS`: a mark above 5 has bit 0.
pub fn of_marks(marks: &[u8]) -> Result<u64, Refusal> {
    // SAFETY: as in `of_labels`.
    let must = unsafe { c::hub_must_of_marks(marks.as_ptr(), marks.len()) };
    accepted(must.refusal)?;
    Ok(must.word)
}

/// Fills `words` with a word for each row: bit j of row i's word is 1 exactly if i and j are different rows whose
/// windows overlap or have fewer than `gap` ticks between them, in a round on either side, so that no receiver can hear
/// both. Marks and hours make no difference: the hours of a run are not looked at, right or wrong.
///
/// The first refusal that applies, of `Lists` (starts, ends and words differ in length), `Rows`, `Ticks`, `Gap` and
/// `Window`, leaves `words`.
pub fn clashes(
    kind: Kind,
    ticks: u16,
    gap: u16,
    starts: &[u16],
    ends: &[u16],
    words: &mut [u64],
) -> Result<(), Refusal> {
    let clash_words = match kind {
        Kind::Round => c::hub_clash_words_round,
        Kind::Run(_) => c::hub_clash_words_run,
    };
    // SAFETY: as in `crate::plan`.
    accepted(unsafe {
        clash_words(
            ticks,
            gap,
            starts.as_ptr(),
            starts.len(),
            ends.as_ptr(),
            ends.len(),
            words.as_mut_ptr(),
            words.len(),
        )
    })
}

fn accepted(number: u8) -> Result<(), Refusal> {
    match number {
        0 => Ok(()),
        number => Err(Refusal::of_number(number)),
    }
}
