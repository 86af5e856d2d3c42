//! Candidate windows tried against a table: `try_rows` takes candidates as rows and gives an answer to each;
//! `try_lists` takes them as they are lent to the library.

use crate::held::Row;
use crate::{c, Kind, Refusal, MAX_CANDIDATES};

/// What a call reports: the refusal, if there is one, and how many rows were looked at, of the table and of the
/// candidates. A refused call can have looked at rows, too.
#[derive(Clone, Copy, Debug, PartialEq, Eq)]
pub struct Tried {
    pub refusal: Option<Refusal>,
    pub rows: usize,
}

/// What a candidate is answered: how many rows the best plan of the table with it hears, the candidate included, or
/// what planning that table is refused with.
pub type Answer = Result<u8, Refusal>;

/// Candidates as they are lent, one at each place of the three lists.
#[derive(Clone, Copy, Debug)]
pub struct Candidates<'a> {
    pub starts: &'a [u16],
    pub ends: &'a [u16],
    pub marks: &'a [u8],
}

/// Tries each candidate alone: what planning the table with it as its last row gives, where it must be heard (marks 0,
/// 2 and 4 count as 1, 3 and 5). Its number goes to `numbers`, 0 where there is a plan, and how many rows the plan
/// hears to `counts`, 0 where there is none. The rows looked at are those of the table and the candidates. Beside a
/// table of 64 rows the candidates go unread: each is given 2 and 0, and the rows looked at are 64.
///
/// The first refusal that applies, of `Lists`, `Rows`, `Space`, `Candidates` (the five lists of candidates and answers
/// differ in length or are longer than `MAX_CANDIDATES`), `Ticks`, `Hours`, `Gap`, `Window` and `Mark` of the table's
/// rows and `NoPlan` of the table alone, leaves both lists of answers. The rows looked at are then k + 1 where the
/// table stops at row k, all of the table's with `NoPlan`, and 0 with those before. The working space fares as in
/// `crate::plan`.
pub fn try_lists(
    kind: Kind,
    ticks: u16,
    gap: u16,
    starts: &[u16],
    ends: &[u16],
    marks: &[u8],
    candidates: Candidates,
    numbers: &mut [u8],
    counts: &mut [u8],
    space: &mut [u8],
) -> Tried {
    // SAFETY: as in `crate::plan`.
    let tried = unsafe {
        match kind {
            Kind::Round => c::hub_try_candidates_round(
                ticks,
                gap,
                starts.as_ptr(),
                starts.len(),
                ends.as_ptr(),
                ends.len(),
                marks.as_ptr(),
                marks.len(),
                candidates.starts.as_ptr(),
                candidates.starts.len(),
                candidates.ends.as_ptr(),
                candidates.ends.len(),
                candidates.marks.as_ptr(),
                candidates.marks.len(),
                numbers.as_mut_ptr(),
                numbers.len(),
                counts.as_mut_ptr(),
                counts.len(),
                space.as_mut_ptr(),
                space.len(),
            ),
            Kind::Run([[p1, q1], [p2, q2]]) => c::hub_try_candidates_run(
                ticks,
                gap,
                p1,
                q1,
                p2,
                q2,
                starts.as_ptr(),
                starts.len(),
                ends.as_ptr(),
                ends.len(),
                marks.as_ptr(),
                marks.len(),
                candidates.starts.as_ptr(),
                candidates.starts.len(),
                candidates.ends.as_ptr(),
                candidates.ends.len(),
                candidates.marks.as_ptr(),
                candidates.marks.len(),
                numbers.as_mut_ptr(),
                numbers.len(),
                counts.as_mut_ptr(),
                counts.len(),
                space.as_mut_ptr(),
                space.len(),
            ),
        }
    };
    Tried {
        refusal: refusal(tried.refusal),
        rows: tried.rows,
    }
}

fn refusal(number: u8) -> Option<Refusal> {
    (number != 0).then(|| Refusal::of_number(number))
}

/// A place more than candidates have, so that too many are still too many where the rest is left out.
const PLACES: usize = MAX_CANDIDATES + 1;

/// `try_lists` for candidates as rows, with an answer to each: `answers` has a place for each candidate, else
/// `Candidates`. A refusal leaves the answers.
pub fn try_rows(
    kind: Kind,
    ticks: u16,
    gap: u16,
    starts: &[u16],
    ends: &[u16],
    marks: &[u8],
    candidates: &[Row],
    answers: &mut [Answer],
    space: &mut [u8],
) -> Tried {
    let (mut row_starts, mut row_ends, mut row_marks) = ([0; PLACES], [0; PLACES], [0; PLACES]);
    for (i, row) in candidates.iter().take(PLACES).enumerate() {
        (row_starts[i], row_ends[i], row_marks[i]) = (row.start, row.end, row.mark);
    }
    let (rows, places) = (candidates.len().min(PLACES), answers.len().min(PLACES));
    let lent = Candidates {
        starts: &row_starts[..rows],
        ends: &row_ends[..rows],
        marks: &row_marks[..rows],
    };
    let (mut numbers, mut counts) = ([0; PLACES], [0; PLACES]);
    let tried = try_lists(
        kind,
        ticks,
        gap,
        starts,
        ends,
        marks,
        lent,
        &mut numbers[..places],
        &mut counts[..places],
        space,
    );
    if tried.refusal.is_none() {
        for (i, answer) in answers.iter_mut().enumerate() {
            *answer = refusal(numbers[i]).map_or(Ok(counts[i]), Err);
        }
    }
    tried
}
