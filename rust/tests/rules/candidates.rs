//! Candidates (docs/RULES.md, Candidates) once more, from the rules alone: every candidate is added to a copy of the
//! table, and the copy is planned whole.

use super::{heard, plan_by_search, space, window_holds, RULES};
use hubplan::held::Row;
use hubplan::tables::Table;
use hubplan::Kind;

/// What a call is lent: a table, the three lists of candidates, the two lists of answers with what they hold, and so
/// many bytes of working space.
#[derive(Clone, Debug, PartialEq)]
pub struct Lent {
    pub table: Table,
    pub starts: Vec<u16>,
    pub ends: Vec<u16>,
    pub marks: Vec<u8>,
    pub numbers: Vec<u8>,
    pub counts: Vec<u8>,
    pub space: usize,
}

/// What a call gives: the refusal, 0 for none, the rows looked at, and what the lists of answers hold then.
#[derive(Clone, Debug, PartialEq)]
pub struct Given {
    pub refusal: u8,
    pub rows: usize,
    pub numbers: Vec<u8>,
    pub counts: Vec<u8>,
}

/// A number and a count.
pub type Answer = (u8, u8);

/// How a call is understood: which refusals are looked at before the rows, each with whether it applies; the rows
/// looked at for a stop at row k of the table, for a table without a plan (none: it is not refused), and for an
/// accepted call; and the answers to all candidates.
#[derive(Clone, Copy)]
pub struct Meaning {
    pub sooner: fn(&Lent) -> Vec<(u8, bool)>,
    pub stopped: fn(usize) -> usize,
    pub no_plan: fn(&Lent) -> Option<usize>,
    pub looked: fn(&Lent) -> usize,
    pub answers: fn(&Lent) -> Vec<Answer>,
}

pub const RIGHT: Meaning = Meaning {
    sooner,
    // the rows up to the one that stops it
    stopped: |k| k + 1,
    // the table's rows, and no candidates
    no_plan: |lent| Some(lent.table.rows()),
    looked,
    answers,
};

impl Lent {
    pub fn candidates(&self) -> usize {
        self.starts.len()
    }

    /// Candidate j, of lists of equal length.
    pub fn candidate(&self, j: usize) -> Row {
        Row {
            start: self.starts[j],
            end: self.ends[j],
            mark: self.marks[j],
        }
    }

    fn refused(&self, refusal: u8, rows: usize) -> Given {
        Given {
            refusal,
            rows,
            numbers: self.numbers.clone(),
            counts: self.counts.clone(),
        }
    }

    /// What a call gives. A refusal by 6, 7 or 8 has rows looked at, too.
    pub fn tried(&self, meaning: &Meaning) -> Given {
        if let Some((number, _)) = (meaning.sooner)(self).into_iter().find(|&(_, applies)| applies) {
            return self.refused(number, 0);
        }
        let faults = (0..self.table.rows()).map(|k| (k, fault(&self.table, k)));
        if let Some((k, number)) = faults.into_iter().find(|&(_, number)| number > 0) {
            return self.refused(number, (meaning.stopped)(k));
        }
        if plan_by_search(&RULES, &self.table).is_none() {
            if let Some(rows) = (meaning.no_plan)(self) {
                return self.refused(8, rows);
            }
        }
        let (numbers, counts) = (meaning.answers)(self).into_iter().unzip();
        Given {
            refusal: 0,
            rows: (meaning.looked)(self),
            numbers,
            counts,
        }
    }
}

/// What is looked at before the rows, in its order; 16 is lists of candidates and answers of unequal length, or beyond
/// 64.
fn sooner(lent: &Lent) -> Vec<(u8, bool)> {
    let table = &lent.table;
    let candidates = lent.candidates();
    let others = [lent.ends.len(), lent.marks.len(), lent.numbers.len(), lent.counts.len()];
    let wrong_hours = match table.kind {
        Kind::Round => false,
        Kind::Run(hours) => hours.iter().any(|&[p, q]| p > q || q > table.ticks),
    };
    vec![
        (1, table.ends.len() != table.rows() || table.marks.len() != table.rows()),
        (2, table.rows() > 64),
        (3, lent.space < space::BYTES),
        (16, others != [candidates; 4] || candidates > 64),
        (4, table.ticks < 2 || table.ticks > 43_200),
        (5, wrong_hours),
        (14, table.gap > 600),
    ]
}

/// Row k is looked at for 6 and then for 7; 0 where it passes.
pub fn fault(table: &Table, k: usize) -> u8 {
    if !window_holds(table, k) {
        6
    } else if table.marks[k] > 5 {
        7
    } else {
        0
    }
}

/// All rows and all candidates; beside 64 rows no candidate is read.
fn looked(lent: &Lent) -> usize {
    match lent.table.rows() {
        64 => 64,
        rows => rows + lent.candidates(),
    }
}

/// A candidate's answer is what planning the table gives with the candidate as its last row, which must be heard.
fn answers(lent: &Lent) -> Vec<Answer> {
    each(lent, |candidate| with(&lent.table, must(candidate)))
}

/// The answer to each candidate, by the table that is planned with it; beside 64 rows it is 2 with count 0.
pub fn each(lent: &Lent, longer: impl Fn(Row) -> Table) -> Vec<Answer> {
    let of = |j| {
        if lent.table.rows() == 64 {
            (2, 0)
        } else {
            planning(&longer(lent.candidate(j)))
        }
    };
    (0..lent.candidates()).map(of).collect()
}

/// The row with a mark that must be heard, on the same receivers.
pub fn must(candidate: Row) -> Row {
    let mark = match candidate.mark {
        0 => 1,
        2 => 3,
        4 => 5,
        mark => mark,
    };
    Row { mark, ..candidate }
}

/// The table with a row added as its last.
pub fn with(table: &Table, row: Row) -> Table {
    let mut longer = table.clone();
    longer.starts.push(row.start);
    longer.ends.push(row.end);
    longer.marks.push(row.mark);
    longer
}

/// Number and count of planning a table of which all rows but the last have passed their checks.
pub fn planning(table: &Table) -> Answer {
    match fault(table, table.rows() - 1) {
        0 => plan_by_search(&RULES, table).map_or((8, 0), |labels| (0, heard(&labels) as u8)),
        number => (number, 0),
    }
}
