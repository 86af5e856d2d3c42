//! Held tables (docs/RULES.md, Held table) once more, from the rules alone: a table is a list of rows and the labels
//! that planning all of them gives, worked out anew after each change. Then what include/hubplan.h says of any numbers
//! and lists.

use super::{heard, plan_by_search, planned, space, window_holds, RULES};
use hubplan::held::{Numbers, Row};
use hubplan::tables::Table;
use hubplan::Kind;

/// A row is added at the end, or withdrawn by its number.
#[derive(Clone, Copy, Debug)]
pub enum Change {
    Add(Row),
    Withdraw(usize),
}

/// What a call reports: the refusal, 0 for none, and the count.
pub type Reported = (u8, usize);

/// The table and the labels of its plan.
#[derive(Clone, Debug, PartialEq)]
pub struct Held {
    pub table: Table,
    pub labels: Vec<u8>,
}

/// An empty table of a round with R and g. R is looked at first; where either is refused the table is empty with R 2
/// and g 0.
pub fn begin(ticks: u16, gap: u16) -> (u8, Held) {
    let empty = |ticks, gap| Held {
        table: Table::empty(Kind::Round, ticks).with_gap(gap),
        labels: vec![],
    };
    if !(2..=43_200).contains(&ticks) {
        (4, empty(2, 0))
    } else if gap > 600 {
        (14, empty(2, 0))
    } else {
        (0, empty(ticks, gap))
    }
}

/// How a change is understood: its refusals before 8, by the bytes of working space; the rows after it; their labels,
/// none where there is no plan; and what is held after 8.
#[derive(Clone, Copy)]
pub struct Meaning {
    pub refusal: fn(&Held, Change, usize) -> u8,
    pub rows: fn(&Table, Change) -> Table,
    pub labels: fn(&Held, Change, &Table) -> Option<Vec<u8>>,
    pub after_8: fn(&Held, Table) -> Held,
}

/// After each change the plan is the one that planning the whole table gives; 8 leaves the table and its plan.
pub const RIGHT: Meaning = Meaning {
    refusal,
    rows,
    labels: |_, _, table| plan_by_search(&RULES, table),
    after_8: |held, _| held.clone(),
};

impl Held {
    /// What a change reports and what is held then.
    pub fn changed(&self, meaning: &Meaning, change: Change, space: usize) -> (Reported, Held) {
        let refusal = (meaning.refusal)(self, change, space);
        if refusal > 0 {
            return ((refusal, 0), self.clone());
        }
        let table = (meaning.rows)(&self.table, change);
        match (meaning.labels)(self, change, &table) {
            None => ((8, 0), (meaning.after_8)(self, table)),
            Some(labels) => ((0, heard(&labels)), Held { table, labels }),
        }
    }
}

/// An addition is looked at for 2, 3, 6 and 7 and then planned, a withdrawal for 3 and then for 15, no such row.
fn refusal(held: &Held, change: Change, space: usize) -> u8 {
    let rows = held.table.rows();
    let applies = match change {
        Change::Add(row) => vec![
            (2, rows == 64),
            (3, space < space::BYTES),
            (6, !window_holds(&with(&held.table, row), rows)),
            (7, row.mark > 5),
        ],
        Change::Withdraw(k) => vec![(3, space < space::BYTES), (15, k >= rows)],
    };
    applies
        .into_iter()
        .find(|&(_, applies)| applies)
        .map_or(0, |(number, _)| number)
}

/// A withdrawn row's place is taken by the next, and so on to the last.
fn rows(table: &Table, change: Change) -> Table {
    match change {
        Change::Add(row) => with(table, row),
        Change::Withdraw(k) => without(table, k),
    }
}

fn with(table: &Table, row: Row) -> Table {
    let mut longer = table.clone();
    longer.starts.push(row.start);
    longer.ends.push(row.end);
    longer.marks.push(row.mark);
    longer
}

fn without(table: &Table, k: usize) -> Table {
    let mut shorter = table.clone();
    shorter.starts.remove(k);
    shorter.ends.remove(k);
    shorter.marks.remove(k);
    shorter
}

/// A held table as it is lent: numbers, and lists of which the first `rows` places count.
#[derive(Clone, Debug, PartialEq)]
pub struct Lent {
    pub numbers: Numbers,
    pub starts: Vec<u16>,
    pub ends: Vec<u16>,
    pub marks: Vec<u8>,
    pub labels: Vec<u8>,
}

impl Lent {
    /// The table and its plan at the front of the lists, whose other places are left alone.
    pub fn holding(&self, held: &Held) -> Lent {
        let Held { table, labels } = held;
        let mut lent = self.clone();
        lent.numbers = Numbers {
            ticks: table.ticks,
            gap: table.gap,
            rows: table.rows(),
            count: heard(labels),
        };
        lent.starts[..table.rows()].copy_from_slice(&table.starts);
        lent.ends[..table.rows()].copy_from_slice(&table.ends);
        lent.marks[..table.rows()].copy_from_slice(&table.marks);
        lent.labels[..table.rows()].copy_from_slice(labels);
        lent
    }

    /// The rows that count, of at most 64.
    fn table(&self) -> Table {
        let rows = self.numbers.rows;
        Table {
            kind: Kind::Round,
            ticks: self.numbers.ticks,
            gap: self.numbers.gap,
            starts: self.starts[..rows].to_vec(),
            ends: self.ends[..rows].to_vec(),
            marks: self.marks[..rows].to_vec(),
        }
    }

    fn has_places(&self) -> bool {
        [self.starts.len(), self.ends.len(), self.marks.len(), self.labels.len()] == [64; 4]
    }

    /// A change on any numbers and lists: 1 and 2, or 1, 3, 15 and 2, then what planning the longer or shorter table
    /// gives, with all of its checks; a refusal leaves all.
    pub fn changed(&self, change: Change, space: usize) -> (Reported, Lent) {
        let rows = self.numbers.rows;
        let refusal = match change {
            _ if !self.has_places() => 1,
            Change::Add(_) if rows > 63 => 2,
            Change::Withdraw(_) if space < space::BYTES => 3,
            Change::Withdraw(k) if k >= rows => 15,
            Change::Withdraw(_) if rows > 64 => 2,
            _ => 0,
        };
        if refusal > 0 {
            return ((refusal, 0), self.clone());
        }
        let table = self::rows(&self.table(), change);
        match planned(&RULES, &table, &self.labels[..table.rows()], space) {
            (0, count, labels) => ((0, count), self.holding(&Held { table, labels })),
            (refusal, _, _) => ((refusal, 0), self.clone()),
        }
    }
}
