//! A held table with its plan: `HeldTable` has its numbers and lists; `add` and `withdraw` take them as they are lent
//! to the library.

use crate::{c, Refusal, MAX_ROWS};

/// The numbers of a held table: R and the gap of its round, how many rows it has, and how many of them its plan hears.
#[derive(Clone, Copy, Debug, PartialEq, Eq)]
#[repr(C)]
pub struct Numbers {
    pub ticks: u16,
    pub gap: u16,
    pub rows: usize,
    pub count: usize,
}

/// A row of a table.
#[derive(Clone, Copy, Debug, PartialEq, Eq)]
pub struct Row {
    pub start: u16,
    pub end: u16,
    pub mark: u8,
}

/// The numbers of an empty table of a round; with a refusal, `Ticks` or `Gap`, those of an empty table of R 2 and gap
/// 0.
pub fn begin(ticks: u16, gap: u16) -> (Numbers, Result<(), Refusal>) {
    // SAFETY: nothing is lent.
    let begun = unsafe { c::hub_held_begin(ticks, gap) };
    match begun.refusal {
        0 => (begun.numbers, Ok(())),
        number => (begun.numbers, Err(Refusal::of_number(number))),
    }
}

/// The numbers after a change stand in the place of those before, and the count is given.
fn changed(numbers: &mut Numbers, change: c::HubHeldChange) -> Result<usize, Refusal> {
    *numbers = change.numbers;
    crate::answer(c::HubAnswer {
        refusal: change.refusal,
        count: change.count,
    })
}

/// Adds a row to a held table in four lists of `MAX_ROWS` places, else `Lists`: `HeldTable::add`. What numbers and
/// lists that came from no call get, include/hubplan.h says.
pub fn add(
    numbers: &mut Numbers,
    starts: &mut [u16],
    ends: &mut [u16],
    marks: &mut [u8],
    labels: &mut [u8],
    row: Row,
    space: &mut [u8],
) -> Result<usize, Refusal> {
    // SAFETY: as in `crate::plan`.
    let change = unsafe {
        c::hub_held_add(
            *numbers,
            starts.as_mut_ptr(),
            starts.len(),
            ends.as_mut_ptr(),
            ends.len(),
            marks.as_mut_ptr(),
            marks.len(),
            labels.as_mut_ptr(),
            labels.len(),
            row.start,
            row.end,
            row.mark,
            space.as_mut_ptr(),
            space.len(),
        )
    };
    changed(numbers, change)
}

/// Withdraws row `row` of a held table in four lists of `MAX_ROWS` places, else `Lists`: `HeldTable::withdraw`. For
/// other numbers and lists as `add`.
pub fn withdraw(
    numbers: &mut Numbers,
    starts: &mut [u16],
    ends: &mut [u16],
    marks: &mut [u8],
    labels: &mut [u8],
    row: usize,
    space: &mut [u8],
) -> Result<usize, Refusal> {
    // SAFETY: as in `crate::plan`.
    let change = unsafe {
        c::hub_held_withdraw(
            *numbers,
            starts.as_mut_ptr(),
            starts.len(),
            ends.as_mut_ptr(),
            ends.len(),
            marks.as_mut_ptr(),
            marks.len(),
            labels.as_mut_ptr(),
            labels.len(),
            row,
            space.as_mut_ptr(),
            space.len(),
        )
    };
    changed(numbers, change)
}

/// A table of a round with the plan that `crate::plan` gives for it, changed a row at a time. It came from these calls,
/// so all that is promised of held tables holds.
#[derive(Clone, Debug)]
pub struct HeldTable {
    numbers: Numbers,
    starts: [u16; MAX_ROWS],
    ends: [u16; MAX_ROWS],
    marks: [u8; MAX_ROWS],
    labels: [u8; MAX_ROWS],
}

impl HeldTable {
    /// An empty table of a round; with a refusal, `Ticks` or `Gap`, one of R 2 and gap 0.
    pub fn begin(ticks: u16, gap: u16) -> (HeldTable, Result<(), Refusal>) {
        let (numbers, begun) = begin(ticks, gap);
        let table = HeldTable {
            numbers,
            starts: [0; MAX_ROWS],
            ends: [0; MAX_ROWS],
            marks: [0; MAX_ROWS],
            labels: [0; MAX_ROWS],
        };
        (table, begun)
    }

    /// Adds a row after the last one, plans the whole table and gives the count; labels of other rows can change. A
    /// refusal, of `Rows`, `Space`, `Window`, `Mark` and `NoPlan` the first that applies, changes neither table nor
    /// plan. The working space fares as in `crate::plan`.
    pub fn add(&mut self, row: Row, space: &mut [u8]) -> Result<usize, Refusal> {
        add(
            &mut self.numbers,
            &mut self.starts,
            &mut self.ends,
            &mut self.marks,
            &mut self.labels,
            row,
            space,
        )
    }

    /// Withdraws a row by its number, so that later rows move up one, plans the whole table and gives the count; labels
    /// of other rows can change. A refusal, `Space` or then `NoRow`, changes neither table nor plan; it is never
    /// `NoPlan`. The working space fares as in `crate::plan`.
    pub fn withdraw(&mut self, row: usize, space: &mut [u8]) -> Result<usize, Refusal> {
        withdraw(
            &mut self.numbers,
            &mut self.starts,
            &mut self.ends,
            &mut self.marks,
            &mut self.labels,
            row,
            space,
        )
    }

    pub fn numbers(&self) -> Numbers {
        self.numbers
    }

    pub fn starts(&self) -> &[u16] {
        &self.starts[..self.numbers.rows]
    }

    pub fn ends(&self) -> &[u16] {
        &self.ends[..self.numbers.rows]
    }

    pub fn marks(&self) -> &[u8] {
        &self.marks[..self.numbers.rows]
    }

    /// The plan: a label for each row.
    pub fn labels(&self) -> &[u8] {
        &self.labels[..self.numbers.rows]
    }
}
