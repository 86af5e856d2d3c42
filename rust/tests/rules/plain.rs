//! Rules for plain tables, which say less: of tables with no gap, of those in which besides no row sends all day, and
//! of those that besides have marks 0 and 1 alone. A table that such rules know must be planned as they say.

use super::{in_hours, overlaps, window_holds, Rules, RULES};
use hubplan::tables::Table;
use hubplan::Kind;

/// Rows of one receiver do not overlap, and may touch: a table has no gap, and none is refused.
pub const NO_GAP: Rules = Rules {
    gap: |_| 0,
    clashes: overlaps,
    ..RULES
};

/// No row sends all day.
pub const PART_DAY: Rules = Rules {
    ticks_of: ticks_to_end,
    window_holds: window_differs,
    ..NO_GAP
};

/// Marks are 0, may be heard, and 1, must be heard.
pub const TWO_MARKS: Rules = Rules {
    highest_mark: 1,
    allowed: by_two_marks,
    ..PART_DAY
};

/// From the start on to the tick before the end, in a round from R - 1 on to 0. The walk looks for the end from the
/// start on, so that start equal to end covers nothing.
fn ticks_to_end(kind: Kind, ticks: u16, start: u16, end: u16) -> Vec<u64> {
    let mut set = vec![0u64; ticks.div_ceil(64) as usize];
    let mut tick = start;
    while tick != end {
        set[tick as usize / 64] |= 1 << (tick % 64);
        tick = if kind == Kind::Round && tick + 1 == ticks {
            0
        } else {
            tick + 1
        };
    }
    set
}

/// Start equal to end is refused, in a round too.
fn window_differs(table: &Table, i: usize) -> bool {
    window_holds(table, i) && table.starts[i] != table.ends[i]
}

/// A label is 0, 1 or 2, and not 0 where the row must be heard.
fn by_two_marks(table: &Table, i: usize, label: u8) -> bool {
    let must = table.marks[i] == 1;
    label <= 2 && !(must && label == 0) && in_hours(table, i, label)
}
