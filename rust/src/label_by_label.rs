//! A plainer algorithm for the planner, by hand in plain Rust and unproved: it tries one label after another. The
//! benchmark shows what the algorithm of port.rs gains over it, and the tests plan each table by it too.
//!
//! Checks, arcs and order are those of port.rs. For each pair of crossing rows a program over the line says how many
//! rows can be heard, up to the most that is known; narrowing fixes each row's first label that keeps the most, by one
//! try after another.

use crate::distance::Sums;
use crate::port::{leave, plan_with, Rows, Space, ROWS, SIDE};
use crate::{Kind, Refusal};

/// Rows in order, and for each row of the line, by its place there, how many of its rows from the front on are over
/// when this one starts.
struct Line<'a> {
    rows: &'a Rows,
    low: [u8; ROWS],
}

fn line_of(rows: &Rows) -> Line<'_> {
    let starts = &rows.position[rows.crossing..rows.count];
    let ends = &rows.end[rows.crossing..rows.count];
    let mut low = [0; ROWS];
    for (k, &start) in starts.iter().enumerate() {
        low[k] = ends[..k].iter().take_while(|&&end| end <= start).count() as u8;
    }
    Line { rows, low }
}

/// 0 where the rows of the line cannot all be settled, else one more than the most that can be heard. A cell (a, b)
/// stands for "row a - 1 of the line is the last on receiver 1, b - 1 on receiver 2", 0 for none; cells are made from
/// the last row back, and only for rows that are still on the air.
fn line_best(line: &Line, left: &[u8; ROWS], cells: &mut Space) -> u8 {
    let rows = line.rows;
    let starts = &rows.position[rows.crossing..rows.count];
    let ends = &rows.end[rows.crossing..rows.count];
    let perms = &left[rows.crossing..rows.count];
    cells[0] = 1;
    let mut next = u16::MAX;
    let mut live = [(0, 0); SIDE];
    for k in (0..starts.len()).rev() {
        let (start, perm) = (starts[k], perms[k]);
        let carried = |a: usize| if a == 0 || ends[a - 1] <= next { 0 } else { a };
        let mut lives = 0;
        for a in (line.low[k] as usize + 1..=k).rev() {
            if ends[a - 1] > start {
                live[lives] = (a, carried(a));
                lives += 1;
            }
        }
        let last = carried(k + 1);
        let kept = if perm & 1 != 0 { u8::MAX } else { 0 };
        let out = |value: u8| value & kept;
        let heard = |bit: u8, value: u8| if perm & bit != 0 && value > 0 { value + 1 } else { 0 };
        // a receiver whose last row is still on the air cannot take this one
        let busy = &live[..lives];
        for &(a, x) in busy {
            let on_two = heard(4, cells[x * SIDE + last]);
            for &(b, y) in busy {
                cells[a * SIDE + b] = out(cells[x * SIDE + y]);
            }
            cells[a * SIDE] = out(cells[x * SIDE]).max(on_two);
        }
        let on_two = heard(4, cells[last]);
        for &(b, y) in busy {
            cells[b] = out(cells[y]).max(heard(2, cells[last * SIDE + y]));
        }
        cells[0] = out(cells[0]).max(heard(2, cells[last * SIDE])).max(on_two);
        next = start;
    }
    cells[0]
}

/// The smaller of the cap and the best: 0 for none, else one more than the rows heard.
fn capped_best(line: &Line, perms: &[u8; ROWS], cap: u8, cells: &mut Space) -> u8 {
    let mut left = [0; ROWS];
    let mut best = 0;
    let none = line.rows.crossing;
    for w1 in (0..=none).rev() {
        for w2 in (0..=none).rev() {
            if (w1 == w2 && w1 < none) || !leave(line.rows, perms, [w1, w2], &mut left) {
                continue;
            }
            let heard = line_best(line, &left, cells);
            if heard > 0 {
                best = best.max(heard + u8::from(w1 < none) + u8::from(w2 < none));
                if best >= cap {
                    return cap;
                }
            }
        }
    }
    best
}

/// Leaves each row the first of the labels 1, 2, 0 with which the most is still heard.
fn narrow(line: &Line, perms: &mut [u8; ROWS], cap: u8, cells: &mut Space) {
    for i in 0..line.rows.count {
        let mut untried = perms[i];
        for bit in [2, 4, 1] {
            if untried & bit == 0 {
                continue;
            }
            untried &= !bit;
            perms[i] = bit;
            if untried == 0 || capped_best(line, perms, cap, cells) == cap {
                break;
            }
        }
    }
}

fn assign(rows: &Rows, perms: &mut [u8; ROWS], cells: &mut Space) -> u8 {
    let line = line_of(rows);
    let best = capped_best(&line, perms, u8::MAX, cells);
    if best > 0 {
        narrow(&line, perms, best, cells);
    }
    best
}

/// The same promise as `crate::plan`, unproved.
#[inline(never)]
pub fn plan(
    kind: Kind,
    ticks: u16,
    gap: u16,
    starts: &[u16],
    ends: &[u16],
    marks: &[u8],
    labels: &mut [u8],
    space: &mut [u8],
) -> Result<usize, Refusal> {
    plan_with::<Sums>(assign, kind, ticks, gap, starts, ends, marks, labels, space)
}
