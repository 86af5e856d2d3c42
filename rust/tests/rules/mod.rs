//! The rules of docs/RULES.md once more, sharing no code with the planner: the comparison for the tests. Windows are
//! sets of ticks and gaps are steps, found by walking; up to 8 rows every list of labels is tried; a larger table is
//! planned by a forward search over what each receiver is busy with. The player is in player.rs, held tables in
//! held.rs, candidates in candidates.rs, words in words.rs, working space in space.rs; plainer rules for plain tables
//! are in plain.rs, and wrong ones in misread.rs.

pub mod candidates;
pub mod held;
pub mod misread;
pub mod plain;
pub mod player;
pub mod space;
pub mod words;

use hubplan::tables::Table;
use hubplan::Kind;
use std::collections::HashMap;

/// The ticks of a window as bits, walked: start, start + 1 and so on, from R - 1 to 0 in a round, up to the tick before
/// the end. The start is covered, so the walk comes to the end after at least one step, and in a round start equal to
/// end covers every tick.
fn ticks_of(kind: Kind, ticks: u16, start: u16, end: u16) -> Vec<u64> {
    let ticks = ticks as usize;
    let mut set = vec![0u64; ticks.div_ceil(64)];
    let mut tick = start as usize;
    loop {
        set[tick / 64] |= 1 << (tick % 64);
        tick += 1;
        if kind == Kind::Round && tick == ticks {
            tick = 0;
        }
        if tick == end as usize {
            return set;
        }
    }
}

/// For each two rows, whether some tick lies in both windows.
fn overlaps(rules: &Rules, table: &Table) -> Vec<Vec<bool>> {
    let sets: Vec<Vec<u64>> = (0..table.rows())
        .map(|i| (rules.ticks_of)(table.kind, table.ticks, table.starts[i], table.ends[i]))
        .collect();
    let meet = |a: &Vec<u64>, b: &Vec<u64>| a.iter().zip(b).any(|(x, y)| x & y != 0);
    sets.iter().map(|a| sets.iter().map(|b| meet(a, b)).collect()).collect()
}

/// Fewer than g ticks between them: walking on from the end of a window, the start of another is reached in fewer than
/// g steps. In a round the walk goes on from R - 1 to 0; in a run it ends at R.
fn is_near(table: &Table, end: u16, start: u16) -> bool {
    let mut tick = end;
    for _ in 0..table.gap {
        if tick == table.ticks {
            return false;
        }
        if tick == start {
            return true;
        }
        tick += 1;
        if table.kind == Kind::Round && tick == table.ticks {
            tick = 0;
        }
    }
    false
}

/// For each two rows, whether their windows overlap or have fewer than g ticks between them, on either side.
fn too_close(rules: &Rules, table: &Table) -> Vec<Vec<bool>> {
    let mut close = overlaps(rules, table);
    for i in 0..table.rows() {
        for j in 0..table.rows() {
            close[i][j] |=
                is_near(table, table.ends[i], table.starts[j]) || is_near(table, table.ends[j], table.starts[i]);
        }
    }
    close
}

/// What other rules say otherwise: the ticks of a window, the gap that is kept, which two rows one receiver cannot
/// hear, whether a row's window passes check 6, the highest mark that is not refused, and which labels a row of a table
/// may have, other rows aside.
#[derive(Clone, Copy)]
pub struct Rules {
    ticks_of: fn(Kind, u16, u16, u16) -> Vec<u64>,
    gap: fn(&Table) -> u16,
    clashes: fn(&Rules, &Table) -> Vec<Vec<bool>>,
    window_holds: fn(&Table, usize) -> bool,
    highest_mark: u8,
    allowed: fn(&Table, usize, u8) -> bool,
}

/// The right rules.
pub const RULES: Rules = Rules {
    ticks_of,
    gap: |table| table.gap,
    clashes: too_close,
    window_holds,
    highest_mark: 5,
    allowed,
};

/// In a round start and end are below R, and may be equal; in a run the start is below the end, and the end at most R.
fn window_holds(table: &Table, i: usize) -> bool {
    let (start, end) = (table.starts[i], table.ends[i]);
    match table.kind {
        Kind::Round => start < table.ticks && end < table.ticks,
        Kind::Run(_) => start < end && end <= table.ticks,
    }
}

/// Marks 0, 2 and 4 may be heard, 1, 3 and 5 must be; 2 and 3 by receiver 1 only, 4 and 5 by receiver 2 only.
fn allowed(table: &Table, i: usize, label: u8) -> bool {
    let by_mark: &[u8] = match table.marks[i] {
        0 => &[0, 1, 2],
        1 => &[1, 2],
        2 => &[0, 1],
        3 => &[1],
        4 => &[0, 2],
        5 => &[2],
        _ => &[],
    };
    by_mark.contains(&label) && in_hours(table, i, label)
}

/// In a run each heard row lies in its receiver's hours.
fn in_hours(table: &Table, i: usize, label: u8) -> bool {
    match table.kind {
        Kind::Run(hours) if label > 0 => {
            let [p, q] = hours[label as usize - 1];
            p <= table.starts[i] && table.ends[i] <= q
        }
        _ => true,
    }
}

/// Refusals 1 and 2.
fn lists_refusal(table: &Table, labels: usize) -> u8 {
    let rows = table.starts.len();
    if table.ends.len() != rows || table.marks.len() != rows || labels != rows {
        1
    } else if rows > 64 {
        2
    } else {
        0
    }
}

/// Refusals 4 and 5, then 14 for a gap above 600, then 6 and 7 of each row.
fn table_refusal(rules: &Rules, table: &Table) -> u8 {
    if table.ticks < 2 || table.ticks > 43_200 {
        return 4;
    }
    if let Kind::Run(hours) = table.kind {
        for [p, q] in hours {
            if p > q || q > table.ticks {
                return 5;
            }
        }
    }
    if (rules.gap)(table) > 600 {
        return 14;
    }
    for i in 0..table.rows() {
        if !(rules.window_holds)(table, i) {
            return 6;
        }
        if table.marks[i] > rules.highest_mark {
            return 7;
        }
    }
    0
}

/// Whether labels are a plan, by which two rows clash. Only different rows are asked: a window is not too close to
/// itself.
fn is_plan_among(rules: &Rules, table: &Table, clash: &[Vec<bool>], labels: &[u8]) -> bool {
    let rows = table.rows();
    labels.len() == rows
        && (0..rows).all(|i| (rules.allowed)(table, i, labels[i]))
        && (0..rows).all(|i| (0..i).all(|j| labels[i] == 0 || labels[i] != labels[j] || !clash[i][j]))
}

pub fn is_plan(rules: &Rules, table: &Table, labels: &[u8]) -> bool {
    is_plan_among(rules, table, &(rules.clashes)(rules, table), labels)
}

pub fn heard(labels: &[u8]) -> usize {
    labels.iter().filter(|&&label| label == 1 || label == 2).count()
}

/// The order of labels: 1, then 2, then 0.
fn place(label: u8) -> u8 {
    match label {
        1 => 0,
        2 => 1,
        _ => 2,
    }
}

fn comes_before(a: &[u8], b: &[u8]) -> bool {
    heard(a) > heard(b) || (heard(a) == heard(b) && a.iter().map(|&x| place(x)).lt(b.iter().map(|&x| place(x))))
}

/// The right plan by trying every list of labels.
pub fn plan_by_trying(rules: &Rules, table: &Table) -> Option<Vec<u8>> {
    let clash = (rules.clashes)(rules, table);
    let mut best: Option<Vec<u8>> = None;
    let mut labels = vec![0u8; table.rows()];
    loop {
        if is_plan_among(rules, table, &clash, &labels) && best.as_ref().is_none_or(|b| comes_before(&labels, b)) {
            best = Some(labels.clone());
        }
        let Some(i) = labels.iter().position(|&label| label < 2) else {
            return best;
        };
        labels[..i].fill(0);
        labels[i] += 1;
    }
}

/// The rows heard so far and the labels given so far, two bits a row and row 0 uppermost; a row without a label counts
/// as the first, so that of two searches at the same point the greater is better whatever follows.
#[derive(Clone, Copy, PartialEq, Eq, PartialOrd, Ord)]
struct Worth {
    heard: u32,
    order: u128,
}

impl Worth {
    fn with(self, row: usize, label: u8) -> Worth {
        Worth {
            heard: self.heard + (label > 0) as u32,
            order: self.order - ((place(label) as u128) << (2 * (63 - row))),
        }
    }

    fn label(self, row: usize) -> u8 {
        [1, 2, 0][3 - (self.order >> (2 * (63 - row)) & 3) as usize]
    }
}

/// From which tick on a receiver that hears row i is free for another: after its window and the g ticks after it,
/// counted on past R - 1 where they go over the end of the day.
fn free_from(rules: &Rules, table: &Table, i: usize) -> u32 {
    let (start, end) = (table.starts[i] as u32, table.ends[i] as u32);
    let over_end = if end > start { 0 } else { table.ticks as u32 };
    end + over_end + (rules.gap)(table) as u32
}

/// The rows that a receiver can be busy with at the end of the day into the next one, of which it hears at most one. In
/// a run there is no next day.
fn over_end(rules: &Rules, table: &Table) -> Vec<usize> {
    match table.kind {
        Kind::Round => (0..table.rows())
            .filter(|&i| free_from(rules, table, i) > table.ticks as u32)
            .collect(),
        Kind::Run(_) => vec![],
    }
}

/// The right plan by a forward search from tick 0: for each choice of the rows that go over the end of the day, one for
/// each receiver or none.
pub fn plan_by_search(rules: &Rules, table: &Table) -> Option<Vec<u8>> {
    let over_end = over_end(rules, table);
    let choices: Vec<Option<usize>> = std::iter::once(None).chain(over_end.iter().map(|&i| Some(i))).collect();
    let mut best: Option<Worth> = None;
    for &first in &choices {
        for &second in &choices {
            if first.is_none() || first != second {
                best = best.max(best_beside(rules, table, &over_end, [first, second]));
            }
        }
    }
    best.map(|worth| (0..table.rows()).map(|i| worth.label(i)).collect())
}

/// The best where of the rows that go over the end of the day each receiver hears the chosen one: the others by start,
/// keeping the best for each two ticks until which the receivers are busy. A receiver is free from where its chosen row
/// leaves it, and what it hears leaves it free for that row's start.
fn best_beside(rules: &Rules, table: &Table, over_end: &[usize], chosen: [Option<usize>; 2]) -> Option<Worth> {
    let mut worth = Worth {
        heard: 0,
        order: u128::MAX,
    };
    for &i in over_end {
        let label = (1u8..)
            .zip(chosen)
            .find(|&(_, row)| row == Some(i))
            .map_or(0, |(label, _)| label);
        if !(rules.allowed)(table, i, label) {
            return None;
        }
        worth = worth.with(i, label);
    }
    let opens = chosen.map(|row| row.map_or(0, |i| free_from(rules, table, i) - table.ticks as u32));
    let closes = chosen.map(|row| row.map_or(u32::MAX, |i| table.starts[i] as u32));
    let mut states = HashMap::from([(opens, worth)]);
    let mut line: Vec<usize> = (0..table.rows()).filter(|i| !over_end.contains(i)).collect();
    line.sort_by_key(|&i| table.starts[i]);
    for i in line {
        states = with_row(rules, table, i, closes, &states);
    }
    states.values().copied().max()
}

/// The states after row i, from those before it: for each label that the row can have.
fn with_row(
    rules: &Rules,
    table: &Table,
    i: usize,
    closes: [u32; 2],
    states: &HashMap<[u32; 2], Worth>,
) -> HashMap<[u32; 2], Worth> {
    let (start, free) = (table.starts[i] as u32, free_from(rules, table, i));
    let mut next: HashMap<[u32; 2], Worth> = HashMap::new();
    for label in (0..=2).filter(|&label| (rules.allowed)(table, i, label)) {
        for (&busy, &worth) in states {
            let mut later = busy;
            if label > 0 {
                let receiver = label as usize - 1;
                if busy[receiver] > start || free > closes[receiver] {
                    continue;
                }
                later[receiver] = free;
            }
            // a receiver that is free by now is free from now on
            let known = next
                .entry(later.map(|tick| tick.max(start)))
                .or_insert(worth.with(i, label));
            *known = worth.with(i, label).max(*known);
        }
    }
    next
}

/// What a call of the planner gives: refusal (0 for none), count and labels.
pub fn planned(rules: &Rules, table: &Table, labels: &[u8], space: usize) -> (u8, usize, Vec<u8>) {
    let refusal = match lists_refusal(table, labels.len()) {
        0 if space < space::BYTES => 3,
        0 => table_refusal(rules, table),
        refusal => refusal,
    };
    if refusal > 0 {
        return (refusal, 0, labels.to_vec());
    }
    match plan_by_search(rules, table) {
        None => (8, 0, labels.to_vec()),
        Some(plan) => (0, heard(&plan), plan),
    }
}

fn word(tape: &mut Vec<u8>, n: u16) {
    tape.extend([(n >> 8) as u8, n as u8]);
}

/// The plan tape of labels that are a plan.
pub fn plan_tape(table: &Table, labels: &[u8]) -> Vec<u8> {
    let mut tape = vec![if table.kind == Kind::Round { 0x10 } else { 0x11 }];
    word(&mut tape, table.ticks);
    for receiver in [1u8, 2] {
        tape.extend([0x20, receiver]);
        let mut rows: Vec<usize> = (0..table.rows()).filter(|&i| labels[i] == receiver).collect();
        rows.sort_by_key(|&i| table.starts[i]);
        for i in rows {
            tape.extend([0x30, i as u8]);
            word(&mut tape, table.starts[i]);
            word(&mut tape, table.ends[i]);
        }
    }
    tape.push(0x7f);
    tape
}

/// What a call of the writer gives: refusal, count and the buffer.
pub fn written(rules: &Rules, table: &Table, labels: &[u8], buffer: &[u8]) -> (u8, usize, Vec<u8>) {
    let mut refusal = lists_refusal(table, labels.len());
    if refusal == 0 {
        refusal = table_refusal(rules, table);
    }
    if refusal == 0 && !is_plan(rules, table, labels) {
        refusal = 9;
    }
    if refusal == 0 && buffer.len() < 8 + 6 * heard(labels) {
        refusal = 10;
    }
    if refusal > 0 {
        return (refusal, 0, buffer.to_vec());
    }
    let mut tape = plan_tape(table, labels);
    let count = tape.len();
    tape.extend(&buffer[count..]);
    (0, count, tape)
}

/// The commands of rows with marks 0 to 5.
const ROW_COMMANDS: [u8; 6] = [0x40, 0x41, 0x42, 0x43, 0x44, 0x45];

/// The fleet tape of a table, whose marks are 0 to 5.
pub fn fleet_tape(table: &Table) -> Vec<u8> {
    let mut tape = vec![];
    match table.kind {
        Kind::Round => {
            tape.push(0x10);
            word(&mut tape, table.ticks);
        }
        Kind::Run(hours) => {
            tape.push(0x11);
            word(&mut tape, table.ticks);
            tape.push(0x50);
            for n in hours.concat() {
                word(&mut tape, n);
            }
        }
    }
    for i in 0..table.rows() {
        tape.push(ROW_COMMANDS[table.marks[i] as usize]);
        word(&mut tape, table.starts[i]);
        word(&mut tape, table.ends[i]);
    }
    tape.push(0x7f);
    tape
}

/// The table that a fleet tape states, of any number of rows; none if it is not of the form.
pub fn read_fleet(tape: &[u8]) -> Option<Table> {
    let mut rest = tape.iter().copied();
    let mut byte = || rest.next();
    let command = byte()?;
    let next_word = |byte: &mut dyn FnMut() -> Option<u8>| Some((byte()? as u16) << 8 | byte()? as u16);
    let ticks = next_word(&mut byte)?;
    let mut table = match command {
        0x10 => Table::empty(Kind::Round, ticks),
        0x11 => {
            if byte()? != 0x50 {
                return None;
            }
            let mut hours = [[0; 2]; 2];
            for pair in &mut hours {
                for hour in pair {
                    *hour = next_word(&mut byte)?;
                }
            }
            Table::empty(Kind::Run(hours), ticks)
        }
        _ => return None,
    };
    loop {
        let command = byte()?;
        if command == 0x7f {
            return if byte().is_none() { Some(table) } else { None };
        }
        let mark = ROW_COMMANDS.iter().position(|&row| row == command)?;
        table.starts.push(next_word(&mut byte)?);
        table.ends.push(next_word(&mut byte)?);
        table.marks.push(mark as u8);
    }
}

/// The refusal and what `hubplan` prints for a tape, where it has so many bytes of working space.
pub fn reply(tape: &[u8], space: usize) -> (u8, String) {
    let refused = |number: u8| (number, format!("refused {number}\n"));
    if tape.len() > 400 {
        return refused(11);
    }
    let Some(table) = read_fleet(tape) else {
        return refused(11);
    };
    if table.rows() > 64 {
        return refused(2);
    }
    let (refusal, count, labels) = planned(&RULES, &table, &vec![0; table.rows()], space);
    if refusal > 0 {
        return refused(refusal);
    }
    let lines: String = labels
        .iter()
        .enumerate()
        .map(|(i, label)| format!("{i} {label}\n"))
        .collect();
    (0, format!("heard {count}\n{lines}"))
}
