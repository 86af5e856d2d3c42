//! Rules that misread the gap, and meanings that misread held tables, candidates, words and working space: the tests
//! count how many of their tables, changes and calls tell each of these from the right ones.

use super::candidates::{self, each, fault, must, planning, with, Answer, Lent};
use super::held::{Change, Held, Meaning, RIGHT};
use super::words::{self, not_own};
use super::{allowed, in_hours, is_near, is_plan, overlaps, space, too_close, Rules, RULES};
use hubplan::held::Row;
use hubplan::tables::Table;
use hubplan::Kind;

/// A name, whether the answer for rounds and for runs can be another one, and the rules.
pub const ALL: [(&str, [bool; 2], Rules); 4] = [
    (
        "g ticks are too few",
        [true, true],
        Rules {
            clashes: at_most,
            ..RULES
        },
    ),
    (
        "one side counts",
        [true, false],
        Rules {
            clashes: one_side,
            ..RULES
        },
    ),
    (
        "a run comes back",
        [false, true],
        Rules {
            clashes: wraps,
            ..RULES
        },
    ),
    (
        "a window is too close to itself",
        [true, false],
        Rules {
            allowed: apart,
            ..RULES
        },
    ),
];

/// g ticks are too few, and not fewer than g alone.
fn at_most(rules: &Rules, table: &Table) -> Vec<Vec<bool>> {
    too_close(rules, &table.clone().with_gap(table.gap + 1))
}

/// The gap after the window that starts first, and not after the other.
fn one_side(rules: &Rules, table: &Table) -> Vec<Vec<bool>> {
    let mut close = overlaps(rules, table);
    for i in 0..table.rows() {
        for j in 0..table.rows() {
            let (first, last) = if table.starts[i] < table.starts[j] {
                (i, j)
            } else {
                (j, i)
            };
            close[i][j] |= is_near(table, table.ends[first], table.starts[last]);
        }
    }
    close
}

/// A run as a round: the gap after its last window goes on to the first.
fn wraps(rules: &Rules, table: &Table) -> Vec<Vec<bool>> {
    let mut round = table.clone();
    round.kind = Kind::Round;
    round.ends.iter_mut().for_each(|end| *end %= table.ticks);
    too_close(rules, &round)
}

/// A row is not heard whose window has fewer than g ticks from its end on to its start.
fn apart(table: &Table, i: usize, label: u8) -> bool {
    allowed(table, i, label) && (label == 0 || !is_near(table, table.ends[i], table.starts[i]))
}

/// A name, and how the changes of a held table are understood.
pub const HELD: [(&str, Meaning); 9] = [
    (
        "3 before 2",
        Meaning {
            refusal: space_first,
            ..RIGHT
        },
    ),
    (
        "7 before 6",
        Meaning {
            refusal: mark_first,
            ..RIGHT
        },
    ),
    (
        "15 before 3",
        Meaning {
            refusal: row_first,
            ..RIGHT
        },
    ),
    (
        "must rows stay",
        Meaning {
            refusal: musts_stay,
            ..RIGHT
        },
    ),
    (
        "a row is added in front",
        Meaning {
            rows: in_front,
            ..RIGHT
        },
    ),
    (
        "the last row takes the place",
        Meaning {
            rows: last_moves,
            ..RIGHT
        },
    ),
    (
        "the plan is not renewed after a withdrawal",
        Meaning {
            labels: labels_move,
            ..RIGHT
        },
    ),
    (
        "an addition leaves the labels of others",
        Meaning {
            labels: labels_stay,
            ..RIGHT
        },
    ),
    (
        "8 leaves the row in",
        Meaning {
            after_8: row_stays,
            ..RIGHT
        },
    ),
];

/// The right refusal, unless another one applies that is looked at before it.
fn first(number: u8, applies: bool, held: &Held, change: Change, space: usize) -> u8 {
    if applies {
        number
    } else {
        (RIGHT.refusal)(held, change, space)
    }
}

fn space_first(held: &Held, change: Change, space: usize) -> u8 {
    first(3, space < space::BYTES, held, change, space)
}

fn mark_first(held: &Held, change: Change, space: usize) -> u8 {
    let of_row = matches!((RIGHT.refusal)(held, change, space), 6 | 7);
    first(
        7,
        of_row && matches!(change, Change::Add(Row { mark: 6.., .. })),
        held,
        change,
        space,
    )
}

fn row_first(held: &Held, change: Change, space: usize) -> u8 {
    let applies = matches!(change, Change::Withdraw(k) if k >= held.table.rows());
    first(15, applies, held, change, space)
}

/// As if a row that must be heard could not be withdrawn.
fn musts_stay(held: &Held, change: Change, space: usize) -> u8 {
    let is_must = |k: usize| held.table.marks.get(k).is_some_and(|mark| mark % 2 == 1);
    let applies = matches!(change, Change::Withdraw(k) if is_must(k)) && space >= space::BYTES;
    first(15, applies, held, change, space)
}

fn in_front(table: &Table, change: Change) -> Table {
    let mut changed = (RIGHT.rows)(table, change);
    if let Change::Add(_) = change {
        changed.starts.rotate_right(1);
        changed.ends.rotate_right(1);
        changed.marks.rotate_right(1);
    }
    changed
}

/// Later rows do not move up, but the last one goes to the place of the withdrawn one.
fn last_moves(table: &Table, change: Change) -> Table {
    let Change::Withdraw(k) = change else {
        return (RIGHT.rows)(table, change);
    };
    let mut changed = table.clone();
    changed.starts.swap_remove(k);
    changed.ends.swap_remove(k);
    changed.marks.swap_remove(k);
    changed
}

fn labels_move(held: &Held, change: Change, table: &Table) -> Option<Vec<u8>> {
    let Change::Withdraw(k) = change else {
        return (RIGHT.labels)(held, change, table);
    };
    let mut labels = held.labels.clone();
    labels.remove(k);
    Some(labels)
}

/// The new row gets the first label that it can have beside those of the others.
fn labels_stay(held: &Held, change: Change, table: &Table) -> Option<Vec<u8>> {
    let Change::Add(_) = change else {
        return (RIGHT.labels)(held, change, table);
    };
    let labels = [1, 2, 0].map(|label| [&held.labels[..], &[label]].concat());
    labels.into_iter().find(|labels| is_plan(&RULES, table, labels))
}

fn row_stays(held: &Held, table: Table) -> Held {
    let labels = [&held.labels[..], &[0]].concat();
    Held { table, labels }
}

const TRIED: candidates::Meaning = candidates::RIGHT;

/// A name, and how trying candidates is understood.
pub const CANDIDATES: [(&str, candidates::Meaning); 16] = [
    (
        "16 before 3",
        candidates::Meaning {
            sooner: lists_first,
            ..TRIED
        },
    ),
    (
        "16 after 4",
        candidates::Meaning {
            sooner: ticks_first,
            ..TRIED
        },
    ),
    (
        "a full table is refused 2",
        candidates::Meaning {
            sooner: no_place,
            ..TRIED
        },
    ),
    (
        "a stop at row k counts k",
        candidates::Meaning {
            stopped: |k| k,
            ..TRIED
        },
    ),
    (
        "a refusal by 6 or 7 counts 0",
        candidates::Meaning {
            stopped: |_| 0,
            ..TRIED
        },
    ),
    (
        "8 counts 0",
        candidates::Meaning {
            no_plan: |_| Some(0),
            ..TRIED
        },
    ),
    (
        "8 counts the candidates",
        candidates::Meaning {
            no_plan: |lent| Some(lent.table.rows() + lent.candidates()),
            ..TRIED
        },
    ),
    (
        "8 is each candidate's",
        candidates::Meaning {
            no_plan: |_| None,
            ..TRIED
        },
    ),
    (
        "candidates alone are counted",
        candidates::Meaning {
            looked: Lent::candidates,
            ..TRIED
        },
    ),
    (
        "each candidate has the table looked at again",
        candidates::Meaning { looked: again, ..TRIED },
    ),
    (
        "candidates are read beside a full table",
        candidates::Meaning {
            looked: all_read,
            answers: read,
            ..TRIED
        },
    ),
    (
        "a candidate may be heard",
        candidates::Meaning {
            answers: as_lent,
            ..TRIED
        },
    ),
    (
        "marks 2 and 4 are raised to 1",
        candidates::Meaning {
            answers: raised_to_1,
            ..TRIED
        },
    ),
    (
        "candidates are tried together",
        candidates::Meaning {
            answers: together,
            ..TRIED
        },
    ),
    (
        "the count leaves out the candidate",
        candidates::Meaning {
            answers: others_alone,
            ..TRIED
        },
    ),
    (
        "7 before 6 of a candidate",
        candidates::Meaning {
            answers: mark_of_candidate_first,
            ..TRIED
        },
    ),
];

/// Refusals in the order in which they are looked at, with one of them at another place.
fn moved(number: u8, to: usize, mut numbers: Vec<(u8, bool)>) -> Vec<(u8, bool)> {
    let from = numbers.iter().position(|&(other, _)| other == number).unwrap();
    let moved = numbers.remove(from);
    numbers.insert(to, moved);
    numbers
}

fn lists_first(lent: &Lent) -> Vec<(u8, bool)> {
    moved(16, 2, (TRIED.sooner)(lent))
}

fn ticks_first(lent: &Lent) -> Vec<(u8, bool)> {
    moved(16, 4, (TRIED.sooner)(lent))
}

fn no_place(lent: &Lent) -> Vec<(u8, bool)> {
    let mut numbers = (TRIED.sooner)(lent);
    numbers[1].1 |= lent.table.rows() == 64;
    numbers
}

fn again(lent: &Lent) -> usize {
    lent.table.rows() + lent.candidates() * (lent.table.rows() + 1)
}

fn all_read(lent: &Lent) -> usize {
    lent.table.rows() + lent.candidates()
}

/// 6 or 7 of a candidate beside a full table, and else 2.
fn read(lent: &Lent) -> Vec<Answer> {
    if lent.table.rows() < 64 {
        return (TRIED.answers)(lent);
    }
    let of = |j| match fault(&with(&lent.table, lent.candidate(j)), 64) {
        0 => (2, 0),
        number => (number, 0),
    };
    (0..lent.candidates()).map(of).collect()
}

fn as_lent(lent: &Lent) -> Vec<Answer> {
    each(lent, |candidate| with(&lent.table, candidate))
}

fn raised_to_1(lent: &Lent) -> Vec<Answer> {
    let mark = |mark| if matches!(mark, 0 | 2 | 4) { 1 } else { mark };
    each(lent, |candidate| {
        let mark = mark(candidate.mark);
        with(&lent.table, Row { mark, ..candidate })
    })
}

/// A candidate that has a plan stays for those after it.
fn together(lent: &Lent) -> Vec<Answer> {
    let mut table = lent.table.clone();
    let mut answers = vec![];
    for j in 0..lent.candidates() {
        let longer = with(&table, must(lent.candidate(j)));
        let answer = if table.rows() == 64 { (2, 0) } else { planning(&longer) };
        if answer.0 == 0 {
            table = longer;
        }
        answers.push(answer);
    }
    answers
}

fn others_alone(lent: &Lent) -> Vec<Answer> {
    let others = |(number, count): Answer| (number, if number == 0 { count - 1 } else { 0 });
    (TRIED.answers)(lent).into_iter().map(others).collect()
}

fn mark_of_candidate_first(lent: &Lent) -> Vec<Answer> {
    let answers = (TRIED.answers)(lent);
    let mark_first = |(j, answer): (usize, Answer)| {
        if answer.0 == 6 && lent.marks[j] > 5 {
            (7, 0)
        } else {
            answer
        }
    };
    answers.into_iter().enumerate().map(mark_first).collect()
}

const CARRIED: words::Meaning = words::RIGHT;

/// A name, and how one bit per row is understood.
pub const WORDS: [(&str, words::Meaning); 31] = [
    (
        "row 0 has the uppermost bit",
        words::Meaning {
            place: |i, _| 63 - i.min(63),
            ..CARRIED
        },
    ),
    (
        "the last row has bit 0",
        words::Meaning {
            place: |i, rows| rows.min(64) - 1 - i.min(63),
            ..CARRIED
        },
    ),
    (
        "the receiver bit is 1 for receiver 1",
        words::Meaning {
            bits: first_receiver,
            label: of_first_receiver,
            ..CARRIED
        },
    ),
    (
        "the receiver bit is 1 for a row not heard",
        words::Meaning {
            bits: not_first,
            label: of_not_first,
            ..CARRIED
        },
    ),
    (
        "a receiver bit of a row not heard is passed over",
        words::Meaning {
            label: passed_over,
            ..CARRIED
        },
    ),
    (
        "one bit says receiver 1, the other receiver 2",
        words::Meaning {
            bits: each_receiver,
            label: of_each_receiver,
            ..CARRIED
        },
    ),
    (
        "a label above 2 is heard",
        words::Meaning {
            bits: all_carried,
            ..CARRIED
        },
    ),
    (
        "a one from the row count up is passed over",
        words::Meaning {
            ones_above: true,
            ..CARRIED
        },
    ),
    (
        "the number heard has the ones of both words",
        words::Meaning {
            count: |[heard, receiver], _| words::ones(heard) + words::ones(receiver),
            ..CARRIED
        },
    ),
    (
        "all rows are counted",
        words::Meaning {
            count: |_, rows| rows,
            ..CARRIED
        },
    ),
    (
        "9 before 2",
        words::Meaning {
            carried_first: true,
            ..CARRIED
        },
    ),
    (
        "must is the lowest bit of the mark",
        words::Meaning {
            must: |mark| Ok(mark % 2 == 1),
            ..CARRIED
        },
    ),
    (
        "must is mark 1 alone",
        words::Meaning {
            must: |mark| Ok(mark == 1),
            ..CARRIED
        },
    ),
    (
        "must is any mark but 0",
        words::Meaning {
            must: |mark| Ok(mark != 0),
            ..CARRIED
        },
    ),
    (
        "a mark above 5 is refused",
        words::Meaning {
            must: |mark| if mark > 5 { Err(7) } else { (CARRIED.must)(mark) },
            ..CARRIED
        },
    ),
    (
        "a row has its own bit",
        words::Meaning {
            others: |table| too_close(&RULES, table),
            ..CARRIED
        },
    ),
    (
        "later rows alone",
        words::Meaning {
            others: later,
            ..CARRIED
        },
    ),
    (
        "no gap",
        words::Meaning {
            others: |table| (CARRIED.others)(&table.clone().with_gap(0)),
            ..CARRIED
        },
    ),
    (
        "g ticks are too few",
        words::Meaning {
            others: |table| (CARRIED.others)(&table.clone().with_gap(table.gap + 1)),
            ..CARRIED
        },
    ),
    (
        "one side counts",
        words::Meaning {
            others: |table| not_own(one_side(&RULES, table)),
            ..CARRIED
        },
    ),
    (
        "a run comes back",
        words::Meaning {
            others: come_back,
            ..CARRIED
        },
    ),
    (
        "equal windows are one",
        words::Meaning {
            others: unequal,
            ..CARRIED
        },
    ),
    (
        "rows for different receivers do not clash",
        words::Meaning {
            others: by_mark,
            ..CARRIED
        },
    ),
    (
        "rows that may be heard do not clash",
        words::Meaning {
            others: by_must,
            ..CARRIED
        },
    ),
    (
        "rows outside the hours do not clash",
        words::Meaning {
            others: by_hours,
            ..CARRIED
        },
    ),
    (
        "2 before 1",
        words::Meaning {
            refusals: |table, places| moved(2, 0, (CARRIED.refusals)(table, places)),
            ..CARRIED
        },
    ),
    (
        "4 before 2",
        words::Meaning {
            refusals: |table, places| moved(4, 1, (CARRIED.refusals)(table, places)),
            ..CARRIED
        },
    ),
    (
        "14 before 4",
        words::Meaning {
            refusals: |table, places| moved(14, 2, (CARRIED.refusals)(table, places)),
            ..CARRIED
        },
    ),
    (
        "6 before 14",
        words::Meaning {
            refusals: |table, places| moved(6, 3, (CARRIED.refusals)(table, places)),
            ..CARRIED
        },
    ),
    (
        "5 for hours",
        words::Meaning {
            refusals: hours_refused,
            ..CARRIED
        },
    ),
    (
        "7 for marks",
        words::Meaning {
            refusals: marks_refused,
            ..CARRIED
        },
    ),
];

fn first_receiver(label: u8) -> Option<[bool; 2]> {
    (CARRIED.bits)(label).map(|[heard, second]| [heard, heard && !second])
}

fn of_first_receiver([heard, first]: [bool; 2]) -> Option<u8> {
    match [heard, first] {
        [true, first] => Some(if first { 1 } else { 2 }),
        bits => (CARRIED.label)(bits),
    }
}

fn not_first(label: u8) -> Option<[bool; 2]> {
    (CARRIED.bits)(label).map(|[heard, second]| [heard, second || !heard])
}

fn of_not_first(bits: [bool; 2]) -> Option<u8> {
    (0..=2).find(|&label| not_first(label) == Some(bits))
}

fn passed_over([heard, second]: [bool; 2]) -> Option<u8> {
    (CARRIED.label)([heard, heard && second])
}

fn each_receiver(label: u8) -> Option<[bool; 2]> {
    (CARRIED.bits)(label).map(|_| [label == 1, label == 2])
}

fn of_each_receiver(bits: [bool; 2]) -> Option<u8> {
    (0..=2).find(|&label| each_receiver(label) == Some(bits))
}

fn all_carried(label: u8) -> Option<[bool; 2]> {
    Some([label > 0, label == 2])
}

/// The clashes of a table without those that are left out.
fn without(table: &Table, left_out: impl Fn(usize, usize) -> bool) -> Vec<Vec<bool>> {
    let mut others = (CARRIED.others)(table);
    for i in 0..table.rows() {
        for j in 0..table.rows() {
            others[i][j] &= !left_out(i, j);
        }
    }
    others
}

fn later(table: &Table) -> Vec<Vec<bool>> {
    without(table, |i, j| j < i)
}

fn come_back(table: &Table) -> Vec<Vec<bool>> {
    not_own(match table.kind {
        Kind::Round => too_close(&RULES, table),
        Kind::Run(_) => wraps(&RULES, table),
    })
}

fn unequal(table: &Table) -> Vec<Vec<bool>> {
    without(table, |i, j| {
        (table.starts[i], table.ends[i]) == (table.starts[j], table.ends[j])
    })
}

/// No receiver is left by the marks of both rows.
fn by_mark(table: &Table) -> Vec<Vec<bool>> {
    without(table, |i, j| {
        matches!((table.marks[i] / 2, table.marks[j] / 2), (1, 2) | (2, 1))
    })
}

/// Neither row must be heard.
fn by_must(table: &Table) -> Vec<Vec<bool>> {
    without(table, |i, j| table.marks[i] % 2 == 0 && table.marks[j] % 2 == 0)
}

/// No receiver's hours have both rows.
fn by_hours(table: &Table) -> Vec<Vec<bool>> {
    without(table, |i, j| {
        ![1, 2]
            .iter()
            .any(|&label| in_hours(table, i, label) && in_hours(table, j, label))
    })
}

fn hours_refused(table: &Table, places: usize) -> Vec<(u8, bool)> {
    let wrong = matches!(table.kind, Kind::Run(hours) if hours.iter().any(|&[p, q]| p > q || q > table.ticks));
    let mut numbers = (CARRIED.refusals)(table, places);
    numbers.insert(3, (5, wrong));
    numbers
}

fn marks_refused(table: &Table, places: usize) -> Vec<(u8, bool)> {
    let mut numbers = (CARRIED.refusals)(table, places);
    numbers.push((7, table.marks.iter().any(|&mark| mark > 5)));
    numbers
}

const LENT: space::Meaning = space::RIGHT;

/// A name, and how working space is understood.
pub const SPACE: [(&str, space::Meaning); 12] = [
    (
        "4,607 bytes are enough",
        space::Meaning {
            refused_below: 4_607,
            ..LENT
        },
    ),
    (
        "4,608 bytes are too few",
        space::Meaning {
            refused_below: 4_609,
            ..LENT
        },
    ),
    (
        "16,383 bytes are too few",
        space::Meaning {
            refused_below: 16_384,
            ..LENT
        },
    ),
    (
        "4,607 bytes are cleared",
        space::Meaning {
            cleared: |refusal| clears(refusal, 4_607),
            ..LENT
        },
    ),
    (
        "4,609 bytes are cleared",
        space::Meaning {
            cleared: |refusal| clears(refusal, 4_609),
            ..LENT
        },
    ),
    (
        "16,384 bytes are cleared",
        space::Meaning {
            cleared: |refusal| clears(refusal, 16_384),
            ..LENT
        },
    ),
    (
        "the planner's cells alone are cleared",
        space::Meaning {
            cleared: |refusal| clears(refusal, 65 * 65),
            ..LENT
        },
    ),
    (
        "all bytes that are lent are cleared",
        space::Meaning {
            cleared: |refusal| clears(refusal, usize::MAX),
            ..LENT
        },
    ),
    (
        "an accepted call clears nothing",
        space::Meaning {
            cleared: |refusal| if refusal == 0 { 0 } else { (LENT.cleared)(refusal) },
            ..LENT
        },
    ),
    (
        "8 clears nothing",
        space::Meaning {
            cleared: |refusal| if refusal == 8 { 0 } else { (LENT.cleared)(refusal) },
            ..LENT
        },
    ),
    (
        "3 clears what is lent",
        space::Meaning {
            cleared: |refusal| {
                if refusal == 3 {
                    space::BYTES
                } else {
                    (LENT.cleared)(refusal)
                }
            },
            ..LENT
        },
    ),
    (
        "all refusals but 3 clear",
        space::Meaning {
            cleared: |refusal| if refusal == 3 { 0 } else { space::BYTES },
            ..LENT
        },
    ),
];

/// So many bytes in the place of 4,608.
fn clears(refusal: u8, bytes: usize) -> usize {
    if (LENT.cleared)(refusal) > 0 {
        bytes
    } else {
        0
    }
}
