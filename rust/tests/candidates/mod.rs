//! Candidates against their rules written down independently (rules/candidates.rs): each call compared whole, with
//! tables of any size, damaged ones too.

use super::rules::candidates::{must, with, Given, Lent, RIGHT};
use super::rules::{heard, misread, plan_by_trying, RULES};
use super::{damage, numbers, random_setting, random_table, spaces, table_of, OneIn};
use hubplan::candidates::{try_lists, try_rows, Answer, Candidates};
use hubplan::held::Row;
use hubplan::tables::{Planner, Sequence, Table};
use hubplan::{port, Kind, Refusal, MAX_CANDIDATES, MAX_ROWS, SPACE_BYTES};

/// A table, candidates and enough working space; the lists of answers hold anything.
pub fn lend(table: Table, candidates: &[Row]) -> Lent {
    let places = 0..candidates.len() as u8;
    Lent {
        table,
        starts: candidates.iter().map(|row| row.start).collect(),
        ends: candidates.iter().map(|row| row.end).collect(),
        marks: candidates.iter().map(|row| row.mark).collect(),
        numbers: places.clone().map(|j| 100 + j).collect(),
        counts: places.map(|j| 250 - j).collect(),
        space: SPACE_BYTES,
    }
}

/// What the library gives for a call, in this working space.
pub fn library(lent: &Lent, space: &mut [u8]) -> Given {
    let table = &lent.table;
    let (mut numbers, mut counts) = (lent.numbers.clone(), lent.counts.clone());
    let candidates = Candidates {
        starts: &lent.starts,
        ends: &lent.ends,
        marks: &lent.marks,
    };
    let tried = try_lists(
        table.kind,
        table.ticks,
        table.gap,
        &table.starts,
        &table.ends,
        &table.marks,
        candidates,
        &mut numbers,
        &mut counts,
        space,
    );
    Given {
        refusal: tried.refusal.map_or(0, Refusal::number),
        rows: tried.rows,
        numbers,
        counts,
    }
}

/// Tries the candidates and compares the report, every place of the answers and every byte of the working space; gives
/// the refusal's number.
fn compare(lent: &Lent, right: &Given) -> u8 {
    let (mut space, after) = spaces(lent.space, right.refusal);
    assert_eq!(library(lent, &mut space), *right, "{lent:?}");
    assert!(space == after, "working space, {lent:?}");
    let candidates = lent.candidates();
    if lent.ends.len() == candidates && lent.marks.len() == candidates && lent.counts.len() == lent.numbers.len() {
        compare_rows(lent, right);
    }
    right.refusal
}

/// The same call with candidates as rows, and an answer to each.
fn compare_rows(lent: &Lent, right: &Given) {
    let table = &lent.table;
    let (mut space, after) = spaces(lent.space, right.refusal);
    let rows: Vec<Row> = (0..lent.candidates()).map(|j| lent.candidate(j)).collect();
    let before: Vec<Answer> = (0..lent.numbers.len()).map(|j| Ok(200 + j as u8 % 50)).collect();
    let mut answers = before.clone();
    let tried = try_rows(
        table.kind,
        table.ticks,
        table.gap,
        &table.starts,
        &table.ends,
        &table.marks,
        &rows,
        &mut answers,
        &mut space,
    );
    assert_eq!(
        (tried.refusal.map_or(0, Refusal::number), tried.rows),
        (right.refusal, right.rows),
        "{lent:?}"
    );
    if right.refusal > 0 {
        assert_eq!(answers, before, "{lent:?}");
    } else {
        let (numbers, counts): (Vec<u8>, Vec<u8>) = answers
            .iter()
            .map(|answer| answer.map_or_else(|refusal| (refusal.number(), 0), |count| (0, count)))
            .unzip();
        assert_eq!((&numbers, &counts), (&right.numbers, &right.counts), "{lent:?}");
    }
    assert!(space == after, "working space, {lent:?}");
}

/// A candidate for a table, with any mark; one in eight has a fault.
fn random_candidate(sequence: &mut Sequence, table: &Table) -> Row {
    let ticks = table.ticks as u32;
    let longest = [ticks / 20 + 1, ticks / 4 + 1, ticks][sequence.within(0, 2) as usize];
    let length = sequence.within(1, longest.min(ticks));
    let (start, end) = match table.kind {
        Kind::Round => {
            let start = sequence.within(0, ticks - 1);
            (start, (start + length) % ticks)
        }
        Kind::Run(_) => {
            let start = sequence.within(0, ticks - length);
            (start, start + length)
        }
    };
    let mut row = Row {
        start: start as u16,
        end: end as u16,
        mark: sequence.within(0, 5) as u8,
    };
    let fault = sequence.within(0, 31);
    if fault == 0 || fault == 1 {
        row.start = if sequence.one_in(2) { table.ticks } else { u16::MAX };
    }
    if fault == 1 || fault == 2 {
        row.mark = if sequence.one_in(2) {
            6
        } else {
            sequence.within(6, 255) as u8
        };
    }
    if fault == 3 {
        // a fault in a run, where in a round it sends all day; or the other way round
        row.end = if sequence.one_in(2) { row.start } else { table.ticks };
    }
    row
}

fn random_lent(sequence: &mut Sequence, table: Table, candidates: usize) -> Lent {
    let rows: Vec<Row> = (0..candidates).map(|_| random_candidate(sequence, &table)).collect();
    let space = SPACE_BYTES + sequence.within(0, 3) as usize;
    Lent {
        space,
        ..lend(table, &rows)
    }
}

/// Counts the numbers that the candidates of an accepted call are given.
fn count_answers(seen: &mut [u32; 17], right: &Given) {
    if right.refusal == 0 {
        right.numbers.iter().for_each(|&number| seen[number as usize] += 1);
    }
}

#[test]
fn up_to_7_rows_against_all_labels() {
    let mut sequence = Sequence::new(1_100);
    let (mut seen, mut refused) = ([0; 17], [0; 17]);
    for _ in 0..4_000 {
        let (rows, candidates) = (sequence.within(0, 6) as usize, sequence.within(0, 6) as usize);
        let table = random_setting(&mut sequence, rows);
        let lent = random_lent(&mut sequence, table, candidates);
        let right = lent.tried(&RIGHT);
        refused[compare(&lent, &right) as usize] += 1;
        assert_eq!(
            right.refusal == 8,
            plan_by_trying(&RULES, &lent.table).is_none(),
            "{lent:?}"
        );
        count_answers(&mut seen, &right);
        for j in (0..candidates).filter(|&j| right.refusal == 0 && (right.numbers[j] == 0 || right.numbers[j] == 8)) {
            let tried = plan_by_trying(&RULES, &with(&lent.table, must(lent.candidate(j))));
            let answer = tried.map_or((8, 0), |labels| (0, heard(&labels) as u8));
            assert_eq!((right.numbers[j], right.counts[j]), answer, "candidate {j} of {lent:?}");
        }
    }
    assert!(
        refused[0] > 2_000 && refused[8] > 300 && refused[0] + refused[8] == 4_000,
        "{refused:?}"
    );
    assert!([0, 6, 7, 8].iter().all(|&number| seen[number] > 200), "{seen:?}");
}

/// What planning the longer table whole gives, number and count.
fn planned(planner: Planner, table: &Table) -> (u8, usize) {
    numbers(table.plan(planner, &mut vec![0; table.rows()], &mut vec![0; SPACE_BYTES]))
}

/// Up to 63 rows and 64 candidates, beside the search and beside planning each longer table whole, by the library and
/// by the hand port.
#[test]
fn larger_tables_against_the_search() {
    let mut sequence = Sequence::new(1_110);
    let (mut seen, mut refused) = ([0; 17], [0; 17]);
    for turn in 0..160 {
        let rows = if turn % 4 == 0 {
            63
        } else {
            sequence.within(7, 63) as usize
        };
        let candidates = if turn % 8 == 0 {
            64
        } else {
            sequence.within(0, 10) as usize
        };
        let table = random_setting(&mut sequence, rows);
        let lent = random_lent(&mut sequence, table, candidates);
        let right = lent.tried(&RIGHT);
        refused[compare(&lent, &right) as usize] += 1;
        count_answers(&mut seen, &right);
        for j in (0..candidates).filter(|_| right.refusal == 0) {
            let longer = with(&lent.table, must(lent.candidate(j)));
            let answer = (right.numbers[j], right.counts[j] as usize);
            assert_eq!(planned(hubplan::plan, &longer), answer, "{longer:?}");
            assert_eq!(planned(port::plan, &longer), answer, "{longer:?}");
        }
    }
    assert!(
        refused[0] > 60 && refused[8] > 20 && refused[0] + refused[8] == 160,
        "{refused:?}"
    );
    assert!([0, 6, 7, 8].iter().all(|&number| seen[number] > 30), "{seen:?}");
}

/// A table of so many rows that is soon planned.
fn light_table(sequence: &mut Sequence, rows: usize) -> Table {
    let one_in = OneIn {
        must: 20,
        only: 20,
        all_day: 1_000,
    };
    random_table(sequence, rows, 43_200, 300, one_in)
}

/// 63 and 64 rows, some without a plan and some with a fault. Beside 64 rows no candidate is read: each is answered 2
/// with count 0, and 64 rows are looked at.
#[test]
fn full_tables() {
    let mut sequence = Sequence::new(1_120);
    let mut refused = [0; 17];
    for turn in 0..400 {
        let mut table = light_table(&mut sequence, 63 + turn % 2);
        match sequence.within(0, 3) {
            0 => table.marks[sequence.within(0, 62) as usize] = 6,
            1 => table.marks.fill(1),
            _ => {}
        }
        let candidates = if turn % 8 < 2 {
            64
        } else {
            sequence.within(0, 5) as usize
        };
        let lent = random_lent(&mut sequence, table, candidates);
        let right = lent.tried(&RIGHT);
        let refusal = compare(&lent, &right);
        if turn % 2 == 1 {
            refused[refusal as usize] += 1;
            if refusal == 0 {
                assert_eq!(
                    (right.rows, &right.numbers, &right.counts),
                    (64, &vec![2; candidates], &vec![0; candidates])
                );
            }
        }
    }
    assert!([0, 7, 8].iter().all(|&number| refused[number] > 20), "{refused:?}");
}

/// Another length for one or two of the five lists, or more candidates than a call takes.
fn damage_lists(sequence: &mut Sequence, lent: &mut Lent) {
    if sequence.one_in(3) {
        let places = [65, 66, 128][sequence.within(0, 2) as usize];
        lent.starts.resize(places, 0);
        lent.ends.resize(places, 1);
        lent.marks.resize(places, 0);
        lent.numbers.resize(places, 9);
        lent.counts.resize(places, 9);
    }
    for _ in 0..sequence.within(1, 2) {
        let places =
            [0, lent.candidates() + 1, lent.candidates().saturating_sub(1), 64, 65][sequence.within(0, 4) as usize];
        match sequence.within(0, 5) {
            0 => lent.starts.resize(places, 0),
            1 => lent.ends.resize(places, 1),
            2 => lent.marks.resize(places, 0),
            3 => lent.numbers.resize(places, 9),
            4 => lent.counts.resize(places, 9),
            _ => {}
        }
    }
}

/// A call with faults in the table, in the lists and in the working space, of which the first that applies is reported.
pub fn damaged(sequence: &mut Sequence) -> Lent {
    let (rows, candidates) = (sequence.within(0, 12) as usize, sequence.within(0, 4) as usize);
    let table = random_setting(sequence, rows);
    let mut lent = random_lent(sequence, table, candidates);
    if !sequence.one_in(3) {
        damage(sequence, &mut lent.table, &mut 0, &mut lent.space);
    }
    if sequence.one_in(3) {
        damage_lists(sequence, &mut lent);
    }
    lent
}

#[test]
fn damaged_calls_are_refused_by_number() {
    let mut sequence = Sequence::new(1_130);
    let (mut refused, mut looked) = ([0; 17], 0);
    for _ in 0..30_000 {
        let lent = damaged(&mut sequence);
        let right = lent.tried(&RIGHT);
        refused[compare(&lent, &right) as usize] += 1;
        looked += u32::from(right.refusal != 0 && right.rows > 1);
    }
    let met = [0, 1, 2, 3, 4, 5, 6, 7, 8, 14, 16];
    let is_right = |number: usize| {
        if met.contains(&number) {
            refused[number] > 200
        } else {
            refused[number] == 0
        }
    };
    assert!((0..17).all(is_right), "{refused:?}");
    assert!(looked > 1_000, "{looked} refusals that looked at several rows");
}

/// How many calls tell the rules from each misreading of them: damaged ones, and full tables.
#[test]
fn calls_tell_misreadings() {
    let mut sequence = Sequence::new(1_140);
    let mut told = [0; misread::CANDIDATES.len()];
    for turn in 0..6_000 {
        let lent = if turn % 20 == 0 {
            let table = light_table(&mut sequence, 64);
            random_lent(&mut sequence, table, 3)
        } else {
            damaged(&mut sequence)
        };
        let right = lent.tried(&RIGHT);
        for ((_, meaning), times) in misread::CANDIDATES.iter().zip(&mut told) {
            *times += u32::from(lent.tried(meaning) != right);
        }
        compare(&lent, &right);
    }
    for ((name, _), times) in misread::CANDIDATES.iter().zip(told) {
        println!("{name}: another answer for {times} calls");
        assert!(times > 20, "{name}: {times}");
    }
}

type Rows<'a> = &'a [(u16, u16, u8)];

fn rows_of(rows: Rows) -> Vec<Row> {
    let row = |&(start, end, mark)| Row { start, end, mark };
    rows.iter().map(row).collect()
}

/// A call worked out by hand, by the independent implementation and by the library.
fn by_hand(lent: &Lent, right: Given) {
    assert_eq!(lent.tried(&RIGHT), right, "{lent:?}");
    compare(lent, &right);
}

/// An accepted call: number and count of each candidate, and the rows looked at.
fn answered(lent: &Lent, answers: &[(u8, u8)], rows: usize) {
    let (numbers, counts) = answers.iter().copied().unzip();
    let refusal = 0;
    by_hand(
        lent,
        Given {
            refusal,
            rows,
            numbers,
            counts,
        },
    );
}

/// A refused call: the answers are left.
fn refused(lent: &Lent, refusal: u8, rows: usize) {
    let (numbers, counts) = (lent.numbers.clone(), lent.counts.clone());
    by_hand(
        lent,
        Given {
            refusal,
            rows,
            numbers,
            counts,
        },
    );
}

/// At most three of these are heard, row 3 and two of the others.
const FOUR: Rows = &[(10, 30, 0), (20, 40, 0), (25, 50, 0), (90, 10, 0)];

/// For a run whose receivers are open from 0 to 50 and from 40 to 100.
const THREE: Rows = &[(45, 60, 0), (50, 60, 0), (0, 50, 0)];

/// An accepted call without a gap in a round of 10 ticks: number and count of each candidate.
fn of_10_ticks(rows: Rows, candidates: Rows, answers: &[(u8, u8)]) {
    let lent = lend(table_of(Kind::Round, 10, rows), &rows_of(candidates));
    answered(&lent, answers, rows.len() + candidates.len());
}

/// A candidate apart from all rows, over three of which one is heard then, over two, and all day; an end at R, a mark
/// above 5, and both; and no candidate.
#[test]
fn candidates_beside_four_rows_by_hand() {
    let four = table_of(Kind::Round, 100, FOUR);
    let candidates = &rows_of(&[
        (50, 90, 0),
        (25, 30, 0),
        (30, 50, 0),
        (7, 7, 0),
        (50, 100, 0),
        (50, 60, 6),
        (100, 60, 6),
    ]);
    let answers = [(0, 4), (0, 3), (0, 4), (0, 3), (6, 0), (7, 0), (6, 0)];
    answered(&lend(four.clone(), candidates), &answers, 11);
    answered(&lend(four, &[]), &[], 4);
    // where rows 0 and 1 must be heard, a third at the same tick cannot be
    let musts = table_of(Kind::Round, 100, &[(10, 30, 1), (20, 40, 1), (25, 50, 0), (90, 10, 0)]);
    answered(
        &lend(musts, candidates),
        &[(0, 4), (8, 0), (0, 4), (8, 0), (6, 0), (7, 0), (6, 0)],
        11,
    );
}

/// Each is tried alone, and as a row that must be heard: one that may be heard would be left out beside two musts.
#[test]
fn candidates_are_musts_and_alone() {
    of_10_ticks(&[], &[(4, 5, 0), (4, 5, 0), (4, 5, 0)], &[(0, 1), (0, 1), (0, 1)]);
    of_10_ticks(
        &[(4, 5, 0), (4, 5, 0)],
        &[(4, 5, 0), (4, 5, 2), (5, 4, 0)],
        &[(0, 2), (0, 2), (0, 3)],
    );
    let answers = &[(8, 0), (8, 0), (0, 3), (8, 0)];
    of_10_ticks(
        &[(4, 5, 1), (4, 5, 1)],
        &[(4, 5, 0), (4, 5, 1), (5, 6, 0), (3, 3, 4)],
        answers,
    );
}

/// Marks 0, 2 and 4 count as 1, 3 and 5: beside a must on receiver 1, and on receiver 2; and a candidate to which two
/// must rows give way.
#[test]
fn raised_marks_by_hand() {
    let each_mark = &[
        (4, 5, 0),
        (4, 5, 1),
        (4, 5, 2),
        (4, 5, 3),
        (4, 5, 4),
        (4, 5, 5),
        (4, 5, 6),
    ];
    of_10_ticks(
        &[(2, 6, 3)],
        each_mark,
        &[(0, 2), (0, 2), (8, 0), (8, 0), (0, 2), (0, 2), (7, 0)],
    );
    of_10_ticks(
        &[(2, 6, 5)],
        each_mark,
        &[(0, 2), (0, 2), (0, 2), (0, 2), (8, 0), (8, 0), (7, 0)],
    );
    of_10_ticks(
        &[(0, 3, 1), (5, 8, 1)],
        &[(2, 6, 2), (2, 6, 4), (2, 6, 0)],
        &[(0, 3), (0, 3), (0, 3)],
    );
    for mark in 6..=255 {
        of_10_ticks(&[(2, 6, 0)], &[(4, 5, mark), (10, 5, mark)], &[(7, 0), (6, 0)]);
    }
}

/// A candidate that sends all day leaves one receiver to all others, and one beside a must that does has the other.
#[test]
fn all_day_candidates_by_hand() {
    of_10_ticks(&[(0, 3, 0), (5, 8, 0)], &[(9, 9, 0), (0, 0, 4)], &[(0, 3), (0, 3)]);
    of_10_ticks(
        &[(3, 3, 3), (5, 8, 0)],
        &[(9, 9, 0), (9, 9, 2), (1, 2, 0)],
        &[(0, 2), (8, 0), (0, 3)],
    );
    of_10_ticks(&[(3, 3, 1), (4, 4, 1)], &[(9, 9, 0), (1, 2, 0)], &[(8, 0), (8, 0)]);
}

/// In receiver 1's hours, in neither's, in receiver 2's, beyond R; start equal to end, which a run refuses; in the
/// hours of the wrong receiver, and in both's.
#[test]
fn candidates_and_hours_by_hand() {
    let hours = Kind::Run([[0, 50], [40, 100]]);
    let candidates = [
        (0, 10, 0),
        (30, 60, 0),
        (60, 100, 0),
        (60, 101, 0),
        (7, 7, 0),
        (60, 100, 2),
        (0, 10, 4),
        (42, 45, 0),
    ];
    let answers = [(0, 2), (8, 0), (0, 3), (6, 0), (6, 0), (8, 0), (8, 0), (0, 3)];
    answered(&lend(table_of(hours, 100, THREE), &rows_of(&candidates)), &answers, 11);
    let alone = [(0, 1), (8, 0), (0, 1), (6, 0), (6, 0), (8, 0), (8, 0), (0, 1)];
    answered(&lend(table_of(hours, 100, &[]), &rows_of(&candidates)), &alone, 8);
}

/// Row 0 of the four ends 10 ticks before the first candidate, and row 3 ends 10 ticks before row 1 and 15 before row
/// 2. With a gap of R or more a receiver hears one row.
#[test]
fn candidates_and_gaps_by_hand() {
    let four = table_of(Kind::Round, 100, FOUR);
    let candidates = rows_of(&[(40, 60, 0), (50, 60, 0)]);
    answered(&lend(four.clone().with_gap(10), &candidates), &[(0, 4), (0, 4)], 6);
    answered(&lend(four.with_gap(11), &candidates), &[(0, 3), (0, 4)], 6);
    let candidates = rows_of(&[(5, 6, 0), (5, 6, 2), (0, 1, 4)]);
    for (mark, second) in [(0, (0, 2)), (2, (0, 1)), (3, (8, 0))] {
        let table = table_of(Kind::Round, 10, &[(0, 1, mark)]).with_gap(600);
        answered(&lend(table, &candidates), &[(0, 2), second, (0, 2)], 4);
    }
}

/// Row i is i to i + 1, so that all are heard.
fn many(kind: Kind, rows: u16) -> Table {
    let rows: Vec<(u16, u16, u8)> = (0..rows).map(|i| (i, i + 1, 0)).collect();
    table_of(kind, 100, &rows)
}

const OPEN: Kind = Kind::Run([[0, 100]; 2]);

/// 62 to 65 rows, and 64 and 65 candidates, of which the last has faults.
#[test]
fn calls_at_the_limits() {
    for kind in [Kind::Round, OPEN] {
        let mut candidates = rows_of(&[(70, 71, 0); 64]);
        candidates[63] = Row {
            start: 200,
            end: 200,
            mark: 9,
        };
        for rows in [0, 1, 62, 63] {
            let mut answers = vec![(0, rows as u8 + 1); 64];
            answers[63] = (6, 0);
            answered(&lend(many(kind, rows), &candidates), &answers, rows as usize + 64);
        }
        answered(&lend(many(kind, 64), &candidates), &[(2, 0); 64], 64);
        answered(&lend(many(kind, 64), &[]), &[], 64);
        refused(&lend(many(kind, 65), &candidates), 2, 0);
        refused(&lend(many(kind, 63), &rows_of(&[(70, 71, 0); 65])), 16, 0);
        refused(&lend(many(kind, 64), &rows_of(&[(70, 71, 0); 65])), 16, 0);
        refused(&lend(many(kind, 65), &rows_of(&[(70, 71, 0); 65])), 2, 0);
        for (space, refusal) in [(0, 3), (SPACE_BYTES - 1, 3), (SPACE_BYTES, 0), (SPACE_BYTES + 1, 0)] {
            let lent = Lent {
                space,
                ..lend(many(kind, 2), &candidates[..1])
            };
            if refusal == 0 {
                answered(&lent, &[(0, 3)], 3);
            } else {
                refused(&lent, refusal, 0);
            }
        }
    }
}

/// R and the gap on both sides of their limits, with a table of no rows and a candidate from 0 to 1.
#[test]
fn ticks_and_gaps_at_the_limits() {
    for round in [true, false] {
        for (ticks, gap, refusal) in [
            (0, 0, 4),
            (1, 0, 4),
            (2, 600, 0),
            (43_200, 0, 0),
            (43_201, 0, 4),
            (65_535, 601, 4),
            (100, 601, 14),
            (100, 65_535, 14),
        ] {
            let kind = if round { Kind::Round } else { Kind::Run([[0, ticks]; 2]) };
            let lent = lend(table_of(kind, ticks, &[]).with_gap(gap), &rows_of(&[(0, 1, 0)]));
            if refusal == 0 {
                answered(&lent, &[(0, 1)], 1);
            } else {
                refused(&lent, refusal, 0);
            }
        }
    }
    for (hours, refusal) in [
        ([[0, 100], [100, 100]], 0),
        ([[1, 0], [0, 100]], 5),
        ([[0, 100], [0, 101]], 5),
        ([[0, 101], [0, 100]], 5),
    ] {
        let lent = lend(table_of(Kind::Run(hours), 100, &[]), &rows_of(&[(0, 1, 0)]));
        if refusal == 0 {
            answered(&lent, &[(0, 1)], 1);
        } else {
            refused(&lent, refusal, 0);
        }
    }
}

/// Each of the five lists with a place less and a place more than the others, of none, 63 and 64.
#[test]
fn lists_of_unequal_length() {
    for places in [0, 1, 63, 64] {
        for list in 0..5 {
            for other in [places.max(1) - 1, places + 1] {
                let mut lent = lend(
                    many(Kind::Round, 64),
                    &vec![
                        Row {
                            start: 0,
                            end: 1,
                            mark: 0
                        };
                        places
                    ],
                );
                match list {
                    0 => lent.starts.resize(other, 0),
                    1 => lent.ends.resize(other, 0),
                    2 => lent.marks.resize(other, 0),
                    3 => lent.numbers.resize(other, 7),
                    _ => lent.counts.resize(other, 7),
                }
                if other == places {
                    answered(&lent, &[], 64);
                } else {
                    refused(&lent, 16, 0);
                }
            }
        }
    }
    // in all five it is too many
    for places in [MAX_CANDIDATES + 1, MAX_CANDIDATES + 2, 4 * MAX_CANDIDATES] {
        let candidates = vec![
            Row {
                start: 0,
                end: 1,
                mark: 0
            };
            places
        ];
        let mut lent = lend(many(Kind::Round, 3), &candidates[..1]);
        (lent.starts, lent.ends, lent.marks) = (vec![0; places], vec![1; places], vec![0; places]);
        refused(&lent, 16, 0);
        (lent.numbers, lent.counts) = (vec![7; places], vec![8; places]);
        refused(&lent, 16, 0);
    }
}

/// 65 rows of which rows 4 and 7 have faults and rows 5 to 7 are equal windows, with R, hours and gap wrong, 65
/// candidates with faults, and answers of unequal length.
fn all_wrong(kind: Kind) -> Lent {
    let mut table = many(kind, 65).with_gap(601);
    (table.ticks, table.ends[4], table.marks[4], table.marks[7]) = (1, 101, 6, 255);
    for row in [5, 6] {
        (table.starts[row], table.ends[row], table.marks[row]) = (7, 8, 1);
    }
    let mut lent = lend(table, &rows_of(&[(200, 200, 9); 65]));
    (lent.space, lent.numbers) = (SPACE_BYTES - 1, vec![3; 64]);
    lent
}

/// Mended one by one, up to the lists of candidates and answers: 1, 2, 3 and 16.
fn mend_lists(lent: &mut Lent) {
    lent.table.ends.pop();
    refused(lent, 1, 0);
    lent.table.ends.push(65);
    lent.table.marks.push(0);
    refused(lent, 1, 0);
    lent.table.marks.pop();
    refused(lent, 2, 0);
    lent.table = lent.table.clone().first(64);
    refused(lent, 3, 0);
    lent.space = SPACE_BYTES;
    refused(lent, 16, 0);
    lent.numbers.push(3);
    refused(lent, 16, 0);
    (lent.starts.pop(), lent.ends.pop(), lent.marks.pop());
    refused(lent, 16, 0);
    (lent.numbers.pop(), lent.counts.pop());
}

/// Wrong in every way: mended one by one, the refusals come in their order, and with each the rows looked at.
#[test]
fn refusals_in_their_order() {
    for kind in [Kind::Round, Kind::Run([[1, 0], [0, 100]])] {
        let mut lent = all_wrong(kind);
        mend_lists(&mut lent);
        refused(&lent, 4, 0);
        lent.table.ticks = 100;
        if kind != Kind::Round {
            refused(&lent, 5, 0);
            lent.table.kind = OPEN;
        }
        refused(&lent, 14, 0);
        lent.table.gap = 0;
        refused(&lent, 6, 5);
        lent.table.ends[4] = 5;
        refused(&lent, 7, 5);
        lent.table.marks[4] = 5;
        refused(&lent, 7, 8);
        lent.table.marks[7] = 1;
        refused(&lent, 8, 64);
        lent.table.marks[7] = 0;
        answered(&lent, &[(2, 0); 64], 64);
        lent.table = lent.table.first(63);
        answered(&lent, &[(6, 0); 64], 127);
    }
}

/// A fault of each row in turn: a table that stops at row k has k + 1 rows looked at. The rows before it must all be
/// heard and cannot be, but 8 comes last.
#[test]
fn stops_at_each_row() {
    for kind in [Kind::Round, OPEN] {
        for rows in [1, 2, 63, MAX_ROWS] {
            let table = table_of(kind, 100, &vec![(3, 4, 1); rows]);
            for k in 0..rows {
                let mut lent = lend(table.clone(), &rows_of(&[(5, 6, 0), (200, 6, 0)]));
                lent.table.marks[k] = 6;
                refused(&lent, 7, k + 1);
                lent.table.ends[k] = 101;
                refused(&lent, 6, k + 1);
            }
            if rows > 2 {
                refused(&lend(table, &rows_of(&[(5, 6, 0), (200, 6, 0)])), 8, rows);
            }
        }
    }
}

/// Starts, ends and marks of a candidate on both sides of their limits, beside no rows and beside a row.
#[test]
fn candidates_at_the_limits() {
    for ticks in [2, 10, 43_200] {
        let near = [0, 1, ticks - 2, ticks - 1, ticks, ticks + 1, u16::MAX];
        let windows: Vec<(u16, u16)> = near.iter().flat_map(|&start| near.map(|end| (start, end))).collect();
        for kind in [Kind::Round, Kind::Run([[0, ticks]; 2])] {
            for mark in [0, 1, 2, 3, 4, 5, 6, 7, 254, 255] {
                let answer = |&(start, end): &(u16, u16)| {
                    let holds = match kind {
                        Kind::Round => start < ticks && end < ticks,
                        Kind::Run(_) => start < end && end <= ticks,
                    };
                    match (holds, mark) {
                        (false, _) => (6, 0),
                        (true, 6..) => (7, 0),
                        (true, _) => (0, 1),
                    }
                };
                let candidates = rows_of(
                    &windows
                        .iter()
                        .map(|&(start, end)| (start, end, mark))
                        .collect::<Vec<_>>(),
                );
                let answers: Vec<(u8, u8)> = windows.iter().map(answer).collect();
                answered(&lend(table_of(kind, ticks, &[]), &candidates), &answers, windows.len());
                let lent = lend(table_of(kind, ticks, &[(0, 1, 0)]), &candidates);
                let right = lent.tried(&RIGHT);
                assert_eq!(compare(&lent, &right), 0);
                assert!((0..windows.len()).all(|j| right.numbers[j] == answers[j].0), "{lent:?}");
            }
        }
    }
}

/// Each two refusals that can apply at once, and nothing else: the first in the order is reported. The rows are 0 to 1,
/// 1 to 2 and 1 to 2.
#[test]
fn two_faults_at_once() {
    type Fault = fn(&mut Lent);
    let faults: [(u8, usize, Fault); 9] = [
        (1, 0, |lent| lent.table.ends.push(1)),
        (2, 0, |lent| {
            let more = 65 - lent.table.starts.len();
            lent.table.starts.extend(vec![0; more]);
            lent.table.ends.extend(vec![1; more]);
            lent.table.marks.extend(vec![0; more]);
        }),
        (3, 0, |lent| lent.space = SPACE_BYTES - 1),
        (16, 0, |lent| lent.counts.push(0)),
        (4, 0, |lent| lent.table.ticks = 43_201),
        (14, 0, |lent| lent.table.gap = 601),
        (6, 2, |lent| lent.table.starts[1] = 65_535),
        (7, 2, |lent| lent.table.marks[1] = 6),
        (8, 3, |lent| {
            lent.table.marks[2] = 3;
            lent.table.marks[1] |= 3;
        }),
    ];
    for kind in [Kind::Round, OPEN] {
        for (i, (first, rows, fault)) in faults.iter().enumerate() {
            for (_, _, other) in &faults[i..] {
                let table = table_of(kind, 100, &[(0, 1, 0), (1, 2, 0), (1, 2, 0)]);
                let mut lent = lend(table, &rows_of(&[(5, 6, 0), (200, 6, 7)]));
                fault(&mut lent);
                other(&mut lent);
                refused(&lent, *first, *rows);
            }
        }
    }
    // hours are a run's alone
    for (number, _, other) in &faults {
        let table = table_of(Kind::Run([[0, 100], [0, 101]]), 100, &[(0, 1, 0), (1, 2, 0), (1, 2, 0)]);
        let mut lent = lend(table, &rows_of(&[(5, 6, 0)]));
        other(&mut lent);
        refused(&lent, if [1, 2, 3, 16, 4].contains(number) { *number } else { 5 }, 0);
    }
}
