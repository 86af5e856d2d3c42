//! Held tables against their rules written down independently (rules/held.rs): sequences of calls, each compared whole,
//! and calls on numbers and lists that came from none.

use super::rules::held::{begin, Change, Held, Lent, Reported, RIGHT};
use super::rules::{misread, plan_by_trying, RULES};
use super::{numbers, random_gap, spaces, OneIn};
use hubplan::held::{self, HeldTable, Numbers, Row};
use hubplan::tables::{Sequence, Table};
use hubplan::{Refusal, MAX_ROWS, SPACE_BYTES};

/// The lists of a table that was just begun, which hold anything.
pub fn begun(held: &Held) -> Lent {
    let places = 0..MAX_ROWS as u16;
    Lent {
        numbers: Numbers {
            ticks: held.table.ticks,
            gap: held.table.gap,
            rows: 0,
            count: 0,
        },
        starts: places.clone().map(|i| 0xaa00 + i).collect(),
        ends: places.clone().map(|i| 0xbb00 + i).collect(),
        marks: places.clone().map(|i| 100 + i as u8).collect(),
        labels: places.map(|i| 200 - i as u8).collect(),
    }
}

/// What the library reports for a call, which changes what is lent.
pub fn library(lent: &mut Lent, change: Change, space: &mut [u8]) -> Reported {
    let Lent {
        numbers: n,
        starts,
        ends,
        marks,
        labels,
    } = lent;
    numbers(match change {
        Change::Add(row) => held::add(n, starts, ends, marks, labels, row, space),
        Change::Withdraw(k) => held::withdraw(n, starts, ends, marks, labels, k, space),
    })
}

/// Makes a call and compares what it gives, the numbers, every place of the lists and every byte of the working space;
/// gives the refusal's number.
fn compare(lent: &mut Lent, change: Change, space: usize, right: &(Reported, Lent)) -> u8 {
    let before = lent.clone();
    let (mut space, after) = spaces(space, right.0 .0);
    assert_eq!(library(lent, change, &mut space), right.0, "{change:?} of {before:?}");
    assert_eq!(*lent, right.1, "{change:?} of {before:?}");
    assert!(space == after, "working space, {change:?} of {before:?}");
    right.0 .0
}

/// The same call on a table that has its own lists.
fn compare_whole(table: &mut HeldTable, change: Change, space: usize, right: &(Reported, Held)) {
    let mut space = vec![0; space];
    let answer = match change {
        Change::Add(row) => table.add(row, &mut space),
        Change::Withdraw(k) => table.withdraw(k, &mut space),
    };
    let (reported, held) = right;
    assert_eq!(numbers(answer), *reported, "{change:?} of {held:?}");
    let rows = (table.starts(), table.ends(), table.marks(), table.labels());
    let (starts, ends, marks) = (&held.table.starts[..], &held.table.ends[..], &held.table.marks[..]);
    assert_eq!(rows, (starts, ends, marks, &held.labels[..]), "{change:?} of {held:?}");
}

/// What a sequence of calls draws from: R, the longest window, with how many rows all changes are withdrawals, and how
/// rare some rows are.
struct Drawn {
    ticks: u32,
    longest: u32,
    most: u32,
    one_in: OneIn,
}

/// A row, one in ten with a fault.
fn random_row(sequence: &mut Sequence, drawn: &Drawn) -> Row {
    let OneIn { must, only, all_day } = drawn.one_in;
    let start = sequence.within(0, drawn.ticks - 1);
    let length = if sequence.one_in(all_day) {
        drawn.ticks
    } else {
        sequence.within(1, drawn.longest)
    };
    let must = sequence.one_in(must) as u8;
    let only = if sequence.one_in(only) {
        sequence.within(1, 2) as u8
    } else {
        0
    };
    let mut row = Row {
        start: start as u16,
        end: ((start + length) % drawn.ticks) as u16,
        mark: 2 * only + must,
    };
    let fault = sequence.within(0, 29);
    if fault == 0 || fault == 1 {
        row.start = if sequence.one_in(2) {
            drawn.ticks as u16
        } else {
            u16::MAX
        };
    }
    if fault == 1 || fault == 2 {
        row.mark = if sequence.one_in(2) {
            6
        } else {
            sequence.within(6, 255) as u8
        };
    }
    row
}

/// A row more, or one less, the rather the more there are; now and then one that is not there.
fn random_change(sequence: &mut Sequence, drawn: &Drawn, rows: usize) -> Change {
    if sequence.within(0, drawn.most) >= rows as u32 && !sequence.one_in(8) {
        return Change::Add(random_row(sequence, drawn));
    }
    let last = (rows as u32).max(1) - 1;
    let past = if sequence.one_in(6) { 2 } else { 0 };
    Change::Withdraw(sequence.within(0, last + past) as usize)
}

/// Enough working space, or now and then too little.
fn random_space(sequence: &mut Sequence) -> usize {
    match sequence.within(0, 19) {
        0 => sequence.within(0, SPACE_BYTES as u32 - 1) as usize,
        1 => SPACE_BYTES - 1,
        more => SPACE_BYTES + more as usize % 3,
    }
}

/// The same with one list of another number of places.
fn other_places(sequence: &mut Sequence, lent: &Lent) -> Lent {
    let places = [0, 1, 63, 65, 128][sequence.within(0, 4) as usize];
    let mut other = lent.clone();
    match sequence.within(0, 3) {
        0 => other.starts.resize(places, 3),
        1 => other.ends.resize(places, 4),
        2 => other.marks.resize(places, 0),
        _ => other.labels.resize(places, 0),
    }
    other
}

/// How often each refusal was met, 0 for none, in additions and in withdrawals.
#[derive(Default)]
struct Met {
    add: [u32; 16],
    withdraw: [u32; 16],
}

impl Met {
    fn count(&mut self, change: Change, refusal: u8) {
        match change {
            Change::Add(_) => self.add[refusal as usize] += 1,
            Change::Withdraw(_) => self.withdraw[refusal as usize] += 1,
        }
    }

    /// Exactly these were met, each more often than so.
    fn check(&self, add: &[usize], withdraw: &[usize], times: u32) {
        for (met, right) in [(&self.add, add), (&self.withdraw, withdraw)] {
            let is_right = |number: usize| {
                if right.contains(&number) {
                    met[number] > times
                } else {
                    met[number] == 0
                }
            };
            assert!((0..16).all(is_right), "{met:?}");
        }
    }
}

/// What planning the whole table gives, by the library.
fn planned(table: &Table) -> (Result<usize, Refusal>, Vec<u8>) {
    let mut labels = vec![7; table.rows()];
    (
        table.plan(hubplan::plan, &mut labels, &mut vec![0; SPACE_BYTES]),
        labels,
    )
}

/// What is made of each change: it gets what was held before, the change, the bytes of working space, and what is
/// right.
type Each<'a> = &'a mut dyn FnMut(&Held, Change, usize, &(Reported, Held));

/// A table begun and changed so many times, in lent lists, in its own lists, and by the rules. A withdrawal is never
/// refused by 8, and a table of up to 6 rows is planned by trying every list of labels, too.
fn follow(sequence: &mut Sequence, drawn: &Drawn, changes: u32, met: &mut Met, each: Each) {
    let gap = random_gap(sequence, drawn.ticks);
    let (_, mut held) = begin(drawn.ticks as u16, gap);
    let (mut lent, (mut whole, _)) = (begun(&held), HeldTable::begin(drawn.ticks as u16, gap));
    for _ in 0..changes {
        let change = random_change(sequence, drawn, held.table.rows());
        let space = random_space(sequence);
        if sequence.one_in(20) {
            let mut other = other_places(sequence, &lent);
            let refused = ((1, 0), other.clone());
            met.count(change, compare(&mut other, change, space, &refused));
        }
        let right = held.changed(&RIGHT, change, space);
        assert!(
            right.0 .0 != 8 || matches!(change, Change::Add(_)),
            "{change:?} of {held:?}"
        );
        if right.0 .0 == 0 && right.1.table.rows() <= 6 {
            let tried = plan_by_trying(&RULES, &right.1.table);
            assert_eq!(tried.as_ref(), Some(&right.1.labels), "{change:?} of {held:?}");
        }
        let lists = lent.holding(&right.1);
        met.count(change, compare(&mut lent, change, space, &(right.0, lists)));
        compare_whole(&mut whole, change, space, &right);
        each(&held, change, space, &right);
        held = right.1;
        assert_eq!(
            planned(&held.table),
            (Ok(lent.numbers.count), held.labels.clone()),
            "{held:?}"
        );
    }
}

/// R of any length, and windows of which some rows fit beside each other.
fn random_drawn(sequence: &mut Sequence, most: u32) -> Drawn {
    let ticks = [2, 3, 10, 24, 100, 1_000, 43_200][sequence.within(0, 6) as usize];
    Drawn {
        ticks,
        longest: (ticks * sequence.within(1, 12) / most).clamp(1, ticks - 1),
        most,
        one_in: OneIn {
            must: [3, 8, 30][sequence.within(0, 2) as usize],
            only: [2, 4, 1_000][sequence.within(0, 2) as usize],
            all_day: [12, 40, 1_000][sequence.within(0, 2) as usize],
        },
    }
}

/// Whether another row's label is changed, and whether moving rows up changes the starts, the ends and the marks.
fn moved(held: &Held, change: Change, right: &(Reported, Held)) -> [bool; 4] {
    let (before, after) = (&held.table, &right.1.table);
    let stay = before.rows().min(after.rows());
    let mut labels = held.labels.clone();
    if let Change::Withdraw(k) = change {
        if right.0 .0 == 0 {
            labels.remove(k);
        }
    }
    [
        labels[..stay] != right.1.labels[..stay],
        before.starts[..stay] != after.starts[..stay],
        before.ends[..stay] != after.ends[..stay],
        before.marks[..stay] != after.marks[..stay],
    ]
}

#[test]
fn sequences_of_calls() {
    let mut sequence = Sequence::new(1_000);
    let mut met = Met::default();
    let (mut relabelled, mut rows_moved) = ([0; 2], [0; 3]);
    for _ in 0..150 {
        let most = sequence.within(2, 30);
        let drawn = random_drawn(&mut sequence, most);
        follow(&mut sequence, &drawn, 300, &mut met, &mut |held, change, _, right| {
            let [label, lists @ ..] = moved(held, change, right);
            relabelled[usize::from(matches!(change, Change::Withdraw(_)))] += u32::from(label);
            (0..3).for_each(|list| rows_moved[list] += u32::from(lists[list]));
        });
    }
    met.check(&[0, 1, 3, 6, 7, 8], &[0, 1, 3, 15], 200);
    println!("labels of other rows changed: {relabelled:?}; rows moved up: {rows_moved:?}");
    assert!(
        relabelled.iter().chain(&rows_moved).all(|&times| times > 1_000),
        "{relabelled:?} {rows_moved:?}"
    );
}

#[test]
fn sequences_of_calls_on_full_tables() {
    let mut sequence = Sequence::new(1_010);
    let mut met = Met::default();
    let mut full = 0;
    for turn in 0..12 {
        // in a short round many rows go over the end of the day, and the search takes its time
        let ticks = [100, 1_000, 43_200][turn % 3];
        let drawn = Drawn {
            ticks,
            longest: ticks / sequence.within(4, 40),
            ..random_drawn(&mut sequence, 300)
        };
        follow(&mut sequence, &drawn, 300, &mut met, &mut |held, change, _, right| {
            let withdraws = matches!(change, Change::Withdraw(_)) && right.0 .0 == 0;
            full += u32::from(held.table.rows() == MAX_ROWS && withdraws);
        });
    }
    met.check(&[0, 1, 2, 3, 6, 7, 8], &[0, 1, 3, 15], 5);
    assert!(full > 100, "{full} withdrawals from 64 rows");
}

/// How many changes tell the rules from each misreading of them: of tables of a few rows, and of full ones that are
/// soon planned.
#[test]
fn changes_tell_misreadings() {
    let mut sequence = Sequence::new(1_020);
    let mut told = [0; misread::HELD.len()];
    let one_in = OneIn {
        must: 20,
        only: 20,
        all_day: 1_000,
    };
    let full = Drawn {
        ticks: 43_200,
        longest: 200,
        most: 300,
        one_in,
    };
    for turn in 0..60 {
        let few = random_drawn(&mut sequence, 10);
        let drawn = if turn % 6 == 0 { &full } else { &few };
        follow(
            &mut sequence,
            drawn,
            300,
            &mut Met::default(),
            &mut |held, change, space, right| {
                for ((_, meaning), times) in misread::HELD.iter().zip(&mut told) {
                    *times += u32::from(held.changed(meaning, change, space) != *right);
                }
            },
        );
    }
    for ((name, _), times) in misread::HELD.iter().zip(told) {
        println!("{name}: another answer for {times} changes");
        assert!(times > 20, "{name}: {times}");
    }
}

/// Changes numbers or lists in one way, after which they came from no call.
fn damage(sequence: &mut Sequence, lent: &mut Lent) {
    let pick = |sequence: &mut Sequence, from: &[usize]| from[sequence.within(0, from.len() as u32 - 1) as usize];
    let at = sequence.within(0, (lent.numbers.rows as u32).clamp(1, 64) - 1) as usize;
    let ticks = lent.numbers.ticks as usize;
    match sequence.within(0, 11) {
        0 => lent.numbers.ticks = pick(sequence, &[0, 1, 2, 43_200, 43_201, 65_535]) as u16,
        1 => lent.numbers.gap = pick(sequence, &[0, 600, 601, 65_535]) as u16,
        2 => lent.numbers.rows = pick(sequence, &[63, 64, 65, 128, usize::MAX]),
        3 => lent.numbers.rows = sequence.within(0, 12) as usize,
        4 => lent.numbers.count = sequence.next() as usize,
        5 => lent.starts[at] = pick(sequence, &[0, ticks, 65_535]) as u16,
        6 => lent.ends[at] = pick(sequence, &[0, ticks, 65_535]) as u16,
        7 => lent.marks[at] = sequence.within(0, 8) as u8,
        8 | 9 => lent.marks.fill(1),
        10 => lent.labels.fill(sequence.within(0, 255) as u8),
        _ => {
            // other rows for all places
            for i in 0..MAX_ROWS {
                lent.starts[i] = sequence.within(0, lent.numbers.ticks.max(1) as u32 - 1) as u16;
                lent.ends[i] = sequence.within(0, lent.numbers.ticks.max(1) as u32 - 1) as u16;
                lent.marks[i] = sequence.within(0, 5) as u8;
            }
        }
    }
}

/// A table that came from up to 10 additions.
fn random_held(sequence: &mut Sequence, drawn: &Drawn) -> Held {
    let gap = random_gap(sequence, drawn.ticks);
    let (_, mut held) = begin(drawn.ticks as u16, gap);
    for _ in 0..sequence.within(0, 10) {
        let row = random_row(sequence, drawn);
        held = held.changed(&RIGHT, Change::Add(row), SPACE_BYTES).1;
    }
    held
}

/// Numbers and lists that came from no call, and a change.
pub fn damaged(sequence: &mut Sequence) -> (Lent, Change) {
    let drawn = random_drawn(sequence, 10);
    let held = random_held(sequence, &drawn);
    let mut lent = begun(&held).holding(&held);
    for _ in 0..sequence.within(1, 3) {
        damage(sequence, &mut lent);
    }
    if sequence.one_in(20) {
        lent = other_places(sequence, &lent);
    }
    let change = if sequence.one_in(2) {
        Change::Add(random_row(sequence, &drawn))
    } else {
        Change::Withdraw(sequence.within(0, lent.numbers.rows.min(70) as u32 + 1) as usize)
    };
    (lent, change)
}

/// Numbers and lists that came from no call: the planner's checks come after those of the call, and a refusal leaves
/// all.
#[test]
fn damaged_tables() {
    let mut sequence = Sequence::new(1_030);
    let mut met = Met::default();
    for _ in 0..20_000 {
        let (mut lent, change) = damaged(&mut sequence);
        let space = random_space(&mut sequence);
        let right = lent.changed(change, space);
        met.count(change, compare(&mut lent, change, space, &right));
    }
    met.check(&[0, 1, 2, 3, 4, 6, 7, 8, 14], &[0, 1, 2, 3, 4, 6, 7, 8, 14, 15], 50);
}

#[test]
fn begins_at_the_limits() {
    for ticks in [0, 1, 2, 100, 43_200, 43_201, 65_535] {
        for gap in [0, 1, 600, 601, 65_535] {
            let (refusal, right) = begin(ticks, gap);
            let (numbers, answer) = held::begin(ticks, gap);
            assert_eq!(
                (numbers, answer.map_or_else(Refusal::number, |()| 0)),
                (begun(&right).numbers, refusal)
            );
            let (table, same) = HeldTable::begin(ticks, gap);
            assert_eq!((table.numbers(), same), (numbers, answer));
        }
    }
}

/// Changes worked out by hand: the labels then held, or the refusal.
#[test]
fn changes_by_hand() {
    let add = |start, end, mark| Change::Add(Row { start, end, mark });
    let withdraw = Change::Withdraw;
    type Case<'a> = (Change, Result<&'a [u8], u8>);
    let cases: [Case; 18] = [
        // a table row by row
        (add(10, 30, 0), Ok(&[1])),
        (add(20, 40, 0), Ok(&[1, 2])),
        (add(25, 50, 0), Ok(&[1, 2, 0])),
        (add(90, 10, 0), Ok(&[1, 2, 0, 1])),
        // the later rows move up one place, and the row that was not heard is
        (withdraw(4), Err(15)),
        (withdraw(0), Ok(&[1, 2, 1])),
        (withdraw(3), Err(15)),
        (add(10, 30, 0), Ok(&[1, 2, 1, 0])),
        (withdraw(1), Ok(&[1, 1, 2])),
        // refused, so that nothing has changed
        (add(10, 100, 6), Err(6)),
        (add(10, 10, 6), Err(7)),
        (add(10, 10, 5), Ok(&[1, 1, 0, 2])),
        (add(25, 30, 5), Err(8)),
        (add(25, 30, 3), Ok(&[0, 1, 0, 2, 1])),
        (withdraw(3), Ok(&[2, 1, 0, 1])),
        (withdraw(1), Ok(&[2, 0, 1])),
        (withdraw(2), Ok(&[1, 2])),
        (withdraw(0), Ok(&[1])),
    ];
    let (_, mut held) = begin(100, 0);
    let mut lent = begun(&held);
    for (change, labels) in cases {
        let right = held.changed(&RIGHT, change, SPACE_BYTES);
        let found = if right.0 .0 == 0 {
            Ok(&right.1.labels[..])
        } else {
            Err(right.0 .0)
        };
        assert_eq!(found, labels, "{change:?} of {held:?}");
        let lists = lent.holding(&right.1);
        compare(&mut lent, change, SPACE_BYTES, &(right.0, lists));
        held = right.1;
    }
}

/// A table of rows, as it is held, by the rules and lent.
fn held_of(ticks: u16, rows: &[(u16, u16, u8)]) -> (Held, Lent) {
    let (_, mut held) = begin(ticks, 0);
    for &(start, end, mark) in rows {
        held = held
            .changed(&RIGHT, Change::Add(Row { start, end, mark }), SPACE_BYTES)
            .1;
    }
    assert_eq!(held.table.rows(), rows.len());
    let lent = begun(&held).holding(&held);
    (held, lent)
}

/// Makes a call in lent lists that are as they should be; gives the refusal's number.
fn agree(held: &Held, lent: &mut Lent, change: Change) -> u8 {
    let right = held.changed(&RIGHT, change, SPACE_BYTES);
    let lists = lent.holding(&right.1);
    compare(lent, change, SPACE_BYTES, &(right.0, lists))
}

/// Starts, ends and marks on both sides of their limits.
#[test]
fn rows_at_the_limits() {
    for ticks in [2, 10, 43_200] {
        let (held, lent) = held_of(ticks, &[]);
        let near = [0, 1, ticks - 2, ticks - 1, ticks, ticks + 1, u16::MAX];
        for (start, end) in near.iter().flat_map(|&start| near.map(|end| (start, end))) {
            for mark in [0, 1, 2, 3, 4, 5, 6, 7, 254, 255] {
                let number = if start >= ticks || end >= ticks {
                    6
                } else if mark > 5 {
                    7
                } else {
                    0
                };
                let change = Change::Add(Row { start, end, mark });
                assert_eq!(agree(&held, &mut lent.clone(), change), number, "{change:?} in {ticks}");
            }
        }
    }
}

/// Each row of tables of up to 64 rows withdrawn, and those after the last; and a row more for each.
#[test]
fn every_row_of_every_count() {
    let rows: Vec<(u16, u16, u8)> = (0..65).map(|i| (i, i + 1, [0, 1, 2, 3][i as usize % 4])).collect();
    for count in 0..=MAX_ROWS {
        let (held, lent) = held_of(100, &rows[..count]);
        for k in 0..count + 2 {
            let number = if k < count { 0 } else { 15 };
            assert_eq!(
                agree(&held, &mut lent.clone(), Change::Withdraw(k)),
                number,
                "row {k} of {count}"
            );
        }
        let (start, end, mark) = rows[count];
        let number = if count < MAX_ROWS { 0 } else { 2 };
        assert_eq!(
            agree(&held, &mut lent.clone(), Change::Add(Row { start, end, mark })),
            number,
            "{count}"
        );
    }
}

/// Each of the four lists with each number of places up to 66.
#[test]
fn lists_of_other_places() {
    let (held, right) = held_of(10, &[(4, 5, 1), (4, 5, 1), (8, 9, 0)]);
    for places in 0..=66 {
        for list in 0..4 {
            let mut lent = right.clone();
            match list {
                0 => lent.starts.resize(places, 3),
                1 => lent.ends.resize(places, 4),
                2 => lent.marks.resize(places, 0),
                _ => lent.labels.resize(places, 0),
            }
            for change in [
                Change::Add(Row {
                    start: 0,
                    end: 1,
                    mark: 0,
                }),
                Change::Withdraw(0),
                Change::Withdraw(3),
            ] {
                if places == MAX_ROWS {
                    agree(&held, &mut lent.clone(), change);
                } else {
                    let refused = ((1, 0), lent.clone());
                    compare(&mut lent, change, SPACE_BYTES, &refused);
                }
            }
        }
    }
}

/// A call with faults: what is lent, the row that is added, the number of the row that is withdrawn, the working space.
#[derive(Clone)]
struct Faulty {
    lent: Lent,
    row: Row,
    k: usize,
    space: usize,
}

type Fault = (u8, fn(&mut Faulty));

/// Each two of these faults, in the order in which they are looked at, and each alone: the first is reported.
fn first_of_two(right: &Faulty, faults: &[Fault], change: fn(&Faulty) -> Change) {
    for (i, (first, fault)) in faults.iter().enumerate() {
        for (_, other) in &faults[i..] {
            let mut call = right.clone();
            fault(&mut call);
            other(&mut call);
            let change = change(&call);
            let refused = ((*first, 0), call.lent.clone());
            assert_eq!(
                call.lent.changed(change, call.space),
                refused,
                "{change:?} of {:?}",
                call.lent
            );
            compare(&mut call.lent, change, call.space, &refused);
        }
    }
}

/// Faults of a call, and of what it finds: no call leaves such R, such a gap, or such rows 0 and 1. These rows and the
/// added one have the same window, so that where all must be heard there is no plan.
#[test]
fn two_faults_at_once() {
    let (_, lent) = held_of(10, &[(4, 5, 1), (4, 5, 1), (6, 7, 0), (8, 9, 0), (9, 0, 0)]);
    let (row, space) = (
        Row {
            start: 4,
            end: 5,
            mark: 0,
        },
        SPACE_BYTES,
    );
    let right = Faulty { lent, row, k: 2, space };
    let planned: [Fault; 6] = [
        (4, |call| call.lent.numbers.ticks = 43_201),
        (14, |call| call.lent.numbers.gap = 601),
        (6, |call| call.lent.starts[0] = 65_535),
        (7, |call| call.lent.marks[0] = 6),
        (6, |call| call.lent.ends[1] = 65_535),
        (7, |call| call.lent.marks[1] = 255),
    ];
    let mut add: Vec<Fault> = vec![
        (1, |call| call.lent.labels.push(0)),
        (2, |call| call.lent.numbers.rows = 64),
        (3, |call| call.space = SPACE_BYTES - 1),
    ];
    add.extend(planned);
    add.extend::<[Fault; 3]>([
        (6, |call| call.row.end = 65_535),
        (7, |call| call.row.mark = 6),
        (8, |call| call.row.mark |= 1),
    ]);
    first_of_two(&right, &add, |call| Change::Add(call.row));
    let mut withdraw: Vec<Fault> = vec![
        (1, |call| call.lent.labels.push(0)),
        (3, |call| call.space = SPACE_BYTES - 1),
        (15, |call| call.k = 1_000),
        (2, |call| call.lent.numbers.rows = 65),
    ];
    withdraw.extend(planned);
    withdraw.extend::<[Fault; 1]>([(8, |call| {
        (call.lent.starts[3], call.lent.ends[3], call.lent.marks[3]) = (4, 5, 1);
    })]);
    first_of_two(&right, &withdraw, |call| Change::Withdraw(call.k));
}
