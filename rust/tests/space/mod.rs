//! Working space against its rules written down independently (tests/rules/space.rs): every function that is lent some,
//! with lengths on both sides of the limit and far beyond it, whatever it holds, each call compared whole.

use super::fleet::random_tape;
use super::rules::candidates::with;
use super::rules::held::{Change, Held};
use super::rules::space::{Answers, Call, Given, RIGHT};
use super::rules::{fleet_tape, misread};
use super::{candidates, damage, held, lent_labels, lent_space, numbers, random_setting, table_of};
use hubplan::held::Row;
use hubplan::tables::{benchmark_tables, Planner, Sequence, Table};
use hubplan::{port, Kind, MAX_ROWS, REPLY_BYTES, SPACE_BYTES};

/// Shorter than the limit, from it on, and far beyond it.
const LENGTHS: [usize; 9] = [0, 1, 4_607, 4_608, 4_609, 5_000, 16_383, 16_384, 20_000];

const FUNCTIONS: [&str; 7] = [
    "a round planned",
    "a run planned",
    "a row added",
    "a row withdrawn",
    "candidates of a round",
    "candidates of a run",
    "a reply",
];

/// The place of a call's function in `FUNCTIONS`.
fn function(call: &Call) -> usize {
    let run = |table: &Table| usize::from(table.kind != Kind::Round);
    match call {
        Call::Plan { table, .. } => run(table),
        Call::Change { change, .. } => 2 + usize::from(matches!(change, Change::Withdraw(_))),
        Call::Try(lent) => 4 + run(&lent.table),
        Call::Reply { .. } => 6,
    }
}

/// How often each function was accepted, refused 8 and refused otherwise.
#[derive(Default)]
struct Met([[u32; 3]; FUNCTIONS.len()]);

impl Met {
    fn count(&mut self, call: &Call, refusal: u8) {
        let kind = match refusal {
            0 => 0,
            8 => 1,
            _ => 2,
        };
        self.0[function(call)][kind] += 1;
    }

    /// Each at least so often.
    fn check(&self, times: [u32; 3]) {
        for (name, met) in FUNCTIONS.iter().zip(self.0) {
            println!("{name}: accepted, 8 and other refusals: {met:?}");
            assert!((0..3).all(|kind| met[kind] >= times[kind]), "{name}: {met:?}");
        }
    }
}

/// What the library gives for a call in this working space; a table is planned by this planner.
fn library(call: &Call, planner: Planner, space: &mut [u8]) -> Given {
    match call {
        Call::Plan { table, labels } => {
            let mut labels = labels.clone();
            let reported = numbers(table.plan(planner, &mut labels, space));
            Given::Plan { reported, labels }
        }
        Call::Change { lent, change } => {
            let mut lent = lent.clone();
            let reported = held::library(&mut lent, *change, space);
            Given::Change { reported, lent }
        }
        Call::Try(lent) => Given::Try(candidates::library(lent, space)),
        Call::Reply { tape, out } => {
            let mut out = out.clone();
            let length = hubplan::reply(tape, &mut out, space).len();
            Given::Reply { length, out }
        }
    }
}

/// Makes a call in this working space and compares all that it gives, and every byte of the working space; where a
/// table is planned, by the hand port too.
fn compare(call: &Call, answers: &Answers, before: &[u8]) {
    let right = answers.given(&RIGHT, before);
    let planners: &[Planner] = match call {
        Call::Plan { .. } => &[hubplan::plan, port::plan],
        _ => &[hubplan::plan],
    };
    for &planner in planners {
        let mut space = before.to_vec();
        let given = library(call, planner, &mut space);
        assert_eq!(given, *right.0, "{} bytes, {call:?}", before.len());
        assert!(space == right.1, "working space of {} bytes, {call:?}", before.len());
    }
}

/// So many bytes: all 0, all 255, each other than the next, and any.
fn fills(sequence: &mut Sequence, length: usize) -> [Vec<u8>; 4] {
    let any = (0..length).map(|_| sequence.next() as u8).collect();
    [vec![0; length], vec![255; length], lent_space(length), any]
}

/// Makes a call with each of these lengths and each fill; gives its refusal where the working space is not too short.
fn agree(sequence: &mut Sequence, call: &Call, lengths: &[usize]) -> u8 {
    let answers = call.answers();
    for &length in lengths {
        for before in fills(sequence, length) {
            compare(call, &answers, &before);
        }
    }
    answers.refusal()
}

fn plan_call(table: Table, labels: usize) -> Call {
    let labels = lent_labels(labels);
    Call::Plan { table, labels }
}

fn reply_call(tape: Vec<u8>) -> Call {
    let out = (0..REPLY_BYTES + 2).map(|i| i as u8 | 0x80).collect();
    Call::Reply { tape, out }
}

/// A change of a round in the lists of a held table, which has no row that is heard.
fn change_call(table: Table, change: Change) -> Call {
    let labels = vec![0; table.rows()];
    let held = Held { table, labels };
    let lent = held::begun(&held).holding(&held);
    Call::Change { lent, change }
}

/// The calls that plan the same table, of some rows: by itself, from its fleet tape, which has no gap, and before a
/// candidate; a round also as held, by adding its last row, and by withdrawing a row after it, or after its first 63.
fn calls_of(table: &Table) -> Vec<Call> {
    let (rows, other) = (
        table.rows(),
        Row {
            start: 0,
            end: 1,
            mark: 0,
        },
    );
    let kept = rows.min(MAX_ROWS - 1);
    let mut calls = vec![
        plan_call(table.clone(), rows),
        reply_call(fleet_tape(table)),
        Call::Try(candidates::lend(table.clone(), &[other])),
    ];
    if table.kind == Kind::Round {
        let last = Row {
            start: table.starts[rows - 1],
            end: table.ends[rows - 1],
            mark: table.marks[rows - 1],
        };
        calls.push(change_call(table.clone().first(rows - 1), Change::Add(last)));
        calls.push(change_call(
            with(&table.clone().first(kept), other),
            Change::Withdraw(kept),
        ));
    }
    calls
}

/// A call of any function on a few rows, most of them with faults.
fn random_call(sequence: &mut Sequence) -> Call {
    match sequence.within(0, 3) {
        0 => {
            let mut labels = sequence.within(0, 12) as usize;
            let mut table = random_setting(sequence, labels);
            if sequence.one_in(2) {
                damage(sequence, &mut table, &mut labels, &mut 0);
            }
            plan_call(table, labels)
        }
        1 => {
            let (lent, change) = held::damaged(sequence);
            Call::Change { lent, change }
        }
        2 => Call::Try(candidates::damaged(sequence)),
        _ => reply_call(random_tape(sequence)),
    }
}

/// A call worked out by hand, in bytes none of which is 0: the refusal, and how many of the first bytes are cleared.
fn by_hand(call: &Call, length: usize, refusal: u8, cleared: usize) {
    let (number, given) = call.answer(length);
    assert_eq!(number, refusal, "{length} bytes, {call:?}");
    let (mut space, mut after) = (lent_space(length), lent_space(length));
    assert_eq!(
        library(call, hubplan::plan, &mut space),
        given,
        "{length} bytes, {call:?}"
    );
    after[..cleared].fill(0);
    assert!(space == after, "working space of {length} bytes, {call:?}");
}

/// Three rows of which two are heard, of which all must be heard and cannot be, and of which one ends beyond R.
#[test]
fn lengths_by_hand() {
    assert_eq!(SPACE_BYTES, 4_608);
    for kind in [Kind::Round, Kind::Run([[0, 100]; 2])] {
        for (mark, end, refusal, cleared) in [(0, 50, 0, 4_608), (1, 50, 8, 4_608), (0, 101, 6, 0)] {
            let table = table_of(kind, 100, &[(10, 30, mark), (20, 40, mark), (25, end, mark)]);
            for call in calls_of(&table) {
                for length in [0, 1, 4_606, 4_607] {
                    by_hand(&call, length, 3, 0);
                }
                for length in [4_608, 4_609, 5_000, 16_383, 16_384, 16_385, 20_000] {
                    by_hand(&call, length, refusal, cleared);
                }
            }
        }
    }
}

/// What is looked at before 3 is refused with any length.
#[test]
fn refusals_before_3_by_hand() {
    let rows = |rows: usize| table_of(Kind::Round, 100, &vec![(0, 1, 0); rows]);
    let row = Row {
        start: 0,
        end: 1,
        mark: 0,
    };
    let calls = [
        (plan_call(rows(2), 1), 1),
        (plan_call(rows(65), 65), 2),
        (change_call(rows(64), Change::Add(row)), 2),
        (Call::Try(candidates::lend(rows(65), &[row])), 2),
        (reply_call(fleet_tape(&rows(65))), 2),
        (reply_call(fleet_tape(&rows(80))), 11),
    ];
    for (call, refusal) in calls {
        for length in LENGTHS {
            by_hand(&call, length, refusal, 0);
        }
    }
}

#[test]
fn random_calls() {
    let mut sequence = Sequence::new(1_300);
    let mut met = Met::default();
    for _ in 0..10_000 {
        let call = random_call(&mut sequence);
        met.count(&call, agree(&mut sequence, &call, &LENGTHS));
    }
    met.check([200, 30, 200]);
}

/// Tables of 63 and 64 rows, of which some have no plan; with fewer lengths, as they take their time.
#[test]
fn full_tables() {
    let mut sequence = Sequence::new(1_310);
    let mut met = Met::default();
    let mut tables: Vec<Table> = benchmark_tables().into_iter().map(|(_, table)| table).collect();
    tables.extend((0..40).map(|turn| random_setting(&mut sequence, MAX_ROWS - turn % 2)));
    for table in tables {
        for call in calls_of(&table) {
            met.count(&call, agree(&mut sequence, &call, &[4_607, 4_608, 20_000]));
        }
    }
    met.check([10, 10, 0]);
}

/// How many calls of each function tell the right meaning from each that misreads it.
#[test]
fn calls_tell_misreadings() {
    let mut sequence = Sequence::new(1_320);
    let mut told = [[0; FUNCTIONS.len()]; misread::SPACE.len()];
    for _ in 0..2_000 {
        let call = random_call(&mut sequence);
        let answers = call.answers();
        for length in LENGTHS {
            let before = lent_space(length);
            let right = answers.given(&RIGHT, &before);
            for ((_, meaning), times) in misread::SPACE.iter().zip(&mut told) {
                times[function(&call)] += u32::from(answers.given(meaning, &before) != right);
            }
            compare(&call, &answers, &before);
        }
    }
    for ((name, _), times) in misread::SPACE.iter().zip(told) {
        println!("{name}: another answer for {times:?} calls of {FUNCTIONS:?}");
        assert!(times.iter().all(|&times| times > 20), "{name}: {times:?}");
    }
}
