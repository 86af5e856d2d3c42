//! Calls with the proved library's answers, as records for other processors (tests/processors/calls.c). All numbers are little-endian:
//!
//! - a record: the length of the rest (4 bytes), the number of the function (1), the length of a name (1) and the name, what the call is
//!   given, how many numbers the answer has (1) and these (8 each), the lists after the call;
//! - what it is given: fifteen numbers (8 each) and thirteen lists;
//! - a list: its length (4), how many of its places are written out (4), the value of all others (8), and those places.

use crate::drawn::{drawn, fleet_tape, whole};
use crate::functions::{Function, FUNCTIONS};
use crate::given::{by_proved, front_and_rest, with_list, Given, List, LISTS};
use hubplan::tables::{benchmark_mixtures, benchmark_tables, in_turn, mixture, Sequence, Table};
use hubplan::{Kind, Player, PLAN_TAPE_BYTES, REPLY_BYTES, SPACE_BYTES};
use std::collections::BTreeMap;
use std::io;
use std::path::Path;

/// The number, after those of the functions, of a record with many steps of a player: `rows` of them from the tick `tick` on. Its answer is
/// a sum of what they tell, and the last player.
const STEPS: u8 = FUNCTIONS.len() as u8;

/// Adds a number to a sum that tells sequences apart (FNV-1a, in words).
fn add_to_sum(sum: u64, number: u64) -> u64 {
    (sum ^ number).wrapping_mul(0x0000_0100_0000_01B3)
}
const EMPTY_SUM: u64 = 0xCBF2_9CE4_8422_2325;

/// A list as it is written, of `places` as numbers that take `width` bytes.
fn put_list(bytes: &mut Vec<u8>, width: usize, places: &[u64]) {
    let (listed, fill) = front_and_rest(places);
    bytes.extend((places.len() as u32).to_le_bytes());
    bytes.extend((listed.len() as u32).to_le_bytes());
    bytes.extend(fill.to_le_bytes());
    for place in listed {
        bytes.extend(&place.to_le_bytes()[..width]);
    }
}

fn put_lists(bytes: &mut Vec<u8>, given: &mut Given) {
    for &list in LISTS {
        let width = match list {
            List::Starts | List::Ends | List::CandidateStarts | List::CandidateEnds => 2,
            List::Words => 8,
            _ => 1,
        };
        put_list(bytes, width, &given.places(list));
    }
}

fn put_given(bytes: &mut Vec<u8>, given: &mut Given) {
    let [p1, q1, p2, q2] = given.hours.map(u64::from);
    let numbers = [
        given.ticks.into(),
        given.gap.into(),
        p1,
        q1,
        p2,
        q2,
        given.rows as u64,
        given.count as u64,
        given.row as u64,
        given.start.into(),
        given.end.into(),
        given.mark.into(),
        given.tick.into(),
        given.heard,
        given.receiver,
    ];
    bytes.extend(numbers.iter().flat_map(|number: &u64| number.to_le_bytes()));
    put_lists(bytes, given);
}

/// A file of records, and how many there are of each function and refusal.
#[derive(Default)]
struct Records {
    bytes: Vec<u8>,
    calls: usize,
}

impl Records {
    fn put(&mut self, number: u8, name: &str, before: &mut Given, answer: &[u64], after: &mut Given) {
        let mut bytes = vec![number, name.len() as u8];
        bytes.extend(name.as_bytes());
        put_given(&mut bytes, before);
        bytes.push(answer.len() as u8);
        bytes.extend(answer.iter().flat_map(|number| number.to_le_bytes()));
        put_lists(&mut bytes, after);
        self.bytes.extend((bytes.len() as u32).to_le_bytes());
        self.bytes.extend(bytes);
        self.calls += 1;
    }

    /// Makes the call and writes it with its answer. Lists that the function does not take are left out. Gives the refusal, and what the call left.
    fn call(&mut self, function: Function, name: &str, mut before: Given) -> (u64, Given) {
        for &list in LISTS {
            if !function.takes().contains(&list) {
                with_list!(before, list, places => places.clear());
            }
        }
        let mut after = before.clone();
        let answer = by_proved(function, &mut after);
        self.put(function as u8, name, &mut before, &answer, &mut after);
        (function.refusal(&answer, &after.out), after)
    }

    /// Steps of a player, as one record with a name.
    fn steps(&mut self, name: &str, tape: &[u8], first: u16, steps: usize) {
        let mut player = hubplan::start(tape, first).expect("a tape that a player takes");
        let mut sum = EMPTY_SUM;
        for _ in 0..steps {
            let mut given = Given {
                tape: tape.to_vec(),
                tick: player.tick,
                ..Given::default()
            };
            let told = by_proved(Function::PlayerStep, &mut given);
            sum = told.iter().fold(sum, |sum, number| add_to_sum(sum, *number));
            player = Player { tick: told[7] as u16 };
        }
        let mut given = Given {
            tape: tape.to_vec(),
            tick: first,
            rows: steps,
            ..Given::default()
        };
        self.put(STEPS, name, &mut given.clone(), &[sum, player.tick.into()], &mut given);
    }

    fn save(self, folder: &Path, name: &str, what: &str) -> io::Result<()> {
        println!("{name}: {} calls: {what}", self.calls);
        std::fs::write(folder.join(name), self.bytes)
    }
}

/// A call's lists and numbers for a table, with room for labels, a tape and a reply.
fn given_of(table: &Table) -> Given {
    let hours = match table.kind {
        Kind::Round => [0; 4],
        Kind::Run([[p1, q1], [p2, q2]]) => [p1, q1, p2, q2],
    };
    Given {
        ticks: table.ticks,
        gap: table.gap,
        hours,
        starts: table.starts.clone(),
        ends: table.ends.clone(),
        marks: table.marks.clone(),
        labels: vec![9; table.rows()],
        out: vec![9; REPLY_BYTES],
        space: vec![9; SPACE_BYTES],
        words: vec![9; table.rows()],
        ..Given::default()
    }
}

/// The functions that plan and write a table.
fn functions_of(kind: Kind) -> (Function, Function) {
    match kind {
        Kind::Round => (Function::PlanRound, Function::WritePlanRound),
        Kind::Run(_) => (Function::PlanRun, Function::WritePlanRun),
    }
}

/// The session: the table planned, its plan written, the tape played, and the reply to its fleet tape.
fn session(records: &mut Records) {
    let table = Table {
        starts: vec![10, 20, 25, 90],
        ends: vec![30, 40, 50, 10],
        marks: vec![0; 4],
        ..Table::empty(Kind::Round, 100)
    };
    let (_, planned) = records.call(Function::PlanRound, "", given_of(&table));
    let mut tape = vec![0; PLAN_TAPE_BYTES];
    let length = table.write_plan(&planned.labels, &mut tape).expect("a plan");
    records.call(
        Function::WritePlanRound,
        "",
        Given {
            out: tape.clone(),
            ..Given {
                labels: planned.labels,
                ..given_of(&table)
            }
        },
    );
    records.steps("", &tape[..length], 8, 300);
    let tape = fleet_tape(&given_of(&table), false);
    records.call(
        Function::Reply,
        "",
        Given {
            tape,
            ..given_of(&table)
        },
    );
}

/// Calls of each function until it has given each of its refusals three times. Gives how many that are.
fn refusals(records: &mut Records, sequence: &mut Sequence) -> usize {
    let before = records.calls;
    for &function in FUNCTIONS {
        let mut left: BTreeMap<u64, usize> = function.gives().iter().map(|refusal| (*refusal, 3)).collect();
        while left.values().any(|times| *times > 0) {
            let given = drawn(sequence, function);
            let mut tried = given.clone();
            let answer = by_proved(function, &mut tried);
            let times = left
                .get_mut(&function.refusal(&answer, &tried.out))
                .expect("a refusal that the function has");
            if *times > 0 {
                *times -= 1;
                records.call(function, "", given);
            }
        }
    }
    records.calls - before
}

/// So many random calls of each function, whole and damaged. Gives how many that are.
fn random_calls(records: &mut Records, sequence: &mut Sequence, calls: usize) -> usize {
    for &function in FUNCTIONS {
        for _ in 0..calls {
            records.call(function, "", drawn(sequence, function));
        }
    }
    FUNCTIONS.len() * calls
}

/// Calls of each function with many rows, some of them with 64 candidates. Gives how many that are.
fn large(records: &mut Records, sequence: &mut Sequence) -> usize {
    let before = records.calls;
    for &function in FUNCTIONS {
        for _ in 0..10 {
            let mut given = whole(sequence, function);
            while if function.has_places() {
                given.rows
            } else {
                given.starts.len()
            } < 48
            {
                given = whole(sequence, function);
            }
            records.call(function, "", given);
        }
    }
    records.calls - before
}

/// Random tables of up to 64 rows, each planned, its plan written, its words and its clash words made. Gives how many have a plan.
fn random_tables(records: &mut Records, sequence: &mut Sequence, tables: usize) -> usize {
    let mut with_plan = 0;
    for _ in 0..tables {
        let rows = sequence.within(0, 64) as usize;
        let table = mixture(sequence, rows);
        let (plan, write) = functions_of(table.kind);
        let (refusal, planned) = records.call(plan, "", given_of(&table));
        if refusal == 0 {
            with_plan += 1;
            records.call(
                write,
                "",
                Given {
                    labels: planned.labels.clone(),
                    ..given_of(&table)
                },
            );
            records.call(Function::WordsOfLabels, "", planned);
        }
        records.call(Function::ClashWordsRound, "", given_of(&table));
    }
    with_plan
}

/// A whole day of a player: 43,200 steps on a tape of 64 LISTENs.
fn day(records: &mut Records) {
    let (table, labels) = in_turn(1);
    let mut tape = vec![0; PLAN_TAPE_BYTES];
    let length = table.write_plan(&labels, &mut tape).expect("a plan");
    records.steps(
        "a day of a player, 43,200 steps",
        &tape[..length],
        0,
        table.ticks.into(),
    );
}

/// Calls whose lists have 65,536 places and more: each list of a call alone, of just so many places and of so many more than it has, which
/// is as long as it was for who counts in 16 bits; and all lists together.
fn long_lists(sequence: &mut Sequence) -> Records {
    let mut records = Records::default();
    for &function in FUNCTIONS {
        for list in function.takes() {
            let mut given = whole(sequence, function);
            with_list!(given, *list, places => { let length = places.len(); places.resize(length + (1 << 16), 0) });
            records.call(function, "", given.clone());
            with_list!(given, *list, places => places.resize(1 << 16, 0));
            records.call(function, "", given);
        }
        for more in [1 << 16, 1 << 17] {
            let mut given = whole(sequence, function);
            for list in function.takes() {
                with_list!(given, *list, places => { let length = places.len(); places.resize(length + more, 0) });
            }
            records.call(function, "", given);
        }
    }
    records
}

/// Writes the files of records.
pub fn write_all(folder: &Path) -> io::Result<()> {
    let mut sequence = Sequence::new(21);
    let mut calls = Records::default();
    session(&mut calls);
    let refused = refusals(&mut calls, &mut sequence);
    let random = random_calls(&mut calls, &mut sequence, 100);
    let large = large(&mut calls, &mut sequence);
    let with_plan = random_tables(&mut calls, &mut sequence, 300);
    day(&mut calls);
    let what = format!(
        "the session, {refused} for each refusal of each function, {random} random ones, {large} of 48 rows and more, 300 random tables of which {with_plan} have a plan, and a day of a player"
    );
    calls.save(folder, "calls", &what)?;

    let mut tables = Records::default();
    for (name, table) in benchmark_tables() {
        tables.call(functions_of(table.kind).0, name, given_of(&table));
    }
    tables.save(folder, "tables", "the tables of the benchmark, planned")?;

    let mut mixtures = Records::default();
    for table in benchmark_mixtures() {
        mixtures.call(functions_of(table.kind).0, "", given_of(&table));
    }
    mixtures.save(folder, "mixtures", "the mixtures of the benchmark, planned")?;
    long_lists(&mut sequence).save(folder, "lists", "lists of 65,536 places and more")
}
