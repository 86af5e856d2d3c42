//! The library against the rules (docs/RULES.md) written down independently (tests/rules), on fixed pseudo-random
//! inputs, valid and damaged, and on examples worked out by hand.

mod candidates;
mod fleet;
mod held;
mod player;
mod rules;
mod space;
mod words;

use hubplan::distance::Remainder;
use hubplan::tables::{
    benchmark_tables, deep, half_heard_must, long_arcs, mixed_marks, mixture, random_hours, Planner, Sequence, Table,
};
use hubplan::{
    first_free, label_by_label, mark, port, Kind, Player, Refusal, FLEET_TAPE_BYTES, MAX_GAP, MAX_ROWS,
    PLAN_TAPE_BYTES, SPACE_BYTES,
};

fn numbers(answer: Result<usize, Refusal>) -> (u8, usize) {
    match answer {
        Ok(count) => (0, count),
        Err(refusal) => (refusal.number(), 0),
    }
}

/// What labels hold before a call.
fn lent_labels(labels: usize) -> Vec<u8> {
    (0..labels).map(|i| 0xa0 + i as u8 % 7).collect()
}

/// Working space before a call: no byte is 0 or equal to the next.
fn lent_space(space: usize) -> Vec<u8> {
    (0..space).map(|i| 1 + (i % 251) as u8).collect()
}

/// So much working space before a call with this refusal, and after it.
fn spaces(space: usize, refusal: u8) -> (Vec<u8>, Vec<u8>) {
    let before = lent_space(space);
    let after = rules::space::RIGHT.after(refusal, &before);
    (before, after)
}

/// Plans and compares answer, labels and the whole working space with what the rules ask; gives the refusal's number.
fn compare_plan(planner: Planner, table: &Table, labels: usize, space: usize, right: &(u8, usize, Vec<u8>)) -> u8 {
    let mut labels = lent_labels(labels);
    let (mut space, after) = spaces(space, right.0);
    let answer = table.plan(planner, &mut labels, &mut space);
    assert_eq!(numbers(answer), (right.0, right.1), "{table:?}");
    assert_eq!(labels, right.2, "{table:?}");
    assert!(space == after, "working space, {table:?}");
    right.0
}

/// The same for the library and the hand ports.
fn compare_plans(table: &Table, space: usize, right: &(u8, usize, Vec<u8>)) -> u8 {
    for planner in [
        hubplan::plan,
        port::plan,
        port::plan_by::<Remainder>,
        label_by_label::plan,
    ] {
        compare_plan(planner, table, table.rows(), space, right);
    }
    right.0
}

/// Writes a tape into the buffer and compares answer and buffer with what the rules ask; gives the refusal's number.
fn compare_written(rules: &rules::Rules, table: &Table, labels: &[u8], mut buffer: Vec<u8>) -> u8 {
    let right = rules::written(rules, table, labels, &buffer);
    let answer = table.write_plan(labels, &mut buffer);
    assert_eq!(
        (numbers(answer), buffer),
        ((right.0, right.1), right.2),
        "{table:?} {labels:?}"
    );
    right.0
}

fn right_plan(table: &Table, labels: usize, space: usize) -> (u8, usize, Vec<u8>) {
    rules::planned(&rules::RULES, table, &lent_labels(labels), space)
}

/// Of how many rows of a random table one is marked must, one is for one receiver only, and one sends all day, in a
/// round.
#[derive(Clone, Copy)]
struct OneIn {
    must: u32,
    only: u32,
    all_day: u32,
}

/// No gap, a short one, or one from 0 to beyond R.
fn random_gap(sequence: &mut Sequence, ticks: u32) -> u16 {
    let most = [0, 0, 3, ticks / 8 + 1, ticks + 3][sequence.within(0, 4) as usize];
    sequence.within(0, most.min(MAX_GAP as u32)) as u16
}

/// A table that passes its checks, of so many rows, with windows up to `longest` ticks and those that send all day, and
/// with no gap.
fn random_table(sequence: &mut Sequence, rows: usize, ticks: u32, longest: u32, one_in: OneIn) -> Table {
    let kind = if sequence.one_in(2) {
        Kind::Round
    } else {
        Kind::Run(random_hours(sequence, ticks))
    };
    let mut table = Table::empty(kind, ticks as u16);
    for i in 0..rows {
        if i > 0 && sequence.one_in(8) {
            // an equal window once more
            let j = sequence.within(0, i as u32 - 1) as usize;
            table.starts.push(table.starts[j]);
            table.ends.push(table.ends[j]);
        } else if kind == Kind::Round {
            let start = sequence.within(0, ticks - 1);
            let length = if sequence.one_in(one_in.all_day) {
                ticks
            } else {
                sequence.within(1, longest.min(ticks - 1))
            };
            table.starts.push(start as u16);
            table.ends.push(((start + length) % ticks) as u16);
        } else {
            let length = sequence.within(1, longest.min(ticks));
            let start = sequence.within(0, ticks - length);
            table.starts.push(start as u16);
            table.ends.push((start + length) as u16);
        }
        let must = sequence.one_in(one_in.must) as u8;
        let only = if sequence.one_in(one_in.only) {
            sequence.within(1, 2) as u8
        } else {
            0
        };
        table.marks.push(2 * only + must);
    }
    table
}

fn random_setting(sequence: &mut Sequence, rows: usize) -> Table {
    let ticks = [2, 3, 10, 24, 60, 100, 1_000, 43_200][sequence.within(0, 7) as usize];
    let longest = (ticks * sequence.within(1, 12) / rows.max(1) as u32).clamp(1, ticks);
    // musts for one receiver only soon leave no plan, and so do musts beside rows that send all day: each is rare in
    // many tables
    let one_in = OneIn {
        must: [3, 8, 20, 1_000][sequence.within(0, 3) as usize],
        only: [1, 2, 4, 1_000][sequence.within(0, 3) as usize],
        all_day: [2, 12, 1_000, 1_000][sequence.within(0, 3) as usize],
    };
    let gap = random_gap(sequence, ticks);
    random_table(sequence, rows, ticks, longest, one_in).with_gap(gap)
}

/// Whether row i of a table that passes its checks sends all day.
fn is_all_day(table: &Table, i: usize) -> bool {
    table.starts[i] == table.ends[i]
}

/// Gives row i of a round a window of so many ticks from its start on, fewer than all.
fn set_length(table: &mut Table, i: usize, length: u16) {
    table.ends[i] = ((table.starts[i] as u32 + length as u32) % table.ticks as u32) as u16;
}

/// Whether it decides what is right that row i sends all day: with its first tick alone, and with one tick less than
/// all, the answer or the labels are others.
fn all_day_decides(table: &Table, i: usize, right: &(u8, usize, Vec<u8>)) -> [bool; 2] {
    [1, table.ticks - 1].map(|length| {
        let mut other = table.clone();
        set_length(&mut other, i, length);
        right_plan(&other, table.rows(), SPACE_BYTES) != *right
    })
}

/// Marks as they are for either receiver: 2 and 4 become 0, 3 and 5 become 1.
fn for_either(mark: u8) -> u8 {
    [0, 1, 0, 1, 0, 1][mark as usize]
}

/// Whether the mark of row i decides what is right: the same mark for either receiver gives another answer or other
/// labels.
fn decides(table: &Table, i: usize, right: &(u8, usize, Vec<u8>)) -> bool {
    let mut other = table.clone();
    other.marks[i] = for_either(table.marks[i]);
    other != *table && right_plan(&other, table.rows(), SPACE_BYTES) != *right
}

/// Whether the gap decides what is right: with no gap the answer or the labels are others.
fn gap_decides(table: &Table, right: &(u8, usize, Vec<u8>)) -> bool {
    right_plan(&table.clone().with_gap(0), table.rows(), SPACE_BYTES) != *right
}

/// Counts the cases that were met.
fn count(times: &mut [u32; 2], met: [bool; 2]) {
    times[0] += u32::from(met[0]);
    times[1] += u32::from(met[1]);
}

/// Counts a case that was met, in rounds and in runs.
fn count_kind(times: &mut [u32; 2], table: &Table, met: bool) {
    let round = table.kind == Kind::Round;
    count(times, [met && round, met && !round]);
}

/// Windows and marks as a table.
fn table_of(kind: Kind, ticks: u16, rows: &[(u16, u16, u8)]) -> Table {
    let mut table = Table::empty(kind, ticks);
    for &(start, end, mark) in rows {
        table.starts.push(start);
        table.ends.push(end);
        table.marks.push(mark);
    }
    table
}

#[test]
fn up_to_8_rows_against_all_labels() {
    let mut sequence = Sequence::new(100);
    let (mut none, mut runs) = (0, 0);
    let (mut deciding, mut all_day, mut all_day_deciding) = ([0; 6], 0, [0; 2]);
    for turn in 0..12_000 {
        let rows = if turn % 8 == 0 {
            8
        } else {
            sequence.within(0, 7) as usize
        };
        let table = random_setting(&mut sequence, rows);
        let right = right_plan(&table, rows, SPACE_BYTES + 9);
        let tried = rules::plan_by_trying(&rules::RULES, &table);
        assert_eq!(tried, (right.0 == 0).then(|| right.2.clone()), "{table:?}");
        none += u32::from(compare_plans(&table, SPACE_BYTES + 9, &right) == 8);
        runs += u32::from(table.kind != Kind::Round);
        for i in 0..rows {
            deciding[table.marks[i] as usize] += u32::from(decides(&table, i, &right));
        }
        for i in (0..rows).filter(|&i| is_all_day(&table, i)) {
            all_day += 1;
            count(&mut all_day_deciding, all_day_decides(&table, i, &right));
        }
    }
    assert!(
        none > 900 && none < 11_100 && runs > 4_000 && runs < 8_000,
        "{none} without a plan, {runs} runs"
    );
    assert!(
        all_day_deciding[0] > 1_000 && all_day_deciding[1] > 150,
        "{all_day} rows that send all day, of which decide: {all_day_deciding:?}"
    );
    assert!(
        deciding[2..].iter().all(|&times| times > 300),
        "marks that decide: {deciding:?}"
    );
}

/// Rounds and runs of up to 30 ticks with each gap up to beyond R, against all labels; and how many of them tell the
/// right rules from those without a gap and those that misread it.
#[test]
fn gaps_from_0_to_beyond_the_round() {
    let mut sequence = Sequence::new(150);
    let one_in = OneIn {
        must: 20,
        only: 4,
        all_day: 40,
    };
    let others = [
        &[("no gap", [true, true], rules::plain::NO_GAP)],
        &rules::misread::ALL[..],
    ]
    .concat();
    let mut told = vec![[0; 2]; others.len()];
    for _ in 0..600 {
        let (rows, ticks) = (sequence.within(1, 6) as usize, sequence.within(2, 30));
        let longest = sequence.within(1, ticks / 3 + 1);
        let table = random_table(&mut sequence, rows, ticks, longest, one_in);
        for gap in 0..=table.ticks + 2 {
            let table = table.clone().with_gap(gap);
            let right = right_plan(&table, rows, SPACE_BYTES);
            let labels = (right.0 == 0).then(|| right.2.clone());
            assert_eq!(rules::plan_by_trying(&rules::RULES, &table), labels, "{table:?}");
            compare_plan(hubplan::plan, &table, rows, SPACE_BYTES, &right);
            compare_plan(port::plan, &table, rows, SPACE_BYTES, &right);
            for ((_, _, rules), times) in others.iter().zip(&mut told) {
                count_kind(times, &table, rules::plan_by_trying(rules, &table) != labels);
            }
        }
    }
    for ((name, kinds, _), times) in others.iter().zip(told) {
        println!("{name}: another answer for {} rounds and {} runs", times[0], times[1]);
        for (differs, times) in kinds.iter().zip(times) {
            assert!(if *differs { times > 150 } else { times == 0 }, "{name}: {times}");
        }
    }
}

#[test]
fn larger_tables_against_the_search() {
    let mut sequence = Sequence::new(200);
    let mut none = 0;
    let (mut deciding, mut all_day, mut all_day_deciding, mut gaps_deciding) = ([0; 6], 0, [0; 2], [0; 2]);
    for turn in 0..3_000 {
        let rows = if turn % 4 == 0 {
            64
        } else {
            sequence.within(9, 64) as usize
        };
        let table = random_setting(&mut sequence, rows);
        let right = right_plan(&table, rows, SPACE_BYTES);
        if right.0 == 0 {
            assert!(rules::is_plan(&rules::RULES, &table, &right.2));
        }
        count_kind(&mut gaps_deciding, &table, gap_decides(&table, &right));
        none += u32::from(compare_plans(&table, SPACE_BYTES, &right) == 8);
        // the first row of each mark, as a search of so many rows takes its time
        for mark in 2..=5 {
            if let Some(i) = table.marks.iter().position(|&other| other == mark) {
                deciding[mark as usize] += u32::from(decides(&table, i, &right));
            }
        }
        if let Some(i) = (0..rows).find(|&i| is_all_day(&table, i)) {
            all_day += 1;
            count(&mut all_day_deciding, all_day_decides(&table, i, &right));
        }
    }
    assert!(none > 300 && none < 2_700, "{none} without a plan");
    assert!(
        all_day_deciding[0] > 200 && all_day_deciding[1] > 15,
        "{all_day} tables with rows that send all day, of which the first decides: {all_day_deciding:?}"
    );
    assert!(
        deciding[2..].iter().all(|&times| times > 100),
        "marks that decide: {deciding:?}"
    );
    println!("rounds and runs of 9 to 64 rows that the gap decides: {gaps_deciding:?}");
    assert!(gaps_deciding.iter().all(|&times| times > 200), "{gaps_deciding:?}");
}

#[test]
fn benchmark_tables_against_the_search() {
    let mut tables = benchmark_tables();
    tables.extend((0..4).map(|seed| ("long arcs", long_arcs(300 + seed))));
    for (name, table) in tables {
        let right = right_plan(&table, 64, SPACE_BYTES);
        let refusal = if name == "all must, no plan" { 8 } else { 0 };
        assert_eq!(compare_plans(&table, SPACE_BYTES, &right), refusal, "{name}");
    }
}

/// That half of the rows heard must be heard leaves the plan.
#[test]
fn half_of_the_heard_must() {
    for seed in 0..20 {
        let table = deep(64, 2, 9, 800 + seed);
        let right = right_plan(&table, 64, SPACE_BYTES);
        let must = half_heard_must(table.clone());
        assert_eq!(
            must.marks.iter().filter(|&&mark| mark == mark::MUST).count(),
            right.1.div_ceil(2)
        );
        assert_eq!(right_plan(&must, 64, SPACE_BYTES), right, "{must:?}");
        assert_eq!(compare_plans(&must, SPACE_BYTES, &right), 0);
        let mixed = mixed_marks(table);
        assert_eq!(
            compare_plans(&mixed, SPACE_BYTES, &right_plan(&mixed, 64, SPACE_BYTES)),
            0
        );
    }
}

/// Compares a mixture and counts runs, gaps, tables without a plan, and marks.
fn compare_mixture(table: &Table, right: &(u8, usize, Vec<u8>), met: &mut [u32; 9]) {
    let none = compare_plans(table, SPACE_BYTES, right) == 8;
    for (i, is_met) in [table.kind != Kind::Round, table.gap > 0, none].into_iter().enumerate() {
        met[i] += u32::from(is_met);
    }
    table.marks.iter().for_each(|&mark| met[3 + mark as usize] += 1);
}

#[test]
fn mixtures_of_up_to_7_rows_against_all_labels() {
    let mut sequence = Sequence::new(820);
    let mut met = [0; 9];
    for _ in 0..12_000 {
        let rows = sequence.within(1, 7) as usize;
        let table = mixture(&mut sequence, rows);
        let right = match rules::plan_by_trying(&rules::RULES, &table) {
            Some(labels) => (0, rules::heard(&labels), labels),
            None => (8, 0, lent_labels(rows)),
        };
        compare_mixture(&table, &right, &mut met);
    }
    assert!(met[..2].iter().all(|&times| times > 2_000), "{met:?}");
    assert!(met[2] > 30 && met[3..].iter().all(|&times| times > 60), "{met:?}");
}

#[test]
fn mixtures_of_up_to_64_rows_against_the_search() {
    let mut sequence = Sequence::new(830);
    let mut met = [0; 9];
    for turn in 0..800 {
        let rows = if turn % 4 == 0 {
            64
        } else {
            sequence.within(8, 64) as usize
        };
        let table = mixture(&mut sequence, rows);
        compare_mixture(&table, &right_plan(&table, rows, SPACE_BYTES), &mut met);
    }
    assert!(met.iter().all(|&times| times > 40), "{met:?}");
}

/// Placing each row on the first receiver that is free can hear too few rows or find no plan; what it gives is a plan.
#[test]
fn first_free_gives_plans() {
    let mut sequence = Sequence::new(350);
    let (mut fewer, mut missed) = (0, 0);
    for _ in 0..3_000 {
        let rows = sequence.within(0, 20) as usize;
        let table = random_setting(&mut sequence, rows);
        let right = right_plan(&table, rows, SPACE_BYTES);
        let mut labels = vec![7; rows];
        match first_free::plan(
            table.kind,
            table.ticks,
            table.gap,
            &table.starts,
            &table.ends,
            &table.marks,
            &mut labels,
        ) {
            Ok(count) => {
                assert!(rules::is_plan(&rules::RULES, &table, &labels), "{table:?} {labels:?}");
                assert!(
                    count == rules::heard(&labels) && count <= right.1,
                    "{table:?} {labels:?}"
                );
                fewer += u32::from(count < right.1);
            }
            Err(refusal) => {
                assert_eq!(refusal, Refusal::NoPlan);
                missed += u32::from(right.0 == 0);
            }
        }
    }
    assert!(
        fewer > 200 && missed > 200,
        "{fewer} heard fewer, {missed} plans missed"
    );
}

/// Damages a table in one to three places, so that every refusal before 8 comes first now and then.
fn damage(sequence: &mut Sequence, table: &mut Table, labels: &mut usize, space: &mut usize) {
    for _ in 0..sequence.within(1, 3) {
        let row = |sequence: &mut Sequence, table: &Table| sequence.within(0, table.rows().max(1) as u32 - 1) as usize;
        match sequence.within(0, 15) {
            0 => *labels = labels.saturating_sub(1),
            1 => table.ends.push(1),
            2 => table.marks.push(0),
            3 => drop(table.starts.pop()),
            4 | 5 => {
                let rows = 65 + sequence.within(0, 5) as usize;
                table.starts.resize(rows, 0);
                table.ends.resize(rows, 1);
                table.marks.resize(rows, 0);
                *labels = rows;
            }
            6 => *space = sequence.within(0, SPACE_BYTES as u32 - 1) as usize,
            7 => table.ticks = [0, 1, 43_201, 65_535][sequence.within(0, 3) as usize],
            8 => {
                if let Kind::Run(hours) = &mut table.kind {
                    let receiver = sequence.within(0, 1) as usize;
                    hours[receiver] = if sequence.one_in(2) {
                        [1, 0]
                    } else {
                        [0, table.ticks.wrapping_add(1)]
                    };
                }
            }
            9 | 10 if table.rows() > 0 && table.rows() == table.ends.len() => {
                let i = row(sequence, table);
                let (start, end) = (table.starts[i], table.ends[i]);
                // in a round start and end may be equal or exchanged, in a run the end may be R; all else is a fault
                (table.starts[i], table.ends[i]) = match sequence.within(0, 5) {
                    0 => (start, start),
                    1 => (table.ticks, end),
                    2 => (start, table.ticks),
                    3 => (table.ticks, table.ticks),
                    4 => (65_535, 65_535),
                    _ => (end, start),
                };
            }
            11 | 12 if !table.marks.is_empty() => {
                let i = sequence.within(0, table.marks.len() as u32 - 1) as usize;
                table.marks[i] = if sequence.one_in(2) {
                    6
                } else {
                    sequence.within(6, 255) as u8
                };
            }
            13 | 14 => {
                table.gap = if sequence.one_in(2) {
                    601
                } else {
                    sequence.within(601, 65_535) as u16
                }
            }
            _ => {}
        }
    }
}

#[test]
fn damaged_tables_are_refused_by_number() {
    let mut sequence = Sequence::new(400);
    let mut seen = [0; 15];
    for _ in 0..30_000 {
        let rows = sequence.within(0, 20) as usize;
        let mut table = random_setting(&mut sequence, rows);
        let (mut labels, mut space) = (rows, SPACE_BYTES + sequence.within(0, 3) as usize);
        damage(&mut sequence, &mut table, &mut labels, &mut space);
        let right = right_plan(&table, labels, space);
        seen[compare_plan(hubplan::plan, &table, labels, space, &right) as usize] += 1;
        compare_plan(port::plan, &table, labels, space, &right);
    }
    assert!(seen[..9].iter().all(|&times| times > 200) && seen[14] > 200, "{seen:?}");
}

#[test]
fn edges_by_hand() {
    let plan = |table: &Table, labels: usize, space: usize| {
        let right = right_plan(table, labels, space);
        compare_plan(hubplan::plan, table, labels, space, &right)
    };
    let of = |kind: Kind, ticks: u16, rows: &[(u16, u16)]| {
        let rows: Vec<(u16, u16, u8)> = rows.iter().map(|&(start, end)| (start, end, 0)).collect();
        table_of(kind, ticks, &rows)
    };
    let open = |ticks: u16| Kind::Run([[0, ticks]; 2]);
    for (ticks, refusal) in [(0, 4), (1, 4), (2, 0), (43_200, 0), (43_201, 4)] {
        assert_eq!(plan(&of(Kind::Round, ticks, &[]), 0, SPACE_BYTES), refusal);
        assert_eq!(plan(&of(open(ticks), ticks, &[]), 0, SPACE_BYTES), refusal);
    }
    assert_eq!(plan(&of(Kind::Round, 100, &[(0, 1); 64]), 64, SPACE_BYTES), 0);
    assert_eq!(plan(&of(Kind::Round, 100, &[(0, 1); 65]), 65, SPACE_BYTES), 2);
    assert_eq!(plan(&of(Kind::Round, 100, &[]), 0, 4_607), 3);
    assert_eq!(plan(&of(Kind::Round, 100, &[]), 0, 4_608), 0);
    assert_eq!(plan(&of(Kind::Round, 100, &[(5, 100)]), 1, SPACE_BYTES), 6);
    assert_eq!(plan(&of(open(100), 100, &[(5, 100)]), 1, SPACE_BYTES), 0);

    // the session: three rows that overlap, and one over the end of the day
    let table = of(Kind::Round, 100, &[(10, 30), (20, 40), (25, 50), (90, 10)]);
    assert_eq!(right_plan(&table, 4, SPACE_BYTES), (0, 3, vec![1, 2, 0, 1]));
    assert_eq!(plan(&table, 4, SPACE_BYTES), 0);
    let mut tape = [0xee; 26];
    assert_eq!(table.write_plan(&[1, 2, 0, 1], &mut tape), Ok(26));
    let right = [
        0x10, 0x00, 0x64, 0x20, 0x01, 0x30, 0x00, 0x00, 0x0a, 0x00, 0x1e, 0x30, 0x03, 0x00, 0x5a, 0x00, 0x0a, 0x20,
        0x02, 0x30, 0x01, 0x00, 0x14, 0x00, 0x28, 0x7f,
    ];
    assert_eq!(tape, right);
    assert_eq!(table.write_plan(&[1, 2, 0, 1], &mut tape[..25]), Err(Refusal::Buffer));
    assert_eq!(table.write_plan(&[1, 2, 3, 1], &mut tape), Err(Refusal::NotPlan));
}

#[test]
fn marks_by_hand() {
    assert_eq!(
        [
            mark::MAY,
            mark::MUST,
            mark::MAY_1,
            mark::MUST_1,
            mark::MAY_2,
            mark::MUST_2
        ],
        [0, 1, 2, 3, 4, 5]
    );
    // windows, marks, and the labels worked out by hand; none for refusal 8
    type Case<'a> = (Kind, &'a [(u16, u16)], &'a [u8], Option<&'a [u8]>);
    let (round, first_shut) = (Kind::Round, Kind::Run([[0, 0], [0, 10]]));
    let cases: [Case; 14] = [
        (round, &[(0, 2), (4, 6), (1, 5)], &[1, 1, 1], Some(&[1, 1, 2])),
        (round, &[(0, 2), (4, 6), (1, 5)], &[3, 5, 1], None),
        (round, &[(0, 2), (4, 6), (1, 5)], &[3, 5, 0], Some(&[1, 2, 0])),
        (round, &[(0, 2), (4, 6), (1, 5)], &[5, 5, 1], Some(&[2, 2, 1])),
        (round, &[(0, 2), (1, 4), (3, 6)], &[0, 0, 5], Some(&[2, 1, 2])),
        (round, &[(1, 2)], &[2], Some(&[1])),
        (round, &[(1, 2)], &[4], Some(&[2])),
        (round, &[(0, 2), (0, 2)], &[4, 0], Some(&[2, 1])),
        (round, &[(0, 2), (0, 2)], &[2, 2], Some(&[1, 0])),
        (round, &[(0, 2), (0, 2)], &[4, 5], Some(&[0, 2])),
        (round, &[(8, 2), (1, 9)], &[3, 3], None),
        (first_shut, &[(1, 2)], &[2], Some(&[0])),
        (first_shut, &[(1, 2)], &[3], None),
        (first_shut, &[(1, 2)], &[5], Some(&[2])),
    ];
    for (kind, windows, marks, labels) in cases {
        let rows: Vec<(u16, u16, u8)> = windows
            .iter()
            .zip(marks)
            .map(|(&(start, end), &mark)| (start, end, mark))
            .collect();
        let table = table_of(kind, 10, &rows);
        let right = right_plan(&table, rows.len(), SPACE_BYTES);
        assert_eq!((right.0 == 0).then_some(&right.2[..]), labels, "{table:?}");
        compare_plan(hubplan::plan, &table, rows.len(), SPACE_BYTES, &right);
        compare_plan(port::plan, &table, rows.len(), SPACE_BYTES, &right);
    }
}

/// The labels of a table worked out by hand, or the refusal: planned and written. After a refusal labels, working space
/// (8 aside) and tape are as they were.
fn by_hand(table: &Table, labels: Result<&[u8], u8>) {
    let rows = table.rows();
    let right = right_plan(table, rows, SPACE_BYTES);
    assert_eq!(
        if right.0 == 0 { Ok(&right.2[..]) } else { Err(right.0) },
        labels,
        "{table:?}"
    );
    compare_plan(hubplan::plan, table, rows, SPACE_BYTES, &right);
    compare_plan(port::plan, table, rows, SPACE_BYTES, &right);
    // where there is no plan labels 1 for all are none
    let offered = labels.map_or(vec![1; rows], <[u8]>::to_vec);
    let refusal = compare_written(&rules::RULES, table, &offered, vec![0x55; PLAN_TAPE_BYTES]);
    assert_eq!(refusal, if right.0 == 8 { 9 } else { right.0 }, "{table:?}");
}

/// So many rows that are clear of each other, which can all have label 1, and after them equal windows, two or three of
/// each, which cannot: a planner that settles many rows at once must take back what it cannot have.
#[test]
fn rows_that_are_clear_before_rows_that_are_not() {
    for clear in 0..=MAX_ROWS {
        for equal in [2, 3] {
            let mut rows: Vec<(u16, u16, u8)> = (0..clear as u16).map(|i| (4 * i, 4 * i + 2, 0)).collect();
            let mut labels = vec![1; clear];
            for i in 0..MAX_ROWS - clear {
                let start = 4 * (clear + i / equal) as u16;
                rows.push((start, start + 2, 0));
                labels.push([1, 2, 0][i % equal]);
            }
            by_hand(&table_of(Kind::Round, 300, &rows), Ok(&labels));
            by_hand(&table_of(Kind::Run([[0, 300]; 2]), 300, &rows), Ok(&labels));
        }
    }
}

/// Rows in a round or run of so many ticks, and the labels or the refusal.
#[test]
fn all_day_by_hand() {
    type Case<'a> = (Kind, u16, &'a [(u16, u16, u8)], Result<&'a [u8], u8>);
    let (round, run) = (Kind::Round, Kind::Run([[0, 10]; 2]));
    let cases: [Case; 24] = [
        // three of them alone: one for each receiver
        (round, 10, &[(3, 3, 0), (7, 7, 0), (0, 0, 0)], Ok(&[1, 2, 0])),
        (round, 10, &[(3, 3, 0), (3, 3, 0), (3, 3, 0)], Ok(&[1, 2, 0])),
        (
            round,
            43_200,
            &[(0, 0, 0), (43_199, 43_199, 0), (1, 1, 0)],
            Ok(&[1, 2, 0]),
        ),
        // each overlaps every other window
        (round, 10, &[(3, 3, 1), (0, 2, 0), (5, 8, 0)], Ok(&[1, 2, 2])),
        (
            round,
            10,
            &[(3, 3, 0), (0, 4, 0), (2, 6, 0), (5, 9, 0)],
            Ok(&[1, 2, 0, 2]),
        ),
        (
            round,
            10,
            &[(0, 4, 1), (3, 3, 0), (2, 6, 1), (5, 9, 0)],
            Ok(&[1, 0, 2, 1]),
        ),
        (round, 10, &[(3, 3, 1), (8, 8, 1), (5, 6, 0)], Ok(&[1, 2, 0])),
        (round, 10, &[(3, 3, 1), (8, 8, 1), (5, 6, 1)], Err(8)),
        (round, 10, &[(3, 3, 1), (8, 8, 1), (4, 4, 1)], Err(8)),
        (round, 10, &[(3, 3, 5), (0, 2, 0), (5, 8, 3)], Ok(&[2, 1, 1])),
        (round, 10, &[(3, 3, 3), (5, 6, 3)], Err(8)),
        (round, 2, &[(0, 0, 0), (1, 1, 0), (0, 1, 0)], Ok(&[1, 2, 0])),
        (round, 2, &[(1, 1, 0), (0, 1, 0), (1, 0, 0)], Ok(&[1, 2, 2])),
        (round, 2, &[(0, 0, 1), (1, 1, 1), (1, 0, 1)], Err(8)),
        // start and end are below R, and a run refuses such a row
        (round, 10, &[(9, 9, 0)], Ok(&[1])),
        (round, 10, &[(10, 10, 0)], Err(6)),
        (round, 43_200, &[(43_200, 43_200, 0)], Err(6)),
        (round, 2, &[(0, 0, 0), (2, 2, 0)], Err(6)),
        (run, 10, &[(0, 0, 0)], Err(6)),
        (run, 10, &[(1, 2, 0), (9, 9, 0)], Err(6)),
        (run, 10, &[(10, 10, 0)], Err(6)),
        // beside a row with a mark that is refused, and with one that is not
        (round, 10, &[(1, 2, 9), (3, 3, 0)], Err(7)),
        (round, 10, &[(1, 2, 5), (3, 3, 0)], Ok(&[2, 1])),
        (round, 10, &[(3, 3, 6)], Err(7)),
    ];
    for (kind, ticks, rows, labels) in cases {
        by_hand(&table_of(kind, ticks, rows), labels);
    }
}

#[test]
fn refusal_7_begins_at_mark_6() {
    for mark in 0..=255 {
        // the second row ends at R
        let table = table_of(Kind::Round, 10, &[(1, 2, mark), (3, 10, 0)]);
        let right = right_plan(&table, 2, SPACE_BYTES);
        assert_eq!(right.0, if mark < 6 { 6 } else { 7 });
        compare_plan(hubplan::plan, &table, 2, SPACE_BYTES, &right);
        compare_plan(port::plan, &table, 2, SPACE_BYTES, &right);
        assert_eq!(numbers(table.write_plan(&[1, 2], &mut [])), (right.0, 0));
    }
}

/// Rows in a round or run of so many ticks with a gap, and the labels or the refusal.
#[test]
fn gaps_by_hand() {
    type Case<'a> = (Kind, u16, u16, &'a [(u16, u16, u8)], Result<&'a [u8], u8>);
    let (round, run) = (Kind::Round, Kind::Run([[0, 10]; 2]));
    let session: &[(u16, u16, u8)] = &[(10, 30, 0), (20, 40, 0), (25, 50, 0), (90, 10, 0)];
    let cases: [Case; 48] = [
        // windows that touch have no tick between them
        (round, 10, 0, &[(8, 2, 0), (2, 8, 0)], Ok(&[1, 1])),
        (round, 10, 1, &[(8, 2, 0), (2, 8, 0)], Ok(&[1, 2])),
        (round, 10, 1, &[(8, 2, 3), (2, 8, 3)], Err(8)),
        (run, 10, 0, &[(5, 10, 0), (0, 5, 0)], Ok(&[1, 1])),
        (run, 10, 1, &[(5, 10, 0), (0, 5, 0)], Ok(&[1, 2])),
        (run, 10, 1, &[(5, 10, 5), (0, 5, 5)], Err(8)),
        (round, 2, 0, &[(0, 1, 0), (1, 0, 0)], Ok(&[1, 1])),
        (round, 2, 1, &[(0, 1, 0), (1, 0, 0)], Ok(&[1, 2])),
        // the gap holds on both sides: from 3 to 5 there are 2 ticks, from 9 on to 0 one and from 8 on to 0 two
        (round, 10, 1, &[(0, 3, 0), (5, 9, 0)], Ok(&[1, 1])),
        (round, 10, 2, &[(0, 3, 0), (5, 9, 0)], Ok(&[1, 2])),
        (round, 10, 2, &[(0, 3, 3), (5, 9, 3)], Err(8)),
        (round, 10, 2, &[(5, 9, 3), (0, 3, 3)], Err(8)),
        (round, 10, 2, &[(0, 3, 0), (5, 8, 0)], Ok(&[1, 1])),
        (round, 10, 3, &[(0, 3, 0), (5, 8, 0)], Ok(&[1, 2])),
        (round, 10, 2, &[(0, 4, 3), (5, 8, 3)], Err(8)),
        (round, 10, 2, &[(8, 1, 0), (3, 6, 0)], Ok(&[1, 1])),
        (round, 10, 2, &[(8, 1, 3), (3, 7, 3)], Err(8)),
        (round, 10, 2, &[(8, 2, 3), (3, 6, 3)], Err(8)),
        // in a run there is one side: from the last window nothing goes on to the first
        (run, 10, 2, &[(0, 3, 0), (5, 9, 0)], Ok(&[1, 1])),
        (run, 10, 3, &[(0, 3, 0), (5, 9, 0)], Ok(&[1, 2])),
        (run, 10, 6, &[(8, 10, 3), (0, 2, 3)], Ok(&[1, 1])),
        (run, 10, 7, &[(8, 10, 3), (0, 2, 3)], Err(8)),
        (round, 10, 1, &[(8, 0, 3), (0, 2, 3)], Err(8)),
        // g of R or more
        (round, 10, 9, &[(0, 1, 0), (5, 6, 0)], Ok(&[1, 2])),
        (round, 10, 10, &[(0, 1, 0), (5, 6, 0)], Ok(&[1, 2])),
        (round, 10, 600, &[(0, 1, 0), (5, 6, 0), (7, 8, 0)], Ok(&[1, 2, 0])),
        (round, 10, 10, &[(0, 1, 1), (5, 6, 1), (7, 8, 1)], Err(8)),
        (run, 10, 10, &[(0, 1, 0), (5, 6, 0)], Ok(&[1, 2])),
        (run, 10, 8, &[(0, 1, 0), (9, 10, 0)], Ok(&[1, 1])),
        (run, 10, 600, &[(0, 1, 0), (9, 10, 0), (4, 5, 0)], Ok(&[1, 2, 0])),
        // a window is not too close to itself, where the rest of the round is shorter than g; equal windows in two rows
        // are two windows
        (round, 10, 3, &[(3, 1, 1)], Ok(&[1])),
        (round, 10, 600, &[(3, 1, 1), (3, 1, 1)], Ok(&[1, 2])),
        (round, 10, 1, &[(4, 5, 0), (4, 5, 0), (4, 5, 0)], Ok(&[1, 2, 0])),
        (round, 10, 600, &[(3, 3, 5)], Ok(&[2])),
        (round, 10, 600, &[(3, 3, 0), (7, 7, 0), (0, 0, 0)], Ok(&[1, 2, 0])),
        (run, 10, 600, &[(0, 10, 3)], Ok(&[1])),
        // nothing is owed to the hours, nor between the receivers
        (Kind::Run([[2, 8], [0, 10]]), 10, 600, &[(2, 8, 3)], Ok(&[1])),
        (run, 10, 600, &[(0, 5, 3), (5, 10, 5)], Ok(&[1, 2])),
        (round, 10, 600, &[(0, 5, 3), (5, 0, 5)], Ok(&[1, 2])),
        // the session: row 3 has no tick before row 0, 10 before row 1 and 15 before row 2
        (round, 100, 0, session, Ok(&[1, 2, 0, 1])),
        (round, 100, 10, session, Ok(&[1, 2, 0, 2])),
        (round, 100, 15, session, Ok(&[1, 0, 2, 2])),
        (round, 100, 16, session, Ok(&[1, 2, 0, 0])),
        // the longest gap, on either side
        (round, 43_200, 600, &[(0, 21_000, 0), (21_600, 42_600, 0)], Ok(&[1, 1])),
        (round, 43_200, 600, &[(0, 21_001, 0), (21_600, 42_600, 0)], Ok(&[1, 2])),
        (round, 43_200, 600, &[(0, 21_000, 0), (21_600, 42_601, 0)], Ok(&[1, 2])),
        (
            Kind::Run([[0, 43_200]; 2]),
            43_200,
            600,
            &[(0, 1, 0), (601, 43_200, 0)],
            Ok(&[1, 1]),
        ),
        (
            Kind::Run([[0, 43_200]; 2]),
            43_200,
            600,
            &[(0, 1, 0), (600, 43_200, 0)],
            Ok(&[1, 2]),
        ),
    ];
    for (kind, ticks, gap, rows, labels) in cases {
        by_hand(&table_of(kind, ticks, rows).with_gap(gap), labels);
    }
}

/// Wrong in R, hours, gap, window and mark: mended one by one, planner and writer refuse by 4, 5 (in a run), 14, 6 and
/// 7.
#[test]
fn refusal_14_comes_after_5_and_before_the_rows() {
    for gap in [0, 600, 601, 65_535] {
        for kind in [Kind::Round, Kind::Run([[1, 0], [0, 10]])] {
            let mut table = table_of(kind, 1, &[(3, 11, 6)]).with_gap(gap);
            by_hand(&table, Err(4));
            table.ticks = 10;
            if kind != Kind::Round {
                by_hand(&table, Err(5));
                table.kind = Kind::Run([[0, 10]; 2]);
            }
            if gap > 600 {
                by_hand(&table, Err(14));
                let right = right_plan(&table, 1, SPACE_BYTES - 1);
                assert_eq!(compare_plan(hubplan::plan, &table, 1, SPACE_BYTES - 1, &right), 3);
                table.gap = 600;
            }
            by_hand(&table, Err(6));
            table.ends[0] = 9;
            by_hand(&table, Err(7));
            table.marks[0] = 5;
            by_hand(&table, Ok(&[2]));
        }
    }
}

/// Rules for plain tables (tests/rules/plain.rs), which know no gap: whether they know rows that send all day, and the
/// highest mark that they know.
struct Plain {
    rules: rules::Rules,
    all_day: bool,
    highest_mark: u8,
}

/// What the plain rules refuse of a table that passes its checks: the first row that sends all day (6) or has a mark
/// that they do not know (7); 0 where they know all rows.
fn unknown(plain: &Plain, table: &Table) -> u8 {
    let of_row = |i: usize| {
        if is_all_day(table, i) && !plain.all_day {
            6
        } else if table.marks[i] > plain.highest_mark {
            7
        } else {
            0
        }
    };
    (0..table.rows()).map(of_row).find(|&refusal| refusal > 0).unwrap_or(0)
}

/// A table that the plain rules know: it has no gap; where they do not know them, rows that send all day have a tick
/// less and marks become those for either receiver.
fn as_known(plain: &Plain, table: &Table) -> Table {
    let mut known = table.clone().with_gap(0);
    for i in 0..table.rows() {
        if is_all_day(table, i) && !plain.all_day {
            set_length(&mut known, i, table.ticks - 1);
        }
        if table.marks[i] > plain.highest_mark {
            known.marks[i] = for_either(table.marks[i]);
        }
    }
    known
}

/// Plans a table that the plain rules know, and writes tapes: all as by those rules. Gives the refusals of plan and
/// tape.
fn compare_with_plain(sequence: &mut Sequence, plain: &Plain, table: &Table) -> (u8, u8) {
    let rows = table.rows();
    let plan = rules::planned(&plain.rules, table, &lent_labels(rows), SPACE_BYTES);
    compare_plan(hubplan::plan, table, rows, SPACE_BYTES, &plan);
    compare_plan(port::plan, table, rows, SPACE_BYTES, &plan);
    assert_eq!(right_plan(table, rows, SPACE_BYTES), plan, "{table:?}");
    // the two searches have much in common; all labels are tried by the plain rules alone
    if rows <= 7 {
        assert_eq!(
            rules::plan_by_trying(&plain.rules, table),
            (plan.0 == 0).then(|| plan.2.clone()),
            "{table:?}"
        );
    }
    // and so is what is a plan at all, and its tape
    let labels: Vec<u8> = plan
        .2
        .iter()
        .map(|&label| {
            if sequence.one_in(9) {
                sequence.within(0, 3) as u8
            } else {
                label
            }
        })
        .collect();
    (
        plan.0,
        compare_written(&plain.rules, table, &labels, vec![0x55; PLAN_TAPE_BYTES]),
    )
}

/// Random tables, as drawn and with all rows such as the plain rules know: they refuse the first row that they do not
/// know, and a table that they know has the same plan by both rules.
fn planned_as_plain(plain: &Plain, seed: u64) -> [[u32; 13]; 3] {
    let mut sequence = Sequence::new(seed);
    let [mut refused, mut planned, mut written] = [[0; 13]; 3];
    for turn in 0..2_000 {
        let rows = if turn % 8 == 0 {
            64
        } else {
            sequence.within(0, 20) as usize
        };
        let table = random_setting(&mut sequence, rows);
        let refusal = unknown(plain, &table);
        if refusal > 0 {
            let labels = vec![9; rows];
            let by_plain = rules::planned(&plain.rules, &table, &labels, SPACE_BYTES);
            assert_eq!(by_plain, (refusal, 0, labels), "{table:?}");
        }
        let (plan, tape) = compare_with_plain(&mut sequence, plain, &as_known(plain, &table));
        refused[refusal as usize] += 1;
        planned[plan as usize] += 1;
        written[tape as usize] += 1;
    }
    [refused, planned, written]
}

/// Tables with marks 0 and 1 alone, no row that sends all day and no gap.
#[test]
fn marks_0_and_1_as_by_the_plain_rules() {
    let plain = Plain {
        rules: rules::plain::TWO_MARKS,
        all_day: false,
        highest_mark: 1,
    };
    let met = planned_as_plain(&plain, 450);
    let [refused, planned, written] = met;
    assert!(refused[0] > 200 && refused[6] > 200 && refused[7] > 700, "{met:?}");
    assert!(
        planned[0] > 1_000 && planned[8] > 200 && written[0] > 300 && written[9] > 300,
        "{met:?}"
    );
}

/// Tables with marks 0 to 5, no row that sends all day and no gap.
#[test]
fn no_row_all_day_as_by_the_plain_rules() {
    let plain = Plain {
        rules: rules::plain::PART_DAY,
        all_day: false,
        highest_mark: 5,
    };
    let met = planned_as_plain(&plain, 470);
    let [refused, planned, written] = met;
    assert!(refused[0] > 1_000 && refused[6] > 300, "{met:?}");
    assert!(
        planned[0] > 1_000 && planned[8] > 200 && written[0] > 300 && written[9] > 300,
        "{met:?}"
    );
}

/// Tables with marks 0 to 5, rows that send all day and no gap: two windows clash where they overlap.
#[test]
fn a_gap_of_0_as_by_the_plain_rules() {
    let plain = Plain {
        rules: rules::plain::NO_GAP,
        all_day: true,
        highest_mark: 5,
    };
    let met = planned_as_plain(&plain, 480);
    let [_, planned, written] = met;
    assert!(
        planned[0] > 1_000 && planned[8] > 200 && written[0] > 300 && written[9] > 300,
        "{met:?}"
    );
}

/// The labels of a best plan under marks 0 and 1, with each of the marks 2 to 5 put to a row: the writer takes them
/// exactly if that row is not on the receiver that the mark excludes, and not left out where it must be heard.
#[test]
fn labels_on_the_wrong_receiver_are_no_plan() {
    let mut sequence = Sequence::new(460);
    let mut seen = [[0; 3]; 6];
    for _ in 0..1_500 {
        let rows = sequence.within(1, 16) as usize;
        let mut table = random_setting(&mut sequence, rows);
        table.marks = table.marks.into_iter().map(for_either).collect();
        let (0, _, labels) = right_plan(&table, rows, SPACE_BYTES) else {
            continue;
        };
        let tape = rules::plan_tape(&table, &labels);
        let i = sequence.within(0, rows as u32 - 1) as usize;
        for (mark, wrong_receiver, must) in [(2, 2, false), (3, 2, true), (4, 1, false), (5, 1, true)] {
            table.marks[i] = mark;
            let before = vec![0x55; tape.len()];
            let mut buffer = before.clone();
            let answer = table.write_plan(&labels, &mut buffer);
            let right = if labels[i] == wrong_receiver || (must && labels[i] == 0) {
                (Err(Refusal::NotPlan), &before)
            } else {
                (Ok(tape.len()), &tape)
            };
            assert_eq!((answer, &buffer), right, "{table:?} {labels:?}");
            seen[mark as usize][labels[i] as usize] += 1;
        }
    }
    assert!(
        seen[2..].iter().flatten().all(|&times| times > 150),
        "by mark and label: {seen:?}"
    );
}

/// The best plan where there is no gap, offered with the gap: labels that break the gap are no plan. A tape that is
/// written with a gap or without one is taken by the player, since a tape has no gap on it.
#[test]
fn labels_that_break_the_gap_are_no_plan() {
    let mut sequence = Sequence::new(490);
    let mut seen = [0; 10];
    for _ in 0..3_000 {
        let rows = sequence.within(1, 20) as usize;
        let table = random_setting(&mut sequence, rows);
        let without = table.clone().with_gap(0);
        let (0, _, labels) = right_plan(&without, rows, SPACE_BYTES) else {
            continue;
        };
        let tape = rules::plan_tape(&table, &labels);
        let refusal = compare_written(&rules::RULES, &table, &labels, vec![0x55; tape.len()]);
        assert!(table.gap > 0 || refusal == 0, "{table:?} {labels:?}");
        assert_eq!(
            compare_written(&rules::RULES, &without, &labels, vec![0x55; tape.len()]),
            0
        );
        assert_eq!(hubplan::start(&tape, 0), Ok(Player { tick: 0 }), "{table:?} {labels:?}");
        seen[refusal as usize] += u32::from(table.gap > 0);
    }
    assert!(seen[0] > 300 && seen[9] > 300, "with a gap: {seen:?}");
}

/// The longest gap up to 600 that a plan keeps is taken, with exactly the room for its tape; a byte of room less is
/// refused 10, and a tick of gap more 9, or 14 above 600.
#[test]
fn the_longest_gap_that_a_plan_keeps() {
    let mut sequence = Sequence::new(495);
    let (mut close, mut longest, mut rounds) = (0, 0, 0);
    for _ in 0..2_000 {
        let rows = sequence.within(0, 12) as usize;
        let table = random_setting(&mut sequence, rows).with_gap(0);
        let (0, _, labels) = right_plan(&table, rows, SPACE_BYTES) else {
            continue;
        };
        let is_kept = |gap: u16| rules::is_plan(&rules::RULES, &table.clone().with_gap(gap), &labels);
        // a plan keeps each gap below one that it keeps
        let (mut kept, mut broken) = (0, MAX_GAP + 1);
        while kept + 1 < broken {
            let gap = (kept + broken) / 2;
            if is_kept(gap) {
                kept = gap;
            } else {
                broken = gap;
            }
        }
        let room = rules::plan_tape(&table, &labels).len();
        let written = |gap: u16, room: usize| {
            compare_written(&rules::RULES, &table.clone().with_gap(gap), &labels, vec![0x55; room])
        };
        assert_eq!(
            [written(kept, room), written(kept, room + 1), written(kept, room - 1)],
            [0, 0, 10],
            "{table:?} {labels:?}"
        );
        assert_eq!(
            written(kept + 1, room),
            if kept == MAX_GAP { 14 } else { 9 },
            "{table:?} {labels:?}"
        );
        close += u32::from(kept < MAX_GAP);
        longest += u32::from(kept == MAX_GAP);
        rounds += u32::from(table.kind == Kind::Round && kept < MAX_GAP);
    }
    assert!(
        close > 500 && longest > 100 && rounds > 200,
        "{close} below 600, {longest} at 600, {rounds} rounds below 600"
    );
}

#[test]
fn plan_tapes() {
    let mut sequence = Sequence::new(500);
    let (mut seen, mut all_day) = ([0; 15], 0);
    for turn in 0..20_000 {
        let rows = if turn % 10 == 0 {
            64
        } else {
            sequence.within(0, 12) as usize
        };
        let mut table = random_setting(&mut sequence, rows);
        let mut labels: Vec<u8> = (0..rows).map(|_| sequence.within(0, 2) as u8).collect();
        if !sequence.one_in(4) {
            let mut space = vec![0; SPACE_BYTES];
            let _ = table.plan(port::plan, &mut labels, &mut space);
        }
        if rows > 0 && sequence.one_in(6) {
            labels[sequence.within(0, rows as u32 - 1) as usize] = sequence.within(0, 4) as u8;
        }
        if sequence.one_in(3) {
            let (mut length, mut space) = (rows, 0);
            damage(&mut sequence, &mut table, &mut length, &mut space);
            labels.resize(length, 0);
        }
        let room = if sequence.one_in(2) {
            PLAN_TAPE_BYTES
        } else {
            sequence.within(0, 8 + 6 * rows as u32) as usize
        };
        let buffer: Vec<u8> = (0..room).map(|i| i as u8 ^ 0x55).collect();
        let refusal = compare_written(&rules::RULES, &table, &labels, buffer);
        seen[refusal as usize] += 1;
        all_day += u32::from(refusal == 0 && (0..rows).any(|i| labels[i] > 0 && is_all_day(&table, i)));
    }
    assert!(
        [0, 1, 2, 4, 5, 6, 7, 9, 10, 14]
            .iter()
            .all(|&number| seen[number] > 100),
        "{seen:?}"
    );
    assert!(all_day > 300, "{all_day} tapes with a row that sends all day");
}

#[test]
fn the_rules_by_hand() {
    // the longest tape that `hubplan` takes has 64 rows in a run with room to spare, and 79 in a round
    let one_in = OneIn {
        must: 2,
        only: 2,
        all_day: 2,
    };
    assert!(rules::fleet_tape(&random_table(&mut Sequence::new(1), 64, 100, 10, one_in)).len() <= FLEET_TAPE_BYTES);
    let tape = [
        0x10, 0x00, 0x64, 0x40, 0x00, 0x0a, 0x00, 0x1e, 0x40, 0x00, 0x14, 0x00, 0x28, 0x40, 0x00, 0x19, 0x00, 0x32,
        0x40, 0x00, 0x5a, 0x00, 0x0a, 0x7f,
    ];
    assert_eq!(
        rules::reply(&tape, SPACE_BYTES),
        (0, "heard 3\n0 1\n1 2\n2 0\n3 1\n".to_string())
    );
}
