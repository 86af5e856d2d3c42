//! Words of one bit a row against their rules written down independently (rules/words.rs): each call compared whole,
//! labels and words converted either way and back.

use super::rules::words::{is_plan, ones, Call, Given, RIGHT};
use super::rules::{self, misread, RULES};
use super::{count, damage, random_setting, right_plan, table_of};
use hubplan::tables::{benchmark_tables, Sequence, Table};
use hubplan::words::{clashes, of_labels, of_marks, to_labels};
use hubplan::{mark, Kind, Refusal, MAX_GAP, MAX_ROWS, SPACE_BYTES};

/// What the library gives for a call, or the number of its refusal. Lists that are written hold anything before it, and
/// are left by a refusal.
fn library(call: &Call) -> Result<Given, u8> {
    let given = match call {
        Call::Labels(labels) => of_labels(labels).map(|words| Given {
            words: vec![words.heard, words.receiver],
            count: words.count,
            ..Given::default()
        }),
        &Call::Words { heard, receiver, rows } => {
            let before: Vec<u8> = (0..rows).map(|i| 100u8.wrapping_add(i as u8)).collect();
            let mut labels = before.clone();
            let answer = to_labels(heard, receiver, &mut labels);
            assert!(answer.is_ok() || labels == before, "{call:?}");
            answer.map(|count| Given {
                labels,
                count,
                ..Given::default()
            })
        }
        Call::Marks(marks) => of_marks(marks).map(|word| Given {
            words: vec![word],
            ..Given::default()
        }),
        Call::Windows { table, places } => {
            let before: Vec<u64> = (0..*places as u64).map(|i| !i << 20 | 0xa5).collect();
            let mut words = before.clone();
            let answer = clashes(
                table.kind,
                table.ticks,
                table.gap,
                &table.starts,
                &table.ends,
                &mut words,
            );
            assert!(answer.is_ok() || words == before, "{call:?}");
            answer.map(|()| Given {
                words,
                ..Given::default()
            })
        }
    };
    given.map_err(Refusal::number)
}

/// Compares what the library gives for a call with what is right, and what is carried is carried back; gives the
/// refusal's number.
fn compare(call: &Call, right: &Result<Given, u8>) -> u8 {
    assert_eq!(library(call), *right, "{call:?}");
    let given = match right {
        Ok(given) => given,
        Err(number) => return *number,
    };
    match call {
        Call::Labels(labels) => assert_eq!(
            library(&words_call(given.words[0], given.words[1], labels.len())),
            Ok(Given {
                labels: labels.clone(),
                count: given.count,
                ..Given::default()
            })
        ),
        Call::Words { heard, receiver, .. } => assert_eq!(
            library(&Call::Labels(given.labels.clone())),
            Ok(Given {
                words: vec![*heard, *receiver],
                count: given.count,
                ..Given::default()
            })
        ),
        Call::Marks(_) => {}
        Call::Windows { table, .. } => check_clash_words(table, &given.words),
    }
    0
}

fn words_call(heard: u64, receiver: u64, rows: usize) -> Call {
    Call::Words { heard, receiver, rows }
}

fn windows_call(table: &Table) -> Call {
    Call::Windows {
        table: table.clone(),
        places: table.rows(),
    }
}

/// A row's own bit is 0, of two rows each has the other or neither has, and there is no row from the row count up.
fn check_clash_words(table: &Table, words: &[u64]) {
    let rows = table.rows();
    for i in 0..rows {
        assert_eq!(
            (words[i] >> i & 1, words[i] & above(rows)),
            (0, 0),
            "row {i} of {table:?}"
        );
        assert!(
            (0..i).all(|j| words[i] >> j & 1 == words[j] >> i & 1),
            "row {i} of {table:?}"
        );
    }
}

/// Ones from the row count up.
fn above(rows: usize) -> u64 {
    u64::MAX.checked_shl(rows as u32).unwrap_or(0)
}

/// A call by the independent implementation and by the library; gives the refusal's number.
fn agree(call: &Call) -> u8 {
    compare(call, &call.given(&RIGHT))
}

/// A call worked out by hand, by the independent implementation and by the library.
fn by_hand(call: &Call, right: Result<Given, u8>) {
    assert_eq!(call.given(&RIGHT), right, "{call:?}");
    compare(call, &right);
}

/// Labels worked out by hand: the heard word, the receiver word and the number heard.
fn labels_by_hand(labels: &[u8], right: Result<(u64, u64, usize), u8>) {
    let given = |(heard, receiver, count)| Given {
        words: vec![heard, receiver],
        count,
        ..Given::default()
    };
    by_hand(&Call::Labels(labels.to_vec()), right.map(given));
}

/// Words worked out by hand: the labels, of which the ones and twos are heard.
fn words_by_hand(heard: u64, receiver: u64, rows: usize, right: Result<Vec<u8>, u8>) {
    let given = |labels: Vec<u8>| Given {
        count: rules::heard(&labels),
        labels,
        ..Given::default()
    };
    by_hand(&words_call(heard, receiver, rows), right.map(given));
}

fn marks_by_hand(marks: &[u8], right: Result<u64, u8>) {
    let given = |word| Given {
        words: vec![word],
        ..Given::default()
    };
    by_hand(&Call::Marks(marks.to_vec()), right.map(given));
}

/// Windows worked out by hand: a word for each row.
fn windows_by_hand(table: &Table, right: Result<&[u64], u8>) {
    let given = |words: &[u64]| Given {
        words: words.to_vec(),
        ..Given::default()
    };
    by_hand(&windows_call(table), right.map(given));
}

/// All lists of so many rows with values up to `most`.
fn all_lists(rows: u32, most: u32) -> impl Iterator<Item = Vec<u8>> {
    let values = most + 1;
    (0..values.pow(rows)).map(move |n| (0..rows).map(|i| (n / values.pow(i) % values) as u8).collect())
}

/// Labels 0 to 3, of which 3 is refused.
#[test]
fn all_labels_of_up_to_7_rows() {
    let mut seen = [0; 10];
    for rows in 0..=7 {
        for labels in all_lists(rows, 3) {
            seen[agree(&Call::Labels(labels)) as usize] += 1;
        }
    }
    // 1 + 3 + .. + 2,187 lists have labels 0 to 2 alone, of 1 + 4 + .. + 16,384
    assert_eq!((seen[0], seen[9]), (3_280, 21_845 - 3_280), "{seen:?}");
}

/// Words of up to a bit more than there are rows: the same number is carried as there are labels.
#[test]
fn all_words_of_up_to_7_rows() {
    let mut seen = [0; 10];
    for rows in 0..=7 {
        for heard in 0..2 << rows {
            for receiver in 0..2 << rows {
                seen[agree(&words_call(heard, receiver, rows)) as usize] += 1;
            }
        }
    }
    assert_eq!((seen[0], seen[9]), (3_280, 4 * 21_845 - 3_280), "{seen:?}");
}

#[test]
fn labels_and_words_by_hand() {
    labels_by_hand(&[], Ok((0, 0, 0)));
    labels_by_hand(&[0], Ok((0, 0, 0)));
    labels_by_hand(&[1], Ok((1, 0, 1)));
    labels_by_hand(&[2], Ok((1, 1, 1)));
    labels_by_hand(&[3], Err(9));
    // labels of four rows and of three
    labels_by_hand(&[1, 2, 0, 1], Ok((0b1011, 0b0010, 3)));
    labels_by_hand(&[0, 2, 1], Ok((0b110, 0b010, 2)));
    labels_by_hand(&[0, 0, 2, 0, 0], Ok((4, 4, 1)));
    labels_by_hand(&[2, 2, 0, 0, 0, 0, 0, 0, 1], Ok((0x103, 3, 3)));
    labels_by_hand(&[2, 2, 255], Err(9));
    words_by_hand(0, 0, 0, Ok(vec![]));
    words_by_hand(1, 0, 0, Err(9));
    words_by_hand(0b1011, 0b0010, 4, Ok(vec![1, 2, 0, 1]));
    words_by_hand(0b1011, 0b0010, 5, Ok(vec![1, 2, 0, 1, 0]));
    words_by_hand(0b1011, 0b0010, 3, Err(9));
    words_by_hand(0b1011, 0b0110, 4, Err(9));
    words_by_hand(0b1011, 0b1011, 4, Ok(vec![2, 2, 0, 2]));
}

/// 62 to 66 labels that are alike, and with a label above 2 at either end: 2 comes before 9.
#[test]
fn labels_at_the_limit() {
    for rows in 62..=66 {
        let all = !above(rows);
        let over = rows > MAX_ROWS;
        let or_2 = |right: (u64, u64, usize)| if over { Err(2) } else { Ok(right) };
        labels_by_hand(&vec![0; rows], or_2((0, 0, 0)));
        labels_by_hand(&vec![1; rows], or_2((all, 0, rows)));
        labels_by_hand(&vec![2; rows], or_2((all, all, rows)));
        for row in [0, rows - 1] {
            let mut labels = vec![1; rows];
            labels[row] = 3;
            labels_by_hand(&labels, Err(if over { 2 } else { 9 }));
        }
        words_by_hand(all, 0, rows, if over { Err(2) } else { Ok(vec![1; rows]) });
        words_by_hand(all, all, rows, if over { Err(2) } else { Ok(vec![2; rows]) });
        // a receiver bit of a row not heard
        words_by_hand(all - 1, 1, rows, Err(if over { 2 } else { 9 }));
        words_by_hand(
            u64::MAX,
            0,
            rows,
            [Err(9), Err(9), Ok(vec![1; 64]), Err(2), Err(2)][rows - 62].clone(),
        );
    }
    for rows in [128, 256, 65_536] {
        labels_by_hand(&vec![1; rows], Err(2));
        words_by_hand(0, 0, rows, Err(2));
        marks_by_hand(&vec![1; rows], Err(2));
    }
}

/// Every label at each place of 1, 63 and 64 rows, of which the others are not heard, or are all heard by one receiver;
/// and of 65 and 66.
#[test]
fn every_label_at_each_place() {
    for (rows, other) in [1, 63, 64, 65, 66]
        .iter()
        .flat_map(|&rows| [0, 1, 2].map(|other| (rows, other)))
    {
        for row in 0..rows {
            for label in 0..=255 {
                let mut labels = vec![other; rows];
                labels[row] = label;
                let right = match label {
                    _ if rows > MAX_ROWS => Err(2),
                    3.. => Err(9),
                    _ => {
                        let (others, one) = (!above(rows) - (1 << row), 1 << row);
                        let of = |label: u8, bits: u64, least: u8| if label < least { 0 } else { bits };
                        let ones = |least: u8| of(other, others, least) + of(label, one, least);
                        let heard = if other > 0 { rows - 1 } else { 0 };
                        Ok((ones(1), ones(2), heard + usize::from(label > 0)))
                    }
                };
                labels_by_hand(&labels, right);
            }
        }
    }
}

/// So many rows, of which one has another label than 0.
fn one_row(rows: usize, row: usize, label: u8) -> Vec<u8> {
    let mut labels = vec![0; rows];
    labels[row] = label;
    labels
}

/// A one at each place, of the heard word, of the receiver word, and of both, for each row count: one from the row
/// count up is refused by 9.
#[test]
fn single_ones() {
    for rows in 0..=66 {
        for place in 0..64 {
            let right = |label: u8| match rows {
                65.. => Err(2),
                _ if place >= rows || label > 2 => Err(9),
                _ => Ok(one_row(rows, place, label)),
            };
            words_by_hand(1 << place, 0, rows, right(1));
            words_by_hand(1 << place, 1 << place, rows, right(2));
            words_by_hand(0, 1 << place, rows, right(3));
            // beside rows that are all heard, by receiver 1 and by receiver 2
            let all = !above(rows);
            let beside = |label: u8| right(label).map(|_| vec![label; rows]);
            words_by_hand(all | 1 << place, 0, rows, beside(1));
            words_by_hand(all, all | 1 << place, rows, beside(2));
        }
    }
}

/// The receiver bit of each row of each row count, where it is the only row that is heard, and the only one that is
/// not.
#[test]
fn receiver_bits_of_rows_not_heard() {
    for rows in 1..=MAX_ROWS {
        let all = !above(rows);
        for row in 0..rows {
            let mut labels = vec![1; rows];
            labels[row] = 2;
            words_by_hand(all, 1 << row, rows, Ok(labels));
            words_by_hand(all - (1 << row), 1 << row, rows, Err(9));
            words_by_hand(1 << row, all, rows, if rows == 1 { Ok(vec![2]) } else { Err(9) });
            words_by_hand(all - (1 << row), all, rows, Err(9));
        }
    }
}

/// Marks 1, 3 and 5 have a one: every mark at each place of 1, 63 and 64 rows, of which the others must be heard; and
/// 65 marks.
#[test]
fn every_mark_at_each_place() {
    let musts = [mark::MUST, mark::MUST_1, mark::MUST_2];
    assert_eq!(musts, [1, 3, 5]);
    for rows in [1, 63, 64, 65] {
        for row in 0..rows {
            for mark in 0..=255 {
                let mut marks = vec![1; rows];
                marks[row] = mark;
                let right = if rows == 65 {
                    Err(2)
                } else {
                    let one = if musts.contains(&mark) { 0 } else { 1 << row };
                    Ok(!above(rows) - one)
                };
                marks_by_hand(&marks, right);
            }
        }
    }
    marks_by_hand(&[], Ok(0));
    marks_by_hand(&[0, 1, 2, 3, 4, 5, 6, 7], Ok(0b10_1010));
    marks_by_hand(&[5, 4, 3, 2, 1, 0, 255, 254], Ok(0b1_0101));
}

/// Rows in a round or run of so many ticks with a gap, and a word for each.
#[test]
fn clash_words_by_hand() {
    type Case<'a> = (Kind, u16, u16, &'a [(u16, u16)], &'a [u64]);
    let (round, run) = (Kind::Round, Kind::Run([[0, 50], [40, 100]]));
    let four: &[(u16, u16)] = &[(10, 30), (20, 40), (25, 50), (90, 10)];
    let three: &[(u16, u16)] = &[(45, 60), (50, 60), (0, 50)];
    let cases: [Case; 31] = [
        (round, 2, 0, &[], &[]),
        (run, 43_200, 600, &[], &[]),
        (round, 100, 600, &[(3, 1)], &[0]),
        (round, 100, 600, &[(3, 3)], &[0]),
        (run, 100, 600, &[(0, 100)], &[0]),
        // rows 0 to 2 overlap each other, and row 3 ends where row 0 starts, 10 ticks before row 1 and 15 before row 2
        (round, 100, 0, four, &[0b0110, 0b0101, 0b0011, 0]),
        (round, 100, 1, four, &[0b1110, 0b0101, 0b0011, 0b0001]),
        (round, 100, 10, four, &[0b1110, 0b0101, 0b0011, 0b0001]),
        (round, 100, 11, four, &[0b1110, 0b1101, 0b0011, 0b0011]),
        (round, 100, 16, four, &[0b1110, 0b1101, 0b1011, 0b0111]),
        (round, 10, 0, &[(0, 4), (3, 8), (7, 1)], &[0b110, 0b101, 0b011]),
        (round, 10, 0, &[(8, 2), (2, 8)], &[0, 0]),
        (round, 10, 1, &[(8, 2), (2, 8)], &[0b10, 0b01]),
        (round, 10, 0, &[(4, 5), (4, 5), (4, 5)], &[0b110, 0b101, 0b011]),
        // no receiver can hear row 1 beside row 0, and receiver 1 alone can hear row 2, which ends where row 1 starts
        (run, 100, 0, three, &[0b110, 0b001, 0b001]),
        (run, 100, 1, three, &[0b110, 0b101, 0b011]),
        (round, 2, 0, &[(0, 1), (1, 0)], &[0, 0]),
        (round, 2, 1, &[(0, 1), (1, 0)], &[0b10, 0b01]),
        // in a round both sides count: from 3 to 5 there are 2 ticks, from 9 on to 0 one
        (round, 10, 1, &[(0, 3), (5, 9)], &[0, 0]),
        (round, 10, 2, &[(0, 3), (5, 9)], &[0b10, 0b01]),
        (round, 10, 2, &[(5, 9), (0, 3)], &[0b10, 0b01]),
        // in a run there is one side, and nothing goes on from 10 to 0
        (run, 10, 2, &[(0, 3), (5, 9)], &[0, 0]),
        (run, 10, 3, &[(0, 3), (5, 9)], &[0b10, 0b01]),
        (run, 10, 6, &[(8, 10), (0, 2)], &[0, 0]),
        (run, 10, 7, &[(8, 10), (0, 2)], &[0b10, 0b01]),
        // a window that sends all day overlaps every other
        (
            round,
            10,
            0,
            &[(3, 3), (7, 7), (0, 1), (5, 6)],
            &[0b1110, 0b1101, 0b0011, 0b0011],
        ),
        // the longest gap, on either side
        (round, 43_200, 600, &[(0, 21_000), (21_600, 42_600)], &[0, 0]),
        (round, 43_200, 600, &[(0, 21_001), (21_600, 42_600)], &[0b10, 0b01]),
        (round, 43_200, 600, &[(0, 21_000), (21_600, 42_601)], &[0b10, 0b01]),
        (run, 43_200, 600, &[(601, 43_200), (0, 1)], &[0, 0]),
        (run, 43_200, 600, &[(600, 43_200), (0, 1)], &[0b10, 0b01]),
    ];
    for (kind, ticks, gap, windows, words) in cases {
        windows_by_hand(&windows_of(kind, ticks, windows).with_gap(gap), Ok(words));
    }
}

/// Windows as a table with no marks.
fn windows_of(kind: Kind, ticks: u16, windows: &[(u16, u16)]) -> Table {
    let rows: Vec<(u16, u16, u8)> = windows.iter().map(|&(start, end)| (start, end, 0)).collect();
    table_of(kind, ticks, &rows)
}

/// 64 rows: each beside the next one alone, all beside all, and none beside any.
#[test]
fn clash_words_of_64_rows() {
    for kind in [Kind::Round, OPEN] {
        let table = many(kind, 64);
        windows_by_hand(&table, Ok(&[0; 64]));
        let touching: Vec<u64> = (0..64u64)
            .map(|i| if i == 63 { 1 << 62 } else { 1 << (i + 1) | (1 << i) / 2 })
            .collect();
        windows_by_hand(&table.clone().with_gap(1), Ok(&touching));
        let all: Vec<u64> = (0..64).map(|i| !(1 << i)).collect();
        windows_by_hand(&table.with_gap(600), Ok(&all));
        windows_by_hand(&table_of(kind, 43_200, &[(0, 1, 0); 64]), Ok(&all));
    }
    let all: Vec<u64> = (0..64).map(|i| !(1 << i)).collect();
    let all_day: Vec<(u16, u16)> = (0..64).map(|i| (600 * i, 600 * i)).collect();
    windows_by_hand(&windows_of(Kind::Round, 43_200, &all_day), Ok(&all));
}

/// The windows of rounds or runs of so many ticks.
fn all_windows(kind: Kind, ticks: u16) -> Vec<(u16, u16)> {
    let windows = (0..=ticks).flat_map(|start| (0..=ticks).map(move |end| (start, end)));
    let holds = |&(start, end): &(u16, u16)| match kind {
        Kind::Round => start < ticks && end < ticks,
        Kind::Run(_) => start < end,
    };
    windows.filter(holds).collect()
}

/// Every two windows of rounds and runs of up to 9 ticks, with each gap up to beyond R.
#[test]
fn every_two_windows() {
    let mut clashing = [0; 2];
    for ticks in 2..=9 {
        for kind in [Kind::Round, Kind::Run([[0, ticks]; 2])] {
            let windows = all_windows(kind, ticks);
            for &first in &windows {
                for &second in &windows {
                    for gap in 0..=ticks + 1 {
                        let call = windows_call(&windows_of(kind, ticks, &[first, second]).with_gap(gap));
                        let right = call.given(&RIGHT);
                        compare(&call, &right);
                        let clash = right.unwrap().words == [2, 1];
                        count(&mut clashing, [clash, !clash]);
                    }
                }
            }
        }
    }
    println!("pairs that clash, and that do not: {clashing:?}");
    assert!(clashing.iter().all(|&times| times > 5_000), "{clashing:?}");
}

/// Windows of a tick, of which the second starts 597 to 603 ticks after the first ends, in either order, in a round
/// over the end of the day too.
#[test]
fn gaps_about_600() {
    for ticks in [700, 1_210, 43_200u32] {
        for kind in [Kind::Round, Kind::Run([[0, ticks as u16]; 2])] {
            for between in 597..=603 {
                for first in [0, 1, 90, ticks - between - 3, ticks - 300, ticks - 1] {
                    let tick = |after: u32| ((first + after) % ticks) as u16;
                    let windows = [(tick(0), tick(1)), (tick(1 + between), tick(2 + between))];
                    let in_run =
                        windows[0].0 < windows[0].1 && windows[0].1 < windows[1].0 && windows[1].0 < windows[1].1;
                    if kind != Kind::Round && !in_run {
                        continue;
                    }
                    for gap in [0, 599, MAX_GAP] {
                        let other_side = ticks - between - 2;
                        let clash = between < gap as u32 || (kind == Kind::Round && other_side < gap as u32);
                        let words = if clash { [2, 1] } else { [0, 0] };
                        let mut table = windows_of(kind, ticks as u16, &windows).with_gap(gap);
                        windows_by_hand(&table, Ok(&words));
                        (table.starts.reverse(), table.ends.reverse());
                        windows_by_hand(&table, Ok(&words));
                    }
                }
            }
        }
    }
}

/// The table with so many ticks for each.
fn longer(table: &Table, times: u16) -> Table {
    let mut longer = table.clone();
    longer.ticks *= times;
    longer.gap *= times;
    longer
        .starts
        .iter_mut()
        .chain(&mut longer.ends)
        .for_each(|tick| *tick *= times);
    longer
}

/// Rounds and runs of any R, with gaps and rows that send all day. With each tick made as many as R and the gap allow
/// the same rows clash.
#[test]
fn random_windows() {
    let mut sequence = Sequence::new(1_200);
    let (mut by_gap, mut all_day, mut days, mut made_longer) = ([0; 2], 0, [0; 2], 0);
    for turn in 0..6_000 {
        let rows = if turn % 16 == 0 {
            64
        } else {
            sequence.within(0, 24) as usize
        };
        let table = random_setting(&mut sequence, rows);
        let call = windows_call(&table);
        let right = call.given(&RIGHT);
        assert_eq!(compare(&call, &right), 0, "{call:?}");
        let times = (43_200 / table.ticks).min(MAX_GAP.checked_div(table.gap).unwrap_or(MAX_GAP));
        assert_eq!(
            library(&windows_call(&longer(&table, times))),
            right,
            "{times} times {call:?}"
        );
        let clash = |given: &Given| given.words.iter().any(|&word| word > 0);
        made_longer += u32::from(times > 1 && right.as_ref().is_ok_and(clash));
        let round = table.kind == Kind::Round;
        let gap_decides = windows_call(&table.clone().with_gap(0)).given(&RIGHT) != right;
        count(&mut by_gap, [gap_decides && round, gap_decides && !round]);
        count(
            &mut days,
            [table.ticks == 43_200 && round, table.ticks == 43_200 && !round],
        );
        all_day += u32::from(round && (0..rows).any(|i| table.starts[i] == table.ends[i]));
    }
    println!("by the gap: {by_gap:?}; with rows that send all day: {all_day}; R 43,200: {days:?}");
    assert!(by_gap.iter().all(|&times| times > 500) && all_day > 500 && days.iter().all(|&times| times > 200));
    assert!(made_longer > 2_000, "{made_longer} longer days with rows that clash");
}

#[test]
fn benchmark_tables_and_gaps() {
    for (_, table) in benchmark_tables() {
        for gap in [0, 1, 60, 599, 600] {
            assert_eq!(agree(&windows_call(&table.clone().with_gap(gap))), 0);
        }
    }
}

/// Other hours, wrong ones too, give the same words. Marks are not lent.
#[test]
fn hours_make_no_difference() {
    let mut sequence = Sequence::new(1_210);
    for _ in 0..400 {
        let rows = sequence.within(0, 30) as usize;
        let mut table = random_setting(&mut sequence, rows);
        if table.kind == Kind::Round {
            continue;
        }
        let right = library(&windows_call(&table));
        assert!(right.is_ok(), "{table:?}");
        for hours in [
            [[0, 0]; 2],
            [[0, table.ticks]; 2],
            [[1, 0], [0, 1]],
            [[65_535, 0], [0, 65_535]],
        ] {
            table.kind = Kind::Run(hours);
            assert_eq!(library(&windows_call(&table)), right, "{table:?}");
        }
    }
}

/// Row i is i to i + 1.
fn many(kind: Kind, rows: u16) -> Table {
    let windows: Vec<(u16, u16)> = (0..rows).map(|i| (i, i + 1)).collect();
    windows_of(kind, 100, &windows)
}

const OPEN: Kind = Kind::Run([[0, 100]; 2]);

fn refused(table: &Table, places: usize, refusal: u8) {
    let call = Call::Windows {
        table: table.clone(),
        places,
    };
    by_hand(&call, Err(refusal));
}

/// Wrong in every way: mended one by one, the refusals come in their order.
#[test]
fn refusals_in_their_order() {
    for kind in [Kind::Round, OPEN] {
        let mut table = many(kind, 65).with_gap(601);
        (table.ticks, table.ends[4], table.ends[64]) = (1, 200, 200);
        refused(&table, 64, 1);
        refused(&table, 66, 1);
        table.ends.pop();
        refused(&table, 65, 1);
        refused(&table, 64, 1);
        table.ends.push(200);
        refused(&table, 65, 2);
        table = table.first(64);
        refused(&table, 64, 4);
        table.ticks = 43_201;
        refused(&table, 64, 4);
        table.ticks = 100;
        refused(&table, 64, 14);
        table.gap = 600;
        refused(&table, 64, 6);
        table.ends[4] = 5;
        let all: Vec<u64> = (0..64).map(|i| !(1 << i)).collect();
        windows_by_hand(&table, Ok(&all));
    }
}

/// Each two refusals that can apply at once, and nothing else: the first in the order is reported.
#[test]
fn two_faults_at_once() {
    type Fault = fn(&mut Table, &mut usize);
    let faults: [(u8, Fault); 5] = [
        (1, |_, places| *places += 1),
        (2, |table, places| {
            let more = 65 - table.rows();
            table.starts.extend(vec![0; more]);
            table.ends.extend(vec![1; more]);
            *places += more;
        }),
        (4, |table, _| table.ticks = 43_201),
        (14, |table, _| table.gap = 601),
        (6, |table, _| table.starts[1] = 65_535),
    ];
    for kind in [Kind::Round, OPEN] {
        for (i, (first, fault)) in faults.iter().enumerate() {
            for (_, other) in &faults[i..] {
                let (mut table, mut places) = (many(kind, 3), 3);
                fault(&mut table, &mut places);
                other(&mut table, &mut places);
                refused(&table, places, *first);
            }
        }
    }
}

/// R and the gap on both sides of their limits, with no rows and with a row from 0 to 1.
#[test]
fn ticks_and_gaps_at_the_limits() {
    for kind in [Kind::Round, OPEN] {
        for (ticks, gap, refusal) in [
            (0, 0, 4),
            (1, 0, 4),
            (1, 601, 4),
            (2, 600, 0),
            (43_200, 0, 0),
            (43_200, 600, 0),
            (43_201, 0, 4),
            (65_535, 601, 4),
            (2, 601, 14),
            (43_200, 601, 14),
            (100, 65_535, 14),
        ] {
            for windows in [&[][..], &[(0, 1)]] {
                let table = windows_of(kind, ticks, windows).with_gap(gap);
                let words = &[0][..windows.len()];
                windows_by_hand(&table, if refusal == 0 { Ok(words) } else { Err(refusal) });
            }
        }
    }
}

/// Windows that are just taken and just refused, as the first row, the last and one between: in a round start and end
/// are below R, and may be equal; in a run start is below end, and end is at most R.
#[test]
fn windows_at_the_limits() {
    for ticks in [2, 100, 43_200] {
        let last = ticks - 1;
        for (start, end, round, run) in [
            (0, last, true, true),
            (0, ticks, false, true),
            (last, 0, true, false),
            (last, ticks, false, true),
            (last, last, true, false),
            (0, 0, true, false),
            (ticks, 0, false, false),
            (ticks, ticks, false, false),
            (last, ticks + 1, false, false),
            (0, 65_535, false, false),
            (65_535, 65_535, false, false),
        ] {
            for (kind, holds) in [(Kind::Round, round), (OPEN, run)] {
                for row in [0, 20, 40] {
                    let mut windows = vec![(0, 1); 41];
                    windows[row] = (start, end);
                    let refusal = agree(&windows_call(&windows_of(kind, ticks, &windows)));
                    assert_eq!(
                        refusal,
                        if holds { 0 } else { 6 },
                        "{start} to {end} of {ticks} {kind:?}"
                    );
                }
            }
        }
    }
}

/// Each of the three lists with a place less and a place more than the others.
#[test]
fn lists_of_unequal_length() {
    for kind in [Kind::Round, OPEN] {
        for rows in [0u16, 1, 2, 63, 64, 65] {
            for other in [rows + 1, rows.saturating_sub(1)] {
                if other == rows {
                    continue;
                }
                let (table, longer) = (many(kind, rows), many(kind, other));
                refused(&table, other as usize, 1);
                let starts = longer.starts.clone();
                refused(
                    &Table {
                        starts,
                        ..table.clone()
                    },
                    rows as usize,
                    1,
                );
                let ends = longer.ends.clone();
                refused(&Table { ends, ..table.clone() }, rows as usize, 1);
            }
        }
    }
}

fn random_rows(sequence: &mut Sequence) -> usize {
    match sequence.within(0, 5) {
        0 => sequence.within(0, 64) as usize,
        1 => sequence.within(62, 66) as usize,
        2 => 64,
        _ => sequence.within(0, 8) as usize,
    }
}

/// Labels 0 to 2; one list in three has a fault or two.
fn random_labels(sequence: &mut Sequence) -> Call {
    let rows = random_rows(sequence);
    let mut labels: Vec<u8> = (0..rows).map(|_| sequence.within(0, 2) as u8).collect();
    if rows > 0 && sequence.one_in(3) {
        for _ in 0..sequence.within(1, 2) {
            labels[sequence.within(0, rows as u32 - 1) as usize] = if sequence.one_in(2) {
                3
            } else {
                sequence.within(3, 255) as u8
            };
        }
    }
    Call::Labels(labels)
}

/// The words of some labels; one call in two has a bit or two changed, now and then next to the row count.
fn random_words(sequence: &mut Sequence) -> Call {
    let rows = random_rows(sequence);
    let heard = sequence.next() & !above(rows);
    let mut words = [heard, sequence.next() & heard];
    if sequence.one_in(2) {
        for _ in 0..sequence.within(1, 2) {
            let place = if sequence.one_in(2) {
                rows.min(63) as u32
            } else {
                sequence.within(0, 63)
            };
            words[sequence.within(0, 1) as usize] ^= 1 << place;
        }
    }
    words_call(words[0], words[1], rows)
}

fn random_marks(sequence: &mut Sequence) -> Call {
    let most = [5, 7, 255][sequence.within(0, 2) as usize];
    let marks = (0..random_rows(sequence)).map(|_| sequence.within(0, most) as u8);
    Call::Marks(marks.collect())
}

/// Windows, and one call in two with faults, of which the first that applies is reported.
fn random_windows_call(sequence: &mut Sequence) -> Call {
    let rows = sequence.within(0, 12) as usize;
    let mut table = random_setting(sequence, rows);
    let mut places = rows;
    if sequence.one_in(2) {
        damage(sequence, &mut table, &mut places, &mut 0);
    }
    Call::Windows { table, places }
}

fn random_call(sequence: &mut Sequence) -> Call {
    match sequence.within(0, 3) {
        0 => random_labels(sequence),
        1 => random_words(sequence),
        2 => random_marks(sequence),
        _ => random_windows_call(sequence),
    }
}

#[test]
fn random_calls() {
    let mut sequence = Sequence::new(1_220);
    // by kind of call, and by refusal
    let mut seen = [[0; 17]; 4];
    for _ in 0..40_000 {
        let call = random_call(&mut sequence);
        let kind = match &call {
            Call::Labels(_) => 0,
            Call::Words { .. } => 1,
            Call::Marks(_) => 2,
            Call::Windows { .. } => 3,
        };
        seen[kind][agree(&call) as usize] += 1;
    }
    let met: [&[usize]; 4] = [&[0, 2, 9], &[0, 2, 9], &[0, 2], &[0, 1, 2, 4, 6, 14]];
    for (kind, seen) in seen.iter().enumerate() {
        let is_right = |number: usize| {
            if met[kind].contains(&number) {
                seen[number] > 200
            } else {
                seen[number] == 0
            }
        };
        assert!((0..17).all(is_right), "{kind}: {seen:?}");
    }
}

/// How many calls tell the rules from each misreading of them.
#[test]
fn calls_tell_misreadings() {
    let mut sequence = Sequence::new(1_230);
    let mut told = [0; misread::WORDS.len()];
    for _ in 0..30_000 {
        let call = random_call(&mut sequence);
        let right = call.given(&RIGHT);
        for ((_, meaning), times) in misread::WORDS.iter().zip(&mut told) {
            *times += u32::from(call.given(meaning) != right);
        }
        compare(&call, &right);
    }
    for ((name, _), times) in misread::WORDS.iter().zip(told) {
        println!("{name}: another answer for {times} calls");
        assert!(times > 20, "{name}: {times}");
    }
}

/// The best plan of a table, its labels with one changed, and any labels, judged by the library's words: what is a plan
/// by them is one by the rules.
#[test]
fn plans_judged_by_words() {
    let mut sequence = Sequence::new(1_240);
    let mut judged = [0; 2];
    for turn in 0..3_000 {
        let rows = if turn % 20 == 0 {
            64
        } else {
            sequence.within(1, 12) as usize
        };
        let table = random_setting(&mut sequence, rows);
        let mut words = vec![0; rows];
        clashes(
            table.kind,
            table.ticks,
            table.gap,
            &table.starts,
            &table.ends,
            &mut words,
        )
        .unwrap();
        let must = of_marks(&table.marks).unwrap();
        let mut lists = vec![(0..rows).map(|_| sequence.within(0, 2) as u8).collect::<Vec<u8>>()];
        let mut labels = vec![0; rows];
        if let Ok(heard) = table.plan(hubplan::plan, &mut labels, &mut vec![0; SPACE_BYTES]) {
            assert_eq!(of_labels(&labels).map(|given| given.count), Ok(heard), "{table:?}");
            lists.push(labels.clone());
            labels[sequence.within(0, rows as u32 - 1) as usize] = sequence.within(0, 2) as u8;
            lists.push(labels);
        } else {
            assert_eq!(right_plan(&table, rows, SPACE_BYTES).0, 8, "{table:?}");
        }
        for labels in lists {
            let given = of_labels(&labels).unwrap();
            assert_eq!(given.count, ones(given.heard));
            let is_plan = is_plan(&table, &labels, [given.heard, given.receiver], must, &words);
            assert_eq!(is_plan, rules::is_plan(&RULES, &table, &labels), "{table:?} {labels:?}");
            count(&mut judged, [is_plan, !is_plan]);
        }
    }
    println!("plans, and labels that are none: {judged:?}");
    assert!(judged.iter().all(|&times| times > 1_500), "{judged:?}");
}
