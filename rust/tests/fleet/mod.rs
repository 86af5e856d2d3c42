//! The fleet tape reader and the reply against the rules written down independently (tests/rules): whole tapes, broken
//! ones, lists of other lengths, each call compared whole.

use super::rules::{self, fleet_tape};
use super::{random_setting, random_table, spaces, table_of, OneIn};
use hubplan::tables::{Sequence, Table};
use hubplan::{Fleet, Kind, Refusal, FLEET_TAPE_BYTES, MAX_ROWS, REPLY_BYTES, SPACE_BYTES};

/// So many places of starts, ends and marks, each with a number of its own.
fn lists([starts, ends, marks]: [usize; 3]) -> (Vec<u16>, Vec<u16>, Vec<u8>) {
    let of = |first: u16, places: usize| (0..places).map(|i| first + i as u16).collect();
    (
        of(0xaa00, starts),
        of(0xbb00, ends),
        (0..marks).map(|i| 100 + i as u8).collect(),
    )
}

/// Reads a tape into lists of so many places and compares what is reported and every place; gives the refusal's number,
/// 0 for none.
fn compare_read(tape: &[u8], places: [usize; 3]) -> u8 {
    let (mut starts, mut ends, mut marks) = lists(places);
    let mut right = lists(places);
    let expected = if places != [MAX_ROWS; 3] {
        Err(Refusal::Lists)
    } else {
        match rules::read_fleet(tape) {
            None => Err(Refusal::Form),
            Some(table) if table.rows() > MAX_ROWS => Err(Refusal::Rows),
            Some(table) => {
                right.0[..table.rows()].copy_from_slice(&table.starts);
                right.1[..table.rows()].copy_from_slice(&table.ends);
                right.2[..table.rows()].copy_from_slice(&table.marks);
                Ok(Fleet {
                    kind: table.kind,
                    ticks: table.ticks,
                    rows: table.rows(),
                })
            }
        }
    };
    let answer = hubplan::read_fleet(tape, &mut starts, &mut ends, &mut marks);
    assert_eq!(answer, expected, "{tape:02x?}");
    assert_eq!((starts, ends, marks), right, "{tape:02x?}");
    answer.err().map_or(0, Refusal::number)
}

/// A fleet tape, now and then damaged: cut, changed, or with bytes put in.
pub fn random_tape(sequence: &mut Sequence) -> Vec<u8> {
    let rows = if sequence.one_in(6) {
        sequence.within(60, 80)
    } else {
        sequence.within(0, 12)
    } as usize;
    let table = random_setting(sequence, rows);
    let mut tape = fleet_tape(&table);
    let bytes = [
        0x10, 0x11, 0x20, 0x30, 0x3f, 0x40, 0x41, 0x42, 0x43, 0x44, 0x45, 0x46, 0x50, 0x7f, 0, 255,
    ];
    if sequence.one_in(2) {
        for _ in 0..sequence.within(1, 2) {
            let at = sequence.within(0, tape.len().max(1) as u32 - 1) as usize;
            match sequence.within(0, 3) {
                0 => tape.truncate(at),
                1 => tape.insert(at, sequence.next() as u8),
                2 if !tape.is_empty() => tape[at] = bytes[sequence.within(0, bytes.len() as u32 - 1) as usize],
                _ => tape.push(sequence.next() as u8),
            }
        }
    }
    tape
}

/// The reader takes any numbers, those that the planner refuses too: R, hours, starts and ends are any words.
fn any_words(sequence: &mut Sequence, run: bool, rows: usize) -> Table {
    let mut word = || sequence.next() as u16;
    let kind = if run {
        Kind::Run([[word(), word()], [word(), word()]])
    } else {
        Kind::Round
    };
    let mut table = Table::empty(kind, word());
    for _ in 0..rows {
        table.starts.push(word());
        table.ends.push(word());
        table.marks.push((word() % 6) as u8);
    }
    table
}

#[test]
fn random_tapes() {
    let mut sequence = Sequence::new(600);
    let mut seen = [0; 12];
    for _ in 0..40_000 {
        let tape = random_tape(&mut sequence);
        let places = if sequence.one_in(50) {
            sequence.within(62, 66) as usize
        } else {
            MAX_ROWS
        };
        seen[compare_read(&tape, [MAX_ROWS, places, MAX_ROWS]) as usize] += 1;
    }
    assert!([0, 1, 2, 11].iter().all(|&number| seen[number] > 200), "{seen:?}");
}

/// Rounds and runs of 0 to 65 rows, whole and with one byte changed.
#[test]
fn tapes_of_any_words() {
    let mut sequence = Sequence::new(610);
    let mut seen = [[0; 12]; 2];
    for turn in 0..6_000 {
        let table = any_words(&mut sequence, turn % 2 == 1, turn % 66);
        let mut tape = fleet_tape(&table);
        seen[0][compare_read(&tape, [MAX_ROWS; 3]) as usize] += 1;
        let at = sequence.within(0, tape.len() as u32 - 1) as usize;
        tape[at] = sequence.next() as u8;
        seen[1][compare_read(&tape, [MAX_ROWS; 3]) as usize] += 1;
    }
    let [whole, changed] = seen;
    assert!(whole[0] > 5_500 && whole[2] > 50 && whole[11] == 0, "{whole:?}");
    assert!(
        changed[0] > 3_000 && changed[2] > 20 && changed[11] > 500,
        "{changed:?}"
    );
}

/// Tapes of four rows: each byte changed to each other, each beginning, and a byte more.
#[test]
fn each_byte_changed_and_each_beginning() {
    let mut sequence = Sequence::new(620);
    let mut seen = [0; 12];
    for run in [false, true] {
        let tape = fleet_tape(&any_words(&mut sequence, run, 4));
        for at in 0..tape.len() {
            for byte in 0..=255 {
                let mut changed = tape.clone();
                changed[at] = byte;
                seen[compare_read(&changed, [MAX_ROWS; 3]) as usize] += 1;
            }
            assert_eq!(compare_read(&tape[..at], [MAX_ROWS; 3]), 11);
            assert_eq!(compare_read(&[&tape, &tape[at..=at]].concat(), [MAX_ROWS; 3]), 11);
        }
    }
    assert!(seen[0] > 10_000 && seen[11] > 3_000, "{seen:?}");
}

/// 64 and 65 rows: whole, without STOP, with a byte after it, and with another byte in its place. 11 comes before 2.
#[test]
fn as_many_rows_as_a_table_has_and_one_more() {
    let mut sequence = Sequence::new(630);
    for run in [false, true] {
        for (rows, refusal) in [(MAX_ROWS, 0), (MAX_ROWS + 1, 2), (80, 2)] {
            let tape = fleet_tape(&any_words(&mut sequence, run, rows));
            let stop = tape.len() - 1;
            assert_eq!(compare_read(&tape, [MAX_ROWS; 3]), refusal);
            for broken in [
                tape[..stop].to_vec(),
                [&tape, &[0][..]].concat(),
                [&tape[..stop], &[0x30]].concat(),
            ] {
                assert_eq!(compare_read(&broken, [MAX_ROWS; 3]), 11);
            }
        }
        // start equal to end is the planner's to judge, in a run too
        let mut all_day = any_words(&mut sequence, run, MAX_ROWS);
        all_day.ends = all_day.starts.clone();
        assert_eq!(compare_read(&fleet_tape(&all_day), [MAX_ROWS; 3]), 0);
    }
}

/// Each list by itself, and all three, with other than 64 places: 1 whatever the tape.
#[test]
fn lists_of_other_lengths() {
    let tape = fleet_tape(&table_of(Kind::Round, 100, &[(10, 30, 0), (90, 10, 5)]));
    let longest = fleet_tape(&table_of(Kind::Round, 100, &[(10, 30, 0); 65]));
    for places in [0, 2, 63, 65, 66] {
        for lent in [[places, 64, 64], [64, places, 64], [64, 64, places], [places; 3]] {
            for tape in [&tape[..], &tape[..5], &[], &longest] {
                assert_eq!(compare_read(tape, lent), 1);
            }
        }
    }
}

/// Tapes that are not of the form: RUN without HOURS, ROUND with HOURS, HOURS after a row, commands of plan tapes, one
/// below and one above those of rows, operands cut short.
#[test]
fn not_of_the_form() {
    let (row, hours) = (&[0x40, 0, 10, 0, 30][..], &[0x50, 0, 0, 0, 50, 0, 40, 0, 100][..]);
    let (round, run, stop) = (&[0x10, 0, 100][..], &[0x11, 0, 100][..], &[0x7f][..]);
    assert_eq!(compare_read(&[run, hours, row, stop].concat(), [MAX_ROWS; 3]), 0);
    let tapes: [&[&[u8]]; 17] = [
        &[run, stop],
        &[run, row, stop],
        &[run, row, hours, stop],
        &[run, hours, hours, stop],
        &[run, hours, row, &[0x7e]],
        &[round, hours, stop],
        &[round, row, hours, stop],
        &[round, round, stop],
        &[&[0x12, 0, 100], row, stop],
        &[round, &[0x3f, 0, 10, 0, 30], stop],
        &[round, &[0x46, 0, 10, 0, 30], stop],
        &[round, &[0x20, 1], stop],
        &[round, &row[..4], stop],
        &[round, row, &[0]],
        &[round, stop, stop],
        &[row, stop],
        &[stop],
    ];
    for tape in tapes {
        assert_eq!(compare_read(&tape.concat(), [MAX_ROWS; 3]), 11);
    }
}

/// Every byte in the place of a row's command, as the only row and as the second, in a round and in a run.
#[test]
fn row_commands_are_40_to_45() {
    let (round, run) = (&[0x10, 0, 10][..], &[0x11, 0, 10, 0x50, 0, 0, 0, 10, 0, 0, 0, 10][..]);
    for before in [round, run] {
        for rows in [&[][..], &[0x45, 0, 5, 0, 7][..]] {
            for command in 0..=255 {
                let tape = [before, rows, &[command, 0, 1, 0, 2], &[0x7f]].concat();
                let (mut starts, mut ends, mut marks) = ([0; 64], [0; 64], [0xee; 64]);
                let answer = hubplan::read_fleet(&tape, &mut starts, &mut ends, &mut marks);
                let (mut out, mut space) = ([0; REPLY_BYTES], [0; SPACE_BYTES]);
                let text = String::from_utf8_lossy(hubplan::reply(&tape, &mut out, &mut space)).to_string();
                assert_eq!(text, rules::reply(&tape, SPACE_BYTES).1, "{tape:02x?}");
                let i = rows.len() / 5;
                if !(0x40..=0x45).contains(&command) {
                    assert_eq!((answer, marks[i]), (Err(Refusal::Form), 0xee), "{tape:02x?}");
                    assert_eq!(text, "refused 11\n", "{tape:02x?}");
                    continue;
                }
                assert_eq!(answer.map(|fleet| fleet.rows), Ok(i + 1), "{tape:02x?}");
                assert_eq!((starts[i], ends[i], marks[i]), (1, 2, command - 0x40), "{tape:02x?}");
                let receiver = if command < 0x44 { 1 } else { 2 };
                assert!(text.ends_with(&format!("{i} {receiver}\n")), "{tape:02x?}: {text}");
            }
        }
    }
}

/// Replies to a tape with so much room and compares text, room and working space; gives the refusal's number, and 1 for
/// an output that is too short, which is written nothing.
fn compare_reply(tape: &[u8], room: usize) -> u8 {
    let before: Vec<u8> = (0..room).map(|i| i as u8 | 0x80).collect();
    let mut out = before.clone();
    let (refusal, right) = if room < REPLY_BYTES {
        (1, String::new())
    } else {
        rules::reply(tape, SPACE_BYTES + 5)
    };
    let (mut space, after) = spaces(SPACE_BYTES + 5, refusal);
    let text = hubplan::reply(tape, &mut out, &mut space).to_vec();
    assert_eq!(String::from_utf8_lossy(&text), right, "{tape:02x?}");
    assert_eq!(out[text.len()..], before[text.len()..], "{tape:02x?}");
    assert!(space == after, "working space, {tape:02x?}");
    refusal
}

#[test]
fn replies() {
    let mut sequence = Sequence::new(700);
    let mut seen = [0; 12];
    for _ in 0..10_000 {
        let tape = random_tape(&mut sequence);
        let room = if sequence.one_in(50) {
            sequence.within(0, 399) as usize
        } else {
            REPLY_BYTES + sequence.within(0, 2) as usize
        };
        seen[compare_reply(&tape, room) as usize] += 1;
    }
    assert!([0, 1, 2, 6, 8, 11].iter().all(|&number| seen[number] > 50), "{seen:?}");
}

/// Tapes of 64 to 81 rows, of which the longest have more than 400 bytes: refused 2 from 65 rows on where the tape is
/// of the form and has at most 400 bytes, else 11.
#[test]
fn replies_to_long_tapes() {
    let one_in = OneIn {
        must: 1_000,
        only: 2,
        all_day: 4,
    };
    let mut sequence = Sequence::new(710);
    let mut seen = [0; 12];
    for turn in 0..1_000 {
        let rows = sequence.within(64, 81) as usize;
        let tape = fleet_tape(&random_table(&mut sequence, rows, 1_000, 200, one_in));
        let refusal = compare_reply(&tape, REPLY_BYTES);
        assert_eq!(refusal == 11, tape.len() > FLEET_TAPE_BYTES, "{} bytes", tape.len());
        assert_eq!(
            refusal == 2,
            tape.len() <= FLEET_TAPE_BYTES && rows > MAX_ROWS,
            "{rows} rows"
        );
        seen[refusal as usize] += 1;
        let stop = tape.len() - 1;
        assert_eq!(compare_reply(&tape[..stop], REPLY_BYTES), 11);
        assert_eq!(compare_reply(&[&tape, &tape[turn % 9..]].concat(), REPLY_BYTES), 11);
    }
    assert!([0, 2, 11].iter().all(|&number| seen[number] > 20), "{seen:?}");
}
