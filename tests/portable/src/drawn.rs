//! Calls from pseudo-random sequences: whole ones, of tables of up to 64 rows with their plans, tapes and words, and damaged ones, in which one or two things are changed.

use crate::functions::Function;
use crate::given::{by_proved, Given, List};
use hubplan::tables::{random_hours, Sequence};
use hubplan::{MAX_GAP, MAX_ROWS, PLAN_TAPE_BYTES, REPLY_BYTES, SPACE_BYTES};

fn one_of<T: Copy>(sequence: &mut Sequence, items: &[T]) -> T {
    items[sequence.within(0, items.len() as u32 - 1) as usize]
}

fn byte(sequence: &mut Sequence) -> u8 {
    sequence.within(0, 255) as u8
}

fn word(sequence: &mut Sequence) -> u16 {
    sequence.within(0, 65_535) as u16
}

/// How many rows: mostly few, so that many calls are made in a second.
fn row_count(sequence: &mut Sequence, most: usize) -> usize {
    let rows = match sequence.within(0, 29) {
        0..=1 => 0,
        2..=20 => sequence.within(1, 8),
        21..=27 => sequence.within(9, 20),
        28 => sequence.within(21, 64),
        _ => 64,
    };
    (rows as usize).min(most)
}

/// A window of a round or a run of so many ticks: anywhere, or short.
fn window(sequence: &mut Sequence, is_run: bool, ticks: u32) -> (u16, u16) {
    let longest = if sequence.one_in(3) { ticks } else { (ticks / 8).max(1) };
    let length = sequence.within(1, longest);
    if is_run {
        let start = sequence.within(0, ticks - length);
        return (start as u16, (start + length) as u16);
    }
    let start = sequence.within(0, ticks - 1);
    (start as u16, ((start + length) % ticks) as u16)
}

/// So many windows with marks, which are all 0, or any of 0 to 5 with few that must be heard.
fn windows(sequence: &mut Sequence, is_run: bool, ticks: u32, rows: usize) -> (Vec<u16>, Vec<u16>, Vec<u8>) {
    let plain = sequence.one_in(2);
    let mut lists = (vec![], vec![], vec![]);
    for _ in 0..rows {
        let (start, end) = window(sequence, is_run, ticks);
        let must = sequence.one_in(8) as u8;
        lists.0.push(start);
        lists.1.push(end);
        lists
            .2
            .push(if plain { 0 } else { one_of(sequence, &[0, 2, 4]) + must });
    }
    lists
}

/// A list that holds one value, and others at its front.
fn filled(sequence: &mut Sequence, length: usize) -> Vec<u8> {
    let mut list = vec![byte(sequence); length];
    for place in list.iter_mut().take(4) {
        *place = byte(sequence);
    }
    list
}

/// The fleet tape of a table of a round or a run.
pub fn fleet_tape(given: &Given, is_run: bool) -> Vec<u8> {
    let mut tape = vec![if is_run { 0x11 } else { 0x10 }];
    tape.extend(given.ticks.to_be_bytes());
    if is_run {
        tape.push(0x50);
        tape.extend(given.hours.iter().flat_map(|hour| hour.to_be_bytes()));
    }
    for i in 0..given.starts.len() {
        tape.push(0x40 + given.marks[i]);
        tape.extend(given.starts[i].to_be_bytes());
        tape.extend(given.ends[i].to_be_bytes());
    }
    tape.push(0x7F);
    tape
}

/// The labels of the plan, and their tape: labels that nothing is known of, and no tape, where there is no plan.
fn plan(given: &mut Given, is_run: bool) -> Vec<u8> {
    let (plan, write) = if is_run {
        (Function::PlanRun, Function::WritePlanRun)
    } else {
        (Function::PlanRound, Function::WritePlanRound)
    };
    let mut planned = given.clone();
    planned.out = vec![0; PLAN_TAPE_BYTES];
    by_proved(plan, &mut planned);
    given.labels.clone_from(&planned.labels);
    let written = by_proved(write, &mut planned);
    planned.out.truncate(written[1] as usize);
    planned.out
}

/// A table with all that goes with it, as a caller would lend it to the function.
pub fn whole(sequence: &mut Sequence, function: Function) -> Given {
    let is_run = function.is_of_run() || (!function.is_of_round() && sequence.one_in(2));
    let most = one_of(sequence, &[12, 100, 1_440, 43_200]);
    let ticks = sequence.within(2, most);
    let mut given = Given {
        ticks: ticks as u16,
        gap: one_of(sequence, &[0, 0, 1, MAX_GAP]).min(sequence.within(0, 600) as u16),
        hours: random_hours(sequence, ticks)
            .as_flattened()
            .try_into()
            .expect("four hours"),
        tick: sequence.within(0, ticks - 1) as u16,
        ..Given::default()
    };
    let rows = row_count(
        sequence,
        if function == Function::HeldAdd {
            MAX_ROWS - 1
        } else {
            MAX_ROWS
        },
    );
    (given.starts, given.ends, given.marks) = windows(sequence, is_run, ticks, rows);
    let tried = row_count(sequence, 64).min(if sequence.one_in(50) { 64 } else { 6 });
    (given.candidate_starts, given.candidate_ends, given.candidate_marks) = windows(sequence, is_run, ticks, tried);
    (given.numbers, given.counts) = (filled(sequence, tried), filled(sequence, tried));
    let spare = if sequence.one_in(4) {
        sequence.within(1, 40) as usize
    } else {
        0
    };
    given.space = filled(sequence, SPACE_BYTES + spare);
    given.out = filled(sequence, REPLY_BYTES + spare);
    given.labels = filled(sequence, rows);
    given.words = vec![sequence.next(); rows];
    given.tape = fleet_tape(&given, is_run);
    if function.is_of_plan() {
        let tape = plan(&mut given, is_run);
        if function.is_of_player() {
            given.tape = tape;
        }
        if function == Function::LabelsOfWords {
            let words = by_proved(Function::WordsOfLabels, &mut given.clone());
            (given.heard, given.receiver) = (words[2], words[3]);
        }
    }
    if function.has_places() {
        held(&mut given, sequence, ticks);
    }
    given
}

/// Lists of 64 places, a row to be added, and one to be withdrawn.
fn held(given: &mut Given, sequence: &mut Sequence, ticks: u32) {
    given.rows = given.starts.len();
    given.count = sequence.within(0, 64) as usize;
    given.row = sequence.within(0, (given.rows as u32).max(1) - 1) as usize;
    (given.start, given.end) = window(sequence, false, ticks);
    given.mark = one_of(sequence, &[0, 0, 1, 2, 3, 4, 5]);
    given.starts.resize(MAX_ROWS, word(sequence));
    given.ends.resize(MAX_ROWS, word(sequence));
    given.marks.resize(MAX_ROWS, byte(sequence));
    given.labels.resize(MAX_ROWS, byte(sequence));
}

/// Changes how long a list is: by one, to none, to just above 64 places, or to any length up to 80.
fn resize<T: Clone + Default>(sequence: &mut Sequence, list: &mut Vec<T>) {
    let length = match sequence.within(0, 4) {
        0 => list.len() + 1,
        1 => list.len().saturating_sub(1),
        2 => 0,
        3 => sequence.within(65, 66) as usize,
        _ => sequence.within(0, 80) as usize,
    };
    list.resize(length, T::default());
}

/// Changes one place of a list.
fn poke<T>(sequence: &mut Sequence, list: &mut [T], value: T) {
    if !list.is_empty() {
        list[sequence.within(0, list.len() as u32 - 1) as usize] = value;
    }
}

/// All lists of a table become one row longer than they may be, or as long as any.
fn lengthen(sequence: &mut Sequence, given: &mut Given) {
    let rows = one_of(sequence, &[63, 64, 65, 66, 200]);
    given.starts.resize(rows, 0);
    given.ends.resize(rows, 1);
    given.marks.resize(rows, 0);
    given.labels.resize(rows, 0);
    given.words.resize(rows, 0);
}

/// A fleet tape with more rows, a tape with other ticks or first hours, with a byte changed, cut short or with more bytes.
fn damage_tape(sequence: &mut Sequence, tape: &mut Vec<u8>) {
    match sequence.within(0, 7) {
        0 => {
            let rows = one_of(sequence, &[64, 65, 78, 79]);
            let stop = tape.pop();
            tape.extend([0x40, 0, 0, 0, 1].repeat(rows - rows.min(tape.len() / 5)));
            tape.extend(stop);
        }
        1 => tape.truncate(sequence.within(0, tape.len() as u32) as usize),
        2 => tape.push(byte(sequence)),
        3 => {
            let small = sequence.within(0, 5) as u8;
            poke(sequence, tape, small);
        }
        4 if tape.len() > 8 => {
            let at = one_of(sequence, &[1, 4, 6]);
            let number: u16 = one_of(sequence, &[0, 1, 2, 43_200, 43_201, 65_535]);
            tape[at..at + 2].copy_from_slice(&number.to_be_bytes());
        }
        _ => {
            let value = one_of(sequence, &[0x10, 0x11, 0x20, 0x30, 0x40, 0x45, 0x46, 0x50, 0x7F, 0xFF]);
            poke(sequence, tape, value);
        }
    }
}

/// Changes a number.
fn damage_number(sequence: &mut Sequence, given: &mut Given) {
    match sequence.within(0, 6) {
        0 => given.ticks = one_of(sequence, &[0, 1, 2, 43_200, 43_201, 65_535]),
        1 => given.gap = one_of(sequence, &[600, 601, 65_535]),
        2 => given.hours[sequence.within(0, 3) as usize] = word(sequence),
        3 => (given.start, given.end) = (word(sequence), word(sequence)),
        4 => given.mark = one_of(sequence, &[1, 3, 5, 6, 255]),
        5 => {
            given.tick = one_of(sequence, &[0, 1, 65_534, 65_535]);
            given.row = one_of(sequence, &[0, 63, 64, u32::MAX as usize]);
            given.rows = one_of(sequence, &[0, 1, 63, 64, 65, u32::MAX as usize]);
            given.count = one_of(sequence, &[0, u32::MAX as usize]);
        }
        _ => {
            given.heard ^= 1 << sequence.within(0, 63);
            given.receiver ^= 1 << sequence.within(0, 63);
        }
    }
}

/// Changes how long a list is, or all lists of a table.
fn damage_length(sequence: &mut Sequence, given: &mut Given) {
    match sequence.within(0, 7) {
        0 => resize(sequence, &mut given.starts),
        1 => resize(sequence, &mut given.ends),
        2 => resize(sequence, &mut given.marks),
        3 => resize(sequence, &mut given.labels),
        4 => match sequence.within(0, 4) {
            0 => resize(sequence, &mut given.candidate_starts),
            1 => resize(sequence, &mut given.candidate_ends),
            2 => resize(sequence, &mut given.candidate_marks),
            3 => resize(sequence, &mut given.numbers),
            _ => resize(sequence, &mut given.counts),
        },
        5 => given
            .space
            .resize(one_of(sequence, &[0, 1, SPACE_BYTES - 1, SPACE_BYTES + 1]), 7),
        6 => given
            .out
            .resize(one_of(sequence, &[0, 8, 20, REPLY_BYTES - 1, REPLY_BYTES]), 7),
        _ => lengthen(sequence, given),
    }
}

/// Changes a place of a list.
fn damage_place(sequence: &mut Sequence, given: &mut Given) {
    let (number, mark, label) = (
        word(sequence),
        one_of(sequence, &[1, 3, 5, 6, 255]),
        one_of(sequence, &[0, 1, 2, 3, 255]),
    );
    match sequence.within(0, 4) {
        0 => poke(sequence, &mut given.starts, number),
        1 => poke(sequence, &mut given.ends, number),
        2 => poke(sequence, &mut given.candidate_starts, number),
        3 => {
            poke(sequence, &mut given.marks, mark);
            poke(sequence, &mut given.candidate_marks, mark);
        }
        _ => poke(sequence, &mut given.labels, label),
    }
}

/// Changes one thing that a call is given; of a function that takes a tape, every other time the tape.
fn damage(sequence: &mut Sequence, function: Function, given: &mut Given) {
    if function.takes().contains(&List::Tape) && sequence.one_in(2) {
        return damage_tape(sequence, &mut given.tape);
    }
    match sequence.within(0, 2) {
        0 => damage_number(sequence, given),
        1 => damage_length(sequence, given),
        _ => damage_place(sequence, given),
    }
}

/// A call of the function: every other one damaged, in one thing or two.
pub fn drawn(sequence: &mut Sequence, function: Function) -> Given {
    let mut given = whole(sequence, function);
    if sequence.one_in(2) {
        damage(sequence, function, &mut given);
        if sequence.one_in(4) {
            damage(sequence, function, &mut given);
        }
    }
    given
}
