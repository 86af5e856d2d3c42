//! The player against its rules written down independently (tests/rules/player.rs). Each start and step is made by the
//! C function, whose whole answer is compared, by the safe function over it, and by the hand port, a step once more by
//! the port with the remainder.

use super::rules::player::{self as right, Told};
use super::{random_gap, random_setting, random_table, table_of, OneIn};
use hubplan::distance::Remainder;
use hubplan::tables::{benchmark_tables, Sequence, Table};
use hubplan::{player_port, port, Kind, Player, Receiver, Refusal, Stepped, PLAN_TAPE_BYTES, SPACE_BYTES};

/// include/hubplan.h once more: the safe functions leave out what is promised of a refused player and of an idle
/// receiver.
mod c {
    #[repr(C)]
    pub struct HubPlayer {
        pub tick: u16,
    }

    #[repr(C)]
    #[derive(Debug, PartialEq)]
    pub struct HubReceiver {
        pub listening: bool,
        pub row: u8,
        pub until: u16,
    }

    #[repr(C)]
    pub struct HubStarted {
        pub refusal: u8,
        pub player: HubPlayer,
    }

    #[repr(C)]
    pub struct HubStepped {
        pub finished: bool,
        pub receiver1: HubReceiver,
        pub receiver2: HubReceiver,
        pub player: HubPlayer,
    }

    extern "C" {
        pub fn hub_player_start(tape: *const u8, tape_length: usize, first: u16) -> HubStarted;
        pub fn hub_player_step(tape: *const u8, tape_length: usize, player: HubPlayer) -> HubStepped;
    }
}

/// The session's plan tape: on receiver 1 row 0, 10 to 30, and row 3, 90 to 10; on receiver 2 row 1, 20 to 40.
const SESSION: [u8; 26] = [
    0x10, 0x00, 0x64, 0x20, 0x01, 0x30, 0x00, 0x00, 0x0a, 0x00, 0x1e, 0x30, 0x03, 0x00, 0x5a, 0x00, 0x0a, 0x20, 0x02,
    0x30, 0x01, 0x00, 0x14, 0x00, 0x28, 0x7f,
];

/// Starts a player and compares refusal and player; gives the refusal's number.
fn compare_start(tape: &[u8], first: u16, expected: (u8, u16)) -> u8 {
    let started = unsafe { c::hub_player_start(tape.as_ptr(), tape.len(), first) };
    assert_eq!(
        (started.refusal, started.player.tick),
        expected,
        "{tape:02x?} at {first}"
    );
    let result = match expected {
        (0, tick) => Ok(Player { tick }),
        (12, _) => Err(Refusal::Tape),
        _ => Err(Refusal::FirstTick),
    };
    assert_eq!(hubplan::start(tape, first), result, "{tape:02x?} at {first}");
    assert_eq!(
        player_port::start(tape, first),
        result,
        "{tape:02x?} at {first}, hand port"
    );
    started.refusal
}

/// Makes a step and compares what is told, none for finished, and the player's next tick.
fn compare_step(tape: &[u8], tick: u16, told: Option<[Told; 2]>, next: u16) {
    let stepped = unsafe { c::hub_player_step(tape.as_ptr(), tape.len(), c::HubPlayer { tick }) };
    let [receiver1, receiver2] = told.unwrap_or([None; 2]).map(|told| c::HubReceiver {
        listening: told.is_some(),
        row: told.map_or(0, |(row, _)| row),
        until: told.map_or(0, |(_, end)| end),
    });
    let given = (
        stepped.finished,
        stepped.receiver1,
        stepped.receiver2,
        stepped.player.tick,
    );
    assert_eq!(
        given,
        (told.is_none(), receiver1, receiver2, next),
        "{tape:02x?} at {tick}"
    );
    let receiver = |told: Told| told.map_or(Receiver::Idle, |(row, until)| Receiver::Listening { row, until });
    let result = Stepped {
        receivers: told.map(|both| both.map(receiver)),
        player: Player { tick: next },
    };
    assert_eq!(hubplan::step(tape, Player { tick }), result, "{tape:02x?} at {tick}");
    assert_eq!(
        player_port::step(tape, Player { tick }),
        result,
        "{tape:02x?} at {tick}, hand port"
    );
    let by_remainder = player_port::step_by::<Remainder>(tape, Player { tick });
    assert_eq!(
        by_remainder, result,
        "{tape:02x?} at {tick}, hand port with the remainder"
    );
}

/// Starts a player at each of the first ticks and follows it: two whole days and a few ticks of a round, or a run to
/// its end and beyond.
fn compare_days(tape: &[u8], firsts: impl Iterator<Item = u16>) {
    let stated = right::stated(tape).expect("ROUND or RUN");
    let ticks = stated.ticks as usize;
    let [day1, day2] = stated.days();
    for first in firsts {
        compare_start(tape, first, (0, first));
        let mut player = Player { tick: first };
        for n in 0..2 * ticks + 3 {
            let told = stated
                .tick_of_step(first, n)
                .map(|tick| [day1[tick as usize], day2[tick as usize]]);
            // where a run is finished its player stays at R
            let next = stated.tick_of_step(first, n + 1).unwrap_or(stated.ticks);
            compare_step(tape, player.tick, told, next);
            // which is what the step gave
            player.tick = next;
        }
    }
}

/// The plan tape of a table's best plan, as the library writes it; none where there is no plan.
fn plan_tape(table: &Table) -> Option<Vec<u8>> {
    let mut labels = vec![0; table.rows()];
    let mut tape = vec![0; PLAN_TAPE_BYTES];
    table.plan(port::plan, &mut labels, &mut vec![0; SPACE_BYTES]).ok()?;
    let length = table.write_plan(&labels, &mut tape).expect("the labels are a plan");
    tape.truncate(length);
    Some(tape)
}

#[test]
fn every_first_tick_of_short_days() {
    let mut sequence = Sequence::new(800);
    let (mut rounds, mut gaps, mut listens, mut all_day) = (0, 0, 0, 0);
    let one_in = OneIn {
        must: 1_000,
        only: 4,
        all_day: 4,
    };
    for _ in 0..700 {
        let (rows, ticks) = (sequence.within(0, 12) as usize, sequence.within(2, 40));
        let longest = sequence.within(1, ticks);
        let gap = random_gap(&mut sequence, ticks);
        let table = random_table(&mut sequence, rows, ticks, longest, one_in).with_gap(gap);
        let Some(tape) = plan_tape(&table) else {
            continue;
        };
        compare_days(&tape, 0..table.ticks);
        rounds += u32::from(table.kind == Kind::Round);
        gaps += u32::from(gap > 0);
        listens += tape.len() / 6 - 1;
        all_day += commands(&tape)
            .into_iter()
            .filter(|command| is_all_day(command))
            .count();
    }
    assert!(
        rounds > 200 && rounds < 400 && gaps > 200 && listens > 1_500 && all_day > 50,
        "{rounds} rounds, {gaps} tapes written with a gap, {listens} LISTENs, {all_day} of them all day"
    );
}

/// Every R: a round with one window from each to each of six ticks tells of it exactly at the ticks that lie less far
/// after its start than its end does, or always where the end is the start.
#[test]
fn every_round_by_the_remainder() {
    let (mut listening, mut idle, mut before) = (0, 0, 0);
    for ticks in 2..=43_200 {
        let chosen = [0, 1, ticks / 2 - 1, ticks / 2, ticks - 2, ticks - 1];
        for start in chosen {
            for end in chosen {
                let [[a, b], [c, d], [e, f]] = [ticks, start, end].map(u16::to_be_bytes);
                let tape = [0x10, a, b, 0x20, 1, 0x30, 5, c, d, e, f, 0x20, 2, 0x7f];
                for tick in chosen {
                    let far = |to| right::distance(ticks, start, to);
                    let told = (start == end || far(tick) < far(end)).then_some((5, end));
                    compare_step(
                        &tape,
                        tick,
                        Some([told, None]),
                        if tick + 1 == ticks { 0 } else { tick + 1 },
                    );
                    listening += u32::from(told.is_some());
                    idle += u32::from(told.is_none());
                    before += u32::from(told.is_some() && tick < start);
                }
            }
        }
    }
    println!("every R: {listening} steps that listen, {before} of them before the window's start, {idle} idle");
    assert!(listening > 1_000_000 && idle > 1_000_000 && before > 1_000_000);
}

#[test]
fn days_of_43_200_ticks() {
    for (name, table) in benchmark_tables() {
        if let Some(tape) = plan_tape(&table) {
            let first = (tape.len() * 997 % 43_200) as u16;
            compare_days(&tape, [first, 43_199].into_iter());
        } else {
            assert_eq!(name, "all must, no plan");
        }
    }
}

#[test]
fn longer_tables_at_some_ticks() {
    let mut sequence = Sequence::new(810);
    let mut most = 0;
    for _ in 0..400 {
        let rows = sequence.within(20, 64) as usize;
        let table = random_setting(&mut sequence, rows);
        let Some(tape) = plan_tape(&table) else {
            continue;
        };
        most = most.max(tape.len());
        assert!(right::is_taken(&tape));
        for _ in 0..8 {
            let first = sequence.within(0, table.ticks as u32 - 1) as u16;
            compare_start(&tape, first, (0, first));
            let (told, next) = right::stepped(&tape, first);
            compare_step(&tape, first, told, next);
        }
    }
    assert!(most > 8 + 6 * 40, "the longest tape has {most} bytes");
}

/// Small plan tapes: the session's, one of a run, windows that touch in a round, one of R 2, one without LISTENs, one
/// window that covers every tick beside two others, and two such windows.
fn small_tapes() -> Vec<Vec<u8>> {
    let of = |kind: Kind, ticks: u16, windows: &[(u16, u16)]| {
        let rows: Vec<(u16, u16, u8)> = windows.iter().map(|&(start, end)| (start, end, 0)).collect();
        plan_tape(&table_of(kind, ticks, &rows)).expect("a plan")
    };
    let tapes = vec![
        of(Kind::Round, 100, &[(10, 30), (20, 40), (25, 50), (90, 10)]),
        of(
            Kind::Run([[0, 100]; 2]),
            100,
            &[(10, 30), (20, 40), (25, 50), (90, 100)],
        ),
        of(Kind::Round, 10, &[(8, 2), (2, 8), (4, 6)]),
        of(Kind::Round, 2, &[(0, 1), (1, 0), (0, 1)]),
        of(Kind::Run([[0, 43_200]; 2]), 43_200, &[]),
        of(Kind::Round, 10, &[(3, 3), (0, 2), (5, 8)]),
        of(Kind::Round, 300, &[(299, 299), (0, 0), (7, 9)]),
    ];
    assert_eq!(tapes[0], SESSION);
    tapes
}

/// Compares the start at a tick, and a step there and at three others, on bytes that may be no plan tape.
fn compare_any(sequence: &mut Sequence, tape: &[u8], first: u16) -> u8 {
    let refusal = compare_start(tape, first, right::started(tape, first));
    let ticks = right::stated(tape).map_or(1, |stated| stated.ticks.max(1));
    let last = ticks - 1;
    for tick in [first, sequence.within(0, last as u32) as u16, last, ticks] {
        let (told, next) = right::stepped(tape, tick);
        compare_step(tape, tick, told, next);
    }
    refusal
}

#[test]
fn each_byte_changed() {
    let mut sequence = Sequence::new(820);
    let mut seen = [0; 14];
    for tape in small_tapes() {
        for at in 0..tape.len() {
            for change in 1..=255 {
                let mut changed = tape.clone();
                changed[at] ^= change;
                seen[compare_any(&mut sequence, &changed, 1) as usize] += 1;
            }
        }
    }
    // many a changed row, start or end gives another tape of the writer
    assert!(seen[0] > 500 && seen[12] > 5_000, "{seen:?}");
}

#[test]
fn bytes_cut_off_or_put_in() {
    let mut sequence = Sequence::new(830);
    for tape in small_tapes() {
        for at in 0..=tape.len() {
            let cut = compare_any(&mut sequence, &tape[..at], 0);
            assert_eq!(cut == 0, at == tape.len());
            for byte in [0x00, 0x10, 0x11, 0x20, 0x30, 0x7f, 0xff] {
                let longer = [&tape[..at], &[byte], &tape[at..]].concat();
                compare_any(&mut sequence, &longer, 0);
            }
        }
    }
}

/// The commands of a plan tape, each with its operands.
fn commands(tape: &[u8]) -> Vec<&[u8]> {
    let (mut commands, mut rest) = (vec![], tape);
    while let Some(command) = rest.first() {
        let width = match command {
            0x10 | 0x11 => 3,
            0x20 => 2,
            0x30 => 6,
            _ => 1,
        };
        let (first, after) = rest.split_at(width);
        commands.push(first);
        rest = after;
    }
    commands
}

/// Whether a command is a LISTEN whose start is its end.
fn is_all_day(command: &[u8]) -> bool {
    command[0] == 0x30 && command[2..4] == command[4..6]
}

#[test]
fn commands_left_out_doubled_or_exchanged() {
    let mut sequence = Sequence::new(835);
    for tape in small_tapes() {
        let whole = commands(&tape);
        for i in 0..whole.len() {
            let without = [&whole[..i], &whole[i + 1..]].concat();
            let refusal = compare_any(&mut sequence, &without.concat(), 0);
            assert_eq!(refusal == 0, whole[i].len() == 6, "only a LISTEN can be left out");
            let doubled = [&whole[..=i], &whole[i..]].concat();
            assert_eq!(compare_any(&mut sequence, &doubled.concat(), 0), 12);
            for j in 0..i {
                let mut exchanged = whole.clone();
                exchanged.swap(i, j);
                compare_any(&mut sequence, &exchanged.concat(), 0);
            }
        }
    }
}

fn put_word(tape: &mut Vec<u8>, word: u32) {
    tape.extend((word as u16).to_be_bytes());
}

/// A tape of the form of a plan tape, or almost, with any rows and windows: its LISTENs in order or not, over each
/// other or not.
fn random_form(sequence: &mut Sequence) -> Vec<u8> {
    let ticks = [0, 1, 2, 3, 10, 20, 100, 300, 43_200, 43_201, 65_535][sequence.within(0, 10) as usize];
    let mut tape = vec![0x10 + sequence.within(0, 1) as u8];
    put_word(&mut tape, ticks);
    let most = sequence.within(0, 4);
    for number in [1, 2] {
        tape.extend([
            0x20,
            if sequence.one_in(30) {
                sequence.within(0, 3) as u8
            } else {
                number
            },
        ]);
        let mut listens: Vec<[u32; 3]> = (0..sequence.within(0, most))
            .map(|_| {
                let row = if sequence.one_in(8) { 62 } else { 0 } + sequence.within(0, 8);
                let latest = if sequence.one_in(20) {
                    ticks
                } else {
                    ticks.saturating_sub(1)
                };
                let start = sequence.within(0, latest);
                let length = if sequence.one_in(8) {
                    0
                } else {
                    sequence.within(0, ticks / 4 + 1)
                };
                let end = if sequence.one_in(2) {
                    start + length
                } else {
                    (start + length) % ticks.max(1)
                };
                [row, start, end]
            })
            .collect();
        if !sequence.one_in(5) {
            listens.sort_by_key(|listen| listen[1]);
        }
        for [row, start, end] in listens {
            tape.extend([0x30, row as u8]);
            put_word(&mut tape, start);
            put_word(&mut tape, end);
        }
    }
    if !sequence.one_in(30) {
        tape.push(0x7f);
    }
    tape
}

#[test]
fn forms_with_any_rows_and_windows() {
    let mut sequence = Sequence::new(840);
    let (mut seen, mut all_day) = ([0; 14], [[0; 14]; 2]);
    for _ in 0..40_000 {
        let tape = random_form(&mut sequence);
        let first = sequence.within(0, 12) as u16;
        let refusal = compare_any(&mut sequence, &tape, first) as usize;
        seen[refusal] += 1;
        if commands(&tape).into_iter().any(is_all_day) {
            all_day[tape[0] as usize - 0x10][refusal] += 1;
        }
    }
    assert!(seen[0] > 2_000 && seen[12] > 10_000 && seen[13] > 500, "{seen:?}");
    let [round, run] = all_day;
    assert!(
        round[0] > 500 && round[12] > 2_000 && round[13] > 100,
        "tapes of a round with LISTEN s s: {round:?}"
    );
    assert!(
        run[12] > 2_000 && run[0] + run[13] == 0,
        "tapes of a run with LISTEN s s: {run:?}"
    );
}

#[test]
fn steps_on_any_bytes_with_any_player() {
    let mut sequence = Sequence::new(850);
    let (mut finished, mut listening) = (0, 0);
    for _ in 0..40_000 {
        // mostly tapes of about the form, so that a step reads far
        let (mut tape, changes) = match sequence.one_in(8) {
            true => (vec![], sequence.within(0, 30)),
            false => (random_form(&mut sequence), sequence.within(0, 2)),
        };
        for _ in 0..changes {
            let byte = [0x10, 0x11, 0x20, 0x30, 0x30, 0x7f, 0, sequence.next() as u8][sequence.within(0, 7) as usize];
            let at = sequence.within(0, tape.len() as u32) as usize;
            match sequence.within(0, 3) {
                0 if at < tape.len() => tape[at] = byte,
                1 if changes <= 2 => tape.truncate(at),
                _ => tape.insert(at, byte),
            }
        }
        for most in [0, 9, 99, 65_535] {
            let tick = sequence.within(0, most) as u16;
            let (told, next) = right::stepped(&tape, tick);
            compare_step(&tape, tick, told, next);
            finished += u32::from(told.is_none());
            listening += u32::from(told.is_some_and(|both| both != [None; 2]));
        }
    }
    assert!(
        finished > 20_000 && listening > 5_000,
        "{finished} finished, {listening} listening"
    );
}

/// A tape with other bytes at some places.
fn with_bytes(tape: [u8; 26], changes: &[(usize, u8)]) -> [u8; 26] {
    let mut other = tape;
    for &(at, byte) in changes {
        other[at] = byte;
    }
    other
}

/// Starts at tick 0 on a tape of which it is known whether it is taken; the player of a refused start is finished on
/// every tape.
fn by_hand(tape: &[u8], taken: bool) {
    assert_eq!(right::is_taken(tape), taken, "{tape:02x?}");
    compare_start(tape, 0, if taken { (0, 0) } else { (12, 65_535) });
    if !taken {
        for other in [&SESSION[..], &[], tape] {
            compare_step(other, 65_535, None, 65_535);
        }
    }
}

/// The session's tape with bytes changed, as a round and as a run in which row 3 ends at R, and whether it is then
/// taken. LISTEN stands at 5 and 11 for receiver 1, at 19 for receiver 2: command, row, start, end.
#[test]
fn changes_of_the_session_by_hand() {
    type Case<'a> = (&'a [(usize, u8)], bool);
    let round: [Case; 55] = [
        (&[], true),
        // receivers exchanged, twice the same, none
        (&[(4, 2), (18, 1)], false),
        (&[(4, 2)], false),
        (&[(18, 1)], false),
        (&[(4, 0)], false),
        (&[(18, 3)], false),
        // other commands of plan tapes
        (&[(0, 0x11)], false),
        (&[(0, 0x20)], false),
        (&[(3, 0x30)], false),
        (&[(5, 0x20)], false),
        (&[(5, 0x7f)], false),
        (&[(11, 0x20)], false),
        (&[(11, 0x7f)], false),
        (&[(17, 0x30)], false),
        (&[(17, 0x7f)], false),
        (&[(19, 0x20)], false),
        (&[(19, 0x7f)], false),
        (&[(25, 0x20)], false),
        (&[(25, 0x30)], false),
        // rows 63, 64 and 255; a row twice on one receiver, and on both
        (&[(12, 63)], true),
        (&[(12, 64)], false),
        (&[(12, 255)], false),
        (&[(20, 64)], false),
        (&[(12, 0)], false),
        (&[(20, 0)], false),
        (&[(20, 3)], false),
        (&[(20, 2)], true),
        // row 3 from 90 to 100, 99 and 0; from 100 and 99 to 10; to 65,290; from 65,370
        (&[(16, 100)], false),
        (&[(16, 99)], true),
        (&[(16, 0)], true),
        (&[(14, 100)], false),
        (&[(14, 99)], true),
        (&[(15, 255)], false),
        (&[(13, 255)], false),
        // row 1 from s to s, alone on its receiver: s below R
        (&[(24, 20)], true),
        (&[(22, 0), (24, 0)], true),
        (&[(22, 99), (24, 99)], true),
        (&[(22, 100), (24, 100)], false),
        // beside another row on its receiver it overlaps
        (&[(10, 10)], false),
        (&[(16, 90)], false),
        (&[(10, 10), (16, 90)], false),
        // row 0 is 10 to 30, and row 3 from 29 and 30 to 10, and from 90 to 11; or row 0 ends at 90, 91 and 5; touching
        // is taken
        (&[(14, 29)], false),
        (&[(14, 30)], true),
        (&[(16, 11)], false),
        (&[(10, 90)], true),
        (&[(10, 91)], false),
        (&[(10, 5)], false),
        (&[(14, 10), (16, 20)], false),
        (&[(14, 20), (16, 25)], false),
        (&[(14, 31), (16, 30)], false),
        // not by rising start, though nothing overlaps
        (&[(14, 0)], false),
        (&[(14, 5), (16, 9)], false),
        // R 50, which is not above 90; R 0 and 1
        (&[(2, 50)], false),
        (&[(2, 0)], false),
        (&[(2, 1)], false),
    ];
    let run: [Case; 20] = [
        (&[], true),
        (&[(16, 101)], false),
        (&[(16, 90)], false),
        (&[(16, 89)], false),
        (&[(16, 91)], true),
        (&[(14, 99)], true),
        (&[(14, 100)], false),
        (&[(10, 10)], false),
        (&[(10, 9)], false),
        (&[(14, 100), (16, 101)], false),
        // from s to s, which a run refuses
        (&[(24, 20)], false),
        (&[(22, 0), (24, 0)], false),
        (&[(22, 99), (24, 99)], false),
        (&[(22, 100), (24, 100)], false),
        // row 0 is 10 to 30, and row 3 from 29, 30, 10 and 9 to 100; before it, though nothing overlaps
        (&[(14, 29)], false),
        (&[(14, 30)], true),
        (&[(14, 10)], false),
        (&[(14, 9)], false),
        (&[(14, 0), (16, 10)], false),
        (&[(0, 0x10)], false),
    ];
    for (changes, taken) in round {
        by_hand(&with_bytes(SESSION, changes), taken);
    }
    for (changes, taken) in run {
        by_hand(
            &with_bytes(with_bytes(SESSION, &[(0, 0x11), (16, 100)]), changes),
            taken,
        );
    }
    for at in [0, 3, 5, 11, 17, 19, 25] {
        // commands of fleet tapes, and none
        for byte in [0x00, 0x40, 0x41, 0x50, 0xff] {
            by_hand(&with_bytes(SESSION, &[(at, byte)]), false);
        }
    }
    for at in 0..26 {
        by_hand(&SESSION[..at], false);
    }
}

/// Short tapes, with and without RECEIVERs and LISTENs in their places, and whether they are taken.
#[test]
fn forms_by_hand() {
    let (one, two): (&[u8], &[u8]) = (&[0x20, 1], &[0x20, 2]);
    let (late, early): (&[u8], &[u8]) = (&[0x30, 0, 0, 30, 0, 40], &[0x30, 1, 0, 20, 0, 30]);
    let cases: [(&[&[u8]], bool); 16] = [
        (&[one, two, &[0x7f]], true),
        (&[one, two, &[0x7f, 0x7f]], false),
        (&[one, two, &[0x7f, 0x00]], false),
        (&[one, two], false),
        (&[one, &[0x7f]], false),
        (&[two, &[0x7f]], false),
        (&[&[0x7f]], false),
        (&[two, one, &[0x7f]], false),
        (&[one, two, two, &[0x7f]], false),
        (&[one, one, two, &[0x7f]], false),
        (&[late, one, two, &[0x7f]], false),
        (&[&[0x40, 0, 10, 0, 30, 0x7f]], false),
        (&[one, two, early, late, &[0x7f]], true),
        (&[one, two, late, early, &[0x7f]], false),
        (&[one, early, late, two, &[0x7f]], true),
        (&[one, late, early, two, &[0x7f]], false),
    ];
    for command in [0x10, 0x11] {
        for (parts, taken) in cases {
            by_hand(&[&[command, 0, 100], &parts.concat()[..]].concat(), taken);
        }
        // R 0, 1, 2, 43,200, 43,201 and 65,535
        for (ticks, taken) in [
            (0u16, false),
            (1, false),
            (2, true),
            (43_200, true),
            (43_201, false),
            (65_535, false),
        ] {
            let [high, low] = ticks.to_be_bytes();
            by_hand(&[command, high, low, 0x20, 1, 0x20, 2, 0x7f], taken);
        }
    }
    by_hand(&[0x20, 1, 0x20, 2, 0x7f], false);
    // from the last tick of the longest round to 0, to itself, and to R; from R to R
    for (start, end, taken) in [
        (43_199u16, 0u16, true),
        (43_199, 43_199, true),
        (43_199, 43_200, false),
        (43_200, 43_200, false),
    ] {
        let ([a, b], [c, d]) = (start.to_be_bytes(), end.to_be_bytes());
        by_hand(&[0x10, 0xa8, 0xc0, 0x20, 1, 0x30, 0, a, b, c, d, 0x20, 2, 0x7f], taken);
    }
}

/// LISTENs of so many rows on receiver 1, each 512 ticks after the one before, the last of this row: 64 of different
/// rows are taken, 65 never are.
#[test]
fn as_many_listens_as_there_are_rows_and_one_more() {
    for command in [0x10, 0x11] {
        for (listens, last, taken) in [(64u8, 63u8, true), (64, 0, false), (65, 64, false), (65, 0, false)] {
            let mut tape = vec![command, 0xa8, 0xc0, 0x20, 1];
            for i in 0..listens {
                tape.extend([0x30, if i + 1 == listens { last } else { i }, 2 * i, 0, 2 * i + 2, 0]);
            }
            tape.extend([0x20, 2, 0x7f]);
            by_hand(&tape, taken);
        }
    }
}

/// Each window of each round and run of up to 24 ticks, on either receiver, at each tick.
#[test]
fn every_window_of_short_days() {
    let mut listening = [0; 2];
    for (run, command) in [(false, 0x10), (true, 0x11)] {
        for ticks in 2..=24u8 {
            for start in 0..ticks {
                for end in 0..=ticks {
                    let (one, listen) = ([command, 0, ticks, 0x20, 1], [0x30, 5, 0, start, 0, end]);
                    let tapes = [[&one[..], &listen, &[0x20, 2, 0x7f]], [&one, &[0x20, 2], &listen]]
                        .map(|parts| parts.concat());
                    for (receiver, tape) in tapes.iter().enumerate() {
                        for tick in 0..ticks {
                            // ahead of the start the window lies in a run nowhere, and in a round if it goes on over
                            // the end of the day
                            let covered = if start < end {
                                start <= tick && tick < end && (run || end < ticks)
                            } else {
                                !run && (start <= tick || tick < end)
                            };
                            let told = covered.then_some((5, end as u16));
                            let both = if receiver == 0 { [told, None] } else { [None, told] };
                            let next = if !run && tick + 1 == ticks { 0 } else { tick + 1 };
                            compare_step(tape, tick as u16, Some(both), next as u16);
                            listening[run as usize] += u32::from(covered);
                        }
                    }
                }
            }
        }
    }
    assert!(listening.iter().all(|&steps| steps > 30_000), "{listening:?}");
}

#[test]
fn first_ticks_and_the_order_of_refusals() {
    for tape in small_tapes() {
        let ticks = right::stated(&tape).expect("ROUND or RUN").ticks;
        compare_start(&tape, 0, (0, 0));
        compare_start(&tape, ticks - 1, (0, ticks - 1));
        compare_start(&tape, ticks, (13, 65_535));
        compare_start(&tape, 65_535, (13, 65_535));
        // 12 comes before 13
        for first in [0, ticks, 65_535] {
            compare_start(&tape[..tape.len() - 1], first, (12, 65_535));
        }
        // a refused player is finished on every tape
        assert_eq!(Player::FINISHED, Player { tick: 65_535 });
        compare_step(&tape, 65_535, None, 65_535);
        compare_step(&[0x10, 0xff, 0xff, 0x20, 0x01, 0x20, 0x02, 0x7f], 65_535, None, 65_535);
        compare_step(&[0x11, 0xff, 0xff, 0x20, 0x01, 0x20, 0x02, 0x7f], 65_535, None, 65_535);
    }
}

/// LISTEN s s as the only one of a round: written, read back and played for two days. At every tick, the end itself
/// included, the player gives the window's end as the tick until which the receiver listens.
#[test]
fn the_end_is_told_all_day() {
    for (ticks, s) in [(2, 0), (2, 1), (10, 0), (10, 7), (10, 9), (43_200, 0), (43_200, 43_199)] {
        let tape = plan_tape(&table_of(Kind::Round, ticks, &[(s, s, 0)])).expect("a plan");
        let ([a, b], [c, d]) = (ticks.to_be_bytes(), s.to_be_bytes());
        assert_eq!(tape, [0x10, a, b, 0x20, 1, 0x30, 0, c, d, c, d, 0x20, 2, 0x7f]);
        for n in 0..2 * ticks as u32 {
            let tick = |n: u32| (n % ticks as u32) as u16;
            compare_step(&tape, tick(n), Some([Some((0, s)), None]), tick(n + 1));
        }
        compare_days(&tape, [s, 0, ticks - 1].into_iter());
    }
}

/// LISTEN s s with s from 0 to R, as the only one of a tape: 12 at R and above in a round, and in a run always. A step
/// passes over a window that breaks the rules.
#[test]
fn listen_s_s_in_rounds_and_runs() {
    for command in [0x10, 0x11] {
        for s in [0, 4, 9, 10, 11, 255] {
            let taken = command == 0x10 && s < 10;
            let tape = [command, 0, 10, 0x20, 1, 0x20, 2, 0x30, 63, 0, s, 0, s, 0x7f];
            compare_start(&tape, 4, if taken { (0, 4) } else { (12, 65_535) });
            let told = if taken { Some((63, s as u16)) } else { None };
            compare_step(&tape, 4, Some([None, told]), 5);
            // beside another of the same receiver, before it or after it, it overlaps
            let listen = [0x30, 5, 0, 6, 0, 7];
            for beside in [
                [&tape[..7], &listen, &tape[7..]].concat(),
                [&tape[..13], &listen, &tape[13..]].concat(),
            ] {
                compare_start(&beside, 4, (12, 65_535));
            }
            // and not beside one of the other
            let other = [&tape[..5], &listen, &tape[5..]].concat();
            compare_start(&other, 4, if taken { (0, 4) } else { (12, 65_535) });
        }
    }
}

#[test]
fn the_session_at_some_ticks() {
    let of = |tick: u16| right::stepped(&SESSION, tick);
    assert_eq!(of(9), (Some([Some((3, 10)), None]), 10));
    assert_eq!(of(10), (Some([Some((0, 30)), None]), 11));
    assert_eq!(of(20), (Some([Some((0, 30)), Some((1, 40))]), 21));
    assert_eq!(of(40), (Some([None, None]), 41));
    assert_eq!(of(99), (Some([Some((3, 10)), None]), 0));
    assert_eq!(of(100), (None, 100));
    compare_days(&SESSION, 0..100);
}
