//! The proved hub planner for Rust: safe functions over the C interface of the crate `hub_c`.
//!
//! What each function promises is proved of the function that it calls (crates/hub_c). Here only slices are taken apart
//! into addresses and lengths, and Rust's borrow rules see to it that the lists of one call do not overlap. With the
//! feature `portable`, and on any target but x86-64 Linux, the functions called are those of the portable crate
//! (docs/PORTABLE.md).

pub mod candidates;
pub mod distance;
pub mod first_free;
pub mod held;
pub mod label_by_label;
pub mod player_port;
pub mod port;
pub mod tables;
pub mod words;

/// The most rows of a table, and the places of each list of a held table.
pub const MAX_ROWS: usize = 64;

/// The most candidates of a call.
pub const MAX_CANDIDATES: usize = 64;

/// The shortest working space that is not refused, `Refusal::Space`, and how many of its bytes a call clears that
/// clears any.
pub const SPACE_BYTES: usize = 4_608;

/// The longest plan tape: 8 bytes and 6 for each of 64 rows.
pub const PLAN_TAPE_BYTES: usize = 392;

/// The longest fleet tape that `reply` takes.
pub const FLEET_TAPE_BYTES: usize = 400;

/// The room that `reply` asks for; the longest text has 319 bytes.
pub const REPLY_BYTES: usize = 400;

/// The longest gap that a receiver can need between two windows, in ticks.
pub const MAX_GAP: u16 = 600;

/// The marks of a row: whether it may or must be heard, and by which receivers. A mark above 5 is refused,
/// `Refusal::Mark`.
pub mod mark {
    /// May be heard, by either receiver.
    pub const MAY: u8 = 0;
    /// Must be heard, by either receiver.
    pub const MUST: u8 = 1;
    /// May be heard, by receiver 1 only.
    pub const MAY_1: u8 = 2;
    /// Must be heard, by receiver 1 only.
    pub const MUST_1: u8 = 3;
    /// May be heard, by receiver 2 only.
    pub const MAY_2: u8 = 4;
    /// Must be heard, by receiver 2 only.
    pub const MUST_2: u8 = 5;
}

/// Why a call is refused; the values are the numbers of the refusals (docs/RULES.md, Refusals).
#[derive(Clone, Copy, Debug, PartialEq, Eq)]
#[repr(u8)]
pub enum Refusal {
    Lists = 1,
    Rows = 2,
    Space = 3,
    Ticks = 4,
    Hours = 5,
    Window = 6,
    Mark = 7,
    NoPlan = 8,
    NotPlan = 9,
    Buffer = 10,
    Form = 11,
    Tape = 12,
    FirstTick = 13,
    Gap = 14,
    NoRow = 15,
    Candidates = 16,
}

impl Refusal {
    pub fn number(self) -> u8 {
        self as u8
    }

    fn of_number(number: u8) -> Refusal {
        match number {
            1 => Refusal::Lists,
            2 => Refusal::Rows,
            3 => Refusal::Space,
            4 => Refusal::Ticks,
            5 => Refusal::Hours,
            6 => Refusal::Window,
            7 => Refusal::Mark,
            8 => Refusal::NoPlan,
            9 => Refusal::NotPlan,
            10 => Refusal::Buffer,
            11 => Refusal::Form,
            12 => Refusal::Tape,
            13 => Refusal::FirstTick,
            14 => Refusal::Gap,
            15 => Refusal::NoRow,
            _ => Refusal::Candidates,
        }
    }
}

/// A round, or a run with the open hours of receiver 1 and receiver 2, each from p to q.
#[derive(Clone, Copy, Debug, PartialEq, Eq)]
pub enum Kind {
    Round,
    Run([[u16; 2]; 2]),
}

/// What a fleet tape states beside its rows.
#[derive(Clone, Copy, Debug, PartialEq, Eq)]
pub struct Fleet {
    pub kind: Kind,
    pub ticks: u16,
    pub rows: usize,
}

/// A player of a plan tape: the tick of its next step. On a tape whose ticks are not above it the player is finished.
#[derive(Clone, Copy, Debug, PartialEq, Eq)]
pub struct Player {
    pub tick: u16,
}

impl Player {
    /// Finished on every tape: no tape has more ticks than 65,535.
    pub const FINISHED: Player = Player { tick: u16::MAX };
}

/// What a receiver does at a tick; `until` is the window's end as taped, also at the end itself where the window covers
/// every tick.
#[derive(Clone, Copy, Debug, PartialEq, Eq)]
pub enum Receiver {
    Idle,
    Listening { row: u8, until: u16 },
}

/// What a step gives: what receivers 1 and 2 do at its tick, `None` where the player is finished, and the player of the
/// next step.
#[derive(Clone, Copy, Debug, PartialEq, Eq)]
pub struct Stepped {
    pub receivers: Option<[Receiver; 2]>,
    pub player: Player,
}

/// The C functions as include/hubplan.h declares them, for what compares them whole; all else has the safe functions.
pub mod c {
    use crate::held::Numbers;

    #[repr(C)]
    pub struct HubAnswer {
        pub refusal: u8,
        pub count: usize,
    }

    #[repr(C)]
    pub struct HubReport {
        pub refusal: u8,
        pub run: bool,
        pub ticks: u16,
        pub p1: u16,
        pub q1: u16,
        pub p2: u16,
        pub q2: u16,
        pub rows: usize,
    }

    #[repr(C)]
    pub struct HubPlayer {
        pub tick: u16,
    }

    #[repr(C)]
    pub struct HubReceiver {
        pub listening: bool,
        pub row: u8,
        pub until: u16,
    }

    #[repr(C)]
    pub struct HubStarted {
        pub refusal: u8,
        pub player: HubPlayer,
    }

    #[repr(C)]
    pub struct HubStepped {
        pub finished: bool,
        pub receiver1: HubReceiver,
        pub receiver2: HubReceiver,
        pub player: HubPlayer,
    }

    #[repr(C)]
    pub struct HubHeldBegun {
        pub refusal: u8,
        pub numbers: Numbers,
    }

    #[repr(C)]
    pub struct HubHeldChange {
        pub refusal: u8,
        pub count: usize,
        pub numbers: Numbers,
    }

    #[repr(C)]
    pub struct HubTried {
        pub refusal: u8,
        pub rows: usize,
    }

    #[repr(C)]
    pub struct HubLabelWords {
        pub refusal: u8,
        pub count: usize,
        pub heard: u64,
        pub receiver: u64,
    }

    #[repr(C)]
    pub struct HubMustWord {
        pub refusal: u8,
        pub word: u64,
    }

    extern "C" {
        pub fn hub_plan_round(
            ticks: u16,
            gap: u16,
            starts: *const u16,
            starts_length: usize,
            ends: *const u16,
            ends_length: usize,
            marks: *const u8,
            marks_length: usize,
            labels: *mut u8,
            labels_length: usize,
            space: *mut u8,
            space_length: usize,
        ) -> HubAnswer;
        pub fn hub_plan_run(
            ticks: u16,
            gap: u16,
            p1: u16,
            q1: u16,
            p2: u16,
            q2: u16,
            starts: *const u16,
            starts_length: usize,
            ends: *const u16,
            ends_length: usize,
            marks: *const u8,
            marks_length: usize,
            labels: *mut u8,
            labels_length: usize,
            space: *mut u8,
            space_length: usize,
        ) -> HubAnswer;
        pub fn hub_write_plan_round(
            ticks: u16,
            gap: u16,
            starts: *const u16,
            starts_length: usize,
            ends: *const u16,
            ends_length: usize,
            marks: *const u8,
            marks_length: usize,
            labels: *const u8,
            labels_length: usize,
            tape: *mut u8,
            tape_length: usize,
        ) -> HubAnswer;
        pub fn hub_write_plan_run(
            ticks: u16,
            gap: u16,
            p1: u16,
            q1: u16,
            p2: u16,
            q2: u16,
            starts: *const u16,
            starts_length: usize,
            ends: *const u16,
            ends_length: usize,
            marks: *const u8,
            marks_length: usize,
            labels: *const u8,
            labels_length: usize,
            tape: *mut u8,
            tape_length: usize,
        ) -> HubAnswer;
        pub fn hub_read_fleet(
            tape: *const u8,
            tape_length: usize,
            starts: *mut u16,
            starts_length: usize,
            ends: *mut u16,
            ends_length: usize,
            marks: *mut u8,
            marks_length: usize,
        ) -> HubReport;
        pub fn hub_reply(
            tape: *const u8,
            tape_length: usize,
            out: *mut u8,
            out_length: usize,
            space: *mut u8,
            space_length: usize,
        ) -> usize;
        pub fn hub_player_start(tape: *const u8, tape_length: usize, first: u16) -> HubStarted;
        pub fn hub_player_step(tape: *const u8, tape_length: usize, player: HubPlayer) -> HubStepped;
        pub fn hub_held_begin(ticks: u16, gap: u16) -> HubHeldBegun;
        pub fn hub_held_add(
            numbers: Numbers,
            starts: *mut u16,
            starts_length: usize,
            ends: *mut u16,
            ends_length: usize,
            marks: *mut u8,
            marks_length: usize,
            labels: *mut u8,
            labels_length: usize,
            start: u16,
            end: u16,
            mark: u8,
            space: *mut u8,
            space_length: usize,
        ) -> HubHeldChange;
        pub fn hub_held_withdraw(
            numbers: Numbers,
            starts: *mut u16,
            starts_length: usize,
            ends: *mut u16,
            ends_length: usize,
            marks: *mut u8,
            marks_length: usize,
            labels: *mut u8,
            labels_length: usize,
            row: usize,
            space: *mut u8,
            space_length: usize,
        ) -> HubHeldChange;
        pub fn hub_try_candidates_round(
            ticks: u16,
            gap: u16,
            starts: *const u16,
            starts_length: usize,
            ends: *const u16,
            ends_length: usize,
            marks: *const u8,
            marks_length: usize,
            candidate_starts: *const u16,
            candidate_starts_length: usize,
            candidate_ends: *const u16,
            candidate_ends_length: usize,
            candidate_marks: *const u8,
            candidate_marks_length: usize,
            numbers: *mut u8,
            numbers_length: usize,
            counts: *mut u8,
            counts_length: usize,
            space: *mut u8,
            space_length: usize,
        ) -> HubTried;
        pub fn hub_try_candidates_run(
            ticks: u16,
            gap: u16,
            p1: u16,
            q1: u16,
            p2: u16,
            q2: u16,
            starts: *const u16,
            starts_length: usize,
            ends: *const u16,
            ends_length: usize,
            marks: *const u8,
            marks_length: usize,
            candidate_starts: *const u16,
            candidate_starts_length: usize,
            candidate_ends: *const u16,
            candidate_ends_length: usize,
            candidate_marks: *const u8,
            candidate_marks_length: usize,
            numbers: *mut u8,
            numbers_length: usize,
            counts: *mut u8,
            counts_length: usize,
            space: *mut u8,
            space_length: usize,
        ) -> HubTried;
        pub fn hub_words_of_labels(labels: *const u8, labels_length: usize) -> HubLabelWords;
        pub fn hub_labels_of_words(heard: u64, receiver: u64, labels: *mut u8, labels_length: usize) -> HubAnswer;
        pub fn hub_must_of_marks(marks: *const u8, marks_length: usize) -> HubMustWord;
        pub fn hub_clash_words_round(
            ticks: u16,
            gap: u16,
            starts: *const u16,
            starts_length: usize,
            ends: *const u16,
            ends_length: usize,
            words: *mut u64,
            words_length: usize,
        ) -> u8;
        pub fn hub_clash_words_run(
            ticks: u16,
            gap: u16,
            starts: *const u16,
            starts_length: usize,
            ends: *const u16,
            ends_length: usize,
            words: *mut u64,
            words_length: usize,
        ) -> u8;
    }
}

fn answer(reported: c::HubAnswer) -> Result<usize, Refusal> {
    match reported.refusal {
        0 => Ok(reported.count),
        number => Err(Refusal::of_number(number)),
    }
}

/// Plans a table, a row at each place of starts, ends and marks (0 to 5, see `mark`): the plan with the most heard
/// rows, of those the one whose labels come first, in the order 1, 2, 0 for each row from row 0 on. Gives the count,
/// fills the labels and clears the first `SPACE_BYTES` of the working space, and leaves the bytes beyond; a refusal
/// leaves labels and working space, except that `NoPlan` clears the same part.
///
/// In a round a window covers the ticks from its start on, after the last tick from 0 on, up to the tick before its
/// end; start equal to end covers every tick and overlaps every window. Both are below `ticks`, else `Window`. In a run
/// a window covers its start to the tick before its end; the start is below the end and the end at most `ticks`.
///
/// A receiver needs `gap` ticks between two different windows: in a plan no two of its rows overlap or have fewer
/// between them, in a round on either side; windows that touch have 0. In a run no gap is counted from the last window
/// on to the first. More than `MAX_GAP` is refused, `Gap`.
pub fn plan(
    kind: Kind,
    ticks: u16,
    gap: u16,
    starts: &[u16],
    ends: &[u16],
    marks: &[u8],
    labels: &mut [u8],
    space: &mut [u8],
) -> Result<usize, Refusal> {
    // SAFETY: each address comes with its slice's length, and the borrow rules keep the written slices apart from all
    // others.
    answer(unsafe {
        match kind {
            Kind::Round => c::hub_plan_round(
                ticks,
                gap,
                starts.as_ptr(),
                starts.len(),
                ends.as_ptr(),
                ends.len(),
                marks.as_ptr(),
                marks.len(),
                labels.as_mut_ptr(),
                labels.len(),
                space.as_mut_ptr(),
                space.len(),
            ),
            Kind::Run([[p1, q1], [p2, q2]]) => c::hub_plan_run(
                ticks,
                gap,
                p1,
                q1,
                p2,
                q2,
                starts.as_ptr(),
                starts.len(),
                ends.as_ptr(),
                ends.len(),
                marks.as_ptr(),
                marks.len(),
                labels.as_mut_ptr(),
                labels.len(),
                space.as_mut_ptr(),
                space.len(),
            ),
        }
    })
}

/// Writes the plan tape of a table and labels to the front of `tape` and gives its length; a refusal leaves `tape` as
/// it was. Labels that leave out a must row, use a receiver that a row's mark excludes or break the gap are no plan,
/// `NotPlan`.
pub fn write_plan(
    kind: Kind,
    ticks: u16,
    gap: u16,
    starts: &[u16],
    ends: &[u16],
    marks: &[u8],
    labels: &[u8],
    tape: &mut [u8],
) -> Result<usize, Refusal> {
    // SAFETY: as in `plan`.
    answer(unsafe {
        match kind {
            Kind::Round => c::hub_write_plan_round(
                ticks,
                gap,
                starts.as_ptr(),
                starts.len(),
                ends.as_ptr(),
                ends.len(),
                marks.as_ptr(),
                marks.len(),
                labels.as_ptr(),
                labels.len(),
                tape.as_mut_ptr(),
                tape.len(),
            ),
            Kind::Run([[p1, q1], [p2, q2]]) => c::hub_write_plan_run(
                ticks,
                gap,
                p1,
                q1,
                p2,
                q2,
                starts.as_ptr(),
                starts.len(),
                ends.as_ptr(),
                ends.len(),
                marks.as_ptr(),
                marks.len(),
                labels.as_ptr(),
                labels.len(),
                tape.as_mut_ptr(),
                tape.len(),
            ),
        }
    })
}

/// Reads a fleet tape into lists of 64 places: fills them for the rows present, whose commands 40 to 45 hexadecimal
/// give marks 0 to 5, leaves the other places, and on a refusal all.
pub fn read_fleet(tape: &[u8], starts: &mut [u16], ends: &mut [u16], marks: &mut [u8]) -> Result<Fleet, Refusal> {
    // SAFETY: as in `plan`.
    let report = unsafe {
        c::hub_read_fleet(
            tape.as_ptr(),
            tape.len(),
            starts.as_mut_ptr(),
            starts.len(),
            ends.as_mut_ptr(),
            ends.len(),
            marks.as_mut_ptr(),
            marks.len(),
        )
    };
    if report.refusal != 0 {
        return Err(Refusal::of_number(report.refusal));
    }
    let kind = if report.run {
        Kind::Run([[report.p1, report.q1], [report.p2, report.q2]])
    } else {
        Kind::Round
    };
    Ok(Fleet {
        kind,
        ticks: report.ticks,
        rows: report.rows,
    })
}

/// Writes to the front of `out` what `hubplan` prints for a fleet tape, with a gap of 0, and gives that text; nothing
/// where `out` is shorter than `REPLY_BYTES`. The working space fares as in `plan`, and is left where nothing is
/// planned.
pub fn reply<'a>(tape: &[u8], out: &'a mut [u8], space: &mut [u8]) -> &'a [u8] {
    // SAFETY: as in `plan`.
    let length = unsafe {
        c::hub_reply(
            tape.as_ptr(),
            tape.len(),
            out.as_mut_ptr(),
            out.len(),
            space.as_mut_ptr(),
            space.len(),
        )
    };
    &out[..length]
}

/// Starts a player on a plan tape, at the tick `first`. Taken are exactly the tapes that `write_plan` can write for
/// some table and labels with a gap of 0 (of a run, with hours 0 to ticks), so all that it writes with any gap, else
/// `Tape`; then `FirstTick` where `first` is not below the tape's ticks. The library gives a finished player with a
/// refusal, which is `Player::FINISHED`.
pub fn start(tape: &[u8], first: u16) -> Result<Player, Refusal> {
    // SAFETY: the address comes with its slice's length, and nothing is written.
    let started = unsafe { c::hub_player_start(tape.as_ptr(), tape.len(), first) };
    match started.refusal {
        0 => Ok(Player {
            tick: started.player.tick,
        }),
        number => Err(Refusal::of_number(number)),
    }
}

fn receiver(told: c::HubReceiver) -> Receiver {
    if told.listening {
        Receiver::Listening {
            row: told.row,
            until: told.until,
        }
    } else {
        Receiver::Idle
    }
}

/// A step of a player: tells what each receiver does at the player's tick and moves on by one tick, from the last to 0
/// in a round. A finished player stays as it is. The steps of a player follow the tape on which it was started; on any
/// other bytes, and with any player, a step does what include/hubplan.h says.
pub fn step(tape: &[u8], player: Player) -> Stepped {
    // SAFETY: as in `start`.
    let stepped = unsafe { c::hub_player_step(tape.as_ptr(), tape.len(), c::HubPlayer { tick: player.tick }) };
    let receivers = (!stepped.finished).then(|| [receiver(stepped.receiver1), receiver(stepped.receiver2)]);
    Stepped {
        receivers,
        player: Player {
            tick: stepped.player.tick,
        },
    }
}
