//! The player's step once more, by hand in plain Rust and unproved: what the proved step's time is measured against. It
//! is the same walk, once over the tape; the start is the plain one of a program that need not be proved, with one pass
//! where the proved start compares each LISTEN with all others.

use crate::distance::{Distance, Sums};
use crate::{Player, Receiver, Refusal, Stepped};

struct Listen {
    row: u8,
    start: u16,
    end: u16,
}

/// Whether the tape is of a run, its ticks, and the bytes after them.
fn head(tape: &[u8]) -> Option<(bool, u16, &[u8])> {
    match tape {
        [command @ (0x10 | 0x11), high, low, rest @ ..] => {
            Some((*command == 0x11, u16::from_be_bytes([*high, *low]), rest))
        }
        _ => None,
    }
}

/// The LISTEN with which the bytes begin, and the bytes after it.
fn listen(bytes: &[u8]) -> Option<(Listen, &[u8])> {
    let [0x30, row, a, b, c, d, rest @ ..] = bytes else {
        return None;
    };
    let (start, end) = (u16::from_be_bytes([*a, *b]), u16::from_be_bytes([*c, *d]));
    Some((Listen { row: *row, start, end }, rest))
}

fn is_window(run: bool, ticks: u16, start: u16, end: u16) -> bool {
    if run {
        start < end && end <= ticks
    } else {
        start < ticks && end < ticks
    }
}

/// Whether a window covers a tick, if it breaks no rule; one that ends at its start covers every tick. A run's can end
/// at R, which is no tick.
fn covers<D: Distance>(run: bool, ticks: u16, start: u16, end: u16, tick: u16) -> bool {
    let length = if run {
        end.wrapping_sub(start)
    } else {
        D::between(ticks, start, end)
    };
    start == end || D::between(ticks, start, tick) < length
}

/// What the LISTENs of the receiver with which the bytes begin tell at a tick, and the bytes after them.
fn told<D: Distance>(run: bool, ticks: u16, tick: u16, bytes: &[u8]) -> (Receiver, &[u8]) {
    let [0x20, _, rest @ ..] = bytes else {
        return (Receiver::Idle, bytes);
    };
    let (mut receiver, mut rest) = (Receiver::Idle, rest);
    while let Some((Listen { row, start, end }, after)) = listen(rest) {
        if covers::<D>(run, ticks, start, end, tick) && is_window(run, ticks, start, end) {
            receiver = Receiver::Listening { row, until: end };
        }
        rest = after;
    }
    (receiver, rest)
}

/// The same promise as `crate::step`, unproved.
pub fn step(tape: &[u8], player: Player) -> Stepped {
    step_by::<Sums>(tape, player)
}

/// The same, with distances worked out by `D`.
#[inline(never)]
pub fn step_by<D: Distance>(tape: &[u8], player: Player) -> Stepped {
    let Some((run, ticks, rest)) = head(tape).filter(|&(_, ticks, _)| player.tick < ticks) else {
        return Stepped {
            receivers: None,
            player,
        };
    };
    let (receiver1, rest) = told::<D>(run, ticks, player.tick, rest);
    let (receiver2, _) = told::<D>(run, ticks, player.tick, rest);
    let next = player.tick + 1;
    let tick = if next == ticks && !run { 0 } else { next };
    Stepped {
        receivers: Some([receiver1, receiver2]),
        player: Player { tick },
    }
}

/// The bytes after the part of a receiver, if the writer can write it beside the rows that are taken. Starts rise, so a
/// window that meets another meets the next one, or it is the last, goes over the end of the day and meets the first. A
/// window that ends at or before its start leaves no tick for a next one.
fn after_part<'a>(run: bool, ticks: u16, number: u8, bytes: &'a [u8], rows: &mut u64) -> Option<&'a [u8]> {
    let [0x20, stands, rest @ ..] = bytes else {
        return None;
    };
    let mut rest = rest;
    let (mut first, mut free, mut over_end) = (None, 0, 0);
    while let Some((Listen { row, start, end }, after)) = listen(rest) {
        if row >= 64 || *rows >> row & 1 == 1 || start < free || !is_window(run, ticks, start, end) {
            return None;
        }
        *rows |= 1 << row;
        first = first.or(Some(start));
        (free, over_end) = if end <= start { (ticks, end) } else { (end, 0) };
        rest = after;
    }
    (*stands == number && over_end <= first.unwrap_or(0)).then_some(rest)
}

fn plan_tape_ticks(tape: &[u8]) -> Option<u16> {
    let (run, ticks, rest) = head(tape)?;
    let mut rows = 0;
    let rest = after_part(run, ticks, 1, rest, &mut rows)?;
    let rest = after_part(run, ticks, 2, rest, &mut rows)?;
    ((2..=43_200).contains(&ticks) && rest == [0x7f]).then_some(ticks)
}

/// The same promise as `crate::start`, unproved.
#[inline(never)]
pub fn start(tape: &[u8], first: u16) -> Result<Player, Refusal> {
    let ticks = plan_tape_ticks(tape).ok_or(Refusal::Tape)?;
    if first < ticks {
        Ok(Player { tick: first })
    } else {
        Err(Refusal::FirstTick)
    }
}
