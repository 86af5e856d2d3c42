//! The rules of docs/RULES.md, Player, once more: a tape is taken if the writer, given the table that the tape states,
//! writes these bytes; what is told at a tick is found by walking each window's ticks, and the tick until which a
//! receiver listens is the window's end, also of a window that covers every tick.

use super::{ticks_of, window_holds, written, RULES};
use hubplan::tables::Table;
use hubplan::Kind;

/// A row and the end of its window; none is idle.
pub type Told = Option<(u8, u16)>;

/// What bytes state, as far as they can be read from the front: the rows under receivers 1 and 2, in the order of the
/// tape.
pub struct Stated {
    pub kind: Kind,
    pub ticks: u16,
    parts: [Vec<[u16; 3]>; 2],
}

/// The operands of a command, if the bytes begin with it and have them whole, and the bytes after them.
fn command(byte: u8, operands: usize, bytes: &[u8]) -> Option<(&[u8], &[u8])> {
    if bytes.first() != Some(&byte) || bytes.len() < 1 + operands {
        return None;
    }
    Some(bytes[1..].split_at(operands))
}

fn number(high: u8, low: u8) -> u16 {
    high as u16 * 256 + low as u16
}

/// None where the bytes begin with neither ROUND nor RUN.
pub fn stated(tape: &[u8]) -> Option<Stated> {
    let round = command(0x10, 2, tape);
    let (operands, mut rest) = round.or(command(0x11, 2, tape))?;
    let ticks = number(operands[0], operands[1]);
    // a plan tape has no hours: a run is taken as open all the time
    let kind = if round.is_some() {
        Kind::Round
    } else {
        Kind::Run([[0, ticks]; 2])
    };
    let mut parts = [vec![], vec![]];
    for part in &mut parts {
        let Some((_, after)) = command(0x20, 1, rest) else {
            break;
        };
        rest = after;
        while let Some((o, after)) = command(0x30, 5, rest) {
            part.push([o[0] as u16, number(o[1], o[2]), number(o[3], o[4])]);
            rest = after;
        }
    }
    Some(Stated { kind, ticks, parts })
}

/// Taken are exactly the tapes that the writer can write for some table and labels.
pub fn is_taken(tape: &[u8]) -> bool {
    let Some(stated) = stated(tape) else {
        return false;
    };
    let rows = stated
        .parts
        .iter()
        .flatten()
        .map(|listen| listen[0] as usize + 1)
        .max()
        .unwrap_or(0);
    // a row that the tape does not have can be anything that passes the checks; a tape is read with no gap, as an empty
    // table has
    let mut table = Table::empty(stated.kind, stated.ticks);
    (table.starts, table.ends, table.marks) = (vec![0; rows], vec![1; rows], vec![0; rows]);
    let mut labels = vec![0; rows];
    for (label, part) in (1..).zip(&stated.parts) {
        for &[row, start, end] in part {
            let i = row as usize;
            (table.starts[i], table.ends[i], labels[i]) = (start, end, label);
        }
    }
    let (refusal, count, buffer) = written(&RULES, &table, &labels, &[0; 8 + 6 * 64]);
    refusal == 0 && buffer[..count] == *tape
}

impl Stated {
    /// What each receiver does at a tick below R: of its windows that pass check 6 the last that covers the tick.
    pub fn told(&self, tick: u16) -> [Told; 2] {
        [0, 1].map(|receiver| self.day(receiver, tick..tick + 1)[0])
    }

    /// The same at all ticks.
    pub fn days(&self) -> [Vec<Told>; 2] {
        [0, 1].map(|receiver| self.day(receiver, 0..self.ticks))
    }

    fn day(&self, receiver: usize, ticks: std::ops::Range<u16>) -> Vec<Told> {
        let mut day = vec![None; ticks.len()];
        for &[row, start, end] in &self.parts[receiver] {
            let mut window = Table::empty(self.kind, self.ticks);
            (window.starts, window.ends) = (vec![start], vec![end]);
            if !window_holds(&window, 0) {
                continue;
            }
            let covered = ticks_of(self.kind, self.ticks, start, end);
            for (told, tick) in day.iter_mut().zip(ticks.clone()) {
                if covered[tick as usize / 64] >> (tick % 64) & 1 == 1 {
                    *told = Some((row as u8, end));
                }
            }
        }
        day
    }

    /// The tick of step n of a player that started at tick `first`, the first step being step 0; none where it is
    /// finished.
    pub fn tick_of_step(&self, first: u16, n: usize) -> Option<u16> {
        let (tick, ticks) = (first as usize + n, self.ticks as usize);
        match self.kind {
            Kind::Round => Some((tick % ticks) as u16),
            Kind::Run(_) => (tick < ticks).then_some(tick as u16),
        }
    }
}

/// How far a tick lies after a window's start: the tick and R less the start, modulo R.
pub fn distance(ticks: u16, start: u16, tick: u16) -> u32 {
    (tick as u32 + ticks as u32 - start as u32) % ticks as u32
}

/// What a start gives: the refusal's number and the player's tick.
pub fn started(tape: &[u8], first: u16) -> (u8, u16) {
    if !is_taken(tape) {
        return (12, 65_535);
    }
    match stated(tape) {
        Some(stated) if first < stated.ticks => (0, first),
        _ => (13, 65_535),
    }
}

/// What a step gives on any bytes and with any player: what is told, none for finished, and the player's next tick.
pub fn stepped(tape: &[u8], tick: u16) -> (Option<[Told; 2]>, u16) {
    match stated(tape) {
        Some(stated) if tick < stated.ticks => {
            let next = stated.tick_of_step(tick, 1).unwrap_or(stated.ticks);
            (Some(stated.told(tick)), next)
        }
        _ => (None, tick),
    }
}
