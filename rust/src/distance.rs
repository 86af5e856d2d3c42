//! How far a tick lies after another on a circle, worked out in two ways, so that the hand ports can be measured with
//! each.

pub trait Distance {
    /// From a tick on to another, both below `circle`; of other numbers, if `circle` is not 0, any number.
    fn between(circle: u16, from: u16, to: u16) -> u16;
}

/// A comparison and at most two sums, as in the proved library.
pub enum Sums {}

impl Distance for Sums {
    fn between(circle: u16, from: u16, to: u16) -> u16 {
        let ahead = to.wrapping_sub(from);
        if from <= to {
            ahead
        } else {
            ahead.wrapping_add(circle)
        }
    }
}

/// The tick and R less the start, modulo R: a sum that needs 17 bits, and its remainder.
pub enum Remainder {}

impl Distance for Remainder {
    fn between(circle: u16, from: u16, to: u16) -> u16 {
        let sum = to as u32 + circle as u32;
        (sum.wrapping_sub(from as u32) % circle as u32) as u16
    }
}
