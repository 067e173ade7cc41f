//! What a PMD source gain means.

use crate::{Reason, Refusal};

/// A source gain.
#[derive(Clone, Copy, Debug, PartialEq, Eq)]
pub enum Gain {
    /// Infinite attenuation.
    Muted,
    /// Half decibels, -50 to 12.
    HalfDecibels(i32),
}

/// The gain of a six-bit number; a wider one is FIELD.
#[inline]
pub const fn gain(number: u32) -> Result<Gain, Refusal> {
    match number {
        0 => Ok(Gain::Muted),
        1..=63 => Ok(Gain::HalfDecibels(number as i32 - 51)),
        _ => Err(Reason::Field.at(0)),
    }
}
