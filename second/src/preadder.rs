//! The pre-adder: what goes into AD, and whether it is the true result.

use std::ops::RangeInclusive;

use crate::bits::wrap;

/// The signed numbers of 27 bits.
const FITTING: RangeInclusive<i64> = -67108864..=67108863;

/// What settles before AD.
#[derive(Clone, Copy, Debug)]
pub struct PreAdded {
    pub ad: i64,
    /// The true sum or difference has no place in 27 bits (02, Ask 4).
    pub preaddwrap: bool,
}

/// Adds two signed 27-bit numbers, or subtracts the second from the first.
pub fn settle(d: i64, a: i64, subtract: bool) -> PreAdded {
    let exact = if subtract { d - a } else { d + a };
    PreAdded { ad: wrap(exact, 27), preaddwrap: !FITTING.contains(&exact) }
}
