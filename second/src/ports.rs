//! What is driven into a slice during one clock.

use crate::bits::{bit, field, flag, number};
use crate::lines::Counts;

/// The bits of the CE word.
#[derive(Clone, Copy)]
pub enum Enable {
    A1 = 0,
    A2 = 1,
    B1 = 2,
    B2 = 3,
    C = 4,
    D = 5,
    Ad = 6,
    M = 7,
    P = 8,
    Ctrl = 9,
    AluMode = 10,
    InMode = 11,
    CarryIn = 12,
}

/// The bits of the RST word.
#[derive(Clone, Copy)]
pub enum Reset {
    A = 0,
    B = 1,
    C = 2,
    D = 3,
    M = 4,
    P = 5,
    Ctrl = 6,
    AluMode = 7,
    InMode = 8,
    AllCarryIn = 9,
}

/// All ports of one slice; the default drives zeros.
#[derive(Clone, Copy, Debug, Default)]
pub struct Ports {
    pub a: i64,
    pub b: i64,
    pub c: i64,
    pub d: i64,
    pub opmode: u16,
    pub alumode: u16,
    pub inmode: u16,
    pub carryinsel: u16,
    pub carryin: bool,
    pub enables: u16,
    pub resets: u16,
}

impl Ports {
    pub const WORDS: usize = 11;
    pub const LISTED: Counts = 11..=11;

    /// Nothing when one of the words is over its width.
    pub fn read(words: &[u64]) -> Option<Ports> {
        let w: &[u64; Self::WORDS] = words.try_into().ok()?;
        Some(Ports {
            a: number(w[0], 30)?,
            b: number(w[1], 18)?,
            c: number(w[2], 48)?,
            d: number(w[3], 27)?,
            opmode: field(w[4], 9)?,
            alumode: field(w[5], 4)?,
            inmode: field(w[6], 5)?,
            carryinsel: field(w[7], 3)?,
            carryin: flag(w[8])?,
            enables: field(w[9], 13)?,
            resets: field(w[10], 10)?,
        })
    }

    pub fn enabled(&self, which: Enable) -> bool {
        bit(self.enables, which as u32)
    }

    pub fn reset(&self, which: Reset) -> bool {
        bit(self.resets, which as u32)
    }
}
