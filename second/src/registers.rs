//! What a slice remembers between edges.

use crate::bits::{field, flag, number, pattern};

/// All registers of one slice; the default is the cleared slice.
#[derive(Clone, Copy, Debug, Default, PartialEq, Eq)]
pub struct Registers {
    pub a1: i64,
    pub a2: i64,
    pub b1: i64,
    pub b2: i64,
    pub c: i64,
    pub d: i64,
    pub ad: i64,
    pub m: i64,
    pub p: i64,
    pub opmode: u16,
    pub alumode: u16,
    pub inmode: u16,
    pub carryinsel: u16,
    pub carryin: bool,
    pub pd: bool,
    pub pbd: bool,
    pub pd_past: bool,
    pub pbd_past: bool,
    pub carry_out: bool,
}

impl Registers {
    pub const WORDS: usize = 19;

    /// Nothing when one of the words is over its width.
    pub fn read(words: &[u64]) -> Option<Registers> {
        let w: &[u64; Self::WORDS] = words.try_into().ok()?;
        Some(Registers {
            a1: number(w[0], 30)?,
            a2: number(w[1], 30)?,
            b1: number(w[2], 18)?,
            b2: number(w[3], 18)?,
            c: number(w[4], 48)?,
            d: number(w[5], 27)?,
            ad: number(w[6], 27)?,
            m: number(w[7], 45)?,
            p: number(w[8], 48)?,
            opmode: field(w[9], 9)?,
            alumode: field(w[10], 4)?,
            inmode: field(w[11], 5)?,
            carryinsel: field(w[12], 3)?,
            carryin: flag(w[13])?,
            pd: flag(w[14])?,
            pbd: flag(w[15])?,
            pd_past: flag(w[16])?,
            pbd_past: flag(w[17])?,
            carry_out: flag(w[18])?,
        })
    }

    /// The words that `read` would take back.
    pub fn words(&self) -> [u64; Self::WORDS] {
        [
            pattern(self.a1, 30),
            pattern(self.a2, 30),
            pattern(self.b1, 18),
            pattern(self.b2, 18),
            pattern(self.c, 48),
            pattern(self.d, 27),
            pattern(self.ad, 27),
            pattern(self.m, 45),
            pattern(self.p, 48),
            self.opmode.into(),
            self.alumode.into(),
            self.inmode.into(),
            self.carryinsel.into(),
            self.carryin.into(),
            self.pd.into(),
            self.pbd.into(),
            self.pd_past.into(),
            self.pbd_past.into(),
            self.carry_out.into(),
        ]
    }
}
