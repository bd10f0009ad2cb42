//! What a slice is built as: settings that no clock changes.

use crate::bits::{flag, number};
use crate::lines::Counts;

/// How many registers stand in an A or B path.
#[derive(Clone, Copy, Debug, PartialEq, Eq)]
pub enum Stages {
    None,
    One,
    Two,
}

/// One of the two input pipelines, A or B.
#[derive(Clone, Copy, Debug)]
pub struct Pipeline {
    pub stages: Stages,
    /// The cascade leaves after the first of two registers.
    pub early_tap: bool,
    /// The input comes from the slice below instead of the port.
    pub from_below: bool,
}

/// How the unit's 48 bits are parted in the arithmetic modes, by the setting.
#[derive(Clone, Copy, Debug, PartialEq, Eq)]
pub enum Lanes {
    One48 = 0,
    Two24 = 1,
    Four12 = 2,
}

impl Lanes {
    /// The bits of each lane.
    pub fn width(self) -> u32 {
        match self {
            Lanes::One48 => 48,
            Lanes::Two24 => 24,
            Lanes::Four12 => 12,
        }
    }

    /// The lanes of a setting; a slice that multiplies has just one.
    fn read(word: u64, multiplies: bool) -> Option<Lanes> {
        match word {
            0 => Some(Lanes::One48),
            1 if !multiplies => Some(Lanes::Two24),
            2 if !multiplies => Some(Lanes::Four12),
            _ => None,
        }
    }
}

/// The settings of one slice; `held` marks a register that is read.
#[derive(Clone, Copy, Debug)]
pub struct Attributes {
    pub a: Pipeline,
    pub b: Pipeline,
    pub c_held: bool,
    pub d_held: bool,
    pub ad_held: bool,
    pub m_held: bool,
    pub p_held: bool,
    pub opmode_held: bool,
    pub alumode_held: bool,
    pub inmode_held: bool,
    pub carryin_held: bool,
    pub carryinsel_held: bool,
    pub multiplies: bool,
    pub preadds: bool,
    pub rnd: i64,
    pub pattern: i64,
    pub mask: i64,
    pub lanes: Lanes,
}

impl Attributes {
    pub const WORDS: usize = 22;
    /// A listing may leave the last word out, and then there is one lane.
    pub const LISTED: Counts = 21..=22;

    /// Nothing when one of the words breaks the list of legal values.
    pub fn read(words: &[u64]) -> Option<Attributes> {
        let w: &[u64; Self::WORDS] = words.try_into().ok()?;
        let multiplies = flag(w[16])?;
        Some(Attributes {
            a: pipeline(w[0], w[2], w[4])?,
            b: pipeline(w[1], w[3], w[5])?,
            c_held: flag(w[6])?,
            d_held: flag(w[7])?,
            ad_held: flag(w[8])?,
            m_held: flag(w[9])?,
            p_held: flag(w[10])?,
            opmode_held: flag(w[11])?,
            alumode_held: flag(w[12])?,
            inmode_held: flag(w[13])?,
            carryin_held: flag(w[14])?,
            carryinsel_held: flag(w[15])?,
            multiplies,
            preadds: flag(w[17])?,
            rnd: number(w[18], 48)?,
            pattern: number(w[19], 48)?,
            mask: number(w[20], 48)?,
            lanes: Lanes::read(w[21], multiplies)?,
        })
    }
}

/// The cascade equals the stages, and two stages also allow one.
fn pipeline(stages: u64, cascade: u64, input: u64) -> Option<Pipeline> {
    let (stages, early_tap) = match (stages, cascade) {
        (0, 0) => (Stages::None, false),
        (1, 1) => (Stages::One, false),
        (2, 1) => (Stages::Two, true),
        (2, 2) => (Stages::Two, false),
        _ => return None,
    };
    Some(Pipeline { stages, early_tap, from_below: flag(input)? })
}
