//! Why a slice's unit gives its result (02, Ask 3): what was selected for it,
//! from where, and the rule it went by.

use crate::bits::pattern;
use crate::column::{height, lengths_fit, read_ports, slice_within, Column};
use crate::control::AluMode;
use crate::refusal::{Reason, Refusal};
use crate::selection::{Place, Selection};
use crate::slice::Unit;

/// The rules of the unit, by their numbers: one for each function, whatever
/// mode it comes from.
#[derive(Clone, Copy, Debug, PartialEq, Eq)]
pub enum Rule {
    Sum = 1,
    SumWithNotZ = 2,
    NotSum = 3,
    Difference = 4,
    Xor = 5,
    Xnor = 6,
    And = 7,
    Or = 8,
    AndNotZ = 9,
    OrNotZ = 10,
    Nand = 11,
    Nor = 12,
    NotXOr = 13,
    NotXAnd = 14,
}

impl Rule {
    /// The rule of a mode; for a logic mode, all ones at Y turn it into another.
    fn of(mode: AluMode, ones: bool) -> Rule {
        match (mode, ones) {
            (AluMode::Sum, _) => Rule::Sum,
            (AluMode::SumWithNotZ, _) => Rule::SumWithNotZ,
            (AluMode::NotSum, _) => Rule::NotSum,
            (AluMode::Difference, _) => Rule::Difference,
            (AluMode::Xor, false) | (AluMode::Xnor, true) => Rule::Xor,
            (AluMode::Xnor, false) | (AluMode::Xor, true) => Rule::Xnor,
            (AluMode::And, false) => Rule::And,
            (AluMode::And, true) => Rule::Or,
            (AluMode::AndNot, false) => Rule::AndNotZ,
            (AluMode::AndNot, true) => Rule::OrNotZ,
            (AluMode::Nand, false) => Rule::Nand,
            (AluMode::Nand, true) => Rule::Nor,
            (AluMode::NandNot, false) => Rule::NotXOr,
            (AluMode::NandNot, true) => Rule::NotXAnd,
        }
    }
}

/// The words of an answer.
pub const WORDS: usize = 13;

/// The words a question is lent; `why` alone is written.
pub struct LentWhy<'a> {
    pub attributes: &'a [u64],
    pub registers: &'a [u64],
    pub ports: &'a [u64],
    pub why: &'a mut [u64],
}

/// Answers for one slice of a lent column, with zeros when it is refused.
pub fn why(count: u64, lent: LentWhy, slice: u64) -> Result<(), Refusal> {
    let unit = asked_unit(count, &lent, slice);
    // Of any other length it was refused, and stays as it was.
    if lent.why.len() == WORDS {
        lent.why.copy_from_slice(&unit.as_ref().map_or([0; WORDS], words));
    }
    unit.map(|_| ())
}

/// The asked slice's unit in the clock that these words make.
fn asked_unit(count: u64, lent: &LentWhy, slice: u64) -> Result<Unit, Refusal> {
    let height = height(count)?;
    let right =
        lengths_fit(height, lent.attributes, lent.registers, lent.ports) && lent.why.len() == WORDS;
    if !right {
        return Err(Refusal::whole(Reason::Length));
    }
    let slice = slice_within(height, slice)?;
    let column = Column::found(lent.attributes, lent.registers)?;
    let shown = column.settled(&read_ports(lent.ports)?)?;
    Ok(shown[slice].unit)
}

/// Values, then places, then what the unit did with them.
fn words(unit: &Unit) -> [u64; WORDS] {
    let Selection { w, x, y, z, carry } = unit.selection;
    [
        pattern(w.value, 48),
        pattern(x.value, 48),
        pattern(y.value, 48),
        pattern(z.value, 48),
        carry.value.into(),
        w.place as u64,
        x.place as u64,
        y.place as u64,
        z.place as u64,
        carry.place as u64,
        Rule::of(unit.mode, y.place == Place::Ones) as u64,
        unit.lanes as u64,
        pattern(unit.result, 48),
    ]
}
