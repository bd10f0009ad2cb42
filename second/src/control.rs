//! The four dynamic controls in effect, read into enums.
//!
//! Each reading is the refusal check as well: a setting that the slice's
//! attributes forbid has no enum to be read into.

use crate::attributes::{Attributes, Stages};
use crate::bits::bit;
use crate::ports::Ports;
use crate::registers::Registers;

/// INMODE, bit by bit.
#[derive(Clone, Copy, Debug)]
pub struct InMode {
    pub early_a: bool,
    pub zero_a: bool,
    pub use_d: bool,
    pub subtract: bool,
    pub early_b: bool,
}

#[derive(Clone, Copy, Debug, PartialEq, Eq)]
pub enum W {
    Zero,
    P,
    Rnd,
    C,
}

#[derive(Clone, Copy, Debug, PartialEq, Eq)]
pub enum X {
    Zero,
    Product,
    P,
    AB,
}

#[derive(Clone, Copy, Debug, PartialEq, Eq)]
pub enum Y {
    Zero,
    Product,
    Ones,
    C,
}

#[derive(Clone, Copy, Debug, PartialEq, Eq)]
pub enum Z {
    Zero,
    Pcin,
    P,
    C,
    PcinShifted,
    PShifted,
}

/// OPMODE, field by field.
#[derive(Clone, Copy, Debug)]
pub struct OpMode {
    pub w: W,
    pub x: X,
    pub y: Y,
    pub z: Z,
}

/// What the unit does with its operands.
#[derive(Clone, Copy, Debug, PartialEq, Eq)]
pub enum AluMode {
    Sum,
    SumWithNotZ,
    NotSum,
    Difference,
    Xor,
    Xnor,
    And,
    AndNot,
    Nand,
    NandNot,
}

/// Where the carry comes from.
#[derive(Clone, Copy, Debug)]
pub enum CarryInSel {
    Path,
    NotPcinSign,
    CarryBelow,
    PcinSign,
    NotPSign,
    PSign,
}

/// The register if it is the one read, else the port.
fn in_effect(held: bool, register: u16, port: u16) -> u16 {
    if held {
        register
    } else {
        port
    }
}

impl InMode {
    pub fn read(attributes: &Attributes, registers: &Registers, ports: &Ports) -> Option<InMode> {
        let raw = in_effect(attributes.inmode_held, registers.inmode, ports.inmode);
        let mode = InMode {
            early_a: bit(raw, 0),
            zero_a: bit(raw, 1),
            use_d: bit(raw, 2),
            subtract: bit(raw, 3),
            early_b: bit(raw, 4),
        };
        let no_preadder = (mode.use_d || mode.subtract) && !attributes.preadds;
        let no_a1 = mode.early_a && attributes.a.stages == Stages::None;
        let no_b1 = mode.early_b && attributes.b.stages == Stages::None;
        (!no_preadder && !no_a1 && !no_b1).then_some(mode)
    }
}

impl OpMode {
    pub fn read(attributes: &Attributes, registers: &Registers, ports: &Ports) -> Option<OpMode> {
        let raw = in_effect(attributes.opmode_held, registers.opmode, ports.opmode);
        let mode = OpMode { w: W::of(raw), x: X::of(raw), y: Y::of(raw), z: Z::of(raw)? };
        let half_product = (mode.x == X::Product) != (mode.y == Y::Product);
        let no_product = mode.x == X::Product && !attributes.multiplies;
        let no_p = mode.feeds_back() && !attributes.p_held;
        (!half_product && !no_product && !no_p).then_some(mode)
    }

    /// P is an operand, so without its register there would be a loop.
    fn feeds_back(&self) -> bool {
        self.w == W::P || self.x == X::P || matches!(self.z, Z::P | Z::PShifted)
    }
}

impl W {
    fn of(raw: u16) -> W {
        match raw >> 7 & 3 {
            0 => W::Zero,
            1 => W::P,
            2 => W::Rnd,
            _ => W::C,
        }
    }
}

impl X {
    fn of(raw: u16) -> X {
        match raw & 3 {
            0 => X::Zero,
            1 => X::Product,
            2 => X::P,
            _ => X::AB,
        }
    }
}

impl Y {
    fn of(raw: u16) -> Y {
        match raw >> 2 & 3 {
            0 => Y::Zero,
            1 => Y::Product,
            2 => Y::Ones,
            _ => Y::C,
        }
    }
}

impl Z {
    fn of(raw: u16) -> Option<Z> {
        match raw >> 4 & 7 {
            0 => Some(Z::Zero),
            1 => Some(Z::Pcin),
            2 => Some(Z::P),
            3 => Some(Z::C),
            5 => Some(Z::PcinShifted),
            6 => Some(Z::PShifted),
            _ => None,
        }
    }
}

impl AluMode {
    /// The mode of a number; 8 to 11 have none.
    pub fn of(raw: u16) -> Option<AluMode> {
        match raw {
            0 => Some(AluMode::Sum),
            1 => Some(AluMode::SumWithNotZ),
            2 => Some(AluMode::NotSum),
            3 => Some(AluMode::Difference),
            4 | 7 => Some(AluMode::Xor),
            5 | 6 => Some(AluMode::Xnor),
            12 => Some(AluMode::And),
            13 => Some(AluMode::AndNot),
            14 => Some(AluMode::Nand),
            15 => Some(AluMode::NandNot),
            _ => None,
        }
    }

    pub fn is_logic(self) -> bool {
        use AluMode::*;
        !matches!(self, Sum | SumWithNotZ | NotSum | Difference)
    }

    pub fn read(
        attributes: &Attributes,
        registers: &Registers,
        ports: &Ports,
        opmode: &OpMode,
    ) -> Option<AluMode> {
        let raw = in_effect(attributes.alumode_held, registers.alumode, ports.alumode);
        let mode = AluMode::of(raw)?;
        let two_operands =
            opmode.w == W::Zero && matches!(opmode.y, Y::Zero | Y::Ones) && opmode.x != X::Product;
        (!mode.is_logic() || two_operands).then_some(mode)
    }
}

impl CarryInSel {
    pub fn read(
        attributes: &Attributes,
        registers: &Registers,
        ports: &Ports,
    ) -> Option<CarryInSel> {
        let raw = in_effect(attributes.carryinsel_held, registers.carryinsel, ports.carryinsel);
        match raw {
            0 => Some(CarryInSel::Path),
            1 => Some(CarryInSel::NotPcinSign),
            2 => Some(CarryInSel::CarryBelow),
            3 => Some(CarryInSel::PcinSign),
            5 if attributes.p_held => Some(CarryInSel::NotPSign),
            7 if attributes.p_held => Some(CarryInSel::PSign),
            _ => None,
        }
    }
}
