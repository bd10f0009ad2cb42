//! What is selected for the unit: each value with the place it comes from.

use crate::alu::Operands;

/// The places an operand or the carry can come from, by their numbers.
#[derive(Clone, Copy, Debug, PartialEq, Eq)]
pub enum Place {
    Zero = 0,
    Product = 1,
    P = 2,
    AB = 3,
    Ones = 4,
    C = 5,
    Pcin = 6,
    PcinShifted = 7,
    PShifted = 8,
    Rnd = 9,
    CarryInPath = 10,
    PcinSign = 11,
    NotPcinSign = 12,
    PSign = 13,
    NotPSign = 14,
    CarryBelow = 15,
}

impl Place {
    /// A value that this place was selected for.
    pub const fn gives<T>(self, value: T) -> Selected<T> {
        Selected { value, place: self }
    }
}

/// A value and the place it was selected from.
#[derive(Clone, Copy, Debug)]
pub struct Selected<T> {
    pub value: T,
    pub place: Place,
}

/// The four operands and the carry, each with its place.
#[derive(Clone, Copy, Debug)]
pub struct Selection {
    pub w: Selected<i64>,
    pub x: Selected<i64>,
    pub y: Selected<i64>,
    pub z: Selected<i64>,
    pub carry: Selected<bool>,
}

impl Selection {
    /// The values alone, which are all that the unit sees.
    pub const fn operands(&self) -> Operands {
        Operands {
            w: self.w.value,
            x: self.x.value,
            y: self.y.value,
            z: self.z.value,
            carry: self.carry.value,
        }
    }
}
