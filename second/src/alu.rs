//! The arithmetic and logic unit over signed 48-bit numbers.

use crate::attributes::Lanes;
use crate::bits::{number, pattern, signed, wrap};
use crate::control::AluMode;
use crate::refusal::{returned, Reason, Refusal};

/// The four operands and the carry.
#[derive(Clone, Copy, Debug)]
pub struct Operands {
    pub w: i64,
    pub x: i64,
    pub y: i64,
    pub z: i64,
    pub carry: bool,
}

impl Operands {
    /// What the lane sees whose lowest bit is the one given.
    fn lane(self, lowest: u32, width: u32) -> Operands {
        let cut = |value: i64| wrap(value >> lowest, width);
        Operands {
            w: cut(self.w),
            x: cut(self.x),
            y: cut(self.y),
            z: cut(self.z),
            carry: self.carry && lowest == 0,
        }
    }
}

/// Works out the unit's result, again a signed 48-bit number.
pub fn settle(mode: AluMode, lanes: Lanes, operands: Operands) -> i64 {
    // The logic modes know no lanes.
    let width = if mode.is_logic() { 48 } else { lanes.width() };
    let result = (0..48).step_by(width as usize).fold(0, |word, lowest| {
        let lane = one_lane(mode, operands.lane(lowest, width));
        word | pattern(lane, width) << lowest
    });
    signed(result, 48)
}

/// Tells whether the true sum of X, Z and the carry, as 48-bit patterns, leaves 48 bits.
pub fn carries(operands: Operands) -> bool {
    let sum = pattern(operands.x, 48) + pattern(operands.z, 48) + u64::from(operands.carry);
    sum >> 48 != 0
}

/// The result of one lane, not yet cut to its width.
fn one_lane(mode: AluMode, operands: Operands) -> i64 {
    let Operands { w, x, y, z, carry } = operands;
    let others = w + x + y + i64::from(carry);
    // Y is 0 or all ones in a logic mode; another, which cannot come here, counts as all ones.
    match (mode, y == 0) {
        // In two's complement, all ones less a word is the word's complement,
        // whatever the width.
        (AluMode::Sum, _) => z + others,
        (AluMode::SumWithNotZ, _) => !z + others,
        (AluMode::NotSum, _) => !(z + others),
        (AluMode::Difference, _) => z - others,
        // The rows of Y 0, as 01 lists them.
        (AluMode::Xor, true) => x ^ z,
        (AluMode::Xnor, true) => !(x ^ z),
        (AluMode::And, true) => x & z,
        (AluMode::AndNot, true) => x & !z,
        (AluMode::Nand, true) => !(x & z),
        (AluMode::NandNot, true) => !x | z,
        // The rows of Y all ones.
        (AluMode::Xor, false) => !(x ^ z),
        (AluMode::Xnor, false) => x ^ z,
        (AluMode::And, false) => x | z,
        (AluMode::AndNot, false) => x | !z,
        (AluMode::Nand, false) => !(x | z),
        (AluMode::NandNot, false) => !x & z,
    }
}

/// The call of the bench: six plain numbers in, one returned word out.
pub fn adder(w: u64, x: u64, y: u64, z: u64, cin: u64, alumode: u64) -> u64 {
    returned(judged([w, x, y, z], cin, alumode))
}

fn judged(wxyz: [u64; 4], cin: u64, alumode: u64) -> Result<u64, Refusal> {
    let too_wide = Refusal::whole(Reason::Port);
    let forbidden = Refusal::whole(Reason::AluMode);
    let [w, x, y, z] = wxyz.map(|word| number(word, 48).ok_or(too_wide));
    let operands = Operands { w: w?, x: x?, y: y?, z: z?, carry: false };
    if cin > 1 || alumode > 15 {
        return Err(too_wide);
    }
    let operands = Operands { carry: cin == 1, ..operands };
    let mode = AluMode::of(alumode as u16).ok_or(forbidden)?;
    // All ones is minus one, the only other Y a logic mode understands.
    if mode.is_logic() && (operands.w != 0 || !matches!(operands.y, 0 | -1)) {
        return Err(forbidden);
    }
    Ok(pattern(settle(mode, Lanes::One48, operands), 48))
}
