//! What an answer to why must say, as far as settings, registers and ports tell it.

use crate::oracle::Controls;
use crate::read_calls::Slices;
use crate::words::*;

/// An answer's words: W, X, Y, Z and CIN, the place of each, and these.
pub type Answer = [u64; WHY_WORDS];
pub mod an {
    pub const CIN: usize = 4;
    pub const PLACES: usize = 5;
    pub const RULE: usize = 10;
    pub const LANES: usize = 11;
    pub const RESULT: usize = 12;
}

/// The numbers of the places.
pub mod place {
    pub const ZERO: u64 = 0;
    pub const M: u64 = 1;
    pub const P: u64 = 2;
    pub const AB: u64 = 3;
    pub const ONES: u64 = 4;
    pub const C: u64 = 5;
    pub const PCIN: u64 = 6;
    pub const PCIN_SHIFTED: u64 = 7;
    pub const P_SHIFTED: u64 = 8;
    pub const RND: u64 = 9;
    pub const CARRYIN: u64 = 10;
    pub const PCIN_SIGN: u64 = 11;
    pub const NOT_PCIN_SIGN: u64 = 12;
    pub const P_SIGN: u64 = 13;
    pub const NOT_P_SIGN: u64 = 14;
    pub const CARRY_BELOW: u64 = 15;
}

/// The places that legal controls select for W, X, Y, Z and CIN.
fn places(controls: Controls) -> [u64; 5] {
    use place::*;
    // Y 1 goes with X 1 alone, which is the product.
    [
        [ZERO, P, RND, C][controls.w() as usize],
        [ZERO, M, P, AB][controls.x() as usize],
        [ZERO, ZERO, ONES, C][controls.y() as usize],
        [ZERO, PCIN, P, C, ZERO, PCIN_SHIFTED, P_SHIFTED][controls.z() as usize],
        match controls.carryinsel {
            0 => CARRYIN,
            1 => NOT_PCIN_SIGN,
            2 => CARRY_BELOW,
            3 => PCIN_SIGN,
            5 => NOT_P_SIGN,
            _ => P_SIGN,
        },
    ]
}

/// The number of the rule that legal controls ask for.
fn rule(controls: Controls) -> u64 {
    let ones = controls.y() / 2;
    match controls.alumode {
        mode @ 0..=3 => mode + 1,
        4 | 7 => 5 + ones,
        5 | 6 => 6 - ones,
        mode => 7 + 2 * (mode - 12) + ones,
    }
}

pub fn shifted(word: u64) -> u64 {
    let sign = word >> 47 & 1;
    word >> 17 | (sign * ones(17)) << 31
}

/// The PCIN of a slice, where no slice below has to be worked out.
fn pcin(slices: &Slices, slice: usize) -> Option<u64> {
    match slice.checked_sub(1) {
        None => Some(0),
        Some(below) if slices.attributes[below][at::PREG] == 1 => {
            Some(slices.registers[below][rg::P])
        }
        _ => None,
    }
}

/// The carry that the slice below shows, where nothing has to be settled below that one.
fn carry_below(slices: &Slices, slice: usize) -> Option<u64> {
    let Some(below) = slice.checked_sub(1) else { return Some(0) };
    let (at, controls) = (&slices.attributes[below], slices.controls(below));
    if at[at::PREG] == 1 {
        return Some(slices.registers[below][rg::CARRY]);
    }
    if [at[at::USE_SIMD], controls.alumode, controls.w(), controls.y()] != [0; 4] {
        return Some(0);
    }
    let [_, x, _, z, cin] = places(controls).map(|place| known(slices, below, place));
    Some((x? + z? + cin?) >> 48)
}

/// A:B, where neither comes over a cascade straight.
fn a_and_b(at: &Attributes, held: &Registers, po: &Ports) -> Option<u64> {
    let path = |reg: usize, input: usize, port: usize, last: usize| match (at[reg], at[input]) {
        (0, 0) => Some(po[port]),
        (0, _) => None,
        _ => Some(held[last]),
    };
    let a = path(at::AREG, at::A_INPUT, po::A, rg::A2)?;
    Some(a << 18 | path(at::BREG, at::B_INPUT, po::B, rg::B2)?)
}

/// The value at a place, where nothing has to be multiplied or settled below.
fn known(slices: &Slices, slice: usize, place: u64) -> Option<u64> {
    let (at, held) = (&slices.attributes[slice], &slices.registers[slice]);
    let po = &slices.ports[slice];
    let path = |reg: usize, register: usize, port: usize| match at[reg] {
        1 => held[register],
        _ => po[port],
    };
    let (p, m, pcin) = (held[rg::P], held[rg::M], pcin(slices, slice));
    Some(match place {
        place::ZERO => 0,
        place::M if at[at::MREG] == 1 => m | ((m >> 44) * 7) << 45,
        place::M => return None,
        place::P => p,
        place::AB => a_and_b(at, held, po)?,
        place::ONES => ones(48),
        place::C => path(at::CREG, rg::C, po::C),
        place::PCIN => pcin?,
        place::PCIN_SHIFTED => shifted(pcin?),
        place::P_SHIFTED => shifted(p),
        place::RND => at[at::RND],
        place::CARRYIN => path(at::CARRYINREG, rg::CARRYIN, po::CARRYIN),
        place::PCIN_SIGN => pcin? >> 47,
        place::NOT_PCIN_SIGN => 1 - (pcin? >> 47),
        place::P_SIGN => p >> 47,
        place::CARRY_BELOW => carry_below(slices, slice)?,
        _ => 1 - (p >> 47),
    })
}

/// An arithmetic rule in lanes of a width, each on its own bits; CIN joins the lowest.
fn arithmetic(rule: u64, width: u32, [w, x, y, z, cin]: [u64; 5]) -> u64 {
    let lane = |low: u32| {
        let [w, x, y, z] = [w, x, y, z].map(|word| word >> low & ones(width));
        let others = w + x + y + if low == 0 { cin } else { 0 };
        let word = match rule {
            1 => z + others,
            2 => ones(width) - z + others,
            3 => ones(width).wrapping_sub(z + others),
            _ => z.wrapping_sub(others),
        };
        (word & ones(width)) << low
    };
    (0..48).step_by(width as usize).map(lane).sum()
}

/// A logic rule, whatever the lanes are.
fn logic(rule: u64, x: u64, z: u64) -> u64 {
    let word = match rule {
        5 => x ^ z,
        6 => !(x ^ z),
        7 => x & z,
        8 => x | z,
        9 => x & !z,
        10 => x | !z,
        11 => !(x & z),
        12 => !(x | z),
        13 => !x | z,
        _ => !x & z,
    };
    word & ones(48)
}

/// Says where the answer of an accepted call is not what it must be.
pub fn check(slices: &Slices, slice: usize, why: &Answer) -> Result<(), String> {
    let controls = slices.controls(slice);
    let simd = slices.attributes[slice][at::USE_SIMD];
    let told = [&places(controls)[..], &[rule(controls), simd]].concat();
    if why[an::PLACES..an::RESULT] != told[..] {
        return Err(format!("why tells {:?}, the oracle says {told:?}", &why[an::PLACES..]));
    }
    let operands: [u64; 5] = std::array::from_fn(|operand| why[operand]);
    for (operand, value) in operands.into_iter().enumerate() {
        let widest = if operand == an::CIN { 1 } else { ones(48) };
        let known = known(slices, slice, told[operand]);
        if value > widest || known.unwrap_or(value) != value {
            return Err(format!("why has operand {operand} {value}, the oracle says {known:?}"));
        }
    }
    let result = match why[an::RULE] {
        rule @ 1..=4 => arithmetic(rule, LANE_WIDTHS[simd as usize], operands),
        rule => logic(rule, operands[1], operands[3]),
    };
    if why[an::RESULT] != result {
        return Err(format!("why has result {}, its rule gives {result}", why[an::RESULT]));
    }
    Ok(())
}
