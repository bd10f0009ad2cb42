//! The pre-adder's mark (02, Ask 4), worked out from attributes, ports and the registers before it.

use crate::oracle::loaded;
use crate::paths::{inputs, Stages, A};
use crate::words::inmode::*;
use crate::words::*;

/// The ends of what the pre-adder's result can hold.
pub const TOP: i64 = 67_108_863;
pub const BOTTOM: i64 = -67_108_864;

/// The low bits of a word, read as a signed number of that width.
pub fn signed(word: u64, width: u32) -> i64 {
    (word << (64 - width)) as i64 >> (64 - width)
}

/// The 27-bit pattern of a number.
pub fn pattern(number: i64) -> u64 {
    number as u64 & ones(27)
}

/// Each d that takes a given a to an end or one past it, and the two at the ends; whether a is
/// subtracted then.
pub fn beside(a: i64) -> Vec<(i64, bool)> {
    let ends = [TOP, TOP + 1, BOTTOM, BOTTOM - 1];
    let sums = ends.map(|end| (end - a, false));
    let differences = ends.map(|end| (end + a, true));
    let farthest = [TOP, BOTTOM].into_iter().flat_map(|d| [(d, false), (d, true)]);
    let all = sums.into_iter().chain(differences).chain(farthest);
    all.filter(|(d, _)| (BOTTOM..=TOP).contains(d)).collect()
}

/// What the registers before the pre-adder hold.
#[derive(Clone, Copy, Default)]
pub struct Held {
    a: Stages,
    d: u64,
    inmode: u64,
}

impl Held {
    pub fn of_registers(registers: &Registers) -> Held {
        let [d, inmode] = [rg::D, rg::INMODE].map(|register| registers[register]);
        Held { a: Stages::of_registers(registers, A), d, inmode }
    }

    /// What they hold after the edge, when this is the slice's A input.
    pub fn after(self, at: &Attributes, po: &Ports, input: u64) -> Held {
        Held {
            a: self.a.after(at, po, A, input),
            d: loaded(po, self.d, po[po::D], CE_D, RST_D),
            inmode: loaded(po, self.inmode, po[po::INMODE], CE_INMODE, RST_INMODE),
        }
    }
}

/// One pre-adder in one clock: of A, D and INMODE both words that it might read, the first of which
/// is the A path or the port, and the second A1 or the register.
#[derive(Clone, Copy)]
pub struct PreAdder {
    /// The A input of the slice.
    pub input: u64,
    a: [u64; 2],
    d: [u64; 2],
    inmodes: [u64; 2],
    /// Which of the two is read.
    pub d_read: usize,
    pub inmode_read: usize,
}

impl PreAdder {
    fn of(at: &Attributes, held: Held, po: &Ports, input: u64) -> PreAdder {
        PreAdder {
            input,
            a: [held.a.path(at, A, input), held.a.first],
            d: [po[po::D], held.d],
            inmodes: [po[po::INMODE], held.inmode],
            d_read: at[at::DREG] as usize,
            inmode_read: at[at::INMODEREG] as usize,
        }
    }

    /// Those of a column, from the bottom up.
    pub fn all(attributes: &[Attributes], held: &[Held], ports: &[Ports]) -> Vec<PreAdder> {
        let inputs = inputs(attributes, ports, A, |k| held[k].a);
        let of = |k: usize| PreAdder::of(&attributes[k], held[k], &ports[k], inputs[k]);
        (0..attributes.len()).map(of).collect()
    }

    pub fn inmode(&self) -> u64 {
        self.inmodes[self.inmode_read]
    }

    pub fn a_read(&self) -> usize {
        (self.inmode() & TAKES_A1) as usize
    }

    /// a and d before INMODE leaves one out, a from so many bits of its word.
    fn sides(&self, a_width: u32) -> [i64; 2] {
        [signed(self.a[self.a_read()], a_width), signed(self.d[self.d_read], 27)]
    }

    pub fn a_and_d(&self) -> [i64; 2] {
        self.sides(27)
    }

    /// The true sum or difference, if these bits of INMODE were the others.
    pub fn result_with_flipped(&self, bits: u64) -> i64 {
        true_result(self.a_and_d(), self.inmode() ^ bits)
    }

    pub fn result(&self) -> i64 {
        self.result_with_flipped(0)
    }

    pub fn mark(&self) -> u64 {
        mark_of(self.result())
    }

    /// The mark if all 30 bits of A were read.
    pub fn mark_of_wide_a(&self) -> u64 {
        mark_of(true_result(self.sides(30), self.inmode()))
    }

    /// The marks if the other word of A, of D or of INMODE were read.
    pub fn marks_of_other_words(&self) -> [u64; 3] {
        let a = PreAdder { a: [self.a[1], self.a[0]], ..*self };
        let d = PreAdder { d_read: 1 - self.d_read, ..*self };
        let inmode = PreAdder { inmode_read: 1 - self.inmode_read, ..*self };
        [a, d, inmode].map(|other| other.mark())
    }
}

fn true_result([a, d]: [i64; 2], inmode: u64) -> i64 {
    let a = if inmode & CLEARS_A == 0 { a } else { 0 };
    let d = if inmode & TAKES_D == 0 { 0 } else { d };
    if inmode & SUBTRACTS == 0 {
        d + a
    } else {
        d - a
    }
}

pub fn mark_of(result: i64) -> u64 {
    u64::from(!(BOTTOM..=TOP).contains(&result))
}
