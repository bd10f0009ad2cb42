//! The carry of a slice (02, Ask 7), worked out from attributes, ports, registers and the Ps shown.
//!
//! No product is needed for it: where X is one, the Y select is 1 and the carry 0.

use crate::oracle::{loaded, Controls};
use crate::paths::{inputs, Stages, A, B};
use crate::why_oracle::shifted;
use crate::words::*;

/// The least sum that carries.
pub const CARRIES: u64 = 1 << 48;

/// What an adder may take X, Z and CIN from.
#[derive(Clone, Copy, Default)]
pub struct Sources {
    pub ab: u64,
    pub c: u64,
    pub p: u64,
    pub pcin: u64,
    pub carryin: u64,
    /// The carry that the slice below shows.
    pub below: u64,
}

impl Sources {
    /// X, unless it is the product.
    pub fn x(&self, select: u64) -> Option<u64> {
        [Some(0), None, Some(self.p), Some(self.ab)][select as usize]
    }

    pub fn z(&self, select: u64) -> u64 {
        match select {
            1 => self.pcin,
            2 => self.p,
            3 => self.c,
            5 => shifted(self.pcin),
            6 => shifted(self.p),
            _ => 0,
        }
    }

    pub fn cin(&self, select: u64) -> u64 {
        match select {
            0 => self.carryin,
            1 => 1 - (self.pcin >> 47),
            2 => self.below,
            3 => self.pcin >> 47,
            5 => 1 - (self.p >> 47),
            _ => self.p >> 47,
        }
    }
}

/// An adder in one clock, its controls being in effect.
#[derive(Clone, Copy)]
pub struct Adder {
    pub sources: Sources,
    pub controls: Controls,
    pub simd: u64,
}

impl Adder {
    /// What hides the carry where it is not 0: ALUMODE, the selects of W and Y, the lanes.
    pub fn setting(&self) -> [u64; 4] {
        [self.controls.alumode, self.controls.w(), self.controls.y(), self.simd]
    }

    pub fn makes_carry(&self) -> bool {
        self.setting() == [0; 4]
    }

    pub fn x(&self) -> Option<u64> {
        self.sources.x(self.controls.x())
    }

    pub fn z(&self) -> u64 {
        self.sources.z(self.controls.z())
    }

    pub fn cin(&self) -> u64 {
        self.sources.cin(self.controls.carryinsel)
    }

    /// X + Z + CIN of whole words, whatever the setting; unless X is the product.
    pub fn sum(&self) -> Option<u64> {
        self.x().map(|x| x + self.z() + self.cin())
    }

    fn carry(&self) -> u64 {
        self.sum().filter(|_| self.makes_carry()).map_or(0, |sum| sum / CARRIES)
    }
}

/// What the registers hold that a carry may come from, and its own.
#[derive(Clone, Copy, Default)]
pub struct Held {
    a: Stages,
    b: Stages,
    c: u64,
    carryin: u64,
    controls: Controls,
    carry: u64,
}

impl Held {
    pub fn of_registers(registers: &Registers) -> Held {
        let [c, carryin, carry] =
            [rg::C, rg::CARRYIN, rg::CARRY].map(|register| registers[register]);
        let [a, b] = [A, B].map(|side| Stages::of_registers(registers, side));
        Held { a, b, c, carryin, controls: Controls::of_registers(registers), carry }
    }

    /// What they hold after the edge of a slice in this clock.
    pub fn after(self, at: &Attributes, po: &Ports, slice: &Carry) -> Held {
        let [a, b] = slice.inputs;
        Held {
            a: self.a.after(at, po, A, a),
            b: self.b.after(at, po, B, b),
            c: loaded(po, self.c, po[po::C], CE_C, RST_C),
            carryin: loaded(po, self.carryin, po[po::CARRYIN], CE_CARRYIN, RST_ALLCARRYIN),
            controls: self.controls.after(po),
            carry: slice.after(po),
        }
    }
}

/// A slice in one clock.
#[derive(Clone, Copy)]
pub struct Carry {
    pub adder: Adder,
    /// What its register holds before the edge.
    pub held: u64,
    preg: u64,
    /// The inputs of A and B.
    inputs: [u64; 2],
}

impl Carry {
    fn of(
        at: &Attributes,
        held: Held,
        po: &Ports,
        inputs: [u64; 2],
        [p, pcin, below]: [u64; 3],
    ) -> Carry {
        let ab = held.a.path(at, A, inputs[A]) << 18 | held.b.path(at, B, inputs[B]);
        let c = if at[at::CREG] == 1 { held.c } else { po[po::C] };
        let carryin = if at[at::CARRYINREG] == 1 { held.carryin } else { po[po::CARRYIN] };
        let sources = Sources { ab, c, p, pcin, carryin, below };
        let controls = held.controls.in_effect(at, po);
        let adder = Adder { sources, controls, simd: at[at::USE_SIMD] };
        Carry { adder, held: held.carry, preg: at[at::PREG], inputs }
    }

    /// Those of a column, from the bottom up. Of what is shown P alone is taken: it is the register
    /// P, where that is read, and the PCIN of the slice above.
    pub fn all(
        attributes: &[Attributes],
        held: &[Held],
        ports: &[Ports],
        shown: &[Outputs],
    ) -> Vec<Carry> {
        let a = inputs(attributes, ports, A, |k| held[k].a);
        let b = inputs(attributes, ports, B, |k| held[k].b);
        let (mut pcin, mut below) = (0, 0);
        let mut next = |k: usize| {
            let p = shown[k][0];
            let from = [p, pcin, below];
            let slice = Carry::of(&attributes[k], held[k], &ports[k], [a[k], b[k]], from);
            (pcin, below) = (p, slice.shown());
            slice
        };
        (0..attributes.len()).map(&mut next).collect()
    }

    /// What the register loads, if it does.
    pub fn settled(&self) -> u64 {
        self.adder.carry()
    }

    /// What the slice shows, and hands up.
    pub fn shown(&self) -> u64 {
        match self.preg {
            1 => self.held,
            _ => self.settled(),
        }
    }

    /// What the register holds after the edge.
    pub fn after(&self, po: &Ports) -> u64 {
        loaded(po, self.held, self.settled(), CE_P, RST_P)
    }
}
