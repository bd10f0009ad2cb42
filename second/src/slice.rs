//! One slice: what its wires settle to, and what its edge loads.

use crate::alu;
use crate::attributes::{Attributes, Lanes, Pipeline, Stages};
use crate::bits::{pattern, wrap};
use crate::control::{AluMode, CarryInSel, InMode, OpMode, W, X, Y, Z};
use crate::ports::{Enable, Ports, Reset};
use crate::preadder::{self, PreAdded};
use crate::registers::Registers;
use crate::selection::{Place, Selected, Selection};

/// What a slice hands to the one above it; the default lies below slice 0.
#[derive(Clone, Copy, Debug, Default)]
pub struct Cascade {
    pub a: i64,
    pub b: i64,
    pub p: i64,
    pub carry: bool,
}

/// The dynamic controls in effect, already judged.
#[derive(Clone, Copy, Debug)]
pub struct Controls {
    pub inmode: InMode,
    pub opmode: OpMode,
    pub alumode: AluMode,
    pub carryinsel: CarryInSel,
}

/// What a slice shows to the outside.
#[derive(Clone, Copy, Debug, Default, PartialEq, Eq)]
pub struct Outputs {
    pub p: i64,
    pub pd: bool,
    pub pbd: bool,
    pub overflow: bool,
    pub underflow: bool,
    pub preaddwrap: bool,
    pub carry_out: bool,
}

impl Outputs {
    pub const WORDS: usize = 7;

    pub fn words(&self) -> [u64; Self::WORDS] {
        [
            pattern(self.p, 48),
            self.pd.into(),
            self.pbd.into(),
            self.overflow.into(),
            self.underflow.into(),
            self.preaddwrap.into(),
            self.carry_out.into(),
        ]
    }
}

/// The unit in one clock: its settings, what was selected for it, what it gives.
#[derive(Clone, Copy, Debug)]
pub struct Unit {
    pub mode: AluMode,
    pub lanes: Lanes,
    pub selection: Selection,
    pub result: i64,
    pub carry_out: bool,
}

/// Every wire the edge or the outside looks at, before the edge.
#[derive(Clone, Copy, Debug)]
pub struct Shown {
    a_input: i64,
    b_input: i64,
    ad: i64,
    product: i64,
    pub unit: Unit,
    pd: bool,
    pbd: bool,
    pub outputs: Outputs,
    pub above: Cascade,
}

/// One slice with everything that bears on it during a clock.
pub struct Wired<'a> {
    pub attributes: &'a Attributes,
    pub registers: &'a Registers,
    pub ports: &'a Ports,
    pub controls: &'a Controls,
    pub below: Cascade,
}

impl Wired<'_> {
    /// Lets the wires settle; no register changes here.
    pub fn settle(&self) -> Shown {
        let (att, reg) = (self.attributes, self.registers);
        let a_input = if att.a.from_below { self.below.a } else { self.ports.a };
        let b_input = if att.b.from_below { self.below.b } else { self.ports.b };
        let a_path = path(&att.a, a_input, reg.a2);
        let b_path = path(&att.b, b_input, reg.b2);
        let (d, a) = self.preadder_inputs(a_path);
        let PreAdded { ad, preaddwrap } = preadder::settle(d, a, self.controls.inmode.subtract);
        let product = self.multiply(a, ad, b_path);
        let m_path = if att.m_held { reg.m } else { product };
        let unit = self.unit(self.select(a_path, b_path, m_path));
        // Differing bits that the mask leaves in sight.
        let differ = unit.result ^ att.pattern;
        let pd = differ & !att.mask == 0;
        let pbd = !differ & !att.mask == 0;
        let Unit { result: p, carry_out, .. } = unit;
        // Nothing that settles has a past, so neither flow is flagged here.
        let settled = Outputs { p, pd, pbd, preaddwrap, carry_out, ..Outputs::default() };
        let outputs = self.outputs(settled);
        let above = Cascade {
            a: if att.a.early_tap { reg.a1 } else { a_path },
            b: if att.b.early_tap { reg.b1 } else { b_path },
            p: outputs.p,
            carry: outputs.carry_out,
        };
        Shown { a_input, b_input, ad, product, unit, pd, pbd, outputs, above }
    }

    /// The pre-adder's d and a, as INMODE lets them through.
    fn preadder_inputs(&self, a_path: i64) -> (i64, i64) {
        let (reg, mode) = (self.registers, self.controls.inmode);
        let a_taken = if mode.early_a { reg.a1 } else { a_path };
        let a = if mode.zero_a { 0 } else { wrap(a_taken, 27) };
        let d_path = if self.attributes.d_held { reg.d } else { self.ports.d };
        let d = if mode.use_d { d_path } else { 0 };
        (d, a)
    }

    /// The product before its register, from a or AD and from B.
    fn multiply(&self, a: i64, ad: i64, b_path: i64) -> i64 {
        let (att, reg) = (self.attributes, self.registers);
        let ad_path = if att.ad_held { reg.ad } else { ad };
        let left = if att.preadds { ad_path } else { a };
        let right = if self.controls.inmode.early_b { reg.b1 } else { b_path };
        left * right
    }

    /// The unit at work on what was selected for it.
    fn unit(&self, selection: Selection) -> Unit {
        let (mode, lanes) = (self.controls.alumode, self.attributes.lanes);
        let operands = selection.operands();
        let result = alu::settle(mode, lanes, operands);
        let carry_out = self.lets_carry_out() && alu::carries(operands);
        Unit { mode, lanes, selection, result, carry_out }
    }

    /// Tells whether a carry may leave the unit (02, Ask 7).
    fn lets_carry_out(&self) -> bool {
        let Controls { opmode, alumode, .. } = *self.controls;
        // By the selects: a product at Y leaves its value to X, but is no Y 0.
        let x_and_z_alone = opmode.w == W::Zero && opmode.y == Y::Zero;
        self.attributes.lanes == Lanes::One48 && alumode == AluMode::Sum && x_and_z_alone
    }

    fn select(&self, a_path: i64, b_path: i64, m_path: i64) -> Selection {
        let (att, reg, mode) = (self.attributes, self.registers, self.controls.opmode);
        let c_path = if att.c_held { reg.c } else { self.ports.c };
        Selection {
            w: match mode.w {
                W::Zero => Place::Zero.gives(0),
                W::P => Place::P.gives(reg.p),
                W::Rnd => Place::Rnd.gives(att.rnd),
                W::C => Place::C.gives(c_path),
            },
            x: match mode.x {
                X::Zero => Place::Zero.gives(0),
                X::Product => Place::Product.gives(m_path),
                X::P => Place::P.gives(reg.p),
                X::AB => Place::AB.gives(a_path << 18 | pattern(b_path, 18) as i64),
            },
            y: match mode.y {
                // X brings the whole product, so Y adds nothing to it.
                Y::Zero | Y::Product => Place::Zero.gives(0),
                Y::Ones => Place::Ones.gives(-1),
                Y::C => Place::C.gives(c_path),
            },
            z: match mode.z {
                Z::Zero => Place::Zero.gives(0),
                Z::Pcin => Place::Pcin.gives(self.below.p),
                Z::P => Place::P.gives(reg.p),
                Z::C => Place::C.gives(c_path),
                Z::PcinShifted => Place::PcinShifted.gives(self.below.p >> 17),
                Z::PShifted => Place::PShifted.gives(reg.p >> 17),
            },
            carry: self.select_carry(),
        }
    }

    fn select_carry(&self) -> Selected<bool> {
        let (att, reg) = (self.attributes, self.registers);
        let path = if att.carryin_held { reg.carryin } else { self.ports.carryin };
        match self.controls.carryinsel {
            CarryInSel::Path => Place::CarryInPath.gives(path),
            CarryInSel::NotPcinSign => Place::NotPcinSign.gives(self.below.p >= 0),
            CarryInSel::CarryBelow => Place::CarryBelow.gives(self.below.carry),
            CarryInSel::PcinSign => Place::PcinSign.gives(self.below.p < 0),
            CarryInSel::NotPSign => Place::NotPSign.gives(reg.p >= 0),
            CarryInSel::PSign => Place::PSign.gives(reg.p < 0),
        }
    }

    /// What is shown: what settled, or the registers where P has one.
    fn outputs(&self, settled: Outputs) -> Outputs {
        let reg = self.registers;
        if !self.attributes.p_held {
            return settled;
        }
        // A swing from one match to the other stays legal (02, Ask 2).
        let unmatched = !reg.pd && !reg.pbd;
        Outputs {
            p: reg.p,
            pd: reg.pd,
            pbd: reg.pbd,
            overflow: reg.pd_past && unmatched,
            underflow: reg.pbd_past && unmatched,
            // No register holds it.
            preaddwrap: settled.preaddwrap,
            // Handed up as it is shown, so never a clock ahead of P.
            carry_out: reg.carry_out,
        }
    }
}

/// The A or B path: the input, or the last register before the multiplier.
fn path(pipeline: &Pipeline, input: i64, last: i64) -> i64 {
    if pipeline.stages == Stages::None {
        input
    } else {
        last
    }
}

/// One register over the edge: a reset outranks the enable.
fn next<T: Default>(old: T, new: T, ports: &Ports, enable: Enable, reset: Reset) -> T {
    if ports.reset(reset) {
        T::default()
    } else if ports.enabled(enable) {
        new
    } else {
        old
    }
}

/// All registers over the edge, bypassed or not, from what settled before it.
pub fn edge(attributes: &Attributes, old: &Registers, ports: &Ports, shown: &Shown) -> Registers {
    use {Enable as E, Reset as R};
    let a2_from = if attributes.a.stages == Stages::Two { old.a1 } else { shown.a_input };
    let b2_from = if attributes.b.stages == Stages::Two { old.b1 } else { shown.b_input };
    Registers {
        a1: next(old.a1, shown.a_input, ports, E::A1, R::A),
        a2: next(old.a2, a2_from, ports, E::A2, R::A),
        b1: next(old.b1, shown.b_input, ports, E::B1, R::B),
        b2: next(old.b2, b2_from, ports, E::B2, R::B),
        c: next(old.c, ports.c, ports, E::C, R::C),
        d: next(old.d, ports.d, ports, E::D, R::D),
        ad: next(old.ad, shown.ad, ports, E::Ad, R::D),
        m: next(old.m, shown.product, ports, E::M, R::M),
        p: next(old.p, shown.unit.result, ports, E::P, R::P),
        opmode: next(old.opmode, ports.opmode, ports, E::Ctrl, R::Ctrl),
        alumode: next(old.alumode, ports.alumode, ports, E::AluMode, R::AluMode),
        inmode: next(old.inmode, ports.inmode, ports, E::InMode, R::InMode),
        carryinsel: next(old.carryinsel, ports.carryinsel, ports, E::Ctrl, R::Ctrl),
        carryin: next(old.carryin, ports.carryin, ports, E::CarryIn, R::AllCarryIn),
        pd: next(old.pd, shown.pd, ports, E::P, R::P),
        pbd: next(old.pbd, shown.pbd, ports, E::P, R::P),
        pd_past: next(old.pd_past, old.pd, ports, E::P, R::P),
        pbd_past: next(old.pbd_past, old.pbd, ports, E::P, R::P),
        carry_out: next(old.carry_out, shown.unit.carry_out, ports, E::P, R::P),
    }
}
