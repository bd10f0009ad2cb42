//! Every way to deserve a refusal, and a column around it.

use crate::draw::{self, Growing, LOGIC_MODES};
use crate::oracle::ending;
use crate::random::Random;
use crate::words::*;

/// One cause of one refusal number, at a slice yet to be chosen.
#[derive(Clone)]
pub struct Fault {
    pub number: u64,
    pub label: String,
    /// Attributes the slice must have for it.
    attributes: Vec<(usize, u64)>,
    /// Ports of the refused clock itself.
    now: Vec<(usize, u64)>,
    /// Ports of the clock before, to be in the registers by then.
    before: Vec<(usize, u64)>,
}

/// The attribute that holds each control, and its CE and RST bits.
fn register_of(port: usize) -> (usize, u64, u64) {
    match port {
        po::OPMODE => (at::OPMODEREG, CE_CTRL, RST_CTRL),
        po::ALUMODE => (at::ALUMODEREG, CE_ALUMODE, RST_ALUMODE),
        po::INMODE => (at::INMODEREG, CE_INMODE, RST_INMODE),
        _ => (at::CARRYINSELREG, CE_CTRL, RST_CTRL),
    }
}

/// Attributes that break their list.
pub fn attribute_faults() -> Vec<Fault> {
    let mut faults = Vec::new();
    let mut add = |label: String, attributes: Vec<(usize, u64)>| {
        faults.push(Fault { number: 3, label, attributes, now: vec![], before: vec![] });
    };
    for pair in [[at::AREG, at::ACASCREG], [at::BREG, at::BCASCREG]] {
        for (reg, cascade) in [(0, 1), (0, 2), (1, 0), (1, 2), (2, 0), (2, 3), (3, 1), (3, 3)] {
            let label = format!("{} {reg} cascade {cascade}", ATTRIBUTE_NAMES[pair[0]]);
            add(label, vec![(pair[0], reg), (pair[1], cascade)]);
        }
    }
    for (word, name) in ATTRIBUTE_NAMES[..at::USE_SIMD].iter().enumerate() {
        let first_over = if word >= at::RND { 1 << 48 } else { 2 };
        if word >= at::A_INPUT {
            add(format!("{name} {first_over}"), vec![(word, first_over)]);
        }
        add(format!("{name} 2^64-1"), vec![(word, u64::MAX)]);
    }
    for (simd, multiplies) in [(3, 0), (u64::MAX, 0), (1 << 32, 0), (1, 1), (2, 1)] {
        let label = format!("USE_SIMD {simd} with USE_MULT {multiplies}");
        add(label, vec![(at::USE_SIMD, simd), (at::USE_MULT, multiplies)]);
    }
    faults
}

/// Ports over their width: by one, and by all there is.
pub fn port_faults() -> Vec<Fault> {
    let mut faults = Vec::new();
    for (port, width) in PORT_WIDTHS.into_iter().enumerate() {
        for value in [1 << width, u64::MAX] {
            let label = format!("{} {value}", PORT_NAMES[port]);
            let now = vec![(port, value)];
            faults.push(Fault { number: 5, label, attributes: vec![], now, before: vec![] });
        }
    }
    faults
}

/// A control's cause: its number, the attributes and the control words.
type Cause = (u64, Vec<(usize, u64)>, Vec<(usize, u64)>);

fn control_causes() -> Vec<Cause> {
    let mut causes: Vec<Cause> = Vec::new();
    for (attribute, bit) in [(at::AMULTSEL, 4), (at::AMULTSEL, 8), (at::AREG, 1), (at::BREG, 16)] {
        causes.push((6, vec![(attribute, 0)], vec![(po::INMODE, bit)]));
    }
    for opmode in [4 << 4, 7 << 4, 1, 4] {
        causes.push((7, vec![(at::USE_MULT, 1)], vec![(po::OPMODE, opmode)]));
    }
    causes.push((7, vec![(at::USE_MULT, 0)], vec![(po::OPMODE, 5)]));
    for opmode in [2, 2 << 4, 6 << 4, 1 << 7] {
        causes.push((7, vec![(at::PREG, 0)], vec![(po::OPMODE, opmode)]));
    }
    for alumode in 8..=11 {
        causes.push((8, vec![], vec![(po::ALUMODE, alumode), (po::OPMODE, 0)]));
    }
    for alumode in LOGIC_MODES {
        for opmode in [1 << 7, 2 << 7, 3 << 7, 3 << 2, 5] {
            let needs = vec![(at::PREG, 1), (at::USE_MULT, 1)];
            causes.push((8, needs, vec![(po::ALUMODE, alumode), (po::OPMODE, opmode)]));
        }
    }
    for carryinsel in [4, 6] {
        causes.push((9, vec![], vec![(po::CARRYINSEL, carryinsel)]));
    }
    for carryinsel in [5, 7] {
        causes.push((9, vec![(at::PREG, 0)], vec![(po::CARRYINSEL, carryinsel)]));
    }
    causes
}

/// Controls in effect that are forbidden, from the port and from the register.
pub fn control_faults() -> Vec<Fault> {
    let mut faults = Vec::new();
    for (number, needs, controls) in control_causes() {
        for held in 0..1u64 << controls.len() {
            let mut fault = Fault {
                number,
                label: String::new(),
                attributes: needs.clone(),
                now: vec![],
                before: vec![],
            };
            for (i, (port, value)) in controls.iter().enumerate() {
                let in_register = held >> i & 1;
                fault.attributes.push((register_of(*port).0, in_register));
                let list = if in_register == 1 { &mut fault.before } else { &mut fault.now };
                list.push((*port, *value));
                let place = ["port", "register"][in_register as usize];
                fault.label += &format!("{} {value} in {place} ", PORT_NAMES[*port]);
            }
            for (attribute, value) in &needs {
                fault.label += &format!("{} {value} ", ATTRIBUTE_NAMES[*attribute]);
            }
            fault.label.truncate(fault.label.trim_end().len());
            faults.push(fault);
        }
    }
    faults
}

/// Every fault a well-formed listing can have.
pub fn all() -> Vec<Fault> {
    [attribute_faults(), port_faults(), control_faults()].concat()
}

impl Fault {
    /// Gives a slice the attributes the fault needs, the others staying legal.
    pub fn shape(&self, at: &mut Attributes) {
        for (attribute, value) in &self.attributes {
            at[*attribute] = *value;
            // The cascade follows its depth, unless it is the fault itself.
            if self.number != 3 && [at::AREG, at::BREG].contains(attribute) {
                at[*attribute + 2] = *value;
            }
            // A multiplier goes with one lane only.
            if self.number != 3 && (*attribute, *value) == (at::USE_MULT, 1) {
                at[at::USE_SIMD] = 0;
            }
        }
    }

    /// Loads into the registers what must stand there.
    fn prepare(&self, po: &mut Ports) {
        for (port, value) in &self.before {
            let (_, ce, rst) = register_of(*port);
            po[*port] = *value;
            po[po::CE] |= ce;
            po[po::RST] &= !rst;
        }
    }

    /// Makes the refused clock's ports.
    pub fn strike(&self, po: &mut Ports) {
        for (port, value) in &self.now {
            po[*port] = *value;
        }
    }

    /// Puts the fault into a slice of a column whose attributes it has shaped.
    pub fn put(&self, column: &mut Column, clock: usize, slice: usize) {
        if let Some(before) = clock.checked_sub(1) {
            self.prepare(&mut column.clocks[before][slice]);
        }
        self.strike(&mut column.clocks[clock][slice]);
    }

    /// Puts straight into a slice's registers what must stand there.
    pub fn store(&self, registers: &mut [u64]) {
        for (port, value) in &self.before {
            // The control registers stand in the order of their ports.
            registers[rg::OPMODE + port - po::OPMODE] = *value;
        }
    }

    pub fn needs_clock_before(&self) -> bool {
        !self.before.is_empty()
    }
}

/// A column of a height in which these faults meet in one clock, and the
/// oracle agrees that the first of them is the one reported.
pub fn meet(random: &mut Random, height: u64, clock: u64, faults: &[(&Fault, usize)]) -> Column {
    for _ in 0..1000 {
        let column = attempt(random, height, clock, faults);
        let (first, slice) = faults[0];
        let clock = if first.number == 3 { 0 } else { clock };
        if ending(&column) == format!("R {} {clock} {slice}", first.number) {
            return column;
        }
    }
    panic!("no column was found for {} at {}", faults[0].0.label, faults[0].1);
}

fn attempt(random: &mut Random, height: u64, clock: u64, faults: &[(&Fault, usize)]) -> Column {
    let mut attributes: Vec<_> = (0..height).map(|_| draw::attributes(random)).collect();
    for (fault, slice) in faults {
        fault.shape(&mut attributes[*slice]);
    }
    let mut growing = Growing::new(attributes);
    if clock > 0 {
        growing.grow(random, clock - 1);
        let mut before = growing.draw(random);
        faults.iter().for_each(|(fault, slice)| fault.prepare(&mut before[*slice]));
        growing.push(before);
    }
    let mut now = growing.draw(random);
    for (fault, slice) in faults {
        fault.strike(&mut now[*slice]);
    }
    growing.push(now);
    // What follows a refusal must never be read as more.
    if random.percent(30) {
        let more = growing.draw(random);
        growing.push(more);
    }
    growing.column
}
