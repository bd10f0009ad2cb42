//! A and B on their way through the registers of a slice, and up the column.

use crate::oracle::loaded;
use crate::words::*;

/// The sides, in whose order attributes, ports, registers, enables and resets stand.
pub const A: usize = 0;
pub const B: usize = 1;

/// The two registers of a side.
#[derive(Clone, Copy, Default)]
pub struct Stages {
    pub first: u64,
    pub second: u64,
}

impl Stages {
    pub fn of_registers(registers: &Registers, side: usize) -> Stages {
        let [first, second] = [rg::A1, rg::A2].map(|register| registers[register + 2 * side]);
        Stages { first, second }
    }

    /// What they hold after the edge, when this is the slice's input.
    pub fn after(self, at: &Attributes, po: &Ports, side: usize, input: u64) -> Stages {
        let to_second = if at[at::AREG + side] == 2 { self.first } else { input };
        let load = |held: u64, input: u64, ce: u64| {
            loaded(po, held, input, ce << (2 * side), RST_A << side)
        };
        Stages {
            first: load(self.first, input, CE_A1),
            second: load(self.second, to_second, CE_A2),
        }
    }

    /// What the path shows.
    pub fn path(self, at: &Attributes, side: usize, input: u64) -> u64 {
        match at[at::AREG + side] {
            0 => input,
            _ => self.second,
        }
    }

    /// What the slice above gets from below.
    fn handed_up(self, at: &Attributes, side: usize, input: u64) -> u64 {
        match (at[at::AREG + side], at[at::ACASCREG + side]) {
            (2, 1) => self.first,
            _ => self.path(at, side, input),
        }
    }
}

/// The inputs of a side in all slices, from the bottom up.
pub fn inputs(
    attributes: &[Attributes],
    ports: &[Ports],
    side: usize,
    held: impl Fn(usize) -> Stages,
) -> Vec<u64> {
    let mut from_below = 0;
    let mut next = |k: usize| {
        let at = &attributes[k];
        let input = if at[at::A_INPUT + side] == 1 { from_below } else { ports[k][po::A + side] };
        from_below = held(k).handed_up(at, side, input);
        input
    };
    (0..attributes.len()).map(&mut next).collect()
}
