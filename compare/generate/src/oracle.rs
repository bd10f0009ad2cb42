//! How a listing must end, without working out a single output.
//!
//! Only the control registers matter to a refusal, so only they are followed.

use crate::words::*;

/// The four controls, in the registers of a slice or in effect.
#[derive(Clone, Copy, Default, Debug, PartialEq, Eq)]
pub struct Controls {
    pub opmode: u64,
    pub alumode: u64,
    pub inmode: u64,
    pub carryinsel: u64,
}

impl Controls {
    pub fn of_registers(registers: &Registers) -> Controls {
        Controls {
            opmode: registers[rg::OPMODE],
            alumode: registers[rg::ALUMODE],
            inmode: registers[rg::INMODE],
            carryinsel: registers[rg::CARRYINSEL],
        }
    }

    /// What is in effect when these stand in the registers.
    pub fn in_effect(self, at: &Attributes, po: &Ports) -> Controls {
        let choose = |attribute: usize, held: u64, port: usize| {
            if at[attribute] == 1 {
                held
            } else {
                po[port]
            }
        };
        Controls {
            opmode: choose(at::OPMODEREG, self.opmode, po::OPMODE),
            alumode: choose(at::ALUMODEREG, self.alumode, po::ALUMODE),
            inmode: choose(at::INMODEREG, self.inmode, po::INMODE),
            carryinsel: choose(at::CARRYINSELREG, self.carryinsel, po::CARRYINSEL),
        }
    }

    /// What stands in the registers after the edge.
    pub fn after(self, po: &Ports) -> Controls {
        let load = |held: u64, port: usize, ce: u64, rst: u64| loaded(po, held, po[port], ce, rst);
        Controls {
            opmode: load(self.opmode, po::OPMODE, CE_CTRL, RST_CTRL),
            alumode: load(self.alumode, po::ALUMODE, CE_ALUMODE, RST_ALUMODE),
            inmode: load(self.inmode, po::INMODE, CE_INMODE, RST_INMODE),
            carryinsel: load(self.carryinsel, po::CARRYINSEL, CE_CTRL, RST_CTRL),
        }
    }

    pub fn w(self) -> u64 {
        self.opmode >> 7
    }

    pub fn z(self) -> u64 {
        self.opmode >> 4 & 7
    }

    pub fn y(self) -> u64 {
        self.opmode >> 2 & 3
    }

    pub fn x(self) -> u64 {
        self.opmode & 3
    }

    /// The lowest of 6 to 9 that these, in effect, deserve.
    pub fn refused(self, at: &Attributes) -> Option<u64> {
        let checks = [
            (6, self.inmode_refused(at)),
            (7, self.opmode_refused(at)),
            (8, self.alumode_refused()),
            (9, self.carryinsel_refused(at)),
        ];
        checks.iter().find(|(_, refused)| *refused).map(|(number, _)| *number)
    }

    pub fn inmode_refused(self, at: &Attributes) -> bool {
        // The bits that stay forbidden for lack of a pre-adder, A1 or B1.
        let mut forbidden = 0;
        if at[at::AMULTSEL] == 0 {
            forbidden |= 0b01100;
        }
        if at[at::AREG] == 0 {
            forbidden |= 0b00001;
        }
        if at[at::BREG] == 0 {
            forbidden |= 0b10000;
        }
        self.inmode & forbidden != 0
    }

    pub fn opmode_refused(self, at: &Attributes) -> bool {
        let product_ok = match (self.x(), self.y()) {
            (1, 1) => at[at::USE_MULT] == 1,
            (1, _) | (_, 1) => false,
            _ => true,
        };
        let reads_p = self.x() == 2 || [2, 6].contains(&self.z()) || self.w() == 1;
        [4, 7].contains(&self.z()) || !product_ok || (reads_p && at[at::PREG] == 0)
    }

    pub fn alumode_refused(self) -> bool {
        match self.alumode {
            0..=3 => false,
            8..=11 => true,
            _ => self.w() != 0 || self.y() & 1 == 1 || self.x() == 1,
        }
    }

    pub fn carryinsel_refused(self, at: &Attributes) -> bool {
        match self.carryinsel {
            0..=3 => false,
            5 | 7 => at[at::PREG] == 0,
            _ => true,
        }
    }
}

/// What a register holds after the edge, by the bits that enable and reset it.
pub fn loaded(po: &Ports, held: u64, input: u64, ce: u64, rst: u64) -> u64 {
    match (po[po::RST] & rst, po[po::CE] & ce) {
        (0, 0) => held,
        (0, _) => input,
        _ => 0,
    }
}

/// Whether a slice's attributes break their list.
pub fn attributes_refused(at: &Attributes) -> bool {
    let depths = [[0, 0], [1, 1], [2, 1], [2, 2]];
    let deep = |reg: usize, cascade: usize| depths.contains(&[at[reg], at[cascade]]);
    !deep(at::AREG, at::ACASCREG)
        || !deep(at::BREG, at::BCASCREG)
        || at[at::A_INPUT..=at::AMULTSEL].iter().any(|word| *word > 1)
        || at[at::RND..=at::MASK].iter().any(|word| *word > ones(48))
        || lanes_refused(at)
}

/// Whether USE_SIMD is no setting, or splits the adder of a slice that multiplies.
pub fn lanes_refused(at: &Attributes) -> bool {
    match at[at::USE_SIMD] {
        0 => false,
        1 | 2 => at[at::USE_MULT] == 1,
        _ => true,
    }
}

/// Whether a word is over its width.
pub fn too_wide(words: &[u64], widths: &[u32]) -> bool {
    words.iter().zip(widths).any(|(word, width)| *word > ones(*width))
}

/// All numbers from 3 to 9 that a slice deserves, whatever the other slices do.
pub fn deserved(at: &Attributes, registers: &Registers, po: &Ports) -> Vec<u64> {
    let controls = Controls::of_registers(registers).in_effect(at, po);
    let checks = [
        (3, attributes_refused(at)),
        (4, too_wide(registers, &REGISTER_WIDTHS)),
        (5, too_wide(po, &PORT_WIDTHS)),
        (6, controls.inmode_refused(at)),
        (7, controls.opmode_refused(at)),
        (8, controls.alumode_refused()),
        (9, controls.carryinsel_refused(at)),
    ];
    checks.into_iter().filter(|(_, refused)| *refused).map(|(number, _)| number).collect()
}

/// How one clock ends: nothing, or the number and slice of its refusal.
pub fn clock_refused(
    attributes: &[Attributes],
    held: &[Controls],
    ports: &[Ports],
) -> Option<(u64, usize)> {
    let of_slice = |k: usize| {
        if too_wide(&ports[k], &PORT_WIDTHS) {
            return Some(5);
        }
        held[k].in_effect(&attributes[k], &ports[k]).refused(&attributes[k])
    };
    // The lowest number wins over all slices, then the lowest slice.
    (0..attributes.len()).filter_map(|k| Some((of_slice(k)?, k))).min()
}

/// The last line that the listing of this column must print.
pub fn ending(column: &Column) -> String {
    if let Some(slice) = column.attributes.iter().position(attributes_refused) {
        return format!("R 3 0 {slice}");
    }
    let mut held = vec![Controls::default(); column.attributes.len()];
    for (clock, ports) in column.clocks.iter().enumerate() {
        if let Some((number, slice)) = clock_refused(&column.attributes, &held, ports) {
            return format!("R {number} {clock} {slice}");
        }
        held.iter_mut().zip(ports).for_each(|(controls, po)| *controls = controls.after(po));
    }
    format!("E {}", column.clocks.len())
}
