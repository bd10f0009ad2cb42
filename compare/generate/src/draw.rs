//! Random words, slices and clocks, legal but for a fault put in on purpose.

use crate::oracle::Controls;
use crate::random::Random;
use crate::words::*;
use crate::wrap_oracle::{beside, pattern, signed};

/// A word of a width: at an edge, small, or anything.
pub fn word(random: &mut Random, width: u32) -> u64 {
    match random.below(10) {
        0..=3 => random.pick(&edges(width)),
        4 => random.below(256) & ones(width),
        5 => ones(width) - (random.below(256) & ones(width)),
        _ => random.word() & ones(width),
    }
}

/// A word of A whose low 27 bits are a number; the pre-adder must not read those above.
pub fn a_word(random: &mut Random, a: i64) -> u64 {
    pattern(a) | random.below(8) << 27
}

/// Words of A and D whose sum or difference is at an end of the pre-adder or past it.
pub fn a_and_d(random: &mut Random) -> [u64; 2] {
    let a = signed(word(random, 27), 27);
    let (d, _) = random.pick(&beside(a));
    [a_word(random, a), pattern(d)]
}

/// The depth of a pipeline and of its cascade.
const DEPTHS: [(u64, u64); 4] = [(0, 0), (1, 1), (2, 1), (2, 2)];

/// Legal attributes; the wide ones so that the detector has a chance.
pub fn attributes(random: &mut Random) -> Attributes {
    let mut at = [0; 22];
    (at[at::AREG], at[at::ACASCREG]) = random.pick(&DEPTHS);
    (at[at::BREG], at[at::BCASCREG]) = random.pick(&DEPTHS);
    for flag in &mut at[at::A_INPUT..=at::AMULTSEL] {
        *flag = random.below(2);
    }
    // What opens more settings is drawn more often.
    at[at::PREG] |= random.below(2);
    at[at::AMULTSEL] |= random.below(2);
    at[at::RND] = word(random, 48);
    (at[at::PATTERN], at[at::MASK]) = detector(random);
    if at[at::USE_MULT] == 0 {
        at[at::USE_SIMD] = random.below(3);
    }
    at
}

/// A pattern and a mask: a run of ones, all but a few bits, an edge.
pub fn detector(random: &mut Random) -> (u64, u64) {
    let mask = match random.below(6) {
        0 => random.pick(&edges(48)),
        1 | 2 => ones(random.within(1, 48) as u32),
        3 => ones(48) ^ 1 << random.below(48),
        4 => ones(48) ^ 1 << random.below(48) ^ 1 << random.below(48),
        _ => random.word() & ones(48),
    };
    let pattern = match random.below(4) {
        0 | 1 => 0,
        2 => random.pick(&edges(48)),
        _ => random.word() & ones(48),
    };
    (pattern, mask)
}

/// A pattern, and a mask that leaves so few bits to compare that matches are common.
pub fn common_match(random: &mut Random) -> (u64, u64) {
    let compared = (0..random.below(8)).fold(0, |bits, _| bits | 1 << random.below(48));
    (random.word() & ones(48), ones(48) ^ compared)
}

/// The controls a slice may have: all OPMODEs, those that take the product
/// (or all again, if it has none), those that go with a logic mode, those that
/// do not hide a carry, and so on.
pub struct Menu {
    pub opmodes: Vec<u64>,
    pub product_opmodes: Vec<u64>,
    pub logic_opmodes: Vec<u64>,
    pub carry_opmodes: Vec<u64>,
    pub inmodes: Vec<u64>,
    pub carryinsels: Vec<u64>,
}

pub const LOGIC_MODES: [u64; 8] = [4, 5, 6, 7, 12, 13, 14, 15];

impl Menu {
    pub fn of(at: &Attributes) -> Menu {
        let with = |opmode, alumode| Controls { opmode, alumode, ..Controls::default() };
        let legal = |controls: Controls| controls.refused(at).is_none();
        let inmode = |inmode| Controls { inmode, ..Controls::default() };
        let carryinsel = |carryinsel| Controls { carryinsel, ..Controls::default() };
        let opmodes: Vec<u64> = (0..512).filter(|mode| legal(with(*mode, 0))).collect();
        let takes_product = |mode: &u64| at[at::USE_MULT] != 1 || mode & 15 == 5;
        let takes_no_w_and_y = |mode: &u64| mode & (3 << 7 | 3 << 2) == 0;
        Menu {
            product_opmodes: opmodes.iter().copied().filter(takes_product).collect(),
            carry_opmodes: opmodes.iter().copied().filter(takes_no_w_and_y).collect(),
            opmodes,
            logic_opmodes: (0..512).filter(|mode| legal(with(*mode, 4))).collect(),
            inmodes: (0..32).filter(|mode| legal(inmode(*mode))).collect(),
            carryinsels: (0..8).filter(|select| legal(carryinsel(*select))).collect(),
        }
    }
}

/// Ports with random data and controls from the menu, legal or not together.
fn candidate(random: &mut Random, menu: &Menu) -> Ports {
    let mut po = [0; 11];
    for (port, width) in po.iter_mut().zip(PORT_WIDTHS) {
        *port = word(random, width);
    }
    if random.percent(20) {
        [po[po::A], po[po::D]] = a_and_d(random);
    }
    let (logic, product) = (random.percent(40), random.percent(40));
    po[po::OPMODE] = random.pick(match (logic, product) {
        (true, _) => &menu.logic_opmodes,
        (false, true) => &menu.product_opmodes,
        (false, false) => &menu.opmodes,
    });
    po[po::ALUMODE] = if logic { random.pick(&LOGIC_MODES) } else { random.below(4) };
    if random.percent(10) {
        (po[po::OPMODE], po[po::ALUMODE]) = (random.pick(&menu.carry_opmodes), 0);
    }
    po[po::INMODE] = random.pick(&menu.inmodes);
    po[po::CARRYINSEL] = random.pick(&menu.carryinsels);
    po[po::CE] = match random.below(10) {
        0..=5 => CE_ALL,
        6 => CE_ALL ^ 1 << random.below(13),
        7 => 1 << random.below(13),
        _ => random.below(CE_ALL + 1),
    };
    po[po::RST] = match random.below(20) {
        0 | 1 => 1 << random.below(10),
        2 => random.below(RST_ALL + 1),
        3 => 1 << random.below(10) | 1 << random.below(10),
        _ => 0,
    };
    po
}

/// Whether a slice may have these ports now and can go on afterwards.
fn goes_on(at: &Attributes, held: Controls, po: &Ports) -> bool {
    let after = held.after(po).in_effect(at, &[0; 11]);
    held.in_effect(at, po).refused(at).is_none() && after.refused(at).is_none()
}

/// Legal ports for a slice whose control registers hold these.
pub fn ports(random: &mut Random, at: &Attributes, menu: &Menu, held: Controls) -> Ports {
    for _ in 0..40 {
        let po = candidate(random, menu);
        if goes_on(at, held, &po) {
            return po;
        }
    }
    // Zeros are legal for any attributes, and so is what the resets leave.
    let mut po = candidate(random, menu);
    po[po::OPMODE..=po::CARRYINSEL].fill(0);
    po[po::RST] |= RST_CTRL | RST_ALUMODE | RST_INMODE;
    po
}

/// A column that grows clock by clock.
pub struct Growing {
    pub column: Column,
    pub held: Vec<Controls>,
    menus: Vec<Menu>,
}

impl Growing {
    pub fn new(attributes: Vec<Attributes>) -> Growing {
        Growing {
            held: vec![Controls::default(); attributes.len()],
            menus: attributes.iter().map(Menu::of).collect(),
            column: Column { attributes, clocks: Vec::new() },
        }
    }

    pub fn random(random: &mut Random, count: u64) -> Growing {
        Growing::new((0..count).map(|_| attributes(random)).collect())
    }

    pub fn height(&self) -> usize {
        self.column.attributes.len()
    }

    /// Legal ports for the next clock.
    pub fn draw(&self, random: &mut Random) -> Vec<Ports> {
        (0..self.height()).map(|k| self.draw_slice(random, k)).collect()
    }

    pub fn draw_slice(&self, random: &mut Random, k: usize) -> Ports {
        ports(random, &self.column.attributes[k], &self.menus[k], self.held[k])
    }

    /// Takes the next clock, be it legal or not.
    pub fn push(&mut self, ports: Vec<Ports>) {
        for (held, po) in self.held.iter_mut().zip(&ports) {
            *held = held.after(po);
        }
        self.column.clocks.push(ports);
    }

    /// Grows by so many random legal clocks.
    pub fn grow(&mut self, random: &mut Random, clocks: u64) {
        for _ in 0..clocks {
            let ports = self.draw(random);
            self.push(ports);
        }
    }
}

/// The height of a random column: mostly small, now and then full.
pub fn height(random: &mut Random) -> u64 {
    match random.below(20) {
        0..=9 => random.within(1, 3),
        10..=15 => random.within(4, 8),
        16..=18 => random.within(9, 16),
        _ => random.within(17, 24),
    }
}

/// Legal ports whose CE and RST are given.
pub fn ports_with(
    random: &mut Random,
    at: &Attributes,
    held: Controls,
    enables: u64,
    resets: u64,
) -> Ports {
    let menu = Menu::of(at);
    for _ in 0..40 {
        let mut po = candidate(random, &menu);
        (po[po::CE], po[po::RST]) = (enables, resets);
        if goes_on(at, held, &po) {
            return po;
        }
    }
    let mut po = candidate(random, &menu);
    po[po::OPMODE..=po::CARRYINSEL].fill(0);
    (po[po::CE], po[po::RST]) = (enables, resets);
    po
}
