//! Calls as lines of text: adder, clock and clear; runs are in `packed_calls`, why in `why_calls`.

use std::io::{self, Write};

use crate::carry_calls;
use crate::draw::{self, height, Menu, LOGIC_MODES};
use crate::faults::{all, Fault};
use crate::oracle::Controls;
use crate::packed_calls;
use crate::random::Random;
use crate::why_calls;
use crate::wide_sums;
use crate::words::*;
use crate::wrap_calls;

/// A clock call's words; the lengths need not fit the count.
#[derive(Clone)]
pub struct Clock {
    pub count: u64,
    pub attributes: Vec<u64>,
    pub registers: Vec<u64>,
    pub ports: Vec<u64>,
    pub outputs: Vec<u64>,
}

/// Writes the sweeps and then so many random calls.
pub fn write(out: &mut impl Write, random: &mut Random, count: u64) -> io::Result<()> {
    sweep_adder(out)?;
    sweep_counts(out, random)?;
    sweep_lengths(out, random)?;
    sweep_faults(out, random)?;
    sweep_lanes(out, random)?;
    wrap_calls::sweep(out, random)?;
    carry_calls::sweep(out, random)?;
    wide_sums::sweep(out, random)?;
    packed_calls::sweep(out, random)?;
    why_calls::sweep(out, random)?;
    for _ in 0..count {
        match random.below(46) {
            0..=7 => random_adder(out, random)?,
            8..=30 => any_clock(random).write(out)?,
            31 => wide_sums::any_calls(out, random)?,
            32..=33 => random_clear(out, random)?,
            34..=39 => packed_calls::any(random).write(out)?,
            _ => why_calls::any(random).write(out)?,
        }
    }
    Ok(())
}

pub fn stretch<T: ToString>(words: &[T]) -> String {
    let mut text = words.len().to_string();
    for word in words {
        text.push(' ');
        text += &word.to_string();
    }
    text
}

impl Clock {
    pub fn write(&self, out: &mut impl Write) -> io::Result<()> {
        let Clock { count, attributes, registers, ports, outputs } = self;
        let lent = [attributes, registers, ports, outputs].map(|words| stretch(words));
        writeln!(out, "clock {count} {}", lent.join(" "))
    }

    /// A legal clock of a height, in a state that may be any legal one.
    pub fn legal(random: &mut Random, height: u64) -> Clock {
        let attributes: Vec<Attributes> = (0..height).map(|_| draw::attributes(random)).collect();
        Clock::of(random, &attributes)
    }

    pub fn of(random: &mut Random, attributes: &[Attributes]) -> Clock {
        let mut clock = Clock {
            count: attributes.len() as u64,
            attributes: attributes.concat(),
            registers: Vec::new(),
            ports: Vec::new(),
            outputs: (0..attributes.len() * OUTPUT_WORDS).map(|_| random.word()).collect(),
        };
        for at in attributes {
            let menu = Menu::of(at);
            let mut registers = registers(random, at, &menu);
            let held = Controls::of_registers(&registers);
            let mut ports = draw::ports(random, at, &menu, held);
            if random.percent(20) {
                to_the_ends(random, &mut registers, &mut ports);
            }
            clock.ports.extend(ports);
            clock.registers.extend(registers);
        }
        clock
    }

    /// The registers of a slice.
    pub fn held(&mut self, slice: usize) -> &mut [u64] {
        &mut self.registers[slice * REGISTER_WORDS..][..REGISTER_WORDS]
    }

    /// The ports of a slice.
    pub fn given(&mut self, slice: usize) -> &mut [u64] {
        &mut self.ports[slice * 11..][..11]
    }

    /// Puts a word where a slice takes it from, as an attribute says: a port or a register.
    pub fn put(&mut self, slice: usize, attribute: usize, [port, register]: [usize; 2], word: u64) {
        match self.attributes[slice * 22 + attribute] {
            0 => self.given(slice)[port] = word,
            _ => self.held(slice)[register] = word,
        }
    }
}

/// Takes a pre-adder to its ends by most of the words that it might read, but not by all of them,
/// so that it matters which it reads.
fn to_the_ends(random: &mut Random, registers: &mut Registers, ports: &mut Ports) {
    let [a, d] = draw::a_and_d(random);
    let [a1, a2, ..] = registers;
    for word in [&mut ports[po::A], a1, a2] {
        if random.percent(75) {
            *word = a;
        }
    }
    for word in [&mut ports[po::D], &mut registers[rg::D]] {
        if random.percent(75) {
            *word = d;
        }
    }
}

/// Registers of any content, but with legal controls where they are read.
fn registers(random: &mut Random, at: &Attributes, menu: &Menu) -> Registers {
    let mut registers: Registers = REGISTER_WIDTHS.map(|width| draw::word(random, width));
    let (logic, product) = (random.percent(40), random.percent(50));
    if at[at::OPMODEREG] == 1 {
        registers[rg::OPMODE] = random.pick(match (logic, product) {
            (true, _) => &menu.logic_opmodes,
            (false, true) => &menu.product_opmodes,
            (false, false) => &menu.opmodes,
        });
    }
    if at[at::ALUMODEREG] == 1 {
        registers[rg::ALUMODE] = if logic { random.pick(&LOGIC_MODES) } else { random.below(4) };
    }
    if at[at::OPMODEREG] == 1 && random.percent(10) {
        registers[rg::OPMODE] = random.pick(&menu.carry_opmodes);
        registers[rg::ALUMODE] = 0;
    }
    if at[at::INMODEREG] == 1 {
        registers[rg::INMODE] = random.pick(&menu.inmodes);
    }
    if at[at::CARRYINSELREG] == 1 {
        registers[rg::CARRYINSEL] = random.pick(&menu.carryinsels);
    }
    registers
}

fn adder(out: &mut impl Write, words: [u64; 6]) -> io::Result<()> {
    writeln!(out, "adder {}", words.map(|word| word.to_string()).join(" "))
}

/// Edges in all operands of all modes, and every word over its width.
fn sweep_adder(out: &mut impl Write) -> io::Result<()> {
    for alumode in 0..16 {
        for w in edges(48) {
            for y in edges(48) {
                for (i, x) in edges(48).into_iter().enumerate() {
                    for (j, z) in edges(48).into_iter().enumerate() {
                        adder(out, [w, x, y, z, (i as u64 + j as u64) % 2, alumode])?;
                    }
                }
            }
        }
        for (place, width) in [48, 48, 48, 48, 1, 4].into_iter().enumerate() {
            for value in [ones(width), 1 << width, u64::MAX] {
                let mut words = [0, 0, 0, 0, 0, alumode];
                words[place] = value;
                adder(out, words)?;
            }
        }
    }
    Ok(())
}

/// Counts without a column, and the largest that has one.
fn sweep_counts(out: &mut impl Write, random: &mut Random) -> io::Result<()> {
    for count in [0, 25, 26, 256, 257, 1 << 32, (1 << 32) + 1, 1 << 63, u64::MAX] {
        let mut clock = Clock::legal(random, 1);
        clock.count = count;
        clock.write(out)?;
        writeln!(out, "clock {count} 0 0 0 0")?;
        writeln!(out, "clear {count} 0")?;
        writeln!(out, "clear {count} {}", stretch(&[7; REGISTER_WORDS]))?;
    }
    for height in [25, 24] {
        let lent =
            [22, REGISTER_WORDS, 11, OUTPUT_WORDS].map(|words| stretch(&vec![0; height * words]));
        writeln!(out, "clock {height} {}", lent.join(" "))?;
        writeln!(out, "clear {height} {}", stretch(&vec![1; height * REGISTER_WORDS]))?;
    }
    Ok(())
}

/// Each length wrong by itself.
fn sweep_lengths(out: &mut impl Write, random: &mut Random) -> io::Result<()> {
    for height in 1..=24 {
        for which in 0..4 {
            let legal = Clock::legal(random, height);
            let right = [22, REGISTER_WORDS, 11, OUTPUT_WORDS][which] * height as usize;
            // A word less a slice is the attributes' length without USE_SIMD, and the registers'
            // and the outputs' without the carry; two less is the outputs' without PREADDWRAP.
            let less = |words: usize| right - words * height as usize;
            for length in [0, right - 1, right + 1, less(1), less(2), right * 2] {
                let mut clock = legal.clone();
                let lent = [
                    &mut clock.attributes,
                    &mut clock.registers,
                    &mut clock.ports,
                    &mut clock.outputs,
                ];
                lent.into_iter().nth(which).unwrap().resize(length, u64::MAX);
                clock.write(out)?;
            }
        }
        let right = height * REGISTER_WORDS as u64;
        for length in [right, right - 1, right + 1, right - height, 0, height] {
            let words: Vec<u64> = (0..length).map(|_| random.word()).collect();
            writeln!(out, "clear {height} {}", stretch(&words))?;
        }
    }
    Ok(())
}

/// Gives one slice of a clock call a fault.
fn strike(clock: &mut Clock, fault: &Fault, slice: usize) {
    let ports = clock.given(slice);
    let mut po: Ports = ports.try_into().unwrap();
    fault.strike(&mut po);
    ports.copy_from_slice(&po);
    fault.store(clock.held(slice));
}

/// Each cause of 3 to 9 at each slice, some in the company of others.
fn sweep_faults(out: &mut impl Write, random: &mut Random) -> io::Result<()> {
    let faults = all();
    for fault in &faults {
        for slice in 0..24 {
            let height = random.within(slice as u64 + 1, 24);
            faulty(random, height, &faults, &[(fault, slice)]).write(out)?;
        }
    }
    for (word, width) in REGISTER_WIDTHS.into_iter().enumerate() {
        for slice in 0..24 {
            let height = random.within(slice as u64 + 1, 24);
            let mut clock = faulty(random, height, &faults, &[]);
            clock.held(slice)[word] = random.pick(&[1 << width, u64::MAX]);
            clock.write(out)?;
        }
    }
    Ok(())
}

/// Slices in each setting of lanes side by side, all operands at lane edges: W
/// is RND, X is A:B, Y is C and Z is the register P.
fn sweep_lanes(out: &mut impl Write, random: &mut Random) -> io::Result<()> {
    let edges = lane_edges();
    for case in 0..4 * 2 * edges.len() * edges.len() {
        let (mode, carry, pair) = (case % 4, case / 4 % 2, case / 8);
        let [x, y] = [edges[pair % edges.len()], edges[pair / edges.len()]];
        // Two operands alone half of the time, so that CIN alone may make a wrap.
        let alone = pair % 2 == 0;
        let [w, z] = [(); 2].map(|()| if alone { 0 } else { random.pick(&edges) });
        let mut clock = Clock::of(random, &[[0; 22]; 3]);
        for slice in 0..3 {
            let at = &mut clock.attributes[slice * 22..][..22];
            (at[at::PREG], at[at::RND], at[at::USE_SIMD]) = (1, w, slice as u64);
            clock.held(slice)[rg::P] = z;
            let (a, b, opmode) = (x >> 18, x & ones(18), 2 << 7 | 2 << 4 | 3 << 2 | 3);
            let po = [a, b, y, 0, opmode, mode as u64, 0, 0, carry as u64, CE_ALL, 0];
            clock.given(slice).copy_from_slice(&po);
        }
        clock.write(out)?;
    }
    Ok(())
}

/// A clock with given faults, and now and then others; the oracle judges.
pub fn faulty(
    random: &mut Random,
    height: u64,
    faults: &[Fault],
    given: &[(&Fault, usize)],
) -> Clock {
    let mut met = given.to_vec();
    while random.percent(30) {
        let other = &faults[random.below(faults.len() as u64) as usize];
        met.push((other, random.below(height) as usize));
    }
    with_faults(random, height, &met)
}

/// A clock with these faults and no others.
pub fn with_faults(random: &mut Random, height: u64, met: &[(&Fault, usize)]) -> Clock {
    let mut attributes: Vec<Attributes> = (0..height).map(|_| draw::attributes(random)).collect();
    // The first ones last, so that no other undoes them.
    for (fault, slice) in met.iter().rev() {
        fault.shape(&mut attributes[*slice]);
    }
    let mut clock = Clock::of(random, &attributes);
    for (fault, slice) in met.iter().rev() {
        strike(&mut clock, fault, *slice);
    }
    clock
}

fn random_adder(out: &mut impl Write, random: &mut Random) -> io::Result<()> {
    let mut words = [0; 6];
    for (word, width) in words.iter_mut().zip([48, 48, 48, 48, 1, 4]) {
        *word = draw::word(random, width);
    }
    if LOGIC_MODES.contains(&words[5]) && random.percent(80) {
        words[0] = 0;
        words[2] = random.pick(&[0, ones(48)]);
    }
    if random.percent(5) {
        words[random.below(6) as usize] = random.word();
    }
    adder(out, words)
}

/// A clock that is legal, but for a fault or a wrong count now and then.
pub fn any_clock(random: &mut Random) -> Clock {
    let height = height(random);
    let mut clock = Clock::legal(random, height);
    match random.below(100) {
        0..=3 => {
            let faults = all();
            let fault = &faults[random.below(faults.len() as u64) as usize];
            let slice = random.below(height) as usize;
            clock = faulty(random, height, &faults, &[(fault, slice)]);
        }
        4 => {
            let any = random.word();
            clock.count = random.pick(&[0, 25, height + 1, height - 1, any]);
        }
        _ => {}
    }
    clock
}

fn random_clear(out: &mut impl Write, random: &mut Random) -> io::Result<()> {
    let count = random.within(0, 25);
    let words: Vec<u64> = (0..count * REGISTER_WORDS as u64).map(|_| random.word()).collect();
    writeln!(out, "clear {count} {}", stretch(&words))
}
