//! Calls of why: every selection and unit, every refusal, and their order.

use std::io::{self, Write};

use crate::calls::{any_clock, faulty, stretch, with_faults, Clock};
use crate::carry_calls::put;
use crate::carry_cases::Step;
use crate::carry_oracle::CARRIES;
use crate::draw::{self, LOGIC_MODES};
use crate::faults::{all, Fault};
use crate::oracle::Controls;
use crate::random::Random;
use crate::words::*;

/// A clock's words without the outputs, the asked slice, and the words that the answer takes.
pub struct Why {
    clock: Clock,
    slice: u64,
    why: Vec<u64>,
}

impl Why {
    fn of(random: &mut Random, clock: Clock, slice: u64) -> Why {
        Why { clock, slice, why: (0..WHY_WORDS).map(|_| random.word()).collect() }
    }

    /// With so many words for the answer.
    fn sized(mut self, length: usize) -> Why {
        self.why.resize(length, u64::MAX);
        self
    }

    pub fn write(&self, out: &mut impl Write) -> io::Result<()> {
        let Why { clock: Clock { count, attributes, registers, ports, .. }, slice, why } = self;
        let lent = [attributes, registers, ports].map(|words| stretch(words)).join(" ");
        writeln!(out, "why {count} {lent} {slice} {}", stretch(why))
    }
}

/// Writes every sweep.
pub fn sweep(out: &mut impl Write, random: &mut Random) -> io::Result<()> {
    let faults = all();
    each_height(out, random)?;
    each_unit(out, random)?;
    each_carry(out, random)?;
    each_bottom(out, random)?;
    each_cascade(out, random)?;
    each_carry_straight_up(out, random)?;
    each_count(out, random)?;
    each_length(out, random)?;
    each_slice_above(out, random)?;
    each_fault(out, random, &faults)?;
    each_order(out, random, &faults)
}

/// A random call, mostly of a legal column and a slice of it.
pub fn any(random: &mut Random) -> Why {
    let clock = any_clock(random);
    let height = clock.attributes.len() as u64 / 22;
    let (slice, far) = (random.below(height), random.word());
    let mut why = Why::of(random, clock, slice);
    match random.below(100) {
        0 | 1 => why.slice = random.pick(&[height, height + 1, 24, far]),
        2 => why = why.sized(random.pick(&[0, 1, 12, 14, 26])),
        3 => {
            let Clock { attributes, registers, ports, .. } = &mut why.clock;
            let words = [attributes, registers, ports].into_iter().nth(random.below(3) as usize);
            words.into_iter().for_each(|words| words.truncate(words.len() - 1));
        }
        _ => {}
    }
    why
}

/// Legal columns of every height, asked at the bottom, between and at the top, and a full column
/// asked at every slice.
fn each_height(out: &mut impl Write, random: &mut Random) -> io::Result<()> {
    let heights = (1..=24).flat_map(|height| [0, height / 2, height - 1].map(|at| (height, at)));
    for (height, slice) in heights.chain((0..24).map(|slice| (24, slice))) {
        let clock = Clock::legal(random, height);
        Why::of(random, clock, slice).write(out)?;
    }
    Ok(())
}

/// What an asked slice is set to, and what it is given.
struct Asked {
    preg: u64,
    simd: u64,
    controls: Controls,
    /// The P and the carry that the slice below shows; there is none without them.
    below: Option<(u64, u64)>,
    p: u64,
    carryin: u64,
}

impl Asked {
    /// A legal column around the slice, and now and then a slice above it.
    fn call(&self, random: &mut Random) -> Why {
        let slice = usize::from(self.below.is_some());
        let mut attributes = vec![[0; 22]; slice];
        attributes.iter_mut().for_each(|at: &mut Attributes| at[at::PREG] = random.below(2));
        attributes.push(self.attributes(random));
        if random.percent(50) {
            attributes.push(draw::attributes(random));
        }
        let mut clock = Clock::of(random, &attributes);
        if let Some((p, carry)) = self.below {
            show(random, &mut clock, p, carry);
        }
        self.set(&mut clock, slice);
        Why::of(random, clock, slice as u64)
    }

    fn attributes(&self, random: &mut Random) -> Attributes {
        let mut at = draw::attributes(random);
        (at[at::PREG], at[at::USE_SIMD]) = (self.preg, self.simd);
        match (self.simd, self.controls.x()) {
            (0, 1) => at[at::USE_MULT] = 1,
            (0, _) => {}
            _ => at[at::USE_MULT] = 0,
        }
        at
    }

    /// Puts the controls and the carry where they are in effect.
    fn set(&self, clock: &mut Clock, slice: usize) {
        let Controls { opmode, alumode, carryinsel, .. } = self.controls;
        clock.put(slice, at::OPMODEREG, [po::OPMODE, rg::OPMODE], opmode);
        clock.put(slice, at::ALUMODEREG, [po::ALUMODE, rg::ALUMODE], alumode);
        clock.put(slice, at::CARRYINSELREG, [po::CARRYINSEL, rg::CARRYINSEL], carryinsel);
        clock.put(slice, at::CARRYINREG, [po::CARRYIN, rg::CARRYIN], self.carryin);
        clock.held(slice)[rg::P] = self.p;
    }
}

/// Has slice 0 show a P and a carry, from its registers or as they settle.
fn show(random: &mut Random, clock: &mut Clock, p: u64, carry: u64) {
    let at: Attributes = clock.attributes[..22].try_into().unwrap();
    put(clock, 0, &Step::showing(random, &at, p, carry));
}

/// A 48-bit word of a sign, and not 0.
fn signed(random: &mut Random, below_zero: bool) -> u64 {
    draw::word(random, 47).max(1) | u64::from(below_zero) << 47
}

/// The CARRYINSELs that a slice may have, those that need P last.
const SELECTS: [u64; 6] = [0, 1, 2, 3, 5, 7];

/// Units of a slice: all with the product, and one in three of the others, so that the three
/// settings of lanes have each of them.
fn units(preg: u64, simd: u64) -> Vec<Controls> {
    let mut at = [0; 22];
    (at[at::PREG], at[at::USE_MULT], at[at::USE_SIMD]) = (preg, u64::from(simd == 0), simd);
    let mut units = Vec::new();
    for alumode in (0..4).chain(LOGIC_MODES) {
        for opmode in 0..512 {
            let controls = Controls { opmode, alumode, ..Controls::default() };
            let taken = opmode & 15 == 5 || (opmode + alumode + simd) % 3 == 0;
            if taken && controls.refused(&at).is_none() {
                units.push(controls);
            }
        }
    }
    units
}

/// Every OPMODE with every ALUMODE that it goes with, PREG 0 and 1, in lanes; CARRYINSEL and the
/// signs of PCIN and P take turns.
fn each_unit(out: &mut impl Write, random: &mut Random) -> io::Result<()> {
    for (preg, simd) in [(0, 0), (0, 1), (0, 2), (1, 0), (1, 1), (1, 2)] {
        let selects = if preg == 1 { &SELECTS[..] } else { &SELECTS[..4] };
        for (turn, unit) in units(preg, simd).into_iter().enumerate() {
            let controls = Controls { carryinsel: selects[turn % selects.len()], ..unit };
            let below = Some((signed(random, turn / 2 % 2 == 1), random.below(2)));
            let (p, carryin) = (signed(random, turn % 2 == 1), random.below(2));
            Asked { preg, simd, controls, below, p, carryin }.call(random).write(out)?;
        }
    }
    Ok(())
}

/// Every CARRYINSEL with both bits it may take, while the bits that it does not take are the other
/// one: in every arithmetic mode and in a logic mode, in lanes.
fn each_carry(out: &mut impl Write, random: &mut Random) -> io::Result<()> {
    for case in 0..2 * 6 * 5 * 3 {
        let (bit, select, simd) = (case % 2 == 1, SELECTS[case / 2 % 6], case / 60);
        let logic = random.pick(&LOGIC_MODES);
        let alumode = [0, 1, 2, 3, logic][case / 12 % 5];
        let takes = |selects: &[u64]| selects.contains(&select) == bit;
        let asked = Asked {
            preg: 1,
            simd: simd as u64,
            controls: Controls { opmode: 3 << 4 | 3, alumode, inmode: 0, carryinsel: select },
            below: Some((signed(random, takes(&[1, 3])), u64::from(takes(&[2])))),
            p: signed(random, takes(&[5, 7])),
            carryin: u64::from(takes(&[0])),
        };
        asked.call(random).write(out)?;
    }
    Ok(())
}

/// What comes from below at the bottom, where it is 0: as Z, shifted, and as CIN.
fn each_bottom(out: &mut impl Write, random: &mut Random) -> io::Result<()> {
    for case in 0..2 * 3 * 2 * 3 {
        let (z, carryinsel) = ([1, 5][case % 2], [1, 2, 3][case / 2 % 3]);
        let (preg, simd) = ((case / 6 % 2) as u64, (case / 12) as u64);
        let controls = Controls { opmode: z << 4 | 3, carryinsel, ..Controls::default() };
        let (p, carryin) = (signed(random, case % 2 == 0), random.below(2));
        Asked { preg, simd, controls, below: None, p, carryin }.call(random).write(out)?;
    }
    Ok(())
}

/// P that goes up through slices without a register, each of which adds to it; the top is asked.
fn each_cascade(out: &mut impl Write, random: &mut Random) -> io::Result<()> {
    for height in [2, 3, 4, 6, 12, 24] {
        for (z, below_zero) in [(1, false), (1, true), (5, false), (5, true)] {
            let mut clock = Clock::of(random, &vec![[0; 22]; height]);
            let p = signed(random, below_zero);
            show(random, &mut clock, p, 0);
            for po in clock.ports.chunks_mut(11).skip(1) {
                po[po::A] = 0;
                po[po::OPMODE..=po::CARRYIN].copy_from_slice(&[1 << 4 | 3, 0, 0, 0, 0]);
            }
            clock.ports[(height - 1) * 11 + po::OPMODE] = z << 4;
            Why::of(random, clock, height as u64 - 1).write(out)?;
        }
    }
    Ok(())
}

/// A carry that goes up through slices without a register, or none that does; the top is asked.
fn each_carry_straight_up(out: &mut impl Write, random: &mut Random) -> io::Result<()> {
    for height in [2, 3, 4, 6, 12, 24] {
        for carry in [0, 1] {
            let mut clock = Clock::of(random, &vec![[0; 22]; height]);
            let p = signed(random, carry == 0);
            show(random, &mut clock, p, carry);
            for slice in 1..height {
                put(&mut clock, slice, &Step::taking(random, Some(CARRIES - 1)));
            }
            Why::of(random, clock, height as u64 - 1).write(out)?;
        }
    }
    Ok(())
}

/// The lengths of an answer's words: the right one and wrong ones.
const LENGTHS: [usize; 4] = [WHY_WORDS, 0, WHY_WORDS - 1, WHY_WORDS + 1];

/// Counts without a column, with lengths of another column and with those of their own.
fn each_count(out: &mut impl Write, random: &mut Random) -> io::Result<()> {
    for count in [0, 25, 26, 256, 257, 1 << 32, (1 << 32) + 1, 1 << 63, u64::MAX] {
        for length in LENGTHS {
            let clock = Clock { count, ..Clock::legal(random, 1) };
            Why::of(random, clock, 0).sized(length).write(out)?;
        }
        writeln!(out, "why {count} 0 0 0 {count} 0")?;
    }
    for height in [0, 25] {
        for slice in [0, height, u64::MAX] {
            for length in LENGTHS {
                let clock = Clock::legal(random, height);
                Why::of(random, clock, slice).sized(length).write(out)?;
            }
        }
    }
    Ok(())
}

/// Each of the four lengths wrong by itself, for a slice of the column and for one above it.
fn each_length(out: &mut impl Write, random: &mut Random) -> io::Result<()> {
    for height in [1, 2, 3, 24] {
        for which in 0..4 {
            let right = [22 * height, REGISTER_WORDS * height, 11 * height, WHY_WORDS][which];
            // The second to last is the attributes' length without USE_SIMD, and the registers'
            // without the carry.
            for length in [0, right - 1, right + 1, right.saturating_sub(height), right * 2] {
                for slice in [height as u64 - 1, height as u64] {
                    let clock = Clock::legal(random, height as u64);
                    let mut why = Why::of(random, clock, slice);
                    let Clock { attributes, registers, ports, .. } = &mut why.clock;
                    let lent = [attributes, registers, ports, &mut why.why];
                    lent.into_iter().nth(which).unwrap().resize(length, u64::MAX);
                    why.write(out)?;
                }
            }
        }
    }
    Ok(())
}

/// Slices at and above the count, some of them such that a product or a half of theirs is small.
fn each_slice_above(out: &mut impl Write, random: &mut Random) -> io::Result<()> {
    for height in [1, 2, 3, 24] {
        let mut slices = vec![height, height + 1, 25, 255, 256, 1 << 32, (1 << 32) + height - 1];
        slices.extend([22, REGISTER_WORDS as u64, 11].map(|words| u64::MAX / words + 1));
        slices.extend([1 << 48, 1 << 63, u64::MAX - 1, u64::MAX]);
        for slice in slices {
            let clock = Clock::legal(random, height);
            Why::of(random, clock, slice).write(out)?;
        }
    }
    Ok(())
}

/// Each cause of 3 to 9 below the asked slice, at it and above it, some in the company of others.
fn each_fault(out: &mut impl Write, random: &mut Random, faults: &[Fault]) -> io::Result<()> {
    for fault in faults {
        for slice in 0..3 {
            let clock = faulty(random, 3, faults, &[(fault, slice)]);
            Why::of(random, clock, 1).write(out)?;
        }
    }
    for (word, width) in REGISTER_WIDTHS.into_iter().enumerate() {
        for slice in 0..3 {
            let mut clock = faulty(random, 3, faults, &[]);
            clock.held(slice)[word] = random.pick(&[1 << width, u64::MAX]);
            Why::of(random, clock, 1).write(out)?;
        }
    }
    Ok(())
}

/// Three slices, of which the given ones deserve a number.
fn broken(random: &mut Random, faults: &[Fault], given: &[(u64, usize)]) -> Clock {
    let mut met = Vec::new();
    for (number, slice) in given {
        let causes: Vec<&Fault> = faults.iter().filter(|fault| fault.number == *number).collect();
        if !causes.is_empty() {
            met.push((random.pick(&causes), *slice));
        }
    }
    let mut clock = with_faults(random, 3, &met);
    // A register over its width is no fault that a listing can have.
    for (_, slice) in given.iter().filter(|(number, _)| *number == 4) {
        let word = random.below(REGISTER_WORDS as u64) as usize;
        clock.held(*slice)[word] = random.pick(&[1 << REGISTER_WIDTHS[word], u64::MAX]);
    }
    clock
}

/// Each of 3 to 9 before each later one lower down, and where it is lowest; 13 and the length of
/// the answer's words before each of them.
fn each_order(out: &mut impl Write, random: &mut Random, faults: &[Fault]) -> io::Result<()> {
    for number in 3..=9 {
        for slice in 0..3 {
            for later in number + 1..=9 {
                let clock = broken(random, faults, &[(number, 2), (later, 0)]);
                Why::of(random, clock, slice).write(out)?;
            }
            let clock = broken(random, faults, &[(number, 0), (number, 2)]);
            Why::of(random, clock, slice).write(out)?;
            let above = [3, 1 << 32, u64::MAX][slice as usize];
            let clock = broken(random, faults, &[(number, slice as usize)]);
            Why::of(random, clock, above).write(out)?;
            let clock = broken(random, faults, &[(number, slice as usize)]);
            Why::of(random, clock, 1).sized(LENGTHS[slice as usize + 1]).write(out)?;
        }
    }
    Ok(())
}
