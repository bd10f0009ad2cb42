//! Calls of clock in which a carry is made, hidden, held and taken (02, Ask 7).

use std::io::{self, Write};

use crate::calls::Clock;
use crate::carry_cases::{trials, Reads, Step, Trial};
use crate::random::Random;
use crate::words::*;

/// Writes every sweep.
pub fn sweep(out: &mut impl Write, random: &mut Random) -> io::Result<()> {
    for Trial { attributes, clocks, .. } in trials(random) {
        for steps in clocks {
            let mut clock = Clock::of(random, &attributes);
            for (k, step) in steps.iter().enumerate() {
                put(&mut clock, k, step);
            }
            clock.write(out)?;
        }
    }
    each_wide_word(out, random)
}

/// Has a slice begin with a step's P and carry, and read what the step says.
pub fn put(clock: &mut Clock, slice: usize, step: &Step) {
    give(clock, slice, &step.reads);
    (clock.held(slice)[rg::P], clock.held(slice)[rg::CARRY]) = (step.p, step.carry);
    let (ce, rst) = step.line;
    clock.given(slice)[po::CE..=po::RST].copy_from_slice(&[ce, rst]);
}

/// Puts what a slice is to read where it reads it, if its A and B come direct.
fn give(clock: &mut Clock, slice: usize, reads: &Reads) {
    let Reads { ab, c, carryin, controls } = reads;
    for (attribute, places, word) in [
        (at::AREG, [po::A, rg::A2], ab >> 18),
        (at::BREG, [po::B, rg::B2], ab & ones(18)),
        (at::CREG, [po::C, rg::C], *c),
        (at::OPMODEREG, [po::OPMODE, rg::OPMODE], controls.opmode),
        (at::ALUMODEREG, [po::ALUMODE, rg::ALUMODE], controls.alumode),
        (at::INMODEREG, [po::INMODE, rg::INMODE], controls.inmode),
        (at::CARRYINSELREG, [po::CARRYINSEL, rg::CARRYINSEL], controls.carryinsel),
        (at::CARRYINREG, [po::CARRYIN, rg::CARRYIN], *carryin),
    ] {
        clock.put(slice, attribute, places, word);
    }
}

/// The carry's register over its one bit, alone to blame, in every slice.
fn each_wide_word(out: &mut impl Write, random: &mut Random) -> io::Result<()> {
    for slice in 0..24 {
        for word in [2, 3, 1 << 32, u64::MAX] {
            let height = random.within(slice as u64 + 1, 24);
            let mut clock = Clock::legal(random, height);
            clock.held(slice)[rg::CARRY] = word;
            clock.write(out)?;
        }
    }
    Ok(())
}
