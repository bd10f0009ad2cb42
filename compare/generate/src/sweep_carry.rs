//! Sweeps: carries made, hidden, held and taken (02, Ask 7), clock by clock.

use std::io;

use crate::book::Book;
use crate::carry_cases::{trials, Reads, Step, Trial};
use crate::draw;
use crate::random::Random;
use crate::words::*;

pub fn write(book: &mut Book, random: &mut Random) -> io::Result<()> {
    for trial in trials(random) {
        book.column(trial.aim, &column(random, &trial))?;
    }
    Ok(())
}

/// The most clocks that a word is on its way to a slice.
const LONGEST_WAY: usize = 2;

/// What a slice reads in a clock, and its enables and resets.
type Given = (Reads, (u64, u64));

/// What loads P and the carry that a step begins with; in lanes there is no carry.
fn loading(random: &mut Random, at: &Attributes, step: &Step) -> Given {
    let reads = match at[at::USE_SIMD] {
        0 => Reads::summing(random, step.p, step.carry),
        _ => Reads::c_alone(step.p),
    };
    (reads, (CE_ALL, 0))
}

/// The listing of a trial: before each of its clocks one that loads what it begins with, before all
/// some for the words on their way, and after all one that shows what the last clock loaded.
fn column(random: &mut Random, trial: &Trial) -> Column {
    let Trial { attributes, clocks, .. } = trial;
    let idle: Vec<Given> = vec![(Reads::default(), (CE_ALL, 0)); attributes.len()];
    let mut given = vec![idle.clone(); LONGEST_WAY];
    for steps in clocks {
        let pairs = attributes.iter().zip(steps);
        given.push(pairs.map(|(at, step)| loading(random, at, step)).collect());
        given.push(steps.iter().map(|step| (step.reads, step.line)).collect());
    }
    let shown = given.len() + 1;
    given.resize(shown + LONGEST_WAY, idle);
    let mut clock = |t: usize| {
        let slices = attributes.iter().enumerate();
        slices.map(|(k, at)| ports(random, at, |later| given[t + later][k])).collect()
    };
    Column { attributes: attributes.clone(), clocks: (0..shown).map(&mut clock).collect() }
}

/// The ports of a slice, each for the clock in which its word is read; the others are drawn or 0.
fn ports(random: &mut Random, at: &Attributes, given: impl Fn(usize) -> Given) -> Ports {
    let reads = |attribute: usize| given(at[attribute] as usize).0;
    let (_, (ce, rst)) = given(0);
    [
        reads(at::AREG).ab >> 18,
        reads(at::BREG).ab & ones(18),
        reads(at::CREG).c,
        draw::word(random, 27),
        reads(at::OPMODEREG).controls.opmode,
        reads(at::ALUMODEREG).controls.alumode,
        reads(at::INMODEREG).controls.inmode,
        reads(at::CARRYINSELREG).controls.carryinsel,
        reads(at::CARRYINREG).carryin,
        ce,
        rst,
    ]
}
