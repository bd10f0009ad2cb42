//! Sweeps: enables and resets, alone and together, and the cascades.

use std::io;

use crate::book::Book;
use crate::draw::{self, ports_with, Growing};
use crate::random::Random;
use crate::words::*;

pub fn write(book: &mut Book, random: &mut Random) -> io::Result<()> {
    enables_and_resets(book, random)?;
    cascades(book, random)?;
    heights(book, random)
}

/// The CE and RST words to try: singly, all but one, none, all, and pairs.
fn cases() -> Vec<(u64, u64)> {
    let enables: Vec<u64> = (0..13).map(|bit| 1 << bit).collect();
    let resets: Vec<u64> = (0..10).map(|bit| 1 << bit).collect();
    let mut cases = vec![(0, 0), (CE_ALL, 0), (0, RST_ALL), (CE_ALL, RST_ALL)];
    for ce in &enables {
        cases.extend([(*ce, 0), (CE_ALL ^ ce, 0)]);
        for rst in &resets {
            cases.extend([(*ce, *rst), (CE_ALL ^ ce, *rst)]);
        }
    }
    for rst in &resets {
        cases.extend([(0, *rst), (CE_ALL, *rst), (CE_ALL, RST_ALL ^ rst)]);
        cases.extend(resets.iter().filter(|other| *other > rst).map(|other| (CE_ALL, rst | other)));
    }
    cases
}

/// Attributes with most registers read, so that most are in sight.
fn registered(random: &mut Random) -> Attributes {
    let mut at = draw::attributes(random);
    if random.percent(60) {
        (at[at::AREG], at[at::ACASCREG]) = (2, random.within(1, 2));
        (at[at::BREG], at[at::BCASCREG]) = (2, random.within(1, 2));
        at[at::CREG..=at::AMULTSEL].fill(1);
        // More than one lane goes without the multiplier.
        at[at::USE_MULT] = u64::from(at[at::USE_SIMD] == 0);
    }
    at
}

/// Runs in, gives the words in question for a clock or two, and runs out.
fn enables_and_resets(book: &mut Book, random: &mut Random) -> io::Result<()> {
    for (enables, resets) in cases() {
        for _ in 0..2 {
            let mut growing = Growing::new(vec![registered(random), registered(random)]);
            for (ce, rst, times) in [
                (CE_ALL, 0, 5),
                (enables, resets, random.within(1, 2)),
                (CE_ALL, 0, 2),
                (enables, resets, 1),
                (CE_ALL, 0, 5),
            ] {
                for _ in 0..times {
                    let at = growing.column.attributes.clone();
                    let both = (0..2).map(|k| ports_with(random, &at[k], growing.held[k], ce, rst));
                    let both = both.collect();
                    growing.push(both);
                }
            }
            book.column("enables and resets", &growing.column)?;
        }
    }
    Ok(())
}

/// A, B and P handed up whole columns, through every depth of register.
fn cascades(book: &mut Book, random: &mut Random) -> io::Result<()> {
    for height in 1..=24 {
        for (stages, cascade) in [(0, 0), (1, 1), (2, 1), (2, 2)] {
            for preg in [0, 1] {
                let mut at = [0; 22];
                (at[at::AREG], at[at::ACASCREG]) = (stages, cascade);
                (at[at::BREG], at[at::BCASCREG]) = (stages, cascade);
                at[at::PREG] = preg;
                let mut attributes = vec![at; height];
                for above in &mut attributes[1..] {
                    (above[at::A_INPUT], above[at::B_INPUT]) = (1, 1);
                }
                let clocks = (height as u64 * cascade.max(preg)).min(30) + 4;
                book.column("cascades", &handed_up(random, attributes, clocks))?;
            }
        }
    }
    Ok(())
}

/// A:B added to what comes from below, with a sign for a carry at times, or the carry from there.
fn handed_up(random: &mut Random, attributes: Vec<Attributes>, clocks: u64) -> Column {
    let clock = |random: &mut Random| {
        (0..attributes.len())
            .map(|_| {
                let mut po = [0; 11];
                for port in [po::A, po::B, po::C] {
                    po[port] = draw::word(random, PORT_WIDTHS[port]);
                }
                let z = if random.percent(90) { 1 } else { 5 };
                po[po::OPMODE] = z << 4 | 3;
                po[po::ALUMODE] = if random.percent(80) { 0 } else { random.below(4) };
                po[po::CARRYINSEL] = random.pick(&[0, 0, 1, 2, 2, 3]);
                po[po::CE] = CE_ALL;
                po
            })
            .collect()
    };
    let clocks = (0..clocks).map(|_| clock(random)).collect();
    Column { attributes, clocks }
}

/// Random columns of every height.
fn heights(book: &mut Book, random: &mut Random) -> io::Result<()> {
    for height in 1..=24 {
        for clocks in [0, 1, 2, 5] {
            let mut growing = Growing::random(random, height);
            growing.grow(random, clocks);
            book.column("each height", &growing.column)?;
        }
    }
    Ok(())
}
