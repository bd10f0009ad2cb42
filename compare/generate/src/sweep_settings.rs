//! Sweeps: every attribute value, INMODE, OPMODE and ALUMODE.

use std::io;

use crate::book::Book;
use crate::draw::{self, Growing, LOGIC_MODES};
use crate::oracle::Controls;
use crate::random::Random;
use crate::words::*;

pub fn write(book: &mut Book, random: &mut Random) -> io::Result<()> {
    each_attribute(book, random)?;
    each_inmode(book, random)?;
    each_opmode(book, random)?;
    each_unit(book, random)
}

/// Each legal value of each attribute, in the middle of a running column.
fn each_attribute(book: &mut Book, random: &mut Random) -> io::Result<()> {
    for (word, name) in ATTRIBUTE_NAMES.into_iter().enumerate() {
        let values: Vec<u64> = match word {
            at::AREG | at::BREG => vec![0, 1, 2],
            at::ACASCREG | at::BCASCREG => vec![1, 2],
            at::RND | at::PATTERN | at::MASK => edges(48).to_vec(),
            at::USE_SIMD => vec![0, 1, 2],
            _ => vec![0, 1],
        };
        for value in values {
            for turn in 0..6 {
                let height = 1 + turn % 3;
                let mut attributes: Vec<_> =
                    (0..height).map(|_| draw::attributes(random)).collect();
                let k = random.below(height) as usize;
                set_attribute(&mut attributes[k], word, value);
                let mut growing = Growing::new(attributes);
                growing.grow(random, 8);
                book.column(&format!("attribute {name} {value}"), &growing.column)?;
            }
        }
    }
    Ok(())
}

/// Sets one attribute and whatever must follow it.
fn set_attribute(at: &mut Attributes, word: usize, value: u64) {
    match word {
        at::AREG | at::BREG => at[word + 2] = value,
        at::ACASCREG | at::BCASCREG => at[word - 2] = 2,
        at::USE_MULT if value == 1 => at[at::USE_SIMD] = 0,
        at::USE_SIMD if value != 0 => at[at::USE_MULT] = 0,
        _ => {}
    }
    at[word] = value;
}

/// Attributes of a slice that registers nothing but what is asked.
fn bare(settings: &[(usize, u64)]) -> Attributes {
    let mut at = [0; 22];
    for (word, value) in settings {
        set_attribute(&mut at, *word, *value);
    }
    at
}

/// Random data with all enables on and no reset, all controls 0.
fn driven(random: &mut Random) -> Ports {
    let mut po = [0; 11];
    for port in [po::A, po::B, po::C, po::D, po::CARRYIN] {
        po[port] = draw::word(random, PORT_WIDTHS[port]);
    }
    po[po::CE] = CE_ALL;
    po
}

/// All INMODEs for all depths, legal or not, held in a register or not.
fn each_inmode(book: &mut Book, random: &mut Random) -> io::Result<()> {
    for case in 0..32 * 2 * 9 * 2 {
        let (inmode, amultsel, held) = (case % 32, case / 32 % 2, case / 64 % 2);
        let (areg, breg) = (case / 128 % 3, case / 384);
        let at = bare(&[
            (at::AREG, areg),
            (at::BREG, breg),
            (at::AMULTSEL, amultsel),
            (at::INMODEREG, held),
            (at::USE_MULT, 1),
            (at::DREG, random.below(2)),
            (at::ADREG, random.below(2)),
            (at::MREG, random.below(2)),
        ]);
        let mut growing = Growing::new(vec![at]);
        for _ in 0..6 {
            let mut po = driven(random);
            po[po::INMODE] = inmode;
            po[po::OPMODE] = 5;
            growing.push(vec![po]);
        }
        book.column("each INMODE", &growing.column)?;
    }
    Ok(())
}

/// All OPMODEs for all PREG and USE_MULT, legal or not.
fn each_opmode(book: &mut Book, random: &mut Random) -> io::Result<()> {
    for case in 0..512 * 4 {
        let (opmode, preg, use_mult) = (case % 512, case / 512 % 2, case / 1024);
        let held = u64::from(random.percent(30));
        let mut at = bare(&[
            (at::PREG, preg),
            (at::USE_MULT, use_mult),
            (at::OPMODEREG, held),
            (at::CREG, random.below(2)),
            (at::MREG, random.below(2)),
        ]);
        at[at::RND] = draw::word(random, 48);
        let mut growing = Growing::new(vec![bare(&[(at::PREG, 1)]), at]);
        for _ in 0..4 {
            // The slice below shows A:B, so that PCIN is not always 0.
            let mut below = driven(random);
            below[po::OPMODE] = 3;
            let mut po = driven(random);
            po[po::OPMODE] = opmode;
            growing.push(vec![below, po]);
        }
        book.column("each OPMODE", &growing.column)?;
    }
    Ok(())
}

/// All units: every ALUMODE with every OPMODE it goes with and every carry, in
/// a slice that multiplies, and in lanes.
fn each_unit(book: &mut Book, random: &mut Random) -> io::Result<()> {
    let whole = bare(&[(at::PREG, 1), (at::USE_MULT, 1)]);
    let split = [1, 2].map(|simd| bare(&[(at::PREG, 1), (at::USE_SIMD, simd)]));
    units(book, random, "each unit", &[whole], 16)?;
    units(book, random, "each unit in lanes", &split, 32)
}

/// The units that a slice may be.
fn unit_cases(at: &Attributes) -> Vec<Controls> {
    let mut cases = Vec::new();
    for alumode in (0..4).chain(LOGIC_MODES) {
        for opmode in 0..512 {
            for carryinsel in [0, 1, 2, 3, 5, 7] {
                cases.push(Controls { opmode, alumode, carryinsel, inmode: 0 });
            }
        }
    }
    cases.retain(|controls| controls.refused(at).is_none());
    cases
}

/// Slices alike but for their lanes, as every unit they may be, so many a listing.
fn units(
    book: &mut Book,
    random: &mut Random,
    aim: &str,
    slices: &[Attributes],
    clocks: usize,
) -> io::Result<()> {
    for part in unit_cases(&slices[0]).chunks(clocks) {
        let mut attributes = vec![bare(&[(at::PREG, 1)])];
        for at in slices {
            let mut at = *at;
            at[at::RND] = draw::word(random, 48);
            (at[at::PATTERN], at[at::MASK]) = draw::detector(random);
            attributes.push(at);
        }
        let mut growing = Growing::new(attributes);
        for controls in part {
            let mut ports: Vec<Ports> = (0..=slices.len()).map(|_| driven(random)).collect();
            // The lowest adds, so that neither PCIN nor the carry from below is always 0.
            ports[0][po::OPMODE] = ADDS_AB_AND_C;
            for po in &mut ports[1..] {
                po[po::OPMODE] = controls.opmode;
                po[po::ALUMODE] = controls.alumode;
                po[po::CARRYINSEL] = controls.carryinsel;
            }
            growing.push(ports);
        }
        book.column(aim, &growing.column)?;
    }
    Ok(())
}
