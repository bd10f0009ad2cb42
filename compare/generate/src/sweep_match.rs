//! Sweeps: columns that watch a slice (02, Ask 8), each also written with nothing watched. All their
//! slices give C alone, so that it is known in which clock each of them matches.

use std::io;

use crate::book::{Book, Watch};
use crate::faults::{attribute_faults, control_faults, port_faults, Fault};
use crate::match_oracle::{ending, with_match};
use crate::random::Random;
use crate::words::*;

pub fn write(book: &mut Book, random: &mut Random) -> io::Result<()> {
    each_height(book, random)?;
    each_clock(book, random)?;
    in_others_alone(book, random)?;
    enables_and_resets(book, random)?;
    masks(book)?;
    refused_clocks(book, random)?;
    refused_settings(book, random)?;
    more_than_one_read(book, random)
}

/// A slice without registers but P, whose pattern some words are and some are not.
fn comparing(random: &mut Random, preg: u64) -> Attributes {
    let mut at = [0; 22];
    at[at::PREG] = preg;
    at[at::MASK] = match random.below(4) {
        0 => 0,
        1 => ones(random.within(1, 47) as u32),
        _ => random.word() & ones(48) & !(1 << random.below(48)),
    };
    at[at::PATTERN] = if random.percent(30) { 0 } else { random.word() & ones(48) };
    at[at::USE_SIMD] = random.below(3);
    at
}

/// A word that is the pattern, but for what is masked, or one that is not.
fn word(random: &mut Random, at: &Attributes, hit: bool) -> u64 {
    let compared = ones(48) ^ at[at::MASK];
    let masked = random.word() & at[at::MASK];
    let differs = match (hit, random.percent(30)) {
        (true, _) => 0,
        // Then it is PATTERNBDETECT that is shown.
        (false, true) => compared,
        (false, false) => random.word() & compared | 1 << compared.trailing_zeros(),
    };
    at[at::PATTERN] ^ masked ^ differs
}

/// Ports that take C alone.
fn takes(c: u64, (ce, rst): (u64, u64)) -> Ports {
    [0, 0, c, 0, C_ALONE, 0, 0, 0, 0, ce, rst]
}

/// A column whose slices first have their pattern for C in these clocks; later they may again.
pub fn from_clocks(
    random: &mut Random,
    attributes: Vec<Attributes>,
    clocks: usize,
    first: &[usize],
) -> Column {
    let mut po = |clock: usize, slice: usize| {
        let hit = clock == first[slice] || clock > first[slice] && random.percent(50);
        takes(word(random, &attributes[slice], hit), (CE_ALL, 0))
    };
    let slices = attributes.len();
    let mut all = |clock: usize| (0..slices).map(|slice| po(clock, slice)).collect();
    let clocks = (0..clocks).map(&mut all).collect();
    Column { attributes, clocks }
}

/// Slices that compare, all with one PREG.
pub fn alike(random: &mut Random, slices: usize, preg: u64) -> Vec<Attributes> {
    (0..slices).map(|_| comparing(random, preg)).collect()
}

/// Writes a column with nothing watched, and with each of these slices.
fn watch(book: &mut Book, aim: &str, column: &Column, slices: &[usize]) -> io::Result<()> {
    let watch = |slice: &usize| Watch {
        aim: aim.to_string(),
        slice: *slice as u64,
        ending: ending(column, *slice),
    };
    book.watched_column(column, &slices.iter().map(watch).collect::<Vec<_>>())
}

/// The lowest, a middle and the highest slice, without repeats.
fn three_of(slices: usize) -> Vec<usize> {
    let mut three = vec![0, slices / 2, slices - 1];
    three.dedup();
    three
}

/// Each height, with matches of its slices in different clocks, and slices that it does not have.
fn each_height(book: &mut Book, random: &mut Random) -> io::Result<()> {
    let clocks = 5;
    for (height, preg) in (1..=FULL).flat_map(|height| [(height, 0), (height, 1)]) {
        let mut first: Vec<usize> = (0..height).map(|_| random.below(6) as usize).collect();
        let turn = (height + preg as usize) % 4;
        for (later, slice) in three_of(height).into_iter().rev().enumerate() {
            first[slice] = turn + later;
        }
        let attributes = alike(random, height, preg);
        let column = from_clocks(random, attributes, clocks, &first);
        watch(book, "match in each height", &column, &three_of(height))?;
        let above = [height as u64, height as u64 + 1, u64::MAX];
        let none = |slice: u64| Watch {
            aim: "watched slice at the count or above".into(),
            slice,
            ending: "R 13 0 0".into(),
        };
        if preg == 0 {
            above.into_iter().try_for_each(|slice| book.watched_alone(&column, none(slice)))?;
        }
    }
    Ok(())
}

/// The first match in each clock of a short run, and in none.
fn each_clock(book: &mut Book, random: &mut Random) -> io::Result<()> {
    for (height, preg) in [(1, 0), (1, 1), (3, 0), (3, 1)] {
        for clocks in 0..=3 {
            for turn in 0..=clocks {
                // The clock after the last one is none.
                let first: Vec<usize> = (0..height).map(|k| (turn + k) % (clocks + 1)).collect();
                let attributes = alike(random, height, preg);
                let column = from_clocks(random, attributes, clocks, &first);
                watch(book, "first match in each clock", &column, &three_of(height))?;
            }
        }
    }
    Ok(())
}

/// All slices match in the first clock but one, which never does.
fn in_others_alone(book: &mut Book, random: &mut Random) -> io::Result<()> {
    let clocks = 3;
    let heights = [2, 3, 8, FULL].into_iter();
    for (height, preg) in heights.flat_map(|height| [(height, 0), (height, 1)]) {
        for never in three_of(height) {
            let mut first = vec![0; height];
            first[never] = clocks;
            let attributes = alike(random, height, preg);
            let column = from_clocks(random, attributes, clocks, &first);
            let nearby = never.saturating_sub(1)..=(never + 1).min(height - 1);
            watch(book, "match in other slices alone", &column, &nearby.collect::<Vec<_>>())?;
        }
    }
    Ok(())
}

/// P loads, is kept, and is cleared.
const LINES: [(u64, u64); 3] = [(CE_ALL, 0), (CE_ALL ^ CE_P, 0), (CE_ALL, RST_P)];

/// A pattern or another word, with each of those, in two clocks, and then two clocks that keep P.
/// With PATTERN 0 a P that was never loaded, or was cleared, is the pattern and no match.
fn enables_and_resets(book: &mut Book, random: &mut Random) -> io::Result<()> {
    let aim = "match while P loads, is kept, is cleared";
    for (preg, pattern) in [(0, None), (1, None), (1, Some(0))] {
        for turns in [0..18, 18..36] {
            let mut attributes = alike(random, turns.len(), preg);
            for at in &mut attributes {
                at[at::PATTERN] = pattern.unwrap_or(at[at::PATTERN]);
            }
            let mut po = |clock: usize, turn: usize, at: &Attributes| {
                let (hit, line) = match clock {
                    0 => (turn % 2 == 1, turn / 2 % 3),
                    1 => (turn / 6 % 2 == 1, turn / 12),
                    _ => (false, 1),
                };
                takes(word(random, at, hit), LINES[line])
            };
            let mut clock = |clock: usize| {
                turns.clone().zip(&attributes).map(|(turn, at)| po(clock, turn, at)).collect()
            };
            let clocks = (0..4).map(&mut clock).collect();
            let column = Column { attributes, clocks };
            watch(book, aim, &column, &(0..turns.len()).collect::<Vec<_>>())?;
        }
    }
    Ok(())
}

/// A pattern, a mask and a word, and whether that is a match.
const MASKED: [(u64, u64, u64, bool); 12] = [
    (0x123456789abc, ones(48), 0xfedcba987654, true),
    (0x123456789abc, 0, 0x123456789abc, true),
    (0x123456789abc, 0, 0x123456789abd, false),
    (0x123456789abc, 0, 0x923456789abc, false),
    (0x123456789abc, 0x0000000fff00, 0x123456765bbc, true),
    (0x123456789abc, ones(48) - 1, 0xedcba9876542, true),
    (0x123456789abc, ones(48) - 1, 0x123456789abd, false),
    (0x923456789abc, ones(47), 0x800000000000, true),
    (0, 0, 0, true),
    // With these PATTERNBDETECT alone is shown.
    (0x123456789abc, 0, 0xedcba9876543, false),
    (0x123456789abc, 0x0000000fff00, 0xedcba9789a43, false),
    (0, 0, ones(48), false),
];

/// Words that a mask makes a match, or not: the same one in each clock.
fn masks(book: &mut Book) -> io::Result<()> {
    let cases = [0, 1].into_iter().flat_map(|preg| MASKED.map(|case| (preg, case)));
    let mut column = Column { attributes: Vec::new(), clocks: vec![Vec::new(); 3] };
    let mut watches = Vec::new();
    for (slice, (preg, (pattern, mask, word, hit))) in cases.enumerate() {
        let mut at = [0; 22];
        (at[at::PREG], at[at::PATTERN], at[at::MASK]) = (preg, pattern, mask);
        column.attributes.push(at);
        column.clocks.iter_mut().for_each(|ports| ports.push(takes(word, LINES[0])));
        // With PREG 1 it is shown a clock later.
        let ending = if hit { format!("M {preg}") } else { "E 3".into() };
        watches.push(Watch { aim: "match by a mask".into(), slice: slice as u64, ending });
    }
    book.watched_column(&column, &watches)
}

/// The clock that is refused, and how it stands to the clock of a match.
const REFUSED: usize = 3;
pub const STANDS: [&str; 3] =
    ["in the clock before a match", "in the clock of a match", "in the clock after a match"];

/// Each number, with matches of other slices, and of the refused one, in the clocks around.
fn refused_clocks(book: &mut Book, random: &mut Random) -> io::Result<()> {
    let faults = [port_faults(), control_faults()].concat();
    for number in 5..=9 {
        let faults: Vec<&Fault> = faults.iter().filter(|fault| fault.number == number).collect();
        let mut stands = [0, 1, 2, 1];
        for place in (0..stands.len()).rev() {
            let fault = random.pick(&faults);
            refused_clock(book, random, (fault, place), place as u64 % 2, &stands)?;
            // What stands at the refused slice goes down with it.
            stands.rotate_left(1);
        }
        for stand in 0..STANDS.len() {
            let fault = random.pick(&faults);
            refused_clock(book, random, (fault, 0), stand as u64 % 2, &[stand])?;
        }
    }
    Ok(())
}

/// A column with a fault, to whose clock the matches of its slices stand so.
fn refused_clock(
    book: &mut Book,
    random: &mut Random,
    (fault, place): (&Fault, usize),
    preg: u64,
    stands: &[usize],
) -> io::Result<()> {
    let mut attributes = alike(random, stands.len(), preg);
    fault.shape(&mut attributes[place]);
    // While an OPMODE is on its way P is 0, which is to be no match.
    attributes.iter_mut().for_each(|at| at[at::PATTERN] |= ones(48) ^ at[at::MASK]);
    let shown = |stand: &usize| REFUSED + 1 - stand;
    let slices = stands.iter().zip(&attributes);
    let first: Vec<usize> =
        slices.map(|(stand, at)| shown(stand) - at[at::PREG] as usize).collect();
    let mut column = from_clocks(random, attributes, REFUSED + 3, &first);
    fault.put(&mut column, REFUSED, place);
    let refusal = format!("R {} {REFUSED} {place}", fault.number);
    let watch = |(slice, stand): (usize, &usize)| Watch {
        aim: format!("refusal {} {}", fault.number, STANDS[*stand]),
        slice: slice as u64,
        ending: with_match(&refusal, Some(shown(stand))),
    };
    book.watched_column(&column, &stands.iter().enumerate().map(watch).collect::<Vec<_>>())
}

/// A setting that is refused, at each slice of a few, with matches due in the first clocks.
fn refused_settings(book: &mut Book, random: &mut Random) -> io::Result<()> {
    let faults = attribute_faults();
    let places = |height: usize| (0..height).map(move |place| (height, place));
    for (height, place) in (1..=3).flat_map(places) {
        let attributes = alike(random, height, (height + place) as u64 % 2);
        let mut column = from_clocks(random, attributes, 2, &vec![0; height]);
        let fault = &faults[random.below(faults.len() as u64) as usize];
        fault.shape(&mut column.attributes[place]);
        let watch = |slice: usize| {
            let (aim, ending) = match slice < height {
                true => ("refusal 3 before a match", format!("R 3 0 {place}")),
                false => ("13 before 3", "R 13 0 0".to_string()),
            };
            Watch { aim: aim.into(), slice: slice as u64, ending }
        };
        book.watched_column(&column, &(0..=height).map(watch).collect::<Vec<_>>())?;
    }
    Ok(())
}

/// Runs that no single read holds, with the first match in the last clock, or before, or in none.
fn more_than_one_read(book: &mut Book, random: &mut Random) -> io::Result<()> {
    let aim = "match after more than one read";
    for (height, clocks) in [(1, 2400), (FULL, 100)] {
        for turn in 0..3 {
            let any = [clocks, clocks - 1, clocks * 3 / 4];
            let first: Vec<usize> = (0..height).map(|slice| any[(slice + turn) % 3]).collect();
            let attributes = alike(random, height, 0);
            let column = from_clocks(random, attributes, clocks, &first);
            watch(book, aim, &column, &[height - 1])?;
        }
    }
    Ok(())
}
