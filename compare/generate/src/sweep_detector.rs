//! Sweeps: patterns, masks, and the flags of an accumulator.

use std::io;

use crate::book::Book;
use crate::random::Random;
use crate::words::*;

/// P takes C, or P takes P and C.
const LOAD: u64 = C_ALONE;
const ADD: u64 = 2 << 4 | 3 << 2;

pub fn write(book: &mut Book, random: &mut Random) -> io::Result<()> {
    limits(book, random)?;
    swings(book, random)?;
    single_bits(book, random)
}

/// The same for a slice of one lane and for one of more beside it.
fn step(opmode: u64, c: u64, ce: u64, rst: u64) -> Vec<Ports> {
    vec![[0, 0, c & ones(48), 0, opmode, 0, 0, 0, 0, ce, rst]; 2]
}

/// A slice, and beside it the same in lanes, which the detector must not see.
fn and_in_lanes(random: &mut Random, at: Attributes) -> Vec<Attributes> {
    let mut split = at;
    split[at::USE_SIMD] = random.within(1, 2);
    vec![at, split]
}

/// Counts over every limit, up and down, with pauses and resets of P.
fn limits(book: &mut Book, random: &mut Random) -> io::Result<()> {
    for bits in 0..48 {
        let limit: u64 = 1 << bits;
        for pattern in [0, ones(48), random.word() & ones(48)] {
            for (start, change) in [
                (limit.wrapping_sub(2), 1),
                (limit.wrapping_neg().wrapping_add(1), u64::MAX),
                (limit.wrapping_sub(1), random.word()),
                (limit.wrapping_neg(), random.word()),
            ] {
                let mut at = [0; 22];
                at[at::PREG] = 1;
                at[at::PATTERN] = pattern;
                at[at::MASK] = limit - 1;
                let mut clocks = vec![step(LOAD, start ^ pattern, CE_ALL, 0)];
                for _ in 0..6 {
                    let (ce, rst) = match random.below(12) {
                        0 => (0, 0),
                        1 => (CE_ALL, 1 << 5),
                        _ => (CE_ALL, 0),
                    };
                    clocks.push(step(ADD, change, ce, rst));
                }
                let aim = "limits of an accumulator";
                book.column(aim, &Column { attributes: and_in_lanes(random, at), clocks })?;
            }
        }
    }
    Ok(())
}

/// Swings through 0 and ways out of the legal sums, from either side, by each mask of low bits.
fn swings(book: &mut Book, random: &mut Random) -> io::Result<()> {
    for bits in 0..48 {
        let over: u64 = 1 << bits;
        let under = over.wrapping_neg() - 1;
        // Legal are the sums from `bottom` to `top`.
        let (top, bottom) = (over - 1, under.wrapping_add(1));
        let up = [0, top, bottom, top, u64::MAX, 0, top, over, top];
        let down = [bottom, under, bottom, 0, under, u64::MAX, over, 0, 0];
        for pattern in [0, random.word() & ones(48)] {
            for (preg, opmode) in [(0, LOAD), (1, LOAD), (1, ADD)] {
                let mut at = [0; 22];
                (at[at::PREG], at[at::PATTERN], at[at::MASK]) = (preg, pattern, top);
                let mut before = 0;
                let mut to = |sum: u64| {
                    let from = std::mem::replace(&mut before, sum ^ pattern);
                    let c = if opmode == ADD { before.wrapping_sub(from) } else { before };
                    step(opmode, c, CE_ALL, 0)
                };
                let clocks = up.into_iter().chain(down).map(&mut to).collect();
                let column = Column { attributes: and_in_lanes(random, at), clocks };
                book.column("sums that swing or leave", &column)?;
            }
        }
    }
    Ok(())
}

/// Each bit by itself: it decides, and it does not once it is masked.
fn single_bits(book: &mut Book, random: &mut Random) -> io::Result<()> {
    for bit in 0..48 {
        for (preg, masked) in [(0, 0), (0, 1), (1, 0), (1, 1)] {
            let mut at = [0; 22];
            at[at::PREG] = preg;
            at[at::PATTERN] = random.word() & ones(48);
            at[at::MASK] = masked << bit;
            let near = |flip: u64| step(LOAD, at[at::PATTERN] ^ flip, CE_ALL, 0);
            let clocks =
                [0, 1 << bit, 0, ones(48), ones(48) ^ 1 << bit, 0, ones(48), 1 << bit, 0, 0];
            let clocks = clocks.into_iter().map(near).collect();
            let column = Column { attributes: and_in_lanes(random, at), clocks };
            book.column("single bits of a pattern", &column)?;
        }
    }
    Ok(())
}
