//! Sweeps: sums at the edges of the lanes, and `A` lines with and without USE_SIMD.

use std::io;

use crate::book::Book;
use crate::draw::{self, Growing};
use crate::random::Random;
use crate::words::*;

pub fn write(book: &mut Book, random: &mut Random) -> io::Result<()> {
    sums(book)?;
    lengths(book, random)?;
    wrong_lengths(book, random)
}

/// One slice in each setting of USE_SIMD, all three given the same ports.
pub fn side_by_side(at: Attributes, clocks: impl IntoIterator<Item = Ports>) -> Column {
    let mut attributes = vec![at; 3];
    (0..3).for_each(|simd| attributes[simd][at::USE_SIMD] = simd as u64);
    Column { attributes, clocks: clocks.into_iter().map(|po| vec![po; 3]).collect() }
}

/// Operands that wrap in each lane, from each place, in each arithmetic mode.
fn sums(book: &mut Book) -> io::Result<()> {
    // X is always A:B; C is Y, Z, W, Z with W and Y full, and all three.
    let opmodes = [15, 51, 387, 2 << 7 | 3 << 4 | 2 << 2 | 3, 3 << 7 | 3 << 4 | 3 << 2 | 3];
    let mut at = [0; 22];
    at[at::RND] = 0x7ff801000fff;
    for alumode in 0..4 {
        for opmode in opmodes {
            let mut clocks = Vec::new();
            for ab in lane_edges() {
                for c in lane_edges() {
                    for carry in [0, 1] {
                        let (a, b) = (ab >> 18, ab & ones(18));
                        clocks.push([a, b, c, 0, opmode, alumode, 0, 0, carry, 0, 0]);
                    }
                }
            }
            book.column("edges of the lanes", &side_by_side(at, clocks))?;
        }
    }
    Ok(())
}

/// A short running column of which the slices given may have short `A` lines.
fn may_be_short(random: &mut Random, height: u64, short: impl Fn(usize) -> bool) -> Column {
    let mut attributes: Vec<_> = (0..height).map(|_| draw::attributes(random)).collect();
    for (k, at) in attributes.iter_mut().enumerate() {
        if short(k) {
            at[at::USE_SIMD] = 0;
        } else if at[at::USE_MULT] == 0 {
            at[at::USE_SIMD] = random.within(1, 2);
        }
    }
    let mut growing = Growing::new(attributes);
    growing.grow(random, 2);
    growing.column
}

/// Every other slice, from the bottom.
pub fn alternate(k: usize) -> bool {
    k % 2 == 0
}

/// A column whose slices alternate between short and long `A` lines.
pub fn alternating(random: &mut Random, height: u64) -> Column {
    may_be_short(random, height, alternate)
}

/// Short and long `A` lines in every order.
fn lengths(book: &mut Book, random: &mut Random) -> io::Result<()> {
    for height in 1..=4 {
        for order in 0..1 << height {
            let short = |k: usize| order >> k & 1 == 1;
            let column = may_be_short(random, height, short);
            book.text("A lines of both lengths", &column.lines(short).concat(), "E 2")?;
        }
    }
    Ok(())
}

/// Every `A` line with too few numbers, with either right count, with too many.
fn wrong_lengths(book: &mut Book, random: &mut Random) -> io::Result<()> {
    for height in 1..=3 {
        let column = alternating(random, height);
        let lines = column.lines(alternate);
        for index in 1..=height as usize {
            for numbers in [0, 1, 11, 19, 20, 21, 22, 23, 24, 42, 43, 44] {
                let line = with_numbers(&lines[index], numbers);
                let text = [lines[..index].concat(), line, lines[index + 1..].concat()].concat();
                let right = [SHORT_A_LINE, SHORT_A_LINE + 1].contains(&numbers);
                let ending = if right { "E 2".into() } else { format!("R 12 0 {}", index + 1) };
                book.text(&format!("A line of {numbers} numbers"), &text, &ending)?;
            }
        }
    }
    Ok(())
}

/// A line with so many of its numbers, and zeros where it has no more.
pub fn with_numbers(line: &[u8], numbers: usize) -> Vec<u8> {
    let text = String::from_utf8_lossy(line);
    let mut fields: Vec<&str> = text.trim_end_matches('\n').split('\t').collect();
    fields.resize(1 + numbers, "0");
    (fields.join("\t") + "\n").into_bytes()
}
