//! Sweeps: the edges of every width, through multiplier, unit and shift.

use std::io;

use crate::book::Book;
use crate::draw::LOGIC_MODES;
use crate::sweep_lanes::side_by_side;
use crate::words::*;

pub fn write(book: &mut Book) -> io::Result<()> {
    products(book)?;
    sums(book)?;
    logic(book)?;
    shifts(book)?;
    signs(book)
}

/// A column of one kind of clock each, all registers bypassed but as given.
fn column(attributes: Vec<Attributes>, clocks: Vec<Vec<Ports>>) -> Column {
    Column { attributes, clocks }
}

fn attributes(ones: &[usize]) -> Attributes {
    let mut at = [0; 22];
    ones.iter().for_each(|word| at[*word] = 1);
    at
}

/// Every pre-adder and multiplier edge, with and without the pre-adder.
fn products(book: &mut Book) -> io::Result<()> {
    let mut a_edges = edges(30).to_vec();
    a_edges.extend(edges(27));
    a_edges.extend([1 << 27, (1 << 27) + 1]);
    for inmode in [0, 2, 4, 6, 8, 10, 12, 14] {
        for d in edges(27) {
            let mut clocks = Vec::new();
            for a in &a_edges {
                for b in edges(18) {
                    clocks.push(vec![[*a, b, 0, d, 5, 0, inmode, 0, 0, 0, 0]]);
                }
            }
            let at = attributes(&[at::USE_MULT, at::AMULTSEL]);
            book.column("edges of the product", &column(vec![at], clocks.clone()))?;
            if inmode & 12 == 0 {
                let at = attributes(&[at::USE_MULT]);
                book.column("edges of the product", &column(vec![at], clocks))?;
            }
        }
    }
    Ok(())
}

/// Every sum of edges in the four arithmetic modes, in each setting of lanes.
fn sums(book: &mut Book) -> io::Result<()> {
    for alumode in 0..4 {
        for rnd in edges(48) {
            let mut clocks = Vec::new();
            for ab in edges(48) {
                for c in edges(48) {
                    for (y, carry) in [(0, 0), (2, 0), (0, 1), (2, 1), (3, 0), (3, 1)] {
                        let opmode = 2 << 7 | 3 << 4 | y << 2 | 3;
                        let (a, b) = (ab >> 18, ab & ones(18));
                        clocks.push([a, b, c, 0, opmode, alumode, 0, 0, carry, 0, 0]);
                    }
                }
            }
            let mut at = [0; 22];
            at[at::RND] = rnd;
            book.column("edges of the sum", &side_by_side(at, clocks))?;
        }
    }
    Ok(())
}

/// Every logic mode over edges and over words that hold all bit pairs, in each
/// setting of lanes, which must not matter.
fn logic(book: &mut Book) -> io::Result<()> {
    let mut words = edges(48).to_vec();
    words.extend([0xaaaa_aaaa_aaaa, 0xcccc_cccc_cccc, 0x00ff_00ff_00ff]);
    for alumode in LOGIC_MODES {
        for y in [0, 2] {
            let mut clocks = Vec::new();
            for x in &words {
                for z in &words {
                    for carry in [0, 1] {
                        let opmode = 3 << 4 | y << 2 | 3;
                        let (a, b) = (x >> 18, x & ones(18));
                        clocks.push([a, b, *z, 0, opmode, alumode, 0, 0, carry, 0, 0]);
                    }
                }
            }
            book.column("edges of the logic", &side_by_side([0; 22], clocks))?;
        }
    }
    Ok(())
}

/// Words with one bit, and with all but one.
fn single_bits() -> Vec<u64> {
    (0..48).flat_map(|bit| [1 << bit, ones(48) ^ 1 << bit]).collect()
}

/// The shift by 17 of PCIN, and of P, which knows no lanes.
fn shifts(book: &mut Book) -> io::Result<()> {
    for simd in 0..3 {
        shifts_in(book, simd)?;
    }
    Ok(())
}

fn shifts_in(book: &mut Book, simd: u64) -> io::Result<()> {
    let words: Vec<u64> = edges(48).into_iter().chain(single_bits()).collect();
    let mut at = [0; 22];
    at[at::USE_SIMD] = simd;
    let show_c = |c: u64| [0, 0, c, 0, 3 << 4, 0, 0, 0, 0, 0, 0];
    let of_pcin = words.iter().map(|c| vec![show_c(*c), [0, 0, 0, 0, 5 << 4, 0, 0, 0, 0, 0, 0]]);
    book.column("shift of PCIN", &column(vec![[0; 22], at], of_pcin.collect()))?;
    let load = |c: u64| vec![[0, 0, c, 0, 3 << 4, 0, 0, 0, 0, CE_ALL, 0]];
    let shift = vec![[0, 0, 0, 0, 6 << 4, 0, 0, 0, 0, CE_ALL, 0]];
    let of_p = words.iter().flat_map(|c| [load(*c), shift.clone(), shift.clone(), shift.clone()]);
    let mut clocks: Vec<_> = of_p.collect();
    // One clock more to show what the last one made.
    clocks.push(shift);
    at[at::PREG] = 1;
    book.column("shift of P", &column(vec![at], clocks))
}

/// Carries from the signs of PCIN and P, in the four arithmetic modes. They are
/// bit 47 in each setting of lanes, and no carry of the slice below.
fn signs(book: &mut Book) -> io::Result<()> {
    let words: Vec<u64> = edges(48).into_iter().chain([1 << 11, 1 << 23, 1 << 35]).collect();
    for alumode in 0..4 {
        for carryinsel in [0, 1, 2, 3, 5, 7] {
            let mut clocks = Vec::new();
            for c in &words {
                for carry in [0, 1] {
                    let below = [0, 0, *c, 0, 3 << 4, 0, 0, 0, 0, CE_ALL, 0];
                    let own = [0, 0, *c, 0, 3 << 4, alumode, 0, carryinsel, carry, CE_ALL, 0];
                    clocks.push(vec![below, own]);
                }
            }
            let below = attributes(&[at::PREG]);
            for simd in 0..3 {
                let mut at = below;
                at[at::USE_SIMD] = simd;
                book.column("signs as carries", &column(vec![below, at], clocks.clone()))?;
            }
        }
    }
    Ok(())
}
