//! Calls of packed and plain runs: every size and length, and rows whose low sum does not fit, or
//! only just does (02, Ask 6).

use std::io::{self, Write};

use crate::calls::stretch;
use crate::random::Random;

/// The places of a, d and b in the triples.
const A: usize = 0;
const D: usize = 1;
const B: usize = 2;

/// The stretches of a packed run, all of their right lengths at first.
pub struct Packed {
    terms: u64,
    rows: u64,
    triples: [Vec<i8>; 3],
    answers: Vec<i32>,
    list: Vec<u64>,
}

impl Packed {
    fn of(
        random: &mut Random,
        terms: u64,
        rows: u64,
        mut draw: impl FnMut(&mut Random) -> i8,
    ) -> Packed {
        let mut array = |random: &mut Random| (0..terms * rows).map(|_| draw(random)).collect();
        Packed {
            terms,
            rows,
            triples: [array(random), array(random), array(random)],
            answers: (0..2 * rows).map(|_| random.word() as i32).collect(),
            list: (0..rows + terms + 3).map(|_| random.word()).collect(),
        }
    }

    /// Writes the clocked run and the plain one of the same stretches.
    pub fn write(&self, out: &mut impl Write) -> io::Result<()> {
        let Packed { terms, rows, triples, answers, list } = self;
        let [a, d, b] = [A, D, B].map(|which| stretch(&triples[which]));
        let answers = stretch(answers);
        writeln!(out, "packed {terms} {rows} {a} {d} {b} {answers} {}", stretch(list))?;
        writeln!(out, "plain {terms} {rows} {a} {d} {b} {answers}")
    }

    /// Makes one of the five stretches a word too short, too long, or empty.
    fn misjudge(&mut self, which: u64, how: u64) {
        let length = |right: usize| [right - 1, right + 1, 0][how as usize];
        match which {
            0..=2 => {
                let array = &mut self.triples[which as usize];
                array.resize(length(array.len()), 1);
            }
            3 => self.answers.resize(length(self.answers.len()), 1),
            _ => self.list.resize(length(self.list.len()), 1),
        }
    }

    /// The numbers that a row has of a, of d or of b.
    fn row(&mut self, which: usize, row: u64) -> &mut [i8] {
        let terms = self.terms as usize;
        &mut self.triples[which][row as usize * terms..][..terms]
    }

    /// Makes all d and all b of a row -128: with 8 terms it is overfull.
    fn fill(&mut self, row: u64) {
        for which in [D, B] {
            self.row(which, row).fill(i8::MIN);
        }
    }

    /// Makes one d or one b of a row another number than -128.
    fn change_one(&mut self, random: &mut Random, row: u64) {
        let (which, place) = (random.pick(&[D, B]), random.below(self.terms) as usize);
        self.row(which, row)[place] = not_least(random);
    }
}

fn any_byte(random: &mut Random) -> i8 {
    random.word() as i8
}

fn edge_byte(random: &mut Random) -> i8 {
    random.pick(&[-128, 127, 0, 1, -1])
}

/// Any byte but -128.
fn not_least(random: &mut Random) -> i8 {
    (random.within(0, 254) as i16 - 127) as i8
}

/// Draws -128 in so many of a hundred cases, and else mostly a number that is next to it or at an
/// edge.
fn mostly_least(hundredths: u64) -> impl FnMut(&mut Random) -> i8 {
    move |random| {
        let others = [-127, 127, 0, any_byte(random)];
        if random.percent(hundredths) {
            -128
        } else {
            random.pick(&others)
        }
    }
}

/// Writes every sweep.
pub fn sweep(out: &mut impl Write, random: &mut Random) -> io::Result<()> {
    each_wrong_count(out, random)?;
    each_size(out, random)?;
    every_single_product(out)?;
    // The same rows fit with 7 terms and do not with 8.
    for terms in [7, 8] {
        each_set_of_rows(out, random, terms)?;
        each_place(out, random, terms)?;
        each_side(out, random, terms)?;
        each_line(out, random, terms)?;
    }
    each_far_row(out, random)?;
    each_order(out, random)
}

/// A random run; one in two of those with 8 terms is near the bound.
pub fn any(random: &mut Random) -> Packed {
    let terms = random.within(1, 8);
    let mut packed = if terms == 8 && random.percent(50) {
        near_the_bound(random)
    } else {
        let rows = random.within(1, 24);
        let draw = if random.percent(50) { any_byte } else { edge_byte };
        Packed::of(random, terms, rows, draw)
    };
    if random.percent(10) {
        let (which, how) = (random.below(5), random.below(3));
        packed.misjudge(which, how);
    }
    packed
}

/// Eight terms, mostly -128, in few rows half of the time: so both a run with an overfull row and
/// one without are common.
fn near_the_bound(random: &mut Random) -> Packed {
    let (most, hundredths) = (random.pick(&[2, 24]), random.pick(&[80, 90, 97, 99]));
    let rows = random.within(1, most);
    let mut packed = Packed::of(random, 8, rows, mostly_least(hundredths));
    if random.percent(50) {
        packed.triples[A].iter_mut().for_each(|a| *a = any_byte(random));
    }
    packed
}

/// Terms and rows that are refused, by a little and by far.
fn each_wrong_count(out: &mut impl Write, random: &mut Random) -> io::Result<()> {
    for (terms, rows) in [(0, 1), (9, 1), (1, 0), (1, 4097), (0, 0), (9, 4097)] {
        Packed::of(random, terms, rows, any_byte).write(out)?;
    }
    for huge in [9, 256, 257, 1 << 32, (1 << 32) + 1, 1 << 63, u64::MAX] {
        for (terms, rows) in [(huge, 1), (1, huge.max(1 << 13)), (huge, huge)] {
            writeln!(out, "packed {terms} {rows} 1 1 1 1 1 1 2 5 5 5 6 6 6 6 6")?;
            writeln!(out, "plain {terms} {rows} 1 1 1 1 1 1 2 5 5")?;
        }
    }
    Ok(())
}

/// Every number of terms with few rows and with many, and each length wrong by itself.
fn each_size(out: &mut impl Write, random: &mut Random) -> io::Result<()> {
    for terms in 1..=8 {
        for value in [-128, 127, 0, 1, -1] {
            Packed::of(random, terms, 2, |_| value).write(out)?;
        }
        for rows in [1, 2, 3, 8, 9] {
            Packed::of(random, terms, rows, any_byte).write(out)?;
            Packed::of(random, terms, rows, edge_byte).write(out)?;
            for which in 0..5 {
                for how in 0..3 {
                    let mut packed = Packed::of(random, terms, rows, any_byte);
                    packed.misjudge(which, how);
                    packed.write(out)?;
                }
            }
        }
    }
    for (terms, rows) in [(1, 4096), (7, 4096), (7, 4095), (8, 4096)] {
        Packed::of(random, terms, rows, any_byte).write(out)?;
    }
    Ok(())
}

/// All products of two bytes in one column, high and low alike.
fn every_single_product(out: &mut impl Write) -> io::Result<()> {
    for part in 0..16 {
        let pairs = (0..4096).map(|i| part * 4096 + i);
        let left: Vec<i8> = pairs.clone().map(|pair| (pair >> 8) as i8).collect();
        let right: Vec<i8> = pairs.map(|pair| (pair & 255) as i8).collect();
        let other: Vec<i8> = left.iter().rev().copied().collect();
        let packed = Packed {
            terms: 1,
            rows: 4096,
            triples: [left, other, right],
            answers: vec![0; 8192],
            list: vec![0; 4100],
        };
        packed.write(out)?;
    }
    Ok(())
}

/// Every set of up to 5 rows all -128, and of 9 rows each alone and each with all later ones. The
/// other rows are random, and then all -128 too but for one number.
fn each_set_of_rows(out: &mut impl Write, random: &mut Random, terms: u64) -> io::Result<()> {
    let small = (1..=5).flat_map(|rows| (1..1 << rows).map(move |set| (rows, set)));
    let nine = (0..9).flat_map(|row| [(9, 1 << row), (9, 0x1ff >> row << row)]);
    for (rows, set) in small.chain(nine) {
        for others_near in [false, true] {
            let mut packed = Packed::of(random, terms, rows, any_byte);
            for row in 0..rows {
                let in_set = set >> row & 1 == 1;
                if in_set || others_near {
                    packed.fill(row);
                }
                if !in_set && others_near {
                    packed.change_one(random, row);
                }
            }
            packed.write(out)?;
        }
    }
    Ok(())
}

/// A row all -128 but for one d or one b, at each place; last, all these rows in one run, and a row
/// behind them that is all -128.
fn each_place(out: &mut impl Write, random: &mut Random, terms: u64) -> io::Result<()> {
    let mut all = Packed::of(random, terms, 2 * terms + 2, any_byte);
    for place in 0..terms {
        for (side, which) in [D, B].into_iter().enumerate() {
            let any = not_least(random);
            for (rows, value) in [(1, -127), (1, 127), (2, 0), (3, any)] {
                let mut packed = Packed::of(random, terms, rows, any_byte);
                packed.fill(rows / 2);
                packed.row(which, rows / 2)[place as usize] = value;
                packed.write(out)?;
            }
            let row = 2 * place + side as u64;
            all.fill(row);
            all.row(which, row)[place as usize] = -127;
        }
    }
    all.fill(2 * terms);
    all.write(out)
}

/// Either d or b all -128, the other one at its other end and random; rows in which it is one and
/// then the other. Last, a at its ends and 0, in rows all -128 in b alone and in d too.
fn each_side(out: &mut impl Write, random: &mut Random, terms: u64) -> io::Result<()> {
    for which in [D, B] {
        let other = D + B - which;
        for rows in [1, 3] {
            for all_127 in [true, false] {
                let mut packed = Packed::of(random, terms, rows, any_byte);
                packed.triples[which].fill(-128);
                if all_127 {
                    packed.triples[other].fill(127);
                }
                packed.write(out)?;
            }
        }
        let mut packed = Packed::of(random, terms, 4, not_least);
        for row in 0..4 {
            let full = if row % 2 == 0 { which } else { other };
            packed.row(full, row).fill(-128);
        }
        packed.write(out)?;
    }
    for value in [-128, 127, 0] {
        let mut packed = Packed::of(random, terms, 2, any_byte);
        packed.triples[A].fill(value);
        packed.row(B, 0).fill(-128);
        packed.write(out)?;
        packed.fill(1);
        packed.write(out)?;
    }
    Ok(())
}

/// Eight d and eight b in a line that are -128, from the end of a row into the next one; and as
/// many as there may be without a whole row of them.
fn each_line(out: &mut impl Write, random: &mut Random, terms: u64) -> io::Result<()> {
    let terms = terms as usize;
    let eights = (1..terms).flat_map(|from| [(2, from, 8), (4, terms + from, 8)]);
    for (rows, from, length) in eights.chain([(2, 1, 2 * terms - 2)]) {
        let mut packed = Packed::of(random, terms as u64, rows, not_least);
        for which in [D, B] {
            packed.triples[which][from..][..length].fill(-128);
        }
        packed.write(out)?;
    }
    Ok(())
}

/// Overfull rows whose number takes more than a byte, the last of the most rows among them.
fn each_far_row(out: &mut impl Write, random: &mut Random) -> io::Result<()> {
    for (rows, row) in [(300, 255), (300, 256), (4096, 4095)] {
        let mut packed = Packed::of(random, 8, rows, any_byte);
        packed.fill(row);
        packed.write(out)?;
    }
    Ok(())
}

/// Overfull rows in runs that are refused for what comes first: a length, the rows, the terms.
fn each_order(out: &mut impl Write, random: &mut Random) -> io::Result<()> {
    for which in 0..5 {
        for how in 0..3 {
            // The first of several rows is whole also where the last number is missing.
            for (rows, full) in [(1, 1), (3, 1), (3, 3)] {
                let mut packed = Packed::of(random, 8, rows, any_byte);
                (0..full).for_each(|row| packed.fill(row));
                packed.misjudge(which, how);
                packed.write(out)?;
            }
        }
    }
    let mut packed = Packed::of(random, 8, 4097, any_byte);
    packed.fill(0);
    packed.fill(4096);
    packed.write(out)?;
    for rows in [1, 2, 9] {
        Packed::of(random, 9, rows, |_| -128).write(out)?;
    }
    Ok(())
}
