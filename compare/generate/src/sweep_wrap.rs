//! Sweeps: sums and differences at the ends of the pre-adder, by every way to it (02, Ask 4).

use std::io;

use crate::book::Book;
use crate::draw::{self, a_word, ports_with, Growing};
use crate::random::Random;
use crate::words::inmode::*;
use crate::words::*;
use crate::wrap_oracle::{beside, pattern, signed, BOTTOM, TOP};

pub fn write(book: &mut Book, random: &mut Random) -> io::Result<()> {
    each_way(book, random)?;
    without_load(book, random)?;
    handed_up(book, random)
}

/// What meets at a pre-adder in one clock; INMODE is without the bit that takes A1.
#[derive(Clone, Copy)]
pub struct Case {
    pub a: i64,
    pub d: i64,
    pub inmode: u64,
}

impl Case {
    pub fn of(a: i64, (d, subtracts): (i64, bool)) -> Case {
        Case { a, d, inmode: if subtracts { TAKES_D | SUBTRACTS } else { TAKES_D } }
    }
}

/// The ends reached and passed from many sides, each time followed by the same without a or d.
pub fn cases(random: &mut Random) -> Vec<Case> {
    let any = random.within(2, TOP as u64 - 1) as i64;
    let mut cases = Vec::new();
    for a in [1, -1, TOP, BOTTOM, any, -any] {
        for given in beside(a) {
            let case = Case::of(a, given);
            let left_out = random.pick(&[TAKES_D, CLEARS_A]);
            cases.extend([case, Case { inmode: case.inmode ^ left_out, ..case }]);
        }
    }
    cases
}

/// How A, D and INMODE come to a pre-adder, and what stands behind it.
#[derive(Clone, Copy)]
pub struct Way {
    stages: u64,
    cascade: u64,
    pub takes_a1: bool,
    dreg: u64,
    inmodereg: u64,
    adreg: u64,
    use_mult: u64,
}

/// Depths of A and of its cascade, and whether A1 is taken, which depth 0 forbids.
const STAGES: [(u64, u64, bool); 7] = [
    (0, 0, false),
    (1, 1, false),
    (1, 1, true),
    (2, 1, false),
    (2, 1, true),
    (2, 2, false),
    (2, 2, true),
];

/// Every way but for the source of the A input.
pub fn ways() -> Vec<Way> {
    let settings = |(stages, cascade, takes_a1)| {
        (0..16).map(move |bits: u64| {
            let [dreg, inmodereg, adreg, use_mult] = [3, 2, 1, 0].map(|bit| bits >> bit & 1);
            Way { stages, cascade, takes_a1, dreg, inmodereg, adreg, use_mult }
        })
    };
    STAGES.into_iter().flat_map(settings).collect()
}

impl Way {
    /// A slice with this way; all else is drawn.
    pub fn attributes(&self, random: &mut Random, a_input: u64) -> Attributes {
        let mut at = draw::attributes(random);
        (at[at::AREG], at[at::ACASCREG], at[at::A_INPUT]) = (self.stages, self.cascade, a_input);
        (at[at::DREG], at[at::INMODEREG]) = (self.dreg, self.inmodereg);
        (at[at::ADREG], at[at::USE_MULT], at[at::AMULTSEL]) = (self.adreg, self.use_mult, 1);
        at[at::USE_SIMD] = if self.use_mult == 1 { 0 } else { random.below(3) };
        at
    }

    /// INMODE of a case that comes this way.
    pub fn inmode(&self, case: &Case) -> u64 {
        case.inmode | if self.takes_a1 { TAKES_A1 } else { 0 }
    }

    /// Whether a register holds what the slice hands up.
    pub fn registers_a(&self) -> bool {
        self.stages > 0
    }

    pub fn hands_up_a1(&self) -> bool {
        (self.stages, self.cascade) == (2, 1)
    }

    /// The clocks from the A input to the pre-adder.
    fn delay(&self) -> u64 {
        if self.takes_a1 {
            1
        } else {
            self.stages
        }
    }
}

/// Slices of these ways, each with its cases; those above the lowest take A from below, so the
/// cases that are in one place have one a.
struct Stack {
    ways: Vec<Way>,
    cases: Vec<Vec<Case>>,
}

impl Stack {
    /// The listing in which the words of each case meet, however long each is on its way. The
    /// clocks' enables and resets are drawn from those given.
    fn column(&self, random: &mut Random, lines: &[(u64, u64)]) -> Column {
        let slices = self.ways.iter().enumerate();
        let slices = slices.map(|(k, way)| way.attributes(random, u64::from(k > 0))).collect();
        let mut growing = Growing::new(slices);
        let clocks = self.cases[0].len() as u64 + 1 + self.delay(self.ways.len() - 1);
        for clock in 0..clocks {
            let (ce, rst) = random.pick(lines);
            let at = growing.column.attributes.clone();
            let held = growing.held.clone();
            let ports = (0..at.len()).map(|k| {
                let drawn = ports_with(random, &at[k], held[k], ce, rst);
                self.ports(random, k, clock, drawn)
            });
            growing.push(ports.collect());
        }
        growing.column
    }

    /// The clocks from the lowest A input to a pre-adder.
    fn delay(&self, slice: usize) -> u64 {
        let below: u64 = self.ways[..slice].iter().map(|way| way.cascade).sum();
        below + self.ways[slice].delay()
    }

    /// Gives A, D and INMODE of a slice in time for its cases. A comes a clock late, so that D and
    /// INMODE may come before it.
    fn ports(&self, random: &mut Random, slice: usize, clock: u64, drawn: Ports) -> Ports {
        let (way, delay) = (&self.ways[slice], self.delay(slice));
        let meets_after = |clocks: u64| {
            let place = (clock + clocks).checked_sub(1 + delay)?;
            self.cases[slice].get(place as usize)
        };
        let mut po = drawn;
        if let (0, Some(case)) = (slice, meets_after(delay)) {
            po[po::A] = a_word(random, case.a);
        }
        if let Some(case) = meets_after(way.dreg) {
            po[po::D] = pattern(case.d);
        }
        po[po::INMODE] = meets_after(way.inmodereg).map_or(0, |case| way.inmode(case));
        po
    }
}

/// All cases by every way, from the port and over a cascade.
fn each_way(book: &mut Book, random: &mut Random) -> io::Result<()> {
    for way in ways() {
        for slices in 1..=2 {
            let stack = Stack { ways: vec![way; slices], cases: vec![cases(random); slices] };
            let column = stack.column(random, &[(CE_ALL, 0)]);
            book.column("ends of the pre-adder", &column)?;
        }
    }
    Ok(())
}

/// All cases while AD is loaded, kept and cleared, which is after the mark.
fn without_load(book: &mut Book, random: &mut Random) -> io::Result<()> {
    let lines = [(CE_ALL, 0), (CE_ALL ^ CE_AD, 0), (CE_ALL, RST_D), (0, RST_D)];
    // What is registered before the pre-adder would be kept and cleared as well.
    for way in ways().into_iter().filter(|way| way.stages + way.dreg + way.inmodereg == 0) {
        for _ in 0..2 {
            let stack = Stack { ways: vec![way], cases: vec![cases(random)] };
            book.column("ends of the pre-adder, AD not loaded", &stack.column(random, &lines))?;
        }
    }
    Ok(())
}

/// Tall columns through which a goes up, and in each slice meets a d of its own.
fn handed_up(book: &mut Book, random: &mut Random) -> io::Result<()> {
    let all = ways();
    for slices in [3, 8, 16, 24] {
        for (stages, cascade) in [(0, 0), (1, 1), (2, 1), (2, 2)] {
            let alike = |way: &&Way| (way.stages, way.cascade) == (stages, cascade);
            let like: Vec<Way> = all.iter().filter(alike).copied().collect();
            let sides: Vec<i64> = (0..12).map(|_| signed(draw::word(random, 27), 27)).collect();
            let mut cases = |_| {
                let given = sides.iter().map(|a| Case::of(*a, random.pick(&beside(*a))));
                given.collect()
            };
            let cases = (0..slices).map(&mut cases).collect();
            let ways = (0..slices).map(|_| random.pick(&like)).collect();
            let column = Stack { ways, cases }.column(random, &[(CE_ALL, 0)]);
            book.column("ends of the pre-adder, a handed up", &column)?;
        }
    }
    Ok(())
}
