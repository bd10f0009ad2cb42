//! Columns whose slices add numbers wider than one of them (02, Ask 7), as listings and as calls.

use std::io::{self, Write};

use crate::book::Book;
use crate::calls::Clock;
use crate::draw::{self, Growing};
use crate::oracle::loaded;
use crate::random::Random;
use crate::words::*;

/// Two wide numbers, part by part from the lowest.
type Numbers = Vec<[u64; 2]>;

/// How numbers are drawn.
#[derive(Clone, Copy)]
enum Sort {
    Any,
    Edges,
    AllOnesAndOne,
    AllOnesTwice,
    SumAllOnes,
    CarryThrough,
    NoCarry,
    LowCarry,
    HighCarry,
}
use Sort::*;

const SORTS: [Sort; 9] = [
    Any,
    Edges,
    AllOnesAndOne,
    AllOnesTwice,
    SumAllOnes,
    CarryThrough,
    NoCarry,
    LowCarry,
    HighCarry,
];

impl Sort {
    /// The parts that one of so many slices adds.
    fn part(self, random: &mut Random, slice: usize, slices: usize) -> [u64; 2] {
        let (lowest, highest) = (slice == 0, slice == slices - 1);
        let [x, z] = [(); 2].map(|()| random.word() & ones(48));
        let (small, large) = ([x >> 1, z >> 1], [x | 1 << 47, z | 1 << 47]);
        match self {
            Any => [x, z],
            Edges => [draw::word(random, 48), draw::word(random, 48)],
            AllOnesAndOne => [ones(48), u64::from(lowest)],
            AllOnesTwice => [ones(48); 2],
            SumAllOnes => [x, ones(48) - x],
            CarryThrough if lowest => [x.max(1), (1 << 48) - x.max(1)],
            CarryThrough => [x, ones(48) - x],
            LowCarry if lowest => large,
            HighCarry if highest => large,
            NoCarry | LowCarry | HighCarry => small,
        }
    }

    fn numbers(self, random: &mut Random, slices: usize) -> Numbers {
        let mut numbers: Numbers = (0..slices).map(|k| self.part(random, k, slices)).collect();
        if random.percent(50) {
            numbers.iter_mut().for_each(|part| part.reverse());
        }
        numbers
    }
}

/// Sums for slices one above the other: the lowest one begins one a clock, or pauses.
struct Job {
    lowest: usize,
    slices: usize,
    sums: Vec<Option<Numbers>>,
}

impl Job {
    fn new(random: &mut Random, lowest: usize, slices: usize, sorts: &[Option<Sort>]) -> Job {
        let mut draw = |sort: &Option<Sort>| sort.map(|sort| sort.numbers(random, slices));
        Job { lowest, slices, sums: sorts.iter().map(&mut draw).collect() }
    }

    /// The parts that one of its slices adds in a clock.
    fn part(&self, slice: usize, clock: usize) -> Option<[u64; 2]> {
        let sum = self.sums.get(clock.checked_sub(slice)?)?;
        sum.as_ref().map(|numbers| numbers[slice])
    }
}

/// Attributes with PREG 1 and no other register.
fn p_alone(random: &mut Random) -> Attributes {
    let mut at = [0; 22];
    at[at::PREG] = 1;
    (at[at::USE_MULT], at[at::AMULTSEL]) = (random.below(2), random.below(2));
    at[at::RND] = draw::word(random, 48);
    (at[at::PATTERN], at[at::MASK]) = draw::detector(random);
    at
}

/// Has a slice add; of its enables and resets those of P are set, and AD and M do not load.
fn add(po: &mut Ports, [x, z]: [u64; 2], carryinsel: u64, carryin: u64) {
    po[po::A..=po::C].copy_from_slice(&[x >> 18, x & ones(18), z]);
    (po[po::OPMODE], po[po::ALUMODE]) = (ADDS_AB_AND_C, 0);
    (po[po::CARRYINSEL], po[po::CARRYIN]) = (carryinsel, carryin);
    po[po::CE] = (po[po::CE] | CE_P) & !(CE_AD | CE_M);
    po[po::RST] &= !RST_P;
}

/// A column that does these jobs; slices without one add what is drawn.
fn column(random: &mut Random, height: usize, jobs: &[Job]) -> Column {
    let mut growing = Growing::new((0..height).map(|_| p_alone(random)).collect());
    let clocks = jobs.iter().map(|job| job.sums.len() + job.slices).max().unwrap_or(0);
    for clock in 0..clocks {
        let mut ports = growing.draw(random);
        for po in &mut ports {
            let any = Any.part(random, 0, 1);
            add(po, any, random.pick(&[0, 2]), random.below(2));
        }
        for job in jobs {
            for slice in 0..job.slices {
                let Some(part) = job.part(slice, clock) else { continue };
                // Above the lowest slice CARRYIN is not taken, and may be anything.
                let (select, carryin) = if slice == 0 { (0, 0) } else { (2, random.below(2)) };
                add(&mut ports[job.lowest + slice], part, select, carryin);
            }
        }
        growing.push(ports);
    }
    growing.column
}

/// Sums of 96 bits: each sort with pauses and with none, and every two slices of a full column.
fn of_two(random: &mut Random) -> Vec<Column> {
    let mut columns = Vec::new();
    for sort in SORTS {
        let other = random.pick(&SORTS);
        for sorts in [&[Some(sort), None, Some(sort)], &[Some(sort), Some(other), Some(sort)]] {
            let job = Job::new(random, 0, 2, sorts);
            columns.push(column(random, 2, &[job]));
        }
    }
    let turns = [NoCarry, NoCarry, LowCarry, CarryThrough, HighCarry].map(Some);
    for first in [0, 1] {
        let lowest = (first..FULL - 1).step_by(2);
        let jobs: Vec<Job> = lowest.map(|slice| Job::new(random, slice, 2, &turns)).collect();
        columns.push(column(random, FULL, &jobs));
    }
    columns
}

/// Sums over three slices and more, up to a full column.
fn of_more(random: &mut Random) -> Vec<Column> {
    let mut columns = Vec::new();
    for slices in 3..=FULL {
        let sorts = [CarryThrough, NoCarry, random.pick(&SORTS)].map(Some);
        let height = random.within(slices as u64, FULL as u64) as usize;
        let lowest = random.below((height - slices) as u64 + 1) as usize;
        let job = Job::new(random, lowest, slices, &sorts);
        columns.push(column(random, height, &[job]));
    }
    columns
}

/// A random column, mostly small, in which each slice may have a job with those above it.
pub fn any(random: &mut Random) -> Column {
    let height = draw::height(random).max(2) as usize;
    let mut jobs = Vec::new();
    let mut lowest = random.below(2) as usize;
    while lowest + 1 < height {
        let slices = random.within(2, (height - lowest).min(4) as u64) as usize;
        let count = random.within(1, 4);
        let mut sort = |_| random.percent(80).then(|| random.pick(&SORTS));
        let sorts: Vec<Option<Sort>> = (0..count).map(&mut sort).collect();
        jobs.push(Job::new(random, lowest, slices, &sorts));
        lowest += slices;
    }
    if jobs.is_empty() {
        jobs.push(Job::new(random, 0, 2, &[Some(Any)]));
    }
    column(random, height, &jobs)
}

pub fn write(book: &mut Book, random: &mut Random) -> io::Result<()> {
    for column in [of_two(random), of_more(random)].concat() {
        book.column("wide sums", &column)?;
    }
    Ok(())
}

/// Writes the same columns as calls.
pub fn sweep(out: &mut impl Write, random: &mut Random) -> io::Result<()> {
    for column in [of_two(random), of_more(random)].concat() {
        write_calls(out, random, &column)?;
    }
    Ok(())
}

/// Writes a random one as calls.
pub fn any_calls(out: &mut impl Write, random: &mut Random) -> io::Result<()> {
    let column = any(random);
    write_calls(out, random, &column)
}

/// Writes the clocks of such a column as calls, each with the registers that the one before leaves.
fn write_calls(out: &mut impl Write, random: &mut Random, column: &Column) -> io::Result<()> {
    let mut clock = Clock::of(random, &column.attributes);
    for ports in &column.clocks {
        clock.ports = ports.concat();
        clock.outputs.iter_mut().for_each(|word| *word = random.word());
        clock.write(out)?;
        let before = clock.clone();
        for (k, at) in column.attributes.iter().enumerate() {
            let below =
                k.checked_sub(1).map_or(0, |k| before.registers[k * REGISTER_WORDS + rg::CARRY]);
            load(at, clock.held(k), &ports[k], below);
        }
    }
    Ok(())
}

/// The registers that load a port, and by which enable and reset.
const FROM_PORTS: [(usize, usize, u64, u64); 11] = [
    (rg::A1, po::A, CE_A1, RST_A),
    (rg::A2, po::A, CE_A2, RST_A),
    (rg::B1, po::B, CE_B1, RST_B),
    (rg::B2, po::B, CE_B2, RST_B),
    (rg::C, po::C, CE_C, RST_C),
    (rg::D, po::D, CE_D, RST_D),
    (rg::OPMODE, po::OPMODE, CE_CTRL, RST_CTRL),
    (rg::ALUMODE, po::ALUMODE, CE_ALUMODE, RST_ALUMODE),
    (rg::INMODE, po::INMODE, CE_INMODE, RST_INMODE),
    (rg::CARRYINSEL, po::CARRYINSEL, CE_CTRL, RST_CTRL),
    (rg::CARRYIN, po::CARRYIN, CE_CARRYIN, RST_ALLCARRYIN),
];

/// Loads the registers of a slice that adds; `below` is the carry that it gets.
fn load(at: &Attributes, held: &mut [u64], po: &Ports, below: u64) {
    let cin = if po[po::CARRYINSEL] == 2 { below } else { po[po::CARRYIN] };
    let sum = (po[po::A] << 18 | po[po::B]) + po[po::C] + cin;
    let read = ones(48) ^ at[at::MASK];
    let differs = (sum ^ at[at::PATTERN]) & read;
    (held[rg::PDPAST], held[rg::PBDPAST]) = (held[rg::PD], held[rg::PBD]);
    (held[rg::PD], held[rg::PBD]) = (u64::from(differs == 0), u64::from(differs == read));
    (held[rg::P], held[rg::CARRY]) = (sum & ones(48), sum >> 48);
    for (register, port, ce, rst) in FROM_PORTS {
        held[register] = loaded(po, held[register], po[port], ce, rst);
    }
    // These are kept, unless they are cleared.
    for (register, ce, rst) in [(rg::AD, CE_AD, RST_D), (rg::M, CE_M, RST_M)] {
        held[register] = loaded(po, held[register], held[register], ce, rst);
    }
}
